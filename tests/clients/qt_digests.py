#!/usr/bin/env python3
"""Compares hashes by Qt's QCryptographicHash, which finds libb2.so.1 by LD_LIBRARY_PATH, with those by hashlib, and
prints how many are right: of messages of 0 to 399 bytes in two pieces, with the result after each. Qt finishes a copy
of libb2's state for a result.

    tests/clients/qt_digests.py LIBRARY
"""
import ctypes
import hashlib
import sys

# The first value of QCryptographicHash::Algorithm for each hash, and the lengths of the digests from that on.
KINDS = {"blake2b": (15, (20, 32, 48, 64)), "blake2s": (19, (16, 20, 28, 32))}


class ByteArrayView(ctypes.Structure):
    """A QByteArrayView."""
    _fields_ = [("size", ctypes.c_ssize_t), ("data", ctypes.c_void_p)]


def digest_after_each_piece(library, kind, pieces):
    """The result after each piece, by the functions of the class under their names in the library."""
    hasher = ctypes.create_string_buffer(64)
    library._ZN18QCryptographicHashC1ENS_9AlgorithmE(hasher, kind)
    for piece in pieces:
        data = ctypes.create_string_buffer(piece, len(piece) + 1)
        library._ZN18QCryptographicHash7addDataE14QByteArrayView(hasher,
                                                                 ByteArrayView(len(piece), ctypes.addressof(data)))
        found = library._ZNK18QCryptographicHash10resultViewEv(hasher)
        yield ctypes.string_at(found.data, found.size)
    library._ZN18QCryptographicHashD1Ev(hasher)


def main():
    library = ctypes.CDLL(sys.argv[1])
    library._ZNK18QCryptographicHash10resultViewEv.restype = ByteArrayView
    found = []
    for name, (first, sizes) in KINDS.items():
        for kind, size in enumerate(sizes, first):
            for length in range(400):
                message, part = bytes(index % 251 for index in range(length)), length * 5 // 9
                wanted = [getattr(hashlib, name)(text, digest_size=size).digest() for text in (message[:part], message)]
                found += map(bytes.__eq__, digest_after_each_piece(library, kind, (message[:part], message[part:])),
                             wanted)
    print(f"{found.count(True)} right, {found.count(False)} wrong")


main()
