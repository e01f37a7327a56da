"""BLAKE2b of the shared library by ctypes, without the package in python/: ctypes_hash.py LIBRARY

LIBRARY is the path of libvulfsjor.so, with a slash. The functions vulfsjor_ffi_* accept no null pointer.
"""
import ctypes
import sys

library = ctypes.CDLL(sys.argv[1])
library.vulfsjor_ffi_blake2b.argtypes = [ctypes.c_char_p, ctypes.c_size_t] * 3


def blake2b(message, size=64, key=b""):
    """Returns the digest in `size` bytes, 1 to 64, under a key of 0 to 64 bytes, 0 for none.

    Raises TypeError for a str, and ValueError for a length that BLAKE2b does not have.
    """
    message, key = bytes(memoryview(message)), bytes(memoryview(key))
    out = ctypes.create_string_buffer(size)
    if library.vulfsjor_ffi_blake2b(out, size, message, len(message), key, len(key)):
        raise ValueError("a length that BLAKE2b does not have")
    return out.raw


print(blake2b(b"hello world", 32, b"key").hex())
