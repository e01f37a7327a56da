#!/usr/bin/env python3
"""Compares Argon2 of one shared library with that of another, over random arguments, and prints how many are the same.

    tests/clients/argon2_rounds.py LIBRARY OTHER
"""
import ctypes
import random
import sys


def raw_hash_or_error(library, arguments):
    """The raw hash, or the error."""
    kind, passes, memory, lanes, password, salt, size = arguments
    out = ctypes.create_string_buffer(size)
    status = library.argon2_hash(passes, memory, lanes, password, ctypes.c_size_t(len(password)), salt,
                                 ctypes.c_size_t(len(salt)), out, ctypes.c_size_t(size), None, ctypes.c_size_t(0),
                                 kind, 0x13)
    return status, out.raw


def main():
    ours, theirs = (ctypes.CDLL(path) for path in sys.argv[1:])
    rng, same, wrong = random.Random(9106), 0, 0
    for turn in range(300):
        lanes = rng.randint(1, 4)
        arguments = (turn % 3, rng.randint(1, 3), rng.randint(8 * lanes, 80), lanes, rng.randbytes(rng.randint(0, 200)),
                     rng.randbytes(rng.randint(8, 80)), rng.choice((4, 31, 32, 63, 64, 65, 96, 127, 128, 129, 1000)))
        status, out = raw_hash_or_error(theirs, arguments)
        if status:
            sys.exit(f"Argon2 returned {status} for {arguments}")
        is_same = raw_hash_or_error(ours, arguments) == (0, out)
        same, wrong = same + is_same, wrong + (not is_same)
    print(f"{same} the same, {wrong} different")


main()
