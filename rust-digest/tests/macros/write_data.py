#!/usr/bin/env python3
"""Writes the cases of the tests of macros.rs, by Python's hashlib and hmac, in the format of the crate blobby.

    rust-digest/tests/macros/write_data.py FOLDER/rust-digest/tests/macros [wrong]

With `wrong` a bit of each digest is another, and each test has to fail.
"""
import hashlib
import hmac
import os
import random
import sys

BLAKE2 = {"b": hashlib.blake2b, "s": hashlib.blake2s}
LENGTHS = 0, 1, 2, 31, 63, 64, 65, 127, 128, 129, 255, 256, 257, 500


def number(value):
    """A number of blobby, by groups of 7 bits."""
    found = [value & 127]
    while value := value >> 7:
        value -= 1
        found.insert(0, value & 127 | 128)
    return bytes(found)


def rows(rng):
    """The cases of each file: the fields of each of its rows."""
    messages = [rng.randbytes(length) for length in LENGTHS]
    for letter, make in BLAKE2.items():
        longest = make().digest_size
        for size in (20, longest):
            yield f"{letter}{size}", [(message, make(message, digest_size=size).digest()) for message in messages]
        yield f"{letter}_all", [(message, make(message, digest_size=size).digest())
                                for size in range(1, longest + 1) for message in [rng.choice(messages)]]
        tags = [(key, message, make(message, key=key).digest())
                for message in messages for key in [rng.randbytes(rng.randint(1, longest))]]
        yield f"{letter}_mac", tags
        yield f"{letter}_left", [(key, message, tag[:7]) for key, message, tag in tags]
        yield f"{letter}_right", [(key, message, tag[-7:]) for key, message, tag in tags]
        yield f"{letter}_hmac", [(key, message, hmac.digest(key, message, make().name)) for key, message, _ in tags]


def main():
    folder = os.path.join(sys.argv[1], "tests/data")
    os.makedirs(folder, exist_ok=True)
    for name, cases in rows(random.Random(2012)):
        with open(f"{folder}/{name}.blb", "wb") as file:
            file.write(number(0))
            for *fields, digest in cases:
                if sys.argv[2:] == ["wrong"]:
                    digest = digest[:-1] + bytes([digest[-1] ^ 1])
                for field in (*fields, digest):
                    file.write(number(2 * len(field)) + field)


main()
