#!/usr/bin/env python3
"""Prints, as declarations in C, what tests/key_scan/scan.c looks for: a key of the maximum length, a message of so
many bytes, and for each family the tag (by Python's hashlib) and the chaining words that the last compression of the
keyed hash begins with, where they come from more than the parameters.

usage: tests/key_scan/secret_values.py LENGTH
"""
import hashlib
import os
import sys

sys.path.insert(0, os.path.dirname(os.path.dirname(os.path.abspath(__file__))))
from b2_model import B, S, Input, bytes_from_words, transcript_and_digest  # noqa: E402


def c_array_declaration(name, data):
    """An array of these bytes, and a zero behind them, since C has no empty one."""
    return f"static const uint8_t {name}[] = {{{', '.join(map(str, data + bytes(1)))}}};"


def chaining_bytes_before_last_block(family, size, message, key):
    """The chaining words before the last step, as bytes, where a step stands before it."""
    made, _ = transcript_and_digest(family, size, Input(message, key))
    return bytes_from_words(family, made[-1][0]) if len(made) > 1 else b""


def main(length):
    key = bytes((0xA5 ^ i * 37 ^ i * i) & 255 for i in range(64))
    message = bytes(i * 11 + 3 + (i >> 4) * 5 & 255 for i in range(length))
    print(f"enum {{ LENGTH = {length} }};")
    print(c_array_declaration("key", key))
    print(c_array_declaration("message", message))
    for name, family in (("b", B), ("s", S)):
        key_of_family = key[:family.key]
        chain = chaining_bytes_before_last_block(family, family.digest, message, key_of_family)
        print(c_array_declaration("tag_" + name,
                                  getattr(hashlib, "blake2" + name)(message, key=key_of_family).digest()))
        print(c_array_declaration("chain_" + name, chain))
        print(f"enum {{ CHAIN_{name.upper()} = {len(chain)} }};")


if __name__ == "__main__":
    main(int(sys.argv[1]))
