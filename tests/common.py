"""What the scripts of tests share: the two families of BLAKE2, the KINDs of `b2`, the command line, and what
tools/read_sources.py reads. Not a program.
"""
import argparse
import hashlib
import os
import sys
from dataclasses import dataclass
from typing import Callable

sys.path.append(os.path.join(os.path.dirname(os.path.abspath(__file__)), "..", "tools"))
from read_sources import TOP, Unreadable, read, version  # noqa: E402, F401


@dataclass(frozen=True)
class FamilySizes:
    """The numbers of a family that its callers meet (RFC 7693, 2.1; the BLAKE2 document, 2.8), in bytes."""
    function: Callable  # of hashlib
    block: int
    key: int  # the longest key; the longest output is as long
    salt: int  # the longest salt, and the longest persona


FAMILIES = {"b": FamilySizes(hashlib.blake2b, 128, 64, 16), "s": FamilySizes(hashlib.blake2s, 64, 32, 8)}

# The KINDs that more commands than `witness` accept: the family's letter, and the bytes of the digest.
KINDS = {"b128": ("b", 16), "b256": ("b", 32), "b512": ("b", 64), "s128": ("s", 16), "s256": ("s", 32)}


class Parser(argparse.ArgumentParser):
    """A parser that reports wrong arguments in one line, with status 2."""

    def error(self, message):
        self.exit(2, f"{self.prog}: {message} (--help says what it accepts)\n")


def at_least(least):
    """Reads an argument that is a whole number, and not below this one."""
    def whole_number(text):
        if not text.isdecimal() or int(text) < least:
            raise argparse.ArgumentTypeError(f"{text!r} is not a whole number of at least {least}")
        return int(text)
    return whole_number
