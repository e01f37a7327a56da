"""States of BLAKE2b and BLAKE2s as section 14 of docs/SPECIFICATION.md saves them, over the compression of
tests/b2_model.py. Not a program."""
import os
import sys
from typing import NamedTuple

sys.path.insert(0, os.path.join(os.path.dirname(os.path.abspath(__file__)), ".."))
from b2_model import Family, bytes_from_words, compress, parameter_words, words_from_bytes  # noqa: E402

NAMES = {64: b"BLAKE2b", 32: b"BLAKE2s"}  # by the bits of a word
VERSION = 1


class SavedState(NamedTuple):
    """A state. A block is compressed when a byte follows it, so that up to a whole block is pending."""
    family: Family
    chain: list
    first: list
    counter: int
    size: int
    last: int = 0
    pending: bytes = b""

    def after_message(self, message):
        data, block, run = self.pending + message, self.family.block, self
        count = max(0, len(data) - 1) // block
        for at in range(0, count * block, block):
            counter = run.counter + block
            run = run._replace(chain=compress(self.family, run.chain, (data[at:at + block], counter, False, False)),
                               counter=counter)
        return run._replace(pending=data[count * block:])

    def after_restart(self):
        return self._replace(chain=self.first, counter=0, pending=b"")

    def count(self):
        return self.counter + len(self.pending)

    def digest(self):
        block = self.pending.ljust(self.family.block, b"\0")
        chain = compress(self.family, self.chain, (block, self.count(), True, self.last))
        return bytes_from_words(self.family, chain)[:self.size]

    def saved_bytes(self):
        family = self.family
        return (NAMES[family.w] + bytes([VERSION]) + bytes_from_words(family, self.chain) + bytes_from_words(family,
                                                                                                             self.first)
                + self.counter.to_bytes(8, "little") + bytes([self.size, len(self.pending), self.last])
                + self.pending.ljust(family.block, b"\0"))

    def can_be_saved(self):
        """Whether it returns digests, has a flag of 0 or 1, and was begun without a key: the second byte of the
        parameter block is 0."""
        return (1 <= self.size <= self.family.digest and self.count() < 2**64 and self.last < 2
                and not (self.first[0] ^ self.family.iv[0]) >> 8 & 255)


def state_with_counter(family, size, given, counter):
    """The state of these parameters with this counter, under whose key a block of it is pending."""
    first = [a ^ b for a, b in zip(family.iv, parameter_words(family, size, given))]
    return SavedState(family, first, first, counter, size, pending=b"" if given.key is None else
               given.key.ljust(family.block, b"\0"))


def state_from_bytes(family, data):
    """The state that is saved as these bytes, or None."""
    w = family.w  # the bytes of eight words
    numbers = 8 + 2 * w
    if len(data) != numbers + 11 + family.block:
        return None
    size, length, last = data[numbers + 8:numbers + 11]
    run = SavedState(family, words_from_bytes(family, data[8:8 + w]), words_from_bytes(family, data[8 + w:numbers]),
              int.from_bytes(data[numbers:numbers + 8], "little"), size, last, data[numbers + 11:][:length])
    return run if run.can_be_saved() and run.saved_bytes() == data else None
