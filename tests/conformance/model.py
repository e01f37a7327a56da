"""What each call of a conformance case has to return, by hashlib and tests/b2_model.py. Not a program.

README.md describes the language. The limits are those of RFC 7693, the BLAKE2 document and the BLAKE2X
document, written down here once more and not read from a package.
"""
import dataclasses
import functools
import hmac
import os
import sys
from typing import Optional

sys.path.insert(0, os.path.join(os.path.dirname(os.path.abspath(__file__)), ".."))
from b2_model import Input, Place, output, unknown_length_of_output  # noqa: E402
from oracle import (  # noqa: E402
    SCALAR, parallel_digest_by_hashlib, parallel_digest, digests_of_leaf_range, root_of_leaves, tree_root)
from common import FAMILIES  # noqa: E402
from saved import SavedState, state_with_counter, state_from_bytes  # noqa: E402

HASHES = ("blake2b", "blake2s", "blake2bp", "blake2sp", "blake2xb", "blake2xs", "tree")
NODE = {"fanout": "fanout", "depth": "depth", "leaf": "leaf_size", "offset": "node_offset", "node": "node_depth",
        "inner": "inner_size", "last": "last_node"}
UNKNOWN = {letter: unknown_length_of_output(family) for letter, family in SCALAR.items()}


class Refused(Exception):
    """A call that is refused, by the arguments that are wrong."""


FIRST = bytes((i + (i >> 8)) & 255 for i in range(1 << 16))  # the first 65,536 bytes of the endless message


@functools.cache
def sample_message_chunk(k):
    """The bytes of the endless message from place 65,536 k on, as many: each such part is the one before it, and 1."""
    return FIRST.translate(bytes((i + k) & 255 for i in range(256)))


def sample_message_slice(start, end):
    """The bytes of the endless message from one place to another."""
    first = start >> 16
    if end >> 16 == first:
        return sample_message_chunk(first)[start & 0xffff:end & 0xffff]
    return b"".join(map(sample_message_chunk, range(first, (end >> 16) + 1)))[start & 0xffff:end - (first << 16)]


@functools.lru_cache(4096)
def parse_bytes(word):
    """BYTES, or None for `none`."""
    if word == "none":
        return None
    if ":" in word:
        return sample_message_slice(*map(int, word.split(":")))
    return b"" if word == "-" else bytes.fromhex(word)


def hash_letter_of_name(name):
    """The letter of the hash that a hash is made of."""
    return "s" if "s" in name.removeprefix("blake2") else "b"


def argument_ranges(name):
    """The least and the most of each argument of a hash: of numbers, and of the lengths of bytes."""
    family = FAMILIES[hash_letter_of_name(name)]
    is_s = hash_letter_of_name(name) == "s"
    found = {"size": (1, UNKNOWN[hash_letter_of_name(name)] if "x" in name else family.key), "key": (0, family.key),
             "salt": (0, family.salt), "person": (0, family.salt)}
    if name == "tree":
        del found["key"]
        found["leaf"] = (1, 2**32 - 1)
    elif name in ("blake2b", "blake2s"):
        found |= {"offset": (0, 2**(48 if is_s else 64) - 1), "depth": (1, 255), "inner": (0, family.key),
                  "fanout": (0, 255), "leaf": (0, 2**32 - 1), "node": (0, 255), "last": (0, 1)}
    return found


def parse_arguments(name, words):
    """The arguments of a hash, or Refused by all that are wrong."""
    allowed, given, wrong = argument_ranges(name), {}, []
    assert set(words) <= set(allowed), words
    for argument, (least, most) in allowed.items():
        word = words.get(argument)
        if word is None:
            continue
        is_text = argument in ("key", "salt", "person")
        if word == "none":
            wrong.append(argument)
        elif is_text:
            given[argument] = parse_bytes(word)
            wrong += [argument] * (not max(least, argument == "key") <= len(given[argument]) <= most)
        else:
            given[argument] = most if word == "unknown" else int(word)
            is_unknown = "x" in name and argument == "size" and given[argument] == most and word != "unknown"
            wrong += [argument] * (is_unknown or not least <= given[argument] <= most)
    if wrong:
        raise Refused(",".join(wrong))
    return given


@functools.lru_cache(100000)
def digest(name, message, items, last):
    given = dict(items)
    longest = FAMILIES[hash_letter_of_name(name)].key
    size, texts = given.get("size", longest), {each: given[each] for each in ("salt", "person") if each in given}
    if name == "tree":
        return tree_root(message, given["leaf"], size, **texts)
    if name[-1] == "p":
        if size == longest and not given.get("key"):
            return parallel_digest_by_hashlib(hash_letter_of_name(name), message, **texts)
        return parallel_digest(hash_letter_of_name(name), message, size, given.get("key", b""), **texts)
    node = {word: given[each] for each, word in NODE.items() if each in given}
    return FAMILIES[hash_letter_of_name(name)].function(message, digest_size=size, key=given.get("key", b""), **texts,
                                              **node | {"last_node": bool(last)}).digest()


@dataclasses.dataclass
class State:
    """A state: the arguments of its hash, what it has absorbed, how much of an output was read, the count that it was
    given, and what it was loaded as."""
    name: str
    given: dict
    message: bytes = b""
    last: int = 0
    place: Optional[int] = None
    skipped: int = 0
    base: Optional[SavedState] = None

    def count(self):
        return (self.base.count() if self.base else self.skipped) + len(self.message)

    def run(self):
        """Of BLAKE2b or BLAKE2s, by the model."""
        base = self.base
        if not base:
            family = SCALAR[hash_letter_of_name(self.name)]
            place = Place(*(self.given.get(each, otherwise) for each, otherwise in zip(NODE, (1, 1, 0, 0, 0, 0))))
            texts = (self.given.get(each, b"") for each in ("salt", "person"))
            whole = Input(b"", self.given.get("key"), *texts, place=place)
            base = state_with_counter(family, self.given.get("size", family.digest), whole, self.skipped)
        return base._replace(last=self.last).after_message(self.message)

    def digest(self):
        if self.skipped or self.base:
            return self.run().digest()
        return digest(self.name, self.message, tuple(self.given.items()), self.last)

    def length(self):
        letter = hash_letter_of_name(self.name)
        known = self.given.get("size", UNKNOWN[letter])
        return FAMILIES[letter].key << 32 if known == UNKNOWN[letter] else known

    def left(self):
        return self.length() - (self.place or 0)

    def read(self, count):
        start, letter = self.place or 0, hash_letter_of_name(self.name)
        self.place = start + count
        given = Input(self.message, *(self.given.get(each, b"") for each in ("key", "salt", "person")))
        length = self.given.get("size", UNKNOWN[letter])
        return output(SCALAR[letter], self.place, given._replace(key=given.key or None), xof_length=length)[start:]


def yes_or_no_word(condition):
    return "yes" if condition else "no"


class Model:
    """The states of a case, and a method for each call."""

    def __init__(self):
        self.slots = {}

    def outcome(self, line):
        """What follows the call in its line."""
        verb, *words = line.split()
        named = dict(word.split("=") for word in words if "=" in word)
        try:
            value = getattr(self, verb)(*(word for word in words if "=" not in word), **named)
        except Refused as refused:
            return f" ! {refused}"
        if isinstance(value, bytes):
            value = value.hex() or "-"
        return "" if value is None else f" = {value}"

    def state(self, slot):
        if self.slots.get(slot) is None:
            raise Refused("state")
        return self.slots[slot]

    def end(self, slot):
        state = self.state(slot)
        self.slots[slot] = None
        return state

    @staticmethod
    def bytes_or_refuse(word, argument="message"):
        if parse_bytes(word) is None:
            raise Refused(argument)
        return parse_bytes(word)

    # ---- calls of a state

    def new(self, slot, name, **words):
        self.slots[slot] = None
        given = parse_arguments(name, words)
        self.slots[slot] = State(name, given, last=given.get("last", 0))

    def update(self, slot, message):
        state = self.state(slot)
        if state.place is not None:
            raise Refused("state")
        added, block = self.bytes_or_refuse(message), SCALAR[hash_letter_of_name(state.name)].block
        if state.count() + len(added) + block * ("key" in state.given) >= 2**64:
            raise Refused("message")
        state.message += added

    def updates(self, slots, *messages):
        """All or none: if one refuses, the states before it are again as they were."""
        assert len(messages) == len(slots) == len(set(slots)), slots
        before = {slot: dataclasses.replace(self.state(slot)) for slot in slots}
        try:
            for slot, message in zip(slots, messages):
                self.update(slot, message)
        except Refused:
            self.slots |= before
            raise

    def skip(self, slot, count):
        state = self.state(slot)
        assert not state.message and int(count) % SCALAR[hash_letter_of_name(state.name)].block == 0
        state.skipped = int(count)

    def copy(self, slot, other):
        self.slots[other] = dataclasses.replace(self.state(slot))

    def reset(self, slot):
        state = self.state(slot)
        state.message, state.place, state.skipped = b"", None, 0
        state.base = state.base and state.base.after_restart()

    def last(self, slot, flag):
        self.state(slot).last = int(flag)

    def wipe(self, slot):
        self.slots[slot] = None

    def digest(self, slot):
        return self.end(slot).digest()

    def verify(self, slot, tag):
        self.state(slot)
        given = self.bytes_or_refuse(tag, "tag")
        return yes_or_no_word(hmac.compare_digest(self.end(slot).digest(), given))

    def count(self, slot):
        return self.state(slot).count()

    def left(self, slot):
        return self.state(slot).left()

    def read(self, slot, count):
        state = self.state(slot)
        if int(count) > state.left():
            raise Refused("left")
        return state.read(int(count))

    def save(self, slot):
        state = self.state(slot)
        if "key" in state.given:
            raise Refused("key")
        return state.run().saved_bytes()

    def load(self, slot, name, saved):
        self.slots[slot] = None
        run = state_from_bytes(SCALAR[hash_letter_of_name(name)], self.bytes_or_refuse(saved, "saved"))
        if not run:
            raise Refused("saved")
        self.slots[slot] = State(name, {}, last=run.last, base=run)

    # ---- calls without a state

    def hash(self, name, message, **words):
        given = parse_arguments(name, words)
        if "x" in name and given.get("size", 2**32) >= UNKNOWN[hash_letter_of_name(name)]:
            raise Refused("size")
        state = State(name, given, self.bytes_or_refuse(message), given.get("last", 0))
        return state.read(given["size"]) if "x" in name else state.digest()

    def many(self, name, *messages, **words):
        return b"".join(self.hash(name, message, **words) for message in messages) if messages else \
            parse_arguments(name, words) and b""

    def derive(self, context, **words):
        key = parse_bytes(words.get("key", "-"))
        wrong = [] if key else ["key"]
        try:
            given = parse_arguments("blake2xb", words)
            wrong += ["size"] * (given["size"] == UNKNOWN["b"])
        except Refused as refused:
            wrong = [*wrong, *(each for each in str(refused).split(",") if each not in wrong)]
        if wrong:
            raise Refused(",".join(wrong))
        return output(SCALAR["b"], given["size"], Input(self.bytes_or_refuse(context, "context"), key))

    @staticmethod
    def equal(one, other):
        return yes_or_no_word(parse_bytes(one) == parse_bytes(other))

    # ---- parts of a tree

    def leaves(self, message, first, ends, **words):
        given = parse_arguments("tree", words)
        data, first, leaf = self.bytes_or_refuse(message), int(first), given.pop("leaf")
        if (not data and (first or ends == "0")) or (ends == "0" and len(data) % leaf):
            raise Refused("message")
        if first * leaf + len(data) >= 2**58:
            raise Refused("first")
        return digests_of_leaf_range(data, leaf, first, ends == "1", **given)

    def top(self, digests, **words):
        given = parse_arguments("tree", words)
        data = self.bytes_or_refuse(digests, "digests")
        if not data or len(data) % 64:
            raise Refused("digests")
        return root_of_leaves(data, given.pop("leaf"), given.pop("size", 64), **given)

    def next(self, slot, skip, message):
        """The digests of whole leaves, which others follow."""
        state, data, skip = self.state(slot), self.bytes_or_refuse(message), int(skip)
        leaf = state.given["leaf"]
        wrong = ["state"] * (len(state.message) % leaf > 0) + ["message"] * (not data or len(data) % leaf > 0)
        if wrong:
            raise Refused(",".join(wrong))
        first = len(state.message) // leaf + skip
        if first * leaf + len(data) >= 2**58:
            raise Refused("skip")
        texts = {each: state.given[each] for each in ("salt", "person") if each in state.given}
        return digests_of_leaf_range(data, leaf, first, False, **texts)

    def absorb(self, slot, leaves, message):
        """The digests of whole leaves, given here by the bytes of these, and then bytes of the message."""
        state, data, leaf = self.state(slot), self.bytes_or_refuse(message), self.state(slot).given["leaf"]
        wrong = ["state"] * (len(state.message) % leaf > 0) + ["message"] * (not data)
        if parse_bytes(leaves) and wrong:
            raise Refused(",".join(wrong))
        state.message += parse_bytes(leaves) + data

