#!/usr/bin/env python3
"""Writes the conformance cases of BLAKE2, a file for each hash (README.md says what is in them):

    tests/conformance/write.py FOLDER [HASH..]      writes blake2b.txt to tree.txt
    tests/conformance/write.py --sums FOLDER        the same, and their sums into SUMS

Here are the calls only. What each has to return is added by model.py, from hashlib and an independent model. The status
is 1 if a file is not the one that SUMS has.
"""
import hashlib
import os
import random
import sys
from concurrent.futures import ProcessPoolExecutor

from model import HASHES, SCALAR, UNKNOWN, Model, argument_ranges, hash_letter_of_name, sample_message_slice
from saved import state_with_counter, state_from_bytes

sys.path.insert(0, os.path.join(os.path.dirname(os.path.abspath(__file__)), ".."))
from b2_model import Input  # noqa: E402
from common import FAMILIES, Parser  # noqa: E402

KEY, SALT, PERSON = 5000, 6000, 7000  # where keys, salts and personalizations begin
LETTERS = "abcdefghijklmnopqrst"  # of states that absorb at once
TEXTS = ("key", "salt", "person")
NODE = ("fanout", "depth", "leaf", "offset", "node", "inner", "last")
SUMS = os.path.join(os.path.dirname(os.path.abspath(__file__)), "SUMS")
# What each group of cases is for, by its name, or by the first word of that.
PURPOSES = {
    "length": "messages of each length around the blocks, up to 300,000 bytes", "size": "each length of a digest",
    "key": "each length of a key", "salt": "each length of a salt", "person": "each length of a personalization",
    "random": "random arguments and lengths", "node": "nodes of trees, each parameter at its edges",
    "flag": "a last-node flag that is set and cleared at any time", "cut": "two pieces, at each cut around the blocks",
    "pieces": "many pieces of random lengths", "tag": "the right tag, and wrong ones of several lengths",
    "equal": "long bytes that are equal or differ", "refused": "arguments that are out of bounds, and the state after",
    "taken": "arguments at their bounds", "ended": "each call after each end", "reset": "a state that is as new again",
    "walk": "random calls of several states", "many": "several messages in one call",
    "read": "an output in pieces, and what is refused meanwhile", "reads": "an output in random pieces",
    "left": "how much of an output is left", "derive": "derived keys", "root": "roots of trees",
    "leaves": "digests of ranges of leaves", "top": "roots of the digests of leaves",
    "next": "leaves that others hash", "counter": "counters that change in each bit, and those near 2^64",
    "empty": "a key of no bytes, which is no absent key",
    "saved": "states that are saved at each number of pending bytes, loaded and finished",
    "loaded": "bytes that are loaded, with one changed at each place, and at their edges",
    "updates": "states that absorb a piece each in one call, all or none",
}


def format_arguments(**given):
    starts = {"key": KEY, "salt": SALT, "person": PERSON}
    return " ".join(f"{name}={starts[name]}:{starts[name] + value}" if name in starts and isinstance(value, int)
                    else f"{name}={value}" for name, value in given.items())


class CaseWriter:
    def __init__(self, name):
        self.name, self.limits = name, argument_ranges(name)
        self.family = FAMILIES[hash_letter_of_name(name)]
        self.longest, self.salt = self.family.key, self.family.salt
        self.block = 512 if name[-1] == "p" else self.family.block
        self.is_output, self.is_tree = "x" in name, name == "tree"
        self.has_nodes = "depth" in self.limits
        self.dice = random.Random(f"7693 {name}")
        self.lines, self.model, self.names = [], None, {}

    def add_case(self, what, *calls):
        number = self.names[what] = self.names.get(what, 0) + 1
        purpose = PURPOSES[what.partition("-")[0]]
        self.lines += ["", *[f"# {what}: {purpose}"] * (number == 1), f"case {self.name}.{what}.{number}"]
        self.model = Model()
        for call in calls:
            self.call(call)

    def call(self, call):
        outcome = self.model.outcome(call)
        self.lines.append(" ".join(call.split()) + outcome)
        return outcome

    # ---- values

    def random_or_extreme(self, most, least=0):
        return self.dice.choice([least, most, self.dice.randint(least, most)])

    def arguments(self, *also, **given):
        """Random arguments of the hash, those that are named and some of the others."""
        for name, (least, most) in self.limits.items():
            if name in given or not (name in also or name == "leaf" and self.is_tree or self.dice.random() < 0.4):
                continue
            if name in NODE and not self.is_tree:
                continue
            given[name] = self.random_or_extreme(most, 1 if name == "key" else least)
            if name == "size":
                given[name] = (self.random_or_extreme(6 * self.longest, 1) if self.is_output
                               else self.random_or_extreme(most, 1))
            if name == "leaf":
                given[name] = self.dice.choice([1, 2, 7, 64, 100, 128, 129, 2**32 - 1])
        return given

    def random_node_arguments(self):
        return {name: self.random_or_extreme(self.limits[name][1], self.limits[name][0]) for name in NODE}

    def new(self, slot="a", **given):
        """The call that makes a state."""
        return f"new {slot} {self.name} {format_arguments(**given)}"

    def hash(self, what, length, start=0, **given):
        """A digest in one call, or an output of this size."""
        if self.is_output:
            given.setdefault("size", 2 * self.longest)
        self.add_case(what, f"hash {self.name} {start}:{start + length} {format_arguments(**given)}")

    def end(self, slot):
        if self.is_output:
            return f"read {slot} {self.dice.randint(1, 3 * self.longest)}"
        return f"digest {slot}"


# ---- kinds of cases. Each is a method of a Writer, by its name in the names of the cases

def write_length_cases(w):
    """Messages of each length up to two blocks, and around later ones, and up to 300,000 bytes."""
    base = {"leaf": 64} if w.is_tree else {}
    step = 1 if w.block < 200 else 7
    for length in [*range(0, 2 * w.block + 2, step),
                   *(b * w.block + more for b in (1, 2, 3, 4, 5, 8, 9, 16, 17) for more in (-1, 0, 1))]:
        w.hash("length", length, size=w.longest // 2 + length % (w.longest // 2), **base)
    if w.name in ("blake2b", "blake2s"):
        for length in (1000, 4096, 65535, 65536, 65537, 258047, 258048, 258049, 300000):
            w.hash("length", length, length % 7)
            w.hash("length", length, length % 5, key=1 + length % 32, salt=w.salt, person=w.salt)


def write_size_cases(w):
    """Each size of a digest, each length of a key, a salt and a personalization."""
    base = {"leaf": 100} if w.is_tree else {}
    ends = {size * w.longest + more for size in (1, 2, 4, 5, 8, 9) for more in (-1, 0, 1)}
    for size in sorted(ends | set(range(1, 5))) if w.is_output else range(1, w.longest + 1):
        w.hash("size", w.dice.randint(0, 300), size, size=size, **base)
        w.hash("size", w.dice.randint(0, 300), size, **w.arguments("key", size=size, **base))
    for name, most in (("key", w.longest), ("salt", w.salt), ("person", w.salt)):
        for length in range(1, most + 1) if name in w.limits else ():
            w.hash(name, w.dice.choice([0, 1, w.block - 1, w.block, w.block + 1]), length, **base,
                   **{"size": w.longest, name: length})
    if "key" in w.limits:
        for length in (0, 1, w.block - 1, w.block, w.block + 1, 2 * w.block):
            w.hash("key", length, size=w.longest, key=w.longest)


def write_random_cases(w):
    for i in range(300 if w.has_nodes or w.is_tree else 80):
        length = w.dice.choice([w.dice.randint(0, 300), w.dice.randint(0, 9) * w.block + w.dice.randint(0, 2)])
        w.hash("random", length, i, **w.arguments())


def write_node_cases(w):
    """Nodes of trees: each parameter at its edges, and all of them."""
    for name in NODE:
        least, most = w.limits[name]
        bits = {2**n + more for n in (7, 8, 15, 16, 24, 31, 32, 40, 47, 56, 63) for more in (-1, 0)}
        for value in sorted({least, least + 1, most - 1, most} | {bit for bit in bits if least < bit < most}):
            w.hash("node", 9, **{name: max(value, least)})
    for i in range(150):
        w.hash("node", w.dice.randint(0, 300), i, **w.arguments(**w.random_node_arguments()))
    for i in range(40):  # the flag is set and cleared at any time
        given, length, flag = w.arguments(**w.random_node_arguments()), w.dice.randint(0, 300), i % 2
        w.add_case("flag", w.new(**given), f"last a {1 - flag}", f"update a 0:{length}", f"last a {flag}", "copy a b",
               "digest a", "last b 1", "reset b", f"update b 0:{length}", "digest b")


def write_piece_cases(w):
    """Messages in two pieces at each cut around blocks, and in random ones; the count, and the end by a copy."""
    for length in (1, w.block - 1, w.block, w.block + 1, 2 * w.block, 2 * w.block + 1, 4 * w.block + 3):
        given = w.arguments()
        cuts = {max(0, b * w.block + more) for b in range(5) for more in (-1, 0, 1)}
        for cut in sorted(cut for cut in cuts | {length} if cut <= length):
            w.add_case("cut", w.new(**given), f"update a 0:{cut}", f"count a", f"update a {cut}:{length}", f"count a",
                   w.end("a"))
    for i in range(120):
        w.add_case("pieces", w.new(**w.arguments()))
        place, end = i, i + w.dice.randint(0, 6 * w.block)
        while place < end:
            step = w.dice.choice([0, 1, w.dice.randint(0, 20), w.block, w.dice.randint(0, 3 * w.block)])
            more = min(end, place + step)
            w.call(f"update a {place}:{more}")
            place = more
        w.call("count a")
        w.call(w.end("a"))


def write_tag_cases(w):
    """The right tag, each with one bit changed, shorter and longer ones, none; nothing is left after any."""
    for size in (1, 16, w.longest):
        given = {**w.arguments(), "size": size}
        w.add_case("tag", w.new(**given), "update a 3:90", "copy a b", "copy a c", "copy a d")
        right = bytes.fromhex(w.call("digest a").split()[-1])
        w.call(f"verify b {right.hex()}")
        w.call(f"verify c {right.hex()}00")
        w.call(f"verify d {right[:-1].hex() or '-'}")
        for tag in [right[:i] + bytes([right[i] ^ 1 << i % 8]) + right[i + 1:] for i in range(size)] + \
                [b"", right + right, bytes(size), right[1:] + right[:1] if size > 1 else b"1"]:
            w.add_case("tag", w.new(**given), "update a 3:90", f"verify a {tag.hex() or '-'}",
                       f"verify a {right.hex()}",
                   "update a 0:1")
            w.add_case("tag", f"equal {right.hex()} {tag.hex() or '-'}")
        w.add_case("tag", w.new(**given), "update a 3:90", "verify a none", f"verify a {right.hex()}")
    w.add_case("tag", w.new(**{"leaf": 9} if w.is_tree else {"key": w.longest}), "verify a 0:600000", "verify a 0:1")
    for start, end in ((0, 300000), (1, 300001), (256, 300256), (0, 129024), (0, 299999)):
        w.add_case("equal", f"equal 0:300000 {start}:{end}")


def refused_and_accepted_values(w, name):
    """Values of an argument that are refused, and such that are accepted."""
    least, most = w.limits[name]
    if name in TEXTS:
        return [most + 1, most + 2, 2 * most, 255, 256, 257, 65536, "none"], [
            int(name == "key"), least + 1, most - 1, most]
    wrong = [least - 1, most + 1, most + 2, *(2**n + more for n in (8, 16, 32, 48, 63, 64) for more in (0, 1, 9))]
    wrong = [value for value in wrong if not least <= value <= most] + ["none"]
    if w.is_output:  # the number that says `unknown` is no length
        return [most, *wrong], [1, 2, most - 1, "unknown"]
    return wrong, [least, least + 1, most - 1, most]


def write_refusal_cases(w):
    """Each argument below its least and above its most, up to 2^64 and more; several wrong ones; no object."""
    base = {"leaf": 9} if w.is_tree else {}
    for name in filter("last".__ne__, w.limits):  # that is a flag of each language's own
        wrong, right = refused_and_accepted_values(w, name)
        for value in wrong:
            w.add_case(f"refused-{name}", f"new a {w.name} {format_arguments(**{**base, name: value})}", "update a 0:1",
                   "digest a" if not w.is_output else "read a 1", "wipe a")
            given = format_arguments(**{**base, **({"size": 9} if w.is_output else {}), name: value})
            w.add_case(f"refused-{name}", f"hash {w.name} 0:3 {given}")
            if w.name in ("blake2b", "blake2s") and name in ("size", *TEXTS):
                w.add_case(f"refused-{name}", f"many {w.name} 0:3 4:7 {given}")
        for value in right:
            w.add_case(f"taken-{name}", w.new(**{**base, name: value}), *(["left a"] if w.is_output else []),
                   "update a 0:1", w.end("a"))
    write_multiple_refusal_cases(w, base)


def write_multiple_refusal_cases(w, base):
    """Several wrong arguments, and no message."""
    names = [name for name in w.limits if name not in ("last", "fanout", "node")]
    for wrong in range(1, 2 ** len(names)):
        given = dict(base)
        for i, name in enumerate(names):
            if wrong >> i & 1 and not (name in ("leaf", "offset") and w.name == "blake2b"):
                given[name] = w.limits[name][1] + 1 if name in (*TEXTS, "offset", "inner") else 0
        if wrong & wrong - 1:
            w.add_case("refused-several", w.new(**given))
    w.add_case("refused-message",
               f"hash {w.name} none {format_arguments(**base, **({'size': 9} if w.is_output else {}))}")
    for i in range(3):
        w.add_case("refused-message", w.new(**w.arguments()), f"update a 0:{i * 70}", "update a none", "update a -",
               f"update a 9:{9 + i}", w.end("a"))


def write_ended_state_cases(w):
    """Each call after each end is refused, and a new state can be made in the place."""
    ends = ["wipe a"] + ([] if w.is_output else ["digest a", "verify a 00"])
    calls = ["update a 0:1", "update a -", "copy a b", "reset a", "left a" if w.is_output else "count a"]
    calls += ["read a 1", "read a 0"] if w.is_output else ["digest a", "verify a -", "verify a 00"]
    calls += ["last a 1"] * w.has_nodes
    for end in ends:
        for call in calls:
            w.add_case("ended", w.new(**w.arguments()), f"update a 0:{w.dice.randint(0, 200)}", end, call, "wipe a",
                   w.new(**w.arguments()), "update a 0:5", w.end("a"))


def write_reset_cases(w):
    """A reset state is as new, whatever it has absorbed."""
    for length in (0, 1, w.block - 1, w.block, w.block + 1, 3 * w.block + 1):
        for _ in range(4):
            given = {**w.arguments(), **(w.random_node_arguments() if w.has_nodes and length % 2 else {})}
            w.add_case("reset", w.new(**given), f"update a 1:{1 + length}", "reset a", "count a", "copy a b",
                       w.end("b"),
                   "update a 0:70", "copy a c", w.end("c"), "reset a", "reset a", f"update a 0:{length}", w.end("a"))


def write_random_walk_cases(w):
    """Random calls of several states, with those that are refused among them."""
    for i in range(300):
        w.add_case("walk", *(w.new(slot, **w.arguments()) for slot in "abc"))
        is_plain = i % 3 > 0  # without the calls that some packages do not have
        for _ in range(12):
            slot, other, length = w.dice.choice("abc"), w.dice.choice("abcd"), w.dice.choice([0, 1, 60, 128, 200, 700])
            start = w.dice.randint(0, 300)
            calls = [f"update {slot} {start}:{start + length}"] * 5 + [f"copy {slot} {other}"] * (slot != other)
            calls += [w.end(slot), f"count {slot}", w.new(slot, **w.arguments())]
            calls += [] if is_plain else [f"reset {slot}", f"wipe {slot}"]
            if w.is_output:
                calls += [f"read {slot} {w.dice.choice([0, 1, 31, 64, 65, 300])}"] * 3 + [f"left {slot}"]
            w.call(w.dice.choice(calls))


def write_many_messages_cases(w):
    """Messages of one length and of several, up to a thousand, in one call."""
    for count in (0, 1, 2, 3, 4, 5, 7, 8, 9, 15, 16, 17, 33):
        for length in (0, 1, w.block, w.block + 1, 300):
            messages = " ".join(f"{i}:{i + length}" for i in range(count))
            given = w.arguments("size", "key") | {"size": w.dice.choice([1, 8, 20])}
            w.add_case("many", f"many {w.name} {messages} {format_arguments(**given)}")
    for count, size in ((257, 1), (1000, 1), (1025, 2)):
        w.add_case("many", f"many {w.name} {' '.join(f'{i}:{i + 1}' for i in range(count))} size={size}")
    for _ in range(20):
        mixed = " ".join(f"{i}:{i + w.dice.choice([0, 1, 128, 128, 128, 128])}" for i in range(20))
        w.add_case("many", f"many {w.name} {mixed} {format_arguments(size=4, salt=w.random_or_extreme(w.salt))}")
    w.add_case("many", f"many {w.name} {' '.join(f'{i}:{i + 100000}' for i in range(9))} size=20")
    for place in range(4):
        w.add_case("many", f"many {w.name} {' '.join('none' if i == place else f'{i}:9' for i in range(4))}")


def write_output_cases(w):
    """Outputs that are read in pieces, copied and reset on the way; what is refused while they are read."""
    for size in (1, w.longest - 1, w.longest, w.longest + 1, 4 * w.longest, 8 * w.longest + 9, "unknown"):
        total = 600 if size == "unknown" else size
        for cut in sorted({0, 1, total // 3, total - 1, total}):
            given = {**w.arguments(), "size": size}
            w.add_case("read", w.new(**given), "update a 0:70", "left a", f"read a {cut}", "left a", "copy a b",
                   f"read a {total - cut}", "left a", *(["read a 1", "read a 0"] if size != "unknown" else []),
                   f"read b {total - cut}")
            w.add_case("read", w.new(**given), "update a 0:70", f"read a {cut}", "update a 0:1", "update a -",
                   f"read a {total - cut + 1}" if size != "unknown" else "left a", f"read a {total - cut}")
            w.add_case("read", w.new(**given), "update a 5:70", f"read a {cut}", "reset a", "left a", "count a",
                   "update a 0:3", f"read a {total}")
    for i in range(60):
        w.add_case("reads", w.new(**w.arguments()), f"update a {i}:{3 * i}")
        for _ in range(6):
            w.call(f"read a {w.dice.choice([0, 1, 2, 31, 32, 33, 63, 64, 65, 128, 200])}")
    most = UNKNOWN[hash_letter_of_name(w.name)]
    for size in (2 * w.longest + 1, most - 1, most - 2, "unknown"):
        count = w.longest << 32 if size == "unknown" else size
        w.add_case("left", f"new a {w.name} size={size}", "left a", "read a 33", "left a", f"read a {count}",
                   "read a 3")
    if w.name == "blake2xb":
        for size, key, context in [(size, key, size % 40) for size in (1, 32, 64, 65, 130) for key in (1, 32, 64)]:
            w.add_case("derive", f"derive {size}:{size + context} size={size} key={KEY}:{KEY + key}")
        for size, key in ((0, 1), (9, 0), (9, 65), (0, 0), (2**32 - 1, 1), (2**32, 1), (2**32 + 9, 1), (2**64, 1),
                          (9, 256)):
            w.add_case("refused-derive", f"derive 0:3 size={size} key={KEY}:{KEY + key}")
        w.add_case("refused-derive", "derive none size=9 key=0:9")


def write_tree_cases(w):
    """The tree of two levels: roots, and ranges of leaves."""
    for leaf in (1, 7, 64, 127, 128, 129, 1000, 2**32 - 1):
        for length in (0, 1, leaf - 1, leaf, leaf + 1, 4 * leaf, 4 * leaf + 1, 5 * leaf, 9 * leaf + 3):
            if length < 10000:
                w.hash("root", length, leaf % 9, **w.arguments(leaf=leaf))
    for leaf in (1, 2, 64, 127, 128, 129, 1000):
        for first in (0, 1, 3, 2**31, 2**32 + 5, 2**57 // leaf):
            for count in (1, 3, 4, 9):
                texts = {name: w.random_or_extreme(16) for name in ("salt", "person")}
                for ends, cut in ((0, 0), (1, leaf * count // 11), (1, 0)):
                    end = first % 99 + leaf * count - cut
                    given = format_arguments(leaf=leaf, **texts)
                    w.add_case("leaves", f"leaves {first % 99}:{end} {first} {ends} {given}")
    for leaf, first, ends, length in ((4, 0, 0, 0), (4, 0, 0, 3), (4, 0, 0, 5), (4, 1, 1, 0), (4, 5, 0, 9),
                                      (4, 0, 1, 0), (1, 2**58 - 1, 1, 1), (1, 2**58 - 2, 1, 1), (1, 2**58 - 2, 0, 2),
                                      (2, 2**57 - 1, 0, 2), (2, 2**57 - 1, 1, 1), (4, 2**56, 1, 4), (4, 2**63, 1, 4),
                                      (4, 2**64 - 1, 1, 4), (2**32 - 1, 2**26, 1, 4), (2**32 - 1, 2**26 + 1, 1, 4)):
        w.add_case("leaves", f"leaves 0:{length} {first} {ends} leaf={leaf}")
    for name, value in (("leaf", 0), ("leaf", 2**32), ("salt", 17), ("person", 17), ("leaf", "none"), ("salt", "none")):
        w.add_case("refused-leaves", f"leaves 0:3 0 1 {format_arguments(**{'leaf': 4, name: value})}")
        w.add_case("refused-top", f"top 0:64 {format_arguments(**{'leaf': 4, name: value})}")
    w.add_case("refused-leaves", "leaves none 0 1 leaf=4")
    for leaf in (258047, 258048, 258049, 100000):  # around what JavaScript hashes at once
        w.add_case("leaves", f"leaves 5:{5 + 3 * leaf} 7 {leaf % 2} leaf={leaf}")
        w.hash("root", 2 * leaf + 1, leaf=leaf)


def write_tree_part_cases(w):
    """Roots of ranges of leaves, and leaves that are hashed by others."""
    for length in (0, 1, 63, 64, 65, 128, 192, 640, 6400, 258048, 258112, 640000):
        w.add_case("top", f"top 0:{length} {format_arguments(**w.arguments() | {'size': 1 + length % 63})}")
    for size in (0, 65, 256, 2**32 + 1):
        w.add_case("refused-top", f"top 0:64 leaf=4 size={size}")
    w.add_case("refused-top", "top none leaf=4")
    for leaf in (1, 5, 64, 128, 200):
        for before in (0, leaf, 3 * leaf, leaf - 1, leaf + 1):
            for count, skip in ((1, 0), (2, 1), (5, 3), (9, 0)):
                given = format_arguments(**w.arguments(leaf=leaf))
                part = f"{before}:{before + count * leaf}"
                w.add_case("next", f"new a tree {given}", f"update a 0:{before}", f"next a {skip} {part}",
                       f"next a {skip} 0:{leaf + 1}", f"next a {skip} -", f"absorb a {part} 1:4", "count a", "digest a",
                       "next a 0 0:1")
    for skip in (2**56, 2**58 - 2, 2**58 - 1, 2**63, 2**64 - 1):
        w.add_case("next", "new a tree leaf=1", f"next a {skip} 0:1", f"next a {skip} 0:2", "update a 0:3", "digest a")
    w.add_case("next", "new a tree leaf=4", "absorb a 0:8 -", "absorb a - 0:3", "absorb a 3:7 0:1", "next a 0 none",
           "digest a")


def write_counter_cases(w):
    """Counters with each bit, which are set, and around 2^64."""
    for bit in range(10, 64):
        given, length, skipped = w.arguments(), 3 * w.block + bit % 9, 2**bit - w.block * (1 + bit % 2)
        w.add_case("counter", w.new(**given), f"skip a {skipped}", "count a", f"update a 0:{length}", "copy a b",
                   "count b",
               "digest b", f"update a 0:{length}", "digest a")
    for key, room in [(key, room) for key in (0, w.longest) for room in (1, 2, 3, 40)]:
        given = {**w.arguments(), "key": key} if key else {"size": w.longest}
        skipped, most = 2**64 - w.block * (room + (key > 0)), w.block * room - 1
        for length in (0, most - 1, most):
            w.add_case("counter-end", w.new(**given), f"skip a {skipped}", f"update a 0:{length}", "count a",
                       "digest a")
        w.add_case("counter-refused", w.new(**given), f"skip a {skipped}", f"update a 0:{most + 1}",
                   f"update a 0:{most}",
               "update a 0:1", "update a -", "update a 0:5000", "count a", "copy a b", "digest a", "reset b", "count b",
               "update b 0:300", "digest b")


def save_state(w, slot):
    """Saves a state, and returns the digits."""
    return w.call(f"save {slot}").split()[-1]


def write_saved_state_cases(w):
    """A state and what it is loaded as absorb the same and have one digest, which also a state in one piece has."""
    for pending in range(w.block + 1):
        for blocks in (pending % 2, 2 + pending % 3) if pending else (0,):
            given = w.arguments(**w.random_node_arguments() if pending % 3 else {})
            given.pop("key", None)
            length, more = blocks * w.block + pending, w.dice.choice([0, 1, w.block - pending, w.dice.randint(0, 300)])
            w.add_case("saved", w.new(**given), f"update a {pending}:{pending + length}")
            w.call(f"load b {w.name} {save_state(w, 'a')}")
            for call in ("count b", f"update a 0:{more}", f"update b 0:{more}"):
                w.call(call)
            save_state(w, "b")
            if w.call("digest a") != w.call("digest b"):
                sys.exit(f"write.py: hashlib and the model differ on {w.name}, {given}, {length} and {more} bytes")
    for length in (0, 1, w.block, w.block + 1):
        w.add_case("saved", w.new(**w.random_node_arguments()), f"update a 0:{length}")
        saved = f"{w.name} {save_state(w, 'a')}"
        for call in ("copy a b", f"load c {saved}", "update b 0:200", "save b", "digest b", "save b", "save c",
                     "copy c d", "digest c", "save c", "save d", "wipe d", "save d", "save a"):
            w.call(call)
        load = f"load a {saved}"
        w.add_case("saved", load, "reset a", "count a", "save a", "update a 0:200", "save a", "digest a")
        w.add_case("saved", load, "last a 1", "save a", "last a 0", "save a", "last a 1", "update a 0:9", "save a",
               "digest a")
        w.add_case("saved", load, "update a 0:9", "verify a 00", "save a", load, "update a none", "save a", w.new(),
                   load,
               "save a", f"{load}00", "save a", "update a 0:1")
    for key in (1, w.longest):
        w.add_case("refused-save", w.new(key=key), "save a", f"update a 0:{w.block}", "save a", "update a 0:1",
                   "copy a b",
               "save b", "digest b", "save b", "save a", "digest a", "save a")
        w.add_case("refused-save", w.new(key=key), f"update a 0:{w.block}", "reset a", "save a", "digest a")


def state_after_message(w, length):
    """A state that has absorbed this many bytes."""
    return state_with_counter(SCALAR[hash_letter_of_name(w.name)], w.longest, Input(b""),
                              0).after_message(sample_message_slice(7, 7 + length))


def add_load_case(w, saved, *calls):
    """A case in which bytes are loaded and, if they are accepted, saved again and hashed on."""
    is_saved = state_from_bytes(SCALAR[hash_letter_of_name(w.name)], saved)
    w.add_case("loaded", f"load a {w.name} {saved.hex() or '-'}",
           *["count a", "save a", *calls, "digest a"] * bool(is_saved), *["update a 0:1"] * (not is_saved))


def write_loaded_byte_cases(w):
    """Each byte of what is saved is changed, and each number in it is at its edges."""
    numbers, half = 8 + 2 * w.longest, w.block // 2
    saved = state_after_message(w, w.block + half).saved_bytes()
    for at in range(len(saved)):
        add_load_case(w, saved[:at] + bytes([saved[at] ^ 1 << at % 8]) + saved[at + 1:], "update a 0:300")
    for other in (b"", saved[:1], saved[:7], saved[:8], saved[:numbers], saved[:-1], saved + b"\0", saved + saved,
                  saved[8:], saved.swapcase(), bytes(len(saved)), b"\xff" * len(saved),
                  saved.replace(b"BLAKE2", b"BLAKE2X")[:len(saved)]):
        add_load_case(w, other)
    for pending in (0, half, w.block):
        saved = state_after_message(w, pending).saved_bytes()
        bits, edges = [1 << k for k in range(8)], [0, 1, w.longest, w.longest + 1, 128, 129, 255]
        for at, values in ((7, (0, 2, 255)), (8 + w.longest + 1, [saved[8 + w.longest + 1] ^ bit for bit in bits]),
                           (numbers + 8, edges), (numbers + 9, [*edges, half - 1, half + 1, w.block, w.block + 1]),
                           (numbers + 10, (0, 1, 2, 255))):
            for value in values:
                add_load_case(w, saved[:at] + bytes([value]) + saved[at + 1:])
    other = CaseWriter({"blake2b": "blake2s", "blake2s": "blake2b"}[w.name])
    for length in (0, 1, other.block):
        add_load_case(w, state_after_message(other, length).saved_bytes())
    w.add_case("loaded", f"load a {w.name} none", "update a 0:1")


def write_loaded_counter_cases(w):
    """Counters with each bit and around 2^64, which no call but load brings about."""
    for bit in range(64):
        run = state_after_message(w, 1 + bit)._replace(counter=2**bit - bit % 2, last=bit % 2)
        add_load_case(w, run.saved_bytes(), "update a 0:1", "count a", f"update a 0:{2 * w.block}", "save a")
    for pending in (0, 1, w.block - 1, w.block):
        run = state_after_message(w, pending)
        for room in (0, 1, 2, w.block, 3 * w.block + 1):
            counter = 2**64 - 1 - pending - room
            add_load_case(w, run._replace(counter=counter).saved_bytes(), f"update a 0:{room + 1}", "update a 0:5000",
                          "count a",
                  f"update a 0:{room}", "count a", "update a -", "update a 0:1", "save a")
        for counter in (2**64 - pending, 2**64 - 1):
            if counter < 2**64 <= counter + pending:
                add_load_case(w, run._replace(counter=counter).saved_bytes())


def random_message_part(w, length):
    """A part of the message of this length, from any place on."""
    start = w.dice.randint(0, 300)
    return f"{start}:{start + length}" if length or start % 2 else "-"


def arguments_without_key(w):
    return {name: value for name, value in w.arguments().items() if name != "key"}


def calls_making_state(w, slot, held=0, **given):
    """The calls that make a state which has absorbed this many bytes."""
    return [w.new(slot, **given), *[f"update {slot} {random_message_part(w, held)}"] * (held > 0)]


def add_joint_update_case(w, what, makers, lengths, *more):
    """A case in which states, each from these calls, absorb pieces of these lengths in one call; then their digests."""
    slots = LETTERS[:len(makers)]
    w.add_case(what, *(call for calls in makers for call in calls),
           f"updates {slots} {' '.join(random_message_part(w, length) for length in lengths)}", *more,
           *map(w.end, slots))


def write_joint_update_cases(w):
    """States that absorb in one call: each length after each pending length, 1 to 20 of them, one unlike the rest."""
    lengths = sorted({max(0, blocks * w.block + more) for blocks in range(4) for more in (-1, 0, 1)})
    held = [0, 1, w.block - 1, w.block, w.dice.randint(2, w.block - 2), 2 * w.block + 1]
    for pending in held[:5]:
        for length in lengths:
            add_joint_update_case(w, "updates", [calls_making_state(w, slot, pending, **arguments_without_key(w))
                                                 for slot in LETTERS[:8]], [length] * 8)
    for count in range(1, 21):
        for least in (0, w.block + 1):  # with more than a block each, they go on in lanes
            add_joint_update_case(w, "updates", [calls_making_state(w, slot, w.dice.choice(held), **w.arguments())
                                                 for slot in LETTERS[:count]],
                     [w.dice.choice([length for length in lengths if length >= least]) for _ in range(count)])
    for place in range(9):
        for length in (0, w.block, 40 * w.block + place):
            each = [2 * w.block + w.dice.randint(1, w.block) for _ in range(9)]
            each[place] = length
            add_joint_update_case(w, "updates",
                                  [calls_making_state(w, slot, 0, size=w.longest) for slot in LETTERS[:9]], each)
    for count in range(4, 14):
        add_joint_update_case(w, "updates-node", [calls_making_state(w, slot, w.dice.choice(held),
                                                                     **w.arguments(**w.random_node_arguments()))
                                     for slot in LETTERS[:count]], [w.dice.choice(lengths[4:]) for _ in range(count)])


def write_keyed_joint_update_cases(w):
    """States whose key's block is pending, all of them or some, before pieces that compress it or do not."""
    for length in (0, 1, w.block - 1, w.block, w.block + 1, 3 * w.block):
        for count, step in ((1, 1), (4, 1), (5, 2), (8, 1), (9, 3)):
            makers = [calls_making_state(w, slot, 0, **w.arguments(**{"key": w.random_or_extreme(w.longest, 1)}
                                                                   if i % step == 0 else {}))
                      for i, slot in enumerate(LETTERS[:count])]
            add_joint_update_case(w, "updates-key", makers, [length if i % step == 0 else w.dice.randint(0, 3 * w.block)
                                                for i in range(count)])


def write_joint_counter_cases(w):
    """States at counters of their own: around 2^32 and each later byte of the counter, and up to 2^64 - 1."""
    for bit in (32, 33, 40, 48, 56, 63):
        for count in (5, 8):
            makers = [[w.new(slot, **w.arguments()), f"skip {slot} {2**bit - w.block * (i % 4)}", f"count {slot}"]
                      if i != 6 else calls_making_state(w, slot, 77) for i, slot in enumerate(LETTERS[:count])]
            lengths = [3 * w.block + w.dice.randint(0, 9) for _ in range(count)]
            add_joint_update_case(w, "updates-counter", makers, lengths, "count a")
    for place in range(9):  # one byte too many for one of them, and then as many as it can absorb
        pending, room = w.dice.randint(0, w.block), w.dice.randint(2 * w.block, 4 * w.block)
        run = state_after_message(w, pending)._replace(counter=2**64 - 1 - pending - room)
        makers = [[f"load {slot} {w.name} {run.saved_bytes().hex()}"] if i == place
                  else calls_making_state(w, slot, 40 * i)
                  for i, slot in enumerate(LETTERS[:9])]
        lengths = [room + (i == place) for i in range(9)]
        again = " ".join(random_message_part(w, room) for _ in lengths)
        add_joint_update_case(w, "updates-counter", makers, lengths, f"count {LETTERS[place]}",
                              f"updates {LETTERS[:9]} {again}",
                 f"count {LETTERS[place]}", f"updates {LETTERS[place]} 0:1")
    for place in (0, 3, 7):  # a key counts as a block
        skip = f"skip {LETTERS[place]} {2**64 - 4 * w.block}"
        makers = [calls_making_state(w, slot, 0, key=1 + i) + [skip] * (i == place) for i,
                  slot in enumerate(LETTERS[:8])]
        most = 3 * w.block - 1
        add_joint_update_case(w, "updates-counter", makers, [most + (i == place) for i in range(8)],
                 f"updates {LETTERS[:8]} {' '.join(random_message_part(w, most) for _ in range(8))}", "count a")


def write_refused_joint_update_cases(w):
    """No object for one of the pieces, or one of the states has ended: then none absorbs."""
    for slots in (LETTERS[:count] for count in (1, 4, 9)):
        for place, slot in enumerate(slots):
            pieces = [random_message_part(w, w.dice.randint(0, 4 * w.block)) for _ in slots]
            wrong, ends = [*pieces[:place], "none", *pieces[place + 1:]], list(map(w.end, slots))
            makers = [call for each in slots
                      for call in calls_making_state(w, each, w.dice.randint(0, 2 * w.block), **w.arguments())]
            w.add_case("updates-refused", *makers, f"updates {slots} {' '.join(wrong)}", f"count {slot}", *ends)
            end = (f"digest {slot}", f"wipe {slot}", f"verify {slot} 00")[place % 3]
            live = slots.replace(slot, "")
            w.add_case("updates-refused", *makers, end, f"updates {slots} {' '.join(pieces)}",
                   *[f"updates {live} {' '.join(pieces[1:])}"] * (live > ""), *ends)


def write_random_joint_update_cases(w):
    """Random calls of several states, some in one call."""
    for i in range(30):
        slots = LETTERS[:w.dice.randint(2, 12)]
        w.add_case("updates-walk", *(w.new(slot, **w.arguments()) for slot in slots))
        for _ in range(9):
            chosen = w.dice.sample(slots, w.dice.randint(1, len(slots)))
            least = w.dice.choice([0, w.block + 1])
            pieces = " ".join(random_message_part(w, w.dice.randint(least, 4 * w.block)) for _ in chosen)
            one, other = w.dice.sample(slots, 2)
            calls = [f"updates {''.join(chosen)} {pieces}"] * 6 + [
                f"update {one} {random_message_part(w, 3 * w.block)}",
                                                                  f"copy {one} {other}", w.end(one), w.new(one)]
            w.call(w.dice.choice(calls + [f"reset {one}", f"last {one} 1"] * (i % 3 == 0)))
        for slot in slots:
            w.call(w.end(slot))


def write_empty_key_cases(w):
    size = w.longest - 1
    w.add_case("empty-key", w.new(key="-"))
    w.add_case("empty-key", w.new(key="-", size=size, salt=w.salt))
    w.add_case("empty-key", w.new(), f"new a {w.name} key=-", "update a 0:1")
    for length in (0, 1, w.block):
        w.add_case("empty-key", f"hash {w.name} 0:{length} size={size} key=-")
    if w.has_nodes:
        w.add_case("empty-key", f"many {w.name} 0:3 4:9 key=-")


def case_file_text(name):
    w = CaseWriter(name)
    for kind in (write_length_cases, write_size_cases, write_random_cases, *[write_node_cases] * w.has_nodes,
                 write_piece_cases, *[write_tag_cases] * (not w.is_output), write_refusal_cases,
                 write_ended_state_cases, write_reset_cases, write_random_walk_cases,
                 *[write_many_messages_cases] * w.has_nodes, *[write_output_cases] * w.is_output,
                 *[write_tree_cases, write_tree_part_cases] * w.is_tree,
                 *[write_counter_cases, write_saved_state_cases, write_loaded_byte_cases,
                   write_loaded_counter_cases] * w.has_nodes,
                 *[write_joint_update_cases, write_keyed_joint_update_cases, write_joint_counter_cases,
                   write_refused_joint_update_cases, write_random_joint_update_cases] * w.has_nodes,
                 *[write_empty_key_cases] * ("key" in w.limits)):
        kind(w)
    return "\n".join([f"# {name}: conformance cases of BLAKE2, format 2. README.md describes them.", *w.lines, ""])


def checksum_line(name, text):
    """The line of SUMS, which b2sum reads."""
    return f"{hashlib.blake2b(text.encode()).hexdigest()}  {name}.txt\n"


def main():
    parser = Parser(description=__doc__.split("\n\n")[0])
    parser.add_argument("--sums", action="store_true", help="write SUMS too")
    parser.add_argument("folder")
    parser.add_argument("names", nargs="*", default=HASHES, help="the hashes, all of them by default")
    chosen, made = parser.parse_args(), []
    with ProcessPoolExecutor() as pool:
        for name, text in zip(chosen.names, pool.map(case_file_text, chosen.names)):
            with open(os.path.join(chosen.folder, f"{name}.txt"), "w") as file:
                file.write(text)
            made.append(checksum_line(name, text))
    with open(SUMS, "w+" if chosen.sums else "r", encoding="ascii") as file:
        file.writelines(made if chosen.sums else [])
        file.seek(0)
        wrong = [line.split()[1] for line in set(made) - set(file)]
    for name in wrong:
        print(f"write.py: {name} is not as tests/conformance/SUMS says", file=sys.stderr)
    return bool(wrong)


if __name__ == "__main__":
    sys.exit(main())
