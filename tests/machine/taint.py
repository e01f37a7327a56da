"""Follows secrets through a whole call: an abstract interpretation of the machine code that an exported function
reaches. Each byte of a register or of memory is public or secret. A branch or an address that may depend on a secret is
refused.

Public words are terms over public variables. So the offsets of memory are known, or within bounds: a word has a range
(low, high, step), and is one of low, low + step and so on up to high, or such a number less a multiple of 2^w, where w
is its width. Where paths meet, what differs becomes a new variable."""

import copy
import itertools
from math import gcd
from typing import Any, Callable, Iterator

import terms as T
from machine import AFTER, KEPT, SECRET, UNKNOWN, Flags, MachineState, MemoryRegion, bitwise, joined, need_public
from terms import OPPOSITE, CannotShow, IsWrong, signed

TOP = 1 << 64
VISITS = 2                             # of a place, after which ranges are widened
TABLE_STEP = 64                        # bytes from which an index is into a table, not an array


# A secret byte: all are the same term, because nothing is known about any; a public byte about which nothing is known;
# and a secret byte that is 0 or 1. T.reset() does not forget them.
SECRET_BYTE, UNKNOWN_BYTE, SECRET_BIT = (
    (T.Term("var", 8, name, serial, taint), 0)
    for serial, name, taint in ((-3, "secret", T.SECRET), (-2, "public", T.PUBLIC), (-1, "secret bit", T.SECRET)))

SECRET_WORD = [SECRET_BYTE] * 8


def keeps_its_name(b: Any) -> Any:
    """Whether a secret byte keeps its name: a bit, and what a register has at the entry and must have again."""
    return b == SECRET_BIT or b[0].op == "var" and b[0].taint == T.JUNK


def is_secret(b: T.Byte) -> bool:
    return not isinstance(b, int) and bool(b[0].taint & ~T.PUBLIC)


def join_bytes(a: T.Byte, b: T.Byte) -> T.Byte:
    """A byte that is one of both."""
    if a == b:
        return a
    return SECRET_BYTE if is_secret(a) or is_secret(b) else UNKNOWN_BYTE


@T.memoized
def strip_zero_bytes(t: T.Term) -> tuple:
    """The word of which a word has the low bytes, and zeros above, or itself; and how many these bytes are."""
    data = T.split(t)
    while data and data[-1] == 0:
        data.pop()
    is_one = data and not isinstance(data[0], int) and data == [(data[0][0], k) for k in range(len(data))]
    return data[0][0] if is_one else t, len(data)


def places_of_numbers(a: list, b: list) -> list:
    """The places of the numbers in two words, as ranges: all of a word, unless half of it is a number of its own."""
    half, sign = len(a) // 2, [255] * (len(a) // 2)
    is_one = lambda x: x[half:] in (half * [0], sign) or strip_zero_bytes(T.word(x))[0].op not in ("cat", "const")
    if half == 1 or is_one(a) and is_one(b):
        return [range(len(a))]
    low, high = places_of_numbers(a[:half], b[:half]), places_of_numbers(a[half:], b[half:])
    return low + [range(half + r.start, half + r.stop) for r in high]


@T.memoized
def split_constant_and_sign(t: T.Term) -> tuple:
    """A term as the sum of a number and of another term or its negative."""
    constant, items = T.linear(t)
    sign = -1 if signed(t.w, next(iter(items.values()), 0)) < 0 else 1
    return signed(t.w, constant), sign, T.add(t.w, *[(sign * k, u) for u, k in items.items()])


def align_range_to_step(low: int, high: int, start: int, step: int) -> tuple:
    """The least range with all numbers between two that are a start plus multiples of a step; 0 has only the start."""
    if step < 2:
        return low, high, step
    return low + (start - low) % step, high - (high - start) % step, step


def merged_ranges(a: tuple, b: tuple) -> tuple:
    """The least range that has the numbers of both."""
    return min(a[0], b[0]), max(a[1], b[1]), gcd(a[2], b[2], a[0] - b[0])


def intersect_ranges(a: tuple, b: tuple, w: int) -> tuple | None:
    """A range that has the words of w bits that two ranges share, by the greater step. None if there are none. If they
    meet at both ends, it is the smaller, or of two that have most words the one that begins later."""
    size = 1 << w
    shift = -((b[1] - a[0]) // size) * size          # the least with which b does not end before a
    if b[0] + shift > a[1]:
        return None
    if b[0] + shift + size <= a[1]:
        is_wide = all(r[1] - r[0] > size // 2 for r in (a, b))
        return max(a, b, key=lambda r: r[0]) if is_wide else min(a, b, key=lambda r: r[1] - r[0])
    b = b[0] + shift, b[1] + shift, b[2]
    if a[2] == 0 or b[2] == 0:
        return a if a[2] == 0 else b
    found = align_range_to_step(max(a[0], b[0]), min(a[1], b[1]), *max(a, b, key=lambda r: r[2])[::2])
    return found if found[0] <= found[1] else None


class TaintState(MachineState):
    """Values of which each byte is public or secret."""

    PARTS = {**MachineState.PARTS, **dict.fromkeys((
        "block", "longest", "facts", "ranges", "bounds", "undecided", "rounds", "where"), (KEPT, KEPT))}

    def __init__(self, regions: dict, processor: Any, alignment: tuple, block: int, longest: int = 0) -> None:
        """An index that has no bound, or a greater one than the longest array, stays within a block."""
        super().__init__(regions, processor, alignment)
        self.block, self.longest = block, longest or block
        # Byte -> what holds if it is 0, and what if it is not: comparisons, as for learn().
        self.facts: dict = {}
        # Of variables, and of sums without a constant that have a smaller range than their parts say.
        self.ranges: dict = {}
        self.bounds: frozenset = frozenset()           # words that a branch of the function has compared
        self.undecided: frozenset = frozenset()        # branches of which numbers have not said where they go
        self.rounds: tuple = ()        # how often loops were passed by other branches
        self.where = ""                # the path of calls and the instruction, for new variables

    def copy(self) -> Any:
        other = super().copy()
        other.ranges = dict(self.ranges)
        return other

    @staticmethod
    def leftover_kind(data: list) -> str:
        return AFTER

    def leftover_bytes(self, n: int, what: str) -> list:
        return [SECRET_BYTE] * n

    def unknown_public_bytes(self, n: int) -> list:
        return [UNKNOWN_BYTE] * n

    def bytes_to_store(self, data: list, is_word: bool, name: str = "") -> list:
        """Bytes as they are kept: what depends on a secret is only secret. An unknown word is a new variable."""
        if data.count(SECRET_BYTE) == len(data):
            return data
        data = [b if b is SECRET_BYTE or not is_secret(b) or keeps_its_name(b) else SECRET_BYTE for b in data]
        if not is_word or UNKNOWN_BYTE not in data:
            return data
        if not any(map(is_secret, data)):
            return T.split(self.new_public_variable(8 * len(data), "%s=%d" % (name, len(data))))
        return [(self.new_public_variable(8, "%s=%d." % (name, k)), 0) if b == UNKNOWN_BYTE else b
                for k, b in enumerate(data)]

    def is_bit(self, b: T.Byte) -> bool:
        """Whether a byte is 0 or 1."""
        return b == SECRET_BIT or not is_secret(b) and self.unsigned_range(T.word([b]))[1] <= 1

    # Ranges.

    def new_public_variable(self, w: int, what: str = "", limits: tuple | None = None) -> T.Term:
        """A public variable of w bits, named by the place of the instruction, with a new value from now on."""
        is_known = T.has_var(w, self.where + what)
        x = T.var(w, self.where + what, T.PUBLIC)
        if is_known:                   # of another, nothing says anything
            self.ranges = {t: r for t, r in self.ranges.items() if x not in T.linear(t)[1]}
            self.facts = {t: f for t, f in self.facts.items() if not any(
                x in T.variables(u) for u in [t] + [w for _, a, b, _ in f[0] + f[1] for w in (a, b)])}
        if limits:
            self.ranges[x] = limits
        return x

    def range_of(self, t: T.Term) -> tuple:
        if t.op == "const":
            n = signed(t.w, t.args) if t.w == 64 else t.args
            return n, n, 0
        if t.op in ("var", "add"):
            constant, sign, rest = split_constant_and_sign(t)
            low, high, step = self.range_of_rest(rest)
            return (constant + low, constant + high, step) if sign > 0 else (constant - high, constant - low, step)
        whole, size = strip_zero_bytes(t)
        low, high, step = self.range_of(whole) if whole is not t else (0, (1 << 8 * size) - 1, 1)
        return (low, high, step) if 0 <= low and high < 1 << 8 * size else (0, (1 << 8 * size) - 1, 1)

    def unpadded_word(self, t: T.Term) -> T.Term:
        """A word, or the one of which it has the low bytes and zeros, if both are the same number."""
        whole, size = strip_zero_bytes(t)
        low, high, _ = self.range_of(whole) if whole is not t else (0, 0, 0)
        return whole if 0 <= low and high < 1 << 8 * size else t

    def range_of_rest(self, t: T.Term) -> tuple:
        """The range of a variable, or of a sum without a constant."""
        known = self.ranges.get(t)
        if t.op != "add":
            return known or (self.range_of(t) if t.op != "var" else (0, (1 << t.w) - 1, 1))
        found = self.range_of_sum(t)
        known = known or (self.ranges.get(self.widened_sum(t)) if t.w < 64 else None)
        return intersect_ranges(known, found, t.w) or known if known else found

    def widened_sum(self, t: T.Term) -> T.Term:
        """The sum of 64 bits of the words of a sum."""
        bare = [(k, u, self.unpadded_word(u)) for u, k in t.args[1]]
        return T.add(64, *[(signed(t.w, k), v if v.w == 64 else T.word(T.split(u) + [0] * (8 - t.w // 8)))
                           for k, u, v in bare])

    def range_of_sum(self, t: T.Term) -> tuple:
        low = high = step = 0
        for u, k in t.args[1]:
            k, (a, b, s) = signed(t.w, k), self.range_of(u)
            low, high = low + min(k * a, k * b), high + max(k * a, k * b)
            step = gcd(step, k * s)
        return low, high, step

    def unsigned_range(self, t: T.Term) -> tuple:
        """The range of a term between 0 and 2^w."""
        (low, high, _), size = self.range_of(t), 1 << t.w
        return (low % size, high % size) if low // size == high // size else (0, size - 1)

    def is_negative(self, t: T.Term) -> bool | None:
        signs = {n >> t.w - 1 for n in self.unsigned_range(t)}
        return bool(signs.pop()) if len(signs) == 1 else None

    def limit(self, t: T.Term, low: int, high: int, step: int = 1) -> bool:
        """Learns that a term is low, low + step and so on up to high. Returns whether that may be."""
        constant, sign, rest = split_constant_and_sign(t)
        bare = self.unpadded_word(rest)
        if bare.op not in ("var", "add") or rest in self.regions:
            return True
        high -= (high - low) % step
        low, high = sorted((sign * (low - constant), sign * (high - constant)))
        found = intersect_ranges(self.range_of_rest(rest), (low, high, step), t.w)
        if found is None:
            return False
        if bare is not rest:           # of which only numbers from 0 on are learnt
            return found[0] < 0 or found[1] >> bare.w != 0 or self.limit(bare, *found)
        self.ranges[rest] = found
        return rest.op == "var" or self.limit_parts(rest)

    def limit_parts(self, t: T.Term) -> bool:
        """Learns from the range of a sum what follows for its parts."""
        low, high, _ = self.ranges[t]
        first, last, _ = self.range_of_sum(t)
        for x, k in t.args[1]:
            k, (a, b, _) = signed(t.w, k), self.range_of(x)
            p, q = (low - last + b, high - first + a) if k == 1 else (first - high + b, last - low + a)
            if self.unpadded_word(x).op == "var" and abs(k) == 1 and not self.limit(x, p, q):
                return False
        return True

    def assume(self, relation: str, a: T.Term, b: T.Term) -> bool:
        """Learns that two words are related. Returns whether that may be."""
        if "carry" in relation:
            return True                # nothing is learnt
        (p, q), (r, s) = self.unsigned_range(a), self.unsigned_range(b)
        if relation in (">", ">="):
            return self.assume({">": "<", ">=": "<="}[relation], b, a)
        if relation == "==":
            low, high = max(p, r), min(q, s)
            return low <= high and self.limit(a, low, high) and self.limit(b, low, high)
        if relation == "!=":
            difference, size = b - a, 1 << a.w
            low, high, step = self.range_of(difference)
            first, last = (low % size == 0) * (step or 1), (high % size == 0) * (step or 1)
            return high - low >= size or low + first <= high - last and self.limit(difference, low + first, high - last)
        strict = relation == "<"
        if strict and a is b or p + strict > s:
            return False
        may = self.limit(a, p, min(q, s - strict)) and self.limit(b, max(r, p + strict), s)
        return may and self.limit(b - a, strict + 0, s - p)

    def widened(self, old: tuple, new: tuple, w: int, visits: int) -> tuple:
        """A range that stops to grow after some visits. Its end goes to a block's size first."""
        if new == old or visits <= VISITS:
            return new
        low = new[0] if new[0] >= old[0] else 0 if new[0] >= 0 else -TOP
        top = next((n for n in (self.block, self.longest) if new[1] <= n), TOP if low else (1 << w) - 1)
        return align_range_to_step(low, top if new[1] > old[1] else new[1], new[0], new[2])

    # Flags.

    def compute_on_secrets(self, kind: str, f: Callable, a: T.Term, b: T.Term) -> list:
        self.flags = Flags(SECRET)
        return [SECRET_BYTE] * (a.w // 8)

    def conditional_compare(self, a: list, b: list) -> None:
        """A comparison that is made only if the one before it holds."""
        old = self.flags
        self.compute_and_set_flags("other", lambda x, y: None, a, b)
        if self.flags.kind != SECRET:
            self.flags = old if old.kind in (UNKNOWN, SECRET) else self.flags._replace(kind="ccmp")

    def learn(self, relation: str, a: T.Term, b: T.Term, holds: bool) -> bool:
        """Learns that a comparison holds or not, and what made a byte that is now known. Returns whether it may be."""
        if not self.assume(relation if holds else OPPOSITE[relation], a, b):
            return False
        low, high = self.unsigned_range(a)
        known: tuple = self.facts[a][low > 0] if a in self.facts and (low > 0 or high == 0) else ()
        return all(self.learn(*other) for other in known)

    def state_if_comparison(self, compared: Any, holds: bool) -> Any:
        """This machine with the ranges if a comparison holds or does not, or None if that may not be."""
        m: Any = copy.copy(self)
        m.ranges = dict(self.ranges)
        return m if compared is None or m.learn(*compared, holds) else None

    def truth(self, compared: Any) -> Any:
        """Whether a comparison holds, if that is known, or "secret"."""
        if self.flags.kind == SECRET:
            return "secret"
        for holds in (True, False):
            if self.state_if_comparison(compared, holds) is None:
                return not holds
        return None

    def chosen(self, compared: Any, a: list, b: list) -> list:
        """The bytes a if a comparison holds, and otherwise b, without a branch."""
        truth = self.truth(compared)
        if truth is not None:
            return [SECRET_BYTE] * len(a) if truth == "secret" else a if truth else b
        if a == b:
            return a
        one, other = (self.state_if_comparison(compared, on) for on in (True, False))
        data = self.join_words(one, other, a, b, "?", 0)
        if not any(map(is_secret, a + b + data)):
            words = T.word(data), T.word(a), T.word(b)
            for t in words[1:]:
                self.learn_joined_range(one, other, 0, *(u - t for u in words))
        return data

    def learn_joined_range(self, one: Any, other: Any, visits: int, *words: T.Term) -> None:
        """Learns the range of a word that is another in two machines; after some visits, only if it does not grow."""
        old = one.range_of(words[1])
        if old[1] - old[0] >= 1 << words[0].w - 1:
            return
        low, high, step = merged_ranges(old, other.range_of(words[2]))
        if visits <= VISITS or (low, high) == old[:2]:
            a, b, _ = self.range_of(words[0])
            if high - low < min(b - a, 1 << words[0].w - 1):
                self.limit(words[0], low, high, step & -step or 1)

    def bit(self, compared: Any) -> T.Byte:
        """A byte that is 1 if a comparison holds, and otherwise 0."""
        truth = self.truth(compared)
        if truth is not None:
            return SECRET_BIT if truth == "secret" else int(truth)
        x = self.new_public_variable(8, "", (0, 1, 1))
        if compared:
            self.facts = {**self.facts, x: tuple(((*compared, on),) for on in (False, True))}
        return x, 0

    def outcomes(self, compared: Any, at: int) -> Iterator:
        words = compared[1:] if compared and "carry" not in compared[0] else ()
        self.bounds |= {t for t in words if t.w == 64 and t.op in ("var", "add")}
        if {t.op for t in words} != {"const"}:
            self.undecided |= {at}
        for jumps in (True, False):
            m = self.copy().state_if_comparison(compared, jumps)
            if m:
                yield m, jumps

    def bitwise_or(self, a: T.Term, b: T.Term) -> T.Term:
        """An or. If it is 0, both are."""
        for t, u in ((a, b), (b, a)):
            if t.op == "const" and (t.args == 0 or self.stack_address_lacks_bits(u, t.args)):
                return t + u
        bits = max(self.unsigned_range(a)[1], self.unsigned_range(b)[1]).bit_length()
        r = self.new_public_variable(a.w, "", (0, (1 << bits) - 1, 1))
        if a in self.facts and b in self.facts:
            self.facts = {**self.facts, r: (self.facts[a][0] + self.facts[b][0], ())}
        return r

    def bitwise_and(self, a: T.Term, b: T.Term) -> Any:
        """An and. One that clears the lowest bits only subtracts them. If it is not 0, neither of both is 0."""
        if a.op == b.op == "const":
            return T.const(a.w, a.args & b.args)
        for t, u in ((a, b), (b, a)):
            ones = (1 << self.unsigned_range(t)[1].bit_length()) - 1
            if u.op == "const" and u.args & ones == ones:
                return t
        if a in self.facts and b in self.facts:
            r = self.new_public_variable(a.w, "", (0, min(self.unsigned_range(a)[1], self.unsigned_range(b)[1]), 1))
            self.facts = {**self.facts, r: ((), self.facts[a][1] + self.facts[b][1])}
            return r
        n = min((t.args for t in (a, b) if t.op == "const"), default=(1 << a.w) - 1)
        low = (1 << a.w) - n
        if set(T.linear(a)[1]) == {self.stack}:
            return self.round_down_stack_address(a, low)
        if b.op == "const" and low <= 4096 and low & low - 1 == 0:
            r = a - self.new_public_variable(a.w, "low", (0, low - 1, 1))
            first, last = self.unsigned_range(a)
            self.limit(r, first & -low, last & -low, low)
            return r
        return 0, n, n & -n or 1

    def xor_values(self, *_: Any) -> None:
        """An exclusive or, and a field of bits: nothing is known of them."""

    low_bits_shifted_left: Any = xor_values

    def shifted_right(self, a: T.Term, k: int) -> Any:
        """The range of a word that is shifted to the right."""
        return tuple(n >> k for n in self.unsigned_range(a)) + (1,)

    def combined(self, name: str, x: list, y: list) -> list:
        """The bytes of a bitwise operation on vectors."""
        functions: dict = {"xor": T.xor, "or": T.bitwise_or, "and": T.bitwise_and}
        return self.vector_result_or_unknown(lambda a, b: bitwise(functions[name], a, b), x, y)

    def vector_result_or_unknown(self, f: Callable, *data: list) -> list:
        """The bytes of an operation on vectors: those of numbers, or of which each may depend on all."""
        if all(isinstance(b, int) for part in data for b in part):
            try:
                return f(*data)
            except CannotShow:
                pass
        return [self.byte_depending_on(joined(data))] * len(data[0])

    def apply_mask_to_secrets(self, data: list, mask: list) -> list:
        """Nothing is left of the secret bytes that a mask clears."""
        return [0 if bits == 0 and is_secret(b) else b for b, bits in zip(data, mask)]

    def byte_depending_on(self, data: list) -> T.Byte:
        return SECRET_BYTE if SECRET_BYTE in data or any(map(is_secret, data)) else UNKNOWN_BYTE

    # Memory.

    def places(self, address: T.Term, length: T.Term) -> tuple:
        """The base, the offsets of bytes that an access may reach, and the region. Without a bound, one block."""
        base, _, region = self.region_of(address)
        (low, _, step), (_, end, _) = (self.offset_range(t, base) for t in (address, address + length))
        if base is self.stack and low < self.lowest_stack_offset():
            raise IsWrong("%r is below the stack" % address)
        if region.uniform:             # one stands for all
            return base, range(1), region
        is_index = length.op == "const"
        least = low + (length.args if is_index else 1)
        is_bounded = end - least < self.longest or is_index and step >= TABLE_STEP
        if not is_bounded or is_index and least < end > region.high:
            end = min([low + self.block] + [r.stop for r in region.arrays if low in r])
        if not region.low <= low <= end <= region.high:
            raise CannotShow("no bound is known for %r, from %d on" % (address, low))
        return base, range(low, end), region

    def load(self, address: T.Term, size: Any, aligned: bool = False) -> list:
        base, places, region = self.places(address, T.const(64, size))
        if region.table:
            return region.table(self, self.range_of(address - base), size)
        data = [self.byte(base, k) for k in places]
        return data if len(data) == size else [self.byte_depending_on(data)] * size

    def store(self, address: T.Term, data: list, aligned: bool = False) -> None:
        self.write(address, T.const(64, len(data)), data)

    def write(self, to: T.Term, length: T.Term, data: list) -> None:
        """Writes bytes. If the place or the length is not known, each byte may be an old one or any of these."""
        base, places, region = self.places(to, length)
        self.check_writable(region, to)
        if region.uniform:
            return
        data = self.bytes_to_store(data, False)
        if length is not T.const(64, len(places)):
            new, old = self.byte_depending_on(data), [self.byte(base, k) for k in places]
            lost = [b for b in old if not (isinstance(b, int) or is_secret(b) or b == UNKNOWN_BYTE)]
            if base is self.stack and is_secret(new) and lost:
                raise CannotShow("no bound is known for a place: a secret may overwrite %r on the stack" % lost[0][0])
            data = [join_bytes(b, new) for b in old]
        self.memory.update(zip(zip(itertools.repeat(base), places), data))

    def copy_memory(self, to: T.Term, source: T.Term, length: T.Term, is_apart: bool) -> None:
        """memcpy and memmove."""
        length = self.public_length(length)
        if length.op == "const":
            self.store(to, self.load(source, length.args))
        else:
            base, places, region = self.places(source, length)
            self.write(to, length, [self.byte(base, k) for k in places])

    def fill_memory(self, to: T.Term, b: T.Byte, length: T.Term) -> None:
        """memset."""
        length = self.public_length(length)
        self.write(to, length, [b] * (length.args if length.op == "const" else 1))

    def public_length(self, t: T.Term) -> T.Term:
        """A length, which must be public, as a number if it is known."""
        need_public(t, "a length")
        low, high = self.unsigned_range(t)
        return T.const(64, low) if low == high else t

    # Paths that meet.

    def join(self, other: Any, place: str, visits: int, is_loop: bool = False) -> bool:
        """Adds another path to this state. Returns whether anything changed. A loop's head learns how words differ."""
        old, words = self.copy(), []
        self.where = place
        # What holds on both paths. A range that is missing is not known.
        ranges = {t: r if r == other.ranges[t] else merged_ranges(r, other.ranges[t])
                  for t, r in self.ranges.items() if t in other.ranges}
        self.ranges = {t: r for t, r in ranges.items() if r[1] - r[0] <= 2 * TOP}
        self.facts = {t: f for t, f in self.facts.items() if other.facts.get(t) == f}
        self.bounds |= other.bounds
        for name in self.processor.FILES:
            for at, (a, b) in enumerate(zip(getattr(old, name), getattr(other, name))):
                if a != b:
                    data = self.join_words(old, other, a, b, "%s%d" % (name, at), visits)
                    getattr(self, name)[at] = data
                    if is_loop and len(data) == 8 and not any(map(is_secret, data + a + b)):
                        words.append([T.word(d) for d in (data, a, b)])
        changed = {(base, k & ~7) for (base, k), _ in self.memory.items() ^ other.memory.items()}
        for base, k in sorted(changed, key=lambda at: (at[0].serial, at[1])):
            a, b = ([m.byte(base, k + j) for j in range(8)] for m in (old, other))
            for r in places_of_numbers(a, b) if a != SECRET_WORD else ():
                at = k + r.start
                pair = a[r.start:r.stop], b[r.start:r.stop]
                data = self.join_words(old, other, *pair, "%s%d" % (base.args, at), visits)
                self.memory.update({(base, at + j): byte for j, byte in enumerate(data)})
        self.learn_joined_differences(old, other, visits, words)
        if self.flags != other.flags:
            self.flags = Flags(UNKNOWN)
        return any(getattr(self, name) != getattr(old, name)
                   for name in (*self.processor.FILES, "memory", "ranges", "facts", "flags"))

    def learn_joined_differences(self, old: Any, other: Any, visits: int, words: list) -> None:
        """Learns how words, given after two paths met and on each, differ from each other and from bounds."""
        words = [[T.add(64, (1, t), *[(-1, base) for base in self.bases_of(three[0])]) for t in three]
                 for three in words]
        new = {x for t, _, _ in words for x in T.linear(t)[1] if x not in self.regions}
        bounds = [(t, t, t) for t in self.bounds if not new & set(T.linear(t)[1])]
        for k, three in enumerate(words):
            for sign, others in ((-1, bounds), (1, words[:k]), (-1, words[:k])):
                for pair in others:
                    self.learn_joined_range(old, other, visits, *(u + sign * v for u, v in zip(three, pair)))

    def join_words(self, old: Any, other: Any, a: list, b: list, name: str, visits: int) -> list:
        """The bytes of a word or a vector that is one of both."""
        secrets = [SECRET_BYTE] * len(a)
        if secrets in (a, b):
            return secrets
        if len(a) > 8 or any(map(is_secret, a + b)) or UNKNOWN_BYTE in a + b:
            data = []
            for k, (x, y) in enumerate(zip(a, b)):
                if x != y and len(a) <= 8 and old.is_bit(x) and other.is_bit(y):
                    x = y = SECRET_BIT if is_secret(x) or is_secret(y) else (
                        self.new_public_variable(8, "%s.%d" % (name, k), (0, 1, 1)), 0)
                data.append(join_bytes(x, y))
            return self.bytes_to_store(data, len(a) <= 8 and not name.startswith("sp"), name)
        t, u = (T.word(data + [0] * (8 - len(data))) for data in (a, b))
        base, w = self.common_base(t, u), 8 * len(a)
        old_range, new_range = (m.offset_range(v, base) for m, v in ((old, t), (other, u)))
        x = self.new_public_variable(w, name, self.widened(old_range, merged_ranges(old_range, new_range), w, visits))
        return T.split(base + x if w == 64 else x)

    def common_base(self, t: T.Term, u: T.Term) -> T.Term:
        """The base that two words have in common, or 0. Bases of memory that is only read become a base of both."""
        found = [self.bases_of(s) for s in (t, u)]
        is_one = all(len(bases) == 1 for bases in found)
        if is_one and found[0] == found[1]:
            return found[0][0]
        if not is_one or any(self.regions[v].writable for v, in found):
            return T.const(t.w, 0)
        names = sorted(set("|".join(str(v.args) for v, in found).split("|")))
        b = join_bytes(*[r.initial(0) if r.uniform else UNKNOWN_BYTE for r in (self.regions[v] for v, in found)])
        base = T.var(t.w, "|".join(names), T.PUBLIC)
        self.regions[base] = MemoryRegion(0, 0, lambda k: b, False, uniform=True)
        return base

    def offset_range(self, t: T.Term, base: T.Term) -> tuple:
        """The range of a word without its base, if that is known."""
        if base.op == "const":
            return self.range_of(t)
        if base not in T.linear(t)[1]:
            return -TOP, TOP, 1
        low, high, step = self.range_of(t - base)
        shift = low + TOP // 2 & -TOP
        return low - shift, high - shift, step
