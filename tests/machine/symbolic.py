"""The values of whole calls that are executed over variables: no byte is forgotten. What a function of the C library
copies, if its length is not a number, is a choice byte by byte. A branch that is not decided is taken both ways."""

import itertools
from typing import Any, Callable, NamedTuple

import terms as T
from facts import RELATIONS, PathFacts
from machine import (AFTER, AFTER_KEY, GROWS, KEPT, SECRET, Flags, MachineState, MemoryRegion, UnknownStackAlignment,
                     bitwise, chunks, joined, need_public)
from taint import is_secret, strip_zero_bytes
from terms import OPPOSITE, CannotShow, IsWrong, signed

KEYS = ("key.", "new~", "rest~", AFTER_KEY + "~")       # variables that may be bytes of a key
WRITTEN = 256                          # bytes of an output that are often written together
_COUNT = itertools.count()             # for names of variables that are used once


class UndecidedComparison(Exception):
    """A comparison that may hold or not: the instruction is executed again for both."""

    def __init__(self, compared: tuple) -> None:
        super().__init__("a comparison of %s" % (compared,))
        self.compared = compared


def fresh_bytes(what: str, taint: int, n: int = 1) -> list:
    """Bytes of which nothing is known: those of one variable. A name with ~ is that of no input."""
    t = T.var(8 * n, "%s~%d" % (what, next(_COUNT)), taint)
    return [(t, k) for k in range(n)]


def without_zero_padding(machine: Any, n: T.Term) -> T.Term:
    """A word or a sum, by the words of which it has the low bytes and zeros, if the path knows them to be the same."""
    constant, parts = T.linear(n)
    if any(u is not n and u.op == "cat" for u in parts):
        found = [(k, without_zero_padding(machine, u)) for u, k in parts.items()]
        return T.add(n.w, (1, T.const(n.w, constant)), *found)
    whole, size = strip_zero_bytes(n)
    return whole if whole is not n and whole.w == n.w and machine.path_facts.range(whole)[1] < 1 << 8 * size else n


def choose_if_below(machine: Any, j: int, n: T.Term, a: T.Byte, b: T.Byte) -> T.Byte:
    """The byte a if j is below n, and otherwise b."""
    n = without_zero_padding(machine, n)
    low, high = machine.path_facts.range(n)
    if j < low or a == b:
        return a
    if j >= high:
        return b
    way = lambda x, k: definition_of_byte(x)[3 + k] if definition_of_byte(x)[:3] == ("below", j, n) else x
    return byte_chosen_if_below(j, n, way(a, 0), way(b, 1))


def byte_chosen_if_below(j: int, n: T.Term, a: T.Byte, b: T.Byte) -> T.Byte:
    if a == b:
        return a
    taint = T.PUBLIC | T.SECRET | T.word([a, b]).taint
    return T.var(8, ("below", j, n, a, b), taint), 0


def definition_of_byte(b: T.Byte) -> tuple:
    """What a byte is if it is one by others: the kind of the variable, and these."""
    return b[0].args if isinstance(b, tuple) and b[0].op == "var" and isinstance(b[0].args, tuple) else ("",)


def zero_if_both_are_zero(a: T.Byte, b: T.Byte) -> T.Byte:
    """A byte that is zero if and only if both are."""
    members = bytes_ored_into(a) | bytes_ored_into(b)
    return (T.var(8, ("any", members), T.SECRET), 0) if members else 0


def bytes_ored_into(b: T.Byte) -> frozenset:
    """Bytes that all are zero if and only if this one is."""
    return definition_of_byte(b)[1] if definition_of_byte(b)[0] == "any" else frozenset([b] if b != 0 else ())


def zero_test_byte(t: Any) -> T.Byte:
    """A byte that is 1 if a secret word is zero, and otherwise 0."""
    members = frozenset().union(*map(bytes_ored_into, T.split(t)))
    return (T.var(8, ("zero", members), T.SECRET), 0) if members else 1


class Buffer:
    """Memory of a caller whose length is a term. A byte is a variable, named by the buffer and the offset."""

    low, alignment = 0, (1, 0)

    def __init__(self, name: str, length: T.Term, taint: int, writable: bool = False) -> None:
        self.name, self.length, self.taint, self.writable = name, length, taint, writable

    def initial(self, offset: int) -> T.Byte:
        return T.var(8, (self.name, T.as_term(64, offset)), self.taint), 0

    __call__ = initial


class WrittenPiece(NamedTuple):
    """What was written to a buffer at an offset, a term: some bytes, from a place among them on, or one byte over and
    over, up to a length. None are what the iterations of a loop have written before."""

    base: T.Term
    offset: T.Term
    data: Any
    length: T.Term
    start: Any = 0


class SymbolicState(MachineState):
    """Terms over the variables of a call. Facts decide how public ones compare."""

    PARTS = {
        **MachineState.PARTS, **dict.fromkeys(("compared_bytes", "is_kept", "pieces"), (KEPT, KEPT)),
        **dict.fromkeys(("path_facts", "apart", "inside", "deepest", "is_scrubbed", "secrets", "pc", "settled_values"),
                        (KEPT, GROWS))}

    def __init__(self, regions: dict, processor: Any, alignment: tuple, known: PathFacts | None = None) -> None:
        super().__init__(regions, processor, alignment)
        self.path_facts = known or PathFacts()
        self.apart: frozenset = frozenset()
        self.compared_bytes: Any = None
        # The lowest place of the stack that was used; the places where a secret may be, also below the stack pointer,
        # each with whether a byte of a key may be there; and whether scrub_stack has overwritten all below the frame
        # of the call.
        self.deepest, self.is_scrubbed = 0, False
        self.secrets: dict = {}
        self.is_kept: Callable = is_secret_byte        # which bytes are secret there
        self.inside: dict = {}         # places of outputs that are known to be inside: offsets and sizes
        self.pieces: tuple = ()        # what was written to buffers at offsets that are terms, in order
        self.settled_values = 0        # how many values substitute_known_values() has used

    def use_stack_down_to(self, low: int) -> None:
        self.deepest, self.is_scrubbed = min(self.deepest, low), False

    def forget_stack_below_pointer(self) -> None:
        self.deepest = min(self.deepest, self.lowest_stack_offset())
        super().forget_stack_below_pointer()

    def record_compression_stack(self, frame: int) -> None:
        """A compression has used so many bytes of the stack, for secrets."""
        low = self.lowest_stack_offset()
        self.use_stack_down_to(low - frame)
        terms = {b[0] for r in self.general + self.vector for b in r if isinstance(b, tuple)}
        is_key = any(t.taint & T.SECRET and term_depends_on_key(t) for t in terms)
        self.add_secret_places(dict.fromkeys(range(low - frame, low), is_key))

    def add_secret_places(self, others: dict) -> None:
        """Adds places where a secret may be, each with whether a byte of a key may be there."""
        self.secrets.update({at: is_key or self.secrets.get(at, False) for at, is_key in others.items()})

    def merge_stack_use_of(self, others: list) -> None:
        self.deepest, self.is_scrubbed = min(m.deepest for m in [self] + others), False
        for m in others:
            self.add_secret_places(m.secrets)

    def put(self, base: T.Term, places: Any, data: list) -> None:
        """Writes bytes at places that are numbers."""
        self.memory.update(zip(zip(itertools.repeat(base), places), data))
        if base is self.stack:
            self.is_scrubbed = False
            for at, b in zip(places, data):
                if self.is_kept(b):
                    self.secrets[at] = byte_depends_on_key(b)
                elif at in self.secrets:
                    del self.secrets[at]

    def copy(self) -> Any:
        other = super().copy()
        other.secrets = dict(self.secrets)
        return other

    def vector_byte_is_allowed_to_remain(self, j: int, k: int, b: T.Byte) -> bool:
        """Whether a byte of a vector register is zero, as at the entry, or left by the C library."""
        return b in (0, self.at_start["vector"][j][k]) or isinstance(b, tuple) and is_left_by_c_library(b[0])

    def vector_may_remain(self, j: int, start: int) -> bool:
        """Whether all are zero, from one on, or each is as at the entry or left by the C library."""
        if self.vector[j][start:] == self.at_start["vector"][j][start:]:
            return True
        data = self.vector[j][start:]
        return not any(data) or all(data) and all(
            self.vector_byte_is_allowed_to_remain(j, k, b) for k, b in enumerate(data, start))

    @staticmethod
    def leftover_kind(data: list) -> str:
        """What a function of the C library that has read these bytes leaves."""
        return AFTER_KEY if any(map(byte_depends_on_key, data)) else AFTER

    def leftover_bytes(self, n: int, what: str) -> list:
        """What a function leaves in a register."""
        return fresh_bytes(what, T.SECRET, n) if n else []

    def unknown_public_bytes(self, n: int) -> list:
        return fresh_bytes("new", T.PUBLIC, n)

    def new_public_variable(self, w: int, what: str = "", limits: Any = None) -> T.Term:
        return T.var(w, "new~%d" % next(_COUNT), T.PUBLIC)

    def bytes_to_store(self, data: list, is_word: bool) -> list:
        return data

    # Numbers.

    def with_known_values(self, t: T.Term) -> T.Term:
        """A word, in which variables of which the value is known are numbers."""
        values = self.path_facts.known_values()
        return T.substitute(t, values, {}) if values else t

    def byte_normalizer(self) -> Callable:
        values = self.path_facts.known_values()
        memo: dict = {}
        return lambda b: b if isinstance(b, int) or b[0].taint != T.PUBLIC or not values else T.split(
            T.substitute(b[0], values, memo))[b[1]]

    def substitute_known_values(self) -> None:
        """The same of all bytes that a path has made, after it has learnt something."""
        known, self.settled_values = self.settled_values, len(self.path_facts.known_values())
        if known == self.settled_values:
            return
        byte = self.byte_normalizer()
        for name in self.processor.FILES:
            setattr(self, name, [[byte(b) for b in r] for r in getattr(self, name)])
        self.memory = {at: byte(b) for at, b in self.memory.items()}

    def learn(self, relation: str, a: T.Term, b: T.Term, holds: bool) -> bool:
        self.path_facts = self.path_facts.with_comparison(relation if holds else OPPOSITE[relation], a, b)
        return self.path_facts.are_possible()

    def decide(self, relation: str, a: T.Term, b: T.Term) -> bool | None:
        """Whether two words are so related, if that is known. What is written overlaps no other argument."""
        bases = tuple(sorted({u for t in (a, b) for u in T.linear(t)[1] if u in self.regions}, key=lambda u: u.serial))
        if len(bases) == 2 and bases not in self.apart and any(self.regions[u].writable for u in bases):
            self.apart = self.apart | {bases}
            x, y = (u + self.regions[u].low for u in bases)
            n, m = (self.regions[u].length for u in bases)
            self.path_facts = self.path_facts.with_ranges_apart(x, n, y, m)
        return self.path_facts.decide(relation, a, b)

    def relation_always_holds(self, relation: str, a: T.Term, b: Any) -> bool:
        """Whether a word is so related to another, or to a number."""
        return self.path_facts.imply(relation, a, T.as_term(a.w, b))

    def need_comparisons(self, text: str, *wanted: tuple) -> None:
        """Refuses a path on which one of some comparisons may not hold."""
        for relation, a, b in wanted:
            if not self.relation_always_holds(relation, a, b):
                inputs = self.path_facts.counterexample_text(relation, a, b)
                raise IsWrong("%s: for %s" % (text, inputs)) if inputs else CannotShow(text)

    def need_inside(self, text: str, region: Any, at: T.Term, n: T.Term) -> None:
        """Refuses n bytes from an offset on that may not be in a region."""
        at = at - region.low
        inside = lambda n: (("<=", n, region.length), ("<=", at, region.length - n))
        if n.op == "const" and region.writable and isinstance(region, Buffer):
            for first, count in self.inside.get(region, ()):
                behind = offset_number(at - first)
                if behind is not None and 0 <= behind <= count - n.args:
                    return
            most = T.const(64, max(n.args, WRITTEN))
            if all(self.relation_always_holds(*comparison) for comparison in inside(most)):
                self.inside = {**self.inside, region: self.inside.get(region, ()) + ((at, most.args),)}
                return
        self.need_comparisons(text, *inside(n))

    # Flags.

    def compute_on_secrets(self, kind: str, f: Callable, a: T.Term, b: T.Term) -> list:
        r = f(a, b)
        if not isinstance(r, T.Term):
            r = T.word(fresh_bytes("new", T.SECRET, a.w // 8))
        if r.taint & ~T.PUBLIC or kind in ("add", "sub"):
            self.flags = Flags(SECRET, result=r)
        else:                          # what the flags say is only by the result
            self.flags = Flags(kind, r, r, r)
        return T.split(r)

    def holds_or_raise_undecided(self, compared: Any) -> bool:
        if compared is None:
            raise CannotShow("a condition that is not modelled")
        answer = self.decide(*compared)
        if answer is None:
            raise UndecidedComparison(compared)
        return answer

    def is_negative(self, t: T.Term) -> bool:
        return self.holds_or_raise_undecided((">=", t, T.const(t.w, 1 << t.w - 1)))

    def bit(self, compared: Any) -> T.Byte:
        """A byte that is 1 if a comparison holds, and otherwise 0."""
        if self.flags.kind != SECRET:
            return self.chosen(compared, [1], [0])[0]
        if compared[0] != "==" or self.flags.result is None:
            return fresh_bytes("new", T.SECRET)[0]
        return zero_test_byte(self.flags.result)

    def chosen(self, compared: Any, a: list, b: list) -> list:
        """The bytes a if a comparison holds, and otherwise b, without a branch."""
        if self.flags.kind == SECRET:
            return fresh_bytes("new", T.SECRET, len(a))
        choose = lambda x, y, on, off: on if RELATIONS[compared[0]](x, y) else off
        found = T.fold_constants(choose, 8 * len(a), *compared[1:], T.word(a), T.word(b)) if (
            compared and compared[0] in RELATIONS) else None
        return T.split(found) if found else a if self.holds_or_raise_undecided(compared) else b

    def holds(self, compared: Any) -> bool:
        """Whether a comparison holds, for a branch."""
        for t in compared[1:] if compared else ():
            need_public(t, "a branch")
        return self.holds_or_raise_undecided(compared)

    def outcomes(self, compared: Any, at: int) -> list:
        return [(self, self.holds(compared))]

    def conditional_compare(self, a: list, b: list) -> None:
        """The flags would be of one comparison or of another."""
        raise CannotShow("a comparison that depends on another is not modelled in whole calls")

    # Words.

    def normalized_byte(self, b: T.Byte) -> T.Byte:
        """A byte of a public word, by what is known of its range."""
        if isinstance(b, int) or b[0].taint != T.PUBLIC or b[0].op not in ("var", "add", "slice"):
            return b
        return self.bytes_of(b[0])[b[1]]

    def bytes_of(self, t: T.Term) -> list:
        """The bytes of a word: of a sum whose parts are in bytes of their own, those of the parts."""
        constant, items = T.linear(t)
        data = list(constant.to_bytes(t.w // 8, "little"))
        for u, k in items.items():
            place, size = (k.bit_length() - 1) // 8, self.nonzero_byte_count(u)
            if k != 1 << 8 * place or any(data[place:place + size]) or place + size > len(data):
                return T.split(t)
            data[place:place + size] = T.split(u)[:size]
        return data

    def nonzero_byte_count(self, t: T.Term) -> int:
        """How many of the lowest bytes of a word may have another value than 0."""
        most = t.w // 8
        return next((n for n in range(most) if self.relation_always_holds("<", t, 1 << 8 * n)), most)

    def normalized_bytes(self, t: T.Term) -> list:
        return [self.normalized_byte(b) for b in T.split(t)] if t.taint & T.PUBLIC else T.split(t)

    def xor_values(self, a: T.Term, b: T.Term) -> Any:
        if not (a.taint | b.taint) & T.PUBLIC and a.op != "cat" != b.op:
            return T.xor(a.w, a, b)
        return T.word(bitwise(T.xor, self.normalized_bytes(a), self.normalized_bytes(b)))

    def bitwise_or(self, a: T.Term, b: T.Term) -> T.Term:
        for t, u in ((a, b), (b, a)):
            if t.op == "const" and self.stack_address_lacks_bits(u, t.args):
                return t + u
        x, y = self.normalized_bytes(a), self.normalized_bytes(b)
        try:
            return T.word(bitwise(T.bitwise_or, x, y))
        except CannotShow:
            pass
        try:
            return T.word([zero_if_both_are_zero(x, y) if is_secret_byte(x) and is_secret_byte(y) and x != y else
                           T.or_byte(x, y) for x, y in zip(x, y)])
        except CannotShow:
            if (a.taint | b.taint) & ~T.PUBLIC:
                raise
            r = self.new_public_variable(a.w)          # of which only bounds are known
            self.path_facts = self.path_facts.with_or_bounds(r, a, b)
            return r

    def split_by_power_of_two(self, t: T.Term, m: int) -> Any:
        """A sum as a multiple of m, which is a power of two, and a rest below m; or None."""
        constant, items = T.linear(t)
        rest = T.add(t.w, *[(k, u) for u, k in items.items() if k % m])
        for extra in {constant % m, constant % m - m}:
            found = rest + extra
            if self.relation_always_holds("<", found, m):
                return t - found, found
        return None

    def bitwise_and(self, a: Any, b: Any) -> Any:
        if a is b:
            return a
        for t, u in ((a, b), (b, a)):
            if u.op != "const" or t.op == "const" or t.taint & ~T.PUBLIC:
                continue
            low = (u.args ^ (1 << t.w) - 1) + 1
            if set(T.linear(t)[1]) == {self.stack}:
                return self.round_down_stack_address(t, low)
            if low & low - 1 == 0 and self.split_by_power_of_two(t, low):
                return self.split_by_power_of_two(t, low)[0]
            unit = u.args & -u.args
            if unit and u.args & u.args + unit == 0 and self.split_by_power_of_two(t, u.args + unit):
                rest = self.split_by_power_of_two(t, u.args + unit)[1]
                return self.bitwise_and(rest, T.const(t.w, -unit)) if unit > 1 else rest
        return T.bitwise_and(a.w, T.word(self.normalized_bytes(a)), T.word(self.normalized_bytes(b)))

    def shifted_right(self, a: Any, k: Any) -> Any:
        found = self.split_by_power_of_two(a, 1 << k) if a.op in ("add", "var") and not a.taint & ~T.PUBLIC else None
        if found:
            constant, items = T.linear(found[0])
            r = T.add(a.w, (1, T.const(a.w, signed(a.w, constant) >> k)),
                      *[(signed(a.w, c) >> k, u) for u, c in items.items()])
            if self.relation_always_holds("<", r, 1 << a.w - k):
                return r               # r 2^k is the multiple, and does not wrap
        return T.shr(a.w, a, k)

    def combined(self, name: str, x: list, y: list) -> list:
        """The bytes of a bitwise operation on vectors."""
        if not any(x + y):             # such as those that settle reads
            return x
        if name == "and":
            return joined(self.vector_result_or_unknown(lambda p, q: [T.and_byte(*p, *q)], *pair)
                          for pair in zip(chunks(x, 1), chunks(y, 1)))
        f = self.xor_values if name == "xor" else self.bitwise_or
        return joined(T.split(f(T.word(p), T.word(q))) for p, q in zip(chunks(x, 8), chunks(y, 8)))

    def vector_result_or_unknown(self, f: Callable, *data: list) -> list:
        """The bytes of an operation on vectors. If there is no rule, nothing is known of them."""
        try:
            return f(*data)
        except CannotShow:
            return [self.byte_depending_on(joined(data)) for _ in data[0]]

    def byte_depending_on(self, data: list) -> T.Byte:
        return fresh_bytes("new", T.SECRET if any(map(is_secret, data)) else T.PUBLIC)[0]

    # Memory.

    def locate_access(self, address: T.Term, size: int, aligned: bool) -> tuple:
        """The base, the offset as a term, and the region of an access."""
        base, offset, region = self.region_of(address)
        at = offset_number(offset)
        if not isinstance(region, MemoryRegion) or at is None or not region.low <= at <= region.high - size:
            self.need_inside("the access of %d bytes at %r may be outside of its memory" % (size, address),
                             region, offset, T.const(64, size))
        unit, start = region.alignment
        if aligned and at is not None and unit % size and base is self.stack:
            raise UnknownStackAlignment(size)
        if aligned and (at is None or unit % size or (start + at) % size):
            raise IsWrong("%r may not be a multiple of %d" % (address, size))
        return base, offset, region

    def region_of(self, address: T.Term) -> tuple:
        base, offset, region = super().region_of(address)
        at = offset_number(offset)
        if base is self.stack and at is not None and at < self.lowest_stack_offset():
            raise IsWrong("%r is below the stack" % address)
        return base, offset, region

    def bytes_at(self, base: T.Term, places: Any, region: MemoryRegion) -> list:
        """The bytes at offsets: numbers, or terms in memory that is only read."""
        if region.writable and (not isinstance(places, range) or any(p.base is base for p in self.pieces)):
            raise CannotShow("it reads at an offset that is not a number: %r" % places)
        found = [self.memory.get((base, at)) for at in places]
        if None not in found:
            return found
        byte = self.byte_normalizer()
        return [byte(region.initial(at)) if b is None else b for at, b in zip(places, found)]

    def load(self, address: T.Term, size: Any, aligned: bool = False) -> list:
        base, offset, region = self.locate_access(address, size, aligned)
        return self.bytes_at(base, offsets(offset, size), region)

    def store(self, address: T.Term, data: list, aligned: bool = False) -> None:
        base, offset, region = self.locate_access(address, len(data), aligned)
        self.check_writable(region, address)
        if offset_number(offset) is None:
            self.add_piece((base, offset, region), data, T.const(64, len(data)))
            return
        self.put(base, offsets(offset, len(data)), data)

    def add_piece(self, place: tuple, data: Any, length: T.Term, start: Any = 0) -> None:
        """Writes bytes of some, or one byte over and over, at an offset that is a term."""
        base, offset, region = place
        if not isinstance(region, Buffer):
            raise CannotShow("it writes at an offset that is not a number: %r" % offset)
        self.pieces += WrittenPiece(base, offset, data, length, start),

    # Functions of the C library.

    def check_disjoint(self, what: str, to: T.Term, size: int, source: T.Term, length: int) -> None:
        """Refuses a function that may write to what it reads, at two places. Arguments do not overlap."""
        (base, at, _), (other, start, _) = self.region_of(to), self.region_of(source)
        apart = at - start
        if base is other and size and length:
            self.need_comparisons("%s of %d bytes to %r, from %r, which may overlap" % (what, size, to, source), (
                ">=", apart, T.const(64, length)), ("<=", apart, T.const(64, -size)))

    def copy_memory(self, to: T.Term, source: T.Term, length: T.Term, is_apart: bool) -> list:
        """Copies, by memcpy if both must be apart, and returns the bytes that may be read."""
        length = self.with_known_values(length)
        need_public(length, "a length")
        if length is T.const(64, 0):
            return []
        if is_apart:
            self.check_disjoint("memcpy", to, self.most(length), source, self.most(length))
        base, offset, region = self.region_inside(source, length)
        if isinstance(region, MemoryRegion) and region.writable and offset_number(offset) is None:
            low, high = self.bounds(region, offset)[0], self.bounds(region, offset + length)[1]
            if high - low > 256 or base is self.stack and low < self.lowest_stack_offset():
                raise CannotShow("a copy of %r bytes from %r" % (length, offset))
            data = self.bytes_at(base, range(low, high), region)
            self.add_piece(self.region_inside(to, length, True), data, length, offset - low)
        else:
            data = self.bytes_at(base, offsets(offset, self.most(length)), region)
            self.write_prefix(to, data, length)
        return data

    def fill_memory(self, to: T.Term, byte: T.Byte, length: T.Term) -> None:
        length = self.with_known_values(length)
        need_public(length, "a length")
        if length.op == "const":
            if length.args:
                self.store(to, [byte] * length.args)
            return
        base, offset, region = self.region_inside(to, length, True)
        if isinstance(region, Buffer):
            self.add_piece((base, offset, region), byte, length)
        elif offset_number(offset) is None:
            self.fill_from(base, offset, region, byte, length)
        else:
            self.write_prefix(to, [byte] * self.most(length), length)

    def fill_from(self, base: T.Term, offset: T.Term, region: MemoryRegion, byte: T.Byte, length: T.Term) -> None:
        """Fills to an end that is a number, from an offset that is not."""
        end = offset_number(offset + length)
        low, high = self.bounds(region, offset)
        constant = T.linear(offset)[0]
        size = offset - constant
        # Without a wrap, a place is before the offset if it is less than the number and the rest.
        if end is None or high - low > 128 or not self.relation_always_holds("<=", size, 1 << 32) or (
                base is self.stack and low < self.lowest_stack_offset()):
            raise CannotShow("a fill of %r bytes at %r" % (length, offset))
        places = range(low, end)
        self.put(base, places, [choose_if_below(self, k - signed(64, constant), size, old, byte)
                                for k, old in zip(places, self.bytes_at(base, places, region))])

    def bounds(self, region: MemoryRegion, offset: T.Term) -> list:
        """A least and a greatest number that an offset may be."""
        return [region.low + n for n in self.path_facts.range(offset - region.low)]

    def region_inside(self, address: T.Term, length: T.Term, is_written: bool = False) -> tuple:
        """The base, the offset and the region of bytes, all of which must be in it."""
        base, offset, region = self.region_of(address)
        self.need_inside("%r bytes at %r may not all be in its memory" % (length, address), region, offset, length)
        if is_written:
            self.check_writable(region, address)
        return base, offset, region

    def write_prefix(self, to: T.Term, data: list, length: T.Term) -> None:
        base, offset, region = self.region_inside(to, length, True)
        if offset_number(offset) is None:
            self.add_piece((base, offset, region), data, length)
            return
        places = offsets(offset, len(data))
        self.put(base, places, [choose_if_below(self, j, length, data[j], old)
                                for j, old in enumerate(self.bytes_at(base, places, region))])

    def most(self, length: T.Term) -> int:
        need_public(length, "a length")
        if length.op != "const" and not self.relation_always_holds("<=", length, 256):
            raise CannotShow("a copy of %r bytes" % length)
        return self.path_facts.range(length)[1]


def offset_number(offset: T.Term) -> Any:
    return signed(64, offset.args) if offset.op == "const" else None


def offsets(offset: T.Term, size: int) -> Any:
    """The offsets of the bytes from one on: numbers, or terms."""
    at = offset_number(offset)
    if at is not None:
        return range(at, at + size)
    return [offset + k for k in range(size)]


def is_secret_byte(b: T.Byte) -> bool:
    return not isinstance(b, int) and bool(b[0].taint & T.SECRET)


def byte_depends_on_key(b: T.Byte) -> bool:
    """Whether a byte is by one of a key, or of its block in a state."""
    return not isinstance(b, int) and bool(b[0].taint & T.SECRET) and term_depends_on_key(b[0])


@T.memoized
def is_left_by_c_library(t: T.Term) -> bool:
    return str(t.args).startswith((AFTER + "~", AFTER_KEY + "~"))


@T.memoized
def term_depends_on_key(t: T.Term) -> bool:
    if t.op != "var":
        return any(map(term_depends_on_key, T.parts(t)))
    if isinstance(t.args, str):
        return t.args.startswith(KEYS)
    kind, *rest = t.args
    members = rest[0] if kind in ("any", "zero") else rest
    return kind == "key" or any(term_depends_on_key(u[0] if isinstance(u, tuple) else u)
                                for u in members if isinstance(u, (tuple, T.Term)))
