"""The proofs by induction over the iterations of a loop: what all have in common; the loops of vulfsjor_memcmp, each of
which ors the differences of some bytes of two buffers into bytes of registers, and goes on behind these; and the loop
that reads the output of BLAKE2X, of which each iteration writes the next bytes of the output behind those that were
written before, and moves the position by as many."""

import functools
from typing import Any, Callable

import terms as T
from machine import AFTER_KEY, HEAD, chunks
from path_values import need_same
from symbolic import Buffer, WrittenPiece, bytes_ored_into, fresh_bytes, offset_number, zero_if_both_are_zero
from terms import CannotShow, IsWrong, signed

MOST = (1 << 64) - 1
WORD = 8                               # bytes of the position in an output


class Induction:
    """A loop, from the machine on that first comes to its head. Its first iteration proposes which words grow by a
    number in each, and the rest of what changes; a subclass proposes more. Nothing is proved by that: what a general
    iteration leaves must be what the next one starts from."""

    STILL: tuple = ("vector",)         # registers whose words do not grow

    def __init__(self, start: Any) -> None:
        self.start, self.first = start, start.bytes_by_place()
        self.grows: dict = {}          # the bytes of a word -> the word at first, and by how much it grows
        self.rest: set = set()         # the bytes that may be anything at the head

    def byte_at(self, cells: dict, c: tuple) -> T.Byte:
        """A byte of a register or of memory, by what was written."""
        if c in cells:
            return cells[c]
        if c not in self.first:
            self.first[c] = self.start.regions[c[1]].initial(c[2])
        return self.first[c]

    def word(self, cells: dict, group: tuple) -> T.Term:
        return T.word([self.byte_at(cells, c) for c in group])

    def word_places(self, kind: str, at: Any, k: int) -> tuple:
        """The bytes of the word that a byte belongs to."""
        size = 8 if kind == "memory" else min(8, len(getattr(self.start, kind)[at]))
        return tuple((kind, at, k - k % size + j) for j in range(size))

    def changed(self, cells: dict) -> set:
        return {c for c, _ in self.first.items() ^ cells.items()
                if self.byte_at(cells, c) != self.byte_at(self.first, c)}

    def propose_growing_words(self, changed: set, step: Callable) -> set:
        """Proposes that public words grow, by step(word at first, its bytes) if any. Returns what else changes."""
        for group in {self.word_places(*c) for c in {(kind, at, k - k % 4) for kind, at, k in changed}}:
            a = self.word(self.first, group)
            n = None if a.taint & ~T.PUBLIC or group[0][0] in self.STILL else step(a, group)
            if n is not None:
                self.grows[group] = a, n
        return changed - {c for group in self.grows for c in group}

    def constant_step(self, second: dict) -> Callable:
        """By how much words have grown in the first iteration, if that is a number."""
        def step(a: T.Term, group: tuple) -> int | None:
            n = self.word(second, group) - a
            return n.args if n.op == "const" and len(group) >= 4 else None
        return step

    def growing_bytes_at(self, i: T.Term, more: int = 0) -> dict:
        """The bytes of words that grow, at the head of iteration i + more."""
        found: dict = {}
        for group, (a, step) in self.grows.items():
            low = T.word(T.split(i)[:a.w // 8])
            found.update(zip(group, T.split(a + step * low + step * more)))
        return found

    def state_at_iteration(self, i: T.Term, others: dict) -> Any:
        """The machine at the head of iteration i, with these other bytes. Of the rest nothing is known."""
        m = self.start.copy()
        m.set_bytes_by_place({**self.unknown_bytes(self.rest - set(others)), **self.growing_bytes_at(i), **others})
        m.update_parts(HEAD, memory=m.memory, **{name: getattr(m, name) for name in m.processor.FILES})
        return m

    @staticmethod
    def unknown_bytes(cells: set, what: str = "rest", taint: int = T.JUNK) -> dict:
        found: dict = {}
        for part in chunks(sorted(cells, key=str), 64):
            found.update(zip(part, fresh_bytes(what, taint, len(part))))
        return found

    def mismatched_places(self, found: dict, wanted: dict, byte: Callable = lambda b: b) -> set:
        """The bytes after an iteration that are not as the next one starts. byte(b) is a byte as it is compared."""
        return {c for c in {c for c, _ in found.items() ^ wanted.items()} - self.rest
                if byte(self.byte_at(found, c)) != byte(self.byte_at(wanted, c))}


class SinglePathLoop(Induction):
    """A loop that has one way through it, and goes on unless a word is 0. `to_last` executes an iteration up to its
    last instruction, and returns the machines there."""

    def __init__(self, calls: Any, start: Any, to_last: Callable, last: Any) -> None:
        super().__init__(start)
        self.calls, self.to_last, self.last = calls, to_last, last

    def iterate(self, machine: Any) -> tuple:
        """The machine after an iteration, and the word that is 0 if it is the last one."""
        ends = self.to_last(machine)
        compared = self.calls.cpu(ends[0]).comparison_of_jump(self.last) if len(ends) == 1 else None
        if compared is None or compared[0] != "!=" or compared[1].w != 64:
            raise CannotShow("a loop goes on by another condition than two words of 64 bits")
        return ends[0], compared[1] - compared[2]

    def propose_chaining_words(self, second: dict, old: list, new: list) -> None:
        """Proposes where the chaining words are that an iteration changes, which words grow, and what else changes."""
        places = {pair: k for k, pair in enumerate(zip(old, new))}
        pairs = {c: (self.byte_at(self.first, c), self.byte_at(second, c)) for c in self.changed(second)}
        self.chain = {c: places[pair] for c, pair in pairs.items() if pair in places}
        self.rest = self.propose_growing_words(set(pairs) - set(self.chain), self.constant_step(second))

    def state_at_head(self, i: T.Term, words: list) -> Any:
        return self.state_at_iteration(i, {c: words[k] for c, k in self.chain.items()})

    def need_bytes_after_iteration(self, after: Any, wanted: dict) -> None:
        """Refuses an iteration that leaves other bytes than the next one starts from."""
        found = after.bytes_by_place()
        for c in sorted(self.mismatched_places(found, wanted), key=str):
            need_same(after, self.calls.results, "%s, after an iteration," % (c,),
                      [self.byte_at(found, c)], [self.byte_at(wanted, c)])

    def state_after_loop(self, end: Any, others: list) -> Any:
        """The machine after the loop, which has used the stack as these iterations have."""
        end.merge_stack_use_of(others)
        for m in others:
            m.need_unchanged_by_loop(end)
        return end


def buffers_of_difference(b: Any) -> tuple:
    """The buffers and the offset of two bytes of which a byte is the exclusive or."""
    t = b[0] if isinstance(b, tuple) else None
    names = [u.args for u in t.args[1]] if t is not None and t.op == "xor" and t.args[0] == 0 else []
    if len(names) != 2 or any(not isinstance(n, tuple) or len(n) != 2 for n in names) or (
            names[0][1] is not names[1][1]):
        raise CannotShow("a loop of a comparison collects something else: %s" % T.show(b, 3))
    return tuple(sorted(n[0] for n in names)), names[0][1]


class ComparisonLoop(SinglePathLoop):
    """A loop that compares. The first iteration also proposes which bytes collect differences."""

    def prove(self) -> Any:
        """The machine after the loop."""
        second, left = self.iterate(self.start.copy())
        cells, i, wrong = second.bytes_by_place(), self.start.new_public_variable(64), {None}
        rest = self.propose_growing_words(self.changed(cells), self.constant_step(cells))
        self.collects = {c: fresh_bytes("so far", T.SECRET)[0] for c in rest
                         if bytes_ored_into(self.first[c]) < bytes_ored_into(cells[c])}
        self.rest = rest - set(self.collects)
        while wrong:                   # what only has differences in it does not collect them
            after, then = self.iterate_at(self.state_at_iteration(i, self.collects), i, left)
            wrong = {c for c, b in self.collects.items() if b not in bytes_ored_into(after.bytes_by_place()[c])}
            self.rest |= wrong
            self.collects = {c: b for c, b in self.collects.items() if c not in wrong}
        step, others = self.check_collected_differences(cells, after, i)
        count = self.iteration_count(left, then, i)
        differ = lambda offset: (T.var(8, ("differ", offset, step, count), T.SECRET), 0)
        found = {c: functools.reduce(zero_if_both_are_zero, map(differ, offsets), self.first[c])
                 for c, offsets in others.items()}
        return self.state_after_loop(self.state_at_iteration(count, found), [second, after])

    def iterate_at(self, m: Any, i: T.Term, left: T.Term) -> tuple:
        """An iteration, not after the last. What is left goes to 0 by one number in each, of those tried here."""
        self.unit, self.sign = next(((unit, sign) for unit in (128, 32, 8, 4, 1) for sign in (1, -1)
                                     if self.quotient(left, unit, sign) is not None), (0, 0))
        if not self.unit:
            raise CannotShow("the number of iterations is not known: %r" % left)
        if not m.learn("<=", i, self.quotient(left, self.unit, self.sign), True):
            raise CannotShow("no iteration is possible")
        return self.iterate(m)

    def quotient(self, t: T.Term, unit: int, sign: int) -> Any:
        """A word, or its negative, as a multiple of a number: the other factor. None if it is none."""
        constant, items = T.linear(sign * t)
        parts = [(signed(64, k), u) for u, k in items.items()] + [(signed(64, constant), T.const(64, 1))]
        if any(k % unit for k, _ in parts):
            return None
        q = T.add(64, *[(k // unit, u) for k, u in parts])
        return q if self.start.relation_always_holds("<=", q, MOST // unit) else None

    def iteration_count(self, left: T.Term, then: T.Term, i: T.Term) -> T.Term:
        if left - self.unit * self.sign * i is not then:
            raise CannotShow("a loop of a comparison leaves %r, and %r in iteration i" % (left, then))
        return self.quotient(left, self.unit, self.sign) + 1

    def check_collected_differences(self, second: dict, m: Any, i: T.Term) -> tuple:
        """How many bytes an iteration compares, and for each byte that collects the offsets of the first iteration;
        those of iteration i are as many further as that, i times."""
        offsets, step, after = {}, 0, m.bytes_by_place()
        for c in self.collects:
            found = [buffers_of_difference(x) for x in bytes_ored_into(second[c]) - bytes_ored_into(self.first[c])]
            offsets[c], step = [offset for _, offset in found], step + len(found)
            if any(names != ("a", "b") for names, _ in found):
                raise IsWrong("a comparison of %s" % (found[0][0],))
        for c, b in self.collects.items():
            then = {buffers_of_difference(x) for x in bytes_ored_into(after[c]) - {b}}
            if then != {(("a", "b"), t + step * i) for t in offsets[c]}:
                raise CannotShow("the byte %s is not as expected after an iteration" % (c,))
        collected = {c: after[c] for c in self.collects}
        self.need_bytes_after_iteration(m, self.state_at_iteration(i + 1, collected).bytes_by_place())
        return step, offsets


def need_all_bytes_compared(m: Any, byte: Any, n: T.Term) -> None:
    """Refuses an answer that is not by all n bytes of two buffers, each once."""
    zero, members = byte[0].args
    parts: dict = {}
    for b in members:
        what = b[0].args
        if isinstance(what, tuple) and what[0] == "differ":
            parts.setdefault(what[2:], set()).add(what[1])
        else:
            names, offset = buffers_of_difference(b)
            if names != ("a", "b"):
                raise IsWrong("a comparison of %s" % (names,))
            parts.setdefault((1, T.const(64, 1)), set()).add(offset)
    at = T.const(64, 0)
    while parts:
        key = next((key for key, offsets in parts.items()
                    if m.with_known_values(at) in map(m.with_known_values, offsets)), None)
        if key is None:
            raise IsWrong("the byte at %r is not compared" % at)
        step, count = key
        found = {m.with_known_values(t) for t in parts.pop(key)}
        if found != {m.with_known_values(at + k) for k in range(step)}:
            raise IsWrong("not all bytes from %r on are compared" % at)
        at += step * count
    m.need_comparisons("a comparison of %r bytes, not %r" % (at, n),
                       ("==", m.with_known_values(at), m.with_known_values(n)))


def addresses_in_loop(code: dict, head: int) -> frozenset:
    """The addresses of a function's code that are reached from the head of a loop and back."""
    ways: set = set()
    for i in code.values():
        is_inner = i.target is None or i.is_call
        if not (i.is_return or i.is_trap):
            ways |= {(i.address, i.next)} if is_inner or not i.is_jump else set()
            ways |= {(i.address, i.target)} if not is_inner else set()

    def reached(ways: set) -> set:
        found: set = set()
        new = {head}
        while new:
            new = {pc for at, pc in ways if at in new} - found
            found |= new
        return found
    return frozenset(reached(ways) & reached({(pc, at) for at, pc in ways}))


def word_of_low_byte(t: T.Term) -> T.Term:
    """A word that is no more than a byte."""
    return T.word(T.split(t) + [0] * (WORD - 1))


class OutputLoop(Induction):
    """A loop with several ways through it, whose iterations are counted by the position. `place` is where that is."""

    def __init__(self, calls: Any, name: str, head: int, body: frozenset, start: Any) -> None:
        super().__init__(start)
        self.calls, self.name, self.head, self.body = calls, name, head, body
        base, offset, _ = start.region_of(calls.position)
        self.place = tuple(("memory", base, offset_number(offset) + k) for k in range(WORD))
        outputs = [(u, r) for u, r in start.regions.items() if isinstance(r, Buffer) and r.writable]
        if len(outputs) != 1:
            raise CannotShow("a read without an output")
        (self.out, region), = outputs
        self.length, self.position = region.length, self.word(self.first, self.place)

    def prove(self) -> list:
        """The machines behind the loop, each with the address."""
        m = self.start
        if m.pieces or any(base is self.out for base, _ in m.memory):
            raise CannotShow("bytes of the output are written before the loop")
        if not m.relation_always_holds("<", T.const(64, 0), self.length):
            raise CannotShow("there is a read of no bytes")
        self.propose_from_iterations([n for n in self.iterate(m.copy()) if n.pc == self.head])
        i, f = m.new_public_variable(64), word_of_low_byte(m.new_public_variable(8))
        position = self.calls.block_of_output * i + f
        wrong: set = {None}
        while wrong:                   # words that only grow in the first iteration are not known
            ends = self.iterate(self.state_at_general_iteration(position, f))
            wrong = {c for n in ends if n.pc == self.head for c in self.mismatches_at_head(n)}
            self.forget_places(wrong)
        for n in ends:
            n.need_unchanged_by_loop(m, "pieces")
            self.check_iteration(n, position)
        behind = [(n, n.pc) for n in ends if n.pc != self.head]
        for n, _ in behind:            # of the stack the iterations before have used
            n.merge_stack_use_of(ends)
        return behind

    def bytes_written_at(self, position: T.Term) -> T.Term:
        return position - self.position

    def state_at_general_iteration(self, position: T.Term, f: T.Term) -> Any:
        """The machine at the head of any iteration: the position is before the end of the read."""
        m = self.state_at_iteration(self.bytes_written_at(position), self.unknown_bytes(self.left, self.what, T.SECRET))
        m.pieces = WrittenPiece(self.out, T.const(64, 0), None, self.bytes_written_at(position)),
        facts = m.path_facts.with_sum_between([(1, f)], 0, self.calls.block_of_output - 1)
        facts = facts.with_sum_between([(1, position)], 0, MOST)
        facts = facts.with_sum_between([(1, position), (-1, self.position)], 0, MOST)
        m.path_facts = facts.with_sum_between([(1, self.length), (1, self.position), (-1, position)], 1, MOST)
        if not m.path_facts.are_possible():
            raise CannotShow("no iteration is possible")
        return m

    def forget_places(self, cells: set) -> None:
        """Lets bytes have any value at the head, except the position."""
        for c in cells:
            if c in self.place or c in self.rest:
                raise CannotShow("the byte %s is not as expected after an iteration" % (c,))
        self.rest |= cells
        for group in {g for g in self.grows if cells & set(g)}:
            del self.grows[group]
            self.rest |= set(group)

    def iterate(self, machine: Any) -> list:
        """The machines after an iteration: those at the head, and those behind the loop."""
        return self.calls.run(self.name, machine, self.head, self.body)

    def propose_from_iterations(self, ends: list) -> None:
        """The words that grow or shrink with the position, what else changes, and what the C library left of it."""
        found = [(n, n.bytes_by_place()) for n in ends]
        moved = lambda n, cells, group: n.with_known_values(self.word(cells, group) - self.word(self.first, group))

        def step(_: T.Term, group: tuple) -> int | None:
            moves = [[moved(n, cells, g) for g in (group, self.place)] for n, cells in found]
            return next((sign for sign in (1, -1) if all(z is sign * c for z, c in moves)), None)
        changed = {c for _, cells in found for c in self.changed(cells) if c[1] is not self.out}
        self.rest = self.propose_growing_words(changed, step)
        seen = [self.first] + [cells for _, cells in found]
        self.left = {c for c in self.rest if c[0] == "vector" and all(
            self.start.vector_byte_is_allowed_to_remain(*c[1:], cells[c]) for cells in seen)}
        self.what = self.start.leftover_kind([cells[c] for c in self.left for cells in seen])
        if self.place not in self.grows:
            raise CannotShow("a read does not move the position")

    def check_iteration(self, m: Any, before: T.Term) -> None:
        """What an iteration leaves: at the head, this must be what another one starts from."""
        position = self.word(m.bytes_by_place(), self.place)
        self.calls.need_output(m, self.bytes_written_at(position))
        m.need_comparisons("an iteration that reads nothing", ("<", before, position))
        end = self.position + self.length
        if m.pc != self.head:
            m.need_comparisons("the loop ends at %r, not at %r" % (position, end), ("==", position, end))
            m.set_bytes_by_place(dict(zip(self.place, T.split(end))))
            return
        m.need_comparisons("the loop goes on behind the end", ("<", self.bytes_written_at(position), self.length))

    def mismatches_at_head(self, m: Any) -> set:
        """The bytes at the head that are not as another iteration starts."""
        cells = m.bytes_by_place()
        wanted = {**self.first, **self.growing_bytes_at(self.bytes_written_at(self.word(cells, self.place)))}
        return {c for c in self.mismatched_places(cells, wanted, m.byte_normalizer()) if c[1] is not self.out} | {
            c for c in self.left
            if not m.vector_byte_is_allowed_to_remain(*c[1:], cells[c]) or
            m.leftover_kind([cells[c]]) != self.what != AFTER_KEY}


def refuse_output(m: Any, length: T.Term) -> None:
    """Refuses a read in a case in which nothing is read."""
    raise CannotShow("a read of %r bytes in a case that has none" % length)


def need_output_bytes(m: Any, need: Callable, blocks: Callable, size: int, first: T.Term, length: T.Term) -> None:
    """Refuses an output of which not so many bytes are written: those of the blocks, from the first position on.
    `size` is that of a block, and need(text, found, wanted) refuses other bytes."""
    waiting, end = list(m.pieces), T.const(64, 0)
    if any(base in m.regions and isinstance(m.regions[base], Buffer) for base, _ in m.memory):
        raise CannotShow("an output is written at a number of bytes from its start")
    while waiting:
        piece = next((p for p in waiting if m.with_known_values(p.offset) is m.with_known_values(end)), None)
        if piece is None:
            raise IsWrong("no byte is written at %r of the output" % end)
        waiting.remove(piece)
        if piece.data is not None:     # the bytes before, by the induction
            need_piece_bytes(m, need, blocks, size, first + end, piece)
        end += piece.length
    m.need_comparisons("%r bytes of the output, not %r" % (end, length),
                       ("==", m.with_known_values(end), m.with_known_values(length)))


def need_piece_bytes(m: Any, need: Callable, blocks: Callable, size: int, position: T.Term, piece: Any) -> None:
    """The bytes of a piece: those from a place of a block on."""
    position = m.with_known_values(position)
    at = m.bitwise_and(position, T.const(64, size - 1))
    i = m.shifted_right(position, size.bit_length() - 1)
    if not isinstance(piece.data, list):
        raise CannotShow("it writes %s over and over" % (piece.data,))
    start = m.with_known_values(piece.start) if piece.start else T.const(64, 0)
    text = "the output at %r" % piece.offset
    if offset_number(at) is None:
        shift = offset_number(at - start)
        if shift is None:
            raise CannotShow("the place in a block is %r, not %r" % (start, at))
        m.need_comparisons("%r bytes from %r on of a block" % (piece.length, at),
                           ("<=", at + piece.length, T.const(64, size)))
        found, wanted = piece.data[max(-shift, 0):], blocks(i)[max(shift, 0):]
        least = min(len(found), len(wanted))
        need(text, found[:least], wanted[:least])
        return
    found = piece.data[offset_number(start):][:m.path_facts.range(piece.length)[1]]
    places = [offset_number(at) + k for k in range(len(found))]
    made = {k: blocks(i + k) for k in {p // size for p in places}}
    need(text, found, [made[p // size][p % size] for p in places])
