"""Shows that whole calls write and return what call_specification.py and xof_specification.py say, for all inputs,
and nothing else. F is a function of which nothing is known here, because compression.py shows what it computes.
docs/MACHINE.md says what is shown."""

from typing import Any, Callable

import compression
import functions
import program as programs
import terms as T
from constant_time import ANSWERING, STACK
from loops import MOST, ComparisonLoop, OutputLoop, SinglePathLoop, addresses_in_loop, refuse_output
from machine import LEFT, UNKNOWN, Flags, bitwise, chunks, joined, need_public
from rfc7693 import HashFamily
from symbolic import (Buffer, SymbolicState, UndecidedComparison, choose_if_below, fresh_bytes, without_zero_padding,
                      zero_if_both_are_zero, zero_test_byte)
from terms import CannotShow, IsWrong
from walk import OF_C, CodeWalker
from x86 import UPPER

PATHS, LIMIT = 200, 200000             # of a call: paths at a time, and instructions
GAP = 64                               # bytes for saved registers between the caller and the zeros


class TermOperations:
    """The operations of call_specification.py over terms, by what a path of a call knows."""

    def __init__(self, calls: "CallExecutor", machine: Any) -> None:
        self.calls, self.machine = calls, machine

    def word(self, n: Any) -> T.Term:
        t = T.as_term(64, n)
        return t if t.op == "const" else without_zero_padding(self.machine, self.machine.with_known_values(t))

    def number_bytes(self, n: T.Term | int, size: int) -> list:
        data = self.machine.bytes_of(self.word(n))
        if any(data[size:]) and self.machine.nonzero_byte_count(self.word(n)) > size:
            raise CannotShow("%r may have more than %d bytes" % (n, size))
        return data[:size]

    def from_bytes(self, data: list) -> T.Term:
        return T.word(data + [0] * (8 - len(data)))

    def choose_if_below(self, j: int, n: T.Term, x: T.Byte, y: T.Byte) -> T.Byte:
        if isinstance(n, int):
            return x if j < n else y
        return choose_if_below(self.machine, j, self.word(n), x, y)

    def holds(self, relation: str, a: Any, b: Any) -> bool:
        """Whether two words are so related, which must be known."""
        found = self.machine.path_facts.decide(relation, self.word(a), self.word(b))
        if found is None:
            raise CannotShow("whether %r %s %r is not known" % (a, relation, b))
        return found

    def may_be_less(self, a: Any, b: Any) -> bool:
        """Whether a < b, unless it is known that it is not."""
        return self.machine.path_facts.decide("<", self.word(a), self.word(b)) is not False

    def xor(self, data: bytes | list, other: list) -> list:
        return bitwise(T.xor, list(data), list(other))

    def are_equal(self, x: Any, y: Any) -> Any:
        byte: T.Byte = 0
        for p, q in zip(x, y):
            byte = zero_if_both_are_zero(byte, self.xor([p], [q])[0])
        return zero_test_byte(T.word([byte]))

    def compress(self, kind: HashFamily, chain: list, block: list, count: T.Term, last: int, node: int) -> list:
        return self.calls.compression_result("F", kind, tuple(chain), tuple(block), self.word(count), last, node)

    def compress_all(self, kind: HashFamily, chain: list, data: Buffer, start: T.Term | int,
                     k: T.Term | int, count: T.Term | int) -> list:
        if k == 0:
            return chain
        return self.calls.compression_result("blocks", kind, tuple(chain), data.name, self.word(start),
                                             self.word(k), self.word(count))


class StackUseUnknown(Exception):
    """It is not known how much of the stack this function uses: the call is executed again when it is."""


class CompressionLoop(SinglePathLoop):
    """A loop that compresses one block in each iteration. The first also proposes where the chaining words are."""

    def run_compressing_iteration(self, machine: Any) -> tuple:
        """The machine after an iteration, the word that is 0 if it is the last, and its compression."""
        self.calls.compressed = []
        end, left = self.iterate(machine)
        if len(self.calls.compressed) != 1:
            raise CannotShow("an iteration has %d compressions" % len(self.calls.compressed))
        return end, left, self.calls.compressed[0]

    def prove(self) -> Any:
        """The machine after the loop."""
        second, left, one = self.run_compressing_iteration(self.start.copy())
        kind, size, result = one["kind"], one["kind"].block, one["result"]
        count = left + 1
        is_always = self.start.relation_always_holds
        if not (is_always(">", count, 0) and is_always("<=", count, MOST // size)):
            raise CannotShow("the number of blocks is not known: %r" % count)
        self.propose_chaining_words(second.bytes_by_place(), one["chain"], result)
        j = self.start.new_public_variable(64)         # the iterations that follow a general one
        i, chain = left - j, fresh_bytes("chain", T.SECRET, len(result))
        general = self.state_at_head(i, chain)
        if not general.learn("<", j, count, True):
            raise CannotShow("no iteration is possible")
        after, end, call = self.run_compressing_iteration(general)
        if end is not j:
            raise IsWrong("the loop ends if %r is 0, instead of %r" % (end, j))
        self.need_bytes_after_iteration(after, self.state_at_head(i + 1, call["result"]).bytes_by_place())
        self.need_next_block(one, call, i, chain)
        before = one["counter"] - size
        words = TermOperations(self.calls, self.start).compress_all(
            kind, one["chain"], one["region"], one["offset"], count, before)
        return self.state_after_loop(self.state_at_head(count, words), [second, after])

    @staticmethod
    def need_next_block(first: dict, call: dict, i: T.Term, chain: list) -> None:
        """Refuses another compression in iteration i than that of the block that is i blocks after the first one."""
        region, offset, size = call["region"], call["offset"], first["kind"].block
        for what, found, wanted in (
                ("chaining words", call["chain"], chain), ("buffer", region, first["region"]),
                ("block", offset, first["offset"] + size * i), ("flags", call["flags"], [0, 0]),
                ("counter", call["counter"], first["counter"] + size * i)):
            if found != wanted:
                raise IsWrong("the %s of a block in a loop: %r instead of %r" % (what, found, wanted))
        if [region.initial(offset + k) for k in range(size)] != call["block"]:
            raise CannotShow("a block in a loop is not that of its argument")


class CallExecutor(CodeWalker):
    """Executes the functions of a file."""

    results: dict
    compressed: list
    comparing = functions.MEMCMP,
    # Of BLAKE2X: where a state has the position, the bytes of a block of the output, and what refuses an
    # output of which not so many bytes are as they should be, in the case that is shown.
    place_of_position: int
    block_of_output: int
    need_output: Callable

    def __init__(self, program: programs.Program, exported: str = "") -> None:
        super().__init__(program, exported)
        self.codes: dict = {}
        self.forget_results()

    def stack_use(self, name: str) -> int:
        """How much of the stack a function uses that compresses one block, or one of each message."""
        if self.listed[name][2] != 1 and compression.call_class_of(name) is not compression.OneBlockEachCall:
            raise CannotShow("a compression of several messages")
        if self.program.content_hash(name) not in compression.FRAMES:
            raise StackUseUnknown(name)
        return compression.FRAMES[self.program.content_hash(name)]

    def forget_results(self) -> None:
        self.results, self.compressed, self.count = {}, [], 0
        self.need_output = refuse_output

    def compression_result(self, what: str, kind: HashFamily, *arguments: Any) -> list:
        """The bytes of eight chaining words: the same variables for the same arguments."""
        n = self.results.setdefault((what, kind.name) + arguments, len(self.results))
        return [b for j in range(8) for b in T.split(T.var(kind.w, "%s%d.%d" % (what, n, j), T.SECRET))]

    def code_and_loops(self, name: str) -> tuple:
        """The instructions of a function by address, the first, and its loops that compress, compare or read: the
        address of the head, with that of the jump back, or those of the loop that reads."""
        if name not in self.codes:
            found = self.program.instructions_of(name, "W")
            code, loops = {i.address: i for i in found}, {}
            for i in found:
                if i.target in code and i.target <= i.address:
                    body = [j for j in found if i.target <= j.address <= i.address]
                    if name == functions.MEMCMP or self.is_compression_loop(body):
                        loops[i.target] = i.address
                    if name in functions.SQUEEZES:         # which is entered in its middle
                        around = addresses_in_loop(code, i.target)
                        loops.update(dict.fromkeys(around, around))
            self.codes[name] = code, found[0].address, loops
        return self.codes[name]

    def is_compression_loop(self, body: list) -> bool:
        """Whether instructions in a row are a loop with one compression, and without other jumps."""
        found = [i for i in body if i.is_call]
        return len(found) == 1 and self.program.called_function_name(found[0], OF_C) in self.listed and (
            not any(i.is_return or i.target is not None for i in body[:-1] if i is not found[0]))

    def run(self, name: str, machine: Any, start: Any = None, loop: Any = ()) -> list:
        """The machines at all returns of a function. Or those after an iteration of a loop, from its head on: at the
        head again or behind the loop, or at the one address of it that is given."""
        code, first, loops = self.code_and_loops(name)
        entry = self.cpu(machine).bytes_kept_for_caller() if start is None else None
        waiting, ends = [(machine, first if start is None else start)], []
        is_new = start is not None
        while waiting:
            m, pc = waiting.pop()
            is_end = pc in loop if len(loop) == 1 else loop and pc not in loop or pc == start
            if pc is None or is_end and not is_new:
                m.pc = pc
                ends.append(m)
                continue
            if len(waiting) > PATHS or self.count > LIMIT:
                raise CannotShow("there are too many paths")
            self.count += 1
            if pc not in code:
                raise IsWrong("%s goes on behind its end" % name)
            if pc in loops and not (is_new or pc in loop):
                self.at = code[pc]
                waiting += self.states_after_loop(name, pc, m)
                continue
            is_new = False
            try:
                waiting += self.follow_instruction(name, m, code[pc], code, entry)
            except UndecidedComparison as e:
                for holds in (True, False):
                    other = m.copy()
                    if other.learn(*e.compared, holds):
                        other.substitute_known_values()
                        waiting.append((other, pc))
        return ends

    def states_after_loop(self, name: str, head: int, m: Any) -> list:
        """The machines behind a loop, each with the address."""
        code, _, loops = self.code_and_loops(name)
        if name in functions.SQUEEZES:
            return OutputLoop(self, name, head, loops[head], m).prove()
        rule: Any = ComparisonLoop if name == functions.MEMCMP else CompressionLoop
        last = code[loops[head]]
        return [(rule(self, m, lambda n: self.run(name, n, head, {last.address}), last).prove(), last.next)]

    def states_after_call(self, m: Any, i: Any) -> list:
        m.use_stack_down_to(m.lowest_stack_offset())
        return super().states_after_call(m, i)

    def call_inner_function(self, m: Any, name: str) -> list:
        """The machines after a call of a function whose code is executed."""
        if name in functions.SQUEEZES:
            self.position = self.cpu(m).argument(0) + self.place_of_position
        if name in self.scrubs and m.deepest < m.lowest_stack_offset() - self.scrubs[name]:
            raise IsWrong("scrub_stack overwrites %d bytes, and the call has used more" % self.scrubs[name])
        ends = self.run(name, m)
        if name in ANSWERING:
            return [other for end in ends for other in self.states_with_public_answer(end)]
        for end in ends if name in self.scrubs else ():
            if end.secrets:
                raise IsWrong("scrub_stack leaves bytes of the stack in which a secret may be, the first "
                              "at %+d" % max(end.secrets))
            end.is_scrubbed = True
        return ends

    def follow_answer_branch(self, m: Any, i: Any) -> list:
        """Both ways of the branch: all that was collected is zero, or not."""
        if i.name not in ("je", "b.eq") or m.compared_bytes:
            raise IsWrong("a branch depends on secret data")
        if m.flags.result is None:
            raise CannotShow("it is not known which word a comparison returns by")
        same, other = self.states_for_both_results(m, zero_test_byte(m.flags.result))
        same.flags = other.flags = Flags(UNKNOWN)
        return [(same, i.target), (other, i.next)]

    @staticmethod
    def states_for_both_results(m: Any, byte: T.Byte) -> list:
        """The machines with the results of a comparison, of which this byte is 1 if nothing differs: 1 and 0."""
        found = [m.copy(), m.copy()]
        for n, value in zip(found, (1, 0)):
            n.compared_bytes = byte, value
        return found

    def states_with_public_answer(self, m: Any) -> list:
        """The answer of a comparison is public: 1 or 0. A call compares once."""
        if m.compared_bytes or not self.exported.endswith("_verify"):
            raise IsWrong("a comparison whose answer is not that of the call")
        byte = self.cpu(m).result_register()[0]
        if byte in (0, 1):
            return [m]
        found = self.states_for_both_results(m, byte)
        for n in found:
            self.cpu(n).set_result_bytes([n.compared_bytes[1]])
        return found

    def call_compression(self, m: Any, name: str) -> list:
        """A call of F: of one message, or of one block of each of several, whose chaining words are in rows of all, and
        what else differs in tables."""
        frame, (_, kind, lanes) = self.stack_use(name), self.listed[name]
        rows, *others = (self.cpu(m).argument(k) for k in range(5))
        tables = [(t, n * lanes) for t, n in zip(others, (8, 8, 2))] * (lanes != 1)
        if tables:
            pointers, counters, flags = ([chunks(m.load(t, n), n // lanes) for t, n in tables])
        else:
            pointers, counters = ([T.split(t)] for t in others[:2])
            flags = [[T.split(t)[0] for t in others[2:]]]
        words = chunks(m.load(rows, 8 * kind.bytes * lanes), kind.bytes)
        for t, n in tables + [(T.word(p), kind.block) for p in pointers]:
            m.check_disjoint("a compression", rows, 8 * kind.bytes * lanes, t, n)
        result = list(words)
        for j in range(lanes):
            result[j::lanes] = chunks(self.compress_one(
                m, kind, joined(words[j::lanes]), T.word(pointers[j]), T.word(counters[j]), flags[j]), kind.bytes)
        m.store(rows, joined(result))
        m.record_compression_stack(frame)
        self.cpu(m).clobber_registers(LEFT)
        return [m]

    def compress_one(self, m: Any, kind: HashFamily, chain: list, at: T.Term, counter: T.Term, flags: list) -> list:
        """The chaining words after the block at an address."""
        need_public(counter, "the counter")
        if any(b not in (0, 1) for b in flags):
            raise CannotShow("a flag is not known: %r" % (flags,))
        block, (_, offset, region) = m.load(at, kind.block), m.region_of(at)
        result = TermOperations(self, m).compress(kind, chain, block, counter, *flags)
        self.compressed.append({"kind": kind, "chain": chain, "block": block, "counter": counter, "flags": flags,
                                "region": region, "offset": offset, "result": result})
        return result


class ScrubExecutor(CallExecutor):
    """Executes a scrub_stack, which calls memset, and settle, which reads the zeros."""

    def __init__(self, program: programs.Program, name: str, count: int) -> None:
        super().__init__(program)
        self.name, self.wanted, self.is_settled = name, count, False

    def states_after_call(self, m: Any, i: Any) -> Any:
        self.is_settled |= self.program.called_function_name(i, OF_C) == "%s%d" % (functions.SETTLE, self.wanted)
        return super().states_after_call(m, i)

    def check_function_return(self, m: Any, entry: tuple, name: str, first: int = 0) -> None:
        super().check_function_return(m, entry, name, first)
        if name != self.name:
            return
        if not any(m.secrets.keys().isdisjoint(range(end - self.wanted, end)) for end in range(-GAP, 1)):
            raise IsWrong("there are no %d bytes of zeros next to the caller's frame" % self.wanted)
        self.cpu(m).check_vectors_at_return()
        old = m.at_start["vector"]
        if self.program.path.endswith("-v4.s") and any(
                b not in (0, old[j][k]) for j in UPPER for k, b in enumerate(m.vector[j])):
            raise IsWrong("a vector register from 16 on is neither zero nor as before")


def prove_scrub_stack(program: programs.Program, name: str, count: int) -> None:
    """Shows, over a stack of secrets, that a scrub_stack overwrites its bytes with zeros, and nothing else."""
    T.reset()
    calls = ScrubExecutor(program, name, count)

    def follow_from(alignment: tuple) -> None:
        m = SymbolicState(program.constants_memory(), calls.cpu, alignment)
        calls.cpu(m).set_entry_state([], STACK, lambda: fresh_bytes("stack", T.SECRET)[0])
        m.secrets, m.is_kept = dict.fromkeys(range(-STACK, 0), False), lambda b: b != 0
        calls.is_settled = False
        calls.run(name, m)
        if not calls.is_settled:
            raise IsWrong("settle is not called")
    calls.for_each_stack_alignment(lambda: name, follow_from)
