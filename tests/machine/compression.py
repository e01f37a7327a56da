"""Shows that a function computes F of RFC 7693 for all inputs, in constant time."""

import re
import time
from functools import partial
from typing import Any

import rfc7693 as R
import terms as T
from facts import PathFacts
from loops import SinglePathLoop
from machine import MemoryRegion, joined, undefined_bytes
from path_values import need_same
from program import Program
from symbolic import SymbolicState, UndecidedComparison, fresh_bytes
from terms import CannotShow, IsWrong

STACK = 16384
# How many bytes of the stack below its return address a function uses that is shown, by its content.
FRAMES: dict = {}


class CompressionCall:
    """A call of a function that compresses blocks of each of some messages: its variables, memory, and result."""

    def __init__(self, program: Program, name: str, kind: R.HashFamily, lanes: int, assumed: dict,
                 numbers: dict | None = None, known: PathFacts | None = None) -> None:
        """With numbers for the variables of these names, and some facts."""
        self.program, self.kind, self.assumed, self.lanes = program, kind, assumed, lanes
        self.numbers, w, n = numbers or {}, kind.w, kind.bytes
        public = lambda what: self.variable(64, what, T.PUBLIC)
        secret = lambda what, count: [[self.variable(w, "%s%d.%d" % (what, j, k), T.SECRET)
                                       for k in range(count)] for j in range(lanes)]
        self.h, self.counter = map(public, ("h", "counter"))
        self.words, self.chain, self.message = secret("h", 8), secret("H", 8), secret("m", 16)
        self.blocks = [public("block%d" % j) for j in range(lanes)]
        self.lengths = [public("length%d" % j) for j in range(lanes)]
        rows = MemoryRegion(0, 8 * n * lanes, self.rows_of_chaining_words(self.words).__getitem__)
        self.regions = {self.pointer(self.h): rows, **({} if program.kind == "wasm" else program.constants_memory())}
        self.cpu: Any = program.model.Model    # what executes instructions over values
        self.machine = SymbolicState(self.regions, self.cpu, (16, self.cpu.BACK), known)
        arguments = [self.h] + self.arguments()
        self.set_memory_to_block(T.const(64, 0))
        signature = [program.signatures[name]] if program.kind == "wasm" else []
        self.cpu(self.machine).set_entry_state(arguments, STACK, lambda: fresh_bytes("stack", T.JUNK)[0], *signature)
        self.entry = self.cpu(self.machine).bytes_kept_for_caller()

    @staticmethod
    def rows_of_chaining_words(words: list) -> list:
        """The bytes of the chaining words of all messages in memory: the first word of each, the second, and so on."""
        return joined(T.split(message[k]) for k in range(8) for message in words)

    def variable(self, w: int, name: str, taint: int) -> T.Term:
        return T.const(w, self.numbers[name]) if name in self.numbers else T.var(w, name, taint)

    def pointer(self, t: T.Term) -> T.Term:
        """An address as the program's memory has it: in a memory of 32 bits, its low half."""
        return T.word(T.split(t)[:self.program.width // 8])

    def arguments(self) -> list:
        """The arguments after the chaining words: of one message the block, the counter and the flags, whose higher
        bytes are undefined; of several the tables of blocks (addresses and numbers), of counters and of flags."""
        if self.lanes > 1:
            pairs = [t for pair in zip(self.blocks, self.lengths) for t in pair]
            return [self.pointer_to_words("blocks", pairs), *self.counters_and_flags()]
        return [self.blocks[0], self.counter] + [
            T.word([self.flag(name, 0)] + undefined_bytes(name, 7)) for name in ("last", "node")]

    def flag(self, name: str, j: int) -> T.Byte:
        """The byte of a flag of message j, which is 0 or 1."""
        name += str(j)
        return int(self.assumed[name]) if name in self.assumed else (T.ite(8, name, 1, 0), 0)

    def pointer_to_words(self, name: str, words: list) -> T.Term:
        """A pointer to these words of 64 bits."""
        table = T.var(64, name, T.PUBLIC)
        data = joined(map(T.split, words))
        self.regions[self.pointer(table)] = MemoryRegion(0, len(data), data.__getitem__, False)
        return table

    def counters_and_flags(self) -> list:
        """Pointers to the counters and to the flags of all messages."""
        self.counters = [self.variable(64, "counter%d" % j, T.PUBLIC) for j in range(self.lanes)]
        flags = T.var(64, "flags", T.PUBLIC)
        bits = [self.flag(name, j) for j in range(self.lanes) for name in ("last", "node")]
        self.regions[self.pointer(flags)] = MemoryRegion(0, 2 * self.lanes, bits.__getitem__, False)
        return [self.pointer_to_words("counters", self.counters), flags]

    def block_buffers(self) -> list:
        """Pointers to the first blocks, and the words that are there."""
        return list(zip(self.blocks, self.message))

    def set_memory_to_block(self, i: T.Term | None) -> None:
        """Lets the memory of the blocks be that of block i, or takes it away."""
        self.regions = self.machine.regions = dict(self.regions)
        for p, words in self.block_buffers():
            size = self.kind.bytes * len(words)
            self.regions.pop(self.pointer(p), None)
            if i is not None:
                base = self.pointer(p + size * i)
                self.regions[base] = MemoryRegion(0, size, joined(map(T.split, words)).__getitem__, False)

    def count(self) -> T.Term:
        """The number of blocks of each message."""
        return self.lengths[0]

    def terms_zero_at_end(self, left: T.Term) -> list:
        """The terms one of which has to be 0 exactly if no block is left."""
        return [left, -left]

    def counter_at_block(self, j: int, i: T.Term) -> T.Term:
        return (self.counters[j] if self.lanes > 1 else self.counter) + self.kind.block * i

    def flag_masks(self, j: int) -> list:
        """The words that the flags of message j are xored in as: of ones, if they are on."""
        return [T.fold_constants(lambda n: -n, self.kind.w, T.word([self.flag(name, j)])) for name in ("last", "node")]

    def expected_chaining_words(self, h: list, i: T.Term) -> list:
        """The bytes of F of each message, at block i."""
        found, n = [], self.kind.bytes
        for j in range(self.lanes):
            counter = T.split(self.counter_at_block(j, i))
            low, high = T.word(counter[:n]), T.word(counter[n:] or [0] * 8)
            found.append(R.F(self.kind, h[j], self.message[j], low, high, *self.flag_masks(j)))
        return self.rows_of_chaining_words(found)

    def check_return(self, machine: Any, wanted: list) -> None:
        """The chaining words, the stack and the registers after a return."""
        need_same(machine, {}, "the chaining words", machine.load(self.pointer(self.h), len(wanted)), wanted)
        self.cpu(machine).check_return(self.entry)
        self.cpu(machine).check_vectors_at_return()


class OneBlockEachCall(CompressionCall):
    """A call of a function that compresses one block of each of several messages."""

    def arguments(self) -> list:
        """The tables of the blocks' addresses, of the counters and of the flags."""
        return [self.pointer_to_words("blocks", self.blocks), *self.counters_and_flags()]


class StripesCall(CompressionCall):
    """A call of a function that compresses the blocks of stripes, which hold one block of each message, next to each
    other, with the flags off. The counter is that before the first."""

    def arguments(self) -> list:
        """The address of the stripes, the counter and the number of stripes: the number of bytes is not used."""
        return [self.blocks[0], self.counter, self.count()]

    def block_buffers(self) -> list:
        return [(self.blocks[0], [t for message in self.message for t in message])]

    def count(self) -> T.Term:
        return T.var(64, "count", T.PUBLIC)

    def terms_zero_at_end(self, left: T.Term) -> list:
        """The bytes of the blocks that are left may be counted too: they are fewer than 2^64."""
        size = self.kind.block
        return super().terms_zero_at_end(left) + [n * left for n in (size, -size)]

    def counter_at_block(self, j: int, i: T.Term) -> T.Term:
        return self.counter + self.kind.block * i + self.kind.block

    def flag_masks(self, j: int) -> list:
        return [T.const(self.kind.w, 0)] * 2


# The calls of functions with these names, besides CompressionCall.
CALLS: dict[str, type[CompressionCall]] = {"compress_each": OneBlockEachCall, "compress_in_lanes": StripesCall}


def call_class_of(name: str) -> type[CompressionCall]:
    return CALLS.get(re.split(r"\.\.|::", name)[-1], CompressionCall)


class FunctionRunner:
    """Executes a function, and remembers which of its instructions were reached."""

    def __init__(self, code: list, cpu: Any) -> None:
        self.code, self.cpu = {i.address: i for i in code}, cpu
        self.first = code[0].address
        self.count = self.paths = self.deepest = 0
        self.at: Any = None
        self.visited: set = set()
        self.results: dict = {}        # of compressions, of which there are none

    def run(self, machine: Any, pc: Any, stop: int | None = None) -> Any:
        """Runs from an address to a return, or to the address `stop`. Returns where it stopped."""
        while True:
            if pc not in self.code:
                raise CannotShow("a jump leaves the function")
            self.at = self.code[pc]
            (_, pc), = self.cpu(machine).execute_instruction(self.at)
            self.deepest = min(self.deepest, machine.deepest)
            self.visited.add(self.at.address)
            self.count += 1
            if pc is None or pc == stop:
                return pc
            if self.count > 200000:
                raise CannotShow("there is no end after 200,000 instructions")


def prove_single_blocks(program: Program, name: str, kind: R.HashFamily, lanes: int, runner: FunctionRunner) -> None:
    """A function that compresses one block of each message. Each flag on which it branches is tried both ways."""
    waiting: list = [{}]
    while waiting:
        assumed = waiting.pop()
        call = call_class_of(name)(program, name, kind, lanes, assumed)
        try:
            runner.run(call.machine, runner.first)
        except UndecidedComparison as e:
            names = {u.args[0] for t in e.compared[1:] for u in T.variables(t) if u.op == "ite"}
            if len(names) != 1 or len(assumed) > 3:
                raise
            waiting += [{**assumed, name: on} for name in names for on in (True, False)]
            continue
        call.check_return(call.machine, call.expected_chaining_words(call.words, T.const(64, 0)))
        runner.paths += 1


class BlocksLoopProof(SinglePathLoop):
    """A function that compresses a number of blocks of each of several messages: a proof by induction over the
    iterations of its only loop. The first iteration also proposes where the chaining words are."""

    STILL = ()

    def __init__(self, program: Program, name: str, kind: R.HashFamily, lanes: int, runner: FunctionRunner) -> None:
        jumps = [i for i in runner.code.values() if i.target is not None and i.target <= i.address]
        if len(jumps) != 1:
            raise CannotShow("the function has %d loops instead of one: if the compiler has split "
                             "it, tests/machine/compression.py needs a proof for that" % len(jumps))
        last, = jumps
        new_call = partial(call_class_of(name), program, name, kind, lanes, {})
        make = lambda *fact: new_call(None, PathFacts().with_comparison(*fact))
        self.count, none = new_call().count(), T.const(64, 0)
        self.none, self.call = make("==", self.count, none), make("!=", self.count, none)
        self.none.set_memory_to_block(None)
        runner.run(self.none.machine, runner.first)
        self.none.check_return(self.none.machine, self.none.rows_of_chaining_words(self.none.words))
        if runner.run(self.call.machine, runner.first, last.target) is None:
            raise IsWrong("a call with some blocks returns before the loop")
        runner.visited.add(last.address)
        to_last = lambda m: [m] if runner.run(m, last.target, last.address) else []
        super().__init__(runner, self.call.machine, to_last, last)

    def prove(self) -> None:
        """The proof of a call with some blocks."""
        call, i = self.call, T.var(64, "i", T.PUBLIC)
        second = self.iterate(self.start.copy())[0].bytes_by_place()
        if any(kind == "memory" and at is not call.machine.stack for kind, at, _ in self.changed(second)):
            raise IsWrong("the loop writes outside of the stack")
        self.propose_chaining_words(second, call.rows_of_chaining_words(call.words),
                                    call.expected_chaining_words(call.words, T.const(64, 0)))
        call.set_memory_to_block(i)
        wanted = call.expected_chaining_words(call.chain, i)
        general = self.state_at_head(i, call.rows_of_chaining_words(call.chain))
        general.regions = call.regions
        after, left = self.iterate(general)
        self.need_bytes_after_iteration(after, self.state_at_head(i + 1, wanted).bytes_by_place())
        rest = self.count - i - 1
        if left not in call.terms_zero_at_end(rest):
            raise IsWrong("the loop ends if %r is 0, instead of %r" % (left, rest))
        self.calls.run(after, self.last.next)
        call.check_return(after, wanted)
        self.calls.paths += 4


def prove_compression(program: Program, name: str, kind: R.HashFamily, lanes: int) -> tuple:
    """Proves the claim for a function, or raises ClaimNotShown. Returns the runner, and the seconds."""
    T.reset()
    started = time.time()
    runner = FunctionRunner(program.instructions_of(name, "W"), program.model.Model)
    try:
        if lanes == 1 or call_class_of(name) is OneBlockEachCall:
            prove_single_blocks(program, name, kind, lanes, runner)
        else:
            BlocksLoopProof(program, name, kind, lanes, runner).prove()
        unseen = [i for i in runner.code.values() if i.address not in runner.visited and i.name not in runner.cpu.FREE]
        if unseen:
            raise CannotShow("%d instructions were not reached, the first is %s" % (len(unseen), unseen[0].text))
    except (T.ClaimNotShown, UndecidedComparison) as e:
        at = " ".join(runner.at.text.split()) if runner.at else "the entry"
        raise (IsWrong if isinstance(e, IsWrong) else CannotShow)("at %s: %s" % (at, e))
    FRAMES[program.content_hash(name)] = -runner.deepest
    return runner, time.time() - started
