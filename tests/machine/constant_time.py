"""Shows that no branch and no address of a whole call depends on a secret: for each function that C programs call,
all code that it reaches. docs/MACHINE.md says what is shown."""

import math
import os
import re
from collections import Counter
from functools import partial
from typing import Any, Iterator

import functions
import program as programs
import terms as T
from machine import AFTER, Flags, need_public
from rfc7693 import HashFamily
from taint import SECRET_BYTE, TOP, UNKNOWN_BYTE, MemoryRegion, TaintState, is_secret
from terms import CannotShow, IsWrong
from walk import CodeWalker

STACK = 65536
ROUNDS = 20                            # of a loop, which are unrolled

# The arguments of the functions: a state of the family, or the name of another struct; a buffer with its length, of
# secret or of public bytes; a table of messages with its length; or a public number.
STATE, NODE = "state", "blake2b_state"
OUT, BYTES, KEY = "out", "bytes", "key"
PUBLIC, TABLE, NUMBER = "public", "table", "number"
BUFFERS = (OUT, BYTES, KEY, PUBLIC, TABLE)     # which have their length in the next argument
# An array whose second byte has the length of the key, which is public, and the families whose calls depend on it.
FIRST, VERIFYING = "first[8]", ("blake2b", "blake2s")
# The functions and the structs of the C header, with their arguments and fields. tools/exports.py compares both with
# the source.
HEADER = "c/include/vulfsjor.h"
with open(os.path.join(programs.ROOT, HEADER), encoding="utf-8") as file:
    TEXT = re.sub(r"(?s)/\*.*?\*/", "", file.read())
SIGNATURES = dict(re.findall(r"(?m)^\w+ (vulfsjor_ffi_\w+)\(([^)]*)\);", TEXT))
STRUCTS = dict(re.findall(r"(?s)typedef struct vulfsjor_(\w+) \{(.*?)\}", TEXT))
NAME = re.compile(r"vulfsjor_ffi_(blake2x?[bs]p?|tree|memcmp|wipe)(.*)")
# The ends of the names of the functions of BLAKE2 and BLAKE2X, some of which each family has.
EXPORTS = tuple(dict.fromkeys(m[2] for m in map(NAME.fullmatch, SIGNATURES) if m and m[1].startswith("blake2")))
ANSWERS = ("_verify", "_ffi_memcmp")   # whose result may depend on secrets
# What the exported functions of a family call, by the end of their names.
CALLED = {"_final": functions.FINALIZE, "_verify": functions.IS_DIGEST_OF}
# The block of a family, if it is not that of BLAKE2b, and the longest array that its calls index, if that is not a
# block, in bytes.
BLOCKS = {"blake2s": 64, "blake2xs": 64, "blake2sp": 64}
LONGEST = {"blake2bp": 896, "blake2sp": 960}
FAMILIES = ("blake2b", "blake2s", "blake2bp", "blake2sp")
FINALIZING, ANSWERING = (tuple(name % family for family in FAMILIES)
                         for name in (functions.FINALIZE, functions.IS_DIGEST_OF))
NOT_COMPUTED = ("_many", "_update_many", "_save", "_load")  # of these whole_calls.py does not show what they write
OF_ARRAYS = ("_update_many",)                   # whose secrets are not followed: they have an array of states
NOT_FOLLOWED = ("dist/x86_64/vulfsjor-v4.s",)   # masks of AVX-512 are not followed
# What is not shown, as pairs of a file and a function: pointers have bounds that are too hard for the ranges.
NOT_SHOWN = {("dist/x86_64/vulfsjor-v3.s", "vulfsjor_ffi_blake2bp")}


def layout(struct: str) -> list:
    """The fields of a struct: the size of each, whether it is public, as numbers are, and its name."""
    fields: list = []
    for type_, name, counts in re.findall(r"(\w+) (\w+)((?:\[\d+\])*);", STRUCTS[struct]):
        bits = re.fullmatch(r"uint(\d+)_t", type_)
        counted = math.prod(map(int, re.findall(r"\d+", counts)))
        fields += [(int(bits[1]) // 8 * counted, not counts, name + counts)] if bits else layout(
            type_.removeprefix("vulfsjor_"))
    return fields


def argument_kinds(family: str, given: str) -> tuple:
    kinds, left = [], iter(re.findall(r"(const )?(\w+) (\*?)(\w+)", given))
    for const, type_, star, name in left:
        if not star:
            kinds.append(NUMBER)
        elif type_ in ("uint8_t", "vulfsjor_message"):
            next(left)                 # its length
            of_bytes = {"key": KEY, "block": PUBLIC, "saved": PUBLIC}.get(name, BYTES) if const else OUT
            kinds.append(of_bytes if type_ == "uint8_t" else TABLE)
        else:
            kinds.append(STATE if type_ == "vulfsjor_%s_state" % family else type_.removeprefix("vulfsjor_"))
    return tuple(kinds)


def make_argument(m: TaintState, kind: str, at: int, family: str, has_key: bool) -> list:
    """An argument, and its length if it has one. The machine gets its memory."""
    word, length = (T.var(64, "%s%d" % (name, k), T.PUBLIC) for name, k in ((kind, at), ("length", at + 1)))
    if kind == NUMBER:
        return [word]
    if kind not in BUFFERS:
        cells: list = []
        arrays = []
        for size, is_public, name in layout(family + "_state" if kind == STATE else kind):
            arrays += [range(len(cells), len(cells) + size)] * (not is_public)
            public = T.split(T.var(8 * size, "%s.%d" % (word.args, len(cells)), T.PUBLIC)) if is_public else []
            key_size = UNKNOWN_BYTE if name == FIRST and family in VERIFYING else SECRET_BYTE
            cells += public or [SECRET_BYTE, key_size, *[SECRET_BYTE] * (size - 2)]
        m.regions[word] = MemoryRegion(0, len(cells), lambda k: cells[k])
        m.regions[word].arrays = arrays
        return [word]
    b = UNKNOWN_BYTE if kind == PUBLIC else SECRET_BYTE
    m.regions[word] = MemoryRegion(0, 0, lambda k: b, kind == OUT, uniform=True)
    if kind == TABLE:
        text = T.var(64, "message", T.PUBLIC)
        m.regions[text] = MemoryRegion(0, 0, lambda k: SECRET_BYTE, False, uniform=True)

        def entry(n: TaintState, place: tuple, size: int) -> list:
            """Bytes of the table, which has pairs of an address and a length, from a place on."""
            if place[2] % 16:
                raise CannotShow("the place in the table of messages is not known")
            pair = T.split(text + n.new_public_variable(64, "at")) + T.split(n.new_public_variable(64, "length"))
            return [pair[(place[0] + k) % 16] for k in range(size)]
        m.regions[word].table = entry
    if kind == KEY:
        m.limit(length, 1, TOP - 1)
    return [word, length if has_key or kind != KEY else T.const(64, 0)]


def state_at_entry(program: programs.Program, kinds: tuple, family: str, alignment: tuple, has_key: bool) -> TaintState:
    words: list = []
    m = TaintState(program.constants_memory(), program.model.Model, alignment, BLOCKS.get(family, 128),
                   LONGEST.get(family, 0))
    for kind in kinds:
        words += make_argument(m, kind, len(words), family, has_key)
    m.processor(m).set_entry_state(words, STACK, lambda: SECRET_BYTE)
    return m


class FunctionWalk:
    """The code of a function that is followed: the state at each place, and where all paths meet."""

    def __init__(self, path: str, code: list, cpu: Any, machine: TaintState) -> None:
        self.path, self.entry = path, cpu(machine).bytes_kept_for_caller()
        self.code = {i.address: i for i in code}
        # Where its blocks start.
        self.starts = {pc for i in code if i.target is not None and not i.is_call for pc in (i.target, i.next)}
        # The head of a loop -> its last address.
        self.loops = {i.target: i.address for i in code if i.target is not None and i.target <= i.address}
        self.states: dict = {}
        self.visits: Counter = Counter()
        self.waiting: set = set()
        self.end: Any = None
        self.add_path_at(code[0].address, machine, -1)

    def add_path_at(self, pc: int, m: Any, origin: int) -> None:
        """A path that comes to a place from another one."""
        if pc <= origin:
            m.rounds = rounds_after_jump(m, pc, origin)
        if pc in self.loops:
            m.undecided = frozenset(p for p in m.undecided if not pc <= p <= self.loops[pc])
        key = pc, m.rounds
        self.visits[key] += 1
        if self.visits[key] > 100:
            raise CannotShow("no invariant of a loop is found")
        if key not in self.states:
            self.states[key] = m.copy()
        elif not self.states[key].join(m, "%s.%x%s." % (self.path, pc, rounds_text(m)), self.visits[key],
                                       pc in self.loops and m.longest > m.block):
            return
        self.waiting.add(key)

    def add_path_at_end(self, m: Any) -> None:
        if self.end is None:
            self.end = m
        else:
            self.end.join(m, self.path + ".end.", 0)


class TaintAnalysis(CodeWalker):
    comparing, may_trap = ANSWERS, True

    def __init__(self, program: programs.Program, exported: str) -> None:
        super().__init__(program, exported)
        self.reached: set = set()
        self.entered: set = set()

    def run(self, name: str, machine: Any) -> Any:
        """The state after a call of a function, where all paths meet."""
        machine.rounds, machine.undecided, machine.bounds = (), frozenset(), frozenset()
        walk = FunctionWalk(machine.where, self.program.instructions_of(name, "T"), self.cpu, machine)
        while walk.waiting:
            key = min(walk.waiting)
            walk.waiting.remove(key)
            waiting = [(walk.states[key].copy(), key[0])]
            while waiting:
                m, pc = waiting.pop()
                if pc not in walk.code:
                    raise IsWrong("%s goes on behind its end" % name)
                m.where = "%s/%x%s." % (walk.path, pc, rounds_text(m))
                self.reached.add(pc)
                for n, after in self.follow_instruction(name, m, walk.code[pc], walk.code, walk.entry):
                    if after is None:
                        walk.add_path_at_end(n)
                    elif after in walk.starts:
                        walk.add_path_at(after, n, pc)
                    else:
                        waiting.append((n, after))
        if walk.end is None:
            raise CannotShow("%s does not return" % name)
        return walk.end

    def follow_answer_branch(self, m: Any, i: Any) -> list:
        """The answer is public."""
        m.flags = Flags("other", *[m.new_public_variable(64, "answer")] * 3)
        return self.cpu(m).execute_instruction(i)

    def call_compression(self, m: Any, name: str) -> list:
        """A call of a function whose code is not followed: it compresses, or is a scrub_stack."""
        if name in self.listed:
            apply_compression(m, [self.cpu(m).argument(k) for k in range(5)], *self.listed[name])
        self.cpu(m).clobber_registers(AFTER)
        return [m]

    def call_inner_function(self, m: Any, name: str) -> list:
        if name in self.scrubs:
            return self.call_compression(m, name)
        i, kept = self.at, {part: getattr(m, part) for part in ("rounds", "undecided", "bounds")}
        m.__dict__.update({**self.run(name, m).__dict__, **kept})
        self.at = i
        self.entered.add(name)
        if name in ANSWERING:
            if not self.exported.endswith(ANSWERS):
                raise IsWrong("a comparison whose answer is not that of the call")
            if not m.is_bit(self.cpu(m).result_register()[0]):
                raise CannotShow("the answer of %s may have more values than 0 and 1" % name)
            self.cpu(m).set_result_bytes([(m.new_public_variable(8, "answer", (0, 1, 1)), 0)])
        elif name in FINALIZING:
            need_wiped_state(m, next(b for b in m.regions if b.args == "state0"))
        return [m]


def rounds_text(m: Any) -> str:
    """The rounds as text, for the names of variables."""
    return "".join(":%x=%d" % pair for pair in m.rounds)


def rounds_after_jump(m: Any, head: int, origin: int) -> tuple:
    """How often a machine that jumps back to a loop's head has passed the heads of loops by jumps that were decided
    by numbers. Such rounds are kept apart, so that the loop is unrolled."""
    rounds = {h: n for h, n in m.rounds if not head < h <= origin}
    if not any(head <= p <= origin for p in m.undecided):
        rounds[head] = min(rounds.get(head, 0) + 1, ROUNDS)
    return tuple(sorted(rounds.items()))


def apply_compression(m: Any, arguments: list, name: str, kind: HashFamily, lanes: int) -> None:
    """A call of a function that compresses, of which compression.py shows what it does."""
    used, tables = arguments[:4], []
    if lanes == 1:
        used = arguments[:3] + [T.word(T.split(t)[:1]) for t in arguments[3:5]]
    elif name not in (functions.STRIPES_B[0], functions.STRIPES_S[0]):
        is_each = name in (functions.EACH_B[0], functions.EACH_S[0])
        tables = [(arguments[1], (8 if is_each else 16) * lanes), (arguments[3], 2 * lanes)]
        tables += [(arguments[2], 8 * lanes)] * is_each
    for t in used:
        need_public(t, "an argument of a compression")
    for t, size in tables:
        need_public(T.word(m.load(t, size)), "a block's address, a counter or a flag")
    m.store(arguments[0], [SECRET_BYTE] * (8 * kind.bytes * lanes))


def exports(program: programs.Program) -> Iterator:
    """The functions that C programs call, with their arguments and families, but for those of OF_ARRAYS."""
    for name in sorted(set(program.globals) - set(functions.SHARED)):
        m = NAME.fullmatch(name)
        if not m or name not in SIGNATURES:
            raise CannotShow("the arguments of %s are not known: %s does not declare it" % (name, HEADER))
        program.address_range(name)           # refuses what is not a function, or may be another's
        if not m[2].endswith(OF_ARRAYS):
            yield name, argument_kinds(m[1], SIGNATURES[name]), m[1]


def follow_call(program: programs.Program, name: str, kinds: tuple, family: str) -> TaintAnalysis:
    """Follows a call, or raises ClaimNotShown. Returns the analysis."""
    analysis = TaintAnalysis(program, name)

    def follow_from(alignment: tuple, has_key: bool) -> None:
        T.reset()
        check_after_call(analysis.run(name, state_at_entry(program, kinds, family, alignment, has_key)), name)
    for has_key in (False, True)[:1 + (KEY in kinds)]:
        analysis.for_each_stack_alignment(lambda: name, partial(follow_from, has_key=has_key))
    missed = [n for end, n in CALLED.items() if name == "vulfsjor_ffi_%s%s" % (family, end)
              and family in FAMILIES and n % family not in analysis.entered]
    if missed:
        raise CannotShow("%s does not call %s: the compiler may have inlined it, or it has another "
                         "name now: see tests/machine/functions.py" % (name, missed[0] % family))
    return analysis


def follow_call_unless_unbounded(program: programs.Program, entry: tuple) -> TaintAnalysis | None:
    """The same, or None for a function of NOT_SHOWN for which no bound is known, and which must not be shown."""
    name = entry[0]
    try:
        found = follow_call(program, *entry)
    except CannotShow as e:
        if (program.path, name) in NOT_SHOWN and ": no bound is known for " in str(e):
            return None
        raise
    if (program.path, name) in NOT_SHOWN:
        raise CannotShow("%s is shown: take it out of NOT_SHOWN" % name)
    return found


def check_after_call(m: TaintState, name: str) -> None:
    """What must hold after a call: the result and the public fields of structs do not depend on a secret, so that the
    next call may assume it, and a wiped state is zero."""
    for base, region in m.regions.items():
        if not region.writable or region.uniform or base is m.stack:
            continue
        if name.endswith("_wipe"):
            need_wiped_state(m, base)
        for k in range(region.high):
            if is_secret(m.byte(base, k)) and not is_secret(region.initial(k)):
                raise IsWrong("byte %d of %s, which is public, depends on a secret" % (k, base.args))
    if not name.endswith(ANSWERS + ("_wipe",)):
        need_public(T.word(m.processor(m).result_register()[:4]), "the result")


def need_wiped_state(m: Any, state: T.Term) -> None:
    """Refuses a state of which a byte may not be zero."""
    for k, b in enumerate(m.first_bytes(state, m.regions[state].high)):
        if b != 0:
            raise IsWrong("byte %d of the state is not overwritten" % k)
