"""Runs each form of instruction on the processor (for ARM in qemu-aarch64), over random registers and memory, and
compares with the model: of the functions that are executed over variables, and of those in which secrets are followed,
which are the users W and T of forms.txt. What the model has as a number must be that number; of the functions that
compress, all are numbers. For T each runs twice, over states that differ only in bytes that are secret: what is public
must then be the same. Of flags all conditions are compared, also after two instructions, of which the first sets
flags, and the second keeps some or reads them. What the model accepts at an odd address runs there.
check_wasm_instructions.py does it for WebAssembly."""

import random
import re
import struct
from typing import Any, Iterator, NamedTuple

import call_cases
import constant_time
import forms
import functions
import terms as T
import x86
from hostile import JUNK, Crash, HostileProgram
from machine import Flags, MemoryRegion
from program import OF_C, read, Program
from symbolic import SymbolicState, UndecidedComparison
from taint import SECRET_BYTE, TaintState, is_secret

BUFFER = 4096                          # bytes on each side of the base of an access
SPAN = (-BUFFER, BUFFER)
# For each user: the seed of its tests, of how many instructions of each form, and how many tenths of all
# must be compared.
USERS = {"T": (3, 4, 9), "W": (7, 6, 8)}
OF_ZERO = ("add", "sub", "dec", "xor", "test", "shr", "shl", "cmp", "subs", "tst")
# A state: 32 general registers, vectors, the zero flag before and all flags afterwards, masks and memory. In place of
# the last register, which has no name, is the base of the memory.
LAST, VECTORS, ZERO = 248, 256, 256 + 2048
FLAGS, MASKS = ZERO + 8, ZERO + 64
MEMORY = MASKS + 64
SIZE = MEMORY + 2 * BUFFER
NAMES = "rax rcx rdx rbx rsp rbp rsi rdi r8 r9 r10 r11 r12 r13 r14 r15".split()
# Addresses that the files do not have. Indices are small, since r12 and r13 hold them.
EXTRA: dict = {"aarch64": [], "x86_64": [
    ("lea rax,[r15+r13*4+0x8]", 15), ("lea rdx,[r15+r12*1]", 15), *(
        ("mov %s,%sWORD PTR [r15+r12*%d%+d]" % (r, w, scale, offset), 15) for r, w in (("rax", "Q"), ("ecx", "D"))
        for scale in (1, 2, 4, 8) for offset in (0, 24, -8))]}
PRODUCTS = ("div", "udiv", "mul", "imul", "mulx", "madd", "msub", "umulh")      # only of public words
# Instructions that set flags, and that keep some or all; those of the files that read some.
SETS_FLAGS = {
    "x86_64": ("cmp rbx,rcx", "add edx,esi", "test r8,r9", "neg rdi", "sub r10,r11", "and dl,al", "xor ecx,ecx"),
    "aarch64": ("cmp x1, x2", "adds x3, x4, x5", "tst w6, #0xff", "subs w1, w2, w3", "cmn x1, #1", "ands x3, x4, x5")}
KEEPS_FLAGS = {"x86_64": ("inc edx", "dec r9", "inc BYTE PTR [r15]", "not ecx", "lea r8,[r9+0x1]"),
               "aarch64": ("add x9, x9, #1", "mov x10, x11", "ccmp x3, x4, #0, ne")}
READS_FLAGS = re.compile(r"set|cmov|adc|sbb|cs|cin|ccmp")
# The bits of the flags for zero, carry, sign and overflow. The conditions by each, by whether sign and overflow differ,
# by this or zero, and by carry and zero; and their opposites.
CONDITIONS = {"x86_64": ((6, 0, 7, 11), "e b s o l le be", "ne ae ns no ge g a"),
              "aarch64": ((30, 29, 31, 28), "eq cs mi vs lt le ls", "ne cc pl vc ge gt hi")}


def with_own_base_register(kind: str, text: str) -> tuple:
    """An instruction over a base register of its own for memory: its text, and the register."""
    if kind == "aarch64":
        used = {int(n) for n in re.findall(r"\b[xw](\d+)\b", re.sub(r"\[.*\]", "", text))}
        base, index = [n for n in range(28, 20, -1) if n not in used][:2]
        text = re.sub(r" \[\w+, x\d+", " [x%d, x%d" % (base, index), text)
        return re.sub(r" \[\w+" if "[" in text else r"\bsp\b", (" [x%d" if "[" in text else "x%d") % base, text), base
    if text.startswith("lea "):
        return text.replace("rsp", "r11"), 14
    base = 15 if not re.search(r"\br15", re.sub(r"\[.*\]", "", text)) else 13
    text = re.sub(r"\[.*\]", "[%s]" % NAMES[base], text)
    return re.sub(r"\brsp\b", "r14", text), base


def vector_count_and_size(path: str) -> tuple:
    """How many vector registers a test of a file loads and compares, and how many bytes of each."""
    if functions.architecture(path) == "aarch64":
        return 32, 16
    return (32, 64) if path.endswith("-v4.s") else (16, 32)


def x86_test_lines(text: str, vectors: tuple) -> list:
    """A function that loads all registers, runs an instruction, and stores them."""
    count, size = vectors
    moves = ["vmovdqu%s %smm%d, [rax+%d]" % (*(("64", "z") if size == 64 else ("", "y")), j,
                                            VECTORS + size * j) for j in range(count)]
    if size == 64:
        moves += ["kmovq k%d, [rax+%d]" % (j, MASKS + 8 * j) for j in range(8)]
    others = [(j, n) for j, n in enumerate(NAMES) if n not in ("rax", "rsp")]
    out = ["push rdi", "mov rax, rdi"] + moves + ["cmp byte ptr [rax+%d], 0" % ZERO]
    out += ["mov %s, [rax+%d]" % (n, 8 * j) for j, n in others]
    out += ["mov rax, [rax]", text, "push rax", "pushfq", "mov rax, [rsp+16]", "pop qword ptr [rax+%d]" % FLAGS]
    out += ["mov [rax+%d], %s" % (8 * j, n) for j, n in others] + ["pop rbx", "mov [rax], rbx"]
    out += [re.sub(r" (.*), (.*)", r" \2, \1", move) for move in moves]
    return out + ["vzeroupper", "pop rdi", "ret"]


def arm_test_lines(text: str, _: tuple) -> list:
    """The same for ARM."""
    vectors = ["r q%d, [x1, #%d]" % (j, 16 * j) for j in range(32)]
    out = ["stp x0, x30, [sp, #-32]!", "add x1, x0, #256"] + ["ld" + v for v in vectors]
    out += ["ldrb w1, [x0, #%d]" % ZERO, "cmp w1, #0"]
    out += ["ldr x%d, [x0, #%d]" % (j, 8 * j) for j in range(30, -1, -1)]
    out += [text, "str x0, [sp, #16]", "ldr x0, [sp]"]
    out += ["str x%d, [x0, #%d]" % (j, 8 * j) for j in range(1, 31)]
    out += ["ldr x1, [sp, #16]", "str x1, [x0]", "mrs x1, nzcv", "str x1, [x0, #%d]" % FLAGS]
    return out + ["add x1, x0, #256"] + ["st" + v for v in vectors] + ["ldp x0, x30, [sp], #32", "ret"]


def assembly_of_tests(kind: str, tests: list, vectors: tuple) -> str:
    out = [".intel_syntax noprefix"] * (kind == "x86_64") + [".text"]
    for k, (text, _) in enumerate(tests):
        out += ["t%d:" % k] + (x86_test_lines if kind == "x86_64" else arm_test_lines)(text, vectors)
    return "\n".join(out + ['.section .note.GNU-stack,"",%progbits', ""])


def flag_instruction_pairs(kind: str, tests: list, rng: Any) -> Iterator:
    """Texts of two instructions: one that sets flags, and one that keeps or reads some."""
    for text, base in [(keeper, 15) for keeper in KEEPS_FLAGS[kind]] + [t for t in tests if READS_FLAGS.match(t[0])]:
        for first in rng.sample(SETS_FLAGS[kind], 3):
            yield "%s; %s" % (first, text), base


def conditions_of_flags(kind: str, state: bytes) -> dict:
    """Whether each condition holds, by the flags of a state."""
    bits, names, opposites = CONDITIONS[kind]
    flags, = struct.unpack_from("<Q", state, FLAGS)
    zero, carry, sign, overflow = (flags >> k & 1 for k in bits)
    below = carry if kind == "x86_64" else 1 - carry
    found = zero, carry, sign, overflow, sign ^ overflow, zero | sign ^ overflow, zero | below
    return {**dict(zip(names.split(), found)), **{name: 1 - bit for name, bit in zip(opposites.split(), found)}}


def random_secret_places(rng: Any, size: int) -> set:
    """The places of secret bytes: of some registers and of parts of the memory."""
    registers = [(8 * j, 8) for j in range(32)] + [(VECTORS + size * j, size) for j in range(32)]
    return {k for start, n in registers if rng.random() < 0.4 for k in range(start, start + n)} | set(
        range(MEMORY, SIZE) if rng.random() < 0.5 else ())


def reached_functions(program: Program, waiting: list, left_out: list) -> list:
    """The functions that some functions reach, except those that are left out."""
    found: set = set()
    while waiting:
        name = waiting.pop()
        if name in found or name in left_out or name in OF_C:
            continue
        found.add(name)
        code = program.instructions_of(name)
        inside = {i.address for i in code}
        waiting += [program.called_function_name(i, OF_C) for i in code
                    if i.target is not None and i.target not in inside]
    return sorted(found)


def compressing_functions(program: Program) -> list:
    return [functions.name_in_file(program.path, name) for name, _, _ in functions.FILES[program.path]]


def executed_functions(program: Program, user: str) -> list:
    listed, scrubs = compressing_functions(program), list(functions.stack_scrub_functions(program))
    if user == "W":
        return listed + reached_functions(program, call_cases.shown_names(program) + scrubs, listed)
    follows = program.path not in constant_time.NOT_FOLLOWED
    names = [e[0] for e in constant_time.exports(program)] if follows else []
    return reached_functions(program, names, listed + scrubs)


def texts_by_form(program: Program, user: str) -> dict:
    """The instructions that are executed for a user, by their forms, except those of CONTROL."""
    found: dict = {}
    texts = map(program.instruction_texts, executed_functions(program, user))
    for text in sorted(set().union(*texts)):
        f = forms.form_of_instruction(program.kind, text)
        if not forms.CONTROL[program.kind].fullmatch(f):
            found.setdefault(f, []).append(text)
    return found


def choose_instructions(program: Program, user: str, count: int, rng: Any, other: Program | None = None) -> tuple:
    """The forms that only the first program has, and up to `count` instructions of each, as (text, base register)."""
    left_out = texts_by_form(other, user) if other else {}
    found = {f: {with_own_base_register(program.kind, text) for text in texts}
             for f, texts in texts_by_form(program, user).items() if f not in left_out}
    return set(found), [t for f in sorted(found) for t in rng.sample(sorted(found[f]), min(count, len(found[f])))]


def run_in_model(program: Program, user: str, text: str, base: int, data: bytes, places: set, odd: int = 0) -> tuple:
    """The machine after the instructions of a text, in which bytes at some places are secret."""
    byte = lambda k: SECRET_BYTE if k in places else data[k]
    word = lambda at, n: [byte(k) for k in range(at, at + n)] if places else list(data[at:at + n])
    memory, cpu = lambda k: byte(MEMORY + BUFFER + odd + k), program.model.Model
    buf = T.var(64, "buffer", T.PUBLIC)
    m: Any
    if user == "W":
        m = SymbolicState({buf: MemoryRegion(*SPAN, memory, True, (64, odd))}, cpu, (16, 0))
    else:
        m = TaintState({buf: MemoryRegion(*SPAN, memory)}, cpu, (16, 0), 128)
    m.stack = T.var(64, "sp", T.PUBLIC)
    m.general = [word(8 * j, 8) for j in range(len(m.general))]
    m.general[base] = T.split(buf)
    count, size = vector_count_and_size(program.path)
    for j in range(count):
        m.vector[j] = word(VECTORS + size * j, size) + m.vector[j][size:]
    m.masks = [[n >> k & 1 for k in range(64)] for n in struct.unpack_from("<8Q", data, MASKS)]
    zero = T.const(8, data[ZERO])
    m.flags = Flags("sub", zero, T.const(8, 0), zero)
    for part in text.split("; "):
        part = part.replace(" ", "\t", 1) if program.kind == "aarch64" else part
        cpu(m).step(program.model.Instruction(0, part))
    return m, buf


def places_to_compare(program: Program, m: Any, written: dict) -> Iterator:
    """What a test compares of registers, and of what the model has written: places in a state, and bytes."""
    count, size = vector_count_and_size(program.path)
    for j, r in enumerate(m.general[:31]):
        if (program.kind, j) != ("x86_64", x86.RSP):
            yield 8 * j, r
    for j, r in enumerate(m.vector[:count]):
        yield VECTORS + size * j, r[:size]
    yield from ((place, [b]) for place, b in written.items())


def bytes_if_numbers(data: list) -> bytes | None:
    try:
        return bytes(data)
    except TypeError:
        return None


def difference_from_processor(program: Program, m: Any, buf: T.Term, before: list, after: list) -> str | None:
    """What is called public and differs between the states after, or is not the first's number, or None."""
    one = after[0]
    base = struct.unpack_from("<Q", one, LAST)[0]
    at_base = {buf: T.const(64, base)}
    written = {MEMORY + BUFFER + base % 2 + k: b for (of, k), b in m.memory.items() if of is buf}
    number_of = lambda b: b if isinstance(b, int) else T.split(T.substitute(T.word([b]), at_base, {}))[0]
    for start, data in places_to_compare(program, m, written):
        known = bytes_if_numbers(data)
        if known is not None and all(state[start:start + len(data)] == known for state in after):
            continue
        for at, b in enumerate(data, start):
            if is_secret(b):
                continue
            if any(state[at] != one[at] for state in after):
                return "byte %d depends on a secret" % at
            n = number_of(b)
            if n != one[at] and isinstance(n, int):
                return "byte %d is %d, not %s" % (at, one[at], n)
    for old, new in zip(before, after):
        kept = bytearray(new)
        for place in written:
            kept[place] = old[place]
        if kept[MEMORY:] != old[MEMORY:]:
            return "memory that it does not write differs"
    return difference_of_flags(program, m, number_of, after)


def difference_of_flags(program: Program, m: Any, number_of: Any, after: list) -> str | None:
    """The same of the conditions that the flags say, and of the masks of AVX-512."""
    first, *others = [conditions_of_flags(program.kind, state) for state in after]
    for name, holds in first.items():
        try:
            said = getattr(m, "truth", m.bit)(program.model.Model(m).comparison_of_condition(name))
        except (T.ClaimNotShown, UndecidedComparison):
            continue                   # it is not followed
        said = number_of(said) if isinstance(said, tuple) else said
        if said != "secret" and (any(other[name] != holds for other in others) or said in (0, 1) and said != holds):
            return "the condition %s is %d, not %s" % (name, holds, said)
    words = struct.unpack_from("<8Q", after[0], MASKS) if vector_count_and_size(program.path)[1] == x86.WIDTH else ()
    for j, word in enumerate(words):
        if any(bit != word >> k & 1 for k, bit in enumerate(m.masks[j])):
            return "mask register %d differs" % j
    return None


def random_state(rng: Any, text: str, which: int | None) -> Any:
    """Random registers and memory; or one number everywhere, such that results are often zero."""
    data = bytearray(rng.randbytes(SIZE))
    data[ZERO] = rng.randrange(2)
    if which is None:
        return data
    numbers = [int(n, 0) for n in re.findall(r"(?<!\w)(?:0x[0-9a-f]+|\d+)(?!\w)", text)] or [1]
    value = (0, 1, numbers[-1], -numbers[-1])[which % 4] & (1 << 64) - 1
    data[:256] = value.to_bytes(8, "little") * 32
    data[MEMORY:] = bytes([rng.choice((0, 1, 2))]) * (2 * BUFFER)
    return data


def adjust_to_avoid_faults(text: str, data: Any, rng: Any) -> None:
    """Makes numbers such that an instruction does not fault: small indices, and a quotient that has room."""
    indices = re.findall(r"\[x\d+, x(\d+)", text) + [n for n in (12, 13) if "r15+r%d" % n in text]
    for j in map(int, indices):
        data[8 * j:8 * j + 8] = bytes([rng.randrange(64)] + [0] * 7)
    if text.startswith("div"):
        data[:256] = (bytes([1 + rng.randrange(255)]) * 8) * 32
        data[16:24] = bytes(8)
        data[MEMORY:] = bytes([7]) * (2 * BUFFER)


class TestRun(NamedTuple):
    """A run of a test: its number, one state or two, the places of secrets, and 1 if memory is at an odd address."""

    test: int
    states: list
    places: set
    odd: int

    def execute(self, hostile: HostileProgram, base: int) -> Iterator:
        """The states after the test, with the memory at a base register."""
        for data in self.states:
            hostile.prepare_call(bytes(JUNK), 0, 0)
            hostile.place_in_memory(data)
            address = hostile.address(MEMORY + BUFFER + self.odd)
            for at in 8 * base, LAST:
                hostile.write(at, struct.pack("<Q", address))
            hostile.call("t%d" % self.test, [hostile.address(0)])
            yield hostile.memory


def runs_of_tests(program: Program, user: str, tests: list, rounds: int, rng: Any) -> Iterator:
    """The runs of each test. The first of one with a vector in memory is at an odd address, if the model lets it."""
    for k, (text, base) in enumerate(tests):
        has_zero = user == "W" and text.startswith(OF_ZERO)
        for n in range(rounds + 6 * has_zero):
            data = random_state(rng, text, k + n // 2 if n % 2 else None)
            adjust_to_avoid_faults(text, data, rng)
            places: set = set()
            if user == "T" and text.split()[0] not in PRODUCTS:
                places = random_secret_places(rng, vector_count_and_size(program.path)[1])
            for j in re.findall(r"\[x\d+, x(\d+)", text):
                places -= set(range(8 * int(j), 8 * int(j) + 8))
            other = bytearray(data)
            for at, b in zip(sorted(places), rng.randbytes(len(places))):
                other[at] = b
            may_be_odd = n == 0 and user != "T" and "MMWORD PTR" in text
            odd = int(may_be_odd and model_accepts(program, user, text, base, data, places, 1))
            yield TestRun(k, [bytes(data)] + [bytes(other)] * (user == "T"), places, odd)


def model_accepts(*arguments: Any) -> bool:
    """Whether the model executes what run_in_model() has to."""
    try:
        run_in_model(*arguments)
    except T.ClaimNotShown:
        return False
    return True


def results_are_known(program: Program, m: Any, buf: T.Term) -> bool:
    """Whether the model has a number in each register, and in all that is written."""
    return all(bytes_if_numbers(data) is not None or all(isinstance(b, int) or T.variables(b[0]) == {buf} for b in data)
               for _, data in places_to_compare(program, m, m.memory))


def check_model_agrees(path: str, user: str, rounds: int, other: str = "") -> tuple:
    """Whether the model agrees with the processor: a verdict, why, and the forms that were run, not in another file."""
    program, (seed, count, tenths) = read(path), USERS[user]
    rng = random.Random(seed)
    T.reset()
    count = count if rounds > 5 else 1 + (user == "W")
    used, tests = choose_instructions(program, user, count, rng, read(other) if other else None)
    exact = {forms.form_of_instruction(program.kind, t)
             for name in compressing_functions(program) * (user == "W") for t in program.instruction_texts(name)}
    extra = [] if other else [*EXTRA[program.kind] * (user == "W"), *flag_instruction_pairs(program.kind, tests, rng)]
    first, tests = len(tests), tests + extra
    runs = list(runs_of_tests(program, user, tests, rounds, rng))
    hostile = HostileProgram(path, assembly_of_tests(program.kind, tests, vector_count_and_size(path)))
    done: dict = {}                    # the tests that ran, each with whether the model has known all of a run
    for n, r in enumerate(runs):
        if n % 500 == 0:
            T.reset()
        text, base = tests[r.test]
        try:
            after = list(r.execute(hostile, base))
        except Crash:
            return "not ok", "%s: the processor faults" % text, set()
        must = r.test < first and (user == "T" or forms.form_of_instruction(program.kind, text) in exact)
        try:
            m, buf = run_in_model(program, user, text, base, r.states[0], r.places, r.odd)
        except (T.ClaimNotShown, UndecidedComparison):
            if must:
                raise
            continue                   # the flags that it reads are not public, or not known
        why = difference_from_processor(program, m, buf, r.states, after)
        is_known = user == "T" or results_are_known(program, m, buf)
        if why or must and not is_known:
            return "not ok", "%s: in the model %s" % (text, why or "the result is not known"), set()
        done[r.test] = is_known or done.get(r.test, False)
    known = sum(done.values())
    if known < len(tests) * tenths // 10:
        return "not ok", "only %d of %d tests can be compared" % (known, len(tests)), set()
    forms_run = used & {forms.form_of_instruction(program.kind, part) for k in done for part in tests[k][0].split("; ")}
    missed = sorted(used - forms_run)
    what = "%d forms, %d instructions, %d more tests, %d runs, %d compared" % (
        len(used), first, len(extra), len(runs), known)
    return "not ok" if missed else "ok", "the form is not run: %s" % missed[0] if missed else what, {
        (program.kind, user, f) for f in forms_run}
