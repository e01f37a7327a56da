"""A model of the x86-64 instructions that the shipped code uses. Any other is an error. docs/MACHINE.md says how to
add one: most are a line of a table, MOVED or COMPUTED for vectors and ARITHMETIC for words."""

import functools
import re
from typing import Any, Callable

import machine
import terms as T
from machine import (LEFT, ON_VECTORS, ON_WORDS, SECRET, UNKNOWN, Flags, Operand, Processor, apply_to_numbers, chunks,
                     joined, load_address, need_public, no_rule, number, picked, undefined_bytes)
from terms import CannotShow, IsWrong

RAX, RCX, RDX, RBX, RSP, RBP, RSI, RDI = range(8)
REGISTERS, WIDTH = 32, 64              # the vector registers, and the bytes of each
UPPER = range(16, REGISTERS)           # those that only code for AVX-512 has
REGISTER = {name: Operand("general", index=k, size=size) for k, names in enumerate((
    "rax eax ax al", "rcx ecx cx cl", "rdx edx dx dl", "rbx ebx bx bl", "rsp esp sp spl", "rbp ebp bp bpl",
    "rsi esi si sil", "rdi edi di dil", *("r%d r%dd r%dw r%db" % (k, k, k, k) for k in range(8, 16))))
    for name, size in zip(names.split(), (8, 4, 2, 1))}
REGISTER.update({"%smm%d" % (letter, k): Operand("vector", index=k, size=size) for k in range(REGISTERS)
                 for letter, size in (("x", 16), ("y", 32), ("z", WIDTH))})
REGISTER.update({"k%d" % k: Operand("mask", index=k) for k in range(8)})
SIZES = {"BYTE": 1, "WORD": 2, "DWORD": 4, "QWORD": 8, "XMMWORD": 16, "YMMWORD": 32, "ZMMWORD": 64}
CONDITIONS = "e ne b ae a be s ns l le g ge o no".split()
OF_CARRY, OF_OVERFLOW = ("b", "ae", "a", "be"), ("o", "no")
NUMBER = re.compile(r"0x[0-9a-f]+|[0-9]+")
NOP = re.compile(r"((data16|cs) +)*nop\b.*|xchg +ax,ax")
ONE, FILE = Operand("number", value=1), Operand("file")        # a number, and the start of the file


@functools.lru_cache(maxsize=None)
def operand(text: str) -> Operand:
    """The operand that this is: a register, memory as a sum of operands with factors, or a number. A word of memory may
    be broadcast, to all words of a vector. A mask register may choose the words of a vector that are written; the
    others are set to zero, or kept."""
    if text in REGISTER:
        return REGISTER[text]
    if NUMBER.fullmatch(text):
        return Operand("number", value=int(text, 0))
    m = re.fullmatch(r"([xyz]mm\d+)\{k([0-7])\}(\{z\})?", text)
    if m and m[1] in REGISTER:
        o = REGISTER[m[1]]
        return Operand("vector", index=o.index, size=o.size, mask=int(m[2]), zeroes=bool(m[3]))
    m = re.fullmatch(r"(?:([A-Z]+) (PTR|BCST) )?\[(.*)\]", text)
    parts = parse_address(m[3]) if m else None
    if not m or not parts:
        raise CannotShow("the operand %s is not modelled: add it to tests/machine/x86.py" % text)
    return Operand("memory", size=SIZES[m[1]] if m[1] else None, parts=parts, is_broadcast=m[2] == "BCST")


def parse_address(text: str) -> list | None:
    """The parts of an address, or None."""
    parts: list = []
    for sign, piece in re.findall(r"([+-]?)([^+-]+)", text):
        name, _, scale = piece.partition("*")
        if name in REGISTER and REGISTER[name].size == 8 and sign != "-":
            parts.append((int(scale or 1), REGISTER[name]))
        elif piece == FILE.kind or NUMBER.fullmatch(piece):
            parts.append((-1 if sign == "-" else 1, FILE if piece == FILE.kind else operand(piece)))
        else:
            return None
    return parts


class Instruction(machine.Instruction):
    """A line of objdump's output, in Intel's order of operands."""

    JUMP, CALL, TRAP = "jmp", "call", "ud2"

    def parse_text(self) -> None:
        code, _, comment = self.text.partition("#")
        self.name, _, rest = code.strip().partition(" ")
        if NOP.fullmatch(code.strip()):
            self.name = "nop"          # a prefix of another instruction is not modelled
        elif self.name.startswith("j") or self.name == "call":
            m = re.match(r"([0-9a-f]+) <", rest.strip())
            if not m:
                raise CannotShow("it is not known where %s goes to" % self.text)
            self.target = int(m[1], 16)
        elif rest.strip():
            target = "[file+0x%s]" % comment.split()[0] if comment.split() else "[rip]"
            self.operands = [operand(re.sub(r"\[rip\b.*\]", target, o.strip())) for o in rest.split(",")]


# What instructions on words set, by two words: the kind of the flags, if they change, and the operation. Of an
# instruction with one operand, the second is 1.
ARITHMETIC: dict = {
    "add": ("add", "add"), "sub": ("sub", "sub"), "cmp": ("sub", "sub"), "xor": ("logic", "xor"), "or": ("logic", "or"),
    "and": ("logic", "and"), "test": ("logic", "and"), "neg": ("other", "neg"), "not": (None, "not"),
    "shl": ("other", "shl"), "shr": ("other", "shr"),
}
ONLY_FLAGS, SHIFTS = ("cmp", "test"), ("shl", "shr")
# What is added besides: by instructions that keep the carry, and how often the carry itself.
KEEP_CARRY, ADD_CARRY = {"inc": 1, "dec": -1}, {"adc": 1, "sbb": -1}
# The registers that products and divisions read besides their operand.
PRODUCTS = {"mul": (RAX,), "mulx": (RDX,), "div": (RAX, RDX)}
# The bytes of a part, by the end of a name.
BYTES = {"b": 1, "w": 2, "d": 4, "q": 8, "i128": 16}
# Moves of whole vectors: whether one in memory must be aligned.
MOVES = {**dict.fromkeys("movdqa movaps movapd movdqa32 movdqa64".split(), True), **dict.fromkeys(
    "movdqu movups movupd movdqu8 movdqu16 movdqu32 movdqu64".split(), False)}


def places_in_immediate(n: int, number: int) -> list:
    """The places that a number has, of which there are n."""
    return [number >> n // 2 * k & n - 1 for k in range(n)]


def places_of_insertps(n: int, number: int) -> list:
    return [2 * n if number >> k & 1 else n + (number >> 6) if k == number >> 4 & 3 else k for k in range(n)]


# The instructions that only move parts of vectors, or have some of zeros. First the operands that one reads: "a" and
# "b", by the order in which their parts are counted, and "i", which has places. Then the bytes of a lane, each of which
# is on its own, and of a part. Last the places of the parts of the result, by how many an operand has, and by the
# places that "i" has or the number of the instruction. A place behind all parts is one of zeros.
MOVED: dict = {
    **dict.fromkeys(MOVES, ("a", WIDTH, 4, range)),
    "movd": ("a", WIDTH, 4, lambda n: [0, n, n, n]), "movq": ("a", WIDTH, 8, lambda n: [0, n]),
    "pshufd": ("a", 16, 4, places_in_immediate), "permq": ("a", 32, 8, places_in_immediate),
    **{name: ("ab", lane, n, lambda n, imm: [p + n * (2 * k >= n) for k, p in enumerate(places_in_immediate(n, imm))])
       for name, lane, n in (("shufps", 16, 4), ("shufi64x2", WIDTH, 16))},
    "palignr": ("ba", 16, 1, lambda n, imm: range(imm, imm + n)),
    "alignq": ("ba", WIDTH, 8, lambda n, imm: range(imm % n, imm % n + n)),
    "psrldq": ("a", 16, 1, lambda n, imm: range(imm, imm + n)),
    **{"punpck%s%s" % (half, c): ("ab", 16, size, lambda n, start=start: [
        (start * n + k) // 2 + k % 2 * n for k in range(n)])
       for start, half in enumerate("lh") for c, size in (("dq", 4), ("qdq", 8))},
    **{"pblend" + c: ("ab", lane, n, lambda n, imm: [k + n * (imm >> k & 1) for k in range(n)])
       for c, lane, n in (("w", 16, 2), ("d", 32, 4))},
    "insertps": ("ab", 16, 4, places_of_insertps),
    "perm2i128": ("ab", 32, 16, lambda n, imm: [imm >> 4 * k & 11 for k in range(n)]),
    "pshufb": ("ai", 16, 1, lambda n, places: [p if p > 127 else p % n for p in places]),
    "permd": ("ia", WIDTH, 4, lambda n, places: [p % n for p in places]),
    **{name + c: (operands, WIDTH, BYTES[c], lambda n, places: [p % (2 * n) for p in places])
       for name, operands in (("permi2", "iab"), ("permt2", "aib")) for c in "dq"},
    **{"pinsr" + c: ("ab", WIDTH, n, lambda n, imm: [n if k == imm % n else k for k in range(n)])
       for c, n in BYTES.items()},
    **{"pextr" + c: ("a", WIDTH, n, lambda n, imm: [imm % n]) for c, n in BYTES.items()},
    **{"pbroadcast" + c: ("a", WIDTH, n, lambda _: [0] * WIDTH) for c, n in BYTES.items()},
    **{"pmovzx" + c: ("a", n, n, lambda n: [0, n]) for c, n in (("wd", 2), ("dq", 4))},
    "pmovqd": ("a", 8, 4, lambda n: [0]),
}


def move_parts(row: tuple, sources: tuple, numbers: list) -> list:
    """The bytes that an instruction of MOVED makes of its operands and of its number."""
    names, lane, n, places = row

    def of_lane(*parts: list) -> list:
        inputs = [part for _, part in sorted(zip(names, parts))]
        found = [[number(p) for p in chunks(inputs.pop(), n)]] if "i" in names else numbers
        return picked(n, places(len(inputs[0]) // n, *found), *inputs)
    return joined(map(of_lane, *[chunks(s, lane) for s in sources]))


def bit_of(b: T.Byte, k: int) -> T.Byte:
    """Bit k of a byte, as a byte of a mask."""
    t = T.fold_constants(lambda n: n >> k & 1, 8, T.word([b]))
    return (undefined_bytes("mask", 1) if t is None else T.split(t))[0]


def select_by_mask_bit(bit: T.Byte, on: list, off: list) -> list:
    """One of two lists of bytes by a byte of a mask."""
    if bit in (0, 1):
        return on if bit else off
    return T.split(apply_to_numbers(8 * len(on), lambda c, a, b: a if c else b, *map(T.word, ([bit], on, off))))


def blend_by_sign(n: int, a: list, b: list, signs: list) -> list:
    """The words of b where those of others are negative, and elsewhere those of a."""
    return joined(select_by_mask_bit(bit_of(z[-1], 7), y, x) for x, y, z in zip(*(chunks(s, n) for s in (a, b, signs))))


def sign_extend_lanes(n: int, a: list) -> list:
    """Words of n bytes as ones of twice as many."""
    sign = lambda b: T.split(apply_to_numbers(8, lambda k: 255 * (k >> 7), T.word([b])))
    return joined(x + n * sign(x[-1]) for x in chunks(a, n))


# Other instructions on vectors: how many operands one reads, the bytes of a word, and what it makes of these and of the
# number of the instruction.
COMPUTED: dict = {
    **{name + c: (count, BYTES[c], ON_VECTORS[operation]) for name, count, operation, ends in (
        ("padd", 2, "add", "dq"), ("psub", 2, "sub", "q"), ("psrl", 1, "shr", "wdq"), ("psll", 1, "shl", "dq"),
        ("prol", 1, "rol", "dq")) for c in ends},
    "blendvps": (3, 4, blend_by_sign), "blendvpd": (3, 8, blend_by_sign), "pblendvb": (3, 1, blend_by_sign),
    "pmovsxdq": (1, 4, sign_extend_lanes), "pcmpgtq": (2, 8, no_rule), "pcmpeqb": (2, 1, no_rule),
    "pmovmskb": (1, 1, no_rule),
    "pternlogd": (3, 4, no_rule), "pternlogq": (3, 8, no_rule),
}
# Other names for the same.
ALIKE = {"permpd": "permq", "unpcklpd": "punpcklqdq", "movlhps": "punpcklqdq", "unpckhpd": "punpckhqdq",
         "unpcklps": "punpckldq", "unpckhps": "punpckhdq", "blendps": "pblendd", "perm2f128": "perm2i128",
         "permps": "permd", "broadcastss": "pbroadcastd", "broadcastsd": "pbroadcastq", "extractps": "pextrd",
         "broadcasti128": "pbroadcasti128", "extracti128": "pextri128", **dict.fromkeys(
             ("inserti128", "insertf128", "inserti32x4"), "pinsri128")}
# Those for the same if one of the first operands is in memory: how many these are.
LOW_MOVES = {"movss": (2, "movd"), "movsd": (2, "movq"), "movlps": (1, "movq")}
BITWISE = {name + end: what for what in ("xor", "or", "and") for name, ends in (("p" + what, ("", "d", "q")), (
    what + "p", ("s", "d"))) for end in ends}
# Of three operands, by the number: of the first, and of what the second operation makes of the others.
TERNARY = {0x96: ("xor", "xor"), 0xf6: ("or", "xor"), 0xfe: ("or", "or")}
# How many operands, of the last, an instruction reads.
READS = {**dict.fromkeys([*BITWISE, "ptest"], 2), **{name: len(row[0]) for name, row in MOVED.items()},
         **{name: row[0] for name, row in COMPUTED.items()}}
# Moves of the words that a mask chooses: the bytes of a word in a register, and from one to the next in memory.
MASKED = {"movdqu8": (1, 1), "movdqu32": (4, 4), "movdqu64": (8, 8), "pbroadcastd": (4, 0), "pbroadcastq": (8, 0)}
MASK = re.compile(r"k(mov|or|and|shiftl|shiftr)([bwdq])")


class X86(Processor):
    FILES = {"general": (16, 8), "vector": (REGISTERS, WIDTH)}
    STACK_POINTER, BACK = ("general", RSP), 8
    ARGUMENTS: tuple = (RDI, RSI, RDX, RCX, 8, 9)
    SAVED = (RBX, RBP, 12, 13, 14, 15)
    # What a condition compares after `cmp`. Others are not followed: both ways may be taken.
    RELATIONS = {"e": "==", "ne": "!=", "b": "<", "ae": ">=", "a": ">", "be": "<="}
    SIGNED = {"l": "<", "ge": ">=", "g": ">", "le": "<="}
    CARRY = {"b": "carry", "ae": "no carry"}
    COMMENT = "#"
    SETS_RESULT = ("xor eax,eax", "mov eax,0xffffffff", "vzeroupper")

    # The calling convention.

    def set_return_address(self, data: list) -> None:
        self.move_stack(-8)
        self.values.store(self.values.stack_pointer(), data)

    def end_call(self, link: T.Term) -> None:
        """A return takes the address from the stack."""
        if self.values.load(self.values.stack_pointer(), 8) != T.split(link):
            raise IsWrong("a call overwrites its return address")
        self.move_stack(8)

    def move_stack(self, n: int) -> None:
        self.values.general[RSP] = T.split(self.values.stack_pointer() + n)
        self.values.forget_stack_below_pointer()

    def clobbered_vector(self, j: int, old: list, what: str) -> list:
        """Zeros above the bytes that belong to the call, and what is as before, stay for all calls that follow."""
        start = 0 if j in UPPER else 16
        is_left = what == LEFT and self.values.vector_may_remain(j, start)
        upper = self.values.leftover_bytes(WIDTH - start, self.values.leftover_kind(old[start:]) if is_left else what)
        kept = [x if x == 0 else y for x, y in zip(old[start:], upper)] if what == LEFT else upper
        return self.values.leftover_bytes(start, what) + kept

    def check_vectors_at_return(self) -> None:
        for j in range(REGISTERS):
            start = 0 if j in UPPER else 16
            if not self.values.vector_may_remain(j, start):
                raise IsWrong("the vector register %d from byte %d on is neither zero nor as before" % (j, start))

    # Operands.

    def address(self, o: Operand) -> T.Term:
        return T.add(64, *[(k, load_address() if part is FILE else T.word(self.read(part, 8))) for k, part in o.parts])

    def read(self, o: Operand, size: int | None = None, aligned: bool = False) -> list:
        if o.kind != "memory":
            return super().read(o, size)
        times = (size or 0) // o.size if o.is_broadcast else 1
        return self.values.load(self.address(o), o.size or size, aligned) * times

    def write(self, o: Operand, data: list, vex: bool = False, aligned: bool = False) -> None:
        data = self.values.bytes_to_store(list(data), o.kind == "general")
        if o.kind == "memory":
            self.values.store(self.address(o), data, aligned)
        elif o.kind not in ("general", "vector") or o.kind == "general" and len(data) != o.size:
            raise CannotShow("the result does not fit its operand")
        else:
            registers = getattr(self.values, o.kind)
            kept = registers[o.index][len(data):]
            is_zero = o.size == 4 if o.kind == "general" else vex
            registers[o.index] = data + ([0] * len(kept) if is_zero else kept)

    # Conditions.

    def comparison_of_condition(self, condition: str) -> tuple | None:
        kind = self.values.flags.kind
        if kind == "no carry" and condition in OF_CARRY:
            raise IsWrong("a carry that inc or dec keeps depends on secret or unknown data")
        if kind == "product" and condition not in OF_OVERFLOW:
            raise CannotShow("a product does not define this flag")
        return super().comparison_of_condition(condition)

    def comparison_of_jump(self, i: Instruction) -> tuple | None:
        if i.name[1:] not in CONDITIONS:
            raise i.not_modelled_error()
        return self.public_comparison(i.name[1:])

    def step(self, i: Instruction) -> None:
        if i.action is None:
            i.action = self.action(i)
        i.action(self, i, *i.operands)

    @classmethod
    def action(cls, i: Instruction) -> Callable:
        if i.name in ACTIONS:
            found = ACTIONS[i.name]
            return getattr(cls, found) if isinstance(found, str) else found
        if MASK.fullmatch(i.name):
            return cls.mask_step
        if i.operands and i.operands[0].mask is not None:
            return cls.masked_move
        return cls.vector_executor(i)

    # Words.

    def push(self, i: Instruction, source: Operand) -> None:
        data = self.read(source)
        if len(data) != 8:
            raise i.not_modelled_error()
        self.set_return_address(data)

    def pop(self, i: Instruction, to: Operand) -> None:
        data = self.values.load(self.values.stack_pointer(), 8)
        self.move_stack(8)
        self.write(to, data)

    def move_sign_extended(self, to: Operand, source: Operand) -> None:
        """Sets a word to one of fewer bytes, with its sign."""
        self.write(to, self.values.sign_extended(self.read(source), to.size))

    def execute_arithmetic(self, i: Instruction, to: Operand, source: Operand = ONE) -> None:
        """An instruction of ARITHMETIC. A shift by 0 keeps the flags, and is not modelled."""
        name, (kind, operation) = i.name, ARITHMETIC[i.name]
        if name in SHIFTS and (source.kind != "number" or not 0 < source.value < 8 * to.size):
            raise i.not_modelled_error()
        is_same = same(to, source)
        if name == "xor" and is_same:
            self.write(to, [0] * to.size)
        f = lambda a, b: a if is_same and operation in ("xor", "and") else ON_WORDS[operation](self.values, a, b)
        self.compute_and_write(kind, f, to, source, name not in ONLY_FLAGS, operation == "and")

    def compute_and_write(self, kind: str | None, f: Callable, to: Operand, source: Operand, keep: bool = True,
                          masks: bool = False) -> None:
        """Sets a word and the flags, or only one of these."""
        a, b = self.read(to), self.read(source, to.size)
        if masks:
            a = self.values.apply_mask_to_secrets(a, b)
        result = self.values.compute_and_set_flags(kind, f, a, b) if kind else self.compute_without_flags(f, a, b)
        if keep:
            self.write(to, result)

    def add_and_keep_carry(self, i: Instruction, to: Operand) -> None:
        """inc and dec keep the carry, which may be that of a secret."""
        old = self.values.flags
        self.compute_and_write("other", lambda a, b: a + KEEP_CARRY[i.name] * b, to, ONE)
        now = self.values.flags
        if old.kind in (UNKNOWN, SECRET, "no carry") and now.kind != SECRET:
            self.values.flags = now._replace(kind="no carry")

    def multiply(self, i: Instruction, to: Operand, source: Operand) -> None:
        need_public(T.word(self.read(to) + self.read(source, to.size)), "the time of a product")
        self.compute_and_write("product", lambda a, b: ON_WORDS["mul"](self.values, a, b), to, source)

    def add_with_carry(self, i: Instruction, to: Operand, source: Operand) -> None:
        """Adds or subtracts the carry too, which must be public."""
        sign = ADD_CARRY[i.name]
        if self.values.flags.kind in (UNKNOWN, SECRET, "no carry"):
            raise CannotShow("a carry depends on flags that are not public")
        carry = T.word([self.values.bit(self.comparison_of_condition("b"))] + [0] * (to.size - 1))
        self.compute_and_write("other", lambda a, b: a + sign * b + sign * carry, to, source)

    def multiply_or_divide_public(self, i: Instruction, *ops: Operand) -> None:
        """A product or a division, whose operands must be public. One of bytes, into ax, is not modelled."""
        *results, source = ops
        if source.size == 1:
            raise CannotShow("a product or a division of bytes")
        register = lambda r: Operand("general", index=r, size=source.size)
        for o in [source, *map(register, PRODUCTS[i.name])]:
            need_public(T.word(self.read(o)), "the time of a product or a division")
        for o in results[::-1] or [register(RAX), register(RDX)]:
            self.write(o, self.values.unknown_public_bytes(o.size))
        if not results:                # mulx keeps the flags
            self.values.flags = Flags(UNKNOWN)

    def zero_upper(self, i: Instruction) -> None:
        vector = self.values.vector
        vector[:16] = [r[:16] + [0] * (WIDTH - 16) if any(r[16:]) else r for r in vector[:16]]

    # Masks.

    def mask_step(self, i: Instruction, to: Operand, *rest: Operand) -> None:
        action, letter = MASK.fullmatch(i.name).groups()       # type: ignore[union-attr]
        bits, kinds = 8 * BYTES[letter], [o.kind for o in i.operands]
        masks = [self.values.masks[o.index][:bits] for o in rest if o.kind == "mask"]
        if action == "mov" and kinds == ["mask", "general"]:
            result = [bit_of(b, k) for b in self.read(rest[0])[:bits // 8] for k in range(8)]
        elif action in ("or", "and") and len(masks) == 2:
            result = list(map(T.or_byte if action == "or" else T.and_byte, *masks))
        elif action.startswith("shift") and kinds == ["mask", "mask", "number"]:
            zeros = [0] * min(rest[1].value, bits)
            result = (zeros + masks[0])[:bits] if action[-1] == "l" else masks[0][len(zeros):] + zeros
        else:
            raise i.not_modelled_error()
        self.values.masks[to.index] = result + [0] * (64 - len(result))

    def masked_move(self, i: Instruction, to: Operand, source: Operand, *rest: Operand) -> None:
        """A move or a broadcast of which a mask chooses the words. A word that it leaves out is not read."""
        n, step = MASKED.get(i.name[1:], (0, 0))
        if not n or rest or source.kind != "memory":
            raise i.not_modelled_error()
        old = chunks([0] * to.size if to.zeroes else self.values.vector[to.index][:to.size], n)
        address, data = self.address(source), []
        for k, bit in enumerate(self.values.masks[to.mask][:to.size // n]):
            at = address + step * k
            data += old[k] if bit == 0 else select_by_mask_bit(bit, self.values.load(at, n), old[k])
        self.write(to, data, True)

    # Vectors.

    @classmethod
    def vector_executor(cls, i: Instruction) -> Callable:
        """What executes an instruction of a table. Old encodings need operands of 16 bytes in memory to be aligned."""
        vex, ops = i.name.startswith("v"), [o for o in i.operands if o.kind != "number"]
        name, kinds = i.name[vex:], [o.kind for o in ops]
        count, other = LOW_MOVES.get(name, (0, name))
        name = other if "memory" in kinds[:count] else ALIKE.get(name, name)
        if not 0 < READS.get(name, 0) <= len(ops) or "mask" in kinds or any(o.mask is not None for o in ops):
            raise i.not_modelled_error()
        to, is_aligned = ops[0], lambda o: MOVES.get(name, not vex and o.size == 16)
        sources = [(o, is_aligned(o)) for o in ops[-READS[name]:]]
        is_zero = BITWISE.get(name) == "xor" and same(*ops[-2:])
        make = cls.vector_operation(name, [o.value for o in i.operands[len(ops):]])
        above = [0] * (8 * (to.kind == "general"))

        def step(cpu: Any, *_: Any) -> None:
            data = [[0] * to.size if is_zero else cpu.read(o, to.size, aligned) for o, aligned in sources]
            if name == "ptest":        # the carry is not as after an and of words
                cpu.values.set_flags_by_vector_and(*data)
                return
            made = make(cpu, data) + above
            if len(made) < to.size:
                raise CannotShow("the result does not fit its operand")
            cpu.write(to, made[:to.size], vex, is_aligned(to))
        return step

    @staticmethod
    def vector_operation(name: str, numbers: list) -> Callable:
        """What makes the bytes of an instruction of a table of others, and of its number."""
        if name in BITWISE:
            return lambda cpu, data: cpu.values.combined(BITWISE[name], *data)
        if name.startswith("pternlog") and numbers[0] in TERNARY:
            first, second = TERNARY[numbers[0]]
            return lambda cpu, data: cpu.values.combined(first, data[0], cpu.values.combined(second, *data[1:]))
        if name in MOVED:
            move = lambda *sources: move_parts(MOVED[name], sources, numbers)
            return lambda cpu, data: cpu.apply_vector_operation(True, move, data)
        if name == "ptest":
            return no_rule
        _, n, f = COMPUTED[name]
        return lambda cpu, data: cpu.apply_vector_operation(False, lambda *sources: f(n, *sources, *numbers), data)


# What executes instructions of these names: methods, or functions.
ACTIONS: dict = {
    **dict.fromkeys(ARITHMETIC, "execute_arithmetic"), **dict.fromkeys(KEEP_CARRY, "add_and_keep_carry"),
    **dict.fromkeys(ADD_CARRY, "add_with_carry"), **dict.fromkeys(PRODUCTS, "multiply_or_divide_public"),
    **dict.fromkeys(["set" + c for c in CONDITIONS], lambda cpu, i, to: cpu.write(
        to, [cpu.values.bit(cpu.comparison_of_condition(i.name[3:]))])),
    **dict.fromkeys(["cmov" + c for c in CONDITIONS], lambda cpu, i, to, source: cpu.write(to, cpu.values.chosen(
        cpu.comparison_of_condition(i.name[4:]), cpu.read(source, to.size), cpu.read(to)))),
    **dict.fromkeys(("mov", "movabs"), lambda cpu, i, to, source: cpu.write(
        to, cpu.read(source, to.size or source.size))),
    **dict.fromkeys(("movsx", "movsxd"), lambda cpu, i, to, source: cpu.move_sign_extended(to, source)),
    "cdqe": lambda cpu, i: cpu.move_sign_extended(REGISTER["rax"], REGISTER["eax"]),
    "movzx": lambda cpu, i, to, source: cpu.write(to, (cpu.read(source) + [0] * 8)[:to.size]),
    "lea": lambda cpu, i, to, source: cpu.write(to, T.split(cpu.address(source))[:to.size]),
    "push": "push", "pop": "pop", "imul": "multiply", "vzeroupper": "zero_upper", "nop": lambda *_: None,
}


def same(a: Operand, b: Operand) -> bool:
    """Whether two operands are the same register."""
    return a.kind == b.kind != "memory" and a.kind != "number" and a.index == b.index


Model = X86
