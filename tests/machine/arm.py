"""A model of the AArch64 instructions that the shipped code uses. Any other is an error."""

import functools
import re
from typing import Any

import machine
import terms as T
from machine import (ON_VECTORS, ON_WORDS, Operand, Processor, bitwise, chunks, joined, lanewise, load_address,
                     need_public, no_rule, number, picked)
from terms import CannotShow, IsWrong

SP, ZERO, LINK, PLATFORM = 31, 32, 30, 18
WIDTHS = {"b": 1, "h": 2, "s": 4, "w": 4, "d": 8, "x": 8, "q": 16}
CONDITIONS = "eq ne cs cc hi ls mi pl vs vc ge lt gt le".split()
STORES, LOADS = ("str", "stur", "stp"), ("ldr", "ldur", "ldp")
BITWISE = {"eor": "xor", "orr": "or", "and": "and"}


def register(text: str) -> int:
    if text == str(PLATFORM):
        raise IsWrong("x18 belongs to the platform")
    return ZERO if text == "zr" else int(text)


@functools.lru_cache(maxsize=None)
def operand(text: str) -> Operand:
    return next(make(m) for pattern, make in OPERANDS for m in [re.fullmatch(pattern, text)] if m)


# The kinds of operands by their texts, and what the groups of each say. `general` is a register, `vector` the low bytes
# of one, perhaps by parts of n bytes, or only one of these, from `start` on. `memory` is at a base register plus an
# offset or another register, which is added for the access only ("at"), or also to the base, "before" or "after" the
# access. `number` is a constant, `shift` one of the operand before, `word` what an instruction has to know itself, such
# as a condition, and `value` is in no register.
NUMBER = r"#(-?(?:0x[0-9a-f]+|\d+))"
OPERANDS: tuple = (
    (r"([xw])(\d+|zr)", lambda m: Operand("general", index=register(m[2]), size=WIDTHS[m[1]])),
    (r"sp", lambda m: Operand("general", index=SP, size=8)),
    (r"([bhsdq])(\d+)", lambda m: Operand("vector", index=int(m[2]), size=WIDTHS[m[1]])),
    (r"v(\d+)\.(\d+)([bhsd])", lambda m: Operand(
        "vector", index=int(m[1]), size=int(m[2]) * WIDTHS[m[3]], n=WIDTHS[m[3]])),
    (r"v(\d+)\.([bhsd])<(\d+)>", lambda m: Operand(
        "vector", index=int(m[1]), size=WIDTHS[m[2]], n=WIDTHS[m[2]], start=WIDTHS[m[2]] * int(m[3]))),
    (NUMBER, lambda m: Operand("number", value=int(m[1], 0))),
    (r"\[(\w+)(?:, (x\d+)|, " + NUMBER + r")?\](!?)", lambda m: Operand(
        "memory", base=operand(m[1]), index=operand(m[2]) if m[2] else None, offset=int(m[3] or "0", 0),
        mode="before" if m[4] else "at")),
    (r"(lsl|lsr|ror) #(\d+)", lambda m: Operand("shift", name=m[1], count=int(m[2]))),
    (r"sxt([hw])", lambda m: Operand("shift", n=WIDTHS[m[1]])),
    (r".*", lambda m: Operand("word", text=m[0])),
)


class Instruction(machine.Instruction):
    """A line of objdump's output."""

    JUMP, CALL, TRAP = "b", "bl", "brk"

    def parse_text(self) -> None:
        self.name, _, rest = self.text.partition("//")[0].strip().partition("\t")
        jump = re.fullmatch(r"(.*?)(?:, )?\b([0-9a-f]+) <.*>", rest.strip())
        if jump:
            target = int(jump[2], 16)
            rest = jump[1] + (", #%d" % target if self.name == "adrp" else "")
            self.target = None if self.name == "adrp" else target
        # A lane such as v0.d[1] is written v0.d<1> for a moment, for brackets mean memory.
        rest = re.sub(r"(v\d+\.\d*\w|\{v\d+\.\w\})\[(\d+)\]", r"\1<\2>", rest)
        rest = re.sub(r"\{(v\d+\.\w+)\}", r"\1", rest)
        pieces = re.findall(r"\[[^]]*\]!?|\{[^}]*\}|(?:ls[lr]|ror) #\d+|[^\s,]+", rest)
        self.operands = [operand(p) for p in pieces]
        if len(self.operands) > 1 and self.operands[-2].kind == "memory":
            memory, step = self.operands[-2:]
            self.operands[-2:] = [Operand("memory", base=memory.base, offset=step.value, mode="after")]


# What instructions on words make of two words, besides those that have other names.
WORDS: dict = {
    **ON_WORDS, **{name: ON_WORDS[other] for name, other in (
        ("orr", "or"), ("eor", "xor"), ("mvn", "not"), ("lsl", "shl"), ("lsr", "shr"), ("madd", "mul"),
        ("msub", "mul"))},
    "ror": lambda m, a, b: T.ror(a.w, a, b.args),
    "ubfiz": lambda m, a, b, size: m.low_bits_shifted_left(a, b.args, size.args),
    "umulh": lambda m, a, b: None, "udiv": lambda m, a, b: None,
}
SHIFTS = ("lsl", "lsr", "ror")
# Those whose time may depend on their operands, which must be public; what is added to a product, or it is subtracted.
PRODUCTS, ADDS = ("udiv", "mul", "umulh", "madd", "msub"), {"madd": 1, "msub": -1}
# Those that set flags: the operation, and the kind of the flags.
SETS_FLAGS = {"adds": ("add", "add"), "cmn": ("add", "add"), "subs": ("sub", "sub"), "cmp": ("sub", "sub"),
              "ands": ("and", "test"), "tst": ("and", "test")}
ONLY_FLAGS = ("cmn", "cmp", "tst")


# What instructions write if a condition holds, and if not, by the size and their operands.
SELECTS: dict = {
    "csel": lambda n, a, b: (a, b), "csinc": lambda n, a, b: (a, T.split(T.word(b) + 1)),
    "cinc": lambda n, a: SELECTS["csinc"](n, a, a)[::-1],
    "cinv": lambda n, a: (bitwise(T.xor, a, [255] * n), a),
    "cset": lambda n: ([1], [0]), "csetm": lambda n: ([255] * n, [0] * n),
}


def shift_right_and_add(n: int, old: list, data: list, k: int) -> list:
    """Adds words that are shifted to the right. If no bits overlap, the sum is the same as or."""
    add = lambda a, b: T.rotation_of_shifted(a.w, a, b) or T.combine_disjoint_bytes(a, b) or a + b
    return lanewise(add, n, old, ON_VECTORS["shr"](n, data, k))


# What instructions make of parts of n bytes of vectors, and of a number.
VECTORS: dict = {
    "add": ON_VECTORS["add"], "shl": ON_VECTORS["shl"], "usra": shift_right_and_add,
    **dict.fromkeys(("uqsub", "cmhi", "cmeq", "addv", "umaxv", "bic", "orn", "mvn"), no_rule),
    "zip1": lambda n, a, b: joined(x + y for x, y in zip(chunks(a, n), chunks(b, n))),
    "zip2": lambda n, a, b: VECTORS["zip1"](n, a[len(a) // 2:], b[len(b) // 2:]),
    "uzp1": lambda n, a, b: joined(chunks(a + b, n)[::2]), "uzp2": lambda n, a, b: joined(chunks(a + b, n)[1::2]),
    "trn2": lambda n, a, b: joined(x + y for x, y in zip(chunks(a, n)[1::2], chunks(b, n)[1::2])),
    "ext": lambda n, a, b, k: (a + b)[k:], "xtn": lambda n, a: VECTORS["uzp1"](n, a, []),
    "addhn": lambda n, a, b: VECTORS["uzp2"](n, VECTORS["add"](2 * n, a, b), []),
    "addhn2": lambda n, old, a, b: old[:8] + VECTORS["addhn"](n, a, b),
    "uxtl": lambda n, a: VECTORS["zip1"](n // 2, a, [0] * 16),
    "rev64": lambda n, a: picked(n, [k ^ 8 // n - 1 for k in range(len(a) // n)], a),
    "rev32": lambda n, a: picked(n, [k ^ 4 // n - 1 for k in range(len(a) // n)], a),
    "tbl": lambda n, table, places: picked(1, [number([b]) for b in places], table),
    "dup": lambda n, a: a[:n] * (16 // n), "movi": lambda n, k: [k, *[0] * (n - 1)] * (16 // n),
    **dict.fromkeys(("mov", "fmov"), lambda n, a: a),
}
COMPUTES = "add", "addhn", "addhn2", "uqsub", "cmhi", "cmeq", "addv", "umaxv", "bic", "orn", "mvn", "shl", "usra"
ACCUMULATES = "addhn2", "usra"


class Arm(Processor):
    """Registers 0 to 30, the stack pointer as the 32nd, and vector registers of 16 bytes."""

    FILES = {"general": (32, 8), "vector": (32, 16)}
    STACK_POINTER, LINK = ("general", SP), LINK
    ARGUMENTS: tuple = tuple(range(8))
    SAVED, SAVED_HALVES = tuple(range(19, 30)), tuple(range(8, 16))
    RELATIONS = {"eq": "==", "ne": "!=", "cc": "<", "cs": ">=", "hi": ">", "ls": "<="}
    SIGNED = {"lt": "<", "ge": ">=", "gt": ">", "le": "<="}
    CARRY = {"cs": "carry", "cc": "no carry"}
    COMMENT = "//"
    SETS_RESULT = ("mov w0, wzr", "mov w0, #0xffffffff")

    # The calling convention.

    def set_return_address(self, data: list) -> None:
        """The register belongs to the call."""
        self.values.general[LINK] = data

    def clobbered_vector(self, j: int, old: list, what: str) -> list:
        start = 8 if j in self.SAVED_HALVES else 0
        return old[:start] + self.values.leftover_bytes(16 - start, what)

    # Operands.

    def read(self, o: Operand, size: Any = None) -> list:
        if o.kind == "general" and o.index == ZERO:
            return [0] * o.size
        if o.kind == "value":
            return o.data
        if o.start is None:
            return super().read(o, size)
        return self.values.vector[o.index][o.start:o.start + o.size]

    def write(self, o: Operand, data: list) -> None:
        if len(data) != o.size:
            raise CannotShow("the result does not fit its operand")
        if o.kind == "general":
            if o.index != ZERO:
                self.values.general[o.index] = self.values.bytes_to_store(data + [0] * (8 - o.size), True)
            return
        old = self.values.vector[o.index] if o.start is not None else [0] * 16
        start = o.start or 0
        self.values.vector[o.index] = old[:start] + self.values.bytes_to_store(data, False) + old[start + o.size:]

    def access_address(self, m: Operand) -> T.Term:
        """The address of an access, before which the base register may move."""
        base = T.word(self.read(m.base))
        if m.base.index == SP and T.linear(base)[0] % 16:
            raise IsWrong("the stack pointer is not a multiple of 16 at an access")
        if m.mode == "after":
            return base
        other = T.word(self.read(m.index)) if m.index else T.const(64, m.offset)
        moved = base + other
        if m.mode == "before":
            self.write(m.base, T.split(moved))
        return moved

    def move_base(self, m: Operand) -> None:
        """Moves the base register after an access, if it does that."""
        if m.mode == "after":
            base = T.word(self.read(m.base))
            self.write(m.base, T.split(base + m.offset))

    # Conditions.

    def comparison_of_jump(self, i: Instruction) -> tuple | None:
        if i.name in ("cbz", "cbnz", "tbz", "tbnz"):
            data = self.read(i.operands[0])
            need_public(T.word(data), "a branch")
            if i.name.startswith("tb"):
                at = i.operands[1].value
                data = [self.values.normalized_byte(data[at // 8])]
                data = self.compute_without_flags(self.values.bitwise_and, data, [1 << at % 8])
            t = T.word(data)
            return "==" if i.name.endswith("bz") else "!=", t, T.const(t.w, 0)
        if i.name[2:] not in CONDITIONS or i.name[:2] != "b.":
            raise i.not_modelled_error()
        return None if self.values.flags.kind == "ccmp" else self.public_comparison(i.name[2:])

    def step(self, i: Instruction) -> None:
        name, ops = i.name, i.operands
        if name == "nop":
            return
        kind = name.rstrip("bh") if name.endswith(("rb", "rh")) else name
        if kind in LOADS + STORES:
            self.load_or_store(name, kind, ops)
        elif name in ("ld1", "ld1r", "ld4", "st1") and len(ops) == 2:
            self.load_or_store_lanes(i, *ops)
        elif name == "ccmp":
            self.values.conditional_compare(self.read(ops[0]), self.read(ops[1], ops[0].size))
        elif ops:
            data = self.word_result(name, ops) if ops[0].kind == "general" else self.vector_result(name, ops)
            if data is None:
                raise i.not_modelled_error()
            if name not in ONLY_FLAGS:
                self.write(ops[0], data)
        else:
            raise i.not_modelled_error()

    def load_or_store(self, name: str, kind: str, ops: list) -> None:
        """A load or a store of one register, or of two of one size."""
        registers = ops[:-1]
        if len({r.size for r in registers}) != 1 or len(registers) != 1 + kind.endswith("p"):
            raise CannotShow("a %s of %d registers" % (name, len(registers)))
        places, base = [(r.kind, r.index) for r in registers], ops[-1].base
        if kind in LOADS and len(set(places)) != len(places) or ops[-1].mode != "at" and (
                ("general", base.index) in places):
            raise CannotShow("what a %s does whose registers are the same differs between processors" % name)
        size = WIDTHS.get(name[-1], registers[0].size)
        data = [self.read(r)[:size] for r in registers]
        at = self.access_address(ops[-1])
        if kind in STORES:
            self.values.store(at, joined(data))
        else:
            parts = chunks(self.values.load(at, size * len(registers)), size)
            for r, part in zip(registers, parts):
                self.write(r, part + [0] * (r.size - size))
        self.move_base(ops[-1])

    def load_or_store_lanes(self, i: Instruction, to: Operand, memory: Operand) -> None:
        """A load or a store of one lane, a load of all lanes, or of four vectors whose lanes alternate."""
        m = re.fullmatch(r"\{v(\d+)\.2d-v(\d+)\.2d\}", to.text or "")
        if not (m if i.name == "ld4" else to.n and (i.name == "ld1r") == (to.start is None)):
            raise i.not_modelled_error()
        at = self.access_address(memory)
        if m:
            parts = chunks(self.values.load(at, 64), 8)
            for k in range(4):
                self.values.vector[int(m[1]) + k] = self.values.bytes_to_store(parts[k] + parts[4 + k], False)
        elif i.name == "st1":
            self.values.store(at, self.read(to))
        else:
            self.write(to, self.values.load(at, to.n) * (to.size // to.n))
        self.move_base(memory)

    # What instructions on words and on vectors write, or None if they are not known.

    def word_result(self, name: str, ops: list) -> list | None:
        to, size = ops[0], ops[0].size
        if ops[-1].kind == "shift" and name != "movk":
            ops = ops[:-2] + [self.shifted(ops[-2], ops[-1], size)]
        if name in SELECTS and ops[-1].text in CONDITIONS:
            compared, data = self.comparison_of_condition(ops[-1].text), [self.read(o, size) for o in ops[1:-1]]
            if name == "cset":
                return [self.values.bit(compared)] + [0] * (size - 1)
            return self.values.chosen(compared, *SELECTS[name](size, *data))
        if name in SETS_FLAGS or name in WORDS:
            return self.arithmetic_result(name, ops)
        if name == "adrp":
            return T.split(load_address() + ops[1].value)
        if name in ("mov", "fmov", "umov"):
            return (self.read(ops[1], size) + [0] * size)[:size]
        if name in ("sxth", "sxtw"):
            return self.values.sign_extended(self.read(ops[1])[:WIDTHS[name[-1]]], size)
        if name in ("bfi", "bfxil") and ops[2].value % 8 == ops[3].value % 8 == 0:
            k, n, old = ops[2].value // 8, ops[3].value // 8, self.read(to)
            k, start = (k, 0) if name == "bfi" else (0, k)
            return old[:k] + self.read(ops[1])[start:start + n] + old[k + n:]
        if name == "movk":
            k = ops[2].count // 8 if len(ops) == 3 else 0
            old = self.read(to)
            return old[:k] + self.read(ops[1], 2) + old[k + 2:]
        return None

    def shifted(self, o: Operand, shift: Operand, size: int) -> Operand:
        """An operand that is shifted, or whose low bytes are a number with a sign."""
        k = shift.count
        if shift.n:
            return Operand("value", data=self.values.sign_extended(self.read(o)[:shift.n], size))
        if o.kind == "number":
            return Operand("number", value=o.value << k)
        return Operand("value", data=self.compute_without_flags(
            lambda a, b: WORDS[shift.name](self.values, a, T.const(a.w, k)), self.read(o, size), [0] * size))

    def arithmetic_result(self, name: str, ops: list) -> list | None:
        """What an instruction of WORDS makes, perhaps with flags."""
        m, size = self.values, ops[0].size
        operation, flags = SETS_FLAGS.get(name, (name, None))
        sources = ops[name not in ONLY_FLAGS:]
        if operation in SHIFTS and not (sources[1].kind == "number" and 0 < sources[1].value < 8 * size):
            return None
        if name == "cmn" and sources[1].kind == "number" and sources[1].value:      # a comparison with its negative
            operation, flags, sources[1] = "sub", "sub", Operand("number", value=-sources[1].value)
        a, b, *rest = [self.read(o, size) for o in sources] + [[0] * size] * (len(sources) < 2)
        if name in PRODUCTS:
            need_public(T.word(a + b), "the time of a product or a division")
        a = m.apply_mask_to_secrets(a, b) if operation == "and" else a
        words = [] if name in ADDS else list(map(T.word, rest))
        f = lambda x, y: WORDS[operation](m, x, y, *words)
        data = m.compute_and_set_flags(flags, f, a, b) if flags else self.compute_without_flags(f, a, b)
        return self.compute_without_flags(lambda x, y: x + ADDS[name] * y, rest[0], data) if name in ADDS else data

    def vector_result(self, name: str, ops: list) -> list | None:
        to, m = ops[0], self.values
        n, numbers = to.n or to.size, [o.value for o in ops[1:] if o.kind == "number"]
        data = [self.read(o) for o in ops[1:] if o.kind in ("general", "vector")]
        if name in BITWISE and len(data) == 2:
            is_zero = name == "eor" and ops[1].index == ops[2].index
            return [0] * to.size if is_zero else m.combined(BITWISE[name], *data)
        if name in ("bit", "bif", "bsl"):
            return [self.insert_by_mask(name, *p) for p in zip(self.read(to), *data)]
        if name == "movi" and (len(ops) > 2 or numbers[0] and (n == 8 or not 0 <= numbers[0] < 256)) or (
                name in ("shl", "usra") and not 0 < numbers[0] < 8 * n) or name not in VECTORS:
            return None                # a number that is shifted, or of all bits of each byte
        if name in ACCUMULATES:
            data = [self.read(to)] + data
        f = lambda *sources: VECTORS[name](n, *sources, *numbers)
        return self.apply_vector_operation(name not in COMPUTES, f, data)[:to.size]

    def insert_by_mask(self, name: str, old: T.Byte, x: T.Byte, y: T.Byte) -> T.Byte:
        """A byte of which bits are chosen by a mask: exactly if the mask has all or none."""
        mask = old if name == "bsl" else y
        if mask not in (0, 255):
            return self.values.vector_result_or_unknown(no_rule, [old, x, y])[0]
        is_x = (mask == 255) != (name == "bif")
        return x if is_x else y if name == "bsl" else old


Model = Arm
