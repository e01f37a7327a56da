"""A model of the WebAssembly instructions that the compression functions use. Any other is an error. Most are a line
of pure_instructions()."""

import operator
import re
from typing import Any, Callable

import machine
import terms as T
from machine import MemoryRegion, Processor, apply_to_numbers, bitwise, lanewise, number, picked, shifted
from terms import CannotShow

SIZES = {"i32": 4, "i64": 8, "v128": 16}
LANES = {"i32x4": ("i32", 4), "i64x2": ("i64", 8)}
ROOM = 65536                           # bytes that the stack is assumed to have, for every call


class Instruction(machine.Instruction):
    """A line of text, with the address that a branch to its label goes to."""

    def parse_text(self) -> None:
        self.next = self.address + 1
        self.name, *numbers = self.text.split()
        self.numbers: list = [int(n) if n.lstrip("-").isdigit() else n for n in numbers]


def parse(lines: list) -> list:
    """The instructions of a function. A branch to a loop goes behind `loop`, and one to a block to its `end`."""
    found = [Instruction(k, line) for k, line in enumerate(lines)]
    opened: list = []                  # the blocks, each with the branches to its end
    for i in found:
        if i.name in ("block", "loop", "if"):
            opened.append((i, []))
        elif i.name == "end" and opened:
            for branch in opened.pop()[1]:
                branch.target = i.address
        elif i.name in ("br", "br_if") and i.numbers[0] < len(opened):
            block, branches = opened[-1 - i.numbers[0]]
            if block.name == "loop":
                i.target = block.address + 1
            else:
                branches.append(i)
    return found


def arithmetic_shift_right(w: int, t: T.Term, k: int) -> T.Term:
    """A shift to the right that copies the sign, of a number or of one that a flag chooses."""
    return apply_to_numbers(w, lambda n: (n >> k) - (n >> w - 1 << w - k), t)


def lift_to_bytes(f: Callable) -> Callable:
    """The bytes of what f makes of words."""
    return lambda *data: T.split(f(*map(T.word, data)))


def pure_instructions() -> dict:
    """The instructions that only change the stack of operands: the types of the operands that each takes, the type of
    the result, and what this is of their bytes, and of the numbers that are part of the instruction."""
    found: dict = {
        "v128.const": ("", "v128", lambda *data: list(data)), "i32.wrap_i64": ("i64", "i32", lambda a: a[:4]),
        "i8x16.shuffle": ("v128 v128", "v128", lambda a, b, *places: picked(1, places, a, b)),
        "v128.xor": ("v128 v128", "v128", lambda a, b: bitwise(T.xor, a, b)),
        "v128.or": ("v128 v128", "v128", lambda a, b: bitwise(T.bitwise_or, a, b)),
        "v128.bitselect": ("v128 v128 v128", "v128", lambda *data: lanewise(lambda *words: apply_to_numbers(
            32, lambda a, b, mask: a & mask | b & ~mask, *words), 4, *data)),
    }
    words: dict = {
        "add": operator.add, "sub": operator.sub, "xor": lambda a, b: T.xor(a.w, a, b),
        "and": lambda a, b: T.bitwise_and(a.w, a, b), "or": lambda a, b: T.bitwise_or(a.w, a, b),
        "shl": lambda a, b: T.shl(a.w, a, number(T.split(b)) % a.w),
        "shr_u": lambda a, b: T.shr(a.w, a, number(T.split(b)) % a.w),
    }
    for kind, w in (("i32", 32), ("i64", 64)):
        two = "%s %s" % (kind, kind)
        found[kind + ".const"] = "", kind, lambda n, w=w: T.split(T.const(w, n))
        found[kind + ".eqz"] = kind, "i32", lift_to_bytes(lambda a: T.zero_test("zero", 32, a))
        for name, op in (("eq", "zero"), ("ne", "nonzero")):
            found["%s.%s" % (kind, name)] = two, "i32", lift_to_bytes(lambda a, b, op=op: T.zero_test(op, 32, a - b))
        found.update({"%s.%s" % (kind, name): (two, kind, lift_to_bytes(f)) for name, f in words.items()})
    for kind, (lane, n) in LANES.items():
        found[kind + ".splat"] = lane, "v128", lambda a, n=n: a * (16 // n)
        found[kind + ".replace_lane"] = "v128 " + lane, "v128", lambda a, value, k, n=n: (
            a[:n * k] + value + a[n * k + n:])
        found[kind + ".add"] = "v128 v128", "v128", lambda a, b, n=n: lanewise(operator.add, n, a, b)
        for name, f in (("shl", T.shl), ("shr_u", T.shr), ("shr_s", arithmetic_shift_right)):
            found["%s.%s" % (kind, name)] = "v128 i32", "v128", lambda a, k, f=f, n=n: shifted(
                f, n, a, number(k) % (8 * n))
    return {name: (types.split(), result, f) for name, (types, result, f) in found.items()}


PURE = pure_instructions()


class Wasm(Processor):
    """Locals, globals, and the stack of operands, each value as its bytes."""

    FILES = {"locals": (0, 0), "globals": (0, 0), "operands": (0, 0)}
    STACK_POINTER = "globals", 0
    RED_ZONE = 128
    FREE = ("nop", "unreachable", "end")

    def set_entry_state(self, arguments: list, room: int, below: Callable, signature: Any = None) -> None:
        """The state at the entry of a function, whose types are in a wasm_format.Function."""
        m = self.values
        m.stack = T.word(T.split(T.var(64, "sp", T.PUBLIC))[:4])
        m.regions[m.stack] = MemoryRegion(-room, 0, lambda k: below(), True, m.alignment)
        m.globals = [T.split(m.stack)]
        sizes = [SIZES[t] for t in signature.locals]
        m.locals = [T.split(t)[:n] for t, n in zip(arguments, sizes)]
        if len(arguments) != len(signature.parameters):
            raise CannotShow("the function has other parameters than its kind has")
        m.locals += [[0] * n for n in sizes[len(arguments):]]

    def bytes_kept_for_caller(self) -> tuple:
        m = self.values
        return [], T.split(m.stack_pointer()), [len(m.operands), len(m.labels)]

    def pop(self) -> list:
        if not self.values.operands:
            raise CannotShow("the stack of operands is empty")
        return self.values.operands.pop()

    def push(self, data: list) -> None:
        self.values.operands.append(list(data))

    def execute_instruction(self, i: Instruction) -> list:
        return [(self.values, self.execute_to_next_address(i))]

    def execute_to_next_address(self, i: Instruction) -> int | None:
        """Executes an instruction. Returns the address of the next one, or None after a return."""
        kind, _, what = i.name.partition(".")
        if kind in ("br", "br_if", "block", "loop", "end", "return"):
            return self.execute_control(i)
        if i.name in PURE:
            types, _, f = PURE[i.name]
            self.push(f(*[self.pop() for _ in types][::-1], *i.numbers))
        elif kind == "local" and what in ("get", "set", "tee"):
            self.access_local(what, i.numbers[0])
        elif i.name == "global.get":
            self.push(self.values.globals[i.numbers[0]])
        elif i.name == "drop":
            self.pop()
        elif i.name == "i64.lt_s":
            b, a = T.word(self.pop()), T.word(self.pop())
            self.push(T.split(self.stack_has_no_room(a, b)))
        elif i.name == "select":
            condition, otherwise = self.comparison_of_jump(), self.pop()
            self.push(self.values.chosen(condition, self.pop(), otherwise))
        elif i.name != "nop" and not self.execute_load_or_store(kind, what, i.numbers):
            raise CannotShow("the instruction %s is not modelled: add it to tests/machine/wasm.py, and run "
                             "tests/machine/check.py --long" % i.text)
        return i.next

    def execute_control(self, i: Instruction) -> int | None:
        m = self.values
        if i.name in ("block", "loop") and not i.numbers:
            m.labels.append(len(m.operands))
        elif i.name == "return" or i.name == "end" and not m.labels:
            m.labels = []
            return None
        elif i.name == "end":
            m.labels.pop()
        elif i.target is not None:
            if i.name == "br" or m.holds(self.comparison_of_jump()):
                if i.numbers[0]:
                    del m.labels[-i.numbers[0]:]
                del m.operands[m.labels[-1]:]
                return i.target
        else:
            raise CannotShow("%s is not modelled: add it to tests/machine/wasm.py" % i.text)
        return i.next

    def comparison_of_jump(self, i: Any = None) -> tuple:
        """What the last operand compares, which is true unless it is 0."""
        t = T.word(self.pop())
        u = t.args[0] if t.op in ("zero", "nonzero") else t
        return "==" if t.op == "zero" else "!=", u, T.const(u.w, 0)

    def access_local(self, what: str, k: int) -> None:
        if what != "get":
            data = self.pop()
            if len(data) != len(self.values.locals[k]):
                raise CannotShow("a value has not the size of its local")
            self.values.locals[k] = data
        if what != "set":
            self.push(self.values.locals[k])

    def stack_has_no_room(self, a: T.Term, b: T.Term) -> T.Term:
        """The check of the stack pointer at the entry, which traps without enough room."""
        offset, items = T.linear(a)
        if items != {self.values.stack: 1} or b.op != "const" or not 0 <= b.args - offset <= ROOM:
            raise CannotShow("there is no rule for %r < %r" % (a, b))
        return T.const(32, 0)

    def execute_load_or_store(self, kind: str, what: str, numbers: list) -> bool:
        """A load or a store, of a whole value, or a load of some bytes."""
        m = re.fullmatch(r"load(?:(\d+)_u)?|store", what)
        if not m or not numbers or kind not in SIZES:
            return False
        if what == "store":
            data = self.pop()
            self.values.store(self.pop_effective_address(numbers[0]), data)
        else:
            size = SIZES[kind]
            data = self.values.load(self.pop_effective_address(numbers[0]), int(m[1]) // 8 if m[1] else size)
            self.push((data + [0] * size)[:size])
        return True

    def pop_effective_address(self, offset: int) -> T.Term:
        """The address below the values of an access, whose sum with the offset must not wrap."""
        address = T.word(self.pop())
        self.values.locate_access(address, 0, False)
        if offset >= ROOM:
            raise CannotShow("the offset %d is too high" % offset)
        return address + offset


Model = Wasm
