"""What tools/wasm_body.py makes of instructions before it is text: operands, branches and writes. Not a program."""

BITS = {"i32": 32, "i64": 64}


class UntranslatableModule(Exception):
    """The module has something that is not known here."""


def refuse_unless(condition, why):
    """Ends the translation."""
    if not condition:
        raise UntranslatableModule(why)


def untyped_literal(n):
    """A number without a type."""
    return str(n) if n < 1 << 15 else hex(n)


def without_outer_parentheses(text):
    """An expression without parentheses around all of it."""
    depth = 0
    for k, character in enumerate(text):
        depth += (character == "(") - (character == ")")
        if not depth:
            return text[1:-1] if k == len(text) - 1 and text[0] == "(" else text
    raise AssertionError(text)


class OperandValue:
    """An operand: its type and its expression, and what is known of it: the variables that it reads, whether it reads
    memory, a number if it is one, its condition if it is the result of a comparison, its operator if it has one, what
    is shifted right and by how many bits, and its place if it is an address on the stack: what that is counted from,
    and how many bytes."""

    def __init__(self, type_, text, of=(), reads=(), loads=False):
        self.type, self.text, self.number, self.condition, self.place = type_, text, None, None, None
        self.operator, self.part = "", (text, 0)
        self.reads = {*reads}.union(*(value.reads for value in of))
        self.loads = loads or any(value.loads for value in of)

    def expression_of_known_type(self):
        """Its expression where its type is known."""
        return without_outer_parentheses(self.text) if self.number is None else untyped_literal(self.number)

    def expression_before_operator(self, operator):
        """Its expression before an operator and another operand that is not a number: a + b in a + b - c."""
        is_one_of_a_row = self.operator and (self.operator == operator or self.operator + operator in ("+-", "-+"))
        return self.expression_of_known_type() if is_one_of_a_row else self.text

    def expression_beside_operand(self, other):
        """Its expression next to another operand, whose type it gets if it is a number and the other is not."""
        return self.text if other.number is not None else self.expression_without_type()

    def expression_without_type(self):
        """Its expression where another operand has its type."""
        return self.text if self.number is None else untyped_literal(self.number)

    def signed_number(self):
        """Its number, from -2^63 on."""
        w = BITS[self.type]
        return self.number - (self.number >> w - 1 << w)


class OpenBlock:
    """A block or a loop that is open: its label, the operands below it, and the places of locals where its label is,
    if anything has gone there."""

    def __init__(self, is_loop, label, height, places):
        self.is_loop, self.label, self.height, self.places = is_loop, label, height, places


class BranchStatement:
    """A branch to a block, or to the end of the function, with a condition or without."""

    def __init__(self, block, condition=""):
        self.block, self.condition = block, condition


class BlockMark:
    """The begin or the end of a block, and whether that is reached."""

    def __init__(self, block, is_begin, is_reached=True):
        self.block, self.is_begin, self.is_reached = block, is_begin, is_reached


class MemoryWrite:
    """A statement that writes a number to memory, or zeros: the address, the number and how many bytes of it; what the
    address is counted from, and how many bytes; the text of the number of which it is a part, and how many bits that is
    shifted by, or None if memory is read; and the statements that it is made of."""

    def __init__(self, address, argument, size, place, part, of=()):
        self.address, self.argument, self.size, self.place, self.part = address, argument, size, place, part
        self.function = f"store{8 * size}" if size in (1, 2, 4, 8) else "fill"
        self.of = of or [self]

    def __str__(self):
        last = f", {self.size}" if self.function == "fill" else ""
        return f"{self.function}({self.address}, {self.argument}{last})"

    def combined_with(self, other):
        """What writes what this and another after it do, if their places touch and they write zeros, or parts of a
        number that touch there too. Nothing for others."""
        low, high = sorted((self, other), key=lambda write: write.place)
        (base, begin), bits = low.place, 8 * low.size
        if not low.part or not high.part or high.place != (base, begin + low.size):
            return None
        if not low.argument == high.argument == "0" and high.part != (low.part[0], low.part[1] + bits):
            return None
        return MemoryWrite(low.address, low.argument, low.size + high.size, low.place, low.part, self.of + other.of)

    def statements(self):
        """This, if there is such a statement, or those that it is made of."""
        return [self] if self.function != "fill" or self.argument == "0" else self.of
