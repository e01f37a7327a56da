"""The body of a function of a WebAssembly module, for tools/wasm_to_c.py and tools/wasm_to_rust.py. Not a program.

A language (`C` in wasm_to_c.py) has the forms of expressions and statements.
"""
import re
import textwrap

from wasm_values import (
    BITS, OpenBlock, BranchStatement, BlockMark, UntranslatableModule, OperandValue, MemoryWrite,
    without_outer_parentheses, untyped_literal, refuse_unless)

LONGEST = 200  # characters of an expression, about
COMPARISONS = {"eq": "==", "ne": "!=", "lt": "<", "gt": ">", "le": "<=", "ge": ">="}
OPERATORS = {"add": "+", "sub": "-", "mul": "*", "and": "&", "or": "|", "xor": "^"}
TOP, FRAME = "top", "frame"  # what an address on the stack is counted from
# The functions of Rattle's runtime, and what they may do.
RUNTIME = {
    "__rattle_enter": "global.get 1; local.set 0; i32.const 1; global.set 1; local.get 0; i32.const 0; i32.ne; end",
    "__rattle_leave": "i32.const 0; global.set 1; end",
    "__rattle_trap": "unreachable; end",
}


def common_places(a, b):
    """The places of locals that are set in both of two sets, if these agree in them. None is that of code that is not
    reached."""
    if a is None or b is None:
        return b if a is None else a
    return {k: place if b[k] == place else None for k, place in a.items() if k in b}


class FunctionBody:
    """The text of a function."""

    def __init__(self, program, function):
        self.program, self.function, self.language = program, function, program.language
        self.stack, self.blocks = [], []
        # The variable that a statement sets, or None, its text (or a branch or a mark), the variables that it reads,
        # and whether it is needed if that variable is not read.
        self.lines = []
        self.temporaries, self.labels = {}, 0
        self.places = {}            # of the locals that are set here, or None where nothing comes
        self.zeros = set()          # the locals that are read where they may not be set, when they are 0
        self.frame, self.align = 0, 0
        for self.at, line in enumerate(function.lines[:-1]):
            self.translate_instruction(line)
        refuse_unless(function.lines[-1] == "end" and not self.blocks, "a function that does not end")
        if self.places is not None and function.results:
            self.return_from_function()
        refuse_unless(self.places is None or not self.stack, "operands that are left over")

    # ---- statements and operands

    def write_statement(self, text, of=(), sets=None, is_needed=True):
        """Writes a statement of these operands, or the expression to which one sets a variable."""
        self.lines.append((sets, text, set().union(*(value.reads for value in of)), is_needed))

    def push(self, value):
        """Puts an operand on the stack."""
        self.stack.append(value)
        if len(value.text) > LONGEST:
            self.evaluate(-1)

    def pop(self, type_=None):
        """Takes the last operand."""
        refuse_unless(len(self.stack) > (self.blocks[-1].height if self.blocks else 0), "an operand that is missing")
        value = self.stack.pop()
        refuse_unless(type_ in (None, value.type), f"an operand of another type than {type_}")
        return value

    def evaluate(self, k, is_needed=False):
        """Evaluates an operand of the stack now."""
        value = self.stack[k]
        name = f"t{len(self.temporaries)}"
        self.temporaries[name] = value.type
        self.write_statement(value.expression_of_known_type(), [value], name, is_needed)
        self.stack[k] = OperandValue(value.type, name, reads=[name])
        self.stack[k].place = value.place

    def evaluate_matching(self, which):
        """Evaluates the operands of which a function is true."""
        for k, value in enumerate(self.stack):
            if which(value):
                self.evaluate(k)

    def evaluate_memory_reads(self):
        """Evaluates what reads memory, before that is written."""
        self.evaluate_matching(lambda value: value.loads)

    # ---- blocks

    def locals_set_in_block(self):
        """The locals that the block which opens here sets."""
        found, depth = set(), 0
        for line in self.function.lines[self.at:]:
            name, _, k = line.partition(" ")
            depth += (name in ("block", "loop")) - (name == "end")
            if name in ("local.set", "local.tee"):
                found.add(int(k))
            if not depth:
                break
        return found

    def open(self, is_loop):
        """Begins a block or a loop."""
        self.evaluate_matching(lambda value: value.number is None and value.text not in self.temporaries)
        self.labels += 1
        places = None
        if is_loop:
            for k in self.locals_set_in_block() & {*self.places}:
                self.places[k] = None
            places = self.places
        self.blocks.append(OpenBlock(is_loop, f"l{self.labels}", len(self.stack), places))
        self.write_statement(BlockMark(self.blocks[-1], True))

    def do_end(self):
        """Ends a block or a loop."""
        refuse_unless(self.blocks, "an end of no block")
        block = self.blocks.pop()
        refuse_unless(self.places is None or len(self.stack) == block.height, "a block with a result")
        self.write_statement(BlockMark(block, False, self.places is not None))
        if not block.is_loop:
            self.places = common_places(self.places, block.places)

    def branch_out_of_blocks(self, depth, condition=""):
        """The branch that leaves so many blocks."""
        if depth == len(self.blocks):
            refuse_unless(not self.function.results, "a branch with a result")
            return BranchStatement(None, condition)
        refuse_unless(depth < len(self.blocks), "a branch to no block")
        block = self.blocks[-1 - depth]
        if not block.is_loop:
            block.places = common_places(block.places, {**self.places})
        return BranchStatement(block, condition)

    def return_from_function(self):
        """Returns from the function."""
        value = [self.pop(type_) for type_ in self.function.results]
        self.write_statement(f"return {value[0].expression_of_known_type()};" if value else "return;", value)

    def mark_unreachable(self):
        """Nothing comes to what follows, up to the end of the block."""
        del self.stack[self.blocks[-1].height if self.blocks else 0:]
        self.places, self.skipped = None, 0

    # ---- instructions

    def translate_instruction(self, line):
        """Translates an instruction."""
        name, *words = line.split()
        if self.places is None:  # where nothing comes, only blocks are counted
            if name != "end" or self.skipped:
                self.skipped += (name in ("block", "loop", "if")) - (name == "end")
                return
        kind, _, what = name.partition(".")
        if kind in BITS:
            self.translate_number_instruction(kind, what, words)
        elif name in ("block", "loop"):
            refuse_unless(not words, "a block with a type")
            self.open(name == "loop")
        elif kind == "local":
            self.access_local(what, int(words[0]))
        elif kind == "global":
            self.access_stack_pointer(what, int(words[0]))
        elif kind == "memory":
            self.copy_or_fill_memory(what)
        elif hasattr(self, "do_" + name):
            getattr(self, "do_" + name)(*map(int, words))
        else:
            raise UntranslatableModule(name)

    def translate_number_instruction(self, kind, what, words):
        """Translates an instruction of a type of numbers."""
        if what == "const":
            self.push(self.number(kind, int(words[0]) % (1 << BITS[kind])))
        elif what.startswith("load"):
            self.load(kind, what[len("load"):], int(words[0]))
        elif what.startswith("store"):
            self.store(kind, what[len("store"):], int(words[0]))
        elif what == "eqz" or what.startswith(("wrap", "extend")):
            self.unary_operation(kind, what)
        else:
            b, a = self.pop(kind), self.pop(kind)
            op, _, sign = what.partition("_")
            if op in COMPARISONS:
                self.compare(a, op, sign, b)
            else:
                self.binary_operation(a, what, b)

    def do_br(self, depth):
        """A branch."""
        self.write_statement(self.branch_out_of_blocks(depth))
        self.mark_unreachable()

    def do_br_if(self, depth):
        """A branch on a condition."""
        c = self.pop("i32")
        if c.number is None:
            self.write_statement(self.branch_out_of_blocks(depth, self.language.condition(c)), [c])
        elif c.number:
            self.do_br(depth)

    def do_return(self):
        """A return."""
        self.return_from_function()
        self.mark_unreachable()

    def do_unreachable(self):
        """A trap."""
        self.write_statement("abort();")
        self.mark_unreachable()

    def do_nop(self):
        """Nothing."""

    def do_drop(self):
        """An operand that is not used."""
        self.pop()

    def do_select(self):
        """One of two operands."""
        c, b, a = self.pop("i32"), self.pop(), self.pop()
        refuse_unless(a.type == b.type, "select of two types")
        self.push(OperandValue(a.type, self.language.conditional_expression(c, a.expression_beside_operand(b),
                                                            b.expression_without_type()), (a, b, c)))

    def do_call(self, k):
        """A call."""
        program, name = self.program, self.program.names[k]
        if name in RUNTIME:  # no call is under way
            if name == "__rattle_enter":
                self.push(self.number("i32", 0))
            elif name == "__rattle_trap":
                self.write_statement("abort();")
            return
        callee = program.functions[k]
        arguments = [self.pop(type_) for type_ in reversed(callee.parameters)][::-1]
        self.evaluate_memory_reads()
        text = f"{program.c_name(k)}({', '.join(value.expression_of_known_type() for value in arguments)})"
        program.calls.setdefault(self.function, set()).add(k)
        if callee.results:
            self.stack.append(OperandValue(callee.results[0], text, arguments))
            self.evaluate(-1, is_needed=True)
        else:
            self.write_statement(f"{text};", arguments)

    def access_local(self, what, k):
        """Gets or sets a local."""
        name = f"v{k}"
        if what != "get":
            value = self.pop(self.function.locals[k])
            self.evaluate_matching(lambda other: name in other.reads)
            if value.text in self.temporaries and self.lines[-1][0] == value.text:
                self.lines[-1] = name, *self.lines[-1][1:]
            elif value.text != name:
                self.write_statement(value.expression_of_known_type(), [value], name, is_needed=False)
            self.places[k] = value.place
            if what == "set":
                return
            if value.number is not None:
                self.push(value)
                return
        value = OperandValue(self.function.locals[k], name, reads=[name])
        value.place = self.places.get(k)
        if k not in self.places:
            self.zeros.add(k)
        self.push(value)

    def copy_or_fill_memory(self, what):
        """Copies or fills memory."""
        refuse_unless(what in ("copy", "fill"), f"memory.{what}")
        length, source, to = self.pop("i64"), self.pop("i64" if what == "copy" else "i32"), self.pop("i64")
        self.evaluate_memory_reads()
        self.program.require_part(what)
        words = ", ".join(value.expression_of_known_type() for value in (to, source, length))
        self.write_statement(f"{what}({words});", [to, source, length])

    # ---- the stack

    def access_stack_pointer(self, what, k):
        """Gets or sets the stack pointer. The array is given back at the end of the function."""
        refuse_unless(k == 0, "a global other than the stack pointer")
        if what == "get":
            value = OperandValue("i64", TOP, reads=[TOP])
            value.place = TOP, 0
            self.push(value)
        else:
            place = self.pop("i64").place
            refuse_unless(place in ((TOP, 0), self.lowest_stack_place()), "a stack pointer that is not followed")

    def lowest_stack_place(self):
        """The place where the function's part of the stack begins."""
        return (FRAME, 0) if self.align else (TOP, -self.frame)

    def stack_place_after_offset(self, place, by):
        """The place of an address that is `by` more than one on the stack."""
        if place is None:
            return None
        base, offset = place
        offset += by
        if place == (TOP, 0) and by < 0 and not self.frame:
            refuse_unless(by % 16 == 0 and by > -1 << 16, "a part of the stack of an unknown length")
            self.frame = -by
        refuse_unless(offset >= (-self.frame if base == TOP else 0),
                      "an address below the function's part of the stack")
        return base, offset

    def rounded_stack_place(self, place, mask):
        """The place of an address on the stack that is rounded down."""
        align = (1 << 64) - mask
        refuse_unless(place == (TOP, -self.frame) and self.frame and not self.align and align in (32, 64),
                      "an alignment of the stack that is not known")
        self.align = align
        return FRAME, 0

    def address_expression(self, value, offset, size):
        """The address of an access, in C. One on the stack is inside of the function's part."""
        if value.place:
            end = 0 if value.place[0] == TOP else self.frame
            refuse_unless(value.place[1] + offset + size <= end, "an access above the function's part of the stack")
        return f"{value.expression_before_operator('+')} + {offset}" if offset else without_outer_parentheses(
            value.text)

    # ---- numbers

    def load(self, type_, what, offset):
        """Reads memory."""
        bits, _, sign = what.partition("_")
        refuse_unless(bits in ("", "8", "16", "32") and sign in ("", "u", "s"), f"{type_}.load{what}")
        n, a = int(bits or BITS[type_]), self.pop("i64")
        self.program.require_part(f"load{n}")
        text = f"load{n}({self.address_expression(a, offset, n // 8)})"
        value = OperandValue(type_ if n == 64 else "i32", text, [a], loads=True)
        if sign == "s":
            value = OperandValue(type_, self.sign_extended(type_, value, n), [value])
        elif value.type != type_:
            value = OperandValue(type_, self.cast_expression(type_, text), [value])
        self.push(value)

    def store(self, type_, bits, offset):
        """Writes memory."""
        refuse_unless(bits in ("", "8", "16", "32"), f"{type_}.store{bits}")
        n, value, a = int(bits or BITS[type_]), self.pop(type_), self.pop("i64")
        self.evaluate_memory_reads()
        address, argument = self.address_expression(a, offset, n // 8), self.language.argument("i64", value)
        part = None if a.loads or value.loads else value.part
        self.write_statement(MemoryWrite(address, argument, n // 8, (a.text, offset), part), [a, value])

    def sign_extended(self, type_, value, n):
        """A number whose upper bits are that of the highest of n."""
        self.program.require_part(f"sign{BITS[type_]}")
        return f"sign{BITS[type_]}({self.language.argument(type_, value)}, {untyped_literal(1 << n - 1)})"

    def number(self, type_, n):
        """An operand that is a number."""
        value = OperandValue(type_, self.language.number.format(bits=BITS[type_], text=untyped_literal(n)))
        value.number = n
        return value

    def cast_expression(self, type_, text):
        """An expression of another type."""
        return self.language.cast.format(bits=BITS[type_], text=text)

    def comparison_value(self, condition, of):
        """The result of a comparison."""
        value = OperandValue("i32", self.cast_expression("i32", f"({condition})"), of)
        value.condition = condition
        return value

    def unary_operation(self, type_, what):
        """An operator with one operand."""
        if what == "wrap_i64":
            a = self.pop("i64")
            self.push(OperandValue("i32", self.cast_expression("i32", a.text), [a]))
        elif what == "extend_i32_u":
            a = self.pop("i32")
            self.push(OperandValue("i64", self.cast_expression("i64", a.text), [a]))
        elif what == "eqz":
            a = self.pop(type_)
            if a.number is not None:
                self.push(self.number("i32", int(not a.number)))
            else:
                self.push(self.comparison_value(f"!({a.condition})" if a.condition else f"{a.text} == 0", [a]))
        else:
            match = re.fullmatch("extend(_i)?(8|16|32)_s", what)
            refuse_unless(match and int(match[2]) < BITS[type_] and (not match[1] or match[2] == "32"),
                          f"{type_}.{what}")
            a = self.pop("i32" if match[1] else type_)
            self.push(OperandValue(type_, self.sign_extended(type_, a, int(match[2])), [a]))

    def compare(self, a, op, sign, b):
        """A comparison. Signed numbers are compared as unsigned ones, with their highest bits changed. Whether the
        stack has room is not asked: it has."""
        if sign == "s":
            if a.place and op in ("lt", "gt") and b.number is not None and b.number < 1 << 16:
                self.push(self.number("i32", int(op == "gt")))
                return
            top = 1 << BITS[a.type] - 1
            a, b = (self.number(v.type, v.number ^ top) if v.number is not None else
                    OperandValue(v.type, f"({v.text} ^ {untyped_literal(top)})", [v]) for v in (a, b))
        self.push(self.comparison_value(
            f"{a.expression_beside_operand(b)} {COMPARISONS[op]} {b.expression_beside_operand(a)}", [a, b]))

    def binary_operation(self, a, what, b):
        """An operator with two operands."""
        type_, w = a.type, BITS[a.type]
        place, operator = None, ""
        if a.place and b.number is not None:
            if what in ("add", "sub"):
                place = self.stack_place_after_offset(a.place,
                                                      b.signed_number() if what == "add" else -b.signed_number())
            elif what == "and":
                place = self.rounded_stack_place(a.place, b.number)
        if what == "xor" and b.number == (1 << w) - 1:
            text = self.language.opposite.format(text=a.text)
        elif what in OPERATORS:
            operator = OPERATORS[what]
            if what == "add" and b.number is not None and -1 << 15 < b.signed_number() < 0:
                operator, b = "-", self.number(type_, -b.signed_number())
            text = self.language.binary_expression(a, operator, b)
        elif what in ("shl", "shr_u"):
            by = f"({b.text} & {w - 1})" if b.number is None else b.number % w
            text = f"({a.text} {'<<' if what == 'shl' else '>>'} {by})"
        elif what in ("rotl", "rotr", "shr_s"):
            self.program.require_part(f"{what}{w}")
            text = f"{what}{w}({a.expression_of_known_type()}, {b.expression_of_known_type()})"
        elif what in ("div_u", "rem_u"):
            self.divide_or_remainder(a, what, b)
            return
        else:
            raise UntranslatableModule(f"{type_}.{what}")
        value = OperandValue(type_, text, [a, b])
        value.place, value.operator = place, operator
        if what == "shr_u" and b.number is not None:
            value.part = a.text, by
        self.push(value)

    def divide_or_remainder(self, a, what, b):
        """A quotient or a rest. It may trap, so it is evaluated now, unless the divisor is a number."""
        self.program.require_part(f"{what}{BITS[a.type]}")
        if b.number:
            self.push(OperandValue(a.type,
                                   f"({a.text} {'/' if what == 'div_u' else '%'} {b.expression_beside_operand(a)})",
                                   [a, b]))
            return
        self.stack.append(OperandValue(
            a.type, f"{what}{BITS[a.type]}({a.expression_of_known_type()}, {b.expression_of_known_type()})", [a, b]))
        self.evaluate(-1, is_needed=True)

    # ---- the text

    def lines_with_effect(self):
        """The lines that have an effect, and what they read. A variable that is not read need not be set."""
        lines = self.lines
        while True:
            read = set().union(*(reads for _, _, reads, _ in lines))
            left = [line for line in lines if line[0] in read or line[3]]
            if len(left) == len(lines):
                return self.lines_with_joined_writes([(sets if sets in read else None, text) for sets, text, _,
                                                      _ in lines]), read
            lines = left

    def lines_with_joined_writes(self, lines):
        """The lines, with one for writes that touch."""
        found = []
        for line in lines:
            found.append(line)
            while len(found) > 1 and isinstance(found[-1][1], MemoryWrite) and isinstance(found[-2][1], MemoryWrite):
                both = found[-2][1].combined_with(found[-1][1])
                if not both:
                    break
                found[-2:] = [(None, both)]
        return [(sets, each) for sets, text in found
                for each in (text.statements() if isinstance(text, MemoryWrite) else [text])]

    def __str__(self):
        lines, read = self.lines_with_effect()
        refuse_unless(self.frame or TOP not in read, "a stack pointer without a part of the stack")
        count = len(self.function.parameters)
        variables = [(f"v{k}", type_, k in self.zeros) for k, type_ in enumerate(self.function.locals) if k >= count]
        variables += [(name, type_, False) for name, type_ in self.temporaries.items()]
        texts = self.language.declarations([each for each in variables if each[0] in read])
        if TOP in read:
            self.program.require_part("frame")
            words = (self.frame + self.align) // 8 + 2
            texts += self.language.frame.format(words=words, bytes=8 * words).split("\n")
        texts += [self.language.unused.format(name=f"v{k}") for k in range(count) if f"v{k}" not in read]
        texts += self.language.statements(lines)
        for _, text in lines:
            if isinstance(text, MemoryWrite):
                self.program.require_part(text.function)
        return "\n".join(textwrap.fill(text, 100, initial_indent="" if text.endswith(":;") else " ",
                                       subsequent_indent="   ", break_long_words=False, break_on_hyphens=False)
                         for text in texts)
