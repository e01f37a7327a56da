#!/usr/bin/env python3
"""Translates the WebAssembly module of the library (64-bit memory, no vectors) into one C99 file.

usage: tools/wasm_to_c.py MODULE c/include/vulfsjor.h >vulfsjor.c

An address of the module is the address of a byte of the program, and its memory is the program's: nothing is copied.
Each function becomes a static function, an exported one also a function of the header. Locals and operands become
variables, blocks become labels. All arithmetic is unsigned. What this file does not know, it refuses with a line that
names it: imports, data, tables, vectors, floating point, blocks with results, and every opcode that
`translate_instruction` and `binary_operation` do not list.

Three things are more than a translation, and each is refused in any other form:

  - The stack. The part that a function takes of the module's stack becomes an array in it, aligned as the module's
    stack is: LLVM writes + 8 as | 8. `FunctionBody` follows the stack pointer through locals, and refuses an access
    outside of the array. Whether the stack has room is not asked (C cannot know).
  - The flag that a call is under way (Rattle's global 1) is left out, because threads would share it.
  - scrub_stack::<=N>, which does nothing in WebAssembly, becomes a function that overwrites N bytes of the C stack, and
    MARGIN more.
"""
import os
import re
import sys
import textwrap

from wasm_body import RUNTIME, FunctionBody
from wasm_format import UnreadableModule, WasmModule, ModuleReader
from wasm_values import BITS, BranchStatement, BlockMark, UntranslatableModule, untyped_literal, refuse_unless

HERE = os.path.dirname(os.path.abspath(__file__))
MARGIN = 2048  # bytes of the stack
ENTER = "block; call __rattle_enter; i32.eqz; br_if 0; call __rattle_trap; unreachable; end"
SETTLE = "block; global.get 0; i64.const 16; i64.lt_s; br_if 0; return; end; unreachable; end"
SCRUB = ("block; global.get 0; local.tee 0; i64.const 16; i64.lt_s; br_if 0; call SETTLE; local.get 0; global.set 0; "
         "return; end; unreachable; end")


class CWriter:
    """How a function is written in C."""

    # A number of a type, an expression of another type, and all bits changed.
    number, cast, opposite = "UINT{bits}_C({text})", "(u{bits}){text}", "(~{text})"
    # The part of the stack, of so many numbers, and its end; and what says that a parameter is not used.
    frame, unused = "FRAME({words});", "(void){name};"
    # A structure of the header for the module: its room there, and each field before and after a call.
    room = "uint64_t {name}_[{count}];"
    field_before = "store{bits}(ADDRESS({name}_) + {place}, {name}->{field});"
    field_after = "{name}->{field} = (uint{bits}_t)load{bits}(ADDRESS({name}_) + {place});"
    address = "ADDRESS({}_)"

    def type(self, type_):
        """The type for one of WebAssembly."""
        refuse_unless(type_ in BITS, f"the type {type_}")
        return f"u{BITS[type_]}"

    def argument(self, _, value):
        """An operand as an argument of another type."""
        return value.expression_of_known_type()

    def conditional_expression(self, c, a, b):
        """One of two."""
        return f"({c.condition or c.text} ? {a} : {b})"

    def binary_expression(self, a, operator, b):
        """An operator between two operands."""
        first = a.expression_beside_operand(b) if a.number is not None else a.expression_before_operator(operator)
        return f"({first} {operator} {b.expression_beside_operand(a)})"

    def condition(self, c):
        """An operand as a condition."""
        return c.condition or c.expression_of_known_type()

    def head(self, name, c_name, function):
        """The first lines of a function of the module."""
        result = self.type(function.results[0]) if function.results else "void"
        words = ", ".join(f"{self.type(type_)} v{k}" for k, type_ in enumerate(function.parameters))
        return f"/* {name} */\n" + wrapped_first_lines(f"APART {result} {c_name}({words or 'void'}) {{")

    def declarations(self, variables):
        """The declarations of variables, of which each has a name, a type, and whether it is 0 at first."""
        names = {type_: [name + " = 0" * is_zero for name, each, is_zero in variables if each == type_]
                 for type_ in BITS}
        return [f"{self.type(type_)} {', '.join(names[type_])};" for type_ in BITS if names[type_]]

    def statements(self, lines):
        """The statements of lines: each sets a variable, or None, to an expression, or is a branch or a mark."""
        texts = []
        for sets, text in lines:
            if isinstance(text, BranchStatement):
                where = f"goto {text.block.label};" if text.block else "return;"
                texts.append(f"if ({text.condition}) {where}" if text.condition else where)
            elif isinstance(text, BlockMark):
                texts += [f"{text.block.label}:;"] * (text.block.is_loop == text.is_begin)
            elif sets:
                text = re.sub(rf"^({sets}) = \1 ([+*&|^]|<<|>>|-(?!.* [-+] )) ", r"\1 \2= ", f"{sets} = {text};")
                texts.append(re.sub(rf"^({sets}) = (.+) ([+*&|^]) \1;$", r"\1 \3= \2;", text))
            else:
                texts.append(str(text).rstrip(";") + ";")
        texts = [text for text, after in zip(texts, [*texts[1:], ""]) if text != f"goto {after[:-2]};"]
        used = {word for text in texts for word in re.findall(r"goto (l\d+);", text)}
        return [text for text in texts if not text.endswith(":;") or text[:-2] in used]

    def exported(self, name, result, parameters):
        """The first lines of a function of the header."""
        given = ", ".join(f"{const}{type_} {star}{each}" for const, type_, star, each in parameters) or "void"
        return wrapped_first_lines(f"{result} NAME({name})({given})") + " {"

    def argument_of_parameter(self, parameter, _):
        """A parameter of such a function as the module's argument."""
        _, _, star, each = parameter
        return f"ADDRESS({each})" if star else each

    def lines_of_call_and_return(self, call, result, after):
        """What such a function does with the call of the module's: if there is something to do after it, unless that
        fails."""
        if after:
            return [f"if ({call}) return -1;", *after, "return 0;"]
        return [f"return ({result}){call};" if result != "void" else f"{call};"]


def wrapped_first_lines(text):
    """The first lines of a function, of at most 100 columns."""
    return textwrap.fill(text, 100, subsequent_indent=" " * 8)


class TemplateParts:
    """The text that no module has: tools/wasm_to_c.c, for example. A part begins with a line that names it, and is
    several if that has their sizes."""

    def __init__(self, name):
        with open(os.path.join(HERE, name), encoding="utf-8") as file:
            found = re.split(r"^(?:/\*|//) ---- (\w+)([ \d]*)(?:\*/)?\n", file.read(), flags=re.MULTILINE)
        self.texts = {name + size: text.strip("\n").replace("@SIZE@", size)
                      for name, sizes, text in zip(found[1::3], found[2::3], found[3::3])
                      for size in sizes.split() or [""]}

    def fill(self, name, **words):
        """A part with these words in the places of their names, such as @NAME@."""
        return re.sub("@([A-Z]+)@", lambda match: str(words[match[1]]), self.texts[name])


class HeaderDeclarations:
    """What the header declares."""

    def __init__(self, text):
        text = re.sub(r"/\*.*?\*/", "", text, flags=re.DOTALL)
        self.structs = {name: re.findall(r"(\w+) (\w+);", body) for body, name in
                        re.findall(r"^typedef struct \w+ \{([^}]*)\} (\w+);", text, re.MULTILINE)}
        self.functions = {}
        for result, name, words in re.findall(r"^(\w+) (vulfsjor_ffi_\w+)\(([^)]*)\);", text, re.MULTILINE):
            self.functions[name] = result, [] if words == "void" else [
                re.fullmatch(r"(const )?(\w+) (\*?)(\w+)", " ".join(word.split())).groups("")
                for word in words.split(",")]


class Program:
    """The file in C."""

    language, parts_file = CWriter(), "wasm_to_c.c"

    def __init__(self, data, header):
        module = WasmModule(data)
        self.exports = exported_functions(module)
        refuse_unless(module.width == 64, "a memory of 32 bits")
        self.functions, self.names = module.functions, module.names
        refuse_unless(sorted(self.names) == list(range(len(self.functions))), "functions without names")
        self.parts, self.header = TemplateParts(self.parts_file), HeaderDeclarations(header)
        self.used, self.calls = {"head"}, {}
        self.check_runtime()
        wanted = set(self.header.functions)
        refuse_unless(set(self.exports) == wanted, f"other functions than the header's: "
                      f"{', '.join(sorted({*self.exports} ^ wanted))}")

    def require_part(self, part):
        """Says that a part of wasm_to_c.c is called."""
        self.used.add(part)
        if re.fullmatch("(load|store)(16|32|64)", part):
            self.used.add("order" + part[-2:])

    def lines_of(self, k):
        """A function as one text, with the names of the functions that it calls."""
        return "; ".join(re.sub(r"^call (\d+)$", lambda match: "call " + self.names[int(match[1])], line)
                         for line in self.functions[k].lines)

    def check_runtime(self):
        """Refuses functions of Rattle's runtime that are not as they are known here."""
        for k, name in self.names.items():
            wanted = RUNTIME.get(name)
            if re.search(r"\bsettle::<=\d+>$", name):
                wanted = SETTLE
            elif self.bytes_overwritten_by_scrub(k):
                wanted = SCRUB.replace("SETTLE", name.replace("scrub_stack", "settle"))
            refuse_unless(wanted in (None, self.lines_of(k)), f"another {name}")

    def wrapped_callee(self, k):
        """What an exported function calls between __rattle_enter and __rattle_leave, if nothing else, or itself."""
        arguments = "".join(f"local.get {n}; " for n in range(len(self.functions[k].parameters)))
        match = re.fullmatch(f"{ENTER}; {arguments}call (.*?); (local.set (\\d+); )?call __rattle_leave; "
                             "(local.get \\3; )?end", self.lines_of(k))
        callees = [callee for callee, name in self.names.items() if match and name == match[1]]
        return callees[0] if callees and bool(match[2]) == bool(self.functions[k].results) else k

    def bytes_overwritten_by_scrub(self, k):
        """The bytes of the stack that a function is to overwrite, or 0."""
        match = re.search(r"\bscrub_stack::<=(\d+)>$", self.names[k])
        return int(match[1]) if match else 0

    def c_name(self, k):
        """The name of a function in C."""
        name = re.sub("^vulfsjor_ffi_", "module::", self.names[k]).replace("rattle::export vulfsjor_ffi_", "exported::")
        name = name.removeprefix("blake2_")
        return re.sub("[^A-Za-z0-9_]+", "_", name).strip("_")

    def stack_wiping_function(self, k):
        """The function that overwrites the stack in the place of one of the module."""
        self.require_part("scrub")
        return f"SCRUB({self.c_name(k)}, {self.bytes_overwritten_by_scrub(k) + MARGIN})"

    def function(self, k):
        """A function of the module."""
        refuse_unless(len(self.functions[k].results) <= 1, "several results")
        head = self.language.head(self.names[k], self.c_name(k), self.functions[k])
        return f"{head}\n{FunctionBody(self, self.functions[k])}\n}}"

    def all_functions(self):
        """The functions that are called, callees first."""
        texts, order = {}, []

        def visit(k):
            if k not in texts:
                texts[k] = None if self.bytes_overwritten_by_scrub(k) else self.function(k)
                for callee in sorted(self.calls.get(self.functions[k], ())):
                    visit(callee)
                order.append(k)

        for name in self.header.functions:
            self.exports[name] = self.wrapped_callee(self.exports[name])
            visit(self.exports[name])
        names = [self.c_name(k) for k in order]
        refuse_unless(len({*names}) == len(names), "two functions whose names are one in C")
        return [texts[k] or self.stack_wiping_function(k) for k in order]

    def struct_conversions(self, type_, name, is_const):
        """The statements that convert a structure of the header for the module, before and after a call."""
        place, before, after = 0, [], []
        for each, field in self.header.structs[type_]:
            bits = int(re.fullmatch(r"uint(8|32|64)_t", each)[1])
            self.require_part(f"store{bits}"), self.require_part(f"load{bits}")
            refuse_unless(place % (bits // 8) == 0, f"{type_} with a gap")
            words = {"name": name, "field": field, "bits": bits, "place": place}
            before.append(self.language.field_before.format(**words))
            after.append(self.language.field_after.format(**words))
            place += bits // 8
        refuse_unless(place % 8 == 0, f"{type_} with a gap")
        room = self.language.room.format(name=name, count=place // 8)
        return [room, *(before if is_const else [])], [] if is_const else after

    def exported(self, name):
        """A function of the header."""
        result, parameters = self.header.functions[name]
        types, inner = {type_ for _, type_, _, _ in parameters}, self.c_name(self.exports[name])
        head = self.language.exported(name.removeprefix("vulfsjor_ffi_"), result, parameters)
        if "vulfsjor_message" in types:
            family = "BLAKE2B" if "blake2b" in name else "BLAKE2S"
            part = re.search("(update_)?many$", name)[0]
            ready = self.c_name(self.exports[name.replace(part, "digest_size")])
            self.require_part("pairs"), self.require_part("load64"), self.require_part("store64")
            return self.parts.fill(part, HEAD=head, INNER=inner, FAMILY=family, READY=ready)
        words, lines, after = [], [], []
        for const, type_, star, each in parameters:
            is_struct = type_ in self.header.structs
            if is_struct and not type_.endswith("_state"):
                before, more = self.struct_conversions(type_, each, const)
                lines += before
                after += more
                words.append(self.language.address.format(each))
            else:
                words.append(self.language.argument_of_parameter((const, type_, star, each), is_struct))
        lines += self.language.lines_of_call_and_return(f"{inner}({', '.join(words)})", result, after)
        return f"{head}\n" + "\n".join(f"    {line}" for line in lines) + "\n}"

    def __str__(self):
        functions = self.all_functions()
        exported = [self.exported(name) for name in self.header.functions]
        parts = [self.parts.fill(name) for name in self.parts.texts if name in self.used]
        return "\n\n".join(parts + functions + exported) + "\n"


def exported_functions(module):
    """The exported functions of a module by name, if its sections are known here: no import, table, start or data."""
    number = rb"\x42[\x80-\xff]*[\0-\x7f]\x0b"
    known = {6: rb"\x03(\x7e\x01" + number + rb")(\x7f\x01\x41\0\x0b)(\x7e\0" + number + rb")",
             11: rb"\x01\0" + number + rb"\0"}  # the stack pointer, the flag, a constant address; no bytes
    for id_, content in module.sections.items():
        refuse_unless(id_ in (1, 3, 5, 6, 7, 10, 11), f"a section {id_}")
        refuse_unless(id_ not in known or re.fullmatch(known[id_], content.data), "other globals, or data")
    exports, content = {}, module.sections.get(7, ModuleReader(b"\0"))
    for _ in range(content.read_leb128()):
        name, kind, k = content.read_bytes(content.read_leb128()).decode(), content.read_byte(), content.read_leb128()
        refuse_unless(kind == 0 or name in ("memory", "__heap_base"), f"the export {name}")
        exports.update({name: k} if kind == 0 else {})
    return exports


def main(program=Program):
    """Runs the program."""
    name = os.path.basename(sys.argv[0])
    if len(sys.argv) != 3:
        sys.exit(f"usage: tools/{name} MODULE c/include/vulfsjor.h")
    with open(sys.argv[1], "rb") as file:
        data = file.read()
    with open(sys.argv[2], encoding="utf-8") as file:
        header = file.read()
    try:
        print(program(data, header), end="")
    except (UntranslatableModule, UnreadableModule) as why:
        sys.exit(f"{name}: {sys.argv[1]} has what is not translated: {why}")


if __name__ == "__main__":
    main()
