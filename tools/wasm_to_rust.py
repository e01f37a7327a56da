#!/usr/bin/env python3
"""Translates the WebAssembly module of the library into a module of Rust, as tools/wasm_to_c.py into C, whose text says
what is translated, and what is more than a translation.

usage: tools/wasm_to_rust.py MODULE c/include/vulfsjor.h >vulfsjor.rs

The functions of the header become functions that only other modules of the crate call, with the crate's own types.
"""
import re

import wasm_to_c
from wasm_to_c import wrapped_first_lines
from wasm_values import BITS, BranchStatement, BlockMark, untyped_literal

METHODS = {"+": "plus", "-": "minus", "*": "times"}
# The types of the header in the crate.
TYPES = {"size_t": "usize", "uint64_t": "u64", "uint32_t": "u32", "int32_t": "i32", "uint8_t": "u8",
         "vulfsjor_message": "Text"}
WITH_STD = "vulfsjor_limits", "vulfsjor_plan", "vulfsjor_part"  # structs that the crate has only with std


class RustWriter(wasm_to_c.CWriter):
    """How a function is written in Rust."""

    number, cast, opposite = "{text}_u{bits}", "({text} as u{bits})", "(!{text})"
    frame = "let mut frame = [0_u64; {words}];\nlet top = (address!(frame)).plus({bytes}) & !15;"
    unused = "let _ = {name};"
    room = "let mut {name}_ = [0_u64; {count}];"
    field_before = "store{bits}(address!({name}_) + {place}, {name}.{field} as u64);"
    field_after = "{name}.{field} = load{bits}(address!({name}_) + {place}) as u{bits};"
    address = "address!({}_)"

    def argument(self, type_, value):
        has_type = value.type == type_ or value.number is not None
        return value.expression_of_known_type() if has_type else f"{value.text} as {self.type(type_)}"

    def conditional_expression(self, c, a, b):
        return f"(if {self.condition(c)} {{ {a} }} else {{ {b} }})"

    def binary_expression(self, a, operator, b):
        """Sums, differences and products may be too long for their type."""
        if operator in METHODS:
            return f"{a.text}.{METHODS[operator]}({b.expression_of_known_type()})"
        return super().binary_expression(a, operator, b)

    def condition(self, c):
        return c.condition or f"{c.text} != 0"

    def head(self, name, c_name, function):
        words = ", ".join(f"mut v{k}: {self.type(type_)}" for k, type_ in enumerate(function.parameters))
        result = "".join(f" -> {self.type(type_)}" for type_ in function.results)
        return f"// {name}\n#[inline(never)]\n" + wrapped_first_lines(f"unsafe fn {c_name}({words}){result} {{")

    def declarations(self, variables):
        return [f"let mut {name}: {self.type(type_)}{' = 0' * is_zero};" for name, type_, is_zero in variables]

    def statements(self, lines):
        used = {text.block for _, text in lines if isinstance(text, BranchStatement)}
        texts = []
        for sets, text in lines:
            if isinstance(text, BranchStatement):
                word = "continue" if text.block and text.block.is_loop else "break"
                where = f"{word} '{text.block.label};" if text.block else "return;"
                texts.append(f"if {text.condition} {{ {where} }}" if text.condition else where)
            elif isinstance(text, BlockMark):
                end = f"break '{text.block.label}; }}" if text.is_reached else "}"
                texts += [f"'{text.block.label}: loop {{" if text.is_begin else end] * (text.block in used)
            elif sets:
                texts.append(re.sub(rf"^({sets}) = \1 ([&|^]|<<|>>) ", r"\1 \2= ", f"{sets} = {text};"))
            else:
                texts.append(str(text).rstrip(";") + ";")
        return texts

    def exported(self, name, result, parameters):
        types = {type_ for _, type_, _, _ in parameters}
        own = name + "<S>" * any(type_.endswith("_state") for type_ in types)
        given = ", ".join(f"{each}: {rust_type(*words, each)}" for *words, each in parameters)
        answer = "" if result == "void" else f" -> {TYPES[result]}"
        return "#[cfg(feature = \"std\")]\n" * bool(types & {*WITH_STD}) + wrapped_first_lines(
            f"pub(crate) unsafe fn {own}({given}){answer} {{")

    def argument_of_parameter(self, parameter, is_struct):
        const, type_, star, each = parameter
        if star and is_struct:
            return f"{each} as *{'const' if const else 'mut'} _ as u64"
        return f"{each} as u64" if star or type_ == "size_t" else each

    def lines_of_call_and_return(self, call, result, after):
        if after:
            return [f"if {call} != 0 {{ return -1; }}", *after, "0"]
        return [call + (f" as {TYPES[result]}" if result in ("int32_t", "size_t") else ";" * (result == "void"))]


class Program(wasm_to_c.Program):
    """The module of Rust."""

    language, parts_file = RustWriter(), "wasm_to_rust.rs"

    def stack_wiping_function(self, k):
        return self.parts.fill("scrub", NAME=self.c_name(k),
                               WORDS=(self.bytes_overwritten_by_scrub(k) + wasm_to_c.MARGIN) // 8)


def rust_type(const, type_, star, name):
    """The type of a parameter of the header in the crate. Each function accepts any type for a state."""
    if name == "states":
        return "*mut S"
    if type_.endswith("_state"):
        return f"&{'' if const else 'mut '}S"
    if type_ in TYPES:
        return f"*{'const' if const else 'mut'} {TYPES[type_]}" if star else TYPES[type_]
    name = "".join(word.capitalize() for word in type_.removeprefix("vulfsjor_").split("_"))
    return f"&{'' if const else 'mut '}{name}"


if __name__ == "__main__":
    wasm_to_c.main(Program)
