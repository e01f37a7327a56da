"""Reads the functions of a WebAssembly module as lines of text, one for each instruction: its name
and its numbers, such as `i64.const -1`, `v128.load 240` (an offset) or `br_if 0`."""

from __future__ import annotations

import base64
import re
from typing import Any


class UnreadableModule(Exception):
    """The module has something that this does not know."""


START, LAST = 8, 12                    # the section of a function that runs first, and the last one
TYPES = {0x7f: "i32", 0x7e: "i64", 0x7d: "f32", 0x7c: "f64", 0x7b: "v128"}

# The numbers that follow an opcode: b a block's type, u an unsigned number, s a signed one, m the
# place in memory, l one byte, v 16 bytes, t a table of labels, and "uu" and the like several.
PLAIN = {
    0x00: "unreachable", 0x01: "nop", 0x02: "block b", 0x03: "loop b", 0x04: "if b", 0x05: "else",
    0x0b: "end", 0x0c: "br u", 0x0d: "br_if u", 0x0e: "br_table t", 0x0f: "return", 0x10: "call u",
    0x1a: "drop", 0x1b: "select", 0x20: "local.get u", 0x21: "local.set u", 0x22: "local.tee u",
    0x23: "global.get u", 0x24: "global.set u", 0x41: "i32.const s", 0x42: "i64.const s",
}
PLAIN.update({0x28 + k: n + " m" for k, n in enumerate(
    "i32.load i64.load f32.load f64.load i32.load8_s i32.load8_u i32.load16_s i32.load16_u "
    "i64.load8_s i64.load8_u i64.load16_s i64.load16_u i64.load32_s i64.load32_u i32.store "
    "i64.store f32.store f64.store i32.store8 i32.store16 i64.store8 i64.store16 "
    "i64.store32".split())})
_COMPARISONS = "eqz eq ne lt_s lt_u gt_s gt_u le_s le_u ge_s ge_u".split()
_ARITHMETIC = ("clz ctz popcnt add sub mul div_s div_u rem_s rem_u and or xor shl shr_s shr_u rotl "
               "rotr").split()
for _first, _type, _names in ((0x45, "i32.", _COMPARISONS), (0x50, "i64.", _COMPARISONS),
                              (0x67, "i32.", _ARITHMETIC), (0x79, "i64.", _ARITHMETIC)):
    PLAIN.update({_first + k: _type + n for k, n in enumerate(_names)})
PLAIN.update({0xa7: "i32.wrap_i64", 0xac: "i64.extend_i32_s", 0xad: "i64.extend_i32_u",
              0xc0: "i32.extend8_s", 0xc1: "i32.extend16_s", 0xc2: "i64.extend8_s",
              0xc3: "i64.extend16_s", 0xc4: "i64.extend32_s"})
# All vector instructions of the standard that have numbers, and some of those that have none. The
# opcodes of its others are UNNAMED. What is in neither is refused, because it may have numbers.
VECTOR = {
    12: "v128.const v", 13: "i8x16.shuffle v", 15: "i8x16.splat", 16: "i16x8.splat",
    17: "i32x4.splat", 18: "i64x2.splat",
    77: "v128.not", 78: "v128.and", 80: "v128.or", 81: "v128.xor", 82: "v128.bitselect",
    92: "v128.load32_zero m", 93: "v128.load64_zero m",
    107: "i8x16.shl", 109: "i8x16.shr_u", 139: "i16x8.shl", 141: "i16x8.shr_u",
    171: "i32x4.shl", 172: "i32x4.shr_s", 173: "i32x4.shr_u", 174: "i32x4.add",
    203: "i64x2.shl", 204: "i64x2.shr_s", 205: "i64x2.shr_u", 206: "i64x2.add",
}
VECTOR.update({k: "v128.%s m" % n for k, n in enumerate(
    "load load8x8_s load8x8_u load16x4_s load16x4_u load32x2_s load32x2_u load8_splat load16_splat "
    "load32_splat load64_splat store".split())})
VECTOR.update({21 + k: n + " l" for k, n in enumerate(
    "i8x16.extract_lane_s i8x16.extract_lane_u i8x16.replace_lane i16x8.extract_lane_s "
    "i16x8.extract_lane_u i16x8.replace_lane i32x4.extract_lane i32x4.replace_lane "
    "i64x2.extract_lane i64x2.replace_lane f32x4.extract_lane f32x4.replace_lane "
    "f64x2.extract_lane f64x2.replace_lane".split())})
VECTOR.update({84 + k: "v128.%s%d_lane ml" % (n, 8 << k % 4) for k, n in enumerate(
    ["load"] * 4 + ["store"] * 4)})
_UNUSED = (154, 162, 165, 166, 175, 176, 178, 179, 180, 187, 194, 197, 198, 207, 208, 210, 211, 212,
           226, 238)
UNNAMED = {14, 19, 20, *range(35, 84), *range(94, 256)} - {*_UNUSED} - {*VECTOR}
MORE = {8: "memory.init uu", 10: "memory.copy ll", 11: "memory.fill l"}


class ModuleReader:
    """Bytes with a position."""

    def __init__(self, data: bytes) -> None:
        self.data, self.at = data, 0

    def read_bytes(self, n: int) -> bytes:
        if n > len(self.data) - self.at:
            raise UnreadableModule("the module ends too early")
        self.at += n
        return self.data[self.at - n:self.at]

    def read_byte(self) -> int:
        return self.read_bytes(1)[0]

    def read_leb128(self, signed: bool = False) -> int:
        """A number in LEB128."""
        value = shift = 0
        while True:
            b = self.read_byte()
            value |= (b & 127) << shift
            shift += 7
            if b < 128:
                return value - (1 << shift) if signed and b & 64 else value

    def read_operands(self, kinds: str) -> list:
        """The numbers after an opcode, as text."""
        found = []
        for kind in kinds:
            if kind == "b":
                n = self.read_leb128(True)      # below 0: none, or a type of values
                found += [] if n == -64 else [TYPES.get(n & 127, "type") if n < 0 else "type"]
            elif kind == "m":
                if self.read_leb128() > 0x3f:
                    raise UnreadableModule("the module has several memories")
                found.append(str(self.read_leb128()))
            elif kind == "t":
                found += [str(self.read_leb128()) for _ in range(self.read_leb128() + 1)]
            elif kind == "v":
                found += [str(b) for b in self.read_bytes(16)]
            else:
                found.append(str(self.read_byte() if kind == "l" else self.read_leb128(kind == "s")))
        return found

    def read_instruction(self) -> str:
        """The next instruction, as text."""
        code = self.read_byte()
        table = {0xfc: MORE, 0xfd: VECTOR}.get(code, PLAIN)
        if table is not PLAIN:
            code = self.read_leb128()
        known = table.get(code)
        if known is None and not (table is VECTOR and code in UNNAMED
                                  or table is MORE and code < 8):
            raise UnreadableModule("the opcode %#x is not known: add it to tools/wasm_format.py"
                             % code)
        name, _, kinds = (known or "vector_%d" % code).partition(" ")
        return " ".join([name] + self.read_operands(kinds))


class WasmFunction:
    """The types of the parameters and of the locals, and the instructions as text."""

    def __init__(self, parameters: list, results: list, body: bytes) -> None:
        self.parameters, self.results = parameters, results
        reader = ModuleReader(body)
        self.locals = list(parameters)
        for _ in range(reader.read_leb128()):
            count = reader.read_leb128()
            self.locals += [TYPES[reader.read_byte()]] * count
        self.lines = []
        while reader.at < len(body):
            self.lines.append(reader.read_instruction())


class WasmModule:
    """The functions, by their index, the width of addresses in bits, and names if there are any."""

    names: dict
    sections: dict

    def __init__(self, data: bytes) -> None:
        reader = ModuleReader(data)
        if reader.read_bytes(8) != b"\0asm\1\0\0\0":
            raise UnreadableModule("this is not a WebAssembly module of version 1")
        self.sections, self.names = {}, {}
        while reader.at < len(data):
            id_ = reader.read_byte()
            content = ModuleReader(reader.read_bytes(reader.read_leb128()))
            if id_ == 0:
                self.read_names(content)
            elif id_ in self.sections or id_ == START or id_ > LAST:
                raise UnreadableModule("the module has a section %d, or has it twice" % id_)
            else:
                self.sections[id_] = content
        sections = self.sections
        if 2 in sections:
            raise UnreadableModule("the module has imports, so its functions are counted otherwise")
        types = [self.read_type(sections[1]) for _ in range(sections[1].read_leb128())]
        used = [types[sections[3].read_leb128()] for _ in range(sections[3].read_leb128())]
        code = sections[10]
        count = code.read_leb128()
        if count != len(used):
            raise UnreadableModule("the module has %d bodies of %d functions" % (count, len(used)))
        self.functions = [WasmFunction(parameters, results, code.read_bytes(code.read_leb128()))
                          for parameters, results in used]
        if sections[5].read_leb128() != 1:
            raise UnreadableModule("the module has not one memory")
        self.width = 64 if sections[5].read_byte() & 4 else 32

    def read_type(self, reader: ModuleReader) -> list:
        """The parameters and the results of a type of functions."""
        if reader.read_byte() != 0x60:
            raise UnreadableModule("a type is not that of a function")
        return [[TYPES[b] for b in reader.read_bytes(reader.read_leb128())] for _ in range(2)]

    def read_names(self, reader: ModuleReader) -> None:
        """The names of functions, by index, in the section "name"."""
        if reader.read_bytes(reader.read_leb128()) != b"name":
            return
        while reader.at < len(reader.data):
            id_ = reader.read_byte()
            part = ModuleReader(reader.read_bytes(reader.read_leb128()))
            if id_ == 1:
                for _ in range(part.read_leb128()):
                    index = part.read_leb128()
                    self.names[index] = part.read_bytes(part.read_leb128()).decode()


def module_bytes_of_script(text: str) -> Any:
    """The bytes of the module that a file js/src/wasm*.js has in base64."""
    m = re.search(r'const text =\s*"([A-Za-z0-9+/=]+)"', text)
    if not m:
        raise UnreadableModule("a file js/src/wasm*.js has no module in base64 after `const text =`")
    return base64.b64decode(m[1], validate=True)
