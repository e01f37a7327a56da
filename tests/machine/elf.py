"""What the tool reads for ELF: the texts of dist/, whose macros are for every object format, and object files."""

import functools
import os
import re
import struct
from types import SimpleNamespace

ROOT = os.path.dirname(os.path.dirname(os.path.dirname(os.path.abspath(__file__))))
PROGBITS, SYMBOLS, RELOCATIONS, NOTE, NOBITS, GROUP = 1, 2, 4, 7, 8, 17    # types of sections
ALLOCATED, EXECUTABLE, MERGED = 2, 4, 16                   # flags of sections
NO_TYPE, FUNCTION = 0, 2                                   # types of symbols
LOCAL, GLOBAL = 0, 1                                       # bindings of symbols
UNDEFINED = 0                                              # a number of no section
HIDDEN = 2                                                 # a visibility of symbols


class Elf:
    """The sections of a file, each with its header and bytes, and its symbols. Linkers merge what is the same in units
    of a section. A hidden symbol is not seen by other libraries, nor by the program that it is linked into."""

    def __init__(self, path: str) -> None:
        with open(path, "rb") as f:
            data = f.read()
        table, size, count, names = struct.unpack_from("<40xQ10xHHH", data)
        headers = [struct.unpack_from("<IIQQQQIIQQ", data, table + k * size) for k in range(count)]
        self.sections = [SimpleNamespace(
            name=text_at(data, headers[names][4] + h[0]), type=h[1], flags=h[2], address=h[3], size=h[5],
            alignment=h[8], unit=h[9], data=b"" if h[1] == NOBITS else data[h[4]:h[4] + h[5]]) for h in headers]
        self.symbols = []
        for s, header in zip(self.sections, headers):
            for name, info, other, of, *place in struct.iter_unpack("<IBBHQQ", s.data) if s.type == SYMBOLS else ():
                self.symbols.append(SimpleNamespace(
                    name=text_at(self.sections[header[6]].data, name), type=info & 15, binding=info >> 4, section=of,
                    is_hidden=other & 3 == HIDDEN, place=place))

    def symbol_places(self) -> list:
        """The address, section, size and name of each symbol in a section. That of a section has its name."""
        named = [(s, self.sections[s.section].name) for s in self.symbols if UNDEFINED < s.section < len(self.sections)]
        return [(s.place[0], section, s.place[1], s.name or section) for s, section in named]


def text_at(data: bytes, at: int) -> str:
    """The text that begins at a place and ends with a zero."""
    return data[at:data.index(b"\0", at)].decode()


@functools.lru_cache(maxsize=None)
def macros(kind: str) -> tuple[dict[str, tuple[list[str], list[str]]], list[str]]:
    """The parameters and the lines of each macro of a processor's texts, by its name, and the lines outside of all."""
    with open(os.path.join(ROOT, "dist", kind, "elf.inc")) as f:
        text = f.read()
    macro = re.compile(r"^\.macro (\w+) ?(.*)\n((?:.*\n)*?)\.endm\n", re.M)
    found = {name: (parameters.split(", "), body.splitlines()) for name, parameters, body in macro.findall(text)}
    return found, macro.sub("", text).splitlines()


def expand_line(line: str, kind: str) -> list[str]:
    """The lines that a line of a text stands for."""
    word, _, rest = line.lstrip("\t").partition("\t")
    if word not in macros(kind)[0]:
        return [line]
    parameters, body = macros(kind)[0][word]
    values = dict(zip(parameters, rest.split(", "), strict=True))
    filled = [re.sub(r"\\(\w+)", lambda m: values[str(m[1])], each) for each in body]
    return [part for each in filled for part in expand_line(each, kind)]


def expanded(path: str, kind: str) -> str:
    """The text of a file for ELF without macros, with the marks that dist/macros.h gives it."""
    with open(os.path.join(ROOT, path), encoding="utf-8") as f:
        lines = ["\tvj_marks", *f.read().split("\n")]
    return "\n".join([*macros(kind)[1], *(part for line in lines for part in expand_line(line, kind))])
