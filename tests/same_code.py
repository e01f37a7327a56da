"""Whether a linked file (a shared library, the module of a wheel, a program) or an archive has the code of the texts in
dist/ for its processor. Not a program: tests/verify.py calls it.

A text is assembled as tests/machine assembles it. One of its functions is in the file where its bytes are, except the
numbers that a linker fills in. Each of these must lead to a place where the function is that the text calls there, to
the C library's function of that name, or to bytes that are the constants of the text. An exported function of the file,
if its symbols name it, must be the jump of c/choose.c to these places."""
import functools
import os
import re
import struct
import subprocess
import sys
import tempfile
from collections import Counter
from typing import NamedTuple

TOP = os.path.dirname(os.path.dirname(os.path.abspath(__file__)))
sys.path.append(os.path.join(TOP, "tests", "machine"))
# pylint: disable=wrong-import-position
import elf  # noqa: E402
from program import TOOLS, without_version  # noqa: E402

PROCESSORS = {62: "x86_64", 183: "aarch64"}
BUILDS = {"x86_64": {level: f"dist/x86_64/vulfsjor-{level}.s" for level in ("v4", "v3", "v2")},
          "aarch64": {"arm": "dist/aarch64/vulfsjor.s"}}
EXPORT = "vulfsjor_ffi_"
SYMBOLS, RELOCATIONS, NO_BYTES, DYNAMIC = 2, 4, 8, 11       # types of sections
EXECUTABLE, MERGED = 4, 16                                  # flags of sections
FUNCTION = 2                                                # a type of symbols
ALIGNED = {"x86_64": 16, "aarch64": 4}                      # where functions begin
ALIKE, PIECE, PIECES = .75, 8, 12      # how many bytes of changed code are as before; what is looked for of it
# The bits that a linker fills in, by the kind of the relocation: PC32 and PLT32; CALL26 and JUMP26, the page of an
# address, and its low 12 bits, of which an access of 1 << n bytes leaves out the last n.
PAGE, LOW = 275, {277: 0, 278: 0, 284: 1, 285: 2, 286: 3, 299: 4}
HOLES = {"x86_64": {2: 0xffffffff, 4: 0xffffffff},
         "aarch64": {282: 0x3ffffff, 283: 0x3ffffff, PAGE: 0xe0ffffe0, **dict.fromkeys(LOW, 0x3ffc00)}}
# Entries of a table of addresses of the C library's functions, and how code goes there by one.
SLOTS = {"x86_64": (6, 7), "aarch64": (1025, 1026)}
BY_SLOT = {"x86_64": re.compile(rb"(?:\xf3\x0f\x1e\xfa)?\xf2?\xff\x25(....)", re.S),
           "aarch64": re.compile(rb"(?:\x5f\x24\x03\xd5)?(...[\x90\xb0\xd0\xf0])(..[\x40-\x7f]\xf9)", re.S)}
# The functions of c/choose.c: a jump to one build, or to v4, v3 and v2.
JUMPS = {"x86_64": re.compile(
    rb"\xf3\x0f\x1e\xfa(?:\xe9(?P<one>....)|\x80\x3d....\x03\x0f\x87(?P<v4>....)\x0f\x84(?P<v3>....)\x80\x3d....\x02"
    rb"\x0f\x84(?P<v2>....)\xe8....\x3c\x03\x0f\x87(?P<v4_>....)\x0f\x84(?P<v3_>....)\xe9(?P<v2_>....))", re.S),
    "aarch64": re.compile(rb"\x5f\x24\x03\xd5(?P<one>...[\x14-\x17])", re.S)}


class CannotCompare(Exception):
    """The file is of a kind that is not read."""


class ElfSection(NamedTuple):
    """A section of a file."""
    name: str
    type: int
    flags: int
    link: int
    info: int
    unit: int
    data: bytes


class ElfFile:
    """An ELF file of 64 bits."""

    def __init__(self, data):
        if data[:6] != b"\x7fELF\x02\x01" or struct.unpack_from("<H", data, 18)[0] not in PROCESSORS:
            raise CannotCompare("it is not an ELF file for x86-64 or 64-bit ARM")
        self.processor = PROCESSORS[struct.unpack_from("<H", data, 18)[0]]
        segments, sections = struct.unpack_from("<QQ", data, 32)
        size, count, step, number, names = struct.unpack_from("<5H", data, 54)
        headers = [struct.unpack_from("<IIQQQQIIQQ", data, sections + k * step) for k in range(number)]
        in_file = [b"" if h[1] == NO_BYTES else data[h[4]:h[4] + h[5]] for h in headers]
        self.sections = [ElfSection(elf.text_at(in_file[names], h[0]), h[1], h[2], h[6], h[7], h[9], each)
                         for h, each in zip(headers, in_file)]
        found = [struct.unpack_from("<IIQQQQ", data, segments + k * size) for k in range(count)]
        self.segments = [(s[3], data[s[2]:s[2] + s[5]], s[1] & 1) for s in found if s[0] == 1]

    def symbols(self, section):
        """The symbols of a section: name, type, section, value, size."""
        names = self.sections[section.link].data
        return [(elf.text_at(names, name), info & 15, *rest)
                for name, info, *rest in struct.iter_unpack("<IBxHQQ", section.data)]

    def symbols_of_all_tables(self):
        """Those of all tables."""
        return [s for section in self.sections if section.type in (SYMBOLS, DYNAMIC) for s in self.symbols(section)]

    def relocations(self):
        """The section that each changes, its place, its kind, its symbol, and what is added to that."""
        for section in self.sections:
            symbols = self.symbols(self.sections[section.link]) if section.type == RELOCATIONS else []
            for place, info, plus in struct.iter_unpack("<QQq", section.data) if symbols else ():
                yield section.info, place, info & 0xffffffff, symbols[info >> 32], plus

    def bytes_at(self, address, n):
        """The bytes that are loaded from an address on."""
        return next((data[address - start:address - start + n] for start, data, _ in self.segments
                     if start <= address < start + len(data)), b"")


class FunctionCode:
    """A function of a text: its bytes, which of their bits are known, and its relocations."""

    def __init__(self, code, processor):
        self.code, self.processor, self.links = code, processor, []
        self.known = bytearray(b"\xff" * len(code))

    def add_relocation(self, place, kind, symbol, plus):
        """A number that a linker fills in."""
        if kind not in HOLES[self.processor]:
            raise CannotCompare(f"the kind {kind} of relocations is not known")
        mask = ~HOLES[self.processor][kind] & 0xffffffff
        self.known[place:place + 4] = mask.to_bytes(4, "little")
        self.links.append((place, kind, symbol, plus))

    def known_byte_runs(self):
        """The places and the bytes of what is known."""
        return [(m.start(), self.code[m.start():m.end()]) for m in re.finditer(rb"\xff+", bytes(self.known))]

    def matching_bytes_mask(self, data):
        """Of each byte, whether it may be that of the function."""
        return [a & k == b & k for a, b, k in zip(self.code, data, self.known)]

    def places_in_file(self, file):
        """Where a file has it."""
        at, run = max(self.known_byte_runs(), key=lambda run: len(run[1]), default=(0, b""))
        known, code = int.from_bytes(self.known, "little"), int.from_bytes(self.code, "little")
        for start, data, is_code in file.segments:
            k = data.find(run) if is_code else -1
            while k >= 0:
                if (start + k - at) % ALIGNED[self.processor] == 0 and at <= k <= len(data) - len(self.code) + at:
                    found = int.from_bytes(data[k - at:k - at + len(self.code)], "little")
                    if (found ^ code) & known == 0:
                        yield start + k - at
                k = data.find(run, k + 1)

    def why_similar_code_differs(self, file, taken):
        """Why a function of the file is not this one, although most of its bytes are; or None if there is none."""
        pieces = [(at + k, run[k:k + PIECE]) for at,
                  run in self.known_byte_runs() for k in range(0, len(run) - PIECE + 1, PIECE)]
        votes = Counter(start + m.start() - at for at, piece in pieces[::len(pieces) // PIECES + 1]
                        for start, data, is_code in file.segments if is_code
                        for m in re.finditer(re.escape(piece), data))
        for start, _ in votes.most_common(3):
            same = self.matching_bytes_mask(file.bytes_at(start, len(self.code)))
            if start not in taken and start % ALIGNED[self.processor] == 0 and sum(same) >= ALIKE * len(self.code):
                return f"the code differs {(same + [False]).index(False)} bytes from its start on"
        return None


def signed_number(n, bits):
    """A number of so many bits, in two's complement."""
    return (n & (1 << bits) - 1) - (n >> bits - 1 & 1) * (1 << bits)


def little_endian_word(data, at=0):
    """Four bytes as a number."""
    return int.from_bytes(data[at:at + 4], "little")


def page_of_address(instruction, at):
    """The page that adrp makes, or adr, which linkers put instead of it where an erratum of a processor asks for it."""
    n = signed_number(instruction >> 5 << 2 & 0x1ffffc | instruction >> 29 & 3, 21)
    return (at & ~0xfff) + (n << 12) if instruction >> 31 else at + n


@functools.lru_cache(maxsize=None)
def assembled_text(path, processor):
    """A text, which is assembled once."""
    return AssembledText(path, processor)


class AssembledText:
    """The functions of a text of dist/, by their names without version, and its constants."""

    def __init__(self, path, processor):
        compiler, _, _ = TOOLS[processor]
        with tempfile.TemporaryDirectory() as d:
            s, o = os.path.join(d, "a.s"), os.path.join(d, "a.o")
            with open(s, "w", encoding="utf-8") as file:
                file.write(elf.expanded(path, processor))
            subprocess.run([*compiler, "-c", "-o", o, s], check=True)
            with open(o, "rb") as file:
                self.file = ElfFile(file.read())
        self.functions, self.names, self.found, self.left = {}, {}, {}, {}
        for name, kind, section, _, size in self.file.symbols_of_all_tables():
            if kind == FUNCTION:       # each has a section of its own
                name = self.names[section] = without_version(name)
                self.functions[name] = FunctionCode(self.file.sections[section].data[:size], processor)
        for section, *link in self.file.relocations():
            if section in self.names:
                self.functions[self.names[section]].add_relocation(*link)

    def compare(self, file):
        """Finds the functions in a file: those whose numbers lead to others that are found. What else has their bytes
        is left, with the reason."""
        self.found = {name: set(f.places_in_file(file)) for name, f in self.functions.items()}
        self.left = {name: {} for name in self.functions}
        slots = {place: s[0] for _, place, kind, s, _ in file.relocations() if kind in SLOTS[file.processor]}
        named = {(value, name) for name, _, section, value, _ in file.symbols_of_all_tables() if section}
        is_changed = True
        while is_changed:
            is_changed = False
            for name, f in self.functions.items():
                for at in list(self.found[name]):
                    why = self.why_targets_differ(file, f, at, slots, named)
                    if why:
                        self.found[name].discard(at)
                        self.left[name][at] = why
                        is_changed = True

    def why_targets_differ(self, file, f, at, slots, named):
        """Why the numbers of a function that is at a place do not lead where those of the text do, or None."""
        parts = {}                     # of the addresses of constants: pages and low bits
        for place, kind, symbol, plus in f.links:
            here, n = at + place, little_endian_word(file.bytes_at(at + place, 4))
            name, _, section, value, _ = symbol
            if kind in LOW or kind == PAGE:
                part = page_of_address(n, here) if kind == PAGE else (n >> 10 & 0xfff) << LOW[kind]
                parts.setdefault((section, value + plus), {}).setdefault(kind == PAGE, set()).add_relocation(part)
                continue
            target = here + (signed_number(n << 2, 28) if file.processor == "aarch64" else signed_number(n, 32)) - plus
            if section in self.names:
                if target not in self.found[self.names[section]]:
                    return f"it calls {self.names[section]}, which differs"
            elif not section:
                if (target, name) not in named and slots.get(jump_slot_of_call(file, target)) != name:
                    return f"the call of {name} leads elsewhere"
            elif not self.has_same_constant(file, section, value, target):
                return "a constant differs"
        for (section, value), found in parts.items():
            pages, lows = found.get(True, ()), found.get(False, ())
            if len(pages) != 1 or len(lows) != 1 or not self.has_same_constant(file, section, value,
                                                                               sum((*pages, *lows))):
                return "a constant differs"
        return None

    def has_same_constant(self, file, section, value, target):
        """Whether a file has at an address what a section has at a place: the whole entry, which a linker may merge
        with others, or the whole section."""
        of = self.file.sections[section]
        start = value - value % of.unit if of.flags & MERGED else 0
        wanted = of.data[start:start + of.unit] if of.flags & MERGED else of.data
        return file.bytes_at(target - value + start, len(wanted)) == wanted

    def why_function_is_absent(self, name, file, taken):
        """Why a file does not have a function, or None if it has none that resembles it."""
        whys = [why for at, why in self.left[name].items() if at not in taken]
        return whys[0] if whys else self.functions[name].why_similar_code_differs(file, taken)


def jump_slot_of_call(file, address):
    """The entry of the table of addresses by which the code at an address goes on, or None."""
    data = file.bytes_at(address, 24)
    m = BY_SLOT[file.processor].match(data)
    if not m:
        return None
    if file.processor == "x86_64":
        return address + m.end() + signed_number(little_endian_word(m[1]), 32)
    return page_of_address(little_endian_word(m[1]),
                           address + m.start(1)) + ((little_endian_word(m[2]) >> 10 & 0xfff) << 3)


def why_export_leaves_texts(file, at, name, builds):
    """Why the exported function at an address does not go on in the code of the texts, or None."""
    m = JUMPS[file.processor].match(file.bytes_at(at, 80))
    if not m:
        return "the exported function is not the jump of c/choose.c"
    for build, data in m.groupdict().items():
        texts = builds.values() if build == "one" else [builds.get(build.rstrip("_"))]
        n = signed_number(little_endian_word(data or b"") << 2,
                          28) if file.processor == "aarch64" else 4 + signed_number(little_endian_word(data or b""), 32)
        if data and not any(text and at + m.start(build) + n in text.found[name] for text in texts):
            return "the exported function goes to other code"
    return None


def link_archive(data):
    """An archive of objects as a shared library."""
    at = data.find(b"\x7fELF")
    kind = ElfFile(data[at:]).processor
    with tempfile.TemporaryDirectory() as d:
        a, so = os.path.join(d, "a.a"), os.path.join(d, "a.so")
        with open(a, "wb") as file:
            file.write(data)
        subprocess.run([TOOLS[kind][1] + "ld", "-shared", "--whole-archive", "-o", so, a], check=True)
        with open(so, "rb") as file:
            return file.read()


def compare_code_with_texts(data, marks):
    """Of a file: the texts that it has, by their builds; of each exported call why its code is not that of the texts,
    None if it is, or no entry if the file has nothing like it; and whether its symbols name them. `marks` are functions
    of which each build has one, or something that resembles it."""
    file = ElfFile(data)
    texts = {build: assembled_text(path, file.processor) for build, path in BUILDS[file.processor].items()}
    for text in texts.values():
        text.compare(file)
    taken = {at for text in texts.values() for places in text.found.values() for at in places}
    builds = {build: text for build, text in texts.items()
              if any(text.found[name] or text.why_function_is_absent(name, file, taken) for name in marks)}
    symbols = {name: value for name, _, section, value, _ in file.symbols_of_all_tables() if section}
    whys = {}
    for name in sorted({n for text in builds.values() for n in text.functions if n.startswith(EXPORT)}):
        absent = {build: text.why_function_is_absent(name, file, taken) for build,
                  text in builds.items() if not text.found[name]}
        if name in symbols or len(absent) < len(builds) or any(absent.values()):
            missing = [f"for {build}: {why or 'it is not in the file'}" for build, why in absent.items()]
            whys[name] = "; ".join(missing) or (
                why_export_leaves_texts(file, symbols[name], name, builds) if name in symbols else None)
    return {build: BUILDS[file.processor][build] for build in builds}, whys, any(name in symbols for name in whys)
