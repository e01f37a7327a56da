"""Reads the code and the constants of a file, which it assembles, links and disassembles, or a WebAssembly module."""

import functools
import hashlib
import os
import re
import struct
import subprocess
import sys
import tempfile
from typing import Any, Callable

import arm
import elf
import forms
import functions
import wasm
import x86
from elf import ROOT
from machine import MemoryRegion, load_address
from terms import CannotShow, IsWrong

sys.path.append(os.path.join(ROOT, "tools"))
import wasm_format  # noqa: E402
TOOLS: dict = {"x86_64": ([os.environ.get("CC", "cc")], "", ["-M", "intel"]),
         "aarch64": (["aarch64-linux-gnu-gcc"], "aarch64-linux-gnu-", [])}
MODELS = {"x86_64": x86, "aarch64": arm, "wasm": wasm}

NAMED = "dist/wasm/vulfsjor.wasm"      # the module that has names of functions
CODE, CONSTANTS = ".text", ".rodata"   # the sections of a linked file
# The sections of a file that a processor sees, by the start of their names, with their flags.
SECTIONS = ((CODE, elf.ALLOCATED | elf.EXECUTABLE), (CONSTANTS, elf.ALLOCATED | elf.MERGED))
IDENT, STACK_MARK = ".comment", ".note.GNU-stack"       # a section with the compiler, and a mark
# What the linker reads for branch protection: the kind of a processor's features, and those of all code.
MARKS = {"x86_64": (0xc0000002, 3), "aarch64": (0xc0000000, 1)}
# The directives that the files use. Each means the same to all assemblers, in all folders.
DIRECTIVES = frozenset("ascii asciz byte file globl hidden hword ident long p2align popsection quad "
                       "pushsection section short size type weak word xword zero".split())
OF_DATA = frozenset("ascii asciz byte hword long quad short word xword zero".split())
DIRECTIVE = re.compile(r"(?:^|[;/]|(?<!:lo12):)\s*\.([a-z]\w*)\b(?![\w.$]*\s*:)(?:\s+([\w.]+))?", re.I)
# A line that is a comment, or a string; and what the files do not have: what a preprocessor reads, comments, and other
# values of symbols.
IGNORED, OTHER = re.compile(r'^/\*[^*"]*\*/$|"(?:[^"\\]|\\.)*"'), re.compile(r"^\s*#|//|/\*|=")
# How instructions begin that processors of a file's level do not have: those with a prefix of AVX, and of AVX-512.
LATER = {"v2.s": re.compile(r"(?:66|67|f[023]|26|2e|36|3e|6[45])*(?:c[45]|62)"),
         "v3.s": re.compile(r"(?:66|67|f[023]|26|2e|36|3e|6[45])*62")}
OF_C = ("memcpy", "memmove", "memset")            # functions of the C library that the code calls
# The kinds of relocation that fill in 4 bytes of constants, R_X86_64_PC32 and R_AARCH64_PREL32. Any other: at most 8.
OF_FOUR_BYTES = (2, 261)
# What the linker fills in where the code calls a function or jumps to it.
OF_CALLS = ("R_X86_64_PLT32", "R_X86_64_PC32", "R_AARCH64_CALL26", "R_AARCH64_JUMP26")
# What the linker fills in where the code has the address of a constant.
OF_CONSTANTS = ("R_X86_64_PC32", "R_AARCH64_ADR_PREL_PG_HI21", "R_AARCH64_ADD_ABS_LO12_NC",
                "R_AARCH64_LDST64_ABS_LO12_NC", "R_AARCH64_LDST128_ABS_LO12_NC")
PREFIX = re.compile(r"66|67|f[023]|26|2e|36|3e|6[45]|4")     # of an instruction for x86-64
MAPPING = re.compile(r"\$[dx](\..*)?")                   # a symbol that says where code and data begin
LINE = re.compile(r"\s*([0-9a-f]+):\t([0-9a-f ]+?)\s*\t(.*)")


class NotAssembled(CannotShow):
    """The assembler or the linker refuses the file."""


PLAIN: dict = {}                       # the lines without directives that check_text has seen, by the processor
READ: set = set()                      # the paths of files that a check has read, for verdict_cache.py


def read(path: str) -> "Program":
    """The program of a file, which is read once. A module may have the names of another."""
    READ.update([path] if functions.architecture(path) != "wasm" else [path, NAMED])
    return read_once(path)


read_once: Callable = functools.lru_cache(maxsize=None)(lambda path: Program(path))


def editable_source(path: str) -> Any:
    """What is changed in a file: its text for ELF, or the lines of the functions of a module, by their names."""
    READ.add(path)
    kind = functions.architecture(path)
    return read(path).functions if kind == "wasm" else expanded(path, kind)


expanded = functools.lru_cache(maxsize=None)(elf.expanded)


@functools.lru_cache(maxsize=None)
def module_of(path: str) -> Any:
    """The module of a file. One of js/src has it in its text."""
    with open(os.path.join(ROOT, path), "rb") as f:
        data = f.read()
    try:
        return wasm_format.WasmModule(wasm_format.module_bytes_of_script(data.decode()) if path.endswith(".js")
                                      else data)
    except wasm_format.UnreadableModule as why:
        raise CannotShow(str(why)) from why


def unchanged(text: Any) -> Any:
    return text


class Program:
    """The functions of a file, by name without version, as lines of text. `edit` changes its editable_source()
    first."""

    def __init__(self, path: str, edit: Callable = unchanged) -> None:
        self.path, self.kind, self.is_original = path, functions.architecture(path), edit is unchanged
        self.model, self.width = MODELS[self.kind], 64
        self.codes: dict = {}          # what instructions_of() has read
        self.extents: dict = {}        # and address_range()
        self.contents: dict = {}       # what content_hash() has returned
        (self.read_module if self.kind == "wasm" else self.read_text)(edit)

    def read_module(self, edit: Callable) -> None:
        """The functions of a module. One without names has those of the module that it was made from, in order."""
        module = module_of(self.path)
        original = module if module.names else module_of(NAMED)
        names = original.names
        if len(original.functions) != len(module.functions):
            raise CannotShow("%s has %d functions, and dist/wasm/vulfsjor.wasm has %d" % (
                self.path, len(module.functions), len(original.functions)))
        self.width = module.width
        self.signatures = {names[k]: f for k, f in enumerate(module.functions)}
        if len(self.signatures) != len(module.functions):
            raise CannotShow("two functions of %s have one name" % self.path)
        self.functions = edit({n: f.lines for n, f in self.signatures.items()})

    def read_text(self, edit: Callable) -> None:
        text = edit(editable_source(self.path))
        check_text(text, self.kind)
        compiler, prefix, _ = TOOLS[self.kind]
        with tempfile.TemporaryDirectory() as d:
            s, o, so = (os.path.join(d, "a" + suffix) for suffix in (".s", ".o", ".so"))
            with open(s, "w") as f:
                f.write(text)
            link = [prefix + "ld", "-shared", "-z", "noexecstack", "-q", "-o", so, o]
            for command in compiler + ["-c", "-o", o, s], link:
                found = subprocess.run(command, stderr=subprocess.PIPE, text=True)
                if found.returncode:
                    raise NotAssembled(found.stderr.strip().split("\n")[-1])
            self.read_symbols(elf.Elf(o))
            linked = elf.Elf(so)
            with open(so, "rb") as f:
                self.linked = f.read()
        self.constants = constants(linked)
        self.symbols = [s for s in linked.symbol_places() if not MAPPING.fullmatch(s[3])]
        self.functions = dict.fromkeys(without_version(s[3]) for s in self.symbols if s[1] == CODE != s[3])

    def lines(self, name: str) -> list:
        """The lines of a function: of assembly those of objdump, once for all of a text that is not changed."""
        if self.functions[name] is None:
            start, end = self.address_range(name)
            shown = self.disassembled() if self.is_original else self.disassembled(
                "--start-address=%d" % start, "--stop-address=%d" % end)
            self.functions.update((n, lines) for n, lines in shown.items() if n in self.functions)
        return self.functions[name] or []

    def disassembled(self, *options: str) -> dict:
        """What objdump shows of functions."""
        _, prefix, style = TOOLS[self.kind]
        with tempfile.NamedTemporaryFile() as f:
            f.write(self.linked)
            f.flush()
            out = subprocess.run([prefix + "objdump", "-dzr", "--insn-width=16", *style, *options, f.name], check=True,
                                 stdout=subprocess.PIPE, text=True).stdout
        found: dict = {}
        for name, body in re.findall(r"^[0-9a-f]+ <(.*)>:\n((?:.+\n)*)", out, re.M):
            found.setdefault(without_version(name), []).extend(
                line for line in body.splitlines() if ":\t" in line or ": R_" in line)
        return found

    def read_symbols(self, file: elf.Elf) -> None:
        """The functions that other files may call, and the symbols that they define, of an object file. All that a
        processor sees must be code or constants that nothing writes."""
        kind, features = MARKS[self.kind]
        mark = ".note.gnu.property", struct.pack("<3I4s4I", 4, 16, 5, b"GNU", kind, 4, features, 0)
        for s in file.sections:
            is_mark = s.type == elf.NOTE and (s.name, s.data) == mark
            is_kept = s.size and s.flags & elf.ALLOCATED and not is_mark
            if s.type == elf.GROUP or not s.flags & elf.ALLOCATED and s.flags & elf.EXECUTABLE or (
                    is_kept and (s.type != elf.PROGBITS or not any(
                        s.name.startswith(name) and s.flags == flags for name, flags in SECTIONS))):
                raise IsWrong("the section %s has data, or code that may be overwritten, that "
                              "another file may replace, or that runs at the start" % s.name)
            if is_kept and s.flags & elf.MERGED and not s.unit == s.alignment:
                raise IsWrong("the constants of %s are merged by %d bytes, and aligned to %d" % (
                    s.name, s.unit, s.alignment))
            if s.size and not s.flags & elf.ALLOCATED and s.type == elf.PROGBITS and s.name != IDENT:
                raise CannotShow("it is not known what linkers do with the section %s" % s.name)
        if STACK_MARK not in [s.name for s in file.sections]:
            raise IsWrong("the file lets the linker make the stack executable")
        undefined = [s for s in file.symbols if s.section == elf.UNDEFINED and s.name]
        defined = [s for s in file.symbols if s.section != elf.UNDEFINED]
        for s in undefined:
            if s.binding != elf.GLOBAL or s.type != elf.NO_TYPE or s.name not in OF_C:
                raise IsWrong("%s may be absent, or is no function of the C library" % s.name)
        for s in defined:
            if not re.fullmatch(r"[\w.$]*", s.name):
                raise CannotShow("the symbol %s has other characters than names in C" % s.name)
            if without_version(s.name) in OF_C:
                raise IsWrong("%s has the name of a function of the C library" % s.name)
            if s.binding != elf.LOCAL and not s.is_hidden:
                raise IsWrong("another file may define %s too" % s.name)
        self.globals = sorted(without_version(s.name) for s in defined if s.binding != elf.LOCAL)
        self.external = {s.name for s in undefined} - {s.name for s in defined}
        self.callable = {s.name for s in file.symbols
                         if s.type == elf.FUNCTION and s.binding in (elf.LOCAL, elf.GLOBAL)}

    def called_function_name(self, i: Any, external: tuple) -> str:
        """The name without version of the function that a call or a jump goes to: to its start, or to one of these
        functions of another file, of whose names the file itself has none."""
        shown = require_match(r"<(.*)>", i.text)[1]
        name, _, rest = shown.partition("@")
        if rest == "plt" and name in self.external:
            if name in external:
                return name
            raise CannotShow("a call of %s" % name)
        name = without_version(shown)
        if name not in self.functions or self.address_range(name)[0] != i.target:
            raise IsWrong("it goes to %s, not to the start of a function" % shown)
        return name

    def instructions_of(self, name: str, user: str | None = None) -> list:
        """The instructions of a function. Each must have a form of forms.txt for its user, if there is one."""
        if name not in self.functions:
            raise CannotShow("%s has no function %s: the compiler may have inlined it, or it has "
                             "another name now: see tests/machine/functions.py" % (self.path, name))
        if name not in self.codes:
            self.codes[name] = wasm.parse(self.lines(name)) if self.kind == "wasm" else self.instructions(name)
        for i in self.codes[name] if user and self.kind != "wasm" else ():
            forms.check_form_is_known(self.kind, str(user), i.text)
        return self.codes[name]

    def instructions(self, name: str) -> list:
        start, end = self.address_range(name)
        later = LATER.get(self.path.rpartition("-")[2])
        found, filled = [], set()
        for line in self.lines(name):
            m = LINE.match(line)
            if not start <= int(m[1] if m else line.partition(":")[0], 16) < end:
                continue
            if m:
                i, data = self.model.Instruction(int(m[1], 16), m[3].strip()), m[2].replace(" ", "")
                i.next = i.address + len(data) // 2
                found.append(i)
                if later and later.match(data):
                    raise IsWrong("processors of the level of the file do not have %s" % i.text)
                if i.target is not None and self.kind == "x86_64" and PREFIX.match(data):
                    raise CannotShow("there is a prefix before a jump or a call: %s" % i.text)
            else:
                if found[-1] in filled:
                    raise CannotShow("the linker fills in two numbers of " + found[-1].text)
                self.check_relocation(found[-1], line)
                filled.add(found[-1])
        for i in found:
            if (i.name == "adrp" or "[rip" in i.text) and i not in filled:
                raise CannotShow("the linker does not fill in the address of " + i.text)
        if not found or [start] + [i.next for i in found] != [i.address for i in found] + [end]:
            raise CannotShow("objdump does not show all bytes of %s, one after the other" % name)
        return found

    def content_hash(self, name: str) -> str:
        """The hash of all that executing a function depends on: its instructions, and constants from its start on."""
        if name not in self.contents:
            found: tuple = self.kind, self.lines(name)
            if self.kind != "wasm":
                start, data = self.constants
                found = start - self.address_range(name)[0], data, [
                    m.groups()[1:] for m in map(LINE.match, self.lines(name)) if m]
            self.contents[name] = hashlib.sha256(repr(found).encode()).hexdigest()
        return self.contents[name]

    def address_range(self, name: str) -> tuple:
        """Where the code of a function begins and ends. No other symbol may be in it."""
        if name in self.extents:
            return self.extents[name]
        found = [s for s in self.symbols if without_version(s[3]) == name]
        if len(found) != 1:
            raise CannotShow("%s has %d symbols %s instead of one" % (self.path, len(found), name))
        start, section, size, symbol = found[0]
        if symbol not in self.callable:
            raise IsWrong("the symbol %s is not that of a function, which only this file defines" % symbol)
        # The symbol of the section itself may have the same address.
        others = [s[3] for s in self.symbols if s[1] == section and start <= s[0] < start + size
                  and s[3] not in (symbol, section)]
        if others:
            raise CannotShow("the symbol %s is inside of %s" % (others[0], name))
        self.extents[name] = start, start + size
        return self.extents[name]

    def check_relocation(self, i: Any, line: str) -> None:
        """Refuses a number that the linker fills in, except the address of a constant or of a called function."""
        at, kind, symbol, plus = require_match(r"([0-9a-f]+): (R_\w+)\t(.*?)([+-]0x[0-9a-f]+)?$", line).groups()
        symbols = [s for s in self.symbols if s[3] == symbol]
        if i.name in ("call", "bl", "b") or i.name.startswith("j"):
            is_right = kind in OF_CALLS
        else:
            is_right = kind in OF_CONSTANTS and {s[1] for s in symbols} == {CONSTANTS}
        if is_right and kind == "R_X86_64_PC32" and i.target is None:
            # The number is that of the address if it leads to where objdump says that it does.
            place = re.search(r"\[rip.*# ([0-9a-f]+)", i.text)
            is_right = place is not None and int(place[1], 16) == (
                symbols[0][0] + int(plus or "0", 0) + i.next - int(at, 16))
        if not is_right:
            raise CannotShow("the linker fills in a number of %s: %s of %s" % (i.text, kind, symbol))

    def instruction_texts(self, name: str) -> list:
        """The instructions of a function, as text without comments."""
        if self.kind == "wasm":
            return self.lines(name)
        comment = "#" if self.kind == "x86_64" else "//"
        return [" ".join(m[3].partition(comment)[0].split()) for m in map(LINE.match, self.lines(name)) if m]

    def constants_memory(self) -> dict:
        """The memory of the constants, by its address."""
        return {load_address(): MemoryRegion(0, 1 << 32, self.constant, False, (4096, 0))}

    def constant(self, address: int) -> int:
        start, data = self.constants
        if not start <= address < start + len(data) or data[address - start] is None:
            raise CannotShow("no constant is known at %#x" % address)
        return data[address - start]


@functools.lru_cache(maxsize=None)
def predefined_macros(kind: str) -> set:
    """The names that a compiler replaces in a text for its preprocessor, such as linux."""
    command = TOOLS[kind][0] + ["-dM", "-E", "-x", "assembler-with-cpp", os.devnull]
    found = subprocess.run(command, check=True, stdout=subprocess.PIPE, text=True).stdout
    return set(re.findall(r"^#define (\w+)", found, re.M))


def require_match(pattern: str, text: str) -> Any:
    m = re.search(pattern, text)
    if not m:
        raise CannotShow("%s has not the form %s" % (text, pattern))
    return m


def check_text(text: str, kind: str) -> None:
    """Refuses a text that other tools may read otherwise, and data between instructions: objdump shows some bytes as
    instructions that processors refuse."""
    section, plain = CODE, PLAIN.setdefault(kind, set())
    lines = [line for line in text.split("\n") if line not in plain]
    plain.update(line for line in lines if not directives(line, kind))
    for line in lines:
        for name, what in directives(line, kind):
            if name.endswith("section"):               # what popsection goes back to may be code
                section = what if what and name != "popsection" else CODE
            elif name in OF_DATA and not section.startswith((CONSTANTS, ".note")):
                raise CannotShow("there may be data between instructions: .%s in %s" % (name, section))


@functools.lru_cache(maxsize=None)
def directives(line: str, kind: str) -> list:
    """The directives of a line, each with the word behind it."""
    code = IGNORED.sub("", line)
    if OTHER.search(code):
        raise CannotShow("a comment, or a symbol with a value: %s" % line)
    replaced = predefined_macros(kind) & set(re.findall(r"[A-Za-z_]\w*", code))
    if replaced:
        raise CannotShow("a preprocessor replaces %s, and dist/vulfsjor.S includes the text" % min(replaced))
    found = [(m[1].lower(), m[2]) for m in DIRECTIVE.finditer(line)]
    if not DIRECTIVES.issuperset(name for name, _ in found):
        raise CannotShow("a directive that may mean something else to another assembler: %s" % line)
    return found


@functools.lru_cache(maxsize=None)
def without_version(name: str) -> str:
    """A function's name without the number of the code and the build."""
    return re.sub(r"_[0-9]+_[a-z0-9]+$", "", name)


def constants(file: Any) -> Any:
    """The address of a file's constants, and their bytes: None if the linker fills them in."""
    start, found = {s.name: (s.address, list(s.data)) for s in file.sections}.get(CONSTANTS, (0, []))
    for s in file.sections:
        for place, info, _ in struct.iter_unpack("<3Q", s.data) if s.type == elf.RELOCATIONS else ():
            end = place + (4 if info & 0xffffffff in OF_FOUR_BYTES else 8)
            for k in range(max(place - start, 0), min(end - start, len(found))):
                found[k] = None
    return start, found
