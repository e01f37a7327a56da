#!/usr/bin/env python3
"""Writes an assembly text for ELF, as tools/plain_names.py leaves it, as one for every object format:

    tools/object_formats.py [SHARED..] <elf.s >file.s

Every instruction stays, except that a jump by a table of a program needs no landing pad for branch protection: it gets
the prefix notrack, or on ARM is a ret by its register. Directives and operands that differ between ELF, Mach-O and COFF
become macros of the assembler, whose names begin with vj_: dist/README.md lists them, and dist/x86_64/*.inc and
dist/aarch64/*.inc define them. Labels of code become numbers, which are local in every format: 12f is the next 12, and
12b the last one. Each function counts from
1. The names of constants stay. A line that is not known here is refused.

SHARED are functions of the library that hash for the programs. A program calls those of the library's build; for x86-64
those of the build that the processor runs.
"""
import re
import sys

NAME = r"[A-Za-z_][\w.]*"
# The head of a function: its section, whether it is exported, its alignment, its type and its label.
HEAD = re.compile(rf"\t\.section\t\.text\.(unlikely\.)?({NAME}),\"ax\",@progbits\n(\t\.globl\t\2\n\t\.hidden\t\2\n)?"
                  r"\t\.p2align\t(\d)\n\t\.type\t\2,@function\n\2:\n")
END = re.compile(rf"(\.L\w*func_end\d+):\n\t\.size\t({NAME}), \1-\2\n\n?")
STARTS = re.compile(r"\tvj_(?:function|cold|export|shared)\t")
DATA = re.compile(r"\t\.section\t\.(rodata|data\.rel\.ro)\.([\w.]+),\"aM?w?\",@progbits(?:,(\d+))?")
NUMBERS = {".hword": ".short", ".word": ".long", ".xword": ".quad"}
KEPT = {".p2align", ".byte", ".short", ".long", ".quad", ".zero", *NUMBERS}
DROPPED = re.compile(r"\t\.(?:ident|file)\t.*|\t\.section\t\".note.GNU-stack\",\"\",@progbits"
                     r"|\t\.type\t\.L[\w.]+,@object|\t\.size\t\.L[\w.]+, \d+")
CALL = re.compile(rf"\t(callq|jmp|bl|b)\t({NAME})(?:@PLT)?")
C_LIBRARY = {"memcpy", "memmove", "memset"}
# Functions of the system, and what c/b2.c has for Windows instead.
OF_SYSTEM = {"read": "b2_read", "write": "b2_write", "__write": "b2_write", "__sysv_signal": "b2_signal"}
LOCAL = re.compile(r"(?<![\w.])\.L[\w.]+")
# What a preprocessor changes: its own lines, comments, and names that GCC defines.
PREPROCESSED = re.compile(r"^\s*#|//|/\*|\b(?:linux|unix|i386)\b")
# The ends of the names of programs, and of those of the library's builds for the processor.
BUILDS = {"_x86": ("_v2", "_v3", "_v4"), "_a64": ("_arm",)}


def refuse_unknown_line(line):
    sys.exit(f"object_formats.py: what is {line.strip()}?")


def local_label_of_line(line):
    """The name of a local label, if the line is one."""
    return line[:-1] if re.fullmatch(r"\.L[\w.]+:", line) else None


class AssemblyText:
    """A text whose functions have macros as heads and ends."""

    def __init__(self, text, shared):
        self.alignment = "2" if "\n\tret\n" in text else "4"
        self.ending = re.search(r"(?m)^\t\.globl\t\w+?(_\d+_[a-z0-9]+)$", text)[1]
        self.shared, self.called = {name + self.ending for name in shared}, set()
        text = END.sub(r"\tvj_end\t\2\n", HEAD.sub(self.function_head, text))
        self.defined = set(re.findall(rf"(?m)^\tvj_(?:function|cold)\t({NAME})$", text))
        self.exported = set(re.findall(rf"(?m)^\tvj_(?:export|shared)\t({NAME})$", text))
        if any(re.match("[lL]", name) for name in self.defined):
            sys.exit("object_formats.py: in Mach-O a name with l or L is a label")
        self.pieces, self.constants = [[]], set()
        for line in text.rstrip("\n").split("\n"):
            if STARTS.match(line):
                self.pieces.append([])
            self.pieces[-1].append(line)
        for piece in self.pieces:
            self.constants.update(filter(None, map(local_label_of_line, piece[self.end_of_function(piece):])))

    def function_head(self, found):
        """The head of a function. An exported one is in no section of its own for what is seldom called."""
        cold, name, exported, alignment = found.groups()
        if alignment != self.alignment or (cold and exported):
            refuse_unknown_line(found[0])
        kind = "shared" if name in self.shared else "export"
        return f"\tvj_{kind if exported else 'cold' if cold else 'function'}\t{name}\n"

    @staticmethod
    def end_of_function(piece):
        """Where the function ends that a piece begins with."""
        return next((at for at, line in enumerate(piece) if line.startswith("\tvj_end\t")), 0)

    def function_piece(self, piece):
        """A function and what follows it up to the next one, such as its tables of jumps."""
        used = {name for line in piece if not local_label_of_line(line) for name in LOCAL.findall(line)}
        places = {name: at for at,
                  line in enumerate(piece[:self.end_of_function(piece)]) if (name := local_label_of_line(line))}
        numbers = {name: str(count) for count, name in enumerate((it for it in places if it in used), 1)}

        def numbered_reference(found, at):
            name = found[0]
            if name in numbers:
                return numbers[name] + ("f" if places[name] > at else "b")
            return name if name in self.constants else refuse_unknown_line(piece[at])

        for at, line in enumerate(piece):
            name = local_label_of_line(line)
            if name in places:
                if name in numbers:
                    yield f"{numbers[name]}:"
            elif re.match(r"\t\.asci[iz]\t", line):
                yield line
            elif not DROPPED.fullmatch(line):
                if PREPROCESSED.search(line) and piece is not self.pieces[0]:
                    refuse_unknown_line(line)
                yield LOCAL.sub(lambda it: numbered_reference(it, at), self.line(line))

    def line(self, line):
        """A line in which the labels are still those for ELF."""
        directive = re.match(r"\t(\.\w+)\t(.*)", line)
        if not directive:
            return line if line.startswith(("\tvj_", ".L", "/*")) or not line else self.instruction(line)
        word, rest = directive.groups()
        if word == ".section":
            return self.section(line)
        return f"\t{NUMBERS.get(word, word)}\t{rest}" if word in KEPT else refuse_unknown_line(line)

    def section(self, line):
        """Where constants are: merged ones by their size, and those that the linker fills in."""
        kind, name, size = (DATA.fullmatch(line) or refuse_unknown_line(line)).groups()
        if size:
            return f"\tvj_constants\t{size}" if name == f"cst{size}" else refuse_unknown_line(line)
        name = name.removeprefix(".L").removesuffix(self.ending) + self.ending
        return f"\tvj_{'data' if kind == 'rodata' else 'relocated'}\t{name}"

    def instruction(self, line):
        call = CALL.fullmatch(line)
        if call and call[2] not in self.defined | self.exported - self.shared:
            word, name = "call" if call[1] in ("callq", "bl") else "jump", call[2]
            if name in self.shared:
                self.called.add(name)
                name = name if len(self.names_in_library(name)) > 1 else self.names_in_library(name)[0]
            if name in C_LIBRARY:
                return f"\tvj_c_{word}\t{name}"
            return f"\tvj_system_{word}\t{name}, {OF_SYSTEM[name]}" if name in OF_SYSTEM else f"\tvj_{word}\t{name}"
        # A jump by a table needs no landing pad.
        line = re.sub(r"^\tjmpq\t\*(%\w+)$", r"\tnotrack\tjmpq\t*\1", line)
        line = re.sub(r"^\tbr\t(x\d+)$", r"\tret\t\1", line)
        line = re.sub(rf"^\tadrp\t(\w+), (\.?{NAME})$", r"\tvj_page\t\1, \2", line)
        line = re.sub(rf"^\tldr\t(\w+), \[(\w+), :lo12:(\.?{NAME})\]$", r"\tvj_load\t\1, \2, \3", line)
        line = re.sub(rf"^\tadd\t(\w+), (\w+), :lo12:(\.?{NAME})$", r"\tvj_address\t\1, \2, \3", line)
        of_elf = re.search(r"@|:lo12:|:got|\tadrp\t", line) or not re.match(r"\t[a-z]", line)
        return refuse_unknown_line(line) if of_elf or self.exported & set(re.findall(NAME, line)) else line

    @staticmethod
    def names_in_library(name):
        """What the library's builds call a function that a text calls."""
        end = "_" + name.rpartition("_")[2]
        return [name.removesuffix(end) + build for build in BUILDS.get(end, (end,))]

    def build_choosing_functions(self):
        """The functions that jump to those of the library's build."""
        for name in sorted(self.called):
            names = self.names_in_library(name)
            if len(names) > 1:
                yield f"\tvj_choose\t{', '.join((name, *names))}"

    def translated_text(self):
        lines = [line for piece in self.pieces
                 for line in self.function_piece(piece)] + [*self.build_choosing_functions()]
        return [it for line in lines for it in ([line, ""] if line.startswith("\tvj_end\t") else [line])]


def main():
    sys.stdout.write("\n".join(AssemblyText(sys.stdin.read(), sys.argv[1:]).translated_text()) + "\n")


main()
