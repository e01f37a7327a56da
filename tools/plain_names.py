#!/usr/bin/env python3
"""Gives the symbols of an assembly text plain names that end in the number of the code and the build:

    tools/plain_names.py _1_v3 [THEIRS..] [NAME=OURS..] <module.s >file.s

Rattle's names stand in quotes, as "blake2_compress::many::blake2b::outputs::<=64>", which not every assembler takes.
This one becomes blake2_compress..many..blake2b..outputs..64_1_v3. Exported names and local labels get the end too, so
that several such texts can stand in one program, and in one run of an assembler. Exported names are hidden: a program's
objects see them, and a shared library that is linked from them does not export them. Of each function THEIRS, by its
name in Rattle, which C has instead, the text calls one that it has not, and exports the proved one as NAME::proved. A
call of the function NAME elsewhere, such as read, becomes one of OURS. Nothing else changes: the instructions stay as
they are, and so do the names of other functions elsewhere, such as memcpy.
"""
import re
import sys

IS_DATA = re.compile(r"\t\.(?:ascii|asciz|ident|file)\t")
EXPORT = "\t.globl\t"


def assembler_name(name):
    """The name with .. for :: and a dot for each other run of what no assembler takes in a name."""
    return re.sub(r"\W+", lambda run: ".." if run[0].startswith("::") else ".", name).rstrip(".")


def label_lines(lines):
    return [line for line in lines if re.match(r'["\w.][^\t]*:$', line)]


def refuse_unexpected_functions(lines, names):
    """Refuses a text that has one of these functions itself, or has not exactly one proved one, exported, and a
    call."""
    for name in names:
        found = [line[1:-2] for line in lines if re.fullmatch(rf'"{name}(::<.*>)?(::proved)?":', line)]
        outside = found[0].removesuffix("::proved") if found else ""
        called = any(re.fullmatch(rf'\t(callq|jmp|bl?)\t"{re.escape(outside)}"(@PLT)?', line) for line in lines)
        if found != [f"{outside}::proved"] or f'{EXPORT}"{found[0]}"' not in lines or not called:
            sys.exit(f"plain_names.py: C cannot have the function {name}")


def redirect_calls(lines, ours):
    """The lines, with calls of these functions elsewhere instead of others."""
    calls, found = re.compile(rf"(?<![\w.:])(?:{'|'.join(ours)})(?![\w.:])"), set()

    def replacement_name(name):
        found.add(name[0])
        return ours[name[0]]

    renamed = [line if not ours or IS_DATA.match(line) else calls.sub(replacement_name, line) for line in lines]
    for name in ours.keys() - found:
        sys.exit(f"plain_names.py: {name} is never called")
    return renamed


def main():
    end, ours = sys.argv[1], dict(word.split("=") for word in sys.argv[2:] if "=" in word)
    lines = redirect_calls(sys.stdin.read().split("\n"), ours)
    refuse_unexpected_functions(lines, [word for word in sys.argv[2:] if "=" not in word])
    exported = "|".join(re.escape(line[len(EXPORT):]) for line in lines if line.startswith(EXPORT))
    names = re.compile(rf'"([^"]*::[^"]*)"|\b(?:{exported})\b')
    renamed = [line if IS_DATA.match(line) else
               names.sub(lambda it: assembler_name(it[1] or it[0]) + end,
                         re.sub(r"(?<![\w.])\.L", f".L{end[1:]}_", line))
               for line in lines]
    if len(set(label_lines(renamed))) != len(label_lines(lines)):
        sys.exit("plain_names.py: two names would be one")
    hidden = [line.replace(EXPORT, "\t.hidden\t") if line.startswith(EXPORT) else None for line in renamed]
    sys.stdout.write("\n".join(it for pair in zip(renamed, hidden) for it in pair if it is not None))


main()
