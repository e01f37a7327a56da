#!/usr/bin/env python3
"""Lets functions of an assembly text clear the vector registers xmm16 to xmm31, in all their 512
bits, before they return:

    tools/clear_registers.py <module.s >file.s

Each function clears those that it uses, since they hold words of a message or of a key. The
functions scrub_stack, which end each call with a key, clear all of them, since memcpy of the C
library uses them too. A function that has to clear some and ends in a jump to another function is
refused.
"""
import re
import sys

UPPER = re.compile(r"%[xyz]mm(1[6-9]|2[0-9]|3[01])\b")
KEYED = re.compile(r'"blake2_digest::wiping::scrub_stack::.*":')
TAIL = re.compile(r"\tj\w+\t(?!\.L)")


def with_clearing_instructions(lines):
    """The lines of a function, with the instructions that clear."""
    used = {int(number) for line in lines for number in UPPER.findall(line)}
    if any(map(KEYED.fullmatch, lines)):
        used = set(range(16, 32))
    if used and (any(map(TAIL.match, lines)) or "\tretq" not in lines):
        sys.exit("clear_registers.py: a jump leaves a function that has to clear registers")
    zeros = [f"\tvpxord\t%xmm{n}, %xmm{n}, %xmm{n}" for n in sorted(used)]
    return [part for line in lines for part in ([*zeros, line] if line == "\tretq" else [line])]


def main():
    lines = []
    for line in sys.stdin.read().split("\n"):
        lines.append(line)
        if line.startswith(".Lfunc_end"):
            print("\n".join(with_clearing_instructions(lines)))
            lines = []
    print("\n".join(lines), end="")


main()
