#!/usr/bin/env python3
"""Compares what dist/c/vulfsjor.c overwrites of the stack with what its functions use, for a compiler:

    tests/portable_stack.py dist/c/vulfsjor.c USAGE

USAGE is the file .su that the compiler writes with -fstack-usage. A function that calls one of SCRUB has called others
before, which may have left a key below it: the deepest of them, with all that they call, must reach no further down
than SCRUB overwrites, and no function may use more than MOST. Prints each of these functions; the status is 1 if one
reaches further.
"""
import functools
import re
import sys

MOST = 16 << 10  # bytes, as docs/PORTABLE.md says


def read_text(path):
    with open(path, encoding="utf-8") as file:
        return file.read()


def main():
    text = read_text(sys.argv[1])
    frames = {}  # of the function that is compiled for a call, such as NAME.constprop.0, too
    for name, size in re.findall(r":(\w+)(?:\.[\w.]+)?\t(\d+)\t", read_text(sys.argv[2])):
        frames[name] = max(int(size), frames.get(name, 0))
    scrubbed = {name: int(length) for name, length in re.findall(r"^SCRUB\((\w+), (\d+)\)$", text, re.MULTILINE)}
    bodies = dict(re.findall(r"^APART \w+ (\w+)\([^{]*\{\n(.*?)^\}$", text, re.MULTILINE | re.DOTALL))
    calls = {name: {*re.findall(r"\b(\w+)\(", body)} & {*bodies, *scrubbed} for name, body in bodies.items()}

    @functools.cache
    def stack_depth(name, overwritten):
        """What a call uses, with those of SCRUB or without them. The compiler leaves out a function whose result is a
        number."""
        below = [stack_depth(it, overwritten) for it in calls.get(name, set()) - {*scrubbed}]
        below += [scrubbed[it] for it in calls.get(name, set()) & {*scrubbed} if overwritten]
        return frames.get(name, 0) + max(below, default=0)

    failed = not scrubbed or len(frames) < len(bodies) / 2
    for name, callees in sorted((name, callees) for name, callees in calls.items() if callees & {*scrubbed}):
        used = max((stack_depth(it, False) for it in callees - {*scrubbed}), default=0)
        for each in sorted(callees & {*scrubbed}):
            failed = failed or used > scrubbed[each]
            print(f"{name}: {used} bytes below it, {scrubbed[each]} overwritten{' TOO FEW' * (used > scrubbed[each])}")
    deepest = max((stack_depth(name, True), name) for name in bodies)
    print(f"{deepest[1]}: {deepest[0]} bytes, of at most {MOST}")
    sys.exit(failed or deepest[0] > MOST)


main()
