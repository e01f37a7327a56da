#!/usr/bin/env python3
"""Tests that the lines of a file that are marked as wrong get an error or a warning with the message that the mark
names (a regular expression), and no other line does:

    c/tests/wrong_lines.py FILE FOLDER/include STANDARD COMPILER..

A line that is wrong ends with `// NO: MESSAGE`, or with `// NO(WORD): MESSAGE` if only a compiler with this word
refuses it: clang, or a feature of C++. COMPILER.. is what comes before the options."""

import re
import subprocess
import sys

WARNINGS = "-Wall -Wextra -Wpedantic -Wconversion -Wsign-conversion -Wshadow -Wno-comment".split()


def compiler_messages_by_line(compiler, options, path):
    """What the compiler says of each line, with the notes and the lines of headers that follow it; what it says of
    headers by line 0."""
    every = "-ferror-limit=0" if "clang" in compiler[0] else "-fmax-errors=0"
    said = subprocess.run([*compiler, *options, *WARNINGS, every, "-c", "-o", "/dev/null", path], capture_output=True,
                          text=True, check=False).stderr
    about, line = {}, 0
    for text in said.splitlines():
        place = re.match(r"(\S+):(\d+):\d+: (?:fatal )?(error|warning): ", text)
        if place:
            line = int(place[2]) if place[1] == path else 0
        about[line] = about.get(line, "") + text + "\n"
    return about


def mismatch_with_mark(text, mark, said):
    """What is wrong with what is said of a line, or nothing."""
    if not mark:
        return said and "is refused"
    if not re.search(mark, said, re.S):
        return "is not refused, or with another message"
    is_silent = mark == "deleted" and "nullptr" not in text and "pass bytes(buffer, length)" not in said
    return is_silent and "does not say what to pass"


def main():
    path, include, standard, *compiler = sys.argv[1:]
    options = [f"-std={standard}", f"-I{include}"]
    macros = subprocess.run([*compiler, *options, "-dM", "-E", path], capture_output=True, text=True,
                            check=False).stdout
    about = compiler_messages_by_line(compiler, options, path)
    others = about.pop(0, "")  # of headers, where a warning may be of a line that is refused
    print(others)
    wrong, marked = int(": error: " in others), 0
    with open(path, encoding="utf-8") as file:
        for number, text in enumerate(file, 1):
            mark = re.search(r"; // NO(?:\((\w+)\))?: (.*)", text)
            if mark and mark[1] and not re.search(rf" __(cpp_)?{mark[1]}(__)? ", macros):
                mark = None
            marked += bool(mark)
            reason = mismatch_with_mark(text, mark and mark[2], about.get(number, ""))
            if reason:
                wrong += 1
                print(f"{number}: {reason}: {text.strip()}\n{about.get(number, '')}")
    print(f"{marked} lines are refused, {wrong} not as they should be")
    return bool(wrong) or marked < 35


if __name__ == "__main__":
    sys.exit(main())
