#!/usr/bin/env python3
"""Runs the scripts that write dist/ on the texts of tests/generators.txt:

    tests/generators.py

Each case of that file is a command of tools/, a text, and what the script makes of it, or the words with which it
refuses the text. The texts of today's compiler reach few of these refusals.
"""
import re
import subprocess
import sys
from pathlib import Path

from tap import finish, result

TOP = Path(__file__).resolve().parent.parent
# The lines of an exported function that come before its code and after it.
HEAD = ("\t.section\t.text.{0},\"ax\",@progbits\n\t.globl\t{0}\n\t.hidden\t{0}\n\t.p2align\t{1}\n"
        "\t.type\t{0},@function\n{0}:\n")
END = ".L{0}_func_end0:\n\t.size\t{0}, .L{0}_func_end0-{0}\n\n"
CASE = re.compile(r"(?ms)^== (.*?): (.*?)\n(.*?)^(gives|refuses:(.*?))\n(.*?)(?=^== |\Z)")


def expand_head_marks(text):
    text = re.sub(r"(?m)^<< (.*)\n", lambda it: HEAD.format(it[1], 2 if "a64" in it[1] else 4), text)
    return re.sub(r"(?m)^>> (.*)\n", lambda it: END.format(it[1]), text)


def generator_cases():
    """Name, command, text, wanted text and words of a refusal of each case. The words are None if it is not refused."""
    text = (TOP / "tests/generators.txt").read_text()
    found = CASE.findall(text)
    if len(found) != text.count("\n== "):
        sys.exit("tests/generators.txt: a case has no command or no end")
    for name, command, given, end, words, wanted in found:
        yield name, command.split(), expand_head_marks(given), wanted, words.strip() if end != "gives" else None


def difference_from_expected(command, given, wanted, words):
    """What the script does with the text that it should not do, or nothing."""
    script, *arguments = command
    words_of_sed = ["sed", "-f"] if script.endswith(".sed") else []
    ran = subprocess.run([*words_of_sed, str(TOP / "tools" / script), *arguments], input=given, text=True,
                         capture_output=True)
    if words is not None:
        is_refused = ran.returncode == 1 and (words_of_sed or words in ran.stderr)
        return "" if is_refused else f"not refused: status {ran.returncode}, {ran.stderr}{ran.stdout}"
    is_right = (ran.returncode, ran.stderr, ran.stdout.rstrip("\n")) == (0, "", wanted.rstrip("\n"))
    return "" if is_right else f"status {ran.returncode}, {ran.stderr}{ran.stdout}instead of\n{wanted}"


def main():
    scripts = set()
    has_gnu_sed = "GNU" in subprocess.run(["sed", "--version"], capture_output=True, text=True).stdout
    for name, command, given, wanted, words in generator_cases():
        scripts.add(command[0])
        if command[0].endswith(".sed") and not has_gnu_sed:
            result(True, name, skipped="sed is not GNU sed")
            continue
        why = difference_from_expected(command, given, wanted, words)
        result(not why, f"{command[0]}: {name}", why)
    edits = {path.name for path in (TOP / "tools").glob("*.sed")}
    unread = edits | {"plain_names.py", "clear_registers.py", "object_formats.py"}
    result(unread <= scripts, "each script has cases", f"none: {unread - scripts}")
    finish()


main()
