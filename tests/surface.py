#!/usr/bin/env python3
"""Compares docs/SURFACE.tsv with the sources: each function of the headers for C has one row, each name of a row exists
in its language and each call in the conformance cases, and GLOSSARY.md has the table of these names.

    tests/surface.py            prints the Test Anything Protocol
    tests/surface.py --write    writes the table into docs/GLOSSARY.md
"""
import glob
import re
import subprocess
import sys

import tap
from common import TOP, read

GLOSSARY, PARAMETERS, BEGIN, END = (
    "docs/GLOSSARY.md", "## Names of parameters\n", "## Names of calls\n", "\n## Transcripts")
# Where each language declares what a program may call, and what a comment is there.
SOURCES = {
    "C++": (["c/include/vulfsjor.hpp"], r"/\*.*?\*/|//[^\n]*"),
    "Rust": (["rust/src/*.rs"], r"//[^\n]*"),
    "Python": (["python/vulfsjor/*.py*"], r'""".*?"""|#[^\n]*'),
    "JavaScript": (["js/index.d.ts"], r"/\*.*?\*/|//[^\n]*"),
    "case": (["tests/conformance/write.py"], None),
}


def surface_rows():
    head, *lines = (line.split("\t") for line in read("docs/SURFACE.tsv").splitlines() if not line.startswith("#"))
    for line in lines:
        if len(line) != len(head):
            sys.exit(f"docs/SURFACE.tsv: {line[1:2]} has {len(line)} columns")
        yield dict(zip(head, line))


def c_functions_of_row(row):
    """The functions of C that a row is about: one, or that of each family."""
    families = [""] if row["families"] == "-" else row["families"].split()
    return [row["C"].replace("blake2F", f"blake2{family}") for family in families]


def source_files_of_language(language):
    return " ".join(SOURCES[language][0])


def declared_words(language):
    """The words of a language's declarations, without comments; of the conformance cases the calls that they make."""
    patterns, comment = SOURCES[language]
    texts = (read(path[len(TOP) + 1:]) for pattern in patterns for path in sorted(glob.glob(f"{TOP}/{pattern}")))
    if not comment:
        return set(re.findall(r'(?<=")[a-z]+(?= )', " ".join(texts)))
    return set(re.findall(r"\w+", " ".join(re.sub(comment, " ", text, flags=re.DOTALL) for text in texts)))


def functions_without_one_row():
    """Functions of the headers without a row, and rows without a function or with two."""
    listed = subprocess.run(["bash", "-c", 'source "$0/tests/tap.sh"; functions_of_headers', TOP], check=True,
                            stdout=subprocess.PIPE, text=True).stdout
    there = sorted(name.removeprefix("vulfsjor_") for name in listed.split())
    found = sorted(name for row in surface_rows() for name in c_functions_of_row(row))
    wanted = ", ".join(f"{language} ({source_files_of_language(language)})" for language in SOURCES)
    yield from (f"docs/SURFACE.tsv has no row for vulfsjor_{name}, with a name, or why it has none, in {wanted}"
                for name in there if name not in found)
    yield from (f"docs/SURFACE.tsv: vulfsjor_{name} is in no header" for name in found if name not in there)
    yield from (f"docs/SURFACE.tsv has vulfsjor_{name} twice" for name in set(found) if found.count(name) > 1)


def names_absent_in_language(language):
    """Names of a column that its language does not have."""
    words = declared_words(language)
    for row in surface_rows():
        for family in row["families"].split():
            name = row[language].replace("F", family, 1) if re.search("[bB]lake2F", row[language]) else row[language]
            if not name.startswith("- ") and not set(name.split(".")) - {"Blake2" + family} <= words:
                yield (f"docs/SURFACE.tsv: {row['C']} is {name} in {language}, which is not in "
                       f"{source_files_of_language(language)}")


def is_named_alike(name, cells):
    """Whether each language that has a call names it as C does, in its own way to join words, or by a parameter, of
    which GLOSSARY.md has the names above."""
    parameters = re.findall(r"  (\w+)\b", read(GLOSSARY).partition(PARAMETERS)[2].partition(BEGIN)[0])

    def plain_name(word):
        return re.sub("^(blake2x?[bs]p?|tree)_", "", re.sub("(?<=[a-z])(?=[A-Z])", "_", word).lower())
    return all(cell.startswith("- ") or cell in parameters or plain_name(cell) == plain_name(name) for cell in cells)


def glossary_table():
    """The table of GLOSSARY.md: what several functions have under one name in each language is one row, and a call
    whose names are known has none."""
    columns = ("C", "C++", "Rust", "Python", "JavaScript")
    lines, seen = [columns], set()
    for row in surface_rows():
        family = row["families"].split()[0]
        name, *cells = (re.sub("(?<=lake2)F", family, row[language]) for language in columns)
        kind = name.partition("_")[2], *cells
        if kind not in seen and not is_named_alike(name, cells):
            lines.append([name, *(f"({text[2:]})" if text.startswith("- ") else text for text in cells)])
        seen.add(kind)
    widths = [max(map(len, column)) + 2 for column in zip(*lines)]
    return "".join("".join(map(str.ljust, line, widths)).rstrip() + "\n" for line in lines)


def stale_glossary():
    if read(GLOSSARY).partition(BEGIN)[2].partition(END)[0] != glossary_section():
        yield f"{GLOSSARY} is not as tests/surface.py --write makes it"


def glossary_section():
    return ("\nThe names in C follow `vulfsjor_`. What is in parentheses says why there is none. Rows of BLAKE2b are "
            "also those of the\nother hashes and of trees that have the call. [SURFACE.tsv](SURFACE.tsv) says which "
            "do, and has all calls, also those\nwithout a row here: each language that has one names it as C does, "
            "such as `save`, or by a parameter above.\n\n```text\n" + glossary_table() + "```\n")


def main():
    if sys.argv[1:] == ["--write"]:
        head, _, rest = read(GLOSSARY).partition(BEGIN)
        with open(f"{TOP}/{GLOSSARY}", "w", encoding="utf-8") as file:
            file.write(head + BEGIN + glossary_section() + END + rest.partition(END)[2])
        return
    for name, wrong in [("the functions of C", [*functions_without_one_row()]),
                        ("the table of GLOSSARY.md", [*stale_glossary()]),
                        *((f"the names in {it}", [*dict.fromkeys(names_absent_in_language(it))]) for it in SOURCES)]:
        tap.result(not wrong, name, "\n".join(wrong))
    tap.finish()


main()
