#!/usr/bin/env python3
"""Makes the files of BLAKE2s, BLAKE2sp and BLAKE2Xs in crates/ from those of BLAKE2b, BLAKE2bp and BLAKE2Xb, which have
the same names with a b for the s, and in files that have both, the paragraphs of the one family from those of the
other. tools/twins.txt says what else differs, and what is written by hand.

    tools/twins.py            makes them, removes those of files that are gone, and prints their names
    tools/twins.py --check    compares them with what would be made, and .gitattributes with them
"""
import difflib
import functools
import os
import re
import sys
from fnmatch import fnmatchcase

from read_sources import TOP, read

TABLE = "tools/twins.txt"
MADE = "Made by tools/twins.py from"
# What a paragraph is called: a heading of the header of C, or the name that it defines.
CALLED = re.compile(r"(?m)^(?:/\* -- (?=BLAKE2)|(?:[\w ]+ )?(?=vulfsjor_\w+(?:\(| \{)))(\w+)"
                    r"|^(?:    )?(?:pub(?:\(\w+\))? )?fn (\w+)")
# The names of the second family.
OTHERS = re.compile(r"(?i)blake2x?s")

# A line with the number 2 that ends with a comma, one that has 3 for that, and none with 4.
LEAVES = re.compile(r"(?m)^(.*)\b2\b(.*,\n)\1\b3\b.*\n(?!\1\b4\b)")


def expand_leaf_lines(match):
    """What lines for leaves 2 and 3 become: those for leaves 2 to 7."""
    second = match[1] + "2" + match[2]
    return "".join(re.sub(r"\b2\b", str(k), second) for k in range(2, 8))


class TwinTable:
    """The table: which files are written by hand, and what becomes what in which files."""

    def __init__(self):
        self.by_hand, self.in_part, self.lines, self.used, files = (), {}, [], set(), ()
        for line in re.split(r"(?<!\\)\n", re.sub(r"(?m)^#(?: .*)?\n", "", read(TABLE))):
            word, _, rest = line.partition(": ")
            old, arrow, new = line.replace("\\\n", "\n").partition(" ~> ")
            if word == "by hand":
                self.by_hand += tuple(rest.split())
            elif word == "paragraphs":
                path, origin, *names = rest.replace("\\\n", " ").split()
                self.in_part[path] = (origin, names)
            elif word == "in":
                files = tuple(rest.split())
            elif line:
                self.lines.append((files, old, new if arrow else old))

    @functools.cache
    def replacements_for_file(self, path):
        """What is replaced in this file, and by what, and a pattern for it."""
        fitting = {files: path_matches_any(path, files) for files, _, _ in self.lines}
        here = {old: (new, i) for i, (files, old, new) in enumerate(self.lines) if fitting[files]}
        return here, re.compile("|".join(map(whole_text_pattern, sorted(here, key=len, reverse=True))))

    def twin_text(self, path, text):
        """A text of this file, or its path itself, for the other family."""
        here, pattern = self.replacements_for_file(path)

        def replace(match):
            new, line = here[match[0]]
            self.used.add(line)
            return new

        return LEAVES.sub(expand_leaf_lines, pattern.sub(replace, text))

    def generated_files(self):
        """The files to make, with their texts."""
        for path in source_files():
            other = self.twin_text(path, path)
            if other != path and not path_matches_any(path, self.by_hand):
                line = f"{'//' if path.endswith('.rt') else '--'} {MADE} {path.split('/', 2)[2]}.\n"
                yield other, line + self.twin_text(path, read(path))
        for path in self.in_part:
            yield path, "\n\n".join(text for _, text in self.paragraphs_as_generated(path)) + "\n"

    def generated_paragraphs(self, path):
        """The paragraphs of this file that are made, by name, and the names of new ones by those above them."""
        origin, by_hand = self.in_part[path]
        made, new, above = {}, {}, None
        here = {name_of_paragraph(it) for it in split_paragraphs(path)}
        for text in split_paragraphs(origin):
            name = name_of_paragraph(text)
            twin = name and self.twin_text(origin, name)
            if name and (twin != name or path != origin) and twin not in by_hand:
                made[twin] = self.twin_text(origin, text)
                if twin not in here:
                    new[above] = twin
            above = twin
        return made, new

    def paragraphs_as_generated(self, path):
        """The paragraphs of this file with their names, as they should be. One that is new follows the twin of the one
        above its own."""
        made, new = self.generated_paragraphs(path)
        for text in split_paragraphs(path):
            name = name_of_paragraph(text)
            yield name, made.get(name, text)
            while name := new.get(name):
                yield name, made[name]

    def errors_in_generated_parts(self):
        """What files that are made in part have too much, or have no place for."""
        for path, (origin, by_hand) in self.in_part.items():
            made, _ = self.generated_paragraphs(path)
            names = [name for name, _ in self.paragraphs_as_generated(path)]
            yield from (f"{path} has no place for {name}: write its first line there" for name in made
                        if name not in names)
            yield from (f"{path}: {name} is made from nothing in {origin}" for name in names
                        if name and path == origin and OTHERS.search(name) and name not in [*made, *by_hand])
            indent = " " * (4 if path.endswith(".h") else 8)
            yield from (f"{file} has an empty line in a function, above {text.strip().partition(chr(10))[0]!r}"
                        for file in {path, origin} for text in split_paragraphs(file) if text.startswith(indent))
            either = [*names, *map(name_of_paragraph, split_paragraphs(origin))]
            yield from (f"{TABLE}: neither {path} nor {origin} has {name}" for name in by_hand if name not in either)
            yield from (f"{path} has {name} more than once" for name in made if names.count(name) > 1)

    def unused_table_lines(self):
        """What the table replaces and no file has, and its patterns of files that are there no longer."""
        yield from (old for i, (_, old, _) in enumerate(self.lines) if i not in self.used)
        yield from (it for it in self.by_hand if not any(path_matches_any(path, [it]) for path in source_files()))


def path_matches_any(path, patterns):
    return any(fnmatchcase("/" + path, pattern if pattern[0] == "/" else "/crates/" + pattern) for pattern in patterns)


def split_paragraphs(path):
    """The paragraphs of a file, which empty lines are between."""
    return read(path).removesuffix("\n").split("\n\n")


def name_of_paragraph(paragraph):
    match = CALLED.search(paragraph)
    return match and (match[1] or match[2])


@functools.cache
def whole_text_pattern(old):
    """A pattern for this text, in which a number at an end is no part of a word, another number or an exponent."""
    return ((r"(?<![\w^])(?<!\d\.)" if old[0].isdigit() else "") + re.escape(old)
            + (r"(?!\w)" if old[-1].isdigit() else ""))


@functools.cache
def source_files():
    return [f"{folder}/{name}"[len(TOP) + 1:] for crate in sorted(os.listdir(f"{TOP}/crates"))
            for part in ("src", "specs", "proofs") for folder, _, names in os.walk(f"{TOP}/crates/{crate}/{part}")
            for name in names if name.endswith((".rt", ".antt"))]


def generated_attribute_patterns():
    """The patterns of .gitattributes for crates/, and whether what has one is generated."""
    for line in read(".gitattributes").splitlines():
        if line.startswith("crates/"):
            pattern, _, attribute = line.partition(" ")
            parts = re.split(r"(\*\*/|/\*\*$|\*)", pattern)
            parts[1::2] = [{"**/": "(.*/)?", "/**": "/.*", "*": "[^/]*"}[it] for it in parts[1::2]]
            parts[::2] = map(re.escape, parts[::2])
            yield pattern, "".join(parts), attribute == "linguist-generated"


def wrong_generated_attributes(made):
    """What .gitattributes says otherwise than that these files are generated."""
    patterns, deciding = list(generated_attribute_patterns()), set()
    for path in source_files():
        *before, (last, _, generated) = [("", "", False), *(it for it in patterns if re.fullmatch(it[1], path))]
        if before and generated != before[-1][2]:
            deciding.add(last)
        if generated != (path in made):
            yield f".gitattributes says that {path} is {'made' if generated else 'written by hand'}"
    yield from (f".gitattributes: {it} changes nothing" for it, _, _ in patterns if it not in deciding)


def main(checks):
    table = TwinTable()
    made = dict(table.generated_files())
    wrong = sorted(path for path, text in made.items() if read(path) != text)
    gone = sorted(path for path in source_files() if MADE in read(path).partition("\n")[0] and path not in made)
    faults = [f"{TABLE}: no file has {old!r}" for old in table.unused_table_lines()]
    if checks:
        for path in wrong:
            lines, wanted = read(path).splitlines(True), made[path].splitlines(True)
            sys.stdout.writelines(difflib.unified_diff(lines, wanted, path, "as made", n=0))
        faults += [f"{path} is not as it is made: change what it is made from, or {TABLE}, and run tools/twins.py"
                   for path in wrong]
        faults += [f"{path} is made from no file: run tools/twins.py" for path in gone]
        faults += table.errors_in_generated_parts()
        faults += wrong_generated_attributes([path for path in made if path not in table.in_part])
    else:
        for path in wrong:
            os.makedirs(os.path.dirname(f"{TOP}/{path}"), exist_ok=True)
            with open(f"{TOP}/{path}", "w", encoding="utf-8") as file:
                file.write(made[path])
        for path in gone:
            os.remove(f"{TOP}/{path}")
        print("".join(f"{path}\n" for path in wrong + gone), end="")
    sys.exit("\n".join(faults) or 0)


if __name__ == "__main__":
    if sys.argv[1:] not in ([], ["--check"]):
        sys.exit("usage: tools/twins.py [--check]")
    main(bool(sys.argv[1:]))
