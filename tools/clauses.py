#!/usr/bin/env python3
"""Says which clauses and conjuncts of crates are needed: without which the proofs fail.

    tools/clauses.py [--minutes N] [--alone] [--list] CRATE..

In a copy of the crates it puts ⊥ → ⊥, which says nothing, in the place of an `ensures`, and proves the functions whose
code names that one. It does so for many functions at a time, of which no two are named by the same one, so that each
proof that fails needs one clause. Clauses that no such proof needs are then taken away together, and the crate is
checked with those above it (--alone: without), by halves while that fails. Last comes each conjunct of a definition and
each field of a record, one at a time. It prints a line for each: `needed`, with the first function or file that fails,
or `UNNEEDED`. Nobody needs what is UNNEEDED: it is a promise to users, which an edit has to hold
(crates/*/must-fail), or it is dead. A proof file of another function that gives a fact by name also fails without it.
So `needed` is no more than that, and a line of a proof file is worth a look.
"""

import argparse
import collections
import pathlib
import re
import shutil
import subprocess
import sys
import tempfile
import time

ROOT = pathlib.Path(__file__).resolve().parent.parent
BRACES = r"\{(?:[^{}]|\{(?:[^{}]|\{[^{}]*\})*\})*\}"
FUNCTION = r"^ *(?:pub(?:\(\w+\))? )?(?:const |unsafe |extern \"C?\" )*fn (\w+)"
VERDICT = re.compile(r"^fn (?:\S*?\bfn::(\w+)::\S*|(?:\S*::)?(\w+)): (.*)", re.M)
REFUSED = re.compile(r"^\./proofs/(?:\S+/)?(\w+)/\w+\.antt:\d+:\d+: error: (?!.* declarations? that depend)", re.M)
FAILED = re.compile(r"^(?:fn (\S+): no|(\./\S+\.antt):\d+:\d+: error)", re.M)

# What can be taken away: a part of a file, of a function if it is a clause, and how it is printed.
Part = collections.namedtuple("Part", "file start end function clause shown")


def ensures_clauses(file, text):
    """Yields what is between the braces of each `ensures` of a source."""
    function = ""
    for word in re.finditer(rf"{FUNCTION}|^\s+ensures(?: (\w+))? ({BRACES})", text, re.M):
        function = word[1] or function
        if word[3]:
            shown = f"{function} ensures {word[2] or ''}".rstrip()
            yield Part(file, word.start(3) + 1, word.end(3) - 1, function, word[2] or "", shown)


def record_facts_and_conjuncts(file, text):
    """Yields each field of a record that is a fact, and each conjunct of a definition that stands on its own line."""
    name = ""
    lines = re.finditer(r"^(?:abbrev |pub |record )+(\w+)|^  pub (\w+) : (.*(?:\n      .*)*)|^    × (.*(?:\n     .*)*)",
                        text, re.M)
    for line in lines:
        if line[1]:
            name = line[1]
        elif line[3] and re.search(r"[≡≤<→]|^[A-Z]\w+ \w", line[3]) and not re.match(r"(List|Option) ", line[3]):
            yield Part(file, line.start(3), line.end(3), "", "", f"{name}.{line[2]}")
        elif line[4] and not re.match(r"\(\w+ : ", line[4]) and line[4].count("(") == line[4].count(")"):
            yield Part(file, line.start(4), line.end(4), "", "", f"{name} × {line[4][:40]}")


def callers_and_check_names(src):
    """Returns, for each function of sources by its name, the functions whose code may call it, since that has its name
    before `(`, after `::` or as an argument, and how `rt check --only` names it: its module if others have its name."""
    code, by, places = collections.defaultdict(str), collections.defaultdict(set), collections.defaultdict(list)
    for file in src.glob("**/*.rt"):
        text = re.sub(r"//.*|\"(?:\\.|[^\"\\])*\"|'(?:\\.|[^'\\])'", '""', file.read_text())
        text = re.sub(r"\b(?:ensures|requires|invariant|ghost)\b[^{};]*" + BRACES, "", text)
        _, *words = re.split(FUNCTION, text, flags=re.M)
        for name, own in zip(words[::2], words[1::2]):
            places[name].append("::".join(file.relative_to(src).with_suffix("").parts))
            code[name] += own + (" from(" if "?" in own else "")
    for name, own in code.items():
        for words in re.findall(r"\b(\w+)\s*\(|::(\w+)|[(,]\s*(\w+)\)", own):
            by["".join(words)].add(name)
    return {name: by[name] - {name} for name in code}, \
        {name: {*found} if len(found) > 1 else {name} for name, found in places.items()}


def crate_and_its_users(crate):
    """Returns a crate and those that use it, lowest first, as crates.txt has them."""
    uses = {}
    for line in (ROOT / "crates.txt").read_text().splitlines():
        name, _, rest = line.partition(":")
        if rest or name:
            uses[name.split()[0]] = rest.split()
    found = [crate]
    while more := [c for c, below in uses.items() if c not in found and set(below) & set(found)]:
        found.append(next(c for c in more if not set(uses[c]) & set(more)))
    return found


def texts_without_parts(parts):
    """Returns the texts of files without these parts, and without what proofs of their own functions answer to them."""
    texts = {}
    for part in sorted(parts, key=lambda it: -it.start):
        text = texts.get(part.file) or part.file.read_text()
        texts[part.file] = f"{text[:part.start]}(⊥ → ⊥){text[part.end:]}"
        of = pathlib.Path(re.sub(r"(?:lib|main)?\.rt$", "", str(part.file).replace("/src/", "/proofs/")))
        for answers in of.glob(f"**/{part.function}/Answers.antt") if part.function else ():
            gone = rf"pub returns\S*-clause-{part.clause} " if part.clause else r"pub returns(?!\S*-clause-)"
            answered = re.split(r"(?<=\n)(?=\n)", texts.get(answers) or answers.read_text())
            texts[answers] = "".join(it for it in answered if not re.match(gone, it.lstrip()))
    return texts


def check_crate_without_parts(folder, parts, words=()):
    """Runs `rt check` in a crate without these parts, and returns its status and what it said."""
    texts = texts_without_parts(parts)
    were = {file: file.read_text() for file in texts}
    for file, text in texts.items():
        file.write_text(text)
    ran = subprocess.run(["rt", "check", *words], cwd=folder, capture_output=True, text=True)
    for file, text in were.items():
        file.write_text(text)
    return ran.returncode, ran.stdout + ran.stderr


def failures_without_parts(folders, parts=()):
    """Returns what fails in crates without these parts, or nothing."""
    for folder in folders:
        status, said = check_crate_without_parts(folder, parts)
        if status:
            first = FAILED.search(said)
            return f"{folder.name}: {(first[1] or first[2]) if first else f'status {status}'}"
    return ""


def independent_parts(parts, by):
    """Returns parts that may go together: no two of a function or with a caller in common, and no caller's own."""
    taken, used = {}, set()
    for part in sorted(parts, key=lambda it: -len(by[it.function])):
        if not ({part.function} & (taken.keys() | used) or by[part.function] & (taken.keys() | used)):
            taken[part.function] = part
            used |= by[part.function]
    return [*taken.values()]


def parts_with_their_needs(folder, parts, by, places):
    """Takes these parts away and proves their functions' callers. Yields each part with what needs it: nothing if all
    are proved, and `?` if one cannot be, for what it calls."""
    names = sorted(set().union(*(by[it.function] for it in parts)))
    status, said = check_crate_without_parts(folder, parts, [it for name in names for place in places[name]
                                                             for it in ("--only", place)])
    if status not in (0, 1, 3):
        sys.exit(f"rt check of {folder.name} ended with status {status}:\n{said[-2000:]}")
    results = collections.defaultdict(str)
    for line in VERDICT.finditer(said):
        results[line[1] or line[2]] += "" if line[3] == "proved" else "?" if "it calls" in line[3] else "no"
    for name in REFUSED.findall(said):
        results[name] += "no"
    for part in parts:
        own = {name: results[name] for name in (part.function, *sorted(by[part.function]))}
        yield part, next((name for name, it in own.items() if "no" in it), "?" if any(own.values()) else "")


def removable_parts(folders, parts, is_late):
    """Yields each part with what fails without it, or nothing if all may go: together, or else by halves."""
    if not parts or is_late():
        return
    why = failures_without_parts(folders, parts)
    if why and len(parts) > 1:
        yield from removable_parts(folders, parts[:len(parts) // 2], is_late)
        yield from removable_parts(folders, parts[len(parts) // 2:], is_late)
    else:
        yield from ((part, why) for part in parts)


def parts_with_verdicts(folders, parts, is_late):
    """Yields parts of a crate with what needs them, or nothing: its clauses, and then those of its definitions."""
    by, places = callers_and_check_names(folders[0] / "src")
    free = [it for it in parts if it.function and not by[it.function]]
    rest, tried = [it for it in parts if it.function and by[it.function]], 0
    while rest and not is_late():
        left, again = rest, []
        while left and not is_late():
            now = independent_parts(left, by)
            left = [it for it in left if it not in now]
            for part, why in parts_with_their_needs(folders[0], now, by, places):
                if why not in ("", "?"):
                    yield part, f"{folders[0].name}: {why}"
                else:
                    (again if why and len(rest) != tried else free).append(part)
        rest, tried = again, len(rest)
    yield from removable_parts(folders, free, is_late)
    for part in parts:
        if not part.function:
            yield from removable_parts(folders, [part], is_late)


def main():
    parser = argparse.ArgumentParser(description=__doc__, formatter_class=argparse.RawDescriptionHelpFormatter)
    parser.add_argument("crates", nargs="+", metavar="CRATE")
    parser.add_argument("--minutes", type=float, default=600, help="begin no check after this time")
    parser.add_argument("--alone", action="store_true", help="leave out the crates above")
    parser.add_argument("--list", action="store_true", help="list the clauses, and check none")
    options = parser.parse_args()
    end = time.monotonic() + 60 * options.minutes
    counts = {"needed": 0, "UNNEEDED": 0, "left": 0}
    with tempfile.TemporaryDirectory() as folder:
        crates = pathlib.Path(folder, "crates")
        shutil.copytree(ROOT / "crates", crates, ignore=shutil.ignore_patterns("out"))
        for name in ("crates.txt", "HANDLES"):
            shutil.copy(ROOT / name, folder)
        for crate in options.crates:
            folders = [crates / it for it in crate_and_its_users(crate)][:1 if options.alone else None]
            files = sorted(it for it in folders[0].glob("s*/**/*") if it.suffix in (".rt", ".antt"))
            parts = [it for file in files
                     for it in (ensures_clauses if file.suffix == ".rt"
                                else record_facts_and_conjuncts)(file, file.read_text())]
            counts["left"] += len(parts)
            if failed := not options.list and failures_without_parts(folders):
                sys.exit(f"the crates have to pass as they are: {failed}")
            found = parts_with_verdicts(folders, parts,
                                        lambda: time.monotonic() > end) if not options.list else zip(parts, parts)
            for part, why in found:
                result = "left" if options.list else "needed" if why else "UNNEEDED"
                counts["left"] -= 1
                counts[result] += 1
                place = f"{result} {part.file.relative_to(crates)} {part.shown}"
                print(f"{place}: {why}" if result == "needed" else place, flush=True)
    print(", ".join(f"{count} {result}" for result, count in counts.items()))


if __name__ == "__main__":
    main()
