#!/usr/bin/env python3
"""Compares the pages with the sources: what they name, quote and link is there, and their numbers are those of the
definitions, of the code and of bench/results/. Each check below says what it compares.

usage: tests/pages.py
"""
import functools
import os
import re
import subprocess
import sys

import tap
from common import TOP, Unreadable, read
import reference
from page_numbers import wrong_numbers_in_pages
from page_packages import wrong_platform_cells, wrong_system_names, wrong_numbers_in_packages, wrong_parameter_names
from page_sources import single_spaced, files_matching
from page_speeds import wrong_ratios_in_results
from read_sources import heading_anchor, modules_of_crate, definitions_of_crate

WORD = re.compile(r"`([^`]+)`")
FUNCTION = r"^///.*?^}$"
# What several types of states have, each under the name of its own file.
OF_EACH_TYPE = ("HasAbsorbed", "HasAbsorbedPrefix", "IsReady", "IsReadyFor", "count", "future", "meaning",
                "start_count", "started", "zeros")


def markdown_pages():
    return files_matching("*.md") + files_matching("*/*.md") + files_matching("crates/*/*.md") + files_matching(
        "tests/*/*.md")


def clause_names_by_function():
    """The names of the clauses of each function, by its name. Functions of one name share them."""
    found = {}
    roots = files_matching("crates/*/src/lib.rt") + files_matching("crates/*/src/main.rt")
    kept = [item for root in roots for module in modules_of_crate(root) for item in module.items]
    while kept:
        item = kept.pop()
        kept += item.items_in_body() if item.kind in ("impl", "trait") else ()
        if item.kind == "fn":
            names = re.findall(r"\bensures\s+(\w+)\s*\{", "\n".join(item.head))
            found.setdefault(item.name, set()).update(names)
    return found


def check_cited_clauses_exist():
    """The clauses that the pages name"""
    known = clause_names_by_function()
    for page in markdown_pages():
        for name, clause in re.findall(r"`(?:\w+::)*(\w+): (\w+)`", read(page)):
            if clause not in known.get(name, ()) and name != "function":
                yield f"{page}: there is no clause `{name}: {clause}`"


def check_cited_edits_exist():
    """The must-fail edits that docs/REVIEW.md names"""
    edits = re.findall(r"\| `(\w+)`, `(\w+)` \|$", read("docs/REVIEW.md"), re.MULTILINE)
    for crate, name in edits:
        if not files_matching(f"crates/{crate}/must-fail/{name}.edit"):
            yield f"REVIEW: there is no crates/{crate}/must-fail/{name}.edit"
    if not edits:
        yield "REVIEW: no must-fail edit"


def check_edit_texts_are_unique():
    """The texts that must-fail edits replace, each of which is once in its file"""
    for path in files_matching("crates/*/must-fail/*.edit"):
        text = old = ""
        for line in read(path).splitlines():
            word, _, rest = line.partition(": ")
            if word == "file":
                text = read(f"{path.partition('/must-fail/')[0]}/{rest}")
            elif word == "old":
                old = rest
                if text.count(old) != 1:
                    yield f"{path}: its file has {text.count(old)} times {old!r}"
            elif word == "new":
                text = text.replace(old, rest)


def check_definition_names_are_unique():
    """The names of definitions: in the crates that one file imports, each stands for one thing"""
    crates = [path.split("/")[1] for path in files_matching("crates/*/specs/Lib.antt")]
    owners = {}
    for crate in crates:
        for word in definitions_of_crate(crate):
            owners.setdefault(word.name, set()).add(crate)
    imported = {frozenset([path.split("/")[1], *re.findall(r"\b(\w+)(?:\.|::)specs\b", read(path))])
                for end in ("antt", "rt") for path in files_matching(f"crates/**/*.{end}") if "/out/" not in path}
    for name, having in sorted(owners.items()):
        together = any(len(having & crates) > 1 for crates in imported)
        if together and name not in OF_EACH_TYPE:
            yield f"{name} stands for things of {', '.join(sorted(having))}, which one file imports"
        elif not together and name in OF_EACH_TYPE:
            yield f"{name} is of one crate"


def lines_without_unbreakable(path):
    """The lines of a file, without what can't be broken: in a page, rows of tables, code, and targets of links; in
    Rattle, attributes, which `rt fmt` joins."""
    text = read(path)
    if path.endswith(".md"):
        text = re.sub(r"^ *\|.*|\]\([^)\n]*\)|^\[.*\]: .*", "", text, flags=re.MULTILINE)
        text = re.sub(r"^```.*?^```$", lambda code: "\n" * code[0].count("\n"), text, flags=re.MULTILINE | re.DOTALL)
    elif path.endswith(".rt"):
        text = re.sub(r"^#\[.*", "", text, flags=re.MULTILINE)
    return text.split("\n")


def check_lines_fit_columns():
    """The lines: at most 100 columns in code and definitions of Rattle, and 120 in scripts and pages"""
    rattle = [path for part in ("src/**/*.rt", "specs/*.antt") for path in files_matching(f"crates/*/{part}")
              if "_tests/" not in path]
    scripts = [path for end in ("py", "sh") for path in files_matching(f"**/*.{end}") if "/out/" not in path]
    for limit, files in ((100, rattle), (120, scripts + markdown_pages())):
        for path in files:
            for number, line in enumerate(lines_without_unbreakable(path), 1):
                if len(line) > limit and " " in line.strip():
                    yield f"{path}:{number}: {len(line)} columns"


def check_named_files_exist():
    """The files and crates that the pages for contributors name"""
    for page in ("docs/REVIEW.md", "docs/PORTABLE.md", "CONTRIBUTING.md"):
        for word in WORD.findall(read(page)):
            is_file = re.fullmatch(r"[\w./-]+/[\w./-]+\.(?:rt|antt|edit|py|sh|h|svg|md)", word) and "NAME" not in word
            places = [before + word for before in ("", "crates/", "crates/*/", "crates/*/src/")]
            if is_file and not any(map(files_matching, places)):
                yield f"{page}: there is no {word}"
    for crate in files_matching("crates/*"):
        if f"`{os.path.basename(crate)}`" not in read("CONTRIBUTING.md").partition("## The folders")[0]:
            yield f"CONTRIBUTING: the list of crates has no `{os.path.basename(crate)}`"


# A command in a sentence or in a line of its own, and words before its program.
COMMANDS = re.compile(r"`([^`\n]+)`|^(?!\|)(?:    )?([^`\n]+)$", re.MULTILINE)
PREFIX = re.compile(r"(?:\w+=(?:'[^']*'|\S*)|nice|sudo|env|time|!|-n|[0-9]+)\s+")


def programs_run_in_page(page):
    """The programs of the repository that the page tells to run: in a line, or in a sentence with arguments."""
    for inline, line in COMMANDS.findall(read(page)):
        for command in re.split(r"&&|\|\||[|;]", inline or line):
            command = command.strip()
            while PREFIX.match(command):
                command = PREFIX.sub("", command, count=1)
            program, _, rest = command.partition(" ")
            is_path = re.fullmatch(r"(?:\./|[a-z_.-]+/)+[\w.-]+\.(?:py|sh|mjs)|\./\w+", program)
            if is_path and (rest or line or program.startswith("./")):
                yield program


def check_programs_can_run():
    """The commands of the pages: each program of the repository is there, and can be run"""
    count = 0
    for page in markdown_pages():
        for program in programs_run_in_page(page):
            count += 1
            found = [path for path in (program, os.path.join(os.path.dirname(page), program))
                     if os.path.isfile(os.path.join(TOP, path))]
            if not found and program.startswith("./"):
                count -= 1  # the reader's own
            elif not found:
                yield f"{page}: there is no {program}"
            elif not os.access(os.path.join(TOP, found[0]), os.X_OK):
                yield f"{page}: {program} cannot be run: it has no run bit"
    if count < 50:
        yield f"tests/pages.py reads only {count} commands in the pages"


def check_crate_dependencies():
    """The dependencies of the crates: hex is the only crate of the kit, and b2 needs none of b2sum's"""
    rows = (line.split(":") for line in read("crates.txt").splitlines() if line)
    needs = {name.split()[0]: set(rest.split()) for name, rest in rows}
    if len(needs) != len(files_matching("crates/*")):
        yield f"crates.txt: {len(needs)} crates"
    for crate, used in needs.items():
        of_sums = {other for other in used if other.startswith("b2sum") and not crate.startswith("b2sum")}
        for other in used - needs.keys() - {"hex"} | of_sums:
            yield f"crates.txt: {crate} needs {other}"


def page_without_code(page):
    return re.sub(r"^```.*?^```$", "", read(page), flags=re.MULTILINE | re.DOTALL)


@functools.cache
def heading_anchors(path):
    """The anchors of a page's headings, as a browser of the repository makes them."""
    return set(map(heading_anchor, re.findall(r"^#+ (.+)$", page_without_code(path), re.MULTILINE)))


def links_in_page(page):
    """The links of a page: text, path, and name of a heading, of which the last two may be empty. One whose target is
    elsewhere on the page (`[text][label]` and `[label]: target`) has a path that does not exist if that is absent."""
    text = page_without_code(page)
    named = dict(re.findall(r"(?m)^\[([^]]+)\]: (\S+)$", text))
    used = re.findall(r"\[([^]]*)\]\[([^]]+)\]", text)
    yield from re.findall(r"\[([^]]*)\]\(([^)#]*)(?:#([^)]*))?\)", text)
    yield from ((shown, *named.get(label, f"[{label}]").partition("#")[::2]) for shown, label in used)
    yield from ((label, f"text with [{label}]", "") for label in named.keys() - {label for _, label in used})


def check_links_have_targets():
    """The links"""
    for page in markdown_pages():
        for text, target, name in links_in_page(page):
            path = os.path.normpath(os.path.join(os.path.dirname(page), target)) if target else page
            last = re.fullmatch(r"`(?:[\w.]+::)*(\w+)`", text)
            if "://" in target:
                continue
            if not os.path.exists(os.path.join(TOP, path)):
                yield f"{page}: there is no {target}"
            elif name and name not in heading_anchors(path):
                yield f"{page}: {path} has no heading for #{name}"
            elif path.endswith((".rt", ".antt")) and last and not re.search(rf"\b{last[1]}\b", read(path)):
                yield f"{page}: {path} does not have {last[1]}"


def check_quoted_rust_is_in_sources():
    """The Rust in pages of the crates"""
    sources = [single_spaced(read(path)) for path in (*files_matching("crates/blake2_examples/src/*.rt"),
                                                   "crates/blake2_kat/src/readme.rt")]
    for page in files_matching("crates/*/CALLING.md"):
        blocks = re.findall(r"^```rust\n(.*?)^```$", read(page), re.M | re.S)
        for block in blocks:
            is_file = block.startswith("#![tactic")  # tests/calling.sh compiles it, with what it uses
            quotes = re.findall(FUNCTION if is_file else rf"^use .*?;$|{FUNCTION}", block, re.M | re.S)
            if not any(all(single_spaced(quote) in source for quote in quotes) for source in sources):
                yield f"{page}: no source has all of this block: {block.splitlines()[0]}"
            if not quotes:
                yield f"{page}: a block without a function"
        if not blocks:
            yield f"{page}: no quote"


def check_copied_crates_are_complete():
    """The crates that CALLING.md copies, with those that they depend on"""
    below = dict(re.findall(r"^(\w+):(.*)$", read("crates.txt"), re.M))
    copied = re.search(r"^for crate in (.*)$", read("crates/blake2/CALLING.md"), re.M)[1].split()
    for crate in copied:
        for other in {*below.get(crate, "no such crate").split()} - {*copied, "hex"}:  # which the toolchain has
            yield f"crates/blake2/CALLING.md copies {crate}, which needs {other}"


reference_pages = functools.cache(reference.crate_pages)


def check_public_items_have_comments():
    """The doc comments of public items and definitions"""
    return [line for page in reference_pages() for line in page.wrong]


def check_reference_names_and_links():
    """The links of the reference, and that it has each name"""
    files = reference.html_by_file(reference_pages())
    places = {name: set(re.findall(r' id="([^"]*)"', text)) for name, text in files.items()}
    for name, text in files.items():
        for link in re.findall(r'<a href="([^"]*)"', text):
            path, _, place = link.partition("#")
            if not (place in places.get(path or name, ()) if place else path in files or "://" in path or
                    os.path.exists(os.path.normpath(os.path.join(TOP, reference.FOLDER, path)))):
                yield f"{name}: there is no {link}"
    found = files["index.html"].count("<li><a href=")
    wanted = sum(len(page.names) + len(page.words) for page in reference_pages())
    if found != wanted or found < 1000:
        yield f"index.html has {found} names of {wanted}"


def check_no_symlinks_or_merge_marks():
    """No symbolic link, which the toolchain refuses, and no mark of a merge that was left open"""
    def lines(*words):
        return subprocess.run(["git", "-C", TOP, *words], stdout=subprocess.PIPE, text=True).stdout.splitlines()
    return [*(line for line in lines("ls-files", "--stage") if line.startswith("120000 ")),
            *lines("grep", "-nIE", "^(<{7}|>{7})( |$)")]


def main():
    if sys.argv[1:]:
        sys.exit("usage: tests/pages.py")
    for check in (check_cited_clauses_exist, check_cited_edits_exist, check_edit_texts_are_unique,
                  check_definition_names_are_unique, check_lines_fit_columns, check_named_files_exist,
                  check_crate_dependencies, check_links_have_targets, check_quoted_rust_is_in_sources,
                  check_copied_crates_are_complete, wrong_ratios_in_results, wrong_numbers_in_pages,
                  wrong_parameter_names,
                  wrong_numbers_in_packages, check_programs_can_run, check_public_items_have_comments,
                  check_reference_names_and_links, wrong_system_names, wrong_platform_cells,
                  check_no_symlinks_or_merge_marks):
        absent = check is check_no_symlinks_or_merge_marks and not os.path.exists(os.path.join(TOP, ".git"))
        try:
            wrong = [] if absent else list(check())
        except Unreadable as error:
            wrong = [str(error)]
        except (LookupError, TypeError, ValueError) as error:
            wrong = [f"a page or a source has another form than this check reads: {error!r}"]
        tap.result(not wrong, check.__doc__, "\n".join(wrong), "no git repository" if absent else "")
    tap.finish()


main()
