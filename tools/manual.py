#!/usr/bin/env python3
"""Makes the man pages docs/b2.1 and docs/b2sum.1 from docs/B2.md and docs/B2SUM.md, without the sections on this
repository, and those of the library, c/man/*.3, from its headers.

    tools/manual.py            writes them
    tools/manual.py --check    compares them with what would be written, and with what mandoc or man says of them
"""
import os
import re
import shutil
import subprocess
import sys
import textwrap

from read_sources import TOP, Unreadable, read, version

DATE = "2026-11-26"
# For each program its page, what it does, and what to see also.
PROGRAMS = {
    "b2": ("docs/B2.md", "BLAKE2 digests, tags, transcripts and hash trees of standard input",
           "b2sum openssl\\-dgst"),
    "b2sum": ("docs/B2SUM.md", "print and check BLAKE2 digests of files", "b2 cksum b3sum"),
}
LEFT_OUT = ("Building", "What is proved", "See also")
# Those of the library.
HEADERS = ("c/include/vulfsjor.h", "c/include/vulfsjor_threads.h")
# Each page: which functions it has, without vulfsjor_, and what they are. The last has what is left.
PAGES = {
    **{f"vulfsjor_blake2{name}": (rf"blake2{name}(?:_.*)?", f"BLAKE2{name}: {what}")
       for names, what in (("b s bp sp", "digests and MACs"), ("xb xs", "outputs and keys of any length"))
       for name in names.split()},
    "vulfsjor_tree": (r"tree_.*", "roots of trees of two levels over BLAKE2b"),
    "vulfsjor": (r".*", "BLAKE2 hashes and message authentication codes"),
}
COMMENT = r"/\*((?:(?!\*/).)*)\*/\n"
FUNCTION = re.compile(COMMENT + r"((?:[A-Z_]+(?:\([0-9, ]*\))?\s+)*(?:static inline )?"
                      r"[a-z][\w ]*?[ *]vulfsjor_(?!ffi_)(\w+)\([^;{}]*\))(?: \{|;)", re.S)


def escaped_for_man(text):
    """The text, escaped for a line of a man page."""
    return re.sub(r"^([.'])", r"\\&\1", text.replace("\\", "\\e").replace("-", "\\-"), flags=re.MULTILINE)


def format_inline(text):
    """A paragraph with its code and bold words in bold, and its links as their words. One in parentheses is left out,
    since it is to a page that is not installed, or to another section."""
    text = re.sub(r" ?\(\[[^]]*\]\([^)]*\)\)", "", " ".join(text.split()))
    text = escaped_for_man(re.sub(r"\[([^]]*)\]\([^)]*\)", r"\1", text))
    return re.sub(r"\*\*(.+?)\*\*|`(.+?)`", lambda match: f"\\fB{match[1] or match[2]}\\fR", text)


def format_block(part):
    lines = part.splitlines()
    if part.startswith("    "):
        return "\n".join([".PP", ".EX", *(escaped_for_man(line[4:].replace("./b2", "b2")) for line in lines), ".EE"])
    if part.startswith("### "):
        return ".SS " + format_inline(part[4:])
    if not part.startswith("|"):
        return ".PP\n" + format_inline(part.replace("./b2", "b2"))
    rows = [[cell.strip() for cell in line.strip("|").split(" | ")] for line in lines[2:]]
    if not all(len(row) in (2, 3) for row in rows):
        raise Unreadable(f"docs/B2.md: a row of the table {lines[0]!r} does not have two or three cells")
    last = [row if len(row) == 2 else [f"{row[1]} (status {row[0].strip()})", row[2]] for row in rows]
    return "\n".join(f".TP\n{format_inline(head)}\n{format_inline(text)}" for head, text in last)


def manual(name):
    """The text of the man page of a program."""
    page, title, others = PROGRAMS[name]
    made = [f'.\\" Made from {page} by tools/manual.py.\n.TH {name.upper()} 1 {DATE} "Vulfsjor {version()}"',
            f".SH NAME\n{name} \\- {title}"]
    for section in re.split(r"^## ", read(page), flags=re.MULTILINE)[1:]:
        title, text = section.split("\n", 1)
        if title not in LEFT_OUT:
            made.append("\n".join([f".SH {title.upper()}", *map(format_block, re.split(r"\n\n+", text.strip("\n")))]))
    others = "".join(f".BR {other} (1),\n" for other in others.split())
    return re.sub(r"(\.S[HS] .*)\n\.PP", r"\1", "\n".join(made)) + f"\n.SH SEE ALSO\n{others}RFC 7693\n"


# ---- of the library

def comment_lines(comment):
    return [re.sub(r"^ ?\* ?", "", line) for line in comment.strip().replace("this file", "vulfsjor.h").split("\n")]


def header_functions():
    """The functions of the headers: for each the name without vulfsjor_, the prototype, and the comment's lines."""
    for header in HEADERS:
        for comment, head, name in FUNCTION.findall(read(header)):
            if not comment.startswith(" Internal:"):
                prototype = re.sub(r"^(?:[A-Z_]+(?:\([0-9, ]*\))?\s+|static inline )*", "", head)
                yield name, " ".join(prototype.split()).replace("( ", "("), comment_lines(comment)


def man_paragraphs(lines):
    """Paragraphs of a comment as those of a man page: text, items of lists, and code."""
    for part in re.split(r"\n\n+", "\n".join(lines)):
        if re.match(r" +(?!- )\S", part):
            yield "\n".join([".PP", ".EX", escaped_for_man(textwrap.dedent(part)), ".EE"])
            continue
        text, *items = re.split(r"\n *- ", "\n" + part)
        yield from (".PP\n" + escaped_for_man(it) for it in [" ".join(text.split())] if it)
        for item in items:
            # What follows the items is less indented than they are.
            own, *rest = re.split(r"\n(?=\S)", item, maxsplit=1)
            yield ".IP \\(bu 2\n" + escaped_for_man(" ".join(own.split()))
            yield from (".PP\n" + escaped_for_man(" ".join(it.split())) for it in rest)


def prototype_lines(prototype):
    """The lines of a prototype, which end with an argument."""
    yield ".PP"
    for line in textwrap.wrap(re.sub("(?<!,) ", "\0", f"{prototype};"), 76, subsequent_indent="    "):
        yield f'.B "{escaped_for_man(line)}"'.replace("\0", " ")


def introduction_of_header(header):
    """The paragraphs of the first comment of a header."""
    return man_paragraphs(comment_lines(re.match(COMMENT, read(header), re.S)[1]))


def page(name, found):
    names = [name, *(it for it in (f"vulfsjor_{each}" for each, *_ in found) if it != name)]
    headers = ["vulfsjor.h", *(["vulfsjor_threads.h"] if name.endswith("tree") else [])]
    made = [f'.\\" Made from {HEADERS[0]} by tools/manual.py.',
            f'.TH {name.upper()} 3 {DATE} "Vulfsjor {version()}"', ".ad l", ".nh", ".SH NAME",
            f"{', '.join(names)} \\- {PAGES[name][1]}", ".SH SYNOPSIS", ".nf",
            *(f".B #include <{header}>" for header in headers),
            *(line for _, prototype, _ in found for line in prototype_lines(prototype)), ".fi", ".SH DESCRIPTION"]
    made += introduction_of_header(HEADERS[0]) if name == "vulfsjor" else [
        ".PP\nSee\n.BR vulfsjor (3)\nfor null pointers, states, errors and secrets."]
    for each, _, lines in found:
        made += [f".SS vulfsjor_{each}()", *man_paragraphs(lines)]
    if len(headers) > 1:
        made += [f".SS {headers[1]}", *introduction_of_header(HEADERS[1])]
    others = ",\n".join(f".BR {other} (3)" for other in PAGES if other != name)
    return re.sub(r"(\n\.S[HS] .*)\n\.PP(?=\n)", r"\1", "\n".join(made)) + f"\n.SH SEE ALSO\n{others}\n"


def library_man_pages():
    """The man pages of the library by their files."""
    left = list(header_functions())
    texts = {}
    for name, (form, _) in PAGES.items():
        found = [each for each in left if re.fullmatch(form, each[0])]
        left = [each for each in left if each not in found]
        if not found:
            raise Unreadable(f"{HEADERS[0]}: no function for {name}.3")
        texts[f"c/man/{name}.3"] = page(name, found)
    return texts


# ---- all

def man_page_warnings(path):
    """What mandoc or man says of a man page; nothing if neither is here."""
    for command in (["mandoc", "-T", "lint", "-W", "warning", path], ["man", "--warnings", "-l", path]):
        if shutil.which(command[0]):
            done = subprocess.run(command, stdout=subprocess.PIPE, stderr=subprocess.PIPE, text=True,
                                  env={**os.environ, "LC_ALL": "C.UTF-8"})
            return done.stderr + (done.stdout if command[0] == "mandoc" else "")
    return ""


def man_page_errors(path, text):
    """What is wrong with a man page, whose text has to be this."""
    is_current = os.path.exists(f"{TOP}/{path}") and read(path) == text
    return ("" if is_current else f"{path}: run tools/manual.py\n") + man_page_warnings(f"{TOP}/{path}")


def main():
    if sys.argv[1:] not in ([], ["--check"]):
        sys.exit("usage: tools/manual.py [--check]")
    pages = {**{f"docs/{name}.1": manual(name) for name in PROGRAMS}, **library_man_pages()}
    if not sys.argv[1:]:
        for path, text in pages.items():
            with open(f"{TOP}/{path}", "w", encoding="utf-8") as file:
                file.write(text)
        return 0
    said = "".join(man_page_errors(*page) for page in pages.items())
    print(said or "the man pages are what tools/manual.py makes of their sources\n", end="")
    return 1 if said else 0


if __name__ == "__main__":
    try:
        sys.exit(main())
    except Unreadable as error:
        sys.exit(f"manual.py: {error}")
