#!/usr/bin/env python3
"""Writes docs/reference/: a page of HTML for each crate with its items and definitions, and index.html, where names are
searched.

An item of crates/NAME/src/ is shown with its doc comment, its signature and its clauses, and a
definition of crates/NAME/specs/ with its comment. The index has both by name. The sources are read in the layout of `rt
fmt`. A public item without a doc comment is an error, and so is a public definition without a comment. Nothing is
written then.

usage: tools/reference.py
"""
import os
import re
import shutil
import sys
from html import escape
from itertools import groupby, takewhile

from read_sources import TOP, Unreadable, heading_anchor, reexported_paths, modules_of_crate, read, definitions_of_crate

FOLDER = "docs/reference"
IMPL = re.compile(r"impl(?:<.*?>)? (?:(.+) for )?(\w+)")
STYLE = """body { max-width: 60em; margin: 2em auto; padding: 0 1em; font: 16px/1.5 system-ui, sans-serif; }
pre { padding: 0.7em; overflow-x: auto; background: #8882; } code, pre { font-size: 0.9em; }
p { white-space: pre-wrap; } input { width: 100%; font-size: 1.2em; } :root { color-scheme: light dark; }
.names li { display: inline-block; width: 29em; overflow: hidden; } [hidden] { display: none !important; }"""
# Shows the names that have the words of the field.
SEARCH = """<p><input type="search" placeholder="search by name" autofocus></p><script>
document.querySelector("input").oninput = ({ target }) => {
  for (const item of document.querySelectorAll(".names li"))
    item.hidden = !item.textContent.toLowerCase().includes(target.value.toLowerCase());
};
</script>"""


def words_as_html(text):
    """Words with their code, which is not a link."""
    text = re.sub(r"\[(`[^`]+`)\](?:\([\w:]+\))?", r"\1", escape(text, quote=False))
    return re.sub(r"`([^`]+)`", r"<code>\1</code>", text)


def html(title, *parts):
    """A page of this title."""
    return (f'<!DOCTYPE html>\n<html lang="en"><meta charset="utf-8"><title>{title}</title><style>{STYLE}</style>\n'
            f"<h1>{title}</h1>\n" + "\n".join(parts) + "\n</html>\n")


class CratePage:
    """The page of a crate, with the titles of its sections and what is wrong in its sources."""

    def __init__(self, crate):
        self.crate, self.words = crate, list(definitions_of_crate(crate))
        self.parts, self.titles, self.names, self.wrong = [], [], [], []
        root = "main" if read(f"crates/{crate}/src/main.rt") else "lib"
        self.modules = list(modules_of_crate(f"crates/{crate}/src/{root}.rt"))
        self.paths = public_paths(self.modules)
        self.add_modules()
        self.add_definitions()

    def add_section(self, size, title, doc=(), source="", code=()):
        """Adds a section: a heading, a comment, and a file of the sources or lines of code."""
        if heading_anchor(title) in map(heading_anchor, self.titles):
            self.wrong.append(f"crates/{self.crate}: two sections have the title {title}")
        self.titles.append(title)
        self.parts.append(f'<h{size} id="{heading_anchor(title)}">{words_as_html(title)}</h{size}>')
        if doc:
            self.parts.append(f"<p>{words_as_html(chr(10).join(doc))}</p>")
        if source:
            self.parts.append(f'<p>Source: <a href="../../{source}">{source}</a></p>')
        if code:
            self.parts.append(f"<pre>{escape(chr(10).join(code))}</pre>")

    def entries_of_module(self, module):
        """The title, the items and the item to be documented of each section on this module."""
        types = {name: path for (_, name), path in self.paths.items()}
        impls = {}
        for item in module.items:
            if item.kind == "impl":
                match = IMPL.match(" ".join(item.head))
                if not match:
                    raise Unreadable(f"{module.file}:{item.number}: tools/reference.py finds no type in "
                                     f"{item.head[0]!r}")
                trait, name = match.groups()
                used = re.search(rf"^use crate::([\w:]+)::{name};", read(module.file), re.MULTILINE)
                where = tuple(used[1].split("::")) if used else module.path
                path = self.paths.get((where, name)) or types.get(name)
                if trait and path:
                    impls.setdefault(f"Traits of `{path}`", []).append(item)
                for member in item.items_in_body() if path else ():
                    if member.is_public:
                        yield f"`{path}::{member.name}`", [member], member
            elif (module.path, item.name) in self.paths:
                path = self.paths[module.path, item.name]
                yield f"`{path}`", [item], item
                for member in item.items_in_body() if item.kind == "trait" else ():
                    if member.kind == "fn":
                        yield f"`{path}::{member.name}`", [member], member
        for title, items in impls.items():
            yield title, items, None

    def add_modules(self):
        """Adds the crate's items, module by module."""
        for module in self.modules:
            entries, used = list(self.entries_of_module(module)), module.re_exports()
            if entries or used:
                path, doc = "::".join(module.path), module.doc if module.path else None
                self.add_section(2, f"Module `{path}`" if path else "The crate's root", doc, module.file, used)
            for title, items, documented in entries:
                if documented:
                    self.names.append(("::".join(title.strip("`").split("::")[-2:]), title))
                    self.wrong += items_without_comment(module.file, documented)
                lines = "\n\n".join("\n".join(item.lines_without_bodies()) for item in items).split("\n")
                self.add_section(3, title, documented and documented.doc, code=lines)

    def add_definitions(self):
        """Adds the crate's definitions, file by file."""
        for file, words in groupby(self.words, lambda word: word.file):
            path, words = f"crates/{self.crate}/specs/{file}.antt", list(words)
            about = takewhile(lambda line: line.startswith("--"), read(path).splitlines())
            self.add_section(2, f"Definitions of `{file}`", [line[3:] for line in about], path)
            for word in words:
                if word.is_public and not word.comment:
                    self.wrong.append(f"{path}: {word.name} has no comment")
                self.add_section(3, word.title(), word.comment, code=word.lines)

    def page_html(self):
        about = words_as_html("\n".join(self.modules[0].doc))
        return html(self.crate, '<p><a href="index.html">All crates and names</a></p>', f"<p>{about}</p>", *self.parts)


def public_paths(modules_of):
    """The public path of each public item, by its module's path and its name."""
    public = reexported_paths(modules_of)
    found = {}
    for module in modules_of:
        for item in module.items:
            if item.is_public and item.kind not in ("mod", "use"):
                own = (*module.path, item.name)
                path = own[-1:] if item.is_export else public.get(own, own)
                found[module.path, item.name] = "::".join(path)
    return found


def items_without_comment(file, item):
    """What is public of this item and has no doc comment."""
    if not item.doc:
        yield f"{file}:{item.number}: {item.name} has no doc comment"
    part = {"struct": r"    pub \w+:", "enum": r"    [A-Z]\w*[ ,({]"}.get(item.kind, r"$.")
    for i, line in enumerate(item.lines):
        if re.match(part, line) and not item.lines[i - 1].lstrip().startswith("///"):
            yield f"{file}:{item.number + i}: {line.strip()} has no doc comment"


def index_page(pages):
    """The page that leads to the crates, and to each item and each definition by its name."""
    crates = [f'<p><a href="{page.crate}.html">{page.crate}</a> ({len(page.names)} items, {len(page.words)} '
              f'definitions): {words_as_html(re.split("[.:] ", " ".join(page.modules[0].doc) + " ")[0])}</p>'
              for page in pages]
    named = [(name, title, page.crate) for page in pages
             for name, title in (*page.names, *((word.name, word.title()) for word in page.words))]
    items = [f'<li><a href="{crate}.html#{heading_anchor(title)}">{escape(name)}</a> {crate}</li>'
             for name, title, crate in sorted(named, key=lambda it: it[0].split("::")[-1].lower())]
    return html("Reference", "<p>The public items of each crate with their contracts, and the definitions that these "
                "use.</p>", *crates, SEARCH, '<ul class="names">', *items, "</ul>")


def html_by_file(pages):
    return {f"{page.crate}.html": page.page_html() for page in pages} | {"index.html": index_page(pages)}


def crate_pages():
    crates = re.findall(r"^(\w+).*:", read("crates.txt"), re.MULTILINE)
    return [page for page in map(CratePage, crates) if page.titles]


def main():
    if sys.argv[1:]:
        sys.exit("usage: tools/reference.py")
    try:
        found = crate_pages()
    except Unreadable as error:
        sys.exit(str(error))
    wrong = [line for page in found for line in page.wrong]
    if wrong:
        sys.exit("\n".join(wrong))
    shutil.rmtree(f"{TOP}/{FOLDER}", ignore_errors=True)
    os.makedirs(f"{TOP}/{FOLDER}")
    for name, text in html_by_file(found).items():
        with open(f"{TOP}/{FOLDER}/{name}", "w", encoding="utf-8") as file:
            file.write(text)


if __name__ == "__main__":
    main()
