"""Reads the files of the repository: items of .rt files, in the layout of `rt fmt`, and definitions of specs/. Not a
program.
"""
import functools
import os
import re
from dataclasses import dataclass

TOP = os.path.dirname(os.path.dirname(os.path.abspath(__file__)))
ITEM = re.compile(r'(?:pub(?:\(\w+\))? )?(?:unsafe |extern "C" |const (?=fn))*(\w+)(?: (\w+))?')
DEFINITION = re.compile(r"(?:abbrev |unfoldable )*(pub )?(data |record )?([\w-]+)")


class Unreadable(Exception):
    """A source is in another form than this file knows."""


@functools.cache
def read(path):
    """The text of a file of the repository, with the ends of its lines, or an empty one if there is none."""
    if not os.path.exists(os.path.join(TOP, path)):
        return ""
    with open(os.path.join(TOP, path), encoding="utf-8", newline="") as file:
        return file.read()


def version():
    """The version, which is at the top of CHANGELOG.md."""
    match = re.search(r"^## ([0-9.]+)", read("CHANGELOG.md"), re.MULTILINE)
    if not match:
        raise Unreadable("CHANGELOG.md: no heading is a version")
    return match[1]


def heading_anchor(title):
    """The anchor of a heading, as a browser of the repository makes it."""
    return re.sub(r"[^\w -]", "", title.lower()).replace(" ", "-")


@dataclass
class SourceItem:
    """An item of a .rt file: the lines above it, its own, and the number of its first."""
    above: list
    lines: list
    number: int

    def __post_init__(self):
        match = ITEM.match(self.lines[0])
        if not match:
            raise Unreadable(f"line {self.number}: tools/read_sources.py finds no item in {self.lines[0]!r}")
        self.kind, self.name = match.groups()
        self.doc = [line[4:] for line in self.above if line.startswith("///")]
        self.is_public = self.lines[0].startswith("pub ")
        self.is_export = "#[unsafe(no_mangle)]" in self.above
        opened = [i for i, line in enumerate(self.lines)
                  if line[:1] != " " and line.endswith(("{", "{}"))]
        end = opened[0] + 1 if opened else len(self.lines)
        self.head = re.sub(r"\s*(?:\{\}?|;)$", "", "\n".join(self.lines[:end])).split("\n")
        self.body, self.body_number = [line[4:] for line in self.lines[end:-1]], self.number + end

    def items_in_body(self):
        """The items in the body of a trait or an impl."""
        return list(parse_items(self.body, self.body_number))

    def lines_without_bodies(self):
        """The lines to show, without the bodies of functions; of a trait without its functions."""
        if self.kind == "fn":
            return self.head
        if self.kind not in ("trait", "impl"):
            kept = [line for line in self.above if line.startswith(("#[derive", "#[repr"))]
            return kept + self.lines
        inner = []
        for member in self.items_in_body():
            is_import = (member.kind, member.name) == ("ghost", "use")
            if not is_import and (self.kind, member.kind) != ("trait", "fn"):
                lines = [line for line in member.above if line.startswith("//")] + member.lines_without_bodies()
                lines[-1] += ";" if member.kind == "fn" else ""
                inner += ["", *lines]
        lines = ["    " + line if line else "" for line in inner[1:]]
        return [*self.head[:-1], self.head[-1] + " {", *lines, "}"] if inner else self.head


def parse_items(lines, number=1):
    """The items of these lines, of which the first has this number, except those of tests."""
    above, begin, depth = [], None, 0
    for i, line in enumerate(lines):
        if begin is None and (not line or line.startswith(("//", "#"))):
            above = above + [line] if line else []
            continue
        begin = i if begin is None else begin
        depth += line.count("{") - line.count("}")
        is_outer = line[:1] != " "
        if is_outer and line.endswith(("}", ";")) or depth == 0 and line.endswith(";"):
            if "#[cfg(test)]" not in above:
                yield SourceItem(above, lines[begin:i + 1], number + begin)
            above, begin, depth = [], None, 0


class SourceModule:
    """A file of src/: its path in the crate, and its items."""

    def __init__(self, file, path):
        self.file, self.path, self.text = file, path, read(file)
        self.doc = [line[4:] for line in self.text.splitlines() if line.startswith("//!")]
        try:
            self.items = list(parse_items(self.text.splitlines()))
        except Unreadable as error:
            raise Unreadable(f"{file}, {error}") from None

    def re_exports(self):
        """The lines that make items of other crates public here."""
        own = {item.name for item in self.items if item.kind == "mod"}
        return [line for item in self.items if item.is_public and item.kind == "use"
                and item.name not in own for line in item.lines]


def modules_of_crate(file, path=()):
    """The modules of a crate, from this file on."""
    module = SourceModule(file, path)
    yield module
    folder = file[:-len(".rt")] if path else os.path.dirname(file)
    for item in module.items:
        if item.kind == "mod":
            yield from modules_of_crate(f"{folder}/{item.name}.rt", (*path, item.name))


def reexported_paths(crate):
    """The shorter public paths of items of these modules that `pub use` makes, by their full ones."""
    found = {}
    for module in crate:
        for item in module.items:
            names = re.match(r"pub use ([\w:]+)::(?:\{(.*)\}|(\w+));", " ".join(item.lines))
            for name in re.findall(r"\w+", names[2] or names[3]) if names else ():
                found[(*module.path, *names[1].split("::"), name)] = (*module.path, name)
    return found


@dataclass
class SpecDefinition:
    """A definition: its file without .antt, what it is, its comment and its lines."""
    file: str
    is_public: bool
    kind: str  # "record ", "data " or nothing
    name: str
    comment: list
    lines: list

    def title(self):
        """Its heading, in which a record and a function of one name differ."""
        return f"{self.kind}`{self.file}.{self.name}`"


def definitions_of_crate(crate):
    """The definitions of a crate, in the order of the files in its Lib.antt."""
    library = read(f"crates/{crate}/specs/Lib.antt")
    for file in re.findall(r"^pub mod (\w+)", library, re.MULTILINE):
        for part in re.split(r"\n\s*\n", read(f"crates/{crate}/specs/{file}.antt").strip()):
            comment = [line[3:] for line in part.splitlines() if line.startswith("--")]
            lines = [line for line in part.splitlines() if not line.startswith("--")]
            if lines and not re.match(r"(?:unfoldable |pub )*use ", lines[0]):
                match = DEFINITION.match(lines[0])
                if not match:
                    raise Unreadable(f"crates/{crate}/specs/{file}.antt: tools/read_sources.py finds no definition in "
                                     f"{lines[0]!r}")
                public, kind, name = match.groups("")
                yield SpecDefinition(file, bool(public), kind, name, comment, lines)
