"""What tests/pages.py and tests/page_numbers.py read: definitions, constants of the code, and measured tables."""
import functools
import glob
import re

from common import TOP, Unreadable, read
from read_sources import definitions_of_crate

LANGUAGES = ("blake2b", "blake2s")


def files_matching(pattern):
    """The files that a pattern names, from the top of the repository."""
    return sorted(glob.glob(pattern, root_dir=TOP, recursive=True))


def single_spaced(text):
    return " ".join(text.split())


def only_group_of_match(pattern, text, where):
    """The one group of the pattern's first match."""
    match = re.search(pattern, text)
    if not match:
        raise Unreadable(f"{where}: nothing has the form {pattern!r}, which tests/pages.py reads")
    return match[1]


@functools.cache
def definition_texts(crate):
    """The text of each definition of a crate in one line, by its file and its name."""
    return {(word.file, word.name): " ".join(" ".join(word.lines).split()) for word in definitions_of_crate(crate)}


def definition_text(crate, file, name):
    if (file, name) not in definition_texts(crate):
        raise Unreadable(f"crates/{crate}/specs/{file}.antt: tests/pages.py finds no definition {name}")
    return definition_texts(crate)[file, name]


class CaseValues(dict):
    """The value of each case of a definition by cases, as `name case = value` says it."""

    def __init__(self, crate, file, name):
        self.name = f"crates/{crate}/specs/{file}.antt: {name}"
        cases = re.findall(rf"\b{name} \(?([\w.]+)[^=]*? = (.*?)(?= {name} |$)", definition_text(crate, file, name))
        super().__init__(cases)

    def __missing__(self, case):
        raise Unreadable(f"{self.name}: tests/pages.py finds no case {case}")


def result_tables():
    """The tables of bench/results/: for each the cells of its header, and those of its rows."""
    for path in files_matching("bench/results/*.txt"):
        for block in re.findall(r"(?m)^\|.*\n\|[ |:-]+\n(?:\|.*\n)+", read(path)):
            header, _, *rows = ([cell.strip() for cell in line.strip("|").split("|")] for line in block.splitlines())
            yield header, rows


def rows_of_table(title):
    """The rows of the table whose header has this first cell."""
    found = [rows for header, rows in result_tables() if header[0] == title]
    if len(found) != 1:
        raise Unreadable(f"bench/results/: {len(found)} tables have the first cell {title!r}")
    return found[0]


def cells_by_first_cell(title):
    """The same: cells, by the first one."""
    return {first: cells for first, *cells in rows_of_table(title)}


def row_of_newest_processor(rows, name):
    """The row of this candidate for the newest processor that was measured."""
    return rows[max(it for it in rows if it.startswith(f"ours: {name}, x86-64-v"))]


def size_with_unit(count):
    """A number of bytes in the largest unit that divides it."""
    return next(f"{count >> bits} {unit}" for bits, unit in ((30, "GiB"), (20, "MiB"), (10, "KiB"), (0, "bytes"))
                if count % (1 << bits) == 0)


def constant_in_file(path, name):
    """The value of a constant in C, Rust or Rattle that is a number or a power of two."""
    value = only_group_of_match(rf"\b{name}(?:: u?size|: u64)?[ =(]+([0-9]+(?: << [0-9]+)?)\b", read(path), path)
    base, _, bits = value.partition(" << ")
    return int(base) << int(bits or 0)


def power_of_two_in_file(path, before):
    """The number in a file that is a power of two, or one less, after these words."""
    base = only_group_of_match(rf"{before}\(?(?:2n \*\* |1 << )([0-9]+)n?\)?", read(path), path)
    return 1 << int(base)
