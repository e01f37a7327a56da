"""The speeds of the pages, from the tables of bench/results/, and the ratios of these tables. Not a program."""
import itertools

from page_sources import cells_by_first_cell, rows_of_table, size_with_unit, result_tables


def speed_rows():
    """The rows of speeds, as in tests/page_numbers.py: a page, a sentence of it with {} for numbers, and these."""
    yield from (("README.md", *row) for row in first_screen_ratios())
    yield from (("docs/SPEED.md", *row) for row in (*speed_summary_rows(), *slower_builds_row(), *other_ratio_rows()))


SINGLE = ("one BLAKE2b-512 digest", "one BLAKE2s-256 digest")
LEAVES = ("one BLAKE2bp-512 digest", "one BLAKE2sp-256 digest")
MANY = ("4 messages of BLAKE2b-512", "8 messages of BLAKE2b-512", "8 messages of BLAKE2s-256")
LIBRARY, LANES, ROOT = "`vulfsjor`", "in parallel", "root"


def cells_of_newest_builds(title, candidate, *columns):
    """The cells of these columns of a candidate's build for x86-64-v4, and then of that for x86-64-v3."""
    rows = cells_by_first_cell(title)
    return [rows[f"ours: {candidate}, x86-64-{build}"][i] for build in ("v4", "v3") for i in columns]


def first_screen_ratios():
    one = cells_of_newest_builds("1 MiB in memory", LIBRARY, 1) + cells_of_newest_builds("1 MiB in memory", LIBRARY, 3)
    short = [ratio for title in SINGLE for ratio in cells_of_newest_builds(title, LIBRARY, 5)]
    many = [ratio for title in MANY[1:] for ratio in cells_of_newest_builds(title, LANES, 3)]
    for name, ratios in (("1 MiB in memory", one), ("64 bytes in memory", short), ("8 messages of 1,024 bytes", many)):
        yield f"| {name} | {{}} | {{}} | {{}} | {{}} |", *ratios
    old = cells_by_first_cell("1 MiB in memory")[f"ours: {LIBRARY}, x86-64-v2"]
    yield "| 1 MiB in memory, with neither | {} | | {} | |", old[1], old[3]
    yield "a JavaScript bundle of one {} kB", round(int(cells_by_first_cell("bundle of")["`blake2b`"][0]) / 1000)


def speed_summary_rows():
    """The first table of docs/SPEED.md, and the sentences that have the least and the most of its ratios."""
    single, several = [], []
    for ratios, name, unit, *places in (
            (single, "1 MiB in memory", "GB/s", *(("1 MiB in memory", LIBRARY, i) for i in (0, 2))),
            (single, "64 bytes in memory", "ns", *((title, LIBRARY, 4) for title in SINGLE)),
            (single, "65 bytes in memory", "ns", *((title, LIBRARY, 6) for title in SINGLE)),
            ([], "1 MiB of BLAKE2bp-512 and BLAKE2sp-256", "GB/s", *((title, LIBRARY, 8) for title in LEAVES)),
            ([], "32 KiB of output of BLAKE2Xb and BLAKE2Xs", "GB/s",
             *(("32,768 bytes of output", "blocks in parallel", i) for i in (0, 2))),
            (several, "4 messages of 1,024 bytes in parallel", "ns", (MANY[0], LANES, 2)),
            (several, "8 messages of 1,024 bytes in parallel", "ns", *((title, LANES, 2) for title in MANY[1:])),
            (several, "the root of a tree over 16 MiB, leaves of 64 KiB", "GB/s", ("16 MiB", ROOT, 2))):
        cells = [cell for title, candidate, i in places for cell in cells_of_newest_builds(title, candidate, i, i + 1)]
        ratios += [round(100 * float(cell) - 100) for cell in cells[1::2]]
        yield f"| {name} |" + f" {{}} {unit} | {{}} |" * (len(cells) // 2), *cells
    yield "the library is {} to {} percent faster", min(single[::2]), max(single[::2])
    yield "with AVX2 alone {} to {} percent", min(single[1::2]), max(single[1::2])
    yield "trees it is {} to {} percent faster", min(several[::2]), max(several[::2])
    yield "and {} to {} percent with AVX2", min(several[1::2]), max(several[1::2])


def slower_builds_row():
    """The sentence of docs/SPEED.md on the builds that are slower than the crates."""
    def least_and_most(*places):
        ratios = [ratio for title, candidate in places
                  for ratio in cells_by_first_cell(title)[f"ours: {candidate}, x86-64-v2"][1::2]]
        return min(ratios), max(ratios)
    yield "has {} of their speed for 1 MiB of BLAKE2b", cells_by_first_cell("1 MiB in memory")[
        f"ours: {LIBRARY}, x86-64-v2"][1]
    yield ("{} to {} for several messages and the leaves of trees",
           *least_and_most(*((title, LANES) for title in MANY), ("16 MiB", ROOT)))
    yield "{} to {} for BLAKE2bp and BLAKE2sp", *least_and_most(*((title, LIBRARY) for title in LEAVES))
    yield "x86-64-v3 has {} for the root over leaves of 1 MiB", cells_of_newest_builds("16 MiB", ROOT, 5)[1]


def other_ratio_rows():
    """Sentences of docs/SPEED.md that have the ratios of threads, of b2sum, of JavaScript and of portable C."""
    memory, file = cells_by_first_cell("1024 MiB in memory"), cells_by_first_cell("a file of 1024 MiB")
    yield "root of a tree over 1 GiB {} times as fast as one thread", memory["`vulfsjor_tree_root_threads`"][5]
    yield "`b2sum --tree` over a file {} times as fast as `b2 tree`", file["`b2sum --tree`"][5]
    yield "`b3sum` (BLAKE3, another hash function) is {} times as fast", file["`b3sum`"][5]
    hashes, roots, portable = (rows_of_table(title) for title in ("hash", "tree root of", "in C"))
    yield from b2sum_ratio_rows()
    ratios = sorted((row[4], row[1]) for row in hashes if row[0].startswith("BLAKE2"))
    yield ("{} to {} times as fast as `node:crypto`, slowest at {}", ratios[0][0], ratios[-1][0],
           size_with_unit(int(ratios[0][1])))
    calls = {call: ratio for call, *_, ratio in rows_of_table("call with 64 bytes")}
    yield ("An `update` of 64 bytes is {} (BLAKE2b) and {} times as fast",
           calls["`update` of `Blake2b`"], calls["`update` of `Blake2s`"])
    for name, length, _ in rows_of_table("bundle of"):
        yield f"{{}} kB ({name}", round(int(length) / 1000)
    yield (f"{roots[0][0]} {{}} times as fast as one thread, and over {roots[1][0]} {{}} times",
           roots[0][5], roots[1][5])
    long, short = (sorted(row[4] for row in portable if row[0].endswith(unit)) for unit in ("MiB", "bytes"))
    yield "{} to {} times as fast as plain C by the same compiler at 1 MiB", long[0], long[-1]
    yield "and {} to {} times at 64 bytes", short[0], short[-1]


def b2sum_ratio_rows():
    """The sentences of docs/SPEED.md that have the ratios of b2sum: by the clock and, if it was measured, by the
    processor's time over many files."""
    rows = rows_of_table("read")
    one, small, *many = (row for row in rows if row[1] == "`b2sum` (ours)")
    yield ("`b2sum` is {} times as fast as the one of coreutils over a file of 1 GiB, and {} times over",
           one[3], small[3])
    if many:
        others = [row for row in rows if row[1] == "`b3sum`, 1 thread" and row[0] in [it[0] for it in many]]
        yield ("In processor time, `b2sum` is {} times as fast over 2,000 files of 300 kB, and {} times over "
               "/usr/include and /usr/share/doc; `b3sum` with one thread is {} and {} times as fast",
               *(row[5] for row in many + others))


def rounding_interval(cell):
    """The numbers that a cell such as `1,156`, `0.72 GB/s` or `1913 ns` is rounded from: the lowest and the highest."""
    digits = cell.split()[0].replace(",", "")
    half = 0.5 / 10 ** len(digits.partition(".")[2])
    return float(digits) - half, float(digits) + half


def can_be_ratio_of_cells(ratio, over, under):
    """Whether the first cell may be the ratio of the other two."""
    (low, high), (a, b), (c, d) = map(rounding_interval, (ratio, over, under))
    return low * c <= b and a <= high * d


# The columns that are compared in tables whose header names no candidate, by the first title and the ratio's column.
COMPARED = {("hash", 4): (2, 3), ("call with 64 bytes", 3): (1, 2), ("tree root of", 3): (2, 1),
            ("tree root of", 5): (4, 1), ("in C", 4): (2, 3), ("in C", 6): (2, 5)}
# The programs that others are compared with, over the same file.
PROGRAMS = ("`b2sum` of coreutils", "`b2sum --tree 65536`, 1 processor")


def cells_of_ratio(header, rows, row, i):
    """The two cells of which the ratio is in a row's column. A candidate that the header names may have its number in
    the first column only."""
    candidate = header[i].partition("ratio to ")[2]
    if candidate:
        base = next(it for it in rows if it[0] in (candidate, f"ours: {candidate}"))
        return row[i - 1], base[i - 1] or base[1]
    if header[0] == "read":
        return row[i - 1], next(it[i - 1] for it in rows if it[0] == row[0] and it[1] in PROGRAMS)
    one, other = COMPARED[header[0], i]
    return row[one], row[other]


def wrong_ratios_in_results():
    """The ratios of bench/results/: each is that of the two numbers in its table"""
    count = 0
    for header, rows in result_tables():
        for row, i in itertools.product(rows, range(len(header))):
            if header[i].startswith("ratio") and row[i]:
                count += 1
                ours, theirs = cells_of_ratio(header, rows, row, i)
                is_speed = "B/s" in header[i - 1] + ours
                if not can_be_ratio_of_cells(row[i], *((ours, theirs) if is_speed else (theirs, ours))):
                    yield f"bench/results/: {header[0]}, {row[0]}: {row[i]} is not the ratio of {ours} and {theirs}"
    if not count:
        yield "bench/results/: no ratio"
