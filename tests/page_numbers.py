#!/usr/bin/env python3
"""The numbers that pages and comments have, and where the code has them. tests/pages.py compares them.

usage: tests/page_numbers.py --write     writes the numbers into their places, as `make docs` does
"""
import functools
import re
import sys

from common import TOP, Unreadable, read
from page_sources import (
    LANGUAGES, CaseValues, only_group_of_match, constant_in_file, definition_text, cells_by_first_cell, single_spaced,
    files_matching, power_of_two_in_file, row_of_newest_processor,
    size_with_unit)
from page_speeds import speed_rows

# A space of a sentence, which may end a line of a comment, and a number with its unit.
SPACE = r"\s+(?:(?://[/!]|//|\*|#) +)?"
NUMBER = rf"([0-9](?:[0-9,.^]*[0-9])?(?: - [0-9]+)?(?:{SPACE}(?:bytes|[KMG]i?B))?)"


FAMILY = functools.partial(CaseValues, "blake2_simd", "Family")


def family_numbers(crate, file, name):
    values = CaseValues(crate, file, name)
    return [int(values[family]) for family in LANGUAGES]


def family_rows():
    """The rows of docs/SPECIFICATION.md that have the numbers of the families and the fields of the parameter block."""
    for label, name in (("w, bits of a word", "word"), ("B, bytes of a block", "block_bytes"),
                        ("K, bytes of the longest key", "key_bytes"),
                        ("M, bytes of the longest digest", "output_bytes"),
                        ("S, bytes of salt and of persona", "salt_bytes")):
        yield f"\n{label} {{}} {{}}", *(FAMILY(name)[family].removeprefix("w") for family in LANGUAGES)
    offsets, salts, reserved = (family_numbers("blake2_simd", "Family", name)
                                for name in ("offset_bytes", "salt_bytes", "reserved_bytes"))
    at = [0, 0]
    for name, *lengths in (("digest length", 1, 1), ("key length", 1, 1), ("fanout", 1, 1), ("depth", 1, 1),
                           ("leaf length", 4, 4), ("node offset", *offsets), ("node depth", 1, 1),
                           ("inner length", 1, 1), ("reserved", *reserved), ("salt", *salts), ("persona", *salts)):
        ends = [begin + length for begin, length in zip(at, lengths)]
        cells = [f"{begin}..{end}" for begin, end in zip(at, ends) if begin < end]
        yield f"\n{name} {{}} {{}} " if len(cells) == 2 else f"\n{name} {{}} none ", *cells
        at = ends


def saved_state_rows():
    """Those that have the fields of a saved state: eight words have as many bytes as the longest digest."""
    words, block = (family_numbers("blake2_simd", "Family", name) for name in ("output_bytes", "block_bytes"))
    at = [0, 0]
    for name, *lengths in (("name", 7, 7), ("version", 1, 1), ("chaining words", *words), ("start", *words),
                           ("counter", 8, 8), ("digest bytes", 1, 1), ("pending bytes", 1, 1),
                           ("last-node flag", 1, 1), ("pending", *block)):
        ends = [begin + length for begin, length in zip(at, lengths)]
        yield f"\n{name} {{}} {{}} ", *(f"{begin}..{end}" for begin, end in zip(at, ends))
        at = ends


def kind_and_error_rows():
    """Those that have the KINDs and the errors."""
    for name, of_b, of_s in (("kind_of", "all except `xof`", "all except `tree`, `root` and `xof`"),
                             ("witness_kind_of", "`witness`", "`witness`")):
        cases = re.findall(r'codes "(\w+)"\) then Ok \(blake2([bs])_of ([0-9]+)\)',
                           definition_text("b2_commands", "ArgumentTasks", name))
        for letter, accepted in (("b", of_b), ("s", of_s)):
            kinds = [(word, length) for word, family, length in cases if family == letter]
            words, numbers = (", ".join(parts) for parts in zip(*((f"`{word}`", "{}") for word, _ in kinds)))
            yield f"{words}: BLAKE2{letter}, N = {numbers}, in {accepted}", *(length for _, length in kinds)
    texts, status, lines = (
        CaseValues("b2_commands", "Faults", name) for name in ("fault_message", "exit_status_of", "line_number"))
    for case, text in texts.items():
        if case != "WriteFailed":
            place = "line N: " if lines.get(case, "").startswith("Some") else ""
            cause = only_group_of_match(r'"(.*)"', text, texts.name)
            yield f"`b2: {place}{cause}` {{}}", status[case]


# Sentences there that have the numbers of a tree's nodes and the limits of the program: where a definition is, what it
# has, and how the page writes that.
DEFINED = (
    ("blake2_tree/TreeRoot/node_tree_parameters", r"\bfanout = (\d+); depth = (\d+);.* inner_length = (\d+);", "{}",
     "fanout {}, depth {}, leaf length L, inner length {}"),
    ("blake2_tree/TreeRoot/root_input_over_digests", r"node p (\d+) (\d+) true", "{}", "| root | N | {} | {} | on |"),
    ("blake2_tree/TreeRoot/leaf_digests", r"digest blake2b (\d+) ", "{}", "| leaf i | {} | i |"),
    ("blake2_tree/TreeRoot/leaf_input", r"node p i (\d+) ", "{}", "| i | {} | on only at the last leaf |"),
    ("b2_commands/Tasks/IsTooLongFor", r"\(to_tree [^)]*\) input = 2 \^ (\d+) ≤", "2^{}",
     "a message of fewer than {} bytes"),
    ("b2_commands/Tasks/IsTooLongFor", r"\(to_tree [^)]*\) input = 2 \^ (\d+) ≤", "2^{}", "`tree` {} bytes or more"),
    ("b2_commands/Tasks/IsTooLongForFamily", r"2 \^ (\d+) ≤ key_count", "2^{}",
     "with the key's block, of {} or more"),
    ("b2_commands/Scripts/slot_value", r"number_value (\d+) digits", "{}",
     "1 to {} decimal digits with no leading zero"),
    ("b2_commands/ArgumentTasks/require_leaf_length", r"nat_lt n \(2 \^ (\d+)\)", "2^{} - 1",
     "a leaf length L of 1 to {}"),
)


def specification_rows():
    found = [*family_rows(), *saved_state_rows(), *kind_and_error_rows()]
    if len(found) != 38:
        raise Unreadable(f"tests/page_numbers.py reads {len(found)} rows in the definitions where it wants 38")
    for place, pattern, shown, form in DEFINED:
        match = re.search(pattern, definition_text(*place.split("/")))
        if not match:
            raise Unreadable(f"{place}: nothing has the form {pattern!r}, which tests/page_numbers.py reads")
        found.append((form, *map(shown.format, match.groups())))
    yield from (("docs/SPECIFICATION.md", *row) for row in found)
    yield "docs/B2.md", "the bytes of a leaf, 1 to {}", longest_leaf()


def longest_leaf():
    name = "require_leaf_length"
    text = definition_text("b2_commands", "ArgumentTasks", name)
    return 2 ** int(only_group_of_match(r"nat_lt n \(2 \^ ([0-9]+)\)", text, name)) - 1


def thread_rows():
    """The rows of trees by threads, of `b2sum` and of the digests of leaves."""
    least, part, most, leaves, of_part, threads = (constant_in_file("c/threads.c", name) for name in (
        "LEAST_BYTES", "PART_BYTES", "MOST_BUFFER_BYTES", "MOST_LEAVES", "PART_LEAVES", "MOST_THREADS"))
    header, rust, file = "c/include/vulfsjor_threads.h", "rust/src/threads.rs", "rust/src/tree_file.rs"
    yield "docs/LARGE.md", "one thread for each {}, and so a second one from {} on", size_with_unit(
        least), size_with_unit(2 * least)
    yield header, "a root needs about {} for each thread at most", size_with_unit(2 * 64 * of_part)
    yield rust, "The call allocates at most {} for each", size_with_unit(2 * 64 * of_part)
    yield "rust/README.md", "allocates at most {} for each thread", size_with_unit(2 * 64 * of_part)
    yield file, "and at most {} for digests", size_with_unit(2 * 64 * of_part)
    yield header, "at most one thread for each {} of", size_with_unit(least)
    yield header, "up to {} or four leaves, whichever is more, and at most {}", size_with_unit(part), size_with_unit(
        most)
    yield header, "vulfsjor_tree_update_fd at most {} for digests", size_with_unit(64 * leaves)
    yield header, "A regular file of at least {} is read by all threads", size_with_unit(least)
    yield header, "with the caller's: at most {}, and 0 is", threads
    yield header, "has one buffer of {} more", size_with_unit(part)
    yield header, "about {} or four leaves, and at the end", size_with_unit(part)
    yield "rust/README.md", "It starts a second thread from {} on", size_with_unit(2 * least)
    yield rust, "(less than {} for each)", size_with_unit(least)
    yield file, "A regular file of at least {} is read and hashed by", size_with_unit(2 * least)
    yield file, "Each thread has a buffer of at most {}", size_with_unit(most)
    digest = int(only_group_of_match(r"digest blake2b ([0-9]+) ",
                                     definition_text("blake2_tree", "TreeRoot", "leaf_digests"),
                          "TreeRoot"))
    for form, *values in (
            ("hashes each leaf to {} bytes", digest), ("hashes {} bytes for each leaf in one thread", digest),
            ("1/{} of the message at 64 KiB, 1/{} at 1 KiB", f"{(1 << 16) // digest:,}", (1 << 10) // digest),
            ("you hash one leaf again, and {} bytes for each leaf of the message", digest),
            ("allocates {} bytes for each leaf of its input", digest),
            ("the digests of the leaves, {} bytes for each", digest),
            ("For 1 GiB in leaves of 64 KiB you keep {} of digests", size_with_unit((1 << 14) * digest))):
        yield "docs/LARGE.md", form, *values
    short, middle, long = (float(cell) for cell in row_of_newest_processor(cells_by_first_cell("16 MiB"), "root")[::2])
    yield ("docs/LARGE.md", "of 4 KiB the speed was {} percent lower, with leaves of 1 MiB {} percent",
           round(100 - 100 * short / middle), round(100 - 100 * long / middle))
    least = constant_in_file("c/b2sum.c", "LEAST_BYTES")
    yield "docs/LARGE.md", "reads a file of {} or more with up to {} threads", size_with_unit(least), threads
    yield "docs/TUTORIAL.md", "several threads for files of {} or more", size_with_unit(least)
    piece, tree = (constant_in_file("crates/b2sum/src/hashes.rt", name) for name in ("PIECE_BYTES", "TREE_PIECE_BYTES"))
    for form, *values in (
            ("it reads {} at a time", size_with_unit(piece)),
            ("With `--tree` it needs {}, at most {} for the digests of leaves", size_with_unit(tree + part),
             size_with_unit(64 * leaves)),
            ("a buffer of {} or four leaves, at most {}", size_with_unit(part), size_with_unit(most)),
            ("by at most N threads, {} at most", threads), ("those of a file of {} or more", size_with_unit(least))):
        yield "docs/B2SUM.md", form, *values
    names = "MOST_FILES", "ENOUGH_BYTES", "LANES", "FIRST_ROOM_BYTES", "MOST_ROOM_BYTES", "WORTH_BYTES", "MOST_PAUSE"
    files, enough, lanes, first, most, worth, pause = (
        constant_in_file("crates/b2sum_commands/src/ahead.rt", name) for name in names)
    for form, *values in (
            ("a regular file of 1 byte to {} is read early",
             size_with_unit(constant_in_file("c/b2sum.c", "AHEAD_BYTES"))),
            ("are groups of up to {}, {} and {} files, and then of up to {}.", lanes, 2 * lanes, 4 * lanes, files),
            ("after a multiple of {} files that have at least {} together", lanes, size_with_unit(enough)),
            ("Its memory has {}, and twice as much, up to {}, each time", size_with_unit(first), size_with_unit(most)),
            ("fewer than {} a file, or that begins with a file that is not read early, the next {} files",
             size_with_unit(worth),
             files),
            ("after the next such group more, up to {}.", f"{pause:,}"),
            ("had up to {} lines before its own", files - 1), ("at most {} files were read in vain", files),
            ("[several files](#several-files) it needs up to {} more", size_with_unit(most))):
        yield "docs/B2SUM.md", form, *values


def family_length_rows():
    """The rows of the lengths of the families."""
    (out_b, out_s), (key_b, key_s), (salt_b, salt_s), (block_b, block_s) = (
        family_numbers("blake2_simd", "Family", name)
        for name in ("output_bytes", "key_bytes", "salt_bytes", "block_bytes"))
    peer = only_group_of_match(r'startswith\("b2sum \(GNU coreutils\) ([0-9.]+)', read("tests/compare_coreutils.py"),
                    "tests/compare_coreutils.py")
    longest = int(only_group_of_match(r"PATH_ROOM = ([0-9]+)", read("c/b2sum.c"), "c/b2sum.c")) - 1
    for form, *values in (
            ("of GNU coreutils {} and has", peer),
            ("at most {} (BLAKE2s and BLAKE2sp: {}), the default", 8 * out_b, 8 * out_s),
            ("as the key: 1 to {} (BLAKE2s and BLAKE2sp: {})", key_b, key_s),
            ("up to {} bytes (BLAKE2s and BLAKE2sp: {})", salt_b, salt_s),
            ("leaves of LEAF bytes, 1 to {}", longest_leaf()), ("counts as four of at most {}", f"{longest:,}")):
        yield "docs/B2SUM.md", form, *values
    leaves_b, leaves_s = family_numbers("blake2_parallel", "Parallel", "leaves")
    stripe = block_b * leaves_b
    yield "docs/GLOSSARY.md", "one block for each leaf, {}.", f"{stripe} bytes"
    yield "c/PORTING.md", "(BLAKE2bp, BLAKE2sp: a key counts as {})", stripe
    yield "c/PORTING.md", "a digest of 0 or more than {}, or a longer key (BLAKE2s: {})", f"{out_b} bytes", out_s
    yield "docs/TUTORIAL.md", "its digests have up to {}.", f"{out_b} bytes"
    yield "docs/TUTORIAL.md", "with digests of up to {},", f"{out_s} bytes"
    yield ("docs/WIPING.md", "until more than {} bytes ({} in BLAKE2sp) were absorbed",
           block_b * (leaves_b - 1), block_s * (leaves_s - 1))
    yield ("docs/MACHINE.md", "or {} and {} for the pending bytes of BLAKE2bp", 2 * stripe - block_b,
           f"{2 * stripe - block_s} bytes")
    yield "docs/MACHINE.md", "stays in one block ({} or {}) from its lowest place", block_b, f"{block_s} bytes"
    if stripe != block_s * leaves_s:
        raise Unreadable("docs/GLOSSARY.md says that a stripe has one length in BLAKE2bp and BLAKE2sp")
    unknown = [re.fullmatch(r"2 \^ ([0-9]+) - 1", value)[1] for value in map(
        CaseValues("blake2_xof", "Xof", "unknown_length").__getitem__, LANGUAGES)]
    blocks = only_group_of_match(r"then 2 \^ ([0-9]+) \* output_bytes f",
                                 definition_text("blake2_xof", "Xof", "output_length"), "Xof")
    page = "docs/SPECIFICATION.md"
    yield page, "length has {} bits in BLAKE2Xb and {} in BLAKE2Xs", *unknown
    yield page, "n is 1 to {} ({}): the length of the output", *(f"2^{bits} - 2" for bits in unknown)
    yield page, "Then {} blocks can be read", f"2^{blocks}"
    whole_b, whole_s = (size_with_unit((1 << int(blocks)) * out) for out in (out_b, out_s))
    yield "rust/src/xof.rs", '"{}", "{}", FamilyLimits::BLAKE2B', f"2^{unknown[0]} - 2", whole_b
    yield "rust/src/xof.rs", '"{}", "{}", FamilyLimits::BLAKE2S', f"{(1 << int(unknown[1])) - 2:,}", whole_s
    yield "c/include/vulfsjor.h", "BLAKE2XB_UNKNOWN_LENGTH if the length is not known in advance: then {} can", whole_b
    yield "c/include/vulfsjor.h", "BLAKE2XS_UNKNOWN_LENGTH if the length is not known in advance: then {} can", whole_s


def constant_rows():
    cleared = [int(number) for path in files_matching("crates/blake2_ffi/src/**/*.rt")
               for number in re.findall(r"const \w+_BYTES: usize = ([0-9]+);", read(path))]
    yield "docs/WIPING.md", "rounded up: {} to {};", min(cleared), f"{max(cleared):,} bytes"
    yield "docs/MACHINE.md", "`scrub_stack` of {} to {}, also", min(cleared), f"{max(cleared):,} bytes"
    yield ("docs/WIPING.md", "and {} of the stack below each call",
           size_with_unit(constant_in_file("c/b2sum.c", "STACK_BYTES")))
    scrubbed = constant_in_file("crates/blake2_digest/src/wiping.rt", "SCRUBBED_BYTES")
    yield "docs/WIPING.md", "writes {} zeros over the stack", f"{scrubbed:,}"
    depth = int(only_group_of_match(r"DEPTH = ([0-9]+) \* 1024,", read("tests/key_scan/scan.c"), "scan.c")) << 10
    yield "docs/WIPING.md", "Then it searches {} of the dead stack", size_with_unit(depth)
    yield ("docs/PORTABLE.md", "a volatile array of N + {},",
           f"{constant_in_file('tools/wasm_to_c.py', 'MARGIN'):,} bytes")
    yield "docs/PORTABLE.md", "A call uses at most {} of the stack", size_with_unit(
        constant_in_file("tests/portable_stack.py", "MOST"))
    stack, room = constant_in_file("tests/machine/compression.py", "STACK"), constant_in_file("tests/machine/wasm.py",
                                                                                              "ROOM")
    yield "docs/MACHINE.md", "and at most {} of its stack", size_with_unit(stack)
    yield "docs/MACHINE.md", "the stack has {} left", size_with_unit(room)
    compiler = only_group_of_match(r'(?m)^rust-version = "(.*)"$', read("Cargo.toml"), "Cargo.toml")
    cmake = only_group_of_match(r"cmake_minimum_required\(VERSION (.*)\)", read("c/CMakeLists.txt"), "c/CMakeLists.txt")
    python = only_group_of_match(r'requires-python = ">=(.*)"', read("python/pyproject.toml"), "pyproject.toml")
    node = only_group_of_match(r'"node": ">=([0-9.]+)"', read("js/package.json"), "package.json")
    yield "README.md", "**Rust** from {}", compiler
    yield "README.md", "**Python** from {}", python
    yield "README.md", "from node {},", node
    yield "rust/README.md", "You need Rust {} or later", compiler
    yield "c/README.md", "**CMake** {} or later", cmake
    yield "python/README.md", "You need CPython {} or later", python
    yield "js/README.md", "one ES module for node {} and later", node
    text = " ".join(read(path) for path in files_matching("c/tests/*.sh"))
    c, cpp = (min(re.findall(rf"-std={form}([0-9]+)", text), key=lambda year: (year < "89", year))
              for form in ("c", r"c\+\+"))
    yield "c/README.md", "It is for C{} and later and C++{} and later", c, cpp
    yield "docs/PORTABLE.md", "has no assembly, in C{}.", c


def number_sentence_rows():
    """The rows of the table: a page, a sentence of it with {} for numbers, and the numbers."""
    yield from specification_rows()
    yield from thread_rows()
    yield from family_length_rows()
    yield from constant_rows()
    yield from speed_rows()


def matches_of_sentence(page, form, text):
    """The matches of the sentence in the text of a page."""
    words = (SPACE.join(map(re.escape, part.split(" "))) for part in form.split("{}"))
    found = list(re.finditer(NUMBER.join(words), text))
    if not found:
        raise Unreadable(f"{page}: no sentence has the form {form!r}, which tests/page_numbers.py reads")
    return found


def without_comment_marks(text):
    """Words, without the marks of a comment between them."""
    return single_spaced(re.sub(SPACE, " ", text))


# What the comments of vulfsjor.h say of a length, and the definition that has it.
COMMENTS = (
    (r"key (?:has|of) [01] to ([0-9]+) bytes", "key_bytes"), (r"have 0 to ([0-9]+) bytes each", "salt_bytes"),
    (r"digests of outlen bytes, 1 to ([0-9]+)", "output_bytes"),
    (r"inner_length is more than ([0-9]+)", "output_bytes"),
    (r"(?:with|and) ([0-9]+) bytes for a key", "block_bytes"), (r"key's block of ([0-9]+) bytes", "block_bytes"),
    (r"after a reset: ([0-9]+) with a key", "block_bytes"), (r"the context and ([0-9]+) bytes have", "block_bytes"),
    (r"(?:has|have|be|absorbed) 2\^([0-9]+)(?: bytes)? or more", "limit"),
    (r"(?:byte|fewer than) 2\^([0-9]+)", "limit"))
# Ranges and powers there. Each must be one of the family's.
RANGES = re.compile(r"\b[0-9]+ to (?:[0-9]+\^[0-9]+ - [0-9]+|[0-9]+)|\b[0-9]+\^[0-9]+(?: - [0-9]+)?")


def lengths_ranges_and_powers(kind):
    """The lengths of blake2b, blake2xs, tree and so on by their names, and the ranges and powers that it has."""
    family = "blake2s" if kind.rstrip("p").endswith("s") else "blake2b"
    of = {name: int(FAMILY(name)[family])
          for name in ("key_bytes", "salt_bytes", "output_bytes", "block_bytes")}
    pending = of["block_bytes"]
    if kind.endswith("p"):
        of["block_bytes"] *= int(CaseValues("blake2_parallel", "Parallel", "leaves")[family])
        pending = 2 * of["block_bytes"] - pending
    unknown = CaseValues("blake2_xof", "Xof", "unknown_length")[family].replace(" ^ ", "^").removesuffix(" - 1")
    limit = power_of_two_in_file("crates/blake2_tree/src/limits.rt", "MESSAGE_LIMIT: u64 = ").bit_length() - 1
    of["limit"] = limit if kind == "tree" else 64
    ranges = {f"1 to {of['output_bytes']}", f"0 to {of['key_bytes']}", f"1 to {of['key_bytes']}", f"2^{of['limit']}",
              f"0 to {of['salt_bytes']}", f"0 to {pending}", "2^48"}
    if kind.startswith("blake2x"):
        ranges |= {f"1 to {unknown} - 2", f"{unknown} - 1"}
    return of, ranges | ({"1 to 2^32 - 1", "1 to 255", "2^64"} if kind == "tree" else set())


def family_comments():
    """The comments of vulfsjor.h on functions and structs of a family, each with that, as blake2bp or tree."""
    text = read("c/include/vulfsjor.h")
    name = r"\bvulfsjor_(?:ffi_)?(blake2[bs]p?|blake2x[bs]|tree|plan|part|limits)(?:_|\b)"
    found = [*re.findall(r"/\*((?:(?!\*/).)*)\*/\n([^;{/]*)", text, re.S),
             *((fields, declared) for declared, fields in re.findall(r"(typedef struct \w+) \{(.*?)\n\}", text, re.S))]
    for comment, declared in found:
        kind = re.search(name, declared)
        if kind:
            yield kind[1] if kind[1].startswith("blake2") else "tree", comment


def wrong_numbers_in_comments():
    path, count = "c/include/vulfsjor.h", 0
    for kind, text in family_comments():
        lengths, ranges = lengths_ranges_and_powers(kind)
        words = without_comment_marks(re.sub(r"/\*|\*/", "", text))
        wrong = [found for found in RANGES.findall(words) if found not in ranges]
        for form, name in COMMENTS:
            numbers = re.findall(form, words)
            count += len(numbers)
            wrong += [f"{number} ({name})" for number in numbers if int(number) != lengths[name]]
        yield from (f"{path}: a comment on {kind} says {it}, and the definitions do not" for it in wrong)
    if count < 75:
        yield f"{path}: tests/page_numbers.py reads only {count} numbers of its comments"


def wrong_numbers_in_pages():
    """The numbers of the pages and of vulfsjor.h (tests/page_numbers.py), and speeds (tests/page_speeds.py)"""
    for page, form, *values in number_sentence_rows():
        for match in matches_of_sentence(page, form, read(page)):
            shown = [without_comment_marks(group) for group in match.groups()]
            if shown != [str(value) for value in values]:
                yield f"{page}: {without_comment_marks(match[0])!r}: the code says {', '.join(map(str, values))}"
    yield from wrong_numbers_in_comments()


def write_numbers_into_pages():
    texts = {}
    for page, form, *values in number_sentence_rows():
        text = texts.get(page, read(page))
        for match in reversed(matches_of_sentence(page, form, text)):
            for i, value in reversed(list(enumerate(values, 1))):
                if without_comment_marks(match[i]) != str(value):
                    text = text[:match.start(i)] + str(value) + text[match.end(i):]
        texts[page] = text
    for page, text in texts.items():
        if text != read(page):
            with open(f"{TOP}/{page}", "w", encoding="utf-8") as file:
                file.write(text)


if __name__ == "__main__":
    if sys.argv[1:] != ["--write"]:
        sys.exit("usage: tests/page_numbers.py --write")
    write_numbers_into_pages()
