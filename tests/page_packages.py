"""What pages say of packages and systems, and what packages repeat: how each language calls a parameter
(docs/GLOSSARY.md), lengths and limits, and the systems that the library and the programs are for. Not a program."""
import functools
import io
import os
import re
import subprocess
import tempfile

from common import TOP, Unreadable, read
from page_sources import CaseValues, only_group_of_match, constant_in_file, power_of_two_in_file

PAGE = "docs/GLOSSARY.md"
# Each column: the files in which its names are declared, and how.
COLUMNS = {
    "C": ("c/include/vulfsjor.h", r"\b(?:size_t |uint\d+_t |int |void \*){}[,;)]|_{}\("),
    "C++": ("c/include/vulfsjor.hpp c/include/vulfsjor.h", r"[\w>] {}[ ;=(]"),
    "Rust": ("rust/src/params.rs rust/src/tree_params.rs", r"\bpub {}: |\bpub fn {}\(self|\bnew\({}: "),
    "Python": ("python/vulfsjor/_library.pyi", r"\b{}: "),
    "JavaScript": ("js/index.d.ts", r"\b{}\??: "),
    "b2sum": ("crates/b2sum_commands/src/option_names.rt", r'b"{}"'),
    "b2": ("crates/b2_commands/src/help.rt", r"\b{}\b"),
}
# Each row, and what its names have in them: no name of another row does.
ROWS = {
    "length of the digest": r"outlen|output_size|digest|length$",
    "length of an output of BLAKE2X": r"xoflen|output|length$",
    "key": "key", "salt": "salt", "personalization": "person", "length of a leaf": "leaf|tree|LEAF",
    "length of an inner node's digest": "inner", "flag of the last node": "last",
}


def wrong_parameter_names():
    """The names of the parameters in each language (docs/GLOSSARY.md)"""
    table = re.search(r"(?m)^parameter  (.*)\n((?:.*  .*\n)+)```$", read(PAGE))
    if not table:
        raise Unreadable(f"{PAGE}: no table of names")
    columns = re.split("  +", table[1].strip())
    rows = [re.split("  +", line) for line in table[2].splitlines()]
    if columns != list(COLUMNS) or [row[0] for row in rows] != list(ROWS) or {*map(len, rows)} != {len(COLUMNS) + 1}:
        yield f"{PAGE}: the table of names has other rows or columns: {columns}, {[row[0] for row in rows]}"
        return
    for row, *cells in rows:
        for column, cell in zip(COLUMNS, cells):
            names = [name.lstrip("-").rstrip("=") for name in cell.split(", ") if name != "none"]
            files, form = COLUMNS[column]
            text = "".join(map(read, files.split()))
            for name in names:
                if not re.search(form.replace("{}", re.escape(name)), text):
                    yield f"{PAGE}: {files} declares no {name}, as {column} calls the {row}"
                if not re.search(ROWS[row], name):
                    yield f"{PAGE}: {name} is no name of the {row}"


# How each package has the lengths of hashes: its file, a form with the hash in small and in large letters and with a
# name, the names of the last lengths, and the hashes. BLAKE2bp has the limits of its family in Rust.
LENGTHS = ("block_bytes", "output_bytes", "key_bytes", "salt_bytes")
IN_JAVASCRIPT = ("blockLength", "digestLength", "keyLength", "saltLength")
FAMILIES, PARALLEL = ("blake2b", "blake2s"), ("blake2bp", "blake2sp")
FORMS = (
    ("c/include/vulfsjor.h", r"\bVULFSJOR_{large}_{name} = (\d+),", ("BLOCKBYTES", "OUTBYTES", "KEYBYTES", "SALTBYTES"),
     FAMILIES + PARALLEL),
    ("js/src/engine.js", r"export const {large}_NUMBERS = [^{{]*{{[^}}]*\b{name}: (\d+),", IN_JAVASCRIPT, FAMILIES),
    ("js/src/whole_module.js", r"export const {large} = [^{{]*{{[^}}]*\b{name}: (\d+),", IN_JAVASCRIPT, PARALLEL),
    ("python/src/library.c", r"(?m)^TYPE\({small}, {name},", (r"(\d+)", r"(\d+)", r"\d+, (\d+)"),
     FAMILIES + PARALLEL),
    ("rust/src/params.rs", r"const {large}: Self = FamilyLimits {{[^}}]*\b{name}: (\d+),",
     ("output_size", "output_size", "salt"), FAMILIES),
)


def wrong_numbers_in_packages():
    """The numbers that packages repeat: lengths of each hash, the longest message of a tree, threads"""
    for path, form, names, kinds in FORMS:
        for length, name in zip(LENGTHS[-len(names):], names):
            for kind in kinds:
                number = only_group_of_match(form.format(small=kind, large=kind.upper(), name=name), read(path), path)
                wanted = CaseValues("blake2_simd", "Family", length)[kind[:7]]
                if number != wanted:
                    yield f"{path}: {length} of {kind} is {number}, and the definition has {wanted}"
    limit = power_of_two_in_file("crates/blake2_tree/src/limits.rt", "MESSAGE_LIMIT: u64 = ")
    for path, before in (("rust/src/tree_params.rs", "MOST_BYTES: u64 = "), ("js/index.js", "const LIMIT = "),
                         ("js/src/threads.js", "const LONGEST_MESSAGE = ")):
        if power_of_two_in_file(path, before) != limit:
            yield f"{path}: {before}is another limit than that of crates/blake2_tree"
    for path, name, there in (("js/src/platform.js", "MOST_THREADS", "MOST_THREADS"),
                              ("rust/src/threads.rs", "LEAST_BYTES", "LEAST_BYTES"),
                              ("rust/src/threads.rs", "PART_BYTES", "PART_BYTES"),
                              ("rust/src/threads.rs", "WAITING_BYTES", "WAITING_BYTES"),
                              ("rust/src/tree_file.rs", "MOST_BUFFER_BYTES", "MOST_BUFFER_BYTES"),
                              ("python/vulfsjor/_files.py", "_MOST_TREE_BYTES", "MOST_BUFFER_BYTES"),
                              ("python/vulfsjor/_files.py", "_LONG_FILE_BYTES", "LEAST_BYTES")):
        if constant_in_file(path, name) != constant_in_file("c/threads.c", there):
            yield f"{path}: {name} is not {there} of C"


# The scripts that build, with arguments that name a file or a folder. That for b2sum is as that for b2.
BUILDING = {"the library": ("c/install.sh", "{}"), "`b2`": ("b2", "--build", "{}")}


@functools.cache
def script_result_for_machine(script, target):
    """What a script, for a compiler that says this of its machine and then fails, compiles and says."""
    with tempfile.TemporaryDirectory() as folder:
        fake, calls = os.path.join(folder, "cc"), os.path.join(folder, "calls")
        with open(fake, "w", encoding="utf-8") as file:
            file.write(f'#!/bin/sh\n[ "$*" != "-E -P -" ] || {{ echo 8; exit; }}\n'
                       f'[ "$*" = -dumpmachine ] || {{ echo "$*" >>{calls}; exit 1; }}\necho {target}\n')
        os.chmod(fake, 0o755)
        words = [word.format(os.path.join(folder, "made")) for word in BUILDING[script]]
        done = subprocess.run([os.path.join(TOP, words[0]), *words[1:]], env={**os.environ, "CC": fake},
                              capture_output=True, text=True, check=False)
        with open(calls, encoding="utf-8") if os.path.exists(calls) else io.StringIO() as file:
            return file.read() + done.stderr


# Each row of docs/PORTABLE.md: what its compiler says of the machine, and the words of a test of the library, of the
# crate for Rust, and of the module for Python there, each with its file. A cell says "yes" or "tested" if the file has
# the words.
PLATFORMS = {
    "Linux, x86-64": ("x86_64-linux-gnu", "c/tests/library.sh cc", "rust/run_tests.sh cargo",
                      "python/run_tests.sh python3"),
    "Linux, 64-bit ARM": ("aarch64-linux-gnu", "c/tests/aarch64.sh aarch64-linux-gnu-gcc",
                          "rust/run_tests.sh aarch64-unknown-linux-gnu",
                          "python/tests/test_build.py aarch64-linux-gnu-gcc"),
    "Linux with musl, x86-64": ("x86_64-linux-musl", "tests/busybox.sh musl-gcc", "rust/run_tests.sh musl",
                                "python/run_tests.sh musl"),
    "Windows, x86-64": ("x86_64-w64-mingw32", "c/tests/windows.sh x86_64-w64-mingw32", "c/tests/windows.sh cargo",
                        "python/run_tests.sh mingw"),
    "macOS, x86-64 and ARM": ("arm64-apple-darwin23", "c/tests/macos.sh apple", "c/tests/macos.sh cargo",
                              "python/run_tests.sh apple"),
    "Windows, ARM": ("aarch64-w64-mingw32", "c/tests/windows.sh aarch64-w64-mingw32", "c/tests/windows.sh aarch64-pc",
                     "python/run_tests.sh mingw"),
    "riscv64, s390x, ppc64el, on Linux": ("s390x-linux-gnu", "c/tests/portable.sh s390x", "rust/run_tests.sh s390x",
                                          "python/run_tests.sh s390x"),
    "i386, armhf, on Linux": ("arm-linux-gnueabihf", "c/tests/portable.sh armhf", "rust/run_tests.sh arm-unknown",
                              "python/run_tests.sh armhf"),
    "every other processor": ("mips64el-linux-gnuabi64", "", "", ""),
    "FreeBSD, NetBSD, OpenBSD, DragonFly, Android": ("x86_64-unknown-freebsd14", "", "", ""),
}


def library_kind_for_machine(target):
    """What the library is for a machine: assembly or portable C, and whether it has programs and threads there."""
    if "/dist/c/vulfsjor.c" in script_result_for_machine("the library", target):
        return "library, portable C"
    return "library without threads" if "there is no build for" in script_result_for_machine("`b2`", target) else "yes"


# The sentence of each page that says for which systems the library and the programs are.
SENTENCES = {
    "README.md": r"\*\*Platforms\*\* (.*?); other processors",
    "docs/PORTABLE.md": r"The programs `b2` and `b2sum` are for ([^.]*)\.",
    "docs/B2SUM.md": r"The program is for ([^.]*)\.",
    "dist/README.md": r"Each text is for (.*?)\.",
}


def wrong_system_names():
    """The systems that the pages name for the library and the programs, with those that the scripts build for"""
    wanted = {name.split()[0].strip(",") for name,
              (target, *_) in PLATFORMS.items() if library_kind_for_machine(target) == "yes"}
    for page, pattern in SENTENCES.items():
        named = set(re.findall("Linux|Windows|macOS", only_group_of_match(pattern, " ".join(read(page).split()), page)))
        if named != wanted:
            yield f"{page}: it names {sorted(named)}, and {sorted(wanted)} have builds"


def has_assembly_in_rust(target):
    cfg = only_group_of_match(r"(?s)macro_rules! with_assembly .*?cfg\(all\((.*?)\)\)\]", read("rust/src/lib.rs"),
                   "rust/src/lib.rs")
    systems = {"linux": "-linux-", "macos": "-darwin", "windows": "-mingw"}
    known = [mark for system, mark in systems.items() if re.search(rf'target_os = "{system}"|\b{system}\b', cfg)]
    processors = re.findall(r'target_arch = "([\w|]+)"', cfg.replace("aarch64", "aarch64|arm64"))
    return any(mark in target for mark in known) and bool(re.match("|".join(processors), target))


def wrong_platform_cells():
    """The cells of docs/PORTABLE.md, with what is built and tested for each system"""
    page = "docs/PORTABLE.md"
    rows = {first.strip(): [cell.strip() for cell in rest.split("|")]
            for first, rest in re.findall(r"(?m)^\| ([^|]*) \|(.*)\|$", read(page))}
    for name, (target, *tests) in PLATFORMS.items():
        cells = rows.get(name, [])
        is_tested = [bool(re.search(rf"\b{words}\b", read(file)))
                     for file, words in map(str.split, filter(None, tests))]
        if [bool(re.match("yes|library|.*, tested", cell)) for cell in cells[:len(is_tested)]] != is_tested:
            yield f"{page}: {name} has {cells[:3]}, and of tests {is_tested}"
        built = library_kind_for_machine(target)
        if not cells or cells[0] != (built if not is_tested or is_tested[0] else "not tested"):
            yield f"{page}: {name} has {cells[:1]}, and what is built is {built!r}"
        elif cells[1].startswith("portable") == has_assembly_in_rust(target):
            yield f"{page}: {name} has {cells[1]!r} for Rust"
