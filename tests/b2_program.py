#!/usr/bin/env python3
"""Runs the program b2 as a shell does, and checks what no proof covers of its main: that it passes every argument and
the three streams on, and ends with the status that `run` returns. Then it runs each command within the memory that it
needs (docs/B2.md), and checks by a count of instructions whether `tree` hashes leaves in parallel.

Without PROGRAM it assembles those of dist/ that this processor runs, and after `rt ci` takes what that has built too.
Those that end in the number of an older build of the library, which are the same program, have only the last test.

usage: tests/b2_program.py [PROGRAM..]
"""
import hashlib
import os
import re
import shutil
import subprocess
import sys
import tempfile

import tap
from b2sum_support import ProgramRuns, programs_to_test
from common import TOP
from compare_b2_model import has_right_notes
from oracle import digests_of_leaf_range, tree_root

HUGE = bool(os.environ.get("VULFSJOR_TEST_HUGE"))
BLOCK = "00" * 128
WORDS = f"w 0000000001010040{' 0000000000000000' * 7}\n"  # the parameter words of b512
WRONG = (2, b"b2: wrong words\n")
CONFORMING = "| b2 | blake2b | 673 of 3641 | none |\n| b2 | blake2s | 552 of 3089 | none |\n"


def expect_run(runs, words, status, out, data=b"", **more):
    """A run that ends with this status and prints this, and the usage only after wrong words or digits."""
    got = runs.run(words, data, called="b2", **more)
    runs.expect(words, (got[2], got[0]) == (status, out) and has_right_notes(out, got[1]), got)


def manifest_line_of_build(program):
    """The line of dist/MANIFEST for the text that a program calls: that of its level, or of the processor."""
    processor = subprocess.run([os.path.join(TOP, "tests", "processor.sh")], capture_output=True, text=True, check=True)
    level = re.search(r"-(v[23])$", program) or re.search(r"(v[234])\n", processor.stdout)
    name = f"x86_64/vulfsjor-{level[1]}.s" if level else "aarch64/vulfsjor.s"
    with open(os.path.join(TOP, "dist", name), "rb") as file:
        return f"{hashlib.sha256(file.read()).hexdigest()}  {name}"


def test_empty_arguments_and_version(runs):
    """Arguments that are empty, and the version. tests/compare_b2_model.py has the others."""
    for words in ([], [""], ["", "sum", "b512"], ["sum", "b512", ""]):
        expect_run(runs, words, *WRONG)
    with open(os.path.join(TOP, "CHANGELOG.md"), encoding="utf-8") as page:
        version = re.search(r"^## ([0-9.]+)", page.read(), re.M)[1]
    build = "" if "/crates/" in runs.program else manifest_line_of_build(
        runs.program) + "\n"     # `rt ci` links no C of ours
    expect_run(runs, ["--version"], 0, f"b2 (Vulfsjor) {version}\n{build}".encode())
    runs.report_results("empty arguments, and the version")


def test_help_lists_commands_and_fits(runs):
    said = runs.run(["--help"])
    lines = said[0].decode().splitlines()
    runs.expect("--help", said[1:] == (b"", 0) and max(map(len, lines)) <= 100, said)
    runs.expect("its commands", [line.split()[0] for line in lines if re.match("  [a-z-]", line)] == [
        "sum", "script", "steps", "witness", "tree", "leaves", "root", "xof", "derive", "--help", "--version"], said)
    for word in ("-h", "help"):
        runs.expect(word, runs.run([word]) == said)
    runs.report_results("--help names every command")


def test_unusable_streams_end_with_errors(runs):
    """Streams that are closed, full or a folder, and arguments that are no text. `witness` and wrong words read no
    input; nothing more is printed if an output takes nothing."""
    full, failed = os.open("/dev/full", os.O_WRONLY), (1, b"b2: read failed\n")
    for words in ("sum b512", "script b512", "steps s256 key=01", "tree b512 4", "leaves 4 0 last", "root b512 4",
                  "xof xb 8", "derive 8 context"):
        expect_run(runs, words.split(), *failed, stdin=None, preexec_fn=lambda: os.close(0))
        expect_run(runs, words.split(), *failed, stdin=os.open(runs.folder, os.O_RDONLY))
    expect_run(runs, ["witness", "b512", "61", "62"], 0, b"none\n", stdin=None, preexec_fn=lambda: os.close(0))
    expect_run(runs, ["sum", "b512", "foo"], *WRONG, stdin=None, preexec_fn=lambda: os.close(0))
    for words in ("sum b512", "script b512", "steps s256", "tree b512 4", "leaves 4 0 last", "root b512 4",
                  "witness b512 61 62", "sum", "add", "--help", b"\x80"):
        words = words.split() if words != b"\x80" else [words]
        for got in (runs.run(words, b"f 0\n", stdout=full),
                    runs.run(words, b"f 0\n", stdout=None, preexec_fn=lambda: os.close(1))):
            wrong = WRONG[1] if words in (["sum"], ["add"]) else b""
            runs.expect([words, "no output"], got[2] == 1 and (not got[1] or has_right_notes(wrong, got[1])), got)
    for got in (runs.run(["sum"], stderr=full), runs.run(["sum"], stderr=None, preexec_fn=lambda: os.close(2))):
        runs.expect("no standard error", got == (WRONG[1], b"", 2), got)
    for words in (b"\xff", b"sum b512 key=\xc3(", b"sum b512 key=01 5 6 7 8 \xed\xa0\x80"):
        expect_run(runs, words.split(), 1, b"b2: no memory\n")
    os.close(full)
    runs.report_results("streams that are closed, full or a folder, and bytes that are no text")


# ---- Memory, by limits of address space.

def hex_lines_of_digests(digests):
    return "".join(digests[i:i + 64].hex() + "\n" for i in range(0, len(digests), 64))


def transcript_lines_over_zeros(size):
    """Of whole blocks."""
    return WORDS + "".join(f"e {end} {int(end == size)} {BLOCK}\n" for end in range(128, size + 1, 128))


def test_tree_of_one_byte_leaves(runs):
    """A tree whose leaves have a byte, of more than a MiB, which take long in the tests in Rattle."""
    message = bytes(i % 251 for i in range((1 << 20) + 1))
    expect_run(runs, ["tree", "b256", "1"], 0, f"{tree_root(message, 1, 32).hex()}\n".encode(), message)
    runs.report_results("a million leaves")


def test_commands_fit_in_memory_limits(runs):
    """What a command needs beyond the program: the KiB that are enough, and some that are too few, or None."""
    least = runs.least_memory_limit(["add", "b512"], (WRONG[1], b"b2: the first argument is not a command\n"
                                              b"Try 'b2 --help' for more information.\n", 2))
    small, data, large = (bytes(size << 20) for size in (4, 40, 64))
    leaves, calls, key = hex_lines_of_digests(digests_of_leaf_range(small, 64)), 65535, f"key={'42' * 64}"
    script = (f"u 0 {'00' * 2045}\n" * 1023 + "f 0\n").encode()
    nothing, message = hashlib.blake2b().hexdigest() + "\n", "0" * 131070
    longer = bytes((4 << 20) + 128)
    for enough, too_few, words, given, wanted in (
            # A fixed amount, or a piece: 64 KiB, or 17 leaves if these are longer, at most 16 MiB.
            (64, None, "sum b512", large, hashlib.blake2b(large).hexdigest() + "\n"),
            (64, None, "sum s256 key=0102", large, hashlib.blake2s(large, key=b"\1\2").hexdigest() + "\n"),
            *((room + 64, too_few, f"tree b512 {leaf}", data, tree_root(data, leaf).hex() + "\n")
              for room, too_few, leaf in ((64, None, (1 << 32) - 1), (64, None, 1 << 22), (17 * 64, None, 65536),
                                          (13312, None, 1 << 20), (16384, 8192, 3355443))),
            # The input, and 64 bytes for each leaf. The input is read into a list, which doubles as it grows.
            (6 << 10, 3 << 10, "leaves 65536 9 last", small,
             hex_lines_of_digests(digests_of_leaf_range(small, 65536, 9))),
            (10 << 10, 6 << 10, "leaves 64 0 last", small, leaves),
            (32 << 10, 8 << 10, "root b512 64", leaves.encode(), tree_root(small, 64).hex() + "\n"),
            # The input, and the transcript, which has about as many bytes.
            (10 << 10, 4 << 10, "steps b512", small, transcript_lines_over_zeros(len(small))),
            (14 << 10, None, "steps b512", longer, transcript_lines_over_zeros(len(longer))),
            # The input, its calls, the state of each slot and all digests: half of an update's text for its bytes, 96
            # bytes for each call, 64 more for a digest, and some 440 for a state.
            (7 << 10, 4 << 10, "script b512", script, hashlib.blake2b(bytes(2045 * 1023)).hexdigest() + "\n"),
            (6 << 10, None, "script b512", b"r 0\n" * calls, ""), (36 << 10, None, "script b512", b"c 0\n" * calls, ""),
            (36 << 10, 2 << 10, f"script b512 {key}", b"c 0\n" * calls, ""),
            (10 << 10, None, "script b512", b"d 0\n" * calls, nothing * calls)):
        endings = {enough: (wanted.encode(), b"", 0), too_few: (b"b2: no memory\n", b"", 1)}
        for kib in filter(None, endings):
            got = runs.run_in_memory_limit(least + kib, words.split(), given)
            runs.expect([kib, words[:40], len(given)], got == endings[kib], [part[:300] for part in got[:2]])
    # The two messages, as long as arguments can be: 65,535 bytes.
    words = [message, message[:-1] + "1"]
    said = runs.run(["add", *words])
    got = runs.run_in_memory_limit(runs.least_memory_limit(["add", *words], said) + 512, ["witness", "b512", *words])
    runs.expect("witness", got == (b"none\n", b"", 0), got)
    runs.report_results("memory")


# ---- Leaves in parallel, by a count of instructions.

def percent_of_parallel_instructions(path):
    """How many of 100 instructions of a run that callgrind counted are those of functions that hash several messages in
    parallel."""
    count, is_one, after_call = {True: 0, False: 0}, False, False
    with open(path, encoding="utf-8", errors="replace") as file:
        for line in file:
            if line.startswith("fn="):
                is_one = bool(re.match(r"fn=blake2_compress(::|\.\.)many", line))
            elif line[0].isdigit() and not after_call:
                count[is_one] += int(line.split()[1])
            after_call = line.startswith("calls=")
    return 100 * count[True] // sum(count.values())


def test_leaves_are_hashed_in_parallel(runs):
    """At least 75 in 100 instructions of `tree` are those that hash leaves in parallel, or none in the build for
    x86-64-v2, where one leaf after another is faster. No root tells which they were. Pieces have 17 leaves, and with
    leaves of 1 MiB 13, of which the last is closed alone."""
    name = os.path.basename(runs.program)
    # valgrind has no AVX-512, so the library's build for x86-64-v3 is chosen at most.
    level = name[-2:] if "-v" in name else subprocess.run(
        [os.path.join(TOP, "tests", "processor.sh")], stdout=subprocess.PIPE).stdout.decode().strip()[-2:]
    sizes = [(320 * 4096 + 1, 4096), (34 * 65536 + 1, 65536)]
    if HUGE or "-v" not in name:
        sizes.append(((26 << 20) + 1, 1 << 20))
    for size, leaf in sizes:
        out = runs.path("instructions")
        done = subprocess.run(
            ["valgrind", "--tool=callgrind", "--compress-strings=no", "--compress-pos=no",
             f"--callgrind-out-file={out}", runs.program, "tree", "b512", str(leaf)],
            input=bytes(size), stdout=subprocess.PIPE, stderr=subprocess.DEVNULL)
        share = percent_of_parallel_instructions(out)
        runs.expect([size, leaf, share], done.returncode == 0 and (share == 0 if level == "v2" else share >= 75) and
                   done.stdout == (tree_root(bytes(size), leaf).hex() + "\n").encode(), done)
    runs.report_results("leaves in parallel")


def test_conformance_cases_of_both_families(runs):
    """The conformance cases of BLAKE2b and BLAKE2s, by `sum` and `script`, and how many of them these have."""
    cases, tests = os.environ.get("VULFSJOR_CONFORMANCE"), os.path.join(TOP, "tests", "conformance")
    if not cases:
        cases = runs.path("cases")
        os.mkdir(cases)
        subprocess.run([os.path.join(tests, "write.py"), cases, "blake2b", "blake2s"], check=True)
    done = subprocess.run([os.path.join(tests, "others.py"), "--b2", runs.program, cases], capture_output=True)
    runs.expect("cases", done.stdout.decode() == CONFORMING, (done.stdout + done.stderr).decode())
    runs.report_results("the conformance cases")


def main():
    """Runs the tests of each program."""
    with programs_to_test(sys.argv[1:], "b2") as built:
        for program in built:
            tests = [test_leaves_are_hashed_in_parallel]
            if not shutil.which("valgrind"):
                tests.remove(test_leaves_are_hashed_in_parallel)
                tap.result(True, "leaves in parallel", skipped="no valgrind")
            if not re.search(r"b2-v\d$", program):
                tests += (test_empty_arguments_and_version, test_help_lists_commands_and_fits,
                          test_unusable_streams_end_with_errors, test_tree_of_one_byte_leaves,
                          test_commands_fit_in_memory_limits, test_conformance_cases_of_both_families)
            for test in tests:
                with tempfile.TemporaryDirectory() as folder:
                    test(ProgramRuns(program, folder))
    tap.finish()


main()
