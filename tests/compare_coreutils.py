#!/usr/bin/env python3
"""Compares the program b2sum with coreutils' program of that name on command lines:

- each option and each pair of options, with files, with a manifest, and with nothing, of which every fourth one without
  VULFSJOR_TEST_HUGE;
- each abbreviation of each long option;
- some of them with standard input closed;
- manifests with lines of many forms, and each length that `-l` may have, without VULFSJOR_TEST_HUGE only some with
  `--tag`;
- random ones, over files with names of any bytes and manifests with damaged lines: 200 of them for each program, and
  5,000 if VULFSJOR_TEST_HUGE is set.

Only the first program has others than random ones, and the others have a tenth of those: they are the same program,
with older builds of the library.
Standard output, standard error and the status have to be equal, in the locale C. docs/B2SUM.md lists the differences,
which this test avoids and tests/b2sum_files.py checks. It compares with coreutils 9.1, and is skipped with another.

With --by each PROGRAM is one for Windows, which the command COMMAND runs; then it compares every Nth command line of
options, and every Nth manifest whose names Windows has too.

usage: tests/compare_coreutils.py [--by COMMAND] [--every N] [PROGRAM..]
"""
import argparse
import concurrent.futures
import hashlib
import os
import random
import re
import shutil
import subprocess
import tempfile

import b2sum_support
import tap
from b2sum_support import damaged_line, programs_to_test

HUGE = bool(os.environ.get("VULFSJOR_TEST_HUGE"))
NAMES = [
    b"a", b"b.txt", b"with space", b"new\nline", b"back\\slash", b"cr\rname", b"quote'd", b'dq"x', b"caf\xc3\xa9",
    b"bad\xff\xfe", b"-dash", b"*star", b" lead", b"trail ", b"tab\there", b"a:b", b"(par)", b"x)y", b"#hash", b"~home",
    b"=eq", b"{", b"a{b", b"it's$", b"\x01ctl", b"q?m", b"\x7fdel", b"e" * 200, b"BLAKE2b (x) = 0", b"\\", b"\n",
]
# Names that cannot be opened or read: none such, a folder, a loop, a path through a file, a name that is too long.
UNREADABLE = [b"missing", b"miss\ning", b"no such", b"dir/none", b"", b"a/b", b"dir", b"loop", b"dangling", b"n" * 256,
              b"/proc/self/mem", b"secret"]
CHECKS = b"--ignore-missing --quiet --status --strict -w --warn --ig --qui".split()
SUMS = b"--tag -b -t -z --zero --binary --text --bin".split()
WRONG = [b"-l 8", b"-l 0", b"-l\n8", *rb"""--foo -x -l --length --tag=x --i=3 -lx -l-8 -l+8 --w -l99999999999999999999
    -l9999999999999999999999999 --strict --quiet --status -w --ignore-missing -bz -zt -qq -- -l'' --b --check=x --- -bx
    -l8x -l0x8 -l18446744073709551616 --length= -cz -wc""".split(), b"-l\xff", b"--\xff"]
OPTIONS = b"""-b -c -t -w -z -l8 -l512 -l520 -l7 -l0 --binary --check --ignore-missing --length=256 --quiet --status
    --strict --tag --text --warn --zero -- --nothing -x""".split()
LONG = b"binary check ignore-missing length=16 quiet status strict tag text warn zero".split()
# The abbreviations that our options --algorithm, --key-file, --personal, --progress, --salt, --seal, --sealed,
# --show-digests and --tree change.
OURS = (b"a", b"k", b"p", b"s", b"t")


def run_program(program, words, folder, data, user):
    """What the program prints to both streams, and its status. Without data standard input is closed."""
    first, more = program, {}
    if not isinstance(program, list):
        first, more = [b"b2sum"], {"executable": program, "user": user, "env": {"LC_ALL": "C", "PATH": "/usr/bin:/bin"},
                                   "preexec_fn": (lambda: os.close(0)) if data is None else None}
    done = subprocess.run([*first, *words], cwd=folder, input=data, timeout=60, capture_output=True, **more)
    return done.stdout, done.stderr, done.returncode


def difference_from_coreutils(program, words, folder, data=b"", user=None):
    """What differs between the program and that of coreutils, or nothing. coreutils begins some quoted names with
    quotes around nothing. Ours says which lines are of another algorithm."""
    ours, theirs = (run_program(it, words, folder, data, user) for it in (program, b"/usr/bin/b2sum"))
    ours = (ours[0], ours[1].replace(b": checksum line of another algorithm\n",
                                     b": improperly formatted BLAKE2b checksum line\n"), ours[2])
    plain = (theirs[0], re.sub(rb"^(b2sum: )''(?=')", rb"\1", theirs[1], flags=re.MULTILINE), theirs[2])
    return "" if ours in (theirs, plain) else f"{words} {data[:300] if data else data}\n  ours   {ours}\n" \
                                              f"  theirs {theirs}\n"


def write_file(folder, name, data):
    with open(os.path.join(os.fsencode(folder), name), "wb") as file:
        file.write(data)


# ---- A folder of files.

def random_name(rng):
    """A name of any bytes, but not of a quote and an unprintable byte: their quoting is a difference."""
    name = bytes(rng.choice(b"ab \\\n\r\t*-'\"()=#\x01\x7f\x80\xff\xc3") for _ in range(rng.randint(1, 8)))
    if b"'" in name and any(byte < 32 or byte > 126 for byte in name):
        name = name.replace(b"'", b"x")
    return re.sub(rb"^-[ab]+", lambda it: it[0].replace(b"a", b"b"), name)  # -a is an option of ours


def make_files(rng, folder):
    """Makes files with odd names, and what cannot be read. Returns the names of the files and their bytes."""
    names = rng.sample(NAMES, rng.randint(1, 5)) + [random_name(rng) for _ in range(rng.randint(0, 2))]
    sizes = [0, 1, 3, 127, 128, 129, 255, 256, 257, 1000] + [65535, 65536, 65537] * (rng.random() < 0.1)
    files = {name: rng.randbytes(rng.choice(sizes)) for name in names}
    for name, data in files.items():
        write_file(folder, name, data)
    os.mkdir(os.path.join(folder, b"dir"))
    os.symlink(b"loop", os.path.join(folder, b"loop"))
    os.symlink(b"nothing", os.path.join(folder, b"dangling"))
    os.close(os.open(os.path.join(folder, b"secret"), os.O_CREAT, 0o000))
    os.chmod(folder, 0o755)
    return files


# ---- Manifests.

def manifest_line_in_random_style(rng, name, data):
    """A line of a manifest for a file of this name, in one of three styles."""
    bits = rng.choice([512, 512, 8 * rng.randint(1, 64)])
    return os.fsencode(b2sum_support.manifest_line(
        os.fsdecode(name), data, bits, mark=rng.choice(" *"), tag=rng.random() < 0.3).removesuffix("\n"))


def is_read_differently_by_design(line):
    """Whether our program and coreutils read this line or the next ones differently: the tag is another name or has a
    length in another form, or an untagged line is badly escaped, or names `-` after one blank."""
    line = line.lstrip(b" \t")
    is_escaped = line.startswith(b"\\")
    line = line[is_escaped:]
    if line.startswith((b"BLAKE2b", b"BLAKE2s")):
        return not re.match(rb"BLAKE2b(-[1-9]\d*)? ?(\(|$)", line)
    if re.fullmatch(rb"[0-9a-fA-F]*[ \t]-\r?", line):
        return True
    return is_escaped and not re.fullmatch(rb"([^\\]|\\[\\nr])*", line, flags=re.DOTALL)


def has_one_byte_before_name(line):
    """Whether an untagged line has one byte before its name, so that it decides so for the manifests after it too, in
    coreutils and not here."""
    line = re.sub(rb"^[ \t]*\\?", b"", line).removesuffix(b"\r")
    return bool(re.match(rb"[0-9a-fA-F]+[ \t](?![ *].)", line, flags=re.DOTALL))


def random_manifest(rng, files, is_only, is_input=False):
    """A manifest of some of these files and of others, a share of whose lines is damaged. If it is not the only one, or
    is standard input and names that, no line has one byte before the name."""
    lines, share, names_input = [], rng.choice([0.0, 0.0, 0.1, 0.4]), not is_input or rng.random() < 0.5
    is_only = is_only and not (is_input and names_input)
    for _ in range(rng.randint(0, 9)):
        others = UNREADABLE[:-2] + [b"-"] * names_input
        name = rng.choice(others if rng.random() < 0.2 else list(files))
        line = manifest_line_in_random_style(rng, name, files.get(name, b""))
        line = damaged_line(rng, line) if rng.random() < share else line
        lines.append(b"x" if is_read_differently_by_design(line) or not is_only and has_one_byte_before_name(line)
                     else line)
    text = (b"\r\n" if rng.random() < 0.1 else b"\n").join(lines)
    return text + (rng.choice([b"\n", b"\n", b"\n", b"", b"\n\n", b"\r\n"]) if lines else b"")


# ---- Command lines.

def random_check_arguments(rng, folder, files):
    options = [rng.choice([b"-c", b"--check", b"--ch"])] + [it for it in CHECKS if rng.random() < 0.2]
    if rng.random() < 0.05:
        options.append(rng.choice([b"-z", b"--tag", b"-b", b"-t", b"-l0"]))
    names, data, count = [], b"", rng.choice([0, 1, 1, 1, 2])
    reads_input = not count or rng.random() < 0.15
    for k in range(count):
        names.append(rng.choice([b"sums", b"my sums", b"s'ums", b"s\nums"]) + b"%d" % k)
        write_file(folder, names[-1], random_manifest(rng, files, count + reads_input == 1))
    if reads_input:
        data = random_manifest(rng, files, not count, True)
        names += [b"-"] if names else []
    if rng.random() < 0.1:
        names.append(rng.choice([b"missing", b"dir", b"secret", b"loop"]))
    return options, names, data


def random_digest_arguments(rng, files):
    options = [it for it in SUMS if rng.random() < 0.15]
    if rng.random() < 0.5:
        bits = b"%d" % rng.choice([8 * rng.randint(0, 66), rng.randint(0, 600), 256])
        options += rng.choice([[b"-l", bits], [b"-l" + bits], [b"--length=" + bits], [b"--length", bits],
                               [b"--len=" + bits]])
    names = rng.choices(list(files), k=rng.randint(0, 4))
    names += [rng.choice(UNREADABLE)] if rng.random() < 0.2 else []
    names += [b"-"] if rng.random() < 0.15 else []
    return options, names, rng.randbytes(rng.choice([0, 5, 700] + [70000] * (rng.random() < 0.1)))


def random_command(rng, folder, files):
    options, names, data = random_check_arguments(rng, folder,
                                                  files) if rng.random() < 0.55 else random_digest_arguments(rng, files)
    if rng.random() < 0.06:
        options.append(rng.choice([it for it in WRONG if not requires_digest_length([*options, it])]))
    rng.shuffle(names)
    names = [b"./" + it if it.startswith(b"-") and it != b"-" and rng.random() < 0.7 else it for it in names]
    if rng.random() < 0.15 and b"-l" not in options and b"--length" not in options:
        words = options + names
        rng.shuffle(words)
        return words, data
    return options + ([b"--"] if rng.random() < 0.1 else []) + names, data


def compare_random_run(program, seed):
    rng = random.Random(seed)
    with tempfile.TemporaryDirectory() as folder:
        files = make_files(rng, os.fsencode(folder))
        words, data = random_command(rng, folder, files)
        said = difference_from_coreutils(program, words, folder, data, 65534 if os.geteuid() == 0 else None)
    return said and f"seed {seed}: {said}"


def requires_digest_length(words):
    """Whether these are words of a check that demands a length, which that of coreutils never does."""
    lengths = [re.fullmatch(rb"(?:-l|--l\w*=)\s*\+?(\d+)", it) for it in words]
    return any(re.fullmatch(rb"-[bctwz]*c[bctwz]*|--c\w*", it) for it in words) and any(
        it and int(it[1]) in range(8, 513, 8) for it in lengths)


def option_combinations():
    """The command lines of each option, each pair and each abbreviation, without their files."""
    yield from ([one] for one in OPTIONS)
    yield from ([one, two] for one in OPTIONS for two in OPTIONS if not requires_digest_length([one, two]))
    yield from ([one, b"-c", two] for one in CHECKS for two in CHECKS)
    for option in LONG:
        name, equals, value = option.partition(b"=")
        for end in range(1, len(name) + 1):
            if name[:end] not in OURS:
                yield [b"--" + name[:end] + equals + value]
                yield [b"--" + name[:end] + b"=x", b"-c"]


def runs_of_each_option(folder, every):
    write_file(folder, b"one", b"abc")
    lines = subprocess.run(["/usr/bin/b2sum", "one", "--tag", "one"], cwd=folder, stdout=subprocess.PIPE).stdout
    lines += b"ab  none\nwrong line\n" + b"0" * 128 + b"  one\n"
    write_file(folder, b"sums", lines)
    return [(words + end, lines) for words in option_combinations()
            for end in ([b"one", b"two"], [b"sums"], [])][::every]


def runs_with_closed_input(folder):
    """Command lines with standard input closed, so that the first file that is opened has its number."""
    digits = hashlib.blake2b(b"abc").hexdigest().encode()
    write_file(folder, b"one", b"abc")
    for name, names in ((b"sums", (b"one", b"one")), (b"input", (b"one", b"-", b"one")), (b"more", (b"-", b"-"))):
        write_file(folder, name, b"".join(digits + b"  " + it + b"\n" for it in names))
    return [([*options, *names], None) for options in ([], [b"-c"], [b"-c", b"--status"])
            for names in ([], [b"-"], [b"one"], [b"one", b"-"], [b"-", b"one"], [b"-", b"-"], [b"none", b"-"],
                          [b"sums"], [b"input"], [b"more"], [b"sums", b"input"], [b"input", b"sums"])]


# Lines for a file `f` of the bytes abc, and what is almost one: HALF, WHOLE and such are digests, in digits.
LINES = rb"""WHOLE|WHOLE |WHOLE  |WHOLE *|WHOLE f|WHOLE  f|WHOLE *f|WHOLE\tf|WHOLE\t f|WHOLE   f|WHOLE  f |WHOLE  f\r
WHOLE  f\r\r|UPPER  f|HALF  f|HALF *f|ODD  f|LESS  f|WHOLE0  f|WHOLE00  f|0  f|00  f| HALF  f|\tHALF  f|\\HALF  f
\\HALF  f\\n|\\HALF  f\\|\\HALF  \\\\f| \\HALF  f|#HALF  f||#| #|x|NONE  f|HALFf|HALF\n  f|HALF  ./f|HALF  -|HALF  none
BLAKE2b (f) = WHOLE|BLAKE2b-256 (f) = HALF|BLAKE2b (f) = HALF|BLAKE2b-256 (f) = WHOLE|BLAKE2b-512 (f) = WHOLE
BLAKE2b(f)= WHOLE|BLAKE2b (f)= WHOLE|BLAKE2b(f) = WHOLE|BLAKE2b   (f) = WHOLE|BLAKE2b (f)  =  WHOLE
BLAKE2b (f)\t=\tWHOLE|BLAKE2b (f) WHOLE|BLAKE2b (f) =WHOLE|BLAKE2b (f = WHOLE|BLAKE2b f) = WHOLE|BLAKE2b () = WHOLE
BLAKE2b (|BLAKE2b|BLAKE2b-|BLAKE2b-256|BLAKE2b-256 |BLAKE2b-256 (f)|BLAKE2b-256 (f) =
BLAKE2b-0 (f) = |BLAKE2b-8 (f) = 6b|BLAKE2b-7 (f) = 6b|BLAKE2b-520 (f) = WHOLE00|BLAKE2b-4294967296 (f) = HALF
BLAKE2b-99999999999999999999 (f) = HALF|BLAKE2b-256 (f) = HIGH|BLAKE2b-256 (f) = HALF |\\BLAKE2b-256 (f) = HALF
\\BLAKE2b-256 (\\\\f) = HALF|blake2b (f) = WHOLE|BLAKE2s (f) = WHOLE|BLAKE2b (f) = x) = WHOLE|SHA512 (f) = WHOLE
BLAKE2sp (f) = WHOLE"""


def manifest_line_forms():
    """Manifests for a file `f` of the bytes abc: lines of each form, what is almost one, and mixtures of them."""
    half, whole = (hashlib.blake2b(b"abc", digest_size=size).hexdigest().encode() for size in (32, 64))
    digests = {b"HALF": half, b"WHOLE": whole, b"UPPER": whole.upper(), b"ODD": half[:-1], b"LESS": half[:-2],
               b"HIGH": half.upper(), b"NONE": half.replace(b"a", b"g"), rb"\t": b"\t", rb"\r": b"\r", rb"\n": b"\n",
               rb"\\": b"\\"}
    pattern = b"|".join(map(re.escape, digests))
    lines = [re.sub(pattern, lambda it: digests[it[0]], line) for line in re.split(rb"[|\n]", LINES)]
    yield from (line + b"\n" for line in lines)
    yield from (line + b"\n" + half + b"  f\n" + half + b" f\n" for line in lines)
    yield from (half + b" f\n" + line + b"\n" + half + b"  f\n" for line in lines)
    yield from (b"", b"\n", b"\n\n", b"\r\n", half + b"  f", half + b"  f\n\n" + whole + b"  f", b"#\n" * 3, b"x\n" * 3)


def runs_of_manifest_forms(folder, by_windows, every):
    """Manifests of many forms, and lengths."""
    write_file(folder, b"f", b"abc")
    runs = [([b"-c", *more], text) for text in manifest_line_forms() for more in ([], [b"-w", b"--strict"])]
    runs += [([b"-l", b"%d" % bits, *more, b"f"], b"") for bits in range(0, 1025) for more in ([], [b"--tag"])
             if bits % 56 == 0 or bits < 20 or bits % 8 == 0 and (HUGE or not more and bits < 530)]
    if by_windows:  # a name of Windows ends in no blank
        runs = [it for it in runs if not re.search(rb"f[ \r](\n|\))", it[1])][::every]
    return runs


def compare_runs(program, pool, title, runs_in, *given):
    """Compares the command lines, with their inputs, that a function makes for a folder."""
    with tempfile.TemporaryDirectory() as folder:
        runs = runs_in(folder, *given)
        said = list(pool.map(lambda run: difference_from_coreutils(program, run[0], folder, run[1]), runs))
    tap.result(not any(said), f"{program}: {len(runs)} {title}", "".join(said)[:4000])


def main():
    parser = argparse.ArgumentParser()
    parser.add_argument("--by")
    parser.add_argument("--every", type=int, default=1)
    parser.add_argument("program", nargs="*")
    given = parser.parse_args()
    peer = shutil.which("b2sum", path="/usr/bin")
    version = subprocess.run([peer, "--version"], stdout=subprocess.PIPE, text=True).stdout if peer else ""
    if not version.startswith("b2sum (GNU coreutils) 9.1\n"):
        tap.result(True, "command lines compared with coreutils' b2sum", skipped="no b2sum of coreutils 9.1")
        tap.finish()
    pool = concurrent.futures.ThreadPoolExecutor(len(os.sched_getaffinity(0)))
    options, forms = "command lines of options and pairs of them", "manifests and lengths"
    if given.by:
        for program in given.program:
            compare_runs([given.by, program], pool, options, runs_of_each_option, given.every)
            compare_runs([given.by, program], pool, forms, runs_of_manifest_forms, True, given.every)
        tap.finish()
    with programs_to_test(given.program) as built:
        for number, program in enumerate(built):
            if number == 0:
                compare_runs(program, pool, options, runs_of_each_option, 1 if HUGE else 4)
                compare_runs(program, pool, "command lines without standard input", runs_with_closed_input)
                compare_runs(program, pool, forms, runs_of_manifest_forms, False, 1)
            runs = (5000 if HUGE else 200) // (10 if number else 1)
            said = list(filter(None, pool.map(lambda seed: compare_random_run(program, seed), range(runs))))
            tap.result(not said, f"{program}: {runs} random command lines", f"{len(said)} differ\n" + "".join(said[:9]))
    tap.finish()


main()
