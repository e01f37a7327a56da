#!/usr/bin/env python3
"""Runs the program b2sum with --recursive over folders. What it has to print is known from os.walk and hashlib. Folders
have names of any bytes, links in circles, pipes and many levels, are closed to the user, and change while they are
listed, and calls of the system fail (tests/b2sum_faults.c). With --check --sealed it reports what is not in the list.

Only the first program is tested: the others are the same program, with older builds of the library.

usage: tests/b2sum_folders.py [PROGRAM..]
"""
import collections
import errno
import functools
import itertools
import os
import random
import re
import resource
import shutil
import signal
import socket
import subprocess
import time

from b2sum_model import UNLISTED, files_and_errors_below, data_or_error_of_file, seal_line, warnings_for_counts
from b2sum_support import (
    check_result_line, environment_with_fault, manifest_line, longest_digest_bits, run_and_faults_said,
    run_program_tests, expected_file_output)

HUGE = bool(os.environ.get("VULFSJOR_TEST_HUGE"))
OTHER = "is not a regular file"
KEY = bytes(range(50, 82))
SEAL, CHECK = ["--seal", "--key-file", "key"], ["--check", "--sealed", "--key-file", "key"]
# Parts of names: those that lines or messages show in another form, that are sorted otherwise as text than as bytes,
# that are no UTF-8, and that look like options or like what the program writes before paths.
PARTS = ("a", "b.txt", "-c", "--raw", "with space", "new\nline", "back\\slash", "cr\rname", "quote'd", "caf\u00e9",
         "caf\udcff", "\udcff\udc80", "\U0001f600", "\uffee", "\U0010ff01", "\U0010ff00x", "\udcf4", "...", "..x",
         ".hidden", "~", "#", "*", "{", "b", "b-", "z" * 255)


def error_text(number):
    return os.strerror(number)


# ---- Folders, and what a run has to print.

@functools.cache
def names_read_by_shell(words):
    """The names that a shell reads. If they have no byte that it may read otherwise, they are as they are."""
    if re.fullmatch(rb"[\w./ -]*", words):
        return words.split()
    done = subprocess.run(["bash"], input=b'set -f; printf "%s\\0" ' + words, stdout=subprocess.PIPE)
    return done.stdout.split(b"\0")


def parse_messages(err):
    """The messages of the program: for each the name, as a shell reads it, and what is said of it; if that is of no
    file, only the latter."""
    parts = [text.removeprefix(b"b2sum: ").rpartition(b": ")[::2] for text in err.splitlines()]
    parts = [(b"" if name in (b"WARNING", b"write error") else name, what.decode()) for name, what in parts]
    names = iter(names_read_by_shell(b" ".join(name for name, _ in parts if name)))
    return [(os.fsdecode(next(names, b"?")) if name else "", what) for name, what in parts]


def has_output_and_messages(got, out, said, status):
    """Whether a run has printed this, and these messages, of which those of one kind are in this order."""
    found = parse_messages(got[1])
    return (got[0], got[2]) == (out, status) and sorted(found) == sorted(said) and all(
        [it for it in found if it[1] == kind] == [it for it in said if it[1] == kind] for kind in (OTHER, UNLISTED))


def recursive_options(tops):
    """The options for these folders, in several forms."""
    for number, top in enumerate(tops):
        yield from (["--recursive", top], [f"--recursive={top}"], ["--rec", top])[number % 3]


def expected_run(runs, tops, names=(), shape=(), data=b"", family="b", bits=0, is_sealed=False, **given):
    """What a run over these folders and files has to print, its messages, and its status."""
    files, others, errors = files_and_errors_below(runs.folder, tops)
    said, out = [*((name, OTHER) for name in others), *errors], b""
    status = int(bool(errors))
    for name in (*names, *files):
        found = data if name == "-" else data_or_error_of_file(runs.folder, name)
        if isinstance(found, int):
            said.append((name, error_text(found)))
            status = 1
        else:
            out += expected_file_output(name, found, shape, family, bits or longest_digest_bits(family), given)
    return out + seal_line(out, KEY) if is_sealed and not status else out, said, status


def expect_run_over_folders(runs, tops, names=(), words=(), data=b"", **more):
    """A run over these folders and files is as it has to be. Standard input has this data."""
    got = runs.run([*words, *more.get("shape", ()), *recursive_options(tops), "--", *names], data)
    wanted = expected_run(runs, tops, names, data=data, **more)
    runs.expect([*words, *more.items(), *tops, "--", *names], has_output_and_messages(got, *wanted), (got, wanted))


def expect_sealed_run_over_folders(runs, tops, names=()):
    expect_run_over_folders(runs, tops, names, SEAL, shape=["--tag"], is_sealed=True, key=KEY)


def sealed_list_of_files(files, family="b"):
    """The sealed list of files by their names."""
    text = os.fsencode("".join(manifest_line(name, data, longest_digest_bits(family), family, tag=True, key=KEY)
                               for name, data in files.items()))
    return text + seal_line(text, KEY)


def remove_file_or_folder(path):
    """Removes a file or a folder, if there is one."""
    if os.path.isdir(path):
        shutil.rmtree(path)
    elif os.path.lexists(path):
        os.remove(path)


def make_tree(runs, files=(), folders=(), links=(), pipes=()):
    """Makes these files, which have three times their name, and folders, links and pipes in the folder `tree`, which is
    new."""
    remove_file_or_folder(runs.path("tree"))
    for folder in ("", *folders, *map(os.path.dirname, files)):
        os.makedirs(runs.path(f"tree/{folder}"), exist_ok=True)
    for name in files:
        runs.write(f"tree/{name}", os.fsencode(name) * 3)
    for name, target in dict(links).items():
        os.symlink(target, runs.path(f"tree/{name}"))
    for name in pipes:
        os.mkfifo(runs.path(f"tree/{name}"))


# ---- Tests of lines.

def test_lines_are_sorted_by_name(runs):
    """One sequence of lines, sorted by the bytes of whole names, after those of the files that are named, with all
    options of hashing. Standard input is read only for `-`."""
    runs.write("key", KEY)
    make_tree(runs, ("b", "a/x", "a-b", "a/y/z", "a.b", "a0", "B", "c/d/e/f", "\udcff", "\u00e9", "~"),
              ("empty", "c/no"))
    runs.write("tree/large", bytes(3 << 20))
    runs.write("tree/blank", b"")
    for shape in ([], ["-b"], ["--tag"], ["-z"], ["-z", "--tag"], ["--no-names"], ["-z", "--no-names"]):
        expect_run_over_folders(runs, ["tree"], shape=shape)
        expect_run_over_folders(runs, ["tree"], ["b", "-", "a"], data=b"input", shape=shape)
    for family, bits in (("b", 128), ("s", 256), ("s", 8), ("bp", 512), ("sp", 64)):
        expect_run_over_folders(runs, ["tree"], words=["-a", f"blake2{family}", "-l", str(bits)], family=family,
                                bits=bits)
    expect_run_over_folders(runs, ["tree"], words=["--key-file", "key"], key=KEY)
    expect_run_over_folders(runs, ["tree"], words=["--salt", "0102", "--personal-text", "x"], salt=b"\1\2", person=b"x")
    expect_run_over_folders(runs, ["tree"], words=["--tree", "4096", "--threads", "2"], family="tree-4096")
    expect_run_over_folders(runs, ["tree"], words=["--progress"])
    for tops in (["tree"], ["tree", "tree"], ["tree", "tree/a"], ["tree/a", "tree"], ["tree/", "tree/a/", "tree//"],
                 ["./tree"], ["tree/a", "tree/c", "tree/empty"], ["tree/."], ["tree/a/.."], ["tree/empty"],
                 [runs.path("tree")], ["."], ["./", "tree"]):
        expect_run_over_folders(runs, tops, data=b"input")
        expect_run_over_folders(runs, tops, ["tree/b", "b", "missing", "tree/a/x"])
        expect_sealed_run_over_folders(runs, tops)
        expect_sealed_run_over_folders(runs, tops, ["b"])
    got = runs.run(["b", "--recursive", "tree/a", "a"])
    runs.expect("a folder between files", got == runs.run(["b", "a", "tree/a/x", "tree/a/y/z"]), got)
    folder = os.open(runs.folder, os.O_RDONLY)
    got = runs.run(["--recursive", "tree/empty"], stdin=folder)
    os.close(folder)
    runs.expect("standard input that cannot be read", got == (b"", b"", 0), got)
    runs.report_results("the lines of folders")


def test_long_and_odd_names(runs):
    """Names of any bytes and of the longest length, of files and of folders."""
    make_tree(runs, [*PARTS, *(f"in/{one}/{other}" for one in PARTS for other in {one, *PARTS[::3]})])
    for shape in ([], ["--tag"], ["-z"], ["--tag", "-z"]):
        expect_run_over_folders(runs, ["tree"], shape=shape)
    for part in PARTS:
        expect_run_over_folders(runs, [f"tree/in/{part}"])
        name = part[:200] + "'"
        os.rename(runs.path(f"tree/in/{part}"), runs.path(name))
        expect_run_over_folders(runs, [name])
    make_tree(runs, ["x" + os.fsdecode(bytes([byte])) for byte in range(1, 256) if byte != ord("/")])
    expect_run_over_folders(runs, ["tree"])
    expect_run_over_folders(runs, ["tree"], shape=["--tag"])
    runs.report_results("names of any bytes")


def test_special_files_are_named_not_opened(runs):
    """What is neither a file nor a folder is named before any file is read, and not opened: pipes that nobody fills,
    sockets, devices, and links, also in circles and to folders. A folder that is named may be a link."""
    runs.write("key", KEY)
    make_tree(runs, ("m", "d/m", "d/e/m"), (), {
        "loop": "loop", "up": "..", "self": ".", "d/top": "../../tree", "file": "m", "folder": "d", "none": "nothing",
        "with\nline": "m", "caf\udcff": "d", "a b": "m"}, ("pipe", "d/pipe", "-", "d/\n"))
    os.symlink("tree", runs.path("linked"))
    with socket.socket(socket.AF_UNIX) as server:
        server.bind(runs.path("s"))
    os.rename(runs.path("s"), runs.path("tree/socket"))
    for tops in (["tree"], ["tree", "tree/d", "linked", "tree/self", "tree/up/tree/folder", "tree/d/top/d"],
                 ["tree/folder"]):
        expect_run_over_folders(runs, tops)
        expect_run_over_folders(runs, tops, ["b", "tree/file"], shape=["--tag"])
        expect_run_over_folders(runs, tops, words=["--progress"])
        expect_sealed_run_over_folders(runs, tops)
    _, others, _ = files_and_errors_below(runs.folder, ["tree"])
    got = runs.run(["--recursive", "tree", "b"], stderr=subprocess.STDOUT)[0].splitlines()
    runs.expect("messages before all lines", [text.startswith(b"b2sum: ") for text in got] ==
               [True] * len(others) + [False] * 4, got)
    got = runs.run(["--recursive", "/dev/"], timeout=20)
    runs.expect("devices", ("/dev/null", OTHER) in parse_messages(got[1]), got)
    runs.report_results("what is neither a file nor a folder")


def test_recursive_refuses_other_options(runs):
    """Options that do not go with --recursive. Nothing is printed, and no folder is listed."""
    runs.write("key", KEY)
    make_tree(runs, ("m",), (), {}, ("pipe",))
    runs.write("sums", sealed_list_of_files({"tree/m": b"mmm"}))
    for words in (["--raw"], ["--check"], ["-c", "--strict"], ["-c", "--key-file", "key"], ["--sealed"],
                  ["-c", "--sealed"], ["--sealed", "--key-file", "key"], ["--raw", *CHECK], ["--raw", "--tag"]):
        for more in ([], ["sums"]):
            got = runs.run([*words, "--recursive", "tree", *more], timeout=20)
            runs.expect([*words, *more], got[0] == b"" and got[2] == 1 and got[1].startswith(b"b2sum: ") and
                       got[1].endswith(b"\nTry 'b2sum --help' for more information.\n") and b"pipe" not in got[1], got)
    got = runs.run(["b", "--recursive"])
    runs.expect("no folder", got[0] == b"" and got[2] == 1 and b"requires an argument" in got[1], got)
    runs.report_results("options that do not go with folders")


# ---- Folders that cannot be listed, and limits.

def test_unlistable_folder_fails_run(runs):
    """A folder that cannot be listed has a message and fails the run, and the others are read. Then nothing is
    sealed."""
    runs.write("key", KEY)
    make_tree(runs, ("m", "d/m"), (), {"loop": "loop", "file": "m", "none": "nothing"}, ("pipe",))
    reasons = {"none": errno.ENOENT, "tree/x/y": errno.ENOENT, "tree/none": errno.ENOENT, "tree/loop": errno.ELOOP,
               "b": errno.ENOTDIR, "tree/m": errno.ENOTDIR, "tree/m/": errno.ENOTDIR, "tree/file": errno.ENOTDIR,
               "tree/pipe": errno.ENOTDIR, "/dev/null": errno.ENOTDIR, "n" * 256: errno.ENAMETOOLONG,
               "x/" * 2050: errno.ENAMETOOLONG, "": errno.ENOENT, "-": errno.ENOENT}
    for (top, error), words in itertools.product(reasons.items(), ([], SEAL)):
        given = {"tag": True, "key": KEY} if words else {}
        lines = [os.fsencode(manifest_line(name, data_or_error_of_file(runs.folder, name), **given))
                 for name in ("b", "tree/d/m")]
        for names, tops in ((["b"], [top, "tree/d"]), (["b"], ["tree/d", top]), ([], [top])):
            got = runs.run([*words, *names, *recursive_options(tops)], b"input", timeout=20)
            wanted = b"".join(lines) if names else b"", [(top, error_text(error))], 1
            runs.expect([*words, *tops], has_output_and_messages(got, *wanted), got)
    runs.report_results("folders that cannot be listed")


def make_tree_without_permissions(runs):
    """Makes a folder in which another user may not list one folder, not use the names of another, and not read a file.
    Returns the options of a run by that user, and the messages for these."""
    make_tree(runs, ("m", "closed/m", "names/m", "names/d/m", "secret"), ("closed/d",))
    for name, mode in (("", 0o755), ("tree", 0o755), ("tree/closed", 0o311), ("tree/names", 0o444), ("tree/secret", 0)):
        os.chmod(runs.path(name), mode)
    user = {"user": 65534, "group": 65534, "extra_groups": []} if os.geteuid() == 0 else {}
    os.chown(runs.path("key"), *(65534, 65534) if user else (-1, -1))
    return user, [(f"tree/{name}", error_text(errno.EACCES)) for name in ("closed", "names/d", "names/m", "secret")]


def test_unreadable_parts_are_reported(runs):
    """What the user may not list or read has a message, and the rest is read."""
    runs.write("key", KEY)
    user, said = make_tree_without_permissions(runs)
    for words, more in (([], {}), (SEAL, {"tag": True, "key": KEY}), (["--progress"], {})):
        got = runs.run([*words, "--recursive", "tree"], **user)
        wanted = os.fsencode(manifest_line("tree/m", b"mmm", **more)), said, 1
        runs.expect(words, has_output_and_messages(got, *wanted), (got, wanted))
    runs.write("sums", sealed_list_of_files({"tree/m": b"mmm", "tree/names/m": b"names/m" * 3}))
    os.chmod(runs.path("sums"), 0o644)
    got = runs.run([*CHECK, "--recursive", "tree", "sums"], **user)
    wanted = (b"tree/m: OK\ntree/names/m: FAILED open or read\n", [
        ("tree/names/m", error_text(errno.EACCES)), ("", "1 listed file could not be read"),
        ("tree/closed", error_text(errno.EACCES)), ("tree/names/d", UNLISTED), ("tree/secret", UNLISTED)], 1)
    runs.expect("a check", has_output_and_messages(got, *wanted), (got, wanted))
    for name in ("closed", "names"):
        os.chmod(runs.path(f"tree/{name}"), 0o755)
    runs.report_results("what the user may not list or read")


def test_deep_folders_and_long_paths(runs):
    """200 levels, with few descriptors, and paths that are too long."""
    runs.write("key", KEY)
    levels = ["/".join(["level"] * count) for count in range(201)]
    make_tree(runs, [f"{level}/m" for level in levels], (), {f"{level}/up": ".." for level in levels})
    expect_run_over_folders(runs, ["tree"])
    expect_sealed_run_over_folders(runs, ["tree/level/", "tree"])
    wanted = expected_run(runs, ["tree"])
    for most in (4, 5, 6, 8, 12):
        got = runs.run(["--recursive", "tree"],
                       preexec_fn=lambda most=most: resource.setrlimit(resource.RLIMIT_NOFILE, (most, most)))
        runs.expect(["descriptors", most], has_output_and_messages(got, *wanted), got)
    for closed in itertools.chain.from_iterable(itertools.combinations(range(3), count) for count in (1, 2, 3)):
        got = runs.run(["--recursive", "tree/level"], preexec_fn=lambda: [os.close(file) for file in closed])
        out, said, status = expected_run(runs, ["tree/level"])
        if 1 in closed:
            out, said, status = b"", [*said, ("", error_text(errno.EBADF))], 1
        runs.expect(["closed", closed], has_output_and_messages(got, out, [] if 2 in closed else said, status), got)
    make_tree(runs)
    here, name, out = os.getcwd(), "tree", b""
    os.chdir(runs.path("tree"))
    for level in range(18):
        for file in ("m", "n" * 60):
            with open(file, "wb") as it:
                it.write(b"data")
            out += os.fsencode(manifest_line(f"{name}/{file}", b"data")) * (len(f"{name}/{file}") < 4096)
        os.mkdir("l" * 250)
        os.chdir("l" * 250)
        name += "/" + "l" * 250 if len(name) < 4096 else ""
    os.chdir(here)
    got, long_file = runs.run(["--recursive", "tree"]), f"{name[:-251]}/{'n' * 60}"
    said = [(name, error_text(errno.ENAMETOOLONG))] + [(long_file,
                                                        error_text(errno.ENAMETOOLONG))] * (len(long_file) > 4095)
    out = b"".join(sorted(out.splitlines(True), key=lambda it: it[130:]))
    runs.expect("too long", has_output_and_messages(got, out, said, 1), (got[1:], said))
    runs.report_results("deep folders")


def test_folder_of_many_files(runs):
    """20,000 files in one folder, which are printed and checked."""
    runs.write("key", KEY)
    make_tree(runs, [f"{number * 7919 % 20000}" for number in range(20000)])
    expect_run_over_folders(runs, ["tree"])
    expect_sealed_run_over_folders(runs, ["tree/"])
    files = {name: data_or_error_of_file(runs.folder, name)
             for name in files_and_errors_below(runs.folder, ["tree"])[0]}
    runs.write("sums", sealed_list_of_files(files))
    expect_check_of_list(runs, ["tree"], files)
    del files["tree/77"]
    expect_check_of_list(runs, ["tree"], files)
    runs.report_results("many files in a folder")


# ---- Checks.

def expect_check_of_list(runs, tops, listed, words=(), family="b"):
    """A check of a sealed list of files by their names, with these folders, is as it has to be."""
    files, others, errors = files_and_errors_below(runs.folder, tops)
    outcomes, said = [], []
    for name, data in listed.items():
        found = data_or_error_of_file(runs.folder, name)
        outcomes.append("FAILED open or read" if isinstance(found, int) else "OK" if found == data else "FAILED")
        said += [(name, error_text(found))] if isinstance(found, int) else []
    counts = collections.Counter({"unread": outcomes.count("FAILED open or read"),
                                  "different": outcomes.count("FAILED")})
    said += [("", it.removeprefix("WARNING: ")) for it in warnings_for_counts(counts) if "--status" not in words]
    unlisted = sorted({*files, *others} - {*listed}, key=os.fsencode)
    own, said = len(said), [*said, *errors, *((name, UNLISTED) for name in unlisted if "--status" not in words)]
    status = int(outcomes.count("OK") < len(listed) or bool(errors or unlisted))
    out = b"" if "--status" in words else os.fsencode("".join(
        check_result_line(name, it) for name, it in zip(listed, outcomes) if it != "OK" or "--quiet" not in words))
    runs.write("sums", sealed_list_of_files(listed, family))
    for last, data in (["sums"], b""), (["-"], sealed_list_of_files(listed, family)):
        got = runs.run([*CHECK, *words, *recursive_options(tops), *last], data)
        runs.expect([*words, *tops, *listed, *last], has_output_and_messages(got, out, said, status) and
                   parse_messages(got[1])[:own] == said[:own], (got, out, said, status))


def test_unlisted_files_fail_check(runs):
    """After a list, what is in the folders and not in it is reported, and fails the check."""
    runs.write("key", KEY)
    make_tree(runs, [*PARTS, "d/m", "d/e/m", "d/\n"], ("empty",))
    names = files_and_errors_below(runs.folder, ["tree"])[0]
    listed = {name: data_or_error_of_file(runs.folder, name) for name in names}
    for words in ([], ["--quiet"], ["--status"], ["--strict"], ["-w"], ["--ignore-missing"], ["--progress"]):
        expect_check_of_list(runs, ["tree"], listed, words)
        expect_check_of_list(runs, ["tree"], dict(list(listed.items())[1:]), words)
    for name in names:  # one is not in the list, or only one is
        expect_check_of_list(runs, ["tree"], {other: data for other, data in listed.items() if other != name})
        expect_check_of_list(runs, ["tree"], {name: listed[name]})
    for tops in (["./tree"], ["tree/"], ["tree//"], ["tree/d", "tree/empty"], ["tree/d/", "tree/empty"], ["tree/d/.."]):
        expect_check_of_list(runs, tops, listed)  # other names of the same files are not in the list
        expect_check_of_list(runs, tops, {name: data_or_error_of_file(runs.folder, name)
                                          for name in files_and_errors_below(runs.folder, tops)[0]})
    expect_check_of_list(runs, ["tree"], {name: listed[name] for name in reversed(names)})
    expect_check_of_list(runs, ["tree"], listed, ["-a", "blake2s"], "s")
    expect_check_of_list(runs, ["tree/d"], {"tree/d/m": b"x", **listed, "missing": b"", "tree/none": b""})
    expect_check_of_list(runs, ["tree", "none", "b", ""], listed)
    expect_check_of_list(runs, ["none"], listed, ["--status"])
    expect_check_of_list(runs, ["none"], listed, ["--quiet"])
    for name in ("link", "d/link", "with\nlink"):
        os.symlink("a", runs.path(f"tree/{name}"))
    os.symlink(".", runs.path("tree/d/self"))
    os.mkfifo(runs.path("tree/d/pipe"))
    os.mkfifo(runs.path("tree/\udcff pipe"))
    expect_check_of_list(runs, ["tree"], listed)
    expect_check_of_list(runs, ["tree"], listed, ["--status"])
    expect_check_of_list(runs, ["tree"], {"tree/link": b"a" * 3, **listed})  # a link that is in the list
    runs.report_results("what is in folders and not in the list")


def run_with_log(runs, words):
    """A run, and the opens and writes that it makes."""
    got = runs.run(words, env={**environment_with_fault(runs), "FAULT_LOG": runs.path("log")})
    with open(runs.path("log"), encoding="ascii") as file:
        log = file.read().splitlines()
    os.remove(runs.path("log"))
    return got, log


def test_wrong_seal_lists_no_folder(runs):
    """If the seal does not hold, only that is said, and no folder is listed."""
    runs.write("key", KEY)
    runs.write("key2", KEY[::-1])
    make_tree(runs, ("m", "n", "d/m"))
    good = sealed_list_of_files({"tree/m": b"mmm", "tree/n": b"nnn", "tree/d/m": b"d/m" * 3})
    lists = (good[:-1], good + b"\n", good[:-2] + b"x\n", good.replace(b"tree/n", b"tree/o"), b"",
             good[good.index(b"\n") + 1:])
    for words, text in (*((CHECK, text) for text in lists), ([*CHECK[:-1], "key2"], good)):
        runs.write("sums", text)
        got, log = run_with_log(runs, [*words, "--recursive", "tree", "sums"])
        runs.expect(text, got == (b"", b"b2sum: sums: the seal does not hold\n", 1) and "tree" not in "".join(log), log)
    runs.write("sums", good)
    got, log = run_with_log(runs, [*CHECK, "--recursive", "tree", "sums"])
    listed = [it for it in log if it.startswith("list ")]
    runs.expect("opened in this order", got[1:] == (b"", 0) and sorted(listed) == ["list tree", "list tree/d"] and
               log.index("list tree") > log.index("open tree/d/m"), (got, log))
    runs.report_results("seals that do not hold")


# ---- Folders that change, and calls that fail.

def run_changing_files_before_call(runs, words, call, at, change):
    """A run that stops before a call of the system, while this changes files."""
    process = subprocess.Popen(["b2sum", *words], executable=runs.program, cwd=runs.folder, stdin=subprocess.DEVNULL,
                               env=environment_with_fault(runs, call, at, at, -2), stdout=subprocess.PIPE,
                               stderr=subprocess.PIPE)
    end = time.monotonic() + 20
    while not (found := os.waitpid(process.pid, os.WUNTRACED | os.WNOHANG))[0] and time.monotonic() < end:
        time.sleep(0.001)
    is_stopped = found[0] and os.WIFSTOPPED(found[1])
    if is_stopped:
        change()
        os.kill(process.pid, signal.SIGCONT)
    try:
        out, said = process.communicate(timeout=20)
    except subprocess.TimeoutExpired:
        process.kill()
        out, said = process.communicate()
    os.remove(runs.path("out"))
    return (out, said, process.returncode) if is_stopped else (b"", b"it did not stop", None)


def write_other_content(path):
    with open(path, "wb") as file:
        file.write(b"other")


def changes_of_folder(runs):
    """Changes of a folder with the files `m` and `d/x`: for each the open before which it comes, what does it, the
    files that are read then, and the messages."""
    x, m = {"tree/d/x": b"d/x" * 3}, {"tree/m": b"mmm"}
    gone, no_folder, new = error_text(errno.ENOENT), error_text(errno.ENOTDIR), {"tree/d/new": b"other"}

    def replace_path(name, make):
        remove_file_or_folder(runs.path(name))
        make(runs.path(name))

    def change(function, name, *more):
        return lambda: function(runs.path(name), *more)

    def bound_replacement(name, make):
        return lambda: replace_path(name, make)
    yield "list tree", change(remove_file_or_folder, "tree"), {}, [("tree", gone)]
    yield "list tree", bound_replacement("tree", write_other_content), {}, [("tree", no_folder)]
    yield "list tree", bound_replacement("tree", os.mkdir), {}, []
    yield "list tree", change(remove_file_or_folder, "tree/d"), m, []
    yield "list tree/d", change(remove_file_or_folder, "tree/d"), m, [("tree/d", gone)]
    yield "list tree/d", bound_replacement("tree/d", write_other_content), m, [("tree/d", no_folder)]
    yield "list tree/d", bound_replacement("tree/d", os.mkfifo), m, [("tree/d", no_folder)]
    yield "list tree/d", bound_replacement("tree/d", os.mkdir), m, []
    yield "list tree/d", change(write_other_content, "tree/new"), {**x, **m}, []
    yield "list tree/d", change(write_other_content, "tree/d/new"), {**new, **x, **m}, []
    yield "list tree/d", change(remove_file_or_folder, "tree/m"), x, [("tree/m", gone)]
    yield "open tree/d/x", change(remove_file_or_folder, "tree/d/x"), m, [("tree/d/x", gone)]
    yield "open tree/d/x", change(remove_file_or_folder, "tree/d"), m, [("tree/d/x", gone)]
    yield "open tree/d/x", bound_replacement("tree/d/x", write_other_content), {"tree/d/x": b"other", **m}, []
    yield "open tree/d/x", bound_replacement("tree/m", os.mkdir), x, [("tree/m", error_text(errno.EISDIR))]
    yield "open tree/d/x", change(write_other_content, "tree/d/new"), {**x, **m}, []


def test_folders_that_change_during_run(runs):
    """Folders and files that go, come, or are replaced after they were listed or before they are opened."""
    runs.write("key", KEY)
    for words, given in ([], {}), (SEAL, {"tag": True, "key": KEY}):
        make_tree(runs, ("m", "d/x"))
        opens = [it for it in run_with_log(runs, [*words, "--recursive", "tree"])[1] if it != "write"]
        for event, change, files, said in changes_of_folder(runs):
            make_tree(runs, ("m", "d/x"))
            got = run_changing_files_before_call(runs, [*words, "--recursive", "tree"], "openat",
                                                 opens.index(event) + 1, change)
            out = os.fsencode("".join(manifest_line(name, data, **given) for name, data in files.items()))
            out += seal_line(out, KEY) if words and not said else b""
            runs.expect([*words, event, *files, said], has_output_and_messages(got, out, said, int(bool(said))),
                        (got, out, said))
    for at in (1, 2, 700, 1500, 2000):
        expect_run_while_folder_changes(runs, at)
    runs.report_results("folders that change")


def expect_run_while_folder_changes(runs, at):
    """Half of the files of a folder are removed while it is listed, and others come."""
    make_tree(runs, [f"{number:04}" for number in range(2000)])

    def change():
        for number in range(0, 2000, 2):
            os.remove(runs.path(f"tree/{number:04}"))
            runs.write(f"tree/new{number}", b"new")
    got = run_changing_files_before_call(runs, ["--recursive", "tree"], "readdir", at, change)
    stays = {os.fsencode(manifest_line(f"tree/{number:04}", b"%04d" % number * 3)) for number in range(1, 2000, 2)}
    comes = {os.fsencode(manifest_line(f"tree/new{number}", b"new")) for number in range(0, 2000, 2)}
    goes = {(f"tree/{number:04}", error_text(errno.ENOENT)) for number in range(0, 2000, 2)}
    lines, said = got[0].splitlines(True), parse_messages(got[1])
    names = [text[130:] for text in lines]
    runs.expect(["readdir", at],
                names == sorted({*names}) and stays <= {*lines} <= stays | comes and {*said} <= goes and
               len(said) == len({*said}) and got[2] == bool(said), got)


def test_failed_calls_never_give_wrong_lines(runs):
    """Each call fails in turn, in the short form each fourth, alone and with all later ones: no line is wrong, the
    status shows it, and nothing is sealed. A file is opened and read again that fails before its turn."""
    runs.write("key", KEY)
    make_tree(runs, [f"n{number}" for number in range(12)] + ["d/m", "d/e/m"])
    runs.write("sums", sealed_list_of_files({name: data_or_error_of_file(runs.folder, name)
                                             for name in files_and_errors_below(runs.folder, ["tree"])[0]}))
    calls = {"readdir": errno.EIO, "openat": errno.EMFILE, "readv": errno.EIO, "malloc": errno.ENOMEM,
             "realloc": errno.ENOMEM, "write": errno.ENOSPC}
    for words, (call, error) in itertools.product(
            (["--recursive", "tree"], [*SEAL, "--recursive", "tree"], [*CHECK, "--recursive", "tree/d", "sums"]),
            calls.items()):
        whole = runs.run(words)
        good = {*whole[0].splitlines(True), *(text[:-3] + b"FAILED open or read\n" for text in whole[0].splitlines(True)
                                              if text.endswith(b": OK\n"))}
        runs.expect(words, whole[2] == 0, whole)
        for at in itertools.count(1, 1 if HUGE else 4):
            found = [run_and_faults_said(runs, words, b"", call, at, last, error) for last in (at, 1 << 30)]
            if not found[0]:
                runs.expect([*words, call], at > 1, "it is never called")
                break
            for (got, said), is_one in zip(found, (True, False)):
                may_pass = is_one and (said == "+" or call in ("malloc", "realloc"))
                fails = got[2] == 1 and {*got[0].splitlines(True)} <= good and b"\n# sealed" not in got[0] and (
                    got[1] or call == "write")
                if call == "readdir":
                    fails = fails and b": " + error_text(error).encode() in got[1]
                runs.expect([*words, call, at, is_one, said], fails or may_pass and got == whole, got)
    whole = expected_run(runs, ["tree"])
    for call in ("readdir", "openat"):
        got = run_and_faults_said(runs, ["--recursive", "tree"], b"", call, 1, 3, errno.EINTR)
        runs.expect(["interrupted", call], got and has_output_and_messages(got[0], *whole), got)
    runs.report_results("each call fails")


# ---- Random runs.

def make_random_tree(runs, rng):
    """Makes a random folder `tree`."""
    make_tree(runs)
    folders = [""]
    for _ in range(rng.choice((0, 1, 3, 8, 20))):
        name = f"{rng.choice(folders)}/{rng.choice(PARTS)}"
        path, kind = runs.path(f"tree{name}"), rng.random()
        if os.path.lexists(path):
            continue
        if kind < 0.55:
            runs.write(f"tree{name}", rng.randbytes(rng.choice((0, 1, 100, 5000))))
        elif kind < 0.85:
            os.mkdir(path)
            folders.append(name)
        elif kind < 0.95:
            os.symlink(rng.choice((".", "..", "a", "loop", "/", runs.path("tree"))), path)
        else:
            os.mkfifo(path)
    return folders


def expect_random_check(runs, rng, tops):
    """A check of a list of most files, of which some have changed, and one may be missing."""
    files = files_and_errors_below(runs.folder, tops)[0]
    listed = {name: data_or_error_of_file(runs.folder, name) if rng.random() < 0.9 else b"other"
              for name in rng.sample(files, len(files)) if rng.random() < 0.9}
    if not listed or rng.random() < 0.2:
        listed["missing"] = b""
    expect_check_of_list(runs, tops, listed, rng.choice(([], ["--quiet"], ["--status"])))


def test_random_folders_match_expectation(runs):
    """Random folders, options and files."""
    runs.write("key", KEY)
    for seed in range(1000 if HUGE else 60):
        rng = random.Random(seed)
        folders = make_random_tree(runs, rng)
        tops = [f"tree{name}" + "/" * rng.choice((0, 0, 1)) for name in rng.sample(folders, rng.choice((0, 0, 1)))]
        tops = tops or ["tree" + "/" * rng.choice((0, 1))]
        expect_random_check(runs, rng, tops)
        tops += rng.choices([f"tree{name}" for name in folders] + ["missing", "b"], k=rng.choice((0, 0, 1, 2)))
        names = rng.choices(["a", "b", "-", "caf\udcff", "tree", "none"], k=rng.choice((0, 0, 1, 3)))
        names = [name for number, name in enumerate(names) if name != "-" or name not in names[:number]]
        if rng.random() < 0.3:
            expect_sealed_run_over_folders(runs, tops, [name for name in names if name != "-"])
            continue
        family = rng.choice(("b", "b", "b", "s", "bp", "sp"))
        bits = 8 * rng.randint(1, longest_digest_bits(family) // 8)
        shape = rng.choice([[], [], ["-b"], ["--tag"], ["-z"], ["-z", "--tag"], ["--no-names"]])
        expect_run_over_folders(runs, tops, names, ["-a", f"blake2{family}", "-l", str(bits)], b"input", shape=shape,
                                family=family,
              bits=bits)
    runs.report_results("random folders")


FAULTY = (test_wrong_seal_lists_no_folder, test_folders_that_change_during_run,
          test_failed_calls_never_give_wrong_lines)
run_program_tests((test_lines_are_sorted_by_name, test_long_and_odd_names, test_special_files_are_named_not_opened,
                   test_recursive_refuses_other_options, test_unlistable_folder_fails_run,
                   test_unreadable_parts_are_reported, test_deep_folders_and_long_paths, test_folder_of_many_files,
           test_unlisted_files_fail_check, test_random_folders_match_expectation, *FAULTY), faulty=FAULTY)
