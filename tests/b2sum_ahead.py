#!/usr/bin/env python3
"""Runs the program b2sum over several files, some of which it reads before their turn (docs/B2SUM.md, "Several files").
Nothing else may show that: lines, messages, their order and statuses are compared with hashlib, with the same run with
--progress, which reads no file early, with a check of the lines, and with b2sum of coreutils 9.1, if that has the
options. Then files change, and calls of the system fail, while they are read early (tests/b2sum_faults.c).

Only the first program is tested: the others are the same program, with older builds of the library.

usage: tests/b2sum_ahead.py [PROGRAM..]
"""
import collections
import errno
import functools
import itertools
import os
import random
import resource
import select
import shutil
import signal
import socket
import subprocess
import threading
import time

from b2sum_model import run_model_of_check, warnings_for_counts
from b2sum_support import (
    check_result_line, environment_with_fault, pipe_filled_by_commands, manifest_line, longest_digest_bits,
    run_and_faults_said, run_program_tests, run_with_fault_or_none, expected_file_output)

HUGE = bool(os.environ.get("VULFSJOR_TEST_HUGE"))
# How many random runs and manifests there are, and the number of the first, if it is not 0.
RANDOM = int(os.environ.get("VULFSJOR_TEST_RANDOM") or (2000 if HUGE else 300))
FIRST = int(os.environ.get("VULFSJOR_TEST_FIRST") or 0)
# The numbers of the rule by which files are read early: of the manual, and tests/page_numbers.py compares that.
LANES, MOST_FILES, MOST_BYTES, ENOUGH_BYTES = 8, 64, 1 << 20, 2 << 20
FIRST_ROOM, MOST_ROOM, WORTH_BYTES, MOST_PAUSE = 64 << 10, 4 << 20, 2 << 10, 1024
# Sizes around those of blocks, of reads and of the largest file that is read early.
SIZES = sorted({0, 1, 3, 1000, *(size + more for size in (64, 128, 192, 256, 4096, 65536, 131072, MOST_BYTES)
                                 for more in (-1, 0, 1))})


# ---- What a run has to print, and when it may open files.

def expected_output_parts(names, files, data=b"", shape=(), family="b", bits=512, **given):
    """What is printed for each name: its line or, if the file is an error, its message, and whether it is a line.
    Standard input has these bytes once."""
    for name in names:
        found = files[name] if name != "-" else data
        data = b"" if name == "-" else data
        if isinstance(found, int):
            yield False, os.fsencode(f"b2sum: {name or chr(39) * 2}: {os.strerror(found)}\n")
        else:
            yield True, expected_file_output(name, found, shape, family, bits, given)


def expected_run(parts):
    """What is printed to both streams, and the status."""
    parts = list(parts)
    out, said = (b"".join(text for is_line, text in parts if is_line == wanted) for wanted in (True, False))
    return out, said, int(bool(said))


def tagged_manifest_of_files(names, files, bits=512, family="b", **given):
    """The tagged lines of these files, as if one that cannot be read were empty."""
    return os.fsencode("".join(manifest_line(name, b"" if isinstance(files[name], int) else files[name], bits, family,
                                             tag=True,
                                    **given) for name in names))


def expected_check(names, files, found):
    """What is printed by a check of that manifest to both streams, and its status, if the files are what was found."""
    found = list(found)
    outcomes = ["FAILED open or read" if isinstance(it, int) else "OK" if it == files[name] else "FAILED"
                for name, it in zip(names, found)]
    said = [f"{name}: {os.strerror(it)}" for name, it in zip(names, found) if isinstance(it, int)]
    said += warnings_for_counts(collections.Counter({"unread": outcomes.count("FAILED open or read"),
                                          "different": outcomes.count("FAILED")}))
    return (os.fsencode("".join(map(check_result_line, names, outcomes))),
            os.fsencode("".join(f"b2sum: {it}\n" for it in said)), int(outcomes.count("OK") < len(names)))


# Runs that may read early, those that never do, and checks.
MODES = [], ["--progress"], ["-c"]


def arguments_of_mode(mode, names):
    """The words of a run over these names. A check reads their manifest from standard input."""
    return mode if "-c" in mode else [*mode, *names]


def expected_run_of_mode(mode, names, files, found):
    """What such a run has to print and its status, if the files are what was found: of a check, by the manifest of what
    they should be."""
    if "-c" in mode:
        return expected_check(names, files, found)
    return expected_run(part for name, it in zip(names, found) for part in expected_output_parts([name], {name: it}))


@functools.cache
def coreutils_b2sum_path():
    """The path of b2sum of coreutils 9.1, or nothing."""
    path = shutil.which("b2sum", path="/usr/bin")
    said = path and subprocess.run([path, "--version"], stdout=subprocess.PIPE).stdout
    return path if said and said.startswith(b"b2sum (GNU coreutils) 9.1\n") else None


def expect_same_output(runs, names, files, data=b"", words=(), shape=(), family="b", bits=0, **given):
    """Runs over these names, with standard input: as they have to be, in the order of all that is printed, with
    --progress, by coreutils, and as a check."""
    bits = bits or longest_digest_bits(family)
    parts = list(expected_output_parts(names, files, data, shape, family, bits, **given))
    wanted = expected_run(parts)
    options = ["-a", f"blake2{family}", *words, *shape, *(["-l", str(bits)] * (bits != longest_digest_bits(family)))]
    got = runs.run([*options, "--", *names], data, stderr=subprocess.STDOUT)
    runs.expect([*options, *names], got == (b"".join(text for _, text in parts), b"", wanted[2]), got)
    got = runs.run([*options, "--progress", "--", *names], data)
    runs.expect([*options, "--progress", *names], got == wanted, got)
    if coreutils_b2sum_path() and family == "b" and not given and not {"--raw", "--no-names"} & set(shape):
        done = subprocess.run(["b2sum", *options[2:], "--", *names], executable=coreutils_b2sum_path(), cwd=runs.folder,
                              input=data,
                              env={"LC_ALL": "C"}, capture_output=True)
        got = done.stdout, done.stderr, done.returncode
        runs.expect(["coreutils", *options, *names], got == wanted, got)
    listed = [name for name in names if name not in ("-", "")]
    if listed:
        got = runs.run([*options[:2], *words, "-c"], tagged_manifest_of_files(listed, files, bits, family, **given))
        runs.expect(["-c", *options, *listed], got == expected_check(listed, files, map(files.get, listed)), got)


def next_read_ahead_group(names, sizes, room):
    """The first of these names, which are a group in this room; the name after them, if its file ended the group; and
    whether that was opened, and the room was too short for it."""
    group, count = [], 0
    for name in names:
        size = sizes.get(name, 0)
        if len(group) % LANES == 0 and count >= ENOUGH_BYTES:
            break
        if not 1 <= size <= MOST_BYTES or count + size >= room:
            return group, [name], 1 <= size <= MOST_BYTES
        group.append(name)
        count += size
    return group, [], False


def expected_opens_and_writes(names, sizes):
    """The opens and writes of a run over these names, by the rule of the manual. A file that cannot be read has no
    size."""
    rest, width, room, pause = list(names), 1, FIRST_ROOM, 0
    while rest:
        most, width = width, min(2 * width, MOST_FILES)
        group, after, is_opened = [], rest[:1], False
        if min(most, len(rest)) >= LANES:
            group, after, is_opened = next_read_ahead_group(rest[:most], sizes, room)
            room = min(2 * room, MOST_ROOM) if is_opened else room
            is_worth = sum(map(sizes.get, group)) // WORTH_BYTES >= len(group) if group else is_opened
            pause = 0 if is_worth else min(2 * pause + MOST_FILES, MOST_PAUSE)
            after = rest[len(group):len(group) + len(after) + pause]
        yield from (f"ahead {name}" for name in (*group, *after[:is_opened]))
        yield from ["write"] * len(group)
        for name in after:
            yield from (f"open {name}", "write")
        del rest[:len(group) + len(after)]


def read_call_log(runs):
    """The opens and writes of the last run, which had a log."""
    with open(runs.path("log"), encoding="ascii") as file:
        log = file.read().splitlines()
    os.remove(runs.path("log"))
    return log


def environment_with_log(runs, *fault):
    """The environment for a run with a log, in which calls may fail."""
    return {**environment_with_fault(runs, *fault), "FAULT_LOG": runs.path("log")}


def write_files(runs, files):
    for name, data in files.items():
        if isinstance(data, bytes):
            runs.write(name, data)


def short_files_worth_reading_ahead(count):
    """Files by their names that are worth to be read early, and short otherwise."""
    return {f"n{i}": (f"{i} " * WORTH_BYTES)[:WORTH_BYTES + i % 70].encode() for i in range(count)}


# ---- Tests.

def name_lists_and_sizes():
    """Lists of names for groups of all lengths, and the sizes of their files: n short ones, t too short ones, r of
    FIRST_ROOM bytes, q of an eighth of ENOUGH_BYTES, m of MOST_BYTES."""
    sizes = {"e": 0, "more": MOST_BYTES + 1, "less": ENOUGH_BYTES // 8 - 1, "fits": FIRST_ROOM - 1,
             **{f"n{i}": WORTH_BYTES + i % 9 for i in range(400)}, **{f"t{i}": i % 99 + 1 for i in range(3000)},
             **{f"r{i}": FIRST_ROOM for i in range(9)}, **{f"q{i}": ENOUGH_BYTES // 8 for i in range(40)},
             **{f"m{i}": MOST_BYTES for i in range(30)}}
    short, tiny, first, eighths, large = ([name for name in sizes if name[0] == letter and name[1:].isdigit()]
                                           for letter in "ntrqm")
    counts = (1, 2, 3, 4, 10, 11, 12, 18, 19, 20, 27, 28, 64, 65, 130, 200)
    lists = [short, tiny, tiny[:20] * 3, tiny[:300] + short[:200], *(short[:count] for count in counts),
             ["n1"] * 40, large, eighths, eighths + short[:60] + eighths,
             eighths[:20] + ["less", *eighths[20:27]] + large[:10] + short[:60],
             short[:30] + large + short[30:90] + large, short[:3] + ["fits"] + short[3:20], short[:11] + first,
             short[:3] + first[:1] + short[3:40]]
    for at in (0, 1, 2, 3, 4, 7, 10, 11, 12, 26, 27, 60):
        lists.append(short[:at] + ["e"] + short[at:100] + ["more", "n3", "e", "n5"] + short[:20])
    return lists, sizes


def test_small_files_are_read_in_groups(runs):
    """Which files are read before their turn, and when: the order of opens and writes. A failed write is the last of
    them."""
    lists, sizes = name_lists_and_sizes()
    for name, size in sizes.items():
        runs.write(name, bytes(size))
    for names in lists:
        got, log = runs.run(names, env=environment_with_log(runs)), read_call_log(runs)
        runs.expect(names, got[1:] == (b"", 0) and log == list(expected_opens_and_writes(names, sizes)), log)
    short = lists[0]
    for words in (["--progress"], ["-a", "blake2bp"], ["-a", "blake2sp"], ["--tree", "4096"], ["--key-file", "key"]):
        runs.write("key", bytes(32))
        runs.run([*words, *short[:50]], env=environment_with_log(runs))
        runs.expect(words, (log := [it for it in read_call_log(runs) if it.startswith("ahead")]) == [], log)
    events = list(expected_opens_and_writes(short, sizes))
    writes = [place + 1 for place, event in enumerate(events) if event == "write"]
    for at in (1, 2, 3, 4, 5, 11, 12, 13, 27, 28, 29, 59, 60, 123, 124, 400):
        got, log = runs.run(short,
                            env=environment_with_log(runs, "write", at, 1 << 30, errno.ENOSPC)), read_call_log(runs)
        runs.expect(["write", at], got[2] == 1 and log == events[:writes[at - 1]], (got[1], log[-70:]))
    runs.report_results("which files are read early")


def test_sizes_around_limits_match_hashlib(runs):
    """Files around the edges of blocks, reads, and what is read early, in several orders, of both families."""
    rng = random.Random(1)
    files = {f"s{size}": rng.randbytes(size) for size in SIZES}
    write_files(runs, files)
    names = list(files)
    for family in "bs":
        for order in (names, names[::-1], *(rng.sample(names, len(names)) for _ in range(8 if HUGE else 2))):
            expect_same_output(runs, order, files, family=family)
    runs.report_results("sizes around all edges")


def test_output_keeps_order_of_names(runs):
    """What is no file to read early, or cannot be read, among others."""
    files = short_files_worth_reading_ahead(14)
    write_files(runs, files)
    os.mkdir(runs.path("folder"))
    os.symlink("loop", runs.path("loop"))
    os.symlink("n3", runs.path("link"))
    server = socket.socket(socket.AF_UNIX)
    server.bind(runs.path("socket"))
    runs.write("empty", b"")
    runs.write("long", bytes(MOST_BYTES + 1))
    with open("/proc/version", "rb") as file:
        version = file.read()
    others = {"missing": errno.ENOENT, "folder": errno.EISDIR, "socket": errno.ENXIO, "loop": errno.ELOOP,
              "n0/x": errno.ENOTDIR, "n" * 256: errno.ENAMETOOLONG, "x/" * 2050: errno.ENAMETOOLONG, "": errno.ENOENT,
              "/proc/self/mem": errno.EIO, "/dev/null": b"", "empty": b"", "long": bytes(MOST_BYTES + 1),
              "link": files["n3"], "/proc/version": version, "-": b""}
    for name, found in others.items():
        names = [*files, *files]
        for at in (24, 20, 19, 12, 11, 4, 3, 1):
            names.insert(at, name)
        for order in ([name, *names, name], names[::-1], [*list(files)[:4], name, *list(files), name, "n5", name]):
            expect_same_output(runs, order, {**files, name: found}, b"input" * 20)
    expect_same_output(runs, ["n5"] * 10, files)
    expect_same_output(runs, ["n5", "n6"] * 40 + ["n5"], files)
    expect_same_output(runs, list(others) * 2, others, b"input")
    server.close()
    runs.report_results("what is not read early")


def test_pipes_are_opened_in_turn(runs):
    """A pipe is opened in its turn, when all lines before it are printed: one writer fills several in turn, or each has
    a writer that waits for its reader."""
    files = {**short_files_worth_reading_ahead(14), "p": b"p" * 300000, "q": b"q" * 100000, "r": b""}
    write_files(runs, files)
    for name in "pqr":
        os.rename(runs.path(name), runs.path(f"of {name}"))
        os.mkfifo(runs.path(name))
    in_turn = "; ".join(f'cat "of {name}" >{name}' for name in "pqr")
    alone = " & ".join(f'(cat "of {name}" >{name})' for name in "pqr")
    short = [name for name in files if name[0] == "n"]
    for names in ([*"pqr"], ["n0", *"pqr"], [*"pqr", "n0"], ["n0", "n1", "p", "q", "n2", "n3", "r", "n4"],
                  [*short[:7], "p", "n7", "q", "r"], ["n0", "p", "n1", "n2", "q", *short, "r", "n8", "n8"]):
        for commands, mode in itertools.product((in_turn, alone + "; wait"), MODES):
            with pipe_filled_by_commands(runs, "filled", commands):
                got = runs.run(arguments_of_mode(mode, names), tagged_manifest_of_files(names, files), timeout=20)
            runs.expect([*mode, *names], got == expected_run_of_mode(mode, names, files, map(files.get, names)), got)
    for at in range(9):  # which is filled when the line before it has come
        names = [*short[:at], "p", *short[at:]]
        process = subprocess.Popen([runs.program, *names], cwd=runs.folder, stdout=subprocess.PIPE)
        before = b"".join(text for _, text in expected_output_parts(short[:at], files))
        got = read_with_timeout(process.stdout, len(before))
        with pipe_filled_by_commands(runs, "p", 'cat "of p"'):
            got += process.communicate(timeout=20)[0]
        runs.expect(names, got.startswith(before) and got == expected_run(expected_output_parts(names, files))[0], got)
    runs.report_results("pipes among files")


def read_with_timeout(stream, count):
    """This many bytes of a stream, or those of the next 20 seconds."""
    got = b""
    while len(got) < count and select.select([stream], [], [], 20)[0]:
        piece = os.read(stream.fileno(), count - len(got))
        if not piece:
            break
        got += piece
    return got


def test_output_file_is_read_in_turn(runs):
    """Standard output or standard error that is one of the files: it is read in its turn, with what was printed by
    then, by whatever name."""
    files = {**short_files_worth_reading_ahead(14), "missing": errno.ENOENT}
    write_files(runs, files)
    runs.write("own", b"")
    os.symlink("own", runs.path("soft"))
    os.link(runs.path("own"), runs.path("hard"))
    short = [name for name in files if name != "missing"]
    for streams, before, name, words in itertools.product(
            (["stdout"], ["stderr"], ["stdout", "stderr"]), (b"", b"before\n"),
            ("own", "soft", "hard", "/dev/fd/{}", "/proc/self/fd/{}"), ([], ["--progress"])):
        name = name.format(1 if "stdout" in streams else 2)
        for names in ([*short[:3], "missing", *short[3:6], name, *short[6:], name, "n1", "n2"], [name, *short],
                      ["n0", name, *short, "missing", name, name], [*short, name]):
            runs.write("own", before)
            with open(runs.path("own"), "r+b") as file:
                file.seek(0, os.SEEK_END)
                got = runs.run([*words, *names], **{stream: file for stream in streams})
                file.seek(0)
                text = file.read()
            wanted = {"stdout": b"", "stderr": b"", "own": before}
            for each in names:
                (is_line, part), = expected_output_parts([each], {**files, name: wanted["own"]})
                stream = "stdout" if is_line else "stderr"
                wanted["own" if stream in streams else stream] += part
            runs.expect([streams, *words, *names], (*got, text) == (
                wanted["stdout"], wanted["stderr"], int("missing" in names), wanted["own"]), (got, text))
    runs.report_results("outputs that are one of the files")


def test_check_reads_output_file_in_turn(runs):
    """The same of a check. What the manifest has of the file is what it had before."""
    files = {**short_files_worth_reading_ahead(14), "missing": errno.ENOENT}
    write_files(runs, files)
    runs.write("own", b"")
    os.symlink("own", runs.path("soft"))
    for name, before in itertools.product(("own", "soft", "/dev/fd/1"), (b"", b"before\n")):
        listed, first = {**files, name: before}, list(files)[:7]
        for names in ([name, *first], [*first, name, "n7", name], ["n0", name, name, "missing", *first, name]):
            text, found = before, []
            for each in names:
                found.append(text if each == name else files[each])
                text += expected_check([each], listed, found[-1:])[0]
            runs.write("own", before)
            with open(runs.path("own"), "r+b") as file:
                file.seek(0, os.SEEK_END)
                got = runs.run(["-c"], tagged_manifest_of_files(names, listed), stdout=file)
                file.seek(0)
                wanted = (text, *expected_check(names, listed, found)[1:])
                runs.expect(["-c", *names], (file.read(), *got[1:]) == wanted, got)
    runs.report_results("outputs that are one of the files of a check")


def test_few_descriptors_and_little_memory(runs):
    """Standard streams that are closed, few descriptors, and less memory than reading early needs."""
    files = {**short_files_worth_reading_ahead(20), "missing": errno.ENOENT}
    write_files(runs, files)
    for closed in itertools.chain.from_iterable(itertools.combinations(range(3), count) for count in (1, 2, 3)):
        out, said, status = expected_run(expected_output_parts(files, files))
        if 1 in closed:
            out, said, status = b"", f"b2sum: write error: {os.strerror(errno.EBADF)}\n".encode(), 1
        wanted = out, b"" if 2 in closed else said, status
        for words in ([], ["--progress"]):
            got = runs.run([*words, *files], preexec_fn=lambda: [os.close(file) for file in closed])
            runs.expect([*words, "closed", closed], got == wanted, got)
    files = {**short_files_worth_reading_ahead(40), **{f"large{i}": bytes([i]) * MOST_BYTES for i in range(9)}}
    write_files(runs, files)
    names = list(files)
    wanted = expected_run(expected_output_parts(names, files))
    for most in (4, 5, 6, 7, 8, 12):
        got = runs.run(names, preexec_fn=lambda most=most: resource.setrlimit(resource.RLIMIT_NOFILE, (most, most)))
        runs.expect(["descriptors", most], got == wanted, got)
    least = runs.least_memory_limit(["--progress", *names], wanted)
    for more in range(0, 12 << 10, 512 if HUGE else 1024):
        got = runs.run_in_memory_limit(least + more, names)
        runs.expect(["KiB", least, more], got == wanted, got)
    runs.report_results("closed streams, few descriptors, and little memory")


def test_run_ends_when_pipe_closes(runs):
    """Nobody reads the pipe after the first line: the program ends at the first write after that."""
    names = list(files := short_files_worth_reading_ahead(2000))
    write_files(runs, files)
    runs.write("sums", tagged_manifest_of_files(names, files))
    events = list(expected_opens_and_writes(names, {name: len(data) for name, data in files.items()}))
    for mode, ignored in itertools.product(MODES, (False, True)):
        with open(runs.path("sums"), "rb") as sums:
            process = subprocess.Popen(["b2sum", *arguments_of_mode(mode, names)], executable=runs.program,
                                       cwd=runs.folder,
                                       env=environment_with_log(runs), stdin=sums, stdout=subprocess.PIPE,
                                       stderr=subprocess.PIPE,
                                       restore_signals=not ignored)
        first = expected_run_of_mode(mode, names[:1], files, [files["n0"]])[0]
        got = read_with_timeout(process.stdout, len(first))
        process.stdout.close()
        said = process.stderr.read()
        process.stderr.close()
        status, log = process.wait(20), read_call_log(runs)
        ends = (1, f"b2sum: write error: {os.strerror(errno.EPIPE)}\n".encode()) if ignored else (-signal.SIGPIPE, b"")
        runs.expect([*mode, "ignored", ignored], got == first and (status, said) == ends, (status, said))
        opened = {event.split(" ", 1)[1] for event in log if event != "write"}
        runs.expect([*mode, "log", ignored], log[-1] == "write" and (mode or log == events[:len(log)]) and
                   len(opened) - log.count("write") <= MOST_FILES, log[-70:])
    runs.report_results("a pipe that is closed after the first line")


# ---- Files that change.

def run_changing_files_before_call(runs, words, call, at, change):
    """A run that stops before a call, while this changes files. Standard input is the manifest `sums`."""
    with open(runs.path("sums"), "rb") as sums:
        process = subprocess.Popen(["b2sum", *words], executable=runs.program, cwd=runs.folder, stdin=sums,
                                   env=environment_with_log(runs, call, at, at, -2), stdout=subprocess.PIPE,
                                   stderr=subprocess.PIPE)
    end = time.monotonic() + 20
    while not (found := os.waitpid(process.pid, os.WUNTRACED | os.WNOHANG))[0] and time.monotonic() < end:
        time.sleep(0.001)
    if found[0] and os.WIFSTOPPED(found[1]):
        change()
        os.kill(process.pid, signal.SIGCONT)
    try:
        out, said = process.communicate(timeout=20)
    except subprocess.TimeoutExpired:
        process.kill()
        out, said = process.communicate()
    return out, said, process.returncode


def changes_of_file(runs, name, old):
    """What may happen to a file: for each what it has then, and what does that."""
    path = runs.path(name)

    def replace(data):
        runs.write("other", data)
        os.rename(runs.path("other"), path)
    new = b"other" * 30
    yield "grows", old + b"more", lambda: runs.write(name, old + b"more")
    yield "is cut", old[:3], lambda: os.truncate(path, 3)
    yield "is emptied", b"", lambda: os.truncate(path, 0)
    yield "is replaced", new, lambda: replace(new)
    yield "is removed", errno.ENOENT, lambda: os.remove(path)


def data_read_after_change(call, change, old, new):
    """What is read of a file that changes so before it is opened, before its first read, or before the one that finds
    its end."""
    if call == "openat" or call == "first" and change not in ("is replaced", "is removed"):
        return new
    return new if change == "grows" else old


def test_file_changed_while_read(runs):
    """A file that changes while it is opened and read, early or in its turn."""
    files = short_files_worth_reading_ahead(14)
    names = list(files)
    runs.write("sums", tagged_manifest_of_files(names, files))
    for mode, number, place in itertools.product(MODES, range(len(names)), ("openat", "first", "last")):
        name, old = names[number], files[names[number]]
        call, at = {"openat": ("openat", number + 1), "first": ("readv", 2 * number + 1),
                    "last": ("readv", 2 * number + 2)}[place]
        at += call == "readv" and "-c" in mode  # the manifest is read before
        for change, new, act in changes_of_file(runs, name, old):
            write_files(runs, files)
            got = run_changing_files_before_call(runs, arguments_of_mode(mode, names), call, at, act)
            found = {**files, name: data_read_after_change(place, change, old, new)}
            runs.expect([*mode, name, place, change], got == expected_run_of_mode(mode, names, files, found.values()),
                        got)
            os.remove(runs.path("log"))
    runs.report_results("files that change while they are read")


def test_opened_files_keep_old_digests(runs):
    """All files change before a line is printed: the digests of those that were opened before are of what they had."""
    files = short_files_worth_reading_ahead(14)
    names = list(files)
    others = {name: data[::-1] + b"changed" for name, data in files.items()}
    orders = names, [*names, *names], [*names[:11], "n3", "n4"], [*names[:7], *names[3:7], "n3", "n9", "n3"]
    for mode, order in itertools.product(MODES, orders):
        runs.write("sums", tagged_manifest_of_files(order, files))
        for at in range(1, len(order) + 1):
            write_files(runs, files)
            got = run_changing_files_before_call(runs, arguments_of_mode(mode, order), "write", at,
                                                 lambda: write_files(runs, others))
            log = read_call_log(runs)
            place = [i for i, event in enumerate(log) if event == "write"][at - 1]
            before = sum(event != "write" for event in log[:place])
            found = [(files if i < before else others)[name] for i, name in enumerate(order)]
            runs.expect([*mode, *order, "write", at], got == expected_run_of_mode(mode, order, files, found), got)
            if "-c" not in mode:
                sizes = {} if mode else {name: len(data) for name, data in files.items()}
                runs.expect([*mode, *order, "log", at], log == list(expected_opens_and_writes(order, sizes)), log)
    runs.report_results("files that change after they are read")


def test_file_replaced_before_open(runs):
    """A file that a folder or a pipe takes the place of once it was looked at, and one that grows beyond all room."""
    files = short_files_worth_reading_ahead(14)
    names = list(files)
    runs.write("sums", tagged_manifest_of_files(names, files))
    for mode, (number, name) in itertools.product(MODES, enumerate(names)):
        path, words = runs.path(name), arguments_of_mode(mode, names)

        def make_folder(path=path):
            os.remove(path)
            os.mkdir(path)

        def make_pipe(path=path):
            os.remove(path)
            os.mkfifo(path)
            threading.Thread(target=write_to_pipe_when_opened, args=(runs, os.path.basename(path))).start()

        def make_file_long(path=path):
            os.truncate(path, 11 << 20)
        grown = files[name].ljust(11 << 20, b"\0")
        for act, found, remove in ((make_folder, errno.EISDIR, os.rmdir), (make_pipe, b"pipe", os.remove),
                                   (make_file_long, grown, os.remove)):
            call, at = ("readv", 2 * number + 1 + ("-c" in mode)) if act == make_file_long else ("openat", number + 1)
            write_files(runs, files)
            got = run_changing_files_before_call(runs, words, call, at, act)
            wanted = expected_run_of_mode(mode, names, files, {**files, name: found}.values())
            runs.expect([*mode, name, act.__name__], got == wanted, got)
            os.remove(runs.path("log"))
            remove(path)
    runs.report_results("files that others take the place of")


def write_to_pipe_when_opened(runs, name):
    """Writes to a pipe, once it is opened in its turn."""
    end = time.monotonic() + 20
    while time.monotonic() < end:
        with open(runs.path("log"), encoding="ascii") as file:
            if file.read().endswith(f"open {name}\n"):
                break
        time.sleep(0.001)
    with open(runs.path(name), "wb") as file:
        file.write(b"pipe")


# ---- Calls that fail.

def test_read_ahead_faults_change_nothing(runs):
    """Each open and each read fails, or returns less: early that changes nothing, since the file is read again in its
    turn. If all later ones fail too, so do the files from there on."""
    files = short_files_worth_reading_ahead(14)
    names, manifest = list(files), tagged_manifest_of_files(files, files)
    events = list(expected_opens_and_writes(names, {name: len(data) for name, data in files.items()}))
    write_files(runs, files)
    faults = (*(("openat", 0, it) for it in (errno.EACCES, errno.EMFILE, errno.ENOENT, errno.ENOMEM, errno.EINTR)),
              *(("readv", step, it) for it in (errno.EIO, errno.EAGAIN, errno.EINTR, 0, -1) for step in (0, 1)))
    for mode, (call, step, error), (number, name) in itertools.product(MODES, faults, enumerate(names)):
        at = 1 + (number if call == "openat" else 2 * number + step + ("-c" in mode))
        fails = error > 0 and error != errno.EINTR
        for last in (at, 1 << 30):
            if last > at and (not fails or "-c" in mode):
                continue
            got, said = run_and_faults_said(runs, arguments_of_mode(mode, names), manifest, call, at, last,
                                            error) or (None, "")
            found = dict(files)
            if error == -1 and step == 0:
                found[name] = b""
            elif fails and (last > at or not said):
                found.update(dict.fromkeys(names[number:] if last > at else [name], error))
            wanted = expected_run_of_mode(mode, names, files, found.values())
            runs.expect([*mode, call, at, last, error], got == wanted, got)
            is_early = f"ahead {name}" in events and not mode
            runs.expect([*mode, call, at, error, said], last > at or "-c" in mode or bool(said) == is_early)
    whole, late = expected_run_of_mode([], names, files,
                                       files.values())[0], f"b2sum: close error: {os.strerror(errno.EIO)}\n"
    for at in range(1, len(names) + 1):
        got = run_with_fault_or_none(runs, names, b"", "close", at, at, errno.EIO)
        runs.expect(["close", at], got == (whole, late.encode(), 1), got)
    runs.report_results("each open and read fails")


# ---- Random runs.

def random_files(rng):
    """Files of many sizes, most of them short."""
    sizes = [rng.choice((rng.randrange(300), rng.randrange(300), rng.randrange(20000), rng.choice(SIZES)))
             for _ in range(150)]
    forms = "f{}", "with space {}", "-{}", "caf\udcff{}", "\udcff{}", "\U0010ff00{}", "\u20ac\n{}"
    return {rng.choice(forms).format(i): rng.randbytes(size) for i, size in enumerate(sizes)}


def run_random_command(runs, rng, files):
    """A run with random options over random names."""
    family = rng.choice("bbs")
    given = {name: rng.randbytes(rng.randrange(8 if family == "s" else 16)) + b"\1" for name in ("salt", "person")
             if rng.random() < 0.2}
    words = [f"--{'personal' if name == 'person' else name}={value.hex()}" for name, value in given.items()]
    shape = rng.choice([[], [], ["-b"], ["--tag"], ["-z"], ["-z", "--tag"], ["--no-names"], ["-z", "--no-names"]])
    names = rng.choices([*files], k=rng.choice((1, 2, 3, 5, 9, 20, 70, 140)))
    if rng.random() < 0.5:
        names = [name if rng.random() < 0.9 else rng.choice(("missing", "-", "folder")) for name in names]
    if len(names) == 1 and rng.random() < 0.5:
        shape = ["--raw"]
    bits = rng.choice((longest_digest_bits(family), 8 * rng.randint(1, longest_digest_bits(family) // 8)))
    expect_same_output(runs, names, {**files, "missing": errno.ENOENT, "folder": errno.EISDIR}, b"input", words, shape,
                       family, bits,
          **given)


def test_random_command_lines(runs):
    """Random names, files, sizes, orders and options."""
    os.mkdir(runs.path("folder"))
    files = {}
    for seed in range(FIRST, FIRST + RANDOM):
        rng = random.Random(seed)
        if seed % 50 == 0 or not files:
            files = random_files(rng)
            write_files(runs, files)
        run_random_command(runs, rng, files)
    runs.report_results("random runs")


def random_manifest_line(rng, files):
    """A line of a manifest: mostly of BLAKE2b, some of another hash or length, of no file, wrong, or no entry."""
    name, kind = rng.choice([*files]), rng.random()
    family, bits = ("b", 512) if kind < 0.8 else rng.choice((("s", 256), ("b", 256), ("s", 128), ("bp", 512)))
    text = manifest_line(name, files[name], bits, family, tag=family != "b" or rng.random() < 0.5)
    if kind < 0.9:
        return text
    other = text.replace(name, rng.choice(("missing", "folder", "-")))
    return rng.choice((text[:40] + "\n", "# comment\n", "\n", other, manifest_line("empty", b""),
                       manifest_line(name, b"wrong", bits, family, tag=True)))


def test_random_manifests_match_model(runs):
    """Random manifests of many files are checked as the model says, also with --progress, from a file and from standard
    input. Some of their files are read early."""
    rng = random.Random(7)
    files = {f"f{i}": rng.randbytes(rng.choice((2048, 3000, 20000, 70000))) for i in range(60)}
    write_files(runs, files)
    os.mkdir(runs.path("folder"))
    runs.write("empty", b"")
    early = 0
    for seed in range(FIRST, FIRST + RANDOM // 4):
        rng = random.Random(seed)
        data = os.fsencode("".join(random_manifest_line(rng, files) for _ in range(rng.choice((12, 40, 200)))))
        runs.write("sums", data)
        options = ["-w", "--strict", "--ignore-missing", "--quiet", "--show-digests"]
        words = ["-c", *rng.sample(options, rng.randrange(3)), *rng.choice(([], ["sums"], ["sums", "sums"]))]
        out, errs, status = run_model_of_check(words, runs.folder, data)
        for more in (["--progress"], []):
            got, log = runs.run([*words, *more], data, env=environment_with_log(runs)), read_call_log(runs)
            runs.expect([seed, *words, *more], got == (out, errs[0], status), (got, out, errs, status))
        early += sum(it.startswith("ahead f") for it in log)
    runs.expect("files that are read early", early > 0)
    runs.report_results(f"random manifests, of which {early} files are read early")


FAULTY = (test_small_files_are_read_in_groups, test_run_ends_when_pipe_closes, test_file_changed_while_read,
          test_opened_files_keep_old_digests, test_file_replaced_before_open, test_read_ahead_faults_change_nothing,
          test_random_manifests_match_model)
run_program_tests((test_sizes_around_limits_match_hashlib, test_output_keeps_order_of_names,
                   test_pipes_are_opened_in_turn, test_output_file_is_read_in_turn,
                   test_check_reads_output_file_in_turn, test_few_descriptors_and_little_memory,
                   test_random_command_lines, *FAULTY),
          faulty=FAULTY)
