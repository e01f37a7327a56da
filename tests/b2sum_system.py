#!/usr/bin/env python3
"""Runs the program b2sum over pipes and devices, with what cannot be read, written or allocated, and looks for its key
in its memory. What it has to print is known from hashlib and from the system's texts of errors. Then it makes single
calls of the system fail, one after the other (tests/b2sum_faults.c), and checks that no line is wrong, and that the
status shows it.

Only the first program is tested: the others are the same program, with older builds of the library.

usage: tests/b2sum_system.py [PROGRAM..]
"""
import errno
import itertools
import mmap
import os
import random
import select
import signal
import socket
import subprocess

from b2sum_support import (
    FILES, check_result_line, pipe_filled_by_commands, manifest_line, manifest_lines, run_and_faults_said,
    tree_manifest_line, run_program_tests, run_with_fault_or_none, key_copies_and_dump_flags)

HUGE = bool(os.environ.get("VULFSJOR_TEST_HUGE"))
CALLS = {"readv": errno.EIO, "openat": errno.EACCES, "write": errno.ENOSPC, "malloc": errno.ENOMEM,
         "realloc": errno.ENOMEM}
# A key is in the options and, while a file is read, in the state: in its pending block, or in one for each leaf, and in
# that of a reset.
MOST_COPIES = {"b": 3, "s": 3, "bp": 6, "sp": 10}
NAME_REQUESTS = 3  # for memory, before the name of the program is known


def test_key_stays_out_of_memory(runs):
    """A key is in memory only where it has to be, and nowhere at the end: in the options, and while a file is read in
    the state. Once a key file is opened, the process cannot be dumped."""
    key = random.Random(3).randbytes(64)
    runs.write("long", bytes(200000))
    hashes = (("b", 512, key), ("s", 256, key[:32]), ("bp", 512, key), ("sp", 256, key[:32]))
    for (family, bits, some), option in itertools.product(hashes, ("--key-file", "--key-hex-file")):
        digits = some.hex().encode()
        runs.write("key", digits + b"\n" if "hex" in option else some)
        words = ["-a", "blake2" + family, option, "key"]
        manifest = manifest_line("long", bytes(200000), bits, family, key=some)
        runs.write("sums", (manifest + manifest_line("b", b"abc", bits, family, key=some)).encode())
        for more in (["long", "b", "-"], ["-c", "sums"]):
            ends, most = [], 0
            for call in ("readv", "close"):
                for at in itertools.count(1):
                    found = key_copies_and_dump_flags(runs, words + more, some, call, at)
                    if not found:
                        break
                    most = max(most, found[0])
                    runs.expect([*words, call, at, found], found[1:] == (0, 0))
                ends.append(at - 1)
            pieces = len(some) // 8
            runs.expect([*words, "at most", most],
                       1 <= most // pieces <= MOST_COPIES[family] and ends[0] > 6 and ends[1] > 4)
            for at in range(ends[1] - 1, ends[1] + 1):
                runs.expect([*words, "the end", at],
                            key_copies_and_dump_flags(runs, words + more, some, "close", at) == (0, 0, 0))
                runs.expect([*words, "digits", at],
                            key_copies_and_dump_flags(runs, words + more, digits, "close", at) == (0, 0, 0))
            # Once the key is decoded, its digits are nowhere.
            runs.expect([*words, "digits"],
                        key_copies_and_dump_flags(runs, words + more, digits, "readv", ends[0]) == (0, 0, 0))
    for at in (1, 3):
        found = key_copies_and_dump_flags(runs, ["long", "b"], key, "readv", at)
        runs.expect(["no key", found], found and found[:2] == (0, 1))
    runs.write("key", key)
    got = run_with_fault_or_none(runs, ["--key-file", "key", "b"], b"", "prctl", 1, 1, errno.EPERM)
    said = (manifest_line("b", b"abc", key=key).encode(), b"b2sum: WARNING: other processes may read the key\n", 0)
    runs.expect(["memory that is not hidden"], got == said, got)
    runs.expect(["no key is hidden"], not run_with_fault_or_none(runs, ["b"], b"", "prctl", 1, 1, errno.EPERM))
    runs.report_results("keys in memory")


def test_unreadable_and_special_files(runs):
    """What cannot be opened or read, and files that are no regular ones."""
    os.mkdir(runs.path("dir"))
    for target, name in (("loop", "loop"), ("b", "link"), ("dir", "folder"), ("nothing", "dangling")):
        os.symlink(target, runs.path(name))
    server = socket.socket(socket.AF_UNIX)
    server.bind(runs.path("socket"))
    reasons = {"none": errno.ENOENT, "dir": errno.EISDIR, "loop": errno.ELOOP, "a/x": errno.ENOTDIR,
               "folder": errno.EISDIR, "dangling": errno.ENOENT, "link/": errno.ENOTDIR,
               "n" * 256: errno.ENAMETOOLONG, "n" * 131071: errno.ENAMETOOLONG, "x/" * 2050: errno.ENAMETOOLONG,
               "socket": errno.ENXIO, "/proc/self/mem": errno.EIO, "": errno.ENOENT}
    for name, error in reasons.items():
        shown = name or "''"
        runs.expect_run(["b", name, "a"], manifest_line("b", b"abc") + manifest_line("a", b""),
                        f"{shown}: {os.strerror(error)}", 1)
        if name:
            runs.expect_run(["-c"], f"{name}: FAILED open or read\nb: OK\n", f"{name}: {os.strerror(error)}\n"
                       "WARNING: 1 listed file could not be read", 1,
                       os.fsencode(manifest_line(name, b"abc") + manifest_line("b", b"abc")))
            said = "read error" if error in (errno.EISDIR, errno.EIO) else os.strerror(error)
            runs.expect_run(["-c", name], "", f"{name}: {said}", 1)
    runs.expect_run(["link", "dir/../b"], manifest_line("link", b"abc") + manifest_line("dir/../b", b"abc"))
    for name in ("/dev/null", "/" * 4086 + "/dev/null"):
        runs.expect_run([name], manifest_line(name, b""))
    runs.expect_run(["/dev/stdin", "/dev/fd/0"], manifest_line("/dev/stdin", b"abc") + manifest_line("/dev/fd/0", b""),
                    data=b"abc")
    with open("/proc/version", "rb") as file:  # whose length is 0 for the system
        data = file.read()
    runs.expect_run(["/proc/version"], manifest_line("/proc/version", data))
    runs.expect_run(["--tree", "64", "/proc/version"], tree_manifest_line("/proc/version", data, 64))
    runs.expect_run(["-"], "", f"-: {os.strerror(errno.EISDIR)}", 1, stdin=os.open(runs.folder, os.O_RDONLY))
    runs.expect_run(["b", "-"], manifest_line("b", b"abc"), f"-: {os.strerror(errno.EBADF)}\nstandard input: "
               f"{os.strerror(errno.EBADF)}", 1, stdin=None, preexec_fn=lambda: os.close(0))
    os.mkfifo(runs.path("pipe"))
    with pipe_filled_by_commands(runs, "pipe", "printf ab; sleep 0.3; printf c"):
        runs.expect_run(["pipe"], manifest_line("pipe", b"abc"))
    with pipe_filled_by_commands(runs, "pipe", "cat a b"):
        runs.expect_run(["--tree", "2", "pipe"], tree_manifest_line("pipe", b"abc", 2))
    server.close()
    runs.report_results("what cannot be read, pipes and devices")


def test_digest_of_truncated_files(runs):
    """Files that end before their length, and large reads by threads of which some fail or are cut short: the digest
    is that of the bytes that were read, each of them once."""
    data = random.Random(2).randbytes((4 << 20) + 5)
    runs.write("data", data)
    for at in range(1, 6):
        runs.expect(["ends", at], run_with_fault_or_none(runs, ["data"], b"", "readv", at, 1 << 30, -1) ==
                   (manifest_line("data", data[:(at - 1) << 16]).encode(), b"", 0))
    wanted = (tree_manifest_line("data", data, 65536).encode(), b"", 0)
    for error in (0, -1, errno.EIO, errno.EINTR):
        for at, last in ((1, 1), (2, 2), (3, 4), (9, 9), (1, 1 << 30)):
            if (error, last) != (errno.EINTR, 1 << 30):  # no call would end
                got = run_with_fault_or_none(runs, ["--tree", "65536", "data"], b"", "pread", at, last, error)
                runs.expect(["threads", at, last, error], got in (wanted, None) and (got or at > 1), got)
    # Threads read from 512 KiB on, from the position of the file, which goes back if they fail.
    for start in (len(data) - (1 << 19), len(data) - (1 << 19) + 1):
        with open(runs.path("data"), "rb") as file:
            file.seek(start)
            got = run_with_fault_or_none(runs, ["--tree", "65536"], None, "pread", 1, 1 << 30, errno.EIO,
                                         stdin=file.fileno())
        large = tree_manifest_line("-", data[start:], 65536).encode()
        runs.expect(["from", start], got == ((large, b"", 0) if len(data) - start == 1 << 19 else None), got)
    for call in ("openat", "readv"):
        got = run_with_fault_or_none(runs, ["b"], b"", call, 1, 3, errno.EINTR)
        runs.expect(["interrupted", call], got == (manifest_line("b", b"abc").encode(), b"", 0), got)
    runs.expect("a file that is read ahead", run_with_fault_or_none(runs, ["b"], b"", "posix_fadvise", 1, 1, 0))
    runs.report_results("files that end early, and threads whose reads fail")


def test_full_or_closed_outputs_fail(runs):
    """Standard output and standard error that are full or closed, and a pipe that nobody reads."""
    full = os.open("/dev/full", os.O_WRONLY)
    sums = os.fsencode(manifest_lines())
    no_space = f"write error: {os.strerror(errno.ENOSPC)}"
    for words in ([*FILES], ["-c"], ["--tag", "b"], ["-z", "a"], ["--help"], ["--version"]):
        runs.expect_run(words, "", no_space, 1, sums, stdout=full)
        runs.expect_run(words, "", f"write error: {os.strerror(errno.EBADF)}", 1, sums, stdout=None,
                   preexec_fn=lambda: os.close(1))
    runs.expect_run(["-c", "--status"], "", data=sums, stdout=full)
    for words, out, status in ((["b", "none"], manifest_line("b", b"abc"), 1), (["-c", "none"], "", 1),
                               (["-l", "7"], "", 1),
                               (["b"], manifest_line("b", b"abc"), 0)):
        runs.expect_run(words, out, "", status, stderr=full)
        runs.expect_run(words, out, "", status, stderr=None, preexec_fn=lambda: os.close(2))
    os.close(full)
    runs.report_results("outputs that are full or closed")


def test_messages_begin_with_program_name(runs):
    """Messages, the usage and the pointer to it have the last part of argument 0, or `b2sum` if that is empty."""
    runs.write("key", b"")
    runs.write("sums", manifest_line("b", b"abd").encode() + b"x\n")
    usage, version = (runs.run([word])[0] for word in ("--help", "--version"))
    first = b"Usage: b2sum [OPTION].. [FILE]..\n"
    runs.expect("the usage", usage.startswith(first) and usage.count(b"b2sum") == 1, usage)
    runs.expect("the version", b"b2sum" in version, version)
    missing, no_space = (os.strerror(it).encode() for it in (errno.ENOENT, errno.ENOSPC))
    for path, name in (("vulfsjor-b2sum", b""), ("/usr/bin/vulfsjor-b2sum", b"vulfsjor-b2sum"),
                       ("./b2sum.exe", b"b2sum.exe"), ("a b/c\n\udcff d", b"c\n\xff d"), ("//s", b"s"),
                       ("x" * 255 + "/" + "y" * 256, b"y" * 256), ("z" * 70000, b""), ("", b"b2sum"), ("a/", b"b2sum"),
                       ("/", b"b2sum")):
        name = name or os.fsencode(path)
        for words, out, said in (
                (["none"], b"", b"%s: none: " + missing), (["-c", "none"], b"", b"%s: none: " + missing),
                (["-x"], b"", b"%s: invalid option -- 'x'\nTry '%s --help' for more information."),
                (["-l", "7"], b"", b"%s: invalid length: '7'\n%s: length is not a multiple of 8"),
                (["--key-file", "key", "b"], b"", b"%s: key: a key has 1 to 64 bytes"),
                (["-cw", "sums"], b"b: FAILED\n", b"%s: sums: 2: improperly formatted BLAKE2b checksum line\n"
                 b"%s: WARNING: 1 line is improperly formatted\n%s: WARNING: 1 computed checksum did NOT match")):
            got = runs.run(words, called=path)
            runs.expect([path[:99], *words], got == (out, said.replace(b"%s", name) + b"\n", 1), got)
        runs.expect([path[:99], "--help"], runs.run(["--help"], called=path) ==
                   (usage.replace(b"b2sum", name), b"", 0))
        runs.expect([path[:99], "--version"], runs.run(["--version"], called=path) == (version, b"", 0))
        with open("/dev/full", "wb") as full:
            got = runs.run(["--help"], called=path, stdout=full)
        runs.expect([path[:99], "/dev/full"], got == (b"", name + b": write error: " + no_space + b"\n", 1), got)
    os.symlink(runs.program, runs.path("linked sum"))
    done = subprocess.run([runs.path("linked sum"), "none"], stderr=subprocess.PIPE)
    runs.expect("a link", done.stderr == b"linked sum: none: " + missing + b"\n", done.stderr)
    runs.report_results("other names of the program")


def test_closed_pipe_ends_by_sigpipe(runs):
    """A pipe that nobody reads ends the program by SIGPIPE, unless it was ignored when the program started."""
    sums = os.fsencode(manifest_lines())
    for words in (["b"], ["-c"], ["--help"]):
        for disposition in (signal.SIG_DFL, signal.SIG_IGN):
            reader, writer = os.pipe()
            os.close(reader)
            got = runs.run(words, sums, stdout=writer, restore_signals=False,
                           preexec_fn=lambda it=disposition: signal.signal(signal.SIGPIPE, it))
            os.close(writer)
            runs.expect([*words, disposition], got == (
                (b"", b"", -signal.SIGPIPE) if disposition == signal.SIG_DFL else
                (b"", f"b2sum: write error: {os.strerror(errno.EPIPE)}\n".encode(), 1)), got)
    runs.report_results("pipes that nobody reads")


def test_check_writes_each_verdict_at_once(runs):
    """Each line of a manifest has its verdict before the next is written, on standard input and in a pipe."""
    os.mkfifo(runs.path("lines"))
    for words in ([], ["lines"]):
        process = subprocess.Popen([runs.program, "-c", *words], cwd=runs.folder, stdin=subprocess.PIPE,
                                   stdout=subprocess.PIPE)
        with open(runs.path("lines"), "wb", 0) if words else process.stdin as manifest:
            for name, data in FILES.items():
                text, verdict = os.fsencode(manifest_line(name, data)), os.fsencode(check_result_line(name))
                for part in text[:7], text[7:]:
                    manifest.write(part)
                    manifest.flush()
                ready, _, _ = select.select([process.stdout], [], [], 60)
                got = os.read(process.stdout.fileno(), len(verdict)) if ready else b""
                runs.expect([*words, name], got == verdict, got)
        runs.expect([*words, "status"], process.wait() == 0, process.returncode)
        process.stdout.close()
        process.stdin.close()
    runs.report_results("lines that are checked as they come")


def test_failed_close_is_reported(runs):
    """Files and outputs whose closing fails, as some systems report a late read or write."""
    quota = f"b2sum: write error: {os.strerror(errno.EDQUOT)}\n".encode()
    whole = manifest_line("b", b"abc").encode()
    late = f"b2sum: close error: {os.strerror(errno.EDQUOT)}\n".encode()
    for at, wanted in ((1, (whole, late, 1)), (2, (whole, quota, 1)), (3, (whole, b"", 1)), (4, None)):
        got = run_with_fault_or_none(runs, ["b"], b"", "close", at, at, errno.EDQUOT)
        runs.expect(["close", at], got == wanted, got)
    got = run_with_fault_or_none(runs, [], b"abc", "close", 1, 1, errno.EDQUOT)
    late = late.replace(b"close error", b"standard input")
    runs.expect("standard input", got == (manifest_line("-", b"abc").encode(), late, 1), got)
    got = run_with_fault_or_none(runs, ["b"], b"", "close", 2, 3, errno.EBADF)
    runs.expect("closing what is closed", got == (whole, b"", 0), got)
    for path, name in (("sums", b"sums"), ("/usr/bin/sums", b"sums"), ("sums/", b"b2sum"), ("", b"b2sum")):
        got = run_with_fault_or_none(runs, ["b"], b"", "close", 2, 2, errno.EDQUOT, path)
        runs.expect([path, "close"], got == (whole, quota.replace(b"b2sum", name), 1), got)
    runs.report_results("outputs whose closing fails")


def test_progress_is_shown_on_terminal(runs):
    """What --progress shows on a terminal over a pipe that waits, and that nothing else shows anything."""
    os.mkfifo(runs.path("slow"))
    runs.write("--prog", b"k")
    os.chmod(runs.path("--prog"), 0o600)
    shown = b"\rslow: 0 MiB, 0 MiB/s\x1b[K\r\x1b[K"
    for words, wanted, parameters in ((["--progress"], shown, {}), (["--prog", "--tag"], shown, {"tag": True}),
                                      (["--key-file", "--prog"], b"", {"key": b"k"}), ([], b"", {})):
        terminal, end = os.openpty()
        with pipe_filled_by_commands(runs, "slow", "printf ab; sleep 0.7; printf c"):
            runs.expect_run([*words, "slow"], manifest_line("slow", b"abc", **parameters), stderr=end)
        os.write(end, b"end")
        got = b""
        while not got.endswith(b"end"):
            got += os.read(terminal, 1000)
        runs.expect(words, got == wanted + b"end", got)
        os.close(terminal)
        os.close(end)
    with pipe_filled_by_commands(runs, "slow", "printf ab; sleep 0.7; printf c"):
        runs.expect_run(["--progress", "slow"], manifest_line("slow", b"abc"))  # to no terminal
    runs.report_results("progress")


def test_huge_file_and_long_line(runs):
    """A sparse file of more than 4 GiB, and a manifest with a line of 1 MiB."""
    long_name = "n" * (1 << 20)
    runs.expect_run(["-c"], f"{long_name}: FAILED open or read\nb: OK\n",
                    f"{long_name}: {os.strerror(errno.ENAMETOOLONG)}\n"
               "WARNING: 1 listed file could not be read", 1,
               os.fsencode(manifest_line(long_name, b"") + manifest_line("b", b"abc")))
    if HUGE:
        # Marks on both sides of 4 GiB, and at each MiB after it, so that no two pieces there are the same.
        size = (1 << 32) + (40 << 20) + 4097
        with open(runs.path("sparse"), "w+b") as file:
            file.truncate(size)
            for at in (5, (1 << 32) - 1, *((1 << 32) + (i << 20) + 3 * i for i in range(40)), size - 1):
                os.pwrite(file.fileno(), b"\1", at)
            data = mmap.mmap(file.fileno(), 0, access=mmap.ACCESS_READ)
        runs.expect_run(["sparse"], manifest_line("sparse", data), timeout=1000)
        runs.expect_run(["--tree", "1048576", "sparse"], tree_manifest_line("sparse", data, 1 << 20), timeout=1000)
        os.remove(runs.path("sparse"))
    runs.report_results(f"a long line{' and a file beyond 4 GiB' if HUGE else ''}")


# ---- Memory.

def test_memory_use_is_bounded(runs):
    """A fixed amount for digests, and for a check up to twice the longest line. With less, it says so."""
    high = runs.least_memory_limit(["a"], (manifest_line("a", b"").encode(), b"", 0))
    with open(runs.path("large"), "wb") as file:
        file.truncate(64 << 20)
    comments = os.fsencode("# comment\n" * 400000 + manifest_line("b", b"abc"))
    long_line = os.fsencode("#" * (1 << 22) + "\n" + manifest_line("b", b"abc"))
    kib = len(long_line) >> 10
    for more, words, data, out, said in (
            (64, ["large"], b"", manifest_line("large", bytes(64 << 20)), ""), (192, ["-c"], comments, "b: OK\n", ""),
            (192, ["-c"], b"y\n" * (1 << 20), "", "'standard input': no properly formatted checksum lines found"),
            (192 + 2 * kib, ["-c"], long_line, "b: OK\n", ""), (kib, ["-c"], long_line, "", "memory exhausted")):
        got = runs.run_in_memory_limit(high + more, words, data)
        wanted = os.fsencode(out), f"b2sum: {said}\n".encode() if said else b"", int(bool(said))
        runs.expect([more, words], got == wanted, got)
    runs.report_results("memory")


# ---- Faults.

def expect_each_fault_is_reported(runs, words, data, good, call, error):
    """The first call of a function fails, the second, and so on; each alone, and with all later ones. One that fails
    before the turn of its file changes nothing, since the file is read again in its turn; so may one for memory. With
    --progress there is none of these."""
    whole, in_turn = runs.run(words, data), "--progress" in words
    for at in itertools.count(1):
        for last in (at, 1 << 30):
            found = run_and_faults_said(runs, words, data, call, at, last, error)
            if not found:
                runs.expect([*words, call], at > 1, "it is never called")
                return
            got, is_early = found[0], found[1] == "+"
            fails = (got[2] == 1 and set(got[0].splitlines(keepends=True)) <= good and
                     is_cause_in_message(call, error, got[1]))
            may_pass = not in_turn and call in ("malloc", "realloc")
            runs.expect([*words, call, at, last, error, found[1]], not (in_turn and is_early) and (
                got == whole if last == at and (is_early or may_pass and not fails) else fails), got)


def test_each_failed_system_call_is_reported(runs):
    """Each call of the system fails in turn."""
    sums = os.fsencode(manifest_lines())
    runs.write("sums", sums)
    names = [b"a", b"b", b"\\with\\nline", b"caf\xff"]
    early = {f"early{i}": b"%d" % i * 3000 for i in range(12)}
    for name, data in early.items():
        runs.write(name, data)
    sums_of_early = os.fsencode("".join(manifest_line(name, data) for name, data in early.items()))
    outcomes = {name + end for name in (*names, *map(os.fsencode, early))
                for end in (b": OK\n", b": FAILED open or read\n")}
    for (words, data, good), more in itertools.product((
            ([*FILES, "-"], b"abc", {*(sums + os.fsencode(manifest_line("-", b"abc"))).splitlines(True)}),
            (["-c", "sums"], b"", outcomes), (["-c"], sums, outcomes),
            (["-c", "--ignore-missing", "--strict", "-w", "sums", "sums"], b"", outcomes),
            ([*early], b"", {*sums_of_early.splitlines(True)}), (["-c"], sums_of_early, outcomes)),
            ([], ["--progress"])):
        words = [*more, *words]
        whole = runs.run(words, data)
        runs.expect(words, whole[1:] == (b"", 0) and not b"FAILED" in whole[0], whole)
        for call, error in CALLS.items():
            expect_each_fault_is_reported(runs, words, data, good, call, error)
        for call in ("readv", "write"):
            for at, last in ((1, 1), (2, 2), (3, 3), (1, 1 << 30)):
                runs.expect([words, call, at, last],
                            run_with_fault_or_none(runs, words, data, call, at, last, 0) == whole)
    runs.expect("a write of no byte", run_with_fault_or_none(runs, ["b"], b"", "write", 1, 1, -1) ==
               (b"", b"b2sum: write error: write zero\n", 1))
    for at in range(1, 9):
        got = run_with_fault_or_none(runs, ["b"], b"", "malloc", at, 1 << 30, errno.ENOMEM, "/bin/sums")
        name = b"b2sum" if at <= NAME_REQUESTS else b"sums"
        runs.expect(["another name", at], got == (b"", name + b": memory exhausted\n", 1), got)
    runs.report_results("each read, open, write and request for memory fails in turn")


def is_cause_in_message(call, error, err):
    """Whether the messages name the cause."""
    if call in ("malloc", "realloc"):
        return err == b"b2sum: memory exhausted\n" or b": out of memory\n" in err  # for one file
    if call == "write":
        return err in (b"", b"b2sum: write error: No space left on device\n")
    return os.fsencode(os.strerror(error)) in err or b"read error" in err


TESTS = (test_unreadable_and_special_files, test_digest_of_truncated_files, test_full_or_closed_outputs_fail,
         test_messages_begin_with_program_name, test_closed_pipe_ends_by_sigpipe,
         test_check_writes_each_verdict_at_once, test_failed_close_is_reported, test_progress_is_shown_on_terminal,
         test_huge_file_and_long_line, test_memory_use_is_bounded, test_key_stays_out_of_memory,
         test_each_failed_system_call_is_reported)
run_program_tests(TESTS, faulty=(test_digest_of_truncated_files, test_failed_close_is_reported,
                                 test_key_stays_out_of_memory, test_each_failed_system_call_is_reported))
