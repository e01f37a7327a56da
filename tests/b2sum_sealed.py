#!/usr/bin/env python3
"""Prints lists that are sealed with the program b2sum, and checks them. Seals are known from hashlib. Of a list that
was changed nothing may be believed: each byte, line and count is changed, and the calls of the system show that no
file that it names is opened. Without VULFSJOR_TEST_HUGE one byte of seven is changed.

Only the first program is tested: the others are the same program, with older builds of the library.

usage: tests/b2sum_sealed.py [PROGRAM..]
"""
import errno
import itertools
import os
import random
import re
import shutil
import subprocess
import threading

from b2sum_model import seal_line
from b2sum_support import FILES, check_result_line, manifest_line, manifest_lines, run_program_tests

HUGE = bool(os.environ.get("VULFSJOR_TEST_HUGE"))
MOST = 1 << 28
KEYS = {"key": bytes(range(100, 132)), "key64": random.Random(64).randbytes(64), "key1": b"k"}
KEY = KEYS["key"]
BROKEN = "{}: the seal does not hold"
NO_LINE = "{}: no properly formatted checksum lines found"
WITH_KEY = ["--key-file", "key"]
CHECK = ["-c", "--sealed", *WITH_KEY]
# Options that do not go with those for sealed lists, and what is said of them.
WRONG = {
    "--seal": "the --seal option needs --key-file",
    "--seal --tag": "the --seal option needs --key-file",
    "--seal -c --key-file key": "the --seal option is meaningless when verifying checksums",
    "--seal --sealed -c --key-file key": "the --seal option is meaningless when verifying checksums",
    "--seal --tree 4": "the --seal option does not support --tree",
    "--seal --tree 4 --key-file key": "the --seal option does not support --tree",
    "--seal -z --key-file key": "the --seal option does not support --zero",
    "--seal --raw --key-file key": "the --seal option does not support --no-names and --raw",
    "--seal --no-names --key-file key": "the --seal option does not support --no-names and --raw",
    "--seal --text --key-file key": "--seal does not support --text mode",
    "--sealed": "the --sealed option is meaningful only when verifying checksums",
    "--sealed --key-file key": "the --sealed option is meaningful only when verifying checksums",
    "--seal --sealed --key-file key": "the --sealed option is meaningful only when verifying checksums",
    "-c --sealed": "the --sealed option needs --key-file",
    "-c --sealed --salt 01": "the --sealed option needs --key-file",
}


def sealed_list(names=FILES, key=KEY, salt=b"", **more):
    """The list of these files, sealed."""
    some = {"key": key, **({"salt": salt} if salt else {}), **more}
    text = "".join(manifest_line(name, FILES[name], tag=True, **some) for name in names)
    return os.fsencode(text) + seal_line(os.fsencode(text), key, salt)


def write_keys(runs):
    for name, key in KEYS.items():
        runs.write(name, key)


def expect_refused_seal(runs, text, more=(), words=CHECK):
    """A list of which nothing is believed."""
    runs.write("SUMS", text)
    runs.expect_run([*words, *more, "SUMS"], "", BROKEN.format("SUMS"), 1)


def test_sealed_output_is_accepted(runs):
    """What is printed, for the hashes, keys and parameters that lines can have, and that a check accepts it."""
    write_keys(runs)
    shown = "".join(map(check_result_line, FILES))
    for family, name, salt, person, bits in itertools.product(
            ("b", "s", "bp", "sp"), KEYS, (b"", b"salt"), (b"", b"person"), (None, 128)):
        if family[0] == "s" and name == "key64":
            continue
        words = ["-a", f"blake2{family}", "--key-file", name, *(["--salt", salt.hex()] if salt else []),
                 *(["--personal-text", person.decode()] if person else []), *(["-l", str(bits)] if bits else [])]
        more = {"person": person} if person else {}
        text = sealed_list(key=KEYS[name], salt=salt, family=family, bits=bits or (256 if family[0] == "s" else 512),
                           **more)
        runs.expect_run(["--seal", *words, *FILES], text)
        runs.write("SUMS", text)
        runs.expect_run(["-c", "--sealed", *words, "SUMS"], shown)
        if salt:
            runs.expect_run(["-c", "--sealed", "-a", f"blake2{family}", "--key-file", name, "SUMS"], "",
                       BROKEN.format("SUMS"), 1)
    text = os.fsencode(manifest_line("-", b"abc", tag=True, key=KEY))
    runs.expect_run(["--seal", *WITH_KEY], text + seal_line(text, KEY), data=b"abc")
    for more in (["--tag"], ["-b"], ["--binary", "--tag"]):
        runs.expect_run(["--seal", *more, *WITH_KEY, "b"], sealed_list(["b"]))
    lacking = os.fsencode(manifest_line("b", b"abc", tag=True, key=KEY))
    runs.expect_run(["--seal", *WITH_KEY, "none", "b"], lacking, f"none: {os.strerror(errno.ENOENT)}", 1)
    runs.expect_run(["--seal", *WITH_KEY, "--", "b", "b"], sealed_list(["b", "b"]))
    runs.report_results("lists that are printed and sealed")


def test_check_of_sealed_lists(runs):
    """Lists that are sealed, in files and on standard input, of files that are as before or not."""
    write_keys(runs)
    shown = "".join(map(check_result_line, FILES))
    runs.write("SUMS", sealed_list())
    runs.write("ONE", sealed_list(["b"]))
    runs.write("BAD", sealed_list(["b"]).replace(b"sealed", b"sealex"))
    runs.expect_run([*CHECK, "SUMS", "ONE"], shown + "b: OK\n")
    runs.expect_run([*CHECK, "SUMS", "BAD", "ONE"], shown + "b: OK\n", BROKEN.format("BAD"), 1)
    runs.expect_run(CHECK, shown, data=sealed_list())
    runs.expect_run([*CHECK, "-", "ONE"], "b: OK\n", BROKEN.format("-"), 1, data=sealed_list()[:-1])
    runs.expect_run([*CHECK, "--quiet", "SUMS"], "")
    runs.expect_run([*CHECK, "--status", "SUMS"], "")
    runs.expect_run([*CHECK, "--status", "BAD"], "", BROKEN.format("BAD"), 1)
    runs.expect_run(["-c", "--sealed", "--key-file", "-", "ONE"], "b: OK\n", data=KEY)
    runs.write("SUMS", seal_line(b"", KEY))
    runs.expect_run([*CHECK, "SUMS"], "", NO_LINE.format("SUMS"), 1)
    runs.write("SUMS", sealed_list(["a", "b"]))
    runs.write("b", b"abd")
    runs.expect_run([*CHECK, "SUMS"], "a: OK\nb: FAILED\n", "WARNING: 1 computed checksum did NOT match", 1)
    os.remove(runs.path("b"))
    runs.expect_run([*CHECK, "SUMS"], "a: OK\nb: FAILED open or read\n", f"b: {os.strerror(errno.ENOENT)}\n"
               "WARNING: 1 listed file could not be read", 1)
    runs.expect_run([*CHECK, "--ignore-missing", "SUMS"], "a: OK\n")
    text = sealed_list(["a"])[:-len(seal_line(b"", KEY))] + b"nonsense\n"
    runs.write("SUMS", text + seal_line(text, KEY))
    runs.expect_run([*CHECK, "SUMS"], "a: OK\n", "WARNING: 1 line is improperly formatted", 1)
    for name, reason in (("none", errno.ENOENT), (".", errno.EISDIR)):
        runs.expect_run([*CHECK, name], "", f"{name}: {os.strerror(reason)}", 1)
    with open(runs.path("long"), "wb") as file:
        file.truncate(MOST + 1)
    runs.expect_run([*CHECK, "long"], "", f"long: the list has more than {MOST} bytes", 1)
    with open(runs.path("long"), "r+b") as file:
        file.truncate(MOST)
    runs.expect_run([*CHECK, "long"], "", BROKEN.format("long"), 1)
    os.remove(runs.path("long"))
    runs.report_results("lists that are sealed, and checked")


def test_any_change_breaks_seal(runs):
    """Each byte of a list, each line and the count, changed, cut off, added, moved and repeated."""
    write_keys(runs)
    text = sealed_list(["b", "a", "b"])
    above = text.splitlines(True)[:-1]
    last = text.splitlines(True)[-1]
    for at in range(0, len(text), 1 if HUGE else 7):
        for byte in {text[at] ^ 1, text[at] ^ 0x20, 10, 35}:
            if byte != text[at]:
                expect_refused_seal(runs, text[:at] + bytes([byte]) + text[at + 1:])
        expect_refused_seal(runs, text[:at] + text[at + 1:])
        expect_refused_seal(runs, text[:at])
        expect_refused_seal(runs, text[:at] + text[at:at + 1] + text[at:])
    for one in (b"\n", b"# comment\n", above[0], last, b"x", b"\0"):
        expect_refused_seal(runs, text + one)
        for at in range(len(above) + 1):
            expect_refused_seal(runs, b"".join([*above[:at], one, *above[at:], last]))
    for count in range(len(above)):
        for some in itertools.permutations(above, count):
            expect_refused_seal(runs, b"".join(some) + last)
    expect_refused_seal(runs, b"".join([above[1], above[0], above[2], last]))
    expect_refused_seal(runs, last + b"".join(above))
    for count in (b"0", b"2", b"4", b"03", b"+3", b" 3", b"3 ", b"33", b""):
        expect_refused_seal(runs, b"".join(above) + last.replace(b" 3 ", b" " + count + b" "))
    mac = last.split()[-1]
    for other in (mac.upper(), mac[:-2], mac + b"00", b"0" * 128, mac[::-1], b""):
        expect_refused_seal(runs, b"".join(above) + last.replace(mac, other))
    for start in (b"#sealed", b"# Sealed", b" # sealed", b"# sealed ", b"sealed", b"## sealed"):
        expect_refused_seal(runs, b"".join(above) + last.replace(b"# sealed", start))
    expect_refused_seal(runs, text.replace(b"\n", b"\r\n"))
    expect_refused_seal(runs, b"")
    expect_refused_seal(runs, b"\n")
    expect_refused_seal(runs, b"".join(above))
    listed = b"".join(above)
    for other in (seal_line(listed, KEYS["key64"]), seal_line(listed, KEY, salt=b"salt"),
                  seal_line(listed, KEY, person=b""),
                  seal_line(listed, KEY, person=b"b2sum"), seal_line(listed, b""), seal_line(listed[:-1], KEY),
                  seal_line(listed + b"\n", KEY)):
        expect_refused_seal(runs, listed + other)
    expect_refused_seal(runs, text, words=["-c", "--sealed", "--key-file", "key64"])
    expect_refused_seal(runs, text, words=[*CHECK, "--salt", "01"])
    runs.report_results("lists that are changed, and none of them is believed")


def test_broken_seal_opens_no_file(runs):
    """The calls of the system: of a list that does not hold no file is opened, and a list is opened once."""
    write_keys(runs)
    if not shutil.which("strace"):
        return
    text = sealed_list(["a", "b"])
    for change, (said, status) in (((lambda it: it), ("a: OK\nb: OK\n", 0)), ((lambda it: it[:-1]), ("", 1)),
                                   ((lambda it: it.replace(b"(a)", b"(b)")), ("", 1)),
                                   ((lambda it: it + b"\n"), ("", 1))):
        runs.write("SUMS", change(text))
        done = subprocess.run(["strace", "-f", "-e", "trace=file", "-o", runs.path("calls"), runs.program, *CHECK,
                               "SUMS"], cwd=runs.folder, capture_output=True, env={"LC_ALL": "C"})
        with open(runs.path("calls"), encoding="latin-1") as file:
            opened = re.findall(r'(?m)^.*\bopen\w*\(.*"(SUMS|a|b)"', file.read())
        if not opened:  # no leave to trace
            return
        runs.expect(["strace", opened, done], done.stdout == said.encode() and done.returncode == status
                   and opened == (["SUMS", "a", "b"] if not status else ["SUMS"]))
    runs.report_results("the files that a check opens")


def test_list_is_read_only_once(runs):
    """A list on a pipe that has another one when it is opened again: a check reads it once."""
    write_keys(runs)
    runs.write("prod.conf", b"debug=0\n")
    runs.write("test.conf", b"debug=1\n")
    good = runs.run(["--seal", *WITH_KEY, "--", "prod.conf", "test.conf"])[0]
    entry = manifest_line("test.conf", b"debug=1\n", tag=True, key=KEY)
    evil = entry.replace("test.conf", "prod.conf").encode()
    runs.expect("the list", good.endswith(seal_line(b"".join(good.splitlines(True)[:-1]), KEY)), good)
    runs.write("prod.conf", b"debug=1\n")  # what the attacker puts there, with the line of the other file
    os.mkfifo(runs.path("PIPE"))

    def write_to_pipe(text):
        with open(runs.path("PIPE"), "wb") as file:
            file.write(text)

    shown = "prod.conf: FAILED\ntest.conf: OK\n", "WARNING: 1 computed checksum did NOT match"
    for text, (said, reason) in ((good, shown), (evil, ("", BROKEN.format("PIPE")))):
        feeder = threading.Thread(target=write_to_pipe, args=(text,), daemon=True)
        feeder.start()
        runs.expect_run([*CHECK, "PIPE"], said, reason, 1)
        feeder.join(10)
    lines_of_good = good.splitlines(True)
    for forged in (evil, evil + lines_of_good[-1], lines_of_good[1] + lines_of_good[2],
                   evil + seal_line(evil, b""), evil + seal_line(evil, KEYS["key1"])):
        expect_refused_seal(runs, forged)
    runs.report_results("a list that is forged without the key")


def test_seal_is_comment_to_others(runs):
    """What a check without --sealed and other programs read of such a list: the last line is a comment."""
    write_keys(runs)
    text = sealed_list()
    runs.write("SUMS", text)
    shown = "".join(map(check_result_line, FILES))
    runs.expect_run(["-c", *WITH_KEY, "SUMS"], shown)
    plain = os.fsencode(manifest_lines(tag=True))
    runs.write("PLAIN", plain + seal_line(plain, KEY))
    runs.expect_run(["-c", "--strict", "PLAIN"], shown)
    if os.path.exists("/usr/bin/b2sum"):
        words = {"executable": "/usr/bin/b2sum", "cwd": runs.folder, "capture_output": True, "env": {"LC_ALL": "C"}}
        got = subprocess.run(["b2sum", "-c", "--strict", "PLAIN"], **words)
        runs.expect(["coreutils", "PLAIN"], got.returncode == 0 and got.stdout == os.fsencode(shown), got)
        got = subprocess.run(["b2sum", "-c", "SUMS"], **words)
        runs.expect(["coreutils", "SUMS"], (got.returncode, got.stdout) == (1, b""), got)
        runs.expect(["coreutils", "SUMS"], got.stderr.endswith(NO_LINE.format("SUMS").encode() + b"\n"), got)
    runs.report_results("what reads a sealed list as another")


def test_conflicting_options_are_refused(runs):
    """Options that do not go together."""
    write_keys(runs)
    for words, said in WRONG.items():
        runs.expect_run([*words.split(), "b"], "", said, 1, Try=1)
    runs.expect_run(["--sealed=1"], "", "option '--sealed' doesn't allow an argument", 1, Try=1)
    runs.expect_run(["--sea"], "", "option '--sea' is ambiguous; possibilities: '--seal' '--sealed'", 1, Try=1)
    runs.expect_run([*CHECK[:2], "--key-file", "-", "-"], "", "standard input is the key, and cannot be a file too", 1,
               Try=1)
    runs.report_results("what is refused of options for sealed lists")


run_program_tests((test_sealed_output_is_accepted, test_check_of_sealed_lists, test_any_change_breaks_seal,
                   test_broken_seal_opens_no_file, test_list_is_read_only_once, test_seal_is_comment_to_others,
                   test_conflicting_options_are_refused))
