#!/usr/bin/env python3
"""Runs the program b2sum over files: digests, keys, trees, manifests and what is refused. What it has to print is known
from hashlib.

Only the first program has all tests. With VULFSJOR_TEST_HUGE the others have those of what they compute: they are the
same program, with older builds of the library.
tests/b2sum_system.py has files, outputs and calls of the system that fail, and tests/compare_coreutils.py compares the
program with that of coreutils.

usage: tests/b2sum_files.py [PROGRAM..]
"""
import errno
import hashlib
import itertools
import os
import random
import re
import shutil
import subprocess

from b2sum_model import LIKE_DIGITS, SHORT
from b2sum_support import (
    FILES, expected_and_found_lines, check_result_line, digest, manifest_line, manifest_lines, longest_digest_bits,
    tree_manifest_line, run_program_tests, expected_file_output)
from common import TOP
from oracle import parallel_digest_by_hashlib

HUGE = bool(os.environ.get("VULFSJOR_TEST_HUGE"))
LONG = "the {} is too long: at most 16 bytes, 8 for BLAKE2s and BLAKE2sp"
NO_THREADS = "the value is not a number of threads, or 0 for all processors"
NO_DIGITS = "the value is not hexadecimal digits, two for each byte"
ZEROS = "a value of zeros only is the same as none"
# Wrong arguments, and what is said of them.
WRONG = {
    "--salt=": "invalid salt: ''\nthe value has no digits",
    "--personal=": "invalid personalization: ''\nthe value has no digits",
    "--personal-text=": "invalid personalization: ''\nthe value has no bytes",
    "--salt 0": f"invalid salt: '0'\n{NO_DIGITS}",
    "--personal zz": f"invalid personalization: 'zz'\n{NO_DIGITS}",
    **{f"--salt {'00' * length}": f"invalid salt: '{'00' * length}'\n{ZEROS}" for length in (1, 2, 16, 17)},
    **{f"--personal {'00' * length}": f"invalid personalization: '{'00' * length}'\n{ZEROS}" for length in (1, 8, 16)},
    **{f"{words} {'01' * length}": LONG.format("salt") for words, length in (
        ("--salt", 17), ("-a blake2s --salt", 9), ("-a blake2sp --salt", 9))},
    **{f"{words} {value}": LONG.format("personalization") for words, value in (
        ("--personal", "01" * 17), ("-a blake2s --personal", "01" * 9), ("--personal-text", "x" * 17),
        ("--personal-text", "\u00e9" * 9), ("-a blake2sp --personal-text", "x" * 9))},
    **{words: "the --personal and --personal-text options are mutually exclusive"
       for words in ("--personal 01 --personal-text x", "-c --personal-text x --personal=01")},
    **{words: "the --key-file and --key-hex-file options are mutually exclusive"
       for words in ("--key-file b --key-hex-file b", "-c --key-hex-file=- --key-file b",
                     "--seal --key-hex-file b --key-file b --key-hex-file b")},
    "-c --show-digests --key-hex-file b": "--show-digests does not support --key-file: "
                                          "it would print a valid MAC of a changed file",
    "--tree 4 --key-hex-file b": "the --tree option does not support --key-file",
    "--show-digests": "the --show-digests option is meaningful only when verifying checksums",
    "-c --show-digests --key-file b": "--show-digests does not support --key-file: "
                                      "it would print a valid MAC of a changed file",
    **{f"-a blake2{name} -l {most + 8}": f"invalid length: '{most + 8}'\n"
       f"maximum digest length for 'BLAKE2{name}' is {most} bits"
       for name, most in (("s", 256), ("sp", 256), ("bp", 512))},
    **{f"--tree {leaf}": f"invalid leaf length: '{leaf}'\na leaf has 1 to 4294967295 bytes"
       for leaf in ("0", "4294967296", "4k")},
    **{f"--threads {count}": f"invalid number of threads: '{count}'\n{NO_THREADS}" for count in ("x", "4294967296")},
    **{words: "the --threads option is meaningful only with --tree"
       for words in ("--threads 4", "--threads 0 --salt 01")},
    **{f"{words} --tag": "--tag does not support --no-names and --raw" for words in ("--raw", "--no-names")},
    **{f"-c {words}": "the --no-names and --raw options are meaningless when verifying checksums"
       for words in ("--raw", "--no-names")},
    "--raw a": "the --raw option needs one file",
    **{words: "the --tree option supports blake2b only"
       for words in ("--tree 4 -a blake2s", "-a blake2bp --tree 4", "-a blake2sp --tree 4")},
    "--tree 4 --key-file b": "the --tree option does not support --key-file",
    "--tree 4 --text": "--tree does not support --text mode",
}


# ---- Digests.

def test_every_digest_length(runs):
    """Each length of each hash, printed and checked, and files around the sizes of blocks, stripes and reads. Short
    files of BLAKE2bp and BLAKE2sp are known from a model."""
    for family in ("b", "s", "bp", "sp"):
        words, most = ["-a", f"blake2{family}"], longest_digest_bits(family)
        for bits in range(8, most + 1, 8) if len(family) == 1 else (8, 128, most - 8, most):
            of_length = [*words, "-l", str(bits)]
            for more in ["--tag"], []:
                said = manifest_lines(bits=bits, family=family, tag=bool(more))
                runs.expect_run([*of_length, *more, *FILES], said)
                runs.expect_run([*words, "-c"], "".join(map(check_result_line, FILES)), data=os.fsencode(said))
        for size in (511, 512, 513, 1536, 4095, 4096, 4097, 65535, 65536, 65537, 200000, 1000000):
            data = random.Random(size).randbytes(size)
            found = parallel_digest_by_hashlib(family[0], data) if "p" in family else digest(family, data, most // 8)
            runs.write("sized", data)
            runs.expect_run([*words, "sized"], f"{found.hex()}  sized\n")
            runs.expect_run([*words, "-"], f"{found.hex()}  -\n", data=data)
    runs.report_results("each length of all hashes, printed and checked")


def test_names_with_any_bytes(runs):
    """Names with each byte, and with what is a character of several bytes or looks like one."""
    names = [os.fsdecode(bytes([120, byte])) for byte in range(1, 256) if byte != 47]
    names += ["\u00e9", "\u20ac", "\U0001f600", "\U0010ff80", "\U0010ffff", "\U0010ff7f", "a\U0010ff80\udc80",
              os.fsdecode(b"\xf4\x8f\xbe"), os.fsdecode(b"\xed\xa0\x80"), os.fsdecode(b"\xc3"), "\u00e9\udce9"]
    deep = ("\udcff" * 255 + "/") * 3  # 4,083 bytes as a text, with 255 more
    os.makedirs(runs.path(deep))
    names.append(deep + "\udcff" * 255)
    for number, name in enumerate(names):
        runs.write(name, str(number).encode())
        runs.expect_run([name], manifest_line(name, str(number).encode()))
    manifest = "".join(manifest_line(name, str(number).encode()) for number, name in enumerate(names))
    runs.expect_run(["-c", "--quiet", "--strict"], "", data=os.fsencode(manifest))
    runs.report_results("names of any bytes")


def test_wrong_parameters_are_refused(runs):
    """What is refused of keys, salts, personalizations and algorithms. Random runs have those that are right."""
    for text in ("01", "0001", "0100", "00" * 15 + "01", "80" + "00" * 15):
        given = bytes.fromhex(text)
        runs.expect_run(["--salt", text, "b"], manifest_line("b", b"abc", salt=given))
        runs.expect_run(["--personal=" + text, "b"], manifest_line("b", b"abc", person=given))
    for words, said in WRONG.items():
        runs.expect_run([*words.split(), "b"], "", said, 1, **({} if "\n" in said else {"Try": 1}))
    for length in (0, 33, 65):
        runs.write(f"key{length}", bytes(length))
    for words, said in (("--key-file key65", "key65: a key has 1 to 64 bytes"),
                        ("--key-file key0", "key0: a key has 1 to 64 bytes"),
                        ("--key-file /dev/null", "/dev/null: a key has 1 to 64 bytes"),
                        ("-a blake2s --key-file key33", "key33: a key of BLAKE2s or BLAKE2sp has 1 to 32 bytes"),
                        ("--key-file none", f"none: {os.strerror(errno.ENOENT)}"),
                        ("--key-file .", f".: {os.strerror(errno.EISDIR)}")):
        runs.expect_run([*words.split(), "b"], "", said, 1)
    for name in ("blake2x", "blake2", "blake2bpp", "BLAKE2bp", ""):
        runs.expect_run(["-a", name, "b"], "", f"invalid algorithm: '{name}'", 1, Try=1)
    runs.report_results("what is refused of keys, salts and personalizations")


NO_LINE = "'standard input': no properly formatted checksum lines found"
NO_MATCH = "WARNING: 1 computed checksum did NOT match"
DIGITS = "a key has 2 to 128 hexadecimal digits, two for each byte"
SHORT_DIGITS = "a key of BLAKE2s or BLAKE2sp has 2 to 64 hexadecimal digits, two for each byte"


def test_tags_name_needed_parameters(runs):
    """Tags that say what a digest needs: no other program reads them. What looks like a tag is none."""
    values = {"key": bytes(range(32)), "salt": b"12345678", "person": b"abcdefgh"}
    runs.write("key", values["key"])
    peers = [it for it in (["b2sum", "-c"], ["cksum", "--check"], ["cksum", "-a", "blake2b", "--check"])
             if shutil.which(it[0], path="/usr/bin")]
    sets = [some for count in (1, 2, 3) for some in itertools.combinations(values, count)]
    for family, some, peer in itertools.product(("b", "s", "bp", "sp", "tree-4"), sets, peers):
        if family == "tree-4" and "key" in some:
            continue
        said = manifest_line("b", b"abc", 256, family, tag=True, **{it: values[it] for it in some}).encode()
        got = subprocess.run(peer, executable="/usr/bin/" + peer[0], cwd=runs.folder, input=said, capture_output=True)
        runs.expect([*peer, said], got.returncode == 1 and got.stdout == b"" and b"no properly" in got.stderr, got)
    keyed = manifest_line("b", b"abc", tag=True, key=values["key"])
    for text in ("-keyx", "-salt-key", "-personal-salt", "-key-key", "-Key", "-key-", "key", " -key"):
        runs.expect_run(["-c", "--key-file", "key"], "", NO_LINE, 1, keyed.replace("-key", text).encode())
    for leaf in ("0", "04", "4294967296", "4x", "", "-4", "+4", " 4", "99999999999999999999"):
        runs.expect_run(["-c"], "", NO_LINE, 1,
                        tree_manifest_line("b", b"abc", 4).replace("tree-4", "tree-" + leaf).encode())
    runs.expect_run(["-c", "--algorithm", "blake2b"], "b: OK\n", "'standard input': lines need --tree 1\n"
               "WARNING: 1 line needs other options", 1,
               (tree_manifest_line("b", b"abc", 1) + manifest_line("b", b"abc")).encode())
    runs.write("one", manifest_line("b", b"abc", 256, tag=True, key=values["key"]).encode())
    runs.write("two", manifest_line("b", b"abc").encode())
    for names in (["one", "two"], ["two", "one"]):
        runs.expect_run(["-c", *names], "b: OK\n",
                   "one: lines need --key-file --length 256\nWARNING: 1 line needs other options", 1)
    runs.write("M", "".join(f"{first:02x}  b\n" for first in range(256)).encode())
    runs.expect_run(["-c", "--key-file", "key", "M"], "",
               "M: lines need --length 8\nWARNING: 256 lines need other options", 1)
    runs.report_results("tags that say what a digest needs")


def test_key_is_read_from_standard_input(runs):
    """A key on standard input, all of it; then no file can be standard input."""
    key = bytes(range(64))
    for some in (key, key[:1], b"key\n"):
        runs.expect_run(["--key-file", "-", "b", "a"],
                        manifest_line("b", b"abc", key=some) + manifest_line("a", b"", key=some), data=some)
        runs.write("sums", manifest_line("b", b"abc", key=some).encode())
        runs.expect_run(["-c", "--key-file=-", "sums"], "b: OK\n", data=some)
    for some in (b"", bytes(65), bytes(1000)):
        runs.expect_run(["--key-file", "-", "b"], "", "-: a key has 1 to 64 bytes", 1, data=some)
    runs.expect_run(["-a", "blake2s", "--key-file", "-", "b"], "", "-: a key of BLAKE2s or BLAKE2sp has 1 to 32 bytes",
                    1,
               data=key)
    said = "standard input is the key, and cannot be a file too"
    for words in ([], ["-"], ["b", "-"], ["-c"], ["-c", "-"]):
        runs.expect_run(["--key-file", "-", *words], "", said, 1, data=key, Try=1)
    runs.write("sums", (manifest_line("b", b"abc", key=key) + manifest_line("-", b"", key=key)).encode())
    runs.expect_run(["-c", "--key-file=-", "sums"], "b: OK\n", "WARNING: 1 line is improperly formatted", 1, data=key)
    runs.write("key", key)
    runs.expect_run(["-c", "--key-file=key", "sums"], "b: OK\n-: OK\n")
    runs.expect_run(["-c", "--key-file", "-", "sums"], "", f"-: {os.strerror(errno.EISDIR)}", 1,
               stdin=os.open(runs.folder, os.O_RDONLY))
    runs.report_results("keys on standard input")


def test_hex_key_equals_its_bytes(runs):
    """Keys in hexadecimal digits, which mean the same as their bytes. Whatever else is in the file is refused."""
    keys = [bytes(range(length)) for length in (1, 2, 16, 31, 32, 33, 63, 64)]
    for key, end in itertools.product([*keys, bytes(64), b"\xff" * 32, b"\xab\xcd\xef", b"00ff"], (b"", b"\n")):
        digits = key.hex().encode()
        for text in (digits, digits.upper(), digits.title()):
            runs.write("keyhex", text + end)
            runs.expect_run(["--key-hex-file", "keyhex", "--tag", "b"], manifest_line("b", b"abc", tag=True, key=key))
            runs.expect_run(["--key-hex-file=-", "--tag", "b"], manifest_line("b", b"abc", tag=True, key=key),
                            data=text + end)
        runs.write("key", key)
        runs.write("sums", manifest_line("b", b"abc", key=key).encode())
        runs.expect_run(["-c", "--key-hex-file", "keyhex", "sums"], "b: OK\n")
        ways, warned = (["--key-file", "key"], ["--key-hex-file", "keyhex"]), f"WARNING: key: {LIKE_DIGITS}\n"
        for sealing, checking in itertools.product(ways, ways):
            sealed = runs.run(["--seal", *sealing, "b", "a"])[0]
            said = warned if key == b"00ff" and checking is ways[0] else ""
            runs.expect_run(["-c", "--sealed", *checking], "b: OK\na: OK\n", said, data=sealed)
            runs.expect_run(["-c", "--sealed", *checking], "", said + "-: the seal does not hold", 1,
                       data=sealed.replace(b"sealed 2", b"sealed 3"))
        for family in ("s", "sp"):
            wanted = (manifest_line("b", b"abc", 256, family, key=key), "", 0) if len(key) <= 32 else (
                "", f"keyhex: {SHORT_DIGITS}", 1)
            runs.expect_run(["-a", "blake2" + family, "--key-hex-file", "keyhex", "b"], *wanted)
    for text in (b"", b"\n", b"0", b"000", b"00\n\n", b"\n00", b"00 ", b" 00", b"0x00", b"0g", b"00\r\n", b"00\0",
                 b"00" * 64 + b"0", b"00" * 65, b"00" * 65 + b"\n", b"00" * 64 + b"\n\n", b"00" * 1000, bytes(32)):
        runs.write("keyhex", text)
        runs.expect_run(["--key-hex-file", "keyhex", "b"], "", f"keyhex: {DIGITS}", 1)
        runs.expect_run(["--key-hex-file=-", "b"], "", f"-: {DIGITS}", 1, data=text)
        runs.expect_run(["-c", "--key-hex-file", "keyhex", "sums"], "", f"keyhex: {DIGITS}", 1)
    runs.expect_run(["--key-hex-file", "none", "b"], "", f"none: {os.strerror(errno.ENOENT)}", 1)
    for words in ([], ["-"], ["b", "-"], ["-c"], ["-c", "-"]):
        runs.expect_run(["--key-hex-file", "-", *words], "", "standard input is the key, and cannot be a file too", 1,
                   data=b"00", Try=1)
    runs.write("keyhex", b"00" * 32)
    os.chmod(runs.path("keyhex"), 0o644)
    runs.expect_run(["--key-hex-file", "keyhex", "b"], manifest_line("b", b"abc", key=bytes(32)),
               "WARNING: others may read the key file keyhex (chmod 600 prevents it)")
    runs.expect_run(["-l", "64", "--key-hex-file", "-", "b"], manifest_line("b", b"abc", 64, key=bytes(32)), SHORT,
                    data=b"00" * 32)
    runs.report_results("keys in hexadecimal digits")


def test_raw_key_of_digits_warns(runs):
    """A key file of digits whose bytes are the key: a warning names it, and the status stays the same."""
    are = (b"00" * 16, b"0" * 33, b"00" * 16 + b"\n", b"aF", b"0", b"0\n", b"0" * 64, b"0" * 63 + b"\n", b"0123456789",
           b"abcdef", b"ABCDEF\n")
    are_not = (b"\n", b"00\n\n", b"\n00", b"0g", b"00 ", b"@", b"G", b"`", b"g", b"/", b":", b"0\0", b"00\r")
    for text in are + are_not:
        said = LIKE_DIGITS if text in are else ""
        runs.write("key 1", text)
        runs.expect_run(["--key-file", "key 1", "b"], manifest_line("b", b"abc", key=text),
                        said and f"WARNING: 'key 1': {said}")
        runs.expect_run(["--key-file=-", "b"], manifest_line("b", b"abc", key=text), said and f"WARNING: -: {said}",
                        data=text)
        runs.expect_run(["-c", "--key-file", "key 1"], "b: OK\n", said and f"WARNING: 'key 1': {said}",
                   data=manifest_line("b", b"abc", key=text).encode())
        runs.expect_run(["-l", "64", "--key-file", "key 1", "none"], "",
                   (said and f"WARNING: 'key 1': {said}\n") + SHORT + f"none: {os.strerror(errno.ENOENT)}", 1)
    runs.write("key", b"0" * 65)
    runs.expect_run(["--key-file", "key", "b"], "", "key: a key has 1 to 64 bytes", 1)
    runs.report_results("key files of digits whose bytes are the key")


def test_warnings_name_line_needs(runs):
    """With -w, what each line needs, by its number, and lines of other hash functions, by their tags."""
    key = bytes(range(32))
    runs.write("key", key)
    text = (manifest_line("b", b"abc") + manifest_line("b", b"abc", tag=True, key=key) + "# comment\n"
            + manifest_line("b", b"abc", 256, "s", tag=True, salt=b"\1") + manifest_line("b", b"abc", 128, tag=True,
                                                                                         key=key)
            + tree_manifest_line("b", b"abc", 1023) + manifest_line("none", b"") + "SHA256 (b) = 00\nx\n")
    runs.write("M", text.encode())
    every = ["M: 2: needs --key-file", "M: 4: needs --salt --algorithm blake2s", "M: 5: needs --key-file --length 128",
             "M: 6: needs --tree 1023", f"none: {os.strerror(errno.ENOENT)}",
             "M: 8: checksum line of another algorithm", "M: 9: improperly formatted BLAKE2b checksum line"]
    end = ["M: lines need --key-file --salt --algorithm blake2s --length 128",
           "WARNING: 2 lines are improperly formatted", "WARNING: 4 lines need other options",
           "WARNING: 1 listed file could not be read"]
    out = "b: OK\nnone: FAILED open or read\n"
    runs.expect_run(["-c", "-w", "M"], out, "\n".join(every + end), 1)
    for words in ([], ["--quiet"], ["-w", "--quiet"]):
        runs.expect_run(["-c", *words, "M"], out[6 * bool(words):], "\n".join(every[4:5] + end), 1)
    runs.expect_run(["-c", "-w", "--status", "M"], "", every[4], 1)
    runs.expect_run(["-c", "-w", "--key-file", "key", "-"], "", "\n".join([
        "'standard input': 1: needs no --key-file", "'standard input': lines need no --key-file",
        "WARNING: 1 line needs other options"]), 1, manifest_line("b", b"abc", tag=True).encode())
    runs.write("new\nline", manifest_line("b", b"abc", tag=True, key=key).encode())
    runs.expect_run(["-c", "-w", "new\nline"], "", "'new'$'\\n''line': 1: needs --key-file\n'new'$'\\n''line': "
               "lines need --key-file\nWARNING: 1 line needs other options", 1)
    digits = hashlib.sha256(b"abc").hexdigest()
    for tag in ("MD5", "SHA1", "SHA224", "SHA256", "SHA384", "SHA512", "SHA3-224", "SHA3-512", "SM3", "BLAKE3"):
        said = "'standard input': 2: checksum line of another algorithm\nWARNING: 1 line is improperly formatted"
        entry = f"{tag} (b) = {digits}\n"
        runs.expect_run(["-c", "-w"], "b: OK\n", said, 0, (manifest_line("b", b"abc") + entry).encode())
        runs.expect_run(["-c", "-w", "--strict"], "b: OK\n", said, 1, (manifest_line("b", b"abc") + entry).encode())
        runs.expect_run(["-c"], "b: OK\n", said.splitlines()[1], 0, (manifest_line("b", b"abc") + entry).encode())
        runs.expect_run(["-c", "-w"], "", f"'standard input': 1: checksum line of another algorithm\n{NO_LINE}", 1,
                   entry.encode())
    for entry in ("SHA256(b) = 00", "SHA256  (b) = 00", " SHA256 (b) = 00", "sha256 (b) = 00", "SHA257 (b) = 00",
                  "SHA3 (b) = 00", "BLAKE2x (b) = 00", "SHA256", "SHA256 b"):
        runs.expect_run(["-c", "-w"], "", f"'standard input': 1: improperly formatted BLAKE2b checksum line\n{NO_LINE}",
                        1,
                   entry.encode())
    runs.report_results("messages of --warn")


def test_small_leaves_need_tree_option(runs):
    """Trees with leaves below 1,024 bytes are checked only if --tree names them."""
    for leaf in (1, 4, 1023, 1024, 1025, 65536):
        said, small = tree_manifest_line("b", b"abc", leaf), leaf < 1024
        needs = f"'standard input': lines need --tree {leaf}\nWARNING: 1 line needs other options"
        runs.expect_run(["-c"], "" if small else "b: OK\n", needs if small else "", int(small), said.encode())
        runs.expect_run(["-c", "--tree", str(leaf)], "b: OK\n", data=said.encode())
        runs.expect_run(["-c", "--tree", str(leaf + 1)], "", needs, 1, said.encode())
        runs.expect_run(["-c", "-a", "blake2b"], "", needs, 1, said.encode())
        runs.expect_run(["-c", "--salt=01", "--tree", str(leaf)], "b: OK\n",
                   data=tree_manifest_line("b", b"abc", leaf, salt=b"\1").encode())
    runs.report_results("trees with small leaves in manifests")


def test_check_with_key_detects_forgery(runs):
    """What a check with a key promises: names have two bytes before them, whatever another manifest has."""
    key = bytes(range(32))
    runs.write("key", key)
    for name, data in ((" conf", b"good"), ("conf", b"evil"), ("other", b"x")):
        runs.write(name, data)
    for words, given in (([], {}), (["--key-file", "key"], {"key": key})):
        trusted = manifest_line("conf", b"good", **given)
        runs.write("trusted", trusted.encode())
        runs.write("stranger", manifest_line("other", b"x", **given).replace("  ", " ").encode())
        failed = "conf: FAILED\n"
        runs.expect_run([*words, "-c", "trusted"], failed, NO_MATCH, 1)
        none = "stranger: no properly formatted checksum lines found\n"
        runs.expect_run([*words, "-c", "stranger", "trusted"], ("" if given else "other: OK\n") + failed,
                   (none if given else "") + NO_MATCH, 1)
        runs.expect_run([*words, "-c", "trusted", "stranger"], failed + ("" if given else "other: OK\n"),
                   NO_MATCH + ("\n" + none if given else ""), 1)
    for mode, others in ((0o644, True), (0o640, True), (0o604, True), (0o600, False), (0o733, False), (0o400, False)):
        os.chmod(runs.path("key"), mode)
        said = "WARNING: others may read the key file key (chmod 600 prevents it)" if others else ""
        runs.expect_run(["--key-file", "key", "b", "key"],
                        manifest_line("b", b"abc", key=key) + manifest_line("key", key, key=key), said)
        runs.expect_run(["--key-file", "-", "b", "key"],
                        manifest_line("b", b"abc", key=key) + manifest_line("key", key, key=key), data=key)
    os.chmod(runs.path("key"), 0o600)
    for family, bits in itertools.product(("b", "s", "bp", "sp"), (8, 120, 128, 136)):
        said, words = SHORT if bits < 128 else "", ["-a", "blake2" + family, "-l", str(bits)]
        text = manifest_line("b", b"abc", bits, family, tag=True, key=key)
        runs.expect_run([*words, "--key-file", "key", "--tag", "b"], text, said)
        runs.expect_run([*words, "--key-file", "-", "--tag", "b"], text, said, data=key)
        runs.expect_run([*words, "--key-file", "key", "-c"], "b: OK\n", said, data=text.encode())
        runs.expect_run([*words, "b"], manifest_line("b", b"abc", bits, family))
    for words in (["--status"], ["--quiet"]):
        runs.expect_run([*words, "-l", "64", "--key-file", "key", "-c"], "", SHORT,
                   data=manifest_line("b", b"abc", 64, key=key).encode())
    # The key is read first, and no file before the warning.
    runs.expect_run(["-l", "64", "--key-file", "none", "b"], "", f"none: {os.strerror(errno.ENOENT)}", 1)
    runs.expect_run(["-l", "64", "--key-file", "key", "none", "b"], manifest_line("b", b"abc", 64, key=key),
               SHORT + f"none: {os.strerror(errno.ENOENT)}", 1)
    runs.report_results("checks with a key")


def run_manual_commands(runs, number):
    """The status of the commands in the manual that make a manifest and its MAC, or of those that check both, and what
    they print."""
    with open(os.path.join(TOP, "docs", "B2SUM.md")) as page:
        section = page.read().partition("### Sealed lists")[2]
    text = re.findall(r"(?:^    .+\n)+", section, re.MULTILINE)[number]
    text = 'b2sum() { "$0" "$@"; }\n' + text.replace("KEY", "key").replace("FILE..", "b a x")
    done = subprocess.run(["sh", "-c", text, runs.program], cwd=runs.folder, stdout=subprocess.PIPE,
                          stderr=subprocess.DEVNULL)
    return done.returncode, done.stdout


def test_manual_seal_commands_detect_forgery(runs):
    """The commands of the manual that seal a list and check it: they refuse what somebody without the key can write."""
    key = bytes(range(32))
    mac, other = manifest_line("b", b"abc", tag=True, key=key), manifest_line("a", b"", tag=True, key=key)
    forged = mac + mac.replace("(b)", "(a)")
    for name, data in (("key", key), ("x", forged.encode())):
        runs.write(name, data)
    runs.expect("made", run_manual_commands(runs, 0) == (0, b""))
    with open(runs.path("SUMS")) as file:
        made = file.read()
    file_mac = manifest_line("x", forged.encode(), tag=True, key=key)
    seal = made.splitlines(True)[-1]
    runs.expect("the list", made == mac + other + file_mac + seal and seal.startswith("# sealed 3 "))
    runs.expect("right", run_manual_commands(runs, 1) == (0, b"b: OK\na: OK\nx: OK\n"))
    runs.write("a", b"abc")
    of_file = f"# sealed 2 {file_mac.split()[-1]}\n"
    for last in ("", seal, seal.replace("3", "2"), mac, other, file_mac, of_file, of_file + seal, "# sealed 2 \n"):
        runs.write("SUMS", (forged + last).encode())
        if last != other:
            runs.expect_run(["--key-file", "key", "-c", "--quiet", "SUMS"], "")
        got = run_manual_commands(runs, 1)
        runs.expect(last, got == (1, b""), got)
    runs.report_results("sealed lists by the commands of the manual")


def test_tree_root_is_same_for_any_threads(runs):
    """Roots of trees by several threads, and by one. Random runs have short files."""
    big = random.Random(1).randbytes((40 << 20) + 77)  # several pieces that several threads read
    runs.write("big", big)
    for leaf in (1 << 20, 3 << 20, 5 << 20, 16 << 20, 1 << 25):
        runs.expect_run(["--tree", str(leaf), "big"], tree_manifest_line("big", big, leaf))
    for size in (16 << 20, (16 << 20) + 1, (32 << 20) - 1):
        runs.write("cut", big[:size])
        runs.expect_run(["--tree", "65536", "cut"], tree_manifest_line("cut", big[:size], 65536))
    for count in (1, 2, 4):
        some = sorted(os.sched_getaffinity(0))[:count]
        runs.expect_run(["--tree", "65536", "big", "big"], tree_manifest_line("big", big, 65536) * 2,
                   preexec_fn=lambda some=some: os.sched_setaffinity(0, some))
    for count in (0, 1, 2, 3, 256, 257, 4294967295):
        runs.expect_run(["--tree", "65536", "--threads", str(count), "big"], tree_manifest_line("big", big, 65536))
    wanted = tree_manifest_line("big", big, 65536, 256, salt=b"\1\2", person=b"\xff")
    runs.expect_run(["--tree=65536", "-l256", "--salt", "0102", "--personal=ff", "big"], wanted)
    runs.expect_run(["-c", "--salt", "0102", "--personal=ff", "--tree=65536"], "big: OK\n", data=wanted.encode())
    runs.report_results("roots of trees")


# ---- Random runs.

KEYS = {f"key{length}": bytes(range(length)) for length in (1, 32, 64)}


def random_hash_options(rng):
    """The options of a hash, its family, and the key, the salt and the personalization, if it has them."""
    family = rng.choice(["b", "s", "bp", "sp", "tree-1", "tree-64", "tree-1024", "tree-4294967295"])
    is_tree, most, given = family.startswith("tree-"), 8 if family[0] == "s" else 16, {}
    words = ["--tree", family[5:]] if is_tree else ["-a", "blake2" + family]
    if not is_tree and rng.random() < 0.3:
        name = rng.choice([it for it in KEYS if len(KEYS[it]) <= longest_digest_bits(family) // 8])
        given["key"] = KEYS[name]
        words += ["--key-file", name]
    if rng.random() < 0.3:
        given["salt"] = rng.randbytes(rng.randint(1, most))
        words += rng.choice([["--salt", given["salt"].hex()], ["--salt=" + given["salt"].hex().upper()]])
    if rng.random() < 0.4:
        given["person"] = person = bytes(rng.randint(1, 255) for _ in range(rng.randint(1, most)))
        text = os.fsdecode(person)
        words += rng.choice([["--personal", person.hex().upper()], ["--personal-text=" + text],
                             ["--personal-text", "other", "--personal-text", text]])  # the last one counts
    return words[2:] if family == "b" and rng.random() < 0.5 else words, family, given


def random_digest_bits(rng, family):
    return 8 * rng.randint(1, longest_digest_bits(family) // 8)


def compare_random_digests(rng, runs):
    """What is printed of random files, of one that is not there, and of standard input, by a random hash."""
    words, family, given = random_hash_options(rng)
    bits, names = random_digest_bits(rng, family), rng.sample([*FILES, "none", "-"], k=rng.randint(1, 3))
    shape = rng.choice([[], ["-b"], ["--tag"], ["-z"], ["-z", "--tag"], ["--no-names"], ["-z", "--no-names"], ["--raw"],
                        ["--raw", "--no-names", "-b", "-z"]])
    names = names[:1] if "--raw" in shape else names
    shown = (expected_file_output(name, FILES.get(name, b"input"), shape, family, bits, given) for name in names
             if name != "none")
    runs.expect_run([*words, "-l", str(bits), *shape, *([] if names == ["-"] else names)], b"".join(shown),
               (SHORT if "key" in given and bits < 128 else "") +
               (f"none: {os.strerror(errno.ENOENT)}" if "none" in names else ""), int("none" in names), b"input")


def test_random_digests_match_reference(runs):
    """Random digests: docs/SPECIFICATION.md, 11, and the manual. tests/b2sum_checks.py has random checks."""
    for name, key in KEYS.items():
        runs.write(name, key)
    for seed in range(600 if HUGE else 180):
        compare_random_digests(random.Random(seed), runs)
    runs.report_results("random digests")


# ---- What other programs do.

def test_documented_coreutils_differences(runs):
    """What docs/B2SUM.md lists as different from coreutils, as far as it can be seen in a run."""
    digits = hashlib.blake2b(b"abc", digest_size=32).hexdigest()
    for length in ("0256", "+256", " 256", "0x100"):
        runs.expect_run(["-c"], "", NO_LINE, 1, f"BLAKE2b-{length} (b) = {digits}\n".encode())
    for text in (f"{digits}  b\0\n", f"{digits}\0  b\n",
                 manifest_line("b", b"abc", tag=True).replace("BLAKE2b", "BLAKE2x"),
                 manifest_line("b", b"abc", tag=True).replace(" (", "  (")):
        runs.expect_run(["-c"], "", NO_LINE, 1, text.encode())
    runs.expect_run(["-c"], "b: OK\n", "WARNING: 1 line is improperly formatted", 0,
               f"\\{digits}  a\\x\n{digits} b\n".encode())
    for name, text in (("one", f"{digits} b\n"), ("two", f"{digits}  b\n")):
        runs.write(name, text.encode())
    runs.expect_run(["-c", "one", "two", "one"], "b: OK\n" * 3)
    shown = expected_and_found_lines(hashlib.blake2b(b"x").digest(), hashlib.blake2b(b"abc").digest())
    runs.expect_run(["-c", "--sh"], "b: FAILED\n" + shown, NO_MATCH, 1, manifest_line("b", b"x").encode())
    for name in ("caf\u00e9", "it's\1", "\1it's", "'\n", "\1'\2", "''\udcff'"):
        said = runs.run([name], env={"LC_ALL": "C.UTF-8"})[1]
        quoted = said.removeprefix(b"b2sum: ").removesuffix(b": No such file or directory\n")
        shown = subprocess.run(["bash", "-c", b"printf %s " + quoted], stdout=subprocess.PIPE).stdout
        runs.expect([name], shown == os.fsencode(name) and b"$'" in said, said)
    runs.expect_run(["x@'y"], "", f"'x@'\\''y': {os.strerror(errno.ENOENT)}", 1)
    runs.expect_run(["b", "-l", "256"], f"{digits}  b\n", env={"POSIXLY_CORRECT": "1"})
    os.makedirs(runs.path(deep := ("\udcff" * 255 + "/") * 4))
    runs.write(deep + "\udcff\udcff\udcff", b"")
    said = runs.run([deep + "\udcff\udcff\udcff"])
    runs.expect("a long name", said[2] == 1 and os.fsencode(os.strerror(errno.ENAMETOOLONG)) in said[1], said)
    for option, possible in (("--s", "'--status' '--strict' '--salt' '--show-digests' '--seal' '--sealed'"),
                             ("--p", "'--personal' '--personal-text' '--progress'"),
                             ("--persona", "'--personal' '--personal-text'"),
                             ("--t", "'--tag' '--text' '--tree' '--threads'")):
        runs.expect_run([option], "", f"option '{option}' is ambiguous; possibilities: {possible}", 1, Try=1)
    runs.report_results("the differences from coreutils")


COMPUTING = (test_every_digest_length, test_random_digests_match_reference, test_tree_root_is_same_for_any_threads)
TESTS = (*COMPUTING, test_wrong_parameters_are_refused, test_tags_name_needed_parameters,
         test_check_with_key_detects_forgery, test_hex_key_equals_its_bytes, test_raw_key_of_digits_warns,
         test_warnings_name_line_needs,
         test_small_leaves_need_tree_option, test_manual_seal_commands_detect_forgery, test_names_with_any_bytes,
         test_documented_coreutils_differences,
         test_key_is_read_from_standard_input)
run_program_tests(TESTS, COMPUTING if HUGE else ())
