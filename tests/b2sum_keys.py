#!/usr/bin/env python3
"""Runs the program b2sum with keys that --derive-key makes, and with digests that --expect gives. Keys are known from a
model of BLAKE2Xb (tests/b2_model.py) and from the program b2, digests and seals from hashlib. Then it looks for the key
of the file and the derived key in memory and on the command line, and makes single calls of the system fail, one after
the other (tests/b2sum_faults.c): with VULFSJOR_TEST_HUGE each of them, more than 1,000, and otherwise one of five.

Only the first program is tested: the others are the same program, with older builds of the library.

usage: tests/b2sum_keys.py [PROGRAM..]
"""
import errno
import itertools
import os
import random
import subprocess

from b2sum_model import LIKE_DIGITS, SHORT, seal_line
from b2sum_support import (
    FILES, expected_and_found_lines, check_result_line, derived_key, digest, manifest_line, manifest_lines,
    longest_digest_bits, run_and_faults_said, tree_manifest_line, run_program_tests,
    key_copies_and_dump_flags)
from common import TOP

HUGE = bool(os.environ.get("VULFSJOR_TEST_HUGE"))
SECRET = random.Random(11).randbytes(64)
HASHES = ("b", "s", "bp", "sp")
# Contexts: of bytes that lines, shells and texts treat as special, that look like options, and of many lengths.
CONTEXTS = ("records 2026", " ", "x", "-", "--sealed", "-c", "new\nline", "\\n", "'\"", "%s%n", "caf\u00e9", "\udcff",
            "\udcff\udc80", "\U0001f600", "\U0010ff00", *("x" * length for length in (64, 127, 128, 129, 4000, 100000)))
NEEDS_KEY = "the --derive-key option needs --key-file"
LENGTH = "the expected digest does not have the length of the digests"
DIGITS = "invalid digest: '{}'\nthe value is not hexadecimal digits, two for each byte"
NOT_SEALED = "the --expect option does not support --sealed"
IN_LISTS = "the --expect option does not support --strict and --ignore-missing"
MODES = "the --binary and --text options are meaningless when verifying checksums"
NO_SHAPES = "the --no-names and --raw options are meaningless when verifying checksums"
ZEROS, WHOLE = "00" * 32, "00" * 64
# Words that are refused, and what is said of them.
WRONG = {
    "--derive-key=": "invalid context: ''\nthe value has no bytes",
    "--key-file key --derive-key=": "invalid context: ''\nthe value has no bytes",
    "--derive-key x --key-file key --derive-key=": "invalid context: ''\nthe value has no bytes",
    "--derive-key x": NEEDS_KEY, "-c --derive-key x": NEEDS_KEY, "--tag --derive-key=x --salt 01": NEEDS_KEY,
    "-a blake2s --derive-key x": NEEDS_KEY, "--derive-key x --tree 4096": NEEDS_KEY,
    "--seal --derive-key x": "the --seal option needs --key-file",
    "-c --sealed --derive-key x": "the --sealed option needs --key-file",
    "--derive-key x --tree 4096 --key-file key": "the --tree option does not support --key-file",
    "--derive-key x --key-file key --key-hex-file key":
        "the --key-file and --key-hex-file options are mutually exclusive",
    f"--derive-key x --key-file key --show-digests --expect {WHOLE}":
        "--show-digests does not support --key-file: it would print a valid MAC of a changed file",
    "--expect=": "invalid digest: ''\nthe value has no digits",
    **{f"--expect {text}": DIGITS.format(text) for text in ("0", "000", "0g", "0x00", "00-", "g" * 128, "0" * 127)},
    **{f"--expect {text}": f"invalid digest: '{text}'\na digest has at most 512 bits" for text in (
        "00" * 65, "ff" * 66, "00" * 1000)},
    f"--expect {ZEROS} --expect=": "invalid digest: ''\nthe value has no digits",
    f"--expect {ZEROS} --tag": "the --tag option is meaningless when verifying checksums",
    f"--expect {ZEROS} -z": "the --zero option is not supported when verifying checksums",
    f"--expect {ZEROS} --zero": "the --zero option is not supported when verifying checksums",
    **{f"--expect {ZEROS} {word}": MODES for word in ("-b", "--binary", "-t", "--text")},
    **{f"--expect {ZEROS} {word}": NO_SHAPES for word in ("--raw", "--no-names", "--raw --no-names")},
    f"--expect {ZEROS} --seal": "the --seal option is meaningless when verifying checksums",
    f"--expect {WHOLE} --seal --key-file key": "the --seal option is meaningless when verifying checksums",
    f"--expect {ZEROS} --sealed": "the --sealed option needs --key-file",
    f"--expect {WHOLE} --sealed --key-file key": NOT_SEALED, f"-c --sealed --key-file key --expect {WHOLE}": NOT_SEALED,
    f"--expect {ZEROS} --recursive .": "the --recursive option does not support --expect",
    **{f"--expect {ZEROS} {word}": IN_LISTS for word in ("--strict", "--ignore-missing", "-c --strict")},
    **{words: LENGTH for words in (
        f"--expect {ZEROS} -l 264", f"-l 8 --expect {ZEROS}", f"-l 512 --expect {ZEROS}", f"--expect {WHOLE} -l 256",
        f"-a blake2s --expect {ZEROS}00", f"-a blake2sp --expect {WHOLE}", f"--key-file key --expect {ZEROS}",
        f"--key-file key --expect {WHOLE[2:]}", f"--key-hex-file key --expect 00", f"-l 256 --key-file key --expect "
        f"{WHOLE}", f"-a blake2s --key-file key --expect {ZEROS[2:]}", f"--tree 4096 -l 128 --expect {ZEROS}",
        f"--key-file key --derive-key x --expect {ZEROS}", f"--expect {WHOLE} --expect {ZEROS} -l 512")},
    **{f"--key-file - --expect {WHOLE}{end}": "standard input is the key, and cannot be a file too"
       for end in (" -", " --derive-key x -", " b -")},
}


def option_in_numbered_form(name, value, number):
    """An option in one of its forms."""
    return ([f"--{name}", value], [f"--{name}={value}"], [f"--{name[:-1]}", value])[number % 3]


def derive_key_option(context, number=0):
    return option_in_numbered_form("derive-key", context, number)


# ---- Derived keys.

def test_derived_keys_of_every_length(runs):
    """Keys of each length, from a file of bytes or of digits and from standard input, for all hashes."""
    for length, family in itertools.product(range(1, 65), HASHES):
        if len(family) > 1 and not HUGE and length not in (1, 32, 33, 64):
            continue
        key, context = SECRET[:length], f"records {length}"
        runs.write("key", key)
        runs.write("keyhex", key.hex().encode() + b"\n" * (length % 2))
        given = {"bits": longest_digest_bits(family), "family": family, "key": derived_key(key, context, family)}
        text = manifest_lines(tag=True, **given)
        words = ["-a", f"blake2{family}", *derive_key_option(context, length)]
        runs.expect_run([*words, "--key-file", "key", "--tag", *FILES], text)
        runs.expect_run([*words, "--key-hex-file", "keyhex", "--tag", *FILES], text)
        runs.expect_run([*words, "--key-file", "-", "--tag", *FILES], text, data=key)
        runs.write("sums", os.fsencode(text))
        shown = "".join(map(check_result_line, FILES))
        runs.expect_run([*words, "--key-hex-file=-", "-c", "sums"], shown, data=key.hex().upper().encode())
        runs.expect_run([*words, "--key-file=key", "-c"], shown, data=os.fsencode(text))
        for wrong in (["--key-file", "key", "--derive-key", context + "x"], ["--key-hex-file", "keyhex"]):
            got = runs.run([*words[:2], *wrong, "-c", "--quiet", "sums"])
            runs.expect([*wrong, length], got[2] == 1 and b"OK" not in got[0], got)
    runs.report_results("derived keys from keys of each length")


def test_contexts_of_any_bytes(runs):
    """Contexts of any bytes and of many lengths. The last one counts."""
    runs.write("key", SECRET[:32])
    contexts = [*CONTEXTS, *(os.fsdecode(bytes([byte])) for byte in range(1, 256, 1 if HUGE else 9))]
    for number, context in enumerate(contexts):
        for family in HASHES[:2] if number % 8 else HASHES:
            key = derived_key(SECRET[:32], context, family)
            words = ["-a", f"blake2{family}", "--key-file", "key", *derive_key_option(context, number)]
            runs.expect_run([*words, "b"], manifest_line("b", b"abc", longest_digest_bits(family), family, key=key))
    key = derived_key(SECRET[:32], "second")
    runs.expect_run(["--key-file", "key", "--derive-key", "first", "--derive-key", "second", "b"],
               manifest_line("b", b"abc", key=key))
    runs.expect_run(["--derive-key", "second", "--key-hex-file=-", "b"], manifest_line("b", b"abc", key=key),
               data=SECRET[:32].hex().encode())
    for bits, salt, person in itertools.product((8, 120, 128, 512), (b"", b"salt"), (b"", b"person")):
        given = {**({"salt": salt} if salt else {}), **({"person": person} if person else {})}
        more = [*(["--salt", salt.hex()] if salt else []), *(["--personal-text=person"] if person else [])]
        runs.expect_run(["--key-file=key", "--derive-key=second", "-l", str(bits), *more, "--tag", "b"],
                   manifest_line("b", b"abc", bits, tag=True, key=key, **given), SHORT if bits < 128 else "")
    runs.report_results("contexts of derived keys")


def path_of_b2(runs):
    """The program b2: the one that is beside b2sum or that the tests share, or else the one that is built here."""
    for folder in (os.path.dirname(runs.program), os.environ.get("VULFSJOR_PROGRAMS") or ""):
        if os.access(os.path.join(folder, "b2"), os.X_OK):
            return os.path.join(folder, "b2")
    return os.path.join(TOP, "b2")


def test_b2_derive_gives_same_key(runs):
    """`b2 derive` derives the same key. Its arguments are UTF-8."""
    tool, rng = path_of_b2(runs), random.Random(5)
    for number in range(60 if HUGE else 12):
        key, context = rng.randbytes(rng.randint(1, 64)), rng.choice([it for it in CONTEXTS if "\udcff" not in it])
        runs.write("key", key)
        for family, size in (("b", "64"), ("s", "32")):
            done = subprocess.run([tool, "derive", size, context, "raw"], input=key, stdout=subprocess.PIPE)
            runs.expect([context, size], done.stdout == derived_key(key, context, family), done)
            words = ["-a", f"blake2{family}", "--tag", *FILES]
            got = runs.run(["--key-file", "key", *derive_key_option(context, number), *words])
            runs.expect([context, *words], got[0] and got == runs.run(["--key-file=-", *words], done.stdout), got)
    runs.report_results("derived keys by the program b2")


def test_bad_key_files_are_refused(runs):
    """What is no key, and warnings of keys. They are about the bytes of the file."""
    for (family, length), words in itertools.product(itertools.product(HASHES, (0, 65, 66, 1000)), ([], ["-c"])):
        words = ["-a", f"blake2{family}", "--derive-key", "x", *words]
        runs.write("key", bytes(length))
        runs.write("keyhex", b"00" * length)
        runs.expect_run([*words, "--key-file", "key", "b"], "", "key: a key has 1 to 64 bytes", 1)
        runs.expect_run([*words, "--key-file=-", "b"], "", "-: a key has 1 to 64 bytes", 1, data=bytes(length))
        said = "a key has 2 to 128 hexadecimal digits, two for each byte"
        runs.expect_run([*words, "--key-hex-file", "keyhex", "b"], "", f"keyhex: {said}", 1)
        runs.expect_run([*words, "--key-hex-file=-", "b"], "", f"-: {said}", 1, data=b"00" * length + b"g")
    for name, error in (("none", errno.ENOENT), (".", errno.EISDIR)):
        runs.expect_run(["--derive-key", "x", "--key-file", name, "b"], "", f"{name}: {os.strerror(error)}", 1)
    for text in (b"00" * 16, b"0" * 63 + b"\n", b"aF", b"0", b"0" * 64, b"0g", bytes(32)):
        said = "" if text in (b"0g", bytes(32)) else f"WARNING: key: {LIKE_DIGITS}\n"
        runs.write("key", text)
        for family, bits in (("b", 512), ("s", 256), ("s", 64)):
            words = ["-a", f"blake2{family}", "-l", str(bits), "--derive-key=x", "--key-file", "key"]
            mac = manifest_line("b", b"abc", bits, family, key=derived_key(text, "x", family))
            said_too = SHORT if bits < 128 else ""
            runs.expect_run([*words, "b"], mac, said + said_too)
            runs.expect_run([*words, "-c"], "b: OK\n", said + said_too, data=mac.encode())
    os.chmod(runs.path("key"), 0o644)
    runs.expect_run(["--key-file", "key", "--derive-key", "x", "b"],
                    manifest_line("b", b"abc", key=derived_key(bytes(32), "x")),
               "WARNING: others may read the key file key (chmod 600 prevents it)")
    runs.report_results("key files of derived keys")


def test_seal_holds_only_for_its_key(runs):
    """A list that is sealed under a derived key holds only under the same key, context and family."""
    contexts = ("records", "Records", "records ", "record", "records\n", "x" * 4000, "x" * 3999 + "y")
    other = SECRET[:31] + bytes([SECRET[31] ^ 1])
    for name, key in (("key", SECRET[:32]), ("other", other), ("longer", SECRET[:32] + b"\0")):
        runs.write(name, key)
        os.chmod(runs.path(name), 0o600)
    for family, context in itertools.product(HASHES, contexts[:3] if not HUGE else contexts):
        key, hash_of = derived_key(SECRET[:32], context, family), ["-a", f"blake2{family}"]
        text = os.fsencode(manifest_lines(tag=True, bits=longest_digest_bits(family), family=family, key=key))
        with_key = [*hash_of, "--key-file", "key"]
        runs.expect_run(["--seal", *with_key, "--derive-key", context, *FILES], text + seal_line(text, key))
        runs.write("SUMS", text + seal_line(text, key))
        runs.write("derived", key)
        os.chmod(runs.path("derived"), 0o600)
        shown, broken = "".join(map(check_result_line, FILES)), "SUMS: the seal does not hold"
        check = ["-c", "--sealed", *hash_of]
        for right in (["--key-file=key", "--derive-key", context], ["--key-file", "derived"]):
            runs.expect_run([*check, *right, "SUMS"], shown)
        for wrong in (["--key-file", "key"], *(["--key-file", it, "--derive-key", context] for it in (
                "other", "longer", "derived")), *(["--key-file", "key", "--derive-key", it] for it in contexts
                                                  if it != context)):
            runs.expect_run([*check, *wrong, "SUMS"], "", broken, 1)
        swapped = "b" if family[0] == "s" else "s"  # whose derived keys have another length
        runs.expect_run(["-c", "--sealed", "-a", f"blake2{swapped}", "--key-file=key", "--derive-key", context, "SUMS"],
                        "",
                   broken, 1)
        forged = text.replace(b"(b)", b"(a)", 1)
        for last in (seal_line(text, key), seal_line(forged, SECRET[:32]), seal_line(forged, b"k")):
            runs.write("SUMS", forged + last)
            runs.expect_run([*check, "--key-file=key", "--derive-key", context, "SUMS"], "", broken, 1)
    runs.report_results("lists that are sealed under a derived key")


# ---- Expected digests.

def test_expected_digest_is_compared(runs):
    """Each length of each hash, in either case: a file that has the digest, and one that has another."""
    for family in HASHES:
        words, most = ["-a", f"blake2{family}"], longest_digest_bits(family) // 8
        for size in range(1, most + 1) if len(family) == 1 or HUGE else (1, 16, most - 1, most):
            found = digest(family, b"abc", size)
            form = (str.lower, str.upper, str.title)[size % 3](found.hex())
            runs.expect_run([*words, *option_in_numbered_form("expect", form, size), "b"], "b: OK\n")
            runs.expect_run([*words, *option_in_numbered_form("expect", form, size + 1), "-l", str(8 * size), "b", "b"],
                            "b: OK\n" * 2)
            at = random.Random(size).randrange(8 * size)
            other = (int.from_bytes(found, "big") ^ 1 << at).to_bytes(size, "big")
            runs.expect_run([*words, "--expect", other.hex(), "b"], "b: FAILED\n", status=1)
            if size < most:  # a beginning of a longer digest is no digest
                runs.expect_run([*words, "--expect", digest(family, b"abc", most)[:size].hex(), "b"], "b: FAILED\n",
                           status=1)
    whole, names = digest("b", b"abc", 64).hex(), list(FILES)
    runs.expect_run(["--expect", whole], "-: OK\n", data=b"abc")
    runs.expect_run(["--expect", whole, "-"], "-: OK\n", data=b"abc")
    runs.expect_run(["--expect", whole], "-: FAILED\n", status=1, data=b"abd")
    runs.expect_run(["--expect", whole, "-", "-"], "-: OK\n-: FAILED\n", status=1, data=b"abc")
    runs.expect_run(["--expect", WHOLE, "--expect", whole, "b"], "b: OK\n")
    for data in FILES.values():
        out = "".join(check_result_line(name, "OK" if FILES[name] == data else "FAILED") for name in names)
        runs.expect_run(["--expect", digest("b", data, 64).hex(), *names], out, status=1)
    for words in (["-c"], ["--check"]):
        runs.expect_run([*words, "--expect", whole, "b"], "b: OK\n")
    for bit in range(512):
        other = (int(whole, 16) ^ 1 << bit).to_bytes(64, "big").hex()
        runs.expect_run(["--expect", other, "b"], "b: FAILED\n", status=1)
    runs.report_results("expected digests of each length")


def test_expected_digest_with_other_options(runs):
    """Expected digests with the options of checks, of keys and of trees, and files that cannot be read."""
    whole, gone = digest("b", b"abc", 64), f"none: {os.strerror(errno.ENOENT)}"
    words = ["--expect", whole.hex(), "b", "none", "a", "with\nline"]
    failed = "a: FAILED\n\\with\\nline: FAILED\n"
    shown = {"": "b: OK\nnone: FAILED open or read\n" + failed, "--quiet": "none: FAILED open or read\n" + failed,
             "--status": "", "-w": "b: OK\nnone: FAILED open or read\n" + failed}
    for option_of, out in shown.items():
        runs.expect_run([option_of, *words][not option_of:], out, gone, 1)
    runs.expect_run(["--status", "--expect", whole.hex(), "b"], "")
    runs.expect_run(["--status", "--expect", whole.hex(), "a"], "", status=1)
    for data in (b"", b"x" * 1000):
        runs.expect_run(["--show-digests", "--expect", whole.hex(), "a", "b"], "a: FAILED\n" +
                   expected_and_found_lines(whole, digest("b", b"", 64)) + "b: OK\n", status=1)
    runs.expect_run(["--show-digests", "--expect", whole.hex().upper()], "-: FAILED\n" +
               expected_and_found_lines(whole, digest("b", b"x", 64)), status=1, data=b"x")
    runs.expect_run(["--show-digests", "--status", "--expect", whole.hex(), "a"], "", status=1)
    os.mkdir(runs.path("dir"))
    for name, error in (("dir", errno.EISDIR), ("b/x", errno.ENOTDIR), ("n" * 256, errno.ENAMETOOLONG), ("",
                        errno.ENOENT)):
        runs.expect_run(["--expect", whole.hex(), "b", name, "b"], f"b: OK\n{name}: FAILED open or read\nb: OK\n",
                   f"{name or chr(39) * 2}: {os.strerror(error)}", 1)
    for leaf, bits in itertools.product((1, 4, 1024, 65536), (512, 256, 8)):
        root = digest(f"tree-{leaf}", b"abc", bits // 8).hex()
        runs.expect_run(["--tree", str(leaf), "--expect", root, "b"], "b: OK\n")
        runs.expect_run(["--tree", str(leaf + 1), "--expect", root, "b"], "b: FAILED\n", status=1)
        runs.expect_run(["--expect", root, "b"], "b: FAILED\n", status=1)
    runs.write("key", SECRET[:32])
    for family, bits, context, salt in itertools.product(HASHES, (None, 64, 128), (None, "records"), (b"", b"salt")):
        key = derived_key(SECRET[:32], context, family) if context else SECRET[:32]
        given = {"key": key, **({"salt": salt} if salt else {})}
        mac = digest(family, b"abc", (bits or longest_digest_bits(family)) // 8, **given).hex()
        more = [*(["-l", str(bits)] if bits else []), *(["--salt", salt.hex()] if salt else []),
                *(derive_key_option(context) if context else []), "-a", f"blake2{family}"]
        said = SHORT if bits == 64 else ""
        runs.expect_run([*more, "--key-file", "key", "--expect", mac, "b"], "b: OK\n", said)
        runs.expect_run([*more, "--key-file=-", "--expect", mac, "a", "b"], "a: FAILED\nb: OK\n", said, 1,
                        data=SECRET[:32])
        runs.expect_run([*more[:-2], "-a", f"blake2{family}", "--key-hex-file=-", "--expect", mac, "b"], "b: OK\n",
                        said,
                   data=SECRET[:32].hex().encode())
        if not context:  # the digest of another key
            runs.expect_run([*more, "--key-file", "key", "--derive-key", "x", "--expect", mac, "b"], "b: FAILED\n",
                            said, 1)
    runs.report_results("expected digests with other options")


def test_wrong_options_are_refused(runs):
    """Words that are refused: nothing is printed but why."""
    runs.write("key", SECRET[:32])
    for words, said in WRONG.items():
        for end in (["b"], []) if not words.endswith("-") else ([],):
            runs.expect_run([*words.split(), *end], "", said, 1, **({} if "\n" in said else {"Try": 1}))
    for name, words in (("--derive-key", ["--key-file", "key"]), ("--expect", [])):
        runs.expect_run([*words, name], "", f"option '{name}' requires an argument", 1, Try=1)
    for start, names in (("--d", "derive-key"), ("--e", "expect"), ("--exp", "expect"), ("--de", "derive-key")):
        got = runs.run(["--key-file", "key", f"{start}="])
        runs.expect(start, got[0] == b"" and got[2] == 1 and got[1].startswith(
            b"b2sum: invalid context: ''" if names == "derive-key" else b"b2sum: invalid digest: ''"), got)
    for words in (["--key-file", "-"], ["--key-hex-file=-", "--derive-key", "x"]):
        runs.expect_run([*words, "--expect", WHOLE], "", "standard input is the key, and cannot be a file too", 1,
                        Try=1)
    runs.report_results("what is refused of derived keys and expected digests")


# ---- Secrets.

def test_key_is_not_on_command_line(runs):
    """Neither key is where other users may see it."""
    os.mkfifo(runs.path("pipe"))
    for family in HASHES[:2]:
        runs.write("key", SECRET)
        words = ["-a", f"blake2{family}", "--key-file", "key", "--derive-key", "records", "--tag"]
        process = subprocess.Popen(["b2sum", *words, "pipe"], executable=runs.program, cwd=runs.folder,
                                   stdout=subprocess.PIPE, stderr=subprocess.PIPE, env={"LC_ALL": "C"})
        key = derived_key(SECRET, "records", family)
        with open(runs.path("pipe"), "wb") as pipe:  # once it is opened for reading, after the key
            seen = b""
            for name in ("cmdline", "comm", "environ"):
                try:
                    with open(f"/proc/{process.pid}/{name}", "rb") as file:
                        seen += file.read()
                except PermissionError:
                    pass
            pipe.write(b"abc")
        out = process.communicate(timeout=100)
        runs.expect(words, b"records" in seen and not any(
            it[at:at + 8] in seen or it[at:at + 8].hex().encode() in seen.lower()
            for it in (SECRET, key) for at in range(len(it) - 7)), seen)
        runs.expect(words, out == (manifest_line("pipe", b"abc", longest_digest_bits(family), family, tag=True,
                                                 key=key).encode(), b""), out)
    runs.report_results("keys on the command line")


def test_keys_leave_memory(runs):
    """The key of the file is nowhere in memory once the other one is derived, and that one is there only while it is
    used. At the end there is none of them, and no digits of one."""
    runs.write("long", bytes(200000))
    sizes = {"b": 64, "s": 32, "bp": 64, "sp": 32}
    for family, form in itertools.product(sizes if HUGE else ("b", "s"), ("--key-file", "--key-hex-file")):
        key = derived_key(SECRET, "records", family)
        digits = SECRET.hex().encode()
        runs.write("key", digits + b"\n" if "hex" in form else SECRET)
        words = ["-a", f"blake2{family}", form, "key", "--derive-key", "records"]
        bits = longest_digest_bits(family)
        text = os.fsencode("".join(manifest_line(name, data, bits, family, tag=True, key=key) for name, data in (
            ("long", bytes(200000)), ("b", b"abc"))))
        runs.write("sums", text)
        runs.write("sealed", text + seal_line(text, key))
        mac = digest(family, bytes(200000), bits // 8, key=key).hex()
        for more in (["long", "b", "-"], ["-c", "sums"], ["--seal", "long", "b"], ["-c", "--sealed", "sealed"],
                     ["--expect", mac, "long"]):
            most, ends = 0, {}
            for call in ("readv", "close"):
                for at in itertools.count(1):
                    found = {name: key_copies_and_dump_flags(runs, words + more, it, call, at) for name, it in (
                        ("file", SECRET), ("derived", key), ("digits", digits[:64]))}
                    if not found["file"]:
                        break
                    ends[call] = at
                    runs.expect([*words, *more, call, at, found], all(it[1:] == (0, 0) for it in found.values()))
                    most = max(most, found["derived"][0])
                    if (call, at) > ("readv", 3):  # the reads of the key are over, as is the first close
                        runs.expect([*words, *more, "the file's key", call, at, found],
                                   found["file"][0] == found["digits"][0] == 0)
            runs.expect([*words, *more, most, ends], most >= sizes[family] // 8 and ends["readv"] > 3)
            for at in (ends["close"] - 1, ends["close"]):
                for secret in (SECRET, key, digits[:64], key.hex().encode()[:64]):
                    found = key_copies_and_dump_flags(runs, words + more, secret, "close", at)
                    runs.expect([*words, *more, "the end", at], found == (0, 0, 0), found)
    runs.report_results("derived keys in memory")


# ---- Faults.

def is_failure_reported(got, whole, good, call):
    """Whether a run in which a call failed shows it: no line is printed that may not be, and nothing is sealed. A file
    whose closing fails was read, and the run fails at its end."""
    printed = got[0].splitlines(True)
    return got[2] == 1 and {*printed} <= good and (
        call == "close" or not any(text.startswith(b"# sealed") for text in printed)) and (
        got[1] != b"" or call in ("close", "write"))


def commands_with_allowed_lines(runs):
    """Command lines with the new options, and what lines each may print."""
    names = [f"f{number}" for number in range(12)]
    for number, name in enumerate(names):
        runs.write(name, b"%d" % number * 2500)
    os.makedirs(runs.path("tree/d"))
    for name in ("tree/m", "tree/d/n", "tree/d/o"):
        runs.write(name, b"the same")
    runs.write("key", SECRET)
    with_key = ["--key-file", "key", "--derive-key", "records"]
    text = runs.run(["--seal", *with_key, "--", *names])[0]
    runs.write("SUMS", text)
    text = runs.run(["--seal", *with_key, "--recursive", "tree"])[0]
    runs.write("TREE", text)
    same, mac = digest("b", b"the same", 64).hex(), digest(
        "b", b"the same", 64, key=derived_key(SECRET, "records")).hex()
    some = ["tree/m", "tree/d/n", "tree/d/o"]
    yield [*with_key, *names]
    yield [*with_key, "--tag", "-a", "blake2s", *names]
    yield ["--seal", *with_key, *names]
    yield [*with_key, "-c", "SUMS"]
    yield [*with_key, "-c", "--sealed", "SUMS"]
    yield ["--expect", same, *some]
    yield [*with_key, "--expect", mac, *some]
    yield ["--tree", "4", "--expect", digest("tree-4", b"the same", 64).hex(), *some]
    yield ["--recursive", "tree"]
    yield ["--seal", *with_key, "--recursive", "tree", "f1"]
    yield [*with_key, "-c", "--sealed", "--recursive", "tree", "TREE"]
    yield [*with_key, "-a", "blake2sp", "--recursive", "tree", "--recursive", "tree/d"]


def fail_each_call_in_turn(runs, words, call, error, whole, good):
    """Each call of this function fails, or of five one, alone and with all later ones. Returns how many did."""
    count = 0
    for at in itertools.count(1, 1 if HUGE else 5):
        found = [run_and_faults_said(runs, words, b"", call, at, last, error) for last in (at, 1 << 30)]
        if not found[0]:
            return count
        for (got, said), is_one in zip(found, (True, False)):
            count += 1
            may_pass = not error or is_one and (said == "+" or call in ("malloc", "realloc", "close"))
            runs.expect([*words, call, at, error, is_one, said], is_failure_reported(got, whole, good, call) or
                       may_pass and got == whole, got)


def test_each_failed_call_is_reported(runs):
    """Each call of the system fails in turn, alone and with all later ones."""
    calls = {"openat": (errno.EACCES, errno.EMFILE), "readv": (errno.EIO, 0), "write": (errno.ENOSPC,),
             "malloc": (errno.ENOMEM,), "realloc": (errno.ENOMEM,), "readdir": (errno.EIO,), "close": (errno.EIO,)}
    faults = 0
    for words in commands_with_allowed_lines(runs):
        whole = runs.run(words)
        good = {*whole[0].splitlines(True), *(text[:-3] + b"FAILED open or read\n" for text in whole[0].splitlines(True)
                                              if text.endswith(b": OK\n"))}
        runs.expect(words, whole[2] == 0 and whole[0], whole)
        for call, errors in calls.items():
            for error in errors if HUGE else errors[:1]:
                faults += fail_each_call_in_turn(runs, words, call, error, whole, good)
    runs.expect("faults", not HUGE or faults >= 1000, faults)
    runs.report_results(f"{faults} calls that fail")


FAULTY = (test_keys_leave_memory, test_each_failed_call_is_reported)
run_program_tests((test_derived_keys_of_every_length, test_contexts_of_any_bytes, test_b2_derive_gives_same_key,
                   test_bad_key_files_are_refused, test_seal_holds_only_for_its_key, test_expected_digest_is_compared,
                   test_expected_digest_with_other_options,
           test_wrong_options_are_refused, test_key_is_not_on_command_line, *FAULTY), faulty=FAULTY)
