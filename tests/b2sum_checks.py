#!/usr/bin/env python3
"""Runs the program b2sum with random command lines of checks: with --check or --expect, lists of right and damaged
lines, keys, seals and folders. Standard output, standard error and the status have to be those of a model of the manual
(tests/b2sum_model.py). 300 of them or, with VULFSJOR_TEST_HUGE, 13,500: a failure names the seed. With --seed only its
command line is run.

Only the first program is tested: the others are the same program, with older builds of the library.

usage: tests/b2sum_checks.py [--seed SEED] [PROGRAM..]
"""
import collections
import itertools
import os
import random
import shutil
import sys

from b2sum_model import run_model_of_check, seal_line
from b2sum_support import damaged_line, derived_key, digest, manifest_line, longest_digest_bits, run_program_tests

HUGE = bool(os.environ.get("VULFSJOR_TEST_HUGE"))
SEEDS = range(13500 if HUGE else 300)
PER_FOLDER = 50  # runs over the same files
NAMES = ("a", "b.txt", "-c", "with space", "new\nline", "back\\slash", "cr\rname", "it's", "caf\udcff", "x)y", "*",
         "#h", " lead", "trail ", "BLAKE2b (x) = 0", "d/m", "d/e/n", "d/new\nline", "d/caf\udcff")
OTHERS = ("missing", "no\nsuch", "d", "loop", "a/x", "d/link", "d/pipe", "-", "./a", "n" * 256)
FAMILIES = ("b", "s", "bp", "sp", "tree-64", "tree-1000", "tree-1024", "tree-65536")
KEYS = {"key": bytes(range(100, 132)), "key64": random.Random(64).randbytes(64), "key1": b"\xfe", "key 2": b"00fF",
        "key32": b"0" * 31 + b"\n", "key33": bytes(33), "key65": bytes(65), "key0": b"", "d": None, "none": None}
HEX_KEYS = {"keyhex": KEYS["key"].hex().encode(), "keyhex64": KEYS["key64"].hex().upper().encode() + b"\n",
            "keybad": b"0g", "keyodd": b"000", "key": None}
CONTEXTS = ("records", "records 2026", "\udcff\n", "x" * 4000)
LABELS = {"salt": ("01", "0102", "ff" * 8), "personal": ("70", "AbCd")}
# Parts of a command line: the words, what they are for a list, and how it has to be damaged.
Plan = collections.namedtuple("Plan", "words family given bits key")


def happens_with_probability(rng, share):
    return rng.random() < share


def random_option_form(rng, name, value):
    """An option with its value, in one of several forms."""
    letter = {"algorithm": "-a", "length": "-l"}.get(name)
    forms = [[f"--{name}", value], [f"--{name}={value}"]]
    forms += [[letter, value], [letter + value]] if letter and value else []
    return rng.choice(forms + [[f"--{name[:-1]}", value]] * (name not in ("personal", "salt", "key-file", "tree")))


# ---- Folders and lists.

def make_random_files(runs, rng):
    """Makes files, links, a pipe and folders that are new."""
    for name in os.listdir(runs.folder):
        path = runs.path(name)
        (shutil.rmtree if os.path.isdir(path) and not os.path.islink(path) else os.remove)(path)
    os.makedirs(runs.path("d/e/empty"))
    files = {name: rng.randbytes(rng.choice((0, 1, 3, 200, 1023, 1025, 5000))) for name in NAMES}
    for name, data in {**files, **KEYS, **HEX_KEYS}.items():
        if data is not None:
            runs.write(name, data)
    os.symlink("loop", runs.path("loop"))
    os.symlink("m", runs.path("d/link"))
    os.symlink("a", runs.path("link"))
    os.mkfifo(runs.path("d/pipe"))
    return files


def parameters_allowed_for_family(family, given):
    """These parameters, cut to what a family has. A tree has no key."""
    most = longest_digest_bits(family) // 8
    return {name: value[:most if name == "key" else most // 4] for name, value in given.items()
            if name != "key" or not family.startswith("tree-")}


def random_manifest_line(rng, plan, files, other, one_byte):
    """A line of a list: as the command line wants it, and of a file that has its digest, except a share in each regard.
    Of those without a tag a share has one byte before the name."""
    name = rng.choice(OTHERS) if happens_with_probability(rng, other) else rng.choice(list(files))
    name = "./a" if name == "d/pipe" else name  # which nobody fills
    data = files.get(name, b"abc") + b"x" * happens_with_probability(rng, other)
    family, given, bits = plan.family, dict(plan.given), plan.bits or longest_digest_bits(plan.family)
    if happens_with_probability(rng, other):
        family = rng.choice(FAMILIES)
        bits = longest_digest_bits(family)
    if happens_with_probability(rng, other):
        bits = 8 * rng.randint(1, longest_digest_bits(family) // 8)
    if happens_with_probability(rng, other):
        given = rng.choice(({}, {"salt": b"\1"}, {"person": b"p"}, {"key": b"key"}, {"key": b"k", "salt": b"\2"}))
    given = parameters_allowed_for_family(family, given)
    text = manifest_line(name, data, bits, family, rng.choice(" *"), happens_with_probability(rng, 0.6), **given)
    if happens_with_probability(rng, one_byte):
        text = text.replace("  ", rng.choice((" ", " ", " ", "\t", "\t*")), 1)
    if happens_with_probability(rng, 0.1):
        digits = digest(family, data, bits // 8, **given).hex()
        text = text.replace(digits, digits.upper())
    return os.fsencode(text.removesuffix("\n"))


def random_manifest(rng, plan, files):
    """The bytes of a list."""
    lines, share, end = [], rng.choice((0.0, 0.0, 0.1, 0.4)), b"\r\n" if happens_with_probability(rng, 0.1) else b"\n"
    shares = rng.choice((0.0, 0.03, 0.12, 0.12)), rng.choice((0.05, 0.5))
    for _ in range(rng.choice((0, 1, 2, 3, 5, 9, 30))):
        text = random_manifest_line(rng, plan, files, *shares)
        lines.append(damaged_line(rng, text) if happens_with_probability(rng, share) else text)
    for extra in (b"# comment", b"", b"SHA256 (a) = 00", b"MD5 (a) = 00", b"x", b"\r", b"BLAKE2b-key", b"a\0b"):
        if happens_with_probability(rng, 0.05):
            lines.insert(rng.randint(0, len(lines)), extra)
    return end.join(lines) + (end if lines and happens_with_probability(rng, 0.9) else b"")


def random_sealed_manifest(rng, plan, files):
    """The bytes of a list with a seal, which most often is right. Some have all files of a folder."""
    text = random_manifest(rng, plan, files)
    if happens_with_probability(rng, 0.4):
        names = [name for name in files if name.startswith(rng.choice(("d/", "d/e", "")))]
        given = parameters_allowed_for_family(plan.family, plan.given)
        text = os.fsencode("".join(manifest_line(name, files[name], plan.bits or longest_digest_bits(plan.family),
                                                 plan.family, tag=True,
                                        **given) for name in names))
    text = text if text.endswith(b"\n") or not text or happens_with_probability(rng, 0.3) else text + b"\n"
    key, salt = plan.given.get("key", b"key"), plan.given.get("salt", b"")
    last, kind = seal_line(text, key, salt), rng.random()
    at = rng.randrange(len(text) + len(last))
    if kind < 0.6:
        return text + last
    return rng.choice((
        lambda: (text + last)[:at] + bytes([(text + last)[at] ^ 1 << rng.randrange(8)]) + (text + last)[at + 1:],
        lambda: text + seal_line(text, b"other"), lambda: text + seal_line(text, key, b"\7"),
        lambda: text + seal_line(text, plan.key),
        lambda: text + last.replace(b"sealed %d" % text.count(10), b"sealed %d" % (text.count(10) + 1)),
        lambda: text + last + b"# comment\n", lambda: text + last + seal_line(text + last, key, salt),
        lambda: text + last + last, lambda: text, lambda: text + last[:-1], lambda: last + text,
        lambda: (text + last).replace(b"\n", b"\r\n"), lambda: text + last.upper()))()


# ---- Command lines.

def random_key_options(rng, hash_of):
    """The options of a key, its bytes as the file has them, and those of the digests."""
    words, most = [], longest_digest_bits(hash_of) // 8
    if happens_with_probability(rng, 0.25):
        name = rng.choice(list(HEX_KEYS))
        words += random_option_form(rng, "key-hex-file", name)
        key = {"keyhex": KEYS["key"], "keyhex64": KEYS["key64"]}.get(name, b"k")
    else:
        name = rng.choice(["key", "key64"] * 3 + list(KEYS))
        words += random_option_form(rng, "key-file", name)
        key = KEYS[name] or b"k"
    if happens_with_probability(rng, 0.05):
        words += random_option_form(rng, "key-file", "key")
        key = KEYS["key"]
    derived = key
    if happens_with_probability(rng, 0.4):
        context = rng.choice(CONTEXTS)
        words += random_option_form(rng, "derive-key",
                                    "another, which does not count") if happens_with_probability(rng, 0.1) else []
        words += random_option_form(rng, "derive-key", context)
        derived = derived_key(key[:64], context, hash_of)
    return words, key[:64], derived[:most]


def random_hash_options(rng):
    """The options of a hash and of parameters."""
    words, family = [], rng.choice(FAMILIES[:4] + ("b",) * 4 + FAMILIES[4:])
    if family.startswith("tree-"):
        words += random_option_form(rng, "tree",
                                    family[5:]) + (["--threads", "2"] if happens_with_probability(rng, 0.2) else [])
    elif family != "b" or happens_with_probability(rng, 0.3):
        words += random_option_form(rng, "algorithm", "blake2" + family)
    elif happens_with_probability(rng, 0.2):
        words += ["--threads=0"]
    given, key, bits = {}, b"k", 0
    if happens_with_probability(rng, 0.02 if family.startswith("tree-") else 0.55):
        more, key, given["key"] = random_key_options(rng, family[0])
        words += more
    for label, name in (("salt", "salt"), ("personal", "person")):
        if happens_with_probability(rng, 0.15):
            value = rng.choice(LABELS[label])
            words += random_option_form(rng, label, value)
            given[name] = bytes.fromhex(value)
    if "person" not in given and happens_with_probability(rng, 0.1):
        words += random_option_form(rng, "personal-text", "caf\udcff")
        given["person"] = b"caf\xff"
    if happens_with_probability(rng, 0.25):
        bits = rng.choice((0, 8, 64, 128, 256, longest_digest_bits(family), 8 * rng.randint(1, 64)))
        words += random_option_form(rng, "length", str(bits))
        bits = min(bits, longest_digest_bits(family))
    return Plan(words, family, given, bits, key)


def invalid_check_options(rng):
    """Words that a check refuses, or that need others."""
    return rng.choice((["--tag"], ["--seal"], ["-z"], ["-b"], ["--text"], ["--no-names"], ["--raw"], ["--sealed"],
                       ["--strict"], ["--ignore-missing"], ["--show-digests"], ["--derive-key", "x"],
                       ["--derive-key="], ["--expect", ""], ["--expect", "abc"], ["--expect", "ab" * 65],
                       ["--recursive", "d"], ["--personal-text", "p"], ["--personal", "01"], ["--key-file", "-"],
                       ["--tree", "2000"], ["-l", "264"], ["--salt", "ff" * 9], ["--expect", "ab"]))


def random_command_line(rng, runs, files):
    """A command line, and standard input. Its lists are written."""
    plan = random_hash_options(rng)
    words, data, kind = list(plan.words), b"input", rng.random()
    words += [it for it in ("--quiet", "--status", "-w", "--progress") if happens_with_probability(rng, 0.15)]
    if kind < 0.3:
        name = rng.choice(list(files))
        bits = plan.bits or rng.choice((longest_digest_bits(plan.family),
                                        8 * rng.randint(1, longest_digest_bits(plan.family) // 8)))
        bits = longest_digest_bits(plan.family) if "key" in plan.given and not plan.bits and happens_with_probability(
            rng, 0.9) else bits
        data = files[name] + b"x" * happens_with_probability(rng, 0.1)
        found = digest(plan.family, data, bits // 8, **parameters_allowed_for_family(plan.family, plan.given)).hex()
        words += random_option_form(rng, "expect", rng.choice((str.lower, str.upper, str.title))(found))
        names = [name] + rng.choices(list(files) + list(OTHERS), k=rng.choice((0, 0, 1, 3)))
        names = [] if happens_with_probability(rng, 0.1) else [it for it in names if it != "d/pipe"]
        data = files[name]
    else:
        is_sealed = kind > 0.6 and ("key" in plan.given or happens_with_probability(rng, 0.1))
        words += rng.choice((["-c"], ["--check"], ["--ch"])) + ["--sealed"] * is_sealed
        words += [it for it in ("--strict", "--ignore-missing") if happens_with_probability(rng, 0.15)]
        words += ["--show-digests"] * happens_with_probability(rng, 0.05 if "key" in plan.given else 0.3)
        if is_sealed and happens_with_probability(rng, 0.5):
            tops = rng.choice((["d"], ["d/e"], ["d/", "none"], ["d/e", "none"], ["d", "d/e"], ["d/e/empty", "a"]))
            words += [it for top in tops for it in random_option_form(rng, "recursive", top)]
        make = random_sealed_manifest if is_sealed else random_manifest
        names = rng.choice((["SUMS"], ["SUMS"], ["S 2", "SUMS"], ["-"], [], ["none", "SUMS"], ["SUMS", "d"],
                            ["SUMS", "-"]))
        for name in names or ["-"]:
            text = make(rng, plan, files)
            data = text if name == "-" else data
            if name in ("SUMS", "S 2"):
                runs.write(name, text)
    words += invalid_check_options(rng) if happens_with_probability(rng, 0.12) else []
    if "--key-file" in words and happens_with_probability(rng, 0.05):
        at = words.index("--key-file") + 1
        data, words[at] = KEYS.get(words[at]) or b"", "-"
    return [*words, "--", *names], data


def expect_run_as_in_model(runs, words, data, seed=None):
    """A run is as the model says. Returns what it comes to."""
    out, errs, status = run_model_of_check(words, runs.folder, data)
    got = runs.run(words, data)
    runs.expect(f"seed {seed}: {words} {data[:2000]}\n  wanted {(out, errs, status)}",
               got[0] == out and got[1] in errs and got[2] == status, got)
    return "refused" if b"Try 'b2sum" in errs[0] else "fails" if status else "holds"


def test_first_line_decides_spacing(runs):
    """Lists of two and three lines without tags: the first that is checked decides how many bytes are before names."""
    runs.write("key", KEYS["key"])
    for name in ("a", " a", "*a"):
        runs.write(name, b"abc")
    for words, key in (([], b""), (["-l", "512"], b""), (["-l", "256"], b""), (["--key-file", "key"], KEYS["key"])):
        whole, half = (digest("b", b"abc", size, **({"key": key} if key else {})).hex().encode() for size in (64, 32))
        kinds = [start + end for start in (whole, half) for end in (b"  a", b" a", b" *a", b" ", b"  ")]
        kinds += [b"x", b"\\" + whole + b" \\a", b"BLAKE2b (a) = " + whole]
        lists = [*itertools.product(kinds, repeat=2), *itertools.product(kinds, repeat=3)]
        for some in lists[::3 if HUGE else 23]:
            expect_run_as_in_model(runs, [*words, "-c", "-w"], b"\n".join(some) + b"\n")
    runs.report_results("bytes before names")


def test_random_checks_match_model(runs):
    """Random command lines are as the model says."""
    kinds, files, made = collections.Counter(), {}, None
    for seed in SEEDS:
        if seed // PER_FOLDER != made:
            made = seed // PER_FOLDER
            files = make_random_files(runs, random.Random(f"files {made}"))
        words, data = random_command_line(random.Random(seed), runs, files)
        kinds[expect_run_as_in_model(runs, words, data, seed)] += 1
    runs.report_results(f"random checks ({', '.join(f'{count} {kind}' for kind, count in sorted(kinds.items()))})")


if __name__ == "__main__":
    if sys.argv[1:2] == ["--seed"]:
        SEEDS = range(int(sys.argv[2]), int(sys.argv[2]) + 1)
        del sys.argv[1:3]
    run_program_tests((test_random_checks_match_model, test_first_line_decides_spacing))
