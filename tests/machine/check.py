#!/usr/bin/env python3
"""Shows that the code in dist/ and js/src/wasm*.js compresses, and calls of it write and return, what RFC 7693 and the
BLAKE2X document say, in constant time. docs/MACHINE.md says what is shown of which files, and how to read the output.
Prints TAP; the status is 1 if something failed.

    tests/machine/check.py            the proofs: of one message in all files; of several messages, one function of each
                                      kind, and of each whole call some cases, in one file; and some tests of the tool
    tests/machine/check.py --long     also several messages and all cases of whole calls in all files, except those of
                                      BLAKE2X, all of which are shown in one; what was proved of each path on the
                                      processor; all rules of terms, changes that must be refused and types of the tool,
                                      more runs of each instruction, and whole functions against hashlib; the same as
                                      VULFSJOR_TEST_HUGE=1
    tests/machine/check.py --forms    writes forms.txt, after a change of the files or the models
    tests/machine/check.py FILE..     only the proofs of these files, by their paths from the root, with all cases

With VULFSJOR_TEST_ONLY, a regular expression, only the checks in whose titles it is found; none is kept then.

Needs Python, a C compiler and binutils; for ARM aarch64-linux-gnu-gcc and binutils, and qemu-aarch64 to run
instructions; python3-z3 for whole calls and the rules; node to run the instructions of WebAssembly. What is missing is
skipped.
"""

import gc
import glob
import hashlib
import itertools
import multiprocessing
import os
import platform
import random
import re
import shutil
import subprocess
import sys
from collections import Counter
from functools import partial
from typing import Any, Callable, Iterator, NamedTuple

import call_cases
import changes
import check_coverage
import check_instructions
import check_numbers
import check_paths
import check_terms
import check_wasm_instructions
import compression
import constant_time
import facts
import forms
import functions
import verdict_cache
import program as programs
import terms as T
import whole_calls
from machine import chunks, joined

HUGE, ONLY = "VULFSJOR_TEST_HUGE", os.environ.get("VULFSJOR_TEST_ONLY", "")
FORMS = {compression.OneBlockEachCall: " with a counter each", compression.StripesCall: " in stripes"}
READ = ("dist/*/vulfsjor*.s", "dist/*/*.wasm", "js/src/wasm*.js")      # the files that must be read
# The families of exported functions, by the parts in which calls are followed.
FOLLOWED = {"BLAKE2b": ("blake2b",), "BLAKE2s": ("blake2s", "memcmp", "wipe"), "BLAKE2bp": ("blake2bp",),
            "BLAKE2sp": ("blake2sp",), "BLAKE2X": ("blake2xb", "blake2xs"), "trees": ("tree",)}
# Without --long: the files in which more than one message is tried; which of them has each kind of function of several
# messages; in which secrets of each family are followed; and where calls are shown whole, in how many cases. Those of
# BLAKE2Xs, which is written as BLAKE2Xb, are not.
SHORT = V3, ARM, JS = "dist/x86_64/vulfsjor-v3.s", "dist/aarch64/vulfsjor.s", "js/src/wasm.js"
SHORT_MANY = {functions.MANY_B: V3, functions.EACH_S: ARM, functions.STRIPES_B: JS}
SHORT_FOLLOWED = {part: SHORT[k % 2] for k, part in enumerate(FOLLOWED)}
SHORT_WRITTEN = {"blake2b": ARM, "blake2s": V3, "blake2xb": V3, "": V3}
SHORT_COVERED = ("", "blake2s")        # the families whose cases are compared with all calls
SHORT_RUN = {(V3, ""): ["memcmp", "wipe"], (V3, "blake2s"): ["_final", "_update"], (ARM, "blake2s"): ["_final"]}
SHORT_INSTRUCTIONS = {(path, "W") for path in changes.FILES.values()} | {(ARM, "T")}
SHORT_OTHERS = (changes.FILES["v4"], changes.FILES["v2"])      # whose instructions run if V3 has none of their forms
LONG_CALLS = ("vulfsjor_ffi_tree_root", "vulfsjor_ffi_tree_update_leaves")     # which take too long then
ALL_OF_X = V3                          # where --long shows all cases of BLAKE2X; elsewhere some, and it follows secrets
# The users of forms.txt, and how often each instruction runs: without --long, and with it.
USERS = {"T": "in which secrets are followed", "W": "that are executed over variables"}
ROUNDS = {"T": (1, 6), "W": (3, 12)}
SOLVER = None if facts.z3 else "python3-z3"
KEPT = "kept from an earlier run: "


class Job(NamedTuple):
    """A check. What it returns is said, or is a verdict and why; a refusal fails."""

    title: str
    gone: str | None                   # what is missing for it
    show: Callable


ALL: list[Job] = []


def is_long() -> bool:
    return HUGE in os.environ


def missing(path: str) -> str | None:
    """Which tool is missing for a file, or None."""
    compiler, prefix, _ = programs.TOOLS.get(functions.architecture(path), ([], None, []))
    needed = compiler[:1] + ([prefix + "ld", prefix + "objdump"] if compiler else [])
    return next((tool for tool in needed if not shutil.which(tool)), None)


def missing_feature(path: str) -> str | None:
    """What is missing to run a file's instructions, or None."""
    kind = functions.architecture(path)
    runner = {"aarch64": "qemu-aarch64", "x86_64": "cc", "wasm": "node"}[kind]
    if missing(path) or not shutil.which(runner):
        return missing(path) or runner
    if kind == "x86_64" != platform.machine():
        return "x86-64"
    needed = "avx512bw" if path.endswith("-v4.s") else "avx2"
    with open("/proc/cpuinfo") as f:
        return needed.upper() if kind == "x86_64" and needed not in f.read() else None


# The proofs of a file, which its tools can read.

def prove_one_compression(path: str, name: str, kind: Any, lanes: int) -> str:
    name = functions.name_in_file(path, name)
    runner, seconds = compression.prove_compression(programs.read(path), name, kind, lanes)
    return "%d instructions, %d executed on %d paths, %.1f s" % (len(runner.code), runner.count, runner.paths, seconds)


def check_rotating_functions_are_listed(path: str) -> tuple:
    found = ", ".join(functions.unlisted_rotating_functions(programs.read(path)))
    why = "%s: rotates words as G does: add it to FILES in tests/machine/functions.py"
    return ("not ok", why % found) if found else ("ok", "")


def check_whole_file(path: str) -> tuple:
    changes.check_sections_and_calls(programs.read(path))
    absent = sorted(call_cases.DECLARED - set(call_cases.shown_names(programs.read(path))))
    return "not ok" if absent else "ok", "no whole call of %s is shown" % absent[0] if absent else ""


def prove_scrub_stacks(path: str) -> str:
    found = functions.stack_scrub_functions(programs.read(path))
    if not found:
        raise T.CannotShow("there is no such function: see functions.py")
    for name, count in found.items():
        whole_calls.prove_scrub_stack(programs.read(path), name, count)
    return "of %s bytes" % ", ".join(map(str, sorted(found.values())))


def calls_to_follow(path: str, part: str) -> list:
    """The functions of some families of which not all that can be shown of whole calls is shown."""
    program = programs.read(path)
    whole = () if SOLVER else call_cases.shown_names(program)
    is_whole = lambda family: path == ALL_OF_X or "x" not in family if is_long() else (
        family in SHORT_WRITTEN or family in call_cases.ALONE)
    return [e for e in constant_time.exports(program) if e[2] in FOLLOWED[part]
            and (is_long() or e[0] not in LONG_CALLS) and not (e[0] in whole and is_whole(e[2]))]


def follow_secrets(path: str, part: str) -> str:
    found = [constant_time.follow_call_unless_unbounded(programs.read(path), entry)
             for entry in calls_to_follow(path, part)]
    reached = [f.reached for f in found if f is not None]
    return "%d functions, which reach %d instructions besides those that compress" % (
        len(reached), len(set().union(*reached)))


def prove_writes_and_returns(path: str, family: str, exports: list, numbers: tuple) -> str:
    """That whole calls of some functions of a family, or of all, write and return what they must."""
    cases = call_cases.cases(programs.read(path), family, *numbers)
    names = exports or call_cases.shown_exports(programs.read(path), family)
    return "%d cases, %d paths" % tuple(map(sum, zip(*[cases.prove_export(export) for export in names])))


def parts_of_call_proofs(path: str, is_short: bool, has_all: bool) -> Iterator[tuple]:
    """What is shown of whole calls of a file: all cases in parts, or some. As the arguments of
    prove_writes_and_returns."""
    for family in call_cases.TITLES:
        if is_short:
            yield from [(path, family, [], call_cases.short_form_numbers(family))] * (path == SHORT_WRITTEN.get(family))
        elif "x" in family and path != ALL_OF_X and not has_all or not family:
            yield path, family, [], call_cases.short_form_numbers(family)
        else:
            pending = range(call_cases.KINDS[family].block + 1)
            for export in call_cases.shown_exports(programs.read(path), family):
                parts: list = [(pending[k::4],) for k in range(4)] if export == "_update" else [()]
                yield from ((path, family, [export], part) for part in parts)


def proofs(path: str, has_all: bool) -> Iterator[Job]:
    """The jobs that show the claims for a file; with all cases, if that is asked for."""
    is_short, gone = not has_all and not is_long(), missing(path)
    is_library = "/vulfsjor" in path and functions.architecture(path) != "wasm"
    job = lambda title, show, *arguments, needs=gone: Job("%s: %s" % (path, title), needs, partial(show, *arguments))
    yield job("no other function has a copy of the rounds", check_rotating_functions_are_listed, path)
    if is_library:
        yield job("nothing that runs or is read is writable, and each exported function is known",
                  check_whole_file, path)
    if gone:
        return
    try:
        program = programs.read(path)  # once for all jobs
        list(constant_time.exports(program) if is_library else ())
    except T.ClaimNotShown:
        return
    for entry in functions.FILES[path]:
        name, kind, lanes = entry
        if not is_short or lanes == 1 or path == SHORT_MANY.get(entry):
            count = "%d messages" % lanes if lanes > 1 else "one message"
            way = FORMS.get(compression.call_class_of(name), "")
            yield job("F of %s, %s%s" % (call_cases.TITLES[kind.name], count, way), prove_one_compression, path, *entry)
    for part in FOLLOWED if is_library and path not in constant_time.NOT_FOLLOWED else ():
        if (not is_short or path == SHORT_FOLLOWED[part]) and calls_to_follow(path, part):
            yield job("no branch and no address of a call depends on a secret: %s" % part, follow_secrets, path, part)
    if is_library and (not is_short or path in SHORT):
        yield job("scrub_stack overwrites its bytes", prove_scrub_stacks, path, needs=SOLVER)
        for calls in parts_of_call_proofs(path, is_short, has_all):
            names = " ".join(e.lstrip("_") or "in one" for e in calls[2]) or "all"
            yield job("what calls of %s write and return: %s" % (call_cases.TITLES[calls[1]], names),
                      prove_writes_and_returns, *calls, needs=SOLVER)


# The table of docs/MACHINE.md.

PAGE = os.path.join(programs.ROOT, "docs", "MACHINE.md")
COLUMNS = tuple(changes.FILES[name] for name in ("v4", "v3", "v2", "arm", "wasm"))
NOT_COMPUTED = {"_many": "several messages", "_update_many": "several states", "_save": "saved states",
                "_load": "saved states"}
GROUPS = {**call_cases.TITLES, "memcmp": "memcmp and wipe", "wipe": "memcmp and wipe", "blake2bp": "BLAKE2bp",
          "blake2sp": "BLAKE2sp", "tree": "trees"}


def what_is_shown(path: str, family: str, name: str) -> str:
    """What is shown with --long of a call in a file."""
    is_library = functions.architecture(path) != "wasm"
    is_followed = is_library and path not in constant_time.NOT_FOLLOWED and not name.endswith(constant_time.OF_ARRAYS)
    if name in call_cases.DECLARED and is_library:
        return "all cases" if "x" not in family or path == ALL_OF_X else "some cases" + "; secrets" * is_followed
    if is_followed and (path, name) not in constant_time.NOT_SHOWN:
        return "secrets"
    return "nothing" if family in call_cases.ALONE else "F"


def table_lines() -> list:
    """The lines of the table: the calls of each family, and what is shown of all of them, or of how many."""
    groups: dict = {}
    for name in constant_time.SIGNATURES:
        family, end = constant_time.NAME.fullmatch(name).groups()        # type: ignore[union-attr]
        group = NOT_COMPUTED[end] if end in constant_time.NOT_COMPUTED else GROUPS[family]
        groups.setdefault(group, []).append((family, name))
    lines = []
    for group, calls in groups.items():
        counts = [Counter(what_is_shown(path, *call) for call in calls) for path in COLUMNS]
        cells = [", ".join(what if len(found) == 1 else "%d: %s" % (n, what) for what, n in found.most_common())
                 for found in counts]
        lines.append("| %s: %d | %s |" % (group, len(calls), " | ".join(cells)))
    return lines


def page_has_table() -> tuple:
    with open(PAGE, encoding="utf-8") as f:
        page, lines = f.read(), table_lines()
    has_all = "\n".join(["|---|---|---|---|---|---|", *lines, "\n"]) in page
    return "ok" if has_all else "not ok", "\n# ".join(lines)


# The tests of the tool.

def check_instruction_model(path: str, user: str) -> tuple:
    """The model of the instructions of a file that are executed for a user of forms.txt."""
    rounds = ROUNDS[user][is_long()]
    if functions.architecture(path) == "wasm":
        return check_wasm_instructions.check_model_agrees(path, rounds)
    other = "" if is_long() or path not in SHORT_OTHERS or missing_feature(V3) else V3
    return check_instructions.check_model_agrees(path, user, rounds, other)[:2]


def check_listed_forms(kind: str, paths: list) -> tuple:
    """That each form of the table is one of a shipped file, whose tests run it."""
    used = {(kind, user, forms.form_of_instruction(kind, text))
            for program in map(programs.read, paths) for user in USERS
            for name in check_instructions.executed_functions(program, user)
            for text in program.instruction_texts(name)}
    extra = sorted(f for f in forms.known_forms() if f[0] == kind and f not in used)
    return "not ok" if extra else "ok", " ".join(extra[0]) if extra else ""


def check_no_file_is_left_out() -> tuple:
    found = {path for each in READ for path in glob.glob(each, root_dir=programs.ROOT)}
    left_out = sorted(found ^ set(functions.FILES))
    return "not ok" if left_out else "ok", " ".join(left_out)


def model_and_hashlib_digests(path: str, entry: tuple, rng: random.Random) -> tuple:
    """The digests of random messages of one block by the model of a function, over numbers, and those of hashlib."""
    name, kind, lanes = entry
    T.reset()
    size = rng.randrange(1, kind.block + 1)
    texts = [rng.randbytes(size) for _ in range(lanes)]
    nodes = [bool(rng.randrange(2)) for _ in range(lanes)]
    assumed, numbers = {}, {"counter": size}
    for j, text in enumerate(texts):
        assumed.update({"last%d" % j: True, "node%d" % j: nodes[j]})
        numbers.update({"counter%d" % j: size, "length%d" % j: 1, "h%d.0" % j: kind.iv[0] ^ 0x01010000 ^ kind.w})
        numbers.update({"h%d.%d" % (j, k): kind.iv[k] for k in range(1, 8)})
        numbers.update({"m%d.%d" % (j, k): int.from_bytes(word, "little")
                        for k, word in enumerate(chunks(text.ljust(kind.block, b"\0"), kind.bytes))})
    program, name = programs.read(path), functions.name_in_file(path, name)
    call = compression.call_class_of(name)(program, name, kind, lanes, assumed, numbers)
    runner = compression.FunctionRunner(program.instructions_of(name), call.cpu)
    runner.run(call.machine, runner.first)
    words = chunks(call.machine.load(call.pointer(call.h), kind.w * lanes), kind.bytes)
    return [bytes(joined(words[j::lanes])) for j in range(lanes)], [
        getattr(hashlib, kind.name)(text, last_node=node).digest() for text, node in zip(texts, nodes)]


def check_digests(path: str, count: int) -> tuple:
    """Whole functions in the model, but those of stripes: their blocks are never the last."""
    rng, total = random.Random(2), 0
    for entry in functions.FILES[path]:
        for _ in range(count if compression.call_class_of(entry[0]) is not compression.StripesCall else 0):
            found, wanted = model_and_hashlib_digests(path, entry, rng)
            total += len(wanted)
            if found != wanted:
                return "not ok", "%s: the digest is not that of hashlib" % entry[0]
    return "ok", "%d digests" % total


def check_types() -> tuple:
    """The type hints of the tool, and what mypy infers from them."""
    files = sorted(glob.glob(os.path.join(programs.ROOT, "tests", "machine", "*.py")))
    run = subprocess.run(["mypy", "--disallow-untyped-defs", "--check-untyped-defs", "--ignore-missing-imports",
                          "--cache-dir=" + os.devnull] + files, stdout=subprocess.PIPE, text=True)
    return "not ok" if run.returncode else "ok", run.stdout.strip().split("\n")[-1]


def tests_of_the_tool() -> Iterator[Job]:
    """The jobs that test the tool itself, but those of one file."""
    few = lambda n, m: n if is_long() else m
    assembly = missing_feature(changes.ARM) or missing_feature(changes.V3) or SOLVER
    for title, gone, show, *arguments in (
            *[("the rules of terms at %d bits" % width, SOLVER, check_terms.check_rules, width, is_long())
              for width in few((64, 32, 16, 8), (8,))],
            *[("comparisons of whole calls are decided right", SOLVER, check_numbers.check_decisions, seed,
               few(15000, 100), 3000)
              for seed in range(few(4, 1))],
            ("a solver that gave up is not asked again", SOLVER, check_numbers.check_giving_up),
            *[("the tool's tests see %s" % change.title, assembly, change.check_is_seen)
              for change in changes.PLANTED if is_long() or not change.is_long],
            ("the specification of whole calls agrees with hashlib", None, check_paths.check_specified_digests,
             few(400, 10)),
            *[("the cases of each call of %s are all calls" % call_cases.TITLES[family], SOLVER,
               check_coverage.check_cases_are_all_calls, family, is_long())
              for family in few(tuple(call_cases.TITLES), SHORT_COVERED)],
            ("the ranges of words that are followed have their numbers", None,
             check_numbers.check_taint_ranges, few(2000, 60)),
            ("no file is left out", None, check_no_file_is_left_out),
            ("docs/MACHINE.md has the table of what is shown", None, page_has_table),
            ("each line of mutations.txt can be applied", None, changes.check_changes_apply),
            *[("each call of mutations.txt is accepted without a change", assembly,
               changes.check_unchanged_is_accepted)] * is_long(),
            *[(row.title(), missing(row.path) or SOLVER, row.check_is_refused)
              for row in changes.table_changes() if is_long() or row.is_first],
            *[("seen when it runs, %s" % row.title().partition(": ")[2], missing_feature(row.path) or SOLVER,
               check_paths.check_change_is_seen, row)
              for row in changes.table_changes() if row.is_run and (is_long() or row.is_first)],
            *[("the types of tests/machine", None if shutil.which("mypy") else "mypy", check_types)] * is_long()):
        yield Job(title, gone, partial(show, *arguments))
    for kind in ("x86_64", "aarch64"):
        paths = [p for p in functions.FILES if functions.architecture(p) == kind]
        yield Job("each form of an instruction for %s is run" % kind, next(filter(None, map(missing, paths)), None),
                  partial(check_listed_forms, kind, paths))


def tests_of_a_file(path: str) -> Iterator[Job]:
    """The jobs that test the tool with one file: its instructions, whole functions, and changes that are refused."""
    job = lambda title, gone, show, *arguments: Job("%s: %s" % (path, title), gone, partial(show, *arguments))
    gone = missing(path)
    follows = functions.architecture(path) != "wasm" and path not in constant_time.NOT_FOLLOWED
    for user in USERS:
        if (user == "W" or follows) if is_long() else (path, user) in SHORT_INSTRUCTIONS:
            yield job("the model of instructions %s agrees with the processor" % USERS[user],
                      missing_feature(path) or (SOLVER if user == "W" else None), check_instruction_model, path, user)
    for family in call_cases.TITLES if path in check_paths.TEXTS else ():
        exports = SHORT_RUN.get((path, family))
        if is_long() or exports:
            yield job("calls of %s do what was proved of each path" % call_cases.TITLES[family],
                      missing_feature(path) or SOLVER, check_paths.check_text_on_paths, path, family,
                      [] if is_long() else exports)
    for entry in functions.FILES[path]:
        if is_long() or (path, entry) == (ARM, functions.ONE_S):
            yield job("random changes of %s are refused" % entry[0], gone,
                      changes.check_random_are_refused, path, entry)
    if is_long():
        yield job("whole functions in the model agree with hashlib", gone, check_digests, path, 5)
        is_assembly = path in changes.FILES.values() and functions.architecture(path) != "wasm"
        for k in range(6) if is_assembly else ():
            yield job("branches on argument %d of each exported function are refused" % k, gone or SOLVER,
                      changes.check_branches_are_refused, path, k)


def run(job: Job) -> tuple:
    """The verdict of a job, its title, and why. What no one has foreseen is a failure too."""
    title, gone, show = job
    if gone:
        return "skip", title, "no " + gone
    gc.disable()                       # terms have no cycles, and looking for some takes long
    try:
        found = show()
    except T.ClaimNotShown as e:
        return "not ok", title, "%s: %s" % (e.kind, e)
    except Exception as e:
        return "not ok", title, "cannot show: %s: %s" % (type(e).__name__, e)
    finally:
        T.reset()                      # so that there is little to look at
        gc.collect()
        gc.freeze()                    # what stays, such as code, need not be looked at again
    return (found[0], title, found[1]) if isinstance(found, tuple) else ("ok", title, found)


def run_job_of_number(k: int) -> tuple:
    """The verdict of a job, the files that it has read, and what it has learnt of the stack."""
    programs.READ.clear()
    return run(ALL[k]), set(programs.READ), compression.FRAMES


def run_side_by_side(jobs: list) -> Iterator[tuple]:
    """The verdicts of some jobs by their numbers, each with the files that it has read."""
    if not jobs:
        return
    gc.freeze()                        # what the processes share need not be looked at again
    with multiprocessing.get_context("fork").Pool() as pool:
        for result, files, frames in pool.imap(run_job_of_number, jobs, chunksize=1):
            compression.FRAMES.update(frames)
            yield result, files


def run_all(verdicts: verdict_cache.VerdictCache | None) -> Iterator[tuple]:
    """The verdicts of all jobs. Those that are kept are not found again, and others are kept. Whole calls need to know
    how much of the stack a compression uses, so these come first."""
    results = []
    ALL.sort(key=lambda job: getattr(job.show, "func", None) is not prove_one_compression)
    known = [verdicts.kept_reason(job.title) if verdicts and not job.gone else None for job in ALL]
    jobs = [k for k, why in enumerate(known) if why is None]
    first = [k for k in jobs if getattr(ALL[k].show, "func", None) is prove_one_compression]
    new = itertools.chain(run_side_by_side(first), run_side_by_side(jobs[len(first):]))
    for job, why in zip(ALL, known):
        if why is None:
            result, files = next(new)
            if verdicts and result[0] == "ok":
                verdicts.keep_verdict(job.title, result[2], files)
        results.append(result if why is None else ("ok", job.title, why))
        yield result if why is None else ("ok", job.title, KEPT + why)
    if verdicts:
        verdicts.save(results)


def report(results: Any) -> bool:
    """Prints results as TAP. Returns whether none has failed."""
    count = failed = 0
    for verdict, title, why in results:
        count += 1
        failed += verdict not in ("ok", "skip")
        more = " # SKIP " + why if verdict == "skip" else "\n# " + why if why else ""
        print("%s %d - %s%s" % (verdict.replace("skip", "ok"), count, title, more), flush=True)
    print("1..%d" % count)
    return count > 0 and not failed


def write_forms() -> int:
    """Writes the forms of instructions that the tests of all files run. Returns the status."""
    found: set = set()
    for path in [p for p in functions.FILES if functions.architecture(p) != "wasm"]:
        for user in [u for u in USERS if u != "T" or path not in constant_time.NOT_FOLLOWED]:
            def show() -> tuple:
                verdict, why, run_forms = check_instructions.check_model_agrees(path, user, 4)
                found.update(run_forms)
                return verdict, why
            verdict, _, why = run(Job(path, missing_feature(path), show))
            if verdict != "ok":
                print("check.py: %s: %s" % (path, why), file=sys.stderr)
                return 1
    forms.write_table(found)
    return 0


def main(arguments: list) -> int:
    if set(arguments) & {"-h", "--help"}:
        print(__doc__.strip())
        return 0
    facts.rerun_with_debian_python(__file__, arguments)
    if arguments == ["--forms"]:
        return write_forms()
    if arguments == ["--long"]:
        os.environ[HUGE] = "1"
        arguments = []
    if os.environ.get(HUGE) != "1":
        os.environ.pop(HUGE, None)
    unknown = [a for a in arguments if a not in functions.FILES]
    if unknown:
        print("check.py: there is no list of functions for %s" % unknown[0], file=sys.stderr)
        return 2
    verdicts = None if arguments or is_long() or ONLY else verdict_cache.VerdictCache()
    found = verdicts.results_if_all_known() if verdicts else []
    if found:
        return 0 if report((verdict, title, KEPT * (verdict == "ok") + why) for verdict, title, why in found) else 1
    ALL.extend(job for path in arguments or functions.FILES for job in proofs(path, bool(arguments)))
    if not arguments:
        ALL.extend([*tests_of_the_tool(), *joined(map(tests_of_a_file, functions.FILES))])
    if verdicts and len({job.title for job in ALL}) < len(ALL):
        raise AssertionError("two checks have one title")
    ALL[:] = [job if re.search(ONLY, job.title) else job._replace(gone="match of VULFSJOR_TEST_ONLY") for job in ALL]
    return 0 if report(run_all(verdicts)) else 1


if __name__ == "__main__":
    sys.exit(main(sys.argv[1:]))
