#!/usr/bin/env python3
"""Shows for which exported calls the code of the library writes and returns what RFC 7693 says, for all inputs:

    ./verify             the calls of BLAKE2b and BLAKE2s, in the text in dist/ that this machine runs: 12 seconds
    ./verify FILE        also that FILE has the code of dist/: a shared or static library or a wheel, for Linux on
                         x86-64 or ARM; the folder of the crate, or that of the package for node
    ./verify --long ..   all calls and cases, in all texts, or in all that FILE has
    ./verify --call ..   one call, such as blake2b_final

One line for each exported call says `shown`, in which cases it is shown, `not shown` and why, or `only tested`. The
last has the counts and the hash of the file. The status is 1 if a call is `not shown`, and 2 if nothing could be tried.
docs/MACHINE.md says what is shown, and what is compared of FILE.
"""
import argparse
import hashlib
import os
import platform
import shutil
import subprocess
import sys
import zipfile
from functools import partial
from typing import Callable, NamedTuple

TOP = os.path.dirname(os.path.dirname(os.path.abspath(__file__)))
sys.path.append(os.path.join(TOP, "tests", "machine"))
# pylint: disable=wrong-import-position
import call_cases  # noqa: E402
import check  # noqa: E402
import constant_time  # noqa: E402
import facts  # noqa: E402
import functions  # noqa: E402
import program as programs  # noqa: E402
import same_code  # noqa: E402

PACKAGES = {"cc": "gcc", "aarch64-linux-gnu-gcc": "gcc-aarch64-linux-gnu", "ld": "binutils", "objdump": "binutils",
            "aarch64-linux-gnu-ld": "binutils-aarch64-linux-gnu",
            "aarch64-linux-gnu-objdump": "binutils-aarch64-linux-gnu"}
QUICK = "blake2b", "blake2s", ""       # the families that take seconds
IN_PART = {"_update": "for 0, 1 and %(block)d pending bytes", "_verify": "for tags of 1, %(less)d and %(most)d bytes"}
OF_NODE = "wasm.js", "wasm_blake2b.js", "wasm_blake2s.js", "build.js", "worker_text.js"
OF_CRATE = ("dist/rust/vulfsjor.rs", *(f"dist/{kind}/elf.inc" for kind in same_code.BUILDS),
            *(path for builds in same_code.BUILDS.values() for path in builds.values()))
SHOWN, ONLY_TESTED, LATER, ABSENT = "shown", "only tested", "not tried: takes ./verify --long", "not in the file"


class CannotVerify(Exception):
    """Nothing can be tried."""


class ProofTask(NamedTuple):
    """A part of the proof: the text, the exported calls that it is about, and what shows it."""
    path: str
    calls: list
    show: Callable


class ProofSubject(NamedTuple):
    """What is about to be shown: texts of dist/; a file for the hash; why the code of some calls is not that of the
    texts, None for those of which it is; and a line about what was compared."""
    paths: list
    file: str
    whys: dict
    compared: str


def assembly_text_of_machine():
    """The text in dist/ that this machine runs."""
    level = subprocess.run([os.path.join(TOP, "tests", "processor.sh")], stdout=subprocess.PIPE, text=True,
                           check=True).stdout.strip().rpartition("-")[2]
    builds = same_code.BUILDS.get(platform.machine())
    if not builds:
        raise CannotVerify(f"there is no assembly for {platform.machine()}, and portable C is only tested")
    return builds.get(level) or builds["arm"]


def stop_if_tools_are_missing(paths):
    """Stops if something is missing that texts need, and names its package."""
    absent = [] if facts.z3 or not paths else ["Python's module z3 (Debian: python3-z3)"]
    for path in paths:
        compiler, prefix, _ = programs.TOOLS[functions.architecture(path)]
        absent += [f"{tool} (Debian: {PACKAGES.get(tool, 'gcc')})" for tool in
                   (compiler[0], prefix + "ld", prefix + "objdump") if not shutil.which(tool)]
    if absent:
        raise CannotVerify("missing: " + ", ".join(dict.fromkeys(absent)))


# What is shown of a text.

EXPORTS = list(constant_time.SIGNATURES)       # as c/include/vulfsjor.h has them; or one of them


def family_and_call_suffix(name):
    """The family of an exported call, and the end of its name."""
    family, end = constant_time.NAME.fullmatch(name).groups()
    return ("", family) if family in call_cases.ALONE else (family, end)


def are_all_cases_tried(path, family, is_long):
    """Whether all cases of a family's calls are tried, and not some."""
    return not family or is_long and ("x" not in family or path == check.ALL_OF_X)


def prove_call_cases(path, family, end, *numbers):
    """The cases of a call, with some numbers or all."""
    call_cases.cases(programs.read(path), family, *numbers).prove_export(end)


def proof_tasks_of_text(path, is_long):
    """The parts of the proof of a text."""
    names = [n for n in call_cases.shown_names(programs.read(path))
             if n in EXPORTS and (is_long or family_and_call_suffix(n)[0] in QUICK)]
    for name in names:
        family, end = family_and_call_suffix(name)
        show = partial(prove_call_cases, path, family, end)
        if end == "_update" and are_all_cases_tried(path, family, is_long):
            pending = range(call_cases.KINDS[family].block + 1)
            yield from (ProofTask(path, [name], partial(show, pending[k::4])) for k in range(4))
        else:
            numbers = () if are_all_cases_tried(path, family, is_long) else call_cases.short_form_numbers(family)
            yield ProofTask(path, [name], partial(show, *numbers))
    yield from compression_tasks(path, names, is_long)
    compress = [n for n in names if family_and_call_suffix(n)[0]]       # memcmp and wipe do not
    for show, calls in ((check.prove_scrub_stacks, compress), (check.check_rotating_functions_are_listed, compress),
                        (check.check_whole_file, names)):
        if calls:
            yield ProofTask(path, calls, partial(show, path))


def compression_tasks(path, names, is_long):
    """Those of its functions that compress: of one message, or of several too."""
    for function in functions.FILES[path]:
        _, kind, lanes = function
        calls = [n for n in names if family_and_call_suffix(n)[0] and
                 call_cases.KINDS.get(family_and_call_suffix(n)[0]) is kind]
        if calls and (lanes == 1 or is_long):
            yield ProofTask(path, calls, partial(check.prove_one_compression, path, *function))


def failures_of_tasks(tasks):
    """Why calls are not shown, by the text and the name."""
    check.ALL[:] = [check.Job(str(k), None, task.show) for k, task in enumerate(tasks)]
    whys = {}
    for verdict, k, why in check.run_all(None):
        path, calls, _ = tasks[int(k)]
        whys.update({(path, name): f"not shown: {why or 'it fails'}" for name in calls if verdict != "ok"})
    return whys


def proof_description(path, name, is_long):
    """What is said of a call if nothing fails."""
    family, end = family_and_call_suffix(name)
    if functions.architecture(path) == "wasm" or name not in call_cases.shown_names(programs.read(path)):
        return ONLY_TESTED
    if not is_long and family not in QUICK:
        return LATER
    if are_all_cases_tried(path, family, is_long) or "x" not in family and end not in IN_PART:
        return SHOWN
    kind = call_cases.KINDS[family]
    return f"{SHOWN} {IN_PART.get(end, '') if 'x' not in family else 'in some cases'}" % {
        "block": kind.block, "less": kind.w - 1, "most": kind.w}


def result_line_of_call(paths, name, whys, is_long):
    """What is said of a call: once, if it is the same of all texts."""
    said = {path: whys.get((path, name)) or proof_description(path, name, is_long) for path in paths}
    wrong = [f"{path}: {text}" for path, text in said.items() if text.startswith("not shown")]
    if wrong or len(set(said.values())) == 1:
        return f"not shown: {'; '.join(wrong)}" if wrong and len(paths) > 1 else list(said.values())[0]
    return "; ".join(f"{text} ({os.path.basename(path)})" for path, text in said.items())


# What is compared of a file.

def read_file(path):
    """The bytes of a file."""
    with open(path, "rb") as file:
        return file.read()


def subject_of_linked_file(name, data, is_long):
    """What is to be shown of a linked file, of this name."""
    if data.startswith(b"!<arch>"):
        data = same_code.link_archive(data)
    builds, whys, has_names = same_code.compare_code_with_texts(data, (functions.ONE_B[0], functions.ONE_S[0]))
    if not builds:
        raise CannotVerify(f"{name} has no code of dist/: it is of another version, or of portable C, which is only "
                           "tested")
    whys = {call: why for call, why in whys.items() if call in EXPORTS}
    paths = list(builds.values())
    machine = [path for path in paths if path == assembly_text_of_machine()]
    return ProofSubject(paths if is_long else machine or paths[:1], name, whys,
                 f"The code of {name} was compared with {', '.join(paths)}" + (
                     "." if has_names else ": only that it is there, since the file does not name the calls."))


def subject_of_folder(folder, names, paths, file):
    """What is to be shown of a folder, some of whose files have to be those of this repository."""
    differ = [n for n, place in names.items() if not os.path.isfile(os.path.join(folder, n))
              or read_file(os.path.join(folder, n)) != read_file(os.path.join(TOP, place))]
    why = f"{', '.join(differ)} of {folder}: not as in this repository" if differ else None
    return ProofSubject(paths, os.path.join(folder, file), dict.fromkeys(EXPORTS, why),
                 f"Compared with this repository: {', '.join(names)}.")


def subject_of_path(name, is_long):
    """What is to be shown of a file or folder."""
    has = lambda file: os.path.isfile(os.path.join(name, file))
    if has("package.json"):
        modules = [path for path in functions.FILES if path.startswith("js/")]
        return subject_of_folder(name, {f"src/{file}": f"js/src/{file}" for file in OF_NODE}, modules, "src/wasm.js")
    texts = [path for path in OF_CRATE if path.endswith(".s")]
    if has("Cargo.toml"):
        text = assembly_text_of_machine()
        return subject_of_folder(name, {n: n for n in OF_CRATE}, texts if is_long else [text], text)
    if os.path.isdir(name):
        raise CannotVerify(f"{name} is not the folder of the crate or of the package for node")
    if os.path.relpath(os.path.abspath(name), TOP) in texts:
        return ProofSubject([os.path.relpath(os.path.abspath(name), TOP)], name, dict.fromkeys(EXPORTS), "")
    if not zipfile.is_zipfile(name):
        return subject_of_linked_file(name, read_file(name), is_long)
    with zipfile.ZipFile(name) as wheel:
        modules = [n for n in wheel.namelist() if n.endswith(".so")]
        if len(modules) != 1:
            raise CannotVerify(f"{name} has {len(modules)} modules in machine code, and not one")
        return subject_of_linked_file(name, wheel.read(modules[0]), is_long)


def subject_or_own_texts(name, is_long):
    """What is to be shown: of a file, or of dist/."""
    if name:
        return subject_of_path(os.path.abspath(name), is_long)
    texts = [path for builds in same_code.BUILDS.values() for path in builds.values()]
    return ProofSubject(texts if is_long else [assembly_text_of_machine()], assembly_text_of_machine(),
                        dict.fromkeys(EXPORTS), "")


def verify(name, is_long):
    """Prints the lines. Returns the status."""
    found = subject_or_own_texts(name, is_long)
    assembly = [path for path in found.paths if functions.architecture(path) != "wasm"]
    stop_if_tools_are_missing(assembly)
    tasks = [task for path in assembly for task in proof_tasks_of_text(path, is_long)]
    for path in found.paths:
        tasks += compression_tasks(path, EXPORTS, is_long) if path not in assembly else ()
    whys, lines = failures_of_tasks(tasks), []
    for call in EXPORTS:
        line = result_line_of_call(found.paths, call, whys, is_long) if call in found.whys else ABSENT
        lines.append(f"not shown: {found.whys[call]}" if found.whys.get(call) else line)
        print(f"{call:<41} {lines[-1]}")
    if found.compared:
        print(f"{found.compared} Shown of {', '.join(found.paths)}.")
    kinds = [line if line == SHOWN else "shown in part" if line.startswith(SHOWN) else line.partition(":")[0]
             for line in lines]
    print(", ".join(f"{kinds.count(kind)} {kind}" for kind in dict.fromkeys([SHOWN, *kinds])) +
          f": sha256 {hashlib.sha256(read_file(os.path.join(TOP, found.file))).hexdigest()} {found.file}")
    return int("not shown" in kinds)


def main(arguments):
    """Reads the arguments. Returns the status."""
    facts.rerun_with_debian_python(__file__, arguments)
    parser = argparse.ArgumentParser("verify", description=__doc__, formatter_class=argparse.RawTextHelpFormatter)
    parser.add_argument("--long", action="store_true", help="all texts and all cases")
    parser.add_argument("--call", metavar="CALL", choices=[n.removeprefix(call_cases.PREFIX) for n in EXPORTS])
    parser.add_argument("file", metavar="FILE", nargs="?")
    given = parser.parse_args(arguments)
    if given.call:
        EXPORTS[:] = [call_cases.PREFIX + given.call]
    try:
        return verify(given.file, given.long)
    except (CannotVerify, same_code.CannotCompare, OSError, zipfile.BadZipFile) as e:
        print(f"verify: {e}", file=sys.stderr)
        return 2


if __name__ == "__main__":
    sys.exit(main(sys.argv[1:]))
