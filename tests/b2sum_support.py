"""What the tests of b2sum and b2 share: the programs that they run, runs of them over files, and the lines that these
have to print. Not a program."""
import contextlib
import functools
import hashlib
import os
import resource
import shutil
import signal
import subprocess
import sys
import tempfile

import tap
from b2_model import B, Input, output
from common import TOP
from oracle import parallel_digest, tree_root

ASSEMBLE = 'source "$0/tests/tap.sh" && trap "" EXIT && rmdir "$work" && work=$1 && assemble_all "$2"'
FILES = {"a": b"", "b": b"abc", "with\nline": b"x" * 1000, "caf\udcff": bytes(range(256)) * 5}


@contextlib.contextmanager
def programs_to_test(given, name="b2sum"):
    """The programs at these paths or, if there are none, those of dist/ that this processor runs, assembled in a folder
    that each user can read, and the `b2` that `rt ci` has built."""
    with tempfile.TemporaryDirectory() as folder:
        os.chmod(folder, 0o755)
        if not given and not shutil.which("cc"):
            tap.result(True, f"the program {name} of dist/", skipped="no cc")
        elif not given:
            done = subprocess.run(["bash", "-c", ASSEMBLE, TOP, folder, name], stdout=subprocess.PIPE,
                                  stderr=subprocess.STDOUT)
            tap.result(done.returncode == 0, f"the program {name} in dist/ is assembled", done.stdout.decode())
            given = sorted(it.path for it in os.scandir(folder) if it.is_file() and os.access(it.path, os.X_OK))
            given += [os.path.join(TOP, "crates", "b2", "out", "b2")] * (name == "b2" and "RT_CI" in os.environ)
        yield [os.path.abspath(program) for program in given]


class ProgramRuns:
    """Runs of a program in a folder that has FILES."""

    def __init__(self, program, folder):
        self.program, self.folder, self.wrong, self.count = program, folder, [], 0
        for name, data in FILES.items():
            self.write(name, data)

    def path(self, name):
        return os.path.join(self.folder, name)

    def write(self, name, data):
        """Writes a file, which only its owner may read if it has a key."""
        with open(self.path(name), "wb") as file:
            if name.startswith("key"):
                os.chmod(file.fileno(), 0o600)
            file.write(data)

    def run(self, words, data=b"", called="b2sum", **more):
        """What the program prints to both streams, and its status."""
        more = {"env": {"LC_ALL": "C"}, "stdout": subprocess.PIPE, "stderr": subprocess.PIPE, "timeout": 100, **more}
        if "stdin" not in more:
            more["input"] = data
        done = subprocess.run([called, *words], executable=self.program, cwd=self.folder, **more)
        return done.stdout or b"", done.stderr or b"", done.returncode

    def expect_run(self, words, out, err="", status=0, data=b"", **more):
        """A run that has to print these texts and end with this status. Each line of `err` is a message."""
        err = b"".join(b"b2sum: " + os.fsencode(line) + b"\n" for line in err.splitlines())
        if more.pop("Try", False):
            err += b"Try 'b2sum --help' for more information.\n"
        wanted, got = (os.fsencode(out), err, status), self.run(words, data, **more)
        self.expect(f"{words}\n  wanted {wanted}", got == wanted, got)

    def run_in_memory_limit(self, kib, words, data=b""):
        """A run in this many KiB of address space."""
        return self.run(words, data, preexec_fn=lambda: resource.setrlimit(resource.RLIMIT_AS, (kib << 10,) * 2))

    def least_memory_limit(self, words, wanted):
        """The fewest KiB, up to 16 more, in which a run ends like this."""
        low, high = 0, 1 << 16
        while high - low > 16:
            middle = (low + high) // 2
            low, high = (low, middle) if self.run_in_memory_limit(middle, words) == wanted else (middle, high)
        return high

    def expect(self, words, condition, got=""):
        """A condition of a run."""
        self.count += 1
        if not condition:
            self.wrong.append(f"{words}\n  got {got}")

    def report_results(self, name):
        """One test of all runs so far."""
        label = f"{os.path.basename(self.program)}: {name} ({self.count} runs)"
        tap.result(self.count and not self.wrong, label, "\n".join(self.wrong[:5])[:6000])
        self.wrong, self.count = [], 0


@contextlib.contextmanager
def pipe_filled_by_commands(runs, name, commands):
    """Commands of a shell write to a pipe, and are ended: they wait for a reader if there was none."""
    process = subprocess.Popen(["sh", "-c", f"exec >{name}; {commands}"], cwd=runs.folder, start_new_session=True)
    try:
        yield
    finally:
        os.killpg(process.pid, signal.SIGKILL)
        process.wait()


def environment_with_fault(runs, call="", at=0, last=0, error=0, key=""):
    """The environment for a run in which these calls of a function fail, if any: see tests/b2sum_faults.c."""
    return {"LC_ALL": "C", "LD_PRELOAD": os.environ["FAULTS"], "FAULT_CALL": call, "FAULT_AT": str(at),
            "FAULT_LAST": str(last), "FAULT_ERROR": str(error), "FAULT_OUT": runs.path("out"),
            **({"FAULT_KEY": key} if key else {})}


def run_and_faults_said(runs, words, data, call, at, last, error, called="b2sum", key="", **more):
    """A run in which these calls of a function fail, and what is said of them; or nothing if it makes no such call."""
    got = runs.run(words, data, called, env=environment_with_fault(runs, call, at, last, error, key), **more)
    out = runs.path("out")
    if not os.path.exists(out):
        return None
    with open(out, encoding="ascii") as file:
        said = file.read()
    os.remove(out)
    return got, said


def run_with_fault_or_none(runs, *given, **more):
    """The same run, with a key to look for and what is said of that; without a key only the run."""
    found = run_and_faults_said(runs, *given, **more)
    return found if more.get("key") else found and found[0]


def key_copies_and_dump_flags(runs, words, key, call, at):
    """What a run has in its memory at a call: the number of pieces of the key, whether the process can be dumped, and
    whether it can leave a core file; or nothing if there is no such call."""
    digits = bytes(255 - byte for byte in key).hex()
    got = run_with_fault_or_none(runs, words, b"abc", call, at, at, 0, key=digits)
    runs.expect([*words, call, at], not got or got[0][1:] == (b"", 0), got)
    return got and tuple(map(int, got[1].split()))


def escaped_name(name):
    for byte, text in (("\\", "\\\\"), ("\n", "\\n"), ("\r", "\\r")):
        name = name.replace(byte, text)
    return name


@functools.cache
def digest(family, data, size, **parameters):
    """The digest of a family, such as "b" of BLAKE2b, "bp" of BLAKE2bp, "tree-4" of trees with leaves of 4 bytes."""
    if family in ("bp", "sp"):
        return parallel_digest(family[0], data, size, **parameters)
    if family.startswith("tree-"):
        return tree_root(data, int(family[5:]), size, **parameters)
    return getattr(hashlib, "blake2" + family)(data, digest_size=size, **parameters).digest()


def longest_digest_bits(family):
    """The bits of the longest digest of a family."""
    return 256 if family[0] == "s" else 512


@functools.cache
def derived_key(key, context, family="b"):
    """The key of the digests of a family that --derive-key makes for a context from the key of a file."""
    return output(B, longest_digest_bits(family) // 8, Input(os.fsencode(context), key))


def parameter_words_in_tag(key=b"", salt=b"", person=b""):
    """What a tag says of the parameters of a digest."""
    return ("-key" if key else "") + ("-salt" if salt else "") + ("-personal" if person else "")


def manifest_line(name, data, bits=512, family="b", mark=" ", tag=False, **parameters):
    """The line of a file. That of a root is always tagged."""
    digits = digest(family, data, bits // 8, **parameters).hex()
    start = "\\" if escaped_name(name) != name else ""
    if tag or family.startswith("tree-"):
        tag = f"BLAKE2{'b-' * family.startswith('tree-')}{family}{parameter_words_in_tag(**parameters)}"
        length = "" if bits == longest_digest_bits(family) else f"-{bits}"
        return f"{start}{tag}{length} ({escaped_name(name)}) = {digits}\n"
    return f"{start}{digits} {mark}{escaped_name(name)}\n"


def expected_file_output(name, data, shape, family, bits, given):
    """What is printed of a file with these options."""
    found = digest(family, data, bits // 8, **given)
    if "--raw" in shape:
        return found
    end = "\0" if "-z" in shape else "\n"
    if "--no-names" in shape:
        return (found.hex() + end).encode()
    text = manifest_line("NAME" if "-z" in shape else name, data, bits, family, "*" if "-b" in shape else " ",
                         "--tag" in shape,
                **given)
    return os.fsencode(text.removesuffix("\n").replace("NAME", name) + end)


def check_result_line(name, outcome="OK"):
    """The line of a file in a check."""
    return ("\\" if "\n" in name else "") + (escaped_name(name) if "\n" in name else name) + f": {outcome}\n"


def expected_and_found_lines(listed, found):
    """The lines of --show-digests after that of a file whose digest is another than its entry's."""
    return f"  expected: {listed.hex()}\n  found:    {found.hex()}\n"


def manifest_lines(**more):
    return "".join(manifest_line(name, data, **more) for name, data in FILES.items())


def tree_manifest_line(name, data, leaf, bits=512, **texts):
    """The line of the root of a tree."""
    return manifest_line(name, data, bits, f"tree-{leaf}", **texts)


def damaged_line(rng, line):
    """A line of a manifest with one of many damages, of which the last ones are at a place in it."""
    at, one_of = rng.randrange(len(line) + 1), lambda *texts: rng.choice(texts)
    return rng.choice([
        lambda: line.upper(), lambda: one_of(b" ", b"\t", b"  \t", b"\\", b" \\", b"#") + line,
        lambda: line + one_of(b"\r", b" ", b"\r\r", b"\\", b")", b"x"),
        lambda: line.replace(b"  ", one_of(b" ", b" *", b"\t", b"\t ", b"\t*", b"   "), 1),
        lambda: line.replace(b" (", one_of(b" (", b"("), 1).replace(
            b") = ", one_of(b") = ", b")=", b")  =\t", b") =", b")x= "), 1),
        lambda: one_of(b"", b"#", b"\r", b" ", b"ab", b"ab ", b"ab  ", b"ab  x", b"nonsense", b"\\", line[2:]),
        lambda: line.replace(b"BLAKE2b", one_of(b"BLAKE2s", b"blake2b", b"BLAKE2b-512", b"BLAKE2b-8", b"BLAKE2b-",
                                                b"SHA256"), 1),
        lambda: line[:at] + bytes([rng.choice(b" \\()=-*\tgAfF0z\r#")]) + line[at:],
        lambda: line[:at] + bytes([rng.choice(b"0123456789abcdefABCDEF")]) + line[at + 1:],
        lambda: one_of(line[:at], line[:at] + line[at + 1:])])()


def run_program_tests(tests, others=(), faulty=()):
    """Runs tests of the programs that the command line names, or of those of dist/: all of them for the first program,
    and the others for the rest. The faulty ones need the library FAULTS, which is built first."""
    with tempfile.TemporaryDirectory() as work, programs_to_test(sys.argv[1:]) as built:
        os.environ["FAULTS"] = os.path.join(work, "faults.so")
        has_faults = not faulty or shutil.which("cc") and subprocess.run(
            ["cc", "-shared", "-fPIC", "-O1", "-Wl,-z,now", os.path.join(TOP, "tests", "b2sum_faults.c"), "-o",
             os.environ["FAULTS"]], stdout=subprocess.DEVNULL).returncode == 0
        for number, program in enumerate(built):
            for test in others if number else tests:
                if test in faulty and not has_faults:
                    tap.result(True, "calls that fail", skipped="no cc")
                    continue
                with tempfile.TemporaryDirectory() as folder:
                    test(ProgramRuns(program, folder))
    tap.finish()
