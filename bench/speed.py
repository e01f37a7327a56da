#!/usr/bin/env python3
"""Times this project's BLAKE2b-512 and BLAKE2s-256 next to other programs and libraries, in one run.

Tables, as Markdown on standard output:

- long: `b2 sum` next to programs, each over one file of random bytes as its standard input: the processor's
  time (user and system) of the whole program.
- kernel: one message of 1 MiB in memory.
- short: messages of 0 to 1,024 bytes in memory.
- several: four and eight messages of BLAKE2b-512 and eight of BLAKE2s-256, digested one after another and in parallel.
- parallel: one message of BLAKE2bp-512 and of BLAKE2sp-256 in memory, of 0 bytes to 1 MiB.
- xof: 32 KiB of output of BLAKE2Xb and of BLAKE2Xs, by one call and by a call for each block.
- tree: the roots of trees over one message of 16 MiB in memory, next to one stream over it.

With --write all of them go into bench/results/speed.txt, and a plot of messages of 64 bytes to 1 MiB goes into
docs/speed.svg. docs/SPEED.md says how each candidate is timed. A peer that is absent, and the package that has it,
are named on standard error, and it is left out.

Each digest is first compared with hashlib's. Then the candidates of a column are timed in turns, and the best time of
each counts: in memory the best at each of 16 places of the stack, and the median of these. A ratio is the candidate's
speed over that of the column's best peer.

usage: bench/speed.py [--mebibytes N] [--turns N] [--build v2|v3|v4]
                      [--only long|kernel|short|several|parallel|xof|tree | --write]
"""
import ctypes
import functools
import hashlib
import json
import mmap
import os
import re
import shutil
import statistics
import subprocess
import sys
import tempfile
import time
from dataclasses import dataclass
from typing import Callable, NamedTuple

TOP = os.path.dirname(os.path.dirname(os.path.abspath(__file__)))
sys.path.insert(0, os.path.join(TOP, "tests"))
import b2_model  # noqa: E402
from common import Parser, at_least  # noqa: E402
from oracle import SCALAR, parallel_digest_by_hashlib, tree_root  # noqa: E402

RESULTS = os.path.join(TOP, "bench", "results")
PICTURE = os.path.join(TOP, "docs", "speed.svg")
PEERS = os.path.join(TOP, "bench", "peers")
OUT = os.path.join(TOP, "bench", "out")
NEWEST = subprocess.run([os.path.join(TOP, "tests", "processor.sh")], stdout=subprocess.PIPE, text=True,
                        check=True).stdout.strip()  # of the builds that this processor runs
CPUS = ["x86-64-v2", "x86-64-v3", "x86-64-v4"]
CPUS = CPUS[:CPUS.index(NEWEST) + 1] if NEWEST in CPUS else []  # and those to time
IN_MEMORY_BYTES = 1 << 20
SHORT_BYTES = (0, 1, 64, 65, 96, 127, 128, 200, 1024)
SEVERAL_BYTES = (64, 1024, 4096)
PARALLEL_BYTES = (0, 1024, 4096, 1 << 16, 1 << 20)
OUTPUT_BYTES = 1 << 15  # of BLAKE2X, as bench/peers/xof.c and xof.go have it
SEVERAL = {"b512": 4, "s256": 8}  # how many messages in parallel
MORE = {"b512": 8}  # and how many with AVX-512
TREE_MEBIBYTES = 16  # of the message
TREE_LEAVES = (1 << 12, 1 << 16, 1 << 20)
PLOT_BYTES = tuple(1 << power for power in range(6, 21))
TURN_NANOSECONDS = 2e6  # of one timing in memory, at least
PLACES = range(0, 16 * 272, 272)  # of the stack, in bytes, from which functions in memory are called
MEMORY_TURNS = 50  # timings in memory for each turn over the file, at the lengths of the tables
TREE_TURNS = 2  # timings of roots for each turn over the file
PLOT_TURNS = 25  # and at the lengths that only the plot has
DEBIAN_CRATES = ["--config", 'source.crates-io.replace-with="debian"',
                 "--config", 'source.debian.directory="/usr/share/cargo/registry"']


class TimedFunction(NamedTuple):
    """A hash function that is timed."""
    word: str  # of b2
    algorithm: str  # its family's name in hashlib
    title: str  # its name in the tables
    function: str  # its name in C, and of openssl


TIMED = (TimedFunction("b512", "blake2b", "BLAKE2b-512", "blake2b512"),
         TimedFunction("s256", "blake2s", "BLAKE2s-256", "blake2s256"))
PARALLEL = (TimedFunction("bp512", "blake2bp", "BLAKE2bp-512", "blake2bp512"),
            TimedFunction("sp256", "blake2sp", "BLAKE2sp-256", "blake2sp256"))
OUTPUTS = (("b", "BLAKE2Xb"), ("s", "BLAKE2Xs"))
CRATES = "blake2b/s_simd"  # the peers whose functions use one thread


@dataclass
class ResultColumn:
    """A column of a table: the best time of each candidate by its name, its text, and the name and the time of
    the candidate that ratios are to. If it is left out, it is the fastest that is not this project's."""
    title: str
    best: dict
    text: Callable
    base: tuple = None

    def __post_init__(self):
        self.base = self.base or min(((name, taken) for name, taken in self.best.items()
                                      if not name.startswith("ours")), key=lambda pair: pair[1])


def report_progress(text):
    """Says on standard error what goes on."""
    print("speed: " + text, file=sys.stderr, flush=True)


def run_quietly(command, folder=TOP):
    """Runs a command without showing its output: whether it succeeded, and what it printed."""
    try:
        done = subprocess.run(command, cwd=folder, stdin=subprocess.DEVNULL, stdout=subprocess.PIPE,
                              stderr=subprocess.STDOUT, text=True, errors="replace")
    except FileNotFoundError:
        return False, command[0] + " is not on the PATH"
    return done.returncode == 0, done.stdout.strip()


# What is built.

def assembly_text_path(name, cpu):
    """The path of the assembly text of dist/ with this name for the processor."""
    return os.path.join(TOP, "dist", "x86_64", f"{name}-{cpu.removeprefix('x86-64-')}.s")


def link_program_for_cpu(cpu):
    """The program b2 with the library's build for the processor, linked from dist/."""
    texts = [os.path.join(TOP, "dist", "x86_64", "b2.s"),
             *(assembly_text_path("vulfsjor", level) for level in ("v2", "v3", "v4"))]
    with open(texts[0]) as text:
        main = re.search(r"^\tvj_export\t(main\w*)$", text.read(), re.MULTILINE)[1]
    assembly = os.path.join(OUT, "b2.S")
    with open(assembly, "w") as all_texts:
        for name in (os.path.join(TOP, "dist", "macros.h"), *texts):
            all_texts.write(f'#include "{name}"\n')
    sources = [os.path.join(TOP, "c", name) for name in ("b2.c", "choose.c")]
    path = compile_program(cpu + "-b2", ["-DMAIN=" + main, "-DCHOOSE_TEST=" + cpu[-1],
                                  "-I" + os.path.join(TOP, "c", "include"),
                                  *sources, assembly])
    if path is None:
        sys.exit("speed: the program needs a C compiler (cc)")
    return path


@functools.cache
def link_library_for_cpu(cpu):
    """The shared library over vulfsjor for the processor, linked from dist/."""
    folder = os.path.join(OUT, cpu)
    good, output = run_quietly([os.path.join(TOP, "c", "make_libraries.sh"), folder,
                                assembly_text_path("vulfsjor", cpu)])
    if not good:
        sys.exit("speed: vulfsjor was not linked: " + output)
    sources = [os.path.join(PEERS, name) for name in ("ours.c", "several.c", "vulfsjor_tree.c", "xof.c")]
    return compile_shared_library(cpu + "-vulfsjor.so", [*sources, os.path.join(folder, "libvulfsjor.a")])


def compile_program(name, words):
    """Compiles C at -O3 to this file of bench/out; None if the compiler or what it needs is absent."""
    path = os.path.join(OUT, name)
    good, _ = run_quietly(["cc", "-O3", "-o", path] + words)
    return path if good else None


def compile_shared_library(name, words):
    """Compiles C to a shared library, as `compile_program` does."""
    return compile_program(name, ["-shared", "-fPIC"] + words)


@functools.cache
def build_libb2():
    """The program and the shared library over libb2; None for each if it is absent."""
    source = os.path.join(PEERS, "libb2.c")
    program = compile_program("libb2_sum", [source, "-lb2"])
    if program is None:
        report_progress("libb2 is absent (libb2-dev)")
        return None, None
    return program, compile_shared_library("libb2.so", [source, "-lb2"])


@functools.cache
def build_blake2_simd():
    """The program and the shared library over the Rust crates; None for each if they are absent."""
    folder = os.path.join(OUT, "simd")
    shutil.copytree(os.path.join(PEERS, "simd"), folder, dirs_exist_ok=True)
    good, _ = run_quietly(["cargo", "build", "--release", "--offline"] + DEBIAN_CRATES, folder)
    if not good:
        report_progress("blake2b/s_simd is absent (librust-blake2b-simd-dev and librust-blake2s-simd-dev, and cargo)")
        return None, None
    release = os.path.join(folder, "target", "release")
    return os.path.join(release, "simd_sum"), os.path.join(release, "libsimd.so")


@functools.cache
def build_openssl():
    """The shared library over OpenSSL; None if it is absent."""
    library = compile_shared_library("openssl.so", [os.path.join(PEERS, "openssl.c"), "-lcrypto"])
    if library is None:
        report_progress("OpenSSL's library is absent (libssl-dev)")
    return library


@functools.cache
def build_golang():
    """The shared library over Go's golang.org/x/crypto; None if it is absent."""
    path = os.path.join(OUT, "golang.so")
    settings = ["GO111MODULE=off", "GOPATH=/usr/share/gocode", "GOCACHE=" + os.path.join(OUT, "go")]
    command = ["go", "build", "-buildmode=c-shared", "-o", path, os.path.join(PEERS, "xof.go")]
    good, _ = run_quietly(["env"] + settings + command)
    if not good:
        report_progress("golang.org/x/crypto is absent (golang-go and golang-golang-x-crypto-dev)")
    return path if good else None


def peer_versions():
    """The versions of the peers, as they report them, and how those that are built here are compiled."""
    found = []
    for name, command, pattern in (("b2sum", ["b2sum", "--version"], r"^b2sum .* (\S+)$"),
                                   ("OpenSSL", ["openssl", "version"], r"^OpenSSL (\S+)"),
                                   ("libb2", ["pkg-config", "--modversion", "libb2"], r"^([\d.]+)$"),
                                   ("Go", ["go", "version"], r"^go version go(\S+)")):
        match = re.search(pattern, run_quietly(command)[1], re.MULTILINE)
        found += [f"{name} {match[1]}"] if match else []
    if build_blake2_simd()[0]:
        with open(os.path.join(OUT, "simd", "Cargo.lock")) as file:
            crates = re.findall(r'name = "(blake2._simd)"\nversion = "(.*)"', file.read())
        rust = re.search(r"^rustc (\S+)", run_quietly(["rustc", "--version"])[1], re.MULTILINE)
        found += [" ".join(crate) for crate in crates]
        found[-1] += f" (both by rustc {rust[1] if rust else 'of an unknown version'}, --release, for any x86-64)"
    compiler = run_quietly(["cc", "-dumpfullversion"])[1]
    found.append(f"C around the libraries by cc {compiler} -O3")
    return ", ".join(found + ["Python " + sys.version.split()[0]])


# What is timed.

def best_time_of_each(turns, timers):
    """The best time of each candidate, where each is timed once in every turn."""
    best = {}
    for _ in range(turns):
        for name, timer in timers.items():
            taken = timer()
            best[name] = min(taken, best.get(name, taken))
    return best


def median_over_stack_places(turns, loops, others=None):
    """The time of each loop, whose best is taken at each place of the stack, and then the median of these; and the best
    time by each of the other timers. The turns are shared by the places."""
    timers = {(name, place): loop_timer(functools.partial(loop, place=place))
              for name, loop in loops.items() for place in PLACES}
    timers |= {(name, PLACES[0]): timer for name, timer in (others or {}).items()}
    best = best_time_of_each(-(-turns // len(PLACES)), timers)
    return {name: statistics.median(taken for (which, _), taken in best.items() if which == name)
            for name in dict.fromkeys(name for name, _ in timers)}


def programs_to_time():
    """The programs to time by their names: functions from a kind to the command, or None."""
    found = {}
    for cpu in CPUS:
        b2 = link_program_for_cpu(cpu)
        found[f"ours: `b2 sum`, {cpu}"] = lambda kind, b2=b2: [b2, "sum", kind.word]
    if shutil.which("b2sum"):
        found["`b2sum`"] = lambda kind: ["b2sum"] if kind.word == "b512" else None
    if shutil.which("openssl"):
        found["`openssl dgst`"] = lambda kind: ["openssl", "dgst", "-" + kind.function]
    for name, (program, _) in (("libb2", build_libb2()), ("blake2b/s_simd", build_blake2_simd())):
        if program:
            found[name] = lambda kind, program=program: [program, kind.word]
    return found


def peak_and_digest(command, file):
    """The peak of a program's resident memory over this input in KiB, and the digest that it prints."""
    file.seek(0)
    peak = 0
    with subprocess.Popen(command, stdin=file, stdout=subprocess.PIPE, text=True) as process:
        while process.poll() is None:
            with open(f"/proc/{process.pid}/status") as status:
                peak = max([peak] + [int(line.split()[1]) for line in status if line.startswith("VmHWM")])
            time.sleep(0.005)
        printed = process.stdout.read()
    if process.returncode != 0:
        sys.exit(f"speed: {command[0]} failed")
    return peak, max(printed.split(), key=len)


def time_run(command, file, wanted=""):
    """The nanoseconds of one run over this input by the clock, and of the processor. The run prints what is wanted."""
    file.seek(0)
    start = time.perf_counter_ns()
    process = subprocess.Popen(command, stdin=file, stdout=subprocess.PIPE, text=True)
    printed = process.stdout.read()
    _, status, used = os.wait4(process.pid, 0)
    taken = time.perf_counter_ns() - start
    process.returncode = os.waitstatus_to_exitcode(status)
    if process.returncode != 0 or wanted not in printed:
        sys.exit(f"speed: {command[0]} failed, or gave another digest")
    return taken, (used.ru_utime + used.ru_stime) * 1e9


def program_timer(command, file):
    """A function that returns the CPU time in nanoseconds of one run over this input."""
    return lambda: time_run(command, file)[1]


def file_digest_timer(kind, file):
    """A function that returns the CPU time in nanoseconds of hashlib.file_digest."""
    def timer():
        file.seek(0)
        start = time.process_time_ns()
        hashlib.file_digest(file, kind.algorithm).hexdigest()
        return time.process_time_ns() - start
    return timer


def library_functions_by_kind(path, prefix=""):
    """The functions of a shared library by their kinds' words."""
    library = ctypes.CDLL(path)
    return {kind.word: getattr(library, prefix + kind.function) for kind in TIMED}


def function_addresses_in_module(path):
    """The addresses of the functions of a module that this Python has loaded, by their names."""
    with open("/proc/self/maps") as maps:
        base = min(int(line.split("-")[0], 16) for line in maps if line.rstrip().endswith(path))
    entries = [line.split() for line in run_quietly(["nm", path])[1].splitlines()]
    return {entry[2]: base + int(entry[0], 16) for entry in entries if len(entry) == 3}


def hashlib_functions_by_kind():
    """hashlib's own C functions by their kinds' words; None if this Python does not show them."""
    import _blake2
    addresses = function_addresses_in_module(_blake2.__file__) if hasattr(_blake2, "__file__") else {}
    if "PyBlake2_blake2b" not in addresses or "PyBlake2_blake2s" not in addresses:
        report_progress("hashlib's C functions are not to be found in this Python")
        return None
    path = compile_shared_library("hashlib.so", [os.path.join(PEERS, "hashlib.c")])
    library = ctypes.CDLL(path)
    for name in ("blake2b", "blake2s"):
        ctypes.c_void_p.in_dll(library, "python_" + name).value = addresses["PyBlake2_" + name]
    return library_functions_by_kind(path)


def functions_in_memory():
    """The functions to time in memory, by the names of their libraries and their kinds' words."""
    found = {}
    for cpu in CPUS:
        found[f"ours: `vulfsjor`, {cpu}"] = library_functions_by_kind(link_library_for_cpu(cpu), "ours_")
    for name, path in (("libb2", build_libb2()[1]), ("blake2b/s_simd", build_blake2_simd()[1]),
                       ("OpenSSL's EVP", build_openssl())):
        if path:
            found[name] = library_functions_by_kind(path)
    inside = hashlib_functions_by_kind()
    if inside:
        found["hashlib's C functions"] = inside
    return found


def loop_timer(loop):
    """A function that returns the nanoseconds of one digest, given a loop that returns those of several."""
    count = 1
    while min(loop(count) for _ in range(3)) < TURN_NANOSECONDS:
        count *= 2
    return lambda: loop(count) / count


def python_loop(kind, message):
    """The loop in Python over hashlib's digests of a message."""
    function = getattr(hashlib, kind.algorithm)

    def loop(count):
        start = time.perf_counter_ns()
        for _ in range(count):
            function(message).digest()
        return time.perf_counter_ns() - start
    return loop


@functools.cache
def load_c_clock():
    """The function in C that times a loop of digests."""
    path = compile_shared_library("clock.so", [os.path.join(PEERS, "clock.c")])
    if path is None:
        sys.exit("speed: the tables in memory need a C compiler (cc)")
    clock = ctypes.CDLL(path).nanoseconds
    clock.restype = ctypes.c_double
    clock.argtypes = [ctypes.c_void_p, ctypes.c_void_p, ctypes.c_size_t, ctypes.c_char_p, ctypes.c_long,
                      ctypes.c_size_t]
    return clock


def python_timer(kind, message):
    """The timer of hashlib's digests of a message as a Python program gets them."""
    return {"hashlib through Python": loop_timer(python_loop(kind, message))}


def verified_c_loop(name, function, data, length, wanted):
    """The loop in C over a library's digests of the data's first bytes, once it is seen to write what is wanted."""
    first = ctypes.c_char.from_buffer(data)
    out = ctypes.create_string_buffer(max(64, len(wanted)))

    def loop(count, place=0):
        return load_c_clock()(ctypes.cast(function, ctypes.c_void_p), ctypes.addressof(first), length, out, count,
                              place)
    loop(1)
    if out.raw[:len(wanted)] != wanted:
        sys.exit(f"speed: {name} gave another digest of {length} bytes")
    return loop


class MemoryTimings:
    """What is timed in memory."""

    def __init__(self, turns, found, beside=lambda kind, message: {}):
        self.turns = turns
        self.libraries = found
        self.beside = beside  # from a kind and a message to more timers by their names
        self.measured = {}

    def best_time(self, kind, length):
        """The best time in nanoseconds of a digest of this number of bytes by each library, and through Python."""
        if (kind, length) not in self.measured:
            self.measured[kind, length] = self.measure_times(kind, length)
        return self.measured[kind, length]

    def measure_times(self, kind, length):
        """The same, timed now."""
        report_progress(f"timing libraries at {kind.title} of {length:,} bytes")
        message = mmap.mmap(-1, max(length, 1))
        message[:] = os.urandom(len(message))
        wanted = hashlib.new(kind.algorithm, message[:length]).digest()
        loops = {name: verified_c_loop(name, found[kind.word], message, length, wanted)
                 for name, found in self.libraries.items()}
        in_a_table = length in SHORT_BYTES or length == IN_MEMORY_BYTES
        turns = self.turns * (MEMORY_TURNS if in_a_table else PLOT_TURNS)
        return median_over_stack_places(turns, loops, self.beside(kind, message[:length]))


# What is printed.

def speed_text(length):
    """The speed, as text, of a time in nanoseconds for this number of bytes: 10^9 bytes a second."""
    return lambda nanoseconds: f"{length / nanoseconds:.2f}"


def markdown_row(cells):
    """A row of a Markdown table."""
    return "| " + " | ".join(cells) + " |\n"


def markdown_table(corner, columns, last=None):
    """The columns as a Markdown table, each with its ratios, and last a title and its cells."""
    title, cells = last if last else (None, {})
    titles = [corner]
    for column in columns:
        titles += [column.title, f"ratio to {column.base[0]}"]
    text = markdown_row(titles + ([title] if last else []))
    text += markdown_row(["---"] * (len(titles) + bool(last)))
    for name in dict.fromkeys(name for column in columns for name in column.best):
        row = [name]
        for column in columns:
            taken = column.best.get(name)
            row += [column.text(taken), f"{column.base[1] / taken:.2f}"] if taken else ["", ""]
        text += markdown_row(row + ([cells.get(name, "")] if last else []))
    return text


def random_temporary_file(mebibytes):
    """A file of this number of MiB of random bytes, without a name."""
    report_progress(f"writing a file of {mebibytes} MiB")
    file = tempfile.TemporaryFile()
    for _ in range(mebibytes):
        file.write(os.urandom(1 << 20))
    file.flush()
    return file


def file_speed_table(options):
    """The table of programs over a file."""
    commands, columns, peaks = programs_to_time(), [], {}
    with random_temporary_file(options.mebibytes) as file:
        for kind in TIMED:
            report_progress(f"timing programs at {kind.title}")
            file.seek(0)
            wanted = hashlib.file_digest(file, kind.algorithm).hexdigest()
            timers = {}
            for name, command in ((name, command_of(kind)) for name, command_of in commands.items()):
                if command is None:
                    continue
                peak, digest = peak_and_digest(command, file)
                if digest != wanted:
                    sys.exit(f"speed: {name} gave another digest")
                peaks[name] = max(peak / 1024, peaks.get(name, 0))
                timers[name] = program_timer(command, file)
            timers["hashlib's `file_digest`"] = file_digest_timer(kind, file)
            text = speed_text(options.mebibytes << 20)
            columns.append(ResultColumn(kind.title + ", GB/s", best_time_of_each(options.turns, timers), text))
    peaks = {name: f"{peak:.1f}" for name, peak in peaks.items()}
    return markdown_table(f"{options.mebibytes} MiB from a file", columns, ("peak memory, MiB", peaks))


def in_memory_table(memory):
    """The table of libraries over one long message in memory."""
    text = speed_text(IN_MEMORY_BYTES)
    columns = [ResultColumn(kind.title + ", GB/s", memory.best_time(kind, IN_MEMORY_BYTES), text) for kind in TIMED]
    return markdown_table("1 MiB in memory", columns)


def short_message_table(kind, memory):
    """The table of libraries over short messages in memory."""
    columns = [ResultColumn(f"{length:,} bytes, ns", memory.best_time(kind, length), "{:.0f}".format)
               for length in SHORT_BYTES]
    return markdown_table(f"one {kind.title} digest", columns)


def libraries_hashing_several():
    """The libraries with functions that write the digests of several messages, and the prefixes of these functions, by
    the names of the rows."""
    found = {}
    for cpu in CPUS:
        found[f"ours: one after another, {cpu}"] = link_library_for_cpu(cpu), "each_"
        found[f"ours: in parallel, {cpu}"] = link_library_for_cpu(cpu), "several_"
    path = build_blake2_simd()[1]
    if path:
        found["blake2b/s_simd: one after another"] = path, "each_"
        found["blake2b/s_simd: `hash_many`"] = path, "several_"
    return found


def several_messages_table(kind, count, functions, turns):
    """The table of this many messages in parallel."""
    function = kind.function if count == SEVERAL[kind.word] else f"{kind.function}_{count}"
    columns = []
    for length in SEVERAL_BYTES:
        report_progress(f"timing {count} messages at {kind.title} of {length:,} bytes")
        messages = bytearray(os.urandom(count * length))
        wanted = b"".join(hashlib.new(kind.algorithm, messages[at:at + length]).digest()
                          for at in range(0, len(messages), length))
        loops = {name: verified_c_loop(name, getattr(ctypes.CDLL(path), prefix + function), messages, len(messages),
                                    wanted) for name, (path, prefix) in functions.items()}
        best = median_over_stack_places(turns * MEMORY_TURNS, loops)
        columns.append(ResultColumn(f"{length:,} bytes, ns", best, "{:.0f}".format))
    return markdown_table(f"{count} messages of {kind.title}", columns)


def parallel_hash_table(kind, turns):
    """The table of BLAKE2bp or BLAKE2sp. libb2 starts a thread for each leaf, so its time is that of all of them by the
    clock; ratios are to the crates, which have one."""
    found = {f"ours: `vulfsjor`, {cpu}": (link_library_for_cpu(cpu), "ours_") for cpu in CPUS}
    found |= {name: (path, "") for name, path in (("libb2, with its threads", build_libb2()[1]),
                                                  (CRATES, build_blake2_simd()[1])) if path}
    columns = []
    for length in PARALLEL_BYTES:
        report_progress(f"timing {kind.title} of {length:,} bytes")
        message = bytearray(os.urandom(max(length, 1)))
        wanted = parallel_digest_by_hashlib(kind.word[0], bytes(message[:length]))
        loops = {name: verified_c_loop(name, getattr(ctypes.CDLL(path), prefix + kind.function), message, length,
                                       wanted)
                 for name, (path, prefix) in found.items()}
        best = median_over_stack_places(turns * MEMORY_TURNS, loops)
        base = (CRATES, best[CRATES]) if CRATES in best else None
        if length < 1 << 16:
            columns.append(ResultColumn(f"{length:,} bytes, ns", best, "{:.0f}".format, base))
        else:
            columns.append(ResultColumn(f"{length:,} bytes, GB/s", best, speed_text(length), base))
    return markdown_table(f"one {kind.title} digest", columns)


def xof_output_table(turns):
    """The table of outputs of BLAKE2X."""
    found = {f"ours: {title}, {cpu}": (link_library_for_cpu(cpu), prefix) for cpu in CPUS
             for prefix, title in (("each_", "one block after another"), ("whole_", "blocks in parallel"))}
    found |= {"golang.org/x/crypto": (build_golang(), "go_")} if build_golang() else {}
    message, columns = bytearray(os.urandom(64)), []
    for letter, title in OUTPUTS:
        report_progress(f"timing outputs of {title}")
        wanted = b2_model.output(SCALAR[letter], OUTPUT_BYTES, b2_model.Input(bytes(message)))
        loops = {name: verified_c_loop(name, getattr(ctypes.CDLL(path), f"{prefix}blake2x{letter}"), message,
                                       len(message),
                                    wanted) for name, (path, prefix) in found.items()}
        best = median_over_stack_places(turns * MEMORY_TURNS, loops)
        base = next(iter(found))
        columns.append(ResultColumn(title + ", GB/s", best, speed_text(OUTPUT_BYTES),
                              None if build_golang() else (base, best[base])))
    return markdown_table(f"{OUTPUT_BYTES:,} bytes of output", columns)


def tree_functions():
    """The functions that write a digest of a message, by their names: roots of trees and single digests."""
    roots, single = {}, {}
    for cpu in CPUS:
        found = ctypes.CDLL(link_library_for_cpu(cpu))
        roots[f"ours: root, {cpu}"] = found
        single[f"ours: one stream, {cpu}"] = found.ours_blake2b512
    path = build_blake2_simd()[1]
    if path:
        roots["blake2b/s_simd: root by `hash_many`"] = ctypes.CDLL(path)
        single["blake2b/s_simd: one stream"] = ctypes.CDLL(path).blake2b512
    return roots, single


def tree_timer(name, function, message, wanted):
    """The timer of one call of a function in C over a message."""
    loop = verified_c_loop(name, function, message, len(message), wanted)
    return lambda: loop(1)


def tree_root_table(turns):
    """The table of roots of trees of BLAKE2b next to one stream, over one message."""
    roots, single = tree_functions()
    columns = []
    with random_temporary_file(TREE_MEBIBYTES) as file:
        file.seek(0)
        message = bytearray(file.read())
        digest = hashlib.blake2b(message).digest()
        timers = {name: tree_timer(name, function, message, digest) for name, function in single.items()}
        if shutil.which("b2sum"):
            timers["`b2sum` over the file, with its start"] = program_timer(["b2sum"], file)
        for leaf in TREE_LEAVES:
            report_progress(f"timing roots over leaves of {leaf:,} bytes")
            root = tree_root(bytes(message), leaf, 64)
            for name, library in roots.items():
                library.set_leaf(ctypes.c_size_t(leaf))
                timers[name] = tree_timer(name, library.tree_blake2b512, message, root)
            columns.append(ResultColumn(f"leaves of {leaf:,} bytes, GB/s", best_time_of_each(turns, timers),
                                        speed_text(len(message))))
    return markdown_table(f"{TREE_MEBIBYTES} MiB", columns)


def svg_plot(places, label, bytes_at, best_at):
    """A plot of speed as SVG: for each kind and each length, the bytes a second in the best time of each candidate."""
    panels = {}
    for kind in TIMED:
        best = {place: best_at(kind, place) for place in places}
        panels[kind.title] = {name: {place: bytes_at(place) / best[place][name] for place in places}
                              for name in best[places[0]]}
    command = [os.path.join(TOP, "bench", "plot.py"), label]
    return subprocess.run(command, input=json.dumps(panels), stdout=subprocess.PIPE, text=True, check=True).stdout


def write_results(parts, name):
    """Writes the parts to bench/results/, to the text of this name."""
    with open(os.path.join(RESULTS, name + ".txt"), "w") as file:
        file.write("\n".join(parts))


def processor_and_cores():
    """The processor's name, and its cores."""
    with open("/proc/cpuinfo") as info:
        models = [line.split(":", 1)[1].strip() for line in info if line.startswith("model name")]
    return f"{os.cpu_count()} cores of {models[0] if models else 'an unknown processor'}"


def with_load_line(part):
    """A part, and the machine's load as it was finished."""
    return f"{part}\n(Load {os.getloadavg()[0]:.1f} in the last minute of this.)\n"


def heading_text(options):
    """The machine, the versions of the peers, and how often each candidate is timed."""
    turns = f"best of {options.turns} over the file, of {options.turns * MEMORY_TURNS} in memory"
    return f"{processor_and_cores()}; {peer_versions()}; {turns}.\n"


def parse_options(text, mebibytes, turns, only=()):
    """The options of the command line: the text says what the program does, and the numbers are the defaults."""
    parser = Parser(description=text.split("\n\n")[0])
    parser.add_argument("--mebibytes", type=at_least(1), default=mebibytes, help=f"the size of the file ({mebibytes})")
    parser.add_argument("--turns", type=at_least(1), default=turns, help=f"how often each program is timed ({turns})")
    which = parser.add_mutually_exclusive_group()
    if only:
        which.add_argument("--only", choices=only, help="only this part")
        parser.add_argument("--build", choices=[cpu.removeprefix("x86-64-") for cpu in CPUS],
                            help="only this build of ours")
    which.add_argument("--write", action="store_true", help="write it to bench/results/, and the plot to docs/")
    return parser.parse_args()


def parts_of(options):
    """The heading and the tables, each once it is measured; with --write the plot is drawn last."""
    yield heading_text(options)
    if options.only in (None, "long"):
        yield with_load_line(file_speed_table(options))
    if options.only in (None, "kernel", "short"):
        memory = MemoryTimings(options.turns, functions_in_memory(), python_timer)
    if options.only in (None, "kernel"):
        yield with_load_line(in_memory_table(memory))
    if options.only in (None, "short"):
        yield from (with_load_line(short_message_table(kind, memory)) for kind in TIMED)
    if options.only in (None, "several"):
        functions = libraries_hashing_several()
        yield from (with_load_line(several_messages_table(kind, counts[kind.word], functions, options.turns))
                    for kind in TIMED for counts in (SEVERAL, MORE) if kind.word in counts)
    if options.only in (None, "parallel"):
        yield from (with_load_line(parallel_hash_table(kind, options.turns)) for kind in PARALLEL)
    if options.only in (None, "xof"):
        yield with_load_line(xof_output_table(options.turns))
    if options.only in (None, "tree"):
        yield with_load_line(tree_root_table(options.turns * TREE_TURNS))
    if options.write:
        with open(PICTURE, "w") as file:
            file.write(svg_plot(PLOT_BYTES, "bytes of the message", lambda length: length, memory.best_time))


def run_benchmark(options, parts_of, name):
    """Measures the parts, prints each, and with --write writes them to the results of this name."""
    if not run_quietly([os.path.join(TOP, "tools", "dist.sh"), "current"])[0]:
        sys.exit("speed: dist/ was not made from these sources (tools/dist.sh make)")
    if sys.version_info < (3, 11):
        sys.exit("speed: Python 3.11 or later is needed, whose hashlib has file_digest")
    os.makedirs(OUT, exist_ok=True)
    parts = []
    for part in parts_of(options):
        print(part, flush=True)
        parts.append(part)
    if options.write:
        write_results(parts, name)


def main():
    options = parse_options(__doc__, 512, 6, ("long", "kernel", "short", "several", "parallel", "xof", "tree"))
    if options.build and options.write:
        sys.exit("speed: --write needs all builds")
    if options.write and not run_quietly(["/usr/bin/python3", "-c", "import matplotlib"])[0]:
        sys.exit("speed: --write draws a plot by matplotlib (python3-matplotlib)")
    if options.build:
        CPUS[:] = [f"x86-64-{options.build}"]
    run_benchmark(options, parts_of, "speed")


if __name__ == "__main__":
    main()
