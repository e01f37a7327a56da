#!/usr/bin/env python3
"""Times roots of trees by several threads, in memory and over a file in the page cache, in one run.

Two tables, as Markdown on standard output, in 10^9 bytes a second by the clock, by 1, 2 and 4 threads:

- memory: vulfsjor_tree_root_threads, and its ratio to vulfsjor_tree_root, which is one call in one thread.
- file: vulfsjor_tree_root_file next to `b2sum --tree` and `b3sum`, and, with one thread, `b2 tree` and `b2sum`. A
  program is timed with its start.

With --write both go into bench/results/threads.txt. Each root is first compared with hashlib's. Then the candidates of
a table are timed in turns, and the best time of each counts. Leaves have 64 KiB.

usage: bench/threads.py [--mebibytes N] [--turns N] [--write]
"""
import ctypes
import functools
import os
import re
import shutil
import subprocess
import sys
import time

import speed
from speed import OUT, TOP, ResultColumn, report_progress

sys.path.insert(0, os.path.join(TOP, "tests"))
from oracle import tree_root  # noqa: E402

THREADS = (1, 2, 4)
LEAF = 65536
SIZE = 64  # bytes of a root


def root_function(library, name, *types):
    """The function of this name: from its arguments between the output and the leaf length to the root. One that
    starts no threads ignores their number."""
    function = getattr(library, name)
    function.argtypes = [ctypes.c_char_p, ctypes.c_size_t, *types, *[ctypes.c_char_p, ctypes.c_size_t] * 2,
                         ctypes.c_uint32, ctypes.c_uint]
    out = ctypes.create_string_buffer(SIZE)

    def root_of(*given, threads=0):
        if function(out, SIZE, *given, b"", 0, b"", 0, LEAF, threads):
            sys.exit(f"threads: {name} failed")
        return out.raw
    return root_of


def installed_library_folder():
    """The folder where c/install.sh has put the library."""
    folder = os.path.join(OUT, "installed")
    good, output = speed.run_quietly([os.path.join(TOP, "c", "install.sh"), folder])
    if not good:
        sys.exit("threads: the library was not installed: " + output)
    return folder


def root_functions_of_library(folder):
    """The functions over the library that is installed in this folder, by their names in C."""
    words = ["-I" + os.path.join(folder, "include"), os.path.join(TOP, "c", "threads.c"),
             os.path.join(folder, "lib", "libvulfsjor.a"), "-pthread"]
    path = speed.compile_shared_library("threads.so", words)
    if path is None:
        sys.exit("threads: a C compiler (cc) is needed")
    one = ctypes.CDLL(os.path.join(folder, "lib", "libvulfsjor.so"))
    several = ctypes.CDLL(path)
    memory = [ctypes.c_void_p, ctypes.c_size_t]
    return {"vulfsjor_tree_root": root_function(one, "vulfsjor_ffi_tree_root", *memory),
            "vulfsjor_tree_root_threads": root_function(several, "vulfsjor_tree_root_threads", *memory),
            "vulfsjor_tree_root_file": root_function(several, "vulfsjor_tree_root_file", ctypes.c_char_p)}


def call_timer(call, wanted=None):
    """A function that returns the nanoseconds of one call by the clock. Its result is compared first."""
    if wanted is not None and call() != wanted:
        sys.exit("threads: a root is not the one of hashlib")

    def timer():
        start = time.perf_counter_ns()
        call()
        return time.perf_counter_ns() - start
    return timer


def first_word_of_output(command, path=None):
    """The first word that a program prints, with the file as its standard input if there is a path."""
    with open(path or os.devnull, "rb") as file:
        return subprocess.run(command, stdin=file, stdout=subprocess.PIPE, check=True, text=True).stdout.split()[0]


def thread_table(corner, length, best, base):
    """The best times of the pairs of name and number of threads as a Markdown table, with ratios to one of them."""
    return speed.markdown_table(corner, [
        ResultColumn(f"{threads} thread{'s' * (threads > 1)}, GB/s",
               {name: taken for (name, n), taken in best.items() if n == threads},
               speed.speed_text(length), (base, best[base, 1])) for threads in THREADS])


def memory_table(found, message, wanted, turns):
    """The table of roots in memory."""
    place = (ctypes.addressof(ctypes.c_char.from_buffer(message)), len(message))
    one, several = found["vulfsjor_tree_root"], found["vulfsjor_tree_root_threads"]
    timers = {("`vulfsjor_tree_root`", 1): call_timer(lambda: one(*place), wanted)}
    for threads in THREADS:
        timers["`vulfsjor_tree_root_threads`", threads] = call_timer(
            functools.partial(several, *place, threads=threads), wanted)
    return thread_table(f"{len(message) >> 20} MiB in memory", len(message), speed.best_time_of_each(turns, timers),
                 "`vulfsjor_tree_root`")


def build_dist_program(name):
    """The program of this name, built from dist/."""
    program = os.path.join(OUT, name)
    if not speed.run_quietly([os.path.join(TOP, name), "--build", program])[0]:
        sys.exit(f"threads: ./{name} --build failed")
    return program


def file_table(found, path, length, wanted, turns):
    """The table of roots and digests of a file."""
    command = [build_dist_program("b2"), "tree", "b512", str(LEAF)]
    sums = [build_dist_program("b2sum"), "--no-names", "--tree", str(LEAF), path, "--threads"]
    timers = {("`b2 tree`", 1): call_timer(lambda: first_word_of_output(command, path), wanted.hex())}
    for threads in THREADS:
        by_threads = functools.partial(found["vulfsjor_tree_root_file"], os.fsencode(path), threads=threads)
        timers["`vulfsjor_tree_root_file`", threads] = call_timer(by_threads, wanted)
        words = [*sums, str(threads)]
        timers["`b2sum --tree`", threads] = call_timer(lambda words=words: first_word_of_output(words), wanted.hex())
        if shutil.which("b3sum"):
            words = ["b3sum", "--num-threads", str(threads), path]
            timers["`b3sum`", threads] = call_timer(lambda words=words: first_word_of_output(words))
    if not shutil.which("b3sum"):
        report_progress("b3sum is absent")
    if shutil.which("b2sum"):
        timers["`b2sum`", 1] = call_timer(lambda: first_word_of_output(["b2sum", path]))
    return thread_table(f"a file of {length >> 20} MiB", length, speed.best_time_of_each(turns, timers), "`b2 tree`")


def heading(options):
    """The machine, the versions of the peers, and how often each candidate is timed."""
    found = re.search(r"b3sum (\S+)", speed.run_quietly(["b3sum", "--version"])[1])
    peers = f"b3sum {found[1]}; " if found else ""
    return f"{speed.processor_and_cores()}; {peers}leaves of 64 KiB; best of {options.turns}, by the clock.\n"


def parts_of(options):
    """The heading and the tables, each once it is measured."""
    found = root_functions_of_library(installed_library_folder())
    with speed.random_temporary_file(options.mebibytes) as file:
        length = options.mebibytes << 20
        message = bytearray(length)
        file.seek(0)
        file.readinto(message)
        report_progress("comparing with hashlib")
        wanted = tree_root(message, LEAF, SIZE)
        yield heading(options)
        yield speed.with_load_line(memory_table(found, message, wanted, options.turns))
        path = f"/proc/{os.getpid()}/fd/{file.fileno()}"
        yield speed.with_load_line(file_table(found, path, length, wanted, options.turns))


def main():
    speed.run_benchmark(speed.parse_options(__doc__, 1024, 10), parts_of, "threads")


if __name__ == "__main__":
    main()
