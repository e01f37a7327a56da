#!/usr/bin/env python3
"""Times the program b2sum next to the one of coreutils and `b3sum`, over files in the page cache, in one run.

A table as Markdown on standard output, with the start of the program: the time by the clock and that of the processor
(user and system), each with its ratio to that of coreutils' `b2sum` over the same files (more than 1 is faster):

- one: a file of 1 GiB
- small: 10,000 files of 1,000 bytes, as arguments of one command, as are
- medium: 2,000 files of 300 kB, and
- folders: the files below /usr/include and /usr/share/doc of this machine, in the order of their names, or as many of
  the first as a command may have
- tree: the first file by `--tree 65536`, on one processor and on all. b3sum is another hash, made for this. It maps the
  file into memory, and with --no-mmap reads it and hashes in one thread.

With --write it goes into bench/results/sums.txt. The program is the one that ./b2sum builds from
dist/, so nothing is proved here. The digests are first compared with those of coreutils. Then the candidates are timed
in turns, and the best time of each counts, by the clock and of the processor. A program that is absent is left out.

usage: bench/sums.py [--mebibytes N] [--files N] [--turns N] [--program FILE] [--write]
"""
import contextlib
import os
import shutil
import subprocess
import sys
import tempfile
import time

import speed
from speed import OUT, TOP, Parser, at_least

PEER = "/usr/bin/b2sum"
ALL = len(os.sched_getaffinity(0))
FOLDERS = ("/usr/include", "/usr/share/doc")
MEDIUM_BYTES = 300_000


@contextlib.contextmanager
def limit_processors(count):
    """What is started meanwhile runs on this many processors."""
    allowed = os.sched_getaffinity(0)
    os.sched_setaffinity(0, sorted(allowed)[:count])
    yield
    os.sched_setaffinity(0, allowed)


def time_run(folder, words, count):
    """The nanoseconds of a run in this folder, on this many processors: by the clock, and of the processors."""
    with limit_processors(count):
        start = time.perf_counter_ns()
        process = subprocess.Popen(words, cwd=folder, stdin=subprocess.DEVNULL, stdout=subprocess.DEVNULL)
        _, status, used = os.wait4(process.pid, 0)
        taken = time.perf_counter_ns() - start
    process.returncode = os.waitstatus_to_exitcode(status)
    if process.returncode != 0:
        sys.exit(f"sums: {words[0]} failed")
    return taken, (used.ru_utime + used.ru_stime) * 1e9


def best_times(turns, runs):
    """The best times of each run, which a function returns: by the clock, and of the processors."""
    best = {}
    for _ in range(turns):
        for name, run in runs.items():
            taken = run()
            best[name] = tuple(map(min, taken, best.get(name, taken)))
    return best


def commands_by_input(program):
    """The commands by what they read and by their names."""
    threads, unmapped = ["b3sum", "--num-threads"], ["b3sum", "--no-mmap"]
    sums = {"`b2sum` (ours)": ([program], 1), "`b2sum` of coreutils": ([PEER], 1)}
    of_many = {**sums, "`b3sum`, 1 thread": ([*threads, "1"], 1)}
    return {
        "one": {**sums, "`b3sum --no-mmap`": (unmapped, 1)},
        "small": of_many,
        "medium": of_many,
        "folders": of_many,
        "tree": {"`b2sum --tree 65536`, 1 processor": ([program, "--tree", "65536"], 1),
                 f"`b2sum --tree 65536`, {ALL} processors": ([program, "--tree", "65536"], ALL),
                 "`b3sum --no-mmap`": (unmapped, ALL), "`b3sum`, 1 thread": ([*threads, "1"], 1),
                 f"`b3sum`, {ALL} threads": ([*threads, str(ALL)], ALL)},
    }


def make_random_files(folder, start, count, size):
    """Makes so many files of random bytes. Returns their names."""
    names = [f"{start}{i}" for i in range(count)]
    for name in names:
        with open(os.path.join(folder, name), "wb") as file:
            for at in range(0, size, 1 << 20):
                file.write(os.urandom(min(1 << 20, size - at)))
    return names


def readable_files_below_folders():
    """The regular files below the folders that can be read, as far as half of what a command may have."""
    paths, room = [], os.sysconf("SC_ARG_MAX") // 2
    for top in FOLDERS:
        for folder, folders, files in os.walk(top):
            folders.sort()
            paths += [path for path in (os.path.join(folder, name) for name in sorted(files))
                      if os.path.isfile(path) and not os.path.islink(path) and os.access(path, os.R_OK)]
    while sum(len(os.fsencode(path)) + 9 for path in paths) > room:
        del paths[-len(paths) // 8:]
    return paths


def named_workloads(folder, options):
    """What is read: for each its key, a title, and the names of the files, which are there until the next."""
    large = make_random_files(folder, "large", 1, options.mebibytes << 20)
    yield "one", f"a file of {options.mebibytes} MiB", large
    yield "small", f"{options.files} files of 1,000 bytes", make_random_files(folder, "small", options.files, 1000)
    medium = make_random_files(folder, "medium", max(options.files // 5, 1), MEDIUM_BYTES)
    yield "medium", f"{len(medium)} files of 300 kB", medium
    for name in medium:
        os.remove(os.path.join(folder, name))
    paths = readable_files_below_folders()
    if paths:
        megabytes = round(sum(map(os.path.getsize, paths)) / 1e6)
        yield "folders", f"{len(paths)} files of {' and '.join(FOLDERS)}, {megabytes} MB", paths
    yield "tree", "the same file", large


def output_of(folder, words):
    """What a command prints in this folder."""
    return subprocess.run(words, cwd=folder, check=True, stdin=subprocess.DEVNULL, stdout=subprocess.PIPE).stdout


def table_rows(program, folder, options):
    """The rows of the table."""
    for what, title, names in named_workloads(folder, options):
        found = commands_by_input(program)[what]
        if what != "tree" and output_of(folder, [program, *names]) != output_of(folder, [PEER, *names]):
            sys.exit("sums: the digests are not those of coreutils")
        best = best_times(options.turns, {
            name: lambda words=[*words, *names], count=count: time_run(folder, words, count)
            for name, (words, count) in found.items() if shutil.which(words[0])})
        base = best.get("`b2sum` of coreutils", best.get("`b2sum --tree 65536`, 1 processor"))
        for name, times in best.items():
            yield [title, name, *(cell for taken, other in zip(times, base)
                                  for cell in (f"{taken / 1e6:,.0f}", f"{other / taken:.2f}"))]


def main():
    parser = Parser(description=__doc__.split("\n\n")[0])
    parser.add_argument("--mebibytes", type=at_least(1), default=1024)
    parser.add_argument("--files", type=at_least(1), default=10000)
    parser.add_argument("--turns", type=at_least(1), default=10)
    parser.add_argument("--program", help="instead of the one that ./b2sum builds")
    parser.add_argument("--write", action="store_true", help="write it to bench/results/")
    options = parser.parse_args()
    os.makedirs(OUT, exist_ok=True)
    program = options.program and os.path.abspath(options.program) or os.path.join(OUT, "b2sum")
    if not options.program and not speed.run_quietly([os.path.join(TOP, "b2sum"), "--build", program])[0]:
        sys.exit("sums: ./b2sum --build failed")
    titles = ["read", "program", "ms", "ratio", "ms of the processor", "ratio"]
    table = speed.markdown_row(titles) + speed.markdown_row(["---"] * len(titles))
    with tempfile.TemporaryDirectory(dir="/dev/shm" if os.path.isdir("/dev/shm") else None) as folder:
        table += "".join(map(speed.markdown_row, table_rows(program, folder, options)))
    parts = [f"{speed.processor_and_cores()}; best of {options.turns}, by the clock and of the processor.\n",
             speed.with_load_line(table)]
    print("\n".join(parts), flush=True)
    if options.write:
        speed.write_results(parts, "sums")


main()
