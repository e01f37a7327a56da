#!/usr/bin/env python3
"""Measures the library in portable C next to plain C by the same compiler, and next to the portable code of libsodium.

The table, as Markdown on standard output, goes with --write into bench/results/portable.txt. All functions of a row are
compiled by one compiler with -O2 and timed in turns, by the processor's time, and the best of seven counts. plain.c is
BLAKE2 as RFC 7693 writes it (bench/plain/plain.c). Before that, their digests are compared.

SODIUM is the folder of libsodium's source, such as `apt-get source libsodium` leaves; without it there is no such
column.

usage: bench/portable.py [--mib N] [--sodium SODIUM] [--write]
"""
import argparse
import os
import shutil
import subprocess
import sys
import tempfile

HERE = os.path.dirname(os.path.abspath(__file__))
TOP = os.path.dirname(HERE)
COMPILERS = "gcc", "clang"
ROWS = (("b", 1 << 20, "BLAKE2b-512, 1 MiB", "MB/s"), ("s", 1 << 20, "BLAKE2s-256, 1 MiB", "MB/s"),
        ("b", 64, "BLAKE2b-512, 64 bytes", "ns"), ("s", 64, "BLAKE2s-256, 64 bytes", "ns"))


def output_of(*words):
    """What a command prints."""
    return subprocess.run(words, check=True, capture_output=True, text=True).stdout


def measure_speeds(compiler, sodium, mib):
    """The numbers by name, family and length."""
    with tempfile.TemporaryDirectory() as room:
        objects = []

        def compile_source(source, *words):
            objects.append(os.path.join(room, f"{len(objects)}.o"))
            output_of(compiler, "-O2", "-w", "-c", *words, source, "-o", objects[-1])

        compile_source(os.path.join(TOP, "dist/c/vulfsjor.c"), "-I" + os.path.join(TOP, "c/include"))
        for words in (["-DWIDE"], []):
            compile_source(os.path.join(HERE, "plain/plain.c"), *words)
        compile_source(os.path.join(HERE, "portable.c"), "-I" + os.path.join(TOP, "c/include"),
                 "-I" + os.path.join(HERE, "plain"), *["-DSODIUM"] * bool(sodium))
        if sodium:
            folder = os.path.join(sodium, "src/libsodium")
            words = ["-DCONFIGURED=1", f"-DNATIVE_{sys.byteorder.upper()}_ENDIAN=1",
                     *("-I" + os.path.join(folder, name) for name in ("include/sodium", "include"))]
            for name in ("blake2b-ref.c", "blake2b-compress-ref.c"):
                compile_source(os.path.join(folder, "crypto_generichash/blake2b/ref", name), *words)
        program = os.path.join(room, "portable")
        output_of(compiler, *objects, "-o", program)
        lines = output_of(program, str(mib)).split("\n")
    return {(name, family, int(length)): float(number)
            for name, family, length, number in (line.split() for line in lines if line)}


def markdown_table(sodium, mib):
    """The table."""
    with open("/proc/cpuinfo", encoding="utf-8") as file:
        model = next((line.partition(":")[2].strip() for line in file if line.startswith("model name")), "unknown")
    lines = [f"{model}, -O2.", "",
             "| in C | compiler | portable C | plain C | ratio | libsodium's portable C | ratio |",
             "|---|---|---|---|---|---|---|"]
    for compiler in COMPILERS:
        if not shutil.which(compiler):
            print(f"portable.py: there is no {compiler}", file=sys.stderr)
            continue
        numbers = measure_speeds(compiler, sodium, mib)
        version = output_of(compiler, "--version").split("\n", maxsplit=1)[0]
        for family, length, name, unit in ROWS:
            ours, *others = (numbers.get((each, family, length)) for each in ("ours", "plain", "sodium"))
            cells = [f"{ours:.0f} {unit}"]
            for other in others:
                ratio = other and (ours / other if unit == "MB/s" else other / ours)
                cells += [f"{other:.0f} {unit}", f"{ratio:.2f}"] if other else ["", ""]
            lines.append(f"| {name} | {version} | {' | '.join(cells)} |")
    return "\n".join(lines) + "\n"


def main():
    """Prints the table, or writes it."""
    parser = argparse.ArgumentParser(usage=__doc__.rpartition("usage: ")[2])
    parser.add_argument("--mib", type=int, default=64)
    parser.add_argument("--sodium")
    parser.add_argument("--write", action="store_true")
    given = parser.parse_args()
    text = markdown_table(given.sodium, given.mib)
    print(text, end="")
    if given.write:
        with open(os.path.join(HERE, "results", "portable.txt"), "w", encoding="utf-8") as file:
            file.write(text)


if __name__ == "__main__":
    main()
