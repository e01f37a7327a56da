#!/usr/bin/env python3
"""Tests tools/wasm_to_c.py and tools/wasm_to_rust.py: random functions of all their instructions do in C, on several
processors, and in Rust what node does with the module; and what they do not know, they refuse. With VULFSJOR_TEST_HUGE
there are more functions, compilers and processors.

    tests/translator.py [SEED COUNT]

Needs node and a C compiler. Other processors need their compiler and emulator, and Rust needs rustc, or what RUSTC is.
"""
import os
import re
import shutil
import subprocess
import sys
import tempfile

import tap
from common import TOP

FOLDER = os.path.join(TOP, "tests", "translator")
sys.path.append(FOLDER)
import functions  # noqa: E402
import wasm_to_c  # noqa: E402
import wasm_to_rust  # noqa: E402
from wasm_format import MORE, PLAIN, UnreadableModule  # noqa: E402
from wasm_values import UntranslatableModule  # noqa: E402

HUGE = bool(os.environ.get("VULFSJOR_TEST_HUGE"))
# The compilers, with words, and what runs their programs: those of the short form, of which one optimizes, and the
# others.
TARGETS = {"clang with sanitizers": (["clang", "-O0", "-fsanitize=address,undefined", "-fno-sanitize-recover=all"], []),
           "cc -O1, an unknown order of bytes": (["cc", "-O1", "-U__BYTE_ORDER__"], []),
           "s390x": (["s390x-linux-gnu-gcc", "-O0", "-static"], ["qemu-s390x"])}
MORE_TARGETS = {processor: ([f"{compiler}-gcc", "-O2", "-static"], [emulator]) for processor, compiler, emulator in (
    ("riscv64", "riscv64-linux-gnu", "qemu-riscv64"), ("i386", "i686-linux-gnu", "qemu-i386"),
    ("armhf", "arm-linux-gnueabihf", "qemu-arm"), ("ppc64el", "powerpc64le-linux-gnu", "qemu-ppc64le"))}
MORE_TARGETS |= {"cc -O2": (["cc", "-O2"], []), "clang -O1": (["clang", "-O1"], [])}
IN_C = ["-std=c99", "-w", "-I.", "main.c", "v.c"]
# Sums that are too long for their type would panic in Rust with these words.
RUSTC = [os.environ.get("RUSTC", "rustc"), "-C", f"opt-level={int(HUGE)}", "-C", "debug-assertions=on",
         "-A", "warnings", "--edition=2021", "main.rs"]
INPUTS = [(0, 0), (1, 2**64 - 1), (0x0123456789abcdef, 0xfedcba9876543210), (1 << 63, 1 << 31),
          (0x7fffffff80000000, 0xff80), (0x9e3779b97f4a7c15, 0xbf58476d1ce4e5b9), (33, 0x94d049bb133111eb)]
C_TYPES = {"i64": "uint64_t", "i32": "uint32_t"}
HARNESS = """
#include "vulfsjor.h"
#include <stdio.h>
static const uint64_t in[][2] = {%s};
static void show(unsigned long long result, const unsigned char *buffer) {
    int i;
    printf("%%llx ", result);
    for (i = 0; i < 64; i++) printf("%%02x", buffer[i]);
    puts("");
}
#define RUN(call) for (i = 0; i < (int)(sizeof in / sizeof *in); i++) { \\
    for (k = 0; k < 64; k++) buffer[k] = (unsigned char)(k * 37 + 11); \\
    call; }
int main(void) {
    unsigned char buffer[64];
    int i, k;
%s    return 0;
}
"""
RUST = """
#[path = "v.rs"]
mod portable;
static IN: &[(u64, u64)] = &[%s];
fn run(call: impl Fn(*mut u8, u64, u64) -> u64) {
    for &(a, b) in IN {
        let mut buffer: Vec<u8> = (0..64_usize).map(|k| (k * 37 + 11) as u8).collect();
        let result = call(buffer.as_mut_ptr(), a, b);
        println!("{:x} {}", result, buffer.iter().map(|byte| format!("{:02x}", byte)).collect::<String>());
    }
}
fn main() {
%s}
"""
SCRIPT = """
import { readFileSync } from "fs";
const { exports: e } = (await WebAssembly.instantiate(readFileSync("m.wasm"))).instance;
const bytes = new Uint8Array(e.memory.buffer), lines = [];
for (const [k, bits] of [%s].entries()) for (const [a, b] of [%s]) {
  for (let i = 0; i < 64; i++) bytes[1024 + i] = i * 37 + 11;
  const r = BigInt.asUintN(bits, BigInt(e["vulfsjor_ffi_t" + k](1024n, a, b) ?? 0));
  lines.push(r.toString(16) + " " + Buffer.from(bytes.slice(1024, 1088)).toString("hex"));
}
console.log(lines.join("\\n"));
"""
# All instructions that a function may have.
HAS_ALL = {known.partition(" ")[0] for known in (*PLAIN.values(), *MORE.values()) if not re.search(
    r"^f|^if|else|nop|br_table|c[lt]z|popcnt|(div|rem)_s|init", known)}


def header_with_prototypes(results):
    """A header with the prototypes of these functions."""
    lines = [f"{C_TYPES[each[0]] if each else 'void'} vulfsjor_ffi_t{k}(uint8_t *a, uint64_t b, uint64_t c);"
             for k, each in enumerate(results)]
    return "\n".join(['#include <stdint.h>', '#define VULFSJOR_VERSION_NUMBER 789', *lines, ""])


class ModuleCase:
    """A module of random functions, in a folder with a program in C that calls each, and what node returns."""

    def __init__(self, folder, seed, count):
        self.folder = folder
        self.data, results, self.lines = functions.random_module(seed, count)
        self.header = header_with_prototypes(results)
        self.write("m.wasm", self.data)
        self.write("vulfsjor.h", self.header.encode())
        call = "vulfsjor_ffi_t{}(buffer, in[i][0], in[i][1])".format
        calls = (f"    RUN({f'show({call(k)}, buffer)' if each else f'{call(k)}; show(0, buffer)'})\n"
                 for k, each in enumerate(results))
        self.write("main.c", (HARNESS % (", ".join(f"{{UINT64_C({a}), UINT64_C({b})}}" for a, b in INPUTS),
                                         "".join(calls))).encode())
        calls = (f"    run(|p, a, b| unsafe {{ portable::t{k}(p, a, b){' as u64' if each else '; 0'} }});\n"
                 for k, each in enumerate(results))
        self.write("main.rs", (RUST % (", ".join(f"({a}, {b})" for a, b in INPUTS), "".join(calls))).encode())
        self.write("run.mjs", (SCRIPT % (", ".join("32" if each == ["i32"] else "64" for each in results), ", ".join(
            f"[{a}n, {b}n]" for a, b in INPUTS))).encode())
        self.wanted = self.output_or_error(["node", "--experimental-wasm-memory64", "--no-warnings", "run.mjs"])

    def write(self, name, data):
        with open(os.path.join(self.folder, name), "wb") as file:
            file.write(data)

    def output_or_error(self, words):
        """What a command prints, or why it fails."""
        done = subprocess.run(words, cwd=self.folder, capture_output=True, text=True, check=False,
                              timeout=20 if words[-1] == "./run" else 600)
        return done.stdout if not done.returncode else f"{words[0]}: {done.returncode} {done.stderr[-3000:]}"

    def translate(self):
        for name, translator in (("v.c", wasm_to_c), ("v.rs", wasm_to_rust)):
            self.write(name, str(translator.Program(self.data, self.header)).encode())

    def run(self, compiler, emulator):
        return self.output_or_error([*compiler, "-o", "run"]) or self.output_or_error([*emulator, "./run"])

    def first_differing_function(self, got):
        """The first function whose result is another than node's, or nothing."""
        pairs = list(zip(self.wanted.splitlines(), got.splitlines()))
        bad = [k for k, (a, b) in enumerate(pairs) if a != b]
        if not bad and got == self.wanted:
            return ""
        return f"t{bad[0] // len(INPUTS)}: {pairs[bad[0]]}" if bad else f"ends early: {got[-2000:]}"


def what_is_missing(tool, *emulator):
    """What is missing of a compiler, its C library and an emulator, or ''. Debian's compilers for other processors
    only recommend the library."""
    missing = [each for each in (tool, *emulator) if not shutil.which(each)]
    if missing or not tool.endswith("gcc"):
        return f"no {missing[0]}" if missing else ""
    done = subprocess.run([tool, "-E", "-include", "stdlib.h", "-x", "c", os.devnull], capture_output=True, check=False)
    return f"no C library for {tool}" if done.returncode else ""


def test_results_on_each_processor(case, name):
    """The functions on each processor whose compiler is there."""
    targets = {target: ([*compiler, *IN_C], emulator)
               for target, (compiler, emulator) in {**TARGETS, **(MORE_TARGETS if HUGE else {})}.items()}
    for target, (compiler, emulator) in {**targets, "in Rust": (RUSTC, [])}.items():
        missing = what_is_missing(compiler[0], *emulator)
        why = "" if missing else case.first_differing_function(case.run(compiler, emulator))
        tap.result(not why, f"{name}, {target}", why, missing)


# ---- what is refused

def module_of_one_function(text, results=("i64",), more=b"", names=("vulfsjor_ffi_t0",), exports=None):
    made = [(name, ["i64"] * 3, list(results), ["i64", "i64", "i32"], [*text.split("; "), "end"]) for name in names]
    return functions.encoded_module(made, exports or {names[0]: 0}, more)


RETURN = "local.get 1"
LOWER = "global.get 0; i64.const 32; i64.sub"
TAKE = f"{LOWER}; local.tee 3; global.set 0"
GIVE = "local.get 3; i64.const 32; i64.add; global.set 0; local.get 1"
ALIGNED = "global.get 0; local.tee 4; i64.const 32; i64.sub; i64.const -32; i64.and; local.tee 3; global.set 0"
RUNTIME = {"__rattle_leave": "i32.const 0; global.set 1; unreachable",
           "__rattle_trap": "i32.const 0; drop; unreachable", "a::settle::<=16>": "nop",
           "a::scrub_stack::<=16>": "nop", "__rattle_enter": "i32.const 0"}
# Modules with something before, after or instead of the parts of one that is translated.
REFUSED = {
    "an import": module_of_one_function(RETURN, more=functions.encoded_section(2, b"\x00")),
    "a table": module_of_one_function(RETURN, more=functions.encoded_section(4, b"\x01\x70\x00\x00")),
    "a start": module_of_one_function(RETURN) + functions.encoded_section(8, b"\0"),
    "data": module_of_one_function(RETURN) + functions.encoded_section(11, b"\x01\0\x42\x10\x0b\x01x"),
    "a memory of 32 bits": module_of_one_function(RETURN).replace(b"\x05\x03\x01\x04\x02", b"\x05\x03\x01\x00\x02"),
    "another export": module_of_one_function(RETURN).replace(b"\x06memory\x02\0", b"\x06memorx\x02\0"),
    "another function than the header's": module_of_one_function(RETURN, exports={"vulfsjor_ffi_t1": 0}),
    "a function that the header lacks": module_of_one_function(RETURN,
                                                               exports={"vulfsjor_ffi_t0": 0, "vulfsjor_ffi_t1": 0}),
    "other globals": module_of_one_function(RETURN).replace(b"\x7f\x01\x41\0\x0b", b"\x7f\x01\x41\1\x0b"),
    "two names that are one in C": module_of_one_function(
        f"{RETURN}; local.get 0; local.get 1; local.get 2; call 1; local.get 0; "
                                       "local.get 1; local.get 2; call 2; drop; drop",
                                       names=("vulfsjor_ffi_t0", "a::b", "a:b")),
    **{f"another {name}": functions.encoded_module(
        [("vulfsjor_ffi_t0", ["i64"] * 3, ["i64"], [], [RETURN, "end"]),
         (name, [], ["i32"] if name == "__rattle_enter" else [], ["i64"], [*text.split("; "), "end"])],
        {"vulfsjor_ffi_t0": 0}) for name, text in RUNTIME.items()},
    **{text: module_of_one_function(text) for text in (
        f"local.get 5; if; end; {RETURN}", "block i64; local.get 1; end",  # blocks and branches
        "local.get 1; local.get 5; br_if 0", "local.get 1; br 0", f"block; local.get 5; br_table 1 0 0; end; {RETURN}",
        f"local.get 1; {RETURN}",  # operands that are left over
        "local.get 1; local.get 2; i64.div_s", "local.get 1; local.get 2; i64.rem_s",  # operators
        "local.get 1; i64.clz", "local.get 1; i64.ctz", "local.get 1; i64.popcnt",
        f"local.get 0; f64.load 0; drop; {RETURN}",
        f"i32.const 0; global.set 1; {RETURN}", "global.get 2", f"{TAKE}; global.get 2; drop; {GIVE}",  # globals
        # The stack pointer: from somewhere or memory, left lower, or after a branch or a loop that changes it.
        f"local.get 0; global.set 0; {RETURN}", f"{TAKE}; local.get 0; i64.load 0; global.set 0; {RETURN}",
        f"{TAKE}; local.get 3; i64.const 16; i64.add; global.set 0; {RETURN}",
        f"{LOWER}; local.set 3; block; local.get 5; br_if 0; local.get 1; local.set 3; end; local.get 3; global.set 0; "
        f"{RETURN}",
        f"{LOWER}; local.set 3; loop; local.get 3; global.set 0; local.get 1; local.set 3; local.get 5; br_if 0; end; "
        f"{RETURN}",
        # Its part of the stack: of 24 bytes, of an unknown length, two of them, or another alignment.
        f"{TAKE}; {GIVE}".replace("32", "24"), f"global.get 0; local.get 1; i64.sub; global.set 0; {RETURN}",
        f"{TAKE}; local.get 3; i64.const 16; i64.sub; global.set 0; {GIVE}",
        f"{TAKE}; global.get 0; i64.const 64; i64.sub; drop; {GIVE}",
        f"{LOWER}; i64.const -8; i64.and; local.tee 3; global.set 0; {RETURN}",
        f"{LOWER}; i64.const -128; i64.and; local.tee 3; global.set 0; {RETURN}",
        # Accesses above and below it.
        f"{TAKE}; local.get 3; i64.const 8; i64.sub; local.get 1; i64.store 0; {GIVE}",
        f"{TAKE}; local.get 3; local.get 1; i64.store 25; {GIVE}", f"{TAKE}; local.get 3; i64.load8_u 32; drop; {GIVE}",
        "global.get 0; i64.load 0", f"{ALIGNED}; local.get 3; local.get 1; i64.store 25; {RETURN}",
        f"{ALIGNED}; local.get 3; i64.const 8; i64.sub; local.get 1; i64.store 0; {RETURN}",
        f"{ALIGNED}; local.get 4; i64.const 40; i64.sub; local.get 1; i64.store 0; {RETURN}")},
}
# What is like some of these, and is translated.
ACCEPTED = {
    "data of no bytes": module_of_one_function(RETURN) + functions.encoded_section(11, b"\x01\0\x42\x10\x0b\0"),
    **{text: module_of_one_function(text) for text in (
        RETURN, f"{TAKE}; {GIVE}", f"{TAKE}; local.get 3; local.get 1; i64.store 24; {GIVE}",
        f"{TAKE}; local.get 3; i64.const 32; i64.add; i64.const -8; i64.add; local.get 1; i64.store 0; {GIVE}",
        f"{LOWER}; local.set 3; local.get 3; local.get 1; local.set 3; global.set 0; {RETURN}",
        f"{ALIGNED}; local.get 3; local.get 1; i64.store 24; local.get 4; global.set 0; {RETURN}",
        f"{LOWER}; local.set 3; block; local.get 5; br_if 0; local.get 3; local.set 3; end; local.get 3; global.set 0; "
        f"{RETURN}")},
}


def refusal_of_module(data):
    """Why a module is refused, or nothing."""
    try:
        str(wasm_to_c.Program(data, header_with_prototypes([["i64"]])))
    except (UntranslatableModule, UnreadableModule) as why:
        return str(why) or "refused"
    return ""


def main():
    seed, count = map(int, sys.argv[1:3]) if len(sys.argv) == 3 else (1, 300 if HUGE else 40)
    wrong = [name for name, data in REFUSED.items() if not refusal_of_module(data)]
    wrong += [f"{name}: {refusal_of_module(data)}" for name, data in ACCEPTED.items() if refusal_of_module(data)]
    tap.result(not wrong, f"{len(REFUSED)} modules are refused, and {len(ACCEPTED)} like them are not",
               "\n".join(wrong))
    if not shutil.which("node") or not shutil.which("cc"):
        tap.result(True, "random functions next to node", skipped="no node or no cc")
        tap.finish()
    with tempfile.TemporaryDirectory() as folder:
        case = ModuleCase(folder, seed, count)
        used = {line.split()[0] for lines in case.lines for line in lines}
        tap.result(used >= HAS_ALL, f"{count} random functions have each instruction", HAS_ALL - used)
        tap.result(len(case.wanted.splitlines()) == len(INPUTS) * count, "node calls each of them", case.wanted)
        case.translate()
        test_results_on_each_processor(case, f"{len(INPUTS) * count} calls of random functions next to node")
    tap.finish()


if __name__ == "__main__":
    main()
