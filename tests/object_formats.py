#!/usr/bin/env python3
"""Assembles each text of dist/ for Linux, macOS and Windows: each function has the same instructions there, the objects
call only what they may, and linkers for these systems accept them. What tests/machine reads is, byte for byte, what the
assembler makes of the text. vulfsjor.S has the functions of its texts, with the same code.

Without VULFSJOR_TEST_HUGE vulfsjor.S, which says nothing of systems, is assembled for Linux only, and so are texts
whose macros another has too. Needs clang, llvm-objdump and llvm-nm, and ld64.lld and lld-link.
"""
import os
import re
import shutil
import subprocess
import sys
import tempfile

import tap
from common import TOP

sys.path.insert(0, os.path.join(TOP, "tests", "machine"))
import elf as elf_format  # pylint: disable=wrong-import-position

DIST = os.path.join(TOP, "dist")
HUGE = bool(os.environ.get("VULFSJOR_TEST_HUGE"))
SYSTEMS = {"linux": "linux-gnu", "macos": "apple-macos11", "windows": "pc-windows-msvc"}
TEXTS = {"x86_64": ["vulfsjor-v2", "vulfsjor-v3", "vulfsjor-v4", "b2", "b2sum"], "aarch64": ["vulfsjor", "b2", "b2sum"]}
# What the programs call on Windows instead of functions of the C library for Linux.
ON_WINDOWS = {"read": "b2_read", "write": "b2_write", "__write": "b2_write", "__sysv_signal": "b2_signal"}
# The texts that are assembled for each system without VULFSJOR_TEST_HUGE: one of the library, and the longer program.
FOR_EACH_SYSTEM = ("vulfsjor-v3", "vulfsjor", "b2sum")
TOOLS = ("clang", "llvm-objdump", "llvm-nm")
PADDING = ("nop", "data16", "cs\t", "cs nop", "xchgw\t%ax, %ax", "int3", "udf")
COMMENT, TARGET = re.compile(r"\s*(##|# |//|;).*"), re.compile(r"(0x)?[0-9a-f]+ <.*>")
RIP = re.compile(r"-?(0x)?[0-9a-f]*\(%rip\)")


def output_of_command(*words, stdin=None):
    return subprocess.run(words, stdin=stdin, capture_output=True, text=True, check=True).stdout


def symbol_names_of_object(path, *kinds):
    return {line.split()[-1] for line in output_of_command("llvm-nm", *kinds, path).splitlines()}


def code_by_function(path):
    """The bytes of an object's functions, each of which has a section in ELF, by their names."""
    sections = elf_format.Elf(path).sections
    return {it.name.removeprefix(".text."): it.data for it in sections if it.flags & elf_format.EXECUTABLE and it.data}


def function_names_of_object(path):
    """The names of an object's functions."""
    names = re.findall(r"(?m)^\w+ [tT] _?(\S+)$", output_of_command("llvm-nm", "--defined-only", path))
    return {name for name in names if not re.match(r"vj_sysv_|[.lL]", name)}


def instructions_by_function(path, arch):
    """The instructions of each function of an object, by its name, except what labels and relocations decide."""
    # LLVM's assembler has a separate label where a section of Mach-O begins.
    first = next((line.split()[-1] for line in output_of_command("llvm-nm", "-n", path).splitlines()
                  if re.match(r"0{16} t \w*[^\W\dlL]", line, re.I) and not re.search(r" [lL]\w*$", line)), "")
    found, body = {}, []
    words = ("llvm-objdump", f"--triple={arch}-linux-gnu", "-dr", "--no-show-raw-insn", path)
    for line in output_of_command(*words).splitlines():
        if line.startswith(" "):
            text = line.partition("\t")[2]
            # Each look for a character first: there are a million lines.
            if "#" in text or ";" in text or "/" in text:
                text = COMMENT.sub("", text)
            if ">" in text:
                text = TARGET.sub("TARGET", text)
            if "%rip" in text:
                text = RIP.sub("PLACE", text)
            if text and not text.startswith(PADDING):
                body.append(text)
        elif line.startswith("\t\t"):
            if body and "[" in body[-1]:
                body[-1] = re.sub(r"\[(\w+).*", r"[\1 PLACE", body[-1])
            elif body and body[-1].startswith(("add\t", "adrp\t")):
                body[-1] = body[-1].rsplit(",", 1)[0] + ", PLACE"
        elif line.endswith(">:"):
            name = line[line.index("<") + 1:-2]
            name = first if name == "ltmp0" else name
            body = body if name[0] in "lL." else found.setdefault(name.removeprefix("_"), [])
    return {name: body for name, body in found.items() if not name.startswith("vj_sysv_")}


def assemble_text(path, arch, system, made):
    words = [] if path.endswith(".S") else ["-include", os.path.join(DIST, "macros.h"),
                                            "-x", "assembler-with-cpp"]
    output_of_command("clang", f"--target={arch}-{SYSTEMS[system]}", *words, "-c", path, "-o", made)
    return made


def is_assembled_to_same_bytes(path, arch, room, elf):
    """Whether the text that tests/machine reads is assembled to the same bytes as this object."""
    read = os.path.join(room, "read.s")
    with open(read, "w", encoding="utf-8") as to:
        to.write(elf_format.expanded(path, arch))
    output_of_command("clang", f"--target={arch}-{SYSTEMS['linux']}", "-c", read, "-o", f"{read}.o")
    with open(f"{read}.o", "rb") as ours, open(elf, "rb") as theirs:
        return ours.read() == theirs.read()


def claims_on_object(name, arch, system, made, elf, of_linux):
    """The statements about the object of a text for a system, by their words, each with what else was found. `elf` has
    the functions of that for Linux, and `of_linux` what it calls."""
    found = instructions_by_function(made, arch)
    same = [it for it in elf if elf[it] == found.get(it)]
    yield (f"{len(same)} of {len(elf)} functions have the instructions of those for Linux",
           len(same) == len(elf) == len(found) > 40 and sum(map(len, elf.values())) > 8000,
           sorted(elf.keys() - set(same))[:5])
    called = {re.sub("^_", "", it) if system == "macos" else it for it in symbol_names_of_object(made, "-u")}
    wanted = {ON_WINDOWS.get(it, it) if system == "windows" else it for it in of_linux}
    yield "it calls what the one for Linux calls, which tests/assembly.py knows", called == wanted, called ^ wanted
    link = f"{made}.linked"
    mac_linker = next(filter(None, map(shutil.which, ("ld64.lld", "ld64.lld-14"))), None)
    if system == "macos" and mac_linker:
        output_of_command(mac_linker, "-arch", arch.replace("aarch64", "arm64"), "-platform_version", "macos", "11",
                          "11", "-dylib",
            "-undefined", "dynamic_lookup", made, "-o", link)
        yield "ld64.lld links it, and exports nothing", not symbol_names_of_object(link, "-gU", "--extern-only"), ""
    elif system == "windows" and shutil.which("lld-link"):
        output_of_command("lld-link", "/dll", "/noentry", "/nodefaultlib", "/force:unresolved", f"/out:{link}", made)
        yield "lld-link links it", os.path.getsize(link) > 50000, ""


def report_text_results(path, arch, name, room):
    """Prints the results of a text, and returns the code of its functions."""
    made = assemble_text(path, arch, "linux", os.path.join(room, "elf.o"))
    systems = ("macos", "windows") if HUGE or name in FOR_EACH_SYSTEM else ()
    elf, of_linux = instructions_by_function(made, arch) if systems else {}, symbol_names_of_object(made, "-u")
    code = code_by_function(made)
    tap.result(is_assembled_to_same_bytes(path, arch, room, made),
               f"{arch}/{name}.s: tests/machine reads what the assembler makes of it")
    for system in systems:
        made = assemble_text(path, arch, system, os.path.join(room, f"{arch}-{name}-{system}.o"))
        for words, holds, why in claims_on_object(name, arch, system, made, elf, of_linux):
            tap.result(holds, f"{arch}/{name}.s on {system}: {words}", str(why))
    return code


def main():
    missing = [tool for tool in TOOLS if not shutil.which(tool)]
    if missing:
        tap.result(True, "the objects for Linux, macOS and Windows", skipped=f"no {', '.join(missing)}")
        tap.finish()
    with tempfile.TemporaryDirectory() as room:
        for arch, names in TEXTS.items():
            found = {}
            for name in names:
                of_file = found.setdefault(name.partition("-")[0], {})
                of_file.update(report_text_results(os.path.join(DIST, arch, f"{name}.s"), arch, name, room))
            for system in SYSTEMS if HUGE else ("linux",):
                made = assemble_text(os.path.join(DIST, "vulfsjor.S"), arch, system, os.path.join(room, "all.o"))
                wanted = found["vulfsjor"]
                tap.result(code_by_function(made) == wanted if system == "linux"
                           else function_names_of_object(made) == {*wanted},
                           f"vulfsjor.S on {system}, {arch}: it has the functions of its texts, and no others")
    tap.finish()


main()
