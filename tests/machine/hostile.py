"""Runs functions of a text on the processor, for ARM in qemu. hostile.S calls each, and says what it overwrites."""

import os
import re
import struct
import subprocess
import tempfile
from typing import Any, cast

import program as programs

SOURCES = [os.path.join(os.path.dirname(os.path.abspath(__file__)), "hostile." + end) for end in "cS"]
# Of the block of hostile.c: its start, the bytes that overwrite, the memory of a call, and the stack below.
HEADER, ARGUMENTS, JUNK, ROOM, DEEP = "<QQQQQ16x12Q360x", 12, 2048, 10752, 16384
ARENA = struct.calcsize(HEADER) + JUNK
SIZE = ARENA + ROOM + DEEP
OPTIONS = ["-O1", "-ffreestanding", "-mgeneral-regs-only", "-fno-stack-protector", "-nostdlib", "-static", "-no-pie",
           "-DROOM=%d" % ROOM, "-DDEEP=%d" % DEEP]


class UnusableNumbers(Exception):
    """The numbers that were made up are not those of the case, or too large."""


class Crash(Exception):
    """The program has ended."""


class HostileProgram:
    """A program of a text and hostile.S, whose functions can be called."""

    def __init__(self, path: str, text: str, *options: str) -> None:
        compiler, prefix, _ = programs.TOOLS[programs.functions.architecture(path)]
        self.folder = tempfile.TemporaryDirectory()            # until this is not used any more
        s, self.exe = (os.path.join(self.folder.name, "a" + suffix) for suffix in (".s", ""))
        with open(s, "w") as f:
            f.write(text)
        subprocess.run([*compiler, *OPTIONS, "-o", self.exe, s, *SOURCES, *options], check=True)
        names = subprocess.run([prefix + "nm", self.exe], check=True, stdout=subprocess.PIPE, text=True).stdout
        self.addresses = {programs.without_version(m[2]): int(m[1], 16) for m in re.finditer(
            r"^(\w+) \w (.*)$", names, re.M)}
        self.is_arm, self.process = bool(prefix), cast(Any, None)
        with open("/proc/cpuinfo") as f:
            self.masks = int("avx512bw" in f.read())
        self.prepare_call(bytes(JUNK), 0, 0)

    def prepare_call(self, junk: bytes, leaves: int, tag: int) -> None:
        """Begins a call with no memory yet. It overwrites by `junk`."""
        self.junk, self.leaves, self.tag, self.memory = junk, leaves, tag, b""

    def place_in_memory(self, data: bytes) -> int:
        """Where some bytes are in the memory of the call."""
        at = len(self.memory) + -len(self.memory) % 8
        self.memory = self.memory.ljust(at, b"\0") + data
        if len(self.memory) > ROOM:
            raise UnusableNumbers
        return at

    def write(self, at: int, data: bytes) -> None:
        self.memory = self.memory[:at] + data + self.memory[at + len(data):]

    def address(self, at: int) -> int:
        return self.addresses["block"] + ARENA + at | self.tag

    def call(self, name: str, numbers: list) -> int:
        if self.process is None:
            self.process = subprocess.Popen(["qemu-aarch64"] * self.is_arm + [self.exe], stdin=subprocess.PIPE,
                                            stdout=subprocess.PIPE, stderr=subprocess.DEVNULL)
        header = struct.pack(HEADER, self.addresses[name], self.masks, self.leaves, 0, 0,
                             *numbers + [0] * (ARGUMENTS - len(numbers)))
        try:
            self.process.stdin.write((header + self.junk + self.memory).ljust(SIZE, b"\0"))
            self.process.stdin.flush()
            found = self.process.stdout.read(SIZE)
        except BrokenPipeError:
            found = b""
        if len(found) < SIZE:
            self.close()
            raise Crash
        _, _, _, result, is_other, *_ = struct.unpack_from(HEADER, found)
        self.is_other = bool(is_other)         # a register, the stack pointer or the direction is not as before
        self.memory, self.below = found[ARENA:ARENA + len(self.memory)], found[-DEEP:]
        return result

    def close(self) -> None:
        if self.process:
            self.process.kill()
            self.process.communicate()
            self.process = None
