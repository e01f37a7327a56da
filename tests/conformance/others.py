#!/usr/bin/env python3
"""Runs the conformance cases of README.md over other implementations of BLAKE2, and prints the table of others.txt.

    tests/conformance/others.py FOLDER           with the cases that write.py wrote to FOLDER
    tests/conformance/others.py --check FOLDER   ends with status 1 if others.txt has another row
    tests/conformance/others.py --libb2 FILE FOLDER    only libb2's functions, of this shared library
    tests/conformance/others.py --b2 PROGRAM FOLDER    only the program b2

They are Python's `hashlib`, libb2 by ctypes, and Go's golang.org/x/crypto by others.go. One that is absent is left out.
A case ends at the first call that an implementation does not have, or not with these arguments, and is then not counted
as run.
"""
import collections
import ctypes
import ctypes.util
import functools
import hashlib
import os
import re
import shutil
import subprocess
import sys

from model import NODE, UNKNOWN, hash_letter_of_name, parse_bytes
from common import FAMILIES, KINDS, Parser

HERE = os.path.dirname(os.path.abspath(__file__))


class UnsupportedCall(Exception):
    """A call that the implementation does not have, or not with these arguments."""


class RefusedCall(Exception):
    """A call that the implementation refuses."""


class EndedState(Exception):
    """A call of a state that has ended."""


def parse_number(word):
    if word in ("none", "unknown"):
        raise UnsupportedCall(word)
    return int(word)


def hex_digits(word):
    """The digits of BYTES."""
    if word == "none":
        raise UnsupportedCall("null")
    return parse_bytes(word).hex()


class ImplementationDriver:
    """States by their slots. No call ends them: they are forgotten."""

    def __init__(self, name):
        self.name, self.states = name, {}

    def wipe(self, slot):
        self.states[slot] = None

    def live_state(self, slot):
        if self.states.get(slot) is None:
            raise EndedState
        return self.states[slot]

    def new(self, slot, _, **words):
        self.states[slot] = None
        self.states[slot] = self.new_hash_state(words)

    def digest(self, slot):
        value = self.final(self.live_state(slot))
        self.states[slot] = None
        return value


class Hashlib(ImplementationDriver):
    hashes = ("blake2b", "blake2s")

    def new_hash_state(self, words, message=b""):
        if words.get("key") == "-":
            raise UnsupportedCall("an empty key, which is none")
        names = {"size": "digest_size", **NODE}
        given = {names.get(word, word): parse_bytes(value) if word in ("key", "salt", "person") else parse_number(value)
                 for word, value in words.items()}
        try:
            return getattr(hashlib, self.name)(message, **given)
        except (ValueError, OverflowError, TypeError) as error:
            raise RefusedCall from error

    def update(self, slot, message):
        try:
            self.live_state(slot).update(parse_bytes(message))
        except TypeError as error:
            raise RefusedCall from error

    def copy(self, slot, other):
        self.states[other] = self.live_state(slot).copy()

    def final(self, state):
        return state.hexdigest()

    def hash(self, _, message, **words):
        return self.new_hash_state(words, parse_bytes(message)).hexdigest()


def aligned_libb2_state(data=b""):
    """Room for a state of libb2, at a multiple of 64."""
    room = ctypes.create_string_buffer((1 << 14) + 64)
    state = (ctypes.c_char * (1 << 14)).from_buffer(room, -ctypes.addressof(room) % 64)
    state.raw = data.ljust(1 << 14, b"\0")
    return state


class Libb2(ImplementationDriver):
    """The four sequential and parallel functions of libb2. A state has its length of the digest with it."""

    hashes = ("blake2b", "blake2s", "blake2bp", "blake2sp")
    library = ctypes.util.find_library("b2") and ctypes.CDLL(ctypes.util.find_library("b2"))

    def __init__(self, name):
        super().__init__(name)
        self.most, self.salt = (64, 16) if name[6] == "b" else (32, 8)

    def call(self, name, *given):
        given = (ctypes.c_size_t(it) if isinstance(it, int) else it for it in given)
        if getattr(self.library, self.name + name)(*given):
            raise RefusedCall

    @staticmethod
    def text(word):
        data = parse_bytes(word)
        if data is None:
            raise UnsupportedCall("null pointers, at which it may end the program")
        return data, len(data)

    def new_hash_state(self, words):
        size, state = parse_number(words.pop("size", str(self.most))), aligned_libb2_state()
        if not -1 < size < 1 << 64:
            raise UnsupportedCall("no number of C")
        key = words.pop("key", None)
        if key is None and words:
            self.call("_init_param", state, self.parameter_block(size, words))
        elif words:
            raise UnsupportedCall("a key with other parameters")
        elif key is None:
            self.call("_init", state, size)
        else:
            self.call("_init_key", state, size, *self.text(key))
        return state, size

    def parameter_block(self, size, words):
        """A parameter block, which the caller makes."""
        texts = {name: parse_bytes(words.pop(name, "-")) for name in ("salt", "person")}
        named = {"fanout": 1, "depth": 1, "leaf": 0, "offset": 0, "node": 0, "inner": 0, "last": 0}
        named |= {name: parse_number(word) for name, word in words.items()}
        widths = {"fanout": 1, "depth": 1, "leaf": 4, "offset": 8 if self.most == 64 else 6, "node": 1, "inner": 1}
        if "p" in self.name or named["last"] or any(text is None or len(text) > self.salt for text in texts.values()):
            raise UnsupportedCall("no field of the parameter block")
        try:
            block = bytes([size, 0]) + b"".join(
                named[name].to_bytes(width, "little") for name, width in widths.items())
        except (OverflowError, ValueError) as error:
            raise UnsupportedCall("no field of the parameter block") from error
        return block.ljust(2 * self.salt, b"\0") + b"".join(text.ljust(self.salt, b"\0") for text in texts.values())

    def update(self, slot, message):
        self.call("_update", self.live_state(slot)[0], *self.text(message))

    def skip(self, slot, count):
        """A state has two words of counter behind its eight chaining words."""
        state, width = self.live_state(slot)[0], self.most // 8
        state[8 * width:10 * width] = int(count).to_bytes(2 * width, "little")

    def copy(self, slot, other):
        state, size = self.live_state(slot)
        self.states[other] = aligned_libb2_state(state.raw), size

    def final(self, made):
        out = ctypes.create_string_buffer(made[1])
        self.call("_final", made[0], out, made[1])
        return out.raw.hex()

    def hash(self, _, message, **words):
        size, key = parse_number(words.pop("size", str(self.most))), words.pop("key", None)
        if words or not -1 < size < 1 << 32:
            raise UnsupportedCall("salts and tree parameters")
        if key == "-":
            raise UnsupportedCall("an empty key, which is none in one call")
        out = ctypes.create_string_buffer(max(size, 1))
        (data, length), (key, key_length) = self.text(message), (None, 0) if key is None else self.text(key)
        self.call("", out, data, key, size, length, key_length)
        return out.raw[:size].hex()


class Go(ImplementationDriver):
    """golang.org/x/crypto, by a program that makes the calls which it reads. A state is its number there."""

    hashes = ("blake2b", "blake2s", "blake2xb", "blake2xs")
    settings = {"GO111MODULE": "off", "GOFLAGS": "", "GOPATH": "/usr/share/gocode"}

    @classmethod
    @functools.cache
    def process(cls):
        return subprocess.Popen(["go", "run", os.path.join(HERE, "others.go")], stdin=subprocess.PIPE,
                                stdout=subprocess.PIPE, text=True, env={**os.environ, **cls.settings})

    def call(self, *words):
        print(*words, file=self.process().stdin, flush=True)
        mark, _, result = self.process().stdout.readline().rstrip("\n").partition(" ")
        if result == "unexpected EOF":
            raise UnsupportedCall("reads past the end, which return what is left")
        if mark != "=":
            raise RefusedCall
        return result

    def new_hash_state(self, words):
        if not set(words) <= {"size", "key"}:
            raise UnsupportedCall("salts and tree parameters")
        if words.get("key") == "-":
            raise UnsupportedCall("an empty key, which is none")
        key, family = hex_digits(words.get("key", "-")), hash_letter_of_name(self.name)
        size = words.get("size", "unknown" if "x" in self.name else str(FAMILIES[family].key))
        if "x" in self.name:
            if size != "unknown" and not 0 < parse_number(size) <= UNKNOWN[family]:
                raise UnsupportedCall("no length of Go, or 0, which says that it is not known")
        elif parse_number(size) >= 1 << 63 or self.name == "blake2s" and size != "32" and (size != "16" or not key):
            raise UnsupportedCall("no int of Go, or another size of BLAKE2s than 32")
        return self.call("new", self.name, size.replace("unknown", "0"), key)

    def update(self, slot, message):
        data = hex_digits(message)
        self.call("write", self.live_state(slot), data)

    def final(self, state):
        return self.call("sum", state)

    def read(self, slot, count):
        if int(count) > 1 << 20:
            raise UnsupportedCall("a read of this length")
        return self.call("read", self.live_state(slot), count)

    def reset(self, slot):
        self.call("reset", self.live_state(slot))

    def hash(self, _, message, **words):
        data, state = hex_digits(message), self.new_hash_state(words)
        self.call("write", state, data)
        if "x" not in self.name:
            return self.final(state)
        if int(words["size"]) > 1 << 20:
            raise UnsupportedCall("an output of this length in one call")
        return self.call("read", state, words["size"])


class B2Program(ImplementationDriver):
    """The program `b2`: a digest in one call by `sum`, and states by `script`, which has one key, salt and
    personalization, and prints only what it has if it refuses no line. So it is run again over all lines so far at each
    digest, and at each call of a state that has ended. Each state is a copy of the first slot."""

    hashes = ("blake2b", "blake2s")
    path = None

    def __init__(self, name):
        super().__init__(name)
        self.words, self.lines, self.said = None, [], ""
        self.states, self.live = {"first": 0}, [True]  # the numbers of slots, and whether each can be used

    def arguments(self, words):
        family, names = self.name[6], {"key": "key", "salt": "salt", "person": "persona"}
        size = words.pop("size", str(FAMILIES[family].key))
        kind = f"{family}{size.isdigit() and 8 * int(size)}"
        if kind not in KINDS or not set(words) <= set(names):
            raise UnsupportedCall("arguments")
        given = [f"{names[name]}={hex_digits(word)}" for name, word in words.items()]
        if any(len(word) > 2000 for word in given):
            raise UnsupportedCall("an argument that a system may refuse")
        return [kind, *given]

    def run(self, words, message, refusal):
        """What a run prints; `refusal` is what it prints if it refuses the call."""
        done = subprocess.run([self.path, *words], input=message, stdout=subprocess.PIPE, stderr=subprocess.DEVNULL)
        if (done.returncode, done.stdout) == (2, f"b2: {refusal}\n".encode()):
            raise RefusedCall
        return done.stdout.decode() if not done.returncode else f"status {done.returncode}"

    def script(self):
        """The next line that the script prints for all lines so far. One that is refused is taken back."""
        text = "\n".join(self.lines).encode()
        try:
            said = self.run(["script", *self.words], text, f"line {len(self.lines)}: no such slot")
        except RefusedCall:
            self.lines.pop()
            raise
        found, self.said = said.removeprefix(self.said), said
        return found.removesuffix("\n")

    def line(self, letter, slot, more=""):
        """Adds a line of a slot, which has to be refused if that has ended. Returns what the script prints for it."""
        place = self.live_state(slot)
        self.lines.append(f"{letter} {place}{more}")
        has_ended, self.live[place] = not self.live[place], self.live[place] and letter != "f"
        return self.script() if has_ended or letter == "f" else None

    def new(self, slot, _, **words):
        self.wipe(slot)
        given = self.arguments(words)
        if self.words is None:
            self.run(["script", *given], b"", "wrong length")
            self.words = given
        if given != self.words:
            raise UnsupportedCall("other arguments")
        self.copy("first", slot)

    def copy(self, slot, other):
        said = self.line("c", slot)
        self.states[other] = len(self.live)
        self.live.append(True)
        return said

    def update(self, slot, message):
        return self.line("u", slot, f" {hex_digits(message) or '-'}")

    def reset(self, slot):
        return self.line("r", slot)

    def digest(self, slot):
        return self.line("f", slot)

    def verify(self, slot, tag):
        return "yes" if self.line("f", slot) == hex_digits(tag) else "no"

    def hash(self, _, message, **words):
        data = bytes.fromhex(hex_digits(message))
        return self.run(["sum", *self.arguments(words)], data, "wrong length").removesuffix("\n")


def outcome_of_call(driver, call):
    verb, *words = call.split()
    method = getattr(driver, verb, None)
    if method is None:
        raise UnsupportedCall(verb)
    named = dict(word.split("=") for word in words if "=" in word)
    try:
        value = method(*(word for word in words if "=" not in word), **named)
    except (RefusedCall, EndedState):
        return "!"
    return "" if value is None else f"= {value or '-'}"


def run_cases(kind, name, path):
    """How many cases were run, and the others and the wrong ones by what ended them."""
    ran, lacks, wrong = 0, collections.Counter(), collections.Counter()
    with open(path, encoding="ascii") as file:
        cases = re.split(r"^case ", file.read(), flags=re.M)[1:]
    for case in cases:
        title, *lines = (line for line in case.split("\n") if line and line[0] != "#")
        driver = kind(name)
        try:
            for line in lines:
                call, wanted = (re.split(r" (?=[=!] )", line) + [""])[:2]
                if call.startswith(("count ", "left ")):
                    continue
                got = outcome_of_call(driver, call)
                if got != ("!" if wanted.startswith("!") else wanted):
                    wrong[title.split(".")[1]] += 1
                    print(f"{title}: {line[:120]}\n  gives {got[:100]!r}", file=sys.stderr)
                    break
            ran += 1
        except UnsupportedCall as absent:
            lacks[str(absent)] += 1
    return ran, lacks, wrong


def format_counts(counts):
    return ", ".join(f"{count} {name}" for name, count in counts.most_common()) or "none"


def result_table_rows(folder, kinds):
    """The rows of the table. On standard error: at what the other cases end."""
    for title, kind in kinds:
        if kind is Libb2 and not Libb2.library or kind is Go and not shutil.which("go"):
            print(f"{title} is absent", file=sys.stderr)
            continue
        for name in kind.hashes:
            ran, lacks, wrong = run_cases(kind, name, os.path.join(folder, f"{name}.txt"))
            print(f"{title}, {name}: not run: {format_counts(lacks)}", file=sys.stderr)
            yield f"| {title} | {name} | {ran} of {ran + sum(lacks.values())} | {format_counts(wrong)} |"


def main():
    parser = Parser(description=__doc__.split("\n\n")[0])
    parser.add_argument("--check", action="store_true", help="compare the rows with those of others.txt")
    parser.add_argument("--libb2", metavar="FILE", help="run only libb2's functions, of this shared library")
    parser.add_argument("--b2", metavar="PROGRAM", help="run only b2, this program")
    parser.add_argument("folder")
    chosen = parser.parse_args()
    kinds = (("hashlib", Hashlib), ("libb2", Libb2), ("Go", Go))
    if chosen.libb2:  # whose states may be others
        Libb2.library, Libb2.skip, kinds = ctypes.CDLL(chosen.libb2), None, kinds[1:2]
    if chosen.b2:
        B2Program.path, kinds = os.path.abspath(chosen.b2), (("b2", B2Program),)
    with open(os.path.join(HERE, "others.txt"), encoding="utf-8") as file:
        table = file.read()
    status = 0
    for row in result_table_rows(chosen.folder, kinds):
        if not chosen.check or row not in table:
            print(row)
            status = int(chosen.check)
    return status


if __name__ == "__main__":
    sys.exit(main())
