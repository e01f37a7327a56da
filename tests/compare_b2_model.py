#!/usr/bin/env python3
"""Compares `b2` with tests/b2_model.py, which was written only from docs/SPECIFICATION.md, and the worked
values of that page with what that program, hashlib and the page say. The examples of docs/B2.md that run `./b2`
are cases too.

For each command it runs random cases from one seed: arguments in random order and case, arguments that are wrong,
missing or too many, arguments that are not UTF-8, inputs around every boundary, scripts with wrong lines and bad calls,
and an input that can't be read. Status and output have to be the same, and the usage follows on standard error only
after wrong words or digits. tests/oracle.py compares the model with hashlib.

Without --program it compares those of dist/ that this processor runs; all but the first, which are the same program
with older builds of the library, in a tenth of the cases. With --unicode it passes only Unicode, as Windows does, and
does not look at standard error.

usage: tests/compare_b2_model.py [--program PATH] [--cases N] [--unicode]
"""
import hashlib
import os
import random
import re
import shlex
import subprocess
import sys

import tap
from b2_model import B, S, Input, Place, block_entries, parameter_words, read_transcript, run_command
from b2sum_support import programs_to_test
from common import FAMILIES, KINDS, TOP, Parser, at_least
from common import read as read_file
from oracle import tree_root

sys.path.append(os.path.join(TOP, "tests", "conformance"))
from saved import state_with_counter  # noqa: E402

HUGE = bool(os.environ.get("VULFSJOR_TEST_HUGE"))
NOTES = re.compile(rb"(usage: b2 .*|b2: a command is missing|b2: the first argument is not a command)\n"
                   rb"Try 'b2 --help' for more information\.\n")
COMMANDS = ("sum", "steps", "script", "witness", "tree", "leaves", "root", "xof", "derive")


def block_size(kind):
    return FAMILIES["s" if kind.startswith(("s", "xs")) else "b"].block


class RandomCommands(random.Random):
    """Random words and inputs. There is a method for each of COMMANDS, which returns its words and its input."""

    def mostly_right(self, right, *wrong):
        """What is right, and sometimes one that is wrong."""
        return right if self.random() < 0.9 else self.choice(wrong)

    def message(self, block):
        """A message of a random length: small, or around a boundary of blocks."""
        return self.randbytes(self.choice([0, 1, self.randrange(9), block - 1, block, block + 1, 2 * block,
                                           self.randrange(4 * block)]))

    def random_hex(self, data, wrong=0.06):
        text = "".join(map(self.choice, zip(data.hex(), data.hex().upper()))) if self.random() < 0.2 else data.hex()
        return text if self.random() >= wrong else self.choice(
            [text + "0", text + "0g", text[1:], "-", " " + text, text + "\u00e9", "+" + text, "0x" + text])

    def random_text(self, length):
        return "".join(self.choices("az09=- \u00e9", k=length))

    def random_options(self, kind, *names):
        """Words in brackets, some of a length that is refused."""
        words = []
        for name in names:
            if self.random() < 0.5:
                most = {"key": 64, "salt": 16, "persona": 16}[name] * block_size(kind) // 128
                length = self.choice([0, 1, most, self.randint(0, most)]) + (self.random() < 0.04)
                if name == "persona" and self.random() < 0.3:
                    words.append("persona-text=" + self.random_text(length))
                else:
                    words.append(f"{name}={self.random_hex(self.randbytes(length))}")
        self.shuffle(words)
        return words

    def mutated_words(self, words):
        """Words of which some are gone, repeated, changed or too many; most of the time as they were."""
        words = list(words)
        while self.random() < 0.12:
            place = self.randrange(len(words) + 1)
            other = self.choice([*words, "", "foo", "key", "key=01", "salt=", "persona=00", "persona-text=", "=",
                                 "b512", "S256", "-", "61", "xs", "raw", "-h", "--help"])
            if self.random() < 0.4:
                words.insert(place, other)
            elif place < len(words):
                words[place:place + 1] = self.choice([[], [other], [words[place].upper()], [words[place] + "="]])
        words += ["5"] * self.mostly_right(0, 1, 9)
        given = [word.encode() for word in words]
        if given and self.random() < 0.02:
            given[self.randrange(len(given))] += self.choice([b"\xff", b"\xc3(", b"\xed\xa0\x80"])
        return given

    def joined_lines(self, lines, damages, end):
        """The text of these lines, one of which a function may damage, that ends its last line this often."""
        if lines and self.random() < 0.2:
            place = self.randrange(len(lines))
            lines[place] = self.choice(["", lines[place] + " ", lines[place] + "\r", " " + lines[place],
                                        *damages(lines[place])])
        return "\n".join(lines).encode() + b"\n" * (self.random() < end)

    def sum(self, command="sum"):
        kind = self.choice(list(KINDS))
        return [command, kind, *self.random_options(kind, "key", "salt", "persona")], self.message(block_size(kind))

    def steps(self):
        return self.sum("steps")

    def script(self):
        words, _ = self.sum("script")
        slots, found = [True], []
        for _ in range(self.randrange(25)):
            live = [slot for slot, is_live in enumerate(slots) if is_live]
            if not live and self.random() < 0.9:
                break
            slot = self.choice(live) if live and self.random() < 0.99 else self.randrange(len(slots) + 2)
            name, data = self.choice("uuuucrdf"), self.message(block_size(words[1]))
            found.append(f"{name} {slot}" + (f" {self.random_hex(data, 0.01) if data else '-'}" if name == "u" else ""))
            slots += [True] * (name == "c")
            if name == "f" and slot < len(slots):
                slots[slot] = False
        return words, self.joined_lines(found, lambda line: [
            line.replace(" ", "  "), "f 00", "u 0", "u 0 ", "f 1000000000", "f 999999999", "x 0", "c -1", "r 0 0"], 0.6)

    def witness(self):
        """Often of two messages with one digest."""
        kind = self.choice(["b0", "b8", "s0", "s8", *KINDS])
        block, function = block_size(kind), FAMILIES[kind[0]].function
        a = self.message(block)
        b = self.choice([a, a + b"\0", a[:-1], bytes(block) + a, self.message(block)])
        while kind in ("b8", "s8") and self.random() < 0.995:
            if a != b and function(a, digest_size=1).digest() == function(b, digest_size=1).digest():
                break
            b = self.randbytes(len(b)) if self.random() < 0.9 else a[:block] + self.message(block)
        return ["witness", kind, *(self.random_hex(message) if message else "-" for message in (a, b))], b""

    def random_leaf_length(self):
        """The length of a leaf, and a word for it that is sometimes refused."""
        leaf = self.choice([1, 2, 7, 64, 127, 128, 129, 300, 4294967295])
        return leaf, self.mostly_right(str(leaf), "0", "04", "4294967296", "-1", "+4", "4k", "", "99999999999",
                                       "\u0664",
                                 "12a")

    def random_message_for_leaves(self, leaf):
        return self.randbytes(min(leaf, 300) * self.randrange(11) + self.choice([0, 0, 1, self.randrange(9)]))

    def random_root_kind(self):
        """A KIND of `tree` and `root`, sometimes one that is refused."""
        return self.choice(["b128", "b256", "b512", "b512", self.choice(["s256", "b0"])])

    def tree(self):
        leaf, word = self.random_leaf_length()
        return ["tree", self.random_root_kind(), word,
                *self.random_options("b", "salt", "persona")], self.random_message_for_leaves(leaf)

    def leaves(self):
        """A part, most often of whole leaves, at an index up to and past the last one of a message of 2^58 bytes."""
        leaf, word = self.random_leaf_length()
        most = (2**58 - 1) // leaf
        first = self.choice([0, 0, 1, self.randrange(1000), 2**32, most - self.randrange(12), most, most + 1])
        first = self.mostly_right(str(first), "00", "01", "-1", "+1", "", "9" * 18, "9" * 19, "1" + "0" * 18, "\u0664",
                                  "1a")
        end = self.mostly_right(self.choice(["more", "last"]), "end", "", "MORE", "last=1")
        message = self.random_message_for_leaves(leaf)
        if end == "more" and self.random() < 0.7:
            message = message[:len(message) // leaf * leaf]
        return ["leaves", word, first, end, *self.random_options("b", "salt", "persona")], message

    def root(self):
        """Lines of digests, sometimes a wrong one."""
        found = [self.randbytes(64).hex() for _ in range(self.choice([0, 1, 1, 2, 3, self.randrange(20)]))]
        found = [line.upper() if self.random() < 0.1 else line for line in found]
        data = self.joined_lines(found, lambda line: [line[:-1], line[:-2], line + "00", line[:-1] + "g", line + line,
                                               line[:64] + "\n" + line[64:], "-"], 0.7)
        return ["root", self.random_root_kind(), self.random_leaf_length()[1],
                *self.random_options("b", "salt", "persona")], data

    def random_output_length(self, most):
        """A length of an output, as a word, sometimes one that is refused."""
        length = self.choice([1, 31, 32, 33, 63, 64, 65, 255, 256, 257, self.randint(1, 600)])
        return self.mostly_right(str(length), "0", "01", "-1", "+8", "8k", "", str(most), str(most + 1), "99999999999")

    def maybe_raw_word(self):
        """The word after which bytes are printed, or none."""
        return ["raw"] * (self.random() < 0.3)

    def xof(self):
        kind = self.choice(["xb", "xs", "xb", "xs", self.choice(["b512", "x", "XB"])])
        length = self.random_output_length(2**32 - 1 if kind == "xb" else 2**16 - 1)
        words = [*self.maybe_raw_word(), *self.random_options(kind, "key", "salt", "persona")]
        return ["xof", kind, length, *words], self.message(block_size(kind))

    def derive(self):
        context = self.random_text(self.choice([0, 1, 9, 127, 128, 129]))
        return (["derive", self.random_output_length(2**32 - 1), context, *self.maybe_raw_word()],
                self.randbytes(self.choice([1, 16, 32, 63, 64, 64, 65, 0, self.randint(1, 200)])))


def unreadable_input():
    """Represents an input whose reads fail."""
    raise IsADirectoryError


def has_right_notes(output, notes):
    """Whether the usage, or what is wrong with the command, follows wrong words and digits, and nothing else."""
    return bool(NOTES.fullmatch(notes)) if output in (b"b2: wrong words\n", b"b2: wrong hex\n") else not notes


def run_program(path, words, message, looks_at_notes=True):
    """The status and the output of the program, or what it wrote to standard error if that is wrong; None is an input
    whose reads fail."""
    folder = os.open(TOP, os.O_RDONLY)
    try:
        given = {"stdin": folder} if message is None else {"input": message}
        done = subprocess.run([path, *words], capture_output=True, **given)
    finally:
        os.close(folder)
    if looks_at_notes and not has_right_notes(done.stdout, done.stderr):
        return done.stderr
    return done.returncode, done.stdout


def model_output(words, message=b""):
    """The status and the text that the model prints, without the end of the last line."""
    status, text = run_command([word.encode() for word in words.split(" ")], lambda: message)
    return status, text.decode().removesuffix("\n")


def worked_examples():
    """The worked examples of the page: where each is, what the model has there, what that has to be, and the words of
    the page for it."""
    b, s = hashlib.blake2b(b"abc").hexdigest(), hashlib.blake2s(b"abc").hexdigest()
    yield "abc of BLAKE2b", model_output("sum b512", b"abc"), (0, b), b
    yield "abc of BLAKE2s", model_output("sum s256", b"abc"), (0, s), s
    key, persona = bytes(range(32)), b"personal"
    keyed = hashlib.blake2s(key=key, person=persona).hexdigest()
    yield "keyed", model_output(f"sum s256 key={key.hex()} persona={persona.hex()}"), (0, keyed), keyed
    yield ("words of a place, BLAKE2b", parameter_words(B, 64, Input(b"", place=Place(0, 2, 4096, 3, 0, 64))),
           [0x0000100002000040, 3, 0x4000, 0, 0, 0, 0, 0], "0000100002000040, 3, 4000 and five zeros")
    yield ("words of a place, BLAKE2s", parameter_words(S, 32, Input(b"", place=Place(2, 3, 7, 2**32 + 5, 1, 32))),
           [0x03020020, 7, 5, 0x20010001, 0, 0, 0, 0], "03020020, 7, 5, 20010001 and four zeros")
    yield ("counters", [entry[1] for entry in block_entries(B, Input(b"*" * 200, key=b"\1"))], [128, 256, 328],
           "the counters 128, 256, 328")
    first = int.from_bytes(bytes.fromhex(b)[:8], "little")
    yield "compression", None, None, f"the first word of the result is {first:016x}"
    for words, fault in (("sum b512 key= foo", "wrong words"), ("sum b512 salt=1 foo", "wrong hex"),
                         ("sum b512 key=", "wrong length")):
        yield f"fault of {words}", model_output(words), (2, f"b2: {fault}"), f"`{words}`"
    root = tree_root(b"abcde", 4).hex()
    yield "root", model_output("tree b512 4", b"abcde"), (0, root), root[:64]
    yield "root, second line", None, None, root[64:]
    starts = [line[:19] for line in model_output("witness b0 61 62")[1].split("\n")]
    yield "witness", starts, ["s 6a09e667f2bdc908 "] * 2, "6a09e667f2bdc908"
    yield ("script", model_output("script s256", b"u 0 6162\nc 0\nu 0 63\nf 0"), (0, s),
           "`u 0 6162`, `c 0`, `u 0 63`, `f 0`")
    saved = state_with_counter(S, 32, Input(b""), 0).after_message(b"abc").saved_bytes()
    yield "saved state", saved[72:86].hex(), "0000000000000000200300616263", saved[72:86].hex()
    yield "its digest", len(saved), 147, hashlib.blake2s(saved).hexdigest()
    words, listed = parameter_words(B, 64, Input(b"")), block_entries(B, Input(b"*" * 129))
    yield "the reader's words", words, [0x01010040] + [0] * 7, "0000000001010040 and seven zeros"
    yield "the reader takes", read_transcript(B, words, listed), (64, Input(b"*" * 129, None, bytes(16), bytes(16))), ""
    first, last = listed
    for name, other in (("a byte behind the data", [first, (b"*\1" + bytes(126), *last[1:])]),
                        ("a last counter of 127", [first, (last[0], 127, *last[2:])]),
                        ("a last counter of 128", [first, (last[0], 128, *last[2:])]),
                        ("two final flags", [(*first[:2], True, False), last])):
        yield f"the reader refuses {name}", read_transcript(B, words, other), None, ""


def examples_in_b2_page():
    """The words and the input of each example of docs/B2.md that runs `./b2`, and its line."""
    form = r"^    ((?:printf (\S+|'[^']*') \| )?\./b2 (?!--)([^#\n]*[a-z0-9]))  +#"
    found = re.findall(form, read_file("docs/B2.md"), re.M)
    if not found:
        yield "docs/B2.md: no example", [], b""
    for line, given, words in found:
        message = shlex.split(given)[0].encode().decode("unicode_escape").encode() if given else b""
        yield f"docs/B2.md: {line}", [word.encode() for word in shlex.split(words)], message


def compare_cases(path, dice, command, cases, unicode):
    """Runs these cases of a command, of which some have to succeed and some to fail."""
    wrong, statuses = [], set()
    for number in range(cases):
        words, message = getattr(dice, command)()
        words = dice.mutated_words(words)
        message = None if dice.random() < 0.02 else message
        if unicode and any(word != word.decode(errors="replace").encode() for word in words):
            continue
        wanted = run_command(words, unreadable_input if message is None else lambda: message)
        found = run_program(path, words, message, not unicode)
        if found != wanted:
            wrong.append(f"case {number}: b2 {words} over {message!r}\ngave {found}\nwanted {wanted}")
        statuses.add(wanted[0])
    tap.result(not wrong and len(statuses) > 1, f"{os.path.basename(path)}: {cases} cases of {command}",
               "\n".join(wrong))


def compare_worked_examples():
    """Compares the worked values of docs/SPECIFICATION.md."""
    page = " ".join(read_file("docs/SPECIFICATION.md").split())
    wrong = [f"{name}: {found}, and not {wanted} and {words!r}" for name, found, wanted, words in worked_examples()
             if found != wanted or words not in page]
    tap.result(not wrong, "the worked values of docs/SPECIFICATION.md", "\n".join(wrong))


def main():
    parser = Parser(description=__doc__.split("\n\n")[0])
    parser.add_argument("--program", help="the program")
    parser.add_argument("--cases", type=at_least(1), default=300 if HUGE else 80, help="how many runs of each command")
    parser.add_argument("--unicode", action="store_true", help="pass only Unicode, as Windows does")
    given = parser.parse_args()
    compare_worked_examples()
    with programs_to_test([given.program] if given.program else [], "b2") as built:
        for number, path in enumerate(built):
            for line, words, message in examples_in_b2_page():
                wanted = run_command(words, lambda: message)
                tap.result(wanted[0] == 0 and run_program(path, words, message, not given.unicode) == wanted, line)
            dice = RandomCommands(7693 + number)
            for command in COMMANDS:
                compare_cases(path, dice, command, given.cases // 10 if number else given.cases, given.unicode)
    tap.finish()


if __name__ == "__main__":
    main()
