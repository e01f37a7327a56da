"""Changes that must be seen. Of the code, where each must be refused: those of mutations.txt; random ones of each
function that compresses, in which an instruction becomes another of the same name, or is left out; and a branch of each
exported function, at its start, on a byte of a secret argument. Of the tool: lines that let it accept more, each of
which one of its own tests must see."""

import os
import random
import re
from typing import Any, Callable, Iterator, NamedTuple

import call_cases
import check_coverage
import check_instructions
import check_numbers
import check_paths
import compression
import constant_time
import functions
import program as programs
import symbolic
import taint
import terms as T
import whole_calls
from machine import joined

TABLE = os.path.join(os.path.dirname(os.path.abspath(__file__)), "mutations.txt")
FILES = {"v4": "dist/x86_64/vulfsjor-v4.s", "v3": "dist/x86_64/vulfsjor-v3.s", "v2": "dist/x86_64/vulfsjor-v2.s",
         "arm": "dist/aarch64/vulfsjor.s", "wasm": "dist/wasm/vulfsjor.wasm", "js": "js/src/wasm.js"}
ENTRIES = {name: getattr(functions, name.upper().replace(" ", "_")) for name in (
    "one b", "one s", "many b", "many s", "eight b", "each b", "each s", "stripes b", "stripes s")}
COUNT = 4                              # random changes of each function
# One that changes nothing, as (path, function, number): there is room for more on the stack than the check of it needs.
NEUTRAL = {("js/src/wasm_blake2s.js", "one s", 0)}
# What has no byte of the operand before it, whose change would change nothing.
ONE_OPERAND = re.compile(r"i8x16\.shuffle( (\d|1[0-5])){16}")
# What no random change is of: what has no other place, and whose change could change nothing.
FIXED = re.compile(r"rip|adrp|\bret|nop|call|[:<]|^\.|^(bl|end|block|loop|return|br|local.tee|drop)\b|\s\d+[bf]$")
COMMENT = re.compile(r"(#\s|//).*")
BRANCH = {"x86_64": "\tcmpb $7, (%%%s)\n\tje 99999f\n99999:\n",
          "aarch64": "\tldrb w9, [%s]\n\tcbz w9, 99999f\n99999:\n"}
REGISTERS = {"x86_64": "rdi rsi rdx rcx r8 r9".split(), "aarch64": ["x%d" % k for k in range(6)]}
# The arguments whose first byte is secret; each buffer has its length in the next register.
SECRET = (constant_time.STATE, constant_time.NODE, constant_time.OUT, constant_time.BYTES, constant_time.KEY)


class NoMatch(Exception):
    """The old instruction is not in the function as often as the table says."""


class CodeChange(NamedTuple):
    path: str
    function: str
    number: int
    old: str
    new: str
    is_first: bool = False             # of its group
    is_run: bool = False               # whether the text also differs when it is run

    def title(self) -> str:
        return "%s: %s, %s: %s => %s" % ("not called wrong" if self.is_correct_code() else "refused", self.path,
                                         self.function, self.old, self.new or "nothing")

    def is_correct_code(self) -> bool:
        return self.function.startswith("right ")

    def function_and_prover(self) -> tuple:
        """The function to change, and the function that shows what the change breaks, with its arguments."""
        what, _, rest = self.function.partition(" ")
        export, _, name = rest.partition(" ")
        if what == "scrub":
            scrub = functions.SCRUB_STACK + export
            return name or scrub, whole_calls.prove_scrub_stack, (scrub, int(export))
        if what == "file":
            return "", check_sections_and_calls, ()
        if what in ("call", "whole", "right"):
            export = call_cases.PREFIX + export
            return name or export, follow_export if what == "call" else call_cases.prove_some_cases, (export,)
        name, *entry = ENTRIES[self.function.removesuffix(" data")]
        name = functions.name_in_file(self.path, name)
        return name, compression.prove_compression, (name, *entry)

    def split_source(self, source: Any) -> tuple:
        """What precedes the lines to change, these, and what follows: of a function, of its constants, or of all."""
        name = self.function_and_prover()[0]
        if isinstance(source, dict) or not name:
            return "", source[name] if name else source.split("\n"), ""
        labels = re.finditer(r'%s_\d+_[a-z0-9]+"?:.*\n' % re.escape(name), source)
        first = next((m.end() for m in labels if re.fullmatch(r'[\n"]|', source[m.start() - 1:m.start()])), 0)
        if not first:
            raise NoMatch("there is no %s" % name)
        last = source.index("\n\t.size\t", first - 1) + 1
        if self.function.endswith(" data"):
            first, last = source.rfind("\n\t.size\t", 0, first) + 1, source.rfind("\n", 0, first - 1) + 1
        return source[:first], source[first:last].split("\n"), source[last:]

    def apply_to_source(self, source: Any) -> Any:
        """An assembly text, or the functions of a module, with the change."""
        before, lines, after = self.split_source(source)
        lines = self.apply_to_lines(lines)
        if isinstance(source, dict):
            return {**source, self.function_and_prover()[0]: lines}
        return before + "\n".join(lines) + after

    def apply_to_lines(self, lines: list) -> list:
        """The lines with the change at the match of its number, counted from 1."""
        clean, old = without_comments(lines), re.compile(self.old)
        exact = [k for k, text in enumerate(clean) if text == self.old]
        found = exact or [*filter(lambda k: old.fullmatch(clean[k]), range(len(clean)))]
        if len(found) < self.number:
            raise NoMatch("%r matches %d lines, fewer than %d" % (self.old, len(found), self.number))
        at = found[self.number - 1]
        # The labels of a file are numbers too, from 1 up.
        new = "; ".join(re.sub(r"(?<![\w$%\\])(\d)(f$|:)", r"9999\1\2", part) for part in self.new.split("; "))
        text = new if exact else re.sub(self.old, new, clean[at], count=1)
        if text == clean[at]:
            raise NoMatch("the change of %r changes nothing" % clean[at])
        return lines[:at] + [part for part in text.split("; ") if part] + lines[at + 1:]

    def check_is_refused(self) -> tuple:
        """Whether the change is refused as it must be: a verdict, and why."""
        name, show, arguments = self.function_and_prover()
        try:
            program, original = programs.Program(self.path, self.apply_to_source), programs.read(self.path)
            if show is compression.prove_compression and program.content_hash(name) == original.content_hash(name):
                return "not ok", "the proof of the old code would be taken for this one"
            show(program, *arguments)
        except NoMatch as e:
            return "not ok", "change this line of mutations.txt: %s" % e
        except programs.NotAssembled as e:
            return "not ok", "the assembler refuses the new instruction: %s" % e
        except T.ClaimNotShown as e:
            is_ok = not self.is_correct_code() or isinstance(e, T.CannotShow)
            return "ok" if is_ok else "not ok", "%s: %s" % (e.kind, e)
        return "ok" if self.is_correct_code() else "not ok", "the proof accepts the change"


def without_comments(lines: list) -> list:
    """Lines with single spaces, and without comments."""
    return [" ".join(COMMENT.sub("", line).split()) for line in lines]


def table_changes() -> list:
    found = []
    with open(TABLE) as f:
        for line in f:
            if not line.startswith(("#", "\n")):
                marks, rest = re.fullmatch(r"([+*]*) *(.*)\n", line).groups()    # type: ignore[union-attr]
                files, name, number, old, new = re.split(r" \|(?: |$)", rest, maxsplit=4)
                found += [CodeChange(FILES[file], name, int(number), old.strip(), new.strip(), "+" in marks and k == 0,
                                     "*" in marks) for k, file in enumerate(files.split())]
    return found


def check_changes_apply() -> tuple:
    """Whether each change of the table can be made: a verdict, and why."""
    rows = table_changes()
    for row in rows:
        try:
            row.apply_to_source(programs.editable_source(row.path))
        except (NoMatch, KeyError) as e:
            return "not ok", "%s: %s" % (row.title(), e)
    return "ok", "%d changes" % len(rows)


def check_unchanged_is_accepted() -> tuple:
    """Whether the calls whose changes are refused are accepted without them: a verdict, and how many there are."""
    targets = [(row.path, *row.function_and_prover()) for row in table_changes()]
    calls = {(path, arguments[0]) for path, _, show, arguments in targets if show is follow_export}
    for path, exported in sorted(calls):
        follow_export(programs.read(path), exported)
    return "ok", "%d calls" % len(calls)


def follow_export(program: programs.Program, exported: str) -> None:
    for entry in constant_time.exports(program):
        if entry[0] == exported:
            constant_time.follow_call_unless_unbounded(program, entry)


def check_sections_and_calls(program: programs.Program) -> None:
    """What is looked at in all of a file: sections, symbols, and which functions are called."""
    list(constant_time.exports(program))
    for name, _, _ in functions.FILES[program.path]:
        program.instructions_of(name)


def random_changes(path: str, function: str) -> Iterator[CodeChange]:
    """Changes of random instructions of a function: each becomes another of the same name, or is left out."""
    row, kind = CodeChange(path, function, 1, "", ""), functions.architecture(path)
    texts = without_comments(row.split_source(programs.editable_source(path))[1])
    names = {k: text.split()[0] for k, (text, next_text) in enumerate(zip(texts, texts[1:] + [""]))
             if text and not FIXED.search(text) and not ONE_OPERAND.fullmatch(next_text)}
    for seed in range(COUNT):
        rng = random.Random("%s %s %d" % (path, row.function_and_prover()[0], seed))
        others: set = set()
        while not others:
            name = rng.choice(sorted(set(names.values())))
            alike = [k for k in names if names[k] == name]
            k = rng.choice(alike)
            others = {""} if kind != "wasm" and seed % 2 else {texts[j] for j in alike} - {texts[k]}
        yield CodeChange(path, function, texts[:k + 1].count(texts[k]), texts[k], rng.choice(sorted(others)))


def check_random_are_refused(path: str, entry: tuple) -> tuple:
    """Whether random changes of a function that compresses are refused: a verdict, and why."""
    function, wrong = next(name for name in ENTRIES if ENTRIES[name] == entry), 0
    for k, row in enumerate(random_changes(path, function)):
        verdict, why = row.check_is_refused()
        if verdict != "ok" and (path, function, k) not in NEUTRAL:
            return verdict, "%d: %s: %s" % (k, row.title(), why)
        wrong += why.startswith("is wrong")
    return "ok", "%d changes, %d of them are wrong for known inputs" % (COUNT, wrong)


def check_branches_are_refused(path: str, k: int) -> tuple:
    """Whether a branch on argument k, where it is secret, is refused in taint tracking and in whole calls."""
    kind, count = functions.architecture(path), 0
    branch = BRANCH[kind] % REGISTERS[kind][k]
    program = programs.Program(path, lambda text: re.sub(
        r'^"?vulfsjor_ffi_\w+"?:.*\n', lambda m: m[0] + branch, text, flags=re.M))
    shown = call_cases.shown_names(program)
    for entry in constant_time.exports(program):
        places = joined([place, None] if place in constant_time.BUFFERS else [place] for place in entry[1])
        if not set(places[k:k + 1]) & set(SECRET):
            continue
        is_followed = path not in constant_time.NOT_FOLLOWED
        ways: list[tuple[Callable, tuple]] = [(constant_time.follow_call, entry)] * is_followed
        if entry[0] in shown and k == 0 and places[0] == constant_time.STATE:
            ways.append((call_cases.prove_some_cases, entry[:1]))
        for show, arguments in ways:
            try:
                show(program, *arguments)
                return "not ok", "%s may branch on argument %d" % (entry[0], k)
            except T.ClaimNotShown as e:
                if isinstance(e, T.CannotShow) or "secret" not in str(e):
                    return "not ok", "it is refused for another reason: %s" % e
                count += 1
    return "ok", "%d branches" % count


class PlantedFault(NamedTuple):
    """An attribute that gets a wrong value, made from the right one, and the test that must see it, or refuse."""

    title: str
    owner: Any
    name: str
    wrong: Callable
    test: Callable
    arguments: tuple = ()
    is_long: bool = False

    def check_is_seen(self) -> tuple:
        """Whether it is seen: a verdict, and why."""
        right = self.owner.__dict__[self.name]
        setattr(self.owner, self.name, self.wrong(right))
        try:
            verdict, why, *_ = self.test(*self.arguments)
        except T.IsWrong as e:
            verdict, why = "not ok", str(e)
        finally:
            setattr(self.owner, self.name, right)
            T.reset()
        return ("ok", why) if verdict == "not ok" else ("not ok", "nothing has seen it")


ARM, V3 = FILES["arm"], FILES["v3"]
_Taint, _X86, S = constant_time.TaintState, programs.x86.X86, check_paths.S
PLANTED = (
    PlantedFault("an operation that forgets secrets", _Taint, "byte_depending_on", lambda _: (
        lambda self, data: taint.UNKNOWN_BYTE), check_instructions.check_model_agrees, (ARM, "T", 2), True),
    PlantedFault("a carry that inc sets", _X86, "add_and_keep_carry", lambda _: (
        lambda self, i, to: self.compute_and_write("other", lambda a, _: a + programs.x86.KEEP_CARRY[i.name], to,
                                                   programs.x86.ONE)),
                 check_instructions.check_model_agrees, (V3, "T", 6), True),
    PlantedFault("a sum whose range is that of one of two paths that meet", _Taint, "learn_joined_range",
                 lambda right: (lambda self, m, _, visits, *words: right(self, m, m, visits, *words[:2], words[1])),
                 check_numbers.check_taint_ranges, (200,)),
    PlantedFault("a range that begins between two steps", taint, "align_range_to_step", lambda _: (
        lambda low, high, start, step: (low, high, step)), check_numbers.check_taint_ranges, (200,)),
    PlantedFault("a test of the models that leaves out a form", check_instructions, "choose_instructions",
                 lambda right: (lambda *arguments: (
                     right(*arguments)[0], [t for t in right(*arguments)[1] if not t[0].startswith("usra")])),
                 check_instructions.check_model_agrees, (ARM, "W", 1), True),
    PlantedFault("a specification without the flag of the last block", S, "digest", lambda _: (
        lambda a, kind, s: a.compress(kind, s.chain, s.pending, s.counter + s.pending_length, 0, 0)),
                 check_paths.check_specified_digests, (1,)),
    PlantedFault("a specification that accepts too long an output", S, "length_conditions", lambda right: (
        lambda kind, size, *rest: [((size,), 1, kind.w + 1)] + right(kind, size, *rest)[1:]),
                 lambda: call_cases.Cases(programs.read(V3), "blake2s").prove_export("_init_key")),
    PlantedFault("a copy of a variable length that chooses the wrong bytes", symbolic, "choose_if_below", lambda _: (
        lambda machine, j, n, a, b: symbolic.byte_chosen_if_below(j, n, b, a)),
                 lambda: call_cases.Cases(programs.read(ARM), "blake2s").prove_export("_final")),
    PlantedFault("cases of refused calls only for numbers below their bounds", call_cases, "out_of_bounds_conditions",
                 lambda right: (lambda *condition: right(*condition)[:1]),
                 check_coverage.check_cases_are_all_calls, ("blake2s",)),
)
