"""Shows, by the solver Z3, that the cases of a call are together all calls: whatever numbers the arguments and the
state have, one of the cases has them. Pointers are to as much memory as the header says; nothing else is assumed. It
reads the arguments and the memory that a case passes, not how call_cases.py came to them."""

from functools import cached_property
from typing import Any

import call_cases
import constant_time
import facts
import program as programs
import terms as T
from call_cases import MOST, variable_of
from constant_time import BUFFERS
from facts import z3
from machine import chunks, joined
from symbolic import Buffer
from terms import CannotShow, IsWrong

PATH = "dist/x86_64/vulfsjor-v3.s"     # which has all exports
TIME, TRIES = 5000, 10                 # of Z3 for a question, in milliseconds, and with how many seeds


def is_unconstrained(b: T.Byte) -> bool:
    """Whether a byte is one of a variable that is no number."""
    return isinstance(b, tuple) and not b[0].taint & T.PUBLIC


def words_passed_by(case: Any, kinds: tuple) -> list:
    """What a case passes, as (name, word): arguments of the kinds that the header says, and the words of what these
    point to. Bytes of which a case says nothing are not among them; they must all be different."""
    places = joined([kind, None] if kind in BUFFERS else [kind] for kind in kinds)
    for k, (kind, t) in enumerate(zip(places, case.arguments)):
        region = None if t.op == "const" else case.regions.get(t)
        is_right = t is T.const(64, 0) or isinstance(region, Buffer) and region.length is case.arguments[k + 1] if (
            kind in BUFFERS) else (region is None) == (kind in (None, constant_time.NUMBER))
        if not is_right or len(places) != len(case.arguments):
            raise CannotShow("argument %d is not that of the header" % k)
    found, used = [("argument %d" % k, t) for k, t in enumerate(case.arguments)], set[Any]()
    for name, data in case.structs.items():
        free = list(filter(is_unconstrained, data))
        if used & set(free) or len(free) != len(set(free)):
            raise CannotShow("two bytes of the %s are the same" % name)
        used.update(free)
        found += [("%s at %d" % (name, 8 * k), T.word(w)) for k, w in enumerate(chunks(data, 8))
                  if not all(map(is_unconstrained, w))]
    return found


class CaseCondition:
    """Which numbers a case has, as a condition of Z3 over the inputs."""

    def __init__(self, case: Any, kinds: tuple, inputs: dict) -> None:
        self.case, self.inputs = case, inputs  # name -> integer of Z3, and its most
        self.names: dict = {}          # variables of the case -> integers of Z3
        self.limits: dict = {}         # inputs -> bounds
        equal = joined(self.equate_parts(name, t) if t.op == "cat" or t.w != 64 else self.equate_input(name, t)
                       for name, t in words_passed_by(case, kinds))
        claims = [c for f in case.known.facts_on_path if f.claim
                  for c in f.claim(self.integer_of_word, facts.any_holds)]
        claims += [facts.fits_in_bits(v, t.w) for t, v in self.names.items()]
        self.condition = facts.all_hold(*(z3.BoolVal(c) if isinstance(c, bool) else c for c in equal + claims))

    def input_variable(self, name: str, bits: int = 64) -> Any:
        return self.inputs.setdefault(name, (facts.variable(name, bits)[0], (1 << bits) - 1))[0]

    def equate_input(self, name: str, t: T.Term) -> list:
        """That an input is a word. A variable that is a word of its own is named by the input. For the variables of
        a sum, such as blocks and a rest, numbers are proposed, by division; that they add up is a condition too."""
        n = self.input_variable(name, t.w)
        if t.op == "var" and t not in self.names:
            self.names[t], self.limits[name] = n, self.case.limits[t.args]
            return []
        constant, items = T.linear(t) if t.op == "add" else (0, {})
        new = sorted((u for u in items if variable_of(u) not in self.names), key=lambda u: -items[u])
        low = {u: self.case.limits[variable_of(u).args][0] for u in new}
        others = [-k * self.integer_of_word(u) for u, k in items.items() if u not in new]
        rest = facts.total([n, -constant - sum(items[u] * low[u] for u in new), *others])
        for u in new:
            self.names[variable_of(u)], rest = low[u] + rest / items[u], rest % items[u]
        return [n == self.integer_of_word(t)]

    def equate_parts(self, name: str, t: T.Term) -> list:
        """The same of the parts of a word that are numbers."""
        equal = []
        for k, u in facts.words_in_bytes(t.args) if t.op == "cat" else [(0, t)]:
            if u.op == "xor" and len(u.args[1]) == 1:          # as free as the word
                name, u = "%s xor %d" % (name, u.args[0]), u.args[1][0]
            if u.op not in ("var", "const") and u.taint & T.PUBLIC:
                raise CannotShow("%s is %r" % (name, u))
            if u.op == "const" or u.taint & T.PUBLIC:
                equal += self.equate_input("%s byte %d" % (name, k), u)
        return equal

    def integer_of_word(self, t: T.Term) -> Any:
        """A word as an integer of Z3: a sum as one up to a multiple of 2^w."""
        t = variable_of(t)
        if t.op == "const":
            return facts.constant(t.args)
        if t.op == "var" and t not in self.names and isinstance(t.args, tuple) and t.args[1].op == "const":
            self.names[t] = self.input_variable("%s byte %d" % (t.args[0], t.args[1].args), t.w)         # of a buffer
        if t in self.names:
            return self.names[t]
        if t.op != "add":
            raise CannotShow("%r is not by the inputs" % t)
        constant, items = T.linear(t)
        return facts.total([constant, *(k * self.integer_of_word(u) for u, k in items.items())]) % (1 << t.w)

    def input_may_be_between(self, name: str, low: int, high: int) -> bool:
        least, most = self.limits.get(name, (0, MOST))
        return low <= most and least <= high


class CaseUnion:
    """The cases of a call, and whether they are all calls."""

    def __init__(self, program: programs.Program, family: str, export: str, numbers: tuple = ()) -> None:
        cases = call_cases.cases(program, family, *numbers)
        self.name, self.has_nulls = cases.prefix + export, cases.has_nulls
        self.inputs: dict = {}
        self.shapes: list = []
        self.pointers: dict = {}       # those that are not null, unless their length is 0: the names of both
        kinds = next(kinds for name, kinds, _ in constant_time.exports(program) if name == self.name)
        for case, _ in cases.visit_cases(export, cases.make_case):
            if case.is_refused == case.fails:
                self.shapes.append(CaseCondition(case, kinds, self.inputs))
                found = [(k, case.regions[t]) for k, t in enumerate(case.arguments)
                         if t.op != "const" and t in case.regions]
                self.pointers.update({"argument %d" % k: ("argument %d" % (k + 1)) * isinstance(region, Buffer)
                                      for k, region in found})

    def pointer_is_not_null(self, name: str) -> Any:
        length = self.pointers[name] if self.has_nulls else ""
        return z3.Or(self.inputs[name][0] > 0, self.inputs[length][0] == 0 if length else False)

    def need_part_covered(self, part: tuple, without: Any = None) -> None:
        """Refuses numbers that no case has, of which one is between two bounds."""
        name, low, high = part
        claims = [facts.all_hold(0 <= n, n <= most) for n, most in self.inputs.values()]
        claims += [self.pointer_is_not_null(pointer) for pointer in self.pointers]
        claims += [facts.all_hold(low <= n, n <= high) for n, _ in [self.inputs[name]]] if name else []
        claims += [z3.Not(s.condition) for s in self.shapes
                   if s.input_may_be_between(name, low, high) and s is not without]
        for seed in range(TRIES):
            solver = z3.SimpleSolver()
            solver.set("timeout", TIME)
            solver.set("random_seed", seed)
            solver.add(claims)
            answer = solver.check()
            if answer != z3.unknown:
                break
        if answer == z3.sat:
            model = solver.model()
            raise IsWrong("no case of %s has %s" % (self.name, ", ".join("%s = %s" % (
                other, model.eval(n, model_completion=True)) for other, (n, _) in sorted(self.inputs.items()))))
        if answer != z3.unsat:
            raise CannotShow("Z3 does not know whether the cases of %s are all calls, for %s from %d to %d" % (
                self.name, name, low, high))

    @cached_property
    def parts_of_input(self) -> list:
        """All numbers of an input, in parts between the bounds that cases give it: of the input for which fewest cases
        are left in each part, so that the questions are small."""
        def of(name: str) -> list:     # with no inputs, one part
            bounds = (s.limits.get(name, (0, MOST)) for s in self.shapes)
            cuts = sorted({0, MOST + 1}.union(*({low, high + 1} for low, high in bounds)))
            return [(name, low, high - 1) for low, high in zip(cuts, cuts[1:])]
        return min(map(of, self.inputs or [""]), key=lambda found: sum(
            s.input_may_be_between(*part) for s in self.shapes for part in found) / len(found))

    def prove_complete(self) -> tuple:
        """Shows that the cases are all calls, or refuses. Returns how many cases, questions and numbers there are."""
        found = self.parts_of_input
        for part in found:
            self.need_part_covered(part)
        return len(self.shapes), len(found), len(self.inputs)

    def needs_case(self, shape: CaseCondition) -> bool:
        """Whether without a case they are not all calls, or the case is that of none."""
        solver = z3.SimpleSolver()
        solver.add(shape.condition, *[n <= most for n, most in self.inputs.values()])
        if solver.check() == z3.unsat:
            return True
        try:
            for part in self.parts_of_input:
                if shape.input_may_be_between(*part):
                    self.need_part_covered(part, shape)
        except IsWrong:
            return True
        return False


def check_cases_are_all_calls(family: str, is_long: bool = False) -> tuple:
    """Whether the cases of each export of a family, which are the same for all files, are all calls, in the short form
    those without null pointers; and in the long form whether this is seen to fail without any one of them: a verdict,
    and how many cases there are."""
    program, count, kind = programs.read(PATH), 0, call_cases.KINDS[family]
    numbers = () if is_long else (range(kind.block + 1), range(1, kind.w + 1))
    for export in call_cases.shown_exports(program, family):
        found = CaseUnion(program, family, export, numbers)
        count += found.prove_complete()[0]
        for shape in found.shapes if is_long else ():
            if not found.needs_case(shape):
                return "not ok", "%s: without the case %s nothing is missing" % (found.name, shape.case.title())
    return "ok", "%d cases" % count
