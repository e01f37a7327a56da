"""What a path of a call knows of its numbers, and what follows from it, by the SMT solver Z3 over integers. A word of
w bits is an integer from 0 to 2^w - 1, and a sum of words is one up to a multiple of 2^w, which is a variable of its
own. Nothing else in this tool decides how the numbers of a whole call compare."""

import atexit
import functools
import operator
import os
import subprocess
import sys
from typing import Any, Callable, Iterable, Iterator

import terms as T
from terms import OPPOSITE, signed

try:
    import z3
except ImportError:                    # check.py then skips whole calls
    z3 = None

DEBIAN = "/usr/bin/python3"            # which has the packages of Debian, where another Python is in use
RELATIONS: dict = {"==": operator.eq, "!=": operator.ne, "<": operator.lt, "<=": operator.le,
                   ">": operator.gt, ">=": operator.ge}


def make_z3(kind: Any, make: Callable, *parts: Any) -> Any:
    """What Z3 makes of parts."""
    return kind(make(z3.main_ctx().ref(), *[p.ast for p in parts]), z3.main_ctx())


def make_z3_of_all(kind: Any, make: Callable, parts: Iterable) -> Any:
    """The same of any number of parts."""
    held = list(parts)                 # until Z3 has what it makes of them
    return kind(make(z3.main_ctx().ref(), len(held), (z3.Ast * len(held))(*[p.ast for p in held])), z3.main_ctx())


def z3_comparison(name: str) -> Callable:
    return lambda a, b: make_z3(z3.BoolRef, getattr(z3, "Z3_mk_" + name), a, integer(b))


BASE: Any = z3.ArithRef if z3 else object


class Integer(BASE):
    """An integer of Z3. It does not look for another operand's type, which takes long: an integer, or a number."""

    __lt__, __le__, __gt__, __ge__, __eq__ = map(z3_comparison, ("lt", "le", "gt", "ge", "eq"))
    __ne__ = lambda a, b: make_z3(z3.BoolRef, z3.Z3_mk_not, a == b)
    __add__ = __radd__ = lambda a, b: total([a, b])
    __rmul__ = lambda a, k: make_z3_of_all(Integer, z3.Z3_mk_mul, (integer(k), a))
    __truediv__ = lambda a, k: make_z3(Integer, z3.Z3_mk_div, a, integer(k))
    __mod__ = lambda a, k: make_z3(Integer, z3.Z3_mk_mod, a, integer(k))
    __hash__ = BASE.__hash__


@functools.lru_cache(maxsize=None)
def constant(n: int) -> Integer:
    found = z3.IntVal(n)
    return Integer(found.ast, z3.main_ctx())


def integer(n: Any) -> Any:
    return constant(n) if isinstance(n, int) else n


def total(parts: Iterable) -> Integer:
    return make_z3_of_all(Integer, z3.Z3_mk_add, map(integer, parts))


def all_hold(*claims: Any) -> Any:
    return make_z3_of_all(z3.BoolRef, z3.Z3_mk_and, claims)


def any_holds(*claims: Any) -> Any:
    return make_z3_of_all(z3.BoolRef, z3.Z3_mk_or, claims)


@functools.lru_cache(maxsize=None)
def variable(name: str, w: int) -> tuple:
    """An integer of Z3 of this name, and that it has at most so many bits. Terms of later cases use it again."""
    found = z3.Int(name)
    n = Integer(found.ast, z3.main_ctx())
    return n, fits_in_bits(n, w)


def fits_in_bits(n: Integer, w: int) -> Any:
    return all_hold(0 <= n, n < 1 << w)


def integer_of_term(t: T.Term) -> Any:
    return constant(t.args) if t.op == "const" else variable("%s %d" % (t.op, t.serial), t.w)[0]


@T.memoized
def definitions(t: T.Term) -> dict:
    """What is so of the integers of a term and of all its parts, by these."""
    inner, claim = definition(t) if t.op != "const" else ([], None)
    found = {t: claim} if claim is not None else {}
    for u in inner:
        found.update(definitions(u))
    return found


def definition(t: T.Term) -> tuple:
    """The parts of a term, and what its operator says of its integer and theirs: of unknown ones, only the range."""
    a, inner = t.args, []
    n, in_range = variable("%s %d" % (t.op, t.serial), t.w)
    found = [in_range]
    if t.op == "add":
        inner = [u for u, _ in a[1]]
        wraps, ks = variable("wraps %d" % t.serial, 0)[0], [signed(t.w, k) for _, k in a[1]]
        parts = [a[0], (1 << t.w) * wraps, *(k * integer_of_term(u) for k, u in zip(ks, inner))]
        found += [n == total(parts),   # within bounds, without which Z3 may search for long
                  -sum(k for k in ks if k > 0) <= wraps, wraps <= -sum(k for k in ks if k < 0)]
    elif t.op in ("slice", "shr"):
        start = 8 * a[1] if t.op == "slice" else a[1]
        (low, is_low), (high, is_high) = (variable("%s %d" % (part, t.serial), bits) for part, bits in (
            ("below", start), ("above", max(a[0].w - start - t.w, 0))))
        inner = [a[0]]
        found += [integer_of_term(a[0]) == total([low, (1 << start) * n, (1 << start + t.w) * high]), is_low, is_high]
    elif t.op == "cat":
        inner = [u for _, u in words_in_bytes(a)]
        found.append(n == total((1 << 8 * k) * integer_of_term(u) for k, u in words_in_bytes(a)))
    elif t.op == "xor":
        inner, claims = definition_of_xor(t, n)
        found += claims
    return inner, all_hold(*found)


def definition_of_xor(t: T.Term, n: Any) -> tuple:
    """The same of an exclusive or: of a byte with a number, all; of two words, that it is 0 if they are the same."""
    k, words = t.args
    if t.w == 8 and len(words) == 1:
        bits = [variable("bit %d %d" % (j, words[0].serial), 1) for j in range(8)]
        of = lambda k: total([k, *((-1 if k >> j & 1 else 1) * (1 << j) * bit for j, (bit, _) in enumerate(bits))])
        return list(words), [integer_of_term(words[0]) == of(0), n == of(k), *(claim for _, claim in bits)]
    two = [u for u in (T.const(t.w, k), *words) if u is not T.const(t.w, 0)]
    return (two, [make_z3(z3.BoolRef, z3.Z3_mk_iff, n == 0, integer_of_term(two[0]) == integer_of_term(two[1]))]) if (
        len(two) == 2) else ([], [])


def words_in_bytes(data: tuple) -> Iterator:
    """Bytes as words: the place of each, and the word."""
    k = 0
    while k < len(data):
        size = 1
        if isinstance(data[k], tuple):
            t, at = data[k]
            while data[k + size:k + size + 1] == ((t, at + size),):
                size += 1
        yield k, T.word(data[k:k + size])
        k += size


def relation_holds(relation: str, a: Any, b: Any, w: int) -> Any:
    if "carry" in relation:
        return (operator.ge if relation == "carry" else operator.lt)(a + b, 1 << w)
    return RELATIONS[relation](a, b)


def rerun_with_debian_python(script: str, arguments: list) -> None:
    """Runs a script again by Debian's Python, if that has Z3 and this one has not."""
    if not z3 and sys.executable != DEBIAN and os.path.exists(DEBIAN) and not subprocess.run(
            [DEBIAN, "-c", "import z3"], stderr=subprocess.DEVNULL, check=False).returncode:
        os.execv(DEBIAN, [DEBIAN, script] + arguments)


class SolverModel(dict):
    """Numbers of variables, by their names, for which some facts hold. Of a word, the number that follows."""

    def __call__(self, t: T.Term) -> int:
        return T.value(t, self, {})

    def inputs_text(self) -> str:
        found = sorted("%s = %#x" % pair for pair in self.items() if isinstance(pair[0], str))
        return ", ".join(found[:4]) + ", .." * (len(found) > 4) or "all inputs"


@T.memoized
def answers_about(_: frozenset) -> dict:
    """What was asked about some facts, on any path: the numbers for which it holds, False or None."""
    return {}


class PathFacts:
    """A fact, and those before it on the path. Paths share what they have in common. `claim` returns the fact as a
    list of conditions of which all hold, by a function that has the number of each of some words, and one that is the
    or of conditions. `name` is the same of facts that say the same."""

    solver: Any = None
    told: frozenset = frozenset()      # the names of the facts that it has
    # Of Z3 for a question, in its own units; then it is open. A limit of time needs a thread, and z3.Solver() a
    # strategy, which take longer than most questions.
    effort = 100000

    def __init__(self, claim: Callable | None = None, words: tuple = (), before: "PathFacts | None" = None,
                 *name: Any) -> None:
        self.claim, self.words, self.name = claim, words, name
        self.before: tuple = before.facts_on_path if before else ()
        self.answers: dict = {}        # relation, word, word -> whether it follows
        self.ranges: dict = {}
        self.fixed: dict | None = None
        self.models: list = []         # numbers of the variables for which Z3 says that all hold
        self.own: frozenset = frozenset().union(*map(T.variables, words))      # the variables of the fact
        self.variables: frozenset = self.own | before.variables if before else self.own

    @property
    def facts_on_path(self) -> tuple:
        return self.before + (self,)

    def with_comparison(self, relation: str, a: T.Term, b: T.Term) -> "PathFacts":
        """With one more comparison that holds."""
        after = PathFacts(lambda of, _: [relation_holds(relation, of(a), of(b), a.w)], (a, b), self, relation, a, b)
        after.answers[relation, a, b] = True
        if after.variables == self.variables:
            after.models = [m for m in self.models if relation_holds(relation, m(a), m(b), a.w)]
        return after

    def with_sum_between(self, pairs: list, low: int, high: int) -> "PathFacts":
        """With the fact that a sum is between two numbers. Its parts are words, sums of words and numbers, each with
        a sign, and all are added as integers."""
        parts, known = [], 0
        for sign, t in pairs:
            constant, items = (t, {}) if isinstance(t, int) else T.linear(t)
            parts += [(sign * k, u) for u, k in items.items()]
            known += sign * constant
            if any(k >> 63 for k in (constant, *items.values())):
                raise T.CannotShow("%r may be less than 0" % t)
        of_all = lambda of: sum((k * of(u) for k, u in parts), known)
        return PathFacts(lambda of, _: [low <= of_all(of), of_all(of) <= high], tuple(u for _, u in parts), self,
                         *parts, low - known, high - known)

    def with_or_bounds(self, r: T.Term, a: T.Term, b: T.Term) -> "PathFacts":
        """With the bounds of an or of two words: it is no less than either, and no more than their sum."""
        return PathFacts(lambda of, _: [of(r) >= of(a), of(r) >= of(b), of(r) <= of(a) + of(b)], (r, a, b), self,
                         "or", r, a, b)

    def with_ranges_apart(self, a: T.Term, n: T.Term, b: T.Term, m: T.Term) -> "PathFacts":
        """With the fact that n bytes from a on and m bytes from b on are apart."""
        x, y = (p - q for p, q in ((a, b), (b, a)))
        claim = lambda of, either: [either(of(n) == 0, of(m) == 0, of(x) >= of(m)),
                                    either(of(n) == 0, of(m) == 0, of(y) >= of(n))]
        return PathFacts(claim, (x, y, n, m), self, "apart", x, y, n, m)

    @classmethod
    def forget_solver(cls) -> None:
        cls.solver = None

    @functools.cached_property
    def claims(self) -> list:
        """The fact as Z3 has it."""
        return list(self.claim(integer_of_term, any_holds)) if self.claim else []

    def facts_related_to(self, variables: frozenset) -> list:
        """The facts by which some variables are related to others, and these to more. As long as the others are
        possible, they say nothing of these."""
        found: list = []
        rest, near = list(self.facts_on_path), [f for f in self.facts_on_path if not f.own]
        while near:
            found, rest = found + near, [f for f in rest if f not in near]
            variables = variables.union(*[f.own for f in near])
            near = [f for f in rest if not f.own.isdisjoint(variables)]
        return found

    def find_model(self, claims: Iterable = (), words: Iterable = (), question: tuple = ()) -> Any:
        """Numbers for which the facts and some claims about words hold, as a function, False if there are none, or
        None if Z3 does not know, or is absent. Claims that are a question, a relation and two words, are asked once.
        Only facts about the words matter, and those for which no numbers are known yet: the others have theirs."""
        if not z3:
            return None
        path, words = self.facts_on_path, question[1:] or tuple(words)
        k = next((k for k in range(len(path), 0, -1) if path[k - 1].models), 0)
        variables = frozenset().union(*[f.own for f in path[k:]], *map(T.variables, words))
        facts = self.facts_related_to(variables) if k else list(path)
        names = frozenset(f.name for f in facts)
        known = answers_about(names) if question else {}
        if question not in known:
            if question:
                a, b = map(integer_of_term, words)
                claims = [relation_holds(question[0], a, b, words[0].w)]
            known[question] = self.solve(names, facts, claims, words)
        numbers = known[question]
        if not isinstance(numbers, dict):
            return numbers
        others = {t.args: path[k - 1].models[0][t.args] for t in path[k - 1].variables} if k else {}
        self.models.append(SolverModel({**others, **numbers}))
        return self.models[-1]

    @classmethod
    def solve(cls, names: frozenset, facts: list, claims: Iterable, words: tuple) -> Any:
        """Numbers of variables for which some facts and claims about words hold, by their names, False or None. The
        solver keeps the facts, by their names, for the next question."""
        if cls.solver is None:
            cls.solver, cls.told = z3.SimpleSolver(), frozenset()
            cls.solver.set("rlimit", cls.effort)
            cls.solver.push()
        if names != cls.told:
            cls.solver.pop()
            cls.told = names
            cls.assert_in_solver([c for f in facts for c in f.claims], [t for f in facts for t in f.words])
        cls.assert_in_solver(claims, words)
        answer, numbers = cls.solver.check(), None
        if answer == z3.sat:
            found = cls.solver.model()
            numbers = {t.args: found.eval(integer_of_term(t), model_completion=True).as_long()
                       for t in frozenset().union(*[f.own for f in facts], *map(T.variables, words))}
        cls.solver.pop()
        if answer == z3.unknown:       # a solver that gave up may be wrong about what it is asked then
            cls.forget_solver()
        return False if answer == z3.unsat else numbers

    @classmethod
    def assert_in_solver(cls, claims: Iterable, words: Iterable) -> None:
        """Tells the solver some claims about words, and what these words are."""
        cls.solver.push()
        meant = {u: claim for t in words for u, claim in definitions(t).items()}
        for claim in [*meant.values(), *(z3.BoolVal(c) if isinstance(c, bool) else c for c in claims)]:
            z3.Z3_solver_assert(cls.solver.ctx.ref(), cls.solver.solver, claim.as_ast())

    def are_possible(self) -> bool:
        return bool(self.models) or self.find_model() is not False

    def imply(self, relation: str, a: T.Term, b: T.Term) -> bool:
        if a.op == b.op == "const":
            return relation_holds(relation, a.args, b.args, a.w)
        question, other = (relation, a, b), OPPOSITE[relation]
        if question not in self.answers:
            known = T.variables(a) | T.variables(b) <= self.variables
            self.answers[question] = any(f.answers.get(question) for f in self.before) or not (
                known and any(relation_holds(other, m(a), m(b), a.w) for m in self.models)
                or self.find_model(question=(other, a, b)) is not False)
        return self.answers[question]

    def decide(self, relation: str, a: T.Term, b: T.Term) -> bool | None:
        return True if self.imply(relation, a, b) else (False if self.imply(OPPOSITE[relation], a, b) else None)

    def counterexample_text(self, relation: str, a: T.Term, b: T.Term) -> str | None:
        """Inputs of the call for which all facts hold and two words are not so related, as text, or None. Z3 proposes
        them; all is computed again, so they are inputs."""
        other = OPPOSITE[relation]
        model = self.find_model(question=(other, a, b))
        is_example = model and all(isinstance(name, str) and "~" not in name for name in model)
        return model.inputs_text() if is_example and relation_holds(other, model(a), model(b), a.w) and all(
            self.facts_hold_for(model)) else None

    def facts_hold_for(self, names: dict, changed: frozenset | None = None) -> Iterator:
        """Whether each fact holds for these numbers of the variables, of which only some may have changed."""
        of = lambda t: T.value(t, names, {})
        for f in self.facts_on_path:
            if f.claim and (changed is None or not f.own.isdisjoint(changed)):
                yield all(f.claim(of, lambda *conditions: any(conditions)))

    def neighbor_value_is_possible(self, t: T.Term, model: SolverModel) -> bool:
        """Whether a variable may be one more or one less than in a model. Z3 need not be asked for that."""
        return any(0 <= n < 1 << t.w and all(self.facts_hold_for({**model, t.args: n}, frozenset([t])))
                   for n in (model[t.args] + 1, model[t.args] - 1))

    def model_below(self, limit: int | None) -> Any:
        """A model in which variables that are not addresses are below a limit, or None."""
        return self.find_model([integer_of_term(t) < limit for t in self.variables
                                if limit is not None and "address" not in str(t.args)], self.variables) or None

    def range(self, t: T.Term) -> tuple:
        """A least and a greatest number that a word may be."""
        if t.op == "const":
            return t.args, t.args
        if t not in self.ranges:
            self.are_possible()        # which may find numbers
            known, top = answers_about(frozenset(f.name for f in self.facts_related_to(T.variables(t)))), (1 << t.w) - 1
            if t not in known:
                numbers = lambda: [m(t) for m in self.models if T.variables(t) <= self.variables]
                is_so = lambda relation, k: self.imply(relation, t, T.const(t.w, k))
                known[t] = (-least_from_which_holds(lambda k: is_so(">=", -k), 0, lambda: -min(numbers(), default=top)),
                            least_from_which_holds(lambda k: is_so("<=", k), top, lambda: max(numbers(), default=0)))
            self.ranges[t] = known[t]
        return self.ranges[t]

    def known_values(self) -> dict:
        """The variables of which the value is known."""
        if self.fixed is None:
            before = next((f for f in self.before[::-1] if f.fixed is not None), None)
            self.fixed = dict(before.fixed) if before else {}
            new = self.facts_on_path[len(before.facts_on_path):] if before else self.facts_on_path
            near = self.facts_related_to(frozenset().union(*[f.own for f in new]))
            known = answers_about(frozenset(f.name for f in near))
            if "values" not in known:
                known["values"] = self.known_values_of(frozenset().union(*[f.own for f in near]))
            self.fixed.update(known["values"])
        return self.fixed

    def known_values_of(self, variables: frozenset) -> dict:
        """Those of some variables of which the value is known."""
        model: Any = self.models[0] if self.models else self.find_model()
        found = {t: model(t) for t in variables if not self.neighbor_value_is_possible(t, model)} if model else {}
        while found:                   # until no other value of one of them is possible
            found = {t: n for t, n in found.items() if all(m(t) == n for m in self.models)}
            model = self.find_model([any_holds(*(integer_of_term(t) != n for t, n in found.items()))], found)
            if model is False:
                break
            found = found if model else {}
        return {t: T.const(t.w, n) for t, n in found.items()}


def least_from_which_holds(f: Callable, top: int, reached: Callable) -> int:
    """The least number up to `top` from which on f holds. It is no less than reached(), which may grow."""
    if reached() >= top or not f(top - 1):
        return top
    low, gap = reached(), 0
    while not f(low + gap):
        low = max(low + gap + 1, reached())
        gap = min(gap * gap + 3, top - low)
    high = low + gap
    while low < high:
        middle = (low + high) // 2
        low, high = (low, middle) if f(middle) else (max(middle + 1, reached()), high)
    return low


@atexit.register
def _release_z3() -> None:
    """Lets go of Z3's objects before its library goes."""
    T.reset()
    variable.cache_clear()
    constant.cache_clear()
    PathFacts.forget_solver()
