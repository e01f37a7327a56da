"""Tests what the machines that follow secrets, and those of whole calls, say of numbers, over numbers: words are
computed, compared and chosen, and paths meet. Each word must have the number that its operation has, and be in its
range, by its step too. No answer may be wrong, and no comparison that is true may be called impossible."""

import math
import random
from typing import Callable

import terms as T
import x86
from call_cases import variable_of
from facts import RELATIONS, PathFacts, z3
from symbolic import SymbolicState, UndecidedComparison, choose_if_below, fresh_bytes
from taint import TaintState
from terms import OPPOSITE, signed

SMALL, LARGE = (1, -1, 2, 8, 64, 128), (1 << 32, 1 << 62, 1 << 63, -(1 << 62), 3)
ADDED = (0, 1, 8, 127, -1, -8, -128, -512)
BOUNDS = (1, 7, 63, 129, 1 << 11, 1 << 32)
MASKS = (0xff, 5, 7, 63, 127, -64, -128, -4, -8, 0x1c, 0xffffffff, 0x7fffffff)
SHIFTS = (1, 3, 6, 7, 8, 12, 32)
STEPS, WAYS = 14, 3
LOW = ("low", "sum", "flip", "sign")   # what is made of the low bytes of words


class RandomRun:
    """A machine, the words that were computed, and the numbers of the variables."""

    compare: Callable                  # asks or learns how two words compare

    def __init__(self, rng: random.Random, machine: Callable, factors: tuple) -> None:
        T.reset()
        self.rng, self.machine, self.factors = rng, machine(), factors
        self.machine.stack = T.var(64, "sp", T.PUBLIC)
        self.numbers = {name: self.number() for name in "xyz"}
        self.words = [T.var(64, name, T.PUBLIC) for name in "xyz"]
        self.questions = self.steps = 0
        for t in self.words:           # of most, a bound is known
            bound = next((n for n in BOUNDS if self.value(t) <= n), 0)
            if bound and rng.random() < 0.7:
                self.learn("<=", t, T.const(64, bound), True)

    def number(self) -> int:
        n = self.rng.choice((2, 8, 64, 130, 1 << 11, 1 << 32, 1 << 63))
        return (self.rng.randrange(n) + self.rng.choice((0, 0, 0, -n // 2, 1 << 32))) % (1 << 64)

    def value(self, t: T.Term) -> int:
        return T.value(t, self.numbers, {})

    def add_word(self, t: T.Term, n: int) -> None:
        """A word that was computed, and its number. One new variable has what makes the word this."""
        for u, k in T.linear(t)[1].items():
            new = variable_of(u)
            if new.op == "var" and new.args not in self.numbers:
                self.numbers[new.args] = 0
                self.numbers[new.args] = (n - self.value(t)) * (1 if k == 1 else -1) % (1 << t.w)
        if self.value(t) != n % (1 << 64):
            raise T.IsWrong("%r is %#x instead of %#x" % (t, self.value(t), n))
        self.words.append(t)

    def compute_word(self) -> None:
        m, rng = self.machine, self.rng
        a, b = rng.sample(self.words, 2)
        x, y, data = self.value(a), self.value(b), (T.split(a), T.split(b))
        n, k, size = rng.choice(MASKS), rng.choice(SHIFTS), rng.choice((1, 1, 2, 4))
        first, factor, added = rng.choice((1, 1, 0)), rng.choice(self.factors), rng.choice(ADDED)
        kind, f, found = rng.choice((
            ("add", lambda a, b: first * a + factor * b + added, first * x + factor * y + added),
            ("and", lambda a, _: m.bitwise_and(a, T.const(64, n)), x & n), ("or", m.bitwise_or, x | y),
            ("shift", lambda a, _: m.shifted_right(a, k), x >> k), ("xor", m.xor_values, x ^ y),
            ("shift back", lambda a, _: m.shifted_right(m.shifted_left(a, k), k), (x << k) % (1 << 64) >> k),
            *((name, None, self.expected_low_bytes(name, x, y, n, size)) for name in LOW)))
        made = m.compute_and_set_flags(kind, f, *data) if f else self.low_bytes(kind, *data, n, size)
        self.add_word(T.word(made), found)

    @staticmethod
    def expected_low_bytes(kind: str, x: int, y: int, n: int, size: int) -> int:
        """What low_bytes() must make of two numbers."""
        w = 8 * size
        found = {"low": x, "sum": x + y, "flip": x ^ n, "sign": x}[kind] % (1 << w)
        return signed(w, found) if kind == "sign" else found

    def low_bytes(self, kind: str, a: list, b: list, n: int, size: int) -> list:
        """The low bytes of a word, their sum with those of another, or with some bits changed, and zeros above; or with
        the sign above. Of the sum and the sign something is often known."""
        m, zeros = self.machine, [0] * (8 - size)
        data, other = ([m.normalized_byte(byte) for byte in part][:size] for part in (a, b))
        low, wide = T.word(data), T.word(data + zeros) + T.word(other + zeros)
        for t, k in ((low, 1 << low.w - 1), (wide, self.value(wide) + self.rng.choice((1, 8)))):
            if self.rng.random() < 0.5 and k >> t.w == 0:
                self.learn("<", t, T.const(t.w, k), self.value(t) < k)
        if kind == "sign":
            return m.bytes_to_store(m.sign_extended(data, 8), True)
        made = {"low": low, "sum": low + T.word(other), "flip": m.xor_values(low, T.const(low.w, n))}[kind]
        return T.split(made or m.new_public_variable(low.w)) + zeros

    def learn(self, relation: str, a: T.Term, b: T.Term, holds: bool) -> None:
        if not self.machine.learn(relation, a, b, holds):
            raise T.IsWrong("%r %s %r is called impossible" % (a, relation if holds else OPPOSITE[relation], b))

    def run(self) -> int:
        """Computes and compares, with all that follows. Returns how many questions were answered."""
        for _ in range(STEPS):
            self.steps += 1
            self.machine.where = "at %d " % self.steps
            try:
                self.compute_word()
            except (T.CannotShow, UndecidedComparison):
                pass
            a = self.rng.choice(self.words)
            x = self.value(a)
            near = T.const(64, self.rng.choice((x, x + 1, x - 1, -x, self.number())))
            self.compare(a, self.rng.choice(self.words + [near]))
        return self.questions


def is_in_range(n: int, modulus: int, low: int, high: int, step: int) -> bool:
    """Whether n, up to a multiple of a modulus, is one of low, low + step, .. up to high."""
    first = low + (n - low) % modulus
    if not step:
        return first == low
    shared = math.gcd(modulus, step)
    if (first - low) % shared:
        return False
    times = (low - first) // shared * pow(modulus // shared, -1, step // shared) % (step // shared)
    return first + times * modulus <= high


class TaintRun(RandomRun):
    """A machine that follows secrets."""

    def compare(self, a: T.Term, b: T.Term) -> None:
        """Learns how two words compare, or chooses one of two by that."""
        m, relation = self.machine, self.rng.choice(sorted(RELATIONS))
        holds = RELATIONS[relation](self.value(a), self.value(b))
        if self.rng.random() < 0.6:
            self.learn(relation, a, b, holds)
            m.bounds |= {t for t in (a, b) if t.op in ("var", "add")}
        else:
            c, d = (self.rng.choice(self.words) for _ in range(2))
            m.where += "chosen "
            self.add_word(T.word(m.chosen((relation, a, b), T.split(c), T.split(d))), self.value(c if holds else d))
        self.check_ranges()

    def join_two_paths(self) -> bool:
        """Two paths meet, of which one was taken. Words of others that met are gone. Returns whether both may be."""
        m, rng = self.machine, self.rng
        self.numbers = {name: n for name, n in self.numbers.items() if not name.startswith("met ")}
        self.words = [t for t in self.words if all(u.args in self.numbers for u in T.variables(t))]
        paths = [m, m.copy()]
        taken = rng.choice(paths)
        for path in paths:
            for k in range(3):
                path.general[k] = T.split(rng.choice(self.words))
            (a, b), relation = (rng.choice(self.words) for _ in range(2)), rng.choice(sorted(RELATIONS))
            is_so = RELATIONS[relation](self.value(a), self.value(b))
            if not path.learn(relation, a, b, is_so if path is taken else rng.random() < 0.5):
                return False
        kept = [T.word(taken.general[k]) for k in range(3)]
        m.join(paths[1], "met ", rng.choice((0, 2, 3)), True)
        for t, old in zip(m.general, kept):
            self.add_word(T.word(t), self.value(old))
        self.check_ranges()
        return True

    def check_ranges(self) -> None:
        """Looks at the range of each word, and of how it differs from another."""
        for t in self.words + [t - self.rng.choice(self.words) for t in self.words]:
            n, found = self.value(t), self.machine.range_of(t)
            if not is_in_range(n, 1 << t.w, *found):
                raise T.IsWrong("%r is %#x, and not in %s" % (t, n, found))


class SymbolicRun(RandomRun):
    """A machine of whole calls."""

    def compare(self, a: T.Term, b: T.Term) -> None:
        """Asks how two words compare, in some ways, and perhaps learns the last."""
        m, rng, x, y = self.machine, self.rng, self.value(a), self.value(b)
        for relation in rng.sample(sorted(RELATIONS) + ["carry"], WAYS):
            holds = x + y >= 1 << 64 if relation == "carry" else RELATIONS[relation](x, y)
            answer = m.decide(relation, a, b)
            self.questions += 1
            if answer not in (None, holds):
                raise T.IsWrong("%r %s %r is %s" % (a, relation, b, answer))
        low, high = (x, x) if self.factors != SMALL or rng.random() > 0.05 else m.path_facts.range(a)
        if not low <= x <= high:
            raise T.IsWrong("%r is %#x, and not in %s" % (a, x, (low, high)))
        for j in (low, x) if low < high else ():
            if choose_if_below(m, j, a, 0, 1) == int(j < x):
                raise T.IsWrong("whether %#x is below %r, which is %#x" % (j, a, x))
        if answer is None:
            self.learn(relation, a, b, holds)
        if rng.random() < 0.3:
            self.learn_entry_facts(a, b, *(rng.choice((0, 1, 64, abs(x - y))) for _ in range(2)))
        for t, n in m.path_facts.known_values().items() if rng.random() < 0.1 else ():
            if n.args != self.value(t):
                raise T.IsWrong("%r is %#x, not %r" % (t, self.value(t), n))

    def learn_entry_facts(self, a: T.Term, b: T.Term, n: int, k: int) -> None:
        """Learns the bounds of a difference, and that two places are apart, as a call begins with."""
        m, x, y = self.machine, self.value(a), self.value(b)
        if a.op == b.op == "var":
            m.path_facts = m.path_facts.with_sum_between([(1, a), (-1, b)], x - y - n, x - y + k)
        if (y - x) % (1 << 64) >= n and (x - y) % (1 << 64) >= k:
            m.path_facts = m.path_facts.with_ranges_apart(a, T.const(64, n), b, T.const(64, k))
        if not m.path_facts.are_possible():
            raise T.IsWrong("what is so of %#x and %#x is called impossible" % (x, y))


def check_taint_ranges(count: int) -> tuple:
    """Refuses ranges that have not their numbers. Returns a verdict, and what was tried."""
    rng = random.Random(5)
    for _ in range(count):
        run = TaintRun(rng, lambda: TaintState({}, x86.X86, (16, 0), 128, rng.choice((0, 896))), SMALL)
        run.run()
        if run.join_two_paths():
            run.run()
            run.join_two_paths()
    return "ok", "%d runs of %d steps" % (count, 2 * STEPS)


def check_giving_up() -> tuple:
    """Refuses a solver that is kept after it gave up: the next answer may be wrong."""
    a, b = z3.Ints("a b")
    whole, PathFacts.effort = PathFacts.effort, 1
    PathFacts.forget_solver()
    found = PathFacts().find_model([a > 1, b > 1, a * b == 2 ** 61 - 1])
    PathFacts.effort = whole
    return "ok" if found is None and PathFacts.solver is None else "not ok", "a long question gives %s" % found


def check_decisions(seed: int, count: int, effort: int) -> tuple:
    """Refuses a wrong decision of so many, with this effort for each: many are open. Returns a verdict, and what was
    tried."""
    rng, decided, runs = random.Random(seed), 0, 0
    if len(set(SymbolicState({}, x86.X86, (16, 0)).sign_extended(fresh_bytes("secret", T.SECRET, 4), 8))) < 8:
        return "not ok", "all bytes of a secret with its sign are called the same"
    whole = PathFacts.effort
    PathFacts.effort = effort
    PathFacts.forget_solver()
    try:
        while decided < count:
            runs += 1
            run = SymbolicRun(rng, lambda: SymbolicState({}, x86.X86, (16, 0)), SMALL + LARGE * (runs % 8 == 0))
            decided += run.run()
    finally:
        PathFacts.effort = whole
        PathFacts.forget_solver()
    return "ok", "%d comparisons, in %d runs" % (decided, runs)
