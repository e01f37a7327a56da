"""Shows by the SMT solver Z3 that the rules of terms.py keep the meaning of terms: each operation, over terms of each
form, at each width and for each number of bits of a shift. With all cases, each pair of forms comes in both orders,
and each form is shifted by each number of bits. Else only the forms for which a rule exists are."""

import functools
import operator
from typing import Any, Iterable, Iterator

import terms as T
from facts import z3

C, D = 0x6a09e667f3bcc908, 0xbb67ae8584caa73b   # any two numbers
# What a term of each operator means, from its width, its arguments, and a function that says it of its parts.
MEANINGS: dict = {
    "const": lambda w, a, of: z3.BitVecVal(a, w),
    "var": lambda w, a, of: z3.BitVec(a, w),
    "ite": lambda w, a, of: z3.If(z3.Bool(a[0]), z3.BitVecVal(a[1], w), z3.BitVecVal(a[2], w)),
    "add": lambda w, a, of: sum((k * of(u) for u, k in a[1]), z3.BitVecVal(a[0], w)),
    "xor": lambda w, a, of: functools.reduce(operator.xor, map(of, a[1]), z3.BitVecVal(a[0], w)),
    "ror": lambda w, a, of: z3.RotateRight(of(a[0]), a[1]),
    "shr": lambda w, a, of: z3.LShR(of(a[0]), a[1]),
    "slice": lambda w, a, of: extract_bytes(of(a[0]), a[1], w // 8),
    "cat": lambda w, a, of: concatenate_words(
        z3.BitVecVal(b, 8) if isinstance(b, int) else extract_bytes(of(b[0]), b[1], 1) for b in a),
    "zero": lambda w, a, of: z3.If(of(a[0]) == 0, z3.BitVecVal(1, w), z3.BitVecVal(0, w)),
    "nonzero": lambda w, a, of: z3.If(of(a[0]) == 0, z3.BitVecVal(0, w), z3.BitVecVal(1, w)),
}


@T.memoized
def formula(t: Any) -> Any:
    """What a term means, by the definitions of its operators only. A number is itself."""
    return MEANINGS[t.op](t.w, t.args, formula) if isinstance(t, T.Term) else t


def extract_bytes(f: Any, i: int, n: int) -> Any:
    """n bytes of a word, from byte i on."""
    return z3.Extract(8 * (i + n) - 1, 8 * i, f)


def concatenate_words(parts: Iterable) -> Any:
    """The word of several parts, the lowest first."""
    parts = list(parts)[::-1]
    return parts[0] if len(parts) == 1 else z3.Concat(*parts)


def example_terms(w: int) -> list:
    """A term of each form, over the same few variables."""
    x, y = T.var(w, "x", T.SECRET), T.var(w, "y", T.PUBLIC)
    wide = T.var(2 * w, "wide", T.JUNK)
    flag = lambda on, off: T.ite(w, "flag", on & (1 << w) - 1, off & (1 << w) - 1)
    bs, cs, n = T.split(x), T.split(y), w // 8
    return [
        T.const(w, 0), T.const(w, -1), T.const(w, C), x, y, flag(-1, 0), flag(C, D),
        T.add(w, (1, x), (2, y), (1, T.const(w, C))), T.add(w, (1, x), (-1, y)),
        T.xor(w, x, T.ror(w, y, 3), flag(C, D), T.const(w, C)), T.xor(w, x, y), T.ror(w, x, 5),
        T.ror(w, x, w // 2), T.shr(w, x, 3), T.word(T.split(wide)[n // 2:n // 2 + n]),
        T.word((bs[::-1] + cs)[1:n + 1]), T.word(([0] + bs + cs)[:n]),
        T.word((bs[:1] + T.split(flag(C, D)))[:n]), T.zero_test("zero", w, x),
        T.zero_test("nonzero", w, T.add(w, (1, x), (-1, y))),
    ]


def rule_cases(w: int, has_all: bool) -> Iterator:
    """The rules: a name, what makes a term, the same of its meaning, and the arguments of both."""
    forms, n, x = example_terms(w), w // 8, T.var(w, "x", T.SECRET)
    pairs = [(a, b) for k, a in enumerate(forms) for b in (forms if has_all else forms[k:])]
    shifts = [(a, k) for a in forms for k in range(1, w)
              if has_all or a.op in ("const", "var", "xor", "ror") or k in (1, 8 % w or 7, w // 2, w - 1)]
    parts = [(a, i, k) for a in forms for i in range(n) for k in range(1, n - i + 1)]
    order = [(5 * k + 2) % (2 * n) for k in range(n)]
    test = lambda f, if_zero: z3.If(f == 0, z3.BitVecVal(if_zero, w), z3.BitVecVal(1 - if_zero, w))
    rules: Any = (
        (pairs, "sub", lambda a, b: T.add(w, (1, a), (-1, b)), operator.sub),
        (pairs, "multiples", lambda a, b: T.add(w, (8, a), (128, b), (1, a)), lambda f, g: 9 * f + 128 * g),
        (pairs, "xor", lambda a, b: T.xor(w, a, b), operator.xor),
        (pairs, "or", lambda a, b: T.bitwise_or(w, a, b), operator.or_),
        (pairs, "and", lambda a, b: T.bitwise_and(w, a, b), operator.and_),
        (shifts, "ror", lambda a, k: T.ror(w, a, k), z3.RotateRight),
        (shifts, "shl", lambda a, k: T.shl(w, a, k), lambda f, k: f << k),
        (shifts, "shr", lambda a, k: T.shr(w, a, k), z3.LShR),
        (shifts, "rotation", lambda a, k: T.bitwise_or(w, T.shl(w, a, k), T.shr(w, a, w - k)), z3.RotateLeft),
        (parts, "part", lambda a, i, k: T.word(T.split(a)[i:i + k]), extract_bytes),
        (pairs, "move", lambda a, b: T.word([(T.split(a) + T.split(b))[p] for p in order]),
         lambda f, g: concatenate_words(extract_bytes(z3.Concat(g, f), p, 1) for p in order)),
        ([(a,) for a in forms], "zero", lambda a: T.zero_test("zero", w, a), lambda f: test(f, 1)),
        ([(a,) for a in forms], "nonzero", lambda a: T.zero_test("nonzero", w, a), lambda f: test(f, 0)),
        (pairs, "substitute", lambda a, b: T.substitute(a, {x: b}, {}),
         lambda f, g: z3.substitute(f, (formula(x), g))))
    for arguments, name, made, means in rules:
        yield from ((name, made, means, given) for given in arguments)


def why_term_is_wrong(t: T.Term, meant: Any) -> str | None:
    """Why a term is not what it should be, as text, or None."""
    if t.taint != T.taint_of(u.taint for u in T.variables(t)):
        return "%r has the taint %d" % (t, t.taint)
    differs = z3.simplify(formula(t) != meant, som=True)
    if z3.is_false(differs):
        return None
    solver = z3.Solver()
    solver.add(differs)
    found = solver.check()
    return None if found == z3.unsat else "%r is not %s for %s" % (
        t, meant, solver.model() if found == z3.sat else "unknown")


def value_is_as_meant(t: T.Term) -> bool:
    """Whether a term has the number that it means, for some random numbers."""
    numbers = T.RandomNumbers(1)
    given = [(z3.Bool(u.args[0]), z3.BoolVal(numbers[u.args[0]] & 1 == 1)) if u.op == "ite" else
             (formula(u), z3.BitVecVal(numbers[u.args], u.w)) for u in T.variables(t)]
    return z3.simplify(z3.substitute(formula(t), *given)).as_long() == T.value(t, numbers, {})


def check_rules(width: int, has_all: bool) -> tuple:
    """Whether all rules hold at a width: a verdict, and how many cases there are."""
    T.reset()
    count: dict = {}
    if not all(map(value_is_as_meant, example_terms(width))):
        return "not ok", "the number of a term is not what it means"
    for rule, made, means, arguments in rule_cases(width, has_all):
        count.setdefault(rule, 0)
        try:
            t = made(*arguments)
        except T.CannotShow:
            continue
        count[rule] += 1
        why = why_term_is_wrong(t, means(*map(formula, arguments)))
        if why:
            return "not ok", "%s: %s" % (rule, " ".join(why.split()))
    return "ok" if all(count.values()) else "not ok", "cases: " + ", ".join("%s %d" % pair for pair in count.items())
