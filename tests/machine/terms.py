"""Words as terms in a normal form, such that equal terms are the same object. A term stands for a word of w bits, as a
function of variables. Each constructor below returns the normal form of its result:

  const     a number
  var       a variable; its taint is PUBLIC, SECRET or JUNK
  ite       a constant that depends on one condition (a flag of the call): (name, if on, if off)
  add       a sum modulo 2^w: a constant, and terms with coefficients
  xor       an exclusive or: a constant, and a set of terms
  ror       a rotation by less than w of a term that is not an xor
  shr       a logical shift to the right by a number of bits that is not a multiple of 8
  slice     bytes of a wider term
  cat       bytes of several terms
  zero      1 if a term is 0, and otherwise 0
  nonzero   0 if a term is 0, and otherwise 1

A value in a register or in memory is a list of bytes, the lowest first. A byte is a number, or the pair of a term and
of the place of the byte in it. So moves and shuffles only move pairs."""

import functools
import operator
import random
from typing import Any, Callable, Iterable, Tuple, Union

PUBLIC, SECRET, JUNK = 1, 2, 4
OPPOSITE = {"==": "!=", "!=": "==", "<": ">=", ">=": "<", ">": "<=", "<=": ">",
            "carry": "no carry", "no carry": "carry"}
LIMIT, WIDEST = 200000, 128            # of all terms, and of the parts of one


class ClaimNotShown(Exception):
    """The claim is not shown. The subclass says why."""

    kind = "cannot show"


class CannotShow(ClaimNotShown):
    """The tool has no rule for this case: the code may be right, and the tool has to learn more."""


class IsWrong(ClaimNotShown):
    """The code breaks the claim. The message has the inputs, if it depends on them."""

    kind = "is wrong"


class Term:
    """A word of w bits. Two terms of the same normal form are one object."""

    __slots__ = ("op", "w", "args", "serial", "taint", "sum", "bytes")

    def __init__(self, op: str, w: int, args: Any, serial: int, taint: int) -> None:
        self.op, self.w, self.args, self.serial, self.taint = op, w, args, serial, taint
        self.sum: Any = None           # of a sum, what linear() has returned
        self.bytes: Any = None         # what split() has

    def __repr__(self) -> str:
        return show(self, 3)

    # Sums of words and numbers.
    __add__: Any = lambda a, b: add(a.w, (1, a), (1, as_term(a.w, b)))
    __sub__: Any = lambda a, b: add(a.w, (1, a), (-1, as_term(a.w, b)))
    __radd__, __rsub__ = __add__, lambda a, n: const(a.w, n) - a
    __rmul__: Any = lambda a, k: add(a.w, (k, a))
    __neg__: Any = lambda a: add(a.w, (-1, a))


# A byte: a number, or the byte of a term at a place from its lowest one on.
Byte = Union[int, Tuple[Term, int]]

_table: dict = {}
_memos: list = []                            # functions of terms that remember what they have returned


def _term(op: str, w: int, args: Any, taint: int) -> Term:
    key = (op, w, args)
    found = _table.get(key)
    if found is None:
        if len(_table) >= LIMIT or op in ("add", "xor") and len(args[1]) > WIDEST:
            raise CannotShow("the terms grow beyond the limit, so they do not match")
        found = _table[key] = Term(op, w, args, len(_table), taint)
    return found


def reset() -> None:
    """Forgets all terms. Older terms must not be used with later ones."""
    for t in _table.values():          # which are in their own bytes
        t.bytes = None
    _table.clear()
    for f in _memos:
        f.cache_clear()


def memoized(f: Callable) -> Callable:
    """A function that computes its result once for the same arguments, until all terms are forgotten."""
    _memos.append(functools.lru_cache(maxsize=None)(f))
    return _memos[-1]


def show(t: Any, depth: int) -> str:
    """A term as text, without its deeper parts."""
    if not isinstance(t, (Term, tuple)):
        return str(t)
    if isinstance(t, Term) and t.op in ("const", "var"):
        return hex(t.args) if t.op == "const" else str(t.args)
    if depth == 0:
        return ".."
    parts = t if isinstance(t, tuple) else t.args
    shown = [show(p, depth - 1) for p in parts[:5]] + [".. %d in all" % len(parts)] * (len(parts) > 5)
    return ("" if isinstance(t, tuple) else "%s%d" % (t.op, t.w)) + "[" + ", ".join(shown) + "]"


def signed(w: int, n: int) -> int:
    """A number of w bits as one from -2^(w-1) on."""
    return n - (1 << w) if n >> w - 1 else n


def const(w: int, n: int) -> Term:
    """The number n modulo 2^w."""
    return _term("const", w, n & ((1 << w) - 1), 0)


def as_term(w: int, n: Term | int) -> Term:
    """A word, or that of a number."""
    return const(w, n) if isinstance(n, int) else n


def var(w: int, name: Any, taint: int) -> Term:
    return _term("var", w, name, taint)


def has_var(w: int, name: Any) -> bool:
    return ("var", w, name) in _table


def ite(w: int, condition: Any, on: int, off: int) -> Term:
    """The number `on` if the flag of this name is on, and otherwise `off`."""
    if on == off:
        return const(w, on)
    return _term("ite", w, (condition, on, off), PUBLIC)


def fold_constants(f: Callable, w: int, *terms: Any) -> Term | None:
    """The result of f on numbers, where each term is a number or depends on one condition."""
    condition = None
    for t in terms:
        if t.op == "ite":
            if condition not in (None, t.args[0]):
                return None
            condition = t.args[0]
        elif t.op != "const":
            return None
    mask = (1 << w) - 1
    at = lambda k: [t.args if t.op == "const" else t.args[k] for t in terms]
    if condition is None:
        return const(w, f(*at(0)))
    return ite(w, condition, f(*at(1)) & mask, f(*at(2)) & mask)


def linear(t: Term) -> tuple:
    """The constant and the coefficients of a term as a sum."""
    if t.op != "add":
        return (t.args, {}) if t.op == "const" else (0, {t: 1})
    if t.sum is None:
        t.sum = t.args[0], dict(t.args[1])
    return t.sum


def need_width(w: int, *terms: Term) -> None:
    for t in terms:
        if t.w != w:
            raise CannotShow("%r has %d bits instead of %d" % (t, t.w, w))


@memoized
def add(w: int, *given: tuple) -> Term:
    """The sum of pairs of a coefficient and a term."""
    constant, has_flag = 0, False
    sums: dict = {}
    for factor, t in given:
        if t.w != w:
            need_width(w, t)
        if t.op == "add":
            constant += factor * t.args[0]
            for u, k in t.args[1]:
                sums[u] = sums.get(u, 0) + factor * k
        elif t.op == "const":
            constant += factor * t.args
        else:
            sums[t] = sums.get(t, 0) + factor
            has_flag |= t.op == "ite"
    if has_flag:
        simple = fold_constants(lambda *a: sum(k * n for (k, _), n in zip(given, a)), w, *[t for _, t in given])
        if simple:
            return simple
    mask = (1 << w) - 1
    constant &= mask
    items = [(u, k & mask) for u, k in sums.items() if k & mask]
    if not items:
        return const(w, constant)
    if constant == 0 and len(items) == 1 and items[0][1] == 1:
        return items[0][0]
    items.sort(key=lambda item: item[0].serial)
    return _term("add", w, (constant, tuple(items)), taint_of([u.taint for u, _ in items]))


def taint_of(taints: Iterable) -> int:
    return functools.reduce(operator.or_, taints, 0)


def _xor_members(terms: tuple) -> tuple:
    """The constant, the flags' masks and the other members of an exclusive or."""
    constant = 0
    chosen: dict = {}
    members: set = set()
    for t in terms:
        for u in t.args[1] if t.op == "xor" else (t,):
            if u.op == "ite":
                name, on, off = u.args
                constant ^= off
                chosen[name] = chosen.get(name, 0) ^ on ^ off
            elif u.op == "const":
                constant ^= u.args
            else:
                members ^= {u}
        if t.op == "xor":
            constant ^= t.args[0]
    return constant, {n: m for n, m in chosen.items() if m}, members


@memoized
def xor(w: int, *terms: Any) -> Term:
    need_width(w, *terms)
    constant, marks, members = _xor_members(terms)
    if not members and not marks:
        return const(w, constant)
    if not members and len(marks) == 1:
        (name, m), = marks.items()
        return ite(w, name, m ^ constant, constant)
    members |= {ite(w, n, m, 0) for n, m in marks.items()}
    if constant == 0 and len(members) == 1:
        return members.pop()
    found = sorted(members, key=lambda u: u.serial)
    return _term("xor", w, (constant, tuple(found)), taint_of([u.taint for u in found]))


def _ror_number(w: int, n: int, k: int) -> int:
    return (n >> k | n << (w - k)) & ((1 << w) - 1)


@memoized
def ror(w: int, t: Any, k: int) -> Term:
    """A rotation to the right by k bits."""
    need_width(w, t)
    k %= w
    if k == 0:
        return t
    if t.op == "xor":
        return xor(w, const(w, _ror_number(w, t.args[0], k)), *[ror(w, u, k) for u in t.args[1]])
    if t.op == "ror":
        return ror(w, t.args[0], t.args[1] + k)
    if t.op == "cat" and k % 8 == 0:
        return word(t.args[k // 8:] + t.args[:k // 8])
    return fold_constants(lambda a: _ror_number(w, a, k), w, t) or _term("ror", w, (t, k), t.taint)


def shl(w: int, t: Term, k: int) -> Term:
    """A shift to the left by k bits, 0 < k < w."""
    if k % 8 == 0:
        return word([0] * (k // 8) + split(t)[:(w - k) // 8])
    return add(w, (1 << k, t))


def shr(w: int, t: Term, k: int) -> Term:
    """A logical shift to the right by k bits, 0 < k < w."""
    if k % 8 == 0:
        return word(split(t)[k // 8:] + [0] * (k // 8))
    return fold_constants(lambda a: a >> k, w, t) or _term("shr", w, (t, k), t.taint)


def rotation_of_shifted(w: int, a: Term, b: Term) -> Term | None:
    """The rotation that two shifted words make, whose bits do not overlap, or None."""
    for low, high in ((a, b), (b, a)):
        if low.op == "shr" and high.op == "add":
            t, k = low.args
            if high is shl(w, t, w - k):
                return ror(w, t, k)
    return None


def combine_disjoint_bytes(a: Term, b: Term) -> Term | None:
    """The bytes of two words of which one is zero in each byte, or None."""
    pairs = list(zip(split(a), split(b)))
    return word(y if x == 0 else x for x, y in pairs) if all(0 in pair for pair in pairs) else None


def bitwise_or(w: int, a: Term, b: Term) -> Term:
    return fold_constants(operator.or_, w, a, b) or rotation_of_shifted(w, a, b) or word(
        map(or_byte, split(a), split(b)))


def bitwise_and(w: int, a: Term, b: Term) -> Term:
    return fold_constants(operator.and_, w, a, b) or word(map(and_byte, split(a), split(b)))


def _combine_bytes(f: Callable, neutral: int, x: Byte, y: Byte) -> Byte:
    """An or or an and of two bytes, of which one number keeps the other byte, and its complement is the result."""
    if y in (x, neutral):
        return x
    if x == neutral:
        return y
    if 255 - neutral in (x, y):
        return 255 - neutral
    found = fold_constants(f, 8, word([x]), word([y]))
    if not found:
        raise CannotShow("there is no rule for the %s of %r and %r" % (f.__name__.strip("_"), x, y))
    return split(found)[0]


or_byte = functools.partial(_combine_bytes, operator.or_, 0)
and_byte = functools.partial(_combine_bytes, operator.and_, 255)


def split(t: Any) -> list:
    """The bytes of a term."""
    if t.bytes is None:
        t.bytes = _split(t)
    return t.bytes[:]


def _split(t: Any) -> list:
    n = t.w // 8
    if t.op == "const":
        return list(t.args.to_bytes(n, "little"))
    if t.op == "ite":
        name, on, off = t.args
        pairs = zip(on.to_bytes(n, "little"), off.to_bytes(n, "little"))
        return [x if x == y else (ite(8, name, x, y), 0) for x, y in pairs]
    if t.op == "cat":
        return list(t.args)
    if t.op == "slice":
        return [(t.args[0], t.args[1] + i) for i in range(n)]
    if t.op == "ror" and t.args[1] % 8 == 0:
        data, k = split(t.args[0]), t.args[1] // 8
        return data[k:] + data[:k]
    return [(t, i) for i in range(n)]


def word(bs: Any) -> Term:
    """The term of a list of bytes."""
    first = bs[0] if isinstance(bs, list) else 0
    return first[0] if isinstance(first, tuple) and first[0].bytes == bs else _word(tuple(bs))


@memoized
def _word(bs: tuple) -> Term:
    n = len(bs)
    first = bs[0]
    if isinstance(first, tuple) and first[0].w >= 8 * n and all(
            isinstance(b, tuple) and b[0] is first[0] for b in bs):
        t, i = first
        least = min(k for _, k in bs)
        if all(b == (t, least + (i - least + k) % n) for k, b in enumerate(bs)):
            return ror(8 * n, slice_of(t, least, n), 8 * (i - least))
    names = {None if isinstance(b, int) else b[0].args[0] if b[0].op == "ite" else b for b in bs}
    names.discard(None)
    if len(names) > 1 or not all(isinstance(name, str) for name in names):
        return _term("cat", 8 * n, bs, taint_of([b[0].taint for b in bs if isinstance(b, tuple)]))
    number = lambda k: int.from_bytes(bytes(b if isinstance(b, int) else b[0].args[k] for b in bs), "little")
    return ite(8 * n, names.pop(), number(1), number(2)) if names else const(8 * n, number(0))


@memoized
def slice_of(t: Term, i: int, n: int) -> Term:
    """Bytes i to i + n - 1 of a term."""
    if t.w == 8 * n:
        return t
    part = lambda u: word(split(u)[i:i + n])
    if t.op == "xor":
        return xor(8 * n, part(const(t.w, t.args[0])), *[part(u) for u in t.args[1]])
    if t.op == "add" and i == 0:
        return add(8 * n, (1, const(8 * n, t.args[0])), *[(k, part(u)) for u, k in t.args[1]])
    return _term("slice", 8 * n, (t, i), t.taint)


def zero_test(op: str, w: int, t: Term) -> Term:
    """The truth of "zero" or "nonzero" of a term, as 0 or 1 in w bits."""
    if t.op == "nonzero":
        return zero_test(op, w, t.args[0])
    if t.op == "zero":
        return zero_test("nonzero" if op == "zero" else "zero", w, t.args[0])
    return fold_constants(lambda n: int((n == 0) == (op == "zero")), w, t) or _term(op, w, (t,), t.taint)


# The number that a term has by the definition of its operator, from its width, its arguments, and a function that has
# the number of each part. Its lowest bits count.
NUMBERS: dict = {
    "const": lambda w, a, of: a,
    "add": lambda w, a, of: a[0] + sum(k * of(u) for u, k in a[1]),
    "xor": lambda w, a, of: functools.reduce(operator.xor, map(of, a[1]), a[0]),
    "ror": lambda w, a, of: _ror_number(w, of(a[0]), a[1]),
    "shr": lambda w, a, of: of(a[0]) >> a[1],
    "slice": lambda w, a, of: of(a[0]) >> 8 * a[1],
    "cat": lambda w, a, of: sum((b if isinstance(b, int) else of(b[0]) >> 8 * b[1] & 255) << 8 * k
                                for k, b in enumerate(a)),
    "zero": lambda w, a, of: int(of(a[0]) == 0),
    "nonzero": lambda w, a, of: int(of(a[0]) != 0),
}
# What makes a term of other parts: the same of terms, in their normal form.
MADE: dict = {
    "add": lambda w, a, of: add(w, (1, const(w, a[0])), *[(k, of(u)) for u, k in a[1]]),
    "xor": lambda w, a, of: xor(w, const(w, a[0]), *map(of, a[1])),
    "ror": lambda w, a, of: ror(w, of(a[0]), a[1]),
    "shr": lambda w, a, of: shr(w, of(a[0]), a[1]),
    "slice": lambda w, a, of: word(split(of(a[0]))[a[1]:a[1] + w // 8]),
    "cat": lambda w, a, of: word(b if isinstance(b, int) else split(of(b[0]))[b[1]] for b in a),
    "zero": lambda w, a, of: zero_test("zero", w, of(a[0])),
    "nonzero": lambda w, a, of: zero_test("nonzero", w, of(a[0])),
}


def value(t: Term, numbers: Any, memo: dict) -> int:
    """The number that a term has, where `numbers` has those of the variables and whether each flag is on."""
    if t not in memo:
        if t.op == "var":
            n = numbers[t.args]
        elif t.op == "ite":
            n = t.args[1 if numbers[t.args[0]] & 1 else 2]
        else:
            n = NUMBERS[t.op](t.w, t.args, lambda u: value(u, numbers, memo))
        memo[t] = n & (1 << t.w) - 1
    return memo[t]


def substitute(t: Term, mapping: Any, memo: dict) -> Term:
    """A term with other terms for some variables."""
    if t not in memo:
        made = MADE.get(t.op)
        memo[t] = made(t.w, t.args, lambda u: substitute(u, mapping, memo)) if made else mapping.get(t, t)
    return memo[t]


def parts(t: Term) -> list:
    """The terms that a term is made of."""
    if t.op in ("const", "var", "ite"):
        return []
    inner = t.args[1] if t.op in ("add", "xor") else t.args
    found = (part[0] if isinstance(part, tuple) else part for part in inner)
    return [u for u in found if isinstance(u, Term)]


class RandomNumbers(dict):
    """Random numbers for the variables, the same for the same seed. Seed 0 has zeros only."""

    def __init__(self, seed: int, fixed: tuple = ()) -> None:
        super().__init__(fixed)
        self.seed = seed

    def __missing__(self, name: str) -> int:
        number = random.Random("%s %s" % (self.seed, name)).getrandbits(64) if self.seed else 0
        self[name] = number
        return number


def inputs_that_change(t: Term, taint: int) -> Any:
    """Inputs for which a term changes with a variable of this taint only, as text, or None."""
    changed = [u.args if u.op == "var" else u.args[0] for u in variables(t) if u.taint & taint]
    for seed in range(1, 9):
        other = RandomNumbers(seed, tuple((name, RandomNumbers(-seed)[name]) for name in changed))
        if value(t, RandomNumbers(seed), {}) != value(t, other, {}):
            return "it changes with %s" % ", ".join(sorted(map(str, changed))[:3])
    return None


@memoized
def variables(t: Term) -> frozenset:
    """The variables of a term, and its flags."""
    return frozenset([t] if t.op in ("var", "ite") else ()).union(*map(variables, parts(t)))
