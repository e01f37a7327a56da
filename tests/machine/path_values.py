"""Numbers for the variables of a path of a call. Two words that differ for some are not the same."""

import re
from typing import Any

import rfc7693 as R
import terms as T
from machine import chunks
from symbolic import choose_if_below, definition_of_byte
from terms import CannotShow, IsWrong

SEEDS, BLOCKS = 4, 8                   # of random bytes; and the most blocks that are compressed
RESULT = re.compile(r"(?:F|blocks)(\d+)\.(\d+)")              # names a word of a compression
KINDS = {kind.name: kind for kind in (R.BLAKE2B, R.BLAKE2S)}


class ExampleNumbers(T.RandomNumbers):
    """The numbers that a model has, random ones for other inputs, and what follows from these. A variable that a path
    has made has no number, except undefined bytes of the stack."""

    def __init__(self, seed: int, names: dict, results: dict) -> None:
        super().__init__(seed, tuple(names.items()))
        self.results = {n: what for what, n in results.items()}

    def byte_value(self, b: Any) -> int:
        return b if isinstance(b, int) else T.value(b[0], self, {}) >> 8 * b[1] & 255

    def __missing__(self, name: Any) -> int:
        if isinstance(name, tuple):
            number = self.value_of_derived_byte(*name)
        elif RESULT.fullmatch(name):
            result, k = map(int, RESULT.fullmatch(name).groups())      # type: ignore[union-attr]
            number = self.chaining_words(*self.results[result])[k]
        elif "~" in name and not name.startswith("stack"):
            raise CannotShow("the number of %s is not known" % name)
        else:
            return super().__missing__(name)
        self[name] = number
        return number

    def value_of_derived_byte(self, what: str, *rest: Any) -> int:
        """A choice, an or or a comparison of bytes, or a byte of a buffer."""
        if what == "below":
            j, n, a, b = rest
            return self.byte_value(a if j < T.value(n, self, {}) else b)
        if what in ("any", "zero"):
            total = 0
            for b in rest[0]:
                total |= self.byte_value(b)
            return total if what == "any" else int(total == 0)
        return super().__missing__("%s at %d" % (what, T.value(rest[0], self, {}))) & 255

    def chaining_words(self, what: str, name: str, chain: tuple, *rest: Any) -> list:
        """The chaining words after one block, or after the blocks of a buffer."""
        kind, data = KINDS[name], [self.byte_value(b) for b in chain]
        if what == "F":
            block, count, last, node = rest
            block = [self.byte_value(b) for b in block]
            data = R.compress_block(kind, data, block, T.value(count, self, {}), last, node)
        else:
            start, blocks, count = (T.value(t, self, {}) for t in rest[1:])
            if blocks > BLOCKS:
                raise CannotShow("there are more than %d blocks" % BLOCKS)
            byte = lambda j: self.value_of_derived_byte(rest[0], T.const(64, j))
            data = R.compress_blocks(kind, data, byte, start, blocks, count)
        return [int.from_bytes(bytes(word), "little") for word in chunks(data, kind.bytes)]


def inputs_where_bytes_differ(facts: Any, results: dict, x: T.Byte, y: T.Byte) -> str | None:
    """Numbers for which all facts of a path hold and two bytes differ, as text, or None."""
    for limit in (5, 1000, None):
        model = facts.model_below(limit)
        for seed in range(1, SEEDS + 1) if model else ():
            numbers = ExampleNumbers(seed, model, results)
            try:
                if all(facts.facts_hold_for(numbers)) and numbers.byte_value(x) != numbers.byte_value(y):
                    return model.inputs_text()
            except CannotShow:
                break
    return None


class ByteEquality:
    """Which bytes are the same by what a path knows: of the numbers by which they are chosen, and of what was
    compressed. `results` has the compressions of the path."""

    def __init__(self, m: Any, results: dict) -> None:
        self.m, self.results, self.memo = m, list(results), dict[Any, Any]()
        self.found: dict = {}          # pairs of compressions -> whether their arguments are the same

    def __call__(self, x: T.Byte, y: T.Byte) -> bool:
        x, y = self.with_known_values(x), self.with_known_values(y)
        if x == y:
            return True
        (kind, *p), (other, *q) = definition_of_byte(x), definition_of_byte(y)
        if "below" in (kind, other) and kind != other:
            chosen, z = (p, y) if kind == "below" else (q, x)
            return self.with_known_values(choose_if_below(self.m, *chosen)) == z
        if kind == "below":
            return p[0] == q[0] and self.m.relation_always_holds("==", p[1], q[1]) and all(map(self, p[2:], q[2:]))
        a, b = compression_of_byte(x), compression_of_byte(y)
        return bool(a and b) and a[1:] == b[1:] and self.compressions_are_equal(a[0], b[0])

    def with_known_values(self, b: T.Byte) -> T.Byte:
        """A byte, in which variables of which the value is known are numbers."""
        values = self.m.path_facts.known_values()
        return b if isinstance(b, int) else T.split(T.substitute(b[0], values, self.memo))[b[1]]

    def compressions_are_equal(self, a: int, b: int) -> bool:
        if (a, b) not in self.found:
            self.found[a, b] = all(map(self.arguments_are_equal, self.results[a], self.results[b]))
        return self.found[a, b]

    def arguments_are_equal(self, p: Any, q: Any) -> bool:
        if isinstance(p, tuple):
            return all(map(self, p, q))
        are_terms = isinstance(p, T.Term) and isinstance(q, T.Term)
        return p is q or p == q or are_terms and self.m.relation_always_holds("==", p, q)


def compression_of_byte(b: T.Byte) -> tuple:
    """Of a byte of a compression's chaining words: the number of this, and those of the word and the byte in it."""
    if isinstance(b, int) or b[0].op != "var" or not isinstance(b[0].args, str):
        return ()
    found = RESULT.fullmatch(b[0].args)
    return (*map(int, found.groups()), b[1]) if found else ()


def need_same(m: Any, results: dict, what: str, found: list, wanted: list) -> None:
    """Refuses other bytes than are wanted. `results` has the compressions of the path."""
    if len(found) != len(wanted):
        raise CannotShow("%s: %d bytes, not %d" % (what, len(found), len(wanted)))
    are_alike = ByteEquality(m, results)
    for k, (x, y) in enumerate(zip(found, wanted)):
        if x == y or are_alike(x, y):
            continue
        a, b = T.word([x]), T.word([y])
        if not (a.taint | b.taint) & ~T.PUBLIC and m.relation_always_holds("==", a, b):
            continue                   # they are the same by what the path knows of public bytes
        text = "byte %d of %s is %s, not %s" % (k, what, T.show(x, 4), T.show(y, 4))
        inputs = inputs_where_bytes_differ(m.path_facts, results, x, y)
        raise IsWrong("%s: for %s" % (text, inputs)) if inputs else CannotShow(text)
