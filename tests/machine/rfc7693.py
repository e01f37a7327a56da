"""The compression function F of RFC 7693, section 3.2, over terms and over numbers."""

from typing import Any, Callable

import terms as T

SIGMA = (
    (0, 1, 2, 3, 4, 5, 6, 7, 8, 9, 10, 11, 12, 13, 14, 15),
    (14, 10, 4, 8, 9, 15, 13, 6, 1, 12, 0, 2, 11, 7, 5, 3),
    (11, 8, 12, 0, 5, 2, 15, 13, 10, 14, 3, 6, 7, 1, 9, 4),
    (7, 9, 3, 1, 13, 12, 11, 14, 2, 6, 5, 10, 4, 0, 15, 8),
    (9, 0, 5, 7, 2, 4, 10, 15, 14, 1, 11, 12, 6, 8, 3, 13),
    (2, 12, 6, 10, 0, 11, 8, 3, 4, 13, 7, 5, 15, 14, 1, 9),
    (12, 5, 1, 15, 14, 13, 4, 10, 0, 7, 6, 3, 9, 2, 8, 11),
    (13, 11, 7, 14, 12, 1, 3, 9, 5, 0, 15, 4, 8, 6, 2, 10),
    (6, 15, 14, 9, 11, 3, 0, 8, 12, 2, 13, 7, 1, 4, 10, 5),
    (10, 2, 8, 4, 7, 6, 1, 5, 15, 11, 9, 14, 3, 12, 13, 0),
)

COLUMNS_AND_DIAGONALS = (
    (0, 4, 8, 12), (1, 5, 9, 13), (2, 6, 10, 14), (3, 7, 11, 15),
    (0, 5, 10, 15), (1, 6, 11, 12), (2, 7, 8, 13), (3, 4, 9, 14),
)


class HashFamily:
    """The numbers of a family (2.1)."""

    def __init__(self, name: str, w: int, rounds: int, rotations: Any) -> None:
        self.name, self.w, self.rounds, self.rotations = name, w, rounds, rotations
        self.bytes = w // 8
        self.block = 2 * w
        # The first w bits of the fractions of the square roots of the first eight primes (2.6).
        self.iv = [square_root_fraction(p, w) for p in (2, 3, 5, 7, 11, 13, 17, 19)]


def square_root_fraction(n: Any, w: int) -> Any:
    """The first w bits of the fraction of the square root of n."""
    square, x = n << (2 * w), 1 << (w + 3)
    while x * x > square:
        x = (x + square // x) // 2
    return x & ((1 << w) - 1)


BLAKE2B = HashFamily("blake2b", 64, 12, (32, 24, 16, 63))
BLAKE2S = HashFamily("blake2s", 32, 10, (16, 12, 8, 7))


def compress_block(kind: HashFamily, chain: list, block: list, count: int, last: int, node: int) -> list:
    """The bytes of the chaining words after a block, of numbers: bytes, a counter, and flags that are 0 or 1."""
    words = lambda data: [int.from_bytes(data[k:k + kind.bytes], "little") for k in range(0, len(data), kind.bytes)]
    low, high, f0, f1 = (n & (1 << kind.w) - 1 for n in (count, count >> kind.w, -last, -node))
    found = F(kind, words(bytes(chain)), words(bytes(block)), low, high, f0, f1, NumberWords)
    return [b for n in found for b in n.to_bytes(kind.bytes, "little")]


def compress_blocks(kind: HashFamily, chain: list, data: Callable, start: int, blocks: int, count: int) -> list:
    """The same after some blocks of data, of which data(j) is a byte."""
    for at in range(0, blocks * kind.block, kind.block):
        block = [data(start + at + j) for j in range(kind.block)]
        chain = compress_block(kind, chain, block, count + at + kind.block, 0, 0)
    return chain


class NumberWords:
    """The operations of F on numbers, as terms.py has them on terms."""

    const = staticmethod(lambda w, n: n)
    add = staticmethod(lambda w, a, b, c=(0, 0): a[0] * a[1] + b[0] * b[1] + c[0] * c[1] & (1 << w) - 1)
    xor = staticmethod(lambda w, a, b, c=0: a ^ b ^ c)
    ror = staticmethod(lambda w, n, k: (n >> k | n << w - k) & (1 << w) - 1)


def F(kind: HashFamily, h: list, m: list, low: Any, high: Any, last: Any, last_node: Any, words: Any = T) -> list:
    """The chaining words after a block. `low` and `high` are the words of the counter, and the flags are words of
    zeros or ones; the second is that of the last node (BLAKE2, 2.10). `words` has the operations."""
    w, add, xor, ror = kind.w, words.add, words.xor, words.ror
    v = list(h) + [words.const(w, n) for n in kind.iv]
    for k, t in enumerate((low, high, last, last_node), 12):
        v[k] = xor(w, v[k], t)
    r1, r2, r3, r4 = kind.rotations
    for i in range(kind.rounds):
        s = SIGMA[i % 10]
        for k, (a, b, c, d) in enumerate(COLUMNS_AND_DIAGONALS):
            for x, p, q in ((m[s[2 * k]], r1, r2), (m[s[2 * k + 1]], r3, r4)):
                v[a] = add(w, (1, v[a]), (1, v[b]), (1, x))
                v[d] = ror(w, xor(w, v[d], v[a]), p)
                v[c] = add(w, (1, v[c]), (1, v[d]))
                v[b] = ror(w, xor(w, v[b], v[c]), q)
    return [xor(w, h[k], v[k], v[k + 8]) for k in range(8)]
