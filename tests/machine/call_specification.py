"""What the exported functions of BLAKE2b and BLAKE2s write and return, from the contracts in crates/blake2_ffi and from
RFC 7693. In this file a reviewer reads what whole_calls.py shows.

Each function below is that of the export of its name. A state is the struct of vulfsjor.h, with the names of its
fields. `a` has the operations on bytes: over numbers, and over terms. With numbers, check_paths.py compares the
digests with hashlib's. With terms, whole_calls.py compares all bytes that the machine code writes.

A byte string is a list of bytes; one of a length that is no number has as many bytes as it may have at most. Words are
lists of bytes too, the lowest first (2.4). `a.choose_if_below(j, n, x, y)` is the byte x if j < n, and otherwise y."""

from __future__ import annotations

from types import SimpleNamespace
from typing import Any, Callable, NamedTuple

from rfc7693 import HashFamily
from symbolic import Buffer
from terms import Term


class Field(NamedTuple):
    """A field of a struct of vulfsjor.h: its bytes, and those of each element of an array, or 0 of a number."""

    name: str
    size: int
    element: int = 0


class State(SimpleNamespace):
    """A state. Its numbers are terms or numbers, and its arrays lists of bytes."""

    def but(self, **changes: Any) -> Any:
        """The state with other values of some fields."""
        return State(**{**vars(self), **changes})


def fields(kind: HashFamily) -> tuple:
    """The fields of a state, in the order of the struct, which has no gaps."""
    numbers = (Field(name, kind.bytes // 2) for name in ("pending_length", "start_length", "output_size", "last_node"))
    return (Field("chain", kind.w, kind.bytes), Field("first", kind.w, kind.bytes), Field("counter", 8), *numbers,
            Field("pending", kind.block, 1), Field("key", kind.w, 1))


def wiped_state(kind: HashFamily, of: Callable = fields) -> State:
    """The wiped state, which is not ready."""
    return State(**{f.name: [0] * f.size if f.element else 0 for f in of(kind)})


# When a call is accepted. Each condition is (numbers, the least value of their sum, the largest); a call is accepted if
# all hold. A count is refused from 2^64 on.

MOST_COUNTED = 2 ** 64 - 1


def ready_conditions(kind: HashFamily, s: State) -> list:
    """A state returns digests if these hold."""
    return [((s.output_size,), 1, kind.w), ((s.pending_length,), 0, kind.block),
            ((s.start_length,), 0, kind.block), ((s.counter, s.pending_length), 0, MOST_COUNTED)]


def key_length_byte(a: Any, kind: HashFamily, data: list) -> list:
    """The length of the key, the block's second byte (2.8), by that of the first words; and the other way (2.5)."""
    return a.xor(kind.iv[0].to_bytes(kind.bytes, "little")[1:2], data)


def key_conditions(a: Any, kind: HashFamily, s: State) -> list:
    """Verify also needs a key."""
    return [((a.from_bytes(key_length_byte(a, kind, s.first[1:2])),), 1, 255)]


def length_conditions(kind: HashFamily, output_size: Any, key_size: Any, salt_size: Any = 0,
                      persona_size: Any = 0) -> list:
    """The lengths that RFC 7693, 2.1, and the BLAKE2 document, 2.8, allow."""
    return [((output_size,), 1, kind.w), ((key_size,), 0, kind.w),
            ((salt_size,), 0, kind.w // 4), ((persona_size,), 0, kind.w // 4)]


def tree_conditions(kind: HashFamily, depth: Any, node_offset: Any, inner_length: Any) -> list:
    most = 2 ** 64 - 1 if kind.w == 64 else 2 ** 48 - 1
    return [((depth,), 1, 255), ((node_offset,), 0, most), ((inner_length,), 0, kind.w)]


def exact_length_conditions(n: Term, room: Term) -> list:
    """The output has room for n bytes exactly: room - n is 0."""
    return [((room, (-1, n)), 0, 0)]


def count_conditions(*numbers: Term | int) -> list:
    return [(numbers, 0, MOST_COUNTED)]


# The states that the inits make.

def parameter_block(a: Any, kind: HashFamily, output_size: Any, key_size: Any, tree: list | tuple, texts: list) -> list:
    """The BLAKE2 document, 2.8. The texts are salt and persona, padded with zeros."""
    fanout, depth, leaf_length, node_offset, node_depth, inner_length = tree
    big = kind.w == 64
    numbers = ((output_size, 1), (key_size, 1), (fanout, 1), (depth, 1), (leaf_length, 4),
               (node_offset, 8 if big else 6), (node_depth, 1), (inner_length, 1))
    return [b for n, size in numbers for b in a.number_bytes(n, size)] + [0] * (14 if big else 0) + texts


TREE = ("fanout", "depth", "leaf_length", "node_offset", "node_depth", "inner_length")
# The struct of tree parameters.
TREE_FIELDS = (Field("node_offset", 8), Field("leaf_length", 4), Field("fanout", 1), Field("depth", 1),
               Field("node_depth", 1), Field("inner_length", 1))
SEQUENTIAL = (1, 1, 0, 0, 0, 0)


def padded(a: Any, data: Buffer | Callable, n: Term | int, size: int) -> list:
    """n bytes of data, and zeros up to a size."""
    return [a.choose_if_below(j, n, data(j), 0) for j in range(size)]


def no_bytes(_: int) -> int:
    """A salt, a persona or a key of no bytes."""
    return 0


def from_block(a: Any, kind: HashFamily, block: list, output_size: Term) -> State:
    """The state of a parameter block: the initialization vector xor the block (2.5)."""
    first = a.xor(b"".join(n.to_bytes(kind.bytes, "little") for n in kind.iv), block)
    return wiped_state(kind).but(chain=first, first=first, output_size=output_size)


def init(a: Any, kind: HashFamily, output_size: Any, key: Buffer, key_size: Any, salt: Buffer | Callable = no_bytes,
         salt_size: Any = 0, persona: Buffer | Callable = no_bytes, persona_size: Any = 0,
         tree: list | tuple = SEQUENTIAL) -> State:
    """The inits but init_param. Under a key, a block of it is pending (2.9, 3.3)."""
    texts = padded(a, salt, salt_size, kind.w // 4) + padded(a, persona, persona_size, kind.w // 4)
    s = from_block(a, kind, parameter_block(a, kind, output_size, key_size, tree, texts), output_size)
    if a.holds("==", key_size, 0):
        return s
    pending = padded(a, key, key_size, kind.block)
    return s.but(pending_length=kind.block, start_length=kind.block, pending=pending, key=pending[:kind.w])


def init_param(a: Any, kind: HashFamily, block: list) -> State:
    """The parameter block is given, and so is the key's block, as the first input."""
    return from_block(a, kind, block, a.from_bytes(block[:1]))


# What is left on the stack.

def must_scrub(a: Any, *conditions: tuple) -> bool:
    """A call that has read a key, or compressed the block of one, overwrites its part of the stack: if the first
    number of each of these pairs is less. They are (0, key_size) for an init and the call in one, and (counter,
    start_length) for update, final and verify, because the key's block is then the next or a later one that is
    compressed. Calls that are refused have read none."""
    return all(a.may_be_less(*pair) for pair in conditions)


# Messages.

def update_within_block(a: Any, kind: HashFamily, s: State, data: Buffer | Callable, n: Any) -> State:
    """n bytes that the pending block has room for: pending_length + n <= block."""
    at = s.pending_length
    pending = s.pending[:at] + [a.choose_if_below(j, n, data(j), s.pending[at + j]) for j in range(kind.block - at)]
    return s.but(pending=pending, pending_length=at + n)


def update_over_blocks(a: Any, kind: HashFamily, s: State, data: Buffer | Callable, k: Any, t: Any) -> State:
    """More bytes: fill + k blocks + t, where 1 <= t <= block and `fill` bytes fill the pending block, or none if
    nothing is pending, when 1 <= k. The last block stays pending (3.3)."""
    fill = kind.block - s.pending_length if s.pending_length else 0
    chain, count = s.chain, s.counter
    if s.pending_length:
        count = count + kind.block
        block = s.pending[:s.pending_length] + [data(j) for j in range(fill)]
        chain = a.compress(kind, chain, block, count, 0, 0)
    chain = a.compress_all(kind, chain, data, fill, k, count)
    rest = a.word(fill + kind.block * k)
    pending = [a.choose_if_below(j, t, data(rest + j), 0) for j in range(kind.block)]
    return s.but(chain=chain, counter=count + kind.block * k, pending=pending, pending_length=t)


def digest(a: Any, kind: HashFamily, s: State) -> list:
    """The longest digest: the last block, padded with zeros, with the flag f0, and f1 if the node is the last one
    (3.3; the BLAKE2 document, 2.10)."""
    block = [a.choose_if_below(j, s.pending_length, b, 0) for j, b in enumerate(s.pending)]
    count = s.counter + s.pending_length
    return a.compress(kind, s.chain, block, count, 1, int(a.holds("!=", s.last_node, 0)))


def final(a: Any, kind: HashFamily, s: State, out: Buffer) -> tuple:
    """The state after a call, and the output: the digest, which is as long as the output."""
    return wiped_state(kind), [a.choose_if_below(j, s.output_size, b, out(j)) for j, b in enumerate(digest(a, kind, s))]


def one_shot(a: Any, kind: HashFamily, output_size: Any, key: Buffer, key_size: Any, absorb: Callable,
             out: Buffer) -> list:
    """All of it, where `absorb` is one of both updates."""
    return final(a, kind, absorb(init(a, kind, output_size, key, key_size)), out)[1]


def verify(a: Any, kind: HashFamily, s: State, tag: Buffer) -> Any:
    """The tag is the digest if this byte is 1, and not if it is 0. It has output_size bytes; a tag of another length
    is not the digest. The state is then wiped."""
    size = s.output_size
    return a.are_equal([tag(j) for j in range(size)], digest(a, kind, s)[:size])


def reset(s: State) -> State:
    pending = s.key + [0] * (len(s.pending) - len(s.key))
    return s.but(chain=s.first, counter=0, pending_length=s.start_length, pending=pending)


def set_last_node(s: State, on: bool) -> State:
    return s.but(last_node=int(on))


def count(a: Any, s: State) -> Term | int:
    """What was absorbed since the start, without the key's block, and at least 0."""
    absorbed = s.counter + s.pending_length
    return 0 if a.holds("<", absorbed, s.start_length) else absorbed - s.start_length
