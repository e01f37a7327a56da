"""What the exported functions of BLAKE2Xb and BLAKE2Xs write and return, from the contracts in crates/blake2_ffi,
from the BLAKE2X document and from its reference code. It is read as call_specification.py is, which has the hash that
both use: the root hash of the message."""

from __future__ import annotations

from typing import Any, Callable

import call_specification as S
from call_specification import Field, State
from rfc7693 import HashFamily
from symbolic import Buffer
from terms import Term


def fields(kind: HashFamily) -> tuple:
    """The fields of the root hash, and those of a reader of the output: the root hash once bytes were read, salt and
    persona, the length of the output, the bytes that were read, and whether any were."""
    return (*S.fields(kind), Field("root", kind.w, 1), Field("texts", kind.w // 2, 1), Field("xof_length", 8),
            Field("position", 8), Field("reading", 8))


def wiped_state(kind: HashFamily) -> State:
    """The wiped state."""
    return S.wiped_state(kind, fields)


def unknown_length(kind: HashFamily) -> int:
    """The length of an output whose length is not known in advance: all bits of its field."""
    return (1 << kind.w // 2) - 1


def output_length(kind: HashFamily, xof_length: Any, is_known: bool) -> Any:
    """The bytes that may be read. If the length is not known, there are 2^32 blocks."""
    return xof_length if is_known else kind.w << 32


# When a call is accepted, for a length that is known in advance, and for one that is not.

def output_length_conditions(kind: HashFamily, xof_length: Any, is_known: bool) -> list:
    unknown = unknown_length(kind)
    return [((xof_length,), 1, unknown - 1) if is_known else ((xof_length,), unknown, unknown)]


def usable_conditions(kind: HashFamily, s: State) -> list:
    """A state absorbs bytes if these hold and absorbing_conditions. It is ready if those of
    bytes_left_conditions hold for no bytes."""
    return S.ready_conditions(kind, s) + [
        ((s.output_size,), kind.w, kind.w), ((s.xof_length,), 1, unknown_length(kind))]


def bytes_left_conditions(length: Any, position: Term, n: Any) -> list:
    """n more bytes are not more than the output has."""
    return [((length, (-1, position), (-1, n)), 0, S.MOST_COUNTED)]


def absorbing_conditions(s: State) -> list:
    """Nothing was read since the start."""
    return [((s.reading,), 0, 0), ((s.position,), 0, 0)]


def length_conditions(kind: HashFamily, xof_length: Any, *others: Any) -> list:
    """The lengths of an init."""
    return [((xof_length,), 1, unknown_length(kind))] + S.length_conditions(kind, kind.w, *others)[1:]


# The calls.

def init(a: Any, kind: HashFamily, xof_length: Any, key: Any, key_size: Any, salt: Any = S.no_bytes, salt_size: Any = 0,
         persona: Any = S.no_bytes, persona_size: Any = 0) -> State:
    """The root hash has the longest digest, and the length of the output in its node offset."""
    tree = (1, 1, 0, (1 << 32) * xof_length, 0, 0)
    root = S.init(a, kind, kind.w, key, key_size, salt, salt_size, persona, persona_size, tree)
    texts = S.padded(a, salt, salt_size, kind.w // 4) + S.padded(a, persona, persona_size, kind.w // 4)
    return wiped_state(kind).but(**vars(root), xof_length=xof_length, texts=texts)


def reset(s: State) -> State:
    """No byte of a root hash that was read is left."""
    return S.reset(s).but(root=[0] * len(s.root), position=0, reading=0)


def begin_reading(a: Any, kind: HashFamily, s: State, is_reading: bool) -> State:
    """The first read ends the message: the root hash is its digest."""
    return s if is_reading else s.but(root=S.digest(a, kind, s), reading=1)


def squeeze(a: Any, kind: HashFamily, s: State, n: Any, is_reading: bool) -> State:
    """The state after a read of n bytes. The output has those of output_blocks() from the position on."""
    return begin_reading(a, kind, s, is_reading).but(position=s.position + n)


def output_blocks(a: Any, kind: HashFamily, s: State, is_known: bool) -> Callable:
    """The blocks of the output, by their numbers. Each is the hash of the root hash, without a key, and with
    parameters of its own; the last one may be shorter, so its length has less than a block."""
    def block(i: Any) -> list:
        left = output_length(kind, s.xof_length, is_known) - kind.w * i
        size = left if a.holds("<", left, kind.w) else kind.w
        tree = (0, 0, kind.w, i + (1 << 32) * s.xof_length, 0, kind.w)
        first = S.from_block(a, kind, S.parameter_block(a, kind, size, 0, tree, s.texts), size)
        return S.digest(a, kind, first.but(pending=s.root + [0] * (kind.block - kind.w), pending_length=kind.w))
    return block


def one_shot(a: Any, kind: HashFamily, size: Any, key: Buffer | Callable, key_size: Any, absorb: Callable) -> State:
    """The state of which all bytes are read, where `absorb` is one of both updates."""
    return begin_reading(a, kind, absorb(init(a, kind, size, key, key_size)), False)
