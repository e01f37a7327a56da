"""Runs what was proved. For each path of each case of a call, Z3 gives inputs, and the text runs on them: it must
return and write what is specified, for ARM in qemu. Its C library is hostile.S, which overwrites all that the calling
convention allows: with zeros, with ones, and with other bytes. Arguments that are only read are also the same, or
overlap; on ARM pointers have a tag; and the constants are also linked in another order. Also tests the specification
over numbers: its digests must be those of hashlib."""

import functools
import hashlib
import random
from types import SimpleNamespace
from typing import Any, Callable, Iterator, NamedTuple, cast

import call_cases
import call_specification as S
import facts
import program as programs
import rfc7693 as R
import symbolic
import terms as T
import xof_specification as X
from call_cases import COUNTS, MOST, REFUSED
from hostile import JUNK, Crash, HostileProgram, UnusableNumbers
from whole_calls import TermOperations

LONGEST = 2048                         # bytes of an argument that is made
TEXTS = [path for path in programs.functions.FILES if path.endswith(".s")]
WINDOW = 8                             # bytes of a key that must not be in the stack below
LIMIT, BLOCKS = 200, 5                 # of the numbers that Z3 gives for a path, if it can; and of blocks
TAG = 0xb4 << 56                       # of pointers, which a processor for ARM ignores
FLIPS = 3                              # bits that are changed in what is compared
SPARE = 8                              # bytes around each argument, which no call may change
SORTED = "-Wl,--sort-section=alignment"        # links constants in another order


def as_number(n: Any) -> int:
    """A number, which may be a term that is one."""
    return n.args if isinstance(n, T.Term) else n


class NumberOperations(TermOperations):
    """The operations of call_specification.py over numbers."""

    def are_equal(self, x: list, y: list) -> int:
        return int(x == y)

    def compress(self, kind: R.HashFamily, chain: list, block: list, count: Any, last: int, node: int) -> list:
        return R.compress_block(kind, chain, block, as_number(count), last, node)

    def compress_all(self, kind: R.HashFamily, chain: list, data: Any, start: Any, k: Any, count: Any) -> list:
        if as_number(k) > LONGEST:
            raise UnusableNumbers
        return R.compress_blocks(kind, chain, data, as_number(start), as_number(k), as_number(count))


A: Any = NumberOperations(cast(Any, None), SimpleNamespace(
    path_facts=facts.PathFacts(), settled=lambda t: t, size_of=lambda t: 8, bytes_of=T.split))


class ArgumentBytes:
    """Bytes of an argument. Those behind the end are 0, where a specification does not use what it reads."""

    def __init__(self, data: bytes) -> None:
        self.data = data

    def __call__(self, j: Any) -> int:
        return self.data[as_number(j)] if as_number(j) < len(self.data) else 0


class PlacedArgument(ArgumentBytes):
    """An argument in the memory of a call, with other bytes around it: at a place of its own, or in another."""

    is_null = False

    def __init__(self, hostile: HostileProgram, data: bytes, spare: bytes, whole: Any = None, shift: int = 0) -> None:
        super().__init__(data)
        self.hostile, self.whole, self.spare = hostile, whole, spare
        self.at = whole.at + shift if whole else hostile.place_in_memory(spare + data + spare) + len(spare)

    def address(self) -> int:
        return 0 if self.is_null else self.hostile.address(self.at)

    def holds_bytes(self, data: bytes) -> bool:
        """Whether a call has left these bytes, and those around."""
        start = self.at - len(self.spare)
        return bool(self.whole) or self.hostile.memory[start:][:len(data) + 2 * len(self.spare)] == (
            self.spare + data + self.spare)


class RunVariant(NamedTuple):
    """How a path is run: the byte that overwrites, or None for others; whether what is compared differs; how far the
    second argument that is only read is from the first, if it is in that; and the tag of pointers."""

    junk: int | None
    flip: int | None = None
    shift: int | None = None
    tag: int = 0


class ConcreteCase(call_cases.Case):
    """A case of a call with the numbers of a path."""

    def __init__(self, rng: random.Random, cases: Any, case: Any, names: dict, way: RunVariant,
                 hostile: HostileProgram) -> None:
        super().__init__(cases, case.choices)
        self.rng, self.of, self.names, self.way, self.hostile = rng, case, names, way, hostile
        self.is_long = self.shares = False
        self.first: PlacedArgument | None = None       # of the arguments that are only read
        self.memories: dict = {}

    def variable(self, name: str, w: int = 64) -> T.Term:
        return T.const(w, as_number(self.number(name)))

    def number(self, name: str, low: int = 0, high: int = MOST) -> T.Term:
        """That of the path, or any of the case."""
        low, high = self.of.limits.get(name, (low, high))
        return T.const(64, self.names.get(name, self.rng.choice((low, high, self.rng.randint(low, high)))))

    def secrets(self, name: str, size: int, w: int) -> list:
        return list(self.rng.randbytes(size))

    def bound_sum(self, numbers: tuple, low: int, high: int) -> None:
        total = sum(n[0] * as_number(n[1]) if isinstance(n, tuple) else as_number(n) for n in numbers)
        if not low <= total <= high:
            raise UnusableNumbers

    def chooses_null(self, name: str, length: Any) -> bool:
        """As in the case."""
        is_null = name in self.of.nulls and self.one_of(False, True)
        if is_null and as_number(length):
            raise UnusableNumbers
        return is_null

    def pass_struct(self, name: str, data: Any) -> None:
        self.add_memory(name, PlacedArgument(self.hostile, bytes(data), self.rng.randbytes(SPARE)))

    def add_memory(self, name: str, memory: PlacedArgument) -> None:
        self.memories[name] = memory
        self.arguments.append(memory)

    def pass_buffer(self, name: str, length: Any, taint: int = T.SECRET) -> Any:
        """A buffer that is too long to be made is that of a call that is refused."""
        n, is_null = as_number(length), self.chooses_null(name, length)
        self.is_long |= n > LONGEST
        data = bytearray(self.rng.randbytes(min(n, LONGEST)))
        if taint == T.PUBLIC or name == "out":
            self.pass_struct(name, [self.names.get((name, k), b) for k, b in enumerate(data)])
        else:
            self.add_memory(name, self.place_read_only(name, data))
        self.memories[name].is_null = is_null
        self.arguments.append(T.const(64, n))
        return self.memories[name]

    def place_read_only(self, name: str, data: bytearray) -> PlacedArgument:
        """An argument that is only read. The second may be in the first, whose bytes are then all the same. What is
        compared is the same, or differs in a bit."""
        spare, shift = self.rng.randbytes(SPARE), self.way.shift
        if shift:
            data, spare = bytearray(len(data)), bytes(SPARE)
        other, self.first = self.first, self.first or PlacedArgument(self.hostile, bytes(data), spare)
        if not other:
            return self.first
        if shift is not None and len(data) <= len(other.data):
            self.shares = True
            return PlacedArgument(self.hostile, (other.data + other.spare)[shift:][:len(data)], spare, other, shift)
        if name == "b" and self.way.flip is not None and len(data) == len(other.data):
            data = bytearray(other.data)
            if self.way.flip and data:
                k = self.rng.choice((0, len(data) - 1, self.rng.randrange(len(data))))
                data[k] ^= 1 << self.rng.randrange(8)
        return PlacedArgument(self.hostile, bytes(data), spare)

    def key_is_below_stack(self) -> bool:
        """Whether bytes of a key are in the stack below after a call that is not refused."""
        keys = [m.data for n, m in self.memories.items() if n == "key"]
        if "state" in self.memories and as_number(self.state.start_length):
            keys.append(bytes(vars(self.state)[symbolic.KEYS[0].rstrip(".")]))
        return not self.is_refused and any(key[k:k + WINDOW] in self.hostile.below for key in keys
                                           for k in range(len(key) - WINDOW + 1) if any(key[k:k + WINDOW]))

    def difference_from_specification(self, name: str, expected: Callable) -> str | None:
        tag = self.memories.get("tag")
        if tag and 0 < len(tag.data) == as_number(self.state.output_size):     # it is right, or has one wrong bit
            right = S.digest(A, self.kind, self.state)[:len(tag.data)]
            right[self.rng.randrange(len(right))] ^= self.rng.choice((0, 0, 1, 128))
            self.hostile.write(tag.at, bytes(right))
            tag.data = bytes(right)
        result, state, out = expected(A)
        if self.is_long and not self.is_refused:
            raise UnusableNumbers
        words = [x.address() if isinstance(x, PlacedArgument) else int.from_bytes(bytes(
            b if isinstance(b, int) else self.rng.randrange(256) for b in T.split(x)), "little")
            for x in self.arguments]
        found = self.hostile.call(name, words) & (1 << (64 if name.endswith(COUNTS) else 32)) - 1
        if self.hostile.is_other:
            raise T.IsWrong("a register, the stack pointer or the direction is not as before")
        if callable(result):           # what a comparison returns
            is_same = int(found == 0)
            result = result(SimpleNamespace(compared_bytes=(is_same, is_same)))
        if result is not None and found != as_number(result):
            return "it returns %d, not %d" % (found, as_number(result))
        wanted = {name: memory.data for name, memory in self.memories.items()}
        if state is not None:
            wanted["state"] = bytes(call_cases.bytes_of(self.fields, state))
        if "out" in wanted:
            data = bytes(out(None) if callable(out) else out)[:len(wanted["out"])]
            wanted["out"] = data + wanted["out"][len(data):]
        return next((name for name, memory in self.memories.items() if not memory.holds_bytes(wanted[name])), None)


def expected_output(case: ConcreteCase, n: T.Term, state: Callable, position: T.Term) -> Callable:
    """The bytes of a read, in place of those that loops.py compares."""
    def data(_: Any) -> bytes:
        blocks, w = functools.cache(X.output_blocks(A, case.kind, state(A), case.is_known)), case.kind.w
        return bytes(blocks(k // w)[k % w] for k in range(as_number(position), as_number(position) + as_number(n)))
    return data


class ConcreteMemoryCases(call_cases.MemoryCases):
    """The cases of memcmp and wipe; what is expected is a number and bytes."""

    def memcmp(self, case: Any) -> Callable:
        super().memcmp(case)
        return lambda a: (0 if case.memories["a"].data == case.memories["b"].data else REFUSED, None, [])

    def wipe(self, case: Any) -> Callable:
        super().wipe(case)
        return lambda a: (None, None, bytes(len(case.memories["out"].data)))


def example_inputs(known: facts.PathFacts) -> Iterator:
    """Numbers for which all facts of a path hold: small ones, any, and each variable's greatest, also by a limit."""
    variables = [t for t in known.variables if "address" not in str(t.args) and "~" not in str(t.args)]
    limits = {t: BLOCKS if t.args == "K" else LIMIT for t in variables}
    small = lambda v: [facts.integer_of_term(t) <= limits[t] for t in variables if t is not v]
    yield from (known.find_model(small(None), variables), known.model_below(None))
    for v in variables:
        low, high = known.range(v)
        for most in {min(high, limits[v]) if low <= limits[v] else high, high}:
            wanted = [facts.integer_of_term(v) == most]
            yield known.find_model(wanted + small(v), variables) or known.find_model(wanted, variables)


def numbers_by_name(model: Any) -> dict:
    """The numbers of a model, by the names of variables, or by those of buffers and the places of their bytes."""
    return {(n[0], n[1].args) if isinstance(n, tuple) else n: k for n, k in model.items()
            if isinstance(n, str) or len(n) == 2 and n[1].op == "const"}


class ExportPaths:
    """The paths of an export by the proof of a program, and what a text does on them."""

    def __init__(self, program: programs.Program, family: str, export: str, numbers: tuple) -> None:
        self.proof = call_cases.cases(program, family, *numbers)
        self.cases = (type(self.proof) if family else ConcreteMemoryCases)(program, family, *numbers)
        self.cases.output_check = expected_output
        self.export, self.rng = export, random.Random(3)
        self.paths = self.ran = self.left_out = 0

    def examples(self) -> Iterator:
        """Each case after its proof, and the numbers of each of its paths."""
        found: list = []

        def visit(end: Any) -> None:
            names = [numbers_by_name(m) for m in example_inputs(end.path_facts) if m]
            found.append([n for k, n in enumerate(names) if n not in names[:k]])
        self.proof.visit = visit
        for case, _ in self.proof.visit_cases(self.export, self.proof.prove_case):
            yield from ((case, names) for names in found)
            found.clear()

    def run_variants(self, is_arm: bool) -> list:
        found = [RunVariant(junk, k % 2) for junk in (0, 255, None) for k in range(FLIPS * (not self.proof.family))]
        found += [RunVariant(junk, None, shift) for junk in (0, 255, None) for shift in (None, 0, 4)]
        return found + [RunVariant(None, None, None, TAG)] * is_arm

    def difference_on_run(self, hostile: HostileProgram, case: Any, names: dict, way: RunVariant) -> str | None:
        """What the text does otherwise than is specified, or None. Raises UnusableNumbers if this cannot be run."""
        T.reset()
        junk = self.rng.randbytes(JUNK) if way.junk is None else bytes([way.junk]) * JUNK
        hostile.prepare_call(junk, way.junk is None, way.tag)
        made = ConcreteCase(self.rng, self.cases, case, names, way, hostile)
        expected = self.cases.fill(self.export, made)
        if way.shift is not None and not made.shares:
            raise UnusableNumbers
        try:
            why = made.difference_from_specification(self.cases.prefix + self.export, expected)
        except T.IsWrong as e:
            return str(e)
        except Crash:
            return "it crashes"
        is_left = hostile.leaves and made.key_is_below_stack()
        return why or ("%d bytes of a key are below the stack" % WINDOW if is_left else None)

    def difference_on_all_paths(self, path: str, text: str) -> str | None:
        """What a text does otherwise on the paths than is specified, or None."""
        both = [HostileProgram(path, text, *options) for options in ((), (SORTED,))]
        return next(filter(None, (self.difference_on_path(both, *found) for found in self.examples())), None)

    def difference_on_path(self, both: list, case: Any, examples: list) -> str | None:
        """The same of one path."""
        before, self.paths = self.ran, self.paths + 1
        for names in examples:
            for k, way in enumerate(self.run_variants(both[0].is_arm)):
                try:
                    why = self.difference_on_run(both[k % 2], case, names, way)
                except UnusableNumbers:
                    continue
                self.ran += 1
                if why:
                    return "%s%s, case %s: %s: for %s, %s" % (
                        self.proof.prefix, self.export, case.title(), why, names, way)
        self.left_out += self.ran == before
        return None


def check_text_on_paths(path: str, family: str, exports: list, *numbers: Any) -> tuple:
    """Whether a text does what was proved of it, of some exports or all, in some cases: a verdict, and what was run."""
    program, paths, ran, left_out = programs.read(path), 0, 0, 0
    for export in exports or call_cases.shown_exports(program, family):
        found = ExportPaths(program, family, export, numbers or call_cases.short_form_numbers(family))
        why = found.difference_on_all_paths(path, programs.editable_source(path))
        if why:
            return "not ok", why
        paths, ran, left_out = paths + found.paths, ran + found.ran, left_out + found.left_out
    return "ok", "%d calls for %d paths, %d paths not run" % (ran, paths, left_out)


def check_change_is_seen(row: Any) -> tuple:
    """Whether a changed text differs on the paths of the shipped one: a verdict, and why."""
    family, export = programs.require_match(r"whole (blake2x?[bs]|)(\S+)", row.function).groups()
    found = ExportPaths(programs.read(row.path), family, export, call_cases.short_form_numbers(family))
    why = found.difference_on_all_paths(row.path, row.apply_to_source(programs.editable_source(row.path)))
    return "ok" if why else "not ok", why or "%d calls see no difference" % found.ran


def state_after_update(kind: R.HashFamily, s: Any, data: bytes) -> Any:
    """The state after the update that the length of the data calls for."""
    pending, buffer = as_number(s.pending_length), ArgumentBytes(data)
    s = s.but(pending_length=pending)
    if pending + len(data) <= kind.block:
        return S.update_within_block(A, kind, s, buffer, len(data))
    k, rest = divmod(len(data) - -pending % kind.block - 1, kind.block)
    return S.update_over_blocks(A, kind, s, buffer, k, rest + 1)


def specified_and_hashlib_digests(rng: random.Random, kind: R.HashFamily) -> tuple:
    """The digest of a message that is absorbed in random pieces, under random parameters, and that of hashlib."""
    key, salt, persona = (rng.randbytes(rng.choice((0, rng.randrange(n + 1), n)))
                          for n in (kind.w, kind.w // 4, kind.w // 4))
    size, node = rng.randrange(1, kind.w + 1), rng.randrange(2)
    tree = [rng.randrange(256), rng.randrange(1, 256), rng.getrandbits(32),
            rng.getrandbits(64 if kind.w == 64 else 48), rng.randrange(256), rng.randrange(kind.w + 1)]
    texts: Any = [x for text in (key, salt, persona) for x in (ArgumentBytes(text), len(text))]
    s, message = S.init(A, kind, size, *(texts + [tree])), b""
    for _ in range(rng.randrange(4)):
        near = rng.randrange(4) * kind.block + rng.choice((-1, 0, 1, rng.randrange(64)))
        piece = rng.randbytes(max(0, near))
        s, message = state_after_update(kind, s, piece), message + piece
    names = ("fanout", "depth", "leaf_size", "node_offset", "node_depth", "inner_size")
    wanted = getattr(hashlib, kind.name)(message, digest_size=size, key=key, salt=salt, person=persona,
                                         last_node=bool(node), **dict(zip(names, tree)))
    return bytes(S.digest(A, kind, S.set_last_node(s, bool(node)))[:size]), wanted.digest()


def check_specified_digests(count: int) -> tuple:
    """Whether the specification agrees with hashlib: a verdict, and what was tried."""
    rng = random.Random(5)
    for kind in [R.BLAKE2B, R.BLAKE2S] * count:
        T.reset()
        found, wanted = specified_and_hashlib_digests(rng, kind)
        if found != wanted:
            return "not ok", "%s: the digest is not that of hashlib" % kind.name
    return "ok", "%d digests" % (2 * count)
