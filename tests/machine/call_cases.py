#!/usr/bin/env python3
"""The families of exported functions whose whole calls are shown, and the cases in which whole_calls.py shows them:
together all inputs of each function. In a case, some lengths are numbers, and others variables between two bounds. The
length of an output of BLAKE2X is known in advance in some, and not in others.

    tests/machine/call_cases.py FILE FAMILY EXPORT    one function, such as
                                dist/x86_64/vulfsjor-v3.s blake2b _final

Prints each case and its number of paths, or why it is refused."""

import itertools
import sys
from functools import partial
from typing import Any, Callable, Iterator

import call_specification as S
import compression
import constant_time
import facts
import loops
import program as programs
import rfc7693 as R
import terms as T
import xof_specification as X
from facts import PathFacts
from machine import joined
from path_values import need_same
from symbolic import Buffer, MemoryRegion, SymbolicState, WrittenPiece, fresh_bytes
from terms import CannotShow, IsWrong
from whole_calls import CallExecutor, StackUseUnknown, TermOperations

TITLES = {"blake2b": "BLAKE2b", "blake2s": "BLAKE2s", "blake2xb": "BLAKE2Xb", "blake2xs": "BLAKE2Xs",
          "": "memcmp and wipe"}
KINDS = {family: R.BLAKE2S if family.endswith("s") else R.BLAKE2B for family in TITLES}
PREFIX = "vulfsjor_ffi_"
ALONE = ("memcmp", "wipe")             # exports of no family
COUNTS = ("_digest_size", "_count", "_left", "_state_size")    # exports that return a word of 64 bits, 0 if refused
MOST = (1 << 64) - 1
REFUSED = (1 << 32) - 1                # -1, as a word of 32 bits
FREE, OFF, ON = (0, MOST), (0, 0), (1, MOST)
# Factors of the length of two buffers that are compared, and their most.
PARTS = ((128, MOST // 128), (32, 3), (8, 3), (4, 1), (1, 3))
# Whether a read is not the first, whether the node is the last one, and whether the length of the output is known.
READS = [(reading, node, is_known) for is_known in (True, False)
         for reading, node in ((OFF, OFF), (OFF, ON), (ON, FREE))]


class ConditionFails(Exception):
    """A condition of a call fails, so that it is refused."""


class Case:
    """A case of a call: its arguments, its memory, and what is known of its numbers. What it chooses, other cases
    choose otherwise, so that together they are all calls. The first choice is whether the call is refused."""

    def __init__(self, cases: Any, choices: tuple = ()) -> None:
        """With the first choices, by their places among others."""
        self.calls, self.kind, self.fields, self.choices = cases.calls, cases.kind, cases.fields, choices
        self.visit, self.bytes = cases.visit, TermOperations(cases.calls, None)
        self.chosen: list = []
        self.others: list = []         # the first choices of cases that choose otherwise
        self.known = PathFacts()
        self.arguments: list = []
        self.regions: dict = self.calls.program.constants_memory()
        self.limits: dict = {}         # the bounds of variables, by their names
        self.places: dict = {}         # the addresses of arguments, by their names
        self.structs: dict = {}        # the bytes of some of them
        self.after: Any = None         # the state after the call, if it is refused
        self.reads_key: tuple = ()     # the conditions of must_scrub, if the call absorbs bytes
        self.is_known = True           # of BLAKE2X: whether the length of the output is
        self.has_nulls = cases.has_nulls
        self.nulls: dict = {}          # whether buffers are null, of those that may be
        self.is_refused, self.fails = self.one_of(False, True), False

    def one_of(self, *choices: Any) -> Any:
        k = len(self.chosen)
        if k == len(self.choices):
            self.others += [self.choices + (other,) for other in range(1, len(choices))]
            self.choices += 0,
        self.chosen.append(choices[self.choices[k]])
        return self.chosen[k]

    def choose_unless_refused(self, otherwise: Any, *choices: Any) -> Any:
        """One of some choices, or another value if the call is refused."""
        return otherwise if self.is_refused else self.one_of(*choices)

    def title(self) -> str:
        choices = [str(choice) for choice in self.chosen[1:] if choice is not None]
        return " ".join(["refused" if self.is_refused else "accepted"] + choices)

    # Numbers.

    def variable(self, name: str, w: int = 64) -> T.Term:
        """A variable, which no other number of the call is."""
        if name in self.limits:
            raise CannotShow("two numbers of a call are called %s" % name)
        self.limits[name] = 0, (1 << w) - 1
        return T.var(w, name, T.PUBLIC)

    def number(self, name: str, low: int = 0, high: int = MOST) -> T.Term:
        """A variable between two numbers, or a number."""
        if low == high:
            return T.const(64, low)
        t = self.variable(name)
        if (low, high) != FREE:
            self.bound_sum((t,), low, high)
        return t

    def bound_sum(self, numbers: tuple, low: int, high: int) -> None:
        """Lets a sum be between two numbers."""
        self.known = self.known.with_sum_between([t if isinstance(t, tuple) else (1, t) for t in numbers], low, high)
        name = variable_of(numbers[0]).args if len(numbers) == 1 and isinstance(numbers[0], T.Term) else None
        if name in self.limits:
            least, most = self.limits[name]
            self.limits[name] = max(least, low), min(most, high)

    def assume_conditions(self, conditions: list) -> None:
        """Lets all of some conditions hold. If the call is refused, one is the first that fails, below or above."""
        failing = [(k, way) for k, condition in enumerate(conditions) for way in out_of_bounds_conditions(*condition)]
        first = self.one_of(None, *failing * self.is_refused)
        k, *way = first or (len(conditions),)
        for condition in conditions[:k] + way:
            self.bound_sum(*condition)
        if way:
            self.fails = True
            raise ConditionFails

    def is_possible(self) -> bool:
        """Whether there are such calls. Each that is accepted must be."""
        if self.is_refused != self.fails:
            return False
        found = self.known.are_possible()
        if not found and not self.fails and not any(self.nulls.values()):
            raise CannotShow("no call is accepted in this case")
        return found

    # Arguments.

    def field(self, f: S.Field) -> T.Term:
        """A variable in a field of a struct, with zeros above."""
        return T.word(T.split(self.variable(f.name, 8 * f.size)) + [0] * (8 - f.size))

    def secrets(self, name: str, size: int, w: int) -> list:
        """The bytes of words of w bits."""
        return [b for k in range(8 * size // w) for b in T.split(T.var(w, "%s.%d" % (name, k), T.SECRET))]

    def chooses_null(self, name: str, length: T.Term) -> bool:
        """Whether a pointer to a buffer of this length is null. Then it has no bytes."""
        least = length.args if length.op == "const" else self.limits.get(length.args, FREE)[0]
        if self.has_nulls and not least:
            self.nulls[name] = self.one_of(False, True)
        if self.nulls.get(name):
            self.bound_sum((length,), 0, 0)
        return self.nulls.get(name, False)

    def add_argument(self, name: str, region: Any, is_null: bool = False) -> None:
        address = self.places[name] = T.const(64, 0) if is_null else self.number(name + " address", 1, MOST)
        self.regions[address] = region
        self.arguments.append(address)

    def pass_struct(self, name: str, data: list) -> None:
        self.structs[name] = data
        self.add_argument(name, MemoryRegion(0, len(data), lambda k: data[k], name == "state"))

    def pass_buffer(self, name: str, length: Any, taint: int = T.SECRET) -> Any:
        """A pointer to a buffer, and its length. Of the output no byte beyond the longest digest may be written."""
        is_null = self.chooses_null(name, length)
        buffer = Buffer(name, length, taint, name == "out")
        self.add_argument(name, buffer, is_null)
        self.arguments.append(length)
        return buffer

    def pass_state(self, **fields: Any) -> Any:
        """A pointer to a state with these numbers; other fields have any values."""
        for f in self.fields:
            if f.name not in fields:
                fields[f.name] = self.secrets(f.name, f.size, 8 * f.element) if f.element else self.field(f)
        fields["first"][1:2] = S.key_length_byte(self.bytes, self.kind, T.split(self.variable("key's length", 8)))
        self.state = self.after = S.State(**fields)
        self.pass_struct("state", bytes_of(self.fields, self.state))
        return self.state

    # What the call does.

    def entry_state(self, alignment: tuple) -> Any:
        """The values at the entry. Variables of which the value is known are numbers there."""
        m = SymbolicState(self.regions, self.calls.cpu, alignment, self.known)
        for data in self.structs.values():
            data[:] = map(m.byte_normalizer(), data)
        arguments = [m.with_known_values(t) for t in self.arguments]
        self.calls.cpu(m).set_entry_state(arguments, constant_time.STACK, lambda: fresh_bytes("stack", T.JUNK)[0])
        return m

    def run(self, name: str, expected: Callable, alignment: tuple) -> int:
        """Executes the call with a stack that is so aligned, and compares each of its ends."""
        ends = self.calls.run(name, self.entry_state(alignment))
        if not ends:
            raise CannotShow("no path of the call is possible")
        for end in ends:
            a = TermOperations(self.calls, end)
            self.compare(end, a, *expected(a))
            must_scrub = not self.reads_key or S.must_scrub(a, *self.reads_key)
            left = [at for at, is_key in end.secrets.items() if must_scrub or is_key]
            if left:
                raise IsWrong("a secret may be left on the stack, at %+d" % max(left))
            if self.reads_key and must_scrub and not end.is_scrubbed:
                raise IsWrong("scrub_stack is not called at the end")
            self.calls.cpu(end).check_vectors_at_return()
            self.visit(end)
        return len(ends)

    def compare(self, m: Any, a: TermOperations, result: Any, state: Any, out: Any) -> None:
        """What a call has left, and what it should."""
        need = partial(need_same, m, self.calls.results)
        if callable(result):
            result = result(m)
        if result is not None:
            wanted = T.split(T.as_term(32, result))
            need("the result", self.calls.cpu(m).result_register()[:len(wanted)], wanted)
        if "state" in self.places:
            need("the state", m.first_bytes(self.places["state"], len(self.structs["state"])),
                 bytes_of(self.fields, state, a.word))
        if callable(out):
            out(m)
        elif m.pieces:
            raise CannotShow("it writes at %r" % m.pieces[0].offset)
        elif "out" in self.places:
            at = self.places["out"]
            n = max([len(out) - 1] + [k for base, k in m.memory if base is at]) + 1
            need("the output", m.first_bytes(at, n), out + [self.regions[at].initial(k) for k in range(len(out), n)])


def bytes_of(fields: tuple, values: S.State, word: Callable = partial(T.as_term, 64)) -> list:
    """The bytes of a struct in memory. word() makes a word of a number."""
    words = ((f, vars(values)[f.name]) for f in fields)
    return joined(v if f.element else T.split(word(v))[:f.size] for f, v in words)


def variable_of(t: T.Term) -> T.Term:
    """The variable of which a word has the bytes, and zeros above, or the word."""
    (_, first), *rest = facts.words_in_bytes(t.args) if t.op == "cat" else [(0, t)]
    return first if first.op == "var" and not any(u.op != "const" or u.args for _, u in rest) else t


def out_of_bounds_conditions(numbers: tuple, low: int, high: int) -> list:
    """The conditions that a sum is below its bounds, and that it is above, if there may be such sums."""
    most = len(numbers) * MOST
    least = -most if any(isinstance(t, tuple) for t in numbers) else 0
    return [(numbers, *bounds) for bounds in ((least, low - 1), (high + 1, most)) if bounds[0] <= bounds[1]]


class Cases:
    """The cases of the exports of BLAKE2b or BLAKE2s in a file. The method of an export fills a case, and returns a
    function: the result that is expected, the state and the output, by the operations of call_specification.py."""

    spec: Any = S
    visit: Callable = staticmethod(lambda end: None)       # what is done with each end of a path

    def __init__(self, program: programs.Program, family: str, pending: Any = None, sizes: Any = None) -> None:
        """With only some numbers of pending bytes before an update, and some sizes of tags, if these are given. Of
        BLAKE2X, with no sizes, only some reads and calls in one."""
        self.calls, self.family, self.prefix, self.kind = CallExecutor(program), family, PREFIX + family, KINDS[family]
        self.fields, self.wiped = self.spec.fields(self.kind), self.spec.wiped_state(self.kind)
        self.pending = range(self.kind.block + 1) if pending is None else pending
        self.sizes = range(1, self.kind.w + 1) if sizes is None else sizes
        self.is_short, self.has_nulls = self.sizes == (), sizes is None        # a short form has no null pointers
        for struct, fields in ((family + "_state", self.fields), ("tree", S.TREE_FIELDS)) if family else ():
            if [f[:2] for f in constant_time.layout(struct)] != [(f.size, not f.element) for f in fields]:
                raise CannotShow("the fields of vulfsjor_%s are not those of %s" % (struct, constant_time.HEADER))
        # Of BLAKE2X, for loops.py.
        self.calls.block_of_output = self.kind.w
        before = itertools.takewhile(lambda f: f.name != "position", self.fields)
        self.calls.place_of_position = sum(f.size for f in before)

    def prove_export(self, export: str) -> tuple:
        """Shows all cases of an exported function. Returns how many there are, and the paths."""
        found = [paths for _, paths in self.visit_cases(export, self.prove_case)]
        return sum(paths > 0 for paths in found), sum(found)

    def visit_cases(self, export: str, visit: Callable) -> Iterator:
        """What a function, such as prove_case or make_case, returns of each case: the case is the first."""
        waiting: list = [()]
        while waiting:
            found = visit(export, waiting.pop())
            waiting += found[0].others
            yield found

    def make_case(self, export: str, choices: tuple) -> tuple:
        """The case with these first choices, with no other terms than its own, and what is expected of it."""
        T.reset()
        case = Case(self, choices)
        return case, self.fill(export, case)

    def fill(self, export: str, case: Case) -> Callable:
        """Fills a case of an exported function, and returns what is expected of it."""
        try:
            return getattr(self, export.lstrip("_") or "one_shot")(case)
        except ConditionFails:
            return lambda a: (T.const(64, 0) if export in COUNTS else REFUSED, case.after, [])

    def prove_case(self, export: str, choices: tuple) -> tuple:
        """The case with these first choices, at each alignment of the stack that matters, and its paths, or none."""
        calls, name, cases = self.calls, self.prefix + export, []

        def paths(alignment: tuple) -> int:
            calls.forget_results()
            calls.exported = name
            case, expected = self.make_case(export, choices)
            cases.append(case)
            try:
                return case.run(name, expected, alignment) if case.is_possible() else 0
            except StackUseUnknown as e:
                compression.prove_compression(calls.program, *calls.listed[e.args[0]])
            return paths(alignment)
        title = lambda: "%s, case %s" % (name, cases[-1].title() if cases else choices)
        found = calls.for_each_stack_alignment(title, paths)
        return cases[-1], sum(found)

    # States.

    def assume_ready(self, case: Case, s: Any) -> Any:
        """Lets a state be ready, and returns it."""
        case.assume_conditions(S.ready_conditions(self.kind, s))
        return s

    def assume_absorbs(self, case: Case, s: Any, n: T.Term) -> None:
        """Lets a state absorb n bytes."""
        self.assume_ready(case, s)
        case.assume_conditions(S.count_conditions(s.counter, s.pending_length, n))
        case.reads_key = (s.counter, s.start_length),

    def reset(self, case: Case) -> Callable:
        s = self.assume_ready(case, case.pass_state())
        return lambda a: (0, S.reset(s), [])

    def digest_size(self, case: Case) -> Callable:
        s = self.assume_ready(case, case.pass_state())
        return lambda a: (s.output_size, s, [])

    def set_last_node(self, case: Case) -> Callable:
        s, on = case.pass_state(), case.variable("on", 32)
        case.arguments.append(T.word(T.split(on) + fresh_bytes("above", T.JUNK, 4)))
        self.assume_ready(case, s)
        is_on = case.one_of(False, True)
        case.bound_sum((on,), *(ON if is_on else OFF))
        return lambda a: (0, S.set_last_node(s, is_on), [])

    def wipe(self, case: Case) -> Callable:
        case.pass_state()
        return lambda a: (None, self.wiped, [])

    def count(self, case: Case) -> Callable:
        s = self.assume_ready(case, case.pass_state())
        case.bound_sum((s.counter, s.pending_length, (-1, s.start_length)), *case.one_of(FREE, (-MOST, -1)))
        return lambda a: (a.word(S.count(a, s)), s, [])

    def state_size(self, case: Case) -> Callable:
        return lambda a: (T.const(64, sum(f.size for f in self.fields)), None, [])

    # Messages.

    def length_and_update(self, case: Case, pending: Any, ways: tuple = ()) -> tuple:
        """The length of a message, by the pending bytes: few more, or fill + k blocks + t, or any; and the update."""
        kind, block = self.kind, self.kind.block
        if case.is_refused:
            return case.number("n"), None
        way = case.one_of(*ways or ("few", "blocks") + ("fill",) * (pending > 0))
        if way == "few":
            n = case.number("n", 0, block - pending)
            return n, lambda a, s, data: S.update_within_block(a, kind, s, data, n)
        fill = block - pending if pending else 0
        k = case.number("K", *((1, MOST // block) if way == "blocks" else OFF))
        t = case.number("t", 1, block)
        n = T.const(64, fill) + block * k + t
        blocks = k.args if k.op == "const" else k
        case.bound_sum((n,), 0, MOST)
        return n, lambda a, s, data: S.update_over_blocks(a, kind, s, data, blocks, t)

    def update(self, case: Case) -> Callable:
        s, pending = case.pass_state(), case.choose_unless_refused(0, *self.pending)
        n, absorb = self.length_and_update(case, pending)
        data = case.pass_buffer("message", n)
        self.assume_absorbs(case, s, n)
        case.bound_sum((s.pending_length,), pending, pending)
        return lambda a: (0, absorb(a, s.but(pending_length=pending), data), [])

    # Digests.

    def choose_last_node(self, case: Case, s: S.State) -> None:
        """The last block is compressed, for a node that is the last one, or for another."""
        case.bound_sum((s.last_node,), *case.one_of(OFF, ON))
        case.reads_key = (s.counter, s.start_length),

    def final(self, case: Case) -> Callable:
        s, room = case.pass_state(), case.number("room")
        out = case.pass_buffer("out", room)
        self.assume_ready(case, s)
        case.assume_conditions(S.exact_length_conditions(s.output_size, room))
        self.choose_last_node(case, s)
        return lambda a: (0, *S.final(a, self.kind, s, out))

    def verify(self, case: Case) -> Callable:
        """A tag of another length is not the digest, and the state is wiped too."""
        s, size = case.pass_state(), case.choose_unless_refused(0, *self.sizes)
        n = T.const(64, size) if size else case.number("n")
        tag = case.pass_buffer("tag", n)
        self.assume_ready(case, s)
        case.assume_conditions(S.key_conditions(case.bytes, self.kind, s))
        self.choose_last_node(case, s)
        case.after = self.wiped
        case.assume_conditions(S.exact_length_conditions(s.output_size, n))
        case.bound_sum((s.output_size,), size, size)

        def result(m: Any, byte: Any) -> int:
            if m.compared_bytes is None or m.compared_bytes[0] != byte:
                raise IsWrong("the comparison is %s" % (m.compared_bytes,))
            return 0 if m.compared_bytes[1] else REFUSED
        return lambda a: (partial(result, byte=S.verify(a, self.kind, s.but(output_size=size), tag)), self.wiped, [])

    # Inits and the call in one.

    def choose_key_size(self, case: Case, *bounds: tuple) -> T.Term:
        """The length of a key: none, or some. It is any for a call that is refused."""
        return case.number("key_size", *case.choose_unless_refused(FREE, *bounds or (OFF, ON)))

    def init_arguments(self, case: Case, keys: tuple = (), texts: tuple = ("salt", "persona")) -> tuple:
        """The arguments of an init: what the specification needs, and the conditions."""
        case.pass_state()
        case.after = self.wiped
        size, keyed = case.number("size"), self.choose_key_size(case, *keys)
        case.arguments.append(size)
        given = [size, case.pass_buffer("key", keyed), keyed]
        for name in texts:
            length = case.number(name + "_size")
            given += [case.pass_buffer(name, length), length]
        return given, self.spec.length_conditions(self.kind, size, *given[2::2])

    def expected_init(self, case: Case, given: list, conditions: list) -> Callable:
        case.assume_conditions(conditions)
        case.reads_key = (0, given[2]),
        return lambda a: (0, self.spec.init(a, self.kind, *given), [])

    def init_key(self, case: Case) -> Callable:
        given, conditions = self.init_arguments(case, (ON,), ())
        return self.expected_init(case, given, conditions + [((given[2],), 1, MOST)])

    def init_salt_personal(self, case: Case) -> Callable:
        return self.expected_init(case, *self.init_arguments(case))

    def init_tree(self, case: Case) -> Callable:
        """Tree parameters are those of a struct."""
        given, conditions = self.init_arguments(case)
        tree = S.State(**{f.name: case.field(f) for f in S.TREE_FIELDS})
        case.pass_struct("tree", bytes_of(S.TREE_FIELDS, tree))
        conditions += S.tree_conditions(self.kind, tree.depth, tree.node_offset, tree.inner_length)
        return self.expected_init(case, given + [[vars(tree)[name] for name in S.TREE]], conditions)

    def init_param(self, case: Case) -> Callable:
        n = self.kind.w
        case.pass_state()
        case.after = self.wiped
        length = case.number("length")
        block = case.pass_buffer("block", length, T.PUBLIC)
        sizes = [T.word([block(0)]), T.word([block(1)])]
        case.assume_conditions([((length,), n, n)])
        case.assume_conditions([((sizes[0],), 1, n), ((sizes[1],), 0, n)])
        return lambda a: (0, S.init_param(a, self.kind, [block(k) for k in range(n)]), [])

    def one_shot(self, case: Case, names: tuple = ("message", "key"), *keys: tuple) -> Callable:
        """With the message and the key in this order, and these bounds of the length of the key."""
        size = case.number("size")
        out, keyed = case.pass_buffer("out", size), self.choose_key_size(case, *keys)
        pending = 0 if keyed is T.const(64, 0) else self.kind.block
        n, absorb = self.length_and_update(case, pending, ("blocks" if pending else "few",) * self.is_short)
        lengths = {"message": n, "key": keyed}
        found = {name: case.pass_buffer(name, lengths[name]) for name in names}
        case.assume_conditions(self.one_shot_conditions(size, keyed) + [((keyed,), *bounds) for bounds in keys])
        if case.is_refused:            # without a key, each message can be counted
            case.bound_sum((keyed,), *ON)
        case.assume_conditions(S.count_conditions(pending, n))
        case.reads_key = (0, keyed),
        return self.expected_one_shot(case, size, out, lambda a, *out: self.spec.one_shot(
            a, self.kind, size, found["key"], keyed, lambda s: absorb(a, s, found["message"]), *out))

    def one_shot_conditions(self, size: T.Term, keyed: T.Term) -> list:
        return S.length_conditions(self.kind, size, keyed)[:2]

    def expected_one_shot(self, case: Case, size: T.Term, out: Buffer, whole: Callable) -> Callable:
        """What is expected of the call in one, by the function of the specification."""
        return lambda a: (0, None, whole(a, out))


class MemoryCases(Cases):
    """The cases of memcmp and wipe, which have no state."""

    def memcmp(self, case: Case) -> Callable:
        parts = [] if case.is_refused else [(k, case.number("n%d" % k, 0, most)) for k, most in PARTS]
        if parts:
            case.bound_sum(tuple(parts), 0, MOST)
        n, m = (T.add(64, *parts) if parts else case.number(name) for name in "nm")
        case.pass_buffer("a", n)
        case.pass_buffer("b", m)
        case.assume_conditions(S.exact_length_conditions(n, m))

        def result(end: Any) -> int:
            if end.compared_bytes is None:
                end.need_comparisons("a comparison that does not look at the bytes", ("==", n, T.const(64, 0)))
                return 0
            loops.need_all_bytes_compared(end, end.compared_bytes[0], n)
            return 0 if end.compared_bytes[1] else REFUSED
        return lambda a: (result, None, [])

    def wipe(self, case: Case) -> Callable:
        n = case.number("n")
        case.pass_buffer("out", n)
        return lambda a: (None, None, lambda end: need_zeros_written(end, case.places["out"], n))


def need_zeros_written(m: Any, out: T.Term, n: T.Term) -> None:
    """Refuses a buffer of n bytes of which not all are zero."""
    end = T.const(64, 0)
    bytes_of_it = [WrittenPiece(out, T.const(64, k), b, T.const(64, 1))
                   for (base, k), b in m.memory.items() if base is out]
    for piece in (*sorted(bytes_of_it, key=lambda p: p.offset.args), *m.pieces):
        data = piece.data if isinstance(piece.data, list) else [piece.data]
        if piece.base is not out or any(b != 0 for b in data):
            raise CannotShow("it writes %s at %r" % (data, piece.offset))
        m.need_comparisons("zeros from %r on, not from %r on" % (piece.offset, end),
                           ("==", m.with_known_values(piece.offset), m.with_known_values(end)))
        end += piece.length
    m.need_comparisons("%r zeros, not %r" % (end, n), ("==", m.with_known_values(end), m.with_known_values(n)))


class XofCases(Cases):
    """The cases of BLAKE2Xb or BLAKE2Xs."""

    spec = X

    # States.

    def assume_ready(self, case: Case, s: Any, *is_known: bool) -> Any:
        """With a length that is known, or with one that is not."""
        case.assume_conditions(X.usable_conditions(self.kind, s))
        case.is_known = case.one_of(*is_known or (True, False))
        for condition in X.output_length_conditions(self.kind, s.xof_length, case.is_known):
            case.bound_sum(*condition)
        case.assume_conditions(self.bytes_left_conditions(case, s, 0))
        return s

    def bytes_left_conditions(self, case: Case, s: Any, n: Any) -> list:
        return X.bytes_left_conditions(X.output_length(self.kind, s.xof_length, case.is_known), s.position, n)

    def assume_absorbs(self, case: Case, s: Any, n: T.Term) -> None:
        """The length of the output does not matter, because nothing was read."""
        case.assume_conditions(X.absorbing_conditions(s))
        case.assume_conditions(X.usable_conditions(self.kind, s))
        case.assume_conditions(S.count_conditions(s.counter, s.pending_length, n))
        case.reads_key = (s.counter, T.const(64, 1)), (0, s.start_length)

    def left(self, case: Case) -> Callable:
        s = self.assume_ready(case, case.pass_state())
        return lambda a: (a.word(X.output_length(self.kind, s.xof_length, case.is_known) - s.position), s, [])

    def reset(self, case: Case) -> Callable:
        s = self.assume_ready(case, case.pass_state())
        case.reads_key = (0, s.start_length),
        return lambda a: (0, X.reset(s), [])

    # Outputs.

    def output_check(self, case: Case, n: T.Term, read: Callable, position: Any) -> Callable:
        """What refuses an output of other bytes than those of a state: read(a) is the state."""
        def refuse(m: Any, length: T.Term) -> None:
            a = TermOperations(self.calls, m)
            blocks = X.output_blocks(a, self.kind, read(a), case.is_known)
            loops.need_output_bytes(m, partial(need_same, m, self.calls.results), blocks, self.kind.w, position, length)
        self.calls.need_output = refuse
        return lambda m: refuse(m, n)

    def squeeze(self, case: Case) -> Callable:
        kind = self.kind
        reading, node, *is_known = case.choose_unless_refused((FREE, FREE), *READS[1::4] if self.is_short else READS)
        place = case.variable("place in a block", 8)
        case.bound_sum((place,), 0, kind.w - 1)
        position = kind.w * case.number("block", 0, MOST // kind.w) + loops.word_of_low_byte(place)
        s, n = case.pass_state(position=position), case.number("n")
        case.pass_buffer("out", n)
        self.assume_ready(case, s, *is_known)
        case.assume_conditions(self.bytes_left_conditions(case, s, n))
        case.bound_sum((s.reading,), *reading)
        case.bound_sum((s.last_node,), *node)
        case.reads_key = (0, s.start_length),
        is_on = reading == ON
        out = self.output_check(case, n, lambda a: X.begin_reading(a, kind, s, is_on), position)
        return lambda a: (0, X.squeeze(a, kind, s, n, is_on), out)

    # The call in one.

    def derive_key(self, case: Case) -> Callable:
        return self.one_shot(case, ("key", "message"), ON)

    def one_shot_conditions(self, size: T.Term, keyed: T.Term) -> list:
        return X.output_length_conditions(self.kind, size, True) + X.length_conditions(self.kind, size, keyed)[1:2]

    def expected_one_shot(self, case: Case, size: T.Term, out: Buffer, whole: Callable) -> Callable:
        read = self.output_check(case, size, whole, T.const(64, 0))
        return lambda a: (0, None, read)


# The families.

# The exports that the header declares, and whose calls are shown.
DECLARED = {PREFIX + family + end for family in TITLES for end in (constant_time.EXPORTS if family else ALONE)
            if end not in constant_time.NOT_COMPUTED and PREFIX + family + end in constant_time.SIGNATURES}

def shown_exports(program: programs.Program, family: str) -> list:
    """The exports of a family that a file has and whose calls are shown, by the ends of their names."""
    ends = [e for e in constant_time.EXPORTS if e not in constant_time.NOT_COMPUTED] if family else ALONE
    return [end for end in ends if PREFIX + family + end in program.globals]


def shown_names(program: programs.Program) -> list:
    """All of them, by their names."""
    return [PREFIX + family + end for family in TITLES for end in shown_exports(program, family)]


def cases(program: programs.Program, family: str, *numbers: Any) -> Any:
    """The cases of a family: all, or those with some numbers."""
    return (XofCases if "x" in family else Cases if family else MemoryCases)(program, family, *numbers)


def short_form_numbers(family: str) -> tuple:
    if "x" in family:                  # whose root hash is updated as that of the other family
        return (0, 1), ()
    return (0, 1, KINDS[family].block), (1, KINDS[family].w - 1, KINDS[family].w)


def prove_some_cases(program: programs.Program, name: str) -> tuple:
    """Shows some cases of an exported function. Returns how many, and the paths."""
    family = programs.require_match(PREFIX + r"(blake2x?[bs]|)", name)[1]
    return cases(program, family, *short_form_numbers(family)).prove_export(name[len(PREFIX + family):])


def main(arguments: list) -> Any:
    if len(arguments) != 3 or arguments[1] not in KINDS:
        print(__doc__, file=sys.stderr)
        return 2
    facts.rerun_with_debian_python(__file__, arguments)
    if not facts.z3:
        print("call_cases.py: Python's module z3 is absent (Debian's python3-z3)", file=sys.stderr)
        return 2
    path, family, export = arguments
    try:
        found = cases(programs.read(path), family)
        for case, paths in found.visit_cases(export, found.prove_case):
            if paths:
                print("%s: %d paths" % (case.title(), paths))
    except T.ClaimNotShown as e:
        print("%s: %s" % (e.kind, e))
        return 1
    return 0


if __name__ == "__main__":
    sys.exit(main(sys.argv[1:]))
