"""What the models of the processors have in common: lines of objdump, memory, conditions, and operations on bytes."""

import copy
import operator
from typing import Any, Callable, Iterable, NamedTuple

import terms as T
from terms import CannotShow, IsWrong, signed

# What instructions make of two words; the values may know more than the words say.
ON_WORDS: dict = {
    "add": lambda m, a, b: a + b, "sub": lambda m, a, b: a - b, "and": lambda m, a, b: m.bitwise_and(a, b),
    "or": lambda m, a, b: m.bitwise_or(a, b), "xor": lambda m, a, b: m.xor_values(a, b),
    "not": lambda m, a, b: -a - 1, "neg": lambda m, a, b: -a,
    "shl": lambda m, a, b: m.shifted_left(a, b.args), "shr": lambda m, a, b: m.shifted_right(a, b.args),
    "mul": lambda m, a, b: b.args * a if b.op == "const" else None,
}

# What instructions make of the words of n bytes of vectors, and of a number.
ON_VECTORS: dict = {
    "add": lambda n, a, b: lanewise(operator.add, n, a, b), "sub": lambda n, a, b: lanewise(operator.sub, n, a, b),
    "shl": lambda n, a, k: shifted(T.shl, n, a, k), "shr": lambda n, a, k: shifted(T.shr, n, a, k),
    "rol": lambda n, a, k: lanewise(lambda t: T.ror(8 * n, t, -k), n, a),
}


def load_address() -> T.Term:
    """The address where the file is loaded. The addresses of its constants count from there."""
    return T.var(64, "image", T.PUBLIC)


class MemoryRegion:
    """Memory from `low` to `high`. `initial` returns the byte at an offset. Its base is the second number of
    `alignment` modulo the first. If it is uniform, offsets don't matter, and it has secrets already."""

    table: Any = None                  # of a table of messages: what returns an entry's bytes
    arrays: list = []                  # the places of a struct's arrays, as ranges

    def __init__(self, low: int, high: int, initial: Callable, writable: bool = True, alignment: tuple = (8, 0),
                 uniform: bool = False) -> None:
        self.low, self.high, self.length, self.initial = low, high, T.const(64, high - low), initial
        self.writable, self.alignment, self.uniform = writable, alignment, uniform


class Operand:
    """A part of an instruction: its kind, and what else its processor says of it. What it does not say is None."""

    kind: str
    size: Any = None
    index = value = parts = is_broadcast = mask = zeroes = n = start = size
    base = offset = mode = name = count = text = data = size

    def __init__(self, kind: str, **fields: Any) -> None:
        self.__dict__.update(fields, kind=kind)


class Instruction:
    """A line of objdump's output. `target` is where a jump or a call goes to."""

    JUMP = CALL = TRAP = ""
    next: int

    def __init__(self, address: int, text: str) -> None:
        self.address, self.text, self.name = address, text, ""
        self.target: int | None = None
        self.operands: list = []
        self.action: Any = None        # what executes it, once that is known
        self.parse_text()
        self.is_jump, self.is_call, self.is_trap = (self.name == name for name in (self.JUMP, self.CALL, self.TRAP))
        self.is_return = self.name == "ret" and not self.operands

    def parse_text(self) -> None:
        """Sets the rest from the text."""
        raise NotImplementedError

    def not_modelled_error(self) -> CannotShow:
        return CannotShow("the instruction %s is not modelled: add it to tests/machine/%s.py, and run "
                          "tests/machine/check.py --forms" % (" ".join(self.text.split()), type(self).__module__))


class Flags(NamedTuple):
    """What set the flags: a kind of operation, two words and their result; of secrets only the result, if known."""

    kind: str
    a: Any = None
    b: Any = None
    result: Any = None


UNKNOWN, SECRET = "unknown", "secret"  # kinds of flags
KEPT, LOST, SET, GROWS = "kept", "lost", "set", "grows"        # what becomes of a part of a machine
CALL, HEAD = 0, 1                      # when that is asked: after a call, and at the head of a loop
# What a function that is not executed leaves in registers: one that compresses; one of the C library; and one that has
# copied bytes of a key.
LEFT, AFTER, AFTER_KEY = "left", "after", "after key"


class UnknownStackAlignment(CannotShow):
    """The stack is aligned to more bytes than is known of it at the entry."""

    def __init__(self, need: Any) -> None:
        super().__init__("the stack is aligned to %d bytes" % need)
        self.need = need


class MachineState:
    """The registers and the memory of a machine, and what is known of their values, which a subclass says. x86.py,
    arm.py and wasm.py execute instructions over them. `alignment`: a power of two, and the stack pointer modulo it."""

    # All that a machine has, each with what becomes of it: by a call of a function that is not executed, and at the
    # head of any iteration of a loop. What grows there has more after an iteration, and loops.py joins or forgets it.
    PARTS: dict = {
        **dict.fromkeys(("regions", "processor", "alignment", "stack", "at_start", "labels"), (KEPT, KEPT)),
        "bottom": (KEPT, GROWS),
        **dict.fromkeys(("globals", "locals", "operands", "memory"), (KEPT, SET)),
        **dict.fromkeys(("general", "vector"), (SET, SET)), **dict.fromkeys(("flags", "masks"), (LOST, LOST))}

    general: list
    vector: list
    globals: list
    locals: list
    operands: list
    bitwise_and: Any                        # the and of two words
    leftover_kind: Callable                  # what a function of the C library leaves that has read some bytes
    compute_on_secrets: Callable               # what compute_and_set_flags() returns if a word is secret
    new_public_variable: Callable                      # a new public variable
    unknown_public_bytes: Callable                 # public bytes of which nothing is known
    byte_depending_on: Callable                    # a byte that may depend on all of these
    is_negative: Callable              # whether a word has its highest bit, or None
    outcomes: Callable                 # the values after a conditional jump at an address, each with whether it jumps

    def __init__(self, regions: dict, processor: Any, alignment: tuple) -> None:
        self.regions, self.processor, self.alignment = regions, processor, alignment
        self.memory: dict = {}         # (base, offset) -> byte
        self.stack: Any = None         # the base of the stack, below whose bottom nothing is known
        self.bottom = -processor.RED_ZONE
        self.flags = Flags(UNKNOWN)
        self.masks = self.unknown_masks()
        self.labels: list = []         # of the blocks of WebAssembly that are open
        for name, (count, size) in processor.FILES.items():
            setattr(self, name, [undefined_bytes("%s%d" % (name, j), size) for j in range(count)])
        self.at_start = {name: list(getattr(self, name)) for name in processor.FILES}

    def copy(self) -> Any:
        """Values that may change without these. The list of a register's bytes does not change: it gets another."""
        self.check_parts_are_listed()
        other = copy.copy(self)
        other.memory, other.masks, other.labels = dict(self.memory), list(self.masks), list(self.labels)
        for name in self.processor.FILES:
            setattr(other, name, list(getattr(self, name)))
        return other

    def apply_mask_to_secrets(self, data: list, mask: list) -> list:
        """A word whose and with a mask is that of these bytes."""
        return data

    def check_parts_are_listed(self) -> None:
        """A part of which PARTS does not say what becomes of it is a fault of the tool."""
        if not vars(self).keys() <= self.PARTS.keys():
            raise AssertionError("PARTS has no line for %s" % min(vars(self).keys() - self.PARTS.keys()))

    def update_parts(self, when: int, **new: Any) -> None:
        """Lets each part become what PARTS says: as it was, unknown, or one of these."""
        self.check_parts_are_listed()
        fates = {name: fate[when] for name, fate in self.PARTS.items() if name in vars(self)}
        if new.keys() != {name for name, fate in fates.items() if fate == SET}:
            raise AssertionError("PARTS says otherwise than %s" % sorted(new))
        unknown = {"flags": Flags(UNKNOWN), "masks": self.unknown_masks()}
        vars(self).update(new, **{name: unknown[name] for name, fate in fates.items() if fate == LOST})

    def need_unchanged_by_loop(self, before: Any, *others: str) -> None:
        """Refuses a loop that changes a part that its head keeps, except some."""
        for name, (_, fate) in self.PARTS.items():
            if fate == KEPT and name not in others and getattr(self, name, None) != getattr(before, name, None):
                raise CannotShow("a loop changes %s" % name)

    @staticmethod
    def unknown_masks() -> list:
        """Those of AVX-512, with a byte for each bit."""
        return [undefined_bytes("mask", 1) * 64] * 8

    def stack_pointer(self) -> T.Term:
        name, at = self.processor.STACK_POINTER
        return T.word(getattr(self, name)[at])

    def bytes_by_place(self) -> dict:
        """The bytes of all registers and of written memory, by (kind, register or base, offset)."""
        found = {}
        for name in self.processor.FILES:
            for at, data in enumerate(getattr(self, name)):
                found.update({(name, at, k): b for k, b in enumerate(data)})
        found.update({("memory", base, k): b for (base, k), b in self.memory.items()})
        return found

    def set_bytes_by_place(self, state: dict) -> None:
        """Sets registers and memory to the bytes that bytes_by_place() returned."""
        for name in self.processor.FILES:
            setattr(self, name, [list(r) for r in getattr(self, name)])
        for (kind, at, k), b in state.items():
            if kind == "memory":
                self.memory[at, k] = b
            else:
                getattr(self, kind)[at][k] = b

    # The stack.

    def lowest_stack_offset(self) -> int:
        """The lowest offset in the stack that the function may use now."""
        constant, items = T.linear(self.stack_pointer())
        if items != {self.stack: 1}:
            raise CannotShow("the stack pointer is not known")
        return signed(self.stack.w, constant) - self.processor.RED_ZONE

    def is_on_stack(self, t: T.Term) -> bool:
        """Whether a word is an address in the stack, or that of its end."""
        constant, items = T.linear(t)
        return items == {self.stack: 1} and self.stack in self.regions and (
            self.regions[self.stack].low <= signed(t.w, constant) <= self.regions[self.stack].high)

    def stack_address_lacks_bits(self, address: T.Term, n: int) -> bool:
        """Whether an address on the stack has none of the lowest bits that are on in a number."""
        constant, items = T.linear(address)
        if items != {self.stack: 1} or n > 256:
            return False
        need = 1 << n.bit_length()
        if need > self.alignment[0]:
            raise UnknownStackAlignment(need)
        return (constant + self.alignment[1]) % need & n == 0

    def round_down_stack_address(self, address: T.Term, low: int) -> Any:
        """An address on the stack, rounded down to a multiple of a power of two."""
        constant, items = T.linear(address)
        if items != {self.stack: 1}:
            raise CannotShow("the stack pointer is not known")
        if low & low - 1:
            raise CannotShow("an and of the stack pointer with %#x" % ((1 << 64) - low))
        if low > self.alignment[0]:
            raise UnknownStackAlignment(low)
        return address - (constant + self.alignment[1]) % low

    def forget_stack_below_pointer(self) -> None:
        """Forgets the stack below its pointer, which may have moved: a signal and the next call may write there."""
        low = self.lowest_stack_offset()
        if not self.regions[self.stack].low <= low <= 0:
            raise IsWrong("the stack pointer leaves the stack")
        for k in range(self.bottom, low):
            self.memory.pop((self.stack, k), None)
        self.bottom = low

    # Memory.

    def region_of(self, address: T.Term) -> tuple:
        """The base, the offset as a term of 64 bits, and the region of an address."""
        need_public(address, "an address")
        constant, items = T.linear(address)
        base = T.add(address.w, *[(k, u) for u, k in items.items()])
        if base in self.regions:
            return base, T.const(64, signed(address.w, constant)), self.regions[base]
        bases = self.bases_of(address)
        if len(bases) != 1:
            raise CannotShow("no memory is known at %r" % address)
        return bases[0], address - bases[0], self.regions[bases[0]]

    def byte(self, base: T.Term, k: Any) -> T.Byte:
        found = self.memory.get((base, k))
        return self.regions[base].initial(k) if found is None else found

    def first_bytes(self, base: T.Term, n: int) -> list:
        return [self.byte(base, k) for k in range(n)]

    def bases_of(self, t: T.Term) -> list:
        """The bases of memory that are parts of a sum."""
        return [u for u, k in T.linear(t)[1].items() if u in self.regions and k == 1]

    @staticmethod
    def check_writable(region: Any, address: T.Term) -> None:
        if not region.writable:
            raise IsWrong("the function writes at %r, which it may only read" % address)

    # Words.

    def compute_and_set_flags(self, kind: str, f: Callable, x: list, y: list) -> list:
        """The bytes of a result of two words, and the flags from it. f returns a term, the range of one, or None."""
        a, b = T.word(x), T.word(y)
        if (a.taint | b.taint) & ~T.PUBLIC:
            return self.compute_on_secrets(kind, f, a, b)
        r = f(a, b)
        if not isinstance(r, T.Term):
            r = self.new_public_variable(a.w, "", r)
        self.flags = Flags(kind, a, b, r)
        return T.split(r)

    def sign_extended(self, data: list, size: int) -> list:
        t = T.word(data)
        if t.taint & ~T.PUBLIC:
            return [self.byte_depending_on(data) for _ in range(size)]
        sign = self.is_negative(t)
        more = size - len(data)
        return data + (self.unknown_public_bytes(more) if sign is None else [255 * sign] * more)

    @staticmethod
    def shifted_left(a: T.Term, k: int) -> T.Term:
        return T.shl(a.w, a, k) if a.taint & ~T.PUBLIC else (1 << k) * a

    def normalized_byte(self, b: T.Byte) -> T.Byte:
        return b

    def byte_normalizer(self) -> Callable:
        """A function that returns a byte by what the path knows of its variables."""
        return self.normalized_byte

    def low_bits_shifted_left(self, a: T.Term, low: int, size: int) -> Any:
        return (1 << low) * self.bitwise_and(a, T.const(a.w, (1 << size) - 1))

    def set_flags_by_vector_and(self, a: list, b: list) -> None:
        """Sets flags by an and of two vectors, of which nothing is known but if it is zero."""
        r = self.new_public_variable(64) if any(a + b) else T.const(64, 0)
        is_secret = any(not isinstance(x, int) and x[0].taint & ~T.PUBLIC for x in a + b)
        self.flags = Flags(SECRET) if is_secret else Flags("other", r, r, r)


class Processor:
    """Executes instructions over values. A subclass knows the instructions of one."""

    FILES: dict = {}                   # its registers: how many, and the bytes of each
    STACK_POINTER: tuple = ()
    BACK = 0                           # bytes of the return address, if it is on the stack
    LINK: Any = None                   # its register, if it is in one
    RED_ZONE = 0                       # bytes below the stack pointer that a function may use
    FREE: tuple = ("nop",)             # instructions that need not be reached
    ARGUMENTS: tuple = ()              # the registers of arguments
    RELATIONS: dict = {}               # what a condition compares after a subtraction
    SIGNED: dict = {}                  # the same of numbers with a sign
    CARRY: dict = {}                   # what it asks for after an addition
    COMMENT = ""                       # what begins a comment of objdump
    SETS_RESULT: tuple = ()            # instructions that only set the result that is compared, before a return
    SAVED: tuple = ()                  # the registers that belong to the caller, except the stack pointer
    step: Callable                     # executes an instruction other than a jump, a call or a return
    comparison_of_jump: Callable                # what a conditional jump compares
    set_return_address: Callable                 # puts the return address of a call where the function finds it
    clobbered_vector: Callable         # what a function may leave in a vector register
    SAVED_HALVES: tuple = ()           # and the vector registers whose first 8 bytes do

    def __init__(self, values: Any) -> None:
        self.values = values

    def set_entry_state(self, arguments: list, room: int, below: Callable) -> None:
        """The state at the entry of a function. Its stack has `room` bytes, each of which is below() at first."""
        m, back = self.values, T.split(T.var(64, "return address", T.PUBLIC))
        m.stack = T.var(64, "sp", T.PUBLIC)
        above = back[:self.BACK] + joined(map(T.split, arguments[len(self.ARGUMENTS):]))
        byte = lambda k: above[k] if k >= 0 else below()
        m.regions[m.stack] = MemoryRegion(-room, len(above), byte, True, m.alignment)
        words = [back, *map(T.split, [m.stack, *arguments])]
        for register, data in zip((self.LINK, self.STACK_POINTER[1], *self.ARGUMENTS), words):
            if register is not None:
                m.general[register] = data

    def bytes_kept_for_caller(self) -> tuple:
        """The bytes that a return must find: its address, the stack pointer, and registers."""
        m, sp = self.values, self.values.stack_pointer()
        back = m.load(sp, 8) if self.BACK else m.general[self.LINK]
        halves = joined(m.vector[r][:8] for r in self.SAVED_HALVES)
        return list(back), T.split(sp), joined(m.general[r] for r in self.SAVED) + halves

    def begin_call(self) -> T.Term:
        """A call, which sets the return address."""
        self.check_stack_alignment()
        link = self.values.new_public_variable(64, "link")
        self.set_return_address(T.split(link))
        return link

    def end_call(self, link: T.Term) -> None:
        """A return from a call to this address."""

    def argument(self, k: int) -> T.Term:
        return T.word(self.values.general[self.ARGUMENTS[k]])

    def result_register(self) -> list:
        """The register of the result, which is the first on each processor."""
        return self.values.general[0]

    def set_result_bytes(self, data: list) -> None:
        self.values.general[0] = data + self.result_register()[len(data):]

    def clobber_registers(self, what: str) -> None:
        """Lets a function leave anything in registers that are not its caller's, or what compression.py shows."""
        m = self.values
        m.update_parts(CALL, general=[old if r in self.SAVED + self.STACK_POINTER else m.leftover_bytes(8, what)
                                      for r, old in enumerate(m.general)],
                       vector=[self.clobbered_vector(j, old, what) for j, old in enumerate(m.vector)])

    def compute_without_flags(self, f: Callable, a: list, b: list) -> list:
        flags = self.values.flags
        data = self.values.compute_and_set_flags("other", f, a, b)
        self.values.flags = flags
        return data

    @classmethod
    def only_sets_result_and_returns(cls, code: dict, pc: int) -> bool:
        for _ in range(4):
            i = code[pc]
            if i.is_return:
                return True
            if " ".join(i.text.partition(cls.COMMENT)[0].split()) not in cls.SETS_RESULT:
                return False
            pc = i.next
        return False

    def read(self, o: Operand, size: int | None = None) -> list:
        if o.kind in ("general", "vector"):
            return getattr(self.values, o.kind)[o.index][:o.size]
        if size is None or o.kind != "number":
            raise CannotShow("a %s is not a value of a known size" % o.kind)
        return list((o.value & (1 << 8 * size) - 1).to_bytes(size, "little"))

    def apply_vector_operation(self, is_move: bool, f: Callable, data: list) -> list:
        """The bytes that an instruction on vectors makes."""
        if is_move:
            try:
                return f(*data)
            except CannotShow:         # the places that bytes come from are not numbers
                pass
        return self.values.vector_result_or_unknown(f, *data)

    def execute_instruction(self, i: Any) -> list:
        """Executes an instruction but a call. Returns the values after it, each with the next address, if any."""
        values = self.values
        if i.is_return:
            return [(values, None)]
        if i.target is None:
            name, at = self.STACK_POINTER
            top = getattr(values, name)[at]
            self.step(i)
            if getattr(values, name)[at] != top:
                values.forget_stack_below_pointer()
            return [(values, i.next)]
        outcomes = [(values, True)] if i.is_jump else values.outcomes(self.comparison_of_jump(i), i.address)
        return [(n, i.target if jumps else i.next) for n, jumps in outcomes]

    def public_comparison(self, condition: str) -> tuple | None:
        """What the condition of a branch compares, which must be public."""
        if self.values.flags.kind == SECRET:
            raise IsWrong("a branch depends on secret data")
        return self.comparison_of_condition(condition)

    def comparison_of_condition(self, condition: str) -> tuple | None:
        """What a condition compares, as (relation, word, word), or None. Of secrets, only how."""
        m, relation = self.values, self.RELATIONS.get(condition)
        kind, a, b, r = m.flags
        if kind == UNKNOWN:
            raise CannotShow("the flags are not known")
        if kind == SECRET:
            return relation, None, None
        if kind == "add" and condition in self.CARRY:
            return self.CARRY[condition], a, b
        if kind == "sub" and condition in {**self.RELATIONS, **self.SIGNED}:
            on_stack = m.is_on_stack(a) and m.is_on_stack(b)
            if on_stack:               # its addresses are all on one side of 0, and of a half
                a, b = (T.const(a.w, T.linear(t)[0]) for t in (a, b))
            if on_stack or not relation:            # with all numbers moved by a half of them
                half = T.const(a.w, 1 << a.w - 1)
                a, b = (t + half for t in (a, b))
            return relation or self.SIGNED[condition], a, b
        if relation in ("==", "!=") or kind == "logic" and relation:
            return relation, r, T.const(r.w, 0)
        return None

    def check_stack_alignment(self) -> None:
        """Refuses a call at which the stack is not aligned as the calling convention says."""
        if (self.values.lowest_stack_offset() + self.values.alignment[1]) % 16:
            raise IsWrong("the stack pointer is not a multiple of 16 at a call")

    def check_vectors_at_return(self) -> None:
        """Refuses what a function may not leave in vector registers, besides those of bytes_kept_for_caller()."""

    def check_return(self, entry: tuple, first: int = 0) -> None:
        """Refuses a return with another address, stack pointer or register of the caller, from the first on."""
        parts, byte = ("return address", "stack pointer", "registers"), self.values.byte_normalizer()
        for what, found, wanted in [*zip(parts, self.bytes_kept_for_caller(), entry)][first:]:
            if [byte(b) for b in found] != [byte(b) for b in wanted]:
                raise IsWrong("the caller's %s: not as at the entry" % what)


def need_public(t: T.Term, what: str) -> None:
    """Refuses a term that depends on a secret or on undefined data."""
    for taint, name in ((T.SECRET, "secret"), (T.JUNK, "undefined")):
        if t.taint & taint:
            inputs = T.inputs_that_change(t, taint)
            text = "%s depends on %s data: %r" % (what, name, t)
            if inputs:
                raise IsWrong("%s: %s" % (text, inputs))
            raise CannotShow(text)


@T.memoized
def undefined_bytes(name: str, n: int) -> list:
    """n bytes of undefined data, as words of 8 bytes."""
    sizes = [min(8, n - k) for k in range(0, n, 8)]
    return [(t, j) for k, size in enumerate(sizes) for t in [T.var(8 * size, "%s.%d" % (name, k), T.JUNK)]
            for j in range(size)]


def chunks(data: Any, n: int) -> list:
    return [data[i:i + n] for i in range(0, len(data), n)]


def joined(parts: Iterable | list) -> list:
    return [b for part in parts for b in part]


def lanewise(f: Callable, n: int, *sources: list) -> list:
    """Applies f to the words of n bytes of each source."""
    result = []
    for parts in zip(*[chunks(s, n) for s in sources]):
        result += T.split(f(*[T.word(p) for p in parts]))
    return result


def shifted(f: Callable, n: int, data: list, k: int) -> list:
    """Words of n bytes that are shifted by k bits."""
    if not 0 <= k < 8 * n:
        raise CannotShow("a shift by %d is not modelled" % k)
    return lanewise(lambda t: f(8 * n, t, k), n, data)


def picked(n: int, places: Iterable, *sources: list) -> list:
    """The parts of n bytes at some places of all sources together. Behind these are zeros."""
    parts = chunks(joined(sources), n)
    return joined(parts[p] if p < len(parts) else [0] * n for p in places)


def bitwise(f: Callable, a: list, b: list) -> list:
    """Applies f to the widest words of at most 8 bytes that do not consist of parts."""
    if len(a) > 8:
        return joined(bitwise(f, x, y) for x, y in zip(chunks(a, 8), chunks(b, 8)))
    if f is T.bitwise_or and all(0 in pair for pair in zip(a, b)):
        return [y if x == 0 else x for x, y in zip(a, b)]
    x, y = T.word(a), T.word(b)
    if len(a) == 1 or x.op != "cat" and y.op != "cat":
        return T.split(f(8 * len(a), x, y))
    half = len(a) // 2
    return bitwise(f, a[:half], b[:half]) + bitwise(f, a[half:], b[half:])


def no_rule(*data: Any) -> Any:
    raise CannotShow("there is no rule for this operation on vectors")


def apply_to_numbers(w: int, f: Callable, *words: T.Term) -> T.Term:
    """f of words that are numbers, or that all depend on one flag."""
    found = T.fold_constants(f, w, *words)
    if found is None:
        raise CannotShow("there is no rule for this operation on %s" % (words,))
    return found


def number(bs: list) -> int:
    t = T.word(bs)
    if t.op != "const":
        raise CannotShow("%r is not constant" % t)
    return t.args
