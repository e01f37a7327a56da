"""Random functions of WebAssembly with all instructions that tools/wasm_to_c.py knows, as lines of text in the form of
tools/wasm_format.py, and modules of them. Not a program.

A function is called with a buffer of 64 bytes and two numbers. It reads and writes the buffer, its locals and its part
of the stack, calls functions before it, and returns a number of all its locals, or writes that to the buffer.
"""
import collections
import os
import random
import re
import sys

TOP = os.path.dirname(os.path.dirname(os.path.dirname(os.path.abspath(__file__))))
sys.path.insert(0, os.path.join(TOP, "tools"))
from wasm_format import MORE, PLAIN  # noqa: E402

TYPES = {"i32": 0x7f, "i64": 0x7e}
BITS = {"i32": 32, "i64": 64}
PARAMETERS = ["i64"] * 3
# The locals: 0 is the buffer, 1 to 6 are free, 7 is the fuel of loops, 8 the part of the stack, 9 what the stack
# pointer was, 10 an address or a number, 11 and 12 are never read, and 13 is set on one of two ways only.
LOCALS = ["i64", "i64", "i32", "i32", "i32", "i64", "i64", "i64", "i64", "i32", "i64"]
BUFFER, FRAME = 0, 8
FREE = {"i64": [1, 2, 3, 4], "i32": [5, 6]}
UNREAD = {"i64": 11, "i32": 12}
RESULTS = ["i64"], ["i32"], []

# The rules: a name, how often it is chosen, and instructions. `@t` is an expression of the rule's type, `@u` one of
# the other type, and `@i32/3` one of depth 3; another `@name` is a rule of this name, or a method, for the type after
# `/`, of which `any` is a random one; `@body/1` are statements in 1 block, and `@body/+1` in one more than here. In
# braces is a choice of FIELDS, the same each time if it ends in 1, also in the rules that are named without a type.
RULES = """
number 5: @t; @t; {t}.{binary}
number 2: @t; local.tee {k}
number 1: @t; @t; @i32; select
number 1: {t}.const {n}; {t}.const {n}; @i32; select; {t}.const {far}; {t}.shl
number 2: @load
number 1: @u; {change}
number 1: @t; {t}.const {divisor}; {t}.{divide}
number 1: @t; @t; {t}.const 1; {t}.or; {t}.{divide}
number 1: @t; {t}.{extend}
number 2: @test/any; {widen}
number 2: @t/0
number 1: @t; {t}.const {below}; {t}.{sum}
number 1: {t}.const {large}; {t}.const {large}; {t}.{product}
leaf 1: {t}.const {n}
leaf 4: local.get {k}
test 5: @t; @t; {t}.{comparison}; {not}
test 1: @t; {t}.eqz; {not}
test 1: {t}.const {n}; {t}.eqz; {not}
load 1: local.get {at}; {t}.{load} {place}
mix 1: local.get {k1}; {t}.{sum}; {t}.const 9; {t}.rotl; local.set {k1}

statement 3: @t/4; @mix
statement 3: @store
statement 1: @fill
statement 1: @copy
statement 1: @t/3; drop
statement 2: @load; {t}.const {n}; {t}.add; @write/any; @mix
statement 1: @t/1; local.get {k1}; {t}.{onto}; local.set {k1}
statement 1: local.get {k1}; @t/1; {t}.{onto1}; @t/1; {t}.{onto1}; local.set {k1}
statement 1: local.get {k1}; @t/1; {t}.sub; @t/1; {t}.add; local.set {k1}
statement 1: @t/1; @t/1; @i32/0; select; local.set {k}
statement 1: local.get {k1}; local.get {k1}; {t}.{onto}; local.set {k}
statement 1: local.get {k1}; block; @i32/1; br_if 0; @t/1; local.set {k1}; end; @t/1; {t}.sub; @mix
statement 1: local.get {at1}; {t}.{load} {place1}; local.get {at1}; {t}.const {n}; {t}.store {place1}; local.set {k}
statement 1: local.get 0; {t}.load 8; local.get 0; i32.const {few}; i64.const 16; memory.fill 0; local.set {k}
statement 1: @moving
statement 1: block; local.get {i}; br_if 0; local.get {j}; local.set 13; end; local.get 13; local.get {j1}; i64.xor; \
local.set {j1}
statement 2: @low; @high
statement 1: @high; @low
statement 1: @low; @high; local.get {at1}; local.get {k1}; {t}.const 16; {t}.shr_u; {t}.store{bits} {p1+2}
statement 1: local.get {at1}; local.get {k1}; {t}.store16 {p1}; local.get {at1}; local.get {k1}; {t}.const {half}; \
{t}.shr_u; {t}.store16 {p1+2}
statement 1: @zero; @touching
statement 1: @touching; @zero
statement 1: @zero; @touching; local.get {at1}; {t}.const {zero}; {t}.store{bits} {p1+3}
write 1: @store
write 1: @fill
write 1: @copy
store 1: local.get {at}; @t/3; {t}.{store} {place}
fill 1: @place; @i32/2; i64.const {few}; memory.fill 0
copy 1: @place; @place; i64.const {few}; memory.copy 0 0
place 1: local.get {at}; i64.const {few}; i64.add
moving 1: local.get 0; i32.const 8; i32.store8 16; @moved; i32.store8 8; @moved; i32.store8 9
moving 1: local.get 0; @first; i64.store8 1; local.get 0; @first; i64.const 8; i64.shr_u; i64.store8 2
moving 1: local.get 0; local.get {i1}; i32.const 24; i32.shr_u; i32.store8 1; local.get 0; local.get {i1}; \
i32.const 32; i32.shr_u; i32.store8 2
low 1: local.get {at1}; local.get {k1}; {t}.store8 {p1}
high 3: local.get {at1}; local.get {k1}; {t}.const 8; {t}.shr_u; {t}.store{bits} {p1+1}
high 1: local.get {at}; local.get {k1}; {t}.const 8; {t}.shr_u; {t}.store8 {p1+1}
high 1: local.get {at1}; local.get {k}; {t}.const 8; {t}.shr_u; {t}.store8 {p1+1}
high 1: local.get {at1}; local.get {k1}; {t}.const {far8}; {t}.shr_u; {t}.store8 {p1+1}
high 1: local.get {at1}; local.get {k1}; {t}.const 8; {t}.{no_part}; {t}.store8 {p1+1}
high 1: local.get {at1}; local.get {k1}; {t}.const 8; {t}.shr_u; {t}.store8 {p1+2}
zero 2: local.get {at1}; i32.const {zero}; i32.store8 {p1}
zero 1: local.get {at1}; i64.const 1; i64.add; i32.const 0; i32.store8 {p1}
touching 2: local.get {at1}; i64.const {zero}; i64.store{wide} {p1+1}
touching 1: local.get {at}; i32.const 0; i32.store16 {p1+1}
touching 1: local.get {at1}; i32.const 0; i32.store8 {p1+2}
moved 1: local.get 0; local.get 0; i64.load8_u 16; i64.add; i32.const 0
first 1: local.get 0; i64.load 0

in_block 1: @i32/0; br_if {label}
in_block 1: @i32/1; br_if {label}
calling 2: @call
calling 1: @calls
calling 1: @load; {t}.const {n}; {t}.add; @call; @mix
nesting 1: block; @body/+1; end
nesting 1: block; loop; @fuel; @body/+2; br 0; end; end
nesting 1: @i64/3; block; @body/1; end; @i64/2; i64.sub; @mix/i64
nesting 2: @t/2; @plain_statement; @t/2; {t}.sub; @mix
nesting 1: block; @body/+1; br 0; end
nesting 1: block; @body/+1; @i64/1; br 0; end
nesting 1: block; @t/2; @t/2; {t}.{comparison}; i32.eqz; br_if 0; @body/1; end
nesting 1: block; block; @body/+2; br {inner}; @body/0; end; @body/+1; end
fuel 1: local.get 7; i32.eqz; br_if 1; local.get 7; i32.const 1; i32.sub; local.set 7

on_stack 1: local.get 8; i64.const 8; i64.or; @i64/1; i64.store {after1}; local.get 8; i64.const 8; i64.add; \
i64.load {after1}; @mix/i64
on_stack 1: local.get 8; @i64/1; i64.store {last1}; local.get 8; i64.const {last1}; i64.add; i64.load 0; local.get 8; \
i32.load8_u 0; i64.extend_i32_u; i64.add; @mix/i64
on_stack 1: local.get 8; local.set 10; block; loop; @fuel; local.get 10; i64.const 99; i64.lt_s; br_if 1; i64.const 5; \
local.set 10; br 0; end; end; block; local.get {j}; i64.const 5; i64.gt_u; br_if 0; local.get 8; local.set 10; end; \
local.get 10; i64.const 99; i64.{order}; i64.extend_i32_u; @mix/i64

enter 1: block; block; global.get 0; i64.const 16; i64.lt_s; br_if 0; br 1; end; unreachable; end
enter 1: block; global.get 0; i64.const 15; i64.gt_s; br_if 0; unreachable; end
take 2: global.get 0; i64.const {room}; i64.sub; local.tee 8; global.set 0; @enter; local.get 8; i32.const {few}; \
i64.const {room}; memory.fill 0
give 2: local.get 8; i64.const {room}; i64.add; global.set 0
take_aligned 1: global.get 0; local.tee 9; i64.const {room}; i64.sub; i64.const {mask}; i64.and; local.tee 8; \
global.set 0; @enter; local.get 8; i32.const {few}; i64.const {room}; memory.fill 0
give_aligned 1: local.get 9; global.set 0
"""
BY_NAME = collections.defaultdict(list)
for _rule in filter(None, RULES.split("\n")):
    _name, _weight, _text = re.fullmatch(r"(\w+) (\d): (.*)", _rule).groups()
    BY_NAME[_name] += [_text.split("; ")] * int(_weight)

BINARY = "add sub mul and or xor shl shr_u shr_s rotl rotr".split()
COMPARISONS = "eq ne lt_s lt_u gt_s gt_u le_s le_u ge_s ge_u".split()
LOADS = {"i32": "load load8_s load8_u load16_s load16_u".split(),
         "i64": "load load8_s load8_u load16_s load16_u load32_s load32_u".split()}
STORES = {"i32": "store store8 store16".split(), "i64": "store store8 store16 store32".split()}
EXTENDS = {"i32": "extend8_s extend16_s".split(), "i64": "extend8_s extend16_s extend32_s".split()}
# What is in braces in the rules, for all types or for each.
FIELDS = {
    "binary": BINARY, "comparison": COMPARISONS, "load": LOADS, "store": STORES, "extend": EXTENDS, "k": FREE,
    "i": FREE["i32"], "j": FREE["i64"], "t": {type_: [type_] for type_ in TYPES}, "sum": ["add", "xor", "sub"],
    "change": {"i32": ["i32.wrap_i64"], "i64": ["i64.extend_i32_s", "i64.extend_i32_u"]},
    "widen": {"i32": [""], "i64": ["i64.extend_i32_u"]}, "not": ["", "i32.eqz"], "far": [24, 31, 40],
    "divisor": [1, 3, 10, 4096, -5], "divide": ["div_u", "rem_u"], "below": [-1, -2, -8, -300],
    "large": [0x7fff, 0xffff, 0x7fffffff], "product": ["add", "mul", "mul"], "place": range(57), "few": range(32),
    "bits": [8, 16], "half": [16, 16, 8], "far8": [0, 16, 24, 32], "no_part": ["shr_s", "shl", "add", "rotr"],
    "zero": [0, 0, 0, 0, -1], "wide": [8, 16, 32, ""], "p": range(40), "onto": ["add", "sub", "sub", "mul", "xor"],
    "inner": [0, 1], "order": ["lt_s", "gt_s"], "mask": [-32, -64],
}
EDGES = [0, 1, 2, 7, 31, 32, 63, 64, 127, 128, 255, 256, 32767, 32768, 65535, 1 << 31]


class WasmFunctionMaker:
    def __init__(self, seed):
        self.random = random.Random(seed)
        self.room = 0               # bytes of the part of the stack
        self.functions = []         # results and lines of each

    def random_choice(self, *things):
        return self.random.choice(things)

    def random_number(self, type_):
        """A number, often one at an edge."""
        w = BITS[type_]
        n = self.random_choice(*EDGES, (1 << w) - 1, (1 << w) - 2, (1 << w) - 8, (1 << w) - 300, 1 << w - 1,
                               (1 << w - 1) - 1,
                        self.random.getrandbits(w))
        return n - (n >> w - 1 << w)

    def random_address_local(self):
        """The local of an address, with at least 64 bytes after it."""
        return FRAME if self.room >= 64 and self.random.random() < .3 else BUFFER

    def random_field(self, name, type_, blocks):
        here = {"n": lambda: self.random_number(type_), "at": self.random_address_local,
                "label": lambda: self.random.randrange(blocks),
                "room": lambda: self.room, "last": lambda: self.room - 8,
                "after": lambda: self.random_choice(0, 8, 24) if self.room >= 48 else 0}
        if name in here:
            return here[name]()
        found = FIELDS[name]
        return self.random.choice(found[type_] if isinstance(found, dict) else found)

    def apply_rule(self, name, type_, depth=0, nesting=0, blocks=0, kept=None):
        """The lines of a rule, after these choices. Expressions in it have this depth, and statements may nest so far
        in these blocks."""
        lines, kept = [], {} if kept is None else kept

        def field_text(match):
            word, more = match[1], int(match[2] or 0)
            if not word.endswith("1"):
                return str(self.random_field(word, type_, blocks))
            if word not in kept:
                kept[word] = self.random_field(word[:-1], type_, blocks)
            return str(kept[word] + more if more else kept[word])

        for item in self.random.choice(BY_NAME[name]):
            if not item.startswith("@"):
                lines.append(re.sub(r"\{(\w+)(?:\+(\d))?\}", field_text, item))
                continue
            part, _, more = item[1:].partition("/")
            of = {"t": type_, "u": "i32" if type_ == "i64" else "i64"}.get(part, part)
            if of in TYPES:
                lines += self.random_expression(of, int(more) if more else depth)
            elif part == "body":
                lines += self.random_statements(nesting, int(more) + (blocks if more.startswith("+") else 0))
            elif part in BY_NAME:
                of = self.random_choice(*TYPES) if more == "any" else more or type_
                lines += self.apply_rule(part, of, depth, kept=None if more else kept)
            else:
                lines += getattr(self, part)()
        return list(filter(None, lines))

    def random_expression(self, type_, depth):
        """Lines that leave a number of this type."""
        return self.apply_rule("number" if depth else "leaf", type_, depth - 1)

    def random_statement(self, nesting, blocks):
        """A statement: it leaves no operand."""
        names = (("statement", True), ("in_block", blocks), ("calling", self.functions), ("nesting", nesting),
                 ("on_stack", self.room))
        name = self.random_choice(*(name for name, is_possible in names if is_possible for _ in BY_NAME[name]))
        return self.apply_rule(name, self.random_choice(*TYPES), nesting=nesting - 1, blocks=blocks)

    def random_statements(self, nesting, blocks):
        return [line for _ in range(self.random.randrange(1, 5)) for line in self.random_statement(nesting, blocks)]

    # ---- what has no rule

    def plain_statement(self):
        """A statement with no other in it."""
        return self.random_statement(0, 0)

    def call_of_random_function(self):
        """Lines that call one of the functions before, and the type of what they leave."""
        k = self.random.randrange(len(self.functions))
        lines = [f"local.get {self.random_address_local()}", *self.random_expression("i64", 2),
                 *self.random_expression("i64", 2), f"call {k}"]
        return lines, *(self.functions[k][0] or [None])

    def call(self):
        """Calls a function, whose result is used or not."""
        lines, type_ = self.call_of_random_function()
        if type_ and self.random.random() < .3:
            return lines + [self.random_choice("drop", f"local.set {UNREAD[type_]}")]
        return lines + (self.apply_rule("mix", type_) if type_ else [])

    def calls(self):
        """The result of a call waits during another."""
        lines = []
        for _ in range(2):
            call, type_ = self.call_of_random_function()
            lines += call + {"i32": ["i64.extend_i32_u"], None: ["i64.const 5"]}.get(type_, [])
        return lines + ["i64.sub"] + self.apply_rule("mix", "i64")

    # ---- functions

    def random_function(self):
        """The results and the lines of a function."""
        results = RESULTS[len(self.functions) % 3]
        self.room = self.random_choice(0, 0, 16, 48, 160, 160, 1040)
        aligned = "_aligned" * (self.random.random() < .3)
        lines = self.apply_rule(f"take{aligned}" if self.room else "enter", "i64") + ["i32.const 5", "local.set 7"]
        end = self.apply_rule(f"give{aligned}", "i64") if self.room else []
        for _ in range(8):
            lines += self.random_statement(3, 0)
        sums = [f"local.get {FREE['i64'][0]}"]
        for n in FREE["i64"][1:]:
            sums += ["i64.const 13", "i64.rotl", f"local.get {n}", "i64.add"]
        for n in FREE["i32"]:
            sums += [f"local.get {n}", "i64.extend_i32_u", "i64.xor"]
        if not results:
            return results, lines + ["local.get 0"] + sums + ["i64.store 0"] + end + ["end"]
        sums += ["i32.wrap_i64"] if results == ["i32"] else []
        result = self.random_choice(*FREE[results[0]])
        if self.random.random() < .5:
            return results, lines + sums + [f"local.set {result}"] + end + [f"local.get {result}", "return", "end"]
        return results, lines + sums + end + ["end"]

    def make_functions(self, count):
        """Makes functions. Those after the fourth call only earlier ones of the first four."""
        made = []
        for k in range(count):
            self.functions = made[:min(k, 4)]
            made.append(self.random_function())
        return made


# ---- modules

CODES = {known.partition(" ")[0]: (prefix + bytes([code]), known.partition(" ")[2])
         for prefix, table in ((b"", PLAIN), (b"\xfc", MORE)) for code, known in table.items()}


def leb128(n, signed=False):
    """A number in LEB128."""
    found = b""
    while True:
        low, n = n & 127, n >> 7
        if n in (0, -1) and (not signed and n == 0 or signed and n == -(low >> 6)):
            return found + bytes([low])
        found += bytes([low | 128])


def encoded_instruction(line):
    name, *words = line.split()
    code, kinds = CODES[name]
    if kinds == "b":
        return code + bytes([TYPES[words[0]] if words else 0x40])
    if kinds == "m":
        return code + b"\0" + leb128(int(words[0]))
    kinds = kinds.replace("t", "u" * len(words))
    return code + b"".join(leb128(int(word), kind == "s") for kind, word in zip(kinds, words))


def encoded_list(parts):
    return leb128(len(parts)) + b"".join(parts)


def with_length_prefix(data):
    return leb128(len(data)) + data


def encoded_section(id_, content):
    return bytes([id_]) + with_length_prefix(content)


def encoded_module(functions, exports, more=b""):
    """A module: of functions (name, parameters, results, other locals, lines), with a stack of a page and a half, and
    with exports, by name. `more` are other sections, after the first."""
    types = encoded_list([b"\x60" + b"".join(with_length_prefix(bytes(TYPES[t] for t in each)) for each in f[1:3])
                          for f in functions])
    top = leb128(98304, True)
    globals_ = encoded_list([b"\x7e\x01\x42" + top + b"\x0b", b"\x7f\x01\x41\0\x0b", b"\x7e\0\x42" + top + b"\x0b"])
    bodies = [with_length_prefix(encoded_list([bytes([1, TYPES[t]])
                                               for t in locals_]) + b"".join(map(encoded_instruction, lines)))
              for *_, locals_, lines in functions]
    names = encoded_list([leb128(k) + with_length_prefix(f[0].encode()) for k, f in enumerate(functions)])
    exported = [with_length_prefix(name.encode()) + b"\0" + leb128(k) for name, k in exports.items()]
    return (b"\0asm\1\0\0\0" + encoded_section(1, types) + more +
            encoded_section(3, encoded_list([leb128(k) for k in range(len(functions))])) +
            encoded_section(5, b"\x01\x04\x02") + encoded_section(6, globals_) +
            encoded_section(7, encoded_list(exported + [b"\x06memory\x02\0"])) + encoded_section(10,
                                                                                                 encoded_list(bodies)) +
            encoded_section(0, b"\x04name" + encoded_section(1, names)))


# The functions of Rattle's runtime between which an exported function calls another.
RUNTIME = [("__rattle_enter", [], ["i32"], ["i32"], ["global.get 1", "local.set 0", "i32.const 1", "global.set 1",
                                                    "local.get 0", "i32.const 0", "i32.ne", "end"]),
           ("__rattle_leave", [], [], [], ["i32.const 0", "global.set 1", "end"]),
           ("__rattle_trap", [], [], [], ["unreachable", "end"])]


def wrapper_lines(callee, results, runtime, order):
    """The lines of a function that calls another, with its arguments in this order, as Rattle writes it."""
    return ["block", f"call {runtime}", "i32.eqz", "br_if 0", f"call {runtime + 2}", "unreachable", "end",
            *(f"local.get {k}" for k in order), f"call {callee}", *["local.set 3"] * len(results),
            f"call {runtime + 1}", *["local.get 3"] * len(results), "end"]


def random_module(seed, count):
    """A module of random functions, their results, and their lines. Those of some are called by the exported ones, and
    some of these swap the last two arguments."""
    made = WasmFunctionMaker(seed).make_functions(count)
    functions = [(f"vulfsjor_ffi_t{k}", PARAMETERS, results, LOCALS, lines)
                 for k, (results, lines) in enumerate(made)]
    exports = {function[0]: k for k, function in enumerate(functions)}
    functions += RUNTIME
    for k in range(6, count, 5):
        name, _, results, _, _ = functions[k]
        functions[k] = "rattle::export " + name, *functions[k][1:]
        exports[name] = len(functions)
        lines = wrapper_lines(k, results, count, (0, 1, 2) if k % 2 else (0, 2, 1))
        functions.append((name, PARAMETERS, results, results or ["i64"], lines))
    return encoded_module(functions, exports), [results for results, _ in made], [lines for _, lines in made]
