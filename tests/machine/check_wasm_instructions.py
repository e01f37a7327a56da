"""Runs each form of WebAssembly instruction of the compression functions in node, over random operands, and compares
with the model. Control, calls of locals, and the check of the stack are part of whole functions only."""

import json
import random
import subprocess
from typing import Any

import functions
import terms as T
import wasm
from machine import MemoryRegion
from program import read, wasm_format
from symbolic import SymbolicState

SKIPPED = ("block", "loop", "end", "br", "br_if", "return", "unreachable", "local.get",
           "local.set", "local.tee", "global.get", "i64.lt_s")
NODE = """
const {modules, inputs} = JSON.parse(require("fs").readFileSync(0, "utf8"));
const run = modules.map((text) => {
  const {memory, f} = new WebAssembly.Instance(new WebAssembly.Module(Buffer.from(text, "hex"))).exports;
  return (input) => {
    const bytes = Buffer.from(memory.buffer, 0, input.length / 2);
    Buffer.from(input, "hex").copy(bytes);
    f();
    return bytes.toString("hex");
  };
});
console.log(JSON.stringify(inputs.map(([k, input]) => run[k](input))));
"""
SIZE, RESULT = 1024, 128               # bytes of memory, and where a result goes; operands are at 0, 16 and 32
ADDRESS = 512                          # that a load or a store has with its offset
# The opcodes of all instructions, and the kinds of their numbers.
CODES = {known.partition(" ")[0]: (prefix, code, known.partition(" ")[2]) for prefix, table in (
    (b"", wasm_format.PLAIN), (b"\xfd", wasm_format.VECTOR)) for code, known in table.items()}


def operand_and_result_types(text: str) -> tuple:
    name = text.split()[0]
    kind, _, what = name.partition(".")
    if name in wasm.PURE:
        return wasm.PURE[name][:2]
    if name == "select":
        return ["v128", "v128", "i32"], "v128"
    if not what.startswith(("load", "store")):
        raise T.CannotShow("the instruction %s is not modelled: add it to tests/machine/wasm.py" % text)
    return (["i32", kind], None) if what == "store" else (["i32"], kind)


def leb128(n: int, signed: bool = False) -> bytes:
    is_last = -64 <= n < 64 if signed else n < 128
    return bytes([n & 127]) if is_last else bytes([n & 127 | 128]) + leb128(n >> 7, signed)


def length_prefixed(data: bytes) -> bytes:
    return leb128(len(data)) + data


def encode_instruction(text: str) -> bytes:
    """The bytes of an instruction. The place in memory begins with its alignment."""
    name, *numbers = text.split()
    prefix, code, kinds = CODES[name]
    data = b"".join(leb128(int(n), kinds == "s") if kinds in ("u", "s", "m") else bytes([int(n)]) for n in numbers)
    return prefix + (leb128(code) if prefix else bytes([code])) + b"\0" * (kinds == "m") + data


def test_module(text: str) -> bytes:
    """A module with a function that loads operands, runs the instruction, and stores its result."""
    operands, result = operand_and_result_types(text)
    lines = ["i32.const 0"] * (result is not None)
    for k, kind in enumerate(operands):
        lines += ["i32.const 0", "%s.load %d" % (kind, 16 * k)]
    lines += [text] + ["%s.store %d" % (result, RESULT)] * (result is not None) + ["end"]
    body = length_prefixed(b"\0" + b"".join(map(encode_instruction, lines)))
    sections = {1: b"\1\x60\0\0", 3: b"\1\0", 5: b"\1\0\1", 7: b"\2\6memory\2\0\1f\0\0", 10: b"\1" + body}
    return b"\0asm\1\0\0\0" + b"".join(bytes([k]) + length_prefixed(data) for k, data in sections.items())


def memory_after_in_model(text: str, data: bytes) -> bytes:
    operands, result = operand_and_result_types(text)
    base = T.var(32, "memory", T.PUBLIC)
    m = SymbolicState({base: MemoryRegion(0, SIZE, lambda k: data[k])}, wasm.Wasm, (16, 0))
    m.stack, m.globals = T.var(32, "sp", T.PUBLIC), [[0] * 4]
    cpu, at = wasm.Wasm(m), lambda n: base + n
    for k, kind in enumerate(operands):
        cpu.push(list(data[16 * k:16 * k + wasm.SIZES[kind]]))
    if ".load" in text or ".store" in text:
        m.operands[0] = T.split(at(int.from_bytes(data[:4], "little")))
    cpu.execute_instruction(wasm.Instruction(0, text))
    if result is not None:
        m.store(at(RESULT), cpu.pop())
    return bytes(m.first_bytes(base, len(data)))


def choose_instructions(path: str, rng: Any, count: int) -> tuple:
    """How many names of instructions the functions of the list have, and up to `count` instructions of each."""
    program = read(path)
    found: dict = {}
    for name, _, _ in functions.FILES[path]:
        for text in program.functions[functions.name_in_file(path, name)]:
            if text.split()[0] not in SKIPPED:
                found.setdefault(text.split()[0], set()).add(text)
    return len(found), [t for n in sorted(found) for t in rng.sample(sorted(found[n]), min(count, len(found[n])))]


def random_memory(text: str, has_zeros: int, rng: Any) -> bytes:
    """Random memory, in which some operands are zero, the number of a shift is small, and an address is right."""
    operands, (name, *numbers) = operand_and_result_types(text)[0], text.split()
    data = bytearray(rng.randbytes(SIZE))
    if has_zeros and operands[:1] != ["v128"]:
        data[:32] = bytes(32)
    if operands == ["v128", "i32"]:
        data[16:20] = bytes([rng.randrange(64), 0, 0, 0])
    if ".load" in name or ".store" in name:
        data[:4] = (ADDRESS - int(numbers[0])).to_bytes(4, "little")
    return bytes(data)


def check_model_agrees(path: str, rounds: int) -> tuple:
    """Whether the model agrees with node: a verdict, and the numbers or what differs."""
    rng = random.Random(5)
    count, tests = choose_instructions(path, rng, 8)
    inputs = [(k, random_memory(text, n % 2, rng)) for k, text in enumerate(tests) for n in range(rounds)]
    message = {"modules": [test_module(t).hex() for t in tests], "inputs": [(k, data.hex()) for k, data in inputs]}
    run = subprocess.run(["node", "-e", NODE], input=json.dumps(message), text=True, stdout=subprocess.PIPE, check=True)
    for (k, before), after in zip(inputs, json.loads(run.stdout), strict=True):
        if memory_after_in_model(tests[k], before).hex() != after:
            return "not ok", "%s: in the model the memory or the result differs" % tests[k]
    return "ok", "%d forms, %d instructions, %d runs" % (count, len(tests), len(inputs))
