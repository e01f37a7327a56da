// Rewrites a WebAssembly module with a 64-bit memory to use a 32-bit memory, so that it also runs
// in Safari, and in node before 24 without a flag. Each address, and each length of a copy or fill,
// is wrapped to 32 bits where it is used. Nothing else changes: the parameters of functions stay 64
// bits wide.
//
// Why the result is the same: an access that does not trap in the first module has an address, and
// address plus offset, below the size of the memory, which is below 2^32. So wrapping does not
// change it. Only an access that traps in the first module may behave differently in the second. No
// address can be forgotten: the engine checks the types of the result, and a 64-bit address is not
// an operand of an access to a 32-bit memory.
//
// It can leave out functions too, for programs that use one hash: a function that cannot be called
// has a body that traps instead, and the others keep their numbers.
//
// It refuses what it does not know: imports, tables of code, threads, memory that grows, several
// memories.

const I32 = 0x7f, I64 = 0x7e, F32 = 0x7d, F64 = 0x7c, V128 = 0x7b;
const WRAP = 0xa7; // i32.wrap_i64

class Reader {
  constructor(bytes, at = 0, end = bytes.length) {
    Object.assign(this, { bytes, at, end });
  }
  byte() {
    if (this.at >= this.end) throw new Error("lower: the module ends too early");
    return this.bytes[this.at++];
  }
  take(length) {
    if (length > this.end - this.at) throw new Error("lower: the module ends too early");
    return this.bytes.subarray(this.at, (this.at += length));
  }
  // An unsigned number in LEB128, as a BigInt.
  unsigned() {
    let value = 0n;
    for (let shift = 0n; ; shift += 7n) {
      const byte = this.byte();
      value |= BigInt(byte & 0x7f) << shift;
      if (byte < 0x80) return value;
    }
  }
  number() {
    const value = this.unsigned();
    if (value >= 2n ** 32n) throw new Error("lower: a number is too large for 32 bits");
    return Number(value);
  }
  // Skips a number in LEB128, signed or not.
  skip() {
    while (this.byte() >= 0x80);
  }
  signed() {
    const begin = this.at;
    this.skip();
    const length = this.at - begin;
    let value = 0n;
    for (let i = 0; i < length; i++) value |= BigInt(this.bytes[begin + i] & 0x7f) << BigInt(7 * i);
    return BigInt.asIntN(7 * length, value);
  }
}

const unsigned = (value) => {
  const out = [];
  for (; value >= 0x80; value = Math.floor(value / 128)) out.push((value % 128) | 0x80);
  return [...out, value];
};

// A number that is not negative, in the form of signed ones.
const signed = (value) => {
  const out = [];
  for (; value >= 0x40n; value >>= 7n) out.push(Number(value & 0x7fn) | 0x80);
  return [...out, Number(value)];
};

// The bytes of a rewritten function body.
class Body {
  constructor(parameters) {
    this.out = [];
    this.count = parameters; // of locals so far
    this.added = []; // types of the locals that are added
    this.calls = []; // the functions that it calls
  }
  // The index of an added local of this type.
  addLocal(type) {
    let place = this.added.indexOf(type);
    if (place < 0) place = this.added.push(type) - 1;
    return this.count + place;
  }
  push(...bytes) {
    for (const byte of bytes) this.out.push(byte);
  }
  set(type) {
    this.push(0x21, ...unsigned(this.addLocal(type)));
  }
  get(type) {
    this.push(0x20, ...unsigned(this.addLocal(type)));
  }
  // Wraps the address below a value of this type on the stack.
  wrapAddressBelow(type) {
    this.set(type);
    this.push(WRAP);
    this.get(type);
  }
  // Wraps address, value and length of a fill, or address, address and length of a copy.
  wrapThreeOperands(isCopy) {
    this.set(I64);
    if (isCopy) this.push(WRAP);
    this.set(I32);
    this.push(WRAP);
    this.get(I32);
    this.get(I64);
    this.push(WRAP);
  }
}

const STORES = [I32, I64, F32, F64, I32, I32, I64, I64, I64]; // from 0x36 on

// Skips alignment and offset of an access; refuses a second memory.
function skipAlignmentAndOffset(reader) {
  if (reader.number() > 0x3f) throw new Error("lower: several memories");
  reader.number();
}

const throwUnknown = (what, code) => {
  throw new Error(`lower: ${what} 0x${code.toString(16)} is not known`);
};

// A vector instruction, after 0xfd.
function lowerVector(reader, body) {
  const code = reader.number();
  const isLane = code >= 84 && code <= 91;
  if (code <= 10 || code === 92 || code === 93) body.push(WRAP);
  else if (code === 11 || isLane) body.wrapAddressBelow(V128);
  if (code <= 11 || isLane || code === 92 || code === 93) skipAlignmentAndOffset(reader);
  if (code === 12 || code === 13) reader.take(16);
  else if ((code >= 21 && code <= 34) || isLane) reader.take(1);
  else if (code > 0xff) throwUnknown("instruction 0xfd", code);
}

// An instruction after 0xfc.
function lowerMiscellaneous(reader, body) {
  const code = reader.number();
  if (code <= 7) return; // conversions
  if (code !== 10 && code !== 11) throwUnknown("instruction 0xfc", code);
  body.wrapThreeOperands(code === 10);
  if (reader.take(code === 10 ? 2 : 1).some((memory) => memory !== 0)) {
    throw new Error("lower: several memories");
  }
}

// Instructions without immediates: unreachable, nop, else, end, return, drop, select, arithmetic.
const hasNoImmediates = (code) =>
  [0x00, 0x01, 0x05, 0x0b, 0x0f, 0x1a, 0x1b].includes(code) || (code >= 0x45 && code <= 0xc4);

function lowerInstruction(reader, body) {
  const begin = reader.at;
  const code = reader.byte();
  if (code >= 0x28 && code <= 0x35) {
    body.push(WRAP);
    skipAlignmentAndOffset(reader);
  } else if (code >= 0x36 && code <= 0x3e) {
    body.wrapAddressBelow(STORES[code - 0x36]);
    skipAlignmentAndOffset(reader);
  } else if (code >= 0x02 && code <= 0x04) {
    reader.skip(); // the type of a block
  } else if (code === 0x10) {
    body.calls.push(reader.number());
  } else if (code === 0x0c || code === 0x0d || (code >= 0x20 && code <= 0x24)) {
    reader.skip(); // a label, a local or a global
  } else if (code === 0x0e) {
    for (let count = reader.number(); count >= 0; count--) reader.skip();
  } else if (code === 0x41 || code === 0x42) {
    reader.skip();
  } else if (code === 0x43 || code === 0x44) {
    reader.take(code === 0x43 ? 4 : 8);
  } else if (code === 0xfc) {
    lowerMiscellaneous(reader, body);
  } else if (code === 0xfd) {
    lowerVector(reader, body);
  } else if (!hasNoImmediates(code)) {
    throwUnknown("instruction", code);
  }
  body.push(...reader.bytes.subarray(begin, reader.at));
}

function lowerFunction(bytes, parameters) {
  const reader = new Reader(bytes);
  const body = new Body(parameters);
  const groups = reader.number();
  for (let i = 0; i < groups; i++) {
    body.count += reader.number();
    reader.byte();
  }
  const locals = bytes.subarray(unsigned(groups).length, reader.at);
  if (bytes[0] !== groups) throw new Error("lower: a number is not in its shortest form");
  while (reader.at < bytes.length) lowerInstruction(reader, body);
  const added = body.added.flatMap((type) => [1, type]);
  const lowered = [...unsigned(groups + body.added.length), ...locals, ...added, ...body.out];
  return { lowered, calls: body.calls };
}

// The number of parameters of each type.
function readTypes(reader) {
  const skipValues = () => {
    const count = reader.number();
    reader.take(count);
    return count;
  };
  return Array.from({ length: reader.number() }, () => {
    if (reader.byte() !== 0x60) throw new Error("lower: a type is not a function's");
    const count = skipValues();
    skipValues();
    return count;
  });
}

function lowerMemory(reader) {
  if (reader.number() !== 1) throw new Error("lower: there is not one memory");
  const flags = reader.byte();
  if (flags !== 4 && flags !== 5) throw new Error("lower: the memory is not 64 bits wide");
  return [1, flags - 4, ...reader.take(reader.end - reader.at)];
}

function lowerData(reader) {
  const count = reader.number();
  const out = unsigned(count);
  for (let i = 0; i < count; i++) {
    if (reader.number() !== 0 || reader.byte() !== 0x42) {
      throw new Error("lower: data without a plain address");
    }
    const address = reader.signed();
    if (address < 0n || address >= 2n ** 31n || reader.byte() !== 0x0b) {
      throw new Error("lower: a wrong address");
    }
    const length = reader.number();
    out.push(0, 0x41, ...signed(address), 0x0b, ...unsigned(length), ...reader.take(length));
  }
  return out;
}

// The exports of functions with these names, or of all, and of all that is no function; and the
// numbers of the functions.
function selectExports(reader, names) {
  const kept = [];
  const functions = [];
  for (let count = reader.number(); count > 0; count--) {
    const begin = reader.at;
    const name = Buffer.from(reader.take(reader.number())).toString();
    const isFunction = reader.byte() === 0;
    const index = reader.number();
    if (isFunction && !(names?.includes(name) ?? true)) continue;
    kept.push(reader.bytes.subarray(begin, reader.at));
    if (isFunction) functions.push(index);
  }
  if (functions.length < (names?.length ?? 0)) throw new Error("lower: an export is absent");
  return { functions, section: [unsigned(kept.length), ...kept].flatMap((part) => [...part]) };
}

const TRAP = [0, 0x00, 0x0b]; // the body of a function that nothing calls: no locals, and a trap

// The bodies of these functions and of those that they call, and TRAP for the others, so that each
// keeps its number. No other can run, since there are no tables of code and no function starts by
// itself.
function keepReachableBodies(bodies, functions) {
  const reached = new Set(functions);
  for (const index of reached) bodies[index].calls.forEach((callee) => reached.add(callee));
  return bodies.map((body, index) => (reached.has(index) ? body : { lowered: TRAP }));
}

/**
 * The module with a 32-bit memory, without custom sections such as names: with all functions, or
 * only those that the exports with these names need.
 */
export function lower(bytes, names) {
  const reader = new Reader(bytes);
  const out = [...reader.take(8)];
  if (String(out) !== "0,97,115,109,1,0,0,0") {
    throw new Error("lower: this is not a WebAssembly module of version 1");
  }
  let parameters = [];
  let functions = [];
  let exported = [];
  while (reader.at < bytes.length) {
    const id = reader.byte();
    const length = reader.number();
    const content = reader.take(length);
    const section = new Reader(content);
    const each = (read) => Array.from({ length: section.number() }, (_, i) => read(i));
    let lowered = content;
    if (id === 0) continue;
    else if (id === 1) parameters = readTypes(section);
    else if (id === 3) functions = each(() => parameters[section.number()]);
    else if (id === 5) lowered = lowerMemory(section);
    else if (id === 7) ({ functions: exported, section: lowered } = selectExports(section, names));
    else if (id === 10) {
      const all = each((i) => lowerFunction(section.take(section.number()), functions[i]));
      const bodies = names === undefined ? all : keepReachableBodies(all, exported);
      const sized = bodies.map((body) => [...unsigned(body.lowered.length), ...body.lowered]);
      lowered = [unsigned(bodies.length), ...sized].flat();
    } else if (id === 11) lowered = lowerData(section);
    else if (id !== 6) throwUnknown("section", id);
    out.push(id, ...unsigned(lowered.length));
    for (const byte of lowered) out.push(byte);
  }
  return Uint8Array.from(out);
}
