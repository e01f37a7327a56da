// Makes the calls of the conformance cases (tests/conformance/README.md) by the package, and compares their outcomes.
// It needs nothing but the package, so that browsers can run it too.
//
// Of every call it also tests: the arguments, of several types, are unchanged, and not read after the call; a digest is
// the same by every call that has it, and has a buffer of its own.

export const HASHES = ["blake2b", "blake2s", "blake2bp", "blake2sp", "blake2xb", "blake2xs", "tree"];
const NAMES = {
  size: "digestLength", key: "key", salt: "salt", person: "personalization", leaf: "leafLength", offset: "nodeOffset",
  fanout: "fanout", depth: "depth", node: "nodeDepth", inner: "innerLength", last: "lastNode",
};
// What the message of an error has, by the argument that is refused.
const REASONS = {
  ...NAMES, size: /digestLength|outputLength|: length must/, message: /message|piece/, digests: /digests/, tag: /tag/,
  first: /first|below byte 2\^58/, saved: /saved/, left: /are left|: length must/, context: /context/,
  state: /has ended, by digest, hex, verify, wipe or a failed call$|was wiped, or a call failed$|already being read$/,
};
const NO_KEY = /: this hash has no key, so that anybody can make the tag; compare digests with equal\(\)$/;
// Calls that the package does not have: a case ends there.
const ABSENT = /^(last|next|absorb|skip) /;

class Wrong extends Error {}
function check(condition, what) {
  if (!condition) throw new Wrong(what);
}

// The beginning of the endless message.
const MESSAGE = new Uint8Array(774_152);
for (let i = 0; i < MESSAGE.length; i++) MESSAGE[i] = i + (i >> 8) + (i >> 16);

const DIGITS = Array.from({ length: 256 }, (_, byte) => byte.toString(16).padStart(2, "0"));
const hexOf = (bytes) => bytes.reduce((digits, byte) => digits + DIGITS[byte], "");
const ofDigits = (digits) =>
  Uint8Array.from({ length: digits.length / 2 }, (_, i) => parseInt(digits.substr(2 * i, 2), 16));

/** A view of the bytes of a view or a buffer. */
const asByteView = (bytes) => (ArrayBuffer.isView(bytes)
  ? new Uint8Array(bytes.buffer, bytes.byteOffset, bytes.byteLength) : new Uint8Array(bytes));

function isSame(a, b) {
  let at = 0;
  while (at < a.length && a[at] === b[at]) at++;
  return at === a.length && at === b.length;
}

const { SharedArrayBuffer: Shared = ArrayBuffer, Buffer } = globalThis; // a browser may have neither

/** The bytes of a word, in several types by turns. */
let turn = 0;
const passed = []; // those of a call, and copies
function bytesOf(word) {
  if (word === "none") return null;
  let bytes = ofDigits(word === "-" ? "" : word);
  if (word.includes(":")) {
    const [start, end] = word.split(":").map(Number);
    check(end <= MESSAGE.length, word);
    bytes = MESSAGE.slice(start, end);
  }
  turn = (turn + 1) % 7;
  const within = new Uint8Array(new (turn === 0 ? Shared : ArrayBuffer)(bytes.length + 5)).fill(0x5a);
  within.set(bytes, 3);
  const shared = new Uint8Array(new Shared(bytes.length));
  shared.set(bytes);
  const view = [
    within.subarray(3, 3 + bytes.length), new DataView(within.buffer, 3, bytes.length),
    new Int8Array(within.buffer, 3, bytes.length), Buffer ? Buffer.from(bytes) : bytes.slice(),
    bytes.slice().buffer, bytes.slice(), shared.buffer,
  ][turn];
  passed.push([view, bytes]);
  return view;
}

/** Numbers as callers have them: a bigint beyond 2^53 where one is accepted. */
function numberOf(word, name) {
  if (word === "none") return null;
  if (name === "last") return word === "1";
  return name === "offset" || name === "first" ? BigInt(word) : Number(word);
}

/** The options of a hash. */
function optionsOf(name, given) {
  const options = {};
  const isNode = name === "blake2b" || name === "blake2s";
  for (const [word, value] of Object.entries(given)) {
    if (value === "unknown") continue;
    if (["key", "salt", "person"].includes(word)) options[NAMES[word]] = bytesOf(value);
    else if (word === "size") options[name.includes("x") ? "outputLength" : "digestLength"] = numberOf(value, word);
    else if (isNode) (options.tree ??= {})[NAMES[word]] = numberOf(value, word);
    else options[NAMES[word]] = numberOf(value, word);
  }
  return options;
}

/** The objects of a case, and a method for each call. */
class Driver {
  objects = {};
  isKeyed = {};

  constructor(vulfsjor) {
    this.vulfsjor = vulfsjor;
  }

  make(name, options) {
    return new this.vulfsjor[name === "tree" ? "TreeHash" : name.replace("b", "B")](options);
  }

  of(slot) {
    if (this.objects[slot] === undefined) throw new TypeError("no object: it was wiped, or a call failed");
    return this.objects[slot];
  }

  new([slot, name], given) {
    this.objects[slot] = undefined;
    this.isKeyed[slot] = "key" in given || name === "tree"; // a tree has no key, and its roots are compared
    const more = name === "tree" || name.includes("x") ? {} : { allowShort: true };
    this.objects[slot] = this.make(name, { ...optionsOf(name, given), ...more });
  }
  update([slot, message]) {
    check(this.of(slot).update(bytesOf(message)) === this.of(slot), "update returns another object");
  }
  updates([slots, ...pieces]) {
    const hashes = [...slots].map((slot) => this.of(slot));
    const { updateMany } = hashes[0].constructor;
    check(updateMany(hashes, pieces.map(bytesOf)) === undefined, "updateMany returns something");
  }
  copy([slot, other]) {
    this.objects[other] = this.of(slot).copy();
    this.isKeyed[other] = this.isKeyed[slot];
  }
  reset([slot]) { this.of(slot).reset(); }
  save([slot]) {
    const hash = this.of(slot);
    const saved = hash.save();
    check(isSame(hash.copy().save(), saved), "another state of the copy");
    return saved;
  }
  load([slot, name, saved]) {
    this.objects[slot] = undefined;
    this.isKeyed[slot] = false;
    this.objects[slot] = this.vulfsjor[name.replace("b", "B")].load(bytesOf(saved));
  }
  wipe([slot]) { this.objects[slot]?.wipe(); }
  digest([slot]) {
    const hash = this.of(slot);
    const copy = hash.copy();
    const digest = hash.digest();
    check(copy.hex() === hexOf(digest), "hex has other digits");
    check(digest.length === hash.digestLength, "another length");
    return digest;
  }
  verify([slot, tag]) {
    const hash = this.of(slot);
    try {
      check(hash.verify(bytesOf(tag)) === undefined, "verify returns something");
      check(this.isKeyed[slot], "verify accepts a digest without a key");
      return "yes";
    } catch (error) {
      if (error instanceof this.vulfsjor.InvalidTagError) {
        check(error.message === `${hash.constructor.name}.verify: the tag is wrong`, error.message);
        return "no";
      }
      if (this.isKeyed[slot] || !(error instanceof TypeError && NO_KEY.test(error.message))) throw error;
      return this.equal([hexOf(hash.digest()), tag]);
    }
  }
  left([slot]) { return this.of(slot).left; }
  read([slot, count]) { return this.of(slot).read(Number(count)); }

  hash([name, message], given) {
    const options = optionsOf(name, given);
    const bytes = bytesOf(message);
    const digest = this.inPieces(name, bytes, options);
    const call = this.vulfsjor[name === "tree" ? "treeRoot" : name];
    if (call) check(isSame(call(bytes, options), digest), "another digest in one call");
    return digest;
  }
  // By an object, in pieces, of which the first is short.
  inPieces(name, message, options) {
    const hash = this.make(name, options);
    const length = message?.byteLength ?? 0;
    if (message === null) hash.update(message);
    for (let at = 0, size = 9; at < length; at += size, size = Math.ceil(length / 2)) {
      hash.update(asByteView(message).subarray(at, at + size));
    }
    return "read" in hash ? hash.read(options.outputLength) : hash.digest();
  }
  many([name, ...messages], given) {
    const digests = this.vulfsjor[`${name}Many`](messages.map(bytesOf), optionsOf(name, given));
    return ofDigits(digests.map(hexOf).join(""));
  }
  derive([context], { key, size }) { return this.vulfsjor.deriveKey(bytesOf(key), bytesOf(context), Number(size)); }
  equal([one, other]) { return this.vulfsjor.equal(bytesOf(one), bytesOf(other)) ? "yes" : "no"; }
  leaves([message, first, ends], given) {
    const options = { ...optionsOf("tree", given), first: numberOf(first, "first"), ends: ends === "1" };
    return this.vulfsjor.treeLeaves(bytesOf(message), options);
  }
  top([digests], given) { return this.vulfsjor.treeRootOfLeaves(bytesOf(digests), optionsOf("tree", given)); }
}

/** The outcome of a call, or the error that it throws. */
function outcomeOf(driver, call) {
  const [verb, ...words] = call.split(" ");
  const isOption = (word) => word.includes("=");
  const given = Object.fromEntries(words.filter(isOption).map((word) => word.split("=")));
  passed.length = 0;
  try {
    const value = driver[verb](words.filter((word) => !isOption(word)), given);
    for (const [view, bytes] of passed) check(isSame(asByteView(view), bytes), "an argument has changed");
    if (!(value instanceof Uint8Array)) return value === undefined ? "" : `= ${value}`;
    check(value.buffer.byteLength === value.length, "a part of a larger buffer");
    const digits = hexOf(value);
    value.fill(0x5a); // nobody else reads it
    return `= ${digits || "-"}`;
  } catch (error) {
    return error;
  } finally {
    for (const [view] of passed) asByteView(view).fill(0x5a);
  }
}

/** Whether an outcome is the wanted one. */
function isOutcome(got, wanted, call) {
  if (!(got instanceof Error)) return got === wanted;
  const names = wanted.startsWith("! ") ? wanted.slice(2).split(",") : [];
  const isType = call.includes("none") || names.includes("state") || call.startsWith("save ");
  return !(got instanceof Wrong) && names.some((name) => got.message.search(REASONS[name]) >= 0) &&
    (got.name === "TypeError") === isType && (isType || got.name === "RangeError");
}

/**
 * Tries the cases of a file. Returns how many there were and how many ended early, and what was wrong. After each call,
 * isClean gets the name of the case. `count` only asks for a number, which the package does not have.
 */
export function tryCases(vulfsjor, text, isClean = () => {}) {
  const [found, wrong] = [{ cases: 0, skipped: 0 }, []];
  let driver;
  let name;
  for (const line of text.split("\n")) {
    if (line.startsWith("case ")) {
      found.cases++;
      name = line.slice(5);
      driver = new Driver(vulfsjor);
      continue;
    }
    const [, call, wanted = ""] = line.match(/^(.*?)(?: ((?:=|!) .*))?$/);
    if (!line || line.startsWith("#") || !driver || line.startsWith("count ")) continue;
    if (ABSENT.test(call) || (name.includes("blake2x") && call.startsWith("reset "))) {
      driver = undefined;
      found.skipped++;
      continue;
    }
    const got = outcomeOf(driver, call);
    isClean(name);
    if (isOutcome(got, wanted, call)) continue;
    wrong.push(`${name}: ${line.slice(0, 200)}\n  gives ${String(got).slice(0, 200)}`);
    driver = undefined;
  }
  return { ...found, wrong };
}
