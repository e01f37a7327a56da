// The exact texts of what is refused, by each call with each of its arguments, and what is around a call and must not
// change it: other kinds of memory, objects of other realms, what other code gives to all objects, and code of the
// caller that runs during a call. conformance.test.mjs has what is accepted.
import assert from "node:assert/strict";
import { createHash } from "node:crypto";
import test from "node:test";
import vm from "node:vm";
import * as vulfsjor from "../index.js";
import { memories } from "../src/engine.js";
import { assertMemoriesAreWiped, hexOf, INDEX, outputOfProgram } from "./common.mjs";

const {
  Blake2b, Blake2bp, Blake2s, Blake2sp, Blake2xb, InvalidTagError, TreeHash, blake2b, blake2bMany, blake2bStream,
  blake2bp, blake2bpStream, blake2s, blake2sMany, blake2sStream, blake2sp, blake2spStream, deriveKey, equal, fromHex,
  hex, load, treeLeaves, treeRoot, treeRootOfLeaves, treeRootStream, utf8,
} = vulfsjor;
const M = utf8("abc");
const WANTED = createHash("blake2b512").update("abc").digest("hex");
const bytes = (length) => new Uint8Array(length).fill(7);

// Asserts the error of a call, of this class itself and with this text, and that the library's memories were not
// touched.
function assertRefused(call, Class, message) {
  const before = memories();
  assert.throws(call, { message, constructor: Class });
  assert.deepEqual(memories().map((bytes, i) => bytes === before[i]), [true, true, true], message);
}

// A test of what is refused, of which nothing is left in the memories.
const testRefusals = (name, work) => test(name, async () => {
  for (const hash of [blake2b, blake2s, blake2bp]) hash(M); // one of each module
  await work();
  assertMemoriesAreWiped();
});

const tooMany = (count, most) =>
  `too many arguments, ${count} instead of at most ${most}; key, length and so on are options`;

const NO_BYTES = [
  ["abc", "a string (utf8() encodes a string)"], [undefined, "undefined"], [null, "null"], [5, "a number"],
  [5n, "a bigint"], [true, "a boolean"], [[1, 2], "an array"], [{ length: 3 }, "an object"],
  [{ length: 3, [Symbol.toStringTag]: "ArrayBuffer" }, "an object"],
  [{ byteLength: 3, __proto__: ArrayBuffer.prototype }, "an instance of ArrayBuffer"],
  [Object.create(Uint8Array.prototype), "an instance of Uint8Array"],
  [Promise.resolve(M), "an instance of Promise"], [new Blob(["abc"]), "an instance of Blob"],
  [new (class {})(), "an object"], // which has no name
  [Object.create(Object.create(null)), "an object"], // nor has this
  [vm.runInNewContext("new Map()"), "an instance of Map"], [Symbol("x"), "a symbol"], [() => {}, "a function"],
];
const NO_NUMBERS = [
  ["32", "a string"], [null, "null"], [32n, "a bigint"], [true, "a boolean"], [[32], "an array"], [{}, "an object"],
];
const NO_OPTIONS = [
  [null, "null"], [32, "a number"], ["key", "a string"], [() => {}, "a function"],
  [bytes(3), "an instance of Uint8Array"], [new ArrayBuffer(3), "an instance of ArrayBuffer"], [[], "an array"],
  [new Map(), "an instance of Map"], [Promise.resolve({}), "an instance of Promise"],
  [Object.create({ digestLength: 3 }), "an instance of Object"],
  [{ __proto__: { key: bytes(3) } }, "an instance of Object"],
  [Object.create({ __proto__: null, key: bytes(3) }), "an object"],
  [Object.create(Object.create(null, { key: { value: bytes(3) } })), "an object"],
  [new (class Settings { get key() { return bytes(3); } })(), "an instance of Settings"],
];
// An option key that is given and undefined.
const NO_KEY = [
  { key: undefined }, { get key() { return undefined; } }, { __proto__: null, key: undefined },
  Object.defineProperty({}, "key", { value: undefined }), { ...{ key: undefined } },
];
const noKey = "key must not be undefined; for a hash without a key leave the option out";
const MISSPELLED =
  ["dkLen", "outlen", "person", "personal", "Key", "digest_size", "length", "fanout", "tree", "allowShort"];

const WORD = 2 ** 32 - 1;
// The least number, and the least length of bytes, that options have.
const NUMBERS = { digestLength: 1, outputLength: 1, leafLength: 1 };
const LENGTHS = { key: 1, salt: 0, personalization: 0 };
const keyed = (most, short) => ({ digestLength: most, key: most, salt: short, personalization: short });
const output = (outputLength, key, short) => ({ outputLength, key, salt: short, personalization: short });
const tree = { leafLength: WORD, digestLength: 64, salt: 16, personalization: 16 };
// The calls with options: a class, or a function and what comes before them; the options with the most of each; and
// options that have to be there.
const LEAF = { leafLength: 5 };
const WITH_OPTIONS = [
  ...[["2b", { ...keyed(64, 16), tree: 0 }], ["2s", { ...keyed(32, 8), tree: 0 }], ["2bp", keyed(64, 16)],
    ["2sp", keyed(32, 8)]].flatMap(([name, known]) => [[`blake${name}`, M, known],
    [`new Blake${name}`, null, { ...known, allowShort: 0 }]]),
  ["blake2bMany", [M], keyed(64, 16)], ["blake2sMany", [], keyed(32, 8)],
  ["new Blake2xb", null, output(2 ** 32 - 2, 64, 16)], ["new Blake2xs", null, output(2 ** 16 - 2, 32, 8)],
  ["treeRoot", M, tree, LEAF], ["new TreeHash", null, tree, LEAF], ["treeRootOfLeaves", bytes(64), tree, LEAF],
  ["treeLeaves", M, { leafLength: WORD, first: 0, ends: 0, salt: 16, personalization: 16 },
    { ...LEAF, first: 0, ends: true }],
];

// Refuses numbers out of these bounds, and what is no number.
function assertRefusesWrongNumbers(call, what, least, most) {
  for (const value of [least - 1, -1, most + 1, least + 0.5, NaN, Infinity, -Infinity, 2 ** 53, 2 ** 64]) {
    assertRefused(() => call(value), RangeError, `${what} must be an integer from ${least} to ${most}, not ${value}`);
  }
  for (const [value, said] of NO_NUMBERS) {
    assertRefused(() => call(value), TypeError, `${what} must be a number, not ${said}`);
  }
}

// Refuses what is not bytes.
function assertRefusesNonBytes(call, what, isOption = false) {
  for (const [value, said] of NO_BYTES) {
    if (isOption && value === undefined) continue; // an option that is not given
    assertRefused(() => call(value), TypeError,
      `${what} must be a Uint8Array, another view or an ArrayBuffer, not ${said}`);
  }
}

for (const [caller, message, known, given = {}] of WITH_OPTIONS) {
  testRefusals(`${caller}: each option, unknown ones, what is no options, and one argument more`, () => {
    const isClass = caller.startsWith("new ");
    const call = (...words) => (isClass
      ? Reflect.construct(vulfsjor[caller.slice(4)], words) : vulfsjor[caller](message, ...words));
    for (const more of [undefined, 32]) {
      assertRefused(() => call(given, more), TypeError, `${caller}: ${isClass ? tooMany(2, 1) : tooMany(3, 2)}`);
    }
    if (isClass) assert.throws(() => vulfsjor[caller.slice(4)](given), TypeError);
    const names = Object.keys(known);
    for (const name of names) {
      const one = (value) => call({ ...given, [name]: value });
      if (name in NUMBERS) assertRefusesWrongNumbers(one, `${caller}: ${name}`, NUMBERS[name], known[name]);
      if (!(name in LENGTHS)) continue;
      assertRefusesNonBytes(one, `${caller}: ${name}`, true);
      for (const count of [LENGTHS[name] - 1, known[name] + 1, 256, 1000].filter((count) => count >= 0)) {
        assertRefused(() => one(bytes(count)), RangeError,
          `${caller}: ${name} must have ${LENGTHS[name]} to ${known[name]} bytes, not ${count}`);
      }
    }
    for (const name of [...MISSPELLED, "key", "digestLength"].filter((name) => !names.includes(name))) {
      const hidden = Object.defineProperty({}, name, { value: 3 });
      for (const options of [hidden, { [name]: undefined }, { [name]: {} }]) {
        assertRefused(() => call(options), TypeError,
          `${caller}: unknown property "${name}" of options; known are ${names.join(", ")}`);
      }
    }
    for (const [value, said] of NO_OPTIONS) {
      assertRefused(() => call(value), TypeError, `${caller}: options must be a plain object, not ${said}`);
    }
    for (const options of "key" in known ? NO_KEY : []) {
      assertRefused(() => call(options), TypeError, `${caller}: ${noKey}`);
    }
    for (const name of Object.keys(given)) {
      assertRefused(() => call({ ...given, [name]: undefined }), TypeError, `${caller}: ${name} must be given`);
    }
    if ("leafLength" in given) assert.throws(() => call(), { message: /: \w+ must be given$/ });
    const what = caller === "treeRootOfLeaves" ? "digests" : "message";
    if (isClass) assertRefusesNonBytes((value) => call(given).update(value), `${caller.slice(4)}.update: message`);
    else if (!caller.endsWith("Many")) {
      assertRefusesNonBytes((value) => vulfsjor[caller](value, given), `${caller}: ${what}`);
    }
  });
}

testRefusals("what is not bytes is refused, wherever else bytes are expected", () => {
  for (const [caller, what, call] of [
    ["Blake2s.verify", "tag", (value) => new Blake2s().verify(value)],
    ["Blake2bp.verify", "tag", (value) => new Blake2bp({ key: M }).verify(value)],
    ["blake2bMany", "message 1", (value) => blake2bMany([M, value])],
    ["equal", "a", (value) => equal(value, M)], ["equal", "b", (value) => equal(M, value)], ["hex", "bytes", hex],
    ["deriveKey", "context", (value) => deriveKey(M, value, 9)],
  ]) {
    assertRefusesNonBytes(call, `${caller}: ${what}`);
  }
  assertRefusesNonBytes((value) => deriveKey(value, M, 9), "deriveKey: key", true);
});

// What else is refused: the name of a function, a call, the class of the error, and the rest of its text.
const refusalWithTree = (name, offset) => {
  const at = (tree) => () => vulfsjor[name](M, { tree });
  return [
    ...[-1, -1n, offset + 1n, 0.5, NaN, 2 ** 53].map((value) => [name, at({ nodeOffset: value }), RangeError,
      `tree.nodeOffset must be an integer from 0 to ${offset}, not ${value}` +
        (value === 2 ** 53 ? " (pass a bigint)" : "")]),
    [name, at({ nodeOffset: "5" }), TypeError, "tree.nodeOffset must be a number or a bigint, not a string"],
    [name, at({ lastNode: 1 }), TypeError, "tree.lastNode must be a boolean, not a number"],
    [name, at(5), TypeError, "tree must be a plain object, not a number"],
    [name, at({ leaf: 1 }), TypeError, 'unknown property "leaf" of tree; known are fanout, depth, leafLength, ' +
      "nodeOffset, nodeDepth, innerLength, lastNode"],
  ];
};
const leaves = (options, message = new Uint8Array(10)) =>
  treeLeaves(message, { leafLength: 5, first: 0, ends: true, ...options });
const last = (2n ** 58n - 10n) / 5n; // leaf numbers whose range ends at 2^58 - 4, and 2^58 + 1
const noRange = [
  [{ ends: 1 }, TypeError, "ends must be a boolean, not a number"],
  [{ first: "0" }, TypeError, "first must be a number or a bigint, not a string"],
  [{ first: -1 }, RangeError, `first must be an integer from 0 to ${2n ** 58n - 1n}, not -1`],
  [{ ends: false, leafLength: 4 }, RangeError,
    "message must be whole leaves of 4 bytes, not 10 bytes, unless it ends"],
  ...[{ ends: false }, { first: 1 }].map((options) =>
    [options, RangeError, "message must have at least one leaf", new Uint8Array(0)]),
  ...[{ first: last + 1n }, { first: 2n ** 58n - 10n, leafLength: 1 }].map((options) =>
    [options, RangeError, "the leaves must end below byte 2^58 of the message"]),
].map(([options, Class, message, bytes]) => ["treeLeaves", () => leaves(options, bytes), Class, message]);
const noMessages = [
  [undefined, "undefined"], [5, "a number"], ["abc", "a string"], [{}, "an object"],
  ...[M, M.buffer, new DataView(M.buffer), new SharedArrayBuffer(3)].map((one) =>
    [one, `an instance of ${one.constructor.name}; several messages are expected, not one`]),
].flatMap(([value, said]) => ["blake2bMany", "blake2sMany"].map((many) =>
  [many, () => vulfsjor[many](value), TypeError, `messages must be an iterable of bytes, not ${said}`]));
const noDigits = [
  "0", "0g", "0x12", " 12", "12 ", "１２", " abc", "abc ", "\tabc", "abc\n", " ab ", "1 2 ", "-1", "+1", "1.", "1e1_",
  "\0\0", "aé",
].map((text) =>
  ["fromHex", () => fromHex(text), RangeError, "text must be an even number of hexadecimal digits"]);

testRefusals("single values are refused", () => {
  const output = new Blake2xb({ outputLength: 9 }).update(M);
  const start = output.copy();
  assertRefusesWrongNumbers((length) => output.read(length), "Blake2xb.read: length", 0, 2 ** 31 - 1);
  assertRefusesWrongNumbers((length) => deriveKey(M, M, length), "deriveKey: length", 1, 2 ** 31 - 1);
  output.read(5);
  for (const [name, call, Class, message] of [
    ["Blake2xb.read", () => output.read(), TypeError, "length must be given"],
    ["Blake2xb.update", () => output.update(M), TypeError, "the output is already being read"],
    ["deriveKey", () => deriveKey(M, M), TypeError, "length must be given"],
    ["deriveKey", () => deriveKey(undefined, M, 9), TypeError, "key must be given"],
    ...[0, 65].map((length) => ["deriveKey", () => deriveKey(bytes(length), M, 9), RangeError,
      `key must have 1 to 64 bytes, not ${length}`]),
    ...refusalWithTree("blake2b", 2n ** 64n - 1n), ...refusalWithTree("blake2s", 2n ** 48n - 1n), ...noRange,
    ...[0, 1, 63, 65].map((length) => ["treeRootOfLeaves", () => treeRootOfLeaves(bytes(length), { leafLength: 5 }),
      RangeError, `digests must have 64 bytes for each leaf, not ${length} bytes`]),
    ...noMessages, ...noDigits,
    ...["\ud800", "a\udc00", "\udc00\ud800", "\ud83d"].map((text) =>
      ["utf8", () => utf8(text), RangeError, "text has a lone surrogate"]),
    ...[utf8, fromHex].map((call) => [call.name, () => call(5), TypeError, "text must be a string, not a number"]),
  ]) {
    assertRefused(call, Class, `${name}: ${message}`);
  }
  for (const [name, most] of [["blake2b", 64], ["blake2s", 32]]) {
    for (const [what, least, greatest] of [["fanout", 0, 255], ["depth", 1, 255], ["leafLength", 0, WORD],
      ["nodeDepth", 0, 255], ["innerLength", 0, most]]) {
      const call = (value) => vulfsjor[name](M, { tree: { [what]: value } });
      assertRefusesWrongNumbers(call, `${name}: tree.${what}`, least, greatest);
    }
  }
  assert.throws(() => output.read(5),
    { name: "RangeError", message: "Blake2xb.read: only 4 bytes of the output are left" });
  assert.equal(hex(output.read(4)), hex(start.read(9).subarray(5))); // what was refused has changed nothing
});

test("values near those that are refused", () => {
  for (const name of ["blake2b", "blake2s"]) {
    for (const [one, other] of [[5, 5n], [2 ** 48 - 1, 2n ** 48n - 1n]]) {
      assert.deepEqual(...[one, other].map((nodeOffset) => vulfsjor[name](M, { tree: { nodeOffset } })));
    }
    assert.deepEqual(vulfsjor[`${name}Many`]([]), []);
    assert.deepEqual(vulfsjor[`${name}Many`](new Set([M])), [vulfsjor[name](M)]);
  }
  assert.equal(deriveKey(bytes(32), M, 2 ** 16).length, 2 ** 16);
  assert.equal(hex(deriveKey(M, M, 9)), hex(new Blake2xb({ key: M, outputLength: 9 }).update(M).read(9)));
  assert.equal(leaves({ first: last }).length, 128);
  assert.deepEqual(utf8("aß€😀"), Uint8Array.from(Buffer.from("aß€😀")));
  assert.deepEqual(["00fFaB", "", "01"].map(fromHex), [[0, 255, 171], [], [1]].map((bytes) => Uint8Array.from(bytes)));
  assert.deepEqual([Uint8Array.of(0, 15, 255), new ArrayBuffer(2)].map(hex), ["000fff", "0000"]);
  assert.deepEqual(["a", "b"].map(utf8), [Uint8Array.of(97), Uint8Array.of(98)]);
});

test("what an iterable yields is that of its time", () => {
  const DATA = Uint8Array.from({ length: 3000 }, (_, i) => i % 251);
  function* blocks(size, view = (bytes) => bytes) { // as fs.readSync fills one buffer
    const buffer = new Uint8Array(size);
    for (let at = 0; at < DATA.length; at += size) {
      const part = DATA.subarray(at, at + size);
      buffer.set(part);
      yield view(buffer.subarray(0, part.length));
    }
  }
  const dataViewOf = ({ buffer, byteOffset, length }) => new DataView(buffer, byteOffset, length);
  class Reused extends Array { [Symbol.iterator]() { return blocks(700); } }
  const own = Object.assign([], { [Symbol.iterator]: () => blocks(700) });
  for (const [one, many] of [[blake2b, blake2bMany], [blake2s, blake2sMany]]) {
    for (const make of [
      () => blocks(128), () => blocks(700), () => blocks(1, Buffer.from), () => blocks(999, dataViewOf),
      () => new Reused(), () => own, () => ({ [Symbol.iterator]: () => blocks(1500) }),
    ]) {
      const wanted = [];
      for (const message of make()) wanted.push(one(message));
      assert.deepEqual(many(make()), wanted);
    }
    const buffer = utf8("last");
    for (const several of [[buffer, buffer], new Set([buffer]), new Map([[1, buffer]]).values()]) {
      assert.deepEqual(new Set(many(several).map(hex)), new Set([hex(one(buffer))]));
    }
    const key = utf8("a key");
    const tags = many((function* () { for (let i = 0; i < 200; i++) { key[0] = i; yield M; } })(), { key });
    assert.deepEqual(tags, tags.map(() => one(M, { key }))); // one key for all
    let isClosed = false;
    const wrong = (function* () { try { yield M; yield "text"; yield M; } finally { isClosed = true; } })();
    assertRefused(() => many(wrong), TypeError, `${many.name}: message 1 must be a Uint8Array, another view or an ` +
      "ArrayBuffer, not a string (utf8() encodes a string)");
    assert.ok(isClosed);
  }
});

test("verify compares tags of at least 16 bytes, unless the hash was made for shorter ones", () => {
  const key = utf8("key");
  for (const [Made, one, most] of [
    [Blake2b, blake2b, 64], [Blake2s, blake2s, 32], [Blake2bp, blake2bp, 64], [Blake2sp, blake2sp, 32],
  ]) {
    for (let digestLength = 1; digestLength <= most; digestLength++) {
      const tag = one(M, { key, digestLength });
      const made = (more) => new Made({ key, digestLength, ...more }).update(M);
      made({ allowShort: true }).verify(tag);
      made({ allowShort: true }).copy().verify(tag);
      assert.throws(() => made({ allowShort: true }).verify(tag.subarray(1)), InvalidTagError);
      for (const more of [{}, { allowShort: false }, { allowShort: undefined }]) {
        const hash = made(more);
        if (digestLength >= 16) {
          hash.verify(tag);
          continue;
        }
        for (const each of [hash, hash.copy()]) {
          assertRefused(() => each.verify(tag), RangeError, `${Made.name}.verify: a tag must have at least 16 bytes, ` +
            `not ${digestLength}, unless allowShort is true`);
        }
        assert.deepEqual(hash.digest(), tag); // it goes on
      }
    }
    for (const [value, said] of [[1, "a number"], [null, "null"], ["yes", "a string"], [{}, "an object"]]) {
      assertRefused(() => new Made({ key, allowShort: value }), TypeError,
        `new ${Made.name}: allowShort must be a boolean, not ${said}`);
    }
    const plain = new Made({ digestLength: 8, allowShort: true });
    assert.throws(() => plain.verify(key), { message: /this hash has no key/ });
  }
});

test("an option that is undefined is one that is not given, and a key that can be read is one", () => {
  const others = { digestLength: undefined, salt: undefined, personalization: undefined };
  const nothing = { ...others, tree: undefined };
  for (const options of [nothing, undefined, Object.create(null), { tree: {} }, { [Symbol("mark")]: 3 }]) {
    assert.deepEqual(blake2b(M, options), blake2b(M, {}));
  }
  assert.deepEqual(blake2bp(M, others), blake2bp(M));
  assert.deepEqual(new Blake2s(nothing).update(M).digest(), blake2s(M));
  const key = bytes(9);
  for (const options of [
    { __proto__: null, key }, { get key() { return key; } }, Object.defineProperty({}, "key", { value: key }),
    Object.freeze({ key }),
  ]) {
    assert.deepEqual(blake2b(M, options), blake2b(M, { key }));
  }
});

testRefusals("memory that was taken away is refused", () => {
  const taken = (what) => {
    const view = what(new ArrayBuffer(9));
    structuredClone(0, { transfer: [view.buffer ?? view] });
    return view;
  };
  const text = (name) => `blake2b: the memory of ${name} is detached or has shrunk`;
  for (const what of [
    (b) => b, (b) => new Uint8Array(b), (b) => new DataView(b, 1), (b) => new Uint16Array(b, 2, 2),
  ]) {
    assertRefused(() => blake2b(taken(what)), TypeError, text("message"));
    assertRefused(() => blake2b(M, { key: taken(what) }), TypeError, text("key"));
  }
  const buffer = new ArrayBuffer(20, { maxByteLength: 20 });
  const views = [new Uint8Array(buffer, 4, 12), new Uint8Array(buffer, 12), new DataView(buffer, 4, 12)];
  const follows = new Uint8Array(buffer, 2);
  buffer.resize(8);
  for (const view of views) assertRefused(() => blake2b(view), TypeError, text("message"));
  assert.deepEqual(blake2b(follows), blake2b(new Uint8Array(6)));
});

testRefusals("one argument more is refused, except by five calls that ignore it", async () => {
  assertRefused(() => equal(M, M, undefined), TypeError, `equal: ${tooMany(3, 2)}`);
  assertRefused(() => deriveKey(M, M, 9, undefined), TypeError, `deriveKey: ${tooMany(4, 3)}`);
  for (const [Hash, ...calls] of [
    ...[Blake2b, Blake2s, Blake2bp, Blake2sp, TreeHash].map((Hash) => [Hash, ["hex"], ["verify", M], ["reset"]]),
    ...[Blake2xb, vulfsjor.Blake2xs].map((Hash) => [Hash, ["read", 9]]),
  ]) {
    const run = new Hash(Hash === TreeHash ? LEAF : {}).update(M);
    const before = run.copy();
    for (const [name, ...words] of [["update", M], ["copy"], ...calls]) {
      assertRefused(() => run[name](...words, undefined), TypeError,
        `${Hash.name}.${name}: ${tooMany(words.length + 1, words.length)}`);
    }
    if (run.digest) {
      assertRefused(() => run.digest("hex"), TypeError,
        `${Hash.name}.digest: too many arguments, 1 instead of at most 0; use hex() for hexadecimal digits`);
      assert.equal(run.copy().hex(), before.hex());
    }
    assert.equal(run.wipe(1), undefined);
  }
  for (const name of Object.keys(vulfsjor).filter((name) => name.endsWith("Stream"))) {
    await assert.rejects(vulfsjor[name](new Blob(), LEAF, 1),
      { name: "TypeError", message: `${name}: ${tooMany(3, 2)}` });
  }
  assert.equal(hex(M, 1), "616263");
  assert.deepEqual([utf8("abc", 1), fromHex("616263", 1)], [M, M]);
  assert.equal(await load(1), undefined);
});

test("streams reject what calls refuse", async () => {
  const source = "source must be a Blob, a ReadableStream, a FileHandle or an iterable of bytes, not";
  const known = "known are digestLength, key, salt, personalization";
  const rejects = (stream, given, options, message, name = "TypeError") =>
    assert.rejects(stream(given, options), { name, message: `${stream.name}: ${message}` });
  for (const stream of Object.values(vulfsjor).filter(({ name }) => name.endsWith("Stream"))) {
    const one = stream.name.replace("Stream", "");
    const options = one === "treeRoot" ? LEAF : {};
    for (const [given, said] of [
      [M, `an instance of Uint8Array; use ${one}()`], [M.buffer, `an instance of ArrayBuffer; use ${one}()`],
      [new Response("abc"), "an instance of Response; pass its body"], [new Response(), "an instance of Response"],
      [{}, "an object"], ["abc", "a string"], [undefined, "undefined"], [null, "null"], [3, "a number"],
      [new URL("file:///x"), "an instance of URL"], [Promise.resolve(), "an instance of Promise"],
    ]) {
      await rejects(stream, given, options, `${source} ${said}`);
    }
    for (const options of one === "treeRoot" ? [] : NO_KEY) {
      await rejects(stream, new Blob(), options, noKey);
    }
  }
  for (const [stream, options, message, name] of [
    [blake2bStream, { dkLen: 3 }, `unknown property "dkLen" of options; ${known}, tree, onProgress, signal`],
    ...[blake2bpStream, blake2spStream].map((stream) =>
      [stream, { tree: {} }, `unknown property "tree" of options; ${known}, onProgress, signal`]),
    [treeRootStream, undefined, "leafLength must be given"],
    [blake2bStream, { threads: 2 }, `unknown property "threads" of options; ${known}, tree, onProgress, signal`],
    [blake2bStream, { onProgress: 5 }, "onProgress must be a function, not a number"],
    [treeRootStream, { ...LEAF, onFallback: true }, "onFallback must be a function, not a boolean"],
    [treeRootStream, { ...LEAF, threads: "4" }, "threads must be a number, not a string"],
    ...[257, 1.5, -1, NaN].map((threads) => [treeRootStream, { ...LEAF, threads },
      `threads must be an integer from 0 to 256, not ${threads}`, "RangeError"]),
    ...[[{}, "an object"], [null, "null"], [new AbortController(), "an instance of AbortController"],
      [{ aborted: false }, "an object"], [new EventTarget(), "an instance of EventTarget"],
    ].map(([signal, said]) => [blake2bStream, { signal }, `signal must be an AbortSignal, not ${said}`]),
  ]) {
    await rejects(stream, new Blob(), options, message, name);
  }
});

test("bytes of other realms, of subclasses, and of objects that lie about themselves", () => {
  const foreign = vm.runInNewContext("({ u: Uint8Array.of(97, 98, 99), b: Uint8Array.of(97, 98, 99).buffer, o: {} })");
  class Liar extends Uint8Array {
    get length() { return 1; }
    get byteLength() { return 2; }
    get buffer() { return new ArrayBuffer(3); }
    get byteOffset() { return 1; }
    subarray() { return M; }
    static get [Symbol.species]() { return Array; }
  }
  assert.deepEqual([
    blake2b(foreign.u), blake2b(foreign.b, foreign.o), blake2b(Liar.of(97, 98, 99)),
    new Blake2b().update(Liar.of(97, 98)).update(Liar.of(99)).digest(),
  ].map(hexOf), Array(4).fill(WANTED));
  assert.equal(hex(Liar.of(97, 98, 99)), "616263");
  assert.deepEqual(blake2b(new Uint16Array([0x6261])), blake2b(utf8("ab")));
  assert.deepEqual(blake2b(new Float64Array(2)), blake2b(new Uint8Array(16)));
});

// A program that makes calls after Object.prototype has these properties, which it has before or after the import.
const POLLUTED = `
  const ours = [...Array(10).keys(), 32, 64, "node", "isPlain", "tree", "leafLength", "options", "keyLength"];
  const all = [...ours, "key", "digestLength", "salt", "personalization", "fanout", "lastNode", "signal", "onProgress"];
  const pollute = (names, value) => names.forEach((name) => (Object.prototype[name] = value));
  if (IS_BEFORE) pollute(ours, "0"); // node itself cannot import with all
  const { Blake2b, Blake2s, Blake2xb, blake2b, blake2bMany, blake2bStream, blake2bp, blake2s, equal, treeRoot, utf8 } =
    await import(INDEX);
  const digestsOf = async () => {
    const [message, key, salt] = [utf8("a message"), utf8("a key"), utf8("salt")];
    const digests = [
      blake2b(message), blake2b(message, {}), blake2b(message, { key }), blake2s(message, { digestLength: 7 }),
      blake2b(message, { key, salt }), new Blake2b({ key, salt }).update(message).digest(),
      new Blake2s().update(message).digest(), new Blake2s().digest(), blake2b(message, { tree: {} }),
      blake2bMany([message, salt], { key })[1], treeRoot(message, { leafLength: 5, salt }),
      new Blake2xb({ key }).update(message).read(9), blake2bp(message, { key }), await blake2bStream([message]),
    ];
    const isEqual = [equal(message, message.slice()), equal(salt, utf8("pepper").subarray(0, 4))];
    return [digests.map((digest) => Buffer.from(digest).toString("hex")), isEqual].join();
  };
  const results = [];
  for (const value of ["0", 5]) {
    pollute(all, value);
    results.push(await digestsOf());
  }
  for (const name of all) delete Object.prototype[name];
  console.log([...results, await digestsOf()].join("\\n"));`;

test("what other code gives to all objects is no option, no length, no state and no digest", () => {
  const run = (isBefore) =>
    outputOfProgram(`const [INDEX, IS_BEFORE] = [${INDEX}, ${isBefore}];${POLLUTED}`).split("\n");
  const results = [...run(true), ...run(false)].filter(Boolean);
  assert.equal(results.length, 6);
  assert.equal(new Set(results).size, 1);
  assert.ok(results[0].startsWith(createHash("blake2b512").update("a message").digest("hex")), results[0]);
  assert.match(results[0], /,true,false$/);
});

test("it works without SharedArrayBuffer and Blob, as in some browsers", () => {
  const printed = outputOfProgram(`delete globalThis.SharedArrayBuffer;
    delete globalThis.Blob;
    const { blake2b, blake2bStream, hex } = await import(${INDEX});
    const source = (async function* () { yield Uint8Array.of(97, 98, 99).buffer; })();
    console.log(hex(blake2b(Uint8Array.of(97, 98, 99).buffer)));
    console.log(hex(await blake2bStream(source)));`);
  assert.equal(printed, `${WANTED}\n${WANTED}\n`);
});

test("options are read once, by a stream too, and code of theirs may hash", async () => {
  let count = 0;
  const options = {
    get key() {
      count++;
      blake2s(bytes(1000), { key: bytes(9) });
      return bytes(3);
    },
  };
  assert.deepEqual(blake2b(M, options), blake2b(M, { key: bytes(3) }));
  assert.equal(count, 1);
  const tree = { get fanout() { return ++count; } };
  assert.deepEqual(await blake2bStream(new Blob([M]), { tree }), blake2b(M, { tree: { fanout: 2 } }));
  assert.equal(count, 2);
});

test("memory that code of the caller takes away during a call is no key of no bytes", async () => {
  const take = (view) => structuredClone(0, { transfer: [view.buffer] });
  const newKey = () => new Uint8Array(new ArrayBuffer(9)).fill(7);
  const gone = { name: "TypeError", message: /the memory of key is detached or has shrunk$/ };
  for (const call of [
    (key, tree) => blake2b(M, { key, tree }), (key, tree) => new Blake2b({ tree, key }),
    (key, tree) => blake2s(M, { tree, key }),
  ]) {
    const key = newKey();
    assert.throws(() => call(key, { get depth() { take(key); } }), gone, String(call));
  }
  for (const many of [blake2bMany, blake2sMany]) {
    const key = newKey();
    assert.throws(() => many((function* () { take(key); yield M; })(), { key }), gone);
    const message = newKey();
    const messages = Object.defineProperty([message, M], 1, { get() { take(message); return M; } });
    assert.throws(() => many(messages),
      { name: "TypeError", message: /the memory of message 0 is detached or has shrunk$/ });
    const other = newKey(); // which is copied when it comes
    assert.deepEqual(many((function* () { yield other; take(other); })()), many([newKey()]));
  }
  for (const stream of [blake2bStream, blake2sStream]) {
    const key = newKey();
    const source = { [Symbol.iterator]() { take(key); return [M][Symbol.iterator](); } };
    await assert.rejects(stream(source, { key }), gone);
  }
  for (const [hash, more] of [[blake2b, {}], [blake2sp, {}], [treeRoot, { leafLength: 5 }]]) {
    const message = newKey();
    assert.throws(() => hash(message, { ...more, get salt() { take(message); } }), TypeError);
    blake2b(M);
    assertMemoriesAreWiped();
  }
});
