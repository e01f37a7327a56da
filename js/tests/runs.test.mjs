// What ends a run, the texts of what is refused then, and what stays in memory. The digests of pieces, copies and
// resets are in conformance.test.mjs.
import assert from "node:assert/strict";
import { createHash } from "node:crypto";
import test from "node:test";
import { inspect } from "node:util";
import * as vulfsjor from "../index.js";
import { BLAKE2B } from "../src/blake2b.js";
import { SLAB, memories } from "../src/engine.js";
import { BLAKE2XB } from "../src/whole_module.js";
import {
  assertMemoriesAreWiped, assertZeros, collect, hexOf, INDEX, outputOfProgram, recordStatesWritten,
  withReplacedProperties,
} from "./common.mjs";

const {
  Blake2b, Blake2bp, Blake2s, Blake2sp, Blake2xb, Blake2xs, InvalidTagError, TreeHash, blake2b, blake2bMany, blake2bp,
  deriveKey, equal, hex, load, treeRoot, utf8,
} = vulfsjor;
const M = utf8("message");
const KEY = new Uint8Array(32).fill(7);
const LONG = new Uint8Array(3000); // which does not wait
const DISPOSE = Symbol.dispose ?? Symbol.for("Symbol.dispose");
const HASHERS = [
  [Blake2b, {}], [Blake2b, { key: KEY, salt: M, personalization: M, digestLength: 20 }],
  [Blake2s, { key: KEY, tree: { lastNode: true, fanout: 2, depth: 2 } }], [Blake2bp, { digestLength: 20 }],
  [Blake2sp, { key: KEY, salt: M, personalization: M }], [TreeHash, { leafLength: 5, salt: M }],
];
const OUTPUTS = [[Blake2xb, { key: KEY }], [Blake2xs, {}]];
const isBlake2sFamily = (Hash) => /2x?s/.test(Hash.name);
const hasNonzeroByte = (bytes) => bytes.some((byte) => byte !== 0);
const countStatesNotWiped = (states) => [...states].filter(hasNonzeroByte).length;

test("a run that has ended refuses all but wipe", () => {
  for (const [Hash, options] of [...HASHERS, ...OUTPUTS]) {
    const isOutput = "read" in Hash.prototype;
    for (const end of ["wipe", DISPOSE, ...(isOutput ? [] : ["hex", "digest"])]) {
      const run = new Hash(options).update(M);
      run[end]();
      const why = isOutput
        ? "output was wiped, or a call failed" : "hash has ended, by digest, hex, verify, wipe or a failed call";
      for (const [call, ...words] of [["update", M], ["copy"],
        ...(isOutput ? [["read", 1]] : [["digest"], ["hex"], ["verify", M], ["reset"]])]) {
        const message = `${Hash.name}.${call}: this ${why}`;
        assert.throws(() => run[call](...words), { name: "TypeError", message });
      }
      run.wipe();
      assert.equal(run.blockLength, isBlake2sFamily(Hash) ? 64 : 128);
      if (isOutput) assert.throws(() => run.left, { message: /: this output was wiped, or a call failed$/ });
      else assert.equal(run.digestLength, options.digestLength ?? (isBlake2sFamily(Hash) ? 32 : 64));
    }
  }
});

test("a method without its object says so", () => {
  const hash = new Blake2b({ key: KEY });
  const output = new Blake2xb({ key: KEY });
  for (const [what, object, other, count] of [["hash", hash, output, 10], ["output", output, hash, 7]]) {
    const { prototype } = Object.getPrototypeOf(object.constructor);
    // `on` refuses whatever it is called on
    const names = Reflect.ownKeys(prototype).filter((name) => name !== "constructor" && name !== "on");
    assert.equal(names.length, count);
    for (const key of names) {
      const { value, get = value } = Object.getOwnPropertyDescriptor(prototype, key);
      const name = key === DISPOSE ? "wipe" : key;
      for (const wrong of [undefined, null, 5, "hash", {}, M, other]) {
        assert.throws(() => Reflect.apply(get, wrong, [M]), {
          name: "TypeError", message: `${name}: called without its ${what}; use it as ${what}.${name}`,
        });
      }
    }
  }
});

test("what shows or copies a hash has neither its key nor its calls", () => {
  for (const [Hash, options] of [...HASHERS, ...OUTPUTS].filter(([, options]) => options.key)) {
    const lost = "read" in Hash.prototype ? "read" : "verify";
    const hash = new Hash(options).update(M);
    assert.deepEqual(Reflect.ownKeys(hash), []);
    assert.equal(JSON.stringify(hash), "{}");
    assert.doesNotMatch(inspect(hash, { showHidden: true, depth: 9, getters: true }), /7, 7|0707/);
    assert.equal(String(hash), "[object Object]");
    for (const copy of [{ ...hash }, structuredClone(hash)]) assert.equal(copy[lost], undefined);
    const likeIt = Object.assign(Object.create(Hash.prototype), hash);
    for (const copy of [likeIt, Object.create(hash), new Proxy(hash, {})]) {
      assert.throws(() => copy[lost](M), /called without its (hash|output)/);
    }
    for (const wrong of [KEY, [...KEY], hex(KEY), { key: [...KEY] }, { key: hex(KEY) }, { salt: KEY }]) {
      assert.throws(() => new Hash(wrong), ({ message }) => !/7, ?7|0707/.test(message));
    }
  }
});

test("a stack that is full ends a call, and not the library", () => {
  const wanted = createHash("blake2b512").update(M).digest("hex");
  const seen = new Set();
  for (const call of [
    () => blake2b(M), () => new Blake2b({ key: KEY }).update(M).digest(), () => equal(M, M),
    () => treeRoot(LONG, { leafLength: 99 }), () => blake2bMany([M, M, M, M, LONG]),
    () => blake2bp(M), () => new Blake2sp({ key: KEY }).update(LONG).digest(),
    () => Blake2b.updateMany([new Blake2b({ key: KEY }), new Blake2b({ key: KEY })], [LONG, LONG]),
  ]) {
    // calls at each depth of a full stack on the way back, until three have found enough of it left
    let [refused, passed] = [0, 0];
    const dive = () => {
      try {
        dive();
      } catch (fault) {
        if (!(fault instanceof RangeError)) throw fault;
        refused++;
      }
      if (passed >= 3) return;
      memories().forEach((bytes) => seen.add(bytes));
      call();
      passed++;
    };
    // frames before it shift the places where calls are cut, until enough memories were given up
    const shift = (count) => (count === 0 ? dive() : shift(count - 1));
    for (let count = 0; count < (seen.size > 3 ? 1 : 16); count++, passed = 0) shift(count);
    assert.ok(refused > 10, `${refused}`);
    assert.equal(hexOf(blake2b(M)), wanted);
    assertMemoriesAreWiped();
  }
  // some calls have ended inside the library, whose memory was wiped and given up
  assert.ok(seen.size > 3, `${seen.size} memories`); // more than one of a module
  for (const bytes of seen) assertZeros(bytes, "a memory that was given up");
});

// Whether some work fails in which the call of fill or set with this number throws.
function failsAtWrite(number, states, work) {
  try {
    recordStatesWritten(states, work, number);
    return false;
  } catch (fault) {
    if (fault.message !== "no stack is left" && !(fault instanceof InvalidTagError)) throw fault;
    return fault.message === "no stack is left";
  }
}

test("a call that fails anywhere ends its object, and wipe reaches what it has left", () => {
  const hash = () => new Blake2b({ key: KEY }).update(M);
  const tree = () => new TreeHash({ leafLength: 5 }).update(LONG).update(M);
  const output = () => new Blake2xb({ key: KEY }).update(M);
  const verify = (run) => run.verify(new Uint8Array(64));
  for (const [make, work] of [
    [hash, (run) => run.update(LONG)], [hash, (run) => run.reset()], [hash, (run) => run.digest()],
    [hash, (run) => run.hex()], [hash, verify], [tree, (run) => run.update(LONG)], [tree, (run) => run.reset()],
    [tree, verify], [output, (run) => run.update(M)], [output, (run) => run.read(9)],
  ]) {
    let count = 0;
    for (let hasFailed = true; hasFailed; count++) {
      const states = new Set();
      const run = recordStatesWritten(states, make);
      hasFailed = failsAtWrite(count, states, () => work(run));
      if (hasFailed) {
        for (const call of ["copy", "update"]) {
          assert.throws(() => run[call](M), /too many|has ended, by|was wiped, or a call failed/, String(work));
        }
      }
      const isOpen = !hasFailed && /update|reset|read/.test(work);
      if (isOpen && make === hash) { // what was absorbed or reset waits no longer
        assertZeros([...states][0].subarray(BLAKE2B.stateLength), "what waits");
      }
      if (isOpen || hasFailed) run.wipe(); // which the ends of a hash do themselves
      if (make !== tree) assert.equal(countStatesNotWiped(states), 0, `${work} ${count}`);
      blake2bp(M); // the memory is wiped before the next call at the latest
      blake2b(M);
      assertMemoriesAreWiped();
    }
    assert.ok(count >= 4, `${count} calls of fill and set by ${work}`);
  }
  for (const end of ["wipe", DISPOSE]) {
    const states = new Set();
    const run = recordStatesWritten(states, () => output().copy().copy());
    assert.equal(countStatesNotWiped(states), 3);
    recordStatesWritten(states, () => run[end]());
    assert.equal(countStatesNotWiped(states), 2);
  }
  const states = new Set();
  recordStatesWritten(states, () => deriveKey(KEY, M, 64));
  assert.deepEqual([states.size, countStatesNotWiped(states)], [1, 0]);
});

test("a copy or a short update that fails leaves its hash as it was, and nothing behind", () => {
  class Strange extends Blake2b {}
  const strange = (constructor) =>
    Object.defineProperty(new Strange({ key: KEY }).update(M), "constructor", { value: constructor });
  assert.ok(strange(Strange).copy() instanceof Strange);
  const wanted = new Blake2b({ key: KEY }).update(M).hex();
  for (const work of [(run) => run.update(M), (run) => run.copy()]) {
    for (const run of [new Blake2b({ key: KEY }).update(M), strange(Strange)]) {
      assert.ok(failsAtWrite(0, new Set(), () => work(run)));
      assert.equal(run.hex(), wanted);
    }
  }
  // classes that are none, or that end the hash in between
  for (const [other, message] of [
    [5, /constructor/], [() => {}, /constructor/],
    [new Proxy(Strange, { get() { throw new Error("no prototype"); } }), /^no prototype$/],
  ]) {
    const run = strange(other);
    const states = new Set();
    recordStatesWritten(states, () => assert.throws(() => run.copy(), { message }));
    assert.equal(countStatesNotWiped(states), 0);
    assert.equal(run.hex(), wanted);
  }
  const output = new Blake2xb({ key: KEY }).update(M);
  assert.ok(failsAtWrite(0, new Set(), () => output.copy()));
  assert.deepEqual(output.copy().read(9), new Blake2xb({ key: KEY }).update(M).read(9));
  for (const Hash of [Blake2b, Blake2xb]) {
    class Mine extends Hash {}
    const mine = new Mine({ key: KEY });
    const get = (...words) => {
      mine.wipe();
      return Reflect.get(...words);
    };
    Object.defineProperty(mine, "constructor", { value: new Proxy(Mine, { get }) });
    assert.throws(() => mine.copy(), /^TypeError: Blake2x?b.copy: this (hash has ended|output was wiped)/);
  }
});

test("the state of a run under a key is wiped when its object goes", async () => {
  const { fill } = Uint8Array.prototype;
  const wiped = [];
  const lengths = [BLAKE2B, BLAKE2XB].map(({ stateLength, room }) => stateLength + room);
  const noting = function (...words) {
    if (lengths.includes(this.length)) {
      wiped.push(hasNonzeroByte(this));
      assert.deepEqual(words, [0]);
    }
    return Reflect.apply(fill, this, words);
  };
  const collectUntil = async (isDone) => {
    for (let i = 0; i < 50 && !isDone(i); i++) {
      collect();
      await new Promise((resolve) => setTimeout(resolve, 10));
    }
  };
  await withReplacedProperties(Uint8Array.prototype, { fill: noting }, async () => {
    await collectUntil((i) => i === 10); // those of the tests before
    wiped.length = 0;
    (() => {
      for (let i = 0; i < 50; i++) {
        const key = KEY.subarray(31 * (i % 2));
        new Blake2b({ key }).update(M).copy();
        new Blake2xb({ key }).update(M).copy();
      }
    })();
    await collectUntil(() => wiped.length >= 200);
  });
  const count = wiped.filter(Boolean).length;
  assert.ok(count >= 190 && wiped.length <= 200, `${count} of ${wiped.length} states were wiped`);
});

test("load compiles ahead, and again", async () => {
  const printed = outputOfProgram(`const { blake2b, hex, load } = await import(${INDEX});
    WebAssembly.Module = class { constructor() { throw new Error("on this thread"); } };
    await load();
    console.log(hex(blake2b(new Uint8Array(0), { digestLength: 4 })));`);
  assert.equal(printed, "1271cf25\n"); // hashlib's
  assert.equal(await load(), undefined);
  await load();
  assert.equal(hexOf(blake2b(M)), createHash("blake2b512").update(M).digest("hex"));
});
