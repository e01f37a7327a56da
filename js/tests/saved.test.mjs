// Saved states: what is refused, with its text, and what a loaded hash is. conformance.test.mjs has the bytes, of each
// number of pending ones, and with each of them changed.
import assert from "node:assert/strict";
import test from "node:test";
import { Blake2b, Blake2bp, Blake2s, Blake2sp, TreeHash, hashWritable, hex, utf8 } from "../index.js";
import { assertMemoriesAreWiped, assertZeros, recordStatesWritten } from "./common.mjs";

const M = utf8("message");
const KEY = new Uint8Array(32).fill(7);
const SAVED = [[Blake2b, 275], [Blake2s, 147]];

test("a hash is loaded as it was, and goes on alone", () => {
  for (const [Hash, length] of SAVED) {
    for (const parts of [[], [M], [new Uint8Array(length)], [new Uint8Array(1020), M], [new Uint8Array(100_000), M]]) {
      const hash = new Hash({ digestLength: 20, personalization: utf8("saved") });
      for (const part of parts) hash.update(part);
      const saved = hash.save();
      assertMemoriesAreWiped("save");
      assert.equal(saved.length, length);
      assert.equal(saved.buffer.byteLength, length);
      const loaded = Hash.load(saved);
      assertMemoriesAreWiped("load");
      assert.ok(loaded instanceof Hash && Object.getPrototypeOf(loaded) === Hash.prototype);
      assert.deepEqual([loaded.digestLength, loaded.blockLength], [20, hash.blockLength]);
      const again = hex(saved);
      saved.fill(0);
      assert.equal(hex(loaded.save()), again);
      assert.equal(hex(loaded.copy().update(M).save()), hex(hash.copy().update(M).save()));
      assert.equal(loaded.copy().hex(), hash.copy().hex());
      assert.equal(loaded.update(M).reset().hex(), hash.reset().hex());
    }
  }
});

test("a subclass is loaded as one, without its constructor", () => {
  class Counted extends Blake2b {
    constructor() { super({ digestLength: 9 }); }
  }
  const saved = new Counted().update(M).save();
  const loaded = Counted.load(saved);
  assert.ok(loaded instanceof Counted);
  assert.equal(loaded.hex(), new Counted().update(M).hex());
  assert.ok(!(Blake2b.load(saved) instanceof Counted));
});

test("a hash with a key is not saved, and goes on", () => {
  for (const [Hash] of SAVED) {
    const hash = new Hash({ key: KEY, allowShort: true }).update(M);
    const message = `${Hash.name}.save: this hash has a key, which the bytes would be as good as`;
    for (const each of [hash, hash.copy(), hash.copy().reset()]) {
      assert.throws(() => each.save(), { name: "TypeError", message });
    }
    assert.equal(hash.hex(), new Hash({ key: KEY }).update(M).hex());
  }
});

test("what is no saved state of the hash is refused", () => {
  for (const [Hash] of SAVED) {
    const saved = new Hash().update(M).save();
    const wrong = saved.slice();
    wrong[7] = 2;
    const [, [Other]] = Hash === Blake2b ? SAVED : [...SAVED].reverse();
    const message = `${Hash.name}.load: this is not a saved state of ${Hash.name}`;
    for (const bytes of [new Uint8Array(), saved.subarray(1), wrong, new Uint8Array(saved.length), new Other().save(),
      new Uint8Array(10_000_000), new ArrayBuffer(saved.length), Uint8Array.of(...saved, 0)]) {
      assert.throws(() => Hash.load(bytes), { name: "RangeError", message });
      assertMemoriesAreWiped("load, refused");
    }
    for (const bytes of [undefined, null, hex(saved), [...saved], 5, new Hash()]) {
      assert.throws(() => Hash.load(bytes), {
        name: "TypeError", message: /load: saved must be a Uint8Array, another view or an ArrayBuffer, not /,
      });
    }
    const more = `${Hash.name}.load: too many arguments, 2 instead of at most 1; a hash has no options then`;
    assert.throws(() => Hash.load(saved, {}), { name: "TypeError", message: more });
    assert.throws(() => new Hash().save("hex"), { name: "TypeError", message: /save: too many arguments, 1 / });
    const { buffer } = Uint8Array.of(0, ...saved);
    for (const bytes of [new DataView(buffer, 1), new Int8Array(buffer, 1), saved.buffer]) {
      assert.equal(Hash.load(bytes).hex(), new Hash().update(M).hex());
    }
  }
});

test("a hash that has ended, or has an open pipe, is not saved", async () => {
  for (const [Hash] of SAVED) {
    const ended = new Hash();
    ended.digest();
    const message = `${Hash.name}.save: this hash has ended, by digest, hex, verify, wipe or a failed call`;
    assert.throws(() => ended.save(), { name: "TypeError", message });
    const piped = new Hash();
    const writer = hashWritable(piped).getWriter();
    await writer.write(M);
    const open = `${Hash.name}.save: a pipe into this hash has not ended; wait for it first`;
    assert.throws(() => piped.save(), { name: "TypeError", message: open });
    await writer.close();
    assert.equal(hex(piped.save()), hex(new Hash().update(M).save()));
  }
});

test("only hashes with saved states have the calls, and each of its own", () => {
  for (const Hash of [Blake2bp, Blake2sp, TreeHash]) {
    assert.equal(Hash.load, undefined);
    assert.equal(Hash.prototype.save, undefined);
  }
  for (const [Hash] of SAVED) {
    const { save } = Hash.prototype;
    const { load } = Hash;
    const other = Hash === Blake2b ? new Blake2s() : new Blake2b();
    for (const wrong of [undefined, null, {}, Hash, other, new Blake2bp(), new TreeHash({ leafLength: 4 })]) {
      assert.throws(() => Reflect.apply(save, wrong, []), {
        name: "TypeError", message: "save: called without its hash; use it as hash.save",
      });
    }
    for (const wrong of [undefined, null, {}, other.constructor, new Hash(), Object]) {
      assert.throws(() => Reflect.apply(load, wrong, [new Hash().save()]), {
        name: "TypeError", message: `load: called without its ${Hash.name}; use it as ${Hash.name}.load`,
      });
    }
  }
});

test("the state of a loaded hash is wiped as that of any other", () => {
  for (const [Hash] of SAVED) {
    const saved = new Hash().update(M).save();
    for (const end of ["digest", "hex", "wipe"]) {
      const states = new Set();
      recordStatesWritten(states, () => Hash.load(saved)[end]());
      assert.ok(states.size > 0);
      for (const state of states) assertZeros(state, end);
    }
  }
});
