// Hashes that absorb a piece each in one call: their digests, what is refused at each place and changes none of them,
// and code of the caller that runs during the call. conformance.test.mjs has more digests, of hashlib.
import assert from "node:assert/strict";
import { createHash } from "node:crypto";
import test from "node:test";
import * as vulfsjor from "../index.js";
import { WAITING, memories } from "../src/engine.js";
import { assertMemoriesAreWiped, recordStatesWritten } from "./common.mjs";

const {
  Blake2b, Blake2bp, Blake2s, Blake2sp, Blake2xb, TreeHash, blake2b, blake2s, hashWritable, hex, utf8,
} = vulfsjor;
const FAMILIES = [[Blake2b, "blake2b512", 128], [Blake2s, "blake2s256", 64]];
const PIECE = 65536; // of a message that is copied at a time
const WINDOW = 8 * 65536 - 8192;
const MESSAGE = Uint8Array.from({ length: 2 * WINDOW }, (_, i) => i ^ (i >> 8) ^ (i >> 16));
const KEY = utf8("a key");
const M = utf8("message");

const part = (start, length) => MESSAGE.subarray(start, start + length);
const lengthsAround = (...lengths) =>
  lengths.flatMap((length) => [length - 1, length, length + 1]).filter((n) => n >= 0);
const rotated = (values, start) => values.map((_, i) => values[(start + i) % values.length]);
const listOf = (count, one) => Array.from({ length: count }, (_, i) => one(i));
const copies = (hashes) => hashes.map((hash) => hash.copy());
const digests = (hashes) => copies(hashes).map((hash) => hash.hex());

// Hashes that have absorbed parts of these lengths, in turn, and the parts.
function hashesAfterParts(Hash, count, pending, options = () => undefined) {
  const parts = listOf(count, (i) => part(7 * i, pending[i % pending.length]));
  return [parts.map((absorbed, i) => new Hash(options(i)).update(absorbed)), parts];
}

// Asserts that the hashes absorb the pieces, and what each has absorbed then: these parts by node's digest of it, if
// they are given, and otherwise as by update.
function assertAbsorbs(Hash, hashes, pieces, parts) {
  const alone = copies(hashes).map((hash, i) => hash.update(pieces[i]).hex());
  assert.equal(Hash.updateMany(hashes, pieces), undefined);
  assertMemoriesAreWiped("updateMany");
  const got = digests(hashes);
  assert.deepEqual(got, alone);
  const [, name] = FAMILIES.find(([Family]) => Family === Hash);
  parts?.forEach((absorbed, i) => {
    assert.equal(got[i], createHash(name).update(absorbed).update(pieces[i]).digest("hex"), `${name} ${i}`);
  });
}

test("each hash absorbs its piece: of each length after each pending length", () => {
  for (const [Hash, , block] of FAMILIES) {
    const lengths = lengthsAround(0, block, 2 * block, 3 * block, 4 * block);
    for (const pending of [0, 1, block - 1, block, block + 1, 2 * block, WAITING - 1, WAITING, WAITING + 1]) {
      for (const length of lengths) {
        const [hashes, parts] = hashesAfterParts(Hash, 8, [pending]);
        assertAbsorbs(Hash, hashes, listOf(8, (i) => part(100 * i, length)), parts);
      }
      const [hashes, parts] = hashesAfterParts(Hash, lengths.length, [pending]);
      assertAbsorbs(Hash, hashes, lengths.map((length, i) => part(100 * i, length)), parts);
    }
  }
});

const OPTIONS = [
  undefined, { key: KEY }, { digestLength: 20, salt: KEY, personalization: M }, { key: KEY, tree: { lastNode: true } },
];

test("each hash absorbs its piece: none, one and many, with keys and without, short and long", () => {
  for (const [Hash, , block] of FAMILIES) {
    const pending = [0, 1, block, 2 * block - 1, WAITING, 0, 5000];
    const lengths = [...lengthsAround(0, block, WAITING, 4 * block, PIECE), PIECE - WAITING, 2 * PIECE, 3];
    for (const count of [0, 1, 3, 4, 5, 8, 9, 17, 33]) {
      const [plain, parts] = hashesAfterParts(Hash, count, pending);
      assertAbsorbs(Hash, plain, listOf(count, (i) => part(i, lengths[(i + count) % lengths.length])), parts);
      const [mixed] = hashesAfterParts(Hash, count, pending, (i) => OPTIONS[i % OPTIONS.length]);
      for (const start of [0, 4]) {
        assertAbsorbs(Hash, mixed, rotated(listOf(count, (i) => part(i, lengths[i % lengths.length])), start));
      }
    }
    const longs = [WINDOW - 1, 0, WINDOW, 1, WINDOW + 1, 2 * WINDOW];
    const [hashes, parts] = hashesAfterParts(Hash, longs.length, pending);
    assertAbsorbs(Hash, hashes, longs.map((length) => part(0, length)), parts);
  }
});

test("short pieces wait, as those of update, and hashes go on alone", () => {
  for (const [Hash, name] of FAMILIES) {
    const hashes = listOf(3, () => new Hash());
    const all = hashes.map(() => []);
    for (let at = 0; at < 400; at++) {
      const pieces = hashes.map((_, i) => part(at, at % (3 + 7 * i)));
      Hash.updateMany(hashes, pieces);
      if (at % 50 === 49) hashes[1].update(M);
      pieces.forEach((piece, i) => all[i].push(piece, ...(at % 50 === 49 && i === 1 ? [M] : [])));
    }
    hashes[2].reset();
    Hash.updateMany(hashes, [M, M, M]);
    const wanted = [[...all[0], M], [...all[1], M], [M]].map((parts) =>
      createHash(name).update(Buffer.concat(parts)).digest("hex"));
    assert.deepEqual(hashes.map((hash) => hash.hex()), wanted);
    assertMemoriesAreWiped();
  }
});

test("pieces of all types, in any iterable", () => {
  const within = Uint8Array.of(0, ...M, 0).buffer;
  const shared = new Uint8Array(new SharedArrayBuffer(M.length));
  shared.set(M);
  class Liar extends Uint8Array {
    get length() { return 1; }
    get byteLength() { return 2; }
    subarray() { return KEY; }
    set() { throw new Error("set"); }
  }
  const pieces = [
    M, M.slice().buffer, new DataView(within, 1, M.length), new Int8Array(within, 1, M.length), Buffer.from(M), shared,
    shared.buffer, Liar.from(M), new Uint8Array(0), new ArrayBuffer(0), new Uint16Array([0x656d]),
  ];
  const wanted = (one) => [...Array(8).fill(M), KEY.subarray(5), KEY.subarray(5), utf8("me")].map((m) => hex(one(m)));
  for (const [Hash, one] of [[Blake2b, blake2b], [Blake2s, blake2s]]) {
    class Mine extends Hash {
      update() { throw new Error("update"); }
      get digestLength() { throw new Error("digestLength"); }
    }
    const make = () => pieces.map((_, i) => (i % 2 ? new Hash() : new Mine()));
    const { updateMany } = Hash;
    for (const call of [
      (hashes) => Hash.updateMany(hashes, pieces), (hashes) => Mine.updateMany(new Set(hashes), new Set(pieces)),
      (hashes) => updateMany(hashes.values(), pieces.values()),
      (hashes) => updateMany((function* () { yield* hashes; })(), (function* () { yield* pieces; })()),
    ]) {
      const hashes = make();
      assert.equal(call(hashes), undefined);
      assert.deepEqual(hashes.map((hash) => hash.hex()), wanted(one));
    }
  }
  for (const Hash of [Blake2bp, Blake2sp, TreeHash, Blake2xb]) assert.equal(Hash.updateMany, undefined);
});

// ---- refusals

// A hash to which this many bytes can be added, and no more.
function hashWithRoomFor(Hash, room, block) {
  const saved = new Hash().update(M).save();
  const count = 2n ** 64n - 1n - BigInt(M.length + room);
  new DataView(saved.buffer).setBigUint64(saved.length - block - 11, count, true);
  return Hash.load(saved);
}

// Asserts that a call is refused with this error, and that these hashes are unchanged and go on.
function assertRefused(Hash, [hashes, pieces, ...more], [name, message], live = hashes) {
  const before = digests(live);
  const there = memories();
  assert.throws(() => Hash.updateMany(hashes, pieces, ...more),
    { name, message: `${Hash.name}.updateMany: ${message}` });
  assert.deepEqual(memories().map((bytes, i) => bytes === there[i]), there.map(() => true), message);
  assertMemoriesAreWiped(message);
  assert.deepEqual(digests(live), before, message);
  assertAbsorbs(Hash, live, live.map((_, i) => part(i, 40 * i)));
}

// Hashes of which one is late, and pieces that fit.
function mixed(Hash, count, block) {
  const [hashes] = hashesAfterParts(Hash, count, [0, 5, block, 2000], (i) => OPTIONS[i % OPTIONS.length]);
  if (count > 2) hashes[2] = hashWithRoomFor(Hash, 5000, block);
  return [hashes, listOf(count, (i) => part(9 * i, [0, 3, 2 * block, 1200][i % 4]))];
}

const withValueAt = (values, place, value) => values.with?.(place, value) ??
  [...values.slice(0, place), value, ...values.slice(place + 1)];

// Calls some work with each place among 1, 4 and 9 hashes, and with what makes them and their pieces.
function forEachPlace(work) {
  for (const [Hash, , block] of FAMILIES) {
    for (const count of [1, 4, 9]) {
      for (let place = 0; place < count; place++) work(Hash, block, place, () => mixed(Hash, count, block));
    }
  }
}

test("what is no hash of the class is refused at each place", () => {
  forEachPlace((Hash, block, place, make) => {
    const Other = Hash === Blake2b ? Blake2s : Blake2b;
    const own = new Hash();
    for (const [wrong, said] of [
      [undefined, "undefined"], [null, "null"], [5, "a number"], ["hash", "a string"], [{}, "an object"],
      [[], "an array"], [M, "an instance of Uint8Array"], [Hash, "a function"],
      ...[new Other(), new Blake2bp(), new Blake2sp(), new TreeHash({ leafLength: 5 }), new Blake2xb(),
        Object.create(own), new Proxy(own, {}), Object.create(Hash.prototype)].map((value) =>
        [value, `an instance of ${value.constructor.name}`]),
    ]) {
      const [hashes, pieces] = make();
      const message = `hash ${place} must be a ${Hash.name}, not ${said}`;
      assertRefused(Hash, [withValueAt(hashes, place, wrong), pieces], ["TypeError", message],
        withValueAt(hashes, place, own.copy()));
    }
  });
});

test("a hash that has ended is refused at each place", () => {
  forEachPlace((Hash, block, place, make) => {
    for (const end of ["digest", "hex", "wipe", "verify"]) {
      const [hashes, pieces] = make();
      hashes[place] = new Hash({ key: KEY });
      if (end === "verify") hashes[place].verify(hashes[place].copy().digest());
      else hashes[place][end]();
      const message = `hash ${place}: this hash has ended, by digest, hex, verify, wipe or a failed call`;
      assertRefused(Hash, [hashes, pieces], ["TypeError", message], hashes.filter((_, i) => i !== place));
      assert.throws(() => hashes[place].copy(), /has ended/);
    }
  });
});

test("a hash with an open pipe is refused at each place, and its pipe goes on", async () => {
  const writers = [];
  forEachPlace((Hash, block, place, make) => {
    const [hashes, pieces] = make();
    const wanted = hashes[place].copy().update(M);
    writers.push([hashWritable(hashes[place]).getWriter(), hashes[place], wanted]);
    const message = `hash ${place}: a pipe into this hash has not ended; wait for it first`;
    assertRefused(Hash, [hashes, pieces], ["TypeError", message], hashes.filter((_, i) => i !== place));
  });
  for (const [writer, hash, wanted] of writers) {
    await writer.write(M);
    await writer.close();
    assert.equal(hash.hex(), wanted.hex());
  }
});

test("the same hash twice is refused at each pair of places", () => {
  for (const [Hash, , block] of FAMILIES) {
    for (let first = 0; first < 5; first++) {
      for (let second = first + 1; second < 5; second++) {
        const [hashes, pieces] = mixed(Hash, 5, block);
        hashes[second] = hashes[first];
        const message = `hash ${second} is there twice`;
        for (const given of [pieces, pieces.map(() => new Uint8Array(0))]) {
          assertRefused(Hash, [hashes, given], ["RangeError", message], hashes.filter((_, i) => i !== second));
        }
      }
    }
    const hash = new Hash().update(M);
    assertRefused(Hash, [[hash, hash, hash], [M, M, M]], ["RangeError", "hash 1 is there twice"], [hash]);
  }
});

test("what is no piece is refused at each place", () => {
  const shrunk = new ArrayBuffer(20, { maxByteLength: 20 });
  const gone = new ArrayBuffer(9);
  const views = [
    gone, new Uint8Array(gone), new DataView(gone), new Uint8Array(shrunk, 4, 12), new DataView(shrunk, 9),
  ];
  structuredClone(0, { transfer: [gone] });
  shrunk.resize(8);
  const expected = "must be a Uint8Array, another view or an ArrayBuffer, not";
  forEachPlace((Hash, block, place, make) => {
    for (const [wrong, said] of [
      ["abc", `${expected} a string (utf8() encodes a string)`], [undefined, `${expected} undefined`],
      [null, `${expected} null`], [5, `${expected} a number`], [[1, 2], `${expected} an array`],
      [{ length: 3 }, `${expected} an object`], [new Hash(), `${expected} an instance of ${Hash.name}`],
    ]) {
      const [hashes, pieces] = make();
      for (const given of [withValueAt(pieces, place, wrong), withValueAt(pieces, place, wrong).values()]) {
        assertRefused(Hash, [hashes, given], ["TypeError", `piece ${place} ${said}`]);
      }
    }
    for (const wrong of views) {
      const [hashes, pieces] = make();
      assertRefused(Hash, [hashes, withValueAt(pieces, place, wrong)],
        ["TypeError", `the memory of piece ${place} is detached or has shrunk`]);
    }
  });
});

test("more pieces than hashes, or fewer, and what is no list", () => {
  for (const [Hash, , block] of FAMILIES) {
    for (const count of [0, 1, 4, 9]) {
      for (const other of [0, 1, count - 1, count + 1, 2 * count, 100].filter((n) => n >= 0 && n !== count)) {
        const [hashes] = mixed(Hash, count, block);
        const message = `there must be a piece for each hash, not ${other} for ${count}`;
        const pieces = Array(other).fill(M);
        assertRefused(Hash, [hashes, pieces], ["RangeError", message]);
        assertRefused(Hash, [hashes.values(), pieces.values()], ["RangeError", message], hashes);
      }
    }
    const { name } = Hash;
    const hash = new Hash().update(M);
    for (const [wrong, said] of [
      [undefined, "undefined"], [null, "null"], [5, "a number"], ["", "a string"], ["abc", "a string"],
      [{ length: 1, 0: hash }, "an object"], [hash, `an instance of ${name}`], [{ [Symbol.iterator]: 5 }, "an object"],
    ]) {
      assertRefused(Hash, [wrong, [M]], ["TypeError", `hashes must be an iterable of ${name}, not ${said}`], [hash]);
      assertRefused(Hash, [[hash], wrong], ["TypeError", `pieces must be an iterable of bytes, not ${said}`]);
    }
    for (const one of [M, new Uint8Array(0), new ArrayBuffer(0), new DataView(M.buffer), Buffer.from("abc")]) {
      const said = `an instance of ${one.constructor.name}`;
      assertRefused(Hash, [one, []], ["TypeError", `hashes must be an iterable of ${name}, not ${said}`], [hash]);
      const hint = "several pieces are expected, not one";
      assertRefused(Hash, [[hash], one], ["TypeError", `pieces must be an iterable of bytes, not ${said}; ${hint}`]);
    }
    for (const more of [undefined, {}, 5]) {
      assertRefused(Hash, [[hash], [M], more],
        ["TypeError", "too many arguments, 3 instead of at most 2; a hash has its options already"]);
    }
    assertRefused(Hash, [], ["TypeError", `hashes must be an iterable of ${name}, not undefined`], [hash]);
  }
});

test("a count that would reach 2^64 is refused at each place", () => {
  forEachPlace((Hash, block, place, make) => {
    for (const room of [0, 1, block, 4 * block, WAITING + 1, ...(place % 4 === 0 ? [PIECE, PIECE + block] : [])]) {
      const [hashes, pieces] = make();
      hashes[place] = hashWithRoomFor(Hash, room, block);
      const before = hashes[place].copy().hex();
      assertRefused(Hash, [hashes, withValueAt(pieces, place, part(0, room + 1))],
        ["RangeError", `hash ${place}: the message is too long`], hashes.filter((_, i) => i !== place));
      assert.equal(hashes[place].copy().hex(), before);
      assertAbsorbs(Hash, hashes, withValueAt(pieces, place, part(0, room)));
      const message = `${Hash.name}.updateMany: hash 0: the message is too long`;
      assert.throws(() => Hash.updateMany([hashes[place]], [part(0, 1)]), { name: "RangeError", message });
      assertAbsorbs(Hash, [hashes[place]], [part(0, 0)]);
    }
  });
});

// ---- code of the caller

const detachBuffer = (view) => structuredClone(0, { transfer: [view.buffer] });
const newPiece = (length = 9) => new Uint8Array(new ArrayBuffer(length)).fill(7);
// An iterator over values whose last step is some work.
const iteratorThatEndsWith = (values, work) => (function* () { yield* values; work(); })();
// A list of values of which one is read by a getter, which does some work before.
const listWithGetter = (values, place, work) => Object.defineProperty([...values], place, {
  get() { work(); return values[place]; },
});

test("what an iterator yields is that of its time, and what a list holds is that of the call", () => {
  for (const [Hash, name] of FAMILIES) {
    const buffer = new Uint8Array(2000);
    const hashes = listOf(30, () => new Hash());
    Hash.updateMany(hashes, (function* () {
      for (let i = 0; i < 30; i++) yield buffer.fill(i).subarray(0, 50 * i);
    })());
    assert.deepEqual(digests(hashes),
      hashes.map((_, i) => createHash(name).update(new Uint8Array(50 * i).fill(i)).digest("hex")));
    for (const make of [(values) => Object.assign([...values], { [Symbol.iterator]: () => values.values() }),
      (values) => new (class extends Array { [Symbol.iterator]() { return values.values(); } })(9)]) {
      const two = [new Hash(), new Hash()];
      Hash.updateMany(make(two), make([M, KEY]));
      assert.deepEqual(digests(two), [M, KEY].map((piece) => new Hash().update(piece).hex()));
    }
    const first = M.slice();
    const two = [new Hash(), new Hash()];
    Hash.updateMany(two, listWithGetter([first, M], 1, () => first.fill(7)));
    assert.deepEqual(digests(two), [first.fill(7), M].map((piece) => new Hash().update(piece).hex()));
  }
});

test("code that runs while the lists are taken, and changes hashes", () => {
  for (const [Hash] of FAMILIES) {
    const of = (...messages) => messages.reduce((hash, message) => hash.update(message), new Hash()).hex();
    const make = () => [new Hash(), new Hash().update(M), new Hash()];
    const pieces = [M, KEY, newPiece()];
    for (const call of [
      (hashes, work) => Hash.updateMany(iteratorThatEndsWith(hashes, work), pieces),
      (hashes, work) => Hash.updateMany(hashes, iteratorThatEndsWith(pieces, work)),
      (hashes, work) => Hash.updateMany(listWithGetter(hashes, 2, work), pieces),
      (hashes, work) => Hash.updateMany(hashes, listWithGetter(pieces, 2, work)),
    ]) {
      let hashes = make();
      call(hashes, () => {
        hashes[0].update(KEY);
        hashes[1].reset();
        Hash.updateMany(hashes, [M, M, M]);
      });
      assert.deepEqual(digests(hashes), [of(KEY, M, M), of(M, KEY), of(M, newPiece())]);
      for (const end of ["wipe", "digest", "hex", "pipe"]) {
        for (let i = 0; i < 3; i++) {
          hashes = make();
          const before = digests(hashes);
          const work = () => (end === "pipe" ? hashWritable(hashes[i]) : hashes[i][end]());
          assert.throws(() => call(hashes, work), { name: "TypeError", message: new RegExp(
            `^${Hash.name}.updateMany: hash ${i}: ${end === "pipe" ? "a pipe into" : "this hash has ended, by"} `) });
          if (end !== "pipe") hashes[i] = make()[i];
          assert.deepEqual(digests(hashes), before);
        }
      }
      hashes = make();
      const before = digests(hashes);
      assert.throws(() => call(hashes, () => { throw new Error("mine"); }), /^Error: mine$/);
      assert.deepEqual(digests(hashes), before);
    }
  }
});

test("code that runs while the lists are taken, and changes lists", () => {
  for (const [Hash] of FAMILIES) {
    const hash = new Hash();
    const other = new Hash();
    const numbers = (pieces, hashes) =>
      ({ message: `${Hash.name}.updateMany: there must be a piece for each hash, not ${pieces} for ${hashes}` });
    // a list of hashes that was taken stays
    const hashes = [hash];
    Hash.updateMany(hashes, iteratorThatEndsWith([M], () => hashes.push(hash, other, 5)));
    assert.deepEqual(digests([hash, other]), [M, new Uint8Array(0)].map((message) => new Hash().update(message).hex()));
    // and one that becomes longer or shorter as it is taken has what was read
    const pieces = listWithGetter([M, M], 0, () => { pieces.length = 1; });
    assert.throws(() => Hash.updateMany([hash, other], pieces), numbers(1, 2));
    const growing = listWithGetter([M], 0, () => growing.push(M));
    assert.throws(() => Hash.updateMany([hash], growing), numbers(2, 1));
    assert.throws(() => Hash.updateMany([hash], iteratorThatEndsWith([M, M], () => {})), numbers(2, 1));
    // pieces are only asked for when all hashes are there
    const list = [M, M];
    assert.throws(() => Hash.updateMany(iteratorThatEndsWith([hash, other], () => list.pop()), list), numbers(1, 2));
    assert.deepEqual(digests([hash, other]), [M, new Uint8Array(0)].map((message) => new Hash().update(message).hex()));
    // an iterator of what is refused is closed
    let isClosed = false;
    const wrong = (function* () { try { yield M; yield "text"; } finally { isClosed = true; } })();
    assert.throws(() => Hash.updateMany([hash, other], wrong), /updateMany: piece 1 must be /);
    assert.ok(isClosed);
  }
});

test("memory that is taken away, shrinks or grows while the lists are taken", () => {
  for (const [Hash] of FAMILIES) {
    const two = [new Hash(), new Hash()];
    for (const place of [0, 1]) {
      const [first, second, third] = [newPiece(), newPiece(), newPiece()];
      const gone = ["TypeError", `the memory of piece ${place} is detached or has shrunk`];
      const pieces = withValueAt([M, M], place, first);
      assertRefused(Hash, [two, listWithGetter(pieces, 1 - place, () => detachBuffer(first))], gone);
      assertRefused(Hash, [listWithGetter(two, 1, () => detachBuffer(second)), withValueAt([M, M], place, second)],
        gone, two);
      assertRefused(Hash, [iteratorThatEndsWith(two, () => detachBuffer(third)), withValueAt([M, M], place, third)],
        gone, two);
    }
    const buffer = new ArrayBuffer(40, { maxByteLength: 100 });
    const [follows, fixed] = [new Uint8Array(buffer, 4), new Uint8Array(buffer, 4, 30)];
    const resizing = (piece, length) => listWithGetter([piece, KEY], 1, () => buffer.resize(length));
    for (const length of [100, 20, 4]) {
      const wanted = two[0].copy().update(new Uint8Array(length - 4)).hex();
      Hash.updateMany(two, resizing(follows, length));
      assert.equal(digests(two)[0], wanted);
    }
    for (const piece of [follows, fixed]) {
      assertRefused(Hash, [two, resizing(piece, 3)], ["TypeError", "the memory of piece 0 is detached or has shrunk"]);
    }
    const copied = newPiece(); // when it comes
    const [wanted] = digests([two[0].copy().update(copied)]);
    Hash.updateMany(two, iteratorThatEndsWith([copied, M], () => detachBuffer(copied)));
    assert.equal(digests(two)[0], wanted);
  }
});

// ---- what is left

const hasNonzeroByte = (bytes) => bytes.some((byte) => byte !== 0);

test("a call that fails anywhere ends all its hashes, or none, and wipe reaches what it has left", () => {
  for (const [Hash] of FAMILIES) {
    for (const pieces of [[part(0, 3000), M, part(9, 2000), KEY], [M, KEY, M, KEY], Array(4).fill(part(0, 99999))]) {
      let [count, ended] = [0, 0];
      for (let hasFailed = true; hasFailed; count++) {
        const states = new Set();
        const hashes = recordStatesWritten(states, () => pieces.map(() => new Hash({ key: KEY }).update(M)));
        try {
          recordStatesWritten(states, () => Hash.updateMany(hashes, pieces), count);
          hasFailed = false;
        } catch (fault) {
          assert.equal(fault.message, "no stack is left");
          for (const hash of hashes) assert.throws(() => hash.copy(), /has ended, by .* or a failed call$/);
          ended++;
        }
        for (const hash of hashes) hash.wipe();
        assert.equal([...states].filter(hasNonzeroByte).length, 0, `${count}`);
        new Hash().update(part(0, 2000)).digest(); // the memory is wiped before the next call at the latest
        assertMemoriesAreWiped();
      }
      assert.ok(ended >= pieces.length, `${ended} calls of fill and set`);
    }
    // before any hash absorbs, none ends
    const hashes = [new Hash(), new Hash().update(M)];
    const before = digests(hashes);
    for (const count of [0, 1]) { // of the copies of what an iterator yields
      assert.throws(() => recordStatesWritten(new Set(), () => Hash.updateMany(hashes, [M, M].values()), count),
        /no stack/);
      assert.deepEqual(digests(hashes), before);
    }
    const trying = [new Hash(), hashWithRoomFor(Hash, 2000, Hash === Blake2b ? 128 : 64)];
    const wanted = digests(trying);
    for (const count of [0, 1, 2]) { // of the trial of the late one
      assert.throws(() => recordStatesWritten(new Set(), () => Hash.updateMany(trying, [M, part(0, 2000)]), count),
        /no stack/);
      assert.deepEqual(digests(trying), wanted);
      assertMemoriesAreWiped();
    }
    assertAbsorbs(Hash, trying, [M, part(0, 2000)]);
  }
});

test("states are wiped as those of any hash", () => {
  for (const [Hash] of FAMILIES) {
    for (const end of ["digest", "hex", "wipe"]) {
      const states = new Set();
      recordStatesWritten(states, () => {
        const hashes = listOf(9, (i) => new Hash({ key: KEY }).update(part(0, 300 * i)));
        Hash.updateMany(hashes, hashes.map((_, i) => part(0, 2400 - 300 * i)));
        for (const hash of hashes) hash[end]();
      });
      assert.ok(states.size >= 9);
      assert.equal([...states].filter(hasNonzeroByte).length, 0, end);
    }
  }
});
