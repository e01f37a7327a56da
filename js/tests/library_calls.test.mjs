// The calls of the library that each function makes: how many messages or bytes each has, on which speed depends, and
// what happens if one is refused.
import assert from "node:assert/strict";
import test from "node:test";
import {
  Blake2b, Blake2bp, Blake2s, Blake2sp, Blake2xb, TreeHash, blake2b, blake2bMany, blake2bp, blake2s, blake2sMany,
  blake2sp, equal, treeLeaves, treeRoot, treeRootOfLeaves,
} from "../index.js";
import { BLAKE2B } from "../src/blake2b.js";
import { BLAKE2S } from "../src/blake2s.js";
import * as engine from "../src/engine.js";
import { Hasher, updateMany } from "../src/hashers.js";
import { partOfPlan, planOf } from "../src/leaves.js";
import * as whole from "../src/whole_module.js";
import { assertMemoriesAreWiped, assertZeros, withReplacedProperties } from "./common.mjs";

const calls = [];
const passed = {}; // all arguments of the last call of a function
const refusal = {}; // the name of a function that refuses, and the memory of the last that did
const { Instance } = WebAssembly;
const { WAITING } = engine;
// The place of the argument that says how much a function is given.
const indexOfLengthArgument = (name) => ({ memcmp: 1, tree_leaves: 5, tree_root_of_leaves: 3 })[name] ??
  (/_update$/.test(name) ? 2 : /_many$/.test(name) ? 4 : /^blake2[bs]p?$/.test(name) ? 3 : undefined);
const PLANS = /tree_(plan|part)$/; // not noted

// Instances whose functions note their name and the argument that says how much they are given.
class RecordingInstance {
  constructor(...words) {
    const { exports } = new Instance(...words);
    this.exports = Object.fromEntries(Object.entries(exports).map(([name, value]) => {
      if (typeof value !== "function" || PLANS.test(name)) return [name, value];
      return [name, (...given) => {
        const called = name.replace("vulfsjor_ffi_", "");
        calls.push(`${called} ${given[indexOfLengthArgument(called)] ?? ""}`.trim());
        passed[called] = given;
        if (called !== refusal.name) return value(...given);
        refusal.memory = exports.memory.buffer;
        return -1;
      }];
    }));
  }
}

// A test of modules that are new, and of which nothing is left.
const testWithNewModules = (name, work) => test(name, (t) => {
  const renew = () => [BLAKE2B, BLAKE2S, whole.TREE].forEach(({ module }) =>
    Object.assign(module, { current: undefined, initial: Object.create(null) }));
  t.after(renew);
  renew();
  return withReplacedProperties(WebAssembly, { Instance: RecordingInstance }, work);
});

const PIECE = 65536;
const WINDOW = 8 * 65536 - 8192;
const message = new Uint8Array(2 * WINDOW);
const part = (length) => message.subarray(0, length);
// The updates of a message that is longer than a piece.
const updateCallsFor = (name, length) => [
  ...Array(Math.floor(length / PIECE)).fill(`${name}_update ${PIECE}`), `${name}_update ${length % PIECE}`];

// Some work in which a function of the library refuses.
const whileLibraryRefuses = (name, work) => withReplacedProperties(refusal, { name }, work);

// Asserts the calls of some work.
function assertCalls(work, ...wanted) {
  calls.length = 0;
  work();
  assert.deepEqual(calls, wanted);
}

testWithNewModules("a message is one call, or updates by pieces", () => {
  assertCalls(() => blake2b(part(PIECE)), `blake2b ${PIECE}`);
  assertCalls(() => blake2s(part(3), { key: part(1) }), "blake2s 3");
  assertCalls(() => blake2s(part(PIECE + 1)),
    "blake2s_init_salt_personal", ...updateCallsFor("blake2s", PIECE + 1), "blake2s_final");
  assertCalls(() => blake2b(part(3), { salt: part(1) }),
    "blake2b_init_salt_personal", "blake2b_update 3", "blake2b_final");
  assertCalls(() => blake2b(part(3), { personalization: part(1), tree: { lastNode: true } }),
    "blake2b_init_tree", "blake2b_set_last_node", "blake2b_update 3", "blake2b_final");
  assertCalls(() => blake2bp(part(PIECE), { key: part(64) }), `blake2bp ${PIECE}`);
  assertCalls(() => blake2bp(part(PIECE + 1)),
    "blake2bp_init_salt_personal", ...updateCallsFor("blake2bp", PIECE + 1), "blake2bp_final");
  assertCalls(() => blake2sp(part(3), { salt: part(1) }),
    "blake2sp_init_salt_personal", "blake2sp_update 3", "blake2sp_final");
});

testWithNewModules("a tree takes the whole window at a time", () => {
  assertCalls(() => treeRoot(part(WINDOW), { leafLength: 5 }), "tree_init", `tree_update ${WINDOW}`, "tree_final");
  assertCalls(() => treeRoot(part(WINDOW + 1), { leafLength: 5 }),
    "tree_init", `tree_update ${WINDOW}`, "tree_update 1", "tree_final");
});

testWithNewModules("several messages are passed in whole groups that fill window and records", () => {
  const several = (count, length) => Array.from({ length: count }, () => part(length));
  assertCalls(() => blake2bMany(several(200, 10)),...[64, 64, 64, 8].map((count) => `blake2b_many ${count}`));
  assertCalls(() => blake2sMany(several(65, 0)), "blake2s_many 64", "blake2s_many 1");
  // five of these fit into the window: a whole group of four, or less than a group of eight
  assertCalls(() => blake2bMany(several(7, 100_000)), "blake2b_many 4", "blake2b_many 3");
  assertCalls(() => blake2sMany(several(9, 100_000)), "blake2s_many 5", "blake2s_many 4");
  assertCalls(() => blake2bMany([part(WINDOW), part(WINDOW - 1), part(1)]), "blake2b_many 1", "blake2b_many 2");
  assertCalls(() => blake2bMany([part(WINDOW + 1), part(1)]),
    "blake2b_init_salt_personal", ...updateCallsFor("blake2b", WINDOW + 1), "blake2b_final", "blake2b_many 1");
});

testWithNewModules("leaves are passed as many as fit into the window with their digests", () => {
  const leaves = (length, leafLength) => treeLeaves(part(length), { leafLength, first: 0, ends: true });
  const most = Math.floor(WINDOW / (100 + 64) / 4) * 4 * 100; // whole groups
  assertCalls(() => leaves(2 * most + 1, 100), `tree_leaves ${most}`, `tree_leaves ${most}`, "tree_leaves 1");
  assertCalls(() => leaves(WINDOW - 64, WINDOW - 64), `tree_leaves ${WINDOW - 64}`);
  const long = ["tree_init_leaf", ...updateCallsFor("blake2b", WINDOW - 63), "blake2b_final"];
  assertCalls(() => leaves(2 * (WINDOW - 63), WINDOW - 63), ...long, ...long);
  const root = (length) => treeRootOfLeaves(part(length), { leafLength: 5 });
  assertCalls(() => root(WINDOW), `tree_root_of_leaves ${WINDOW}`);
  assertCalls(() => root(WINDOW + 64), "tree_init_root", ...updateCallsFor("blake2b", WINDOW + 64), "blake2b_final");
});

testWithNewModules("equal compares halves of the window", () => {
  const both = (length) => equal(part(length), message.slice(0, length));
  assertCalls(() => both(0));
  assertCalls(() => both(WINDOW / 2), `memcmp ${WINDOW / 2}`);
  assertCalls(() => both(WINDOW / 2 + 1), `memcmp ${WINDOW / 2}`, "memcmp 1");
  assertCalls(() => equal(part(1), part(2)));
  // all of it, wherever the difference is
  for (const place of [0, WINDOW / 2, WINDOW]) {
    const changed = message.slice(0, WINDOW + 1);
    changed[place] ^= 0x80;
    assertCalls(() => assert.equal(equal(part(WINDOW + 1), changed), false),
      `memcmp ${WINDOW / 2}`, `memcmp ${WINDOW / 2}`, "memcmp 1");
  }
  assert.equal(both(WINDOW + 1), true);
});

testWithNewModules("short updates wait, and make no call", () => {
  const hash = new Blake2b();
  assertCalls(() => hash.update(part(WAITING - 1)).update(part(0)).update(part(1)));
  assertCalls(() => hash.copy().update(part(1)), `blake2b_update ${WAITING + 1}`);
  assertCalls(() => hash.copy().digest(), `blake2b_update ${WAITING}`, "blake2b_final");
  assertCalls(() => hash.update(part(PIECE)), `blake2b_update ${PIECE}`, `blake2b_update ${WAITING}`);
  assertCalls(() => hash.update(part(3)));
  assertCalls(() => hash.digest(), "blake2b_update 3", "blake2b_final");
  assertCalls(() => new Blake2s().update(part(9)).reset().update(part(3)).digest(),
    "blake2s_init_salt_personal", "blake2s_reset", "blake2s_update 3", "blake2s_final");
  // the states of hashes without options are copies
  assertCalls(() => new Blake2s().digest(), "blake2s_final");
  assertCalls(() => new Blake2s({ key: part(1) }).update(part(5)).digest(),
    "blake2s_init_salt_personal", "blake2s_update 5", "blake2s_final");
  assertCalls(() => new Blake2xb().update(part(3)).update(part(4)),
    "blake2xb_init_salt_personal", "blake2xb_update 3", "blake2xb_update 4");
});

testWithNewModules("hashes of one call absorb one after another, and short pieces wait", () => {
  const hashes = Array.from({ length: 4 }, () => new Blake2s());
  const updateAll = (...lengths) => Blake2s.updateMany(hashes, lengths.map(part));
  assertCalls(() => updateAll(WAITING, 0, WAITING + 1, 3), `blake2s_update ${WAITING + 1}`);
  assertCalls(() => updateAll(1, PIECE, WAITING, PIECE),
    `blake2s_update ${WAITING + 1}`, `blake2s_update ${PIECE}`, `blake2s_update ${PIECE}`, "blake2s_update 3");
  assertCalls(() => updateAll(0, WAITING, 1, WAITING), `blake2s_update ${WAITING + 1}`);
  assertCalls(() => updateAll(0, 0, 0, 0));
  assertCalls(() => Blake2s.updateMany([], []));
  assertCalls(() => assert.throws(() => updateAll(PIECE, PIECE, PIECE)));
  // near the end of what the library accepts a piece is tried first
  const saved = new Blake2s().save();
  new DataView(saved.buffer).setBigUint64(72, 2n ** 53n, true);
  const late = Blake2s.load(saved);
  assertCalls(() => Blake2s.updateMany([hashes[1], late], [part(PIECE), part(3)]),
    "blake2s_update 3", `blake2s_update ${PIECE}`, `blake2s_update ${WAITING}`, "blake2s_update 3");
});

testWithNewModules("a piece that is too long is refused before any hash absorbs", () => {
  const kind = { ...BLAKE2B, certainBelow: 2000 };
  const make = () => new Hasher(kind, "Blake2b", undefined, 0);
  const [first, late] = [make().update(part(3)), make().update(part(WAITING)).update(part(WAITING))];
  const wanted = [first, late].map((hash) => hash.copy().update(part(WAITING)).hex());
  const both = () => updateMany(kind, "Blake2b", [first, late], [part(WAITING), part(WAITING)], 0);
  whileLibraryRefuses("blake2b_update", () => {
    for (const work of [both, both]) {
      assertCalls(() => assert.throws(work,
        { name: "RangeError", message: "Blake2b.updateMany: hash 1: the message is too long" }),
      `blake2b_update ${WAITING}`);
    }
  });
  assertCalls(both, ...[WAITING, WAITING + 3, WAITING].map((length) => `blake2b_update ${length}`));
  assert.deepEqual([first, late].map((hash) => hash.hex()), wanted);
  // what the library refuses after all that ends the hashes
  const hashes = [new Blake2b(), new Blake2b()];
  whileLibraryRefuses("blake2b_update", () => assert.throws(() => Blake2b.updateMany(hashes, [part(PIECE), part(1)]),
    { name: "Error", message: "vulfsjor: the library refused a call" }));
  for (const hash of hashes) assert.throws(() => hash.hex(), /has ended, by .* or a failed call$/);
});

testWithNewModules("what waits is absorbed to be saved, and waits on", () => {
  const hash = new Blake2b().update(part(3));
  const saved = hash.save();
  assertCalls(() => hash.save(), "blake2b_update 3", "blake2b_save");
  assertCalls(() => hash.update(part(4)).digest(), "blake2b_update 7", "blake2b_final");
  assertCalls(() => Blake2b.load(saved).save(), "blake2b_load", "blake2b_save");
  assertCalls(() => Blake2b.load(saved).update(part(1)).update(part(1)).digest(),
    "blake2b_load", "blake2b_update 2", "blake2b_final");
  assertCalls(() => assert.throws(() => Blake2b.load(part(saved.length - 1))));
  assertCalls(() => assert.throws(() => Blake2b.load(part(saved.length))), "blake2b_load");
  // near the end of what the library accepts nothing waits
  const one = "blake2b_update 1";
  for (const [count, ...made] of [[2n ** 53n - 4n], [2n ** 53n - 3n, one], [2n ** 64n - 9n, one]]) {
    new DataView(saved.buffer).setBigUint64(136, count, true);
    const late = Blake2b.load(saved);
    assertCalls(() => late.update(part(1)), ...made);
  }
});

testWithNewModules("what waits is never refused, and what may be refused does not wait", () => {
  // all families refuse messages of 2^58 bytes and more
  assert.equal(BLAKE2B.certainBelow, 2 ** 53);
  for (const kind of Object.values(whole)) {
    if (kind.certainBelow !== undefined) assert.equal(kind.certainBelow, 2 ** 53);
  }
  const make = () => new Hasher({ ...BLAKE2B, certainBelow: 2000 }, "Blake2b", undefined, 0);
  const run = make().update(part(10)).update(part(1000)).update(part(500)); // 1,510 are absorbed
  assertCalls(() => run.update(part(490)));
  assertCalls(() => run.update(part(600)), "blake2b_update 1090");
  assertCalls(() => run.update(part(1)), "blake2b_update 1"); // now each is a call
  assertCalls(() => run.update(part(0)), "blake2b_update 0");
  for (const each of [run, run.copy()]) {
    whileLibraryRefuses("blake2b_update", () => assert.throws(() => each.update(part(1)),
      { name: "RangeError", message: "Blake2b.update: the message is too long" }));
  }
  assertCalls(() => run.copy().digest(), "blake2b_final");
  assert.equal(run.copy().hex(), new Blake2b().update(part(2601)).hex());
  assertCalls(() => run.reset().update(part(1)), "blake2b_reset");
});

testWithNewModules("what the library refuses is an error, and the memory is given up", () => {
  const tree = { leafLength: 5 };
  const some = part(3);
  for (const [name, work, message = "vulfsjor: the library refused a call"] of [
    ["blake2b", () => blake2b(some)], ["blake2bp", () => blake2bp(some)],
    ["blake2s_init_salt_personal", () => new Blake2s({ salt: some })],
    ["blake2bp_init_salt_personal", () => new Blake2bp()], ["blake2sp_init_salt_personal", () => new Blake2sp()],
    ["blake2b_init_tree", () => blake2b(some, { tree: {} })],
    ["blake2b_set_last_node", () => blake2b(some, { tree: { lastNode: true } })],
    ["blake2b_final", () => new Blake2b().digest()], ["blake2bp_final", () => new Blake2bp().digest()],
    ["blake2b_save", () => new Blake2b().save()], ["blake2s_save", () => new Blake2s().update(some).save()],
    ["blake2s_reset", () => new Blake2s().reset()], ["blake2sp_reset", () => new Blake2sp().reset()],
    ["blake2b_many", () => blake2bMany([some])], ["tree_init", () => new TreeHash(tree)],
    ["tree_final", () => new TreeHash(tree).verify(new Uint8Array(64))],
    ["tree_final", () => new TreeHash(tree).digest()], ["blake2xb_squeeze", () => new Blake2xb().read(1)],
    ["tree_leaves", () => treeLeaves(some, { ...tree, first: 0, ends: true })],
    ["tree_root_of_leaves", () => treeRootOfLeaves(part(64), tree)],
    ["tree_init_root", () => treeRootOfLeaves(part(WINDOW + 64), tree)],
    ["blake2sp_update", () => blake2sp(part(PIECE + 1)), "vulfsjor: the message is too long"],
    ["blake2b_update", () => blake2b(part(PIECE + 1)), "vulfsjor: the message is too long"],
  ]) {
    refusal.memory = undefined;
    whileLibraryRefuses(name, () => assert.throws(work, { name: "Error", message }, name));
    assertZeros(new Uint8Array(refusal.memory), name);
    assert.ok(engine.memories().every(({ buffer }) => buffer !== refusal.memory), name);
  }
});

testWithNewModules("an update that is too long changes nothing", () => {
  for (const Hasher of [Blake2b, Blake2bp, Blake2sp]) {
    const wanted = new Hasher().update(part(3)).hex();
    for (const length of [WAITING - 2, PIECE + 1, 2 * PIECE]) {
      const run = new Hasher().update(part(3));
      whileLibraryRefuses(`${Hasher.name.toLowerCase()}_update`, () => assert.throws(() => run.update(part(length)),
        { name: "RangeError", message: `${Hasher.name}.update: the message is too long` }));
      assertMemoriesAreWiped();
      assert.equal(run.hex(), wanted);
    }
  }
  // by the library itself, at the largest count
  const options = { digestLength: 32, key: part(0), salt: part(0), personalization: part(0) };
  for (const [kind, at, leaves] of [
    [BLAKE2B, 128, 1], [whole.BLAKE2BP, 256, 4], [whole.BLAKE2SP, 256, 8],
  ]) {
    const state = engine.begin(kind, options);
    // so that less than a stripe of 512 bytes has room, and a piece before it
    const put = (room) => new DataView(state.buffer, state.byteOffset).setBigUint64(
      at, (2n ** 64n - BigInt(room)) / BigInt(leaves), true);
    put(512);
    const before = state.slice();
    for (const waiting of [0, 1, 500]) {
      assert.equal(engine.update(kind, state, waiting, part(512 - waiting)), false);
      assert.deepEqual(state, before);
      assert.equal(engine.update(kind, state.slice(), waiting, part(511 - waiting)), true);
    }
    // of two pieces, of which the library absorbs the first
    put(512 + PIECE);
    before.set(state);
    assert.equal(engine.update(kind, state, 0, part(2 * PIECE)), false);
    assert.deepEqual(state, before);
    assert.equal(engine.update(kind, state, 0, part(PIECE)), true);
    assert.notDeepEqual(state, before);
  }
});

testWithNewModules("states have the library's sizes", () => {
  const { exports } = new Instance(whole.moduleOf(), {});
  const sizeOf = (name) => Number(exports[`vulfsjor_ffi_${name}_state_size`]());
  const kinds = Object.values(whole).filter(({ stateLength }) => stateLength !== undefined);
  assert.equal(kinds.length, 7);
  for (const { name, stateLength } of kinds) assert.equal(stateLength, sizeOf(name), name);
});

testWithNewModules("plans of ranges leave nothing in the memory", () => {
  const plan = planOf(10_000, 7, 100, 1000);
  assert.ok(plan.count > 1);
  assertMemoriesAreWiped("planOf");
  assert.ok(partOfPlan(plan, 1).length > 0);
  assertMemoriesAreWiped("partOfPlan");
});

testWithNewModules("a memory that could not be wiped is wiped before the next call", () => {
  const key = new Uint8Array(9).fill(7);
  blake2b(key);
  const { bytes } = BLAKE2B.module.current;
  const fill = () => { throw new RangeError("no stack is left"); };
  withReplacedProperties(Uint8Array.prototype, { fill }, () => whileLibraryRefuses("blake2b", () =>
    assert.throws(() => blake2b(key, { key }), /no stack is left/)));
  assert.ok(bytes.includes(7));
  blake2b(key);
  assert.notEqual(BLAKE2B.module.current.bytes, bytes);
  assertZeros(bytes, "the memory of before");
});

testWithNewModules("the places of state and arguments do not overlap", () => {
  new Blake2b({ key: part(64), salt: part(16), personalization: part(16), tree: {} })
    .update(part(WAITING + 1)).digest();
  assert.throws(() => new Blake2b({ key: part(64) }).verify(part(64)), { name: "InvalidTagError" });
  const [state, , key, , salt, , personalization, , node] = passed.blake2b_init_tree;
  const places = [
    [state, BLAKE2B.stateLength], [key, 64], [salt, 16], [personalization, 16], [node, 16],
    [passed.blake2b_final[1], 64], [passed.blake2b_verify[1], 64],
    [passed.blake2b_update[1], WINDOW],
  ].map(([at, length]) => [Number(at), Number(at) + length]).sort(([a], [b]) => a - b);
  for (let i = 1; i < places.length; i++) assert.ok(places[i - 1][1] <= places[i][0], `${i}`);
  // each message is after its state, with room for what waits, and before the end of the memory
  const { exports } = new Instance(whole.moduleOf(), {});
  const end = Number(exports.__heap_base.value) + WINDOW + 8192;
  for (const [name, make, kind] of [
    ["blake2b", () => new Blake2b(), BLAKE2B], ["blake2bp", () => new Blake2bp(), whole.BLAKE2BP],
    ["blake2sp", () => new Blake2sp(), whole.BLAKE2SP],
    ["tree", () => new TreeHash({ leafLength: 5 }), whole.TREE],
    ["blake2xb", () => new Blake2xb(), whole.BLAKE2XB],
  ]) {
    make().update(part(2 * WINDOW));
    const [at, window] = passed[`${name}_update`].map(Number);
    assert.equal(at + kind.stateLength, window, name);
    assert.ok(window + (kind.isTree ? WINDOW : PIECE) <= end, name);
  }
});
