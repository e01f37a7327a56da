// Messages of 2^32 bytes and more: in memory, in pieces, and as files. They take minutes, so they run only if
// VULFSJOR_TEST_HUGE is set. Memory and files are sparse.
import assert from "node:assert/strict";
import { createReadStream, openSync, readSync, writeSync } from "node:fs";
import { open } from "node:fs/promises";
import { join } from "node:path";
import test from "node:test";
import * as vulfsjor from "../index.js";
import { assertMemoriesAreWiped, LONG as FULL, newFolder } from "./common.mjs";

const { equal, hex, treeLeaves, treeRootOfLeaves, treeRootStream } = vulfsjor;
const SIZE = 2 ** 32; // the longest array of node 20
const ENDS = [[1, 0, 100], [2, SIZE - 100, 100], [3, SIZE, 1000]]; // a byte, where, and how often
const [SMALL, LARGE, LONG] = [2 ** 22, 2 ** 26, 2 ** 31 + 5]; // leaves; LONG exceeds a signed word
const whole = {}; // hashlib has the nodes of BLAKE2bp only with the longest digest
const short = { digestLength: 32 };
const treeOf = (leafLength) => ({ leafLength, ...short });
// By hashlib: of the first SIZE bytes, and of all. A name, the options, and both.
const WANTED = [
  ["Blake2b", short, "5b63e3a50bb35c10fbb61c1d9d2c0c9d459b7ce8ac281f197dbbd1dcea668a29",
    "40094b75cca9302c0d1af7271481946321d76dfc9efaac5df37e73b2405971b0"],
  ["Blake2s", short, "81876b6cacf6c29c7d293198dd66e86cc48a8c54f7a0537382ad22aacf5245f5",
    "95b840b29803c6af9f8bd7f99f4f3b19c3ad8826b5c17757ef25803f0c44973a"],
  ["Blake2bp", whole, "93c5400e3ca2899f2668cec639978928ebb9038e705b4751da8b01ba518535f6" +
    "09f352a861c1018d3535878721502d569e2acfe9c79a0ea4073335cf0868734a",
  "3db16effe85252207703b976ebfb6e73c05bb6f5d07e75cd762050c40d32ca28" +
    "3f25bfd97bc0c4af1c36e6e7c0f16b219ba39ba442abc00494107d6405332d90"],
  ["Blake2sp", short, "5f4175e853e6eca8d892f00d9c501983751f8f1e15780076c0f1a8e449734b9d",
    "bd9e059a8ada7162c96885ba78d07d993cdf700257759cf984f46d36f5dcad40"],
  ["TreeHash", treeOf(SMALL), "cb4a2836fb4cf366a314046a81de843ff870f96a8d04186d55a7c98c154501ae",
    "230dfe3db62ebed052d062e1f13bc48ae32a53453781fefff81222466f6e9364"],
  ["TreeHash", treeOf(LARGE), "4f576d85eda3765b926aa5c5d952abfcb327e8a04c2956cd4addd82e1a03f9cf",
    "d4ad1b11591ffcae1c7020b8f7aaafb44d5bc396db8136a426c23460a067307c"],
  ["TreeHash", treeOf(LONG), "41b8e0587204103cc4a7309d101722f364a51b11cb74949277c37ddc227abd98",
    "e3415c50dcd25703fb87200775c0a698a262f16f287b6a319e968dd5f3a58da5"],
];
// The root over the first SIZE bytes, as digests.
const ROOT = "4ad5f8337f5b5822d2d176944d068bf17335acb8797a1f97f0cdf89af9f11e60";

function sparseMessage() {
  const bytes = new Uint8Array(SIZE);
  for (const [byte, at, count] of ENDS.slice(0, 2)) bytes.fill(byte, at, at + count);
  return bytes;
}

// A file as browsers have it. The blobs of node 20 have fewer than 2^32 bytes.
function blobOf(descriptor) {
  const slice = (from, to) => ({
    arrayBuffer: async () => {
      const { buffer } = new Uint8Array(Math.min(to, SIZE + 1000) - from);
      readSync(descriptor, new Uint8Array(buffer), 0, buffer.byteLength, from);
      return buffer;
    },
  });
  return Object.defineProperties(new Blob(), { size: { value: SIZE + 1000 }, slice: { value: slice } });
}

test("messages of 2^32 bytes and more", FULL, async (t) => {
  const message = sparseMessage();
  const tail = new Uint8Array(1000).fill(3);
  const file = join(newFolder(), "file");
  const descriptor = openSync(file, "w+");
  for (const [byte, at, count] of ENDS) writeSync(descriptor, Buffer.alloc(count, byte), 0, count, at);
  const handle = await open(file);
  t.after(() => handle.close());
  const counts = [];
  const sources = { // by each stream another one
    blake2b: () => blobOf(descriptor), blake2bp: () => handle, treeRoot: () => blobOf(descriptor),
    blake2s: () => createReadStream(file, { highWaterMark: 2 ** 24 }),
    blake2sp: () => createReadStream(file, { highWaterMark: 2 ** 24 }),
  };
  for (const [name, options, first, all] of WANTED) {
    const one = name === "TreeHash" ? "treeRoot" : name.replace("B", "b");
    await t.test(`${name} ${options.leafLength ?? ""}`, async () => {
      assert.equal(hex(vulfsjor[one](message, options)), first);
      assertMemoriesAreWiped(name);
      const run = new vulfsjor[name](options).update(message);
      assert.equal(run.copy().hex(), first);
      assert.equal(run.update(tail).hex(), all);
      const onProgress = (...both) => counts.push(both);
      const byThreads = name === "TreeHash" && { threads: 0 };
      const stream = vulfsjor[`${one}Stream`](sources[one](), { ...options, ...byThreads, onProgress });
      assert.equal(hex(await stream), all);
      assertMemoriesAreWiped(name);
      if (!byThreads) return;
      assert.equal(hex(await treeRootStream(handle, { ...options, ...byThreads })), all);
      const leaves = treeLeaves(message, { leafLength: options.leafLength, first: 0, ends: true });
      assert.equal(hex(treeRootOfLeaves(leaves, options)), first);
    });
    assert.equal(counts.at(-1)[0], SIZE + 1000);
  }
  await t.test("blake2bMany, updateMany, treeRootOfLeaves, equal", () => {
    assert.equal(hex(vulfsjor.blake2bMany([tail, message], short)[1]), WANTED[0][2]);
    const runs = [new vulfsjor.Blake2b(), new vulfsjor.Blake2b(short)];
    vulfsjor.Blake2b.updateMany(runs, [tail, message]);
    vulfsjor.Blake2b.updateMany(runs, [tail, tail]);
    assert.equal(runs[1].hex(), WANTED[0][3]);
    assert.equal(hex(treeRootOfLeaves(message, treeOf(5))), ROOT);
    assertMemoriesAreWiped();
    const other = sparseMessage();
    assert.equal(equal(message, other), true);
    other[SIZE - 1] ^= 1;
    assert.equal(equal(message, other), false);
  });
});
