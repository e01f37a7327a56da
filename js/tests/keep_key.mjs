// Makes calls under a random key, forgets the key, and waits so that its memory can be looked at:
//
//   node tests/keep_key.mjs FORM      writes a line, the key with each byte xored with 0x5a
//
// A form is an action, or an action and a function or class: "digest of Blake2b".
import assert from "node:assert/strict";
import { openSync, readSync, writeSync } from "node:fs";
import * as vulfsjor from "../index.js";

const { Blake2xb, InvalidTagError, blake2bMany, deriveKey, utf8 } = vulfsjor;
const form = process.argv[2];
const [action, name] = form.split(" of ");
const call = vulfsjor[name];
// outside of the heap, whose collector moves what is in it and leaves copies; except where the form says so
const inHeap = action.endsWith("in the heap");
const length = /2s/.test(name) ? 32 : 64;
const newKey = () => (inHeap ? new Uint8Array(length) : new Uint8Array(new ArrayBuffer(length)));
let key = newKey();
const drawn = new Uint8Array(new ArrayBuffer(length));
const tag = new Uint8Array(key.length);
const short = utf8("a short message");
const long = new Uint8Array(1000).fill(3);
const forBothLengths = (end) => [short, long].forEach((message) => end(new call({ key }).update(message)));
const actions = {
  "a key that is not forgotten": () => {},
  "one call": () => [short, long].forEach((message) => call(message, { key })),
  "one call in the heap": () => call(short, { key }),
  "digest in the heap": () => new call({ key }).update(short).digest(),
  "blake2bMany": () => blake2bMany([short, long, long, long, long], { key }),
  "digest": () => forBothLengths((run) => run.digest()),
  "empty digest": () => new call({ key }).digest(),
  "verify": () => forBothLengths((run) => assert.throws(() => run.verify(tag), InvalidTagError)),
  "copy and reset": () => {
    const run = new call({ key });
    run.update(long).copy().update(short).digest();
    run.reset().update(short).digest();
  },
  "updateMany": () => {
    const runs = [short, long, short].map(() => new call({ key }));
    call.updateMany(runs, [short, long, new Uint8Array(100_000)]);
    runs.forEach((run) => run.digest());
  },
  "read and wipe": () => {
    const output = new Blake2xb({ key });
    const copy = output.copy().update(short);
    copy.read(9);
    [output, copy].forEach((each) => each.wipe());
  },
  "deriveKey": () => deriveKey(key, short, 9),
  "wipe": () => new call({ key }).update(long).wipe(),
  "dropped": () => {
    (() => new call({ key }))();
  },
};
const random = openSync("/dev/urandom");
// often enough that the engine compiles it anew, with other code and other places
for (let i = 0; i < (inHeap ? 20 : 3000); i++) {
  if (inHeap) key = newKey(); // one that no call has seen before
  // node's own readSync would move a key out of the heap
  readSync(random, drawn);
  key.set(drawn);
  drawn.fill(0);
  actions[action]();
}
const masked = Buffer.from(key.map((byte) => byte ^ 0x5a));
writeSync(1, masked.toString("hex") + "\n");
if (action !== "a key that is not forgotten") key.fill(0);
if (action === "dropped") {
  const { collect } = await import("./common.mjs");
  for (let i = 0; i < 5; i++) {
    collect();
    await new Promise((resolve) => setTimeout(resolve, 20));
  }
}
process.stdin.on("data", () => process.exit());
writeSync(1, "ready\n");
