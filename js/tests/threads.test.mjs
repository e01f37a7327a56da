// The root of a tree by workers of node, and of browsers, in the place of which stands a class; and what happens if a
// worker fails or a call is stopped. The digests of leaves are in conformance.test.mjs.
import assert from "node:assert/strict";
import { randomBytes } from "node:crypto";
import { EventEmitter } from "node:events";
import { open, truncate } from "node:fs/promises";
import os from "node:os";
import test, { after } from "node:test";
import { setTimeout as sleep } from "node:timers/promises";
import workerThreads from "node:worker_threads";
import { blake2b, blake2bStream, hex, treeLeaves, treeRoot, treeRootOfLeaves, treeRootStream, utf8 } from "../index.js";
import { processorCount } from "../src/platform.js";
import { digestsOfRange } from "../src/ranges.js";
import { collect, newOpenFile, withReplacedProperties } from "./common.mjs";

const MESSAGE = new Uint8Array(randomBytes(9_000_001));
const SALT = utf8("a salt");
const RANGE = 4 * 1024 * 1024;
const LEAF = { leafLength: 65536 };
const ROOT = hex(treeRoot(MESSAGE, LEAF));
const fault = new Error("enough");
// The last leaves of a message, and their digests.
const PART = MESSAGE.slice(700, 1700);
const PLACE = { settings: { leafLength: 100, salt: SALT, personalization: SALT }, range: { first: 5n, ends: true } };
const DIGESTS = treeLeaves(PART, { ...PLACE.settings, first: 5, ends: true });

const blob = () => new Blob([MESSAGE]);
const rootByThreads = async (source, options) =>
  hex(await treeRootStream(source, { threads: 3, onFallback(cause) { throw cause; }, ...LEAF, ...options }));
async function* piecesOf(message) {
  for (let at = 0; at < message.length; at += 777_777) yield message.subarray(at, at + 777_777);
}

// Runs the work with another class instead of node's Worker.
const withWorkers = (Class, work) => withReplacedProperties(workerThreads, { Worker: Class }, work);

// Runs the work as a browser would, whose Worker is this class, on a number of processors.
const asInBrowser = (Worker, hardwareConcurrency, work) =>
  withReplacedProperties(process, { getBuiltinModule: () => undefined }, () =>
    withReplacedProperties(globalThis, { Worker, navigator: { hardwareConcurrency } }, work));

// Waits until workers have exited. One that is left is an error, and ends the process at the end.
const waitUntilWorkersExit = (begun) => Promise.race([Promise.all(begun), new Promise((_, reject) =>
  setTimeout(reject, 20_000, new Error("a worker is left")).unref())]);
after(() => setTimeout(() => process.exit(1), 20_000).unref());

// Workers of node that note in a list when they have exited.
const countedWorkers = (begun = [], make = (...words) => words) => class extends workerThreads.Worker {
  constructor(...words) {
    super(...make(...words));
    begun.push(new Promise((resolve) => this.on("exit", resolve)));
  }
};

// The same, which run this program instead.
const workersRunningProgram = (program, begun) => countedWorkers(begun, () => [program, { eval: true }]);

// A worker of node that has started, and only does what postMessage of a class of it does.
class StartedWorker extends EventEmitter {
  constructor() {
    super();
    setImmediate(() => this.emit("message", "ready"));
  }
  terminate() {}
}

// A worker of a browser that starts, unless it is told to fail, and then does what work() does.
class FakeBrowserWorker {
  static made = [];
  static failing = () => undefined;
  constructor(url, options) {
    this.url = String(url);
    FakeBrowserWorker.made.push([this.url, options]);
    const fault = FakeBrowserWorker.failing(String(url));
    if (fault instanceof Error) throw fault;
    setImmediate(() => (fault ? this.onerror(fault) : this.onmessage({ data: "ready" })));
  }
  async postMessage({ settings, range, blob, message, module }) {
    assert.ok(module instanceof WebAssembly.Module);
    const bytes = message ?? new Uint8Array(await blob.arrayBuffer());
    this.onmessage({ data: treeLeaves(bytes, { ...settings, ...range }) });
  }
  terminate() { FakeBrowserWorker.made.push("stopped"); }
}

// A file of node that has this many bytes, or says so.
const fakeFileOf = (size, more) => ({ fd: 3, stat: async () => ({ isFile: () => true, size }), ...more });

test("the root by threads is that of one, by as many workers as there are ranges, which are stopped", async (t) => {
  const { path, file } = await newOpenFile(t, MESSAGE);
  await file.read(new Uint8Array(7)); // its position does not matter
  const sorted = (numbers) => [...numbers].sort((a, b) => a - b);
  for (const [i, [length, leafLength, threads, ...all]] of [
    [9_000_001, 65536, 200, RANGE, RANGE, 611_393], [9_000_001, 1000, 2, 4_192_000, 4_192_000, 616_001],
    [9_000_001, 100_003, 2, 4_000_120, 4_000_120, 999_761],
    [9_000_001, 5_000_000, 3, 5_000_000, 4_000_001], // a range is a leaf that is longer, or all if the end is known
    [9_000_001, 3_000_000, 3, 9_000_001],
    [9_000_001, 2 ** 26, 3, 9_000_001], [9_000_001, 2 ** 26 + 1, 3], [9_000_001, 2 ** 32 - 1, 3],
    [9_000_001, 65536, 1], [9_000_001, 65536, undefined], [2 * RANGE, 65536, 2, RANGE, RANGE],
    [RANGE + 1, 65536, 2, RANGE, 1], [RANGE, 65536, 3, RANGE], [1, 65536, 3, 1], [1, 65536, 1], [0, 5, 3, 0],
    [0, 65536, 1],
  ].entries()) {
    const message = MESSAGE.subarray(0, length);
    await truncate(path, length);
    const options = { leafLength, salt: SALT, personalization: utf8("p"), digestLength: 40 };
    const other = [() => new Blob([message]), piecesOf, () => new Blob([message]).stream()][i % 3](message);
    for (const [source, total] of [[other, i % 3 === 0 ? length : undefined], [file, length]]) {
      const ranges = source === file && leafLength === 5_000_000 ? [length] : all;
      const [begun, counts, jobs] = [[], [], []];
      const Class = class extends countedWorkers(begun) {
        postMessage(job, ...more) {
          super.postMessage(job, ...more);
          jobs.push(job);
        }
      };
      const onProgress = (...both) => counts.push(both);
      const root = await withWorkers(Class, () => rootByThreads(source, { ...options, threads, onProgress }));
      assert.equal(root, hex(treeRoot(message, options)), `${length} ${leafLength}`);
      assert.equal(begun.length, Math.min(ranges.length, threads ?? 1), `${length} ${leafLength}`);
      await waitUntilWorkersExit(begun);
      assert.deepEqual(counts.at(-1) ?? [0, total], [length, total]);
      if (ranges.length === 0) continue;
      assert.deepEqual(sorted(counts.map(([at], i) => at - (counts[i - 1]?.[0] ?? 0))), sorted(ranges));
      jobs.sort((a, b) => a.file?.at - b.file?.at); // a worker is given its first when it has started
      assert.deepEqual(jobs.map(({ file, message }) => file ?? message.length), // bytes are transferred
        ranges.map((length, i) => (source === file
          ? { fd: file.fd, at: ranges.slice(0, i).reduce((sum, part) => sum + part, 0), length } : 0)));
    }
    assert.deepEqual(await blake2bStream(file), blake2b(message));
  }
});

test("workers use the module that is compiled here", async () => {
  const worker = new URL("../src/vulfsjor_worker.js", import.meta.url).href;
  const program = `globalThis.atob = () => { throw new Error("decoded again"); };
    import("${worker}");`;
  assert.equal(await withWorkers(workersRunningProgram(program), () => rootByThreads(blob())), ROOT);
});

test("a worker transfers its digests, and throws what fails there", async () => {
  const sent = [];
  let thrown;
  const ofWorker = { postMessage: (...words) => sent.push(words), onmessage: undefined };
  await withReplacedProperties(globalThis, ofWorker, async () => {
    await import("../src/vulfsjor_worker.js");
    const { onmessage } = globalThis;
    onmessage({ data: { ...PLACE, message: PART } });
    for (let left = 1000; sent.length < 2 && left > 0; left--) await sleep(1);
    await withReplacedProperties(globalThis, { setTimeout: (work) => (thrown = work) }, async () => {
      onmessage({ data: { ...PLACE, blob: { arrayBuffer: () => Promise.reject(fault) } } });
      await new Promise((resolve) => setImmediate(resolve));
    });
  });
  assert.deepEqual(sent, [["ready"], [DIGESTS, [DIGESTS.buffer]]]);
  assert.throws(thrown, fault);
});

test("a range is read where it is, past 4 GiB too", async (t) => {
  const { file } = await newOpenFile(t, MESSAGE);
  const far = 2 ** 32 + 7; // of a file that is almost all hole
  await file.write(PART, 0, PART.length, far);
  for (const source of [{ message: PART }, { blob: new Blob([PART]) }, ...[700, far].map((at) =>
    ({ file: { fd: file.fd, at, length: 1000 } }))]) {
    assert.deepEqual(await digestsOfRange({ ...PLACE, ...source }), DIGESTS);
  }
});

for (const [leafLength, leaves, ranges] of [[65536, 64, 40], [16, 65536, 8]]) {
  test(`two ranges for each worker are ahead of the first, of ${leaves} leaves, and all are in order`, async () => {
    const count = 3;
    const resultOf = (i) => new Uint8Array(64 * leaves).fill(i);
    const made = []; // references to the digests
    let kept = true;
    let sent = 0;
    const Class = class extends StartedWorker {
      async postMessage({ file, range }) {
        const i = Number(range.first) / leaves;
        assert.equal(file.length, leafLength * leaves);
        sent++;
        for (let left = 2000; i === 0 && sent < 2 * count && left > 0; left--) await sleep(1);
        await sleep(i === 0 ? 20 : (7 * i) % 4);
        if (i === 0) assert.equal(sent, 2 * count);
        for (let left = 50; i === ranges - 1 && kept && left > 0; left--) {
          collect();
          kept = made[0].deref() !== undefined; // which itself keeps it until the next turn
          await sleep(1);
        }
        const digests = resultOf(i);
        made[i] = new WeakRef(digests);
        this.emit("message", digests);
      }
    };
    const file = fakeFileOf(ranges * leaves * leafLength);
    const root = await withWorkers(Class, () => rootByThreads(file, { leafLength, threads: count }));
    const all = Buffer.concat(Array.from({ length: ranges }, (_, i) => resultOf(i)));
    assert.equal(root, hex(treeRootOfLeaves(all, { leafLength })));
    assert.equal(kept, false); // once the root has them
  });
}

test("past 4 GiB each part of a file is read where it is", async () => {
  const size = 2 ** 32 + 3 * RANGE + 5;
  // by workers, which answer with zeros
  const jobs = [];
  const Class = class extends StartedWorker {
    postMessage({ file, range }) {
      jobs.push([file.at, file.length, range.first, range.ends]);
      const digests = new Uint8Array(64 * Math.ceil(file.length / 65536));
      setImmediate(() => this.emit("message", digests));
    }
  };
  const handle = fakeFileOf(size);
  await withWorkers(Class, () => rootByThreads(handle));
  const whole = Math.floor(size / RANGE);
  assert.deepEqual(jobs.sort((a, b) => a[0] - b[0]), Array.from({ length: whole + 1 }, (_, i) => [
    i * RANGE, i < whole ? RANGE : 5, BigInt(i * RANGE) / 65536n, i === whole]));
  // by this thread, from a file that says it has read 4 GiB at once
  const places = [];
  handle.read = async (bytes, offset, length, at) => {
    places.push([offset, length, at]);
    const from = places.length * 1000;
    bytes.set(MESSAGE.subarray(from, from + Math.min(length, 1000)));
    return { bytesRead: places.length === 1 ? 2 ** 32 + 3 * RANGE - 10 : Math.min(length, 10) };
  };
  const counts = [];
  const digest = await blake2bStream(handle, { onProgress: (count) => counts.push(count) });
  assert.deepEqual(places, [[0, RANGE, 0], [0, 15, size - 15], [0, 5, size - 5]]);
  const read = new Uint8Array(RANGE + 15);
  read.set(MESSAGE.subarray(1000, 2000));
  read.set(MESSAGE.subarray(2000, 2010), RANGE);
  read.set(MESSAGE.subarray(3000, 3005), RANGE + 10);
  assert.deepEqual(digest, blake2b(read));
  assert.deepEqual(counts, [RANGE, RANGE + 10, RANGE + 15]);
});

test("a file that ends early, is closed or is a folder is refused", async (t) => {
  const { folder, file } = await newOpenFile(t, MESSAGE);
  const same = { fd: file.fd, read: (...words) => file.read(...words) };
  const longer = fakeFileOf(MESSAGE.length + 5, same);
  const silent = fakeFileOf(0, same); // as in /proc
  const end = `the file ends at byte ${MESSAGE.length}`;
  const rejects = (source, threads, error) => assert.rejects(treeRootStream(source, { ...LEAF, threads }), error);
  await rejects(longer, 2, { message: `treeRootStream: a worker failed: ${end}` });
  await rejects(longer, 1, { message: `treeRootStream: ${end}` });
  for (const threads of [1, 3]) {
    await rejects(silent, threads, { name: "TypeError", message: /has bytes and the length 0/ });
    const other = await open(folder);
    const message = "treeRootStream: source must be a regular file";
    await rejects(other, threads, { name: "TypeError", message });
    await other.close();
    await rejects(other, threads, { code: "EBADF" });
  }
  await assert.rejects(rootByThreads(file, { signal: AbortSignal.abort(fault) }), fault);
});

test("threads 0 means all processors, and 256 at most, or one if nobody says how many there are", async () => {
  const onProcessors = (count, work) => withReplacedProperties(os, { availableParallelism: () => count }, work);
  for (const [processors, count] of [[1, 0], [2, 2]]) {
    const begun = [];
    const call = () => withWorkers(countedWorkers(begun), () => rootByThreads(blob(), { threads: 0 }));
    assert.equal(await onProcessors(processors, call), ROOT);
    assert.equal(begun.length, count);
  }
  for (const processors of [255, 256, 257]) {
    assert.equal(onProcessors(processors, processorCount), Math.min(processors, 256));
  }
  for (const [processors, count] of [[3, 3], [300, 256], [undefined, 1]]) {
    assert.equal(asInBrowser(undefined, processors, processorCount), count);
  }
});

test("where a text cannot be started a file is, or else the calling thread hashes; blobs are read there", async (t) => {
  t.after(() => (FakeBrowserWorker.failing = () => undefined));
  const released = [];
  const { revokeObjectURL } = URL;
  const release = (url) => {
    released.push(url);
    revokeObjectURL(url);
  };
  const file = [new URL("../src/vulfsjor_worker.js", import.meta.url).href, { type: "module" }];
  const thrown = new Error("refused");
  const isText = (url) => url.startsWith("blob:");
  const held = []; // the addresses of texts that workers still hold when they work
  const jobs = [];
  const Class = class extends FakeBrowserWorker {
    postMessage(job, transferred) {
      jobs.push([job.blob?.size ?? job.message.length, transferred.length]);
      if (isText(this.url) && !released.includes(this.url)) held.push(this.url);
      return super.postMessage(job);
    }
  };
  for (const [failing, cause, made] of [
    [() => undefined, undefined, ["text", "stopped"]],
    [(url) => isText(url) && {}, undefined, ["text", "stopped", "file", "stopped"]],
    [(url) => (isText(url) ? thrown : undefined), undefined, ["text", "file", "stopped"]],
    [(url) => (isText(url) ? thrown : { message: "no file" }), "no file", ["text", "file", "stopped"]],
    [(url) => (isText(url) ? {} : thrown), "refused", ["text", "stopped", "file"]],
    [() => ({}), "it could not be started", ["text", "stopped", "file", "stopped"]],
  ]) {
    FakeBrowserWorker.failing = failing;
    for (const source of [blob(), piecesOf(MESSAGE)]) {
      FakeBrowserWorker.made.length = jobs.length = released.length = 0;
      const [causes, counts] = [[], []];
      const options = { threads: 2, onFallback: (...words) => causes.push(words), onProgress: (at) => counts.push(at) };
      const root = await withReplacedProperties(URL, { revokeObjectURL: release }, () =>
        asInBrowser(Class, 4, () => rootByThreads(source, options)));
      assert.equal(root, ROOT);
      // of the two workers only the first calls onFallback, and each is started once
      assert.deepEqual(causes.map(([fault, ...more]) => [fault.message, ...more]),
        cause === undefined ? [] : [[cause]]);
      assert.deepEqual(FakeBrowserWorker.made.map((entry) =>
        (entry === "stopped" ? entry : isText(entry[0]) ? "text" : "file")).sort(), [...made, ...made].sort());
      assert.deepEqual(FakeBrowserWorker.made.filter(([url]) => url === file[0]),
        Array(2 * made.includes("file")).fill(file));
      assert.equal(new Set(released).size, 2);
      assert.deepEqual(held, []);
      assert.deepEqual(jobs.sort((a, b) => a[0] - b[0]), cause ? [] : [MESSAGE.length - 2 * RANGE, RANGE, RANGE]
        .map((length) => [length, source instanceof Blob ? 0 : 1])); // slices of a blob, or bytes
      assert.deepEqual([counts.length, counts.at(-1)], [3, MESSAGE.length]);
    }
  }
});

test("on the calling thread an abort comes through between ranges, and nothing is counted after it", async (t) => {
  FakeBrowserWorker.failing = () => fault;
  t.after(() => (FakeBrowserWorker.failing = () => undefined));
  const call = (source, more) => asInBrowser(FakeBrowserWorker, 4,
    () => rootByThreads(source, { threads: 2, onFallback() {}, ...more }));
  const control = new AbortController();
  const long = (async function* () { for (let i = 0; i < 9; i++) yield MESSAGE; })();
  const onProgress = () => setTimeout(() => control.abort(fault));
  await withReplacedProperties(globalThis, { setImmediate: undefined }, () => // a browser has none
    assert.rejects(call(long, { signal: control.signal, onProgress }), fault));
  // whatever was being read then
  const [late, counts] = [new AbortController(), []];
  const slow = new Blob([MESSAGE]);
  slow.slice = (from, to) => ({
    async arrayBuffer() {
      late.abort(fault);
      await sleep(1);
      return new ArrayBuffer(to - from);
    },
  });
  await assert.rejects(call(slow, { signal: late.signal, onProgress: (count) => counts.push(count) }), fault);
  await sleep(20);
  assert.deepEqual(counts, []);
});

// A source that is longer than a call reads before it is stopped, and notes the reason when it is canceled.
function endlessSource() {
  const source = { isLetGo: false };
  let left = 100;
  source.stream = new ReadableStream({
    pull: (controller) => (left-- > 0 ? controller.enqueue(new Uint8Array(1_000_000)) : controller.close()),
    cancel(reason) { source.isLetGo = reason ?? true; },
  });
  return source;
}

test("an abort, or progress that throws, ends it and stops the workers", async () => {
  for (const act of ["abort", "throw"]) {
    const [control, source, begun] = [new AbortController(), endlessSource(), []];
    let count = 0;
    const onProgress = () => {
      if (++count < 3) return;
      if (act === "throw") throw fault;
      control.abort(fault);
    };
    const options = { threads: 2, onProgress, signal: control.signal };
    await assert.rejects(withWorkers(countedWorkers(begun), () => rootByThreads(source.stream, options)), fault);
    assert.deepEqual([source.isLetGo, source.stream.locked, count, begun.length], [fault, false, 3, 2]);
    await waitUntilWorkersExit(begun);
  }
  const begun = [];
  const call = () => rootByThreads(endlessSource().stream, { leafLength: 1, signal: AbortSignal.abort(fault) });
  await assert.rejects(withWorkers(countedWorkers(begun), call), fault);
  assert.equal(begun.length, 0);
});

test("a worker that fails is an error, in node and in a browser, and nothing hangs", async () => {
  const begun = [];
  const started = (act) => [`const { parentPort } = require("node:worker_threads");
    parentPort.once("message", () => { ${act} });
    parentPort.postMessage("ready");`, { eval: true }];
  const Unreadable = class extends StartedWorker {
    constructor(program, words) {
      super();
      assert.match(program, /^"use strict";/);
      assert.deepEqual(words, { eval: true, execArgv: [] });
    }
    postMessage() { setImmediate(() => this.emit("messageerror", new Error("cannot be read"))); }
  };
  const inNode = (Class, source = blob()) => () => withWorkers(Class, () => rootByThreads(source, { threads: 2 }));
  const reporting = (event, value) => () => asInBrowser(class extends FakeBrowserWorker {
    postMessage() { setImmediate(() => this[`on${event}`](value)); }
  }, 4, () => rootByThreads(blob(), { threads: 2 }));
  const doing = (act, source) => inNode(countedWorkers(begun, () => started(act)), source);
  let number = 0;
  const stalled = (async function* () {
    yield MESSAGE;
    await new Promise(() => setTimeout(() => {}, 1e6).unref());
  })();
  for (const [call, cause, stopped = []] of [
    [inNode(Unreadable), "cannot be read"],
    [reporting("messageerror", {}), "its result could not be read", Array(2).fill("stopped")],
    [reporting("error", {}), "it could not be started", Array(2).fill("stopped")],
    [reporting("error", { message: "no" }), "no", Array(2).fill("stopped")],
    [doing('throw new Error("nothing here")', endlessSource().stream), "nothing here"],
    [doing('throw "a thing"'), "a thing"], [doing("process.exit(3)", new Blob([])), "it exited with code 3"],
    [doing("process.exit(0)", endlessSource().stream), "it exited with code 0"],
    // one of several, and a source that stalls
    [inNode(countedWorkers([], (...words) => (++number === 2 ? started("process.exit(3)") : words)), stalled),
      "it exited with code 3"],
  ]) {
    FakeBrowserWorker.made.length = 0;
    await assert.rejects(call, { name: "Error", message: `treeRootStream: a worker failed: ${cause}` });
    assert.deepEqual(FakeBrowserWorker.made.splice(2), stopped);
    await waitUntilWorkersExit(begun);
  }
});

test("in node, too, the calling thread hashes what no worker can be started for", async (t) => {
  const { file } = await newOpenFile(t, MESSAGE);
  const begun = [];
  let number = 0;
  const refusing = class { constructor() { throw new Error("no room"); } };
  for (const [Class, source, cause] of [
    [workersRunningProgram('throw new Error("nothing here")', begun), file, "nothing here"],
    [workersRunningProgram("process.exit(3)", begun), blob(), "it exited with code 3"],
    [workersRunningProgram("", begun), piecesOf(MESSAGE), "it exited with code 0"], [refusing, file, "no room"],
    [refusing, piecesOf(MESSAGE), "no room"],
    // only one of two
    [countedWorkers(begun, (...words) => (++number % 2 === 0 ? ["process.exit(3)", { eval: true }] : words)), file,
      "it exited with code 3"],
  ]) {
    const causes = [];
    const onFallback = (fault) => causes.push(fault.message);
    assert.equal(await withWorkers(Class, () => rootByThreads(source, { threads: 2, onFallback })), ROOT);
    assert.deepEqual(causes, [cause]);
  }
  await waitUntilWorkersExit(begun);
  // without a function to call, and with one that throws
  const call = (source, more) =>
    withWorkers(refusing, () => rootByThreads(source, { threads: 2, onFallback() {}, ...more }));
  assert.equal(await call(file, { onFallback: undefined }), ROOT);
  await assert.rejects(call(file, { onFallback() { throw fault; } }), fault);
  // the file's errors are those of the call
  await assert.rejects(call(fakeFileOf(MESSAGE.length + 5, { fd: file.fd })),
    { message: `the file ends at byte ${MESSAGE.length}` });
});
