// Hashes of blobs, streams, files and iterables, sources that were read or are no bytes, and hashes of what is piped,
// in streams of the web and of node.
import assert from "node:assert/strict";
import { createHash, randomBytes } from "node:crypto";
import { getEventListeners, once } from "node:events";
import { createReadStream, createWriteStream, openAsBlob, readFileSync } from "node:fs";
import { createInterface } from "node:readline";
import { Duplex, PassThrough, Readable, Writable } from "node:stream";
import { finished, pipeline } from "node:stream/promises";
import test from "node:test";
import { setTimeout as sleep } from "node:timers/promises";
import {
  Blake2b, Blake2bp, Blake2s, Blake2sp, TreeHash, blake2b, blake2bStream, blake2bp, blake2bpStream, blake2s,
  blake2sStream, blake2sp, blake2spStream, hashTransform, hashWritable, treeRoot, treeRootStream, utf8,
} from "../index.js";
import { hexOf, recordStatesWritten, newOpenFile, serve, withReplacedProperties } from "./common.mjs";

const SLICE = 4_194_304;
const MESSAGE = new Uint8Array(randomBytes(4_300_000)); // two slices of a blob
const BODY = utf8("user=admin");
const KEY = utf8("a key");
const WANTED = hexOf(blake2b(MESSAGE));
const PART = MESSAGE.subarray(0, 200_000); // which pipes have
const READ = { name: "TypeError", message: "blake2bStream: source was already read, or something else is reading it" };
const IS_OF_TEXT = { name: "TypeError", message: /: chunk must be a Uint8Array, .*, not a string/ };
const fault = new Error("enough");

function* piecesOf(size) {
  for (let at = 0; at < MESSAGE.length; at += size) yield MESSAGE.subarray(at, at + size);
}
const nodeStream = () => Readable.from(piecesOf(70_000), { objectMode: false });
const webStream = () => new Blob([MESSAGE]).stream();
const textStream = () => ReadableStream.from(["text"]);
const throwing = { onProgress() { throw fault; } };
const streamOfPart = () => new Blob([PART]).stream();

test("a source of any kind has one digest", async (t) => {
  const { path, file: handle } = await newOpenFile(t, MESSAGE);
  const file = { // whose numbers are bigints
    fd: handle.fd, read: (...words) => handle.read(...words), stat: () => handle.stat({ bigint: true }),
  };
  const pieces = [MESSAGE.subarray(0, 9), MESSAGE.subarray(9).slice().buffer];
  const again = { async* [Symbol.asyncIterator]() { yield* pieces; } };
  const piped = nodeStream();
  const other = new Response(MESSAGE);
  const sources = [
    new Blob([MESSAGE]), new Response(MESSAGE).body, ReadableStream.from(piecesOf(70_000)), createReadStream(path),
    (async function* () { yield* piecesOf(12_345); })(), piecesOf(1_000_000), ...webStream().tee(), other.clone().body,
    other.body, pieces, pieces, new Set(pieces), again, again, { [Symbol.iterator]: () => piecesOf(1_000_000) },
    handle, file, piped, piped.pipe(new PassThrough()), // listeners to data and pipes take nothing from each other
    await openAsBlob(path),
  ];
  const digests = await Promise.all(sources.map((source) => blake2bStream(source)));
  assert.deepEqual(digests.map(hexOf), sources.map(() => WANTED));
  const blob = new Blob([MESSAGE]);
  for (const [stream, one] of [[blake2sStream, blake2s], [blake2bpStream, blake2bp], [blake2spStream, blake2sp]]) {
    assert.deepEqual(await stream(blob, { salt: KEY, key: KEY }), one(MESSAGE, { salt: KEY, key: KEY }));
  }
  const options = { leafLength: 65536, digestLength: 20, personalization: KEY };
  const root = treeRoot(MESSAGE, options);
  for (const source of [blob, piecesOf(1_000_000)]) assert.deepEqual(await treeRootStream(source, options), root);
  for (const source of [file, piecesOf(1_000_000)]) {
    assert.deepEqual(await treeRootStream(source, { ...options, threads: 2 }), root);
  }
  for (const empty of [new Blob([]), ReadableStream.from([]), []]) {
    assert.equal(hexOf(await blake2bStream(empty)), createHash("blake2b512").digest("hex"));
  }
});

test("progress counts up to the end", async (t) => {
  const known = [[SLICE, 4_300_000], [4_300_000, 4_300_000]];
  const unknown = [[2_000_000, undefined], [4_000_000, undefined], [4_300_000, undefined]];
  const { file } = await newOpenFile(t, MESSAGE);
  for (const [source, wanted] of [
    [new Blob([MESSAGE]), known], [file, known], [new Blob([MESSAGE.subarray(0, SLICE)]), [[SLICE, SLICE]]],
    [piecesOf(2_000_000), unknown], [ReadableStream.from(piecesOf(2_000_000)), unknown],
    [(async function* () { yield* piecesOf(2_000_000); })(), unknown],
  ]) {
    const counts = [];
    await blake2bStream(source, { onProgress: (...both) => counts.push(both) });
    assert.deepEqual(counts, wanted);
  }
});

test("what fails rejects, and the source is released", async () => {
  const reasons = [];
  const cancel = (why) => { reasons.push(why); };
  const endings = [];
  function* counted() {
    try {
      yield* piecesOf(1000);
    } finally {
      endings.push("ended");
    }
  }
  const start = (controller) => { for (const piece of piecesOf(1000)) controller.enqueue(piece); };
  const [thrown, early] = [new ReadableStream({ start, cancel }), new ReadableStream({ start, cancel })];
  const late = new AbortController();
  setTimeout(() => late.abort(fault), 20);
  const second = new AbortController();
  let count = 0;
  for (const [source, options, error] of [
    [thrown, throwing, fault], [new ReadableStream({ pull() { throw fault; } }), {}, fault],
    [(async function* () { throw fault; })(), {}, fault], [counted(), throwing, fault],
    [(async function* () { yield* counted(); })(), throwing, fault],
    [textStream(), {}, { name: "TypeError", message: "blake2bStream: chunk must be a Uint8Array, another view or an " +
      "ArrayBuffer, not a string (utf8() encodes a string)" }],
    // by an abort, before and on the way
    [new Blob([MESSAGE]), { signal: AbortSignal.abort() }, { name: "AbortError" }],
    [early, { signal: AbortSignal.abort(fault) }, fault], [[], { signal: AbortSignal.abort(fault) }, fault],
    [new ReadableStream({ cancel }), { signal: late.signal }, fault],
    [piecesOf(1000), { signal: second.signal, onProgress: () => ++count === 2 && second.abort(fault) }, fault],
  ]) {
    await assert.rejects(blake2bStream(source, options), error);
  }
  assert.deepEqual([reasons, thrown.locked, early.locked], [[undefined, fault, fault], false, false]);
  assert.deepEqual([endings.length, count], [2, 2]);
  // a signal that has only what the types call for
  const listeners = new Set();
  const signal = {
    aborted: false,
    addEventListener: (type, listener) => listeners.add(listener),
    removeEventListener: (type, listener) => listeners.delete(listener),
  };
  const onProgress = () => listeners.forEach((listener) => listener());
  await assert.rejects(blake2bStream(new Blob([MESSAGE]), { signal, onProgress }), { name: "AbortError" });
  assert.equal(listeners.size, 0);
});

test("what fails after the first failure is not reported, and no listener is left", async (t) => {
  const unhandled = [];
  const note = (fault) => unhandled.push(fault);
  process.on("unhandledRejection", note);
  t.after(() => process.off("unhandledRejection", note));
  const blob = new Blob([MESSAGE]);
  const gone = { arrayBuffer: async () => { throw new Error("gone"); } };
  blob.slice = (from, to) => (from === 0 ? Blob.prototype.slice.call(blob, from, to) : gone);
  await assert.rejects(blake2bStream(blob, throwing), fault);
  await sleep(20);
  assert.deepEqual(unhandled, []);
  await assert.rejects(blake2bStream(blob), { message: "gone" });
  const { AbortController } = globalThis;
  const { signal } = new AbortController();
  const signals = [signal];
  await withReplacedProperties(globalThis, { AbortController: class extends AbortController {
    constructor() {
      super();
      signals.push(this.signal);
    }
  } }, async () => {
    await blake2bStream((async function* () { yield* piecesOf(1_000_000); })(), { signal });
    await assert.rejects(blake2bStream(textStream(), { signal }), TypeError);
  });
  await sleep(0);
  assert.deepEqual(signals.map((signal) => getEventListeners(signal, "abort").length), [0, 0, 0]);
});

test("an iterator that fails to end, or to go on, changes nothing", async () => {
  const iterable = (next) =>
    ({ [Symbol.asyncIterator]: () => ({ next, return() { throw new Error("the end"); } }) });
  await assert.rejects(blake2bStream(iterable(() => { throw fault; })), fault);
  await assert.rejects(blake2bStream(iterable(() => ({ done: false, value: 5 }))), { name: "TypeError" });
  assert.deepEqual(await blake2bStream(iterable(() => ({ done: true }))), blake2b(new Uint8Array(0)));
  const control = new AbortController();
  const stalled = iterable(() => new Promise(() => setTimeout(() => control.abort(fault), 20)));
  await assert.rejects(blake2bStream(stalled, { signal: control.signal }), fault);
});

test("key and salt are those of the call, and a stream under a key that fails leaves no state", async (t) => {
  const { file } = await newOpenFile(t, MESSAGE);
  const options = { leafLength: 4096, digestLength: 20 };
  const [key, salt] = [KEY.slice(), KEY.slice()];
  const tags = [new Blob([MESSAGE]), file].map((source) => blake2bStream(source, { key }));
  const roots = [1, 2].map((threads) =>
    treeRootStream(file, { ...options, salt, personalization: salt, threads }));
  [key, salt].forEach((bytes) => bytes.fill(0));
  const tag = blake2b(MESSAGE, { key: KEY });
  const root = treeRoot(MESSAGE, { ...options, salt: KEY, personalization: KEY });
  assert.deepEqual(await Promise.all([...tags, ...roots]), [tag, tag, root, root]);
  const states = new Set();
  const call = async () => blake2bStream([MESSAGE.subarray(0, 9), "text"], { key: KEY });
  await assert.rejects(recordStatesWritten(states, call), TypeError);
  assert.ok(states.size > 0);
  for (const state of states) assert.ok(state.every((byte) => byte === 0));
});

// What a handler does with an upload.
async function answerToUpload(t, handler) {
  let answer;
  const url = await serve(t, (path, request) => (answer = handler(request)).then(() => "", () => ""));
  await fetch(url, { method: "POST", body: BODY }).then((response) => response.text());
  return answer;
}

test("an upload that a parser has read is refused", async (t) => {
  for (const parse of [
    async (request) => { for await (const chunk of request) request.body = chunk; },
    async (request) => { // by events, as older parsers do it
      request.on("data", () => {});
      await once(request, "end");
    },
  ]) {
    await assert.rejects(answerToUpload(t, (request) => parse(request).then(() => blake2bStream(request))), READ);
  }
  assert.deepEqual(await answerToUpload(t, (request) => blake2bStream(request)), blake2b(BODY));
});

test("the rest of a stream is not its digest", async () => {
  for (const [make, read] of [
    [nodeStream, async (source) => {
      await once(source, "readable");
      source.read(10);
    }],
    [nodeStream, async (source) => {
      for await (const chunk of source.iterator({ destroyOnReturn: false })) return assert.ok(chunk.length > 0);
    }],
    [nodeStream, (source) => source.destroy()],
    [webStream, async (source) => {
      const reader = source.getReader();
      await assert.rejects(blake2bStream(source), READ); // it is locked
      await reader.read();
      reader.releaseLock();
    }],
    [webStream, async (source) => { for await (const chunk of source) assert.ok(chunk.length > 0); }],
    [webStream, (source) => source.cancel()],
    [() => new Response(BODY), (response) => response.text()], [() => piecesOf(SLICE), blake2bStream],
  ]) {
    const source = make();
    const { body = source } = source;
    await read(source);
    await assert.rejects(blake2bStream(body), READ);
    if (source === body) continue;
    const message = /not an instance of Response; its body was already read$/;
    await assert.rejects(blake2bStream(source), { name: "TypeError", message });
  }
});

test("of two readers of a stream one is refused", async () => {
  for (const make of [nodeStream, webStream, async function* () { yield MESSAGE; }]) {
    const source = make();
    const [first, second] = await Promise.allSettled([blake2bStream(source), blake2bStream(source)]);
    assert.equal(hexOf(first.value), WANTED);
    assert.equal(second.reason.message, READ.message);
    await assert.rejects(blake2bStream(source), READ); // afterwards too
    await assert.rejects(treeRootStream(source, { leafLength: 5, threads: 2 }),
      { message: READ.message.replace("blake2bStream", "treeRootStream") });
  }
  // a reader that has begun and has read nothing yet
  const source = new PassThrough();
  const waiting = source[Symbol.asyncIterator]().next();
  await assert.rejects(blake2bStream(source), READ);
  source.end(BODY);
  assert.equal((await waiting).value.length, BODY.length);
  // one that begins later
  const later = new PassThrough();
  const digest = blake2bStream(later);
  digest.catch(() => {});
  later.write(BODY);
  await sleep(5);
  later[Symbol.asyncIterator]().next().catch(() => {});
  later.write(BODY);
  await sleep(5);
  later.end(BODY);
  await assert.rejects(digest, READ);
});

test("a stream of text is refused, whatever made it one, and other iterables of no bytes", async (t) => {
  const { path, file } = await newOpenFile(t, MESSAGE);
  for (const make of [
    () => createReadStream(path, "utf8"), () => createReadStream(path).setEncoding("hex"),
    () => createInterface({ input: createReadStream(path) }), () => file.readLines({ autoClose: false }),
    () => Readable.from("text"), () => Readable.from(["text"]),
    () => new PassThrough({ encoding: "latin1" }).end(BODY),
    () => new Blob([BODY]).stream().pipeThrough(new TextDecoderStream()), () => ["text"],
  ]) {
    await assert.rejects(blake2bStream(make()), IS_OF_TEXT, `${make}`);
  }
  const form = new FormData();
  form.append("name", "text");
  for (const source of ["text", piecesOf, [1, 2], [Promise.resolve(BODY)], form, path]) {
    await assert.rejects(blake2bStream(source), { name: "TypeError", message: /must be a/ });
  }
});

test("a chunk that shrinks while workers hash it is refused, and no shorter message", async () => {
  for (let left = 0; left < 5 * SLICE; left += SLICE) {
    const chunk = new Uint8Array(new ArrayBuffer(5 * SLICE, { maxByteLength: 5 * SLICE }));
    const onProgress = () => chunk.length > left && chunk.buffer.resize(left);
    const root = treeRootStream([chunk], { leafLength: 65536, threads: 2, onProgress });
    await assert.rejects(root, RangeError, `${left} bytes are left`);
  }
});

const HELPERS = { hashTransform, hashWritable };

// Asserts that a hash has ended, so that nobody takes the digest of a part for that of all.
async function assertHashesHaveEnded(...hashes) {
  await sleep(5);
  for (const hash of hashes) assert.throws(() => hash.digest(), /^TypeError: Blake2b.digest: this hash has ended/);
}

test("streams of the web are hashed on the way, and passed on unchanged", async () => {
  const make = () => [
    new Blake2b(), new Blake2s({ key: BODY }), new TreeHash({ leafLength: 5 }), new Blake2bp(),
    new Blake2sp({ key: BODY }),
  ];
  const hashes = make();
  const last = new Blake2b();
  let stream = streamOfPart();
  for (const hash of hashes) stream = stream.pipeThrough(hashTransform(hash));
  const [one, two] = stream.tee();
  await Promise.all([
    one.pipeTo(hashWritable(last)),
    new Response(two).arrayBuffer().then((copy) => assert.deepEqual(new Uint8Array(copy), PART)),
  ]);
  assert.deepEqual(hashes.map((hash) => hash.hex()), make().map((hash) => hash.update(PART).hex()));
  assert.equal(last.hex(), hexOf(blake2b(PART)));
  const empty = new Blake2b();
  await new Blob([]).stream().pipeTo(hashWritable(empty));
  assert.equal(empty.hex(), new Blake2b().hex());
  // any bytes, which are passed on as they are
  const { readable, writable } = hashTransform(new Blake2b());
  const chunk = new Uint16Array([1]).buffer;
  writable.getWriter().write(chunk);
  assert.equal((await readable.getReader().read()).value, chunk);
});

test("streams of node are hashed on the way, by pipeline and by pipe, and those of text are refused", async (t) => {
  const { path: from } = await newOpenFile(t, PART);
  const to = `${from}.copy`;
  const hashes = [1, 2, 3, 4].map(() => new Blake2b());
  await pipeline(createReadStream(from), hashTransform(hashes[0]), createWriteStream(to));
  assert.deepEqual(new Uint8Array(readFileSync(to)), PART);
  await pipeline(createReadStream(from), hashWritable(hashes[1]));
  const options = { decodeStrings: false }; // as the pages say, for streams of text
  await finished(createReadStream(from).pipe(Duplex.fromWeb(hashTransform(hashes[2])))
    .pipe(Writable.fromWeb(hashWritable(hashes[3]), options)));
  assert.deepEqual(hashes.map((hash) => hash.hex()), Array(4).fill(hexOf(blake2b(PART))));
  const hash = new Blake2b({ key: BODY });
  await assert.rejects(pipeline(createReadStream(from, "latin1"), hashWritable(hash)), IS_OF_TEXT);
  await assertHashesHaveEnded(hash);
  for (const sink of [Writable.fromWeb(hashWritable(new Blake2b()), options),
    Duplex.fromWeb(hashTransform(new Blake2b()), options).resume()]) {
    await assert.rejects(finished(createReadStream(from, "latin1").pipe(sink)), IS_OF_TEXT);
  }
});

test("no more is read than the other side takes", async () => {
  let count = 0;
  const pull = (controller) => (++count < 50 ? controller.enqueue(new Uint8Array(1000)) : controller.close());
  const source = new ReadableStream({ pull }, { highWaterMark: 0 });
  const reader = source.pipeThrough(hashTransform(new Blake2b())).getReader();
  await sleep(5);
  assert.equal(count, 1); // which waits until the other side reads
  for (let i = 0; i < 20; i++) await reader.read();
  await sleep(5);
  assert.equal(count, 21);
});

test("what fails on either side fails on the other, and ends the hash", async () => {
  for (const helper of [hashTransform, hashWritable]) {
    // the source, after a chunk was read, and while one waits to be read
    for (const isRead of [true, false]) {
      const hash = new Blake2b();
      const streams = helper(hash);
      const writer = (streams.writable ?? streams).getWriter();
      const reading = streams.readable?.getReader();
      writer.closed.catch(() => {});
      const read = isRead && reading?.read();
      const written = writer.write(PART);
      await Promise.race([read, sleep(5)]);
      await writer.abort(fault);
      await written;
      await assertHashesHaveEnded(hash);
      if (reading) await assert.rejects(reading.read(), fault);
    }
    // a chunk
    const hash = new Blake2b();
    const pair = helper(hash);
    const next = pair.readable?.getReader().read();
    next?.catch(() => {});
    const text = new Blob([BODY]).stream().pipeThrough(new TextDecoderStream());
    await assert.rejects(text.pipeTo(pair.writable ?? pair), {
      name: "TypeError", message: `${helper.name}: chunk must be a Uint8Array, another view or an ArrayBuffer, ` +
        "not a string (utf8() encodes a string)",
    });
    if (next) await assert.rejects(next, IS_OF_TEXT);
    await assertHashesHaveEnded(hash);
  }
  // the other side is canceled, at once or on the way: the source hears of it
  for (const count of [0, 1]) {
    const hash = new Blake2b();
    let [heard, left] = [undefined, 50];
    const source = new ReadableStream({
      pull: (controller) => (left-- > 0 ? controller.enqueue(PART) : controller.close()),
      cancel(reason) { heard = reason; },
    });
    const reader = source.pipeThrough(hashTransform(hash)).getReader();
    for (let i = 0; i < count; i++) await reader.read();
    await reader.cancel(fault);
    await assertHashesHaveEnded(hash);
    assert.equal(heard, fault);
  }
  // of node
  const hashes = Array.from({ length: 4 }, () => new Blake2b());
  const sink = new Writable({ write: (chunk, _, done) => done(fault) });
  await assert.rejects(pipeline(Readable.from([PART, PART]), hashTransform(hashes[0]), sink), fault);
  const source = new Readable({ read() { this.destroy(fault); } });
  await assert.rejects(pipeline(source, hashWritable(hashes[1])), fault);
  // by an abort
  const control = new AbortController();
  const { signal } = control;
  const pull = (to) => sleep(1).then(() => to.enqueue(new Uint8Array(1000)));
  const pipe = new ReadableStream({ pull }).pipeThrough(hashTransform(hashes[2]), { signal })
    .pipeTo(hashWritable(hashes[3]), { signal });
  setTimeout(() => control.abort(fault), 10);
  await assert.rejects(pipe, fault);
  await assertHashesHaveEnded(...hashes);
});

test("only hashes are accepted, and no options", () => {
  for (const [name, helper] of Object.entries(HELPERS)) {
    for (const [value, said] of [
      [undefined, "undefined"], [{}, "an object"], ["abc", "a string"], [null, "null"],
      [Object.create(Blake2b.prototype), "an instance of Blake2b"],
      [new Proxy(new Blake2b(), {}), "an instance of Blake2b"],
    ]) {
      const message = `${name}: hash must be a Blake2b, Blake2s, Blake2bp, Blake2sp or TreeHash, not ${said}`;
      assert.throws(() => helper(value), { name: "TypeError", message });
    }
    const message = `${name}: too many arguments, 2 instead of at most 1; options are those of the hash`;
    assert.throws(() => helper(new Blake2b(), {}), { name: "TypeError", message });
  }
});

test("stream.pipe() says what to call instead, and an ended hash absorbs no pipe", () => {
  const message = "stream.pipe() needs a stream of node: use pipeline(stream, hashWritable(hash)) of node:stream, " +
    "or blake2bStream(stream) and its like";
  for (const hash of [new Blake2b(), new Blake2sp(), new TreeHash({ leafLength: 5 })]) {
    for (const wrong of [hash, hashWritable(hash)]) {
      assert.throws(() => Readable.from([BODY]).pipe(wrong), { name: "TypeError", message });
    }
    assert.deepEqual(Object.keys(hash), []);
    const ended = hash.copy();
    ended.digest();
    for (const call of [hashWritable, hashTransform]) {
      assert.throws(() => call(ended), { name: "TypeError", message:
        `${call.name}: this hash has ended, by digest, hex, verify, wipe or a failed call` });
    }
  }
});

test("a hash with a pipe that has not ended is refused, and nothing is lost", async () => {
  const refuses = (hash) => {
    const message = "a pipe into this hash has not ended; wait for it first";
    for (const call of ["digest", "hex", "verify", "update", "reset"]) {
      assert.throws(() => hash[call](...(/^[uv]/.test(call) ? [BODY] : [])),
        { name: "TypeError", message: `Blake2b.${call}: ${message}` });
    }
    for (const [name, other] of Object.entries(HELPERS)) {
      assert.throws(() => other(hash), { name: "TypeError", message: `${name}: ${message}` });
    }
    assert.equal(hash.copy().digest().length, 64); // of what there is so far
  };
  for (const helper of [hashTransform, hashWritable]) {
    const hash = new Blake2b({ key: BODY });
    const pair = helper(hash);
    const piped = pair.readable === undefined
      ? streamOfPart().pipeTo(pair) : streamOfPart().pipeThrough(pair).pipeTo(new WritableStream());
    refuses(hash);
    await piped;
    assert.equal(hash.copy().hex(), hexOf(blake2b(PART, { key: BODY })));
    // of two pipes, one after the other, and pieces between them
    hash.update(BODY);
    await streamOfPart().pipeTo(hashWritable(hash));
    const wanted = new Blake2b({ key: BODY }).update(PART).update(BODY).update(PART).update(BODY);
    assert.equal(hash.update(BODY).hex(), wanted.hex());
  }
  // that never ends
  const endless = new Blake2b();
  await streamOfPart().pipeTo(hashWritable(endless), { preventClose: true });
  refuses(endless);
  // between two chunks
  const hash = new Blake2b();
  const writer = hashWritable(hash).getWriter();
  await writer.write(BODY);
  refuses(hash);
  await writer.close();
  assert.equal(hash.hex(), hexOf(blake2b(BODY)));
});
