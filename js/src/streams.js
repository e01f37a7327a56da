// Hashes of what arrives piece by piece: files, blobs, responses, node's streams.

import {
  OPTIONS, bytesOf, integerOf, isBytes, describeValue, lengthOf, readSettings, refuseExtraArguments,
} from "./arguments.js";
import { MOST_THREADS, canWorkersReadBlobs, nodeModule, processorCount } from "./platform.js";

// How much of a blob is read at a time.
const SLICE = 4 * 1024 * 1024;

// The slices of a blob. The next is read while one is hashed.
async function* slicesOf(blob) {
  const read = (at) => {
    const slice = at < blob.size ? blob.slice(at, at + SLICE).arrayBuffer() : undefined;
    slice?.catch(() => {}); // reported when it is awaited, if it is
    return slice;
  };
  let next = read(0);
  for (let at = SLICE; next !== undefined; at += SLICE) {
    const slice = await next;
    next = read(at);
    yield slice;
  }
}

// The reader of a file that is open in node, from its first byte to its end. Its size is that at
// the call. One of /proc has bytes and the length 0.
function openFile(handle, caller) {
  let at = 0;
  const reader = {
    async prepare() {
      const stats = await handle.stat();
      if (!stats.isFile()) throw new TypeError(`${caller}: source must be a regular file`);
      reader.total = Number(stats.size);
      if (reader.total > 0) return;
      const { bytesRead } = await handle.read(new Uint8Array(1), 0, 1, 0);
      if (bytesRead > 0) {
        throw new TypeError(`${caller}: source has bytes and the length 0, as a file of /proc`);
      }
    },
    part: (from, length) => ({ file: { fd: handle.fd, at: from, length } }),
    async next() {
      const length = Math.min(reader.total - at, SLICE);
      if (length === 0) return { done: true };
      const bytes = new Uint8Array(length);
      const { bytesRead } = await handle.read(bytes, 0, length, at);
      if (bytesRead === 0) throw new Error(`${caller}: the file ends at byte ${at}`);
      at += bytesRead;
      return { done: false, value: bytes.subarray(0, bytesRead) };
    },
    close() {},
  };
  return reader;
}

// What to do with a value that is no source, for an error message.
function adviceOn(source, caller) {
  if (isBytes(source)) return `; use ${caller.replace("Stream", "")}()`;
  if (typeof source?.body?.getReader !== "function") return "";
  return source.bodyUsed ? "; its body was already read" : "; pass its body";
}

// Sources that can be read only once and were passed to a call.
const passed = new WeakSet();

// Whether a stream was read or canceled. A browser shows it only by refusing the stream as a body.
function isStreamRead(stream) {
  const { Readable } = nodeModule("stream") ?? {};
  if (Readable !== undefined) return Readable.isDisturbed(stream);
  if (typeof ReadableStream === "undefined" || !(stream instanceof ReadableStream)) return false;
  try {
    new Response(stream);
    return false;
  } catch {
    return true;
  }
}

// The number of readers that wait for the next bytes of a stream of node.
const countNodeReaders = (stream) => stream.listenerCount?.("readable") ?? 0;

// Refuses a source of which somebody else has some bytes, or may get them.
function refuseIfRead(isRead, caller) {
  if (!isRead) return;
  throw new TypeError(`${caller}: source was already read, or something else is reading it`);
}

// Refuses such a source at the call, and from then on for another call.
function claimSource(source, caller) {
  const isRead = source.locked === true || countNodeReaders(source) > 0 || isStreamRead(source);
  refuseIfRead(isRead || passed.has(source), caller);
  passed.add(source);
}

// The reader of a stream of the web.
function openStream(source, caller) {
  claimSource(source, caller);
  const reader = source.getReader();
  return {
    next: () => reader.read(),
    close(isDone, reason) {
      if (!isDone) reader.cancel(reason).catch(() => {});
      reader.releaseLock();
    },
  };
}

// The reader of a stream of node, or of another iterable.
function openIterable(source, caller) {
  const isStream = typeof source.on === "function";
  const iterator = (source[Symbol.asyncIterator] ?? source[Symbol.iterator]).call(source);
  if (isStream || iterator === source) claimSource(source, caller); // the second is a generator, say
  return {
    next() {
      refuseIfRead(isStream && countNodeReaders(source) > 1, caller);
      return iterator.next();
    },
    close(isDone) {
      if (!isDone) (async () => iterator.return?.())().catch(() => {});
    },
  };
}

function openBlob(blob, caller) {
  return {
    ...openIterable(slicesOf(blob), caller),
    total: blob.size,
    part: canWorkersReadBlobs() ? (at, length) => ({ blob: blob.slice(at, at + length) }) : undefined,
  };
}

// A reader of a source: next returns its chunks as an iterator does, total is its length if that is
// known, and close releases it, before its end if it is not done. prepare, if it is there, is
// called first. part, if it is there, returns what a worker reads.
function openReader(source, caller) {
  if (typeof source?.getReader === "function") return openStream(source, caller);
  if (typeof source?.fd === "number" && typeof source.stat === "function") {
    return openFile(source, caller);
  }
  if (typeof Blob !== "undefined" && source instanceof Blob) return openBlob(source, caller);
  const isIterable = [Symbol.asyncIterator, Symbol.iterator].some((name) =>
    typeof source?.[name] === "function");
  if (!isIterable || typeof source === "string" || isBytes(source)) {
    throw new TypeError(
      `${caller}: source must be a Blob, a ReadableStream, a FileHandle or an iterable of bytes, ` +
        `not ${describeValue(source)}${adviceOn(source, caller)}`,
    );
  }
  return openIterable(source, caller);
}

// The result, or what it resolves to, unless the signal aborts first.
function unlessAborted(result, signal) {
  return new Promise((resolve, reject) => {
    const abort = () => reject(signal.reason);
    signal.addEventListener("abort", abort);
    Promise.resolve(result).then(resolve, reject)
      .then(() => signal.removeEventListener("abort", abort));
  });
}

function checkCallback(value, caller, what) {
  if (value !== undefined && typeof value !== "function") {
    throw new TypeError(`${caller}: ${what} must be a function, not ${describeValue(value)}`);
  }
}

// A signal needs what AbortSignalLike has: those of older browsers have no more.
function checkSignal(value, caller) {
  if (value === undefined) return;
  const calls = [value?.addEventListener, value?.removeEventListener];
  if (typeof value?.aborted !== "boolean" || calls.some((call) => typeof call !== "function")) {
    throw new TypeError(`${caller}: signal must be an AbortSignal, not ${describeValue(value)}`);
  }
}

// The options of the hash among those of a call that are given.
const hashOptionsOf = (kind, read) => Object.fromEntries(
  OPTIONS[kind.options].filter((name) => read[name] !== undefined)
    .map((name) => [name, read[name]]));

/**
 * The digest of all chunks of a source: a hash by Hasher or, with threads, a tree by workers. These
 * are those of threads.js, which only trees pass, so that other bundles do not have them.
 */
export async function hashStream(kind, Hasher, caller, source, options, rest, workers) {
  refuseExtraArguments(rest.length, caller, 2);
  const known = [...OPTIONS[kind.options], "onProgress", "signal"];
  if (kind.isTree) known.push("threads", "onFallback");
  const [settings, read] = readSettings(kind, options, caller, known);
  const { onProgress, onFallback, signal, threads } = read;
  checkCallback(onProgress, caller, "onProgress");
  checkCallback(onFallback, caller, "onFallback");
  checkSignal(signal, caller);
  const given = integerOf(threads, caller, "threads", 0, MOST_THREADS, 1);
  const count = workers === undefined ? 1 : given || processorCount();
  const reader = openReader(source, caller);
  const control = new AbortController(); // aborts with the signal, or if a worker fails
  const follow = () => control.abort(signal.reason);
  signal?.addEventListener("abort", follow);
  if (signal?.aborted) follow();
  let taken = 0;
  const report = (length) => onProgress?.((taken += length), reader.total);
  let run;
  let isDone = false;
  try {
    control.signal.throwIfAborted();
    const isShared = count > 1 && settings.leafLength <= workers.LONGEST_LEAF;
    // before anything is waited for, so that the caller may wipe its key after the call
    run = isShared
      ? new workers.TreeThreads(settings, count, caller, { report, onFallback, control })
      : new Hasher(hashOptionsOf(kind, { ...read, tree: settings.tree })); // whose getters have run
    if (reader.prepare) await unlessAborted(reader.prepare(), control.signal);
    if (isShared && reader.part) return await run.digestOfSource(reader.total, reader.part);
    for (;;) {
      control.signal.throwIfAborted();
      const { done, value } = await unlessAborted(reader.next(), control.signal);
      isDone = done;
      if (done) return await run.digest();
      const bytes = bytesOf(value, caller, "chunk");
      await run.update(bytes);
      if (!isShared) report(lengthOf(bytes));
    }
  } finally {
    signal?.removeEventListener("abort", follow);
    run?.wipe();
    reader.close(isDone, control.signal.reason);
  }
}
