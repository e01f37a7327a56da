// Streams that hash what is piped into them.

import { bytesOf, describeValue, refuseExtraArguments } from "./arguments.js";
import { isHasher, refuseIfEnded, refuseNodePipe, refuseIfPiped, setPiped } from "./hashers.js";

// Returns what absorbs a chunk. If it cannot, the hash ends.
function newChunkAbsorber(hasher, caller, rest) {
  refuseExtraArguments(rest.length, caller, 1, "options are those of the hash");
  if (!isHasher(hasher)) {
    throw new TypeError(
      `${caller}: hash must be a Blake2b, Blake2s, Blake2bp, Blake2sp or TreeHash, ` +
        `not ${describeValue(hasher)}`,
    );
  }
  refuseIfPiped(hasher, caller);
  refuseIfEnded(hasher, caller);
  return (chunk) => {
    setPiped(hasher, false);
    try {
      hasher.update(bytesOf(chunk, caller, "chunk"));
    } catch (fault) {
      hasher.wipe();
      throw fault;
    } finally {
      setPiped(hasher, true);
    }
  };
}

export function hashWritable(hasher, ...rest) {
  const absorb = newChunkAbsorber(hasher, "hashWritable", rest);
  const writable = new WritableStream({
    write: absorb, close: () => setPiped(hasher, false), abort: () => hasher.wipe(),
  });
  setPiped(hasher, true);
  return Object.defineProperty(writable, "on", { value: refuseNodePipe });
}

// The two ends of a TransformStream, which is not notified when its readable end is canceled or, while
// a chunk waits to be read, when the other is aborted.
export function hashTransform(hasher, ...rest) {
  const absorb = newChunkAbsorber(hasher, "hashTransform", rest);
  let source; // the controllers of the ends
  let sink;
  let isWanted = false; // whether a chunk is
  let hasFailed = false;
  let wake = () => {};
  const fail = (reason) => {
    hasFailed = true;
    hasher.wipe();
    source.error(reason);
    wake();
  };
  const readable = new ReadableStream({
    start(controller) { source = controller; },
    pull() {
      isWanted = true;
      wake();
    },
    cancel(reason) {
      fail(reason);
      sink.error(reason);
    },
  }, { highWaterMark: 0 });
  const writable = new WritableStream({
    start(controller) {
      sink = controller;
      sink.signal.addEventListener("abort", () => fail(sink.signal.reason));
    },
    async write(chunk) {
      while (!isWanted && !hasFailed) await new Promise((resolve) => (wake = resolve));
      if (hasFailed) return;
      isWanted = false;
      try {
        absorb(chunk);
      } catch (fault) {
        fail(fault);
        throw fault;
      }
      source.enqueue(chunk);
    },
    close() {
      setPiped(hasher, false);
      source.close();
    },
  });
  setPiped(hasher, true);
  return { readable, writable };
}
