// The root of a tree by several workers, each of which hashes ranges of leaves.

import { copyOf, lengthOf, subarrayOf } from "./arguments.js";
import { LEAF_DIGEST, beginRoot, endRoot, partOfPlan, planOf, updateRoot } from "./leaves.js";
import { RangeWorker } from "./workers.js";

// A range has about this number of bytes, in fours of leaves, unless four leaves are longer than the
// second. Then it is one leaf.
const RANGE = 4 * 1024 * 1024;
// The most leaves of a range, so that its digests are no longer than a range.
const RANGE_LEAVES = RANGE / LEAF_DIGEST;
// How many ranges for each worker may be ahead of the first whose digests the root lacks.
const AHEAD = 2;
const LONGEST_RANGE = 16 * 1024 * 1024;
// A plan is made before the length of the message is known: for the longest.
const LONGEST_MESSAGE = 2n ** 58n - 1n;
/** Leaves longer than this are hashed on the calling thread, since a range is held in memory. */
export const LONGEST_LEAF = 64 * 1024 * 1024;
/**
 * The root of a message that comes in pieces, or that the workers read. It absorbs the digests of
 * the ranges in their order, and keeps only those that came too early. report is called with the
 * number of bytes of each range that was hashed, and onFallback once, with the error, if a worker
 * cannot be started. What a worker or one of these throws aborts control.
 */
export class TreeThreads {
  #settings;
  #digestLength;
  #count;
  #caller;
  #report;
  #onFallback;
  #control;
  #workers = [];
  #idle = [];
  #root; // absorbs the digests of the ranges in order
  #digests = new Map(); // those of later ranges, by range
  #sent = 0; // the number of ranges that workers hash or have hashed
  #absorbed = 0; // of those, the number in the root
  #plan;
  #range; // the bytes of the range that is being filled
  #filled = 0;
  #leaf; // its first leaf
  #wake = () => {};

  constructor(settings, count, caller, { report, onFallback, control }) {
    const { leafLength, digestLength, salt, personalization } = settings;
    // copies, since a view would take its whole buffer along to the workers
    this.#settings = { leafLength, salt: copyOf(salt), personalization: copyOf(personalization) };
    this.#digestLength = digestLength;
    this.#count = count;
    this.#caller = caller;
    this.#report = report;
    this.#onFallback = onFallback;
    this.#control = control;
    this.#root = beginRoot({ ...this.#settings, digestLength });
    this.#plan = this.#planOf(LONGEST_MESSAGE);
    control.signal.addEventListener("abort", () => this.#wake());
  }

  #planOf(length) {
    const { leafLength } = this.#settings;
    return planOf(length, leafLength, Math.min(RANGE, leafLength * RANGE_LEAVES), LONGEST_RANGE);
  }

  // Begins the next range.
  #beginRange() {
    const { first, length } = partOfPlan(this.#plan, this.#sent);
    this.#leaf = first;
    this.#range = new Uint8Array(length);
    this.#filled = 0;
  }

  // Waits for a worker's next result. Throws if the call was aborted.
  async #waitForResult() {
    this.#control.signal.throwIfAborted();
    await new Promise((resolve) => (this.#wake = resolve));
    this.#control.signal.throwIfAborted();
  }

  // Calls what the caller gave. If it throws, the call is aborted.
  #callCallback(callback, ...values) {
    try {
      callback?.(...values);
    } catch (fault) {
      this.#control.abort(fault);
    }
  }

  #startWorker() {
    const entry = {};
    entry.worker = new RangeWorker(this.#caller, {
      onDigests: (digests) => {
        this.#digests.set(entry.range, digests);
        this.#absorbDigests();
        this.#idle.push(entry);
        this.#callCallback(this.#report, entry.length);
        this.#wake();
      },
      onFallback: (cause) => {
        this.#callCallback(this.#onFallback, cause);
        this.#onFallback = undefined;
      },
      onFault: (fault) => this.#control.abort(fault),
    });
    this.#workers.push(entry.worker);
    return entry;
  }

  // Absorbs the digests of the next ranges, as far as they are there.
  #absorbDigests() {
    for (let digests; (digests = this.#digests.get(this.#absorbed)); this.#absorbed++) {
      updateRoot(this.#root, digests);
      this.#digests.delete(this.#absorbed);
    }
  }

  // Whether a range can be passed to a worker.
  #canSendRange() {
    return (this.#idle.length > 0 || this.#workers.length < this.#count) &&
      this.#sent - this.#absorbed < AHEAD * this.#count;
  }

  // Passes a range to a worker: its bytes, or where the worker reads them.
  async #sendRange(source, { first, length, ends }) {
    while (!this.#canSendRange()) await this.#waitForResult();
    this.#control.signal.throwIfAborted();
    const entry = this.#idle.pop() ?? this.#startWorker();
    entry.range = this.#sent++;
    entry.length = length;
    entry.worker.post({ settings: this.#settings, range: { first, ends }, ...source });
  }

  // Passes the range that is filled.
  async #sendFilledRange(ends) {
    const message = this.#range.subarray(0, this.#filled);
    await this.#sendRange({ message }, { first: this.#leaf, length: this.#filled, ends });
  }

  /** Absorbs bytes. A full range stays here until more comes, since it may end the message. */
  async update(bytes) {
    const length = lengthOf(bytes); // they may be taken away while this waits, and then it throws
    for (let at = 0; at < length; ) {
      if (this.#range === undefined) this.#beginRange();
      if (this.#filled === this.#range.length) {
        await this.#sendFilledRange(false);
        this.#beginRange();
      }
      const size = Math.min(length - at, this.#range.length - this.#filled);
      this.#range.set(subarrayOf(bytes, at, size), this.#filled);
      this.#filled += size;
      at += size;
    }
  }

  /** The root of all that was absorbed. */
  async digest() {
    if (this.#range === undefined) this.#beginRange();
    await this.#sendFilledRange(true);
    return this.#finishRoot();
  }

  /** The root of a source of this length, where sourceOf(at, length) is what a worker reads. */
  async digestOfSource(total, sourceOf) {
    const plan = this.#planOf(total);
    for (let i = 0; i < plan.count; i++) {
      const part = partOfPlan(plan, i);
      await this.#sendRange(sourceOf(part.start, part.length), part);
    }
    return this.#finishRoot();
  }

  async #finishRoot() {
    while (this.#idle.length < this.#workers.length) await this.#waitForResult();
    return endRoot(this.#root, this.#digestLength);
  }

  /** Stops the workers. */
  wipe() {
    for (const worker of this.#workers) worker.stop();
  }
}
