// Incremental hashes. The state is an array of bytes that the object owns; the library's memory
// holds it only during a call. Short updates only append to the bytes that wait after it.

import {
  OPTIONS, bytesOf, copyOf, flagOf, isFilledUint8Array, describeValue, lengthOf, readSettings, refuseCallWithoutObject,
  refuseExtraArguments, settingsOf, toArray, toArrayOfBytes,
} from "./arguments.js";
import * as engine from "./engine.js";
import { hex } from "./hex.js";

// What copy passes to the constructor, in the place of options, and nobody else can.
const COPY = /* @__PURE__ */ Symbol("copy");

// Wipes keyed states whose objects were collected before digest, verify or wipe.
const collected = /* @__PURE__ */ new FinalizationRegistry((state) => state.fill(0));

/** Thrown by verify if the tag is wrong. */
export class InvalidTagError extends Error {
  get name() {
    return "InvalidTagError";
  }
}

// The bytes of the shortest tag that verify compares, unless the option allowShort is true.
const LEAST_TAG = 16;

const ENDED_BY = ", by digest, hex, verify, wipe or a failed call";

// What pipes.js may do to a hash, and nobody else: the class below fills it in.
const ofPipes = {};

// What classes with saved states may do, and nobody else can: the class below fills it in.
const ofStates = {};

/** The bytes of a hash of this kind, after a check of the caller's object and arguments. */
export const saveState = (kind, hasher, more) => ofStates.save(kind, hasher, more);

/**
 * The hash of this kind that was saved as these bytes, of the class that the caller called, if that is
 * one.
 */
export const loadState = (kind, name, isOne, called, saved, more) =>
  ofStates.load(kind, name, isOne, called, saved, more);

/** Absorbs each piece into the hash of this kind at its place, after a check of all arguments. */
export const updateMany = (kind, name, hashes, pieces, more) =>
  ofStates.updateMany(kind, name, hashes, pieces, more);

/** Whether a value is one of these hashes. */
export const isHasher = (value) => ofPipes.is(value);

/** Refuses a hash with a pipe that has not ended: its digest would be that of a part. */
export const refuseIfPiped = (hasher, caller) => ofPipes.refuse(hasher, caller);

/** Refuses a hash that has ended. */
export const refuseIfEnded = (hasher, caller) => ofPipes.refuseIfEnded(hasher, caller);

/** What node's stream.pipe() calls first, whose own error for what has no such method says nothing. */
export function refuseNodePipe() {
  throw new TypeError(
    "stream.pipe() needs a stream of node: use pipeline(stream, hashWritable(hash)) of node:stream, " +
      "or blake2bStream(stream) and its like",
  );
}

/** Notes whether a hash has a pipe that has not ended. Only that pipe goes on with the hash. */
export const setPiped = (hasher, isPiped) => ofPipes.set(hasher, isPiped);

export class Hasher {
  #kind;
  #name;
  #state; // also after the end, so that wipe reaches what a call that failed has left
  #hasEnded = false;
  #waiting = 0; // how many bytes wait after it
  #count = 0; // how many bytes the library has absorbed
  #digestLength;
  #isKeyed = false;
  #allowsShort = false;
  #isPiped = false;
  #settings; // of a tree, which has no key: what reset initializes a new state from

  constructor(kind, name, options, more) {
    this.#kind = kind;
    this.#name = name;
    if (options !== COPY) this.#initialize(options, more);
  }

  #initialize(options, more) {
    const kind = this.#kind;
    const caller = `new ${this.#name}`;
    refuseExtraArguments(more, caller, 1);
    const settings = this.#readSettings(options, caller);
    this.#digestLength = settings.digestLength;
    if (kind.isTree) {
      const salt = copyOf(settings.salt);
      const personalization = copyOf(settings.personalization);
      this.#settings = { ...settings, salt, personalization };
    }
    this.#state = engine.begin(kind, settings);
    this.#isKeyed = lengthOf(settings.key) > 0;
    this.#wipeWhenCollected();
  }

  // The settings of the hash, and the option that only verify needs.
  #readSettings(options, caller) {
    const kind = this.#kind;
    if (options === undefined || kind.isTree) return settingsOf(kind, options, caller);
    const known = [...OPTIONS[kind.options], "allowShort"];
    const [settings, read] = readSettings(kind, options, caller, known);
    this.#allowsShort = flagOf(read.allowShort, caller, "allowShort");
    return settings;
  }

  #wipeWhenCollected() {
    if (this.#isKeyed) collected.register(this, this.#state);
  }

  static {
    ofPipes.is = (value) => typeof value === "object" && value !== null && #name in value;
    ofPipes.refuse = (hasher, caller) => {
      if (!hasher.#isPiped) return;
      throw new TypeError(`${caller}: a pipe into this hash has not ended; wait for it first`);
    };
    ofPipes.set = (hasher, isPiped) => { hasher.#isPiped = isPiped; };
    ofPipes.refuseIfEnded = (hasher, caller) => {
      if (hasher.#hasEnded) throw new TypeError(`${caller}: this hash has ended${ENDED_BY}`);
    };
    // Called later: esbuild 0.17 cannot read a private method in a static block.
    ofStates.save = (...values) => Hasher.#save(...values);
    ofStates.load = (...values) => Hasher.#load(...values);
    ofStates.updateMany = (...values) => Hasher.#updateMany(...values);
  }

  static #save(kind, hasher, more) {
    if (!isHasher(hasher) || hasher.#kind !== kind) refuseCallWithoutObject("save", "hash");
    Hasher.#checkObjectAndArguments(hasher, "save", more, 0);
    const state = hasher.#stateUnlessEndedOrPiped("save");
    if (hasher.#isKeyed) {
      throw new TypeError(
        `${hasher.#callName("save")}: this hash has a key, which the bytes would be as good as`,
      );
    }
    return engine.save(kind, state, hasher.#waiting);
  }

  static #load(kind, name, isOne, called, saved, more) {
    if (!isOne) refuseCallWithoutObject("load", name);
    const caller = `${name}.load`;
    refuseExtraArguments(more, caller, 1, "a hash has no options then");
    const given = bytesOf(saved, caller, "saved");
    const bytes = lengthOf(given) === kind.savedLength ? copyOf(given) : undefined;
    const state = bytes && engine.loadState(kind, bytes);
    if (!state) throw new RangeError(`${caller}: this is not a saved state of ${name}`);
    const hasher = Reflect.construct(Hasher, [kind, name, COPY], called);
    const numbers = new DataView(bytes.buffer, bytes.length - kind.blockLength - 11);
    hasher.#count = Number(numbers.getBigUint64(0, true)) + numbers.getUint8(9);
    hasher.#digestLength = numbers.getUint8(8);
    hasher.#state = state;
    return hasher;
  }

  // One after another: what hashes them in lanes would more than double the module in each bundle.
  static #updateMany(kind, name, hashes, pieces, more) {
    const caller = `${name}.updateMany`;
    refuseExtraArguments(more, caller, 2, "a hash has its options already");
    const all = toArray(hashes, caller, "hashes", name);
    const given = toArrayOfBytes(pieces, caller, "piece");
    if (given.length !== all.length) {
      throw new RangeError(
        `${caller}: there must be a piece for each hash, not ${given.length} for ${all.length}`,
      );
    }
    const bytes = given.map((piece, i) =>
      isFilledUint8Array(piece) ? piece : bytesOf(piece, caller, `piece ${i}`));
    all.forEach((hasher, i) => {
      if (!isHasher(hasher) || hasher.#kind !== kind) {
        throw new TypeError(`${caller}: hash ${i} must be a ${name}, not ${describeValue(hasher)}`);
      }
      if (hasher.#hasEnded) refuseIfEnded(hasher, `${caller}: hash ${i}`);
      if (hasher.#isPiped) refuseIfPiped(hasher, `${caller}: hash ${i}`);
      // from certainBelow on nothing waits, and only the library knows
      if (hasher.#count >= kind.certainBelow && !engine.canAbsorb(kind, hasher.#state, bytes[i])) {
        throw new RangeError(`${caller}: hash ${i}: the message is too long`);
      }
    });
    let twice; // the first place of a hash that is at an earlier one, too
    all.forEach((hasher, i) => {
      if (hasher.#hasEnded) twice ??= i;
      hasher.#hasEnded = true; // if the call throws
    });
    if (twice === undefined) {
      all.forEach((hasher, i) => engine.assertAccepted(Hasher.#absorb(hasher, bytes[i]) ? 0 : -1));
    }
    for (const hasher of all) hasher.#hasEnded = false;
    if (twice !== undefined) throw new RangeError(`${caller}: hash ${twice} is there twice`);
  }

  // Refuses a call without its hash, which may be any value, and arguments beyond the last. Calls
  // count theirs, so that no array of those beyond the last is made.
  static #checkObjectAndArguments(hasher, call, more, most, hint) {
    if (!isHasher(hasher)) refuseCallWithoutObject(call, "hash");
    if (more > 0) refuseExtraArguments(more, hasher.#callName(call), most, hint);
  }

  // How errors name a call.
  #callName(call) {
    return `${this.#name}.${call}`;
  }

  // The state, if the hash has not ended.
  #stateUnlessEnded(call) {
    if (this.#hasEnded) {
      throw new TypeError(`${this.#callName(call)}: this hash has ended${ENDED_BY}`);
    }
    return this.#state;
  }

  // The same for a call that changes the hash.
  #stateUnlessEndedOrPiped(call) {
    const state = this.#stateUnlessEnded(call);
    if (this.#isPiped) refuseIfPiped(this, this.#callName(call));
    return state;
  }

  // The same for a call that ends the hash, or does so if it throws.
  #endAndTakeState(call) {
    const state = this.#stateUnlessEndedOrPiped(call);
    this.#hasEnded = true;
    return state;
  }

  get digestLength() {
    Hasher.#checkObjectAndArguments(this, "digestLength", 0);
    return this.#digestLength;
  }

  get blockLength() {
    Hasher.#checkObjectAndArguments(this, "blockLength", 0);
    return this.#kind.blockLength;
  }

  update(message) {
    Hasher.#checkObjectAndArguments(this, "update", arguments.length - 1, 1);
    const bytes =
      isFilledUint8Array(message) ? message : bytesOf(message, this.#callName("update"), "message");
    this.#stateUnlessEndedOrPiped("update");
    if (Hasher.#absorb(this, bytes)) return this;
    throw new RangeError(`${this.#callName("update")}: the message is too long`);
  }

  // Returns false, and changes nothing, if the message would be too long. Static, since a call of a
  // private method takes longer.
  static #absorb(hasher, bytes) {
    const { stateLength, room, certainBelow } = hasher.#kind;
    const length = lengthOf(bytes);
    if (hasher.#waiting + length > room || hasher.#count >= certainBelow) {
      return hasher.#absorbByLibrary(bytes);
    }
    hasher.#state.set(bytes, stateLength + hasher.#waiting);
    hasher.#waiting += length;
    return true;
  }

  #absorbByLibrary(bytes) {
    const hasEnded = this.#hasEnded; // until all of updateMany have absorbed
    this.#hasEnded = true; // if the call throws
    const isTaken = engine.update(this.#kind, this.#state, this.#waiting, bytes);
    this.#hasEnded = hasEnded;
    if (isTaken) {
      this.#count += this.#waiting + lengthOf(bytes);
      this.#waiting = 0;
    }
    return isTaken;
  }

  digest() {
    Hasher.#checkObjectAndArguments(this, "digest", arguments.length, 0, "use hex() for hexadecimal digits");
    const state = this.#endAndTakeState("digest");
    return engine.final(this.#kind, state, this.#waiting, this.#digestLength);
  }

  hex() {
    Hasher.#checkObjectAndArguments(this, "hex", arguments.length, 0);
    this.#stateUnlessEndedOrPiped("hex");
    return hex(this.digest());
  }

  verify(tag) {
    Hasher.#checkObjectAndArguments(this, "verify", arguments.length - 1, 1);
    const bytes = bytesOf(tag, this.#callName("verify"), "tag");
    this.#stateUnlessEndedOrPiped("verify");
    if (!this.#isKeyed && !this.#kind.isTree) {
      throw new TypeError(
        `${this.#callName("verify")}: this hash has no key, so that anybody can make the tag; ` +
          "compare digests with equal()",
      );
    }
    if (this.#digestLength < LEAST_TAG && !this.#allowsShort && !this.#kind.isTree) {
      throw new RangeError(
        `${this.#callName("verify")}: a tag must have at least ${LEAST_TAG} bytes, ` +
          `not ${this.#digestLength}, unless allowShort is true`,
      );
    }
    const state = this.#endAndTakeState("verify");
    if (!engine.verify(this.#kind, state, this.#waiting, this.#digestLength, bytes)) {
      throw new InvalidTagError(`${this.#callName("verify")}: the tag is wrong`);
    }
  }

  copy() {
    Hasher.#checkObjectAndArguments(this, "copy", arguments.length, 0);
    const copy = Reflect.construct(Hasher, [this.#kind, this.#name, COPY], this.constructor);
    const state = this.#stateUnlessEnded("copy"); // after all code of the class, which may be the caller's
    copy.#waiting = this.#waiting;
    copy.#count = this.#count;
    copy.#digestLength = this.#digestLength;
    copy.#settings = this.#settings;
    copy.#isKeyed = this.#isKeyed;
    copy.#allowsShort = this.#allowsShort;
    copy.#state = engine.newState(this.#kind);
    copy.#wipeWhenCollected();
    copy.#state.set(state);
    return copy;
  }

  reset() {
    Hasher.#checkObjectAndArguments(this, "reset", arguments.length, 0);
    const state = this.#endAndTakeState("reset");
    if (this.#kind.isTree) state.set(engine.begin(this.#kind, this.#settings));
    else engine.reset(this.#kind, state);
    this.#waiting = 0;
    this.#count = 0;
    this.#hasEnded = false;
    return this;
  }

  wipe() {
    Hasher.#checkObjectAndArguments(this, "wipe", 0);
    this.#hasEnded = true;
    this.#state.fill(0);
  }
}

Object.defineProperty(Hasher.prototype, "on", { value: refuseNodePipe });
Object.defineProperty(Hasher.prototype, Symbol.dispose ?? Symbol.for("Symbol.dispose"), {
  value: Hasher.prototype.wipe,
  configurable: true,
  writable: true,
});
