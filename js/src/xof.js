// Outputs of any length, which are read in pieces. The state is an array of bytes that the object
// owns, as in hashers.js.

import {
  bytesOf, integerOf, lengthOf, readSettings, refuseCallWithoutObject, refuseExtraArguments, settingsOf,
} from "./arguments.js";
import * as engine from "./engine.js";
import { BLAKE2XB, BLAKE2XS } from "./whole_module.js";

// What copy passes to the constructor, in the place of options, and nobody else can.
const COPY = /* @__PURE__ */ Symbol("copy");

// Wipes keyed states whose objects were collected.
const collected = /* @__PURE__ */ new FinalizationRegistry((state) => state.fill(0));

// Of one call no more is read than a Uint8Array has on every system.
const MOST = 2 ** 31 - 1;

export class Output {
  #kind;
  #name;
  #state; // also after the end, so that wipe reaches what a call that failed has left
  #hasEnded = false;
  #isKeyed = false;
  #isRead = false;

  constructor(kind, name, options, rest) {
    this.#kind = kind;
    this.#name = name;
    if (options !== COPY) this.#initialize(options, rest);
  }

  #initialize(options, rest) {
    const caller = `new ${this.#name}`;
    refuseExtraArguments(rest.length, caller, 1);
    const [settings, { outputLength }] = readSettings(this.#kind, options, caller);
    const most = this.#kind.digestLength;
    settings.digestLength = integerOf(outputLength, caller, "outputLength", 1, most - 1, most);
    this.#state = engine.begin(this.#kind, settings);
    this.#isKeyed = lengthOf(settings.key) > 0;
    this.#wipeWhenCollected();
  }

  #wipeWhenCollected() {
    if (this.#isKeyed) collected.register(this, this.#state);
  }

  // How errors name a method. It is called with this, which may be no output.
  static #callerOf(output, call) {
    if (!(#name in Object(output))) refuseCallWithoutObject(call, "output");
    return `${output.#name}.${call}`;
  }

  // The state, if it is not wiped.
  #stateUnlessWiped(caller) {
    if (this.#hasEnded) {
      throw new TypeError(`${caller}: this output was wiped, or a call failed`);
    }
    return this.#state;
  }

  get blockLength() {
    Output.#callerOf(this, "blockLength");
    return this.#kind.blockLength;
  }

  /** How many bytes are left, as a bigint. */
  get left() {
    const caller = Output.#callerOf(this, "left");
    return engine.left(this.#kind, this.#stateUnlessWiped(caller));
  }

  update(message, ...rest) {
    const caller = Output.#callerOf(this, "update");
    refuseExtraArguments(rest.length, caller, 1);
    const bytes = bytesOf(message, caller, "message");
    const state = this.#stateUnlessWiped(caller);
    if (this.#isRead) throw new TypeError(`${caller}: the output is already being read`);
    this.#hasEnded = true; // if the call throws, nothing more is read
    const isTaken = engine.update(this.#kind, state, 0, bytes);
    this.#hasEnded = false;
    if (!isTaken) throw new RangeError(`${caller}: the message is too long`);
    return this;
  }

  read(length, ...rest) {
    const caller = Output.#callerOf(this, "read");
    refuseExtraArguments(rest.length, caller, 1);
    if (length === undefined) throw new TypeError(`${caller}: length must be given`);
    const count = integerOf(length, caller, "length", 0, MOST);
    const state = this.#stateUnlessWiped(caller);
    this.#hasEnded = true; // as in update
    const output = engine.squeeze(this.#kind, state, count);
    this.#hasEnded = false;
    if (output === undefined) {
      throw new RangeError(`${caller}: only ${this.left} bytes of the output are left`);
    }
    this.#isRead = true;
    return output;
  }

  copy(...rest) {
    const caller = Output.#callerOf(this, "copy");
    refuseExtraArguments(rest.length, caller, 0);
    const copy = Reflect.construct(Output, [this.#kind, this.#name, COPY], this.constructor);
    const state = this.#stateUnlessWiped(caller); // after all code of the class, which may be the caller's
    copy.#isKeyed = this.#isKeyed;
    copy.#isRead = this.#isRead;
    copy.#state = engine.newState(this.#kind);
    copy.#wipeWhenCollected();
    copy.#state.set(state);
    return copy;
  }

  wipe() {
    Output.#callerOf(this, "wipe");
    this.#hasEnded = true;
    this.#state.fill(0);
  }
}

Object.defineProperty(Output.prototype, Symbol.dispose ?? Symbol.for("Symbol.dispose"), {
  value: Output.prototype.wipe,
  configurable: true,
  writable: true,
});

export class Blake2xb extends Output {
  constructor(options, ...rest) {
    super(BLAKE2XB, "Blake2xb", options, rest);
  }
}

export class Blake2xs extends Output {
  constructor(options, ...rest) {
    super(BLAKE2XS, "Blake2xs", options, rest);
  }
}

/** A key of this length for a context: the output of BLAKE2Xb of the context under the key. */
export function deriveKey(key, context, length, ...rest) {
  refuseExtraArguments(rest.length, "deriveKey", 3);
  const bytes = bytesOf(context, "deriveKey", "context");
  for (const [what, given] of [["key", key], ["length", length]]) {
    if (given === undefined) throw new TypeError(`deriveKey: ${what} must be given`);
  }
  const most = Math.min(MOST, BLAKE2XB.digestLength - 1);
  const digestLength = integerOf(length, "deriveKey", "length", 1, most);
  const settings = settingsOf(BLAKE2XB, { key }, "deriveKey");
  const state = engine.begin(BLAKE2XB, { ...settings, digestLength });
  try {
    if (!engine.update(BLAKE2XB, state, 0, bytes)) {
      throw new RangeError("deriveKey: the context is too long");
    }
    return engine.squeeze(BLAKE2XB, state, digestLength);
  } finally {
    state.fill(0);
  }
}
