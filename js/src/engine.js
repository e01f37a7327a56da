// The library in WebAssembly, and the only code that touches its memory, with many.js and leaves.js.
//
// The memory is the library's stack and, above it, places for the short arguments, a slot for one
// state, and a window through which messages are copied. It never grows, and it keeps nothing
// between calls: states are in JavaScript. Each call copies a state in, works on it, copies it out,
// and sets to zero everything that was written, including the library's stack.
//
// A program uses up to three modules: BLAKE2b and BLAKE2s of one message have small ones, so that a
// bundle has only what its program calls. Each has a memory.

import { lengthOf, subarrayOf, settingsWithoutOptions } from "./arguments.js";

// How many bytes of the stack a call may write: of BLAKE2b or BLAKE2s for one message, and others.
const SHALLOW = 3072;
const DEEP = 8192;

/** How many bytes may wait after the state of a hash, so that short updates make no call. */
export const WAITING = 1024;

/**
 * The properties of a hash in a module. Lengths are in bytes; those of digest, key and salt are
 * maxima. The options are a name in OPTIONS, and plain are the settings without options. After a
 * state there is room for bytes that wait to be absorbed, as long as the library has absorbed fewer
 * than certainBelow: it refuses messages of 2^64 bytes, and a call is to be refused at once.
 */
export class Kind {
  constructor(module, given) {
    const numbers = { __proto__: null, ...given };
    this.module = module;
    this.index = module.count++; // of the hashes of its module
    this.name = numbers.name;
    this.digestLength = numbers.digestLength;
    this.keyLength = numbers.keyLength ?? 0;
    this.saltLength = numbers.saltLength;
    this.blockLength = numbers.blockLength;
    this.stateLength = numbers.stateLength;
    this.stackLength = numbers.stackLength ?? DEEP;
    this.maxNodeOffset = numbers.maxNodeOffset;
    this.savedLength = numbers.savedLength;
    this.atOnce = numbers.atOnce;
    this.options = numbers.options ?? "basic";
    this.isTree = this.options === "tree";
    const isOutput = this.options === "output";
    this.plain = this.isTree || isOutput ? undefined : settingsWithoutOptions(this.digestLength);
    this.room = isOutput ? 0 : WAITING;
    this.certainBelow = 2 ** 53;
    Object.freeze(this);
  }
}

/** Those of BLAKE2b and BLAKE2s, which are in two modules each. */
export const BLAKE2B_NUMBERS = /* @__PURE__ */ Object.freeze({
  name: "blake2b",
  digestLength: 64,
  keyLength: 64,
  saltLength: 16,
  blockLength: 128,
  stateLength: 344,
  stackLength: SHALLOW,
  maxNodeOffset: 2n ** 64n - 1n,
  savedLength: 275,
  atOnce: 4,
  options: "hash",
});
export const BLAKE2S_NUMBERS = /* @__PURE__ */ Object.freeze({
  name: "blake2s",
  digestLength: 32,
  keyLength: 32,
  saltLength: 8,
  blockLength: 64,
  stateLength: 176,
  stackLength: SHALLOW,
  maxNodeOffset: 2n ** 48n - 1n,
  savedLength: 147,
  atOnce: 8,
  options: "hash",
});

const PAGE = 65536;
const GROWN = 8 * PAGE;
/** The number of messages per call of the library, at most. */
export const BATCH = 64;
// Places, counted from the end of the stack. The state is the last of those that each call wipes,
// and the window of its messages begins at its end. Calls of several messages and of leaves use
// the places from RECORDS on.
const OUT = 0;
const TAG = 64;
/** Places that many.js and leaves.js use too. */
export const KEY = 128;
const SALT = 192;
const PERSONALIZATION = 208;
export const LIMITS = 224;
export const PLAN = 256;
export const PART = 328;
const NODE = 376;
const STATE = 392;
export const RECORDS = 2048;
export const OUTS = RECORDS + 16 * BATCH;
export const MESSAGES = 8192;
/** The bytes from MESSAGES to the end. */
export const WINDOW_LENGTH = GROWN - MESSAGES;
// How many bytes of a message are copied at a time. A hash's fit into the processor's cache; a
// tree's are the whole window, so that it holds several leaves, which are hashed in parallel.
const PIECE = 65536;

// An empty table. It has no prototype, so that nothing is found in it that other code has given to
// all objects, such as a property "32" by a careless copy of somebody's JSON.
const newTable = () => Object.create(null);

// A number as the library's argument. Those of short messages are made once.
const kept = /* @__PURE__ */ newTable();
const toBigInt = (number) => (number > WAITING ? BigInt(number) : (kept[number] ??= BigInt(number)));

// A hash in an engine: its functions, and its places in the memory.
class Hash {
  constructor(engine, { name, stateLength }) {
    const call = (word) => engine.exports[`vulfsjor_ffi_${name}${word}`];
    this.one = call("");
    this.many = call("_many");
    this.init = call("_init");
    this.initSaltPersonal = call("_init_salt_personal");
    this.initTree = call("_init_tree");
    this.setLastNode = call("_set_last_node");
    this.update = call("_update");
    this.final = call("_final");
    this.verify = call("_verify");
    this.reset = call("_reset");
    this.save = call("_save");
    this.load = call("_load");
    this.squeeze = call("_squeeze");
    this.left = call("_left");
    this.window = engine.base + STATE + stateLength;
    this.atWindow = BigInt(this.window);
    this.slot = engine.bytes.subarray(engine.base + STATE, this.window);
  }
}

class Engine {
  constructor(module) {
    const { exports } = new WebAssembly.Instance(module, {});
    this.exports = exports;
    this.base = Number(exports.__heap_base.value);
    exports.memory.grow(GROWN / PAGE);
    this.bytes = new Uint8Array(exports.memory.buffer);
    this.view = new DataView(exports.memory.buffer);
    this.isBusy = false;
    this.compare = exports.vulfsjor_ffi_memcmp;
    this.hashes = newTable();
    this.digests = newTable(); // views of the place of a digest, by its length
    this.at = {}; // the places as the library's pointers
    for (const [name, place] of Object.entries({
      state: STATE, out: OUT, tag: TAG, key: KEY, salt: SALT, personalization: PERSONALIZATION,
      limits: LIMITS, plan: PLAN, part: PART, node: NODE, records: RECORDS, outs: OUTS,
      messages: MESSAGES,
    })) {
      this.at[name] = BigInt(this.base + place);
    }
  }

  hash(kind) {
    return (this.hashes[kind.index] ??= new Hash(this, kind));
  }

  /** A function of trees. */
  treeFunction(call) {
    return this.exports[`vulfsjor_ffi_tree_${call}`];
  }

  /** Copies bytes to a place, and returns their number as the library's argument. */
  put(bytes, place) {
    const length = lengthOf(bytes);
    if (length > 0) this.bytes.set(bytes, this.base + place);
    return toBigInt(length);
  }

  read(place, length) {
    return this.bytes.slice(this.base + place, this.base + place + length);
  }

  /** The digest at OUT, as a new array. */
  digest(length) {
    return new Uint8Array(
      (this.digests[length] ??= this.bytes.subarray(this.base, this.base + length)));
  }

  /** Copies salt and personalization, and returns them as the library's arguments. */
  putSaltAndPersonalization({ salt, personalization }) {
    return [
      this.at.salt, this.put(salt, SALT),
      this.at.personalization, this.put(personalization, PERSONALIZATION),
    ];
  }

  /** Writes tree parameters as the library's struct. */
  putNode({ nodeOffset, leafLength, fanout, depth, nodeDepth, innerLength }) {
    this.view.setBigUint64(this.base + NODE, nodeOffset, true);
    this.view.setUint32(this.base + NODE + 8, leafLength, true);
    this.put(Uint8Array.of(fanout, depth, nodeDepth, innerLength), NODE + 12);
  }

  /** Initializes a state in the slot. */
  begin(kind, settings) {
    const { digestLength, salt, personalization, tree } = settings;
    const { at } = this;
    const hash = this.hash(kind);
    const size = toBigInt(digestLength);
    if (settings.node !== undefined || kind.isTree) return this.#beginTree(kind, settings);
    const key = this.put(settings.key, KEY);
    const salted = this.put(salt, SALT);
    const personal = this.put(personalization, PERSONALIZATION);
    if (tree === undefined) {
      assertAccepted(hash.initSaltPersonal(
        at.state, size, at.key, key, at.salt, salted, at.personalization, personal));
      return;
    }
    this.putNode(tree);
    assertAccepted(hash.initTree(
      at.state, size, at.key, key, at.salt, salted, at.personalization, personal, at.node));
    if (tree.lastNode) assertAccepted(hash.setLastNode(at.state, 1));
  }

  #beginTree(kind, settings) {
    const { digestLength, leafLength, node } = settings;
    const { state } = this.at;
    const size = toBigInt(digestLength);
    const words = [...this.putSaltAndPersonalization(settings), leafLength];
    if (node === undefined) assertAccepted(this.hash(kind).init(state, size, ...words));
    else if (node === "root") assertAccepted(this.treeFunction("init_root")(state, size, ...words));
    else assertAccepted(this.treeFunction("init_leaf")(state, node.first, node.ends ? 1 : 0, ...words));
  }

  /**
   * Absorbs the first bytes of the window, as many as wait there, and then a message into the state
   * in the slot. Returns false if it is too long.
   */
  updateFromWindow(kind, waiting, message) {
    const hash = this.hash(kind);
    const { window, atWindow } = hash;
    const piece = kind.isTree ? WINDOW_LENGTH : PIECE;
    const length = lengthOf(message);
    if (waiting + length <= piece) {
      this.bytes.set(message, window + waiting);
      return hash.update(this.at.state, atWindow, toBigInt(waiting + length)) === 0;
    }
    for (let at = 0, begin = waiting; at < length; begin = 0) {
      const size = Math.min(piece - begin, length - at);
      this.bytes.set(subarrayOf(message, at, size), window + begin);
      if (hash.update(this.at.state, atWindow, toBigInt(begin + size)) !== 0) return false;
      at += size;
    }
    return true;
  }

  /** Finalizes the state in the slot, and leaves the digest at OUT. */
  end(kind, digestLength) {
    assertAccepted(this.hash(kind).final(this.at.state, this.at.out, toBigInt(digestLength)));
  }

  /**
   * Sets to zero what a call has written: the bytes of the stack that it may have used, the short
   * arguments and the slot, and the used bytes of the window.
   */
  wipeAfterCall(kind, used) {
    const most = kind.isTree ? WINDOW_LENGTH : PIECE;
    this.bytes.fill(0, this.base - kind.stackLength, this.hash(kind).window + Math.min(used, most));
  }

  /** The same after a call that used this many bytes from MESSAGES on. */
  wipeFromMessages(used) {
    this.bytes.fill(0, this.base - DEEP, this.base + MESSAGES + used);
  }
}

/** A refusal here is a bug of this package: the caller's arguments have been checked. */
export function assertAccepted(status) {
  if (status !== 0) throw new Error("vulfsjor: the library refused a call");
}

const modules = [];

/** A module that this program uses: its bytes, and later what they compile to and its instance. */
export function newModule(decode) {
  const module = { decode, compiled: undefined, current: undefined, count: 0, initial: newTable() };
  modules.push(module);
  return module;
}

/** Compiles the modules that this program uses off the calling thread. */
export async function load() {
  await Promise.all(modules.map(async (module) => {
    module.compiled ??= await WebAssembly.compile(module.decode());
  }));
}

/** A compiled module. A worker is passed that of the thread that starts it. */
export function compile(module, given) {
  return (module.compiled ??= given ?? new WebAssembly.Module(module.decode()));
}

/**
 * Runs a function of the engine, a kind and these values. A call that throws inside the library,
 * such as on a full JavaScript stack, leaves the instance unusable and its memory half written. So
 * the memory is wiped and the instance dropped: here or, if even that throws, before the next call.
 *
 * The functions of short calls are outside of their callers, so that no closure is made.
 */
export function withEngine(work, kind, a, b, c, d) {
  const { module } = kind;
  if (module.current === undefined || module.current.isBusy) {
    dropEngine(module);
    module.current = new Engine(compile(module));
  }
  const engine = module.current;
  engine.isBusy = true;
  try {
    const result = work(engine, kind, a, b, c, d);
    engine.isBusy = false;
    return result;
  } finally {
    if (engine.isBusy) dropEngine(module);
  }
}

function dropEngine(module) {
  if (module.current === undefined) return;
  module.current.bytes.fill(0);
  module.current = undefined;
}

/** For tests: the bytes of the memories that there are now. */
export const memories = () => modules.flatMap(({ current }) => current?.bytes ?? []);

/**
 * States are cut from buffers of this length, since making a buffer takes longer than a short hash.
 * No part of one is used twice.
 */
export const SLAB = 16384;
let slab;
let taken = SLAB;

/**
 * A new state of zeros: the library's, and room after it, of which the first bytes may wait to be
 * absorbed, and the others are zeros. It is copied to the slot and the window by one call, since the
 * window follows the slot.
 */
export function newState(kind) {
  const length = kind.stateLength + kind.room;
  if (length > SLAB - taken) {
    slab = new ArrayBuffer(SLAB);
    taken = 0;
  }
  taken += length;
  return new Uint8Array(slab, taken - length, length);
}

/** A new state, initialized. Nothing waits after it. */
export function begin(kind, settings) {
  if (settings !== kind.plain) return withEngine(beginIn, kind, settings);
  // the same for each hash without options, and no secret
  const { initial } = kind.module;
  const state = newState(kind);
  state.set((initial[kind.index] ??= withEngine(beginIn, kind, settings)));
  return state;
}

function beginIn(engine, kind, settings) {
  engine.begin(kind, settings);
  const state = newState(kind);
  state.set(engine.hash(kind).slot);
  engine.wipeAfterCall(kind, 0);
  return state;
}

/**
 * Absorbs the bytes that wait after a state, of this number, and a message. Then nothing waits.
 * Returns false, and changes nothing, if it is too long.
 */
export const update = (kind, state, waiting, message) =>
  withEngine(updateIn, kind, state, waiting, message);

function updateIn(engine, kind, state, waiting, message) {
  engine.bytes.set(state, engine.base + STATE);
  const isAbsorbed = engine.updateFromWindow(kind, waiting, message);
  if (isAbsorbed) {
    state.set(engine.hash(kind).slot);
    if (waiting > 0) state.fill(0, kind.stateLength);
  }
  engine.wipeAfterCall(kind, waiting + lengthOf(message));
  return isAbsorbed;
}

/** Whether a state after which nothing waits would absorb a message. It stays as it is. */
export const canAbsorb = (kind, state, message) => withEngine(canAbsorbIn, kind, state, message);

function canAbsorbIn(engine, kind, state, message) {
  engine.bytes.set(state, engine.base + STATE);
  const isAccepted = engine.updateFromWindow(kind, 0, message);
  engine.wipeAfterCall(kind, lengthOf(message));
  return isAccepted;
}

// Puts a state into the slot, and absorbs what waits after it.
function putStateAndAbsorbWaiting(engine, kind, state, waiting) {
  engine.bytes.set(state, engine.base + STATE);
  if (waiting === 0) return;
  const hash = engine.hash(kind);
  assertAccepted(hash.update(engine.at.state, hash.atWindow, toBigInt(waiting)));
}

/** The digest of a state, which is then set to zero. */
export const final = (kind, state, waiting, digestLength) =>
  withEngine(finalIn, kind, state, waiting, digestLength);

function finalIn(engine, kind, state, waiting, digestLength) {
  putStateAndAbsorbWaiting(engine, kind, state, waiting);
  engine.end(kind, digestLength);
  const digest = engine.digest(digestLength);
  state.fill(0);
  engine.wipeAfterCall(kind, waiting);
  return digest;
}

/** Whether the tag is the digest of a state, which is then set to zero. */
export const verify = (kind, state, waiting, digestLength, tag) =>
  withEngine(verifyIn, kind, state, waiting, digestLength, tag);

function verifyIn(engine, kind, state, waiting, digestLength, tag) {
  putStateAndAbsorbWaiting(engine, kind, state, waiting);
  // a tag of another length is wrong, and the state is finalized all the same
  const length = lengthOf(tag) === digestLength ? engine.put(tag, TAG) : 0n;
  let status;
  if (kind.isTree) {
    engine.end(kind, digestLength);
    status = engine.compare(engine.at.out, BigInt(digestLength), engine.at.tag, length);
  } else {
    status = engine.hash(kind).verify(engine.at.state, engine.at.tag, length);
  }
  state.fill(0);
  engine.wipeAfterCall(kind, waiting);
  return status === 0;
}

/** The next bytes of the output of a state, or undefined, and no change, if fewer are left. */
export const squeeze = (kind, state, length) => withEngine(squeezeIn, kind, state, length);

function squeezeIn(engine, kind, state, length) {
  const hash = engine.hash(kind);
  engine.bytes.set(state, engine.base + STATE);
  let output;
  if (BigInt(length) <= hash.left(engine.at.state)) {
    output = new Uint8Array(length);
    for (let at = 0; at < length; at += PIECE) {
      const size = Math.min(PIECE, length - at);
      assertAccepted(hash.squeeze(engine.at.state, hash.atWindow, toBigInt(size)));
      output.set(engine.bytes.subarray(hash.window, hash.window + size), at);
    }
    state.set(hash.slot);
  }
  engine.wipeAfterCall(kind, length);
  return output;
}

/** How many bytes of the output of a state are left, as a bigint. */
export const left = (kind, state) => withEngine(leftIn, kind, state);

function leftIn(engine, kind, state) {
  engine.bytes.set(state, engine.base + STATE);
  const count = engine.hash(kind).left(engine.at.state);
  engine.wipeAfterCall(kind, 0);
  return count;
}

/** Resets a state to its start. Nothing waits after it then. */
export const reset = (kind, state) => withEngine(resetIn, kind, state);

function resetIn(engine, kind, state) {
  const hash = engine.hash(kind);
  engine.bytes.set(state, engine.base + STATE);
  assertAccepted(hash.reset(engine.at.state));
  state.fill(0);
  state.set(hash.slot);
  engine.wipeAfterCall(kind, kind.room);
}

/** A state without a key, with what waits after it, as bytes of the kind's savedLength. */
export const save = (kind, state, waiting) => withEngine(saveIn, kind, state, waiting);

function saveIn(engine, kind, state, waiting) {
  const { savedLength } = kind;
  putStateAndAbsorbWaiting(engine, kind, state, waiting);
  const { window, atWindow, save: write } = engine.hash(kind);
  assertAccepted(write(engine.at.state, atWindow, toBigInt(savedLength)));
  const saved = engine.bytes.slice(window, window + savedLength);
  engine.wipeAfterCall(kind, Math.max(waiting, savedLength));
  return saved;
}

/** A new state that was saved as these bytes, as many as savedLength, or undefined. */
export const loadState = (kind, saved) => withEngine(loadIn, kind, saved);

function loadIn(engine, kind, saved) {
  const { atWindow, load: read, slot, window } = engine.hash(kind);
  const state = newState(kind);
  engine.bytes.set(saved, window);
  const status = read(engine.at.state, atWindow, toBigInt(kind.savedLength));
  state.set(slot);
  engine.wipeAfterCall(kind, kind.savedLength);
  return status === 0 ? state : undefined;
}

/** The digest of one message. */
export const hash = (kind, message, settings) => withEngine(hashIn, kind, message, settings);

function hashIn(engine, kind, message, settings) {
  const { digestLength, key, isPlain } = settings;
  const { at } = engine;
  const length = lengthOf(message);
  if (isPlain && length <= PIECE) {
    const { one, window, atWindow } = engine.hash(kind);
    engine.bytes.set(message, window);
    assertAccepted(one(
      at.out, toBigInt(digestLength), atWindow, toBigInt(length), at.key, engine.put(key, KEY)));
  } else {
    engine.begin(kind, settings);
    if (!engine.updateFromWindow(kind, 0, message)) throw new Error("vulfsjor: the message is too long");
    engine.end(kind, digestLength);
  }
  const digest = engine.digest(digestLength);
  engine.wipeAfterCall(kind, length);
  return digest;
}

/** Whether two arrays are equal, by a comparison that reads all bytes of equal lengths. */
export function isSame(kind, a, b) {
  const length = lengthOf(a);
  return length === lengthOf(b) && withEngine(isSameIn, kind, a, b, length);
}

function isSameIn(engine, kind, a, b, length) {
  const most = Math.min(length, WINDOW_LENGTH / 2);
  const second = engine.at.messages + BigInt(most);
  let difference = 0;
  for (let at = 0; at < length; at += most) {
    const isWhole = most === length;
    const size = Math.min(most, length - at);
    const count = engine.put(isWhole ? a : subarrayOf(a, at, size), MESSAGES);
    engine.put(isWhole ? b : subarrayOf(b, at, size), MESSAGES + most);
    difference |= engine.compare(engine.at.messages, count, second, count);
  }
  engine.wipeFromMessages(2 * most);
  return difference === 0;
}
