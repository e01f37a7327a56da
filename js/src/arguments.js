// Checks arguments. Everything that a caller passes is read and checked here, once and before the
// library's memory is touched. So no code of the caller runs in between, and a refused call changes
// nothing.

const TypedArray = Object.getPrototypeOf(Uint8Array);
const EMPTY = new Uint8Array(0);

// The getter of a built-in property, as a function of the object. It reads the object itself,
// whatever a subclass or another realm defines under that name. Engines compile a call to a load.
const getterOf = (prototype, name) =>
  Function.prototype.call.bind(Object.getOwnPropertyDescriptor(prototype, name).get);

const ofTyped = {
  buffer: getterOf(TypedArray.prototype, "buffer"),
  byteOffset: getterOf(TypedArray.prototype, "byteOffset"),
  byteLength: getterOf(TypedArray.prototype, "byteLength"),
};
const ofDataView = {
  buffer: getterOf(DataView.prototype, "buffer"),
  byteOffset: getterOf(DataView.prototype, "byteOffset"),
  byteLength: getterOf(DataView.prototype, "byteLength"),
};
// The name of the class of a typed array, whatever its object says, and undefined for all else.
const nameOfTyped = getterOf(TypedArray.prototype, Symbol.toStringTag);
const keysOfTyped = TypedArray.prototype.keys;
const lengthsOfBuffers = [getterOf(ArrayBuffer.prototype, "byteLength")];
if (typeof SharedArrayBuffer !== "undefined") {
  lengthsOfBuffers.push(getterOf(SharedArrayBuffer.prototype, "byteLength"));
}

function isBuffer(value) {
  if (typeof value !== "object" || value === null) return false;
  return lengthsOfBuffers.some((lengthOf) => {
    try {
      lengthOf(value);
      return true;
    } catch {
      return false;
    }
  });
}

// The same memory as a Uint8Array. Throws if the memory is gone (detached, or a view past the end
// of a buffer that has shrunk). A Uint8Array is returned as it is: V8 keeps up to 64 bytes inside
// the object, and reading its buffer moves them elsewhere and leaves a copy.
function viewAsUint8Array(value) {
  if (!ArrayBuffer.isView(value)) return new Uint8Array(value);
  const name = nameOfTyped(value);
  const of = name === undefined ? ofDataView : ofTyped;
  const length = of.byteLength(value);
  if (length === 0 && name !== undefined) Reflect.apply(keysOfTyped, value, []);
  if (name === "Uint8Array") return value;
  return new Uint8Array(of.buffer(value), of.byteOffset(value), length);
}

/** The length of what bytesOf returns, whatever a subclass says. */
export const lengthOf = ofTyped.byteLength;

/** A copy of what bytesOf returns. */
export function copyOf(bytes) {
  const copy = new Uint8Array(lengthOf(bytes));
  copy.set(bytes);
  return copy;
}

/** A part of what bytesOf returns, as a view. */
export function subarrayOf(bytes, begin, length) {
  return new Uint8Array(ofTyped.buffer(bytes), ofTyped.byteOffset(bytes) + begin, length);
}

const { hasOwnProperty } = Object.prototype;

// Whether this is an object such as {}, of any realm: one that inherits nothing except from
// Object.prototype, which alone has isPrototypeOf.
function isPlain(value) {
  if (typeof value !== "object" || value === null) return false;
  const prototype = Object.getPrototypeOf(value);
  if (prototype === Object.prototype || prototype === null) return true;
  return Object.getPrototypeOf(prototype) === null &&
    Reflect.apply(hasOwnProperty, prototype, ["isPrototypeOf"]);
}

/** What a value is, for an error message. */
export function describeValue(value) {
  if (value === null || value === undefined) return String(value);
  if (Array.isArray(value)) return "an array";
  if (typeof value !== "object") return `a ${typeof value}`;
  const name = isPlain(value) ? undefined : Object.getPrototypeOf(value).constructor?.name;
  return name ? `an instance of ${name}` : "an object";
}

/** Whether a value is a view or a buffer. */
export const isBytes = (value) => ArrayBuffer.isView(value) || isBuffer(value);

/**
 * Whether a value is a Uint8Array that is not empty, as most are. Nothing else has this name, and
 * memory that is gone has no length.
 */
export const isFilledUint8Array = (value) => nameOfTyped(value) === "Uint8Array" && lengthOf(value) > 0;

/**
 * The bytes of a message, key, salt or tag: a Uint8Array over the caller's own memory. It may be an
 * instance of a subclass, so only lengthOf, subarrayOf, copyOf and set() of another array read it.
 */
export function bytesOf(value, caller, what) {
  if (isFilledUint8Array(value)) return value;
  if (!isBytes(value)) {
    const hint = typeof value === "string" ? " (utf8() encodes a string)" : "";
    throw new TypeError(
      `${caller}: ${what} must be a Uint8Array, another view or an ArrayBuffer, ` +
        `not ${describeValue(value)}${hint}`,
    );
  }
  try {
    return viewAsUint8Array(value);
  } catch {
    throw new TypeError(`${caller}: the memory of ${what} is detached or has shrunk`);
  }
}

const iteratorOfArrays = Array.prototype[Symbol.iterator];

/**
 * The values of an iterable as an array, each mapped if there is a function for that. An iterable
 * may run code of the caller, so check the values after all lists of a call are taken.
 */
export function toArray(values, caller, what, of, each) {
  const isIterable = typeof values?.[Symbol.iterator] === "function";
  if (!isIterable || typeof values === "string" || ArrayBuffer.isView(values)) {
    throw new TypeError(
      `${caller}: ${what} must be an iterable of ${of}, not ${describeValue(values)}` +
        (of === "bytes" && isBytes(values) ? `; several ${what} are expected, not one` : ""),
    );
  }
  return each === undefined ? [...values] : Array.from(values, each);
}

/**
 * The same for bytes, which bytesOf has to check then. What an array holds is there all at once.
 * Any other iterable may yield one buffer that it fills again and again, so each is copied before
 * the next is asked for.
 */
export function toArrayOfBytes(values, caller, what) {
  const isArray = Array.isArray(values) && values[Symbol.iterator] === iteratorOfArrays;
  const copy = (value, i) => copyOf(bytesOf(value, caller, `${what} ${i}`));
  return toArray(values, caller, `${what}s`, "bytes", isArray ? undefined : copy);
}

// What bytesOf returns, with a length between the bounds; empty if the value is undefined.
function boundedBytesOf(value, caller, what, least, most) {
  if (value === undefined) return EMPTY;
  const bytes = bytesOf(value, caller, what);
  const length = lengthOf(bytes);
  if (length < least || length > most) {
    throw new RangeError(`${caller}: ${what} must have ${least} to ${most} bytes, not ${length}`);
  }
  return bytes;
}

/** An integer between the bounds, or the default if the value is undefined. */
export function integerOf(value, caller, what, least, most, otherwise) {
  if (value === undefined) return otherwise;
  if (typeof value !== "number") {
    throw new TypeError(`${caller}: ${what} must be a number, not ${describeValue(value)}`);
  }
  if (!Number.isInteger(value) || value < least || value > most) {
    throw new RangeError(
      `${caller}: ${what} must be an integer from ${least} to ${most}, not ${value}`,
    );
  }
  return value;
}

/** An integer from 0 to a bound that may have more than 53 bits, as a BigInt; 0 if undefined. */
export function offsetOf(value, caller, what, most) {
  if (value === undefined) return 0n;
  if (typeof value !== "number" && typeof value !== "bigint") {
    throw new TypeError(`${caller}: ${what} must be a number or a bigint, not ${describeValue(value)}`);
  }
  const isWhole = typeof value === "bigint" || Number.isSafeInteger(value);
  if (!isWhole || value < 0 || value > most) {
    throw new RangeError(
      `${caller}: ${what} must be an integer from 0 to ${most}, not ${value}` +
        (Number.isInteger(value) && !isWhole ? " (pass a bigint)" : ""),
    );
  }
  return BigInt(value);
}

/** A boolean; false if the value is undefined. */
export function flagOf(value, caller, what) {
  if (value !== undefined && typeof value !== "boolean") {
    throw new TypeError(`${caller}: ${what} must be a boolean, not ${describeValue(value)}`);
  }
  return value === true;
}

// The options that a call has read, undefined if they are not given. All have their places, so that
// reading them is fast.
class OptionValues {
  digestLength; key; salt; personalization; tree; outputLength; leafLength;
  first; ends; onProgress; signal; threads; onFallback;
  fanout; depth; nodeOffset; nodeDepth; innerLength; lastNode;
}

/**
 * The known options, each read once and from the object itself, and undefined if it is not given. An
 * unknown name is refused, since a misspelled key or digestLength would silently return another
 * digest. Names that are not enumerable count too. A key that is given and undefined is refused:
 * under a missing setting anybody could make the tags. Symbols are ignored: they are no misspelled
 * names, libraries mark objects with them, and a MAC of 64 bytes would take 8% longer to list them.
 */
function readKnownOptions(options, caller, what, known) {
  const read = new OptionValues();
  if (options === undefined) return read;
  // a promise, a map or bytes have no property of an option, and would pass for none given
  if (!isPlain(options)) {
    throw new TypeError(`${caller}: ${what} must be a plain object, not ${describeValue(options)}`);
  }
  for (const name of Object.getOwnPropertyNames(options)) {
    if (!known.includes(name)) refuseUnknownOption(name, caller, what, known);
    read[name] = options[name];
    if (name === "key" && read.key === undefined) {
      throw new TypeError(
        `${caller}: key must not be undefined; for a hash without a key leave the option out`,
      );
    }
  }
  return read;
}

function refuseUnknownOption(name, caller, what, known) {
  throw new TypeError(
    `${caller}: unknown property ${JSON.stringify(name)} of ${what}; ` +
      `known are ${known.join(", ")}`,
  );
}

const POSITION = [
  "fanout", "depth", "leafLength", "nodeOffset", "nodeDepth", "innerLength", "lastNode",
];

function treePositionOf(tree, kind, caller) {
  if (tree === undefined) return undefined;
  const given = readKnownOptions(tree, caller, "tree", POSITION);
  return {
    fanout: integerOf(given.fanout, caller, "tree.fanout", 0, 255, 1),
    depth: integerOf(given.depth, caller, "tree.depth", 1, 255, 1),
    leafLength: integerOf(given.leafLength, caller, "tree.leafLength", 0, 2 ** 32 - 1, 0),
    nodeOffset: offsetOf(given.nodeOffset, caller, "tree.nodeOffset", kind.maxNodeOffset),
    nodeDepth: integerOf(given.nodeDepth, caller, "tree.nodeDepth", 0, 255, 0),
    innerLength: integerOf(given.innerLength, caller, "tree.innerLength", 0, kind.digestLength, 0),
    lastNode: flagOf(given.lastNode, caller, "tree.lastNode"),
  };
}

/** The names of the options of the calls. */
export const OPTIONS = Object.freeze({
  basic: ["digestLength", "key", "salt", "personalization"],
  hash: ["digestLength", "key", "salt", "personalization", "tree"],
  output: ["outputLength", "key", "salt", "personalization"],
  tree: ["leafLength", "digestLength", "salt", "personalization"],
  leaves: ["leafLength", "first", "ends", "salt", "personalization"],
});

/** The settings of a hash without options. */
export const settingsWithoutOptions = (digestLength) => Object.freeze({
  digestLength, key: EMPTY, salt: EMPTY, personalization: EMPTY, tree: undefined,
  leafLength: undefined, node: undefined, isPlain: true,
});

/**
 * The checked settings of a hash: digestLength, key, salt and personalization (empty if not given),
 * tree (the position of a node), and leafLength if the hash is a tree's. isPlain says that there is
 * at most a length and a key. All code of the caller runs before a length of bytes is checked: a
 * getter could take the memory of a key away, and leave a hash without one.
 */
export function settingsOf(kind, options, caller) {
  if (options === undefined && kind.plain !== undefined) return kind.plain;
  return checkedSettings(kind, readKnownOptions(options, caller, "options", OPTIONS[kind.options]), caller);
}

/** The same, and all options as they were read. known has the names of the call's options. */
export function readSettings(kind, options, caller, known = OPTIONS[kind.options]) {
  const read = readKnownOptions(options, caller, "options", known);
  return [checkedSettings(kind, read, caller), read];
}

/** The checked settings from options that were read, again if code of the caller ran in between. */
export function checkedSettings(kind, read, caller) {
  const tree = treePositionOf(read.tree, kind, caller); // which may have getters
  const most = kind.digestLength;
  const shorter = kind.saltLength;
  const digestLength = integerOf(read.digestLength, caller, "digestLength", 1, most, most);
  const key = boundedBytesOf(read.key, caller, "key", 1, kind.keyLength);
  const salt = boundedBytesOf(read.salt, caller, "salt", 0, shorter);
  const personalization =
    boundedBytesOf(read.personalization, caller, "personalization", 0, shorter);
  let { leafLength } = read;
  if (kind.isTree) {
    if (leafLength === undefined) throw new TypeError(`${caller}: leafLength must be given`);
    leafLength = integerOf(leafLength, caller, "leafLength", 1, 2 ** 32 - 1);
  }
  const isPlain = !kind.isTree && tree === undefined && lengthOf(salt) === 0 &&
    lengthOf(personalization) === 0;
  return {
    digestLength, key, salt, personalization, tree, leafLength, node: undefined, isPlain,
  };
}

/** Refuses a method that was called without its object, as after `const { update } = hash`. */
export function refuseCallWithoutObject(call, what) {
  throw new TypeError(`${call}: called without its ${what}; use it as ${what}.${call}`);
}

/** Refuses this many further arguments: others accept a key, a length or an encoding there. */
export function refuseExtraArguments(more, caller, count, hint = "key, length and so on are options") {
  if (more <= 0) return;
  throw new TypeError(
    `${caller}: too many arguments, ${count + more} instead of at most ${count}; ${hint}`,
  );
}
