// BLAKE2b, BLAKE2s (RFC 7693), BLAKE2bp, BLAKE2sp, BLAKE2Xb and BLAKE2Xs by proved functions.
// index.d.ts documents the interface.

import {
  OPTIONS, bytesOf, checkedSettings, flagOf, describeValue, lengthOf, offsetOf, readSettings, refuseExtraArguments,
  settingsOf, toArrayOfBytes,
} from "./src/arguments.js";
import { BLAKE2B, Blake2b } from "./src/blake2b.js";
import { BLAKE2S, Blake2s } from "./src/blake2s.js";
import { line } from "./src/build.js";
import { hash, isSame, load } from "./src/engine.js";
import { InvalidTagError } from "./src/hashers.js";
import { hex } from "./src/hex.js";
import { LEAF_DIGEST, hashLeaves, rootOfLeaves } from "./src/leaves.js";
import { hashMany } from "./src/many.js";
import { Blake2bp, Blake2sp } from "./src/parallel.js";
import { hashTransform, hashWritable } from "./src/pipes.js";
import { hashStream } from "./src/streams.js";
import * as threads from "./src/threads.js";
import { TreeHash } from "./src/tree_hash.js";
import {
  BLAKE2BP, BLAKE2SP, TREE, WHOLE_BLAKE2B, WHOLE_BLAKE2S,
} from "./src/whole_module.js";
import { Blake2xb, Blake2xs, deriveKey } from "./src/xof.js";

export {
  Blake2b, Blake2bp, Blake2s, Blake2sp, Blake2xb, Blake2xs, InvalidTagError, TreeHash, deriveKey,
  hashTransform, hashWritable, hex, load,
};

// The functions that are called for short messages count their arguments, so that no array of those
// beyond the last is made.
function hashOne(kind, caller, message, options, count) {
  refuseExtraArguments(count - 2, caller, 2);
  const bytes = bytesOf(message, caller, "message");
  return hash(kind, bytes, settingsOf(kind, options, caller));
}

function hashSeveral(kind, caller, messages, options, rest) {
  refuseExtraArguments(rest.length, caller, 2);
  const [, read] = readSettings(kind, options, caller, OPTIONS.basic);
  const given = toArrayOfBytes(messages, caller, "message");
  const settings = checkedSettings(kind, read, caller); // again, after code of the caller
  return hashMany(kind, given.map((message, i) => bytesOf(message, caller, `message ${i}`)), settings);
}

export function blake2b(message, options) {
  return hashOne(BLAKE2B, "blake2b", message, options, arguments.length);
}

export function blake2s(message, options) {
  return hashOne(BLAKE2S, "blake2s", message, options, arguments.length);
}

export function blake2bp(message, options) {
  return hashOne(BLAKE2BP, "blake2bp", message, options, arguments.length);
}

export function blake2sp(message, options) {
  return hashOne(BLAKE2SP, "blake2sp", message, options, arguments.length);
}

export function treeRoot(message, options) {
  return hashOne(TREE, "treeRoot", message, options, arguments.length);
}

// Where messages of a tree have to end (the library's limit).
const LIMIT = 2n ** 58n;

export function treeLeaves(message, options, ...rest) {
  refuseExtraArguments(rest.length, "treeLeaves", 2);
  const bytes = bytesOf(message, "treeLeaves", "message");
  const [settings, { first, ends }] = readSettings(TREE, options, "treeLeaves", OPTIONS.leaves);
  for (const [name, value] of [["first", first], ["ends", ends]]) {
    if (value === undefined) throw new TypeError(`treeLeaves: ${name} must be given`);
  }
  const range = {
    first: offsetOf(first, "treeLeaves", "first", LIMIT - 1n),
    ends: flagOf(ends, "treeLeaves", "ends"),
  };
  const length = lengthOf(bytes);
  if (!range.ends && length % settings.leafLength !== 0) {
    throw new RangeError(
      `treeLeaves: message must be whole leaves of ${settings.leafLength} bytes, not ${length} ` +
        "bytes, unless it ends",
    );
  }
  if (length === 0 && !(range.ends && range.first === 0n)) {
    throw new RangeError("treeLeaves: message must have at least one leaf");
  }
  if (range.first * BigInt(settings.leafLength) + BigInt(length) >= LIMIT) {
    throw new RangeError("treeLeaves: the leaves must end below byte 2^58 of the message");
  }
  return hashLeaves(settings, range, bytes);
}

export function treeRootOfLeaves(digests, options, ...rest) {
  refuseExtraArguments(rest.length, "treeRootOfLeaves", 2);
  const bytes = bytesOf(digests, "treeRootOfLeaves", "digests");
  const settings = settingsOf(TREE, options, "treeRootOfLeaves");
  const length = lengthOf(bytes);
  if (length === 0 || length % LEAF_DIGEST !== 0) {
    throw new RangeError(
      `treeRootOfLeaves: digests must have ${LEAF_DIGEST} bytes for each leaf, not ${length} bytes`,
    );
  }
  return rootOfLeaves(settings, bytes);
}

export function blake2bMany(messages, options, ...rest) {
  return hashSeveral(WHOLE_BLAKE2B, "blake2bMany", messages, options, rest);
}

export function blake2sMany(messages, options, ...rest) {
  return hashSeveral(WHOLE_BLAKE2S, "blake2sMany", messages, options, rest);
}

export function blake2bStream(source, options, ...rest) {
  return hashStream(BLAKE2B, Blake2b, "blake2bStream", source, options, rest);
}

export function blake2sStream(source, options, ...rest) {
  return hashStream(BLAKE2S, Blake2s, "blake2sStream", source, options, rest);
}

export function blake2bpStream(source, options, ...rest) {
  return hashStream(BLAKE2BP, Blake2bp, "blake2bpStream", source, options, rest);
}

export function blake2spStream(source, options, ...rest) {
  return hashStream(BLAKE2SP, Blake2sp, "blake2spStream", source, options, rest);
}

export function treeRootStream(source, options, ...rest) {
  return hashStream(TREE, TreeHash, "treeRootStream", source, options, rest, threads);
}

export function build(...rest) {
  refuseExtraArguments(rest.length, "build", 0);
  return line;
}

export function equal(a, b, ...rest) {
  refuseExtraArguments(rest.length, "equal", 2);
  return isSame(BLAKE2B, bytesOf(a, "equal", "a"), bytesOf(b, "equal", "b"));
}

// hex, utf8 and fromHex ignore further arguments, so that map() can call them.
export function utf8(text) {
  if (typeof text !== "string") {
    throw new TypeError(`utf8: text must be a string, not ${describeValue(text)}`);
  }
  // the encoder would replace each by U+FFFD, so that different strings had equal bytes
  if (/\p{Surrogate}/u.test(text)) {
    throw new RangeError("utf8: text has a lone surrogate");
  }
  return new TextEncoder().encode(text);
}

export function fromHex(text) {
  if (typeof text !== "string") {
    throw new TypeError(`fromHex: text must be a string, not ${describeValue(text)}`);
  }
  if (text.length % 2 !== 0 || /[^0-9a-fA-F]/.test(text)) {
    throw new RangeError("fromHex: text must be an even number of hexadecimal digits");
  }
  const byteAt = (_, i) => parseInt(text.slice(2 * i, 2 * i + 2), 16);
  return Uint8Array.from({ length: text.length / 2 }, byteAt);
}
