"use strict";
// Reads what is pasted: digests, and lines of b2sum.

const LONGEST = { BLAKE2b: 512, BLAKE2s: 256, tree: 512 }; // digests, in bits

/** What a kind of digest is called. */
function nameOf({ family, bits }) {
  if (family !== "tree") return `${family}-${bits}`;
  return bits === LONGEST.tree ? "tree root" : `tree root, ${bits} bits`;
}

/** Whether two kinds are the same. */
const isSameKind = (a, b) =>
  a.family === b.family && a.bits === b.bits && a.leafLength === b.leafLength;

const TAG = /(BLAKE2b|BLAKE2s|BLAKE2b-tree-([1-9]\d{0,9}))(?:-([1-9]\d*))?/.source;
const TAGGED = new RegExp(`^${TAG} ?\\((.+)\\)[ \\t]*=[ \\t]*([\\da-fA-F]+)$`);
const UNTAGGED = /^([\da-fA-F]{32,128})(?:[ \t][ *]?(.+))?$/;
const WORD = /(?<!\w)([\da-fA-F]{128}|[\da-fA-F]{64})(?!\w)/;

// Kinds are those that may have this digest. A digest with no tag is none of a tree, unless it
// stands alone.
function entryWithoutTag(digits, name) {
  const bits = 4 * digits.length;
  const kinds = ["BLAKE2b", "BLAKE2s"].filter((family) => bits <= LONGEST[family])
    .map((family) => ({ family, bits, leafLength: undefined }));
  return { name, kinds, isAny: name === undefined, digest: digits.toLowerCase() };
}

function entryWithTag([, tag, leaf, length, name, digits]) {
  const family = leaf === undefined ? tag : "tree";
  const leafLength = leaf === undefined ? undefined : Number(leaf);
  const bits = 4 * digits.length;
  if (bits > LONGEST[family] || bits !== Number(length ?? LONGEST[family])) return undefined;
  if (leafLength >= 2 ** 32) return undefined;
  return {
    name, kinds: [{ family, bits, leafLength }], isAny: false, digest: digits.toLowerCase(),
  };
}

// The entry of a line: the digest, the name of its file and its last part, if there is one, and its
// kinds.
function entryOf(line) {
  const isEscaped = line.startsWith("\\");
  const text = (isEscaped ? line.slice(1) : line).trimEnd();
  const [tag, plain, word] = [TAGGED, UNTAGGED, WORD].map((form) => form.exec(text));
  const entry = tag ? entryWithTag(tag)
    : plain ? entryWithoutTag(plain[1], plain[2]) : word ? entryWithoutTag(word[1]) : undefined;
  if (entry === undefined || entry.digest.length % 2 !== 0) return undefined;
  if (isEscaped) {
    entry.name = entry.name?.replace(/\\(.)/g, (_, c) => ({ n: "\n", r: "\r" })[c] ?? c);
  }
  entry.base = entry.name?.split("/").pop(); // since the page does not know folders
  return entry;
}

/** The entries of a text, and the number of its lines that are none. */
function entriesOf(text) {
  const all = text.replace(/\s/g, ""); // a digest may be broken into lines
  if (/^([\da-fA-F]{64}|[\da-fA-F]{128})$/.test(all)) return { entries: [entryWithoutTag(all)], wrong: 0 };
  const lines = text.split(/\r?\n|\0/).map((line) => line.trimStart())
    .filter((line) => line !== "" && !line.startsWith("#"));
  const entries = lines.map(entryOf).filter((entry) => entry !== undefined);
  return { entries, wrong: lines.length - entries.length };
}

