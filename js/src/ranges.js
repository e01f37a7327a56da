// Ranges of leaves, as threads.js passes them to workers: their bytes or where they are, in a blob
// or in a file that is open in this process.

import { hashLeaves } from "./leaves.js";

function readFile({ fd, at, length }) {
  const { readSync } = globalThis.process.getBuiltinModule("node:fs");
  const bytes = new Uint8Array(length);
  for (let filled = 0; filled < length; ) {
    const count = readSync(fd, bytes, filled, length - filled, at + filled);
    if (count === 0) throw new Error(`the file ends at byte ${at + filled}`);
    filled += count;
  }
  return bytes;
}

/** The digests of the leaves of a range, which has one of message, blob and file. */
export async function digestsOfRange({ settings, range, message, blob, file }) {
  const bytes = blob === undefined
    ? message ?? readFile(file) : new Uint8Array(await blob.arrayBuffer());
  return hashLeaves(settings, range, bytes);
}
