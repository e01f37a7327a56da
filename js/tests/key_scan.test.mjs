// Looks for pieces of a key in the whole memory of a process, after calls under the key.
import assert from "node:assert/strict";
import { spawn } from "node:child_process";
import { closeSync, openSync, readFileSync, readSync } from "node:fs";
import { join } from "node:path";
import test from "node:test";
import { HUGE, top } from "./common.mjs";

const program = join(top, "tests/keep_key.mjs");
const MOST = 2 ** 18;
const ZEROS = Buffer.alloc(MOST);

// How often any 8 bytes of the key, at a multiple of 8 of it, are in what the process may write.
function countPieces(pid, key) {
  const pieces = Array.from({ length: key.length / 8 }, (_, i) => key.subarray(8 * i, 8 * i + 8));
  const file = openSync(`/proc/${pid}/mem`);
  const buffer = Buffer.alloc(MOST);
  const countIn = (seen, piece) => {
    let count = 0;
    for (let at = seen.indexOf(piece); at >= 0; at = seen.indexOf(piece, at + 1)) count++;
    return count;
  };
  let count = 0;
  for (const [, from, to, name] of readFileSync(`/proc/${pid}/maps`, "latin1")
    .matchAll(/^(\w+)-(\w+) rw.. \S+ \S+ \S+ *(.*)$/gm)) {
    if (name === "[vvar]") continue;
    for (let at = BigInt(`0x${from}`), end = BigInt(`0x${to}`), length; at < end; at += BigInt(length)) {
      try {
        length = readSync(file, buffer, 0, Math.min(Number(end - at), MOST), at);
      } catch {
        break; // no memory behind it
      }
      if (length === 0) break;
      if (length === MOST && buffer.equals(ZEROS)) continue; // most of the memory was never written
      const seen = buffer.subarray(0, length);
      for (const piece of pieces) count += countIn(seen, piece);
    }
  }
  closeSync(file);
  return count;
}

async function countKeyPiecesAfter(form) {
  const child = spawn(process.execPath, [program, form], { stdio: ["pipe", "pipe", "inherit"] });
  let text = "";
  for await (const chunk of child.stdout) {
    text += chunk;
    if (text.endsWith("ready\n")) break;
  }
  const key = Buffer.from(text.split("\n")[0], "hex").map((byte) => byte ^ 0x5a);
  try {
    return countPieces(child.pid, key);
  } finally {
    child.stdin.write("x");
  }
}

// Without the full test those of BLAKE2b, since the same code has the other families, and no form that is a part of
// another one.
const FORMS = [
  ...["Blake2b", ...(HUGE ? ["Blake2s", "Blake2bp", "Blake2sp"] : [])].flatMap((name) => [
    `one call of ${name.toLowerCase()}`, `verify of ${name}`, `copy and reset of ${name}`,
    ...(HUGE ? [`digest of ${name}`, `empty digest of ${name}`, `wipe of ${name}`] : []),
  ]),
  "one call in the heap of blake2b", "digest in the heap of Blake2b", "blake2bMany", "dropped of Blake2b",
  "updateMany of Blake2b", ...(HUGE ? ["updateMany of Blake2s"] : []), "read and wipe", "deriveKey",
];

test("pieces of a key in the memory of the process", async (t) => {
  if (process.platform !== "linux") return t.skip("no /proc");
  let found;
  try {
    found = await countKeyPiecesAfter("a key that is not forgotten");
  } catch (fault) {
    if (!/^(EACCES|EPERM)$/.test(fault.code)) throw fault;
    return t.skip("the memory of a child cannot be read");
  }
  assert.ok(found >= 8, `${found} pieces of a key that is there`);
  for (const form of FORMS) {
    await t.test(form, async () => {
      const count = await countKeyPiecesAfter(form);
      t.diagnostic(`${form}: ${count}`);
      assert.equal(count, 0);
    });
  }
});
