// The conformance cases (tests/conformance/README.md) over the modules of the package, where nothing is left in the
// library's memory after a call, and some cases over the module that the proved source compiles to.
import assert from "node:assert/strict";
import { execFileSync } from "node:child_process";
import { join } from "node:path";
import test from "node:test";
import * as vulfsjor from "../index.js";
import { assertMemoriesAreWiped, conformanceCasesOf, HUGE, top } from "./common.mjs";
import { HASHES, tryCases } from "./conformance_driver.mjs";

// How many cases end at a call that the package does not have.
const SKIPPED = { blake2b: 155, blake2s: 151, blake2bp: 0, blake2sp: 0, blake2xb: 101, blake2xs: 111, tree: 106 };

for (const hash of HASHES) {
  test(`the conformance cases of ${hash}`, () => {
    let count = 0;
    const isClean = (name) => count++ % 7 === 1 && assertMemoriesAreWiped(`a call of ${name}`);
    const { cases, skipped, wrong } = tryCases(vulfsjor, conformanceCasesOf(hash), isClean);
    assert.deepEqual(wrong.slice(0, 5), []);
    assert.deepEqual([cases > 1000, skipped], [true, SKIPPED[hash]]);
  });
}

const EACH = HUGE ? 1 : 16;

test(`each ${EACH}th case over a memory with 64-bit addresses, which dist/wasm has`, () => {
  const flags = Number(process.versions.node.split(".")[0]) < 24 ? ["--experimental-wasm-memory64"] : [];
  const program = join(top, "tests/wide_memory.mjs");
  const text = execFileSync(process.execPath, [...flags, program, EACH], { encoding: "utf8" });
  const { cases, wrong } = JSON.parse(text);
  assert.deepEqual(wrong, []);
  assert.ok(cases > 11_000 / EACH, `${cases} cases`);
});
