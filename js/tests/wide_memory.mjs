// Tries each COUNTth conformance case over the module that the proved source compiles to, whose memory has 64-bit
// addresses, in the place of the lowered ones:
//
//   node --experimental-wasm-memory64 tests/wide_memory.mjs COUNT
import { readFileSync } from "node:fs";
import { assertMemoriesAreWiped, conformanceCasesOf } from "./common.mjs";
import { HASHES, tryCases } from "./conformance_driver.mjs";

const { Instance, Module } = WebAssembly;
const wide = new Module(readFileSync(new URL("../../dist/wasm/vulfsjor.wasm", import.meta.url)));
WebAssembly.Module = class {};
WebAssembly.Instance = class {
  constructor() {
    const { memory, ...functions } = new Instance(wide).exports;
    const grow = (pages) => {
      try {
        memory.grow(BigInt(pages));
      } catch {
        memory.grow(pages); // as the engines did at first
      }
    };
    this.exports = { ...functions, memory: { grow, buffer: undefined } };
    Object.defineProperty(this.exports.memory, "buffer", { get: () => memory.buffer });
  }
};
const vulfsjor = await import("../index.js");
const all = HASHES.map((hash) => tryCases(vulfsjor, conformanceCasesOf(hash, Number(process.argv[2]))));
assertMemoriesAreWiped();
console.log(JSON.stringify({
  cases: all.reduce((sum, { cases }) => sum + cases, 0), wrong: all.flatMap(({ wrong }) => wrong).slice(0, 5),
}));
