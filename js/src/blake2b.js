// BLAKE2b of one message, in a module of its own.
import { BLAKE2B_NUMBERS, Kind, newModule } from "./engine.js";
import { Hasher, loadState, saveState, updateMany } from "./hashers.js";
import { decode } from "./wasm_blake2b.js";

export const BLAKE2B =
  /* @__PURE__ */ new Kind(/* @__PURE__ */ newModule(decode), BLAKE2B_NUMBERS);

export class Blake2b extends Hasher {
  constructor(options) {
    super(BLAKE2B, "Blake2b", options, arguments.length - 1);
  }

  save() {
    return saveState(BLAKE2B, this, arguments.length);
  }

  static load(saved) {
    const isOne = this === Blake2b || this?.prototype instanceof Blake2b;
    return loadState(BLAKE2B, "Blake2b", isOne, this, saved, arguments.length - 1);
  }

  static updateMany(hashes, pieces) {
    updateMany(BLAKE2B, "Blake2b", hashes, pieces, arguments.length - 2);
  }
}
