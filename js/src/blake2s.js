// BLAKE2s of one message, in a module of its own.
import { BLAKE2S_NUMBERS, Kind, newModule } from "./engine.js";
import { Hasher, loadState, saveState, updateMany } from "./hashers.js";
import { decode } from "./wasm_blake2s.js";

export const BLAKE2S =
  /* @__PURE__ */ new Kind(/* @__PURE__ */ newModule(decode), BLAKE2S_NUMBERS);

export class Blake2s extends Hasher {
  constructor(options) {
    super(BLAKE2S, "Blake2s", options, arguments.length - 1);
  }

  save() {
    return saveState(BLAKE2S, this, arguments.length);
  }

  static load(saved) {
    const isOne = this === Blake2s || this?.prototype instanceof Blake2s;
    return loadState(BLAKE2S, "Blake2s", isOne, this, saved, arguments.length - 1);
  }

  static updateMany(hashes, pieces) {
    updateMany(BLAKE2S, "Blake2s", hashes, pieces, arguments.length - 2);
  }
}
