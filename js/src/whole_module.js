// The module with all functions, and its hashes: several messages, parallel forms, outputs of any
// length, and trees.
import { BLAKE2B_NUMBERS, BLAKE2S_NUMBERS, Kind, compile, newModule } from "./engine.js";
import { decode } from "./wasm.js";

const module = /* @__PURE__ */ newModule(decode);

/** The compiled module. A worker is passed that of the thread that starts it. */
export const moduleOf = (given) => compile(module, given);

export const WHOLE_BLAKE2B = /* @__PURE__ */ new Kind(module, BLAKE2B_NUMBERS);
export const WHOLE_BLAKE2S = /* @__PURE__ */ new Kind(module, BLAKE2S_NUMBERS);
// Their trees are fixed, so they are used as if they had none.
export const BLAKE2BP = /* @__PURE__ */ new Kind(module, {
  name: "blake2bp",
  digestLength: 64,
  keyLength: 64,
  saltLength: 16,
  blockLength: 128,
  stateLength: 1632,
});
export const BLAKE2SP = /* @__PURE__ */ new Kind(module, {
  name: "blake2sp",
  digestLength: 32,
  keyLength: 32,
  saltLength: 8,
  blockLength: 64,
  stateLength: 1600,
});
// The length of an output that is not known in advance is digestLength.
export const BLAKE2XB = /* @__PURE__ */ new Kind(module, {
  name: "blake2xb",
  digestLength: 2 ** 32 - 1,
  keyLength: 64,
  saltLength: 16,
  blockLength: 128,
  stateLength: 464,
  options: "output",
});
export const BLAKE2XS = /* @__PURE__ */ new Kind(module, {
  name: "blake2xs",
  digestLength: 2 ** 16 - 1,
  keyLength: 32,
  saltLength: 8,
  blockLength: 64,
  stateLength: 248,
  options: "output",
});
export const TREE = /* @__PURE__ */ new Kind(module, {
  name: "tree",
  digestLength: 64,
  saltLength: 16,
  blockLength: 128,
  stateLength: 752,
  options: "tree",
});
