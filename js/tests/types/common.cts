// Compiles in CommonJS, where a module is imported by a call.
// @ts-expect-error the package is a module
import vulfsjor = require("vulfsjor");

export const digest: Promise<Uint8Array> =
  import("vulfsjor").then(({ blake2b }) => blake2b(new Uint8Array(3), { digestLength: 32 }));
export { vulfsjor };
