// Made by tools/build.mjs from dist/wasm/vulfsjor.wasm. Do not edit.

/** The line of dist/MANIFEST for the module. */
export const line = "290a6bdac989fb0053fa2244d3b1352374c09670a769bf9b865a0da1564e97b2  wasm/vulfsjor.wasm";
