#!/usr/bin/env node
// Writes what is made from dist/wasm/vulfsjor.wasm, the module that the proved source compiles to:
//
//   tools/build.mjs                writes src/wasm.js: the module with a 32-bit memory (memory32.mjs)
//                                  in base64, and the hashes of both; src/wasm_blake2b.js and
//                                  src/wasm_blake2s.js: the same with the functions of one hash;
//                                  src/build.js: its hash; and src/worker_text.js: the script of a
//                                  worker, from src/vulfsjor_worker.js
//   tools/build.mjs --check        compares these files with that instead
//   tools/build.mjs --page FILE    writes the page in one file, from src/ and the files of demo/
//
// It refuses a file of dist/ that is not the one that dist/MANIFEST names. `npm pack` and `npm install`
// of the folder run --check.
import { createHash } from "node:crypto";
import { readFileSync, writeFileSync } from "node:fs";
import { fileURLToPath } from "node:url";
import { bundle, stripCommentsAndIndentation } from "./bundle.mjs";
import { lower } from "./memory32.mjs";

const pathFromHere = (path) => fileURLToPath(new URL(path, import.meta.url));
const MODULE = pathFromHere("../../dist/wasm/vulfsjor.wasm");
const sha256 = (bytes, encoding = "hex") => createHash("sha256").update(bytes).digest(encoding);

function checkDist() {
  const lines = readFileSync(pathFromHere("../../dist/MANIFEST"), "utf8").matchAll(/^([0-9a-f]{64}) {2}([^.].*)$/gm);
  for (const [, sum, name] of lines) {
    if (sha256(readFileSync(pathFromHere(`../../dist/${name}`))) !== sum) {
      console.error(`build: dist/${name} is not as in dist/MANIFEST`);
      process.exit(1);
    }
  }
}

// The functions that src/engine.js calls of BLAKE2b and of BLAKE2s.
const CALLS = [
  "", "_init_salt_personal", "_init_tree", "_set_last_node", "_update", "_final", "_verify",
  "_reset", "_save", "_load",
];
const exportNamesOf = (name) => CALLS.map((call) => `vulfsjor_ffi_${name}${call}`);
const MODULES = {
  "wasm.js": undefined, // all functions
  "wasm_blake2b.js": [...exportNamesOf("blake2b"), "vulfsjor_ffi_memcmp"],
  "wasm_blake2s.js": exportNamesOf("blake2s"),
};

function wasmOf(module, names) {
  const lowered = lower(module, names);
  return `// Made by tools/build.mjs from dist/wasm/vulfsjor.wasm. Do not edit.
// sha256 of that module:       ${sha256(module)}
// sha256 of the lowered one:   ${sha256(lowered)}

const text =
  "${Buffer.from(lowered).toString("base64")}";

/** The module's bytes. */
export function decode() {
  const binary = atob(text);
  const bytes = new Uint8Array(binary.length);
  for (let i = 0; i < binary.length; i++) bytes[i] = binary.charCodeAt(i);
  return bytes;
}
`;
}

function lineOfManifest() {
  return `// Made by tools/build.mjs from dist/wasm/vulfsjor.wasm. Do not edit.

/** The line of dist/MANIFEST for the module. */
export const line = "${sha256(readFileSync(MODULE))}  wasm/vulfsjor.wasm";
`;
}

// The module comes with the first range, so the text leaves it out.
function workerText() {
  const modules = Object.keys(MODULES).map((name) => pathFromHere(`../src/${name}`));
  const script = stripCommentsAndIndentation(bundle(pathFromHere("../src/vulfsjor_worker.js"), modules));
  return `// Made by tools/build.mjs from vulfsjor_worker.js and what it imports. Do not edit.

/** The script of a worker. */
export const text =
  ${JSON.stringify(script)};
`;
}

// The page's policy allows its own script and style (by their hashes), WebAssembly, and workers
// from blob: URLs. It allows nothing else, and no connection.
function demoPage() {
  const read = (name) => readFileSync(pathFromHere(`../demo/${name}`), "utf8");
  const script = read("manifest.js") + read("page.js");
  const style = read("page.css");
  const allow = (text) => `'sha256-${sha256(text, "base64")}'`;
  const values = {
    policy: [
      "default-src 'none'", `script-src ${allow(script)} 'wasm-unsafe-eval'`,
      `style-src ${allow(style)}`, "worker-src blob:", "img-src data:", "base-uri 'none'",
      "form-action 'none'",
    ].join("; "),
    script,
    style,
    worker: bundle(pathFromHere("../demo/worker.js")),
    version: JSON.parse(readFileSync(pathFromHere("../package.json"), "utf8")).version,
    module: sha256(readFileSync(MODULE)),
  };
  for (const [name, text] of Object.entries(values)) {
    if (/<\/(script|style)|<!--/i.test(text)) {
      throw new Error(`build: the page's ${name} would end too early`);
    }
  }
  return read("page.html").replace(/@(\w+)@/g, (_, name) => values[name]);
}

function check(name, text) {
  if (readFileSync(pathFromHere(name), "utf8") === text) return;
  console.error(`build: ${pathFromHere(name)} is not what this script makes`);
  process.exitCode = 1;
}

checkDist();
const [option, file] = process.argv.slice(2);
if (option === "--page" && file !== undefined) writeFileSync(file, demoPage());
else if (option === undefined || option === "--check") {
  const put = option === undefined ? (name, text) => writeFileSync(pathFromHere(name), text) : check;
  for (const [name, exports] of Object.entries(MODULES)) {
    put(`../src/${name}`, wasmOf(readFileSync(MODULE), exports));
  }
  put("../src/build.js", lineOfManifest());
  put("../src/worker_text.js", workerText());
} else {
  console.error("usage: tools/build.mjs [--check | --page FILE]");
  process.exitCode = 2;
}
