// What tools/build.mjs, tools/bundle.mjs and tools/memory32.mjs write and refuse, and the policy of the page. That the
// modules of the package, which have hundreds of stores, copies and fills, run as that of dist/wasm does is shown by
// conformance.test.mjs.
import assert from "node:assert/strict";
import { execFileSync, spawnSync } from "node:child_process";
import { createHash } from "node:crypto";
import { cpSync, mkdirSync, readFileSync, statSync, writeFileSync } from "node:fs";
import { join } from "node:path";
import test from "node:test";
import vm from "node:vm";
import { bundle, stripCommentsAndIndentation } from "../tools/bundle.mjs";
import { lower } from "../tools/memory32.mjs";
import { newFolder, top } from "./common.mjs";

const sha256 = (bytes, encoding) => createHash("sha256").update(bytes).digest(encoding);
const CALLS = ["", "_final", "_init_salt_personal", "_init_tree", "_load", "_reset", "_save", "_set_last_node",
  "_update", "_verify"];
// The functions that the modules of one hash export.
const functionsOf = (...names) => names.map((name) => `vulfsjor_ffi_${name}`);
const NAMES = {
  blake2b: functionsOf(...CALLS.map((call) => `blake2b${call}`), "memcmp"),
  blake2s: functionsOf(...CALLS.map((call) => `blake2s${call}`)),
};
// A module with all of these names, of a function that does nothing.
const EXPORTS = Object.values(NAMES).flat().flatMap((name) => [name.length, ...Buffer.from(name), 0, 0]);
const MODULE = Uint8Array.of(0, 97, 115, 109, 1, 0, 0, 0, 1, 4, 1, 0x60, 0, 0, 3, 2, 1, 0, 5, 3, 1, 4, 1, 7,
  (EXPORTS.length + 1) % 128 + 128, (EXPORTS.length + 1) >> 7, Object.values(NAMES).flat().length, ...EXPORTS,
  10, 4, 1, 2, 0, 0x0b);

test("the files of modules in src/ are what tools/build.mjs makes, and those of one hash have only that", async () => {
  // As a command, as `make dist` runs it.
  execFileSync(join(top, "tools/build.mjs"), ["--check"]);
  for (const [name, calls] of Object.entries(NAMES)) {
    const module = new WebAssembly.Module((await import(`../src/wasm_${name}.js`)).decode());
    assert.deepEqual(WebAssembly.Module.exports(module).map((each) => each.name).sort(),
      ["__heap_base", "memory", ...calls].sort());
    assert.deepEqual(WebAssembly.Module.imports(module), []);
    assert.ok(statSync(join(top, `src/wasm_${name}.js`)).size < 37_000);
  }
});

// A copy of what the script reads, over this module, and what the script says there: its status and its errors.
function makeCopy() {
  const folder = newFolder();
  const file = (path) => join(folder, path);
  for (const part of ["src", "tools", "demo", "index.js", "package.json"]) {
    cpSync(join(top, part), file(`js/${part}`), { recursive: true });
  }
  mkdirSync(file("dist/wasm"), { recursive: true });
  writeFileSync(file("dist/wasm/vulfsjor.wasm"), MODULE);
  writeFileSync(file("dist/MANIFEST"), `${sha256(MODULE, "hex")}  wasm/vulfsjor.wasm\n`);
  const build = (...words) => {
    const all = [file("js/tools/build.mjs"), ...words];
    const { status, stderr } = spawnSync(process.execPath, all, { encoding: "utf8" });
    return [status, stderr];
  };
  return { file, build };
}

test("tools/build.mjs writes and compares the modules, and writes the page", () => {
  const { file, build } = makeCopy();
  assert.deepEqual(build(), [0, ""]);
  const made = ["wasm", "wasm_blake2b", "wasm_blake2s", "build", "worker_text"].map((name) => file(`js/src/${name}.js`));
  const textsOf = () => made.map((path) => readFileSync(path, "utf8"));
  const before = textsOf();
  assert.ok(before[3].endsWith(` = "${sha256(MODULE, "hex")}  wasm/vulfsjor.wasm";\n`));
  for (const text of before.slice(0, 3)) assert.ok(text.includes(`that module:       ${sha256(MODULE, "hex")}`));
  made.forEach((path, i) => writeFileSync(path, `${before[i]} `));
  assert.deepEqual(build("--check"),
    [1, made.map((path) => `build: ${path} is not what this script makes\n`).join("")]);
  assert.deepEqual(textsOf(), before.map((text) => `${text} `));
  const { scripts, version } = JSON.parse(readFileSync(join(top, "package.json"), "utf8"));
  for (const name of ["build", "page"]) execFileSync("sh", ["-c", scripts[name]], { cwd: file("js") });
  assert.deepEqual(textsOf(), before);
  for (const words of [["--page"], ["--pages", "x"]]) {
    assert.deepEqual(build(...words), [2, "usage: tools/build.mjs [--check | --page FILE]\n"]);
  }
  const page = readFileSync(file("js/demo/index.html"), "utf8");
  for (const part of [`vulfsjor ${version}, made from`, sha256(MODULE, "hex")]) assert.ok(page.includes(part), part);
  const hashOf = (name) => {
    const [, text] = new RegExp(`<${name}>([^]*?)</${name}>`).exec(page);
    return `'sha256-${sha256(text, "base64")}'`;
  };
  const [, policy] = /http-equiv="Content-Security-Policy" content="([^"]*)"/.exec(page);
  assert.deepEqual(policy.split("; "), [
    "default-src 'none'", `script-src ${hashOf("script")} 'wasm-unsafe-eval'`, `style-src ${hashOf("style")}`,
    "worker-src blob:", "img-src data:", "base-uri 'none'", "form-action 'none'",
  ]);
  writeFileSync(file("dist/wasm/vulfsjor.wasm"), "another module");
  assert.deepEqual(build("--check"), [1, "build: dist/wasm/vulfsjor.wasm is not as in dist/MANIFEST\n"]);
});

test("a text that would end its element of the page too early is refused", () => {
  const { file, build } = makeCopy();
  for (const [name, part, end] of [
    ["page.js", "script", "</script"], ["manifest.js", "script", "</STYLE>"], ["page.css", "style", "<!--"],
    ["worker.js", "worker", "</script"],
  ]) {
    const path = file(`js/demo/${name}`);
    const text = readFileSync(path, "utf8");
    writeFileSync(path, `${text}\n/* ${end} */\n`);
    const [status, said] = build("--page", file("page.html"));
    assert.match(said, new RegExp(`Error: build: the page's ${part} would end too early`), `${name} ${end}`);
    assert.equal(status, 1);
    writeFileSync(path, text);
  }
});

test("a bundle has what its modules export, and refuses forms that it does not know", () => {
  const folder = newFolder();
  const write = (name, text) => {
    writeFileSync(join(folder, name), text);
    return join(folder, name);
  };
  write("numbers.js", "export const two = 2;\nexport function three() { return 3; }\n" +
    "export class Four {}\nconst five = 5;\nexport { five };\n");
  const good = write("good.js", 'import { two, three, five } from "./numbers.js";\n' +
    'import * as all from "./numbers.js";\n// a comment\nsend([two, three(), five, Object.keys(all)]);\n');
  for (const script of [bundle(good), stripCommentsAndIndentation(bundle(good))]) {
    let sent;
    vm.runInNewContext(script, { send: (value) => (sent = value) });
    assert.deepEqual(JSON.parse(JSON.stringify(sent)), [2, 3, 5, ["two", "three", "Four", "five"]]);
  }
  for (const form of [
    'import two from "./numbers.js";', 'import "./numbers.js";', 'import { two as zwei } from "./numbers.js";',
    'import { two } from "./numbers.js"', "export { first as eins };", 'export * from "./numbers.js";',
    'export { two } from "./numbers.js";', "export default 5;", "export let six = 6;", "export var six = 6;",
    "  export const six = 6, seven = 7; export default six;", "const here = import.meta;",
    "const here = import.meta.resolve('x');",
  ]) {
    const path = write("bad.js", `const first = 1;\n${form}\nconst last = 1;\n`);
    assert.throws(() => bundle(path), { message: `bundle: an unknown form in ${path}` }, form);
  }
});

// A module of one function from an i64 to nothing, with a 64-bit memory, and this body.
const moduleOf = (...body) => Uint8Array.of(
  0, 97, 115, 109, 1, 0, 0, 0, 1, 5, 1, 0x60, 1, 0x7e, 0, 3, 2, 1, 0, 5, 3, 1, 4, 1,
  10, body.length + 4, 1, body.length + 2, 0, ...body, 0x0b);
const ADDRESS = [0x20, 0];
const DROP = 0x1a;
const CONSTANTS = { // each followed by the instruction that uses it
  i32: [0x41, 0x80, 0x7f], i64: [0x42, 0x80, 0x7f], f32: [0x43, 1, 2, 3, 4],
  f64: [0x44, 1, 2, 3, 4, 5, 6, 7, 8], v128: [0xfd, 12, ...Array(16).fill(5)],
};

const range = (first, last) => Array.from({ length: last - first + 1 }, (_, i) => first + i);

test("each access to the memory is lowered to a valid one", () => {
  const load = [...ADDRESS, 0xfd, 0, 0, 8];
  const store = [0xfd, 11, 0, 8];
  const { v128 } = CONSTANTS;
  const lanes = [ // extracted and put, of each shape
    [21, "i32", 0x36, 3], [22, "i32", 0x36, 3], [24, "i32", 0x36, 3], [25, "i32", 0x36, 3],
    [27, "i32", 0x36, 3], [29, "i64", 0x37, 1], [31, "f32", 0x38, 3], [33, "f64", 0x39, 1],
  ];
  for (const body of [
    ...range(0x28, 0x35).map((code) => [...ADDRESS, code, 0, 8, DROP]),
    ...["i32", "i64", "f32", "f64", "i32", "i32", "i64", "i64", "i64"].map((type, i) =>
      [...ADDRESS, ...CONSTANTS[type], 0x36 + i, 0, 8]),
    ...[...range(0, 10), 92, 93].map((code) => [...ADDRESS, 0xfd, code, 0, 8, DROP]),
    [...ADDRESS, ...v128, ...store],
    ...range(84, 91).map((code) => [...ADDRESS, ...v128, 0xfd, code, 0, 8, 1, ...(code < 88 ? [DROP] : [])]),
    // what follows an instruction with a lane or 16 bytes is lowered too
    [...ADDRESS, ...v128, ...v128, 0xfd, 13, ...Array(16).fill(5), ...store],
    ...lanes.map(([code, , storing, lane]) => [...ADDRESS, ...v128, 0xfd, code, lane, storing, 0, 8]),
    ...lanes.filter(([code]) => code !== 21 && code !== 24).map(([code, type, , lane]) =>
      [...ADDRESS, ...v128, ...CONSTANTS[type], 0xfd, code + 1, lane, ...store]),
    [...load, ...load, 0xfd, 0xae, 1, DROP], // i32x4.add
    [...ADDRESS, ...CONSTANTS.i32, ...ADDRESS, 0xfc, 11, 0], [...ADDRESS, ...ADDRESS, ...ADDRESS, 0xfc, 10, 0, 0],
    ...range(0, 7).map((code) => [...CONSTANTS[code % 4 < 2 ? "f32" : "f64"], 0xfc, code, DROP, ...load, DROP]),
    // blocks, branches, a table of them, select, locals
    [0x02, 0x40, 0x03, 0x40, 0x41, 0, 0x0d, 1, 0x41, 0, 0x0e, 1, 0, 1, 0x0b, 0x0b],
    [...Array(3).fill([0x02, 0x40]).flat(), 0x41, 0, 0x0e, 1, 0, 2, 0x36, 0, 8, 11, 11, 11],
    [0x41, 0, 0x04, 0x40, 0x0f, 0x05, 0x01, 0x0b, ...ADDRESS, 0x22, 0, 0x21, 0, 0x00],
    [...ADDRESS, ...ADDRESS, 0x41, 0, 0x1b, 0x29, 3, 8, 0x50, DROP, 0x0c, 0],
  ]) {
    assert.ok(WebAssembly.validate(lower(moduleOf(...body))), String(body));
  }
});

test("lower refuses what it does not know", () => {
  const refuses = (message, module, ...names) =>
    assert.throws(() => lower(Uint8Array.from(module), ...names), { message: `lower: ${message}` });
  const bytes = moduleOf(...ADDRESS, DROP);
  refuses("an export is absent", [...bytes.slice(0, 24), 7, 1, 0], ["no"]);
  refuses("the memory is not 64 bits wide", lower(bytes));
  refuses("the module ends too early", bytes.subarray(0, -1));
  refuses("this is not a WebAssembly module of version 1", bytes.subarray(1));
  const known = [
    ...range(0, 5), ...range(0x0b, 0x10), 0x1a, 0x1b, ...range(0x20, 0x24), ...range(0x28, 0x3e),
    ...range(0x41, 0xc4), 0xfc, 0xfd,
  ];
  const is = (code) => code.toString(16);
  for (const code of range(0, 255).filter((code) => !known.includes(code))) {
    refuses(`instruction 0x${is(code)} is not known`, moduleOf(code, 0, 0));
  }
  for (const code of [8, 9, ...range(12, 17)]) {
    refuses(`instruction 0xfc 0x${is(code)} is not known`, moduleOf(0xfc, code, 0, 0));
  }
  for (const code of [0, 5]) refuses(`instruction 0xfd 0x10${code} is not known`, moduleOf(0xfd, 0x80 + code, 2));
  for (const body of [
    [...ADDRESS, 0x28, 0x40, 1, 0, DROP], [...ADDRESS, ...ADDRESS, ...ADDRESS, 0xfc, 10, 0, 1],
    [...ADDRESS, ...ADDRESS, ...ADDRESS, 0xfc, 10, 1, 0], [...ADDRESS, ...CONSTANTS.i32, ...ADDRESS, 0xfc, 11, 1],
  ]) {
    refuses("several memories", moduleOf(...body));
  }
  refuses("a number is not in its shortest form", // that of groups of locals
    [...moduleOf().slice(0, 24), 10, 5, 1, 3, 0x80, 0, 0x0b]);
  const far = (...last) => moduleOf(...ADDRESS, 0x28, 2, ...last, DROP);
  refuses("a number is too large for 32 bits", far(0x80, 0x80, 0x80, 0x80, 0x10));
  assert.ok(WebAssembly.validate(lower(far(0xff, 0xff, 0xff, 0xff, 0x0f)))); // the greatest number that is not
});

test("lower refuses sections that it does not know, and data in other forms", () => {
  const lowered = (...sections) => [...lower(Uint8Array.of(0, 97, 115, 109, 1, 0, 0, 0, ...sections))].slice(8);
  const memory = [5, 3, 1, 4, 1];
  const data = (...content) => [...memory, 11, content.length, ...content];
  const early = "the module ends too early";
  for (const [message, ...sections] of [
    ...[2, 4, 8, 9, 12, 13].map((id) => [`section 0x${id.toString(16)} is not known`, id, 1, 0]),
    [early, 5], [early, 5, 4, 1, 4, 1], ["a type is not a function's", 1, 4, 1, 0x5f, 0, 0],
    ["there is not one memory", 5, 5, 2, 4, 1, 4, 1],
    ...[0, 1, 2, 3, 6, 7].map((flags) => ["the memory is not 64 bits wide", 5, 3, 1, flags, 1]),
    ["data without a plain address", ...data(1, 1, 1, 7)], // passive
    ["data without a plain address", ...data(1, 0, 0x23, 0, 0x0b, 1, 7)], // a global
    ["a wrong address", ...data(1, 0, 0x42, 0x7f, 0x0b, 1, 7)], // -1
    ["a wrong address", ...data(1, 0, 0x42, 0, 0x01, 0x0b, 1, 7)],
    ["a wrong address", ...data(1, 0, 0x42, 0x80, 0x80, 0x80, 0x80, 0x08, 0x0b, 1, 7)], // 2^31
    [early, ...data(1, 0, 0x42, 0, 0x0b, 2, 7)],
  ]) {
    assert.throws(() => lowered(...sections), { message: `lower: ${message}` });
  }
  assert.deepEqual(lowered(...data(1, 0, 0x42, 0xff, 0xff, 0xff, 0xff, 0x07, 0x0b, 2, 7, 8)),
    [5, 3, 1, 0, 1, 11, 12, 1, 0, 0x41, 0xff, 0xff, 0xff, 0xff, 0x07, 0x0b, 2, 7, 8]);
  assert.deepEqual(lowered(5, 4, 1, 5, 1, 2), [5, 4, 1, 1, 1, 2]); // a maximum is kept
  assert.deepEqual(lowered(0, 3, 1, 97, 5, ...memory), [5, 3, 1, 0, 1]); // no names
});
