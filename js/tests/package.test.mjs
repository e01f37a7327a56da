// The package as npm packs it, its types, and its pages: each example prints what the comments after its lines say, and
// names and numbers are those of the code.
import assert from "node:assert/strict";
import { execFileSync, spawnSync } from "node:child_process";
import { cpSync, mkdirSync, readFileSync, readdirSync, rmSync, writeFileSync } from "node:fs";
import { join } from "node:path";
import test from "node:test";
import { format } from "node:util";
import { gzipSync } from "node:zlib";
import { callRow, hashRow, rootRow } from "../../bench/javascript.mjs";
import * as vulfsjor from "../index.js";
import { BLAKE2B } from "../src/blake2b.js";
import { BLAKE2S } from "../src/blake2s.js";
import { SLAB, WAITING, memories } from "../src/engine.js";
import { LEAF_DIGEST } from "../src/leaves.js";
import { MOST_THREADS } from "../src/platform.js";
import { LONGEST_LEAF } from "../src/threads.js";
import { TREE } from "../src/whole_module.js";
import { INDEX, hasCommand, newFolder, top, withReplacedProperties } from "./common.mjs";

const read = (path) => readFileSync(join(top, path), "utf8");

test("npm packs what programs need, and installs it by the command of the pages, as a copy", (t) => {
  if (!hasCommand("npm")) return t.skip("no npm");
  const command = "npm install --install-links PATH/js";
  const commands = ["../README.md", "README.md"].map((page) => read(page).match(/npm install [^`\n]*/g));
  assert.deepEqual(commands, [[command], [command]]);
  const folder = newFolder();
  const path = join(folder, "a clone");
  cpSync(top, join(path, "js"), { recursive: true });
  cpSync(join(top, "../dist"), join(path, "dist"), { recursive: true });
  const [npm, ...words] = command.split(" ").map((word) => word.replace("PATH", path));
  const cwd = join(folder, "app");
  mkdirSync(cwd);
  execFileSync(npm, [...words, "--offline", "--no-audit", "--no-fund"], { cwd, stdio: "pipe" });
  rmSync(path, { recursive: true }); // which is needed no longer
  const installed = join(cwd, "node_modules/vulfsjor");
  const files = readdirSync(installed, { recursive: true }).filter((name) => /\./.test(name)).sort();
  assert.deepEqual(files, [
    "README.md", "index.d.ts", "index.js", "package.json", ...[
      "arguments", "blake2b", "blake2s", "build", "engine", "hashers", "hex", "leaves", "many", "parallel", "pipes", "platform",
      "ranges", "streams", "threads", "tree_hash", "vulfsjor_worker", "wasm", "wasm_blake2b", "wasm_blake2s",
      "whole_module", "worker_text", "workers", "xof",
    ].map((name) => `src/${name}.js`),
  ]);
  const { length } = gzipSync(Buffer.concat(files.map((name) => readFileSync(join(installed, name)))));
  assert.ok(length <= 170_000, `${length} bytes`);
  const run = (...words) => execFileSync(process.execPath, words, { cwd, encoding: "utf8" });
  const print = 'console.log(hex(blake2b(utf8("abc"))).slice(0, 8));';
  const program = `import { blake2b, hex, treeRootStream, utf8 } from "vulfsjor"; ${print}
    const root = await treeRootStream(new Blob(["abc"]), { leafLength: 2, threads: 2 });
    console.log(hex(root).slice(0, 8));`;
  // the RFC's and hashlib's
  assert.equal(run("--input-type=module", "-e", program), "ba80a53f\n19fc31bb\n");
  // from CommonJS: in each version by a call, and by require in those that can
  const forms = ["await import", ...(process.features.require_module ? ["require"] : [])];
  const calls = forms.map((form) => `{ const { blake2b, hex, utf8 } = ${form}("vulfsjor"); ${print} }`);
  const inCommon = `(async () => { console.log(require("vulfsjor/package.json").name); ${calls.join(" ")} })();`;
  assert.equal(run("--no-warnings", "-e", inCommon), `vulfsjor\n${"ba80a53f\n".repeat(forms.length)}`);
});

test("the types say what the functions accept", (t) => {
  if (!hasCommand("tsc")) return t.skip("no tsc");
  const folder = newFolder();
  mkdirSync(join(folder, "node_modules/vulfsjor"), { recursive: true });
  for (const file of ["package.json", "index.d.ts", "index.js"]) {
    cpSync(join(top, file), join(folder, "node_modules/vulfsjor", file));
  }
  cpSync(join(top, "tests/types"), folder, { recursive: true });
  writeFileSync(join(folder, "package.json"), '{"type": "module"}');
  const lines = read("tests/types/calls.ts").trimEnd().split("\n");
  const last = lines.findIndex((line) => line.startsWith("// Each line from here on is an error."));
  const wrong = lines.slice(last + 1).map((_, i) => `calls.ts(${last + 2 + i}`);
  // both by one start of the compiler
  for (const [name, lib, ...files] of [
    ["all", ["es2022", "dom", "dom.iterable"], "calls.ts", "common.cts"], ["plain", ["es2018"], "plain.ts"],
  ]) {
    writeFileSync(join(folder, `${name}.json`), JSON.stringify({ files, compilerOptions: {
      noEmit: true, strict: true, exactOptionalPropertyTypes: true, skipDefaultLibCheck: true, target: "es2022",
      module: "node16", lib, types: [],
    } }));
  }
  const { stdout } = spawnSync("tsc", ["--build", "all.json", "plain.json"], { cwd: folder, encoding: "utf8" });
  assert.deepEqual(stdout.match(/^[\w./]+(\(\d+)?/gm) ?? [], wrong, stdout);
});

for (const [page, count] of [["README.md", 6], ["../README.md", 1]]) {
  test(`each example of ${page} runs alone`, async () => {
    const blocks = [...read(page).matchAll(/```js\n([^`]*)```/g)];
    assert.equal(blocks.length, count);
    for (const [, block] of blocks) {
      const wanted = [...block.matchAll(/; \/\/ (.*)$/gm)].map(([, line]) => line);
      assert.ok(wanted.length > 0, block);
      const printed = [];
      const program = encodeURIComponent(block.replace('"vulfsjor"', INDEX));
      await withReplacedProperties(console, { log: (...words) => printed.push(format(...words)) }, () =>
        import(`data:text/javascript,${program}`));
      assert.deepEqual(printed, wanted);
    }
  });
}

test("the names and numbers in index.d.ts and README.md are those of the code", () => {
  const [b, s] = [BLAKE2B, BLAKE2S];
  const power = (max) => `2^${max.toString(2).length}`;
  const numeral = { 4: "Four", 8: "Eight" };
  vulfsjor.blake2b(new Uint8Array(0)); // so that there is a memory
  const declared = read("index.d.ts").matchAll(/^export (?:class|function) (\w+)/gm);
  assert.deepEqual(Object.keys(vulfsjor).sort(), [...declared].map(([, name]) => name).sort());
  const types = read("index.d.ts").replace(/\s+(\* )?/g, " ");
  const page = read("README.md").replace(/\s+/g, " ");
  for (const [text, part, count] of [
    [types, `digest in bytes: 1 to ${b.digestLength}, BLAKE2s 1 to ${s.digestLength}.`, 1],
    [types, `A key of 1 to ${b.keyLength} bytes, BLAKE2s 1 to ${s.keyLength}.`, 1],
    [types, `Up to ${b.saltLength} bytes, BLAKE2s up to ${s.saltLength}.`, 2],
    [types, `Up to ${TREE.saltLength} bytes. Trailing`, 2],
    [types, `below ${power(b.maxNodeOffset)}, BLAKE2s ${power(s.maxNodeOffset)}.`, 1],
    [types, `digests in bytes, up to ${b.digestLength}, BLAKE2s ${s.digestLength}.`, 1],
    [types, `The length of the root in bytes, 1 to ${TREE.digestLength}.`, 1],
    [types, `a block in bytes: ${b.blockLength}, BLAKE2s ${s.blockLength}.`, 1],
    [types, `${numeral[b.atOnce]} messages in a row`, 1],
    [types, `${numeral[s.atOnce]} messages in a row`, 1],
    [types, `number of workers, up to ${MOST_THREADS};`, 1],
    [types, `longer than ${LONGEST_LEAF / 2 ** 20} MiB`, 1],
    [types, `${LEAF_DIGEST} bytes each`, 1],
    [page, `(1 to ${b.digestLength}, BLAKE2s to ${s.digestLength}), \`key\``, 1],
    [page, `\`key\` (1 to ${b.keyLength} bytes, BLAKE2s to ${s.keyLength})`, 1],
    [page, `(up to ${b.saltLength} bytes, BLAKE2s ${s.saltLength})`, 1],
    [page, `memory is ${memories()[0].length / 2 ** 20} MiB`, 1],
    [page, `up to ${WAITING.toLocaleString("en")} bytes of short updates`, 1],
    [page, `cut from buffers of ${SLAB / 1024} KiB`, 1],
    [page, `node ${JSON.parse(read("package.json")).engines.node.slice(2)} and later`, 1],
  ]) {
    assert.equal(text.split(part).length - 1, count, part);
  }
});

test("bench/javascript.mjs divides our speed by the other one", () => {
  assert.equal(hashRow("hash", 64, [2, 3]), "| hash | 64 | 2000 ns | 3000 ns | 1.50 |\n");
  assert.equal(hashRow("hash", 65536, [64, 128]), "| hash | 65536 | 1.02 GB/s | 0.51 GB/s | 2.00 |\n");
  assert.equal(callRow("call", [0.2, 0.3]), "| call | 200 ns | 300 ns | 1.50 |\n");
  assert.equal(rootRow(1, [2, 1, 4]), "| 1 MiB | 0.52 GB/s | 1.05 GB/s | 2.00 | 0.26 GB/s | 0.50 |\n");
});
