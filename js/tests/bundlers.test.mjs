// Bundles of the package, and workers in them: in node and in Chromium, under policies that forbid some ways to start a
// worker.
import assert from "node:assert/strict";
import { execFile } from "node:child_process";
import { cpSync, readFileSync, writeFileSync } from "node:fs";
import { basename, dirname, join } from "node:path";
import test from "node:test";
import { promisify } from "node:util";
import { openChromium } from "./chromium.mjs";
import { hasCommand, newFolder, serve, top } from "./common.mjs";

const WORKER = "node_modules/vulfsjor/src/vulfsjor_worker.js";
// A message of two ranges, and its root by hashlib.
const MESSAGE = "new Uint8Array(5_000_000).map((_, i) => i ^ (i >> 8))";
const WANTED = "3a0a24dac3e2a0b92973e1ad072c28b690377ea0e5dbbc0b7c50d7cac83ecd14" +
  "d33fd302a7654e6fa9a2345cf81602f2cce9f1ef0cc02e0f9796d8fa40abc183";
// Hashes by workers, and shows the root and why a worker could not be started.
const PROGRAM = `import { hex, treeRootStream } from "vulfsjor";
  const message = ${MESSAGE};
  const causes = [];
  const onFallback = (cause) => causes.push(String(cause));
  treeRootStream(new Blob([message]), { leafLength: 65536, threads: 3, onFallback }).then(
    (root) => show([hex(root), ...causes]), (fault) => show([String(fault)]));
  const show = (answer) => globalThis.document
    ? document.body.append(JSON.stringify(answer)) : console.log(JSON.stringify(answer));`;

const folder = newFolder();
const pathOf = (name) => join(folder, name);

for (const file of ["package.json", "index.js", "src"]) {
  cpSync(join(top, file), pathOf(`node_modules/vulfsjor/${file}`), { recursive: true });
}
// The same program by a path, for bundlers that resolve no names without a plugin.
const importByPath = (program) => program.replace('"vulfsjor"', '"./node_modules/vulfsjor/index.js"');
writeFileSync(pathOf("app.mjs"), PROGRAM);
writeFileSync(pathOf("path.mjs"), importByPath(PROGRAM));

const run = promisify(execFile);
// The words by which each bundler writes a format of a program into a file. Those of webpack are its defaults.
const WORDS = {
  esbuild: (from, to, format) => [from, "--bundle", "--log-level=warning", `--format=${format}`, `--outfile=${to}`,
    ...(format === "iife" ? ["--minify"] : [])],
  rollup: (from, to, format) => [from, "--silent", "--format", format === "esm" ? "es" : format, "--file", to],
  webpack: (from, to) => ["--mode", "production", "--entry", `./${from}`, "--output-path", dirname(pathOf(to)),
    "--output-filename", basename(to), "--stats", "errors-warnings"],
};

// Bundles, and asserts that the bundler had no remark.
async function bundle(command, from, to, format = "esm", ...more) {
  const words = [...WORDS[command](from, to, format), ...more];
  const { stdout, stderr } = await run(command, words, { cwd: folder });
  const remarks = (stdout + stderr).replace("webpack compiled successfully\n", "");
  assert.equal(remarks, "", `${command} ${words.join(" ")}`);
}

// A test that is skipped if there is no bundler of this name.
const testIfInstalled = (command, name, work) =>
  test(name, (t) => (hasCommand(command) ? work(t) : t.skip(`no ${command}`)));

// Each bundle is in a folder of its own with no other file.
for (const [command, program] of [["esbuild", "app.mjs"], ["rollup", "path.mjs"]]) {
  testIfInstalled(command, `bundles of ${command} start their workers in node`, async () => {
    await Promise.all(["esm", "iife", "cjs"].map(async (format) => {
      const file = `${command}-${format}/app.${format === "esm" ? "mjs" : "cjs"}`;
      await bundle(command, program, file, format);
      const { stdout } = await run(process.execPath, [pathOf(file)]);
      assert.deepEqual(JSON.parse(stdout), [WANTED], `${command} ${format}`);
    }));
  });
}

// The most bytes of a bundle of one hash; not minified, with comments.
const MOST = 47_000;
const MOST_LONG = 80_000;

// Asserts that a bundle of what a program imports has at most so many bytes, and prints this, if anything is given.
async function assertBundleSizeAndOutput(command, [names, most, printed], program, ...more) {
  const [from, to] = ["small.mjs", `${command}-small/app.mjs`];
  writeFileSync(pathOf(from), program);
  await bundle(command, from, to, "esm", ...more);
  const { length } = readFileSync(pathOf(to));
  assert.ok(length <= most, `${length} bytes of ${names} by ${command}`);
  if (printed) assert.equal((await run(process.execPath, [pathOf(to)])).stdout, printed);
}

// The defaults of esbuild and webpack, and rollup with the plugin that finds packages, read in package.json that the
// files have no side effects. Rollup without it is given a path.
for (const [command, how, most, form, ...more] of [
  ["esbuild", "esbuild", MOST, String, "--minify"],
  ["rollup", "rollup", MOST_LONG, String, "--plugin", "node-resolve"],
  ["rollup", "rollup without a plugin", MOST_LONG, importByPath], ["webpack", "webpack", MOST, String],
]) {
  testIfInstalled(command, `a bundle by ${how} has only the hash that its program imports`, async (t) => {
    // hashlib's digests of abc
    for (const [name, wanted] of [["blake2b", "99,144,98,72\n"], ["blake2s", "223,113,1,211\n"]]) {
      const program = form(`import { ${name} } from "vulfsjor";
        console.log(${name}(Uint8Array.of(97, 98, 99), { digestLength: 4 }).join());`);
      try {
        await assertBundleSizeAndOutput(command, [name, most, wanted], program, ...more);
      } catch (fault) {
        if (!/Cannot find package|Cannot load plugin/.test(fault.stderr)) throw fault;
        return t.skip(`${command} has no plugin that finds packages`);
      }
    }
  });
}

testIfInstalled("esbuild", "other programs get what they import, too", async () => {
  const assertSize = (names, most) => assertBundleSizeAndOutput("esbuild", [names, most],
    `import { ${names} } from "vulfsjor"; console.log(${names});`, "--minify");
  for (const [names, most] of [
    ["hex, utf8, fromHex", 5_000], ["Blake2b", 57_000], ["Blake2s", 57_000], ["blake2bStream", 61_000],
    ["blake2sStream", 61_000], ["blake2b, blake2s", 75_000],
  ]) {
    await assertSize(names, most);
  }
  await assert.rejects(assertSize("treeRoot", 300_000), /bytes of treeRoot/); // the module with all functions
});

const PAGES = {
  module: '<script type="module" src="app.mjs"></script>', script: '<body><script src="app.js"></script>',
};

// Opens pages: /NAME/PAGE/POLICY/ is the page over the bundles in the folder NAME, under the policy with this source of
// workers, or with no policy. Asserts that each has the root, and the cause for which no worker was started.
async function assertPages(t, pages) {
  const chromium = await openChromium();
  if (chromium === undefined) return t.skip("no chromium");
  const address = await serve(t, (path, request, response) => {
    const [, name, page, policy, ...places] = path.split("/");
    const file = places.join("/");
    const body = file === "" ? PAGES[page] : readFileSync(pathOf(`${name}/${file}`));
    if (policy !== "none given") {
      response.setHeader("content-security-policy",
        `default-src 'none'; script-src 'self' 'wasm-unsafe-eval'; worker-src ${policy}`);
    }
    return body;
  });
  for (const [name, page, policy, cause] of pages) {
    const { until, close } = await chromium.open(`${address}/${name}/${page}/${policy}/`);
    const [root, ...causes] = JSON.parse(await until("document.body.textContent.trim()", 60));
    await close();
    const where = `${name} ${page} ${policy}`;
    assert.equal(root, WANTED, where);
    assert.equal(causes.length, cause === undefined ? 0 : 1, `${where}: ${causes}`);
    if (cause !== undefined) assert.match(causes[0], cause, where);
  }
}

const NO_WORKER = /^Error: it could not be started$/;

testIfInstalled("esbuild", "workers start in Chromium with esbuild and without, or one thread hashes", async (t) => {
  await Promise.all([
    bundle("esbuild", "app.mjs", "alone/app.mjs"), bundle("esbuild", "app.mjs", "alone/app.js", "iife"),
    bundle("esbuild", "app.mjs", "beside/app.mjs"),
    bundle("esbuild", WORKER, "beside/vulfsjor_worker.js"), // as README says
  ]);
  cpSync(pathOf("path.mjs"), pathOf("plain/app.mjs"));
  cpSync(pathOf("node_modules"), pathOf("plain/node_modules"), { recursive: true });
  await assertPages(t, [
    ["plain", "module", "none given"], ["plain", "module", "'self'"],
    ["alone", "module", "none given"], ["alone", "script", "none given"],
    ["alone", "module", "blob:"], ["alone", "script", "blob:"],
    ["beside", "module", "'self'"],
    ["alone", "module", "'self'", NO_WORKER], // for want of the file
    ["beside", "module", "'none'", NO_WORKER],
    ["alone", "script", "'self'", /^TypeError: .*URL/],
  ]);
});

// The module makes a bundle larger than webpack recommends.
testIfInstalled("webpack", "webpack finds the file of the worker", async (t) => {
  await bundle("webpack", "app.mjs", "webpack/app.js", "iife", "--no-performance");
  await assertPages(t, [
    ["webpack", "script", "none given"], ["webpack", "script", "blob:"],
    ["webpack", "script", "'self'"], ["webpack", "script", "'none'", NO_WORKER],
  ]);
});

test("the file of the worker is named in the form of Vite and webpack", () => {
  const source = readFileSync(join(top, "src/workers.js"), "utf8");
  assert.equal(source.split(
    'new Worker(new URL("./vulfsjor_worker.js", import.meta.url), { type: "module" })').length, 2);
});
