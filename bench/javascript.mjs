// Measures the package next to node:crypto (OpenSSL), roots of trees by workers next to one thread,
// and the sizes of bundles, in one run:
//
//   node bench/javascript.mjs [TURNS] [--write]
//
// It prints four tables; --write also writes them to bench/results/javascript.txt. What a row
// compares runs in turns, and each figure is the best of all turns: of TURNS (30 if not given) in
// processor time for the digests and the calls of the first two tables, of a sixth of that by the
// clock for the roots of the third. Each root is that of a file in the page cache, and includes the
// start of its workers. node:crypto has no BLAKE2 with a key, so its hash without one stands there.
// Bundles are those of esbuild, minified, of a program that imports only these names.
import assert from "node:assert/strict";
import { spawnSync } from "node:child_process";
import { createHash, randomBytes } from "node:crypto";
import { cpSync, mkdtempSync, readFileSync, rmSync, writeFileSync } from "node:fs";
import { open } from "node:fs/promises";
import { cpus, loadavg, tmpdir } from "node:os";
import { join } from "node:path";
import { fileURLToPath, pathToFileURL } from "node:url";
import { gzipSync } from "node:zlib";
import {
  Blake2b, Blake2s, blake2b, blake2s, hex, treeRoot, treeRootStream,
} from "../js/index.js";

const RESULTS = new URL("results/javascript.txt", import.meta.url);
const LEAF = 65536;
const LENGTHS = [64, 1024, 65536, 2 ** 24];
const MEBIBYTES = [64, 256, 1024];
const THREADS = [1, 2, 4];
const node = (name) => (message) => createHash(name).update(message).digest();
const HASHES = {
  "BLAKE2b-512": [(message) => blake2b(message), node("blake2b512")],
  "BLAKE2s-256": [(message) => blake2s(message), node("blake2s256")],
  "tree root, leaves of 64 KiB, to BLAKE2b-512": [
    (message) => treeRoot(message, { leafLength: LEAF }), node("blake2b512"),
  ],
};

const KEY = new Uint8Array(32).fill(7);
const SHORT = new Uint8Array(randomBytes(64));
const [ofB, ofS] = ["blake2b512", "blake2s256"].map((name) => () => createHash(name));
const running = [new Blake2b(), ofB(), new Blake2s(), ofS()];
// Calls with a message of 64 bytes, or none: ours, and that of node:crypto.
const CALLS = {
  "a hash of BLAKE2b": [() => blake2b(SHORT), () => ofB().update(SHORT).digest()],
  "a hash of BLAKE2s": [() => blake2s(SHORT), () => ofS().update(SHORT).digest()],
  "one of BLAKE2b with a key": [
    () => blake2b(SHORT, { key: KEY }), () => ofB().update(SHORT).digest(),
  ],
  "one of BLAKE2s with a key": [
    () => blake2s(SHORT, { key: KEY }), () => ofS().update(SHORT).digest(),
  ],
  "`new Blake2b()` and `digest`": [() => new Blake2b().digest(), () => ofB().digest()],
  "`new Blake2s()` and `digest`": [() => new Blake2s().digest(), () => ofS().digest()],
  "`update` of `Blake2b`": [() => running[0].update(SHORT), () => running[1].update(SHORT)],
  "`update` of `Blake2s`": [() => running[2].update(SHORT), () => running[3].update(SHORT)],
};
const BUNDLES = ["blake2b", "blake2s", "Blake2b", "blake2bStream", "treeRoot"];

const row = (cells) => `| ${cells.join(" | ")} |\n`;
const tableHead = (titles) => row(titles) + row(titles.map(() => "---"));
const loadLine = () => `\n(Load ${loadavg()[0].toFixed(1)} in the last minute of this.)\n`;
const speedText = (length, microseconds) => `${(length / microseconds / 1000).toFixed(2)} GB/s`;

// The microseconds of processor time per call.
function timePerCall(call, count) {
  const { user, system } = process.cpuUsage();
  for (let i = 0; i < count; i++) call();
  const spent = process.cpuUsage({ user, system });
  return (spent.user + spent.system) / count;
}

// The best times of pairs of calls with their counts. All run in each turn, so that none is measured
// while only it is compiled.
function bestTimes(pairs, turns) {
  const best = pairs.map(() => [Infinity, Infinity]);
  for (let turn = 0; turn < turns; turn++) {
    for (const [row, [calls, count]] of pairs.entries()) {
      calls.forEach((call, i) => (best[row][i] = Math.min(best[row][i], timePerCall(call, count))));
    }
  }
  return best;
}

/** The row of a hash, from both microseconds: the last cell is our speed divided by theirs. */
export function hashRow(name, length, [ours, theirs]) {
  const shown = (us) => (length < 65536 ? `${(1000 * us).toFixed(0)} ns` : speedText(length, us));
  return row([name, length, shown(ours), shown(theirs), (theirs / ours).toFixed(2)]);
}

/** The row of a call, from both microseconds: the last cell is our speed divided by theirs. */
export function callRow(name, [ours, theirs]) {
  const shown = (us) => `${(1000 * us).toFixed(0)} ns`;
  return row([name, shown(ours), shown(theirs), (theirs / ours).toFixed(2)]);
}

function callsTable(turns) {
  const best = bestTimes(Object.values(CALLS).map((calls) => [calls, 2000]), turns);
  return tableHead(["call with 64 bytes", "vulfsjor", "node:crypto", "ratio of speed"]) +
    Object.keys(CALLS).map((name, i) => callRow(name, best[i])).join("") + loadLine();
}

/** The bytes of a bundle by esbuild, minified, of a program that imports only these names. */
export function buildBundle(names, folder) {
  for (const part of ["package.json", "index.js", "src"]) {
    const from = fileURLToPath(new URL(`../js/${part}`, import.meta.url));
    cpSync(from, join(folder, "node_modules/vulfsjor", part), { recursive: true });
  }
  writeFileSync(
    join(folder, "program.mjs"), `import { ${names} } from "vulfsjor";\nconsole.log(${names});\n`);
  const words = ["program.mjs", "--bundle", "--minify", "--format=esm", "--outfile=bundle.mjs",
    "--log-level=error"];
  const { status, error, stderr } = spawnSync("esbuild", words, { cwd: folder, encoding: "utf8" });
  if (error !== undefined) throw error;
  assert.equal(status, 0, stderr);
  return readFileSync(join(folder, "bundle.mjs"));
}

function bundlesTable() {
  const folder = mkdtempSync(join(tmpdir(), "vulfsjor-"));
  try {
    return tableHead(["bundle of", "bytes", "gzip"]) + BUNDLES.map((name) => {
      const bytes = buildBundle(name, folder);
      return row([`\`${name}\``, bytes.length, gzipSync(bytes, { level: 9 }).length]);
    }).join("");
  } finally {
    rmSync(folder, { recursive: true });
  }
}

function hashesTable(turns) {
  const rows = Object.entries(HASHES).flatMap(([name, hashes]) => LENGTHS.map((length) => {
    const message = randomBytes(length);
    const count = Math.max(1, Math.ceil(2 ** 20 / (length + 512)));
    return { name, length, calls: [hashes.map((hash) => () => hash(message)), count] };
  }));
  const best = bestTimes(rows.map(({ calls }) => calls), turns);
  return tableHead(["hash", "bytes", "vulfsjor", "node:crypto", "ratio of speed"]) +
    rows.map(({ name, length }, i) => hashRow(name, length, best[i])).join("") + loadLine();
}

/** The row of a root, from the milliseconds by one thread and by workers: each with its speedup. */
export function rootRow(mebibytes, [one, ...others]) {
  const speed = (milliseconds) => speedText(2 ** 20 * mebibytes, 1000 * milliseconds);
  const cells = others.flatMap((other) => [speed(other), (one / other).toFixed(2)]);
  return row([`${mebibytes} MiB`, speed(one), ...cells]);
}

async function threadsTable(turns) {
  const titles = THREADS.slice(1).flatMap((count) => [`${count} workers`, "ratio of speed"]);
  let text = tableHead(["tree root of", "one thread", ...titles]);
  const part = randomBytes(2 ** 20 * MEBIBYTES[0]);
  const folder = mkdtempSync(join(tmpdir(), "vulfsjor-"));
  for (const mebibytes of MEBIBYTES) {
    writeFileSync(join(folder, "file"), Buffer.concat(Array(mebibytes / MEBIBYTES[0]).fill(part)));
    const file = await open(join(folder, "file"));
    const best = THREADS.map(() => Infinity);
    const roots = new Set();
    for (let turn = 0; turn < turns; turn++) {
      for (const [i, threads] of THREADS.entries()) {
        const begin = performance.now();
        roots.add(hex(await treeRootStream(file, { leafLength: LEAF, threads })));
        best[i] = Math.min(best[i], performance.now() - begin);
      }
    }
    assert.equal(roots.size, 1);
    await file.close();
    text += rootRow(mebibytes, best);
  }
  rmSync(folder, { recursive: true });
  return text + loadLine();
}

async function main(words) {
  const turns = Number(words.find((word) => word !== "--write") ?? 30);
  for (const [ours, theirs] of Object.values(HASHES).slice(0, 2)) {
    const message = randomBytes(100_000);
    assert.deepEqual(Buffer.from(ours(message)), theirs(message));
  }
  const parts = [
    `${cpus().length} cores of ${cpus()[0].model}; node ${process.versions.node}, ` +
      `OpenSSL ${process.versions.openssl}; best of ${turns}.\n`,
  ];
  console.log(parts[0]);
  for (const table of [
    () => callsTable(turns), () => hashesTable(turns), () => threadsTable(Math.ceil(turns / 6)),
    bundlesTable,
  ]) {
    parts.push(await table());
    console.log(parts.at(-1));
  }
  if (words.includes("--write")) writeFileSync(RESULTS, parts.join("\n"));
}

const [, program = "", ...words] = process.argv;
if (import.meta.url === pathToFileURL(program).href) await main(words);
