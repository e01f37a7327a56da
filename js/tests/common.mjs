// Helpers of several tests.
import assert from "node:assert/strict";
import { execFileSync, spawnSync } from "node:child_process";
import { mkdtempSync, readFileSync, rmSync, writeFileSync } from "node:fs";
import { open } from "node:fs/promises";
import { createServer } from "node:http";
import { tmpdir } from "node:os";
import { extname, join } from "node:path";
import { fileURLToPath } from "node:url";
import v8 from "node:v8";
import vm from "node:vm";
import { SLAB, memories } from "../src/engine.js";

/** Whether this is the full test, and the options of a test that only it has. */
export const HUGE = Boolean(process.env.VULFSJOR_TEST_HUGE);
export const LONG = { skip: HUGE ? false : "VULFSJOR_TEST_HUGE is not set" };

/** The folder of the package. */
export const top = fileURLToPath(new URL("..", import.meta.url));

export const hexOf = (bytes) => Buffer.from(bytes.buffer, bytes.byteOffset, bytes.length).toString("hex");

v8.setFlagsFromString("--expose-gc");

/** Collects what is no longer used. */
export const collect = vm.runInNewContext("gc");

let zeros = Buffer.alloc(0);

/** Asserts that all bytes are zero. */
export function assertZeros(bytes, what) {
  if (zeros.length !== bytes.length) zeros = Buffer.alloc(bytes.length);
  if (zeros.compare(bytes) !== 0) {
    assert.fail(`${what} has a byte at ${bytes.findIndex((byte) => byte !== 0)}`);
  }
}

/** Asserts that nothing is left in the library's memories, and that they have not grown. */
export function assertMemoriesAreWiped(what = "after a call") {
  const all = memories();
  assert.ok(all.length > 0, "no memory");
  for (const bytes of all) {
    assert.equal(bytes.length, 2 ** 20 + 8 * 65536);
    assertZeros(bytes, `${what} a memory`);
  }
}

/** The result of some work during which an object has other properties. It may be a promise. */
export function withReplacedProperties(object, others, work) {
  const before = Object.keys(others).map((name) => [name, Object.getOwnPropertyDescriptor(object, name)]);
  const restore = () => before.forEach(([name, descriptor]) =>
    (descriptor ? Object.defineProperty(object, name, descriptor) : delete object[name]));
  for (const [name, value] of Object.entries(others)) {
    Object.defineProperty(object, name, { value, configurable: true, writable: true });
  }
  let isLater = false;
  try {
    const result = work();
    isLater = result instanceof Promise;
    return isLater ? result.finally(restore) : result;
  } finally {
    if (!isLater) restore();
  }
}

/** The result of some work. Notes the states that it writes. The call of set or fill with this number throws. */
export function recordStatesWritten(states, work, number = -1) {
  let count = 0;
  const noting = (builtIn) => function (...words) {
    if (this.buffer.byteLength === SLAB) states.add(this);
    if (count++ === number) throw new RangeError("no stack is left");
    return Reflect.apply(builtIn, this, words);
  };
  const { fill, set } = Uint8Array.prototype;
  return withReplacedProperties(Uint8Array.prototype, { fill: noting(fill), set: noting(set) }, work);
}

const folders = [];
process.on("exit", () => folders.forEach((folder) => remove(folder)));

// A process that was killed while it made a file can still put it there: then its folder is removed again.
function remove(folder, left = 50) {
  try {
    rmSync(folder, { recursive: true, force: true, maxRetries: 3, retryDelay: 10 });
  } catch (fault) {
    if (!left) throw fault;
    remove(folder, left - 1);
  }
}

/** A folder that is removed when the process ends. */
export function newFolder() {
  folders.push(mkdtempSync(join(tmpdir(), "vulfsjor-")));
  return folders.at(-1);
}

/** A file of a message that is open in node until the end of a test, and its path and its folder. */
export async function newOpenFile(t, message) {
  const folder = newFolder();
  const path = join(folder, "message");
  writeFileSync(path, message);
  const file = await open(path, "r+");
  t.after(() => file.close());
  return { folder, path, file };
}

let written = process.env.VULFSJOR_CONFORMANCE;

/** The conformance cases of a hash, all or each one of so many. They are written if ./test has not done so. */
export function conformanceCasesOf(hash, each = 1) {
  if (!written) {
    written = newFolder();
    execFileSync("python3", [join(top, "../tests/conformance/write.py"), written]);
  }
  const text = readFileSync(join(written, `${hash}.txt`), "ascii");
  return each === 1 ? text : text.split("\n\n").filter((_, i) => i % each === 1).join("\n\n");
}

export const hasCommand = (command) => spawnSync(command, ["--version"]).error === undefined;

/** What a program prints that is run as a module by a new node. */
export const outputOfProgram = (program, options) => execFileSync(
  process.execPath, ["--input-type=module", "-e", program], { encoding: "utf8", ...options });

/** The address of the package, as a word of such a program. */
export const INDEX = JSON.stringify(new URL("../index.js", import.meta.url).href);

const TYPES = { "": "text/html", ".js": "text/javascript", ".mjs": "text/javascript", ".json": "application/json" };

/** Serves what bodyOf returns for the path of a request, during a test. Returns the address. */
export async function serve(t, bodyOf) {
  const server = createServer(async (request, response) => {
    const path = decodeURIComponent(request.url);
    try {
      const body = await bodyOf(path, request, response);
      response.setHeader("content-type", TYPES[extname(path)]);
      response.end(body);
    } catch {
      response.writeHead(404).end();
    }
  });
  await new Promise((resolve) => server.listen(0, "127.0.0.1", resolve));
  t.after(() => {
    server.closeAllConnections();
    server.close();
  });
  return `http://127.0.0.1:${server.address().port}`;
}
