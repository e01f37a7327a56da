// The package in Chromium and Firefox, on the page's thread and in a worker, and in JavaScriptCore, the engine of
// Safari; each where it is installed.
import assert from "node:assert/strict";
import { spawn, spawnSync } from "node:child_process";
import { readFileSync, writeFileSync } from "node:fs";
import { join } from "node:path";
import test from "node:test";
import { setTimeout as sleep } from "node:timers/promises";
import { endBrowser, openChromium } from "./chromium.mjs";
import { conformanceCasesOf, hasCommand, HUGE, newFolder, serve, top } from "./common.mjs";
import { HASHES } from "./conformance_driver.mjs";

const CHECK = `const [vulfsjor, { tryCases }, texts] = await Promise.all([import("/index.js"),
  import("/tests/conformance_driver.mjs"), fetch("/cases.json").then((answer) => answer.json())]);
  const answer = texts.map((text) => tryCases(vulfsjor, text));`;
// Hashes a tree by workers of the browser: whole ones, some that do not exist, and some that throw
// after they have started.
const THREADS = `const message = Uint8Array.from({ length: 5_000_001 }, (_, i) => i ^ (i >> 8));
  const onFallback = (cause) => threads.push(String(cause));
  const byThreads = () =>
    vulfsjor.treeRootStream(new Blob([message]), { leafLength: 65536, threads: 3, onFallback })
      .then((root) => vulfsjor.hex(root), String);
  const threads = [vulfsjor.hex(vulfsjor.treeRoot(message, { leafLength: 65536 }))];
  threads.push(await byThreads());
  const { Worker: Whole } = globalThis;
  for (const script of ["/none.js", "/throws.js"]) {
    globalThis.Worker = class extends Whole { constructor() { super(script, { type: "module" }); } };
    threads.push(await byThreads());
  }
  globalThis.Worker = Whole;
  const [through, last] = [new vulfsjor.Blake2b(), new vulfsjor.Blake2b()];
  await new Blob([message]).stream().pipeThrough(vulfsjor.hashTransform(through))
    .pipeTo(vulfsjor.hashWritable(last));
  const piped = [vulfsjor.hex(vulfsjor.blake2b(message)), through.hex(), last.hex(),
    vulfsjor.hex(await vulfsjor.blake2bStream(new Blob([message])))];
  const ended = new vulfsjor.Blake2b();
  const { readable, writable } = vulfsjor.hashTransform(ended);
  await readable.cancel();
  await new Promise((resolve) => setTimeout(resolve));
  try { ended.digest(); } catch (fault) { piped.push(String(fault).split(",")[0]); }
  // streams that were not read, read to the end, read in part, locked, canceled and read here
  const short = new Blob(["abc"]);
  const [fresh, whole, part, locked, canceled, again] = Array.from(Array(6), () => short.stream());
  const own = new ReadableStream({ start(to) { to.enqueue(new Uint8Array(3)); to.close(); } });
  await new Response(whole).text();
  const reader = part.getReader();
  await reader.read();
  reader.releaseLock();
  locked.getReader();
  await canceled.cancel();
  await vulfsjor.blake2bStream(again);
  const used = new Response(short);
  await used.text();
  const streams = await Promise.all(
    [fresh, own, whole, part, locked, canceled, again, used.body].map((stream) =>
      vulfsjor.blake2bStream(stream, { digestLength: 4 }).then(vulfsjor.hex, String)));`;
const PAGE = `<!DOCTYPE html><title>tests</title><script type="module">
const sendAnswer = (answer) => fetch("/done", { method: "POST", body: JSON.stringify(answer) });
try {
  ${CHECK}
  ${THREADS}
  const worker = new Worker("/worker.js", { type: "module" });
  worker.onmessage = ({ data }) => sendAnswer({ page: answer, worker: data, threads, piped, streams });
  worker.onerror = (event) => sendAnswer({ fault: "worker: " + event.message });
} catch (fault) {
  sendAnswer({ fault: String(fault) });
}
</script>`;

// Some of the conformance cases.
const CASES = HASHES.map((hash) => conformanceCasesOf(hash, HUGE ? 4 : 80));
const COUNT = CASES.map((text) => text.match(/^case /gm).length);

// Asserts that all cases were tried, and that most have not ended early.
function assertCases(answer) {
  assert.deepEqual(answer.flatMap(({ wrong }) => wrong), []);
  assert.deepEqual(answer.map(({ cases }) => cases), COUNT);
  for (const { cases, skipped } of answer) assert.ok(skipped < cases / 4, `${skipped} of ${cases}`);
}

// How each browser opens a page, if there is one. Returns a function that closes it.
const BROWSERS = {
  async chromium(url) {
    const chromium = await openChromium();
    return (await chromium?.open(url))?.close;
  },
  async "firefox-esr"(url) {
    if (!hasCommand("firefox-esr")) return undefined;
    const words = ["--headless", "--no-remote", "--profile", newFolder(), url];
    const child = spawn("firefox-esr", words, { stdio: "ignore", detached: true });
    return () => endBrowser(child);
  },
};
for (const [name, open] of Object.entries(BROWSERS)) {
  test(`conformance cases, streams, pipes and a tree by workers in ${name}`, async (t) => {
    let answered;
    const answer = new Promise((resolve) => (answered = resolve));
    const files = {
      "/": PAGE, "/cases.json": JSON.stringify(CASES), "/worker.js": `${CHECK}\npostMessage(answer);`,
      "/throws.js": "postMessage('ready'); onmessage = () => { throw new Error('no reason'); };",
    };
    const close = await open(await serve(t, async (path, request) => {
      if (path !== "/done") return files[path] ?? readFileSync(join(top, path));
      answered(JSON.parse(Buffer.concat(await request.toArray())));
    }));
    if (close === undefined) return t.skip(`no ${name}`);
    t.after(close);
    const late = sleep(600_000, { fault: "no answer within ten minutes" }, { ref: false });
    const { fault, page, worker, threads, piped, streams } = await Promise.race([answer, late]);
    assert.equal(fault, undefined);
    const [root, byThreads, cause, byOne, failed, ...more] = threads;
    assert.deepEqual([byThreads, cause, byOne, more], [root, "Error: it could not be started", root, []]);
    assert.match(failed, /^Error: treeRootStream: a worker failed: .*no reason$/);
    assert.deepEqual(piped, [...Array(4).fill(piped[0]), "TypeError: Blake2b.digest: this hash has ended"]);
    // hashlib's of abc, and of three zeros
    assert.deepEqual(streams, ["63906248", "2daf7f13", ...Array(6).fill(
      "TypeError: blake2bStream: source was already read, or something else is reading it")]);
    assertCases(page);
    assertCases(worker);
  });
}

test("conformance cases in jsc, the engine of Safari", (t) => {
  // jsc does not know --version, and then ends with another status
  if (!hasCommand("jsc")) return t.skip("no jsc");
  const folder = newFolder();
  // the shell has no atob, and no encoder of texts
  writeFileSync(join(folder, "main.mjs"), `
    const digits = "ABCDEFGHIJKLMNOPQRSTUVWXYZabcdefghijklmnopqrstuvwxyz0123456789+/";
    globalThis.atob = (text) => {
      const out = [];
      let bits = 0;
      let count = 0;
      for (const digit of text.replace(/=/g, "")) {
        bits = ((bits << 6) | digits.indexOf(digit)) & 0xffff;
        if ((count += 6) >= 8) out.push(String.fromCharCode((bits >> (count -= 8)) & 255));
      }
      return out.join("");
    };
    const cases = JSON.parse(readFile(${JSON.stringify(join(folder, "cases.json"))}));
    const vulfsjor = await import(${JSON.stringify(join(top, "index.js"))});
    const { tryCases } = await import(${JSON.stringify(join(top, "tests/conformance_driver.mjs"))});
    print(JSON.stringify(cases.map((text) => tryCases(vulfsjor, text))));
  `);
  writeFileSync(join(folder, "cases.json"), JSON.stringify(CASES));
  const { stdout, stderr } = spawnSync(
    "jsc", ["-m", join(folder, "main.mjs")], { encoding: "utf8", maxBuffer: 2 ** 28 });
  assert.match(stdout, /^\[/, stderr);
  assertCases(JSON.parse(stdout));
});
