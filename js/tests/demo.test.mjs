// The page in Chromium, opened as a file, as a user has it.
import assert from "node:assert/strict";
import { execFileSync } from "node:child_process";
import { createHash } from "node:crypto";
import { readFileSync, truncateSync, writeFileSync } from "node:fs";
import { join } from "node:path";
import test from "node:test";
import { setTimeout as sleep } from "node:timers/promises";
import { pathToFileURL } from "node:url";
import { hex, treeRoot } from "../index.js";
import { openChromium } from "./chromium.mjs";
import { LONG, newFolder, serve, top } from "./common.mjs";

const folder = newFolder();
const pathOf = (name) => join(folder, name);
const PAGE = pathToFileURL(pathOf("index.html")).href;
execFileSync(process.execPath, [join(top, "tools/build.mjs"), "--page", pathOf("index.html")]);
const FILES = { "empty.txt": 0, "one byte": 1, "käse & <b>.bin": 70_001, "video.mp4": 5_000_000 };
for (const [name, size] of Object.entries(FILES)) writeFileSync(pathOf(name), Buffer.alloc(size, name));
const KINDS = ["BLAKE2b-512", "BLAKE2b-256", "BLAKE2s-256", "tree root"];

async function openPage(chromium, options) {
  const page = await chromium.open(PAGE, options);
  await page.until("document.getElementById('self').textContent === 'passed.'");
  const textOf = (id) => page.evaluate(`document.getElementById("${id}").textContent`);
  const choose = (...names) => page.setFiles("#files", names.map(pathOf));
  // Chooses files, and waits until this number of cards is done.
  const hash = async (names, count = names.length) => {
    await choose(...names);
    await page.until(`document.querySelectorAll("[data-state=done]").length === ${count}`);
  };
  // Types an expected digest. Returns the verdict and the number of rows that are marked equal.
  const compare = (text) => page.evaluate(`{
    const field = document.getElementById("wanted");
    field.value = ${JSON.stringify(text)};
    field.dispatchEvent(new Event("input"));
    const count = document.querySelectorAll(".equal").length;
    document.getElementById("verdict").textContent + " " + count;
  }`);
  return { ...page, textOf, choose, hash, compare };
}

// A test over the page, which has logged no error at the end, except where its policy is tried.
const testOnPage = (name, options, work) => test(name, options, async (t) => {
  const chromium = await openChromium();
  if (chromium === undefined) return t.skip("no chromium");
  const page = await openPage(chromium, options);
  await work(page, t);
  if (!options.width) assert.deepEqual(page.faults, []);
  await page.close();
});

const CLASS = "document.getElementById('verdict').className"; // how a verdict is shown

// What a card shows: digests by their kind, and the state.
const CARDS = `[...document.querySelectorAll("article")].map((card) => ({
  name: card.querySelector("h2").textContent,
  size: card.querySelector(".quiet").textContent,
  shown: card.querySelector("p").textContent,
  state: card.dataset.state,
  digests: Object.fromEntries([...card.querySelectorAll(".digest")].map((row) =>
    [row.querySelector("dt").firstChild.textContent, row.querySelector("dd").textContent])),
}))`;

// The digests by node's BLAKE2. The root is the package's, which other tests compare with hashlib.
function expectedDigestsOf(name, leafLength) {
  const message = readFileSync(pathOf(name));
  return {
    "BLAKE2b-512": createHash("blake2b512").update(message).digest("hex"),
    "BLAKE2s-256": createHash("blake2s256").update(message).digest("hex"),
    "tree root": hex(treeRoot(message, { leafLength })),
  };
}

testOnPage("files are hashed and shown", {}, async (page) => {
  await page.hash(Object.keys(FILES));
  const cards = await page.evaluate(CARDS);
  assert.deepEqual(cards.map(({ name }) => name), Object.keys(FILES).reverse());
  assert.deepEqual(cards.map(({ size }) => size), ["5,000,000 bytes", "70,001 bytes", "1 byte", "0 bytes"]);
  for (const { name, digests, shown } of cards) {
    assert.deepEqual(Object.keys(digests), KINDS);
    const { "BLAKE2b-256": short, ...others } = digests;
    assert.deepEqual(others, expectedDigestsOf(name, 65536), name);
    assert.match(short, /^[0-9a-f]{64}$/);
    assert.match(shown, /^done in \d+(\.\d\d)? s$/);
  }
  // hashlib.blake2b(digest_size=32) of nothing
  assert.equal(cards.at(-1).digests["BLAKE2b-256"], "0e5751c026e543b2e8ab2eb06099daa1d1e5df47778f7787faab45cdf12fe3a8");
  assert.match(await page.textOf("said"), /^video\.mp4: done in /);
  assert.equal(await page.evaluate("document.querySelectorAll('progress, .top button').length"), 0);
  // the same file can be chosen again
  assert.equal(await page.evaluate("document.getElementById('files').value"), "");
  assert.deepEqual(page.requests.filter((url) => !url.startsWith("blob:") && url !== PAGE), []);
});

// By hashlib, of one byte "o" and of none. Lines as b2sum writes them, and in other usual forms.
const MANIFEST = `# made by hand
4ccbe3a80f8112da36171794db81f2d5  one byte
11820b909d0301bb4f27b925cf970703df0a6150 *a/folder/one byte
BLAKE2b-224 (empty.txt) = 836CC68931C2E4E3E838602ECA1902591D216837BAFDDFE6F0C8CB07
b32811423377f52d7862286ee1a72ee540524380fda1724a6f25d7978c6fd3244a6caf0498812673c5e05ef583825100 empty.txt
BLAKE2s-128 (one byte) = b0b2850a0db21cea059541b48650649f
BLAKE2s (./empty.txt) = 69217a3079908094e11121d042354a7c1f55b6482ca1a51e1b250dfd1ed0eef9\r
BLAKE2b-tree-4096-256 (one byte) = d7b3b88155c2e9ea38422686d799a9fa9685cc441ecdba0f19f924552e4f3857
BLAKE2b-tree-1000 (empty.txt) = 186d406ce35b5df41038733cd84cf4f66c208bc02ad778bc1f5aff11e321d5989f48839ceb17224764cb603f0da7becb3a587b6ad5447099326d2a76452cc8ee
`;
const PAUSE = 500; // longer than one in typing
const VERDICT = "document.getElementById('verdict').textContent";
const LINES = "[...document.querySelectorAll('#lines li')].map((line) => line.innerText.split('\\n'))";


testOnPage("expected digests and manifests are compared, with digests of all lengths", {}, async (page) => {
  const { compare } = page;
  assert.equal(await compare("0".repeat(64)), "No file has been hashed yet. 0");
  assert.equal(await compare(MANIFEST), "8 digests: 8 no such file below. 0");
  await compare("");
  await page.hash(["one byte", "empty.txt"]);
  const [{ digests }, other] = await page.evaluate(CARDS);
  const digest = digests["BLAKE2s-256"];
  const equal = "Equal to the BLAKE2s-256 of empty.txt. 1";
  const unequal = "Not equal to any of the 8 digests below. 0";
  const changed = (c) => (c === "0" ? "1" : "0");
  const not = (length) => `This is not a digest of 128 to 512 bits in hexadecimal (${length} characters). 0`;
  for (const [text, verdict, shown = "good"] of [
    [digest, equal], [` ${digest.toUpperCase().slice(0, 32)}\n${digest.slice(32)} `, equal],
    [digest.replace(/.{8}/g, "$& "), equal], [`BLAKE2s-256 (empty.txt) = ${digest}`, equal],
    [`${digests["BLAKE2b-512"]} *empty.txt`, "Equal to the BLAKE2b-512 of empty.txt. 1"],
    [other.digests["tree root"], "Equal to the tree root of one byte. 1"],
    [digest.replace(/^./, changed), unequal, "bad"], [digest.replace(/.$/, changed), unequal, "bad"],
    [`${digest}0  empty.txt`, not(76), "bad"], [digest.slice(1), not(63), "bad"],
    [digest.slice(0, 30), not(30), "bad"], [`${digests["BLAKE2b-512"]}00`, not(130), "bad"],
    ["g".repeat(64), not(64), "bad"], ["", "Paste a digest, or lines of b2sum, to compare. 0", "quiet"],
  ]) {
    assert.equal(await compare(text), verdict, text);
    assert.equal(await page.evaluate(CLASS), shown, text);
  }
  const expect = async (text, verdict, shown, lines) => {
    await compare(text);
    await page.until(`${VERDICT} === ${JSON.stringify(verdict)}`, 20);
    assert.deepEqual(await page.evaluate(LINES), lines, text);
    assert.equal(await page.evaluate(CLASS), shown, text);
  };
  const names = ["one byte", "a/folder/one byte", "empty.txt", "empty.txt", "one byte", "./empty.txt", "one byte",
    "empty.txt"];
  const right = names.map((name) => [name, "OK"]);
  await expect(MANIFEST, "8 digests: 8 OK.", "good", right);
  const cards = await page.evaluate(CARDS);
  assert.deepEqual(cards.map(({ digests }) => Object.keys(digests)), [
    [...KINDS, "BLAKE2b-224", "BLAKE2b-384", "tree root"],
    [...KINDS, "BLAKE2b-128", "BLAKE2s-128", "BLAKE2b-160", "BLAKE2s-160", "tree root, 256 bits"],
  ].map((kinds) => [...new Set(kinds)]));
  assert.deepEqual(await page.evaluate("[...document.querySelectorAll('small')].map((e) => e.textContent)"),
    ["leaves of 64 KiB", "leaves of 1,000 bytes", "leaves of 64 KiB", "leaves of 4 KiB"]);
  // each line with another digit, the last one of its digest or the first
  const lines = MANIFEST.trim().split("\n").slice(1);
  for (const [i, line] of lines.entries()) {
    const one = line.replace(/(?<![0-9a-f])[0-9a-f](?=[0-9a-f]{20})/i, changed);
    assert.notEqual(one, line);
    await expect(lines.map((each) => (each === line ? one : each)).join("\n"), "8 digests: 1 FAILED, 7 OK.", "bad",
      [[names[i], "FAILED"], ...right.filter((_, j) => j !== i)]);
  }
  // of another length, which is computed after a pause
  const none = "0".repeat(42);
  const both = `${none}  one byte\n${none}  empty.txt`;
  assert.equal(await compare(both), "2 digests: 2 still being computed. 0");
  await expect(both, "2 digests: 2 FAILED.", "bad", [["one byte", "FAILED"], ["empty.txt", "FAILED"]]);
  const b256 = "dedab4ca710107c66d0f9bad9aef7f52f9958e724198fb9981b77e3fb6ae4e56"; // of one byte
  const nothing = "836cc68931c2e4e3e838602eca1902591d216837bafddfe6f0c8cb07"; // of none
  const wrong = b256.replace(/6$/, "7");
  for (const [text, verdict, ...lines] of [
    // two files of one name, of which one is here
    [`${b256}  a/one byte\n${wrong}  b/one byte`, "2 digests: 1 no such file below, 1 OK.",
      ["b/one byte", "no such file below"], ["a/one byte", "OK"]],
    // another file has the digest
    [`${b256}  other\n${b256}  one byte`, "2 digests: 1 no such file below, 1 OK.",
      ["other", "no such file below"], ["one byte", "OK"]],
    // the digest of another kind, or of another file
    [`BLAKE2s (one byte) = ${b256}\n${b256}  empty.txt`, "2 digests: 2 FAILED.",
      ["one byte", "FAILED"], ["empty.txt", "FAILED"]],
    // lines that are none: odd digits, a length that is not that of the tag, and too long
    [`${b256}  one byte\n${b256}0  one byte\nBLAKE2b-128 (one byte) = ${b256}\n` +
      `BLAKE2s (one byte) = ${b256}00\nBLAKE2b-tree-4294967296-256 (one byte) = ${b256}\n` +
      `BLAKE2s-264 (one byte) = ${b256}00\nand a remark`,
      "1 digest: 1 OK, 6 lines not understood.", ["one byte", "OK"]],
    // names that are escaped, and a digest alone
    [`\\${b256}  a\\nb\\\\c\\rd\n${b256}`, "2 digests: 1 no such file below, 1 OK.",
      ["a b\\c d", "no such file below"], [b256, "OK"]],
    // lines of b2sum -z
    [`${b256}  one byte\0${wrong}  one byte\0`, "2 digests: 1 FAILED, 1 OK.",
      ["one byte", "FAILED"], ["one byte", "OK"]],
    [`${nothing}\n${"0".repeat(56)}`, "2 digests: 1 FAILED, 1 OK.", ["0".repeat(56), "FAILED"], [nothing, "OK"]],
    // no more lines are shown than can be read
    [`${b256}  name\n`.repeat(1000), "1,000 digests: 1,000 no such file below.",
      ...Array(200).fill(["name", "no such file below"]), ["and 800 more"]],
  ]) {
    await expect(text, verdict, verdict.includes("FAILED") ? "bad" : "quiet", lines);
  }
  // a digest alone is computed for each file, after a pause: the second is typed within the first one's
  await Promise.all(["0".repeat(44), "e7cdb90916d4857b45c686f53bcdb999b9"].map(compare));
  await page.until(`${VERDICT} === "Equal to the BLAKE2s-136 of one byte."`, 20);
  await sleep(PAUSE);
  assert.equal((await page.evaluate(CARDS)).some(({ digests }) => "BLAKE2b-176" in digests), false);
  // what is expected is computed of a file that is chosen later, too
  await compare(MANIFEST);
  await page.hash(["empty.txt"], 3);
  await page.until(`${CARDS}[0].digests["BLAKE2b-224"] === "${nothing}"`, 20);
  assert.equal(await compare(digest), "Equal to the BLAKE2s-256 of empty.txt and to the BLAKE2s-256 of empty.txt. 2");
});

testOnPage("what is chosen is computed, of files that are dropped too, and is copied", LONG, async (page) => {
  const isOver = () => page.evaluate("document.getElementById('drop').matches('.over')");
  const isUnchosen = () => page.evaluate("!document.getElementById('choose').hidden");
  await page.evaluate(`{
    for (const box of document.querySelectorAll("[name=kind]")) box.checked = false;
    document.getElementById("leaf").value = "4096";
  }`);
  const name = "käse & <b>.bin";
  await page.choose(name);
  assert.equal(await isUnchosen(), true);
  for (const kind of ["tree root", "BLAKE2s-256"]) {
    await page.evaluate(`document.querySelector('[value="${kind}"]').checked = true`);
  }
  const data = { items: [], files: [pathOf(name)], dragOperationsMask: 1 };
  for (const type of ["dragEnter", "dragOver", "drop"]) {
    assert.equal(await isOver(), type !== "dragEnter");
    await page.call("Input.dispatchDragEvent", { type, x: 300, y: 300, data });
  }
  assert.equal(await isOver(), false);
  await page.until("document.querySelectorAll('[data-state=done]').length === 1");
  const [{ digests }] = await page.evaluate(CARDS);
  const { "BLAKE2b-512": _, ...wanted } = expectedDigestsOf(name, 4096);
  assert.deepEqual(digests, wanted);
  assert.equal(await isUnchosen(), false);
  await page.evaluate(`{
    window.copied = [];
    navigator.clipboard.writeText = async (text) => copied.push(text);
    document.execCommand = (command) => copied.push(command + " " + getSelection());
  }`);
  const click = (place) => page.evaluate(`{
    const button = document.querySelectorAll(".digest button")[${place}];
    button.click();
    new Promise((resolve) => setTimeout(() => resolve(button.textContent), 50));
  }`);
  assert.equal(await click(0), "Copied");
  await page.evaluate("navigator.clipboard.writeText = () => Promise.reject(new Error())"); // the page may not
  assert.equal(await click(1), "Copied");
  assert.deepEqual(await page.evaluate("copied"), [wanted["BLAKE2s-256"], `copy ${wanted["tree root"]}`]);
});

testOnPage("files are stopped while hashed or waiting, and a changed one is reported", {}, async (page) => {
  writeFileSync(pathOf("large.img"), "");
  truncateSync(pathOf("large.img"), 3_000_000_000);
  await page.choose("large.img");
  await page.until("document.querySelector('progress')?.value > 1e6");
  const zeros = "0".repeat(64);
  assert.equal(await page.compare(zeros), "Not equal to any digest so far; some are still being computed. 0");
  const named = `${zeros}  large.img\n${zeros}  other`;
  assert.equal(await page.compare(named), "2 digests: 1 still being computed, 1 no such file below. 0");
  await page.evaluate("document.querySelector('article .top button').focus()");
  await page.evaluate("document.activeElement.click()");
  await page.until("document.querySelector('article').dataset.state === 'failed'");
  assert.equal(await page.evaluate("document.activeElement.tagName"), "ARTICLE");
  assert.equal(await page.compare(named), "2 digests: 1 could not be computed, 1 no such file below. 0");
  await page.compare(`${"0".repeat(40)}  large.img`); // which is not begun again
  await sleep(PAUSE);
  // the workers are free again, and what waits for them is changed or stopped
  await page.evaluate("workers.forEach((worker) => (worker.isFree = false))");
  writeFileSync(pathOf("gone.bin"), Buffer.alloc(5_000_000));
  await page.choose("one byte", "empty.txt", "gone.bin");
  writeFileSync(pathOf("gone.bin"), Buffer.alloc(5_000_001));
  await page.evaluate("document.querySelectorAll('article .top button')[1].click()");
  await page.evaluate("workers.forEach((worker) => (worker.isFree = true)); startTasks()");
  await page.until("document.querySelectorAll('[data-state]').length === 4");
  const all = (text) => Object.fromEntries(KINDS.map((kind) => [kind, text]));
  const cards = await page.evaluate(CARDS);
  assert.deepEqual(cards.map(({ name, state, shown }) => [name, state, shown]), [
    ["gone.bin", "failed", "some digests could not be computed"],
    ["empty.txt", "failed", "stopped"], ["one byte", "done", cards[2].shown],
    ["large.img", "failed", "stopped"],
  ]);
  assert.match(cards[0].digests["BLAKE2b-512"], /^cannot be read \(is it a folder, or has it changed\?\): ./);
  assert.deepEqual([cards[1].digests, cards[3].digests], [all("stopped"), all("stopped")]);
});

test("a page that cannot hash says why, and hashes nothing", LONG, async (t) => {
  const chromium = await openChromium();
  if (chromium === undefined) return t.skip("no chromium");
  const text = readFileSync(pathOf("index.html"), "utf8");
  const wrong = pathOf("wrong.html");
  const noModule = /^The page cannot hash here: WebAssembly.Module\(\): .*\.$/;
  for (const [from, to, count, why] of [
    ["ba80a53f", "0a80a53f", 1, /^The page cannot hash here: its self-test failed\.$/],
    ['"AGFzbQEAAAAB', '"AGFzbQIAAAAB', 3, noModule], // the start of each module
    ['"use strict";\nconst module0', "nothing(); const module0", 1, /nothing is not defined/],
  ]) {
    const parts = text.split(from);
    assert.equal(parts.length, count + 1, from);
    for (let place = 1; place <= count; place++) { // one of them at a time
      writeFileSync(wrong, parts.slice(0, place).join(from) + to + parts.slice(place).join(from));
      const page = await chromium.open(pathToFileURL(wrong).href);
      await page.until("document.getElementById('self').textContent === 'failed.'", 60);
      assert.match(await page.evaluate("document.getElementById('broken').innerText"), why);
      await page.setFiles("#files", [pathOf("one byte")]);
      await sleep(200);
      assert.equal(await page.evaluate("document.querySelectorAll('[data-state=done]').length"), 0);
    }
  }
});

testOnPage("the page is readable, has names for its controls, and connects to nothing", { width: 320 }, async (
  page, t,
) => {
  await page.hash(["one byte"]);
  assert.equal(await page.evaluate("document.documentElement.scrollWidth <= innerWidth"), true);
  await page.evaluate("document.querySelector('.badge').click()");
  assert.equal(await page.evaluate("document.getElementById('proved').open"), true);
  const { nodes } = await page.call("Accessibility.getFullAXTree");
  const names = nodes.filter(({ ignored, role }) =>
    !ignored && ["button", "checkbox", "textbox", "combobox", "link"].includes(role?.value))
    .map(({ name }) => name?.value);
  assert.ok(names.length >= 11 && names.every(Boolean), String(names));
  assert.ok(names.includes("Copy the BLAKE2b-512 of one byte"), String(names));
  const asked = [];
  const url = await serve(t, (path) => String(asked.push(path)));
  assert.match(
    await page.evaluate(`fetch("${url}/fetch", { mode: "no-cors" }).then(() => "sent", String)`), /^TypeError/);
  await page.evaluate(`{
    navigator.sendBeacon("${url}/beacon", "text");
    new Image().src = "${url}/image";
    const [script, inside, form] = ["script", "script", "form"].map((name) =>
      document.body.appendChild(document.createElement(name)));
    document.head.appendChild(document.createElement("base")).href = "${url}";
    script.src = "${url}/script";
    inside.textContent = "window.ran = true";
    form.action = "${url}/form";
    form.submit();
    try { new WebSocket("${url.replace("http", "ws")}/socket"); } catch {}
    new Promise((resolve) => setTimeout(resolve, 300));
  }`);
  assert.deepEqual(asked, []);
  assert.equal(await page.evaluate("String(window.ran)"), "undefined");
  assert.equal(await page.evaluate("document.baseURI"), `${PAGE}#proved`);
});
