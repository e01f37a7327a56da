// The page: passes each file with each hash to a worker, and shows the digests.

const $ = (id) => document.getElementById(id);
const element = (name, properties = {}, ...children) => {
  const made = Object.assign(document.createElement(name), properties);
  made.append(...children);
  return made;
};
const number = new Intl.NumberFormat("en");

const text = new Blob([$("worker").textContent], { type: "text/javascript" });
const source = URL.createObjectURL(text);
const workers = [];
const waiting = [];
const running = new Map(); // tasks by their number
const items = []; // the files, and the digests of each: kind, row, state, digest
let expected = { entries: [], wrong: 0 }; // what was pasted
let nextTask = 0;

// ---- Workers

function showFault(cause) {
  $("broken").hidden = false;
  $("broken").textContent = `The page cannot hash here: ${cause}.`;
  $("self").textContent = "failed.";
}

function handleAnswer(worker, { data }) {
  if ("ready" in data) {
    if (!data.ready) return showFault(data.fault ?? "its self-test failed");
    worker.isFree = true;
    $("self").textContent = "passed.";
    return startTasks();
  }
  const task = running.get(data.id);
  if ("bytes" in data) return task.progress(data.bytes);
  running.delete(data.id);
  worker.isFree = true;
  if ("digest" in data) task.done(data.digest);
  else task.failed(data.fault);
  startTasks();
}

function startWorkers() {
  const count = Math.min(4, navigator.hardwareConcurrency || 2);
  for (let i = 0; i < count; i++) {
    const worker = { isFree: false, thread: new Worker(source) };
    worker.thread.onmessage = (event) => handleAnswer(worker, event);
    worker.thread.onerror = (event) => showFault(event.message ?? "no worker");
    workers.push(worker);
  }
}

function startTasks() {
  for (const worker of workers) {
    if (!worker.isFree || waiting.length === 0) continue;
    const task = waiting.shift();
    worker.isFree = false;
    task.worker = worker;
    running.set(task.id, task);
    const { id, file, kind } = task;
    worker.thread.postMessage({ id, file, kind });
  }
}

function stopTask(task) {
  const place = waiting.indexOf(task);
  if (place >= 0) {
    waiting.splice(place, 1);
    task.failed("stopped");
  } else if (running.has(task.id)) task.worker.thread.postMessage({ stop: task.id });
}

// ---- Files

const describeSize = (bytes) => `${number.format(bytes)} byte${bytes === 1 ? "" : "s"}`;

async function copyText(text, button) {
  try {
    await navigator.clipboard.writeText(text);
  } catch {
    const area = element("textarea", { value: text, className: "hidden" });
    document.body.append(area);
    area.select();
    document.execCommand("copy");
    area.remove();
    button.focus(); // which the area took away
  }
  button.textContent = "Copied";
  $("said").textContent = "Copied";
  setTimeout(() => (button.textContent = "Copy"), 1500);
}

const leafOf = (bytes) =>
  (bytes % 1024 === 0 ? `${number.format(bytes / 1024)} KiB` : describeSize(bytes));

function rowOf(file, kind) {
  const value = element("code", { textContent: "…" });
  const button = element("button", { type: "button", textContent: "Copy", hidden: true });
  button.setAttribute("aria-label", `Copy the ${nameOf(kind)} of ${file.name}`);
  button.onclick = () => copyText(value.textContent, button);
  const name = element("dt", { textContent: nameOf(kind) });
  if (kind.family === "tree") {
    name.append(element("small", { textContent: `leaves of ${leafOf(kind.leafLength)}` }));
  }
  const row = element("div", { className: "digest" }, name, element("dd", {}, value), button);
  return { row, value, button };
}

// The card of a file, with the elements that change.
function cardOf(file, count) {
  const bar = element("progress", { max: Math.max(1, file.size * count), value: 0 });
  bar.setAttribute("aria-label", `Progress of ${file.name}`);
  const state = element("p", { className: "quiet", textContent: "waiting" });
  const button = element("button", { type: "button", textContent: "Stop" });
  button.setAttribute("aria-label", `Stop ${file.name}`);
  const list = element("dl");
  const card = element("article", { className: "card", tabIndex: -1 },
    element("div", { className: "top" },
      element("div", {}, element("h2", { textContent: file.name }),
        element("div", { className: "quiet", textContent: describeSize(file.size) })), button),
    bar, state, list);
  $("results").prepend(card);
  return { card, bar, state, button, list };
}

// Adds a task for a worker, and its row. It calls progress with its bytes, and close when it ends.
function addTask(item, kind, progress, close) {
  const { file, list, digests, tasks } = item;
  const { row, value, button } = rowOf(file, kind);
  list.append(row);
  const entry = { kind, row, state: "open", digest: undefined };
  digests.push(entry);
  const task = {
    id: nextTask++, file, kind, progress,
    done(digest) {
      progress(file.size);
      value.textContent = digest;
      button.hidden = false;
      Object.assign(entry, { state: "done", digest });
      close();
    },
    failed(fault) {
      const isStopped = fault === "stopped";
      value.replaceWith(element("span", {
        className: isStopped ? "quiet" : "fault",
        textContent: isStopped
          ? fault : `cannot be read (is it a folder, or has it changed?): ${fault}`,
      }));
      entry.state = "failed";
      close(fault);
    },
  };
  tasks.push(task);
  waiting.push(task);
}

function showFile(file, kinds) {
  const begun = performance.now();
  const { card, bar, state, button, list } = cardOf(file, kinds.length);
  let open = kinds.length;
  let faults = 0;
  const counts = kinds.map(() => 0);
  const progress = (i, bytes) => {
    counts[i] = bytes;
    bar.value = counts.reduce((a, b) => a + b, 0);
    state.textContent = `${Math.floor((100 * bar.value) / bar.max)}%`;
  };
  const close = (fault) => {
    if (fault !== undefined) faults++;
    compareDigests();
    if (--open > 0) return;
    const seconds = (performance.now() - begun) / 1000;
    if (document.activeElement === button) card.focus(); // so that the keyboard stays here
    button.remove();
    bar.remove();
    state.textContent = faults > 0
      ? (fault === "stopped" ? "stopped" : "some digests could not be computed")
      : `done in ${seconds.toFixed(seconds < 10 ? 2 : 0)} s`;
    $("said").textContent = `${file.name}: ${state.textContent}`;
    card.dataset.state = faults > 0 ? "failed" : "done";
  };
  const item = { file, list, digests: [], tasks: [], isStopped: false };
  items.push(item);
  kinds.forEach((kind, i) => addTask(item, kind, (bytes) => progress(i, bytes), close));
  button.onclick = () => {
    item.isStopped = true;
    item.tasks.forEach(stopTask);
  };
  compareDigests();
}

function addFiles(files) {
  const boxes = [...document.querySelectorAll("input[name=kind]:checked")];
  $("choose").hidden = boxes.length > 0;
  if (boxes.length === 0) return document.querySelector("input[name=kind]").focus();
  const leafLength = Number($("leaf").value);
  const kinds = boxes.map(({ value }) => {
    const [family, bits] = value.split("-");
    return bits === undefined ? { family: "tree", bits: LONGEST.tree, leafLength }
      : { family, bits: Number(bits), leafLength: undefined };
  });
  for (const file of files) showFile(file, kinds);
  requestMissing();
  startTasks();
}

// ---- The expected digests

// Whether an entry may be about a digest of this kind.
const entryMayHaveKind = ({ kinds, isAny }, kind) => isAny || kinds.some((other) => isSameKind(kind, other));

const entryHasDigestOf = (entry, { digests }) =>
  digests.some(({ kind, digest }) => digest === entry.digest && entryMayHaveKind(entry, kind));

// Computes the digests that are expected of a file and that nobody has chosen.
function requestMissing() {
  const { byName } = indexDigests();
  for (const entry of expected.entries) {
    for (const item of byName(entry)) {
      if (item.isStopped || entryHasDigestOf(entry, item)) continue;
      for (const kind of entry.kinds) {
        if (item.digests.some((other) => isSameKind(other.kind, kind))) continue;
        addTask(item, kind, () => {}, compareDigests);
      }
    }
  }
}

// The files that an entry names, which are all if it names none, and the digests that are equal.
function indexDigests() {
  const [names, digests] = [new Map(), new Map()];
  const add = (map, key, value) =>
    (map.has(key) ? map.get(key).push(value) : map.set(key, [value]));
  for (const item of items) {
    add(names, item.file.name, item);
    for (const each of item.digests) add(digests, each.digest, { ...each, item });
  }
  return {
    byName: ({ base }) => (base === undefined ? items : names.get(base) ?? []),
    byDigest: (entry) =>
      (digests.get(entry.digest) ?? []).filter(({ kind }) => entryMayHaveKind(entry, kind)),
  };
}

// What is known of an entry: the digests that are equal, and a state. A file has not failed if it is
// one that the manifest has under this name in another folder.
function judgeEntry(entry, { byName, byDigest }) {
  const equal = byDigest(entry);
  const named = byName(entry);
  const namesakes = () => expected.entries.filter((other) =>
    other.base === entry.base && other.name !== entry.name &&
    other.kinds.some((kind) => entryMayHaveKind(entry, kind)));
  const left = named.filter((item) => !namesakes().some((other) => entryHasDigestOf(other, item)));
  const states = left.flatMap(({ digests, isStopped }) => {
    const own = digests.filter(({ kind }) => entryMayHaveKind(entry, kind));
    if (own.length === 0 && !isStopped) return ["open"]; // it is requested after a pause
    return own.map((each) => each.state);
  });
  const state = equal.some(({ item }) => named.includes(item)) ? "OK"
    : left.length === 0 ? "no such file below"
      : states.includes("open") ? "still being computed"
        : states.every((each) => each === "failed") ? "could not be computed" : "FAILED";
  return { entry, state, equal };
}

const showVerdict = (text, name) => Object.assign($("verdict"), { textContent: text, className: name });
const plural = (count, word) => `${number.format(count)} ${word}${count === 1 ? "" : "s"}`;

// The verdict on one digest, of whatever file.
function showDigestVerdict({ state, equal }) {
  const count = items.flatMap(({ digests }) => digests).filter(({ digest }) => digest).length;
  if (equal.length > 0) {
    const which = equal.map(({ kind, item }) => `${nameOf(kind)} of ${item.file.name}`);
    showVerdict(`Equal to the ${which.join(" and to the ")}.`, "good");
  } else if (waiting.length + running.size > 0) {
    showVerdict("Not equal to any digest so far; some are still being computed.", "quiet");
  } else if (items.length === 0) showVerdict("No file has been hashed yet.", "quiet");
  else showVerdict(`Not equal to any of the ${plural(count, "digest")} below.`, "bad");
}

const SHOWN = 200; // lines of a manifest
const STATES = [
  ["FAILED", "bad"], ["could not be computed", "bad"], ["still being computed", "quiet"],
  ["no such file below", "quiet"], ["OK", "good"],
];

// The verdict on a manifest, and what is wrong with each of its files before all that is right.
function showManifestVerdict(judged) {
  const ranked = STATES.map(([state, name]) =>
    [state, name, judged.filter((one) => one.state === state)]);
  const counts = ranked.filter(([, , list]) => list.length > 0)
    .map(([state, , list]) => `${number.format(list.length)} ${state}`);
  if (expected.wrong > 0) counts.push(`${plural(expected.wrong, "line")} not understood`);
  const worst = ranked.find(([, , list]) => list.length > 0)[1];
  showVerdict(`${plural(judged.length, "digest")}: ${counts.join(", ")}.`,
    worst === "good" && expected.wrong > 0 ? "quiet" : worst);
  const lines = ranked.flatMap(([state, name, list]) => list.map(({ entry }) => element("li", {},
    element("span", { textContent: entry.name ?? entry.digest }),
    element("span", { className: name, textContent: state }))));
  $("lines").replaceChildren(...lines.slice(0, SHOWN));
  if (lines.length > SHOWN) {
    const count = number.format(lines.length - SHOWN);
    $("lines").append(element("li", { textContent: `and ${count} more` }));
  }
}

function compareDigests() {
  const text = $("wanted").value.trim();
  const indexed = indexDigests();
  const judged = expected.entries.map((entry) => judgeEntry(entry, indexed));
  const rows = new Set(judged.flatMap(({ equal }) => equal.map(({ row }) => row)));
  for (const { row } of items.flatMap(({ digests }) => digests)) {
    row.classList.toggle("equal", rows.has(row));
  }
  $("lines").replaceChildren();
  if (text === "") showVerdict("Paste a digest, or lines of b2sum, to compare.", "quiet");
  else if (judged.length === 0) {
    showVerdict(
      `This is not a digest of 128 to 512 bits in hexadecimal (${text.length} characters).`, "bad");
  } else if (judged.length === 1 && expected.wrong === 0) showDigestVerdict(judged[0]);
  else showManifestVerdict(judged);
}

let pause;
function readExpected() {
  expected = entriesOf($("wanted").value.trim());
  compareDigests();
  clearTimeout(pause); // until a pause in typing
  pause = setTimeout(() => {
    requestMissing();
    compareDigests();
    startTasks();
  }, 300);
}

// ---- What the user does

const drop = $("drop");
for (const name of ["dragenter", "dragover"]) {
  addEventListener(name, (event) => {
    event.preventDefault();
    drop.classList.add("over");
  });
}
addEventListener("dragleave", (event) => event.relatedTarget || drop.classList.remove("over"));
addEventListener("drop", (event) => {
  event.preventDefault();
  drop.classList.remove("over");
  addFiles(event.dataTransfer.files);
});
$("files").onchange = ({ target }) => {
  addFiles([...target.files]);
  target.value = "";
};
$("wanted").oninput = readExpected;
document.querySelector(".badge").onclick = () => ($("proved").open = true);
if (location.hash === "#proved") $("proved").open = true;
startWorkers();
