// A small client of Chromium's debugging protocol, over two pipes; each message ends with a zero byte. The tests of a
// process share one Chromium.
import { spawn } from "node:child_process";
import { once } from "node:events";
import { after } from "node:test";
import { setTimeout as sleep } from "node:timers/promises";
import { newFolder } from "./common.mjs";

const WORDS = [
  "--headless=new", "--no-sandbox", "--disable-gpu", "--remote-debugging-pipe", "--no-first-run",
  "--disable-dev-shm-usage", "--disable-background-networking",
];

/** Kills all processes of the group that a browser leads. Its folder is removed when this process ends. */
export async function endBrowser(browser) {
  const exited = new Promise((resolve) => browser.on("exit", resolve));
  try {
    process.kill(-browser.pid, "SIGKILL");
  } catch (fault) {
    if (fault.code !== "ESRCH") throw fault;
  }
  if (browser.exitCode === null && browser.signalCode === null) await exited;
}

// Starts Chromium. Rejects if there is none.
async function startChromium() {
  const child = spawn(process.env.CHROMIUM ?? "chromium", [...WORDS, `--user-data-dir=${newFolder()}`],
    { stdio: ["ignore", "ignore", "ignore", "pipe", "pipe"], detached: true });
  const [, , , input, output] = child.stdio;
  await once(child, "spawn");
  const answers = new Map();
  const listeners = new Set();
  let text = "";
  let count = 0;
  output.setEncoding("utf8").on("data", (chunk) => {
    const messages = (text + chunk).split("\0");
    text = messages.pop();
    for (const message of messages.map((each) => JSON.parse(each))) {
      if (message.id === undefined) listeners.forEach((listener) => listener(message));
      else if (message.error) answers.get(message.id).reject(new Error(message.error.message));
      else answers.get(message.id).resolve(message.result);
    }
  });
  const send = (method, params = {}, sessionId = undefined) =>
    new Promise((resolve, reject) => {
      answers.set(++count, { resolve, reject });
      input.write(JSON.stringify({ id: count, method, params, sessionId }) + "\0");
    });

  /** Opens a page. Its faults are the errors that it and the browser have logged. */
  async function open(url, { width = 1000 } = {}) {
    const { targetId } = await send("Target.createTarget", { url: "about:blank" });
    const { sessionId } = await send("Target.attachToTarget", { targetId, flatten: true });
    const faults = [];
    const requests = [];
    listeners.add(({ method, params, sessionId: from }) => {
      if (from !== sessionId) return;
      if (method === "Runtime.exceptionThrown") {
        faults.push(params.exceptionDetails.exception?.description ?? params.exceptionDetails.text);
      }
      if (method === "Log.entryAdded" && params.entry.level !== "verbose") {
        faults.push(params.entry.text);
      }
      if (method === "Runtime.consoleAPICalled" && params.type === "error") {
        faults.push(params.args.map((a) => a.value).join(" "));
      }
      if (method === "Network.requestWillBeSent") requests.push(params.request.url);
    });
    const call = (method, params) => send(method, params, sessionId);
    for (const domain of ["Page", "Runtime", "Log", "Network", "DOM"]) await call(`${domain}.enable`);
    await call("Emulation.setDeviceMetricsOverride", { width, height: 900, deviceScaleFactor: 1, mobile: false });
    await call("Page.navigate", { url });
    const evaluate = async (expression) => {
      const { result, exceptionDetails: thrown } = await call(
        "Runtime.evaluate", { expression, awaitPromise: true, returnByValue: true });
      if (thrown) throw new Error(thrown.exception?.description ?? thrown.text);
      return result.value;
    };
    const until = async (expression, seconds = 120) => {
      for (const end = Date.now() + 1000 * seconds; Date.now() < end; ) {
        const value = await evaluate(expression).catch(() => undefined);
        if (value) return value;
        await sleep(50);
      }
      throw new Error(`the page never had ${expression}; its errors are: ${faults}`);
    };
    const setFiles = async (selector, files) => {
      const { result } = await call(
        "Runtime.evaluate", { expression: `document.querySelector(${JSON.stringify(selector)})` });
      await call("DOM.setFileInputFiles", { files, objectId: result.objectId });
    };
    const close = () => send("Target.closeTarget", { targetId });
    return { call, evaluate, until, setFiles, close, faults, requests };
  }

  async function close() {
    await send("Browser.close").catch(() => {});
    await endBrowser(child);
  }
  return { open, close };
}

let shared;
after(async () => (await shared)?.close());

/** The Chromium of this process, or undefined if there is none. */
export function openChromium() {
  shared ??= startChromium().catch((fault) => {
    if (fault.code !== "ENOENT") throw fault;
  });
  return shared;
}
