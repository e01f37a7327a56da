// Workers of node and of the browser. The calling thread does the work of one that cannot be
// started.

import { nodeModule } from "./platform.js";
import { digestsOfRange } from "./ranges.js";
import { moduleOf } from "./whole_module.js";
import { text } from "./worker_text.js";

// Starts a worker of node from its text. The flags of the process are left out, since some of them
// are refused for a worker.
const startInNode = () =>
  new (nodeModule("worker_threads").Worker)(text, { eval: true, execArgv: [] });

// Starts a worker of a browser from its text. A bundle then needs no file next to it.
function startFromText() {
  const url = URL.createObjectURL(new Blob([text], { type: "text/javascript" }));
  const release = () => URL.revokeObjectURL(url);
  try {
    return Object.assign(new Worker(url), { release });
  } catch (fault) {
    release();
    throw fault;
  }
}

// Starts a worker of a browser from its file, for pages whose policy forbids blob: URLs. Bundlers
// that find workers by themselves know this form.
const startFromFile = () =>
  new Worker(new URL("./vulfsjor_worker.js", import.meta.url), { type: "module" });

function listenTo(worker, onMessage, onFault) {
  if (typeof worker.on === "function") {
    worker.on("message", onMessage).on("messageerror", onFault).on("error", onFault)
      .on("exit", (code) => onFault(new Error(`it exited with code ${code}`)));
    return;
  }
  worker.onmessage = ({ data }) => onMessage(data);
  worker.onmessageerror = () => onFault(new Error("its result could not be read"));
  worker.onerror = ({ message }) => onFault(new Error(message ?? "it could not be started"));
}

// Lets other work of this thread run, such as what aborts a call. A browser has no setImmediate,
// and its timers are slow in a page that is not seen.
const yieldToOtherWork = () => new Promise((resolve) => {
  if (globalThis.setImmediate !== undefined) return setImmediate(resolve);
  const { port1, port2 } = new MessageChannel();
  port1.onmessage = () => {
    port1.close();
    resolve();
  };
  port2.postMessage(undefined);
});

/**
 * Hashes ranges of leaves, one at a time, in a worker or, if none can be started, here. It calls
 * onDigests with each result, onFallback with the error if no worker can be started, and onFault
 * with the error if the worker fails later or a range cannot be hashed here.
 */
export class RangeWorker {
  #caller;
  #listeners;
  #worker; // undefined if ranges are hashed here
  #isReady = false;
  #isStopped = false;
  #job; // waits until the worker is ready

  constructor(caller, listeners) {
    this.#caller = caller;
    this.#listeners = listeners;
    this.#startWorker(nodeModule("worker_threads") ? [startInNode] : [startFromText, startFromFile]);
  }

  // Starts a worker in the first of these ways that succeeds. Its first message says that it has
  // started.
  #startWorker([start, ...others], cause) {
    if (start === undefined) {
      this.#listeners.onFallback(cause);
      return this.#becomeReady();
    }
    let worker;
    try {
      worker = this.#worker = start();
    } catch (fault) {
      return this.#startWorker(others, fault);
    }
    const isCurrent = () => this.#worker === worker;
    listenTo(worker, (data) => {
      if (!isCurrent()) return;
      if (this.#isReady) this.#listeners.onDigests(data);
      else this.#becomeReady();
    }, (fault) => {
      if (!isCurrent()) return;
      if (this.#isReady) return this.#reportFault(fault);
      this.#terminateWorker();
      this.#startWorker(others, fault);
    });
  }

  #reportFault(cause) {
    const message = `${this.#caller}: a worker failed: ${cause?.message ?? cause}`;
    this.#listeners.onFault(new Error(message, { cause }));
  }

  #becomeReady() {
    this.#isReady = true;
    this.#worker?.release?.();
    if (this.#job !== undefined) this.post(this.#job);
  }

  /** Hashes a range as digestsOfRange does, as soon as it can. The one before has to be done. */
  post(job) {
    if (!this.#isReady) this.#job = job;
    else if (this.#worker === undefined) this.#hashHere(job);
    else {
      const transferred = job.message === undefined ? [] : [job.message.buffer];
      this.#worker.postMessage({ module: moduleOf(), ...job }, transferred);
    }
  }

  // Hashes a range here.
  async #hashHere(job) {
    await yieldToOtherWork();
    if (this.#isStopped) return;
    await digestsOfRange(job).then(
      (digests) => this.#isStopped || this.#listeners.onDigests(digests), this.#listeners.onFault);
  }

  #terminateWorker() {
    this.#worker?.release?.();
    this.#worker?.terminate();
    this.#worker = undefined;
  }

  /** Stops the worker. */
  stop() {
    this.#isStopped = true;
    this.#terminateWorker();
  }
}
