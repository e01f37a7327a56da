// Hashes ranges of leaves in a worker, for workers.js, which starts it from worker_text.js or from
// this file.

import { digestsOfRange } from "./ranges.js";
import { moduleOf } from "./whole_module.js";

const { parentPort } = globalThis.process?.getBuiltinModule?.("node:worker_threads") ?? {};
const port = parentPort ?? globalThis;

// An error that this throws reaches the other side as the worker's; that of a promise would not.
const fail = (fault) => setTimeout(() => { throw fault; });
port.onmessage = ({ data: { module, ...job } }) => {
  moduleOf(module); // so that it is not compiled again here
  digestsOfRange(job).then((digests) => port.postMessage(digests, [digests.buffer])).catch(fail);
};
port.postMessage("ready");
