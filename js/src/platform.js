// What differs between node and browsers.

/** The maximum number of workers of a call. */
export const MOST_THREADS = 256;

/** A module of node, or undefined in a browser. */
export const nodeModule = (name) => globalThis.process?.getBuiltinModule?.(`node:${name}`);

/**
 * Whether workers may read blobs. Those of node may not: node refuses to pass a blob that is backed
 * by a file, and ends the process if a worker reads a part of one.
 */
export const canWorkersReadBlobs = () => nodeModule("worker_threads") === undefined;

/** The number of processors that this process may use, at most MOST_THREADS. */
export function processorCount() {
  const count = nodeModule("os")?.availableParallelism() ?? globalThis.navigator?.hardwareConcurrency;
  return Math.min(count ?? 1, MOST_THREADS);
}
