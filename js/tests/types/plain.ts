// Compiles without the types of browsers and of node.
import {
  Blake2b, blake2bStream, hashTransform, hashWritable, treeRootStream, type AbortSignalLike,
  type Source,
} from "vulfsjor";

async function* pieces(): AsyncGenerator<SharedArrayBuffer | Uint8Array> {
  yield new SharedArrayBuffer(3);
}
export const all = async (source: Source, signal: AbortSignalLike): Promise<Uint8Array[]> => [
  await blake2bStream(pieces(), { signal }),
  await treeRootStream(source, { leafLength: 4096, threads: 0 }),
];
export async function pipe(hash: Blake2b): Promise<Uint8Array> {
  const writer = hashWritable(hash).getWriter();
  await writer.write(new SharedArrayBuffer(3));
  await writer.close();
  return blake2bStream(hashTransform(new Blake2b()).readable);
}
