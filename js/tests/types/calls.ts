// Compiles, up to the lines at the end, of which each is an error.
import {
  Blake2b, Blake2bp, Blake2s, Blake2sp, Blake2xb, Blake2xs, InvalidTagError, TreeHash, blake2b, blake2bMany,
  blake2bStream, blake2bp, blake2bpStream, blake2s, blake2sMany, blake2sStream, blake2sp, blake2spStream, deriveKey,
  equal, fromHex, hashTransform, hashWritable, hex, load, treeLeaves, treeRoot, treeRootOfLeaves, treeRootStream, utf8,
  type Bytes, type FileHandleLike, type HashOptions, type ManyOptions, type ParallelOptions,
} from "vulfsjor";

const digest: Uint8Array = blake2b(new Uint8Array(3), { digestLength: 32, key: new ArrayBuffer(3) });
const options: HashOptions = { salt: new DataView(new ArrayBuffer(3)), tree: { nodeOffset: 5n, lastNode: true } };
const text: string = new Blake2b(options).update(digest).copy().reset().hex();
const copy: Blake2s = new Blake2s().copy();
const isSame: boolean = equal(digest, fromHex(hex(digest)));
const saved: Uint8Array[] = [new Blake2b().save(), Blake2b.load(digest).save(), Blake2s.load(new ArrayBuffer(9)).save()];
const again: Blake2s = Blake2s.load(saved[0]!);
try {
  const nothing: void = copy.verify(utf8(text));
  console.log(nothing, isSame, new Blake2b()[Symbol.dispose]);
} catch (fault) {
  if (fault instanceof InvalidTagError) console.log(fault.name, fault.message);
}
new Blake2bp({ key: digest, digestLength: 8, allowShort: true }).verify(digest);
new Blake2s({ ...options, allowShort: undefined });
const ofEach: ManyOptions = { key: digest };
const parallel: ParallelOptions = { key: digest, salt: digest, personalization: digest };
const all = async (file: Blob, signal: AbortSignal): Promise<Uint8Array[]> => [
  treeRoot(digest, { leafLength: 5 }), new TreeHash({ leafLength: 5 }).digest(),
  ...blake2bMany(new Set<Bytes>([digest, new SharedArrayBuffer(3)]), ofEach),
  blake2bp(digest), blake2sp(digest, parallel), new Blake2sp(parallel).update(digest).digest(),
  await blake2bStream(file, { key: digest, signal, onProgress: (bytes, total) => console.log(bytes, total ?? 0) }),
  await blake2bStream(file.stream()), await blake2bpStream(file, parallel), await blake2spStream(file, { signal }),
  await treeRootStream(file, { leafLength: 65536, threads: 4, onFallback: (reason) => { throw reason; } }),
  treeRootOfLeaves(treeLeaves(digest, { leafLength: 5, first: 0n, ends: true }), { leafLength: 5 }),
];
const later = (file: Blob): Promise<Uint8Array>[] => [
  blake2bStream(file), blake2sStream(file), blake2bpStream(file), blake2spStream(file),
  treeRootStream(file, { leafLength: 5 }),
];
load().then(() => [all, later]);

// outputs of any length
const output = new Blake2xb({ outputLength: 9, key: digest }).update(digest).copy();
const left: bigint = output.left;
const read: Uint8Array[] = [output.read(5), new Blake2xs().read(9), deriveKey(digest, digest, 32)];
console.log(left, read, output[Symbol.dispose]());

// a subclass stays one
class Counted extends Blake2b {
  count = 0;
}
new Counted().update(digest).copy().reset().count++;
Counted.load(again.save()).count++;
const nothing: void = Blake2b.updateMany([new Blake2b(), new Counted()], new Set<Bytes>([digest, new ArrayBuffer(3)]));
Counted.updateMany([new Counted()].values(), [new DataView(new ArrayBuffer(3))]);
Blake2s.updateMany([again], [new SharedArrayBuffer(3)]);
console.log(nothing);

// what is undefined is not given
const no = undefined;
const none = { digestLength: no, salt: no, personalization: no };
const node = { fanout: no, depth: no, leafLength: no, nodeOffset: no, nodeDepth: no, innerLength: no, lastNode: no };
for (const tree of [no, node]) blake2b(digest, { ...none, tree });
new Blake2xb({ outputLength: no, salt: no, personalization: no });
treeLeaves(digest, { leafLength: 5, first: 0, ends: true, salt: no, personalization: no });
treeRootStream(new Blob([]), { leafLength: 5, ...none, threads: no, onFallback: no, onProgress: no, signal: no });

// sources: pieces, a file of node, one whose numbers are bigints, and a stream and a file of a browser
declare const handle: FileHandleLike, fetched: Response, file: File, strings: ReadableStream<string>;
declare const big: { fd: number; stat(): Promise<{ isFile(): boolean; size: bigint }>; read: FileHandleLike["read"] };
for (const source of [[digest, new ArrayBuffer(3)], new Set([digest]), handle, big]) blake2bStream(source);
blake2sStream((function* () { yield digest; })());
if (fetched.body) blake2bStream(fetched.body, { signal: new AbortController().signal });
blake2bStream(file.stream());

// pipes of a browser
const copied: Promise<void> = file.stream().pipeThrough(hashTransform(new Blake2b()))
  .pipeThrough(hashTransform(new Blake2bp()))
  .pipeTo(hashWritable(new TreeHash({ leafLength: 5 })));
console.log(copied);

declare const config: { key?: Uint8Array };
// Each line from here on is an error. First a key that may be missing, in each call that has one.
blake2b(digest, { key: config.key });
blake2s(digest, { key: config.key });
blake2bp(digest, { key: config.key });
blake2sp(digest, { key: config.key });
new Blake2b({ key: config.key });
new Blake2sp({ key: no });
new Blake2xb({ key: config.key });
new Blake2xs({ key: no });
blake2bMany([digest], { key: config.key });
blake2sMany([digest], { key: no });
blake2bMany([digest], { tree: { depth: 2 } }); // nodes of trees are hashed one by one
blake2sMany([digest], { tree: { depth: 2 } });
blake2bStream([digest], { key: config.key });
deriveKey(config.key, digest, 32);
deriveKey(digest, digest); // without a length
new Blake2xs({ digestLength: 32 }); // an output has another name for its length
output.digest(); // and no digest
new Blake2b().digestLength = 32; // read only
blake2bStream(["text"]);
blake2bStream("text");
blake2bStream(handle.fd);
blake2bStream(strings);
blake2bStream(digest); // bytes are no source
blake2bStream(file, { signal: new AbortController() }); // a signal, and not its controller
hashTransform({ digestLength: 32 }); // options are those of the hash
file.stream().pipeTo(hashTransform(new Blake2b())); // a pair, and no sink
blake2b("abc");
blake2b(digest, { dkLen: 32 });
blake2b(digest, 32); // a length is an option
blake2s(digest, {}, 32);
treeRoot(digest); // a tree needs the length of its leaves
treeRoot(digest, {});
treeLeaves(digest, { first: 0, ends: true });
treeLeaves(digest, { leafLength: 5, ends: true }); // a range says where it begins, and whether it ends
treeLeaves(digest, { leafLength: 5, first: 0 });
blake2bStream(file, { threads: 2 }); // only trees have threads
blake2bpStream(file, { threads: 2 });
new TreeHash({ leafLength: 5, key: digest }); // a tree has no key
new Blake2b().digest("hex"); // digest accepts no encoding
new Blake2b().verify("00"); // a tag is bytes
new Blake2b().save("hex"); // a saved state is bytes
Blake2b.load("00");
Blake2s.load(digest, {}); // which say all that options say
new Blake2bp().save(); // only BLAKE2b and BLAKE2s have saved states
TreeHash.load(digest);
Blake2bp.updateMany([new Blake2bp()], [digest]); // and calls of several hashes
Blake2b.updateMany([new Blake2bp()], [digest]); // which are of the class
Blake2s.updateMany(copy, [digest]); // several hashes
Blake2s.updateMany([copy], digest); // and several pieces
Blake2b.updateMany([new Blake2b()], ["text"]);
Blake2b.updateMany([new Blake2b()]);
Blake2s.updateMany([copy], [digest], {});
if (Blake2b.updateMany([], [])) console.log();
if (new Blake2b({ key: digest }).verify(digest)) console.log(); // a check has no value, which nobody compares
if (await new Blake2b({ key: digest }).verify(digest)) console.log();
if (copy.verify) console.log(); // nor is a check that is not called
equal(blake2bStream([digest]), digest); // a promise is no digest
if (blake2bStream([digest])) console.log();
new Blake2b().key = digest; // a key is an option
const isRight: boolean = new TreeHash({ leafLength: 5 }).verify(digest);
blake2bp(digest, { tree: {} }); // the trees of BLAKE2bp and BLAKE2sp are fixed
blake2sp(digest, { tree: {} });
new Blake2bp({ tree: {} });
new Blake2sp({ tree: {} });
blake2bpStream(file, { tree: {} });
blake2spStream(file, { tree: {} });
blake2bMany([digest], { tree: {} }); // several messages have no place in a tree
blake2sMany([digest], { tree: {} });
equal(blake2sStream([digest]), digest); // each stream returns a promise
equal(blake2bpStream(file), digest);
equal(blake2spStream(file), digest);
equal(treeRootStream(file, { leafLength: 5 }), digest);
blake2b(digest, { allowShort: true }); // only what verifies looks at the length of a tag
new TreeHash({ leafLength: 5, allowShort: true });
