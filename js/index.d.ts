/**
 * BLAKE2b and BLAKE2s (RFC 7693), BLAKE2bp and BLAKE2sp, BLAKE2Xb and BLAKE2Xs in WebAssembly,
 * compiled from formally verified functions.
 *
 * Input is a `Uint8Array`, any other view or an `ArrayBuffer`; digests are new `Uint8Array`s. A
 * string is refused: `utf8(text)` encodes it. Values of another type, unknown options and further
 * arguments throw a `TypeError`; lengths and numbers out of bounds throw a `RangeError`. A call
 * that is refused changes nothing. Further arguments are ignored by `hex`, `fromHex` and `utf8`, so
 * that `map` can call them, and by `wipe` and `load`.
 *
 * These types need `es2018`, and neither `dom` nor the types of node.
 */

declare global {
  // for compilers before 5.2; the same as in their own libraries from then on
  interface SymbolConstructor {
    readonly dispose: unique symbol;
  }
}

/** Bytes. If it is a view, only the part that it covers is read. */
export type Bytes = ArrayBufferView | ArrayBuffer | SharedArrayBuffer;

/** The options of several hashes or message authentication codes. */
export interface ManyOptions {
  /** The length of the digest in bytes: 1 to 64, BLAKE2s 1 to 32. The default is the maximum. */
  digestLength?: number | undefined;
  /**
   * A key of 1 to 64 bytes, BLAKE2s 1 to 32. The digest is then a MAC. It must not be undefined:
   * leave it out for a hash without a key.
   */
  key?: Bytes;
  /** Up to 16 bytes, BLAKE2s up to 8. Trailing zeros change nothing. */
  salt?: Bytes | undefined;
  /**
   * Up to 16 bytes, BLAKE2s up to 8. Trailing zeros change nothing. Use a different one for each
   * purpose.
   */
  personalization?: Bytes | undefined;
}

/**
 * The options of BLAKE2bp, with the lengths of BLAKE2b, and of BLAKE2sp, with those of BLAKE2s.
 * Here `salt` and `personalization` are an extension: the BLAKE2 document gives these hashes
 * neither.
 */
export interface ParallelOptions extends ManyOptions {}

/** The position of a node in a tree of hashes (the BLAKE2 document, section 2.10). */
export interface NodePosition {
  /** The maximum number of children of a node, 0 to 255; 0 is unlimited. The default is 1. */
  fanout?: number | undefined;
  /** The number of levels of the tree, 1 to 255. The default is 1. */
  depth?: number | undefined;
  /** The maximum length of a leaf in bytes, below 2^32; 0, the default, is unlimited. */
  leafLength?: number | undefined;
  /** The index of this node in its level, below 2^64, BLAKE2s 2^48. The default is 0. */
  nodeOffset?: number | bigint | undefined;
  /** The level of this node, 0 (the leaves) to 255. The default is 0. */
  nodeDepth?: number | undefined;
  /** The length of inner nodes' digests in bytes, up to 64, BLAKE2s 32. The default is 0. */
  innerLength?: number | undefined;
  /** Whether this is the last node of its level. The default is false. */
  lastNode?: boolean | undefined;
}

/** The options of a hash or a message authentication code. */
export interface HashOptions extends ManyOptions {
  /** Which node it is. The default is sequential hashing. */
  tree?: NodePosition | undefined;
}

/** An option of incremental hashes that only `verify` looks at. */
export interface VerifyOptions {
  /**
   * Whether `verify` accepts a digest of fewer than 16 bytes. The default is false: anybody makes a
   * tag of n bytes in at most 256^n tries. So `digestLength` must never be that of a tag that came.
   */
  allowShort?: boolean | undefined;
}

/** The options of a tree of two levels. */
export interface TreeOptions {
  /** The length of a leaf in bytes, 1 to 2^32 - 1. */
  leafLength: number;
  /** The length of the root in bytes, 1 to 64. The default is 64. */
  digestLength?: number | undefined;
  /** Up to 16 bytes. Trailing zeros change nothing. */
  salt?: Bytes | undefined;
  /** Up to 16 bytes. Trailing zeros change nothing. */
  personalization?: Bytes | undefined;
}

/** The options of a range of leaves. */
export interface LeavesOptions {
  /** The length of a leaf in bytes, 1 to 2^32 - 1. */
  leafLength: number;
  /** The index of the first leaf of this range in the message, counted from 0. */
  first: number | bigint;
  /** Whether the message ends with this range. A wrong value produces a wrong root. */
  ends: boolean;
  /** The salt of the root. */
  salt?: Bytes | undefined;
  /** The personalization of the root. */
  personalization?: Bytes | undefined;
}

/** How many workers hash. */
export interface ThreadsOptions {
  /**
   * The maximum number of workers, up to 256; 0 is one for each processor. The default 1 hashes on
   * the calling thread, as do leaves longer than 64 MiB.
   */
  threads?: number | undefined;
  /**
   * Called once, with the reason, if a worker cannot be started. The calling thread then hashes in
   * its place, and the root is the same. If it throws, the promise rejects with that error.
   */
  onFallback?: ((reason: unknown) => void) | undefined;
}

/** Progress and cancellation. */
export interface StreamOptions {
  /**
   * Called while the source is hashed, with the number of bytes so far and the total, if it is
   * known. If it throws, the promise rejects with that error.
   */
  onProgress?: ((bytes: number, total: number | undefined) => void) | undefined;
  /** Stops the call: the promise rejects with the signal's reason. */
  signal?: AbortSignalLike | undefined;
}

/** An `AbortSignal`. */
export interface AbortSignalLike {
  readonly aborted: boolean;
  addEventListener(type: "abort", listener: () => void): void;
  removeEventListener(type: "abort", listener: () => void): void;
}

/** A `Blob`, such as a `File`. */
export interface BlobLike {
  readonly size: number;
  readonly type: string;
  slice(start?: number, end?: number): BlobLike;
  arrayBuffer(): Promise<ArrayBuffer>;
}

/** A `FileHandle` of node: `open` of `node:fs/promises` returns one. */
export interface FileHandleLike {
  readonly fd: number;
  stat(): Promise<{ isFile(): boolean; size: number | bigint }>;
  read(
    buffer: Uint8Array,
    offset: number,
    length: number,
    position: number,
  ): Promise<{ bytesRead: number }>;
}

/** A `ReadableStream` of bytes. */
export interface ReadableStreamLike {
  readonly locked: boolean;
  getReader(): {
    read(): Promise<{ done: boolean; value?: Bytes | undefined }>;
    cancel(reason?: unknown): Promise<void>;
    releaseLock(): void;
  };
}

/**
 * A source of bytes: a file, the body of a response, a stream of node, or pieces. A stream or an
 * iterator that was already read, or that something else is reading, throws a `TypeError`, as far as
 * the platform shows it.
 */
export type Source =
  BlobLike | ReadableStreamLike | FileHandleLike | AsyncIterable<Bytes> | Iterable<Bytes>;

/** Returns the BLAKE2b digest of a message. */
export function blake2b(message: Bytes, options?: HashOptions): Uint8Array;
/** Returns the BLAKE2s digest of a message. */
export function blake2s(message: Bytes, options?: HashOptions): Uint8Array;
/**
 * Returns the BLAKE2bp digest of a message. It is not its BLAKE2b digest; long messages are hashed
 * faster, and short ones slower.
 */
export function blake2bp(message: Bytes, options?: ParallelOptions): Uint8Array;
/** Returns the BLAKE2sp digest of a message, as `blake2bp` does for BLAKE2bp. */
export function blake2sp(message: Bytes, options?: ParallelOptions): Uint8Array;

/**
 * Returns the BLAKE2b digests of several messages with the same options. Four messages in a row
 * that have the same length are hashed in parallel. Each message of an iterable that is no array is
 * copied when it comes, so a generator may yield one buffer again and again.
 */
export function blake2bMany(messages: Iterable<Bytes>, options?: ManyOptions): Uint8Array[];
/**
 * Returns the BLAKE2s digests of several messages with the same options. Eight messages in a row
 * that have the same length are hashed in parallel. Each message of an iterable that is no array is
 * copied when it comes, so a generator may yield one buffer again and again.
 */
export function blake2sMany(messages: Iterable<Bytes>, options?: ManyOptions): Uint8Array[];

/**
 * Returns the root of a tree of two levels over BLAKE2b. The message is cut into leaves of
 * `leafLength` bytes, and the root hashes their digests. The root is not a BLAKE2b digest of the
 * message.
 */
export function treeRoot(message: Bytes, options: TreeOptions): Uint8Array;

/**
 * Returns the digests of a range of leaves in the tree of `treeRoot`, 64 bytes each. Ranges can be
 * hashed in any order and in parallel. `message` is the bytes of these leaves: whole leaves, unless
 * the message ends with them, and empty only if the whole message is empty. The range must end
 * before byte 2^58 of the message.
 */
export function treeLeaves(message: Bytes, options: LeavesOptions): Uint8Array;

/**
 * Returns the root over the digests of all leaves of a message, joined in order. It is the
 * `treeRoot` of the message. If a leaf changes, hash that leaf again, replace its digest, and
 * compute the root again.
 */
export function treeRootOfLeaves(digests: Bytes, options: TreeOptions): Uint8Array;

/**
 * Returns the BLAKE2b digest of everything that a source contains. A stream is read to its end or
 * canceled. Keep a file unchanged until the promise settles: it rejects if the file of a `Blob`
 * changes, or if that of a `FileHandle` becomes shorter, and no other change is noticed. A
 * `FileHandle` of a file that has bytes and the length 0, such as one of /proc, is refused.
 */
export function blake2bStream(
  source: Source,
  options?: HashOptions & StreamOptions,
): Promise<Uint8Array>;
/** Returns the BLAKE2s digest of a source, as `blake2bStream` does for BLAKE2b. */
export function blake2sStream(
  source: Source,
  options?: HashOptions & StreamOptions,
): Promise<Uint8Array>;
/** Returns the BLAKE2bp digest of a source, as `blake2bStream` does for BLAKE2b. */
export function blake2bpStream(
  source: Source,
  options?: ParallelOptions & StreamOptions,
): Promise<Uint8Array>;
/** Returns the BLAKE2sp digest of a source, as `blake2bStream` does for BLAKE2b. */
export function blake2spStream(
  source: Source,
  options?: ParallelOptions & StreamOptions,
): Promise<Uint8Array>;
/**
 * Returns the `treeRoot` of everything that a source contains, which is read as by `blake2bStream`.
 * If `threads` is not 1, workers hash the leaves, and the promise rejects if one of them fails
 * after it has started.
 * A long message needs no more memory than a short one.
 */
export function treeRootStream(
  source: Source,
  options: TreeOptions & StreamOptions & ThreadsOptions,
): Promise<Uint8Array>;

/** The error of `verify` for a wrong tag. */
export class InvalidTagError extends Error {
  readonly name: "InvalidTagError";
}

/**
 * An incremental hash. `digest`, `hex`, `verify` and `wipe` end it and set its state to zero; other
 * calls then throw.
 */
declare class Hasher {
  /** The length of the digest in bytes. */
  readonly digestLength: number;
  /** The length of a block in bytes: 128, BLAKE2s 64. BLAKE2bp and BLAKE2sp have the same. */
  readonly blockLength: number;
  /** Absorbs more of the message. */
  update(message: Bytes): this;
  /** Returns the digest of everything absorbed. Ends the hash. */
  digest(): Uint8Array;
  /** Returns the digest in hexadecimal digits. Ends the hash. */
  hex(): string;
  /**
   * Throws an `InvalidTagError` unless the tag is the whole digest; returns nothing. Ends the hash.
   * All bytes of a tag of the right length are compared, wherever they differ. A hash without a key,
   * except a tree, throws a `TypeError` and goes on: compare digests with `equal`. One whose digest
   * has fewer than 16 bytes throws a `RangeError` and goes on, unless `allowShort` is true.
   */
  verify(tag: Bytes): void;
  /** Returns a separate hash that has absorbed the same bytes. */
  copy(): this;
  /** Discards what was absorbed, and keeps the options. */
  reset(): this;
  /** Ends the hash, and sets its state to zero. You may call it more than once. */
  wipe(): void;
  /** The same as `wipe`, for `using`. */
  [Symbol.dispose](): void;
}

/** An incremental BLAKE2b hash. */
export class Blake2b extends Hasher {
  constructor(options?: HashOptions & VerifyOptions);
  /**
   * Returns the hash as bytes, which `load` reads, in every language and later version. They contain
   * the input that is pending, up to a block. A hash with a key throws a `TypeError` and goes on: the
   * bytes would be as good as the key.
   */
  save(): Uint8Array;
  /**
   * Returns the hash that was saved as these bytes. Whoever can change them chooses the digest, so
   * keep them as safe as the input. Throws a `RangeError` for what is not a saved state of this hash.
   */
  static load<Hash extends Blake2b>(this: new (...options: never[]) => Hash, saved: Bytes): Hash;
  /**
   * Absorbs each piece into the hash at its place, as its `update` would, all or none: a call that is
   * refused changes no hash. Throws a `TypeError` for a hash of another class, one that has ended and
   * one with an open pipe. Throws a `RangeError` if there are more pieces or fewer than hashes, if a
   * hash is there twice, or if a message would reach 2^64 bytes. Each piece of an iterable that is
   * not an array is copied when it comes. It is not faster than separate updates.
   */
  static updateMany(hashes: Iterable<Blake2b>, pieces: Iterable<Bytes>): void;
}

/** An incremental BLAKE2s hash. */
export class Blake2s extends Hasher {
  constructor(options?: HashOptions & VerifyOptions);
  /** As `save` of `Blake2b`. */
  save(): Uint8Array;
  /** As `load` of `Blake2b`. */
  static load<Hash extends Blake2s>(this: new (...options: never[]) => Hash, saved: Bytes): Hash;
  /** As `updateMany` of `Blake2b`. */
  static updateMany(hashes: Iterable<Blake2s>, pieces: Iterable<Bytes>): void;
}

/** An incremental BLAKE2bp hash. */
export class Blake2bp extends Hasher {
  constructor(options?: ParallelOptions & VerifyOptions);
}

/** An incremental BLAKE2sp hash. */
export class Blake2sp extends Hasher {
  constructor(options?: ParallelOptions & VerifyOptions);
}

/** Options of BLAKE2Xb and BLAKE2Xs. */
export interface OutputOptions {
  /**
   * The bytes of the output, 1 to 2^32 - 2 (BLAKE2Xb) or 65,534 (BLAKE2Xs); without it the length is
   * not known in advance. The output depends on it.
   */
  outputLength?: number | undefined;
  /** A key of 1 to 64 bytes (BLAKE2Xb) or 32 (BLAKE2Xs). It must not be undefined. */
  key?: Bytes;
  /** A salt of up to 16 bytes (BLAKE2Xb) or 8 (BLAKE2Xs). */
  salt?: Bytes | undefined;
  /** A personalization of up to 16 bytes (BLAKE2Xb) or 8 (BLAKE2Xs). */
  personalization?: Bytes | undefined;
}

declare abstract class Output {
  /** The bytes of a block of input. */
  readonly blockLength: number;
  /** How many bytes of the output are left to read. */
  readonly left: bigint;
  /** Absorbs the message after all earlier ones. Throws after the first `read`. */
  update(message: Bytes): this;
  /**
   * Returns the next bytes of the output, at most 2^31 - 1. Throws a `RangeError` if fewer are left;
   * then nothing is read. The first call ends the message.
   */
  read(length: number): Uint8Array;
  /** Returns an independent copy. */
  copy(): this;
  /** Overwrites the state. All later calls throw. */
  wipe(): void;
  /** The same as `wipe`, for `using`. */
  [Symbol.dispose](): void;
}

/** BLAKE2Xb, an output of any length that is read in pieces. */
export class Blake2xb extends Output {
  constructor(options?: OutputOptions);
}

/** BLAKE2Xs, an output of any length that is read in pieces. */
export class Blake2xs extends Output {
  constructor(options?: OutputOptions);
}

/**
 * Returns a key of this many bytes, 1 to 2^31 - 1, that is derived from a key of 1 to 64 bytes for a
 * context: the BLAKE2Xb output of the context under the key. Each purpose has a context of its own.
 */
export function deriveKey(key: Bytes, context: Bytes, length: number): Uint8Array;

/** The root of `treeRoot`, incrementally. */
export class TreeHash extends Hasher {
  constructor(options: TreeOptions);
}

/** A `WritableStream` of bytes. */
export interface WritableStreamLike {
  readonly locked: boolean;
  abort(reason?: unknown): Promise<void>;
  close(): Promise<void>;
  getWriter(): {
    write(chunk: Bytes): Promise<void>;
    close(): Promise<void>;
    abort(reason?: unknown): Promise<void>;
    releaseLock(): void;
  };
}

type AnyHash = Blake2b | Blake2s | Blake2bp | Blake2sp | TreeHash;
// The types of `dom` or of node, where there are some.
type GlobalReadable = typeof globalThis extends { ReadableStream: { prototype: infer Stream } }
  ? Stream : ReadableStreamLike;
type GlobalWritable = typeof globalThis extends { WritableStream: { prototype: infer Stream } }
  ? Stream : WritableStreamLike;

/**
 * Returns a `WritableStream` that absorbs the bytes written to it into a hash, for `pipeTo`. Until
 * it is closed, calls of the hash throw, except `copy` and `wipe`. If it is aborted, or a chunk is
 * not bytes, it ends the hash as `wipe` does.
 */
export function hashWritable(hash: AnyHash): GlobalWritable;

/**
 * Returns a pair of streams that passes bytes on unchanged and absorbs them into a hash, for
 * `pipeThrough`. It reads no faster than the other side. Until the data has ended, calls of the
 * hash throw, except `copy` and `wipe`. If either side fails before the end of the
 * data, or a chunk is not bytes, it ends the hash as `wipe` does.
 */
export function hashTransform(hash: AnyHash): {
  readable: GlobalReadable;
  writable: GlobalWritable;
};

/**
 * Returns which code runs: the line of `dist/MANIFEST` for it, which is the SHA-256 of a file of
 * `dist/`, two spaces, and its name. The modules of this package are made of that file.
 */
export function build(): string;

/** Returns whether two byte arrays are equal. Compares all bytes of arrays of the same length. */
export function equal(a: Bytes, b: Bytes): boolean;

/** Returns the bytes as lower-case hexadecimal digits. */
export function hex(bytes: Bytes): string;
/** Returns the bytes of hexadecimal digits of either case. */
export function fromHex(text: string): Uint8Array;

/** Returns the string in UTF-8. Throws a `RangeError` if it has a lone surrogate. */
export function utf8(text: string): Uint8Array;

/**
 * Compiles the library in advance, off the calling thread. Otherwise the first call compiles it on
 * its own thread.
 */
export function load(): Promise<void>;

export {};
