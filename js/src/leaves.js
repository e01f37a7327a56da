// Ranges of the leaves of a tree of two levels, and its root over their digests.
import { lengthOf, subarrayOf } from "./arguments.js";
import {
  LIMITS, MESSAGES, PART, PLAN, WINDOW_LENGTH, begin, final, assertAccepted, hash, update, withEngine,
} from "./engine.js";
import { TREE, WHOLE_BLAKE2B } from "./whole_module.js";

/** The bytes of a leaf's digest in the tree. */
export const LEAF_DIGEST = 64;

/**
 * The plan of a message: its bytes, for partOfPlan, and the number of its parts and of the bytes of
 * their digests. A part has about `part` bytes, and at most `most` unless it is one leaf.
 */
export function planOf(length, leafLength, part, most) {
  return withEngine((engine) => {
    const at = engine.base + PLAN;
    for (const [i, limit] of [1, 1, part, most].entries()) {
      engine.view.setBigUint64(engine.base + LIMITS + 8 * i, BigInt(limit), true);
    }
    assertAccepted(engine.treeFunction("plan")(
      engine.at.plan, 0n, BigInt(length), leafLength, engine.at.limits));
    const plan = {
      bytes: engine.read(PLAN, PART - PLAN),
      count: Number(engine.view.getBigUint64(at + 40, true)),
      digestsLength: Number(engine.view.getBigUint64(at + 56, true)),
    };
    engine.wipeAfterCall(TREE, 0);
    return plan;
  }, TREE);
}

/**
 * Part i of a plan: the number of its first leaf, a BigInt, its bytes and its digests, and whether
 * it ends the message.
 */
export function partOfPlan(plan, i) {
  return withEngine((engine) => {
    engine.put(plan.bytes, PLAN);
    assertAccepted(engine.treeFunction("part")(engine.at.part, engine.at.plan, BigInt(i)));
    const [first, ...numbers] = [0, 8, 16, 24, 32, 40].map((offset) =>
      engine.view.getBigUint64(engine.base + PART + offset, true));
    const [start, length, digestsStart, digestsLength, ends] = numbers.map(Number);
    engine.wipeAfterCall(TREE, 0);
    return { first, start, length, digestsStart, digestsLength, ends: ends === 1 };
  }, TREE);
}

// The digest of a node of the tree, whose message may be longer than the window.
function hashNode({ leafLength, salt, personalization }, digestLength, node, message) {
  const key = new Uint8Array(0);
  const settings = { digestLength, key, salt, personalization, leafLength, node, isPlain: false };
  return hash(WHOLE_BLAKE2B, message, settings);
}

// Leaves that fit into the window together with their digests, which come first in it.
function hashShortLeaves(settings, { first, ends }, message, room) {
  return withEngine((engine) => {
    const { messages } = engine.at;
    assertAccepted(engine.treeFunction("leaves")(
      messages, BigInt(room), first, ends ? 1 : 0, messages + BigInt(room),
      engine.put(message, MESSAGES + room), ...engine.putSaltAndPersonalization(settings), settings.leafLength));
    const digests = engine.read(MESSAGES, room);
    engine.wipeFromMessages(room + lengthOf(message));
    return digests;
  }, TREE);
}

/**
 * The digests of a range of leaves, LEAF_DIGEST bytes each. The range is the number of its first
 * leaf, a BigInt, and whether it ends the message. The message is whole leaves unless it ends, and
 * has at least one byte unless it is all of an empty message.
 */
export function hashLeaves(settings, range, message) {
  const { leafLength } = settings;
  const most = Math.floor(WINDOW_LENGTH / (leafLength + LEAF_DIGEST)) * leafLength;
  const plan = planOf(lengthOf(message), leafLength, most, most);
  const digests = new Uint8Array(plan.digestsLength);
  for (let i = 0; i < plan.count; i++) {
    const part = partOfPlan(plan, i);
    const place = { first: range.first + part.first, ends: range.ends && part.ends };
    const bytes = subarrayOf(message, part.start, part.length);
    digests.set(
      part.length <= most
        ? hashShortLeaves(settings, place, bytes, part.digestsLength)
        : hashNode(settings, LEAF_DIGEST, place, bytes),
      part.digestsStart);
  }
  return digests;
}

/** The root over the joined digests of all leaves of a message. */
export function rootOfLeaves(settings, digests) {
  const { digestLength, leafLength } = settings;
  if (lengthOf(digests) > WINDOW_LENGTH) return hashNode(settings, digestLength, "root", digests);
  return withEngine((engine) => {
    assertAccepted(engine.treeFunction("root_of_leaves")(
      engine.at.out, BigInt(digestLength), engine.at.messages, engine.put(digests, MESSAGES),
      ...engine.putSaltAndPersonalization(settings), leafLength));
    const root = engine.digest(digestLength);
    engine.wipeFromMessages(lengthOf(digests));
    return root;
  }, TREE);
}

/**
 * A state of a message's root, which absorbs the digests of all leaves in order. The settings are
 * those of the tree.
 */
export function beginRoot(settings) {
  return begin(WHOLE_BLAKE2B, { ...settings, key: new Uint8Array(0), node: "root" });
}

/** Absorbs the joined digests of the next leaves. */
export function updateRoot(state, digests) {
  update(WHOLE_BLAKE2B, state, 0, digests);
}

/** The root, of digestLength bytes. It ends the state. */
export function endRoot(state, digestLength) {
  return final(WHOLE_BLAKE2B, state, 0, digestLength);
}
