// Several messages in one call of the library, which hashes those of equal lengths in parallel.
import { lengthOf } from "./arguments.js";
import {
  BATCH, KEY, MESSAGES, OUTS, RECORDS, WINDOW_LENGTH, assertAccepted, hash, withEngine,
} from "./engine.js";

// The end of the batch that begins with this message: as many messages as the window and the
// records have room for, in whole groups of those that are hashed in parallel. It is begin if not
// even one fits.
function endOfBatch(kind, messages, begin) {
  let end = begin;
  for (let length = 0; end < messages.length && end - begin < BATCH; end++) {
    length += lengthOf(messages[end]);
    if (length > WINDOW_LENGTH) break;
  }
  const isLast = end === messages.length;
  const groups = Math.floor((end - begin) / kind.atOnce) * kind.atOnce;
  return isLast || groups === 0 ? end : begin + groups;
}

/** The digests of several messages. */
export function hashMany(kind, messages, settings) {
  const digests = [];
  for (let begin = 0; begin < messages.length; ) {
    const end = endOfBatch(kind, messages, begin);
    if (end === begin) {
      digests.push(hash(kind, messages[begin++], settings));
    } else {
      for (const digest of hashBatch(kind, messages.slice(begin, end), settings)) {
        digests.push(digest);
      }
      begin = end;
    }
  }
  return digests;
}

function hashBatch(kind, messages, settings) {
  return withEngine((engine) => {
    let at = MESSAGES;
    messages.forEach((message, i) => {
      const record = engine.base + RECORDS + 16 * i;
      engine.view.setBigUint64(record, BigInt(engine.base + at), true);
      engine.view.setBigUint64(record + 8, engine.put(message, at), true);
      at += lengthOf(message);
    });
    const { digestLength } = settings;
    assertAccepted(engine.hash(kind).many(
      engine.at.outs, BigInt(digestLength * messages.length), BigInt(digestLength),
      engine.at.records, BigInt(messages.length), engine.at.key, engine.put(settings.key, KEY),
      ...engine.putSaltAndPersonalization(settings)));
    const digests = messages.map((_, i) => engine.read(OUTS + digestLength * i, digestLength));
    engine.wipeFromMessages(at - MESSAGES);
    return digests;
  }, kind);
}
