// Hashes files for the page, one at a time, off the page's thread.
import {
  blake2b, blake2bStream, blake2s, blake2sStream, hex, treeRoot, treeRootStream, utf8,
} from "../index.js";

const streams = { BLAKE2b: blake2bStream, BLAKE2s: blake2sStream, tree: treeRootStream };

// BLAKE2b-512 and BLAKE2s-256 of abc as in RFC 7693; the other two are hashlib's.
function testSelf() {
  const abc = utf8("abc");
  const digests = [
    blake2b(abc), blake2b(abc, { digestLength: 32 }), blake2s(abc),
    treeRoot(abc, { leafLength: 2 }),
  ].map((digest) => hex(digest));
  const expected = [
    "ba80a53f981c4d0d6a2797b69f12f6e94c212f14685ac4b74b12bb6fdbffa2d1" +
      "7d87c5392aab792dc252d5de4533cc9518d38aa8dbf1925ab92386edd4009923",
    "bddd813c634239723171ef3fee98579b94964e3bb1cb3e427262c8c068d52319",
    "508c5e8c327c14e2e1a72ba34eeb452f37458b209ed63a294d999b4c86675982",
    "19fc31bb8e4ba89ab5c5bf69cd666eb71b0ff05454a6611e770d22989383e547" +
      "ba9d2a665cfcd8981c450f37b794aadef82306a9e4727b843c64cc1bd60c50c4",
  ];
  return String(digests) === String(expected);
}

const stops = new Map();

async function hashFile({ id, file, kind: { family, bits, leafLength } }) {
  const control = new AbortController();
  stops.set(id, control);
  try {
    const onProgress = (bytes) => postMessage({ id, bytes });
    const options = { digestLength: bits / 8, onProgress, signal: control.signal };
    if (family === "tree") options.leafLength = leafLength;
    const digest = await streams[family](file, options);
    postMessage({ id, digest: hex(digest) });
  } catch (fault) {
    const text = String(fault?.message ?? fault);
    postMessage({ id, fault: control.signal.aborted ? "stopped" : text });
  } finally {
    stops.delete(id);
  }
}

onmessage = ({ data }) => {
  if (data.stop === undefined) hashFile(data);
  else stops.get(data.stop)?.abort();
};

try {
  postMessage({ ready: testSelf() });
} catch (fault) {
  postMessage({ ready: false, fault: String(fault?.message ?? fault) });
}
