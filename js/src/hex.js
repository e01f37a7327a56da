// Hexadecimal digits.
import { bytesOf, lengthOf } from "./arguments.js";

const DIGITS = /* @__PURE__ */ Array.from({ length: 256 }, (_, byte) =>
  byte.toString(16).padStart(2, "0"));

/** The bytes as lowercase hexadecimal digits. */
export function hex(bytes) {
  let digits = "";
  const given = bytesOf(bytes, "hex", "bytes");
  for (let i = 0; i < lengthOf(given); i++) digits += DIGITS[given[i]];
  return digits;
}
