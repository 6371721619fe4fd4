// Bytes as hexadecimal digits.

const DIGITS = Array.from({ length: 256 }, (_, byte) => byte.toString(16).padStart(2, "0"));

export function hexOf(bytes) {
  let out = "";
  for (const byte of bytes) out += DIGITS[byte];
  return out;
}

/**
 * The bytes that digits say, in either case, perhaps after 0x, with any white space. What is wrong
 * is thrown.
 */
export function ofHex(text) {
  const digits = text.replace(/\s+/g, "").replace(/^0x/i, "");
  const odd = digits.search(/[^0-9a-f]/i);
  if (odd >= 0) throw new Error(`“${digits[odd]}” is no hexadecimal digit: give digits, with or without 0x.`);
  if (digits.length % 2) throw new Error(`${digits.length} digits: a byte has two, so one is missing or too many.`);
  const out = new Uint8Array(digits.length / 2);
  for (let i = 0; i < out.length; i++) out[i] = parseInt(digits.slice(2 * i, 2 * i + 2), 16);
  return out;
}

/** A hash in short: so many digits of each end. */
export const shortHash = (hash, digits) => `${hash.slice(0, 2 + digits)}…${hash.slice(-digits)}`;

/** A number with its word, in the plural where it is not 1. */
export const many = (n, word) => `${n.toLocaleString("en")} ${word}${n === 1 ? "" : "s"}`;
