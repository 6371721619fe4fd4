// Where the parts of a value stand in its encoding, as the page works it out: offsets are read,
// nothing is proved. Bytes that are no encoding are read too, as far as they go, to say near what a
// fault lies.
import { isBytes } from "./types.mjs";
import { hexOf, many } from "./hex.mjs";
import { member } from "./json.mjs";

const u32 = (bytes, at) =>
  (bytes[at] | (bytes[at + 1] << 8) | (bytes[at + 2] << 16) | (bytes[at + 3] << 24)) >>> 0;
const BIT = { kind: "bit", name: null, size: null, calls: "boolean" };

/** How many parts are directly below the part of a type at [from, to). */
export function countOf(type, bytes, from, to) {
  switch (type?.kind) {
    case "container": return type.fields.length;
    case "vector": case "bitvector": return type.n;
    case "list":
      if (from >= to) return 0;
      return Math.floor(type.type.size === null ? u32(bytes, from) / 4 : (to - from) / type.type.size);
    case "bitlist": return from >= to ? 0 : 8 * (to - 1 - from) + (31 - Math.clz32(bytes[to - 1]));
    case "union": return (type.options[bytes[from]] ?? null) === null ? 0 : 1;
    default: return 0;
  }
}

// A part of variable size, which an offset at `slot` leads to; it ends where the next one begins.
function behind(bytes, from, to, slot, next) {
  const value = u32(bytes, slot);
  return { offset: { at: slot, value }, from: from + value,
    to: next === null ? to : from + u32(bytes, next) };
}

function fieldOf(type, bytes, from, to, i) {
  const field = type.fields[i], at = from + field.at;
  if (field.type.size !== null) return { from: at, to: at + field.type.size };
  const next = type.fields.find((it, k) => k > i && it.type.size === null);
  return behind(bytes, from, to, at, next ? from + next.at : null);
}

/**
 * The part number i below a part: its step, type and place; `offset` where one leads to it, `bit`
 * of a bit.
 */
export function childOf(type, bytes, from, to, i) {
  switch (type.kind) {
    case "container": {
      const { name, type: own } = type.fields[i];
      return { step: name, type: own, ...fieldOf(type, bytes, from, to, i) };
    }
    case "vector": case "list": {
      const own = { step: String(i), type: type.type }, { size } = type.type;
      if (size !== null) return { ...own, from: from + i * size, to: from + (i + 1) * size };
      const last = i + 1 >= countOf(type, bytes, from, to);
      return { ...own, ...behind(bytes, from, to, from + 4 * i, last ? null : from + 4 * i + 4) };
    }
    case "union": return { step: `#${bytes[from]}`, type: type.options[bytes[from]], from: from + 1, to };
    default: {
      const at = from + Math.floor(i / 8);
      return { step: String(i), type: BIT, from: at, to: at + 1, bit: i % 8 };
    }
  }
}

/** The number of the part that a step names. */
function numberOf(type, step) {
  if (type.kind === "container") return type.fields.findIndex((it) => it.name === step);
  return type.kind === "union" ? 0 : Number(step);
}

/** The part at a path in a value of a type; null where the value has none. */
export function find(type, bytes, path) {
  let at = { type, from: 0, to: bytes.length };
  for (const step of path.split("/").slice(1)) {
    const i = at.type ? numberOf(at.type, step) : NaN;
    if (!(i >= 0 && i < countOf(at.type, bytes, at.from, at.to))) return null;
    const { kind } = at.type;
    at = childOf(at.type, bytes, at.from, at.to, i);
    if (kind === "union" && at.step !== step) return null;
  }
  return at;
}

/**
 * The deepest part at a byte: its path, and what the byte is of it. Bits are not told apart, nor
 * single bytes of bytes.
 */
export function partAt(type, bytes, position) {
  let at = { type, from: 0, to: bytes.length }, path = "", is = "value";
  while (at.type && !isBytes(at.type) && is === "value") {
    const next = childAt(at, bytes, position);
    if (!next) break;
    is = next.is;
    if (next.step !== null) path += `/${next.step}`;
    if (next.from > next.to || next.to > bytes.length) break;
    at = next;
  }
  return { path, is };
}

// The part below one that has a byte, or whose offset has it.
function childAt({ type, from, to }, bytes, position) {
  if (type.kind === "union") {
    if (position === from) return { type: null, from, to, step: null, is: "selector" };
    return countOf(type, bytes, from, to) ? { ...childOf(type, bytes, from, to, 0), is: "value" } : null;
  }
  if (!["container", "vector", "list"].includes(type.kind)) return null;
  const count = countOf(type, bytes, from, to), size = type.type?.size;
  const child = (i, is) => ({ ...childOf(type, bytes, from, to, i), is });
  if (size) return position < from + size * count ? child(Math.floor((position - from) / size), "value") : null;
  if (type.kind === "container") return fieldAt(type, bytes, from, to, position);
  if (position < from + 4 * count) return child(Math.floor((position - from) / 4), "offset");
  return elementAt(type, bytes, from, to, position, count);
}

function fieldAt(type, bytes, from, to, position) {
  for (let i = 0; i < type.fields.length; i++) {
    const it = childOf(type, bytes, from, to, i);
    const isOffset = it.offset && position >= it.offset.at && position < it.offset.at + 4;
    if (isOffset) return { ...it, is: "offset" };
    if (position >= it.from && position < it.to) return { ...it, is: "value" };
  }
  return null;
}

// By halves: the elements of a list stand in their order.
function elementAt(type, bytes, from, to, position, count) {
  let low = 0, high = count - 1;
  while (low < high) {
    const mid = Math.ceil((low + high) / 2);
    if (childOf(type, bytes, from, to, mid).from <= position) low = mid;
    else high = mid - 1;
  }
  return count ? { ...childOf(type, bytes, from, to, low), is: "value" } : null;
}

const digits = (bytes, most = 48) =>
  `0x${hexOf(bytes.subarray(0, most))}${bytes.length > most ? "…" : ""}`;

/** A number in little-endian bytes. */
function numberIn(bytes) {
  let n = 0n;
  for (let i = bytes.length - 1; i >= 0; i--) n = (n << 8n) | BigInt(bytes[i]);
  return n;
}

function bitsShown(type, bytes, from, to) {
  const n = countOf(type, bytes, from, to);
  let out = "";
  for (let i = 0; i < Math.min(n, 48); i++) out += (bytes[from + (i >> 3)] >> (i & 7)) & 1;
  return `${out}${n > 48 ? "…" : ""} (${many(n, "bit")})`.trimStart();
}

/** A short text for the value of a part. */
export function shown({ type, from, to, bit }, bytes) {
  const own = bytes.subarray(from, to);
  switch (type?.kind) {
    case undefined: return "None";
    case "uint": return type.size === 32 ? digits(own) : String(numberIn(own));
    case "boolean": return own[0] ? "true" : "false";
    case "bit": return String((own[0] >> bit) & 1);
    case "bitvector": case "bitlist": return bitsShown(type, bytes, from, to);
    case "union": return `option ${own[0]}`;
    case "container": return "";
    default: return isBytes(type) ? digits(own) : many(countOf(type, bytes, from, to), "element");
  }
}

/**
 * The path and the node of the part of a number in a JSON text (docs/formats.md): parts are counted
 * from 0 in preorder by the type. Where the text is not of the type's form, the last part that
 * holds what is wrong.
 */
export function partOfJson(type, json, number) {
  let left = number;
  const walk = (type, node, path) => {
    if (left-- === 0) return { path: path || "/", node };
    if (!type || !node) return null;
    for (const [kind, it, step] of below(type, node)) {
      const found = walk(kind, it, `${path}/${step}`);
      if (found) return { ...found, node: found.node ?? node };
    }
    return null;
  };
  return walk(type, json, "") ?? { path: "/", node: json };
}

function below(type, node) {
  if (type.kind === "container" && node.kind === "object")
    return type.fields.map((f) => [f.type, member(node, f.name), f.name]);
  if (node.kind !== "array" || isBytes(type)) return [];
  if (type.kind === "union") {
    const [selector, own = null] = node.items, k = selector?.raw;
    return [[type.options[Number(k)] ?? null, own, `#${k}`]];
  }
  return type.type ? node.items.map((it, i) => [type.type, it, i]) : [];
}
