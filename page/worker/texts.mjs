// Texts on the way in and out: JSON of values and of parts, and where a text has its fault.
import { SszError, BAD_JSON, BAD_SCHEMA } from "../lib/ssz.mjs";
import { scan, spelled, pretty, lineOf, NoJson } from "../lib/json.mjs";
import { partOfJson } from "../lib/parts.mjs";
import { hexOf, ofHex } from "../lib/hex.mjs";
import { desk, wanted } from "./desk.mjs";

const MOST_TEXT = 200_000, MOST_OWN = 4096;

/** The encoding of a JSON text of a type; what is wrong is thrown with its place in the text. */
export function ofJson(type, text) {
  let json = null;
  try {
    json = scan(text);
  } catch (why) {
    if (!(why instanceof NoJson)) throw why;
    throw Object.assign(new SszError(BAD_JSON, 1),
      { detail: why.message, from: why.at, to: why.at + 1, line: lineOf(text, why.at) });
  }
  try {
    return desk.schema.ofJson(desk.schema.type(type.calls), spelled(json));
  } catch (why) {
    if (why.status !== BAD_JSON) throw why;
    const { path, node } = partOfJson(type, json, why.position);
    throw Object.assign(why, { path, from: node.from, to: node.to, line: lineOf(text, node.from) });
  }
}

/** A fault of a schema text, with its place: its definition, or where the text is no JSON. */
export function schemaFault(why, text) {
  if (why.status !== BAD_SCHEMA) return why;
  try {
    const defined = scan(text).members?.findLast(([name]) => name === "types")?.[1].items?.[why.position];
    if (why.code < 3 || why.code > 14 || !defined) return why;
    const { from, to } = defined;
    return Object.assign(why, { from, to, defines: defined.items?.[0]?.value ?? `number ${why.position}`,
      line: lineOf(text, from) });
  } catch (other) {
    if (!(other instanceof NoJson)) throw other;
    return Object.assign(why, { from: other.at, to: other.at + 1, line: lineOf(text, other.at) });
  }
}

/** The JSON text of the value of a type that bytes encode, for reading; null where it is too long. */
function shownJson(type, bytes) {
  const { schema } = desk;
  if (bytes.length > MOST_TEXT) return null;
  const text = schema.toJson(schema.type(type.calls), bytes);
  return text.length > MOST_TEXT ? null : pretty(scan(text), type);
}

/** The JSON text of a part. */
export function jsonOf(path) {
  const value = wanted(), it = value.find(path);
  if (it.type === null) return "null";
  return shownJson(it.type, it.bit === undefined ? value.bytes.slice(it.from, it.to) : value.part(path));
}

/** The type of what an edit of a part takes: its own, or an element's or an option's. */
export function editedType(type, does, selector) {
  if (does === "choose") return type.options[selector] ?? null;
  return does === "set" ? type : type.type ?? { kind: "bit", calls: "boolean" };
}

/**
 * What a box has at first for an edit: the part as it is, or the default of an element or an
 * option; null where it is too long.
 */
export function written(path, does, selector, how) {
  const value = wanted(), own = editedType(value.find(path).type, does, selector);
  if (own === null) return "";
  if (does === "set" && how === "json") return jsonOf(path);
  const bytes = does === "set" ? value.part(path) : desk.schema.default(desk.schema.type(own.calls));
  if (how === "json") return shownJson(own, bytes);
  return bytes.length > MOST_OWN ? null : hexOf(bytes);
}

/** The bytes that a user wrote for an edit. */
export const literal = (type, how, text) => (how === "json" ? ofJson(type, text) : ofHex(text));
