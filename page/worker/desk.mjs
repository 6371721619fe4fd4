// What the worker has before it: the module, a schema, and a value, or bytes that encode none.
import { Schema, Session, SszError, INVALID, NO_TYPE } from "../lib/ssz.mjs";
import { Types } from "../lib/types.mjs";
import { partAt } from "../lib/parts.mjs";
import { hexOf } from "../lib/hex.mjs";
import { Value } from "./value.mjs";
import { rowOf } from "./rows.mjs";

// Up to so many bytes the page shows all digits; and the library's word on the whole value's place
// is asked for at once.
const MOST_HEX = 30_000, MOST_ASKED = 1_000_000;

export const desk = { ssz: null, schema: null, types: null, held: null, value: null };

/** A session over the schema, or over another text. */
export const session = (text = desk.types.text) => new Session(desk.ssz, text);

export function wanted() {
  if (!desk.value) throw new Error("there is no value");
  return desk.value;
}
/** The session with the value as a tree of nodes in it. */
export const tree = (tell) => wanted().tree(session, tell);

export function typeOf(name) {
  const type = desk.types?.get(name);
  if (!type) throw new SszError(NO_TYPE);
  return type;
}

/** The bytes on the desk: a window, good until the next call. */
export function bytes() {
  const held = desk.value?.held ?? desk.held;
  return held ? desk.ssz.view(held.at, held.length) : new Uint8Array();
}

function forget() {
  if (desk.value) desk.value.free();
  else if (desk.held) desk.ssz.free(desk.held.at);
  desk.value = desk.held = null;
}

/** Takes a schema: what the library reads of the text, and of it with a name for every form. */
export function takeSchema(text) {
  forget();
  desk.schema?.free();
  desk.schema = desk.types = null;
  new Schema(desk.ssz, text).free();
  desk.types = new Types(text);
  desk.schema = new Schema(desk.ssz, desk.types.text);
}

/** What the page shows of the whole value. */
export function state(took) {
  const { value, ssz } = desk, { length, at } = value;
  const versions = value.versions.map(({ does, root, nodes, pairs }) => ({ does, root, nodes, pairs }));
  const row = rowOf(value, "", value.find(""), length <= MOST_ASKED);
  return { type: value.type.name, root: value.version.root, length, took, memory: ssz.memorySize, row, at, versions,
    hasTree: value.session !== null, hex: length <= MOST_HEX ? hexOf(value.bytes) : null };
}

/** Reads the bytes that are held as a value: its state, or its first fault. */
export function read(name, tell) {
  const type = typeOf(name), { schema, held, ssz } = desk, begin = performance.now();
  tell("looking for faults and hashing");
  try {
    const root = hexOf(schema.root(schema.type(type.calls), held));
    desk.value = new Value(ssz, schema, type, held, root);
    return state(performance.now() - begin);
  } catch (why) {
    if (why.status !== INVALID) throw why;
    const { code, position } = why, { length } = held, hex = length <= MOST_HEX ? hexOf(bytes()) : null;
    return { fault: { code, position, ...partAt(type, bytes(), position) }, length, hex };
  }
}

/** Gives bytes as a value of a type. */
export function give(name, given, tell) {
  typeOf(name);
  forget();
  desk.held = desk.ssz.hold(given);
  return read(name, tell);
}

/** The same of a file, which is copied into the module's memory piece by piece. */
export async function giveFile(name, file, tell) {
  typeOf(name);
  forget();
  const { ssz } = desk, at = ssz.room(file.size), reader = file.stream().getReader();
  let done = 0;
  try {
    for (let piece = await reader.read(); !piece.done; piece = await reader.read()) {
      ssz.view(at + BigInt(done), piece.value.length).set(piece.value);
      done += piece.value.length;
      tell("reading the file", done, file.size);
    }
  } catch (why) {
    ssz.free(at);
    throw why;
  }
  desk.held = { at, length: done };
  return read(name, tell);
}
