// Comparing a module with the proved program on drawn values. It runs in node (compare.mjs) and in
// a browser (compare.html), which ask the program in their own ways.
import { Ssz, Schema, Session, SszError, OK, UNLIKE, INVALID, BAD_JSON, BAD_SCHEMA } from "../lib/ssz.mjs";
import { Types } from "../lib/types.mjs";
import { childOf, countOf } from "../lib/parts.mjs";
import { drawn, draws } from "../lib/draws.mjs";
import { hexOf, ofHex } from "../lib/hex.mjs";

// Values of more bytes than these are not drawn, nor states but of the minimal preset.
const LARGE = new Set(["Blob", "BlobSidecar", "HistoricalBatch"]), MOST = 60_000;

let draw, native, ssz, counts;

function same(kind, what, ours, theirs) {
  if (ours !== theirs)
    throw new Error(`unlike, ${what}\n  module  ${ours.slice(0, 400)}\n  program ${theirs.slice(0, 400)}`);
  counts[kind] = (counts[kind] ?? 0) + 1;
}

/** The line that the program prints, of what a call gives or throws. */
function line(act) {
  try {
    return act();
  } catch (why) {
    if (!(why instanceof SszError)) throw why;
    const { status, code, position } = why;
    if (status === INVALID) return `invalid F${code} ${position}`;
    if (status === BAD_JSON) return `refused 1 18 BadJson J${code} ${position}`;
    if (status === BAD_SCHEMA) return `schema S${code}${[1, 2, 15].includes(code) ? "" : ` ${position}`}`;
    throw why;
  }
}

/** Bytes with a bit changed, and perhaps some cut out or put behind. */
function spoilt(bytes) {
  const own = [...bytes];
  if (own.length) own[draw(own.length)] ^= 1 << draw(8);
  if (draw(3) === 0) own.splice(draw(own.length + 1), 1 + draw(5));
  if (draw(5) === 0) own.push(draw(256));
  return Uint8Array.from(own);
}

/** The root of a value, and of spoilt copies, or their first faults. */
async function roots({ schema }, name, bytes) {
  for (const own of [bytes, spoilt(bytes), spoilt(bytes)]) {
    const ours = line(() => `root 0x${hexOf(schema.root(schema.type(name), own))}`);
    const theirs = (await native.run(["root", "schema.json", name, "value"], { value: own })).trimEnd();
    same(ours.startsWith("root") ? "roots" : "first faults", `root of ${name}, 0x${hexOf(own)}`, ours, theirs);
  }
}

/** Parts of a value, as the page works them out: their places by the library, and bytes of some by the program. */
async function parts({ schema }, name, type, bytes) {
  const number = schema.type(name);
  const walk = async (type, from, to, at) => {
    for (let i = 0; i < Math.min(countOf(type, bytes, from, to), 3); i++) {
      const child = childOf(type, bytes, from, to, i), own = `${at}/${child.step}`;
      const wanted = child.bit === undefined ? String([child.from, child.to]) : "null";
      same("places", `place of ${own}`, wanted, String(schema.place(number, bytes, own)));
      if (draw(12) === 0) {
        const ours = `bytes 0x${hexOf(schema.part(number, bytes, own))}\n`;
        same("parts", `bytes of ${own}`, ours, await native.run(["part", "schema.json", name, "value", own], { value: bytes }));
      }
      if (child.type && child.bit === undefined) await walk(child.type, child.from, child.to, own);
    }
  };
  await walk(type, 0, bytes.length, "");
}

/** A JSON text and spoilt copies: the bytes that each gives, and their text, or its first fault. */
async function texts({ schema }, name, json) {
  const wrong = [json.replace(/\d/, "x"), json.slice(0, draw(json.length + 1)), json.replace(",", ", "),
    json.replace(/"(\d+)"/, '"99999999999999999999$1"'), json.replace(/\w(?=":)/, "")];
  const number = schema.type(name), show = (bytes) => `bytes 0x${hexOf(bytes)}\njson ${schema.toJson(number, bytes)}`;
  for (const text of [json, ...wrong]) {
    await native.put({ text });
    const theirs = await native.script("schema.json", [`loadjson V ${name} text`, "bytes V /", "json V /"]);
    const ours = line(() => `ok\n${show(schema.ofJson(number, text))}`);
    const wanted = ours.startsWith("ok") ? theirs.slice(0, 3).join("\n") : theirs[0];
    same("JSON texts", `JSON of ${name}: ${text.slice(0, 80)}`, ours, wanted);
  }
  const theirs = await native.script("schema.json", [`new V ${name}`, "bytes V /", "json V /"]);
  same("defaults", `default of ${name}`, show(schema.default(number)), theirs.slice(1, 3).join("\n"));
}

/** A path to some part of a value. */
function somePath(type, bytes) {
  let at = { type, from: 0, to: bytes.length }, own = "";
  while (at.type && at.bit === undefined && draw(5)) {
    const count = countOf(at.type, bytes, at.from, at.to);
    if (!count) break;
    at = childOf(at.type, bytes, at.from, at.to, draw(count));
    own += `/${at.step}`;
  }
  return { path: own || "/", type: at.type, bit: at.bit };
}

/** An edit as a line, and as a call of its own. Some are refused. */
function someEdit({ schema }, type, bytes) {
  const { path: at, type: own, bit } = somePath(type, bytes);
  const of = (type) => (type ? schema.ofJson(schema.type(type.calls), drawn(type, draw, 2)) : new Uint8Array());
  const does = ["set", "append", "pop", "choose"][draw(4)];
  if (does === "pop") return [`pop V ${at}`, (s) => s.pop("V", at)];
  if (does === "choose" && own?.kind === "union") {
    const k = draw(own.options.length + 1), given = of(own.options[k]);
    return [`choose V ${at} ${k} 0x${hexOf(given)}`, (s) => s.choose("V", at, k, given)];
  }
  if (does === "append") {
    const given = own?.type ? of(own.type) : Uint8Array.of(draw(2));
    return [`append V ${at} 0x${hexOf(given)}`, (s) => s.append("V", at, given)];
  }
  const given = bit === undefined ? of(own) : Uint8Array.of(draw(3));
  return [`set V ${at} 0x${hexOf(given)}`, (s) => s.set("V", at, given)];
}

/** The code of the refusal of a call, or ok. */
function refusal(act) {
  try {
    act();
    return "ok";
  } catch (why) {
    if (!(why instanceof SszError)) throw why;
    return why.status === INVALID ? "11" : String(why.code);
  }
}

/** A script, line by line in a session, and its edits by calls with bytes in another one: replies, bytes, roots. */
async function scripts(it, name, type, bytes) {
  const edits = Array.from({ length: 5 }, () => someEdit(it, type, bytes)), after = 3 + edits.length;
  const [one, two] = [somePath(type, bytes).path, somePath(type, bytes).path];
  const lines = [`lit V ${name} 0x${hexOf(bytes)}`, "root V", "fork V W", ...edits.map(([own]) => own), "root V", "bytes V /",
    `prove V ${one} ${two}`, `prove V ${one}`, `json V ${one}`, `len V ${two}`, "compact", "hashes", "root W", "list",
    "drop V", "root V", "frob"];
  const theirs = await native.script("schema.json", lines);
  const session = new Session(ssz, it.text), calls = new Session(ssz, it.text);
  lines.forEach((own, i) => same("replies", `${name}: ${own.slice(0, 200)}`, session.run(own), theirs[i]));
  calls.load("V", name, bytes);
  edits.forEach(([own, act], i) => {
    const [said, , code] = theirs[3 + i].split(" ");
    same("edits", `${name}, by a call: ${own.slice(0, 200)}`, refusal(() => act(calls)), code ?? said);
  });
  same("edits", `${name}: the root after the calls`, `root 0x${hexOf(calls.root("V"))}`, theirs[after]);
  same("edits", `${name}: the bytes after the calls`, `bytes 0x${hexOf(calls.bytes("V", "/"))}`, theirs[after + 1]);
  await proofs(theirs[after].slice(5), theirs.slice(after + 2, after + 4).filter((own) => own.startsWith("proof")));
  session.free();
  calls.free();
}

/** Proofs and spoilt ones, against a root. */
async function proofs(root, texts) {
  const named = (status) => (status === OK ? "valid" : status === UNLIKE ? "unlike" : "badproof");
  for (const text of texts)
    for (const own of [text, text.replace("=0x0", "=0x1"), text.replace(" / ", " "), text.replace(/ [^ ]*$/, "")]) {
      const theirs = await native.run(["verify", root, "proof"], { proof: own });
      same("proofs", `proof ${own.slice(0, 80)}`, named(ssz.verify(ofHex(root), own)), theirs.split(/[ \n]/)[0]);
    }
}

const LEVELS = '{"list":[{"list":["uint64",1099511627776]},1099511627776]}';
const WRONG = ["{", "[]", '{"ssz":3,"types":[]}', '["1T","uint8"]', '["uint8","uint16"]', '["T","T"]', '["T",{"vector":["uint8",0]}]',
  '["T",{"container":[]}]', '["T",{"union":["uint8",null]}]', '["T",{"union":[]}]', `["T",${LEVELS}]`,
  '["T",{"container":[["a","uint8"],["a","uint8"]]}]', '["T",{"list":["uint8",1099511627777]}]',
  `["T",${'{"vector":['.repeat(32)}"uint8"${",1]}".repeat(32)}]`, '["T",{"vector":["uint8",16777217]}]'];

/** Schemas of each fault. */
async function wrongSchemas() {
  for (const own of WRONG) {
    const text = own.startsWith('["') ? `{"ssz":1,"types":[["G","uint8"],${own}]}` : own;
    const theirs = (await native.run(["root", "wrong.json", "T", "value"], { "wrong.json": text, value: "" })).trimEnd();
    same("schemas", `schema ${text.slice(0, 80)}`, line(() => String(new Schema(ssz, text))), theirs);
  }
}

/** Values of all types of a schema, and then of some. */
async function compareSchema(schemaName, source, count) {
  const types = new Types(source), { text } = types, schema = new Schema(ssz, text);
  const hasStates = schemaName.includes("minimal"), it = { text, schema };
  const names = types.own.filter((name) =>
    !LARGE.has(name) && (types.get(name).size ?? 0) < MOST && (hasStates || name !== "BeaconState"));
  await native.put({ "schema.json": text });
  for (let i = 0; i < count; i++) {
    const name = names[i < names.length ? i : draw(names.length)], type = types.get(name), json = drawn(type, draw);
    const bytes = schema.ofJson(schema.type(name), json);
    await roots(it, name, bytes);
    await texts(it, name, json);
    await parts(it, name, type, bytes);
    await scripts(it, name, type, bytes);
  }
  schema.free();
}

/**
 * Compares the bytes of a module with a program on so many values of each schema, a map of names to
 * texts. Says what was compared; at the first difference it throws.
 */
export async function compare(moduleBytes, program, schemas, values, seed) {
  [draw, native, counts] = [draws(seed), program, {}];
  ssz = await Ssz.load(moduleBytes);
  await wrongSchemas();
  for (const [name, text] of Object.entries(schemas)) await compareSchema(name, text, values);
  const all = Object.values(counts).reduce((a, b) => a + b), each = Object.entries(counts).map(([kind, n]) => `${n} ${kind}`);
  const drew = values * Object.keys(schemas).length;
  return `${drew} values, ${all.toLocaleString("en")} comparisons alike: ${each.join(", ")}`;
}
