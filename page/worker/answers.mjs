// What the worker answers: a function for each question of the page.
import { Ssz } from "../lib/ssz.mjs";
import { BASICS, form, said } from "../lib/types.mjs";
import { partAt } from "../lib/parts.mjs";
import { drawn, draws } from "../lib/draws.mjs";
import { hexOf, ofHex } from "../lib/hex.mjs";
import { bytes, desk, give, giveFile, session, state, takeSchema, tree, typeOf, wanted } from "./desk.mjs";
import { editedType, jsonOf, literal, ofJson, schemaFault, written } from "./texts.mjs";
import { rowOf, rowsOf } from "./rows.mjs";
import { picture, zeroTrees, ZEROS } from "./pictures.mjs";

// A module with a memory of 64 bits, to see whether the browser has such.
const WIDE = Uint8Array.of(0, 97, 115, 109, 1, 0, 0, 0, 5, 3, 1, 4, 1);
const MOST_OWN = 4096;
// What stands on the left and on the right below the node of such a part.
const MIXED_IN = { list: ["elements", "length"], bitlist: ["bits", "length"], union: ["value", "selector"] };
const SPECIAL = { "#len": ["length", "uint64"], "#sel": ["selector", "uint8"] };

let zeros = null;

/**
 * The names of nodes: of the parts on the branches of some, and of what stands beside these in
 * containers, lists and unions.
 */
function namesOf(value, paths) {
  const names = new Map([["1", value.type.name]]);
  for (const path of paths) {
    const steps = path.split("/").slice(1);
    for (let n = 0; n < steps.length; n++) {
      const above = steps.slice(0, n).map((it) => `/${it}`).join("");
      const index = String(value.gindex(`${above}/${steps[n]}`));
      for (const [own, name] of namesBelow(value, above))
        if (!names.has(String(own))) names.set(String(own), name);
      // A number says little without what it counts.
      if (/^\d+$/.test(steps[n])) names.set(index, n ? `${steps[n - 1]}/${steps[n]}` : steps[n]);
      else if (!names.has(index)) names.set(index, steps[n]);
    }
  }
  return names;
}

/** The names of nodes below a part: of fields, and of what is mixed in beside contents. */
function namesBelow(value, path) {
  const type = value.look(path)?.type, index = value.gindex(path);
  const beside = MIXED_IN[type?.kind];
  if (beside) return [[2n * index, beside[0]], [2n * index + 1n, beside[1]]];
  return (type?.fields ?? []).map(({ name }) => [value.gindex(`${path}/${name}`), name]);
}

/** The multiproof of some parts, each a path or an index. */
function prove(items) {
  const { session: own, version } = wanted();
  return own.must(`prove ${version.name} ${items.map((it) => it || "/").join(" ")}`);
}

/** The encoding of a part, where it is no longer than what is shown of one. */
function encodingOf(value, path, { from, to, bit }) {
  if (to - from > MOST_OWN) return null;
  return hexOf(bit === undefined ? value.bytes.slice(from, to) : value.part(path));
}

/** What there is to say of a part beside its line. */
function partOf(value, path) {
  const special = SPECIAL[path.split("/").pop()], gindex = value.gindex(path);
  const own = { path, gindex: String(gindex), depth: gindex.toString(2).length - 1, isSpecial: !!special };
  if (special) return { ...own, type: special[0], form: special[1], hex: hexOf(value.part(path)) };
  const it = value.find(path), { type } = it, isUnion = type?.kind === "union";
  return { ...own, type: said(type), form: form(type), kind: type?.kind ?? "none", hex: encodingOf(value, path, it),
    offset: it.offset ?? null, count: type ? value.count(it) : 0, options: isUnion ? type.options.map(said) : null,
    selector: isUnion ? value.bytes[it.from] : null };
}

export const answers = {
  /**
   * Loads the module: that with a memory of 64 bits where the browser has such, else that with one
   * of 32.
   */
  async start({ bits }) {
    const wide = bits !== 32 && WebAssembly.validate(WIDE), name = wide ? "ssz.wasm" : "ssz32.wasm";
    const found = await fetch(new URL(`../out/${name}`, import.meta.url));
    if (!found.ok) throw Object.assign(new Error(`page/out/${name} was not built.`), { notBuilt: true });
    const own = await found.arrayBuffer(), begin = performance.now();
    desk.ssz = await Ssz.load(own);
    return { size: own.byteLength, bits: wide ? 64 : 32, ready: performance.now() - begin };
  },

  /** Reads a schema: its types, and then the built-in ones. */
  schema({ text }) {
    try {
      takeSchema(text);
    } catch (why) {
      throw schemaFault(why, text);
    }
    const { types } = desk;
    return [...types.own, ...BASICS].map((name) =>
      ({ name, form: form(types.get(name)), size: types.get(name).size, isOwn: types.own.includes(name) }));
  },

  hex({ name, text }, tell) {
    return give(name, ofHex(text), tell);
  },
  bytes({ name, bytes: own }, tell) {
    return give(name, own, tell);
  },
  file({ name, file }, tell) {
    return giveFile(name, file, tell);
  },
  json({ name, text }, tell) {
    return give(name, ofJson(typeOf(name), text), tell);
  },
  default({ name }, tell) {
    return give(name, desk.schema.default(desk.schema.type(typeOf(name).calls)), tell);
  },
  random({ name, seed }, tell) {
    return give(name, ofJson(typeOf(name), drawn(typeOf(name), draws(seed))), tell);
  },

  /** The JSON of the whole value, or of a part. */
  text({ path = "" }) {
    return jsonOf(path);
  },
  rows({ path, from, count }) {
    return rowsOf(wanted(), path, from, count);
  },
  /** The line of one part, with the library's word on its place. */
  row({ path }) {
    return rowOf(wanted(), path, wanted().find(path), true);
  },
  part({ path }) {
    return partOf(wanted(), path);
  },
  /** Bytes from a place on, of a value or of what encodes none. */
  window({ from, count }) {
    return bytes().slice(from, from + count);
  },
  at({ position }) {
    return partAt(wanted().type, bytes(), position);
  },
  whole() {
    const own = bytes().slice();
    return { value: own, moved: [own.buffer] };
  },

  /** Makes the tree of nodes, which proofs and edits want. */
  tree(_, tell) {
    const begin = performance.now();
    tree(tell);
    return state(performance.now() - begin);
  },
  prove({ items }, tell) {
    tree(tell);
    return prove(items);
  },
  picture({ items }, tell) {
    tree(tell);
    if (!zeros) {
      const own = session(ZEROS);
      zeros = zeroTrees(own);
      own.free();
    }
    return picture(prove, items, zeros, namesOf(wanted(), items));
  },
  /** Whether a proof leads to a root: the status of ssz_verify. */
  verify({ root, proof }) {
    return desk.ssz.verify(ofHex(root), proof);
  },

  written({ path, does, selector, how }) {
    return written(path, does, selector, how);
  },
  /** An edit of a part: set, append, pop or choose. */
  edit({ does, path, how, text, selector }, tell) {
    const value = wanted(), own = editedType(value.find(path).type, does, selector),
      begin = performance.now(), at = path || "/";
    tree(tell);
    const given = does === "pop" || own === null ? new Uint8Array() : literal(own, how, text);
    const act = { set: (s, v) => s.set(v, at, given), append: (s, v) => s.append(v, at, given),
      pop: (s, v) => s.pop(v, at),
      choose: (s, v) => s.choose(v, at, selector, given) }[does];
    value.edit(`${does} ${at}${does === "choose" ? ` ${selector}` : ""}`, act, tell);
    return state(performance.now() - begin);
  },
  /** Goes to an earlier or a later version. */
  go({ at }, tell) {
    const begin = performance.now();
    wanted().go(at, tell);
    return state(performance.now() - begin);
  },

  /** The root of the value over and over, for measures. */
  measure({ times }) {
    const { schema } = desk, { number, held } = wanted(), took = [];
    for (let i = 0; i < times; i++) {
      const begin = performance.now();
      schema.root(number, held);
      took.push(performance.now() - begin);
    }
    return { took };
  },
};
