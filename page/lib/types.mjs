// The types of a schema text that the library has read. None of it is proved: the page works out
// from it where parts stand, and the library says whether that is so.
import { scan, spelled } from "./json.mjs";

const BASIC = { boolean: 1, byte: 1, uint8: 1, uint16: 2, uint32: 4, uint64: 8, uint128: 16, uint256: 32 };

export const BASICS = Object.keys(BASIC);
const basic = (name) =>
  ({ kind: name === "boolean" ? "boolean" : "uint", name, size: BASIC[name], calls: name });

/**
 * The types of a schema text. A type has kind (boolean, uint, container, vector, list, bitvector,
 * bitlist, union), name (null of a form that has none), size (null where it varies), calls (the
 * name by which `text` has it), and what its kind has: fields, type and n, limit, options (null for
 * None). `text` is the schema with a name for every form.
 */
export class Types {
  constructor(schema) {
    const [defined] = scan(schema).members.findLast(([name]) => name === "types").slice(1);
    this.byName = new Map(BASICS.map((name) => [name, basic(name)]));
    this.own = [];
    this.extra = new Map();
    this.taken = new Set(defined.items.map((it) => it.items[0].value));
    for (const { items: [name, form] } of defined.items) {
      this.byName.set(name.value, { ...this.read(form), name: name.value, calls: name.value });
      this.own.push(name.value);
    }
    const more = [...this.extra].map(([form, name]) => `,[${JSON.stringify(name)},${form}]`).join("");
    this.text = schema.slice(0, defined.to - 1) + more + schema.slice(defined.to - 1);
  }

  get(name) {
    return this.byName.get(name) ?? null;
  }

  // A form inside another one: a type that is there, or one that gets a name for the calls.
  inner(form) {
    if (form.kind === "string") return this.byName.get(form.value);
    const type = this.read(form), own = spelled(form);
    if (!this.extra.has(own)) {
      let n = this.extra.size;
      while (this.taken.has(`_form${n}`)) n++;
      this.taken.add(`_form${n}`);
      this.extra.set(own, `_form${n}`);
    }
    return { ...type, calls: this.extra.get(own) };
  }

  read(form) {
    if (form.kind === "string") return { ...this.byName.get(form.value) };
    const [kind, it] = form.members.at(-1), own = { kind, name: null, size: null };
    switch (kind) {
      case "container":
        return container(it.items.map(({ items: [name, type] }) => ({ name: name.value, type: this.inner(type) })));
      case "vector": {
        const type = this.inner(it.items[0]), n = Number(it.items[1].raw);
        return { ...own, type, n, size: type.size === null ? null : type.size * n };
      }
      case "list": return { ...own, type: this.inner(it.items[0]), limit: it.items[1].raw };
      case "bitvector": return { ...own, n: Number(it.raw), size: Math.ceil(Number(it.raw) / 8) };
      case "bitlist": return { ...own, limit: it.raw };
      default: return { ...own, options: it.items.map((o) => (o.raw === "null" ? null : this.inner(o))) };
    }
  }
}

// A container: each field has `at`, its place in the fixed part, where 4 bytes of offset stand for
// one of variable size.
function container(fields) {
  let at = 0;
  for (const field of fields) {
    field.at = at;
    at += field.type.size ?? 4;
  }
  const size = fields.every((it) => it.type.size !== null) ? at : null;
  return { kind: "container", name: null, fields, fixed: at, size };
}

/** How a type is named, or written where it has no name. */
export const said = (type) => (type === null ? "None" : type.name ?? form(type));

/** How a type is made of others. */
export function form(type) {
  switch (type?.kind) {
    case undefined: return "None";
    case "container": return `Container of ${type.fields.length} field${type.fields.length === 1 ? "" : "s"}`;
    case "vector": return `Vector[${said(type.type)}, ${type.n}]`;
    case "list": return `List[${said(type.type)}, ${type.limit}]`;
    case "bitvector": return `Bitvector[${type.n}]`;
    case "bitlist": return `Bitlist[${type.limit}]`;
    case "union": return `Union[${type.options.map(said).join(", ")}]`;
    case "boolean": return "boolean";
    default: return type.kind === "bit" ? "bit" : `uint${8 * type.size}`;
  }
}

/** Whether it is bytes, which are written as digits. */
export function isBytes({ kind, type }) {
  return (kind === "vector" || kind === "list") && type.kind === "uint" && type.size === 1;
}
