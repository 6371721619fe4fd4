// JSON texts with the place of each value in them, so that a fault can be shown where it stands.

const NESTED = 128, LONGEST = 400;
const TOKEN = /^(?:-?(?:0|[1-9]\d*)(?:\.\d+)?(?:[eE][+-]?\d+)?|true|false|null)(?![\w.+-])/;

/** Where a text is no JSON: the character, and what is wrong there. */
export class NoJson extends Error {
  constructor(at, message) {
    super(message);
    this.at = at;
  }
}

/**
 * Reads a text. A node is {kind, from, to}, the place in the text; of kind "object" it has members,
 * a list of [name, node], of kind "array" items, of kind "string" value, of kinds "number" and
 * "word" (true, false, null) raw.
 */
export function scan(text) {
  const reader = new Reader(text);
  const node = reader.value(0);
  reader.blank();
  if (reader.at < text.length) reader.fail("text after the value");
  return node;
}

class Reader {
  constructor(text) {
    this.text = text;
    this.at = 0;
  }
  fail(message) {
    throw new NoJson(this.at, message);
  }
  blank() {
    while (/[ \t\r\n]/.test(this.text[this.at] ?? "")) this.at++;
  }
  takes(char) {
    this.blank();
    if (this.text[this.at] !== char) return false;
    this.at++;
    return true;
  }
  must(char) {
    if (!this.takes(char)) this.fail(this.at < this.text.length ? `“${char}” is wanted here`
      : `the text ends before “${char}”`);
  }
  value(depth) {
    if (depth > NESTED) this.fail("nested too deep");
    this.blank();
    const from = this.at;
    const node = this.takes("{") ? this.object(depth) : this.takes("[") ? this.array(depth)
      : this.text[this.at] === '"' ? { kind: "string", value: this.string() } : this.token();
    return Object.assign(node, { from, to: this.at });
  }
  object(depth) {
    const members = [];
    if (this.takes("}")) return { kind: "object", members };
    do {
      this.blank();
      if (this.text[this.at] !== '"') this.fail("a member's name is wanted here");
      const name = this.string();
      this.must(":");
      members.push([name, this.value(depth + 1)]);
    } while (this.takes(","));
    this.must("}");
    return { kind: "object", members };
  }
  array(depth) {
    const items = [];
    if (this.takes("]")) return { kind: "array", items };
    do items.push(this.value(depth + 1));
    while (this.takes(","));
    this.must("]");
    return { kind: "array", items };
  }
  string() {
    const from = this.at;
    for (this.at++; this.text[this.at] !== '"'; this.at++) {
      if (this.at >= this.text.length) this.fail("a string without an end");
      if (this.text[this.at] === "\\") this.at++;
    }
    this.at++;
    try {
      return JSON.parse(this.text.slice(from, this.at));
    } catch {
      this.at = from;
      return this.fail("a string that JSON does not have");
    }
  }
  token() {
    const found = TOKEN.exec(this.text.slice(this.at, this.at + LONGEST));
    if (!found) this.fail(this.at < this.text.length ? "no JSON value begins here"
      : "the text ends before its value");
    this.at += found[0].length;
    return { kind: /[tfn]/.test(found[0][0]) ? "word" : "number", raw: found[0] };
  }
}

/** The member of a name: of several the last one stands. */
export const member = (node, name) => node?.members?.findLast(([own]) => own === name)?.[1] ?? null;

/**
 * The one text that the library gives a value: no white space, and members in the order of their
 * names.
 */
export function spelled(node) {
  if (node.kind === "array") return `[${node.items.map(spelled).join(",")}]`;
  if (node.kind === "string") return JSON.stringify(node.value);
  if (node.kind !== "object") return node.raw;
  const last = new Map(node.members);
  const names = [...last.keys()].sort((a, b) => (a < b ? -1 : 1));
  return `{${names.map((name) => `${JSON.stringify(name)}:${spelled(last.get(name))}`).join(",")}}`;
}

/** The same value with lines and indents, a container's members in the order of its fields. */
export function pretty(node, type, indent = "") {
  const deeper = `${indent}  `;
  if (node.kind === "object" && node.members.length) {
    const members = type?.fields?.map((f) => [f.name, member(node, f.name), f.type]) ?? node.members;
    const shown = ([name, it, own]) => `${deeper}${JSON.stringify(name)}: ${pretty(it, own, deeper)}`;
    const lines = members.map(shown);
    return `{\n${lines.join(",\n")}\n${indent}}`;
  }
  if (node.kind !== "array" || node.items.every((it) => it.kind === "string")) return spelled(node);
  const own = (it, i) => type?.type ?? (i === 1 ? type?.options?.[Number(node.items[0].raw)] : undefined);
  return `[\n${node.items.map((it, i) => deeper + pretty(it, own(it, i), deeper)).join(",\n")}\n${indent}]`;
}

/** The line and the column of a character, from 1 on. */
export function lineOf(text, at) {
  const before = text.slice(0, at).split("\n");
  return `line ${before.length}, column ${before.at(-1).length + 1}`;
}
