// Lines of the table of parts: what there is to say of a part without its bytes.
import { said, isBytes } from "../lib/types.mjs";
import { shown } from "../lib/parts.mjs";

// How long a table may ask the library for places; what is left over is asked for when it is
// chosen.
const MOST = 200;

/** Whether the library has a part at this place; of a bit, whether it has this value. */
function isAt(value, path, it) {
  const place = value.place(path);
  if (place) return place[0] === it.from && place[1] === it.to;
  const [own] = value.part(path);
  return own === ((value.bytes[it.from] >> it.bit) & 1);
}

/** The line of a part. It opens where there is something below it; single bytes of bytes are not. */
export function rowOf(value, path, it, confirms) {
  const { type, from, to, bit = null, offset = null } = it, count = type && !isBytes(type) ? value.count(it) : 0;
  const opens = count > 0 || ["list", "bitlist", "union"].includes(type?.kind);
  const own = { path, step: path.split("/").pop(), type: said(type), gindex: String(value.gindex(path)), from, to, bit, offset };
  return { ...own, count, opens, value: shown(it, value.bytes), confirmed: confirms ? isAt(value, path, it) : null };
}

// The length of a list or the selector of a union, which stand in the tree beside what they are of.
function special(value, path, it) {
  const own = (step, type, more) => ({ path: `${path}/${step}`, step, type, bit: null, offset: null, count: 0,
    gindex: String(value.gindex(`${path}/${step}`)), opens: false, confirmed: null, ...more });
  switch (it.type?.kind) {
    case "union": {
      const selector = String(value.bytes[it.from]);
      return [own("#sel", "selector", { from: it.from, to: it.from + 1, value: selector })];
    }
    case "list": case "bitlist":
      return [own("#len", "length", { from: null, to: null, value: String(value.count(it)) })];
    default: return [];
  }
}

/**
 * The lines below a part, `count` of them from number `from` on; `all` are so counted, and `of` are
 * there with a length or a selector.
 */
export function rowsOf(value, path, from, count) {
  const it = value.find(path), all = it.type && !isBytes(it.type) ? value.count(it) : 0;
  const own = special(value, path, it), rows = from === 0 ? own : [], until = performance.now() + MOST;
  const of = all + own.length;
  for (let i = from; i < Math.min(all, from + count); i++) {
    const child = value.child(it, i);
    rows.push(rowOf(value, `${path}/${child.step}`, child, performance.now() < until));
  }
  return { rows, from, to: Math.min(all, from + count), all, of };
}
