// Values at random, as JSON texts: for the button, and for the comparisons of the tests.
import { isBytes } from "./types.mjs";

/** A generator from a seed: each call draws a number below one of at most 2^32. */
export function draws(seed) {
  let x = seed >>> 0 || 1;
  return (below) => {
    x ^= x << 13; x >>>= 0;
    x ^= x >>> 17;
    x ^= x << 5; x >>>= 0;
    return x % below;
  };
}

/**
 * A value of a type, as the library's JSON spelling. Lists have at most `few` elements, or some 70
 * bytes.
 */
export function drawn(type, draw, few = 3) {
  const bytes = (n) =>
    `"0x${Array.from({ length: n }, () => draw(256).toString(16).padStart(2, "0")).join("")}"`;
  const atMost = (n) => draw(Number(BigInt(n) < BigInt(type.limit) ? n : type.limit) + 1);
  switch (type?.kind) {
    case undefined: return "null";
    case "boolean": return String(draw(2) === 1);
    case "uint": return type.size === 32 ? bytes(32) : `"${drawnNumber(type.size, draw)}"`;
    case "bitvector": case "bitlist": {
      const n = type.kind === "bitvector" ? type.n : atMost(40);
      return `"${Array.from({ length: n }, () => draw(2)).join("")}"`;
    }
    case "vector": case "list": {
      const n = type.kind === "vector" ? type.n : atMost(isBytes(type) ? 70 : few);
      if (isBytes(type)) return bytes(n);
      return `[${Array.from({ length: n }, () => drawn(type.type, draw, Math.max(1, few - 1))).join(",")}]`;
    }
    case "union": {
      const k = draw(type.options.length);
      return `[${k},${drawn(type.options[k], draw, few)}]`;
    }
    default: {
      const fields = type.fields.map((f) => [f.name, drawn(f.type, draw, few)]);
      fields.sort(([a], [b]) => (a < b ? -1 : 1));
      return `{${fields.map(([name, it]) => `"${name}":${it}`).join(",")}}`;
    }
  }
}

// A number of a random width, so that small ones are as likely as great ones.
function drawnNumber(size, draw) {
  let n = 0n;
  for (let i = draw(size) + 1; i > 0; i--) n = (n << 8n) | BigInt(draw(256));
  return n;
}
