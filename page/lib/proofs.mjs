// Multiproofs as texts (docs/formats.md), and which helpers they want: for the picture, for a
// comparison, and for a word about a bad one. Whether a proof is one, and leads to a root, the
// library says.

/** The helper indices of leaves, in descending order: get_helper_indices of the standard. */
export function helperIndices(leaves) {
  const way = new Set(), beside = new Set();
  for (const leaf of leaves)
    for (let at = leaf; at > 1n; at >>= 1n) {
      way.add(at);
      beside.add(at ^ 1n);
    }
  return [...beside].filter((it) => !way.has(it)).sort((a, b) => (a < b ? 1 : -1));
}

/** Reads a text: {leaves, helpers}, maps of indices to chunks, or {bad}, why it is no proof. */
export function readProof(text) {
  const words = text.trim().split(/\s+/);
  if (words[0] !== "proof") return { bad: "it does not begin with the word proof" };
  const cut = words.indexOf("/");
  if (cut < 0) return { bad: "the / between leaves and helpers is missing" };
  const halves = [];
  for (const half of [words.slice(1, cut), words.slice(cut + 1)]) {
    const found = new Map();
    for (const word of half) {
      const own = /^([1-9]\d*)=(0x[0-9a-fA-F]{64})$/.exec(word);
      if (!own) return { bad: `“${word.slice(0, 20)}…” is not an index, = and 32 bytes` };
      if (found.has(own[1])) return { bad: `index ${own[1]} stands there twice` };
      found.set(own[1], own[2].toLowerCase());
    }
    halves.push(found);
  }
  const [leaves, helpers] = halves;
  return { leaves, helpers, ...judged([...leaves.keys()].map(BigInt), [...helpers.keys()]) };
}

// Why leaves and helpers do not belong together, if they do not.
function judged(leaves, helpers) {
  if (!leaves.length) return { bad: "it has no leaf" };
  for (const leaf of leaves)
    for (let at = leaf >> 1n; at >= 1n; at >>= 1n)
      if (leaves.includes(at)) return { bad: `leaf ${leaf} is below leaf ${at}` };
  const wanted = helperIndices(leaves).map(String);
  const missing = wanted.find((it) => !helpers.includes(it)),
    extra = helpers.find((it) => !wanted.includes(it));
  if (missing) return { bad: `the helper at index ${missing} is missing` };
  if (extra) return { bad: `no leaf needs a helper at index ${extra}` };
  if (wanted.some((it, i) =>
    it !== helpers[i])) return { bad: "the helpers do not stand in descending order of their indices" };
  return {};
}

/**
 * Compares two proofs that were read: a row for each index in either, with both chunks and what
 * they are.
 */
export function compared(one, other) {
  const rows = [];
  const of = (proof, index) => proof.leaves.get(index) ?? proof.helpers.get(index) ?? null;
  const indices = [one, other].flatMap((it) => [...it.leaves.keys(), ...it.helpers.keys()]);
  for (const index of [...new Set(indices)].sort((a, b) => (BigInt(a) < BigInt(b) ? -1 : 1))) {
    const a = of(one, index), b = of(other, index);
    const is = one.leaves.has(index) || other.leaves.has(index) ? "leaf" : "helper";
    rows.push({ index, is, one: a, other: b, same: a === b });
  }
  return rows;
}
