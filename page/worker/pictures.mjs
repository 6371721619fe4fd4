// The part of the Merkle tree that a multiproof needs: its leaves, its helpers, and the nodes on
// the branches to the root, each with the chunk that the library has there. The library gives chunks by
// proofs: the leaf of a proof of an index is its node.
import { readProof } from "../lib/proofs.mjs";

/** A schema for `zeroTrees`. */
export const ZEROS = '{"ssz":1,"types":[["Z",{"list":[{"vector":["byte",32]},1099511627776]}]]}';

/**
 * The roots of trees of zero chunks, with their levels: nodes of an empty list, as the library
 * proves them.
 */
export function zeroTrees(session) {
  const found = new Map();
  session.must("new Z Z");
  for (let levels = 40; levels >= 0; levels--) {
    const { leaves } = readProof(session.must(`prove Z ${1n << BigInt(41 - levels)}`));
    found.set([...leaves.values()][0], levels);
  }
  return found;
}

const depthOf = (index) => BigInt(index).toString(2).length - 1;

/**
 * Levels from the root down, each a list of nodes {index, is, chunk, zero, name}; `is` is computed,
 * leaf or helper.
 */
export function picture(prove, items, zeros, names) {
  const proof = readProof(prove(items)), levels = [];
  const put = (index, is, chunk) => {
    const zero = is === "computed" ? null : zeros.get(chunk) ?? null, own = String(index);
    (levels[depthOf(index)] ??= []).push({ index: own, is, chunk, zero, name: names.get(own) ?? null });
  };
  for (const [index, chunk] of proof.leaves) put(index, "leaf", chunk);
  for (const [index, chunk] of proof.helpers) put(index, "helper", chunk);
  for (const above of computedOf(proof.leaves.keys())) {
    const nodes = readProof(prove(above.map(String))).leaves;
    for (const [index, chunk] of nodes) put(index, "computed", chunk);
  }
  for (const level of levels) level.sort((a, b) => (BigInt(a.index) < BigInt(b.index) ? -1 : 1));
  return { levels, leaves: proof.leaves.size, helpers: proof.helpers.size };
}

// The indices above leaves, level by level: of one level none is above another, so that one proof
// has them all.
function computedOf(leaves) {
  const levels = new Map();
  for (const leaf of leaves)
    for (let at = BigInt(leaf) >> 1n; at >= 1n; at >>= 1n) {
      const depth = depthOf(at);
      levels.set(depth, (levels.get(depth) ?? new Set()).add(at));
    }
  return [...levels.values()].map((it) => [...it]);
}
