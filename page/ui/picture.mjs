// The picture of the branches from some parts to the root: leaves, helpers and what is computed of
// them, level by level. Each box says which it is.
import { $, make, svg, table } from "./dom.mjs";
import { app, ask, latest, on, take } from "./app.mjs";
import { inWords } from "../lib/faults.mjs";
import { many, shortHash } from "../lib/hex.mjs";

// Boxes of two lines for one leaf; of three where more nodes stand side by side, and of four where
// these have too little room. `letters`: so many of an index have room, of a name, and of each end
// of a chunk. `at`: on which side and how deep each text stands.
const TWO = { wide: 168, tall: 34, step: 52, gap: 12, letters: [11, 22, 6],
  at: { index: ["left", 13], name: ["right", 13], chunk: ["left", 28], is: ["right", 28] } };
const THREE = { wide: 130, tall: 46, step: 64, gap: 10, letters: [9, 17, 6],
  at: { index: ["left", 13], is: ["right", 13], name: ["left", 26], chunk: ["left", 40] } };
const FOUR = { wide: 92, tall: 58, step: 75, gap: 8, letters: [11, 12, 4],
  at: { is: ["left", 12], index: ["left", 25], name: ["left", 38], chunk: ["left", 51] } };
// A picture that is wider than its place by this much is made smaller, a wider one scrolls.
const SHRINKS = 1.4;
// From so many bytes on the tree of nodes, which takes some eight times the memory, is made on demand.
const LARGE = 8_000_000;
// Half of the text that stands for levels that are left out.
const FOLD_ROOM = 145;
let shown = null;

/** Whether a level is as the one above it, with no name and no helper but trees of zeros. */
function isDull(levels, i) {
  const has = (it) => (it.is === "computed" && !it.name) || (it.is === "helper" && it.zero !== null);
  return levels[i].length === levels[i - 1]?.length && levels[i].every(has);
}

/** The levels that are drawn: of a run of dull ones the first and the last, and how many lie between. */
function folded(levels, all) {
  const out = [];
  for (let i = 0; i < levels.length; i++) {
    let last = i;
    if (!all && isDull(levels, i)) while (last + 2 < levels.length && isDull(levels, last + 1)) last++;
    out.push({ nodes: levels[i] });
    if (last - i < 3) continue;
    out.push({ skipped: last - i - 1 }, { nodes: levels[last] });
    i = last;
  }
  return out;
}

const short = (text, most) => (text.length > most ? `${text.slice(0, most - 1)}…` : text);

/** What is said of a node's chunk, with so many digits of each end: of a tree of zeros, how many chunks it has. */
function chunkOf({ chunk, zero }, digits) {
  if (zero === null) return shortHash(chunk, digits);
  const count = zero < 10 ? 2 ** zero : `2^${zero}`;
  return `${count} ${digits < 6 ? "zero" : "zero chunk"}${zero ? "s" : ""}`;
}

/** What a node is to a proof, in a word. */
const isOf = ({ index, is }) => (index === "1" ? "root" : is);

/** An index in so many letters. */
function shortIndex(index, most) {
  const half = (most - 1) >> 1;
  return index.length > most ? `${index.slice(0, half)}…${index.slice(-half)}` : index;
}

/** The box of a node, by the form of boxes: its index, its name, its chunk in short, and what it is. */
function box(it, x, y, { wide, tall, letters: [most, name, digits], at }) {
  const index = shortIndex(it.index, most), room = at.index[1] === at.name[1] ? name - index.length - 1 : name;
  const place = ([side, deep]) => (side === "left" ? { x: x - wide / 2 + 8, y: y + deep }
    : { x: x + wide / 2 - 8, y: y + deep, "text-anchor": "end" });
  return svg("g", { class: it.is + (it.zero === null ? "" : " zero") },
    svg("rect", { x: x - wide / 2, y, width: wide, height: tall }),
    svg("text", place(at.index), index),
    svg("text", { ...place(at.name), class: "name" }, short(it.name ?? "", room)),
    svg("text", { ...place(at.chunk), class: "soft" }, chunkOf(it, digits)),
    svg("text", { ...place(at.is), class: "is" }, isOf(it)),
    svg("title", {}, `${it.index} = ${it.chunk}, ${isOf(it)}${it.name ? `, ${it.name}` : ""}`));
}

/** How wide a picture is with so many boxes of a form side by side. */
const widthOf = (most, { wide, gap }) => most * (wide + gap) + gap;

/** The form of boxes for so many side by side, with so much room. */
function formOf(most, room) {
  if (most <= 2) return TWO;
  return widthOf(most, THREE) <= room ? THREE : FOUR;
}

/**
 * Where the nodes of a level stand: each pair below the node above it, as far as there is room, in
 * the order of the indices, so that no two lines cross. `above` gives the place of the node over
 * each.
 */
function placed(level, above, { W, wide, gap }) {
  const each = wide + gap, least = gap + wide / 2, most = W - least, xs = [];
  level.forEach((it, i) => {
    const wished = it.index === "1" ? W / 2 : above[i] + (BigInt(it.index) % 2n ? each / 2 : -each / 2);
    xs.push(Math.max(wished, i ? xs[i - 1] + each : least));
  });
  let right = most;
  for (let i = xs.length - 1; i >= 0; i--, right -= each) right = xs[i] = Math.min(xs[i], right);
  return xs;
}

/**
 * The lines down to a level from the places above it; dotted ones, along the branches alone, where
 * levels are left out between.
 */
function linesTo(level, xs, above, { step, tall }, y, isFolded) {
  return level.flatMap((it, i) => {
    const isComputed = it.is !== "helper", y1 = y - (isFolded ? 2 * step : step) + tall;
    if (isFolded && !isComputed) return [];
    const own = `${isComputed ? "computed" : ""}${isFolded ? " folded" : ""}`;
    return [svg("line", { class: own, x1: above[i], y1, x2: xs[i], y2: y })];
  });
}

/** Draws the rows, for so much room. */
function picture(levels, all, room) {
  const most = Math.max(...levels.map((it) => it.length)), form = { ...formOf(most, room) };
  const lines = [], nodes = [];
  form.W = widthOf(most, form);
  // The places of the nodes that have two below them, in their order.
  let y = 10, parents = [form.W / 2], isFolded = false;
  for (const { nodes: level, skipped } of folded(levels, all)) {
    if (skipped) {
      const x = Math.min(Math.max(parents[0], FOLD_ROOM), form.W - FOLD_ROOM);
      nodes.push(svg("text", { x, y: y + 19, class: "soft halo", "text-anchor": "middle" },
        `${skipped} levels whose helpers are trees of zeros`));
      isFolded = true;
    } else {
      const above = level.map((_, i) => parents[i >> 1]), xs = placed(level, above, form);
      if (y > 10) lines.push(...linesTo(level, xs, above, form, y, isFolded));
      level.forEach((it, i) => nodes.push(box(it, xs[i], y, form)));
      parents = xs.filter((_, i) => level[i].is === "computed");
      isFolded = false;
    }
    y += form.step;
  }
  const H = y - form.step + form.tall + 10;
  const words = { viewBox: `0 0 ${form.W} ${H}`, width: form.W, height: H, role: "img" };
  return svg("svg", words, ...lines, ...nodes);
}

function asTable(levels) {
  const mono = (textContent) => ({ textContent, className: "mono" });
  const rows = levels.flat().map((it) =>
    ({ cells: [mono(it.index), isOf(it), it.name ?? "", mono(it.chunk)] }));
  return table(["Index", "Is", "Name", "Chunk"], rows);
}

function draw() {
  if (!shown) return;
  const box = $("picture"), { levels, leaves, helpers } = shown;
  const own = picture(levels, $("all").checked, box.clientWidth || box.parentElement.clientWidth);
  const from = leaves === 1 ? "a leaf" : `${leaves} leaves`, over = many(levels.length - 1, "level");
  const says = `The branch from ${from} to the root over ${over}, with ${many(helpers, "helper")}`;
  own.setAttribute("aria-label", `${says}; the table below has the same`);
  box.replaceChildren(own);
  const isNear = Number(own.getAttribute("width")) < SHRINKS * box.clientWidth;
  if (isNear) Object.assign(own.style, { maxWidth: "100%", height: "auto" });
  box.scrollLeft = (box.scrollWidth - box.clientWidth) / 2;
  $("nodes").querySelector("div").replaceChildren($("nodes").open ? asTable(levels) : "");
  $("nodes").hidden = false;
}

function clear(text = "") {
  shown = null;
  $("picture").replaceChildren();
  $("nodes").hidden = true;
  $("tree-of").textContent = text;
  $("tree-how").hidden = true;
  $("proof").value = $("chosen").textContent = "";
}

/** Of a large value the tree of nodes is made when a user asks for it. */
function offer() {
  clear("The tree of nodes of so large a value is made on demand.");
  const own = make("button", { textContent: "Make the tree", id: "make-tree" });
  own.onclick = async () => {
    try {
      take(await ask("tree"), app.selected, true);
    } catch (why) {
      if (!why.stopped) clear(inWords(why));
    }
  };
  $("picture").replaceChildren(own);
}

/** Shows the branches of the ticked parts, or of the selected one, and their multiproof. */
const show = latest(async (isLatest) => {
  if (!app.value || !app.row) return clear();
  if (!app.value.hasTree && app.value.length >= LARGE) return offer();
  const items = app.chosen.size ? [...app.chosen] : [app.row.path];
  try {
    const [proof, found] = await Promise.all([ask("prove", { items }), ask("picture", { items })]);
    if (!isLatest()) return;
    shown = found;
    const { leaves, helpers } = found, names = items.map((it) => it || "/").join(", ");
    const counted = `${leaves} ${leaves === 1 ? "leaf" : "leaves"} (${names}) and ${many(helpers, "helper")}`;
    $("h-tree").textContent = items.length > 1 ? "Branches to the root" : "Branch to the root";
    $("tree-of").textContent = `Of the ${app.chosen.size ? "ticked" : "selected"} ${items.length > 1 ? "parts" : "part"}: ${names}`;
    $("tree-how").hidden = false;
    $("chosen").textContent = `${counted}: ${many(32 * (leaves + helpers), "byte")} of chunks`;
    $("proof").value = proof;
    app.value.hasTree = true;
    draw();
  } catch (why) {
    if (isLatest() && !why.stopped) clear(inWords(why));
  }
});

on("value", () => !app.value && clear());
on("select", () => show());
on("chosen", () => show());
$("all").onchange = draw;
$("wide").onchange = () => {
  document.body.classList.toggle("across", $("wide").checked);
  draw();
  $("picture").scrollIntoView({ block: "nearest" });
};
$("nodes").ontoggle = draw;
