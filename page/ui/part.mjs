// What there is to say of the selected part, and its edits.
import { $, make, fail, selectText } from "./dom.mjs";
import { app, ask, latest, on, take } from "./app.mjs";
import { inWords } from "../lib/faults.mjs";
import { many } from "../lib/hex.mjs";

const EDITS = { set: "Set the part", append: "Append an element", pop: "Pop the last element",
  choose: "Choose an option" };
const BUTTONS = { set: "Set", append: "Append", pop: "Pop", choose: "Choose" };
let part = null;

function placeOf({ from, to, bit }) {
  if (from === null) return "none of its own: the length is told by the encoding's";
  if (bit !== null) return `bit ${bit} of byte ${from}`;
  return from === to ? `none, at ${from}` : `${from} to ${to - 1}, ${many(to - from, "byte")}`;
}

function facts(it) {
  const { offset, hex } = it, { value } = app.row;
  const rows = [["Path", it.path || "/", "mono"],
    ["Type", it.type === it.form ? it.type : `${it.type} = ${it.form}`, ""],
    ["Index", `${it.gindex}, at depth ${it.depth}`, "mono"],
    ["Bytes", placeOf(app.row), ""],
    ["Offset", offset && `${offset.value}, in bytes ${offset.at} to ${offset.at + 3}`, ""],
    ["Value", value, "mono"],
    ["Encoding", hex !== null && hex.length <= 256 && (hex ? `0x${hex}` : "no bytes"), "mono"]];
  $("facts").replaceChildren(...rows.filter(([, text]) => text).flatMap(([name, text, className]) =>
    [make("dt", { textContent: name }), make("dd", { className, textContent: text })]));
}

/** What can be done to a part: lengths change by append and pop, selectors by choose. */
function editsOf({ isSpecial, kind, count }) {
  if (isSpecial || kind === "none") return [];
  if (kind === "list" || kind === "bitlist") return count ? ["set", "append", "pop"] : ["set", "append"];
  return kind === "union" ? ["set", "choose"] : ["set"];
}

function showEdits(it) {
  const edits = editsOf(it), option = (value, textContent) => make("option", { value, textContent });
  $("edit").hidden = !edits.length;
  $("does").replaceChildren(...edits.map((does) => option(does, EDITS[does])));
  $("option").replaceChildren(...(it.options ?? []).map((name, i) => option(i, `${i}: ${name}`)));
  if (it.options) $("option").value = it.selector;
}

/**
 * Fills the box with what an edit takes: the part as it is, or the default of an element or an
 * option.
 */
const prefill = latest(async (isLatest) => {
  const does = $("does").value, how = $("how").value;
  $("option-of").hidden = does !== "choose";
  const isNone = does === "choose" && part?.options[Number($("option").value)] === "None";
  $("literal").hidden = $("how-of").hidden = does === "pop" || isNone;
  $("do").textContent = BUTTONS[does] ?? "";
  fail("edit-error");
  if (!does || $("literal").hidden || !part) return;
  const written = await ask("written", { path: part.path, does, how, selector: Number($("option").value) });
  if (!isLatest()) return;
  $("literal").value = written ?? "";
  $("literal").placeholder = written === null ? "too long for this box; what you write takes its place" : "";
  $("literal").rows = Math.min(10, Math.max(2, (written ?? "").split("\n").length));
});

async function edit() {
  fail("edit-error");
  const { path } = part, selector = Number($("option").value);
  const given = { does: $("does").value, how: $("how").value, text: $("literal").value, path, selector };
  try {
    take(await ask("edit", given), path, true);
  } catch (why) {
    if (why.stopped) return;
    fail("edit-error", inWords(why, "The bytes that you wrote"));
    if (why.from !== undefined) selectText($("literal"), why.from, why.to);
  }
}

const show = latest(async (isLatest, row) => {
  const it = await ask("part", { path: row.path });
  if (!isLatest() || row !== app.row) return;
  part = it;
  facts(it);
  showEdits(it);
  await prefill();
});

const tell = (why) => !why.stopped && fail("edit-error", inWords(why));
on("select", (row) => show(row).catch(tell));
on("value", () => {
  if (app.value) return;
  part = null;
  $("facts").replaceChildren();
  $("edit").hidden = true;
});
$("does").onchange = $("option").onchange = $("how").onchange = () => prefill().catch(tell);
$("edit").onsubmit = (event) => {
  event.preventDefault();
  edit();
};
