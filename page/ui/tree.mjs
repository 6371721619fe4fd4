// The table of parts: a tree whose lines are asked for when they are opened, a hundred at a time.
import { $, make, fail } from "./dom.mjs";
import { app, ask, choose, emit, guarded, latest, on, select } from "./app.mjs";

const MANY = 100, CONFIRMED = "confirmed by the library", INDENT = 0.85;
let top = null;

// A line of the table: what the worker said of the part, which one it is of how many, and the lines
// below it that are there.
const lineOf = (row, level, place = 1, of = 1) =>
  ({ row, level, place, of, isOpen: false, children: [], from: 0, to: 0, all: 0 });

/** The lines that are to be seen, in order; between them stand what asks for more. */
function seen(line, out = []) {
  out.push(line);
  if (!line.isOpen) return out;
  const more = (from, earlier) => out.push({ more: line, level: line.level + 1, from, earlier });
  if (line.from > 0) more(Math.max(0, line.from - MANY), true);
  for (const it of line.children) seen(it, out);
  if (line.to < line.all) more(line.to, false);
  return out;
}
const lines = () => (top ? seen(top).filter((it) => it.row) : []);

function placeOf({ from, to, bit }) {
  if (from === null) return "";
  if (bit !== null) return `${from}, bit ${bit}`;
  return from === to ? `${from}, none` : `${from}–${to - 1}`;
}

/** The cell of a part's place, with the library's word on it. */
function bytesCell(row) {
  const place = placeOf(row), own = make("td", { className: "number bytes", title: place });
  if (row.confirmed === true && place) own.append(make("span", { className: "tick", textContent: "✓ ", title: CONFIRMED }));
  if (row.confirmed === false) own.append(make("b", { className: "error", textContent: "unlike " }));
  own.append(place);
  return own;
}

const cell = (className, text) => make("td", { className, textContent: text, title: text });

/** The cell of a part's name, with what opens it. */
function nameCell(line) {
  const { row, level } = line, sign = row.opens ? (line.isOpen ? "▾" : "▸") : "";
  const twist = make("span", { className: "twist", textContent: sign, "aria-hidden": "true" });
  twist.onclick = (event) => { event.stopPropagation(); toggle(line); };
  const own = make("td", {}, twist, make("span", { className: "step", textContent: row.path ? row.step : "/" }));
  own.style.paddingLeft = `${(level - 1) * INDENT + 0.3}rem`;
  return own;
}

/** The cell that takes a part into the proof. */
function proveCell({ path }) {
  const words = { type: "checkbox", checked: app.chosen.has(path), tabIndex: -1, "aria-label": `prove ${path || "/"}` };
  const box = make("input", words);
  box.onclick = (event) => { event.stopPropagation(); choose(path); };
  return make("td", { className: "prove" }, box);
}

function element(line) {
  const { row, level, place, of } = line, isSelected = row.path === app.selected;
  const words = { role: "row", tabIndex: isSelected ? 0 : -1, "aria-selected": isSelected, "aria-level": level,
    "aria-posinset": place, "aria-setsize": of };
  const own = make("tr", words, nameCell(line), cell("type", row.type), cell("number index", row.gindex),
    bytesCell(row), cell("value", row.value), proveCell(row));
  for (const it of own.cells) it.setAttribute("role", "gridcell");
  if (row.opens) own.setAttribute("aria-expanded", line.isOpen);
  own.dataset.path = row.path;
  own.onclick = () => pick(line, true);
  own.ondblclick = () => toggle(line);
  return own;
}

/** The line that asks for more of the lines below a part. */
function moreElement({ more, level, from, earlier }) {
  const left = earlier ? more.from : more.all - more.to, which = earlier ? "earlier" : "more";
  const own = make("button", { textContent: `${Math.min(left, MANY)} ${which} of ${left.toLocaleString("en")}` });
  own.onclick = guarded("goto-error", async () => { await load(more, from, true); draw(); });
  const cell = make("td", { colSpan: 6, role: "gridcell" }, own);
  cell.style.paddingLeft = `${level * INDENT + 0.3}rem`;
  return make("tr", { role: "row", "aria-level": level }, cell);
}

function draw() {
  const body = $("parts").tBodies[0], hadFocus = body.contains(document.activeElement);
  body.replaceChildren(...(top ? seen(top) : []).map((it) => (it.more ? moreElement(it) : element(it))));
  if (hadFocus) body.querySelector("[aria-selected=true]")?.focus({ preventScroll: true });
}

/**
 * Asks for lines below a line, from a number on; `joins` those that are there, which they stand
 * beside.
 */
async function load(line, from = 0, joins = false) {
  const answer = await ask("rows", { path: line.row.path, from, count: MANY });
  // A length or a selector stands in front of what is counted.
  const first = from ? from + answer.of - answer.all : 0;
  const found = answer.rows.map((row, i) => lineOf(row, line.level + 1, first + i + 1, answer.of));
  const missing = found.filter((it) => !line.children.some((own) => own.row.path === it.row.path));
  if (!joins) Object.assign(line, { children: found, from: answer.from, to: answer.to });
  else if (from < line.from) Object.assign(line, { children: [...missing, ...line.children], from: answer.from });
  else Object.assign(line, { children: [...line.children, ...missing], to: answer.to });
  line.all = answer.all;
  line.isOpen = true;
}

const toggle = guarded("goto-error", async (line) => {
  if (!line.row.opens) return;
  if (line.isOpen) line.isOpen = false;
  else if (line.children.length) line.isOpen = true;
  else await load(line);
  draw();
});

// What all panes show of the selected part; the library says first whether it stands at its place.
const show = latest(async (isLatest, line) => {
  if (line.row.confirmed === null && line.row.from !== null && !line.row.path.endsWith("/#sel")) {
    const row = await ask("row", { path: line.row.path });
    Object.assign(line.row, row);
    if (!isLatest()) return;
    draw();
  }
  select(line.row);
});

async function pick(line, focuses = false) {
  app.selected = line.row.path;
  draw();
  const own = $("parts").querySelector("[aria-selected=true]");
  if (focuses) own?.focus({ preventScroll: true });
  keepInSight(own);
  await guarded("goto-error", show)(line);
}

// Scrolls the table alone, and not the page.
function keepInSight(own) {
  if (!own) return;
  const box = $("scroll"), top = own.offsetTop - $("parts").tHead.offsetHeight, end = own.offsetTop + own.offsetHeight;
  if (top < box.scrollTop) box.scrollTop = top;
  else if (end > box.scrollTop + box.clientHeight) box.scrollTop = end - box.clientHeight;
}

/** Opens the path to a part and selects it; as far as the path goes, where there is no such part. */
export async function reveal(path, focuses = false) {
  let line = top;
  for (const step of path.split("/").slice(1)) {
    if (!line.row.opens) break;
    const own = `${line.row.path}/${step}`, has = () => line.children.find((it) => it.row.path === own);
    if (!line.isOpen && !line.children.length) await load(line);
    if (!has() && /^\d+$/.test(step) && Number(step) < line.all) await load(line,
      Math.max(0, Number(step) - MANY / 2));
    line.isOpen = true;
    if (!has()) break;
    line = has();
  }
  await pick(line, focuses);
  return line.row.path === path;
}

const KEYS = {
  ArrowDown: (all, at) => pick(all[Math.min(at + 1, all.length - 1)], true),
  ArrowUp: (all, at) => pick(all[Math.max(at - 1, 0)], true),
  Home: (all) => pick(all[0], true),
  End: (all) => pick(all.at(-1), true),
  ArrowRight: (all, at) => (all[at].isOpen ? pick(all[Math.min(at + 1, all.length - 1)], true)
    : toggle(all[at])),
  ArrowLeft: (all, at) => (all[at].isOpen ? toggle(all[at])
    : pick(all.slice(0, at).findLast((it) => it.level < all[at].level) ?? all[0], true)),
  Enter: (all, at) => toggle(all[at]),
  " ": (all, at) => choose(all[at].row.path),
};
$("parts").onkeydown = (event) => {
  const path = event.target.closest("tr[data-path]")?.dataset.path, all = lines();
  if (path === undefined || !KEYS[event.key] || event.target.tagName === "INPUT") return;
  event.preventDefault();
  KEYS[event.key](all, all.findIndex((it) => it.row.path === path));
};

$("goto").onsubmit = (event) => {
  event.preventDefault();
  goTo($("goto-path").value.trim());
};
const goTo = guarded("goto-error", async (text) => {
  if (!app.value) throw new Error("There is no value yet.");
  if (/^\d+$/.test(text) && Number(text) < app.length) return emit("byte", Number(text));
  const path = text === "/" ? "" : text;
  if (path && !path.startsWith("/")) throw new Error("Give a path, as /slot, or the number of a byte.");
  if (!(await reveal(path, true))) fail("goto-error",
    `There is no ${path}: this is as far as the path goes.`);
});

on("value", ({ path }) => {
  top = app.value ? lineOf(app.value.row, 1) : null;
  fail("goto-error");
  draw();
  if (top) guarded("goto-error", async () => { await load(top); await reveal(path); })();
});
on("chosen", draw);
