// The encoding as digits, some rows at a time: the selected part and its offset are marked, a byte
// leads to its part. The numbers of bytes are decimal here as everywhere on the page.
import { $, make } from "./dom.mjs";
import { app, ask, guarded, latest, on } from "./app.mjs";
import { reveal } from "./tree.mjs";
import { many } from "../lib/hex.mjs";

const ROWS = 16, narrow = matchMedia("(max-width: 760px)");
let from = 0, cursor = 0;

const width = () => (narrow.matches ? 8 : 16);
const inside = (at, it) => it && it.from !== null && at >= it.from && at < it.to;

/** What a byte is marked as. */
function classOf(at) {
  const { row, fault } = app;
  if (fault) return at === fault.fault.position ? "fault" : "";
  if (inside(at, row)) return "part";
  return row?.offset && at >= row.offset.at && at < row.offset.at + 4 ? "offset" : "";
}

const SAID = { fault: ", the first fault", part: ", of the selected part", offset: ", of its offset", "": "" };

function cell(at, byte) {
  const text = byte === undefined ? "··" : byte.toString(16).padStart(2, "0"), mark = classOf(at);
  const label = `byte ${at}: ${byte === undefined ? "none" : text}${SAID[mark]}`;
  const words = { role: "gridcell", id: `b${at}`, textContent: text, title: `byte ${at}`, "aria-label": label };
  const own = make("span", words);
  const gap = at % 8 === 0 && at % width() ? "gap" : "";
  own.className = [mark, at === cursor ? "cursor" : "", gap].filter(Boolean).join(" ");
  own.dataset.at = at;
  return own;
}

const head = (text) => make("span", { role: "rowheader", textContent: text.padStart(String(app.length).length + 1) });

/** A row of digits, after the number of its first byte. */
function rowOf(at, bytes) {
  return make("div", { role: "row" }, head(String(at)), ...bytes.map((byte, i) => cell(at + i, byte)));
}

/** What each column adds to the number at the head of a row. */
function columns() {
  const heads = Array.from({ length: width() }, (_, i) =>
    make("span", { role: "columnheader", className: i === 8 ? "gap" : "", textContent: String(i).padStart(2) }));
  return make("div", { role: "row" }, head("+"), ...heads);
}

/** Shows the rows from `from` on. A fault may lie after the last byte: there stands a mark. */
const paint = latest(async (isLatest) => {
  const count = ROWS * width(), bytes = app.length ? [...await ask("window", { from, count })] : [];
  if (!isLatest()) return;
  const end = from + bytes.length, rows = [];
  const shown = end === app.length && app.fault?.fault.position === end ? [...bytes, undefined] : bytes;
  for (let i = 0; i < shown.length; i += width()) rows.push(rowOf(from + i, shown.slice(i, i + width())));
  $("hex").replaceChildren(...(rows.length ? [columns()] : []), ...rows);
  const empty = app.value || app.fault ? "no bytes" : "";
  $("hex-where").textContent = app.length ? `${from} to ${end - 1} of ${many(app.length, "byte")}` : empty;
  $("hex-back").disabled = from === 0;
  $("hex-on").disabled = end >= app.length;
  if (app.length) $("hex").setAttribute("aria-activedescendant", `b${cursor}`);
});

/** Brings a byte into sight. */
function show(at) {
  const last = Math.max(0, Math.ceil((app.length + 1) / width()) - ROWS) * width();
  const wished = Math.max(0, (Math.floor(at / width()) - 2) * width());
  if (at < from || at >= from + ROWS * width()) from = Math.min(last, wished);
  cursor = at;
  return paint();
}

/** Selects the part that a byte is of. */
const pick = guarded("goto-error", async (at) => {
  cursor = at;
  if (!app.value) return paint();
  const { path, is } = await ask("at", { position: at });
  await reveal(is === "selector" ? `${path}/#sel` : path);
  await show(at);
});

$("hex").onclick = ({ target }) => target.dataset.at !== undefined && pick(Number(target.dataset.at));
$("hex").onkeydown = (event) => {
  const moves = { ArrowLeft: -1, ArrowRight: 1, ArrowUp: -width(), ArrowDown: width(),
    PageUp: -ROWS * width(), PageDown: ROWS * width(), Home: -cursor, End: app.length - 1 - cursor };
  const to = Math.min(app.length - 1, Math.max(0, cursor + (moves[event.key] ?? 0)));
  if (!app.length || !(event.key in moves || event.key === "Enter")) return;
  event.preventDefault();
  if (event.key === "Enter") pick(cursor);
  else show(to);
};
$("hex-back").onclick = () => { from = Math.max(0, from - ROWS * width()); paint(); };
$("hex-on").onclick = () => { from += ROWS * width(); paint(); };
narrow.onchange = () => { from -= from % 16; paint(); };

on("byte", pick);
on("value", () => {
  from = 0;
  show(app.fault?.fault.position ?? 0);
});
on("select", (row) => (row.from === null ? paint() : show(row.from)));
