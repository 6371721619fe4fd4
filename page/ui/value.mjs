// The pane in which a value is given, and the verdict on it.
import { $, make, fail, selectText, copy } from "./dom.mjs";
import { app, ask, guarded, on, take } from "./app.mjs";
import { FAULTS, inWords } from "../lib/faults.mjs";
import { many } from "../lib/hex.mjs";

/** Gives the worker a value of the chosen type, and takes its answer. */
export async function give(op, given = {}, path = "") {
  const answer = await ask(op, { name: $("type").value, ...given });
  take(answer, path);
}
const gives = (op, given = () => ({})) => guarded("value-error", () => give(op, given()));

const milliseconds = (took) => (took < 10 ? took.toFixed(1) : Math.round(took).toLocaleString("en"));

const SHOWS = {
  good({ type, root, length, took, versions, at }) {
    const { nodes, pairs } = versions[at];
    const cost = nodes === null ? "" : `; the edit made ${many(nodes, "node")} and hashed ${many(pairs, "pair")}`;
    const more = `${many(length, "byte")}, in ${milliseconds(took)} ms${cost}`;
    return [`An encoding of ${type}, with the root`, `0x${root}`, more];
  },
  bad({ fault: { code, position, path, is }, length }) {
    const [name, says, look] = FAULTS[code], where = is === "value" ? "in" : `at the ${is} of`;
    const near = `${where} ${path || "the whole value"}, as far as the page can follow the bytes`;
    const more = `${says[0].toUpperCase()}${says.slice(1)}: ${near}; ${many(length, "byte")} in all. ${look}`;
    return [`No encoding of ${$("type").value}: F${code} ${name} at byte ${position}`, "", more];
  },
  "": () => ["No value yet", "", ""],
};

function showVerdict() {
  const is = app.value ? "good" : app.fault ? "bad" : "", [head, root, more] = SHOWS[is](app.value ?? app.fault);
  $("verdict").className = is;
  $("verdict-buttons").hidden = is === "";
  $("copy-root").hidden = is !== "good";
  $("verdict-head").textContent = head;
  $("root").textContent = root;
  $("verdict-more").textContent = more;
}

// The text of the bytes; of many it is not shown.
function showHex() {
  const answer = app.value ?? app.fault;
  if (!answer) return;
  $("hex-text").value = answer.hex ?? "";
  const why = `${many(answer.length, "byte")}: too many for this box`;
  $("hex-text").placeholder = answer.hex === null ? why : "";
}

async function showJson() {
  if ($("tab-json").getAttribute("aria-selected") !== "true" || !app.value) return;
  const text = await ask("text");
  $("json").value = text ?? "";
  $("json").placeholder = text === null ? "too long for this box: see the parts" : "";
}

const tabs = ["hex", "json"];
function tab(which) {
  for (const it of tabs) {
    $(`tab-${it}`).setAttribute("aria-selected", it === which);
    $(`tab-${it}`).tabIndex = it === which ? 0 : -1;
    $(`pane-${it}`).hidden = it !== which;
  }
  guarded("value-error", showJson)();
}
for (const it of tabs) {
  $(`tab-${it}`).onclick = () => tab(it);
  $(`tab-${it}`).onkeydown = ({ key }) => {
    if (key !== "ArrowRight" && key !== "ArrowLeft") return;
    const other = tabs.find((name) => name !== it);
    tab(other);
    $(`tab-${other}`).focus();
  };
}

async function readJson() {
  fail("value-error");
  try {
    await give("json", { text: $("json").value });
  } catch (why) {
    if (why.stopped) return;
    fail("value-error", inWords(why));
    if (why.from !== undefined) selectText($("json"), why.from, why.to);
  }
}

const readHex = guarded("value-error", () => {
  const text = $("hex-text").value, isLong = (app.value ?? app.fault)?.hex === null;
  if (isLong && !text) throw new Error("The box is empty, since the value is too long for it.");
  return give("hex", { text });
});

const readFile = (file) => file && guarded("value-error", () => give("file", { file }))();

async function save() {
  const bytes = await ask("whole"), href = URL.createObjectURL(new Blob([bytes]));
  make("a", { href, download: `${$("type").value}.ssz` }).click();
  URL.revokeObjectURL(href);
}

$("read-hex").onclick = readHex;
$("read-json").onclick = readJson;
$("default").onclick = gives("default");
$("random").onclick = gives("random", () => ({ seed: 1 + Math.floor(Math.random() * 2 ** 31) }));
$("open").onclick = () => $("file").click();
$("file").onchange = async () => {
  await readFile($("file").files[0]);
  $("file").value = "";
};
$("save").onclick = guarded("value-error", save);
$("copy-root").onclick = () => copy(`0x${app.value.root}`, "the root is copied");
addEventListener("dragover", (event) => event.preventDefault());
addEventListener("drop", (event) => {
  event.preventDefault();
  if (!$("controls").disabled) readFile(event.dataTransfer.files[0]);
});

on("value", () => {
  fail("value-error");
  showVerdict();
  showHex();
  if (!app.value && !app.fault) $("json").value = "";
  guarded("value-error", showJson)();
});
