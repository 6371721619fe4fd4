// The pane of the schema and its type.
import { $, make, fail, selectText } from "./dom.mjs";
import { app, ask, emit, guarded, take } from "./app.mjs";
import { inWords } from "../lib/faults.mjs";
import { many } from "../lib/hex.mjs";

const OWN = "own";
let texts = {};

/** Reads the schemas that the build put beside the page, and lists them. */
export async function listSchemas() {
  texts = await (await fetch(new URL("../out/schemas.json", import.meta.url))).json();
  const groups = new Map();
  for (const name of Object.keys(texts)) {
    const [preset, fork] = name.split("/");
    if (!groups.has(preset)) groups.set(preset, make("optgroup", { label: preset }));
    groups.get(preset).append(make("option", { value: name,
      textContent: preset === "mainnet" ? fork : `${fork} (${preset})` }));
  }
  $("schema").replaceChildren(...groups.values(),
    make("option", { value: OWN, textContent: "your own text" }));
}

/** The newest fork of mainnet; the build has the schemas in the order of their forks. */
export const newest = () => Object.keys(texts).findLast((name) => name.startsWith("mainnet/"));

export const schemaText = () => ($("schema").value === OWN ? $("text").value : texts[$("schema").value]);
export const isOwn = () => $("schema").value === OWN;

/** Chooses a schema by its name, or a text. */
export function setSchema(name, text) {
  if (text !== null) $("text").value = text;
  $("schema").value = text === null && name in texts ? name : OWN;
  $("own").hidden = !isOwn();
}

/** Lets the library read the schema. What is wrong is told, and shown where it stands. */
export async function readSchema(type = $("type").value) {
  fail("schema-error");
  app.types = [];
  try {
    app.types = await ask("schema", { text: schemaText() });
  } catch (why) {
    if (why.stopped) return;
    fail("schema-error", inWords(why));
    if (isOwn() && why.from !== undefined) selectText($("text"), why.from, why.to);
  }
  const own = app.types.filter((it) => it.isOwn), basic = app.types.filter((it) => !it.isOwn);
  const options = (types) => types.map(({ name }) => make("option", { value: name, textContent: name }));
  $("type").replaceChildren(...options(own), make("optgroup", { label: "built in" }, ...options(basic)));
  if (app.types.some(({ name }) => name === type)) $("type").value = type;
  showForm();
  take(null);
  emit("schema");
}

function showForm() {
  const it = app.types.find(({ name }) => name === $("type").value);
  $("form").textContent = it
    ? `${it.form}, ${it.size === null ? "of variable size" : many(it.size, "byte")}` : "";
}

$("schema").onchange = guarded("schema-error", async () => {
  $("own").hidden = !isOwn();
  await readSchema();
});
$("read-schema").onclick = () => readSchema();
$("type").onchange = () => {
  showForm();
  take(null);
};
