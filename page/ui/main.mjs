// The page: starts the worker, reads the schemas, and shows what the link says, or an example. Its
// controls are off until the library is there.
import { $, fail } from "./dom.mjs";
import { app, ask, client, on } from "./app.mjs";
import { listSchemas, newest, readSchema, setSchema } from "./schema.mjs";
import { give } from "./value.mjs";
import { bytesIn, keepLink } from "./link.mjs";
import { inWords } from "../lib/faults.mjs";
import "./tree.mjs";
import "./hex.mjs";
import "./part.mjs";
import "./picture.mjs";
import "./proof.mjs";
import "./history.mjs";

const EXAMPLE = { type: "Attestation", seed: 4, path: "/data/source/epoch" };

// Which module: bits=32 in the address takes that with a memory of 32 bits.
const given = new URLSearchParams(location.hash.slice(1)), bits = Number(given.get("bits") ?? 64);

async function start() {
  client.launch();
  const it = await ask("start", { bits });
  client.ready = `library ready, memory of ${it.bits} bits`;
  client.end();
}

/** Says in the middle of the page why the library is not there. No control can do anything then. */
function tellNotReady(why) {
  $("controls").disabled = true;
  $("h-notice").textContent = why.notBuilt ? "The library is not there" : "The library could not be started";
  $("notice-why").textContent = inWords(why);
  $("notice-how").hidden = !why.notBuilt;
  $("notice").className = "now";
  $("notice").hidden = false;
  $("status").textContent = "not ready";
  document.body.dataset.ready = "failed";
}

/** After a stop: the value is gone with the worker that had it. */
client.again = async (why) => {
  try {
    await start();
  } catch (failed) {
    return tellNotReady(failed);
  }
  await readSchema();
  const says = why === "stopped" ? "Stopped." : `${why[0].toUpperCase()}${why.slice(1)}.`;
  return fail("value-error", `${says} The value is given up; give it again, or another one.`);
};

async function open() {
  await listSchemas();
  const isBare = !given.has("schema") && !given.has("text");
  setSchema(given.get("schema") ?? newest(), given.get("text"));
  await readSchema(given.get("type") ?? (isBare ? EXAMPLE.type : ""));
  keepLink();
  try {
    const bytes = await bytesIn(given), path = given.get("path") ?? "";
    if (bytes) await give("bytes", { bytes }, path);
    else if (given.has("seed")) await give("random", { seed: Number(given.get("seed")) }, path);
    else if (isBare && !given.has("type")) await give("random", { seed: EXAMPLE.seed }, EXAMPLE.path);
  } catch (why) {
    if (!why.stopped) fail("value-error", inWords(why));
  }
}

// The address is the link to what is shown, so that places of the page are gone to without it;
// another link is opened anew.
for (const it of document.querySelectorAll('a[href^="#"]'))
  it.onclick = (event) => {
    event.preventDefault();
    const place = $(it.hash.slice(1));
    place.scrollIntoView();
    place.focus();
  };
addEventListener("hashchange", () => location.reload());
on("value", () => {
  document.title = app.value || app.fault ? `${$("type").value} · SSZ explorer` : "SSZ explorer";
});

/** What page/build wrote of the build: the kit, the line of the proof, what was compared. */
async function tellBuild() {
  const found = await fetch(new URL("../out/built.txt", import.meta.url));
  $("built").textContent = found.ok ? await found.text() : "page/out/built.txt is not there";
}

// For tests and measures.
window.explorer = { app, ask };
$("notice").hidden = true;
$("status").textContent = "loading…";
try {
  await start();
  await tellBuild();
  $("controls").disabled = false;
  await open();
  document.body.dataset.ready = "true";
} catch (why) {
  tellNotReady(why);
}
