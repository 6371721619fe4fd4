// Links: what stands after # is schema or text, type, the value and the path. A value is deflated
// where that is shorter.
import { $, copy } from "./dom.mjs";
import { app, on } from "./app.mjs";
import { schemaText, isOwn } from "./schema.mjs";
import { hexOf, ofHex } from "../lib/hex.mjs";

const MOST = 24_000;

async function through(stream, bytes) {
  return new Uint8Array(await new Response(new Blob([bytes]).stream().pipeThrough(stream)).arrayBuffer());
}
// As base64, in the letters that stand in an address as they are.
const base64 = (bytes) => {
  const own = btoa(Array.from(bytes, (it) => String.fromCharCode(it)).join(""));
  return own.replaceAll("+", "-").replaceAll("/", "_").replaceAll("=", "");
};
const ofBase64 = (text) => {
  const own = atob(text.replaceAll("-", "+").replaceAll("_", "/"));
  return Uint8Array.from(own, (it) => it.charCodeAt(0));
};

async function packed(bytes) {
  const short = await through(new CompressionStream("deflate-raw"), bytes);
  return short.length < bytes.length ? ["z", base64(short)] : ["hex", hexOf(bytes)];
}

/** The words of the link to what is shown. Of a long value there are its schema and type alone. */
async function words() {
  const out = new URLSearchParams(isOwn() ? { text: schemaText() } : { schema: $("schema").value });
  out.set("type", $("type").value);
  const { hex } = app.value ?? app.fault ?? {};
  if (typeof hex !== "string") return { out, whole: !app.value };
  const [name, text] = await packed(ofHex(hex));
  if (text.length > MOST) return { out, whole: false };
  out.set(name, text);
  if (app.selected) out.set("path", app.selected);
  return { out, whole: true };
}

/** The value in a link, as bytes; null where there is none. */
export async function bytesIn(given) {
  if (given.has("hex")) return ofHex(given.get("hex"));
  if (!given.has("z")) return null;
  try {
    return await through(new DecompressionStream("deflate-raw"), ofBase64(given.get("z")));
  } catch {
    throw new Error("The value in the link is damaged.");
  }
}

let turn = 0;
async function keep() {
  const own = ++turn, { out } = await words();
  if (own === turn) history.replaceState(null, "", `#${out}`);
}

$("copy-link").onclick = async () => {
  const { out, whole } = await words();
  await copy(`${location.origin}${location.pathname}#${out}`,
    whole ? "the link is copied" : "copied, without the value, which is too long for a link");
};
/** From the start on, the address is the link. */
export function keepLink() {
  on("value", keep);
  on("select", keep);
  keep();
}
