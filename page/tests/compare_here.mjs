// The same in a browser, where the server asks the program (compare_there.py): what came of it stands
// in the title.
import { compare } from "./comparing.mjs";
import { chosen } from "./chosen.mjs";
import { hexOf } from "../lib/hex.mjs";

const words = new URLSearchParams(location.search);
let kept = {};
const program = {
  async put(files) {
    const ofBytes = (it) => (typeof it === "string" ? { text: it } : { hex: hexOf(it) });
    kept = { ...kept, ...Object.fromEntries(Object.entries(files).map(([name, it]) => [name, ofBytes(it)])) };
  },
  async run(words, files = {}) {
    await this.put(files);
    const sent = kept;
    kept = {};
    const answer = await fetch("/native", { method: "POST", body: JSON.stringify({ words, files: sent }) });
    return answer.text();
  },
  async script(schema, lines) {
    return (await this.run(["run", schema, "script"], { script: `${lines.join("\n")}\n` })).split("\n");
  },
};
const fetched = async (name) => (await fetch(name)).arrayBuffer();
const text = async (name) => new TextDecoder().decode(await fetched(name));
try {
  const schemas = chosen(JSON.parse(await text("/schemas.json")), await text("forms.json"));
  const says = await compare(await fetched("/module.wasm"), program, schemas, Number(words.get("values")), Number(words.get("seed")));
  document.title = `alike: ${says}`;
} catch (why) {
  document.title = `unlike: ${why.stack}`;
}
