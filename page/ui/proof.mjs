// The multiproof as a text; a proof that is checked against a root, and two proofs that are
// compared.
import { $, table, copy } from "./dom.mjs";
import { app, ask, emit, on } from "./app.mjs";
import { OK, UNLIKE, BAD_PROOF } from "../lib/ssz.mjs";
import { readProof, compared } from "../lib/proofs.mjs";
import { inWords } from "../lib/faults.mjs";

function say(text, good = null) {
  $("answer").textContent = text;
  $("answer").className = good === null ? "" : good ? "good" : "bad";
  $("differences").replaceChildren();
}

const isRoot = (text) => /^(0x)?[0-9a-fA-F]{64}$/.test(text);

/**
 * What the library says of a proof and a root, in words; why a bad one is bad, the page says by
 * itself.
 */
async function judged(proof) {
  const root = $("check-root").value.trim();
  if (!isRoot(root)) return { text: "a root is 64 hexadecimal digits, perhaps after 0x", good: false };
  const status = await ask("verify", { root, proof: proof.trim() });
  if (status === OK) return { text: "valid: it leads to this root", good: true };
  if (status === UNLIKE) return { text: "unlike: it is a proof, and leads to another root", good: false };
  if (status !== BAD_PROOF) return { text: inWords({ status }), good: false };
  const { bad = "it is one line, with one space between words" } = readProof(proof);
  return { text: `bad: it is no proof: ${bad}`, good: false };
}

async function check() {
  const { text, good } = await judged($("check-proof").value);
  say(text[0].toUpperCase() + text.slice(1), good);
}

const cell = (text) => ({ textContent: text ?? "not there", className: text ? "mono" : "soft" });

/** Compares two proofs chunk by chunk; that each leads to the root the library says. */
async function compare() {
  const texts = [$("check-proof").value, $("other-proof").value], read = texts.map(readProof);
  const bad = read.findIndex((it) => it.bad);
  if (bad >= 0) return say(`The ${bad ? "second" : "first"} is no proof: ${read[bad].bad}`, false);
  const rows = compared(...read), unlike = rows.filter((it) => !it.same);
  const says = isRoot($("check-root").value.trim())
    ? (await Promise.all(texts.map(judged))).map(({ text }) => text.split(":")[0]) : null;
  const verdicts = says ? `; against the root the first is ${says[0]}, the second ${says[1]}` : "";
  const counted = unlike.length ? `${unlike.length} of ${rows.length} differ` : `all ${rows.length} are the same`;
  say(`Of the chunks ${counted}${verdicts}.`, !unlike.length);
  const lines = rows.map(({ index, is, one, other, same }) => ({ className: same ? "" : "unlike",
    cells: [cell(index), is, same ? "same" : "differs", cell(one), same ? "" : cell(other)] }));
  $("differences").replaceChildren(table(["Index", "Is", "", "In the first", "In the second"], lines));
}

const tells = (act) => () => act().catch((why) => !why.stopped && say(inWords(why), false));
$("check").onclick = tells(check);
$("compare").onclick = tells(compare);
$("copy-proof").onclick = () => copy($("proof").value, "the proof is copied");
$("to-check").onclick = tells(async () => {
  $("check-proof").value = $("proof").value;
  $("check-root").value = app.value ? `0x${app.value.root}` : "";
  await check();
  $("answer").scrollIntoView({ block: "nearest" });
});
$("clear").onclick = () => {
  app.chosen.clear();
  emit("chosen");
};
on("value", () => {
  if (app.value && !$("check-root").value) $("check-root").value = `0x${app.value.root}`;
  for (const it of ["copy-proof", "to-check"]) $(it).disabled = !app.value;
});
