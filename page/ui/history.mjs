// The versions of a value: what made each, its root, and what that cost; undo and redo.
import { $, make } from "./dom.mjs";
import { app, ask, guarded, on, take } from "./app.mjs";
import { many } from "../lib/hex.mjs";

const go = (at) => guarded("edit-error", async () => take(await ask("go", { at }), app.selected, true))();

function line({ does, root, nodes, pairs }, at) {
  const cost = nodes === null ? "" : `, ${many(nodes, "node")}, ${many(pairs, "pair")}`;
  const says = make("span", { className: "mono", textContent: `0x${root.slice(0, 6)}…${cost}` });
  const own = make("button", { title: `0x${root}` }, does, says);
  own.setAttribute("aria-current", at === app.value.at);
  own.onclick = () => go(at);
  return make("li", {}, own);
}

on("value", () => {
  const { versions = [], at = 0 } = app.value ?? {};
  $("versions").replaceChildren(...versions.map(line));
  $("undo").disabled = at === 0;
  $("redo").disabled = at + 1 >= versions.length;
  const box = $("versions"), own = box.children[at];
  if (own) box.scrollTop = own.offsetTop - box.offsetTop - box.clientHeight + own.offsetHeight;
});
$("undo").onclick = () => go(app.value.at - 1);
$("redo").onclick = () => go(app.value.at + 1);
