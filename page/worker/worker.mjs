// The worker: takes a question, lets answers.mjs answer it, and says how far long work is. One
// question at a time: what comes meanwhile waits, and the page ends the worker where a user has
// waited enough.
import { answers } from "./answers.mjs";

const PLAIN = ["message", "status", "code", "position", "path", "detail", "line", "defines", "from", "to",
  "notBuilt"];

let turn = Promise.resolve();

async function answer({ id, op, given }) {
  const tell = (what, done, of) => postMessage({ id, progress: { what, done, of } });
  try {
    const found = await answers[op](given, tell);
    postMessage({ id, value: found?.moved ? found.value : found }, found?.moved ?? []);
  } catch (why) {
    const error = Object.fromEntries(PLAIN.map((name) => [name, why[name]]));
    // A trap leaves the module's memory in no known state.
    postMessage({ id, error, dead: why instanceof WebAssembly.RuntimeError });
  }
}

onmessage = ({ data }) => {
  turn = turn.then(() => answer(data));
};
