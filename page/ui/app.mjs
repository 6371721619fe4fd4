// What all panes of the page share: the worker, the value that is looked at, and which part of it
// is selected.
import { Client } from "./client.mjs";
import { inWords } from "../lib/faults.mjs";
import { fail } from "./dom.mjs";

export const client = new Client();
export const ask = (op, given = {}, moved = []) => client.ask(op, given, moved);

/**
 * `value` is the worker's answer on the whole value, or null; `fault` its answer on bytes that
 * encode none.
 */
export const app = { types: [], value: null, fault: null, length: 0, selected: "", row: null,
  chosen: new Set() };

const bus = new EventTarget();
/** Events: "schema", "value" (another one, or none), "select", "chosen". */
export const on = (name, act) => bus.addEventListener(name, ({ detail }) => act(detail));
export const emit = (name, detail) => bus.dispatchEvent(new CustomEvent(name, { detail }));

/**
 * An act of a user, whose failure is told at a place of the page. `what` names the bytes that a
 * fault is of.
 */
export const guarded = (place, act, what) => async (...given) => {
  fail(place);
  try {
    return await act(...given);
  } catch (why) {
    if (!why.stopped) fail(place, inWords(why, what));
    return undefined;
  }
};

/** Takes an answer on a whole value, or none, for what all panes show. An edit keeps what was ticked. */
export function take(answer, path = "", isEdit = false) {
  app.value = answer?.fault ? null : answer;
  app.fault = answer?.fault ? answer : null;
  app.length = answer?.length ?? 0;
  app.row = null;
  app.selected = path;
  if (!isEdit) app.chosen.clear();
  emit("value", { path });
}

/** Selects a part, by its line in the table. */
export function select(row) {
  app.selected = row.path;
  app.row = row;
  emit("select", row);
}

/** Takes a part into the proof, or out of it. */
export function choose(path) {
  if (!app.chosen.delete(path)) app.chosen.add(path);
  emit("chosen");
}

/** Runs an act for the newest request only: what an older one comes to is dropped. */
export function latest(act) {
  let turn = 0;
  return async (...given) => {
    const own = ++turn;
    await act(() => own === turn, ...given);
  };
}
