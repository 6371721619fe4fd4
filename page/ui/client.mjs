// The worker from the page's side: questions with numbers, how far long work is, and a stop, which
// ends the worker and starts another one.
import { $ } from "./dom.mjs";

const PATIENCE = 250;

export class Client {
  constructor() {
    Object.assign(this, { waiting: new Map(), asked: 0, ready: "", again: async () => {}, timer: null });
    $("stop").onclick = () => this.restart("stopped");
  }

  launch() {
    this.worker = new Worker(new URL("../worker/worker.mjs", import.meta.url), { type: "module" });
    this.worker.onmessage = ({ data }) => this.take(data);
    this.worker.onerror = () => this.drop("the worker ended", "The page's worker could not be started.");
  }

  ask(op, given = {}, moved = []) {
    return new Promise((yes, no) => {
      const id = ++this.asked;
      this.waiting.set(id, { yes, no, op });
      if (this.waiting.size === 1) this.begin();
      this.worker.postMessage({ id, op, given }, moved);
    });
  }

  take({ id, value, error, progress, dead }) {
    if (progress) return this.tell(progress);
    const it = this.waiting.get(id);
    this.waiting.delete(id);
    if (!this.waiting.size) this.end();
    if (error) it?.no(Object.assign(new Error(error.message), error));
    else it?.yes(value);
    return dead ? this.restart("the module stopped") : undefined;
  }

  // Work that is done at once is not told of.
  begin() {
    this.since = performance.now();
    this.what = "works";
    this.timer = setInterval(() => this.show(), PATIENCE);
  }
  end() {
    clearInterval(this.timer);
    $("work").className = "";
    $("stop").hidden = $("progress").hidden = true;
    $("status").textContent = this.ready;
  }
  tell({ what, done, of }) {
    Object.assign(this, { what, share: of ? done / of : null });
    if (performance.now() - this.since > PATIENCE) this.show();
  }
  show() {
    const seconds = (performance.now() - this.since) / 1000;
    $("work").className = "busy";
    $("stop").hidden = $("progress").hidden = false;
    $("status").textContent = `${this.what}…${seconds < 1 ? "" : ` ${Math.round(seconds)} s`}`;
    if (this.share === null || this.share === undefined) $("progress").removeAttribute("value");
    else $("progress").value = this.share;
  }

  // What was asked has no answer any more.
  drop(why, says = "") {
    this.worker.terminate();
    for (const { no } of this.waiting.values()) no(Object.assign(new Error(says || why), { stopped: !says }));
    this.waiting.clear();
    this.end();
    if (says) $("status").textContent = says;
  }

  async restart(why) {
    this.drop(why);
    this.launch();
    await this.again(why);
  }
}
