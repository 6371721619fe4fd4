// What the tests do inside the page: browser.py puts it there as `inside`.
window.inside = (() => {
  const all = (selector) => [...document.querySelectorAll(selector)];
  const row = (path) => all("#parts tr[data-path]").find((it) => it.dataset.path === path) ?? null;
  const hex = (bytes) => [...bytes].map((it) => it.toString(16).padStart(2, "0")).join("");

  // Relative luminance and contrast, as WCAG has them.
  const channels = (text) => text.match(/[\d.]+/g).map(Number);
  const linear = (v) => (v <= 0.03928 ? v / 12.92 : ((v + 0.055) / 1.055) ** 2.4);
  const light = ([r, g, b]) => 0.2126 * linear(r / 255) + 0.7152 * linear(g / 255) + 0.0722 * linear(b / 255);
  function ground(it) {
    for (; it; it = it.parentElement) {
      const own = channels(getComputedStyle(it).backgroundColor);
      if ((own[3] ?? 1) > 0) return own;
    }
    return [255, 255, 255];
  }
  function contrast(it) {
    const [one, other] = [channels(getComputedStyle(it).color), ground(it)].map(light);
    return (Math.max(one, other) + 0.05) / (Math.min(one, other) + 0.05);
  }
  const hasText = (it) => [...it.childNodes].some((own) => own.nodeType === 3 && own.data.trim());
  const isSeen = (it) => !it.disabled && it.offsetParent && !it.closest("svg");

  return {
    row,
    cells: (path) => [...row(path).cells].map((it) => it.textContent),
    prove: (path) => row(path).querySelector("input").click(),
    fill(name, text) {
      const it = document.getElementById(name);
      it.value = text;
      it.dispatchEvent(new Event("input"));
    },
    ask: (op, given, done) => explorer.ask(op, given).then(done, (why) => done({ error: why.message })),
    whole: (done) => explorer.ask("whole").then((it) => done(hex(it))),
    // The milliseconds of the root of the value, made so many times.
    again: async (times, done) => done((await explorer.ask("measure", { times })).took),
    // A drawn value's root and bytes.
    drawn: async (name, seed, done) => {
      const it = await explorer.ask("random", { name, seed });
      done([it.root, it.hex ?? hex(await explorer.ask("whole"))]);
    },
    selectedText(name) {
      const it = document.getElementById(name);
      return it.value.slice(it.selectionStart, it.selectionEnd);
    },
    marked() {
      const at = all("#hex .part").map((it) => Number(it.dataset.at));
      return [at[0], at.at(-1)];
    },
    nodes: () => all("#nodes tbody tr").map((it) => [...it.cells].map((own) => own.textContent)),
    // How long the page does not answer at the most.
    watch() {
      let last = performance.now();
      window.longest = 0;
      setInterval(() => {
        const now = performance.now();
        longest = Math.max(longest, now - last);
        last = now;
      }, 10);
    },
    // Texts that stand out too little from their ground, and controls without a name.
    faint: () => all("body *").filter((it) => isSeen(it) && hasText(it) && contrast(it) < 4.5)
      .map((it) => `${it.tagName} ${it.id} ${it.className} ${it.textContent.slice(0, 20)} ${contrast(it).toFixed(2)}`),
    nameless: () => all("button, input:not([type=file]), select, textarea, [role=grid], [role=treegrid]")
      .filter((it) => !it.labels?.length && !it.getAttribute("aria-label") && !it.getAttribute("aria-labelledby"))
      .filter((it) => !it.textContent.trim()).map((it) => it.outerHTML.slice(0, 90)),
  };
})();
