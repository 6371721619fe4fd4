// Elements of the page, made and found.

export const $ = (id) => document.getElementById(id);

/** An element, with properties or attributes, and what is in it. */
export function make(name, words = {}, ...children) {
  const it = document.createElement(name);
  for (const [key, word] of Object.entries(words)) {
    if (key in it && !key.startsWith("aria") && key !== "role"
      && typeof word !== "undefined") it[key] = word;
    else it.setAttribute(key, word);
  }
  it.append(...children);
  return it;
}

const NS = "http://www.w3.org/2000/svg";
/** The same of a picture. */
export function svg(name, words, ...children) {
  const it = document.createElementNS(NS, name);
  for (const [key, word] of Object.entries(words)) it.setAttribute(key, word);
  it.append(...children);
  return it;
}

/** Shows what is wrong at a place of the page, or nothing. */
export function fail(id, text = "") {
  $(id).hidden = !text;
  $(id).textContent = text;
}

/** Selects a stretch of a text area and scrolls to it. */
export function selectText(area, from, to) {
  area.focus();
  area.setSelectionRange(from, to);
  const lines = area.value.slice(0, from).split("\n").length;
  area.scrollTop = Math.max(0, (lines - 3) * parseFloat(getComputedStyle(area).lineHeight));
}

/** A table of a head and of rows of cells. */
export function table(head, rows) {
  const cells = (name, row) => row.map((it) => make(name,
    typeof it === "string" ? { textContent: it } : it));
  return make("table", {}, make("thead", {}, make("tr", {}, ...cells("th", head))),
    make("tbody", {}, ...rows.map(({ className = "", cells: row }) => make("tr", { className },
      ...cells("td", row)))));
}

/** Puts a text into the clipboard, and says so. */
export async function copy(text, says = "copied") {
  try {
    await navigator.clipboard.writeText(text);
  } catch {
    const area = make("textarea", { value: text });
    document.body.append(area);
    area.select();
    document.execCommand("copy");
    area.remove();
  }
  $("copied").textContent = says;
  setTimeout(() => ($("copied").textContent = ""), 2500);
}
