// Shows the difference of two texts.
import { beginning, counted, make, putValue, rowOf, tableOf, visible } from "./show.mjs";
import { compareLines } from "./lines.mjs";

const CONTEXT = 3; // unchanged lines around a change
const MOST_ROWS = 2000;
const MOST_IN_LINE = 5000;

/** Puts the difference of two texts into an element, under a heading that gets the focus. Returns how many lines differ. */
export const showDifference = (into, title, before, after) => {
  const lines = compareLines(before, after);
  const gone = lines.filter(({ sign }) => sign === "-").length, come = lines.filter(({ sign }) => sign === "+").length;
  const count = make("p", { textContent: gone + come === 0 ? "No line differs." : `${counted(gone, "line")} less, ${come} more.` });
  put(into, title, count, ...(gone + come > 0 ? [rowsOf(lines)] : []));
  return gone + come;
};

/** Puts the items that differ between two texts into an element, under a heading that gets the focus, and below them the lines that differ. */
export const showItems = (into, title, items, before, after) => {
  const titles = ["Item", "Then", "Now"], lines = make("div");
  const valueOf = (value) => putValue(make("td"), value === undefined ? "—" : typeof value === "string" ? value : JSON.stringify(value));
  const rows = items.slice(0, MOST_ROWS).map((item) => rowOf(titles,
    make("th", { scope: "row", className: "place", dir: "auto" }, ...visible(item.path)), valueOf(item.old), valueOf(item.new)));
  showDifference(lines, "Lines of the texts", before, after);
  const some = rows.length < items.length ? `, the first ${MOST_ROWS} below` : "";
  const count = items.length === 0 ? "No item differs." : `${counted(items.length, "item")} changed${some}.`;
  put(into, title, make("p", { textContent: count }), ...(rows.length > 0 ? [tableOf("Changed items", titles, rows)] : []),
    make("details", {}, make("summary", { textContent: "Show the lines" }), lines));
};

/**
 * Makes a table of items that two people changed, each as {path, texts}: its texts when it was opened, of another, and of the reader. A path that is
 * null isn't shown.
 */
export const threeOf = (items, locale) => {
  const titles = [...(items[0]?.path === null ? [] : ["Item"]), "When you opened it", "Theirs", "Mine"];
  return tableOf("The texts", titles, items.slice(0, MOST_ROWS).map(({ path, texts }) => {
    const head = path === null ? [] : [make("th", { scope: "row", className: "place", dir: "auto" }, ...visible(path))];
    return rowOf(titles, ...head, ...texts.map((text) => putValue(make("td"), text ?? "— (nothing)", locale)));
  }));
};

const put = (into, title, ...elements) => {
  const heading = make("h3", { tabIndex: -1, textContent: title });
  into.replaceChildren(heading, ...elements);
  heading.focus();
};

const rowsOf = (lines) => {
  const shown = make("div", { className: "lines" });
  const near = nearChanges(lines);
  let skipped = 0, rows = 0;
  const skip = () => {
    if (skipped > 0) shown.append(make("div", { className: "skipped", textContent: `… ${skipped} equal lines` }));
    skipped = 0;
  };
  for (let i = 0; i < lines.length && rows < MOST_ROWS; i++) {
    if (!near[i]) {
      skipped++;
      continue;
    }
    skip();
    shown.append(lineOf(lines[i]));
    rows++;
  }
  skip();
  if (rows === MOST_ROWS) shown.append(make("div", { className: "skipped", textContent: "… and more" }));
  return shown;
};

// Returns for each line whether it is a change or close to one.
const nearChanges = (lines) => {
  const near = new Uint8Array(lines.length);
  lines.forEach(({ sign }, i) => {
    if (sign !== " ") near.fill(1, Math.max(0, i - CONTEXT), i + CONTEXT + 1);
  });
  return near;
};

const lineOf = ({ sign, old, now, text }) => {
  const code = make("code", { dir: "auto" }, ...visible(beginning(text, MOST_IN_LINE)));
  if (text.length > MOST_IN_LINE) code.append(` … ${text.length} characters`);
  const spoken = { "-": "removed", "+": "added" }[sign];
  return make("div", { className: { "-": "gone", "+": "new" }[sign] ?? "" },
    make("span", { textContent: old || "" }), make("span", { textContent: now || "" }),
    make("b", { textContent: sign === "-" ? "−" : sign, title: spoken ?? "" }), code);
};
