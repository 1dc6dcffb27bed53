// Elements of the page. Every value becomes text, never markup.
import { directionOf, languageOf } from "./language.mjs";

/** Returns the element with an id. */
export const at = (id) => document.getElementById(id);

/** Makes an element with properties and children. Names with a hyphen, and roles, are attributes. */
export const make = (name, given = {}, ...children) => {
  const element = document.createElement(name);
  for (const [key, value] of Object.entries(given)) {
    if (key.includes("-") || key === "role") element.setAttribute(key, value);
    else element[key] = value;
  }
  element.append(...children);
  return element;
};

// Control characters that aren't white space, and those that change the direction of what follows.
const CONTROLS = /[\u0000-\u0008\u000b-\u001f\u007f-\u009f\u202a-\u202e\u2066-\u2069]/g;

/** Returns a text as children of an element, with the code of each control character in its place. */
export const visible = (text) => {
  const parts = [];
  let end = 0;
  for (const { 0: control, index } of text.matchAll(CONTROLS)) {
    if (index > end) parts.push(text.slice(end, index));
    const code = "U+" + control.charCodeAt(0).toString(16).toUpperCase().padStart(4, "0");
    parts.push(make("span", { className: "control", textContent: code }));
    end = index + 1;
  }
  if (end < text.length) parts.push(text.slice(end));
  return parts;
};

/** The most characters of a value that are shown at first. */
export const MOST_SHOWN = 600;

/** Puts a value into an element. The end of a long one is shown on demand. */
export const putValue = (element, text, locale) => {
  element.dir = locale === undefined ? "auto" : directionOf(locale);
  if (locale !== undefined) element.lang = languageOf(locale);
  const begin = beginning(text, MOST_SHOWN);
  element.replaceChildren(...visible(begin));
  if (begin.length === text.length) return element;
  const all = make("button", { type: "button", textContent: `Show all ${text.length} characters`, dir: "ltr" });
  all.addEventListener("click", () => {
    element.tabIndex = -1;
    element.replaceChildren(...visible(text));
    element.focus(); // the button is gone
  });
  element.append("… ", all);
  return element;
};

/** Returns at most this many units of a text, and no half of a character. */
export const beginning = (text, most) => {
  if (text.length <= most) return text;
  const last = text.charCodeAt(most - 1);
  return text.slice(0, last >= 0xd800 && last < 0xdc00 ? most - 1 : most);
};

/** Makes a row of a table, whose cells name their columns where they are below one another. */
export const rowOf = (titles, ...cells) => {
  cells.forEach((cell, i) => {
    cell.setAttribute("role", cell.localName === "th" ? "rowheader" : "cell");
    cell.dataset.head = titles[i];
  });
  return make("tr", { role: "row" }, ...cells);
};

/** Makes a group of rows of a table. */
export const groupOf = (rows) => make("tbody", { role: "rowgroup" }, ...rows);

/** Makes a table, whose name is read aloud. It stays one for programs that read the page aloud, whatever a style displays. */
export const tableOf = (name, titles, ...groups) => {
  const heads = titles.map((title) => make("th", { role: "columnheader", scope: "col", dir: "auto" }, ...visible(title)));
  const head = make("thead", { role: "rowgroup" }, make("tr", { role: "row" }, ...heads));
  return make("table", { role: "table", "aria-label": name }, head, ...groups.map(groupOf));
};

/** Returns a number with what it counts. */
export const counted = (n, what) => `${n} ${what}${n === 1 ? "" : "s"}`;

/** Shows what happened: "good", "warn" or "bad". */
export const say = (element, kind, text) => {
  element.className = kind;
  element.replaceChildren(...visible(beginning(text, 10 * MOST_SHOWN)));
};
