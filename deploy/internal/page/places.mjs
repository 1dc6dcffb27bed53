// Places and comments of items in the text of a bundle (docs/LANGUAGE.md).

// A comment, a string, a sign that parts items, or a word. What isn't closed reaches to the end of the text, so that no text is read twice.
const TOKENS = /\/\/[^\n]*|\/\*[^]*?(?:\*\/|$)|"(?:[^"\\]|\\[^]?)*(?:"|$)|[{}:,]|[^\s{}:,"]+/g;

const DEEPEST = 64; // levels of a bundle

/** Returns a path as one text, in which each key ends in a NUL. No key has one. */
export const pathOf = (keys) => keys.map((key) => key + "\0").join("");

class Reader {
  items = new Map();
  #open = []; // the items around the current token
  #words = null; // texts side by side: a key, a value, or an item of an array
  #type = null;
  #notes = []; // comments before the next item
  #last = null; // the item that ended last, and where

  take(text, token, at) {
    if (/^\/[/*]/.test(token)) {
      const isBehind = this.#last !== null && !text.slice(this.#last.end, at).includes("\n");
      (isBehind ? this.#last.notes : this.#notes).push(token.replace(/^\/[/*]+ ?|\s*\*+\/$/g, "").replace(/\n\s*\*? ?/g, "\n").trim());
    } else if (token === "{") this.#begin(at);
    else if (token === "}") this.#end(at);
    else if (token === ",") this.#element(at);
    else if (token === ":") this.#type = "";
    else if (this.#type === "") this.#type = token;
    else this.#word(token, at);
  }

  // The value of a string that is alone is between its quotes.
  #word(token, at) {
    const end = at + token.length, isString = token.length > 1 && token[0] === '"' && token.endsWith('"');
    if (this.#words !== null) Object.assign(this.#words, { from: this.#words.at, to: end });
    else if (isString) this.#words = { key: token.slice(1, -1), at, from: at + 1, to: end - 1 };
    else this.#words = { key: token, at, from: at, to: end };
    this.#last = null;
  }

  #add(path, from, to) {
    const item = { path, at: this.#words?.at ?? from, from, to, notes: this.#notes, length: 0, isList: this.#type === "array" };
    this.items.set(path, item);
    this.#notes = [];
    this.#words = this.#type = null;
    return item;
  }

  #begin(at) {
    const inside = this.#open.at(-1);
    const key = this.#words?.key ?? (inside === undefined ? "" : inside.length++);
    const path = inside === undefined ? "" : this.#open.length > DEEPEST ? inside.path : inside.path + key + "\0";
    this.#open.push(this.#add(path, at + 1, Infinity));
    this.#last = null;
  }

  // Ends a text that is an item of an array. The comments of the array are for the first one.
  #element(at) {
    const inside = this.#open.at(-1), words = this.#words;
    if (inside === undefined || words === null) return;
    if (inside.length === 0) this.#notes.unshift(...inside.notes);
    this.#last = Object.assign(this.#add(inside.path + inside.length++ + "\0", words.from, words.to), { end: at });
  }

  #end(at) {
    const item = this.#open.at(-1);
    if (item === undefined) return;
    item.isList ||= item.length > 0;
    if (item.isList) this.#element(at);
    if (this.#words === null) item.to = at;
    else Object.assign(item, { from: this.#words.from, to: this.#words.to, notes: [...item.notes, ...this.#notes] });
    this.#words = this.#type = null;
    this.#notes = [];
    this.#last = Object.assign(this.#open.pop(), { end: at });
  }
}

/**
 * Returns the items of a text in its order, by their paths: where each begins (`at`), where its value is (`from`, `to`) without the quotes or braces
 * around it, its comments (`notes`), and whether it is an array with items (`isList`). The bundle's path is "".
 */
export const itemsIn = (text) => {
  const reader = new Reader();
  for (const { 0: token, index } of text.matchAll(TOKENS)) reader.take(text, token, index);
  return reader.items;
};

/** Returns the values of a text by their paths, as they are written. */
export const valuesIn = (text) => {
  const items = [...itemsIn(text)].filter(([path], i, all) => path !== "" && !all[i + 1]?.[0].startsWith(path)); // items follow what they are in
  return new Map(items.map(([path, { from, to }]) => [path, text.slice(from, to)]));
};

// Returns true for a token that the end of the text cuts off.
const isCut = (token) => {
  if (token.startsWith("/*")) return token.length < 4 || !token.endsWith("*/");
  let quote = token.length - 1;
  while (token[quote - 1] === "\\") quote--;
  return token[0] === '"' && (quote === 0 || !token.endsWith('"') || (token.length - quote) % 2 === 0);
};

// Returns where the quote, the comment or else the innermost brace begins that isn't closed at the end of a text, or -1.
const openIn = (text) => {
  for (const { 0: token, index } of text.matchAll(TOKENS)) {
    if (index + token.length === text.length && isCut(token)) return index;
  }
  return [...itemsIn(text).values()].filter(({ to }) => to === Infinity).at(-1)?.at ?? -1;
};

// The errors that are noticed behind their cause, with the warnings about that.
const BRACES = ["missing-close-brace", "missing-open-brace"];
const CAUSES = { OpenQuote: ["open-quote"], OpenComment: [], Unexpected: BRACES, TrailingText: BRACES };

/** Returns an error of a text, or one at the line where the quote, comment or brace was opened first that isn't closed. */
export const ledBack = (error, warnings, text) => {
  const rules = CAUSES[error.code] ?? [], warning = warnings.find(({ rule }) => rules.includes(rule));
  const open = openIn(text), before = text.slice(0, open).split("\n");
  let { line, column } = error;
  if (warning !== undefined) [line, column] = [Number(/opens in line (\d+)/.exec(warning.message)?.[1] ?? warning.line), warning.column];
  else if (open >= 0 && error.code in CAUSES && text.split("\n").length === line) [line, column] = [before.length, before.at(-1).length + 1];
  return line < error.line ? { ...error, line, column, message: [error.message, `noticed in line ${error.line}`].filter(Boolean).join("; ") } : error;
};

const quoted = (key) => (/^[\w-]+$/.test(key) ? key : `"${key.replace(/["\\]/g, "\\$&")}"`);

/**
 * Returns what must be inserted into a text, and where (`at`), so that it has an item, and where the item's value is then (`from`, `to`). Nothing is
 * inserted into an array.
 */
export const placeOf = (text, keys) => {
  const items = itemsIn(text);
  let n = keys.length;
  while (n > 0 && !items.has(pathOf(keys.slice(0, n)))) n--;
  const { from = 0, to = 0, isList = true } = items.get(pathOf(keys.slice(0, n))) ?? {};
  const lacking = keys.slice(n), end = Math.min(to, text.length);
  if (n === keys.length) return { at: from, insert: "", from, to: end };
  if (isList || lacking.some((key) => /^\d+$/.test(key))) return { at: end, insert: "", from: end, to: end };
  const line = text.lastIndexOf("\n", end - 1) + 1, indent = text.slice(line, end), isOnOwnLine = line > from && indent.trim() === "";
  const begin = (isOnOwnLine ? indent + "    " : text[end - 1] === " " ? "" : " ") + lacking.map((key) => quoted(key) + " { ").join("") + '"';
  const at = isOnOwnLine ? line : end, value = at + begin.length;
  return { at, insert: `${begin}"${" }".repeat(lacking.length)}${isOnOwnLine ? "\n" : " "}`, from: value, to: value };
};
