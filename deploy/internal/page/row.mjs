// A row of the view in which texts are translated: its field, and what is wrong in it.
import { make, putValue, rowOf, visible } from "./show.mjs";
import { argumentsOf, categoriesOf, directionOf, languageOf, otherArguments } from "./language.mjs";
import { stateOf } from "./tree.mjs";
import { meaningOf } from "./editor.mjs";
import * as drafts from "./drafts.mjs";

const PAUSE = 400; // milliseconds without typing until a text is checked
const MOST_IN_FIELD = 20000;
const NOT_IN_FIELD = /[\u0000-\u0008\u000b-\u001f\u007f-\u009f]/; // a field would change or hide them
const STATES = { missing: "missing", extra: "no source", same: "as the source", "": "" };

const escaped = (text) => text.replace(/["\\]/g, "\\$&").replaceAll("\n", "\\n").replaceAll("\t", "\\t")
  .replace(/[\u0000-\u001f\u007f-\u009f\u2028\u2029\ufeff\u202a-\u202e\u2066-\u2069]/g, (unit) => "\\u" + unit.charCodeAt(0).toString(16).padStart(4, "0"));

/**
 * An item of the source, the translation, or both. Its draft is {text, was}: what isn't saved yet, and what it replaces, or null if that is nothing.
 * Drafts outlive a closed tab.
 */
export class Row {
  findings = []; // of the gateway, about the text
  failure = ""; // why the text isn't saved
  isSaved = false; // since it was opened
  tr = null;

  constructor(view, item, n) {
    Object.assign(this, item, { view, n });
    this.keys = item.key.slice(0, -1).split("\0");
    this.name = drafts.nameOf(view.gateway.app, view.target, item.key);
    this.draft = drafts.stored(this.name);
    this.isField = item.from?.isText !== false && item.to?.isText !== false && !NOT_IN_FIELD.test(this.stored) && this.stored.length <= MOST_IN_FIELD;
  }

  get stored() { return this.to?.value ?? ""; }

  get text() { return this.draft?.text ?? this.stored; }

  get state() { return stateOf(this.from, this.to); }

  /** What is wrong with the text. */
  get faults() {
    const others = this.from?.isText && this.text !== "" ? otherArguments(this.from.value, this.text) : [];
    return [...others, ...this.findings.map(meaningOf)];
  }

  /** What makes the text unusable: it can't be installed, or not be formatted. */
  get errors() { return this.findings.filter(({ code, rule }) => code !== undefined || rule === "bad-message").map(meaningOf); }

  /** Whether a translator has to do something here. */
  get isOpen() { return this.isField && (this.state === "missing" || this.draft !== null || this.faults.length > 0); }

  /** Takes what is typed. */
  write(text) {
    this.failure = "";
    this.keep(text === this.stored ? null : { text, was: this.draft ? this.draft.was : (this.to?.value ?? null) });
    this.update();
    checkSoon([this]);
  }

  /** Sets the draft. */
  keep(draft) {
    this.draft = draft;
    if (!drafts.keep(this.name, draft)) this.failure = "This browser doesn't store unsaved texts: save before you close the tab.";
  }

  /** Draws the row. Some functions are called with it when a translator saves, discards or edits, or presses a key. */
  draw(actions) {
    const { source, target, titles } = this.view;
    const place = make("th", { scope: "row", className: "place", dir: "auto" }, ...visible(this.path));
    const from = make("td", { id: "from-" + this.n }), to = make("td");
    if (this.from === null) from.textContent = "—";
    else from.append(putValue(make("div"), this.from.value, this.from.isText ? source : undefined), ...this.drawNotes());
    this.found = make("ul", { id: "found-" + this.n, className: "found", "aria-live": "polite" });
    const button = (text, does) => {
      const made = make("button", { type: "button", textContent: text, "aria-label": `${text} ${this.path}` });
      made.addEventListener("click", () => does(this));
      return made;
    };
    this.buttons = [button("Save and next", actions.save), button("Discard", actions.discard)];
    this.word = make("span");
    this.field = this.isField ? this.drawField(target, actions) : putValue(make("div"), this.to?.value ?? "—", this.to?.isText ? target : undefined);
    to.append(this.field, this.found, make("div", { className: "buttons" }, ...this.buttons, button("Edit", actions.edit), this.word));
    this.tr = rowOf(titles, place, from, to);
    this.update();
    return this.tr;
  }

  drawField(locale, actions) {
    const field = make("textarea", {
      value: this.text, rows: 1, lang: languageOf(locale), dir: directionOf(locale),
      "aria-label": `Translation of ${this.path}`, "aria-describedby": `from-${this.n} found-${this.n}`,
    });
    field.addEventListener("input", () => this.write(field.value));
    field.addEventListener("keydown", (event) => actions.key(this, event));
    return field;
  }

  // Shows the comments of the source, the arguments of the message, and which plural forms the translation needs.
  drawNotes() {
    const made = this.notes.map((note) => make("p", { className: "note", dir: "auto" }, ...visible(note)));
    for (const [name, type] of this.from.isText ? argumentsOf(this.from.value) : []) {
      const forms = type === "plural" || type === "selectordinal" ? categoriesOf(this.view.target, type) : [];
      const text = `{${name}${type && ", " + type}}${forms.length > 0 ? `: ${forms.join(", ")} in ${this.view.target}` : ""}`;
      made.push(make("p", { className: "note argument", dir: "ltr" }, ...visible(text)));
    }
    return made;
  }

  /** Shows what changed. */
  update() {
    if (this.tr === null) return;
    if (this.isField && this.field.value !== this.text) this.field.value = this.text;
    const errors = [this.failure, ...this.errors].filter(Boolean), isBad = errors.length > 0;
    const shown = [...errors.map((text) => ["bad", text]), ...this.faults.filter((text) => !errors.includes(text)).map((text) => ["warn", text])];
    this.found.replaceChildren(...shown.map(([className, text]) => make("li", { className, dir: "auto" }, ...visible(text))));
    this.buttons.forEach((button) => { button.hidden = this.draft === null; });
    this.word.textContent = this.draft !== null ? "not saved" : STATES[this.state] || (this.isSaved ? "saved" : "");
    this.tr.classList.toggle("missing", this.state === "missing");
    if (this.isField) this.field.setAttribute("aria-invalid", String(isBad));
  }
}

// The lines of a text in which a row's item is, after the comments of its source.
const linesOf = (row) => [...row.notes.flatMap((note) => note.split("\n")).map((note) => "// " + note), `k${row.n}{"${escaped(row.text)}"}`];

const waiting = new Set();
let timer = 0, checks = Promise.resolve();

/** Checks the texts of rows after a pause, in one request after the other. */
export const checkSoon = (rows) => {
  rows.forEach((row) => waiting.add(row));
  clearTimeout(timer);
  timer = setTimeout(checkNow, PAUSE);
};

/** Checks the texts that wait, and returns when all are checked. */
export const checkNow = () => checks = checks.then(check);

// Checks a text that has an item for each row that waits, so that the line of a finding names its row.
const check = async () => {
  const rows = [...waiting], { view } = rows.at(-1) ?? {};
  if (rows.length === 0) return;
  waiting.clear();
  rows.forEach((row) => { row.findings = []; });
  const lines = rows.flatMap((row) => (row.text === "" ? [] : linesOf(row).map((line) => [line, row])));
  try {
    const found = await view.gateway.check(view.target, `"${view.target}"{\n${lines.map(([line]) => line).join("\n")}\n}\n`);
    for (const finding of [...found.errors, ...found.warnings]) lines[finding.line - 2]?.[1].findings.push(finding);
  } catch (error) {
    rows.forEach((row) => { row.failure = "Not checked: " + error.message; });
  }
  rows.forEach((row) => row.update());
  view.afterCheck();
};
