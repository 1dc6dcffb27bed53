// The text that is edited: its lines have numbers, and marks where something is wrong.
import { at, make, visible } from "./show.mjs";

const text = at("text"), numbers = at("numbers");
let marks = new Map(); // "bad" or "warn", by line
let total = 1;

const rowHeight = () => parseFloat(getComputedStyle(text).lineHeight) || 20;

// Shows the numbers of the lines that are visible, since a text may have very many.
const drawNumbers = () => {
  const height = rowHeight();
  const first = Math.floor(text.scrollTop / height);
  const count = Math.min(total - first, Math.ceil(text.clientHeight / height) + 2);
  numbers.replaceChildren(...Array.from({ length: Math.max(count, 0) }, (_, i) => {
    const line = first + i + 1, kind = marks.get(line) ?? "";
    return make("div", { className: kind, textContent: String(line) });
  }));
  numbers.style.transform = `translateY(${first * height - text.scrollTop}px)`;
};

const countLines = () => {
  total = 1;
  for (let i = text.value.indexOf("\n"); i >= 0; i = text.value.indexOf("\n", i + 1)) total++;
};

/** Selects a part of the text, and scrolls there. */
export const select = (from, to) => {
  text.focus();
  text.setSelectionRange(from, to);
  const line = text.value.slice(0, from).split("\n").length;
  text.scrollTop = Math.max(0, (line - 1) * rowHeight() - text.clientHeight / 2);
};

const goTo = (line, column) => {
  const offset = text.value.split("\n", line - 1).reduce((sum, { length }) => sum + length + 1, column - 1);
  select(offset, offset);
};

/** Returns what an error or a warning says. */
export const meaningOf = (finding) => [finding.code ?? finding.rule, finding.message].filter(Boolean).join(": ");

const buttonOf = (finding, kind) => {
  const button = make("button", { type: "button", className: kind }, ...visible(`Line ${finding.line ?? 1}: ${meaningOf(finding)}`));
  button.addEventListener("click", () => goTo(finding.line ?? 1, finding.column ?? 1));
  return make("li", {}, button);
};

/** Shows the errors and warnings of the text. */
export const showFindings = ({ errors, warnings }) => {
  marks = new Map();
  warnings.forEach(({ line }) => marks.set(line ?? 1, "warn"));
  errors.forEach(({ line }) => marks.set(line ?? 1, "bad"));
  text.setAttribute("aria-invalid", String(errors.length > 0));
  at("findings").replaceChildren(...errors.map((one) => buttonOf(one, "bad")), ...warnings.map((one) => buttonOf(one, "warn")));
  drawNumbers();
};

/** Replaces the text. */
export const setText = (value) => {
  text.value = value;
  text.scrollTop = 0;
  text.setSelectionRange(0, 0);
  changed();
};

const changed = () => {
  countLines();
  drawNumbers();
};

text.addEventListener("input", changed);
text.addEventListener("scroll", drawNumbers);
new ResizeObserver(drawNumbers).observe(text);
