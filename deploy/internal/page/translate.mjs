// The view in which the texts of a bundle are translated.
import { at, counted, make, say, tableOf } from "./show.mjs";
import { itemsOf, sideBySide, withText } from "./tree.mjs";
import { itemsIn } from "./places.mjs";
import { Row, checkNow, checkSoon } from "./row.mjs";
import { confirmed, settle } from "./ask.mjs";
import { threeOf } from "./difference.mjs";

const PAGE = 100; // rows that are shown at a time

// The open pair: {gateway, source, target, trees, tag, rows, before, ..}. `before` has the items with which the filter "changed" compares.
let view = null;
let list = [], page = 0, asked = 0;

const FILTERS = {
  all: () => true,
  missing: (row) => row.state === "missing",
  warned: (row) => row.faults.length > 0,
  changed: ({ key, from, to }) => [from, to].some((item, i) => item?.value !== view.before[i].get(key)?.value),
};

/** Shows the texts of two bundles side by side. A function is called with the locale and the keys of an item that is to be edited in the text. */
export const translate = async (gateway, editItem) => {
  const mine = ++asked;
  const [source, target] = [at("source").value.trim(), at("target").value.trim()];
  const [from, to, { text }] = [await gateway.tree(source), await gateway.tree(target), await gateway.text(source)];
  if (mine !== asked) return;
  view = { gateway, source, target, editItem, afterCheck, trees: [from.tree, to.tree], tag: to.tag };
  view.titles = ["Path", `Source (${source})`, `Translation (${target})`];
  view.before = view.trees.map((tree) => itemsOf(tree ?? {}));
  view.rows = inOrder(itemsIn(text ?? "")).map((row, n) => new Row(view, row, n));
  at("since").value = "";
  draw();
  checkSoon(view.rows);
};

// Returns the items with their comments, in the order of the source.
const inOrder = (items) => {
  const order = new Map([...items.keys()].map((key, i) => [key, i]));
  const rows = sideBySide(...view.trees).map((row) => ({ ...row, notes: items.get(row.key)?.notes ?? [] }));
  return rows.sort((a, b) => (order.get(a.key) ?? order.size) - (order.get(b.key) ?? order.size));
};

// Chooses the rows again, unless somebody works in one of them.
const afterCheck = () => {
  if (at("filter").value === "warned" && !at("both").contains(document.activeElement)) draw();
};

// Chooses the rows, and shows the first page of them.
const draw = () => {
  if (view === null) return;
  const words = at("search").value.toLowerCase(), fits = FILTERS[at("filter").value];
  list = view.rows.filter((row) => fits(row) && `${row.path}\n${row.from?.value ?? ""}\n${row.text}`.toLowerCase().includes(words));
  drawPage(0);
  count();
};

const drawPage = (number) => {
  page = number;
  view.rows.forEach((row) => { row.tr = null; });
  const rows = list.slice(page * PAGE, (page + 1) * PAGE);
  at("both").replaceChildren(rows.length === 0 ? make("p", { textContent: "There are no such rows." }) : tableOf(`${view.source} and ${view.target}`, view.titles, rows.map((row) => row.draw(ACTIONS))));
  at("pages").hidden = list.length <= PAGE;
  at("earlier").disabled = page === 0;
  at("later").disabled = (page + 1) * PAGE >= list.length;
  at("page").textContent = `Rows ${page * PAGE + 1} to ${page * PAGE + rows.length} of ${list.length}`;
};

const count = (saved = "") => {
  const { rows, source, target, trees } = view;
  const n = (state) => rows.filter((row) => row.state === state).length, drafts = rows.filter(({ draft }) => draft !== null).length;
  const absent = [source, target].filter((_, i) => trees[i] === null).map((name) => `${name} isn't installed. `).join("");
  say(at("counted"), n("missing") > 0 || absent !== "" ? "warn" : "good",
    `${saved}${absent}Missing in ${target}: ${n("missing")} of ${counted(rows.length - n("extra"), "item")}. Equal texts: ${n("same")}. ` +
    `Only in ${target}: ${n("extra")}.${drafts > 0 ? ` Not saved: ${drafts}.` : ""}`);
};

// Puts the cursor into a row, which may be on another page.
const go = (row) => {
  const number = Math.floor(list.indexOf(row) / PAGE);
  if (number !== page) drawPage(number);
  row.tr.scrollIntoView({ block: "nearest" });
  row.tr.querySelector("textarea, .buttons > :not([hidden])").focus();
};

/** Puts the cursor into the row of an item. */
export const goTo = (key) => {
  const row = view?.rows.find((one) => one.key === key);
  if (row === undefined) return;
  at("filter").value = "all";
  at("search").value = "";
  draw();
  go(row);
};

const step = (row, by) => {
  const next = list[list.indexOf(row) + by];
  if (next !== undefined) go(next);
};

const saveAndNext = async (row) => {
  row.failure = "";
  const wasDraft = row.draft !== null;
  const isSaved = await mayBreak(row) && await save(row).catch((error) => { row.failure = "Not saved: " + error.message; });
  row.isSaved ||= isSaved && wasDraft;
  row.update();
  const saved = isSaved && wasDraft ? `${row.path} is saved. ` : "";
  count(saved);
  if (!isSaved || !row.tr?.contains(document.activeElement)) return;
  const i = list.indexOf(row), next = [...list.slice(i + 1), ...list.slice(0, i)].find(({ isOpen }) => isOpen);
  if (next !== undefined) go(next);
  else say(at("counted"), "good", saved + "None of the other rows is missing or wrong.");
};

// Returns false if a text is to stay unsaved because of its errors.
const mayBreak = async (row) => {
  if (row.draft === null) return true;
  await checkNow();
  return row.errors.length === 0 || confirmed(`${row.path}: ${row.errors.join(" ")}`, "Save it with the error");
};

// Saves the text of a row, and returns whether it did. Another's change of the text is never replaced without a question.
const save = async (row) => {
  const { view: of, draft, keys } = row, theirs = row.to?.value ?? null;
  if (draft === null) return true;
  const { text, was } = draft;
  if (theirs !== was && theirs !== text) {
    const answer = await settle(of.gateway, of.target, row.path, threeOf([{ path: null, texts: [was, theirs, text] }], of.target));
    if (answer !== "no") row.keep(answer === "yes" ? { text, was: theirs } : null);
    return answer !== "no" && save(row);
  }
  try {
    if (of.tag === null) of.tag = (await of.gateway.put(of.target, `"${of.target}"{}`, null)).tag;
    of.tag = await of.gateway.patch(of.target, withText(of.trees[1] ?? {}, of.trees[0] ?? {}, keys, text, false), of.tag);
  } catch (error) {
    if (error.status !== 412) throw error;
    await readAgain(of);
    return save(row);
  }
  of.trees[1] = withText(of.trees[1] ?? {}, of.trees[0] ?? {}, keys, text, true);
  row.to = { path: row.path, value: text, isText: true };
  row.keep(row.text === text ? null : { text: row.text, was: text }); // what was typed meanwhile isn't saved
  return true;
};

// Reads a translation that another changed.
const readAgain = async (of) => {
  const { tree, tag } = await of.gateway.tree(of.target), items = itemsOf(tree ?? {});
  Object.assign(of, { trees: [of.trees[0], tree], tag });
  for (const row of of.rows) {
    row.to = items.get(row.key) ?? null;
    row.update();
  }
};

const ACTIONS = {
  save: saveAndNext,
  edit: ({ view: { target, editItem }, keys }) => editItem(target, keys),
  discard: (row) => {
    row.write(row.stored);
    row.field.focus(); // the button is hidden
    count();
  },
  key: (row, event) => {
    const by = event.altKey ? { ArrowUp: -1, ArrowDown: 1 }[event.key] : undefined;
    if (by !== undefined) step(row, by);
    else if (event.key === "Enter" && (event.ctrlKey || event.metaKey)) saveAndNext(row);
    else return;
    event.preventDefault();
  },
};

// Sets the day with which the filter "changed" compares, or none for when the bundles were opened.
const setBefore = async () => {
  const mine = view, day = at("since").value;
  if (view === null) return;
  const time = new Date(day + "T00:00").getTime(), { gateway, source, target, trees } = view;
  const before = day === "" ? trees : [await gateway.treeBefore(source, time), await gateway.treeBefore(target, time)];
  if (view !== mine || at("since").value !== day) return;
  view.before = before.map((tree) => itemsOf(tree ?? {}));
  at("filter").value = "changed";
  draw();
};

at("search").addEventListener("input", draw);
at("filter").addEventListener("change", draw);
at("since").addEventListener("change", () => setBefore().catch((error) => say(at("counted"), "bad", error.message)));
at("earlier").addEventListener("click", () => go(list[(page - 1) * PAGE]));
at("later").addEventListener("click", () => go(list[(page + 1) * PAGE]));
