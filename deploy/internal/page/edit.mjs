// The view in which a bundle's text is edited, checked, compared and installed.
import { at, counted, make, say } from "./show.mjs";
import { confirmed, settle } from "./ask.mjs";
import { meaningOf, select, setText, showFindings } from "./editor.mjs";
import { ledBack, placeOf, valuesIn } from "./places.mjs";
import { showDifference, threeOf } from "./difference.mjs";
import * as drafts from "./drafts.mjs";

const PAUSE = 400; // milliseconds without typing until a text is checked
const MOST_BYTES = 8 << 20;
const text = at("text");
const NOTHING = at("opened").textContent;

// The open text: its gateway, its locale, what was installed when it was opened, and its line ends.
let gateway = null, locale = "", opened = { text: null, tag: null }, ends = "\n", dirty = false;
let waiting = 0, checking = null, acts = false;
let opens = 0; // how often one was opened: an answer about an earlier one may come late

/** Returns the text with the line ends that it had when it was opened. */
const textNow = () => (ends === "\n" ? text.value : text.value.replaceAll("\n", ends));

/** Returns what is open as {app, locale}, or null. */
export const openNow = () => gateway && { app: gateway.app, locale };

/** Returns false if there are changes that their author wants to keep. */
export const mayLeave = async () => !dirty || confirmed(`Your text${locale && " of " + locale} isn't installed. Discard it?`, "Discard it");

// Stores the text if it isn't installed, with what was installed when it was opened. Returns false if a closed tab would lose it.
const keep = () => (gateway === null ? !dirty : drafts.keep(drafts.nameOf(gateway.app, locale), dirty ? { text: textNow(), opened } : null));

// Says what the text is, and what is installed where.
const name = (what) => {
  at("opened").textContent = gateway === null ? what : `${gateway.app}: ${what}`;
  at("install").textContent = gateway === null ? "Install" : `Install ${locale} in ${gateway.app}`;
};

const nameInstalled = () => name(opened.text === null ? `${locale} isn't installed yet.` : `${locale} as it is installed.`);

/** Opens the bundle of a locale. Returns false if another one is opened meanwhile. */
export const open = async (of, wanted) => {
  const mine = ++opens;
  text.readOnly = true; // what is typed until the text comes would be lost
  try {
    const found = await of.text(wanted);
    if (mine !== opens) return false;
    leave();
    gateway = of;
    locale = wanted;
    const draft = drafts.stored(drafts.nameOf(of.app, wanted));
    show(found);
    if (draft !== null && draft.text !== found.text) takeBack(draft);
  } finally {
    if (mine === opens) text.readOnly = false;
  }
  return true;
};

// Takes the text that was there when the tab was closed.
const takeBack = (draft) => {
  take(draft.text);
  opened = draft.opened;
  name(`${locale}, with your changes from before, which aren't installed.`);
  keep();
};

// Gives the open text up.
const leave = () => {
  dirty = false;
  keep();
};

/** Closes what is open, with its text. */
export const close = () => {
  opens++;
  leave();
  gateway = null;
  locale = "";
  text.readOnly = false;
  show({ text: null, tag: null });
};

/**
 * Opens a bundle, unless it is open with changes, and returns what selects the value of an item, which is inserted if it is missing. Returns null
 * if the text that is there is to stay.
 */
export const toItem = async (of, wanted, keys) => {
  const stays = dirty && gateway !== null && gateway.app === of.app && locale === wanted;
  if (!stays && (!(await mayLeave()) || !(await open(of, wanted)))) return null;
  return () => {
    if (text.value === "") text.value = `${locale} {\n}\n`;
    const { at: place, insert, from, to } = placeOf(text.value, keys);
    if (insert !== "") text.setRangeText(insert, place, place);
    if (insert !== "") text.dispatchEvent(new Event("input"));
    select(from, to);
  };
};

const show = (found) => {
  opened = found;
  at("edit-diff").replaceChildren();
  take(found.text ?? "");
  leave();
  if (gateway === null) name(NOTHING);
  else nameInstalled();
};

// Takes a text into the editor, which knows lines that end in a line feed.
const take = (value) => {
  const crs = value.split("\r\n").length - 1, feeds = value.split("\n").length - 1, lone = value.split("\r").length - 1 - crs;
  ends = crs > 0 && crs === feeds && lone === 0 ? "\r\n" : "\n";
  setText(value);
  dirty = true;
  soon();
  if (ends === "\n" && crs + lone > 0) say(at("message"), "warn", "The lines of this text end in different ways. All end in a line feed now.");
};

/** Stores and checks the text after a pause. */
const soon = () => {
  clearTimeout(waiting);
  checking?.abort();
  waiting = setTimeout(() => {
    if (gateway !== null && !keep()) say(at("message"), "warn", "This browser doesn't store this text: install it before you close the tab.");
    check();
  }, PAUSE);
};

// Checks the text, shows what is found, and returns its errors.
const check = async () => {
  const verdict = at("verdict");
  if (gateway === null) return say(verdict, "", "Open a bundle to have its text checked.");
  if (text.value === "") {
    showFindings({ errors: [], warnings: [] });
    return say(verdict, "", "");
  }
  checking = new AbortController();
  verdict.textContent = "Checking …";
  try {
    const checked = text.value, { errors: given, warnings } = await gateway.check(locale, textNow(), checking.signal);
    const errors = given.map((error) => ledBack(error, warnings, checked));
    showFindings({ errors, warnings });
    if (errors.length > 0) say(verdict, "bad", `This text can't be installed: ${counted(errors.length, "error")}, ${counted(warnings.length, "warning")}.`);
    else if (warnings.length > 0) say(verdict, "warn", `This text can be installed: ${counted(warnings.length, "warning")}.`);
    else say(verdict, "good", "No errors and no warnings.");
    return errors;
  } catch (error) {
    if (error.name !== "AbortError") say(verdict, "bad", "Not checked: " + error.message);
  }
};

// Compares the text with the bundle as it is installed now.
const compare = async () => {
  const mine = opens, now = await gateway.text(locale);
  if (mine !== opens) return;
  showDifference(at("edit-diff"), `From what is installed as ${locale} to your text`, now.text ?? "", textNow());
};

const install = async () => {
  const mine = opens, sentAs = locale, sent = textNow();
  say(at("message"), "", `Installing ${locale} …`);
  try {
    const { tag, warning } = await gateway.put(sentAs, sent, opened.tag);
    if (mine === opens) {
      opened = { text: sent, tag };
      dirty = textNow() !== sent; // something was typed meanwhile
      keep();
      at("edit-diff").replaceChildren();
      if (dirty) name(withChanges());
      else nameInstalled();
    }
    say(at("message"), warning ? "warn" : "good", `${sentAs} is installed.${warning ? " " + warning : ""}`);
  } catch (error) {
    const [first] = error.status === 400 && mine === opens ? (await check()) ?? [] : [];
    if (first !== undefined && first.line !== error.line) throw new Error(`Not installed. Line ${first.line}: ${meaningOf(first)}`);
    if (error.status !== 412 || mine !== opens) throw error;
    await explainConflict();
  }
};

const withChanges = () => `${locale}, with changes that aren't installed.`;

// Shows another's change, and asks which text is to stay.
const explainConflict = async () => {
  const mine = opens, now = await gateway.text(locale);
  if (mine !== opens) return;
  const lines = make("div", { className: "diff" }), three = [opened.text, now.text, textNow()].map((one) => valuesIn(one ?? ""));
  if (showDifference(lines, "From theirs to your text", now.text ?? "", textNow()) === 0) { // its answer was lost, or another sent the same text
    opened = now;
    leave();
    nameInstalled();
    return say(at("message"), "good", `This text is installed as ${locale} already.`);
  }
  const items = [...new Set(three.flatMap((values) => [...values.keys()]))].map((key) => ({
    path: key.slice(0, -1).replaceAll("\0", "/"), texts: three.map((values) => values.get(key)),
  })).filter(({ texts: [was, theirs, mine] }) => was !== theirs || was !== mine);
  const answer = await settle(gateway, locale, null, ...(items.length > 0 ? [threeOf(items, locale)] : []), lines);
  if (mine !== opens || answer !== "yes") say(at("message"), "warn", `${locale} isn't installed: another's change stays.`);
  if (mine !== opens || answer === "no") return;
  if (answer === "other") return show(now);
  opened = now;
  await install();
};

// Opens a file that was chosen or dropped.
const openFile = async (file) => {
  if (!file) return;
  if (file.size > MOST_BYTES) return say(at("message"), "bad", `${file.name} is longer than 8 MB.`);
  try {
    const value = new TextDecoder("utf-8", { fatal: true, ignoreBOM: true }).decode(await file.arrayBuffer());
    if (!(await mayLeave())) return;
    if (text.readOnly) return say(at("message"), "bad", `${file.name} isn't opened, because a bundle is being opened. Try again.`);
    take(value);
    name(`${gateway === null ? "" : locale + " from "}${file.name}, not installed.`);
    text.focus();
  } catch {
    say(at("message"), "bad", `${file.name} is no text in UTF-8. resb text makes a text of a .res file.`);
  }
};

// Does something for which a bundle must be open, unless something is done already, and shows why it failed.
const act = (what) => async () => {
  if (acts) return;
  if (gateway === null) return say(at("message"), "bad", "Open a bundle first: fill in the application, the token and the locale.");
  acts = true;
  try {
    await what();
  } catch (error) {
    say(at("message"), "bad", error.message);
  } finally {
    acts = false;
  }
};

text.addEventListener("input", () => {
  if (!dirty && gateway !== null) name(withChanges());
  dirty = true;
  soon();
});
at("install").addEventListener("click", act(install));
at("compare").addEventListener("click", act(compare));
at("file").addEventListener("change", async (event) => {
  await openFile(event.target.files[0]);
  event.target.value = ""; // so that the same file can be chosen again
});
addEventListener("dragover", (event) => {
  event.preventDefault();
  at("editor").classList.add("dropping");
});
addEventListener("dragleave", () => at("editor").classList.remove("dropping"));
addEventListener("drop", (event) => {
  at("editor").classList.remove("dropping");
  if (event.dataTransfer.files.length === 0 && event.target === text) return; // text goes where it is dropped
  event.preventDefault();
  openFile(event.dataTransfer.files[0]);
});
addEventListener("pagehide", keep);
addEventListener("beforeunload", (event) => {
  if (keep()) return;
  event.preventDefault();
  event.returnValue = true; // for Chrome before 119
});
