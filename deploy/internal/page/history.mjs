// The view of the last changes.
import { at, groupOf, make, rowOf, say, tableOf, visible } from "./show.mjs";
import { confirmed } from "./ask.mjs";
import { showItems } from "./difference.mjs";

const LAST = 50;
const TITLES = ["When", "Who", "Bundle", "Change", "Bytes", "Version"];
let asked = 0;
const DONE = { install: "installed", replace: "replaced", remove: "removed" };
const CAUSES = ["release", "restore", "undo"];

/** Shows the last changes of a bundle, or of all. */
export const history = async (gateway, locale) => {
  const mine = ++asked, of = at("every").checked ? "" : locale;
  const table = tableOf("Changes", TITLES), button = make("button", { type: "button", textContent: "Show earlier changes" });
  const again = () => history(gateway, locale);
  let earliest = 0, revision = 0;
  const next = async () => {
    const before = earliest, all = await gateway.history({ locale: of, before, last: LAST });
    if (before !== earliest) return; // the button was pressed twice
    for (const one of all) {
      const isFirst = one.revision !== revision; // what one change did to several bundles is a group
      if (isFirst) table.append(groupOf([]));
      table.tBodies[table.tBodies.length - 1].append(changeOf(gateway, one, isFirst, again));
      revision = one.revision;
    }
    button.hidden = all.length < LAST;
    earliest = all.at(-1)?.id ?? 0;
  };
  button.onclick = acting(next);
  await next();
  if (mine !== asked) return;
  at("history-diff").replaceChildren();
  at("changes").replaceChildren(earliest === 0 ? make("p", { textContent: "There are no changes." }) : table, button);
};

const changeOf = (gateway, change, isFirst, again) => {
  const compare = make("button", { type: "button", textContent: "Compare", "aria-label": `Compare version ${change.revision} of ${change.locale}` });
  const restore = make("button", { type: "button", textContent: "Restore", "aria-label": `Restore version ${change.revision} of ${change.locale}` });
  compare.addEventListener("click", acting(() => compareWith(gateway, change)));
  restore.addEventListener("click", acting(() => restoreTo(gateway, change, again)));
  const undo = make("button", { type: "button", textContent: "Take the release back", "aria-label": `Take release ${change.revision} back` });
  undo.addEventListener("click", acting(() => takeBack(gateway, change, again)));
  const version = !change.kept ? ["not stored any more"] : change.op === "remove" ? [restore] : [compare, " ", restore];
  if (change.change === "release" && isFirst) version.push(" ", undo);
  const cause = CAUSES.includes(change.change) ? ` by ${change.change} ${change.revision}` : "";
  return rowOf(TITLES,
    make("td", {}, make("time", { dateTime: change.at, textContent: new Date(change.at).toLocaleString() })),
    make("td", { dir: "auto" }, ...visible(change.token)), make("td", { dir: "auto" }, ...visible(change.locale)),
    make("td", { textContent: (DONE[change.op] ?? change.op) + cause }), make("td", { textContent: String(change.bytes) }), make("td", {}, ...version));
};

const compareWith = async (gateway, { id, revision, locale }) => {
  const [last] = await gateway.history({ locale, last: 1 });
  const [items, earlier, now] = [await gateway.differences(id, last.id), await gateway.version(id), await gateway.text(locale)];
  showItems(at("history-diff"), `From version ${revision} of ${locale} to what is installed`, items, earlier, now.text ?? "");
};

const restoreTo = async (gateway, { id, revision, locale, op }, again) => {
  const { tag } = await gateway.text(locale);
  const question = op === "remove" ? `Remove ${locale} again?` : `Make ${locale} what it was in version ${revision}?`;
  if (!(await confirmed(question, op === "remove" ? "Remove" : "Restore"))) return;
  await gateway.restore(id, tag);
  await again();
  at("history-title").focus(); // the button is gone
  say(at("message"), "good", op === "remove" ? `${locale} is removed.` : `${locale} is as it was in version ${revision}.`);
};

const takeBack = async (gateway, { id, revision }, again) => {
  if (!(await confirmed(`Make all bundles of release ${revision} what they were before?`, "Take back"))) return;
  await gateway.undo(id);
  await again();
  at("history-title").focus(); // the button is gone
  say(at("message"), "good", `Release ${revision} is taken back.`);
};

const acting = (what) => async () => {
  say(at("message"), "", "");
  try {
    await what();
  } catch (error) {
    say(at("message"), "bad", error.message);
  }
};
