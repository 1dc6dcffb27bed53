// The search through all bundles.
import { at, counted, make, putValue, rowOf, say, tableOf, visible } from "./show.mjs";
import { itemsOf } from "./tree.mjs";

const MOST_HITS = 200;
const TITLES = ["Path", "Locale", "Text"];
let asked = 0;

/**
 * Searches paths and texts in one bundle after the other, and shows each hit when it is found, up to some. A function is called with the locale and
 * the key of a hit that is opened.
 */
export const search = async (gateway, words, open) => {
  const mine = ++asked, wanted = words.toLowerCase(), table = tableOf("Hits", TITLES, []), [body] = table.tBodies, bar = at("searched");
  let names = [], done = 0, isStopped = false;
  const isOver = () => mine !== asked || isStopped || done === names.length || body.rows.length === MOST_HITS;
  const finish = () => end(`${counted(body.rows.length, "hit")} in ${done} of ${counted(names.length, "bundle")}.`, body.rows.length === MOST_HITS);
  at("stop").onclick = () => {
    isStopped = true;
    finish();
  };
  at("hits").replaceChildren(table);
  say(at("found"), "", "Searching …"); // the bar says how far it is
  bar.value = 0;
  bar.hidden = at("stop").hidden = false;
  try {
    names = await gateway.names();
    bar.max = names.length;
    while (!isOver()) {
      const locale = names[done], { tree } = await gateway.tree(locale);
      if (isOver()) break;
      const hits = [...itemsOf(tree ?? {})].filter(([, { path, value }]) => `${path}\n${value}`.toLowerCase().includes(wanted));
      body.append(...hits.slice(0, MOST_HITS - body.rows.length).map(([key, item]) => drawn(locale, item, () => open(locale, key))));
      bar.value = ++done;
    }
  } finally {
    if (mine === asked && !isStopped) finish();
  }
};

const drawn = (locale, { path, value, isText }, open) => {
  const button = make("button", { type: "button", dir: "auto", "aria-label": `Open ${path} of ${locale}` }, ...visible(path));
  button.addEventListener("click", open);
  return rowOf(TITLES, make("th", { scope: "row", className: "place" }, button), make("td", { dir: "auto" }, ...visible(locale)), putValue(make("td"), value, isText ? locale : undefined));
};

const end = (text, isFull) => {
  if (document.activeElement === at("stop")) at("words").focus(); // the button is gone
  at("searched").hidden = at("stop").hidden = true;
  say(at("found"), isFull ? "warn" : "good", text + (isFull ? " There may be more: search for more of the text." : ""));
};
