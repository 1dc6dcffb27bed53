// modules_test.mjs: tries the modules of the page that need no browser, against slower definitions of what they do.
import { Gateway } from "../gateway.mjs";
import { compareLines, linesOf } from "../lines.mjs";
import { itemsIn, ledBack, pathOf, placeOf, valuesIn } from "../places.mjs";
import { itemsOf, sideBySide, stateOf, withText } from "../tree.mjs";
import { argumentsOf, categoriesOf, directionOf, otherArguments } from "../language.mjs";

let seed = 1;
const random = (n) => (seed = (seed * 1103515245 + 12345) & 0x7fffffff) % n;
const check = (is, what) => {
  if (!is) throw new Error(JSON.stringify(what));
};

// the length of the longest common subsequence, by its recurrence
const longest = (a, b) => {
  const table = Array.from({ length: a.length + 1 }, () => new Array(b.length + 1).fill(0));
  for (let i = a.length - 1; i >= 0; i--) {
    for (let j = b.length - 1; j >= 0; j--) {
      table[i][j] = a[i] === b[j] ? table[i + 1][j + 1] + 1 : Math.max(table[i + 1][j], table[i][j + 1]);
    }
  }
  return table[0][0];
};

// a difference has all lines of both texts in order, with their numbers
const whole = (a, b) => {
  const lines = compareLines(a.join("\n"), b.join("\n"));
  const old = lines.filter(({ sign }) => sign !== "+"), now = lines.filter(({ sign }) => sign !== "-");
  check(old.every(({ text, old }, i) => text === a[i] && old === i + 1) && old.length === a.length, [a, b]);
  check(now.every(({ text, now }, i) => text === b[i] && now === i + 1) && now.length === b.length, [a, b]);
  return lines.filter(({ sign }) => sign === " ").length;
};

for (let n = 0; n < 5000; n++) {
  const [a, b] = [0, 0].map(() => Array.from({ length: random(12) }, () => "abc"[random(3)]));
  check(whole(a, b) === longest(a, b), [a, b]); // and as many equal lines as there can be
}
const long = Array.from({ length: 100000 }, () => "line " + random(1000));
check(whole(long, long.map((line, i) => (i % 2000 ? line : "new"))) === 99950, "few changes in a long text");
const began = process.cpuUsage().user; // in microseconds
whole(long, long.map((line, i) => (i % 3 ? line : "new" + i)));
check(process.cpuUsage().user - began < 20e6, "many changes in a long text");
check(linesOf("").length === 0 && linesOf("a\r\nb\rc\n").join() === "a,b,c" && linesOf("\n").length === 1, "lines");

// an item of each kind of docs/JSON.md, and keys that look like something else
const tree = JSON.parse('{"a":"x","b":-5,"c":{":alias":"/LOCALE/a"},"d":["p",{"::q":"r"}],"e":{":bin":"00ff"},"f":{},"__proto__":{"g":"y"},"h/i":"z","h":{"i":"w"}}');
const items = [...itemsOf(tree).values()].map(({ path, value, isText }) => `${path}=${value}${isText ? "" : "!"}`);
check(items.join(";") === 'a=x;b=-5!;c=:alias "/LOCALE/a"!;d/0=p;d/1/:q=r;e=:bin "00ff"!;f=(an empty table)!;__proto__/g=y;h/i=z;h/i=w', items);
const states = (a, b) => sideBySide(a, b).map(({ path, from, to }) => path + ":" + stateOf(from, to)).join(" ");
check(states({ a: "x", b: "y", n: 1, e: "f" }, { a: "x", c: "z", n: 1, e: "" }) === "a:same b:missing n: e:missing c:extra", "states");
check(states(null, { a: "x" }) === "a:extra" && states({ a: "x" }, null) === "a:missing" && states({}, {}) === ":", "absent trees");
// a patch, merged as RFC 7396 does, makes the tree that is wanted: the item has the text, and all others are as they were
const merge = (old, patch) => {
  if (patch === null || typeof patch !== "object" || Array.isArray(patch)) return patch;
  const all = new Map(old !== null && typeof old === "object" && !Array.isArray(old) ? Object.entries(old) : []);
  for (const [key, item] of Object.entries(patch)) all.set(key, merge(all.get(key), item));
  return Object.fromEntries(all);
};
const like = { ...tree, "::y": "1", t: { u: { v: "2" } }, list: ["p", ["q", { r: "s" }]] };
for (const keys of ["a", "d/0", "d/1/:q", "__proto__/g", ":y", "t/u/v", "list/0", "toString"].map((path) => path.split("/"))) {
  const whole = withText(tree, like, keys, "new", true), merged = merge(tree, withText(tree, like, keys, "new", false));
  check(JSON.stringify(whole) === JSON.stringify(merged), keys);
  const wanted = itemsOf(tree).set(pathOf(keys), { path: keys.join("/"), value: "new", isText: true });
  check(JSON.stringify([...itemsOf(whole)].sort()) === JSON.stringify([...wanted].sort()), keys);
}
const refusal = (...given) => { try { return withText(...given, "x", true); } catch (error) { return error.message; } };
check(/translate its item 0 first/.test(refusal(tree, like, ["list", "1", "0"])) && /no table/.test(refusal({ t: "x" }, like, ["t", "u"])), "gaps");
// the value of each item is found without its quotes, and its comments are those before it and behind it on its line
const text = `de { // a{"no"}
  /* b{"no"} */ "menu":table { open{"a{b"} /* behind */ "close":string { "\\"}{" "x" } } n:int{5} list{"one","two"} nested { {"p"}, {"q","r"} } // end
  /* of
   * all */ last{"}"} none{""} bare { two words }
}`;
const values = {
  "menu/open": "a{b", "menu/close": '"\\"}{" "x"', "n": "5", "list/0": "one", "list/1": "two", "nested/0": "p", "nested/1/1": "r", "last": "}", "none": "", "bare": "two words",
};
for (const [path, value] of Object.entries(values)) {
  const { insert, from, to } = placeOf(text, path.split("/"));
  check(insert === "" && text.slice(from, to) === value, [path, text.slice(from, to)]);
}
const said = Object.fromEntries(Array.from(itemsIn(text), ([key, { notes }]) => [key.slice(0, -1).replaceAll("\0", "/"), notes.join("|")]));
check(said.menu === 'a{"no"}|b{"no"}' && said["menu/open"] === "behind" && said.nested === "end" && said.last === "of\nall" && said.n === "", said);
check([...itemsIn('a{// note\nb{"x", // first\n"y"}}').values()].map(({ notes: all }) => all.join("|")).join() === ",note,note|first,", "notes of an array");
// what is missing gets a place with an empty value, and a text that has it afterwards; in an array, there is only a place
for (const [before, path, after] of [
  ['de { cart { a { "A" } } }', "cart/b", 'de { cart { a { "A" } b { "" } } }'], ["de {\n    a { \"A\" }\n}\n", "c d/e", 'de {\n    a { "A" }\n    "c d" { e { "" } }\n}\n'],
  ["de {\n}\n", "a", 'de {\n    a { "" }\n}\n'], ["de{}", "a", 'de{ a { "" } }'], ['de{l{"a","b"}}', "l/2", 'de{l{"a","b"}}'], ["", "a", ""],
]) {
  const { at, insert, from, to } = placeOf(before, path.split("/")), made = before.slice(0, at) + insert + before.slice(at);
  check(made === after && from === to && (insert === "" || made.slice(from - 1, to + 1) === '""'), [made, from, to]);
}
for (let cut = 0; cut < text.length; cut++) check(placeOf(text.slice(0, cut), ["nested", "1", "1"]).to <= cut + 20, cut); // while it is typed
// all values as they are written, by their paths
check(JSON.stringify([...valuesIn('de{a{"x\\"y"} l{"p", 5} e{} t{u{"v"} w:int{5}} n{{"p"},{"q","r"}} z')].map(([key, value]) => key.slice(0, -1).replaceAll("\0", "/") + "=" + value))
  === JSON.stringify(['a=x\\"y', "l/0=p", "l/1=5", "e=", "t/u=v", "t/w=5", "n/0=p", "n/1/0=q", "n/1/1=r"]), "values");
// an error leads back to what isn't closed: by a warning about that, or else at the end of the text
const led = (code, line, text, rule, at, message = "") => ledBack({ code, line, message: "m" }, rule ? [{ rule, line: at, column: 3, message }] : [], text).line;
for (const [want, ...given] of [
  [2, "OpenQuote", 4, "de{\na{\"x}\nb{\"\"}\n", "open-quote", 2], [3, "OpenQuote", 4, "de{\na{\"x}\nb{\"\"}\n", "mixed-quotes", 2], [2, "OpenComment", 3, "de{\n/*/\n"],
  [2, "Unexpected", 4, "de{\na{\nb{\"x\"}\n", "missing-close-brace", 3, "the brace that opens in line 2 isn't closed"], [2, "Unexpected", 4, "de{\na{\nb{\"x\"}\n"],
  [3, "Unexpected", 3, "de{\na{\n:\nb{\"x\"}\n"], [3, "TrailingText", 3, "de{\n}\nb{}"], [3, "BadKey", 3, "de{\na{\n\u00e4{}", "missing-close-brace", 2], [2, "OpenQuote", 3, "de{\na{\"\\\\\\\"\n"],
]) check(led(...given) === want, given);
check(ledBack({ code: "OpenQuote", line: 3 }, [], 'de{\na{"x\n').message === "noticed in line 3", "an error without a reason");
const search = process.cpuUsage().user;
placeOf("de{" + "a{/*".repeat(22500), ["a"]); // 90 KB of unclosed comments
placeOf("de{" + "a{".repeat(45000), ["a"]); // and of braces
check(process.cpuUsage().user - search < 2e6, "unclosed comments");
check(itemsOf("root").size === 1, "a tree without keys");

// arguments, as ICU's MessageFormat reads them, and the plural categories and directions of CLDR
const named = (message) => Array.from(argumentsOf(message), (pair) => pair.join(":")).join(" ");
check(named("Open {0}, it''s '{no}' {d, date, dd '{'MM} {n, number}") === "0: d:date n:number", "arguments");
check(named("{n, plural, one {file {a}} =2 {two} other {# of {m, select, f {her} other {{x}}}}}") === "n:plural a: m:select x:", "nested");
check(otherArguments("{a} {b}", "{b} {c}").join() === "{a} is missing,{c} isn't in the source", "other arguments");
for (const [locale, type, categories] of [["ar_EG", "plural", "zero one two few many other"], ["de@collation=phonebook", "plural", "one other"], ["ja", "plural", "other"],
  ["en", "selectordinal", "one two few other"], ["root", "plural", ""], ["no_locale_at_all_x", "plural", ""]]) check(categoriesOf(locale, type).join(" ") === categories, locale);
for (const [locale, direction] of [["ar", "rtl"], ["he_IL", "rtl"], ["fa", "rtl"], ["ur", "rtl"], ["az_Arab", "rtl"], ["az", "ltr"], ["de_AT", "ltr"], ["root", "auto"], ["?", "auto"]]) {
  check(directionOf(locale) === direction, locale);
}

// a request that says nothing was done is made again, and another refusal is thrown at once
const answers = [[503, "Busy"], [503, "Replaying"], [200], [503, "NotKept"], [200]];
globalThis.fetch = async () => {
  const [status, error] = answers.shift();
  return new Response(JSON.stringify({ error, names: ["de"] }), { status });
};
const asked = new Gateway("shop", "token");
check((await asked.names())[0] === "de" && answers.length === 2, "asked again");
check((await asked.names().catch((refused) => refused)).code === "NotKept" && answers.length === 1, "refused");

// the change that made an item what it is now, in histories of up to 40 versions of which the oldest may not be stored
for (let n = 0; n < 300; n++) {
  const total = 1 + random(40), changed = random(total), stored = 1 + random(total), begins = random(2) === 0;
  const past = Array.from({ length: total }, (_, i) => ({ id: total - i, kept: i < stored, op: begins && i === total - 1 ? "install" : "replace" }));
  const valueAt = (id) => (id >= total - changed ? "new" : "old");
  globalThis.fetch = async (address) => {
    const [, from, to] = /_history\/(\d+)\/diff\?with=(\d+)/.exec(address) ?? [];
    const changes = valueAt(Number(from)) === valueAt(Number(to)) ? [{ path: "b" }] : [{ path: "menu/a" }];
    return new Response(JSON.stringify(from === undefined ? { history: past } : { changes }));
  };
  // it isn't known if the version before isn't stored, or if the oldest one that is listed isn't the first
  const isKnown = changed < stored && (changed === total - 1 ? begins : changed < stored - 1);
  const found = await asked.lastChange("de", "menu/a");
  check(found?.id === (isKnown ? total - changed : undefined), [total, changed, stored, begins, found]);
}
