// Directions and plural categories of languages, and arguments of ICU's messages.

/** Returns the language of a locale, for fonts and for programs that read the page aloud. */
export const languageOf = (locale) => {
  const name = locale.split("@")[0].replaceAll("_", "-");
  return name === "root" ? "" : name;
};

const tagOf = (locale) => {
  try {
    return Intl.getCanonicalLocales(languageOf(locale))[0];
  } catch {
    return null; // the root, or no name of a language
  }
};

const RIGHT_TO_LEFT = /^(Adlm|Arab|Hebr|Mand|Mend|Nkoo|Rohg|Samr|Syrc|Thaa|Yezi)$/;

/** Returns the direction of a locale's texts, or "auto" if the locale doesn't say it. */
export const directionOf = (locale) => {
  const tag = tagOf(locale);
  if (tag === null) return "auto";
  return RIGHT_TO_LEFT.test(new Intl.Locale(tag).maximize().script ?? "") ? "rtl" : "ltr";
};

/** Returns the categories of numbers in the language of a locale, of the type "plural" or "selectordinal". */
export const categoriesOf = (locale, type) => {
  const tag = tagOf(locale);
  if (tag === null || Intl.PluralRules.supportedLocalesOf(tag).length === 0) return [];
  const { pluralCategories } = new Intl.PluralRules(tag, { type: type === "plural" ? "cardinal" : "ordinal" }).resolvedOptions();
  return ["zero", "one", "two", "few", "many", "other"].filter((name) => pluralCategories.includes(name));
};

// Quoted text, the begin of an argument, or a brace.
const PARTS = /''|'[{}](?:[^']|'')*'?|\{\s*([^\s{},']+)\s*(?=[,}])(?:,\s*(\w+))?|[{}]/g;

/** Returns the arguments of a message, each with its type or "". */
export const argumentsOf = (message) => {
  const found = new Map(), open = []; // what is in each open brace
  for (const { 0: part, 1: name, 2: type = "" } of message.matchAll(PARTS)) {
    const inside = open.at(-1) ?? "message";
    if (part === "}") open.pop();
    else if (part[0] === "{" && inside === "choices") open.push("message");
    else if (part[0] === "{" && inside === "message" && name !== undefined) {
      found.set(name, found.get(name) || type);
      open.push(["plural", "select", "selectordinal"].includes(type) ? "choices" : "style");
    } else if (part[0] === "{") open.push("style");
  }
  return found;
};

/** Returns why the arguments of a translation aren't those of its source. */
export const otherArguments = (source, translation) => {
  const from = argumentsOf(source), to = argumentsOf(translation);
  const lacks = [...from.keys()].filter((name) => !to.has(name)), adds = [...to.keys()].filter((name) => !from.has(name));
  return [...lacks.map((name) => `{${name}} is missing`), ...adds.map((name) => `{${name}} isn't in the source`)];
};
