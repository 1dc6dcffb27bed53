// The items of bundles, from their JSON (docs/JSON.md).

// The values that are objects with one member whose name begins with a colon.
const special = (value) => {
  const names = Object.keys(value);
  return names.length === 1 && /^:[a-z]/.test(names[0]) ? `${names[0]} ${JSON.stringify(value[names[0]])}` : null;
};

/** Returns the items of a tree that have no items in them, as {path, value, isText}, by paths whose keys end in a NUL. */
export const itemsOf = (tree) => {
  const found = new Map();
  const add = (path, value, isText) => found.set(path, { path: path.slice(0, -1).replaceAll("\0", "/"), value, isText });
  const visit = (path, value) => {
    if (typeof value === "string") return add(path, value, true);
    if (value === null || typeof value !== "object") return add(path, String(value), false);
    const isArray = Array.isArray(value), plain = isArray ? null : special(value);
    if (plain !== null) return add(path, plain, false);
    const members = Object.entries(value);
    if (members.length === 0) add(path, isArray ? "(an empty array)" : "(an empty table)", false);
    members.forEach(([key, item]) => visit(`${path}${key.startsWith("::") ? key.slice(1) : key}\0`, item));
  };
  visit("", tree);
  return found;
};

const nameOf = (key) => (key.startsWith(":") ? ":" + key : key);
const memberOf = (node, name) => (node !== undefined && Object.hasOwn(node, name) ? node[name] : undefined);

/**
 * Returns a merge patch (RFC 7396) that sets a text in a tree, or the whole new tree. A tree that has the item says what is an array. A patch
 * replaces arrays whole, and they have no gaps.
 */
export const withText = (node, like, keys, text, isWhole) => {
  if (keys.length === 0) return text;
  const [key, ...rest] = keys;
  if (Array.isArray(node ?? like)) {
    const items = [...(node ?? [])];
    if (Number(key) > items.length) throw new Error(`An array has no gaps: translate its item ${items.length} first.`);
    items[key] = withText(items[key], like?.[key], rest, text, true);
    return items;
  }
  if (node !== undefined && (node === null || typeof node !== "object")) throw new Error(`The translation has no table for ${key}, but a value.`);
  const name = nameOf(key), item = withText(memberOf(node, name), memberOf(like, name), rest, text, isWhole);
  return isWhole ? { ...node, [name]: item } : { [name]: item };
};

/**
 * Returns what an item of a translation is beside that of its source: "missing", also if it is empty; "extra" without a source; "same" for texts
 * that are equal; or "".
 */
export const stateOf = (from, to) => {
  if (from === null) return "extra";
  if (to === null || (to.value === "" && from.value !== "")) return "missing";
  return from.isText && from.value !== "" && to.value === from.value ? "same" : "";
};

/** Returns the items of two trees side by side, as {key, path, from, to}. A tree that is null has no items. */
export const sideBySide = (source, target) => {
  const [from, to] = [source, target].map((tree) => (tree === null ? new Map() : itemsOf(tree)));
  const extra = [...to].filter(([key]) => !from.has(key));
  return [
    ...Array.from(from, ([key, item]) => ({ key, path: item.path, from: item, to: to.get(key) ?? null })),
    ...extra.map(([key, item]) => ({ key, path: item.path, from: null, to: item })),
  ];
};
