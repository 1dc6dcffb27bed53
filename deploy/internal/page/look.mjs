// The view in which items are looked up by hand.
import { at, counted, make, putValue, say, visible } from "./show.mjs";

const MOST_ITEMS = 1000;
let asked = 0;

const SHOWN = {
  string: (item) => item.value ?? "units " + item.units.join(" "),
  int: (item) => String(item.signed),
  intvector: (item) => item.values.join(" "),
  bin: (item) => item.hex,
  array: (item) => "an array of " + item.len,
  table: (item) => "a table of " + item.keys.length,
};

// Asks, and shows the answer. One that comes after a later question is dropped.
const ask = async (gateway, address, show) => {
  const mine = ++asked, began = performance.now();
  let reply = null, failure = null;
  try {
    reply = await (await gateway.ask("GET", address)).json();
  } catch (error) {
    failure = error;
  }
  if (mine !== asked) return;
  const status = failure === null ? `200 ${(performance.now() - began).toFixed(1)} ms` : failure.status || "no answer";
  say(at("status"), failure === null ? "good" : "bad", `GET /${address} → ${status}`);
  const chosen = at("items").contains(document.activeElement);
  at("items").replaceChildren();
  putValue(at("reply"), reply === null ? "" : JSON.stringify(reply, null, 2));
  putValue(at("value"), failure === null ? "" : failure.message, "en");
  if (failure === null) show(reply);
  if (chosen) at("value").focus(); // the button is gone
};

// Shows a button for each item that can be opened.
const choose = (names, go) => at("items").replaceChildren(...names.slice(0, MOST_ITEMS).map((name) => {
  const button = make("button", { type: "button", dir: "auto" }, ...visible(name));
  button.addEventListener("click", () => go(name));
  return make("li", {}, button);
}));

/** Looks an item up. */
export const look = (gateway, locale) => {
  const path = at("path").value;
  return ask(gateway, gateway.address(locale, ...(path === "" ? [] : path.split("/"))), (item) => {
    putValue(at("value"), SHOWN[item.type]?.(item) ?? "", locale);
    const names = { table: item.keys, array: Array.from({ length: Math.min(item.len ?? 0, MOST_ITEMS) }, (_, i) => String(i)) };
    choose(names[item.type] ?? [], (name) => {
      at("path").value = (path === "" ? "" : path + "/") + name;
      return look(gateway, locale);
    });
  });
};

/** Looks up what the item is in. */
export const up = (gateway, locale) => {
  at("path").value = at("path").value.split("/").slice(0, -1).join("/");
  return look(gateway, locale);
};

/** Lists the bundles. */
export const list = (gateway) => ask(gateway, gateway.address(), ({ names }) => {
  at("value").textContent = counted(names.length, "bundle");
  choose(names, (name) => {
    at("locale").value = name;
    at("path").value = "";
    return look(gateway, name);
  });
});
