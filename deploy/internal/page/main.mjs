// The page on which bundles are edited, compared, translated and installed.
import { at, counted, make, say } from "./show.mjs";
import { Gateway, forgetTokens } from "./gateway.mjs";
import * as edit from "./edit.mjs";
import { goTo, translate } from "./translate.mjs";
import { history } from "./history.mjs";
import { list, look, up } from "./look.mjs";
import { search } from "./search.mjs";

const VIEWS = ["edit", "translate", "history", "look"];
const FIELDS = ["app", "token", "locale"];

// The fields outlive a reload of this tab, and nothing else.
const remember = () => FIELDS.forEach((id) => sessionStorage.setItem(id, at(id).value));
const recall = () => FIELDS.forEach((id) => { at(id).value = sessionStorage.getItem(id) ?? ""; });

const locale = () => at("locale").value.trim();

// Returns the requests for what is typed in, or null after showing what is missing.
const gatewayNow = (needsLocale) => {
  at("locale").required = needsLocale;
  const isFilled = at("who").reportValidity();
  at("locale").required = false;
  if (!isFilled) return null;
  remember();
  return new Gateway(at("app").value.trim(), at("token").value.trim());
};

// Does something, and shows why it failed.
const shown = (what) => async (...given) => {
  try {
    await what(...given);
  } catch (error) {
    say(at("message"), "bad", error.message);
  }
};

// Does something with the gateway.
const acting = (what, needsLocale = false) => shown(async (event) => {
  event.preventDefault();
  const gateway = gatewayNow(needsLocale);
  if (gateway === null) return;
  say(at("message"), "", "");
  await what(gateway);
});

const openBundle = async (gateway) => {
  const name = locale();
  const names = await gateway.names();
  at("names").replaceChildren(...names.map((value) => make("option", { value })));
  if (name === "") return say(at("message"), "good", `${gateway.app} has ${counted(names.length, "bundle")}${names.length ? ": " + names.join(", ") : ""}.`);
  if (!(await edit.mayLeave())) return nameOpen();
  if (!(await edit.open(gateway, name))) return;
  at("target").value = name;
  at("source").value ||= sourceOf(name, names);
  say(at("message"), "good", `${gateway.app} has ${counted(names.length, "bundle")}.`);
};

// Returns the locale from which another one is translated.
const sourceOf = (name, names) => ["en", "root", ...names].find((other) => names.includes(other) && other !== name) ?? "root";

// Names the text that stays open.
const nameOpen = () => {
  for (const [id, value] of Object.entries(edit.openNow() ?? {})) at(id).value = value;
  remember();
};

// Opens the editor at an item that is chosen in the translation view.
const editItem = (gateway) => shown(async (name, keys) => {
  const go = await edit.toItem(gateway, name, keys);
  if (go === null) return;
  at("locale").value = name;
  goToView("edit");
  go();
});

// Opens an item that was found: in its row, or if translations are made from its bundle in the text.
const openFound = (gateway) => shown(async (name, key) => {
  at("source").value ||= sourceOf("", await gateway.names());
  if (at("source").value.trim() === name) return editItem(gateway)(name, key.slice(0, -1).split("\0"));
  at("target").value = name;
  goToView("translate");
  await translate(gateway, editItem(gateway));
  goTo(key);
});

const goToView = (name) => {
  window.history.pushState(null, "", "#" + name);
  showView(false);
};

const forget = async () => {
  if (!(await edit.mayLeave())) return;
  FIELDS.forEach((id) => sessionStorage.removeItem(id));
  at("token").value = "";
  forgetTokens(); // what is shown can ask no more
  edit.close();
  say(at("message"), "good", "The token is forgotten.");
  at("token").focus();
};

// Shows the view that the address names.
const showView = (moves) => {
  const name = location.hash.slice(1) || VIEWS[0];
  if (!VIEWS.includes(name)) return;
  VIEWS.forEach((id) => { at(id).hidden = id !== name; });
  document.querySelectorAll("nav a").forEach((link) => {
    if (link.hash === "#" + name) link.setAttribute("aria-current", "page");
    else link.removeAttribute("aria-current");
  });
  if (moves) at(name + "-title").focus();
};

addEventListener("hashchange", () => showView(true));
at("who").addEventListener("submit", acting(openBundle));
at("forget").addEventListener("click", forget);
at("pair").addEventListener("submit", acting((gateway) => translate(gateway, editItem(gateway))));
at("past").addEventListener("submit", acting((gateway) => history(gateway, locale())));
at("every").addEventListener("change", () => at("past").requestSubmit());
at("item").addEventListener("submit", acting((gateway) => look(gateway, locale()), true));
at("up").addEventListener("click", acting((gateway) => up(gateway, locale()), true));
at("list").addEventListener("click", acting(list));
at("everywhere").addEventListener("submit", acting((gateway) => search(gateway, at("words").value, openFound(gateway))));
recall();
showView(false);
document.documentElement.dataset.ready = "yes";
