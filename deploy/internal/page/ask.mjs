// Questions in a dialog.
import { at, visible } from "./show.mjs";

/**
 * Asks a question about some elements, and returns "yes", "other" or "no". While another one is asked the answer is "no".
 */
const choose = (question, yes, other, ...about) => new Promise((answer) => {
  const dialog = at("ask");
  if (dialog.open) return answer("no");
  at("question").replaceChildren(...visible(question));
  at("about").replaceChildren(...about);
  at("yes").textContent = yes;
  at("other").textContent = other;
  at("other").hidden = other === "";
  for (const id of ["yes", "other", "no"]) at(id).onclick = () => dialog.close(id);
  dialog.onclose = () => answer(["yes", "other"].includes(dialog.returnValue) ? dialog.returnValue : "no"); // the escape key returns ""
  dialog.returnValue = "no";
  dialog.showModal();
  at("no").focus({ preventScroll: true });
});

/** Asks a question, and returns true if the answer is yes. */
export const confirmed = async (question, yes) => (await choose(question, yes, "")) === "yes";

/**
 * Asks what to do about another's change of a bundle, or of the item at a path, which some elements show. Returns "yes" to replace it, "other" to take
 * it, or "no".
 */
export const settle = async (gateway, locale, path, ...about) => {
  const last = await gateway.lastChange(locale, path), what = path === null ? locale : `${path} of ${locale}`;
  const who = last ? `${last.token || "Somebody"} changed ${what} on ${new Date(last.at).toLocaleString()}` : `${what} was changed`;
  return choose(`Not saved: ${who}, after you opened it.`, "Replace theirs by mine", "Take theirs", ...about);
};
