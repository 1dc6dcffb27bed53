// The requests of the page.

const MEANINGS = {
  Unauthorized: "the token isn't known",
  Forbidden: "the token isn't for this application, or it only reads",
  NoBundle: "there is no bundle for this locale or its parents",
  Absent: "there is no bundle for this locale",
  NoVersion: "this version isn't stored any more",
  Missing: "there is no such item",
  BadLocale: "this is no name of a locale",
  BadPath: "this is no path: keys with one slash between them",
  TooLarge: "it is too long",
  TooMany: "too many requests at once; try again",
  OverRate: "too many requests; try again later",
  Replaying: "the server starts; try again",
  Busy: "the server is busy; try again",
  NotKept: "the change couldn't be stored",
  Unreached: "the gateway doesn't reach its log; try again later",
  Memory: "the server is out of memory; try again later",
  Failed: "the gateway failed; its log says why",
  BundleTooLong: "the bundle is longer than the server allows",
  ReplyTooLong: "the answer is longer than the server allows",
  NoRoom: "the server's disk is full",
  OverQuota: "the application has no more space",
  Timeout: "no answer in time; look whether the change was made",
  PreconditionFailed: "another change was made meanwhile",
};

// Refusals that say that nothing was done, as the gateway stood still or starts a server: they are asked again after some time.
const AGAIN = ["Busy", "Replaying"];
const WAIT = 1000, TRIES = 20;

/** A refusal. Its status is 0 if there was no answer. */
export class Refused extends Error {
  constructor(status, reply) {
    const at = reply.line ? ` in line ${reply.line}` : "";
    const meaning = reply.message ?? MEANINGS[reply.error];
    const of = reply.name ? ` of ${reply.name}` : ""; // a bundle of several
    super(`${reply.code ?? reply.error}${of}${at}${meaning ? ": " + meaning : ""}`);
    this.status = status;
    this.code = reply.error;
    this.line = reply.line;
  }
}

let tokens = new WeakMap(); // of the requests

/** Forgets the tokens of all requests that were made before. */
export const forgetTokens = () => { tokens = new WeakMap(); };

/** The requests for one application. */
export class Gateway {
  constructor(app, token) {
    this.app = app;
    tokens.set(this, token);
  }

  address(...parts) {
    return ["v1", this.app, ...parts].map(encodeURIComponent).join("/");
  }

  /** Asks, again if the gateway can't answer now, and returns the response, or throws why there is none. */
  async ask(method, address, options = {}) {
    for (let tries = 1; ; tries++) {
      try {
        return await this.askOnce(method, address, options);
      } catch (error) {
        if (!AGAIN.includes(error.code) || tries === TRIES) throw error;
      }
      await new Promise((wake) => setTimeout(wake, WAIT));
    }
  }

  async askOnce(method, address, { headers = {}, body, signal } = {}) {
    let response;
    try {
      response = await fetch(address, {
        method, body, signal, cache: "no-store", credentials: "omit",
        headers: { Authorization: "Bearer " + (tokens.get(this) ?? ""), ...headers },
      });
    } catch (error) {
      if (error.name === "AbortError") throw error;
      throw new Refused(0, { error: "no answer", message: error.message });
    }
    if (response.ok) return response;
    const text = await response.text();
    let reply;
    try {
      reply = JSON.parse(text);
    } catch {
      reply = { error: `status ${response.status}` };
    }
    throw new Refused(response.status, reply);
  }

  /** Returns the names of the bundles. */
  async names() {
    return (await (await this.ask("GET", this.address())).json()).names;
  }

  /** Returns a bundle as {text, tag}, or as {text: null, tag: null} if there is none. */
  async text(locale) {
    try {
      const response = await this.ask("GET", this.address(locale + ".txt"));
      return { text: await whole(response), tag: response.headers.get("ETag") };
    } catch (error) {
      if (error.code === "Absent") return { text: null, tag: null };
      throw error;
    }
  }

  /** Returns the tree of a bundle as {tree, tag}, or as {tree: null, tag: null} if there is none. */
  async tree(locale) {
    try {
      const response = await this.ask("GET", this.address(locale + ".json"));
      return { tree: await response.json(), tag: response.headers.get("ETag") };
    } catch (error) {
      if (error.code === "Absent") return { tree: null, tag: null };
      throw error;
    }
  }

  /** Returns {errors, warnings} of a text, which isn't stored. */
  async check(locale, text, signal) {
    return (await this.ask("POST", this.address("_check", locale + ".txt"), { body: text, signal })).json();
  }

  /** Installs a text if the bundle has this tag, or if there is none and the tag is null. Returns the new tag and a warning. */
  async put(locale, text, tag) {
    const response = await this.ask("PUT", this.address(locale + ".txt"), { body: text, headers: ifTag(tag) });
    return { tag: response.headers.get("ETag"), warning: (await response.json()).warning };
  }

  /** Merges a patch (RFC 7396) into a bundle that has this tag, and returns the new tag. */
  async patch(locale, patch, tag) {
    const headers = { "Content-Type": "application/merge-patch+json", ...ifTag(tag) };
    return (await this.ask("PATCH", this.address(locale), { body: JSON.stringify(patch), headers })).headers.get("ETag");
  }

  /** Returns the last changes, the newest first. */
  async history({ locale, before, last }) {
    const query = new URLSearchParams({ last });
    if (locale) query.set("locale", locale);
    if (before) query.set("before", before);
    return (await (await this.ask("GET", `${this.address("_history")}?${query}`)).json()).history;
  }

  /** Returns the items that differ between the bundles after two changes, as {path, old, new}. */
  async differences(from, to) {
    return (await (await this.ask("GET", `${this.address("_history", String(from), "diff")}?with=${to}`)).json()).changes;
  }

  /** Returns the change that made a bundle, or the item at a path in it, what it is now, or undefined if no stored version says which it was. */
  async lastChange(locale, path) {
    const past = await this.history({ locale, last: path === null ? 1 : 1000 });
    if (path === null) return past[0];
    const kept = past.findIndex((change) => !change.kept), stored = kept < 0 ? past : past.slice(0, kept);
    let same = 0, other = stored.length; // the item is what it is now after the change `same`, and not after `other`
    while (other - same > 1) {
      const middle = (same + other) >> 1, found = await this.differences(stored[middle].id, stored[0].id).catch(() => null);
      if (found === null) return undefined;
      if (found.some((item) => item.path === path)) other = middle;
      else same = middle;
    }
    return other < stored.length || stored[same]?.op === "install" ? stored[same] : undefined;
  }

  /** Returns the text of a bundle as it was after a change. */
  async version(id) {
    return whole(await this.ask("GET", this.address("_history", id + ".txt")));
  }

  /** Returns the tree of a bundle as it was before a time, or null if there was none. */
  async treeBefore(locale, time) {
    const past = await this.history({ locale, last: 1000 });
    const { id, op } = past.find(({ at }) => Date.parse(at) < time) ?? { op: past.at(-1)?.op === "install" ? "remove" : "" };
    if (op === "") throw new Refused(404, { error: "NoVersion" });
    return op === "remove" ? null : (await this.ask("GET", this.address("_history", id + ".json"))).json();
  }

  /** Takes back all that a change did, such as a release, unless one of its bundles was changed since. */
  async undo(id) {
    return this.ask("POST", this.address("_history", String(id), "undo"));
  }

  /** Makes a bundle what it was after a change, if it has this tag. */
  async restore(id, tag) {
    return this.ask("POST", this.address("_history", String(id), "restore"), { headers: ifTag(tag) });
  }
}

// Returns the text of a response with its byte order mark, which `text()` drops.
const whole = async (response) => new TextDecoder("utf-8", { ignoreBOM: true }).decode(await response.arrayBuffer());

// A change must not overwrite another one that its author hasn't seen.
const ifTag = (tag) => (tag === null ? { "If-None-Match": "*" } : { "If-Match": tag });
