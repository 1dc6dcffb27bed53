#!/usr/bin/env node
// A client of resb's gateway (deploy/gateway/README.md), for Node 18 or later and for browsers, without packages.
//
//   const bundles = new Bundles("http://127.0.0.1:6422", "shop", "TOKEN");
//   await bundles.put("de", 'de{menu{open{"Öffnen"}}}');
//   await bundles.text("de_AT", "menu/open");   // "Öffnen"
//
// Run as a program it tries each call:  over_http.mjs URL APP TOKEN
// It installs two bundles where the application has none, and removes only those two.

const PATIENCE = 30_000; // milliseconds in which a request that can't be answered now is asked again
const SAMPLES = { de: 'de{menu{open{"Öffnen"} close{"Schließen"}}}', de_AT: 'de_AT{menu{close{"Zumachen"}}}' };

/** A refusal: its HTTP status, its error code, and the whole reply, which may have a code, a line and a message. */
export class Refused extends Error {
  constructor(status, reply) {
    super(`${status} ${reply.error}`);
    this.status = status;
    this.word = reply.error;
    this.reply = reply;
  }
}

/** The bundles of an application. */
export class Bundles {
  #url;
  #app;
  #token;
  #known = new Map(); // the last reply and its tag for each address

  constructor(url, app, token) {
    this.#url = url.replace(/\/$/, "");
    this.#app = app;
    this.#token = token;
  }

  /** Returns the value of a String, or null if there is no such item. */
  async text(locale, path) {
    return (await this.look(locale, path))?.value ?? null;
  }

  /** Returns an item with its actual and valid locale, or null if there is no such item. */
  async look(locale, path) {
    try {
      return await this.#get(this.#address(locale, ...path.split("/")));
    } catch (error) {
      if (error instanceof Refused && ["Missing", "NoBundle"].includes(error.word)) return null;
      throw error;
    }
  }

  /** Returns the replies to pairs of a locale and a path, in order, with one request. */
  async lookMany(questions) {
    const lines = questions.map(([locale, path]) => JSON.stringify({ locale, path }) + "\n").join("");
    const response = await this.#ask("POST", this.#address("look"), { body: lines });
    return (await response.text()).split("\n").slice(0, -1).map((line) => JSON.parse(line));
  }

  /** Returns what an item, or the whole bundle, has and inherits, as `resb json --inherit` prints it. Sends only what changed. */
  async tree(locale, path = "") {
    return this.#get(this.#address(locale, ...path.split("/").filter(Boolean)) + "?tree");
  }

  /** Returns the locales of the application's bundles, in the order of installing. */
  async names() {
    return (await this.#get(this.#address())).names;
  }

  /** Installs a bundle, a text or the bytes of a .res file, and returns its tag; refused with 409 Exists if there is one for the locale. */
  async add(locale, bundle) {
    return (await this.#send("POST", locale, bundle)).headers.get("ETag");
  }

  /** Installs a bundle, or replaces the one of the locale: a text, or the bytes of a .res file. Returns its tag. With a tag it is
   * refused with 412 if the bundle isn't the one that has it. */
  async put(locale, bundle, tag) {
    return (await this.#send("PUT", locale, bundle, tag ? { "If-Match": tag } : {})).headers.get("ETag");
  }

  /** Returns the text of the bundle of a locale, and its tag for `put`. */
  async bundle(locale) {
    const response = await this.#ask("GET", this.#address(locale + ".txt"));
    return { text: await response.text(), tag: response.headers.get("ETag") };
  }

  /** Changes items of a bundle, and returns its tag: `{ menu: { open: "Open", close: null } }` sets one and removes the other (RFC 7396, in
   * the form of `resb json`). With a tag it is refused with 412 if the bundle isn't the one that has it. */
  async patch(locale, changes, tag) {
    const headers = { "Content-Type": "application/merge-patch+json", ...(tag ? { "If-Match": tag } : {}) };
    const response = await this.#ask("PATCH", this.#address(locale), { body: JSON.stringify(changes), headers });
    await response.text();
    return response.headers.get("ETag");
  }

  /** Removes the bundle of a locale. With a tag it is refused with 412 if the bundle isn't the one that has it. */
  async remove(locale, tag) {
    await (await this.#ask("DELETE", this.#address(locale), { headers: tag ? { "If-Match": tag } : {} })).text();
  }

  /** Sends a bundle with the type of its body. */
  async #send(method, locale, bundle, headers = {}) {
    const type = typeof bundle === "string" ? "text/plain; charset=utf-8" : "application/octet-stream";
    const response = await this.#ask(method, this.#address(locale), { body: bundle, headers: { ...headers, "Content-Type": type } });
    await response.text();
    return response;
  }

  #address(...parts) {
    return [this.#url, "v1", ...[this.#app, ...parts].map(encodeURIComponent)].join("/");
  }

  /** Returns a reply; the server sends it again only if it has changed. */
  async #get(address) {
    const known = this.#known.get(address);
    const response = await this.#ask("GET", address, { headers: known?.tag ? { "If-None-Match": known.tag } : {} });
    const body = await response.text();
    if (response.status === 304) return known.reply;
    const reply = JSON.parse(body);
    this.#known.set(address, { tag: response.headers.get("ETag"), reply });
    return reply;
  }

  /** Returns a response; asks again while the server can't answer. */
  async #ask(method, address, { body, headers = {} } = {}) {
    const mayRepeat = method === "GET" || method === "PUT" || headers["If-Match"] || address.endsWith("/look");
    for (const end = Date.now() + PATIENCE; ; ) {
      let response;
      try {
        response = await fetch(address, { method, body, headers: { ...headers, Authorization: "Bearer " + this.#token } });
      } catch (error) {
        // A change may have been done, though its answer was lost: a PUT, and what a tag guards, may be asked again.
        if (!mayRepeat || Date.now() > end) throw error;
        await new Promise((wake) => setTimeout(wake, 100));
        continue;
      }
      if (response.ok || response.status === 304) return response;
      const reply = refusal(await response.text());
      const wait = 1000 * Number(response.headers.get("Retry-After") ?? 1);
      if (![429, 503].includes(response.status) || Date.now() + wait > end) throw new Refused(response.status, reply);
      await new Promise((wake) => setTimeout(wake, wait));
    }
  }
}

/** Returns the reply of a refusal; one of a proxy may be no JSON. */
const refusal = (body) => {
  try {
    const reply = JSON.parse(body);
    if (reply?.error) return reply;
  } catch {}
  return { error: "NoReply" };
};

/** Looks items up in the sample bundles, and tries to install a text that isn't valid. */
async function tryLookups(bundles) {
  console.log((await bundles.names()).join(" "));
  for (const path of ["menu/open", "menu/close", "menu/none"]) console.log(path, await bundles.text("de_AT", path));
  console.log(await bundles.text("de_AT", "menu/open")); // answered from the cache, by its tag
  const replies = await bundles.lookMany([["de_AT", "menu/open"], ["de", "menu/close"], ["fr", "menu/open"]]);
  console.log(replies.map((reply) => reply.value ?? reply.error).join(" "));
  try {
    await bundles.add("fr", "fr{");
  } catch (error) {
    console.log(error.message, "in line", error.reply?.line);
  }
  const { text, tag } = await bundles.bundle("de");
  try {
    await bundles.put("de", text + "\n", '"other"');
  } catch (error) {
    console.log(error.message);
  }
  console.log((await bundles.put("de", text, tag)) === tag ? "True" : "False");
}

/** Installs the samples where the application has no bundles, looks items up, and removes the samples. */
async function session(url, app, token) {
  const bundles = new Bundles(url, app, token);
  const tags = new Map();
  try {
    for (const [locale, text] of Object.entries(SAMPLES)) tags.set(locale, await bundles.add(locale, text));
    await tryLookups(bundles);
  } finally {
    for (const [locale, tag] of tags) await bundles.remove(locale, tag); // refused if somebody else has replaced it
  }
  console.log(await bundles.look("de", "menu/open"));
}

if (globalThis.process?.argv[1]?.endsWith("over_http.mjs")) {
  if (process.argv.length !== 5) {
    console.error("usage: over_http.mjs URL APP TOKEN");
    process.exit(2);
  }
  try {
    await session(...process.argv.slice(2));
  } catch (error) {
    if (error.word !== "Exists") throw error;
    console.error(`${process.argv[3]} already has a bundle for ${Object.keys(SAMPLES).join(" or ")}; it was left as it is`);
    process.exit(1);
  }
}
