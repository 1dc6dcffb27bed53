// A client of `resb serve` over its pipe, with Node's standard library alone.
//
//     const server = new Resb("resb");
//     await server.install("shop", "de", { text: 'de{menu{open{"O"}}}' });
//     (await server.look("shop", "de_AT", "menu/open")).value;
//     await server.close();
//
// A reply with an error rejects with a ResbError, whose `word` is the error's name. The n-th reply answers the n-th line, so requests
// may be sent before earlier ones are answered.
import { spawn } from "node:child_process";
import { createInterface } from "node:readline";

export class ResbError extends Error {
  constructor(word) {
    super(word);
    this.word = word;
  }
}

export class Resb {
  #process;
  #waiting = [];
  #ended;
  #hasEnded = false;

  constructor(program = "resb", ...args) {
    this.#process = spawn(program, ["serve", ...args], { stdio: ["pipe", "pipe", "inherit"] });
    this.#process.stdin.on("error", () => {});
    const lines = createInterface({ input: this.#process.stdout, crlfDelay: 0 });
    lines.on("line", (line) => this.#waiting.shift()?.resolve(JSON.parse(line)));
    this.#ended = new Promise((resolve) => {
      const end = (status) => {
        this.#hasEnded = true;
        this.#waiting.splice(0).forEach((one) => one.reject(new Error("resb serve has ended")));
        resolve(status);
      };
      this.#process.on("error", () => end(null));
      this.#process.on("close", end);
    });
  }

  // Ends the server, and returns its status.
  close() {
    this.#process.stdin.end();
    return this.#ended;
  }

  #send(request) {
    if (this.#hasEnded) {
      return Promise.reject(new Error("resb serve has ended"));
    }
    return new Promise((resolve, reject) => {
      this.#waiting.push({ resolve, reject });
      this.#process.stdin.write(JSON.stringify(request) + "\n");
    });
  }

  async #ask(request) {
    const reply = await this.#send(request);
    if (reply.error !== undefined) {
      throw new ResbError(reply.error);
    }
    return reply;
  }

  async #put(op, app, locale, { text, file }) {
    const content = file === undefined ? { text } : { file: Buffer.from(file).toString("hex") };
    await this.#ask({ op, app, locale, ...content });
  }

  // Installs a bundle from its text or from the bytes of its file.
  install(app, locale, content) {
    return this.#put("install", app, locale, content);
  }

  // Replaces the bundle that is there.
  replace(app, locale, content) {
    return this.#put("replace", app, locale, content);
  }

  // Removes a bundle.
  async remove(app, locale) {
    await this.#ask({ op: "remove", app, locale });
  }

  // Returns the names of an application's bundles.
  async list(app) {
    return (await this.#ask({ op: "list", app })).names;
  }

  // Returns the reply to a lookup: its `type`, its value, and the members that docs/SERVER.md has beside them.
  look(app, locale, path) {
    return this.#ask({ op: "look", app, locale, path });
  }

  // Returns the item at a path with everything that it inherits: `tree`, with `actual` and `valid`. The server needs `--extended`.
  tree(app, locale, path = "") {
    return this.#ask({ op: "tree", app, locale, path });
  }

  // Returns the replies to many lookups, each a pair of a locale and a path, in their order; an error is a reply with `error`.
  lookMany(app, asked) {
    return Promise.all(asked.map(([locale, path]) => this.#send({ op: "look", app, locale, path })));
  }
}
