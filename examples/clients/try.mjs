// Tries resb.mjs against a program: each call once, errors, and many lookups at a time. Status 0 where all is as it should be.
import assert from "node:assert";
import { Resb, ResbError } from "./resb.mjs";

const refused = (promise) =>
  promise.then(
    () => null,
    (error) => (error instanceof ResbError ? error.word : null),
  );

const server = new Resb(process.argv[2], "--extended");
await server.install("shop", "de", { text: 'de{menu{close{"C"}}}' });
await server.install("shop", "de-at", { text: 'de_AT{menu{open{"O"}}}' });
assert.deepEqual(await server.look("shop", "de_AT", "menu/close"), {
  actual: "de",
  type: "string",
  valid: "de_AT",
  value: "C",
});
assert.equal(await refused(server.look("bank", "de_AT", "menu/close")), "NoBundle");
assert.equal(await refused(server.install("shop", "de", { text: "de{}" })), "Exists");
assert.equal(await refused(server.install("shop", "fr", { file: [0] })), "BadFile");
assert.deepEqual(await server.list("shop"), ["de", "de_AT"]);
await server.replace("shop", "de", { text: 'de{menu{close{"D"}}}' });
const pairs = Array.from({ length: 10000 }, (_, i) => ["de_AT", i % 2 ? "none" : "menu/close"]);
const many = await server.lookMany("shop", pairs);
assert.deepEqual([many[0].value, many[1].error, many.length], ["D", "Missing", 10000]);
const merged = { menu: { close: "D", open: "O" } };
assert.deepEqual(await server.tree("shop", "de_AT"), { actual: "de_AT", tree: merged, valid: "de_AT" });
assert.deepEqual(await server.tree("shop", "de_AT", "menu/close"), { actual: "de", tree: "D", valid: "de_AT" });
assert.equal(await refused(server.tree("shop", "de_AT", "none")), "Missing");
await server.remove("shop", "de");
assert.equal(await refused(server.remove("shop", "de")), "Absent");
assert.equal(await server.close(), 0);
console.log("ok: examples/clients/resb.mjs");
