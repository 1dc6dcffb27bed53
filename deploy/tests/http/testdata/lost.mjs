// Makes changes through a proxy that loses the first answer to each.
import { Bundles } from "../../../../examples/clients/over_http.mjs";

const bundles = new Bundles(process.argv[2], "shop", process.argv[3]);
let tag = await bundles.put("de", 'de{a{"A"}}');
tag = await bundles.put("de", 'de{a{"B"}}', tag);
tag = await bundles.patch("de", { a: "C" }, tag);
console.log(await bundles.text("de", "a"));
await bundles.remove("de", tag);
console.log((await bundles.names()).length);
