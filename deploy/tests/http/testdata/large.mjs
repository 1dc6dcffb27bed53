// Sends a file by fetch, and prints the status of the answer.
import { readFileSync } from "node:fs";

const [host, path, token, file] = process.argv.slice(2);
const answer = await fetch(`http://${host}${path}`, { method: "PUT", body: readFileSync(file), headers: { Authorization: `Bearer ${token}` } });
console.log(answer.status);
