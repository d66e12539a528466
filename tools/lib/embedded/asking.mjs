// asking.mjs SCRIPT < CASES: asks the module in the script of the page, which runs here as in a browser. CASES is a
// list of objects with `words`, `policy` and `new`, the last two in base64. Prints the list of the answers.
import { readFileSync } from "node:fs";

const ask = new Function(`${readFileSync(process.argv[2], "utf8")}\nreturn ask;`)();
const bytesOf = (text) => Uint8Array.from(atob(text), (c) => c.charCodeAt(0));
const answers = [];
for (const { words, policy, new: newPolicy } of JSON.parse(readFileSync(0, "utf8"))) {
  answers.push(await ask(bytesOf(policy), words, bytesOf(newPolicy)));
}
process.stdout.write(JSON.stringify(answers));
