// Answers the cases of a file by the WebAssembly module, and compares: node module_cases.mjs FC.MJS FC.WASM CASES.json
import { readFileSync } from "node:fs";
import { pathToFileURL } from "node:url";

const [calls, bytes, cases] = process.argv.slice(2);
const { answer, compiled } = await import(pathToFileURL(calls));
const module = await compiled(readFileSync(bytes));
let failed = 0, most = 0;
const given = JSON.parse(readFileSync(cases, "utf8"));
for (const { words, input, status, text } of given) {
    let said;
    try {
        said = await answer(module, words, Buffer.from(input, "base64"));
        most = Math.max(most, said.memory);
    } catch (error) {
        said = { status: String(error), text: "" };
    }
    if (said.status !== status || said.text !== text) {
        failed++;
        console.log(`differs: ${words}: ${status} and ${said.status}: ${said.text.slice(0, 60)}`);
    }
}
console.log(`at most ${Math.ceil(most / 2 ** 20)} MiB`);
console.log(`${given.length - failed} passed, ${failed} failed`);
