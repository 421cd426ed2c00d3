// Finds places in wrong programs as the page does, and compares the lines: page_places.mjs FOLDER ROWS.json
import { readFileSync } from "node:fs";
import { pathToFileURL } from "node:url";

const [folder, file] = process.argv.slice(2);
const { markOf } = await import(pathToFileURL(`${folder}/marking.mjs`));
const { placeOf } = await import(pathToFileURL(`${folder}/editor.mjs`));
const rows = JSON.parse(readFileSync(file, "utf8"));
let failed = 0;
for (const { program, line, wanted } of rows) {
    const mark = markOf({ own: program, text: program, at: program.length, inserted: "", taken: [] }, line);
    if (mark && placeOf(program, mark.from).line === wanted) continue;
    failed++;
    console.log(`differs: ${line}: ${wanted}: ${JSON.stringify(program.slice(0, 60))}`);
}
console.log(`${rows.length - failed} passed, ${failed} failed`);
