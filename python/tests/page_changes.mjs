// Writes patterns of what may change out as the page does: page_changes.mjs FOLDER GIVEN.json
import { readFileSync } from "node:fs";
import { pathToFileURL } from "node:url";

const [folder, file] = process.argv.slice(2);
const { writtenOut } = await import(pathToFileURL(`${folder}/changes.mjs`));
const { declaredBy } = await import(pathToFileURL(`${folder}/tokens.mjs`));
const { program, network, rows } = JSON.parse(readFileSync(file, "utf8"));
console.log(JSON.stringify(rows.map((row) => writtenOut(row, network, declaredBy(program)).lines)));
