// What is opened in place of the state: an address, an example, a file, what was before. And what is saved.
import { inputOf } from "./asking.mjs";
import { field, hasChanges, mayChange, refuseLine } from "./changing.mjs";
import { change } from "./editing.mjs";
import { at, element, save } from "./elements.mjs";
import { linked } from "./network.mjs";
import { usualRange } from "./places.mjs";
import { editor } from "./program.mjs";
import { forgetRun } from "./run.mjs";
import { Unread, readScene, readTable, sceneOf, writeTable } from "./scenes.mjs";
import { stateOf } from "./sharing.mjs";
import { drawing } from "./showing.mjs";
import {
    OWN, askSoon, draw, empty, forget, fresh, known, lastAddress, moving, now, remember, remembered, saveNow, tell,
    withChanges,
} from "./state.mjs";
import { declaredBy } from "./tokens.mjs";

/** @typedef {import("./sharing.mjs").State} State */
/** @typedef {{name: string, program: string, scene: string, changes: string}} Example */

/** @param {State} next */
function restore(next) {
    forgetRun();
    now.state = next;
    now.chosenLink = null;
    editor.text = next.program;
    field.text = next.changes;
    refuseLine(null);
    at("changing").open = next.changes.trim() !== "";
    now.declared = declaredBy(next.program);
    next.network = linked(next.network, now.declared);
    forget();
    editor.mark(null);
    draw();
    askSoon(0);
}

export function undo() {
    const last = remembered(), { state } = now;
    if (last) restore({ ...state, ...last, view: { ...state.view, chosen: null, round: null } });
}

// The address.

export async function fromAddress() {
    if (location.hash === lastAddress) return;
    const isFirst = location.hash.length <= 1, found = isFirst ? fresh() : await stateOf(location.hash);
    notice(found ? "" : "This address has no state that this page can read, so the first example is shown. "
        + "Perhaps its end was cut off.");
    restore(found ?? fresh());
    if (isFirst || !found) at("example").value = FIRSTS[0].value;
}

/** @param {string} said what went wrong, or nothing */
function notice(said) {
    at("notice").hidden = !said;
    at("notice").textContent = said;
}

/** Opens a link that somebody sent, wherever the file of this page was there. */
export async function openLink() {
    const text = at("link").value.trim();
    if (!text) return;
    const found = await stateOf(text.slice(text.indexOf("#") + 1));
    notice(found ? "" : "This link has no state that this page can read. Perhaps its end was cut off.");
    scrollTo(0, 0);
    if (!found) return;
    at("link").value = "";
    remember();
    restore(found);
}

export async function share() {
    await saveNow();
    const address = location.href.split("#")[0] + lastAddress;
    let said = "It is in the address bar";
    try {
        await navigator.clipboard.writeText(address);
        said = "Copied";
    } catch { /* then it is copied from there */ }
    at("share").textContent = said;
    setTimeout(() => { at("share").textContent = "Copy link"; }, 3000);
    // a file has another address on each disk
    at("shared").hidden = location.protocol !== "file:";
    at("shared").textContent = `${said}. The link begins with where this file is on your disk. So send the file too: `
        + "whoever has it, wherever it is there, opens it and pastes the link into the field at its foot.";
}

// Examples.

const FIRSTS = [
    { value: "", name: "Hop count", state: fresh },
    { value: "moving", name: "Hop count, while the network changes", state: moving },
    { value: "empty", name: "Empty, for your own", state: empty },
];
/** @type {Example[]} */
let examples = [];

/** @param {Example[]} offered */
export function offerExamples(offered) {
    examples = offered;
    const options = [...FIRSTS.map(({ value, name }) => [value, name]), ...examples.map(({ name }) => [name, name])];
    at("example").replaceChildren(...options.map(([value, text]) => element("option", { value, text })),
        element("option", { value: OWN, text: "your own", hidden: true, disabled: true }));
}

/** @param {string} name */
export function showExample(name) {
    const found = examples.find((one) => one.name === name), first = name === "empty" ? "add" : "move";
    const own = FIRSTS.find(({ value }) => value === name) ?? FIRSTS[0];
    remember();
    /** @type {HTMLInputElement} */ (document.querySelector(`input[value=${first}]`)).checked = true;
    drawing.begin(null);
    if (!found) restore(own.state());
    else restore(withChanges({ ...fresh(), program: found.program, network: readScene(found.scene) }, found.changes));
    at("example").value = name;
    if (name === "empty") tell("Click or tap on the drawing: there a device is added.");
}

// Files.

/**
 * Opens a file: a table of devices, a scene, or an input of fc with both sections.
 * @param {string} text
 */
function readFile(text) {
    const { network } = now.state, [front, ...others] = text.split(/^%%\r?\n/m);
    if (others.length) {
        const [scene, rest = ""] = others, rows = rest.split("\n");
        const changes = rows.every((row) => /^(set |link |unlink |leave |join |\s*$)/.test(row)) ? rest : "";
        const read = { ...fresh(), program: front, network: readScene(scene, network.devices) };
        remember();
        return restore(withChanges(read, changes));
    }
    if (/^\s*[{[]/.test(text)) return change({ ...readScene(text, network.devices) });
    const devices = readTable(text), ids = new Set(network.devices.map(({ id }) => id));
    const isSame = devices.length === ids.size && devices.every(({ id }) => ids.has(id));
    const old = new Map(network.devices.map((one) => [one.id, one.inputs]));
    const merged = devices.map((one) => ({ ...one, inputs: { ...old.get(one.id), ...one.inputs } }));
    if (isSame) change({ devices: merged });
    else change({ devices, links: [], range: usualRange(devices.length) });
}

/** @param {Event} event */
export async function readChosen(event) {
    const field = /** @type {HTMLInputElement} */ (event.target), file = field.files?.[0];
    if (!file) return;
    try {
        readFile(await file.text());
        notice("");
    } catch (error) {
        if (!(error instanceof Unread)) throw error;
        notice(`${file.name} can't be read: ${error.message}.`);
    }
    field.value = "";
}

export const saveScene = () => save("network.json", sceneOf(now.state.network, now.declared));
export const saveTable = () => save("devices.csv", writeTable(now.state.network, now.declared));
export const saveInput = () => save("input.txt", inputOf(
    known.made?.text ?? now.state.program, sceneOf(now.state.network, now.declared),
    ...hasChanges() ? [mayChange().written.lines.join("\n")] : []));
