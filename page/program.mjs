// The program: its text, the blocks that it calls, and what is said of it.
import { workers } from "./asking.mjs";
import { headOf } from "./blocks.mjs";
import { Editor, placeOf } from "./editor.mjs";
import { at, button, element } from "./elements.mjs";
import { linked } from "./network.mjs";
import { forgetRun } from "./run.mjs";
import { drawControls } from "./showing.mjs";
import { askSoon, known, now, remember, tell } from "./state.mjs";
import { declaredBy } from "./tokens.mjs";
import { counted, saidOf } from "./words.mjs";

/** @typedef {import("./blocks.mjs").Block} Block */

export const editor = new Editor(at("program"), at("shown"));
/**
 * The blocks of the library, by name.
 * @type {Map<string, Block>}
 */
export const library = new Map();

/** What follows from another text in the editor. */
export function typed() {
    const { state } = now;
    state.program = editor.text;
    now.declared = declaredBy(state.program);
    state.network = linked(state.network, now.declared);
    forgetRun();
    editor.stretch = null;
    editor.draw();
    drawControls();
    askSoon();
}

/**
 * Another text of the program.
 * @param {string} text
 */
export function program(text) {
    remember();
    editor.text = text;
    typed();
}

export async function format() {
    const { status, text } = await workers.run.ask("format", now.state.program);
    if (status === 0) program(text);
    else tell(saidOf(text.trim()).what);
}

// Blocks to insert.

/**
 * Offers blocks, those of a group together.
 * @param {Block[]} blocks
 */
export function offerBlocks(blocks) {
    /** @type {Map<string, any>} */
    const groups = new Map();
    for (const block of blocks) {
        library.set(block.name, block);
        if (block.isPart) continue;
        const group = groups.get(block.group) ?? element("optgroup", { label: block.group });
        group.append(element("option", { value: block.name, text: block.call }));
        groups.set(block.group, group);
    }
    at("block").replaceChildren(element("option", { value: "", text: "choose .." }), ...groups.values());
}

const chosenBlock = () => library.get(at("block").value);

export function tellOfBlock() {
    const block = chosenBlock();
    at("about-block").textContent = block ? `${headOf(block)}: ${block.gives} It needs: ${block.needs}` : "";
}

/** Writes a call of the chosen block, whose arguments are then chosen. */
export function insertBlock() {
    const call = chosenBlock()?.call ?? "";
    tellOfBlock();
    editor.insert(call, call.indexOf("(") + 1, call.lastIndexOf(")"));
}

/** Shows the blocks that are put in front of the program. */
export function drawBlocks() {
    const taken = known.made?.taken ?? [];
    at("with-blocks").hidden = !taken.length;
    const names = taken.map(({ name }) => name).join(", ");
    at("blocks-count").textContent = `${counted(taken.length, "block")} put in front: ${names}`;
    at("blocks-text").textContent = known.made?.inserted.trim() ?? "";
}

// What is said of the text.

/** @param {{from: number}} mark */
export function whereOf({ from }) {
    const { line, column } = placeOf(now.state.program, from);
    return `Line ${line}, column ${column}`;
}

/**
 * Says what is wrong, and marks where.
 * @param {{what: string, hint: string}} said
 * @param {import("./marking.mjs").Mark | null} mark
 * @param {string} kind
 * @param {(Node | string)[]} more
 */
export function complain(said, mark, kind, ...more) {
    const nodes = [];
    if (mark) {
        const within = mark.block ? ` (within the block ${mark.block}): ` : ": ";
        nodes.push(button(whereOf(mark), () => editor.select(mark.from, mark.to), "plain"), within);
    }
    const paragraph = element("p", {}, ...nodes, said.what, ...more);
    const hint = said.hint ? [element("p", { class: "small", text: said.hint })] : [];
    at("fault").replaceChildren(element("div", { class: "said" }, paragraph, ...hint));
    editor.mark(mark && { ...mark, kind });
}

/** Removes what was said of the text. */
export function clearFault() {
    at("fault").replaceChildren();
    editor.mark(null);
}
