// What may change, on the page: the field of its lines, and the buttons that write lines.
import { changesOf, keyOf, spanOf, wordsOf, writtenOut, writtenSpan } from "./changes.mjs";
import { Editor } from "./editor.mjs";
import { at, button, element } from "./elements.mjs";
import { joining, stretchOf } from "./lines.mjs";
import { MOST_ID, weightOf } from "./network.mjs";
import { askSoon, draw, now, remember, tell } from "./state.mjs";
import { lineTokens } from "./tokens.mjs";
import { counted } from "./words.mjs";

/** @typedef {import("./changes.mjs").Changes} Changes */
/** @typedef {import("./changes.mjs").Written} Written */
/** @typedef {import("./network.mjs").Network} Network */
/** @typedef {import("./network.mjs").Declared} Declared */

export const field = new Editor(at("changes"), at("changes-shown"), lineTokens);

/** @type {{text: string, network: Network, declared: Declared, written: Written, changes: Changes} | null} */
let lastRead = null;

/** The lines as fc gets them, and what they say. */
export function mayChange() {
    const { state: { changes: text, network }, declared } = now;
    if (lastRead?.text !== text || lastRead.network !== network || lastRead.declared !== declared) {
        const written = writtenOut(text, network, declared);
        lastRead = { text, network, declared, written, changes: changesOf(written.lines) };
    }
    return lastRead;
}

/** Whether any line says what may change. */
export const hasChanges = () => now.state.changes.trim() !== "";

// The lines.

/**
 * Other lines, of which fc is asked.
 * @param {string} text
 * @param {number} [wait]
 */
function putLines(text, wait) {
    const { state, state: { view } } = now, had = hasChanges();
    state.changes = text;
    if (hasChanges() && !had) {
        at("changing").open = true;
        view.colours = "bounds";
    }
    if (!hasChanges() && ["bounds", "within"].includes(view.colours)) view.colours = "values";
    const { chosenLink } = now;
    // a pair that no line links any more can't be chosen
    if (chosenLink && !chosenLink[2] && !mayChange().changes.linked.has(keyOf(chosenLink[0], chosenLink[1]))) {
        now.chosenLink = null;
    }
    refuseLine(null);
    draw();
    askSoon(wait);
}

/** What follows from another text in the field. */
export const typedChanges = () => putLines(field.text);

/**
 * Other lines, written by the page.
 * @param {string[]} rows
 */
function write(rows) {
    remember();
    field.text = rows.length ? `${rows.join("\n")}\n` : "";
    putLines(field.text, 0);
}

/** The lines that aren't empty. */
const rowsOf = () => now.state.changes.split("\n").filter((row) => row.trim());

/**
 * A line in the form in which it is compared: a pair has its smaller number first.
 * @param {string} row
 */
function plain(row) {
    const words = wordsOf(row), [verb, one, two] = words;
    const isPair = ["link", "unlink"].includes(verb) && Number(two) < Number(one);
    return (isPair ? [verb, two, one, ...words.slice(3)] : words).join(" ");
}

/**
 * The lines that are one, or that say of some words which value they may have.
 * @param {string} start
 */
function rowsWith(start) {
    const hasValue = /^(set|links?) /.test(start);
    return rowsOf().filter((row) => plain(row) === start || hasValue && plain(row).startsWith(`${start} `));
}

/**
 * Removes lines that begin with some words, and adds others.
 * @param {string[]} starts
 * @param {string[]} added
 */
function replaced(starts, added) {
    const gone = new Set(starts.flatMap(rowsWith));
    write([...rowsOf().filter((row) => !gone.has(row)), ...added]);
}

/**
 * Removes a line.
 * @param {number} row
 */
export const dropRow = (row) => write(now.state.changes.split("\n").filter((text, at) => at !== row && text.trim()));

/**
 * Removes lines along with what they name, and asks nothing yet.
 * @param {(row: string) => boolean} stays
 */
function keep(stays) {
    field.text = now.state.changes = now.state.changes.split("\n").filter(stays).join("\n");
}

/**
 * Removes the lines that name a device that goes.
 * @param {number} id
 */
export function dropDevice(id) {
    keep((row) => {
        const [verb, one, two] = wordsOf(row), isPair = verb === "link" || verb === "unlink";
        return one !== String(id) && !(isPair && two === String(id));
    });
}

/**
 * Removes the line that says that a link may go, when it goes.
 * @param {number} a
 * @param {number} b
 */
export function dropLink(a, b) {
    if (!rowsWith(`link ${keyOf(a, b)}`).length) keep((row) => plain(row) !== `unlink ${keyOf(a, b)}`);
}

/**
 * Removes what lines say of a device that isn't in the network.
 * @param {number} id
 */
export function forgetComing(id) {
    remember();
    dropDevice(id);
    putLines(now.state.changes, 0);
    tell(`No line names device ${id} any more.`);
}

/**
 * A line that says that two devices may be linked comes, or goes if it is there.
 * @param {number} a
 * @param {number} b
 */
export function mayLink(a, b) {
    const { state: { network }, declared } = now, start = `link ${keyOf(a, b)}`, isThere = rowsWith(start).length > 0;
    const [one, other] = [a, b].map((id) => network.devices.find((device) => device.id === id));
    const weight = one && other ? weightOf(network, declared, one, other) : Math.max(1, declared.metric[0]);
    replaced([start], isThere ? [] : [`${start} ${weight}`]);
    tell(isThere ? `No line links ${a} and ${b} any more.` : `A link of ${a} and ${b} may come.`);
}

// Buttons for what is chosen.

/**
 * A button that is down while its lines are there, and adds or removes them.
 * @param {string} text
 * @param {string} start with which its lines begin
 * @param {string} line
 * @param {boolean} [isSaid] whether lines for several say the same
 */
function toggle(text, start, line, isSaid = false) {
    const isOwn = rowsWith(start).length > 0, isDown = isOwn || isSaid;
    const node = button(text, () => replaced([start], isOwn ? [] : [line]), "toggle");
    node.setAttribute("aria-pressed", String(isDown));
    if (isSaid && !isOwn) {
        node.disabled = true;
        node.title = "a line for several says so";
    }
    return node;
}

/**
 * A button for a value that may change, and fields for its ends.
 * @param {string} text
 * @param {string} start with which its lines begin
 * @param {{values: string[], low: number | undefined, high: number | undefined, named: string}} of
 */
function chance(text, start, { values, low, high, named }) {
    const node = toggle(text, start, `${start} any`, values.length > 0), own = rowsWith(start);
    if (!own.length || low === undefined || high === undefined) return [node];
    const ends = spanOf(own.map((row) => wordsOf(row).pop() ?? ""), [], low, high);
    const fields = ["least", "greatest"].map((end, place) => {
        const input = element("input", { type: "number", min: low, max: high, "aria-label": `${end} ${named}` });
        input.value = String(Number.isFinite(ends[place]) ? ends[place] : [low, high][place]);
        input.addEventListener("change", () => {
            ends[place] = Number(input.value);
            replaced([start], [`${start} ${writtenSpan(ends, low, high)}`]);
        });
        return input;
    });
    return [element("span", { class: "span" }, node, fields[0], "to", fields[1])];
}

/**
 * A row of buttons.
 * @param {string} named
 * @param {Node[]} nodes
 */
const group = (named, nodes) => element("div", { class: "row chances", role: "group", "aria-label": named },
    element("span", { class: "small", text: "May change:" }), ...nodes);

/**
 * The buttons for what may change of a device.
 * @param {number} id
 */
export function chancesOfDevice(id) {
    const { state: { network }, declared: { inputs } } = now, { changes } = mayChange();
    const hasLinks = network.links.some(([a, b]) => a === id || b === id);
    const values = inputs.flatMap(({ name, low, high }) => chance(
        `${name} may change`, `set ${id} ${name}`,
        { values: changes.inputs.get(id)?.get(name) ?? [], low, high, named: `${name} of device ${id}` }));
    return group(`What may change of device ${id}`, [
        toggle("may leave", `leave ${id}`, `leave ${id}`, changes.away.has(id)), ...values,
        ...hasLinks ? [toggle("all its links may go", `unlink ${id}`, `unlink ${id}`)] : [],
        button("another may come beside it", () => comesBeside(id)),
    ]);
}

/**
 * Adds lines for a device that may come and be linked to another.
 * @param {number} id
 */
function comesBeside(id) {
    const { state: { network }, declared } = now, { changes: { coming } } = mayChange();
    const ids = new Set([...network.devices.map((one) => one.id), ...coming.keys()]);
    let free = Math.max(-1, ...ids) + 1;
    if (free > MOST_ID) for (free = 0; ids.has(free);) free++;
    const weight = network.weight || Math.max(1, declared.metric[0]);
    write([...rowsOf(), joining(free, declared.inputs), `link ${id} ${free} ${weight}`]);
    tell(`Device ${free} may come, linked to ${id}.`);
}

/**
 * The buttons for what may change of a link; or of a pair that may be linked, with a weight of 0.
 * @param {import("./network.mjs").Link} link
 */
export function chancesOfLink([a, b, weight]) {
    const { declared: { metric: [low, high] } } = now, { changes } = mayChange(), key = keyOf(a, b);
    const weights = { values: changes.weights.get(key) ?? [], low, high, named: `weight of the link ${a} to ${b}` };
    const go = weight ? [toggle("may go", `unlink ${key}`, `unlink ${key}`, changes.going.has(key))] : [];
    const weigh = high > low ? chance("its weight may change", `link ${key}`, weights) : [];
    return group(`What may change of the link ${a} to ${b}`, [...go, ...weigh]);
}

// The field, and the buttons for all.

/** Draws what stands around the field. */
export function drawChanging() {
    const { declared: { inputs, metric: [low, high] } } = now, count = rowsOf().length;
    at("changes-count").textContent = count ? `: ${counted(count, "line")}` : "";
    const all = [
        toggle("any link may go", "unlink *", "unlink *"),
        ...high > low ? [toggle("any weight may change", "links *", "links * any")] : [],
        toggle("any device may leave", "leave *", "leave *"),
        ...inputs.map(({ name }) => toggle(`${name} may change at any device`, `set * ${name}`, `set * ${name} any`)),
        ...count ? [button("Remove all lines", () => write([]))] : [],
    ];
    const holder = at("for-all"), active = document.activeElement;
    const text = active && holder.contains(active) ? active.textContent : null;
    holder.replaceChildren(...all);
    all.find((node) => node.textContent === text)?.focus();
}

/** Whether it is said that a line is wrong. */
export const isRefused = () => at("changes-fault").childElementCount > 0;

/**
 * Says what is wrong with a line, and marks it; or removes that.
 * @param {{what: string, hint: string, row: number | null, at: [number, number] | null} | null} refused
 */
export function refuseLine(refused) {
    const said = at("changes-fault");
    field.field.setAttribute("aria-invalid", String(refused !== null));
    if (!refused) {
        said.replaceChildren();
        return field.mark(null);
    }
    const { what, hint, row } = refused, { changes } = now.state, nodes = [];
    const mark = row === null ? null : stretchOf(changes, row, refused.at ?? [0, Infinity]);
    if (mark && row !== null) {
        nodes.push(button(`Line ${row + 1}`, () => field.select(mark.from, mark.to), "plain"), ": ");
    }
    const away = row === null ? [] : [" ", button("Remove this line", () => dropRow(row))];
    said.replaceChildren(element("div", { class: "said" }, element("p", {}, ...nodes, what, ...away),
        ...hint ? [element("p", { class: "small", text: hint })] : []));
    field.mark(mark && { ...mark, kind: "" });
    at("changing").open = true;
}
