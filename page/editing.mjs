// What a user does to the network.
import { writtenValue } from "./answers.mjs";
import { dropDevice, dropLink, mayChange } from "./changing.mjs";
import { at } from "./elements.mjs";
import { MOST_DEVICES, MOST_ID, WIDTH, fitting, linked, rounded, toggledLink } from "./network.mjs";
import { describe, describeBound } from "./panels.mjs";
import { forgetRun, shownFrame } from "./run.mjs";
import { askSoon, draw, known, now, remember, saveSoon, tell } from "./state.mjs";

/** @typedef {import("./network.mjs").Network} Network */
/** @typedef {import("./network.mjs").Device} Device */
/** @typedef {import("./network.mjs").Link} Link */

/**
 * Another network, which can be undone.
 * @param {Partial<Network>} next
 */
export function change(next) {
    remember();
    put(next);
}

/**
 * Another network, with its links made again if they are by range.
 * @param {Partial<Network>} next
 * @param {number} wait
 */
export function put(next, wait = 0) {
    const { state, declared, chosenLink } = now;
    state.network = linked({ ...state.network, ...next }, declared);
    const { view: { chosen }, network: { links } } = state;
    if (chosen !== null && !isThere(chosen) && !mayChange().changes.coming.has(chosen)) state.view.chosen = null;
    now.chosenLink = chosenLink && (links.find(([a, b]) => a === chosenLink[0] && b === chosenLink[1]) ?? null);
    forgetRun();
    draw();
    askSoon(wait);
}

/** @param {number} id */
const deviceNumbered = (id) => now.state.network.devices.find((one) => one.id === id);

/**
 * Whether a device is in the network.
 * @param {number} id
 */
export const isThere = (id) => now.state.network.devices.some((one) => one.id === id);

/**
 * All devices, one of them changed.
 * @param {number} id
 * @param {(device: Device) => Partial<Device>} to
 */
export const changed = (id, to) =>
    now.state.network.devices.map((one) => one.id === id ? { ...one, ...to(one) } : one);

/**
 * @param {number} x
 * @param {number} y
 */
export function add(x, y) {
    const { devices } = now.state.network, ids = new Set(devices.map(({ id }) => id));
    if (devices.length >= MOST_DEVICES) return tell("A network has at most 1,024 devices.");
    let id = Math.max(-1, ...ids) + 1;
    if (id > MOST_ID) for (id = 0; ids.has(id);) id++;
    now.state.view.chosen = id;
    const device = { id, x: rounded(Math.min(x, WIDTH)), y: rounded(y), inputs: {} };
    change({ devices: [...devices, device].sort((a, b) => a.id - b.id) });
    tell(`Device ${id} is added.`);
}

/** @param {number} id */
export function remove(id) {
    const { devices, links } = now.state.network;
    remember();
    dropDevice(id);
    put({ devices: devices.filter((one) => one.id !== id), links: links.filter(([a, b]) => a !== id && b !== id) });
    tell(`Device ${id} is removed.`);
}

/**
 * A link that is there goes, and one that isn't comes.
 * @param {number} a
 * @param {number} b
 */
export function toggleLink(a, b) {
    const { state: { network }, declared } = now;
    const { links, full, isThere: wasThere } = toggledLink(network, declared, a, b);
    if (full !== undefined) return tell(`Device ${full} has 32 links, and more aren't allowed.`);
    remember();
    if (wasThere) dropLink(a, b);
    put({ links, range: null });
    tell(`${a} and ${b} are ${wasThere ? "no longer " : ""}linked.${byHand(network)}`);
}

/** @param {Network} network as it was */
const byHand = (network) => network.range === null ? "" : " Links are by hand now.";

/** @param {Link} link */
export const unlink = (link) => toggleLink(link[0], link[1]);

/**
 * @param {Link} link
 * @param {number} weight
 */
export function weigh([a, b], weight) {
    const { state: { network }, declared: { metric: [low, high] } } = now;
    const within = Math.max(low, Math.min(high, Math.round(weight) || low));
    change({ links: network.links.map((one) => one[0] === a && one[1] === b ? [a, b, within] : one), range: null });
    tell(`The link of ${a} and ${b} weighs ${within}.${byHand(network)}`);
}

/**
 * @param {number} id
 * @param {string} name
 * @param {number | boolean} value
 */
export function setInput(id, name, value) {
    const input = now.declared.inputs.find((one) => one.name === name);
    if (!input) return;
    const fits = fitting(input, value);
    change({ devices: changed(id, (one) => ({ inputs: { ...one.inputs, [name]: fits } })) });
}

/** @param {number} id */
export function switchInput(id) {
    const input = now.declared.inputs.find(({ name }) => name === at("input").value), device = deviceNumbered(id);
    if (!input) return tell("The program declares no input.");
    if (!device) return tell(`Device ${id} isn't in the network yet; its inputs stand in its line.`);
    const value = input.low === undefined ? device.inputs[input.name] !== true : Number(at("amount").value);
    setInput(id, input.name, value);
    tell(`${input.name} of device ${id} is ${fitting(input, value)}.`);
}

/** @param {number | null} id */
export function choose(id) {
    now.state.view.chosen = id;
    now.chosenLink = null;
    draw();
    saveSoon();
    if (id !== null) tellOf(id);
}

/** @param {Link | null} link */
export function chooseLink(link) {
    now.chosenLink = link;
    now.state.view.chosen = null;
    draw();
}

/**
 * @param {number | null} id
 * @param {string} [more]
 */
export function tellOf(id, more) {
    if (id === null) return tell("");
    const device = deviceNumbered(id), held = shownFrame()?.get(id);
    const said = !device ? [`Device ${id} may come`, describeBound(id, known)] : [
        `Device ${id}`,
        ...now.declared.inputs.map((input) => `${input.name} ${fitting(input, device.inputs[input.name])}`),
        held === undefined ? "" : `holds ${writtenValue(held)}`, describe(id, known),
    ];
    tell([...said, more].filter(Boolean).join("; "), id === now.state.view.chosen && !more);
}
