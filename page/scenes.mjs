// Networks as texts: scenes for fc, and tables of devices.
import { HEIGHT, MOST_DEVICES, MOST_ID, byEnds, fitting, rounded } from "./network.mjs";
import { filling, laidOut } from "./places.mjs";

/** @typedef {import("./network.mjs").Network} Network */
/** @typedef {import("./network.mjs").Device} Device */
/** @typedef {import("./network.mjs").Link} Link */
/** @typedef {import("./network.mjs").Declared} Declared */

/** What can't be read, said in a sentence. */
export class Unread extends Error {}

// Written.

/**
 * The network as a scene for fc, with exactly the inputs that are declared, and weights within the metric.
 * @param {Network} network
 * @param {Declared} declared
 * @param {object} more members of the scene beside
 */
export function sceneOf(network, { inputs, metric: [low, high] }, more = {}) {
    const devices = network.devices.map(({ id, inputs: given }) => ({
        id, inputs: Object.fromEntries(inputs.map((input) => [input.name, fitting(input, given[input.name])])),
    }));
    const links = network.links.map(([a, b, weight]) => [a, b, Math.max(low, Math.min(high, weight))]);
    const rows = (/** @type {unknown[]} */ items) => items.map((item) => JSON.stringify(item)).join(",\n  ");
    const rest = Object.entries(more).map(([name, value]) => `,\n "${name}": ${JSON.stringify(value)}`).join("");
    return `{"devices": [\n  ${rows(devices)}],\n "links": [\n  ${rows(links)}]${rest}}\n`;
}

/**
 * The devices as a table.
 * @param {Network} network
 * @param {Declared} declared
 */
export function writeTable({ devices }, { inputs }) {
    const head = ["id", "x", "y", ...inputs.map(({ name }) => name)].join(",");
    const rows = devices.map(({ id, x, y, inputs: given }) => (
        [id, x, rounded(HEIGHT - y), ...inputs.map((input) => fitting(input, given[input.name]))].join(",")));
    return [head, ...rows, ""].join("\n");
}

// Read.

/** @param {unknown} value */
const isNatural = (value) => Number.isSafeInteger(value) && Number(value) >= 0;

/**
 * A value of a cell of a table.
 * @param {string} cell
 */
function cellValue(cell) {
    if (/^(true|false)$/i.test(cell)) return cell.toLowerCase() === "true";
    if (!/^\d{1,7}$/.test(cell)) throw new Unread(`${JSON.stringify(cell)} isn't a whole number, true or false`);
    return Number(cell);
}

/**
 * A line of a device: its number, its place, and a value for each further column.
 * @param {string[]} names
 * @param {string[]} cells
 * @returns {Device}
 */
function deviceOf(names, cells) {
    const [count, wanted] = [cells.length, names.length];
    if (count !== wanted) throw new Unread(`it has ${count} cells, but the first line has ${wanted}`);
    /** @param {string} name */
    const number = (name) => {
        const cell = cells[names.indexOf(name)], value = Number(cell);
        if (cell !== "" && Number.isFinite(value)) return value;
        throw new Unread(`${name} is ${JSON.stringify(cell)} which isn't a number`);
    };
    const id = number("id");
    if (!Number.isInteger(id) || id < 0 || id > MOST_ID) throw new Unread(`id is ${id}; it has to be 0 to ${MOST_ID}`);
    const others = names.filter((name) => !["id", "x", "y"].includes(name));
    const inputs = Object.fromEntries(others.map((name) => [name, cellValue(cells[names.indexOf(name)])]));
    return { id, x: number("x"), y: number("y"), inputs };
}

/**
 * The devices of a table with the columns id, x, y and inputs; y rises upwards, as on a map. Throws Unread.
 * @param {string} text
 * @returns {Device[]}
 */
export function readTable(text) {
    const rows = text.replace(/^\ufeff/, "").split(/\r?\n/).map((row, at) => ({ row, at }));
    const lines = rows.filter(({ row }) => row.trim());
    const split = (/** @type {string} */ row) => row.split(",").map((cell) => cell.trim());
    const names = split(lines[0]?.row ?? "");
    const missing = ["id", "x", "y"].find((name) => !names.includes(name));
    if (missing) throw new Unread(`line 1: a table of devices has the columns id, x and y, but ${missing} is missing`);
    /** @type {Map<number, Device>} */
    const found = new Map();
    for (const { row, at } of lines.slice(1)) {
        try {
            const device = deviceOf(names, split(row));
            if (found.has(device.id)) throw new Unread(`device ${device.id} is in a line above already`);
            found.set(device.id, { ...device, y: -device.y });
        } catch (error) {
            throw error instanceof Unread ? new Unread(`line ${at + 1}: ${error.message}`) : error;
        }
    }
    if (found.size > MOST_DEVICES) throw new Unread(`it has ${found.size} devices, but at most 1,024 are allowed`);
    return filling([...found.values()].sort((a, b) => a.id - b.id));
}

/**
 * @param {unknown} item
 * @param {number} at
 * @returns {Device}
 */
function sceneDevice(item, at) {
    const { id, inputs = {} } = Object(item);
    const isWell = isNatural(id) && id <= MOST_ID && Object(inputs) === inputs
        && Object.values(inputs).every((value) => typeof value === "boolean" || isNatural(value));
    if (!isWell) throw new Unread(`/devices/${at} isn't a device: {"id": 0, "inputs": {..}}`);
    return { id, x: 0, y: 0, inputs: { ...inputs } };
}

/**
 * @param {unknown} item
 * @param {number} at
 * @param {Set<number>} ids
 * @returns {Link}
 */
function sceneLink(item, at, ids) {
    const isWell = Array.isArray(item) && item.length === 3 && item.every(isNatural);
    if (!isWell) throw new Unread(`/links/${at} isn't a link: [0, 1, 1]`);
    const [a, b, weight] = item;
    if (ids.has(a) && ids.has(b) && a !== b) return [Math.min(a, b), Math.max(a, b), weight];
    throw new Unread(`/links/${at} links ${a} and ${b}, which aren't two of its devices`);
}

/**
 * The devices and links of a scene, laid out where nobody knows their places. Throws Unread.
 * @param {string} text
 * @param {Device[]} known devices whose places are known
 * @returns {Network}
 */
export function readScene(text, known = []) {
    let scene;
    try {
        scene = JSON.parse(text);
    } catch (error) {
        throw new Unread(`it isn't JSON: ${/** @type {Error} */ (error).message}`);
    }
    const hasLists = Array.isArray(scene?.devices) && Array.isArray(scene.links);
    if (!hasLists) throw new Unread("it doesn't have the lists devices and links");
    /** @type {Device[]} */
    const devices = scene.devices.map(sceneDevice);
    devices.sort((a, b) => a.id - b.id);
    const ids = new Set(devices.map(({ id }) => id));
    if (ids.size < devices.length) throw new Unread("two of its devices have one number");
    if (ids.size > MOST_DEVICES) throw new Unread(`it has ${ids.size} devices, but at most 1,024 are allowed`);
    /** @type {Link[]} */
    const links = scene.links.map((/** @type {unknown} */ item, /** @type {number} */ at) => sceneLink(item, at, ids));
    const pairs = new Map(links.map((one) => [`${one[0]} ${one[1]}`, one]));
    if (pairs.size < links.length) throw new Unread("two of its links are of the same devices");
    const places = new Map(known.map((one) => [one.id, one]));
    const found = devices.map((one) => {
        const { x, y } = places.get(one.id) ?? one;
        return { ...one, x, y };
    });
    const placed = devices.every(({ id }) => places.has(id)) ? found : laidOut(devices, links);
    return { devices: placed, links: links.sort(byEnds), range: null, weight: 0 };
}
