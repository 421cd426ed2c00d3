// The whole state in the address of the page, behind its `#`, which no browser sends to anybody.
import { HEIGHT, MOST_DEVICES, MOST_ID, WIDTH } from "./network.mjs";

/** @typedef {import("./network.mjs").Network} Network */
/**
 * What is shown beside: the colours (of values, settle rounds, bounds, or the rounds of these), paths, the chosen
 * device, and the number and the round of the run from rubbish.
 * @typedef {{colours: string, paths: boolean, chosen: number | null, number: number, round: number | null}} View
 */
/** @typedef {{program: string, network: Network, changes: string, view: View}} State */

const FORM = "1.", MOST_TEXT = 1048576, COLOURS = ["values", "rounds", "bounds", "within"];

/** @param {Uint8Array} bytes */
function written(bytes) {
    let signs = "";
    for (let at = 0; at < bytes.length; at += 32768) signs += String.fromCharCode(...bytes.subarray(at, at + 32768));
    return btoa(signs).replace(/\+/g, "-").replace(/\//g, "_").replace(/=+$/, "");
}

/** @param {string} text */
function readBytes(text) {
    return Uint8Array.from(atob(text.replace(/-/g, "+").replace(/_/g, "/")), (sign) => sign.charCodeAt(0));
}

/**
 * @param {Uint8Array} bytes
 * @param {GenericTransformStream} stream
 */
const through = async (bytes, stream) => new Response(new Blob([bytes]).stream().pipeThrough(stream)).arrayBuffer();

/**
 * The state as what stands behind the `#`.
 * @param {State} state
 */
export async function addressOf({ program, network, changes, view }) {
    const { devices, links, range, weight } = network;
    const rows = devices.map(({ id, x, y, inputs }) => [id, x, y, inputs]);
    const byHand = range === null ? links : [];
    const text = JSON.stringify({ program, devices: rows, links: byHand, range, weight, changes, view });
    const packed = await through(new TextEncoder().encode(text), new CompressionStream("deflate-raw"));
    return FORM + written(new Uint8Array(packed));
}

/**
 * @param {unknown} value
 * @param {number} least
 * @param {number} most
 */
const isWithin = (value, least, most) => typeof value === "number" && value >= least && value <= most;
/**
 * @param {unknown} value
 * @param {number} most
 */
const isWhole = (value, most) => Number.isInteger(value) && isWithin(value, 0, most);

/** @param {any} row */
function isDevice(row) {
    if (!Array.isArray(row) || row.length !== 4) return false;
    const [id, x, y, inputs] = row;
    return isWhole(id, MOST_ID) && isWithin(x, 0, WIDTH) && isWithin(y, 0, HEIGHT) && Object(inputs) === inputs
        && Object.values(inputs).every((value) => typeof value === "boolean" || isWhole(value, 1e6));
}

/** @param {any} found */
function isState(found) {
    const { program, devices, links, range, weight, changes, view } = Object(found);
    const { colours, paths, chosen, number, round } = Object(view);
    const isText = (/** @type {unknown} */ text) => typeof text === "string" && text.length <= MOST_TEXT;
    if (!isText(program) || !isText(changes)) return false;
    if (!Array.isArray(devices) || devices.length > MOST_DEVICES || !devices.every(isDevice)) return false;
    const ids = new Set(devices.map((row) => row[0]));
    /** @param {any} row */
    const isLink = (row) => Array.isArray(row) && row.length === 3 && ids.has(row[0]) && ids.has(row[1])
        && row[0] < row[1] && isWhole(row[2], 1e6);
    return ids.size === devices.length && Array.isArray(links) && links.every(isLink)
        && new Set(links.map(([a, b]) => `${a} ${b}`)).size === links.length
        && (range === null || isWithin(range, 0, 200)) && isWhole(weight, 1e6) && COLOURS.includes(colours)
        && typeof paths === "boolean" && (chosen === null || isWhole(chosen, MOST_ID)) && isWhole(number, 9999999)
        && (round === null || isWhole(round, 1e6));
}

/**
 * The state that an address has, or null if it has none of this form.
 * @param {string} hash
 * @returns {Promise<State | null>}
 */
export async function stateOf(hash) {
    const text = hash.replace(/^#/, "");
    if (!text.startsWith(FORM)) return null;
    try {
        const bytes = await through(readBytes(text.slice(FORM.length)), new DecompressionStream("deflate-raw"));
        const found = JSON.parse(new TextDecoder().decode(bytes));
        if (!isState(found)) return null;
        const { program, devices, links, range, weight, changes, view } = found;
        /** @param {[number, number, number, any]} row */
        const device = ([id, x, y, inputs]) => ({ id, x, y, inputs });
        return { program, network: { devices: devices.map(device), links, range, weight }, changes, view };
    } catch {
        return null;
    }
}
