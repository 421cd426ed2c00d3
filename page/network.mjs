// Networks to draw: devices with a place on a plane, and links by range or by hand.

/** @typedef {import("./tokens.mjs").Input} Input */
/** @typedef {Record<string, number | boolean>} Inputs */
/**
 * A device: its number, its place, and its inputs.
 * @typedef {{id: number, x: number, y: number, inputs: Inputs}} Device
 */
/**
 * Two devices, the smaller first, and the weight of their link.
 * @typedef {[number, number, number]} Link
 */
/**
 * A network. If `range` is a length, all devices that are at most so far apart are linked; otherwise links are by hand.
 * `weight` is that of new links; 0 stands for their length.
 * @typedef {{devices: Device[], links: Link[], range: number | null, weight: number}} Network
 */
/**
 * What a program declares.
 * @typedef {{inputs: Input[], metric: [number, number], ceiling: number}} Declared
 */

export const WIDTH = 100, HEIGHT = 70, MOST_DEVICES = 1024, MOST_LINKS = 32, MOST_ID = 65535;

/**
 * Numbers from 0 to 1 that look random, and are the same for the same seed.
 * @param {number} seed
 */
export function dice(seed) {
    let state = seed >>> 0;
    return () => {
        state = (state + 0x6d2b79f5) >>> 0;
        let mixed = Math.imul(state ^ state >>> 15, 1 | state);
        mixed = mixed + Math.imul(mixed ^ mixed >>> 7, 61 | mixed) ^ mixed;
        return ((mixed ^ mixed >>> 14) >>> 0) / 2 ** 32;
    };
}

/** @param {number} length */
export const rounded = (length) => Math.round(length * 100) / 100;

/**
 * A value that an input may have: the one given, or the nearest to it.
 * @param {Input} input
 * @param {unknown} value
 */
export function fitting(input, value) {
    if (input.low === undefined || input.high === undefined) return value === true;
    return Math.max(input.low, Math.min(input.high, typeof value === "number" ? Math.round(value) : input.low));
}

/**
 * @param {Device} one
 * @param {Device} other
 */
export const apart = (one, other) => Math.hypot(one.x - other.x, one.y - other.y);

/**
 * The weight of a new link.
 * @param {Network} network
 * @param {Declared} declared
 * @param {Device} a
 * @param {Device} b
 */
export function weightOf(network, { metric: [low, high] }, a, b) {
    const wanted = network.weight || Math.round(apart(a, b));
    return Math.max(low, Math.min(high, wanted));
}

/**
 * @param {Link} one
 * @param {Link} other
 */
export const byEnds = (one, other) => one[0] - other[0] || one[1] - other[1];

/**
 * The links of all devices that are at most `range` apart; of those of a device at most 32, the shortest.
 * @param {Network} network
 * @param {Declared} declared
 * @returns {Link[]}
 */
export function linksInRange(network, declared) {
    const { devices } = network, range = network.range ?? 0;
    /** @type {[number, Device, Device][]} */
    const pairs = [];
    const sorted = [...devices].sort((a, b) => a.x - b.x);
    sorted.forEach((one, at) => {
        for (let next = at + 1; next < sorted.length && sorted[next].x - one.x <= range; next++) {
            const far = apart(one, sorted[next]);
            if (far <= range) pairs.push([far, one, sorted[next]]);
        }
    });
    /** @type {Map<number, number>} */
    const count = new Map();
    /** @type {Link[]} */
    const links = [];
    for (const [, one, other] of pairs.sort((a, b) => a[0] - b[0])) {
        if ([one, other].some(({ id }) => (count.get(id) ?? 0) >= MOST_LINKS)) continue;
        for (const { id } of [one, other]) count.set(id, (count.get(id) ?? 0) + 1);
        const [a, b] = one.id < other.id ? [one, other] : [other, one];
        links.push([a.id, b.id, weightOf(network, declared, a, b)]);
    }
    return links.sort(byEnds);
}

/**
 * The network with its links made again if they are by range.
 * @param {Network} network
 * @param {Declared} declared
 */
export function linked(network, declared) {
    return network.range === null ? network : { ...network, links: linksInRange(network, declared) };
}

/**
 * By device the numbers of its neighbours.
 * @param {{devices: Device[], links: Link[]}} network
 */
export function neighboursOf({ devices, links }) {
    /** @type {Map<number, number[]>} */
    const near = new Map(devices.map(({ id }) => [id, []]));
    for (const [a, b] of links) {
        near.get(a)?.push(b);
        near.get(b)?.push(a);
    }
    return near;
}

/**
 * The links by hand where that of two devices goes if it is there, and else comes; or the device that has 32 already.
 * @param {Network} network
 * @param {Declared} declared
 * @param {number} a
 * @param {number} b
 * @returns {{links: Link[], isThere: boolean, full: number | undefined}}
 */
export function toggledLink(network, declared, a, b) {
    const [low, high] = [Math.min(a, b), Math.max(a, b)], near = neighboursOf(network);
    const others = network.links.filter(([x, y]) => x !== low || y !== high);
    const isThere = others.length < network.links.length;
    const full = isThere ? undefined : [low, high].find((id) => (near.get(id)?.length ?? 0) >= MOST_LINKS);
    const [one, other] = [low, high].map((id) => network.devices.find((device) => device.id === id));
    if (isThere || full !== undefined || !one || !other) return { links: others, isThere, full };
    const links = [...others, /** @type {Link} */ ([low, high, weightOf(network, declared, one, other)])];
    return { links: links.sort(byEnds), isThere, full };
}
