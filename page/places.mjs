// Places of devices: shapes that are made from a number of devices, and a layout of devices that have links alone.
import { HEIGHT, WIDTH, apart, dice, neighboursOf, rounded } from "./network.mjs";

/** @typedef {import("./network.mjs").Network} Network */
/** @typedef {import("./network.mjs").Device} Device */
/** @typedef {import("./network.mjs").Link} Link */
/** @typedef {import("./network.mjs").Declared} Declared */

const MARGIN = 6, TURNS = 40, ROOM = 14;

// Shapes.

/**
 * Devices at places, numbered from 0.
 * @param {[number, number][]} places
 * @returns {Device[]}
 */
const numbered = (places) => places.map(([x, y], id) => ({ id, x: rounded(x), y: rounded(y), inputs: {} }));

/**
 * Devices in rows that fill the plane.
 * @param {number} count
 * @returns {Device[]}
 */
function grid(count) {
    const columns = Math.ceil(Math.sqrt(count * WIDTH / HEIGHT)), rows = Math.ceil(count / columns);
    const [wide, high] = [WIDTH - 2 * MARGIN, HEIGHT - 2 * MARGIN];
    const step = Math.min(wide / Math.max(1, columns - 1), high / Math.max(1, rows - 1));
    const left = (WIDTH - step * (columns - 1)) / 2, top = (HEIGHT - step * (rows - 1)) / 2;
    return numbered(Array.from({ length: count }, (_, at) => (
        [left + step * (at % columns), top + step * Math.floor(at / columns)])));
}

/**
 * @param {number} count
 * @returns {Device[]}
 */
function line(count) {
    const step = (WIDTH - 2 * MARGIN) / Math.max(1, count - 1);
    return numbered(Array.from({ length: count }, (_, at) => [MARGIN + step * at, HEIGHT / 2]));
}

/**
 * @param {number} count
 * @returns {Device[]}
 */
function ring(count) {
    return numbered(Array.from({ length: count }, (_, at) => {
        const turn = 2 * Math.PI * at / count;
        return [WIDTH / 2 - 30 * Math.cos(turn), HEIGHT / 2 - 28 * Math.sin(turn)];
    }));
}

/**
 * Devices at random places, none too near to another.
 * @param {number} count
 * @param {number} seed
 * @returns {Device[]}
 */
export function scattered(count, seed) {
    const next = dice(seed), room = 0.6 * Math.sqrt((WIDTH - 2 * MARGIN) * (HEIGHT - 2 * MARGIN) / count);
    /** @type {[number, number][]} */
    const places = [];
    for (let tries = 0; places.length < count; tries++) {
        const x = MARGIN + next() * (WIDTH - 2 * MARGIN), y = MARGIN + next() * (HEIGHT - 2 * MARGIN);
        const near = tries < 40 * count ? room * room : 0;
        if (places.every(([u, v]) => (x - u) * (x - u) + (y - v) * (y - v) >= near)) places.push([x, y]);
    }
    return numbered(places);
}

/**
 * A range that links most of so many scattered devices.
 * @param {number} count
 */
export function usualRange(count) {
    const room = Math.sqrt(WIDTH * HEIGHT / Math.PI / Math.max(1, count));
    return rounded(Math.min(60, 2.15 * room + 1));
}

/** @type {Record<string, (count: number) => Device[]>} */
const SHAPES = { grid, line, ring };

/**
 * A network of a shape: random (made from a number), grid, line or ring. Links are by range, and the first input that
 * is true or false is true of device 0.
 * @param {string} shape
 * @param {number} count
 * @param {number} seed
 * @param {Declared} declared
 * @returns {Partial<Network>}
 */
export function madeNetwork(shape, count, seed, { inputs }) {
    const made = SHAPES[shape]?.(count) ?? scattered(count, seed);
    const input = inputs.find(({ low }) => low === undefined);
    const devices = made.map((one) => input && one.id === 0 ? { ...one, inputs: { [input.name]: true } } : one);
    const [one, ...others] = devices, step = Math.min(60, ...others.map((other) => apart(one, other)));
    return { devices, links: [], range: shape in SHAPES ? rounded(step * 1.1) : usualRange(count) };
}

/** @type {[number, number][]} */
const WAYS = [[1, 0], [0, 1], [-1, 0], [0, -1]];

/**
 * A free place at another, or to its right, below, to its left or above: near enough for a link by the usual range.
 * @param {{x: number, y: number}} from
 * @param {Device[]} devices
 */
export function freePlace({ x, y }, devices) {
    const places = [0, 1, 2, 3].flatMap((far) => (
        WAYS.map(([dx, dy]) => ({ x: x + far * ROOM * dx, y: y + far * ROOM * dy }))));
    return places.find((place) => place.x >= 0 && place.x <= WIDTH && place.y >= 0 && place.y <= HEIGHT
        && devices.every((one) => Math.hypot(one.x - place.x, one.y - place.y) > ROOM / 2)) ?? { x: x + 2, y };
}

/**
 * Places moved and stretched so that they fill the plane.
 * @param {Device[]} devices
 * @returns {Device[]}
 */
export function filling(devices) {
    if (!devices.length) return devices;
    const xs = devices.map(({ x }) => x), ys = devices.map(({ y }) => y);
    const [left, right, top, bottom] = [Math.min(...xs), Math.max(...xs), Math.min(...ys), Math.max(...ys)];
    const scale = Math.min((WIDTH - 2 * MARGIN) / (right - left || 1), (HEIGHT - 2 * MARGIN) / (bottom - top || 1));
    const across = (WIDTH - scale * (right - left)) / 2, down = (HEIGHT - scale * (bottom - top)) / 2;
    return devices.map((one) => (
        { ...one, x: rounded(across + (one.x - left) * scale), y: rounded(down + (one.y - top) * scale) }));
}

/**
 * Devices at free places: each near those to which it may be linked, if there are any.
 * @param {number[]} ids
 * @param {Device[]} devices that have places
 * @param {[number, number][]} pairs that may be linked
 * @returns {Device[]}
 */
export function besideOthers(ids, devices, pairs) {
    const placed = new Map(devices.map((one) => [one.id, one])), next = dice(5);
    /** @type {Map<number, number[]>} */
    const near = new Map(ids.map((id) => [id, []]));
    for (const [a, b] of pairs) {
        near.get(a)?.push(b);
        near.get(b)?.push(a);
    }
    return ids.map((id) => {
        const others = (near.get(id) ?? []).flatMap((other) => placed.get(other) ?? []);
        const [x, y] = ["x", "y"].map((axis) => (
            others.reduce((sum, one) => sum + one[/** @type {"x" | "y"} */ (axis)], 0) / others.length));
        /** @type {Device} */
        let best = { id, x: WIDTH / 2, y: HEIGHT / 2, inputs: {} };
        let most = -1;
        for (let turn = 0; turn < TURNS; turn++) {
            const angle = 2 * Math.PI * next(), reach = MARGIN * (1.2 + turn / TURNS);
            const place = others.length ? [x + reach * Math.cos(angle), y + reach * Math.sin(angle)]
                : [next() * WIDTH, next() * HEIGHT];
            const one = { ...best, x: within(place[0], WIDTH), y: within(place[1], HEIGHT) };
            const room = Math.min(...[...placed.values()].map((other) => apart(one, other)), 2 * MARGIN);
            if (room > most) [best, most] = [one, room];
        }
        placed.set(id, best);
        return best;
    });
}

/**
 * A coordinate that isn't too near to an edge.
 * @param {number} at
 * @param {number} most
 */
const within = (at, most) => rounded(Math.max(MARGIN / 2, Math.min(most - MARGIN / 2, at)));

// A layout.

/**
 * Hops to all devices.
 * @param {number} source
 * @param {Map<number, number[]>} near
 */
function hopsFrom(source, near) {
    const hops = new Map([[source, 0]]), waiting = [source];
    for (const device of waiting) {
        for (const other of near.get(device) ?? []) {
            if (hops.has(other)) continue;
            hops.set(other, (hops.get(device) ?? 0) + 1);
            waiting.push(other);
        }
    }
    return hops;
}

/**
 * Places by hops: devices that are many hops apart are far apart. Hops to some pivots give two coordinates of greatest
 * spread (pivot MDS), and some steps of springs follow.
 * @param {Device[]} devices
 * @param {Link[]} links
 * @returns {Device[]}
 */
export function laidOut(devices, links) {
    if (devices.length < 3) return filling(devices.map((one, at) => ({ ...one, x: 30 * at, y: 0 })));
    const near = neighboursOf({ devices, links }), far = devices.length;
    /** @type {number[]} */
    let least = devices.map(() => Infinity);
    const rows = Array.from({ length: Math.min(24, devices.length) }, () => {
        const pivot = least.indexOf(Math.max(...least)), hops = hopsFrom(devices[pivot].id, near);
        const row = devices.map(({ id }) => Math.min(hops.get(id) ?? far, 2 * Math.sqrt(far) + 4));
        least = least.map((value, at) => Math.min(value, row[at]));
        return row;
    });
    const [across, down] = spread(rows);
    const placed = devices.map((one, at) => ({ ...one, x: across[at], y: down[at] }));
    relax(placed, near);
    return filling(placed);
}

/**
 * The two directions of greatest spread of some rows.
 * @param {number[][]} rows
 * @returns {number[][]}
 */
function spread(rows) {
    const count = rows[0].length;
    /** @param {number[]} row */
    const mean = (row) => row.reduce((sum, x) => sum + x, 0) / row.length;
    const squares = rows.map((row) => row.map((x) => x * x)), ofRows = squares.map(mean);
    const ofDevices = Array.from({ length: count }, (_, at) => mean(squares.map((row) => row[at]))), all = mean(ofRows);
    const centred = squares.map((row, r) => row.map((x, at) => ofRows[r] + ofDevices[at] - all - x));
    /**
     * How much of each row is along a vector.
     * @param {number[]} vector
     */
    const along = (vector) => centred.map((row) => dot(row, vector));
    /** @type {number[][]} */
    const found = [];
    const next = dice(7);
    while (found.length < 2) {
        let vector = Array.from({ length: count }, () => next() - 0.5);
        for (let turn = 0; turn < TURNS; turn++) {
            const weights = along(vector), sum = new Array(count).fill(0);
            centred.forEach((row, r) => row.forEach((x, at) => { sum[at] += x * weights[r]; }));
            for (const other of found) {
                const shared = dot(sum, other);
                other.forEach((x, at) => { sum[at] -= shared * x; });
            }
            const length = Math.sqrt(dot(sum, sum)) || 1;
            vector = sum.map((x) => x / length);
        }
        found.push(vector);
    }
    return found.map((vector) => {
        const weights = along(vector), norm = Math.sqrt(dot(weights, weights));
        return vector.map((x) => x * Math.sqrt(norm));
    });
}

/**
 * @param {number[]} one
 * @param {number[]} other
 */
function dot(one, other) {
    let sum = 0;
    for (let at = 0; at < one.length; at++) sum += one[at] * other[at];
    return sum;
}

/**
 * Springs along links, and a push between devices that are too near.
 * @param {Device[]} devices
 * @param {Map<number, number[]>} near
 */
function relax(devices, near) {
    const at = new Map(devices.map((one) => [one.id, one])), next = dice(3);
    const [xs, ys] = [devices.map(({ x }) => x), devices.map(({ y }) => y)];
    const wide = Math.max(Math.max(...xs) - Math.min(...xs), Math.max(...ys) - Math.min(...ys)) || 1;
    const room = wide / Math.sqrt(devices.length);
    for (const one of devices) {
        one.x += (next() - 0.5) * room / 4;
        one.y += (next() - 0.5) * room / 4;
    }
    const isSmall = devices.length <= 200, turns = isSmall ? 80 : 12;
    for (let turn = 0; turn < turns; turn++) {
        const step = 0.3 * (1 - turn / turns);
        for (const one of devices) {
            for (const other of near.get(one.id) ?? []) pull(one, at.get(other) ?? one, room, step / 2);
            const some = () => devices[Math.floor(next() * devices.length)];
            for (const other of isSmall ? devices : Array.from({ length: 12 }, some)) {
                if (apart(one, other) < room) pull(one, other, room, step);
            }
        }
    }
}

/**
 * Moves a device to be nearer to a length away from another.
 * @param {Device} one
 * @param {Device} other
 * @param {number} length
 * @param {number} part
 */
function pull(one, other, length, part) {
    const far = apart(one, other);
    if (far === 0) return;
    const by = part * (far - length) / far;
    one.x += (other.x - one.x) * by;
    one.y += (other.y - one.y) * by;
}
