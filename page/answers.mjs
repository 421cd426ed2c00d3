// What fc writes, read.

/**
 * A value: a whole number, a truth value, or a pair.
 * @typedef {number | boolean | ValuePair} Value
 */
/** @typedef {[Value, Value]} ValuePair */
/** @typedef {Map<number, Value>} Values */
/**
 * The verdict: its line, the number of rounds of a yes, and the place and the reason of a no.
 * @typedef {{line: string, rounds: number | null, place: number | null, reason: string}} Verdict
 */
/**
 * What `check --settle` answers: the verdict; after how many rounds all devices hold their values, or null if it is
 * open; and by device its settle round and its value, if they are known.
 * @typedef {{verdict: Verdict, rounds: number | null, byDevice: Map<number, number>, values: Values}} Settled
 */
/**
 * Between which two values one stays.
 * @typedef {{low: Value, high: Value}} Bound
 */
/**
 * What is said of a device while the network changes: after how many rounds it stays within a bound, that bound and
 * its text, and whether it may be away.
 * @typedef {{round: number, text: string, bound: Bound, isAway: boolean}} Bounded
 */
/**
 * What `check --settle --changes` answers: the verdict for as many devices as there may be, the greatest round of a
 * device, and what is said of each.
 * @typedef {{verdict: Verdict, rounds: number, byDevice: Map<number, Bounded>}} Bounds
 */

/** @param {string} text */
const linesOf = (text) => text.split("\n").filter((line) => line !== "");

/**
 * A value as fc writes it.
 * @param {string} text
 * @returns {Value}
 */
export function readValue(text) {
    return JSON.parse(text.replace(/\(/g, "[").replace(/\)/g, "]"));
}

/**
 * A value as fc writes it.
 * @param {Value} value
 * @returns {string}
 */
export const writtenValue = (value) => Array.isArray(value) ? `(${value.map(writtenValue).join(",")})` : String(value);

/**
 * @param {string} line
 * @returns {Verdict}
 */
export function readVerdict(line) {
    const [word, second, reason = ""] = line.split(" ");
    const isYes = word === "yes";
    return { line, rounds: isYes ? Number(second) : null, place: isYes ? null : Number(second), reason };
}

/**
 * @param {string} text
 * @returns {Settled}
 */
export function readSettled(text) {
    const [first, second, ...rows] = linesOf(text);
    /** @type {Map<number, number>} */
    const byDevice = new Map();
    /** @type {Values} */
    const values = new Map();
    for (const row of rows) {
        const [id, round, value] = row.split(" ");
        if (value === undefined) continue;
        byDevice.set(Number(id), Number(round));
        values.set(Number(id), readValue(value));
    }
    const rounds = second === "open" ? null : Number(second.split(" ")[1]);
    return { verdict: readVerdict(first), rounds, byDevice, values };
}

/**
 * Lines of a device and its value; a device that has published nothing isn't there.
 * @param {string[]} rows
 * @returns {Values}
 */
export function readValues(rows) {
    const pairs = rows.map((row) => row.split(" ")).filter(([, value]) => value !== "-");
    return new Map(pairs.map(([id, value]) => [Number(id), readValue(value)]));
}

/**
 * Final values of `stable`.
 * @param {string} text
 */
export const readStable = (text) => readValues(linesOf(text));

/**
 * By device a cheapest path that ends in it, of `trace`.
 * @param {string} text
 * @returns {Map<number, number[]>}
 */
export function readPaths(text) {
    return new Map(linesOf(text).slice(1).map((row) => {
        const [id, , ...path] = row.split(" ");
        return [Number(id), path.map(Number)];
    }));
}

/**
 * Values and the table of `replay --table`.
 * @param {string} text
 */
export function readReplayed(text) {
    const rows = linesOf(text), table = rows.pop() ?? "{}";
    return { values: readValues(rows), table: JSON.parse(table) };
}

/**
 * A bound as fc writes it: its two ends.
 * @param {string} text
 * @returns {Bound}
 */
export const readBound = (text) => ({
    low: readValue(text.replace(/\.\.\d+/g, "").replace(/any/g, "false")),
    high: readValue(text.replace(/\d+\.\./g, "").replace(/any/g, "true")),
});

/**
 * Whether a bound is one value.
 * @param {Bound} bound
 */
export const isOne = ({ low, high }) => writtenValue(low) === writtenValue(high);

/**
 * @param {string} text
 * @returns {Bounds}
 */
export function readBounds(text) {
    const [first, second, ...rows] = linesOf(text);
    const byDevice = new Map(rows.map((row) => {
        const [id, round, bound, away] = row.split(" ");
        return [Number(id), { round: Number(round), text: bound, bound: readBound(bound), isAway: away !== undefined }];
    }));
    return { verdict: readVerdict(first), rounds: Number(second.split(" ")[1]), byDevice };
}
