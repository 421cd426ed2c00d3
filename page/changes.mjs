// What may change of a network, by lines: those of fc, and patterns that stand for several of them, as in `fieldc`.
import { fitting } from "./network.mjs";

/** @typedef {import("./network.mjs").Network} Network */
/** @typedef {import("./network.mjs").Declared} Declared */
/**
 * What is wrong with a line: which one, from 0, a sentence, and what to try.
 * @typedef {{row: number, what: string, hint: string}} WrongLine
 */
/**
 * The lines for fc, each with the line of the text that it comes from, and the first pattern that means nothing.
 * @typedef {{lines: string[], rows: number[], wrong: WrongLine | null}} Written
 */
/**
 * What may change: devices that may be away, and those of them that come with which inputs; pairs whose link may go;
 * pairs that may be linked; the weights of lines by pair; and the inputs of lines by device and name.
 * @typedef {{
 *   away: Set<number>, coming: Map<number, string[]>, going: Set<string>, linked: Map<string, [number, number]>,
 *   weights: Map<string, string[]>, inputs: Map<number, Map<string, string[]>>,
 * }} Changes
 */

/** Why a pattern means nothing. */
class Nothing extends Error {}

const DEVICES = "Devices are written 3, * for all, 3..6, or src=false for those whose input is that.";

const ABOUT = /^\+-(\d{1,7})$/, NUMBERS = /^(\d{1,7})\.\.(\d{1,7})$/;
const WITH_INPUT = /^([A-Za-z]\w*)=(true|false|\d{1,7})$/, MOST_COMING = 1024, MOST_LINES = 40000;

/**
 * A pair of devices as a key, whichever comes first.
 * @param {number} a
 * @param {number} b
 */
export const keyOf = (a, b) => `${Math.min(a, b)} ${Math.max(a, b)}`;

/** @param {string} row */
export const wordsOf = (row) => row.trim().split(/\s+/);

/** @param {string} word */
const isNumber = (word) => /^\d{1,7}$/.test(word);

/**
 * The devices that a word means: a number, `*` for all of the network, `3..9`, or `input=value`.
 * @param {string} word
 * @param {Network} network
 * @param {Declared} declared
 * @returns {number[]}
 */
function devicesOf(word, { devices }, { inputs }) {
    if (isNumber(word)) return [Number(word)];
    const numbers = NUMBERS.exec(word), given = WITH_INPUT.exec(word);
    const input = inputs.find(({ name }) => name === given?.[1]);
    if (given && !input) throw new Nothing(`no input is called ${given[1]}`);
    /** @type {(one: import("./network.mjs").Device) => boolean} */
    const isMeant = ({ id, inputs: own }) => word === "*"
        || !!numbers && Number(numbers[1]) <= id && id <= Number(numbers[2])
        || !!given && !!input && String(fitting(input, own[input.name])) === given[2];
    const found = devices.filter(isMeant).map(({ id }) => id);
    if (!found.length) throw new Nothing(`no device of the network is ${word}`);
    return found.sort((a, b) => a - b);
}

/**
 * A value: `+-2` is about the number of now, within a range.
 * @param {string} word
 * @param {unknown} value
 * @param {number} low
 * @param {number} high
 */
function valueAbout(word, value, low, high) {
    const found = ABOUT.exec(word);
    if (!found) return word;
    if (typeof value !== "number") throw new Nothing(`${word} is about a number; write any`);
    const by = Number(found[1]), at = Math.max(low, Math.min(high, value));
    const ends = [Math.max(low, at - by), Math.min(high, at + by)];
    return ends[0] === ends[1] ? String(ends[0]) : ends.join("..");
}

/**
 * The links between devices that two words mean, or all of those of one word.
 * @param {string[]} words
 * @param {Network} network
 * @param {Declared} declared
 */
function linksOf(words, network, declared) {
    const [ones, others] = words.map((word) => new Set(devicesOf(word, network, declared)));
    const ends = others ?? new Set(network.devices.map(({ id }) => id));
    const found = network.links.filter(([a, b]) => ones.has(a) && ends.has(b) || ones.has(b) && ends.has(a));
    if (!found.length) throw new Nothing(`no link of the network is ${words.join(" ")}`);
    return found;
}

/**
 * The pairs of a device of these and one of those, each once, in order.
 * @param {number[]} ones
 * @param {number[]} others
 * @returns {[number, number][]}
 */
function pairsOf(ones, others) {
    if (ones.length * others.length > MOST_LINES) throw new Nothing("these are too many pairs");
    /** @type {Map<string, [number, number]>} */
    const found = new Map();
    for (const a of ones) {
        for (const b of others) if (a !== b) found.set(keyOf(a, b), [Math.min(a, b), Math.max(a, b)]);
    }
    if (!found.size) throw new Nothing("these are the same device");
    return [...found.values()].sort((a, b) => a[0] - b[0] || a[1] - b[1]);
}

/**
 * The devices of a `join` line, none of which needs to be there.
 * @param {string} word
 */
function comingOf(word) {
    const ends = NUMBERS.exec(word);
    const [low, high] = ends ? [Number(ends[1]), Number(ends[2])] : [0, -1];
    return ends && high - low < MOST_COMING ? Array.from({ length: high - low + 1 }, (_, at) => low + at) : [word];
}

/**
 * The lines for a pattern, or null if a line is none.
 * @param {string[]} words
 * @param {Network} network
 * @param {Declared} declared
 * @returns {string[] | null}
 */
function linesFor(words, network, declared) {
    const [verb, one, two, three] = words, [least, most] = declared.metric;
    const isPlain = (/** @type {string[]} */ ...ids) => ids.every(isNumber);
    if (verb === "leave" && words.length === 2 && !isPlain(one)) {
        return devicesOf(one, network, declared).map((id) => `leave ${id}`);
    }
    if (verb === "unlink" && (words.length === 2 || words.length === 3 && !isPlain(one, two))) {
        return linksOf(words.slice(1), network, declared).map(([a, b]) => `unlink ${a} ${b}`);
    }
    if (verb === "links" && words.length === 3) {
        return linksOf([one], network, declared)
            .map(([a, b, weight]) => `link ${a} ${b} ${valueAbout(two, weight, least, most)}`);
    }
    if (verb === "link" && words.length === 4 && (!isPlain(one, two) || ABOUT.test(three))) {
        const weights = new Map(network.links.map(([a, b, weight]) => [keyOf(a, b), weight]));
        return pairsOf(devicesOf(one, network, declared), devicesOf(two, network, declared))
            .map(([a, b]) => `link ${a} ${b} ${valueAbout(three, weights.get(keyOf(a, b)), least, most)}`);
    }
    if (verb === "set" && words.length === 4 && (!isPlain(one) || ABOUT.test(three))) {
        const input = declared.inputs.find(({ name }) => name === two);
        if (declared.inputs.some(({ name }) => name === one)) throw new Nothing(`write set ${two} ${one} ${three}`);
        if (!input) throw new Nothing(`no input is called ${two}`);
        const at = new Map(network.devices.map((device) => [device.id, device.inputs[two]]));
        return devicesOf(one, network, declared).map((id) => (
            `set ${id} ${two} ${valueAbout(three, fitting(input, at.get(id)), input.low ?? 0, input.high ?? 0)}`));
    }
    if (verb === "join" && words.length > 1 && NUMBERS.test(one)) {
        return comingOf(one).map((id) => ["join", id, ...words.slice(2)].join(" "));
    }
    return null;
}

/**
 * The lines for fc: patterns are written out, and extra spaces are removed.
 * @param {string} text
 * @param {Network} network
 * @param {Declared} declared
 * @returns {Written}
 */
export function writtenOut(text, network, declared) {
    /** @type {Written} */
    const made = { lines: [], rows: [], wrong: null };
    text.split("\n").forEach((typed, row) => {
        let lines = [wordsOf(typed).join(" ")];
        try {
            lines = linesFor(wordsOf(typed), network, declared) ?? lines;
        } catch (error) {
            if (!(error instanceof Nothing)) throw error;
            made.wrong ??= { row, what: `${error.message[0].toUpperCase()}${error.message.slice(1)}.`, hint: DEVICES };
        }
        for (const line of lines) {
            made.lines.push(line);
            made.rows.push(row);
        }
    });
    return made;
}

/**
 * @template K, V
 * @param {Map<K, V[]>} map
 * @param {K} key
 * @param {V} item
 */
const push = (map, key, item) => map.set(key, [...map.get(key) ?? [], item]);

/**
 * What lines for fc say, as far as they have a form.
 * @param {string[]} lines
 * @returns {Changes}
 */
export function changesOf(lines) {
    /** @type {Changes} */
    const found = {
        away: new Set(), coming: new Map(), going: new Set(), linked: new Map(), weights: new Map(), inputs: new Map(),
    };
    for (const line of lines) {
        const [verb, ...rest] = line.split(" "), [one, other] = rest.map(Number), key = keyOf(one, other);
        if (!isNumber(rest[0] ?? "")) continue;
        if (verb === "leave") found.away.add(one);
        else if (verb === "join") found.coming.set(one, rest.slice(1));
        else if (verb === "unlink" && isNumber(rest[1] ?? "")) found.going.add(key);
        else if (verb === "link" && isNumber(rest[1] ?? "") && rest.length === 3) {
            found.linked.set(key, [one, other]);
            push(found.weights, key, rest[2]);
        } else if (verb === "set" && rest.length === 3) {
            const own = found.inputs.get(one) ?? new Map();
            push(own, rest[1], rest[2]);
            found.inputs.set(one, own);
        }
    }
    return found;
}

/**
 * Between which numbers one is, by some values of lines and the number of now, if there is one.
 * @param {string[]} values
 * @param {number[]} now
 * @param {number} least of all that may be, as `any` says
 * @param {number} most
 * @returns {[number, number]}
 */
export function spanOf(values, now, least, most) {
    const numbers = values.flatMap((value) => value === "any" ? [least, most] : value.split("..").map(Number));
    const all = [...numbers.filter(Number.isFinite), ...now];
    return [Math.min(...all), Math.max(...all)];
}

/**
 * Ends as a value of a line: the whole range is `any`.
 * @param {[number, number]} ends
 * @param {number} least
 * @param {number} most
 */
export function writtenSpan([one, other], least, most) {
    /** @param {number} end */
    const within = (end) => Math.max(least, Math.min(most, Math.round(end) || 0));
    const [low, high] = [within(one), within(other)].sort((a, b) => a - b);
    return low === least && high === most ? "any" : low === high ? String(low) : `${low}..${high}`;
}
