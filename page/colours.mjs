// Colours of values. The scale is one of blue and yellow that rises in lightness, so that it is read without telling
// red from green; beside each colour stands its number.
import { writtenValue } from "./answers.mjs";

/** @typedef {import("./answers.mjs").Value} Value */
/** @typedef {import("./answers.mjs").Bounded} Bounded */
/**
 * A colour (and another for the right half), the ink upon it, and what is written.
 * @typedef {{fill: string, half?: string, ink: string, text: string}} Look
 */
/**
 * An entry of the legend.
 * @typedef {{fill: string, text: string}} Entry
 */
/**
 * The legend: a scale between two texts, and single entries.
 * @typedef {{scale: [string, string] | null, entries: Entry[]}} Legend
 */
/**
 * How values look, and the legend.
 * @typedef {Legend & {look: (value: Value | undefined) => Look}} Colours
 */

const STOPS = ["#00224e", "#1a386f", "#434e6c", "#61646f", "#7d7c78", "#9b9476", "#bcae6c", "#dfc95a", "#fee838"];
const NOTHING = "#ffffff", CEILING = "#c9d7e8";

/** @param {string} colour */
const partsOf = (colour) => [1, 3, 5].map((at) => parseInt(colour.slice(at, at + 2), 16));

/**
 * A colour of the scale.
 * @param {number} part from 0 to 1
 */
export function shade(part) {
    const last = STOPS.length - 1, place = Math.max(0, Math.min(1, part)) * last;
    const at = Math.min(last - 1, Math.floor(place));
    const [one, other] = [partsOf(STOPS[at]), partsOf(STOPS[at + 1])];
    const mixed = one.map((value, channel) => Math.round(value + (other[channel] - value) * (place - at)));
    return `#${mixed.map((value) => value.toString(16).padStart(2, "0")).join("")}`;
}

/**
 * Black or white, whichever is read better upon a colour.
 * @param {string} colour
 */
function inkOn(colour) {
    const [red, green, blue] = partsOf(colour).map((value) => (value / 255) ** 2.2);
    return 0.2126 * red + 0.7152 * green + 0.0722 * blue > 0.18 ? "#000000" : "#ffffff";
}

/**
 * @param {string} fill
 * @param {string} text
 * @returns {Look}
 */
const look = (fill, text) => ({ fill, ink: inkOn(fill), text });

/**
 * @param {Value} one
 * @param {Value} other
 * @returns {number}
 */
function compare(one, other) {
    if (Array.isArray(one) && Array.isArray(other)) return compare(one[0], other[0]) || compare(one[1], other[1]);
    return Number(one) - Number(other);
}

export const SCALE = `linear-gradient(to right, ${STOPS.join(", ")})`;

/**
 * Colours of whole numbers by size.
 * @param {number[]} found
 * @param {string} missing what no number means
 * @param {number | null} ceiling a number apart
 * @returns {Colours}
 */
export function ofNumbers(found, missing, ceiling) {
    const others = found.filter((number) => number !== ceiling);
    const low = Math.min(...others), high = Math.max(...others);
    const hasCeiling = others.length < found.length;
    return {
        look: (value) => {
            if (typeof value !== "number") return look(NOTHING, "");
            if (value === ceiling) return look(CEILING, String(value));
            return look(shade(high > low ? (value - low) / (high - low) : 0.5), String(value));
        },
        scale: others.length ? [String(low), String(high)] : null,
        entries: [
            ...hasCeiling ? [{ fill: CEILING, text: `${ceiling}, the ceiling` }] : [],
            ...missing ? [{ fill: NOTHING, text: missing }] : [],
        ],
    };
}

/**
 * Colours of values of one type.
 * @param {Value[]} found
 * @param {number} ceiling
 * @returns {Colours}
 */
export function ofValues(found, ceiling) {
    if (found.every((value) => typeof value === "number")) {
        return ofNumbers(/** @type {number[]} */ (found), "", ceiling);
    }
    if (found.every((value) => typeof value === "boolean")) {
        const [no, yes] = [STOPS[0], STOPS[STOPS.length - 1]];
        return {
            look: (value) => value === undefined ? look(NOTHING, "") : look(value ? yes : no, value ? "T" : "F"),
            scale: null, entries: [{ fill: yes, text: "true (T)" }, { fill: no, text: "false (F)" }],
        };
    }
    const sorted = [...new Map(found.map((value) => [writtenValue(value), value])).values()].sort(compare);
    /**
     * How many of the values are less.
     * @param {Value} value
     */
    const place = (value) => sorted.filter((other) => compare(other, value) < 0).length;
    return {
        look: (value) => {
            if (value === undefined) return look(NOTHING, "");
            return look(shade(place(value) / Math.max(1, sorted.length - 1)), writtenValue(value));
        },
        scale: sorted.length ? [writtenValue(sorted[0]), writtenValue(sorted[sorted.length - 1])] : null, entries: [],
    };
}

/**
 * Colours of bounds: the left half is that of the least value, the right half that of the greatest.
 * @param {Bounded[]} found
 * @param {number} ceiling
 */
export function ofBounds(found, ceiling) {
    const { look: one, scale, entries } = ofValues(found.flatMap(({ bound }) => [bound.low, bound.high]), ceiling);
    /**
     * @param {Bounded | undefined} bounded
     * @returns {Look}
     */
    const looks = (bounded) => {
        if (!bounded) return look(NOTHING, "");
        const { bound, text } = bounded, [low, high] = [one(bound.low), one(bound.high)];
        return low.text === high.text ? low : { fill: low.fill, half: high.fill, ink: "#000000", text };
    };
    return { look: looks, scale, entries };
}
