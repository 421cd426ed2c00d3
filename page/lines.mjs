// What is wrong with a line of what may change: where in it, what it means, and what to try.

/** @typedef {import("./network.mjs").Declared} Declared */
/** @typedef {import("./tokens.mjs").Input} Input */
/** @typedef {import("./words.mjs").Said} Said */
/**
 * A refused line: its words, the word of fc that says why, what the program declares, and which devices there are.
 * @typedef {{words: string[], reason: string, declared: Declared, ids: Set<number>}} Refused
 */

/**
 * A line of each form, for a program with these inputs.
 * @param {Input[]} inputs
 * @returns {Record<string, string>}
 */
const formsFor = (inputs) => ({
    set: `set 3 ${inputs[0]?.name ?? "src"} any`, link: "link 3 5 1", unlink: "unlink 3 5", leave: "leave 3",
    join: joining(14, inputs), links: "links * any",
});

/**
 * A line for a device that may come, with any inputs.
 * @param {number | string} id
 * @param {Input[]} inputs
 */
export const joining = (id, inputs) => ["join", id, ...inputs.map(() => "any")].join(" ");

const ANY = "A value is a number, true or false, two numbers such as 2..7, or any.";

/**
 * What an input may be, in words.
 * @param {Input} input
 */
const kindOf = ({ name, low, high }) => low === undefined ? `${name} is true or false` : `${name} is ${low} to ${high}`;

/** @param {Input[]} inputs */
const namesOf = (inputs) => `It declares ${inputs.map(({ name }) => name).join(", ") || "none"}.`;

/**
 * The first device of a line that isn't there, as a word of it.
 * @param {Refused} refused
 */
function missingOf({ words, ids }) {
    const isPair = words[0] === "link" || words[0] === "unlink";
    return isPair && ids.has(Number(words[1])) ? 2 : 1;
}

/**
 * The first value of a `join` line that its input can't have, as a word of it.
 * @param {Refused} refused
 */
function unfitOf({ words, declared: { inputs } }) {
    const at = inputs.findIndex(({ low, high }, place) => {
        const value = words[place + 2] ?? "", ends = value.split("..").map(Number);
        if (value === "any") return false;
        if (low === undefined || high === undefined) return value !== "true" && value !== "false";
        return ends.some((end) => !(low <= end && end <= high));
    });
    return at < 0 ? 2 : at + 2;
}

/**
 * What is wrong with the form of a line.
 * @param {string[]} words
 * @param {Input[]} inputs
 * @returns {Said}
 */
function wrongForm([verb, ...rest], inputs) {
    const forms = formsFor(inputs), form = forms[verb];
    const spans = rest.map((word) => /^(\d+)\.\.(\d+)$/.exec(word));
    const upside = spans.find((ends) => ends && Number(ends[1]) > Number(ends[2]));
    if (upside) return { what: `${upside[0]} is the wrong way round.`, hint: "The least number comes first." };
    if (form) {
        return { what: "This line isn't complete, or has a word that can't be there.", hint: `${form} is one. ${ANY}` };
    }
    return { what: `A line can't begin with ${verb}.`, hint: `These are lines: ${Object.values(forms).join("; ")}.` };
}

/**
 * For each word with which fc refuses a line: the first and the last word of the line that are meant, and what it says.
 * @type {Record<string, (refused: Refused) => {at: [number, number], said: Said}>}
 */
const REFUSALS = {
    form: ({ words, declared: { inputs } }) => ({ at: [0, words.length - 1], said: wrongForm(words, inputs) }),
    "no-device": (refused) => {
        const at = missingOf(refused), id = refused.words[at], join = joining(id, refused.declared.inputs);
        const hint = `Write a number of the drawing. Another device comes by a line, such as ${join}.`;
        return { at: [at, at], said: { what: `There is no device ${id}.`, hint } };
    },
    "no-input": ({ words, declared: { inputs } }) => {
        if (words[0] !== "join") {
            return { at: [2, 2], said: { what: `The program declares no input ${words[2]}.`, hint: namesOf(inputs) } };
        }
        const count = inputs.length, line = joining(words[1], inputs);
        return { at: [0, words.length - 1], said: {
            what: `A device that comes has a value for each input, and the program declares ${count}.`,
            hint: `For example: ${line}.`,
        } };
    },
    "input-type": (refused) => ofValue(refused, "isn't of the input's type"),
    "input-range": (refused) => ofValue(refused, "is outside of the input's range"),
    "self-link": () => ({ at: [1, 2], said: {
        what: "A device can't be linked to itself.", hint: "Name two devices." } }),
    weight: ({ words, declared: { metric: [low, high] } }) => ({ at: [3, 3], said: {
        what: `The weight ${words[3]} is outside of the metric.`,
        hint: low === high ? `All links weigh ${low}, unless the program has a line such as metric 1..9;`
            : `The program's metric is ${low}..${high}.`,
    } }),
    "no-link": ({ words }) => ({ at: [1, 2], said: {
        what: `${words[1]} and ${words[2]} aren't linked, so their link can't go.`,
        hint: "A link that isn't drawn may come and go by a line link A B 1 alone.",
    } }),
    last: () => ({ at: [1, 1], said: {
        what: "This is the only device, and one has to stay.", hint: "Add a device to the network." } }),
    twice: ({ words }) => ({ at: [1, 1], said: {
        what: `Device ${words[1]} is in the network already.`,
        hint: `leave ${words[1]} says that it may leave and come back; join is for a device that isn't drawn.`,
    } }),
};

/**
 * @param {Refused} refused
 * @param {string} why
 * @returns {{at: [number, number], said: Said}}
 */
function ofValue(refused, why) {
    const { words, declared: { inputs } } = refused, isJoin = words[0] === "join", at = isJoin ? unfitOf(refused) : 3;
    const input = isJoin ? inputs[at - 2] : inputs.find(({ name }) => name === words[2]);
    const hint = input ? `${kindOf(input)}; any stands for all of that.` : "";
    return { at: [at, at], said: { what: `${words[at]} ${why}.`, hint } };
}

/**
 * What fc means by refusing a line, and which words of it.
 * @param {Refused} refused
 * @returns {{at: [number, number], said: Said}}
 */
export function saidOfLine(refused) {
    const said = REFUSALS[refused.reason]?.(refused);
    return said ?? { at: [0, refused.words.length - 1], said: { what: `${refused.reason}.`, hint: "" } };
}

/**
 * The stretch of some words of a row of a text.
 * @param {string} text
 * @param {number} row
 * @param {[number, number]} at the first and the last word, from 0
 */
export function stretchOf(text, row, [first, last]) {
    const rows = text.split("\n"), start = rows.slice(0, row).reduce((sum, { length }) => sum + length + 1, 0);
    const words = [...rows[row].matchAll(/\S+/g)];
    const found = words.map(({ index = 0, 0: word }) => ({ from: index, to: index + word.length }));
    if (!found.length) return { from: start, to: start + rows[row].length };
    const [one, other] = [found[first] ?? found[0], found[last] ?? found[found.length - 1]];
    return { from: start + one.from, to: start + other.to };
}
