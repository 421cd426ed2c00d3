// A run from rubbish: each device begins with an export of arbitrary values, and fires once a round in an order that is
// drawn from a number. Each round is a log that is written here, and fc replays it.
import { readReplayed } from "./answers.mjs";
import { formsOf } from "./marking.mjs";
import { dice } from "./network.mjs";
import { sceneOf } from "./scenes.mjs";

/** @typedef {import("./answers.mjs").Value} Value */
/** @typedef {import("./answers.mjs").Values} Values */
/**
 * An export in a table of format 2.
 * @typedef {{id: number, kept: [number, Value][], value: Value}} Row
 */
/** @typedef {{format: number, rows: Row[]}} Table */

/**
 * A value of the same type that is drawn.
 * @param {Value} value
 * @param {number} ceiling
 * @param {() => number} next
 * @returns {Value}
 */
function drawn(value, ceiling, next) {
    if (Array.isArray(value)) return [drawn(value[0], ceiling, next), drawn(value[1], ceiling, next)];
    return typeof value === "boolean" ? next() < 0.5 : Math.floor(next() * (ceiling + 1));
}

/**
 * A table in which each number is drawn from 0 to the ceiling, and each truth value too. Which branch of an `if` a
 * device took stays, since that says what else it keeps; where the nodes aren't known, all truth values that it keeps
 * stay.
 * @param {Table} table
 * @param {string[]} forms of the nodes
 * @param {number} ceiling
 * @param {number} seed
 * @returns {Table}
 */
export function scrambled(table, forms, ceiling, seed) {
    const next = dice(seed);
    /**
     * @param {[number, Value]} item
     * @returns {[number, Value]}
     */
    const changed = ([place, found]) => {
        const stays = forms[place] === "if" || !forms.length && typeof found === "boolean";
        return [place, stays ? found : drawn(found, ceiling, next)];
    };
    const rows = table.rows.map(({ id, kept, value }) => (
        { id, value: drawn(value, ceiling, next), kept: kept.map(changed) }));
    return { ...table, rows };
}

/**
 * The log of one round: each device begins and ends a firing, and others do between.
 * @param {number[]} devices
 * @param {() => number} next
 */
export function roundLog(devices, next) {
    const steps = devices.flatMap((id) => {
        const [begin, end] = [next(), next()].sort((a, b) => a - b);
        return [{ at: begin, line: `B${id}` }, { at: end, line: `E${id}` }];
    });
    return steps.sort((a, b) => a.at - b.at).map(({ line }) => `${line}\n`).join("");
}

/**
 * The values at the start and after each round.
 * @param {{
 *   ask: (words: string, input: string) => Promise<import("./asking.mjs").Reply>, program: string,
 *   network: import("./network.mjs").Network, declared: import("./network.mjs").Declared, seed: number, rounds: number,
 *   show: (frames: Values[]) => void,
 * }} run
 */
export async function runFromRubbish({ ask, program, network, declared, seed, rounds, show }) {
    const ids = network.devices.map(({ id }) => id), next = dice(seed + 1);
    /**
     * @param {object} more
     * @param {string} log
     */
    async function replayed(more, log) {
        const input = `${program}\n%%\n${sceneOf(network, declared, more)}%%\n${log}`;
        const { status, text } = await ask("replay --table", input);
        if (status) throw new Error(text.trim());
        return readReplayed(text);
    }
    const once = ids.map((id) => `B${id}\nE${id}\n`).join("");
    const fired = await replayed({}, once + once);
    let table = scrambled(fired.table, formsOf(program), declared.ceiling, seed);
    const frames = [new Map(table.rows.map(({ id, value }) => [id, value]))];
    show(frames);
    for (let round = 1; round <= rounds; round++) {
        const after = await replayed({ table }, roundLog(ids, next));
        table = after.table;
        frames.push(after.values);
        show(frames);
    }
    return frames;
}
