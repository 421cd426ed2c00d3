// Where in the text of a program is what fc names: by an offset, by a declaration and a kind, or by a node. Where
// what is found here isn't what fc names, only what fc says is shown.
import { ownPlace } from "./blocks.mjs";
import { Stuck, readProgram } from "./grammar.mjs";
import { piecesOf, tokensOf } from "./tokens.mjs";
import { firstFault, nodesOf } from "./typing.mjs";

/** @typedef {import("./blocks.mjs").Composition} Composition */
/**
 * A stretch of the own text, and the block within which the place itself is, if it is in one.
 * @typedef {{from: number, to: number, block: string}} Mark
 */

const STARTS = ["ceiling", "input", "metric", "def", "main"], MOST_TOKENS = 4096, MOST_DEPTH = 200;

/**
 * The program, or null if it can't be read.
 * @param {string} text
 */
function read(text) {
    try {
        return readProgram(text);
    } catch {
        return null;
    }
}

/**
 * The offset in a text of a byte of it.
 * @param {string} text
 * @param {number} byte
 */
function offsetOf(text, byte) {
    return new TextDecoder().decode(new TextEncoder().encode(text).subarray(0, byte)).length;
}

/**
 * @param {string} text
 * @param {number} number
 */
function syntaxPlace(text, number) {
    const piece = piecesOf(text)[number - 1], end = tokensOf(text).pop();
    if (!piece) return end ?? { from: 0, to: 0 };
    const last = piece[piece.length - 1];
    let { from, to } = piece[0];
    try {
        readProgram(text);
    } catch (error) {
        if (!(error instanceof Stuck)) throw error;
        const at = error.at ?? last, place = piece.findIndex((token) => token.from === at.from);
        // where the next declaration begins, a `;` is missing after the token before
        if (place >= 0) ({ from, to } = place > 0 && STARTS.includes(at.text) ? piece[place - 1] : at);
    }
    return { from, to };
}

/**
 * The first declaration with more than 4,096 tokens, or the first bracket within 200 open ones.
 * @param {string} text
 * @param {string} limit
 */
function limitPlace(text, limit) {
    for (const piece of piecesOf(text)) {
        if (limit === "tokens" && piece.length > MOST_TOKENS) return piece[0];
        let depth = 0;
        for (const token of piece) {
            if ("({".includes(token.text)) depth++;
            if (")}".includes(token.text)) depth = Math.max(0, depth - 1);
            if (limit === "depth" && depth > MOST_DEPTH) return token;
        }
        if (limit === "nodes" && piece[0].text === "main") return piece[2] ?? piece[0];
    }
    return null;
}

/**
 * @param {string} text
 * @param {number} number
 * @param {string} kind
 */
function typesPlace(text, number, kind) {
    const program = read(text), fault = program && firstFault(program);
    if (fault && fault.number === number && fault.kind === kind) return { from: fault.from, to: fault.to };
    const piece = piecesOf(text)[number - 1];
    return piece && { from: piece[0].from, to: piece[piece.length - 1].to };
}

/**
 * @param {string} text
 * @param {number} place
 */
function nodePlace(text, place) {
    const program = read(text);
    const node = program && !firstFault(program) && nodesOf(program)[place];
    return node || null;
}

/**
 * The stretch of the own text that a line of fc means, or null if it means none of the program.
 * @param {Composition} made
 * @param {string} line
 * @returns {Mark | null}
 */
export function markOf(made, line) {
    const words = line.split(" "), number = Number(words[1]);
    let found = null;
    if (words[0] === "lexical") {
        const from = offsetOf(made.text, number);
        found = { from, to: from + 1 };
    } else if (words[0] === "syntax") found = syntaxPlace(made.text, number);
    else if (words[0] === "types") found = typesPlace(made.text, number, words[2]);
    else if (words[0] === "no" && words[1] !== "walks") {
        const node = nodePlace(made.text, number);
        if (!node) return null;
        const own = ownPlace(made, node.expr.from, node.expr.to);
        const calls = node.calls.map((call) => ownPlace(made, call.from, call.to)).filter((call) => !call.block);
        return own.block && calls.length ? { ...calls[calls.length - 1], block: own.block } : own;
    } else if (words[0] === "limit") found = limitPlace(made.text, words[1]);
    return found ? ownPlace(made, found.from, found.to) : null;
}

/**
 * The form of each node of a program that fc takes, by its place; empty if it can't be read.
 * @param {string} text
 */
export function formsOf(text) {
    const program = read(text);
    return program && !firstFault(program) ? nodesOf(program).map((node) => node.form) : [];
}
