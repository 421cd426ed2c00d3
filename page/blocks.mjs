// The blocks of the library: what a program calls and doesn't define is put in front of it, as `fieldc compose` does.
import { piecesOf } from "./tokens.mjs";

/** @typedef {import("./tokens.mjs").Token} Token */
/**
 * A function of the library: its group, how it is called, what it gives, its text, and which functions it calls.
 * @typedef {{
 *   name: string, group: string, call: string, gives: string, needs: string, text: string, calls: string[],
 *   isSecond: boolean, isPart: boolean,
 * }} Block
 */
/**
 * A program with its blocks: the text for fc, in which `inserted` stands at the offset `at` of the own text; the names
 * of the blocks, each after what it calls, with where it stands in the text for fc and the call that led to it.
 * @typedef {{name: string, from: number, to: number, asked: Token}} Taken
 * @typedef {{own: string, text: string, at: number, inserted: string, taken: Taken[]}} Composition
 */

/** What the language itself makes of neighbours. */
const OF_NEIGHBOURS = ["minHoodLoc", "maxHoodLoc", "sumHood", "anyHood", "allHood"];

/** What stands in the way of a composition: a sentence, and the token that is meant. */
export class Misfit extends Error {
    /**
     * @param {string} said
     * @param {Token} token
     */
    constructor(said, token) {
        super(said);
        this.token = token;
    }
}

/**
 * The names that a declaration calls.
 * @param {Token[]} piece
 */
function callsOf(piece) {
    const first = piece[0].text === "def" ? 2 : 0;
    return piece.slice(first).filter((token, at, all) => token.kind === "name" && all[at + 1]?.text === "(");
}

/**
 * How a block is declared: its parameters with their types, and the type of what it gives.
 * @param {Block} block
 */
export const headOf = ({ name, call, text }) => (
    new RegExp(`\\bdef\\s+(${name}\\s*\\([^=]*?)\\s*=`).exec(text)?.[1] ?? call);

/**
 * The block in whose call a place is, if it is in one.
 * @param {string} text
 * @param {number} at
 * @param {Map<string, Block>} library
 */
export function blockAt(text, at, library) {
    const named = library.get(/^\w*/.exec(text.slice(at))?.[0] ?? "");
    let open = 0;
    for (let place = at - 1; !named && place >= 0 && text[place] !== ";"; place--) {
        if (text[place] === ")") open++;
        if (text[place] === "(" && open-- === 0) {
            const found = library.get(/\w*$/.exec(text.slice(0, place))?.[0] ?? "");
            if (found) return found;
            open = 0;
        }
    }
    return named;
}

/**
 * At most three names, of the language's functions and of blocks, that are spelled alike.
 * @param {string} name
 * @param {Map<string, Block>} library
 */
export function nearNames(name, library) {
    /** @param {string} text */
    const pairs = (text) => new Set([...text.toLowerCase()].map((one, at, all) => one + (all[at + 1] ?? "")));
    const wanted = pairs(name);
    const blocks = [...library.values()].filter((block) => !block.isPart).map((block) => block.name);
    const rated = [...OF_NEIGHBOURS, ...blocks].map((one) => {
        const own = pairs(one), shared = [...own].filter((pair) => wanted.has(pair)).length;
        return { name: one, rate: 2 * shared / (own.size + wanted.size) };
    });
    return rated.filter(({ rate }) => rate > 0.4).sort((a, b) => b.rate - a.rate).slice(0, 3).map((one) => one.name);
}

/**
 * The blocks that some calls need, each after what it calls, with the call that led to it.
 * @param {Token[]} called
 * @param {Map<string, Block>} library
 */
function needed(called, library) {
    /** @type {Map<string, Token>} */
    const asked = new Map();
    /**
     * @param {string} name
     * @param {Token} token
     */
    function take(name, token) {
        if (asked.has(name)) return;
        library.get(name)?.calls.forEach((inner) => take(inner, token));
        asked.set(name, token);
    }
    called.forEach((token) => take(token.text, token));
    return asked;
}

/**
 * A program with the blocks that it calls and doesn't define. They stand in front of its first `def` or `main`. Throws
 * a Misfit if a called name is nobody's, or the program doesn't go with a block.
 * @param {string} own
 * @param {Map<string, Block>} library
 * @returns {Composition}
 */
export function composed(own, library) {
    const pieces = piecesOf(own);
    const defined = new Set(pieces.map((piece) => piece[0].text === "def" && piece[1]?.text));
    const called = pieces.flatMap(callsOf).filter((token) => !defined.has(token.text));
    for (const token of called) {
        if (library.has(token.text)) continue;
        const near = nearNames(token.text, library);
        const hint = near.length ? `; did you mean ${near.join(" or ")}?` : "; the list Block has the library's.";
        throw new Misfit(`No function or block is called ${token.text}${hint}`, token);
    }
    const asked = needed(called, library);
    if (!asked.size) return { own, text: own, at: own.length, inserted: "", taken: [] };
    refuseClashes(pieces, asked, library);
    const first = Math.max(0, pieces.findIndex((piece) => ["def", "main"].includes(piece[0].text)));
    const at = first ? pieces[first - 1][pieces[first - 1].length - 1].to : 0;
    /** @type {Taken[]} */
    const taken = [];
    let inserted = "\n";
    for (const [name, token] of asked) {
        const from = at + inserted.length;
        inserted += `${library.get(name)?.text}\n`;
        taken.push({ name, from, to: at + inserted.length, asked: token });
    }
    return { own, text: own.slice(0, at) + inserted + own.slice(at), at, inserted, taken };
}

/**
 * @param {Token[][]} pieces
 * @param {Map<string, Token>} asked
 * @param {Map<string, Block>} library
 */
function refuseClashes(pieces, asked, library) {
    for (const piece of pieces) {
        const name = piece[1];
        if (name && ["def", "input"].includes(piece[0].text) && asked.has(name.text)) {
            throw new Misfit(`${name.text} is the name of a block that is needed here: choose another name.`, name);
        }
    }
    const isSecond = pieces[0].map((token) => token.text).join(" ") === "language 2 ;";
    const later = [...asked].find(([name]) => library.get(name)?.isSecond);
    if (later && !isSecond) {
        throw new Misfit(`The block ${later[0]} needs language 2: begin the program with language 2;`, later[1]);
    }
}

/**
 * Where a stretch of the text for fc stands in the own text; of a stretch within a block, the call that led there, and
 * the name of the block.
 * @param {Composition} made
 * @param {number} from
 * @param {number} to
 * @returns {{from: number, to: number, block: string}}
 */
export function ownPlace(made, from, to) {
    const block = made.taken.find((one) => one.from <= from && from < one.to);
    if (block) return { from: block.asked.from, to: block.asked.to, block: block.name };
    /** @param {number} place */
    const own = (place) => place <= made.at ? place : Math.max(made.at, place - made.inserted.length);
    return { from: own(from), to: own(to), block: "" };
}
