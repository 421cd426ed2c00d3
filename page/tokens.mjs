// The text of a program: its tokens, and its declarations, which are cut after each `;`.

/**
 * A token: its kind (space, comment, word, name, number, mark, or other where no token begins), its text, and the
 * offsets of its two ends.
 * @typedef {{kind: string, text: string, from: number, to: number}} Token
 */

const WORDS = new Set((
    "ceiling input metric def main let in if nbr rep sense uid nbrLink not and or true false int bool field min max mux"
    + " fst snd minHoodLoc maxHoodLoc sumHood anyHood allHood share rise language"
).split(" "));
const TOKEN_FORMS = [
    ["space", "[ \\t\\r\\n]+"], ["comment", "//[^\\n]*"], ["name", "[A-Za-z][A-Za-z0-9_]*"], ["number", "[0-9]+"],
    ["mark", "\\.\\.|=>|[(){},;:=+*<-]"], ["other", "[^]"],
];
const TOKEN = new RegExp(TOKEN_FORMS.map(([, form]) => `(${form})`).join("|"), "gu");

/**
 * All tokens of a text, also spaces and comments.
 * @param {string} text
 * @returns {Token[]}
 */
export function allTokens(text) {
    return [...text.matchAll(TOKEN)].map((found) => {
        const from = found.index ?? 0;
        const kind = TOKEN_FORMS[found.slice(1).findIndex((part) => part !== undefined)][0];
        const isWord = kind === "name" && WORDS.has(found[0]);
        return { kind: isWord ? "word" : kind, text: found[0], from, to: from + found[0].length };
    });
}

const LINE_WORDS = new Set("set link links unlink leave join any true false".split(" "));

/**
 * All tokens of lines of what may change.
 * @param {string} text
 * @returns {Token[]}
 */
export const lineTokens = (text) => allTokens(text).map((token) => {
    const isName = token.kind === "name" || token.kind === "word";
    return { ...token, kind: !isName ? token.kind : LINE_WORDS.has(token.text) ? "word" : "name" };
});

/**
 * The tokens that mean something.
 * @param {string} text
 */
export const tokensOf = (text) => allTokens(text).filter(({ kind }) => kind !== "space" && kind !== "comment");

/**
 * The declarations of a text: the tokens cut after each `;`, and what is left.
 * @param {string} text
 * @returns {Token[][]}
 */
export function piecesOf(text) {
    /** @type {Token[][]} */
    const pieces = [];
    /** @type {Token[]} */
    let piece = [];
    for (const token of tokensOf(text)) {
        piece.push(token);
        if (token.text === ";") {
            pieces.push(piece);
            piece = [];
        }
    }
    return piece.length ? [...pieces, piece] : pieces;
}

/**
 * An input that a program declares: its name and, of whole numbers, the least and the greatest.
 * @typedef {{name: string, low?: number, high?: number}} Input
 */

/**
 * What a program declares for its network: the inputs, the least and the greatest weight of a link, and the ceiling. It
 * is read from whatever is in order.
 * @param {string} text
 * @returns {{inputs: Input[], metric: [number, number], ceiling: number}}
 */
export function declaredBy(text) {
    /** @type {Input[]} */
    const inputs = [];
    /** @type {[number, number]} */
    let metric = [1, 1];
    let ceiling = 0;
    for (const piece of piecesOf(text)) {
        const words = piece.map((token) => token.text), line = words.join(" ");
        const whole = /^input (\w+) : int (\d+) \.\. (\d+) ;$/.exec(line), truth = /^input (\w+) : bool ;$/.exec(line);
        const weights = /^metric (\d+) \.\. (\d+) ;$/.exec(line), top = /^ceiling (\d+) ;$/.exec(line);
        if (whole) inputs.push({ name: whole[1], low: Number(whole[2]), high: Number(whole[3]) });
        if (truth) inputs.push({ name: truth[1] });
        if (weights) metric = [Number(weights[1]), Number(weights[2])];
        if (top) ceiling = Number(top[1]);
    }
    const isFirst = (/** @type {Input} */ input) => inputs.find(({ name }) => name === input.name) === input;
    return { inputs: inputs.filter(isFirst), metric, ceiling };
}
