// What fc's lines mean, in words.
import { isOfStack } from "./asking.mjs";

/**
 * A sentence, and what to try.
 * @typedef {{what: string, hint: string}} Said
 */

/** @type {Record<string, Said>} */
const KINDS = {
    range: { what: "This range isn't valid",
        hint: "The ceiling is at least 1, and a range goes from its least number to its greatest, up to the ceiling." },
    twice: { what: "This name is taken", hint: "Choose another name." },
    unknown: { what: "Nothing of this name is declared above",
        hint: "Declare an input by input name: bool; and write sense name. A function stands above its first call." },
    literal: { what: "This number is above the ceiling", hint: "Raise the ceiling, or write a smaller number." },
    count: { what: "This call doesn't have as many arguments as the function has parameters",
        hint: "Give one argument for each parameter." },
    mismatch: { what: "The types don't fit here",
        hint: "Numbers go with + - * <, truth values with and, or, not. The first of an if or a mux is a truth value, "
            + "the other two are of one type. An argument is of its parameter's type." },
    "not-local": { what: "This is a field, a value for each neighbour, but one value is needed",
        hint: "Make one value of it with minHoodLoc, maxHoodLoc, sumHood, anyHood or allHood." },
    result: { what: "The body doesn't have the type that the function declares",
        hint: "Change the type after the brackets, or the body." },
    wide: { what: "This type has more than 8 ints and bools", hint: "Use smaller pairs." },
};
/** @type {Record<string, Said>} */
const REASONS = {
    converging: { what: "what is heard may go round in circles for ever",
        hint: "Take the least of nbr{x} + 1, as the hop count does, or insert a block: fadingMax or greatestOf64 for "
            + "the greatest of all, anywhere for a truth value, collectSum for a sum." },
    nested: { what: "its variable is used inside a let, an if, a call or a further rep",
        hint: "Write what is heard where it is used; use mux instead of if." },
    unguarded: { what: "the device reads what it held itself",
        hint: "Use what is heard, nbr{x} in a rep, in a minHoodLoc or behind a guard." },
    potential: { what: "its guards don't compare one integer that is bound outside",
        hint: "Bind it by one let outside, and write mux(nbr{p} < p, .., ..) with it." },
    "no-growth": { what: "what is heard isn't known to grow on its way", hint: "Add to what is heard: nbr{x} + 1." },
    "growth-zero": { what: "what is heard may stay as it is from neighbour to neighbour",
        hint: "Add at least 1: a number, or nbrLink with a metric from 1 on." },
    "lead-at-ceiling": { what: "the first part of its pair may be the ceiling, where pairs can't grow",
        hint: "Keep it below the ceiling: 9 under ceiling 10;" },
    "rise-zero": { what: "the limit of its rise may be 0, so a value may never rise",
        hint: "Use a limit of at least 1." },
};
/** @type {Record<string, Said>} */
const LIMITS = {
    bytes: { what: "The program and the network have more than 1,048,576 bytes", hint: "Use fewer devices or links." },
    tokens: { what: "A declaration has more than 4,096 tokens", hint: "Split it into functions." },
    depth: { what: "A declaration has more than 200 open brackets at one place", hint: "Name parts by let or def." },
    nodes: { what: "main has more than 2,048 nodes once its calls are unfolded",
        hint: "Bind what is called twice with a let." },
    devices: { what: "The network has more than 1,024 devices", hint: "Use fewer." },
    degree: { what: "A device has more than 32 links", hint: "Choose a shorter range, or remove links." },
};

/** How fc refuses an empty network. */
export const NO_DEVICES = "shape /devices";
const MANY_PAIRS = "limit degree 129";

const MISSING = "A ; is missing behind this.";
/**
 * What is written of other languages' habit: what ends before the mark, what begins at it, and what to write here.
 * @type {[RegExp, RegExp, string][]}
 */
const HABITS = [
    [/\d$/, /^\./, "Numbers are whole, from 0 to the ceiling."],
    [/$/, /^[|&]/, "Write a or b for a || b, a and b for a && b."],
    [/$/, /^!=/, "Write not (a = b) for a != b."],
    [/$/, /^!/, "Write not a for !a."],
    [/$/, /^\//, "There is no /: the block div divides."],
    [/$/, /^>=/, "Write not (a < b) for a >= b."],
    [/$/, /^>/, "Write b < a for a > b."],
    [/<\s*$/, /^=/, "Write not (b < a) for a <= b."],
    [/=\s*$/, /^=/, "Write a = b for a == b."],
    [/\bm(in|ax)\s*\(\s*nbr\s*\{[^}]*\}\s*$/, /^\)/, "Of neighbours: minHoodLoc(nbr{a}, b), maxHoodLoc(nbr{a}, b)."],
    [/[=(,{<]\s*$/, /^-/, "There is nothing below 0: numbers go from 0 to the ceiling."],
    [/$/, /^else\b/, "An if has no else: if (c) {a} {b}, or mux(c, a, b)."],
    [/\bif\s*\([^{}]*$/, /^[^{]/, "Put both branches of an if in braces: if (c) {a} {b}."],
    [/\bif\b[^;]*\}\s*$/, /^;/, "An if has two branches: if (c) {a} {b}."],
    [/\b(nbr|if|rep)\s*$/, /^/, "Write nbr{a}, rep(a){(x) => b}, if (c) {a} {b}."],
    [/\blet\s+\w+\s*=[^;]*$/, /^;/, "Write let x = a in b, with in, and no ; before it."],
    [/\bm(in|ax)HoodLoc\s*\(\s*nbr\s*\{[^}]*\}[^,]*$/, /^\)/,
        "There are two to compare: minHoodLoc(nbr{a}, b), where b is the device's own."],
    [/^\s*$/, /^\w+\s*=/, "A value with a name is a function: def hot(): bool = ..; is called as hot()."],
    [/^\s*input\b[^;]*$/, /^/, "An input is input name: bool; or input name: int 0..9;"],
    [/^\s*def\b[^;=]*$/, /^/, "A function is def name(a: int, b: bool): int = ..;"],
];

/**
 * What to write at a place where fc stops reading, as far as it can be guessed.
 * @param {string} text the program
 * @param {{from: number, to: number}} mark
 */
export function habitAt(text, { from, to }) {
    const before = text.slice(0, from).replace(/\/\/.*/g, ""), rest = text.slice(from), behind = text.slice(to);
    const own = before.slice(before.lastIndexOf(";") + 1), isLast = !behind.trim();
    const isEnd = isLast && !/^\s*main\b/.test(own);
    if (!before.trim() && !/^(ceiling|language)\b/.test(rest)) {
        return "Begin with ceiling 10; where 10 is the greatest number that there is.";
    }
    if (/(^|;)\s*main\b[^;]*;[^;]*$/.test(before)) {
        return "Nothing stands behind the ; of main: what is called stands in it, functions and inputs before it.";
    }
    const last = text.slice(from, to), open = (own + last).match(/[({]/g)?.length ?? 0;
    if ((isLast || last === ";") && open > ((own + last).match(/[)}]/g)?.length ?? 0)) {
        return "A bracket is still open here, ( or {: close it.";
    }
    if (/^\s*main\s*=/.test(own) && isLast && /[\w)}]$/.test(last)) return MISSING;
    if (isEnd) return "";
    if (own.trim() && /[\w)}]$/.test(last) && /^\s*(input|metric|def|main)\b/.test(behind)) {
        return MISSING;
    }
    return HABITS.find(([ends, begins]) => ends.test(own) && begins.test(rest))?.[2] ?? "";
}

/**
 * The sentence of a no.
 * @param {string} form rep or share, or nothing where it isn't known
 * @param {string} reason
 * @returns {Said}
 */
export function saidOfNo(form, reason) {
    const { what, hint } = REASONS[reason] ?? { what: reason, hint: "" };
    return { what: `This ${form || "rep or share"} isn't of a form that is known to settle: ${what}.`, hint };
}

/**
 * The sentence of a line with which fc refuses an input.
 * @param {string} line
 * @param {string} [habit] what to write at its place, where that can be guessed
 * @returns {Said}
 */
export function saidOf(line, habit) {
    const [word, second, third] = line.split(" ");
    if (word === "lexical") {
        return { what: "This character isn't in the language.",
            hint: habit || "There is no >, ==, / or !: write b < a, a = b, not (b < a)." };
    }
    if (word === "syntax") {
        return { what: "There is a syntax error here.",
            hint: habit || "Each declaration ends with a ;, the first is ceiling N; and the last main = ..;" };
    }
    const found = word === "types" ? KINDS[third] : word === "limit" ? LIMITS[second] : undefined;
    if (line === MANY_PAIRS) {
        return { what: "A device has more than 128 links that are there or may come.", hint: "Leave some lines out." };
    }
    if (found) return { what: `${found.what}.`, hint: found.hint };
    if (line === NO_DEVICES) {
        return { what: "The network has no devices yet.",
            hint: "Choose Add devices and click on the drawing, or open Make a network: then fc answers for yours." };
    }
    if (word === "shape" || word === "network" || word === "json") {
        return { what: `The network doesn't fit this program: ${line}.`, hint: "" };
    }
    return { what: line, hint: "" };
}

/**
 * How a failed call is said.
 * @param {Error} error
 * @returns {Said}
 */
export function saidOfFailure(error) {
    if (isOfStack(error)) {
        return { what: "This browser has too little stack for a program that nests so deeply.",
            hint: "Nest less deeply, or use a newer browser: Chromium from version 137 on has enough." };
    }
    if (/RangeError/.test(error.message)) {
        return { what: "This browser has too little memory for this.", hint: "Use fewer devices or links." };
    }
    return { what: `fc gave no answer: ${error.message}.`, hint: "" };
}

/**
 * @param {number} count
 * @param {string} one
 */
export const counted = (count, one) => `${count.toLocaleString("en")} ${one}${count === 1 ? "" : "s"}`;
