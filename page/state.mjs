// The state of the page: what a user has made, what fc has answered to it, and its address.
import { at } from "./elements.mjs";
import { scattered } from "./places.mjs";
import { addressOf } from "./sharing.mjs";
import { declaredBy } from "./tokens.mjs";

/** @typedef {import("./network.mjs").Network} Network */
/** @typedef {import("./network.mjs").Link} Link */
/** @typedef {import("./sharing.mjs").State} State */
/** @typedef {import("./answers.mjs").Values} Values */

const FIRST = `// Hops to the nearest source, up to 10.
ceiling 10;
input src: bool;

main = rep(10){(d) =>
    minHoodLoc(nbr{d} + 1, mux(sense src, 0, 10))};
`;
const EMPTY = `// Your own. Numbers go from 0 to the ceiling.
ceiling 10;
// What each device senses:
input src: bool;
// What it computes: is src true at a neighbour?
main = anyHood(nbr{sense src});
`;
const CHANGES = "unlink 9 10\nunlink 9 13\nleave 7\nset 3 src any\n";
const RANGE = 27, MOST_UNDO = 60, SAVING = 400;
/** Among the examples, what is none of them any more. */
export const OWN = "own";
/** So many milliseconds after a change by typing or dragging fc is asked. */
export const TYPING = 200;

/**
 * The state with which the page begins.
 * @returns {State}
 */
export const fresh = () => ({
    program: FIRST, changes: "",
    network: { devices: scattered(14, 4).map((one) => ({ ...one, inputs: { src: one.id === 0 } })), links: [],
        range: RANGE, weight: 0 },
    view: { colours: "values", paths: false, chosen: null, number: 7, round: null },
});

/**
 * The state of the example without a network.
 * @returns {State}
 */
export const empty = () => (
    { ...fresh(), program: EMPTY, network: { devices: [], links: [], range: RANGE, weight: 0 } });

/**
 * A state with what may change, whose devices show bounds if anything may.
 * @param {State} state
 * @param {string} changes
 * @returns {State}
 */
export const withChanges = (state, changes) => (
    { ...state, changes, view: { ...state.view, colours: changes.trim() ? "bounds" : "values" } });

/** The state with which the page begins, and what may change in it. */
export const moving = () => withChanges(fresh(), CHANGES);

/** What a user has made, what its program declares, and what is shown of it. */
export const now = {
    state: fresh(),
    declared: declaredBy(FIRST),
    /** @type {Link | null} */
    chosenLink: null,
    /**
     * The values at the start and after each round of a run from rubbish, as far as it has come.
     * @type {Values[]}
     */
    frames: [],
    /** How often fc has been asked of the state: what belongs to an older one isn't shown. */
    turn: 0,
};

/** What fc has answered to the state. */
export const known = {
    /** @type {import("./blocks.mjs").Composition | null} */
    made: null,
    /** @type {import("./answers.mjs").Settled | null} */
    settled: null,
    /** @type {Values} */
    values: new Map(),
    /** @type {Map<number, number[]> | null} */
    paths: null,
    /**
     * What holds while the network changes, where lines say what may.
     * @type {import("./answers.mjs").Bounds | null}
     */
    bounds: null,
    wrote: "",
};

export function forget() {
    Object.assign(known, { settled: null, values: new Map(), paths: null, bounds: null, wrote: "" });
}

/**
 * @param {string} said what a screen reader says, too
 * @param {boolean} [isShown] whether the page shows it elsewhere
 */
export function tell(said, isShown = false) {
    at("told").textContent = said;
    at("told").classList.toggle("spoken", isShown);
}

// What follows from a change: the state is drawn, asked of fc, and kept in the address.

const tasks = { draw() {}, ask() {} };
/** Whether something has changed of which fc isn't asked yet. */
export let isWaiting = false;
let askTimer = 0, saveTimer = 0;
/** The address as it was last kept. */
export let lastAddress = "none";

/** @param {typeof tasks} done how the state is drawn, and how it is asked of fc */
export const onChange = (done) => Object.assign(tasks, done);

export const draw = () => tasks.draw();

export function askSoon(wait = TYPING) {
    clearTimeout(askTimer);
    isWaiting = true;
    at("example").value = OWN;
    askTimer = setTimeout(() => {
        isWaiting = false;
        tasks.ask();
    }, wait);
    saveSoon();
}

export function saveSoon() {
    clearTimeout(saveTimer);
    at("shared").hidden = true;
    saveTimer = setTimeout(saveNow, SAVING);
}

export async function saveNow() {
    clearTimeout(saveTimer);
    lastAddress = `#${await addressOf(now.state)}`;
    history.replaceState(null, "", lastAddress);
}

// What was before, for Undo.

/** @type {{program: string, network: Network, changes: string}[]} */
const before = [];

export function remember() {
    const { program, network, changes } = now.state;
    before.push({ program, network, changes });
    if (before.length > MOST_UNDO) before.shift();
    at("undo").disabled = false;
}

/** What was before the last change, which is forgotten then. */
export function remembered() {
    const last = before.pop();
    at("undo").disabled = !before.length;
    return last;
}
