// What is asked of fc, and how its answer is shown.
import { readBounds, readPaths, readSettled, readStable, readValues, readVerdict } from "./answers.mjs";
import { Stopped, inputOf, isOfStack, workers } from "./asking.mjs";
import { Misfit, blockAt, composed, headOf } from "./blocks.mjs";
import { wordsOf } from "./changes.mjs";
import { hasChanges, isRefused, mayChange, refuseLine } from "./changing.mjs";
import { at, button, element } from "./elements.mjs";
import { saidOfLine } from "./lines.mjs";
import { formsOf, markOf } from "./marking.mjs";
import { MOST_DEVICES } from "./network.mjs";
import { aloneNodes, boundsNodes, brief, headline, verdictNodes } from "./panels.mjs";
import { madeNetwork } from "./places.mjs";
import { clearFault, complain, drawBlocks, library, program, whereOf } from "./program.mjs";
import { startRun } from "./run.mjs";
import { sceneOf } from "./scenes.mjs";
import { draw, forget, isWaiting, known, now } from "./state.mjs";
import { NO_DEVICES, counted, habitAt, saidOf, saidOfFailure, saidOfNo } from "./words.mjs";

/** @typedef {import("./answers.mjs").Verdict} Verdict */
/** @typedef {import("./blocks.mjs").Composition} Composition */

const BUSY = 250;
/** How many answers are under way. */
let asked = 0;

/** Whether an answer is still to come. */
export const isAsking = () => isWaiting || asked > 0;

/** Asks all that the page shows of the state. */
export async function ask() {
    const mine = ++now.turn, isNew = () => mine === now.turn;
    workers.answer.stop();
    known.made = null;
    try {
        known.made = composed(now.state.program, library);
    } catch (error) {
        if (!(error instanceof Misfit)) throw error;
        return misfits(error);
    }
    drawBlocks();
    const busy = setTimeout(() => busyIs(true), BUSY);
    asked++;
    const input = inputOf(known.made.text, sceneOf(now.state.network, now.declared));
    try {
        await answered(input, isNew);
    } catch (error) {
        if (error instanceof Stopped || !isNew()) return;
        const verdict = isOfStack(/** @type {Error} */ (error)) ? await verdictOf(input) : [];
        if (isNew()) failed(/** @type {Error} */ (error), verdict);
    } finally {
        asked--;
        clearTimeout(busy);
        if (isNew()) busyIs(false);
    }
    const { round } = now.state.view;
    if (isNew() && round !== null && !now.frames.length) startRun(round);
}

/** @param {boolean} is */
function busyIs(is) {
    at("busy").hidden = !is;
    at("of-answer").setAttribute("aria-busy", String(is));
    if (is) at("brief").textContent = "working ..";
}

/**
 * @param {string} input
 * @param {() => boolean} isNew
 */
async function answered(input, isNew) {
    const reply = await workers.answer.ask("check --settle", input);
    if (!isNew()) return;
    if (reply.status > 1) return await withoutDevices(reply.text.trim(), isNew) || refused(reply.text.trim());
    const settled = readSettled(reply.text), isYes = settled.verdict.rounds !== null;
    let { values } = settled, wrote = `check --settle\n${reply.text}`;
    /** @type {Map<number, number[]> | null} */
    let paths = null;
    if (isYes) {
        const traced = await workers.answer.ask("trace", input);
        if (traced.status === 0) {
            paths = readPaths(traced.text);
            values = readValues(traced.text.trim().split("\n").slice(1));
        } else values = readStable((await workers.answer.ask("stable", input)).text);
        if (traced.status === 0) wrote += `\ntrace\n${traced.text}`;
    }
    if (!isNew()) return;
    Object.assign(known, { settled, values, paths, bounds: null, wrote });
    const soon = setTimeout(showAnswer, BUSY);
    await askChanges(input, isNew).finally(() => clearTimeout(soon));
    if (isNew()) showAnswer();
}

/**
 * Shows what fc says of the program alone, if its network is empty: the verdict on one device and on the most.
 * @param {string} line with which fc refused the network
 * @param {() => boolean} isNew
 * @returns {Promise<boolean>} whether it is shown, or nobody waits for it any more
 */
async function withoutDevices(line, isNew) {
    const { made } = known, { state: { network }, declared } = now;
    if (line !== NO_DEVICES || !made) return false;
    const verdicts = [];
    let wrote = "";
    for (const count of [1, MOST_DEVICES]) {
        const scene = sceneOf({ ...network, ...madeNetwork("line", count, 0, declared) }, declared);
        const { status, text } = await workers.answer.ask("check", inputOf(made.text, scene));
        if (!isNew()) return true;
        if (status > 1) return false;
        verdicts.push(readVerdict(text.trim()));
        wrote += `check, on ${counted(count, "device")}\n${text}\n`;
    }
    showAlone(made, verdicts, wrote);
    return true;
}

// What may change.

/**
 * Asks for bounds while the network changes, where lines say what may.
 * @param {string} input
 * @param {() => boolean} isNew
 */
async function askChanges(input, isNew) {
    const { written } = mayChange();
    refuseLine(null);
    if (!hasChanges()) return;
    if (written.wrong) return refuseLine({ ...written.wrong, at: null });
    try {
        const text = written.lines.join("\n"), words = "check --settle --changes";
        const reply = await workers.answer.ask(words, inputOf(input, text));
        if (!isNew()) return;
        known.wrote += `\n${words}\n${reply.text}`;
        if (reply.status === 0) known.bounds = readBounds(reply.text);
        else refusedLine(reply.text.trim(), written);
    } catch (error) {
        if (error instanceof Stopped || !isNew()) throw error;
        refuseLine({ ...saidOfFailure(/** @type {Error} */ (error)), row: null, at: null });
    }
}

/**
 * Says what fc means by refusing lines.
 * @param {string} line
 * @param {import("./changes.mjs").Written} written
 */
function refusedLine(line, written) {
    const [word, number, reason] = line.split(" "), at = Number(number) - 1, row = written.rows[at];
    if (word !== "changes" || row === undefined) return refuseLine({ ...saidOf(line), row: null, at: null });
    const { state: { network, changes }, declared } = now;
    const ids = new Set([...network.devices.map(({ id }) => id), ...mayChange().changes.coming.keys()]);
    const words = written.lines[at].split(" "), found = saidOfLine({ words, reason, declared, ids });
    const isTyped = wordsOf(changes.split("\n")[row]).join(" ") === written.lines[at];
    refuseLine({ ...found.said, row, at: isTyped ? found.at : null });
}

// How an answer is shown.

function showAnswer() {
    const { settled, made } = known;
    if (!settled || !made) return;
    const { bounds } = known, nodes = verdictNodes(settled, now.state.network.devices.length);
    if (bounds) nodes.push(...boundsNodes(bounds, settled));
    else if (isRefused()) nodes.push(element("p", { text: "No bounds: see the lines of what may change." }));
    at("verdict").replaceChildren(...nodes);
    at("brief").textContent = brief(settled, bounds);
    at("wrote").textContent = known.wrote;
    if (settled.verdict.rounds === null) complainOfNo(made, settled.verdict);
    else warnOfNumbers(made.text);
    draw();
}

/**
 * @param {Composition} made
 * @param {Verdict[]} verdicts on one device, and on the most
 * @param {string} wrote
 */
function showAlone(made, [one, most], wrote) {
    forget();
    const { what, hint } = saidOf(NO_DEVICES);
    at("verdict").replaceChildren(...aloneNodes(one.rounds, most.rounds), element("p", { text: `${what} ${hint}` }));
    at("brief").textContent = `${one.rounds === null ? "No" : "Yes"} \u00b7 the network is empty`;
    at("wrote").textContent = known.wrote = wrote;
    if (one.rounds === null) complainOfNo(made, one);
    else clearFault();
    draw();
}

/**
 * @param {Composition} made
 * @param {Verdict} verdict a no
 */
function complainOfNo(made, { line, place, reason }) {
    complain(saidOfNo(formsOf(made.text)[place ?? 0] ?? "", reason), markOf(made, line), "no");
}

/**
 * Says where device numbers are cut.
 * @param {string} text
 */
function warnOfNumbers(text) {
    const { state: { network }, declared: { ceiling } } = now;
    const greatest = Math.max(...network.devices.map(({ id }) => id));
    const uses = /\buid\b/.test(text.replace(/\/\/.*/g, ""));
    clearFault();
    if (!uses || greatest <= ceiling) return;
    const what = `uid is cut at the ceiling ${ceiling}, and there is device ${greatest}.`;
    complain({ what, hint: `So devices can't be told apart: raise the ceiling to ${greatest} at least.` }, null, "");
}

/** @param {string} text */
function refused(text) {
    forget();
    known.wrote = text;
    const mark = known.made && markOf(known.made, text);
    const said = saidOf(text, mark && !mark.block ? habitAt(now.state.program, mark) : "");
    const isOfProgram = /^(lexical|syntax|types|limit (tokens|depth|nodes))\b/.test(text);
    if (mark && /^types \d+ (count|mismatch)$/.test(text)) said.hint += callAt(mark.from);
    at("brief").textContent = isOfProgram ? "Not a program yet" : "No answer for this network";
    at("verdict").replaceChildren(
        element("p", { class: "big", text: `${mark && isOfProgram ? `${whereOf(mark)}: ` : ""}${said.what}` }),
        element("p", { text: said.hint }));
    at("wrote").textContent = `${text}\n`;
    if (isOfProgram) complain(said, mark, "");
    else clearFault();
    draw();
}

/**
 * How the block is declared in whose call a place is, if it is in one.
 * @param {number} place in the own text
 */
function callAt(place) {
    const block = blockAt(now.state.program, place, library);
    return block ? ` The block is ${headOf(block)}.` : "";
}

/** @param {Misfit} error */
function misfits(error) {
    forget();
    const { from, to } = error.token, second = error.message.includes("language 2");
    const mend = button("Put it there", () => program(`language 2;\n${now.state.program}`));
    complain({ what: error.message, hint: "" }, { from, to, block: "" }, "", ...second ? [" ", mend] : []);
    at("brief").textContent = "Not a program yet";
    at("verdict").replaceChildren(
        element("p", { class: "big", text: `${whereOf(error.token)}: ${error.message}` }));
    at("wrote").textContent = "";
    known.made = null;
    drawBlocks();
    busyIs(false);
    draw();
}

/**
 * The verdict alone, where this browser has too little stack for more.
 * @param {string} input
 */
async function verdictOf(input) {
    const { status, text } = await workers.answer.ask("check", input).catch(() => ({ status: 2, text: "" }));
    if (status > 1) return [];
    const { rounds } = readVerdict(text.trim());
    return [element("p", { class: `big ${rounds === null ? "no-verdict" : "yes"}`, text: headline(rounds) })];
}

/**
 * @param {Error} error
 * @param {Node[]} verdict
 */
function failed(error, verdict) {
    forget();
    const said = saidOfFailure(error);
    clearFault();
    at("brief").textContent = verdict.length ? "The verdict alone" : "No answer";
    at("verdict").replaceChildren(...verdict, element("p", { text: said.what }), element("p", { text: said.hint }));
    draw();
}
