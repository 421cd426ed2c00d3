// A run from rubbish on the page: its rounds, its slider, and which devices hold their final value in it.
import { writtenValue } from "./answers.mjs";
import { Stopped, workers } from "./asking.mjs";
import { drawSlider } from "./controls.mjs";
import { at } from "./elements.mjs";
import { runFromRubbish } from "./rubbish.mjs";
import { draw, known, now, saveSoon, tell } from "./state.mjs";
import { saidOfFailure } from "./words.mjs";

const MOST_ROUNDS = 200, ROUNDS_WITHOUT = 30, PLAY = 600;
let playTimer = 0;

/** The values of the round that is shown, or null if no run is. */
export const shownFrame = () => now.state.view.round === null ? null : now.frames[now.state.view.round] ?? null;

/** Whether a run is on and has come to something. */
export const isRun = () => now.state.view.round !== null && now.frames.length > 0;

/**
 * Whether a device holds another value than its final one in the round that is shown.
 * @param {number} id
 */
export function isWrong(id) {
    const frame = shownFrame(), value = known.values.get(id), held = frame?.get(id);
    return !!frame && value !== undefined && (held === undefined || writtenValue(held) !== writtenValue(value));
}

/** How many rounds a run has. */
function roundsOfRun() {
    const { settled } = known, wanted = settled?.rounds ?? settled?.verdict.rounds ?? ROUNDS_WITHOUT;
    return Math.max(1, Math.min(MOST_ROUNDS, wanted));
}

export function drawRun() {
    const { frames, state: { view: { round }, network: { devices } } } = now;
    const right = devices.filter(({ id }) => !isWrong(id)).length;
    const said = `${right} of ${devices.length} devices hold their final value`;
    const isKnown = known.values.size > 0;
    drawSlider(isRun() ? round : null, frames.length - 1, roundsOfRun(), isKnown ? said : "no final value is known");
}

export function forgetRun() {
    workers.run?.stop();
    clearInterval(playTimer);
    at("play").textContent = "Play";
    now.frames = [];
    now.state.view.round = null;
}

/** @param {number} round the one to show */
export async function startRun(round = 0) {
    if (!known.settled || !known.made) return;
    forgetRun();
    const { turn, declared, state: { network, view } } = now;
    try {
        await runFromRubbish({
            ask: (words, input) => workers.run.ask(words, input), program: known.made.text, network, declared,
            seed: view.number, rounds: roundsOfRun(),
            show: (found) => {
                if (turn === now.turn) showFound(found, round);
            },
        });
        saveSoon();
    } catch (error) {
        if (!(error instanceof Stopped)) tell(saidOfFailure(/** @type {Error} */ (error)).what);
    }
}

/**
 * @param {import("./answers.mjs").Values[]} found the rounds as far as they have come
 * @param {number} round the one to show once it has come
 */
function showFound(found, round) {
    const { view } = now.state, wanted = Math.min(round, found.length - 1), isNew = !now.frames.length;
    now.frames = found;
    if (isNew || (view.round ?? 0) < wanted && view.round !== null) view.round = wanted;
    if (isNew || view.round === wanted) draw();
    else drawRun();
}

/** @param {number} round */
export function showRound(round) {
    now.state.view.round = Math.max(0, Math.min(now.frames.length - 1, round));
    draw();
    saveSoon();
}

export function endRun() {
    forgetRun();
    draw();
    saveSoon();
}

/** @param {number} number that from which another run is drawn */
export function drawNumber(number) {
    const { view } = now.state, wasRun = view.round !== null;
    view.number = Math.max(0, Math.min(9999999, Math.round(number) || 0));
    if (wasRun) startRun();
    saveSoon();
}

export function play() {
    const isPlaying = at("play").textContent === "Pause";
    clearInterval(playTimer);
    at("play").textContent = isPlaying ? "Play" : "Pause";
    if (isPlaying) return;
    const shown = () => now.state.view.round ?? 0;
    if (shown() >= roundsOfRun()) showRound(0);
    playTimer = setInterval(() => {
        showRound(shown() + 1);
        if (shown() < roundsOfRun()) return;
        clearInterval(playTimer);
        at("play").textContent = "Play";
    }, PLAY);
}
