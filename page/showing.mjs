// What is shown of the state: the drawing with its legend, and the fields beside it.
import { keyOf, spanOf } from "./changes.mjs";
import {
    chancesOfDevice, chancesOfLink, drawChanging, forgetComing, hasChanges, mayChange, mayLink,
} from "./changing.mjs";
import { ofBounds, ofNumbers, ofValues } from "./colours.mjs";
import { drawAnswerFields, drawNetworkFields, shownColours } from "./controls.mjs";
import { Drawing, MOST_OUTLINES } from "./drawing.mjs";
import {
    add, changed, choose, chooseLink, isThere, put, remove, setInput, switchInput, tellOf, toggleLink, unlink, weigh,
} from "./editing.mjs";
import { at } from "./elements.mjs";
import { HEIGHT, WIDTH, fitting, rounded } from "./network.mjs";
import { drawLegend, drawTable, inspectComing, inspectDevice, inspectLink } from "./panels.mjs";
import { besideOthers } from "./places.mjs";
import { Pointing } from "./pointing.mjs";
import { drawRun, isRun, isWrong, shownFrame } from "./run.mjs";
import { TYPING, askSoon, known, now, remember } from "./state.mjs";

/** @typedef {import("./colours.mjs").Look} Look */
/** @typedef {import("./network.mjs").Link} Link */

/** What a click on the drawing does. */
const tool = () => /** @type {HTMLInputElement} */ (document.querySelector("input[name=tool]:checked")).value;

/**
 * A link is there or not; or it may come, where that is the tool or an end isn't in the network.
 * @param {number} a
 * @param {number} b
 */
const link = (a, b) => tool() === "maybe" || ![a, b].every(isThere) ? mayLink(a, b) : toggleLink(a, b);

/**
 * A link goes, or the line that says that it may come.
 * @param {Link} one
 */
const removeLink = (one) => one[2] ? unlink(one) : mayLink(one[0], one[1]);

export const drawing = new Drawing(/** @type {any} */ (at("drawing")));

new Pointing(drawing, {
    tool, grabbed: remember, chose: choose, choseLink: chooseLink, added: add, linked: link, switched: switchInput,
    removed: (id) => isThere(id) ? remove(id) : forgetComing(id), unlinked: removeLink, told: tellOf,
    dropped: () => askSoon(0),
    moved: (id, x, y) => put({ devices: changed(id, () => (
        { x: rounded(Math.max(0, Math.min(WIDTH, x))), y: rounded(Math.max(0, Math.min(HEIGHT, y))) })) }, TYPING),
});

/**
 * What the devices show: their look, and the legend.
 * @returns {{look: (id: number) => Look, legend: import("./colours.mjs").Legend}}
 */
function colouring() {
    const { state: { network, view }, declared: { ceiling } } = now, frame = shownFrame();
    const { bounds, settled, values } = known, shown = frame ? "values" : shownColours(view.colours, known);
    if (bounds && shown === "bounds") {
        const legend = ofBounds([...bounds.byDevice.values()], ceiling);
        return { look: (id) => legend.look(bounds.byDevice.get(id)), legend };
    }
    if (shown === "rounds" || bounds && shown === "within") {
        /** @param {number} id */
        const of = (id) => shown === "rounds" ? settled?.byDevice.get(id) : bounds?.byDevice.get(id)?.round;
        const ids = shown === "rounds" ? network.devices.map(({ id }) => id) : [...bounds?.byDevice.keys() ?? []];
        const rounds = ids.flatMap((id) => of(id) ?? []), missing = rounds.length < ids.length && settled;
        const legend = ofNumbers(rounds, missing ? "no round of its own" : "", null);
        return { look: (id) => legend.look(of(id)), legend };
    }
    const held = frame ?? values, whole = values.size ? values : held;
    // the ceiling has a colour of its own, though no final value may be it
    const atCeiling = [...held.values()].filter((value) => value === ceiling);
    const legend = ofValues([...whole.values(), ...atCeiling], ceiling);
    return { look: (id) => legend.look(held.get(id)), legend };
}

/** The names of the inputs that outlines show. */
function outlined() {
    const truths = now.declared.inputs.filter(({ low }) => low === undefined);
    return truths.slice(0, MOST_OUTLINES).map(({ name }) => name);
}

/**
 * What is written of the inputs of a device that are numbers: nothing where each is the least that it may be.
 * @param {import("./network.mjs").Device} device
 */
function sensed({ inputs }) {
    const numbers = now.declared.inputs.filter(({ low }) => low !== undefined);
    const values = numbers.map((input) => fitting(input, inputs[input.name]));
    return numbers.some(({ low }, place) => values[place] !== low) ? values.join(", ") : "";
}

/** What the legend says of these inputs. */
function ofSensed() {
    const names = now.declared.inputs.filter(({ low }) => low !== undefined).map(({ name }) => name).join(", ");
    return now.state.network.devices.some((device) => sensed(device)) ? [`below a device: ${names}`] : [];
}

/**
 * The last links of paths.
 * @param {number[][]} paths
 * @returns {[number, number][]}
 */
const lastLinks = (paths) => paths.filter((path) => path.length > 1)
    .map((path) => [path[path.length - 2], path[path.length - 1]]);

/**
 * What the drawing shows of what may change; and the network with the devices that may come. A run is of the network
 * as it stands.
 */
function chances() {
    const { state: { network }, declared: { metric: [low, high] } } = now;
    const { away, coming, going, linked, weights, inputs } = mayChange().changes;
    const there = new Set(network.links.map(([a, b]) => keyOf(a, b))), isShown = hasChanges() && !isRun();
    const isAway = (/** @type {number} */ id) => isShown && (away.has(id) || coming.has(id));
    const possible = [...isShown ? linked : []].filter(([key]) => !there.has(key)).map(([, pair]) => pair);
    const ids = isShown ? [...coming.keys()].filter((id) => !isThere(id)) : [];
    const written = new Map(network.links.map(([a, b, weight]) => [keyOf(a, b), String(weight)]));
    for (const [key, values] of isShown ? weights : []) {
        const ends = spanOf(values, written.has(key) ? [Number(written.get(key))] : [], low, high);
        written.set(key, ends[0] < ends[1] ? ends.join("..") : String(ends[0]));
    }
    return {
        network: { ...network, devices: [...network.devices, ...besideOthers(ids, network.devices, possible)] },
        isAway, isComing: (/** @type {number} */ id) => !isThere(id), possible,
        mayChange: (/** @type {number} */ id) => isShown && inputs.has(id),
        isSure: (/** @type {Link} */ [a, b]) => !isShown || !going.has(keyOf(a, b)) && !isAway(a) && !isAway(b),
        weights: high > 1 ? written : new Map(),
    };
}

/** Draws the network with its legend. */
function drawNetwork() {
    const { state: { view }, chosenLink } = now, { look, legend } = colouring(), more = chances();
    const { settled } = known, rounds = settled ? [...settled.byDevice.values()] : [], last = Math.max(0, ...rounds);
    const names = outlined(), inRun = isRun(), withPaths = view.paths && known.paths && !inRun;
    const isOfBounds = !inRun && ["bounds", "within"].includes(shownColours(view.colours, known));
    const hasLast = !inRun && !isOfBounds && last > 0, { devices, links } = more.network;
    drawing.show({
        ...more, chosen: view.chosen, chosenLink, isWrong, look,
        rings: ({ inputs }) => names.flatMap((name, place) => inputs[name] === true ? [place] : []),
        sensed,
        isLast: (id) => hasLast && settled?.byDevice.get(id) === last,
        paths: withPaths ? lastLinks([...known.paths?.values() ?? []]) : [],
        path: withPaths && view.chosen !== null ? known.paths?.get(view.chosen) ?? [] : [],
    });
    drawLegend(legend, names.filter((name) => devices.some(({ inputs }) => inputs[name] === true)), [
        ...ofSensed(),
        ...inRun && known.values.size ? ["dashed: not yet its final value"] : [],
        ...hasLast ? ["thick edge: settles last"] : [],
        ...isOfBounds && view.colours === "bounds" ? ["left half: least value, right half: greatest"] : [],
        ...devices.some(({ id }) => more.isAway(id)) ? ["dashed device: may be away"] : [],
        ...links.some((one) => !more.isSure(one)) ? ["dashed link: may be missing"] : [],
        ...more.possible.length ? ["dotted link: may come"] : [],
        ...devices.some(({ id }) => more.mayChange(id)) ? ["\u00b1: an input may change"] : [],
    ]);
}

/** Draws the fields of the chosen device or link. */
function drawInspector() {
    const { state: { network, view }, declared, chosenLink } = now, inspector = at("inspector"), { chosen } = view;
    const device = network.devices.find(({ id }) => id === chosen);
    const active = document.activeElement, hasFocus = active instanceof HTMLElement && inspector.contains(active);
    // a number that is being typed isn't taken away
    if (hasFocus && active instanceof HTMLInputElement && active.type === "number" && device) return;
    /** @param {Element} node */
    const nameOf = (node) => node.getAttribute("aria-label") ?? node.textContent;
    const name = hasFocus ? nameOf(active) : null;
    if (device) inspectDevice(device, network, declared, known, { setInput, remove }, chancesOfDevice(device.id));
    else if (chosen !== null && mayChange().changes.coming.has(chosen)) inspectComing(chosen, known, forgetComing);
    else if (chosenLink) {
        inspectLink(chosenLink, declared, { weigh, unlink: removeLink }, chancesOfLink(chosenLink));
    } else inspector.replaceChildren();
    if (name) [...inspector.querySelectorAll("input, button")].find((node) => nameOf(node) === name)?.focus();
}

/** Draws all fields but those of the chosen device. */
export function drawControls() {
    drawNetworkFields(now.state.network, now.declared, tool());
    drawAnswerFields(now.state.view, known);
    drawChanging();
    drawRun();
}

/** Draws the whole state. */
export function drawAll() {
    drawNetwork();
    drawInspector();
    drawControls();
    if (at("devices-part").open) drawTable(now.state.network, now.declared, known, setInput);
}
