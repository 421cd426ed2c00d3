// The fields around the drawing, as the state has them.
import { at, element } from "./elements.mjs";
import { counted } from "./words.mjs";

/** @typedef {import("./network.mjs").Network} Network */
/** @typedef {import("./network.mjs").Declared} Declared */

/**
 * The fields of the network.
 * @param {Network} network
 * @param {Declared} declared
 * @param {string} tool what a click does
 */
export function drawNetworkFields({ devices, links, range, weight }, { inputs, metric }, tool) {
    at("size").textContent = `${counted(devices.length, "device")}, ${counted(links.length, "link")}`;
    at("links").value = range === null ? "hand" : "range";
    at("range-label").hidden = range === null;
    at("range").value = range ?? 20;
    at("range-out").textContent = range === null ? "" : String(range);
    at("weight-label").hidden = metric[1] <= 1;
    at("weight-kind").value = weight ? "one" : "length";
    at("weight").hidden = !weight;
    if (weight) at("weight").value = weight;
    const names = inputs.map(({ name }) => name), select = at("input");
    if ([...select.options].map((option) => option.value).join() !== names.join()) {
        select.replaceChildren(...names.map((name) => element("option", { text: name })));
    }
    const chosen = inputs.find(({ name }) => name === select.value);
    at("switching").hidden = tool !== "switch" || !chosen;
    at("amount-label").hidden = chosen?.low === undefined;
    const { low = 0, high = 0 } = chosen ?? {}, field = at("amount");
    if (field.min === String(low) && field.max === String(high)) return;
    // of another range, the greatest is offered
    [field.min, field.max, field.value] = [low, high, high];
}

/**
 * What the devices show: bounds only where there are any.
 * @param {string} colours
 * @param {import("./panels.mjs").Known} known
 */
export const shownColours = (colours, { bounds }) => (
    bounds || !["bounds", "within"].includes(colours) ? colours : "values");

/**
 * The fields of the answer.
 * @param {import("./sharing.mjs").View} view
 * @param {import("./panels.mjs").Known} known
 */
export function drawAnswerFields({ colours, paths, number, round }, known) {
    at("paths").checked = paths;
    at("paths").disabled = !known.paths;
    const none = known.settled && !known.paths;
    const only = "only for a yes whose main is one rep that adds to the least heard, as in the hop count";
    at("no-paths").textContent = none ? only : "";
    // a run shows values alone
    const shown = round === null ? shownColours(colours, known) : "values";
    for (const node of document.querySelectorAll("input[name=colours]")) {
        const radio = /** @type {HTMLInputElement} */ (node);
        radio.checked = radio.value === shown;
    }
    at("colouring").disabled = round !== null;
    document.querySelectorAll(".of-bounds").forEach((node) => {
        /** @type {HTMLElement} */ (node).hidden = !known.bounds;
    });
    at("number").value = number;
    at("run").disabled = !known.settled;
}

/**
 * The slider of a run, or null.
 * @param {number | null} round the one that is shown
 * @param {number} last the last one that is known
 * @param {number} rounds how many are wanted
 * @param {string} right how many devices are right
 */
export function drawSlider(round, last, rounds, right) {
    at("sliding").hidden = at("end-run").hidden = round === null;
    if (round === null) return;
    at("round").max = last;
    at("round").value = round;
    at("round-out").textContent = `${round} of ${rounds}`;
    at("right").textContent = `${round === 0 ? "At the start" : `After ${counted(round, "round")}`}: ${right}.`;
}
