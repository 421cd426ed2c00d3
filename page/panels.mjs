// What stands around the drawing: the verdict, the legend, the chosen device or link, and the table of all devices.
import { isOne, writtenValue } from "./answers.mjs";
import { SCALE } from "./colours.mjs";
import { at, button, element, valueField } from "./elements.mjs";
import { fitting, neighboursOf } from "./network.mjs";
import { counted } from "./words.mjs";

/** @typedef {import("./network.mjs").Network} Network */
/** @typedef {import("./network.mjs").Device} Device */
/** @typedef {import("./network.mjs").Link} Link */
/** @typedef {import("./network.mjs").Declared} Declared */
/** @typedef {import("./answers.mjs").Settled} Settled */
/** @typedef {import("./answers.mjs").Values} Values */
/** @typedef {import("./answers.mjs").Bounds} Bounds */
/**
 * What is known of the devices: final values, settle rounds, paths, and bounds while the network changes.
 * @typedef {{
 *   settled: Settled | null, values: Values, paths: Map<number, number[]> | null, bounds: Bounds | null,
 * }} Known
 */
/** @typedef {(id: number, name: string, value: number | boolean) => void} SetInput */

const UNEDITED = "in which nobody edits network or inputs";

/** @param {number | null} rounds of a yes, or null for a no */
export const headline = (rounds) => rounds === null ? "No: it isn't known to settle everywhere"
    : `Yes: it settles after ${counted(rounds, "round")}`;

/**
 * The verdict in words.
 * @param {Settled} settled
 * @param {number} count
 */
export function verdictNodes({ verdict, rounds, byDevice }, count) {
    const isYes = verdict.rounds !== null, all = counted(count, "device");
    const most = counted(verdict.rounds ?? 0, "round"), always = "from every start and in every order of firings";
    const everywhere = isYes
        ? `On every network of ${all}, ${always}, ${most} ${UNEDITED} lead each device to its final value.`
        : "A no says nothing of one network alone; what holds on this one comes next.";
    const missing = count - byDevice.size;
    const enough = `${counted(rounds ?? 0, "round")} ${rounds === 1 ? "is" : "are"} enough`;
    const here = rounds !== null ? `On this network ${enough}${isYes ? "" : `, ${always}`}.`
        : isYes ? `On this network: no smaller number was found for ${counted(missing, "device")}.`
            : `On this network it is open: for ${counted(missing, "device")} no number of rounds was found.`;
    return [
        element("p", { class: `big ${isYes ? "yes" : "no-verdict"}`, text: headline(verdict.rounds) }),
        element("p", { text: everywhere }),
        element("p", { text: here }),
    ];
}

/**
 * What holds while the network changes, in words.
 * @param {Bounds} bounds
 * @param {Settled} settled
 */
export function boundsNodes({ verdict, rounds, byDevice }, settled) {
    const found = [...byDevice.values()], devices = counted(found.length, "device");
    const fixed = found.filter(({ bound }) => isOne(bound)).length, after = `fter ${counted(rounds, "round")}`;
    const keep = fixed === 1 ? "keeps" : "keep", some = `${fixed} of ${devices} ${keep} one value.`;
    const known = fixed === found.length ? "Each of them keeps one value." : some;
    const isOther = verdict.rounds !== null && verdict.rounds !== settled.verdict.rounds;
    const more = `As up to ${devices} may be there, the yes means ${verdict.rounds} rounds ${UNEDITED}.`;
    return [
        element("p", { class: "big", text: `While it changes: bounds hold a${after}` }),
        element("p", { text: `A${after}, from every start and in every order of firings, each device's value lies `
            + `within its bounds, and stays there as long as nothing happens but what your lines allow. ${known}` }),
        ...isOther ? [element("p", { text: more })] : [],
    ];
}

/**
 * The verdict on a program while its network is empty, in words.
 * @param {number | null} one the rounds of a yes on one device, or null for a no
 * @param {number | null} most those on as many devices as there may be
 */
export function aloneNodes(one, most) {
    if (one === null || most === null) {
        return [element("p", { class: "big no-verdict", text: headline(null) })];
    }
    const after = `After ${counted(one, "round")} ${UNEDITED}, on one device`;
    const then = one === most ? " as" : `; after ${most.toLocaleString("en")}`;
    return [
        element("p", { class: "big yes", text: "Yes: it settles on every network" }),
        element("p", { text: `${after}${then} on 1,024 devices, the most that there may be.` }),
    ];
}

/**
 * The verdict in few words.
 * @param {Settled} settled
 * @param {Bounds | null} bounds
 */
export function brief({ verdict, rounds }, bounds) {
    const here = rounds === null ? "open here" : `settles here after ${rounds}`;
    const said = [verdict.rounds === null ? "No" : `Yes, ${counted(verdict.rounds, "round")}`, here];
    return [...said, ...bounds ? [`bounds hold after ${bounds.rounds}`] : []].join(" \u00b7 ");
}

/**
 * @param {import("./colours.mjs").Legend} legend
 * @param {string[]} outlines names of the inputs that outlines show
 * @param {string[]} more
 */
export function drawLegend({ scale, entries }, outlines, more) {
    const rows = [];
    if (scale) {
        const bar = element("span", { class: "bar" });
        bar.style.background = SCALE;
        const parts = scale[0] === scale[1] ? [`all ${scale[0]}`] : [scale[0], bar, scale[1]];
        rows.push(element("span", {}, ...parts));
    }
    for (const { fill, text } of entries) {
        const swatch = element("span", { class: "swatch" });
        swatch.style.background = fill;
        rows.push(element("span", {}, swatch, text));
    }
    outlines.forEach((name, place) => rows.push(
        element("span", {}, element("span", { class: `outline outline${place}` }), `${name} is true`)));
    more.forEach((text) => rows.push(element("span", { text })));
    at("legend").replaceChildren(...rows);
}

/**
 * What is known of a device while the network changes.
 * @param {number} id
 * @param {Known} known
 */
export function describeBound(id, { bounds }) {
    const bounded = bounds?.byDevice.get(id);
    if (!bounded) return "";
    const { text, round, isAway } = bounded;
    const there = isAway ? " whenever it is there" : "", after = round ? ` after ${counted(round, "round")}` : "";
    return `while the network changes: ${text === "any" ? "true or false" : text}${after}${there}`;
}

/**
 * What is known of a device, in a sentence.
 * @param {number} id
 * @param {Known} known
 */
export function describe(id, known) {
    const { settled, values, paths } = known;
    const value = values.get(id), round = settled?.byDevice.get(id), path = paths?.get(id);
    /** @type {string[]} */
    const said = [];
    if (value !== undefined) said.push(`final value ${writtenValue(value)}`);
    if (round !== undefined) said.push(`held after ${counted(round, "round")}`);
    else if (settled?.verdict.rounds) said.push(`held after ${counted(settled.verdict.rounds, "round")}`);
    else if (settled) said.push("no settle round");
    if (path && path.length > 1) said.push(`cheapest path ${path.join(" \u2192 ")}`);
    return [...said, describeBound(id, known)].filter(Boolean).join("; ");
}

/**
 * The field of an input of a device.
 * @param {Device} device
 * @param {import("./tokens.mjs").Input} input
 * @param {SetInput} setInput
 */
function inputField({ id, inputs }, input, setInput) {
    const { name } = input, value = fitting(input, inputs[name]);
    return valueField(input, value, (next) => setInput(id, name, next), `${name} of device ${id}`);
}

/**
 * The chosen device, with its inputs.
 * @param {Device} device
 * @param {Network} network
 * @param {Declared} declared
 * @param {Known} known
 * @param {{setInput: SetInput, remove: (id: number) => void}} does
 * @param {Node} chances
 */
export function inspectDevice(device, network, declared, known, does, chances) {
    const { id } = device, near = neighboursOf(network).get(id) ?? [];
    const fields = declared.inputs.map((input) => (
        element("label", {}, input.name, inputField(device, input, does.setInput))));
    const linkedTo = near.length ? `linked to ${near.sort((a, b) => a - b).join(", ")}` : "without links";
    const head = [element("strong", { text: `Device ${id}` }), ...fields, button("Remove", () => does.remove(id))];
    at("inspector").replaceChildren(
        element("div", { class: "row" }, ...head),
        element("p", { class: "small row", text: [describe(id, known), linkedTo].filter(Boolean).join("; ") }),
        chances);
}

/**
 * The chosen device, if it isn't in the network and may come.
 * @param {number} id
 * @param {Known} known
 * @param {(id: number) => void} remove
 */
export function inspectComing(id, known, remove) {
    at("inspector").replaceChildren(
        element("div", { class: "row" }, element("strong", { text: `Device ${id}, which may come` }),
            button("Remove", () => remove(id))),
        element("p", { class: "small row", text: describeBound(id, known) }));
}

/**
 * The chosen link, with its weight; or the pair that may be linked, with a weight of 0.
 * @param {Link} link
 * @param {Declared} declared
 * @param {{weigh: (link: Link, weight: number) => void, unlink: (link: Link) => void}} does
 * @param {Node} chances
 */
export function inspectLink(link, { metric: [low, high] }, does, chances) {
    const input = { name: "weight", low, high }, [a, b, weight] = link;
    const field = () => valueField(input, weight, (value) => does.weigh(link, Number(value)), "weight");
    const row = element("div", { class: "row" },
        element("strong", { text: `Link ${a}\u2013${b}${weight ? "" : ", which may come"}` }),
        ...weight ? [element("label", {}, "weight", field())] : [], button("Remove", () => does.unlink(link)));
    at("inspector").replaceChildren(row, chances);
}

/**
 * The table of all devices. It is made again if devices or inputs are others; otherwise only its cells change.
 * @param {Network} network
 * @param {Declared} declared
 * @param {Known} known
 * @param {SetInput} setInput
 */
export function drawTable({ devices }, { inputs }, known, setInput) {
    const holder = at("table"), there = new Set(devices.map(({ id }) => id)), { bounds } = known;
    const coming = [...bounds?.byDevice.keys() ?? []].filter((id) => !there.has(id));
    const key = JSON.stringify([devices.map(({ id }) => id), coming, inputs]);
    if (holder.dataset.key !== key) {
        holder.dataset.key = key;
        const head = ["device", ...inputs.map(({ name }) => name), "final value", "held after", "bounds", "within"];
        const answers = () => head.slice(inputs.length + 1).map(() => element("td"));
        const rows = devices.map((device) => element("tr", {}, element("th", { scope: "row", text: device.id }),
            ...inputs.map((input) => element("td", {}, inputField(device, input, setInput))), ...answers()));
        const more = coming.map((id) => element("tr", {}, element("th", { scope: "row", text: id }),
            ...inputs.map(() => element("td", { text: "may come" })), ...answers()));
        holder.replaceChildren(element("table", {},
            element("thead", {}, element("tr", {}, ...head.map((text) => element("th", { scope: "col", text })))),
            element("tbody", {}, ...rows, ...more)));
    }
    holder.firstChild.classList.toggle("without-bounds", !bounds);
    const ids = [...there, ...coming];
    holder.querySelectorAll("tbody tr").forEach((/** @type {HTMLElement} */ row, /** @type {number} */ place) => {
        const given = devices[place]?.inputs, cells = [...row.children].slice(1), id = ids[place];
        inputs.forEach((input, column) => {
            if (!given) return;
            const field = /** @type {HTMLInputElement} */ (cells[column].firstChild),
                value = fitting(input, given[input.name]);
            if (typeof value === "boolean") field.checked = value;
            else if (field !== document.activeElement) field.value = String(value);
        });
        answersOf(id, known).forEach((text, column) => { cells[inputs.length + column].textContent = text; });
    });
}

/**
 * What the table says of a device: its value, its settle round, its bounds, and their round.
 * @param {number} id
 * @param {Known} known
 */
function answersOf(id, { values, settled, bounds }) {
    const value = values.get(id), round = settled?.byDevice.get(id), bounded = bounds?.byDevice.get(id);
    return [
        value === undefined ? "" : writtenValue(value), round === undefined ? settled ? "\u2013" : "" : String(round),
        bounded ? `${bounded.text}${bounded.isAway ? ", may be away" : ""}` : "", bounded ? String(bounded.round) : "",
    ];
}
