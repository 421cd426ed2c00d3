// The network as a picture.
import { HEIGHT, WIDTH, apart } from "./network.mjs";

/** @typedef {import("./network.mjs").Network} Network */
/** @typedef {import("./network.mjs").Device} Device */
/** @typedef {import("./network.mjs").Link} Link */
/** @typedef {import("./colours.mjs").Look} Look */
/**
 * What is drawn: the network, the look of a device, the outlines of those whose inputs are true, what is written of the
 * other inputs, which are chosen, which aren't right yet, links of paths as a device and the one before it, and what is
 * written of weights. Of what may change: which devices may be away, which of these aren't in the network, whose inputs
 * may change, which links may be missing, and which pairs may be linked.
 * @typedef {{
 *   network: Network, look: (id: number) => Look, rings: (device: Device) => number[],
 *   sensed: (device: Device) => string, chosen: number | null,
 *   chosenLink: Link | null, isWrong: (id: number) => boolean, isLast: (id: number) => boolean,
 *   paths: [number, number][], path: number[], weights: Map<string, string>,
 *   isAway: (id: number) => boolean, isComing: (id: number) => boolean, mayChange: (id: number) => boolean,
 *   isSure: (link: Link) => boolean, possible: [number, number][],
 * }} Picture
 */
const SVG = "http://www.w3.org/2000/svg";
export const MOST_OUTLINES = 3;
const MOST_WEIGHTS = 80, NEAR_LINK = 1.5, LONG = 7, MOST_MIXES = 400;

/**
 * @param {string} name
 * @param {Record<string, string | number>} attributes
 */
function made(name, attributes = {}) {
    const node = document.createElementNS(SVG, name);
    for (const [key, value] of Object.entries(attributes)) node.setAttribute(key, String(value));
    return node;
}

/**
 * How far a place is from a stretch.
 * @param {{x: number, y: number}} place
 * @param {Device} a
 * @param {Device} b
 */
function fromLine({ x, y }, a, b) {
    const [dx, dy] = [b.x - a.x, b.y - a.y], length = dx * dx + dy * dy || 1;
    const part = Math.max(0, Math.min(1, ((x - a.x) * dx + (y - a.y) * dy) / length));
    return Math.hypot(a.x + part * dx - x, a.y + part * dy - y);
}

export class Drawing {
    /** @param {SVGSVGElement} svg */
    constructor(svg) {
        this.svg = svg;
        /** @type {Picture | null} */
        this.picture = null;
        /** @type {Map<number, SVGElement>} */
        this.nodes = new Map();
        /**
         * The device at which a link begins.
         * @type {number | null}
         */
        this.firstEnd = null;
        this.radius = 2;
        this.mixes = svg.appendChild(made("defs"));
        this.links = svg.appendChild(made("path", { class: "links" }));
        this.mayGo = svg.appendChild(made("path", { class: "may-go" }));
        this.mayCome = svg.appendChild(made("path", { class: "may-come" }));
        this.paths = svg.appendChild(made("path", { class: "paths" }));
        this.path = svg.appendChild(made("path", { class: "path" }));
        this.linkMark = svg.appendChild(made("path", { class: "chosen-link" }));
        this.rubber = svg.appendChild(made("path", { class: "rubber" }));
        this.weights = svg.appendChild(made("g", { class: "weights", "aria-hidden": "true" }));
        this.devices = svg.appendChild(made("g", { class: "devices" }));
        svg.setAttribute("viewBox", `0 0 ${WIDTH} ${HEIGHT}`);
    }

    /** @param {Picture} picture */
    show(picture) {
        this.picture = picture;
        const { network } = picture, count = network.devices.length;
        this.radius = Math.max(0.8, Math.min(3.4, 14 / Math.sqrt(Math.max(1, count))));
        const there = new Set(network.devices.map(({ id }) => id));
        for (const [id, node] of this.nodes) {
            if (there.has(id)) continue;
            node.remove();
            this.nodes.delete(id);
        }
        const at = new Map(network.devices.map((one) => [one.id, one]));
        network.devices.forEach((device) => this.place(device, picture));
        this.drawLinks(picture, at);
        this.svg.classList.toggle("many", count > 150);
    }

    /**
     * @param {Device} device
     * @param {Picture} picture
     */
    place(device, picture) {
        const { id, x, y } = device, { fill, half, ink, text } = picture.look(id), { radius } = this;
        const outlines = picture.rings(device), sign = picture.mayChange(id) ? "\u00b1" : "";
        const sensed = picture.sensed(device);
        const kinds = [
            "device", picture.chosen === id ? "chosen" : "", this.firstEnd === id ? "first-end" : "",
            picture.isWrong(id) ? "wrong" : "", picture.isLast(id) ? "last" : "", picture.isAway(id) ? "away" : "",
            half ? "mixed" : "",
        ].join(" ").trim();
        const node = this.nodes.get(id) ?? this.newDevice(id);
        const key = [x, y, radius, fill, half, text, sign, sensed, kinds, outlines].join();
        // what looks as before stays as it is
        if (node.dataset.key === key) return;
        node.dataset.key = key;
        const [hit, body, value, number, inputs, title, ...rings] = node.children;
        node.setAttribute("transform", `translate(${x} ${y})`);
        node.setAttribute("class", kinds);
        hit.setAttribute("r", String(Math.max(radius, 2.6)));
        body.setAttribute("r", String(radius));
        body.setAttribute("fill", half ? this.mixOf(fill, half) : fill);
        rings.forEach((ring) => ring.remove());
        const wider = (/** @type {number} */ at) => radius * (1.3 + 0.22 * at);
        node.append(...outlines.map((at) => made("circle", { class: `ring ring${at}`, r: wider(at) })));
        this.write(value, text);
        value.setAttribute("fill", ink);
        number.textContent = `${id}${sign}`;
        number.setAttribute("x", String(radius * (outlines.length ? 1.2 : 0.9)));
        number.setAttribute("y", String(-radius * (outlines.length ? 1.1 : 0.9)));
        inputs.textContent = sensed;
        inputs.setAttribute("y", String(radius * (outlines.length ? 1.9 : 1.6)));
        [number, inputs].forEach((small) => small.setAttribute("font-size", String(Math.max(1.1, radius * 0.55))));
        title.textContent = `device ${id}${text === "" ? "" : `: ${text}`}`;
    }

    /**
     * Writes a text on a device: a long pair in two rows.
     * @param {Element} node
     * @param {string} text
     */
    write(node, text) {
        const { radius } = this, cut = text.length > LONG ? text.indexOf(",") + 1 : 0;
        const rows = cut ? [text.slice(0, cut), text.slice(cut)] : [text];
        const size = Math.min(radius * 0.95, radius * 3.2 / Math.max(1, ...rows.map(({ length }) => length)));
        node.setAttribute("font-size", String(size));
        if (!cut) node.textContent = text;
        else {
            node.replaceChildren(...rows.map((row, at) => {
                const part = made("tspan", { x: 0, dy: at ? size : -size / 2 });
                part.textContent = row;
                return part;
            }));
        }
    }

    /**
     * A fill of two colours, the left one and the right one.
     * @param {string} left
     * @param {string} right
     */
    mixOf(left, right) {
        const name = `mix${left}${right}`.replace(/#/g, "-");
        if (!this.mixes.querySelector(`[id="${name}"]`)) {
            if (this.mixes.children.length > MOST_MIXES) {
                this.mixes.replaceChildren();
                this.nodes.forEach((node) => { delete node.dataset.key; });
            }
            const mix = made("linearGradient", { id: name });
            mix.append(...[left, right].map((colour) => made("stop", { offset: 0.5, "stop-color": colour })));
            this.mixes.append(mix);
        }
        return `url(#${name})`;
    }

    /** @param {number} id */
    newDevice(id) {
        const node = /** @type {SVGElement} */ (made("g", { "data-id": id }));
        node.append(made("circle", { class: "hit" }), made("circle", { class: "body" }));
        node.append(...["value", "number", "sensed"].map((kind) => made("text", { class: kind })), made("title"));
        this.devices.append(node);
        this.nodes.set(id, node);
        return node;
    }

    /**
     * @param {Picture} picture
     * @param {Map<number, Device>} at
     */
    drawLinks(picture, at) {
        /** @param {number[]} pair */
        const stroke = ([a, b]) => {
            const [one, other] = [at.get(a), at.get(b)];
            return one && other ? `M${one.x} ${one.y}L${other.x} ${other.y}` : "";
        };
        const { path, chosenLink, network: { links }, possible } = picture;
        const [sure, others] = [true, false].map((is) => links.filter((link) => picture.isSure(link) === is));
        this.links.setAttribute("d", sure.map(([a, b]) => stroke([a, b])).join(""));
        this.mayGo.setAttribute("d", others.map(([a, b]) => stroke([a, b])).join(""));
        this.mayCome.setAttribute("d", possible.map(stroke).join(""));
        this.paths.setAttribute("d", picture.paths.map(stroke).join(""));
        this.path.setAttribute("d", path.slice(1).map((id, place) => stroke([path[place], id])).join(""));
        this.linkMark.setAttribute("d", chosenLink ? stroke([chosenLink[0], chosenLink[1]]) : "");
        const written = picture.weights.size <= MOST_WEIGHTS ? [...picture.weights] : [];
        this.weights.replaceChildren(...written.flatMap(([pair, weight]) => {
            const [one, other] = pair.split(" ").map((id) => at.get(Number(id)));
            if (!one || !other) return [];
            const text = made("text", { x: (one.x + other.x) / 2, y: (one.y + other.y) / 2, "font-size": 1.6 });
            text.textContent = weight;
            return [text];
        }));
    }

    /**
     * The place on the plane that a pointer is at.
     * @param {PointerEvent} event
     */
    at(event) {
        const matrix = this.svg.getScreenCTM();
        const place = new DOMPoint(event.clientX, event.clientY).matrixTransform(matrix?.inverse());
        return { x: Math.max(0, Math.min(WIDTH, place.x)), y: Math.max(0, Math.min(HEIGHT, place.y)) };
    }

    /**
     * The device at a place.
     * @param {{x: number, y: number}} place
     */
    deviceAt(place) {
        const reach = Math.max(this.radius, 2.6);
        /** @type {Device | null} */
        let found = null;
        for (const device of this.picture?.network.devices ?? []) {
            const far = Math.hypot(device.x - place.x, device.y - place.y);
            if (far <= reach && (!found || far < Math.hypot(found.x - place.x, found.y - place.y))) found = device;
        }
        return found;
    }

    /**
     * The link at a place, or the pair that may be linked, with a weight of 0.
     * @param {{x: number, y: number}} place
     */
    linkAt(place) {
        if (!this.picture) return null;
        const { network: { devices, links }, possible } = this.picture;
        const at = new Map(devices.map((one) => [one.id, one]));
        /** @type {Link | null} */
        let found = null;
        let least = NEAR_LINK;
        for (const link of [...links, ...possible.map(([a, b]) => /** @type {Link} */ ([a, b, 0]))]) {
            const [a, b] = [at.get(link[0]), at.get(link[1])];
            const far = a && b ? fromLine(place, a, b) : Infinity;
            if (far < least) [found, least] = [link, far];
        }
        return found;
    }

    /**
     * Marks the device at which a link begins, or none.
     * @param {number | null} id
     */
    begin(id) {
        if (this.firstEnd !== null) this.nodes.get(this.firstEnd)?.classList.remove("first-end");
        this.firstEnd = id;
        if (id !== null) this.nodes.get(id)?.classList.add("first-end");
    }

    /**
     * Draws the stretch from a device to a place, or none.
     * @param {number} id
     * @param {{x: number, y: number} | null} place
     */
    stretch(id, place) {
        const from = this.picture?.network.devices.find((one) => one.id === id);
        this.rubber.setAttribute("d", from && place ? `M${from.x} ${from.y}L${place.x} ${place.y}` : "");
    }

    /**
     * The nearest device in a direction.
     * @param {Device} from
     * @param {[number, number]} way
     */
    nearest(from, [dx, dy]) {
        /** @type {Device | null} */
        let found = null;
        let least = Infinity;
        for (const device of this.picture?.network.devices ?? []) {
            const along = (device.x - from.x) * dx + (device.y - from.y) * dy, far = apart(device, from);
            const cost = along > far * 0.5 ? far * (2 - along / far) : Infinity;
            if (cost < least) [found, least] = [device, cost];
        }
        return found;
    }
}
