// What a pointer and keys do to the drawing.
import { HEIGHT, WIDTH } from "./network.mjs";
import { freePlace } from "./places.mjs";

/** @typedef {import("./drawing.mjs").Drawing} Drawing */
/** @typedef {import("./network.mjs").Link} Link */
/**
 * What the page does when the picture is worked on.
 * @typedef {{
 *   tool: () => string, grabbed: () => void, moved: (id: number, x: number, y: number) => void, dropped: () => void,
 *   chose: (id: number | null) => void, choseLink: (link: Link | null) => void, added: (x: number, y: number) => void,
 *   linked: (a: number, b: number) => void, switched: (id: number) => void, removed: (id: number) => void,
 *   unlinked: (link: Link) => void, told: (id: number | null, said?: string) => void,
 * }} Hooks
 */
/**
 * What a pointer is doing: the device on which it began, and whether it has moved.
 * @typedef {{id: number, hasMoved: boolean, x: number, y: number}} Grip
 */

/** @type {Record<string, [number, number]>} */
const ARROWS = { ArrowLeft: [-1, 0], ArrowRight: [1, 0], ArrowUp: [0, -1], ArrowDown: [0, 1] };
const STEP = 2, CLICK = 0.6;

export class Pointing {
    /**
     * @param {Drawing} drawing
     * @param {Hooks} hooks
     */
    constructor(drawing, hooks) {
        this.drawing = drawing;
        this.hooks = hooks;
        /** @type {Grip | null} */
        this.grip = null;
        const { svg } = drawing;
        svg.addEventListener("pointerdown", (event) => this.press(event));
        svg.addEventListener("pointermove", (event) => this.move(event));
        svg.addEventListener("pointerup", (event) => this.release(event));
        svg.addEventListener("pointercancel", () => this.letGo());
        svg.addEventListener("keydown", (event) => this.key(event));
        svg.addEventListener("focus", () => this.hooks.told(drawing.picture?.chosen ?? null));
    }

    /** Whether a click chooses an end of a link. */
    get isLinking() {
        return ["link", "maybe"].includes(this.hooks.tool());
    }

    /** @param {PointerEvent} event */
    press(event) {
        if (event.button !== 0) return;
        const { drawing, hooks } = this, tool = hooks.tool();
        const place = drawing.at(event), device = drawing.deviceAt(place);
        drawing.svg.focus({ preventScroll: true });
        if (device) {
            if (tool === "switch") return hooks.switched(device.id);
            if (tool === "remove") return hooks.removed(device.id);
            drawing.svg.setPointerCapture(event.pointerId);
            this.grip = { id: device.id, hasMoved: false, ...place };
            return;
        }
        if (tool === "add") return hooks.added(place.x, place.y);
        const link = drawing.linkAt(place);
        if (tool === "remove" && link) return hooks.unlinked(link);
        drawing.begin(null);
        hooks.choseLink(link);
        if (!link) hooks.chose(null);
    }

    /** @param {PointerEvent} event */
    move(event) {
        const { grip, drawing, hooks } = this;
        if (!grip) return;
        const place = drawing.at(event);
        if (!grip.hasMoved && Math.hypot(place.x - grip.x, place.y - grip.y) < CLICK) return;
        if (this.isLinking) drawing.stretch(grip.id, place);
        else if (this.isFixed(grip.id)) return;
        else {
            if (!grip.hasMoved) hooks.grabbed();
            hooks.moved(grip.id, place.x, place.y);
        }
        grip.hasMoved = true;
    }

    /**
     * Whether a device can't be dragged, since it isn't in the network.
     * @param {number} id
     */
    isFixed(id) {
        return !!this.drawing.picture?.isComing(id);
    }

    /** @param {PointerEvent} event */
    release(event) {
        const { grip, drawing, hooks } = this;
        if (!grip) return;
        const end = drawing.deviceAt(drawing.at(event));
        this.letGo();
        if (this.isLinking) {
            if (!grip.hasMoved) this.linkEnd(grip.id);
            else if (end && end.id !== grip.id) hooks.linked(grip.id, end.id);
        } else if (grip.hasMoved) hooks.dropped();
        else hooks.chose(grip.id);
    }

    letGo() {
        if (this.grip) this.drawing.stretch(this.grip.id, null);
        this.grip = null;
    }

    /**
     * One end of a link: the first, or the second.
     * @param {number} id
     */
    linkEnd(id) {
        const { drawing, hooks } = this, first = drawing.firstEnd;
        drawing.begin(null);
        if (first !== null && first !== id && drawing.nodes.has(first)) return hooks.linked(first, id);
        if (first === id) return;
        drawing.begin(id);
        hooks.told(id, "a link begins here; choose its other end");
    }

    /** @param {KeyboardEvent} event */
    key(event) {
        const { drawing, hooks } = this, way = ARROWS[event.key], devices = drawing.picture?.network.devices ?? [];
        const chosen = devices.find(({ id }) => id === drawing.picture?.chosen);
        if (event.ctrlKey || event.metaKey || event.altKey) return;
        if (way && chosen && event.shiftKey && !this.isFixed(chosen.id)) {
            hooks.grabbed();
            hooks.moved(chosen.id, chosen.x + STEP * way[0], chosen.y + STEP * way[1]);
            hooks.dropped();
        } else if (way) hooks.chose((chosen ? drawing.nearest(chosen, way) ?? chosen : devices[0])?.id ?? null);
        else if (event.key === "+") {
            const { x, y } = freePlace(chosen ?? { x: WIDTH / 2, y: HEIGHT / 2 }, devices);
            hooks.added(x, y);
        }
        else if (!chosen) return;
        else if (event.key === "Delete" || event.key === "Backspace") hooks.removed(chosen.id);
        else if (event.key === "Enter" || event.key === " ") this.use(chosen.id);
        else if (event.key === "Escape") drawing.begin(null);
        else return;
        event.preventDefault();
    }

    /**
     * Does to a device what a click with the tool of the moment does.
     * @param {number} id
     */
    use(id) {
        const { hooks } = this, tool = hooks.tool();
        if (tool === "switch") hooks.switched(id);
        else if (tool === "remove") hooks.removed(id);
        else if (this.isLinking) this.linkEnd(id);
        else hooks.told(id);
    }
}
