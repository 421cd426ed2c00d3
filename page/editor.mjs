// A text field with colours behind it: the text itself stands in a plain field, which keyboards, screen readers and
// phones know, and the same text with colours and marks lies beneath.
import { allTokens } from "./tokens.mjs";

/**
 * A stretch of the text that is marked, and how.
 * @typedef {{from: number, to: number, kind: string}} Stretch
 */

export class Editor {
    /**
     * @param {HTMLTextAreaElement} field
     * @param {HTMLElement} shown
     * @param {(text: string) => import("./tokens.mjs").Token[]} tokens
     */
    constructor(field, shown, tokens = allTokens) {
        this.field = field;
        this.shown = shown;
        this.tokens = tokens;
        /** @type {Stretch | null} */
        this.stretch = null;
        field.addEventListener("scroll", () => this.follow());
        new ResizeObserver(() => this.follow()).observe(field);
    }

    get text() {
        return this.field.value;
    }

    /** @param {string} text */
    set text(text) {
        if (this.field.value !== text) this.field.value = text;
        this.draw();
    }

    /** Lays the colours where the text is. */
    follow() {
        this.shown.style.width = `${this.field.clientWidth}px`;
        this.shown.style.transform = `translateY(${-this.field.scrollTop}px)`;
    }

    /** @param {Stretch | null} stretch */
    mark(stretch) {
        this.stretch = stretch;
        this.draw();
    }

    draw() {
        const { text, stretch } = this, ends = stretch ? [stretch.from, Math.max(stretch.to, stretch.from + 1)] : [];
        const lines = [newLine()];
        /**
         * @param {string} part within one line
         * @param {string} kind
         * @param {boolean} isMarked
         */
        const add = (part, kind, isMarked) => {
            const node = document.createElement(isMarked ? "mark" : "span");
            node.className = isMarked && stretch ? `${kind} ${stretch.kind}` : kind;
            node.textContent = part;
            lines[lines.length - 1].append(node);
        };
        for (const { kind, from, to } of this.tokens(text)) {
            const cuts = [from, ...ends.filter((end) => from < end && end < to), to];
            for (let at = 0; at + 1 < cuts.length; at++) {
                const isMarked = ends.length > 0 && ends[0] <= cuts[at] && cuts[at] < ends[1];
                text.slice(cuts[at], cuts[at + 1]).split("\n").forEach((part, row) => {
                    if (row) lines.push(newLine());
                    if (part) add(part, kind, isMarked);
                });
            }
        }
        if (stretch && stretch.from >= text.length) add(" ", "", true);
        this.shown.replaceChildren(...lines);
        this.follow();
    }

    /**
     * Puts a text where the caret is, and chooses a part of it.
     * @param {string} text
     * @param {number} from
     * @param {number} to
     */
    insert(text, from, to) {
        const { field } = this, at = field.selectionStart;
        field.focus();
        field.setRangeText(text, at, field.selectionEnd, "end");
        field.setSelectionRange(at + from, at + Math.max(from, to));
        field.dispatchEvent(new Event("input", { bubbles: true }));
    }

    /**
     * Puts the caret on a stretch, and shows it.
     * @param {number} from
     * @param {number} to
     */
    select(from, to) {
        const { field } = this, row = placeOf(field.value, from).line - 1;
        field.focus();
        field.setSelectionRange(from, Math.max(to, from));
        const line = /** @type {HTMLElement} */ (this.shown.children[row]);
        field.scrollTop = Math.max(0, line.offsetTop - field.clientHeight / 2);
    }
}

function newLine() {
    const node = document.createElement("div");
    node.className = "line";
    return node;
}

/**
 * The line and the column of an offset, from 1.
 * @param {string} text
 * @param {number} at
 */
export function placeOf(text, at) {
    const before = text.slice(0, at).split("\n");
    return { line: before.length, column: [...before[before.length - 1]].length + 1 };
}
