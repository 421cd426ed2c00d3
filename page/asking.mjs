// Calls of fc in a worker. A call that nobody waits for any more is ended with its worker.
import { answer } from "../embed/fc.mjs";

/**
 * What fc answers: its status, and its text.
 * @typedef {{status: number, text: string}} Reply
 */
/** @typedef {{resolve: (reply: Reply) => void, reject: (error: Error) => void}} Waiting */

/**
 * Whether a call has ended because the engine's stack was too small.
 * @param {Error} error
 */
export const isOfStack = ({ message }) => /call stack|too much recursion/.test(message);

/** A call that was ended because something newer is asked. */
export class Stopped extends Error {}

/**
 * What was packed for a page, unpacked.
 * @param {string} text in base 64, of bytes packed by gzip
 */
export async function unpacked(text) {
    const bytes = Uint8Array.from(atob(text.trim()), (sign) => sign.charCodeAt(0));
    const stream = new Blob([bytes]).stream().pipeThrough(new DecompressionStream("gzip"));
    return new Response(stream).arrayBuffer();
}

/**
 * The sections of an input.
 * @param {...string} sections
 */
export const inputOf = (...sections) => sections.map((section) => section.replace(/\n*$/, "\n")).join("%%\n");

export class Asker {
    /**
     * @param {WebAssembly.Module} module
     * @param {string} script the address of the worker's script
     */
    constructor(module, script) {
        this.module = module;
        this.script = script;
        this.number = 0;
        /** @type {Map<number, Waiting>} */
        this.waiting = new Map();
        this.worker = this.started();
    }

    started() {
        const worker = new Worker(this.script);
        worker.postMessage({ module: this.module });
        worker.onmessage = ({ data }) => this.take(data);
        worker.onerror = (event) => {
            event.preventDefault();
            this.stop(new Error(event.message || "the worker has ended"));
        };
        return worker;
    }

    /** @param {{number: number, status: number, text: string, error?: string}} data */
    take({ number, status, text, error }) {
        const found = this.waiting.get(number);
        this.waiting.delete(number);
        if (error === undefined) found?.resolve({ status, text });
        else found?.reject(new Error(error));
    }

    /**
     * What fc answers to words and an input.
     * @param {string} words
     * @param {string} input
     * @returns {Promise<Reply>}
     */
    async ask(words, input) {
        try {
            return await this.sent(words, input);
        } catch (error) {
            // the page's own stack is larger; meanwhile the page stands still, so a verdict alone is worked out on it
            if (words !== "check" || !isOfStack(/** @type {Error} */ (error))) throw error;
            return await answer(this.module, words, input);
        }
    }

    /**
     * @param {string} words
     * @param {string} input
     * @returns {Promise<Reply>}
     */
    sent(words, input) {
        const number = ++this.number;
        return new Promise((resolve, reject) => {
            this.waiting.set(number, { resolve, reject });
            this.worker.postMessage({ number, words, input });
        });
    }

    /**
     * Ends what is under way.
     * @param {Error} error
     */
    stop(error = new Stopped("something newer is asked")) {
        if (!this.waiting.size) return;
        this.worker.terminate();
        const left = [...this.waiting.values()];
        this.waiting.clear();
        this.worker = this.started();
        left.forEach(({ reject }) => reject(error));
    }
}

/**
 * The workers of the page, once it has begun: one for what stands beside the drawing, and one for runs and the layout
 * of the program, so that neither ends the other's calls.
 * @type {{answer: Asker, run: Asker}}
 */
export const workers = Object.create(null);
