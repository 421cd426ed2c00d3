// `fc` in JavaScript, over its WebAssembly module `fc.wasm`:
//
//     import { answer, compiled } from "./fc.mjs";
//     const module = await compiled(await (await fetch("fc.wasm")).arrayBuffer());
//     const { status, text } = await answer(module, "check --settle", program + "%%\n" + network);
//
// The statuses are those of the program. A call takes as long as it takes: a page makes it in a worker. Pointers and
// lengths are BigInts, since the module was compiled for addresses of 64 bits.

// If the engine can suspend calls of WebAssembly, a call that may be suspended has a stack of its own. In a worker that
// is larger than the worker's.
const withStack = (call) => WebAssembly.promising?.(call) ?? call;

const LIMIT = 4, MEMORY = 7, THREADS = 8;
// One byte beyond what fc takes says all that more of them would.
const MOST_BYTES = 1048576 + 1;
const FIRST_ROOM = 65536;

export const compiled = (bytes) => WebAssembly.compile(bytes);

// Answers words and an input, a text or bytes. Each call has an instance and a memory of its own, which go when nobody
// holds them, also after a call that ended in a trap. Throws a RangeError if memory or the engine's stack
// runs out, and an Error if the words ask for threads.
export async function answer(module, words, input) {
    const { malloc, fc_reply, memory } = (await WebAssembly.instantiate(module, {})).exports;
    const reply = withStack(fc_reply);
    const encoder = new TextEncoder();

    function room(length) {
        const at = malloc(BigInt(length + 1));
        if (at === 0n) throw new RangeError("no memory");
        return at;
    }

    function given(content) {
        const bytes = (typeof content === "string" ? encoder.encode(content) : content).subarray(0, MOST_BYTES);
        const at = room(bytes.length);
        new Uint8Array(memory.buffer, Number(at), bytes.length).set(bytes);
        return [at, BigInt(bytes.length)];
    }

    const asked = [...given(words), ...given(input)], needed = room(8);
    for (let length = FIRST_ROOM; ;) {
        const at = room(length);
        const status = await reply(...asked, at, BigInt(length), needed);
        if (status === MEMORY) throw new RangeError("no memory");
        if (status === THREADS) throw new Error(`no threads here for: ${words}`);
        if (status > LIMIT) throw new Error(`status ${status}`);
        const written = Number(new DataView(memory.buffer).getBigUint64(Number(needed), true));
        if (written <= length) {
            const text = new TextDecoder().decode(new Uint8Array(memory.buffer, Number(at), written));
            return { status, text, memory: memory.buffer.byteLength };
        }
        length = written;
    }
}
