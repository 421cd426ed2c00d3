// The types of fc.mjs.

/** Compiles the bytes of `fc.wasm`. */
export function compiled(bytes: BufferSource): Promise<WebAssembly.Module>;

/** Answers words and an input: with the status of `fc`, its text, and how many bytes of memory it took. */
export function answer(
    module: WebAssembly.Module, words: string, input: string | Uint8Array,
): Promise<{ status: number, text: string, memory: number }>;
