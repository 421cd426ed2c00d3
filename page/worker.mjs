// The worker in which fc answers, so that the page never waits: it is given the compiled module once, and then calls.
import { answer } from "../embed/fc.mjs";

/** @type {WebAssembly.Module | null} */
let compiledModule = null;

onmessage = async ({ data }) => {
    if (data.module) {
        compiledModule = data.module;
        return;
    }
    try {
        if (!compiledModule) throw new Error("the module isn't here");
        const { status, text } = await answer(compiledModule, data.words, data.input);
        postMessage({ number: data.number, status, text });
    } catch (error) {
        postMessage({ number: data.number, error: String(error) });
    }
};
