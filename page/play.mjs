// The page begins here: what a user does is wired to what follows of it, and fc is started.
import { ask, isAsking } from "./answering.mjs";
import { Asker, unpacked, workers } from "./asking.mjs";
import { typedChanges } from "./changing.mjs";
import { change, put } from "./editing.mjs";
import { at } from "./elements.mjs";
import {
    fromAddress, offerExamples, openLink, readChosen, saveInput, saveScene, saveTable, share, showExample, undo,
} from "./files.mjs";
import { madeNetwork, usualRange } from "./places.mjs";
import { format, insertBlock, offerBlocks, tellOfBlock, typed } from "./program.mjs";
import { drawNumber, endRun, play, showRound, startRun } from "./run.mjs";
import { drawAll, drawControls, drawing } from "./showing.mjs";
import { TYPING, draw, now, onChange, saveSoon } from "./state.mjs";

const MOST_WEIGHT = 1e6;

function themed() {
    const wanted = at("theme").value, isDark = matchMedia("(prefers-color-scheme: dark)").matches;
    document.documentElement.dataset.look = wanted || (isDark ? "dark" : "light");
}

/**
 * @param {string} id
 * @param {string} event
 * @param {(event: any) => void} does
 */
const on = (id, event, does) => at(id).addEventListener(event, does);

function wireProgram() {
    on("program", "input", typed);
    on("example", "change", () => showExample(at("example").value));
    on("block", "change", tellOfBlock);
    on("insert", "click", insertBlock);
    on("format", "click", format);
}

function wireNetwork() {
    on("undo", "click", undo);
    on("tools", "change", () => {
        drawing.begin(null);
        drawControls();
    });
    on("input", "change", drawControls);
    on("links", "change", () => {
        const usual = usualRange(now.state.network.devices.length);
        change({ range: at("links").value === "hand" ? null : usual });
    });
    on("range", "input", () => put({ range: Number(at("range").value) }, TYPING));
    on("weight-kind", "change", () => {
        change({ weight: at("weight-kind").value === "one" ? now.declared.metric[0] || 1 : 0 });
    });
    on("weight", "change", () => {
        const wanted = Math.round(Number(at("weight").value)) || 1;
        change({ weight: Math.max(1, Math.min(MOST_WEIGHT, wanted)) });
    });
    on("make", "submit", (event) => {
        event.preventDefault();
        change(madeNetwork(at("shape").value, Number(at("count").value), Number(at("seed").value), now.declared));
    });
    on("read", "change", readChosen);
    on("save-scene", "click", saveScene);
    on("save-table", "click", saveTable);
    on("save-input", "click", saveInput);
}

function wireAnswer() {
    on("colouring", "change", (event) => {
        now.state.view.colours = event.target.value;
        draw();
        saveSoon();
    });
    on("paths", "change", () => {
        now.state.view.paths = at("paths").checked;
        draw();
        saveSoon();
    });
    on("run", "click", () => {
        startRun();
        // on a narrow screen the slider stands below, and the drawing comes into view
        if (matchMedia("(max-width: 819px)").matches) at("drawing").scrollIntoView({ block: "center" });
    });
    on("number", "change", () => drawNumber(Number(at("number").value)));
    on("end-run", "click", endRun);
    on("round", "input", () => showRound(Number(at("round").value)));
    on("play", "click", play);
    on("changes", "input", typedChanges);
    on("devices-part", "toggle", draw);
}

function wirePage() {
    on("share", "click", share);
    on("link", "change", openLink);
    on("link", "paste", () => setTimeout(openLink));
    on("theme", "change", themed);
    matchMedia("(prefers-color-scheme: dark)").addEventListener("change", themed);
    document.addEventListener("keydown", (event) => {
        const isText = event.target instanceof HTMLTextAreaElement || event.target instanceof HTMLInputElement;
        if ((event.ctrlKey || event.metaKey) && event.key === "z" && !isText) {
            event.preventDefault();
            undo();
        }
    });
    addEventListener("hashchange", fromAddress);
}

async function start() {
    const { blocks, examples } = JSON.parse(at("data").textContent);
    offerBlocks(blocks);
    offerExamples(examples);
    onChange({ draw: drawAll, ask });
    [wireProgram, wireNetwork, wireAnswer, wirePage].forEach((wire) => wire());
    themed();
    const script = URL.createObjectURL(new Blob([at("worker").textContent], { type: "text/javascript" }));
    const module = await WebAssembly.compile(await unpacked(at("module").textContent));
    [workers.answer, workers.run] = [new Asker(module, script), new Asker(module, script)];
    const spare = new Asker(module, script);
    // For whoever wants to ask more, in the browser's console: await fc("stable", "ceiling 1; ..")
    /**
     * @param {string} words
     * @param {string} input
     */
    const fc = (words, input) => spare.ask(words, input);
    Object.assign(window, { fc, asking: isAsking });
    await fromAddress();
}

start().catch((error) => {
    at("brief").textContent = "This browser can't run the page";
    at("notice").hidden = false;
    at("notice").textContent = `fc couldn't be started: ${error.message}. The page needs a browser of 2023 or later.`;
});
