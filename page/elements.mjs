// Small helpers for what is on the page.

/**
 * An element of the page.
 * @param {string} id
 * @returns {any}
 */
export const at = (id) => document.getElementById(id);

/**
 * A new element with attributes (and `text`), and what stands in it.
 * @param {string} name
 * @param {Record<string, string | number | boolean>} [attributes]
 * @param {(Node | string)[]} kids
 * @returns {any}
 */
export function element(name, attributes = {}, ...kids) {
    const node = document.createElement(name);
    for (const [key, value] of Object.entries(attributes)) {
        if (typeof value === "boolean") node.toggleAttribute(key, value);
        else if (key === "text") node.textContent = String(value);
        else node.setAttribute(key, String(value));
    }
    node.append(...kids);
    return node;
}

/**
 * A button that does something.
 * @param {string} text
 * @param {() => void} click
 * @param {string} kind
 */
export function button(text, click, kind = "") {
    const node = element("button", { type: "button", text, ...kind ? { class: kind } : {} });
    node.addEventListener("click", click);
    return node;
}

/**
 * Hands a text to the user as a file.
 * @param {string} name
 * @param {string} text
 */
export function save(name, text) {
    const address = URL.createObjectURL(new Blob([text], { type: "text/plain" }));
    element("a", { href: address, download: name }).click();
    setTimeout(() => URL.revokeObjectURL(address), 10000);
}

/**
 * A field for the value of an input: a box to tick, or a number.
 * @param {import("./tokens.mjs").Input} input
 * @param {number | boolean} value
 * @param {(value: number | boolean) => void} changed
 * @param {string} named
 */
export function valueField(input, value, changed, named) {
    if (input.low === undefined) {
        const node = element("input", { type: "checkbox", "aria-label": named });
        node.checked = value === true;
        node.addEventListener("change", () => changed(node.checked));
        return node;
    }
    const node = element("input", { type: "number", min: input.low, max: input.high ?? 0, "aria-label": named });
    node.value = String(value);
    node.addEventListener("change", () => changed(Number(node.value)));
    return node;
}
