// Keeps which controls of the page were used: run by the tests before the page's own script.
(() => {
    const CONTROLS = "button, select, input, textarea";
    /** What a control is called: its id, or its row with the key or code that it sets there. */
    const called = (element) => {
        if (element.id) return `${element.tagName.toLowerCase()}#${element.id}`;
        const { key, code } = element.dataset, row = element.closest("[id]");
        return `${row ? `#${row.id} ` : ""}${key ? `key ${key}` : code ? `code ${code}` : element.textContent}`;
    };
    const names = (element) => (element.tagName === "SELECT" ? [...element.options].map((option) => `${called(element)} ${option.value}`) : [called(element)]);
    const pressed = new Set();
    const keep = (event) => {
        const element = event.target instanceof Element ? event.target.closest(CONTROLS) : null;
        if (element) pressed.add(element.tagName === "SELECT" ? `${called(element)} ${element.value}` : called(element));
    };
    addEventListener("click", (event) => event.target.closest?.("button") && keep(event), true);
    for (const type of ["input", "change"]) addEventListener(type, keep, true);
    globalThis.controls = {
        /** What was used since this page was opened. */
        pressed: () => [...pressed],
        /** All that can be used now: what is hidden belongs to another view, but for inputs of files, which a button opens. */
        there: () => [...document.querySelectorAll(CONTROLS)].filter((element) => element.type === "file" || element.getClientRects().length > 0).flatMap(names),
    };
})();
