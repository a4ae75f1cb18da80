// Elements of the page. What is shown is always set as text, never as HTML.

/**
 * The element with this id.
 * @param {string} id
 * @returns {any}
 */
export const $ = (id) => document.getElementById(id);

/**
 * An element with properties or attributes, and children; strings become text.
 * @param {string} tag
 * @param {Record<string, any>} [given] `on..` are listeners, `data-..`, `aria-..`, `role` and `class` attributes, others properties
 * @param {...(Node | string)} children
 * @returns {any}
 */
export function h(tag, given = {}, ...children) {
    const element = document.createElement(tag);
    for (const [name, value] of Object.entries(given)) {
        if (name.startsWith("on")) element.addEventListener(name.slice(2), value);
        else if (/^(data-|aria-|role$|class$|for$)/.test(name)) element.setAttribute(name, value);
        else Reflect.set(element, name, value);
    }
    element.append(...children);
    return element;
}

/**
 * Sets a property or attribute only where it changes.
 * @param {any} element
 * @param {Record<string, any>} wanted
 */
export function set(element, wanted) {
    for (const [name, value] of Object.entries(wanted)) {
        if (name.includes("-")) {
            if (element.getAttribute(name) !== String(value)) element.setAttribute(name, value);
        } else if (element[name] !== value) element[name] = value;
    }
}

/**
 * Fills a select.
 * @param {HTMLSelectElement} select
 * @param {Iterable<string | [string, string]>} choices texts, or values with their texts
 */
export function fill(select, choices) {
    select.replaceChildren(...[...choices].map((choice) => {
        const [value, text] = typeof choice === "string" ? [choice, choice] : choice;
        return h("option", { value }, text);
    }));
}

const STEPS = { ArrowLeft: [-1, 0], ArrowRight: [1, 0], ArrowUp: [0, -1], ArrowDown: [0, 1] };

/** The nearest of some boxes in a direction; -1 where there is none. */
function nearest(boxes, from, [dx, dy]) {
    const middle = (box) => [box.left + box.width / 2, box.top + box.height / 2];
    const [x, y] = middle(boxes[from]);
    let best = -1, least = Infinity;
    boxes.forEach((box, n) => {
        const [a, b] = middle(box);
        const along = (a - x) * dx + (b - y) * dy, across = Math.abs((a - x) * dy) + Math.abs((b - y) * dx);
        if (along <= 1 || across > 3 * along + 1) return;
        const far = along + 3 * across;
        if (far < least) [best, least] = [n, far];
    });
    return best;
}

/**
 * One of the buttons of an element is reached by Tab, the others by arrow keys (ARIA, roving tabindex).
 * @param {HTMLElement} root
 * @param {string} [which] the buttons
 * @returns {() => void} to be called after the buttons changed
 */
export function roving(root, which = "button") {
    const buttons = () => /** @type {HTMLElement[]} */ ([...root.querySelectorAll(which)]).filter((one) => !one.hidden);
    const only = (chosen) => {
        for (const one of buttons()) set(one, { tabIndex: one === chosen ? 0 : -1 });
    };
    root.addEventListener("keydown", (event) => {
        const all = buttons(), at = all.indexOf(/** @type {HTMLElement} */ (event.target));
        const step = STEPS[event.key];
        if (at < 0 || event.defaultPrevented || (!step && event.key !== "Home" && event.key !== "End")) return;
        const next = event.key === "Home" ? 0 : event.key === "End" ? all.length - 1 : nearest(all.map((one) => one.getBoundingClientRect()), at, step);
        event.preventDefault();
        if (next >= 0) all[next].focus();
    });
    root.addEventListener("focusin", (event) => {
        if (buttons().includes(/** @type {HTMLElement} */ (event.target))) only(event.target);
    });
    return () => {
        const all = buttons();
        only(all.find((one) => one.getAttribute("aria-selected") === "true" || one.getAttribute("aria-pressed") === "true") ?? all.find((one) => one.tabIndex === 0) ?? all[0]);
    };
}

/**
 * A row of buttons of which one is chosen.
 * @param {HTMLElement} root
 * @param {string[]} names
 * @param {(chosen: number) => void} pick
 * @param {(chosen: number) => string} [controls] the id of what a choice shows: the row is then one of tabs
 * @returns {(chosen: number) => void} chooses one without a call of `pick`
 */
export function choices(root, names, pick, controls) {
    const state = controls ? "aria-selected" : "aria-pressed";
    const mark = (chosen) => {
        [...root.children].forEach((button, n) => set(button, { [state]: n === chosen }));
        refresh();
    };
    root.replaceChildren(...names.map((name, n) => h("button", {
        type: "button",
        ...(controls ? { role: "tab", "aria-controls": controls(n) } : {}),
        onclick: () => {
            mark(n);
            pick(n);
        },
    }, name)));
    const refresh = roving(root);
    mark(0);
    return mark;
}

/**
 * Gives a file to the user.
 * @param {string} name
 * @param {BlobPart} content
 * @param {string} type
 */
export function download(name, content, type) {
    const url = URL.createObjectURL(new Blob([content], { type }));
    h("a", { href: url, download: name }).click();
    setTimeout(() => URL.revokeObjectURL(url), 10000);
}

/**
 * A file that the user chooses, by an input of the page.
 * @param {HTMLInputElement} input
 * @param {(bytes: Uint8Array<ArrayBuffer>, name: string) => void} take
 * @param {(sentence: string) => void} refuse says why a file was not taken
 */
export function chooser(input, take, refuse) {
    input.addEventListener("change", async () => {
        const file = input.files?.[0];
        input.value = "";
        if (!file) return;
        const bytes = await file.arrayBuffer().catch(() => null);
        if (bytes) take(new Uint8Array(bytes), file.name);
        else refuse(`${file.name}: the browser could not read it.`);
    });
}
