// The flash: its pages slot by slot, and the bits of a slot.

import { bytesHex } from "./bytes.js";
import { PAGE, SLOT, SLOTS } from "./device.js";
import { $, h, set } from "./dom.js";
import { headerOf, kindsOf, saysOf, slotAt } from "./slots.js";
import { SLOT_CELLS, paintUnits, showUnit, unitCells, unitsOf, unitsSay } from "./units.js";

const COLUMNS = 64, ROWS = SLOTS / COLUMNS, W = 6, H = 9;

/** Whether a slot of two images differs. */
function differs(one, other, page, slot) {
    const at = page * PAGE + slot * SLOT;
    for (let n = at; n < at + SLOT; n++) if (one[n] !== other[n]) return true;
    return false;
}

class FlashView {
    constructor(model) {
        this.model = model;
        this.root = $("pages");
        /** The flash's bytes and its slots as they were drawn last. @type {Uint8Array | null} */
        this.before = null;
        this.image = new Uint8Array();
        /** The slot that changed last, and the one that is pointed at. @type {number[]} */
        this.shown = [0, 0];
        this.pointed = null;
        /** An image that it is compared with. @type {Uint8Array | null} */
        this.other = null;
        this.drawn = "";
    }
    forget() {
        this.before = this.pointed = this.other = null;
        this.shown = [0, 0];
        this.drawn = "";
        const { paired } = this.model.session;
        for (const [id, name] of [["bits-word", "word"], ["bits-complement", "complement"]]) {
            $(id).replaceChildren(...(paired ? unitCells() : Array.from({ length: 32 }, () => h("i"))));
            set($(id), { className: "bits-row", title: "", "aria-label": `The bits of the ${name}; a filled one is 0` });
        }
    }
    frame(page) {
        const canvas = h("canvas", { role: "img", tabIndex: 0, "data-page": page });
        Object.assign(canvas.style, { aspectRatio: `${COLUMNS * W} / ${ROWS * H}` });
        const point = (slot) => {
            this.pointed = slot === null ? null : [page, Math.min(SLOTS - 1, Math.max(0, slot))];
            this.look();
        };
        canvas.addEventListener("pointermove", (event) => {
            const box = canvas.getBoundingClientRect();
            const column = Math.floor(((event.clientX - box.left) / box.width) * COLUMNS), row = Math.floor(((event.clientY - box.top) / box.height) * ROWS);
            point(row * COLUMNS + column);
        });
        canvas.addEventListener("pointerleave", () => point(null));
        canvas.addEventListener("focus", () => point(this.shown[0] === page ? this.shown[1] : 0));
        canvas.addEventListener("blur", () => point(null));
        canvas.addEventListener("keydown", (event) => {
            const step = { ArrowLeft: -1, ArrowRight: 1, ArrowUp: -COLUMNS, ArrowDown: COLUMNS }[event.key];
            if (!step || !this.pointed) return;
            event.preventDefault();
            point(this.pointed[1] + step);
        });
        return h("div", { class: "page" }, h("div", { class: "page-title" }, h("b", {}, `Page ${page}`), h("span", { class: "tag" }, "active"), h("span", { class: "state" }), h("span", { class: "count" })), canvas);
    }
    /** Draws what the flash is now; the slot that changed last is marked. */
    draw() {
        const { device } = this.model.session.bench, raw = device.raw().slice(), pages = device.pages();
        if (this.before?.length !== raw.length) this.root.replaceChildren(...Array.from({ length: pages }, (_, page) => this.frame(page)));
        const state = `${matchMedia("(prefers-color-scheme: dark)").matches} ${devicePixelRatio} ${this.other !== null}`;
        const before = this.before?.length === raw.length ? this.before : null;
        const changed = before ? raw.findLastIndex((byte, at) => byte !== before[at]) : -1;
        if (before && changed < 0 && state === this.drawn) return;
        const slot = Math.floor(changed / (device.paired ? SLOT_CELLS : SLOT));
        if (changed >= 0) this.shown = [Math.floor(slot / SLOTS), slot % SLOTS];
        this.drawn = state;
        this.before = raw;
        this.image = device.paired ? device.image() : raw;
        const active = device.active();
        for (let page = 0; page < pages; page++) this.page(this.image, page, page === active);
        this.look();
    }
    page(image, page, active) {
        const [title, canvas] = this.root.children[page].children, [, tag, state, count] = title.children;
        const kinds = kindsOf(image, page, active), header = headerOf(slotAt(image, page, 0));
        const used = kinds.filter((kind, slot) => slot > 0 && kind !== "free").length;
        const blank = kinds[0] === "free" && used === 0 ? "blank" : "no header";
        set(tag, { className: active ? "tag" : "tag off" });
        set(state, { textContent: header ? `sequence ${header.sequence}, format ${header.format}` : blank });
        set(count, { textContent: `${used} of ${SLOTS - 1} used` });
        const live = kinds.filter((kind) => kind === "live").length;
        set(canvas, { "aria-label": `Page ${page}: ${used} of ${SLOTS - 1} slots used, ${live} in force. Arrow keys show the bits of a slot.` });
        this.paint(canvas, image, page, kinds);
    }
    paint(canvas, image, page, kinds) {
        const style = getComputedStyle(this.root), colours = {}, scale = devicePixelRatio || 1;
        const colour = (kind) => (colours[kind] ??= style.getPropertyValue(`--slot-${kind}`).trim());
        canvas.width = COLUMNS * W * scale;
        canvas.height = ROWS * H * scale;
        const g = canvas.getContext("2d");
        g.scale(scale, scale);
        const { device } = this.model.session.bench;
        kinds.forEach((kind, slot) => {
            const x = (slot % COLUMNS) * W, y = Math.floor(slot / COLUMNS) * H;
            if (device.paired) return paintUnits(g, [x, y, W - 1, H - 1], unitsOf(device, page, slot), kind, colour);
            g.fillStyle = colour(kind);
            g.fillRect(x, y, W - 1, H - 1);
            if (this.other && differs(image, this.other, page, slot)) {
                g.fillStyle = colour("differs");
                g.fillRect(x, y + H - 4, W - 1, 3);
            }
        });
        if (this.shown[0] !== page) return;
        g.strokeStyle = colour("mark");
        g.lineWidth = 1.5;
        g.strokeRect((this.shown[1] % COLUMNS) * W - 0.5, Math.floor(this.shown[1] / COLUMNS) * H - 0.5, W, H);
    }
    /** Shows the 64 bits of a slot, the word above its complement; or the cells of its two units. */
    look() {
        if (!this.before) return;
        const [page, number] = this.pointed ?? this.shown;
        const { device } = this.model.session.bench;
        const slot = slotAt(this.image, page, number), at = page * PAGE + number * SLOT, units = device.paired ? unitsOf(device, page, number) : null;
        set($("bits-title"), { textContent: `Page ${page}, slot ${number}` });
        set($("bits-says"), { textContent: saysOf(slot, number) + (units ? `; ${unitsSay(units)}` : "") });
        set($("bits-hex"), { textContent: bytesHex(this.image.subarray(at, at + SLOT)).replace(/(.{8})/, "$1 ") });
        if (units) return units.forEach((unit, n) => showUnit($(["bits-word", "bits-complement"][n]), unit, ["first", "second"][n]));
        [["bits-word", slot.word, slot.complement], ["bits-complement", slot.complement, slot.word]].forEach(([id, word, other]) => {
            [...$(id).children].forEach((cell, n) => {
                const bit = (of) => (of >>> (31 - n)) & 1, odd = slot.kind === "spoiled" && bit(word) === bit(other);
                set(cell, { className: `${bit(word) ? "one" : "zero"}${odd ? " odd" : ""}` });
            });
        });
    }
}

/** @param {import("./model.js").Model} model */
export function flashView(model) {
    const view = new FlashView(model);
    view.forget();
    model.session.starters.push(() => view.forget());
    model.on(() => view.draw());
    matchMedia("(prefers-color-scheme: dark)").addEventListener("change", () => model.changed());
    return {
        /** Marks the slots that differ from another image, or none. @param {Uint8Array | null} image */
        compare(image) {
            view.other = image;
            view.drawn = "";
            model.changed();
        },
    };
}
