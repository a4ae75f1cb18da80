// The two write units of a slot on a flash with error correction: how they read, how they are drawn, and their cells.

import { bytesHex } from "./bytes.js";
import { CELLS } from "./device.js";
import { h, set } from "./dom.js";

/** @typedef {import("./device.js").Unit} Unit */

/** Bytes of cells of a slot. */
export const SLOT_CELLS = 2 * CELLS;
/** The bytes of a unit as they are shown: the word, the complement, the check, each with its highest bit first. */
const ORDER = [3, 2, 1, 0, 7, 6, 5, 4, 8];

/**
 * The units of a slot: that of its word, and that of its check.
 * @param {import("./device.js").Device} device
 * @returns {Unit[]}
 */
export const unitsOf = (device, page, slot) => [0, 1].map((n) => device.unit(page, 2 * slot + n));

/** What a unit reads as, in a few words: a word stands beside its complement. @param {Unit} unit */
function readsAs({ reads, right }) {
    if (reads === "blank") return "blank";
    if (reads === "error") return "an error";
    const word = [0, 1, 2, 3].every((n) => (right[n] ^ right[n + 4]) === 255);
    return `${word ? "a word" : "no word"}${reads === "corrected" ? ", one cell corrected" : ""}`;
}
/** What the units of a slot read as. */
export const unitsSay = (units) => `units: ${units.map(readsAs).join("; ")}`;

/**
 * Which colour a unit has: its slot's, where it reads as a word of a slot that is whole.
 * @param {Unit} unit
 * @param {import("./slots.js").Kind} kind of the slot
 * @returns {import("./slots.js").Kind}
 */
export function unitKind({ reads }, kind) {
    if (reads === "blank") return "free";
    if (reads === "error") return "spoiled";
    return kind === "spoiled" ? "other" : kind;
}

/**
 * Draws the units of a slot, the first above the second; an error is struck through, a corrected one has a stripe.
 * @param {CanvasRenderingContext2D} g
 * @param {number[]} box left, top, width, height
 * @param {(kind: string) => string} colour
 */
export function paintUnits(g, [x, y, width, height], units, kind, colour) {
    const rows = [[y, height / 2], [y + height / 2 + 1, height / 2 - 1]];
    units.forEach((unit, n) => {
        const [top, tall] = rows[n];
        g.fillStyle = colour(unitKind(unit, kind));
        g.fillRect(x, top, width, tall);
        if (unit.reads !== "error" && unit.reads !== "corrected") return;
        g.fillStyle = colour(unit.reads === "error" ? "mark" : "differs");
        g.fillRect(x, top + 1, width, 1);
    });
}

/** The elements of a row of cells. */
export const unitCells = () => Array.from({ length: 8 * CELLS }, () => h("i"));

/** Shows the cells of a unit in a row; the one that is corrected is marked. */
export function showUnit(row, unit, name) {
    set(row, { className: `bits-row units ${unit.reads}`, title: bytesHex(unit.cells) });
    set(row, { "aria-label": `The cells of the ${name} unit, its check last, ${bytesHex(unit.cells)}: it reads as ${readsAs(unit)}. A filled one is 0` });
    [...row.children].forEach((cell, n) => {
        const at = ORDER[n >> 3], bit = 7 - (n & 7);
        set(cell, { className: `${(unit.cells[at] >> bit) & 1 ? "one" : "zero"}${((unit.cells[at] ^ unit.right[at]) >> bit) & 1 ? " odd" : ""}` });
    });
}
