// Usages by name (HID Usage Tables), from rust/wuzhikar-hid/src/usages.txt.

import { hex } from "./bytes.js";
import { usageTable } from "./built.js";

/** @typedef {{name: string, legend: string}} Name */
/** @typedef {{name: string, usages: Map<number, Name>, every: string}} UsagePage */

/**
 * Reads the table: `page 07 Keyboard/Keypad`, then `04 Keyboard a and A | A`, a usage, its name, and what stands on a key;
 * `* Button` names every other usage of its page by a word and its number.
 * @param {string} text
 */
function readTable(text) {
    /** @type {Map<number, UsagePage>} */
    const pages = new Map();
    /** @type {UsagePage} */
    let page = { name: "", usages: new Map(), every: "" };
    for (const line of text.split("\n")) {
        const [, first, rest] = /^(\S+) (.*)$/.exec(line) ?? [];
        if (first === undefined || first === "#") continue;
        if (first === "page") {
            page = { name: rest.slice(rest.indexOf(" ") + 1), usages: new Map(), every: "" };
            pages.set(parseInt(rest, 16), page);
        } else if (first === "*") page.every = rest;
        else {
            const [name, legend = ""] = rest.split(" | ");
            page.usages.set(parseInt(first, 16), { name, legend });
        }
    }
    return pages;
}
export const pages = readTable(usageTable);

/**
 * The name of a usage page.
 * @param {number} number
 */
export const pageName = (number) => pages.get(number)?.name ?? (number >= 0xff00 ? "Vendor-defined" : `page ${hex(number, 2)}h`);

/**
 * The name of a usage of 32 bits, its page in the high half.
 * @param {number} usage
 */
export function usageName(usage) {
    const number = usage & 0xffff, page = pages.get(usage >>> 16);
    const known = page?.usages.get(number)?.name;
    if (known) return known;
    if (page?.every && number > 0) return `${page.every} ${number}`;
    return `${pageName(usage >>> 16)} ${hex(number, 2)}h`;
}

/** What stands on a key that has a usage: the table's short text, or the name; empty where the table has neither. */
export function legendOf(page, number) {
    const known = pages.get(page)?.usages.get(number);
    return known ? known.legend || known.name : "";
}
