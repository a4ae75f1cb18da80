// What the slots of a flash say (docs/formats.md), and images made of slots.

import { Refused, fromHex } from "./bytes.js";
import { codeName } from "./codes.js";
import { PAGE, SLOT, SLOTS } from "./device.js";

const word = (bytes, at) => (bytes[at] | (bytes[at + 1] << 8) | (bytes[at + 2] << 16) | (bytes[at + 3] << 24)) >>> 0;

/**
 * A slot: free, good with its word, or spoiled; and whether it is sound.
 * @param {Uint8Array} image
 * @param {number} page
 * @param {number} slot
 */
export function slotAt(image, page, slot) {
    const at = page * PAGE + slot * SLOT;
    const one = word(image, at), other = word(image, at + 4);
    const free = one === 0xffffffff && other === 0xffffffff;
    const kind = free ? "free" : (one ^ other) >>> 0 === 0xffffffff ? "good" : "spoiled";
    return { kind, word: one, complement: other, sound: (one | other) >>> 0 === 0xffffffff };
}

/** The format and sequence number of a header, or null. */
export function headerOf(slot) {
    if (slot.kind !== "good") return null;
    const format = slot.word >>> 28;
    return format === 1 || format === 2 ? { format, sequence: slot.word & 0x0fffffff } : null;
}

/** A record's command: what it says, and the entries that it writes (no key: a layer, no layer: all); or null. */
export function commandOf(w) {
    const operation = w >>> 28, layer = (w >>> 24) & 15, key = (w >>> 16) & 255, code = w & 0xffff;
    if (operation === 1 && layer < 4 && key < 96) return { says: `layer ${layer}, key ${key}: ${codeName(code)}`, layer, key };
    if (operation === 2 && layer < 4 && (w & 0xffffff) === 0) return { says: `reset layer ${layer}`, layer };
    if (w === 0x30000000) return { says: "reset all" };
    return null;
}

/** What a slot says, in a few words. */
export function saysOf(slot, number) {
    const header = number === 0 ? headerOf(slot) : null;
    if (header) return `header, sequence ${header.sequence}, format ${header.format}`;
    if (slot.kind === "free") return "free";
    if (slot.kind === "spoiled") return slot.sound ? "spoiled: cut off" : "unsound: damaged beyond what a cut leaves";
    return (number > 0 && commandOf(slot.word)?.says) || "no command: passed over";
}

/** @typedef {"free" | "header" | "oldheader" | "live" | "old" | "spoiled" | "other"} Kind */

/**
 * What each slot of a page is; `active` says whether the page is the active one.
 * @returns {Kind[]}
 */
export function kindsOf(image, page, active) {
    const kinds = new Array(SLOTS);
    const written = new Set(); // entries that a later record writes: "0.5", a layer "0", all "*"
    for (let n = SLOTS - 1; n > 0; n--) {
        const slot = slotAt(image, page, n);
        const command = slot.kind === "good" ? commandOf(slot.word) : null;
        if (slot.kind !== "good") kinds[n] = slot.kind;
        else if (!command) kinds[n] = "other";
        else {
            const names = [command.key !== undefined && `${command.layer}.${command.key}`, command.layer !== undefined && `${command.layer}`, "*"].filter((name) => name);
            kinds[n] = active && !names.some((name) => written.has(name)) ? "live" : "old";
            written.add(names[0]);
        }
    }
    const first = slotAt(image, page, 0);
    kinds[0] = headerOf(first) ? (active ? "header" : "oldheader") : first.kind === "good" ? "other" : first.kind;
    return kinds;
}

/** The eight bytes of a good slot: a word, and its complement. */
export function slotBytes(w) {
    const bytes = new Uint8Array(SLOT), view = new DataView(bytes.buffer);
    view.setUint32(0, w, true);
    view.setUint32(4, ~w >>> 0, true);
    return bytes;
}
export const headerWord = (format, sequence) => ((format << 28) | sequence) >>> 0;
export const recordWord = (layer, key, code) => ((1 << 28) | (layer << 24) | (key << 16) | code) >>> 0;

/**
 * An image of words: for each page those of its slots from 0 on.
 * @param {number[][]} pages
 */
export function imageOf(pages) {
    const image = new Uint8Array(pages.length * PAGE).fill(255);
    pages.forEach((words, page) => words.forEach((w, slot) => image.set(slotBytes(w), page * PAGE + slot * SLOT)));
    return image;
}

/**
 * The image of two pages that a list of slots gives (examples/make-image).
 * @param {string} text
 */
export function imageOfSlots(text) {
    const image = new Uint8Array(2 * PAGE).fill(255);
    for (const line of text.split("\n")) {
        const words = line.split(/\s+/).filter((one) => one);
        if (words.length === 0 || line.startsWith("#")) continue;
        const [first, last = first] = words[1].split("-").map(Number);
        const bytes = fromHex(words[2]);
        if (!bytes) throw new Refused("a slot is no hex");
        for (let slot = first; slot <= last; slot++) image.set(bytes, Number(words[0]) * PAGE + slot * SLOT);
    }
    return image;
}
