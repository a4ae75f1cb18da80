// Every cut of a change: before each of its flash operations, and inside of it, torn in many ways.

import { SET_FEATURE, setReport } from "./bench.js";
import { afterCommand } from "./codes.js";
import { CELLS, Device, KEYS, LAYERS, SLOT, same } from "./device.js";
import { headerWord, imageOf, recordWord } from "./slots.js";

const CONSUMER_PLAY = 0x40b0;

/** Records that set every entry to a code that no default has, and then entry (0, 0) again and again: so many in all. */
function records(count) {
    const all = [];
    for (let n = 0; n < count; n++) {
        const entry = n < LAYERS * KEYS ? n : 0;
        all.push(recordWord(Math.floor(entry / KEYS), entry % KEYS, 0x4001 + (n % 0x3ff)));
    }
    return all;
}
const FULL = 511;

/**
 * The kinds of changes, each on a flash that is made for it: entry (0, 1) is set.
 * @type {Record<string, {name: string, image: () => Uint8Array}>}
 */
export const CHANGES = {
    append: { name: "an append", image: () => imageOf([[headerWord(2, 1), ...records(3)], []]) },
    turnover: { name: "a compaction", image: () => imageOf([[headerWord(2, 1), ...records(FULL)], []]) },
    erase: { name: "a compaction with an erase", image: () => imageOf([[headerWord(2, 2), ...records(FULL)], [headerWord(2, 1), ...records(FULL)]]) },
    migration: { name: "a migration of format 1", image: () => imageOf([[headerWord(1, 7), recordWord(0, 0, 5), recordWord(1, 2, 0x400b), recordWord(0, 4, 0x1d)], []]) },
};

/**
 * So many ways to tear a write: nothing of it, all, either half, and random ones; with error correction in each of the two.
 * @param {number} ways
 * @param {boolean} [paired]
 * @returns {Way[]}
 */
export function masks(ways, paired = false) {
    const bytes = paired ? CELLS : SLOT, units = paired ? [0, 1] : [0];
    const halves = [0, 255].map((byte) => new Uint8Array(bytes).fill(byte, 0, 4).fill(255 - byte, 4));
    const random = Array.from({ length: ways }, () => crypto.getRandomValues(new Uint8Array(bytes)));
    const all = [new Uint8Array(), Uint8Array.of(255), ...halves, ...random].slice(0, ways / units.length);
    return all.flatMap((mask) => units.map((unit) => /** @type {Way} */ ([mask, unit])));
}

/**
 * @typedef {[Uint8Array, number]} Way a mask, and with error correction which of a slot's two writes it tears
 * @typedef {"before" | "after" | "lost"} Came
 * @typedef {{columns: Came[][], counts: Record<Came, number>}} Outcome `columns`: for each write, what came of each way
 */

/**
 * Cuts a change everywhere. After each cut the keymap has to be the one before the change or the one after it, as a whole.
 * @param {Device} device on which no command works; it is used up
 * @param {[number, number, number]} entry layer, key and code
 * @param {Way[]} ways
 * @param {(writes: number) => Promise<void> | void} [progress] called between writes
 * @returns {Promise<Outcome | null>} null where the keyboard does not take the change
 */
export async function everyCut(device, [layer, key, code], ways, progress = () => {}) {
    const before = device.keymap(), wanted = afterCommand(before, 1, layer, key, code);
    device.setup(SET_FEATURE);
    if (device.out(setReport(layer, key, code)).kind !== "ack") return null;
    /** @type {Outcome} */
    const outcome = { columns: [], counts: { before: 0, after: 0, lost: 0 } };
    for (let going = true; going; ) {
        const memory = device.snapshot();
        outcome.columns.push(ways.map(([mask, unit]) => {
            device.workTorn(mask, unit);
            device.cut();
            const now = device.keymap();
            device.restore(memory);
            const came = same(now, before) ? "before" : same(now, wanted) ? "after" : "lost";
            outcome.counts[came]++;
            return came;
        }));
        going = device.work() === "working";
        await progress(outcome.columns.length);
    }
    return outcome;
}

/** The device and the change of a kind. @returns {[Device, [number, number, number]]} */
export const prepared = (kind, paired = false) => [new Device(CHANGES[kind].image(), paired), [0, 1, CONSUMER_PLAY]];

/**
 * A copy of a device, and a change of an entry that it does not have.
 * @param {Device} device
 * @returns {[Device, [number, number, number]]}
 */
export function copied(device, layer, key) {
    const copy = new Device(device.pages(), device.paired);
    copy.restore(device.snapshot());
    while (copy.work() === "working"); // what is under way ends first
    return [copy, [layer, key, copy.keymap()[layer * KEYS + key] === 5 ? 6 : 5]];
}
