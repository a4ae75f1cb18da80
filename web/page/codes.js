// Codes of the keymap (docs/formats.md): which there are, their names, and what stands on a key.

import { hex } from "./bytes.js";
import { KEYS, LAYERS, core, entryOf } from "./device.js";
import { isKeypad } from "./layouts.js";
import { legendOf, pages, usageName } from "./usages.js";

const NOTHING = 0;
export const TRANSPARENT = 1;
/** The codes of layers and of consumer usages are these and a number. */
export const LAYER = 0x5000;
const CONSUMER = 0x4000;
const KEY_PAGE = 0x07, CONSUMER_PAGE = 0x0c;

const isLayer = (code) => code > LAYER && code <= LAYER + 3;
const isConsumer = (code) => code > CONSUMER && code <= CONSUMER + 0x3ff;

/** @type {any} */
const calls = new WebAssembly.Instance(core, {}).exports;

/** Whether a number of 16 bits is a code. */
export const isCode = (code) => calls.is_code(code) === 1;

/** The code of an entry that no command wrote. */
export const defaultCode = (layer, key) => calls.default_code(entryOf(layer, key));

const DEFAULTS = Array.from({ length: KEYS }, (_, key) => defaultCode(0, key));

/** The key that has a usage of page 07h by default, or -1. */
export const keyWith = (usage) => DEFAULTS.indexOf(usage);

/**
 * Returns the keymap after a command: operation 1 sets an entry, 2 resets a layer, 3 resets all.
 * @param {Uint16Array} keymap
 * @param {number} operation
 * @param {number} layer
 * @param {number} key
 * @param {number} code
 */
export function afterCommand(keymap, operation, layer, key, code) {
    const next = keymap.slice();
    if (operation === 1) next[entryOf(layer, key)] = code;
    for (let l = 0; l < LAYERS; l++) {
        if (operation !== 3 && !(operation === 2 && l === layer)) continue;
        for (let k = 0; k < KEYS; k++) next[entryOf(l, k)] = defaultCode(l, k);
    }
    return next;
}

/** What a code is, in a line of text. */
export function codeName(code) {
    if (code === NOTHING) return "nothing";
    if (code === TRANSPARENT) return "transparent";
    if (isLayer(code)) return `layer ${code - LAYER} while held`;
    if (isConsumer(code)) return usageName((CONSUMER_PAGE << 16) | (code - CONSUMER));
    return isCode(code) ? (legendOf(KEY_PAGE, code) || `usage ${hex(code, 2)}h`).replace("\n", " ") : `${hex(code, 4)}h, no code`;
}

/**
 * What stands on a key: short, and of keys that type by the computer's layout.
 * @param {number} code
 * @param {Record<number, string[]>} layout
 */
export function legend(code, layout) {
    if (code === NOTHING) return "✕";
    if (code === TRANSPARENT) return "▽";
    if (isLayer(code)) return `Layer ${code - LAYER}`;
    if (isConsumer(code)) return legendOf(CONSUMER_PAGE, code - CONSUMER) || `C ${hex(code - CONSUMER, 3)}h`;
    const typed = isKeypad(code) ? null : layout[code];
    if (!typed || code === 0x2c) return legendOf(KEY_PAGE, code) || `Key ${hex(code, 2)}`;
    const [plain, shifted] = typed;
    return plain.toUpperCase() === shifted || plain === shifted ? shifted : `${shifted}\n${plain}`;
}

const range = (from, to) => Array.from({ length: to - from + 1 }, (_, n) => from + n);
const consumers = [...(pages.get(CONSUMER_PAGE)?.usages ?? [])].filter(([usage, name]) => usage <= 0x3ff && name.legend).map(([usage]) => CONSUMER + usage);

/** The codes that are offered, by group. @type {[string, number[]][]} */
export const PALETTE = [
    ["Letters", range(0x04, 0x1d)],
    ["Digits, signs", [...range(0x1e, 0x27), ...range(0x2d, 0x38), 0x64]],
    ["Editing", [...range(0x28, 0x2c), 0x39, ...range(0x46, 0x52), 0x65]],
    ["Modifiers", range(0xe0, 0xe7)],
    ["Function", [...range(0x3a, 0x45), ...range(0x68, 0x73)]],
    ["Keypad", [...range(0x53, 0x63), 0x67]],
    ["International", range(0x87, 0x98)],
    ["Media", consumers],
    ["Layers", [LAYER + 1, LAYER + 2, LAYER + 3, TRANSPARENT, NOTHING]],
];
