// Where the 96 keys are drawn. By default a key stands where its default code stands on a keyboard of that form.

import { keyWith } from "./codes.js";
import { KEYS } from "./device.js";

/**
 * A key of a picture: its number, and its place and size in units of a key; turned by degrees about a point.
 * @typedef {{key: number, x: number, y: number, w: number, h: number, turn?: [number, number, number]}} Place
 * @typedef {{name: string, keys: Place[], extra?: Record<string, number>}} Picture
 */

/** A row: usages with their widths, and gaps. A number is a gap, a pair a usage and its width. */
function row(y, items) {
    const places = [];
    let x = 0;
    for (const item of items) {
        if (typeof item === "number") x += item;
        else {
            const [usage, w = 1, h = 1] = item;
            places.push({ key: keyWith(usage), x, y, w, h });
            x += w;
        }
    }
    return places;
}
const letters = (text) => [...text].map((letter) => [0x04 + "abcdefghijklmnopqrstuvwxyz".indexOf(letter)]);
const run = (from, count) => Array.from({ length: count }, (_, n) => [from + n]);

const functions = row(0, [[0x29], 1, ...run(0x3a, 4), 0.5, ...run(0x3e, 4), 0.5, ...run(0x42, 4), 0.25, ...run(0x46, 3)]);
const digits = [[0x35], ...run(0x1e, 10), [0x2d], [0x2e], [0x2a, 2]];
const upper = [[0x2b, 1.5], ...letters("qwertyuiop"), [0x2f], [0x30]];
const home = [[0x39, 1.75], ...letters("asdfghjkl"), [0x33], [0x34]];
const lower = [...letters("zxcvbnm"), [0x36], [0x37], [0x38]];
const insert = [0.25, [0x49], [0x4a], [0x4b]], remove = [0.25, [0x4c], [0x4d], [0x4e]];
const arrows = [0.25, [0x50], [0x51], [0x4f]];

// The default keymap has no key for Menu, and none for the key left of Z on ISO keyboards: keys that the form has not stand there.
const NON_US = 0x32, NUM_LOCK = 0x53, KEYPAD_DIVIDE = 0x54;
const bottom = (menu) => [[0xe0, 1.25], [0xe3, 1.25], [0xe2, 1.25], [0x2c, 6.25], [0xe6, 1.25], [0xe7, 1.25], [menu, 1.25], [0xe4, 1.25]];

/** @type {Picture} */
const ansi = {
    name: "ANSI 87",
    extra: { ContextMenu: keyWith(NON_US) },
    keys: [
        ...functions, ...row(1.5, [...digits, ...insert]), ...row(2.5, [...upper, [0x31, 1.5], ...remove]), ...row(3.5, [...home, [0x28, 2.25]]),
        ...row(4.5, [[0xe1, 2.25], ...lower, [0xe5, 2.75], 1.25, [0x52]]), ...row(5.5, [...bottom(NON_US), ...arrows]),
    ],
};
/** @type {Picture} */
const iso = {
    name: "ISO 88",
    extra: { ContextMenu: keyWith(NUM_LOCK), IntlBackslash: keyWith(KEYPAD_DIVIDE), Backslash: keyWith(NON_US) },
    keys: [
        ...functions, ...row(1.5, [...digits, ...insert]), ...row(2.5, [...upper, 0.25, [0x28, 1.25, 2], ...remove]), ...row(3.5, [...home, [NON_US]]),
        ...row(4.5, [[0xe1, 1.25], [KEYPAD_DIVIDE], ...lower, [0xe5, 2.75], 1.25, [0x52]]), ...row(5.5, [...bottom(NUM_LOCK), ...arrows]),
    ],
};
/** @type {Picture} */
const sixty = {
    name: "60 %",
    extra: { ContextMenu: keyWith(NON_US) },
    keys: [
        ...row(0, [[0x29], ...digits.slice(1)]), ...row(1, [...upper, [0x31, 1.5]]), ...row(2, [...home, [0x28, 2.25]]),
        ...row(3, [[0xe1, 2.25], ...lower, [0xe5, 2.75]]), ...row(4, bottom(NON_US)),
    ],
};
/** @type {Picture} */
const matrix = { name: "Matrix", keys: Array.from({ length: KEYS }, (_, key) => ({ key, x: key % 16, y: key >> 4, w: 1, h: 1 })) };

export const PICTURES = [ansi, iso, sixty, matrix];

/** The usage of page 07h for a key of the user's own keyboard, by KeyboardEvent.code (UI Events code values). */
const CODES = {
    Enter: 0x28, Escape: 0x29, Backspace: 0x2a, Tab: 0x2b, Space: 0x2c, Minus: 0x2d, Equal: 0x2e, BracketLeft: 0x2f, BracketRight: 0x30, Backslash: 0x31,
    Semicolon: 0x33, Quote: 0x34, Backquote: 0x35, Comma: 0x36, Period: 0x37, Slash: 0x38, CapsLock: 0x39, PrintScreen: 0x46, ScrollLock: 0x47, Pause: 0x48,
    Insert: 0x49, Home: 0x4a, PageUp: 0x4b, Delete: 0x4c, End: 0x4d, PageDown: 0x4e, ArrowRight: 0x4f, ArrowLeft: 0x50, ArrowDown: 0x51, ArrowUp: 0x52,
    NumLock: 0x53, NumpadDivide: 0x54, NumpadMultiply: 0x55, NumpadSubtract: 0x56, NumpadAdd: 0x57, NumpadEnter: 0x58, Numpad1: 0x59, Numpad2: 0x5a,
    Numpad3: 0x5b, ControlLeft: 0xe0, ShiftLeft: 0xe1, AltLeft: 0xe2, MetaLeft: 0xe3, ControlRight: 0xe4, ShiftRight: 0xe5, AltRight: 0xe6, MetaRight: 0xe7,
};

/**
 * The key of the matrix that a key of the user's own keyboard presses, or -1.
 * @param {Picture} picture
 * @param {string} code KeyboardEvent.code
 */
export function keyOf(picture, code) {
    const extra = picture.extra?.[code];
    if (extra !== undefined) return extra;
    let usage = CODES[code];
    if (/^Key[A-Z]$/.test(code)) usage = 4 + code.charCodeAt(3) - 65;
    else if (/^Digit\d$/.test(code)) usage = 0x1e + ((Number(code[5]) + 9) % 10);
    else if (/^F([1-9]|1[0-2])$/.test(code)) usage = 0x39 + Number(code.slice(1));
    return usage === undefined ? -1 : keyWith(usage);
}
