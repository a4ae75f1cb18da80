// A picture of keys from a file: of KLE (keyboard-layout-editor.com, "Download JSON") or a keyboard definition of VIA.

import { Refused } from "./bytes.js";
import { KEYS } from "./device.js";

const LARGEST = 1048576, MOST = 256, COLUMNS = 16, ROWS = 6, FAR = 1000;

const number = (value, fallback) => {
    if (value === undefined) return fallback;
    if (typeof value !== "number" || !(Math.abs(value) <= FAR)) throw new Refused("a place or size of the file is no number");
    return value;
};

/** The key that a legend names: "row,column" as VIA has it, or the number of the key; null where it is an option not taken. */
function keyOfLegend(text, nth) {
    const parts = text.split("\n");
    const option = /^\d+,(\d+)$/.exec(parts[3] ?? "");
    if (option && option[1] !== "0") return null;
    const pair = /^(\d{1,2}),(\d{1,2})$/.exec(parts[0].trim());
    if (pair) {
        const [r, c] = [Number(pair[1]), Number(pair[2])];
        if (r >= ROWS || c >= COLUMNS) throw new Refused(`key ${nth} of the file is row ${r}, column ${c}, and the matrix has ${ROWS} rows of ${COLUMNS}`);
        return r * COLUMNS + c;
    }
    const key = /^\d{1,2}$/.test(parts[0].trim()) ? Number(parts[0]) : -1;
    if (key < 0 || key >= KEYS) throw new Refused(`key ${nth} of the file has neither "row,column" nor a number of 0 to ${KEYS - 1} as its first legend`);
    return key;
}

/** Where the next key of KLE stands: x and y go on, size and turn as given. */
class Pen {
    constructor() {
        Object.assign(this, { x: 0, y: 0, w: 1, h: 1, r: 0, rx: 0, ry: 0, decal: false });
    }
    take(given) {
        if (given.r !== undefined) this.r = number(given.r, 0);
        if (given.rx !== undefined || given.ry !== undefined) {
            this.rx = number(given.rx, this.rx);
            this.ry = number(given.ry, this.ry);
            [this.x, this.y] = [this.rx, this.ry];
        }
        this.x += number(given.x, 0);
        this.y += number(given.y, 0);
        this.w = number(given.w, this.w);
        this.h = number(given.h, this.h);
        this.decal = given.d === true;
        if (this.w <= 0 || this.h <= 0) throw new Refused("a key of the file has no size");
    }
    /** The place of a key, and the pen behind it. */
    place(key) {
        const { x, y, w, h, r, rx, ry } = this;
        const place = { key, x, y, w, h, ...(r ? { turn: [r, rx, ry] } : {}) };
        this.x += w;
        Object.assign(this, { w: 1, h: 1, decal: false });
        return place;
    }
    newRow() {
        this.x = this.rx;
        this.y += 1;
    }
}

function rowsOf(file) {
    const rows = Array.isArray(file) ? file : file?.layouts?.keymap;
    if (!Array.isArray(rows)) throw new Refused("the file is neither a list of rows of KLE nor a definition of VIA with layouts and keymap");
    return rows.filter((row) => Array.isArray(row));
}

/**
 * Reads a picture. Throws `Refused` with a sentence.
 * @param {string} text
 * @param {string} name
 * @returns {import("./pictures.js").Picture}
 */
export function readPicture(text, name) {
    if (text.length > LARGEST) throw new Refused("the file has more than 1 MiB");
    let file;
    try {
        file = JSON.parse(text);
    } catch {
        throw new Refused("the file is no JSON");
    }
    const pen = new Pen(), keys = [];
    let nth = 0;
    for (const row of rowsOf(file)) {
        for (const item of row) {
            if (typeof item === "string") {
                nth++;
                const drawn = !pen.decal, key = drawn ? keyOfLegend(item, nth) : null;
                const place = pen.place(key ?? 0);
                if (key !== null) keys.push(place);
            } else if (item && typeof item === "object") pen.take(item);
            else throw new Refused("a row of the file holds neither legends nor properties");
            if (nth > MOST) throw new Refused(`the file has more than ${MOST} keys`);
        }
        pen.newRow();
    }
    if (keys.length === 0) throw new Refused("the file has no key");
    return { name, keys: movedToOrigin(keys) };
}

/** The corners of a key, turned. */
export function corners({ x, y, w, h, turn }) {
    const all = [[x, y], [x + w, y], [x, y + h], [x + w, y + h]];
    if (!turn) return all;
    const [degrees, cx, cy] = turn, angle = (degrees * Math.PI) / 180, sin = Math.sin(angle), cos = Math.cos(angle);
    return all.map(([a, b]) => [cx + (a - cx) * cos - (b - cy) * sin, cy + (a - cx) * sin + (b - cy) * cos]);
}

function movedToOrigin(keys) {
    const all = keys.flatMap(corners);
    const left = Math.min(...all.map(([x]) => x)), top = Math.min(...all.map(([, y]) => y));
    return keys.map(({ x, y, turn, ...rest }) => ({ ...rest, x: x - left, y: y - top, ...(turn ? { turn: [turn[0], turn[1] - left, turn[2] - top] } : {}) }));
}
