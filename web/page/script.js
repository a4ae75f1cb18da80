// The language of scripts (docs/simulator.md): what each line says, or its fault, and what is printed of it.

import { bytesHex, fromHex } from "./bytes.js";
import { entryOf } from "./device.js";

const LONGEST = 1048576;

class Fault extends Error {}

const decimal = (word, from, to) => {
    const number = /^[0-9]{1,5}$/.test(word) ? Number(word) : -1;
    if (number < from || number > to) throw new Fault("bad number");
    return number;
};
const hexBytes = (word, from, to) => {
    const bytes = fromHex(word);
    if (!bytes || bytes.length < from || bytes.length > to) throw new Fault("bad hex");
    return bytes;
};
const maskOf = (word) => (word === "-" ? new Uint8Array() : hexBytes(word, 1, 4096));
const keysOf = (words) => words.map((word) => decimal(word, 0, 95));
const codeOf = (word) => {
    const [high, low] = hexBytes(word, 2, 2);
    return (high << 8) | low;
};

const answered = (answer) => {
    if (answer.kind === "data") return `data ${bytesHex(answer.bytes) || "-"}`;
    if (answer.kind === "stall") return `stall ${answer.why}`;
    return answer.kind === "fetched" ? `fetched ${answer.length}` : answer.kind;
};
const polled = (poll) => {
    if (!poll) return "nak";
    const usages = poll.read?.map((usage) => usage.toString(16).padStart(8, "0"));
    return `report ${bytesHex(poll.report)} ${usages ? `read ${usages.join(" ") || "none"}` : "unread"}`;
};
const scans = (times, keys) => (b) => {
    b.scan(keys, times);
    return "ok";
};
const cuts = (mask) => (b) => {
    b.cut(mask);
    return "restart";
};

/** A word: the fewest and the most words after it, and what its line does to a bench: the text that is printed. */
const LINES = {
    scan: [0, 96, (words) => scans(1, keysOf(words))],
    scans: [1, 97, ([times, ...words]) => scans(decimal(times, 1, 10000), keysOf(words))],
    poll: [0, 0, () => (b) => polled(b.poll())],
    setup: [1, 1, ([word]) => ((packet) => (b) => answered(b.setup(packet)))(hexBytes(word, 8, 8))],
    out: [0, 1, ([word]) => ((packet) => (b) => answered(b.out(packet)))(word === undefined ? new Uint8Array() : hexBytes(word, 1, 8))],
    in: [0, 0, () => (b) => answered(b.in())],
    work: [0, 0, () => (b) => b.work()],
    workfault: [1, 1, ([word]) => ((mask) => (b) => b.work(mask))(maskOf(word))],
    cut: [0, 0, () => cuts(null)],
    cutwork: [1, 1, ([word]) => cuts(maskOf(word))],
    reset: [0, 0, () => (b) => (b.reset(), "ok")],
    entry: [2, 2, ([layer, key]) => ((at) => (b) => b.device.keymap()[at].toString(16).padStart(4, "0"))(entryOf(decimal(layer, 0, 3), decimal(key, 0, 95)))],
    slot: [2, 2, ([page, slot], pages) => ((at) => (b) => bytesHex(b.device.slot(...at)))([decimal(page, 0, pages - 1), decimal(slot, 0, 511)])],
    leds: [0, 0, () => (b) => b.device.leds().toString(16).padStart(2, "0")],
    set: [3, 3, ([layer, key, code]) => ((entry) => (b) => answered(b.set(...entry)))([decimal(layer, 0, 255), decimal(key, 0, 255), codeOf(code)])],
    fetch: [0, 0, () => (b) => answered(b.fetch())],
};

/**
 * @typedef {{number: number, run: (bench: import("./bench.js").Bench) => string}} Line
 */

function readLine(words, pages) {
    if (!Object.hasOwn(LINES, words[0])) throw new Fault("unknown word");
    const [least, most, made] = LINES[words[0]];
    if (words.length - 1 < least || words.length - 1 > most) throw new Fault("wrong words");
    return made(words.slice(1), pages);
}

/**
 * The lines that say something. The first line with a fault is thrown, as kbsim prints it.
 * @param {string} text
 * @param {number} pages
 * @returns {Line[]}
 */
export function readScript(text, pages) {
    if (new TextEncoder().encode(text).length > LONGEST) throw new Error("fault too long");
    const lines = [];
    text.split("\n").forEach((whole, n) => {
        const line = whole.replace(/\r$/, "");
        const words = line.split(/[ \t]+/).filter((word) => word);
        if (line.startsWith("#") || words.length === 0) return;
        try {
            lines.push({ number: n + 1, run: readLine(words, pages) });
        } catch (fault) {
            if (!(fault instanceof Fault)) throw fault;
            throw new Error(`fault line ${n + 1}: ${fault.message}`);
        }
    });
    return lines;
}
