// The exported keyboard on its simulated flash: an instance of the WebAssembly module (web/core).

import { coreBytes } from "./built.js";

export const PAGE = 4096;
export const SLOTS = 512;
export const SLOT = 8;
export const LAYERS = 4;
export const KEYS = 96;

/** The module, from which each device and each descriptor is an instance. */
export const core = new WebAssembly.Module(coreBytes);

/**
 * What an endpoint answers: `ack`, `nak`, `data` with its bytes, or `stall` with the number of its reason.
 * @typedef {{kind: "ack"} | {kind: "nak"} | {kind: "data", bytes: Uint8Array} | {kind: "stall", why: number}} Answer
 */
/** @type {Answer} */
export const ACK = { kind: "ack" };
/** @type {Answer} */
export const NAKED = { kind: "nak" };

/** @typedef {"idle" | "working" | "settled" | "failed"} Work */
/** @type {Work[]} */
const WORK = ["idle", "working", "settled", "failed"];

/** Bytes of cells of a unit: eight of data, and the check. */
export const CELLS = 9;
/** How a unit reads: each cell set, as it stands, with one cell turned, or not at all. @typedef {"blank" | "word" | "corrected" | "error"} Reads */
/** @type {Reads[]} */
const UNIT = ["blank", "word", "corrected", "error"];
/** @typedef {{reads: Reads, cells: Uint8Array, right: Uint8Array}} Unit */

/**
 * The place of an entry in a keymap.
 * @param {number} layer
 * @param {number} key
 */
export const entryOf = (layer, key) => layer * KEYS + key;

/**
 * Whether two keymaps have the same codes.
 * @param {Uint16Array} one
 * @param {Uint16Array} other
 */
export const same = (one, other) => one.every((code, at) => code === other[at]);

export class Device {
    /**
     * A keyboard on so many blank pages, or on the bytes of an image of 2 to 8 pages.
     * @param {number | Uint8Array} flash
     * @param {boolean} [paired] whether the flash has error correction: then the image is one of words, two units for each
     */
    constructor(flash = 2, paired = false) {
        this.paired = paired;
        /** @type {any} */
        this.calls = new WebAssembly.Instance(core, {}).exports;
        const size = typeof flash === "number" ? flash * PAGE : flash.length;
        const fits = Number.isInteger(size / PAGE) && size >= 2 * PAGE && size <= 8 * PAGE;
        const image = () => this.put(typeof flash === "number" ? new Uint8Array(size).fill(255) : flash);
        const started = fits && (paired ? this.calls.start_paired(image()) : typeof flash === "number" ? this.calls.start_blank(flash) : this.calls.start_image(image()));
        if (started !== 0) throw new RangeError("a flash has 2 to 8 whole pages of 4,096 bytes");
    }
    /** Bytes of the memory. A call may move it, so that none stands between this one and its use. */
    part(offset, length) {
        return new Uint8Array(this.calls.memory.buffer, offset, length);
    }
    /** The buffer. */
    bytes() {
        return this.part(this.calls.buffer(), 8 * PAGE);
    }
    /** The first bytes of the buffer, as many as a call has put there. @param {number} length */
    first(length) {
        return this.bytes().slice(0, length);
    }
    /** @param {ArrayLike<number>} bytes */
    put(bytes) {
        this.bytes().set(bytes);
        return bytes.length;
    }
    /** @returns {Answer} */
    answered(number) {
        if (number >= 0) return { kind: "data", bytes: this.first(number) };
        return number === -1 ? NAKED : { kind: "stall", why: -100 - number };
    }
    /** @param {ArrayLike<number>} packet 8 bytes */
    setup(packet) {
        this.put(packet);
        this.calls.setup();
        return ACK;
    }
    /** @param {ArrayLike<number>} packet 0 to 8 bytes */
    out(packet) {
        const number = this.calls.out_packet(this.put(packet));
        return number === 0 ? ACK : this.answered(number);
    }
    in() {
        return this.answered(this.calls.in_packet());
    }
    /** The report of a poll, or null where it is answered by NAK. */
    poll() {
        const number = this.calls.poll();
        return number < 0 ? null : this.first(number);
    }
    /**
     * So many scans, a millisecond each, with these keys closed.
     * @param {Iterable<number>} keys
     */
    scan(keys, times = 1) {
        const rows = new Uint8Array(12);
        for (const key of keys) rows[key >> 3] |= 1 << (key & 7);
        this.put(rows);
        this.calls.scan(times);
    }
    /** A step of the flash work. */
    work() {
        return WORK[this.calls.work()];
    }
    /**
     * A step whose operation is torn by a mask of at most 4,096 bytes.
     * @param {ArrayLike<number>} mask
     * @param {number} [unit] with error correction which of a slot's two writes: 0 or 1
     */
    workTorn(mask, unit = 0) {
        return WORK[this.calls.work_torn_after(this.paired ? unit : 0, this.put(mask))];
    }
    cut() {
        this.calls.cut();
    }
    reset() {
        this.calls.bus_reset();
    }
    leds() {
        return this.calls.leds();
    }
    /** Whether it is in boot protocol. */
    boot() {
        return this.calls.boot_protocol() === 1;
    }
    /** The code of each entry, layer by layer. */
    keymap() {
        return new Uint16Array(this.first(this.calls.keymap()).buffer);
    }
    /** The flash's bytes as they are now; a later call may change them. With error correction nine for each unit. */
    raw() {
        return this.part(this.calls.flash(), this.calls.flash_length());
    }
    /** What the slots read as; a later call may change it. */
    image() {
        return this.paired ? this.first(this.calls.slots()) : this.raw();
    }
    pages() {
        return this.calls.pages();
    }
    /**
     * A unit of a flash with error correction: its cells with the check last, what they are corrected to, and how it reads.
     * @returns {Unit}
     */
    unit(page, unit) {
        const reads = UNIT[this.calls.unit(page, unit)];
        return { reads, cells: this.bytes().slice(0, CELLS), right: this.bytes().slice(CELLS, 2 * CELLS) };
    }
    slot(page, slot) {
        return this.image().slice(page * PAGE + slot * SLOT, page * PAGE + slot * SLOT + SLOT);
    }
    /** The active page, or -1. */
    active() {
        return this.calls.active_page();
    }
    /** The slot that the next record takes, or -1. */
    tail() {
        return this.calls.tail();
    }
    /** All that the device is: a copy of its memory. */
    snapshot() {
        return new Uint8Array(this.calls.memory.buffer).slice();
    }
    /** @param {Uint8Array} memory of the same module */
    restore(memory) {
        const lacking = memory.length - this.calls.memory.buffer.byteLength;
        if (lacking > 0) this.calls.memory.grow(lacking / 65536);
        this.part(0, memory.length).set(memory);
    }
}
