// The exported reader of report descriptors: an instance of the WebAssembly module for each descriptor.

import { Refused } from "./bytes.js";
import { core } from "./device.js";

export const FAULTS = [
    "", "Truncated: the text ends within the item", "Delimiter: an item that is not read here", "PopEmpty: a Pop with no Push left", "PushDeep: a Push onto eight",
    "BadReportId: a Report ID of 0 or over 255", "SizeTooLarge: a data item of more than 32 bits, or a constant one of more than 1,024",
    "CountTooLarge: a count over 1,024", "EndWithoutCollection: an End Collection with none open", "CollectionDeep: a Collection within 16 open ones",
    "UnpairedUsage: a Usage Minimum or Maximum without its pair", "UsageInverted: a Usage Minimum over its Maximum",
    "LogicalInverted: an array whose Logical Minimum is over its Maximum", "TooManyFields: more than 256 fields",
    "MixedIds: data items with and without a Report ID", "CollectionOpen: the text ends within a collection", "TooLong: the text has more than 4,096 bytes",
    "Memory: there was no memory for it",
];
const REFUSALS = ["", "a report has a byte at least", "the descriptor has no such input report", "it is shorter than the descriptor says", "there was no memory for it"];
export const KINDS = ["", "input", "output", "feature"];
const WITHIN = ["range", "null", "out"];
/** The most bytes that the module takes, and hands over at once. */
export const ROOM = 8 * 4096;

/**
 * A field as the reader gives it.
 * @typedef {{number: number, kind: number, id: number, array: boolean, size: number, bit: number, count: number, min: number, max: number}} Field
 */

export class Instance {
    constructor() {
        /** @type {any} */
        this.calls = new WebAssembly.Instance(core, {}).exports;
    }
    /** A copy of the first bytes that the module handed over. A call may move the memory, so the offset comes first. */
    bytes(length) {
        const offset = this.calls.buffer();
        return new Uint8Array(this.calls.memory.buffer, offset, length).slice();
    }
    view(length) {
        const offset = this.calls.buffer();
        return new DataView(this.calls.memory.buffer, offset, length);
    }
    /** @param {ArrayLike<number>} bytes */
    put(bytes) {
        if (bytes.length > ROOM) throw new Refused(`more than ${ROOM.toLocaleString("en")} bytes are no report descriptor`);
        const offset = this.calls.buffer();
        new Uint8Array(this.calls.memory.buffer, offset, ROOM).set(bytes);
        return bytes.length;
    }
}

/**
 * The items of a text: offset, bytes, and the number of the tag (web/core/src/reader.rs); then, where the text does not end
 * with a whole item, what is left.
 * @param {Uint8Array} text
 */
export function itemsOf(text) {
    const instance = new Instance(), items = [];
    const length = instance.put(text);
    for (let offset = 0; offset < length; ) {
        const told = instance.calls.item(offset, length);
        if (told === 0) return { items, rest: text.slice(offset), offset };
        items.push({ offset, bytes: text.slice(offset, offset + (told >> 8)), tag: told & 255 });
        offset += told >> 8;
    }
    return { items, rest: new Uint8Array(), offset: length };
}

/** The report descriptor by which a computer reads boot reports. */
export function bootDescriptor() {
    const instance = new Instance();
    return instance.bytes(instance.calls.boot_descriptor());
}

export class Descriptor {
    /**
     * Reads a text; `fault` is its first fault with its offset, or null.
     * @param {Uint8Array} text
     */
    constructor(text) {
        this.instance = new Instance();
        const { calls } = this.instance;
        const number = calls.descriptor(this.instance.put(text));
        /** @type {{number: number, offset: number} | null} */
        this.fault = number === 0 ? null : { number, offset: this.instance.view(4).getUint32(0, true) };
        this.usesIds = number === 0 && calls.uses_ids() === 1;
        /** @type {Field[]} */
        this.fields = number === 0 ? Array.from({ length: calls.field_count() }, (_, n) => this.field(n)) : [];
    }
    field(number) {
        const view = this.instance.view(this.instance.calls.field(number));
        const [kind, id, array, size] = [0, 1, 2, 3].map((at) => view.getUint8(at));
        const [bit, count, min, max] = [4, 12, 20, 28].map((at) => Number(view.getBigInt64(at, true)));
        return { number, kind, id, array: array === 1, size, bit, count, min, max };
    }
    /** What is declared beside a field: flags, the collection that it is in or -1, its unit with its exponent, its physical extents. */
    detail(number) {
        const length = this.instance.calls.detail(number), view = this.instance.view(length);
        const [flags, unit, inside] = [view.getUint32(0, true), view.getUint32(4, true), view.getInt32(8, true)];
        const [exponent, min, max] = [12, 20, 28].map((at) => Number(view.getBigInt64(at, true)));
        return { flags, unit, inside, exponent, min, max, name: new TextDecoder().decode(this.instance.bytes(length).subarray(36)) };
    }
    /** A collection: its type, its usage or null, and the one that it is in or -1. */
    collection(number) {
        const view = this.instance.view(this.instance.calls.collection(number));
        return { kind: view.getUint32(0, true), usage: view.getUint8(12) ? view.getUint32(4, true) : null, outer: view.getInt32(8, true) };
    }
    /** The usage of a place of a field, or a usage of an array's list: 32 bits, or 0. */
    usage(field, place) {
        return this.instance.calls.usage(field, place) >>> 0;
    }
    /** The bytes of a report with its ID, or 0. */
    reportLength(kind, id) {
        return this.instance.calls.report_length(kind, id);
    }
    /**
     * What a call finds in a report, entries of so many bytes, as many at once as the module has room for.
     * @template T
     * @param {Uint8Array} report
     * @param {(length: number, passed: number) => number} call
     * @param {number} size
     * @param {(view: DataView, at: number) => T} entry
     */
    found(report, call, size, entry) {
        /** @type {T[]} */
        const all = [];
        for (;;) {
            const count = call(this.instance.put(report), all.length), view = this.instance.view(ROOM);
            if (count < 0) throw new Refused(REFUSALS[-100 - count] ?? "there is no descriptor");
            const here = Math.min(count - all.length, Math.floor(ROOM / size));
            for (let n = 0; n < here; n++) all.push(entry(view, n * size));
            if (all.length >= count) return all;
        }
    }
    /**
     * The values of an input report, in its order; `usage` is null where there is none. Throws `Refused` for a report that the descriptor does not declare.
     * @param {Uint8Array} report
     */
    read(report) {
        return this.found(report, this.instance.calls.read, 18, (view, at) => ({
            field: view.getUint16(at, true), place: view.getUint16(at + 2, true), usage: view.getUint8(at + 16) ? view.getUint32(at + 4, true) : null,
            value: Number(view.getBigInt64(at + 8, true)), within: WITHIN[view.getUint8(at + 17)],
        }));
    }
    /**
     * The usages that are on in an input report, rising.
     * @param {Uint8Array} report
     */
    pressed(report) {
        return this.found(report, this.instance.calls.read_pressed, 4, (view, at) => view.getUint32(at, true));
    }
}
