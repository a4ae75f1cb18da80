// A keyboard with its computer and its power switch. Each event goes through here, so that the page can show and judge it.

import { Device, ACK } from "./device.js";
import { Host } from "./host.js";

export const SET_FEATURE = [0x21, 9, 3, 3, 0, 0, 6, 0];
export const GET_FEATURE = [0xa1, 1, 3, 3, 0, 0, 6, 0];
const GET_REPORT_DESCRIPTOR = [0x81, 6, 0, 0x22, 0, 0, 0xff, 0];
const SET_IDLE_ALL_NEVER = [0x21, 0x0a, 0, 0, 0, 0, 0, 0];

/**
 * The feature report that sets an entry.
 * @param {number} layer
 * @param {number} key
 * @param {number} code
 */
export const setReport = (layer, key, code) => [3, 1, layer, key, code & 255, code >> 8];

/** @typedef {"setup" | "out" | "in" | "poll" | "work" | "cut" | "reset" | "host"} Event */

export class Bench {
    /**
     * @param {number | Uint8Array} flash pages, or an image
     * @param {(what: Event, bytes: any, said: any) => void} [seen] is told each event: its bytes or mask, and the answer
     * @param {boolean} [paired] whether the flash has error correction
     */
    constructor(flash, seen = () => {}, paired = false) {
        this.device = new Device(flash, paired);
        this.host = new Host();
        this.seen = seen;
    }
    setup(packet) {
        this.host.setup(packet);
        const answer = this.device.setup(packet);
        this.seen("setup", packet, answer);
        return answer;
    }
    out(packet) {
        const answer = this.device.out(packet);
        this.seen("out", packet, answer);
        return answer;
    }
    in() {
        const answer = this.device.in();
        if (answer.kind === "data") this.host.packet(answer.bytes);
        this.seen("in", null, answer);
        return answer;
    }
    /** A poll: the report and what is read in it, or null. */
    poll() {
        const boot = this.device.boot();
        const report = this.device.poll();
        if (!report) return null;
        const read = this.host.read(boot, report);
        this.seen("poll", report, read);
        return { report, read };
    }
    scan(keys, times) {
        this.device.scan(keys, times);
    }
    /** A step of the flash work, torn where there is a mask. */
    work(mask) {
        const said = mask ? this.device.workTorn(mask) : this.device.work();
        if (said !== "idle") this.seen("work", mask, said);
        return said;
    }
    /** A power cut, inside the next flash operation where there is a mask; with error correction in this write of the two. */
    cut(mask, unit = 0) {
        const torn = mask ? this.device.workTorn(mask, unit) : null;
        this.device.cut();
        this.host.lose();
        this.seen("cut", mask, torn);
    }
    reset() {
        this.device.reset();
        this.host.lose();
        this.seen("reset", null, null);
    }
    /** A whole transfer of the report descriptor. */
    fetch() {
        this.setup(GET_REPORT_DESCRIPTOR);
        for (let length = 0; ; ) {
            const answer = this.in();
            if (answer.kind !== "data") return answer;
            length += answer.bytes.length;
            if (answer.bytes.length >= 8) continue;
            const ended = this.out([]);
            return ended === ACK ? { kind: "fetched", length } : ended;
        }
    }
    /** A whole feature transfer that sets an entry, with the flash work that it takes. */
    set(layer, key, code) {
        this.setup(SET_FEATURE);
        const answer = this.out(setReport(layer, key, code));
        if (answer !== ACK) return answer;
        while (this.work() === "working");
        const ended = this.in();
        return ended.kind === "data" && ended.bytes.length === 0 ? ACK : ended;
    }
    /** What a computer does with a keyboard that comes onto the bus, as far as the page needs it; told as one event. */
    enumerate() {
        const { seen } = this;
        this.seen = () => {};
        this.fetch();
        this.setup(SET_IDLE_ALL_NEVER);
        this.in();
        this.seen = seen;
        this.seen("host", null, null);
    }
}
