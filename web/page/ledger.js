// The ledger: after each event, what the computer was told against what the keymap says.

import { afterCommand } from "./codes.js";
import { same } from "./device.js";
import { SET_FEATURE } from "./bench.js";

/** @typedef {import("./bench.js").Bench} Bench */

export class Ledger {
    /** @param {Uint16Array} found the keymap as the keyboard started with it */
    constructor(found) {
        /** What has to be there: what was found, and each command that was settled since. */
        this.told = found;
        /** The keymap after the command under way, or null. @type {Uint16Array | null} */
        this.pending = null;
        /** Whether the transfer of the command under way, or of the last one that was settled, still waits for its status. */
        this.waits = false;
        this.feature = false;
        this.confirmed = 0;
        /** Commands that the keyboard took. */
        this.commands = 0;
        this.cuts = 0;
        this.checks = 0;
        /** The first event after which the keymap was another one, or null. @type {string | null} */
        this.broken = null;
        /** What the last cut left of a command that was under way. @type {"" | "before" | "after"} */
        this.left = "";
    }
    /**
     * Takes an event of the bench, and compares.
     * @param {Bench} bench
     * @param {import("./bench.js").Event} what
     * @param {any} bytes
     * @param {any} said
     */
    event(bench, what, bytes, said) {
        const now = bench.device.keymap();
        if (what === "setup") this.setup(bytes);
        else if (what === "out") this.out(bytes, said);
        else if (what === "in") this.status(said);
        else if (what === "work") this.work(said);
        else if (what === "cut") this.cut(now, said);
        else if (what === "reset") this.waits = this.feature = false;
        this.checks++;
        if (!same(now, this.told) && !(this.pending && same(now, this.pending))) this.broken ??= what;
    }
    setup(packet) {
        this.feature = SET_FEATURE.every((byte, at) => packet[at] === byte);
        this.waits = false;
    }
    out(packet, said) {
        if (!this.feature || said.kind !== "ack" || packet.length !== 6 || packet[1] === 0) return;
        const [, operation, layer, key, low, high] = packet;
        this.commands++;
        this.pending = afterCommand(this.told, operation, layer, key, low | (high << 8));
        this.waits = true;
        if (same(this.pending, this.told)) this.settle();
    }
    /** An empty packet in the status stage: now the computer was told. */
    status(said) {
        if (!this.waits || said.kind === "nak") return;
        this.waits = false;
        if (said.kind !== "data" || said.bytes.length !== 0) return;
        if (this.pending) this.settle();
        this.confirmed++;
    }
    settle() {
        if (this.pending) this.told = this.pending;
        this.pending = null;
    }
    work(said) {
        if (said === "settled") this.settle();
        if (said === "failed") this.pending = null;
    }
    /** What was under way at a cut is there as a whole or not at all. */
    cut(now, torn) {
        this.cuts++;
        this.left = "";
        if (torn === "settled") this.settle();
        else if (this.pending) {
            this.left = same(now, this.pending) ? "after" : "before";
            if (this.left === "after") this.settle();
            this.pending = null;
        }
        this.waits = this.feature = false;
    }
}
