// The simulated keyboard of the page: its bench, its ledger, its clock, and who looks at it.

import { Bench } from "./bench.js";
import { Ledger } from "./ledger.js";

/** Scans between two polls, a millisecond each. */
const SCANS = 10;
/** The steps of the flash work in a tick where it goes by itself. */
const STEPS = 48;
/** Ticks of a step where the work is slow. */
const SLOW = 20;

/** @typedef {"fast" | "slow" | "hand"} Speed */

export class Session {
    constructor() {
        /** @type {((what: import("./bench.js").Event, bytes: any, said: any) => void)[]} */
        this.seers = [];
        /** @type {(() => void)[]} */
        this.starters = [];
        /** @type {(() => void)[]} */
        this.waiters = [];
        /** The keys that are closed. @type {() => Iterable<number>} */
        this.keys = () => [];
        /** @type {Speed} */
        this.speed = "fast";
        this.paused = false;
        /** The mask of the cut that waits for the next write, and in which of its units. @type {[Uint8Array, number] | null} */
        this.armed = null;
        /** The keyboard that is set aside: that of scripts, or the one that is played with. @type {{bench: Bench, ledger: Ledger, armed: [Uint8Array, number] | null} | null} */
        this.aside = null;
        this.ticks = 0;
        this.start(2);
    }
    /** Takes the other keyboard: each goes on where it was. */
    swap() {
        const { bench, ledger, armed, aside } = this;
        this.aside = { bench, ledger, armed };
        if (!aside) return this.start(2);
        Object.assign(this, aside);
        for (const started of this.starters) started();
    }
    /** Whether a keyboard is there, or was set aside. @param {Bench} bench */
    has(bench) {
        return bench === this.bench || bench === this.aside?.bench;
    }
    /**
     * Starts anew on a flash: so many blank pages, or an image.
     * @param {number | Uint8Array} flash
     * @param {boolean} [paired] whether it has error correction
     */
    start(flash, paired = false) {
        this.bench = new Bench(flash, (what, bytes, said) => {
            this.ledger.event(this.bench, what, bytes, said);
            for (const see of this.seers) see(what, bytes, said);
        }, paired);
        this.ledger = new Ledger(this.bench.device.keymap());
        this.armed = null;
        for (const started of this.starters) started();
    }
    /** Whether the flash has error correction. */
    get paired() {
        return this.bench.device.paired;
    }
    /** Cuts the power inside the write that is next. */
    cutInside(mask, unit = 0) {
        this.armed = null;
        this.bench.cut(mask, unit);
    }
    /** Waits for the clock. @returns {Promise<void>} */
    tick() {
        return new Promise((done) => this.waiters.push(done));
    }
    /** A tick of the clock, 10 ms: scans, a poll, and the flash work where it goes by itself. */
    beat() {
        if (!this.paused) {
            this.bench.scan(this.keys(), SCANS);
            this.bench.poll();
            this.ticks++;
            if (this.armed && this.ledger.pending) this.cutInside(...this.armed);
            else if (this.speed === "fast") for (let n = 0; n < STEPS && this.bench.work() === "working"; n++);
            else if (this.speed === "slow" && this.ticks % SLOW === 0) this.bench.work();
        }
        const waiters = this.waiters.splice(0);
        for (const done of waiters) done();
    }
}
