// The keyboards that a keymap is set on: the simulated one, and one on USB by WebHID. Both take the same feature report 3.

import { Refused, hex } from "./bytes.js";
import { GET_FEATURE, SET_FEATURE } from "./bench.js";
import { isCode } from "./codes.js";
import { KEYS, LAYERS } from "./device.js";
import { reason } from "./packets.js";

/** Where a keyboard of this kind says what it is: the usage page and usage of its feature report. */
export const FILTER = { usagePage: 0xff00, usage: 0x01 };
const REPORT = 3;

/** Refuses what the keyboard would refuse, with the reason, since a stall on a real bus has none. */
function check(operation, layer, key, code) {
    if (operation < 3 && layer >= LAYERS) throw new Refused(reason(8));
    if (operation < 2 && key >= KEYS) throw new Refused(reason(9));
    if (operation === 1 && !isCode(code)) throw new Refused(reason(10));
}
const GONE = "the power or the bus went before it was confirmed";
const OTHER = "another program selected an entry meanwhile; read again";
const REFUSES = "the keyboard refused it, and USB does not tell why: its flash failed, is worn or damaged, or the cable";
/** A host gives up a transfer after 5 s, and a browser reports this like a refusal. */
const PATIENCE = 4900;
/** The first pause after a refusal, and the longest one. */
const PAUSES = [50, 500];
const UNANSWERED = "the keyboard did not answer in time";
const UNCONFIRMED = "the keyboard did not confirm it in time: each entry is the old one or the new one. Read all to see which";

/** One transfer after the other. */
class Queue {
    constructor() {
        /** @type {Promise<any>} */
        this.last = Promise.resolve();
    }
    /**
     * @template T
     * @param {() => Promise<T>} act
     * @returns {Promise<T>}
     */
    add(act) {
        const done = this.last.then(act);
        this.last = done.catch(() => {});
        return done;
    }
}

/** The simulated keyboard. Its packets go over the simulated bus, and NAKs are tried again with the page's clock. */
export class SimKeyboard {
    /** @param {import("./session.js").Session} session */
    constructor(session) {
        this.name = "Simulated keyboard";
        this.simulated = true;
        this.session = session;
        this.queue = new Queue();
    }
    answered(answer) {
        if (answer.kind !== "stall") return answer;
        throw new Refused(answer.why === 16 ? GONE : reason(answer.why));
    }
    /** Tries a packet until it is taken, on a bench that may be replaced meanwhile. */
    async again(bench, act) {
        for (;;) {
            if (!this.session.has(bench)) throw new Refused(GONE);
            if (bench !== this.session.bench) {
                await this.session.tick();
                continue;
            }
            const answer = this.answered(act());
            if (answer.kind !== "nak") return answer;
            await this.session.tick();
        }
    }
    /** Sends a feature report, and waits for its status stage. */
    async send(report) {
        const { bench } = this.session;
        bench.setup(SET_FEATURE);
        await this.again(bench, () => bench.out(report));
        await this.again(bench, () => bench.in());
    }
    /** Sends a command and waits until it is confirmed. @returns {Promise<void>} */
    command(operation, layer, key, code) {
        return this.queue.add(() => this.send([REPORT, operation, layer, key, code & 255, code >> 8]));
    }
    /** The computer sets the LEDs. @returns {Promise<void>} */
    leds(lit) {
        return this.queue.add(async () => {
            const { bench } = this.session, report = bench.device.boot() ? [lit] : [1, lit];
            bench.setup([0x21, 9, report.length - 1, 2, 0, 0, report.length, 0]);
            bench.out(report);
            bench.in();
        });
    }
    /** The code of an entry. @returns {Promise<number>} */
    read(layer, key) {
        return this.queue.add(async () => {
            await this.send([REPORT, 0, layer, key, 0, 0]);
            const { bench } = this.session;
            bench.setup(GET_FEATURE);
            const answer = this.answered(bench.in());
            this.answered(bench.out([]));
            const [, , l, k, low, high] = answer.kind === "data" ? answer.bytes : [];
            if (l !== layer || k !== key) throw new Refused(OTHER);
            return low | (high << 8);
        });
    }
}

/** A keyboard on USB. */
export class HidKeyboard {
    /** @param {any} device an opened HIDDevice */
    constructor(device) {
        this.device = device;
        this.name = device.productName || "USB keyboard";
        this.simulated = false;
        this.gone = false;
        this.queue = new Queue();
    }
    /**
     * Opens a device that has feature report 3.
     * @param {any} device a HIDDevice
     */
    static async open(device) {
        const features = (device.collections ?? []).flatMap((one) => (one.usagePage === FILTER.usagePage ? (one.featureReports ?? []) : []));
        if (!features.some((report) => report.reportId === REPORT)) throw new Refused("this device has no feature report 3");
        try {
            if (!device.opened) await device.open();
        } catch (error) {
            throw new Unopened(`the system did not let the browser open it (${error.name})`);
        }
        return new HidKeyboard(device);
    }
    /** Makes a transfer, or refuses with what its failure means; `late` is what a timeout means. */
    async transfer(act, late = UNANSWERED) {
        if (this.gone) throw new Refused("the keyboard was unplugged");
        const begun = performance.now();
        try {
            return await act();
        } catch {
            if (this.gone || !this.device.opened) throw new Refused("the keyboard was unplugged");
            throw new Refused(performance.now() - begun < PATIENCE ? REFUSES : late);
        }
    }
    /** Sends a report. A refusal may only say "later" (SECURITY.md, pace), so it is sent again, as long as a host waits for a transfer. */
    async send(report, late = UNANSWERED) {
        const begun = performance.now();
        for (let [pause, longest] = PAUSES; ; pause = Math.min(2 * pause, longest)) {
            try {
                return await this.transfer(() => this.device.sendFeatureReport(REPORT, Uint8Array.from(report)), late);
            } catch (refused) {
                if (refused.message !== REFUSES || performance.now() - begun >= PATIENCE) throw refused;
            }
            await new Promise((done) => setTimeout(done, pause));
        }
    }
    /** Sends a command; the browser's call ends when the keyboard confirmed it. @returns {Promise<void>} */
    command(operation, layer, key, code) {
        return this.queue.add(async () => {
            check(operation, layer, key, code);
            await this.send([operation, layer, key, code & 255, code >> 8], UNCONFIRMED);
        });
    }
    /** The code of an entry. @returns {Promise<number>} */
    read(layer, key) {
        return this.queue.add(async () => {
            check(0, layer, key, 0);
            await this.send([0, layer, key, 0, 0]);
            const view = await this.transfer(() => this.device.receiveFeatureReport(REPORT));
            const bytes = new Uint8Array(view.buffer, view.byteOffset, view.byteLength);
            const [selected, l, k, low, high] = bytes.length === 6 && bytes[0] === REPORT ? bytes.subarray(1) : bytes;
            if (selected !== 0 || l !== layer || k !== key || low === undefined || high === undefined) throw new Refused(OTHER);
            const code = low | (high << 8);
            if (!isCode(code)) throw new Refused(`the keyboard answered ${hex(code, 4)}h, which is no code`);
            return code;
        });
    }
}

/** A device that the system does not let the browser open. */
export class Unopened extends Refused {}
