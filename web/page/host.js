// The computer's side: it gathers the report descriptor that it fetches, and reads reports by it with the exported reader.

import { Refused } from "./bytes.js";
import { Descriptor, bootDescriptor } from "./reader.js";

/** The bytes of the keyboard's report descriptor: another text is not kept. */
const WHOLE = 99;
const BOOT_LENGTH = 8;

const boot = new Descriptor(bootDescriptor());

export class Host {
    constructor() {
        /** @type {Descriptor | null} */
        this.kept = null;
        /** @type {{wanted: number, bytes: number[]} | null} */
        this.gathering = null;
    }
    /**
     * A SETUP packet ends a gathering; GET_DESCRIPTOR of the report descriptor begins one.
     * @param {ArrayLike<number>} p
     */
    setup(p) {
        const begins = [0x81, 6, 0, 0x22, 0, 0].every((byte, at) => p[at] === byte);
        this.gathering = begins ? { wanted: p[6] | (p[7] << 8), bytes: [] } : null;
    }
    /**
     * A packet of data: one of less than 8 bytes, or the last of what was asked for, ends a gathering.
     * @param {Uint8Array} packet
     */
    packet(packet) {
        const { gathering } = this;
        if (!gathering) return;
        gathering.bytes.push(...packet);
        if (packet.length >= 8 && gathering.bytes.length < gathering.wanted) return;
        this.gathering = null;
        if (gathering.bytes.length !== WHOLE) return;
        const descriptor = new Descriptor(Uint8Array.from(gathering.bytes));
        if (!descriptor.fault) this.kept = descriptor;
    }
    /** The keyboard was cut off or reset. */
    lose() {
        this.gathering = null;
    }
    /**
     * The usages that are on in a report, or null where it can't be read.
     * @param {boolean} inBoot whether it is one of boot protocol
     * @param {Uint8Array} report
     */
    read(inBoot, report) {
        const descriptor = inBoot ? boot : this.kept;
        if (!descriptor || (inBoot && report.length < BOOT_LENGTH)) return null;
        try {
            return descriptor.pressed(report);
        } catch (refused) {
            if (!(refused instanceof Refused)) throw refused;
            return null;
        }
    }
}
