// Packets of endpoint 0 by name, and the reasons of a stall.

import { hex } from "./bytes.js";
import { codeName } from "./codes.js";

/** The reasons of a stall (docs/simulator.md), with what each means. @type {Record<number, [string, string]>} */
export const REASONS = {
    1: ["UnknownRequest", "no such request"], 2: ["WrongInterface", "wIndex is not 0"], 3: ["UnknownDescriptor", "no such descriptor"],
    4: ["UnknownReport", "no such report"], 5: ["WrongLength", "wLength is wrong"], 6: ["BadProtocol", "no such protocol"],
    7: ["BadOperation", "no such operation"], 8: ["BadLayer", "there are layers 0 to 3"], 9: ["BadKey", "there are keys 0 to 95"],
    10: ["BadCode", "this code means nothing"], 11: ["Unsound", "the flash is damaged beyond what a cut leaves, so nothing is written"],
    12: ["Worn", "the flash has no sequence number left"], 13: ["FlashFault", "the flash failed, and the keymap is as before"],
    14: ["ShortData", "the packet is too short"], 15: ["LongData", "the packet is too long"], 16: ["WrongStage", "no such packet is due"],
};

/** A reason in a line of text. */
export const reason = (why) => `${REASONS[why]?.[0] ?? "unknown reason"} (${why}): ${REASONS[why]?.[1] ?? "it is in no table"}`;

const DESCRIPTORS = { 1: "device", 2: "configuration", 3: "string", 6: "device qualifier", 0x21: "HID", 0x22: "report" };
const TYPES = ["", "input", "output", "feature"];

/**
 * A SETUP packet by name (USB 2.0, section 9.4; HID 1.11, section 7).
 * @param {ArrayLike<number>} p
 */
export function setupName(p) {
    const [type, request, low, high] = Array.from(p);
    const report = `${TYPES[high] || `type ${high}`} ${low}`;
    switch ((type << 8) | request) {
        case 0x8006:
        case 0x8106: return `GET_DESCRIPTOR ${DESCRIPTORS[high] ?? high}`;
        case 0xa101: return `GET_REPORT ${report}`;
        case 0x2109: return `SET_REPORT ${report}`;
        case 0xa102: return `GET_IDLE ${low}`;
        case 0xa103: return "GET_PROTOCOL";
        case 0x210a: return `SET_IDLE ${low}: ${high === 0 ? "never" : `${high * 4} ms`}`;
        case 0x210b: return `SET_PROTOCOL ${low === 0 ? "boot" : low === 1 ? "report" : low}`;
        case 0x0005: return `SET_ADDRESS ${low}`;
        case 0x0009: return `SET_CONFIGURATION ${low}`;
        default: return `request ${hex(type, 2)}h ${hex(request, 2)}h`;
    }
}

/**
 * The feature report that carries a command, by name; empty for another packet.
 * @param {ArrayLike<number>} p
 */
export function featureName(p) {
    const [id, operation, layer, key, low, high] = Array.from(p);
    if (id !== 3 || p.length !== 6) return "";
    if (operation === 0) return `select layer ${layer}, key ${key}`;
    if (operation === 1) return `set layer ${layer}, key ${key}: ${codeName(low | (high << 8))}`;
    if (operation === 2) return `reset layer ${layer}`;
    return operation === 3 ? "reset all" : `operation ${operation}`;
}
