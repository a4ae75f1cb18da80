// Items of a report descriptor in words (HID 1.11, section 6.2.2).

import { hex } from "./bytes.js";
import { kindName } from "./collections.js";
import { pageName, usageName } from "./usages.js";

/** The numbers of tags, as web/core/src/reader.rs gives them. */
export const TAGS = {
    1: "Input", 2: "Output", 3: "Feature", 4: "Collection", 5: "End Collection", 11: "Usage Page", 12: "Logical Minimum", 13: "Logical Maximum", 14: "Report Size",
    15: "Report ID", 16: "Report Count", 17: "Push", 18: "Pop", 21: "Usage", 22: "Usage Minimum", 23: "Usage Maximum", 24: "Delimiter",
};
/** Tags of what stands beside a field, by the prefix without its size. */
const OTHERS = {
    0x34: "Physical Minimum", 0x44: "Physical Maximum", 0x54: "Unit Exponent", 0x64: "Unit", 0x38: "Designator Index", 0x48: "Designator Minimum",
    0x58: "Designator Maximum", 0x78: "String Index", 0x88: "String Minimum", 0x98: "String Maximum",
};
const FLAGS = [["Data", "Constant"], ["Array", "Variable"], ["Absolute", "Relative"], ["", "Wrap"], ["", "Nonlinear"], ["", "No Preferred"], ["", "Null State"], ["", "Volatile"], ["", "Buffered Bytes"]];

/** The data of a short item, without and with its sign. */
function dataOf(bytes) {
    const data = bytes.slice(1);
    let value = 0;
    for (let n = data.length - 1; n >= 0; n--) value = value * 256 + data[n];
    const limit = 2 ** (8 * data.length);
    return { value, signed: data.length && value >= limit / 2 ? value - limit : value };
}

/**
 * A line for each item: its depth of collections, its name, and what it says.
 * @param {{offset: number, bytes: Uint8Array, tag: number}[]} items
 */
export function itemLines(items) {
    let depth = 0, page = 0;
    const pages = []; // of Push
    return items.map((item) => {
        const { value, signed } = dataOf(item.bytes), name = TAGS[item.tag] ?? OTHERS[item.bytes[0] & 0xfc] ?? (item.bytes[0] === 0xfe ? "long item" : "reserved item");
        if (item.tag === 5) depth = Math.max(0, depth - 1);
        const at = depth;
        if (item.tag === 4) depth++;
        if (item.tag === 11) page = value;
        if (item.tag === 17) pages.push(page);
        if (item.tag === 18) page = pages.pop() ?? page;
        return { ...item, depth: at, name, says: says(item, value, signed, page) };
    });
}

/** The data of an item beside a field: the exponent is a digit of four bits with its sign (HID 1.11, section 6.2.2.7). */
function besides(prefix, value, signed) {
    if (prefix === 0x64) return `${hex(value, 8)}h`;
    return String(prefix === 0x54 && value < 16 ? (value ^ 8) - 8 : signed);
}

function says({ tag, bytes }, value, signed, page) {
    if (tag >= 1 && tag <= 3) return FLAGS.map(([no, yes], bit) => ((value >> bit) & 1 ? yes : no)).filter((word) => word).join(", ");
    if (tag === 4) return kindName(value);
    if (tag === 11) return pageName(value);
    if (tag === 12 || tag === 13) return String(signed);
    if (tag >= 14 && tag <= 16) return String(value);
    if (tag >= 21 && tag <= 23) return usageName(bytes.length > 3 ? value : page * 0x10000 + value);
    if (tag === 0) return OTHERS[bytes[0] & 0xfc] ? besides(bytes[0] & 0xfc, value, signed) : "passed over";
    return bytes.length > 1 ? `${hex(value, 2)}h` : "";
}
