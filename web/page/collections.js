// What stands around fields, and what their values measure, in words (HID 1.11, sections 6.2.2.6 and 6.2.2.7).

import { hex } from "./bytes.js";
import { usageName } from "./usages.js";

const COLLECTIONS = ["Physical", "Application", "Logical", "Report", "Named Array", "Usage Switch", "Usage Modifier"];
const RAISED = "⁰¹²³⁴⁵⁶⁷⁸⁹";

/** The type of a collection. @param {number} kind */
export const kindName = (kind) => COLLECTIONS[kind] ?? (kind >= 0x80 ? "vendor-defined" : "reserved");

/** A collection by its usage and its type. */
function collectionName(descriptor, number) {
    const { kind, usage } = descriptor.collection(number);
    return usage === null ? kindName(kind) : `${usageName(usage)} (${kindName(kind)})`;
}

/**
 * The names of the collections around a field, the outermost first.
 * @param {import("./reader.js").Descriptor} descriptor
 * @param {import("./reader.js").Field} field
 * @returns {string[]}
 */
export function around(descriptor, field) {
    const names = [];
    for (let at = descriptor.detail(field.number).inside; at >= 0; at = descriptor.collection(at).outer) names.unshift(collectionName(descriptor, at));
    return names;
}

const power = (exponent) => (exponent === 0 ? "" : ` × 10${exponent < 0 ? "⁻" : ""}${[...String(Math.abs(exponent))].map((digit) => RAISED[Number(digit)]).join("")}`);

/** What the values of a field measure: physical extents with their unit, as far as they are declared. */
export function measure({ unit, exponent, min, max, name }) {
    const called = name || (unit ? `unit ${hex(unit, 8)}h` : "");
    const declared = min !== 0 || max !== 0;
    if (!declared) return called && `, in ${called}${power(exponent)}`;
    return `, which is ${min} to ${max}${power(exponent)}${called && ` ${called}`}`;
}
