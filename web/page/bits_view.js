// A report as a picture of its bits: a row for each byte, a colour for each field, the usage of each place.

import { counted } from "./bytes.js";
import { around, measure } from "./collections.js";
import { h, set } from "./dom.js";
import { KINDS } from "./reader.js";
import { usageName } from "./usages.js";

const MOST_BYTES = 128, COLOURS = 6, MOST_NAMES = 4;

/** The reports that fields declare: kind and ID, with their fields. */
export function reportsOf(descriptor) {
    const reports = new Map();
    for (const field of descriptor.fields) {
        const key = `${field.kind} ${field.id}`;
        if (!reports.has(key)) reports.set(key, { kind: field.kind, id: field.id, fields: [] });
        reports.get(key).fields.push(field);
    }
    return [...reports.values()];
}

/** Reports by the outermost collection of their first field, in order. @returns {Map<string, any[]>} */
export function grouped(descriptor, reports) {
    const groups = new Map();
    for (const report of reports) {
        const name = around(descriptor, report.fields[0])[0] ?? "outside of collections";
        if (!groups.has(name)) groups.set(name, []);
        groups.get(name).push(report);
    }
    return groups;
}

/** What a place of a field is called. */
function placeName(descriptor, field, place) {
    if (field.array) return `place ${place + 1} of ${field.count}: one of the usages of the list`;
    const usage = descriptor.usage(field.number, place);
    return usage ? usageName(usage) : "no usage";
}

/** The field and the place that a bit belongs to, for each bit of a report. */
function bitsOf(fields, length) {
    const bits = new Array(length * 8).fill(null);
    for (const field of fields) {
        for (let place = 0; place < field.count; place++) {
            for (let n = 0; n < field.size; n++) {
                const at = field.bit + place * field.size + n;
                if (at < bits.length) bits[at] = { field, place, first: n === 0 };
            }
        }
    }
    return bits;
}

/** The usages of a field in a few words. */
function usagesIn(descriptor, field) {
    const count = field.array ? field.max - field.min + 1 : field.count;
    const at = (place) => descriptor.usage(field.number, place);
    if (!at(0)) return "no usage";
    if (count <= MOST_NAMES) return [...new Set(Array.from({ length: Math.max(1, count) }, (_, n) => at(n)))].filter((usage) => usage).map(usageName).join(", ");
    const last = at(count - 1);
    return last && last !== at(0) ? `${usageName(at(0))} to ${usageName(last)}` : usageName(at(0));
}

const RELATIVE = 4, NULL_STATE = 64;

/** A line about a field. */
function fieldLine(descriptor, field) {
    const detail = descriptor.detail(field.number);
    const kind = `${field.array ? "array" : "variable"}${detail.flags & RELATIVE ? ", relative" : ""}`;
    return `bit ${field.bit}: ${field.count} × ${counted(field.size, "bit")}, ${kind}, ${field.min} to ${field.max}${detail.flags & NULL_STATE ? " or null" : ""}${measure(detail)}: ${usagesIn(descriptor, field)}`;
}

/** The lines of fields, under the collections that they are in: each with its path within the one that the report stands under. */
function fieldLines(descriptor, fields) {
    const [outermost] = around(descriptor, fields[0]), inside = ({ number }) => descriptor.detail(number).inside;
    return fields.flatMap((field, n) => {
        const line = h("li", { class: `f${n % COLOURS}` }, fieldLine(descriptor, field)), path = around(descriptor, field);
        if (n ? inside(field) === inside(fields[n - 1]) : path.length < 2) return [line];
        const within = path.length > 1 && path[0] === outermost ? path.slice(1) : path;
        return [h("li", { class: "inside" }, within.join(" › ") || "outside of collections"), line];
    });
}

/**
 * The picture of a report.
 * @param {import("./reader.js").Descriptor} descriptor
 * @param {{kind: number, id: number, fields: import("./reader.js").Field[]}} report
 */
export function reportPicture(descriptor, report) {
    const whole = descriptor.reportLength(report.kind, report.id) - Number(descriptor.usesIds), length = Math.min(whole, MOST_BYTES);
    const bits = bitsOf(report.fields, length);
    const said = h("p", { class: "bit-said", "aria-live": "off" }, "Point at a bit to see its usage.");
    const tell = (at) => {
        const bit = bits[at], where = `Byte ${Math.floor(at / 8) + Number(descriptor.usesIds)}, bit ${at % 8}`;
        set(said, { textContent: `${where}: ${bit ? placeName(descriptor, bit.field, bit.place) : "padding"}` });
    };
    const cell = (at) => {
        const bit = bits[at], colour = bit ? `f${report.fields.indexOf(bit.field) % COLOURS}` : "padding";
        return h("i", { class: `bit ${colour}${bit?.first ? " first" : ""}`, "data-bit": at });
    };
    const rows = Array.from({ length }, (_, byte) => h("div", { class: "byte" }, h("span", { class: "byte-number" }, String(byte + Number(descriptor.usesIds))), ...Array.from({ length: 8 }, (_, n) => cell(8 * byte + 7 - n))));
    const name = `${KINDS[report.kind][0].toUpperCase()}${KINDS[report.kind].slice(1)} report${descriptor.usesIds ? ` ${report.id}` : ""}`;
    const picture = h("div", { class: "bytes", role: "img", tabIndex: 0, "aria-label": `${name}, bit by bit: bit 7 of each byte stands left. Arrow keys go from bit to bit.` }, ...rows);
    let at = 0;
    picture.addEventListener("pointermove", ({ target }) => target.dataset?.bit && tell((at = Number(target.dataset.bit))));
    picture.addEventListener("keydown", (event) => {
        const step = { ArrowLeft: 1, ArrowRight: -1, ArrowUp: -8, ArrowDown: 8 }[event.key];
        if (!step) return;
        event.preventDefault();
        at = Math.min(bits.length - 1, Math.max(0, at + step));
        tell(at);
    });
    const list = h("ol", { class: "fields" }, ...fieldLines(descriptor, report.fields));
    const more = whole > length ? ` The first ${length} are drawn.` : "";
    return h("section", { class: "card report" }, h("h3", {}, name, h("span", { class: "dim" }, ` ${counted(whole + Number(descriptor.usesIds), "byte")}${descriptor.usesIds ? ", the ID counted" : ""}.${more}`)), picture, said, list);
}
