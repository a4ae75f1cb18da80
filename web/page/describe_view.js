// Describe: a report descriptor that is pasted, item by item and as pictures of its reports, and a report that is read by it.

import { Refused, bytesHex, counted, hex } from "./bytes.js";
import { mediaKeys } from "./built.js";
import { Device } from "./device.js";
import { $, chooser, h, set } from "./dom.js";
import { grouped, reportPicture, reportsOf } from "./bits_view.js";
import { itemLines } from "./items.js";
import { bytesOfFile, bytesOfReport, bytesOfText } from "./paste.js";
import { Descriptor, FAULTS, bootDescriptor, itemsOf } from "./reader.js";
import { usageName } from "./usages.js";

/** Report 1 of this keyboard with the left Shift key and the letter a. */
const SHIFT_A = `01 02 01${" 00".repeat(20)}`;
const MOST_ITEMS = 1000, MOST_REPORTS = 64, MOST_FOUND = 256;

/** Bytes in rows of 16. */
const rows = (bytes) => bytesHex(bytes).replace(/(..)/g, "$1 ").replace(/(.{48})/g, "$1\n").trim();

/**
 * The values of a report as they are shown: those of variable places, and the usages that arrays name.
 * @param {Descriptor} descriptor
 * @param {Uint8Array} report
 */
function valuesOf(descriptor, report) {
    const isNamed = ({ field, usage }) => !descriptor.fields[field].array || (usage !== null && usage % 0x10000 !== 0);
    return descriptor.read(report).filter(isNamed).map(({ field, place, usage, value, within }) => {
        const number = descriptor.fields[field].array ? 1 : value;
        const says = within === "null" ? "null" : within === "out" ? `${number} (out of range)` : String(number);
        return { name: usage === null ? `f${field}[${place}]` : usageName(usage), code: usage === null ? "" : hex(usage, 8), says, on: within !== "null" && number !== 0 };
    });
}

/** The first input report with nothing in it, in hex; empty where there is none. */
function blankReport(descriptor, reports) {
    const first = reports.find(({ kind }) => kind === 1);
    if (!first) return "";
    const bytes = new Uint8Array(descriptor.reportLength(1, first.id));
    if (descriptor.usesIds) bytes[0] = first.id;
    return bytesHex(bytes).replace(/(..)(?=.)/g, "$1 ");
}

/** The view of a report descriptor. */
export function describeView() {
    /** @type {Descriptor | null} */
    let descriptor = null;
    /** The report that the page put there. */
    let offered = "";
    const offer = (report) => ($("report").value = offered = report);
    const clear = (text) => {
        descriptor = null;
        $("items").replaceChildren();
        $("reports").replaceChildren();
        set($("described"), { textContent: text, className: "said bad" });
        read();
    };
    function itemRow(line, fault) {
        const bad = fault && fault.offset === line.offset;
        const name = h("span", { class: "item-name" }, line.name);
        name.style.paddingLeft = `${line.depth * 12}px`;
        return h("li", { class: bad ? "bad" : "" }, h("code", { class: "offset" }, hex(line.offset, 3)), h("code", { class: "raw" }, bytesHex(line.bytes).slice(0, 14)), name, h("span", { class: "item-says" }, line.says),
            ...(bad ? [h("strong", { class: "fault" }, FAULTS[fault.number])] : []));
    }
    /** Shows what bytes say. */
    function show(bytes) {
        const whole = new Descriptor(bytes), { fault } = whole, { items, rest, offset } = itemsOf(bytes);
        const lines = itemLines(items).slice(0, MOST_ITEMS);
        if (rest.length) lines.push({ offset, bytes: rest, tag: 0, depth: 0, name: "…", says: "the text ends here" });
        else if (fault && fault.offset === bytes.length) lines.push({ offset, bytes: rest, tag: 0, depth: 0, name: "the end", says: "" });
        $("items").replaceChildren(...lines.map((line) => itemRow(line, fault)));
        descriptor = fault ? null : whole;
        const reports = fault ? [] : reportsOf(whole);
        const groups = [...grouped(whole, reports.slice(0, MOST_REPORTS))];
        $("reports").replaceChildren(h("div", { class: "columns" }, ...groups.flatMap(([name, of]) => of.map((report, n) => {
            const picture = reportPicture(whole, report);
            return n ? picture : h("div", { class: "first" }, h("h2", {}, name), picture);
        }))));
        // A report that nobody wrote is one of the right size.
        if ($("report").value === offered) offer(blankReport(whole, reports));
        const shown = items.length > MOST_ITEMS ? ` The first ${MOST_ITEMS} are listed.` : "";
        const text = fault ? `Fault ${fault.number} at byte ${fault.offset} (${hex(fault.offset, 3)}h): ${FAULTS[fault.number]}.` : `${counted(bytes.length, "byte")}, ${counted(items.length, "item")}, ${counted(whole.fields.length, "field")}, ${counted(reports.length, "report")}. No fault.${shown}`;
        set($("described"), { textContent: text, className: `said ${fault ? "bad" : "good"}` });
        read();
    }
    function attempt(act) {
        try {
            act();
        } catch (refused) {
            if (!(refused instanceof Refused)) throw refused;
            clear(`This is no report descriptor: ${refused.message}.`);
        }
    }
    const describe = () => attempt(() => show(bytesOfText($("descriptor").value)));
    /** Reads the report that was pasted. */
    function read() {
        const text = $("report").value.trim(), say = (words, kind) => set($("report-said"), { textContent: words, className: `said ${kind}` });
        $("found").replaceChildren();
        if (!text) return say("Paste an input report in hex.", "");
        if (!descriptor) return say("A report is read by a descriptor without a fault.", "bad");
        try {
            const bytes = bytesOfReport(text), found = valuesOf(descriptor, bytes), on = found.filter((value) => value.on).length;
            const shown = [...found].sort((one, other) => Number(other.on) - Number(one.on)).slice(0, MOST_FOUND);
            $("found").replaceChildren(...shown.map(({ name, code, says, on }) => h("li", { class: on ? "on" : "" }, h("b", {}, says), ` ${name} `, ...(code ? [h("code", {}, code)] : []))));
            const rest = bytes.length - descriptor.reportLength(1, descriptor.usesIds ? bytes[0] : 0);
            const more = rest > 0 ? ` ${counted(rest, "byte")} behind its end ${rest === 1 ? "is" : "are"} no part of it.` : "";
            say(`${counted(found.length, "value")}, ${on} not 0.${more}`, "good");
        } catch (refused) {
            if (!(refused instanceof Refused)) throw refused;
            say(`This report is not read: ${refused.message}.`, "bad");
        }
    }
    const put = (bytes, report) => {
        $("descriptor").value = rows(bytes);
        offer(report);
        show(bytes);
        if (report) offer(report);
        read();
    };
    $("describe").addEventListener("click", describe);
    $("descriptor").addEventListener("input", describe);
    $("report").addEventListener("input", read);
    $("own-descriptor").addEventListener("click", () => put(ownDescriptor(), SHIFT_A));
    $("boot-descriptor").addEventListener("click", () => put(bootDescriptor(), "02 00 04 05 00 00 00 00"));
    $("media-descriptor").addEventListener("click", () => attempt(() => put(bytesOfText(mediaKeys), "")));
    const load = (bytes) => attempt(() => put(bytesOfFile(bytes), ""));
    $("descriptor-load").addEventListener("click", () => $("descriptor-file").click());
    chooser($("descriptor-file"), load, clear);
    put(ownDescriptor(), SHIFT_A);
}

/** The keyboard's own report descriptor, as a keyboard that was just plugged in serves it. */
function ownDescriptor() {
    const device = new Device(2), bytes = [];
    device.setup([0x81, 6, 0, 0x22, 0, 0, 0xff, 0]);
    for (let answer = device.in(); answer.kind === "data"; answer = device.in()) {
        bytes.push(...answer.bytes);
        if (answer.bytes.length < 8) break;
    }
    return Uint8Array.from(bytes);
}
