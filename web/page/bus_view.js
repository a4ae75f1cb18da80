// What happens on the bus and to the power, a line for each event, packets by their names.

import { bytesHex } from "./bytes.js";
import { $, h } from "./dom.js";
import { featureName, reason, setupName } from "./packets.js";
import { usageName } from "./usages.js";

const SHOWN = 200;

/** What an answer says. */
const told = (said) => (said.kind === "stall" ? `stall: ${reason(said.why)}` : said.kind);
const short = (bytes) => bytesHex(bytes).replace(/(0000)+$/, " 0000…");

/**
 * The line of an event: who, what, what came of it, and how it went.
 * @returns {[string, string, string, "" | "good" | "bad"]}
 */
function lineOf(what, bytes, said) {
    switch (what) {
        case "host": return ["host", "reads the report descriptor, SET_IDLE 0", "", ""];
        case "setup": return ["setup", setupName(bytes), told(said), ""];
        case "out": return ["out", featureName(bytes) || bytesHex(bytes) || "empty packet", told(said), said.kind === "stall" ? "bad" : ""];
        case "in": {
            if (said.kind === "data") return ["in", bytesHex(said.bytes) || "empty packet", said.bytes.length ? "data" : "done", said.bytes.length ? "" : "good"];
            return ["in", "asks", told(said), said.kind === "stall" ? "bad" : ""];
        }
        case "poll": return ["poll", short(bytes), said === null ? "unread" : said.map(usageName).join(" + ") || "nothing pressed", ""];
        case "work": return ["flash", bytes ? `a step, torn by ${bytesHex(bytes) || "-"}` : "a step", said, said === "failed" ? "bad" : ""];
        case "cut": return ["power", bytes ? `cut inside a flash operation, mask ${bytesHex(bytes).slice(0, 32) || "-"}` : "cut", "restart", "bad"];
        default: return ["bus", "reset", "", ""];
    }
}

/** The lines of a keyboard: those that are to be shown yet, those that are, and the last one of each report. */
class Log {
    constructor() {
        this.lines = [];
        this.last = null;
        /** @type {Element[]} */
        this.shown = [];
        /** @type {Map<number, any>} */
        this.polls = new Map();
        this.add("power", "on", "", "");
    }
    /**
     * Adds a line, or counts it once more: an answer that says "not yet", or a report of so many bytes, which are as many as no other
     * report has, that says what the last one of them did.
     */
    add(way, what, said, kind, report = 0) {
        const { last } = this;
        const same = (one) => one && one.way === way && one.what === what && one.said === said;
        const older = report ? this.polls.get(report) : (said === "nak" || said === "working") && last;
        if (same(older)) {
            older.count++;
            if (older.element) older.element.lastChild.textContent = saidOf(older);
            return;
        }
        this.lines.push((this.last = { way, what, said, kind, count: 1, element: null }));
        if (report) this.polls.set(report, this.last);
        else if (way !== "flash") this.polls.clear();
    }
}
const saidOf = (line) => (line.count > 1 ? `${line.count} × ${line.said}` : line.said);
const made = (line) => (line.element = h("div", { role: "listitem", class: line.kind },
    h("span", { class: "way" }, line.way), h("span", { class: "what", title: line.what }, line.what), h("span", { class: "said", title: line.said }, saidOf(line))));

/** @param {import("./model.js").Model} model */
export function busView(model) {
    const { session } = model, root = $("log");
    /** @type {WeakMap<import("./bench.js").Bench, Log>} */
    const logs = new WeakMap();
    const logOf = (bench) => {
        if (!logs.has(bench)) logs.set(bench, new Log());
        return logs.get(bench);
    };
    let log = logOf(session.bench);
    session.seers.push((what, bytes, said) => {
        log.add(...lineOf(what, bytes, said), what === "poll" ? bytes.length : 0);
        model.changed();
    });
    session.starters.push(() => {
        log.shown = [...root.children];
        log = logOf(session.bench);
        root.replaceChildren(...log.shown);
        root.scrollTop = root.scrollHeight;
        model.changed();
    });
    model.on(() => {
        if (!log.lines.length) return;
        const atEnd = root.scrollHeight - root.scrollTop - root.clientHeight < 40;
        root.append(...log.lines.slice(-SHOWN).map(made));
        log.lines = [];
        while (root.childElementCount > SHOWN) root.firstChild.remove();
        if (atEnd) root.scrollTop = root.scrollHeight;
    });
}
