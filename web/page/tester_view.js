// The key tester: what the computer gets of each key.

import { bytesHex } from "./bytes.js";
import { $, h, set } from "./dom.js";
import { takesKeys } from "./type_view.js";
import { usageName } from "./usages.js";

const SHOWN = 8, CONSUMER_REPORT = 2;

/** @param {import("./model.js").Model} model */
export function testerView(model) {
    const { session } = model, lines = [];
    const add = (what, more) => {
        lines.push([what, more]);
        while (lines.length > SHOWN) lines.shift();
        $("tester-log").replaceChildren(...lines.map(([one, other]) => h("li", {}, h("b", {}, one), ` ${other}`)));
    };
    const box = $("tester");
    takesKeys(model, box);
    session.seers.push((what, report, read) => {
        if (what === "poll" && model.view === "configure" && model.keyboard.simulated) add(read?.map(usageName).join(" + ") || "released", `report ${bytesHex(report).replace(/(0000)+$/, "…")}`);
    });
    /** Of a real keyboard the browser tells what the system made of its reports. */
    const pressed = (event) => {
        if (model.keyboard.simulated || event.key === "Tab") return;
        event.preventDefault();
        if (!event.repeat) add(event.type === "keydown" ? `${event.code} down` : `${event.code} up`, `types ${JSON.stringify(event.key)}`);
    };
    box.addEventListener("keydown", pressed);
    box.addEventListener("keyup", pressed);
    /** Of consumer keys browsers tell little; report 2 can be listened to, and is read by the keyboard's descriptor. */
    let heard = null;
    const consumer = (event) => {
        const { host } = session.bench;
        if (event.reportId !== CONSUMER_REPORT || !host.kept) return;
        const bytes = new Uint8Array(event.data.buffer, event.data.byteOffset, event.data.byteLength);
        const read = host.read(false, Uint8Array.of(CONSUMER_REPORT, ...bytes));
        add(read ? read.map(usageName).join(" + ") || "released" : "no report of this keyboard", "report 2");
    };
    model.on(() => {
        const device = model.keyboard.simulated ? null : /** @type {any} */ (model.keyboard).device;
        if (device !== heard) {
            heard?.removeEventListener?.("inputreport", consumer);
            device?.addEventListener?.("inputreport", consumer);
            heard = device;
        }
        const says = model.keyboard.simulated ? "Click here and press keys of your own keyboard: each presses the key of the simulated one that stands at its place." : `Click here and press keys of ${model.keyboard.name}.`;
        set($("tester-hint"), { textContent: says });
    });
    $("tester-clear").addEventListener("click", () => {
        lines.length = 0;
        $("tester-log").replaceChildren();
    });
}
