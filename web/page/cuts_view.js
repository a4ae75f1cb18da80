// "Try every cut of a change": how many cuts there were, what came of each, and a picture of them.

import { CHANGES, copied, everyCut, masks, prepared } from "./cuts.js";
import { $, fill, set } from "./dom.js";
import { counted } from "./bytes.js";

const WAYS = 32, SLICE_MS = 12, TALL = 3;
const COLOURS = { before: "--slot-oldheader", after: "--slot-live", lost: "--slot-spoiled" };

const number = (count) => count.toLocaleString("en");

/** Draws a column for each write, and in it a cell for each way that it was torn. */
function draw(canvas, { columns }) {
    const style = getComputedStyle(canvas), wide = Math.max(1, Math.min(8, Math.floor(388 / columns.length)));
    Object.assign(canvas, { width: columns.length * wide, height: WAYS * TALL });
    const g = canvas.getContext("2d");
    columns.forEach((column, x) => column.forEach((came, y) => {
        g.fillStyle = style.getPropertyValue(COLOURS[came]);
        g.fillRect(x * wide, y * TALL, wide > 2 ? wide - 1 : wide, TALL - 1);
    }));
}

/** @param {import("./model.js").Model} model */
export function cutsView(model) {
    fill($("change"), [["chosen", "the chosen key, now"], ...Object.entries(CHANGES).map(([kind, { name }]) => /** @type {[string, string]} */ ([kind, name]))]);
    const say = (text, kind = "") => set($("tried"), { textContent: text, className: `tried ${kind}` });
    let last = null;
    $("try").addEventListener("click", async () => {
        set($("try"), { disabled: true });
        const kind = $("change").value;
        const { paired } = model.session;
        const [device, entry] = kind === "chosen" ? copied(model.session.bench.device, model.layer, model.key) : prepared(kind, paired);
        let until = performance.now() + SLICE_MS;
        const outcome = await everyCut(device, entry, masks(WAYS, paired), async (writes) => {
            if (performance.now() < until) return;
            say(`${number(writes * WAYS)} cuts …`);
            await new Promise((done) => setTimeout(done));
            until = performance.now() + SLICE_MS;
        });
        set($("try"), { disabled: false });
        if (!outcome) return say("The keyboard takes no command now.", "bad");
        last = outcome;
        const { before, after, lost } = outcome.counts, writes = outcome.columns.length;
        draw($("tries"), outcome);
        const told = `${counted(writes, "write")}, ${number(before + after + lost)} cuts: ${number(before)} as before, ${number(after)} as after, ${number(lost)} lost.`;
        set($("tries"), { "aria-label": `A column for each write, a cell for each way that it was torn. ${told}` });
        say(told, lost ? "bad" : "good");
    });
    matchMedia("(prefers-color-scheme: dark)").addEventListener("change", () => last && draw($("tries"), last));
}
