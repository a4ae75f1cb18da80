// Which flash the keyboard stands on: plain, or with error correction; and what is said of it.

import { $, choices, set } from "./dom.js";

const NOTES = [
    "Each slot takes one write, of a word beside its complement. A torn one is passed over, and never reads as another word.",
    "Each slot takes two write units. A torn unit reads as an error or as less, never as another word. Scripts and images are of plain flash.",
];
const OF_PLAIN = "Images are of plain flash alone.";

/**
 * @param {import("./model.js").Model} model
 * @returns {(on: number | Uint8Array, paired?: boolean) => void} starts the keyboard anew
 */
export function flashKind(model) {
    const { session } = model;
    const start = (on, paired = false) => {
        model.release();
        session.start(on, paired);
        session.bench.enumerate();
        model.undos = [];
        model.changed();
    };
    const mark = choices($("flash-kind"), ["Plain", "With error correction"], (n) => {
        start(session.bench.device.pages(), n === 1);
        model.say(`The keyboard started anew, on a blank flash ${n ? "with error correction" : "without error correction"}.`);
    });
    const show = () => {
        const { paired } = session;
        mark(Number(paired));
        set($("flash-note"), { textContent: NOTES[Number(paired)] });
        set($("flash-legend"), { className: paired ? "legend paired" : "legend" });
        set($("legend-spoiled"), { textContent: paired ? "an error" : "cut off" });
        for (const id of ["image-save", "image-load", "image-compare"]) set($(id), { disabled: paired, title: paired ? OF_PLAIN : "" });
        set($("image-said"), { textContent: paired ? OF_PLAIN : "", className: "said" });
    };
    session.starters.push(show);
    show();
    // A script runs on plain flash.
    model.on(() => set($("flash-kind").lastChild, { disabled: session.paused }));
    return start;
}
