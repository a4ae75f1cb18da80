// Scripts, and the repository's examples: a step, a step back, and a run.

import { examples } from "./built.js";
import { $, fill, set } from "./dom.js";
import { counted } from "./bytes.js";
import { readScript } from "./script.js";
import { imageOfSlots } from "./slots.js";

const LINE = 18, PADDING = 8;

/** @param {import("./model.js").Model} model */
export function scriptView(model) {
    const { session } = model, area = $("script");
    let script = { at: 0, lines: /** @type {import("./script.js").Line[]} */ ([]), printed: /** @type {string[]} */ ([]) };
    const chosen = () => examples[$("examples").value];
    fill($("examples"), Object.keys(examples));

    /** Starts the keyboard and the script anew. */
    function start() {
        const slots = chosen()?.slots;
        model.release();
        session.start(slots ? imageOfSlots(slots) : 2);
        script = { at: 0, lines: [], printed: [] };
        let said = "";
        try {
            script.lines = readScript(area.value, session.bench.device.pages());
            said = `${counted(script.lines.length, "line")}, on a keyboard of its own with ${slots ? `the image ${$("examples").value}` : "a blank flash"}`;
        } catch (fault) {
            said = /** @type {Error} */ (fault).message;
        }
        set($("script-said"), { textContent: said, className: said.startsWith("fault") ? "said bad" : "said" });
        draw();
    }
    function step() {
        const line = script.lines[script.at];
        if (!line) return false;
        script.printed[line.number] = line.run(session.bench);
        script.at++;
        return true;
    }
    /** A run depends on its script alone, so a step back is a run that is one step shorter. */
    function back() {
        const at = script.at - 1;
        start();
        while (script.at < at) step();
        draw();
    }
    const current = () => (script.lines[script.at] ?? script.lines[script.at - 1])?.number ?? 1;
    function draw() {
        const next = script.lines[script.at], count = area.value.split("\n").length;
        set($("script-out"), { textContent: Array.from({ length: count }, (_, n) => script.printed[n + 1] ?? "").join("\n") });
        set($("script-back"), { disabled: script.at === 0 });
        set($("script-step"), { disabled: !next });
        set($("script-run"), { disabled: !next });
        const top = (current() - 1) * LINE - area.scrollTop;
        if (top < 0 || top > area.clientHeight - 3 * LINE) area.scrollTop = Math.max(0, (current() - 4) * LINE);
        scroll();
        model.changed();
    }
    function scroll() {
        $("script-out").scrollTop = area.scrollTop;
        const top = PADDING + (current() - 1) * LINE - area.scrollTop;
        $("script-line").style.top = `${top}px`;
        set($("script-line"), { hidden: script.lines.length === 0 || top < 0 || top > area.clientHeight });
    }
    area.addEventListener("scroll", scroll);
    area.addEventListener("input", start);
    const example = () => {
        area.value = chosen().text;
        area.scrollTop = 0;
        start();
    };
    $("examples").addEventListener("change", example);
    $("script-start").addEventListener("click", start);
    $("script-step").addEventListener("click", () => {
        step();
        draw();
    });
    $("script-back").addEventListener("click", back);
    $("script-run").addEventListener("click", () => {
        while (step());
        draw();
    });
    return {
        /** The script is shown, with a keyboard of its own, which stands still but for its lines. */
        shown() {
            if (session.paused) return;
            session.paused = true;
            session.swap();
            if (area.value) draw();
            else example();
        },
        /** It is left: the keyboard that was played with is there again, and its clock runs. */
        left() {
            if (!session.paused) return;
            session.paused = false;
            session.swap();
        },
    };
}
