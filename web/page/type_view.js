// What the computer types, and its LEDs; the user's own keyboard presses keys of the picture.

import { $, h, set } from "./dom.js";
import { keyOf } from "./pictures.js";
import { Typing } from "./typing.js";
import { usageName } from "./usages.js";

const LEDS = ["Num Lock", "Caps Lock", "Scroll Lock", "Compose", "Kana"];
const REPORT_CONSUMER = 2;

/**
 * Lets an element press keys of the picture by the user's own keyboard. Tab leaves it.
 * @param {import("./model.js").Model} model
 * @param {HTMLElement} element
 */
export function takesKeys(model, element) {
    element.addEventListener("keydown", (event) => {
        const key = keyOf(model.picture, event.code);
        if (event.key === "Tab" || key < 0) return;
        event.preventDefault();
        if (model.typed.has(key)) return;
        model.typed.add(key);
        model.moved();
    });
    element.addEventListener("keyup", (event) => {
        if (model.typed.delete(keyOf(model.picture, event.code))) model.moved();
    });
    element.addEventListener("blur", () => {
        model.typed.clear();
        model.moved();
    });
}

/** @param {import("./model.js").Model} model */
export function typeView(model) {
    const { session } = model;
    /** What the computer of each keyboard typed. @type {WeakMap<import("./bench.js").Bench, Typing>} */
    const typings = new WeakMap();
    let typing = new Typing();
    const start = () => {
        typing = typings.get(session.bench) ?? new Typing();
        typings.set(session.bench, typing);
    };
    session.starters.push(start);
    start();
    session.seers.push((what, report, read) => {
        if (what === "cut" || what === "reset") typing.before.clear();
        if (what !== "poll" || read === null) return;
        const page = report.length !== 8 && report[0] === REPORT_CONSUMER ? 0x0c : 0x07;
        const { leds } = typing;
        typing.take(read, page, model.layout);
        if (typing.leds !== leds && !session.paused) model.simulated.leds(typing.leds);
        model.changed();
    });
    $("leds").replaceChildren(...LEDS.map((name) => h("span", { class: "led" }, name)));
    takesKeys(model, $("screen"));
    $("clear").addEventListener("click", () => {
        typing.text = "";
        model.changed();
    });
    model.on(() => {
        set($("typed"), { textContent: typing.text });
        const names = typing.on.map(usageName).join(" + ");
        set($("reads"), { textContent: names ? `It reads: ${names}` : "It reads that nothing is pressed." });
        const lit = session.bench.device.leds();
        [...$("leds").children].forEach((led, n) => {
            const on = ((lit >> n) & 1) === 1;
            set(led, { className: on ? "led on" : "led", title: `${LEDS[n]} is ${on ? "on" : "off"}` });
        });
    });
}
