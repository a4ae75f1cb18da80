// The picture of the keys.

import { LAYER, TRANSPARENT, codeName, defaultCode, legend } from "./codes.js";
import { $, choices, chooser, fill, h, roving, set } from "./dom.js";
import { entryOf } from "./device.js";
import { corners, readPicture } from "./kle.js";
import { LAYOUTS } from "./layouts.js";
import { PICTURES } from "./pictures.js";
import { Refused } from "./bytes.js";

const GAP = 0.06;
/** The widest picture, in keys, that a phone shows as a whole: its keys are higher then. */
const WIDEST = 15;

/** How small a legend stands on a key of this width, so that no word of it is broken. */
function sizesOf(text, wide) {
    const words = text.split(/\s+/), longest = Math.max(...words.map((word) => word.length - (word.match(/[ijl]/g)?.length ?? 0) / 2)) / wide;
    const tiny = longest >= 6.5 || words.length > 3 * wide;
    return { tiny, small: !tiny && (longest > 5 || words.length > 2 * wide) };
}

/** @param {import("./model.js").Model} model */
export function keysView(model) {
    const root = $("keyboard"), refresh = roving(root);
    let more = "";
    choices($("layers"), [0, 1, 2, 3].map((layer) => `Layer ${layer}`), (layer) => {
        model.layer = layer;
        model.changed();
    });
    fill($("host-layout"), Object.keys(LAYOUTS));
    $("host-layout").addEventListener("change", () => {
        model.layoutName = $("host-layout").value;
        model.changed();
    });
    const pictures = [...PICTURES];
    const offer = (chosen) => {
        fill($("picture"), [...pictures.map((picture, n) => /** @type {[string, string]} */ ([String(n), picture.name])), ["file", "From a file…"]]);
        $("picture").value = String(chosen);
        model.picture = pictures[chosen];
        frame();
    };
    $("picture").addEventListener("change", () => {
        if ($("picture").value !== "file") return offer(Number($("picture").value));
        $("picture").value = String(pictures.indexOf(model.picture));
        $("picture-file").click();
    });
    const take = (bytes, name) => {
        try {
            pictures.push(readPicture(new TextDecoder().decode(bytes), name.replace(/\.json$/i, "").slice(0, 24)));
        } catch (refused) {
            if (!(refused instanceof Refused)) throw refused;
            return model.say(`The picture ${name}: ${refused.message}.`, "bad");
        }
        offer(pictures.length - 1);
        model.say(`The picture ${name} is shown.`, "good");
    };
    chooser($("picture-file"), take, (why) => model.say(why, "bad"));

    function frame() {
        const { keys } = model.picture;
        const all = keys.flatMap(corners);
        const width = Math.max(...all.map(([x]) => x)), height = Math.max(...all.map(([, y]) => y));
        const field = h("div", { class: "field" });
        const fits = width <= WIDEST && !keys.some(({ turn }) => turn);
        field.classList.toggle("fits", fits);
        field.style.setProperty("--shape", String(width / height));
        field.style.minWidth = fits ? "" : `${Math.min(width * 40, 720)}px`;
        field.append(...keys.map(({ key, x, y, w, h: tall, turn }) => {
            const button = h("button", { type: "button", "data-key": key, "data-wide": w, onpointerdown: (event) => press(event, key), onclick: (event) => click(event, key) });
            const part = (number, of) => `${((number / of) * 100).toFixed(4)}%`;
            Object.assign(button.style, { left: part(x, width), top: part(y, height), width: part(w - GAP, width), height: part(tall - GAP, height) });
            if (turn) Object.assign(button.style, { transform: `rotate(${turn[0]}deg)`, transformOrigin: `${part(turn[1] - x, w - GAP)} ${part(turn[2] - y, tall - GAP)}` });
            return button;
        }));
        root.replaceChildren(field);
        refresh();
        measure();
    }
    /** Says how the keys are reached that a narrow window has no room for. */
    function measure() {
        more = root.scrollWidth > root.clientWidth ? " Swipe for the keys at its right." : "";
        draw();
    }
    addEventListener("resize", measure);

    /** By the mouse a key is down while the button is; with Shift it stays down until it is clicked again. */
    function press(event, key) {
        if (model.choosing || event.button !== 0) return;
        if (event.shiftKey) {
            if (!model.latched.delete(key)) model.latched.add(key);
        } else {
            model.latched.delete(key);
            model.held.add(key);
        }
        model.moved();
    }
    const letGo = () => {
        if (!model.held.size) return;
        model.held.clear();
        model.moved();
    };
    addEventListener("pointerup", letGo);
    addEventListener("pointercancel", letGo);
    /** A click by the keyboard (Enter, Space) has no pointer before it. */
    function click(event, key) {
        if (model.choosing) {
            model.key = key;
            model.changed();
        } else if (event.detail === 0) {
            model.held.add(key);
            model.moved();
            letGo();
        }
    }

    /** What a key gives on the layer that is shown: its own code, or that of the layer below. */
    function through(keymap, key) {
        let { layer } = model;
        while (keymap[entryOf(layer, key)] === TRANSPARENT && layer > 0) layer--;
        return keymap[entryOf(layer, key)];
    }
    function draw() {
        const { keymap, down, layer, layout } = model;
        for (const button of root.querySelectorAll("button")) {
            const key = Number(button.dataset.key), own = keymap[entryOf(layer, key)], textContent = legend(through(keymap, key), layout);
            const classes = {
                ...sizesOf(textContent, Number(button.dataset.wide)),
                through: own === TRANSPARENT, changed: own !== defaultCode(layer, key), layer: own > LAYER, down: down.has(key),
                waiting: model.waiting.has(entryOf(layer, key)), chosen: model.choosing && model.key === key,
            };
            const className = Object.keys(classes).filter((name) => classes[name]).join(" ");
            const says = `Key ${key}, layer ${layer}: ${codeName(own)}`;
            set(button, { className, textContent, title: says, "aria-label": says, "aria-pressed": model.choosing ? model.key === key : down.has(key) });
        }
        set($("message"), { textContent: model.says.text, className: `message ${model.says.kind}` });
        set($("keys-hint"), { textContent: `${model.choosing ? "Choose a key, then what it is." : "Press keys with the mouse; Shift and a click holds one down."}${more}` });
    }
    model.on(draw);
    offer(innerWidth < 640 ? 2 : 0);
}
