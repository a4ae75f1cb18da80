// The panel that sets a key: the codes by group, undo, and resets.

import { PALETTE, codeName, legend } from "./codes.js";
import { $, choices, h, roving, set } from "./dom.js";
import { entryOf } from "./device.js";
import { hex } from "./bytes.js";

/** @param {import("./model.js").Model} model */
export function setView(model) {
    const root = $("palette"), refresh = roving(root);
    let group = 0, drawn = "";
    choices($("groups"), PALETTE.map(([name]) => name), (n) => {
        group = n;
        draw();
    });

    const assign = (code) => {
        const { key, layer } = model;
        return model.command(`Set key ${key} on layer ${layer} to ${codeName(code)}`, 1, layer, key, code);
    };
    const button = (code) => h("button", {
        type: "button", "data-code": code, title: `${codeName(code)} (${hex(code, 4)}h)`, "aria-label": codeName(code), onclick: () => assign(code),
    }, legend(code, model.layout));

    function draw() {
        const own = model.keymap[entryOf(model.layer, model.key)];
        set($("chosen"), { textContent: `Key ${model.key} on layer ${model.layer}: ${codeName(own)}` });
        set($("undo"), { disabled: model.undos.length === 0 });
        const wanted = `${group} ${model.layoutName}`;
        if (wanted !== drawn) {
            drawn = wanted;
            root.replaceChildren(...PALETTE[group][1].map(button));
            refresh();
        }
        for (const one of root.children) set(one, { "aria-pressed": Number(one.dataset.code) === own });
    }
    $("undo").addEventListener("click", () => model.undo());
    $("reset-layer").addEventListener("click", () => model.command(`Reset layer ${model.layer}`, 2, model.layer));
    $("reset-all").addEventListener("click", () => model.command("Reset all layers", 3, 0));
    model.on(draw);
    draw();
}
