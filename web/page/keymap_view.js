// The whole keymap: read, saved as a file, loaded from one.

import { Refused } from "./bytes.js";
import { $, chooser, download, set } from "./dom.js";
import { KEYS } from "./device.js";
import { codeName } from "./codes.js";
import { keymapText, readKeymap } from "./keymap_file.js";

/** @param {import("./model.js").Model} model */
export function keymapView(model) {
    /** A load that did not come to its end: the keymap that is wanted, and the file's name. @type {{wanted: Uint16Array, name: string} | null} */
    let unfinished = null;
    const progress = (text, part = 0) => {
        set($("progress-text"), { textContent: text });
        set($("progress"), { value: part });
    };
    const draw = () => set($("resume"), { disabled: unfinished === null, textContent: unfinished ? `Go on with ${unfinished.name}` : "Go on with a load" });

    async function readAll() {
        const from = performance.now();
        const keymap = await model.readAll(model.keyboard, (count) => progress(`${count} of 384 entries read`, count / 384));
        progress(keymap ? `384 entries read in ${Math.round(performance.now() - from).toLocaleString("en")} ms` : "Not all entries were read", keymap ? 1 : 0);
        return keymap;
    }
    /** Sends what differs, by rising layer and key, each once the one before is confirmed. */
    async function send(wanted, name) {
        unfinished = { wanted, name };
        draw();
        const now = await readAll();
        if (!now) return false;
        const entries = [...wanted.keys()].filter((at) => now[at] !== wanted[at]);
        for (const [done, at] of entries.entries()) {
            const [layer, key, code] = [Math.floor(at / KEYS), at % KEYS, wanted[at]];
            progress(`${done} of ${entries.length} changes confirmed`, done / entries.length);
            if (await model.command(`Set key ${key} on layer ${layer} to ${codeName(code)}`, 1, layer, key, code)) continue;
            const why = model.says.text;
            model.say(`${why} ${done} of ${entries.length} changes of ${name} were confirmed; "Go on" sends the rest.`, "bad");
            return false;
        }
        unfinished = null;
        draw();
        progress(`${entries.length} of ${entries.length} changes confirmed`, 1);
        model.say(entries.length ? `${name} is loaded: ${entries.length} entries were changed, and each was confirmed.` : `${name} is what the keyboard has already: nothing was sent.`, "good");
        return true;
    }
    async function load(bytes, name) {
        let wanted;
        try {
            wanted = readKeymap(bytes);
        } catch (refused) {
            if (!(refused instanceof Refused)) throw refused;
            return model.say(`${name} is no keymap: ${refused.message}. Nothing was sent.`, "bad");
        }
        await send(wanted, name);
    }
    $("read-all").addEventListener("click", readAll);
    $("save").addEventListener("click", async () => {
        const keymap = await readAll();
        if (keymap) download("keymap.json", keymapText(keymap), "application/json");
    });
    $("load").addEventListener("click", () => $("load-file").click());
    chooser($("load-file"), load, (why) => model.say(why, "bad"));
    $("resume").addEventListener("click", () => unfinished && send(unfinished.wanted, unfinished.name));
    draw();
    return {
        load,
        /** A keyboard was connected: its keymap is read. */
        async connected() {
            if (await readAll()) model.say(`${model.keyboard.name} is connected.${unfinished ? ` ${unfinished.name} was not loaded to its end: "Go on" sends the rest.` : ""}`, "good");
        },
    };
}
