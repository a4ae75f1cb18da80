// The image of the flash: saved, loaded, compared with another.

import { counted } from "./bytes.js";
import { $, chooser, download, fill, set } from "./dom.js";
import { Device, LAYERS, KEYS, PAGE, SLOT } from "./device.js";

const LEAST = 2 * PAGE, MOST = 8 * PAGE;

/** What is wrong with the size of an image, or nothing. */
const wrongSize = (bytes) => (bytes.length % PAGE || bytes.length < LEAST || bytes.length > MOST
    ? `it has ${bytes.length.toLocaleString("en")} bytes, and an image has 2 to 8 pages of ${PAGE.toLocaleString("en")}` : "");

/**
 * @param {import("./model.js").Model} model
 * @param {{compare: (image: Uint8Array | null) => void}} flash
 * @param {(on: number | Uint8Array, paired?: boolean) => void} start
 */
export function imageView(model, flash, start) {
    const { session } = model;
    const say = (text, kind = "") => set($("image-said"), { textContent: text, className: `said ${kind}` });
    fill($("blank-pages"), [2, 3, 4, 5, 6, 7, 8].map((pages) => /** @type {[string, string]} */ ([String(pages), `${pages} blank pages`])));
    $("start-blank").addEventListener("click", () => {
        start(Number($("blank-pages").value), session.paired);
        say("It started on a blank flash.");
    });
    $("image-save").addEventListener("click", () => {
        download("flash.img", session.bench.device.image().slice(), "application/octet-stream");
        say("The image was given to the browser.");
    });
    const load = (bytes, name) => {
        const wrong = wrongSize(bytes);
        if (wrong) return say(`${name}: ${wrong}. Nothing was changed.`, "bad");
        start(bytes);
        say(`${name}: it started on this image.`, "good");
    };
    const compare = (bytes, name) => {
        const image = session.bench.device.image(), wrong = wrongSize(bytes);
        if (wrong || bytes.length !== image.length) {
            flash.compare(null);
            return say(`${name}: ${wrong || `it has ${bytes.length / PAGE} pages, and this flash ${image.length / PAGE}`}. Nothing is compared.`, "bad");
        }
        let slots = 0;
        for (let at = 0; at < image.length; at += SLOT) slots += Number(image.subarray(at, at + SLOT).some((byte, n) => byte !== bytes[at + n]));
        const ours = session.bench.device.keymap(), theirs = new Device(bytes).keymap();
        const entries = ours.filter((code, at) => code !== theirs[at]).length;
        flash.compare(slots ? bytes : null);
        say(slots ? `${name}: ${counted(slots, "slot")} and ${entries} of ${LAYERS * KEYS} entries differ; the slots are underlined.` : `${name}: it is the same.`, slots ? "" : "good");
    };
    const refuse = (why) => say(why, "bad");
    $("image-load").addEventListener("click", () => $("image-file").click());
    $("image-compare").addEventListener("click", () => $("compare-file").click());
    chooser($("image-file"), load, refuse);
    chooser($("compare-file"), compare, refuse);
}
