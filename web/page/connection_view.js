// Which keyboard is configured: one on USB by WebHID, or the simulated one.

import { Refused, hex } from "./bytes.js";
import { $, h, set } from "./dom.js";
import { FILTER, HidKeyboard, Unopened } from "./keyboards.js";

const RULES = "/etc/udev/rules.d/70-wuzhikar.rules";

/** What the page says of the browser and of where it was opened from. */
export function situation(hid, protocol) {
    if (!hid) return "This browser has no WebHID (Chrome, Edge and Opera have it), so the simulated keyboard stands here. All works on it but the cable.";
    const back = "A keyboard with a serial number that you once chose comes back by itself; for one without the browser may ask anew.";
    return protocol === "file:" ? `${back} A choice from a file is for all files.` : back;
}

/** The rule by which udev lets the user at the machine open a device. */
export const udevRule = (vendor, product) =>
    `KERNEL=="hidraw*", SUBSYSTEM=="hidraw", ATTRS{idVendor}=="${hex(vendor, 4).toLowerCase()}", ATTRS{idProduct}=="${hex(product, 4).toLowerCase()}", TAG+="uaccess"`;

/**
 * @param {import("./model.js").Model} model
 * @param {{connected: () => Promise<void>}} keymap
 */
export function connectionView(model, keymap) {
    const hid = /** @type {any} */ (navigator).hid;
    /** Whether a device has the report of FILTER. */
    const fits = (device) => device.collections?.some((one) => one.usagePage === FILTER.usagePage && one.usage === FILTER.usage) ?? false;

    function draw() {
        const { keyboard } = model;
        set($("device"), { textContent: model.view === "configure" ? keyboard.name : model.simulated.name, className: `device ${model.waiting.size ? "busy" : ""}` });
        set($("which"), { textContent: keyboard.simulated ? "These are the keys of the simulated keyboard. Connect a real one to set its keys." : `These are the keys of ${keyboard.name}, on USB.` });
        set($("connect"), { textContent: keyboard.simulated ? "Connect a keyboard…" : "Back to the simulated one", disabled: keyboard.simulated && !hid });
        set($("situation"), { textContent: situation(hid, location.protocol) });
    }
    function shutOut(device, sentence) {
        set($("udev"), { hidden: false });
        set($("udev-says"), { textContent: `${sentence}. On Linux, write this line into ${RULES}, run "udevadm control --reload", and plug the keyboard in again:` });
        set($("udev-rule"), { textContent: udevRule(device.vendorId ?? 0x1209, device.productId ?? 1) });
    }
    async function open(device) {
        set($("udev"), { hidden: true });
        try {
            model.use(await HidKeyboard.open(device));
        } catch (error) {
            if (!(error instanceof Refused)) throw error;
            if (error instanceof Unopened) shutOut(device, `${device.productName || "The keyboard"} was not opened: ${error.message}`);
            return model.say(`Connecting: ${error.message}.`, "bad");
        }
        model.say(`${model.keyboard.name}: reading its keymap …`);
        await keymap.connected();
    }
    async function ask() {
        let devices;
        try {
            devices = await hid.requestDevice({ filters: [FILTER] });
        } catch (error) {
            return model.say(`Connecting: the browser refused to ask (${error.name}).`, "bad");
        }
        if (devices.length) return open(devices[0]);
        model.say("Connecting: no keyboard was chosen. A keyboard that is missing in the browser's list has no feature report 3.", "bad");
    }
    $("connect").addEventListener("click", async () => {
        if (model.keyboard.simulated) return ask();
        const { device } = /** @type {HidKeyboard} */ (model.keyboard);
        model.use(model.simulated);
        await device.close?.();
        model.say("This is the simulated keyboard.");
    });
    model.on(draw);
    draw();
    if (!hid) return;

    hid.addEventListener("disconnect", ({ device }) => {
        const keyboard = /** @type {any} */ (model.keyboard);
        if (keyboard.device !== device) return;
        keyboard.gone = true;
        model.use(model.simulated);
        model.say(`${keyboard.name} was unplugged. What it confirmed is in its flash; plug it in again to go on.`, "bad");
    });
    // Only of devices that this page was granted; one that is plugged in again is another object.
    hid.addEventListener("connect", ({ device }) => {
        if (model.keyboard.simulated && fits(device)) open(device);
    });
    hid.getDevices().then((devices) => {
        const known = devices.find(fits);
        if (known && model.keyboard.simulated) open(known);
    });
}

/** The lines about what the rule opens. */
export const udevNote = () => h("p", { class: "dim" },
    "The rule lets every program of the user who is logged in at the machine read each key that is typed on this keyboard, set its keys, and wear out its flash (SECURITY.md). Remove the file when you are done, if that is too much.");
