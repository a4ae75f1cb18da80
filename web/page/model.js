// What the page shows: which view, layer and key, which keyboard, and who is told when it changes.

import { afterCommand, codeName } from "./codes.js";
import { LAYERS, KEYS, entryOf } from "./device.js";
import { Refused } from "./bytes.js";
import { SimKeyboard } from "./keyboards.js";
import { LAYOUTS } from "./layouts.js";
import { PICTURES } from "./pictures.js";

/** @typedef {"play" | "configure" | "describe"} View */
/** @typedef {SimKeyboard | import("./keyboards.js").HidKeyboard} AnyKeyboard */

/** The entries of a layer, or of all. */
const entriesOf = (operation, layer) => {
    const all = Array.from({ length: LAYERS * KEYS }, (_, at) => at);
    return operation === 3 ? all : all.filter((at) => Math.floor(at / KEYS) === layer);
};

export class Model {
    /** @param {import("./session.js").Session} session */
    constructor(session) {
        this.session = session;
        this.simulated = new SimKeyboard(session);
        /** The keyboard that Configure sets. @type {AnyKeyboard} */
        this.keyboard = this.simulated;
        /** @type {View} */
        this.view = "play";
        /** @type {"set" | "type" | "script"} */
        this.tab = "set";
        this.layer = 0;
        this.key = 0;
        this.layoutName = "US";
        this.picture = PICTURES[0];
        /** Keys held by the mouse, held until they are pressed again, and held on the user's own keyboard. */
        this.held = new Set();
        this.latched = new Set();
        this.typed = new Set();
        /** What is down after each change that the keyboard has not seen yet, and what it saw last. @type {Set<number>[]} */
        this.moments = [];
        this.seen = new Set();
        /** Entries whose command waits for its confirmation. */
        this.waiting = new Set();
        /** The keymap that was read from a keyboard on USB, as far as it was. */
        this.read = new Uint16Array(LAYERS * KEYS);
        /** What each command changed: entries with the codes before it. @type {[number, number][][]} */
        this.undos = [];
        this.says = { text: "", kind: "" };
        /** @type {(() => void)[]} */
        this.listeners = [];
        this.due = false;
    }
    get layout() {
        return LAYOUTS[this.layoutName];
    }
    /** The keyboard that a command goes to. */
    get target() {
        return this.view === "configure" ? this.keyboard : this.simulated;
    }
    /** The keymap that is shown. */
    get keymap() {
        return this.target.simulated ? this.session.bench.device.keymap() : this.read;
    }
    /** Whether a key of the picture is chosen by a click, and not pressed. */
    get choosing() {
        return this.view === "configure" || this.tab === "set";
    }
    /** All keys that are down. */
    get down() {
        return new Set([...this.held, ...this.latched, ...this.typed]);
    }
    /** Calls back after each change. */
    on(listener) {
        this.listeners.push(listener);
    }
    /** Something changed: it is drawn with the next frame. */
    changed() {
        if (this.due) return;
        this.due = true;
        requestAnimationFrame(() => this.draw());
    }
    draw() {
        this.due = false;
        for (const listener of this.listeners) listener();
    }
    /**
     * Says a sentence under the picture.
     * @param {string} text
     * @param {"" | "good" | "bad"} [kind]
     */
    say(text, kind = "") {
        this.says = { text, kind };
        this.changed();
    }
    /** Runs what may refuse: the sentence is shown. @returns {Promise<boolean>} whether it was done */
    async attempt(what, act) {
        try {
            await act();
            return true;
        } catch (refused) {
            if (!(refused instanceof Refused)) throw refused;
            this.say(`${what}: ${refused.message}.`, "bad");
            return false;
        }
    }
    /** Keys went down or up. */
    moved() {
        this.moments.push(this.down);
        this.changed();
    }
    /** The keys of the next tick: each change is one tick of its own, in order, however late the clock is. */
    moment() {
        this.seen = this.moments.shift() ?? this.seen;
        return this.seen;
    }
    release() {
        for (const keys of [this.held, this.latched, this.typed]) keys.clear();
        this.moments = [];
        this.moved();
    }
    /**
     * Sends a command and says when it is confirmed, or why it was refused.
     * @param {string} text what it does
     * @param {number} operation
     * @param {{keep?: boolean}} [options] `keep`: whether it can be undone
     * @returns {Promise<boolean>} whether it was confirmed
     */
    async command(text, operation, layer, key = 0, code = 0, { keep = true } = {}) {
        const { target } = this, before = this.keymap.slice();
        const entries = operation === 1 ? [entryOf(layer, key)] : entriesOf(operation, layer);
        for (const at of entries) this.waiting.add(at);
        this.say(`${text} …`);
        const done = await this.attempt(text, () => target.command(operation, layer, key, code));
        for (const at of entries) this.waiting.delete(at);
        this.changed();
        if (!done) return false;
        const now = afterCommand(before, operation, layer, key, code);
        if (!target.simulated) for (const at of entries) this.read[at] = now[at];
        const changes = entries.filter((at) => before[at] !== now[at]).map((at) => /** @type {[number, number]} */ ([at, before[at]]));
        if (keep && changes.length) this.undos.push(changes);
        this.say(`${text}: confirmed.`, "good");
        return true;
    }
    /** Takes back the last command, entry by entry. */
    async undo() {
        const changes = this.undos.pop() ?? [];
        for (const [at, code] of changes) {
            const [layer, key] = [Math.floor(at / KEYS), at % KEYS];
            if (!(await this.command(`Set key ${key} on layer ${layer} back to ${codeName(code)}`, 1, layer, key, code, { keep: false }))) return;
        }
    }
    /**
     * Reads all entries of a keyboard, each by its own transfer.
     * @param {AnyKeyboard} target
     * @param {(count: number) => void} progress
     * @returns {Promise<Uint16Array | null>} null where it refused
     */
    async readAll(target, progress) {
        const keymap = new Uint16Array(LAYERS * KEYS);
        const done = await this.attempt("Reading", async () => {
            for (let at = 0; at < keymap.length; at++) {
                keymap[at] = await target.read(Math.floor(at / KEYS), at % KEYS);
                progress(at + 1);
            }
        });
        if (!done) return null;
        if (!target.simulated) this.read = keymap;
        this.changed();
        return keymap;
    }
    /** Takes another keyboard for Configure. */
    use(keyboard) {
        this.keyboard = keyboard;
        this.undos = [];
        this.changed();
    }
}
