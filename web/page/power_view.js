// The power switch, cuts inside a flash operation, and how the flash works.

import { Refused, bytesHex, fromHex } from "./bytes.js";
import { CELLS, SLOT } from "./device.js";
import { $, fill, set } from "./dom.js";

const OWN = "own";
/** What takes effect of a torn operation, with its mask: of a slot, and of the 64 cells of a unit and the 8 of its check. @type {[string, string][][]} */
const MASKS = [[
    ["-", "nothing of it"], ["ffffffff00000000", "the word, not its complement"], ["00000000ffffffff", "the complement, not the word"],
    ["55", "every second bit"], ["ffffffffffffff00", "all but the last byte"], ["ff", "all of it"], [OWN, "a mask of your own"],
], [
    ["-", "nothing of it"], ["ffffffffffffffff00", "the data, not their check"], ["0000000000000000ff", "the check, not the data"],
    ["55", "every second cell"], ["ffffff7fffffffffff", "all but one cell"], ["ff", "all of it"], [OWN, "a mask of your own"],
]];

/** @param {import("./model.js").Model} model */
export function powerView(model) {
    const { session } = model;
    const choose = () => {
        const own = $("mask").value === OWN;
        $("mask-hex").value = own ? bytesHex(crypto.getRandomValues(new Uint8Array(session.paired ? CELLS : SLOT))) : $("mask").value;
        set($("mask-hex"), { readOnly: !own });
    };
    const kind = () => {
        const masks = MASKS[Number(session.paired)];
        set($("unit"), { disabled: !session.paired });
        if ($("mask").options[1]?.value === masks[1][0]) return;
        fill($("mask"), masks);
        $("mask").value = masks[1][0];
        choose();
    };
    $("mask").addEventListener("change", choose);
    session.starters.push(kind);
    kind();

    function mask() {
        const text = $("mask-hex").value.trim(), bytes = text === "-" ? new Uint8Array() : fromHex(text);
        if (!bytes || bytes.length > 4096 || text === "") throw new Refused("it is no hex of 1 to 4,096 bytes, nor a -");
        return bytes;
    }
    $("cut").addEventListener("click", () => {
        session.bench.cut();
        model.changed();
    });
    $("cut-inside").addEventListener("click", () => model.attempt("The mask", () => {
        if (session.armed) {
            session.armed = null;
            model.say("The next write is not cut.");
        } else if (session.ledger.pending) session.cutInside(mask(), Number($("unit").value));
        else {
            session.armed = [mask(), Number($("unit").value)];
            model.say("Now set a key: the power goes inside its write.");
        }
        model.changed();
    }));
    model.on(() => set($("cut-inside"), { "aria-pressed": session.armed !== null }));
    $("bus-reset").addEventListener("click", () => {
        session.bench.reset();
        model.changed();
    });
    $("speed").addEventListener("change", () => {
        session.speed = $("speed").value;
        set($("step"), { disabled: session.speed !== "hand" });
    });
    $("step").addEventListener("click", () => {
        if (session.bench.work() === "idle") model.say("No command works: nothing is to be written.");
        model.changed();
    });
}
