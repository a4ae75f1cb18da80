// The ledger in a few words.

import { $, set } from "./dom.js";
import { counted } from "./bytes.js";

const LEFT = { "": "", before: " What was under way is not there, and nothing else changed.", after: " What was under way is there as a whole." };

/** @param {import("./model.js").Model} model */
export function ledgerView(model) {
    model.on(() => {
        const { ledger } = model.session;
        const [state, mark, head] = ledger.broken
            ? ["bad", "✗", "The keymap is not what the computer was told"]
            : ledger.pending
              ? ["wait", "…", "Writing: not confirmed yet"]
              : ledger.commands || ledger.cuts
                ? ["good", "✓", ledger.confirmed ? `${counted(ledger.confirmed, "change")} confirmed, all of it is there` : "Nothing was lost"]
                : ["good", "○", "Set a key, then cut the power"];
        const more = ledger.broken
            ? `After ${ledger.broken === "work" ? "a step of the flash work" : `a ${ledger.broken}`}.`
            : ledger.pending
              ? "Cut the power now: it will be there as a whole, or not at all."
              : ledger.commands || ledger.cuts
                ? `${counted(ledger.cuts, "power cut")}; compared ${counted(ledger.checks, "time")}.${LEFT[ledger.left]}`
                : "After each event this card says whether all that was confirmed is there.";
        set($("ledger"), { className: `card ledger ${state}` });
        set($("ledger-mark"), { textContent: mark });
        set($("ledger-head"), { textContent: head });
        set($("ledger-more"), { textContent: more });
    });
}
