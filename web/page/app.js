// The page: its views, and how they stand together.

import { busView } from "./bus_view.js";
import { connectionView, udevNote } from "./connection_view.js";
import { cutsView } from "./cuts_view.js";
import { describeView } from "./describe_view.js";
import { $, choices, set } from "./dom.js";
import { flashKind } from "./flash_kind.js";
import { flashView } from "./flash_view.js";
import { imageView } from "./image_view.js";
import { keymapView } from "./keymap_view.js";
import { keysView } from "./keys_view.js";
import { ledgerView } from "./ledger_view.js";
import { Model } from "./model.js";
import { powerView } from "./power_view.js";
import { scriptView } from "./script_view.js";
import { Session } from "./session.js";
import { setView } from "./set_view.js";
import { testerView } from "./tester_view.js";
import { typeView } from "./type_view.js";

/** The clock of the simulated keyboard: a tick is ten scans and a poll. */
const TICK_MS = 10;

const VIEWS = /** @type {const} */ (["play", "configure", "describe"]);
const TABS = /** @type {const} */ (["set", "type", "script"]);

export const session = new Session();
export const model = new Model(session);
session.keys = () => model.moment();
session.seers.push(() => model.changed());

keysView(model);
setView(model);
typeView(model);
busView(model);
ledgerView(model);
const flash = flashView(model);
powerView(model);
cutsView(model);
imageView(model, flash, flashKind(model));
const script = scriptView(model);
const keymap = keymapView(model);
connectionView(model, keymap);
testerView(model);
describeView();
$("udev").append(udevNote());

/** What is shown goes by the view and the tab. */
function show() {
    const { view, tab } = model, play = view === "play";
    set(document.body, { className: `view-${view}` });
    for (const element of document.querySelectorAll("[data-views]")) set(element, { hidden: !element.dataset.views.split(" ").includes(view) });
    for (const one of TABS) set($(`panel-${one}`), { hidden: !(play ? one === tab : view === "configure" && one === "set") });
    model.release();
    if (play && tab === "script") script.shown();
    else script.left();
    model.say("");
}
choices($("views"), ["Play", "Configure", "Describe"], (n) => {
    model.view = VIEWS[n];
    model.undos = [];
    show();
}, (n) => (n === 2 ? "describe-view" : "keys-view"));
choices($("tabs"), ["Set keys", "Type", "Script"], (n) => {
    model.tab = TABS[n];
    show();
}, (n) => `panel-${TABS[n]}`);

session.bench.enumerate();
show();
model.draw();
setInterval(() => session.beat(), TICK_MS);
