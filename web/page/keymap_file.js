// A keymap as a file (docs/formats.md, "A keymap as a file"), version 1.

import { Refused } from "./bytes.js";
import { isCode } from "./codes.js";
import { KEYS, LAYERS } from "./device.js";
import { JsonFault, placeOf, readJson } from "./json.js";

const FORMAT = "wuzhikar-keymap", VERSION = 1, LARGEST = 65536;
const MEMBERS = { format: "string", version: "number", layers: "array", name: "string" };

/**
 * The text of a keymap.
 * @param {Uint16Array} keymap
 * @param {string} [name]
 */
export function keymapText(keymap, name) {
    const row = (layer) => Array.from(keymap.subarray(layer * KEYS, layer * KEYS + KEYS), (code) => `"${code.toString(16).padStart(4, "0")}"`);
    const lines = (codes) => Array.from({ length: KEYS / 16 }, (_, n) => `      ${codes.slice(16 * n, 16 * n + 16).join(", ")}`).join(",\n");
    const layers = Array.from({ length: LAYERS }, (_, layer) => `    [\n${lines(row(layer))}\n    ]`).join(",\n");
    const named = name ? `  "name": ${JSON.stringify(name)},\n` : "";
    return `{\n  "format": "${FORMAT}",\n  "version": ${VERSION},\n${named}  "layers": [\n${layers}\n  ]\n}\n`;
}

/** The members of the object by their names: each at most once, and none that is not of the format. */
function membersOf(file) {
    if (file.kind !== "object") throw new JsonFault(`it is no object`, file.at);
    const members = new Map();
    for (const member of file.value) {
        const named = JSON.stringify(member.name.slice(0, 40));
        if (members.has(member.name)) throw new JsonFault(`${named} stands twice`, member.at);
        if (!Object.hasOwn(MEMBERS, member.name)) throw new JsonFault(`${named} is no member of a keymap`, member.at);
        if (member.node.kind !== MEMBERS[member.name]) throw new JsonFault(`${named} is no ${MEMBERS[member.name]}`, member.node.at);
        members.set(member.name, member.node);
    }
    for (const name of ["format", "version", "layers"]) if (!members.has(name)) throw new JsonFault(`"${name}" is missing`, file.at);
    return members;
}

function codesOf(layer, number) {
    if (layer.kind !== "array" || layer.value.length !== KEYS) throw new JsonFault(`layer ${number} is no list of ${KEYS} codes`, layer.at);
    return layer.value;
}

function codeOf(node) {
    const code = node.kind === "string" && /^[0-9a-f]{4}$/i.test(node.value) ? parseInt(node.value, 16) : -1;
    if (code < 0 || !isCode(code)) throw new JsonFault(`${JSON.stringify(String(node.value).slice(0, 40))} is no code`, node.at);
    return code;
}

function keymapOf(file) {
    const members = membersOf(file);
    const [format, version, layers] = ["format", "version", "layers"].map((name) => members.get(name));
    if (format.value !== FORMAT) throw new JsonFault(`its format is not "${FORMAT}"`, format.at);
    if (version.value !== VERSION) throw new JsonFault(`its version is ${version.value}, and this page knows version ${VERSION}`, version.at);
    if (layers.value.length !== LAYERS) throw new JsonFault(`it has ${layers.value.length} layers, not ${LAYERS}`, layers.at);
    return Uint16Array.from(layers.value.map(codesOf).flat(), codeOf);
}

/**
 * Reads a keymap. Throws `Refused`: a sentence with the place of the first thing that is wrong.
 * @param {Uint8Array} bytes
 * @returns {Uint16Array}
 */
export function readKeymap(bytes) {
    if (bytes.length > LARGEST) throw new Refused(`it has ${bytes.length.toLocaleString("en")} bytes, and a keymap at most ${LARGEST.toLocaleString("en")}`);
    let text = "";
    try {
        text = new TextDecoder("utf-8", { fatal: true }).decode(bytes);
        return keymapOf(readJson(text));
    } catch (fault) {
        if (fault instanceof JsonFault) throw new Refused(`${fault.message}, at ${placeOf(text, fault.at)}`);
        if (fault instanceof TypeError) throw new Refused("it is no text in UTF-8");
        throw fault;
    }
}
