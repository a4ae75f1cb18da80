// Bytes from what people paste: hex, arrays of C and Rust, dumps, recordings, in each form that kbsim takes, or the bytes themselves.

import { Refused } from "./bytes.js";
import { Instance, ROOM } from "./reader.js";

const LARGEST = 1048576, MOST = 32768;

/**
 * The bytes that a text says.
 * @param {Uint8Array} content
 * @param {string} what what it is
 * @param {boolean} mayBeBytes whether bytes that are no text are taken as they are
 * @param {boolean} isReport whether hex digits are nothing else
 */
function taken(content, what, mayBeBytes, isReport) {
    if (content.length > LARGEST) throw new Refused(`the ${what} has more than 1 MiB`);
    const instance = new Instance(), { calls } = instance;
    for (let at = 0; at < content.length; at += ROOM)
        if (calls.text_piece(instance.put(content.subarray(at, at + ROOM))) !== 0) throw new Refused("there was no memory for it");
    const kind = calls.text_taken(Number(isReport)), told = new Uint8Array(calls.text_told(0));
    for (let at = 0; at < told.length; at += ROOM) {
        calls.text_told(at);
        told.set(instance.bytes(Math.min(ROOM, told.length - at)), at);
    }
    if (kind < 0) throw new Refused(new TextDecoder().decode(told));
    if (kind === 1 && !mayBeBytes) throw new Refused("it has characters that no form of bytes has");
    if (told.length === 0) throw new Refused("there is no byte in it");
    if (told.length > MOST) throw new Refused(`it has ${told.length.toLocaleString("en")} bytes, and a report descriptor at most 4,096`);
    return told;
}

/**
 * The bytes of a text. Throws `Refused` with a sentence.
 * @param {string} text
 */
export const bytesOfText = (text) => taken(new TextEncoder().encode(text), "text", false, false);

/**
 * The bytes of a report. Throws `Refused` with a sentence.
 * @param {string} text
 */
export const bytesOfReport = (text) => taken(new TextEncoder().encode(text), "text", false, true);

/**
 * The bytes of a file: of its text where it is text that says bytes, else the file's own, as of report_descriptor in sysfs.
 * @param {Uint8Array} content
 */
export const bytesOfFile = (content) => taken(content, "file", true, false);
