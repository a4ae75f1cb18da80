// Numbers and bytes as text.

/** What a user or a file gave that can't be taken: its message is the sentence that is shown. */
export class Refused extends Error {}

/**
 * A number in upper case hex.
 * @param {number} number
 * @param {number} digits
 */
export const hex = (number, digits) => number.toString(16).toUpperCase().padStart(digits, "0");

/**
 * Bytes in lower case hex.
 * @param {ArrayLike<number>} bytes
 */
export const bytesHex = (bytes) => Array.from(bytes, (byte) => byte.toString(16).padStart(2, "0")).join("");

/**
 * The bytes of hex, or null.
 * @param {string} text
 */
export const fromHex = (text) => (/^([0-9a-f]{2})*$/i.test(text) ? Uint8Array.from(text.match(/../g) ?? [], (pair) => parseInt(pair, 16)) : null);

/**
 * A number with its word, as "1 cut" and "2 cuts".
 * @param {number} count
 * @param {string} word
 */
export const counted = (count, word) => `${count.toLocaleString("en")} ${word}${count === 1 ? "" : "s"}`;
