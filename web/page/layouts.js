// What a usage of page 07h types, plain and with Shift, by the layout that the computer is set to.

const types = (table, from, plain, shifted) => [...plain].forEach((sign, n) => (table[from + n] = [sign, [...shifted][n]]));
const each = (table, pairs) => {
    for (const [usage, pair] of Object.entries(pairs)) table[Number(usage)] = [...pair];
    return table;
};

/** @type {Record<number, string[]>} */
const us = {};
types(us, 0x04, "abcdefghijklmnopqrstuvwxyz", "ABCDEFGHIJKLMNOPQRSTUVWXYZ");
types(us, 0x1e, "1234567890", "!@#$%^&*()");
types(us, 0x2c, " -=[]\\\\;'`,./", ' _+{}||:"~<>?');
us[0x64] = ["\\", "|"];

const uk = each({ ...us }, { 0x1f: '2"', 0x20: "3£", 0x31: "#~", 0x32: "#~", 0x34: "'@", 0x35: "`¬", 0x64: "\\|" });

const german = { ...us };
types(german, 0x1c, "zy", "ZY");
types(german, 0x1e, "1234567890", '!"§$%&/()=');
types(german, 0x2d, "ß´ü+##öä^,.-", "?`Ü*''ÖÄ°;:_");
german[0x64] = ["<", ">"];

const french = each({ ...us }, {
    0x04: "qQ", 0x14: "aA", 0x1a: "zZ", 0x1d: "wW", 0x10: ",?", 0x33: "mM", 0x36: ";.", 0x37: ":/", 0x38: "!§", 0x2d: ")°", 0x2e: "=+",
    0x2f: "^¨", 0x30: "$£", 0x31: "*µ", 0x32: "*µ", 0x34: "ù%", 0x35: "²²", 0x64: "<>",
});
types(french, 0x1e, "&é\"'(-è_çà", "1234567890");

// Keys of the keypad type the same everywhere, as Num Lock is on.
for (const layout of [us, uk, german, french]) {
    types(layout, 0x54, "/*-+", "/*-+");
    types(layout, 0x59, "1234567890.", "1234567890.");
}

/** @type {Record<string, Record<number, string[]>>} */
export const LAYOUTS = { US: us, UK: uk, German: german, French: french };

/** Usages that no legend of a layout stands on: their own name is clearer. */
export const isKeypad = (usage) => usage >= 0x54 && usage <= 0x63;
