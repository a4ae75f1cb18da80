// What a computer makes of the usages that it reads: text, by the layout that it is set to, and the LEDs.

const ENTER = 0x28, BACKSPACE = 0x2a, TAB = 0x2b, CAPS = 0x39, NUM = 0x53, SCROLL = 0x47;
const LONGEST = 400;
const KEY_PAGE = 7;

export class Typing {
    constructor() {
        this.text = "";
        this.leds = 0;
        /** The usages of each page that were on, by page. @type {Map<number, Set<number>>} */
        this.before = new Map();
        /** All that are on. @type {number[]} */
        this.on = [];
    }
    /**
     * Takes the usages of a report: they are all of one page.
     * @param {number[]} read
     * @param {number} page the page of the report
     * @param {Record<number, string[]>} layout
     */
    take(read, page, layout) {
        const before = this.before.get(page) ?? new Set(), now = new Set(read);
        if (page === KEY_PAGE) for (const usage of now) if (!before.has(usage)) this.press(usage & 0xffff, now, layout);
        this.before.set(page, now);
        this.on = [...this.before.values()].flatMap((set) => [...set]);
    }
    press(code, now, layout) {
        const led = { [NUM]: 1, [CAPS]: 2, [SCROLL]: 4 }[code];
        if (led) this.leds ^= led;
        if (code === BACKSPACE) this.text = [...this.text].slice(0, -1).join("");
        else if (code === ENTER || code === TAB) this.add(code === ENTER ? "\n" : "\t");
        else if (layout[code]) {
            const [plain, shifted] = layout[code];
            const shift = now.has(0x700e1) || now.has(0x700e5), caps = (this.leds & 2) !== 0;
            this.add((caps && plain.toUpperCase() === shifted ? !shift : shift) ? shifted : plain);
        }
    }
    add(text) {
        this.text = (this.text + text).slice(-LONGEST);
    }
}
