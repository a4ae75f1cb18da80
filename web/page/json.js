// A reader of JSON (RFC 8259) that keeps the place of each value, and sees members that stand twice.

/** A fault of a text: what is wrong, and at which of its characters. */
export class JsonFault extends Error {
    /**
     * @param {string} says
     * @param {number} at
     */
    constructor(says, at) {
        super(says);
        this.at = at;
    }
}

/**
 * Where a character of a text stands, in words.
 * @param {string} text
 * @param {number} at
 */
export function placeOf(text, at) {
    const before = text.slice(0, at).split("\n");
    return `line ${before.length}, column ${before[before.length - 1].length + 1}`;
}

/**
 * A value, and where it stands. Members of an object stand in the order of the text, each with its name.
 * @typedef {{kind: "object" | "array" | "string" | "number" | "word", value: any, at: number}} Node
 */

const NUMBER = /-?(?:0|[1-9]\d*)(?:\.\d+)?(?:[eE][+-]?\d+)?/y;
const STRING = /"(?:[^"\\\u0000-\u001f]|\\(?:["\\/bfnrt]|u[0-9a-fA-F]{4}))*"/y;
const WORD = /true|false|null/y;
const DEEPEST = 16;

class Reader {
    constructor(text) {
        this.text = text;
        this.at = 0;
        this.depth = 0;
    }
    fault(says) {
        return new JsonFault(says, this.at);
    }
    blank() {
        while (this.at < this.text.length && " \t\n\r".includes(this.text[this.at])) this.at++;
    }
    /** Takes what matches here, or nothing. */
    match(pattern) {
        pattern.lastIndex = this.at;
        const found = pattern.exec(this.text)?.[0];
        if (found !== undefined) this.at += found.length;
        return found;
    }
    /** A string, or nothing: text, so that no half of a surrogate pair stands alone (RFC 8259, section 8.2). */
    string() {
        const { at } = this, found = this.match(STRING);
        const text = found === undefined ? undefined : JSON.parse(found);
        if (text !== undefined && /\p{Cs}/u.test(text)) throw new JsonFault("half of a surrogate pair stands alone", at);
        return text;
    }
    takes(sign) {
        this.blank();
        if (this.text[this.at] !== sign) return false;
        this.at++;
        return true;
    }
    needs(sign) {
        if (!this.takes(sign)) throw this.fault(`this is no JSON: ${JSON.stringify(sign)} is missing`);
    }
    /** @returns {Node} */
    value() {
        this.blank();
        const { at } = this;
        if (this.takes("{")) return { kind: "object", value: this.list("}", () => this.member()), at };
        if (this.takes("[")) return { kind: "array", value: this.list("]", () => this.value()), at };
        const string = this.string();
        if (string !== undefined) return { kind: "string", value: string, at };
        const digits = this.match(NUMBER);
        if (digits !== undefined) return { kind: "number", value: Number(digits), at };
        const word = this.match(WORD);
        if (word !== undefined) return { kind: "word", value: word, at };
        throw this.fault("this is no JSON: a value is missing");
    }
    member() {
        this.blank();
        const { at } = this, name = this.string();
        if (name === undefined) throw this.fault("this is no JSON: the name of a member is missing");
        this.needs(":");
        return { name, node: this.value(), at };
    }
    list(end, one) {
        if (++this.depth > DEEPEST) throw this.fault(`values stand more than ${DEEPEST} deep`);
        const all = [];
        if (!this.takes(end)) {
            do all.push(one());
            while (this.takes(","));
            this.needs(end);
        }
        this.depth--;
        return all;
    }
}

/**
 * The one value of a text. Throws a `JsonFault`.
 * @param {string} text
 * @returns {Node}
 */
export function readJson(text) {
    const reader = new Reader(text), node = reader.value();
    reader.blank();
    if (reader.at < text.length) throw reader.fault("this is no JSON: something follows the value");
    return node;
}
