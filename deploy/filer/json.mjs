/**
 * Reads a JSON text (RFC 8259) so that each value is known by where it stands, and each number by its digits:
 * `JSON.parse` gives neither, and rounds numbers of more than 15 digits. The rules are those of docs/PROTOCOL.md.
 */

const DEEPEST = 127;
const SPACE = new Set(" \t\n\r");
const WORD = /[^ \t\n\r,:{}[\]]+/y;
const NUMBER = /^-?(?:0|[1-9][0-9]*)(?:\.[0-9]+)?(?:[eE][+-]?[0-9]+)?$/;
const LITERALS = ["true", "false", "null"];
const LONE_SURROGATE = /\p{Surrogate}/u;

/** Why bytes or a text are no JSON text, and where, as an offset. */
export class JsonFault extends Error {
    constructor(offset) {
        super(`no JSON text, from offset ${offset} on`);
        this.offset = offset;
    }
}

/**
 * The value of a text: `kind` is "object", "array", "string", "number" or "literal", `start` and `end` say where it
 * stands. An object has `members`, a Map in which the last of a repeated name counts, an array `items`, a string
 * `value`, and a number or literal its `text`. Throws a JsonFault.
 */
export function readJson(text) {
    let at = 0;

    function fail(offset = at) {
        throw new JsonFault(offset);
    }

    function skip() {
        while (SPACE.has(text[at])) {
            at += 1;
        }
    }

    function expect(character) {
        if (text[at] !== character) {
            fail();
        }
        at += 1;
    }

    function string() {
        const start = at;
        for (at += 1; text[at] !== '"'; at += text[at] === "\\" ? 2 : 1) {
            if (at >= text.length) {
                fail(text.length);
            }
        }
        at += 1;
        try {
            const value = JSON.parse(text.slice(start, at));
            return LONE_SURROGATE.test(value) ? fail(start) : { kind: "string", value };
        } catch {
            return fail(start);
        }
    }

    /** What stands between brackets: `one` reads each part. */
    function parts(close, one) {
        at += 1;
        skip();
        while (text[at] !== close) {
            one();
            skip();
            if (text[at] === close) {
                break;
            }
            expect(",");
            skip();
            if (text[at] === close) {
                fail();
            }
        }
        at += 1;
    }

    function object(depth) {
        const members = new Map();
        parts("}", () => {
            if (text[at] !== '"') {
                fail();
            }
            const name = string().value;
            skip();
            expect(":");
            members.set(name, value(depth));
        });
        return { kind: "object", members };
    }

    function array(depth) {
        const items = [];
        parts("]", () => items.push(value(depth)));
        return { kind: "array", items };
    }

    function scalar() {
        const start = at;
        WORD.lastIndex = at;
        const [word] = WORD.exec(text) ?? fail();
        at += word.length;
        if (LITERALS.includes(word)) {
            return { kind: "literal", text: word };
        }
        if (!NUMBER.test(word)) {
            const isCut = NUMBER.test(`${word}0`) || LITERALS.some((literal) => literal.startsWith(word));
            fail(isCut && at === text.length ? at : start);
        }
        return Number.isFinite(Number(word)) ? { kind: "number", text: word } : fail();
    }

    function value(depth) {
        skip();
        const start = at;
        const isNested = text[at] === "{" || text[at] === "[";
        if (isNested && depth === DEEPEST) {
            fail(at + 1);
        }
        const read = { "{": () => object(depth + 1), "[": () => array(depth + 1), '"': string }[text[at]] ?? scalar;
        return { ...read(), start, end: at };
    }

    const whole = value(0);
    skip();
    return at === text.length ? whole : fail();
}

/** The text of these bytes, which have to be UTF-8; a byte order mark stays. Throws a JsonFault. */
export function textOf(bytes) {
    try {
        return new TextDecoder("utf-8", { fatal: true, ignoreBOM: true }).decode(bytes);
    } catch {
        const sound = soundPart(bytes);
        throw new JsonFault(sound.isCut ? lossyText(bytes).length : sound.text.length);
    }
}

/** The text of these bytes, with U+FFFD for what is no UTF-8. */
export function lossyText(bytes) {
    return new TextDecoder("utf-8", { ignoreBOM: true }).decode(bytes);
}

/** The text of these bytes up to where they cease to be UTF-8, and whether they only end within a character. */
function soundPart(bytes) {
    // As long as a beginning can go on as UTF-8, it gives the text of its whole characters.
    let [text, length, wrong] = ["", 0, bytes.length + 1];
    while (wrong - length > 1) {
        const middle = Math.floor((length + wrong) / 2);
        try {
            const decoder = new TextDecoder("utf-8", { fatal: true, ignoreBOM: true });
            text = decoder.decode(bytes.subarray(0, middle), { stream: true });
            length = middle;
        } catch {
            wrong = middle;
        }
    }
    return { text, isCut: length === bytes.length };
}

/**
 * The value that a JSON Pointer (RFC 6901) names, or the nearest one above it that is there, and whether it is the one
 * that was asked for.
 */
export function reach(whole, pointer) {
    let value = whole;
    for (const part of pointer.split("/").slice(1)) {
        const name = part.replaceAll("~1", "/").replaceAll("~0", "~");
        const child = value.kind === "object" ? value.members.get(name) : value.items?.[indexOf(name)];
        if (child === undefined) {
            return { value, isThere: false };
        }
        value = child;
    }
    return { value, isThere: true };
}

function indexOf(part) {
    return /^(?:0|[1-9][0-9]*)$/.test(part) ? Number(part) : -1;
}

/** For each of these offsets of a text its line and column, both from 1. A column is a character of its line. */
export function positionsOf(text, offsets) {
    const found = new Map();
    let [at, line, column] = [0, 1, 1];
    for (const offset of [...offsets].sort((one, other) => one - other)) {
        while (at < offset) {
            const code = text.codePointAt(at);
            at += code > 0xffff ? 2 : 1;
            [line, column] = code === 10 ? [line + 1, 1] : [line, column + 1];
        }
        found.set(offset, { line, column });
    }
    return found;
}
