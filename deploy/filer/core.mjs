/**
 * What an outbox sends, and what it makes of the reply: docs/PROTOCOL.md, "What a filer sends, and what it makes of the
 * reply". Nothing here knows a browser, a network or a store.
 *
 * An entry is an object with these members, and perhaps others, which nothing here looks at:
 *
 *     filer   the filer's code
 *     key     1 to 1,024 printable characters of ASCII
 *     target  the number of the filing that the report replaces, or null
 *     state   "open", "confirmed", "refused" or "clashed"
 *     number  the number of the filing that a confirmed entry is; of any other null
 *
 * A reply is an object with its `status`, a number; `length`, the value of its Content-Length, or null; and `content`,
 * its bytes.
 *
 * The number of a filing may have 19 digits, more than a number of JavaScript holds, so it is the text of its digits.
 */
import { JsonFault, readJson, textOf } from "./json.mjs";

/** The most bytes of a report, and of the content of a reply. */
export const LARGEST_REPORT = 1_048_576;
export const LARGEST_CONTENT = 8_388_608;
const LARGEST_NUMBER = 2n ** 63n - 1n;

export function isFiler(text) {
    return /^[A-Za-z0-9._-]{1,64}$/.test(text);
}

export function isKey(text) {
    return /^[ -~]{1,1024}$/.test(text);
}

/** Whether a text is the number of a filing: 1 to 2^63 - 1, without leading zeros. */
export function isNumber(text) {
    return /^[1-9][0-9]{0,18}$/.test(text) && BigInt(text) <= LARGEST_NUMBER;
}

/** An entry that nothing was sent for yet. */
export function openEntry(filer, key, target) {
    return { filer, key, target, state: "open", number: null };
}

/** The request of an entry: its method, path and fields. Its content is the report. */
export function requestOf(entry) {
    return {
        method: "POST",
        path: `/filings/${entry.filer}${entry.target === null ? "" : `/${entry.target}`}`,
        fields: {
            "Idempotency-Key": `"${entry.key.replace(/["\\]/g, "\\$&")}"`,
            "Content-Type": "application/json",
        },
    };
}

/** The request of a filer's list. */
export function listRequest(filer) {
    return { method: "GET", path: `/filings/${filer}`, fields: {} };
}

/** The entry once this reply came. Only an open one is moved, and only by a reply that settles it. */
export function entryAfter(entry, reply) {
    const moved = entry.state === "open" ? verdictOf(reply) : null;
    return moved === null ? entry : { ...entry, ...moved };
}

/** How a reply settles an open entry; null if it leaves it open. */
function verdictOf(reply) {
    const told = objectIn(reply);
    const number = told.get("number");
    if (reply.status === 201 && wordOf(told, "status") === "registered") {
        return number?.kind === "number" && isNumber(number.text) ? { state: "confirmed", number: number.text } : null;
    }
    // An intake that kept the request in an earlier version says the word in `status`.
    const words = [wordOf(told, "reason"), wordOf(told, "status")];
    if ((reply.status === 422 || reply.status === 400) && words.includes("refused")) {
        return { state: "refused", number: null };
    }
    return reply.status === 422 && words.includes("key-reused") ? { state: "clashed", number: null } : null;
}

/** What a reply that settles nothing says: its `reason`, or null. */
export function reasonOf(reply) {
    return wordOf(objectIn(reply), "reason");
}

/** The findings in the reply that refused a report: a list of `code` and `place`. */
export function findingsIn(reply) {
    return listOf(objectIn(reply), "findings").map((finding) => ({
        code: wordOf(finding, "code") ?? "",
        place: wordOf(finding, "place") ?? "",
    }));
}

/**
 * A filer's filings: `number`, `facts`, `replaces` and `replacedBy`, as digits or null. If the reply is no list, null.
 */
export function filingsIn(reply) {
    const told = objectIn(reply);
    if (reply.status !== 200 || told.get("filings")?.kind !== "array") {
        return null;
    }
    const digits = (filing, name) => filing.get(name)?.text ?? null;
    return listOf(told, "filings").map((filing) => ({
        number: digits(filing, "number"),
        facts: digits(filing, "facts"),
        replaces: digits(filing, "replaces"),
        replacedBy: digits(filing, "replaced_by"),
    }));
}

/** The members of the object that is the content of a whole reply; none if it is no such object. */
function objectIn(reply) {
    try {
        return (isWhole(reply) && readJson(textOf(reply.content)).members) || new Map();
    } catch (fault) {
        if (fault instanceof JsonFault) {
            return new Map();
        }
        throw fault;
    }
}

/** Whether a reply has a Content-Length within the limit, and exactly so many bytes. */
export function isWhole({ length, content }) {
    const parts = (length ?? "").split(",").map((part) => part.replace(/^[ \t]+|[ \t]+$/g, ""));
    return (
        parts.every((part) => /^[0-9]+$/.test(part) && BigInt(part) === BigInt(content.length)) &&
        content.length <= LARGEST_CONTENT
    );
}

function wordOf(members, name) {
    const value = members.get(name);
    return value?.kind === "string" ? value.value : null;
}

/** The members of each object in a list. */
function listOf(members, name) {
    return (members.get(name)?.items ?? []).flatMap((item) => item.members ?? []);
}

/** How many milliseconds pass before an entry is sent again that was left open so many times: from 2 s to 5 minutes. */
export function pauseAfter(tries) {
    return Math.min(1000 * 2 ** tries, 300_000);
}

/** The entries to be sent at this moment, in the order in which they were put in. */
export function dueEntries(entries, now) {
    return entries.filter((entry) => entry.state === "open" && waitFor(entry, now) === 0);
}

/** How many milliseconds an open entry waits still. A clock that was set back makes it wait no longer than a pause. */
export function waitFor(entry, now) {
    return Math.max(0, Math.min(entry.due - now, pauseAfter(entry.tries)));
}
