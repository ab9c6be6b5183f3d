/** Where findings stand in a report. */
import { JsonFault, lossyText, positionsOf, reach, readJson, textOf } from "./json.mjs";

/** How many characters of a report are shown of a value, and before and after it. */
const SHOWN = 60;
const AROUND = 24;

/**
 * Each of these findings with the `line` and `column` of the value at its place, or of the nearest one above it that is
 * there; with this value as it is written, what stands `before` and `after` it, and whether it `isThere`. If the report
 * is no JSON text, the place is where that begins.
 */
export function located(report, findings) {
    const { text, whole, offset } = read(report);
    const found = findings.map((finding) => {
        const fault = { value: { start: offset, end: text.length }, isThere: true };
        const { value, isThere } = whole ? reach(whole, finding.place) : fault;
        return { ...finding, ...excerpt(text, value.start, value.end), start: value.start, isThere };
    });
    const positions = positionsOf(text, new Set(found.map(({ start }) => start)));
    return found.map(({ start, ...finding }) => ({ ...finding, ...positions.get(start) }));
}

/** The text of a report and the value that it is; or else where it ceases to be one. */
function read(report) {
    try {
        const text = textOf(report);
        return { text, whole: readJson(text) };
    } catch (fault) {
        // Anything else than a fault of the text is too deep or too long for the engine: nothing is known of a place.
        return { text: lossyText(report), offset: fault instanceof JsonFault ? fault.offset : 0 };
    }
}

/** A value on its line, and what stands around it there. */
function excerpt(text, start, end) {
    const before = text.slice(Math.max(0, start - AROUND), start).split("\n").at(-1);
    const value = text.slice(start, Math.min(end, start + SHOWN)).split("\n")[0];
    const isCut = start + value.length < end;
    return {
        before: (start > AROUND && before.length === AROUND ? "…" : "") + before,
        value: value + (isCut ? "…" : ""),
        after: isCut ? "" : text.slice(end, end + AROUND).split("\n")[0],
    };
}
