/** Receipts, as `outbox send --receipts` writes them: docs/OPERATIONS.md, "How do I keep receipts?". */
import { lossyText } from "./json.mjs";

/** The SHA-256 of these bytes in hexadecimal digits. */
export async function digestOf(bytes) {
    const digest = new Uint8Array(await crypto.subtle.digest("SHA-256", bytes));
    return Array.from(digest, (byte) => byte.toString(16).padStart(2, "0")).join("");
}

/**
 * The text of the receipt of an entry, which has `id`, `length` and `sha256` besides what core.mjs names. `reply` is
 * the one that settled it, with the `moment` at which it came, and the `port` that answered.
 */
export function receiptText(entry, reply) {
    const members = {
        content: JSON.stringify(lossyText(reply.content)),
        entry: entry.id,
        filer: JSON.stringify(entry.filer),
        key: JSON.stringify(entry.key),
        length: entry.length,
        moment: JSON.stringify(reply.moment),
        port: reply.port,
        sha256: JSON.stringify(entry.sha256),
        status: reply.status,
        target: entry.target ?? "null",
    };
    return `{${Object.entries(members).map(([name, value]) => `"${name}":${value}`).join(",")}}\n`;
}

/** The name of the file of that receipt. */
export async function receiptName(entry) {
    const digits = (await digestOf(new TextEncoder().encode(entry.key))).slice(0, 8);
    return `${entry.filer}-${entry.id}-${digits}.json`;
}
