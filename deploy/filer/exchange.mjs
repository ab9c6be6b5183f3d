/** Requests, and the replies to them, by the browser. */
import { LARGEST_CONTENT, isWhole } from "./core.mjs";

/** How long an answer is waited for: longer than a server in front waits for the register. */
const PATIENCE = 200_000;

/**
 * The reply to a request, once it came whole: a reply of core.mjs, with the `moment` and the `port` of a receipt. Null
 * if none came. `base` is the address below which the paths of requests lie.
 */
export async function exchange(base, { method, path, fields }, body) {
    try {
        const answer = await fetch(new URL(path.slice(1), base), {
            method,
            headers: fields,
            body,
            cache: "no-store",
            redirect: "manual",
            referrerPolicy: "no-referrer",
            signal: AbortSignal.timeout(PATIENCE),
        });
        const length = answer.headers.get("Content-Length");
        if (length === null || Number(length) > LARGEST_CONTENT) {
            await answer.body?.cancel();
            return null;
        }
        const content = new Uint8Array(await answer.arrayBuffer());
        const port = Number(base.port) || (base.protocol === "https:" ? 443 : 80);
        const reply = { status: answer.status, length, content, moment: new Date().toISOString(), port };
        return isWhole(reply) ? reply : null;
    } catch {
        return null;
    }
}
