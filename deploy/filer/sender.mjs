/**
 * Sends open entries, one after another, until each has an answer that settles it. Of all tabs one sends: the one that
 * has the lock. An entry is read from the store before it is sent, so nothing is sent that is not kept. Its state is
 * stored before anybody hears of it.
 */
import { dueEntries, pauseAfter, reasonOf, requestOf, waitFor } from "./core.mjs";

export class Sender {
    #store;
    #exchange;
    #tell;
    #woken;
    #wake;
    #failures = 0;

    /**
     * `exchange` gives the reply to a request with its report, or null if none came whole. `tell` hears of each entry
     * that was sent: `{ id, state, number }`, or `{ id, isUnkept: true }` if there was no room for the answer.
     */
    constructor(store, exchange, tell) {
        this.#store = store;
        this.#exchange = exchange;
        this.#tell = tell;
        this.#sleepFromNow();
    }

    /** Waits for the lock of this name, and sends for as long as the tab is there. `began` is called once it begins. */
    async run(lock, began) {
        await navigator.locks.request(lock, async () => {
            began();
            for (;;) {
                await this.#round();
            }
        });
    }

    /** Ends a pause. */
    wake() {
        this.#wake();
    }

    /** Sends an entry once. Whether an answer came and what became of the entry is kept. */
    async send(entry) {
        const reply = await this.#exchange(requestOf(entry), await this.#store.report(entry.id));
        return (await this.#keep(entry, reply)) && reply !== null;
    }

    #sleepFromNow() {
        this.#woken = new Promise((resolve) => {
            this.#wake = resolve;
        });
    }

    /** Waits so many milliseconds, or until it was woken since the round began. */
    async #rest(pause) {
        await Promise.race([this.#woken, new Promise((resolve) => setTimeout(resolve, pause))]);
    }

    /** Sends each entry that is due, and waits until another one may be. */
    async #round() {
        this.#sleepFromNow();
        const entries = await this.#store.openEntries();
        const due = dueEntries(entries, Date.now());
        for (const entry of due) {
            this.#failures = (await this.send(entry)) ? 0 : this.#failures + 1;
            // If nobody answers, or nothing can be kept, that is so for each entry.
            if (this.#failures > 0) {
                await this.#rest(pauseAfter(this.#failures));
                return;
            }
        }
        if (due.length === 0) {
            const waits = entries.map((entry) => waitFor(entry, Date.now()));
            await this.#rest(waits.reduce((least, wait) => Math.min(least, wait), pauseAfter(Infinity)));
        }
    }

    /** Stores what became of an entry, and then tells it. False if there was no room to store it. */
    async #keep(entry, reply) {
        try {
            const kept = reply === null ? entry : await this.#store.settle(entry.id, reply);
            if (kept.state === "open") {
                const said = reply && { status: reply.status, reason: reasonOf(reply) };
                await this.#store.postpone(entry.id, said, Date.now() + pauseAfter(entry.tries + 1));
            }
            this.#tell({ id: entry.id, state: kept.state, number: kept.number });
            return true;
        } catch (fault) {
            if (fault.name !== "QuotaExceededError") {
                throw fault;
            }
            this.#tell({ id: entry.id, isUnkept: true });
            return false;
        }
    }
}
