/**
 * What the outbox keeps, in IndexedDB. Whatever a report depends on is committed with `durability: "strict"`: a promise
 * of `put` or `settle` is kept only once the browser has handed the data to the disk.
 *
 * `entries` has the entries of core.mjs, each with its `id`, the `name`, `length` and `sha256` of its report, how many
 * `tries` left it open, what the last of these `said`, and from when on it is `due`. `reports` has the bytes of the
 * report of each id, `replies` what settled it (receipt.mjs), with the bytes of the content.
 */
import { entryAfter, openEntry } from "./core.mjs";

const STRICT = { durability: "strict" };

/** What a request answers, once it succeeded. */
function done(request) {
    return new Promise((resolve, reject) => {
        request.onsuccess = () => resolve(request.result);
        request.onerror = () => reject(request.error);
    });
}

/** Waits until a transaction is committed. */
function committed(transaction) {
    return new Promise((resolve, reject) => {
        transaction.oncomplete = () => resolve();
        transaction.onabort = () => reject(transaction.error ?? new Error("the transaction was aborted"));
    });
}

export class Store {
    #database;

    constructor(database) {
        this.#database = database;
    }

    /** The store of this name, which is made if it is not there. `ended` is called if the browser takes it away. */
    static async open(name, ended) {
        const request = indexedDB.open(name, 1);
        request.onupgradeneeded = () => {
            const entries = request.result.createObjectStore("entries", { keyPath: "id", autoIncrement: true });
            entries.createIndex("filer", "filer");
            entries.createIndex("state", "state");
            entries.createIndex("key", ["filer", "key"], { unique: true });
            request.result.createObjectStore("reports");
            request.result.createObjectStore("replies");
        };
        const database = await done(request);
        database.onversionchange = () => database.close();
        database.onclose = ended;
        return new Store(database);
    }

    #read(name) {
        return this.#database.transaction(name).objectStore(name);
    }

    /** Puts these reports in, all or none: each has `key`, `target`, `name`, `bytes` and `sha256`. The new entries. */
    async put(filer, reports) {
        const transaction = this.#database.transaction(["entries", "reports"], "readwrite", STRICT);
        const whole = committed(transaction);
        const made = reports.map(async ({ key, target, name, bytes, sha256 }) => {
            const more = { name, length: bytes.length, sha256, tries: 0, said: null, due: 0 };
            const entry = { ...openEntry(filer, key, target), ...more };
            const id = await done(transaction.objectStore("entries").add(entry));
            transaction.objectStore("reports").add(bytes, id);
            return { ...entry, id };
        });
        const [entries] = await Promise.all([Promise.all(made), whole]);
        return entries;
    }

    /** The entries of a filer, in the order in which they were put in. */
    entriesOf(filer) {
        return done(this.#read("entries").index("filer").getAll(filer));
    }

    entry(id) {
        return done(this.#read("entries").get(id));
    }

    /** The filer of the entry that was put in last; null if there is none. */
    async lastFiler() {
        const cursor = await done(this.#read("entries").openCursor(null, "prev"));
        return cursor?.value.filer ?? null;
    }

    /** The open entries of all filers. */
    openEntries() {
        return done(this.#read("entries").index("state").getAll("open"));
    }

    /** The bytes of the report of an entry. */
    report(id) {
        return done(this.#read("reports").get(id));
    }

    /** The reply that settled an entry. */
    reply(id) {
        return done(this.#read("replies").get(id));
    }

    /** Moves an entry by a reply, if it is open still and the reply settles it. The entry as it is kept then. */
    settle(id, reply) {
        return this.#change(id, STRICT, (entry, transaction) => {
            const moved = entryAfter(entry, reply);
            if (moved !== entry) {
                transaction.objectStore("replies").put(reply, id);
            }
            return moved;
        });
    }

    /** Notes that an entry was left open, and when it is due again. */
    postpone(id, said, due) {
        return this.#change(id, {}, (entry) => ({ ...entry, tries: entry.tries + 1, said, due }));
    }

    /** Makes all open entries due. */
    async hurry() {
        for (const { id } of await this.openEntries()) {
            await this.#change(id, {}, (entry) => ({ ...entry, due: 0 }));
        }
    }

    async #change(id, options, change) {
        const transaction = this.#database.transaction(["entries", "replies"], "readwrite", options);
        const whole = committed(transaction);
        const made = done(transaction.objectStore("entries").get(id)).then((entry) => {
            const changed = change(entry, transaction);
            transaction.objectStore("entries").put(changed);
            return changed;
        });
        const [entry] = await Promise.all([made, whole]);
        return entry;
    }
}
