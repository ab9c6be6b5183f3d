#!/usr/bin/env node
/**
 * Stands for `outbox` as far as the conformance kit needs it, over the core and the sender of the page for filers
 * (deploy/filer):
 *
 *     conformance/run.py outbox --command 'node tools/outbox_of_page.mjs'
 *
 *     init --db FILE --filer FILER
 *     put --db FILE --body REPORT --key KEY [--amend N]
 *     send --db FILE --port PORT --entry ENTRY --patience SECONDS
 *     status --db FILE
 *
 * What to send, what a reply means, and what is kept before what is sent or told, is the page's. How a request and a
 * reply lie on a connection is said here, since a browser does that by itself; and so is the store, which is a file of
 * JSON in place of the browser's.
 */
import { closeSync, fsyncSync, openSync, readFileSync, renameSync, writeFileSync } from "node:fs";
import { connect } from "node:net";
import { dirname } from "node:path";
import { parseArgs } from "node:util";

import { LARGEST_CONTENT, entryAfter, openEntry } from "../deploy/filer/core.mjs";
import { Sender } from "../deploy/filer/sender.mjs";

const LARGEST_HEAD = 16_384;
const MOST_FIELDS = 64;
const STATUS_LINE = /^HTTP\/1\.[01] ([0-9]{3})(?: [\t\x20-\x7e\x80-\xff]*)?$/;
const FIELD = /^([!#$%&'*+.^_`|~0-9A-Za-z-]+):([\t\x20-\x7e\x80-\xff]*)$/;

/** The bytes of a request with its report. */
function bytesOf({ method, path, fields }, report) {
    const lines = Object.entries(fields).map(([name, value]) => `${name}: ${value}\r\n`);
    const head = [
        `${method} ${path} HTTP/1.1\r\nHost: localhost\r\n`,
        ...lines,
        `Content-Length: ${report.length}\r\nConnection: close\r\n\r\n`,
    ];
    return Buffer.concat([Buffer.from(head.join(""), "latin1"), report]);
}

/** The head that these bytes begin with: its status, its fields, and how long it is. Undefined if they begin with none
 * that is whole; null if they can't. */
function headIn(bytes) {
    const isLed = bytes.subarray(0, 2).equals(Buffer.from("\r\n")) && !bytes.subarray(2, 4).equals(Buffer.from("\r\n"));
    const block = bytes.subarray(isLed ? 2 : 0);
    const end = block.indexOf("\r\n\r\n");
    if (end === -1 || end + 4 > LARGEST_HEAD) {
        return block.length < LARGEST_HEAD && end === -1 ? undefined : null;
    }
    const [line, ...rest] = block.subarray(0, end).toString("latin1").split("\r\n");
    const status = STATUS_LINE.exec(line)?.[1];
    const fields = rest.map((field) => FIELD.exec(field));
    if (status === undefined || fields.length > MOST_FIELDS || fields.includes(null)) {
        return null;
    }
    const values = (name) => fields.filter((field) => field[1].toLowerCase() === name).map((field) => field[2]);
    return {
        status: Number(status),
        hasCoding: values("transfer-encoding").length > 0,
        length: values("content-length").join(",") || null,
        end: (isLed ? 2 : 0) + end + 4,
    };
}

/** The reply that these bytes begin with, heads of a status from 100 to 199 skipped. If it is not whole yet, how many
 * bytes it `needs` at least; null if there can't be one. */
function replyIn(bytes, from = 0) {
    const head = headIn(bytes.subarray(from));
    if (!head) {
        return head === null ? null : { needs: bytes.length + 1 };
    }
    const start = from + head.end;
    if (head.status >= 100 && head.status < 200) {
        return replyIn(bytes, start);
    }
    const declared = Number(head.length?.split(",")[0]);
    if (head.hasCoding || head.length === null || !(declared <= LARGEST_CONTENT)) {
        return null;
    }
    const end = start + declared;
    const { status, length } = head;
    return bytes.length < end ? { needs: end } : { status, length, content: bytes.subarray(start, end) };
}

/** The reply to these bytes, sent to a port of 127.0.0.1; null if none came whole within so many seconds. */
function exchange(bytes, port, seconds) {
    return new Promise((resolve) => {
        const pieces = [];
        let [came, needed] = [0, 1];
        const socket = connect(port, "127.0.0.1", () => socket.write(bytes));
        const finish = (reply) => {
            clearTimeout(timer);
            socket.destroy();
            resolve(reply);
        };
        const timer = setTimeout(finish, seconds * 1000, null);
        socket.on("data", (piece) => {
            pieces.push(piece);
            came += piece.length;
            const reply = came < needed ? { needs: needed } : replyIn(Buffer.concat(pieces));
            needed = reply?.needs ?? 0;
            if (needed === 0) {
                finish(reply);
            }
        });
        socket.on("end", () => finish(null));
        socket.on("error", () => finish(null));
    });
}

/** What store.mjs is to the sender, in a file: a change is on the disk once it is made. */
class FileStore {
    #file;
    #whole;

    /** The outbox in this file; or a new one of this filer. */
    constructor(file, filer = null) {
        this.#file = file;
        this.#whole = filer === null ? JSON.parse(readFileSync(file, "utf8")) : { filer, entries: [] };
    }

    get entries() {
        return this.#whole.entries;
    }

    put(key, target, report) {
        const entry = { ...openEntry(this.#whole.filer, key, target), id: this.entries.length + 1, tries: 0 };
        this.save([...this.entries, { ...entry, report: report.toString("base64") }]);
    }

    entry(id) {
        return this.entries[id - 1];
    }

    report(id) {
        return Buffer.from(this.entry(id).report, "base64");
    }

    settle(id, reply) {
        return this.#change(id, (entry) => entryAfter(entry, reply));
    }

    postpone(id, said, due) {
        return this.#change(id, (entry) => ({ ...entry, tries: entry.tries + 1, said, due }));
    }

    #change(id, change) {
        this.save(this.entries.map((entry) => (entry.id === id ? change(entry) : entry)));
        return this.entry(id);
    }

    /** Writes these entries beside the file, and then in its place. */
    save(entries = this.entries) {
        const [whole, beside] = [{ ...this.#whole, entries }, `${this.#file}.new`];
        onDisk(beside, "w", (descriptor) => writeFileSync(descriptor, JSON.stringify(whole)));
        renameSync(beside, this.#file);
        onDisk(dirname(this.#file), "r");
        this.#whole = whole;
    }
}

/** Opens a file or a folder, writes it, and waits for the disk. */
function onDisk(path, way, write = () => {}) {
    const descriptor = openSync(path, way);
    try {
        write(descriptor);
        fsyncSync(descriptor);
    } finally {
        closeSync(descriptor);
    }
}

function lineOf({ id, state, number }) {
    return `entry ${id} ${state}${number === null ? "" : ` ${number}`}`;
}

const commands = {
    init({ db, filer }) {
        new FileStore(db, filer).save();
    },
    put({ db, body, key, amend }) {
        new FileStore(db).put(key, amend ?? null, readFileSync(body));
    },
    async send({ db, port, entry, patience }) {
        const store = new FileStore(db);
        const send = (request, report) => exchange(bytesOf(request, report), Number(port), Number(patience));
        await new Sender(store, send, (told) => console.log(lineOf(told))).send(store.entry(Number(entry)));
    },
    status({ db }) {
        for (const entry of new FileStore(db).entries) {
            console.log(lineOf(entry));
        }
    },
};

const names = ["db", "filer", "body", "key", "amend", "port", "entry", "patience"];
const options = Object.fromEntries(names.map((name) => [name, { type: "string" }]));
const [command, ...words] = process.argv.slice(2);
await commands[command](parseArgs({ args: words, options }).values);
