/** The page: what is shown, and what is done if somebody chooses files or presses a button. */
import { LARGEST_REPORT, filingsIn, findingsIn, isFiler, isKey, isNumber, listRequest, reasonOf } from "./core.mjs";
import { arrange, filled, make, marked, offer } from "./dom.mjs";
import { exchange } from "./exchange.mjs";
import { located } from "./findings.mjs";
import { digestOf, receiptName, receiptText } from "./receipt.mjs";
import { Sender } from "./sender.mjs";
import { Store } from "./store.mjs";
import { TEXTS } from "./texts.mjs";

const language = navigator.languages.map((it) => it.slice(0, 2)).find((it) => it in TEXTS) ?? "en";
const texts = TEXTS[language];
const at = (id) => document.getElementById(id);

/** The page lies in a folder beside that of the filings, and each such folder has an outbox of its own. */
const BASE = new URL("..", location.href.split(/[?#]/)[0]);
const NAME = `berruzpil ${BASE.pathname}`;
const STATES = ["open", "confirmed", "refused", "clashed"];
/** How many entries are shown at first, and how many more each time. */
const PART = 200;

/** Tells the other tabs that something was put in, or what became of an entry. */
const channel = new BroadcastChannel(NAME);
let store;
let sender;
let filer = null;
let entries = [];

function say(text) {
    at("status").replaceChildren(...marked(text));
}

function warn(text) {
    at("alert").replaceChildren(...marked(text));
}

// ---- the filer

/** Whether a browser can send for this filer: it takes the paths of two codes for those of folders. */
function isSendable(code) {
    return isFiler(code) && code !== "." && code !== "..";
}

async function openFiler(code) {
    if (!isSendable(code)) {
        warn(texts.badFiler);
        return;
    }
    warn("");
    filer = code;
    at("filer").value = code;
    history.replaceState(null, "", `?filer=${code}`);
    at("outbox").hidden = false;
    at("outbox-title").textContent = filled(texts.outboxOf, code);
    clearChosen();
    for (const id of ["entry-rows", "filing-rows", "filings-said", "not-there"]) {
        at(id).replaceChildren();
    }
    rows.clear();
    shown = PART;
    at("filings").hidden = true;
    await refresh();
}

/** Names the other filers that have open entries. */
function showOthers(open) {
    const others = [...new Set(open.map((entry) => entry.filer))].filter((code) => code !== filer);
    const links = others.flatMap((code) => [" ", make("a", { href: `?filer=${code}` }, code)]);
    at("others").hidden = others.length === 0;
    at("others").replaceChildren(texts.otherOpen, ...links);
}

// ---- new reports

/** The reports that were chosen, each with its row and inputs, and the filing that the next one replaces, or null. */
let chosen = [];
let amending = null;

function setAmending(number) {
    amending = number;
    at("amending").hidden = number === null;
    at("amending").firstElementChild.textContent = filled(texts.amending, number);
}

/** Takes files into the list of those that can be filed. */
async function choose(files) {
    const said = [];
    for (const file of files) {
        if (file.size > LARGEST_REPORT) {
            said.push(filled(texts.tooLarge, file.name, shownNumber(file.size), shownNumber(LARGEST_REPORT)));
            continue;
        }
        try {
            const bytes = new Uint8Array(await file.arrayBuffer());
            chosen.push(chosenReport(file.name, bytes, await digestOf(bytes)));
        } catch {
            said.push(filled(texts.unreadable, file.name));
        }
    }
    warn(said.join(" "));
    showChosen();
}

function chosenReport(name, bytes, sha256) {
    const key = make("input", { value: crypto.randomUUID(), spellcheck: false, autocomplete: "off" });
    const target = make("input", { value: amending ?? "", inputMode: "numeric", autocomplete: "off" });
    key.setAttribute("aria-label", filled(texts.keyOf, name));
    target.setAttribute("aria-label", filled(texts.targetOf, name));
    setAmending(null);
    const remove = make("button", { type: "button", "aria-label": filled(texts.removeOf, name) }, texts.remove);
    const note = faint();
    const row = make("tr", {}, ...cells(
        [texts.file, make("div", {}, name, note)],
        [texts.size, shownNumber(bytes.length)],
        [texts.key, key],
        [texts.target, target],
        ["", make("div", { className: "actions" }, remove)],
    ));
    row.cells[1].className = "amount";
    const report = { name, bytes, sha256, key, target, row, note };
    remove.addEventListener("click", () => {
        chosen = chosen.filter((it) => it !== report);
        showChosen();
        at("files").focus();
    });
    return report;
}

function showChosen() {
    const before = new Set();
    for (const { sha256, note } of chosen) {
        const same = entries.find((entry) => entry.sha256 === sha256);
        const isTwice = before.has(sha256);
        note.textContent = same ? filled(texts.same, same.id) : isTwice ? texts.sameHere : "";
        before.add(sha256);
    }
    at("chosen").hidden = chosen.length === 0;
    at("put").textContent = chosen.length === 1 ? texts.fileOne : filled(texts.fileMany, chosen.length);
    arrange(at("chosen-rows"), chosen.map(({ row }) => row));
}

function clearChosen() {
    chosen = [];
    setAmending(null);
    showChosen();
}

/** What is wrong with the keys and targets of the chosen reports; undefined if nothing is. */
function faultOfChosen() {
    const keys = new Set();
    for (const { name, key, target } of chosen) {
        const fault =
            (!isKey(key.value) && texts.badKey) ||
            (keys.has(key.value) && texts.usedKeyHere) ||
            (target.value.trim() !== "" && !isNumber(target.value.trim()) && texts.badTarget);
        if (fault) {
            return filled(fault, name);
        }
        keys.add(key.value);
    }
    return undefined;
}

/** Puts the chosen reports in. They are in the list until they are kept. */
async function putChosen() {
    const fault = faultOfChosen();
    warn(fault ?? "");
    if (fault !== undefined || at("put").disabled) {
        return;
    }
    at("put").disabled = true;
    try {
        const reports = chosen.map(({ name, bytes, sha256, key, target }) => {
            return { name, bytes, sha256, key: key.value, target: target.value.trim() || null };
        });
        await store.put(filer, reports);
        const names = reports.slice(0, 5).map(({ name }) => name);
        say(filled(texts.kept, [...names, ...(reports.length > 5 ? ["…"] : [])].join(", ")));
        clearChosen();
        sender.wake();
        channel.postMessage("put");
        at("files").focus();
        await showKept(true);
    } catch (fault) {
        const known = { ConstraintError: texts.usedKey, QuotaExceededError: texts.full };
        warn(known[fault.name] ?? filled(texts.putFailed, fault.message));
    } finally {
        at("put").disabled = false;
        await refresh();
    }
}

// ---- the entries

/** The row of each entry that was shown, how many may be shown, of which state, and whether that will be done soon. */
const rows = new Map();
let shown = PART;
let chosenState = null;
let refreshing = null;

/** Shows the entries as they are in the store. */
async function refresh() {
    showOthers(await store.openEntries());
    if (filer === null) {
        return;
    }
    entries = await store.entriesOf(filer);
    at("no-entries").hidden = entries.length > 0;
    at("entries").hidden = entries.length === 0;
    showCounts();
    const wanted = entries.filter(({ state }) => chosenState === null || state === chosenState).reverse();
    arrange(at("entry-rows"), wanted.slice(0, shown).map(rowOf));
    at("more").hidden = wanted.length <= shown;
    at("more").textContent = filled(texts.more, Math.min(PART, wanted.length - shown));
    at("hurry").hidden = !entries.some(({ state }) => state === "open");
}

/** Shows the entries soon: changes that come together are shown once. */
function refreshSoon() {
    refreshing ??= setTimeout(() => {
        refreshing = null;
        refresh().catch(stop);
    }, 300);
}

function showCounts() {
    for (const label of at("states").querySelectorAll("label")) {
        const { state } = label.dataset;
        const count = state === "" ? entries.length : entries.filter((entry) => entry.state === state).length;
        label.lastChild.textContent = filled(state === "" ? texts.all : texts.counted[state], count);
    }
}

/** The row of an entry. One that is there is changed in its place. */
function rowOf(entry) {
    const text = JSON.stringify(entry);
    const row = rows.get(entry.id) ?? make("tr");
    if (row.dataset.shown !== text) {
        const action = row.contains(document.activeElement) ? document.activeElement.dataset.action : null;
        row.dataset.shown = text;
        row.dataset.state = entry.state;
        row.replaceChildren(...cellsOf(entry));
        row.cells[0].className = "amount";
        row.querySelector(`[data-action="${action}"]`)?.focus();
        rows.set(entry.id, row);
    }
    return row;
}

function cellsOf(entry) {
    const about = [filled(texts.bytes, shownNumber(entry.length))];
    if (entry.target !== null) {
        about.push(filled(texts.replacing, entry.target));
    }
    return cells(
        [texts.number, String(entry.id)],
        [texts.report, make("div", {}, make("div", {}, entry.name), faint(about.join(", ")))],
        [texts.key, make("span", { className: "key" }, entry.key)],
        [texts.state, make("div", {}, ...stateOf(entry))],
        [texts.actions, make("div", { className: "actions" }, ...actionsOf(entry))],
    );
}

function stateOf({ state, number, tries, said, due }) {
    const word = make("div", { className: `state ${state}` }, filled(texts[state], number));
    const means = filled(texts.means[state], number);
    return [word, faint(...marked(state === "open" ? `${means} ${triesOf(tries, said, due)}` : means))];
}

/** What came of the requests that left an entry open. */
function triesOf(tries, said, due) {
    if (tries === 0) {
        return texts.notSent;
    }
    const answer = said === null ? texts.silent : answerOf(said);
    const next = new Date(due).toLocaleTimeString(language);
    return tries === 1 ? filled(texts.once, "", answer, next) : filled(texts.tries, tries, answer, next);
}

function answerOf({ status, reason }) {
    return texts.answers[reason] ?? filled(texts.answered, [status, reason].filter(Boolean).join(" "));
}

function actionsOf(entry) {
    const action = (name, text, label, run) => {
        const button = make("button", { type: "button", "aria-label": filled(label, entry.id) }, text);
        button.dataset.action = name;
        button.addEventListener("click", () => run().catch((fault) => warn(String(fault))));
        return button;
    };
    const actions = [action("report", texts.body, texts.bodyOf, () => giveReport(entry))];
    if (entry.state !== "open") {
        actions.push(action("receipt", texts.receipt, texts.receiptOf, () => giveReceipt(entry)));
    }
    if (entry.state === "refused") {
        actions.push(action("findings", texts.findingsButton, texts.findingsOfButton, () => showFindings(entry)));
    }
    return actions;
}

async function giveReport(entry) {
    offer(entry.name, await store.report(entry.id), "application/json");
}

async function giveReceipt(entry) {
    offer(await receiptName(entry), receiptText(entry, await store.reply(entry.id)), "application/json");
}

// ---- findings

async function showFindings(entry) {
    const [report, reply] = [await store.report(entry.id), await store.reply(entry.id)];
    const items = located(report, findingsIn(reply)).map(findingItem);
    at("findings-title").textContent = filled(texts.findingsOf, entry.id);
    at("findings").querySelector("ol").replaceChildren(...(items.length > 0 ? items : [texts.noFindings]));
    at("findings").showModal();
}

function findingItem({ code, place, line, column, before, value, after, isThere }) {
    const [means, todo] = texts.findings[code] ?? [code, ""];
    const position = make("span", { className: "position" }, `${line}:${column}`);
    const item = make("li", {},
        make("p", {}, position, make("code", {}, code)),
        make("p", {}, ...marked(means), " ", make("em", {}, ...marked(todo))),
    );
    if (place !== "" || code === "not-json") {
        item.append(make("pre", {}, before, make("mark", {}, value), after));
        item.append(make("p", { className: "place faint" }, place, isThere ? "" : ` (${texts.missing})`));
    }
    return item;
}

// ---- the list of filings

async function showFilings() {
    at("list").disabled = true;
    const asked = filer;
    const reply = await exchange(BASE, listRequest(asked));
    const filings = reply && filingsIn(reply);
    at("list").disabled = false;
    if (asked !== filer) {
        return;
    }
    if (!filings) {
        const answer = reply ? answerOf({ status: reply.status, reason: reasonOf(reply) }) : texts.silent;
        at("filings-said").textContent = filled(texts.listFailed, answer);
        return;
    }
    const said = filings.length > 0 ? texts.listed : texts.noFilings;
    at("filings-said").textContent = filled(said, filer, shownNumber(filings.length));
    at("filings").hidden = filings.length === 0;
    at("filing-rows").replaceChildren(...filings.reverse().map(filingRow));
    const there = new Set(filings.map(({ number }) => number));
    const lost = entries.map(({ number }) => number).filter((number) => number !== null && !there.has(number));
    at("not-there").textContent = lost.length > 0 ? filled(texts.notThere, lost.join(", ")) : "";
}

function filingRow({ number, facts, replaces, replacedBy }) {
    const entry = entries.find((it) => it.number === number);
    const amend = make("button", { type: "button", "aria-label": filled(texts.amendOf, number) }, texts.amend);
    amend.addEventListener("click", () => {
        setAmending(number);
        at("files").focus();
    });
    const row = make("tr", {}, ...cells(
        [texts.filing, number],
        [texts.facts, facts ?? ""],
        [texts.replaces, replaces ?? ""],
        [texts.replacedBy, replacedBy ?? ""],
        [texts.entry, entry ? String(entry.id) : ""],
        ["", ...(replacedBy === null ? [make("div", { className: "actions" }, amend)] : [])],
    ));
    [...row.cells].slice(0, 5).forEach((cell) => cell.classList.add("amount"));
    return row;
}

// ---- what all tables have

/** Cells, each of a title, which a narrow screen shows, and its children. */
function cells(...parts) {
    return parts.map(([title, ...children]) => {
        const cell = make("td", {}, ...children);
        cell.dataset.title = title;
        return cell;
    });
}

/** What is said beside something else. */
function faint(...children) {
    return make("div", { className: "faint" }, ...children);
}

function shownNumber(number) {
    return number.toLocaleString(language);
}

// ---- the whole

/** Says whether the browser may delete the outbox by itself; `asks` asks it not to. */
async function showKept(asks) {
    const isKept = (asks && (await navigator.storage.persist())) || (await navigator.storage.persisted());
    at("kept").textContent = isKept ? texts.isKept : texts.mayDelete;
}

/** What was heard of entries that were settled, and not said yet. */
let settled = [];

/** What is heard of entries that were sent, in this tab or in another one. */
function hear(message) {
    if (message.isUnkept) {
        warn(filled(texts.unkept, message.id));
    } else if (message !== "put" && message.state !== "open") {
        settled.push(message);
        // Once a second: who listens to the page would hear nothing else if many are settled one after another.
        if (settled.length === 1) {
            setTimeout(saySettled, 1000);
        }
    }
    refreshSoon();
}

/** Says what became of an entry; or of several, how many are in which state. */
function saySettled() {
    const [{ id, state, number }, ...others] = settled;
    const counts = STATES.map((it) => [it, settled.filter((one) => one.state === it).length]);
    const counted = counts.flatMap(([it, count]) => (count > 0 ? [filled(texts.counted[it], count)] : []));
    const one = filled(texts.settled[state], id, number);
    say(others.length === 0 ? one : filled(texts.settledMany, settled.length, counted.join(", ")));
    settled = [];
}

function stop(fault) {
    warn(filled(texts.stopped, fault?.message ?? fault?.type ?? fault));
}

function listen() {
    at("filer-form").addEventListener("submit", (event) => {
        event.preventDefault();
        openFiler(at("filer").value.trim()).catch(stop);
    });
    at("chosen").addEventListener("submit", (event) => {
        event.preventDefault();
        putChosen().catch(stop);
    });
    at("files").addEventListener("change", () => {
        choose([...at("files").files]);
        at("files").value = "";
    });
    at("amending").lastElementChild.addEventListener("click", () => setAmending(null));
    at("clear").addEventListener("click", clearChosen);
    at("list").addEventListener("click", showFilings);
    at("more").addEventListener("click", () => {
        shown += PART;
        refreshSoon();
    });
    at("hurry").addEventListener("click", async () => {
        await store.hurry();
        sender.wake();
        channel.postMessage("put");
        refreshSoon();
    });
    addEventListener("online", () => sender.wake());
    listenToDrops();
    channel.onmessage = ({ data }) => {
        sender.wake();
        hear(data);
    };
}

/** Files that are dropped anywhere are chosen, or else the browser would leave the page for them. */
function listenToDrops() {
    const mark = (isOver) => (event) => {
        event.preventDefault();
        at("drop").classList.toggle("over", isOver);
    };
    addEventListener("dragover", mark(true));
    addEventListener("dragleave", mark(false));
    addEventListener("drop", (event) => {
        mark(false)(event);
        if (filer === null) {
            warn(texts.noFiler);
        } else {
            choose([...event.dataTransfer.files]);
        }
    });
}

function showTexts() {
    document.documentElement.lang = language;
    document.title = texts.title;
    for (const element of document.querySelectorAll("[data-text]")) {
        element.replaceChildren(...marked(texts[element.dataset.text]));
    }
    for (const state of ["", ...STATES]) {
        const radio = make("input", { type: "radio", name: "state", checked: state === "" });
        radio.addEventListener("change", () => {
            chosenState = state || null;
            shown = PART;
            refreshSoon();
        });
        const label = make("label", {}, radio, " ", make("span"));
        label.dataset.state = state;
        at("states").append(label);
    }
}

async function begin() {
    showTexts();
    try {
        store = await Store.open(NAME, stop);
    } catch (fault) {
        warn(filled(texts.unusable, fault.message));
        return;
    }
    const send = (request, report) => exchange(BASE, request, report);
    sender = new Sender(store, send, (message) => {
        channel.postMessage(message);
        hear(message);
    });
    listen();
    at("sender").textContent = texts.othersSend;
    sender.run(NAME, () => { at("sender").textContent = texts.thisSends; }).catch(stop);
    await showKept(false);
    const known = new URLSearchParams(location.search).get("filer") ?? (await store.lastFiler());
    await (known === null ? refresh() : openFiler(known));
}

begin().catch(stop);
