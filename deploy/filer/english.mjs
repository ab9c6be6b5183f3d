/** The words of the page in English, which texts.mjs explains. */
export const ENGLISH = {
    title: "File reports",
    notProved:
        "This page is an outbox for filers without Linux. It is not proved. It keeps reports in this browser, on " +
        "this machine, until the register has answered. If a machine with Linux runs day and night, use the program " +
        "`outbox`, which is proved. `curl` keeps nothing: there you keep each report and its key yourself.",

    filer: "Filer's code",
    openFiler: "Open",
    outboxOf: "Outbox of {0}",
    otherOpen: "Open entries of other filers: ",
    badFiler:
        "A filer's code is 1 to 64 letters, digits, `.`, `_` and `-`. A browser can't send the codes `.` and `..`.",

    noFiler: "First choose a filer.",

    putIn: "New reports",
    choose: "Choose files",
    drop: "or drop them here. Nothing is filed before you say so.",
    chosen: "Chosen reports, which are not filed yet",
    file: "File",
    size: "Size",
    bytes: "{0} bytes",
    key: "Key",
    keyHelp:
        "A key makes sure that a report is filed once. It is random here; write one that says what the report is, " +
        "such as `2024-annual-1`, if you have to find it again.",
    target: "Replaces filing",
    keyOf: "Key of {0}",
    targetOf: "Filing that {0} replaces",
    remove: "Remove",
    removeOf: "Remove {0}",
    fileOne: "File this report",
    fileMany: "File these {0} reports",
    clear: "Clear the list",
    same: "The same report is entry {0} already.",
    sameHere: "The same report is in this list twice.",

    tooLarge: "{0} has {1} bytes. A report has {2} at most, so this one was not taken.",
    unreadable: "{0} could not be read. Choose it again.",
    badKey: "{0}: a key is 1 to 1,024 printable characters of ASCII.",
    badTarget: "{0}: the number of a filing is a whole number from 1 on.",
    usedKey: "Nothing was put in: a key is used already. Write another one.",
    usedKeyHere: "{0}: two of these reports have the same key.",
    full:
        "Nothing was put in: this browser has no room left. Remove data of other pages, or file fewer reports at once.",
    putFailed:
        "The browser said {0}. It is not known whether the reports were put in: load the page again, and see whether " +
        "they are in the list, before you file them once more.",
    kept: "Kept, and being sent: {0}.",

    noEntries: "Nothing was put in yet.",
    show: "Show",
    all: "all ({0})",
    number: "No",
    report: "Report",
    state: "State",
    actions: "Files",
    open: "open",
    confirmed: "confirmed {0}",
    refused: "refused",
    clashed: "clashed",
    counted: { open: "open ({0})", confirmed: "confirmed ({0})", refused: "refused ({0})", clashed: "clashed ({0})" },
    replacing: "replaces filing {0}",
    means: {
        open: "No answer yet that settles it. It is sent again.",
        confirmed: "It is filing {0}. Keep the number.",
        refused: "Look at the findings, correct the report, and file it under a new key.",
        clashed:
            "The register has another report under this key, or the same one with another filing to replace. " +
            "File the one that was meant under a new key.",
    },
    settled: {
        confirmed: "Entry {0} is filing {1}.",
        refused: "Entry {0} was refused.",
        clashed: "Entry {0} clashed.",
    },
    settledMany: "{0} entries have their answers: {1}.",
    notSent: "Not sent yet.",
    tries: "Sent {0} times. {1} Next at {2}.",
    once: "Sent once. {1} Next at {2}.",
    sendNow: "Send open ones now",
    body: "Report",
    receipt: "Receipt",
    findingsButton: "Findings",
    bodyOf: "Report of entry {0}",
    receiptOf: "Receipt of entry {0}",
    findingsOfButton: "Findings of entry {0}",
    more: "Show {0} more",

    silent: "No whole answer came.",
    answered: "The answer was {0}.",
    answers: {
        "no-certificate":
            "The answer was 403: your certificate is missing or has expired. Import a new one, and start the browser " +
            "again.",
        "not-yours": "The answer was 403: your certificate is not for this filer. Ask the supervisor.",
        "too-large": "The answer was 413: the report is too large.",
        unavailable: "The answer was 503: the register can't be reached, or is busy.",
    },
    unkept: "The answer to entry {0} came, but this browser has no room to keep it. It is asked for again. Make room.",
    stopped: "The outbox can't be read any more: the browser said {0}. Load the page again.",
    unusable: "This browser can't keep an outbox here ({0}). Try a window that is not private, or another browser.",
    othersSend: "Another tab of this browser sends.",
    thisSends: "This tab sends. It may lie behind others, but it has to be open.",
    mayDelete:
        "Deleting the data of this page in the browser deletes the outbox. Keep the receipts. The browser may delete " +
        "the data by itself if its disk is full: let it keep them, by a bookmark of this page.",
    isKept: "Deleting the data of this page in the browser deletes the outbox. Keep the receipts.",

    findingsOf: "Findings of entry {0}",
    findingsIntro: "Correct the report and file it under a new key. A correction can bring up further findings.",
    noFindings: "The register gave no findings.",
    missing: "missing",
    close: "Close",

    filings: "Filings in the register",
    getList: "Get the list",
    noFilings: "The register has no filing of {0}.",
    filing: "Filing",
    facts: "Facts",
    replaces: "Replaces",
    replacedBy: "Replaced by",
    entry: "Entry",
    amend: "Replace",
    amendOf: "Replace filing {0}",
    amending: "The next report that you choose replaces filing {0}.",
    noAmending: "Do not replace it",
    listFailed: "The list did not come. {0}",
    listed: "Filings of {0}: {1}.",
    notThere:
        "The register does not have these filings, which it had confirmed: {0}. It may have been restored from a " +
        "copy: ask the supervisor.",
};
