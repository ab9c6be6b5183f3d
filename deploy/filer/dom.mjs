/** Elements, texts and files. Nothing here makes an element of a text: a text stays a text. */

/** An element of this name, with these properties and children. A name with a hyphen is that of an attribute. */
export function make(name, properties = {}, ...children) {
    const element = document.createElement(name);
    for (const [property, value] of Object.entries(properties)) {
        if (property.includes("-") || property === "scope" || property === "for") {
            element.setAttribute(property, value);
        } else {
            element[property] = value;
        }
    }
    element.append(...children);
    return element;
}

/** A text in which `{0}` is the first of these words, and so on. */
export function filled(text, ...words) {
    return text.replace(/\{(\d)\}/g, (_, at) => words[at]);
}

/** A text as nodes, with what stands in backquotes as code. */
export function marked(text) {
    return text.split("`").map((part, at) => (at % 2 === 1 ? make("code", {}, part) : part));
}

/** Makes these the rows of a table's body, in this order. A row that stays is not touched, so it keeps the focus. */
export function arrange(body, rows) {
    const wanted = new Set(rows);
    for (const row of [...body.rows].filter((row) => !wanted.has(row))) {
        row.remove();
    }
    rows.forEach((row, at) => {
        if (body.rows[at] !== row) {
            body.insertBefore(row, body.rows[at] ?? null);
        }
    });
}

/** Offers a file to be saved. */
export function offer(name, content, type) {
    const address = URL.createObjectURL(new Blob([content], { type }));
    make("a", { href: address, download: name }).click();
    setTimeout(() => URL.revokeObjectURL(address), 60_000);
}
