/**
 * What each code of a finding means, and what to do, in each language: in English the words of docs/PROTOCOL.md, "What
 * to do about a finding".
 */
export const CODES = {
    "not-json": {
        en: [
            "The body is no JSON: it is cut off, has a byte order mark or another encoding than UTF-8, a number " +
            "beyond any float (`1e400`), half of a surrogate pair, or more than 127 levels.",
            "See whether another JSON reader takes the file.",
        ],
        de: [
            "Der Inhalt ist kein JSON: er ist abgeschnitten, hat eine Byte-Order-Mark oder eine andere Codierung als " +
            "UTF-8, eine Zahl jenseits aller Gleitkommazahlen (`1e400`), ein halbes Surrogatpaar oder mehr als 127 " +
            "Ebenen.",
            "Prüfen Sie, ob ein anderer Leser von JSON die Datei annimmt.",
        ],
    },
    "not-object": {
        en: ["The body is JSON, but a list, a string or the like.", "The report is one object."],
        de: [
            "Der Inhalt ist JSON, aber eine Liste, ein String oder dergleichen.",
            "Die Meldung ist ein einziges Objekt.",
        ],
    },
    "document-info": {
        en: ["There is no object `documentInfo`.", "Add it, with `documentType` and `taxonomy`."],
        de: ["Es gibt kein Objekt `documentInfo`.", "Fügen Sie es an, mit `documentType` und `taxonomy`."],
    },
    "document-type": {
        en: [
            "The document type is missing or of another edition.",
            'Write `"documentType":"https://xbrl.org/2021/xbrl-json"`, to the letter.',
        ],
        de: [
            "Der Dokumenttyp fehlt oder ist der einer anderen Ausgabe.",
            'Schreiben Sie `"documentType":"https://xbrl.org/2021/xbrl-json"`, Buchstabe für Buchstabe.',
        ],
    },
    namespaces: {
        en: ["`namespaces` is not an object.", "Map each prefix to its URI, or leave it out."],
        de: ["`namespaces` ist kein Objekt.", "Ordnen Sie jedem Präfix seine URI zu, oder lassen Sie es weg."],
    },
    "namespace-uri": {
        en: ["A prefix is bound to something other than a string.", "Write the URI as a string."],
        de: ["Ein Präfix ist an etwas anderes als einen String gebunden.", "Schreiben Sie die URI als String."],
    },
    taxonomy: {
        en: [
            "`taxonomy` is missing, empty or not a list, or one of its elements is not a string.",
            "List a URI; it is not fetched.",
        ],
        de: [
            "`taxonomy` fehlt, ist leer oder keine Liste, oder eines seiner Elemente ist kein String.",
            "Nennen Sie eine URI; sie wird nicht abgerufen.",
        ],
    },
    facts: {
        en: ["`facts` is not an object.", "Map each identifier to its fact."],
        de: ["`facts` ist kein Objekt.", "Ordnen Sie jeder Kennung ihren Fakt zu."],
    },
    fact: {
        en: ["A member of `facts` is not an object.", "Write an object with `value` and `dimensions`."],
        de: ["Ein Mitglied von `facts` ist kein Objekt.", "Schreiben Sie ein Objekt mit `value` und `dimensions`."],
    },
    value: {
        en: [
            "The value is missing, or a number, a boolean, a list or an object.",
            'Write it as a string, `"100"`, or `null`.',
        ],
        de: [
            "Der Wert fehlt, oder er ist eine Zahl, ein Wahrheitswert, eine Liste oder ein Objekt.",
            'Schreiben Sie ihn als String, `"100"`, oder `null`.',
        ],
    },
    decimals: {
        en: [
            "`decimals` is not a whole number of JSON: a string, `1.5`, `1.0`, or too large.",
            "Leave it out if the value is exact.",
        ],
        de: [
            "`decimals` ist keine ganze Zahl von JSON: ein String, `1.5`, `1.0`, oder zu groß.",
            "Lassen Sie es weg, wenn der Wert genau ist.",
        ],
    },
    dimensions: {
        en: ["The fact has no object `dimensions`.", "Add it, with `concept` and `entity`."],
        de: ["Der Fakt hat kein Objekt `dimensions`.", "Fügen Sie es an, mit `concept` und `entity`."],
    },
    "concept-missing": {
        en: ["The fact has no `concept`.", "Add it."],
        de: ["Der Fakt hat kein `concept`.", "Fügen Sie es an."],
    },
    "entity-missing": {
        en: ["The fact has no `entity`, and is not a note.", "Add the scheme's prefix, a colon and the filer's code."],
        de: [
            "Der Fakt hat keine `entity`, und er ist keine Fußnote.",
            "Fügen Sie das Präfix des Schemas, einen Doppelpunkt und den Code des Melders an.",
        ],
    },
    "dimension-value": {
        en: [
            "A core dimension is not a string, or one with a colon is neither a string nor `null`.",
            "Write the value as a string.",
        ],
        de: [
            "Eine Kerndimension ist kein String, oder eine mit Doppelpunkt ist weder ein String noch `null`.",
            "Schreiben Sie den Wert als String.",
        ],
    },
    name: {
        en: [
            "A concept, an entity or the name of a dimension has the wrong form.",
            "A concept is `prefix:name`, an entity `prefix:identifier`.",
        ],
        de: [
            "Ein Konzept, ein Rechtsträger oder der Name einer Dimension hat die falsche Form.",
            "Ein Konzept ist `prefix:name`, ein Rechtsträger `prefix:identifier`.",
        ],
    },
    "unbound-prefix": {
        en: ["A prefix is not a member of `namespaces`.", "Bind it there, or correct it. Case counts."],
        de: [
            "Ein Präfix ist kein Mitglied von `namespaces`.",
            "Binden Sie es dort, oder berichtigen Sie es. Groß- und Kleinschreibung zählt.",
        ],
    },
    "not-the-filer": {
        en: ["The entity's identifier is not the code in the path.", "Correct one of them. Case counts."],
        de: [
            "Die Kennung des Rechtsträgers ist nicht der Code im Pfad.",
            "Berichtigen Sie eines von beiden. Groß- und Kleinschreibung zählt.",
        ],
    },
    period: {
        en: [
            "The period has the wrong form, or no such day or time exists.",
            "`2024-12-31T00:00:00`, with no zone and no `24:00:00`.",
        ],
        de: [
            "Der Zeitraum hat die falsche Form, oder es gibt diesen Tag oder diese Uhrzeit nicht.",
            "`2024-12-31T00:00:00`, ohne Zeitzone und ohne `24:00:00`.",
        ],
    },
    "period-order": {
        en: ["The first of two times is not before the second.", "For a moment write one alone."],
        de: [
            "Die erste von zwei Zeiten liegt nicht vor der zweiten.",
            "Für einen Zeitpunkt schreiben Sie eine allein.",
        ],
    },
    unit: {
        en: ["The unit has the wrong form.", "`iso4217:EUR`; `a:x*b:y`; `a:x/b:y`; `(a:x*b:y)/c:z`."],
        de: ["Die Einheit hat die falsche Form.", "`iso4217:EUR`; `a:x*b:y`; `a:x/b:y`; `(a:x*b:y)/c:z`."],
    },
    number: {
        en: [
            "The fact has a unit, and its value is no number.",
            "`1234.5`, `-1e3`, `INF`, `NaN`: no comma, space or currency; or leave the unit out.",
        ],
        de: [
            "Der Fakt hat eine Einheit, und sein Wert ist keine Zahl.",
            "`1234.5`, `-1e3`, `INF`, `NaN`: ohne Komma, Leerzeichen oder Währung; oder lassen Sie die Einheit weg.",
        ],
    },
    language: {
        en: ["The language is empty or has other characters than letters, digits and hyphens.", "`en`, `de-AT`."],
        de: [
            "Die Sprache ist leer oder hat andere Zeichen als Buchstaben, Ziffern und Bindestriche.",
            "`en`, `de-AT`.",
        ],
    },
    "unknown-dimension": {
        en: ["A name without a colon is no core dimension.", "Mind the case (`noteId`), or add a prefix."],
        de: [
            "Ein Name ohne Doppelpunkt ist keine Kerndimension.",
            "Achten Sie auf Groß- und Kleinschreibung (`noteId`), oder setzen Sie ein Präfix davor.",
        ],
    },
    "too-many": {
        en: [
            "There are more than 1,000 findings, or one at a place of more than 1,024 bytes, and none of them is " +
            "shown.",
            "Look for one cause of many, as an unbound prefix, or send a part of the facts.",
        ],
        de: [
            "Es gibt mehr als 1.000 Befunde, oder einen an einer Stelle von mehr als 1.024 Bytes, und keiner davon " +
            "wird gezeigt.",
            "Suchen Sie nach einer Ursache vieler Befunde, wie einem ungebundenen Präfix, oder senden Sie einen Teil " +
            "der Fakten.",
        ],
    },
    "not-replaceable": {
        en: [
            "The report was sent to replace a filing that is not the filer's, is not there, or was replaced.",
            "Replace the one that has no `replaced_by` in the list.",
        ],
        de: [
            "Die Meldung sollte eine Einreichung ersetzen, die nicht die des Melders ist, die es nicht gibt, oder " +
            "die schon ersetzt wurde.",
            "Ersetzen Sie die, die in der Liste kein `replaced_by` hat.",
        ],
    },
};
