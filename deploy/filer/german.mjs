/** The words of the page in German, which texts.mjs explains. */
export const GERMAN = {
    title: "Meldungen einreichen",
    notProved:
        "Diese Seite ist ein Postausgang für Melder ohne Linux. Sie ist nicht bewiesen. Sie bewahrt die Meldungen in " +
        "diesem Browser auf diesem Rechner auf, bis das Register geantwortet hat. Läuft ein Rechner mit Linux Tag " +
        "und Nacht, so nehmen Sie das Programm `outbox`, das bewiesen ist. `curl` bewahrt nichts auf: Dort behalten " +
        "Sie jede Meldung und ihren Schlüssel selbst.",

    filer: "Code des Melders",
    openFiler: "Öffnen",
    outboxOf: "Postausgang von {0}",
    otherOpen: "Offene Einträge anderer Melder: ",
    badFiler:
        "Der Code eines Melders hat 1 bis 64 Buchstaben, Ziffern, `.`, `_` und `-`. Die Codes `.` und `..` kann ein " +
        "Browser nicht senden.",

    noFiler: "Geben Sie zuerst an, für welchen Melder.",

    putIn: "Neue Meldungen",
    choose: "Dateien wählen",
    drop: "oder hier ablegen. Eingereicht wird erst, wenn Sie es sagen.",
    chosen: "Gewählte Meldungen, die noch nicht eingereicht sind",
    file: "Datei",
    size: "Größe",
    bytes: "{0} Bytes",
    key: "Schlüssel",
    keyHelp:
        "Der Schlüssel sorgt dafür, dass eine Meldung nur einmal eingereicht wird. Er ist hier zufällig; schreiben " +
        "Sie einen, der sagt, was die Meldung ist, etwa `2024-annual-1`, wenn Sie sie wiederfinden müssen.",
    target: "Ersetzt Nr.",
    keyOf: "Schlüssel von {0}",
    targetOf: "Nummer der Einreichung, die {0} ersetzt",
    remove: "Entfernen",
    removeOf: "{0} entfernen",
    fileOne: "Diese Meldung einreichen",
    fileMany: "Diese {0} Meldungen einreichen",
    clear: "Liste leeren",
    same: "Dieselbe Meldung ist schon Eintrag {0}.",
    sameHere: "Dieselbe Meldung steht zweimal in dieser Liste.",

    tooLarge: "{0} hat {1} Bytes. Eine Meldung hat höchstens {2}, daher wurde diese nicht angenommen.",
    unreadable: "{0} konnte nicht gelesen werden. Wählen Sie die Datei noch einmal.",
    badKey: "{0}: ein Schlüssel hat 1 bis 1.024 druckbare Zeichen aus ASCII.",
    badTarget: "{0}: die Nummer einer Einreichung ist eine ganze Zahl ab 1.",
    usedKey: "Nichts wurde aufgenommen: ein Schlüssel ist schon verwendet. Schreiben Sie einen anderen.",
    usedKeyHere: "{0}: zwei dieser Meldungen haben denselben Schlüssel.",
    full:
        "Nichts wurde aufgenommen: dieser Browser hat keinen Platz mehr. Löschen Sie Daten anderer Seiten, oder " +
        "reichen Sie weniger Meldungen auf einmal ein.",
    putFailed:
        "Der Browser meldet: {0}. Es ist nicht bekannt, ob die Meldungen aufgenommen wurden: laden Sie die Seite " +
        "neu und sehen Sie in der Liste nach, bevor Sie sie noch einmal einreichen.",
    kept: "Aufbewahrt und auf dem Weg: {0}.",

    noEntries: "Noch ist nichts aufgenommen.",
    show: "Zeige",
    all: "alle ({0})",
    number: "Nr.",
    report: "Meldung",
    state: "Stand",
    actions: "Dateien",
    open: "offen",
    confirmed: "bestätigt {0}",
    refused: "abgelehnt",
    clashed: "Schlüssel vergeben",
    counted: {
        open: "offen ({0})",
        confirmed: "bestätigt ({0})",
        refused: "abgelehnt ({0})",
        clashed: "Schlüssel vergeben ({0})",
    },
    replacing: "ersetzt Einreichung {0}",
    means: {
        open: "Noch keine Antwort, die entscheidet. Der Eintrag wird wieder gesendet.",
        confirmed: "Sie ist Einreichung {0}. Bewahren Sie die Nummer auf.",
        refused:
            "Sehen Sie die Befunde an, berichtigen Sie die Meldung, und reichen Sie sie unter neuem Schlüssel ein.",
        clashed:
            "Das Register hat unter diesem Schlüssel eine andere Meldung, oder dieselbe für eine andere Einreichung, " +
            "die sie ersetzt. Reichen Sie die gemeinte unter neuem Schlüssel ein.",
    },
    settled: {
        confirmed: "Eintrag {0} ist Einreichung {1}.",
        refused: "Eintrag {0} wurde abgelehnt.",
        clashed: "Der Schlüssel von Eintrag {0} ist vergeben.",
    },
    settledMany: "{0} Einträge haben ihre Antwort: {1}.",
    notSent: "Noch nicht gesendet.",
    tries: "{0}-mal gesendet. {1} Das nächste Mal um {2}.",
    once: "Einmal gesendet. {1} Das nächste Mal um {2}.",
    sendNow: "Offene jetzt senden",
    body: "Meldung",
    receipt: "Beleg",
    findingsButton: "Befunde",
    bodyOf: "Meldung von Eintrag {0}",
    receiptOf: "Beleg von Eintrag {0}",
    findingsOfButton: "Befunde von Eintrag {0}",
    more: "{0} weitere zeigen",

    silent: "Es kam keine ganze Antwort.",
    answered: "Die Antwort war {0}.",
    answers: {
        "no-certificate":
            "Die Antwort war 403: Ihr Zertifikat fehlt oder ist abgelaufen. Importieren Sie ein neues, und starten " +
            "Sie den Browser neu.",
        "not-yours": "Die Antwort war 403: Ihr Zertifikat gilt nicht für diesen Melder. Fragen Sie die Aufsicht.",
        "too-large": "Die Antwort war 413: die Meldung ist zu groß.",
        unavailable: "Die Antwort war 503: das Register ist nicht erreichbar oder beschäftigt.",
    },
    unkept:
        "Die Antwort auf Eintrag {0} kam, aber dieser Browser hat keinen Platz, sie aufzubewahren. Sie wird noch " +
        "einmal erfragt. Schaffen Sie Platz.",
    stopped: "Der Postausgang ist nicht mehr lesbar: der Browser meldet {0}. Laden Sie die Seite neu.",
    unusable:
        "Dieser Browser kann hier keinen Postausgang aufbewahren ({0}). Versuchen Sie ein Fenster, das nicht privat " +
        "ist, oder einen anderen Browser.",
    othersSend: "Ein anderer Tab dieses Browsers sendet.",
    thisSends: "Dieser Tab sendet. Er darf hinter anderen liegen, aber er muss offen sein.",
    mayDelete:
        "Wer die Daten dieser Seite im Browser löscht, löscht den Postausgang. Bewahren Sie die Belege auf. Der " +
        "Browser kann die Daten von sich aus löschen, wenn sein Speicher voll ist: ein Lesezeichen dieser Seite " +
        "erlaubt ihm, sie zu behalten.",
    isKept: "Wer die Daten dieser Seite im Browser löscht, löscht den Postausgang. Bewahren Sie die Belege auf.",

    findingsOf: "Befunde zu Eintrag {0}",
    findingsIntro:
        "Berichtigen Sie die Meldung, und reichen Sie sie unter neuem Schlüssel ein. Nach einer Berichtigung können " +
        "weitere Befunde kommen.",
    noFindings: "Das Register nannte keine Befunde.",
    missing: "fehlt",
    close: "Schließen",

    filings: "Einreichungen im Register",
    getList: "Liste holen",
    noFilings: "Das Register hat keine Einreichung von {0}.",
    filing: "Einreichung",
    facts: "Fakten",
    replaces: "Ersetzt",
    replacedBy: "Ersetzt durch",
    entry: "Eintrag",
    amend: "Ersetzen",
    amendOf: "Einreichung {0} ersetzen",
    amending: "Die nächste Meldung, die Sie wählen, ersetzt Einreichung {0}.",
    noAmending: "Nicht ersetzen",
    listFailed: "Die Liste war nicht zu holen. {0}",
    listed: "Einreichungen von {0}: {1}.",
    notThere:
        "Diese Einreichungen, die das Register bestätigt hatte, hat es nicht: {0}. Vielleicht wurde es aus einer " +
        "Kopie wiederhergestellt: fragen Sie die Aufsicht.",
};
