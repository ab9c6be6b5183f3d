-- Views for a copy of a register or an outbox, as `register-snapshot` makes one: `sqlite3 -init reading.sql copy.db`.
-- They live in that connection alone, and the file stays as it is. Texts of facts and places are BLOBs in the tables,
-- since a JSON text may hold any character; the views show them as text. If a file has none of the tables, the views of
-- it give an error when they are asked.

-- The filings, those that were replaced among them.
CREATE TEMP VIEW filings AS
    SELECT filing.number, seq, filer, idem AS key, length(body) AS bytes FROM filing JOIN kept USING (seq);

-- Which filing was replaced by which.
CREATE TEMP VIEW replaced AS
    SELECT target AS number, filer, number AS replaced_by
    FROM kept JOIN amends USING (seq) WHERE kept.number IS NOT NULL;

-- The filings that no other one replaces.
CREATE TEMP VIEW current AS
    SELECT * FROM filings WHERE number NOT IN (SELECT number FROM replaced);

-- The facts of all filings. For those of the current ones: `WHERE number IN (SELECT number FROM current)`.
CREATE TEMP VIEW facts AS
    SELECT fact.number, filer, pos, CAST(id AS TEXT) AS id, CAST(concept AS TEXT) AS concept,
        json_extract(CAST(dimensions AS TEXT), '$.period') AS period,
        json_extract(CAST(dimensions AS TEXT), '$.unit') AS unit,
        CAST(value AS TEXT) AS value, decimals, CAST(dimensions AS TEXT) AS dimensions
    FROM fact JOIN filing USING (number) JOIN kept USING (seq);

-- What each code of a finding means. docs/PROTOCOL.md has the same words, and what to do about each.
CREATE TEMP VIEW codes (code, word, meaning) AS
    VALUES
        (1, 'not-json',
            'The body is no JSON: it is cut off, has a byte order mark or another encoding than UTF-8, '
            || 'a number beyond any float (1e400), half of a surrogate pair, or more than 127 levels.'),
        (2, 'not-object', 'The body is JSON, but a list, a string or the like.'),
        (3, 'document-info', 'There is no object documentInfo.'),
        (4, 'document-type', 'The document type is missing or of another edition.'),
        (5, 'namespaces', 'namespaces is not an object.'),
        (6, 'namespace-uri', 'A prefix is bound to something other than a string.'),
        (7, 'taxonomy', 'taxonomy is missing, empty or not a list, or one of its elements is not a string.'),
        (8, 'facts', 'facts is not an object.'),
        (9, 'fact', 'A member of facts is not an object.'),
        (10, 'value', 'The value is missing, or a number, a boolean, a list or an object.'),
        (11, 'decimals', 'decimals is not a whole number of JSON: a string, 1.5, 1.0, or too large.'),
        (12, 'dimensions', 'The fact has no object dimensions.'),
        (13, 'concept-missing', 'The fact has no concept.'),
        (14, 'entity-missing', 'The fact has no entity, and is not a note.'),
        (15, 'dimension-value', 'A core dimension is not a string, or one with a colon is neither a string nor null.'),
        (16, 'name', 'A concept, an entity or the name of a dimension has the wrong form.'),
        (17, 'unbound-prefix', 'A prefix is not a member of namespaces.'),
        (18, 'not-the-filer', 'The entity''s identifier is not the code in the path.'),
        (19, 'period', 'The period has the wrong form, or no such day or time exists.'),
        (20, 'period-order', 'The first of two times is not before the second.'),
        (21, 'unit', 'The unit has the wrong form.'),
        (22, 'number', 'The fact has a unit, and its value is no number.'),
        (23, 'language', 'The language is empty or has other characters than letters, digits and hyphens.'),
        (24, 'unknown-dimension', 'A name without a colon is no core dimension.'),
        (25, 'too-many',
            'There are more than 1,000 findings, or one at a place of more than 1,024 bytes, '
            || 'and none of them is shown.'),
        (26, 'not-replaceable',
            'The report was sent to replace a filing that is not the filer''s, is not there, or was replaced.');

-- A row for each finding of each refused report.
CREATE TEMP VIEW refused AS
    SELECT kept.seq, filer, idem AS key, pos, code, CAST(place AS TEXT) AS place, word
    FROM kept JOIN finding USING (seq) LEFT JOIN codes USING (code);

-- How often each code was found: findings, refused reports and filers that have it, the most frequent first.
CREATE TEMP VIEW findings_by_code AS
    SELECT code, word, count(*) AS findings, count(DISTINCT seq) AS reports, count(DISTINCT filer) AS filers, meaning
    FROM finding JOIN kept USING (seq) LEFT JOIN codes USING (code) GROUP BY code ORDER BY findings DESC, code;

-- The refused reports that were sent to replace a filing: which one (target), whose that is, and which filing replaces
-- it now. Both are NULL if there is none.
CREATE TEMP VIEW refused_amendments AS
    SELECT kept.seq, kept.filer, kept.idem AS key, target, owner.filer AS filed_by, replaced_by
    FROM amends JOIN kept USING (seq) LEFT JOIN filing ON filing.number = target
        LEFT JOIN kept AS owner ON owner.seq = filing.seq
        LEFT JOIN replaced ON replaced.number = target
    WHERE kept.number IS NULL;

-- The period that `missing` and `late` ask about, as facts have it. If there is none, they take the filings of all.
-- INSERT INTO asked VALUES ('2024-01-01T00:00:00/2025-01-01T00:00:00')
CREATE TEMP TABLE asked (period TEXT NOT NULL);

-- The filings for that period: those that have a fact of it.
CREATE TEMP VIEW asked_filings AS
    SELECT number FROM filing
    WHERE NOT EXISTS (SELECT 1 FROM asked) OR number IN (SELECT number FROM facts JOIN asked USING (period));

-- Who has not filed: fill `expected` first, as by `INSERT INTO expected VALUES ('ACME')` or
-- `.import list.txt expected`, with a filer's code on each line. `refused` says how many reports of that filer were
-- refused. Codes are compared with case, without spaces and CR at their ends.
CREATE TEMP TABLE expected (filer TEXT PRIMARY KEY);
CREATE TEMP VIEW missing AS
    WITH list AS (SELECT DISTINCT trim(filer, char(9, 13, 32)) AS filer FROM expected)
    SELECT filer, (SELECT count(*) FROM kept WHERE kept.filer = list.filer) AS refused
    FROM list
    WHERE filer <> '' AND NOT EXISTS (SELECT 1 FROM kept JOIN filing USING (seq)
        WHERE kept.filer = list.filer AND filing.number IN (SELECT number FROM asked_filings))
    ORDER BY filer;

-- The filings with the moment at which the intake had each whole, by its clock: in UTC, with milliseconds, as RFC 3339
-- has it. NULL for those of a version that kept no moments; a copy that was not migrated since has no such view.
CREATE TEMP VIEW received AS
    SELECT filings.*,
        strftime('%Y-%m-%dT%H:%M:%S', moment / 1000, 'unixepoch') || printf('.%03dZ', moment % 1000) AS received
    FROM filings LEFT JOIN main.received USING (seq);

-- Who filed after a deadline. The moment is the reader's to give, in RFC 3339; in a register of several periods the
-- period, too (`asked`):
-- INSERT INTO deadline VALUES ('2025-03-31T23:59:59.999Z'); SELECT * FROM late
CREATE TEMP TABLE deadline (at TEXT NOT NULL);

-- The filings that came after it, and how many filings their filers had by then: 0 for one who was late, more for one
-- who only replaced or added a filing.
CREATE TEMP VIEW late AS
    SELECT one.number, one.filer, one.key, one.received,
        (SELECT count(*) FROM received AS other
            WHERE other.filer = one.filer AND other.number IN (SELECT number FROM asked_filings)
                AND (other.received IS NULL OR julianday(other.received) <= julianday(at))) AS in_time
    FROM received AS one, deadline
    WHERE julianday(one.received) > julianday(at) AND one.number IN (SELECT number FROM asked_filings);

-- The filings with the users who sent them, and for those without a moment the one that the log has. Both come from the
-- log of nginx: a file that `register-receipts --into` makes has them.
CREATE TEMP VIEW senders AS
    SELECT number, seq, filer, key, bytes, coalesce(own.received, receipt.received) AS received, user
    FROM received AS own LEFT JOIN receipt USING (number);

-- The entries of an outbox.
CREATE TEMP VIEW entries AS
    SELECT id, idem AS key, length(body) AS bytes,
        CASE state WHEN 0 THEN 'open' WHEN 1 THEN 'confirmed' WHEN 2 THEN 'refused' ELSE 'clashed' END AS state, number
    FROM entry;
