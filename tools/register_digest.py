#!/usr/bin/env python3
"""Computes from a copy of a register, by the standard library alone, the line that `intake digest` prints.

    tools/register_digest.py COPY [N]      of the first N kept requests, or of all

docs/PROTOCOL.md has the text. Status 4 if the copy keeps fewer requests.
"""
import contextlib
import hashlib
import pathlib
import sqlite3
import sys

KEPT = ("SELECT seq, filer, idem, target, number, moment, body FROM kept LEFT JOIN amends USING (seq) "
        "LEFT JOIN received USING (seq) ORDER BY seq")  # fmt: skip


def row_text(*fields):
    *others, body = fields
    texts = ["-" if field is None else str(field) for field in others] + [hashlib.sha256(body).hexdigest()]
    return "".join(text + "\n" for text in texts).encode("ascii")


def digest_of(rows):
    """How many rows there are, and their digest."""
    count, digest = 0, hashlib.sha256(b"").digest()
    for row in rows:
        count, digest = count + 1, hashlib.sha256(digest + row_text(*row)).digest()
    return count, digest.hex()


if __name__ == "__main__":
    until = int(sys.argv[2]) if len(sys.argv) > 2 else -1
    path = pathlib.Path(sys.argv[1]).absolute()
    # SQLite makes files beside one that is not said to be immutable, which a copy with a log is not.
    how = "mode=ro" if path.with_name(f"{path.name}-wal").exists() else "immutable=1"
    with contextlib.closing(sqlite3.connect(f"{path.as_uri()}?{how}", uri=True)) as copy:
        count, digest = digest_of(copy.execute(f"{KEPT} LIMIT ?", (until,)))
    if count < until:
        sys.exit(4)
    print(count, digest)
