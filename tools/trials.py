"""What the scripts share that try the built programs from outside, and those that measure them."""
import pathlib
import socket
import sqlite3
import struct
import subprocess
import sys
import tempfile
import threading

ROOT = pathlib.Path(__file__).resolve().parent.parent
INTAKE = ROOT / "crates/intake/out/intake"
OUTBOX = ROOT / "crates/outbox/out/outbox"
DRILL = ROOT / "crates/drill/out/drill"
# How many seconds a program may take, also on a machine that has much else to do.
PATIENCE = 900
SMALLEST = b'{"documentInfo":{"documentType":"https://xbrl.org/2021/xbrl-json","taxonomy":["t"]}}'
# A report of one fact.
REPORT = (
    b'{"documentInfo":{"documentType":"https://xbrl.org/2021/xbrl-json","namespaces":{"eg":"http://example.com/eg",'
    b'"iso4217":"http://www.xbrl.org/2003/iso4217","lei":"http://standards.iso.org/iso/17442"},'
    b'"taxonomy":["http://example.com/eg.xsd"]},"facts":{"f1":{"value":"100","decimals":0,"dimensions":'
    b'{"concept":"eg:Assets","entity":"lei:ACME","period":"2024-12-31T00:00:00","unit":"iso4217:EUR"}}}}'
)
# What both programs say of a database of another version.
NOT_A_REGISTER = "not a register of this version (intake migrate upgrades an earlier one)"
NO_OUTBOX = "this outbox has another version (outbox migrate upgrades an earlier one)"
# A register of form 2, with an empty body, which is no JSON text.
EARLIER = """
CREATE TABLE intake_meta (id INTEGER PRIMARY KEY, kind TEXT NOT NULL, form INTEGER NOT NULL) STRICT;
CREATE TABLE kept (seq INTEGER PRIMARY KEY, filer TEXT NOT NULL, idem TEXT NOT NULL, body BLOB NOT NULL, number INTEGER,
    UNIQUE (filer, idem)) STRICT;
CREATE TABLE finding (seq INTEGER NOT NULL, pos INTEGER NOT NULL, code INTEGER NOT NULL, place BLOB NOT NULL,
    PRIMARY KEY (seq, pos)) STRICT;
CREATE TABLE filing (number INTEGER PRIMARY KEY, seq INTEGER NOT NULL UNIQUE) STRICT;
CREATE TABLE fact (number INTEGER NOT NULL, pos INTEGER NOT NULL, id BLOB NOT NULL, concept BLOB NOT NULL,
    dimensions BLOB NOT NULL, value BLOB, decimals INTEGER, PRIMARY KEY (number, pos)) STRICT;
INSERT INTO intake_meta VALUES (1, 'register', 2);
INSERT INTO kept VALUES (1, 'ACME', 'k-1', x'', NULL);
INSERT INTO finding VALUES (1, 1, 1, x'');
"""
# What the tables of forms 3 and 4 have besides.
LATER = {
    3: """
CREATE TABLE migrated (id INTEGER PRIMARY KEY, last INTEGER NOT NULL) STRICT;
INSERT INTO migrated VALUES (1, 0);
""",
    4: """
CREATE TABLE amends (seq INTEGER PRIMARY KEY, target INTEGER NOT NULL) STRICT;
""",
}
# An outbox of form 1, with an entry that was confirmed and one that is open.
EARLIER_OUTBOX = """
CREATE TABLE outbox_meta (id INTEGER PRIMARY KEY, kind TEXT NOT NULL, form INTEGER NOT NULL,
    filer TEXT NOT NULL) STRICT;
CREATE TABLE entry (id INTEGER PRIMARY KEY, idem TEXT NOT NULL UNIQUE, body BLOB NOT NULL, state INTEGER NOT NULL,
    number INTEGER) STRICT;
INSERT INTO outbox_meta VALUES (1, 'outbox', 1, 'ACME');
INSERT INTO entry VALUES (1, 'k-1', x'7b7d', 1, 1);
INSERT INTO entry VALUES (2, 'k-2', x'7b7d', 0, NULL);
"""
failures = []


def commands_in(lines):
    """The commands of a block of a page, and what each prints: the lines after it that begin with `#`."""
    found, goes_on = [], False
    for line in lines:
        if line.startswith("# ") and found and not goes_on:
            found[-1][1].append(line[2:])
        elif goes_on:
            found[-1][0] += "\n" + line
        else:
            found.append([line, []])
        goes_on = line.endswith("\\")
    return found


def tell(what, fault=None):
    """Says that something was tried, and what was wrong with it."""
    print(f"{'failed' if fault else 'ok'}: {what}" + (f": {fault}" if fault else ""))
    if fault:
        failures.append(what)


def hold(what, found, wanted):
    tell(what, None if found == wanted else f"{found!r} in place of {wanted!r}")


def run(program, *words, given=b"", **options):
    return subprocess.run(
        [program, *map(str, words)], input=given, capture_output=True, check=False, timeout=PATIENCE, **options
    )


def said(done, folder):
    """The status, the output and the errors of a run, with the folder's name taken out."""
    texts = [text.decode().replace(f"{folder}/", "") for text in (done.stdout, done.stderr)]
    return done.returncode, *texts


def request(key, body, filer="ACME", close=True, replaces=None):
    """A POST of the body under the key, which is to replace the filing of this number if one is given."""
    target = f"/filings/{filer}" if replaces is None else f"/filings/{filer}/{replaces}"
    closing = "Connection: close\r\n" if close else ""
    head = (
        f'POST {target} HTTP/1.1\r\nHost: h\r\nIdempotency-Key: "{key}"\r\n'
        f"{closing}Content-Length: {len(body)}\r\n\r\n"
    )
    return head.encode() + body


def free_port():
    """A port of 127.0.0.1 that nobody listens on."""
    with socket.socket() as it:
        it.bind(("127.0.0.1", 0))
        return it.getsockname()[1]


def exchange(port, given):
    """What comes back for these bytes, on a connection of their own."""
    with socket.create_connection(("127.0.0.1", port), timeout=PATIENCE) as peer:
        peer.sendall(given)
        peer.shutdown(socket.SHUT_WR)
        found = b""
        while more := peer.recv(65536):
            found += more
    return found


def statuses(replies):
    """The statuses of replies, of which none has the words of a status line in its content."""
    return [int(part[:3]) for part in replies.split(b"HTTP/1.1 ")[1:]]


class Serving:
    """An intake that serves a register, for so many connections. `under` are the words of a program that runs it, and
    what valgrind prints before the program's own first line, `ready`, is passed over. `program` is another build.
    `begun` has all that were begun."""

    begun = []

    def __init__(self, database, connections, *words, under=(), env=None, program=None):
        self.port = free_port()
        self.process = subprocess.Popen(
            [
                *under, program or INTAKE, "serve", "--db", database, "--port", str(self.port),
                "--connections", str(connections), *words,
            ],
            stdout=subprocess.PIPE,
            stderr=subprocess.PIPE,
            env=env,
        )
        self.begun.append(self.process)
        lines = map(bytes.decode, self.process.stderr)
        self.ready = next((line for line in lines if not line.startswith("==")), "")

    def end(self):
        """The status, what was printed, and what was reported after the first line, once all are served."""
        output, errors = self.process.communicate(timeout=PATIENCE)
        return self.process.returncode, output.decode(), errors.decode()


class Peer:
    """A peer of an outbox that takes a request whole on each connection, answers it by the next of these acts,
    and closes it. During the last one it listens no more. `taken` has the requests."""

    def __init__(self, *acts):
        self.listener = socket.create_server(("127.0.0.1", 0))
        self.port = self.listener.getsockname()[1]
        self.acts, self.taken = acts, []
        threading.Thread(target=self.serve, daemon=True).start()

    def serve(self):
        for left in range(len(self.acts), 0, -1):
            with self.listener.accept()[0] as connection:
                if left == 1:
                    self.listener.close()
                self.taken.append(take_request(connection))
                self.acts[-left](connection)


def take_request(connection):
    """Reads a request to the end of its body, if it has one."""
    found = b""
    while b"\r\n\r\n" not in found:
        found += connection.recv(65536)
    head, _, body = found.partition(b"\r\n\r\n")
    _, _, length = (head + b"\r\n").lower().partition(b"content-length:")
    while len(body) < int(length.partition(b"\r\n")[0] or 0):
        body += connection.recv(65536)
    return head + b"\r\n\r\n" + body


def answers(text):
    """The act of a peer that answers these bytes."""
    return lambda connection: connection.sendall(text)


def breaks(connection):
    """The act of a peer whose connection breaks: it is reset."""
    connection.setsockopt(socket.SOL_SOCKET, socket.SO_LINGER, struct.pack("ii", 1, 0))


def is_silent(connection):
    """The act of a peer that answers nothing, for as long as the outbox waits."""
    while connection.recv(65536):
        pass


def make_register(database, program=None):
    """A register without filings, maybe of another build."""
    serving = Serving(database, 1, "--new", program=program)
    exchange(serving.port, b"GET / HTTP/1.1\r\nHost: h\r\n\r\n")
    serving.end()


def make_by_sql(database, statements):
    """A database that these statements make: a file without sums."""
    conn = sqlite3.connect(database)
    conn.execute("PRAGMA journal_mode = WAL")
    conn.executescript(statements)
    conn.close()


def make_earlier(database, form=2):
    """A register of form 2, 3 or 4, in which an empty body is kept under `ACME`'s `k-1`."""
    later = "".join(text for since, text in LATER.items() if since <= form)
    make_by_sql(database, f"{EARLIER}{later}UPDATE intake_meta SET form = {form};")


def make_earlier_outbox(database, more=""):
    """An outbox of form 1 of `ACME`, with an entry that was confirmed and one that is open,
    after these statements too."""
    make_by_sql(database, EARLIER_OUTBOX + more)


def try_all(programs, trials):
    """Makes each trial in a folder of its own, says how many failed, and ends."""
    for program in programs:
        if not program.exists():
            sys.exit(f"build the program first: (cd crates/{program.name} && rt run -- --version)")
    for trial in trials:
        with tempfile.TemporaryDirectory() as folder:
            try:
                trial(pathlib.Path(folder).resolve())
            except (OSError, subprocess.TimeoutExpired, ValueError) as fault:
                tell(trial.__name__, repr(fault))
    print(f"{len(failures)} failed")
    sys.exit(1 if failures else 0)
