#!/usr/bin/env python3
"""Tries the page for filers (deploy/filer) in a Chromium, against the built intake behind nginx with the files of
deploy/ and certificates of filers. Between the browser and nginx, and between nginx and the intake, everything goes
through this script, which can break it, hold it and count it. What the browser asks of the disk can be held and refused
as the conformance kit does it. Each report has to be filed once, under the number that the page shows. That kit also
tries the core of the page and its sender, in Node.

    tools/check_filer_page.py [--only WORD] [--intake FILE] [--outbox FILE] [--pictures FOLDER]
    tools/check_filer_page.py --planted        # damages the page in each way of FAULTS: whether that is seen

It takes the programs that `rt run` builds in their folders, if no others are given. It needs Debian's chromium,
chromium-driver, python3-selenium, libnss3-tools, nodejs, nginx and openssl; without one of them its status is 77. With
a folder it keeps pictures of the page there, outside of the repository. Status 1 if a trial fails, or if a fault is not
seen.
"""
import argparse
import base64
import contextlib
import json
import os
import pathlib
import re
import shlex
import shutil
import signal
import socket
import struct
import subprocess
import sys
import tempfile
import threading
import time

import browsers
from browsers import CONTRAST, FACTOR, Late, described, plain_options, start_driver, try_keyboard
from trials import INTAKE, OUTBOX, REPORT, ROOT, Serving, exchange, failures, free_port, hold, request, tell

sys.path.append(str(ROOT / "conformance"))
from syncs import Disk, Unseen  # noqa: E402

if browsers.webdriver:
    from browsers import ActionChains, Keys, WebDriverException

PROGRAMS = ["chromium", "chromedriver", "certutil", "pk12util", "node", "nginx", "openssl"]
HOST, OTHER = "intake.example", "other.example"
# The programs, what is deployed, and how many seconds are waited for what should come, on a machine that has much else
# to do, or more by BERRUZPIL_PATIENCE. The filers of the trials begin with `prefix`; `port` is that of the intake.
given = argparse.Namespace(intake=INTAKE, outbox=OUTBOX, deploy=ROOT / "deploy", pictures=None,
                           patience=180 * FACTOR, prefix="", port=0)


def wait_until(what, test, seconds=None):
    """What the test gives once that is true."""
    end = time.monotonic() + (seconds or given.patience)
    while time.monotonic() < end:
        if found := test():
            return found
        time.sleep(0.05)
    raise Late(what)


def done(*words, **options):
    """What a program prints that has to end well."""
    return subprocess.run(list(map(str, words)), check=True, capture_output=True, timeout=120, **options).stdout


# ---- certificates


def make_authority(folder):
    """An authority, and a server's certificate by it."""
    key = ["-newkey", "ec", "-pkeyopt", "ec_paramgen_curve:P-256", "-nodes"]
    done("openssl", "req", "-x509", *key, "-subj", "/CN=authority", "-days", "2", "-keyout", folder / "ca.key",
         "-out", folder / "ca.pem")
    done("openssl", "req", "-x509", *key, "-subj", f"/CN={HOST}", "-days", "2",
         "-addext", f"subjectAltName=DNS:{HOST},DNS:{OTHER}", "-addext", "basicConstraints=critical,CA:FALSE",
         "-CA", folder / "ca.pem", "-CAkey", folder / "ca.key", "-keyout", folder / "server.key",
         "-out", folder / "server.pem")


# Whose certificates there are.
SUBJECTS = {"acme": "/O=ACME/CN=acme-filing", "officer": "/O=Supervisor/CN=officer-1"}


def make_certificate(folder, seconds, user="acme"):
    """A user's certificate that is valid for so many seconds, as a file that a browser imports."""
    (folder / "index.txt").write_text("")
    (folder / "ca.conf").write_text(
        f"[ca]\ndefault_ca=own\n[own]\ndatabase={folder}/index.txt\nnew_certs_dir={folder}\nrand_serial=yes\n"
        "default_md=sha256\npolicy=any\nunique_subject=no\n[any]\norganizationName=supplied\ncommonName=supplied\n"
    )
    done("openssl", "req", "-new", "-newkey", "ec", "-pkeyopt", "ec_paramgen_curve:P-256", "-nodes",
         "-subj", SUBJECTS[user], "-keyout", folder / f"{user}.key", "-out", folder / f"{user}.csr")
    day = [time.strftime("%Y%m%d%H%M%SZ", time.gmtime(time.time() + at)) for at in (-60, seconds)]
    done("openssl", "ca", "-batch", "-notext", "-preserveDN", "-config", folder / "ca.conf",
         "-in", folder / f"{user}.csr",
         "-cert", folder / "ca.pem", "-keyfile", folder / "ca.key", "-startdate", day[0], "-enddate", day[1],
         "-out", folder / f"{user}.pem")
    done("openssl", "pkcs12", "-export", "-in", folder / f"{user}.pem", "-inkey", folder / f"{user}.key",
         "-name", user, "-passout", "pass:", "-out", folder / f"{user}.p12")


def import_certificate(folder, user="acme"):
    """Makes the browser's store of certificates, with the authority and this user's certificate."""
    store = folder / "home" / ".pki" / "nssdb"
    shutil.rmtree(store, ignore_errors=True)
    store.mkdir(parents=True)
    done("certutil", "-N", "-d", f"sql:{store}", "--empty-password")
    done("certutil", "-A", "-d", f"sql:{store}", "-n", "authority", "-t", "CT,,", "-i", folder / "ca.pem")
    done("pk12util", "-i", folder / f"{user}.p12", "-d", f"sql:{store}", "-W", "")


# ---- what lies between


def read_message(peer, is_whole_at_end=False):
    """The bytes of a message with a head and as much as it declares; none if the peer closes before."""
    held = b""
    while b"\r\n\r\n" not in held:
        more = peer.recv(65536)
        if not more:
            return b""
        held += more
    length = re.search(rb"(?i)content-length: *(\d+)", held)
    whole = held.index(b"\r\n\r\n") + 4 + (int(length[1]) if length else 0)
    while len(held) < whole:
        more = peer.recv(65536)
        if not more:
            return b""
        held += more
    return held


class Relay:
    """Listens on a port of its own; each connection gets a thread, and all can be cut."""

    def __init__(self, target):
        self.target, self.sockets, self.is_shut = target, set(), False
        self.listener = socket.create_server(("127.0.0.1", 0), backlog=128)
        self.port = self.listener.getsockname()[1]
        threading.Thread(target=self.serve, daemon=True).start()

    def serve(self):
        while True:
            try:
                peer = self.listener.accept()[0]
            except OSError:
                return
            if self.is_shut:
                peer.close()
                continue
            self.sockets.add(peer)
            threading.Thread(target=self.take, args=(peer,), daemon=True).start()

    def take(self, peer):
        with contextlib.suppress(OSError):
            self.relay(peer)
        self.end(peer)

    def end(self, peer):
        self.sockets.discard(peer)
        with contextlib.suppress(OSError):
            peer.shutdown(socket.SHUT_RDWR)
        peer.close()

    def cut(self):
        """Resets all connections."""
        for peer in list(self.sockets):
            with contextlib.suppress(OSError):
                peer.setsockopt(socket.SOL_SOCKET, socket.SO_LINGER, struct.pack("ii", 1, 0))
            self.end(peer)

    def close(self):
        self.listener.close()
        self.cut()


class Front(Relay):
    """Passes bytes between the browser and nginx."""

    def relay(self, peer):
        with socket.create_connection(("127.0.0.1", self.target)) as other:
            self.sockets.add(other)
            back = threading.Thread(target=self.pump, args=(other, peer), daemon=True)
            back.start()
            self.pump(peer, other)
            back.join()
            self.sockets.discard(other)

    @staticmethod
    def pump(source, sink):
        with contextlib.suppress(OSError):
            while more := source.recv(65536):
                sink.sendall(more)
        for one in (source, sink):
            with contextlib.suppress(OSError):
                one.shutdown(socket.SHUT_RDWR)


class Back(Relay):
    """Passes whole requests from nginx to the intake, and its replies back. `came` has the POSTs that came, each as its
    key and whether the intake got it. `before` and `after` are called with a request before the intake has it, and once
    it has answered; if one gives False, nginx gets no answer."""

    def __init__(self, target):
        self.came, self.before, self.after = [], None, None
        super().__init__(target)

    def relay(self, peer):
        while given := read_message(peer):
            key = re.search(rb'(?i)\r\nidempotency-key: "(.*)"\r\n', given)
            if given.startswith(b"POST "):
                self.came.append(key[1].decode() if key else None)
                if self.before and self.before(given) is False:
                    return
            with socket.create_connection(("127.0.0.1", self.target)) as intake:
                intake.sendall(given)
                reply = read_message(intake)
            if given.startswith(b"POST ") and self.after and self.after(given) is False:
                return
            peer.sendall(reply)


# ---- all together


@contextlib.contextmanager
def serving():
    """One intake for all trials, each of which has a filer of its own."""
    with tempfile.TemporaryDirectory() as folder:
        given.port = free_port()
        words = ["serve", "--db", f"{folder}/register.db", "--port", str(given.port), "--connections", "1000000"]
        with subprocess.Popen([given.intake, *words, "--new"], stderr=subprocess.PIPE, text=True) as process:
            tell(process.stderr.readline().strip())
            threading.Thread(target=process.stderr.read, daemon=True).start()
            try:
                yield
            finally:
                process.terminate()


class Bench:
    """nginx before the intake, and what lies between; browsers come and go."""

    def __init__(self, folder, filer, seconds=86_400):
        self.folder, self.filer, self.browsers, self.port = folder, filer, [], given.port
        make_authority(folder)
        make_certificate(folder, seconds)
        import_certificate(folder)
        self.back = Back(given.port)
        self.nginx_port, self.nginx = free_port(), None
        self.start_nginx()
        self.front = Front(self.nginx_port)

    def start_nginx(self):
        """Starts nginx with the files of deploy/, in place of the one that runs."""
        if self.nginx:
            self.nginx.terminate()
            self.nginx.wait(60)
        folder = self.folder
        text = (given.deploy / "nginx-intake.conf").read_text()
        for old, new in [
            ("127.0.0.1:8080", f"127.0.0.1:{self.back.port}"), ("listen 443", f"listen 127.0.0.1:{self.nginx_port}"),
            ("/etc/nginx/tls/filers-ca.pem", f"{folder}/ca.pem"), ("/etc/nginx/tls", str(folder)),
            ("/srv/pages/register", f"{folder}/pages"), ("/var/log/berruzpil/", f"{folder}/"),
            ("/usr/share/berruzpil/filer", str(given.deploy / "filer")),
            ('    "~^acme ACME$" 1;', f'    "~^acme {self.filer}$" 1;'),
        ]:
            text = text.replace(old, new)
        # Somebody else's server, which notes what it is asked for.
        text += (f"server {{ listen 127.0.0.1:{self.nginx_port} ssl; server_name {OTHER};"
                 f" access_log {folder}/other.log;"
                 f" ssl_certificate {folder}/server.pem; ssl_certificate_key {folder}/server.key;"
                 " default_type text/javascript; location / { return 200 'window.foreign = true;'; } }\n")
        (folder / "other.log").touch()
        temporary = "".join(f"    {kind}_temp_path {folder}/{kind};\n"
                            for kind in ["client_body", "proxy", "fastcgi", "uwsgi", "scgi"])
        log = (ROOT / "deploy" / "nginx-berruzpil-log.conf").read_text().replace(":8079", f":{free_port()}")
        # The machine's own files may compress whatever they can.
        (folder / "nginx.conf").write_text(
            f"daemon off;\nuser root;\npid {folder}/pid;\nerror_log {folder}/error.log;\nworker_processes 1;\n"
            "events { worker_connections 768; }\nhttp {\n    access_log off;\n    gzip on;\n    gzip_types *;\n"
            f"{temporary}{log}{text}}}\n")
        self.nginx = subprocess.Popen(["nginx", "-c", folder / "nginx.conf", "-p", folder],
                                      stdout=subprocess.DEVNULL, stderr=subprocess.DEVNULL)
        wait_until("nginx", lambda: is_listening(self.nginx_port))

    def browser(self, disk=None):
        browser = Browser(self, disk)
        self.browsers.append(browser)
        return browser

    def close(self):
        for browser in self.browsers:
            browser.close()
        self.front.close()
        self.back.close()
        self.nginx.terminate()
        self.nginx.wait(60)

    # What the register has, asked of the intake itself.

    def filings(self):
        reply = exchange(self.port, f"GET /filings/{self.filer} HTTP/1.0\r\n\r\n".encode())
        return json.loads(reply.partition(b"\r\n\r\n")[2])["filings"]

    def report(self, at):
        """A report of the filer that differs from the others."""
        return REPORT.replace(b'"100"', b'"%d"' % at).replace(b"lei:ACME", b"lei:" + self.filer.encode())

    def number_of(self, key, body):
        """The number under which a report was filed: what a repeat is answered."""
        reply = exchange(self.port, request(key, body, self.filer))
        return json.loads(reply.partition(b"\r\n\r\n")[2]).get("number")


def is_listening(port):
    with contextlib.suppress(OSError):
        socket.create_connection(("127.0.0.1", port), timeout=5).close()
        return True


class Browser:
    """A Chromium with the profile and the certificates of a folder. If a disk is given, it asks that one."""

    def __init__(self, bench, disk=None):
        self.bench, self.profile = bench, bench.folder / "profile"
        options = plain_options(self.profile, f"host-resolver-rules=MAP *:443 127.0.0.1:{bench.front.port}")
        # For this host the browser takes the certificate that it has, and does not ask which one.
        chosen = {f"https://{HOST}:443,*": {"setting": {"filters": [{}]}}}
        setting = "profile.content_settings.exceptions.auto_select_certificate"
        options.add_experimental_option("prefs", {setting: chosen, "intl.accept_languages": "en-US,en"})
        start = disk.start if disk else subprocess.Popen
        self.driver, self.stop = start_driver(options, bench.folder / "home", start)
        self.driver.set_script_timeout(given.patience)
        self.driver.set_page_load_timeout(given.patience)
        self.process = int(os.readlink(self.profile / "SingletonLock").rpartition("-")[2])
        downloads = bench.folder / "downloads"
        downloads.mkdir(exist_ok=True)
        self.command("Browser.setDownloadBehavior", behavior="allow", downloadPath=str(downloads))

    def open(self):
        self.driver.get(f"https://{HOST}/file/?filer={self.bench.filer}")
        wait_until("the page", lambda: self.run("return !document.getElementById('outbox').hidden"))
        return self

    def run(self, script, *words):
        return self.driver.execute_script(script, *words)

    def press(self, selector):
        self.run("const it = document.querySelector(arguments[0]); it.focus(); it.click()", selector)

    def type(self, key):
        ActionChains(self.driver).send_keys(key).perform()

    def text(self, name):
        return self.run("return document.getElementById(arguments[0]).innerText", name)

    def drop(self, reports):
        """Drops files of these names and bytes on the page, and waits until it has taken or refused each."""
        files = [[name, base64.b64encode(body).decode()] for name, body in reports]
        self.run("""
            const transfer = new DataTransfer();
            for (const [name, body] of arguments[0]) {
                transfer.items.add(new File([Uint8Array.from(atob(body), (it) => it.charCodeAt(0))], name));
            }
            document.getElementById("drop").dispatchEvent(
                new DragEvent("drop", { dataTransfer: transfer, bubbles: true, cancelable: true }));
        """, files)

    def chosen(self):
        return self.run("return document.getElementById('chosen-rows').rows.length")

    def choose(self, reports):
        """Drops reports, and gives their keys once they are chosen."""
        before = self.chosen()
        self.drop(reports)
        wait_until("the files are chosen", lambda: self.chosen() == before + len(reports))
        keys = self.run("return [...document.querySelectorAll('#chosen-rows tr')].map("
                        "(row) => row.querySelector('input').value)")
        return keys[before:]

    def file(self, reports, keys=(), target=None):
        """Drops reports, writes these keys, and presses the button. Gives the keys, once all are in the outbox."""
        before = len(self.entries())
        self.choose(reports)
        self.run("""
            const rows = [...document.getElementById("chosen-rows").rows];
            arguments[0].forEach((key, at) => { rows[at].querySelectorAll("input")[0].value = key; });
            if (arguments[1]) { rows[0].querySelectorAll("input")[1].value = arguments[1]; }
        """, list(keys), target)
        found = self.run("return [...document.querySelectorAll('#chosen-rows tr')].map("
                         "(row) => row.querySelector('input').value)")
        self.press("#put")
        wait_until("the reports are kept", lambda: len(self.entries()) == before + len(reports))
        return found

    def entries(self):
        """The entries that are shown, the first one first: id, name, key, state, and the number of a confirmed one."""
        rows = self.run("""
            return [...document.getElementById("entry-rows").rows].map((row) => [row.cells[0].innerText,
                row.cells[1].firstChild.firstChild.innerText, row.cells[2].textContent, row.dataset.state,
                row.cells[3].querySelector(".state").innerText]);
        """)
        return [(int(number), name, key, state, int(said.split()[1]) if state == "confirmed" else None)
                for number, name, key, state, said in reversed(rows)]

    def states(self):
        return [entry[3] for entry in self.entries()]

    def settled(self, count):
        """The entries, once so many are there and none is open."""
        return wait_until(f"{count} entries are settled",
                          lambda: len(self.states()) == count and "open" not in self.states() and self.entries())

    def ask(self, path, report=None):
        return self.driver.execute_async_script(ASK, path, report)

    def console(self):
        return [line["message"] for line in self.driver.execute("getLog", {"type": "browser"})["value"]]

    def command(self, name, **words):
        return browsers.command(self.driver, name, **words)

    def cut_off(self, is_offline):
        """Takes the browser off the network, or lets it on again."""
        conditions = {"offline": is_offline, "latency": 0, "throughput": -1}
        self.driver.execute("setNetworkConditions", {"network_conditions": conditions})

    def resize(self, width, height):
        browsers.resize(self.driver, width, height)

    def look(self, width, colours, language):
        """Opens the page at this width, in these colours, for a reader of this language."""
        agent = self.run("return navigator.userAgent")
        self.command("Emulation.setUserAgentOverride", userAgent=agent, acceptLanguage=language)
        self.command("Emulation.setEmulatedMedia", features=[{"name": "prefers-color-scheme", "value": colours}])
        self.resize(width, 1000)
        return self.open()

    def saved(self, name):
        """The bytes of a file that the page gave, once it is there."""
        path = self.bench.folder / "downloads" / name
        wait_until(f"the file {name}", path.exists)
        found = path.read_bytes()
        path.unlink()
        return found

    def kill(self):
        """Ends the browser as a crash does."""
        os.kill(self.process, signal.SIGKILL)

    def close(self):
        with contextlib.suppress(Exception):
            self.driver.quit()
        with contextlib.suppress(Exception):
            self.stop()


# ---- trials of the core, in Node


def in_node(script, *words):
    """What a module that lies beside those of the page exports by this script, as JSON."""
    text = f"console.log(JSON.stringify(await (async () => {{ {script} }})()));"
    return json.loads(done("node", "--input-type=module", "-e", text, "--", *words))


def module(name):
    return json.dumps((given.deploy / "filer" / name).as_uri())


def findings_of_protocol():
    """Each code of a finding with what it means and what to do, as docs/PROTOCOL.md has it."""
    text = (ROOT / "docs" / "PROTOCOL.md").read_text()
    kind = '`"documentType":"https://xbrl.org/2021/xbrl-json"`'
    found = {}
    rows = re.findall(r"(?m)^- `([a-z-]+)`: ((?:.*\n)(?: {2}.*\n)*)", text[text.index("What each code means") :])
    for code, words in rows:
        means, _, rest = " ".join(words.split()).partition(" *")
        found[code] = [means, rest[: rest.index(".*") + 1].replace("TYPE", kind)]
    return found


# Reports with findings of which some are missing members, behind tabs, lines and characters of several bytes.
WRONG = [
    b'{"documentInfo":{"documentType":"x","taxonomy":[]},\n "facts":{"\xc3\xa9\xf0\x9f\x92\xa5~/":{"value":1,\n   '
    b'"dimensions":{"concept":"A","period":"2024-13-01T00:00:00"}},\r\n\t"a":7, "a":{"dimensions":[]}\n}}\n',
    REPORT.replace(b"2024-12-31", b"2024-12-32").replace(b'"100"', b'"1,5"'),
    b"[1, 2]",
    b'{"a":\n1e400}',
    b'{"a":\n "\xff"}',
    b'{"a":\n"\xc3\xa9\xef\xbf',
    b'\xef\xbb\xbf{"a":1}', b'{"a":"x\\ud800y"}', b'{"a":"xyz', b"[" * 128 + b"]" * 128, b"[01]", b"[tru]", b'{"a" 1}',
    b"[1,]", b'{"a":1,}', b"[1] x", b" ",
    b'{"documentInfo":{"documentType":"https://xbrl.org/2021/xbrl-json","taxonomy":["t",\n7]},"facts":{"":{}}}',
]


def try_core(folder):
    """What the page sends, what it makes of replies, and what it keeps before."""
    outbox = given.deploy.parent / "tools" / "outbox_of_page.mjs"
    kit = [sys.executable, ROOT / "conformance" / "run.py", "outbox", "--patience", "60", "--command",
           f"node {shlex.quote(str(outbox))}"]
    ran = subprocess.run(kit, capture_output=True, text=True, check=False)
    tell(f"the conformance kit: {'; '.join(ran.stdout.splitlines()[-2:])}",
         f"status {ran.returncode}: {ran.stdout}{ran.stderr}" if ran.returncode else None)


def lint(*reports):
    """The findings of these files, by the program `outbox`."""
    words = [given.outbox, "lint", "--json", "--filer", "ACME", *reports]
    lines = subprocess.run(words, capture_output=True, check=False, timeout=120).stdout.splitlines()
    return list(map(json.loads, lines))


def shape(texts):
    """Of each text what is filled in, and what is code."""
    if isinstance(texts, dict):
        return {name: shape(text) for name, text in texts.items()}
    return list(map(shape, texts)) if isinstance(texts, list) else sorted(re.findall(r"\{\d\}|`[^`]*`", texts))


def try_words(folder):
    """Pauses, the words of findings, and where findings are, as docs/PROTOCOL.md and `outbox lint` have them."""
    texts = in_node(f"return (await import({module('texts.mjs')})).TEXTS")
    pauses = in_node(f"const {{ pauseAfter }} = await import({module('core.mjs')});"
                     "return [1, 2, 3, 8, 9, 1000].map(pauseAfter)")
    hold("the pauses grow", pauses, [2_000, 4_000, 8_000, 256_000, 300_000, 300_000])
    for language, table in texts.items():
        hold(f"{language} has each text", shape(table), shape(texts["en"]))
    hold("the words of findings", texts["en"]["findings"], findings_of_protocol())
    hold("it says what else to use", re.findall("`(.*?)`", texts["en"]["notProved"]), ["outbox", "curl"])
    reports = [folder / f"{at}.json" for at in range(len(WRONG))]
    for path, body in zip(reports, WRONG):
        path.write_bytes(body)
    wanted = lint(*reports)
    found = in_node(f"""
        const {{ located }} = await import({module('findings.mjs')});
        const fs = await import("node:fs");
        return JSON.parse(process.argv[1]).map((it) => located(new Uint8Array(fs.readFileSync(it.file)), [it])[0]);
    """, json.dumps(wanted))
    for it, its in zip(wanted, found):
        which = f"report {pathlib.Path(it['file']).stem}, {it['code']} at {it['place']!r}"
        hold(which, (its["line"], its["column"]), (it["line"], it["column"]))
        if it["value"]:
            hold(f"{which}: its value", its["value"], it["value"])
    hold("each has findings", len({it["file"] for it in wanted}), len(WRONG))


# ---- trials of the page


def hold_filed(bench, entries, sent):
    """Each report that was sent is confirmed, under the number that a repeat of it is answered, and filed once. Of many
    some 50 are repeated."""
    filed, shown = len(bench.filings()), {key: number for _, _, key, _, number in entries}
    hold("each is confirmed", sorted((key, state) for _, _, key, state, _ in entries),
         sorted((key, "confirmed") for key, _ in sent))
    again = sent[:: max(1, len(sent) // 50)]
    hold("under its number", {key: shown.get(key) for key, _ in again},
         {key: bench.number_of(key, body) for key, body in again})
    hold("no two under one number", len(set(shown.values())), len(sent))
    hold("each is filed once", (filed, len(bench.filings())), (len(sent), len(sent)))


def try_day(folder):
    """What a filer does in a day: files, a refusal, a clash, an amendment, a receipt, the list."""
    with contextlib.closing(Bench(folder, "ACME")) as bench:
        browser = bench.browser().open()
        for code in ("..", "a/b", "é"):
            browser.run("document.getElementById('filer').value = arguments[0];"
                        "document.querySelector('#filer-form button').click()", code)
            hold(f"{code} is no filer", "A filer's code is" in browser.text("alert"), True)
        browser.open()
        files = [("good.json", REPORT), ("wrong.json", WRONG[1]), ("other.json", bench.report(7))]
        keys = browser.file(files, ["k-1", 'a"b\\c '])
        hold("a key is a UUID of version 4",
             bool(re.fullmatch(r"[0-9a-f]{8}-[0-9a-f]{4}-4[0-9a-f]{3}-[89ab][0-9a-f]{3}-[0-9a-f]{12}", keys[2])), True)
        wanted = [(1, "good.json", "k-1", "confirmed", 1), (2, "wrong.json", 'a"b\\c ', "refused", None),
                  (3, "other.json", keys[2], "confirmed", 2)]
        hold("a report, a wrong one, and another", browser.settled(3), wanted)
        # A key that this outbox used is not taken; one that another outbox used clashes.
        browser.choose([("again.json", bench.report(8))])
        browser.run("document.querySelector('#chosen-rows input').value = 'k-1'")
        browser.press("#put")
        wait_until("a used key", lambda: "a key is used already" in browser.text("alert"))
        hold("nothing is put in", len(browser.entries()), 3)
        browser.press("#clear")
        bench.number_of("k-9", bench.report(9))
        browser.file([("clash.json", bench.report(8))], ["k-9"])
        hold("a key of another outbox", browser.settled(4)[3][3:], ("clashed", None))
        try_findings(browser)
        try_files(bench, browser, files, keys)
        try_amendment(bench, browser)
        hold("nothing in the console", [line for line in browser.console() if "422" not in line], [])


def try_findings(browser):
    browser.press("[data-action=findings]")
    wait_until("the findings", lambda: browser.run("return document.getElementById('findings').open"))
    wrong = browser.bench.folder / "wrong.json"
    wrong.write_bytes(WRONG[1])
    wanted = [[f"{it['line']}:{it['column']}", it["code"], it["value"]] for it in lint(wrong)]
    found = browser.run("return [...document.querySelectorAll('#findings li')].map((it) => "
                        "['.position', 'code', 'mark'].map((name) => it.querySelector(name).textContent))")
    hold("the findings of the reply", found, wanted)
    browser.type(Keys.ESCAPE)
    wait_until("Escape closes them", lambda: not browser.run("return document.getElementById('findings').open"))
    hold("the focus is where it was", browser.run("return document.activeElement.dataset.action"), "findings")


def try_files(bench, browser, files, keys):
    """The bytes and the receipts that the page gives, which are those of the program `outbox`."""
    database, folder = bench.folder / "outbox.db", bench.folder / "receipts"
    folder.mkdir()
    done(given.outbox, "init", "--db", database, "--filer", "ACME")
    for (name, body), key in zip(files, keys):
        (bench.folder / name).write_bytes(body)
        done(given.outbox, "put", "--db", database, "--body", bench.folder / name, "--key", key)
    done(given.outbox, "send", "--db", database, "--port", bench.port, "--all", "--receipts", folder)
    for number, (name, body) in enumerate(files, 1):
        row = f"#entry-rows tr:nth-last-child({number})"
        browser.press(f"{row} [data-action=report]")
        hold(f"the bytes of {name}", browser.saved(name), body)
        written = next(folder.glob(f"ACME-{number}-*"))
        browser.press(f"{row} [data-action=receipt]")
        found = browser.saved(written.name).decode()
        hold(f"the receipt of {name}", unmoved(found), unmoved(written.read_text()))
        moment = json.loads(found)["moment"]
        hold("its moment", bool(re.fullmatch(r"20\d\d-\d\d-\d\dT\d\d:\d\d:\d\d(\.\d+)?Z", moment)), True)


def unmoved(receipt):
    """A receipt without its moment and its port."""
    return re.sub(r'"port":\d+', '"port":0', re.sub(r'"moment":"[^"]*"', '"moment":""', receipt))


def try_amendment(bench, browser):
    before = bench.filings()
    browser.press("#list")
    wait_until("the list", lambda: browser.run("return document.getElementById('filing-rows').rows.length"))
    browser.press("#filing-rows tr:last-child button")
    browser.file([("amended.json", bench.report(10))])
    hold("an amendment", browser.settled(5)[4][3:], ("confirmed", len(before) + 1))
    hold("in the register", bench.filings()[-1], {"facts": 1, "number": len(before) + 1, "replaces": 1})
    browser.press("#list")
    wait_until("the list", lambda: browser.run(
        "return document.getElementById('filing-rows').rows.length") == len(before) + 1)
    found = browser.run("return [...document.getElementById('filing-rows').rows].map("
                        "(row) => [...row.cells].slice(0, 5).map((cell) => cell.innerText))")
    hold("the list", found, [["4", "1", "1", "", "5"], ["3", "1", "", "", ""], ["2", "1", "", "", "3"],
                             ["1", "1", "", "4", "1"]])
    browser.file([("refused.json", bench.report(11))], target="1")
    hold("a filing is replaced once", browser.settled(6)[5][3:], ("refused", None))


def try_killed(folder):
    """The browser is killed once a request came to the intake, before that has it, and before its answer."""
    with contextlib.closing(Bench(folder, given.prefix + "KILLED")) as bench:
        sent = []
        for at, when in enumerate(["before", "after"], 1):
            browser, is_killed = bench.browser().open(), threading.Event()

            def kill(_, browser=browser, is_killed=is_killed):
                if is_killed.is_set():
                    return True
                is_killed.set()
                browser.kill()
                return False

            setattr(bench.back, when, kill)
            [key] = browser.choose([("report.json", bench.report(at))])
            with contextlib.suppress(WebDriverException):
                browser.press("#put")
            wait_until("a request", is_killed.is_set)
            browser.close()
            sent.append((key, bench.report(at)))
            again = bench.browser().open()
            tell(f"killed {when} the intake has the request")
            hold_filed(bench, again.settled(at), sent)
            again.close()


def try_lost(folder):
    """The first replies are lost, and then nginx answers 503; the pauses grow."""
    with contextlib.closing(Bench(folder, given.prefix + "LOST")) as bench:
        times = []

        def lose(_):
            times.append(time.monotonic())
            if len(times) <= 3:
                bench.front.cut()
            return len(times) > 5

        bench.back.after = lose
        browser = bench.browser().open()
        keys = browser.file([("one.json", bench.report(1)), ("two.json", bench.report(2))])
        hold_filed(bench, browser.settled(2), list(zip(keys, [bench.report(1), bench.report(2)])))
        # Chromium itself sends a request again at once if a connection that was kept open breaks.
        hold("there is a pause", max(after - before for before, after in zip(times, times[1:])) >= 2, True)


def try_offline(folder):
    with contextlib.closing(Bench(folder, given.prefix + "OFFLINE")) as bench:
        browser = bench.browser().open()
        browser.cut_off(True)
        sent = [(f"{at}.json", bench.report(at)) for at in range(3)]
        keys = browser.file(sent)
        wait_until("it says so", lambda: "No whole answer came." in browser.text("entry-rows"))
        hold("offline", (browser.states(), bench.back.came), (["open"] * 3, []))
        browser.cut_off(False)
        hold_filed(bench, browser.settled(3), [(key, body) for key, (_, body) in zip(keys, sent)])


def try_two_tabs(folder):
    """Of two tabs one sends, and if that is closed the other goes on."""
    with contextlib.closing(Bench(folder, given.prefix + "TABS")) as bench:
        bench.back.before = lambda _: time.sleep(0.3)
        browser = bench.browser().open()
        first = browser.driver.current_window_handle
        browser.driver.switch_to.new_window("tab")
        second = browser.driver.current_window_handle
        browser.open()
        files = [(f"{at}.json", bench.report(at)) for at in range(16)]
        keys = browser.file(files[:8])
        browser.settled(8)
        hold("each is sent once", sorted(bench.back.came), sorted(keys))
        keys += browser.file(files[8:])
        browser.driver.switch_to.window(first)
        browser.driver.close()
        browser.driver.switch_to.window(second)
        entries = browser.settled(16)
        hold("it goes on", (len(bench.back.came) <= 17, "This tab sends" in browser.text("sender")), (True, True))
        hold_filed(bench, entries, [(key, body) for key, (_, body) in zip(keys, files)])


# For how many seconds what waits for the disk may not be seen.
HELD = 5


def try_disk(folder):
    """What the browser asks of the disk waits: so does a request for its report, and a state that is shown for the
    answer. If the disk refuses, what is in the outbox after a reload is filed."""
    with contextlib.closing(Bench(folder, given.prefix + "DISK")) as bench:
        disk, reports = Disk(), [(f"{at}.json", bench.report(at)) for at in range(3)]
        try:
            browser = bench.browser(disk).open()
        except Unseen as cause:
            print(f"not tried: {cause}")
            return
        try:
            keys = browser.file(reports[:1])
            browser.settled(1)
            disk.go("hold")
            keys += browser.choose(reports[1:2])
            browser.press("#put")
            wait_until("the disk is asked for a report", lambda: disk.held)
            time.sleep(HELD)
            hold("before a report is on the disk", (browser.states(), bench.back.came), (["confirmed"], keys[:1]))
            bench.back.after = lambda _: disk.go("hold")
            disk.go("pass")
            wait_until("the disk is asked for a state", lambda: len(bench.back.came) == 2 and disk.held)
            time.sleep(HELD)
            hold("before a state is on the disk", (browser.states(), "Entry 2" in browser.text("status")),
                 (["confirmed", "open"], False))
            bench.back.after = None
            disk.go("pass")
            browser.settled(2)
            disk.go("refuse")
            keys += browser.choose(reports[2:])
            browser.press("#put")
            wait_until("it says so", lambda: "Load the page again" in browser.text("alert"))
        finally:
            disk.go("pass")
        browser.open()
        kept = len(browser.entries())
        tell(f"of the report that the disk refused, {kept - 2} is in the outbox")
        hold_filed(bench, browser.settled(kept), [(key, body) for key, (_, body) in zip(keys, reports)][:kept])
        hold("nothing else was sent", sorted(set(bench.back.came)), sorted(keys[:kept]))
        tell("the calls of the browser are seen", disk.is_blind or None)


# For how many seconds Chromium goes by the room that it found at the last look.
LOOK = 35


def try_quota(folder):
    """The browser has no room: for a report, and for an answer."""
    with contextlib.closing(Bench(folder, given.prefix + "QUOTA")) as bench:
        browser, origin = bench.browser().open(), f"https://{HOST}"
        browser.command("Storage.overrideQuotaForOrigin", origin=origin, quotaSize=1)
        browser.choose([("one.json", bench.report(1))])
        browser.press("#put")
        wait_until("it says so", lambda: "no room left" in browser.text("alert"))
        hold("no room for a report", (browser.entries(), browser.chosen(), bench.back.came), ([], 1, []))
        browser.command("Storage.overrideQuotaForOrigin", origin=origin)
        browser.press("#clear")
        is_asked, may_answer = threading.Event(), threading.Event()

        def wait(_):
            is_asked.set()
            may_answer.wait(given.patience)

        bench.back.after = wait
        keys = browser.file([("one.json", bench.report(1))])
        wait_until("a request", is_asked.is_set)
        browser.command("Storage.overrideQuotaForOrigin", origin=origin, quotaSize=1)
        time.sleep(LOOK)
        may_answer.set()
        wait_until("it says so", lambda: "no room to keep it" in browser.text("alert"))
        hold("no room for an answer", browser.states(), ["open"])
        browser.command("Storage.overrideQuotaForOrigin", origin=origin)
        hold_filed(bench, browser.settled(1), [(keys[0], bench.report(1))])


def try_expired(folder):
    """The certificate expires while the page is open; with a new one the report is filed."""
    seconds = max(60, given.patience / 3)
    with contextlib.closing(Bench(folder, given.prefix + "EXPIRED", seconds)) as bench:
        end = time.monotonic() + seconds + 2
        browser = bench.browser().open()
        time.sleep(max(0, end - time.monotonic()))
        bench.start_nginx()
        bench.front.cut()
        keys = browser.file([("report.json", bench.report(1))])
        wait_until("it says so", lambda: "certificate is missing or has expired" in browser.text("entry-rows"))
        hold("by an expired certificate", (browser.states(), bench.back.came), (["open"], []))
        browser.close()
        make_certificate(folder, 86_400)
        import_certificate(folder)
        hold_filed(bench, bench.browser().open().settled(1), [(keys[0], bench.report(1))])


# Asks nginx for a path, with a report if one is given. Gives the status, the type and the content of the answer.
ASK = """
    const [path, report, give] = arguments;
    const more = report && { method: "POST", headers: { "Idempotency-Key": '"k-1"' }, body: report };
    fetch(path, more || {}).then(async (it) => give([it.status, it.headers.get("Content-Type"), await it.text()]));
"""
NOT_YOURS = [403, "application/problem+json",
             '{"reason":"not-yours","status":403,"title":"Forbidden","type":"about:blank"}']


def try_rights(folder):
    """A filer has the page for filers, and no page of the register; an officer has these, and files for nobody."""
    serving_one = Serving(folder / "odd.db", 1, "--new", program=given.intake)
    exchange(serving_one.port, request("k-1", REPORT))
    serving_one.end()
    (folder / "pages").mkdir()
    done(given.intake, "pages", "--db", folder / "odd.db", "--into", folder / "pages")
    with contextlib.closing(Bench(folder, given.prefix + "RIGHTS")) as bench:
        own = f"/filings/{bench.filer}"
        browser = bench.browser().open()
        for path in ("/pages/", "/pages/index.html", "/pages/filing-1.json", "/pages/none", "/filings/OTHER"):
            hold(f"a filer, {path}", browser.ask(path), NOT_YOURS)
        hold("a filer, the own list", browser.ask(own), [200, "application/json", '{"filings":[]}'])
        browser.close()
        make_certificate(folder, 86_400, "officer")
        import_certificate(folder, "officer")
        browser = bench.browser()
        browser.driver.get(f"https://{HOST}/pages")
        wait_until("the pages", lambda: browser.run("return document.querySelectorAll('tbody tr').length") == 1)
        hold("an officer, the pages", browser.run("return location.pathname"), "/pages/")
        browser.press("tbody a")
        wait_until("the page of the filer", lambda: "filer-ACME" in browser.run("return location.pathname"))
        hold("an officer, a report", browser.ask("filing-1.json"), [200, "application/json", REPORT.decode()])
        hold("nothing in the console", browser.console(), [])
        for report in (None, REPORT.decode()):
            hold(f"an officer, {'a report' if report else 'a list'} of a filer", browser.ask(own, report), NOT_YOURS)
        browser.open().file([("report.json", bench.report(1))])
        wait_until("it says so", lambda: "certificate is not for this filer" in browser.text("entry-rows"))
        hold("an officer files nothing", (browser.states(), bench.back.came, bench.filings()), (["open"], [], []))


def try_sizes(folder):
    """A report of 1 MiB is filed, and one of a byte more is not taken."""
    with contextlib.closing(Bench(folder, given.prefix + "SIZES")) as bench:
        browser, largest = bench.browser().open(), bench.report(1).ljust(1_048_576)
        browser.drop([("more.json", largest + b" ")])
        wait_until("it says so", lambda: "more.json has 1,048,577 bytes" in browser.text("alert"))
        hold("a byte more", (browser.chosen(), bench.back.came), (0, []))
        keys = browser.file([("largest.json", largest)])
        hold_filed(bench, browser.settled(1), [(keys[0], largest)])


# How many reports are dropped at once.
MANY = 500


def try_many(folder):
    """Many reports are dropped at once, and the browser is killed among them."""
    with contextlib.closing(Bench(folder, given.prefix + "MANY")) as bench:
        browser = bench.browser().open()
        files = [(f"{at}.json", bench.report(at)) for at in range(MANY)]
        begin = time.monotonic()
        keys = browser.choose(files)
        browser.press("#put")
        wait_until("some are sent", lambda: len(bench.back.came) >= MANY // 5)
        browser.kill()
        browser.close()
        browser = bench.browser().open()
        wait_until("all are settled", lambda: f"confirmed ({MANY})" in browser.text("states"), 4 * given.patience)
        while browser.run("return !document.getElementById('more').hidden"):
            browser.press("#more")
            time.sleep(1)
        hold_filed(bench, browser.entries(), [(key, body) for key, (_, body) in zip(keys, files)])
        tell(f"{MANY} reports in {time.monotonic() - begin:.0f} s, a new browser among them")


def copy_deployed(source, target):
    """Copies the page and the file of nginx into a new folder."""
    shutil.copytree(source / "filer", target / "filer")
    shutil.copy(source / "nginx-intake.conf", target)


def try_policy(folder):
    """What gets into the page's markup loads nothing from elsewhere, and runs no script."""
    deploy, own = folder / "deploy", given.deploy
    copy_deployed(own, deploy)
    page = deploy / "filer" / "index.html"
    index = page.read_text()
    page.write_text(index.replace("</body>", f"""<script src="https://{OTHER}/script"></script>
<script>window.inline = true;</script><style>body {{ --inline: 1; }}</style>
<link rel="stylesheet" href="https://{OTHER}/style"><img src="https://{OTHER}/image">
<iframe src="https://{OTHER}/frame"></iframe></body>"""))
    given.deploy = deploy
    try:
        with contextlib.closing(Bench(folder, given.prefix + "POLICY")) as bench:
            browser = bench.browser().open()
            wait_until("the page is whole", lambda: browser.run("return document.readyState") == "complete")
            browser.driver.execute_async_script(
                f"fetch('https://{OTHER}/fetch').catch(() => 0).finally(arguments[0])")
            fields = browser.driver.execute_async_script(
                "fetch('/file').then((reply) => arguments[0]([reply.url, ...['Content-Security-Policy',"
                "'X-Content-Type-Options', 'Cache-Control'].map((name) => reply.headers.get(name))]), arguments[0])")
            hold("the fields of the page", fields,
                 [f"https://{HOST}/file/", "frame-ancestors 'none'", "nosniff", "no-cache"])
            found = browser.run("return [window.foreign, window.inline,"
                                "getComputedStyle(document.body).getPropertyValue('--inline')]")
            hold("no other script and style", found, [None, None, ""])
            time.sleep(1)
            hold("nothing is asked for elsewhere", (folder / "other.log").read_text(), "")
    finally:
        given.deploy = own


# The widths, colours and languages in which the page is looked at.
LOOKS = [(1200, "light", "en"), (1200, "dark", "de"), (390, "light", "de"), (390, "dark", "en")]


def try_looks(folder):
    """Keyboard, names, widths, colours and languages."""
    with contextlib.closing(Bench(folder, given.prefix + "LOOKS")) as bench:
        bench.back.before = lambda data: b"k-open" not in data
        browser = bench.browser().open()
        bodies = [bench.report(1), WRONG[0], bench.report(5)]
        browser.file(list(zip(["annual-2024.json", "quarter.json", "late.json"], bodies)),
                     ["2024-annual-1", "2024-q4-1", "k-open"])
        wait_until("two are settled", lambda: browser.states()[:2] == ["confirmed", "refused"])
        try_keyboard(browser.driver)
        for width, colours, language in LOOKS:
            browser.look(width, colours, language)
            browser.choose([("correction.json", bench.report(6)), ("annual-2024.json", bench.report(1))])
            browser.press("#list")
            wait_until("the list", lambda: ": 1." in browser.text("filings-said"))
            name = f"{width}-{colours}-{language}"
            hold(f"{name}: the language", browser.run("return document.documentElement.lang"), language)
            hold(f"{name}: nothing is wider than the screen",
                 browser.run("return document.scrollingElement.scrollWidth <= innerWidth"), True)
            hold(f"{name}: contrast", browser.run(CONTRAST), [])
            take_picture(browser, name, width)
            browser.press("[data-action=findings]")
            hold(f"{name}: contrast of the findings", browser.run(CONTRAST), [])
            take_picture(browser, f"{name}-findings", width, 900)
            browser.press("#findings button")
            hold(f"{name}: the button closes the findings",
                 browser.run("return document.getElementById('findings').open"), False)


def take_picture(browser, name, width, height=None):
    if given.pictures is None:
        return
    height = height or browser.run("return document.scrollingElement.scrollHeight")
    browser.resize(width, height)
    time.sleep(0.5)
    browsers.take_picture(browser.driver, given.pictures / f"{name}.png")
    browser.resize(width, 1000)


TRIALS = [try_core, try_words, try_day, try_killed, try_lost, try_offline, try_two_tabs, try_disk, try_quota,
          try_expired, try_rights, try_sizes, try_many, try_policy, try_looks]
# Which trial sees what: a file of the page, what it has, and what it gets.
FAULTS = [
    ("the state stored after the send", try_killed, "filer/page.mjs", "        await store.put(filer, reports);\n",
     """        for (const { key, bytes } of reports) {
            const fields = { "Idempotency-Key": `"${key}"` };
            await exchange(BASE, { method: "POST", path: `/filings/${filer}`, fields }, bytes);
        }
        await store.put(filer, reports);
"""),
    ("the key made again after a reload", try_killed, "filer/sender.mjs", "requestOf(entry)",
     "requestOf({ ...entry, key: `${entry.key}-${performance.timeOrigin}` })"),
    ("two senders", try_two_tabs, "filer/sender.mjs", "await navigator.locks.request(lock, async () => {",
     "await (async (_, run) => run())(lock, async () => {"),
    ("a policy that allows a foreign script", try_policy, "filer/index.html", "script-src 'self'",
     "script-src 'self' https:"),
    ("a state shown that could not be stored", try_quota, "filer/sender.mjs",
     "this.#tell({ id: entry.id, isUnkept: true });", "this.#tell({ id: entry.id, state: 'confirmed' });"),
    ("no pause after a failure", try_words, "filer/core.mjs", "Math.min(1000 * 2 ** tries, 300_000)", "10"),
    ("a reply that is cut counts as whole", try_core, "filer/core.mjs", "BigInt(part) === BigInt(content.length)",
     "true"),
    ("columns are bytes of UTF-16", try_words, "filer/json.mjs", "code > 0xffff ? 2 : 1", "1"),
    ("a report of any size is taken", try_sizes, "filer/page.mjs", "file.size > LARGEST_REPORT", "false"),
    ("a 403 settles an entry", try_expired, "filer/core.mjs",
     '(reply.status === 422 || reply.status === 400) && words.includes("refused")',
     "reply.status >= 400 && reply.status < 500"),
    ("a report that does not wait for the disk", try_disk, "filer/store.mjs", '"reports"], "readwrite", STRICT);',
     '"reports"], "readwrite");'),
    ("a state that does not wait for the disk", try_disk, "filer/store.mjs", "this.#change(id, STRICT,",
     "this.#change(id, {},"),
    ("a state told before it is stored", try_core, "filer/sender.mjs",
     "const kept = reply === null ? entry : await this.#store.settle(entry.id, reply);",
     """this.#tell({ id: entry.id, state: "confirmed", number: "7" });
            const kept = reply === null ? entry : await this.#store.settle(entry.id, reply);"""),
    ("a front that compresses replies", try_expired, "nginx-intake.conf", "gzip_types text/css text/javascript;", ""),
    ("pages of the register for everybody", try_rights, "nginx-intake.conf",
     """        set $filer /pages;
        if ($may_file = 0) {
            return 403;
        }
""", ""),
    ("an officer who files", try_rights, "nginx-intake.conf", '"~^officer /pages$" 1;', '"~^officer " 1;'),
    ("a report that is called a problem", try_rights, "nginx-intake.conf", "application/json json;", ""),
    ("a text that fills in something else", try_words, "filer/german.mjs", '"{0} entfernen"', '"{1} entfernen"'),
]


def is_seen(fault, folder):
    """Whether a trial fails on a page with this fault."""
    _, trial, name, old, new = fault
    given.deploy = folder / "deploy"
    copy_deployed(ROOT / "deploy", given.deploy)
    (folder / "tools").mkdir()
    shutil.copy(ROOT / "tools" / "outbox_of_page.mjs", folder / "tools")
    path = given.deploy / name
    text = path.read_text()
    if text.count(old) != 1:
        sys.exit(f"{name} has {old!r} {text.count(old)} times")
    path.write_text(text.replace(old, new))
    own = folder / "trial"
    own.mkdir()
    failures.clear()
    try:
        trial(own)
    except (Late, WebDriverException, OSError, ValueError, LookupError, subprocess.SubprocessError) as late:
        tell(trial.__name__, described(late))
    return bool(failures)


def main():
    parser = argparse.ArgumentParser(description=__doc__.partition("\n")[0])
    parser.add_argument("--only", metavar="WORD", default="", help="trials and faults with this word in their name")
    parser.add_argument("--planted", action="store_true", help="damage the page, and see whether that is seen")
    parser.add_argument("--intake", type=pathlib.Path, default=INTAKE)
    parser.add_argument("--outbox", type=pathlib.Path, default=OUTBOX)
    parser.add_argument("--pictures", type=pathlib.Path, metavar="FOLDER")
    parser.parse_args(namespace=given)
    missing = [program for program in PROGRAMS if shutil.which(program) is None]
    missing += [] if browsers.webdriver else ["python3-selenium"]
    if missing:
        print(f"not tried: {', '.join(missing)}: not installed")
        return 77
    for program in (given.intake, given.outbox):
        if not program.exists():
            sys.exit(f"build the program first: (cd crates/{program.name} && rt run -- --version)")
    with serving() if given.only not in ("core", "words") else contextlib.nullcontext():
        return try_faults() if given.planted else try_page()


def try_faults():
    """Damages the page in each way of FAULTS."""
    unseen = []
    given.patience /= 3
    for at, fault in enumerate(FAULTS):
        if given.only in fault[0]:
            # A filer whose code no other trial has.
            given.prefix = f"{at}-"
            print(f"== {fault[0]}", flush=True)
            with tempfile.TemporaryDirectory() as folder:
                unseen += [] if is_seen(fault, pathlib.Path(folder).resolve()) else [fault[0]]
    print(f"not seen: {', '.join(unseen) or 'none'}")
    return 1 if unseen else 0


def try_page():
    for trial in TRIALS:
        if given.only in trial.__name__:
            print(f"== {trial.__name__}", flush=True)
            with tempfile.TemporaryDirectory() as folder:
                try:
                    trial(pathlib.Path(folder).resolve())
                except (Late, WebDriverException, OSError, ValueError, LookupError, subprocess.SubprocessError) as late:
                    tell(trial.__name__, described(late))
    print(f"{len(failures)} failed")
    return 1 if failures else 0


if __name__ == "__main__":
    sys.exit(main())
