#!/usr/bin/env python3
"""Holds docs/openapi.yaml to docs/PROTOCOL.md, and to what the program answers.

    tools/check_openapi.py                                  the file by itself, and against the tables of
                                                            docs/PROTOCOL.md
    tools/check_openapi.py crates/intake/out/intake         that, and the replies of this program over a register of
                                                            its own
    tools/check_openapi.py --planted                        the file with the faults in tools/planted_faults.txt whose
                                                            part is `openapi`: each has to make a check fail

Values are held to schemas by jsonschema where python3 has it, and else by the few rules that the file uses. Status 1 if
something does not agree; what could not be tried is said, and is no failure.
"""
import contextlib
import json
import pathlib
import re
import socket
import subprocess
import sys
import tempfile
import time

import check_first_days as first_days
from trials import PATIENCE

try:
    import yaml
except ImportError:
    yaml = None
try:
    import jsonschema
except ImportError:
    jsonschema = None

ROOT = pathlib.Path(__file__).resolve().parent.parent
FILE, PROTOCOL = ROOT / "docs" / "openapi.yaml", ROOT / "docs" / "PROTOCOL.md"
# The filings of a filer, and one of them.
PATH, NUMBERED = "/filings/{filer}", "/filings/{filer}/{number}"
METHODS = ("get", "post", "put", "patch", "delete")
# What the server in front answers alone.
IN_FRONT = {"no-certificate", "not-yours", "wrong-host"}
failures = []


def tell(what, fault=None):
    """Says that something was tried, and what was wrong with it."""
    print(f"{'failed' if fault else 'ok'}: {what}" + (f": {fault}" if fault else ""))
    if fault:
        failures.append(what)


# ---- schemas


def resolved(document, it):
    """What a reference names, or the thing itself."""
    while isinstance(it, dict) and "$ref" in it:
        place = document
        for name in it["$ref"].removeprefix("#/").split("/"):
            place = place[name]
        it = place
    return it


KINDS = {
    "object": lambda v: isinstance(v, dict),
    "array": lambda v: isinstance(v, list),
    "string": lambda v: isinstance(v, str),
    "integer": lambda v: isinstance(v, int) and not isinstance(v, bool),
    "null": lambda v: v is None,
}
KNOWN = {"$ref", "type", "const", "enum", "oneOf", "required", "properties", "additionalProperties", "items",
         "minItems", "maxItems", "minimum", "pattern", "format", "description"}


def fault_by_own_rules(document, schema, value):
    """Why the value is not of the schema, or None."""
    schema = resolved(document, schema)
    if set(schema) - KNOWN:
        return f"unknown rules {set(schema) - KNOWN}"
    kinds = schema.get("type", [])
    kinds = kinds if isinstance(kinds, list) else [kinds]
    if kinds and not any(KINDS[kind](value) for kind in kinds):
        return f"{value!r} is not of {kinds}"
    if "const" in schema and value != schema["const"] or "enum" in schema and value not in schema["enum"]:
        return f"{value!r} is another word"
    if "oneOf" in schema:
        fits = [one for one in schema["oneOf"] if fault_by_own_rules(document, one, value) is None]
        return None if len(fits) == 1 else f"{value!r} fits {len(fits)} of the forms"
    if isinstance(value, str) and not re.search(schema.get("pattern", ""), value):
        return f"{value!r} is not of the pattern"
    if isinstance(value, int) and value < schema.get("minimum", value):
        return f"{value} is too small"
    if isinstance(value, list):
        if not schema.get("minItems", 0) <= len(value) <= schema.get("maxItems", len(value)):
            return f"{len(value)} elements"
        return next(filter(None, (fault_by_own_rules(document, schema.get("items", {}), one) for one in value)), None)
    if isinstance(value, dict):
        return fault_of_members(document, schema, value)
    return None


def fault_of_members(document, schema, value):
    missing = set(schema.get("required", [])) - set(value)
    if missing:
        return f"{missing} is missing"
    for name, member in value.items():
        rule = schema.get("properties", {}).get(name, schema.get("additionalProperties", {}))
        if rule is False:
            return f"{name} is one too many"
        fault = fault_by_own_rules(document, rule, member) if rule is not True else None
        if fault:
            return f"{name}: {fault}"
    return None


def fault_of(document, schema, value):
    """Why the value is not of the schema, or None: by jsonschema if it is there, and by the rules above."""
    own = fault_by_own_rules(document, schema, value)
    if jsonschema is None:
        return own
    whole = {"$schema": "https://json-schema.org/draft/2020-12/schema", "components": document["components"], **schema}
    found = next((error.message[:200] for error in jsonschema.Draft202012Validator(whole).iter_errors(value)), None)
    if (own is None) != (found is None):
        return f"the two checkers differ: {own} and {found}"
    return found


# ---- the file by itself


def media_type(status):
    """What a reply's content is: JSON, or problem details (RFC 9457) where something is refused."""
    return "application/json" if status < 300 else "application/problem+json"


def responses(document):
    """Each path and method with each status and its response."""
    for path in (PATH, NUMBERED):
        for method in METHODS:
            for status, response in document["paths"][path][method]["responses"].items():
                yield f"{method} {path}", int(status), resolved(document, response)["content"][media_type(int(status))]


def words_of(document, schema):
    """The words that a content of the schema may have as its `reason`, or as its `status` if nothing is refused."""
    schema = resolved(document, schema)
    if "oneOf" in schema:
        return {word for one in schema["oneOf"] for word in words_of(document, one)}
    word = schema["properties"].get("reason") or schema["properties"].get("status", {})
    return {word["const"]} if "const" in word else set(word.get("enum", []))


def check_references(document, it, at="#"):
    if isinstance(it, dict):
        if "$ref" in it:
            try:
                resolved(document, it)
            except KeyError as name:
                tell(at, f"{it['$ref']} names nothing: {name}")
        for name, one in it.items():
            check_references(document, one, f"{at}/{name}")
    elif isinstance(it, list):
        for place, one in enumerate(it):
            check_references(document, one, f"{at}/{place}")


def check_examples(document):
    shown = []
    for path in (PATH, NUMBERED):
        body = resolved(document, document["paths"][path]["post"]["requestBody"])
        shown.append((f"a report to {path}", body["content"]["application/json"]))
    shown += [(f"{asked} {status}", content) for asked, status, content in responses(document)]
    for what, content in shown:
        tell(f"{what} has an example", None if content.get("examples") else "it has none")
        for name, example in (content.get("examples") or {}).items():
            tell(f"example {name} of {what}", fault_of(document, content["schema"], example["value"]))
    for name, parameter in document["components"]["parameters"].items():
        tell(f"example of the parameter {name}", fault_of(document, parameter["schema"], parameter["example"]))
    if jsonschema is None:
        print("not tried: the schemas by the rules of JSON Schema, since jsonschema is not installed")
        return
    for name, schema in document["components"]["schemas"].items():
        try:
            jsonschema.Draft202012Validator.check_schema(schema)
        except jsonschema.SchemaError as error:
            tell(f"the schema {name}", error.message)


def word_of(shown):
    """The word of a row: the reason, or what the content of a reply says that refuses nothing."""
    status = re.search(r'"status":"([\w-]+)"', shown)
    return status[1] if status else "filings" if shown.startswith("{") else shown


def check_paths(document):
    """The paths are the two that the intake knows, and each method is answered alike on both."""
    paths = document["paths"]
    tell("the paths", None if set(paths) == {PATH, NUMBERED} else f"{sorted(paths)}")
    for method in METHODS:
        same = paths[PATH][method]["responses"] == paths[NUMBERED][method]["responses"]
        tell(f"the answers to {method} on both paths", None if same else "they differ")


def check_protocol(document):
    """The statuses with their words are those of the table."""
    rows = re.findall(r"(?m)^\| [^|]+ \| (\d{3})(?:, closes)? \| `([^`]+)`", PROTOCOL.read_text())
    told = {(int(status), word_of(shown)) for status, shown in rows}
    mine = {(status, word) for _, status, content in responses(document)
            for word in words_of(document, content["schema"]) or {"filings"}}
    mine = {(status, word) for status, word in mine if word not in IN_FRONT}
    tell("the statuses and their words", None if told == mine else f"{sorted(told ^ mine)}")


def check_fields(document):
    """Each operation wants a certificate, and the fields of replies are those that docs/PROTOCOL.md and the server in
    front have."""
    schemes = document["components"]["securitySchemes"]
    wanted = [kind for one in document["security"] for kind in one]
    tell("a certificate is wanted", None if [schemes[it]["type"] for it in wanted] == ["mutualTLS"] else f"{wanted}")
    found = {name: (resolved(document, field).get("example"), status)
             for _, status, content in responses(document) for name, field in fields_of(document, status).items()}
    allowed = re.search(r"`Allow: ([A-Z, ]+)` comes with 405", PROTOCOL.read_text())[1]
    front = (ROOT / "deploy" / "nginx-intake.conf").read_text()
    retry = int(re.search(r"add_header Retry-After (\d+) always;\s+return 503", front)[1])
    wanted = {"Allow": (allowed, 405), "Retry-After": (retry, 503)}
    tell("the fields of replies", None if found == wanted else f"{found} in place of {wanted}")


def fields_of(document, status):
    """The fields of the replies of this status that are declared."""
    for path in (PATH, NUMBERED):
        for method in METHODS:
            response = document["paths"][path][method]["responses"].get(str(status))
            if response and (found := resolved(document, response).get("headers")):
                return found
    return {}


# ---- replies


def split_reply(data):
    """The status, the media type, the content and the rest of the bytes, behind interim responses."""
    while True:
        head, _, rest = data.partition(b"\r\n\r\n")
        status = int(head.split(b" ", 2)[1])
        if status >= 200:
            length = re.search(rb"(?i)\r\ncontent-length: *(\d+)", head)
            size = int(length[1]) if length else 0
            kind = re.search(rb"(?i)\r\ncontent-type: *([^\r]+)", head)
            return status, kind and kind[1].decode(), rest[:size], rest[size:]
        data = rest


def path_of(data):
    """The path of the file that the request's line is of: that of one filing only if the line names one."""
    return NUMBERED if re.match(rb"[A-Z]+ /filings/[^/ ]+/[1-9][0-9]* ", data) else PATH


def fault_of_reply(document, path, method, status, kind, content):
    """Why the file does not foresee this reply to this method on this path, or None."""
    response = resolved(document, document["paths"][path][method.lower()]["responses"].get(str(status)))
    if response is None:
        return f"the file has no status {status} there"
    if kind not in response["content"]:
        return f"the file has no {kind} there"
    return fault_of(document, response["content"][kind]["schema"], json.loads(content))


REPORT = json.dumps(
    {
        "documentInfo": {
            "documentType": "https://xbrl.org/2021/xbrl-json",
            "namespaces": {"eg": "u", "lei": "u", "iso4217": "u"},
            "taxonomy": ["t"],
        },
        "facts": {
            "f": {
                "value": "1",
                "dimensions": {"concept": "eg:A", "entity": "lei:ACME",
                               "period": "2024-12-31T00:00:00", "unit": "iso4217:EUR"},
            }
        },
    }
).encode()


def message(method, body=b"", key='"k-1"', path="/filings/ACME", fields=("Host: localhost",), length=True):
    """A request on a connection of its own."""
    lines = [f"{method} {path} HTTP/1.1", *fields, "Connection: close"]
    if key is not None:
        lines.append(f"Idempotency-Key: {key}")
    if length:
        lines.append(f"Content-Length: {len(body)}")
    return "\r\n".join(lines).encode() + b"\r\n\r\n" + body


# What is asked for, the method, the request, and the status that docs/PROTOCOL.md gives.
REQUESTS = [
    ("an empty list", "GET", message("GET"), 200),
    ("a report", "POST", message("POST", REPORT), 201),
    ("its repeat", "POST", message("POST", REPORT), 201),
    ("a list", "GET", message("GET"), 200),
    ("a report that replaces it", "POST", message("POST", REPORT, key='"k-6"', path="/filings/ACME/1"), 201),
    ("its repeat", "POST", message("POST", REPORT, key='"k-6"', path="/filings/ACME/1"), 201),
    ("a list of both", "GET", message("GET"), 200),
    ("a list of the first", "GET", message("GET", path="/filings/ACME/1"), 200),
    ("a list of a filing that is not there", "GET", message("GET", path="/filings/ACME/3"), 200),
    ("a second report to replace it", "POST", message("POST", REPORT, key='"k-7"', path="/filings/ACME/1"), 422),
    ("its key for another number", "POST", message("POST", REPORT, key='"k-6"', path="/filings/ACME/2"), 422),
    ("the number 0", "POST", message("POST", REPORT, key='"k-8"', path="/filings/ACME/0"), 404),
    ("a number with a leading zero", "GET", message("GET", path="/filings/ACME/01"), 404),
    ("a path that ends with a slash", "GET", message("GET", path="/filings/ACME/"), 404),
    ("another body under its key", "POST", message("POST", REPORT + b" "), 422),
    ("a report with findings", "POST", message("POST", REPORT.replace(b"12-31", b"02-30"), key='"k-2"'), 422),
    ("its repeat", "POST", message("POST", REPORT.replace(b"12-31", b"02-30"), key='"k-2"'), 422),
    ("an array", "POST", message("POST", b"[]", key='"k-3"'), 422),
    ("too many findings", "POST",
     message("POST", b'{"facts":{%s}}' % b",".join(b'"%d":1' % n for n in range(1001)), key='"k-4"'), 422),
    ("no JSON", "POST", message("POST", b"hello", key='"k-5"'), 400),
    ("no key", "POST", message("POST", REPORT, key=None), 400),
    ("a key without quotes", "POST", message("POST", REPORT, key="k-1"), 400),
    ("no host", "GET", message("GET", fields=()), 400),
    ("another path", "GET", message("GET", path="/other"), 404),
    ("another method", "PUT", message("PUT", REPORT), 405),
    ("another method of one filing", "DELETE", message("DELETE", path="/filings/ACME/1"), 405),
    ("no length", "POST", message("POST", length=False), 411),
    ("a length above the limit", "POST",
     message("POST", fields=("Host: h", "Content-Length: 1048577"), length=False), 413),
    ("a coded body", "POST", message("POST", REPORT, fields=("Host: h", "Content-Encoding: gzip")), 415),
    ("a head that is too large", "GET", b"a" * 16384, 431),
    ("a transfer coding", "POST", message("POST", fields=("Host: h", "Transfer-Encoding: chunked"), length=False), 501),
]
FULL = [
    ("a report where no key may be kept", "POST", message("POST", REPORT), 503),
    ("a report to replace one, where no key may be kept", "POST", message("POST", REPORT, path="/filings/ACME/1"), 503),
]


def ask(port, data):
    """All that is answered to these bytes; the first time it waits until the program listens."""
    until = time.monotonic() + PATIENCE
    while True:
        try:
            peer = socket.create_connection(("127.0.0.1", port), timeout=PATIENCE)
            break
        except ConnectionRefusedError:
            if time.monotonic() > until:
                raise
            time.sleep(0.05)
    with peer:
        peer.sendall(data)
        answer = b""
        while more := peer.recv(65536):
            answer += more
        return answer


def check_program(document, program, requests, *options):
    with socket.socket() as it:
        it.bind(("127.0.0.1", 0))
        port = it.getsockname()[1]
    with tempfile.TemporaryDirectory() as folder:
        words = [program, "serve", "--db", f"{folder}/register.db", "--port", str(port),
                 "--connections", str(len(requests)), "--new"]
        with subprocess.Popen(words + list(options)) as server:
            try:
                for what, method, data, wanted in requests:
                    status, kind, content, rest = split_reply(ask(port, data))
                    fault = fault_of_reply(document, path_of(data), method, status, kind, content)
                    if status != wanted:
                        fault = f"status {status} in place of {wanted}"
                    tell(f"{what}: {status}", fault or (f"{rest!r} behind the reply" if rest else None))
                status = server.wait(timeout=PATIENCE)
                tell("the program ends", None if status == 0 else f"with status {status}")
            finally:
                server.kill()


def check_file(file):
    document = yaml.safe_load(file.read_text())
    check_references(document, document)
    check_examples(document)
    check_paths(document)
    check_protocol(document)
    check_fields(document)
    return document


def try_faults():
    """Plants each fault in the file: whether a check fails."""
    for fault in first_days.faults("openapi: "):
        with first_days.repository_with(fault) as top, contextlib.redirect_stdout(None):
            check_file(top / "docs" / FILE.name)
        seen = [failures.pop() for _ in range(len(failures))][-1:]
        print(f"{'ok' if seen else 'failed'}: {fault.line}: seen by: {''.join(seen)}")
        if not seen:
            return 1
    return 0


def main(words):
    if yaml is None:
        print("not tried: python3 has no yaml")
        return 0
    if words == ["--planted"]:
        return try_faults()
    document = check_file(FILE)
    if words:
        program = str(pathlib.Path(words[0]).resolve())
        check_program(document, program, REQUESTS)
        check_program(document, program, FULL, "--limit", "0")
    else:
        print("not tried: live replies, since no program was named")
    print(f"{len(failures)} failed")
    return 1 if failures else 0


if __name__ == "__main__":
    sys.exit(main(sys.argv[1:]))
