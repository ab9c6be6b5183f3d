#!/usr/bin/env python3
"""Makes a Debian package of built programs and of the files of this repository that are used with them.

    tools/make_package.py PROGRAMS FOLDER VERSION       writes FOLDER/berruzpil_VERSION_amd64.deb

PROGRAMS has intake, outbox and drill. The package puts them and the scripts of deploy/ into /usr/bin, the units into
/lib/systemd/system, the rules of logrotate into /etc, the other files of deploy/ into /usr/lib/berruzpil and beside the
examples, and man pages, completions and pages where Debian has them. deploy/package/ has what makes the user and the
folders, what the administrator sets, and what dpkg runs. The time of all files is SOURCE_DATE_EPOCH, if that is given,
so that the same programs give the same package. tools/release calls this; tools/check_package.py tries the package.
"""
import contextlib
import email.utils
import gzip
import hashlib
import os
import pathlib
import re
import sqlite3
import subprocess
import sys
import tempfile
import time

import completions
import man_pages
import trials

ROOT = pathlib.Path(__file__).resolve().parent.parent
# Where the units expect programs and scripts that were installed by hand, and where a package has them.
BY_HAND, PACKAGED = b"/usr/local/bin/", b"/usr/bin/"
DOCUMENTS = "usr/share/doc/berruzpil"
# Where the files of deploy/package/ go.
PACKAGE = {
    "sysusers.conf": "usr/lib/sysusers.d/berruzpil.conf",
    "tmpfiles.conf": "usr/lib/tmpfiles.d/berruzpil.conf",
    "default": "etc/default/berruzpil",
    "lintian-overrides": "usr/share/lintian/overrides/berruzpil",
}
# What dpkg runs.
SCRIPTS = ["postinst", "prerm", "postrm"]
LOGROTATE = "logrotate-berruzpil"
MAINTAINER = "Berruzpil maintainers <maintainers@users.noreply.berruzpil.example>"
COPYRIGHT = """Berruzpil

No licence is given yet. Which one it will be is for those to say who own it.
"""
DESCRIPTION = """filing gateway for financial reports (xBRL-JSON 1.0)
 intake is a supervisor's end: it answers HTTP/1.1, judges the structure of
 each report, and keeps it with its number or its findings in a SQLite file.
 outbox is a filer's end: it keeps reports and sends them until there is an
 answer. drill plays scripts of cuts, repeats and stops on both ends.
 .
 {proved}
"""
PROVED = "Every function of these programs is proved to meet its contract."
UNPROVED = "These programs were built without proof, for trials only."


def is_unproved(version):
    return version.endswith("-unproved")


def libraries_of(programs):
    """The packages that the programs need: the C library, in the version of the newest function that they name,
    and that of the compiler."""
    contents = [(programs / name).read_bytes() for name in man_pages.SEE_ALSO]
    versions = [
        tuple(map(int, it.split(b"."))) for content in contents for it in re.findall(rb"GLIBC_(2\.\d+)", content)
    ]
    found = [f"libc6 (>= {'.'.join(map(str, max(versions)))})"] if versions else []
    return found + ["libgcc-s1"] * any(b"libgcc_s.so.1\0" in content for content in contents)


def form_of_register(programs):
    """The form of the registers that the intake makes."""
    with tempfile.TemporaryDirectory() as folder:
        database = pathlib.Path(folder, "register.db")
        trials.make_register(database, programs / "intake")
        with contextlib.closing(sqlite3.connect(database)) as rows:
            return str(rows.execute("SELECT form FROM intake_meta").fetchone()[0])


def scripts_of(programs, version, files):
    """What dpkg runs, with what it has to know of this package."""
    units = [path.rpartition("/")[2] for path, (content, _) in files.items()
             if "/systemd/system/" in path and b"[Install]" in content and "@" not in path]  # fmt: skip
    known = {"@FORM@": form_of_register(programs), "@VERSION@": version, "@UNITS@": " ".join(units)}
    found = {}
    for name in SCRIPTS:
        text = (ROOT / "deploy" / "package" / name).read_text(encoding="utf-8")
        for mark, value in known.items():
            text = text.replace(mark, value)
        found[name] = text.encode()
    return found


def changelog(version, moment):
    """The only entry that Debian's own programs read. What changed is said in CHANGELOG.md."""
    return (f"berruzpil ({version}) unstable; urgency=medium\n\n  * See CHANGELOG.md in this folder.\n\n"
            f" -- {MAINTAINER}  {email.utils.formatdate(moment)}\n")  # fmt: skip


def files_of(programs):
    """Each file of the package by its path there: its bytes, and whether it is run."""
    found = {f"usr/bin/{name}": ((programs / name).read_bytes(), True) for name in man_pages.SEE_ALSO}
    for file in sorted(it for it in (ROOT / "deploy").iterdir() if it.is_file()):
        content = file.read_bytes()
        if file.suffix in (".service", ".timer"):
            found[f"lib/systemd/system/{file.name}"] = content.replace(BY_HAND, PACKAGED), False
        elif file.name == LOGROTATE:
            found["etc/logrotate.d/berruzpil"] = content, False
        elif content.startswith(b"#!"):
            found[f"usr/bin/{file.name}"] = content, True
        else:
            for folder in ("usr/lib/berruzpil", f"{DOCUMENTS}/examples"):
                found[f"{folder}/{file.name}"] = content.replace(BY_HAND, PACKAGED), False
    for file in sorted((ROOT / "deploy" / "filer").iterdir()):
        found[f"usr/share/berruzpil/filer/{file.name}"] = file.read_bytes(), False
    for name, path in PACKAGE.items():
        found[path] = (ROOT / "deploy" / "package" / name).read_bytes(), False
    found[f"{DOCUMENTS}/examples/report.json"] = trials.REPORT, False
    for name, program in man_pages.programs_in(programs).items():
        page = man_pages.page(name, program).encode()
        found[f"usr/share/man/man1/{name}.1.gz"] = gzip.compress(page, mtime=0), False
        for path, text in zip(
            ["bash-completion/completions/{}", "zsh/vendor-completions/_{}", "fish/vendor_completions.d/{}.fish"],
            completions.scripts(name, program).values(),
        ):
            found[f"usr/share/{path.format(name)}"] = text.encode(), False
    names = subprocess.check_output(["git", "ls-files", "*.md", "docs", "conformance"], cwd=ROOT, text=True).split()
    for name in names:
        content = (ROOT / name).read_bytes()
        if name.endswith(".md"):
            content = within_package(name, content.decode(), names).encode()
        found[f"{DOCUMENTS}/{name}"] = content, name.endswith("run.py")
    found[f"{DOCUMENTS}/copyright"] = COPYRIGHT.encode(), False
    return found


def within_package(page, text, names):
    """The text of a page. A link to a file that the package lacks, as one of the code, becomes its words alone."""
    has = {*names, *(str(folder) for name in names for folder in pathlib.PurePath(name).parents)}

    def link(found):
        target = os.path.normpath(os.path.join(os.path.dirname(page), found[2]))
        return found[0] if target in has else found[1]

    return re.sub(r"\[([^][]*)\]\(([^)\s#:]+)(?:#[^)]*)?\)", link, text)


def control(programs, version, files):
    fields = {
        "Package": "berruzpil",
        "Version": version,
        "Architecture": "amd64",
        "Maintainer": MAINTAINER,
        "Installed-Size": str(sum(-(-len(content) // 1024) for content, _ in files.values())),
        "Depends": ", ".join([*libraries_of(programs), "python3", "systemd | systemd-standalone-sysusers"]),
        "Recommends": "curl, logrotate, nginx, openssl, sqlite3",
        "Suggests": "drbd-utils, iputils-arping, prometheus-node-exporter, stunnel4",
        "Section": "net",
        "Priority": "optional",
        "Description": DESCRIPTION.format(proved=UNPROVED if is_unproved(version) else PROVED).rstrip("\n"),
    }
    return "".join(f"{name}: {value}\n" for name, value in fields.items())


def write(path, content, mode):
    path.parent.mkdir(parents=True, exist_ok=True)
    path.write_bytes(content)
    path.chmod(mode)


def make(programs, folder, version):
    """Writes the package, and gives its path."""
    moment = int(os.environ.get("SOURCE_DATE_EPOCH", time.time()))
    files = files_of(programs)
    # Debian's own name of a changelog, of which a version with a hyphen has two.
    name = "changelog.Debian.gz" if "-" in version else "changelog.gz"
    files[f"{DOCUMENTS}/{name}"] = gzip.compress(changelog(version, moment).encode(), mtime=0), False
    target = folder / f"berruzpil_{version}_amd64.deb"
    with tempfile.TemporaryDirectory() as name:
        tree = pathlib.Path(name, "package")
        for path, (content, is_run) in files.items():
            write(tree / path, content, 0o755 if is_run else 0o644)
        sums = "".join(f"{hashlib.md5(content).hexdigest()}  {path}\n" for path, (content, _) in sorted(files.items()))
        write(tree / "DEBIAN/md5sums", sums.encode(), 0o644)
        write(tree / "DEBIAN/control", control(programs, version, files).encode(), 0o644)
        conffiles = "".join(f"/{path}\n" for path in sorted(files) if path.startswith("etc/"))
        write(tree / "DEBIAN/conffiles", conffiles.encode(), 0o644)
        for script, content in scripts_of(programs, version, files).items():
            write(tree / "DEBIAN" / script, content, 0o755)
        for path in [tree, *tree.rglob("*")]:
            if path.is_dir():
                path.chmod(0o755)
        for path in [*tree.rglob("*"), tree]:
            os.utime(path, (moment, moment))
        words = ["dpkg-deb", "--root-owner-group", "-Zxz", "--build", str(tree), str(target)]
        subprocess.run(
            words, check=True, stdout=subprocess.DEVNULL, env={**os.environ, "SOURCE_DATE_EPOCH": str(moment)}
        )
    return target


def main():
    if len(sys.argv) != 4:
        sys.exit(__doc__)
    folder = pathlib.Path(sys.argv[2])
    folder.mkdir(parents=True, exist_ok=True)
    print(make(pathlib.Path(sys.argv[1]).resolve(), folder.resolve(), sys.argv[3]).name)


if __name__ == "__main__":
    main()
