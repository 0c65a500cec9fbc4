#!/usr/bin/env python3
"""run_package.py: whether packaging/make makes a Debian package, by which USING can be typed.

The package is unpacked into a folder, and the blocks of docs/USING.md are typed with its program.
lintian, if there is one, has to find nothing. The version is in VERSION; the changelog and
docs/openapi.yaml repeat it. Without dpkg-deb and help2man a line says that the package is left
out.
"""
import contextlib
import http.server
import os
import pathlib
import re
import shutil
import subprocess
import sys
import tempfile
import threading
import time

import links
from cases import Cases

TOP = pathlib.Path(__file__).resolve().parent.parent
VERSION = (TOP / "VERSION").read_text().strip()


def version_of_package():
    """Its version and how many commits there are, as git says it; without all commits only that."""
    git = ["git", "-c", "safe.directory=*", "-C", str(TOP)]
    is_whole = ran(*git, "rev-parse", "--is-shallow-repository")[1] == "false\n"
    return f"{VERSION}+{ran(*git, 'rev-list', '--count', 'HEAD')[1].strip()}" if is_whole \
        else VERSION


NEEDED = ("dpkg-deb", "help2man", "strip")


def ran(*words, **more):
    done = subprocess.run([*map(str, words)], stdin=subprocess.DEVNULL, stdout=subprocess.PIPE,
                          stderr=subprocess.STDOUT, text=True, check=False, **more)
    return done.returncode, done.stdout


def of_the_repository(judged):
    first = re.search(r"^## (\d\S*)", (TOP / "CHANGELOG.md").read_text(), re.M)
    judged.judge("the version of the changelog", VERSION, first and first[1])
    described = re.search(r"^  version: (\S+)", (TOP / "docs" / "openapi.yaml").read_text(), re.M)
    judged.judge("the version of docs/openapi.yaml", VERSION, described and described[1])


class Office(http.server.BaseHTTPRequestHandler):
    """A stub of an office: nothing is published."""

    def do_GET(self):
        body = b'{"error":"publication"}'
        self.send_response(404)
        self.send_header("Content-Length", str(len(body)))
        self.end_headers()
        self.wfile.write(body)

    def log_message(self, *_):
        pass


def of_removal(judged, folder):
    """What an operator has linked is kept: purging deletes the links, dpkg what the first version
    had there, through them."""
    root, made = folder / "purged", folder / "made"
    front = root / "etc" / "examoffice" / "front"
    for path in (front, made, root / "run"):
        path.mkdir(parents=True)
    for name in ("labels.json", "callers"):
        (made / name).write_text("kept\n")
    (front / "labels").symlink_to(made)
    (front / "callers").symlink_to(made / "callers")
    (front / "users").write_text("registry:x\n")
    script = folder / "postrm"
    script.write_text(re.sub(r"/(etc|var|run)/", rf"{root}/\1/", (
        TOP / "packaging" / "debian" / "postrm").read_text()))
    judged.judge("removed", (0, ""), ran("sh", script, "remove"))
    for conffile in ("labels/labels.json", "callers", "users"):
        with contextlib.suppress(FileNotFoundError):
            (front / conffile).resolve(strict=True).unlink()
    judged.judge("what dpkg leaves", ["callers.aside", "labels.aside"],
                 sorted(path.name for path in front.iterdir()))
    judged.judge("purged", (0, "", False), (*ran("sh", script, "purge"), front.exists()))
    judged.judge("what was linked", ["callers", "labels.json"],
                 sorted(path.name for path in made.iterdir()))


def says_status(judged, folder, program):
    """What examoffice-status says of an office, and of a disk that is 9 or 10 percent free."""
    disks = folder / "disks"
    disks.mkdir()
    environment = {**os.environ, "PATH": f"{disks}:{os.environ['PATH']}"}
    with http.server.HTTPServer(("127.0.0.1", 0), Office) as office:
        threading.Thread(target=office.serve_forever).start()
        port = str(office.server_port)
        for free, status in ((9, 3), (10, 0)):
            (disks / "df").write_text("#!/bin/sh\nprintf 'Filesystem 1024-blocks Used Available\\n"
                                      f"/dev/sda 1000 {1000 - 10 * free} {10 * free} -\\n'\n")
            (disks / "df").chmod(0o755)
            came, said = ran(program, port, env=environment)
            judged.judge(f"{free} % free", (status, free < 10, True),
                         (came, "warning: only 9 % of" in said, "nothing is published" in said))
        office.shutdown()
    says_age_of_copies(judged, folder, program)
    says_unreadable_names(judged, folder, program)
    judged.judge("no office on a port", 1, ran(program, port)[0])
    judged.judge("no port", 2, ran(program, "--port")[0])


def says_age_of_copies(judged, folder, program):
    """What examoffice-status says, some minutes after a change and after the newest copy."""
    data, copies = folder / "data", folder / "copies"
    environment = {**os.environ, "EXAMOFFICE_DATA": str(data), "EXAMOFFICE_COPIES": str(copies)}
    now = time.time()
    for case, changed, copied, age, warns in (
            ("a copy of all", 40, 30, "30 minutes old", False),
            ("a change that will be copied", 10, 30, "30 minutes old", False),
            ("a change that wasn't copied", 20, 30, "30 minutes old", True),
            ("no copy", 20, None, None, True)):
        for made in (data, copies):
            shutil.rmtree(made, ignore_errors=True)
            made.mkdir()
        files = [(data / "term.db", 50), (data / "term.db-wal", changed)]
        if copied:
            # One of an older version is a file.
            (copies / "term-20270514T133000Z").mkdir()
            files += [(copies / "term-20270514T120000Z.db", 60),
                      (copies / "term-20270514T133000Z", copied)]
        for file, minutes in files:
            file.is_dir() or file.write_text("")
            os.utime(file, (now - 60 * minutes - 1,) * 2)
        said = ran(program, "term", env=environment)[1]
        judged.judge(case, (age is not None, warns),
                     (f"newest copy: term-20270514T133000Z, {age}\n" in said,
                      "changed 20 minutes ago, and there is no copy since" in said))
    (data / "term.told").write_text("the office lacks 1 batch\n")
    (copies / "term.told").write_text("the copy term-1 is damaged\nanother line\n")
    judged.judge("what is told", ["the copy term-1 is damaged", "another line",
                                  "the office lacks 1 batch"], re.findall(
        "warning: (.*(?:copy term-1|line|lacks).*)", ran(program, "term", env=environment)[1]))


def says_unreadable_names(judged, folder, program):
    """What examoffice-status says if nginx's user can't read the names of a ledger."""
    if os.geteuid():
        print("package: names that can't be read are left out without root")
        return
    now = folder / "ledgers" / "term" / "now"
    (now / "names").mkdir(parents=True)
    folder.chmod(0o755)
    for name in ("labels.json", "students.json", "sizes.json"):
        (now / name).write_text("{}")
    environment = {**os.environ, "EXAMOFFICE_LEDGERS": str(folder / "ledgers")}
    for case, mode, expected in (("readable", 0o755, []), ("closed", 0o700, [
            "labels.json", "students.json", "sizes.json", "names/."])):
        now.chmod(mode)
        said = ran(program, "term", env=environment)[1]
        judged.judge(f"names that are {case}", expected, re.findall(
            rf"warning: the front can't read {now}/(\S+), so", said))


def of_the_package(judged, folder):
    version = version_of_package()
    package = folder / f"examoffice_{version}_amd64.deb"
    judged.judge("it is made", 0, ran(TOP / "packaging" / "make", folder)[0])
    of_versions(judged, folder, package, version)
    if shutil.which("lintian"):
        become = {"user": "nobody"} if os.geteuid() == 0 else {}
        judged.judge("lintian", (0, ""), ran("lintian", "--fail-on", "error,warning", package,
                                             env={**os.environ, "LC_ALL": "C"}, **become))
    root = folder / "root"
    judged.judge("it is unpacked", (0, ""), ran("dpkg-deb", "-x", package, root))
    program = root / "usr" / "bin" / "examoffice"
    judged.judge("its program has no symbols", True, ", stripped" in ran("file", program)[1]
                 if shutil.which("file") else True)
    status, said = ran(sys.executable, TOP / "tests" / "run_using.py", program,
                       TOP / "docs" / "USING.md")
    judged.judge("the day of docs/USING.md", 0, status and said)
    commands = {it.name: ran(it, "--help")[0] for it in program.parent.iterdir()}
    judged.judge("its commands, and the status of their help", dict.fromkeys(
        ("examoffice", "examoffice-session-from-csv", "examoffice-status",
         "examoffice-token", "examoffice-users-from-csv", "examoffice-changes-from-csv",
         "examoffice-next-session", "examoffice-lists", "examoffice-restore"), 0), commands)
    judged.judge("its tools that nobody types, and the status of their help",
                 {"backup": 0, "check_file": 0}, {name: ran(
                     root / "usr/libexec/examoffice" / name, "--help")[0]
                     for name in ("backup", "check_file")})
    says_status(judged, folder, root / "usr" / "bin" / "examoffice-status")
    if shutil.which("logrotate"):
        # The package's group isn't there.
        rotated = folder / "logrotate"
        rotated.write_text((root / "etc/examoffice/logrotate.conf").read_text().replace(
            "root examoffice-registry", "root root"))
        rotated.chmod(0o644)
        status, said = ran("logrotate", "--debug", "--state", folder / "state", rotated)
        judged.judge("logrotate takes its file", (0, False), (status, "error" in said))
    of_the_front(judged, root)
    of_the_pages(judged, root / "usr/share/doc/examoffice")
    if shutil.which("mandoc"):
        of_the_manual(judged, root / "usr/share/man/man1")


def of_versions(judged, folder, package, version):
    """Each package compares greater than the one before, all say the same, and a downgrade is
    refused by the older package, or said by the newer one."""
    judged.judge("it is greater than its version, and less than with one commit more", [0, 0], [
        ran("dpkg", "--compare-versions", *words)[0] for words in (
            (version, "gt" if "+" in version else "eq", VERSION),
            (version, "lt", re.sub(r"\d+$", lambda last: f"{int(last[0]) + 1}", version)))])
    judged.judge("dpkg's version", version + "\n", ran("dpkg-deb", "-f", package, "Version")[1])
    root, scripts = folder / "root", folder / "scripts"
    ran("dpkg-deb", "-x", package, root)
    judged.judge("the program's, and that of the status", (
        f"examoffice {VERSION}", f"examoffice-status {version}\n"), (
            ran(root / "usr/bin/examoffice", "-V")[1].partition(",")[0].strip(),
            ran(root / "usr/bin/examoffice-status", "--version")[1]))
    ran("dpkg-deb", "-e", package, scripts)
    older = "is older: it may not read what the newer one wrote"
    for script, words, status in (
            ("preinst", ("install",), 0), ("preinst", ("upgrade", "1.0.0", version), 0),
            ("preinst", ("upgrade", version, version), 0),
            ("preinst", ("upgrade", "9.0.0", version), 1), ("prerm", ("upgrade", "9.0.0"), 0),
            ("prerm", ("upgrade", version), 0), ("prerm", ("upgrade", "0.9.0"), 1)):
        came, said = ran(scripts / script, *words)
        judged.judge(f"{script} {' '.join(words)}", (status, bool(status)), (came, older in said))
    judged.judge("a package that is older, asked by a newer one", 1,
                 ran(scripts / "prerm", "failed-upgrade", "9.0.0", version)[0])


def of_the_front(judged, root):
    front = root / "usr/share/examoffice/front"
    names = ("callers", "labels", "limits.local", "local.conf", "programs", "sessions.conf",
             "users")
    judged.judge("what an operator changes", {
        "run": "/var/lib/examoffice-front", "sessions": "/var/lib/examoffice-registry",
        "made": "run/made",
        **{name: f"/etc/examoffice/front/{name}" for name in names}},
        {it.name: os.readlink(it) for it in front.iterdir() if it.is_symlink()})
    judged.judge("all pages", sorted(it.name for it in (TOP / "front" / "page").iterdir()),
                 sorted(it.name for it in (front / "page").iterdir()))
    judged.judge("no known password", [], [
        str(it) for folder in ("etc", "usr/share/examoffice") for it in (root / folder).rglob("*")
        if it.is_file() and b"try-reg" in it.read_bytes()])
    judged.judge("no question at an upgrade", ["examoffice/logrotate.conf"], [
        str(it.relative_to(root / "etc")) for it in (root / "etc").rglob("*") if it.is_file()])


def of_the_pages(judged, folder):
    """Links of the pages lead to files of the package, and to their headings."""
    judged.judge("many pages", True, len(links.pages(folder)) > 20)
    links.judge(judged, folder)
    judged.judge("files to begin with", True, (folder / "examples/small/exams.csv").exists())


def of_the_manual(judged, folder):
    """mandoc finds nothing in the manual pages."""
    for page in sorted(folder.glob("*.gz")):
        judged.judge(f"mandoc, {page.name}", (0, ""), ran(
            "mandoc", "-T", "lint", "-W", "warning", page))


STUBS = {
    "systemctl": "case $1 in is-enabled) exit $IS_OFF ;; esac\necho \"$*\" >> \"$ROOM/asked\"\n",
    "dpkg": "[ -z \"$CHANGED\" ] || echo '??5?????? c /etc/nginx/nginx.conf'\n",
    "dpkg-query": "case $1$2 in --search*shipped*) ;; --control-path*) [ -e \"$ROOM/info/$2\" ] &&"
                  " echo \"$ROOM/info/$2\" ;; *) exit 1 ;; esac\n"}


def of_other_servers(judged, folder):
    """A server of Debian's is switched off only if it came along and nobody has set it up."""
    for name, text in STUBS.items():
        (folder / "bin").mkdir(exist_ok=True)
        (folder / "bin" / name).write_text(f"#!/bin/sh\n{text}")
        (folder / "bin" / name).chmod(0o755)

    def ended(case, old=False, changed="", is_off="0", files=()):
        room = folder / f"servers {case}"
        for name in ("info", "etc/sites-enabled", "www/html"):
            (room / name).mkdir(parents=True)
        (room / "asked").touch()
        for name in ("etc/shipped.conf", "etc/sites-enabled/default", "info/nginx-common",
                     "www/html/index.nginx-debian.html", *files):
            (room / name).touch()
        status, said = ran(
            TOP / "packaging" / "switch_off", "nginx.service", room / "etc", "nginx-common",
            "nginx-light", env={
                **os.environ, "PATH": f"{folder / 'bin'}:{os.environ['PATH']}", "CHANGED": changed,
                "IS_OFF": is_off, "ROOM": str(room), "EXAMOFFICE_MINUTES": "0" if old else "60",
                "EXAMOFFICE_PAGES": str(room / "www")})
        return status, said.count("\n"), (room / "asked").read_text()

    off, kept = (0, 1, "disable --now nginx.service\n"), (0, 1, "")
    for case, expected, more in (
            ("that came along", off, {}), ("that was there", kept, {"old": True}),
            ("that is changed", kept, {"changed": "1"}),
            ("that is off", (0, 0, ""), {"is_off": "1"}),
            ("with a site", kept, {"files": ["etc/sites-enabled/exams"]}),
            ("with a page", kept, {"files": ["www/html/index.html"]})):
        judged.judge(f"Debian's server {case}", expected, ended(case, **more))


def main():
    judged = Cases("package")
    of_the_repository(judged)
    missing = [tool for tool in NEEDED if not shutil.which(tool)]
    if missing:
        print(f"package: left out without {' '.join(missing)}")
        return judged.end()
    with tempfile.TemporaryDirectory() as folder:
        os.chmod(folder, 0o755)
        of_removal(judged, pathlib.Path(folder))
        of_other_servers(judged, pathlib.Path(folder))
        of_the_package(judged, pathlib.Path(folder))
    return judged.end()


if __name__ == "__main__":
    sys.exit(main())
