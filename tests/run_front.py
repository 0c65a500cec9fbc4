#!/usr/bin/env python3
"""run_front.py PROGRAM [--pictures FOLDER] [--whole]: the front and its pages before the office.

A copy of front/ runs on free ports, before an office of the small example. What nginx must refuse
or drop is sent over raw sockets (front_cases.py). Crowds, restarts, guesses, floods and sessions
that share it come beside (front_queue.py, front_sign_in.py, front_floods.py, front_sessions.py);
then Chromium reads the pages as users would (front_pages.py). Each exchange that reached the office
must be in docs/openapi.yaml. What needs a program or a Debian package that isn't installed is left
out, and a line says so. A failing case is printed with what was expected and what came, and the
last line counts the cases.
"""
import argparse
import concurrent.futures
import contextlib
import grp
import gzip
import http.client
import http.server
import json
import os
import pathlib
import re
import resource
import shutil
import signal
import socket
import subprocess
import sys
import tempfile
import threading
import time

import browser
import front_floods
import front_pages
import front_queue
import front_registry
import front_sessions
import front_sign_in
import limits as front_limits
import openapi
import sign_on
from front_cases import (
    CALLER, CALLERS, CANDIDATE, FAULTY_PEOPLE, FAULTY_STUDENTS, FIRST_VIEW, LABELS, LOGGED,
    LOGGED_QUESTIONS, LOGGED_REFUSALS, LOGGED_STATUSES, LOOKED_FOR, MADE, PAGES, SECOND_VIEW,
    STRANGERS, TARGETS, WIDE, WIDE_LABELS, WIDE_SOLUTION, ask, password, told_error)
from run_serve import Office, Run, one_reply, rest
from serve_cases import SMALL, SOLUTION, message, reply

TOP = pathlib.Path(__file__).resolve().parent.parent
NGINX = shutil.which("nginx") or shutil.which("nginx", path="/usr/sbin:/usr/local/sbin")
LOG = ("log_format exchange '$request_method $request_uri $upstream_status"
       " $upstream_http_content_type'; access_log run/exchanges exchange;\n"
       "    access_log run/changes")
TIME = r"\d{4}-\d\d-\d\dT\d\d:\d\d:\d\d[+-]"
SECONDS = 20
# For the tests that ask often from one address or with wrong passwords, and those of slow clients.
QUICK = (("rate=20r/s", "rate=9000r/s"), ("rate=300r/s", "rate=9000r/s"),
         ("auth_delay 1s", "auth_delay 0"),
         ("client_header_timeout 10s", "client_header_timeout 4s"),
         ("client_body_timeout 10s", "client_body_timeout 4s"), ("rate=2r/s", "rate=9000r/s"))


def is_leaving(worker):
    """A worker of nginx that only ends what it has begun, or is gone: a connection that somebody
    keeps open may hold it for long."""
    try:
        return b"shutting down" in pathlib.Path(f"/proc/{worker}/cmdline").read_bytes()
    except OSError:
        return True


class Front:
    """nginx with a copy of the front's folder, before an office on that port."""

    def __init__(self, folder, office_port, edits=QUICK):
        self.folder, self.port = pathlib.Path(folder) / "front", browser.free_port()
        if not self.folder.exists():
            shutil.copytree(TOP / "front", self.folder)
        pathlib.Path(folder).chmod(0o755)
        texts = {path: path.read_text() for path in self.folder.glob("**/*.conf")}
        for old, new in (("127.0.0.1:8000", f"127.0.0.1:{self.port}"),
                         ("127.0.0.1:8080", office_port if isinstance(office_port, str)
                          else f"127.0.0.1:{office_port}"),
                         ("/run/examoffice-queue", str(self.folder.parent / "queue")),
                         ("access_log run/changes", LOG), *edits):
            if not any(old in text for text in texts.values()):
                raise ValueError(f"no file has {old}")
            texts = {path: text.replace(old, new) for path, text in texts.items()}
        for path, text in texts.items():
            path.write_text(text)
        self.spell()
        with (self.folder / "run" / "errors").open("wb") as errors:
            self.process = subprocess.Popen([NGINX, "-p", str(self.folder), "-c", "nginx.conf"],
                                            stdin=subprocess.DEVNULL, stderr=errors)
        browser.until_or_ended(self.process, "nginx listens", self.listens)

    def listens(self):
        if self.process.poll() is not None:
            raise OSError((self.folder / "run" / "errors").read_text())
        with contextlib.suppress(OSError), self.connect():
            # Before it has workers, a signal would end it.
            return bool(self.workers())
        return False

    def connect(self):
        return socket.create_connection(("127.0.0.1", self.port), SECONDS)

    def told(self, question):
        """Returns the reply to these bytes, its status and body; None if the connection ends."""
        with self.connect() as client:
            client.sendall(question)
            with contextlib.suppress(OSError):
                return one_reply(client)
        return None

    def fetch(self, path, user=None, word=None, method="GET", source="127.0.0.1", **fields):
        """The status, the header and the body of a reply, as stock http.client has them."""
        signed = dict([password(user, word).split(": ")]) if user else {}
        client = http.client.HTTPConnection("127.0.0.1", self.port, SECONDS, (source, 0))
        with contextlib.closing(client):
            client.request(method, path, headers={
                **{field.replace("_", "-"): text for field, text in fields.items()}, **signed})
            reply = client.getresponse()
            return reply.status, reply.headers, reply.read()

    def exchanges(self):
        """Returns the exchanges that reached the office."""
        for line in (self.folder / "run" / "exchanges").read_text().splitlines():
            method, target, status, kind = line.split(" ", 3)
            if status not in ("-", "502", "504"):
                yield method, target.removeprefix("/-"), int(status), kind

    def changes(self, log="changes"):
        """The lines of the log of changes, or of that of refusals."""
        return [json.loads(line) for line in
                (self.folder / "run" / f"{log}.log").read_text().splitlines()]

    def spell(self):
        """Makes what is made of `callers`, as the package does before a start and a reload."""
        subprocess.run([self.folder / "spell"], check=True, timeout=SECONDS)

    def reload(self):
        """Reads the files again; what it has read answers when this returns."""
        self.spell()
        # Read before the signal: soon after it the new workers are there too.
        before = self.workers()
        self.process.send_signal(signal.SIGHUP)
        browser.until("the old workers take no more connections", lambda: all(
            is_leaving(worker) for worker in before & self.workers()))

    def workers(self):
        """The numbers of nginx's workers."""
        children = pathlib.Path(f"/proc/{self.process.pid}/task/{self.process.pid}/children")
        return set(children.read_text().split())

    def stop(self):
        self.process.terminate()
        self.process.wait(SECONDS)


def who_asks_and_what(run, front):
    for name, question, answer in CALLERS + TARGETS + LOOKED_FOR + LABELS + PAGES:
        told = front.told(question)
        if isinstance(answer, int):
            told = told and told[0]
        run.judge(name, answer, told)
    for name, fields in (("no password", []), ("a wrong password", [password("ada", "guess")]),
                         ("a user who isn't there", [password("eve")]),
                         ("X-Caller without a password", ["X-Caller: office"])):
        for path in ("/me", "/drafts/1", "/-/drafts/1", "/-/user", "/labels/labels.json",
                     "/labels/students.json", "/", "/registry.html", "/nothing"):
            status, body = front.told(message("GET", path, caller=None, fields=fields))
            run.judge(f"{name}, {path}", (401, True), (status, b"not signed in" in body))
    for path, methods in (("/", "GET, HEAD"), ("/registry.html", "GET, HEAD"),
                          ("/publication", "GET"), ("/nothing/at/all", "GET, HEAD")):
        with front.connect() as client:
            client.sendall(ask("registry", "POST", path, b"", "Connection: close"))
            head = rest(client).partition(b"\r\n\r\n")[0].decode().split("\r\n")
        run.judge(f"Allow of {path}", [f"Allow: {methods}"],
                  [line for line in head if line.startswith("Allow")])


def what_passes(run, folder):
    """Only these fields reach the office."""
    with socket.create_server(("127.0.0.1", 0)) as listener:
        other = Front(folder / "fields", listener.getsockname()[1])
        with other.connect() as client:
            client.sendall(ask("physics", "PUT", "/drafts/1", b"a body", "X-Caller: office",
                               "Expect: 100-continue", "Cookie: a=b", "Accept: */*",
                               "Keep-Alive: 5", "Upgrade: h2c"))
            listener.settimeout(SECONDS)
            behind, _ = listener.accept()
            with behind:
                came = behind.recv(65_536)
                while not came.endswith(b"a body"):
                    came += behind.recv(65_536)
                behind.sendall(b"HTTP/1.1 200 OK\r\nContent-Length: 0\r\n\r\n")
        other.stop()
    lines = came.split(b"\r\n")
    fields = [b"Connection: close", b"Content-Length: 6", b"Host: office", b"X-Caller: dept:3"]
    run.judge("fields that pass", (b"PUT /drafts/1 HTTP/1.1", fields, b"a body"),
              (lines[0], sorted(lines[1:-2]), lines[-1]))


def waits_for_no_body(run, front):
    """Who expects 100 gets it from the front; a body in chunks reaches the office whole."""
    with front.connect() as client:
        head = ask("registry", "PUT", "/drafts/8", b"", "Expect: 100-continue",
                   f"Content-Length: {len(SOLUTION)}")
        client.sendall(head)
        first = client.recv(1_000)
        client.sendall(SOLUTION)
        run.judge("Expect", (b"HTTP/1.1 100 Continue\r\n\r\n", (201, b'{"draft":8,"penalty":37}')),
                  (first, one_reply(client)))
    chunks = b"".join(b"%x\r\n%s\r\n" % (len(part), part)
                      for part in (SOLUTION[:5], SOLUTION[5:], b""))
    run.judge("chunks", (201, b'{"draft":7,"penalty":37}'), front.told(
        ask("registry", "PUT", "/drafts/7", b"", "Transfer-Encoding: chunked") + chunks))
    for draft in (7, 8):
        front.told(ask("registry", "DELETE", f"/drafts/{draft}"))


def many_at_once(run, front):
    """Forty clients at once, and each gets their own."""
    wrong = []

    def asks(user, view):
        for _ in range(4):
            told = front.told(ask(user, "GET", "/me"))
            if told != view:
                wrong.append(told)

    threads = [threading.Thread(target=asks, args=pair) for pair in
               [("ada", FIRST_VIEW), ("ben", SECOND_VIEW)] * 20]
    for thread in threads:
        thread.start()
    for thread in threads:
        thread.join()
    run.judge("forty clients at once", [], wrong)


@contextlib.contextmanager
def slow_ones(run, front):
    """Thirty clients that stop within their messages, one that stops within its reply, and one that
    keeps its connection delay nobody; and each is left in its time, while other tests go on."""
    held, began = [front.connect() for _ in range(30)], time.monotonic()
    for number, client in enumerate(held):
        client.sendall(ask("registry", "PUT", "/drafts/5", SOLUTION)[:-1 - 40 * (number % 4)])
    with front.connect() as idle:
        idle.sendall(CANDIDATE)
        run.judge("a client that stays", FIRST_VIEW, one_reply(idle))
        run.judge("a client beside slow ones", SECOND_VIEW, front.told(ask("ben", "GET", "/me")))
        run.judge("it is served at once", True, time.monotonic() - began < 4)

    def left(client):
        """What a client still reads, and whether its connection ended in time."""
        said = b""
        with client, contextlib.suppress(ConnectionResetError):
            said = rest(client)
        return said, time.monotonic() - began < 60

    with concurrent.futures.ThreadPoolExecutor(len(held)) as pool:
        leaving = [pool.submit(left, client) for client in held]
        yield
    run.judge("slow clients are left, in time", [(b"", True)] * len(held),
              [one.result() for one in leaving])


def no_office(run):
    """The front's replies if no office listens."""
    front = Front(run.folder / "alone", browser.free_port())
    run.judge("no office", told_error(503, "unavailable"), front.told(CANDIDATE))
    health(run, front, told_error(503, "unavailable"))
    front.told(ask("registry", "POST", "/drafts/1/publish"))
    front.told(message("POST", "/drafts/1/publish", caller=None, fields=[password("ada", "guess")]))
    front.stop()
    run.judge("the log of changes without an office", [("registry", "/drafts/1/publish", 503)],
              [(line["user"], line["path"], line["status"]) for line in front.changes()])


def strangers_leave_no_trace(run, front):
    """Whoever isn't signed in writes no byte into the logs, whatever they send."""
    logs = [front.folder / "run" / name for name in ("changes.log", "refusals.log", "errors")]
    sizes = [log.stat().st_size for log in logs]
    for question in STRANGERS:
        for _ in range(20):
            front.told(question)
    statuses(front, message("POST", "/drafts/1/" + "a" * 1_900, caller=None), 3_000)
    run.judge("bytes in the logs", sizes, [log.stat().st_size for log in logs])


def statuses(front, question, count):
    """The statuses of replies to one message that is sent this often on one connection."""
    with front.connect() as client:
        client.sendall(question * (count - 1) + question[:-2] + b"Connection: close\r\n\r\n")
        return re.findall(rb"HTTP/1.1 (\d+) ", rest(client))


def asks_for_places(front, question):
    """Whether the first three of forty questions aren't refused, others are, and no more are
    answered than two at once and two a second, however long that takes."""
    began = time.monotonic()
    asked = statuses(front, question, 40)
    most = 3 + 2 * (time.monotonic() - began) + 1
    return b"429" not in asked[:3], b"429" in asked, sum(one != b"429" for one in asked) <= most


def limits(run, office):
    """The limits of password.conf: by user, by address, none for the office and for files."""
    front = Front(run.folder / "limits", office.port, edits=())
    asked = statuses(front, ask("ada", "GET", "/me/penalty"), 200)
    run.judge("a user who asks too often", (True, True, {b"200", b"429"}),
              (asked[:60] == [b"200"] * 60, asked.count(b"200") < 150, set(asked)))
    run.judge("another user at their address", SECOND_VIEW,
              front.told(ask("ben", "GET", "/me")))
    run.judge("the office", {b"200"},
              set(statuses(front, ask("registry", "GET", "/drafts/1"), 200)))
    run.judge("where an exam can go, asked too often", [(True, True, True)] * 3, [
        asks_for_places(front, ask(user, "GET", "/drafts/1/exams/3/places"))
        for user in ("registry", "physics", "ben")])
    run.judge("a second later", True, browser.until(
        "they are served again", lambda: front.told(CANDIDATE) == FIRST_VIEW))
    began = time.monotonic()
    front.fetch("/me", "ben", "guess")
    run.judge("a wrong password takes a second", True, time.monotonic() - began > 0.95)
    run.judge("files have no limit", {b"200"}, {status for _ in range(3) for status in statuses(
        front, message("HEAD", "/candidate.js", caller=None), 900)})
    pages = statuses(front, ask("cleo", "HEAD", "/candidate.html"), 200)
    run.judge("a user who asks for pages too often", (True, {b"200", b"429"}),
              (pages[:60] == [b"200"] * 60, set(pages)))
    front.stop()
    front = Front(run.folder / "address", office.port,
                  (("rate=20r/s", "rate=9000r/s"), ("burst=60", "burst=9000")))
    asked = [status for _ in range(5) for status in statuses(
        front, ask("cleo", "HEAD", "/candidate.html"), 900)]
    run.judge("an address that asks too often", (True, {b"200", b"429"}),
              (asked[:1_900] == [b"200"] * 1_900, set(asked)))
    front.stop()
    front = Front(run.folder / "limited", office.port,
                  (("rate=300r/s", "rate=1r/s"), ("burst=2000", "burst=20")))
    statuses(front, ask("cleo", "HEAD", "/candidate.html"), 40)
    status, header, body = front.fetch("/", "cleo", Accept="text/html,*/*")
    run.judge("the page of 429", (429, "text/html; charset=utf-8", True),
              (status, header["Content-Type"], b"Too many requests" in body))
    run.judge("the same for a program", told_error(429, "often"), front.told(
        ask("cleo", "GET", "/me")))
    front.stop()


def busy_office(folder, replies):
    """Asks an office whose queue is full for longer than 5 seconds; keeps the reply."""
    with socket.create_server(("127.0.0.1", 0), backlog=0) as listener:
        port = listener.getsockname()[1]
        first = socket.create_connection(("127.0.0.1", port), SECONDS)
        front = Front(folder, port, edits=())
        waiting = threading.Thread(target=lambda: replies.append(front.told(CANDIDATE)))
        waiting.start()
        time.sleep(5.5)
        listener.settimeout(SECONDS)
        first.close()
        while waiting.is_alive():
            with listener.accept()[0] as behind, contextlib.suppress(ConnectionResetError):
                if behind.recv(65_536):
                    behind.sendall(reply(200, "{}"))
                    waiting.join(SECONDS)
        front.stop()


def compressed(run, front):
    """Texts, JSON, styles and scripts are compressed for a client that takes it."""
    for path, kind in (("/instance", "text/plain"), ("/drafts/1", "application/json"),
                       ("/style.css", "text/css"), ("/registry.js", "text/javascript")):
        _, plain, body = front.fetch(path, "registry")
        _, header, small = front.fetch(path, "registry", Accept_Encoding="gzip")
        run.judge(f"{path} compressed", (kind, None, "gzip", True, True),
                  (header["Content-Type"].partition(";")[0], plain["Content-Encoding"],
                   header["Content-Encoding"], gzip.decompress(small) == body,
                   len(small) < len(body) * 0.7))


def health(run, front, answer):
    """It says whether the office answers, without a password, on this machine only."""
    for what, expected, more in (
            ("health", answer, {}),
            ("health, from elsewhere", (404, None), {"source": "127.0.0.2"}),
            ("a change of health", told_error(405, "method"), {"method": "POST"})):
        status, _, body = front.fetch("/health", **more)
        run.judge(what, expected, (status, body if expected[1] else None))


def log_of_changes(run, front):
    """Who changed what, and what was refused to whom, each in a log of its own; nothing else."""
    for question in LOGGED_QUESTIONS:
        front.told(question)
    # A line is written after the reply.
    browser.until("the last line is there",
                  lambda: front.changes("refusals")[-1]["path"].endswith("9/move"))
    for log, expected in (("changes", LOGGED), ("refusals", LOGGED_REFUSALS)):
        lines = front.changes(log)
        found = [tuple(line[name] for name in
                       ("user", "caller", "method", "path", "status", "body")) for line in lines]
        for line in expected:
            run.judge(f"the log of {log} has {line}", True, line in found)
        run.judge(f"statuses in the log of {log}", set(), {
            line["status"] for line in lines} - LOGGED_STATUSES[log])
    asked = front.fetch("/drafts/9/publish", "registry", method="POST")[1]["X-Request-Id"]
    browser.until("a request's number is in its reply and in its line",
                  lambda: front.changes("refusals")[-1]["id"] == asked)
    lines = front.changes() + front.changes("refusals")
    run.judge("each request has a number of its own", len(lines),
              len({line["id"] for line in lines}))
    fields = ["at", "method", "path", "status", "caller", "user", "session", "id", "body"]
    run.judge("its fields, and which requests", ([], []), (
        [line for line in lines if list(line) != fields or not re.match(TIME, line["at"])],
        [line for line in lines if line["method"] in ("GET", "HEAD", "")]))


def styled_pages(run, front):
    """The pages for 401 and 404 have the styles of the others, which need no password."""
    for path, user, status, words in (("/me", None, 401, b"not signed in"),
                                      ("/nothing", "ada", 404, b"no such page")):
        came, _, page = front.fetch(path, user)
        styles = re.search(rb'href="(/\w+\.css)"', page).group(1).decode()
        run.judge(f"the page of {status}", (status, True, 200),
                  (came, words in page, front.fetch(styles)[0]))


def headers(run, front):
    """What a browser may do with a page, a reply and a refusal."""
    expected = {
        "X-Content-Type-Options": "nosniff", "Referrer-Policy": "no-referrer",
        "Cross-Origin-Opener-Policy": "same-origin", "Cross-Origin-Resource-Policy": "same-origin",
        "Permissions-Policy": "camera=(), geolocation=(), microphone=(), payment=(), usb=()"}
    for path, user in (("/", "ada"), ("/me", "ada"), ("/me", None), ("/nothing", "ada"),
                       ("/style.css", None), ("/labels/labels.json", "ada")):
        came = front.fetch(path, user)[1]
        run.judge(f"headers of {path}", expected, {name: came[name] for name in expected})


def described_exchanges(run, front, least):
    """Each exchange that reached the office is in docs/openapi.yaml."""
    if openapi.missing():
        return
    described = openapi.Described()
    exchanges = list(front.exchanges())
    faults = {described.fault(*exchange) for exchange in exchanges} - {None}
    run.judge("exchanges that docs/openapi.yaml has", (set(), True),
              (faults, len(exchanges) > least))
    for name, question, answer in CALLERS + TARGETS:
        if isinstance(answer, tuple) and b'"origin"' not in answer[1]:
            method, path = question.decode().split(" ")[:2]
            kind = "application/json" if answer[1].startswith(b"{") else "text/plain"
            run.judge(f"{name}, in docs/openapi.yaml", None,
                      described.fault(method, path, answer[0], kind, answer[1]))


def users_from_csv(run, office):
    """Users of a CSV file sign in with the passwords that it has, or that were made for them."""
    if not shutil.which("openssl"):
        print("front: tools/users_from_csv is left out without openssl")
        return
    folder, tool = run.folder / "people", TOP / "tools" / "users_from_csv"
    folder.mkdir()
    people, made, front = folder / "people.csv", folder / "made", folder / "front"

    def ended(text, students=TOP / "front/labels/students.json"):
        people.write_text(text)
        # nginx itself reads the hashes here, without the agent.
        return subprocess.run([tool, people, made, "--students", students, "--apr1"],
                              capture_output=True, text=True, timeout=SECONDS)

    for text, words in FAULTY_PEOPLE:
        came = ended(text)
        run.judge(f"people: {text}", (1, f"people.csv, {words}\n", False),
                  (came.returncode, came.stderr, made.exists()))
    for text, words in FAULTY_STUDENTS:
        (folder / "students.json").write_text(text)
        came = ended("user,caller\nx,office\n", folder / "students.json")
        run.judge(f"students: {text}", (1, f"students.json: {words}\n", False),
                  (came.returncode, came.stderr, made.exists()))
    longest = "long-" + "x" * 249
    came = ended("User;Caller;Student;Password\noffice-1;office;;with blanks: é\nada@x;;S1;\n"
                 f"ben;cand:2;;ben's\n{longest};cand:2;;{'w' * 256}\n")
    run.judge("people", (0, ""), (came.returncode, came.stderr))
    run.judge("who may read passwords", "600", oct((made / "passwords.csv").stat().st_mode)[-3:])
    passwords = dict(line.split(",") for line in
                     (made / "passwords.csv").read_text().splitlines()[1:])
    run.judge("passwords that were made", ["ada@x"], [*passwords])
    if os.geteuid() == 0:
        groups = [(made / name).stat().st_gid for name in ("users", "callers")]
        run.judge("nginx may read them", [grp.getgrnam("www-data").gr_gid] * 2, groups)
    shutil.copytree(TOP / "front", front)
    for name in ("users", "callers"):
        (front / name).write_bytes((made / name).read_bytes())
    made_front = Front(folder, office.port)
    for user, word, path, answer in (
            ("ada@x", passwords["ada@x"], "/me", FIRST_VIEW), ("ben", "ben's", "/me", SECOND_VIEW),
            (longest, "w" * 256, "/me", SECOND_VIEW),
            ("office-1", "with blanks: é", "/drafts/1/violations", (200, b"breaches 0\n"))):
        run.judge(f"{user} signs in", answer, made_front.told(message(
            "GET", path, caller=None, fields=[password(user, word)])))
        run.judge(f"{user} with another password", 401, made_front.told(message(
            "GET", path, caller=None, fields=[password(user, word[:-1])]))[0])
    made_front.stop()


@contextlib.contextmanager
def signed_on(run, office):
    """A front with sso.conf, and the stub that it asks."""
    with sign_on.provider() as address:
        front = Front(run.folder / "sso", office.port, (
            *QUICK[:2], ("include password.conf", "include sso.conf"),
            ("127.0.0.1:4180", address)))
        try:
            yield front
        finally:
            front.stop()


def single_sign_on(run, front):
    """Who a user is comes from the agent, and from nowhere else."""
    def told(path, *fields):
        return front.told(message("GET", path, caller=None, fields=fields))

    ada = "Cookie: signed_in=ada"
    for name, path, fields, answer in (
            ("a candidate", "/me", [ada], FIRST_VIEW),
            ("the office", "/drafts/1/violations", ["Cookie: signed_in=registry"],
             (200, b"breaches 0\n")),
            ("somebody whom callers doesn't have", "/me", ["Cookie: signed_in=eve"],
             told_error(400, "caller")),
            ("nobody", "/me", [], told_error(401, "signed-out")),
            ("nobody, at the labels", "/labels/labels.json", [], told_error(401, "signed-out")),
            ("nobody, who looks for a draft", "/-/drafts/1", [], told_error(401, "signed-out")),
            ("a password", "/me", [password("ada")], told_error(401, "signed-out")),
            ("the agent's header, by the client", "/me", ["X-Auth-Request-User: ada"],
             told_error(401, "signed-out")),
            ("both", "/me", [ada, "X-Auth-Request-User: registry", "X-Caller: office"], FIRST_VIEW),
            ("students for a candidate", "/labels/students.json", [ada],
             told_error(403, "forbidden", rule="P2")),
            ("who it is", "/-/user", [ada],
             (200, b'{"caller":"cand:1","sign_out":"/oauth2/sign_out","user":"ada"}'))):
        run.judge(f"single sign-on: {name}", answer, told(path, *fields))
    for user in ("registry", "physics"):
        run.judge(f"single sign-on: {user} asks too often where an exam can go", (True, True, True),
                  asks_for_places(front, message(
                      "GET", "/drafts/1/exams/3/places", caller=None,
                      fields=[f"Cookie: signed_in={user}"])))
    run.judge("single sign-on: what nginx asks the agent", 404, told("/-/who", ada)[0])
    with (front.folder / "callers").open("a") as callers:
        callers.write("Eva cand:1;\n~^s(?<number_of>[0-9]+)$ cand:$number_of;\n")
    front.reload()
    for name, user, answer in (
            ("as it is spelled", "Eva", FIRST_VIEW), ("in small letters", "eva", CALLER),
            ("the office in capital letters", "REGISTRY", CALLER),
            ("by a pattern", "s2", SECOND_VIEW),
            ("by a pattern, in capital letters", "S2", CALLER)):
        run.judge(f"single sign-on: a name {name}", answer,
                  told("/me", f"Cookie: signed_in={user}"))
    for name, status, fields in (
            ("by another site", 403, {"Origin": "https://elsewhere.example"}),
            ("by nobody's page", 403, {}),
            ("by its own page", 200, {"Origin": f"http://127.0.0.1:{front.port}"})):
        run.judge(f"signing out {name}", status,
                  front.fetch("/oauth2/sign_out", method="POST", **fields)[0])
    run.judge("signing out by a link", 403, front.fetch("/oauth2/sign_out")[0])
    for path in ("/", "/registry.html", "/me"):
        status, header, _ = front.fetch(path, Accept="text/html,*/*", Host="exams.example")
        run.judge(f"{path} sends to sign in", (302, f"http://exams.example/oauth2/start?rd={path}"),
                  (status, header["Location"]))
    for path, asked in (("/registry.html?a=b&rd=//evil", "/registry.html"), ("//evil", "/"),
                        ("/me%0d%0ax", "/"), ("/me&rd=//evil", "/")):
        came = front.fetch(path, Accept="text/html,*/*", Host="exams.example")
        run.judge(f"{path} sends to sign in", f"http://exams.example/oauth2/start?rd={asked}",
                  came[1]["Location"])
    front.fetch("/oauth2/start?rd=/me", Host="exams.example", Cookie="a=b", Accept_Language="de",
                User_Agent="x", X_Forwarded_Host="evil", X_Forwarded_Uri="//evil", Forwarded="x",
                X_Auth_Request_Redirect="//evil", X_Forwarded_For="1.2.3.4", X_Real_IP="1.2.3.4",
                X_Forwarded_Proto="https", X_Auth_Request_User="registry", Authorization="x")
    run.judge("what the agent of single sign-on gets", {
        "Host": "exams.example", "Cookie": "a=b", "Accept-Language": "de", "User-Agent": "x",
        "X-Forwarded-Proto": "http", "X-Forwarded-Host": "exams.example", "X-Real-IP": "127.0.0.1",
        "X-Forwarded-Uri": "/oauth2/start?rd=/me", "X-Forwarded-For": "127.0.0.1",
        "Connection": "close"}, sign_on.Agent.header)
    run.judge("health", (200, b'{"health":"ok"}'), told("/health"))


@contextlib.contextmanager
def several(run, offices):
    """One front before these offices by host name, and a host that lists them."""
    hosts = "".join(f"{host}.localhost {host}@127.0.0.1:{port};\n"
                    for host, port in offices.items())
    folder = run.folder / "several" / "front"
    shutil.copytree(TOP / "front", folder)
    callers = (folder / "callers").read_text()
    (folder / "callers").write_text(callers + "".join(
        callers.replace('"term ', f'"{host} ') for host in offices))
    front = Front(run.folder / "several", next(iter(offices.values())), (
        *QUICK, ("default 127.0.0.1:", f"exams.localhost list;\n{hosts}default 127.0.0.1:")))
    for host in offices:
        (front.folder / "labels" / f"{host}.localhost").mkdir()
    wide = front.folder / "labels" / "wide.localhost" / "labels.json"
    wide.write_text(json.dumps(WIDE_LABELS))
    (front.folder / "labels" / "sessions.json").write_text(json.dumps({"sessions": [
        {"title": f"Session {host}", "address": f"http://{host}.localhost:{front.port}/"}
        for host in offices]}))
    try:
        yield front
    finally:
        front.stop()


def several_sessions(run, front):
    """Each host has its own office and its own names."""
    for host, path, answer in (
            ("small", "/me", FIRST_VIEW[1]), ("other", "/me", FIRST_VIEW[1]),
            ("exams", "/me", b'{"error":"caller"}'),
            ("wide", "/me/exam/4", b'{"date":"2005-06-10","exam":4,"period":8,"room":4,"seat":1,'
             b'"start":"09:00:00","state":"seated"}')):
        run.judge(f"{path} of {host}", answer, front.fetch(
            path, "ada", Host=f"{host}.localhost")[2])
    for host, title in (("small", "Examinations in April 2005"), ("wide", "Wide")):
        run.judge(f"names of {host}", title, json.loads(front.fetch(
            "/labels/labels.json", "ada", Host=f"{host}.localhost")[2])["title"])
    for path in ("/labels/wide.localhost/labels.json", "/labels/small.localhost/"):
        run.judge(f"{path} itself", 404, front.fetch(path, "registry")[0])


def caches(run, name, front, **signed):
    """The replies that a browser may keep."""
    for path, expected in (
            ("/", "no-store"), ("/style.css", "no-cache"), ("/candidate.html", "no-store"),
            ("/labels/labels.json", "private, no-cache"), ("/labels/students.json", "no-store"),
            ("/me", "no-store"), ("/-/user", "no-store"), ("/health", "no-store"),
            ("/nothing", "no-store")):
        run.judge(f"what may be kept of {path}, {name}", expected,
                  front.fetch(path, **signed)[1]["Cache-Control"])


def words_of_pages(run):
    """The pages have words for each rule and error, and for no fault that FAULTS.md lacks."""
    formats = (TOP / "docs" / "FORMATS.md").read_text()
    numbered = (TOP / "docs" / "generated" / "FAULTS.md").read_text().split("\n## ")[1]
    script = (TOP / "front" / "page" / "refusals.js").read_text()

    def keys(name):
        block = script.split(f"const {name} = {{")[1].split("\n};")[0]
        return set(re.findall(r"^  '?([\w-]+)'?:", block, re.M))

    rules = re.search(r"^RULE is one of (.*?)\.", formats, re.M | re.S).group(1)
    run.judge("rules in words", set(re.findall(r"`(\w+)`", rules)), keys("RULES"))
    run.judge("faults in words", set(), keys("FAULTS") - set(
        re.findall(r"^\| (\d+) [A-Z]\w+ \|", numbered, re.M)))
    of_the_front = {"often", "ledger", "ledger-differs", "names", "files-differ", "unreadable",
                    "plan-differs"}
    run.judge("errors in words", {error for _, error in openapi.formats()[0]} | of_the_front,
              keys("REFUSALS") | {"forbidden", "broken", "unplaced", "file"})


def before_the_office(run, front, office):
    """All that is asked without a browser."""
    for question, answer in MADE:
        run.judge("the start", answer, front.told(question))
    words_of_pages(run)
    front_limits.judge(run)
    who_asks_and_what(run, front)
    styled_pages(run, front)
    headers(run, front)
    health(run, front, (200, b'{"health":"ok"}'))
    what_passes(run, run.folder)
    waits_for_no_body(run, front)
    many_at_once(run, front)
    with slow_ones(run, front):
        users_from_csv(run, office)
        limits(run, office)
        no_office(run)
    log_of_changes(run, front)
    strangers_leave_no_trace(run, front)


@contextlib.contextmanager
def wide_session(run):
    """A front before an office whose session has many rooms; it is published."""
    source, database = run.folder / "wide.exam", run.folder / "wide.db"
    source.write_bytes(WIDE)
    subprocess.run([run.program, "load", "--db", str(database), str(source)], check=True,
                   stdout=subprocess.DEVNULL, timeout=SECONDS)
    office = Office(run.program, database)
    try:
        front = Front(run.folder / "wide", office.port)
        (front.folder / "labels" / "labels.json").write_text(json.dumps(WIDE_LABELS))
        # They have no ledger, as an older version made them.
        (front.folder / "labels" / "students.json").write_text(json.dumps({"students": [
            {"number": 1, "id": "s1", "name": "Ada Archer"}]}))
        for question in (ask("registry", "PUT", "/drafts/1", WIDE_SOLUTION),
                         ask("registry", "POST", "/drafts/1/publish")):
            run.judge("a wide session", True, front.told(question)[0] in (200, 201))
        try:
            yield front, office
        finally:
            front.stop()
    finally:
        office.killed()


class EditedOffice:
    """A front before an office of its own that can be started again."""

    def __init__(self, run):
        self.run, self.begun = run, contextlib.ExitStack()
        self.database = run.folder / "edited.db"

    def __enter__(self):
        source = self.run.folder / "edited.exam"
        source.write_bytes(SMALL)
        subprocess.run([self.run.program, "load", "--db", self.database, source], check=True,
                       stdout=subprocess.DEVNULL, timeout=SECONDS)
        self.office = Office(self.run.program, self.database)
        self.begun.callback(lambda: self.office.killed())
        with contextlib.ExitStack() as begun:
            begun.callback(self.begun.close)
            self.front = Front(self.run.folder / "edited", self.office.port)
            self.begun.callback(self.front.stop)
            for question, answer in MADE:
                self.run.judge("the start of editing", answer, self.front.told(question))
            begun.pop_all()
        return self

    def __exit__(self, *_):
        self.begun.close()

    def restart(self):
        """Ends the office, and starts it again with its file."""
        self.office.killed()
        self.office = Office(self.run.program, self.database, port=self.office.port)


@contextlib.contextmanager
def new_office(run):
    """A front before an office without a session."""
    office = Office(run.program, run.folder / "new.db")
    try:
        front = Front(run.folder / "new", office.port)
        try:
            yield front
        finally:
            front.stop()
    finally:
        office.killed()


def main():
    words = argparse.ArgumentParser(description=__doc__.partition("\n")[0])
    words.add_argument("program")
    words.add_argument("--pictures", type=pathlib.Path, help="a folder for pictures of the pages")
    words.add_argument("--no-browser", action="store_true", help="leaves the pages out")
    words.add_argument("--whole", action="store_true", help="whole floods and sessions")
    given = words.parse_args()
    # A crowd of clients needs more files than most people's limit, which they may raise.
    most = resource.getrlimit(resource.RLIMIT_NOFILE)[1]
    resource.setrlimit(resource.RLIMIT_NOFILE, (most, most))
    if not NGINX:
        print("front: left out without nginx-light")
        return 0
    if openapi.missing():
        print(f"front: docs/openapi.yaml is left out without {' and '.join(openapi.missing())}")
    with tempfile.TemporaryDirectory() as folder, \
            contextlib.nullcontext() if given.no_browser else browser.starting(folder) as started:
        run = Run(pathlib.Path(given.program).resolve(), folder, "front")
        office = run.office()
        try:
            front = Front(folder, office.port)
            replies = []
            queued = [threading.Thread(target=module.judge, args=(run, Front))
                      for module in (front_queue, front_sign_in, front_registry)]
            queued += [threading.Thread(target=module.judge, args=(
                run, Front, *(module.WHOLE if given.whole else ())))
                       for module in (front_floods, front_sessions)]
            for thread in queued:
                thread.start()
            busy = threading.Thread(target=busy_office, args=(run.folder / "busy", replies))
            busy.start()
            try:
                before_the_office(run, front, office)
                with wide_session(run) as (wide, wide_office), signed_on(run, office) as sso, \
                        several(run, {"small": office.port, "wide": wide_office.port}) as many:
                    several_sessions(run, many)
                    compressed(run, wide)
                    single_sign_on(run, sso)
                    caches(run, "by password", front, user="ada")
                    caches(run, "by single sign-on", sso, Cookie="signed_in=ada")
                    if not given.no_browser:
                        front_pages.judge(run, started, front, wide, sso, many, office,
                                          lambda: new_office(run), lambda: EditedOffice(run),
                                          given.pictures)
                        if started:
                            front_sign_in.in_browser(run, started(), Front)
                            front_registry.in_browser(run, started(), Front)
                    described_exchanges(run, wide, 1 if given.no_browser else 5)
                described_exchanges(run, front, 100)
            finally:
                front.stop()
                for thread in (*queued, busy):
                    thread.join()
            run.judge("a queue in front of the office", [(200, b"{}")], replies)
        finally:
            office.killed()
    return run.end()


if __name__ == "__main__":
    sys.exit(main())
