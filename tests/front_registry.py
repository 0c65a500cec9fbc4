"""The registry's service behind the front: who reaches it, and what it writes into the ledger."""
import concurrent.futures
import contextlib
import datetime
import gzip
import hashlib
import http.client
import json
import os
import re
import shutil
import socket
import sqlite3
import subprocess
import time

import browser
import front_sign_in
import sign_on
import waiting
from front_cases import form_of, told_error
from front_page import Page, csv_file, is_read
from front_sign_in import GUNICORN, TOP, Client
from run_serve import Run
from serve_cases import SOLUTION, batch_text

SECONDS = 100
NOT_THE_OFFICE, NOBODY = told_error(403, "forbidden", rule="P2"), told_error(401, "signed-out")
NONE = told_error(503, "unavailable")


class Service:
    """The registry's service, with the folder of a session made of the small example, or none."""

    def __init__(self, folder, is_new, more):
        self.folder, self.socket = folder, folder / "registry.sock"
        self.made = folder / "term"
        folder.mkdir()
        if os.geteuid() == 0:
            # nginx reads the names.
            shutil.chown(folder, group="www-data")
            folder.chmod(0o2750)
        if not is_new:
            self.make()
        self.environment = {**os.environ, "REGISTRY_FOLDER": str(folder), **more,
                            "PYTHONDONTWRITEBYTECODE": "1"}
        self.start()

    def make(self):
        """Makes the ledger of the session, as a tool does."""
        subprocess.run([TOP / "tools" / "session_from_csv", TOP / "examples" / "small", self.made],
                       check=True, stdout=subprocess.DEVNULL, timeout=SECONDS)

    def start(self):
        with (self.folder / "errors").open("ab") as errors:
            self.process = subprocess.Popen(
                [GUNICORN, "--workers", "1", "--threads", "8", "--limit-request-line", "8190",
                 "--bind", f"unix:{self.socket}",
                 "--chdir", TOP / "tools", "--graceful-timeout", "2", "registry.service:app"],
                env=self.environment, stdin=subprocess.DEVNULL, stdout=errors, stderr=errors)
        browser.until_or_ended(self.process, "the service runs",
                               lambda: waiting.takes(self.socket))

    def stop(self):
        self.process.terminate()
        self.process.wait(SECONDS)

    def rows(self, statement):
        with contextlib.closing(sqlite3.connect(self.made / "ledger.db")) as ledger:
            return ledger.execute(statement).fetchall()


class Stack(front_sign_in.Stack):
    """Front, queue, agent and office, and the registry's service with a token of its own; with the
    session of the small example, or new."""

    def __init__(self, run, make_front, name, edits=(), is_new=False, **more):
        folder = run.folder / name
        super().__init__(run, make_front, name, (
            ("/run/examoffice-registry", f"{folder}/registry"),
            ("/var/lib/examoffice-front", f"{folder}/front/run"), *edits),
            **({"start": None} if is_new else {}), **more)
        with contextlib.ExitStack() as begun:
            begun.callback(self.begun.close)
            front = self.front.folder
            (front / "more").mkdir()
            (front / "more" / "service.conf").symlink_to("../service.conf")
            self.token = self.added_program()
            self.service = Service(folder / "registry", is_new, {
                "REGISTRY_FRONT": f"{front}/run/front.sock", "REGISTRY_TOKEN": self.token,
                "REGISTRY_LOG": f"{front}/run/changes.log", "REGISTRY_PUBLICATIONS": "4",
                "REGISTRY_COMPARED": "0.5",
                # A new session is asked for more than once.
                "REGISTRY_HELD": "0.01", "EXAMOFFICE": str(run.program)})
            begun.callback(self.service.stop)
            (front / "labels").rename(front / "labels.small")
            if is_new:
                (front / "sessions").symlink_to(self.service.folder)
            else:
                (front / "labels").symlink_to(self.service.made / "now")
            self.front.reload()
            browser.until("the token counts", lambda: self.by_token("/instance")
                          == (409 if is_new else 200))
            self.begun = begun.pop_all()

    def by_token(self, path):
        """The status of a reply to the service's token, by the socket at which it asks."""
        client = http.client.HTTPConnection("term.session", timeout=SECONDS)
        with contextlib.closing(client):
            client.sock = socket.socket(socket.AF_UNIX)
            client.sock.connect(str(self.front.folder / "run" / "front.sock"))
            client.request("GET", path, headers={"Authorization": f"Bearer {self.token}"})
            return client.getresponse().status

    def added_program(self):
        """A token for the service, as the package makes it."""
        key = self.run.folder / "front.key"
        key.write_text(f"FRONT_KEY={self.key}\n")
        return subprocess.run(
            ["/usr/bin/python3", TOP / "tools" / "token", "--front", self.front.folder, "--key",
             key, "add", "registry", "office"], check=True, capture_output=True, text=True
        ).stdout.strip()

    def reload(self):
        """Begins a new log of changes, as logrotate does."""
        log = self.front.folder / "run" / "changes.log"
        log.rename(log.with_name("changes.log.1"))
        self.front.reload()


def signed_in(stack, user):
    client = Client(stack.front)
    client.sign_in(user)
    return client


def asked(client, method, path, body=None):
    """Status and body of a reply of the service; JSON is read."""
    status, header, text = client.ask(method, f"/-/registry/{path}", body)
    return status, json.loads(text) if "json" in header["Content-Type"] else text


def strangers(run, stack):
    """Only the office reaches the service, and only the front's own pages."""
    before = stack.service.socket.stat().st_ctime_ns
    people = {"somebody who isn't signed in": Client(stack.front),
              **{user: signed_in(stack, user) for user in ("ada", "physics", "nobody")}}
    questions = (("GET", "about"), ("GET", "batches"), ("PUT", "batches/1"), ("POST", "students"),
                 ("GET", "history"), ("GET", "publications/1"), ("GET", "lists"),
                 ("POST", "lists"), ("GET", "lists/1/door-lists.pdf"), ("POST", "session"),
                 ("GET", "session/1"), ("GET", "breaches"), ("POST", "breaches"),
                 ("GET", "anything"))
    for running in (True, False):
        for name, client in people.items():
            for method, path in questions:
                run.judge(f"{method} {path} of {name}, while it runs: {running}",
                          NOT_THE_OFFICE if client.cookies else NOBODY,
                          client.ask(method, f"/-/registry/{path}", X_User="registry")[::2])
        if running:
            stack.service.stop()
    office = signed_in(stack, "registry")
    run.judge("no service", ((200, b"null"), NONE), tuple(
        office.ask("GET", f"/-/registry/{path}")[::2] for path in ("about", "batches")))
    stack.service.start()
    browser.until("the service answers", lambda: asked(office, "GET", "about") == (
        200, {"ledger": True, "standing": []}))
    run.judge("its socket is new", True, before < stack.service.socket.stat().st_ctime_ns)
    run.judge("another site's page", told_error(403, "forbidden", rule="origin"), office.ask(
        "PUT", "/-/registry/batches/1", b"", Origin="https://elsewhere.example")[::2])
    run.judge("the names of its sessions, for others", (200, 401), tuple(
        Client(stack.front, host="other.session").ask("GET", "/instance", **fields)[0]
        for fields in ({"Authorization": f"Bearer {stack.token}"}, {})))


def odd_questions(run, stack):
    """Whatever the office asks the service, the reply is JSON in the office's words."""
    office, half = signed_in(stack, "registry"), json.dumps([{"student": "\ud800", "name": "x"}])
    head = "student,exam,action\n"
    for method, path, body, status, error in (
            ("PUT", f"batches/{'9' * 25}", f"{head}1,0,add\n", 404, "path"),
            ("PUT", f"batches/{'9' * 5_000}", f"{head}1,0,add\n", 400, "request"),
            ("GET", f"batches/{'9' * 25}", None, 404, "path"),
            ("GET", f"publications/{'9' * 25}", None, 404, "path"),
            ("GET", f"publications/{'9' * 5_000}", None, 400, "request"),
            ("GET", f"lists/{'9' * 25}/x.pdf", None, 404, "path"),
            ("GET", f"differences?from={'9' * 25}&to=1", None, 404, "publication"),
            ("PUT", "batches/1", "", 400, "file"), ("PUT", "batches/1", head * 2, 400, "file"),
            ("PUT", "batches/1", f"{head}{'9' * 25},0,add\n", 400, "file"),
            ("POST", "breaches", "", 400, "body"), ("POST", "students", "[" * 100_000, 400, "body"),
            ("POST", "students", half, 400, "body"), ("POST", "students", "", 400, "body"),
            ("POST", "lists", "[" * 100_000, 400, "body"), ("POST", "lists", "", 400, "body"),
            ("GET", "lists/1/..%2f", None, 404, "path"), ("GET", "lists/1/x", None, 404, "lists"),
            ("GET", "nothing", None, 404, "path"), ("GET", "%ff%fe", None, 404, "path"),
            ("DELETE", "batches/1", None, 405, "method"), ("GET", "students", None, 405, "method")):
        run.judge(f"{method} {path[:30]} {(body or '')[:30]!r}", (status, error), (
            (came := asked(office, method, path, body))[0],
            came[1]["error"] if isinstance(came[1], dict) else came[1]))


def batches(run, stack):
    """A batch of the page is in the ledger with who sent it, and what it did."""
    ada, service = signed_in(stack, "registry"), stack.service
    body = batch_text("3,0,add", "2,0,add", "2,1,drop")
    reply = {"added": 1, "batch": 5, "dropped": 1, "unchanged": 1}
    run.judge("a batch", (200, reply), asked(ada, "PUT", "batches/5", body))
    run.judge("its lines in the ledger", [(5, 0, 3, 0, "add", 1), (5, 1, 2, 0, "add", 0),
                                          (5, 2, 2, 1, "drop", 1)], service.rows(
        "SELECT batch, place, student, exam, action, EXISTS (SELECT 1 FROM acted WHERE acted.batch"
        " = changes.batch AND acted.place = changes.place) FROM changes ORDER BY place"))
    status, found = asked(ada, "GET", "batches")
    one, = found["batches"]
    run.judge("what is known of it", (200, True, {
        "number": 5, "source": "page", "by": "registry", "added": 1, "dropped": 1, "unchanged": 1,
        "digest": hashlib.sha256(body).hexdigest(), "has_opposite": True}), (
        status, bool(re.match(r"\d{4}-\d\d-\d\dT", one.pop("at"))),
        {name: one[name] for name in sorted(one) if name != "points"}))
    run.judge("points before and after", {"published": [37, 37], "1": [37, 38]}, one["points"])
    run.judge("its lines", (200, [["add", True], ["add", False], ["drop", True]]), (
        lambda status, it: (status, [[one["action"], one["acted"]] for one in it["changes"]]))(
        *asked(ada, "GET", "batches/5")))
    students = json.loads((service.made / "now" / "students.json").read_text())
    run.judge("the file of students", ([[0, 3], [0], [0, 1, 2]], [(2, "drop", "registry"),
                                                                  (3, "add", "registry")]), (
        [one["exams"] for one in students["students"]],
        sorted((one["student"], one["action"], one["by"]) for one in students["here"])))
    run.judge("the same again", (200, reply), asked(ada, "PUT", "batches/5", body))
    run.judge("other bytes under its number", (409, {"error": "batch-differs"}),
              asked(ada, "PUT", "batches/5", batch_text("3,0,drop")))
    run.judge("an exam that isn't there", (404, {"error": "number"}),
              asked(ada, "PUT", "batches/6", batch_text("3,9,add")))
    run.judge("lines that are no lines", (400, {"error": "file", "fault": 11, "line": 1}),
              asked(ada, "PUT", "batches/6", b"junk"))
    run.judge("nothing is left of those", [(5,)], service.rows("SELECT number FROM batches"))
    direct = ada.ask("PUT", "/batches/7", batch_text("2,1,add"))
    run.judge("a batch to the office itself", 200, direct[0])
    run.judge("the next one", 200, asked(ada, "PUT", "batches/8", batch_text("3,0,drop"))[0])
    run.judge("who sent both", [(5, "page", "registry", None), (None, "other", "registry", 7),
                                (8, "page", "registry", None)], service.rows(
        "SELECT iif(source = 'other', NULL, number), source, prepared_by, logged FROM batches"
        " ORDER BY turn"))
    office = [line for line in stack.front.changes() if line["path"] == "/batches/8"]
    run.judge("as whom the service asks", {("program:registry", "office")},
              {(one["user"], one["caller"]) for one in office if one["status"] == 200})


def new_students(run, stack):
    """A new student gets the next free number, and a name; faults change nothing."""
    ada = signed_in(stack, "registry")
    zoe = [{"student": "r9", "name": "Zoë Zander"}, {"student": "s1", "name": "Ada Archer"}]
    run.judge("a new student", (200, {"numbers": {"r9": 4, "s1": 1}}),
              asked(ada, "POST", "students", json.dumps(zoe)))
    run.judge("their name", {"number": 4, "id": "r9", "name": "Zoë Zander"}, (
        lambda it: {name: it[name] for name in ("number", "id", "name")})(json.loads(
            (stack.service.made / "now" / "names" / "4.json").read_text())))
    for name, body in (("no JSON", b"{"), ("no list", b"{}"), ("no text", b'[{"student":1}]'),
                       ("too long", json.dumps([{"student": "x" * 255}]).encode())):
        run.judge(f"students: {name}", (400, {"error": "body"}),
                  asked(ada, "POST", "students", body))
    status, said = asked(ada, "POST", "students", json.dumps([
        {"student": "q1", "name": "Q"}, {"student": "", "name": "a\u202eb"}]))
    run.judge("faulty names", (400, "names", 2), (status, said["error"], len(said["faults"])))
    run.judge("nobody else is new", [(4, "r9")], stack.service.rows(
        "SELECT number, id FROM students WHERE number > 3"))
    ended = subprocess.run(
        [TOP / "tools" / "session_from_csv", "--check", stack.service.made],
        capture_output=True, text=True, timeout=SECONDS, check=False)
    run.judge("all belongs together", (0, ""), (ended.returncode, ended.stderr))


def at_once(run, stack):
    """Many batches at once are all in the ledger, once each, and none beside the tools' lock."""
    ada = signed_in(stack, "registry")
    with concurrent.futures.ThreadPoolExecutor(8) as pool:
        came = list(pool.map(lambda number: asked(ada, "PUT", f"batches/{number}", batch_text(
            f"{number % 3 + 1},{number % 4},{'add' if number % 2 else 'drop'}"))[0],
            range(100, 116)))
    run.judge("many at once", [200] * 16, came)
    run.judge("each is in the ledger, with what it did", [(16, 16)], stack.service.rows(
        "SELECT count(*), sum(effects.added + effects.dropped + unchanged) FROM batches"
        " JOIN effects ON batch = number WHERE number BETWEEN 100 AND 115"))


def older_ledger(run, stack):
    """With an older ledger the page sends nothing, and says why; no number is given again."""
    ada, ledger = signed_in(stack, "registry"), stack.service.made / "ledger.db"
    copy, newer = ledger.with_name("copy"), ledger.with_name("newer")
    shutil.copy(ledger, copy)
    status, one = asked(ada, "POST", "students", b'[{"student":"w1","name":"W"}]')
    number = one["numbers"]["w1"]
    run.judge("a student of whom the copy has nothing", (200, 200), (
        status, asked(ada, "PUT", "batches/201", batch_text(f"{number},0,add"))[0]))
    ledger.rename(newer)
    copy.rename(ledger)
    fault = (f"the office has the number {number} (MATH101), which the ledger doesn't know: put "
             "the newer ledger back, or say --adopt")
    for name, method, path, body in (
            ("a batch", "PUT", "batches/202", batch_text("3,0,add")),
            ("the number again", "POST", "students", b'[{"student":"w2","name":"V"}]')):
        run.judge(f"{name}, with an older ledger", (
            409, {"error": "ledger-differs", "faults": [fault]}), asked(ada, method, path, body))
    run.judge("nobody has the number", [], stack.service.rows(
        f"SELECT id FROM students WHERE number >= {number}"))
    told = (stack.service.made / "standing").read_text().splitlines()
    run.judge("what the page and the status say", ([fault], [True, False]), (
        told[:1], [words in told[1] for words in (
            "the ledger is older than its office, which took batch 201 and 1 more, by the front's "
            "log from program:registry", "may be")]))
    run.judge("the same by a page", told, asked(ada, "GET", "about")[1]["standing"])
    newer.rename(ledger)
    browser.until("the newer ledger is noticed", lambda: asked(ada, "GET", "about") == (
        200, {"ledger": True, "standing": []}))
    run.judge("a batch with the newer one", 200, asked(
        ada, "PUT", "batches/202", batch_text("3,0,add"))[0])


def published(stack, client, path="history"):
    """What the history has, as soon as it has looked."""
    status, found = asked(client, "GET", path)
    return found["publications"] if status == 200 else status


def kept(run, stack, client, name, *expected):
    """Judges number, who, draft and points of the publications that are kept, after a while."""
    def found():
        shown = published(stack, client)
        return shown if isinstance(shown, int) else [
            (one["number"], one["by"], one["draft"], one["points"]) for one in shown]

    end = time.monotonic() + 20
    while found() != [*expected] and time.monotonic() < end:
        time.sleep(0.2)
    run.judge(name, [*expected], found())


FIRST, SECOND = (1, "registry", 1, 37), (2, "registry", 1, 44)


def history(run, stack):
    """Each publication is kept, with who made it; what changed, and why, is found."""
    ada = signed_in(stack, "registry")
    kept(run, stack, ada, "the first publication", FIRST)
    run.judge("its seats", (6, 6), tuple(
        published(stack, ada)[0][name] for name in ("seats", "changed")))
    for method, path, body in (("POST", "/drafts/1/exams/3/move", b'{"period":3,"room":1}'),
                               ("POST", "/drafts/1/publish", b"")):
        run.judge("an exam moves", 200, ada.ask(method, path, body)[0])
    kept(run, stack, ada, "the second one", SECOND, FIRST)
    run.judge("what differs", (200, {
        "exams": [{"exam": 3, "from": [2, 0], "to": [3, 1]}],
        "seats": [{"student": 1, "exam": 3, "from": [2, 0, 1], "to": [3, 1, 2]}]}),
        asked(ada, "GET", "differences?from=1&to=2"))
    run.judge("the other way round", (200, [[3, 1, 2], [2, 0, 1]]), (
        lambda status, it: (status, [it["seats"][0][name] for name in ("from", "to")]))(
        *asked(ada, "GET", "differences?from=2&to=1")))
    _, found = asked(ada, "GET", "history?student=1")
    run.judge("why a seat changed", ([[0, 0, 0, 1, 1, None], [3, 2, 0, 1, 1, 1],
                                      [3, 3, 1, 2, 2, None]],
                                     [["moved", 3, "registry", "office",
                                       '{"period":3,"room":1}']]),
              ([[one[name] for name in ("exam", "period", "room", "seat", "first", "last")]
                for one in found["seats"]],
               [[one[name] for name in ("what", "exam", "by", "caller", "body")]
                for one in found["edits"]]))
    run.judge("where an exam was", [[1, 2, 0], [2, 3, 1]], [
        [one[name] for name in ("publication", "period", "room")]
        for one in asked(ada, "GET", "history?exam=3")[1]["places"]])
    run.judge("what was done", ["published", "moved", "published", "made"], [
        one["what"] for one in asked(ada, "GET", "history")[1]["edits"]])
    run.judge("a kept timetable", (200, b"0, 0\r\n1, 0\r\n3, 1\r\n2, 0\r\n"),
              asked(ada, "GET", "publications/1"))
    for path in ("publications/9", "differences?from=1&to=9", "differences?from=1",
                 "differences?from=x&to=2"):
        run.judge(path, (404, {"error": "publication"}), asked(ada, "GET", path))
    seen_by_departments(run, stack)
    kept_in_spite(run, stack, ada)


def seen_by_departments(run, stack):
    """A department reads when and where exams are published, and how large they are; a candidate
    doesn't."""
    physics, ben = signed_in(stack, "physics"), signed_in(stack, "ben")

    def read(client, name):
        return json.loads(client.ask("GET", f"/labels/{name}.json")[2])

    browser.until("the second publication is shown",
                  lambda: (read(physics, "published") or {}).get("publication") == 2)
    shown = read(physics, "published")
    run.judge("what is published", (44, [[0, 0], [1, 0], [3, 1], [3, 1]]),
              (shown["points"], shown["places"]))
    run.judge("when", asked(signed_in(stack, "registry"), "GET", "history")[1]["publications"][0][
        "at"], shown["at"])
    run.judge("how large exams are", [2, 2, 1, 1], read(physics, "sizes")["sizes"])
    run.judge("for a candidate", [None, None], [read(ben, name)
                                                for name in ("published", "sizes")])


def kept_in_spite(run, stack, ada):
    """A publication succeeds and is kept although the folder is full, the service is stopped, or
    the log is another one; the oldest go."""
    def publish(period, room):
        body = json.dumps({"period": period, "room": room}, separators=(",", ":"))
        return [ada.ask("POST", path, text)[0] for path, text in (
            ("/drafts/1/exams/3/move", body), ("/drafts/1/publish", b""))]

    file = stack.service.made / "history.db"
    run.judge("who may read it", 0o640, file.stat().st_mode & 0o777)
    file.rename(file.with_name("aside"))
    file.mkdir()
    run.judge("a publication beside a broken disk", [200, 200], publish(2, 0))
    browser.until("it was looked", lambda: asked(ada, "GET", "history")[0] == 503)
    time.sleep(1.5)
    file.rmdir()
    file.with_name("aside").rename(file)
    third, fourth, fifth = ((number, "registry", 1, points) for number, points in (
        (3, 37), (4, 44), (5, 37)))
    kept(run, stack, ada, "it is kept later", third, SECOND, FIRST)
    stack.service.stop()
    run.judge("a publication without the service", [200, 200], publish(3, 1))
    stack.service.start()
    kept(run, stack, ada, "it is kept, too", fourth, third, SECOND, FIRST)
    stack.reload()
    run.judge("a publication into a new log", [200, 200], publish(2, 0))
    kept(run, stack, ada, "four are kept", fifth, fourth, third, SECOND)
    run.judge("what is left of the first", (404, [[2, 2], [3, 3], [4, 4], [5, None]]), (
        asked(ada, "GET", "publications/1")[0],
        [[one["first"], one["last"]] for one in asked(ada, "GET", "history?student=1")[1]["seats"]
         if one["exam"] == 3]))


# ---- A new session

CSV = {path.stem: path.read_bytes() for path in (TOP / "examples" / "small").glob("*.csv")}
SIZES = "4 exams, 3 students, 6 enrolments, 4 periods, 2 rooms"


def sent_form(client, path, files, **more):
    """Status and reply for a form with these files, as soon as there is one."""
    body, kind = form_of(files, more)
    status, _, text = client.ask("POST", f"/-/registry/{path}", body, **{"Content-Type": kind})
    said = json.loads(text)
    while status == 202:
        status, said = asked(client, "GET", f"{path}/{said['working']}")
    return status, said


def sent_files(client, files, **more):
    """Status and reply for these files of a new session."""
    return sent_form(client, "session", files, **more)


def new_session(run, stack):
    """CSV files are checked, and nothing is made; then the session is loaded, and its names are
    there."""
    office, folder = signed_in(stack, "registry"), stack.service.made
    run.judge("no names yet", b"null", office.ask("GET", "/labels/labels.json")[2])
    status, found = sent_files(office, CSV)
    run.judge("files are checked", (200, [SIZES], [], []), (
        status, *(found[name] for name in ("summary", "warnings", "faults"))))
    packed = {**CSV, "enrolments": gzip.compress(CSV["enrolments"])}
    run.judge("the same, compressed", (200, found), sent_files(office, packed))
    faulty = {**CSV, "enrolments": CSV["enrolments"].replace(b"PHYS102", b"PHYS999")}
    for name, files, fault in (
            ("a fault", faulty, "enrolments.csv, line 3, exam: there is no exam 'PHYS999'"),
            ("no rules", {name: CSV[name] for name in CSV if name != "rules"},
             "rules.csv: cannot be read: No such file or directory"),
            ("no packed file", {**CSV, "rooms": b"\x1f\x8bno"},
             "rooms.csv: cannot be read: Compressed file ended before the end-of-stream marker was "
             "reached")):
        run.judge(name, (200, [], [fault]), (lambda status, it: (
            status, it["summary"], it["faults"][:1]))(*sent_files(office, files)))
    run.judge("others than those that were checked", (409, {"error": "files-differ"}),
              sent_files(office, faulty, checked=found["digest"]))
    run.judge("nothing is made", (False, 409), (folder.exists(), office.ask("GET", "/instance")[0]))
    # What a run that was cut off leaves.
    stack.service.make()
    status, loaded = sent_files(office, CSV, checked=found["digest"])
    run.judge("the session is loaded", (201, SIZES, {"exams": 4, "pairs": 6, "periods": 4,
                                                     "rooms": 2}),
              (status, loaded["summary"][0], loaded["loaded"]))
    further_export(run, stack, office)
    run.judge("what nobody asked for", (503, {"error": "unavailable"}),
              asked(office, "GET", "session/99"))
    ada = signed_in(stack, "ada")
    run.judge("its names, without a link of labels", (
        "MATH101", 4, "Ada Archer", None, told_error(403, "forbidden", rule="P2")), (
        json.loads(ada.ask("GET", "/labels/labels.json")[2])["exams"][0]["code"],
        len(json.loads(office.ask("GET", "/labels/students.json")[2])["students"]),
        *(it and it["name"] for it in (json.loads(one.ask("GET", "/labels/name.json")[2])
                                       for one in (ada, office))),
        ada.ask("GET", "/labels/students.json")[::2]))


def further_export(run, stack, office):
    """Further CSV files of the session that is loaded bring titles and names, after they were
    checked; without a ledger there is no other session."""
    further = {**CSV, "exams": CSV["exams"].replace(b"Calculus", b"Calculus I"),
               "enrolments": CSV["enrolments"] + b"r9,Zoe Zander,MATH101\n"}
    lines = ["4 exams, 4 students, 7 enrolments, 4 periods, 2 rooms",
             "1 title and 0 names brought up to date, 1 new student",
             "1 enrolment more and 0 fewer than the office should have: send them as late changes "
             "(tools/changes_from_csv)"]

    def title():
        return json.loads(office.ask("GET", "/labels/labels.json")[2])["exams"][0]["title"]

    status, found = sent_files(office, further)
    run.judge("a further export is checked", (200, lines, [], "Calculus"), (
        status, found["summary"], found["faults"], title()))
    run.judge("it is taken", (200, found, "Calculus I"), (
        *sent_files(office, further, checked=found["digest"]), title()))
    run.judge("the new student", (4, "r9"), tuple(json.loads(office.ask(
        "GET", "/labels/students.json")[2])["students"][3][name] for name in ("number", "id")))
    another = {**CSV, "rooms": CSV["rooms"] + b"Room 3.01,Main building,4,1\n"}
    run.judge("no further room", (200, [], [
        "rooms.csv: room Room 3.01 is new: a session that is made can't change so; "
        "tools/next_session makes the next one"]), (
        lambda status, it: (status, it["summary"], it["faults"]))(*sent_files(office, another)))
    aside = stack.service.made / "aside"
    (stack.service.made / "ledger.db").rename(aside)
    run.judge("no other session", (409, {"error": "loaded"}), sent_files(office, CSV))
    aside.rename(stack.service.made / "ledger.db")


def new_session_on_the_page(run, page, folder):
    """A registrar without an account on the server goes from CSV files to a session."""
    csv = folder / "csv"
    shutil.copytree(TOP / "examples" / "small", csv)

    def chosen(*names):
        return ("type", "#csv-files", "\n".join(f"{csv / name}.csv" for name in names))

    page.judge_file("exams.csv", "#csv-empty button", csv_file("code,title,minutes,department"))
    page.steps(
        ("three files", [chosen("exams", "rooms", "rules"), "click #csv-session button"], {
            "said": "These files are missing: periods.csv, enrolments.csv."}),
        ("all five", [chosen("periods", "enrolments"), "click #csv-session button"], {
            "said": "Nothing is loaded yet. Read what is in the files, then load them.",
            "#csv-summary": SIZES}),
        ("they are loaded", "click #csv-load", {"#confirm-title": "Load this session?"}),
        ("with names and owners", "click #confirm-yes", {
            "said": "The session is loaded: 4 exams, 6 enrolments, 4 periods, 2 rooms. 4 exams "
                    "have their owners.", "#session-title":
            "University of Example · Examinations in April 2005"}))
    run.judge("complaints about a new session", [], page.reader.complaints())


LATE = "student,exam,action\ns3,MATH101,add"
# How many publications the service has kept.
KEPT = """const asked = new XMLHttpRequest();
asked.open('GET', '/-/registry/history', false);
asked.send();
return JSON.parse(asked.responseText).publications.length;"""


def week_on_the_page(page):
    """The rest of the registry's week: a draft, a move, a publication, its lists, a late change
    that gets its seat when the timetable is published again, and what the history says of it."""
    publish = ["click #publish", "click #confirm-yes"]
    hall = page.moment("2005-04-18", "09:30:00") + ", Great Hall, Main building"
    page.steps(
        ("a draft", [("type", "#draft-file", TOP / "examples" / "small.sol"),
                     "click #draft button"], {"said": "Draft 1 is made."}),
        ("an exam is moved", [
            "click #menu [data-to=timetable] a", ("set", "#find", "optics"),
            "click #found tbody a", "click #cell .move", "click #move-places .place"], {
            "said": f"PHYS102: {hall}. 27 points now, 37 before."}),
        ("published", publish, {
            "said": "Draft 1 is published; the seats of 3 candidates have changed."}),
        ("its lists", ["click #menu [data-to=seats] a", "click #lists button"], {
            "said": "1 file is made, with 4 pages."}),
        ("a late change", ["click #menu [data-to=late-changes] a", "click #batch-changes",
                           ("type", "#batch-lines", LATE), "click #batch button"], {
            "#batch-effect": "Changes: adds 1 enrolment.",
            "texts #batch-lists > p": [
                "1 enrolment without a seat until the timetable is published again."]}),
        ("it is sent", "click #batch-send", {}),
        ("nobody has a seat for it yet", [
            "click #menu [data-to=seats] a", "click #seatless"], {
            "titles #seat-found tbody tr": ["Cleo Carter s3 MATH101 Calculus"]}),
        ("published again", [
            "click #menu [data-to=timetable] a", "click #cards li:nth-child(2) a", *publish], {
            "said": "Draft 1 is published; the seats of 1 candidate have changed."}),
        ("everybody has a seat", ["click #menu [data-to=seats] a", "click #seatless"], {
            "texts #seat-found tbody tr": []}))
    browser.until("the service has looked", lambda: page.reader.run(KEPT) == 2)
    page.steps(("what happened", "click #menu [data-to=history] a", {
        "texts #history-found td:nth-child(2)": ["registry"] * 6,
        "texts #history-found tr:nth-child(4) td:nth-child(3)": [
            f"PHYS102 moved to {hall}, in draft 1"],
        "texts #history-found tr:last-child td:nth-child(3)": [
            "Exams given to their owners, PHYS102 the last one"]}))


def further_export_on_the_page(page, csv):
    """A further export brings a title and a new student; as late changes, their enrolment."""
    for name, old, new in (("exams", "Calculus", "Calculus I"),
                           ("enrolments", "s1,", "r9,Zoe Zander,MATH101\ns1,")):
        path = csv / f"{name}.csv"
        path.write_text(path.read_text().replace(old, new, 1))
    files = "\n".join(f"{path}" for path in sorted(csv.glob("*.csv")))
    # One candidate of MATH101 was added by a late change.
    done = ("1 title and 0 names brought up to date, 1 new student. 1 enrolment more and 1 fewer "
            "than the office should have: send them as late changes (tools/changes_from_csv)")
    page.steps(
        ("a further export", ["click #menu [data-to=set-up] a", ("type", "#csv-files", files),
                              "click #csv-session button"], {
            "said": "Nothing is changed yet. Read what is in the files.",
            "texts #csv-summary p": ["4 exams, 4 students, 7 enrolments, 4 periods, 2 rooms",
                                     *done.split(". ")]}),
        ("its names", "click #csv-load", {"said": f"{done}.", "#csv-title":
                                          "Further export of the CSV files"}),
        ("its enrolments", [
            "click #menu [data-to=late-changes] a", "click #batch-list",
            ("type", "#batch-file", csv / "enrolments.csv"), "click #batch button"], {
            "#batch-effect": "The whole list: adds 1 enrolment; 1 kept as changed here.",
            "titles #batch-lists h3": ["Added (1)", "Rooms that are too small, in Published (1)",
                                       "Kept as they were changed here (1)"],
            "titles #batch-lists tbody th": [
                "Zoe Zander r9", "Great Hall, Main building", "Cleo Carter s3"]}))


# ---- What breaks a rule

# Exam 3 is beside exam 2 then, in a room of 2 seats, and nobody takes both.
BESIDE = SOLUTION.replace(b"2, 0", b"3, 1")
# Candidate 1, who takes exam 3, is added to exam 2 too.
BROKEN_THEN = [["Clash", 2, 3], ["Capacity", 2, 2], ["Capacity", 3, 3]]
# What may be asked: a query, the lines of a batch, and the breaches after it.
JUDGED = [
    ("today", "", None, []),
    ("after two exams at one time", "", ("1,2,add",), BROKEN_THEN),
    ("after a room that is too small", "", ("2,2,add",), BROKEN_THEN[1:]),
    ("after one who comes and goes", "", ("1,2,add", "1,2,drop"), []),
    ("after no line", "", (), []),
    # Exams 0 and 2 are at one time in draft 2, and the others have no place.
    ("a draft", "?draft=2", None, []),
    ("a draft, after two exams at one time", "?draft=2", ("3,0,add", "3,1,add", "1,1,add"),
     [["Clash", 0, 2]]),
]


def judging(run, stack):
    """The service says which rules the publication breaks with today's enrolments, and what late
    changes would break; the office isn't changed."""
    office = signed_in(stack, "registry")

    def told(query, lines=None):
        status, found = asked(office, *(("GET", f"breaches{query}") if lines is None else (
            "POST", f"breaches{query}", batch_text(*lines))))
        return [[one[name] for name in ("rule", "exam", "other")] for one in found["breaches"]] \
            if status == 200 else (status, found["error"])

    run.judge("nothing is published", (404, "publication"), told(""))
    for method, path, body, status in (
            ("PUT", "/drafts/1", BESIDE, 201), ("POST", "/drafts/1/publish", b"", 200),
            ("PUT", "/drafts/2", b"", 201),
            ("POST", "/drafts/2/exams/0/place", b'{"period":0,"room":0}', 200),
            ("POST", "/drafts/2/exams/2/place", b'{"period":0,"room":1}', 200)):
        run.judge(f"{method} {path}", status, office.ask(method, path, body)[0])
    for name, query, lines, breaches in JUDGED:
        run.judge(f"breaches {name}", breaches, told(query, lines))
    for name, query, lines, refusal in (
            ("no lines", "", ("x",), (400, "body")),
            ("no such exam", "", ("1,4,add",), (404, "number")),
            ("no such draft", "?draft=3", None, (404, "draft"))):
        run.judge(name, refusal, told(query, lines))
    run.judge("candidate 1 is added", 200, office.ask(
        "PUT", "/batches/5", batch_text("1,2,add"))[0])
    run.judge("breaches then", BROKEN_THEN, told(""))
    run.judge("breaches after they are dropped", [], told("", ("1,2,drop",)))
    stack.service.stop()
    stack.service.environment["EXAMOFFICE"] = "/no/such/program"
    stack.service.start()
    run.judge("a program that doesn't run", (503, "unavailable"), told(""))


# ---- Lists to print

def ended(stack, client, number):
    """A job of lists, as soon as it has ended."""
    def found():
        return next(one for one in asked(client, "GET", "lists")[1]["lists"]
                    if one["number"] == number)

    browser.until("the lists are made", lambda: found()["state"] not in ("waiting", "working"))
    return found()


def lists(run, stack):
    """The office asks for lists, and gets them as files; nobody else does."""
    ada = signed_in(stack, "registry")
    for body in ("{", "[]", "{}", '{"kinds":[]}', '{"kinds":["doors"]}',
                 '{"kinds":["door","door"]}', '{"kinds":["door"],"day":"monday"}',
                 '{"kinds":["door"],"building":1}', '{"kinds":["door"],"start":"9"}',
                 '{"kinds":["door"],"room":""}', '{"kinds":["door"],"paper":"a5"}'):
        run.judge(f"lists: {body}", (400, {"error": "body"}), asked(ada, "POST", "lists", body))
    run.judge("no lists yet", [], asked(ada, "GET", "lists")[1]["lists"])
    wanted = {"kinds": ["door", "exams"], "day": None, "building": "Main building"}
    status, begun = asked(ada, "POST", "lists", json.dumps(wanted))
    run.judge("lists are begun", (202, 1, "registry"), (status, begun["number"], begun["by"]))
    job = ended(stack, ada, 1)
    run.judge("they are made", (
        "done", wanted, [["door-lists.pdf", 3], ["timetable-by-exam.pdf", 1]], []), (
        job["state"], {name: job[name] for name in wanted},
        [[one["name"], one["pages"]] for one in job["files"]], job["warnings"]))
    last = asked(ada, "GET", "history")[1]["publications"][0]
    words = f"Publication {last['number']}, " + datetime.datetime.fromisoformat(
        last["at"]).strftime("%-d %B %Y, %H:%M")
    run.judge("of which publication", [words] * 2,
              [job["publication"], asked(ada, "GET", "lists")[1]["publication"]])
    folder = stack.service.made / "lists" / "1"
    run.judge("who may read them", {"1": 0o750, "about.json": 0o640, "door-lists.pdf": 0o640,
                                    "timetable-by-exam.pdf": 0o640}, {
        it.name: it.stat().st_mode & 0o777 for it in (folder, *folder.iterdir())})
    path = "/-/registry/lists/1/door-lists.pdf"
    status, header, body = ada.ask("GET", path)
    run.judge("a file", (200, "application/pdf", "no-store", "attachment; filename=door-lists.pdf",
                         job["files"][0]["bytes"], b"%PDF-"),
              (status, *(header[name] for name in ("Content-Type", "Cache-Control",
                                                   "Content-Disposition")), len(body), body[:5]))
    for user in ("ada", "physics", "nobody"):
        run.judge(f"the file for {user}", NOT_THE_OFFICE,
                  signed_in(stack, user).ask("GET", path)[::2])
    run.judge("the file for strangers", NOBODY, Client(stack.front).ask("GET", path)[::2])
    for name in ("1/about.json", "1/seat-labels-3x7.pdf", "2/door-lists.pdf",
                 "1/..%2f..%2fledger.db"):
        run.judge(f"no file {name}", 404, ada.ask("GET", f"/-/registry/lists/{name}")[0])
    old_lists(run, stack, ada)


def old_lists(run, stack, ada):
    """Lists that can't be made say why; the last six are kept, for a day."""
    for number in range(2, 8):
        asked(ada, "POST", "lists", json.dumps({"kinds": ["door"], "building": f"B{number}"}))
        job = ended(stack, ada, number)
        run.judge("nobody is there", ("failed", "nobody has a seat there"),
                  (job["state"], job["words"]))

    def numbers():
        return [one["number"] for one in asked(ada, "GET", "lists")[1]["lists"]]

    browser.until("the first is removed", lambda: numbers() == [7, 6, 5, 4, 3, 2])
    browser.until("its files are too", lambda: not (stack.service.made / "lists" / "1").exists())
    for number, days in ((2, 0.9), (3, 1.1)):
        then = time.time() - 86_400 * days
        os.utime(stack.service.made / "lists" / f"{number}", (then, then))
    browser.until("one of yesterday is removed", lambda: numbers() == [7, 6, 5, 4, 2])
    about = stack.service.made / "lists" / "2" / "about.json"
    about.write_text(about.read_text().replace('"failed"', '"working"'))
    run.judge("one that was cut off", (
        "failed", "the service was stopped meanwhile; please ask for the lists again"),
        tuple(ended(stack, ada, 2)[name] for name in ("state", "words")))


def lists_on_the_page(run, page, stack, office):
    """The page makes lists, offers them, and says when they are of an earlier publication."""
    made = "texts #lists-made tbody td:nth-child(%d)"
    page.steps(
        ("door lists", ["click #refresh", "click #menu [data-to=seats] a", "click #lists button"], {
            "said": "1 file is made, with 4 pages.", made % 1: ["Door lists"],
            made % 2: ["The whole session"]}),
        ("labels of a building", [
            ("set", "#list-kind", "labels-3x7"),
            ("set", "#list-of", '{"building":"Physics building"}'),
            "click #lists button"], {
            "said": "1 file is made, with 1 page.",
            made % 1: ["Seat labels, 3 x 7", "Door lists"],
            made % 2: ["Physics building", "The whole session"]}),
        ("a period, on US Letter", [
            ("set", "#list-kind", "attendance"), ("set", "#list-paper", "letter"),
            ("set", "#list-of", '{"day":"2005-04-15","start":"14:00"}'), "click #lists button"], {
            "said": "1 file is made, with 1 page.", made % 2: [
                page.moment("2005-04-15", "14:00:00"), "Physics building", "The whole session"]}))
    run.judge("the file of the page", b"%PDF-", page.downloaded(
        "door-lists.pdf", "#lists-made tr:nth-child(3) a")[:5])
    later = "Another timetable was published since."
    page.judge("they are of the publication", {"texts #lists-made td:nth-child(3) .below": []})
    run.judge("one more publication", 200, office.ask("POST", "/drafts/1/publish")[0])
    browser.until("it is kept", lambda: published(stack, office)[0]["number"] == 3)
    page.steps(("they are of an earlier one", "click #refresh", {
        "texts #lists-made td:nth-child(3) .below": [later, later, later]}))


NEW = "student,name,exam,action\nr9,Zoë Zander,MATH101,new\nr9,,PHYS102,add\nq1,Quo,,new"
WHOLE = ("student,exam,name\ns1,MATH101,\ns1,PHYS102,\ns2,MATH101,\ns2,MATH102,\ns3,MATH102,\n"
         "s3,PHYS101,\nr9,MATH101,\nr9,PHYS102,\nx1,PHYS101,Xi\n")
SEND, LISTS = "click #batch-send", "rows #batch-lists tr"
# The digests of the batches that become of them: the new students get numbers 4, 5 and 6.
DIGEST = {number: hashlib.sha256(b"student,exam,action\n" + lines).hexdigest()
          for number, lines in ((20, b"4,0,add\n4,3,add\n"), (21, b"6,2,add\n4,0,add\n4,3,add\n"))}
FIRST_SAY = "Say first which it is: changes, or the whole list."
FAULT = "Nothing was sent: 1 fault."
# What is wrong with lines that can't be sent.
WRONG_LINES = [
    ("student,exam,action\ns3,MATH101,ad",
     "Line 2, action: 'ad' is no action; add, drop or new is expected"),
    ("student,exam,action\ns3,MATH101,add\nA3,MATH102,add",
     "Line 3, student: A3: no such student. s3 is Cleo Carter"),
    ("Student ID;Exam code;Action\ns1;MATH1O1;enrol",
     "Line 2, exam: MATH1O1: no such exam. MATH101 is Calculus"),
    ("student,name,exam,action\ns1,Ben Baker,MATH101,drop",
     "Line 2, name: s1 is Ada Archer, not Ben Baker"),
    ("Student ID;Exam code\ns1;MATH102",
     "Line 1, action: this column is missing (there are: Student ID, Exam code)"),
    ("student,exam,action\n", "There is no line after the first"),
]


def pasted(lines, number=20, kind="changes"):
    return ["reset #batch", ("set", "#batch-number", number), f"click #batch-{kind}",
            ("type", "#batch-lines", lines), "click #batch-check"]


def faulty_lines(page):
    """Nothing is chosen at first; lines with a fault aren't sent, and stay in the form."""
    page.steps(
        ("neither kind is chosen", [
            "click #menu [data-to=late-changes] a", ("type", "#batch-lines", LATE),
            "click #batch-check"], {
            "said": FIRST_SAY, "fault": ["batch-changes", "true", FIRST_SAY],
            "hidden #batch-kinds": False, "hidden #batch-plain": True}),
        *((f"what is wrong with {lines}", pasted(lines), {
            "said": f"{FAULT}\n{fault}", "fault": ["batch-lines", "true", FAULT],
            "value #batch-lines": lines, "hidden #batch-preview": True})
          for lines, fault in WRONG_LINES))


def on_the_page(page):
    """New students of lines and of a whole list; what the page sends is in the ledger."""
    guard = "1 of 5 students would be new, more than 10 %. That is meant."
    page.steps(
        ("new students", pasted(NEW), {
            "#batch-effect": "Changes: adds 2 enrolments, enters 2 new students.",
            "#batch-send": "Send changes: add 2 enrolments, enter 2 new students", LISTS: [
                ["Candidate", "Exam"], ["Zoë Zander\nr9", "MATH101\nCalculus"],
                ["Zoë Zander\nr9", "PHYS102\nOptics"],
                ["Candidate"], ["Zoë Zander\nr9"], ["Quo\nq1"]]}),
        ("they are sent", SEND, {
            "said": "2 new students. Batch 20 is accepted: 2 added, 0 dropped, 0 unchanged."}),
        ("the same again", pasted(NEW), {
            "#batch-effect": "Changes: changes nothing; 2 so already."}),
        ("a student who isn't new", pasted(NEW.replace("Zoë Zander", "Zoë Zimmer")), {
            "said": f"{FAULT}\nLine 2, student: r9 is Zoë Zander already"}),
        ("a whole list", pasted(WHOLE, 21, "list"), {
            "#batch-effect": "The whole list: adds 1 enrolment, enters 1 new student; "
                             "2 so already.", "texts #batch-guards": [guard]}),
        ("so many new students are looked at first", SEND, {
            "fault": ["guard-new", "true", "Look at this first, and tick it."]}),
        ("a whole list is sent", ["click #guard-new", SEND], {
            "said": "1 new student. Batch 21 is accepted: 1 added, 0 dropped, 2 unchanged."}),
        ("the opposite names them", "click #batch-inverse", {
            "value #batch-lines": "student,exam,action\nx1,PHYS101,drop\n"}))


OWNER_FILES = [
    ("Exam;Dept\nMATH101;Chemistry\n9;3\n",
     "No owner was set: 3 faults.\nLine 2, department: Chemistry: no such department\n"
     "Line 3, exam: 9: no such exam\nLine 3, department: 3: no such department"),
    ("Exam;Dept\nMATH1O1;Physic\n", "No owner was set: 2 faults.\n"
     "Line 2, exam: MATH1O1: no such exam. MATH101 is Calculus\n"
     "Line 2, department: Physic: no such department. Physics is department 3"),
    ("Exam\nMATH101\n", "No owner was set: 1 fault.\n"
     "Line 1, department: this column is missing (there are: Exam)"),
    ("Exam;Dept\nMATH101;mathematics\nPHYS102;0\n", "2 exams have their owners.")]


def owners_on_the_page(run, page, stack):
    """Exams get the owners of a file."""
    page.act("click #menu [data-to=set-up] a")
    for number, (text, words) in enumerate(OWNER_FILES):
        path = run.folder / f"owners-{number}.csv"
        path.write_text(text)
        page.steps((f"owners: {words}", [
            ("type", "#owners-file", path), "click #owners button.main"], {"said": words}))
    changes = [(line["path"], line["body"]) for line in stack.front.changes()
               if line["path"].endswith("/owner")]
    run.judge("which exams got owners", [
        ("/exams/0/owner", '{"dept":1}'), ("/exams/3/owner", '{"dept":0}')], changes)


def two_registrars(run, page, office):
    """What another registrar sent since the check is said, and one click checks again."""
    page.steps(("one line", [
        "click #refresh", "click #menu [data-to=late-changes] a",
        *pasted("student,exam,action\nq1,MATH102,add\nq1,PHYS102,add", 40)], {
        "#batch-effect": "Changes: adds 2 enrolments."}))
    other = {"file": b"student,exam,action\nq1,MATH102,add\n"}
    plan = sent_form(office, "changes", other, kind="changes")[1]
    run.judge("another registrar is first", 201, sent_form(
        office, "changes", other, kind="changes", digest=plan["digest"], turn=plan["turn"],
        number=41)[0])
    page.steps(
        ("the plan is another one", SEND, {
            "fault": ["batch-lines", "true",
                      "Nothing was sent: it would do something else by now."]}),
        ("one click checks again", "click #error button", {
            "#batch-effect": "Changes: adds 1 enrolment; 1 so already."}),
        ("it is sent", [("set", "#batch-number", 42), "click #batch-check", SEND], {
            "said": "Batch 42 is accepted: 1 added, 0 dropped, 1 unchanged."}),
        ("both are taken back", [
            *pasted("student,exam,action\nq1,MATH102,drop\nq1,PHYS102,drop", 43), SEND], {
            "said": "Batch 43 is accepted: 0 added, 2 dropped, 0 unchanged."}))


def conflicts_on_the_page(run, page, stack, office):
    """Late changes are shown with what they would break, and conflicts of the publication with whom
    they concern; without the service the page says that it doesn't know."""
    monday = page.moment("2005-04-18", "09:30:00")
    room = "Room 2.14, Physics building"
    no_seat = ["No seat", "Ada Archer\ns1", "PHYS101", monday, room]
    for path, body in (("exams/3/move", b'{"period":3,"room":0}'), ("publish", b"")):
        run.judge("PHYS102 beside PHYS101", 200, office.ask("POST", f"/drafts/1/{path}", body)[0])
    page.steps(("what late changes would break", [
        "click #refresh", "click #menu [data-to=late-changes] a",
        *pasted("student,exam,action\ns1,PHYS101,add")], {
            "hidden #batch-note": True, LISTS: [
                ["Candidate", "Exam"], ["Ada Archer\ns1", "PHYS101\nMechanics"],
                ["Candidate", "Exam", "Exam"],
                ["Ada Archer\ns1", "PHYS101\nMechanics", "PHYS102\nOptics"],
                ["Room", "Period", "Candidates"], [room, monday, "3 candidates, 2 seats"]]}))
    run.judge("another registrar sends them", 200, office.ask(
        "PUT", "/batches/30", batch_text("1,2,add"))[0])
    page.steps(
        ("what the card says", "click #refresh", {"texts #cards li:first-child .verdict": [
            "Candidates see this timetable",
            "1 enrolment without a seat, 1 overlap of two exams, 1 room too small"]}),
        ("whom it concerns", [
            "click #menu [data-to=timetable] a", "click #cards li:first-child a",
            "click #menu [data-to=conflicts] a"], {
            "hidden #conflict-note": True, "rows #conflict-list tr": [
                ["Conflict", "Candidate", "Exams", "When", "Room or remark"],
                ["Two exams at one time", "Ada Archer\ns1", "PHYS101 PHYS102", monday, ""], no_seat,
                ["Room too small", "", "PHYS101", monday, f"{room}: 3 candidates, 2 seats"]]}))
    ledger = stack.service.made / "ledger.db"
    ledger.rename(ledger.with_name("aside"))
    page.steps(("without a ledger", "click #refresh", {
        "hidden #conflict-note": True, "#conflict-count": "3 conflicts.",
        "hidden #menu [data-to=history]": True}))
    ledger.with_name("aside").rename(ledger)
    stack.service.stop()
    page.steps(("without the service", "click #refresh", {
        "hidden #conflict-note": False, "rows #conflict-list tbody tr": [no_seat],
        "#conflict-count": "1 conflict."}))
    stack.service.start()


WRONG_PASSWORD = """
return fetch('/-/sign-in', {
  method: 'POST', body: new URLSearchParams({ user: 'ada', password: 'guess' }),
}).then((reply) => reply.status);
"""


def history_on_the_page(page):
    """What happened, with who and when; the difference of two publications; the way back."""
    page.steps(
        ("what happened", ["click #refresh", "click #menu [data-to=history] a"], {
            "texts #history-found td:nth-child(2)": ["registry"] * 5,
            "texts #history-found td:nth-child(3)": [
                "Draft 1 published: publication 2, 43 points, 3 seats changed",
                "Batch 21, from the student system's list: 1 added, 0 dropped, 2 unchanged\n"
                f"SHA-256 {DIGEST[21][:12]}",
                "Batch 20, from this page: 2 added, 0 dropped. draft 1: 37 to 43 points\n"
                f"SHA-256 {DIGEST[20][:12]}",
                "Draft 1 published: publication 1, 37 points, 6 seats changed", "Draft 1 made"]}),
        ("a batch's lines", [], {"texts #history-found tr:nth-child(3) button": [
            "Reverse …", "Lines as CSV"]}))
    page.reader.run(WRONG_PASSWORD)
    page.steps(("wrong passwords", "click #refresh", {"hidden #sign-ins": False}))
    page.run.judge("whose they are", True, bool(re.fullmatch(
        "1 wrong password for ada since today, from 1 address, the last today at ..:..",
        "".join(page.reader.texts("#sign-ins-found li")))))
    page.judge_file("batch-20.csv", "#history-found tr:nth-child(3) button:last-child", csv_file(
        "student,id,name,exam,title,action,changed", "4,r9,Zoë Zander,MATH101,Calculus,add,yes",
        "4,r9,Zoë Zander,PHYS102,Optics,add,yes"))
    page.steps(
        ("a candidate", [("type", "#history-words", "ada"), "click #history-find button"], {
            "said": "2 entries about Ada Archer."}),
        ("an exam", [("set", "#history-words", "math101"), "click #history-find button"], {
            "said": "3 entries about MATH101."}),
        ("a batch, by its digest", [("set", "#history-words", DIGEST[20][:12]),
                                    "click #history-find button"], {
            "said": "1 batch with this digest.",
            "tips #history-found td .below": [DIGEST[20]]}),
        ("no batch", [("set", "#history-words", DIGEST[20][1:13]), "click #history-find button"], {
            "said": "No exam, candidate or batch has this code, ID, name or digest."}),
        ("two publications", "click #history-compare button", {
            "said": "0 exams and 3 seats differ.",
            "texts #history-differences td:nth-child(1)": ["Zoë Zander", "Zoë Zander", "Xi"]}),
        ("all again", [("set", "#history-words", ""), "click #history-find button"], {
            "said": "All that happened is shown."}),
        ("a kept timetable", "click #history-found tbody tr:nth-child(4) button", {
            "#confirm-title": "Make draft 2 of publication 1?"}),
        ("it becomes a draft", "click #confirm-yes", {
            "said": "Draft 2 is made of publication 1."}),
        ("the opposite of an earlier batch", [
            ("set", "#history-words", "math101"), "click #history-find button",
            "click #history-found tbody tr:nth-child(2) button"], {
            "hash": "#late-changes", "value #batch-lines":
            "student,exam,action\nr9,PHYS102,drop\nr9,MATH101,drop\n",
            "#batch-takes-back": "These lines take back batch 20. Press Check."}),
        ("lines of one's own", ("set", "#batch-lines", "r9,PHYS102,drop"), {
            "hidden #batch-takes-back": True}))


def sign_in_on_the_page(chromium, stack):
    chromium.go(f"http://{chromium.new_host()}:{stack.front.port}/-/sign-in?to=/registry.html")
    chromium.types("[name=user]", "registry")
    chromium.types("[name=password]", "try-registry")
    chromium.click("form button")
    chromium.waits("return location.pathname === '/registry.html'")
    is_read(chromium)


def new_in_browser(run, chromium, make_front):
    """The registry's page beside the service and an office without a session."""
    stack = Stack(run, make_front, "registry_new_page", is_new=True)
    try:
        sign_in_on_the_page(chromium, stack)
        page = Page(run, chromium)
        new_session_on_the_page(run, page, stack.run.folder)
        week_on_the_page(page)
        further_export_on_the_page(page, stack.run.folder / "csv")
        run.judge("complaints about a week on the page", [], chromium.complaints())
    finally:
        stack.stop()


def in_browser(run, chromium, make_front):
    """The registry's page beside the service."""
    if front_sign_in.missing():
        return
    new_in_browser(run, chromium, make_front)
    stack = Stack(run, make_front, "registry_page")
    try:
        office = published_first(run, stack)
        # A look that fails is tried again after ten seconds.
        kept(run, stack, office, "the first is kept before the next is made", FIRST)
        sign_in_on_the_page(chromium, stack)
        page = Page(run, chromium)
        faulty_lines(page)
        on_the_page(page)
        run.judge("another publication", 200, office.ask("POST", "/drafts/1/publish")[0])
        kept(run, stack, office, "both are kept", (2, "registry", 1, 43), FIRST)
        history_on_the_page(Page(run, chromium))
        lists_on_the_page(run, Page(run, chromium), stack, office)
        conflicts_on_the_page(run, Page(run, chromium), stack, office)
        two_registrars(run, Page(run, chromium), office)
        owners_on_the_page(run, Page(run, chromium), stack)
        run.judge("what the page sent, in the ledger", [
            (20, "page", "registry", 2), (21, "list", "registry", 1)], stack.service.rows(
            "SELECT number, source, prepared_by, added FROM batches JOIN effects ON batch = number"
            " WHERE number < 40 ORDER BY number"))
        run.judge("complaints about the page with a service", [], chromium.complaints())
    finally:
        stack.stop()


def published_first(run, stack):
    """Publishes the small solution after the history has begun."""
    office = signed_in(stack, "registry")
    browser.until("the history begins", lambda: published(stack, office) == [])
    time.sleep(1)
    for method, path, body, status in (("PUT", "/drafts/1", SOLUTION, 201),
                                       ("POST", "/drafts/1/publish", b"", 200)):
        run.judge("the start", status, office.ask(method, path, body)[0])
    return office


def judge_new(run, make_front):
    stack = Stack(run, make_front, "registry_new", is_new=True)
    try:
        new_session(run, stack)
        judging(run, stack)
    finally:
        stack.stop()


def judge_signed_on(run, make_front):
    """With single sign-on the service goes on asking with its token, by its own socket."""
    with sign_on.provider() as address:
        stack = Stack(run, make_front, "registry_sso", (("127.0.0.1:4180", address),),
                      sign_in="sso.conf")
        try:
            client = {user: Client(stack.front) for user in ("registry", "ada", "physics", "eve")}
            for user, one in client.items():
                one.cookies = {"signed_in": user}
            run.judge("single sign-on: a batch", (200, {
                "added": 1, "batch": 5, "dropped": 0, "unchanged": 0}), asked(
                client["registry"], "PUT", "batches/5", batch_text("3,0,add")))
            run.judge("single sign-on: who sent it", [(5, "registry")], stack.service.rows(
                "SELECT number, prepared_by FROM batches WHERE number > 0"))
            run.judge("single sign-on: others", [NOT_THE_OFFICE] * 3 + [NOBODY], [
                one.ask("GET", "/-/registry/about")[::2]
                for one in (*[client[user] for user in ("ada", "physics", "eve")],
                            Client(stack.front))])
            run.judge("single sign-on: the token on the address", 401, Client(stack.front).ask(
                "GET", "/instance", Authorization=f"Bearer {stack.token}")[0])
        finally:
            stack.stop()


def judge_stack(run, make_front):
    stack = Stack(run, make_front, "registry")
    try:
        published_first(run, stack)
        for part in (strangers, odd_questions, history, lists, batches, new_students, at_once,
                     older_ledger):
            part(run, stack)
    finally:
        stack.stop()


def judge(of_front, make_front):
    """All of it; `make_front` makes a front in a folder before an office at an address."""
    if front_sign_in.missing():
        print("front: the registry's service is left out, as signing in is")
        return
    run = Run.apart(of_front.program, of_front.folder, "front", "of_registry")
    for part in (judge_new, judge_signed_on, judge_stack):
        part(run, make_front)
    of_front.count, of_front.failed = of_front.count + run.count, of_front.failed + run.failed
