"""The registry's service: what the registry's page asks for beside the office.

It keeps a session's ledger, so that batches of the page are in it when they are sent, and new
students get their numbers; it makes a session of CSV files, and lists to print; and it has the
program judge what the office doesn't. Only nginx asks it, and only for those who are the office
(front/):

    gunicorn --workers 1 --threads 8 --bind unix:registry.sock registry.service:app

REGISTRY_FOLDER has a folder with a ledger for each session, by its name. The office is asked
through the front, as a program with a token of its own: by the Unix socket REGISTRY_FRONT with
REGISTRY_TOKEN, or at the URL REGISTRY_FRONT. REGISTRY_LOG is the front's log of changes, by which
it knows who changed what, and when a publication is to be kept: REGISTRY_PUBLICATIONS of them.
EXAMOFFICE is the program, by default examoffice.
"""
from __future__ import annotations

import contextlib
import functools
import hashlib
import json
import os
import pathlib
import re
import sqlite3
import threading
import time
from collections.abc import Iterator
from typing import Any

import flask
import werkzeug.exceptions
import werkzeug.routing

from .changes import LIST, MARK, PAGE, Change, add_batch, forget_unsent
from .csv_tables import Faults, Known, Row, first_lines
from .folder import STOPPED, Folder, exchange
from .history import History, Unsteady, difference, places_of
from .history import look as look_what_happened
from .held import Held
from .judging import judged
from .late_changes import Asked, Differs, answered, faults_said
from .late_file import LINES
from .ledger import Ledger, NotALedger, locked, now
from .list_jobs import Busy, Jobs, wanted_in
from .logged import Log, Logged, settle
from .meeting import Meeting, look, meet, send_noted, show
from .office import TOKEN as TOKEN_NAME
from .office import FINAL, Office, OfficeBySocket, Refused
from .owners import owners_in
from .published import words_of_last
from .sending import send_one
from .setting_up import FILES, Changed, Loaded, set_up

FOLDER = pathlib.Path(os.environ["REGISTRY_FOLDER"])
FRONT, TOKEN = os.environ["REGISTRY_FRONT"], os.environ.get("REGISTRY_TOKEN", "")
LOG = pathlib.Path(os.environ["REGISTRY_LOG"]) if os.environ.get("REGISTRY_LOG") else None
MOST_PUBLICATIONS = int(os.environ.get("REGISTRY_PUBLICATIONS", "200"))
MOST_SHOWN = 500
# How often a ledger is compared with its office, in seconds; what is wrong is in this file.
COMPARED, STANDING = float(os.environ.get("REGISTRY_COMPARED", "60")), "standing"
# After a look that failed the next one waits so long, in seconds.
PATIENCE = 10
NAME = re.compile(r"[a-z0-9][a-z0-9_-]*")
NUMBER = re.compile("[0-9]{1,9}")
LINE = re.compile(r"0*([0-9]{1,9}),0*([0-9]{1,9}),(add|drop)")
MOST_NEW, LONGEST = 100_000, 254

# What is said of a request that no function answers.
WORDS = {400: "request", 404: "path", 405: "method", 413: "length"}


app = flask.Flask(__name__, static_folder=None)
# SQLite has no numbers of twenty digits.
app.url_map.converters["int"] = functools.partial(
    werkzeug.routing.IntegerConverter, max=999_999_999)


# ---- Who asks, and which session it is

def session() -> str:
    """The name of the session, as nginx says it."""
    name = flask.request.headers.get("X-Session", "")
    if not NAME.fullmatch(name):
        raise NotALedger("this is no session's name")
    return name


def user() -> str:
    return flask.request.headers.get("X-User", "")[:LONGEST]


def folder() -> Folder:
    return Folder(FOLDER / session())


def office_of(name: str) -> Office:
    """A session's office, which the front finds by this host."""
    return Office(FRONT) if "://" in FRONT else OfficeBySocket(FRONT, f"{name}.session", TOKEN)


@contextlib.contextmanager
def opened() -> Iterator[tuple[Folder, Ledger]]:
    """The session's ledger, on which nobody else works."""
    found = folder()
    if not found.ledger.exists():
        raise NotALedger(f"{found.path} has no ledger")
    with locked(found.path):
        ledger = Ledger.opened_at(found.ledger)
        try:
            yield found, ledger
        finally:
            ledger.close()


@contextlib.contextmanager
def reading() -> Iterator[sqlite3.Connection]:
    """The session's ledger, to be read beside others."""
    path = folder().ledger
    if not path.exists():
        raise NotALedger(f"{path} isn't there")
    with contextlib.closing(Ledger.read_at(path)) as ledger:
        yield ledger.db


class Strange(Exception):
    """Why an office and a ledger don't belong together, or which of them is older, in words."""

    def __init__(self, faults: list[str]) -> None:
        super().__init__(faults[0])
        self.faults = faults


@app.errorhandler(Strange)
def strange(fault: Strange) -> tuple[dict[str, Any], int]:
    return {"error": "ledger-differs", "faults": first_lines(fault.faults, "faults")}, 409


@app.errorhandler(NotALedger)
def no_ledger(_: NotALedger) -> tuple[dict[str, Any], int]:
    return {"error": "ledger"}, 404


@app.errorhandler(Refused)
def refused(refusal: Refused) -> flask.Response | tuple[dict[str, Any], int]:
    """What the office refused, in its words."""
    if refusal.status in FINAL:
        return flask.Response(refusal.answer, refusal.status, mimetype="application/json")
    return {"error": "unavailable"}, 503


@app.errorhandler(werkzeug.exceptions.HTTPException)
def unanswered(fault: werkzeug.exceptions.HTTPException
               ) -> tuple[dict[str, Any], int, dict[str, str]]:
    """An odd path, method or length."""
    status = fault.code if fault.code in WORDS else 400
    methods = getattr(fault, "valid_methods", None)
    allow = {"Allow": ", ".join(sorted({*methods} - {"OPTIONS"}))} if methods else {}
    return {"error": WORDS[status or 400]}, status or 400, allow


@app.errorhandler(Exception)
def broken(_: Exception) -> tuple[dict[str, Any], int]:
    """A disk that is full, a ledger that may not be read, or a program that doesn't run."""
    app.logger.exception("the registry's service")
    return {"error": "unavailable"}, 503


def json_asked() -> Any:
    """The JSON of the body; None if it is none, or nested as no page nests it."""
    try:
        return flask.request.get_json(force=True, silent=True)
    except RecursionError:
        return None


@app.get("/-/registry/about")
def about() -> dict[str, Any]:
    """Whether the session has a ledger, and what is wrong between it and the office, in words."""
    return {"ledger": folder().ledger.exists(), "standing": standings.get(session(), [])}


# ---- A session of CSV files

# Whoever sends CSV files waits at most so long, in seconds, and asks again then what came of
# it: on a machine that does much else, the files of 25,000 names take minutes.
HELD = float(os.environ.get("REGISTRY_HELD", "20"))
loads, plans = Held(HELD), Held(HELD)


@app.post("/-/registry/session")
def new_session() -> tuple[dict[str, Any], int]:
    """Checks the CSV files of a session; with the digest of what was checked, loads it, or brings
    the names of one that is loaded up to date."""
    files = {name: flask.request.files[name].read() for name in FILES
             if name in flask.request.files}
    return came_of(loads.begin(session(), set_up, folder().path, office_of(session()),
                               log_of(session()), files, user(),
                               flask.request.form.get("checked")))


@app.get("/-/registry/session/<int:number>")
def came_of(number: int) -> tuple[dict[str, Any], int]:
    """What came of CSV files, or that they are still worked at."""
    try:
        found = loads.came_of(session(), number)
    except Changed:
        return {"error": "files-differ"}, 409
    except Loaded:
        return {"error": "loaded"}, 409
    return status_of(found, "loaded")


def status_of(found: dict[str, Any] | None, made: str) -> tuple[dict[str, Any], int]:
    """The reply on work, with its status: that something is made, or shown, or goes on."""
    if found is None:
        return {"error": "unavailable"}, 503
    return found, 202 if "working" in found else 201 if made in found else 200


# ---- Late changes

@app.post("/-/registry/changes")
def changes() -> tuple[dict[str, Any], int]:
    """Answers the plan of a file of late changes; with the plan's digest, sends it."""
    form, file = flask.request.form, flask.request.files.get("file")
    if file is None or form.get("kind") not in (LIST, LINES):
        return {"error": "body"}, 400
    if not folder().ledger.exists():
        raise NotALedger("the session has no ledger")
    draft, turn, number = (int(form[name]) if NUMBER.fullmatch(form.get(name, "")) else None
                           for name in ("draft", "turn", "number"))
    asked = Asked(form["kind"], file.read(), user(), draft, form.get("digest"), turn or 0, number,
                  form.getlist("agreed"))
    found, office, log = folder(), office_of(session()), log_of(session())
    meeting = met_with if asked.digest else shown_with
    return came_of_changes(plans.begin(session(), answered, found, office, asked,
                                       lambda ledger: meeting(found, ledger, office, log)))


@app.get("/-/registry/changes/<int:number>")
def came_of_changes(number: int) -> tuple[dict[str, Any], int]:
    """What came of a file of late changes, or that it is still worked at."""
    try:
        found = plans.came_of(session(), number)
    except Differs as fault:
        return {"error": "plan-differs", "since": fault.since}, 409
    return status_of(found, "sent")


@app.post("/-/registry/owners")
def owners() -> tuple[dict[str, Any], int]:
    """Which department owns which exam, as a file says it, or its faults."""
    file, faults = flask.request.files.get("file"), Faults()
    if file is None:
        return {"error": "body"}, 400
    with reading() as db:
        found = owners_in(file.read(), "file", Ledger(db), faults)
    return faults_said(faults) if faults.lines else {"owners": found}, 200


# ---- Batches

def lines_in(body: bytes) -> list[Change] | None:
    """The lines of a batch that are put as the page and the tools put them, or None."""
    head, *lines = body.decode("utf-8-sig", "replace").replace(" ", "").splitlines() or [""]
    if head != "student,exam,action":
        return None
    found = [LINE.fullmatch(line) for line in lines if line]
    return None if None in found else [
        Change(int(line[1]), int(line[2]), line[3]) for line in found if line]


@app.put("/-/registry/batches/<int:number>")
def put_batch(number: int) -> flask.Response:
    """Sends a batch of the page as the tools do: it is in the ledger before it is sent."""
    body, changes = flask.request.get_data(), lines_in(flask.request.get_data())
    with opened() as (found, ledger):
        office = office_of(session())
        met = met_with(found, ledger, office, log_of(session()))
        is_known = ledger.db.execute("SELECT 1 FROM batches WHERE number = ?", (number,)).fetchone()
        if is_known or changes is None:
            # The office knows it, or refuses it.
            reply = office.ask("PUT", f"/batches/{number}", body)
            settle(ledger, [Logged(number, now(), user())])
        else:
            add_batch(ledger, number, body, PAGE, user(), changes)
        ledger.keep()
        send_noted(ledger, office, met)
        if not is_known and changes is not None:
            reply = sent(ledger, office, number, body)
        found.refresh(ledger, user())
    return flask.Response(reply, mimetype="application/json")


def log_of(name: str) -> Log:
    """The front's log of a session."""
    return Log(LOG if LOG and LOG.exists() else None, name)


def met_with(found: Folder, ledger: Ledger, office: Office, log: Log) -> Meeting:
    """Sends what the office lacks. What it refuses of what a run left that was cut off is
    forgotten."""
    try:
        met = meet(found, ledger, office, log)
    except Refused as refusal:
        if refusal.status not in FINAL:
            raise
        met = meet(found, ledger, office, log)
    return unless_strange(found, met)


def shown_with(found: Folder, ledger: Ledger, office: Office, log: Log) -> Meeting:
    """What a meeting would come to; nothing is sent."""
    return unless_strange(found, show(found, ledger, office, log))


def unless_strange(found: Folder, met: Meeting) -> Meeting:
    """Returns a meeting of a ledger and an office that belong together."""
    say_standing(found, met)
    if met.faults:
        raise Strange(met.faults)
    return met


def sent(ledger: Ledger, office: Office, number: int, body: bytes) -> str:
    """Sends a batch; one that the office refuses is forgotten."""
    try:
        return send_one(ledger, office, number, body)
    except Refused as refusal:
        if refusal.status in FINAL:
            forget_unsent(ledger)
            ledger.keep()
        raise


@app.get("/-/registry/batches")
def batches() -> dict[str, Any]:
    """All batches, the last one first."""
    with reading() as db:
        rows = db.execute(
            "SELECT number, source, sent_at, prepared_by, bytes, added, dropped, unchanged, points,"
            " (SELECT count(*) FROM acted WHERE acted.batch = number)"
            " FROM batches LEFT JOIN effects ON effects.batch = number"
            " WHERE sent_at <> '' AND source <> ? ORDER BY turn DESC", (MARK,)).fetchall()
    return {"batches": [batch_of(*row) for row in rows]}


def batch_of(number: int, source: str, at: str, by: str, content: bytes, added: int | None,
             dropped: int | None, unchanged: int | None, points: str | None, acted: int
             ) -> dict[str, Any]:
    is_known = added is not None and dropped is not None and acted == added + dropped
    return {"number": number, "source": source, "at": at, "by": by,
            "digest": hashlib.sha256(content).hexdigest() if content else None,
            "added": added, "dropped": dropped, "unchanged": unchanged,
            "points": json.loads(points or "{}"), "has_opposite": is_known and acted > 0}


@app.get("/-/registry/batches/<number>")
def batch(number: str) -> tuple[dict[str, Any], int]:
    """The lines of a batch, and which of them changed something."""
    if not re.fullmatch("-?[0-9]{1,9}", number):
        return {"error": "path"}, 404
    with reading() as db:
        rows = db.execute(
            "SELECT student, exam, action, EXISTS (SELECT 1 FROM acted WHERE"
            " acted.batch = changes.batch AND acted.place = changes.place)"
            " FROM changes WHERE batch = ? ORDER BY place", (int(number),)).fetchall()
    return {"number": int(number), "changes": [
        {"student": student, "exam": exam, "action": action, "acted": bool(acted)}
        for student, exam, action, acted in rows]}, 200


# ---- What breaks a rule

@app.route("/-/registry/breaches", methods=["GET", "POST"])
def breaches() -> tuple[dict[str, Any], int]:
    """What the publication breaks with today's enrolments, or a draft of the query does; of POST,
    what it would break after the batch in the body."""
    body = flask.request.get_data()
    changes = lines_in(body) if flask.request.method == "POST" else []
    if changes is None:
        return {"error": "body"}, 400
    return {"breaches": judged(office_of(session()), number_asked("draft"), changes)}, 200


# ---- History

def number_asked(name: str) -> int | None:
    """A number of the query, if it is there."""
    text = flask.request.args.get(name, "")
    return int(text) if re.fullmatch("[0-9]{1,9}", text) else None


def rows_of(db: sqlite3.Connection, statement: str, *values: int) -> list[dict[str, Any]]:
    cursor = db.execute(statement, values)
    names = [column[0] for column in cursor.description]
    return [dict(zip(names, row)) for row in cursor]


@app.get("/-/registry/history")
def history() -> dict[str, Any]:
    """Publications, edits and batches, the last one first: all, or those that an exam or a student
    has to do with."""
    student, exam = number_asked("student"), number_asked("exam")
    with History(folder().path).reading() as db:
        found: dict[str, Any] = {"publications": rows_of(
            db, "SELECT number, at, by, draft, points, seats, changed FROM publications"
            " ORDER BY number DESC")}
        found["trouble"] = troubles.get(session(), "")
        exams = [] if exam is None else [exam]
        if student is not None:
            found["seats"] = rows_of(
                db, "SELECT exam, period, room, seat, first, last FROM seats WHERE student = ?"
                " ORDER BY first, exam", student)
            exams = sorted({one["exam"] for one in found["seats"]})
        if exam is not None:
            found["places"] = places_of(db, exam)
        of_exams = f"IN ({','.join('?' * len(exams))})"
        found["edits"] = rows_of(
            db, "SELECT at, by, caller, what, draft, exam, other, body FROM edits"
            + (f" WHERE exam {of_exams} OR other {of_exams}"
               if student is not None or exam is not None else "")
            + f" ORDER BY number DESC LIMIT {MOST_SHOWN}", *exams, *exams)
    return {**found, "batches": batches_of(student, exam)}


def batches_of(student: int | None, exam: int | None) -> list[dict[str, Any]]:
    """Batches, the last one first; with their lines about a student or an exam."""
    column, number = ("student", student) if student is not None else ("exam", exam)
    if number is None:
        found: list[dict[str, Any]] = batches()["batches"]
        return found[:MOST_SHOWN]
    with reading() as db:
        lines = rows_of(
            db, "SELECT batch, student, exam, action FROM changes JOIN batches ON batch = number"
            f" WHERE {column} = ? AND sent_at IS NOT NULL ORDER BY place LIMIT {20 * MOST_SHOWN}",
            number)
    of_batch: dict[int, list[dict[str, Any]]] = {}
    for line in lines:
        of_batch.setdefault(line["batch"], []).append(line)
    return [{**one, "lines": of_batch[one["number"]]} for one in batches()["batches"]
            if one["number"] in of_batch][:MOST_SHOWN]


@app.get("/-/registry/publications/<int:number>")
def publication(number: int) -> flask.Response | tuple[dict[str, Any], int]:
    """The timetable of a publication, as a solution."""
    with History(folder().path).reading() as db:
        row = db.execute("SELECT solution FROM publications WHERE number = ?",
                         (number,)).fetchone()
    return flask.Response(row[0], mimetype="text/plain") if row else (
        {"error": "publication"}, 404)


@app.get("/-/registry/differences")
def differences() -> tuple[dict[str, Any], int]:
    """What differs between the publications `from` and `to`."""
    first, second = number_asked("from"), number_asked("to")
    with History(folder().path).reading() as db:
        found = None if first is None or second is None else difference(db, first, second)
    return (found, 200) if found else ({"error": "publication"}, 404)


# ---- Lists to print

jobs = Jobs()


@app.post("/-/registry/lists")
def make_lists() -> tuple[dict[str, Any], int]:
    """Begins to make lists."""
    wanted = wanted_in(json_asked())
    if wanted is None:
        return {"error": "body"}, 400
    with reading():
        pass
    office = ["--office", FRONT] if "://" in FRONT else [
        "--office", f"{session()}.session", "--socket", FRONT]
    try:
        return jobs.begin(folder().path, wanted, user(), office,
                          {**os.environ, TOKEN_NAME: TOKEN}), 202
    except Busy:
        return {"error": "often"}, 429


@app.get("/-/registry/lists")
def lists() -> dict[str, Any]:
    """All lists that are made or asked for, and what the last publication is called."""
    with History(folder().path).reading() as db:
        return {"lists": jobs.all(folder().path), "publication": words_of_last(db)}


@app.get("/-/registry/lists/<int:number>/<name>")
def list_file(number: int, name: str) -> flask.Response | tuple[dict[str, Any], int]:
    path = jobs.file(folder().path, number, name)
    if not path:
        return {"error": "lists"}, 404
    reply = flask.send_file(path, "application/pdf", as_attachment=True)
    # nginx says that nobody may store it.
    del reply.headers["Cache-Control"]
    return reply


# What kept the last look of a session from being whole, in words.
troubles: dict[str, str] = {}


def look_at(name: str, is_only: bool) -> None:
    """Looks what happened to a session; what fails is tried again, and stops nothing else."""
    try:
        look_what_happened(History(FOLDER / name), office_of(name), LOG, name, is_only,
                           MOST_PUBLICATIONS)
        troubles.pop(name, None)
    except (Refused, Unsteady, OSError, sqlite3.Error, ValueError, KeyError, IndexError) as fault:
        if f"{fault}" != troubles.get(name):
            app.logger.exception("the history of %s", name)
        troubles[name] = f"{fault}" or "the publication changed while it was read"


# What is wrong between the ledger and the office of a session, in words.
standings: dict[str, list[str]] = {}
# What the ledger and the log were when they were compared with the office last.
compared: dict[str, list[list[int]]] = {}


def say_standing(found: Folder, met: Meeting) -> None:
    """Notes what is wrong between a ledger and its office; the package's status reads it."""
    lines = first_lines([*met.faults, *met.warnings, *found.stopped()], "lines")
    standings[found.path.name] = lines
    path = found.path / STANDING
    if lines:
        exchange(path, "".join(f"{line}\n" for line in lines))
    else:
        path.unlink(missing_ok=True)


def marks_of(path: pathlib.Path | None) -> list[int]:
    """What differs when a file has changed, or was put back."""
    if path is None or not path.exists():
        return []
    status = path.stat()
    return [status.st_ino, status.st_size, status.st_mtime_ns]


def compare(name: str) -> None:
    """Compares a session's ledger with its office, if either may have changed."""
    found = Folder(FOLDER / name)
    then = [marks_of(found.ledger), marks_of(found.path / STOPPED)]
    if compared.get(name) == [*then, marks_of(LOG)]:
        return
    with locked(found.path), contextlib.closing(Ledger.opened_at(found.ledger)) as ledger:
        say_standing(found, look(found, ledger, office_of(name), log_of(name)))
    # The questions themselves are in the log. A ledger that was put back meanwhile is another one.
    compared[name] = [*then, marks_of(LOG)]


def compare_all() -> None:
    """Compares all sessions again and again."""
    while True:
        for path in FOLDER.glob("*/ledger.db"):
            if NAME.fullmatch(path.parent.name):
                try:
                    compare(path.parent.name)
                except (NotALedger, Refused, OSError, sqlite3.Error, ValueError) as fault:
                    app.logger.warning("the ledger of %s: %s", path.parent.name, fault)
        time.sleep(COMPARED)


def watch() -> None:
    """Looks at all sessions each second."""
    after: dict[str, float] = {}
    while True:
        with contextlib.suppress(OSError):
            names = [it.parent.name for it in FOLDER.glob("*/ledger.db")
                     if NAME.fullmatch(it.parent.name)]
            for name in names:
                jobs.remove_old(FOLDER / name)
                if after.get(name, 0) < time.monotonic():
                    look_at(name, len(names) == 1)
                    after[name] = time.monotonic() + (PATIENCE if name in troubles else 0)
        time.sleep(1)


for looking in (watch, compare_all):
    threading.Thread(target=looking, daemon=True).start()


# ---- New students

@app.post("/-/registry/students")
def students() -> tuple[dict[str, Any], int]:
    """Gives new students their numbers; one who is known already has one."""
    faults, given = Faults(), people_in(json_asked())
    if given is None:
        return {"error": "body"}, 400
    rows = [Row("students", place, person, faults) for place, person in enumerate(given, 1)]
    people = {row.text("student"): row.one_line("name") for row in rows}
    if faults.lines:
        return {"error": "names", "faults": faults.lines}, 400
    with opened() as (found, ledger):
        met = met_with(found, ledger, office_of(session()), log_of(session()))
        known = Known(ledger.numbers())
        new = {student: name for student, name in people.items() if known.text(student) is None}
        if met.faults_of_new(len(new)):
            raise Strange(met.faults_of_new(len(new)))
        added = {one.id: one.number for one in ledger.add_new_students(new)}
        met.mark(ledger, added.values(), user())
        ledger.keep()
        send_noted(ledger, office_of(session()), met)
        if added or met.noted or met.said:
            found.refresh(ledger, user())
        numbers = {student: added.get(student, known.number(student)) for student in people}
    return {"numbers": numbers}, 200


def is_whole(text: str) -> bool:
    """Whether a text can be kept: JSON can have half a character."""
    return text == text.encode(errors="ignore").decode()


def people_in(body: Any) -> list[dict[str, str]] | None:
    """The students of a body: a list of objects with `student` and `name`."""
    if not isinstance(body, list) or len(body) > MOST_NEW:
        return None
    people = []
    for one in body:
        texts = [one.get("student"), one.get("name", "")] if isinstance(one, dict) else [None]
        if not all(isinstance(text, str) and len(text) <= LONGEST and is_whole(text)
                   for text in texts):
            return None
        people.append({"student": texts[0].strip(), "name": texts[1].strip()})
    return people
