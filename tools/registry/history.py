"""What happened to a session: its publications, and who changed what and when.

Publications are kept with their seats. A row of seats is kept once, with the first and the last
publication that has it, so that most take no room.
"""
from __future__ import annotations

import contextlib
import dataclasses
import json
import os
import pathlib
import re
import sqlite3
from collections.abc import Iterator
from typing import Any

from .folder import NOW, exchange
from .ledger import now
from .office import Office, Refused

NAME, SHOWN = "history.db", "published.json"
TABLES = """
CREATE TABLE IF NOT EXISTS about (key TEXT PRIMARY KEY, value TEXT NOT NULL);
CREATE TABLE IF NOT EXISTS publications (number INTEGER PRIMARY KEY, at TEXT NOT NULL,
    by TEXT NOT NULL, draft INTEGER, points INTEGER NOT NULL, penalty TEXT NOT NULL,
    solution TEXT NOT NULL, seats INTEGER NOT NULL, changed INTEGER NOT NULL);
CREATE TABLE IF NOT EXISTS seats (student INTEGER NOT NULL, exam INTEGER NOT NULL,
    period INTEGER NOT NULL, room INTEGER NOT NULL, seat INTEGER NOT NULL,
    first INTEGER NOT NULL, last INTEGER);
CREATE INDEX IF NOT EXISTS by_student ON seats (student);
CREATE INDEX IF NOT EXISTS by_exam ON seats (exam);
CREATE INDEX IF NOT EXISTS by_last ON seats (last);
CREATE TABLE IF NOT EXISTS edits (number INTEGER PRIMARY KEY, at TEXT NOT NULL, by TEXT NOT NULL,
    caller TEXT NOT NULL, what TEXT NOT NULL, draft INTEGER, exam INTEGER, other INTEGER,
    body TEXT NOT NULL);
CREATE INDEX IF NOT EXISTS edits_by_exam ON edits (exam);
"""
MOST_EDITS, MOST_BYTES, MOST_TRIES = 200_000, 8 * 1024 * 1024, 3
HEADER = "student,exam,period,room,seat"
# What a request did, by its method and path: draft, exam and other exam are in the path.
D, E, F = (rf"0*(?P<{name}>[0-9]{{1,9}})" for name in ("draft", "exam", "other"))
DEEDS = [(what, re.compile(f"{method} {path}")) for what, method, path in (
    ("placed", "POST", f"/drafts/{D}/exams/{E}/place"),
    ("moved", "POST", f"/drafts/{D}/exams/{E}/move"),
    ("cleared", "DELETE", f"/drafts/{D}/exams/{E}"),
    ("swapped", "POST", f"/drafts/{D}/swap/{E}/{F}"), ("made", "PUT", f"/drafts/{D}"),
    ("dropped", "DELETE", f"/drafts/{D}"), ("published", "POST", f"/drafts/{D}/publish"),
    ("owner", "PUT", f"/exams/{E}/owner"))]
Row = tuple[int, int, int, int, int]


class Unsteady(Exception):
    """A publication that was replaced while it was read."""


@dataclasses.dataclass
class Publication:
    """The published timetable of an office."""

    solution: str
    penalty: str
    points: int
    rows: list[Row]


def publication_of(office: Office) -> Publication:
    """The publication, if its seats are the same before and after, and at their exams' places."""
    seats = office.ask("GET", "/publication/seats")
    solution, penalty = (office.ask("GET", path) for path in ("/publication",
                                                              "/publication/penalty"))
    head, *lines = seats.splitlines()
    places = [tuple(int(field) for field in line.split(",")) for line in solution.splitlines()]
    rows: list[Row] = []
    for line in lines:
        student, exam, period, room, seat = map(int, line.split(","))
        rows.append((student, exam, period, room, seat))
    total = re.search(r"^total ([0-9]+)$", penalty, re.M)
    if (head != HEADER or not total or office.ask("GET", "/publication/seats") != seats
            or any(places[exam] != (period, room) for _, exam, period, room, _ in rows)):
        raise Unsteady
    return Publication(solution, penalty, int(total[1]), rows)


def steady_publication(office: Office) -> Publication:
    for last in range(MOST_TRIES):
        with contextlib.suppress(Unsteady):
            return publication_of(office)
    raise Unsteady


class History:
    """The history of a session, in a file of its own beside the ledger."""

    def __init__(self, folder: pathlib.Path) -> None:
        self.path = folder / NAME

    @contextlib.contextmanager
    def opened(self) -> Iterator[sqlite3.Connection]:
        """The file, made if it isn't there, in a transaction that is kept at the end."""
        if not self.path.exists():
            os.close(os.open(self.path, os.O_WRONLY | os.O_CREAT | os.O_EXCL | os.O_NOFOLLOW,
                             0o640))
        with contextlib.closing(sqlite3.connect(self.path, isolation_level=None)) as db:
            # Others read until it is kept, however large it is.
            db.execute("PRAGMA cache_spill = OFF")
            db.execute("BEGIN IMMEDIATE")
            for statement in TABLES.split(";\n"):
                db.execute(statement)
            yield db
            db.execute("COMMIT")

    @contextlib.contextmanager
    def reading(self) -> Iterator[sqlite3.Connection]:
        if not self.path.exists() or not self.path.stat().st_size:
            with self.opened():
                pass
        with contextlib.closing(sqlite3.connect(f"{self.path.absolute().as_uri()}?mode=ro",
                                                uri=True)) as db:
            yield db


def noted(db: sqlite3.Connection, key: str) -> Any:
    """A value that was noted, or None."""
    row = db.execute("SELECT value FROM about WHERE key = ?", (key,)).fetchone()
    return json.loads(row[0]) if row else None


def note(db: sqlite3.Connection, key: str, value: Any) -> None:
    db.execute("INSERT OR REPLACE INTO about VALUES (?, ?)", (key, json.dumps(value)))


# ---- Publications

def last_number(db: sqlite3.Connection) -> int:
    number: int = db.execute("SELECT max(number) FROM publications").fetchone()[0] or 0
    return number


def keep(db: sqlite3.Connection, found: Publication, made: dict[str, Any], most: int) -> None:
    """Keeps a publication; the oldest ones go if there are more than so many."""
    number = last_number(db) + 1
    current = set(db.execute("SELECT student, exam, period, room, seat FROM seats"
                             " WHERE last IS NULL"))
    rows = set(found.rows)
    db.executemany(
        "UPDATE seats SET last = ? WHERE student = ? AND exam = ? AND last IS NULL",
        ((number - 1, student, exam) for student, exam, *_ in current - rows))
    added = rows - current
    db.executemany("INSERT INTO seats VALUES (?, ?, ?, ?, ?, ?, NULL)",
                   ((*row, number) for row in sorted(added)))
    changed = len({row[:2] for row in added ^ (current - rows)})
    db.execute("INSERT INTO publications VALUES (?, ?, ?, ?, ?, ?, ?, ?, ?)", (
        number, made["at"], made["by"], made["draft"], found.points, found.penalty, found.solution,
        len(rows), changed))
    db.execute("DELETE FROM publications WHERE number <= ?", (number - most,))
    db.execute("DELETE FROM seats WHERE last <= ?", (number - most,))


def seats_at(db: sqlite3.Connection, number: int, other: int) -> dict[tuple[int, int], Row]:
    """The rows that a publication has and another one may not have."""
    return {row[:2]: row for row in db.execute(
        "SELECT student, exam, period, room, seat FROM seats WHERE first <= ?1"
        " AND (last IS NULL OR last >= ?1) AND NOT (first <= ?2 AND (last IS NULL OR last >= ?2))",
        (number, other))}


def place_of(row: Row | None) -> list[int] | None:
    return list(row[2:]) if row else None


def difference(db: sqlite3.Connection, first: int, second: int) -> dict[str, Any] | None:
    """What differs between two publications: exams' places and candidates' seats."""
    solutions = {number: text.splitlines() for number, text in db.execute(
        "SELECT number, solution FROM publications WHERE number IN (?, ?)", (first, second))}
    if not {first, second} <= solutions.keys():
        return None
    before, after = seats_at(db, first, second), seats_at(db, second, first)
    pairs = zip(solutions[first], solutions[second])
    return {
        "exams": [{"exam": exam, "from": numbers_in(one), "to": numbers_in(other)}
                  for exam, (one, other) in enumerate(pairs) if one != other],
        "seats": [{"student": key[0], "exam": key[1], "from": place_of(before.get(key)),
                   "to": place_of(after.get(key))} for key in sorted(before.keys() | after.keys())
                  if before.get(key) != after.get(key)]}


def numbers_in(line: str) -> list[int]:
    return [int(field) for field in line.split(",")]


def places_of(db: sqlite3.Connection, exam: int) -> list[dict[str, Any]]:
    """Where an exam was, publication by publication."""
    places = []
    for number, text in db.execute("SELECT number, solution FROM publications ORDER BY number"):
        lines = text.splitlines()
        if exam < len(lines):
            period, room = numbers_in(lines[exam])
            places.append({"publication": number, "period": period, "room": room})
    return places


# ---- The front's log of changes

def new_lines(log: pathlib.Path, place: list[int] | None) -> tuple[list[str], list[int]]:
    """The whole lines that were written since, and where the next one begins: the file's number and
    the byte. What wasn't read of a file that was rotated away comes first."""
    status = log.stat()
    inode, offset = place or [status.st_ino, 0]
    path = log
    if inode != status.st_ino:
        path = next((it for it in log.parent.glob(f"{log.name}.*")
                     if it.stat().st_ino == inode and it.suffix != ".gz"), log)
        offset = offset if path != log else 0
    with path.open("rb") as file:
        file.seek(offset)
        content = file.read(MOST_BYTES)
    whole = content[:content.rfind(b"\n") + 1]
    if path != log and not whole:
        return new_lines(log, [status.st_ino, 0])
    number = inode if path != log else status.st_ino
    return whole.decode("utf-8", "replace").splitlines(), [number, offset + len(whole)]


def edit_in(line: str, session: str, is_only: bool) -> dict[str, Any] | None:
    """What a line of the log says that somebody did in a session, or None."""
    try:
        entry = json.loads(line)
    except ValueError:
        return None
    if (not isinstance(entry, dict) or entry.get("status") not in (200, 201)
            or entry.get("session") != session and not (is_only and "session" not in entry)):
        return None
    deed = f"{entry.get('method')} {entry.get('path')}"
    for what, path in DEEDS:
        found = path.fullmatch(deed)
        if found:
            numbers = {name: int(number) for name, number in found.groupdict().items()}
            return {"at": entry["at"], "by": entry["user"], "caller": entry["caller"],
                    "what": what, "body": entry.get("body", ""), **numbers}
    return None


def follow(db: sqlite3.Connection, log: pathlib.Path, session: str, is_only: bool) -> None:
    """Notes what the log has new of a session, and which publication is still to be kept."""
    lines, place = new_lines(log, noted(db, "log"))
    edits = [edit for line in lines if (edit := edit_in(line, session, is_only))]
    db.executemany(
        "INSERT INTO edits (at, by, caller, what, draft, exam, other, body)"
        " VALUES (:at, :by, :caller, :what, :draft, :exam, :other, :body)",
        ({"draft": None, "exam": None, "other": None, **edit} for edit in edits))
    if edits:
        db.execute("DELETE FROM edits WHERE number <= (SELECT max(number) FROM edits) - ?",
                   (MOST_EDITS,))
    for edit in edits:
        if edit["what"] == "published":
            note(db, "pending", {name: edit[name] for name in ("at", "by", "draft")})
    note(db, "log", place)


def look(history: History, office: Office, log: pathlib.Path | None, session: str, is_only: bool,
         most: int) -> None:
    """Notes what happened since the last look, keeps a new publication, and shows the last one."""
    with history.opened() as db:
        if log:
            follow(db, log, session, is_only)
        pending, is_first = noted(db, "pending"), noted(db, "begun") is None
    if pending or is_first:
        keep_new(history, office, pending, most)
    show_last(history)


def keep_new(history: History, office: Office, pending: dict[str, Any] | None, most: int) -> None:
    """Keeps the office's publication, if it has one."""
    try:
        found = steady_publication(office)
    except Refused as refusal:
        if refusal.error != "publication":
            raise
        found = None
    with history.opened() as db:
        if found:
            # One that was made before the history began has no line in the log.
            keep(db, found, pending or {"at": now(), "by": "", "draft": None}, most)
        if noted(db, "pending") == pending:
            note(db, "pending", None)
        note(db, "begun", True)


def show_last(history: History) -> None:
    """Writes when and where exams are published, without people, for departments; if that is
    another publication than the one that is there."""
    path = history.path.parent / NOW / SHOWN
    with history.reading() as db:
        number = last_number(db)
        if not number or path.exists() and json.loads(path.read_text())["publication"] == number:
            return
        at, points, solution = db.execute(
            "SELECT at, points, solution FROM publications WHERE number = ?", (number,)).fetchone()
    exchange(path, json.dumps({
        "publication": number, "at": at, "points": points,
        "places": [numbers_in(line) for line in solution.splitlines()]}))
