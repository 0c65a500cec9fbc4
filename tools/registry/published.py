"""The publication that lists are made of, and how their headings name it."""
from __future__ import annotations

import contextlib
import dataclasses
import datetime
import hashlib
import pathlib
import sqlite3
import time

from .dates import MONTHS
from .history import History, Row, last_number, steady_publication
from .ledger import NotALedger, now
from .office import Office

# A new publication is in the history within seconds.
MOST_LOOKS, PAUSE = 10, 0.5
WEEKDAYS = ("Monday", "Tuesday", "Wednesday", "Thursday", "Friday", "Saturday", "Sunday")


@dataclasses.dataclass
class Published:
    """A publication: who sits where, where each exam is, and what it is called on paper."""

    rows: list[Row]
    places: list[tuple[int, int]]
    name: str
    # When it was published or, without a history, read; and when another one replaced it.
    at: str
    replaced: str | None = None
    verb: str = ""

    def words(self) -> str:
        return f"{self.name}, {self.verb}{moment_in_words(self.at)}"

    def replaced_words(self) -> str:
        return f"Replaced on {moment_in_words(self.replaced)}" if self.replaced else ""

    def short_words(self) -> str:
        _, month, day = map(int, self.at[:10].split("-"))
        later = ", replaced" if self.replaced else ""
        return f"{self.name}, {day} {MONTHS[month - 1][:3]} {self.at[11:16]}{later}"


def day_in_words(date: str) -> str:
    """A date such as 2027-05-14 in words."""
    year, month, day = map(int, date.split("-"))
    weekday = WEEKDAYS[datetime.date(year, month, day).weekday()]
    return f"{weekday} {day} {MONTHS[month - 1]} {year}"


def moment_in_words(moment: str) -> str:
    """A moment such as 2026-11-27T09:12:44+01:00, as its clock showed it."""
    year, month, day = map(int, moment[:10].split("-"))
    return f"{day} {MONTHS[month - 1]} {year}, {moment[11:16]}"


def places_in(solution: str) -> list[tuple[int, int]]:
    lines = ([int(field) for field in line.split(",")] for line in solution.splitlines())
    return [(period, room) for period, room in lines]


def name_of(number: int, at: str) -> tuple[str, str]:
    return f"Publication {number}", at


def words_of_last(db: sqlite3.Connection) -> str | None:
    """What headings call the last publication of the history."""
    found = db.execute("SELECT number, at FROM publications ORDER BY number DESC").fetchone()
    return Published([], [], *name_of(*found)).words() if found else None


def kept_publication(db: sqlite3.Connection, number: int) -> Published | None:
    """A publication of the history."""
    found = db.execute("SELECT at, solution FROM publications WHERE number = ?", (number,)
                       ).fetchone()
    if not found:
        return None
    rows = db.execute("SELECT student, exam, period, room, seat FROM seats WHERE first <= ?1"
                      " AND (last IS NULL OR last >= ?1)", (number,)).fetchall()
    later = db.execute("SELECT at FROM publications WHERE number = ?", (number + 1,)).fetchone()
    return Published(rows, places_in(found[1]), *name_of(number, found[0]),
                     later[0] if later else None)


def publication_at(folder: pathlib.Path, number: int) -> Published:
    """An earlier publication, of which the history has the seats."""
    history = History(folder)
    if history.path.exists():
        with history.reading() as db:
            found = kept_publication(db, number)
            if found:
                return found
    raise NotALedger(f"{folder} has no publication {number}")


def last_publication(history: History) -> Published | None:
    with contextlib.suppress(OSError, sqlite3.Error):
        if history.path.is_file():
            with history.reading() as db:
                return kept_publication(db, last_number(db))
    return None


def publication_now(folder: pathlib.Path, office: Office) -> Published:
    """What the office has published; with its number and its time, if the history has it. Without
    a history headings name the seats by a digest, and the time at which they were read."""
    found = steady_publication(office)
    places, history = places_in(found.solution), History(folder)
    for _ in range(MOST_LOOKS):
        last = last_publication(history)
        if last and set(last.rows) == set(found.rows) and last.places == places:
            return last
        if not history.path.exists():
            break
        time.sleep(PAUSE)
    text = "".join(f"{row}\n" for row in sorted(found.rows))
    digest = hashlib.sha256(text.encode()).hexdigest()[:8].upper()
    return Published(found.rows, places, f"Seats {digest}", now(), verb="read on ")
