"""The ledger of a session: who and what each number is, for good."""
from __future__ import annotations

import dataclasses
import datetime
import fcntl
import getpass
import hashlib
import json
import os
import pathlib
import sqlite3
import stat
from collections.abc import Iterable, Iterator, Mapping
from contextlib import contextmanager
from decimal import Decimal

from .limits import USUAL, Limit
from .session import TEXTS, Exam, Period, Room, Session
from .versions import TABLES, VERSION, bring_to_today, version_of
from .versions import NotALedger as NotALedger

NAME = "ledger.db"
# What is in a folder while it is put back from a copy.
RESTORING = "restoring"
MOST_STUDENT = 999_999_999
# How many numbers a ledger that is lost may have given since its copy.
LOST = 10_000
# What a state is the digest of: who and what each number is, but not who takes which exam. It stays
# the same when a ledger is brought to another version.
OF_A_STATE = {"about": "key, iif(key = 'version', '1', value)", "departments": "number, name",
              "exams": "number, code, title, minutes, department",
              "rooms": "number, name, building, capacity, penalty",
              "periods": "number, date, start, minutes, penalty",
              "rules": "place, section, line", "students": "number, id, name",
              "users": "name, caller"}
SECTIONS = ("[PeriodHardConstraints]", "[RoomHardConstraints]", "[InstitutionalWeightings]")


@contextmanager
def locked(folder: pathlib.Path) -> Iterator[None]:
    """Waits until nobody else works on a folder, and holds it."""
    held = os.open(folder, os.O_RDONLY | os.O_DIRECTORY | os.O_NOFOLLOW)
    try:
        fcntl.flock(held, fcntl.LOCK_EX)
        if (folder / RESTORING).exists():
            raise NotALedger(f"{folder} is being put back from a copy, and that was cut off: "
                             "finish it by the same words of restore")
        yield
    finally:
        os.close(held)


def now() -> str:
    return datetime.datetime.now().astimezone().isoformat(timespec="seconds")


def user() -> str:
    """The user who runs this, also under sudo."""
    return os.environ.get("SUDO_USER") or getpass.getuser()


@dataclasses.dataclass
class Student:
    """A student with their number."""

    number: int
    id: str
    name: str


class Ledger:
    """A ledger that is open."""

    def __init__(self, db: sqlite3.Connection) -> None:
        self.db = db

    @classmethod
    def made_at(cls, path: pathlib.Path) -> Ledger:
        """A new and empty ledger in a file that isn't there yet. It is empty until it is kept."""
        os.close(os.open(path, os.O_WRONLY | os.O_CREAT | os.O_EXCL | os.O_NOFOLLOW, 0o640))
        ledger = cls(sqlite3.connect(path, isolation_level=None))
        ledger.begin()
        return ledger

    def begin(self) -> None:
        """Makes the tables, in a transaction that stays open."""
        self.db.execute("BEGIN IMMEDIATE")
        for statement in TABLES:
            self.db.execute(statement)
        self.db.execute("INSERT INTO about VALUES ('version', ?)", (f"{VERSION}",))

    @classmethod
    def opened_at(cls, path: pathlib.Path) -> Ledger:
        """The ledger of a file, in a transaction. One of an earlier version is brought to today's
        first."""
        try:
            if not stat.S_ISREG(path.lstat().st_mode):
                raise NotALedger(f"{path} is not a plain file")
            ledger = cls(sqlite3.connect(f"{path.absolute().as_uri()}?mode=rw", uri=True,
                                         isolation_level=None))
            bring_to_today(ledger.db, path)
            ledger.db.execute("BEGIN IMMEDIATE")
        except (OSError, sqlite3.Error) as fault:
            raise NotALedger(f"{path} is not a ledger: {fault}") from fault
        return ledger

    @classmethod
    def read_at(cls, path: pathlib.Path) -> Ledger:
        """The ledger of a file, to be read beside others."""
        try:
            ledger = cls(sqlite3.connect(f"{path.absolute().as_uri()}?mode=ro", uri=True,
                                         isolation_level=None))
            if version_of(ledger.db, path) < VERSION:
                ledger.close()
                with locked(path.parent):
                    cls.opened_at(path).close()
                return cls.read_at(path)
            ledger.db.execute("BEGIN")
        except sqlite3.Error as fault:
            raise NotALedger(f"{path} is not a ledger: {fault}") from fault
        return ledger

    def keep(self) -> None:
        """Commits all that was done, and begins a transaction again."""
        self.db.execute("COMMIT")
        self.db.execute("BEGIN IMMEDIATE")

    def close(self) -> None:
        """Closes the ledger; what wasn't kept is undone."""
        self.db.close()

    # ---- Reading

    def session(self) -> Session:
        """The session as it was made, with today's names. Its enrolments are those at loading."""
        db = self.db
        session = Session()
        session.texts = {key: value for key, value in db.execute("SELECT key, value FROM about")
                         if key in TEXTS}
        session.departments = {name: number for number, name in db.execute(
            "SELECT number, name FROM departments ORDER BY number")}
        session.exams = [Exam(*row) for row in db.execute(
            "SELECT code, title, minutes, department FROM exams ORDER BY number")]
        session.rooms = [Room(*row) for row in db.execute(
            "SELECT name, building, capacity, penalty FROM rooms ORDER BY number")]
        session.periods = [Period(*row) for row in db.execute(
            "SELECT date, start, minutes, penalty FROM periods ORDER BY number")]
        lines: dict[str, list[str]] = {section: [] for section in SECTIONS}
        for section, line in db.execute("SELECT section, line FROM rules ORDER BY place"):
            lines[section].append(line)
        session.period_rules, session.room_rules, session.weights = lines.values()
        return session

    def limits(self) -> dict[str, Limit]:
        """The limits of late changes: the session's own, or the usual ones."""
        return USUAL | {name: Limit(Decimal(percent), number) for name, percent, number
                        in self.db.execute("SELECT name, percent, number FROM limits")}

    def students(self) -> list[Student]:
        return [Student(*row) for row in self.db.execute(
            "SELECT number, id, name FROM students ORDER BY number")]

    def users(self) -> list[tuple[str, str]]:
        return self.db.execute("SELECT name, caller FROM users ORDER BY name").fetchall()

    def numbers(self) -> dict[str, int]:
        """The number of each student ID."""
        return dict(self.db.execute("SELECT id, number FROM students"))

    def loaded_pairs(self) -> set[tuple[int, int]]:
        """The pairs of a student and an exam at loading."""
        return set(self.db.execute("SELECT student, exam FROM enrolments"))

    def expected_pairs(self, before: int | None = None) -> set[tuple[int, int]]:
        """The pairs that the office should have: those at loading, and the batches sent since, up
        to one of them."""
        pairs = self.loaded_pairs()
        for student, exam, action in self.changes_sent(before):
            (pairs.add if action == "add" else pairs.discard)((student, exam))
        return pairs

    def changes_sent(self, before: int | None = None) -> Iterator[tuple[int, int, str]]:
        """The lines of all batches that were sent, in order, up to one of them."""
        yield from self.db.execute(
            "SELECT student, exam, action FROM changes JOIN batches ON batch = number"
            " WHERE turn < ifnull(?, turn + 1) ORDER BY turn, place", (before,))

    def digest(self) -> str:
        """The digest of the ledger's state."""
        digest = hashlib.sha256()
        for table, columns in OF_A_STATE.items():
            for row in self.db.execute(f"SELECT {columns} FROM {table} ORDER BY 1"):
                digest.update(json.dumps([table, *row]).encode() + b"\n")
        return digest.hexdigest()

    def digests(self) -> set[str]:
        """The digests of all states that were made."""
        return {digest for digest, in self.db.execute("SELECT digest FROM states")}

    def last_state(self) -> tuple[int, str] | None:
        """The number and the digest of the last state."""
        row: tuple[int, str] | None = self.db.execute(
            "SELECT number, digest FROM states ORDER BY number DESC LIMIT 1").fetchone()
        return row

    # ---- Writing

    def add_session(self, session: Session, numbers: dict[str, int]) -> None:
        """Writes a new session, with these numbers of students."""
        db = self.db
        self.set_texts(session.texts)
        self.set_limits(session.limits)
        self.add_departments(session.departments)
        db.executemany("INSERT INTO exams VALUES (?, ?, ?, ?, ?)", (
            (number, exam.code, exam.title, exam.minutes, exam.department)
            for number, exam in enumerate(session.exams)))
        db.executemany("INSERT INTO rooms VALUES (?, ?, ?, ?, ?)", (
            (number, room.name, room.building, room.capacity, room.penalty)
            for number, room in enumerate(session.rooms)))
        db.executemany("INSERT INTO periods VALUES (?, ?, ?, ?, ?)", (
            (number, period.date, period.start, period.minutes, period.penalty)
            for number, period in enumerate(session.periods)))
        lines = zip(SECTIONS, (session.period_rules, session.room_rules, session.weights))
        db.executemany("INSERT INTO rules (section, line) VALUES (?, ?)", (
            (section, line) for section, found in lines for line in found))
        self.add_students(Student(number, student, session.names.get(student, ""))
                          for student, number in numbers.items())
        db.executemany("INSERT INTO enrolments VALUES (?, ?)", (
            (numbers[student], exam) for student, exams in session.enrolments.items()
            for exam in exams))

    def set_texts(self, texts: dict[str, str]) -> None:
        self.db.executemany("INSERT OR REPLACE INTO about VALUES (?, ?)", (
            (name, texts.get(name, "")) for name in TEXTS))

    def set_limits(self, limits: Mapping[str, Limit]) -> None:
        self.db.execute("DELETE FROM limits")
        self.db.executemany("INSERT INTO limits VALUES (?, ?, ?)", (
            (name, f"{one.percent}", one.number) for name, one in limits.items()))

    def add_departments(self, departments: dict[str, int]) -> None:
        self.db.executemany("INSERT INTO departments VALUES (?, ?)", (
            (number, name) for name, number in departments.items()))

    def add_students(self, students: Iterable[Student]) -> None:
        self.db.executemany("INSERT INTO students (number, id, name) VALUES (?, ?, ?)", (
            (student.number, student.id, student.name) for student in students))

    def free_numbers(self) -> Iterator[int]:
        """Numbers that no student was ever given: those above all others, then the gaps."""
        given = {number for number, in self.db.execute("SELECT number FROM students")}
        reserved = {number for number, in self.db.execute("SELECT number FROM reserved")}
        yield from range(max(given | reserved, default=-1) + 1, MOST_STUDENT + 1)
        yield from (number for number in range(MOST_STUDENT + 1) if number not in given)

    def reserve_numbers(self) -> None:
        """Leaves out the next numbers, which a ledger that is lost may have given."""
        first = next(self.free_numbers())
        self.db.execute("INSERT OR IGNORE INTO reserved VALUES (?, ?)",
                        (min(first + LOST, MOST_STUDENT), now()))

    def add_new_students(self, names: dict[str, str], is_asked: bool = True) -> list[Student]:
        """Gives each of these IDs the next free number, and notes if no office was asked which
        numbers it has."""
        free = self.free_numbers()
        added = [Student(next(free), student, name) for student, name in names.items()]
        self.add_students(added)
        if not is_asked:
            self.db.executemany("UPDATE students SET unasked_since = ? WHERE number = ?", (
                (now(), student.number) for student in added))
        return added

    def rename_students(self, names: Mapping[str, str], ids: Mapping[str, str]) -> None:
        """Gives students, by their IDs, other names, then other IDs."""
        for column, texts in (("name", names), ("id", ids)):
            self.db.executemany(f"UPDATE students SET {column} = ? WHERE id = ?", (
                (text, student) for student, text in texts.items()))

    def add_state(self, by: str) -> tuple[int, str]:
        """Notes that files of the ledger's state are made; returns its number and digest."""
        last, digest = self.last_state(), self.digest()
        number = last[0] + 1 if last else 1
        self.db.execute("INSERT INTO states VALUES (?, ?, ?, ?)", (number, digest, now(), by))
        return number, digest
