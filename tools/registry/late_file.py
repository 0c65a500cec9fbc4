"""What a file of late changes says, whatever program wrote it: lines that add or drop enrolments,
or a student system's whole list."""
from __future__ import annotations

import dataclasses
import difflib
import re
from collections.abc import Iterable, Mapping

from .changes import LIST
from .csv_tables import (
    MOST_LINES_PRINTED, ROUNDED, Column, Faults, Known, Row, Wanted, table_of, without_zeros,
)
from .ledger import Ledger
from .names import has_word_of, is_same_name, words_of
from .session import COLUMNS as SESSION
from .session import Session

# What a file is, if it is no whole list: lines of changes.
LINES = "changes"
COLUMNS = (*SESSION["enrolments"], Column("action", ("change", "status", "type"), False))
ACTIONS = {"add": ("add", "added", "enrol", "enrols", "enroll", "enrolled", "in", "+"),
           "drop": ("drop", "dropped", "withdraw", "withdrawn", "withdrew", "remove", "removed",
                    "delete", "out", "unenrol", "unenroll", "-"),
           "new": ("new",)}
# How many IDs are compared with unknown ones, in all.
MOST_COMPARED = 150_000
WORDS = {word: action for action, words in ACTIONS.items() for word in words}
EXPECTED = {LIST: ("status", "enrolled or withdrawn"), LINES: ("action", "add, drop or new")}


@dataclasses.dataclass(frozen=True)
class Said:
    """A name that a line has beside an ID."""

    name: str
    line: int


@dataclasses.dataclass
class Late:
    """What a file says, of students by ID. Of several lines about a student and an exam the last
    one decides."""

    kind: str = LINES
    # Whether its last line ends.
    ends: bool = True
    actions: dict[tuple[str, int], str] = dataclasses.field(default_factory=dict)
    new: dict[str, str] = dataclasses.field(default_factory=dict)
    # The names that a list brings, and the IDs with zeros that the ledger lacks, both by known IDs.
    names: dict[str, str] = dataclasses.field(default_factory=dict)
    longer: dict[str, str] = dataclasses.field(default_factory=dict)
    # Students of a list who are somebody else in the ledger, or several people.
    strangers: dict[str, Said] = dataclasses.field(default_factory=dict)
    notes: list[str] = dataclasses.field(default_factory=list)


def edits_of(text: str, signs: Iterable[str]) -> set[str]:
    """Returns the texts that differ from one in a sign that is missing, added or another."""
    halves = [(text[:place], text[place:]) for place in range(len(text) + 1)]
    return {f"{before}{sign}{after}" for before, after in halves for sign in signs} | {
        f"{before}{sign}{after[1:]}" for before, after in halves if after
        for sign in ("", *signs)} - {text}


class Nearest:
    """Finds the ID or code that is most like a text, or that has this name."""

    def __init__(self, names: Mapping[str, str]) -> None:
        self.names = names
        self.by_words: dict[tuple[str, ...], str] | None = None
        self.signs: set[str] = set()
        self.compared = 0

    def find(self, text: str) -> str | None:
        if self.by_words is None:
            self.by_words = {tuple(words_of(name)): one
                             for one, name in reversed([*self.names.items()]) if name}
            self.signs = {sign for one in self.names for sign in one}
        named = self.by_words.get(tuple(words_of(text)))
        if named:
            return named
        close = self.names.keys() & edits_of(text, self.signs)
        if close:
            return max(close, key=lambda one: (
                difflib.SequenceMatcher(None, text, one).ratio(), one))
        # To compare all takes half a second with 25,000.
        self.compared += len(self.names)
        found = difflib.get_close_matches(text, self.names, 1, 0.5) \
            if self.compared <= MOST_COMPARED else []
        return found[0] if found else None

    def words(self, text: str) -> str:
        """Returns the nearest with its name, in words; or nothing."""
        found = self.find(text)
        return f". {found} is {self.names[found] or 'the nearest'}" if found else ""


def alike_in(texts: set[str], known: Mapping[str, int]) -> dict[str, str]:
    """Returns the IDs of a file that it also has with other leading zeros, each with another one;
    an ID that the ledger has is whole."""
    of_number: dict[str, list[str]] = {}
    for text in texts:
        of_number.setdefault(without_zeros(text), []).append(text)
    return {text: next(other for other in sorted(alike) if other != text)
            for alike in of_number.values() if len(alike) > 1
            for text in alike if text not in known}


class Reader:
    """Reads rows with student IDs, codes of exams and names."""

    def __init__(self, rows: list[Row], ledger: Ledger, session: Session, late: Late) -> None:
        self.late = late
        self.names = {student.id: student.name for student in ledger.students()}
        self.nearest = {"student": Nearest(self.names), "exam": Nearest({
            exam.code: exam.title for exam in session.exams})}
        self.students = Known(ledger.numbers())
        self.exams = Known({exam.code: number for number, exam in enumerate(session.exams)})
        self.alike = alike_in({row.get("student") for row in rows}, self.students.numbers)
        # Whom a line calls new, wherever it is.
        self.called_new = {row.get("student") for row in rows if action_in(row) == "new"}
        self.said: dict[str, dict[str, int]] = {}

    def unknown(self, row: Row, column: str, text: str) -> None:
        # Further faults aren't printed.
        is_shown = len(row.faults.lines) < MOST_LINES_PRINTED
        row.fault(column, f"{text}: no such {column}"
                          f"{self.nearest[column].words(text) if is_shown else ''}")

    def exam(self, row: Row) -> int | None:
        code = row.id("exam")
        number = None if code is None else self.exams.number(code)
        if code is not None and number is None:
            self.unknown(row, "exam", code)
        return number

    def student(self, row: Row) -> str | None:
        """Returns the ID of a known student, or of a new one; or None, with a fault."""
        text = row.id("student")
        if text is None:
            return None
        known = self.students.text(text)
        readings = sorted(self.students.readings(text) if known is None else [], key=len)
        if text in self.alike:
            row.fault("student", f"{text} and {self.alike[text]} are both there; they differ in "
                                 "leading zeros only, so who is who is unknown")
        elif len(readings) > 1:
            row.fault("student", f"{text} may be {' or '.join(readings)}, which differ in leading "
                                 "zeros only")
        elif known is None and ROUNDED.fullmatch(text):
            row.fault("student", f"{text} is what a spreadsheet made of an ID that it took for a "
                                 "number; export it as text")
        elif known is not None:
            if len(text) > len(known) and self.late.kind == LIST:
                self.late.longer[known] = text
            return known
        elif self.late.kind == LIST or text in self.called_new:
            return text
        else:
            self.unknown(row, "student", text)
        return None

    def read(self, row: Row) -> None:
        """Reads a row of changes or of a list."""
        action = action_in(row)
        if action is None:
            what, expected = EXPECTED[self.late.kind]
            row.fault("action", f"{row.get('action')!r} is no {what}; {expected} is expected")
        is_without = action == "new" and not row.get("exam") and self.late.kind == LINES
        exam = None if is_without else self.exam(row)
        student = self.student(row)
        if student is not None:
            self.note_name(row, student, action)
            if exam is not None and action is not None:
                self.late.actions[student, exam] = "drop" if action == "drop" else "add"

    def note_name(self, row: Row, student: str, action: str | None) -> None:
        """Notes a name beside an ID. In lines of changes another one is a fault."""
        name, known = row.one_line("name"), self.names.get(student)
        if self.late.kind == LIST:
            if name:
                self.said.setdefault(student, {})[name] = row.line
        elif known is None:
            first = self.late.new.setdefault(student, name) or name
            if name and not is_same_name(name, first):
                row.fault("name", f"{student} is {first} on another line, not {name}")
            self.late.new[student] = first
        elif action == "new" and not is_same_name(name, known):
            row.fault("student", f"{student} is {known or 'a student'} already")
        elif name and known and not is_same_name(name, known):
            row.fault("name", f"{student} is {known}, not {name}")

    def judge_names(self) -> None:
        """Compares the names of a list with the ledger's: one that shares a word with it is new."""
        late = self.late
        for student, said in self.said.items():
            known = self.names.get(student) or next(iter(said))
            stranger = next((Said(*one) for one in said.items()
                             if not is_same_name(one[0], known) and not has_word_of(one[0], known)),
                            None)
            last = max(said, key=lambda name: said[name])
            if stranger:
                late.strangers[student] = stranger
                late.longer.pop(student, None)
            elif student in self.names and (
                    not self.names[student] or not is_same_name(last, known)):
                late.names[student] = last
        for student, exam in late.actions:
            if student not in self.names and student not in late.strangers \
                    and late.actions[student, exam] == "add":
                said = self.said.get(student, {})
                late.new[student] = max(said, key=lambda name: said[name], default="")
        # A student who is unknown and ends is nobody.
        late.actions = {pair: action for pair, action in late.actions.items()
                        if pair[0] in self.names or pair[0] in late.new}


def action_in(row: Row) -> str | None:
    """What a line's action or status means; of a line without one, that the student is enrolled."""
    return WORDS.get(row.get("action").casefold()) if "action" in row.fields else "add"


def read_late(content: bytes, file: str, kind: str | None, ledger: Ledger, faults: Faults,
              wanted: Wanted | None = None) -> Late:
    """Returns what a file says; it counts only if there is no fault. A file that isn't said to be
    of a kind is a whole list if it has no column of actions."""
    columns = [dataclasses.replace(column, is_needed=column.is_needed or (
        column.name == "action" and kind == LINES)) for column in COLUMNS]
    table = table_of(content, file, columns, wanted or Wanted(), faults)
    late = Late(kind or (LINES if any("action" in row.fields for row in table.rows) else LIST),
                table.ends)
    if not re.match("utf-8|$", table.encoding):
        late.notes.append(f"{file} is read as {table.encoding}")
    if not table.rows and not faults.are_of(file):
        faults.add(file, None, None, "there is no line after the first")
    reader = Reader(table.rows, ledger, ledger.session(), late)
    for row in table.rows:
        reader.read(row)
    if late.kind == LIST:
        reader.judge_names()
    return late
