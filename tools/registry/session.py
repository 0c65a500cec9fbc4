"""A session in a university's own CSV files: exams, rooms, periods, enrolments and rules."""
from __future__ import annotations

import dataclasses
import pathlib
import re
from collections.abc import Collection, Iterable, Mapping

from .csv_tables import Column, Faults, Known, Row, Table, Wanted, table_in, without_zeros
from .dates import dates_of, starts_of
from .limits import Limit, read_limits
from .rights import as_caller

STUDENT = ("student id", "student number", "student no", "id", "candidate", "candidate id",
           "candidate number", "candidate no", "matriculation number", "matriculation no")
CODE = ("course code", "exam code", "module code", "unit code", "paper code", "exam number",
        "course", "module", "exam", "unit", "paper")
TITLE = ("course title", "exam title", "module title", "unit title", "name", "course name",
         "exam name", "module name", "description")
MINUTES = ("duration", "length", "duration in minutes", "duration minutes", "length in minutes",
           "exam duration", "mins")
COLUMNS = {
    "exams": (Column("code", CODE), Column("title", TITLE), Column("minutes", MINUTES),
              Column("department", ("dept", "school", "faculty", "department name"), False)),
    "rooms": (Column("name", ("room", "room name", "room code", "hall")),
              Column("building", ("site", "campus", "location", "building name")),
              Column("capacity", ("seats", "exam capacity", "exam seats", "places", "size")),
              Column("penalty", ("points",), False)),
    "periods": (Column("date", ("day", "exam date")),
                Column("start", ("start time", "time", "begin", "starts")),
                Column("minutes", MINUTES), Column("penalty", ("points",), False)),
    "enrolments": (Column("student", STUDENT), Column("exam", ("code", *CODE)),
                   Column("name", ("student name", "full name", "candidate name"), False)),
    "rules": (Column("rule"), Column("a"), Column("b", (), False), Column("c", (), False)),
}
MOST = {"exams": 2_000, "rooms": 200, "periods": 200}
MOST_PAIRS, MOST_RULES, MOST_MINUTES = 200_000, 5_000, 1_440
TEXTS = ("title", "university", "contact")
LIMIT = "limit"
PERIOD_RULES, ROOM_RULES = ("AFTER", "EXAM_COINCIDENCE", "EXCLUSION"), ("ROOM_EXCLUSIVE",)
WEIGHTS = {"TWOINAROW": 1, "TWOINADAY": 1, "PERIODSPREAD": 1, "NONMIXEDDURATIONS": 1,
           "FRONTLOAD": 3, "OVERNIGHT": 1}


@dataclasses.dataclass
class Exam:
    """An exam, with the line on which it is."""

    code: str
    title: str
    minutes: int
    department: int | None
    line: int = 0


@dataclasses.dataclass
class Room:
    """A room."""

    name: str
    building: str
    capacity: int
    penalty: int


@dataclasses.dataclass
class Period:
    """A period; its date is in the form 2027-05-14, its start in the form 09:00:00."""

    date: str
    start: str
    minutes: int
    penalty: int


@dataclasses.dataclass
class Session:
    """What five CSV files say. Rules name exams by number, enrolments name students by ID."""

    texts: dict[str, str] = dataclasses.field(default_factory=dict)
    limits: dict[str, Limit] = dataclasses.field(default_factory=dict)
    departments: dict[str, int] = dataclasses.field(default_factory=dict)
    exams: list[Exam] = dataclasses.field(default_factory=list)
    rooms: list[Room] = dataclasses.field(default_factory=list)
    periods: list[Period] = dataclasses.field(default_factory=list)
    period_rules: list[str] = dataclasses.field(default_factory=list)
    room_rules: list[str] = dataclasses.field(default_factory=list)
    weights: list[str] = dataclasses.field(default_factory=list)
    names: dict[str, str] = dataclasses.field(default_factory=dict)
    enrolments: dict[str, set[int]] = dataclasses.field(default_factory=dict)
    # What the import says besides: encodings that aren't UTF-8, zeros that were lost.
    notes: list[str] = dataclasses.field(default_factory=list)

    def pairs(self) -> int:
        return sum(map(len, self.enrolments.values()))


def tables_in(folder: pathlib.Path, wanted: Wanted, faults: Faults) -> dict[str, Table]:
    """The tables of a folder; each file may be compressed."""
    tables = {}
    for name, columns in COLUMNS.items():
        path = folder / f"{name}.csv"
        packed = path.with_name(f"{path.name}.gz")
        with as_caller():
            is_packed = not path.exists() and packed.exists()
        table = table_in(packed if is_packed else path, path.name, columns, wanted, faults)
        if name in MOST and not faults.are_of(path.name) and not 1 <= len(table.rows) <= MOST[name]:
            faults.add(path.name, None, None, f"1 to {MOST[name]} lines are expected, not "
                                              f"{len(table.rows)}")
        tables[name] = table
    for words in wanted.faults():
        faults.lines.append(words)
    return tables


def number_of(row: Row, column: str, known: Known | None, what: str) -> int:
    """The number of what a field names; 0 with a fault. Nothing is compared if nothing is known."""
    value = row.text(column)
    number = known.number(value) if known and value else None
    if value and known and number is None:
        row.fault(column, f"there is no {what} {value!r}")
    return number or 0


def read_departments(rows: Iterable[Row]) -> dict[str, int]:
    departments: dict[str, int] = {}
    for row in rows:
        number, name = row.number("a", 999, 1), row.text("b")
        if number in departments.values():
            row.fault("a", f"there is a department {number} already")
        if name in departments:
            row.fault("b", f"there is a department {name!r} already")
        departments[name] = number or -len(departments)
    return departments


def sorted_rules(rows: Iterable[Row]) -> dict[str, list[Row]]:
    """The rows of rules.csv by what they are."""
    kinds: dict[str, list[Row]] = {"text": [], "department": [], LIMIT: [], "weight": [],
                                   "rule": []}
    for row in rows:
        word = row.text("rule")
        if word.lower() in TEXTS:
            kinds["text"].append(row)
        elif word.lower() in ("department", LIMIT):
            kinds[word.lower()].append(row)
        elif word.upper() in WEIGHTS:
            kinds["weight"].append(row)
        elif word.upper() in PERIOD_RULES + ROOM_RULES:
            kinds["rule"].append(row)
        elif word:
            row.fault("rule", f"there is no rule {word!r}")
    return kinds


def read_weights(rows: Iterable[Row], seen: dict[str, int]) -> list[str]:
    """The lines of weights, in the order of the session's file."""
    weights: dict[str, list[int | None]] = {}
    for row in rows:
        row.new("rule", seen)
        word = row.get("rule").upper()
        weights[word] = [row.number(column) for column in "abc"[:WEIGHTS[word]]]
    return [",".join(map(str, [word, *weights[word]])) for word in WEIGHTS if word in weights]


def rule_lines(rows: Iterable[Row], words: Collection[str], codes: Known | None) -> list[str]:
    """The lines of a session for the rules with these words."""
    lines: list[str] = []
    for row in rows:
        word = row.get("rule").upper()
        if word in words:
            exams = [number_of(row, column, codes, "exam")
                     for column in ("ab" if words is PERIOD_RULES else "a")]
            lines.append(", ".join(map(str, [exams[0], word, *exams[1:]])))
            if len(lines) == MOST_RULES + 1:
                row.fault("rule", f"there are more than {MOST_RULES} such rules")
    return lines


def read_exams(rows: Iterable[Row], departments: Known | None) -> list[Exam]:
    exams: list[Exam] = []
    seen: dict[str, int] = {}
    for row in rows:
        code = row.new("code", seen)
        department = number_of(row, "department", departments, "department") \
            if row.get("department") else None
        exams.append(Exam(code, row.one_line("title"), row.number("minutes", MOST_MINUTES) or 0,
                          department, row.line))
    return exams


def read_rooms(rows: Iterable[Row]) -> list[Room]:
    seen: dict[str, int] = {}
    return [Room(row.new("name", seen), row.one_line("building"), row.number("capacity") or 0,
                 row.number("penalty", default=0) or 0) for row in rows]


def read_periods(rows: list[Row]) -> list[Period]:
    return [Period(f"{date}" if date else "", start, row.number("minutes", MOST_MINUTES) or 0,
                   row.number("penalty", default=0) or 0)
            for row, date, start in zip(rows, dates_of(rows), starts_of(rows))]


def with_zeros(ids: Collection[str], known: Collection[str]) -> dict[str, str]:
    """The IDs that lost their leading zeros, each with the one that has them. One that is known is
    whole as it is."""
    whole: dict[str, list[str]] = {}
    for text in ids:
        if text[:1] == "0" and text.isascii() and text.isdigit():
            whole.setdefault(without_zeros(text), []).append(text)
    lost = {text for text in ids if text in whole and text not in known}
    return {text: whole[text][0] for text in lost if len(whole[text]) == 1}


def read_enrolments(rows: list[Row], codes: Known | None, known_ids: Collection[str],
                    session: Session) -> int:
    """Reads the names of students by ID, and the exams of each; returns how many IDs had lost their
    zeros."""
    named_on: dict[str, int] = {}
    mended = with_zeros({row.get("student") for row in rows}, known_ids)
    pairs = 0
    for row in rows:
        text, exam = row.text("student"), number_of(row, "exam", codes, "exam")
        student, name = mended.get(text, text), row.one_line("name")
        known = session.names.setdefault(student, name) if name else name
        if known != name:
            row.fault("name", f"student {text!r} is {known!r} on line {named_on[student]}")
        elif name:
            named_on.setdefault(student, row.line)
        taken = session.enrolments.setdefault(student, set())
        pairs += exam not in taken
        taken.add(exam)
        if pairs == MOST_PAIRS + 1:
            row.fault("student", f"there are more than {MOST_PAIRS} enrolments")
    return len(mended)


def known_unless(unread: bool, numbers: Mapping[str, int]) -> Known | None:
    """The numbers that names have. What names something of a file that can't be read isn't a second
    fault."""
    return None if unread else Known(numbers)


def read_session(folder: pathlib.Path, wanted: Wanted, faults: Faults,
                 known_ids: Collection[str] = ()) -> Session:
    """The session in the CSV files of a folder; it counts only if there is no fault."""
    tables = tables_in(folder, wanted, faults)
    unread = {name for name in COLUMNS if faults.are_of(f"{name}.csv")}
    session = Session()
    seen: dict[str, int] = {}
    kinds = sorted_rules(tables["rules"].rows)
    for row in kinds["text"]:
        row.new("rule", seen)
        session.texts[row.get("rule").lower()] = row.text("a")
    session.limits = read_limits(kinds[LIMIT])
    session.departments = read_departments(kinds["department"])
    session.weights = read_weights(kinds["weight"], seen)
    departments = known_unless("rules" in unread, session.departments)
    session.exams = read_exams(tables["exams"].rows, departments)
    codes = known_unless("exams" in unread, {
        exam.code: number for number, exam in reversed([*enumerate(session.exams)])})
    session.rooms = read_rooms(tables["rooms"].rows)
    session.periods = read_periods(tables["periods"].rows)
    mended = read_enrolments(tables["enrolments"].rows, codes, known_ids, session)
    session.period_rules, session.room_rules = (
        rule_lines(kinds["rule"], words, codes) for words in (PERIOD_RULES, ROOM_RULES))
    session.notes = [f"{name}.csv is read as {table.encoding}" for name, table in tables.items()
                     if not re.match("utf-8|$", table.encoding)]
    zeros = mended + len(codes.mended if codes else ())
    if zeros:
        session.notes.append(f"IDs and codes that had lost their leading zeros: {zeros:,}")
    return session


def warnings_of(session: Session) -> list[str]:
    """What a session can't hold as it is, or what is likely forgotten; none of it is a fault."""
    sizes = [0] * len(session.exams)
    for exams in session.enrolments.values():
        for number in exams:
            sizes[number] += 1
    largest = max(room.capacity for room in session.rooms)
    longest = max(period.minutes for period in session.periods)
    found = []
    for exam, size in zip(session.exams, sizes):
        place = f"exams.csv, line {exam.line}: {exam.code}"
        if size > largest:
            found.append(f"{place} has {count(size, 'candidate')}, and the largest room "
                         f"{count(largest, 'seat')}")
        if exam.minutes > longest:
            found.append(f"{place} takes {exam.minutes} minutes, and the longest period {longest}")
        if not size and session.enrolments:
            found.append(f"{place} has no student")
    if not session.enrolments:
        found.append("enrolments.csv has only its header: no exam has a student")
    most = len(session.periods)
    found += [f"enrolments.csv: {student} has {len(exams)} exams in {count(most, 'period')}"
              for student, exams in session.enrolments.items() if len(exams) > most]
    return found


def count(number: int, one: str) -> str:
    return f"{number:,} {one}{'' if number == 1 else 's'}"


def summary_of(session: Session) -> list[str]:
    """The sizes of a session, and what was noticed when it was read."""
    sizes = ((len(session.exams), "exam"), (len(session.enrolments), "student"),
             (session.pairs(), "enrolment"), (len(session.periods), "period"),
             (len(session.rooms), "room"))
    return [", ".join(count(*size) for size in sizes), *session.notes]
