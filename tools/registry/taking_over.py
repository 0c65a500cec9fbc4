"""A session that was made without a ledger: its three files become a ledger."""
from __future__ import annotations

import json
import pathlib
from collections.abc import Iterable
from typing import Any

from .csv_tables import Faults
from .ledger import Ledger
from .office import Office
from .session import TEXTS, Exam, Period, Room, Session


def sections_of(text: str) -> list[list[str]]:
    """The lines of the six sections of a session's file."""
    sections: list[list[str]] = []
    for line in text.splitlines():
        if line.startswith("["):
            sections.append([])
        elif line.strip():
            sections[-1].append(", ".join(field.strip() for field in line.split(",")))
    return sections


def session_in(text: str) -> tuple[Session, list[set[int]]]:
    """The session of a file, without names, and the candidates of each exam."""
    exams, periods, rooms, period_rules, room_rules, weights = sections_of(text)
    session = Session(period_rules=period_rules, room_rules=room_rules,
                      weights=[line.replace(", ", ",") for line in weights])
    candidates = []
    for line in exams:
        minutes, *students = line.split(", ")
        session.exams.append(Exam("", "", int(minutes), None))
        candidates.append({int(student) for student in students})
    for line in periods:
        date, start, minutes, penalty = line.split(", ")
        session.periods.append(Period("-".join(reversed(date.split(":"))), start, int(minutes),
                                      int(penalty)))
    for line in rooms:
        capacity, penalty = line.split(", ")
        session.rooms.append(Room("", "", int(capacity), int(penalty)))
    return session, candidates


def names_twice(file: str, what: str, names: Iterable[str], faults: Faults) -> None:
    seen = set()
    for name in names:
        if name in seen:
            faults.add(file, None, None, f"two {what} are called {name!r}")
        seen.add(name)


def add_labels(session: Session, labels: dict[str, Any], faults: Faults) -> None:
    """Gives a session the names of its labels, if these are of the same session."""
    known = {"exams": [exam.minutes for exam in session.exams],
             "rooms": [room.capacity for room in session.rooms],
             "periods": [(period.date, period.start) for period in session.periods]}
    found = {"exams": [exam["minutes"] for exam in labels["exams"]],
             "rooms": [room["capacity"] for room in labels["rooms"]],
             "periods": [(period["date"], period["start"]) for period in labels["periods"]]}
    for what, facts in known.items():
        if facts != found[what]:
            faults.add("labels.json", None, None, f"its {what} are not those of session.exam")
    if faults.lines:
        return
    session.texts = {name: labels.get(name, "") for name in TEXTS}
    session.departments = {name: int(number) for number, name in labels["departments"].items()}
    for exam, label in zip(session.exams, labels["exams"]):
        exam.code, exam.title, exam.department = label["code"], label["title"], label["department"]
    for room, label in zip(session.rooms, labels["rooms"]):
        room.name, room.building = label["name"], label["building"]
    names_twice("labels.json", "exams", (exam.code for exam in session.exams), faults)
    names_twice("labels.json", "rooms", (room.name for room in session.rooms), faults)


def take_over(folder: pathlib.Path, path: pathlib.Path, office: Office | None, faults: Faults
              ) -> Ledger | None:
    """A ledger in a new file, of the files of names in a folder and of the session's file there, or
    of what an office has loaded; None with a fault."""
    try:
        texts = {name: (folder / name).read_text(encoding="utf-8")
                 for name in ("labels.json", "students.json")}
        session, candidates = session_in(office.ask("GET", "/instance") if office else (
            folder / "session.exam").read_text(encoding="utf-8"))
        students = json.loads(texts["students.json"])["students"]
        add_labels(session, json.loads(texts["labels.json"]), faults)
    except (OSError, ValueError, KeyError, TypeError) as fault:
        faults.lines.append(f"{folder} has no session that can be taken over: {fault}")
        return None
    ids = {student["number"]: student["id"] for student in students}
    names_twice("students.json", "students", (student["id"] for student in students), faults)
    for number in sorted(set().union(*candidates) - ids.keys()):
        faults.add("students.json", None, None, f"candidate {number} of session.exam has no ID")
    if faults.lines:
        return None
    session.names = {student["id"]: student["name"] for student in students}
    for exam, taking in enumerate(candidates):
        for number in taking:
            session.enrolments.setdefault(ids[number], set()).add(exam)
    ledger = Ledger.made_at(path)
    ledger.add_session(session, {student: number for number, student in ids.items()})
    return ledger
