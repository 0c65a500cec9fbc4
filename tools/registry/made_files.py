"""The files that are made of a ledger: for the office, for the pages, for the front."""
from __future__ import annotations

import hashlib
import json
import re
from collections.abc import Collection, Iterator, Mapping
from typing import Any

from .changes import base_pairs, changes_here
from .ledger import Ledger, now
from .session import TEXTS, WEIGHTS, Session

MOST_BYTES = 4_194_304
ENCODED = json.JSONEncoder(ensure_ascii=False).encode
JSON_END = re.compile(r'^"digest": "([0-9a-f]{64})"\}\n\Z', re.M)
PLAIN_END = re.compile(r"^# digest ([0-9a-f]{64})\n\Z", re.M)


def student_numbers(ids: Collection[str]) -> dict[str, int]:
    """The number of each student of a new session: the digits of their ID if all have 1 to 9 of
    them, no two the same; otherwise their place in the order of IDs."""
    digits = {student: "".join(re.findall("[0-9]", student)) for student in ids}
    numbers = {student: int(text) for student, text in digits.items() if 1 <= len(text) <= 9}
    if len(set(numbers.values())) == len(digits):
        return numbers
    return {student: number for number, student in enumerate(sorted(ids))}


def session_text(session: Session, candidates: Mapping[int, Collection[int]],
                 weights: Collection[str]) -> str:
    """The session's file, with these candidates of each exam and these lines of weights."""
    lines = [f"[Exams:{len(session.exams)}]"]
    lines += [", ".join(map(str, [exam.minutes, *sorted(candidates.get(number, ()))]))
              for number, exam in enumerate(session.exams)]
    lines.append(f"[Periods:{len(session.periods)}]")
    lines += [f"{':'.join(reversed(period.date.split('-')))}, {period.start}, {period.minutes}, "
              f"{period.penalty}" for period in session.periods]
    lines.append(f"[Rooms:{len(session.rooms)}]")
    lines += [f"{room.capacity}, {room.penalty}" for room in session.rooms]
    lines += ["[PeriodHardConstraints]", *session.period_rules, "[RoomHardConstraints]",
              *session.room_rules, "[InstitutionalWeightings]", *weights]
    return "".join(f"{line}\n" for line in lines)


def candidates_of(pairs: Collection[tuple[int, int]]) -> dict[int, list[int]]:
    """The candidates of each exam."""
    candidates: dict[int, list[int]] = {}
    for student, exam in pairs:
        candidates.setdefault(exam, []).append(student)
    return candidates


def frame_of(session: Session) -> list[str]:
    """The lines of a session without its candidates, as the office writes them."""
    known = dict(line.split(",", 1) for line in session.weights)
    weights = [f"{word},{known.get(word) or ','.join(['0'] * numbers)}"
               for word, numbers in WEIGHTS.items() if word != "OVERNIGHT" or
               known.get(word, "0") != "0"]
    return session_text(session, {}, weights).splitlines()


def lines_of_json(value: Mapping[str, Any]) -> str:
    """A text of JSON with a line for each item of a list."""
    parts = []
    for name, part in value.items():
        if isinstance(part, list) and part:
            items = ",\n".join(map(ENCODED, part))
            parts.append(f"{ENCODED(name)}: [\n{items}]")
        else:
            parts.append(f"{ENCODED(name)}: {ENCODED(part)}")
    return "{" + ",\n".join(parts) + "}\n"


def digest_of(text: str) -> str:
    return hashlib.sha256(text.encode()).hexdigest()


def sealed_json(value: Mapping[str, Any], state: str) -> str:
    """A text of JSON with the digests of the ledger's state and of its own lines at its end."""
    text = lines_of_json({**value, "ledger": state, "digest": ""}).rpartition('"digest"')[0]
    return f'{text}"digest": "{digest_of(text)}"}}\n'


def sealed_plain(text: str, state: str) -> str:
    """A text with comments that have these two digests at its end."""
    text = f"{text}# ledger {state}\n"
    return f"{text}# digest {digest_of(text)}\n"


def is_sealed(text: str) -> bool | None:
    """Whether a file's digest is that of its lines; None if it was made of no ledger."""
    found = JSON_END.search(text) or PLAIN_END.search(text)
    if not found:
        return False if state_in(text) else None
    return digest_of(text[:found.start()]) == found[1]


def state_in(text: str) -> str | None:
    """The digest of the ledger's state of which a file was made."""
    found = re.search(r'^(?:"ledger": "|# ledger )([0-9a-f]{64})', text, re.M)
    return found[1] if found else None


def labels_of(session: Session) -> dict[str, Any]:
    """Names for everybody who is signed in."""
    return {
        **{name: session.texts.get(name, "") for name in TEXTS},
        "departments": {str(number): name for name, number in session.departments.items()},
        "exams": [{"code": exam.code, "title": exam.title, "minutes": exam.minutes,
                   "department": exam.department} for exam in session.exams],
        "rooms": [{"name": room.name, "building": room.building, "capacity": room.capacity}
                  for room in session.rooms],
        "periods": [{"date": period.date, "start": period.start, "minutes": period.minutes}
                    for period in session.periods]}


def students_of(ledger: Ledger, session: Session) -> dict[str, Any]:
    """For the office only: who each number is, and what ties these names to the office: the exams
    of each, and the session's lines."""
    exams: dict[int, list[int]] = {}
    for student, exam in sorted(ledger.expected_pairs()):
        exams.setdefault(student, []).append(exam)
    students = [{"number": student.number, "id": student.id, "name": student.name,
                 "exams": exams.get(student.number, [])} for student in ledger.students()]
    return {"here": changed_here(ledger), "students": students, "session": frame_of(session)}


def changed_here(ledger: Ledger) -> list[dict[str, Any]]:
    """The enrolments that differ from the student system's last list, because they were changed
    here."""
    differing = base_pairs(ledger) ^ ledger.expected_pairs()
    return [{"student": pair[0], "exam": pair[1], "action": made.action, "at": made.at,
             "by": made.by} for pair, made in changes_here(ledger).items() if pair in differing]


def sizes_text(ledger: Ledger, state: str) -> str:
    """For the office and departments: how many candidates each exam has, and when they were
    counted."""
    sizes = [0] * len(ledger.session().exams)
    for _, exam in ledger.expected_pairs():
        sizes[exam] += 1
    return sealed_json({"at": now(), "sizes": sizes}, state)


def session_file(ledger: Ledger, session: Session) -> str:
    """The session's file as it was made, for the office to load."""
    return session_text(session, candidates_of(ledger.loaded_pairs()), session.weights)


def students_text(ledger: Ledger, state: str) -> str:
    return sealed_json(students_of(ledger, ledger.session()), state)


def files_of(ledger: Ledger, state: str) -> Iterator[tuple[str, str]]:
    """All files that are made of a ledger, by their names."""
    session = ledger.session()
    yield "session.exam", session_file(ledger, session)
    yield "labels.json", sealed_json(labels_of(session), state)
    yield "students.json", students_text(ledger, state)
    yield "sizes.json", sizes_text(ledger, state)
    for student in ledger.students():
        yield f"names/{student.number}.json", sealed_json(
            {"number": student.number, "id": student.id, "name": student.name}, state)
    users = ledger.users()
    if users:
        lines = "".join(f"{name} {caller};\n" for name, caller in users)
        yield "callers", sealed_plain(lines, state)
