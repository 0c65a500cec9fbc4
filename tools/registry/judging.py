"""Which rules a timetable breaks, by the program's command `check`.

The office reports the breaches of a draft, but none of the publication with today's enrolments, and
none of what late changes would do. It says what both are, and the program judges them.
"""
from __future__ import annotations

import json
import os
import pathlib
import subprocess
import tempfile
from collections.abc import Iterable
from typing import Any

from .changes import Change
from .office import Office, Refused
from .published import places_in

PROGRAM = os.environ.get("EXAMOFFICE", "examoffice")
SECONDS = 60
MOST_TRIES = 5
Place = tuple[int, int] | None


def breaches_of(instance: str, solution: str) -> list[dict[str, Any]]:
    """The breaches that the program finds: each a rule and two exams."""
    with tempfile.TemporaryDirectory() as name:
        path = pathlib.Path(name) / "timetable.sol"
        path.write_text(solution, newline="")
        try:
            ended = subprocess.run([PROGRAM, "check", "--json", "-", path], capture_output=True,
                                   input=instance.encode(), timeout=SECONDS, check=False)
        except subprocess.TimeoutExpired as fault:
            raise OSError(f"{fault}") from fault
    if ended.returncode not in (0, 3):
        raise OSError(f"{PROGRAM} check: {ended.stderr.decode(errors='replace').strip()}")
    found: list[dict[str, Any]] = json.loads(ended.stdout)["broken"]
    return found


def places_of_draft(office: Office, draft: int) -> list[Place]:
    exams = json.loads(office.ask("GET", f"/drafts/{draft}"))["exams"]
    return [None if one["period"] is None else (one["period"], one["room"]) for one in exams]


def places_and_instance(office: Office, draft: int | None) -> tuple[list[Place], str]:
    """Where the exams of a draft or of the publication are, and the session as it was meanwhile."""
    def places() -> list[Place]:
        return [*places_in(office.ask("GET", "/publication"))] if draft is None \
            else places_of_draft(office, draft)

    before = places()
    for _ in range(MOST_TRIES):
        instance, after = office.ask("GET", "/instance"), places()
        if after == before:
            return before, instance
        before = after
    raise Refused("the timetable changes all the time")


def changed(line: str, changes: list[Change]) -> str:
    """The line of an exam after some changes of its candidates."""
    minutes, *candidates = line.split(", ")
    students = set(map(int, candidates))
    for change in changes:
        if change.action == "add":
            students.add(change.student)
        else:
            students.discard(change.student)
    return ", ".join([minutes, *map(str, sorted(students))])


def after_changes(instance: str, places: list[Place], changes: Iterable[Change]) -> str:
    """A session after late changes, in which an exam without a place has no candidates."""
    of_exam: dict[int, list[Change]] = {}
    for change in changes:
        of_exam.setdefault(change.exam, []).append(change)
    lines = instance.split("\r\n")
    for exam, place in enumerate(places):
        line = lines[exam + 1]
        if place is None:
            lines[exam + 1] = line.partition(", ")[0]
        elif exam in of_exam:
            lines[exam + 1] = changed(line, of_exam[exam])
    return "\r\n".join(lines)


def judged_session(office: Office, draft: int | None, changes: list[Change]
                   ) -> tuple[list[Place], str, list[dict[str, Any]]]:
    """Returns the places of a draft or of the publication, the session after some changes, and what
    it then breaks: breaches between exams that have a place."""
    places, instance = places_and_instance(office, draft)
    if any(change.exam >= len(places) for change in changes):
        raise Refused("there is no such exam", 404, '{"error":"number"}')
    # The program wants a place for each exam. Without candidates it takes no seat in its place.
    solution = "".join(f"{period}, {room}\r\n" for period, room in (
        place or (0, 0) for place in places))
    then = after_changes(instance, places, changes)
    return places, then, [one for one in breaches_of(then, solution)
                          if places[one["exam"]] and places[one["other"]]]


def judged(office: Office, draft: int | None, changes: list[Change]) -> list[dict[str, Any]]:
    """The breaches of a draft, or of the publication, as they would be after some changes."""
    return judged_session(office, draft, changes)[2]
