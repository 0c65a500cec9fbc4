"""Late changes of the registry's page: a file is answered with its plan, and sent with the plan's
digest. The plan is made again then, and another one is refused."""
from __future__ import annotations

import dataclasses
import json
from collections.abc import Callable, Collection
from typing import Any

from .changes import LIST, MARK, PAGE, is_taken, prepare
from .consequences import Consequences, consequences_of
from .csv_tables import Faults
from .folder import Folder
from .late_file import Late, read_late
from .late_plan import Guard, Plan, guards_of, plan_of, report_of
from .ledger import Ledger, locked
from .meeting import Meeting, send_noted
from .office import Office, Refused
from .sending import send_all

NAME, MOST_ROWS = "file", 200
Meet = Callable[[Ledger], Meeting]


@dataclasses.dataclass
class Asked:
    """A file of late changes, and what is asked about it."""

    kind: str
    content: bytes
    by: str
    # The timetable that is looked at: a draft, or the publication.
    draft: int | None = None
    # What is sent: the plan of this digest, made after this turn, under these numbers; and which of
    # its guards somebody has looked at.
    digest: str | None = None
    turn: int = 0
    number: int | None = None
    agreed: Collection[str] = ()


class Differs(Exception):
    """Why a plan isn't sent: it is another one by now. It has what was sent meanwhile."""

    def __init__(self, since: list[dict[str, Any]]) -> None:
        super().__init__("the plan is another one")
        self.since = since


# ---- What is said of a plan

def rows_of(ledger: Ledger) -> Callable[[int, int], dict[str, Any]]:
    """Returns what makes a row of a student and an exam."""
    people = {student.number: student for student in ledger.students()}

    def row(student: int, exam: int) -> dict[str, Any]:
        return {"id": people[student].id, "name": people[student].name, "exam": exam}

    return row


def said_of(plan: Plan, ledger: Ledger, met: Meeting, guards: list[Guard]) -> dict[str, Any]:
    """Returns what a plan does, with the first rows of each table and how many there are."""
    late, row = plan.late, rows_of(ledger)
    tables = {
        "new": [{"id": student, "name": name} for student, name in late.new.items()],
        "added": [row(*pair) for pair in plan.added[:MOST_ROWS]],
        "dropped": [row(*pair) for pair in plan.dropped[:MOST_ROWS]],
        "already": [{**row(one.student, one.exam), "action": one.action}
                    for one in plan.already[:MOST_ROWS]],
        "kept": [{**row(*pair), "action": made.action, "at": made.at, "by": made.by}
                 for pair, made in [*plan.kept.items()][:MOST_ROWS]]}
    report = report_of(plan, ledger)
    del report["kept"]
    return {
        "kind": late.kind, "digest": plan.digest(), "turn": last_turn(ledger), "said": met.said,
        "counts": {"new": len(late.new), "added": len(plan.added), "dropped": len(plan.dropped),
                   "already": len(plan.already), "kept": len(plan.kept),
                   "students_dropped": len({student for student, _ in plan.dropped})},
        **{name: rows[:MOST_ROWS] for name, rows in tables.items()},
        "report": [line for lines in report.values() for line in lines[:MOST_ROWS]],
        "guards": [dataclasses.asdict(guard) for guard in guards]}


def with_consequences(said: dict[str, Any], found: Consequences | None, draft: int | None,
                      row: Callable[[int, int], dict[str, Any]]) -> dict[str, Any]:
    """Returns what is said of a plan, with what it does to a draft or to the publication."""
    if found is None:
        return {**said, "timetable": None}
    return {**said, "timetable": {
        "draft": draft, "seatless": found.seatless,
        "overlaps": [{**row(student, exam), "other": other}
                     for student, exam, other in found.overlaps[:MOST_ROWS]],
        "rooms": [dataclasses.asdict(room) for room in found.rooms]}}


def last_turn(ledger: Ledger) -> int:
    """Returns when the last batch was sent, as a number."""
    turn: int = ledger.db.execute("SELECT ifnull(max(turn), 0) FROM batches").fetchone()[0]
    return turn


def sent_since(ledger: Ledger, turn: int) -> list[dict[str, Any]]:
    """Returns the batches that were sent after a turn: who sent them, when, and what they did."""
    return [dict(zip(("number", "by", "at", "added", "dropped"), row)) for row in ledger.db.execute(
        "SELECT number, prepared_by, sent_at, added, dropped FROM batches"
        " LEFT JOIN effects ON batch = number WHERE turn > ? AND source <> ? ORDER BY turn",
        (turn, MARK))]


def faults_said(faults: Faults) -> dict[str, Any]:
    """Returns the faults of a file, with their places."""
    return {"faults": [
        {"line": fault.line, "column": fault.column, "words": fault.words}
        for fault in faults.placed[:MOST_ROWS]], "count": len(faults.placed)}


# ---- Checking and sending

def answered(folder: Folder, office: Office, asked: Asked, meet: Meet) -> dict[str, Any]:
    """Returns the plan of a file, or its faults; or what was sent, if it was asked to send it."""
    with locked(folder.path):
        ledger = Ledger.opened_at(folder.ledger)
        try:
            faults = Faults()
            late = read_late(asked.content, NAME, asked.kind, ledger, faults)
            if faults.lines:
                return faults_said(faults)
            met = meet(ledger)
            if asked.digest:
                return sent(folder, ledger, office, late, met, asked)
            plan = plan_of(late, ledger, met.pairs)
            guards = guards_of(plan, ledger, met.pairs, folder.last_list_ended())
            said, row = said_of(plan, ledger, met, guards), rows_of(ledger)
        finally:
            # What the plan wrote isn't kept.
            ledger.close()
    try:
        found = consequences_of(plan, office, asked.draft)
    except (OSError, Refused):
        # The plan doesn't depend on it.
        found = None
    return with_consequences(said, found, asked.draft, row)


def sent(folder: Folder, ledger: Ledger, office: Office, late: Late, met: Meeting, asked: Asked
         ) -> dict[str, Any]:
    """Sends what was planned; a plan that is another one by now is refused."""
    plan = plan_of(late, ledger, met.pairs)
    guards = guards_of(plan, ledger, met.pairs, folder.last_list_ended())
    unseen = [guard.name for guard in guards if guard.name not in asked.agreed]
    if plan.digest() != asked.digest or unseen:
        raise Differs(sent_since(ledger, asked.turn))
    if asked.number is not None and is_taken(ledger, asked.number, plan.changes):
        raise Refused("the number is another batch's", 409, '{"error":"batch-differs"}')
    numbers = ledger.numbers()
    taking = {change.student for change in plan.changes if change.action == "add"}
    met.mark(ledger, {numbers[student] for student in late.new} - taking, asked.by)
    prepare(ledger, plan.changes, LIST if late.kind == LIST else PAGE, asked.by, asked.number)
    ledger.keep()
    done = {"added": 0, "dropped": 0, "unchanged": 0}
    batches = []
    try:
        send_noted(ledger, office, met)
        for number, reply in send_all(ledger, office):
            batches.append(number)
            for what, times in json.loads(reply).items():
                if what in done:
                    done[what] += times
    finally:
        if not folder.is_current(ledger):
            folder.refresh(ledger, asked.by)
    if late.kind == LIST:
        folder.note_list(late.ends)
    return {"sent": {**done, "batches": batches, "new": len(late.new)}, "said": met.said}
