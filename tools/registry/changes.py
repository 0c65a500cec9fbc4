"""Late changes of enrolments in the ledger, and their batches."""
from __future__ import annotations

import dataclasses
import datetime
import json
from collections.abc import Iterable, Iterator

from .ledger import Ledger, now

HEADER = b"student,exam,action\n"
MOST_BATCH, MOST_NUMBER = 1_048_576, 999_999_999
# Where changes come from: a whole list, whoever sends it; a registrar's lines, by the tool or on
# the registry's page; or another way than by these. What marks numbers that were given changes
# nothing.
LIST, HAND, PAGE, OTHER, MARK = "list", "hand", "page", "other", "mark"
Pair = tuple[int, int]


@dataclasses.dataclass(frozen=True)
class Change:
    """An enrolment that is added or dropped."""

    student: int
    exam: int
    action: str


@dataclasses.dataclass(frozen=True)
class Made:
    """A change that was made here, with when and by whom."""

    action: str
    at: str
    by: str
    # The number of the batch in the front's log, if these tools didn't send it.
    logged: int | None = None

    def words(self) -> str:
        day = datetime.datetime.fromisoformat(self.at)
        batch = "" if self.logged is None else f", batch {self.logged}"
        return f"changed here on {day.day} {day:%B} by {self.by}{batch}"


@dataclasses.dataclass
class Effect:
    """What a batch did, and the points of each timetable before and after it."""

    added: int
    dropped: int
    unchanged: int
    points: dict[str, list[int]]


# ---- What the ledger knows

def base_pairs(ledger: Ledger) -> set[Pair]:
    """The enrolments as the student system's lists left them."""
    pairs = ledger.loaded_pairs()
    for student, exam, action in ledger.db.execute(
            "SELECT student, exam, action FROM changes JOIN batches ON batch = number"
            " WHERE source = ? AND turn IS NOT NULL ORDER BY turn, place", (LIST,)):
        (pairs.add if action == "add" else pairs.discard)((student, exam))
    return pairs


def changes_here(ledger: Ledger) -> dict[Pair, Made]:
    """The last change of each enrolment that no full list made."""
    return {(student, exam): Made(*made) for student, exam, *made in ledger.db.execute(
        "SELECT student, exam, action, sent_at, prepared_by, logged FROM changes"
        " JOIN batches ON batch = number WHERE source NOT IN (?, ?) AND turn IS NOT NULL"
        " ORDER BY turn, place", (LIST, MARK))}


def differences(expected: set[Pair], found: set[Pair]) -> list[Change]:
    """Returns what brings some enrolments to others."""
    return [*(Change(*pair, "add") for pair in sorted(found - expected)),
            *(Change(*pair, "drop") for pair in sorted(expected - found))]


def note_changes_of_others(ledger: Ledger, found: set[Pair], made: Made) -> list[int]:
    """Notes what the office has and the ledger doesn't expect; returns the numbers of its batches.
    The office gets these as well: they change nothing there, but a copy of it from before lacks
    them."""
    numbers = prepare(ledger, differences(ledger.expected_pairs(), found), OTHER, made.by)
    for number in numbers:
        mark_sent(ledger, number, made.at)
        ledger.db.execute("UPDATE batches SET logged = ? WHERE number = ?", (made.logged, number))
        taken = changes_of(ledger, number)
        adds = sum(change.action == "add" for change in taken)
        note_effect(ledger, number, Effect(adds, len(taken) - adds, 0, {}), range(len(taken)))
    return numbers


def mark_numbers(ledger: Ledger, numbers: Iterable[int], by: str) -> list[int]:
    """Notes numbers of students without an exam as batches that change nothing; returns these
    batches' numbers. In the office and the front's log they show that the numbers were given."""
    batches = prepare(ledger, [Change(number, 0, "drop") for number in numbers], MARK, by)
    for number in batches:
        mark_sent(ledger, number, now())
    return batches


# ---- Batches in the ledger

def add_batch(ledger: Ledger, number: int, content: bytes, source: str, by: str,
              changes: Iterable[Change]) -> None:
    ledger.db.execute("INSERT INTO batches (number, bytes, source, prepared_at, prepared_by)"
                      " VALUES (?, ?, ?, ?, ?)", (number, content, source, now(), by))
    ledger.db.executemany("INSERT INTO changes VALUES (?, ?, ?, ?, ?)", (
        (number, place, change.student, change.exam, change.action)
        for place, change in enumerate(changes)))


def mark_sent(ledger: Ledger, number: int, at: str) -> None:
    """Notes when a batch was sent, and that it was sent after all others."""
    ledger.db.execute(
        "UPDATE batches SET sent_at = ?, turn = (SELECT ifnull(max(turn), 0) + 1 FROM batches)"
        " WHERE number = ?", (at, number))


def note_effect(ledger: Ledger, number: int, effect: Effect, acted: Iterable[int]) -> None:
    """Notes what a batch did, and which of its lines changed something."""
    ledger.db.execute("INSERT OR REPLACE INTO effects VALUES (?, ?, ?, ?, ?)", (
        number, effect.added, effect.dropped, effect.unchanged, json.dumps(effect.points)))
    ledger.db.executemany("INSERT OR REPLACE INTO acted VALUES (?, ?)", (
        (number, place) for place in acted))


def changes_of(ledger: Ledger, number: int) -> list[Change]:
    """The lines of a batch, in order."""
    return [Change(*row) for row in ledger.db.execute(
        "SELECT student, exam, action FROM changes WHERE batch = ? ORDER BY place", (number,))]


def acting(changes: Iterable[Change], pairs: set[Pair]) -> list[int]:
    """Which of some lines change something in these pairs, which then are those after them."""
    places = []
    for place, change in enumerate(changes):
        pair = change.student, change.exam
        if (pair in pairs) != (change.action == "add"):
            (pairs.add if change.action == "add" else pairs.discard)(pair)
            places.append(place)
    return places


def unsent(ledger: Ledger) -> list[tuple[int, bytes]]:
    """The batches that are still to be sent, in order."""
    return ledger.db.execute("SELECT number, bytes FROM batches WHERE sent_at IS NULL"
                             " ORDER BY number").fetchall()


def forget_unsent(ledger: Ledger) -> None:
    ledger.db.execute("DELETE FROM changes WHERE batch IN"
                      " (SELECT number FROM batches WHERE sent_at IS NULL)")
    ledger.db.execute("DELETE FROM batches WHERE sent_at IS NULL")


def renumber(ledger: Ledger, number: int) -> int:
    """Gives a batch the next number that the ledger has not used."""
    last: int = ledger.db.execute("SELECT max(number) FROM batches").fetchone()[0]
    for table, column in (("batches", "number"), ("changes", "batch"), ("effects", "batch"),
                          ("acted", "batch")):
        ledger.db.execute(f"UPDATE {table} SET {column} = ? WHERE {column} = ?", (last + 1, number))
    return last + 1


def first_number(ledger: Ledger, moment: datetime.datetime) -> int:
    """A number of nine digits for a batch: year, month, day, hour and minute; above all others."""
    last: int = ledger.db.execute("SELECT max(number) FROM batches").fetchone()[0] or 0
    return max(int(f"{moment:%Y%m%d%H%M}"[3:]), last + 1)


def in_batches(changes: list[Change]) -> Iterator[tuple[bytes, list[Change]]]:
    """Changes as batches that are short enough for the office, drops first."""
    lines, taken, size = [HEADER], list[Change](), len(HEADER)
    for change in sorted(changes, key=lambda one: one.action != "drop"):
        line = f"{change.student},{change.exam},{change.action}\n".encode()
        if size + len(line) > MOST_BATCH:
            yield b"".join(lines), taken
            lines, taken, size = [HEADER], [], len(HEADER)
        lines.append(line)
        taken.append(change)
        size += len(line)
    if taken:
        yield b"".join(lines), taken


def prepare(ledger: Ledger, changes: list[Change], source: str, by: str, first: int | None = None
            ) -> list[int]:
    """Writes the batches of changes into the ledger; returns their numbers, which are in a row from
    this one on."""
    batches = [*in_batches(changes)]
    if first is None:
        first = first_number(ledger, datetime.datetime.now())
    for number, (content, taken) in enumerate(batches, first):
        add_batch(ledger, number, content, source, by, taken)
    return [*range(first, first + len(batches))]


def is_taken(ledger: Ledger, first: int, changes: list[Change]) -> bool:
    """Returns whether a batch has one of the numbers that these changes would have."""
    last = first + sum(1 for _ in in_batches(changes)) - 1
    found: int = ledger.db.execute("SELECT count(*) FROM batches WHERE number BETWEEN ? AND ?",
                                   (first, last)).fetchone()[0]
    return found > 0


def counts_in(reply: str) -> str:
    """What a batch did, in words."""
    counts = json.loads(reply)
    return ", ".join(f"{counts[what]:,} {what}" for what in ("added", "dropped", "unchanged"))
