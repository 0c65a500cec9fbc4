"""A ledger meets its office: whether they belong together, which of them is older, and what is sent
again. A number that only the office has is nobody's in the ledger, and is given to nobody."""
from __future__ import annotations

import dataclasses
import datetime
import json
from collections.abc import Iterable

from .changes import (
    OTHER, Change, Made, changes_of, counts_in, differences, mark_numbers, mark_sent,
    note_changes_of_others, unsent,
)
from .folder import Folder
from .history import History
from .ledger import Ledger, Student, now, user
from .logged import Log, Logged, settle, unknown_batches
from .office import Office, Pair, Refused, faults_of_enrolments, faults_of_frame
from .sending import lacking_batches, send_again, send_all
from .session import count

MOST_PAIRS = 10
UNKNOWN = "unknown-"
ADVICE = "put the newer ledger back, or say --adopt"
SOMEBODY = "somebody on the registry's page"


@dataclasses.dataclass
class Meeting:
    """What came of a meeting, or would come of it."""

    pairs: set[Pair]
    faults: list[str] = dataclasses.field(default_factory=list)
    # That the ledger is older than its office, or may be; and what was sent.
    warnings: list[str] = dataclasses.field(default_factory=list)
    said: list[str] = dataclasses.field(default_factory=list)
    # The ledger's batches that the office lacks, and those that note what others changed.
    lacking: list[int] = dataclasses.field(default_factory=list)
    noted: list[int] = dataclasses.field(default_factory=list)
    # The batches of the front's log that the ledger lacks.
    unknown: list[Logged] = dataclasses.field(default_factory=list)

    def of_programs(self) -> list[Logged]:
        """Returns the batches that only a newer ledger has."""
        return [one for one in self.unknown if one.is_of_a_program()]

    def mark(self, ledger: Ledger, students: Iterable[int], by: str) -> None:
        """Notes that these students have their numbers, if the office has no exam of them."""
        seen = {student for student, _ in self.pairs}
        self.noted += mark_numbers(ledger, sorted(set(students) - seen), by)

    def faults_of_new(self, new: int) -> list[str]:
        """Returns why new students get no numbers."""
        return [f"no number for {count(new, 'new student')} while the ledger lacks batches that "
                f"the office took; {ADVICE}"] if new and self.of_programs() else []


def moment_of(text: str) -> datetime.datetime:
    return datetime.datetime.fromisoformat(text)


# ---- Numbers that the ledger doesn't know

def seated(office: Office) -> set[int]:
    """Returns the students who have a seat in the publication."""
    try:
        text = office.ask("GET", "/publication/seats")
    except Refused as refusal:
        if refusal.error != "publication":
            raise
        return set()
    return {int(line.partition(",")[0]) for line in text.splitlines()[1:]}


def in_history(folder: Folder) -> set[int]:
    """Returns the students who had a seat in a publication that the history keeps."""
    history = History(folder.path)
    if not history.path.exists():
        return set()
    with history.reading() as db:
        return {number for number, in db.execute("SELECT DISTINCT student FROM seats")}


def numbers_by_place(folder: Folder, office: Office | None, pairs: set[Pair]
                     ) -> dict[str, set[int]]:
    """Returns the students whom somebody knows, by where they are known."""
    return {"the office": {student for student, _ in pairs} | (seated(office) if office else set()),
            "history.db": in_history(folder)}


def unknown_numbers(ledger: Ledger, known: dict[str, set[int]], unknown: list[Logged]
                    ) -> dict[int, str]:
    """Returns the numbers that the ledger doesn't have, or gave while no office was asked, with
    where they are. If all that the ledger doesn't know was sent later, it was sent to who has the
    number by then."""
    given = set(ledger.numbers().values())
    first = min((moment_of(one.at) for one in unknown), default=None)
    given -= {number for number, since in ledger.db.execute(
        "SELECT number, unasked_since FROM students WHERE unasked_since IS NOT NULL")
        if first is None or first < moment_of(since)}
    return {number: place for place, numbers in reversed(known.items())
            for number in sorted(numbers - given)}


def faults_of_numbers(ledger: Ledger, unknown: dict[int, str], pairs: set[Pair]) -> list[str]:
    """A fault for each number that the ledger doesn't know."""
    exams = ledger.session().exams
    people = {one.number: one for one in ledger.students()}
    faults = []
    for number, place in sorted(unknown.items()):
        taken = sorted(exams[exam].code for student, exam in pairs if student == number)
        codes = f" ({', '.join(taken[:MOST_PAIRS])})" if taken else ""
        said = f"{place} has the number {number}{codes}, which the ledger doesn't know"
        if number in people:
            said = (f"{place} has the number {number}{codes}, which the ledger gave to "
                    f"{people[number].id} while no office was asked")
        faults.append(f"{said}: {ADVICE}")
    return faults


def faults_of_history(folder: Folder, ledger: Ledger) -> list[str]:
    """Returns a fault for each number that the history knows and the ledger doesn't."""
    unknown = unknown_numbers(ledger, numbers_by_place(folder, None, set()), [])
    return faults_of_numbers(ledger, unknown, set())


def adopt_numbers(ledger: Ledger, unknown: dict[int, str]) -> list[str]:
    """Takes numbers into the ledger as those of unknown people. Whoever got one of them while no
    office was asked gets another one."""
    people = {one.number: one for one in ledger.students()}
    free = (number for number in ledger.free_numbers() if number not in unknown)
    said = []
    for number in sorted(unknown):
        if number in people:
            other = next(free)
            ledger.db.execute("UPDATE students SET number = ? WHERE number = ?", (other, number))
            ledger.db.execute("UPDATE users SET caller = ? WHERE caller = ?",
                              (f"cand:{other}", f"cand:{number}"))
            said.append(f"{people[number].id} has the number {other}, not {number}")
        ledger.add_students([Student(number, f"{UNKNOWN}{number}", "")])
        said.append(f"the number {number} is taken over as {UNKNOWN}{number}")
    ledger.reserve_numbers()
    return said


def mark_unasked(ledger: Ledger, met: Meeting) -> None:
    """Notes that the office was asked for all numbers."""
    unasked = {number for number, in ledger.db.execute(
        "SELECT number FROM students WHERE unasked_since IS NOT NULL")}
    met.mark(ledger, unasked, user())
    ledger.db.execute("UPDATE students SET unasked_since = NULL WHERE unasked_since IS NOT NULL")


# ---- Which of them is older

def likely_pairs(ledger: Ledger, lacking: list[int]) -> set[Pair]:
    """Returns the enrolments that an office has at least, if it lacks these batches. What is
    prepared may be there or not."""
    before = None
    if lacking:
        before, = ledger.db.execute("SELECT turn FROM batches WHERE number = ?",
                                    (lacking[0],)).fetchone()
    return ledger.expected_pairs(before) - {
        (change.student, change.exam) for number, _ in unsent(ledger)
        for change in changes_of(ledger, number)}


def made_by(unknown: list[Logged]) -> Made:
    """Returns who made what others changed: the last line of the log that the ledger doesn't know,
    or somebody."""
    if not unknown:
        return Made("", now(), SOMEBODY)
    return Made("", unknown[-1].at, unknown[-1].by, unknown[-1].number)


def named(ledger: Ledger, changes: Iterable[Change]) -> str:
    """Returns how many enrolments differ, and the first of them, in words."""
    exams, changes = ledger.session().exams, [*changes]
    people = {one.number: one.id for one in ledger.students()}
    first = [f"{exams[one.exam].code} of {people.get(one.student, one.student)} "
             f"{'added' if one.action == 'add' else 'dropped'}" for one in changes[:MOST_PAIRS]]
    more = " .." if len(changes) > MOST_PAIRS else ""
    return f"{len(changes):,} enrolment{' differs' if len(changes) == 1 else 's differ'}" + (
        f": {', '.join(first)}{more}" if first else "")


def warnings_of(ledger: Ledger, met: Meeting, changes: list[Change], has_log: bool) -> list[str]:
    """Says that a ledger is older than its office, or may be."""
    lacking = met.of_programs()
    if lacking:
        numbers = [one.number for one in lacking]
        noted = ledger.db.execute(
            f"SELECT number FROM batches WHERE source = ? AND logged IN"
            f" ({','.join('?' * len(numbers))})", (OTHER, *numbers)).fetchall()
        earlier = [change for number, in noted for change in changes_of(ledger, number)]
        day = moment_of(lacking[-1].at)
        others = f" and {len(lacking) - 1:,} more" if lacking[1:] else ""
        return [f"warning: the ledger is older than its office, which took batch "
                f"{numbers[-1]}{others}, by the front's log from {lacking[-1].by} on {day.day} "
                f"{day:%B}; {named(ledger, [*earlier, *changes])}"]
    if changes and not met.unknown:
        why = "which no line of the front's log explains" if has_log else "and there is no log"
        return [f"warning: the ledger may be older than its office: {named(ledger, changes)}, "
                f"{why}"]
    return []


# ---- The meeting

def look(folder: Folder, ledger: Ledger, office: Office, log: Log, is_adopted: bool = False
         ) -> Meeting:
    """Returns whether a ledger and an office belong together, and what the office lacks. Nothing is
    sent or written, unless numbers are adopted."""
    # A line that is written later is about a change that the office has by then.
    unknown = unknown_batches(ledger, log)
    instance = office.instance()
    met = Meeting(instance.pairs, faults_of_frame(ledger, instance), unknown=unknown)
    if met.faults:
        return met
    met.lacking = lacking_batches(ledger, office, met.pairs)
    numbers = unknown_numbers(ledger, numbers_by_place(folder, office, met.pairs), unknown)
    if is_adopted:
        met.said += adopt_numbers(ledger, numbers)
    else:
        met.faults += faults_of_enrolments(ledger.session(), likely_pairs(ledger, met.lacking),
                                           met.pairs)
        met.faults += faults_of_numbers(ledger, numbers, met.pairs)
    prepared = [number for number, _ in unsent(ledger)]
    changes = differences(after_batches(ledger, ledger.expected_pairs(), prepared),
                          after_batches(ledger, met.pairs, [*met.lacking, *prepared]))
    met.warnings = warnings_of(ledger, met, changes, log.path is not None)
    return met


def after_batches(ledger: Ledger, pairs: set[Pair], numbers: Iterable[int]) -> set[Pair]:
    """Returns what some enrolments are after some batches of the ledger."""
    pairs = set(pairs)
    for number in numbers:
        for change in changes_of(ledger, number):
            (pairs.add if change.action == "add" else pairs.discard)((change.student, change.exam))
    return pairs


def note_differences(ledger: Ledger, met: Meeting, log: Log, is_adopted: bool = False) -> None:
    """Notes what others changed, by the log, and whether the ledger is older than its office."""
    changes = differences(ledger.expected_pairs(), met.pairs)
    if changes and not met.unknown:
        met.unknown = unknown_batches(ledger, log)
    met.warnings = warnings_of(ledger, met, changes, log.path is not None)
    met.noted = note_changes_of_others(ledger, met.pairs, made_by(met.unknown))
    settled = [one for one in met.unknown if is_adopted or not one.is_of_a_program()]
    settle(ledger, settled)
    met.unknown = [one for one in met.unknown if one not in settled]
    mark_unasked(ledger, met)


def show(folder: Folder, ledger: Ledger, office: Office, log: Log) -> Meeting:
    """Returns what a meeting would come to. Nothing is sent, and nothing of it may be kept."""
    met = look(folder, ledger, office, log)
    if not met.faults:
        prepared = [number for number, _ in unsent(ledger)]
        met.pairs = after_batches(ledger, met.pairs, [*met.lacking, *prepared])
        for number in prepared:
            mark_sent(ledger, number, now())
        note_differences(ledger, met, log)
    return met


def meet(folder: Folder, ledger: Ledger, office: Office, log: Log, is_adopted: bool = False
         ) -> Meeting:
    """Sends again what the office lacks of a ledger, then what was prepared and not sent, and notes
    what others changed. The caller keeps what is noted, and then sends it by `send_noted`."""
    met = look(folder, ledger, office, log, is_adopted)
    if met.faults:
        return met
    sent = [(number, "sent again", reply)
            for number, reply in send_again(ledger, office, met.lacking)]
    sent += [(number, "sent", reply) for number, reply in send_all(ledger, office)]
    met.said += [f"batch {number} is {how}: {counts_in(reply)}" for number, how, reply in sent
                 if how == "sent" or has_acted(reply)]
    if sent:
        met.pairs = office.instance().pairs
    note_differences(ledger, met, log, is_adopted)
    return met


def has_acted(reply: str) -> bool:
    counts = json.loads(reply)
    return bool(counts["added"] or counts["dropped"])


def send_noted(ledger: Ledger, office: Office, met: Meeting) -> None:
    """Sends the batches that note what others changed, which change nothing in the office."""
    for _ in send_again(ledger, office, met.noted):
        pass
