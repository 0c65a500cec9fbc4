"""Batches on their way to an office: what they did is noted in the ledger. What the office took and
has no more, because it was restored, is sent again."""
from __future__ import annotations

import json
import re
from collections.abc import Iterable, Iterator

from .changes import (
    Effect, Pair, acting, changes_of, forget_unsent, mark_sent, note_effect, renumber, unsent,
)
from .ledger import Ledger, now
from .office import FINAL, Office, Refused

# A batch that does nothing: it names an exam that only the largest sessions have.
HARMLESS, MOST_EXAMS = b"student,exam,action\n0,1999,drop\n", 2_000
TIMETABLES = {"published": "/publication/penalty",
              **{f"{draft}": f"/drafts/{draft}/penalty" for draft in range(1, 9)}}


def points(office: Office) -> dict[str, int]:
    """The points of the publication and of each draft."""
    found = {}
    for name, path in TIMETABLES.items():
        try:
            total = re.search(r"^total ([0-9]+)$", office.ask("GET", path), re.M)
        except Refused as refusal:
            if refusal.status != 404:
                raise
            continue
        if total:
            found[name] = int(total[1])
    return found


def send_one(ledger: Ledger, office: Office, number: int, content: bytes) -> str:
    """Sends a batch that is in the ledger; returns the office's reply."""
    before, pairs = points(office), ledger.expected_pairs()
    reply = office.ask("PUT", f"/batches/{number}", content)
    mark_sent(ledger, number, now())
    note(ledger, office, number, reply, before, pairs)
    ledger.keep()
    return reply


def note(ledger: Ledger, office: Office, number: int, reply: str, before: dict[str, int],
         pairs: set[Pair]) -> None:
    """Notes what a batch did to these pairs. Which of its lines changed something is known only if
    that gives the counts of the reply: not if the office had other pairs."""
    counts = json.loads(reply)
    after = points(office)
    both = {name: [before[name], total] for name, total in after.items() if name in before}
    changes = changes_of(ledger, number)
    places = acting(changes, pairs)
    adds = sum(changes[place].action == "add" for place in places)
    is_known = (adds, len(places) - adds) == (counts["added"], counts["dropped"])
    note_effect(ledger, number, Effect(counts["added"], counts["dropped"], counts["unchanged"],
                                       both), places if is_known else ())


def send_all(ledger: Ledger, office: Office) -> Iterator[tuple[int, str]]:
    """Sends the batches that are prepared; returns their numbers, with the office's replies. A
    number that was used for another batch changes; a batch that the office refuses is forgotten,
    with all after it."""
    while batches := unsent(ledger):
        number, content = batches[0]
        try:
            yield number, send_one(ledger, office, number, content)
        except Refused as refusal:
            if refusal.error == "batch-differs":
                for other, _ in batches:
                    renumber(ledger, other)
                ledger.keep()
                continue
            if refusal.status in FINAL:
                forget_unsent(ledger)
                ledger.keep()
            raise


# ---- What an office lacks

def has_batch(office: Office, number: int, content: bytes) -> bool:
    """Returns whether an office has a batch, with these bytes. Asking changes nothing."""
    try:
        office.ask("PUT", f"/batches/{number}", HARMLESS)
    except Refused as refusal:
        if refusal.error not in ("batch-differs", "number"):
            raise
        is_there = refusal.error == "batch-differs"
    try:
        if is_there:
            office.ask("PUT", f"/batches/{number}", content)
    except Refused as refusal:
        if refusal.error != "batch-differs":
            raise
        return False
    return is_there


def lacking_batches(ledger: Ledger, office: Office, found: set[Pair]) -> list[int]:
    """Returns the batches that were sent and that the office lacks, oldest first: an office that
    was restored has those up to some moment. One with the most exams can't be asked for a batch, so
    all are lacking if its enrolments are others."""
    sent = [number for number, in ledger.db.execute(
        "SELECT number FROM batches WHERE turn IS NOT NULL AND bytes <> x'' ORDER BY turn")]
    if ledger.db.execute("SELECT count(*) FROM exams").fetchone()[0] >= MOST_EXAMS:
        return sent if ledger.expected_pairs() != found else []

    def is_there(place: int) -> bool:
        return has_batch(office, sent[place], bytes_of(ledger, sent[place]))

    first, last = 0, len(sent)
    if sent and is_there(last - 1):
        return []
    while first < last:
        middle = (first + last) // 2
        first, last = (middle + 1, last) if is_there(middle) else (first, middle)
    return sent[first:]


def bytes_of(ledger: Ledger, number: int) -> bytes:
    content: bytes = ledger.db.execute("SELECT bytes FROM batches WHERE number = ?",
                                       (number,)).fetchone()[0]
    return content


def send_again(ledger: Ledger, office: Office, numbers: Iterable[int]) -> Iterator[tuple[int, str]]:
    """Sends batches that were sent before; returns their numbers, with the office's replies. One
    whose number another batch has gets the next free one."""
    for number in numbers:
        while True:
            try:
                yield number, office.ask("PUT", f"/batches/{number}", bytes_of(ledger, number))
                break
            except Refused as refusal:
                if refusal.error != "batch-differs":
                    raise
                number = renumber(ledger, number)
                ledger.keep()
