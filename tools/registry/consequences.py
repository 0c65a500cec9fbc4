"""What a plan of late changes does to a timetable: who would have two exams at one time or no seat
yet, and which rooms would become too small."""
from __future__ import annotations

import dataclasses

from .changes import Change, Pair
from .judging import Place, judged_session
from .late_plan import Plan
from .office import Instance, Office


@dataclasses.dataclass
class Crowded:
    """A room with fewer seats than candidates."""

    room: int
    period: int
    needed: int


@dataclasses.dataclass
class Consequences:
    """What a timetable breaks after some changes, as far as these make it so."""

    overlaps: list[tuple[int, int, int]] = dataclasses.field(default_factory=list)
    rooms: list[Crowded] = dataclasses.field(default_factory=list)
    # How many enrolments get their seat with the next publication.
    seatless: int = 0


def consequences_of(plan: Plan, office: Office, draft: int | None) -> Consequences:
    """Returns what the changes of a plan do to a draft or to the publication."""
    changes = [Change(*pair, "add") for pair in plan.added] + [
        Change(*pair, "drop") for pair in plan.dropped]
    places, instance, breaches = judged_session(office, draft, changes)
    pairs = Instance(instance).pairs
    grown = {exam for _, exam in plan.added}
    return Consequences(
        overlaps_of(plan.added, pairs, [(one["exam"], one["other"]) for one in breaches
                                        if one["rule"] == "Clash"]),
        rooms_of({one["exam"] for one in breaches if one["rule"] == "Capacity"}, grown, places,
                 pairs),
        sum(places[exam] is not None for _, exam in plan.added) if draft is None else 0)


def overlaps_of(added: list[Pair], pairs: set[Pair], clashes: list[tuple[int, int]]
                ) -> list[tuple[int, int, int]]:
    """Returns each student who is added to one of two exams at one time, with both exams."""
    of_exam: dict[int, list[tuple[int, int]]] = {}
    for clash in clashes:
        for exam in clash:
            of_exam.setdefault(exam, []).append(clash)
    return [*dict.fromkeys(
        (student, *clash) for student, exam in added for clash in of_exam.get(exam, [])
        if all((student, one) in pairs for one in clash))]


def rooms_of(crowded: set[int], grown: set[int], places: list[Place], pairs: set[Pair]
             ) -> list[Crowded]:
    """Returns the rooms that are too small, if an exam there grows."""
    sizes = [0] * len(places)
    for _, exam in pairs:
        sizes[exam] += 1
    exams_at: dict[tuple[int, int], list[int]] = {}
    for exam, place in enumerate(places):
        if place is not None:
            exams_at.setdefault(place, []).append(exam)
    return [Crowded(room, period, sum(sizes[exam] for exam in exams))
            for (period, room), exams in sorted(exams_at.items())
            if crowded.intersection(exams) and grown.intersection(exams)]
