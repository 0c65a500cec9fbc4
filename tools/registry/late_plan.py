"""What a file of late changes comes to: a plan, with what to look at before it is sent."""
from __future__ import annotations

import dataclasses
import hashlib
import json
from collections import Counter
from collections.abc import Iterable

from .changes import LIST, Change, Made, Pair, base_pairs, changes_here
from .late_file import Late, Said
from .ledger import Ledger
from .session import count

MOST_NAMED = 10


@dataclasses.dataclass
class Plan:
    """What a file changes, and what of it is left as it is."""

    late: Late
    changes: list[Change] = dataclasses.field(default_factory=list)
    # What changes some enrolments, and what doesn't.
    added: list[Pair] = dataclasses.field(default_factory=list)
    dropped: list[Pair] = dataclasses.field(default_factory=list)
    already: list[Change] = dataclasses.field(default_factory=list)
    kept: dict[Pair, Made] = dataclasses.field(default_factory=dict)
    # How many enrolments a list has.
    listed: int = 0
    # Students who had exams and have none then.
    without: list[int] = dataclasses.field(default_factory=list)

    def digest(self) -> str:
        """Returns the digest of what would be sent, and of what it would do."""
        late = self.late
        told = [late.kind, [dataclasses.astuple(one) for one in self.changes], self.added,
                self.dropped, sorted((*pair, made.action) for pair, made in self.kept.items()),
                *(sorted(named.items()) for named in (late.new, late.names, late.longer)),
                sorted((student, said.name) for student, said in late.strangers.items())]
        return hashlib.sha256(json.dumps(told).encode()).hexdigest()


@dataclasses.dataclass(frozen=True)
class Guard:
    """A reason to look again before a plan is sent: in words, with the first that it is about."""

    name: str
    words: str
    first: list[str] = dataclasses.field(default_factory=list)

    def __str__(self) -> str:
        return f"{self.words}{': ' if self.first else ''}{', '.join(self.first)}"


def first_named(names: Iterable[str], number: int) -> list[str]:
    """Returns the first of some names, and how many more there are."""
    first = [name for name, _ in zip(names, range(MOST_NAMED))]
    more = number - len(first)
    return [*first, *([f"and {more:,} more"] if more else [])]


# ---- The plan

def plan_of(late: Late, ledger: Ledger, found: set[Pair], take_all: bool = False) -> Plan:
    """Returns what brings the office from these enrolments to those of a file. The ledger gets its
    new students, names and IDs; the caller keeps them, or not."""
    ledger.add_new_students(late.new)
    numbers = ledger.numbers()
    plan = Plan(late)
    if late.kind == LIST:
        plan_list(plan, ledger, numbers, found, take_all)
    else:
        plan.changes = [Change(numbers[student], exam, action)
                        for (student, exam), action in sorted(late.actions.items())]
    for change in plan.changes:
        pair = change.student, change.exam
        if (pair in found) == (change.action == "add"):
            plan.already.append(change)
        else:
            (plan.added if change.action == "add" else plan.dropped).append(pair)
    losing = {student for student, _ in plan.dropped} - {student for student, _ in plan.added}
    left = found - set(plan.dropped)
    plan.without = sorted(losing - {student for student, _ in left})
    ledger.rename_students(late.names, late.longer)
    return plan


def plan_list(plan: Plan, ledger: Ledger, numbers: dict[str, int], found: set[Pair],
              take_all: bool) -> None:
    """Plans what brings the office to a whole list. What was changed here stays, unless all is
    taken; so do students who are somebody else in the ledger."""
    late = plan.late
    strange = {numbers[student] for student in late.strangers if student in numbers}
    wanted = {(numbers[student], exam) for (student, exam), action in late.actions.items()
              if action == "add"}
    wanted = {pair for pair in wanted if pair[0] not in strange} | {
        pair for pair in found if pair[0] in strange}
    base, here, changes = base_pairs(ledger), changes_here(ledger), []
    plan.listed = len(wanted)
    for pair in sorted(wanted ^ found):
        if (pair in found) != (pair in base) and not take_all and pair in here:
            plan.kept[pair] = here[pair]
        else:
            changes.append(pair)
    # What was changed here and is in the list now as well: the office has it, and the lists too.
    changes += sorted(pair for pair in (base ^ found) - (wanted ^ found) if pair[0] not in strange)
    plan.changes = [Change(*pair, "add" if pair in wanted else "drop") for pair in changes]


# ---- What to look at

def guards_of(plan: Plan, ledger: Ledger, found: set[Pair], last_ended: bool = False
              ) -> list[Guard]:
    """Returns what isn't sent before somebody has looked at it. The last line of the last list may
    have ended."""
    students = ledger.db.execute("SELECT count(*) FROM students").fetchone()[0] - len(plan.late.new)
    guards = [*guards_of_list(plan, ledger, found, students)] if plan.late.kind == LIST else []
    if plan.late.kind == LIST and last_ended and not plan.late.ends:
        guards.append(Guard("end", "the last line of the list has no end, and that of the last "
                                   "list had one"))
    sizes = Counter(exam for _, exam in found)
    lost = Counter(exam for _, exam in plan.dropped)
    exams, limits = ledger.session().exams, ledger.limits()
    losing = [exam for exam, number in lost.most_common()
              if limits["exams"].is_passed(number, sizes[exam])]
    if losing:
        words = (f"{count(len(losing), 'exam')} would lose more than {limits['exams'].share()} of "
                 f"{'its' if len(losing) == 1 else 'their'} candidates")
        guards.append(Guard("exams", words, first_named(
            (f"{exams[exam].code} {lost[exam]:,} of {sizes[exam]:,}" for exam in losing),
            len(losing))))
    if limits["students"].is_passed(len(plan.without), students):
        guards.append(Guard("students", f"{count(len(plan.without), 'student')} would have no exam "
                            "any more", first_named(names_of(ledger, plan.without),
                                                    len(plan.without))))
    return guards


def guards_of_list(plan: Plan, ledger: Ledger, found: set[Pair], students: int
                   ) -> Iterable[Guard]:
    """Returns why a list may be another one, or a part of one."""
    last, limits = len(base_pairs(ledger)), ledger.limits()
    lacking = last - plan.listed
    if limits["shorter"].is_reached(lacking, last):
        yield Guard("shorter", f"the list is shorter than the last one by {lacking:,} of "
                               f"{count(last, 'enrolment')}, "
                               f"{limits['shorter'].share()} or more")
    for name, number, all_of_them, words in (
            ("drops", len(plan.dropped), len(found), "enrolments would be dropped"),
            ("new", len(plan.late.new), students, "students would be new")):
        if limits[name].is_passed(number, all_of_them):
            yield Guard(name, f"{number:,} of {all_of_them:,} {words}, more than "
                              f"{limits[name].share()}")


def names_of(ledger: Ledger, numbers: Iterable[int]) -> Iterable[str]:
    """Returns students in words."""
    people = {student.number: student for student in ledger.students()}
    return (f"{people[number].name or 'student'} ({people[number].id})" for number in numbers)


def strange_line(student: str, said: Said, name: str | None) -> str:
    """Returns, in words, that a student of a list is left as they are."""
    if name is None:
        return f"{student} has names of two people, {said.name} on line {said.line}: not entered"
    return f"{student} is {name}, not {said.name} as on line {said.line}: left as they are"


def report_of(plan: Plan, ledger: Ledger) -> dict[str, list[str]]:
    """Returns what a plan leaves as it is and what it brings besides, in words, by what it is."""
    exams, late = ledger.session().exams, plan.late
    people = {student.number: student for student in ledger.students()}
    ids = {student.id: student for student in people.values()}
    return {
        "notes": late.notes,
        "kept": [f"{exams[exam].code} of {people[student].name or 'student'} "
                 f"({people[student].id}), {'added' if made.action == 'add' else 'dropped'}, is "
                 f"kept: {made.words()}" for (student, exam), made in plan.kept.items()],
        "strangers": [strange_line(student, said, ids[student].name if student in ids else None)
                      for student, said in late.strangers.items()],
        "names": [f"{late.longer.get(student, student)} is {name} now"
                  for student, name in late.names.items()],
        "IDs": [f"{student} is {longer} now" for student, longer in late.longer.items()],
        "without an exam": [f"{name} has no exam any more"
                            for name in names_of(ledger, plan.without)]}


def counts_of(plan: Plan) -> str:
    """What a plan changes, in words."""
    return (f"{len(plan.added):,} to add, {len(plan.dropped):,} to drop, "
            f"{count(len(plan.late.new), 'new student')}, {len(plan.kept):,} kept")
