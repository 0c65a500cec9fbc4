"""The session that follows one which is loaded: known numbers are kept, drafts are carried over."""
from __future__ import annotations

import dataclasses
from collections.abc import Iterable, Mapping

from .changes import LIST, PAGE, Change, add_batch, base_pairs, changes_here, mark_sent
from .csv_tables import Faults
from .ledger import MOST_STUDENT, Ledger
from .session import Exam, Period, Room, Session, count
from .update import compare_departments, renumbered

Pair = tuple[int, int]
# A period and a room; None where an exam is not placed.
Place = tuple[int, int] | None
MOST = {"exams": 2_000, "rooms": 200}
GONE = " (taken out)"


@dataclasses.dataclass
class Following:
    """What follows a session: its successor, and where the old periods and rooms are in it."""

    session: Session
    # The new number of each old period, and of each exam of the CSV files.
    periods: dict[int, int | None]
    exams: dict[int, int]
    taken_out: set[int] = dataclasses.field(default_factory=set)
    new: list[str] = dataclasses.field(default_factory=list)
    gone: list[str] = dataclasses.field(default_factory=list)

    def place(self, place: Place) -> Place:
        """Where an old place is now."""
        if place is None or not self.session.rooms[place[1]].capacity:
            return None
        period = self.periods[place[0]]
        return None if period is None else (period, place[1])


def followed_exams(known: list[Exam], found: list[Exam], following: Following) -> list[Exam]:
    """All exams: the known ones with their numbers, then the new ones. One that is gone stays
    without candidates and minutes, so that no other gets its number."""
    of_code = {exam.code: exam for exam in found}
    kept = [of_code.get(exam.code) or Exam(
        exam.code, f"{exam.title.removesuffix(GONE)}{GONE}", 0, exam.department) for exam in known]
    codes = {exam.code for exam in known}
    added = [exam for exam in found if exam.code not in codes]
    following.new += [f"exam {exam.code}" for exam in added]
    following.gone += [f"exam {exam.code}" for exam in known if exam.code not in of_code]
    following.taken_out = {number for number, exam in enumerate(known) if exam.code not in of_code}
    numbers = {exam.code: number for number, exam in enumerate([*kept, *added])}
    following.exams = {place: numbers[exam.code] for place, exam in enumerate(found)}
    return [*kept, *added]


def followed_rooms(known: list[Room], found: list[Room], following: Following) -> list[Room]:
    """All rooms: the known ones with their numbers, then the new ones. One that is gone stays
    without seats."""
    of_name = {room.name: room for room in found}
    kept = [of_name.get(room.name) or dataclasses.replace(room, capacity=0) for room in known]
    names = {room.name for room in known}
    added = [room for room in found if room.name not in names]
    following.new += [f"room {room.name}" for room in added]
    following.gone += [f"room {room.name}" for room in known if room.name not in of_name]
    return [*kept, *added]


def time_of(period: Period) -> str:
    return f"{period.date} {period.start[:5]}"


def followed_periods(known: list[Period], found: list[Period], moved: Mapping[str, str],
                     faults: Faults) -> dict[int, int | None]:
    """The new number of each old period; None if it is gone. Periods differ by date and
    start, and `moved` says which day another one has become."""
    places: dict[str, list[int]] = {}
    for number, period in enumerate(found):
        places.setdefault(time_of(period), []).append(number)
    dates = {period.date for period in known}
    for day in moved:
        if day not in dates:
            faults.lines.append(f"--moved {day}: the session has no period on this day")
    numbers: dict[int, int | None] = {}
    for number, period in enumerate(known):
        there = dataclasses.replace(period, date=moved.get(period.date, period.date))
        left = places.get(time_of(there), [])
        numbers[number] = left.pop(0) if left else None
    return numbers


def follow(ledger: Ledger, found: Session, moved: Mapping[str, str], faults: Faults) -> Following:
    """The session that follows the one of a ledger, by new CSV files."""
    known = ledger.session()
    following = Following(found, followed_periods(known.periods, found.periods, moved, faults), {})
    exams = followed_exams(known.exams, found.exams, following)
    rooms = followed_rooms(known.rooms, found.rooms, following)
    compare_departments(known.departments, found.departments, faults)
    for what, number in (("exams", len(exams)), ("rooms", len(rooms))):
        if number > MOST[what]:
            faults.lines.append(f"with those that were taken out there are {number:,} {what}, and "
                                f"{MOST[what]:,} are allowed")
    for kind in ("period_rules", "room_rules"):
        setattr(found, kind, [renumbered(line, following.exams) for line in getattr(found, kind)])
    following.gone += [f"period {time_of(known.periods[number])}"
                       for number, to in following.periods.items() if to is None]
    found.exams, found.rooms = exams, rooms
    return following


def enrolments_after(known: int, following: Following, office: set[Pair],
                     numbers: Mapping[str, int], from_csv: Mapping[str, set[int]]) -> set[Pair]:
    """The enrolments of the next session: the office's, and those of the CSV files in exams that
    are not among the known ones."""
    kept = {(student, exam) for student, exam in office if exam not in following.taken_out}
    new = {(numbers[student], following.exams[exam]) for student, taken in from_csv.items()
           for exam in taken if following.exams[exam] >= known}
    return kept | new


def make_ledger(old: Ledger, new: Ledger, following: Following, pairs: set[Pair],
                students: Mapping[int, tuple[str, str]]) -> None:
    """Writes the ledger of the next session: its students have these IDs and names."""
    session = following.session
    session.names = {student: name for student, name in students.values()}
    session.enrolments = {}
    for number, exam in pairs:
        session.enrolments.setdefault(students[number][0], set()).add(exam)
    new.add_session(session, {student: number for number, (student, _) in students.items()})
    new.db.executemany("INSERT INTO users VALUES (?, ?)", old.users())
    keep_changes_here(old, new, pairs)


def keep_changes_here(old: Ledger, new: Ledger, pairs: set[Pair]) -> None:
    """Takes over what was changed here, so that the next list of the student system leaves it."""
    differing = base_pairs(old) ^ old.expected_pairs()
    for place, (pair, made) in enumerate(changes_here(old).items()):
        if pair in differing and (pair in pairs) == (made.action == "add"):
            other = "drop" if made.action == "add" else "add"
            for number, source, by, action in (
                    (-2 * place - 1, LIST, "the lists", other),
                    (-2 * place - 2, PAGE, made.by, made.action)):
                add_batch(new, number, b"", source, by, [Change(*pair, action)])
                mark_sent(new, number, "" if source == LIST else made.at)


def students_after(ledger: Ledger, found: Session, ids: Iterable[str]
                   ) -> dict[int, tuple[str, str]]:
    """The ID and the name of each student: the known ones with their numbers, then new ones."""
    students = {one.number: (one.id, found.names.get(one.id) or one.name)
                for one in ledger.students()}
    known = {student for student, _ in students.values()}
    number = max(students, default=-1)
    for student in sorted(set(ids) - known):
        number += 1
        if number > MOST_STUDENT:
            raise ValueError("there is no number left for a new student")
        students[number] = (student, found.names.get(student, ""))
    return students


# ---- Who would be moved, and whose seats would change

@dataclasses.dataclass(frozen=True)
class Seat:
    """A row of a publication."""

    student: int
    exam: int
    period: int
    room: int
    seat: int


def seats_in(text: str) -> list[Seat]:
    """The rows of the office's seat list."""
    return [Seat(*map(int, line.split(","))) for line in text.splitlines()[1:]]


def seats_after(pairs: set[Pair], places: Mapping[int, Place]) -> dict[Pair, int]:
    """The seat of each enrolment in the first publication of these places: in each room and period
    by exam and then by student."""
    taken: dict[tuple[int, int], int] = {}
    seats: dict[Pair, int] = {}
    for exam, student in sorted((exam, student) for student, exam in pairs):
        place = places.get(exam)
        if place:
            taken[place] = taken.get(place, 0) + 1
            seats[(student, exam)] = taken[place]
    return seats


def moves_of(old: Session, following: Following, seats: list[Seat], pairs: set[Pair]
             ) -> tuple[dict[tuple[int, str], list[int]], list[tuple[Seat, int]]]:
    """Whose exam is no longer where it was, by exam and by why; and whose seat only is another."""
    new = following.session
    moved: dict[tuple[int, str], list[int]] = {}
    places = {row.exam: following.place((row.period, row.room)) for row in seats}
    after = seats_after(pairs, places)
    changed = []
    for row in seats:
        if (row.student, row.exam) not in pairs:
            continue
        place, was = places[row.exam], old.periods[row.period]
        if place is None:
            gone = following.periods[row.period] is None
            why = f"has no period: {time_of(was)} is gone" if gone else \
                f"has no room: {old.rooms[row.room].name} is gone"
            moved.setdefault((row.exam, why), []).append(row.student)
        elif time_of(new.periods[place[0]]) != time_of(was):
            why = f"is on {time_of(new.periods[place[0]])}, not on {time_of(was)}"
            moved.setdefault((row.exam, why), []).append(row.student)
        elif after[(row.student, row.exam)] != row.seat:
            changed.append((row, after[(row.student, row.exam)]))
    return moved, changed


def lines_of_moves(following: Following, students: Mapping[int, tuple[str, str]],
                   moved: Mapping[tuple[int, str], list[int]],
                   changed: list[tuple[Seat, int]]) -> tuple[list[str], list[str]]:
    """Both in words: a line for each exam with its candidates, and one for each seat."""
    exams = following.session.exams

    def person(number: int) -> str:
        student, name = students[number]
        return f"{name} ({student})" if name else student

    moves = [f"{exams[exam].code} {why}; {count(len(numbers), 'candidate')}: "
             f"{', '.join(person(number) for number in sorted(numbers)[:5])}"
             f"{' and others' if len(numbers) > 5 else ''}"
             for (exam, why), numbers in sorted(moved.items())]
    seats = [f"{person(row.student)}, {exams[row.exam].code}: seat {seat}, not {row.seat}"
             for row, seat in changed]
    return moves, seats
