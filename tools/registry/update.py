"""A further export of a session: what is known keeps its number, names are brought up to date."""
from __future__ import annotations

import dataclasses
from collections import Counter
from collections.abc import Iterable

from .csv_tables import Faults, Known
from .ledger import Ledger
from .session import Exam, Period, Room, Session, count

NEXT = "a session that is made can't change so; tools/next_session makes the next one"


@dataclasses.dataclass
class Update:
    """What a further export brought."""

    titles: int = 0
    names: int = 0
    students: int = 0
    mended: int = 0
    added: int = 0
    dropped: int = 0

    def lines(self) -> list[str]:
        """What was done, in words."""
        done = [f"{count(self.titles, 'title')} and {count(self.names, 'name')} brought up to "
                f"date, {count(self.students, 'new student')}"]
        if self.mended:
            done.append(f"IDs that were known with other leading zeros: {self.mended:,}")
        if self.added or self.dropped:
            done.append(f"{count(self.added, 'enrolment')} more and {self.dropped:,} fewer than "
                        "the office should have: send them as late changes "
                        "(tools/changes_from_csv)")
        return done


def compare_codes(file: str, what: str, known: Iterable[str], found: Iterable[str],
                  faults: Faults) -> None:
    """A code that is new or missing is a fault."""
    before, after = dict.fromkeys(known), dict.fromkeys(found)
    for words, codes, others in (("new", after, before), ("missing", before, after)):
        for code in codes:
            if code not in others:
                faults.add(file, None, None, f"{what} {code} is {words}: {NEXT}")


def periods_by_time(periods: Iterable[Period]) -> dict[str, Period]:
    """Periods by date and start; of several at one time each has its place among them."""
    seen: Counter[str] = Counter()
    named = {}
    for period in periods:
        key = f"{period.date} {period.start[:5]}"
        seen[key] += 1
        named[key if seen[key] == 1 else f"{key} ({seen[key]})"] = period
    return named


def compare_facts(file: str, code: str, fact: str, known: int, found: int, faults: Faults) -> None:
    if known != found:
        faults.add(file, None, None,
                   f"{code}: {fact} is {known} in the session, not {found}: {NEXT}")


def compare_sessions(known: Session, found: Session, faults: Faults) -> None:
    """Faults for all that a session can't change once it is made."""
    exams = {exam.code: exam for exam in known.exams}
    rooms = {room.name: room for room in known.rooms}
    periods = periods_by_time(known.periods)
    times = periods_by_time(found.periods)
    compare_codes("exams.csv", "exam", exams, (exam.code for exam in found.exams), faults)
    compare_codes("rooms.csv", "room", rooms, (room.name for room in found.rooms), faults)
    compare_codes("periods.csv", "period", periods, times, faults)
    for exam in found.exams:
        if exam.code in exams:
            compare_facts("exams.csv", exam.code, "minutes", exams[exam.code].minutes, exam.minutes,
                          faults)
    for room in found.rooms:
        if room.name in rooms:
            for fact in ("capacity", "penalty"):
                compare_facts("rooms.csv", room.name, fact, getattr(rooms[room.name], fact),
                              getattr(room, fact), faults)
    for time, period in times.items():
        if time in periods:
            for fact in ("minutes", "penalty"):
                compare_facts("periods.csv", time, fact, getattr(periods[time], fact),
                              getattr(period, fact), faults)
    compare_departments(known.departments, found.departments, faults)


def compare_departments(known: dict[str, int], found: dict[str, int], faults: Faults) -> None:
    """Faults for departments with another number, or with the number of another one."""
    names = {number: name for name, number in known.items()}
    for name, number in found.items():
        if name in known and known[name] != number:
            faults.add("rules.csv", None, None, f"department {name} has the number {known[name]} "
                       f"in the session, not {number}: a department keeps its number and its name")
        elif names.get(number, name) != name:
            faults.add("rules.csv", None, None, f"department {number} is {names[number]} in the "
                       f"session, not {name}: a department keeps its number and its name")


def compare_rules(known: Session, found: Session, faults: Faults) -> None:
    """Rules in another order are the same; `found` names exams by the known numbers."""
    for kind in ("period_rules", "room_rules", "weights"):
        lines, others = Counter(getattr(known, kind)), Counter(getattr(found, kind))
        for line in (others - lines).elements():
            faults.add("rules.csv", None, None, f"{in_codes(line, known)} is new: {NEXT}")
        for line in (lines - others).elements():
            faults.add("rules.csv", None, None, f"{in_codes(line, known)} is missing: {NEXT}")


def in_codes(line: str, session: Session) -> str:
    """A rule as rules.csv has it."""
    first, _, rest = line.partition(", ")
    if not rest:
        return line
    word, _, other = rest.partition(", ")
    codes = [session.exams[int(number)].code for number in (first, other) if number]
    return ",".join([word, *codes])


def with_numbers_of(known: Session, found: Session) -> dict[int, int]:
    """The known number of each exam of an export."""
    numbers = {exam.code: number for number, exam in enumerate(known.exams)}
    return {place: numbers[exam.code] for place, exam in enumerate(found.exams)}


def renumbered(line: str, numbers: dict[int, int]) -> str:
    """A rule with other numbers of exams."""
    return ", ".join(str(numbers[int(part)]) if part.isdigit() else part
                     for part in line.split(", "))


def bring_up_to_date(ledger: Ledger, found: Session, faults: Faults, is_asked: bool = False
                     ) -> Update:
    """Takes a further export into the ledger. With a fault nothing may be kept of it. New students
    get numbers whether or not an office was asked which ones it has."""
    known, update = ledger.session(), Update()
    compare_sessions(known, found, faults)
    if faults.lines:
        return update
    exams = with_numbers_of(known, found)
    for kind in ("period_rules", "room_rules"):
        setattr(found, kind, [renumbered(line, exams) for line in getattr(found, kind)])
    compare_rules(known, found, faults)
    update.titles = update_titles(ledger, known, found)
    update_people(ledger, found, exams, faults, update, is_asked)
    return update


def update_titles(ledger: Ledger, known: Session, found: Session) -> int:
    """Brings titles, departments and buildings up to date; returns how many have changed."""
    ledger.add_departments({name: number for name, number in found.departments.items()
                            if name not in known.departments})
    exams = {exam.code: exam for exam in known.exams}
    rooms = {room.name: room for room in known.rooms}
    retitled: list[Exam] = [exam for exam in found.exams if (exam.title, exam.department) != (
        exams[exam.code].title, exams[exam.code].department)]
    moved: list[Room] = [room for room in found.rooms if room.building != rooms[room.name].building]
    ledger.db.executemany("UPDATE exams SET title = ?, department = ? WHERE code = ?", (
        (exam.title, exam.department, exam.code) for exam in retitled))
    ledger.db.executemany("UPDATE rooms SET building = ? WHERE name = ?", (
        (room.building, room.name) for room in moved))
    ledger.set_texts(found.texts)
    ledger.set_limits(found.limits)
    texts = sum(found.texts.get(name, "") != text for name, text in known.texts.items())
    return len(retitled) + len(moved) + texts


def update_people(ledger: Ledger, found: Session, exams: dict[int, int], faults: Faults,
                  update: Update, is_asked: bool) -> None:
    """Brings names up to date, gives new students their numbers, and compares the enrolments."""
    people = {student.id: student for student in ledger.students()}
    known = Known({student.id: student.number for student in people.values()})
    ids: dict[str, str] = {}
    for text in found.enrolments:
        ids[text] = known.text(text) or text
    clashes = Counter(ids.values())
    for text, student in ids.items():
        if clashes[student] > 1 and text != student:
            faults.add("enrolments.csv", None, "student", f"{text!r} and {student!r} are both "
                       "there; they differ in leading zeros only, so who is who is unknown")
    new = {student: found.names.get(text, "") for text, student in sorted(ids.items())
           if student not in people}
    renamed = [(name, student) for text, student in ids.items() if student in people
               and (name := found.names.get(text, "")) and name != people[student].name]
    ledger.db.executemany("UPDATE students SET name = ? WHERE id = ?", renamed)
    ledger.add_new_students(new, is_asked)
    update.names, update.students, update.mended = len(renamed), len(new), len(known.mended)
    numbers = ledger.numbers()
    wanted = {(numbers[ids[text]], exams[exam]) for text, taken in found.enrolments.items()
              for exam in taken}
    expected = ledger.expected_pairs()
    update.added, update.dropped = len(wanted - expected), len(expected - wanted)
    # An ID that has the zeros again which a spreadsheet had taken.
    ledger.rename_students({}, {student: text for text, student in ids.items()
                                if len(text) > len(student)})
