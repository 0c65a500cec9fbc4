"""What is on lists of a publication: which rooms and periods, who sits there, in which order."""
from __future__ import annotations

import dataclasses
import pathlib

from .history import Row
from .ledger import Ledger
from .paper import module
from .published import Published, day_in_words
from .session import Period, Room, Session


@dataclasses.dataclass
class People:
    """IDs and names of students, and keys by which names are sorted."""

    ids: dict[int, str]
    names: dict[int, str]
    keys: dict[int, bytes]

    @classmethod
    def of(cls, ledger: Ledger) -> People:
        icu = module("icu")
        key = icu.Collator.createInstance(icu.Locale.getRoot()).getSortKey
        students = ledger.students()
        return cls({one.number: one.id for one in students},
                   {one.number: one.name for one in students},
                   {one.number: key(one.name) for one in students})

    def id(self, number: int) -> str:
        return self.ids.get(number, f"{number}")

    def name(self, number: int) -> str:
        return self.names.get(number, "")

    def by_name(self, row: Row) -> tuple[bytes, str, int]:
        return self.keys.get(row[0], b""), self.id(row[0]), row[1]


@dataclasses.dataclass
class Sheet:
    """The seats of a room in a period, by seat."""

    period: int
    room: int
    seats: list[Row]

    def exams(self) -> list[int]:
        return sorted({row[1] for row in self.seats})


def joined(words: list[str], sign: str) -> str:
    return sign.join(word for word in words if word)


def later(start: str, minutes: int) -> str:
    """The time so many minutes after a start."""
    hours, passed = divmod(int(start[:2]) * 60 + int(start[3:5]) + minutes, 60)
    return f"{hours % 24:02}:{passed:02}"


@dataclasses.dataclass(frozen=True)
class Part:
    """Of which part of a session lists are: of a day, of the periods that begin then, of a building
    or a room, by their names; of all, where it says nothing."""

    day: str | None = None
    start: str | None = None
    building: str | None = None
    room: str | None = None

    def has(self, period: Period, room: Room) -> bool:
        return (self.day in (None, period.date) and self.start in (None, period.start[:5])
                and self.building in (None, room.building) and self.room in (None, room.name))


@dataclasses.dataclass
class Lists:
    """What all lists of a publication share."""

    session: Session
    people: People
    published: Published
    sheets: list[Sheet]
    part: Part
    paper: str

    @classmethod
    def of(cls, path: pathlib.Path, published: Published, part: Part, paper: str) -> Lists:
        """The lists of a publication, with the names of a ledger."""
        ledger = Ledger.read_at(path)
        try:
            made = cls(ledger.session(), People.of(ledger), published, [], part, paper)
        finally:
            ledger.close()
        made.sheets = made.all_sheets()
        return made

    def has(self, period: int, room: int) -> bool:
        """Whether the lists are of a period and a room."""
        return self.part.has(self.session.periods[period], self.session.rooms[room])

    def all_sheets(self) -> list[Sheet]:
        """A sheet for each room in each period, by period, building and room."""
        seats: dict[tuple[int, int], list[Row]] = {}
        for row in sorted(self.published.rows, key=lambda row: row[4]):
            seats.setdefault((row[2], row[3]), []).append(row)
        rooms = self.session.rooms
        order = sorted(seats, key=lambda place: (place[0], rooms[place[1]].building, place[1]))
        return [Sheet(*place, seats[place]) for place in order if self.has(*place)]

    # ---- In words

    def title(self) -> str:
        return joined([self.session.texts.get(name, "") for name in ("university", "title")], " · ")

    def room(self, number: int) -> str:
        room = self.session.rooms[number]
        return joined([room.name, room.building], ", ")

    def when(self, number: int) -> str:
        period = self.session.periods[number]
        return f"{day_in_words(period.date)}, {period.start[:5]}"

    def short_day(self, number: int) -> str:
        weekday, day, month, year = day_in_words(self.session.periods[number].date).split()
        return f"{weekday[:3]} {day} {month[:3]} {year}"

    def times(self, exam: int, period: int) -> str:
        start = self.session.periods[period].start
        return f"{start[:5]} – {later(start, self.session.exams[exam].minutes)}"
