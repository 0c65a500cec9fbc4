"""The limits of a session from which on late changes are looked at before they are sent."""
from __future__ import annotations

import dataclasses
import re
from collections.abc import Iterable
from decimal import Decimal

from .csv_tables import Row

PERCENT = re.compile(r"([0-9]{1,3})(?:[.,]([0-9]{1,3}))? ?%?")


@dataclasses.dataclass(frozen=True)
class Limit:
    """A share and a number, both of which have to be passed."""

    percent: Decimal
    number: int = 0

    def is_passed(self, number: int, all_of_them: int) -> bool:
        return number > self.number and 100 * number > self.percent * all_of_them

    def is_reached(self, number: int, all_of_them: int) -> bool:
        return number > self.number and 100 * number >= self.percent * all_of_them

    def share(self) -> str:
        return f"{self.percent.normalize():f} %"


# What a session has that says nothing else: how much shorter a list may be than the last one; how
# many enrolments it may drop, of all; how many students may be new, of all; how many candidates an
# exam may lose, of its own; and how many students may lose all their exams, of all.
USUAL = {"shorter": Limit(Decimal(5)), "drops": Limit(Decimal(10)), "new": Limit(Decimal(10)),
         "exams": Limit(Decimal(20), 5), "students": Limit(Decimal("0.2"), 10)}


def percent_in(text: str) -> Decimal | None:
    """Returns a share that somebody wrote, or None."""
    found = PERCENT.fullmatch(text)
    percent = Decimal(f"{found[1]}.{found[2] or 0}") if found else None
    return percent if percent is not None and percent <= 100 else None


def read_limits(rows: Iterable[Row]) -> dict[str, Limit]:
    """Returns the limits in lines such as `limit,exams,30,10`."""
    limits: dict[str, Limit] = {}
    seen: dict[str, int] = {}
    for row in rows:
        name, percent = row.new("a", seen), percent_in(row.get("b"))
        if name and name not in USUAL:
            row.fault("a", f"there is no limit {name!r}, only {', '.join(USUAL)}")
        if percent is None:
            row.fault("b", f"a share from 0 to 100 percent is expected, not {row.get('b')!r}")
        limits[name] = Limit(percent or Decimal(0), row.number("c", default=0) or 0)
    return limits
