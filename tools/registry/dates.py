"""Dates and times of a CSV column, in one of the forms that spreadsheets write."""
from __future__ import annotations

import datetime
import re

from .csv_tables import Row

FORMS = {"2027-05-14": re.compile(r"(?P<year>\d{4})-(?P<a>\d\d)-(?P<b>\d\d)"),
         "14/05/2027": re.compile(r"(?P<a>\d{1,2})/(?P<b>\d{1,2})/(?P<year>\d{4})"),
         "14.05.2027": re.compile(r"(?P<a>\d{1,2})\.(?P<b>\d{1,2})\.(?P<year>\d{4})")}
TIME = re.compile(r"(\d{1,2})[:.]([0-5]\d)(?:[:.]([0-5]\d))?(?:\s*([ap])\.?m\.?)?", re.I)
MONTHS = ("January", "February", "March", "April", "May", "June", "July", "August", "September",
          "October", "November", "December")


def form_of(value: str) -> str | None:
    return next((form for form, pattern in FORMS.items() if pattern.fullmatch(value)), None)


def numbers_of(form: str, value: str) -> tuple[int, int, int]:
    """The year, and the two other numbers of a date as they come."""
    found = FORMS[form].fullmatch(value)
    assert found
    return int(found["year"]), int(found["a"]), int(found["b"])


def in_words(month: int, day: int) -> str:
    return f"{day} {MONTHS[month - 1]}"


def dates_of(rows: list[Row]) -> list[datetime.date | None]:
    """The date of each row. A file has one form, and says by one date at least which of two numbers
    is the month."""
    form, first = next(((form_of(row.get("date")), row) for row in rows
                        if form_of(row.get("date"))), (None, None))
    is_month_first = form == "2027-05-14" or form == "14/05/2027" and has_month_first(form, rows)
    return [date_of(row, form, first, is_month_first) for row in rows]


def has_month_first(form: str, rows: list[Row]) -> bool:
    """Whether dates have the month first, as 05/14/2027. If none shows it, that is a fault."""
    dated = [(row, *numbers_of(form, row.get("date"))) for row in rows
             if form_of(row.get("date")) == form]
    if any(a > 12 for _, _, a, _ in dated):
        return False
    if any(b > 12 for _, _, _, b in dated):
        return True
    unsure = [(row, a, b) for row, _, a, b in dated if a != b and 0 < a <= 12 and 0 < b <= 12]
    for row, a, b in unsure[:1]:
        others = f", and so could {len(unsure) - 1} others of this file" if unsure[1:] else ""
        row.fault("date", f"{row.get('date')!r} could be {in_words(b, a)} or {in_words(a, b)}"
                          f"{others}; write the year first (2027-05-14)")
    return False


def date_of(row: Row, form: str | None, first: Row | None, is_month_first: bool
            ) -> datetime.date | None:
    """A row's date, or None with a fault."""
    value = row.text("date")
    if not value:
        return None
    own = form_of(value)
    if own and first and own != form:
        row.fault("date", f"a date such as {first.get('date')} on line {first.line} is expected, "
                          f"not {value!r}")
        return None
    try:
        if not own:
            raise ValueError
        year, a, b = numbers_of(own, value)
        return datetime.date(year, *((a, b) if is_month_first else (b, a)))
    except ValueError:
        row.fault("date", f"a date such as 2027-05-14, 14/05/2027 or 14.05.2027 is expected, "
                          f"not {value!r}")
        return None


def starts_of(rows: list[Row]) -> list[str]:
    """The time of each row, as HH:MM:SS; 00:00:00 with a fault."""
    found = [TIME.fullmatch(row.get("start")) for row in rows]
    halved = next((row for row, time in zip(rows, found) if time and time[4]), None)
    return [start_of(row, time, halved) for row, time in zip(rows, found)]


def start_of(row: Row, time: re.Match[str] | None, halved: Row | None) -> str:
    """A row's time; `halved` is a row of its file whose time is in the morning or afternoon."""
    value = row.text("start")
    if not value:
        return "00:00:00"
    hour = int(time[1]) if time else 24
    if time and time[4] and 1 <= hour <= 12:
        hour = hour % 12 + (12 if time[4].lower() == "p" else 0)
    elif halved and time and 1 <= hour <= 12:
        row.fault("start", f"{value!r} could be in the morning or in the afternoon, as line "
                           f"{halved.line} says {halved.get('start')!r}")
    elif time and time[4]:
        hour = 24
    if time and hour < 24:
        return f"{hour:02}:{time[2]}:{time[3] or '00'}"
    row.fault("start", f"a time such as 13:30, 1:30 PM or 13.30 is expected, not {value!r}")
    return "00:00:00"
