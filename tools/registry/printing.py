"""Files of lists, to be printed."""
from __future__ import annotations

import concurrent.futures
import dataclasses
import functools
import multiprocessing
import os
import pathlib
from collections.abc import Callable, Collection, Sequence

from .labels import STOCKS, draw_labels
from .list_pages import draw_attendance_sheets, draw_by_day, draw_by_exam, draw_door_lists
from .listing import Lists
from .paper import Pdf

Draw = Callable[[Pdf, Lists], None]
# Each kind of list: its file, its title, and what draws it.
KINDS: dict[str, tuple[str, str, Draw]] = {
    "door": ("door-lists.pdf", "Door lists", draw_door_lists),
    "attendance": ("attendance-sheets.pdf", "Attendance sheets", draw_attendance_sheets),
    **{f"labels-{stock}": (f"seat-labels-{stock}.pdf", "Seat labels",
                           functools.partial(draw_labels, stock=stock)) for stock in STOCKS},
    "exams": ("timetable-by-exam.pdf", "Timetable by exam", draw_by_exam),
    "days": ("timetable-by-day.pdf", "Timetable by day", draw_by_day)}
# Each takes some 200 MB at the size of a university.
MOST_AT_ONCE = 2


@dataclasses.dataclass
class Made:
    """A file that was made, how many pages it has, and texts that no font of this machine has."""

    name: str
    pages: int
    unknown: Collection[str]


def make(lists: Lists, kind: str, folder: pathlib.Path) -> Made:
    """Makes the file of a kind of list, or makes it again, in one step."""
    name, title, draw = KINDS[kind]
    part = folder / f".{name}.{os.getpid()}"
    flags = os.O_WRONLY | os.O_CREAT | os.O_EXCL | os.O_NOFOLLOW
    try:
        with open(os.open(part, flags, 0o640), "wb") as file:
            # Stock of labels is A4.
            paper = "a4" if kind.startswith("labels-") else lists.paper
            pdf = Pdf(file, f"{title}: {lists.title()}. {lists.published.words()}", paper)
            draw(pdf, lists)
            pdf.end()
        part.replace(folder / name)
    finally:
        part.unlink(missing_ok=True)
    return Made(name, pdf.pages, pdf.unknown)


# What the processes that make files read; each has it from the start.
given: list[Lists] = []


def make_given(kind: str, folder: pathlib.Path) -> Made:
    return make(given[0], kind, folder)


def make_all(lists: Lists, kinds: Sequence[str], folder: pathlib.Path) -> list[Made]:
    """Makes the files of some kinds of lists, on some processors at once."""
    with concurrent.futures.ProcessPoolExecutor(
            min(len(kinds), MOST_AT_ONCE, os.cpu_count() or 1),
            multiprocessing.get_context("fork"), given.append, (lists,)) as pool:
        return list(pool.map(make_given, kinds, [folder] * len(kinds)))
