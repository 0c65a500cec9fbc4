"""Seat labels for stock of A4: 3 x 7 or 3 x 8 labels on a page."""
from __future__ import annotations

import dataclasses
import itertools

from .history import Row
from .list_pages import marked
from .listing import Lists
from .paper import MM, Block, Pdf


@dataclasses.dataclass(frozen=True)
class Grid:
    """Labels on a page, in millimetres: the size of one, the first one's corner, and the gap
    between two columns."""

    width: float
    height: float
    left: float
    top: float
    gap: float

    def edges(self, column: int, row: int) -> tuple[float, float, float, float]:
        x, y = self.left + column * (self.width + self.gap), self.top + row * self.height
        return x, y, x + self.width, y + self.height


# How many labels there are in a column, and both kinds that are sold: with margins and gaps, and
# over the whole page. What is printed is where both have the same label.
STOCKS = {"3x7": (7, (Grid(63.5, 38.1, 7.2, 15.1, 2.5), Grid(70, 42.4, 0, 0, 0))),
          "3x8": (8, (Grid(63.5, 33.9, 7.2, 12.9, 2.5), Grid(70, 37, 0, 0.5, 0)))}
ACROSS, INSIDE, GAP = 3, 2, 1.5 * MM
NAMES = ("name", "strong", "tight", "tighter", "tightest")


def places_on(stock: str) -> list[tuple[float, float, float, float]]:
    """Where the texts of each label of a page may be: left, top, width, height."""
    down, grids = STOCKS[stock]
    found = []
    for row, column in itertools.product(range(down), range(ACROSS)):
        edges = [grid.edges(column, row) for grid in grids]
        left, top = (max(edge[side] for edge in edges) + INSIDE for side in (0, 1))
        right, bottom = (min(edge[side] for edge in edges) - INSIDE for side in (2, 3))
        found.append((left * MM, top * MM, (right - left) * MM, (bottom - top) * MM))
    return found


def label(pdf: Pdf, lists: Lists, row: Row, width: float, height: float) -> Block:
    """A label: the seat, the room and the time, the candidate, and their exam."""
    student, exam, period, room, seat = row
    block, number = Block(), pdf.text(f"{seat}", "seat")
    start = lists.session.periods[period].start[:5]
    block.put(number, 0)
    top = 0.0
    for words in (lists.room(room), f"{lists.short_day(period)}, {start}",
                  lists.published.short_words()):
        text = pdf.text(words, "tiny", width - number.width - GAP)
        block.put(text, width, top, right=True)
        top += text.height
    block.height = max(number.height, top)
    who = pdf.text(f"{lists.people.id(student)} · {lists.session.exams[exam].code}", "small", width)
    name = pdf.fitting(lists.people.name(student), NAMES, width,
                       height - block.height - who.height)
    for text in (name, who):
        block.put(text, 0)
        block.height += text.height
    return block


def draw_labels(pdf: Pdf, lists: Lists, stock: str) -> None:
    """A label for each seat, by seat; each room and period begins a new page."""
    places = places_on(stock)
    for sheet in marked(pdf, lists):
        for first in range(0, len(sheet.seats), len(places)):
            for row, (x, y, width, height) in zip(sheet.seats[first:], places):
                made = label(pdf, lists, row, width, height)
                pdf.draw(made, x, y + (height - made.height) / 2)
            pdf.end_page()
