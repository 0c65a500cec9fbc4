"""Pages with a heading and rows: door lists, attendance sheets, timetables for a notice board."""
from __future__ import annotations

import dataclasses
import itertools
from collections.abc import Callable, Iterable, Iterator, Sequence

from .history import Row
from .listing import Lists, People, Sheet, joined
from .paper import MM, Block, Pdf, shortened
from .published import day_in_words
from .session import count

MARGIN, BOTTOM = 15 * MM, 12 * MM
GAP, BETWEEN_COLUMNS = 2 * MM, 8 * MM
BOX = 3.5 * MM
# Where a number is written by hand.
BLANK = "_" * 5
# So many signs of a name that may be long, and so many exams of a room have a line of their own.
MOST_TITLE, MOST_EXAMS = 120, 12
# A number of pages as wide as any.
MANY = 999


@dataclasses.dataclass(frozen=True)
class Column:
    """A column: its head, its share of the width, and whether its texts end at its right edge."""

    head: str
    share: float
    right: bool = False


# The texts of a row; None is a box to tick.
Cells = Sequence[str | None]


def extents(columns: Sequence[Column], width: float) -> list[tuple[float, float]]:
    """Where each column begins, and how wide it is."""
    unit = (width - GAP * (len(columns) - 1)) / sum(column.share for column in columns)
    found, x = [], 0.0
    for column in columns:
        found.append((x, column.share * unit))
        x += column.share * unit + GAP
    return found


def inner(pdf: Pdf) -> float:
    """How wide a page is between its margins."""
    return pdf.width - 2 * MARGIN


def strips(pdf: Pdf, beside: int) -> list[tuple[float, float]]:
    """Where each of so many tables beside each other begins, and how wide it is."""
    width = (inner(pdf) - BETWEEN_COLUMNS * (beside - 1)) / beside
    return [((width + BETWEEN_COLUMNS) * place, width) for place in range(beside)]


def row_block(pdf: Pdf, cells: Cells, columns: Sequence[Column],
              places: Sequence[tuple[float, float]], padding: float) -> Block:
    """A row of a table, with a rule below it."""
    block = Block(height=padding)
    texts = [None if words is None else pdf.text(words, "row", width)
             for words, (_, width) in zip(cells, places)]
    highest = max(text.height for text in texts if text)
    for text, column, (x, width) in zip(texts, columns, places):
        if text is None:
            block.box(x, padding + (highest - BOX) / 2, BOX)
        else:
            block.put(text, x + width if column.right else x, right=column.right)
    block.height += highest + padding
    block.rule = places[-1][0] + places[-1][1]
    return block


def in_strips(rows: Iterable[Block], first: float, further: float, beside: int
              ) -> list[list[Block]]:
    """The rows of each strip: those of the first page are so high, those of further pages so."""
    filled: list[list[Block]] = [[]]
    left = first
    for row in rows:
        if row.height > left and filled[-1]:
            filled.append([])
            left = first if len(filled) <= beside else further
        filled[-1].append(row)
        left -= row.height
    return filled


@dataclasses.dataclass
class Table:
    """A table that begins a new page: what is above it on a page, its columns and its rows."""

    top: Callable[[int, int], Block]
    columns: Sequence[Column]
    rows: Sequence[Cells]
    padding: float
    # Whether it may be in two columns, if it isn't on one page in one.
    may_halve: bool = False

    def filled(self, pdf: Pdf, beside: int) -> list[list[Block]]:
        places = extents(self.columns, strips(pdf, beside)[0][1])
        rows = [row_block(pdf, cells, self.columns, places, self.padding) for cells in self.rows]
        first, further = (pdf.height - MARGIN - BOTTOM - self.head(pdf, beside, page, MANY).height
                          for page in (1, 2))
        return in_strips(rows, first, further, beside)

    def head(self, pdf: Pdf, beside: int, page: int, pages: int) -> Block:
        """What is above the rows of a page."""
        block = self.top(page, pages)
        block.height += 2 * GAP
        heads = [pdf.text(column.head, "small") for column in self.columns]
        for start, strip in strips(pdf, beside):
            for text, (x, width), column in zip(heads, extents(self.columns, strip), self.columns):
                block.put(text, start + x + (width if column.right else 0), right=column.right)
        block.height += heads[0].height
        for start, strip in strips(pdf, beside):
            block.underline(start, start + strip)
        return block

    def draw(self, pdf: Pdf) -> None:
        beside, filled = 1, self.filled(pdf, 1)
        if self.may_halve and len(filled) > 1:
            beside, filled = 2, self.filled(pdf, 2)
        pages = [filled[place:place + beside] for place in range(0, len(filled), beside)]
        for page, columns in enumerate(pages, 1):
            head = self.head(pdf, beside, page, len(pages))
            pdf.draw(head, MARGIN, MARGIN)
            for rows, (x, _) in zip(columns, strips(pdf, beside)):
                y = MARGIN + head.height
                for row in rows:
                    pdf.draw(row, MARGIN + x, y)
                    y += row.height
            pdf.end_page()


def heading(pdf: Pdf, lists: Lists, left: Sequence[tuple[str, str]], kind: str, page: int,
            pages: int) -> Block:
    """What a page is about on the left; on the right the kind of list, the page and the
    publication."""
    block = Block()
    right = [(kind, "head"), (f"Page {page} of {pages}", "head"),
             (lists.published.words(), "small")]
    if lists.published.replaced:
        right.append((lists.published.replaced_words(), "strong"))
    for (words, style), (end, of_end) in itertools.zip_longest(
            [*left, (lists.title(), "small")], right, fillvalue=("", "small")):
        beside = pdf.text(end, of_end, inner(pdf) / 2)
        text = pdf.text(shortened(words, MOST_TITLE), style, inner(pdf) - GAP - beside.width)
        height = max(text.height, beside.height)
        block.put(text, 0, block.height + height - text.height)
        block.put(beside, inner(pdf), block.height + height - beside.height, right=True)
        block.height += height
    return block


# ---- Lists of candidates

@dataclasses.dataclass(frozen=True)
class Kind:
    """A kind of list of candidates."""

    title: str
    columns: tuple[Column, ...]
    order: Callable[[Row, People], tuple[object, ...]]
    # What is between a row's text and the rules above and below it.
    padding: float
    has_counts: bool


SEAT, CANDIDATE, ID, EXAM, PRESENT = (
    Column("Seat", 8, True), Column("Candidate", 50), Column("ID", 23), Column("Exam", 24),
    Column("Present", 13))
DOOR = Kind("Door list", (CANDIDATE, ID, EXAM, SEAT), lambda row, people: people.by_name(row),
            0.8 * MM, False)
ATTENDANCE = Kind("Attendance sheet", (SEAT, CANDIDATE, ID, EXAM, PRESENT),
                  lambda row, _: (row[4],), 1.6 * MM, True)


def cell(column: Column, row: Row, lists: Lists) -> str | None:
    student, exam, _, _, seat = row
    if column is SEAT:
        return f"{seat}"
    if column is CANDIDATE:
        return lists.people.name(student)
    if column is ID:
        return lists.people.id(student)
    return lists.session.exams[exam].code if column is EXAM else None


def exam_lines(pdf: Pdf, lists: Lists, sheet: Sheet, block: Block, has_counts: bool) -> None:
    """A line for each exam of a room: its times, its candidates, and where the invigilator writes
    how many came."""
    exams = [lists.session.exams[number] for number in sheet.exams()]
    for number, exam in list(zip(sheet.exams(), exams))[:MOST_EXAMS]:
        taking = count(sum(row[1] == number for row in sheet.seats), "candidate")
        counts = f", present {BLANK} absent {BLANK}" if has_counts else ""
        end = pdf.text(f"{lists.times(number, sheet.period)}, {taking}{counts}", "row")
        text = pdf.text(shortened(joined([exam.code, exam.title], " "), MOST_TITLE), "strong",
                        inner(pdf) - end.width - GAP)
        block.put(text, 0)
        block.put(end, inner(pdf), right=True)
        block.height += text.height
    if exams[MOST_EXAMS:]:
        text = pdf.text("and " + ", ".join(exam.code for exam in exams[MOST_EXAMS:]), "row",
                        inner(pdf))
        block.put(text, 0)
        block.height += text.height


def invigilator(pdf: Pdf, block: Block, candidates: int) -> None:
    """A line for the invigilator's name and the counts of the room."""
    block.height += 3 * MM
    name = pdf.text("Invigilator", "row")
    counts = pdf.text(f"present {BLANK} absent {BLANK} of {candidates:,}", "row")
    block.put(name, 0)
    block.put(counts, inner(pdf), right=True)
    block.height += name.height
    block.underline(name.width + GAP, inner(pdf) - counts.width - BETWEEN_COLUMNS)


def sheet_table(pdf: Pdf, lists: Lists, sheet: Sheet, kind: Kind) -> Table:
    """The list of a room in a period."""
    is_shared = len(sheet.exams()) > 1

    def top(page: int, pages: int) -> Block:
        block = heading(pdf, lists, [(lists.room(sheet.room), "room"),
                                     (lists.when(sheet.period), "when")], kind.title, page, pages)
        block.height += GAP
        is_counted = kind.has_counts and page == 1
        exam_lines(pdf, lists, sheet, block, is_counted and is_shared)
        if is_counted:
            invigilator(pdf, block, len(sheet.seats))
        return block

    columns = [column for column in kind.columns if is_shared or column is not EXAM]
    rows = sorted(sheet.seats, key=lambda row: kind.order(row, lists.people))
    return Table(top, columns, [[cell(column, row, lists) for column in columns] for row in rows],
                 kind.padding, not is_shared)


def marked(pdf: Pdf, lists: Lists) -> Iterator[Sheet]:
    """All sheets, each with a bookmark below that of its period."""
    for period, sheets in itertools.groupby(lists.sheets, lambda sheet: sheet.period):
        parent = pdf.mark(lists.when(period))
        for sheet in sheets:
            pdf.mark(lists.room(sheet.room), parent)
            yield sheet


def draw_door_lists(pdf: Pdf, lists: Lists) -> None:
    for sheet in marked(pdf, lists):
        sheet_table(pdf, lists, sheet, DOOR).draw(pdf)


def draw_attendance_sheets(pdf: Pdf, lists: Lists) -> None:
    for sheet in marked(pdf, lists):
        sheet_table(pdf, lists, sheet, ATTENDANCE).draw(pdf)


# ---- For a notice board, without candidates

def timetable(pdf: Pdf, lists: Lists, left: str, kind: str, columns: Sequence[Column],
              rows: Sequence[Cells]) -> Table:
    return Table(lambda page, pages: heading(pdf, lists, [(left, "room")], kind, page, pages),
                 columns, rows, 0.8 * MM)


def exams_there(lists: Lists) -> list[tuple[str, int]]:
    """The exams of the day and the building, by code. One that was taken out has no minutes."""
    return sorted((exam.code, number) for number, exam in enumerate(lists.session.exams)
                  if exam.minutes and lists.has(*lists.published.places[number]))


def draw_by_exam(pdf: Pdf, lists: Lists) -> None:
    """Each exam with its day, time and room, by code."""
    rows = []
    for code, number in exams_there(lists):
        period, room = lists.published.places[number]
        rows.append([code, lists.session.exams[number].title,
                     lists.short_day(period), lists.times(number, period), lists.room(room)])
    timetable(pdf, lists, "Examinations", "By exam", (
        Column("Exam", 22), Column("Title", 54), Column("Day", 28), Column("Time", 24),
        Column("Room", 40)), rows).draw(pdf)


def draw_by_day(pdf: Pdf, lists: Lists) -> None:
    """Each exam with its time and room, by time and code; each day begins a new page."""
    days: dict[str, list[tuple[str, str, int]]] = {}
    for code, number in exams_there(lists):
        period = lists.session.periods[lists.published.places[number][0]]
        days.setdefault(period.date, []).append((period.start, code, number))
    for date, exams in sorted(days.items()):
        rows = []
        for _, code, number in sorted(exams):
            period_no, room = lists.published.places[number]
            rows.append([lists.times(number, period_no), code, lists.session.exams[number].title,
                         lists.room(room)])
        pdf.mark(day_in_words(date))
        timetable(pdf, lists, day_in_words(date), "Examinations", (
            Column("Time", 25), Column("Exam", 22), Column("Title", 60), Column("Room", 50)), rows
            ).draw(pdf)
