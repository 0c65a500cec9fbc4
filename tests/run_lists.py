#!/usr/bin/env python3
"""run_lists.py PROGRAM: tools/lists, from a published timetable to the pages that are printed.

The text of each page is read by pdftotext: headings, names in their order, page n of m, how many
labels a page has. Then lists of an earlier publication, names in several scripts and of 254 bytes,
what is said if something is missing. A failing case is printed with what was expected and what
came, and the last line counts the cases.
"""
import contextlib
import os
import pathlib
import re
import shutil
import subprocess
import sys
import tempfile

import run_changes
import waiting
from run_serve import Office, Run
from tools_path import TOP
from registry.history import History, keep, publication_of
from registry.office import Office as Asked

PYTHON, TOOL = "/usr/bin/python3", TOP / "tools" / "lists"
SECONDS = 180
MODULES = ("gi._gi_cairo", "gi", "cairo", "icu")
SOLUTION = (TOP / "examples" / "small.sol").read_bytes()
FILES = {"door": "door-lists.pdf", "attendance": "attendance-sheets.pdf",
         "labels-3x7": "seat-labels-3x7.pdf", "labels-3x8": "seat-labels-3x8.pdf",
         "exams": "timetable-by-exam.pdf", "days": "timetable-by-day.pdf"}
MARKS = re.compile("[\u200e\u200f\u202a-\u202e]")
READ = re.compile(r"Seats ([0-9A-F]{8}), read on \d{1,2} [A-Z][a-z]+ \d{4}, \d\d:\d\d")
TITLE = "University of Example · Examinations in April 2005"


class Session(run_changes.Session):
    """An office, its ledger, and the lists that are made of both."""

    def __init__(self, run, name, csv=TOP / "examples" / "small"):
        # The office of the small example, or of other CSV files.
        if csv == TOP / "examples" / "small":
            super().__init__(run, name)
            return
        self.run, self.folder = run, csv.parent
        self.made = self.folder / "made"
        waiting.run([TOP / "tools" / "session_from_csv", csv, self.made], check=True,
                    stdout=subprocess.DEVNULL, stderr=subprocess.DEVNULL, timeout=SECONDS)
        subprocess.run([run.program, "load", "--db", self.folder / "office.db",
                        self.made / "now" / "session.exam"], check=True, stdout=subprocess.DEVNULL)
        self.office = Office(run.program, self.folder / "office.db")
        self.address = f"http://127.0.0.1:{self.office.port}"

    def publish(self, solution):
        self.ask("DELETE", "/drafts/1")
        self.ask("PUT", "/drafts/1", solution)
        return self.ask("POST", "/drafts/1/publish")

    def keep(self, at):
        """Keeps the publication, as the registry's service does."""
        with History(self.made).opened() as db:
            keep(db, publication_of(Asked(self.address)), {"at": at, "by": "ada", "draft": 1}, 200)

    def lists(self, *more, made=None, **environment):
        """The status, what was said, and the faults."""
        ended = waiting.run(
            [PYTHON, TOOL, made or self.made, self.folder / "out", "--office", self.address, *more],
            capture_output=True, text=True, timeout=SECONDS, env={**os.environ, **environment})
        return ended.returncode, ended.stdout, ended.stderr

    def text(self, kind, option):
        """The text of a list, without marks of direction."""
        return MARKS.sub("", waiting.run(
            ["pdftotext", option, self.folder / "out" / FILES[kind], "-"], check=True,
            capture_output=True, timeout=SECONDS).stdout.decode())

    def pages(self, kind, option):
        """The text of each page of a list."""
        return self.text(kind, option).split("\f")[:-1]

    def lines(self, kind):
        """The lines of each page, with single blanks."""
        return [[" ".join(line.split()) for line in page.splitlines() if line.strip()]
                for page in self.pages(kind, "-layout")]


@contextlib.contextmanager
def session(run, name, **more):
    made = Session(run, name, **more)
    try:
        yield made
    finally:
        made.office.killed()


# ---- The small example

# Each room and period: its heading, its exam, and whose seats are there, by name and by seat.
HALL, ROOM = "Great Hall, Main building", "Room 2.14, Physics building"
SHEETS = [
    (HALL, "Friday 15 April 2005, 09:30", "MATH101 Calculus 09:30 – 11:30, 2 candidates",
     [("Ada Archer", "s1", 1), ("Ben Baker", "s2", 2)]),
    (HALL, "Friday 15 April 2005, 14:00", "MATH102 Linear algebra 14:00 – 15:30, 2 candidates",
     [("Ben Baker", "s2", 1), ("Cleo Carter", "s3", 2)]),
    (HALL, "Friday 15 April 2005, 17:00", "PHYS102 Optics 17:00 – 18:00, 1 candidate",
     [("Ada Archer", "s1", 1)]),
    (ROOM, "Monday 18 April 2005, 09:30", "PHYS101 Mechanics 09:30 – 11:30, 1 candidate",
     [("Cleo Carter", "s3", 1)])]
BY_EXAM = ["MATH101 Calculus Fri 15 Apr 2005 09:30 – 11:30 Great Hall, Main building",
           "MATH102 Linear algebra Fri 15 Apr 2005 14:00 – 15:30 Great Hall, Main building",
           "PHYS101 Mechanics Mon 18 Apr 2005 09:30 – 11:30 Room 2.14, Physics",
           "PHYS102 Optics Fri 15 Apr 2005 17:00 – 18:00 Great Hall, Main building"]


def door_pages(words, sheets):
    return [[f"{room} Door list", f"{when} Page 1 of 1", f"{TITLE} {words}", exam,
             "Candidate ID Seat", *(f"{name} {number} {seat}" for name, number, seat in seats)]
            for room, when, exam, seats in sheets]


def attendance_pages(words, sheets):
    return [[f"{room} Attendance sheet", f"{when} Page 1 of 1", f"{TITLE} {words}", exam,
             f"Invigilator present _____ absent _____ of {len(seats)}",
             "Seat Candidate ID Present", *(f"{seat} {name} {number}" for name, number, seat
                                            in seats)] for room, when, exam, seats in sheets]


def small_example(run):
    """Each kind of list, once and again."""
    with session(run, "small") as it:
        run.judge("nothing is published", (1, "", "nothing is published yet\n"), it.lists())
        run.judge("nothing is made", False, (it.folder / "out").exists())
        it.publish(SOLUTION)
        status, said, faults = it.lists()
        words, *counts = said.splitlines()
        run.judge("they are made", (0, "", True), (status, faults, bool(READ.fullmatch(words))))
        run.judge("pages of each", [f"{FILES[kind]}: {pages}" for kind, pages in zip(FILES, (
            "4 pages", "4 pages", "4 pages", "4 pages", "1 page", "2 pages"))], counts)
        for time in ("first", "second"):
            run.judge(f"the {time} door lists", door_pages(words, SHEETS), it.lines("door"))
            run.judge(f"the {time} attendance sheets", attendance_pages(words, SHEETS),
                      it.lines("attendance"))
            run.judge(f"the {time} files, readable by their group", {
                name: 0o640 for name in FILES.values()}, {
                path.name: path.stat().st_mode & 0o777 for path in (it.folder / "out").iterdir()})
            words = it.lists()[1].splitlines()[0]
        small_boards(run, it)
        first, _ = READ.match(words)[1], it.publish(b"0, 0\n1, 0\n3, 1\n3, 0\n")
        run.judge("another publication has another digest", (True, False), (
            lambda second: (bool(second), second and second[1] == first))(
            READ.match(it.lists()[1])))
        some_of_them(run, it)


def small_boards(run, it):
    """Timetables name no candidate."""
    page, = it.lines("exams")
    run.judge("by exam", BY_EXAM, [line for line in page if re.match("[A-Z]{4}1", line)])
    days = it.lines("days")
    run.judge("by day", [
        ["Friday 15 April 2005 Examinations", "09:30 – 11:30 MATH101 Calculus " + HALL,
         "14:00 – 15:30 MATH102 Linear algebra " + HALL, "17:00 – 18:00 PHYS102 Optics " + HALL],
        ["Monday 18 April 2005 Examinations", "09:30 – 11:30 PHYS101 Mechanics " + ROOM]],
        [[page[0], *page[4:]] for page in days])
    run.judge("nobody is named", [], [name for name in ("Archer", "Baker", "Carter", "s1")
                                      if any(name in line for day in [page, *days]
                                             for line in day)])


def some_of_them(run, it):
    """Lists of a part of the session; on other paper."""
    for words, options, pages in (
            ("a day", ["--day", "2005-04-18"], "2 pages"),
            ("a building", ["--building", "Main building"], "3 pages"),
            ("a day of a building", ["--day", "2005-04-18", "--building", "Main building"],
             "1 page"),
            ("a period", ["--day", "2005-04-18", "--start", "09:30"], "2 pages"),
            ("a room", ["--room", "Great Hall"], "3 pages"),
            ("a room in a period", ["--day", "2005-04-18", "--start", "09:30", "--room",
                                    "Room 2.14", "--building", "Physics building"], "1 page")):
        run.judge(f"lists of {words}", (0, f"door-lists.pdf: {pages}"), (
            lambda status, said, _: (status, said.splitlines()[-1]))(
            *it.lists("--kind", "door", *options)))
    for words, options in (("day", ["--day", "2005-04-19"]), ("building", ["--building", "Main"]),
                           ("period", ["--day", "2005-04-18", "--start", "14:00"]),
                           ("room", ["--room", "Great Hall", "--building", "Physics building"])):
        run.judge(f"no such {words}", (1, "", "nobody has a seat there\n"), it.lists(*options))
    run.judge("no such kind", 2, it.lists("--kind", "doors")[0])
    on_letter(run, it)


def on_letter(run, it):
    """On US Letter everything is on the page; labels stay on A4."""
    it.lists("--paper", "letter")
    sizes = {kind: set(re.findall(r'<page width="(.+?)" height="(.+?)"', it.text(kind, "-bbox")))
             for kind in FILES}
    # In points; A4 has 210 by 297 mm.
    letter, a4 = {("612.000000", "792.000000")}, {("595.275591", "841.889764")}
    run.judge("sizes of pages", {kind: a4 if "labels" in kind else letter for kind in FILES}, sizes)
    run.judge("what isn't on the page", [], [
        word[0] for kind in ("door", "attendance", "exams", "days")
        for word in WORD.finditer(it.text(kind, "-bbox"))
        if float(word[3]) > 612 - 40 or float(word[4]) > 792 - 30])


def publications(run):
    """A list of an older publication can be told by its heading."""
    with session(run, "publications") as it:
        it.publish(SOLUTION)
        it.keep("2005-04-01T09:07:00+02:00")
        first = "Publication 1, 1 April 2005, 09:07"
        run.judge("the first one", (0, f"{first}\ndoor-lists.pdf: 4 pages\n", ""),
                  it.lists("--kind", "door"))
        run.judge("its lists", door_pages(first, SHEETS), it.lines("door"))
        it.publish(b"0, 0\n1, 0\n3, 1\n3, 1\n")
        it.keep("2005-04-02T18:30:00+02:00")
        second = "Publication 2, 2 April 2005, 18:30"
        run.judge("the second one", f"{second}\ndoor-lists.pdf: 3 pages\n",
                  it.lists("--kind", "door")[1])
        page = it.lines("door")[-1]
        run.judge("a room that two exams share", [
            f"{TITLE} {second}", "PHYS101 Mechanics 09:30 – 11:30, 1 candidate",
            "PHYS102 Optics 09:30 – 10:30, 1 candidate", "Candidate ID Exam Seat",
            "Ada Archer s1 PHYS102 2", "Cleo Carter s3 PHYS101 1"], page[2:])
        old = "Replaced on 2 April 2005, 18:30"
        run.judge("the first one again", (0, f"{first}; {old}\ndoor-lists.pdf: 4 pages\n", ""),
                  it.lists("--kind", "door", "--publication", "1"))
        run.judge("lists of the first one", [[*page[:3], old, *page[3:]] for page in door_pages(
            first, SHEETS)], it.lines("door"))
        run.judge("no such publication", (1, f"{it.made} has no publication 3\n"),
                  it.lists("--publication", "3")[::2])
        it.publish(SOLUTION)
        run.judge("one that isn't kept", True, bool(READ.match(it.lists("--kind", "door")[1])))


# ---- Names, rooms and labels

# In the order of a door list; the room has one exam.
LONG = "Wolfeschlegelsteinhausenbergerdorff " * 7 + "ab"
NAMED = ["Ada Zander", "Adam Ábel", "Ádám Bodor", "Chloë d'Angelo", "Chloe Dupont",
         "Łukasz Żak", "Nguyễn Thị Minh", "Søren Ångström", LONG, "Γιώργος Παπαδόπουλος",
         "Елена Смирнова", "דוד כהן", "محمد عبد الله", "प्रिया शर्मा", "李小龙"]
OTHERS = 95


def csv_of_names(folder):
    """One exam with 110 candidates, in a hall; one with one, in a room with one seat."""
    csv = folder / "csv"
    csv.mkdir(parents=True)
    people = [(f"n{place:02}", name) for place, name in enumerate(NAMED)]
    # They come last by name, and first by ID.
    people += [(f"a{place:03}", f"龍 {place:03}") for place in range(OTHERS)]
    rows = [f'{student},"{name}",BIG' for student, name in reversed(people)]
    tables = {"exams": ["code,title,minutes", "BIG,Large exam,120", "ONE,Small exam,60"],
              "rooms": ["name,building,capacity", "Hall,Main,110", "Box,Annex,1"],
              "periods": ["date,start,minutes", "2027-05-14,23:00,120"],
              "enrolments": ["student,name,exam", *rows, 'b1,"Zoë Box",ONE'],
              "rules": ["rule,a,b,c", "title,Names"]}
    for name, lines in tables.items():
        (csv / f"{name}.csv").write_text("".join(f"{line}\n" for line in lines))
    return csv


def of_pages(pages, pattern):
    return [re.findall(pattern, page) for page in pages]


def many_names(run):
    """Names of many scripts, whole and in their order, in two columns; labels of a full room."""
    csv = csv_of_names(run.folder / "names")
    with session(run, "names", csv=csv) as it:
        it.publish(b"0, 0\n0, 1\n")
        status, said, faults = it.lists()
        run.judge("nothing is warned of", (0, ""), (status, faults))
        pages = it.pages("door", "-raw")
        # The list of the room with one seat comes first, by its building.
        run.judge("page n of m", [["1 of 1"], ["1 of 2"], ["2 of 2"]],
                  of_pages(pages, r"Page (\d of \d)"))
        listed = re.findall(r"\b([na]\d+)\s+\d+$", "".join(pages[1:]), re.M)
        run.judge("everybody once, by name", [
            *(f"n{place:02}" for place in range(len(NAMED))),
            *(f"a{place:03}" for place in range(OTHERS))], listed)
        text = re.sub(r"\s", "", "".join(pages))
        run.judge("whole names", [], [name for name in NAMED if re.sub(r"\s", "", name)
                                      not in text])
        run.judge("times over midnight", True, "23:00 – 01:00" in pages[1])
        run.judge("labels of each page", [[1, 21, 21, 21, 21, 21, 5], [1, 24, 24, 24, 24, 14]], [
            [len(found) for found in of_pages(it.pages(kind, "-raw"), r"\b[nab]\d+ · [BO]")]
            for kind in ("labels-3x7", "labels-3x8")])
        run.judge("each word on one label of both stocks", [(True, [])] * len(STOCKS), [
            words_on_labels(it, kind, grids) for kind, grids in STOCKS.items()])
        text = re.sub(r"\s", "", "".join(it.pages("labels-3x8", "-raw")))
        run.judge("whole names on labels", [], [name for name in NAMED if re.sub(r"\s", "", name)
                                                not in text])
        seats = [int(seat) for page in it.pages("attendance", "-raw")[1:]
                 for seat in re.findall(r"^(\d+) ", page, re.M)]
        run.judge("by seat", list(range(1, 111)), seats)
        letters_without_font(run, it)


# Stock of labels that is sold, in millimetres: the left and the upper edge of the first label, the
# distance to the next one, and the size of one. Avery L7160 and L7159; labels without margins.
STOCKS = {"labels-3x7": [(7.25, 15.15, 66.04, 38.1, 63.5, 38.1), (0, 0, 70, 42.42, 70, 42.42)],
          "labels-3x8": [(6.45, 12.9, 66.55, 33.9, 64, 33.9), (0, 0.5, 70, 37, 70, 37)]}
WORD = re.compile(r'<word xMin="(.+)" yMin="(.+)" xMax="(.+)" yMax="(.+)">.*</word>')


def words_on_labels(it, kind, grids):
    """How many words labels have, and those that aren't on one label, or on another label of the
    other stock."""
    outside, words = [], [*WORD.finditer(it.text(kind, "-bbox"))]
    for found in words:
        left, top, right, bottom = (float(edge) / 72 * 25.4 for edge in found.groups())
        cells = [((left - x) // dx, (top - y) // dy) for x, y, dx, dy, _, _ in grids]
        is_within = all(
            right <= x + column * dx + width and bottom <= y + row * dy + height
            for (x, y, dx, dy, width, height), (column, row) in zip(grids, cells))
        if not is_within or cells[0] != cells[1]:
            outside.append(found[0])
    return len(words) > 1000, outside


def letters_without_font(run, it):
    (it.folder / "csv" / "enrolments.csv").write_text(
        'student,name,exam\nb1,"Zoë \U0010fffd",ONE\n')
    waiting.run([TOP / "tools" / "session_from_csv", it.folder / "csv", it.made], check=True,
                capture_output=True, timeout=SECONDS)
    run.judge("a letter that no font has", (
        0, "warning: no font of this machine has all letters of 'Zoë \\U0010fffd'\n"),
        it.lists("--kind", "door")[::2])


def read_while_kept(run):
    """Others read the history while a publication of many seats is written."""
    folder = run.folder / "history"
    folder.mkdir()
    history = History(folder)
    with history.opened():
        pass
    with history.opened() as db:
        # More than SQLite has in memory by itself.
        db.executemany("INSERT INTO seats VALUES (?, 0, 0, 0, 1, 1, NULL)", (
            (student,) for student in range(100_000)))
        with history.reading() as other:
            run.judge("read while a publication is kept", (0,), other.execute(
                "SELECT count(*) FROM seats").fetchone())


def what_is_missing(run):
    """Without a package the tool says what to install."""
    with session(run, "missing") as it:
        it.publish(SOLUTION)
        for module, packages in (("gi", "python3-gi-cairo gir1.2-pango-1.0"),
                                 ("cairo", "python3-gi-cairo"), ("icu", "python3-icu")):
            folder = it.folder / module
            folder.mkdir()
            (folder / f"{module}.py").write_text("raise ImportError\n")
            run.judge(f"without {module}", (
                1, "", f"lists need Debian packages: apt-get install {packages}\n"),
                it.lists(PYTHONPATH=str(folder)))
        with session(run, "names", csv=csv_of_names(run.folder / "others")) as others:
            others.publish(b"0, 0\n0, 1\n")
            run.judge("an office of another session", (1, "", True), (
                lambda status, said, faults: (status, said, faults.startswith(
                    "the office has another session: ")))(*others.lists(made=it.made)))
        (it.made / "ledger.db").unlink()
        run.judge("without a ledger", (1, True), (
            lambda status, _, faults: (status, "is not a ledger" in faults))(*it.lists()))


def main():
    if len(sys.argv) != 2:
        print(__doc__.partition(":")[0], file=sys.stderr)
        return 2
    ended = subprocess.run([PYTHON, "-c", f"import {', '.join(MODULES)}"], check=False,
                           stderr=subprocess.DEVNULL)
    if ended.returncode or not shutil.which("pdftotext"):
        print("lists: left out without python3-gi-cairo, python3-icu and pdftotext")
        return 0
    with tempfile.TemporaryDirectory() as folder:
        run = Run(pathlib.Path(sys.argv[1]).resolve(), folder, "lists")
        for part in (read_while_kept, small_example, publications, many_names, what_is_missing):
            part(run)
    return run.end()


if __name__ == "__main__":
    sys.exit(main())
