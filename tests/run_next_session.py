#!/usr/bin/env python3
"""run_next_session.py PROGRAM: tools/next_session makes the session that follows a loaded one.

From the small example, with a published timetable and a draft, follow a new exam, a room that is
gone, a day that moves, and an exam that is taken out: what is listed first, which numbers stay, and
where the drafts are in the next office. The old session stays as it was. A failing case is printed
with what was expected and what came, and the last line counts the cases.
"""
import contextlib
import json
import pathlib
import shutil
import subprocess
import sys
import tempfile

import run_changes
from run_serve import Office, Run
from tools_path import TOP

SOLUTION = (TOP / "examples" / "small.sol").read_bytes()
SECONDS = 180
NONE = "exams that move: 0\nseats that change where the exam stays: 0\n"
ROOM = ("rooms", "Room 2.14,Physics building,2,7\n",
        "Room 2.14,Physics building,2,7\nRoom 3.01,Main building,4,1\n")
BURNT = ("rooms", "Room 2.14,Physics building,2,7\n", "")
EXAM = ("exams", "MATH101,", "CHEM101,Reactions,60,Physics\nMATH101,")
ZOE = ("enrolments", "name,exam\n", "name,exam\nr9,Zoe Zander,CHEM101\ns1,Ada Archer,CHEM101\n")
DAY = ("periods", "2005-04-18", "2005-04-19")
MOVED = ("--moved", "2005-04-18=2005-04-19")
WITHOUT = [("exams", "PHYS102,Optics,60,Physics\n", ""),
           ("enrolments", "s1,Ada Archer,PHYS102\n", "")]


def sizes(exams=4, students=3, enrolments=6, periods=4, rooms=2):
    return (f"{exams} exams, {students} students, {enrolments} enrolments, {periods} periods, "
            f"{rooms} room{'' if rooms == 1 else 's'}\n")


# What changes, further words, what is listed; then the places of the published timetable, which is
# draft 2 (a period and a room for each exam), and the lines of exams and rooms of the next session.
CASES = [
    ("nothing", [], (), sizes() + NONE, ["0 0", "1 0", "3 1", "2 0"],
     ["120, 1, 2", "90, 2, 3", "120, 3", "60, 1"], ["3, 0", "2, 7"]),
    ("a new room", [ROOM], (), sizes(rooms=3) + "new: room Room 3.01\n" + NONE,
     ["0 0", "1 0", "3 1", "2 0"], ["120, 1, 2", "90, 2, 3", "120, 3", "60, 1"],
     ["3, 0", "2, 7", "4, 1"]),
    ("a room that is gone", [BURNT], (), sizes(rooms=1)
     + "gone: room Room 2.14\nexams that move: 1\nPHYS101 has no room: Room 2.14 is gone; "
     "1 candidate: Cleo Carter (s3)\n"
     "seats that change where the exam stays: 0\n", ["0 0", "1 0", None, "2 0"],
     ["120, 1, 2", "90, 2, 3", "120, 3", "60, 1"], ["3, 0", "0, 7"]),
    ("a new exam in front, with a new student", [EXAM, ZOE], (), sizes(5, 4, 8)
     + "new: exam CHEM101\n" + NONE, ["0 0", "1 0", "3 1", "2 0", None],
     ["120, 1, 2", "90, 2, 3", "120, 3", "60, 1", "60, 1, 4"], ["3, 0", "2, 7"]),
    ("a day that moves", [DAY], MOVED, sizes()
     + "exams that move: 1\nPHYS101 is on 2005-04-19 09:30, not on 2005-04-18 09:30; "
     "1 candidate: Cleo Carter (s3)\n"
     "seats that change where the exam stays: 0\n", ["0 0", "1 0", "3 1", "2 0"],
     ["120, 1, 2", "90, 2, 3", "120, 3", "60, 1"], ["3, 0", "2, 7"]),
    ("a day that is gone", [DAY], (), sizes()
     + "gone: period 2005-04-18 09:30\nexams that move: 1\n"
     "PHYS101 has no period: 2005-04-18 09:30 is gone; 1 candidate: Cleo Carter (s3)\n"
     "seats that change where the exam stays: 0\n", ["0 0", "1 0", None, "2 0"],
     ["120, 1, 2", "90, 2, 3", "120, 3", "60, 1"], ["3, 0", "2, 7"]),
    ("an exam that is taken out", WITHOUT, (), sizes(3, 3, 5) + "gone: exam PHYS102\n" + NONE,
     ["0 0", "1 0", "3 1", "2 0"], ["120, 1, 2", "90, 2, 3", "120, 3", "0"], ["3, 0", "2, 7"]),
]


class Following(run_changes.Session):
    """An office of the small example that has published, and what follows."""

    def __init__(self, run, name):
        super().__init__(run, name)
        self.ask("PUT", "/drafts/1", SOLUTION)
        self.ask("POST", "/drafts/1/publish")
        self.ask("DELETE", "/drafts/1/exams/3")

    def followed(self, edits, *more):
        """The status, the output and the faults of the tool, for edited CSV files."""
        folder = self.folder / "csv"
        shutil.rmtree(folder, ignore_errors=True)
        shutil.copytree(TOP / "examples" / "small", folder)
        for name, old, new in edits:
            path = folder / f"{name}.csv"
            if old not in path.read_text():
                raise ValueError(f"{name}.csv does not have {old!r}")
            path.write_text(path.read_text().replace(old, new))
        ended = subprocess.run(
            [TOP / "tools" / "next_session", folder, self.made, self.folder / "next", "--office",
             self.address, "--program", self.run.program, *more],
            capture_output=True, text=True, timeout=SECONDS)
        return ended.returncode, ended.stdout, ended.stderr

    def next_office(self):
        """Stops the office, and starts the next one."""
        self.office.killed()
        self.office = Office(self.run.program, self.folder / "next" / "office.db")
        self.address = f"http://127.0.0.1:{self.office.port}"
        self.made = self.folder / "next"


@contextlib.contextmanager
def session(run, name):
    made = Following(run, name.replace(" ", "-"))
    try:
        yield made
    finally:
        made.office.killed()


def places_of(it, number):
    """The period and the room of each exam of a draft."""
    return [None if row["period"] is None else f"{row['period']} {row['room']}"
            for row in json.loads(it.ask("GET", f"/drafts/{number}"))["exams"]]


def cases(run):
    """What is listed first, and what the next office has."""
    for name, edits, more, listed, places, exams, rooms in CASES:
        with session(run, name) as it:
            before = {path: path.read_bytes() for path in it.made.rglob("*") if path.is_file()}
            listing = f"{listed}nothing is made without --make\n"
            run.judge(f"{name}, listed", (0, listing, "", False), (
                *it.followed(edits, *more), (it.folder / "next").exists()))
            first = [None if exam == 3 else place for exam, place in enumerate(places)]
            drafts = "".join(f"draft {number} is carried over, with {lost} exam"
                             f"{'' if lost == 1 else 's'} without a place\n" for number, lost in (
                                 (1, first.count(None)), (2, places.count(None))))
            run.judge(f"{name}, made", (0, f"{listed}{drafts}made: {it.folder / 'next'}\n", ""),
                      it.followed(edits, *more, "--make"))
            run.judge(f"{name}: the old files", before, {
                path: path.read_bytes() for path in it.made.rglob("*") if path.is_file()})
            run.judge(f"{name}: it isn't made twice", 2, it.followed(edits, "--make")[0])
            it.next_office()
            lines = it.ask("GET", "/instance").splitlines()
            where = lines.index(f"[Rooms:{len(rooms)}]")
            run.judge(f"{name}: exams and rooms", (exams, rooms), (
                lines[1:1 + len(exams)], lines[where + 1:where + 1 + len(rooms)]))
            run.judge(f"{name}: the drafts", (first, places), (places_of(it, 1), places_of(it, 2)))
            run.judge(f"{name}: nothing is published", '{"error":"publication"}',
                      it.ask("GET", "/publication"))
            it.agrees(name)
            run.judge(f"{name}: whose exam it is", ('{"error":"forbidden","rule":"P3"}', True), (
                it.ask("DELETE", "/drafts/2/exams/0", caller="dept:3"),
                '"draft":2' in it.ask("DELETE", "/drafts/2/exams/0", caller="dept:1")))
            codes = [exam["code"] for exam in json.loads(
                (it.made / "now" / "labels.json").read_text())["exams"]]
            run.judge(f"{name}: which exam has which number", ["MATH101", "MATH102", "PHYS101",
                                                               "PHYS102"], codes[:4])


def seats_and_changes(run):
    """Seats that would change are listed, and changes that were made here stay."""
    with session(run, "seats") as it:
        it.by_page(1, "1,0,drop", "3,0,add")
        it.ask("DELETE", "/drafts/1")
        it.ask("PUT", "/drafts/1", SOLUTION)
        it.ask("POST", "/drafts/1/publish")
        # Ben keeps seat 2, and Cleo gets 1; a first publication gives them 1 and 2.
        older = (f"{run_changes.OLDER}2 enrolments differ: MATH101 of s3 added, MATH101 of s1 "
                 "dropped, and there is no log\n")
        run.judge("seats that change", (0, (
            f"{older}{sizes()}exams that move: 0\nseats that change where the exam stays: 2\n"
            "Ben Baker (s2), MATH101: seat 1, not 2\nCleo Carter (s3), MATH101: seat 2, not 1\n"
            "nothing is made without --make\n"), ""), it.followed([]))
        run.judge("it is made", 0, it.followed([], "--make")[0])
        it.next_office()
        kept = it.sent(run_changes.SMALL)[1]
        run.judge("what was changed here stays", True, kept.startswith(
            "0 to add, 0 to drop, 0 new students, 2 kept\n"))
        it.agrees("seats")


def refused(run):
    """Nothing is made of faulty files, and of another office."""
    with session(run, "refused") as it:
        for name, edits, more, words in (
                ("a day that isn't there", [], ("--moved", "2005-05-01=2005-05-02"),
                 "--moved 2005-05-01: the session has no period on this day\n"),
                ("another number of a department", [("rules", "department,3", "department,4")], (),
                 "rules.csv: department Physics has the number 3 in the session, not 4: a "
                 "department keeps its number and its name\n"),
                ("an unknown exam", [("enrolments", "s3,Cleo Carter,PHYS101",
                                      "s3,Cleo Carter,PHYS999")], (),
                 "enrolments.csv, line 7, exam: there is no exam 'PHYS999'\n")):
            run.judge(name, (1, "", words, False), (
                *it.followed(edits, *more, "--make"), (it.folder / "next").exists()))


def main():
    if len(sys.argv) != 2:
        print(__doc__.partition(":")[0], file=sys.stderr)
        return 2
    with tempfile.TemporaryDirectory() as folder:
        run = Run(pathlib.Path(sys.argv[1]).resolve(), folder, "next_session")
        for test in (cases, seats_and_changes, refused):
            test(run)
    return run.end()


if __name__ == "__main__":
    sys.exit(main())
