#!/usr/bin/env python3
"""run_program.py PROGRAM: the whole program from outside, called from a folder of its own.

Each case compares standard output, standard error and the exit status byte for byte; some have a
terminal as standard error. What docs/generated/FAULTS.md says of the numbers of faults is asked
too: its words of the help, its lines of the small instance. Lines of JSON are judged by
docs/verdict.schema.json, if Debian's python3-jsonschema is there. A failing case is printed with
what was expected and what came, and the last line counts the cases.
"""
import json
import os
import pathlib
import re
import subprocess
import sys
import tempfile
import tty
from collections import namedtuple

import debian
import waiting
from cases import Cases
from serve_cases import MANY

jsonschema = debian.module("jsonschema")

TOP = pathlib.Path(__file__).resolve().parent.parent
EXAMPLES = TOP / "examples"
# A row of the page's table of faults: the number, the words of the help, and such a line.
FAULT_ROW = re.compile(r"(?m)^\| (\d+) \w+ \| (.*?) \| (?:line (\d+): `(.*)` )?\|$")
PAGE = (TOP / "docs" / "generated" / "FAULTS.md").read_text(encoding="utf-8")
WORKED = (TOP / "docs" / "WORKED.md").read_text(encoding="utf-8")
FAULTS = FAULT_ROW.findall(PAGE.split("\n## ")[1])
VERSION = (TOP / "VERSION").read_text(encoding="utf-8").strip()
# What the launcher says of a release that wasn't built from these sources.
OLDER = b"examoffice: the release is older than the sources; --build builds these\n"
INSTANCE_LIMIT, SOLUTION_LIMIT = 4_194_304, 1_048_576
# For each case, in calm seconds (waiting.py).
SECONDS = 60
PENALTIES = ["two in a row", "two in a day", "period spread", "over night", "mixed durations",
             "front load", "period penalty", "room penalty"]
GOOD = [7, 5, 3, 0, 0, 0, 15, 7]
TOGETHER = [7, 0, 3, 0, 10, 0, 10, 14]
EARLY = [0, 0, 3, 0, 0, 4, 20, 7]
CROWDED = [0, 5, 2, 0, 10, 0, 15, 7]
NIGHTLY = [0, 0, 3, 6, 0, 4, 20, 7]
# Where students 1 and 2 sit exams 0 and 1, student 2 sits exam 3 too, and student 3 only exam 2:
# the small solution, and the one in which exams 0 and 1 are in one place. Two students have row 7
# and one of the spread, student 2 also row 7, day 5 and two of the spread; in one place, student 2
# has day 10 and two of the spread.
SHARED, SHARED_CROWDED = [21, 5, 4, 0, 0, 0, 15, 7], [0, 10, 2, 0, 10, 0, 15, 7]
# Where the third period is on the day after the others: the small solution, and the one in which
# exam 2 is in that period, after exam 1, and is too long for it.
SATURDAY, LATE = [7, 0, 3, 0, 0, 0, 15, 7], [7, 0, 3, 6, 0, 0, 20, 7]
# Solutions of the small instance: the breaches of each, and its penalties.
JUDGED: dict[str, tuple[list[str], list[int]]] = {
    "small.sol": ([], GOOD), "together.sol": ([], TOGETHER), "crlf.sol": ([], GOOD),
    "./a folder/the solution": ([], GOOD), "early.sol": (["After 1 0"], EARLY),
    "crowded.sol": (["Clash 0 1", "Capacity 0 0", "Capacity 1 1", "After 1 0"], CROWDED)}

SMALL = "small.exam", "small.sol", GOOD

# An even number of exams that each student sits, one a period: beyond some 33 they aren't listed.
BUSY = 40

# `device`: where standard output goes; `terminal`: whether standard error is one; `journal`:
# whether the environment says that it goes to a journal; `piped`: the file that is standard input.
Case = namedtuple("Case", "name words status stdout stderr device terminal journal piped",
                  defaults=(b"", b"", None, False, False, None))
# A name that breaks a line, and how it is printed.
BROKEN, PRINTED = "two\nlines\x7f.sol", b"two\\x0alines\\x7f.sol"
# Another one, of a solution with a line too few.
SHORT = "three\nlines.sol"


class Holding:
    """Stands for any output that is not empty and holds these bytes."""

    def __init__(self, part=b""):
        self.part = part

    def __eq__(self, output):
        return len(output) > 0 and self.part in output

    def __repr__(self):
        return f"something that holds {self.part!r}" if self.part else "something"


class AnyOf:
    """Stands for any of these outputs."""

    def __init__(self, *outputs):
        self.outputs = outputs

    def __eq__(self, output):
        return output in self.outputs

    def __repr__(self):
        return f"any of {self.outputs!r}"


class Within:
    """Is equal to any output whose lines have at most this many characters."""

    def __init__(self, columns):
        self.columns = columns

    def __eq__(self, output):
        return all(len(line) <= self.columns for line in output.decode().splitlines())

    def __repr__(self):
        return f"lines of at most {self.columns} characters"


def with_line(text, number, line):
    """The text with another line in the place of this one; lines count from 1."""
    lines = text.split(b"\n")
    lines[number - 1] = line
    return b"\n".join(lines)


def with_rules(text, period_rules, room_rules):
    """The small instance with further rules."""
    text = text.replace(b"1, AFTER, 0\n", b"1, AFTER, 0\n" + period_rules)
    return text.replace(b"[RoomHardConstraints]\n", b"[RoomHardConstraints]\n" + room_rules)


def busy_session():
    """Three students sit all of so many exams that the program doesn't list who shares whom. Two
    periods are on each day; the cost of the spread is that of two adjacent periods."""
    starts = "09:00:00", "14:00:00"
    periods = [f"{day:02}:01:2000, {start}, 60, 0"
               for day in range(1, BUSY // 2 + 1) for start in starts]
    return "".join(f"{line}\n" for line in (
        f"[Exams:{BUSY}]", *["60, 1, 2, 3"] * BUSY, f"[Periods:{BUSY}]", *periods, "[Rooms:1]",
        "3, 0", "[PeriodHardConstraints]", "[RoomHardConstraints]", "[InstitutionalWeightings]",
        "TWOINAROW,7", "PERIODSPREAD,1")).encode()


def files():
    """The files that the cases name, in the folder from which the program is called."""
    made = {file.name: file.read_bytes() for file in EXAMPLES.iterdir() if file.is_file()}
    exam, solution = made["small.exam"], made["small.sol"]
    apart, alone = b"3, EXCLUSION, 2\n2, EXCLUSION, 2\n", b"2, ROOM_EXCLUSIVE\n"
    night = b"OVERNIGHT,6\n"
    return {
        **made,
        "together.sol": with_line(solution, 4, b"3, 1"),
        "early.sol": with_line(solution, 1, b"3, 0"),
        "room.sol": with_line(solution, 4, b"2, 1"),
        "crowded.sol": with_line(solution, 2, b"0, 0"),
        "no_seats.exam": with_line(with_line(exam, 5, b"60"), 13, b"0, 7"),
        "nights.exam": with_line(exam, 10, b"16:04:2005, 09:30:00, 120, 5") + night,
        "weekend.exam": exam + night,
        "saturday.exam": with_line(exam, 9, b"16:04:2005, 17:00:00, 90, 10") + night,
        "late.sol": with_line(solution, 3, b"2, 1"),
        "shared.exam": with_line(with_line(exam, 3, b"90, 1, 2"), 5, b"60, 2"),
        "twice.exam": exam + night * 2,
        "alone.exam": with_rules(exam, apart, alone),
        "alone_twice.exam": with_rules(exam, apart * 2, alone * 2),
        "blank.exam": with_line(exam, 5, b"60").replace(b"\n", b"\r\n") + b"\r\n\r\n",
        "crlf.exam": exam.replace(b"\n", b"\r\n"),
        "crlf.sol": solution.replace(b"\n", b"\r\n"),
        "a folder/the exam": exam,
        "a folder/the solution": solution,
        "marked.exam": b"\xef\xbb\xbf" + exam,
        "marked.sol": b"\xef\xbb\xbf" + solution,
        "-": b"a file that no case reads",
        BROKEN: solution,
        "empty.exam": b"",
        "five.exam": exam.replace(b"[Exams:4]", b"[Exams:5]"),
        "april.exam": with_line(exam, 8, b"31:04:2005, 14:00:00, 120, 0"),
        **{f"fault{number}.exam": with_line(exam, int(line), text.encode())
           for number, _, line, text in FAULTS if line},
        "at_limit.exam": exam.ljust(INSTANCE_LIMIT),
        "long.exam": exam.ljust(INSTANCE_LIMIT + 1),
        "many.exam": MANY,
        "busy.exam": busy_session(),
        "busy.sol": b"".join(b"%d, 0\n" % exam for exam in range(BUSY)),
        "back\\x0a \u00e9.sol": solution,
        "odd.sol": with_line(solution, 2, b"1\x1b\x07[31m\xffx, 0"),
        "three.sol": b"".join(solution.splitlines(True)[:3]),
        SHORT: b"".join(solution.splitlines(True)[:3]),
        "five.sol": solution + b"0, 0\n",
        "beyond.sol": with_line(solution, 2, b"4, 0"),
        "at_limit.sol": solution.ljust(SOLUTION_LIMIT),
        "long.sol": solution.ljust(SOLUTION_LIMIT + 1),
        "empty.db": b"",
        "bare.db": b"",
    }


def report(breaches, penalties):
    """The two reports: the lines of the breaches, and the penalties without their total."""
    lines = [f"breaches {len(breaches)}", *breaches]
    lines += [f"{name} {penalty}" for name, penalty in zip(PENALTIES, penalties, strict=True)]
    return "".join(f"{line}\n" for line in [*lines, f"total {sum(penalties)}"]).encode()


def check(name, instance, solution, penalties, *breaches):
    return Case(name, ("check", instance, solution), 3 if breaches else 0,
                report(breaches, penalties))


def why(name, instance, solution, penalties, breaches, *lines):
    """The report, and then the lines of the summands."""
    return Case(name, ("check", "--why", instance, solution), 3 if breaches else 0,
                report(breaches, penalties) + "".join(f"{line}\n" for line in lines).encode())


def why_for(name, files, student, *lines):
    """The report, and then the lines of a student's summands and of their sum."""
    session, solution, penalties, *breaches = files
    asked = why(name, session, solution, penalties, breaches, *lines)
    return asked._replace(words=("check", "--why", "--student", student, *asked.words[2:]))


def verdict(path, breaches, penalties):
    """The object of a solution, with its breaches as they are in the report."""
    names = ["row", "day", "spread", "night", "mixed", "front", "period", "room"]
    broken = [{"exam": int(exam), "other": int(other), "rule": rule}
              for rule, exam, other in map(str.split, breaches)]
    return json.dumps({**dict(zip(names, penalties, strict=True)), "breaches": len(breaches),
                       "broken": broken, "path": path, "total": sum(penalties)},
                      sort_keys=True, separators=(",", ":"))


def check_json(name, session, solution, penalties, *breaches):
    return Case(name, ("check", "--json", session, solution), 3 if breaches else 0,
                f"{verdict(solution, breaches, penalties)}\n".encode())


def piped(case, file):
    """The case with a file as standard input."""
    return case._replace(name=f"{case.name}, from standard input", piped=file)


def check_all(name, solutions, status, faults=b""):
    """The lines of those solutions that have no fault, plain and as JSON."""
    plain = [(path, *JUDGED[path]) for path in solutions if path in JUDGED]
    lines = [" ".join(map(str, [len(breaches), sum(parts), *parts, path]))
             for path, breaches, parts in plain]
    objects = [verdict(*row) for row in plain]
    return [Case(f"{name}{form}", ("check-all", *flag, "small.exam", *solutions), status,
                 "".join(f"{line}\n" for line in shown).encode(), faults)
            for form, flag, shown in (("", (), lines), (", as JSON", ("--json",), objects))]


def many(session, *solutions):
    """Each solution, with its breaches and penalties, by itself and among twenty."""
    lines = "".join(" ".join(map(str, [len(breaches), sum(parts), *parts, path])) + "\n"
                    for path, breaches, parts in solutions)
    paths = [path for path, *_ in solutions] * 10
    return [*(check(f"{path} in {session}", session, path, parts, *breaches)
              for path, breaches, parts in solutions),
            Case(f"many solutions in {session}", ("check-all", session, *paths), 3,
                 lines.encode() * 10)]


def places(name, instance, solution, exam, *ends):
    """The lines of an exam's places: the end of each, the penalty or the breach."""
    rooms = 1 if instance == "smallest.exam" else 2
    lines = ["period,room,penalty,rule,exam,other"]
    lines += [f"{place // rooms},{place % rooms},{end if ',' in str(end) else f'{end},,,'}"
              for place, end in enumerate(ends)]
    return Case(name, ("places", instance, solution, str(exam)), 0,
                "".join(f"{line}\n" for line in lines).encode())


def compare(name, files, moved, candidates, before, after, gained=(), lost=()):
    """What differs between two solutions: `files` are the session and both."""
    lines = [f"moved {len(moved)}", *moved, f"candidates {candidates}"]
    lines += [f"{part} {old} {new}" for part, old, new in zip(
        [*PENALTIES, "total"], [*before, sum(before)], [*after, sum(after)], strict=True)]
    lines += [f"gained breaches {len(gained)}", *gained, f"lost breaches {len(lost)}", *lost]
    return Case(name, ("compare", *files), 0, "".join(f"{line}\n" for line in lines).encode())


def uncompared(name, files, line):
    return Case(name, ("compare", *files), 1, b"", line + b"\n")


def unlisted(name, instance, solution, exam, text):
    return Case(name, ("places", instance, solution, str(exam)), 1, b"",
                b"examoffice: %s\n" % text)


def fault(name, instance, solution, text):
    return Case(name, ("check", instance, solution), 1, b"", b"examoffice: %s\n" % text)


def on_terminal(case, *lines):
    """The case with a terminal as standard error, which shows these lines before the case's."""
    shown = b"".join(b"examoffice: %s, which takes a while\n" % line for line in lines)
    return case._replace(name=f"{case.name}, on a terminal", stderr=shown + case.stderr,
                         terminal=True)


def with_cause(case, line):
    """The case on a terminal and with a journal, where this line follows the case's."""
    said = case._replace(stderr=case.stderr + line + b"\n")
    return (said._replace(name=f"{case.name}, on a terminal", terminal=True),
            said._replace(name=f"{case.name}, to a journal", journal=True))


def numbered_words(heading):
    """The numbers and the words of a page's table of faults, by its heading."""
    table = PAGE.split(f"\n## {heading}\n")[1].split("\n## ")[0]
    return re.findall(r"(?m)^\| (\d+) \w+ \| (.*) \|$", table)


def in_short(kind):
    """The words of a kind's faults in front of the colon, by number, as they stand by hand."""
    table = WORKED.split("\n## fault_words\n")[1].split("\n## ")[0]
    row = re.search(rf"(?m)^\| {kind} \| (.*) \|$", table)[1]
    return dict(part.split(" ", 1) for part in row.split("; "))


def load(name, database, instance, exams, pairs, periods, rooms):
    line = b"loaded exams %d pairs %d periods %d rooms %d\n" % (exams, pairs, periods, rooms)
    return Case(name, ("load", "--db", database, instance), 0, line)


def unloaded(name, database, instance, text):
    return Case(name, ("load", "--db", database, instance), 1, b"", b"examoffice: %s\n" % text)


def served(database="served.db", port="0", connections="1", *more):
    return ("serve", "--db", database, "--port", port, "--connections", connections, *more)


def unexported(name, database, text):
    return Case(name, ("export", "--db", database), 1, b"", b"examoffice: %s\n" % text)


def usage(name, *words):
    return Case(name, words, 2, b"", Holding())


KINDS = {
    "file": [(number, words) for number, words, _, _ in FAULTS],
    "store": numbered_words("Faults of the store"),
    "connection": numbered_words("Faults of a connection"),
}

CASES = [
    check("the small example", "small.exam", "small.sol", GOOD),
    check("two exams in one room", "small.exam", "together.sol", TOGETHER),
    check("an exam too early", "small.exam", "early.sol", EARLY, "After 1 0"),
    check("a room too small", "small.exam", "crowded.sol", CROWDED,
          "Clash 0 1", "Capacity 0 0", "Capacity 1 1", "After 1 0"),
    check("an exam with another in its room", "alone.exam", "together.sol", TOGETHER,
          "Exclusion 2 3", "RoomExclusive 2 3"),
    check("an exam with another in its room, by lines that come twice", "alone_twice.exam",
          "together.sol",
          TOGETHER, "Exclusion 2 3", "RoomExclusive 2 3"),
    check("over night", "nights.exam", "early.sol", NIGHTLY, "After 1 0"),
    check("over a weekend", "weekend.exam", "early.sol", EARLY, "After 1 0"),
    why("each summand", "small.exam", "small.sol", GOOD, [], "row 0 1 1 7", "day 0 3 1 5",
        "spread 0 1 1 1", "spread 1 2 1 1", "spread 0 3 1 1", "period 2 1 10", "period 3 1 5",
        "room 1 1 7"),
    why("mixed durations, and two exams in a room", "small.exam", "together.sol", TOGETHER, [],
        "row 0 1 1 7", "spread 0 1 1 1", "spread 1 2 1 1", "spread 0 3 1 1", "mixed 1 3 2 10",
        "period 3 2 10", "room 1 2 14"),
    why("the front load, with a breach", "small.exam", "early.sol", EARLY, ["After 1 0"],
        "spread 0 1 1 1", "spread 1 2 1 1", "spread 0 3 1 1", "front 0 2 4", "period 2 1 10",
        "period 3 2 10", "room 1 1 7"),
    why("a night", "nights.exam", "early.sol", NIGHTLY, ["After 1 0"], "spread 0 1 1 1",
        "spread 1 2 1 1", "spread 0 3 1 1", "night 0 3 1 6", "front 0 2 4", "period 2 1 10",
        "period 3 2 10", "room 1 1 7"),
    why("nothing to explain", "smallest.exam", "smallest.sol", [0] * 8, []),
    why("students of very many exams", "busy.exam", "busy.sol",
        [21 * (BUSY // 2), 0, 3 * (BUSY - 1), 0, 0, 0, 0, 0], [],
        *(f"row {exam} {exam + 1} 3 21" for exam in range(0, BUSY, 2)),
        *(f"spread {exam} {exam + 1} 3 3" for exam in range(BUSY - 1))),
    why_for("a student of very many exams", ("busy.exam", "busy.sol",
            [21 * (BUSY // 2), 0, 3 * (BUSY - 1), 0, 0, 0, 0, 0]), "2",
            *(f"row {exam} {exam + 1} 1 7" for exam in range(0, BUSY, 2)),
            *(f"spread {exam} {exam + 1} 1 1" for exam in range(BUSY - 1)),
            f"student 2 {7 * (BUSY // 2) + BUSY - 1}"),
    piped(why("the summands of a session", "-", "small.sol", GOOD, [], "row 0 1 1 7",
              "day 0 3 1 5", "spread 0 1 1 1", "spread 1 2 1 1", "spread 0 3 1 1",
              "period 2 1 10", "period 3 1 5", "room 1 1 7"), "small.exam"),
    Case("the summands of a faulty solution", ("check", "--why", "small.exam", "three.sol"), 1,
         b"", b"examoffice: solution line 4: fault 3\n"),
    Case("the summands of no solution", ("check", "--why", "small.exam", "none.sol"), 1, b"",
         b"examoffice: cannot read none.sol\n"),
    Case("the summands to a full device", ("check", "--why", "small.exam", "small.sol"), 1, b"",
         b"examoffice: cannot write\n", "/dev/full"),
    why_for("the summands of student 1", SMALL, "1", "day 0 3 1 5", "spread 0 3 1 1",
            "student 1 6"),
    why_for("the summands of student 2", SMALL, "2", "row 0 1 1 7", "spread 0 1 1 1",
            "student 2 8"),
    why_for("the summands of student 3", SMALL, "3", "spread 1 2 1 1", "student 3 1"),
    why_for("the summands of a student of no exam", SMALL, "4", "student 4 0"),
    why_for("the summands of the greatest number of a student", SMALL, "999999999",
            "student 999999999 0"),
    why_for("a student's night, with a breach", ("nights.exam", "early.sol", NIGHTLY, "After 1 0"),
            "1", "spread 0 3 1 1", "night 0 3 1 6", "student 1 7"),
    why_for("a student whose exams clash", ("small.exam", "crowded.sol", CROWDED,
                                            *JUDGED["crowded.sol"][0]), "2", "student 2 0"),
    why_for("a student of the smallest session", ("smallest.exam", "smallest.sol", [0] * 8), "0",
            "student 0 0"),
    piped(why_for("a student of a session", ("-", "small.sol", GOOD), "3", "spread 1 2 1 1",
                  "student 3 1"), "small.exam"),
    Case("a student in a faulty solution", ("check", "--why", "--student", "1", "small.exam",
                                            "three.sol"), 1, b"",
         b"examoffice: solution line 4: fault 3\n"),
    Case("a student to a full device", ("check", "--why", "--student", "1", "small.exam",
                                        "small.sol"), 1, b"",
         b"examoffice: cannot write\n", "/dev/full"),
    check_json("a solution as JSON", "small.exam", "small.sol", GOOD),
    *(check_json(f"breaches as JSON: {path}", "small.exam", path, penalties, *breaches)
      for path, (breaches, penalties) in JUDGED.items() if breaches),
    check_json("breaches of further rules as JSON", "alone.exam", "together.sol", TOGETHER,
               "Exclusion 2 3", "RoomExclusive 2 3"),
    check_json("a night as JSON", "nights.exam", "early.sol", NIGHTLY, "After 1 0"),
    check_json("the smallest instance as JSON", "smallest.exam", "smallest.sol", [0] * 8),
    piped(check_json("a solution as JSON", "small.exam", "-", GOOD), "small.sol"),
    Case("a name of two lines, as JSON", ("check", "--json", "small.exam", BROKEN), 0,
         b'{"breaches":0,"broken":[],"day":5,"front":0,"mixed":0,"night":0,'
         b'"path":"two\\nlines\x7f.sol","period":15,"room":7,"row":7,"spread":3,"total":37}\n'),
    Case("a faulty solution as JSON", ("check", "--json", "small.exam", "three.sol"), 1, b"",
         b"examoffice: solution line 4: fault 3\n"),
    Case("JSON to a full device", ("check", "--json", "small.exam", "small.sol"), 1, b"",
         b"examoffice: cannot write\n", "/dev/full"),
    *(usage(f"forms of a check: {' '.join(words)}", "check", *words, "small.exam", "small.sol")
      for words in (("--student", "1"), ("--why", "--json"), ("--json", "--student", "1"),
                    ("--why", "--student", "1", "--json"), ("--why", "--student", "1000000000"),
                    ("--why", "--student", "4294967297"), ("--why", "--student", "one"),
                    ("--why", "--student", ""), ("--why", "--student", "-1"),
                    ("--why", "--student"), ("--why", "--student", "1", "--student", "2"))),
    compare("one exam moved", ("small.exam", "small.sol", "together.sol"), ["3 2 0 3 1"], 1, GOOD,
            TOGETHER),
    compare("two exams moved, and a student of both",
            ("small.exam", "early.sol", "crowded.sol"), ["0 3 0 0 0", "1 1 0 0 0"], 3, EARLY,
            CROWDED, ["Clash 0 1", "Capacity 0 0", "Capacity 1 1"]),
    compare("two exams moved back", ("small.exam", "crowded.sol", "early.sol"),
            ["0 0 0 3 0", "1 0 0 1 0"], 3, CROWDED, EARLY,
            lost=["Clash 0 1", "Capacity 0 0", "Capacity 1 1"]),
    compare("another breach in the place of one", ("alone.exam", "early.sol", "together.sol"),
            ["0 3 0 0 0", "3 2 0 3 1"], 2, EARLY, TOGETHER,
            ["Exclusion 2 3", "RoomExclusive 2 3"], ["After 1 0"]),
    compare("another room only", ("small.exam", "small.sol", "room.sol"), ["3 2 0 2 1"], 1, GOOD,
            [7, 5, 3, 0, 0, 0, 15, 14]),
    compare("a solution and itself", ("small.exam", "crowded.sol", "crowded.sol"), [], 0, CROWDED,
            CROWDED),
    *(piped(compare(f"a comparison with {name}", files, ["3 2 0 3 1"], 1, GOOD, TOGETHER), file)
      for name, file, files in (
          ("its session", "small.exam", ("-", "small.sol", "together.sol")),
          ("its first solution", "small.sol", ("small.exam", "-", "together.sol")),
          ("its second solution", "together.sol", ("small.exam", "small.sol", "-")))),
    uncompared("a comparison of a faulty session", ("five.exam", "three.sol", "five.sol"),
               b"examoffice: instance line 1: fault 3"),
    uncompared("a comparison of two faulty solutions", ("small.exam", "three.sol", "five.sol"),
               b"three.sol: examoffice: solution line 4: fault 3"),
    uncompared("a comparison of a faulty second solution", ("small.exam", "small.sol", "five.sol"),
               b"five.sol: examoffice: solution line 5: fault 3"),
    uncompared("a comparison without its session", ("none.exam", "none.sol", "none.sol"),
               b"examoffice: cannot read none.exam"),
    uncompared("a comparison without its first solution", ("five.exam", "no.sol", "none.sol"),
               b"examoffice: cannot read no.sol"),
    uncompared("a comparison without its second solution", ("five.exam", "small.sol", "none.sol"),
               b"examoffice: cannot read none.sol"),
    *with_cause(uncompared("a comparison of a solution that ends early",
                           ("small.exam", "small.sol", "three.sol"),
                           b"three.sol: examoffice: solution line 4: fault 3"),
                b"three.sol line 4: wrong count"),
    *with_cause(piped(uncompared("a comparison of a faulty solution",
                                 ("small.exam", "small.sol", "-"),
                                 b"-: examoffice: solution line 4: fault 3"), "three.sol"),
                b"standard input line 4: wrong count"),
    uncompared("a comparison of a name of two lines", ("small.exam", "small.sol", f"no {BROKEN}"),
               b"examoffice: cannot read no " + PRINTED),
    uncompared("a comparison of a faulty solution with a name of two lines",
               ("small.exam", SHORT, "small.sol"),
               b"three\\x0alines.sol: examoffice: solution line 4: fault 3"),
    Case("a comparison to a full device", ("compare", "small.exam", "small.sol", "early.sol"), 1,
         b"", b"examoffice: cannot write\n", "/dev/full"),
    piped(check("a session", "-", "early.sol", EARLY, "After 1 0"), "small.exam"),
    piped(check("a solution", "small.exam", "-", GOOD), "small.sol"),
    piped(fault("a faulty session", "-", "small.sol", b"instance line 1: fault 3"), "five.exam"),
    piped(fault("a solution that ends early", "small.exam", "-", b"solution line 4: fault 3"),
          "three.sol"),
    piped(fault("a session, and no solution", "-", "none.sol", b"cannot read none.sol"),
          "small.exam"),
    piped(places("the places of an exam by a solution", "small.exam", "-", 3, ",Clash,0,3",
                 ",Clash,0,3", 39, 36, 37, 44, 27, 44), "small.sol"),
    piped(places("the places of an exam by a session", "-", "small.sol", 3, ",Clash,0,3",
                 ",Clash,0,3", 39, 36, 37, 44, 27, 44), "small.exam"),
    piped(Case("one of many solutions", ("check-all", "small.exam", "early.sol", "-"), 3,
               b"1 34 0 0 3 0 0 4 20 7 early.sol\n0 37 7 5 3 0 0 0 15 7 -\n"), "small.sol"),
    piped(Case("the session of many solutions", ("check-all", "-", "early.sol", "none.sol"), 1,
               b"1 34 0 0 3 0 0 4 20 7 early.sol\n",
               b"none.sol: examoffice: cannot read none.sol\n"), "small.exam"),
    fault("a folder as standard input", "small.exam", "-", b"cannot read -")._replace(
        piped="a folder"),
    fault("a file named as standard input is", "small.exam", "./-", b"solution line 1: fault 4"),
    *(usage(f"standard input twice: {words[0]}", *words)._replace(piped="small.sol")
      for words in (("check", "-", "-"), ("check", "--why", "-", "-"),
                    ("check", "--why", "--student", "1", "-", "-"), ("check", "--json", "-", "-"),
                    ("check", "--json", "--why", "-", "-"), ("places", "-", "-", "0"),
                    ("check-all", "-", "-"), ("check-all", "small.exam", "-", "-"),
                    ("compare", "-", "-", "small.sol"), ("compare", "-", "small.sol", "-"),
                    ("compare", "small.exam", "-", "-"), ("compare", "-", "-", "-"),
                    ("check-all", "-", "small.sol", "-"))),
    fault("a name of two lines that can't be read", "small.exam", f"no {BROKEN}",
          b"cannot read no " + PRINTED),
    Case("names of two lines", ("check-all", "small.exam", BROKEN, f"no {BROKEN}"), 1,
         b"0 37 7 5 3 0 0 0 15 7 " + PRINTED + b"\n",
         b"no " + PRINTED + b": examoffice: cannot read no " + PRINTED + b"\n"),
    Case("a name of two lines, as JSON", ("check-all", "--json", "small.exam", BROKEN), 0,
         b'{"breaches":0,"broken":[],"day":5,"front":0,"mixed":0,"night":0,'
         b'"path":"two\\nlines\x7f.sol","period":15,"room":7,"row":7,"spread":3,"total":37}\n'),
    check("a name with a backslash and with other letters", "small.exam", "back\\x0a \u00e9.sol",
          GOOD),
    fault("such a name that can't be read", "small.exam", "no back\\x0a \u00e9.sol",
          "cannot read no back\\x0a \u00e9.sol".encode()),
    fault("the weight of nights twice", "twice.exam", "early.sol", b"instance line 24: fault 9"),
    check("the smallest instance", "smallest.exam", "smallest.sol", [0] * 8),
    check("lines that end with CR LF", "crlf.exam", "crlf.sol", GOOD),
    check("CR LF, blank lines and an exam with no student", "blank.exam", "small.sol",
          [7, 0, 2, 0, 0, 0, 15, 7]),
    check("paths with spaces", "a folder/the exam", "./a folder/the solution", GOOD),
    check("paths from the root", str(EXAMPLES / "small.exam"), str(EXAMPLES / "small.sol"), GOOD),
    check("an instance of the greatest length", "at_limit.exam", "small.sol", GOOD),
    check("a solution of the greatest length", "small.exam", "at_limit.sol", GOOD),
    fault("no instance", "none.exam", "small.sol", b"cannot read none.exam"),
    fault("no solution", "small.exam", "none.sol", b"cannot read none.sol"),
    fault("neither file", "none.exam", "none.sol", b"cannot read none.exam"),
    fault("no solution to a faulty instance", "empty.exam", "none.sol", b"cannot read none.sol"),
    fault("no solution to a folder", "a folder", "none.sol", b"cannot read none.sol"),
    fault("a folder as instance", "a folder", "small.sol", b"cannot read a folder"),
    fault("a folder as solution", "small.exam", "a folder", b"cannot read a folder"),
    fault("a faulty instance and a folder", "five.exam", "a folder", b"instance line 1: fault 3"),
    fault("an empty instance", "empty.exam", "small.sol", b"instance line 1: fault 2"),
    fault("a header with a wrong count", "five.exam", "small.sol", b"instance line 1: fault 3"),
    fault("a day that April lacks", "april.exam", "small.sol", b"instance line 8: fault 5"),
    fault("an instance that is too long", "long.exam", "small.sol", b"instance line 0: fault 1"),
    fault("both files faulty", "april.exam", "three.sol", b"instance line 8: fault 5"),
    fault("a line too few", "small.exam", "three.sol", b"solution line 4: fault 3"),
    fault("a line too many", "small.exam", "five.sol", b"solution line 5: fault 3"),
    fault("a period that is not there", "small.exam", "beyond.sol", b"solution line 2: fault 8"),
    fault("a solution that is too long", "small.exam", "long.sol", b"solution line 0: fault 1"),
    Case("a full device", ("check", "small.exam", "small.sol"), 1, b"",
         b"examoffice: cannot write\n", "/dev/full"),
    *check_all("one solution", ["small.sol"], 0),
    *check_all("solutions without a breach, one of them twice",
               ["together.sol", "small.sol", "./a folder/the solution", "together.sol"], 0),
    *check_all("solutions of which two have breaches",
               ["crowded.sol", "small.sol", "crlf.sol", "early.sol"], 3),
    *check_all("solutions of which four have faults",
               ["three.sol", "early.sol", "none.sol", "small.sol", "long.sol", "a folder"], 1,
               b"three.sol: examoffice: solution line 4: fault 3\n"
               b"none.sol: examoffice: cannot read none.sol\n"
               b"long.sol: examoffice: solution line 0: fault 1\n"
               b"a folder: examoffice: cannot read a folder\n"),
    *check_all("many solutions",
               ["crowded.sol", "small.sol", *["together.sol", "early.sol"] * 9], 3),
    *check_all("many solutions of which one has a fault",
               ["crowded.sol", "three.sol", *["together.sol", "early.sol"] * 9], 1,
               b"three.sol: examoffice: solution line 4: fault 3\n"),
    *check_all("no solution that can be judged", ["odd.sol"], 1,
               b"odd.sol: examoffice: solution line 2: fault 4\n"),
    Case("a solution over night", ("check-all", "nights.exam", "early.sol"), 3,
         b"1 40 0 0 3 6 0 4 20 7 early.sol\n"),
    Case("a solution over night, as JSON", ("check-all", "--json", "nights.exam", "early.sol"), 3,
         b'{"breaches":1,"broken":[{"exam":1,"other":0,"rule":"After"}],"day":0,"front":4,'
         b'"mixed":0,"night":6,"path":"early.sol","period":20,"room":7,"row":0,"spread":3,'
         b'"total":40}\n'),
    Case("many solutions over night", ("check-all", "nights.exam", *["early.sol"] * 20), 3,
         b"1 40 0 0 3 6 0 4 20 7 early.sol\n" * 20),
    # From 20 solutions on, the pairs of exams that share a student are listed first.
    *many("shared.exam", ("small.sol", [], SHARED),
          ("crowded.sol", JUDGED["crowded.sol"][0], SHARED_CROWDED)),
    *many("saturday.exam", ("small.sol", [], SATURDAY), ("late.sol", ["Duration 2 2"], LATE)),
    Case("solutions of a faulty session", ("check-all", "five.exam", "small.sol", "none.sol"), 1,
         b"", b"examoffice: instance line 1: fault 3\n"),
    Case("solutions of a session that isn't there", ("check-all", "none.exam", "small.sol"), 1,
         b"", b"examoffice: cannot read none.exam\n"),
    Case("solutions printed to a full device",
         ("check-all", "small.exam", "three.sol", "small.sol", "none.sol"), 1, b"",
         b"three.sol: examoffice: solution line 4: fault 3\nexamoffice: cannot write\n",
         "/dev/full"),
    places("the places of exam 0", "small.exam", "small.sol", 0,
           37, 44, ",Clash,0,1", ",Clash,0,1", ",Duration,0,0", ",Duration,0,0",
           ",After,1,0", ",Capacity,0,0"),
    places("the places of exam 1", "small.exam", "small.sol", 1,
           ",Clash,0,1", ",Clash,0,1", 37, 44, 55, 52, ",Clash,1,2", ",Clash,1,2"),
    places("the places of exam 2", "small.exam", "small.sol", 2,
           32, 39, ",Clash,1,2", ",Clash,1,2", ",Duration,2,2", ",Duration,2,2", 30, 37),
    places("the places of exam 3", "small.exam", "small.sol", 3,
           ",Clash,0,3", ",Clash,0,3", 39, 36, 37, 44, 27, 44),
    places("the places of an exam where others break rules", "small.exam", "crowded.sol", 3,
           ",Clash,0,3", ",Clash,0,3", 31, 38, 39, 46, 29, 46),
    places("the places of an exam that breaks rules", "small.exam", "crowded.sol", 1,
           ",Clash,0,1", ",Clash,0,1", 37, 44, 55, 52, ",Clash,1,2", ",Clash,1,2"),
    places("the places of an exam without students", "blank.exam", "small.sol", 3,
           31, 28, 31, 28, 31, 38, 26, 43),
    places("a room without seats", "no_seats.exam", "small.sol", 3,
           31, 28, 31, 28, 31, 38, 26, ",Capacity,3,3"),
    places("one place", "smallest.exam", "smallest.sol", 0, 0),
    unlisted("the exam after the last", "small.exam", "small.sol", 4, b"no exam 4"),
    unlisted("the greatest number of an exam", "small.exam", "small.sol", 1999, b"no exam 1999"),
    unlisted("the places by a faulty instance", "five.exam", "three.sol", 4,
             b"instance line 1: fault 3"),
    unlisted("the places by a faulty solution", "small.exam", "three.sol", 4,
             b"solution line 4: fault 3"),
    unlisted("the places by no solution", "small.exam", "none.sol", 0, b"cannot read none.sol"),
    Case("places printed to a full device", ("places", "small.exam", "small.sol", "0"), 1, b"",
         b"examoffice: cannot write\n", "/dev/full"),
    load("a new database", "term.db", "small.exam", 4, 6, 4, 2),
    unloaded("a second load", "term.db", "small.exam", b"store fault 1"),
    unloaded("a second load, of a faulty instance", "term.db", "april.exam",
             b"instance line 8: fault 5"),
    unloaded("an empty instance to load", "spring.db", "empty.exam", b"instance line 1: fault 2"),
    load("the smallest instance in an empty file", "empty.db", "smallest.exam", 1, 0, 1, 1),
    unloaded("a faulty instance", "spring.db", "five.exam", b"instance line 1: fault 3"),
    load("a right instance after a faulty one", "spring.db", "small.exam", 4, 6, 4, 2),
    Case("the database after the instance", ("load", "crlf.exam", "--db=crlf.db"), 0,
         b"loaded exams 4 pairs 6 periods 4 rooms 2\n"),
    Case("a load printed to a full device", ("load", "--db", "full.db", "small.exam"), 1, b"",
         b"examoffice: cannot write\n", "/dev/full"),
    unloaded("a load that was not printed", "full.db", "small.exam", b"store fault 1"),
    unloaded("no instance to load", "none.db", "none.exam", b"cannot read none.exam"),
    unloaded("neither instance nor database", "none/none.db", "none.exam",
             b"cannot read none.exam"),
    unloaded("a folder to load", "none.db", "a folder", b"cannot read a folder"),
    unloaded("an instance to load that is too long", "none/none.db", "long.exam",
             b"instance line 0: fault 1"),
    unloaded("a database in no folder", "none/none.db", "small.exam", b"cannot open database"),
    unloaded("a folder as database", "a folder", "small.exam", b"cannot open database"),
    unloaded("a file that is no database", "small.sol", "small.exam", b"cannot open database"),
    unloaded("a database in memory", ":memory:", "small.exam", b"cannot open database"),
    unloaded("a URI as database", "file:term.db", "small.exam", b"cannot open database"),
    unexported("an export of a URI", "file:term.db", b"cannot open database"),
    Case("a server of a URI", served("file:term.db"), 1, b"",
         b"examoffice: cannot open database\n"),
    Case("a server of a database in no folder", served("none/none.db"), 1, b"",
         b"examoffice: cannot open database\n"),
    Case("a server of a file that is no database", served("small.sol"), 1, b"",
         b"examoffice: cannot open database\n"),
    Case("a server that prints to a full device", served(), 1, b"",
         b"examoffice: cannot write\n", "/dev/full"),
    unexported("an export where nothing is published", "term.db", b"no publication"),
    unexported("an export of an empty file", "bare.db", b"store fault 9"),
    unexported("an export, where no office was made", "bare.db", b"store fault 9"),
    unexported("an export of a database in no folder", "none/none.db", b"cannot open database"),
    unexported("an export of a file that is no database", "small.sol", b"cannot open database"),
    Case("words that are no texts", (b"check\xff",), 2, b"",
         b"error: the words are not all UTF-8\n"),
    unexported("an export of a file that isn't there", "absent.db", b"cannot open database"),
    *(Case(f"{kind} fault {number} in words", ("explain", kind, number), 0,
           f"{in_short(kind)[number]}: {words.split(': ', 1)[1]}\n".encode())
      for kind, rows in KINDS.items() for number, words in rows),
    *(Case(f"{kind} fault {number}, which isn't one", ("explain", kind, str(number)), 2, b"",
           Holding(b"there is no such fault: file has 1 to 13, store 1 to 9, connection 1 to 4"))
      for kind, rows in KINDS.items() for number in (0, len(rows) + 1, 14, 999999999)),
    Case("a fault of no kind", ("explain", "door", "1"), 2, b"",
         Holding(b"there is no such fault")),
    Case("a fault printed to a full device", ("explain", "file", "5"), 1, b"",
         b"examoffice: cannot write\n", "/dev/full"),
    *(Case(f"the version by {word}", (word,), 0, Holding(f"examoffice {VERSION}, ".encode()),
           AnyOf(b"", OLDER)) for word in ("-V", "--version")),
    Case("help names the explanation", ("--help",), 0, Holding(b"\n  explain "), b""),
    Case("help", ("--help",), 0, Holding(b"check"), b""),
    Case("help names the load", ("--help",), 0, Holding(b"load"), b""),
    Case("help for the load", ("load", "--help"), 0, Holding(b"--db <FILE>"), b""),
    Case("help for the server", ("serve", "--help"), 0, Holding(b"--patience <SECONDS>"), b""),
    Case("help for the export", ("export", "--help"), 0, Holding(b"--db <FILE>"), b""),
    Case("help for the check", ("check", "--help"), 0, Holding(b"check"), b""),
    *(Case(f"help for fault {number}", ("check", "--help"), 0,
           Holding(f"\n{number:>4}  {words}\n".encode()), b"")
      for number, words, _, _ in FAULTS),
    *(fault(f"the page's line of fault {number}", f"fault{number}.exam", "small.sol",
            f"instance line {line}: fault {number}".encode())
      for number, _, line, _ in FAULTS if line),
    *(Case(f"help with an example and statuses: {name}", (name, "--help"), 0,
           Holding(f"\nExample:\n  examoffice {name} ".encode()), b"")
      for name in ("check", "check-all", "places", "compare", "load", "serve", "export",
                   "explain")),
    *(Case(f"help with statuses: {name}", (name, "--help"), 0,
           Holding(b"\nExit status:\n  0  "), b"")
      for name in ("check", "check-all", "places", "compare", "load", "serve", "export",
                   "explain")),
    *(Case(f"help for {kind} fault {number}: {name}", (name, "--help"), 0,
           Holding(f"\n  {number}  {words}\n".encode()), b"")
      for name, kind, numbers in (("load", "store", "189"), ("export", "store", "89"),
                                  ("serve", "store", "89"), ("serve", "connection", "1234"))
      for number, words in KINDS[kind] if number in numbers),
    *(Case(f"help within 80 columns: {name}", (*name, "--help"), 0, Within(80), b"")
      for name in ((), ("check",), ("check-all",), ("places",), ("compare",), ("load",),
                   ("serve",), ("export",), ("explain",))),
    on_terminal(load("a small instance", "small.db", "small.exam", 4, 6, 4, 2)),
    on_terminal(load("a large instance", "padded.db", "at_limit.exam", 4, 6, 4, 2),
                b"loading at_limit.exam"),
    load("many enrolments", "large.db", "many.exam", 2_000, 200_000, 1, 1),
    on_terminal(unloaded("a load into a large database", "large.db", "small.exam",
                         b"store fault 1\nlarge.db: loaded: the office has a session already"),
                b"opening large.db"),
    on_terminal(unexported("an export of a small database", "small.db", b"no publication")),
    on_terminal(unexported("an export of a large database", "large.db", b"no publication"),
                b"opening large.db"),
    on_terminal(Case("a server of a large database", served("large.db"), 1, b"",
                     b"examoffice: cannot write\nstandard output: closed, or its disk is full\n",
                     "/dev/full"), b"opening large.db"),
    Case("a server of a new file, on a terminal", served("new.db"), 1, b"",
         b"examoffice: new.db is new: an office without a session\nexamoffice: cannot write\n"
         b"standard output: closed, or its disk is full\n", "/dev/full", True),
    on_terminal(Case("a server of a file that is there", served("new.db"), 1, b"",
                     b"examoffice: cannot write\nstandard output: closed, or its disk is full\n",
                     "/dev/full")),
    *with_cause(fault("a day that April lacks", "april.exam", "small.sol",
                      b"instance line 8: fault 5"),
                b"april.exam line 8: no such date: 31:04:2005, 14:00:00, 120, 0"),
    *with_cause(fault("an instance that is too long", "long.exam", "small.sol",
                      b"instance line 0: fault 1"), b"long.exam: too long"),
    *with_cause(fault("a byte order mark in front of a session", "marked.exam", "small.sol",
                      b"instance line 1: fault 2"),
                b"marked.exam line 1: a byte order mark is in front of the text:    [Exams:4]"),
    *with_cause(fault("a byte order mark in front of a solution", "small.exam", "marked.sol",
                      b"solution line 1: fault 4"),
                b"marked.sol line 1: a byte order mark is in front of the text:    0, 0"),
    *with_cause(piped(fault("a faulty session", "-", "small.sol", b"instance line 1: fault 3"),
                      "five.exam"), b"standard input line 1: wrong count"),
    *with_cause(piped(fault("a marked session", "-", "small.sol", b"instance line 1: fault 2"),
                      "marked.exam"),
                b"standard input line 1: no header, or a byte order mark is in front of the text"),
    *with_cause(piped(fault("a marked solution", "small.exam", "-", b"solution line 1: fault 4"),
                      "marked.sol"),
                b"standard input line 1: no number, or a byte order mark is in front of the text"),
    *with_cause(fault("a name of two lines", "small.exam", f"no {BROKEN}",
                      b"cannot read no " + PRINTED),
                b"no " + PRINTED + b": No such file or directory (os error 2)"),
    *with_cause(fault("an empty instance", "empty.exam", "small.sol",
                      b"instance line 1: fault 2"), b"empty.exam line 1: no header"),
    *with_cause(fault("a line too few", "small.exam", "three.sol", b"solution line 4: fault 3"),
                b"three.sol line 4: wrong count"),
    *with_cause(fault("a line with bytes that don't print", "small.exam", "odd.sol",
                      b"solution line 2: fault 4"), b"odd.sol line 2: no number: 1  [31m x, 0"),
    *with_cause(fault("a solution given as the session", "small.sol", "small.sol",
                      b"instance line 1: fault 2"),
                b"small.sol line 1: a solution, not a session: 0, 0"),
    *with_cause(fault("a session given as the solution", "small.exam", "small.exam",
                      b"solution line 1: fault 4"),
                b"small.exam line 1: a session, not a solution: [Exams:4]"),
    *with_cause(unloaded("a solution to load", "wrong.db", "small.sol",
                         b"instance line 1: fault 2"),
                b"small.sol line 1: a solution, not a session: 0, 0"),
    *with_cause(fault("no instance", "none.exam", "small.sol", b"cannot read none.exam"),
                b"none.exam: No such file or directory (os error 2)"),
    *with_cause(fault("a folder as solution", "small.exam", "a folder", b"cannot read a folder"),
                b"a folder: Is a directory (os error 21)"),
    *with_cause(unloaded("a database in no folder", "none/none.db", "small.exam",
                         b"cannot open database"),
                b"none/none.db: No such file or directory (os error 2)"),
    *with_cause(unloaded("a folder as database", "a folder", "small.exam",
                         b"cannot open database"),
                b"a folder: Is a directory (os error 21)"),
    *with_cause(unloaded("a file that is no database", "small.sol", "small.exam",
                         b"cannot open database"),
                b"small.sol: file is not a database that obeys its schema"),
    *with_cause(unexported("an export of an empty file", "bare.db", b"store fault 9"),
                b"bare.db: no office: the tables in the database are not those of an office"),
    *with_cause(unexported("an export of a file that isn't there", "absent.db",
                           b"cannot open database"),
                b"absent.db: No such file or directory (os error 2)"),
    *with_cause(Case("a check to a full device", ("check", "small.exam", "small.sol"), 1, b"",
                     b"examoffice: cannot write\n", "/dev/full"),
                b"standard output: closed, or its disk is full"),
    unexported("an export of a large database", "large.db", b"no publication"),
    usage("no words"),
    usage("an unknown command", "frobnicate"),
    usage("an unknown option", "--frobnicate"),
    usage("no solution of a session", "check-all", "small.exam"),
    usage("no exam to place", "places", "small.exam", "small.sol"),
    usage("one solution to compare", "compare", "small.exam", "small.sol"),
    usage("three solutions to compare", "compare", "small.exam", *["small.sol"] * 3),
    usage("an exam that is no number", "places", "small.exam", "small.sol", "MATH101"),
    usage("an exam beyond every session", "places", "small.exam", "small.sol", "2000"),
    usage("an exam below 0", "places", "small.exam", "small.sol", "-1"),
    usage("two exams to place", "places", "small.exam", "small.sol", "0", "1"),
    usage("no kind of a fault", "explain"),
    usage("no number of a fault", "explain", "file"),
    usage("a fault without its kind", "explain", "5"),
    usage("a fault that is no number", "explain", "file", "five"),
    usage("the version after a command", "check", "--version"),
    usage("no files", "check"),
    usage("one file", "check", "small.exam"),
    usage("three files", "check", "small.exam", "small.sol", "small.sol"),
    usage("a load into no database", "load", "small.exam"),
    usage("a load of no instance", "load", "--db", "none.db"),
    usage("a load into two databases", "load", "--db", "a.db", "--db", "b.db", "small.exam"),
    usage("a server of no database", "serve", "--port", "0", "--connections", "1"),
    usage("a server on no port", "serve", "--db", "served.db", "--connections", "1"),
    usage("a server without end", "serve", "--db", "served.db", "--port", "0"),
    usage("a server on a port beyond the last", *served(port="65536")),
    usage("a server on no number", *served(port="http")),
    usage("a server of no connection", *served(connections="0")),
    usage("a server of too many connections", *served(connections="1000001")),
    usage("a server of no patience", *served("served.db", "0", "1", "--patience", "0")),
    usage("a server of too much patience", *served("served.db", "0", "1", "--patience", "86401")),
    usage("an export of no database", "export"),
    usage("an export of two databases", "export", "--db", "a.db", "--db", "b.db"),
    usage("an export of a file that no option names", "export", "term.db"),
    usage("a check with an unknown option", "check", "--frobnicate", "small.exam", "small.sol"),
]


def run(program, case, folder):
    """Returns how it ended: its status, standard output and standard error."""
    output = open(case.device, "wb") if case.device else subprocess.PIPE
    screen = os.openpty() if case.terminal else None
    journal = {"JOURNAL_STREAM": "8:1"} if case.journal else {}
    source = (os.open(pathlib.Path(folder, case.piped), os.O_RDONLY) if case.piped
              else subprocess.DEVNULL)
    if screen:
        tty.setraw(screen[1])
    try:
        done = waiting.run([program, *case.words], cwd=folder, stdin=source, stdout=output,
                           stderr=screen[1] if screen else subprocess.PIPE,
                           env={**os.environ, **journal}, timeout=SECONDS)
        shown = all_shown(screen) if screen else done.stderr
    except subprocess.TimeoutExpired:
        return f"no end after {SECONDS} seconds", b"", b""
    finally:
        if case.device:
            output.close()
        if case.piped:
            os.close(source)
        for end in screen or ():
            os.close(end)
    return done.returncode, done.stdout or b"", shown


def all_shown(screen):
    """Returns what a terminal shows; a NUL that is written after it marks its end."""
    os.write(screen[1], b"\0")
    shown = b""
    while not shown.endswith(b"\0"):
        shown += os.read(screen[0], 65_536)
    return shown[:-1]


def logs_of_exports(program, folder):
    """Returns the names of the logs that exports of files without a database leave."""
    for name, text in (("note.txt", b"no database\n"), ("long.txt", b"text " * 9000),
                       ("nothing.db", b"")):
        pathlib.Path(folder, name).write_bytes(text)
        waiting.run([program, "export", "--db", name], cwd=folder, capture_output=True,
                    timeout=SECONDS)
    return sorted(path.name for path in pathlib.Path(folder).glob("[nl]o*-wal"))


def schema_faults(output):
    """Returns how lines of JSON differ from the schema of the docs."""
    schema = json.loads((TOP / "docs" / "verdict.schema.json").read_text(encoding="utf-8"))
    validator = jsonschema.Draft202012Validator(schema)
    return [fault.message for line in output.decode().splitlines()
            for fault in validator.iter_errors(json.loads(line))]


def main():
    if len(sys.argv) != 2:
        sys.exit("usage: run_program.py PROGRAM")
    program, judged = str(pathlib.Path(sys.argv[1]).resolve()), Cases("program")
    with tempfile.TemporaryDirectory() as folder:
        for name, text in files().items():
            path = pathlib.Path(folder, name)
            path.parent.mkdir(exist_ok=True)
            path.write_bytes(text)
        for case in CASES:
            came = run(program, case, folder)
            judged.judge(case.name, (case.status, case.stdout, case.stderr), came)
            if jsonschema and "--json" in case.words and came[1]:
                judged.judge(f"{case.name}: the schema", [], schema_faults(came[1]))
        judged.judge("an export makes no file", False, pathlib.Path(folder, "absent.db").exists())
        judged.judge("a URI names no file", [], sorted(pathlib.Path(folder).glob("file:*")))
        judged.judge("an export makes no log beside a file that is no database", [],
                     logs_of_exports(program, folder))
    sys.exit(judged.end())


if __name__ == "__main__":
    main()
