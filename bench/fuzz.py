#!/usr/bin/env python3
"""fuzz.py [--program PATH] [--rounds N] [--seed N]: the same answers on files made at random.

Every second round damages the small files with known answers; the others make small well-formed
instances, on some of which the slow oracle is asked too, also for one student's summands and for an
object of JSON. Each round asks for all summands as well, and compares the solution with one that
has other places, either of them first. The first files on which answers differ are kept and named.
"""
import argparse
import datetime
import pathlib
import random
import shutil
import sys
import tempfile

from checkers import ORACLE, ask, baselines, comparing, difference, program
from known import FAULTS, REPORTS

PIECES = ["\r", "\n", "\r\n", ",", " ", "\t", "[", "]", ":", "0", "00", "-", "1441", "100001", "4",
          "99999999999999999999", "x", "after", "Exclusion", "EXAM_COINCIDENCE", "room_exclusive",
          "[Exams:4]", "[Rooms : 2 ]", "TWOINAROW,3", "FRONTLOAD,2,2,2,", "OVERNIGHT,3",
          "overnight",
          "29:02:2005", "29:02:2004", ",,", ", ", "1, 2", "[InstitutionalWeightings]", "24:00:00",
          "9:5:0",
          "\x00", "\xe9"]
LONGEST = 5_000
# The students of a made instance have smaller numbers.
MOST_STUDENTS = 40
# The periods of an instance are on four days from one of these.
FIRST_DAYS = [datetime.date(*day) for day in ((2005, 1, 1), (2004, 12, 30), (2004, 2, 27),
                                              (2005, 2, 27))]


def damaged_lines(rng, text):
    """The text with one line removed, or written a second time at another place."""
    lines = text.splitlines(True)
    if not lines:
        return text
    line = rng.randrange(len(lines))
    if rng.random() < 0.5:
        lines.insert(rng.randrange(len(lines) + 1), lines[line])
    else:
        del lines[line]
    return "".join(lines)


def damaged(rng, text):
    for _ in range(rng.choice([1, 1, 1, 2, 3])):
        at = rng.randrange(len(text) + 1)
        how = rng.choice(["insert", "remove", "replace", "lines", "lines"])
        if how == "insert":
            text = text[:at] + rng.choice(PIECES) + text[at:]
        elif how == "remove":
            text = text[:at] + text[at + rng.randrange(1, 9):]
        elif how == "replace":
            text = text[:at] + rng.choice(PIECES) + text[at + rng.randrange(1, 4):]
        else:
            text = damaged_lines(rng, text)
    return text


def made(rng):
    """A small well-formed instance and a solution of it."""
    exams, periods, rooms = rng.randrange(1, 60), rng.randrange(1, 12), rng.randrange(1, 4)
    students, first = rng.randrange(1, MOST_STUDENTS), rng.choice(FIRST_DAYS)
    lines = [f"[Exams:{exams}]"]
    for _ in range(exams):
        names = [rng.randrange(students) for _ in range(rng.randrange(0, students + 5))]
        lines.append(", ".join(map(str, [rng.choice([60, 90, 120]), *names])))
    lines.append(f"[Periods:{periods}]")
    days = [first + datetime.timedelta(rng.randrange(4)) for _ in range(periods)]
    lines += [f"{day:%d:%m:%Y}, 9:0:0, {rng.choice([90, 120])}, {rng.choice([0, 7])}"
              for day in days]
    lines.append(f"[Rooms:{rooms}]")
    lines += [f"{rng.randrange(200)}, {rng.choice([0, 5])}" for _ in range(rooms)]
    lines.append("[PeriodHardConstraints]")
    lines += [f"{rng.randrange(exams)}, {rng.choice(['AFTER', 'EXCLUSION', 'EXAM_COINCIDENCE'])}, "
              f"{rng.randrange(exams)}" for _ in range(rng.randrange(12))]
    lines.append("[RoomHardConstraints]")
    lines += [f"{rng.randrange(exams)}, ROOM_EXCLUSIVE" for _ in range(rng.randrange(4))]
    lines += ["[InstitutionalWeightings]", f"TWOINAROW,{rng.randrange(9)}",
              f"TWOINADAY,{rng.randrange(9)}", f"PERIODSPREAD,{rng.randrange(14)}",
              f"NONMIXEDDURATIONS,{rng.randrange(9)}",
              f"FRONTLOAD,{rng.randrange(70)},{rng.randrange(14)},{rng.randrange(9)}",
              *[f"OVERNIGHT,{rng.randrange(9)}" for _ in range(rng.randrange(2))]]
    solution = [f"{rng.randrange(periods)}, {rng.randrange(rooms)}" for _ in range(exams)]
    return "\n".join(lines) + "\n", "\n".join(solution) + "\n"


def moved(rng, solution):
    """The solution with some lines in the place of others."""
    lines = solution.splitlines(True)
    for _ in range(rng.randrange(4) if lines else 0):
        lines[rng.randrange(len(lines))] = rng.choice(lines)
    return "".join(lines)


def texts_of(rng, turn, pool):
    """A session, a solution, and another solution."""
    instance, solution = made(rng) if turn % 2 == 0 else [
        damaged(rng, text) if rng.random() < chance else text
        for text, chance in zip(rng.choice(pool), (0.8, 0.4))]
    other = moved(rng, solution)
    return instance, solution, damaged(rng, other) if turn % 16 == 1 else other


def questions(commands, with_oracle, student, instance, solution, other):
    """What the checkers are asked, each time those that can answer it: commands by name, files,
    flags."""
    one, slow = (instance, solution), {"examoffice": commands["examoffice"], "oracle": ORACLE}
    every = {**commands, **slow} if with_oracle else commands
    yield every, one
    yield commands, one, "--why"
    if with_oracle:
        yield slow, one, "--why", "--student", student
        yield slow, one, "--json"
    comparers = {name: comparing(command) for name, command in every.items()}
    yield comparers, (instance, solution, other)
    yield comparers, (instance, other, solution)


def answers_in(commands, files, *flags):
    """What commands with these flags answer to the files, by name."""
    return {name: ask([*command, *flags], *files) for name, command in commands.items()}


def words():
    parser = argparse.ArgumentParser(description=__doc__)
    parser.add_argument("--program", help="a program other than the release")
    parser.add_argument("--rounds", type=int, default=2_000)
    parser.add_argument("--seed", type=int, default=1)
    return parser.parse_args()


def main():
    given = words()
    rng = random.Random(given.seed)
    commands = {"examoffice": program(given.program), **baselines()}
    if len(commands) == 1:
        sys.exit("fuzz: no baseline to compare with")
    pool = [case[:2] for case in [*REPORTS.values(), *FAULTS.values()] if len(case[0]) < LONGEST]
    folder = tempfile.mkdtemp()
    files = [str(pathlib.Path(folder, name)) for name in ("fuzz.exam", "fuzz.sol", "other.sol")]
    refused = 0
    for turn in range(given.rounds):
        for file, text in zip(files, texts_of(rng, turn, pool)):
            pathlib.Path(file).write_bytes(text.encode("latin-1"))
        student = str(rng.randrange(MOST_STUDENTS + 1))
        asked = questions(commands, turn % 10 == 0, student, *files)
        answers = [answers_in(*question) for question in asked]
        differs = next(filter(None, map(difference, answers)), None)
        if differs:
            sys.exit(f"fuzz: round {turn}, {' '.join(files)}: {differs}")
        refused += answers[0]["examoffice"].status == 1
    shutil.rmtree(folder)
    print(f"fuzz: {given.rounds} rounds agree, {refused} of them on faulty files")


if __name__ == "__main__":
    main()
