#!/usr/bin/env python3
"""Writes synthetic exam instances with the published shape of the eight ITC 2007 exam sets.

gen.py FOLDER [NAME..]: for each name FOLDER/NAME.exam, NAME.sol (placed greedily, so that few
hard rules are broken) and NAME.bad (placed at random, so that many are). The same seed gives the
same bytes. The shapes (exams, students, periods, rooms, enrolments, rule lines, weights) are
recalled from the competition's published tables, not copied from its files: the figures may be
off by a little, and nothing here is competition data.
"""
import pathlib
import random
import sys
from collections import namedtuple

Shape = namedtuple("Shape", "exams students periods rooms pairs period_rules room_rules weights")

# weights: two in a row, two in a day, period spread, mixed durations, of the front load the exams,
# the periods and the weight, and over night, if it has one
SHAPES = {
    "set1": Shape(607, 7_891, 54, 7, 32_380, 12, 0, (7, 5, 5, 10, (100, 30, 5))),
    "set2": Shape(870, 12_743, 40, 49, 37_379, 12, 2, (15, 5, 1, 25, (250, 30, 5))),
    "set3": Shape(934, 16_439, 36, 48, 61_150, 170, 15, (15, 10, 4, 20, (200, 20, 10))),
    "set4": Shape(273, 5_045, 21, 1, 21_740, 40, 0, (9, 5, 2, 10, (50, 10, 5))),
    "set5": Shape(1_018, 9_253, 42, 3, 34_196, 27, 0, (40, 15, 5, 0, (250, 30, 10))),
    "set6": Shape(242, 7_909, 16, 8, 18_466, 23, 0, (20, 5, 20, 25, (25, 30, 15))),
    "set7": Shape(1_096, 14_676, 80, 15, 45_493, 28, 0, (25, 5, 10, 15, (250, 30, 10))),
    "set8": Shape(598, 7_718, 80, 8, 31_374, 20, 1, (150, 0, 15, 25, (250, 30, 5))),
    # At the limits that a checker states, with wide student numbers, and with few busy students.
    "limits": Shape(2_000, 60_000, 200, 200, 200_000, 5_000, 1_000, (7, 5, 20, 10, (250, 30, 5))),
    "dense": Shape(2_000, 200, 200, 200, 200_000, 5_000, 1_000, (7, 5, 20, 10, (250, 30, 5))),
    # At the limits, with the weighting that the competition doesn't have.
    "nights": Shape(2_000, 60_000, 200, 200, 200_000, 5_000, 1_000,
                    (7, 5, 20, 10, (250, 30, 5), 8)),
    # Few large exams whose students are listed in falling order: slow where each is inserted at
    # its place.
    "backwards": Shape(4, 100_000, 200, 200, 200_000, 2, 0, (7, 5, 20, 10, (2, 30, 5))),
}
DURATIONS = [60, 90, 120, 150, 180, 195]


def enrol(rng, shape):
    """The students of each exam: exams of very different sizes, students with some exams each."""
    share = [1 / (1 + rng.random() * 12) ** 2 for _ in range(shape.exams)]
    width = 999_999_999 if shape.pairs == 200_000 else 4 * shape.students
    numbers = rng.sample(range(width), shape.students)
    taken = [set() for _ in range(shape.exams)]
    count = 0
    for number in numbers:  # each student sits something
        taken[rng.choices(range(shape.exams), share)[0]].add(number)
        count += 1
    crowded = shape.pairs >= shape.students * shape.exams // 4
    while count < shape.pairs:
        want = shape.pairs - count
        exams = (rng.choices(range(shape.exams), None if crowded else share, k=want))
        for exam, number in zip(exams, rng.choices(numbers, k=want)):
            if number not in taken[exam]:
                taken[exam].add(number)
                count += 1
    return [sorted(students) for students in taken]


def periods(rng, shape):
    per_day = 3 if shape.periods >= 30 else 2
    days = (shape.periods + per_day - 1) // per_day
    dates = [(d % 28 + 1, d // 28 + 1) for d in range(days)]
    starts = ["09:30:00", "14:00:00", "17:30:00"]
    rows = []
    for p in range(shape.periods):
        day, month = dates[p // per_day]
        penalty = rng.choice([0, 0, 0, 10, 500]) if p % per_day == 2 else 0
        length = rng.choice([180, 195, 210])
        rows.append((f"{day:02}:{month:02}:2005", starts[p % per_day], length, penalty))
    return rows


def rooms(rng, shape, largest):
    seats = [rng.choice([40, 60, 110, 150, 260]) for _ in range(shape.rooms)]
    seats[0] = max(260, largest + rng.randrange(200))
    if shape.rooms == 1:
        seats[0] = 2 * seats[0]
    return [(count, rng.choice([0, 0, 0, 5, 30])) for count in seats]


def place(rng, shape, minutes, taken, period_rows, room_rows):
    """Largest exams first, each into the first period and room that fit, else at random."""
    busy = [set() for _ in range(shape.periods)]
    free = [[capacity for capacity, _ in room_rows] for _ in range(shape.periods)]
    placed = [None] * shape.exams
    for exam in sorted(range(shape.exams), key=lambda e: -len(taken[e])):
        students, size = set(taken[exam]), len(taken[exam])
        order = rng.sample(range(shape.periods), shape.periods)
        for p in order:
            if minutes[exam] > period_rows[p][2] or not busy[p].isdisjoint(students):
                continue
            fits = [r for r in range(shape.rooms) if free[p][r] >= size]
            if fits:
                room = min(fits, key=lambda r: free[p][r])
                placed[exam] = (p, room)
                break
        else:
            placed[exam] = (rng.randrange(shape.periods), rng.randrange(shape.rooms))
        p, room = placed[exam]
        busy[p] |= students
        free[p][room] -= size
    return placed


def rule_lines(rng, shape, placed):
    """Rules that the greedy solution mostly keeps."""
    lines = []
    while len(lines) < shape.period_rules:
        a, b = rng.sample(range(shape.exams), 2)
        p, q = placed[a][0], placed[b][0]
        if rng.random() < 0.02:
            lines.append(f"{a}, {rng.choice(['AFTER', 'EXAM_COINCIDENCE', 'EXCLUSION'])}, {b}")
        elif p > q:
            lines.append(f"{a}, {rng.choice(['AFTER', 'EXCLUSION'])}, {b}")
        elif p == q:
            lines.append(f"{a}, EXAM_COINCIDENCE, {b}")
    return lines


def write(folder, name, lines):
    (folder / name).write_bytes("".join(f"{line}\r\n" for line in lines).encode())


def is_made(file):
    return file.exists() and file.stat().st_mtime >= pathlib.Path(__file__).stat().st_mtime


def made(folder, names):
    """The instance and the two timetables of each name, or of all; made where that is needed."""
    folder.mkdir(exist_ok=True)
    for name in names or SHAPES:
        files = [folder / f"{name}.{kind}" for kind in ("exam", "sol", "bad")]
        if not all(map(is_made, files)):
            print(f"generating {name}", file=sys.stderr, flush=True)
            make(folder, name)
        yield files


def stop_on_unknown(parser, names):
    """Where a name is no instance's, the parser says which there are."""
    unknown = [name for name in names if name not in SHAPES]
    if unknown:
        parser.error(f"no instance {', '.join(unknown)}; there are {', '.join(SHAPES)}")


def make(folder, name):
    shape, rng = SHAPES[name], random.Random(f"exam {name}")
    taken = enrol(rng, shape)
    minutes = [rng.choice(DURATIONS) for _ in range(shape.exams)]
    period_rows = periods(rng, shape)
    room_rows = rooms(rng, shape, max(map(len, taken)))
    placed = place(rng, shape, minutes, taken, period_rows, room_rows)
    row, day, spread, mixed, front, *nights = shape.weights
    lines = [f"[Exams:{shape.exams}]"]
    step = -1 if name == "backwards" else 1
    lines += [", ".join(map(str, [m, *students[::step]])) for m, students in zip(minutes, taken)]
    lines += [f"[Periods:{shape.periods}]"] + [", ".join(map(str, r)) for r in period_rows]
    lines += [f"[Rooms:{shape.rooms}]"] + [f"{seats}, {penalty}" for seats, penalty in room_rows]
    lines += ["[PeriodHardConstraints]"] + rule_lines(rng, shape, placed)
    alone = rng.sample(range(shape.exams), shape.room_rules)
    lines += ["[RoomHardConstraints]"] + [f"{exam}, ROOM_EXCLUSIVE" for exam in alone]
    lines += ["[InstitutionalWeightings]", f"TWOINAROW,{row}", f"TWOINADAY,{day}",
              f"PERIODSPREAD,{spread}", f"NONMIXEDDURATIONS,{mixed}",
              "FRONTLOAD," + ",".join(map(str, front)), *(f"OVERNIGHT,{night}" for night in nights)]
    write(folder, f"{name}.exam", lines)
    write(folder, f"{name}.sol", [f"{p}, {r}" for p, r in placed])
    write(folder, f"{name}.bad", [f"{rng.randrange(shape.periods)}, {rng.randrange(shape.rooms)}"
                                  for _ in placed])


def main():
    folder = pathlib.Path(sys.argv[1])
    folder.mkdir(parents=True, exist_ok=True)
    for name in sys.argv[2:] or SHAPES:
        make(folder, name)


if __name__ == "__main__":
    main()
