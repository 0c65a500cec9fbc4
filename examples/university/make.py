#!/usr/bin/env python3
"""make.py: makes this folder's files, a made-up university's session and a timetable without a
breach.

The same bytes each time; it needs ../../tools/session_from_csv. 25 departments have 60 exams each,
15 for each of four years. A student takes the three core exams of their year, some others of it,
and perhaps one of three other departments. The timetable is greedy: the largest exams first, each
in the free room and period that puts it furthest from the other exams of its candidates.
"""
import collections
import csv
import datetime
import gzip
import io
import pathlib
import random
import subprocess
import tempfile

HERE = pathlib.Path(__file__).resolve().parent
TOOL = HERE.parent.parent / "tools" / "session_from_csv"
DEPARTMENTS = {
    "ACCT": "Accounting", "ANTH": "Anthropology", "ARCH": "Architecture", "ASTR": "Astronomy",
    "BIOL": "Biology", "CHEM": "Chemistry", "CIVE": "Civil engineering", "CLAS": "Classics",
    "COMP": "Computer science", "ECON": "Economics", "EDUC": "Education", "ELEC": "Electronics",
    "ENGL": "English", "GEOG": "Geography", "HIST": "History", "LAWS": "Law", "LING": "Linguistics",
    "MATH": "Mathematics", "MECH": "Mechanics", "MUSI": "Music", "PHIL": "Philosophy",
    "PHYS": "Physics", "POLI": "Politics", "PSYC": "Psychology", "STAT": "Statistics"}
TITLES = ["Foundations of {}", "Methods of {}", "Theory of {}", "History of {}", "{} in practice",
          "{} and society", "Topics in {}", "Problems of {}", "Data in {}", "Ethics of {}",
          "Research in {}", "{} laboratory", "Reading {}", "Writing about {}", "Seminar in {}"]
GIVEN = ["Ada", "Amir", "Anna", "Asha", "Ben", "Bo", "Carla", "Chen", "Cleo", "Daniel", "Dora",
         "Elif",
         "Emil", "Eva", "Fatima", "Felix", "Grace", "Hana", "Henry", "Ines", "Ivan", "Jack", "Jana",
         "Kofi", "Laila", "Leo", "Lucia", "Marta", "Mei", "Milan", "Nadia", "Noah", "Olga", "Omar",
         "Paula", "Priya", "Rosa", "Ruth", "Samir", "Sara", "Sofia", "Tariq", "Tom", "Uma", "Vera",
         "Wei", "Yara", "Yusuf", "Zoe", "Zuri"]
FAMILY = ["Adeyemi", "Ahmed", "Almeida", "Andersen", "Baker", "Bauer", "Bianchi", "Brown", "Carter",
          "Chen", "Costa", "Diaz", "Dubois", "Evans", "Fischer", "Garcia", "Green", "Haddad",
          "Hughes",
          "Ito", "Jansen", "Jones", "Kaya", "Khan", "Kim", "Kowalski", "Kumar", "Lee", "Lopez",
          "Martin",
          "Mensah", "Moreau", "Murphy", "Nguyen", "Novak", "Okafor", "Patel", "Petrov", "Rossi",
          "Santos",
          "Schmidt", "Silva", "Singh", "Smith", "Suzuki", "Taylor", "Wang", "Weber", "Wilson",
          "Young"]
BUILDINGS = ["Main building", "Library", "Sports hall", "North campus", "South campus"]
YEARS, PER_YEAR, CORE, STUDENTS = 4, 15, 3, 25_000
DAYS, STARTS = 15, (("09:00", 180, 0), ("13:00", 180, 0), ("17:00", 120, 5))
# Candidates of a session's exams are close together if fewer periods than this lie between them.
CLOSE = 5
# More seats than a room has.
MOST = 1_000_000


def write(name, rows, is_packed=False):
    text = io.StringIO(newline="")
    csv.writer(text, lineterminator="\n").writerows(rows)
    content = text.getvalue().encode()
    if is_packed:
        (HERE / f"{name}.csv.gz").write_bytes(gzip.compress(content, mtime=0))
    else:
        (HERE / f"{name}.csv").write_bytes(content)


def exams(rng):
    """Each exam: its code, title, minutes, department; in the order of departments and years."""
    for code, department in DEPARTMENTS.items():
        for year in range(1, YEARS + 1):
            for number, title in enumerate(TITLES, 1):
                yield (f"{code}{year}{number:02}",
                       f"{title.format(department if title[0] == '{' else department.lower())} "
                       f"{year}",
                       rng.choice((60, 90, 120, 120, 120, 180)), department)


def enrolments(rng):
    """Each enrolment: the student's ID, their name, the exam's code."""
    codes = list(DEPARTMENTS)
    of_year = STUDENTS // YEARS
    for year in range(1, YEARS + 1):
        for number in range(1, of_year + 1):
            student = f"s{2027 - year}{number:04}"
            name = f"{rng.choice(GIVEN)} {rng.choice(FAMILY)}"
            code = codes[number % len(codes)]
            others = rng.sample(range(CORE + 1, PER_YEAR + 1), rng.choice((0, 1, 1, 2, 2)))
            taken = [f"{code}{year}{exam:02}" for exam in [*range(1, CORE + 1), *sorted(others)]]
            if rng.random() < 0.5:
                other = codes[(number + rng.choice((1, 2, 5))) % len(codes)]
                taken.append(f"{other}{rng.randint(1, year)}{rng.randint(CORE + 1, PER_YEAR):02}")
            yield from ((student, name, exam) for exam in taken)


def rules(listed, rng):
    yield from (("rule", "a", "b", "c"), ("title", "Summer examinations 2027"),
                ("university", "University of Example"), ("contact", "exams@university.example"))
    yield from (("department", number, name) for number, name in enumerate(DEPARTMENTS.values(), 1))
    by_code = {code: minutes for code, _, minutes, _ in listed}
    for code in rng.sample(list(DEPARTMENTS), 12):
        yield "AFTER", f"{code}215", f"{code}214"
        yield "EXCLUSION", f"{code}315", f"{code}414"
        yield "ROOM_EXCLUSIVE", f"{code}412"
    together = [code for code in DEPARTMENTS if by_code[f"{code}110"] == by_code[f"{code}410"]]
    yield from (("EXAM_COINCIDENCE", f"{code}110", f"{code}410") for code in together[:4])
    yield from (("TWOINAROW", 7), ("TWOINADAY", 5), ("PERIODSPREAD", CLOSE),
                ("NONMIXEDDURATIONS", 10), ("FRONTLOAD", 100, 30, 5))


def sections(session):
    """The lines of a session's first five sections, as fields."""
    made = []
    for line in session.read_text().splitlines():
        if line.startswith("["):
            made.append([])
        else:
            made[-1].append(line.split(", "))
    return made[:5]


def timetable(session):
    """A place for each exam that breaks no rule."""
    listed, periods, rooms, pairs, alone = sections(session)
    minutes = [int(exam[0]) for exam in listed]
    lengths, capacities = [int(period[2]) for period in periods], [int(room[0]) for room in rooms]
    taken = collections.defaultdict(list)
    for exam, (_, *students) in enumerate(listed):
        for student in students:
            taken[student].append(exam)
    shared = [collections.Counter() for _ in listed]
    for chosen in taken.values():
        for exam in chosen:
            shared[exam].update(other for other in chosen if other != exam)
    # An exam that comes after another is in the second half, and the other in the first.
    partner, halves, apart = {}, {}, collections.defaultdict(set)
    for first, word, second in pairs:
        first, second = int(first), int(second)
        if word == "EXAM_COINCIDENCE":
            partner[first], partner[second] = second, first
        elif word == "EXCLUSION":
            apart[first].add(second), apart[second].add(first)
        else:
            halves[first], halves[second] = 1, 0
    alone = {int(exam) for exam, _ in alone}
    left = [[*capacities] for _ in periods]
    lasting = [[None] * len(rooms) for _ in periods]
    places = {}

    def room_for(exam, period, *but):
        """The smallest room with enough seats left; with exams of the same length, if there is
        one."""
        fitting = [room for room in range(len(rooms)) if room not in but
                   and left[period][room] >= len(listed[exam]) - 1
                   and (exam not in alone or lasting[period][room] is None)]
        return min(fitting, default=None, key=lambda room: (
            lasting[period][room] not in (None, minutes[exam]), left[period][room]))

    def cost(exam, period):
        """How close its candidates' other exams are; None if a rule would be broken."""
        if minutes[exam] > lengths[period] or any(places.get(other, (-1,))[0] == period
                                                  for other in apart[exam]):
            return None
        if halves.get(exam, 2 * period // len(periods)) != 2 * period // len(periods):
            return None
        total = 0
        for other, count in shared[exam].items():
            if other in places:
                gap = abs(places[other][0] - period)
                if gap == 0:
                    return None
                total += count * max(0, CLOSE + 1 - gap) ** 2
        return total

    order = sorted(range(len(listed)),
                   key=lambda exam: (exam not in partner, -len(listed[exam]), exam))
    for exam in order:
        if exam in places:
            continue
        both = [exam, *([partner[exam]] if exam in partner else [])]
        best = None
        for period in range(len(periods)):
            costs = [cost(one, period) for one in both]
            rooms_found = []
            for one in both:
                rooms_found.append(room_for(one, period, *rooms_found))
            if None not in costs and None not in rooms_found:
                found = (sum(costs), -sum(left[period]), period, rooms_found)
                best = min(best or found, found)
        if best is None:
            raise ValueError(f"exam {exam} has no place")
        for one, room in zip(both, best[3]):
            places[one] = (best[2], room)
            left[best[2]][room] -= MOST if one in alone else len(listed[one]) - 1
            lasting[best[2]][room] = minutes[one]
    return places


def main():
    rng = random.Random(2027)
    listed = list(exams(rng))
    write("exams", [("code", "title", "minutes", "department"), *listed])
    write("rooms", [("name", "building", "capacity", "penalty"), *(
        (f"{BUILDINGS[number % 5].split()[0]} {number // 5 + 1}", BUILDINGS[number % 5],
         (320, 300, 600, 340, 310)[number % 5] if number < 10 else 60 + 10 * (number % 9),
         3 if number % 5 > 2 else 0) for number in range(40))])
    first = datetime.date(2027, 5, 10)
    days = [day for day in (first + datetime.timedelta(n) for n in range(30)) if day.weekday() < 5]
    write("periods", [("date", "start", "minutes", "penalty"), *(
        (day.isoformat(), *start) for day in days[:DAYS] for start in STARTS)])
    write("enrolments", [("student", "name", "exam"), *enrolments(rng)], is_packed=True)
    write("rules", rules(listed, rng))
    with tempfile.TemporaryDirectory() as folder:
        subprocess.run([TOOL, HERE, folder], check=True)
        session = pathlib.Path(folder) / "now" / "session.exam"
        places = timetable(session)
        (HERE / "session.exam").write_bytes(session.read_bytes())
    (HERE / "timetable.sol").write_text("".join(
        f"{places[exam][0]}, {places[exam][1]}\n" for exam in range(len(listed))))


if __name__ == "__main__":
    main()
