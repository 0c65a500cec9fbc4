"""An instance at the limits that has a timetable without a breach."""
EXAMS, PERIODS, ROOMS = 2_000, 200, 200
ALONE, BUSY, OTHER, BUSY_EXAMS = 0, 1, 2, 100


def exams_of(pairs, each):
    """The students of each exam. No student has two exams of one period, since those of a period
    differ by a multiple of the number of periods."""
    students = [[] for _ in range(EXAMS)]
    students[0].append(ALONE)
    for exam in range(BUSY_EXAMS):
        students[exam].append(BUSY)
    left, student = pairs - BUSY_EXAMS - 1, OTHER
    while left > 0:
        first = student * 7 % EXAMS
        for step in range(min(each, left)):
            students[(first + 19 * step) % EXAMS].append(student)
        left -= each
        student += 1
    return students


def place_of(exam):
    """Ten exams a period, two to a room."""
    return exam % PERIODS, exam // PERIODS // 2


def solution_of(place=place_of):
    return "".join("%d, %d\n" % place(exam) for exam in range(EXAMS)).encode()


def instance_of(pairs, each):
    """The text of an instance; its rooms are large enough for everything, and it has no rule."""
    lines = [f"[Exams:{EXAMS}]"]
    lines += [", ".join(map(str, [60 + exam % 3 * 30, *students]))
              for exam, students in enumerate(exams_of(pairs, each))]
    lines += [f"[Periods:{PERIODS}]"]
    lines += [f"{day % 28 + 1:02}:{day // 28 + 1:02}:2005, {9 + 4 * (p % 3):02}:30:00, 180, {p % 5}"
              for p in range(PERIODS) for day in [p // 3]]
    lines += [f"[Rooms:{ROOMS}]"] + [f"2000, {room % 4}" for room in range(ROOMS)]
    lines += ["[PeriodHardConstraints]", "[RoomHardConstraints]", "[InstitutionalWeightings]",
              "TWOINAROW,7", "TWOINADAY,5", "PERIODSPREAD,20", "NONMIXEDDURATIONS,10",
              "FRONTLOAD,250,30,5"]
    return "".join(f"{line}\n" for line in lines)
