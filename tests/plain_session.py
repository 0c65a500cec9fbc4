"""A second, plain reader of a session's CSV files: in UTF-8, with commas and our own columns."""
import csv
import gzip

WEIGHTS = ["TWOINAROW", "TWOINADAY", "PERIODSPREAD", "NONMIXEDDURATIONS", "FRONTLOAD", "OVERNIGHT"]


def rows(folder, table):
    path = folder / f"{table}.csv"
    opened = open if path.exists() else gzip.open
    found = path if path.exists() else f"{path}.gz"
    with opened(found, "rt", encoding="utf-8", newline="") as file:
        return list(csv.DictReader(file))


def session_of(folder, number_of_student):
    """The bytes of session.exam, with these numbers of students."""
    exams, periods, rooms, rules = (rows(folder, table)
                                    for table in ("exams", "periods", "rooms", "rules"))
    place = {exam["code"]: number for number, exam in enumerate(exams)}
    taking = [set() for _ in exams]
    for row in rows(folder, "enrolments"):
        taking[place[row["exam"]]].add(number_of_student(row["student"]))
    lines = [f"[Exams:{len(exams)}]"]
    lines += [", ".join(map(str, [exam["minutes"], *sorted(students)]))
              for exam, students in zip(exams, taking)]
    lines.append(f"[Periods:{len(periods)}]")
    for period in periods:
        year, month, day = period["date"].split("-")
        lines.append(f"{day}:{month}:{year}, {period['start']}:00, {period['minutes']}, "
                     f"{period.get('penalty') or 0}")
    lines.append(f"[Rooms:{len(rooms)}]")
    lines += [f"{room['capacity']}, {room.get('penalty') or 0}" for room in rooms]
    lines.append("[PeriodHardConstraints]")
    lines += [f"{place[rule['a']]}, {rule['rule']}, {place[rule['b']]}" for rule in rules
              if rule["rule"] in ("AFTER", "EXAM_COINCIDENCE", "EXCLUSION")]
    lines.append("[RoomHardConstraints]")
    lines += [f"{place[rule['a']]}, {rule['rule']}" for rule in rules
              if rule["rule"] == "ROOM_EXCLUSIVE"]
    lines.append("[InstitutionalWeightings]")
    lines += [",".join([word, *filter(None, [rule["a"], rule["b"], rule["c"]])])
              for word in WEIGHTS for rule in rules if rule["rule"] == word]
    return "".join(f"{line}\n" for line in lines).encode()
