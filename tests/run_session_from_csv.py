#!/usr/bin/env python3
"""run_session_from_csv.py PROGRAM: tools/session_from_csv on the examples, and on faulty files.

The CSV files of the small example make examples/small.exam and the labels in front/labels/, those
of the university its session, whose timetable breaks no rule; labels and sessions agree, and a
second, plain reader of the files makes the same sessions. Each form in which spreadsheets write
them makes the same files. Then each edit of the small example's files gets its faults and writes
nothing, or gets its warnings. A failing case is printed with what was expected and what came, and
the last line counts the cases.
"""
import gzip
import json
import pathlib
import re
import shutil
import sys
import tempfile

import plain_session
import waiting
from cases import Cases

TOP = pathlib.Path(__file__).resolve().parent.parent
TOOL, EXAMPLES = TOP / "tools" / "session_from_csv", TOP / "examples"
LABELS = TOP / "front" / "labels"
UNIVERSITY = EXAMPLES / "university"
FILES = ["labels.json", "session.exam", "sizes.json", "students.json"]
SIZES = "4 exams, 3 students, 6 enrolments, 4 periods, 2 rooms\n"
ALL_EXAMS = ("MATH101,Calculus,120,Mathematics\nMATH102,Linear algebra,90,Mathematics\n"
             "PHYS101,Mechanics,120,Physics\nPHYS102,Optics,60,Physics\n")
WHOLE = "a whole number from"
DATE = "a date such as 2027-05-14, 14/05/2027 or 14.05.2027 is expected, not"
TIME = "a time such as 13:30, 1:30 PM or 13.30 is expected, not"
NO_TEXT = "this is neither UTF-8 nor Latin-1 nor UTF-16 text; save the file as CSV UTF-8"
HALVED = "could be in the morning or in the afternoon, as line"

# An edit of a file of the small example (what, by what), and what is printed then.
FAULTS = [
    ("exams", "Calculus,120", "Calculus,1441", f"exams.csv, line 2, minutes: {WHOLE} 0 to 1440 is "
     "expected, not '1441'"),
    ("exams", "Calculus,120", "Calculus,120.5", f"exams.csv, line 2, minutes: {WHOLE} 0 to 1440 is "
     "expected, not '120.5'"),
    ("exams", "PHYS101,", "MATH102,", "exams.csv, line 4, code: 'MATH102' is on line 3 already\n"
     "enrolments.csv, line 7, exam: there is no exam 'PHYS101'"),
    ("exams", ",Physics", ",Chemistry",
     "exams.csv, line 4, department: there is no department 'Chemistry'\n"
     "exams.csv, line 5, department: there is no department 'Chemistry'"),
    ("exams", "code,title,minutes", "Kürzel,title,minutes", "exams.csv, line 1, code: this "
     "column is missing (there are: Kürzel, title, minutes, department)"),
    ("exams", "code,title", "course code,Exam Code", "exams.csv, line 1, code: there are two such "
     "columns: course code and Exam Code\nexams.csv, line 1, title: this column is missing (there "
     "are: course code, Exam Code, minutes, department)"),
    ("exams", "code,title", "code,code,title",
     "exams.csv, line 1, code: there are two such columns: code and code"),
    ("exams", "Linear", '"Linear', "exams.csv, line 5: this is not CSV: unexpected end of data"),
    ("exams", "Optics", "Mécanique Opti\udcff", f"exams.csv, line 5: {NO_TEXT}"),
    ("exams", "Optics", "Opti\udc81", f"exams.csv, line 5: {NO_TEXT}"),
    ("exams", "Optics", "Op\u202etics", "exams.csv, line 5, title: 'Op\\u202etics' has a mark that "
     "nobody sees, such as one of direction (U+202E)"),
    ("enrolments", "s3,Cleo Carter,PHYS101", "s3\u200b,Cleo Carter,PHYS101",
     "enrolments.csv, line 7, student: 's3\\u200b' has a mark that nobody sees, such as one of "
     "direction (U+200B)"),
    ("exams", ALL_EXAMS, "", "exams.csv: 1 to 2000 lines are expected, not 0"),
    ("rooms", "Room 2.14", "Great Hall",
     "rooms.csv, line 3, name: 'Great Hall' is on line 2 already"),
    ("rooms", ",3,0", ",three,0",
     f"rooms.csv, line 2, capacity: {WHOLE} 0 to 100000 is expected, not 'three'"),
    ("periods", "2005-04-18", "18/04/2005", "periods.csv, line 5, date: a date such as 2005-04-15 "
     "on line 2 is expected, not '18/04/2005'"),
    ("periods", "2005-04-18", "2005-02-30", f"periods.csv, line 5, date: {DATE} '2005-02-30'"),
    ("periods", "2005-04-18", "18 April", f"periods.csv, line 5, date: {DATE} '18 April'"),
    ("periods", "2005-04-15", "03/04/2005", "periods.csv, line 2, date: '03/04/2005' could be "
     "3 April or 4 March, and so could 2 others of this file; write the year first (2027-05-14)\n"
     "periods.csv, line 5, date: a date such as 03/04/2005 on line 2 is expected, not "
     "'2005-04-18'"),
    ("periods", "14:00", "24:00", f"periods.csv, line 3, start: {TIME} '24:00'"),
    ("periods", "14:00", "1:00 PM",
     f"periods.csv, line 2, start: '09:30' {HALVED} 3 says '1:00 PM'\n"
     f"periods.csv, line 5, start: '09:30' {HALVED} 3 says '1:00 PM'"),
    ("periods", "17:00", "17:00 PM",
     f"periods.csv, line 2, start: '09:30' {HALVED} 4 says '17:00 PM'\n"
     f"periods.csv, line 4, start: {TIME} '17:00 PM'\n"
     f"periods.csv, line 5, start: '09:30' {HALVED} 4 says '17:00 PM'"),
    ("periods", ",90,10", ",,10",
     f"periods.csv, line 4, minutes: {WHOLE} 0 to 1440 is expected, not ''"),
    ("enrolments", "Archer,PHYS102", "Archer,PHYS999",
     "enrolments.csv, line 3, exam: there is no exam 'PHYS999'"),
    ("enrolments", "s3,Cleo Carter,PHYS101", ",Cleo Carter,PHYS101",
     "enrolments.csv, line 7, student: the field is empty"),
    ("enrolments", "s2,Ben Baker,MATH102", "s2,Bea Baker,MATH102",
     "enrolments.csv, line 5, name: student 's2' is 'Ben Baker' on line 4"),
    ("rules", "AFTER,MATH102,MATH101", "BEFORE,MATH101,MATH102\nAFTER,MATH102",
     "rules.csv, line 7, rule: there is no rule 'BEFORE'\n"
     "rules.csv, line 8, b: the field is empty"),
    ("rules", "TWOINADAY,5", "TWOINAROW,5",
     "rules.csv, line 9, rule: 'TWOINAROW' is on line 8 already"),
    ("rules", "TWOINAROW,7", "limit,exam,30\nlimit,exams,101\nlimit,new,5,x\nlimit,new,5",
     "rules.csv, line 8, a: there is no limit 'exam', only shorter, drops, new, exams, students\n"
     "rules.csv, line 9, b: a share from 0 to 100 percent is expected, not '101'\n"
     f"rules.csv, line 10, c: {WHOLE} 0 to 100000 is expected, not 'x'\n"
     "rules.csv, line 11, a: 'new' is on line 10 already"),
    ("rules", "department,3,Physics", "department,1000,Physics",
     f"rules.csv, line 6, a: {WHOLE} 1 to 999 is expected, not '1000'"),
    ("rules", "department,3,Physics", "department,1,Mathematics\ndepartment,3,Physics",
     "rules.csv, line 6, a: there is a department 1 already\n"
     "rules.csv, line 6, b: there is a department 'Mathematics' already"),
    ("rules", "FRONTLOAD,1,2,4", "FRONTLOAD,1,2",
     f"rules.csv, line 12, c: {WHOLE} 0 to 100000 is expected, not ''"),
]
# An edit, and the warnings that stop nothing.
WARNINGS = [
    ("rooms", ",3,0", ",1,0", ""),
    ("rooms", "3,0\nRoom 2.14,Physics building,2,7", "1,0\nRoom 2.14,Physics building,1,7",
     "exams.csv, line 2: MATH101 has 2 candidates, and the largest room 1 seat\n"
     "exams.csv, line 3: MATH102 has 2 candidates, and the largest room 1 seat"),
    ("exams", "Calculus,120", "Calculus,600",
     "exams.csv, line 2: MATH101 takes 600 minutes, and the longest period 120"),
    ("enrolments", "s3,Cleo Carter,PHYS101\n", "", "exams.csv, line 4: PHYS101 has no student"),
    ("enrolments", "PHYS102\n", "PHYS102\ns1,Ada Archer,MATH102\ns1,Ada Archer,PHYS101\n", ""),
    ("exams", "60,Physics\n", "60,Physics\nPHYS103,Heat,60,Physics\n",
     "exams.csv, line 6: PHYS103 has no student"),
]


class Run(Cases):
    """The cases, with the tool's output in a folder."""

    def __init__(self, folder):
        super().__init__("session_from_csv")
        self.folder = pathlib.Path(folder)

    def made(self, source, *more):
        """The status, the faults, the summary and the files that the tool makes; of sizes.json,
        which says when it was made, only the sizes."""
        out = self.folder / "out"
        shutil.rmtree(out, ignore_errors=True)
        ended = waiting.run([TOOL, source, out, *more], capture_output=True, timeout=180)
        files = {path.name: path.read_bytes() for path in out.glob("now/*.*")}
        if ended.returncode:
            files = {path.name: path.read_bytes() for path in out.rglob("*") if path.is_file()}
        if "sizes.json" in files:
            files["sizes.json"] = json.loads(files["sizes.json"])["sizes"]
        return ended.returncode, ended.stderr.decode(), ended.stdout.decode(), files

    def edited(self, *edits):
        """The small example's CSV files with these edits: a file, what, by what."""
        folder = self.folder / "edited"
        shutil.rmtree(folder, ignore_errors=True)
        shutil.copytree(EXAMPLES / "small", folder)
        for name, old, new in edits:
            path = folder / f"{name}.csv"
            text = path.read_text()
            if old not in text:
                raise ValueError(f"{name}.csv does not have {old!r}")
            path.write_bytes(text.replace(old, new).encode("utf-8", "surrogateescape"))
        return folder


def sections(session):
    """The lines of a session's sections, as fields."""
    return [[[field.strip() for field in line.split(",")] for line in section.splitlines()[1:]]
            for section in session.decode().split("[")[1:]]


def agree(run, name, files):
    """Labels and students are those of the session."""
    exams, periods, rooms = sections(files["session.exam"])[:3]
    labels, students = (json.loads(files[file]) for file in ("labels.json", "students.json"))
    run.judge(f"exams of {name}", [int(exam[0]) for exam in exams],
              [exam["minutes"] for exam in labels["exams"]])
    run.judge(f"rooms of {name}", [int(room[0]) for room in rooms],
              [room["capacity"] for room in labels["rooms"]])
    run.judge(f"periods of {name}", [(*period[0].split(":")[::-1], period[1], int(period[2]))
                                     for period in periods],
              [(*period["date"].split("-"), period["start"], period["minutes"])
               for period in labels["periods"]])
    run.judge(f"students of {name}",
              sorted({int(student) for exam in exams for student in exam[1:]}),
              [student["number"] for student in students["students"]])
    run.judge(f"departments of {name}", set(), {
        exam["department"] for exam in labels["exams"]} - {*map(int, labels["departments"])})


def examples(run, program):
    status, faults, summary, small = run.made(EXAMPLES / "small")
    run.judge("the small example", (0, "", SIZES, FILES), (status, faults, summary, sorted(small)))
    run.judge("its session", (EXAMPLES / "small.exam").read_bytes(), small["session.exam"])
    run.judge("how large its exams are", [2, 2, 1, 1], small["sizes.json"])
    for name in ("labels.json", "students.json"):
        run.judge(f"front/labels/{name}", (LABELS / name).read_bytes(), small[name])
    for path in sorted((run.folder / "out" / "now" / "names").iterdir()):
        run.judge(f"front/labels/names/{path.name}", (LABELS / "names" / path.name).read_bytes(),
                  path.read_bytes())
    agree(run, "the small example", small)
    status, faults, summary, files = run.made(UNIVERSITY)
    run.judge("the university", (
        0, "", "1,500 exams, 25,000 students, 117,419 enrolments, 45 periods, 40 rooms\n"),
        (status, faults, summary))
    agree(run, "the university", files)
    for name, folder, session in (("small", EXAMPLES / "small", small["session.exam"]),
                                  ("university", UNIVERSITY, files["session.exam"])):
        run.judge(f"a plain reader of {name}", True, session == plain_session.session_of(
            folder, lambda student: int(student.lstrip("s"))))
    run.judge("the university's session", True,
              (UNIVERSITY / "session.exam").read_bytes() == files["session.exam"])
    ended = waiting.run(
        [program, "check", UNIVERSITY / "session.exam", UNIVERSITY / "timetable.sol"],
        capture_output=True, timeout=180)
    run.judge("its timetable", (0, b"breaches 0"), (ended.returncode, ended.stdout.splitlines()[0]))


def rewritten(folder, change):
    """Changes the bytes of each file of a folder."""
    for path in folder.iterdir():
        path.write_bytes(change(path.read_text()))
    return folder


def dates_as(form):
    """Writes dates, which have the year first, in another form."""
    return lambda text: re.sub(r"(\d{4})-(\d\d)-(\d\d)", form, text).encode()


def times_as(form):
    """Writes times such as 14:00 in another form."""
    return lambda text: re.sub(
        r"(\d\d):(\d\d)", lambda time: form(int(time[1]), time[2]), text).encode()


def half(hour, minute):
    return f"{hour % 12 or 12}:{minute} {'PM' if hour > 11 else 'am'}"


SPELLED = {
    "semicolons, CR LF, a byte order mark": lambda text: b"\xef\xbb\xbf" + text.replace(
        ",", ";").replace("\n", "\r\n").encode(),
    "tabs": lambda text: text.replace(",", "\t").encode(),
    "day, month, year with strokes": dates_as(r"\3/\2/\1"),
    "month, day, year with strokes": dates_as(r"\2/\3/\1"),
    "day, month, year with dots": dates_as(r"\3.\2.\1"),
    "times of twelve hours": times_as(half),
    "times with a dot": times_as(lambda hour, minute: f"{hour}.{minute}"),
    "whole numbers with a point": lambda text: re.sub(r",(120|90|60)\b", r",\1.0", text).encode(),
    "decomposed letters": lambda text: text.replace("é", "e\u0301").encode(),
    "headers of a student system": lambda text: text.replace("code,title,minutes,department", (
        "Course code,Course title,Duration (minutes),Dept")).replace("student,name,exam", (
            "Student ID,Full name,Course Code")).replace("date,start,", "Day,Start time,").encode(),
}


def variants(run):
    """What spreadsheets write makes the same files; students without numbers of their own."""
    accents = ("exams", "Optics", "Optique appliquée")
    _, _, _, small = run.made(run.edited(accents))
    for name, change in SPELLED.items():
        run.judge(name, (0, "", SIZES, small), run.made(rewritten(run.edited(accents), change)))
    for encoding, said in (("latin-1", "Latin-1"), ("utf-16", "utf-16"), ("utf-16-le", "utf-16-le"),
                           ("utf-16-be", "utf-16-be")):
        folder = run.edited(accents)
        text = (folder / "exams.csv").read_text()
        (folder / "exams.csv").write_bytes(text.encode(encoding))
        summary = f"{SIZES}exams.csv is read as {said}\n"
        run.judge(encoding, (0, "", summary, small), run.made(folder))
    _, _, _, small = run.made(EXAMPLES / "small")
    run.judge("other columns, blanks, an empty line", (0, "", SIZES, small), run.made(run.edited(
        ("rooms", "name,building,capacity,penalty\n", "Floor, Name ,capacity,BUILDING,penalty\n\n"),
        ("rooms", "Great Hall,Main building,3,0", "1, Great  Hall,3, Main building ,"),
        ("rooms", "Room 2.14,Physics building,2,7", "2,Room 2.14,2,Physics building,7"))))
    named = run.edited(("exams", "code,title,minutes", "Kürzel,Fach,Dauer"),
                       ("periods", "start,minutes", "start,Länge"))
    run.judge("columns that the caller names", (0, "", SIZES, small), run.made(
        named, *(word for name in ("code=kürzel", "title=Fach", "exams.minutes=Dauer",
                                   "periods.minutes=Länge") for word in ("--column", name))))
    run.judge("a name that no file has", (
        1, "--column title=Thema: no file has such a column\n", "", {}),
        run.made(EXAMPLES / "small", "--column", "title=Thema"))
    night = ("rules", "FRONTLOAD,1,2,4", "overnight,6\nFRONTLOAD,1,2,4")
    _, _, _, files = run.made(run.edited(night))
    run.judge("a weight of nights", small["session.exam"] + b"OVERNIGHT,6\n", files["session.exam"])
    identities(run, small)


def students_in(files):
    listed = json.loads(files["students.json"])["students"]
    return [(student["id"], student["number"]) for student in listed]


def identities(run, small):
    """Numbers of students by their IDs, and zeros that a spreadsheet took."""
    for name, edits, numbers, said in (
            ("no digits", [("s1", "ada")], [("ada", 0), ("s2", 1), ("s3", 2)], ""),
            ("the same digits", [("s1", "t2")], [("s2", 0), ("s3", 1), ("t2", 2)], ""),
            ("ten digits", [("s1", "s1234567890")],
             [("s1234567890", 0), ("s2", 1), ("s3", 2)], ""),
            ("zeros, some of them lost", [("s1,Ada Archer,M", "0012,Ada Archer,M"), ("s1", "12")],
             [("s2", 2), ("s3", 3), ("0012", 12)],
             "IDs and codes that had lost their leading zeros: 1\n"),
            ("zeros, others of them lost", [("s2", "007"), ("s3", "07"), ("s1", "7")],
             [("007", 0), ("07", 1), ("7", 2)], "")):
        _, _, summary, files = run.made(run.edited(*(("enrolments", *edit) for edit in edits)))
        run.judge(f"a student with {name}", (SIZES + said, numbers), (summary, students_in(files)))
    folder = run.edited(("exams", "MATH101", "0101"), ("enrolments", "MATH101", "101"),
                        ("rules", "MATH101", "101"))
    status, _, summary, files = run.made(folder)
    run.judge("a code that lost its zeros", (
        0, f"{SIZES}IDs and codes that had lost their leading zeros: 1\n", small["session.exam"]),
        (status, summary, files["session.exam"]))


def faulty(run):
    for table, old, new, words in FAULTS:
        run.judge(f"{table}.csv with {new!r}", (1, words + "\n", "", {}),
                  run.made(run.edited((table, old, new))))
    for table, old, new, words in WARNINGS:
        status, warnings, _, files = run.made(run.edited((table, old, new)))
        run.judge(f"warnings of {table}.csv with {new!r}", (
            0, [f"warning: {line}" for line in words.splitlines()], FILES),
            (status, warnings.splitlines(), sorted(files)))
    folder = run.edited()
    (folder / "enrolments.csv").write_text("student,exam\n")
    status, warnings, summary, _ = run.made(folder)
    run.judge("only a header", (
        0, "warning: enrolments.csv has only its header: no exam has a student\n",
        "4 exams, 0 students, 0 enrolments, 4 periods, 2 rooms\n"), (status, warnings, summary))
    (folder / "periods.csv").write_text("date,start,minutes\n2005-04-15,09:30,120\n")
    (folder / "enrolments.csv").write_text((EXAMPLES / "small" / "enrolments.csv").read_text())
    status, warnings, _, _ = run.made(folder)
    run.judge("more exams than periods", (0, [
        f"warning: enrolments.csv: s{number} has 2 exams in 1 period" for number in (1, 2, 3)]),
        (status, warnings.splitlines()))
    (folder / "periods.csv").unlink()
    run.judge("a file that is missing", (
        1, "periods.csv: cannot be read: No such file or directory\n", "", {}), run.made(folder))
    with gzip.open(folder / "periods.csv.gz", "wb", compresslevel=1) as packed:
        for _ in range(65):
            packed.write(bytes(1024 * 1024))
    run.judge("a file that grows", (
        1, "periods.csv: cannot be read: it has more than 64 MB\n", "", {}), run.made(folder))
    folder = run.edited()
    (folder / "enrolments.csv").write_text("student,exam\n" + "s1,NONE\n" * 9_586)
    status, faults, _, files = run.made(folder)
    lines = faults.splitlines()
    run.judge("many faults", (1, 51, "enrolments.csv, line 51, exam: there is no exam 'NONE'",
                              "and 9,536 more: 9,586 faults in all", {}),
              (status, len(lines), lines[49], lines[50], files))


def main():
    if len(sys.argv) != 2:
        print(__doc__.partition(":")[0], file=sys.stderr)
        return 2
    program = pathlib.Path(sys.argv[1]).resolve()
    with tempfile.TemporaryDirectory() as folder:
        run = Run(folder)
        examples(run, program)
        variants(run)
        faulty(run)
    return run.end()


if __name__ == "__main__":
    sys.exit(main())
