"""Seats on the registry's page: where candidates sit, the seat list as a file, and sheets for
rooms."""
from front_cases import WIDE_PERIODS, WIDE_ROOMS, ask
from front_page import csv_file, on_paper, opened, reading, sheets_printed
from serve_cases import batch_text

FRIDAY = "2005-04-15"
HALL = "Great Hall, Main building"
# The seats of the small solution: number, ID, name, exam, title; date, start, room, building, seat.
SEATS_NAMED = [
    "1,s1,Ada Archer,MATH101,Calculus,2005-04-15,09:30,Great Hall,Main building,1",
    "2,s2,Ben Baker,MATH101,Calculus,2005-04-15,09:30,Great Hall,Main building,2",
    "2,s2,Ben Baker,MATH102,Linear algebra,2005-04-15,14:00,Great Hall,Main building,1",
    "3,s3,Cleo Carter,MATH102,Linear algebra,2005-04-15,14:00,Great Hall,Main building,2",
    "3,s3,Cleo Carter,PHYS101,Mechanics,2005-04-18,09:30,Room 2.14,Physics building,1",
    "1,s1,Ada Archer,PHYS102,Optics,2005-04-15,17:00,Great Hall,Main building,1"]
WHOSE, WHERE = ["student", "id", "name", "exam", "title"], ["date", "start", "room", "building",
                                                            "seat"]
NOBODY = "No candidate of this session has this number, ID or name."
FOUND = "rows #seat-found tr"
# The strip of a candidate's days, below the name.
STRIP = "\nFri 15 Apr: 2 exams\nMon 18 Apr: no exam"
CELL = "#pictures tbody tr:first-child td:nth-child(2)"
FIRST_CELL = "Great Hall, %s: MATH101, %d of 3 seats"
# The line of a seat on each kind of sheet.
LINES = {"door": "{name} {id} {exam} {seat}", "attendance": "{seat} {name} {id} {exam}"}


def finds(words):
    return [("set", "#seat-words", words), "click #seat-find button"]


def where_candidates_sit(page):
    """A candidate is found by number, ID or name, in any case."""
    bens = [[f"Ben Baker\ns2{days}", exam, page.moment(FRIDAY, start), HALL, seat]
            for days, exam, start, seat in (
                (STRIP, "MATH101\nCalculus", "09:30:00", "2"),
                ("", "MATH102\nLinear algebra", "14:00:00", "1"))]
    head = ["Candidate", "Exam", "Period", "Room", "Seat"]
    page.steps(
        *((f"where {words} sits", finds(words), {
            "#status": "1 candidate with 2 exams found.", FOUND: [head, *bens]})
          for words in ("2", "S2", "baker", " Ben  Baker ", "Bèn b'äker")),
        *((f"where {words} sits", finds(words), {
            "#status": NOBODY, FOUND: []})
          for words in ("99", "nobody", "s", "  ")),
        ("who has no seat", "click #seatless", {
            "#status": "Everybody who is enrolled has a seat.", FOUND: []}))


def sheets_of_rooms(page):
    """Sheets name every candidate once for each exam, and only in their room."""
    seats = [dict(zip(("id", "name", "exam", "seat"), (it[1], it[2], it[3], it[9])))
             for it in (row.split(",") for row in SEATS_NAMED)]
    for kind, line in LINES.items():
        pages, lines = sheets_printed(page.run, page.reader, kind)
        page.run.judge(f"pages of {kind}", 4, pages)
        if lines is not None:
            page.run.judge(f"each candidate once per exam, {kind}", [1] * 6,
                           [lines.count(line.format(**seat)) for seat in seats])
            page.run.judge(f"whose names are on {kind}", [2, 2, 2], [
                sum(name in one for one in lines) for name in ("Archer", "Baker", "Carter")])
    pages, lines = sheets_printed(page.run, page.reader, "labels")
    page.run.judge("pages of labels", 4, pages)
    if lines is not None:
        text = " ".join(lines)
        page.run.judge("a label for each seat", [2, 2, 2, 2, 2, 1, 1], [
            text.count(word) for word in ("Archer", "Baker", "Carter", "· MATH101", "· MATH102",
                                          "· PHYS101", "· PHYS102")])
    pages, lines = sheets_printed(page.run, page.reader, "door", "3")
    page.run.judge("one period", 1, pages)
    if lines is not None:
        page.run.judge("the door list of one room", (True, True, ["Cleo Carter s3 PHYS101 1"]), (
            any(line.startswith("Room 2.14, Physics building") for line in lines),
            any(line.startswith("PHYS101 Mechanics, 09:30 – 11:30, 1 candidate") for line in lines),
            lines[-1:]))


def seats_of_candidates(run, chromium, front):
    """The registry finds who sits where, on the page, in a file and on paper."""
    with opened(run, chromium, front, "registry", "registry.html#seats") as page:
        where_candidates_sit(page)
        page.judge_file("seats.csv", "#seats-csv",
                        csv_file(",".join([*WHOSE, *WHERE]), *SEATS_NAMED))
        sheets_of_rooms(page)


def seats_after_changes(run, chromium, front):
    """After a batch the registry sees who has no seat yet, and who withdrew."""
    run.judge("a batch", (200, b'{"added":1,"batch":5,"dropped":0,"unchanged":0}'),
              front.told(ask("registry", "PUT", "/batches/5", batch_text("3,0,add"))))
    with opened(run, chromium, front, "registry") as page:
        page.judge("seats of the publication", {
            f"labels {CELL}": [FIRST_CELL % (page.moment(FRIDAY, "09:30:00"), 2)],
            "texts #cards .verdict.broken": ["1 enrolment without a seat",
                                             "Breaks rules: 2 violations"]})
        page.steps(("candidates of the draft", "click #cards li:nth-child(2) a",
                    {f"labels {CELL}": [FIRST_CELL % (page.moment(FRIDAY, "09:30:00"), 3)]}))
    run.judge("another batch", (200, b'{"added":0,"batch":6,"dropped":1,"unchanged":1}'),
              front.told(ask("registry", "PUT", "/batches/6", batch_text("3,0,add", "2,0,drop"))))
    with opened(run, chromium, front, "registry", "registry.html#seats") as page:
        page.steps(("who has no seat", "click #seatless", {
            "#status": "1 enrolment has no seat.",
            FOUND: [["Candidate", "Exam"], ["Cleo Carter\ns3", "MATH101\nCalculus"]]}))
        page.judge_file("without-seat.csv", "#seatless-csv",
                        csv_file(",".join(WHOSE), "3,s3,Cleo Carter,MATH101,Calculus"))
        page.steps(*((f"the seats of {words}", finds(words),
                      {"texts #seat-found td:last-child": seats})
                     for words,
                     seats in (("baker", ["2, withdrawn", "1"]), ("s3", ["2", "1", "none yet"]))))


# ---- On paper

PAPERS = {"A4": (8.27, 11.69), "letter": (8.5, 11)}


def tables_on_paper(lines):
    """For each period its number and then its rooms, as a printed timetable has them after its
    picture."""
    tables = []
    for line in lines:
        if line.startswith("Period ") and line[7].isdigit():
            tables.append([line.split()[1]])
        elif tables and line.startswith("Hall ") and line[5].isdigit():
            tables[-1].append(line)
    return tables


def room_on_paper(room, period):
    used = 2 * room % WIDE_PERIODS == period
    return f"Hall {room}, Campus {room % 3} " + (f"EX{room} Exam é{room} 1 of {20 + room}" if used
                                                 else "free")


def printed(run, chromium, wide):
    """Paper has a sheet for each room in use, each room in each period, and five exams on one
    page."""
    with opened(run, chromium, wide, "registry", "registry.html#seats") as page:
        pages, lines = sheets_printed(run, page.reader, "attendance")
        run.judge("a page for each room", WIDE_ROOMS, pages)
        if lines is not None:
            who = [f"1 Ada Archer s1 EX{exam}" if exam < 5 else f"1 {1_000 + exam} EX{exam}"
                   for exam in range(WIDE_ROOMS)]
            run.judge("each candidate once per exam, of many rooms", [1] * WIDE_ROOMS,
                      [lines.count(line) for line in who])
    for paper, size in PAPERS.items():
        with reading(chromium, wide, "registry") as reader:
            _, lines = on_paper(reader, run.folder / "timetable.pdf", *size)
        if lines is not None:
            run.judge(f"a table for each period on {paper}", [
                [str(period), *(room_on_paper(room, period) for room in range(WIDE_ROOMS))]
                for period in range(WIDE_PERIODS)], tables_on_paper(lines))
        with reading(chromium, wide, "ada") as reader:
            pages, lines = on_paper(reader, run.folder / "exams.pdf", *size)
            run.judge(f"five exams on {paper}", ("5 exams", 1), (reader.text("#status"), pages))
        if lines is not None:
            run.judge(f"their seats on {paper}", 5, sum("Seat assigned" in line for line in lines))
