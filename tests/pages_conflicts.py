"""Conflicts on the registry's page: whom they concern, in drafts and in the publication with
today's enrolments. Without the registry's service (front_registry.py has it) nobody says which
rules the publication breaks."""
from front_cases import ask
from front_page import csv_file, opened
from serve_cases import batch_text

MONDAY, FRIDAY = ("2005-04-18", "09:30:00"), ("2005-04-15", "09:30:00")
HALL, ROOM = "Great Hall, Main building", "Room 2.14, Physics building"
HEAD = ["Conflict", "Candidate", "Exams", "When", "Room or remark"]
COUNT, ROWS, NOTE = "#conflict-count", "rows #conflict-list tr", "hidden #conflict-note"
KINDS = [f"{kind} ({{}})" for kind in (
    "All", "Two exams at one time", "No seat", "Room too small", "Not placed", "Breaks a rule",
    "Three exams in a day")]
FILE = ["conflict,student,id,name,exam,second exam,more exams,date,start,room,building,candidates,"
        "seats,remark",
        "Two exams at one time,1,s1,Ada Archer,PHYS101,PHYS102,,2005-04-18,09:30,,,,,"]


def kinds(*numbers):
    return [kind.format(number) for kind, number in zip(KINDS, numbers)]


def conflicts(run, chromium, front):
    """A late enrolment that overlaps is named at once, for the publication and for each draft."""
    def sent(number, *lines):
        run.judge(f"the batch {number}", 200, front.told(ask(
            "registry", "PUT", f"/batches/{number}", batch_text(*lines)))[0])

    sent(11, "1,2,add")
    with opened(run, chromium, front, "registry") as page:
        monday, friday = page.moment(*MONDAY), page.moment(*FRIDAY)
        overlap = ["Two exams at one time", "Ada Archer\ns1", "PHYS101 PHYS102", monday]
        small = ["Room too small", "", "PHYS101 PHYS102", monday,
                 f"{ROOM}: 3 candidates, 2 seats"]
        seatless = [HEAD, ["No seat", "Cleo Carter\ns3", "MATH101", friday, HALL],
                    ["No seat", "Ada Archer\ns1", "PHYS101", monday, ROOM]]
        page.judge("what the card says", {
            "texts #cards li:first-child .verdict": [
                "Candidates see this timetable", "2 enrolments without a seat"],
            "#cards li:first-child .below": "Rules not checked with today's enrolments"})
        page.steps(
            ("the publication", "click #menu [data-to=conflicts] a", {
                COUNT: "2 conflicts.", "texts #conflict-kind option": kinds(2, 0, 2, 0, 0, 0, 0),
                ROWS: seatless, NOTE: False}),
            ("one kind", ("set", "#conflict-kind", "small"), {
                COUNT: "No conflict has these words."}),
            ("another kind", ("set", "#conflict-kind", "seatless"), {COUNT: "2 conflicts."}),
            ("one candidate", ("set", "#conflict-words", "cleo"), {COUNT: "1 conflict."}),
            ("nobody", ("set", "#conflict-words", "ben"), {
                COUNT: "No conflict has these words.", ROWS: []}),
            ("a draft", "click #cards li:nth-child(2) a", {
                "hash": "#conflicts/draft-1", NOTE: True,
                "texts #conflict-kind option": kinds(2, 1, 0, 1, 0, 0, 0)}),
            ("a candidate of every kind",
             [("set", "#conflict-kind", ""), ("set", "#conflict-words", "ARCHER phys102")],
             {ROWS: [HEAD, [*overlap, ""]]}))
        page.judge_file("conflicts.csv", "#conflicts-csv", csv_file(*FILE))
        page.steps(
            ("all of it", ("set", "#conflict-words", ""), {ROWS: [HEAD, [*overlap, ""], small]}),
            ("another one", "click #cards li:nth-child(3) a", {ROWS: [
                HEAD, ["Two exams at one time", "Ada Archer\ns1", "MATH101 PHYS101", monday, ""],
                ["Two exams at one time", "Cleo Carter\ns3", "MATH101 PHYS101", monday, ""],
                ["Breaks a rule", "", "MATH102 MATH101", page.moment("2005-04-15", "14:00:00"),
                 "Exam MATH102 must come after exam MATH101, and does not."]]}),
            ("an exam in the timetable", "click #conflict-list tr:nth-child(3) a", {
                "hash": "#timetable/draft-2/1",
                "names #cell .chosen": ["MATH102 Linear algebra"]}),
            ("and back", "go back", {"hash": "#conflicts/draft-2"}))
    sent(12, "1,2,drop")
