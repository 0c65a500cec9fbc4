"""The page of a candidate, as candidates read it."""
import re

from front_cases import FIRST_VIEW, ask
from front_page import DAY, START, days_and_exams, is_read, opened
from serve_cases import batch_text

FRIDAY, MONDAY = "2005-04-15", "2005-04-18"
# Of the small example, as a candidate's page has them: the time at which an exam ends, its minutes,
# its name; a room.
MATH101, MATH102, PHYS101, PHYS102 = (
    ("11:30:00", 120, "MATH101\nCalculus"), ("15:30:00", 90, "MATH102\nLinear algebra"),
    ("11:30:00", 120, "PHYS101\nMechanics"), ("18:00:00", 60, "PHYS102\nOptics"))
HALL, ROOM = "Great Hall\nMain building", "Room 2.14\nPhysics building"

# A time of the day, and how many exams are then still to come and are over.
TIMES = [("2005-04-15T09:29:00", "2 exams", ["09:30", "17:00"], []),
         ("2005-04-15T11:29:00", "2 exams", ["09:30", "17:00"], []),
         ("2005-04-15T11:31:00", "2 exams, 1 of them past", ["17:00"], ["09:30"]),
         ("2026-04-15T11:31:00", "2 exams, 2 of them past", [], ["09:30", "17:00"])]


def candidates_page(run, chromium, front):
    """Candidates see their exams in their language, how close together these are, and nobody
    else's."""
    for language, friday in (("en-GB", "Friday"), ("de", "Freitag")):
        with opened(run, chromium, front, "ada", language=language) as page:
            rows = days_and_exams(page, language,
                                  (FRIDAY, "09:30:00", MATH101, HALL, "1", "Seat assigned"),
                                  (FRIDAY, "17:00:00", PHYS102, HALL, "1", "Seat assigned"))
            run.judge(f"the language {language}", True, rows[0][0].startswith(friday))
            page.judge(f"a candidate's exams, {language}", {
                "days": rows, "#candidate": "Ada Archer · s1", "#status": "2 exams",
                "#session-title": "University of Example · Examinations in April 2005",
                "#contact": "Questions? exams@university.example",
                "hrefs #contact a": ["mailto:exams@university.example"],
                "texts #cost-parts tbody td": ["0", "5", "1", "0", "6"]})
            run.judge("another's exam", False, "MATH102" in page.look("text body"))
            forged = page.reader.run("return fetch('/me', {headers: {'X-Caller': 'cand:2'}})"
                                     ".then(reply => reply.text())")
            run.judge("X-Caller of a script", FIRST_VIEW[1].decode(), forged)


def next_exam_first(run, chromium, front):
    """An exam that is over is below the others."""
    for now, status, ahead, past in TIMES:
        with opened(run, chromium, front, "ada", now=now) as page:
            page.judge(f"the next exam at {now}", {
                "#status": status, "texts #timetable .time time:first-child": ahead,
                "texts #past .time time:first-child": past})


def calendar_file(run, chromium, wide):
    """A calendar has an event for each exam, whose uid stays the same when the exam moves."""
    with opened(run, chromium, wide, "ada") as page:
        lines = page.downloaded("exams.ics", "#calendar").decode().split("\r\n")
        host = f"reader{page.reader.readers}.localhost"
    run.judge("stamps of a calendar", 5, sum(
        re.fullmatch(r"DTSTAMP:20050401T\d{6}Z", line) is not None for line in lines))
    run.judge("a calendar", [
        "BEGIN:VCALENDAR", "VERSION:2.0", "PRODID:-//examoffice//candidate//EN", *(
            line for exam in range(5) for line in (
                "BEGIN:VEVENT", f"UID:2005-06-06-exam-{exam}-candidate-1@{host}",
                f"DTSTART:200506{6 + exam:02}T090000", f"DTEND:200506{6 + exam:02}T100000",
                f"SUMMARY:EX{exam} Exam é{exam}",
                f"LOCATION:Hall {exam}\\, Campus {exam % 3}\\, seat 1", "END:VEVENT")),
        "END:VCALENDAR", ""], [line for line in lines if not line.startswith("DTSTAMP")])
    with opened(run, chromium, wide, "ben") as page:
        page.judge("a candidate without exams", {
            "#status": "You are not enrolled in any exam.", "hidden #calendar": True,
            "#user": "Signed in as ben"})


def states_of_exams(run, chromium, front):
    """A candidate who enrolled after the publication has no seat yet; one who withdrew reads
    that."""
    for user, row, note in (
            ("cleo", [MATH101[2], HALL, "", "No seat yet"],
             "You enrolled in this exam after the timetable was published. You will get a seat "
             "when the "
             "timetable is next published."),
            ("ben", [MATH101[2], HALL, "2", "Withdrawn"],
             "You withdrew from this exam after the timetable was published. It will disappear "
             "from this "
             "page when the timetable is next published.")):
        with opened(run, chromium, front, user) as page:
            page.judge(f"what it says to {user}", {"texts #notes > *": [row[-1], note]})
            rows = [cells[1:] for cells in page.look("days") if len(cells) > 1]
            run.judge(f"the exam of {user}", row, rows[0])


def overlapping_exams(run, chromium, front):
    """A candidate with two exams at one time reads it, and whom to write to."""
    def sent(number, action):
        run.judge(f"a batch to {action}", 200, front.told(ask(
            "registry", "PUT", f"/batches/{number}", batch_text(f"1,2,{action}")))[0])

    sent(7, "add")
    with opened(run, chromium, front, "ada") as page:
        day, start = (page.reader.run(script, "en-GB", f"{MONDAY}T09:30:00Z") for script in (
            DAY, START))
        page.judge("two exams at one time", {
            "texts #overlaps p": [
                f"Two of your exams overlap: PHYS101 and PHYS102, {day}, {start}.",
                "Please write to exams@university.example now."],
            "hrefs #overlaps a": ["mailto:exams@university.example"]})
        run.judge("none are close together", False, "close together." in page.look("text body"))
    sent(8, "drop")
    with opened(run, chromium, front, "ada") as page:
        page.judge("one of them is dropped", {"hidden #overlaps": True})


def moved_exam(run, chromium, front):
    """After a publication that moves an exam its candidate sees the new place and seat."""
    with opened(run, chromium, front, "ada") as page:
        page.judge("an exam has moved", {"days": days_and_exams(
            page, "en-GB", (FRIDAY, "09:30:00", MATH101, HALL, "1", "Seat assigned"),
            (MONDAY, "09:30:00", ("10:30:00", *PHYS102[1:]), ROOM, "2", "Seat assigned"))})


def signing_on(run, chromium, front, sso):
    """With single sign-on a reader is sent to sign in, gets their page, and can sign out."""
    for user in ("ada", "registry", "physics"):
        with opened(run, chromium, front, user) as page:
            page.judge(f"no sign-out with a password, for {user}", {"hidden #sign-out": True})
    host = chromium.new_host()
    for _ in range(2):
        chromium.go(f"http://{host}:{sso.port}/")
        is_read(chromium)
        run.judge("signed on", ("Ada Archer · s1", False), (
            chromium.text("#candidate"),
            chromium.run("return document.querySelector('#sign-out').hidden")))
        chromium.click("#sign-out")
        chromium.waits("return location.pathname === '/signed-out.html'")
        run.judge("signed out", [401, 401], [
            chromium.run("return fetch(arguments[0]).then(reply => reply.status)", path)
            for path in ("/me", "/-/user")])
