#!/usr/bin/env python3
"""run_university.py PROGRAM: the pages at the size of a university, and the time that they take.

The CSV files of examples/university become a session; a browser opens the registry's page,
publishes the timetable, prints it, and sends late changes by codes; a hundred candidates open
their pages at once from one address; a hundred places of exams are compared with the edits that
put the exams there. Then such a session is set up on the page, beside the registry's service. A
failing case is printed with what was expected and what came; then come the times, and the last
line counts the cases. It isn't part of the gate; `./test university` runs it.
"""
import collections
import concurrent.futures
import contextlib
import json
import pathlib
import re
import random
import shutil
import subprocess
import sys
import tempfile
import time

import browser
import front_registry
import front_sign_in
from front_page import KEYS, is_read, reading, sheets_printed
from front_cases import ask, password
from run_front import NGINX, TOP, Front
from run_serve import Office, Run, one_reply
from serve_cases import at, batch_text, message

UNIVERSITY = TOP / "examples" / "university"
# They sign in with their student ID.
CANDIDATES = [f"s2026{number:04}" for number in range(1, 101)]
PATHS = ("/", "/me", "/me/penalty", "/-/user", "/labels/labels.json")


class Times:
    """The seconds that each act took."""

    def __init__(self):
        self.lines = []

    @contextlib.contextmanager
    def of(self, what):
        began = time.monotonic()
        yield
        self.lines.append(f"{what:45} {time.monotonic() - began:6.2f} s")


def set_up(run, times):
    """The office with the session, and the front with the labels and a hundred users."""
    made, database = run.folder / "made", run.folder / "university.db"
    # nginx's workers read there as another user.
    run.folder.chmod(0o755)
    with times.of("session and labels from CSV"):
        subprocess.run([TOP / "tools" / "session_from_csv", UNIVERSITY, made], check=True)
    with times.of("load"):
        subprocess.run([run.program, "load", "--db", database, made / "now" / "session.exam"],
                       check=True,
                       stdout=subprocess.DEVNULL)
    office = Office(run.program, database)
    folder = run.folder / "university"
    shutil.copytree(TOP / "front", folder / "front")
    for name in ("labels.json", "students.json"):
        shutil.copyfile(made / "now" / name, folder / "front" / "labels" / name)
    with (folder / "front" / "users").open("a") as users:
        users.writelines(f"{user}:{{PLAIN}}try-{user}\n" for user in CANDIDATES)
    with (folder / "front" / "callers").open("a") as callers:
        callers.write('"~^s(?<number>[0-9]{1,9})$" cand:$number;\n')
    return office, folder, json.loads((made / "now" / "labels.json").read_text())


# Chooses an exam, and returns after how many milliseconds each place of it is shown.
CHOOSE = """
const began = performance.now();
document.querySelector('#cell .move').click();
return new Promise(done => {
  const look = () => requestAnimationFrame(document.querySelector('#move-places .place')
    ? () => done(performance.now() - began) : look);
  look();
});
"""
MOST_MILLISECONDS = 300


def moved(run, times, reader):
    """Every place of an exam is shown, and the exam is moved to the best one and back."""
    reader.run("location.hash = '#timetable/draft-1/0'")
    reader.waits("return document.querySelector('#cell .move')")
    is_read(reader)
    took = []
    for _ in range(5):
        took.append(reader.run(CHOOSE))
        is_read(reader)
        reader.press(KEYS["escape"])
        reader.waits("return document.querySelector('#cell .move')")
    reader.run(CHOOSE)
    is_read(reader)
    times.lines.append(f"{'every place of an exam, the best of five':45} {min(took) / 1000:6.2f} s")
    run.judge("every place of an exam within 300 ms", True, min(took) < MOST_MILLISECONDS)
    run.judge("places that are marked", len(reader.texts("#pictures tbody td")), reader.run(
        "return document.querySelectorAll('#pictures :is(.free, .shut, .here)').length"))
    with times.of("a move, until it is shown"):
        reader.click("#move-places .place")
        reader.waits("return !document.querySelector('#undo').hidden")
        is_read(reader)
    run.judge("it moved", True, " points now, " in reader.text("#status"))
    with times.of("undo, until it is shown"):
        reader.click("#undo")
        reader.waits("return document.querySelector('#undo').hidden")
        is_read(reader)


def go_to(reader, section):
    """Opens a section of the registry's page."""
    reader.click(f"#menu [data-to={section}] a")
    is_read(reader)


def registrys_week(run, times, chromium, front, labels):
    """From a draft to a published timetable, on paper, to late changes."""
    with times.of("a draft of the timetable"):
        run.judge("a draft", 201, front.told(ask("registry", "PUT", "/drafts/1", (
            UNIVERSITY / "timetable.sol").read_bytes()))[0])
    with contextlib.ExitStack() as stack:
        with times.of("the registry's page is ready"):
            reader = stack.enter_context(reading(chromium, front, "registry"))
        run.judge("the session's title", "University of Example · Summer examinations 2027",
                  reader.text("#session-title"))
        with times.of("publish, and show it"):
            reader.click("#cards li:nth-child(1) a")
            reader.waits("return !document.querySelector('#publish').hidden")
            reader.click("#publish")
            reader.waits("return document.querySelector('#confirm').open")
            reader.click("#confirm-yes")
            reader.waits("return document.querySelector('#status').innerText.includes('is "
                         "published')")
        run.judge("what was published",
                  "Draft 1 is published; the seats of 25,000 candidates have changed.",
                  reader.text("#status"))
        path = run.folder / "university.pdf"
        with times.of("print it as PDF"):
            reader.pdf(path, 8.27, 11.69)
        if shutil.which("pdftotext"):
            printed = subprocess.run(["pdftotext", "-layout", path, "-"], check=True,
                                     stdout=subprocess.PIPE).stdout.decode()
            words = [f"{room['name']}, {room['building']}" for room in labels["rooms"]]
            run.judge("each room in each period on paper", {len(labels["periods"])},
                      {sum(line.strip().startswith(word) for line in printed.splitlines())
                       for word in words})
        seat_lists(run, times, reader, front, labels)
        go_to(reader, "late-changes")
        late = "\n".join(["student,exam,action", *(f"{user[1:]},0,add" for user in CANDIDATES)])
        reader.run("document.querySelector('#batch-lines').value = arguments[0]", late)
        with times.of("send a hundred late changes as they are"):
            reader.click("#batch-check")
            reader.waits("return document.querySelector('#status').innerText.includes('accepted')")
        run.judge("late changes", len(CANDIDATES), sum(
            int(number) for number in re.findall(r"([0-9]+) (?:added|unchanged)",
                                                 reader.text("#status"))))


def seat_lists(run, times, reader, front, labels):
    """A candidate is found by name, and a door list for each room and period has every
    candidate."""
    made = front.folder / "labels" / "students.json"
    students = {student["number"]: student for student in json.loads(made.read_text())["students"]}
    seats = [line.split(",") for line in front.told(ask("registry", "GET", "/publication/seats"))[1]
             .decode().splitlines()[1:]]
    student = students[int(seats[0][0])]
    with times.of("the conflicts of the publication"):
        go_to(reader, "conflicts")
    run.judge("a list of conflicts", True, bool(reader.text("#conflict-count")))
    with times.of("its picture"):
        go_to(reader, "timetable")
    run.judge("cells of the picture", len(labels["rooms"]) * len(labels["periods"]),
              len(reader.texts("#pictures tbody td")))
    moved(run, times, reader)
    go_to(reader, "seats")
    reader.run("document.querySelector('#seat-words').value = arguments[0]", student["id"])
    with times.of("find a candidate's seats"):
        reader.click("#seat-find button")
        reader.waits("return document.querySelector('#seat-found table')")
        is_read(reader)
    run.judge("a candidate's seats", sum(seat[0] == seats[0][0] for seat in seats),
              len(reader.texts("#seat-found tbody tr")))
    reader.click("#seat-print button")
    is_read(reader)
    run.judge("too many sheets", True, reader.text("#error").startswith(
        f"These are {len(seats):,} seats, and a browser can print 10,000 at once."))
    seats = [seat for seat in seats if seat[2] == "0"]
    with times.of("door lists of one period, as PDF"):
        pages, lines = sheets_printed(run, reader, "door", "0")
    rooms = len({room for _, _, _, room, _ in seats})
    print(f"university: {len(seats)} seats of a period in {rooms} rooms, on {pages} pages")
    if lines is not None:
        printed = collections.Counter(lines)
        run.judge("each candidate once per exam on paper", {1}, {printed[" ".join(
            f"{students[int(number)]['name']} {students[int(number)]['id']}"
            f" {labels['exams'][int(exam)]['code']} {seat}".split())]
            for number, exam, _, _, seat in seats})


CSV = ("exams.csv", "rooms.csv", "periods.csv", "enrolments.csv.gz", "rules.csv")


def by_the_service(run, times, chromium):
    """A session of five CSV files is set up on the page; then what its history takes."""
    if front_sign_in.missing():
        print(f"university: set-up is left out without {' and '.join(front_sign_in.missing())}")
        return
    stack = front_registry.Stack(run, Front, "university_service", is_new=True)
    try:
        front_registry.sign_in_on_the_page(chromium, stack)
        chromium.types("#csv-files", "\n".join(str(UNIVERSITY / name) for name in CSV))
        with times.of("five CSV files are checked on the page"):
            chromium.click("#csv-session button")
            chromium.waits("return !document.querySelector('#csv-preview').hidden")
            is_read(chromium)
        chromium.click("#csv-load")
        with times.of("they are loaded, with names and owners"):
            chromium.click("#confirm-yes")
            is_read(chromium)
        run.judge("a session set up on the page", "The session is loaded: 1,500 exams, 117,419"
                  " enrolments, 45 periods, 40 rooms. 1,500 exams have their owners.",
                  chromium.text("#status"))
        published_twice(run, stack)
        with times.of("the history"):
            go_to(chromium, "history")
        with times.of("what differs between two publications"):
            chromium.click("#history-compare button")
            is_read(chromium)
        run.judge("exams that moved", True, chromium.text("#status").startswith("1 exam and "))
        judged_by_the_service(run, times, chromium, stack)
    finally:
        stack.stop()


def clashing_line(office):
    """A line of a batch that gives a candidate of exam 0 another exam in its period."""
    places, exams = ([line.split(", ") for line in office.ask("GET", path)[2].decode().splitlines()]
                     for path in ("/publication", "/instance"))
    other = next(exam for exam, place in enumerate(places) if exam and place[0] == places[0][0])
    student = next(one for one in exams[1][1:] if one not in exams[1 + other])
    return f"{student},{other},add"


def judged_by_the_service(run, times, reader, stack):
    """A late change is shown with what it would break, and what the publication breaks then."""
    office = front_registry.signed_in(stack, "registry")
    line = clashing_line(office)
    student, exam, _ = line.split(",")
    now = stack.service.made / "now"
    code = json.loads((now / "labels.json").read_text())["exams"][int(exam)]["code"]
    ids = {f"{one['number']}": one["id"] for one in json.loads(
        (now / "students.json").read_text())["students"]}
    go_to(reader, "late-changes")
    reader.click("#batch-changes")
    reader.run("document.querySelector('#batch-lines').value = arguments[0]",
               f"student,exam,action\n{ids[student]},{code},add")
    with times.of("check a late change, by the service"):
        reader.click("#batch-check")
        reader.waits("return !document.querySelector('#batch-preview').hidden")
        is_read(reader)
    run.judge("two exams at one time", "Two exams at one time, in Published (1)",
              reader.text("#batch-lists h3:nth-of-type(2)"))
    run.judge("it is sent", 200, office.ask("PUT", "/batches/1", batch_text(line))[0])
    with times.of("the page reads all again, with the service"):
        reader.click("#refresh")
        is_read(reader)
    go_to(reader, "timetable")
    reader.click("#cards li:first-child a")
    is_read(reader)
    with times.of("conflicts of the publication, by the service"):
        go_to(reader, "conflicts")
    run.judge("an overlap of the publication", "Two exams at one time (1)",
              reader.text("#conflict-kind option:nth-child(2)"))


def published_twice(run, stack):
    """Publishes the timetable, moves an exam to the best of its other places, publishes again."""
    office = front_registry.signed_in(stack, "registry")

    def publish(number):
        run.judge("a publication", 200, office.ask("POST", "/drafts/1/publish")[0])
        browser.until(f"publication {number} is kept", lambda: len(front_registry.asked(
            office, "GET", "history")[1]["publications"]) == number)

    solution = (UNIVERSITY / "timetable.sol").read_bytes()
    run.judge("a draft for the service", 201, office.ask("PUT", "/drafts/1", solution)[0])
    publish(1)
    here = solution.decode().splitlines()[0].split(", ")
    lines = office.ask("GET", "/drafts/1/exams/0/places")[2].decode().splitlines()[1:]
    places = [place for place in (line.split(",") for line in lines)
              if place[2] and place[:2] != here]
    period, room, *_ = min(places, key=lambda place: int(place[2]))
    run.judge("a move", 200, office.ask("POST", "/drafts/1/exams/0/move", json.dumps(
        {"period": int(period), "room": int(room)}))[0])
    publish(2)


def places_beside_edits(run, times, office):
    """Ten places of each of ten exams, chosen by a fixed seed: the edit that moves the exam there
    answers what its line says."""
    chosen, took = random.Random(2027), []

    def told(method, path, body=b""):
        # A connection ends after 100 messages.
        with office.connect() as client:
            client.sendall(message(method, f"/drafts/2{path}", body))
            return one_reply(client)

    told("PUT", "", (UNIVERSITY / "timetable.sol").read_bytes())
    draft = json.loads(told("GET", "")[1])["exams"]
    for one in chosen.sample(draft, 10):
        path = f"/exams/{one['exam']}"
        began = time.monotonic()
        listed = told("GET", f"{path}/places")[1].decode().splitlines()[1:]
        took.append(time.monotonic() - began)
        for line in chosen.sample(listed, 10):
            period, room, *said = line.split(",")
            status, reply = told("POST", f"{path}/move", at(int(period), int(room)))
            reply = json.loads(reply)
            run.judge(f"exam {one['exam']} at {period}, {room}", said,
                      [str(reply["penalty"]), "", "", ""] if status == 200 else
                      ["", reply["rule"], str(reply["exam"]), str(reply["other"])])
            if status == 200:
                told("POST", f"{path}/move", at(one["period"], one["room"]))
    times.lines.append(f"{'every place of an exam, the longest of ten':45} {max(took):6.3f} s")


def many_candidates(run, times, front):
    """A hundred candidates of one address open their pages at once."""
    def opened(user):
        return [front.told(message("GET", path, caller=None, fields=[
            password(user), "Accept: text/html,*/*"]))[0] for path in PATHS]

    with times.of("a hundred candidates open their pages"):
        with concurrent.futures.ThreadPoolExecutor(len(CANDIDATES)) as pool:
            replies = [status for page in pool.map(opened, CANDIDATES) for status in page]
    run.judge("a hundred candidates at once", [200] * len(CANDIDATES) * len(PATHS), replies)


def main():
    if len(sys.argv) != 2:
        print(__doc__.partition(":")[0], file=sys.stderr)
        return 2
    lacking = [*([] if NGINX else ["nginx-light"]), *browser.missing()]
    if lacking:
        print(f"university: left out without {' and '.join(lacking)}")
        return 0
    with tempfile.TemporaryDirectory() as folder:
        run, times = Run(pathlib.Path(sys.argv[1]).resolve(), folder, "university"), Times()
        office, front_folder, labels = set_up(run, times)
        try:
            # The exam is chosen five times at once.
            front = Front(front_folder, office.port, edits=(("rate=2r/s", "rate=9r/s"),))
            try:
                with browser.Browser(run.folder) as chromium:
                    registrys_week(run, times, chromium, front, labels)
                    with times.of("a candidate's page is ready"):
                        with reading(chromium, front, CANDIDATES[0]) as reader:
                            run.judge("a candidate's page", True,
                                      "Seat assigned" in reader.text("#timetable, #past"))
                    by_the_service(run, times, chromium)
                many_candidates(run, times, front)
                places_beside_edits(run, times, office)
            finally:
                front.stop()
        finally:
            office.killed()
    print(*(f"university: {line}" for line in times.lines), sep="\n")
    return run.end()


if __name__ == "__main__":
    sys.exit(main())
