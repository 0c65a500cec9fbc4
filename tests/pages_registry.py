"""The registry's page: timetables and what they break, publishing, drafts, owners, and a new
session."""
import time

from front_cases import ask
from front_page import DAY, csv_file, opened
from pages_seats import NOBODY, SEATS_NAMED, WHERE, WHOSE
from serve_cases import SMALL, SOLUTION

FRIDAY, MONDAY = "2005-04-15", "2005-04-18"
HALL, ROOM = "Great Hall, Main building", "Room 2.14, Physics building"
CARD = "#cards li:nth-child(%d)"
OPEN, POINTS, VERDICT = f"{CARD} a", f"{CARD} .points", f"{CARD} .verdict"
TITLE = "#timetable-title"

# ---- Overview

# The points of the publication and of two drafts, by part, and how the second differs from it.
PARTS = [("Two in a row", 7, 7, "0\n7 fewer than published"),
         ("Two in a day", 5, 5, "0\n5 fewer than published"), ("Period spread", 3, 3, "3"),
         ("Over night", 0, 0, "0"), ("Mixed durations", 0, 0, "0"),
         ("Front load", 0, 0, "4\n4 more than published"),
         ("Period penalty", 15, 15, "20\n5 more than published"), ("Room penalty", 7, 7, "7")]


def registrys_page(run, chromium, front):
    """Penalties are shown by part, with bars, violations in words, and rooms by period."""
    with opened(run, chromium, front, "registry") as page:
        run.judge("errors in the console", [], page.reader.complaints("network", "javascript"))
        page.judge("the timetables", {
            "titles #cards a": [
                "Published 37 points Candidates see this timetable Rules not checked with today's "
                "enrolments",
                "Draft 1 37 points as many as published Breaks no rule",
                "Draft 2 34 points 3 fewer than published Breaks rules: 1 violation"],
            "rows #parts tr": [["Part", "Published", "Draft 1", "Draft 2"], *(
                [part, *map(str, points)] for part, *points in PARTS)]})
        run.judge("the bars of the publication", [True] * 8, [
            abs(width - part[1] / 20) < 0.02
            for width, part in zip(page.look("widths #parts td:nth-child(2) .bar"), PARTS)])
        page.steps(("a draft", f"click {OPEN % 3}", {
            "focus": "timetable-title", TITLE: "Draft 2"}),
                   ("what it breaks", f"click {MENU % 'conflicts'}", {
                       "focus": "conflicts-title", "hash": "#conflicts/draft-2",
                       "#conflicts-title": "Conflicts of Draft 2",
                       "#conflict-count": "1 conflict.",
                       "texts #conflict-list td:last-child": [
                           "Exam MATH102 must come after exam MATH101, and does not."]}))


# ---- The picture

PICTURE, CELLS = "#pictures table", "labels #pictures tbody tr"
HALL_CELLS = [
    "Great Hall, {0}: free, 3 seats", "Great Hall, {1}: MATH102, 2 of 3 seats",
    "Great Hall, {2}: PHYS102, 1 of 3 seats", "Great Hall, {3}: MATH101, 2 of 3 seats"]
ROOM_CELLS = [f"Room 2.14, {{{period}}}: free, 2 seats" for period in range(3)] + [
    "Room 2.14, {3}: PHYS101, 1 of 2 seats"]
STARTS = ((FRIDAY, "09:30:00"), (FRIDAY, "14:00:00"), (FRIDAY, "17:00:00"), (MONDAY, "09:30:00"))
# How often a candidate's next exam is so many periods after one, in draft 2 as in draft 1.
GAPS = {1: 1, 2: 2}


def page_of_free_cell(moments):
    """What the panel has of the room in the second period, which is free."""
    return (f"{ROOM} {moments[1]}, Draft 2 0 of 2 seats taken The mouse or the arrow keys choose a "
            "cell; Enter comes here, M moves the exam of a cell.")


def pictures_of_timetables(run, chromium, front):
    """A timetable is a grid of named cells, which arrows go through; another one is beside it."""
    with opened(run, chromium, front, "registry", "registry.html#timetable/draft-2") as page:
        moments = [page.moment(*start) for start in STARTS]
        cells = [text.format(*moments) for text in (*HALL_CELLS, *ROOM_CELLS)]
        days = [page.reader.run(DAY, "en-GB", f"{date}T00:00:00Z") for date in (FRIDAY, MONDAY)]
        page.judge("the picture", {
            "labels #pictures tbody td": cells, "labels #pictures thead .day[colspan]": days,
            "labels #pictures tfoot td": [
                f"{moment}: {count}" for moment, count in zip(moments, (
                    "0 candidates", "2 candidates", "1 candidate", "3 candidates"))],
            "texts #gaps td:nth-child(2)": [str(GAPS.get(gap, 0)) for gap in range(17)],
            "texts #gaps .limit th": ["3"]})
        page.steps(
            ("an exam of the picture", ["focus #pictures [tabindex='0']", "press right"],
             {"#cell h3": HALL, "names #cell li": ["MATH102 Linear algebra"]}),
            ("a cell below", "press down down", {"#cell h3": ROOM, "names #cell li": [],
                                                 "words #cell-body": page_of_free_cell(moments)}),
            ("what is in a cell", ["press end enter"],
             {"focus": "cell-title", "names #cell li": ["PHYS101 Mechanics"]}),
            ("the smallest room first", ("set", "#room-order", "list"), {
                "labels #pictures tbody tr:first-child td": cells[:4]}),
            ("another timetable beside it", ("set", "#compare", "Draft 1"), {
                "texts #pictures caption": [
                    f"{name}: rooms by period, darker the more seats are taken"
                    for name in ("Draft 2", "Draft 1")],
                "labels #pictures > :first-child .differs": [
                    f"{cells[place]}, differs" for place in (0, 3)],
                "texts #gaps td:nth-child(3)": [str(GAPS.get(gap, 0)) for gap in range(17)]}),
            ("an exam that the address names", [("set", "#compare", ""), ("set", "#find", "optics"),
                                                "click #found tbody a"],
             {"hash": "#timetable/draft-2/3", "names #cell .chosen": ["PHYS102 Optics"],
              "labels :focus": [cells[2]]}))


# ---- Sections

MENU = "#menu [data-to=%s] a"
MENU_LINES = ["Timetable", "Conflicts", "Seats and lists", "Late changes", "Set-up"]
# Addresses, also of older versions, and the heading that they show; the last one names nothing.
ADDRESSES = [("#timetable/draft-2", "Draft 2"), ("#conflicts/draft-1", "Conflicts of Draft 1"),
             ("#seats", "Seats and lists"), ("#late-changes", "Late changes"),
             ("#set-up", "Set-up"), ("#draft-2", "Draft 2"), ("#published", "Published"),
             ("#nothing", "Published")]
SHOWN = "section[data-section]:not([hidden]) h2"
# What is used daily, by section: it has to be seen without scrolling at 1440 by 900.
DAILY = {"timetable": ["#publish", "#find", "#compare", "#pictures tfoot", "#cell"],
         "conflicts": ["#conflict-words", "#conflicts-csv", "#conflict-count"],
         "seats": ["#seat-words", "#seatless", "#seat-print button"],
         "late-changes": ["#batch-lines", "#batch-check"], "set-up": ["#draft button"]}
BOTTOM = "return document.querySelector(arguments[0]).getBoundingClientRect().bottom"
# How far a message is from the button that caused it, in pixels.
BESIDE = ("const [one, other] = [...arguments].map(s => document.querySelector(s))"
          ".map(e => e.getBoundingClientRect()); return Math.round(one.top - other.bottom)")


def sections(run, chromium, front):
    """Each section has an address and a line in the menu; a message is beside its control, and
    what is used daily is seen without scrolling."""
    with opened(run, chromium, front, "registry", width=1_440, height=900) as page:
        page.judge("the menu", {"texts #menu li:not([hidden])": MENU_LINES,
                                "texts #menu [aria-current]": ["Timetable"]})
        for address, heading in ADDRESSES:
            page.reader.run("location.hash = arguments[0]", address)
            page.judge(f"what {address} shows", {f"texts {SHOWN}": [heading]})
        for section, selectors in DAILY.items():
            page.reader.run("location.hash = arguments[0]", f"#{section}/draft-1")
            page.judge(f"the section {section}", {"hash": f"#{section}/draft-1"})
            run.judge(f"what is used daily in {section}", [True] * len(selectors), [
                page.reader.run(BOTTOM, selector) < 900 for selector in selectors])
        page.steps(
            ("an answer", [f"click {MENU % 'seats'}", ("set", "#seat-words", "nobody"),
                           "click #seat-find button"], {"said": NOBODY}))
        run.judge("it is below its button", True,
                  0 <= page.reader.run(BESIDE, "#status", "#seat-find button") < 40)


# ---- Publishing

ASKS = ["focus #publish", "press enter"]
STOPPED = "This draft can't be published: %s. Show the conflicts"
# What the page says of work that takes a second and a half, at its end and after it.
LONG_WORK = """return (async () => {
    const scripts = document.querySelector('script[type=module]').src;
    const { showProgress } = await import(new URL('messages.js', scripts));
    const said = () => document.querySelector('#status').innerText;
    let meanwhile;
    await showProgress('Publishing …', async (say) => {
        say('Publishing, 3 of 4 …');
        await new Promise((done) => setTimeout(done, 1500));
        meanwhile = said();
        return 'Published.';
    });
    return [meanwhile, said()];
})()"""


def publications(front):
    return sum(target.endswith("/publish") for _, target, _, _ in front.exchanges())


def moved(run, front, period, room, penalty):
    """The office moves exam 3 of draft 1, and one candidate with it."""
    run.judge("a move", (200, b'{"draft":1,"penalty":%d}' % penalty), front.told(
        ask("registry", "POST", "/drafts/1/exams/3/move",
            b'{"period":%d,"room":%d}' % (period, room))))


def publishing_asks(page, front):
    """Publish asks first, and publishes nothing if it is left in any way."""
    page.judge("what is published isn't published again", {"hidden #publish": True})
    page.steps(*(
        (f"what can be published of card {place}", f"click {OPEN % place}",
         {"hidden #publish": False, "disabled #publish": bool(stops), VERDICT % place: verdict,
          "hidden #publish-stops": not stops,
          **({"#publish-stops": STOPPED % stops} if stops else {})})
        for place, stops, verdict in (
            (3, "1 rule is broken", "Breaks rules: 1 violation"),
            (4, "4 exams are not placed", "Breaks no rule; 4 exams not placed"),
            (2, "", "Breaks no rule"))))
    page.steps(
        ("what stops it, and the way there", [f"click {OPEN % 3}", "click #publish-stops a"],
         {"hash": "#conflicts/draft-2"}),
        ("and back", ["click #menu [data-to=timetable] a", f"click {OPEN % 2}"],
         {"hidden #publish-stops": True}))
    before = publications(front)
    for leave in ("click #confirm button", "press escape", "press enter"):
        page.steps(("publish asks", ASKS,
                    {"#confirm-title": "Publish draft 1?", "open #confirm": True}))
        page.run.judge("nothing has changed", False, "changed" in page.look("words #confirm-text"))
        page.steps(("it was left", leave, {"open #confirm": False}))
    page.run.judge("the published timetable, to keep", SOLUTION.decode().split(), page.reader.run(
        "return fetch(document.querySelector('#confirm-text a[download]').href)"
        ".then(reply => reply.text())").split())
    page.run.judge("nothing was published", before, publications(front))
    page.run.judge("long work says its step and its seconds",
                   ["Publishing, 3 of 4 … 1 s", "Published."], page.reader.run(LONG_WORK))


def publishing_shows_changes(page, front):
    """A draft that changed since the registrar looked is shown, once, before it can be
    published."""
    before = publications(front)
    moved(page.run, front, 3, 1, 44)
    page.steps(("publish asks", ASKS, {"open #confirm": True}))
    words = page.look("words #confirm-text")
    for part in ("It had 37 points when you looked, and has 44 now. 1 exam has moved:",
                 f"PHYS102: {page.moment(FRIDAY, '17:00:00')}, {HALL} before, "
                 f"{page.moment(MONDAY, '09:30:00')}, {ROOM} now"):
        page.run.judge("what changed since the page was read", (part, True), (part, part in words))
    page.steps(
        ("its card", "press escape",
         {"open #confirm": False, POINTS % 2: "44 points"}),
        ("publish asks again", ASKS, {"open #confirm": True}))
    page.run.judge("it has been seen", False, "changed" in page.look("words #confirm-text"))
    moved(page.run, front, 2, 0, 37)
    page.act("press tab enter")
    page.reader.waits("return document.querySelector('#confirm-text').innerText.includes("
                      "'It had 44 points when you looked, and has 37 now.')")
    page.run.judge("it asks again", (True, before),
                   (page.look("open #confirm"), publications(front)))
    page.act("press escape")
    moved(page.run, front, 3, 1, 44)
    page.steps(("publish asks", ASKS, {"open #confirm": True}),
               ("it is left", "press escape", {"open #confirm": False}))
    time.sleep(0.3)
    page.run.judge("nothing was published meanwhile", before, publications(front))


def published(page, front):
    """A draft is published by keyboard; those whose seats changed are offered as a file."""
    before = publications(front)
    page.steps(
        ("publish asks", ASKS, {"open #confirm": True}),
        ("what was published", "press tab enter", {
            "#status": "Draft 1 is published; the seats of 1 candidate have changed.",
            "#changed-seats": "Seats changed by publishing Draft 1, as CSV",
            POINTS % 1: "44 points"}))
    page.run.judge("it was published once", before + 1, publications(front))
    page.judge_file("changed-seats.csv", "#changed-seats", csv_file(
        ",".join([*WHOSE, *(f"{name} {when}" for when in ("before", "now") for name in WHERE)]),
        f"{SEATS_NAMED[5]},2005-04-18,09:30,Room 2.14,Physics building,2"))


def not_publishable(page, front):
    """A draft that can't be published any more, and one that is gone."""
    before = publications(front)
    front.told(ask("registry", "DELETE", "/drafts/1/exams/3"))
    page.steps(("a draft that can't be published any more", "click #publish", {
        "#error": "Draft 1 has changed since you looked. It can't be published now: breaks no "
                  "rule; "
                  "1 exam not placed.", "open #confirm": False}))
    page.run.judge("it wasn't published", before, publications(front))
    front.told(ask("registry", "POST", "/drafts/1/exams/3/place", b'{"period":3,"room":1}'))
    front.told(ask("registry", "DELETE", "/drafts/3"))
    page.steps(("a draft that is gone", f"click {OPEN % 4}",
                {"#error": "This draft no longer exists."}))


def publishing(run, chromium, front):
    """Publish asks first, by keyboard too, and never publishes what the registrar has not seen."""
    front.told(ask("registry", "PUT", "/drafts/3"))
    with opened(run, chromium, front, "registry") as page:
        for part in (publishing_asks, publishing_shows_changes, published, not_publishable):
            part(page, front)


# ---- Drafts and owners

DRAFT = "click #draft button.main"
BY_EXAM = [
    "MATH101,Calculus,Mathematics,2005-04-18,09:30,11:30,Great Hall,Main building",
    "MATH102,Linear algebra,Mathematics,2005-04-15,14:00,15:30,Great Hall,Main building",
    "PHYS101,Mechanics,Physics,2005-04-18,09:30,11:30,Room 2.14,Physics building",
    "PHYS102,Optics,Physics,2005-04-15,17:00,18:00,Great Hall,Main building"]
# What is looked for in a timetable, and the exams that are found.
FOUND = [("optics", ["PHYS102"]), ("phys great", ["PHYS102"]),
         ("MATHEMATICS", ["MATH101", "MATH102"]),
         ("2.14", ["PHYS101"]), ("x", []), ("Óptics", ["PHYS102"]), ("phys102", ["PHYS102"])]


def written(run, name, content):
    """A file for a form."""
    path = run.folder / name
    path.write_bytes(content)
    return path


def making_drafts(page):
    """Drafts are made, from a file and empty, and dropped."""
    faulty = written(page.run, "faulty.sol", SOLUTION.replace(b"1, 0", b"1, x"))
    page.steps(
        ("a faulty file", [f"click {MENU % 'set-up'}", ("type", "#draft-file", faulty), DRAFT], {
            "said": "Draft 3 was not made. Line 2: a whole number is expected.",
            "fault": ["draft-file", "true",
                      "Draft 3 was not made. Line 2: a whole number is expected."]}),
        ("a draft from a file",
         [("type", "#draft-file", written(page.run, "new.sol", SOLUTION)), DRAFT],
         {"said": "Draft 3 is made."}),
        ("an empty draft", DRAFT, {"said": "Draft 4 is made."}),
        ("it is there", f"click {MENU % 'timetable'}",
         {VERDICT % 5: "Breaks no rule; 4 exams not placed"}),
        ("dropping asks", [f"click {OPEN % 5}", "click #drop"],
         {"#confirm-title": "Drop draft 4?"}),
        ("a draft is dropped", "click #confirm-yes", {"#status": "Draft 4 is dropped."}))


def looking_at_drafts(page):
    """The address has the draft that is shown, and the browser's back and forward go between
    drafts."""
    page.steps(
        *(("the address of a draft", f"click {OPEN % 3}",
           {"hash": "#timetable/draft-2", TITLE: "Draft 2"}) for _ in range(2)),
        ("another draft", f"click {OPEN % 4}", {TITLE: "Draft 3"}),
        ("back", "go back", {TITLE: "Draft 2"}), ("forward", "go forward", {TITLE: "Draft 3"}),
        ("back again", "go back", {TITLE: "Draft 2"}),
        ("the link that skips", ["focus .skip", "press enter"], {
            "focus": "main", "hash": "#main", TITLE: "Draft 2"}))


def files_of_drafts(page):
    """A draft is downloaded as a solution, and as CSV in three orders."""
    page.judge_file("draft-2.sol", "#download-solution", "3, 0\r\n1, 0\r\n3, 1\r\n2, 0\r\n")
    head = "exam,title,department,date,start,end,room,building"
    for order, exams in (("exam", (0, 1, 2, 3)), ("room", (1, 3, 0, 2)), ("day", (1, 3, 0, 2))):
        page.judge_file(f"draft-2-by-{order}.csv", f"#download-{order}",
                        csv_file(head, *(BY_EXAM[exam] for exam in exams)))


def comparing_and_finding(page):
    """Two drafts are compared, and exams found by code, title, department and room."""
    friday, monday = page.moment(FRIDAY, "09:30:00"), page.moment(MONDAY, "09:30:00")
    page.steps(("differences", ("set", "#compare", "Draft 3"), {
        "#differences p": "1 exam has another place.", "rows #differences tr": [
            ["Exam", "Draft 2", "Draft 3"],
            ["MATH101", f"{monday}, {HALL}", f"{friday}, {HALL}"]]}))
    for words, exams in FOUND:
        page.steps((f"what is found for {words}", ("set", "#find", words), {
            "#found p": f"{len(exams)} exam{'' if len(exams) == 1 else 's'}.",
            "names #found tbody th": exams}))
    page.steps(("what is known of it", ("set", "#find", "mechanics"), {"rows #found tbody tr": [
        ["PHYS101\nMechanics", "Physics", "1 candidate", monday, ROOM]]}))


def setting_owners(page, front):
    """Owners come from the departments of the names; a file of them is read by the service only."""
    page.steps(
        ("no file of owners", f"click {MENU % 'set-up'}", {"hidden #owners-of-file": True}),
        ("owners of the names", "click #owners-labels", {"said": "4 exams have their owners."}))
    last = [target for method, target, status, _ in front.exchanges()
            if (method, status) == ("PUT", 200) and target.endswith("/owner")][-4:]
    page.run.judge("which exams got owners", [f"/exams/{exam}/owner" for exam in range(4)], last)
    front.told(ask("registry", "DELETE", "/drafts/3"))


def registrys_work(run, chromium, front):
    """Drafts are made, looked at, compared, downloaded and dropped; exams get owners."""
    with opened(run, chromium, front, "registry") as page:
        for part in (making_drafts, looking_at_drafts, files_of_drafts, comparing_and_finding):
            part(page)
        setting_owners(page, front)


# ---- A new session

FAULTY_SESSION = SMALL.replace(b"15:04:2005, 14", b"31:04:2005, 14")
FORMS = ("hidden #session", "hidden #draft", "hidden #owners")
LINES = "texts #menu li:not([hidden])"


def new_session(run, chromium, program):
    """A session is loaded from a file on the page; a faulty file is named with its line."""
    send = "click #session button"
    with program() as front, opened(run, chromium, front, "registry") as page:
        page.steps(
            ("no session", [], {"#status": "No session is loaded yet.", LINES: ["Set-up"],
                                **dict(zip(FORMS, (False, True, True)))}),
            ("a faulty session",
             [("type", "#session-file", written(run, "faulty.exam", FAULTY_SESSION)), send],
             {"said": "The session was not loaded. Line 8: a date such as 15:04:2005 is "
                      "expected."}),
            ("a session", [("type", "#session-file", written(run, "whole.exam", SMALL)), send],
             {"said": "The session is loaded: 4 exams, 6 enrolments, 4 periods, 2 rooms.",
              LINES: ["Late changes", "Set-up"], **dict(zip(FORMS, (True, False, False)))}))
