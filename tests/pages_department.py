"""The page of a department: exams are moved, swapped and taken out by keyboard, and each edit can
be undone."""
import json

from front_cases import ask
from front_page import opened

FRIDAY, MONDAY = ("2005-04-15", "17:00:00"), ("2005-04-18", "09:30:00")
HALL, ROOM = "Great Hall, Main building", "Room 2.14, Physics building"
NOT_MADE = "Your change was not made. "
CHANGED = ("Look at the draft, then try again. This draft has changed since you looked. It had 27 "
           "points when "
           "you looked, and has 37 now. 1 exam has moved: PHYS102: {monday}, {hall} before, "
           "{friday}, {hall} now")
SUBMIT = "click #edit-submit"


def keys(names):
    """From the form's first field, the exam, over the kind and the period to the room and the
    button."""
    return ["focus #edit-exam", f"press {names} enter"]


# The edits of a department that owns its exams, each with what undoes it.
UNDO = ["focus #undo", "press enter"]
EDITS = [
    ("a move", keys("down tab tab down tab tab"),
     {"said": "PHYS102: {monday}, {hall}. 27 points now, 37 before.", "focus": "status",
      "#undo": "Undo: PHYS102 back to {friday}, {hall}"}),
    ("a move, undone", UNDO,
     {"said": "PHYS102: {friday}, {hall}. 37 points now, 27 before.", "hidden #undo": True}),
    ("a swap that breaks a rule", keys("tab down tab tab"),
     {"said": NOT_MADE + "Exam PHYS101 is longer than its period."}),
    ("a move again", keys("tab up tab down tab tab"),
     {"said": "PHYS102: {monday}, {hall}. 27 points now, 37 before."}),
    ("a swap", keys("tab down tab tab"),
     {"said": "PHYS102: {monday}, {room}. PHYS101: {monday}, {hall}. 27 points now, 27 before.",
      "#undo": "Undo: swap PHYS102 and PHYS101 back"}),
    ("a swap, undone", UNDO,
     {"said": "PHYS102: {monday}, {hall}. PHYS101: {monday}, {room}. 27 points now, 27 before.",
      "#undo": "Undo: PHYS102 back to {friday}, {hall}",
      "#redo": "Redo: swap PHYS102 and PHYS101"}),
    ("what the button says", ("set", "#edit-kind", "clear"), {"#edit-submit": "Take out PHYS102"}),
]


def filled(looks, words):
    return {look: text.format(**words) if isinstance(text, str) else text for look,
            text in looks.items()}


def owned(front, owners):
    """Gives exams these departments as their owners."""
    for exam, dept in owners.items():
        front.told(ask("registry", "PUT", f"/exams/{exam}/owner", b'{"dept":%d}' % dept))


def what_a_department_sees(page, friday, monday):
    """The exams of the department with their places, the drafts, and all rooms and periods to
    choose."""
    page.judge("what a department sees", {
        "#department": "Physics", "#status": "2 exams",
        "#draft-points": "37 points. Breaks no rule.",
        "rows #places tr": [
            ["PHYS101\nMechanics", "120", monday, f"{ROOM}\n2 seats", "", "Change …"],
            ["PHYS102\nOptics", "60", friday, f"{HALL}\n3 seats", "", "Change …"]],
        "texts #draft-number option": ["Draft 1", "Draft 2"],
        "texts #edit-room option": [f"{HALL} (3 seats)", f"{ROOM} (2 seats)"],
        "texts #edit-period option:nth-child(4)": [monday]})
    page.run.judge("errors in the console", [], page.reader.complaints("network", "javascript"))


def taking_out(page, words):
    """An exam is taken out of the draft, and undo places it again."""
    page.steps(
        ("taken out", SUBMIT, {
            "texts #places tr:nth-child(2) td:nth-child(3)": ["not placed"],
            "#draft-points": "21 points. Breaks no rule; 1 exam not placed."}),
        ("placed again", UNDO,
         filled({"said": "PHYS102: {monday}, {hall}. 27 points now, 21 before."}, words)))


def draft_changed_meanwhile(page, front, words):
    """An edit of a draft that somebody else has changed is refused once, with what has changed."""
    page.run.judge("the office moves an exam", (200, b'{"draft":1,"penalty":37}'), front.told(
        ask("registry", "POST", "/drafts/1/exams/3/move", b'{"period":2,"room":0}')))
    page.steps(
        ("a draft that changed meanwhile", SUBMIT, filled({
            "words #error": NOT_MADE + CHANGED,
            "#places tr:nth-child(2) td:nth-child(3)": "{friday}"}, words)),
        ("tried again", SUBMIT, {"said": "PHYS102: not placed. 21 points now, 37 before."}))
    front.told(ask("registry", "POST", "/drafts/1/exams/3/place", b'{"period":2,"room":0}'))


def departments_page(run, chromium, front):
    """A department edits the exams that it owns, and sees what each edit costs."""
    owned(front, {3: 0})
    with opened(run, chromium, front, "physics") as page:
        friday, monday = page.moment(*FRIDAY), page.moment(*MONDAY)
        words = {"friday": friday, "monday": monday, "hall": HALL, "room": ROOM}
        what_a_department_sees(page, friday, monday)
        page.steps(("an exam that it doesn't own", keys("down tab tab down tab tab"), {
            "said": NOT_MADE + "Your department does not own this exam."}))
        owned(front, {2: 3, 3: 3})
        page.act("click #refresh")
        page.steps(*((name, acts, filled(looks, words)) for name, acts, looks in EDITS))
        taking_out(page, words)
        draft_changed_meanwhile(page, front, words)


# What is looked for among a department's exams, and in which order they come.
ROWS, LINES = "names #places th", "titles #edit-places > ul > li > .place"
FOUND = [(("set", "#own-words", "OPTICS"), ["PHYS102"]),
         (("set", "#own-words", "2.14"), ["PHYS101"]), (("set", "#own-words", "x"), []),
         (("set", "#own-words", ""), ["PHYS101", "PHYS102"]),
         (("set", "#own-order", "period"), ["PHYS102", "PHYS101"]),
         (("set", "#own-order", "room"), ["PHYS102", "PHYS101"]),
         (("set", "#own-order", "code"), ["PHYS101", "PHYS102"])]


def departments_places(run, chromium, front):
    """A department finds and sorts its exams; an office that knows lists where its own can go."""
    owned(front, {2: 3})
    with opened(run, chromium, front, "physics") as page:
        at = [page.moment(*start) for start in (("2005-04-15", "09:30:00"), (
            "2005-04-15", "14:00:00"), FRIDAY, MONDAY)]
        for act, exams in FOUND:
            page.steps((f"exams after {act}", act, {ROWS: exams}))
        page.judge("how many are shown", {"#own-count": ""})
        page.steps(("an exam that it doesn't own", "click #places tr:nth-child(2) button", {
            "said": "Your department does not own this exam.", LINES: []}))
        owned(front, {3: 3})
        page.steps(
            ("where its exam can go", "click #places tr:nth-child(2) button", {
                "said": "6 places of 8 are free for PHYS102. Choosing one makes the change.",
                LINES: [f"{at[3]} 27 points, 10 fewer, Great Hall",
                        f"{at[1]} 36 points, 1 fewer, Room 2.14",
                        f"{at[2]} (now) 44 points, 7 more, Room 2.14",
                        f"{at[0]} overlaps with MATH101"]}),
            ("it moves, by keys", ["write 152", "press enter"], {
                "said": f"PHYS102: {at[1]}, {ROOM}. 36 points now, 37 before.", LINES: [],
                "focus": "status", "#undo": f"Undo: PHYS102 back to {at[2]}, {HALL}"}),
            ("undone", "click #undo", {
                "said": f"PHYS102: {at[2]}, {HALL}. 37 points now, 36 before.",
                "hidden #undo": True, "#redo": f"Redo: PHYS102 to {at[1]}, {ROOM}"}),
            ("and made again", "click #redo", {
                "said": f"PHYS102: {at[1]}, {ROOM}. 36 points now, 37 before.",
                "hidden #redo": True}))


def departments_files(run, chromium, front):
    """How large exams are, and where they are published, are read from the files that the
    registry's tools write, with their time; the published timetable can't be changed."""
    labels = front.folder / "labels"
    counted, made = "2005-03-29T09:00:00Z", "2005-04-01T10:30:00Z"
    ledger = json.loads((labels / "labels.json").read_text())["ledger"]
    texts = {"sizes": {"at": counted, "sizes": [2, 2, 1, 1_234], "ledger": ledger},
             "published": {"publication": 3, "at": made, "points": 27,
                           "places": [[0, 0], [1, 0], [3, 1], [3, 0]]}}
    for name, text in texts.items():
        (labels / f"{name}.json").write_text(json.dumps(text))
    for name, text in texts.items():
        run.judge(f"who may read {name}.json", (text, text, None, None), tuple(
            json.loads(front.told(ask(user, "GET", f"/labels/{name}.json"))[1])
            for user in ("registry", "physics", "ada", "nobody")))
    with opened(run, chromium, front, "physics") as page:
        monday = page.moment(*MONDAY)
        page.steps(
            ("sizes", ("set", "#own-order", "size"), {ROWS: ["PHYS102", "PHYS101"],
             "texts #places td:nth-child(5)": ["1,234", "1"],
             "#sizes-at": f"Candidates were counted on {page.at(counted)}."}),
            ("what is published", ("set", "#draft-number", "0"), {
                "said": "Published timetable is shown.", "hidden #change": True,
                "#draft-points": f"27 points. Published on {page.at(made)}.",
                "rows #places tr": [
                    ["PHYS102\nOptics", "60", monday, f"{HALL}\n3 seats", "1,234", ""],
                    ["PHYS101\nMechanics", "120", monday, f"{ROOM}\n2 seats", "1", ""]]}),
            ("a draft again", ("set", "#draft-number", "1"), {
                "said": "Draft 1 is shown.", "hidden #change": False}))
    for name in texts:
        (labels / f"{name}.json").unlink()


def pages_of_others(run, chromium, front):
    """A department can't use the registry's page, nor the registry a department's."""
    with opened(run, chromium, front, "physics", "registry.html") as page:
        page.judge("the registry's page, for a department", {
            "said": "Only the examination office may do this.\nGo to your own page",
            "hidden #menu": True})
    with opened(run, chromium, front, "registry", "department.html") as page:
        run.judge("the department's page, for the office", True,
                  page.look("#error").startswith("This page is for departments."))
