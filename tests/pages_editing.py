"""Editing on the registry's page: each place of an exam with its points or what forbids it, before
anything is made; by mouse and by keyboard; undo and redo."""
from front_page import opened
from pages_all import CONTRAST, FONT_SIZE, LACKS
from run_serve import one_reply
from serve_cases import message

FRIDAY, MONDAY = "2005-04-15", "2005-04-18"
HALL, ROOM = "Great Hall", "Room 2.14"
# The row and the column of a place in the picture: the hall is above the room.
CELL = "#pictures tbody tr:nth-child(%d) td:nth-child(%d)"
# Where PHYS102 is, in the third period; it is moved from there.
OPTICS, MOVE = CELL % (1, 4), "click #cell .move"
LINES = "titles #move-places > ul > li > .place"
TITLE, FREE = "#cell-title", "6 of 8 places are free for PHYS102."
# Counts clicks of the mouse and keys as the page gets them.
COUNT = """
const isNew = !window.acts;
window.acts = {click: 0, keydown: 0};
for (const name of isNew ? Object.keys(window.acts) : []) {
  window.addEventListener(name, event => {
    if (name === 'keydown' || event.detail) window.acts[name] += 1;
  }, true);
}
"""
COUNTED = "return [window.acts.click, window.acts.keydown]"
MOST_CLICKS, MOST_KEYS = 3, 6
# A tap on a cell, as a screen without a mouse makes it.
TAP = """
const cell = document.querySelector(arguments[0]);
cell.dispatchEvent(new PointerEvent('pointerdown', {bubbles: true, pointerType: 'touch'}));
cell.focus();
cell.dispatchEvent(new PointerEvent('click', {bubbles: true, pointerType: 'touch'}));
"""
NOT_MADE = "Your change was not made. "


def changes(front):
    """The edits that reached the office."""
    return [(method, target) for method, target, *_ in front.exchanges()
            if "/exams/" in target and method != "GET" and "owner" not in target]


class Words:
    """Periods and places of the small example, as the page shows them."""

    def __init__(self, page):
        self.at = [page.moment(date, f"{start}:00") for date, start in (
            (FRIDAY, "09:30"), (FRIDAY, "14:00"), (FRIDAY, "17:00"), (MONDAY, "09:30"))]
        self.hall = [f"{when}, {HALL}, Main building" for when in self.at]
        self.room = [f"{when}, {ROOM}, Physics building" for when in self.at]


def choosing(page, words):
    """An exam is chosen; each period and each cell says its points, or what forbids it."""
    at = words.at
    page.steps(
        ("a cell", f"click {OPTICS}", {TITLE: f"{HALL}, Main building",
                                       "texts #cell .move": ["Move PHYS102 …"]}),
        ("where its exam can go", MOVE, {
            "said": FREE, TITLE: "Move PHYS102 Optics",
            LINES: [f"{at[3]} 27 points, 10 fewer, {HALL}", f"{at[1]} 36 points, 1 fewer, {ROOM}",
                    f"{at[2]} (now) 44 points, 7 more, {ROOM}",
                    f"{at[0]} overlaps with MATH101 (1 candidate)"],
            "texts #move-places .rooms": ["2 rooms", "2 rooms", "1 room"],
            "texts #pictures thead tr:nth-child(3) td": ["×", "−1", "+7", "−10"],
            "labels #pictures tbody tr:nth-child(1) td": [
                f"{HALL}, {at[0]}: MATH101, 2 of 3 seats; overlaps with MATH101 (1 candidate)",
                f"{HALL}, {at[1]}: MATH102, 2 of 3 seats; 39 points, 2 more",
                f"{HALL}, {at[2]}: PHYS102, 1 of 3 seats; here now",
                f"{HALL}, {at[3]}: free, 3 seats; 27 points, 10 fewer"],
            "#move-out": "Taken out: 21 points, 16 fewer.",
            "focused": f"{at[3]}\n27 points, 10 fewer, {HALL}"}),
        ("the rooms of a period", "press right", {
            "titles #move-places ul ul .place": [
                f"{HALL}, Main building (3 seats) 27 points, 10 fewer",
                f"{ROOM}, Physics building (2 seats) 44 points, 7 more"],
            "focused": f"{HALL}, Main building (3 seats)\n27 points, 10 fewer"}),
        ("they are shut again", "press left", {
            "focused": f"{at[3]}\n27 points, 10 fewer, {HALL}",
            "titles #move-places ul ul .place": []}),
        ("by time", ("set", "#move-order", "time"), {"names #move-places > ul > li": [
            at[0], at[1], f"{at[2]} (now)", at[3]]}),
        ("a place of the picture", f"focus {CELL % (2, 3)}", {
            "#move-shown": f"{at[1]}, {ROOM}: 36 points, 1 fewer"}))
    page.act("press escape")
    page.judge("nothing is chosen any more", {
        "labels :focus": [f"{HALL}, {at[2]}: PHYS102, 1 of 3 seats"],
        "texts #pictures thead tr:nth-child(3) td": [], TITLE: f"{HALL}, Main building"})


def shut_places(page, front):
    """A place that is shut moves nothing, nor does the second click of a double click; a tap
    shows a place first."""
    before = changes(front)
    page.steps(("a place that is shut", [f"click {OPTICS}", MOVE, f"click {CELL % (1, 2)}"], {
        "#move-shown": f"{Words(page).at[0]}, {HALL}: overlaps with MATH101 (1 candidate)",
        TITLE: "Move PHYS102 Optics"}))
    page.reader.run(TAP, CELL % (1, 5))
    page.judge("a tap shows the place", {TITLE: "Move PHYS102 Optics", "texts #move-shown b": [
        f"{Words(page).at[3]}, {HALL}"]})
    page.run.judge("nothing was moved", before, changes(front))
    page.reader.run(TAP, CELL % (1, 5))
    page.judge("the second tap moves", {"#undo": f"Undo: PHYS102 back to {Words(page).hall[2]}"})
    page.steps(("and back", "click #undo", {"hidden #undo": True}))


def by_clicks(page, words):
    """A move takes three clicks from the picture; undo and redo one each."""
    moved = f"PHYS102: {words.hall[3]}. 27 points now, 37 before."
    page.reader.run(COUNT)
    page.steps(("a move by the mouse", [f"click {OPTICS}", MOVE, f"click {CELL % (1, 5)}"], {
        "said": moved, "hash": "#timetable/draft-1/3", "#cards [aria-current] .points": "27 points",
        "labels :focus": [f"{HALL}, {words.at[3]}: PHYS102, 1 of 3 seats"]}))
    clicks, keys = page.reader.run(COUNTED)
    page.run.judge("clicks and keys of a move", (True, 0), (clicks <= MOST_CLICKS, keys))
    page.steps(
        ("undo", "click #undo", {
            "said": f"PHYS102: {words.hall[2]}. 37 points now, 27 before.", "hidden #undo": True,
            "#redo": f"Redo: PHYS102 to {words.hall[3]}"}),
        ("redo", "click #redo", {"said": moved, "hidden #redo": True}),
        ("undo by keys", "undo", {"said": f"PHYS102: {words.hall[2]}. 37 points now, 27 before."}))


# The keys from the picture to each period, and what comes of them; the fourth stays in its period.
BY_KEYS = [
    ("1 5 1", "enter", None), ("1 5 2", "enter", "PHYS102: {room[1]}. 36 points now, 37 before."),
    ("1 8", "enter", "PHYS102: {hall[3]}. 27 points now, 37 before."),
    ("1 5 3", "enter", "PHYS102: {room[2]}. 44 points now, 37 before."),
    ("", "enter", "PHYS102: {hall[3]}. 27 points now, 37 before."),
    ("", "down enter", "PHYS102: {room[1]}. 36 points now, 37 before.")]


def by_keys(page, front, words):
    """A move into any period takes six keys at most from the picture."""
    for digits, keys, said in BY_KEYS:
        page.act(f"focus {OPTICS}")
        page.reader.run(COUNT)
        before = changes(front)
        page.act("write m", f"write {digits.replace(' ', '')}", f"press {keys}")
        if said:
            page.judge(f"a move by the keys m {digits} {keys}", {
                "said": said.format(hall=words.hall, room=words.room)})
            page.run.judge("keys of a move", (0, True), (lambda clicks, pressed: (
                clicks, pressed <= MOST_KEYS))(*page.reader.run(COUNTED)))
            page.act("undo")
        else:
            page.judge("a shut place by keys", {"said": FREE})
            page.run.judge("it moved nothing", before, changes(front))
            page.act("press escape")
    page.steps(
        ("a place of the picture by keys", [
            f"focus {OPTICS}", "write m", f"focus {CELL % (2, 3)}", "press enter"],
         {"said": f"PHYS102: {words.room[1]}. 36 points now, 37 before."}),
        ("and back", "undo", {"said": f"PHYS102: {words.hall[2]}. 37 points now, 36 before."}))


def taken_out(page, words):
    """An exam is taken out, found by its name, and placed again."""
    page.steps(
        ("taken out", [f"click {OPTICS}", MOVE, "click #cell-body .buttons :nth-child(2)"], {
            "said": "PHYS102: not placed. 21 points now, 37 before.", TITLE: "PHYS102",
            "texts #cell .move": ["Place PHYS102 …"]}),
        ("found by its name", ["click #cards li:nth-child(3) a", "click #cards li:nth-child(2) a",
                               ("set", "#find", "optics"), "click #found tbody a"],
         {TITLE: "PHYS102", "focus": "cell-title"}),
        ("where it can go", MOVE, {"said": FREE, TITLE: "Place PHYS102 Optics"}),
        ("another cell", ["press escape", f"click {CELL % (1, 2)}"], {
            "texts #cell .waiting :is(a, button)": ["1 exam not placed", "Place PHYS102 …"]}),
        ("where it can go, from there", "click #cell .waiting button", {
            TITLE: "Place PHYS102 Optics"}),
        ("placed", f"click {CELL % (1, 4)}", {
            "said": f"PHYS102: {words.hall[2]}. 37 points now, 21 before.",
            "#undo": "Undo: take PHYS102 out again"}),
        ("not placed again", "click #undo", {
            "said": "PHYS102: not placed. 21 points now, 37 before."}),
        ("as it was", "click #undo", {
            "said": f"PHYS102: {words.hall[2]}. 37 points now, 21 before."}),
        ("nothing is looked for", ("set", "#find", ""), {"texts #found p": []}))


def asked_which(page, words):
    """M on a cell with two exams asks which of them moves."""
    page.steps(
        ("two exams in a cell", [f"click {OPTICS}", MOVE, f"click {CELL % (1, 3)}"], {
            "said": f"PHYS102: {words.hall[1]}. 39 points now, 37 before."}),
        ("which of them", [f"focus {CELL % (1, 3)}", "write m"], {
            "#cell-question": "Which of the 2 exams moves?", "focused": "Move MATH102 …"}),
        ("the second", "press tab", {"focused": "Move PHYS102 …"}),
        ("and back", "undo", {
            "said": f"PHYS102: {words.hall[2]}. 37 points now, 39 before."}))


SWAPS = "titles #swap-others .place"


def swapped(page, words):
    """An exam is swapped with another one, which is found by its name or by its cell."""
    mechanics = f"Swap with PHYS101 {words.room[3]} 39 points, 2 more"
    page.steps(
        ("what could be swapped", [f"click {OPTICS}", MOVE,
                                   "click #cell-body .buttons :nth-child(3)"], {
            "focus": "swap-words", SWAPS: [], "texts #pictures thead tr:nth-child(3) td": []}),
        ("an exam that is looked for", ("set", "#swap-words", "mechanics"), {SWAPS: [mechanics]}),
        ("itself", ("set", "#swap-words", "optics"), {
            SWAPS: [], "#swap-count": "No other exam with a place is there."}),
        ("the exam of a cell", f"click {CELL % (1, 3)}", {SWAPS: [
            f"Swap with MATH102 {words.hall[1]} 37 points, no change"], "#swap-count": ""}),
        ("one that a rule forbids", [f"click {CELL % (2, 5)}", "click #swap-others button"], {
            "said": f"{NOT_MADE}Exam PHYS101 is longer than its period."}),
        ("a swap", [f"click {CELL % (1, 3)}", "click #swap-others button"], {
            "said": f"PHYS102: {words.hall[1]}. MATH102: {words.hall[2]}. 37 points now, 37 "
                    "before.", "#undo": "Undo: swap PHYS102 and MATH102 back"}),
        ("a swap, undone", "click #undo", {
            "said": f"PHYS102: {words.hall[2]}. MATH102: {words.hall[1]}. 37 points now, 37 "
                    "before."}))


def moved_elsewhere(edited, period, room):
    """The office moves PHYS102."""
    with edited.office.connect() as client:
        client.sendall(message("POST", "/drafts/1/exams/3/move",
                               b'{"period":%d,"room":%d}' % (period, room)))
        one_reply(client)


def changed_meanwhile(page, edited, words):
    """A draft that somebody else changed is shown with what changed, before the edit is made; undo
    is left if the exam is elsewhere, and outlives an office that is started again."""
    page.act(f"click {OPTICS}", MOVE)
    moved_elsewhere(edited, 3, 0)
    before = changes(edited.front)
    changed = (f"{NOT_MADE}Look at the draft, then try again. This draft has changed since you "
               "looked. It had 37 points when you looked, and has 27 now. 1 exam has moved: "
               f"PHYS102: {words.hall[2]} before, {words.hall[3]} now")
    page.steps(("a draft that has changed", f"click {CELL % (2, 3)}", {
        "words #error": changed}))
    page.run.judge("nothing was made", before, changes(edited.front))
    page.steps(
        ("an edit of the draft as it is", [f"click {CELL % (1, 5)}", MOVE, f"click {OPTICS}"], {
            "said": f"PHYS102: {words.hall[2]}. 37 points now, 27 before."}))
    edited.restart()
    page.steps(("undo after the office was started again", "click #undo", {
        "said": f"PHYS102: {words.hall[3]}. 27 points now, 37 before."}))
    page.act("click #redo")
    moved_elsewhere(edited, 1, 1)
    page.steps(
        ("undo of an exam that is elsewhere", "click #undo", {
            "hidden #undo": True,
            "#error p": NOT_MADE + f"PHYS102 isn't where your edit left it: {words.room[1]}."}))
    moved_elsewhere(edited, 2, 0)


# What is done on a phone, in this order, with what it begins with.
ON_A_PHONE = [("a move", [MOVE, "click #move-places .rooms"]),
              ("a swap", ["click #cell-body .buttons :nth-child(3)", ("set", "#swap-words", "m")])]


def on_a_phone(run, chromium, front):
    """A move can be read and made on a phone, in the dark scheme, with texts of twice the size, and
    by a screen reader."""
    with opened(run, chromium, front, "registry", "registry.html#timetable/draft-1/3", width=390,
                height=844, is_dark=True) as page:
        for size, (name, acts) in ((size, it) for size in ("100%", "200%") for it in ON_A_PHONE):
            page.reader.run(FONT_SIZE, size)
            page.act(*acts)
            run.judge(f"what {name} lacks on a phone, with texts of {size}", ([], []), (
                page.reader.run(LACKS), page.reader.run(CONTRAST)))
            if name == "a swap":
                page.act("press escape")
        words = Words(page)
        page.steps(
            ("a move on a phone", [MOVE, "click #move-places .place"], {
                "said": f"PHYS102: {words.hall[3]}. 27 points now, 37 before."}),
            ("it is taken back", "click #undo", {
                "said": f"PHYS102: {words.hall[2]}. 37 points now, 27 before."}))


def editing(run, chromium, edited):
    """A registrar edits a draft in its picture."""
    with opened(run, chromium, edited.front, "registry", "registry.html#timetable/draft-1") as page:
        words = Words(page)
        run.judge("errors in the console", [], page.reader.complaints("network", "javascript"))
        choosing(page, words)
        shut_places(page, edited.front)
        by_clicks(page, words)
        by_keys(page, edited.front, words)
        asked_which(page, words)
        taken_out(page, words)
        swapped(page, words)
        changed_meanwhile(page, edited, words)
    on_a_phone(run, chromium, edited.front)
