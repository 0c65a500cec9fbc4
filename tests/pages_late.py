"""Late changes on the registry's page without the registry's service: what the form lacks is said,
and a file is sent as it is."""
from front_cases import ask
from front_page import opened
from serve_cases import batch_text

SEND = "click #batch-check"
NUMBER, LINES = "value #batch-number", "value #batch-lines"
FILE_LINES = b"student,exam,action\r\n2,0,add\r\n"
# What the office says of lines that aren't in its form.
WRONG_LINES = [
    ("student,exam,action\ns3,MATH101,add", "Line 2: a whole number is expected."),
    ("student,exam,action\n3,0,ad", "Line 2: this word is not allowed here (in a batch, the action "
     "must be add or drop)."),
    ("Student ID;Exam code;Action\ns1;MATH101;enrol", "Line 1: the first line must be "
     "student,exam,action."),
]
REFUSED = "Batch 504010801 was refused."
TAKEN = ("Batch 504010800 was refused. A different batch was already sent under this number. "
         "Please choose a new number.")
BOTH, NEITHER = "Choose a file or paste lines, not both.", "Choose a file, or paste lines."


def pasted(lines):
    return ["reset #batch", ("type", "#batch-lines", lines), SEND]


def by_keyboard(page, front):
    """A batch is written and sent without a mouse."""
    page.judge("what the form lacks, and the proposed number", {
        NUMBER: "504010800", "hidden #batch-kinds": True, "hidden #batch-plain": False,
        "hidden #batch-preview": True, "hidden #batch-inverse": True})
    page.act("focus #batch-lines")
    for line in ("student,exam,action", "3,0,add", "2,0,add"):
        page.act(("write", line), "press enter")
    page.steps(
        ("the button that a key reaches after the lines",
         [("write", "2,0,drop"), "press tab tab"], {"focused": "Send as it is"}),
        ("what a batch did", "press enter", {
            "said": "Batch 504010800 is accepted: 1 added, 1 dropped, 1 unchanged.",
            "focus": "status", LINES: "", NUMBER: "504010801"}))
    page.run.judge("what was sent",
                   (200, b'{"added":1,"batch":504010800,"dropped":1,"unchanged":1}'),
                   front.told(ask("registry", "PUT", "/batches/504010800",
                                  batch_text("3,0,add", "2,0,add", "2,0,drop"))))


def faulty_lines(page):
    """Lines with a fault stay in the form; so does a number that is taken."""
    page.steps(
        *((f"what is wrong with {lines}", pasted(lines), {
            "said": f"{REFUSED} {fault}", "fault": ["batch-lines", "true", f"{REFUSED} {fault}"],
            LINES: lines})
          for lines, fault in WRONG_LINES),
        ("a number that is taken", [
            "reset #batch", ("type", "#batch-lines", "student,exam,action\n3,0,add"),
            ("set", "#batch-number", "504010800"), SEND],
         {"said": TAKEN, "fault": ["batch-number", "true", TAKEN]}))


def files_of_lines(page, front):
    """A file in the office's own form is sent as it is."""
    file = page.run.folder / "late.csv"
    file.write_bytes(FILE_LINES)
    choose = ("type", "#batch-file", file)
    page.steps(
        ("a file and lines", [choose, SEND], {"fault": ["batch-lines", "true", BOTH]}),
        ("neither a file nor lines", ["reset #batch", ("set", "#batch-number", "9"), SEND],
         {"fault": ["batch-lines", "true", NEITHER]}),
        ("a file is sent", [choose, SEND], {
            "said": "Batch 9 is accepted: 1 added, 0 dropped, 0 unchanged."}))
    page.run.judge("its bytes", (200, b'{"added":1,"batch":9,"dropped":0,"unchanged":0}'),
                   front.told(ask("registry", "PUT", "/batches/9", FILE_LINES)))
    page.steps(("its opposite", pasted("student,exam,action\n2,0,drop"), {
        "said": "Batch 504010801 is accepted: 0 added, 1 dropped, 0 unchanged."}))


def late_changes(run, chromium, front):
    """A batch in the office's own form is sent as it is."""
    with opened(run, chromium, front, "registry", "registry.html#late-changes") as page:
        by_keyboard(page, front)
        faulty_lines(page)
        files_of_lines(page, front)
