"""One page of the front in a browser: what its user does on it, and what it shows then.

Cases are tables of steps: a name, acts, and looks with what they should find. An act is a word and
a selector, `click #undo`; with a value it is a tuple, ("set", "#find", "optics"); `press` has
names of keys.
A look is a word of LOOKS and a selector; a selector without such a word means its text.
"""
import contextlib
import re
import shutil
import subprocess
import time

import browser

KEYS = {"end": "\ue010", "right": "\ue014", "left": "\ue012",
        "tab": "\ue004", "enter": "\ue007", "escape": "\ue00c", "down": "\ue015", "up": "\ue013"}
# How long a page may take to show what an act leads to, after it has read what it needs.
SECONDS = 20
# What a look finds, of `all` elements of its selector or of the first `one`.
LOOKS = {
    "text": "one?.innerText",
    "words": "one?.innerText.trim().split(/\\s+/).join(' ')",
    "texts": "all.map(e => e.innerText)",
    "titles": "all.map(e => e.innerText.trim().split(/\\s+/).join(' '))",
    "names": "all.map(e => e.innerText.split('\\n')[0])",
    "rows": "all.map(row => [...row.cells].map(cell => cell.innerText.trim()))",
    "labels": "all.map(e => e.getAttribute('aria-label'))",
    "widths": "all.map(bar => bar.firstChild.offsetWidth / bar.offsetWidth)",
    "hrefs": "all.map(e => e.href)",
    "tips": "all.map(e => e.title)",
    "value": "one?.value",
    "hidden": "one?.hidden",
    "open": "one?.open",
    "disabled": "one?.disabled",
    "focus": "document.activeElement.id",
    "focused": "document.activeElement.innerText",
    "hash": "location.hash",
    "said": "(document.querySelector('#status').innerText"
            " || document.querySelector('#error').innerText).replace(/\\n+/g, '\\n')",
    # Of a field that has the focus because it is wrong: its id, its mark, and why.
    "fault": "[document.activeElement.id, document.activeElement.getAttribute('aria-invalid'),"
             " document.getElementById(document.activeElement.getAttribute('aria-describedby')"
             ".split(' ').at(-1)).innerText]",
    # The headings of a candidate's days, each with the rows below it.
    "days": "[...document.querySelectorAll('table.exams')].flatMap(table => ["
            "[table.querySelector('caption h3').innerText], ...[...table.tBodies[0].rows].map("
            "row => [...row.cells].map(cell => cell.innerText.trim()))])",
}
FORMATTED = ("return new Intl.DateTimeFormat(arguments[0], {%s, timeZone: 'UTC'})"
             ".format(new Date(arguments[1]))")
DAY = FORMATTED % "dateStyle: 'full'"
MOMENT = FORMATTED.replace(", timeZone: 'UTC'", "") % "dateStyle: 'long', timeStyle: 'short'"
SHORT_DAY = FORMATTED % "weekday: 'short', day: 'numeric', month: 'short'"
START = FORMATTED % "timeStyle: 'short'"


@contextlib.contextmanager
def reading(reader, front, user, page="", **more):
    """The browser, with a page that a user has opened and that is ready."""
    host = reader.new_host(**more)
    # A small page that needs the password; the browser keeps it for the others.
    reader.go(f"http://{user}:try-{user}@{host}:{front.port}/not-found.html")
    reader.go(f"http://{host}:{front.port}/{page}")
    is_read(reader)
    yield reader


def is_read(reader):
    """Waits until the page has loaded what it shows."""
    reader.waits("return document.readyState === 'complete'"
                 " && !document.body.hasAttribute('aria-busy')"
                 " && document.querySelector('#status').innerText"
                 " + document.querySelector('#error').innerText")


@contextlib.contextmanager
def opened(run, chromium, front, user, page="", **more):
    """A page for cases; in the end the browser must not have complained of it."""
    with reading(chromium, front, user, page, **more) as reader:
        yield Page(run, reader)
        run.judge(f"complaints about {user}'s page", [], reader.complaints())


class Page:
    """A page that a user has opened, with the acts and looks of cases."""

    def __init__(self, run, reader):
        self.run, self.reader = run, reader

    def steps(self, *steps):
        """Judges each step's looks after its acts: one act, or several in a list."""
        for name, acts, looks in steps:
            self.act(*([acts] if isinstance(acts, (str, tuple)) else acts))
            self.judge(name, looks)

    def judge(self, name, looks):
        """Judges what the looks find, as soon as it is what they should find."""
        end = time.monotonic() + SECONDS
        found = {look: self.look(look) for look in looks}
        while found != looks and time.monotonic() < end:
            time.sleep(0.02)
            found = {look: self.look(look) for look in looks}
        self.run.judge(name, looks, found)

    def look(self, look):
        word, _, selector = look.partition(" ")
        if word not in LOOKS:
            word, selector = "text", look
        return self.reader.run(
            "const all = [...document.querySelectorAll(arguments[0])], one = all[0];"
            f"return {LOOKS[word]} ?? null", selector or "body")

    def act(self, *acts):
        """Does these one after another, each on a page that is ready."""
        for act in acts:
            word, *rest = act.split(" ", 1) if isinstance(act, str) else act
            getattr(self, f"act_{word}")(*rest)
            is_read(self.reader)

    def act_click(self, selector):
        self.reader.click(selector)

    def act_press(self, names):
        self.reader.press(*(KEYS[name] for name in names.split()))

    def act_write(self, text):
        """Presses the keys of a text."""
        self.reader.press(*text)

    def act_undo(self):
        """Presses Ctrl and Z at once."""
        self.reader.chord("\ue009", "z")

    def act_focus(self, selector):
        self.reader.run("document.querySelector(arguments[0]).focus()", selector)

    def act_set(self, selector, value):
        """Gives a field or a list this value, as whoever types or chooses it does."""
        self.reader.run("const one = document.querySelector(arguments[0]); one.value = "
                        "arguments[1];"
                        "for (const name of ['input', 'change']) {"
                        " one.dispatchEvent(new Event(name, {bubbles: true})); }", selector, value)

    def act_type(self, selector, text):
        """Types into a field; into one for files, the path of one."""
        self.reader.types(selector, str(text))

    def act_reset(self, selector):
        self.reader.run("document.querySelector(arguments[0]).reset()", selector)

    def act_go(self, way):
        """Goes back or forward."""
        self.reader.run(f"history.{way}()")

    def moment(self, date, start, language="en-GB"):
        """A date and a time as pages show them."""
        return (f"{self.reader.run(SHORT_DAY, language, f'{date}T00:00:00Z')}, "
                f"{self.reader.run(START, language, f'2000-01-01T{start}Z')}")

    def at(self, moment, language="en-GB"):
        """A moment as pages show it, in the browser's own zone."""
        return self.reader.run(MOMENT, language, moment)

    def downloaded(self, name, selector):
        """The bytes of a file that a click on this downloads."""
        folder = self.run.folder / "downloads"
        folder.mkdir(exist_ok=True)
        path = folder / name
        path.unlink(missing_ok=True)
        self.reader.downloads_to(folder)
        self.reader.click(selector)
        browser.until(f"{name} is there", lambda: path.exists() and path.stat().st_size)
        is_read(self.reader)
        return path.read_bytes()

    def judge_file(self, name, selector, expected):
        """Judges the text of a file that a click downloads."""
        self.run.judge(f"the file {name}", expected, self.downloaded(name, selector).decode())


def days_and_exams(page, language, *rows):
    """Returns what a candidate's page should show: a heading for each day, a row for each exam."""
    made, last = [], None
    for date, start, (end, minutes, name), *others in rows:
        if date != last:
            made.append([page.reader.run(DAY, language, f"{date}T00:00:00Z")])
            last = date
        start, end = (page.reader.run(START, language, f"2000-01-01T{moment}Z")
                      for moment in (start, end))
        made.append([f"{start} – {end}\n{minutes} minutes", name, *others])
    return made


def csv_file(*rows):
    return "\ufeff" + "".join(f"{row}\r\n" for row in rows)


def on_paper(reader, path, width=8.27, height=11.69):
    """Prints the page. Returns how many pages of paper it takes, and its lines of text, if
    poppler-utils is there to read them."""
    reader.pdf(path, width, height)
    pages = len(re.findall(rb"/Type ?/Page\b", path.read_bytes()))
    if not shutil.which("pdftotext"):
        return pages, None
    text = subprocess.run(["pdftotext", "-layout", str(path), "-"], check=True,
                          stdout=subprocess.PIPE).stdout.decode()
    return pages, [" ".join(line.split()) for line in text.splitlines() if line.strip()]


def sheets_printed(run, reader, kind, period=""):
    """Chooses sheets and prints them, as `on_paper` does; the page must not show them
    afterwards."""
    reader.run("window.print = () => { window.isPrinted = true; }; window.isPrinted = false;"
               "document.querySelector('#print-kind').value = arguments[0];"
               "document.querySelector('#print-period').value = arguments[1]", kind, period)
    reader.click("#seat-print button")
    reader.waits("return window.isPrinted")
    is_read(reader)
    printed = on_paper(reader, run.folder / f"{kind}.pdf")
    run.judge("sheets are taken away again", ("", False), (
        reader.text("#sheets"),
        reader.run("return document.body.classList.contains('with-sheets')")))
    return printed
