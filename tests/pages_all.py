"""What holds of all pages: small screens, both schemes of colour, the keyboard, screen readers;
errors; names."""
import json

from front_page import is_read, opened, reading

# What a page has to have for whoever doesn't see it, or has no mouse.
LACKS = """
const all = (selector) => [...document.querySelectorAll(selector)];
const ids = all('[id]').map(e => e.id);
const wrong = {
  'one main': all('main').length === 1, 'one h1': all('h1').length === 1,
  'a language': document.documentElement.lang === 'en', 'a title': document.title !== '',
  'ids that come once': new Set(ids).size === ids.length,
  'scopes of headers': all('th').every(e => e.scope),
  'captions of tables': all('table').every(e => e.caption),
  'roles of tables': all('table, thead, tbody, tr, th, td').every(e => e.getAttribute('role')),
  'labels of fields': all('input, select, textarea').every(e => e.labels.length === 1),
  'names of buttons': all('button').every(e => e.closest('dialog') || e.innerText.trim()),
  'what is labelled by what': all('[aria-labelledby], [aria-describedby]').every(e =>
    ((e.getAttribute('aria-labelledby') ?? '') + ' ' + (e.getAttribute('aria-describedby') ?? ''))
      .trim().split(/\\s+/).every(id => document.getElementById(id))),
  'a status': all('[role=status]').length === 1, 'an alert': all('[role=alert]').length === 1,
  'times': all('time').every(e => e.dateTime && e.lang),
  'levels of headings': all('h1, h2, h3, h4, h5, h6').filter(e => e.checkVisibility())
    .every((e, i, each) => e.tagName[1] - (each[i - 1]?.tagName[1] ?? 0) <= 1),
  // A phone's window grows with what is in it.
  'no wider than the window':
    document.documentElement.scrollWidth <= document.documentElement.clientWidth,
};
return Object.keys(wrong).filter(name => !wrong[name]);
"""
# The tables of a page, as its markup has them: the name, and for each row what its cells are.
TABLES = """
const kind = (cell) => cell.getAttribute('role');
return [...document.querySelectorAll('table')].filter(table => table.checkVisibility())
  .map(table => [table.caption.innerText, [...table.rows].map(row => [...row.cells].map(kind))]);
"""
# Texts whose colour is too close to their background: below 4.5 to 1.
CONTRAST = """
const numbers = (colour) => colour.match(/[\\d.]+/g).map(Number);
const light = ([r, g, b]) => {
  const [x, y, z] = [r, g, b].map(v => v / 255)
    .map(v => v <= 0.04045 ? v / 12.92 : ((v + 0.055) / 1.055) ** 2.4);
  return 0.2126 * x + 0.7152 * y + 0.0722 * z;
};
const background = (e) => {
  const colour = numbers(getComputedStyle(e).backgroundColor);
  return colour[3] === 0 ? background(e.parentElement) : colour;
};
const ratio = (e) => {
  const [dark, bright] = [light(numbers(getComputedStyle(e).color)), light(background(e))]
    .sort((a, b) => a - b);
  return (bright + 0.05) / (dark + 0.05);
};
return [...document.body.querySelectorAll('*')].filter(e => e.checkVisibility() && !e.disabled
  && !e.closest('.unseen, option') && [...e.childNodes].some(n => n.nodeType === 3 &&
  n.data.trim())) .filter(e => ratio(e) < 4.5).map(e => `${e.tagName} ${e.innerText}`);
"""
FONT_SIZE = "document.documentElement.style.fontSize = arguments[0]"
# What the Tab key should reach, in this order; each has a place in the document.
REACHED = """
const all = [...document.querySelectorAll('*')];
return all.filter(e => e.matches('a[href], button:enabled, input, select, textarea, [tabindex="0"]')
  && e.checkVisibility()).map(e => all.indexOf(e));
"""
FOCUSED = """
const e = document.activeElement;
return [[...document.querySelectorAll('*')].indexOf(e), getComputedStyle(e).outlineStyle];
"""


CELLS = "cell", "gridcell", "columnheader", "rowheader"


def tables_told(reader):
    """The same tables as a screen reader gets them, from the accessibility tree."""
    tree = reader.devtools("Accessibility.getFullAXTree")["nodes"]
    nodes = {node["nodeId"]: node for node in tree}

    def within(node, *roles):
        """The outermost ones of these roles in a node, in their order."""
        for child in (nodes[name] for name in node.get("childIds", []) if name in nodes):
            if not child["ignored"] and child["role"]["value"] in roles:
                yield child
            else:
                yield from within(child, *roles)

    return [[table["name"]["value"],
             [[cell["role"]["value"] for cell in within(row, *CELLS)]
              for row in within(table, "row")]]
            for table in within(tree[0], "table", "grid")]


PAGES = [("cleo", "candidate.html"), ("registry", "registry.html"), ("physics", "department.html")]
SCREENS = [{"width": 320, "height": 600}, {"is_dark": True}]
SKIP = ("const e = document.activeElement;"
        "return [e.className, e.getBoundingClientRect().left >= 0, "
        "getComputedStyle(e).outlineStyle]")
TAB = "\ue004"


def reached_by_keys(run, reader, page):
    """Each link, button and field is reached by the Tab key in its order, and shows that it is."""
    reached = reader.run(REACHED)
    came = [reader.run(FOCUSED)]
    for _ in reached[1:]:
        reader.press(TAB)
        came.append(reader.run(FOCUSED))
    run.judge(f"what the key reaches on {page}", [[number, "solid"] for number in reached], came)


def pages_for_everybody(run, chromium, front):
    """Pages can be used on a small phone, in both schemes of colour, by keyboard and with a screen
    reader."""
    for (user, page), more in ((it, more) for it in PAGES for more in SCREENS):
        with reading(chromium, front, user, page, **more) as reader:
            run.judge(f"what {page} lacks", [], reader.run(LACKS))
            tables = reader.run(TABLES)
            run.judge(f"tables of {page}", (True, tables), (len(tables) > 0, tables_told(reader)))
            run.judge(f"weak contrasts of {page}", [], reader.run(CONTRAST))
            reader.press(TAB)
            run.judge(f"the link that a key reaches on {page}", ["skip", True, "solid"],
                      reader.run(SKIP))
            if "is_dark" in more:
                reached_by_keys(run, reader, page)
            reader.devtools("Emulation.setEmulatedMedia", media="print")
            run.judge(f"{page} in print", 0, reader.run(
                "return [...document.querySelectorAll('button, .skip')].filter(e => "
                "e.offsetWidth).length"))


def large_texts(run, chromium, front):
    """Pages can be read on a phone with texts of twice the size."""
    for user, page in PAGES:
        with reading(chromium, front, user, page, width=390, height=844) as reader:
            reader.run(FONT_SIZE, "200%")
            for section in ("", *reader.run("return [...document.querySelectorAll("
                                            "'#menu li:not([hidden])')].map(e => e.dataset.to)")):
                if section:
                    reader.click(f"#menu [data-to={section}] a")
                    is_read(reader)
                run.judge(f"what {page} {section} lacks with large texts", [], reader.run(LACKS))


STYLE = """
return fetch('/style.css').then(reply => reply.text()).then(text => {
  const plain = text.replace(/\\/\\*[^]*?\\*\\//g, '');
  const wrong = [...plain.matchAll(/([\\w-]+)\\s*:\\s*([^;{}]+)[;}]/g)]
    .filter(([, name, value]) => !name.startsWith('--') && !CSS.supports(name,
    value.replace('!important', '').trim())) .map(([, name, value]) => `${name}: ${value}`);
  const selectors = [...plain.matchAll(/([^{};@]+)\\{/g)].map(([, list]) => list.trim())
    .filter(list => list && !/^(\\(|and|media|print|page|from|to|\\d)/.test(list));
  return [wrong, selectors.filter(list => {
    try { document.querySelector(list); return false; } catch { return true; } })];
});
"""


def style_is_read(run, chromium, front):
    """The browser knows every declaration and every selector of the pages' style sheet."""
    with reading(chromium, front, "ada") as reader:
        run.judge("what the browser doesn't read of style.css", [[], []], reader.run(STYLE))


def list_of_sessions(run, chromium, many):
    """A page lists the sessions of one front."""
    chromium.new_host()
    address = f"exams.localhost:{many.port}/"
    chromium.go(f"http://ada:try-ada@{address}not-found.html")
    chromium.go(f"http://{address}")
    is_read(chromium)
    run.judge("the sessions", ("2 sessions", ["Session small", "Session wide"], [
        f"http://{host}.localhost:{many.port}/" for host in ("small", "wide")], []), (
        chromium.text("#status"), chromium.texts("#sessions a"),
        chromium.run("return [...document.querySelectorAll('#sessions a')].map(link => link.href)"),
        [lack for lack in chromium.run(LACKS) if lack != "a status"]))


# ---- Names of another session

NOT_MATCHING = ("The names of %s don't match this session, so this page shows numbers. "
                "%s")
ASK, TELL = "Ask the person who installed labels.json.", "Please tell the registry."


def changed(labels, table, number, field, value):
    """These labels with one field of one row changed."""
    copy = json.loads(json.dumps(labels))
    copy[table][number][field] = value
    return copy


def other_labels(run, chromium, wide):
    """Names of another session are not used, and the page says so; without names there are
    numbers."""
    path = wide.folder / "labels" / "labels.json"
    right = json.loads(path.read_text())
    for user, labels, note, shown in (
            ("registry", changed(right, "rooms", 7, "capacity", 1),
             NOT_MATCHING % ("rooms", ASK),
             {"texts #pictures tbody tr:last-child th": ["Room 0 20"]}),
            ("ada", changed(right, "periods", 0, "date", "2005-06-07"),
             NOT_MATCHING % ("periods", TELL),
             {".exams [data-label=Room]": "0"}),
            ("registry", None, "", {"labels #pictures tbody tr:last-child td:nth-child(2)": [
                "Room 0, Mon 6 Jun, 09:00: Exam 0, 1 of 20 seats"]}),
            ("ada", None, "", {".exams tbody th": "Exam 0"}),
            ("physics", None, "",
             {"#places tr:last-child": "Exam 39\t\tPeriod 6\tRoom 39\t\tChange …"}),
            ("physics", right, "", {
                "#status": "No exam is listed for your department. Please tell the registry."})):
        path.unlink(missing_ok=True)
        if labels:
            path.write_text(json.dumps(labels))
        with opened(run, chromium, wide, user) as page:
            page.judge(f"{note or 'no labels'} for {user}", {"#labels-note": note, **shown})
            run.judge("errors in the console", [], page.reader.complaints("network", "javascript"))


# ---- Errors

REFUSED = [("ada", "registry.html", "This is for the examination office."),
           ("registry", "candidate.html", "This page is for candidates.")]


def pages_in_error(run, chromium, front, office):
    """Refusals are in plain words; and so it is said that the office or the front can't be
    reached."""
    for user, page, words in REFUSED:
        with reading(chromium, front, user, page) as reader:
            run.judge(f"{user} reads {page}", words, reader.text("#error")[:len(words)])
    host = chromium.new_host()
    for page in ("not-found.html", "candidate.html"):
        chromium.go(f"http://nobody:try-nobody@{host}:{front.port}/{page}")
        run.judge(f"nobody reads {page}", "Your account is not linked to",
                  chromium.text("main p")[:len("Your account is not linked to")])
    office.killed()
    with reading(chromium, front, "ada") as reader:
        run.judge("no office, on the page", True,
                  reader.text("#error").startswith("The office cannot answer at the moment"))
        front.stop()
        reader.click("#refresh")
        is_read(reader)
        run.judge("no front, on the page", True,
                  reader.text("#error").startswith("There is no connection to the office."))


def pictures(chromium, front, folder):
    """Pictures of the pages, for docs/."""
    folder.mkdir(parents=True, exist_ok=True)
    labels = front.folder / "labels"
    (labels / "sizes.json").write_text(json.dumps({
        "at": "2005-04-01T12:00:00Z", "sizes": [2, 2, 1, 1],
        "ledger": json.loads((labels / "labels.json").read_text())["ledger"]}))
    for name, user, more in (("candidate-phone", "cleo", {"width": 390, "height": 700}),
                             ("candidate-desktop", "ben", {"width": 900, "height": 700}),
                             ("department-desktop", "physics", {"width": 900, "height": 800}),
                             ("registry-desktop", "registry", {"width": 1_200, "height": 800})):
        with reading(chromium, front, user, **more) as reader:
            if user == "registry":
                reader.click("#cards li:nth-child(3) a")
                is_read(reader)
                reader.run("document.activeElement.blur()")
            reader.picture(folder / f"{name}.png")
