"""Whether the pages can be read and used by all, in the states that their users see: rules of
WCAG 2.2, levels A and AA, that a program can judge. Each rule is first shown a page that breaks it.

What isn't judged here: whether words are clear, whether colour alone says something, and what a
screen reader makes of changes; docs/REGISTRY.md says what is known to be missing.
"""
import re
import urllib.parse

from front_cases import BROKEN, ask
from front_page import opened, reading
from pages_all import CONTRAST
from run_serve import TOP
from serve_cases import SOLUTION

# Of everything that can be pressed, chosen or typed into, what is smaller than 24 by 24 pixels and
# nearer than that to something else; links in a sentence and cells of a grid may be. A label is a
# part of its field.
TARGETS = """
const all = [...document.querySelectorAll('a[href], button, input, select, textarea, summary')]
  .filter(e => e.checkVisibility() && !e.disabled && e.type !== 'hidden' && !e.matches('.skip')
    && !e.closest('[role=grid]'));
const inText = (e) => getComputedStyle(e).display === 'inline' && [...e.parentElement.childNodes]
  .some(node => node.nodeType === 3 && node.data.trim());
const boxOf = (e) => [e, ...(e.labels ?? [])].map(one => one.getBoundingClientRect()).reduce(
  (a, b) => ({ left: Math.min(a.left, b.left), right: Math.max(a.right, b.right),
    top: Math.min(a.top, b.top), bottom: Math.max(a.bottom, b.bottom) }));
const boxes = all.map(e => ({ e, box: boxOf(e) }));
const isSmall = ({ box }) => box.right - box.left < 23.9 || box.bottom - box.top < 23.9;
const isNear = ({ e, box }) => boxes.some(other => {
  if (other.e === e) return false;
  const [x, y] = [(box.left + box.right) / 2, (box.top + box.bottom) / 2];
  const nearest = [Math.max(other.box.left, Math.min(x, other.box.right)),
    Math.max(other.box.top, Math.min(y, other.box.bottom))];
  return Math.hypot(x - nearest[0], y - nearest[1]) < 12;
});
return boxes.filter(one => isSmall(one) && !inText(one.e) && isNear(one))
  .map(({ e }) => `${e.tagName} ${e.innerText || e.id}`);
"""
# Elements that a reader meets without a name or a text that stands for them.
NAMELESS = """
const named = (e) => e.getAttribute('aria-label') || e.innerText?.trim() || e.labels?.length
  || e.getAttribute('aria-labelledby') || e.title || e.alt;
return [...document.querySelectorAll(
  'a[href], button, input, select, textarea, img, [role=grid], [role=region]')]
  .filter(e => e.checkVisibility() && e.type !== 'hidden' && !named(e) && !e.caption)
  .map(e => e.outerHTML.slice(0, 80));
"""
# Headings that skip a level, ids that come twice, and names that lead nowhere.
STRUCTURE = """
const all = (selector) => [...document.querySelectorAll(selector)];
const levels = all('h1, h2, h3, h4, h5, h6').filter(e => e.checkVisibility())
  .map(e => Number(e.tagName[1]));
const ids = all('[id]').map(e => e.id);
const led = all('[aria-labelledby], [aria-describedby], label[for]')
  .filter(e => e.checkVisibility())
  .flatMap(e => [e.getAttribute('aria-labelledby'), e.getAttribute('aria-describedby'), e.htmlFor]
    .filter(Boolean).join(' ').split(/\\s+/));
const jumps = levels.filter((level, i) => level - (levels[i - 1] ?? 0) > 1);
return [...jumps.map(level => `a heading ${level}`),
  ...ids.filter((id, i) => ids.indexOf(id) !== i).map(id => `twice ${id}`),
  ...led.filter(id => id && !document.getElementById(id)).map(id => `nowhere ${id}`),
  ...(document.documentElement.lang ? [] : ['no language']),
  ...(document.title ? [] : ['no title']),
  ...(all('main').length === 1 ? [] : ['no main'])];
"""
# A page that has to be moved sideways.
WIDE = """
const { scrollWidth, clientWidth } = document.documentElement;
const wide = scrollWidth - clientWidth;
return wide > 0 ? [`${wide} px`] : [];
"""
# What shows no sign of having the focus.
UNSEEN_FOCUS = """
const last = document.activeElement;
last.blur();
const found = [...document.querySelectorAll(
  'a[href], button, input, select, textarea, [tabindex="0"]')]
  .filter(e => e.checkVisibility() && !e.disabled).filter(e => {
    e.focus({ preventScroll: true, focusVisible: true });
    return document.activeElement === e && getComputedStyle(e).outlineStyle === 'none';
  }).map(e => `${e.tagName} ${e.innerText || e.id}`);
last.focus({ preventScroll: true });
return found;
"""
RULES = {"targets": TARGETS, "names": NAMELESS, "structure": STRUCTURE, "contrast": CONTRAST,
         "width": WIDE}
# For each rule a page that breaks it, and what the rule finds there.
BREAKING = [
    ("targets", "<a href='/a' style='display: block; width: 9px; height: 9px'>a</a>"
     "<a href='/b' style='display: block; width: 99px; height: 30px'>b</a>", ["A a"]),
    ("names", "<button id='x'></button><input type='text'>",
     ['<button id="x"></button>', '<input type="text">']),
    ("structure", "<h1>a</h1><h3 id='b'>b</h3><p id='b' aria-describedby='c'></p>",
     ["a heading 3", "twice b", "nowhere c"]),
    ("contrast", "<p style='color: #999'>grey</p>", ["P grey"]),
    ("width", "<p style='width: 992px'>wide</p>", ["680 px"]),
    ("focus", "<button style='outline: none'>a</button>", ["BUTTON a"]),
]
# An exam of draft 7, which has places, is being moved; draft 8 breaks a rule.
MOVING = [("set", "#find", "MATH101"), "click #found tbody a", "click #cell .move"]
# Who reads which page, and what they did before.
STATES = [
    ("ada", "candidate.html", []), ("ben", "candidate.html", []), ("cleo", "candidate.html", []),
    ("registry", "registry.html#timetable/published", []),
    ("registry", "registry.html#timetable/draft-7", []),
    ("registry", "registry.html#timetable/draft-8", []),
    ("registry", "registry.html#timetable/draft-7", MOVING),
    ("registry", "registry.html#timetable/draft-7", [
        *MOVING, "click #cell-body .buttons :nth-child(3)"]),
    ("registry", "registry.html#timetable/draft-7", [("set", "#find", "math")]),
    ("registry", "registry.html#timetable/draft-7", [("set", "#compare", "Draft 8")]),
    ("registry", "registry.html#timetable/draft-7", ["click #drop"]),
    ("registry", "registry.html#conflicts/published", []),
    ("registry", "registry.html#conflicts/draft-8", []),
    ("registry", "registry.html#conflicts/draft-8", [("set", "#conflict-words", "nobody")]),
    ("registry", "registry.html#seats", []),
    ("registry", "registry.html#seats", ["click #seatless"]),
    ("registry", "registry.html#late-changes", []),
    ("registry", "registry.html#late-changes", [
        ("type", "#batch-lines", "student,exam,action\n3,0,ad"), "click #batch-check"]),
    ("registry", "registry.html#set-up", []),
    ("physics", "department.html", []),
    ("physics", "department.html", ["click #places button", "click #edit-look"]),
    ("physics", "department.html", ["click #places button", ("set", "#edit-kind", "swap")]),
    ("physics", "registry.html", []), ("ada", "department.html", []),
]
# Pages without a script; those of the sign-in as they are before their words are put in.
STILL = ("nobody", "not-found", "often", "password", "sign-in", "signed-out", "unavailable")
SHOWN = "document.documentElement.innerHTML = arguments[0]"


def judge_rules(run, reader, name):
    """Judges all rules in a state, light and dark."""
    for rule, script in RULES.items():
        run.judge(f"{rule} of {name}", [], reader.run(script))
    run.judge(f"focus on {name}", [], reader.run(UNSEEN_FOCUS))
    reader.devtools("Emulation.setEmulatedMedia", features=[
        {"name": "prefers-color-scheme", "value": "dark"}])
    run.judge(f"contrast of {name} in the dark", [], reader.run(CONTRAST))


def still_text(name):
    """The text of a page without a script, without the marks for what the agent puts in."""
    text = (TOP / "front" / "page" / f"{name}.html").read_text()
    return re.sub(r"\{%.*?%\}|\{\{.*?\}\}", "", text)


def rules_find(run, reader):
    """Each rule finds what breaks it."""
    for rule, body, expected in BREAKING:
        text = ("<!doctype html><html lang='en'><title>a</title>"
                "<meta name='viewport' content='width=device-width'>"
                f"<body style='background: white'><main>{body}</main>")
        reader.go(f"data:text/html,{urllib.parse.quote(text)}")
        run.judge(f"a page that breaks the rule on {rule}", expected,
                  reader.run(RULES.get(rule, UNSEEN_FOCUS)))


def readable_by_all(run, chromium, front):
    """All pages keep the rules on a small screen."""
    with reading(chromium, front, "ada", "candidate.html", width=320, height=600) as reader:
        rules_find(run, reader)
    for number, solution in ((7, SOLUTION), (8, BROKEN)):
        run.judge(f"draft {number}", 201, front.told(
            ask("registry", "PUT", f"/drafts/{number}", solution))[0])
    for user, page, acts in STATES:
        name = f"{page} for {user} after {acts}"
        with opened(run, chromium, front, user, page, width=320, height=600) as opening:
            opening.act(*acts)
            judge_rules(run, opening.reader, name)
    for number in (7, 8):
        front.told(ask("registry", "DELETE", f"/drafts/{number}"))
    for name in STILL:
        with reading(chromium, front, "ada", "candidate.html", width=320, height=600) as reader:
            reader.run(SHOWN, still_text(name))
            reader.waits("return [...document.styleSheets].length > 0")
            judge_rules(run, reader, name)
