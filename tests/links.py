#!/usr/bin/env python3
"""links.py [FOLDER]: whether each link of a page leads to a file, and each anchor to a heading.

Reads the pages that git knows, those of the front too, or all pages below a folder. The walks of
docs/MAP.md have to name functions of the crate beside them, and its table of statements every
command.
"""
import collections
import functools
import html.parser
import pathlib
import re
import subprocess
import sys
import urllib.parse

from cases import Cases

TOP = pathlib.Path(__file__).resolve().parent.parent
LINK = re.compile(r"(?<!!)\[(?:[^\[\]]|\[[^\]]*\])*\]\(([^)\s]+)\)|!\[[^\]]*\]\(([^)\s]+)\)")
FENCE = re.compile(r"^```.*?^```$|`[^`\n]*`", re.M | re.S)
# A line of a walk: the functions, each perhaps of a type, and the crate.
STEP = re.compile(r"^ *((?:[\w:]+(?: > |, )?)+) {2,}([a-z]+_[a-z]+)\b")


def pages(folder):
    """The pages below a folder; of the repository only those that git knows."""
    if folder == TOP:
        names = subprocess.run(["git", "-c", "safe.directory=*", "ls-files", "*.md", "*.html"],
                               cwd=TOP, check=True,
                               stdout=subprocess.PIPE, text=True).stdout.splitlines()
        return [TOP / name for name in names]
    return sorted(it for it in folder.rglob("*") if it.suffix in (".md", ".html"))


def anchor(heading):
    """The anchor that forges give to a heading."""
    text = re.sub(r"\[([^\]]*)\]\([^)]*\)|[`*]", r"\1", heading).strip().lower()
    return re.sub(r"[^\w\- ]", "", text).replace(" ", "-")


class Tags(html.parser.HTMLParser):
    """The links and the ids of an HTML page."""

    def __init__(self, text):
        super().__init__()
        self.links, self.ids = [], set()
        self.feed(text)

    def handle_starttag(self, _, attributes):
        for name, value in attributes:
            if name == "id":
                self.ids.add(value)
            elif name in ("href", "src") and value:
                self.links.append(value)


@functools.lru_cache(maxsize=None)
def content(path):
    """The links of a page, and the anchors that lead into it."""
    text = path.read_text()
    if path.suffix == ".html":
        tags = Tags(text)
        return tags.links, tags.ids
    plain = re.sub(r"^```.*?^```$", "", text, flags=re.M | re.S)
    anchors, seen = set(), collections.Counter()
    for name in map(anchor, re.findall(r"^#{1,6} (.*)$", plain, re.M)):
        anchors.add(f"{name}-{seen[name]}" if seen[name] else name)
        seen[name] += 1
    return [one or other for one, other in LINK.findall(FENCE.sub("", text))], anchors


def fault(page, link, site):
    """Says what is wrong with a link; None if it leads somewhere. A path of the front begins at its
    pages."""
    parts = urllib.parse.urlsplit(link)
    if parts.scheme or parts.netloc:
        return None
    path = urllib.parse.unquote(parts.path)
    if path.startswith("/"):
        target = site / path[1:]
        if not target.suffix:
            return None
    else:
        target = (page.parent / path) if path else page
    if not target.exists():
        return "there is no such file"
    if parts.fragment and target.suffix in (".md", ".html") \
            and parts.fragment not in content(target.resolve())[1]:
        return "there is no such heading"
    return None


def walked(page):
    """The functions that the walks of a page name, each with its crate and the number of its
    line."""
    blocks = re.finditer(r"^```text\n(.*?)^```$", page.read_text(), re.M | re.S)
    for block in blocks:
        first = page.read_text()[:block.start(1)].count("\n") + 1
        for number, line in enumerate(block[1].splitlines(), first):
            step = STEP.match(line)
            if step:
                for name in re.split(r" > |, ", step[1]):
                    yield number, name, step[2]


@functools.lru_cache(maxsize=None)
def functions(crate):
    """The names of functions and types in a crate's source."""
    text = "\n".join(it.read_text() for it in (TOP / "crates" / crate / "src").rglob("*.rt"))
    return set(re.findall(r"\b(?:fn|struct|enum|trait|type) (\w+)", text))


def commands():
    """The names of the office's commands."""
    source = TOP / "crates" / "office_policy" / "src" / "command.rt"
    listed = re.search(r"^pub enum Command.*?^}", source.read_text(), re.M | re.S)
    return re.findall(r"^    (\w+)", listed[0], re.M)


def explained(page):
    """The names in the first cells of a page's table of what each command takes."""
    section = page.read_text().partition("\n## Statements that a command takes\n")[2]
    cells = re.findall(r"^\| ([^|]*) \|", section.partition("\n## ")[0], re.M)
    return {name for cell in cells for name in re.findall(r"`(\w+)`", cell)}


def judge(judged, folder):
    """Judges each link of the pages below a folder."""
    for page in pages(folder):
        for link in content(page)[0]:
            judged.judge(f"{page.relative_to(folder)}: {link}", None,
                         fault(page, link, page.parent))


def main(folder=TOP):
    judged = Cases("links")
    folder = pathlib.Path(folder).resolve()
    judge(judged, folder)
    if folder == TOP:
        for number, name, crate in walked(TOP / "docs" / "MAP.md"):
            judged.judge(f"docs/MAP.md:{number}: {name} is in {crate}", True,
                         set(name.split("::")) <= functions(crate))
        judged.judge("docs/MAP.md: the commands whose statements it doesn't have", [],
                     [name for name in commands()
                      if name not in explained(TOP / "docs" / "MAP.md")])
    return judged.end("links, and names of walks")


if __name__ == "__main__":
    sys.exit(main(*sys.argv[1:]))
