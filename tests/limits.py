#!/usr/bin/env python3
"""limits.py [--write]: the limits of the front, and their table in docs/OPERATING.md.

Compares the table with front/limits, and front/made with what front/make_limits makes of it; with
--write writes both.
"""
import pathlib
import re
import shutil
import subprocess
import sys
import tempfile

from cases import Cases

TOP = pathlib.Path(__file__).resolve().parent.parent
PAGE = TOP / "docs" / "OPERATING.md"
HEAD = "| What is limited | How often, or how much | What it protects |\n|---|---|---|\n"
LIMIT = re.compile(r"^# (.*) \| (.*) \| (.*)\n([A-Z_]+)=([0-9]+)$", re.M)


def text():
    return (TOP / "front" / "limits").read_text()


def numbers():
    """Each limit by its name, as the environment of the queue and the agent has it."""
    return dict(re.findall(r"^([A-Z_]+)=([0-9]+)$", text(), re.M))


def table():
    return HEAD + "".join(f"| {what} (`{name}`) | {int(number):,} {unit} | {why} |\n"
                          for what, unit, why, name, number in LIMIT.findall(text()))


def made():
    """What front/make_limits makes of the limits, by the names of the files."""
    with tempfile.TemporaryDirectory() as folder:
        front = pathlib.Path(folder) / "front"
        shutil.copytree(TOP / "front", front)
        subprocess.run([front / "make_limits"], check=True)
        return {path.name: path.read_text() for path in (front / "made").iterdir()}


def judge(judged):
    judged.judge("each limit has words", len(numbers()), len(LIMIT.findall(text())))
    judged.judge("the table of limits in docs/OPERATING.md", True, table() in PAGE.read_text())
    judged.judge("what nginx includes is made of the limits", made(), {
        path.name: path.read_text() for path in (TOP / "front" / "made").iterdir()})


def write():
    before, _, rest = PAGE.read_text().partition(HEAD)
    PAGE.write_text(before + table() + rest[re.match(r"(\|.*\n)*", rest).end():])
    for name, lines in made().items():
        (TOP / "front" / "made" / name).write_text(lines)


def main(words):
    if words == ["--write"]:
        write()
        return 0
    judged = Cases("limits")
    judge(judged)
    return judged.end()


if __name__ == "__main__":
    sys.exit(main(sys.argv[1:]))
