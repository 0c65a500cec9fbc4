#!/usr/bin/env python3
"""The code that pages of docs/ quote, compared with the source.

A block that begins with ```quote FILE, a file below crates/, has to be in that file as it is,
except for the indentation of the whole block. Prints a line for each failure; status 1 if there is
one.
"""
import pathlib
import re
import sys
import textwrap

from cases import Cases

TOP = pathlib.Path(__file__).resolve().parent.parent
QUOTE = re.compile(r"^```quote (\S+)\n(.*?)^```$", re.M | re.S)


def is_in(block, file):
    """Whether the lines of a block come one after another in a file, all moved in by as much."""
    wanted, lines = block.splitlines(), file.read_text().splitlines()
    return any(textwrap.dedent("\n".join(lines[at:at + len(wanted)])) == "\n".join(wanted)
               for at in range(len(lines) - len(wanted) + 1))


def main():
    judged = Cases("quotes")
    for page in sorted((TOP / "docs").glob("*.md")):
        for number, (name, block) in enumerate(QUOTE.findall(page.read_text()), 1):
            file = TOP / "crates" / name
            judged.judge(f"{page.name}, quote {number}: {name} has it", True,
                         file.exists() and is_in(textwrap.dedent(block), file))
    return judged.end("quotes")


if __name__ == "__main__":
    sys.exit(main())
