#!/usr/bin/env python3
"""run_words.py: whether `./words` prints what words of a contract mean.

Each command that a page of docs/ or README.md names is run. Its page has to end with the word that
was asked for, and may use no word of a page that it prints before that word is defined.
"""
import re
import subprocess
import sys

from cases import Cases
from sources import HEAD, TOP

NAMED = re.compile(r"\./words ([a-z_]+) ([^\s`]+)")


def asked(*words):
    ran = subprocess.run([TOP / "words", *words], capture_output=True, text=True, check=False)
    return ran.returncode, ran.stdout, ran.stderr


def defined(text):
    """The words that a page defines, in its order."""
    heads = (HEAD.match(line) for line in text.splitlines())
    return [head[2] for head in heads if head]


def main():
    judged = Cases("words")
    pages = [TOP / "README.md", *sorted((TOP / "docs").glob("*.md"))]
    commands = sorted({found for page in pages for found in NAMED.findall(page.read_text())})
    judged.judge("commands are named", True, len(commands) > 0)
    for crate, word in commands:
        status, text, _ = asked(crate, word)
        judged.judge(f"{crate} {word}", (0, word), (status, (defined(text) or [None])[-1]))
    _, text, _ = asked("exam_rules", "breaches_of")
    order = [word for word in defined(text) if word in ("place_satisfies", "breaks",
                                                        "pairs_breaking", "breaches_of")]
    judged.judge("what is used comes first",
                 ["place_satisfies", "breaks", "pairs_breaking", "breaches_of"], order)
    both = ("exam_rules", "breaks"), ("exam_score", "total_of")
    judged.judge("two words: the definitions of both", set(defined(asked(*both[0], *both[1])[1])),
                 {name for one in both for name in defined(asked(*one)[1])})
    judged.judge("a crate without a word", 1, asked("exam_rules")[0])
    judged.judge("no such word", (1, "", "words: exam_rules defines no word nothing\n"),
                 asked("exam_rules", "nothing"))
    judged.judge("no such crate", (1, "", "words: there is no crate exam_rule with definitions\n"),
                 asked("exam_rule", "breaks"))
    return judged.end()


if __name__ == "__main__":
    sys.exit(main())
