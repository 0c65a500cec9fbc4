#!/usr/bin/env python3
"""The words that a crate cites of another's specs/ and proofs/, compared with the pages that
define it.

Each word that another crate cites has to be defined by the page that is named, and each word of
specs/ needs a comment: build/WORDS.md shows it. Types and constants of the code
(`declared`) are left out. A citation is a path of a `use`, or one in an attribute of a tactic
(`using`, `unfolding`).
Prints a line for each failure; status 1 if there is one.
"""

import re
import sys

from cases import Cases
from sources import TOP, bare, definitions, files_of, listed

CITED = re.compile(
    r"\bRattle\.([a-z][a-z0-9_]*)\.(specs|proofs)\.((?:[A-Za-z0-9_]+\.)*[A-Za-z0-9_]+)"
    r"(?:\.\{([^}]*)\})?"
)
IN_ATTRIBUTE = re.compile(r"\b([a-z][a-z0-9_]*)::(specs|proofs)::([A-Za-z0-9_:]+)::([A-Za-z0-9_]+)")
# what the code declares, and what a derive writes for it
OF_THE_CODE = ("declared", "contracts")


def cited_words(crates):
    """The names that other crates cite of each page, by crate, folder and page; of a variant, its
    type's."""
    found = {}
    for crate in crates:
        for cited, folder, path, word in citations(crate, crates):
            page, of = page_of(cited, folder, path.split("."))
            found.setdefault((cited, folder, page), set()).add(of[0] if of else word)
    return found


def page_of(crate, folder, path):
    """The page that a path leads to, which may be in the folder of another page, and what is left
    of the path."""
    at = TOP / "crates" / crate / folder
    end = max((end for end in range(1, len(path) + 1)
               if at.joinpath(*path[:end]).with_suffix(".antt").exists()), default=1)
    return "/".join(path[:end]), path[end:]


def citations(crate, crates):
    """The crate, folder, page and word of each citation of another crate; without a word, the
    page's name."""
    for path in files_of(crate):
        text = path.read_text()
        for cited, folder, page, words in CITED.findall(text) + IN_ATTRIBUTE.findall(text):
            page = page.replace("::", ".")
            if cited in crates and cited != crate and page.split(".")[0] not in OF_THE_CODE:
                for word in words.split(",") if words else [page]:
                    if name := bare(word.split(" as ")[0].strip()):
                        yield cited, folder, page, name


def faults(crate, folder, page, names):
    """The cited words of a page that it doesn't define, and those of specs/ that have no
    comment."""
    path = TOP / "crates" / crate / folder / f"{page}.antt"
    if not path.exists():
        yield f"{crate} has no {folder}/{page}"
        return
    found = list(definitions(path.read_text()))
    defined = {page}.union(*(it.words for it in found))
    yield from (f"{path.relative_to(TOP)} has no {name}" for name in sorted(names - defined))
    for it in found:
        if folder == "specs" and it.words & names and not it.comment:
            yield f"{path.relative_to(TOP)} says nothing of {', '.join(sorted(it.words & names))}"


def main():
    judged, cited = Cases("contracts"), cited_words(listed())
    for place, names in cited.items():
        judged.add(len(names), list(faults(*place, names)))
    return judged.end("words cited across crates")


if __name__ == "__main__":
    sys.exit(main())
