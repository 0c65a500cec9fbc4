"""The folder of a session: its ledger, and the files that were made of it last."""
from __future__ import annotations

import json
import os
import pathlib
import shutil
from collections.abc import Iterable, Iterator

from .ledger import NAME, Ledger
from .made_files import files_of, is_sealed, sizes_text, state_in, students_text
from .office import are_of_another_session, most_lacking

NOW, STATES, STUDENTS, SIZES = "now", "states", "students.json", "sizes.json"
SEALED = ("labels.json", STUDENTS, "callers")
# Why the last list wasn't sent, in words; and whether the last line of the one that was sent ended.
STOPPED, LAST_LIST = "stopped", "last_list"
OLD = ("session.exam", "labels.json", "students.json")


def write_file(path: pathlib.Path, text: str, mode: int = 0o640) -> None:
    """Writes a new file, never through a link."""
    flags = os.O_WRONLY | os.O_CREAT | os.O_EXCL | os.O_NOFOLLOW
    with open(os.open(path, flags, mode), "w", encoding="utf-8", newline="\n") as file:
        file.write(text)


def exchange(path: pathlib.Path, text: str) -> None:
    """Writes a file, or writes it again, in one step."""
    part = path.with_name(f".{path.name}.part")
    part.unlink(missing_ok=True)
    write_file(part, text)
    sync(part)
    part.replace(path)


def sync(path: pathlib.Path) -> None:
    """Waits until a file or a folder is on the disk."""
    opened = os.open(path, os.O_RDONLY)
    os.fsync(opened)
    os.close(opened)


class Folder:
    """A folder with a ledger: `now` leads to the files of its last state, which lie in `states`."""

    def __init__(self, path: pathlib.Path) -> None:
        self.path = path
        self.ledger = path / NAME

    def is_old(self) -> bool:
        """Whether it has a session without a ledger, as older tools made it."""
        return not self.ledger.exists() and any((self.path / name).exists() for name in OLD)

    def current(self) -> int | None:
        """The number of the state that `now` leads to."""
        link = self.path / NOW
        name = os.readlink(link) if link.is_symlink() else ""
        number = name.removeprefix(f"{STATES}/")
        return int(number) if number.isdigit() and (self.path / name).is_dir() else None

    def make_files(self, ledger: Ledger, number: int, digest: str) -> None:
        """Writes the files of a state and switches to them in one step. What an earlier run left of
        them is removed, and so are all states but the last two."""
        states = self.path / STATES
        states.mkdir(mode=0o750, exist_ok=True)
        part, whole = states / f"{number}.part", states / f"{number}"
        for left in (part, whole):
            shutil.rmtree(left, ignore_errors=True)
        part.mkdir(mode=0o750)
        (part / "names").mkdir(mode=0o750)
        for name, text in files_of(ledger, digest):
            write_file(part / name, text)
        for path in (*part.glob("*.*"), part / "names", part):
            sync(path)
        part.rename(whole)
        self.switch(number)
        sync(self.path)
        self.remove_but(number, number - 1)

    def refresh(self, ledger: Ledger, by: str) -> None:
        """Brings the files up to date after a batch. If nobody is new, only students.json and
        sizes.json differ, and each is exchanged in one step."""
        last, digest = ledger.last_state(), ledger.digest()
        if not last or last != (self.current(), digest):
            state = ledger.add_state(by)
            ledger.keep()
            self.make_files(ledger, *state)
            return
        exchange(self.path / NOW / SIZES, sizes_text(ledger, digest))
        exchange(self.path / NOW / STUDENTS, students_text(ledger, digest))

    def is_current(self, ledger: Ledger) -> bool:
        """Whether the files are those of the ledger as it is now. students.json is written last."""
        digest, path = ledger.digest(), self.path / NOW / STUDENTS
        return ledger.last_state() == (self.current(), digest) and path.exists() and (
            path.read_text(encoding="utf-8") == students_text(ledger, digest))

    def note_stopped(self, lines: list[str]) -> None:
        """Notes why the last list wasn't sent, for whoever looks in the morning; nothing if it
        was."""
        if lines:
            exchange(self.path / STOPPED, "".join(f"{line}\n" for line in lines))
        else:
            (self.path / STOPPED).unlink(missing_ok=True)

    def stopped(self) -> list[str]:
        """Returns why the last list wasn't sent."""
        path = self.path / STOPPED
        return path.read_text(encoding="utf-8").splitlines() if path.exists() else []

    def note_list(self, ends: bool) -> None:
        """Notes that a list was sent, and whether its last line ended."""
        self.note_stopped([])
        exchange(self.path / LAST_LIST, "ends\n" if ends else "doesn't end\n")

    def last_list_ended(self) -> bool:
        """Returns whether the last line of the last list ended."""
        path = self.path / LAST_LIST
        return path.exists() and path.read_text(encoding="utf-8") == "ends\n"

    def switch(self, number: int) -> None:
        """Lets `now` lead to a state."""
        link = self.path / f".{NOW}.part"
        link.unlink(missing_ok=True)
        link.symlink_to(f"{STATES}/{number}")
        link.replace(self.path / NOW)

    def take(self, ledger: Ledger) -> None:
        """Puts a new ledger, which was made beside it, into its place."""
        ledger.close()
        self.new_ledger().replace(self.ledger)

    def new_ledger(self) -> pathlib.Path:
        """Where a ledger lies until it is whole."""
        return self.path / f".{NAME}.part"

    def remove_but(self, *numbers: int) -> None:
        for left in (self.path / STATES).iterdir():
            if left.name not in map(str, numbers):
                shutil.rmtree(left, ignore_errors=True)

    def faults(self, ledger: Ledger, labels: pathlib.Path | None = None) -> list[str]:
        """What is wrong with the files that names are read from: those of `now`, or of another
        folder to which they were copied."""
        return faults_of(ledger, labels or self.path / NOW)


def faults_of(ledger: Ledger, folder: pathlib.Path) -> list[str]:
    """What is wrong with the files of a folder that were made of a ledger."""
    found: dict[str, str] = {}
    faults: list[str] = []
    for name in SEALED:
        path = folder / name
        if path.exists():
            text = path.read_text(encoding="utf-8")
            found[name] = state_in(text) or ""
            faults += faults_of_text(ledger, path, text)
            if name == STUDENTS and not faults:
                faults += faults_of_pairs(ledger, path, text)
    if not faults and len(set(found.values())) > 1:
        faults.append(f"{folder}: {' and '.join(found)} are of different states of the ledger")
    return faults


def faults_of_pairs(ledger: Ledger, path: pathlib.Path, text: str) -> Iterable[str]:
    """Whether the enrolments of students.json are those of another ledger, which may have the same
    names: they are like those of this one at no time."""
    pairs = {(student["number"], exam) for student in json.loads(text)["students"]
             for exam in student["exams"]}
    if are_of_another_session(ledger.expected_pairs(), pairs) and not any(
            lacking <= most_lacking(expected) for expected, lacking in lacking_by_time(
                ledger, pairs)):
        yield f"{path} was made of another ledger: it has other enrolments"


def lacking_by_time(ledger: Ledger, pairs: set[tuple[int, int]]) -> Iterator[tuple[int, int]]:
    """Returns how many enrolments a ledger expected after each change, and how many of them are
    not among these pairs."""
    expected = ledger.loaded_pairs()
    lacking = len(expected - pairs)
    yield len(expected), lacking
    for student, exam, action in ledger.changes_sent():
        pair, is_add = (student, exam), action == "add"
        if (pair in expected) != is_add:
            (expected.add if is_add else expected.discard)(pair)
            lacking += (pair not in pairs) * (1 if is_add else -1)
        yield len(expected), lacking


def faults_of_text(ledger: Ledger, path: pathlib.Path, text: str) -> Iterable[str]:
    sealed = is_sealed(text)
    if sealed is None:
        yield f"{path} was not made of a ledger"
    elif not sealed:
        yield (f"{path} was changed by hand: its lines don't have their digest. Remove it, and "
               "make it again with tools/session_from_csv")
    elif state_in(text) not in ledger.digests():
        yield f"{path} was made of another ledger"
