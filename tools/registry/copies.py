"""Copies of a whole session: the office's file, then who may sign in, the history, and the ledger
last, so that it knows each number that another part has. Each copy is a folder with the digests of
its files."""
from __future__ import annotations

import contextlib
import dataclasses
import datetime
import hashlib
import json
import os
import pathlib
import re
import shutil
import sqlite3
import subprocess
import tempfile
from collections.abc import Callable, Iterable, Iterator
from typing import Any

from .file_check import judge, read_beside, witness_of
from .history import NAME as HISTORY
from .ledger import NAME as LEDGER
from .office_copy import Failed, copied, ends_of, with_log
from .versions import NotALedger

OFFICE, ABOUT, DIGESTS, TOLD = "office.db", "about.json", "digests", "told"
USERS = ("users", "callers")
TIME = "%Y%m%dT%H%M%SZ"
DAY, WEEK = datetime.timedelta(days=1), datetime.timedelta(days=7)
# A publication that is younger may not be in the history yet, in seconds.
SETTLED = 600


@dataclasses.dataclass(frozen=True)
class Whole:
    """Where the parts of a session are. One without a ledger has only an office."""

    database: pathlib.Path
    ledger: pathlib.Path | None = None
    # The front's folder with users and callers, and its log.
    front: pathlib.Path | None = None
    log: pathlib.Path | None = None

    def name(self) -> str:
        return self.database.name.removesuffix(".db")


# ---- Taking a copy

def digest_of(path: pathlib.Path) -> str:
    with path.open("rb") as file:
        return hashlib.file_digest(file, "sha256").hexdigest()


def mark_of(path: pathlib.Path) -> list[int] | None:
    """What differs when a file is written, or another one is put in its place."""
    try:
        found = path.stat()
    except FileNotFoundError:
        return None
    return [found.st_ino, found.st_size, found.st_mtime_ns]


def mark_of_history(path: pathlib.Path) -> list[int] | None:
    """What differs when a history has something new; the service writes into it all the time."""
    if not path.exists() or not path.stat().st_size:
        return None
    with read_beside(path) as db:
        return [db.execute(f"SELECT ifnull(max(number), 0) FROM {table}").fetchone()[0]
                for table in ("publications", "edits")]


def marks_of(whole: Whole) -> dict[str, Any]:
    """What differs when some part of a session has changed."""
    marks: dict[str, Any] = {f"{OFFICE}{end}": mark_of(path)
                             for end, path in ends_of(whole.database).items()}
    if whole.front:
        marks |= {name: mark_of(whole.front / name) for name in USERS}
    if whole.ledger:
        marks |= {LEDGER: mark_of(whole.ledger / LEDGER),
                  HISTORY: mark_of_history(whole.ledger / HISTORY)}
    return marks


def place_in(log: pathlib.Path | None) -> list[int] | None:
    """Where the next line of the front's log will be: the file's number, and the byte."""
    mark = mark_of(log) if log else None
    return mark and mark[:2]


def now() -> datetime.datetime:
    return datetime.datetime.now(datetime.timezone.utc)


def copy_office(whole: Whole, room: pathlib.Path, wait: float) -> dict[str, Any]:
    """Copies the office's file; returns when that was, and where the front's log was before."""
    place, begun = place_in(whole.log), now()
    part = room / "part"
    part.mkdir()
    copy = copied(whole.database, part / OFFICE, wait)
    ended = now()
    with_log(part / OFFICE, room / OFFICE)
    shutil.rmtree(part)
    return {"session": whole.name(), "begun": begun.isoformat(), "ended": ended.isoformat(),
            "changed": copy.changed, "was_quiet": copy.was_quiet, "log": place}


def copy_users(whole: Whole, room: pathlib.Path) -> None:
    for name in USERS:
        if whole.front and (whole.front / name).exists():
            shutil.copyfile(whole.front / name, room / name)


def copy_database(path: pathlib.Path, copy: pathlib.Path) -> None:
    """Copies a database of the registry, as its last transaction left it."""
    if path.exists() and path.stat().st_size:
        with read_beside(path) as source, contextlib.closing(sqlite3.connect(copy)) as target:
            source.backup(target)


def copy_history(whole: Whole, room: pathlib.Path) -> None:
    if whole.ledger:
        copy_database(whole.ledger / HISTORY, room / HISTORY)


def copy_ledger(whole: Whole, room: pathlib.Path) -> None:
    if whole.ledger:
        copy_database(whole.ledger / LEDGER, room / LEDGER)


# Each after the office's file, in this order: what comes later knows all that is before it.
STEPS: tuple[Callable[[Whole, pathlib.Path], None], ...] = (copy_users, copy_history, copy_ledger)


def take(whole: Whole, room: pathlib.Path, wait: float,
         steps: Iterable[Callable[[Whole, pathlib.Path], None]] = STEPS) -> dict[str, Any]:
    """Copies a session into a folder, and judges the copy; returns what is told of it."""
    marks = marks_of(whole)
    about = copy_office(whole, room, wait)
    for step in steps:
        step(whole, room)
    is_settled = now().timestamp() - about["changed"] / 1e9 > SETTLED
    faults, about[TOLD] = judged(room, is_settled)
    if faults:
        raise Failed("; ".join(faults))
    about["marks"] = marks
    (room / ABOUT).write_text(json.dumps(about), encoding="utf-8")
    (room / DIGESTS).write_text("".join(
        f"{digest_of(path)}  {path.name}\n" for path in sorted(room.iterdir())), encoding="utf-8")
    return about


# ---- Judging a copy

def judge_by_program(database: pathlib.Path) -> list[str]:
    """Opening judges every row, and may write, so another copy is opened."""
    program = os.environ.get("EXAMOFFICE", "examoffice")
    with contextlib.ExitStack() as stack:
        copy = database.with_name(".opened.db")
        for end in ("", "-wal"):
            stack.callback(pathlib.Path(f"{copy}{end}").unlink, missing_ok=True)
        shutil.copyfile(database, copy)
        try:
            ended = subprocess.run([program, "export", "--db", copy], check=False, text=True,
                                   stdin=subprocess.DEVNULL, stdout=subprocess.DEVNULL,
                                   stderr=subprocess.PIPE)
        except OSError as fault:
            raise Failed(f"the copy can't be checked: {program}: {fault.strerror}") from None
    said = ended.stderr.strip()
    return [] if ended.returncode == 0 or said == "examoffice: no publication" else [
        f"the copy is not an office: {said}"]


def faults_of_database(path: pathlib.Path) -> list[str]:
    """Returns what SQLite finds wrong with a database."""
    with contextlib.closing(sqlite3.connect(f"{path.absolute().as_uri()}?immutable=1", uri=True)
                            ) as db:
        found = [line for line, in db.execute("PRAGMA integrity_check(3)")]
    return [] if found == ["ok"] else [f"{path.name}: {line}" for line in found]


def judged(copy: pathlib.Path, is_settled: bool) -> tuple[list[str], list[str]]:
    """Returns what is wrong with the files of a copy, and what is told of them."""
    try:
        faults = judge_by_program(copy / OFFICE)
        for name in (LEDGER, HISTORY):
            if (copy / name).exists():
                faults += faults_of_database(copy / name)
        witness = None if faults else witness_of(copy)
        if not witness:
            return faults, []
        with contextlib.closing(sqlite3.connect(
                f"{(copy / OFFICE).absolute().as_uri()}?immutable=1", uri=True)) as db:
            look = judge(db, witness, is_settled)
    except (NotALedger, sqlite3.DatabaseError, ValueError, TypeError) as fault:
        return [f"{fault}"], []
    return look.faults, look.warnings


def faults_of_digests(copy: pathlib.Path) -> list[str]:
    """Returns the files of a copy that aren't as they were written, or aren't of it."""
    digests = {}
    for line in (copy / DIGESTS).read_text(encoding="utf-8").splitlines():
        digest, _, name = line.partition("  ")
        digests[name] = digest
    there = {path.name for path in copy.iterdir()} - {DIGESTS}
    return [f"{name} isn't as it was written" for name in sorted(there & digests.keys())
            if digest_of(copy / name) != digests[name]] + [
        f"{name} is missing" for name in sorted(digests.keys() - there)] + [
        f"{name} is in no list of digests" for name in sorted(there - digests.keys())]


def verify(copy: pathlib.Path) -> tuple[list[str], list[str]]:
    """Returns what is wrong with a copy, and what is told of it. An older copy is an office's file
    alone. It is read in a folder of its own."""
    if not copy.exists():
        return [f"there is no copy {copy}"], []
    if copy.is_dir():
        try:
            faults = faults_of_digests(copy)
        except (OSError, ValueError) as fault:
            faults = [f"{fault}"]
        if faults:
            return faults, []
    with temporary(copy.parent) as room:
        for path in copy.iterdir() if copy.is_dir() else [copy]:
            shutil.copyfile(path, room / (path.name if copy.is_dir() else OFFICE))
        found = judged(room, True)
    return found


@contextlib.contextmanager
def temporary(folder: pathlib.Path) -> Iterator[pathlib.Path]:
    """A folder to work in, on the disk of another one if that can be written to."""
    place = folder if os.access(folder, os.W_OK) else None
    with tempfile.TemporaryDirectory(dir=place, prefix=".copying.") as room:
        yield pathlib.Path(room)


# ---- The folder of all copies

def copies_in(folder: pathlib.Path, name: str) -> list[pathlib.Path]:
    """The copies of a session, oldest first; older ones are an office's file alone."""
    form = re.compile(re.escape(name) + r"-\d{8}T\d{6}Z(\.db)?")
    return sorted((path for path in folder.iterdir() if form.fullmatch(path.name)), key=time_of)


def time_of(copy: pathlib.Path) -> datetime.datetime:
    text = copy.name.removesuffix(".db").rpartition("-")[2]
    return datetime.datetime.strptime(text, TIME).replace(tzinfo=datetime.timezone.utc)


def superfluous(copies: Iterable[pathlib.Path], moment: datetime.datetime, days: int
                ) -> list[pathlib.Path]:
    """The copies that aren't kept: older than a day and not the last of theirs, or too old."""
    copies = [*copies]
    lasts = {time_of(copy).date(): copy for copy in copies}
    return [copy for copy in copies
            if time_of(copy) <= moment - datetime.timedelta(days=days)
            or (time_of(copy) <= moment - DAY and lasts[time_of(copy).date()] != copy)]


def about_of(copy: pathlib.Path) -> dict[str, Any]:
    """Returns what a copy says of itself; nothing if it is an office's file alone."""
    try:
        found = json.loads((copy / ABOUT).read_text(encoding="utf-8"))
    except (OSError, ValueError):
        return {}
    return found if isinstance(found, dict) else {}


def share(copy: pathlib.Path, before: pathlib.Path | None) -> None:
    """Lets a copy have the files of the one before that are the same; not the office's, because the
    program opens no file that has two names."""
    if not before or not before.is_dir():
        return
    for path in copy.iterdir():
        other = before / path.name
        if path.name == OFFICE:
            continue
        if other.is_file() and digest_of(other) == digest_of(path):
            path.unlink()
            path.hardlink_to(other)


def sync_all(folder: pathlib.Path) -> None:
    """Waits until a folder and its files are on the disk."""
    for path in (*folder.iterdir(), folder):
        opened = os.open(path, os.O_RDONLY)
        os.fsync(opened)
        os.close(opened)


def remove(copy: pathlib.Path) -> None:
    if copy.is_dir():
        # One that was removed in part is none any more.
        gone = copy.with_name(f".copying.{copy.name}")
        copy.rename(gone)
        shutil.rmtree(gone)
    else:
        copy.unlink(missing_ok=True)
