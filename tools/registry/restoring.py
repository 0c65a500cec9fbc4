"""A session is put back from a copy: its files, what the ledger sent and the office lacks, and what
is gone. It is done in steps that are noted, so that a run which was cut off is finished by the next
one; until then no other tool works on the session, and nobody serves it."""
from __future__ import annotations

import contextlib
import ctypes
import dataclasses
import datetime
import fcntl
import itertools
import json
import os
import pathlib
import shutil
import signal
import sqlite3
import subprocess
from collections.abc import Iterator
from typing import Any

from .copies import OFFICE, USERS, Whole, about_of, verify
from .folder import NOW, STATES, Folder, exchange, sync
from .gone import Gone, gone_since
from .history import NAME as HISTORY
from .history import History, keep_new, note, publication_of
from .ledger import NAME as LEDGER
from .ledger import RESTORING, Ledger, now
from .logged import Log, settle, unknown_batches
from .meeting import meet, send_noted
from .office import Office, Refused
from .served_file import is_locked, serving

# Of prctl(2).
PR_SET_PDEATHSIG = 1
# The steps of a restore, as they are noted.
ASIDE, PUTTING, PUT = "aside", "putting", "put"
ENDS = ("", "-wal", "-shm", "-journal")
MOST_KEPT = 200


class Refusal(Exception):
    """Why nothing is put back, in words."""


@dataclasses.dataclass
class Restored:
    """What came of a restore, in words."""

    said: list[str] = dataclasses.field(default_factory=list)
    faults: list[str] = dataclasses.field(default_factory=list)
    gone: list[Gone] = dataclasses.field(default_factory=list)


class Restore:
    """A restore of a session from a copy, with what is noted of it beside the office's file."""

    def __init__(self, copy: pathlib.Path, whole: Whole, program: str, is_all: bool) -> None:
        self.copy, self.whole, self.program, self.is_all = copy, whole, program, is_all
        self.mark = whole.database.with_name(f"{whole.database.name}.{RESTORING}")
        self.noted: dict[str, Any] = {}
        with contextlib.suppress(OSError, ValueError):
            self.noted = json.loads(self.mark.read_text(encoding="utf-8"))

    # ---- What is there

    def has_ledger(self) -> bool:
        return self.copy.is_dir() and (self.copy / LEDGER).exists()

    def takes_ledger(self) -> bool:
        """Whether the ledger is that of the copy: not if the one that is there knows all that."""
        taken: bool = self.noted["ledger"]
        return taken

    def is_newer_there(self) -> bool:
        """Whether the ledger that is there knows all that the copy's does."""
        assert self.whole.ledger
        try:
            return facts_of(self.copy / LEDGER, "immutable=1") <= facts_of(
                self.whole.ledger / LEDGER, "mode=rw")
        except sqlite3.Error:
            return False

    def refusals(self) -> Iterator[str]:
        """Why nothing may be put back."""
        database = self.whole.database
        if (database.exists() and is_locked(database)) or serving(database):
            yield f"the office of {database} runs: stop it first"
        if self.noted and self.noted["copy"] != f"{self.copy}":
            yield (f"a restore from {self.noted['copy']} was cut off: finish it by the same words "
                   "first")
        if not self.noted:
            yield from (f"{self.copy}: {fault}" for fault in verify(self.copy)[0])

    # ---- The steps

    def aside_of(self, name: str) -> list[pathlib.Path]:
        """Where a restore puts aside what it finds: the office's files, and the ledger's."""
        database, folder = self.whole.database, self.whole.ledger
        return [database.with_name(f"{database.name}.{name}"), *([folder / name] if folder else [])]

    def free_name(self) -> str:
        """A name for what is put aside that no restore has used, also in the same second."""
        name = moment = datetime.datetime.now().strftime("before-%Y%m%dT%H%M%S")
        for number in itertools.count(2):
            if not any(path.exists() for path in self.aside_of(name)):
                break
            name = f"{moment}-{number}"
        return name

    def step(self, state: str) -> None:
        """Notes how far it is. Tools look for the mark in the ledger's folder, and the service that
        serves the file for the one beside it."""
        if not self.noted:
            self.noted = {"copy": f"{self.copy}", "aside": self.free_name(),
                          "ledger": self.has_ledger() and self.whole.ledger is not None and (
                              self.is_all or not self.is_newer_there())}
        self.noted["state"] = state
        if self.whole.ledger:
            exchange(self.whole.ledger / RESTORING, f"{self.copy}\n")
        exchange(self.mark, json.dumps(self.noted))
        sync(self.mark.parent)

    def state(self) -> str | None:
        return self.noted.get("state")

    def run(self) -> Restored:
        """Puts everything back, or goes on where a run was cut off."""
        if self.whole.ledger:
            self.whole.ledger.mkdir(mode=0o750, parents=True, exist_ok=True)
        with held(self.whole.ledger):
            for refusal in self.refusals():
                raise Refusal(refusal)
            if self.state() in (None, ASIDE):
                self.step(ASIDE)
                self.put_aside()
                self.step(PUTTING)
            if self.state() == PUTTING:
                self.put_back()
                self.step(PUT)
            restored = self.finish()
            for mark in (self.mark, self.whole.ledger and self.whole.ledger / RESTORING):
                if mark:
                    mark.unlink(missing_ok=True)
                    sync(mark.parent)
        return restored

    def put_aside(self) -> None:
        """Moves what is there away, logs too: one that stays would be read into what comes."""
        database, folder = self.whole.database, self.whole.ledger
        beside, *within = self.aside_of(self.noted["aside"])
        old = [(database.with_name(f"{database.name}{end}"), beside) for end in ENDS]
        if folder and self.takes_ledger():
            [aside] = within
            old += [(folder / f"{name}{end}", aside) for name in (LEDGER, HISTORY) for end in ENDS]
            old += [(folder / name, aside) for name in (NOW, STATES)]
        for path, aside in old:
            if path.exists() or path.is_symlink():
                aside.mkdir(mode=0o700, exist_ok=True)
                path.rename(aside / path.name)

    def put_back(self) -> None:
        """Writes the files of the copy into their places, each in one step."""
        office = self.copy / OFFICE if self.copy.is_dir() else self.copy
        # What a run that was cut off put there may have been opened since.
        for end in ENDS[1:]:
            self.whole.database.with_name(f"{self.whole.database.name}{end}").unlink(
                missing_ok=True)
        put(office, self.whole.database, 0o600)
        if self.whole.ledger and self.takes_ledger():
            for name in (LEDGER, HISTORY):
                for end in ENDS[1:]:
                    (self.whole.ledger / f"{name}{end}").unlink(missing_ok=True)
                if (self.copy / name).exists():
                    put(self.copy / name, self.whole.ledger / name, 0o640)
        for name in USERS:
            # What is there is of all sessions, and newer.
            if self.whole.front and self.copy.is_dir() and (self.copy / name).exists() and not (
                    self.whole.front / name).exists():
                put(self.copy / name, self.whole.front / name, 0o640)

    def finish(self) -> Restored:
        """Sends again what the office lacks of its ledger, and lists what is gone."""
        restored = Restored()
        about = about_of(self.copy)
        numbers = batches_in(self.whole.database)
        with served(self.program, self.whole.database) as office:
            if self.whole.ledger and (self.whole.ledger / LEDGER).exists():
                numbers |= self.meet(office, numbers, restored)
                self.note_in_history(office)
        log = Log(self.whole.log, self.whole.name())
        restored.gone, words = gone_since(about, log, numbers)
        restored.said += words
        return restored

    def meet(self, office: Office, numbers: set[int], restored: Restored) -> set[int]:
        """Brings ledger and office together; returns the batches that the office has then."""
        assert self.whole.ledger
        folder, log = Folder(self.whole.ledger), Log(self.whole.log, self.whole.name())
        with contextlib.closing(Ledger.opened_at(folder.ledger)) as ledger:
            # What neither has was lost with both.
            settle(ledger, [one for one in unknown_batches(ledger, log)
                            if one.number not in numbers])
            met = meet(folder, ledger, office, log, is_adopted=self.takes_ledger())
            restored.faults += met.faults
            restored.said += [*met.warnings, *met.said]
            ledger.keep()
            if not met.faults:
                send_noted(ledger, office, met)
            if not folder.is_current(ledger):
                folder.refresh(ledger, "restore")
            return {number for number, in ledger.db.execute(
                "SELECT number FROM batches WHERE turn IS NOT NULL")}

    def note_in_history(self, office: Office) -> None:
        """Notes in the history which publication the office has again, and that it knows the
        front's log: lines of what is gone would be read as if it were there."""
        assert self.whole.ledger
        history = History(self.whole.ledger)
        with history.opened() as db:
            if self.whole.log:
                status = self.whole.log.stat()
                note(db, "log", [status.st_ino, status.st_size])
            note(db, "pending", None)
            last = db.execute("SELECT solution, seats FROM publications ORDER BY number DESC"
                              " LIMIT 1").fetchone()
            seats = {*db.execute("SELECT student, exam, period, room, seat FROM seats"
                                 " WHERE last IS NULL")}
        try:
            found = publication_of(office)
        except Refused as refusal:
            if refusal.error != "publication":
                raise
            return
        if not last or last[0] != found.solution or seats != {*found.rows}:
            keep_new(history, office, {"at": now(), "by": "restore", "draft": None}, MOST_KEPT)


# ---- Small things

@contextlib.contextmanager
def held(folder: pathlib.Path | None) -> Iterator[None]:
    """Holds a ledger's folder as tools do, also if a restore of it was cut off."""
    if folder is None:
        yield
        return
    opened = os.open(folder, os.O_RDONLY | os.O_DIRECTORY | os.O_NOFOLLOW)
    try:
        fcntl.flock(opened, fcntl.LOCK_EX)
        yield
    finally:
        os.close(opened)


def facts_of(path: pathlib.Path, how: str) -> set[tuple[Any, ...]]:
    """Returns who has which number in a ledger, and its batches."""
    with contextlib.closing(sqlite3.connect(f"{path.absolute().as_uri()}?{how}", uri=True)) as db:
        facts: set[tuple[Any, ...]] = {("student", *row) for row in db.execute(
            "SELECT number, id FROM students")}
        facts |= {("batch", *row) for row in db.execute(
            "SELECT number, bytes FROM batches WHERE sent_at IS NOT NULL")}
    return facts


def put(source: pathlib.Path, place: pathlib.Path, mode: int) -> None:
    """Copies a file into its place in one step."""
    part = place.with_name(f".{place.name}.part")
    part.unlink(missing_ok=True)
    shutil.copyfile(source, part)
    part.chmod(mode)
    sync(part)
    part.replace(place)
    sync(place.parent)


def batches_in(database: pathlib.Path) -> set[int]:
    """Returns the numbers of the batches in an office's file that nobody serves."""
    with contextlib.closing(sqlite3.connect(f"{database.absolute().as_uri()}?immutable=1",
                                            uri=True)) as db:
        return {number for number, in db.execute("SELECT no FROM batch")}


def end_with_this() -> None:
    """Has the system kill a process if the one that began it ends."""
    ctypes.CDLL(None).prctl(PR_SET_PDEATHSIG, signal.SIGKILL)


@contextlib.contextmanager
def served(program: str, database: pathlib.Path) -> Iterator[Office]:
    """The office of a file, for nobody else."""
    with subprocess.Popen([program, "serve", "--db", database, "--port", "0", "--connections",
                           "1000000"], stdout=subprocess.PIPE, text=True,
                          preexec_fn=end_with_this) as process:
        try:
            assert process.stdout
            line = process.stdout.readline().split()
            if not line:
                raise Refusal(f"{program} doesn't serve {database}")
            yield Office(f"http://{line[-1]}")
        finally:
            process.terminate()
            process.wait()
