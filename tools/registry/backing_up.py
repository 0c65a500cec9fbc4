"""The folder of copies of a session: what is kept in it, and when copies are looked at again."""
from __future__ import annotations

import contextlib
import datetime
import fcntl
import json
import os
import pathlib
import random
import shutil
import sqlite3
import time
from collections.abc import Iterator
from typing import Any

from .copies import (
    DAY, WEEK, Whole, about_of, copies_in, marks_of, now, remove, share, superfluous, sync_all,
    take, temporary, verify, OFFICE, TIME, TOLD,
)
from .folder import exchange, sync
from .ledger import NAME as LEDGER
from .ledger import RESTORING
from .office_copy import Failed


# The parts whose last change a copy has as its own time.
TIMED = (OFFICE, f"{OFFICE}-wal", LEDGER)


class Kept:
    """What is noted in a folder of copies about a session's: when they were looked at, what is
    told, and which are damaged."""

    def __init__(self, folder: pathlib.Path, name: str) -> None:
        self.path, self.told_in = folder / f".{name}.json", folder / f"{name}.{TOLD}"
        self.noted: dict[str, Any] = {}
        with contextlib.suppress(OSError, ValueError):
            found = json.loads(self.path.read_text(encoding="utf-8"))
            self.noted = found if isinstance(found, dict) else {}

    def is_due(self, what: str, after: datetime.timedelta) -> bool:
        """Whether something was done so long ago; what never was is noted now, and due later."""
        at = self.noted.get(what)
        if at:
            return now() - datetime.datetime.fromisoformat(at) >= after
        self.do(what)
        return False

    def do(self, what: str) -> None:
        self.noted[what] = now().isoformat()

    def keep(self, folder: pathlib.Path) -> None:
        """Writes what is noted, and what is told of it."""
        damaged = {name: fault for name, fault in self.noted.get("damaged", {}).items()
                   if (folder / name).exists()}
        self.noted["damaged"] = damaged
        exchange(self.path, json.dumps(self.noted))
        lines = [*([f"no copy could be made: {self.noted['failed']}"] if self.noted.get("failed")
                   else []), *self.noted.get(TOLD, []),
                 *(f"the copy {name} is damaged: {fault}" for name, fault in damaged.items())]
        if lines:
            exchange(self.told_in, "".join(f"{line}\n" for line in lines))
        else:
            self.told_in.unlink(missing_ok=True)


@contextlib.contextmanager
def room_in(folder: pathlib.Path) -> Iterator[pathlib.Path]:
    """A folder to copy into. Two programs at once wait for each other."""
    folder.mkdir(parents=True, exist_ok=True)
    with (folder / ".lock").open("w") as lock:
        fcntl.flock(lock, fcntl.LOCK_EX)
        for left in folder.glob(".copying.*"):
            shutil.rmtree(left)
        with temporary(folder) as room:
            yield room


def back_up(whole: Whole, folder: pathlib.Path, days: int, wait: float) -> pathlib.Path:
    """Copies a session if something has changed; returns the newest copy. Without a change it is
    only looked at, once a day."""
    if whole.database.with_name(f"{whole.database.name}.{RESTORING}").exists():
        raise Failed(f"{whole.database} is being put back from a copy")
    with room_in(folder) as room:
        kept = Kept(folder, whole.name())
        copies = copies_in(folder, whole.name())
        newest = copies[-1] if copies else None
        is_new = not newest or about_of(newest).get("marks") != marks_of(whole)
        try:
            if is_new or kept.is_due("looked", DAY):
                made = room / "made"
                made.mkdir()
                kept.noted[TOLD] = take(whole, made, wait)[TOLD]
                kept.do("looked")
                if is_new:
                    newest = keep(made, folder, whole.name(), copies, days)
            kept.noted["failed"] = ""
        except (Failed, OSError, sqlite3.Error) as fault:
            kept.noted["failed"] = f"{fault}"
            raise
        finally:
            kept.keep(folder)
    assert newest
    return newest


def keep(made: pathlib.Path, folder: pathlib.Path, name: str, copies: list[pathlib.Path], days: int
         ) -> pathlib.Path:
    """Gives a copy its name, and removes those that aren't kept."""
    share(made, copies[-1] if copies else None)
    sync_all(made)
    moment = now()
    while (folder / f"{name}-{moment.strftime(TIME)}").exists():
        time.sleep(0.1)
        moment = now()
    changed = max(mark[2] for part, mark in about_of(made)["marks"].items()
                  if mark and part in TIMED)
    os.utime(made, ns=(changed, changed))
    copy = made.rename(folder / f"{name}-{moment.strftime(TIME)}")
    sync(folder)
    for old in superfluous([*copies, copy], moment, days):
        remove(old)
    return copy


def verify_due(folder: pathlib.Path, name: str) -> list[str]:
    """Verifies the newest copy once a day, and an older one each week; returns what is wrong."""
    with room_in(folder):
        kept, copies = Kept(folder, name), copies_in(folder, name)
        chosen = [copies[-1]] if copies and kept.is_due("verified", DAY) else []
        if copies[1:] and kept.is_due("older", WEEK):
            chosen.append(random.choice(copies[:-1]))
        faults = []
        for copy in chosen:
            found, _ = verify(copy)
            kept.noted.setdefault("damaged", {}).pop(copy.name, None)
            if found:
                kept.noted["damaged"][copy.name] = "; ".join(found)
                faults += [f"{copy}: {fault}" for fault in found]
            kept.do("verified" if copy == copies[-1] else "older")
        kept.keep(folder)
    return faults


# ---- What belongs to the machine

ETC, AGENT = "etc/examoffice", "var/lib/examoffice-agent/agent.db"


def machine_files(root: pathlib.Path) -> Iterator[pathlib.Path]:
    """The files of the machine that belong to no session: settings, keys, tokens, and those of the
    front; without the names of a session that are linked there."""
    for folder, folders, files in os.walk(root / ETC):
        folders[:] = [name for name in folders if name != "labels"]
        for name in sorted(files):
            yield pathlib.Path(folder, name)


def copy_machine(root: pathlib.Path, folder: pathlib.Path) -> None:
    """Copies what belongs to the machine into a folder that only root reads, in one step."""
    part, old = (folder.with_name(f".{folder.name}.{name}") for name in ("new", "old"))
    for left in (part, old):
        shutil.rmtree(left, ignore_errors=True)
    part.mkdir(mode=0o700, parents=True)
    for path in machine_files(root):
        place = part / path.relative_to(root)
        place.parent.mkdir(parents=True, exist_ok=True)
        shutil.copy2(path, place, follow_symlinks=False)
        found = path.lstat()
        os.chown(place, found.st_uid, found.st_gid, follow_symlinks=False)
    if (root / AGENT).exists():
        (part / AGENT).parent.mkdir(parents=True)
        with contextlib.closing(sqlite3.connect(f"{(root / AGENT).as_uri()}?mode=ro", uri=True)
                                ) as source, contextlib.closing(
                sqlite3.connect(part / AGENT)) as target:
            source.backup(target)
        found = (root / AGENT).stat()
        os.chown(part / AGENT, found.st_uid, found.st_gid)
        (part / AGENT).chmod(found.st_mode & 0o777)
    if folder.exists():
        folder.rename(old)
    part.rename(folder)
    shutil.rmtree(old, ignore_errors=True)
