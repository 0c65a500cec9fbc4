"""Copies the file of an office and its log while the office runs."""
from __future__ import annotations

import contextlib
import dataclasses
import os
import pathlib
import shutil
import signal
import sqlite3
import subprocess
import time
from collections.abc import Iterator

from .log_frames import faults_of_log
from .served_file import OfAnother, office_of

STOPPED_SECONDS = 0.2
# How often that is tried.
TRIES = 5
# A write that began before this cannot be in progress.
QUIET_SECONDS = 1.0
ENDS = ("", "-wal")
Marks = list[tuple[int, int, int] | None]


class Failed(Exception):
    """Nothing is kept; the words say why."""


class TooSlow(Failed):
    """The files weren't copied while the office could be stopped."""


@dataclasses.dataclass(frozen=True)
class Copied:
    """When the files that were copied had changed last, in nanoseconds, and whether nothing was
    written for a second before."""

    changed: int
    was_quiet: bool


def ends_of(database: pathlib.Path) -> dict[str, pathlib.Path]:
    """The file and its log, by what their names end with."""
    return {end: database.with_name(database.name + end) for end in ENDS}


def marks_of(database: pathlib.Path) -> Marks:
    """What a write to the file or its log changes."""
    made: Marks = []
    for path in ends_of(database).values():
        try:
            found = path.stat()
            made.append((found.st_ino, found.st_size, found.st_mtime_ns))
        except FileNotFoundError:
            made.append(None)
    return made


def changed_at(marks: Marks) -> int:
    return max(mark[2] for mark in marks if mark)


# ---- The office's process

def is_stopped(process: int) -> bool:
    try:
        state = pathlib.Path(f"/proc/{process}/stat").read_text().rpartition(")")[2].split()[0]
    except FileNotFoundError:
        raise Failed(f"process {process} has ended") from None
    return state in "Tt"


@contextlib.contextmanager
def stopping(process: int) -> Iterator[None]:
    """Stops a process, by one of its own that continues it in time, so it goes on in any case."""
    words = f"kill -STOP {process}; sleep {STOPPED_SECONDS}; kill -CONT {process}"
    with subprocess.Popen(["sh", "-c", words], start_new_session=True,
                          stdin=subprocess.DEVNULL, stderr=subprocess.DEVNULL) as guard:
        try:
            while not is_stopped(process) and guard.poll() is None:
                time.sleep(0.001)
            yield
            if not is_stopped(process):
                raise TooSlow(f"copying takes longer than {STOPPED_SECONDS} s, and the office can't"
                              " be stopped for longer; try again when it writes less")
        finally:
            # Either may have ended. The guard may stop it until it is killed, hence once more.
            for send, to, number in ((os.kill, process, signal.SIGCONT),
                                     (os.killpg, guard.pid, signal.SIGKILL),
                                     (os.kill, process, signal.SIGCONT)):
                with contextlib.suppress(ProcessLookupError):
                    send(to, number)


# ---- A copy

def copy_files(database: pathlib.Path, copy: pathlib.Path) -> None:
    for end, path in ends_of(database).items():
        other = ends_of(copy)[end]
        other.unlink(missing_ok=True)
        with contextlib.suppress(FileNotFoundError):
            shutil.copyfile(path, other)


def copied_quietly(database: pathlib.Path, copy: pathlib.Path) -> Copied | None:
    """Copies both files if nothing writes to them meanwhile: what they had then, or None."""
    before = marks_of(database)
    if time.time_ns() - changed_at(before) < QUIET_SECONDS * 1e9:
        return None
    copy_files(database, copy)
    return Copied(changed_at(before), True) if marks_of(database) == before else None


def copied(database: pathlib.Path, copy: pathlib.Path, wait: float) -> Copied:
    """Copies both files, in a moment in which nothing is written."""
    end = time.monotonic() + wait
    while True:
        found = copied_quietly(database, copy)
        if found:
            return found
        if time.monotonic() >= end:
            break
        time.sleep(0.1)
    for _ in range(TRIES - 1):
        with contextlib.suppress(TooSlow):
            return copied_at_rest(database, copy)
        time.sleep(1)
    return copied_at_rest(database, copy)


def copied_at_rest(database: pathlib.Path, copy: pathlib.Path) -> Copied:
    """Copies both files while the office is stopped."""
    try:
        office = office_of(database)
    except OfAnother as fault:
        raise Failed(f"{fault}") from None
    with stopping(office) if office else contextlib.nullcontext():
        marks = marks_of(database)
        copy_files(database, copy)
    if not office and marks_of(database) != marks:
        raise Failed("the office has just started; try again")
    return Copied(changed_at(marks), False)


def with_log(copy: pathlib.Path, made: pathlib.Path) -> None:
    """Makes one file of a file and its log, if the log is whole."""
    faults = faults_of_log(copy)
    if faults:
        raise Failed("; ".join(fault.replace(f"{copy}", "the office's file") for fault in faults))
    with contextlib.closing(sqlite3.connect(copy)) as source, \
            contextlib.closing(sqlite3.connect(made)) as target:
        source.backup(target)
