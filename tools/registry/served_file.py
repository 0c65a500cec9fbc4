"""Whether the file that an office serves is still the one of its name, with its log."""
from __future__ import annotations

import contextlib
import fcntl
import os
import pathlib
import struct

LOG = "-wal"


class OfAnother(Exception):
    """A process of another user, whose files can't be seen, has the lock on a file."""


def is_locked(database: pathlib.Path) -> bool:
    """Whether a process has a lock on the file."""
    with database.open("rb") as file:
        asked = struct.pack("hhqqi", fcntl.F_WRLCK, os.SEEK_SET, 0, 0, 0)
        kind: int = struct.unpack("hhqqi", fcntl.fcntl(file, fcntl.F_GETLK, asked))[0]
    return kind != fcntl.F_UNLCK


def has_lock(process: str, number: str, database: os.stat_result) -> bool:
    """Whether this open file of a process is the database, with a lock on it."""
    with contextlib.suppress(OSError):
        opened = os.stat(f"/proc/{process}/fd/{number}")
        if (opened.st_dev, opened.st_ino) == (database.st_dev, database.st_ino):
            return "\nlock:" in pathlib.Path(f"/proc/{process}/fdinfo/{number}").read_text()
    return False


def office_of(database: pathlib.Path) -> int | None:
    """The process that has the lock on the file; others may only read it."""
    if not is_locked(database):
        return None
    wanted = database.stat()
    for process in filter(str.isdigit, os.listdir("/proc")):
        with contextlib.suppress(OSError):
            for number in os.listdir(f"/proc/{process}/fd"):
                if has_lock(process, number, wanted):
                    return int(process)
    raise OfAnother("the office runs as another user; run this as its user, or as root")


def serving(database: pathlib.Path) -> str | None:
    """Returns the process whose words say that it serves a file of this path."""
    for process in filter(str.isdigit, os.listdir("/proc")):
        with contextlib.suppress(OSError):
            words = pathlib.Path(f"/proc/{process}/cmdline").read_bytes().split(b"\0")
            if b"serve" not in words or b"--db" not in words:
                continue
            named = words[words.index(b"--db") + 1].decode("utf-8", "surrogateescape")
            place = pathlib.Path(os.readlink(f"/proc/{process}/cwd"), named)
            if os.path.realpath(place) == os.path.realpath(database):
                return process
    return None


def open_files(process: str) -> set[tuple[int, int]]:
    """Returns the open files of a process: device and number."""
    found = set()
    for number in os.listdir(f"/proc/{process}/fd"):
        with contextlib.suppress(OSError):
            status = os.stat(f"/proc/{process}/fd/{number}")
            found.add((status.st_dev, status.st_ino))
    return found


def is_shorter(database: pathlib.Path) -> bool:
    """Whether a file is shorter than its first page says."""
    with database.open("rb") as file:
        head = file.read(100)
    if len(head) < 100:
        return True
    size, pages = int.from_bytes(head[16:18], "big"), int.from_bytes(head[28:32], "big")
    return database.stat().st_size < pages * (65_536 if size == 1 else size)


def faults_of_served(database: pathlib.Path) -> list[str]:
    """Returns what happened to a file since an office opened it; nothing if none serves it."""
    process = serving(database)
    if process is None:
        return []
    try:
        files = open_files(process)
    except FileNotFoundError:
        return []
    faults = []
    for path, what in ((database, "file"), (database.with_name(f"{database.name}{LOG}"), "log")):
        if not path.exists():
            faults.append(f"{path} was moved or removed")
        elif (path.stat().st_dev, path.stat().st_ino) not in files:
            faults.append(f"{path} was replaced by another {what}")
        elif is_shorter(path) if what == "file" else not path.stat().st_size:
            faults.append(f"{path} was cut")
    return [f"{fault} while the office serves it: what changes from now on is lost; copy what is "
            "there, stop the office and put a copy back" for fault in faults]
