"""Lists that a student system delivers into a folder: one is taken, and moved away with its
report."""
from __future__ import annotations

import contextlib
import datetime
import pathlib

from .csv_tables import first_lines
from .folder import exchange
from .rights import as_caller

DONE, REFUSED, PART, REPORT = "done", "refused", ".part", ".report"
# How many of them are kept.
MOST_KEPT = 30


def waiting_in(folder: pathlib.Path) -> list[pathlib.Path]:
    """Returns the files of a folder, the newest one first; not those that aren't whole yet."""
    with as_caller():
        files = [path for path in folder.iterdir() if path.is_file()
                 and not path.name.startswith(".") and path.suffix != PART]
        return sorted(files, key=lambda path: path.stat().st_mtime, reverse=True)


def faults_of(files: list[pathlib.Path]) -> list[str]:
    """Returns why nothing is taken: nobody knows which of several lists counts."""
    names = ", ".join(path.name for path in files)
    return [f"there are {len(files)} lists, and only one is taken: {names}"] if files[1:] else []


def move(file: pathlib.Path, is_sent: bool, report: list[str]) -> None:
    """Moves a file to those that were sent or refused, with the report on it. A file that is moved
    twice was sent once: the ledger knows it."""
    folder = file.parent / (DONE if is_sent else REFUSED)
    name = f"{datetime.datetime.now():%Y%m%dT%H%M%S}-{file.name}"
    with as_caller():
        folder.mkdir(mode=0o750, exist_ok=True)
        exchange(folder / f"{name}{REPORT}", "".join(f"{line}\n" for line in report))
        file.replace(folder / name)
        kept = sorted(path for path in folder.iterdir() if path.suffix != REPORT)
        for old in kept[:-MOST_KEPT]:
            for path in (old, old.with_name(f"{old.name}{REPORT}")):
                with contextlib.suppress(FileNotFoundError):
                    path.unlink()


def report_on(said: list[str], faults: list[str]) -> list[str]:
    """Returns what a list came to."""
    return [*said, *(["Nothing was sent:", *first_lines(faults, "faults")] if faults else [])]
