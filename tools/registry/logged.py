"""The front's log of changes, as far as it says which batches an office took."""
from __future__ import annotations

import contextlib
import dataclasses
import datetime
import gzip
import json
import pathlib
import re
from collections.abc import Iterator

from .ledger import Ledger, now

PATH = re.compile(r"/batches/0*([0-9]{1,9})")
# How the front names whoever has a token: the tools and the service have one, pages have none.
PROGRAM = "program:"


@dataclasses.dataclass(frozen=True)
class Logged:
    """A batch that the office took, as a line of the log has it."""

    number: int
    at: str
    by: str

    def is_of_a_program(self) -> bool:
        return self.by.startswith(PROGRAM)


@dataclasses.dataclass(frozen=True)
class Log:
    """The front's log; of one session, if that has a name there."""

    path: pathlib.Path | None
    session: str | None = None

    def files(self, since: float) -> list[pathlib.Path]:
        """The log, and the files that were rotated away since a moment, oldest first."""
        if not self.path:
            return []
        rotated = []
        for path in self.path.parent.glob(f"{self.path.name}.*"):
            with contextlib.suppress(FileNotFoundError):
                if path.stat().st_mtime >= since:
                    rotated.append((path.stat().st_mtime, path))
        return [*(path for _, path in sorted(rotated)), self.path]

    def batches(self, since: float) -> Iterator[Logged]:
        """The batches that the office took, as far as their lines may be so new."""
        for path in self.files(since):
            with gzip.open(path) if path.suffix == ".gz" else path.open("rb") as file:
                for line in file:
                    logged = self.batch_in(line) if b"/batches/" in line else None
                    if logged:
                        yield logged

    def batch_in(self, line: bytes) -> Logged | None:
        try:
            entry = json.loads(line)
            batch = PATH.fullmatch(entry.get("path", ""))
            is_here = self.session is None or entry.get("session") == self.session
            if batch and is_here and entry.get("status") == 200:
                return Logged(int(batch[1]), entry["at"], entry["user"])
        except (ValueError, AttributeError, KeyError, TypeError):
            pass
        return None


def last_moment(ledger: Ledger) -> float:
    """Returns when something was last noted in a ledger, in seconds; 0 if that is unknown."""
    moment, = ledger.db.execute("SELECT max(at) FROM (SELECT max(sent_at) AS at FROM batches"
                                " UNION SELECT max(made_at) FROM states)").fetchone()
    try:
        return datetime.datetime.fromisoformat(moment).timestamp()
    except (TypeError, ValueError):
        return 0


def unknown_batches(ledger: Ledger, log: Log) -> list[Logged]:
    """Returns the batches of the log that a ledger doesn't have, each once."""
    known = {number for number, in ledger.db.execute(
        "SELECT number FROM batches UNION SELECT number FROM settled")}
    found: dict[int, Logged] = {}
    # A day, because time zones and clocks may differ.
    for logged in log.batches(last_moment(ledger) - 86_400):
        if logged.number not in known:
            found.setdefault(logged.number, logged)
    return [*found.values()]


def settle(ledger: Ledger, batches: list[Logged]) -> None:
    """Notes that these batches are taken account of."""
    ledger.db.executemany("INSERT OR IGNORE INTO settled VALUES (?, ?, ?)", (
        (one.number, now(), one.by) for one in batches))
