"""What is gone after an office was put back from a copy, by the front's log of changes."""
from __future__ import annotations

import dataclasses
import datetime
import gzip
import json
from collections.abc import Iterator
from typing import Any

from .history import DEEDS
from .logged import PATH, Log

# Within so many seconds after a copy that was made while the office wrote, a change may be in it.
CLOSE = 2


@dataclasses.dataclass(frozen=True)
class Gone:
    """A change that the office had and has no more; or may have, if that isn't sure."""

    at: str
    by: str
    what: str
    is_sure: bool = True

    def words(self) -> str:
        return f"{self.at[:19].replace('T', ' ')} {self.by}: {self.what}" + (
            "" if self.is_sure else " (may still be there)")


def lines_after(log: Log, place: list[int] | None, since: float) -> tuple[list[bytes], bool]:
    """Returns the lines of the log after a place, and whether the place was found. Without it they
    are those of all files that may have some since a moment."""
    files = log.files(since)
    inodes = [path.stat().st_ino for path in files]
    is_known = bool(place) and place is not None and place[0] in inodes
    first = inodes.index(place[0]) if is_known and place else 0
    lines: list[bytes] = []
    for number, path in enumerate(files[first:]):
        with gzip.open(path) if path.suffix == ".gz" else path.open("rb") as file:
            if is_known and place and not number:
                file.seek(place[1])
            lines += file.read().splitlines()
    return lines, is_known


def entries(lines: list[bytes], session: str | None) -> Iterator[dict[str, Any]]:
    """Returns the lines about changes of a session that were made."""
    for line in lines:
        try:
            entry = json.loads(line)
        except ValueError:
            continue
        if isinstance(entry, dict) and entry.get("status") in (200, 201) and (
                entry.get("session", session) == session):
            yield entry


def what_of(entry: dict[str, Any]) -> str:
    """Returns what a line says that somebody did, in words."""
    deed = f"{entry.get('method')} {entry.get('path')}"
    for what, form in DEEDS:
        found = form.fullmatch(deed)
        if found:
            where = ", ".join(f"{name} {number}" for name, number in found.groupdict().items())
            return f"{what}, {where}{' ' if entry.get('body') else ''}{entry.get('body', '')}"
    batch = PATH.fullmatch(entry.get("path", ""))
    return f"batch {int(batch[1])}" if batch else deed


def gone_since(about: dict[str, Any], log: Log, batches: set[int]) -> tuple[list[Gone], list[str]]:
    """Returns what is gone since a copy, as it says of itself, of an office that has these batches
    now; and what to say of it."""
    begun = datetime.datetime.fromisoformat(about["begun"]) if about else None
    if not log.path or not log.path.exists():
        when = f" since {begun.astimezone():%Y-%m-%d %H:%M:%S}" if begun else ""
        return [], [f"there is no log of the front, so nobody knows what else was changed{when}"]
    if not begun:
        return [], ["the copy doesn't say when it was made, so it isn't known what else is gone"]
    lines, is_known = lines_after(log, about["log"], begun.timestamp() - 1)
    gone = []
    for entry in entries(lines, log.session):
        at = datetime.datetime.fromisoformat(entry["at"]).timestamp()
        if not is_known and at < int(begun.timestamp()):
            continue
        batch = PATH.fullmatch(entry.get("path", ""))
        if batch and int(batch[1]) in batches:
            continue
        close = datetime.datetime.fromisoformat(about["ended"]).timestamp() + CLOSE
        is_sure = bool(batch) or (is_known and about["was_quiet"]) or at > close
        gone.append(Gone(entry["at"], entry["user"], what_of(entry), is_sure))
    return gone, []
