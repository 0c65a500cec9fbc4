"""Five CSV files of the registry's page: a new session, checked and then loaded; or a further
export of the session that is loaded."""
from __future__ import annotations

import contextlib
import hashlib
import json
import pathlib
import tempfile
import zlib
from collections.abc import Mapping
from typing import Any

from .csv_tables import MOST_BYTES, Faults, Wanted, first_lines
from .folder import NOW, Folder
from .ledger import locked
from .logged import Log
from .making import make
from .office import Office, Refused

FILES = ("exams", "rooms", "periods", "enrolments", "rules")
PACKED = b"\x1f\x8b"


class Changed(Exception):
    """Files that aren't those that were checked."""


class Loaded(Exception):
    """An office that has a session, without a ledger."""


def has_session(office: Office) -> bool:
    """Returns whether an office has a session."""
    try:
        office.instance()
    except Refused as refusal:
        if refusal.error != "not-loaded":
            raise
        return False
    return True


def digest_of(files: Mapping[str, bytes]) -> str:
    """A digest of what is in some files, compressed or not."""
    digest = hashlib.sha256()
    for name, content in sorted(files.items()):
        with contextlib.suppress(zlib.error):
            if content.startswith(PACKED):
                content = zlib.decompressobj(31).decompress(content, MOST_BYTES)
        digest.update(f"{name} {len(content)}\n".encode() + content)
    return digest.hexdigest()


def write_into(folder: pathlib.Path, files: Mapping[str, bytes]) -> None:
    for name, content in files.items():
        end = ".gz" if content.startswith(PACKED) else ""
        (folder / f"{name}.csv{end}").write_bytes(content)


def set_up(path: pathlib.Path, office: Office, log: Log, files: Mapping[str, bytes], by: str,
           checked: str | None) -> dict[str, Any]:
    """What is in the files and what is wrong with them. If they were checked, the ledger is made,
    with its files, and the session is loaded; what a run that was cut off made is taken up. The
    ledger of a session that is loaded is brought up to date."""
    digest, faults, folder = digest_of(files), Faults(), Folder(path)
    if checked not in (None, digest):
        raise Changed
    is_loaded = has_session(office)
    if is_loaded and not folder.ledger.exists():
        raise Loaded
    path.mkdir(mode=0o750, exist_ok=True)
    with locked(path), tempfile.TemporaryDirectory() as csv:
        write_into(pathlib.Path(csv), files)
        said = make(folder, pathlib.Path(csv), Wanted([]), by, faults, checked is not None,
                    office if is_loaded else None, log)
        found = {"summary": said.lines, "warnings": first_lines(said.warnings, "warnings"),
                 "faults": first_lines(faults.lines, "faults"), "digest": digest}
        if not any(path.iterdir()):
            path.rmdir()
        if checked is None or faults.lines or is_loaded:
            return found
        session = (path / NOW / "session.exam").read_bytes()
        return {**found, "loaded": json.loads(office.ask("PUT", "/instance", session))}
