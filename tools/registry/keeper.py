"""Where the parts of a session are: its ledger with history and names, its office, its log."""
from __future__ import annotations

import contextlib
import os
import pathlib
import re

from .logged import Log
from .office import TOKEN, Office, OfficeBySocket
from .rights import as_caller

# Where the package keeps a session's ledger, history and names; tools lie there in /usr/share.
LEDGERS = pathlib.Path("/var/lib/examoffice-registry")
FRONT = pathlib.Path("/var/lib/examoffice-front")
# The variable with the service's token, and the file that only root reads.
OF_SERVICE = "REGISTRY_TOKEN"
TOKEN_FILE = pathlib.Path("/etc/examoffice/registry.token")
NAME = re.compile(r"[a-z0-9][a-z0-9_-]*")
AT_HAND = "http://127.0.0.1:8080"


def ledgers() -> pathlib.Path | None:
    """Returns the folder of all sessions, if these tools are the package's."""
    named = os.environ.get("EXAMOFFICE_LEDGERS")
    if named:
        return pathlib.Path(named)
    is_package = pathlib.Path(__file__).resolve().is_relative_to("/usr/share/examoffice")
    return LEDGERS if is_package else None


def folder_of(word: str) -> pathlib.Path:
    """Returns the folder of a session: by its name where the package is, or as it is written."""
    above = ledgers()
    return above / word if above and NAME.fullmatch(word) else pathlib.Path(word)


def name_of(folder: pathlib.Path) -> str | None:
    """Returns the name of a session that the package has, or None."""
    return folder.name if folder.parent == ledgers() else None


def log_of(folder: pathlib.Path, given: pathlib.Path | None) -> Log:
    """Returns the front's log, of a session that the package has by its name."""
    name, log = name_of(folder), FRONT / "changes.log"
    if given or not name:
        return Log(given, name)
    return Log(log if os.access(log, os.R_OK) else None, name)


def office_of(folder: pathlib.Path, address: str | None) -> Office:
    """Returns the office at an address, or that of a session which the package has, by the front's
    socket and the service's token."""
    name, token = name_of(folder), os.environ.get(TOKEN) or os.environ.get(OF_SERVICE, "")
    with contextlib.suppress(OSError), as_caller():
        token = token or TOKEN_FILE.read_text(encoding="utf-8").strip().partition("=")[2]
    if address or not (name and token):
        return Office(address or AT_HAND)
    return OfficeBySocket(f"{FRONT / 'front.sock'}", f"{name}.session", token)
