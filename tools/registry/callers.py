"""The front's file `callers`: who each user of a session is to its office."""
from __future__ import annotations

import dataclasses
import pathlib
import re
from collections.abc import Iterable

from .csv_tables import Faults

USER, CALLER = r"[A-Za-z0-9][A-Za-z0-9._@+-]*", r"office|dept:[0-9]{1,3}|cand:[0-9]{1,9}"
NAME = r"[a-z0-9][a-z0-9_-]*"
LINE = re.compile(rf'(?:"(\*|{NAME}) ({USER})"|({USER}))\s+({CALLER});')
# The session of each host, or of all.
SESSION = re.compile(rf"^[^#\s]\S*\s+(?!list;)(?:({NAME})(?:@\S+)?|\S+);", re.M)
# A session whose office has an address, and the folder of the package that has those with ledgers.
ONLY, FOLDER = "term", pathlib.Path("/var/lib/examoffice-registry")


@dataclasses.dataclass(frozen=True)
class Line:
    """Who a user is: in a session, in all ("*"), or in the only one ("")."""

    session: str
    user: str
    caller: str

    def text(self) -> str:
        return f'"{self.session} {self.user}" {self.caller};\n'


def lines_in(path: pathlib.Path, faults: Faults) -> list[Line]:
    """The users of a file."""
    found = []
    lines = path.read_text(encoding="utf-8").splitlines() if path.exists() else []
    for number, line in enumerate(lines, 1):
        line = line.partition("#")[0].strip()
        match = LINE.fullmatch(line)
        if match:
            found.append(Line(match[1] or "", match[2] or match[3], match[4]))
        elif line:
            faults.add(path.name, number, None,
                       f"{line!r} is no line with one user; a ledger has no patterns")
    return found


def session_of(ledger: pathlib.Path | None) -> str:
    """The name of a ledger's session: that of its folder if the package keeps it there."""
    folder = ledger.resolve() if ledger else None
    return folder.name if folder and folder.parent == FOLDER else ONLY


def sessions_in(front: pathlib.Path) -> set[str]:
    """The sessions of a front's folder, if it is one."""
    path = front / "sessions.conf"
    text = path.read_text(encoding="utf-8") if path.exists() else ""
    return {match[1] or ONLY for match in SESSION.finditer(text)}


def placed(lines: Iterable[Line], session: str, front: pathlib.Path, faults: Faults) -> list[Line]:
    """The lines with their sessions. One without a session is of the only session of the front."""
    there = sessions_in(front) or {session}
    found = []
    for line in lines:
        if not line.session and len(there) > 1:
            faults.lines.append(f"callers: {line.user} is of no session, and there are "
                                f"{len(there)}: write \"{session} {line.user}\" {line.caller};")
        found.append(line if line.session else
                     dataclasses.replace(line, session=next(iter(there))))
    return found
