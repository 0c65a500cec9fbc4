"""The names with which people sign in, as a ledger keeps them."""
from __future__ import annotations

import pathlib
from collections.abc import Iterable, Mapping

from .csv_tables import Faults
from .ledger import Ledger


def add_users(ledger: Ledger, people: Iterable[tuple[str, str]], may_change: bool, faults: Faults
              ) -> None:
    """Takes users into a ledger. A user never becomes somebody else without a word."""
    known = {name.lower(): (name, caller) for name, caller in ledger.users()}
    students = set(ledger.numbers().values())
    for name, caller in people:
        kept, before = known.get(name.lower(), (name, caller))
        if before != caller and not may_change:
            faults.lines.append(f"{name}: this user is {before} in the ledger, not {caller}; if "
                                "that is meant, say --change")
        elif caller.startswith("cand:") and int(caller[5:]) not in students:
            faults.lines.append(f"{name}: the ledger has no student of the number {caller[5:]}")
        ledger.db.execute("INSERT OR REPLACE INTO users VALUES (?, ?)", (kept, caller))


def hashes_in(path: pathlib.Path) -> Mapping[str, str]:
    """The hash of each user of a front's file `users`, by the name in small letters."""
    lines = path.read_text(encoding="utf-8").splitlines() if path.exists() else []
    pairs = (line.partition(":") for line in lines if not line.startswith("#"))
    return {name.lower(): hashed for name, _, hashed in pairs if hashed}
