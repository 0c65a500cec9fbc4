"""A session made of CSV files: its ledger and the files that are made of it; or what is wrong."""
from __future__ import annotations

import dataclasses
import pathlib

from .csv_tables import Faults, Wanted
from .folder import Folder
from .ledger import Ledger
from .logged import Log
from .made_files import MOST_BYTES, session_file, student_numbers
from .meeting import Meeting, faults_of_history, look, send_noted
from .office import Office, Refused
from .session import count, read_session, summary_of, warnings_of
from .update import bring_up_to_date


@dataclasses.dataclass
class Said:
    """What to say of a session: its sizes, and what can't be held as it is."""

    lines: list[str] = dataclasses.field(default_factory=list)
    warnings: list[str] = dataclasses.field(default_factory=list)


def make(folder: Folder, csv: pathlib.Path, wanted: Wanted, by: str, faults: Faults,
         is_kept: bool = True, office: Office | None = None, log: Log = Log(None)) -> Said:
    """Makes a session, or brings it up to date; only looks if it isn't to be kept. An office is
    asked which numbers it has, if it has a session."""
    if folder.is_old():
        faults.lines.append(f"{folder.path} has a session without a ledger: first make one with "
                            f"session_from_csv --take-over {folder.path}")
        return Said()
    if not folder.ledger.exists():
        return add_first(folder, csv, wanted, by, faults, is_kept)
    ledger = Ledger.opened_at(folder.ledger)
    try:
        faults.lines += folder.faults(ledger)
        met = met_before(folder, ledger, office, log) if not faults.lines else None
        faults.lines += met.faults if met else faults_of_history(folder, ledger)
        said = add_further(csv, wanted, by, faults, ledger, met)
        if is_kept and not faults.lines:
            keep_further(folder, ledger, by, met, office)
    finally:
        ledger.close()
    return said


def add_first(folder: Folder, csv: pathlib.Path, wanted: Wanted, by: str, faults: Faults,
              is_kept: bool) -> Said:
    """Makes a ledger of the CSV files."""
    session = read_session(csv, wanted, faults)
    if faults.lines:
        return Said()
    folder.new_ledger().unlink(missing_ok=True)
    ledger = Ledger.made_at(folder.new_ledger())
    ledger.add_session(session, student_numbers(session.enrolments))
    if len(session_file(ledger, ledger.session())) > MOST_BYTES:
        faults.add("enrolments.csv", None, None, f"the session has more than {MOST_BYTES} bytes")
    if faults.lines or not is_kept:
        ledger.close()
        folder.new_ledger().unlink()
    else:
        finish_new(folder, ledger, by)
    return Said() if faults.lines else Said(summary_of(session), warnings_of(session))


def finish_new(folder: Folder, ledger: Ledger, by: str) -> None:
    """Keeps a new ledger, and makes its files."""
    state = ledger.add_state(by)
    ledger.keep()
    folder.take(ledger)
    ledger = Ledger.opened_at(folder.ledger)
    folder.make_files(ledger, *state)
    ledger.close()


def add_further(csv: pathlib.Path, wanted: Wanted, by: str, faults: Faults, ledger: Ledger,
                met: Meeting | None) -> Said:
    """Brings a ledger up to date, after it met an office or alone. Nothing is kept yet."""
    known = {*ledger.numbers().values()}
    session = read_session(csv, wanted, faults, ledger.numbers())
    if faults.lines:
        return Said()
    update = bring_up_to_date(ledger, session, faults, met is not None)
    if not faults.lines:
        faults.lines += met.faults_of_new(update.students) if met else \
            faults_unasked(ledger, update.students)
    if faults.lines:
        return Said()
    if met:
        met.mark(ledger, {*ledger.numbers().values()} - known, by)
    return Said([*(met.warnings if met else []), *summary_of(session), *update.lines()],
                warnings_of(session))


def keep_further(folder: Folder, ledger: Ledger, by: str, met: Meeting | None,
                 office: Office | None) -> None:
    """Keeps a ledger that was brought up to date, and makes its files."""
    state = ledger.add_state(by)
    ledger.keep()
    if met and office:
        send_noted(ledger, office, met)
    folder.make_files(ledger, *state)


def met_before(folder: Folder, ledger: Ledger, office: Office | None, log: Log
               ) -> Meeting | None:
    """Returns how a ledger and an office stand to each other; None without an office that has a
    session."""
    try:
        return look(folder, ledger, office, log) if office else None
    except Refused as refusal:
        if refusal.error != "not-loaded":
            raise
        return None


def faults_unasked(ledger: Ledger, new: int) -> list[str]:
    """Why new students get no numbers, if the office isn't asked."""
    is_loaded = ledger.db.execute("SELECT 1 FROM batches WHERE turn IS NOT NULL").fetchone()
    return [f"no number for {count(new, 'new student')} without --office URL: the office may have "
            "numbers that the ledger doesn't know"] if new and is_loaded else []
