"""Whether an office's file is what its ledger, its history and its own batches say. SQLite and the
program judge a file by itself; a page that was exchanged, a log of another time or a bit that
turned can leave one that is sound and not true."""
from __future__ import annotations

import contextlib
import dataclasses
import pathlib
import re
import shutil
import sqlite3
import tempfile
from collections.abc import Iterator

from .history import NAME as HISTORY
from .ledger import NAME as LEDGER
from .ledger import Ledger, locked
from .made_files import frame_of
from .office import Pair, are_of_another_session, first_difference
from .session import count

ENDS = ("", "-wal")
LINE = re.compile(r"0*([0-9]{1,9}),0*([0-9]{1,9}),(add|drop)")


@dataclasses.dataclass
class Witness:
    """What a ledger and a history say of their office."""

    frame: list[str]
    loaded: set[Pair]
    # The bytes of the batches that were sent, in their order.
    batches: dict[int, bytes]
    # The places and the seats of the last publication, if the history has one.
    solution: str | None = None
    seats: set[tuple[int, ...]] = dataclasses.field(default_factory=set)


@dataclasses.dataclass
class Look:
    """What came of a look at a file: why it must not be served, and what to tell."""

    faults: list[str] = dataclasses.field(default_factory=list)
    warnings: list[str] = dataclasses.field(default_factory=list)


# ---- Reading beside others

@contextlib.contextmanager
def read_beside(path: pathlib.Path) -> Iterator[sqlite3.Connection]:
    """A database of the registry, to be read beside others. One that a tool left in the middle of a
    transaction is read in a copy, in which that is undone."""
    with contextlib.ExitStack() as stack:
        try:
            db = opened(path, "ro")
            stack.enter_context(contextlib.closing(db))
            db.execute("SELECT count(*) FROM sqlite_master").fetchone()
        except sqlite3.OperationalError:
            room = pathlib.Path(stack.enter_context(tempfile.TemporaryDirectory()))
            with locked(path.parent):
                for end in ("", "-journal"):
                    with contextlib.suppress(FileNotFoundError):
                        shutil.copyfile(f"{path}{end}", room / f"{path.name}{end}")
            db = stack.enter_context(contextlib.closing(opened(room / path.name, "rw")))
        yield db


def opened(path: pathlib.Path, mode: str) -> sqlite3.Connection:
    return sqlite3.connect(f"{path.absolute().as_uri()}?mode={mode}", uri=True, timeout=60)


def witness_of(folder: pathlib.Path) -> Witness | None:
    """Returns what the ledger and the history of a folder say; None without a ledger."""
    if not (folder / LEDGER).exists():
        return None
    with read_beside(folder / LEDGER) as db:
        ledger = Ledger(db)
        found = Witness(frame_of(ledger.session()), ledger.loaded_pairs(), dict(db.execute(
            "SELECT number, bytes FROM batches WHERE turn IS NOT NULL AND bytes <> x''"
            " ORDER BY turn")))
    if (folder / HISTORY).exists() and (folder / HISTORY).stat().st_size:
        with read_beside(folder / HISTORY) as db:
            last = db.execute("SELECT solution FROM publications ORDER BY number DESC LIMIT 1"
                              ).fetchone()
            found.solution = last[0] if last else None
            found.seats = {*db.execute("SELECT student, exam, period, room, seat FROM seats"
                                       " WHERE last IS NULL")}
    return found


@contextlib.contextmanager
def opened_copy(database: pathlib.Path) -> Iterator[sqlite3.Connection]:
    """An office's file with its log, in a copy: reading it may write."""
    with tempfile.TemporaryDirectory() as room:
        copy = pathlib.Path(room) / "office.db"
        for end in ENDS:
            with contextlib.suppress(FileNotFoundError):
                shutil.copyfile(f"{database}{end}", f"{copy}{end}")
        with contextlib.closing(opened(copy, "rw")) as db:
            yield db


# ---- Judging

def judge(db: sqlite3.Connection, witness: Witness, is_settled: bool = True) -> Look:
    """Judges an opened office. If it isn't settled, its publication may be newer than the
    history."""
    look = Look()
    published, instance = db.execute("SELECT published, instance FROM meta").fetchone()
    if not instance:
        look.warnings.append("the office has no session, and there is a ledger of one")
        return look
    frame = bytes(instance).decode("utf-8", "replace").splitlines()
    if frame != witness.frame:
        look.faults.append("the office's session isn't that of its ledger: "
                           f"{first_difference(witness.frame, frame)}")
        return look
    judge_batches(db, witness, look)
    judge_enrolments(db, witness, look)
    if published and is_settled and witness.solution is not None:
        judge_publication(db, witness, look)
    return look


def batches_words(number: int) -> str:
    return f"{number:,} batch{'' if number == 1 else 'es'}"


def judge_batches(db: sqlite3.Connection, witness: Witness, look: Look) -> None:
    """Judges the batches of an office by the ledger's bytes. Those that it lacks are sent again by
    the next tool."""
    batches = {number: bytes(content) for number, content in db.execute(
        "SELECT no, bytes FROM batch")}
    other = sorted(number for number, content in witness.batches.items()
                   if batches.get(number, content) != content)
    if other:
        look.warnings.append(f"{batches_words(len(other))} of the office, of which "
                             f"{other[0]} is the first, {'have' if other[1:] else 'has'} other "
                             "bytes than the ledger has")
    lacking = witness.batches.keys() - batches.keys()
    if lacking:
        look.warnings.append(f"the office lacks {batches_words(len(lacking))} of its "
                             "ledger, as one that was restored; the next tool sends them again")


def actions_in(content: bytes) -> dict[Pair, str] | None:
    """Returns the last action of a batch on each enrolment; None if a line can't be read."""
    actions: dict[Pair, str] = {}
    lines = content.decode("utf-8-sig", "replace").replace(" ", "").splitlines()[1:]
    for line in filter(None, lines):
        found = LINE.fullmatch(line)
        if not found:
            return None
        actions[int(found[1]), int(found[2])] = found[3]
    return actions


def actions_of(batches: dict[int, bytes], witness: Witness) -> dict[Pair, list[str]] | None:
    """Returns the last action on each enrolment that batches of the office touched. It is one of
    several if somebody else sent some of them, because nobody knows their order."""
    known, others = dict[Pair, list[str]](), dict[Pair, list[str]]()
    for number in [*(one for one in witness.batches if one in batches),
                   *sorted(batches.keys() - witness.batches.keys())]:
        actions = actions_in(batches[number])
        if actions is None:
            return None
        for pair, action in actions.items():
            if number in witness.batches:
                known[pair] = [action]
            else:
                others.setdefault(pair, []).append(action)
    return {pair: [*known.get(pair, []), *others.get(pair, [])]
            for pair in known.keys() | others.keys()}


def judge_enrolments(db: sqlite3.Connection, witness: Witness, look: Look) -> None:
    """Judges the enrolments of an office: they are those that were loaded, after its batches."""
    found: set[Pair] = {*db.execute("SELECT student, exam FROM enrol")}
    touched = actions_of({number: bytes(content) for number, content in db.execute(
        "SELECT no, bytes FROM batch")}, witness)
    if touched is None:
        return
    expected = (witness.loaded - touched.keys()) | {
        pair for pair, actions in touched.items()
        if "add" in actions and (pair in found or "drop" not in actions)}
    if expected != found:
        words = (f"{count(len(expected ^ found), 'enrolment')} of the office "
                 f"{'differ' if len(expected ^ found) > 1 else 'differs'} from what its ledger "
                 "loaded and its batches changed")
        (look.faults if are_of_another_session(expected, found) else look.warnings).append(words)


def judge_publication(db: sqlite3.Connection, witness: Witness, look: Look) -> None:
    """Judges the publication of an office by the last one of its history."""
    places = [line for line, in db.execute(
        "SELECT period || ',' || room FROM placed ORDER BY exam")]
    known = [line.replace(" ", "") for line in (witness.solution or "").splitlines()]
    seats = {*db.execute("SELECT student, exam, period, room, seat FROM seat")}
    if places != known:
        look.warnings.append("the office's publication isn't the last one of its history: "
                             f"{sum(one != other for one, other in zip(places, known)):,} exams "
                             "have another place")
    elif seats != witness.seats:
        look.warnings.append("the office's seats aren't those of the last publication of its "
                             f"history: {len(seats ^ witness.seats):,} rows differ")
