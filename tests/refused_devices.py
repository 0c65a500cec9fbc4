"""The sweeps of run_refused.py in which a socket's reads or writes fail, or calls of the disk."""
import contextlib
import errno
import itertools
import pathlib
import sqlite3

import run_serve
from refusing import (
    ALL_UNAVAILABLE, COMMANDS, DISK, RECEIVE, SEND, STORE_FAULT, UNAVAILABLE, Office,
    connection_fault, copy_database, filled_log, is_change)
from serve_cases import EXAMPLES, PUBLISHED, SMALL, message, reply

# The small session is loaded, drafted and published.
SESSION = ((message("PUT", "/instance", SMALL),
            reply(201, '{"exams":4,"pairs":6,"periods":4,"rooms":2}')), *PUBLISHED)
ASKED = b"".join(question for question, _ in SESSION)
CANNOT_OPEN = b"examoffice: cannot open database\n"
# An office of the small session as an earlier release left it, in version 1 of the file.
VERSION_1 = pathlib.Path(__file__).with_name("before") / "published_twice.sqlite"


# ---- Sockets

def shown_after_each(run):
    """Returns what an office shows before the session's messages, and after each of them."""
    office = Office(run, None)
    shown = [office.shown()]
    for question, _ in SESSION:
        office.reply(question)
        shown.append(office.shown())
    office.ending()
    return shown


def reads(run, first, step):
    """If the k-th read of one byte fails, the messages that were read whole are answered and done,
    and no other."""
    shown = shown_after_each(run)
    ends = [*itertools.accumulate(len(question) for question, _ in SESSION)]
    for k in range(first, len(ASKED) + 2, step):
        office, count = Office(run, None), sum(end < k for end in ends)
        run.cut(RECEIVE, 1)
        came, refused = office.reply_under(ASKED[:k - 1], RECEIVE, k)
        run.cut(RECEIVE, 0)
        run.record(f"after {count} messages", f"read {k}",
                   (b"".join(answer for _, answer in SESSION[:count]), 1, shown[count],
                    (-9, connection_fault(1))),
                   (came, refused, office.shown(), office.ending()))


def interrupted_reads(run, first, step):
    """If the k-th read of one byte is interrupted, every message is answered."""
    shown = shown_after_each(run)[-1]
    for k in range(first, len(ASKED) + 1, step):
        office = Office(run, None)
        run.cut(RECEIVE, 1)
        came, refused = office.reply_under(ASKED, RECEIVE, k, False, errno.EINTR)
        run.cut(RECEIVE, 0)
        run.record("answered", f"interrupted read {k}",
                   (b"".join(answer for _, answer in SESSION), 1, shown, (-9, b"")),
                   (came, refused, office.shown(), office.ending()))


def writes(run, first, step):
    """If the k-th write of seven bytes fails, what was written before it has arrived, and the
    message that it answers is done too."""
    shown, written = shown_after_each(run), b""
    pieces = [(count, answer[at:at + 7]) for count, (_, answer) in enumerate(SESSION, 1)
              for at in range(0, len(answer), 7)]
    for k, (count, piece) in enumerate(pieces, 1):
        if k % step == first % step:
            office, came = Office(run, None), b""
            run.cut(SEND, 7)
            run.refuse(SEND, k)
            with office.server.connect() as client:
                for exchange in SESSION[:count]:
                    came += run_serve.asked(client, *exchange)
            run.cut(SEND, 0)
            run.record(f"after {count} messages", f"write {k}",
                       (written, 1, shown[count], (-9, connection_fault(2))),
                       (came, run.stop_refusing(SEND), office.shown(), office.ending()))
        written += piece


# ---- The disk

def refusals():
    """Yields how calls of the disk are refused: whether for good, and with which errno."""
    return itertools.product((False, True), (errno.EIO, errno.ENOSPC))


def call(k, is_for_good, number):
    return f"call {k}{' and on' if is_for_good else ''}, {errno.errorcode[number]}"


def found(run, database):
    """Returns what the next process shows of a database, and how it ends."""
    office = Office(run, database, "found")
    return office.shown(), office.ending()


def command(run, state, path, name):
    """A command in a state."""
    call_in_turn(run, f"{state}, {name}", path, COMMANDS[name])


def copied_log(run, path):
    """A command that copies the log into the database."""
    first, question = filled_log(run, path)
    call_in_turn(run, "a log that is copied", path, question, first)


def call_in_turn(run, name, path, question, first=()):
    """A message, while each of its calls of the disk is refused in turn. If it is answered, all
    that was written is synced, and the next process finds it done. Otherwise the reply is 503, or
    none comes, and the next process finds the office before the message or after it. Until then the
    office shows what it did before, or it has ended, with store fault 8 and status 1. As long as
    the disk refuses all calls, each question may be answered 503, but no longer."""
    office = Office(run, path, first=first)
    before, answer, after = office.shown(), office.reply(question), office.shown()
    office.ending()
    for how in refusals():
        for k in itertools.count(1):
            office = Office(run, path, first=first)
            came, refused = office.reply_under(question, DISK, k, *how)
            is_unsynced = run.has_unsynced_writes()
            run.refuse(DISK, 1 if refused and how[0] else 0, *how)
            shown = office.shown()
            run.stop_refusing(DISK)
            if how[0] and shown == ALL_UNAVAILABLE:
                shown = office.shown()
            ending = office.ending(is_over=not shown)
            then, next_ending = found(run, office.database)
            if came == answer:
                outcome, may_show, may_find = "answered", [after], [after]
            else:
                outcome = f"503 and found {'before' if then == before else 'after'}"
                may_show, may_find = [before], [before, after]
            goes_on = shown in may_show and ending == (-9, b"")
            has_ended = shown == b"" and ending == (1, STORE_FAULT)
            run.record(outcome if refused else "not refused", f"{name}, {call(k, *how)}",
                       (True, True, True, (-9, b"")),
                       (came == answer and not is_unsynced
                        or refused and came in (b"", UNAVAILABLE) or came,
                        goes_on or has_ended or (shown, ending),
                        then in may_find or then, next_ending))
            if not refused:
                run.judge(f"{name}, calls of the disk", is_change(question, answer), k > 1)
                break


def load(run):
    """A load into a new file, likewise. The next process finds an office without a session or with
    it, and with it if the load said so."""
    path = run.folder / "new.db"
    words = "load", "--db", path, EXAMPLES / "small.exam"
    empty, loaded = (found(run, source) for source in (None, run.database(SMALL)))
    ample = run.ending(*words)
    faults = [(1, b"", line) for line in (STORE_FAULT, CANNOT_OPEN)]
    for how in refusals():
        for k in itertools.count(1):
            copy_database(None, path)
            run.refuse(DISK, k, *how)
            ending = run.ending(*words)
            refused, then = run.stop_refusing(DISK), found(run, path)
            if ending == ample:
                outcome, may_find = "loaded", [loaded]
            else:
                outcome = f"refused and found {'empty' if then == empty else 'loaded'}"
                may_find = [empty, loaded]
            run.record(outcome if refused else "not refused", f"load, {call(k, *how)}",
                       (True, True), (ending == ample or refused and ending in faults or ending,
                                      then in may_find or then))
            if not refused:
                run.judge("load, calls of the disk", True, k > 1)
                break


def version_of(run, path):
    """Returns the version of a file as sqlite3 finds it in a copy."""
    copied = run.folder / "copied.db"
    copy_database(path, copied)
    with contextlib.closing(sqlite3.connect(copied)) as database:
        return database.execute("SELECT version FROM meta").fetchall()


def migration(run):
    """An export from a file of version 1, likewise. The file is then of version 1 or 2, and the
    next process finds the same office."""
    path = run.folder / "old.db"
    copy_database(VERSION_1, path)
    words = "export", "--db", path
    shown, ample = found(run, VERSION_1), run.ending(*words)
    faults = [(1, b"", line) for line in (STORE_FAULT, CANNOT_OPEN)]
    for how in refusals():
        for k in itertools.count(1):
            copy_database(VERSION_1, path)
            run.refuse(DISK, k, *how)
            ending = run.ending(*words)
            refused, version = run.stop_refusing(DISK), version_of(run, path)
            outcome = "exported" if ending == ample else "refused"
            may_be = [[(2,)]] if ending == ample else [[(1,)], [(2,)]]
            run.record(f"{outcome} and of version {version[0][0]}",
                       f"migration, {call(k, *how)}", (True, True, shown),
                       (ending == ample or refused and ending in faults or ending,
                        version in may_be or version, found(run, path)))
            if not refused:
                run.judge("migration, calls of the disk", True, k > 1)
                break
