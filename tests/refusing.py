"""Shared by the sweeps of run_refused.py: the program while its calls are refused, the states of
an office, the commands that it gets there, and all that an office shows."""
import contextlib
import errno
import itertools
import mmap
import os
import pathlib
import shutil
import sqlite3
import subprocess
from collections import Counter

import run_serve
import waiting
from serve_cases import (
    CASES, PENALTY, SHOWN, SMALL, SOLUTION, VIOLATIONS, asked_by, batch, clear, error, message,
    move, place, publish, swap)

SECONDS = 60
SOURCE = pathlib.Path(__file__).with_name("refuse.cpp")
# The kinds of calls, and the words of each, in the order of refuse.cpp.
MEMORY, RECEIVE, SEND, DISK = range(4)
COUNTDOWN, IS_FOR_GOOD, ERROR, PIECE, REFUSED, UNSYNCED, CALLS, AFTER = range(8)
WORDS = 8
ERRORS = {MEMORY: errno.ENOMEM, RECEIVE: errno.ECONNRESET, SEND: errno.EPIPE, DISK: errno.EIO}
UNAVAILABLE = error(503, "unavailable")
NO_MEMORY, STORE_FAULT = b"examoffice: no memory\n", b"examoffice: store fault 8\n"


def connection_fault(number):
    return b"examoffice: connection fault %d\n" % number


def build(folder):
    """Builds the shared object, and returns its path."""
    built = f"{folder}/refuse.so"
    subprocess.run(["g++", "-std=c++17", "-O2", "-Wall", "-Wextra", "-Werror", "-shared", "-fPIC",
                    "-fno-exceptions", "-fno-rtti", "-o", built, SOURCE], check=True)
    return built


def executable(program, folder):
    """Returns the file that runs in the end. The launcher takes long to find it, and is a script,
    in which calls would be refused too."""
    office = run_serve.Office(program, pathlib.Path(folder) / "executable.db")
    path = os.readlink(f"/proc/{office.process.pid}/exe")
    office.killed()
    return path


# ---- All that an office shows

def questions():
    """Yields questions that change no office. The owner of an exam shows in an edit that is refused
    whoever owns it, and whether a batch is kept in another one under its number, which is refused
    too."""
    yield message("GET", "/instance")
    for draft in 1, 2:
        for page in "", "/penalty", "/violations":
            yield message("GET", f"/drafts/{draft}{page}")
    yield from SHOWN
    for candidate in 1, 2, 3:
        yield from (asked_by(candidate), asked_by(candidate, "/penalty"))
    for dept in 3, 5:
        yield from (place(exam, 4, 2, f"dept:{dept}") for exam in range(4))
    yield from (batch(number, "1,9,drop") for number in (1, 3, 5, 6, 7, 8, 9))


QUESTIONS = b"".join(questions())
ALL_UNAVAILABLE = UNAVAILABLE * sum(1 for _ in questions())


# ---- States and commands

# Cases of serve_cases.py, by what they leave: a draft that breaks a rule; a second publication; a
# draft that was dropped; one that may be published; one that may be published again; an exam of
# department 3 in a draft in which no other exam is placed.
STATES = ("coincidence_by_enrolment", "publish_twice", "reports_and_dropped_draft", "swap",
          "pending_after_batch", "owners_and_callers")
# A request for each command. Each is accepted in one of these states, or before a load.
COMMANDS = {
    "me": asked_by(1), "my exam": asked_by(1, "/exam/0"), "my penalty": asked_by(1, "/penalty"),
    "load": message("PUT", "/instance", SMALL), "instance": message("GET", "/instance"),
    "owner": message("PUT", "/exams/1/owner", b'{"dept":3}'),
    "empty draft": message("PUT", "/drafts/2"), "full draft": message("PUT", "/drafts/2", SOLUTION),
    "draft": message("GET", "/drafts/1"), "penalty": PENALTY, "violations": VIOLATIONS,
    "drop": message("DELETE", "/drafts/1"), "place": place(3, 2, 0), "move": move(3, 3, 1),
    "clear": clear(3), "swap": swap(1, 2),
    "edit by a department": message("DELETE", "/drafts/1/exams/0", caller="dept:3"),
    "publish": publish(), "publication": SHOWN[0], "publication's penalty": SHOWN[1],
    "rooms": SHOWN[2], "seats": SHOWN[3], "batch": batch(3, "1,1,add", "3,1,drop"),
    "idle batch": batch(3, "9,1,drop"),
}


def make_states(run):
    """Makes the file of each state, and returns their paths; before a load there is none."""
    paths = {"nothing loaded": None}
    for case in CASES:
        if case.name in STATES:
            office = run.office(case.start, connections=1)
            with office.connect() as client:
                came = run_serve.whole(client, case)
            run.judge(f"{case.name}, as it is made", (b"".join(case.replies), (0, b"")),
                      (came, office.ended()))
            paths[case.name] = run.folder / f"{case.name}.db"
            copy_database(run.folder / "term.db", paths[case.name])
    return paths


def filled_log(run, path):
    """Returns messages that fill the log of an office, and the next one, which copies the log into
    the database first."""
    office, sent = Office(run, path), []
    before = office.database.read_bytes()
    for question in itertools.islice(itertools.cycle((move(3, 3, 1), move(3, 2, 0))), 2_000):
        sent.append(question)
        office.reply(question)
        if office.database.read_bytes() != before:
            break
    run.judge("a log that is copied", True, office.database.read_bytes() != before)
    office.ending()
    return sent[:-1], sent[-1]


def is_change(question, reply):
    """Whether the office may be another one after this reply."""
    return not question.startswith(b"GET ") and reply.startswith(b"HTTP/1.1 20")


def copy_database(source, target):
    """Puts a database and its log in the place of another; without a source, removes that one."""
    for end in "", "-wal", "-shm":
        pathlib.Path(f"{target}{end}").unlink(missing_ok=True)
        if source and os.path.exists(f"{source}{end}"):
            shutil.copy(f"{source}{end}", f"{target}{end}")


def read_rows(path, folder):
    """Returns all that a database and its log hold, and whether they are sound; None if there is no
    table. sqlite3 gets a copy, because it empties the log."""
    copy_database(path, folder / "copy.db")
    with contextlib.closing(sqlite3.connect(folder / "copy.db")) as database:
        tables = database.execute("SELECT name, sql FROM sqlite_schema ORDER BY rowid").fetchall()
        held = [database.execute(f"SELECT * FROM {name}").fetchall() for name, sql in tables if sql]
        soundness = database.execute("PRAGMA integrity_check").fetchall()
    return (tables, held, soundness) if tables else None


# ---- The program while its calls are refused

class Run(run_serve.Run):
    """The cases that were run and how many failed, with the outcomes of a sweep; and the words that
    steer the shared object."""

    def __init__(self, program, shared_object, folder):
        super().__init__(program, folder, about="refused")
        path = self.folder / "steering"
        self.env = {**os.environ, "LD_PRELOAD": str(shared_object), "REFUSE": str(path)}
        self.outcomes = Counter()
        with path.open("w+b") as file:
            file.truncate(len(ERRORS) * WORDS * 8)
            self.words = memoryview(mmap.mmap(file.fileno(), 0)).cast("Q")

    def refuse(self, kind, k, is_for_good=False, number=None, after=0):
        """Refuses the k-th call from here on, or none if k is 0; for good, all after it too. It
        counts the calls after this many calls of the disk."""
        first = kind * WORDS
        self.words[first + COUNTDOWN] = 0
        self.words[first + IS_FOR_GOOD] = is_for_good
        self.words[first + ERROR] = number or ERRORS[kind]
        self.words[first + REFUSED] = 0
        self.words[first + AFTER] = after
        self.words[DISK * WORDS + CALLS] = 0
        self.words[first + COUNTDOWN] = k

    def stop_refusing(self, kind):
        """Refuses no call from here on; returns how many were refused."""
        self.words[kind * WORDS + COUNTDOWN] = 0
        return self.words[kind * WORDS + REFUSED]

    def cut(self, kind, piece):
        """Lets a call take at most this many bytes; 0 is no bound."""
        self.words[kind * WORDS + PIECE] = piece

    def has_unsynced_writes(self):
        return self.words[DISK * WORDS + UNSYNCED] != 0

    def ending(self, *words):
        """Runs the program on these words; returns status, standard output and standard error."""
        done = waiting.run([self.program, *map(str, words)], stdin=subprocess.DEVNULL,
                           env=self.env, capture_output=True, timeout=SECONDS)
        return done.returncode, done.stdout, done.stderr

    def record(self, outcome, name, expected, got):
        """Judges a case, and counts its outcome."""
        self.outcomes[outcome] += 1
        self.judge(name, expected, got)


class Office:
    """A server of a copy of a database, while calls are refused. `first` has the messages that each
    process gets before anything is refused."""

    def __init__(self, run, source, name="office", first=()):
        self.run, self.source, self.first = run, source, first
        self.database, self.saved = run.folder / f"{name}.db", run.folder / f"{name}.saved"
        self.errors = open(run.folder / f"{name}.errors", "w+b")
        self.start()

    def start(self):
        copy_database(self.source, self.database)
        self.run.words[DISK * WORDS + UNSYNCED] = 0
        self.server = run_serve.Office(self.run.program, self.database, env=self.run.env,
                                       stderr=self.errors)
        for index in range(0, len(self.first), 100):
            self.reply(b"".join(self.first[index:index + 100]))

    def save(self):
        """Saves the state, to which `reset` returns. The server is idle, so the files are what a
        kill would leave."""
        copy_database(self.database, self.saved)
        self.source = self.saved

    def reset(self):
        self.server.killed()
        self.start()

    def reply(self, question):
        """Returns the replies on a connection of its own; nothing if it is reset or refused."""
        try:
            with self.server.connect() as client:
                came = run_serve.told(client, question)
        except OSError:
            return b""
        return b"" if isinstance(came, OSError) else came

    def reply_under(self, question, kind, k, *how):
        """Returns the replies while a call is refused, and how many calls were."""
        self.run.refuse(kind, k, *how)
        came = self.reply(question)
        return came, self.run.stop_refusing(kind)

    def calls_of_disk(self, question):
        """Returns how many calls of the disk a message takes."""
        self.reply_under(question, DISK, 0)
        return self.run.words[DISK * WORDS + CALLS]

    def shown(self):
        return self.reply(QUESTIONS)

    def ending(self, is_over=False):
        """Kills the server, or waits for its end if it is over; returns its status, and all that
        standard error got."""
        if is_over:
            waiting.ended(self.server.process, SECONDS)
        self.server.killed()
        self.errors.seek(0)
        with self.errors:
            return self.server.process.returncode, self.errors.read()
