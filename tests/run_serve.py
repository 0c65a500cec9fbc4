#!/usr/bin/env python3
"""run_serve.py PROGRAM: the office over real sockets, byte for byte.

Each worked example is asked whole, in single bytes and in one piece, on one connection and an
office of its own. Beside them run stock curl, many connections, slow clients and clients that
vanish, each with its own offices and files; then, by themselves, kills at random moments. A failing
case is printed with what was expected and what came, and the last line counts the cases.
"""
import argparse
import concurrent.futures
import contextlib
import functools
import importlib
import json
import os
import pathlib
import random
import shutil
import signal
import socket
import struct
import subprocess
import sys
import tempfile
import threading
import time
import tty
from collections import namedtuple

import waiting
from cases import Cases
from further_cases import ASKED, CANONICAL, FURTHER, shown
from serve_cases import (
    CASES, EMPTY, EXAMPLES, FIRST, FIRST_MOVED, FROM_SOLUTION, INSTANCE, MANY, MOVED_ROOMS,
    MOVED_SEATS, MOVED_TEXT, NIGHTLY, NIGHTS, PENALTY, PENDING, PUBLISHED, ROOMS, SEATS, SEAT_LIST,
    SECOND, SECOND_PAGE, SHARES, SHOWN, SMALL, SOLUTION, STORED, TEXT, THIRD, UNPLACED, VIOLATIONS,
    asked_by, at, batch, batch_text, clear, cost, drafted, enrolled, error, forbidden, me, message,
    move, pending, place, publish, published, reply, report, swap, text)

TOP = pathlib.Path(__file__).resolve().parent.parent
# A session at the limits, of bench/.
sys.path.append(str(TOP / "bench"))
sessions = importlib.import_module("sessions")

# Beyond this nothing is waited for, in calm seconds (waiting.py).
SECONDS = 180


class Office:
    """The program while it serves a database; its end is waited for, and judged."""

    def __init__(self, program, database, connections=1_000_000, patience=None,
                 stderr=subprocess.PIPE, env=None, port=0):
        more = ["--patience", str(patience)] if patience else []
        self.process = waiting.server(
            [program, "serve", "--db", str(database), "--port", str(port),
             "--connections", str(connections), *more],
            stdin=subprocess.DEVNULL, stdout=subprocess.PIPE, stderr=stderr, env=env)
        line = self.process.stdout.readline()
        if not line.startswith(b"listening 127.0.0.1:") or not line.endswith(b"\n"):
            self.process.kill()
            raise OSError(f"it did not listen: {line!r}, {self.process.communicate()[1]!r}")
        self.port = int(line.rpartition(b":")[2])

    def connect(self):
        client = waiting.Connection(("127.0.0.1", self.port), SECONDS)
        client.setsockopt(socket.IPPROTO_TCP, socket.TCP_NODELAY, 1)
        return client

    def ended(self):
        """The status, and what standard error got."""
        _, stderr = waiting.communicate(self.process, SECONDS)
        return self.process.returncode, stderr

    def killed(self):
        self.process.kill()
        return self.process.communicate()[1]


def received(client, length):
    """Returns this many bytes of a connection, or fewer if it ends."""
    parts = bytearray()
    while len(parts) < length:
        part = client.recv(min(length - len(parts), 65_536))
        if not part:
            break
        parts += part
    return bytes(parts)


def rest(client):
    return received(client, 1 << 30)


def told(client, question):
    """Returns the replies to all that is sent, or the error if the connection is reset."""
    try:
        client.sendall(question)
        client.shutdown(socket.SHUT_WR)
        return rest(client)
    except OSError as fault:
        return fault


def asked(client, question, answer):
    """Asks, and returns as many bytes as the answer has."""
    client.sendall(question)
    return received(client, len(answer))


def whole(client, case):
    return b"".join(asked(client, *pair) for pair in zip(case.asked, case.replies))


def in_single_bytes(client, case):
    came = b""
    for question, answer in zip(case.asked, case.replies):
        for byte in question:
            client.sendall(bytes([byte]))
        came += received(client, len(answer))
    return came


def in_one_piece(client, case):
    return asked(client, b"".join(case.asked), b"".join(case.replies))


class Run(Cases):
    """The cases of a program, with its databases in a folder."""

    def __init__(self, program, folder, about="serve"):
        super().__init__(about)
        self.program, self.folder, self.loaded = program, pathlib.Path(folder), {}

    @classmethod
    def apart(cls, program, folder, about, name):
        """The cases of one test, in a folder of its own."""
        room = pathlib.Path(folder) / name
        room.mkdir()
        return cls(program, room, about)

    def database(self, start):
        """A file of its own, into which this instance is loaded."""
        if start and start not in self.loaded:
            source, made = self.folder / "source.exam", self.folder / f"loaded{len(self.loaded)}"
            source.write_bytes(start)
            waiting.run([self.program, "load", "--db", str(made), str(source)], check=True,
                        stdout=subprocess.DEVNULL, timeout=SECONDS)
            self.loaded[start] = made
        path = self.folder / "term.db"
        for file in self.folder.glob("term.db*"):
            file.unlink()
        if start:
            shutil.copy(self.loaded[start], path)
        return path

    def office(self, start=SMALL, **more):
        return Office(self.program, self.database(start), **more)


def worked_examples(run):
    for case in (*CASES, *FURTHER):
        for way in (whole, in_single_bytes, in_one_piece):
            office = run.office(case.start, connections=1)
            with office.connect() as client:
                got = way(client, case)
                client.shutdown(socket.SHUT_WR)
                got += rest(client)
            name = f"{case.name}, {way.__name__.replace('_', ' ')}"
            run.judge(name, (b"".join(case.replies), (0, b"")), (got, office.ended()))


def stored_by_hand(run):
    """The rows that a publication stores are those worked out by hand."""
    for name, start, solution, penalty, select, expected in STORED:
        database = run.database(start)
        office = Office(run.program, database, connections=1)
        said = [(message("PUT", "/drafts/1", solution), drafted(201, penalty)),
                (publish(), published(3, penalty))]
        with office.connect() as client:
            came = [asked(client, *pair) for pair in said]
        came.append(office.ended())
        rows = waiting.run(["sqlite3", "-newline", " ", str(database), select],
                           capture_output=True, stdin=subprocess.DEVNULL, timeout=SECONDS).stdout
        run.judge(name, ([answer for _, answer in said], (0, b""), expected),
                  (came[:2], came[2], rows))


def served_again(run, name, first, again, start=SMALL):
    """Exchanges, and then others when the file is served again; answers the file."""
    database, came, expected = run.database(start), [], []
    for exchanges in (first, again):
        office = Office(run.program, database, connections=1)
        with office.connect() as client:
            came += [asked(client, *pair) for pair in exchanges]
        came.append(office.ended())
        expected += [*(answer for _, answer in exchanges), (0, b"")]
    run.judge(name, expected, came)
    return database


def exported(run, database, **more):
    """Returns how `export` of a file ended: its status, standard output and standard error."""
    streams = {"stdout": subprocess.PIPE, "stderr": subprocess.PIPE, **more}
    done = waiting.run([run.program, "export", "--db", str(database)], **streams,
                       stdin=subprocess.DEVNULL, timeout=SECONDS)
    return done.returncode, done.stdout, done.stderr


def adopt_after_republication(run):
    """The last publication is there, byte for byte, when the file is served again, and is
    exported. A file without tables is no office's, nor is one whose stored share was altered, and
    none is made where there are tables."""
    no_office = 1, b"", b"examoffice: store fault 9\n"
    database = served_again(
        run, "adopt_after_republication",
        [(EMPTY, drafted(201, 0)), (place(0, 0, 0), drafted(200, 0)),
         (place(1, 1, 0), drafted(200, 8)), (place(2, 3, 1), drafted(200, 21)),
         (publish(), reply(409, '{"error":"unplaced","exam":3}')),
         (place(3, 2, 0), drafted(200, 37)), (publish(), published(3, 37)),
         (move(3, 3, 1), drafted(200, 44)), (publish(), published(1, 44)),
         (SHOWN[0], text(MOVED_TEXT))],
        [(SHOWN[0], text(MOVED_TEXT)), (SHOWN[1], text(report(7, 0, 3, 10, 0, 10, 14, 44))),
         (SHOWN[2], text(MOVED_ROOMS)), (SHOWN[3], text(MOVED_SEATS)),
         (asked_by(1), me(1, 1, *FIRST_MOVED)), (asked_by(2), SECOND_PAGE),
         (asked_by(3), me(3, 1, *THIRD))])
    run.judge("adopt_after_republication, an export", (0, MOVED_TEXT.encode(), b""),
              exported(run, database))
    with open("/dev/full", "wb") as full:
        run.judge("an export to a full device", (1, None, b"examoffice: cannot write\n"),
                  exported(run, database, stdout=full))
    for share in ("UPDATE share_student SET spread = spread + 1 WHERE student = 1",
                  "UPDATE share_part SET mixed = mixed - 1 WHERE kind = 2 AND no = 1"):
        altered = run.folder / "altered.db"
        shutil.copy(database, altered)
        waiting.run(["sqlite3", str(altered), share], check=True, timeout=SECONDS)
        run.judge(f"adopt_after_republication, {share}", no_office, exported(run, altered))
    unloaded = message("GET", "/instance"), error(409, "not-loaded")
    served_again(run, "an office before a load", [unloaded], [unloaded], start=None)
    bare, other = run.folder / "bare.db", run.folder / "note.db"
    bare.write_bytes(b"")
    run.judge("adopt_after_republication, no tables", no_office, exported(run, bare))
    waiting.run(["sqlite3", str(other), "CREATE TABLE note (text TEXT)"], check=True,
                timeout=SECONDS)
    done = waiting.run([run.program, "load", "--db", str(other), str(EXAMPLES / "small.exam")],
                       capture_output=True, stdin=subprocess.DEVNULL, timeout=SECONDS)
    run.judge("adopt_after_republication, other tables", no_office,
              (done.returncode, done.stdout, done.stderr))


def nights_are_kept(run):
    """The nights of a draft and of a publication are there when the file is served again. A file in
    which one was altered is no office's."""
    costs = report(7, 5, 3, 0, 0, 15, 7, 43, night=6)
    shown_again = [(PENALTY, text(costs)), (SHOWN[1], text(costs)),
                   (asked_by(2, "/penalty"), cost(0, 5, 1)),
                   (asked_by(3, "/penalty"), cost(0, 0, 1, 6))]
    database = served_again(
        run, "nights that are kept",
        [(message("PUT", "/drafts/1", NIGHTLY), drafted(201, 43)), (publish(), published(3, 43)),
         *shown_again], [*shown_again, (publish(), published(0, 43)), *shown_again], NIGHTS)
    for change in ("UPDATE night_draft SET night = 0",
                   "UPDATE night_share SET night = 5 WHERE student = 3",
                   "UPDATE night_share SET night = 3 WHERE student > 1"):
        altered = run.folder / "altered.db"
        shutil.copy(database, altered)
        waiting.run(["sqlite3", str(altered), change], check=True, timeout=SECONDS)
        run.judge(f"nights that are kept, {change}", (1, b"", b"examoffice: store fault 9\n"),
                  exported(run, altered))


def draft_survives_adopt(run):
    """An owner and an edited draft are there when the file is served again."""
    owner, places = message("PUT", "/exams/0/owner", b'{"dept":3}'), ((0, 0), (3, 1), (1, 0),
                                                                      (2, 0))
    served_again(run, "draft_survives_adopt",
                 [(owner, reply(200, '{"dept":3,"exam":0}')), (FROM_SOLUTION, drafted(201, 37)),
                  (swap(1, 2), drafted(200, 30))],
                 [INSTANCE, (message("GET", "/drafts/1"), shown(30, *places)),
                  (PENALTY, text(report(0, 5, 3, 0, 0, 15, 7, 30))),
                  (place(0, 0, 0, "dept:3"), error(409, "already-placed")),
                  (place(1, 0, 0, "dept:3"), forbidden("P3"))])


def all_is_kept(run):
    """An office with an owner, a moved exam, a publication before that and a batch after it shows
    all of them when the file is served again. The batch costs candidate 3 row 7 and 2 of the spread
    in the draft."""
    late, costs = batch(6, "3,0,add"), report(14, 0, 5, 10, 0, 10, 14, 53)
    session = text(CANONICAL.replace(b"120, 1, 2\r", b"120, 1, 2, 3\r"))
    office = [(INSTANCE[0], session),
              (message("GET", "/drafts/1"), shown(53, (0, 0), (1, 0), (3, 1), (3, 1))),
              (PENALTY, text(costs)), (VIOLATIONS, text("breaches 0\n")),
              (place(0, 0, 0, "dept:3"), error(409, "already-placed")),
              (place(1, 0, 0, "dept:3"), forbidden("P3")),
              (SHOWN[0], text(TEXT)), (SHOWN[1], text(report(7, 5, 3, 0, 0, 15, 7, 37))),
              (SHOWN[2], text(ROOMS)), (SHOWN[3], text(SEAT_LIST)),
              (asked_by(1), me(1, 6, *FIRST)), (asked_by(1, "/exam/0"), reply(200, FIRST[0])),
              (asked_by(1, "/penalty"), cost(0, 5, 1)), (asked_by(2), SECOND_PAGE),
              (asked_by(2, "/exam/0"), reply(200, SECOND[0])),
              (asked_by(2, "/penalty"), cost(7, 0, 1)), (asked_by(3), me(3, 1, PENDING, *THIRD)),
              (asked_by(3, "/exam/0"), reply(200, PENDING)),
              (asked_by(3, "/penalty"), cost(0, 0, 1)),
              (batch(6, "3,4,add"), error(409, "batch-differs")), (late, enrolled(6, 1, 0, 0))]
    served_again(run, "an office with all that it can have",
                 [(message("PUT", "/exams/0/owner", b'{"dept":3}'),
                   reply(200, '{"dept":3,"exam":0}')),
                  *PUBLISHED, (move(3, 3, 1), drafted(200, 44)), (late, enrolled(6, 1, 0, 0)),
                  *office],
                 [*office, (message("DELETE", "/drafts/1"), reply(200, '{"draft":1}'))])


def rows_that_go(run):
    """What was taken away is in no table: an owner, a draft, a place of another one, candidate 1's
    seat of exam 0, and the shares and places of the first publication."""
    drop, owner = batch(1, "1,0,drop"), "/exams/0/owner"
    database = run.database(SMALL)
    exchanged(run, "rows that go", database,
              [(message("PUT", owner, b'{"dept":3}'), reply(200, '{"dept":3,"exam":0}')),
               *PUBLISHED,
               (message("PUT", "/drafts/2", SOLUTION), reply(201, '{"draft":2,"penalty":37}')),
               (drop, enrolled(1, 0, 1, 0)), (move(3, 3, 1), drafted(200, 43)),
               (publish(), published(1, 43)),
               (message("PUT", owner, b'{"dept":0}'), reply(200, '{"dept":0,"exam":0}')),
               (clear(2), drafted(200, 20)),
               (message("DELETE", "/drafts/2"), reply(200, '{"draft":2}'))])
    for select, rows in LEFT.items():
        found = waiting.run(["sqlite3", "-newline", " ", str(database), select], check=True,
                            capture_output=True, timeout=SECONDS).stdout
        run.judge(f"rows that go: {select}", rows, found)


# The rows of each table after that.
LEFT = {
    "SELECT * FROM owner": b"",
    "SELECT * FROM draft NATURAL JOIN night_draft": b"1|7|0|1|0|0|5|7|0 ",
    "SELECT count(*) FROM night_draft": b"1 ",
    "SELECT * FROM slot ORDER BY draft, exam": b"1|0|0|0 1|1|1|0 1|3|3|1 ",
    "SELECT exam, period, room FROM placed ORDER BY exam": b"0|0|0 1|1|0 2|3|1 3|3|1 ",
    SEATS: b"0|2|0|0|2 1|2|1|0|1 1|3|1|0|2 2|3|3|1|1 3|1|3|1|2 ",
    SHARES: b"1|0|0|0|0 2|7|0|1|0 3|0|0|1|0 0|0|0|0 0|1|0|0 0|2|0|0 0|3|0|0 1|0|0|0 1|1|0|0 "
            b"1|2|0|0 1|3|10|0 2|0|0|0 2|1|14|10 ",
    "SELECT count(*) FROM night_share": b"3 ",
}


def batches_are_kept(run):
    """A batch is known when the file is served again; the drafts' penalty with it is stored."""
    late = batch(6, "3,0,add"), enrolled(6, 1, 0, 0)
    served_again(run, "a batch that is kept", [*PUBLISHED, late],
                 [late, (batch(6, "3,0,drop"), error(409, "batch-differs")),
                  (PENALTY, text(report(14, 5, 5, 0, 0, 15, 7, 46))),
                  (asked_by(3), me(3, 1, PENDING, *THIRD))])


def exchanged(run, name, database, exchanges):
    """Exchanges on one connection."""
    office = Office(run.program, database, connections=1)
    with office.connect() as client:
        came = [asked(client, *pair) for pair in exchanges]
    run.judge(name, ([answer for _, answer in exchanges], (0, b"")), (came, office.ended()))


def longest_batch(run):
    """A batch of just 1,048,576 bytes, and one of a byte more."""
    lines = batch_text(*["1,1,add"] * 131_069)
    longest = lines.replace(b"action", b"action" + b" " * (1_048_576 - len(lines)), 1)
    exchanged(run, "the longest batch", run.database(SMALL),
              [(message("PUT", "/batches/1", longest + b"\n"), error(413, "length")),
               (message("PUT", "/batches/1", longest), enrolled(1, 1, 0, 131_068))])


def most_batches(run):
    """Ten thousand batches are kept: the next one is refused, and each of them still known. A
    batch that was refused or sent again is not counted."""
    database = run.database(SMALL)
    rows = ("WITH RECURSIVE n(no) AS (VALUES (1) UNION ALL SELECT no + 1 FROM n LIMIT 9998)"
            " INSERT INTO batch SELECT no, CAST('student,exam,action' AS BLOB), 0, 0, 0 FROM n")
    waiting.run(["sqlite3", str(database), rows], check=True, timeout=SECONDS)
    exchanged(run, "ten thousand batches", database,
              [(batch(9_999, "1,1,add"), enrolled(9_999, 1, 0, 0)),
               (batch(9_999, "1,1,add"), enrolled(9_999, 1, 0, 0)),
               (batch(10_000, "1,4,add"), error(404, "number")),
               (batch(10_000, "1,2,add"), enrolled(10_000, 1, 0, 0)),
               (batch(0, "1,1,drop"), error(409, "too-many")),
               (batch(10_001, "1,4,drop"), error(404, "number")),
               (batch(9_999, "1,1,add"), enrolled(9_999, 1, 0, 0)),
               (message("PUT", "/batches/1", b"student,exam,action"), enrolled(1, 0, 0, 0))])
    exchanged(run, "ten thousand batches, served again", database,
              [(batch(0, "1,1,drop"), error(409, "too-many")),
               (batch(10_000, "1,2,add"), enrolled(10_000, 1, 0, 0))])


# Each of 100,000 candidates sits both exams, and takes them in a row in the draft: 7 each.
PAIRED = "".join(f"{line}\n" for line in [
    "[Exams:2]", *[", ".join(["60", *map(str, range(100_000))])] * 2, "[Periods:2]",
    "01:01:2000, 09:00:00, 60, 0", "01:01:2000, 11:00:00, 60, 0", "[Rooms:1]", "100000, 0",
    "[PeriodHardConstraints]", "[RoomHardConstraints]", "[InstitutionalWeightings]",
    "TWOINAROW,7"]).encode()
PAIRED_DRAFT = ("INSERT INTO draft VALUES (1, 700000, 0, 0, 0, 0, 0, 0);"
                "INSERT INTO night_draft VALUES (1, 0);"
                "INSERT INTO slot VALUES (1, 0, 0, 0), (1, 1, 1, 0)")


def short_log(run):
    """A publication of 200,000 seats, and one that moves a tenth of the exams, leave a log of at
    most twice the file and 16 MB."""
    database = run.database(sessions.instance_of(200_000, 10).encode())
    office = Office(run.program, database)
    for number, further in ((1, 0), (2, 5)):
        places = [sessions.place_of(exam) for exam in range(sessions.EXAMS)]
        rows = [f"{period}, {room + (further if exam % 10 == 0 else 0)}\n"
                for exam, (period, room) in enumerate(places)]
        said = [told(office.connect(), message(*question)) for question in (
            ("PUT", f"/drafts/{number}", "".join(rows).encode()),
            ("POST", f"/drafts/{number}/publish"))]
        sizes = [database.with_name(f"term.db{end}").stat().st_size for end in ("", "-wal")]
        run.judge(f"publication {number} of 200,000 seats", ([b"201", b"200"], True),
                  ([reply.split()[1] for reply in said], sizes[1] <= 2 * sizes[0] + 2**24))
    office.killed()
    memory_at_rest(run, database)


def memory_at_rest(run, database):
    """An office that was opened with 200,000 seats holds at most 60 MB, by the environment of its
    service."""
    name = "Environment="
    lines = (TOP / "packaging" / "examoffice@.service").read_text().splitlines()
    fields = [line.removeprefix(name) for line in lines if line.startswith(name)]
    office = Office(run.program, database,
                    env=os.environ | dict(field.split("=", 1) for field in fields))
    status = pathlib.Path(f"/proc/{office.process.pid}/status").read_text()
    held = int(status.partition("VmRSS:")[2].split()[0])
    run.judge("memory at rest, 200,000 seats", True, held <= 60_000)
    office.killed()


def most_pairs(run):
    """There are 200,000 pairs: a batch that would pass them at some line is refused and changes
    nothing, and one that comes back to them is taken."""
    database, newcomer = run.database(PAIRED), "100000,0,add"

    def by_sqlite3(words):
        return waiting.run(["sqlite3", str(database), words], capture_output=True, check=True,
                           timeout=SECONDS).stdout

    by_sqlite3(PAIRED_DRAFT)
    before = by_sqlite3(".dump")
    exchanged(run, "a pair beyond 200,000", database,
              [(batch(1, newcomer), error(409, "too-many")),
               (batch(1, newcomer, "0,0,drop"), error(409, "too-many")),
               (batch(1, "0,0,drop", newcomer, "100000,1,add"), error(409, "too-many")),
               (PENALTY, text(report(700_000, *[0] * 6, 700_000))),
               (asked_by(100_000), me(100_000, 0)),
               (asked_by(0), me(0, 0, pending(0), pending(1)))])
    run.judge("a pair beyond 200,000, the tables", True, by_sqlite3(".dump") == before)
    exchanged(run, "200,000 pairs", database,
              [(batch(1, "0,0,drop", newcomer), enrolled(1, 1, 1, 0)),
               (PENALTY, text(report(699_993, *[0] * 6, 699_993))),
               (asked_by(100_000), me(100_000, 0, pending(0))),
               (asked_by(0), me(0, 0, pending(1))),
               (batch(2, "0,0,add"), error(409, "too-many")),
               (batch(2, newcomer), enrolled(2, 0, 0, 1)),
               (batch(1, "0,0,drop", newcomer), enrolled(1, 1, 1, 0))])
    run.judge("200,000 pairs, the table", b"200000\n", by_sqlite3("SELECT count(*) FROM enrol"))


def stock_curl(run):
    """The commands that a first user types."""
    office, caller = run.office(connections=3), ["-H", "X-Caller: office"]
    drafts = f"http://127.0.0.1:{office.port}/drafts/1"
    commands = [["--data-binary", f"@{EXAMPLES / 'small.sol'}", "-X", "PUT", drafts],
                [f"{drafts}/penalty"],
                ["-d", '{"period":3,"room":1}', f"{drafts}/exams/2/move"]]
    printed = [b'{"draft":1,"penalty":37}', report(7, 5, 3, 0, 0, 15, 7, 37).encode(),
               b'{"draft":1,"penalty":37}']
    got = [waiting.run(["curl", "-s", *caller, *words], capture_output=True, timeout=SECONDS).stdout
           for words in commands]
    run.judge("curl", (printed, (0, b"")), (got, office.ended()))


def many_connections(run):
    office = run.office(connections=1_000)
    answer, wrong = error(404, "draft"), 0
    for _ in range(1_000):
        with office.connect() as client:
            question = message("GET", "/drafts/1/penalty", fields=["Connection: close"])
            client.sendall(question)
            wrong += rest(client) != answer
    run.judge("1,000 connections", (0, (0, b"")), (wrong, office.ended()))


def last_message(run):
    """The hundredth reply is the last, and arrives although more was asked."""
    office = run.office(connections=1)
    with office.connect() as client:
        got = told(client, message("GET", "/drafts/1") * 150)
    run.judge("a hundred replies", (error(404, "draft") * 100, (0, b"")), (got, office.ended()))


def long_message(run):
    """A message that is too long is refused while its body still comes, and the reply arrives."""
    office, length = run.office(connections=1), 5_000_000
    head = message("PUT", "/instance", fields=[f"Content-Length: {length}"])
    with office.connect() as client:
        got = told(client, head + b"x" * length)
    run.judge("a long message", (error(413, "length"), (0, b"")), (got, office.ended()))


def hostile_messages(run):
    """A body that is a byte too long is refused for its sender or for its length, and the next
    question on the connection is answered."""
    after = asked_by(99), me(99, 0)
    exchanges = [(message("PUT", "/drafts/1", b"0" * 1_048_577, caller), answer) for caller,
                 answer in
                 (("office", error(413, "length")), ("cand:1", forbidden("P1")),
                  ("dept:3", forbidden("P2")))]
    exchanged(run, "hostile_messages, a body that is too long", run.database(None),
              [exchange for refused in exchanges for exchange in (refused, after)])


def cut_messages(run):
    """A message of which only a part comes has no reply, and what came before it has its own."""
    question, answer = ASKED
    office = run.office(connections=len(question) - 1)
    for end in range(1, len(question)):
        with office.connect() as client:
            got = told(client, question + question[:end])
        run.judge(f"a message cut after {end} bytes", answer, got)
    run.judge("cut messages", (0, b""), office.ended())


def longest_body(run):
    """A body of just 4,194,304 bytes, which comes in pieces of 64."""
    body = SMALL.ljust(4_194_304)
    office = run.office(None, connections=1)
    with office.connect() as client:
        client.sendall(message("PUT", "/instance", body)[:-len(body)])
        for start in range(0, len(body), 64):
            client.sendall(body[start:start + 64])
        client.shutdown(socket.SHUT_WR)
        got = rest(client)
    run.judge("the longest body",
              (reply(201, '{"exams":4,"pairs":6,"periods":4,"rooms":2}'), (0, b"")),
              (got, office.ended()))


def vanish(client):
    """Resets the connection."""
    client.setsockopt(socket.SOL_SOCKET, socket.SO_LINGER, struct.pack("ii", 1, 0))
    client.close()


def failing_reader_and_writer(run):
    """Clients that vanish after their reply, and before it: the command is stored, and the next
    one is served."""
    office = run.office(connections=4)
    client = office.connect()
    first = asked(client, EMPTY, drafted(201, 0))
    vanish(client)
    with office.connect() as client:
        second = asked(client, place(0, 0, 0), drafted(200, 0))
    client = office.connect()
    office.process.send_signal(signal.SIGSTOP)
    client.sendall(clear(0))
    vanish(client)
    office.process.send_signal(signal.SIGCONT)
    with office.connect() as client:
        third = asked(client, clear(0), error(409, "not-placed"))
    run.judge("failing_reader_and_writer",
              (drafted(201, 0), drafted(200, 0), error(409, "not-placed"), 0,
               b"examoffice: connection fault 1\nexamoffice: connection fault 2\n"),
              (first, second, third, *office.ended()))


def port_is_taken(run):
    """A second office cannot listen on the port of the first."""
    office = run.office(connections=1)
    words = [run.program, "serve", "--db", str(run.folder / "other.db"), "--port",
             str(office.port), "--connections", "1"]
    done = waiting.run(words, stdin=subprocess.DEVNULL, capture_output=True, timeout=SECONDS)
    with office.connect() as client:
        got = asked(client, message("GET", "/drafts/1"), error(404, "draft"))
    run.judge("a port that is taken",
              (1, b"", b"examoffice: cannot listen\n", error(404, "draft"), (0, b"")),
              (done.returncode, done.stdout, done.stderr, got, office.ended()))


def own_addresses():
    """The addresses of this machine but for those of loopback."""
    lines = pathlib.Path("/proc/net/fib_trie").read_text(encoding="ascii").splitlines()
    found = {line.split()[-1] for line, next_ in zip(lines, lines[1:]) if "/32 host LOCAL" in next_}
    return sorted(address for address in found if not address.startswith("127."))


def connection_to(address, port):
    """What becomes of a connection to this address: "connected", or the name of the error."""
    try:
        with socket.create_connection((address, port), SECONDS):
            return "connected"
    except OSError as fault:
        return type(fault).__name__


def other_addresses(run):
    """Only 127.0.0.1 is listened on, because the office believes each client's word on who asks."""
    office = run.office(connections=1)
    for address in "127.0.0.2", "::1", *own_addresses():
        came = connection_to(address, office.port)
        # A machine without IPv6 has another error for an address of IPv6.
        refused = {"ConnectionRefusedError"} | ({"OSError"} if ":" in address else set())
        run.judge(f"a connection to {address}", True, came in refused or came)
    run.judge("a connection to 127.0.0.1", ("connected", (0, b"")),
              (connection_to("127.0.0.1", office.port), office.ended()))


def locked_database(run):
    """A file that an office serves can't be opened; a line for a journal says why."""
    office = run.office(connections=1)
    database, journal = str(run.folder / "term.db"), {**os.environ, "JOURNAL_STREAM": "8:1"}
    expected = (1, b"", b"examoffice: cannot open database\n%s: database is locked\n"
                % database.encode())
    for words in (["export", "--db", database],
                  ["load", "--db", database, str(EXAMPLES / "small.exam")]):
        done = waiting.run([run.program, *words], stdin=subprocess.DEVNULL, env=journal,
                           capture_output=True, timeout=SECONDS)
        run.judge(f"a locked database: {words[0]}", expected,
                  (done.returncode, done.stdout, done.stderr))
    office.killed()


def closed_streams(run):
    """Neither a database nor a client takes the number of a standard stream that was closed."""
    script = run.folder / "closed.sh"
    script.write_text(f"#!/bin/sh\nexec '{run.program}' \"$@\" 0<&- 2>&-\n", encoding="utf-8")
    script.chmod(0o755)
    office = Office(str(script), run.database(SMALL), connections=1)
    streams = [os.readlink(f"/proc/{office.process.pid}/fd/{number}") for number in (0, 2)]
    with office.connect() as client:
        came = told(client, b"GET /me HTTP/1.1\r\n")
    run.judge("closed streams", (["/dev/null"] * 2, False, (0, b"")),
              (streams, b"examoffice: " in came, office.ended()))


def publication_is_told(run):
    """A terminal as standard error gets a line before a publication in a large file, and only
    where the office asks for it; a small file leads to no line."""
    for name, start, exchanges in ("a small file", SMALL, PUBLISHED), ("a large file", MANY,
                                                                       UNPLACED):
        reader, screen = os.openpty()
        tty.setraw(screen)
        office = run.office(start, stderr=screen, connections=1)
        with office.connect() as client:
            came = [asked(client, *pair) for pair in exchanges]
            client.sendall(message("POST", "/drafts/1/publish", caller="cand:1"))
            client.shutdown(socket.SHUT_WR)
            came.append(rest(client)[:12])
        status, _ = office.ended()
        os.write(screen, b"\0")
        lines = b""
        while not lines.endswith(b"\0"):
            lines += os.read(reader, 65_536)
        path = str(run.folder / "term.db").encode()
        expected = [b"examoffice: opening %s, which takes a while" % path,
                    b"examoffice: publishing in %s, which takes a while" % path]
        run.judge(f"a publication on a terminal: {name}",
                  ([*(answer for _, answer in exchanges), b"HTTP/1.1 403"], 0,
                   expected if start != SMALL else []),
                  (came, status, lines[:-1].splitlines()))
        os.close(reader)
        os.close(screen)


def trickle(act, seconds, times):
    """Acts this many times, this many seconds apart, until it fails."""
    with contextlib.suppress(OSError):
        for _ in range(times):
            act()
            time.sleep(seconds)


def waited(run, name, start, slow, patience, fault):
    """A slow client is first, and the next one is served within twice the patience."""
    office = run.office(start, connections=2, patience=patience)
    first = socket.socket()
    first.setsockopt(socket.SOL_SOCKET, socket.SO_RCVBUF, 4_096)
    first.connect(("127.0.0.1", office.port))
    thread = threading.Thread(target=slow, args=(first,), daemon=True)
    thread.start()
    began = waiting.calm()
    with office.connect() as client:
        got = asked(client, message("GET", "/drafts/1"), error(404, "draft"))
    is_soon = waiting.calm() - began < 2 * patience + 1
    first.close()
    run.judge(name, (error(404, "draft"), True, (0, b"examoffice: connection fault %d\n" % fault)),
              (got, is_soon, office.ended()))


def send_slowly(client):
    left = iter(message("GET", "/drafts/1"))
    trickle(lambda: client.sendall(bytes([next(left)])), 0.25, 40)


def read_slowly(client):
    client.sendall(message("GET", "/instance") * 4)
    trickle(lambda: client.recv(1), 0.25, 40)


def ask_nothing(client):
    time.sleep(10)


def wide_instance():
    """An instance whose canonical text is long: a socket takes one at once, but not four."""
    exams = [", ".join(str(number) for number in [120, *range(10**8 + exam, 10**8 + exam + 100)])
             for exam in range(2_000)]
    return "\n".join(["[Exams:2000]", *exams, "[Periods:1]", "01:01:2000, 09:00:00, 120, 0",
                      "[Rooms:1]", "100, 0", "[PeriodHardConstraints]", "[RoomHardConstraints]",
                      "[InstitutionalWeightings]", ""]).encode()


def slow_clients(run):
    waited(run, "a client that sends slowly", SMALL, send_slowly, 3, 1)
    waited(run, "a client that asks nothing", SMALL, ask_nothing, 3, 1)
    waited(run, "a client that reads slowly", wide_instance(), read_slowly, 3, 2)


def outcome(act, *given):
    """What an action returns, or the error if the office has left."""
    try:
        return act(*given)
    except OSError as fault:
        return fault


def asked_slowly(office, patience):
    """Asks four times, with pauses; the replies, and whether all took longer than three times the
    patience."""
    question, answer = message("GET", "/drafts/1"), error(404, "draft")
    middle, got, began = len(question) // 2, b"", time.monotonic()
    with office.connect() as client:
        for _ in range(2):
            time.sleep(0.6 * patience)
            client.sendall(question[:middle])
            time.sleep(0.6 * patience)
            got += asked(client, question[middle:] + question[:middle], answer)
            time.sleep(0.6 * patience)
            got += asked(client, question[middle:], answer)
    return got, time.monotonic() - began > 3 * patience


def patient_client(run):
    """Within its limits a client is served for longer than the patience: it waits before it asks,
    and halfway through its message, and sends its next message after the first half of one."""
    office, patience = run.office(connections=1, patience=3), 3
    number, before = office.process.pid, waiting.delay()
    got = outcome(asked_slowly, office, patience)
    is_late = waiting.delay(number) - before > 0.3 * patience
    run.judge("a patient client", ((error(404, "draft") * 4, True), (0, b"")),
              (got, office.ended()), is_late)


def kept_alive(office):
    """Asks three times, and waits in the middle of two of the messages: below the patience each
    time, and longer than that in all."""
    question, answer, began = message("GET", "/drafts/1"), error(404, "draft"), time.monotonic()
    middle = len(question) // 2
    with office.connect() as client:
        got = asked(client, question, answer)
        for _ in range(2):
            client.sendall(question[:middle])
            time.sleep(18)
            got += asked(client, question[middle:], answer)
    return got, time.monotonic() - began > 30


def silent(office):
    """Asks nothing; what came, whether its connection ended after about 5 seconds, and the next
    one's reply."""
    question, answer, began = message("GET", "/drafts/1"), error(404, "draft"), time.monotonic()
    with office.connect() as client, office.connect() as after:
        came = rest(client)
        is_in_time = 4 < time.monotonic() - began < 15
        return came, is_in_time, asked(after, question, answer)


def default_patience(run):
    """Without `--patience` it is 30 seconds for each wait by itself, and 5 to begin a message."""
    answer, offices = error(404, "draft"), []
    for name, connections in ("kept", 1), ("silent", 2):
        database = run.folder / f"{name}.db"
        shutil.copy(run.database(SMALL), database)
        offices.append(Office(run.program, database, connections=connections))
    numbers, before = [office.process.pid for office in offices], waiting.delay()
    with concurrent.futures.ThreadPoolExecutor() as pool:
        got = [*pool.map(functools.partial(outcome, lambda client, office: client(office)),
                         (kept_alive, silent), offices)]
    is_late = waiting.delay(*numbers) - before > 3
    run.judge("a client that is kept alive past the default patience",
              ((answer * 3, True), (0, b"")), (got[0], offices[0].ended()), is_late)
    run.judge("a silent client at the default patience",
              ((b"", True, answer), (0, b"examoffice: connection fault 1\n")),
              (got[1], offices[1].ended()), is_late)


# ---- kills

Change = namedtuple("Change", "question status drafts")
STEPS = {(2, 0): (3, 1), (3, 1): (3, 0), (3, 0): (2, 0)}


def change(rng, drafts):
    """A change at random, of drafts that differ from the small solution in the place of exam 3."""
    number, after = rng.randint(1, 8), dict(drafts)
    if number not in drafts:
        after[number] = (2, 0)
        return Change(message("PUT", f"/drafts/{number}", SOLUTION), 201, after)
    if rng.random() < 0.2:
        del after[number]
        return Change(message("DELETE", f"/drafts/{number}"), 200, after)
    after[number] = STEPS[drafts[number]]
    return Change(message("POST", f"/drafts/{number}/exams/3/move", at(*after[number])), 200, after)


def one_reply(client):
    """A whole reply: its status and its body; where the connection ends before, an OSError."""
    head = b""
    while not head.endswith(b"\r\n\r\n"):
        byte = client.recv(1)
        if not byte:
            raise OSError("the connection ended")
        head += byte
    length = int(head.partition(b"Content-Length: ")[2].partition(b"\r\n")[0])
    body = received(client, length)
    if len(body) < length:
        raise OSError("the connection ended")
    return int(head.split(b" ")[1]), body


def kill_after(office, begin, seconds):
    """Kills the office some seconds after an event, for which it doesn't wait for ever."""
    begin.wait(SECONDS)
    time.sleep(seconds)
    office.process.kill()


def change_until_killed(office, rng, drafts, begin):
    """Makes changes until the office is gone, and sets the event when the first one is answered.
    Returns what is stored, what else may be, and how many answers came, and how many wrong ones."""
    asked_for, answered, wrong = drafts, 0, 0
    with contextlib.suppress(OSError):
        while True:
            with office.connect() as client:
                for _ in range(100):
                    step = change(rng, drafts)
                    asked_for = step.drafts
                    client.sendall(step.question)
                    wrong += one_reply(client)[0] != step.status
                    drafts = step.drafts
                    answered += 1
                    begin.set()
    return drafts, asked_for, answered, wrong


def drafts_of(office):
    """The drafts that the office has, with the place of exam 3."""
    found = {}
    with office.connect() as client:
        for number in range(1, 9):
            client.sendall(message("GET", f"/drafts/{number}"))
            status, body = one_reply(client)
            if status == 200:
                place_of = json.loads(body)["exams"][3]
                found[number] = (place_of["period"], place_of["room"])
    return found


# A hundred exams with a period each, a draft of them, and a batch that enrols a hundred candidates
# in each: every pair of exams shares all of them.
HUNDRED = "\n".join(["[Exams:100]", *["60"] * 100, "[Periods:100]",
                     *["01:01:2000, 09:00:00, 60, 0"] * 100, "[Rooms:1]", "100, 0",
                     "[PeriodHardConstraints]", "[RoomHardConstraints]",
                     "[InstitutionalWeightings]", "PERIODSPREAD,1", ""]).encode()
HUNDRED_PLACED = message("PUT", "/drafts/1", b"".join(b"%d, 0\n" % exam for exam in range(100)))
LONG_BATCH = [f"{student},{exam},add" for exam in range(100) for student in range(100)]
LONG_ANSWER = enrolled(1, 10_000, 0, 0)


def long_batch(run, kill_after=None):
    """Carries out the long batch, or kills the office meanwhile: how long it took."""
    database = run.database(HUNDRED)
    office = Office(run.program, database)
    killer = threading.Timer(kill_after or SECONDS, office.process.kill)
    with contextlib.suppress(OSError), office.connect() as client:
        asked(client, HUNDRED_PLACED, drafted(201, 0))
        killer.start()
        began = time.monotonic()
        asked(client, batch(1, *LONG_BATCH), LONG_ANSWER)
    took = time.monotonic() - began
    if not kill_after:
        killer.cancel()
    killer.join()
    office.killed()
    return database, took


def killed_amid_batch(run, count):
    """A kill amid a batch of 10,000 lines leaves all of it or nothing; sent again, it acts once."""
    rng, made = random.Random(29), 0
    _, took = long_batch(run)
    answers = [LONG_ANSWER, text(report(0, 0, 9_900, 0, 0, 0, 0, 9_900)),
               enrolled(2, 0, 1, 9_999)]
    for number in range(count):
        database, _ = long_batch(run, kill_after=rng.uniform(0.0, 1.5 * took))
        counted = waiting.run(["sqlite3", str(database), "SELECT count(*) FROM enrol"],
                              capture_output=True, timeout=SECONDS, check=True).stdout
        made += counted == b"10000\n"
        office = Office(run.program, database, connections=1)
        questions = [batch(1, *LONG_BATCH), PENALTY, batch(2, *LONG_BATCH[1:], "0,0,drop")]
        with office.connect() as client:
            came = [asked(client, *pair) for pair in zip(questions, answers)]
        run.judge(f"kill amid a batch {number}", (True, answers, (0, b"")),
                  (counted in (b"0\n", b"10000\n") or counted, came, office.ended()))
    print(f"serve: {made} of {count} batches were done before the kill")


def kills(run, count):
    """Each fourth kill may come before any change is answered. The others wait for an answer, so
    that they are amid changes on a slow machine too."""
    rng, database, drafts, made = random.Random(27), run.database(SMALL), {}, 0
    for number in range(count):
        office, begin = Office(run.program, database), threading.Event()
        if number % 4 == 3:
            begin.set()
        killer = threading.Thread(target=kill_after, args=(office, begin, rng.uniform(0.0, 0.25)))
        killer.start()
        stands, asked_for, answered, wrong = change_until_killed(office, rng, drafts, begin)
        begin.set()
        killer.join()
        office.killed()
        made += answered > 0
        office = Office(run.program, database)
        found = drafts_of(office)
        office.killed()
        run.judge(f"kill {number}", (True, 0), (found in (stands, asked_for) or
                                                (found, stands, asked_for), wrong))
        drafts = found
    run.judge("kills amid changes", True, made > count // 2 or made)


def tests_of(is_plain):
    """The tests that run side by side. Those that wait begin first, because they take longest."""
    waiting = [default_patience, patient_client, slow_clients]
    own = [stored_by_hand, adopt_after_republication, nights_are_kept, draft_survives_adopt,
           last_message, long_message, longest_body, cut_messages, hostile_messages,
           batches_are_kept, all_is_kept, rows_that_go,
           publication_is_told, short_log]
    others = [worked_examples, stock_curl, many_connections, failing_reader_and_writer,
              port_is_taken, other_addresses, locked_database, closed_streams, longest_batch,
              most_batches,
              most_pairs]
    tests = others if is_plain else [*waiting, *others, *own]
    return {test.__name__: test for test in tests}


def words():
    parser = argparse.ArgumentParser(description=__doc__)
    parser.add_argument("program", metavar="PROGRAM")
    parser.add_argument("--kills", type=int, default=20, help="kills at random moments (20)")
    parser.add_argument("--plain", action="store_true",
                        help="a program that has no limits of time and does not read on after its "
                             "last reply, as bench/office")
    return parser.parse_args()


def main():
    given = words()
    program = str(pathlib.Path(given.program).resolve())
    with tempfile.TemporaryDirectory() as folder:
        run = Run(program, folder)
        run.run_side_by_side(tests_of(given.plain),
                             functools.partial(Run.apart, program, folder, run.about))
        kills(run, given.kills)
        killed_amid_batch(run, given.kills // 2)
    sys.exit(run.end())


if __name__ == "__main__":
    main()
