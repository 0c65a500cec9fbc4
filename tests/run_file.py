#!/usr/bin/env python3
"""run_file.py PROGRAM [--flips N]: a damaged file of an office is refused, harmless or told.

Bits of a file and its log are turned, pages are exchanged or stale, logs are those of another time
or of another session (300 cases in all; N flips, a tenth as many pages, a twentieth as many logs).
A power loss, which leaves the sectors of the last transaction in any state, is no fault. Then files
that are moved, replaced or cut while they are served. What is neither refused nor told nor harmless
has to be something that OPERATING says has no second witness. A failing case is printed with what
was expected and what came, and the last line counts the cases.
"""
import argparse
import collections
import contextlib
import functools
import http.client
import os
import pathlib
import random
import re
import sqlite3
import subprocess
import sys
import tempfile

import waiting
from run_serve import Office, Run
from tools_path import TOP
from registry import history, log_frames
from registry.file_check import judge, witness_of
from registry.office import Office as Asked

SECONDS, SEED = 180, 2030
EXAMS, PERIODS, STUDENTS = 60, 40, 300
# What has no second witness: drafts, who owns which exam, and of batches their counts and those
# that the ledger didn't send.
UNSEEN = {"draft", "night_draft", "slot", "owner", "batch"}
TABLES = ("meta", "owner", "enrol", "draft", "slot", "placed", "seat", "share_student",
          "share_part", "batch", "night_draft", "night_share")


class World:
    """A published session with a ledger and a history, and its file at some moments."""

    def __init__(self, program, folder, seed=SEED, penalty=7):
        self.program, self.folder, self.chance = program, folder, random.Random(seed)
        self.made, self.database = folder / "made", folder / "office.db"
        folder.mkdir()
        self.write_tables(penalty)
        self.tool("session_from_csv", folder / "csv", self.made)
        subprocess.run([program, "load", "--db", self.database, self.made / "now/session.exam"],
                       check=True, stdout=subprocess.DEVNULL)
        self.moments = []
        self.office = Office(program, self.database)
        self.live()
        self.keep()
        self.office.killed()
        self.witness = witness_of(self.made)

    def write_tables(self, penalty):
        csv = self.folder / "csv"
        csv.mkdir()
        taken = [(student, exam) for student in range(STUDENTS)
                 for exam in self.chance.sample(range(EXAMS - PERIODS), 3)]
        for name, text in {
                "exams": "code,title,minutes\n" + "".join(
                    f"EX{exam},T,60\n" for exam in range(EXAMS)),
                "rooms": "name,building,capacity\nHall,B,500\nAula,B,500\n",
                "periods": "date,start,minutes\n" + "".join(
                    f"2027-05-{1 + number // 4:02},{9 + number % 4 * 2:02}:00,60\n"
                    for number in range(PERIODS)),
                "rules": f"rule,a,b,c\nTWOINAROW,{penalty}\n",
                "enrolments": "student,exam,name\n" + "".join(
                    f"s{student:03},EX{exam},Name\n" for student, exam in taken)}.items():
            (csv / f"{name}.csv").write_text(text)

    def tool(self, name, *words):
        subprocess.run([TOP / "tools" / name, *map(str, words)], check=True, capture_output=True,
                       timeout=SECONDS)

    def ask(self, method, path, body=None):
        client = http.client.HTTPConnection("127.0.0.1", self.office.port, timeout=SECONDS)
        client.request(method, path, body, {"X-Caller": "office", "Connection": "close"})
        reply = client.getresponse()
        text = reply.read().decode()
        assert reply.status < 300, (method, path, text)
        return text

    def live(self):
        """Drafts, lines of the registry, publications and others' batches."""
        address = f"http://127.0.0.1:{self.office.port}"
        for exam in range(PERIODS, EXAMS):
            self.ask("PUT", f"/exams/{exam}/owner", '{"dept":1}')
        self.keep()
        self.ask("PUT", "/drafts/1", "".join(
            f"{exam if exam < PERIODS else exam - 20}, {exam // PERIODS}\n"
            for exam in range(EXAMS)))
        self.ask("POST", "/drafts/1/publish")
        self.keep()
        for number in range(3):
            (self.folder / "lines.csv").write_text("student,exam,action\n" + "".join(
                f"s{student:03},EX{exam},add\n" for student, exam in (
                    (self.chance.randrange(STUDENTS), PERIODS + number) for _ in range(4))))
            self.tool("changes_from_csv", self.folder / "lines.csv", self.made, "--many",
                      "--office", address)
            self.ask("PUT", f"/batches/{number}", f"student,exam,action\n{number},59,add\n")
            self.ask("POST", "/drafts/1/exams/58/move", '{"period":%d,"room":0}' % number)
            self.keep()
        self.ask("POST", "/drafts/1/publish")
        history.look(history.History(self.made), Asked(address), None, "office", True, 200)
        for number in range(6):
            self.ask("POST", "/drafts/1/exams/58/move", '{"period":%d,"room":1}' % (number + 20))

    def keep(self):
        """Keeps the bytes of the file and its log as they are now."""
        self.moments.append(tuple(log_frames.bytes_of(self.folder / f"office.db{end}")
                                  for end in ("", "-wal")))


def content(path):
    """The rows of each table; opening the file applies its log."""
    with contextlib.closing(sqlite3.connect(path)) as db:
        return {table: sorted(db.execute(f"SELECT * FROM {table}"), key=repr) for table in TABLES}


def opens(program, path):
    """Whether the program takes a file."""
    ended = waiting.run([program, "export", "--db", path], timeout=SECONDS, capture_output=True,
                        stdin=subprocess.DEVNULL)
    return ended.returncode == 0 or ended.stderr == b"examoffice: no publication\n"


def outcome(world, room, file, log):
    """What becomes of a file with a log: `refused`, `told`, `harmless`, or the tables that differ
    without a word."""
    if log_frames.fault_in(log):
        return "refused"
    path = room / "case.db"
    for end, content_of in (("", file), ("-wal", log)):
        pathlib.Path(f"{path}{end}").write_bytes(content_of)
    if log_frames.faults_of_log(path):
        return "refused"
    try:
        found = content(path)
        differing = {table for table in TABLES if found[table] != world.rows[table]}
        if not differing:
            return "harmless"
        with contextlib.closing(sqlite3.connect(path)) as db:
            look = judge(db, world.witness)
    except (sqlite3.DatabaseError, ValueError, TypeError):
        look = None
    finally:
        pathlib.Path(f"{path}-wal").unlink(missing_ok=True)
    # The log is in the file by now.
    if look is None:
        for end, content_of in (("", file), ("-wal", log)):
            pathlib.Path(f"{path}{end}").write_bytes(content_of)
    if look and look.faults:
        return "refused"
    if not opens(world.program, path):
        return "refused"
    pathlib.Path(f"{path}-wal").unlink(missing_ok=True)
    if look and look.warnings:
        return "told"
    return "unseen" if look and differing <= UNSEEN else f"silent: {sorted(differing)}" if look \
        else "silent: SQLite finds it damaged, and the program takes it"


def flipped(chance, data, end=None):
    place = chance.randrange(8 * (end or len(data)))
    data = bytearray(data)
    data[place // 8] ^= 1 << place % 8
    return bytes(data)


def checkpointed(world):
    """The whole office in its file, with an empty log."""
    with contextlib.closing(sqlite3.connect(world.folder / "whole.db")) as db:
        for end, data in zip(("", "-wal"), world.moments[-1]):
            (world.folder / f"part.db{end}").write_bytes(data)
        with contextlib.closing(sqlite3.connect(world.folder / "part.db")) as source:
            source.backup(db)
    return (world.folder / "whole.db").read_bytes()


def last_transaction(log):
    """Where the last transaction of a log begins, and where its last one ends."""
    size = log_frames.FRAME + int.from_bytes(log[8:12], "big")
    frames = [frame for frame in log_frames.frames_in(log) if frame.salts == log[16:24]]
    ends = [number for number, frame in enumerate(frames) if frame.is_commit and frame.is_good]
    before = ends[-2] + 1 if ends[1:] else 0
    return log_frames.HEADER + before * size, log_frames.HEADER + (ends[-1] + 1) * size


def flips(run, count):
    """Bits of the file, of the session's text and the batches, and of the log are turned."""
    with world_of(run) as (world, room, chance, seen):
        file, log = world.moments[-1]
        whole = checkpointed(world)
        text = whole.index(b"[Exams:")
        begin, end = last_transaction(log)
        for number in range(count):
            if number % 3 == 0:
                came = outcome(world, room, flipped(chance, whole), b"")
            elif number % 3 == 1:
                place = bytearray(flipped(chance, whole[text:text + 2_000]))
                came = outcome(world, room, whole[:text] + bytes(place) + whole[text + 2_000:], b"")
            else:
                other = flipped(chance, log, end)
                came = outcome(world, room, file, other)
                if came.startswith(("silent", "unseen")) and is_in_last(log, other, begin):
                    came = "the log's last transaction"
            seen[came] += 1
            run.judge(f"flip {number}: {came}", False, came.startswith("silent"))


def is_in_last(log, other, begin):
    """Whether two logs differ within the last transaction, or in the frame before it, whose end
    nobody can tell from it."""
    size = log_frames.FRAME + int.from_bytes(log[8:12], "big")
    place = next(number for number, (one, two) in enumerate(zip(log, other)) if one != two)
    return place >= begin - size


def pages(run, count):
    """Pages are those of an earlier time, of another place, or empty."""
    with world_of(run) as (world, room, chance, seen):
        whole, size = checkpointed(world), 4096
        earlier = [bytes(it) for it, _ in world.moments]
        for number in range(count):
            place = chance.randrange(len(whole) // size) * size
            page = chance.choice((
                bytes(size), whole[(at := chance.randrange(len(whole) // size) * size):at + size],
                chance.choice(earlier)[place:place + size] or bytes(size)))
            came = outcome(world, room, whole[:place] + page + whole[place + size:], b"")
            seen[came] += 1
            run.judge(f"page {number} at {place // size}: {came}", False, came.startswith("silent"))


def foreign_logs(run, count):
    """The log of another time or of another session is beside the file."""
    with world_of(run) as (world, room, chance, seen):
        other = World(run.program, run.folder / "other", seed=7, penalty=8)
        for number in range(count):
            file = chance.choice(world.moments)[0]
            log = chance.choice([*world.moments, *other.moments])[1]
            came = outcome(world, room, file, log)
            seen[came] += 1
            run.judge(f"log {number}: {came}", False, came.startswith("silent"))


def power_losses(run, count):
    """A power loss leaves the sectors of the last transaction in any state, and is no fault."""
    with world_of(run) as (world, _, chance, seen):
        log = world.moments[-1][1]
        size = log_frames.FRAME + int.from_bytes(log[8:12], "big")
        ends = [log_frames.HEADER + (number + 1) * size for number, frame in enumerate(
            log_frames.frames_in(log)) if frame.is_good and frame.is_commit]
        olds = [bytes(len(log)), *(one[1] for one in world.moments)]
        for number in range(count):
            last = chance.randrange(len(ends))
            begin, end = ([0, *ends][last], ends[last])
            old = chance.choice(olds)[:len(log)].ljust(len(log), b"\0")
            left = bytearray(log[:begin] + old[begin:])
            for sector in range(begin // 512 * 512, end, 512):
                if chance.random() < 0.7:
                    left[max(sector, begin):min(sector + 512, end)] = log[
                        max(sector, begin):min(sector + 512, end)]
            if old[16:24] == log[16:24]:
                # It has later transactions of the same log, which weren't begun.
                left[end:] = bytes(len(log) - end)
                for place in range(begin, end):
                    left[place] = left[place] if left[place] == log[place] else 0
            came = log_frames.fault_in(bytes(left))
            seen["a fault" if came else "no fault"] += 1
            run.judge(f"power loss {number}", None, came)


@contextlib.contextmanager
def world_of(run):
    """A session, a folder for cases, a source of chance, and what was seen, which is printed."""
    world = World(run.program, run.folder / "world")
    room = run.folder / "room"
    room.mkdir()
    for end, data in zip(("", "-wal"), world.moments[-1]):
        (room / f"first.db{end}").write_bytes(data)
    world.rows = content(room / "first.db")
    seen = collections.Counter()
    yield world, room, random.Random(SEED), seen
    print(f"{run.folder.name}: {dict(sorted(seen.items()))}")


def by_words(run):
    """What the tool says of a file, and that it says nothing of a good one."""
    world = World(run.program, run.folder / "world")
    file, log = world.moments[-1]

    def looked(*more, data=(file, log), env=None):
        for end, content_of in zip(("", "-wal"), data):
            pathlib.Path(f"{world.database}{end}").write_bytes(content_of)
        ended = subprocess.run(
            [TOP / "tools" / "check_file", world.database, "--ledger", world.made, *more],
            capture_output=True, text=True, timeout=SECONDS, env={**os.environ, **(env or {})})
        return ended.returncode, ended.stderr.replace(f"{world.database}", "DB")

    told = world.folder / "told"
    run.judge("as it is", (0, ""), looked("--told", told))
    empty = ("check_file: DB is empty, and DB-wal has changes of it: opened so, all of them would "
             "be thrown away\n")
    run.judge("an empty file beside a log", (1, empty), looked(data=(b"", log)))
    damaged = bytearray(log)
    damaged[32 + 24 + 100] ^= 1
    words = (r"check_file: DB-wal: its frame 1 is damaged, and changes that were answered follow in"
             r" frame \d+ and later: opened so, the office would be an earlier one\n")
    status, said = looked("--told", told, data=(file, bytes(damaged)))
    run.judge("a damaged log", (1, True), (status, re.fullmatch(words, said)
                                           is not None))
    run.judge("it is told", said.removeprefix("check_file: ").replace("DB", f"{world.database}"),
              told.read_text())
    run.judge("it may be served all the same", 3, looked(
        data=(file, bytes(damaged)), env={"EXAMOFFICE_CHECK": "told"})[0])
    whole = checkpointed(world)
    run.judge("a minute that turned", (1, (
        "check_file: the office's session isn't that of its ledger: Exams:60: '60' in the ledger, "
        "'61' in the office\n")), looked(data=(one_later(whole), b"")))
    with contextlib.closing(sqlite3.connect(world.folder / "whole.db")) as db:
        db.execute("PRAGMA ignore_check_constraints = ON")
        db.execute("PRAGMA writable_schema = ON")
        db.execute("UPDATE sqlite_master SET sql = replace(sql, ' STRICT', '')")
        db.commit()
    with contextlib.closing(sqlite3.connect(world.folder / "whole.db")) as db:
        db.execute("UPDATE meta SET instance = CAST(x'41ce41' AS TEXT)")
        db.commit()
    status, said = looked(data=((world.folder / "whole.db").read_bytes(), b""))
    run.judge("a session that is no text, which the program refuses", (3, True),
              (status, "can't be read" in said))
    status, said = looked(data=world.moments[1])
    run.judge("an earlier office", (3, "check_file: the office lacks 5 batches of its ledger, as "
                                    "one that was restored; the next tool sends them again\n"),
              (status, said))
    run.judge("then nothing is told", (0, "", False), (*looked("--told", told), told.exists()))


def one_later(whole):
    """A file in which the first exam has a minute more."""
    return re.sub(rb"(\[Exams:60\]\r?\n)60", rb"\g<1>61", whole, count=1)


def watched(run):
    """A file that is moved, replaced or cut while it is served is told; also its log."""
    for case, act, expected in (
            ("as it is", lambda path, log: None, None),
            ("moved", lambda path, log: path.rename(f"{path}.old"), "DB was moved or removed"),
            ("removed", lambda path, log: path.unlink(), "DB was moved or removed"),
            ("replaced", lambda path, log: replaced(path), "DB was replaced by another file"),
            ("cut", lambda path, log: os.truncate(path, 4096), "DB was cut"),
            ("without its log", lambda path, log: log.unlink(), "DB-wal was moved or removed"),
            ("with another log", lambda path, log: replaced(log),
             "DB-wal was replaced by another log")):
        path = run.folder / case / "term.db"
        path.parent.mkdir()
        subprocess.run([run.program, "load", "--db", path, TOP / "examples" / "small.exam"],
                       check=True, stdout=subprocess.DEVNULL)
        office = Office(run.program, path)
        act(path, pathlib.Path(f"{path}-wal"))
        ended = subprocess.run([TOP / "tools" / "check_file", "--served", path], timeout=SECONDS,
                               capture_output=True, text=True)
        office.killed()
        said = ended.stderr.replace(f"{path}", "DB").partition(" while the office")[0]
        run.judge(f"a file {case}", (1, f"check_file: {expected}") if expected else (0, ""),
                  (ended.returncode, said))
        ended = subprocess.run([TOP / "tools" / "check_file", "--served", path], timeout=SECONDS)
        run.judge(f"a file {case}, which nobody serves", 0, ended.returncode)


def replaced(path):
    data = path.read_bytes()
    path.unlink()
    # Something else has its number.
    (path.parent / "other").touch()
    path.write_bytes(data)


def apart(folder, program, name):
    return Run.apart(program, folder, "file", name)


def main():
    words = argparse.ArgumentParser(description=__doc__.partition("\n")[0])
    words.add_argument("program", type=pathlib.Path)
    words.add_argument("--flips", type=int, default=240)
    given = words.parse_args()
    tests = {
        "flips": functools.partial(flips, count=given.flips),
        "pages": functools.partial(pages, count=given.flips // 10),
        "logs": functools.partial(foreign_logs, count=given.flips // 20),
        "power": functools.partial(power_losses, count=given.flips // 10),
        "words": by_words, "watched": watched}
    with tempfile.TemporaryDirectory() as folder:
        run = Run(given.program.resolve(), folder, "file")
        run.run_side_by_side(tests, functools.partial(apart, folder, run.program))
    return run.end()


if __name__ == "__main__":
    sys.exit(main())
