#!/usr/bin/env python3
"""run_scripts.py PROGRAM [--minutes M] [--seed S]: random scripts of whole offices, compared.

A script is a session and the messages of its clients: loads, drafts, edits, batches, publications
and questions of all callers, with restarts between them. The program and the plain office of
bench/office get it, each with a file of its own, which they exchange at some restarts; their
replies have to be the same bytes, and so the timetables and sessions that they export. A script
that fails is made smaller and kept as failing-SEED.json, which `--script` runs again.
"""
import argparse
import base64
import collections
import concurrent.futures
import json
import pathlib
import random
import shutil
import subprocess
import sys
import tempfile
import time

from cases import Cases
from run_serve import Office, told
from serve_cases import batch_text, message

TOP = pathlib.Path(__file__).resolve().parent.parent
SOURCE = TOP / "bench" / "office" / "office.cpp"
PLAIN = TOP / "bench" / "build" / "plain_office"
HEADER = pathlib.Path("/usr/include/sqlite3.h")
FIRST_SEED = 2007
AT_ONCE = 2
# How long a failing script may be made smaller.
SECONDS_TO_SHRINK = 60
# What is done between two connections: nothing, a new start, or one with the other's file.
BETWEEN = ["", "", "restart", "exchange"]

# ---- Scripts

# Of a session: how many exams, periods and rooms, and the students of each exam.
Size = collections.namedtuple("Size", "exams periods rooms students")


def session(rng):
    """The text of a session, and its size. Rooms are large enough and periods many, so that most
    timetables of `solution` break no rule."""
    size = Size(rng.randint(1, 9), rng.randint(1, 9), rng.randint(1, 4),
                [rng.sample(range(1, 14), rng.choice((0, 1, 1, 2, 3))) for _ in range(9)])
    lines = [f"[Exams:{size.exams}]"]
    lines += [", ".join(map(str, [rng.choice((30, 60, 60, 90)), *size.students[exam]]))
              for exam in range(size.exams)]
    lines.append(f"[Periods:{size.periods}]")
    lines += [f"{4 + period // 3:02}:05:2005, {9 + 3 * (period % 3):02}:00:00, "
              f"{rng.choice((60, 90, 120, 120))}, {rng.choice((0, 0, 5, 20))}"
              for period in range(size.periods)]
    lines.append(f"[Rooms:{size.rooms}]")
    lines += [f"{rng.choice((2, 5, 30, 30))}, {rng.choice((0, 0, 7))}" for _ in range(size.rooms)]
    lines.append("[PeriodHardConstraints]")
    lines += [f"{rng.randrange(size.exams)}, {rule}, {rng.randrange(size.exams)}"
              for rule in ("AFTER", "EXAM_COINCIDENCE", "EXCLUSION") if rng.random() < 0.07]
    lines.append("[RoomHardConstraints]")
    lines += [f"{rng.randrange(size.exams)}, ROOM_EXCLUSIVE"] if rng.random() < 0.2 else []
    lines.append("[InstitutionalWeightings]")
    lines += [f"{name},{rng.randint(0, 9)}" for name in (
        "TWOINAROW", "TWOINADAY", "PERIODSPREAD", "NONMIXEDDURATIONS", "OVERNIGHT")
        if rng.random() < 0.7]
    lines += [f"FRONTLOAD,{rng.randint(0, 4)},{rng.randint(0, 4)},{rng.randint(0, 9)}"]
    return spoiled(rng, "\n".join([*lines, ""]).encode(), 0.05), size


def spoiled(rng, text, probability):
    """The text, or with this probability one with a fault somewhere."""
    if not text or rng.random() >= probability:
        return text
    at = rng.randrange(len(text))
    return text[:at] + rng.choice((b"", b"x", b",", b"\n", b"-1",
                                   b"\xff")) + text[at + rng.randint(0, 2):]


def solution(rng, size):
    """A timetable in which, mostly, no student has two exams at once."""
    places, busy = [], collections.defaultdict(set)
    for exam in range(size.exams):
        period = rng.randrange(size.periods)
        for _ in range(20):
            if not busy[period] & set(size.students[exam]):
                break
            period = rng.randrange(size.periods)
        busy[period] |= set(size.students[exam])
        places.append((period, rng.randrange(size.rooms)))
    lines = [f"{period}, {room}\n" for period, room in places]
    return spoiled(rng, "".join(lines).encode(), 0.05)


def number(rng, count):
    """Mostly a number below this; else one that is too large, or spelled otherwise."""
    return rng.choices((str(rng.randrange(max(count, 1))), str(count), "007", "1000000000", "x"),
                       (90, 5, 2, 1, 2))[0]


def draft_number(rng):
    """Mostly that of a draft that there is."""
    return rng.choices(("1", "2", "3", "8", "9", "01", "x"), (50, 30, 14, 2, 2, 1, 1))[0]


def place_body(rng, size):
    """A place in JSON, in one of the ways to write it, or something that is none."""
    period, room = number(rng, size.periods), number(rng, size.rooms)
    return rng.choices((
        f'{{"period":{period},"room":{room}}}', f' {{ "room" : {room} , "period" : {period} }} ',
        f'{{"period":9,"room":{room},"period":{period}}}', f'{{"period":{period}}}',
        f'{{"period":{period},"room":{room}.0}}', f'{{"period":{period},"room":{room},"more":[]}}',
        "", "[1,2]"), (85, 5, 3, 1, 2, 2, 1, 1))[0].encode()


def edit(rng, size):
    draft, exam = draft_number(rng), number(rng, size.exams)
    kind = rng.choice(("place", "move", "move", "clear", "swap"))
    caller = rng.choices(("office", "dept:1", "dept:2"), (70, 20, 10))[0]
    if kind == "clear":
        return message("DELETE", f"/drafts/{draft}/exams/{exam}", caller=caller)
    if kind == "swap":
        return message("POST", f"/drafts/{draft}/swap/{exam}/{number(rng, size.exams)}",
                       caller=caller)
    return message("POST", f"/drafts/{draft}/exams/{exam}/{kind}", place_body(rng, size), caller)


def batch(rng, size, sent):
    """A batch of late changes; sometimes one that was sent before, or other lines under its
    number."""
    lines = [f"{rng.randint(1, 14)},{number(rng, size.exams)},{rng.choice(('add', 'add', 'drop'))}"
             for _ in range(rng.randint(0, 5))]
    name = number(rng, 8)
    text = spoiled(rng, batch_text(*lines), 0.1)
    if name in sent and rng.random() < 0.6:
        text = sent[name]
    sent.setdefault(name, text)
    return message("PUT", f"/batches/{name}", text)


QUESTIONS = ["/instance", "/publication", "/publication/penalty", "/publication/rooms",
             "/publication/seats", "/drafts/{d}", "/drafts/{d}/penalty", "/drafts/{d}/violations",
             "/drafts/{d}/exams/{e}/places",
             "/me", "/me/exam/{e}", "/me/penalty", "/nothing", "/drafts", "/me/"]
CALLERS = {"office": 75, "cand:{s}": 8, "dept:1": 8, "cand:0": 2, "dept:1000": 2, "Office": 3,
           None: 2}


def question(rng, size):
    path = rng.choice(QUESTIONS).format(d=draft_number(rng), e=number(rng, size.exams))
    caller = rng.choices(list(CALLERS), list(CALLERS.values()))[0]
    if path.startswith("/me") and rng.random() < 0.9:
        caller = "cand:{s}"
    caller = caller and caller.format(s=rng.randint(1, 14))
    return message(rng.choices(("GET", "HEAD", "POST", "PATCH", "get"), (90, 5, 2, 2, 1))[0], path,
                   caller=caller)


def owner(rng, size):
    body = rng.choices((b'{"dept":1}', b'{"dept":2}', b'{"dept":0}', b'{"dept":1000}', b"{}"),
                       (55, 25, 15, 3, 2))[0]
    return message("PUT", f"/exams/{number(rng, size.exams)}/owner", body)


# What a client sends, and how often.
SENT = {
    "edit": 35, "question": 30, "candidate": 8, "draft": 6, "drop": 1, "publish": 8, "batch": 8,
    "owner": 4, "load": 1,
}


def sent_message(rng, text, size, sent):
    kind = rng.choices(list(SENT), list(SENT.values()))[0]
    draft = draft_number(rng)
    return {
        "edit": lambda: edit(rng, size), "question": lambda: question(rng, size),
        "candidate": lambda: message("GET", "/me", caller=f"cand:{rng.randint(1, 14)}"),
        "draft": lambda: message("PUT", f"/drafts/{draft}", solution(rng, size)
                                 if rng.random() < 0.9 else b""),
        "drop": lambda: message("DELETE", f"/drafts/{draft}"),
        "publish": lambda: message("POST", f"/drafts/{draft}/publish"),
        "batch": lambda: batch(rng, size, sent), "owner": lambda: owner(rng, size),
        "load": lambda: message("PUT", "/instance", text)}[kind]()


def with_violations(rng, messages):
    """The messages, with questions for a draft's violations between them, some twice in a row: the
    office keeps the violations until the draft changes."""
    for one in messages:
        yield one
        if rng.random() < 0.3:
            path = f"/drafts/{rng.choice('1123')}/violations"
            yield from [message("GET", path)] * rng.randint(1, 2)


def script(seed):
    """The connections of a script: what is done before each, and the messages over it."""
    rng, sent = random.Random(seed), {}
    text, size = session(rng)
    first = [message("PUT", "/instance", text)] if rng.random() < 0.95 else []
    first += [message("PUT", f"/drafts/{draft}", solution(rng, size)) for draft in (1, 2)]
    first += [owner(rng, size) for _ in range(size.exams)]
    connections = []
    for index in range(rng.randint(2, 7)):
        messages = [sent_message(rng, text, size, sent) for _ in range(rng.randint(1, 25))]
        messages = [*(first if not index else []), *with_violations(rng, messages)]
        connections.append((rng.choice(BETWEEN) if index else "", messages))
    return connections


# ---- Comparing

class Side:
    """One of the two programs with its file, and what it replied."""

    def __init__(self, program, path):
        self.program, self.path, self.office, self.said = program, path, None, []

    def ask(self, messages):
        if not self.office:
            try:
                self.office = Office(self.program, self.path)
            except OSError:
                self.said.append(b"it does not start")
                return
        with self.office.connect() as client:
            came = told(client, b"".join(messages))
        self.said.append(came if isinstance(came, bytes) else f"{type(came).__name__}".encode())

    def stop(self):
        if self.office:
            self.office.killed()
            self.office = None

    def export(self):
        done = subprocess.run([self.program, "export", "--db", str(self.path)], check=False,
                              stdin=subprocess.DEVNULL, capture_output=True)
        return done.returncode, done.stdout


def exchange(one, other):
    """Each program gets the other's file, as it is on the disk after a kill: with its log."""
    for end in ("", "-wal", "-shm"):
        mine, theirs = (side.path.with_name(side.path.name + end) for side in (one, other))
        kept = mine.with_name("kept")
        for old, new in ((mine, kept), (theirs, mine), (kept, theirs)):
            if old.exists():
                shutil.move(old, new)


def difference(programs, connections):
    """The first place at which the two differ in a script, as a text; None if there is none."""
    with tempfile.TemporaryDirectory() as folder:
        sides = [Side(program, pathlib.Path(folder) / f"{name}.db")
                 for name, program in zip(("ours", "plain"), programs)]
        try:
            for index, (between, messages) in enumerate(connections):
                if between:
                    for side in sides:
                        side.stop()
                    if between == "exchange":
                        exchange(*sides)
                for side in sides:
                    side.ask(messages)
                ours, plain = (side.said[-1] for side in sides)
                if ours != plain:
                    return f"connection {index}: {shown_difference(ours, plain)}"
            for side in sides:
                side.stop()
            ours, plain = (side.export() for side in sides)
            return None if ours == plain else f"export: {ours!r:.300} and {plain!r:.300}"
        finally:
            for side in sides:
                side.stop()


def shown_difference(ours, plain):
    at = next((n for n, (a, b) in enumerate(zip(ours, plain)) if a != b),
              min(len(ours), len(plain)))
    begin = max(ours.rfind(b"HTTP/1.1", 0, at + 8), 0)
    return f"{ours[begin:begin + 400]!r} and {plain[begin:begin + 400]!r}"


def smaller(programs, connections):
    """A script that differs too, with as few connections and messages as are found in some time."""
    end = time.monotonic() + SECONDS_TO_SHRINK
    flat = [(index, between, text) for index, (between, messages) in enumerate(connections)
            for text in messages]

    def joined(steps):
        made = collections.OrderedDict()
        for index, between, text in steps:
            made.setdefault(index, (between, []))[1].append(text)
        return list(made.values())

    size = len(flat) // 2
    while size and time.monotonic() < end:
        for at in range(0, len(flat), size):
            fewer = flat[:at] + flat[at + size:]
            if fewer and time.monotonic() < end and difference(programs, joined(fewer)):
                flat = fewer
                break
        else:
            size //= 2
    return joined(flat)


def written(connections):
    return json.dumps([[between, [base64.b64encode(text).decode() for text in messages]]
                       for between, messages in connections], indent=1)


def read(path):
    return [(between, [base64.b64decode(text) for text in messages])
            for between, messages in json.loads(pathlib.Path(path).read_text())]


def build():
    """Builds the plain office, unless it is newer than its source."""
    if not PLAIN.exists() or PLAIN.stat().st_mtime < SOURCE.stat().st_mtime:
        PLAIN.parent.mkdir(parents=True, exist_ok=True)
        subprocess.run(["g++", "-std=c++17", "-O2", "-o", PLAIN, SOURCE, "-lsqlite3"], check=True)


def compared(programs, seeds, end):
    """Compares scripts until a moment, or to the first that fails: the numbers of their messages,
    and what differs."""
    counts, faults = [], []
    for seed in seeds:
        if time.monotonic() > end:
            break
        connections = script(seed)
        found = difference(programs, connections)
        counts.append(sum(len(messages) for _, messages in connections))
        if found:
            path = pathlib.Path(f"failing-{seed}.json").resolve()
            path.write_text(written(smaller(programs, connections)))
            faults.append(f"seed {seed}: {found}; kept as {path}")
            break
    return counts, faults


def main():
    words = argparse.ArgumentParser(description=__doc__.splitlines()[0])
    words.add_argument("program")
    words.add_argument("--minutes", type=float, default=1.0)
    words.add_argument("--seed", type=int, default=FIRST_SEED, help="of the first script")
    words.add_argument("--script", help="compares only the script of this file")
    given = words.parse_args()
    if not HEADER.exists():
        print("scripts: left out without libsqlite3-dev")
        return 0
    build()
    programs = [pathlib.Path(given.program).resolve(), PLAIN]
    judged = Cases("scripts")
    if given.script:
        judged.judge(given.script, None, difference(programs, read(given.script)))
        return judged.end("scripts")
    end = time.monotonic() + 60 * given.minutes
    with concurrent.futures.ProcessPoolExecutor(AT_ONCE) as pool:
        lanes = [range(given.seed + lane, given.seed + 10 ** 9, AT_ONCE) for lane in range(AT_ONCE)]
        messages = 0
        for counts, faults in pool.map(compared, [programs] * AT_ONCE, lanes, [end] * AT_ONCE):
            judged.add(len(counts), faults)
            messages += sum(counts)
    print(f"scripts: {messages} messages, from seed {given.seed} on")
    return judged.end("scripts")


if __name__ == "__main__":
    sys.exit(main())
