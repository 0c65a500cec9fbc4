#!/usr/bin/env python3
"""run_isolation.py PROGRAM: a candidate's reply depends only on their view.

Each round makes two offices at random that agree on one candidate's view and on little else: exams,
rooms, rules, other candidates and places differ. The candidate sends the same requests to both, and
the same batches change their enrolments, between requests of others that don't concern them and
that differ too. Each reply is compared with the text of the view, worked out here, byte for byte.
Then, in half of the rounds after another publication, the shares that sqlite3 finds are added up
and compared with the penalty that the program's `check` prints for the exported timetable with the
published enrolments. A failing case is printed with what was expected and what came, and the last
line counts the cases.
"""
import argparse
import functools
import pathlib
import random
import subprocess
import sys
import tempfile
import time
from collections import namedtuple

import run_serve
import waiting
from serve_cases import (
    asked_by, at, cost, error, forbidden, me, message, publish, reply, shown_exam)

SECONDS = 60
# How many rounds run side by side.
AT_ONCE = 4
# Two days of four periods each, in which every exam fits.
PERIODS = [(f"{day}:04:2005", f"{hour:02}:15:00") for day in (14, 15) for hour in (8, 11, 14, 17)]
# What two offices share: the candidate, their exams, the places of these and of those that they may
# change to, the weights, and the penalties of the periods.
Shared = namedtuple("Shared", "candidate exams places weights penalties")
# An office: its exams with their students, the place of each, its rooms, and its text.
Made = namedtuple("Made", "exams places rooms text")


def shared_at_random(rng):
    exams = rng.sample(range(8), rng.randint(2, 6))
    places = zip(rng.sample(range(len(PERIODS)), len(exams)), rng.choices(range(3), k=len(exams)))
    own = set(exams[:rng.randint(1, len(exams))])
    weights = [rng.randint(0, 9) for _ in range(2)] + [rng.randint(0, 7), rng.randint(0, 20),
                                                       rng.choice([0, rng.randint(1, 9)])]
    return Shared(rng.choice([0, 5, 40, 999_999_999]), own, dict(zip(exams, places)), weights,
                  [rng.choice([0, 0, rng.randint(1, 50)]) for _ in PERIODS])


def office_at_random(rng, shared):
    """An office in which the candidate has the shared exams and places; the rest is at random."""
    count, students = rng.randint(8, 14), rng.sample(range(1, 80), rng.randint(3, 9))
    students = [student for student in students if student != shared.candidate]
    exams = {exam: {shared.candidate} if exam in shared.exams else set() for exam in range(count)}
    places = {exam: shared.places.get(exam) or (rng.randrange(len(PERIODS)), rng.randrange(3))
              for exam in range(count)}
    for student in students:
        taken = set()
        for exam in rng.sample(range(count), rng.randint(0, 5)):
            if places[exam][0] not in taken:
                taken.add(places[exam][0])
                exams[exam].add(student)
    rooms = [(rng.randint(60, 200), rng.choice([0, rng.randint(1, 30)]))
             for _ in range(rng.randint(3, 5))]
    return Made(exams, places, rooms, instance(rng, shared, exams, places, rooms))


def instance(rng, shared, exams, places, rooms):
    """The text: its rules are some that the places keep."""
    row, day, spread, mixed, night = shared.weights
    first, second = rng.sample(range(len(exams)), 2)
    alone = [exam for exam in exams if list(places.values()).count(places[exam]) == 1]
    lines = [f"[Exams:{len(exams)}]"]
    lines += [", ".join(map(str, [rng.choice([60, 90, 120]), *sorted(students)]))
              for students in exams.values()]
    lines += [f"[Periods:{len(PERIODS)}]"]
    lines += [f"{date}, {start}, 120, {penalty}"
              for (date, start), penalty in zip(PERIODS, shared.penalties)]
    lines += [f"[Rooms:{len(rooms)}]", *(f"{size}, {penalty}" for size, penalty in rooms)]
    lines += ["[PeriodHardConstraints]"]
    lines += [f"{first}, AFTER, {second}"] if places[first][0] > places[second][0] else []
    lines += ["[RoomHardConstraints]", *(f"{exam}, ROOM_EXCLUSIVE" for exam in alone[:2])]
    lines += ["[InstitutionalWeightings]", f"TWOINAROW,{row}", f"TWOINADAY,{day}",
              f"PERIODSPREAD,{spread}", f"NONMIXEDDURATIONS,{mixed}", "FRONTLOAD,2,3,5"]
    lines += [f"OVERNIGHT,{night}", ""] if night else [""]
    return "\n".join(lines).encode()


def agreeing_at_random(rng):
    """Two offices in which the candidate has the same seats."""
    shared = shared_at_random(rng)
    one = office_at_random(rng, shared)
    while True:
        other = office_at_random(rng, shared)
        if seats(one, shared.candidate) == seats(other, shared.candidate):
            return shared, one, other


def solution(office):
    return "".join(f"{period}, {room}\n" for period, room in office.places.values()).encode()


# ---- what the candidate sees

def seats(office, candidate):
    """The candidate's seats: one more than the earlier pairs in the same room and period."""
    pairs = sorted((exam, student) for exam, students in office.exams.items()
                   for student in students)
    return {exam: 1 + sum(office.places[other] == office.places[exam]
                          for other, _ in pairs[:pairs.index((exam, candidate))])
            for exam, students in office.exams.items() if candidate in students}


def personal(shared):
    """The candidate's cost in a row, in a day, by spread and over night, summed over all pairs of
    their published exams. The two days are consecutive."""
    row, day, spread, _, night = shared.weights
    periods, sums = sorted(shared.places[exam][0] for exam in shared.exams), [0, 0, 0, 0]
    for index, first in enumerate(periods):
        for second in periods[index + 1:]:
            gap, same = second - first, PERIODS[first][0] == PERIODS[second][0]
            sums[0] += row * (same and gap == 1)
            sums[1] += day * (same and gap >= 2)
            sums[2] += 1 <= gap <= spread
            sums[3] += night * (not same and gap == 1)
    return sums


def her_exam(exam, office, seat, enrolled):
    """One of the candidate's exams: its published place in this office, if it has one."""
    period, room = office.places[exam]
    date, start = PERIODS[period]
    day, month, year = date.split(":")
    state = "pending" if seat is None else "seated" if enrolled else "withdrawn"
    return shown_exam(exam, f"{year}-{month}-{day}", start, period, room, seat, state)


class Candidate:
    """The candidate, as both offices store them: their seats, and their enrolments now."""

    def __init__(self, shared, office):
        self.shared, self.seats = shared, seats(office, shared.candidate)
        self.office, self.enrolled = office, set(shared.exams)

    def texts(self):
        exams = sorted(self.enrolled | set(self.seats))
        return {exam: her_exam(exam, self.office, self.seats.get(exam), exam in self.enrolled)
                for exam in exams}

    def exchange(self, rng):
        """A random question of the candidate, and the reply by their view."""
        number, texts = self.shared.candidate, self.texts()
        exam = rng.choice([*texts, rng.randrange(20)])
        return rng.choice([
            (asked_by(number), me(number, sum(personal(self.shared)), *texts.values())),
            (asked_by(number, f"/exam/{exam}"),
             reply(200, texts[exam]) if exam in texts else error(404, "exam")),
            (asked_by(number, "/penalty"), cost(*personal(self.shared))),
            (message("GET", rng.choice(["/publication", "/publication/seats", "/drafts/1",
                                        "/nowhere"]),
                     caller=f"cand:{number}"), forbidden("P1"))])


# ---- others' requests

def quiet(rng, office, number):
    """A random request that doesn't concern the candidate, whatever is replied."""
    exam, draft = rng.randrange(len(office.exams) + 1), rng.randint(1, 8)
    place = at(rng.randrange(len(PERIODS)), rng.randrange(len(office.rooms)))
    student = rng.randint(100, 999)
    lines = "".join(f"{student},{rng.randrange(len(office.exams))},{rng.choice(['add', 'drop'])}\n"
                    for _ in range(rng.randint(0, 4)))
    caller = rng.choice(["office", f"dept:{rng.randint(1, 3)}", f"cand:{student}", "nobody"])
    return rng.choice([
        message("PUT", "/instance", office.text),
        message("PUT", f"/exams/{exam}/owner", b'{"dept":%d}' % rng.randint(0, 3)),
        message("PUT", f"/drafts/{draft}", rng.choice([b"", solution(office), b"0, 0\n"]), caller),
        message("DELETE", f"/drafts/{draft}", caller=caller),
        message("POST", f"/drafts/{draft}/exams/{exam}/place", place, caller),
        message("POST", f"/drafts/{draft}/exams/{exam}/move", place, caller),
        message("DELETE", f"/drafts/{draft}/exams/{exam}", caller=caller),
        message("POST", f"/drafts/{draft}/swap/{exam}/{rng.randrange(8)}", caller=caller),
        message("POST", "/drafts/9/publish", caller=caller),
        message("PUT", f"/batches/{number}", f"student,exam,action\n{lines}".encode()),
        message("PUT", f"/batches/{rng.randint(1, 9)}", b"another,text\n"),
        message("GET", rng.choice(["/instance", "/publication", f"/drafts/{draft}/penalty",
                                   "/publication/rooms", "/publication/seats", "/me",
                                   "/nowhere"]), caller=caller)])


# ---- a round

class Client:
    """Asks an office that serves a database, on as many connections as it takes."""

    def __init__(self, run, name, office):
        self.name, self.made, self.database = name, office, run.prepared(name, office)
        self.office = run_serve.Office(run.program, self.database)
        self.connection, self.left, self.batches, self.last = None, 0, 100_000, 0
        self.is_published = (
            self.asks(message("PUT", "/drafts/1", solution(office))).startswith(b"HTTP/1.1 201 ")
            and self.asks(publish()).startswith(b"HTTP/1.1 200 "))

    def asks(self, question):
        """The whole reply. The office leaves a client that says nothing for 5 seconds; if this test
        had to wait that long for a processor, it asks on another connection."""
        while True:
            if not self.left or time.monotonic() - self.last > 1:
                self.ends()
                self.connection, self.left = self.office.connect(), 90
                self.last = time.monotonic()
            self.left -= 1
            answer = reply_on(self.connection, question)
            is_late, self.last = time.monotonic() - self.last > 4, time.monotonic()
            if answer or not is_late:
                return answer
            self.left = 0

    def hears_others(self, rng):
        for _ in range(rng.randint(0, 4)):
            self.batches += 1
            self.asks(quiet(rng, self.made, self.batches))

    def publishes_again(self, rng):
        """The timetable with some exams elsewhere, where the office accepts it."""
        places = dict(self.made.places)
        for exam in rng.sample(list(places), 2):
            places[exam] = rng.randrange(len(PERIODS)), rng.randrange(len(self.made.rooms))
        self.asks(message("DELETE", "/drafts/8"))
        self.asks(message("PUT", "/drafts/8", solution(self.made._replace(places=places))))
        return self.asks(publish(8)).startswith(b"HTTP/1.1 200 ")

    def ends(self):
        if self.connection:
            self.connection.close()

    def stops(self):
        self.ends()
        self.office.killed()


def reply_on(connection, question):
    """The whole reply; nothing if the office has left."""
    try:
        connection.sendall(question)
        return whole_reply(connection)
    except ConnectionError:
        return b""


def whole_reply(connection):
    head = b""
    while not head.endswith(b"\r\n\r\n"):
        byte = connection.recv(1)
        if not byte:
            return head
        head += byte
    length = int(head.partition(b"Content-Length: ")[2].partition(b"\r\n")[0])
    return head + run_serve.received(connection, length)


class Run(run_serve.Run):
    """The cases, and how much was accepted."""

    accepted = again = 0

    def command(self, *words):
        """Returns what it prints; status 3 says that a timetable has a breach. Any other ends the
        test."""
        ended = waiting.run([*map(str, words)], stdin=subprocess.DEVNULL, capture_output=True,
                            timeout=SECONDS)
        if ended.returncode not in (0, 3):
            raise OSError(f"{words}: status {ended.returncode}, {ended.stderr!r}")
        return ended.stdout

    def prepared(self, name, office):
        """A database of its own, with the office loaded."""
        database, source = self.folder / f"{name}.db", self.folder / f"{name}.exam"
        for file in self.folder.glob(f"{name}.db*"):
            file.unlink()
        source.write_bytes(office.text)
        self.command(self.program, "load", "--db", database, source)
        return database

    def changes_her(self, rng, candidate, clients, number):
        """A batch that names the candidate; it changes their enrolments if both accept it."""
        shared, is_add = candidate.shared, rng.random() < 0.6
        exam = rng.choice([*shared.places])
        text = f"student,exam,action\n{shared.candidate},{exam},{'add' if is_add else 'drop'}\n"
        question = message("PUT", f"/batches/{number}", text.encode())
        replies = [client.asks(question) for client in clients]
        self.judge(f"batch {number}", replies[0], replies[1])
        if replies[0].startswith(b"HTTP/1.1 200 "):
            self.accepted += 1
            (candidate.enrolled.add if is_add else candidate.enrolled.discard)(exam)

    def asks_both(self, rng, candidate, clients, name):
        question, answer = candidate.exchange(rng)
        for client in clients:
            self.judge(f"{name}, {client.name}: {question!r}", answer, client.asks(question))

    def adds_up(self, name, client):
        """The stored shares against the penalty of the exported timetable."""
        sums = self.command("sqlite3", client.database,
                            "SELECT (SELECT total(in_row + in_day + spread) FROM share_student)"
                            " + (SELECT total(night) FROM night_share)"
                            " + (SELECT total(penalty + mixed) FROM share_part)")
        rows = self.command("sqlite3", client.database, "SELECT exam, student FROM seat").split()
        text, seated = client.made.text.decode().split("\n"), {}
        for row in rows:
            exam, student = row.decode().split("|")
            seated.setdefault(int(exam), []).append(student)
        for exam in range(len(client.made.exams)):
            duration = text[exam + 1].split(",")[0]
            text[exam + 1] = ", ".join([duration, *seated.get(exam, [])])
        paths = self.folder / "published.exam", self.folder / "published.sol"
        paths[0].write_text("\n".join(text))
        paths[1].write_bytes(self.command(self.program, "export", "--db", client.database))
        printed = self.command(self.program, "check", *paths).decode().split("\n")
        self.judge(f"{name}, {client.name}: the shares", printed[-2:],
                   [f"total {int(float(sums or 0))}", ""])


def one_round(run, seed):
    rng, name = random.Random(seed), f"round {seed}"
    shared, one, other = agreeing_at_random(rng)
    clients = Client(run, "one", one), Client(run, "other", other)
    candidate = Candidate(shared, one)
    run.judge(f"{name}: publications", (True, True),
              tuple(client.is_published for client in clients))
    for step in range(rng.randint(8, 24)):
        for client in clients:
            client.hears_others(rng)
        if rng.random() < 0.25:
            run.changes_her(rng, candidate, clients, 1_000 + step)
        else:
            run.asks_both(rng, candidate, clients, name)
    for client in clients:
        run.again += rng.random() < 0.5 and client.publishes_again(rng)
        client.stops()
        run.adds_up(name, client)


def rounds(run, seeds):
    for seed in seeds:
        one_round(run, seed)


def main():
    parser = argparse.ArgumentParser(description=__doc__)
    parser.add_argument("program", metavar="PROGRAM")
    parser.add_argument("--rounds", type=int, default=300, help="how many rounds (300)")
    parser.add_argument("--seed", type=int, default=2007, help="the first round's seed (2007)")
    given = parser.parse_args()
    program = str(pathlib.Path(given.program).resolve())
    seeds = range(given.seed, given.seed + given.rounds)
    with tempfile.TemporaryDirectory() as folder:
        run = Run(program, folder, "isolation")
        parts = {f"part {first}": functools.partial(rounds, seeds=seeds[first::AT_ONCE])
                 for first in range(AT_ONCE)}
        made = run.run_side_by_side(
            parts, functools.partial(Run.apart, program, folder, run.about), AT_ONCE)
    accepted, again = (sum(getattr(part, what) for part in made) for what in ("accepted", "again"))
    print(f"isolation: {given.rounds} rounds, {accepted} accepted changes of the candidate,"
          f" {again} publications again")
    sys.exit(run.end())


if __name__ == "__main__":
    main()
