#!/usr/bin/env python3
"""run_crowd.py PROGRAM [PART..] [--minutes N]: days and attacks at a university's size, by hand.

Before the office of examples/university stand the queue, the agent and the front, with an account
for each of 25,000 students; all is on this machine. A part is one of PARTS, by default all. Each
prints its lines of the table in docs/OPERATING.md. `day` and `attack` take N minutes (10) each,
`morning` 6, which are a tenth of its hour.
"""
import argparse
import asyncio
import collections
import concurrent.futures
import contextlib
import http.client
import importlib
import math
import multiprocessing
import os
import pathlib
import random
import re
import socket
import statistics
import subprocess
import sys
import tempfile
import time

import browser
import front_queue
import front_sign_in
import limits
import waiting
from front_sign_in import jwt, processor_seconds
from run_front import Front
from run_serve import Run

TOP = pathlib.Path(__file__).resolve().parent.parent
sys.path.append(str(TOP / "front"))
codes = importlib.import_module("codes")
UNIVERSITY = TOP / "examples" / "university"
# Requests a second of 25,000 people who come within ten minutes, two each.
RATE = 84
CANDIDATES, ATTACKERS, SLOW, SIGN_INS = 300, 100, 17_500, 2_000
KILL_SECONDS, KILLS, UPGRADES = 8, 20, 20
# First sign-ins a second, 25,000 in an hour; each how manieth is mistyped once; guesses a second of
# a guest at the same address, and of strangers, each from a fresh address.
FIRST, MISTYPED, GUEST, STRANGERS = 25_000 / 3_600, 10, 10, 200
# What an account may get of guesses in a minute (front/limits).
MOST_GUESSES = 10
# How often the cost of a request is measured, for how many candidates, by how many clients; how
# often each candidate asks, on a kept connection, as their page does.
ROUNDS, PEOPLE, CLIENTS, OF_A_PAGE = 50, 80, 4, 5
SECONDS = 60


class Waits:
    """How long replies took, by their status, or by why there was none."""

    def __init__(self):
        self.seconds, self.statuses = [], collections.Counter()

    def add(self, status, seconds):
        self.statuses[status] += 1
        self.seconds.append(seconds)

    def __str__(self):
        if not self.seconds:
            return "nothing"
        ordered = sorted(self.seconds)
        late = ordered[int(len(ordered) * 0.99)]
        said = ", ".join(f"{count} x {status}" for status, count in sorted(
            self.statuses.items(), key=str))
        return (f"{said}; half {statistics.median(ordered) * 1000:.0f} ms,"
                f" 99 % {late:.2f} s, worst {ordered[-1]:.2f} s")


class University:
    """The office, its front, and who is signed in."""

    def __init__(self, run):
        self.run = run
        with contextlib.ExitStack() as begun:
            self.begin(run, begun)
            self.begun = begun.pop_all()

    def begin(self, run, begun):
        """Starts all of it; what runs already is stopped if something doesn't start."""
        self.port, database = browser.free_port(), run.folder / "term.db"
        subprocess.run([run.program, "load", "--db", database, UNIVERSITY / "session.exam"],
                       check=True, stdout=subprocess.DEVNULL)
        exams = (UNIVERSITY / "session.exam").read_text().split("[Periods")[0].splitlines()[1:]
        self.exams = range(len(exams))
        self.students = sorted({int(field) for line in exams for field in line.split(",")[1:]})
        self.office = front_queue.RestartingOffice(run.program, database, self.port)
        begun.callback(self.office.stop)
        self.key = os.urandom(32).hex()
        folder = run.folder / "front"
        subprocess.run(["cp", "-r", TOP / "front", folder], check=True)
        hashed = subprocess.run(["openssl", "passwd", "-apr1", "a word"], check=True, text=True,
                                capture_output=True).stdout.strip()
        # Each has a password that somebody chose, and the code of a letter.
        self.codes = {number: codes.made() for number in self.students}
        (folder / "users").write_text("registry:{PLAIN}try-registry\n" + "".join(
            f"s{number}:{hashed}:{codes.digest(f's{number}', code)}\n"
            for number, code in self.codes.items()))
        (folder / "callers").write_text("registry office;\n" + "".join(
            f"s{number} cand:{number};\n" for number in self.students))
        self.agent = front_sign_in.Agent(run.folder, folder, self.key)
        begun.callback(self.agent.stop)
        self.agent.environment["OFFICE_WAIT"] = limits.numbers()["OFFICE_WAIT"]
        self.queue = front_sign_in.ReloadedQueue(run.folder / "queue", self.port, self.agent)
        begun.callback(self.queue.stop)
        self.front = Front(run.folder, self.queue.address,
                           (("include password.conf", "include sign_in.conf"),))
        begun.callback(self.front.stop)
        self.host = f"127.0.0.1:{self.front.port}"

    def cookie(self, user):
        """A session, as the agent makes it."""
        now = time.time()
        token = jwt.encode({"u": user, "k": "session", "h": self.host, "j": user,
                            "i": int(now * 1000), "exp": int(now) + 8 * 3600}, self.key)
        return f"Cookie: session={token}"

    def message(self, user, method="GET", path="/me", body=b""):
        """A request of somebody who is signed in."""
        lines = [f"{method} {path} HTTP/1.1", f"Host: {self.host}", "Connection: close",
                 self.cookie(user), *([f"Content-Length: {len(body)}"] if body else []), "", ""]
        return "\r\n".join(lines).encode() + body

    async def ask(self, message, source="127.0.0.1", seconds=SECONDS):
        """The status, and the seconds until the whole reply was there."""
        began = time.monotonic()
        try:
            reader, writer = await asyncio.open_connection(
                "127.0.0.1", self.front.port, local_addr=(source, 0))
            writer.write(message)
            came = await asyncio.wait_for(reader.read(-1), seconds)
            writer.close()
            status = int(came.split(b" ", 2)[1]) if came else "closed"
        except (OSError, asyncio.TimeoutError) as fault:
            status = str(fault) or type(fault).__name__
        return status, time.monotonic() - began

    def office_asks(self, method, path, body=b""):
        status, seconds = asyncio.run(self.ask(self.message("registry", method, path, body)))
        return status, seconds

    def stop(self):
        self.begun.close()


async def visits(university, waits, seconds, rate=RATE, source="127.0.0.1"):
    """Candidates who open their pages, so many a second."""
    tasks, end, turn = [], time.monotonic() + seconds, time.monotonic()
    while turn < end:
        message = university.message(f"s{random.choice(university.students)}")

        async def one(message=message):
            waits.add(*await university.ask(message, source))

        tasks.append(asyncio.create_task(one()))
        turn += 1 / rate
        await asyncio.sleep(max(0, turn - time.monotonic()))
    await asyncio.gather(*tasks)


async def day(university, minutes):
    """Visits all the time; meanwhile edits, a batch and publications."""
    waits, edits, said = Waits(), Waits(), {}

    async def office_works():
        solution = (UNIVERSITY / "timetable.sol").read_bytes()
        # Drops of students who don't take the exam: none of them acts, and each is judged.
        batch = "student,exam,action\n" + "".join(
            f"{number},{number % 1_500},drop\n" for number in university.students[:10_000])
        for name, method, path, body in (
                ("a draft", "PUT", "/drafts/1", solution),
                ("the first publication", "POST", "/drafts/1/publish", b""),
                ("a batch of 10,000 lines", "PUT", "/batches/1", batch.encode()),
                ("another publication", "POST", "/drafts/1/publish", b"")):
            said[name] = await university.ask(university.message("registry", method, path, body))
        end = time.monotonic() + minutes * 60 - 15
        while time.monotonic() < end:
            exam = random.choice(university.exams)
            edits.add(*await university.ask(university.message(
                "registry", "DELETE", f"/drafts/1/exams/{exam}")))
            await asyncio.sleep(1)

    await asyncio.gather(visits(university, waits, minutes * 60), office_works())
    for name, (status, seconds) in said.items():
        print(f"{name}: {status}, {seconds:.1f} s")
    print(f"{RATE} candidates a second, {minutes} minutes: {waits}")
    print(f"an edit a second: {edits}", flush=True)


async def at_once(university):
    """A thousand and two thousand at once, of one address."""
    for count in (1_000, 2_000):
        waits, began = Waits(), time.monotonic()
        messages = [university.message(f"s{number}") for number in university.students[:count]]
        for status, seconds in await asyncio.gather(*map(university.ask, messages)):
            waits.add(status, seconds)
        print(f"{count} at once: {waits};"
              f" {count / (time.monotonic() - began):.0f} a second", flush=True)


async def sign_ins(university):
    """First sign-ins of one address, as many a second as 25,000 in an hour."""
    waits, turn, tasks = Waits(), time.monotonic(), []

    async def one(user):
        waits.add(*await university.ask(form(university, user, "a+word")))

    for number in university.students[:SIGN_INS]:
        tasks.append(asyncio.create_task(one(f"s{number}")))
        turn += 3600 / 25_000
        await asyncio.sleep(max(0, turn - time.monotonic()))
    await asyncio.gather(*tasks)
    print(f"{SIGN_INS} first sign-ins, 7 a second: {waits}", flush=True)


def form(university, user, word):
    """A form to sign in."""
    body = f"user={user}&password={word}".encode()
    return "\r\n".join([
        "POST /-/sign-in HTTP/1.1", f"Host: {university.host}", "Connection: close",
        "Content-Type: application/x-www-form-urlencoded", f"Content-Length: {len(body)}", "", ""
    ]).encode() + body


def mistyped(code):
    """A code with another sign, or one sign too few."""
    place = random.choice([number for number, sign in enumerate(code) if sign != "-"])
    return code[:place] + random.choice(["", "z" if code[place] != "z" else "y"]) + code[place + 1:]


async def morning(university, minutes):
    """The hour in which everybody signs in for the first time, by one address: who guesses is at
    the same address and elsewhere, and every right code is taken at once."""
    began, (right, waits, looks, typos) = time.monotonic(), (Waits() for _ in range(4))
    guest, strangers, reached = Waits(), Waits(), collections.Counter()
    campus, fresh = "127.1.0.1", iter(
        front_queue.addresses(int(STRANGERS * (minutes * 60 + 60))))
    existing = ["registry", *(f"s{number}" for number in university.students)]

    async def first(turn):
        number = university.students[turn % len(university.students)]
        code = university.codes[number]
        looks.add(*await university.ask(
            f"GET /-/sign-in HTTP/1.1\r\nHost: {university.host}\r\nConnection: close\r\n\r\n"
            .encode(), campus))
        if turn % MISTYPED == 0:
            typos.add(*await university.ask(form(university, f"s{number}", mistyped(code)), campus))
        right.add(*await university.ask(form(university, f"s{number}", code), campus))

    async def guesses_at(turn, source, found):
        # Half of them have names that exist: every second of these the registry.
        user = (f"nobody-{turn}" if turn % 2 else "registry" if turn % 4
                else random.choice(existing))
        word = codes.made() if turn % 3 == 0 else "guess"
        # Longer than the queue keeps them, so that no reply is missed.
        status, seconds = await university.ask(form(university, user, word), source, 2 * SECONDS)
        found.add(status, seconds)
        reached[user] += status == 401 and word == "guess"

    async def each_second(rate, act):
        tasks, turn, end = set(), 0, time.monotonic() + minutes * 60
        while time.monotonic() < end:
            tasks.add(task := asyncio.create_task(act(turn)))
            task.add_done_callback(tasks.discard)
            turn += 1
            await asyncio.sleep(max(0, end - minutes * 60 + turn / rate - time.monotonic()))
        await asyncio.gather(*tasks)

    visiting = asyncio.create_task(visits(university, waits, minutes * 60, CANDIDATES / 10, campus))
    await asyncio.gather(
        visiting, each_second(FIRST, first),
        each_second(GUEST, lambda turn: guesses_at(turn, campus, guest)),
        each_second(STRANGERS, lambda turn: guesses_at(turn, next(fresh), strangers)))
    # Some of them are answered after the last one was sent.
    most = max(reached.values(), default=0) / math.ceil((time.monotonic() - began) / 60)
    print(f"the first morning, {minutes:g} minutes of its 60, {FIRST:.1f} a second of one address:"
          f" {right}\nthe form: {looks}\nmistyped ones: {typos}\nguesses there: {guest}\n"
          f"guesses of strangers: {strangers}\nwho is signed in there: {waits}\n"
          f"guesses that reached an account: at most {most:.1f} a minute", flush=True)
    if set(right.statuses) != {303} or max(right.seconds) > 60 or most > MOST_GUESSES:
        sys.exit("the first morning: a right code was refused, or late, or guesses reached too far")


async def restarts(university):
    """The office is killed under 700 clients, and then upgraded with what is before it: no question
    is refused, and a change only if it was at the office. Nobody waits a second longer than for the
    office; seconds in which somebody waits for a processor count a twentieth."""
    for name, count, act in (("kills", KILLS, kill), ("upgrades", UPGRADES, upgrade)):
        waits, changes, is_over, calm = Waits(), Waits(), asyncio.Event(), []
        university.office.away = 0

        async def client(number, waits=waits, is_over=is_over, calm=calm):
            message = university.message(f"s{university.students[number]}")
            while not is_over.is_set():
                began = waiting.calm()
                waits.add(*await university.ask(message))
                calm.append(waiting.calm() - began)
                await asyncio.sleep(1 + random.random())

        async def registry(changes=changes, is_over=is_over):
            message = university.message("registry", "PUT", "/exams/1/owner", b'{"dept":3}')
            while not is_over.is_set():
                changes.add(*await university.ask(message))
                await asyncio.sleep(0.1)

        async def acts(count=count, act=act, is_over=is_over):
            for _ in range(count):
                await asyncio.sleep(KILL_SECONDS)
                starts = university.office.starts
                await asyncio.to_thread(act, university)
                # One that is killed again and again while it opens would never answer.
                while university.office.starts == starts:
                    await asyncio.sleep(0.1)
            await asyncio.sleep(KILL_SECONDS)
            is_over.set()

        await asyncio.gather(acts(), registry(), *map(client, range(700)))
        away = university.office.away
        print(f"{count} {name} under 700 clients: {waits}; changes meanwhile: {changes}; the office"
              f" was away for {away:.2f} s; the worst in calm seconds {max(calm):.2f}", flush=True)
        if (set(waits.statuses) != {200} or set(changes.statuses) - {200, 503}
                or changes.statuses[503] > 2 * count or max(calm) > away + 1):
            sys.exit(f"{name}: somebody was refused, or waited longer than for the office")


def kill(university):
    university.office.process.kill()


def upgrade(university):
    """What the package does: HAProxy and nginx read their files again, the others start again."""
    university.queue.reload()
    university.front.reload()
    university.office.process.terminate()
    university.agent.stop()
    university.agent.start()


def guesses(university_port, host, sources, seconds, found):
    """Guesses the registry's password, many requests on each connection; what came, counted."""
    os.nice(19)
    body = b"user=registry&password=guess"
    message = (f"POST /-/sign-in HTTP/1.1\r\nHost: {host}\r\nContent-Length: {len(body)}\r\n"
               "Content-Type: application/x-www-form-urlencoded\r\n\r\n").encode() + body
    end, came = time.monotonic() + seconds, collections.Counter()
    while time.monotonic() < end:
        with contextlib.suppress(OSError), socket.create_connection(
                ("127.0.0.1", university_port), SECONDS, (random.choice(sources), 0)) as client:
            client.sendall(message * 50)
            client.shutdown(socket.SHUT_WR)
            text = b""
            while part := client.recv(65_536):
                text += part
            came.update(re.findall(rb"HTTP/1.1 (\d+)", text))
    found.put(came)


def junk(university_port, sources, seconds, found):
    """Long requests of nobody."""
    os.nice(19)
    message = b"POST /drafts/1/" + b"a" * 7_900 + b" HTTP/1.1\r\nHost: x\r\n\r\n"
    end, count = time.monotonic() + seconds, 0
    while time.monotonic() < end:
        with contextlib.suppress(OSError), socket.create_connection(
                ("127.0.0.1", university_port), SECONDS, (random.choice(sources), 0)) as client:
            for _ in range(100):
                client.sendall(message)
                count += client.recv(65_536).count(b"HTTP/1.1")
    found.put(count)


def slow(university_port, sources, seconds, count):
    """Connections that send a part of a request and wait, begun again when they are closed."""
    os.nice(19)
    end, held = time.monotonic() + seconds, []
    while time.monotonic() < end:
        with contextlib.suppress(OSError):
            if len(held) >= count:
                held.pop(0).close()
            held.append(socket.create_connection(("127.0.0.1", university_port), SECONDS,
                                                 (random.choice(sources), 0)))
            held[-1].sendall(b"POST /-/sign-in HTTP/1.1\r\nHost: x\r\nContent-")


def disk(university):
    """The bytes of all that front and agent write."""
    folders = university.front.folder / "run", university.agent.folder
    return sum(path.stat().st_size for folder in folders for path in folder.rglob("*")
               if path.is_file() and path.name != "exchanges")


async def attack(university, minutes):
    """Guesses, junk and slow connections of a hundred addresses; candidates at one of them."""
    sources = front_queue.addresses(ATTACKERS)
    seconds, before, port = minutes * 60, disk(university), university.front.port
    found, counted = multiprocessing.Queue(), multiprocessing.Queue()
    processes = [multiprocessing.Process(target=guesses, args=(
        port, university.host, sources, seconds, found)) for _ in range(3)]
    processes += [multiprocessing.Process(target=junk, args=(port, sources, seconds, counted)),
                  multiprocessing.Process(target=slow, args=(port, sources, seconds, SLOW))]
    for process in processes:
        process.start()
    waits = Waits()
    await visits(university, waits, seconds, CANDIDATES / 10, sources[0])
    came = sum((found.get() for _ in range(3)), collections.Counter())
    lines = counted.get()
    for process in processes:
        process.join()
    tried = sum(came.values())
    print(f"attack of {minutes} minutes: {tried} guesses ({tried / seconds:.0f} a second),"
          f" {came[b'401']} reached the account ({came[b'401'] / minutes:.1f} a minute),"
          f" {lines} junk requests, {(disk(university) - before) / minutes / 1e6:.2f} MB a minute")
    print(f"{CANDIDATES} signed-in candidates at such an address: {waits}", flush=True)


# In place of how users sign in: everybody is this candidate.
NOBODY_ASKED = """set $user s%d;
    set $is_exact ""; set $often ""; set $counts "";
    set $signed_out /-/signed-out; set $sign_out \"\""""


def cost_of(processes, port, host, cookies):
    """The microseconds of processor that each process used for a request with these cookies."""
    def client(number):
        connection = http.client.HTTPConnection("127.0.0.1", port, SECONDS)
        for cookie in cookies[number::CLIENTS]:
            for _ in range(OF_A_PAGE):
                connection.request("GET", "/me", headers={"Host": host, "Cookie": cookie})
                reply = connection.getresponse()
                reply.read()
                if reply.status != 200:
                    raise ValueError(f"a candidate's reply has status {reply.status}")

    before = [*map(processor_seconds, processes)]
    with concurrent.futures.ThreadPoolExecutor(CLIENTS) as pool:
        list(pool.map(client, range(CLIENTS)))
    return [1e6 * (processor_seconds(process) - was) / len(cookies) / OF_A_PAGE
            for process, was in zip(processes, before)]


async def cost(university):
    """What a candidate's request needs of each process, and how much of it to know who asks: beside
    a front at which everybody is the same candidate, in turn."""
    folder = university.run.folder / "open"
    folder.mkdir()
    subprocess.run(["cp", "-r", TOP / "front", folder], check=True)
    (folder / "front" / "callers").write_text((university.front.folder / "callers").read_text())
    everybody = Front(folder, university.queue.address, (
        ("include password.conf", NOBODY_ASKED % university.students[0]),))
    # So many users that none asks too often.
    cookies = [university.cookie(f"s{number}").partition(": ")[2]
               for number in university.students[:ROUNDS * PEOPLE]]
    try:
        whole, rest = ([statistics.mean(found) for found in zip(*costs)] for costs in zip(*(
            [cost_of((front.process, university.queue.process, university.agent.process),
                     front.port, university.host, cookies[turn::ROUNDS])
             for front in (university.front, everybody)] for turn in range(ROUNDS))))
    finally:
        everybody.stop()
    print(f"{len(cookies) * OF_A_PAGE} requests, each in microseconds of processor:")
    for name, all_of_it, without in zip(("nginx", "HAProxy", "the agent", "all"),
                                        [*whole, sum(whole)], [*rest, sum(rest)]):
        print(f"{name}: {all_of_it:.0f}, {all_of_it - without:.0f} of them to know who asks",
              flush=True)


def main():
    words = argparse.ArgumentParser(description=__doc__.partition("\n")[0])
    words.add_argument("program")
    words.add_argument("part", nargs="*", default=[*PARTS])
    words.add_argument("--minutes", type=float)
    given = words.parse_args()
    if front_sign_in.missing():
        sys.exit(f"these are missing: {' '.join(front_sign_in.missing())}")
    with tempfile.TemporaryDirectory() as folder:
        os.chmod(folder, 0o755)
        university = University(Run(pathlib.Path(given.program).resolve(), folder, "crowd"))
        try:
            for part in given.part:
                function = PARTS[part]
                more = (given.minutes or MINUTES[part],) if part in MINUTES else ()
                asyncio.run(function(university, *more))
        finally:
            university.stop()
    return 0


PARTS = {"day": day, "at_once": at_once, "sign_ins": sign_ins, "restarts": restarts,
         "morning": morning, "attack": attack, "cost": cost}
MINUTES = {"day": 10, "attack": 10, "morning": 6}

if __name__ == "__main__":
    sys.exit(main())
