#!/usr/bin/env python3
"""run_histories.py PROGRAM [--histories N]: random histories of a session, with restored files.

Each is of lists, batches of the page and of people who ask the office themselves, new students,
publications, tools that are killed, and of a ledger, an office or both that are put back from any
two moments. Each ID keeps its number or a tool refuses; no number becomes somebody else's; what a
tool sent is in the office after the next one; what is said to be somebody's change is one. A
failing history is printed with what happened in it, and the last line counts the histories.
"""
import argparse
import contextlib
import datetime
import functools
import http.client
import http.server
import json
import os
import pathlib
import random
import re
import shutil
import signal
import sqlite3
import subprocess
import sys
import tempfile
import threading

from cases import Cases
from run_serve import Office
from tools_path import TOP

SECONDS, SEED = 120, 2029
EXAMS = [f"EX{number}" for number in range(6)]
RULES = "rule,a,b,c\nTWOINAROW,7\n"
HEADER = "student,exam,action\n"
# What a tool may refuse, until somebody has put the newer ledger back or adopted its numbers.
OLDER = re.compile(r"which the ledger (doesn't know|gave to)|no number for|of another ledger"
                   r"|another session: it lacks|has in the office the candidates")
# A batch of the page, as its service sends it.
PAGE = """
import os, sys
from registry import service
client = service.app.test_client()
reply = client.open(f"/-/registry/{sys.argv[1]}", method=sys.argv[2], data=sys.stdin.buffer.read(),
                    headers={"X-Session": "term", "X-User": "ada"})
print(reply.status_code, reply.get_data(as_text=True))
os._exit(0)
"""


class Logging(http.server.BaseHTTPRequestHandler):
    """Passes requests to an office, and writes a log of changes as the front does."""

    world, user = None, ""

    def pass_on(self):
        body = self.rfile.read(int(self.headers.get("Content-Length") or 0))
        office = http.client.HTTPConnection("127.0.0.1", self.world.office.port, timeout=SECONDS)
        try:
            office.request(self.command, self.path, body or None, {
                "X-Caller": "office", "Connection": "close"})
            reply = office.getresponse()
            text = reply.read()
        except (OSError, http.client.HTTPException):
            # The office was stopped, to be put back, while a tool that was killed still asked.
            self.close_connection = True
            return
        if self.command != "GET":
            with self.world.log.open("a") as log:
                log.write(json.dumps({
                    "at": datetime.datetime.now().astimezone().isoformat(timespec="seconds"),
                    "method": self.command, "path": self.path, "status": reply.status,
                    "user": self.user, "caller": "office", "session": "term"}) + "\n")
        # A tool that was killed takes no reply.
        with contextlib.suppress(ConnectionError):
            self.send_response(reply.status)
            self.send_header("Content-Length", str(len(text)))
            self.end_headers()
            self.wfile.write(text)

    do_GET = do_PUT = do_POST = pass_on

    def log_message(self, *_):
        pass


class World:
    """A university, its student system, and a session with all its parts."""

    def __init__(self, program, folder, seed):
        self.chance, self.program, self.folder = random.Random(seed), program, folder
        self.made, self.log = folder / "registry" / "term", folder / "changes.log"
        self.log.write_text("")
        self.has_log = self.chance.random() < 0.75
        self.taken = {}
        self.next_id = 0
        for _ in range(30):
            self.enter()
        # Who had which number first, and which numbers are of people whom the ledger lost.
        self.owners, self.lost, self.humans, self.saved = {}, set(), set(), []
        # Whether the ledger was put back since, or what it lost may not be known.
        self.is_older, self.was_adopted, self.what = False, False, []
        self.write_tables()
        self.tool("session_from_csv", folder / "csv", self.made)
        subprocess.run([program, "load", "--db", folder / "office.db",
                        self.made / "now" / "session.exam"], check=True, stdout=subprocess.DEVNULL)
        self.office = Office(program, folder / "office.db")
        self.servers = [self.begun(user) for user in ("program:registry", "ada")]
        self.ports = [server.server_port for server in self.servers]
        self.learn()

    def begun(self, user):
        handler = type("Handler", (Logging,), {"world": self, "user": user})
        server = http.server.ThreadingHTTPServer(("127.0.0.1", 0), handler)
        threading.Thread(target=server.serve_forever, daemon=True).start()
        return server

    def end(self):
        self.office.killed()
        for server in self.servers:
            server.shutdown()
            server.server_close()

    # ---- The student system

    def enter(self):
        student = f"{self.chance.choice('abcxyz')}{self.next_id:03}"
        self.next_id += 1
        self.taken[student] = set(self.chance.sample(EXAMS, self.chance.randint(1, 3)))

    def table(self):
        rows = [f"{student},{exam},Name {student}" for student, exams in self.taken.items()
                for exam in sorted(exams)]
        self.chance.shuffle(rows)
        return "\n".join(["student,exam,name", *rows]) + "\n"

    def write_tables(self):
        csv = self.folder / "csv"
        csv.mkdir(exist_ok=True)
        for name, text in {
                "exams": "code,title,minutes\n" + "".join(f"{exam},T,60\n" for exam in EXAMS),
                "rooms": "name,building,capacity\nHall,B,500\n",
                "periods": "date,start,minutes\n" + "".join(
                    f"2027-05-{day:02},09:00,60\n" for day in range(1, 9)),
                "rules": RULES, "enrolments": self.table()}.items():
            (csv / f"{name}.csv").write_text(text)

    def change_list(self):
        for _ in range(self.chance.randint(0, 3)):
            student = self.chance.choice(sorted(self.taken))
            self.taken[student] ^= {self.chance.choice(EXAMS)}
            if not self.taken[student]:
                self.taken[student] = {EXAMS[0]}
        for _ in range(self.chance.choice((0, 0, 1, 2))):
            self.enter()

    # ---- What is there

    def numbers(self):
        if not (self.made / "ledger.db").exists():
            return {}
        with contextlib.closing(sqlite3.connect(self.made / "ledger.db")) as db:
            return dict(db.execute("SELECT id, number FROM students"))

    def known(self):
        """The numbers that the office has."""
        seats = self.ask("GET", "/publication/seats")[1].splitlines()[1:]
        return {number for number, _ in self.pairs()} | {
            int(line.partition(",")[0]) for line in seats}

    def ask(self, method, path, body=None, port=None):
        client = http.client.HTTPConnection("127.0.0.1", port or self.office.port, timeout=SECONDS)
        client.request(method, path, body, {"X-Caller": "office", "Connection": "close"})
        reply = client.getresponse()
        return reply.status, reply.read().decode()

    def pairs(self):
        lines = self.ask("GET", "/instance")[1].splitlines()[1:len(EXAMS) + 1]
        return {(int(number), exam) for exam, line in enumerate(lines)
                for number in line.split(", ")[1:]}

    def learn(self):
        """Notes who has a number now; returns what is wrong."""
        now = self.numbers()
        if not self.has_log:
            # What only a lost ledger knew, and no log shows, may be given again.
            for number, student in [*self.owners.items()]:
                if number not in self.known_before and now.get(student) != number:
                    del self.owners[number]
        for student, number in now.items():
            if student.startswith("unknown-"):
                continue
            owner = self.owners.setdefault(number, student)
            if owner != student:
                return f"the number {number} of {owner} is given to {student}"
        known = {}
        for number, student in self.owners.items():
            if number not in self.lost and known.setdefault(student, number) != number:
                return f"{student} had the number {known[student]}, and has {number}"
        return None

    # ---- What happens

    def tool(self, name, *words, kill=None):
        process = subprocess.Popen(
            [TOP / "tools" / name, *map(str, words)], stdout=subprocess.PIPE,
            stderr=subprocess.PIPE, text=True)
        return self.ended(name, process, kill)

    def ended(self, name, process, kill, body=None):
        try:
            said, faults = process.communicate(body, timeout=kill or SECONDS)
        except subprocess.TimeoutExpired:
            process.send_signal(signal.SIGKILL)
            said, faults = process.communicate()
        self.what.append(f"{name}: {process.returncode} {said.strip()} {faults.strip()}"[:600])
        return process.returncode, said, faults

    def address(self):
        return f"http://127.0.0.1:{self.ports[0]}"

    def with_log(self):
        return ["--log", self.log] if self.has_log else []

    def send_list(self, *more, kill=None):
        path = self.folder / "list.csv"
        path.write_text(self.table())
        return self.tool("changes_from_csv", path, self.made, "--many", "--by", "night", "--office",
                         self.address(), *self.with_log(), *more, kill=kill)

    def by_service(self, path, method, body, kill=None):
        """The status of the service's reply, and its words."""
        environment = {**os.environ, "REGISTRY_FOLDER": str(self.made.parent),
                       "REGISTRY_FRONT": self.address(), "PYTHONPATH": str(TOP / "tools"),
                       "REGISTRY_COMPARED": "1000", "PYTHONDONTWRITEBYTECODE": "1",
                       **({"REGISTRY_LOG": str(self.log)} if self.has_log else {})}
        process = subprocess.Popen(
            [sys.executable, "-c", PAGE, path, method], stdin=subprocess.PIPE, text=True,
            stdout=subprocess.PIPE, stderr=subprocess.PIPE, env=environment)
        _, said, _ = self.ended(f"{method} {path} {body!r}", process, kill, body)
        return int(said.split()[0] or 0) if said.strip() else 0, said

    def lines(self):
        """Lines of a batch, about people whom the ledger and the office know by one number."""
        numbers = [number for student, number in self.numbers().items()
                   if self.owners.get(number) == student]
        found = [(self.chance.choice(numbers), self.chance.randrange(len(EXAMS)),
                  self.chance.choice(("add", "drop"))) for _ in range(self.chance.randint(1, 3))]
        self.humans |= {line[:2] for line in found}
        return HEADER + "".join(f"{student},{exam},{action}\n" for student, exam, action in found)

    def resolved(self, faults):
        """Somebody puts the newer ledger back, or adopts the numbers, after a tool refused."""
        if not OLDER.search(faults):
            return f"an unexpected fault: {faults.strip()}"
        if self.newer and self.chance.random() < 0.6:
            shutil.rmtree(self.made)
            shutil.copytree(self.newer, self.made, symlinks=True)
            self.what.append("the newer ledger is put back")
            self.is_older = False
            return None
        if "of another ledger" in faults:
            self.remove_made_files()
        before = set(self.numbers())
        status, _, faults = self.tool("session_from_csv", "--adopt", self.made, "--office",
                                      self.address(), *self.with_log())
        if status:
            return f"it can't be adopted: {faults.strip()}"
        self.lost |= {number for number, student in self.owners.items() if student not in before}
        self.was_adopted = True
        return None

    def remove_made_files(self):
        (self.made / "now").unlink(missing_ok=True)
        shutil.rmtree(self.made / "states", ignore_errors=True)

    newer = None
    known_before: frozenset[int] = frozenset()

    def some_list(self):
        self.change_list()
        kill = self.chance.choice((None, None, self.chance.uniform(0.05, 0.5)))
        is_all = self.chance.random() < 0.3
        status, said, faults = self.send_list(*(["--take-all"] if is_all else []), kill=kill)
        if status == 1:
            return self.resolved(faults)
        return self.fault_after_list(said, is_all) if status == 0 else None

    def fault_after_list(self, said, is_all):
        """What is wrong with an office after a whole list, or None."""
        fault = self.learn()
        if fault:
            return fault
        numbers = self.numbers()
        wanted = {(numbers[student], EXAMS.index(exam)) for student, exams in self.taken.items()
                  for exam in exams}
        wrong = self.pairs() ^ wanted
        if is_all and wrong:
            return f"not the list, although all is taken: {sorted(wrong)}"
        people = {number: student for student, number in numbers.items()}
        for student, exam in wrong - self.humans:
            if not (people.get(student, "").startswith("unknown-") or self.was_older):
                return f"{EXAMS[exam]} of {people.get(student)} isn't as in the list: {said}"
        return None

    was_older = False

    def some_batch(self):
        body, number = self.lines(), self.chance.randrange(1, 500_000_000)
        if self.chance.random() < 0.4:
            status, said = self.ask("PUT", f"/batches/{number}", body, self.ports[1])
            self.what.append(f"by ada herself: {number} {body!r}: {status} {said}")
            return None if status == 200 else said
        kill = self.chance.choice((None, None, self.chance.uniform(0.3, 0.8)))
        status, said = self.by_service(f"batches/{number}", "PUT", body, kill)
        if status == 409 and "ledger-differs" in said:
            return self.resolved(said)
        return None if status in (0, 200) else f"a batch of the page: {said}"

    def some_student(self):
        self.enter()
        student = list(self.taken)[-1]
        if self.chance.random() < 0.5:
            status, said = self.by_service("students", "POST", json.dumps(
                [{"student": student, "name": ""}]))
            if status == 409:
                return self.resolved(said)
            return self.learn() if status == 200 else said
        self.write_tables()
        status, _, faults = self.tool("session_from_csv", self.folder / "csv", self.made,
                                      "--office", self.address(), *self.with_log())
        return self.resolved(faults) if status else self.learn()

    def publish(self):
        self.ask("DELETE", "/drafts/1")
        self.ask("PUT", "/drafts/1", "".join(f"{exam},0\n" for exam in range(len(EXAMS))))
        self.what.append(f"published: {self.ask('POST', '/drafts/1/publish')}")

    def keep(self):
        """Copies ledger and office, as they are at one moment."""
        copies = self.folder / f"kept{len(self.saved)}"
        copies.mkdir()
        for name, path in (("ledger.db", self.made / "ledger.db"),
                           ("office.db", self.folder / "office.db")):
            for end in ("", "-wal", "-journal"):
                with contextlib.suppress(FileNotFoundError):
                    shutil.copy(f"{path}{end}", copies / f"{name}{end}")
        self.saved.append(copies)
        self.what.append(f"kept {copies.name}")

    def restore(self):
        """Puts the ledger, the office or both back, from any two moments."""
        if not self.saved:
            return self.keep()
        which = self.chance.choice(("ledger", "office", "both"))
        copies = [self.chance.choice(self.saved) for _ in range(2)]
        self.what.append(f"restored {which}: {[copy.name for copy in copies]}")
        if which != "ledger":
            self.office.killed()
            for path in self.folder.glob("office.db*"):
                path.unlink()
            for path in copies[0].glob("office.db*"):
                shutil.copy(path, self.folder)
            self.office = Office(self.program, self.folder / "office.db")
        if which != "office":
            newer = self.folder / f"newer{len(self.what)}"
            shutil.copytree(self.made, newer, symlinks=True)
            # The newest of all is kept aside, for somebody who finds it.
            self.newer = newer if not self.is_older else self.newer
            self.is_older = self.was_older = True
            if self.chance.random() < 0.6:
                shutil.rmtree(self.made)
                self.made.mkdir()
            for path in copies[1].glob("ledger.db*"):
                shutil.copy(path, self.made)
        return None


def history_fault(seed, program, folder):
    """What is wrong with a random history, and what happened in it; or None."""
    world = World(program, folder, seed)
    try:
        for _ in range(world.chance.randint(6, 16)):
            act = world.chance.choice((
                world.some_list, world.some_list, world.some_batch, world.some_batch,
                world.some_student, world.publish, world.keep, world.restore, world.restore))
            world.known_before = frozenset(world.known())
            fault = act() or fault_of_numbers(world)
            if fault:
                return fault, world.what
        return fault_at_the_end(world), world.what
    finally:
        world.end()


def fault_of_numbers(world):
    """A number in the office that is somebody else's in a ledger that tools use."""
    return None if world.is_older else world.learn()


def fault_at_the_end(world):
    """After two whole lists the office has exactly the list, and all belongs together."""
    for _ in range(20):
        world.known_before = frozenset(world.known())
        status, said, faults = world.send_list("--take-all")
        if status == 0:
            break
        fault = world.resolved(faults)
        if fault:
            return fault
    if status:
        return f"no end: {faults}"
    fault = world.fault_after_list(said, True)
    status, said, faults = world.tool("session_from_csv", "--check", world.made, "--office",
                                      world.address(), *world.with_log())
    return fault or (None if status == 0 else f"the comparison: {faults}")


def histories(first, count, program, run):
    """Each fourth history, from one on."""
    base = "/dev/shm" if os.access("/dev/shm", os.W_OK) else None
    for seed in range(SEED + first, SEED + count, 4):
        with tempfile.TemporaryDirectory(dir=base) as folder:
            fault, what = history_fault(seed, program, pathlib.Path(folder))
            run.judge(f"history of seed {seed}", None, fault)
            if fault:
                print("   ", "\n    ".join(what))


def counted(_):
    return Cases("histories")


def main():
    words = argparse.ArgumentParser(description=__doc__.partition("\n")[0])
    words.add_argument("program", type=pathlib.Path)
    words.add_argument("--histories", type=int, default=20)
    words.add_argument("--seed", type=int, default=SEED)
    given = words.parse_args()
    globals()["SEED"] = given.seed
    run = Cases("histories")
    run.run_side_by_side({f"{first}": functools.partial(
        histories, first, given.histories, given.program.resolve()) for first in range(4)}, counted)
    return run.end("histories")


if __name__ == "__main__":
    sys.exit(main())
