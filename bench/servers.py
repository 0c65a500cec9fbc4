"""The servers that are compared: how each is started, what it is asked, and what that costs."""
import argparse
import os
import pathlib
import re
import shutil
import socket
import sqlite3
import statistics
import subprocess
import sys
import tempfile
import time

from checkers import COUNTED, HERE, TOP, caption, program

SOURCE, BUILT = HERE / "office", HERE / "build" / "servers"
MESSAGES = 100
DRAFTS = 8
OURS, PLAIN, PLAIN_WAL = COLUMNS = "examoffice", "c++", "c++ in WAL"


def build_office():
    """Builds the server in C++ beside a copy of its sources."""
    shutil.copytree(SOURCE, BUILT, dirs_exist_ok=True)
    if subprocess.run(["make", "--silent", "-C", BUILT, "office"], check=False).returncode:
        sys.exit("the server in C++ does not build")
    return str(BUILT / "office")


def message(method, path, body=b"", closes=False, caller="office"):
    lines = [f"{method} {path} HTTP/1.1", "Host: office", f"X-Caller: {caller}",
             f"Content-Length: {len(body)}"] + ["Connection: close"] * closes
    return "".join(f"{line}\r\n" for line in [*lines, ""]).encode() + body


def service():
    """The environment that the package's service gives the program."""
    name = "Environment="
    lines = (TOP / "packaging" / "examoffice@.service").read_text().splitlines()
    fields = [line.removeprefix(name) for line in lines if line.startswith(name)]
    return dict(field.split("=", 1) for field in fields)


class Server:
    """A server of an instance with its own database. `ask` collects its replies and its figures,
    by name and unit. A cost is in milliseconds."""

    unit, most_times, patience = "ms", 1_000, 600
    prefix: list[str] = []
    environment: dict[str, str] = {}

    def __init__(self, name, command, folder, instance):
        self.name, self.command, self.database = name, command, str(folder / f"{name}.db")
        self.replies, self.figures = [], {}
        subprocess.run([command, "load", "--db", self.database, str(instance)], check=True,
                       stdout=subprocess.DEVNULL)
        if name == PLAIN_WAL:
            use_wal(self.database)
        self.open("opening the database")

    def open(self, name):
        self.began = time.perf_counter()
        self.process = subprocess.Popen(
            [*self.prefix, self.command, "serve", "--db", self.database, "--port", "0",
             "--connections", "1000000"], stdout=subprocess.PIPE,
            env=os.environ | self.environment | (service() if self.name == OURS else {}))
        line = self.process.stdout.readline()
        if not line.startswith(b"listening 127.0.0.1:"):
            sys.exit(f"{self.name} does not listen: {line!r}")
        self.address = "127.0.0.1", int(line.rpartition(b":")[2])
        self.figures[name, self.unit] = self.cost()

    def end(self):
        self.process.kill()
        self.process.wait()

    def cost(self):
        """The cost since `began`."""
        return 1e3 * (time.perf_counter() - self.began)

    def asked(self, questions, times=1, messages=MESSAGES):
        """Asks all questions n times, each after the reply to the last, so many on a connection.
        Returns each reply and its cost."""
        questions, replies, costs = questions * min(times, self.most_times), [], []
        self.cost()  # Work from before the first question is not counted.
        for start in range(0, len(questions), messages):
            with self.connect() as client:
                for question in questions[start:start + messages]:
                    self.began = time.perf_counter()
                    client.sendall(question)
                    replies.append(one_reply(client)[0])
                    costs.append(self.cost())
        return replies, costs

    def accepted(self, questions, times=1, status=b"2", messages=MESSAGES):
        """Asks questions, which have to get this status. Returns the cost of each."""
        replies, costs = self.asked(questions, times, messages)
        for reply in replies:
            if not reply.startswith(b"HTTP/1.1 " + status):
                sys.exit(f"{self.name}: {reply!r}")
        self.replies += replies
        return costs

    def ask(self, name, questions, times=1, status=b"2", messages=MESSAGES):
        """Asks questions, which have to get this status. The row is the median cost of one."""
        costs = self.accepted(questions, times, status, messages)
        self.figures[name, self.unit] = statistics.median(costs)
        if len(costs) >= 100:
            cuts = statistics.quantiles(costs, n=100)
            # The tenth percentile repeats on a busy machine, where the median does not.
            for percent in 10, 99:
                self.figures[f"{name}, {percent} of 100", self.unit] = cuts[percent - 1]

    def show_rate(self, name, way, questions):
        """Asks questions by `in_one_piece` or `in_connections`. The row is the rate of replies."""
        began = time.perf_counter()
        self.replies += way(self, questions)
        self.figures[name, "a second"] = len(questions) / (time.perf_counter() - began)

    def connect(self):
        client = socket.create_connection(self.address, self.patience)
        client.setsockopt(socket.IPPROTO_TCP, socket.TCP_NODELAY, 1)
        return client

    def show_log(self, name):
        """The row is the size of the database's log, 0 if there is none."""
        log = pathlib.Path(f"{self.database}-wal")
        self.figures[name, "MB"] = log.stat().st_size / 1e6 if log.exists() else 0

    def show_peak(self, name):
        """The row is the peak memory so far."""
        status = pathlib.Path(f"/proc/{self.process.pid}/status").read_text()
        self.figures[name, "MB"] = int(status.partition("VmHWM:")[2].split()[0]) / 1e3

    def show_rest(self, name):
        """The row is the memory that is held now."""
        status = pathlib.Path(f"/proc/{self.process.pid}/status").read_text()
        self.figures[name, "MB"] = int(status.partition("VmRSS:")[2].split()[0]) / 1e3

    def forget_peak(self):
        """Resets the peak to the memory held now."""
        pathlib.Path(f"/proc/{self.process.pid}/clear_refs").write_text("5")


class IdleServer(Server):
    """A server whose work is counted after it, when it waits again."""

    def wait_until_idle(self):
        """Waits until the server sleeps: it still works after its reply."""
        status, sleeps = pathlib.Path(f"/proc/{self.process.pid}/stat"), 0
        while sleeps < 3:
            time.sleep(0.02)
            sleeps = sleeps + 1 if status.read_text().rpartition(")")[2].split()[0] == "S" else 0

    def show_rate(self, name, way, questions):
        """No row: the waiting takes most of the time."""


class ProcessorServer(IdleServer):
    """A cost is the time of processor since the last cost. On a busy machine it is good to some
    20 %."""

    unit, most_times = "CPU ms", 100
    spent = 0.0

    def open(self, name):
        self.spent = 0.0
        super().open(name)

    def cost(self):
        self.wait_until_idle()
        before = self.spent
        self.spent = int(pathlib.Path(f"/proc/{self.process.pid}/schedstat").read_text()
                         .split()[0]) / 1e6
        return self.spent - before


class CountedServer(IdleServer):
    """The same under callgrind. A cost is in millions of instructions since the last cost."""

    unit, most_times, patience = "M instr", 4, 3_600
    environment = COUNTED

    def __init__(self, name, command, folder, instance):
        self.counts = folder / "counts"
        self.prefix = ["valgrind", "--quiet", "--tool=callgrind",
                       f"--callgrind-out-file={self.counts}"]
        super().__init__(name, command, folder, instance)

    def cost(self):
        self.wait_until_idle()
        # A dump zeroes callgrind's counters.
        subprocess.run(["callgrind_control", "-d", str(self.process.pid)], check=True,
                       capture_output=True)
        dump, = self.counts.parent.glob("counts.*")
        total = re.search(r"^totals: (\d+)", dump.read_text(), re.M)
        dump.unlink()
        return int(total[1]) / 1e6

    def show_peak(self, name):
        """No row: callgrind takes memory of its own."""

    show_rest = show_peak


def one_reply(client, came=b""):
    """A whole reply, and what came after it."""
    while b"\r\n\r\n" not in came:
        came += client.recv(65_536) or sys.exit("a connection ended early")
    head, _, _ = came.partition(b"\r\n\r\n")
    end = len(head) + 4 + int(head.partition(b"Content-Length: ")[2].partition(b"\r\n")[0])
    while len(came) < end:
        came += client.recv(65_536) or sys.exit("a connection ended early")
    return came[:end], came[end:]


def in_one_piece(server, questions):
    """The replies to questions that are sent a hundred at once."""
    replies = []
    for start in range(0, len(questions), MESSAGES):
        asked, rest = questions[start:start + MESSAGES], b""
        with server.connect() as client:
            client.sendall(b"".join(asked))
            for _ in asked:
                reply, rest = one_reply(client, rest)
                replies.append(reply)
    return replies


def in_connections(server, questions):
    """The replies to questions on a connection each."""
    replies = []
    for question in questions:
        with server.connect() as client:
            client.sendall(question)
            replies.append(one_reply(client)[0])
    return replies


def use_wal(database):
    """From now on SQLite opens the file in WAL mode: one fsync a commit, as the program has."""
    sqlite3.connect(database).execute("PRAGMA journal_mode=WAL").connection.close()


def commands(path):
    """The program of each column; `path` is of a program other than the release."""
    plain = build_office()
    return {OURS: program(path)[0], PLAIN: plain, PLAIN_WAL: plain}


def options(doc, rounds):
    """The options of a command."""
    parser = argparse.ArgumentParser(description=doc)
    parser.add_argument("--rounds", type=int, default=rounds, help=f"rounds of each ({rounds})")
    parser.add_argument("--program", help="a program other than the release")
    counted = parser.add_mutually_exclusive_group()
    counted.add_argument("--processor", action="store_true", help="the time of processor")
    counted.add_argument("--instructions", action="store_true",
                         help="count instructions, by callgrind and in one round, not time")
    return parser


def compared(given, title, instance, measure):
    """In each round, `measure` asks a new server of each column. Prints the medians of their
    figures, and returns whether all replied alike."""
    kind, rounds = ((CountedServer, 1) if given.instructions else
                    (ProcessorServer if given.processor else Server, given.rounds))
    rows, is_same, programs = {name: [] for name in COLUMNS}, True, commands(given.program)
    for _ in range(rounds):
        replies = []
        for name, command in programs.items():
            with tempfile.TemporaryDirectory() as folder:
                server = kind(name, command, pathlib.Path(folder), instance)
                try:
                    measure(server)
                finally:
                    server.end()
            replies.append(server.replies)
            rows[name].append(server.figures)
        is_same &= all(them == replies[0] for them in replies)
    print(caption(given.program))
    show(title, {name: {key: statistics.median(row[key] for row in found) for key in found[0]}
                 for name, found in rows.items()})
    return is_same


def stop_unless(is_same):
    if not is_same:
        sys.exit("they do not answer the same")


def show(title, figures):
    """Prints each figure of each column, and the ratios of the first column to the others."""
    ours, *others = figures.values()
    print(f"{title:<44}" + "".join(f"{name:>12}" for name in figures)
          + "".join(f"{'to ' + name:>14}" for name in list(figures)[1:]))
    for (name, unit), figure in ours.items():
        row = [figure, *(other[name, unit] for other in others)]
        print(f"{name:<44}" + "".join(f"{it:>12,.3f}" for it in row)
              + "".join(f"{figure / it:>14.2f}" if it else f"{'':>14}" for it in row[1:])
              + f"  {unit}", flush=True)


def sizes_of(instance):
    """How many students each exam has."""
    exams, *lines = instance.read_text().splitlines()
    count = int(exams.strip("[]").split(":")[1])
    return [len(set(line.split(",")[1:])) for line in lines[:count]]


def drafts_of(solution):
    """The messages that make all drafts of a timetable."""
    return [message("PUT", f"/drafts/{number}", solution) for number in range(1, DRAFTS + 1)]


def edits_of(server, solution, sizes, wanted):
    """An exam of about this many students, its place, and a clear and a place of it in the last
    draft, of which both are accepted."""
    places = solution.splitlines()
    for exam in sorted(range(len(sizes)), key=lambda exam: (abs(sizes[exam] - wanted), exam)):
        period, room = map(int, places[exam].split(b", "))
        body = b'{"period":%d,"room":%d}' % (period, room)
        edits = [message("DELETE", f"/drafts/{DRAFTS}/exams/{exam}"),
                 message("POST", f"/drafts/{DRAFTS}/exams/{exam}/place", body)]
        replies = in_connections(server, edits)
        if all(reply.startswith(b"HTTP/1.1 200 ") for reply in replies):
            return exam, (period, room), edits
    sys.exit("no exam of the timetable can be edited")
