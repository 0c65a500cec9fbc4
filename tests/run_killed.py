#!/usr/bin/env python3
"""run_killed.py PROGRAM [--each N]: the registry's tools are killed, and calls of theirs fail.

At each call that changes something (each Nth; 10 if it isn't said) a tool is killed, or the call
fails once, or from then on. The next run ends with status 0 and in the same state as one that
nothing happened to. A ledger of an earlier version is brought to today's by whatever tool opens it
first, and is of one version or the other after a kill. A failing case is printed with what was
expected and what came, and the last line counts the cases. Needs strace.
"""
import argparse
import contextlib
import functools
import http.client
import os
import pathlib
import re
import shutil
import sqlite3
import subprocess
import sys
import tempfile

from cases import Cases
from run_serve import Office
from tools_path import TOP
from registry import versions
from registry.ledger import Ledger, NotALedger

SECONDS = 120
SMALL = TOP / "examples" / "small"
LIST = (SMALL / "enrolments.csv").read_text()
FIRST = pathlib.Path(__file__).parent / "before" / "ledger_1.sqlite"
CALLS = ("write", "pwrite64", "fsync", "fdatasync", "rename", "symlink", "unlink", "rmdir", "mkdir",
         "ftruncate", "sendto", "link")
# What happens to a call: the tool is killed, or it fails once, or it fails from then on.
WAYS = {"killed at": ":signal=KILL:when={}", "with one failing": ":error=EIO:when={}",
        "with all failing from": ":error=ENOSPC:when={}+"}
ENVIRONMENT = {**os.environ, "PYTHONDONTWRITEBYTECODE": "1"}
# Lines that are sent once more change nothing.
TABLES = {"about": "*", "exams": "*", "rooms": "*", "periods": "*", "students": "number, id, name",
          "enrolments": "*", "users": "*", "changes": "DISTINCT student, exam, action"}


class Session:
    """A session of the small example, with an office, in a folder of its own."""

    def __init__(self, program, folder):
        self.program, self.folder, self.made = program, folder, folder / "made"
        self.office = None
        if (folder / "office.db").exists():
            self.start()

    @classmethod
    def begun(cls, program, folder):
        """A session with a new student and lines that were sent."""
        folder.mkdir()
        made = cls(program, folder)
        made.run("session_from_csv", SMALL, made.made)
        subprocess.run([program, "load", "--db", folder / "office.db",
                        made.made / "now" / "session.exam"], check=True, stdout=subprocess.DEVNULL)
        (folder / "list.csv").write_text(LIST + "r9,Zoe Zander,MATH101\ns3,Cleo Carter,MATH101\n")
        (folder / "lines.csv").write_text("student,exam,action,name\ns2,MATH102,drop,\n"
                                          "q1,,new,Quo Quin\nq2,PHYS101,new,Qi\n")
        (folder / "people.csv").write_text("user,student\nada,s1\nben,s2\n")
        made.start()
        made.run("changes_from_csv", folder / "list.csv", made.made, "--many", "--office",
                 made.address())
        made.stop()
        return made

    def start(self):
        self.office = Office(self.program, self.folder / "office.db")

    def stop(self):
        self.office.killed()
        self.office = None

    def address(self):
        return f"http://127.0.0.1:{self.office.port}"

    def command(self, name):
        """What a tool is called with; each changes something."""
        folder, address = self.folder, self.address()
        return {
            "changes_from_csv": [folder / "lines.csv", self.made, "--by", "b", "--office", address],
            "a list": [folder / "shorter.csv", self.made, "--many", "--office", address],
            "session_from_csv": [folder / "csv", self.made, "--office", address],
            "a new session": [SMALL, folder / "other"],
            "users_from_csv": [folder / "people.csv", folder / "front", "--ledger", self.made],
            "next_session": [SMALL, self.made, folder / "next", "--office", address, "--program",
                             self.program, "--make"],
        }[name]

    def run(self, name, *words, before=()):
        name = {"a list": "changes_from_csv", "a new session": "session_from_csv"}.get(name, name)
        ended = subprocess.run([*before, TOP / "tools" / name, *words], capture_output=True,
                               text=True, timeout=SECONDS, env=ENVIRONMENT)
        return ended.returncode, ended.stdout, ended.stderr

    def state(self):
        """What the session is, without times and numbers of batches."""
        found = {"office": self.instance()}
        for folder in ("made", "next", "other"):
            made = self.folder / folder
            if not made.exists():
                continue
            with contextlib.closing(sqlite3.connect(made / "ledger.db")) as db:
                for table, columns in TABLES.items():
                    found[f"{folder}, {table}"] = sorted(db.execute(
                        f"SELECT {columns} FROM {table}"), key=repr)
                found[f"{folder}, integrity"] = db.execute("PRAGMA integrity_check").fetchone()
            for path in sorted((made / "now").rglob("*")):
                if path.is_file() and path.name != "sizes.json":
                    found[f"{folder}/{path.relative_to(made)}"] = re.sub(
                        r'("at": |"by": |, batch |T)[^}]*', "", path.read_text())
            found[f"{folder}, left"] = sorted(
                f"{path.name}" for path in made.rglob("*") if ".part" in path.name)
        front = self.folder / "front"
        if front.exists():
            users, given = (
                [line.partition(by)[0] for line in (front / name).read_text().splitlines()]
                for name, by in (("users", ":"), ("passwords.csv", ",")))
            found["front"] = users, given, (front / "callers").read_text()
        return found

    def instance(self):
        client = http.client.HTTPConnection("127.0.0.1", self.office.port, timeout=SECONDS)
        client.request("GET", "/instance", headers={"X-Caller": "office", "Connection": "close"})
        return client.getresponse().read().decode().splitlines()


def prepared(program, folder):
    """A session to begin each case with."""
    made = Session.begun(program, folder / "begun")
    csv = made.folder / "csv"
    shutil.copytree(SMALL, csv)
    (csv / "enrolments.csv").write_text(LIST + "z7,Zed,MATH101\n")
    exams = (csv / "exams.csv").read_text()
    (csv / "exams.csv").write_text(exams.replace("Calculus", "Calculus I"))
    (made.folder / "shorter.csv").write_text("".join(
        line for line in LIST.splitlines(True) if "s1," not in line))
    return made


@contextlib.contextmanager
def copy_of(begun, folder):
    """A session of its own, as it was before a tool ran."""
    with tempfile.TemporaryDirectory(dir=folder) as name:
        place = pathlib.Path(name) / "session"
        shutil.copytree(begun.folder, place, symlinks=True)
        made = Session(begun.program, place)
        try:
            yield made
        finally:
            if made.office:
                made.stop()


def calls_of(begun, folder, name):
    """How many calls of each kind a tool makes."""
    with copy_of(begun, folder) as made:
        log = made.folder / "strace"
        status, _, faults = made.run(name, *made.command(name), before=[
            "strace", "-f", "-qq", "--seccomp-bpf", "-o", log, "-e", f"trace={','.join(CALLS)}"])
        if status:
            raise ValueError(f"{name}: {faults}")
        lines = log.read_text().splitlines()
        return {call: sum(f" {call}(" in line for line in lines) for call in CALLS}


def wanted_state(begun, folder, name):
    with copy_of(begun, folder) as made:
        made.run(name, *made.command(name))
        return made.state()


def processes_of(program, folder):
    """The processes that serve a file in a folder."""
    found = []
    for path in pathlib.Path("/proc").glob("[0-9]*/cmdline"):
        with contextlib.suppress(OSError):
            if str(folder).encode() in path.read_bytes() and b"serve" in path.read_bytes():
                found.append(path.parent.name)
    return found


def heals(begun, folder, name, case, wanted, run):
    """Judges what the next run comes to, after something happened to a call."""
    call, way, number = case
    title = f"{name} {way} {call} {number}"
    with copy_of(begun, folder) as made:
        status, said, faults = made.run(name, *made.command(name), before=[
            "strace", "-f", "-qq", "--seccomp-bpf", "-o", "/dev/null", "-e",
            f"inject={call}{WAYS[way].format(number)}"])
        run.judge(f"{title}: no traceback", False, "Traceback" in faults)
        for _ in range(2):
            status, said, faults = made.run(name, *made.command(name))
            if name == "next_session" and "is there already" in faults:
                status, faults = 0, ""
            run.judge(f"{title}: the next run", (0, ""), (status, faults))
        found = made.state()
        run.judge(f"{title}: the same state", {}, {
            key: (wanted.get(key), found.get(key)) for key in {*wanted, *found}
            if wanted.get(key) != found.get(key)})
        run.judge(f"{title}: no process is left", 1, len(processes_of(begun.program, made.folder)))


def sweep(names, each, program, run):
    """Each of some tools, with something that happens at each call, or each Nth."""
    base = "/dev/shm" if os.access("/dev/shm", os.W_OK) else None
    with tempfile.TemporaryDirectory(dir=base) as folder:
        folder = pathlib.Path(folder)
        begun = prepared(program, folder)
        place = 0
        for name in names:
            wanted = wanted_state(begun, folder, name)
            for call, count in calls_of(begun, folder, name).items():
                for number in range(1, count + 1):
                    for way in WAYS:
                        place += 1
                        if place % each == 0:
                            heals(begun, folder, name, (call, way, number), wanted, run)


# ---- Versions of the ledger

def first_version(program, run):
    """A ledger of the first version is brought to today's by whatever tool opens it first."""
    with tempfile.TemporaryDirectory() as folder:
        folder = pathlib.Path(folder)
        (folder / "people.csv").write_text("user,student\nben,s2\n")
        made = folder / "made"
        for name, words in (
                ("a comparison", ["session_from_csv", "--check", made]),
                ("a further export", ["session_from_csv", SMALL, made]),
                ("users", ["users_from_csv", folder / "people.csv", folder / "front", "--ledger",
                           made])):
            shutil.rmtree(made, ignore_errors=True)
            made.mkdir()
            path = made / "ledger.db"
            shutil.copy(FIRST, path)
            with contextlib.closing(sqlite3.connect(path)) as db:
                digest = db.execute("SELECT digest FROM states ORDER BY number DESC").fetchone()[0]
                students = db.execute("SELECT number, id, name FROM students").fetchall()
            ended = subprocess.run([TOP / "tools" / words[0], *words[1:]], capture_output=True,
                                   text=True, timeout=SECONDS, env=ENVIRONMENT)
            run.judge(f"{name}: its status", (0, ""), (ended.returncode, ended.stderr))
            ledger = Ledger.opened_at(path)
            run.judge(f"{name}: the version", ("3",), ledger.db.execute(
                "SELECT value FROM about WHERE key = 'version'").fetchone())
            run.judge(f"{name}: students", students, ledger.db.execute(
                "SELECT number, id, name FROM students").fetchall())
            run.judge(f"{name}: the order of batches", [
                ("list", 1), ("page", 2), ("hand", 3)], ledger.db.execute(
                "SELECT source, turn FROM batches ORDER BY turn").fetchall())
            run.judge(f"{name}: the digest", True, digest == ledger.digest() or name == "users")
            run.judge(f"{name}: the office's enrolments", {
                (1, 0), (1, 3), (2, 0), (3, 0), (3, 1), (3, 2), (4, 0)}, ledger.expected_pairs())
            ledger.close()


def next_version(program, run):
    """A new column comes in one transaction; tools of today refuse such a ledger."""
    with tempfile.TemporaryDirectory() as folder:
        path = pathlib.Path(folder) / "ledger.db"
        shutil.copy(FIRST, path)
        later = versions.VERSION + 1
        versions.STEPS[later - 1] = ("ALTER TABLE rooms ADD COLUMN floor TEXT",)
        versions.VERSION = later
        try:
            ledger = Ledger.opened_at(path)
            run.judge("a new column", ["number", "name", "building", "capacity", "penalty",
                                       "floor"], [row[1] for row in ledger.db.execute(
                                           "PRAGMA table_info(rooms)")])
            ledger.close()
        finally:
            del versions.STEPS[later - 1]
            versions.VERSION = later - 1
        words = (f"{path} is a ledger of version {later}, and these tools know versions up to "
                 f"{later - 1}: use the tools that wrote it, or later ones")
        for name, opened in (("to write", Ledger.opened_at), ("to read", Ledger.read_at)):
            try:
                opened(path)
                said = ""
            except NotALedger as fault:
                said = f"{fault}"
            run.judge(f"a ledger of a later version, {name}", words, said)
        for tool in (["session_from_csv", "--check"], ["session_from_csv", SMALL]):
            ended = subprocess.run([TOP / "tools" / tool[0], *tool[1:], folder],
                                   capture_output=True, text=True, timeout=SECONDS)
            run.judge(f"{tool[0]} refuses it", (1, f"{words}\n"), (ended.returncode, ended.stderr))


def killed_amid_versions(program, run):
    """A kill at each step leaves one version or the other, and the next opening is whole."""
    with tempfile.TemporaryDirectory() as folder:
        made = pathlib.Path(folder)
        path = made / "ledger.db"
        seen = set()
        for call in ("pwrite64", "fsync", "fdatasync", "unlink", "ftruncate"):
            for number in range(1, 200):
                for left in made.iterdir():
                    left.unlink()
                shutil.copy(FIRST, path)
                ended = subprocess.run([
                    "strace", "-f", "-qq", "--seccomp-bpf", "-o", "/dev/null", "-e",
                    f"inject={call}:signal=KILL:when={number}", TOP / "tools" / "session_from_csv",
                    "--check", made], capture_output=True, text=True, timeout=SECONDS,
                    env=ENVIRONMENT)
                with contextlib.closing(sqlite3.connect(path)) as db:
                    version, = db.execute(
                        "SELECT value FROM about WHERE key = 'version'").fetchone()
                    columns = len(db.execute("PRAGMA table_info(batches)").fetchall())
                    seen.add((version, columns))
                    run.judge(f"killed at {call} {number}", "ok", db.execute(
                        "PRAGMA integrity_check").fetchone()[0])
                Ledger.opened_at(path).close()
                if ended.returncode == 0:
                    break
        run.judge("one version or the other", {("1", 6), ("2", 8), ("3", 8)}, seen)


def counted(_):
    return Cases("killed")


def main():
    words = argparse.ArgumentParser(description=__doc__.partition("\n")[0])
    words.add_argument("program", type=pathlib.Path)
    words.add_argument("--each", type=int, default=10)
    words.add_argument("--only", action="append", default=[])
    given = words.parse_args()
    if not shutil.which("strace"):
        print("killed: left out without strace")
        return 0
    program = given.program.resolve()
    run = Cases("killed")
    tests = {"versions": functools.partial(first_version, program),
             "the next version": functools.partial(next_version, program),
             "amid versions": functools.partial(killed_amid_versions, program)}
    for name in ("changes_from_csv", "a list", "session_from_csv", "a new session",
                 "users_from_csv", "next_session"):
        tests[name] = functools.partial(sweep, [name], given.each, program)
    run.run_side_by_side({name: test for name, test in tests.items()
                          if name in given.only or not given.only}, counted)
    return run.end()


if __name__ == "__main__":
    sys.exit(main())
