#!/usr/bin/env python3
"""run_whole.py PROGRAM [--each N] [--first N] [--only TEST]: a session is copied and put back.

A copy has all parts, and is verified. Something changes between any two steps of a copy; a restore
is killed at each call that changes something (each Nth; 100 if it isn't said), and is finished by
the next run. What is said to be gone is what is gone. A failing case is printed with what was
expected and what came, and the last line counts the cases. Needs strace.
"""
import argparse
import contextlib
import datetime
import functools
import json
import os
import pathlib
import re
import shutil
import sqlite3
import subprocess
import sys
import tempfile
import threading
import time

import run_restored
import waiting
from run_killed import CALLS
from run_restored import SMALL, SOLUTION, XAVIER, YOLANDA
from run_serve import Run
from tools_path import TOP
from registry import copies, history
from registry.copies import STEPS, Whole
from registry.ledger import locked

SECONDS = 180
PARTS = ["about.json", "callers", "digests", "history.db", "ledger.db", "office.db", "users"]


class Session(run_restored.Session):
    """A session with a front's log, users, and a folder of copies."""

    def __init__(self, run, name):
        super().__init__(run, name)
        self.database, self.log = self.folder / "office.db", self.folder / "changes.log"
        self.front, self.copies = self.folder / "front", self.folder / "copies"
        self.front.mkdir()
        self.log.touch()
        for name in ("users", "callers"):
            (self.front / name).write_text(f"{name} of all\n")
        with contextlib.closing(sqlite3.connect(self.made / "history.db")) as db:
            db.executescript(history.TABLES)

    def words(self, *more):
        return ["--ledger", self.made, "--front", self.front, "--log", self.log, *more]

    def runs(self, name, *words, before=()):
        ended = waiting.run([*before, TOP / "tools" / name, *map(str, words)], capture_output=True,
                            text=True, timeout=SECONDS, env={
                                **os.environ, "EXAMOFFICE": str(self.run.program),
                                "PYTHONDONTWRITEBYTECODE": "1"})
        return ended.returncode, ended.stdout, ended.stderr

    def back_up(self):
        """A copy of all; its folder."""
        status, said, faults = self.runs("backup", self.database, self.copies, *self.words(
            "--wait", "3"))
        self.run.judge("a copy", (0, ""), (status, faults))
        return pathlib.Path(said.strip())

    def restore(self, copy, *more, before=()):
        return self.runs("restore", copy, self.database, *self.words(*more), before=before)

    def logged(self, method, path, body="", user="ada", status=200, seconds=0):
        """Asks the office, and writes what the front's log would have."""
        self.ask(method, path, body.encode())
        at = datetime.datetime.now().astimezone() + datetime.timedelta(seconds=seconds)
        with self.log.open("a") as file:
            file.write(json.dumps({
                "at": at.isoformat(timespec="seconds"), "method": method, "path": path,
                "status": status, "caller": "office", "user": user, "session": "office",
                "body": body[:200]}) + "\n")

    def state(self):
        """What the session is: what the office says, and who is who."""
        return (self.ask("GET", "/instance"), self.ask("GET", "/publication/seats"),
                self.ask("GET", "/drafts/1"), self.numbers())

    def is_together(self):
        return self.tool("session_from_csv", "--check", self.made, "--office", self.address,
                         "--log", self.log)[::2]

    def lost(self):
        """The disk dies."""
        self.office.killed()
        for path in self.folder.glob("office.db*"):
            path.unlink() if path.is_file() else shutil.rmtree(path)
        shutil.rmtree(self.made)


@contextlib.contextmanager
def session(run, name):
    made = Session(run, name)
    try:
        yield made
    finally:
        made.office.killed()


def what_a_copy_has(run):
    """Its parts, with digests; each part that isn't as it was written is named."""
    with session(run, "parts") as it:
        copy = it.back_up()
        run.judge("its parts", PARTS, sorted(path.name for path in copy.iterdir()))
        run.judge("nothing has changed", copy, it.back_up())
        run.judge("it is whole", (0, f"{copy} is whole\n", ""), it.runs("backup", "--verify", copy))
        (it.front / "users").write_text("another\n")
        second = it.back_up()
        run.judge("another user is a change", [True, True], [
            second != copy, (second / "ledger.db").samefile(copy / "ledger.db")])
        for name in PARTS:
            other = it.folder / "other"
            shutil.copytree(copy, other)
            content = bytearray((other / name).read_bytes())
            content[len(content) // 2] ^= 1
            (other / name).write_bytes(content)
            status, _, faults = it.runs("backup", "--verify", other)
            run.judge(f"{name} is damaged", (1, True),
                      (status, name in faults or name == "digests" and faults != ""))
            (other / name).unlink()
            run.judge(f"{name} is missing", 1, it.runs("backup", "--verify", other)[0])
            shutil.rmtree(other)
        (copy / "more").touch()
        run.judge("a file too many", (1, f"backup: {copy}: more is in no list of digests\n"), (
            lambda status, _, faults: (status, faults))(*it.runs("backup", "--verify", copy)))
        damaged = it.folder / "copies" / ".office.json"
        long_ago = "2026-01-01T00:00:00+00:00"
        damaged.write_text(json.dumps({"verified": long_ago, "older": long_ago}))
        (second / "users").write_text("changed")
        status, _, faults = it.runs("backup", it.database, it.copies, *it.words())
        run.judge("by the timer, the newest and an older one", (1, 2, [
            f"the copy {one.name} is damaged: {fault}" for one, fault in (
                (second, "users isn't as it was written"),
                (copy, "more is in no list of digests"))]), (
                    status, faults.count("\n"),
                    sorted((it.copies / "office.told").read_text().splitlines(), reverse=True)))


def changes_meanwhile(run):
    """Something changes between any two steps of a copy: everybody keeps their number."""
    for place in range(len(STEPS) + 1):
        with session(run, f"meanwhile{place}") as it:
            def change(it=it):
                it.sent(SMALL + XAVIER, "--many")
                (it.front / "callers").write_text(f"xavier cand:{it.numbers()['x1']};\n")

            steps = [*STEPS]
            steps.insert(place, lambda *_, change=change: change())
            copy = it.folder / "copy"
            copy.mkdir()
            os.environ["EXAMOFFICE"] = str(run.program)
            told = copies.take(Whole(it.database, it.made, it.front, it.log), copy, 3, steps)
            run.judge(f"a change before step {place}, told", [place < len(STEPS)],
                      [bool(told["told"])])
            numbers, expected = it.numbers(), it.ask("GET", "/instance")
            it.lost()
            (it.front / "callers").unlink()
            status, said, faults = it.restore(copy)
            run.judge(f"a change before step {place}", (0, ""), (status, faults))
            it.start()
            known = it.numbers().items()
            has_xavier = place < len(STEPS)
            run.judge(f"a change before step {place}: numbers", True, known <= numbers.items())
            run.judge(f"a change before step {place}: the office", has_xavier,
                      it.ask("GET", "/instance") == expected)
            named = re.findall("cand:([0-9]+)", (it.front / "callers").read_text())
            run.judge(f"a change before step {place}: who may sign in is known", True,
                      {*map(int, named)} <= {*dict(known).values()})
            run.judge(f"a change before step {place}: all belongs together", (0, ""),
                      it.is_together())
            run.judge(f"a change before step {place}: a list", 0,
                      it.sent(SMALL + XAVIER + YOLANDA, "--many")[0])
            now = it.numbers()
            run.judge(f"a change before step {place}: nobody has another's number", False,
                      now["y1"] == numbers["x1"])


def put_back(run):
    """A restore beside a running office is refused; what is gone is listed; also the second one."""
    with session(run, "put back") as it:
        it.logged("PUT", "/drafts/1", SOLUTION.decode())
        it.logged("POST", "/drafts/1/publish")
        copy, state = it.back_up(), it.state()
        run.judge("beside an office", (1, "", f"restore: the office of {it.database} runs: stop it "
                                       "first\n"), it.restore(copy))
        it.logged("POST", "/drafts/1/exams/3/move", '{"period":2,"room":1}')
        it.logged("PUT", "/batches/7", "student,exam,action\n1,1,add\n", "ben")
        it.logged("POST", "/drafts/1/publish", status=409)
        it.sent(SMALL + XAVIER, "--many")
        it.office.killed()
        log = (it.folder / "office.db-wal").read_bytes()
        (it.folder / "office.db-journal").write_bytes(b"old")
        status, said, faults = it.restore(copy, "--all")
        run.judge("it is put back", (0, ""), (status, faults))
        run.judge("what is gone", ["ada: moved, draft 1, exam 3 {\"period\":2,\"room\":1}",
                                   "ben: batch 7"],
                  [line[20:] for line in said.splitlines()[-2:]])
        run.judge("how much", "gone: 2", said.splitlines()[-3])
        it.start()
        run.judge("it is as it was", state, it.state())
        run.judge("no old log", [True, False], [
            log not in (it.folder / "office.db-wal").read_bytes(),
            (it.folder / "office.db-journal").exists()])
        run.judge("all belongs together", (0, ""), it.is_together())
        run.judge("then a list", 0, it.sent(SMALL + YOLANDA, "--many", "--log", it.log)[0])
        run.judge("a number of its own", 10_005, it.numbers()["y1"])
        it.agrees("put back")
        second = it.back_up()
        it.office.killed()
        run.judge("a second time, with a newer ledger there", (0, "gone: 0"), (
            lambda status, said, _: (status, f"gone: {said.count('gone:')}"))(*it.restore(second)))
        third = it.restore(copy)
        run.judge("from the first copy, with that ledger", (0, True), (
            third[0], "is sent again: 1 added" in third[1]))
        it.start()
        run.judge("the office has the list", [[1, 2], [2, 3], [3], [1, 10_005]], it.candidates())
        run.judge("a list sends nothing", (0, "0 to add, 0 to drop, 0 new students, 0 kept\n"),
                  it.sent(SMALL + YOLANDA, "--log", it.log)[:2])
        it.agrees("put back twice")


def of_other_kinds(run):
    """A copy of an older version, a damaged one, none; a log that was rotated or is lost."""
    with session(run, "kinds") as it:
        copy = it.back_up()
        it.logged("POST", "/drafts/1/exams/3/move", "{}", user="cleo")
        it.log.rename(it.folder / "changes.log.1")
        it.log.touch()
        it.logged("PUT", "/exams/1/owner", '{"dept":2}')
        it.office.killed()
        status, said, faults = it.restore(copy)
        run.judge("with a rotated log", (0, "", ["cleo: moved, draft 1, exam 3 {}",
                                                 'ada: owner, exam 1 {"dept":2}']),
                  (status, faults, [line[20:] for line in said.splitlines()[-2:]]))
        it.log.unlink()
        status, said, _ = it.restore(copy)
        run.judge("without a log", (0, True), (status, "no log of the front, so nobody knows what "
                                               "else was changed since " in said))
        alone = it.folder / "office-20270514T120000Z.db"
        shutil.copy(copy / "office.db", alone)
        run.judge("an office alone", 0, it.restore(alone)[0])
        run.judge("none", (1, "", f"restore: {it.folder}/none: there is no copy {it.folder}/none\n"
                           ), it.restore(it.folder / "none"))
        (copy / "office.db").write_bytes(b"SQLite format 3\0")
        before = it.database.read_bytes()
        run.judge("a damaged one", (1, "", f"restore: {copy}: office.db isn't as it was written\n"),
                  it.restore(copy))
        run.judge("nothing was touched", before, it.database.read_bytes())
        it.log.touch()
        it.start()
        run.judge("all belongs together", (0, ""), it.is_together())


def others_wait(run):
    """Nightly jobs wait for a restore, and say so after one that was cut off; two at once."""
    with session(run, "wait") as it:
        copy = it.back_up()
        it.office.killed()
        (it.made / "restoring").write_text(f"{copy}\n")
        words = (f"{it.made} is being put back from a copy, and that was cut off: finish it by the "
                 "same words of restore\n")
        run.judge("a list, amid a restore", (1, "", words), it.sent(SMALL))
        (it.made / "restoring").unlink()
        with locked(it.made):
            waits = subprocess.Popen([TOP / "tools" / "restore", copy, it.database, *it.words()],
                                     env={**os.environ, "EXAMOFFICE": str(run.program)},
                                     stdout=subprocess.DEVNULL)
            time.sleep(1)
            run.judge("a restore waits for a tool", None, waits.poll())
        run.judge("then it is done", 0, waiting.ended(waits, SECONDS))
        came = []
        threads = [threading.Thread(target=lambda: came.append(it.restore(copy)[0]))
                   for _ in range(2)]
        for thread in threads:
            thread.start()
        for thread in threads:
            thread.join()
        run.judge("two at once", [0, 0], came)
        it.start()
        run.judge("all belongs together", (0, ""), it.is_together())


def in_one_second(run):
    """A restore moves nothing onto what another one of the same second put aside."""
    with session(run, "second") as it:
        it.logged("PUT", "/drafts/1", SOLUTION.decode())
        it.logged("POST", "/drafts/1/publish")
        it.sent(SMALL + XAVIER, "--many")
        copy, state = it.back_up(), it.state()
        it.office.killed()
        for seconds in range(1_000):
            moment = datetime.datetime.now() + datetime.timedelta(seconds=seconds)
            (it.made / f"before-{moment:%Y%m%dT%H%M%S}" / "states" / "0").mkdir(
                parents=True, exist_ok=True)
        run.judge("a restore in the second of another", (0, ""), it.restore(copy, "--all")[::2])
        it.start()
        run.judge("all is as it was", state, it.state())


def killed(run, each, first=1):
    """A restore is killed at each call that changes something, and the next one finishes it."""
    with session(run, "killed") as it:
        it.logged("PUT", "/drafts/1", SOLUTION.decode())
        it.logged("POST", "/drafts/1/publish")
        it.sent(SMALL + XAVIER, "--many")
        copy, state = it.back_up(), it.state()
        it.sent(SMALL + XAVIER + YOLANDA, "--many")
        it.office.killed()
        for call in CALLS:
            for number in range(first, 5_000, each):
                words = ["strace", "-f", "--seccomp-bpf", "-qq", "-o", "/dev/null", "-e",
                         f"trace={call}", "-e", f"inject={call}:signal=KILL:when={number}"]
                status = it.restore(copy, "--all", before=words)[0]
                if status == 0:
                    break
                again = it.restore(copy, "--all")
                run.judge(f"killed at {call} {number}", (0, ""), again[::2])
                it.start()
                run.judge(f"killed at {call} {number}: as it was", state, it.state())
                left = [path.name for folder in (it.folder, it.made) for path in folder.iterdir()
                        if "restoring" in path.name or ".part" in path.name]
                run.judge(f"killed at {call} {number}: nothing is left", [], left)
                it.office.killed()
        it.start()
        run.judge("after all that", (0, ""), it.is_together())


def apart(folder, program, name):
    return Run.apart(program, folder, "whole", name)


def main():
    words = argparse.ArgumentParser(description=__doc__.partition("\n")[0])
    words.add_argument("program", type=pathlib.Path)
    words.add_argument("--each", type=int, default=100)
    words.add_argument("--first", type=int, default=1)
    words.add_argument("--only")
    given = words.parse_args()
    tests = {test.__name__: test for test in (what_a_copy_has, changes_meanwhile, put_back,
                                              of_other_kinds, others_wait, in_one_second)}
    tests["killed"] = functools.partial(killed, each=given.each, first=given.first)
    tests = {name: test for name, test in tests.items() if given.only in (None, name)}
    with tempfile.TemporaryDirectory() as folder:
        run = Run(given.program.resolve(), folder, "whole")
        run.run_side_by_side(tests, functools.partial(apart, folder, run.program))
    return run.end()


if __name__ == "__main__":
    sys.exit(main())
