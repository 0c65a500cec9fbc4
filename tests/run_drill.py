#!/usr/bin/env python3
"""run_drill.py PROGRAM [--days N]: a disk dies in a day's traffic, and the session is put back.

A day's traffic comes in some seconds: lists of the student system, batches of the registrar, edits
and publications, through a front that logs them; copies are made one after another, as the
package's timer does. At a random moment the office is killed and its disk is gone, with ledger and
history; the front's log is on another. Then only what OPERATING says is typed: the newest copy is
put back, and the office serves. No change is lost that was answered before that copy began; what is
said to be gone is exactly what is; the next full list makes office and list the same. A failing day
is printed with what happened in it, and the last line counts the cases.
"""
import argparse
import datetime
import json
import pathlib
import random
import shutil
import sys
import tempfile
import threading
import time

import waiting
from run_changes import SMALL
from run_restored import SOLUTION
from run_serve import Run
from run_whole import Session

SEED, SECONDS = 2031, 180
EXAMS = "MATH101", "MATH102", "PHYS101", "PHYS102"
# What OPERATING says of a candidate's page, in calm seconds.
RTO = 60


class Day(Session):
    """A day of a session, in which changes are answered, and copies are made meanwhile."""

    def __init__(self, run, name, seed):
        super().__init__(run, name)
        self.chance, self.answered, self.list = random.Random(seed), [], SMALL
        self.copied, self.is_over = [], threading.Event()
        self.logged("PUT", "/drafts/1", SOLUTION.decode())
        self.logged("POST", "/drafts/1/publish")

    def note(self, what, at):
        self.answered.append((at, what))

    def act(self, number):
        """One change, with when it was answered."""
        kind = self.chance.random()
        if kind < 0.25:
            self.list += f"n{number},New {number},{self.chance.choice(EXAMS)}\n"
            status, said, faults = self.sent(self.list, "--many", "--log", self.log)
            self.run.judge(f"a list amid the day: {faults}", 0, status)
        elif kind < 0.5:
            self.by_log("PUT", f"/batches/{number}", f"student,exam,action\n{number % 3 + 1},"
                        f"{self.chance.randrange(4)},add\n", f"batch {number}")
        elif kind < 0.9:
            body = json.dumps({"period": self.chance.choice((2, 3)), "room": 1})
            self.by_log("POST", "/drafts/1/exams/3/move", body,
                        f"moved, draft 1, exam 3 {body}")
        else:
            self.by_log("PUT", "/exams/1/owner", '{"dept": %d}' % (number % 5),
                        'owner, exam 1 {"dept": %d}' % (number % 5))

    def by_log(self, method, path, body, what):
        self.logged(method, path, body)
        self.note(what, datetime.datetime.now(datetime.timezone.utc))

    def copy_all_day(self):
        while not self.is_over.is_set():
            status, said, _ = self.runs("backup", self.database, self.copies, *self.words(
                "--wait", "1.5"))
            if status == 0:
                self.copied.append(pathlib.Path(said.strip()))

    def live(self, seconds):
        """A day, until its disk dies."""
        copying = threading.Thread(target=self.copy_all_day)
        copying.start()
        end = waiting.calm() + seconds
        number = 1_000
        while waiting.calm() < end or len(self.copied) < 2:
            self.act(number)
            number += 1
            time.sleep(self.chance.choice((0, 0.1, 0.3, 2.5)))
        self.lost()
        self.is_over.set()
        copying.join()


def drill(run, seed):
    """A day that ends with a dead disk, and what is there when OPERATING's block was typed."""
    it = Day(run, f"day{seed}", seed)
    try:
        it.live(6 + seed % 5)
        copy = sorted(it.copies.glob("office-*Z"))[-1]
        begun = datetime.datetime.fromisoformat(json.loads(
            (copy / "about.json").read_text())["begun"])
        then = waiting.calm()
        status, said, faults = it.restore(copy)
        run.judge("it is put back", (0, ""), (status, faults))
        it.start()
        run.judge("a candidate's page", True, '"penalty"' in it.ask("GET", "/me/penalty",
                                                                    caller="cand:2"))
        run.judge("how long that took", True, waiting.calm() - then < RTO)
        judge_gone(run, it, said, begun)
        status, _, faults = it.sent(it.list, "--many", "--take-all", "--log", it.log)
        run.judge("the next list", (0, ""), (status, faults))
        numbers = it.numbers()
        wanted = {(numbers[line.split(",")[0]], EXAMS.index(line.split(",")[2]))
                  for line in it.list.splitlines()[1:]}
        run.judge("the office has the list", wanted, {
            (number, exam) for exam, taking in enumerate(it.candidates()) for number in taking})
        it.agrees("after the drill")
    finally:
        it.is_over.set()
        it.office.killed()


def judge_gone(run, it, said, begun):
    """What is gone is what was answered after the copy, and is said so."""
    gone = [line[20:].partition(": ")[2] for line in said.splitlines() if ": " in line[20:]
            and line[:2] == "20"]
    sure = [line for line in gone if not line.endswith(" (may still be there)")]
    after = [what for at, what in it.answered if at > begun]
    print(f"{run.about}: {len(it.answered)} changes beside lists, {len(it.copied)} copies, "
          f"{len(gone)} gone")
    run.judge("nothing else is said to be gone", True, set(sure) <= set(after))
    has = {f"batch {number}" for number in range(1_000, 2_000)
           if "batch-differs" in it.ask("PUT", f"/batches/{number}",
                                        b"student,exam,action\n0,1999,drop\n")}
    batches = [what for _, what in it.answered if what.startswith("batch")]
    run.judge("each batch is there, or said to be gone", {*batches} - has, {
        line for line in gone if line.startswith("batch")})
    told = [line.removesuffix(" (may still be there)") for line in gone]
    late = [what for at, what in it.answered
            if at > begun + datetime.timedelta(seconds=3) and what not in has]
    run.judge("all that is gone is said", [], [what for what in late if what not in told])
    lost = [at for at, what in it.answered if what in sure]
    if lost:
        run.judge("at most five minutes", True, max(lost) - min(lost)
                  < datetime.timedelta(minutes=5))


def main():
    words = argparse.ArgumentParser(description=__doc__.partition("\n")[0])
    words.add_argument("program", type=pathlib.Path)
    words.add_argument("--days", type=int, default=2)
    given = words.parse_args()
    with tempfile.TemporaryDirectory() as folder:
        run = Run(given.program.resolve(), folder, "drill")
        for seed in range(SEED, SEED + given.days):
            drill(run, seed)
            shutil.rmtree(run.folder / f"day{seed}")
    return run.end()


if __name__ == "__main__":
    sys.exit(main())
