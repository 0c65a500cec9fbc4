#!/usr/bin/env python3
"""run_restored.py PROGRAM: a ledger or an office is put back from a copy, and the tools go on.

A number that the office has is never given to somebody else, and what the ledger sent is sent again
to an office that lacks it, also the second time. A failing case is printed with what was expected
and what came, and the last line counts the cases.
"""
import contextlib
import datetime
import json
import pathlib
import shutil
import sqlite3
import subprocess
import sys
import tempfile

import run_changes
from run_changes import OLDER, SMALL, counts, did, kept
from run_serve import Office, Run
from tools_path import TOP

SECONDS = 180
SOLUTION = (TOP / "examples" / "small.sol").read_bytes()
XAVIER, YOLANDA = "x1,Xavier Xu,MATH101\n", "y1,Yolanda Young,PHYS102\n"
ADVICE = "put the newer ledger back, or say --adopt\n"


class Session(run_changes.Session):
    """An office of the small example and its ledger, which are put back from copies."""

    def copied(self, name):
        """A copy of the ledger or of the office's file as it is now."""
        path = {"ledger": self.made / "ledger.db", "office": self.folder / "office.db"}[name]
        copy = self.folder / f"{name}.{len(list(self.folder.iterdir()))}"
        if name == "office":
            self.office.killed()
        with contextlib.closing(sqlite3.connect(path)) as source, \
                contextlib.closing(sqlite3.connect(copy)) as target:
            source.backup(target)
        if name == "office":
            self.start()
        return copy

    def start(self):
        self.office = Office(self.run.program, self.folder / "office.db", port=self.office.port)

    def put_ledger_back(self, copy):
        """The folder is lost but for a copy of its ledger."""
        shutil.rmtree(self.made)
        self.made.mkdir()
        shutil.copy(copy, self.made / "ledger.db")

    def put_office_back(self, copy):
        self.office.killed()
        for end in ("", "-wal"):
            (self.folder / f"office.db{end}").unlink(missing_ok=True)
        shutil.copy(copy, self.folder / "office.db")
        self.start()

    def tool(self, name, *words):
        """The status, the output and the faults of a tool."""
        ended = subprocess.run([TOP / "tools" / name, *words], capture_output=True, text=True,
                               timeout=SECONDS)
        return ended.returncode, ended.stdout, ended.stderr

    def numbers(self):
        return dict(self.rows("SELECT id, number FROM students"))


@contextlib.contextmanager
def session(run, name):
    made = Session(run, name)
    try:
        yield made
    finally:
        made.office.killed()


def may_be_older(*differing):
    differ = " differs" if len(differing) == 1 else "s differ"
    return (f"{OLDER}{len(differing)} enrolment{differ}: {', '.join(differing)}, and there is no "
            "log\n")


def known(where, number, codes=""):
    return f"{where} has the number {number}{codes}, which the ledger doesn't know: {ADVICE}"


def older_ledger(run):
    """The number of somebody whom only the office knows is a fault for every tool, and is given to
    nobody; then it is an unknown person's."""
    with session(run, "older") as it:
        copy = it.copied("ledger")
        run.judge("a new student", 0, it.sent(SMALL + XAVIER, "--many")[0])
        run.judge("their number", 4, it.numbers()["x1"])
        it.put_ledger_back(copy)
        fault = known("the office", 4, " (MATH101)")
        tonight = SMALL + YOLANDA + XAVIER
        csv = it.folder / "csv"
        shutil.copytree(TOP / "examples" / "small", csv)
        (csv / "enrolments.csv").write_text(tonight)
        next_one = it.folder / "next"
        older = may_be_older("MATH101 of 4 added")
        for name, came in (
                ("a list", it.sent(tonight, "--many")),
                ("what would be sent", it.sent(tonight, "--many", "--show")),
                ("lines", it.sent("student,exam,action,name\ny1,,new,Y\n"))):
            run.judge(f"{name} with an older ledger", (1, older, fault), came)
        for name, came in (
                ("a comparison", it.tool("session_from_csv", "--check", it.made, "--office",
                                         it.address)),
                ("a further export", it.tool("session_from_csv", csv, it.made, "--office",
                                             it.address)),
                ("the next session", it.tool("next_session", csv, it.made, next_one, "--office",
                                             it.address, "--program", run.program, "--make"))):
            run.judge(f"{name} with an older ledger", (1, "", fault), came)
        run.judge("lists to print", (1, fault), it.tool(
            "lists", it.made, it.folder / "out", "--office", it.address)[::2])
        run.judge("nobody has the number", {"s1": 1, "s2": 2, "s3": 3}, it.numbers())
        adopted = it.tool("session_from_csv", "--adopt", it.made, "--office", it.address)
        run.judge("it is taken over", (0, (
            f"{may_be_older('MATH101 of unknown-4 added')}the number 4 is taken over as unknown-4\n"
            "the ledger has all that the office has\n"), ""), adopted)
        it.agrees("after that")
        run.judge("the list then", (0, counts(2, 0, 2, 1) + did(2, 0)), (
            lambda status, said, _: (status, "".join(line for line in said.splitlines(True)
                                                     if " is kept: " not in line)))(
            *it.sent(tonight, "--many")))
        run.judge("who has which number", {"s1": 1, "s2": 2, "s3": 3, "unknown-4": 4,
                                           "y1": 10_006, "x1": 10_007}, it.numbers())
        run.judge("whom the office has", [[1, 2, 4, 10_007], [2, 3], [3], [1, 10_006]],
                  it.candidates())
        it.agrees("older ledger")
        it.put_ledger_back(copy)
        run.judge("the second time, adopted by a list", (0, {4, 10_006, 10_007}), (
            it.sent(tonight, "--many", "--adopt")[0],
            {number for one, number in it.numbers().items() if one.startswith("unknown-")}))
        it.agrees("older ledger, the second time")


def by_other_ways(run):
    """Numbers that came by curl, that only a seat has, and that only the history has."""
    with session(run, "curl") as it:
        it.by_page(7, "4,0,add")
        run.judge("a number by curl", (1, may_be_older("MATH101 of 4 added"),
                                       known("the office", 4, " (MATH101)")),
                  it.sent(SMALL + XAVIER, "--many"))
        it.ask("PUT", "/drafts/1", SOLUTION)
        it.by_page(8, "2,0,drop")
        it.ask("POST", "/drafts/1/publish")
        it.by_page(9, "4,0,drop")
        run.judge("a number that has a seat", (1, may_be_older("MATH101 of s2 dropped"),
                                               known("the office", 4)),
                  it.sent(SMALL + XAVIER, "--many"))
    with session(run, "history") as it:
        with contextlib.closing(sqlite3.connect(it.made / "history.db")) as db:
            db.executescript("CREATE TABLE seats (student INTEGER NOT NULL);"
                             " INSERT INTO seats VALUES (3), (7), (7);")
        run.judge("a number in the history", (1, "", known("history.db", 7)),
                  it.sent(SMALL + XAVIER, "--many"))
        csv = it.folder / "csv"
        shutil.copytree(TOP / "examples" / "small", csv)
        run.judge("without an office", (1, "", known("history.db", 7)),
                  it.tool("session_from_csv", csv, it.made))


def unasked(run):
    """Numbers that were given while no office was asked."""
    with session(run, "unasked") as it:
        csv = it.folder / "csv"
        shutil.copytree(TOP / "examples" / "small", csv)
        (csv / "enrolments.csv").write_text(SMALL + YOLANDA)
        it.by_page(7, "4,0,add")
        run.judge("without an office", 0, it.tool("session_from_csv", csv, it.made)[0])
        run.judge("the number is another's", (1, may_be_older("MATH101 of y1 added"), (
            "the office has the number 4 (MATH101), which the ledger gave to y1 while no office "
            f"was asked: {ADVICE}")), it.sent(SMALL + YOLANDA, "--many"))
        log = it.folder / "changes.log"
        for day, status in ((-1, 1), (1, 0)):
            moment = datetime.datetime.now().astimezone() + datetime.timedelta(days=day)
            log.write_text(json.dumps({"at": moment.isoformat(), "path": "/batches/7",
                                       "status": 200, "user": "ada"}))
            run.judge(f"sent {day} days after it was given", status,
                      it.sent(SMALL + YOLANDA, "--many", "--show", "--log", log)[0])
        run.judge("it is an unknown person's", (0, {"y1": 5, "unknown-4": 4}), (
            it.sent(SMALL + YOLANDA, "--many", "--adopt")[0],
            {one: number for one, number in it.numbers().items() if number > 3}))
        it.agrees("unasked")
        (csv / "enrolments.csv").write_text(SMALL + YOLANDA + XAVIER)
        run.judge("after batches were sent", (1, "", (
            "no number for 1 new student without --office URL: the office may have numbers that "
            "the ledger doesn't know\n")), it.tool("session_from_csv", csv, it.made))
        run.judge("with the office", (0, 10_007), (it.tool(
            "session_from_csv", csv, it.made, "--office", it.address)[0], it.numbers()["x1"]))


def by_the_log(run):
    """The front's log says that a tool sent what the ledger lacks, or who sent it from the page."""
    with session(run, "log") as it:
        log = it.folder / "changes.log"

        def logged(number, user, status=200):
            with log.open("a") as file:
                file.write(json.dumps({"at": "2026-11-30T23:00:00+00:00", "status": status,
                                       "path": f"/batches/{number}", "user": user}) + "\n")

        log.write_text("")
        run.judge("nothing is there", (0, counts(0, 0), ""), it.sent(SMALL, "--log", log))
        it.by_page(7, "1,3,drop")
        logged(7, "program:nightly")
        logged(8, "ada", 409)
        older = ("warning: the ledger is older than its office, which took batch 7, by the front's "
                 "log from program:nightly on 30 November; 1 enrolment differs: PHYS102 of s1 "
                 "dropped\n")
        keeps = ("PHYS102 of Ada Archer (s1), dropped, is kept: changed here on 30 November by "
                 "program:nightly, batch 7\n")
        for name in ("an older ledger", "the second time"):
            run.judge(name, (0, older + counts(0, 0, 0, 1) + keeps, ""),
                      it.sent(SMALL, "--log", log))
        run.judge("no new number", (1, older, f"no number for 1 new student while the ledger lacks "
                                    f"batches that the office took; {ADVICE}"),
                  it.sent(SMALL + XAVIER, "--many", "--log", log))
        run.judge("it is settled", (0, [True, False]), (lambda came, later: (came[0], [
            "is older" in said for said in (came[1], later[1])]))(
            it.tool("session_from_csv", "--adopt", it.made, "--office", it.address, "--log", log),
            it.sent(SMALL + XAVIER, "--many", "--log", log)))
        it.by_page(9, "3,0,add")
        logged(9, "ada")
        logged(10, "ben", 400)
        run.judge("somebody's change", (0, (
            "MATH101 of Cleo Carter (s3), added, is kept: changed here on 30 November by ada, "
            "batch 9\n"), True), (lambda status, said, _: (
                status, said.splitlines(True)[-1], said.startswith("0 to add")))(
            *it.sent(SMALL + XAVIER, "--log", log)))
        it.agrees("by the log")


def restored_office(run):
    """What the ledger sent is sent again to an office that was put back, and is nobody's change."""
    with session(run, "restored") as it:
        first = it.copied("office")
        tonight = SMALL + XAVIER
        run.judge("a new student", 0, it.sent(tonight, "--many")[0])
        it.by_page(7, "3,0,add")
        cleo = kept("MATH101", "Cleo Carter (s3)", "added", run_changes.WHO)
        run.judge("a change of the page", (0, counts(0, 0, 0, 1) + cleo), (
            lambda status, said, _: (status, "".join(said.splitlines(True)[1:])))(
            *it.sent(tonight)))
        run.judge("lines", 0, it.sent("student,exam,action\ns2,MATH102,drop\n")[0])
        bens = kept("MATH102", "Ben Baker (s2)", "dropped", "nightly")
        office = [[1, 2, 3, 4], [3], [3], [1]]
        run.judge("whom the office has", office, it.candidates())
        again = "batch N is sent again: "
        said = (f"{again}1 added, 0 dropped, 0 unchanged\n" * 2
                + f"{again}0 added, 1 dropped, 0 unchanged\n")
        for name in ("an office from before", "the second time"):
            it.put_office_back(first)
            run.judge(f"{name}, compared", (0, "but it was restored: 3 of the ledger's batches are "
                                            "sent again before the next changes"), (
                lambda status, came, _: (status, came.splitlines()[-1]))(*it.tool(
                    "session_from_csv", "--check", it.made, "--office", it.address)))
            run.judge(f"{name}, shown", (0, counts(0, 0, 0, 2)), (
                lambda status, came, _: (status, came.splitlines(True)[0]))(
                *it.sent(tonight, "--show")))
            run.judge(name, (0, said + counts(0, 0, 0, 2) + bens + cleo, ""),
                      run_changes.sorted_kept(it.sent(tonight)))
            run.judge(f"{name}: whom it has", office, it.candidates())
            run.judge(f"{name}, and again", (0, counts(0, 0, 0, 2) + bens + cleo, ""),
                      run_changes.sorted_kept(it.sent(tonight)))
        it.agrees("restored")
        both = it.copied("office"), it.copied("ledger")
        it.sent("student,exam,action\ns1,MATH101,drop\n")
        it.put_office_back(both[0])
        it.put_ledger_back(both[1])
        run.judge("both are put back", (0, counts(0, 0, 0, 2) + bens + cleo, ""),
                  run_changes.sorted_kept(it.sent(tonight)))
        it.agrees("both are put back")


def in_order(run):
    """A change and its opposite, both lost, are sent again in their order."""
    with session(run, "order") as it:
        copy = it.copied("office")
        for action in ("drop", "add", "drop", "add"):
            it.sent(f"student,exam,action\ns1,MATH101,{action}\n")
        it.put_office_back(copy)
        run.judge("all four", (0, counts(0, 1) + did(0, 1)), (lambda status, said, _: (
            status, "".join(line for line in said.splitlines(True) if "again" not in line)))(
            *it.sent("student,exam,action\ns1,MATH101,drop\n")))
        run.judge("whom the office has", [[2], [2, 3], [3], [1]], it.candidates())
        number, = it.rows("SELECT max(number) FROM batches")[0]
        it.put_office_back(copy)
        it.by_page(number, "2,0,drop")
        run.judge("a number that another batch has now", (0, counts(0, 0)), (
            lambda status, said, _: (status, said.splitlines(True)[-2]))(
            *it.sent("student,exam,action\ns1,MATH101,drop\n")))
        run.judge("whom the office has with both", [[], [2, 3], [3], [1]], it.candidates())
        it.agrees("in order")


def another_office(run):
    """Nothing is sent again to an office of another session."""
    with session(run, "another") as it:
        run.judge("a change", 0, it.sent("student,exam,action\ns1,MATH101,drop\n")[0])
        it.office.killed()
        source, other = it.folder / "other.exam", it.folder / "office.db"
        source.write_text((TOP / "examples" / "small.exam").read_text().replace(
            "TWOINAROW,7", "TWOINAROW,8"))
        for end in ("", "-wal"):
            (it.folder / f"office.db{end}").unlink(missing_ok=True)
        subprocess.run([run.program, "load", "--db", other, source], check=True,
                       stdout=subprocess.DEVNULL)
        it.start()
        run.judge("another session", 1, it.sent(SMALL)[0])
        run.judge("nothing is sent", [[1, 2], [2, 3], [3], [1]], it.candidates())


def main():
    if len(sys.argv) != 2:
        print(__doc__.partition(":")[0], file=sys.stderr)
        return 2
    with tempfile.TemporaryDirectory() as folder:
        run = Run(pathlib.Path(sys.argv[1]).resolve(), folder, "restored")
        for test in (older_ledger, by_other_ways, unasked, by_the_log, restored_office, in_order,
                     another_office):
            test(run)
    return run.end()


if __name__ == "__main__":
    sys.exit(main())
