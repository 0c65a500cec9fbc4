#!/usr/bin/env python3
"""run_changes.py PROGRAM: tools/changes_from_csv, from a student system's list to late changes.

Lists and lines are sent to an office of the small example, one after another; the tool, the office
and the ledger agree on what they did. Then runs that are cut off at each step, two at once, numbers
that are taken, and lists that are too long for one batch. A failing case is printed with what was
expected and what came, and the last line counts the cases.
"""
import contextlib
import datetime
import http.client
import http.server
import json
import pathlib
import re
import shutil
import sqlite3
import subprocess
import sys
import tempfile
import threading

from tools_path import TOP
from registry.changes import HEADER, MOST_BATCH, Change, in_batches
from run_serve import Office, Run

SMALL = (TOP / "examples" / "small" / "enrolments.csv").read_text()
SECONDS = 180
TODAY = f"{datetime.date.today().day} {datetime.date.today():%B}"
WHO = "somebody on the registry's page"


class Session:
    """An office of the small example, its ledger, and what the tools do with both."""

    def __init__(self, run, name):
        self.run, self.folder = run, run.folder / name
        self.made = self.folder / "made"
        self.folder.mkdir()
        subprocess.run([TOP / "tools" / "session_from_csv", TOP / "examples" / "small", self.made],
                       check=True, stdout=subprocess.DEVNULL, timeout=SECONDS)
        subprocess.run([run.program, "load", "--db", self.folder / "office.db",
                        self.made / "now" / "session.exam"], check=True, stdout=subprocess.DEVNULL)
        self.office = Office(run.program, self.folder / "office.db")
        self.address = f"http://127.0.0.1:{self.office.port}"

    def started(self, text, *more, office=None):
        path = self.folder / "changes.csv"
        path.write_text(text)
        return subprocess.Popen(
            [TOP / "tools" / "changes_from_csv", path, self.made, "--by", "nightly", "--office",
             office or self.address, *more],
            stdout=subprocess.PIPE, stderr=subprocess.PIPE, text=True)

    def sent(self, text, *more, **others):
        """The status, what was said without numbers of batches, and the faults."""
        process = self.started(text, *more, **others)
        said, faults = process.communicate(timeout=SECONDS)
        return process.returncode, re.sub(r"batch \d{9}", "batch N", said), faults

    def ask(self, method, path, body=None, caller="office"):
        """The office's reply to somebody."""
        connection = http.client.HTTPConnection("127.0.0.1", self.office.port, timeout=SECONDS)
        connection.request(method, path, body, {"X-Caller": caller, "Connection": "close"})
        return connection.getresponse().read().decode()

    def by_page(self, number, *lines):
        """A batch that doesn't come from the tool."""
        body = HEADER + "".join(f"{line}\n" for line in lines).encode()
        self.ask("PUT", f"/batches/{number}", body)

    def candidates(self):
        """The candidates of each exam, as the office has them."""
        lines = self.ask("GET", "/instance").splitlines()
        exams = lines[1:lines.index("[Periods:4]")]
        return [[int(number) for number in line.split(", ")[1:]] for line in exams]

    def rows(self, statement):
        with contextlib.closing(sqlite3.connect(self.made / "ledger.db")) as ledger:
            return ledger.execute(statement).fetchall()

    def agrees(self, name):
        """Names, ledger and office belong together."""
        ended = subprocess.run(
            [TOP / "tools" / "session_from_csv", "--check", self.made, "--office", self.address],
            capture_output=True, text=True, timeout=SECONDS)
        self.run.judge(f"{name}: all belongs together", (0, ""), (ended.returncode, ended.stderr))
        students = json.loads((self.made / "now" / "students.json").read_text())["students"]
        self.run.judge(f"{name}: the enrolments of students.json", {
            (number, exam) for exam, taking in enumerate(self.candidates()) for number in taking}, {
            (student["number"], exam) for student in students for exam in student["exams"]})
        self.run.judge(f"{name}: how large exams are", [len(one) for one in self.candidates()],
                       json.loads((self.made / "now" / "sizes.json").read_text())["sizes"])


@contextlib.contextmanager
def session(run, name):
    made = Session(run, name)
    try:
        yield made
    finally:
        made.office.killed()


def counts(add, drop, new=0, kept=0):
    students = f"{new} new student{'' if new == 1 else 's'}"
    return f"{add} to add, {drop} to drop, {students}, {kept} kept\n"


def did(added, dropped, unchanged=0):
    return f"batch N is sent: {added} added, {dropped} dropped, {unchanged} unchanged\n"


def kept(what, who, how, by):
    return f"{what} of {who}, {how}, is kept: changed here on {TODAY} by {by}\n"


ADAS = "s1,Ada Archer,PHYS102\n"
ZOE = "r9,Zoë Zander,MATH101\n"
CLEOS = "s3,Cleo Carter,MATH101\n"
OLDER = "warning: the ledger may be older than its office: "
CLEO_KEPT = kept("MATH101", "Cleo Carter (s3)", "added", WHO)
MANY = "more than 10 %; if that is meant, say --many\n"
SHORTER = "5 % or more; if that is meant, say --many\n"
# A list, further words, and what is said; the lists come one after another.
LISTS = [
    ("the same enrolments", SMALL, (), (0, counts(0, 0), "")),
    ("a list in another form and order", "Student ID;Course code\n" + "".join(
        f"{line.split(',')[0]};{line.split(',')[2]}\n" for line in SMALL.splitlines()[:0:-1]),
     (), (0, counts(0, 0), "")),
    ("a tenth is dropped", SMALL.replace(ADAS, ""), (),
     (1, "", f"the list is shorter than the last one by 1 of 6 enrolments, {SHORTER}"
             f"1 of 6 enrolments would be dropped, {MANY}")),
    ("a tenth is new", SMALL + ZOE, (), (1, "", f"1 of 3 students would be new, {MANY}")),
    ("what would be sent", SMALL.replace(ADAS, ZOE), ("--many", "--show"),
     (0, counts(1, 1, 1), "")),
    ("a new student, and one dropped", SMALL.replace(ADAS, ZOE), ("--many",),
     (0, counts(1, 1, 1) + did(1, 1), "")),
    ("a list with states", "student,name,exam,status\n" + "".join(
        f"{line},{'withdrawn' if line.startswith('s1,') and 'PHYS102' in line else 'enrolled'}\n"
        for line in (SMALL + ZOE).splitlines()[1:] if line), ("--list", "--show"),
     (0, counts(0, 0), "")),
    ("the same file again", SMALL.replace(ADAS, ZOE), (), (0, counts(0, 0), "")),
    ("faults", "student,exam\ns1,MATH1O1\ns2,\n", (), (1, "", (
        "changes.csv, line 2, exam: MATH1O1: no such exam. MATH101 is Calculus\n"
        "changes.csv, line 3, exam: the field is empty\n"))),
]
# Lines with actions, and what is said.
LINES = [
    ("an unknown ID", "student,exam,action\nA3,MATH101,add\nBen Baker,MATH101,drop\n", (1, "", (
        "changes.csv, line 2, student: A3: no such student. s3 is Cleo Carter\n"
        "changes.csv, line 3, student: Ben Baker: no such student. s2 is Ben Baker\n"))),
    ("a number", "student,exam,action\n3,0,add\n", (1, "", (
        "changes.csv, line 2, exam: 0: no such exam\n"
        "changes.csv, line 2, student: 3: no such student. s3 is Cleo Carter\n"))),
    ("an unknown action", "student,exam,action\ns3,MATH101,ad\n", (
        1, "", "changes.csv, line 2, action: 'ad' is no action; add, drop or new is expected\n")),
    ("a student who isn't new", "student,exam,action\ns1,,new\n", (
        1, "", "changes.csv, line 2, student: s1 is Ada Archer already\n")),
    ("lines", "Student ID,Exam code,Action\ns3,MATH101,enrol\ns1,MATH101,withdrawn\n",
     (0, counts(1, 1) + did(1, 1), "")),
    ("a new student without an exam", "student,exam,action,name\nq1,,new,Quo Quin\n",
     (0, counts(0, 0, 1), "")),
    ("a new student with exams", "student,exam,action,name\nq2,PHYS101,new,Qi\nq2,PHYS102,add,\n",
     (0, counts(2, 0, 1) + did(2, 0), "")),
]


def lists(run):
    """A full list is sent once; what was changed here stays, and is listed."""
    with session(run, "lists") as it:
        for name, text, more, said in LISTS:
            run.judge(name, said, it.sent(text, *more))
        run.judge("whom the office has", [[1, 2, 4], [2, 3], [3], []], it.candidates())
        it.agrees("lists")
        now = SMALL.replace(ADAS, ZOE)
        it.by_page(7, "3,0,add", "2,1,drop")
        bens = kept("MATH102", "Ben Baker (s2)", "dropped", WHO)
        both = counts(0, 0, 0, 2) + bens + CLEO_KEPT
        older = (f"{OLDER}2 enrolments differ: MATH101 of s3 added, MATH102 of s2 dropped, and "
                 "there is no log\n")
        run.judge("changes of the page stay", (0, f"{older}{both}", ""), sorted_kept(it.sent(now)))
        run.judge("they still do", (0, both, ""), sorted_kept(it.sent(now)))
        run.judge("the list has one of them", (0, counts(0, 0, 0, 1) + bens + did(0, 0, 1), ""),
                  it.sent(now + CLEOS))
        run.judge("and drops it later", (0, counts(0, 1, 0, 1) + bens + did(0, 1), ""),
                  it.sent(now, "--many"))
        run.judge("all is taken", (0, counts(1, 0) + did(1, 0), ""), it.sent(now, "--take-all"))
        run.judge("whom the office has then", [[1, 2, 4], [2, 3], [3], []], it.candidates())
        it.agrees("lists with changes of the page")


def sorted_kept(answer):
    """An answer with its lines of what is kept in the order of their texts."""
    status, said, faults = answer
    lines = said.splitlines(keepends=True)
    kept_ones = [line for line in lines if " is kept: " in line]
    return status, "".join([line for line in lines if line not in kept_ones] + sorted(
        kept_ones, key=lambda line: line.split(" of ")[1])), faults


def lines(run):
    """Lines add, drop and enter; who changed what, and when, is known later."""
    with session(run, "lines") as it:
        for name, text, said in LINES:
            run.judge(name, said, it.sent(text))
        it.agrees("lines")
        run.judge("numbers of new students", [("q1", 4), ("q2", 5)], it.rows(
            "SELECT id, number FROM students WHERE number > 3"))
        text = SMALL + "q1,Quo Quin,MATH101\nq2,Qi,PHYS101\n"
        answer = it.sent(text, "--by", "night")
        run.judge("a list after lines", (0, counts(1, 0, 0, 3), ""), (
            answer[0], answer[1].splitlines(keepends=True)[0], answer[2]))
        for line in (kept("MATH101", "Ada Archer (s1)", "dropped", "nightly"),
                     kept("MATH101", "Cleo Carter (s3)", "added", "nightly"),
                     kept("PHYS102", "Qi (q2)", "added", "nightly")):
            run.judge("who changed it, and when", True, line in answer[1])
        it.by_page(8, "1,1,add")
        log = it.folder / "changes.log"
        entries = (("2027-05-13T10:00:00+00:00", "/drafts/1", "ben"),
                   ("2027-05-14T10:00:00+02:00", "/batches/8", "ada"))
        log.write_text("no JSON\n" + "".join(
            json.dumps({"at": at, "path": path, "status": 200, "user": user}) + "\n"
            for at, path, user in entries))
        answer = it.sent(text, "--log", log)
        run.judge("who changed it on the page", True, "MATH102 of Ada Archer (s1), added, is kept: "
                  "changed here on 14 May by ada, batch 8\n" in answer[1])


class Cutting(http.server.BaseHTTPRequestHandler):
    """Passes requests to an office, and drops the connection before or after some batch."""

    port, drops_before, drops_after, seen = 0, 0, 0, 0

    def pass_on(self):
        body = self.rfile.read(int(self.headers.get("Content-Length") or 0))
        is_batch = self.command == "PUT"
        type(self).seen += is_batch
        if is_batch and self.seen == self.drops_before:
            self.close_connection = True
            return
        connection = http.client.HTTPConnection("127.0.0.1", self.port, timeout=SECONDS)
        connection.request(self.command, self.path, body or None, {
            "X-Caller": "office", "Connection": "close"})
        reply = connection.getresponse()
        text = reply.read()
        if is_batch and self.seen == self.drops_after:
            self.close_connection = True
            return
        self.send_response(reply.status)
        self.send_header("Content-Length", str(len(text)))
        self.end_headers()
        self.wfile.write(text)

    do_GET = do_PUT = pass_on

    def log_message(self, *_):
        pass


def cut_off(run):
    """A run that was cut off before or after the office had its batch is finished by the next."""
    wanted = SMALL.replace(ADAS, ZOE)
    for name, more, said in (("before", {"drops_before": 1}, did(1, 1)),
                             ("after", {"drops_after": 1}, did(1, 1))):
        with session(run, f"cut off {name}") as it:
            handler = type("Handler", (Cutting,), {"port": it.office.port, **more})
            with http.server.ThreadingHTTPServer(("127.0.0.1", 0), handler) as between:
                threading.Thread(target=between.serve_forever, daemon=True).start()
                status, words, faults = it.sent(wanted, "--many", office=(
                    f"http://127.0.0.1:{between.server_port}"))
                between.shutdown()
            run.judge(f"cut off {name} it was taken", (1, "", True), (
                status, words, "can't be asked" in faults))
            before = it.rows("SELECT number, bytes FROM batches")
            shown = it.sent(wanted, "--show", "--many")
            run.judge(f"cut off {name}: what would be sent", (0, False), (
                shown[0], "batch N" in shown[1]))
            run.judge(f"cut off {name}: the next run", (0, said + counts(0, 0), ""),
                      it.sent(wanted))
            run.judge(f"cut off {name}: the same bytes", before,
                      it.rows("SELECT number, bytes FROM batches"))
            run.judge(f"cut off {name}: whom the office has", [[1, 2, 4], [2, 3], [3], []],
                      it.candidates())
            it.agrees(f"cut off {name}")


def at_once(run):
    """Two runs at once send one batch; a number that was taken is left out."""
    with session(run, "at once") as it:
        wanted = SMALL.replace(ADAS, ZOE)
        both = [it.started(wanted, "--many") for _ in range(2)]
        said = sorted(process.communicate(timeout=SECONDS)[0].count("batch ") for process in both)
        run.judge("two at once", ([0, 0], [0, 1]), ([process.returncode for process in both], said))
        number, = it.rows("SELECT max(number) FROM batches")[0]
        for taken in range(number + 1, number + 4):
            it.by_page(taken, "1,1,drop")
        run.judge("numbers that are taken", (0, counts(1, 0) + did(1, 0), ""),
                  it.sent(wanted + "r9,,PHYS102\n"))
        run.judge("the number that was free", [(number + 4,)],
                  it.rows("SELECT max(number) FROM batches"))
        it.agrees("at once")
        shutil.copy(TOP / "front" / "labels" / "labels.json", it.made / "now" / "labels.json")
        run.judge("names of another ledger", (1, "", True), (lambda status, words, faults: (
            status, words, "was made of another ledger" in faults or "different states" in faults))(
            *it.sent(wanted)))


def other_office(run):
    """Nothing is sent to an office with another session."""
    with session(run, "one") as it, session(run, "other") as other:
        rules = (TOP / "examples" / "small.exam").read_text().replace("TWOINAROW,7", "TWOINAROW,8")
        other.office.killed()
        source = other.folder / "other.exam"
        source.write_text(rules)
        subprocess.run([run.program, "load", "--db", other.folder / "other.db", source], check=True,
                       stdout=subprocess.DEVNULL)
        other.office = Office(run.program, other.folder / "other.db")
        run.judge("another session", (1, "", (
            "the office has another session: InstitutionalWeightings: 'TWOINAROW,7' in the ledger, "
            "'TWOINAROW,8' in the office\n")),
            it.sent(SMALL, office=f"http://127.0.0.1:{other.office.port}"))


def long_lists(run):
    """Changes that are too many for one batch become several, drops first."""
    changes = [Change(student, student % 1_500, ("add", "drop")[student % 3 == 0])
               for student in range(100_000_000, 100_120_000)]
    batches = list(in_batches(changes))
    run.judge("how long they are", (True, True), (
        all(len(content) <= MOST_BATCH for content, _ in batches),
        all(len(content) > MOST_BATCH - 40 for content, _ in batches[:-1])))
    run.judge("how many there are", 3, len(batches))
    sent = [line for content, _ in batches for line in content.decode().splitlines()[1:]]
    kinds = [line.rpartition(",")[2] for line in sent]
    run.judge("drops come first", ["drop"] * 40_000 + ["add"] * 80_000, kinds)
    run.judge("each once", True, sorted(sent) == sorted(
        f"{change.student},{change.exam},{change.action}" for change in changes))


def main():
    if len(sys.argv) != 2:
        print(__doc__.partition(":")[0], file=sys.stderr)
        return 2
    with tempfile.TemporaryDirectory() as folder:
        run = Run(pathlib.Path(sys.argv[1]).resolve(), folder, "changes")
        for test in (lists, lines, cut_off, at_once, other_office, long_lists):
            test(run)
    return run.end()


if __name__ == "__main__":
    sys.exit(main())
