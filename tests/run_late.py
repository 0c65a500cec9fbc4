#!/usr/bin/env python3
"""run_late.py PROGRAM: files of late changes, by the nightly tool and by the registry's service.

Each file of late_files.py is read and planned, and the plan compared with the one typed there. Then
tools/changes_from_csv sends it to an office of its own, whose enrolments and whose ledger have to
be those of the plan; and so does the service, which the registry's page asks, first for the plan. A
file with faults changes nothing. Then what two registrars do at once, and a service that is killed
between plan and sending. A failing case is printed with what was expected and what came, and the
last line counts the cases.
"""
import concurrent.futures
import contextlib
import http.client
import json
import os
import pathlib
import re
import shutil
import signal
import socket
import sqlite3
import subprocess
import sys
import tempfile

import browser
import waiting
from front_cases import form_of
from late_files import CHANGES, ENROLMENTS, FILES, HERE, LIST, content_of
from tools_path import TOP
from registry.csv_tables import Faults
from registry.late_file import read_late
from registry.late_plan import guards_of, plan_of
from registry.ledger import Ledger, locked
from run_serve import Office, Run

GUNICORN = shutil.which("gunicorn")
SECONDS = 180
NAME = "changes.csv"
CODES = ("MATH101", "MATH102", "PHYS101", "PHYS102")
AT_ONCE = 3


class Term:
    """A session of the small example with other enrolments, and its office while it runs."""

    def __init__(self, program, folder, made=None):
        self.program, self.folder = program, folder
        self.made, self.database = made or folder / "made", folder / "office.db"
        self.office = None

    @classmethod
    def first(cls, program, folder):
        """The session with what was changed here, for copies."""
        csv = folder / "csv"
        shutil.copytree(TOP / "examples" / "small", csv)
        (csv / "enrolments.csv").write_text(ENROLMENTS)
        term = cls(program, folder)
        subprocess.run([TOP / "tools" / "session_from_csv", csv, term.made], check=True,
                       stdout=subprocess.DEVNULL, timeout=SECONDS)
        subprocess.run([program, "load", "--db", term.database, term.made / "now" / "session.exam"],
                       check=True, stdout=subprocess.DEVNULL, timeout=SECONDS)
        with term.running():
            status, _, faults = term.tool(HERE.encode(), CHANGES)
            if status:
                raise OSError(faults)
        return term

    @contextlib.contextmanager
    def copied(self, folder, port=0):
        """A copy of the session, whose office runs."""
        shutil.copytree(self.made, folder, symlinks=True, dirs_exist_ok=True)
        for path in self.folder.glob("office.db*"):
            shutil.copy(path, folder / path.name)
        copy = Term(self.program, folder, folder)
        with copy.running(port):
            yield copy

    @contextlib.contextmanager
    def running(self, port=0):
        self.office = Office(self.program, self.database, port=port)
        try:
            yield
        finally:
            self.office.killed()

    def tool(self, content, kind, more=("--many",)):
        """Status, lines and faults of the nightly tool."""
        path = self.folder / NAME
        path.write_bytes(content)
        ended = subprocess.run(
            [TOP / "tools" / "changes_from_csv", path, self.made, *more, "--by", "nightly",
             "--office", f"http://127.0.0.1:{self.office.port}",
             "--list" if kind == LIST else "--lines"],
            capture_output=True, text=True, timeout=SECONDS, check=False)
        return ended.returncode, ended.stdout.splitlines(), ended.stderr.splitlines()

    def pairs(self):
        """The enrolments of the office, by IDs and codes."""
        client = http.client.HTTPConnection("127.0.0.1", self.office.port, timeout=SECONDS)
        with contextlib.closing(client):
            client.request("GET", "/instance", headers={"X-Caller": "office"})
            lines = client.getresponse().read().decode().splitlines()
        with contextlib.closing(sqlite3.connect(self.made / "ledger.db")) as ledger:
            ids = dict(ledger.execute("SELECT number, id FROM students"))
            codes = [code for code, in ledger.execute("SELECT code FROM exams ORDER BY number")]
        return sorted(f"{ids[int(number)]} {codes[exam]}" for exam in range(len(codes))
                      for number in lines[exam + 1].split(", ")[1:])

    def people(self):
        """The students of the ledger, by their IDs."""
        with contextlib.closing(sqlite3.connect(self.made / "ledger.db")) as ledger:
            return dict(ledger.execute("SELECT id, name FROM students"))

    def sources(self):
        """Where the batches are from that were sent after the first one, and by whom."""
        with contextlib.closing(sqlite3.connect(self.made / "ledger.db")) as ledger:
            return ledger.execute("SELECT source, prepared_by FROM batches WHERE turn > 1"
                                  " ORDER BY turn").fetchall()


class Service:
    """The registry's service, for sessions whose office is at a port, without a front."""

    def __init__(self, program, folder, port):
        self.folder, self.socket = folder, folder / "registry.sock"
        self.environment = {
            **os.environ, "REGISTRY_FOLDER": str(folder), "EXAMOFFICE": str(program),
            "REGISTRY_FRONT": f"http://127.0.0.1:{port}", "REGISTRY_COMPARED": "3600",
            "PYTHONDONTWRITEBYTECODE": "1"}
        self.start()

    def start(self):
        with (self.folder / "errors").open("ab") as errors:
            self.process = waiting.server(
                [GUNICORN, "--workers", "1", "--threads", "4", "--bind", f"unix:{self.socket}",
                 "--chdir", TOP / "tools", "--graceful-timeout", "2", "registry.service:app"],
                env=self.environment, stdin=subprocess.DEVNULL, stdout=errors, stderr=errors)
        browser.until_or_ended(self.process, "the service runs", self.socket.exists)

    def killed(self):
        """Kills it, and its worker."""
        children = pathlib.Path(f"/proc/{self.process.pid}/task/{self.process.pid}/children")
        workers = [int(pid) for pid in children.read_text().split()]
        self.process.kill()
        for pid in workers:
            os.kill(pid, signal.SIGKILL)
        self.process.wait(SECONDS)
        self.socket.unlink()

    def ask(self, session, kind, content, user="ada", **fields):
        """Status and JSON of the reply on a file, as soon as there is one."""
        body, kind_of_body = form_of({"file": content}, {"kind": kind, **fields})
        status, reply = self.question(session, "POST", "", user, body, kind_of_body)
        while status == 202:
            status, reply = self.question(session, "GET", f"/{reply['working']}", user)
        return status, reply

    def question(self, session, method, path, user, body=None, kind="text/plain"):
        client = http.client.HTTPConnection("registry", timeout=SECONDS)
        with contextlib.closing(client):
            client.sock = socket.socket(socket.AF_UNIX)
            client.sock.connect(str(self.socket))
            client.request(method, f"/-/registry/changes{path}", body, {
                "X-Session": session, "X-User": user, "Content-Type": kind})
            reply = client.getresponse()
            return reply.status, json.loads(reply.read())


def fault_lines(faults):
    return [f"{NAME}{', ' if fault.startswith('line ') else ': '}{fault}" for fault in faults]


def planned(made, content, kind):
    """What a file comes to, as the table has it: a plan, or faults."""
    ledger = Ledger.opened_at(made / "ledger.db")
    try:
        faults, found = Faults(), ledger.expected_pairs()
        late = read_late(content, NAME, kind, ledger, faults)
        if faults.lines:
            return faults.lines
        people = {one.number: one.id for one in ledger.students()}
        plan = plan_of(late, ledger, found)
        people.update({one.number: one.id for one in ledger.students()
                       if one.number not in people})
        codes = [exam.code for exam in ledger.session().exams]

        def named(pairs):
            return sorted(f"{people[student]} {codes[exam]}" for student, exam in pairs)

        return {
            "add": named(plan.added), "drop": named(plan.dropped),
            "new": sorted(f"{one} {name}".strip() for one, name in late.new.items()),
            "already": len(plan.already),
            "kept": sorted(f"{people[student]} {codes[exam]} {made.action}"
                           for (student, exam), made in plan.kept.items()),
            "names": sorted(map(" ".join, late.names.items())),
            "longer": sorted(map(" ".join, late.longer.items())),
            "strangers": sorted(f"{one} {said.name}" for one, said in late.strangers.items()),
            "notes": [note.removeprefix(f"{NAME} ") for note in late.notes],
            "guards": sorted(guard.name for guard in guards_of(plan, ledger, found))}
    finally:
        ledger.close()


def after(plan, pairs, people):
    """The enrolments and the students after a plan."""
    longer = dict(one.split(" ") for one in plan["longer"])

    def renamed(pair):
        student, exam = pair.split(" ")
        return f"{longer.get(student, student)} {exam}"

    pairs = {*map(renamed, pairs)} - {*plan["drop"]} | {*plan["add"]}
    people = {longer.get(student, student): name for student, name in people.items()}
    for one in (*plan["new"], *plan["names"]):
        student, _, name = one.partition(" ")
        people[student] = name
    return sorted(pairs), people


def sent(term, folder, place):
    """What the tool says of a file, and what the office and the ledger have then."""
    _, kind, content, _ = FILES[place]
    own = folder / f"{place}"
    own.mkdir()
    with term.copied(own) as copy:
        status, _, faults = copy.tool(content_of(content), kind)
        return status, faults, copy.pairs(), copy.people()


def table(run, term):
    """Each file comes to the plan that is typed beside it, and so does the office."""
    with term.running():
        pairs, people = term.pairs(), term.people()
    with concurrent.futures.ThreadPoolExecutor(AT_ONCE) as pool:
        came = [*pool.map(lambda place: sent(term, run.folder, place), range(len(FILES)))]
    for (name, kind, content, expected), (status, faults, *then) in zip(FILES, came):
        is_faulty = isinstance(expected, list)
        run.judge(f"{name}: the plan", fault_lines(expected) if is_faulty else expected,
                  planned(term.made, content_of(content), kind))
        run.judge(f"{name}: the tool", (1, fault_lines(expected)) if is_faulty else (0, []),
                  (status, faults))
        run.judge(f"{name}: the office then", (pairs, people) if is_faulty else after(
            expected, pairs, people), tuple(then))


# ---- The service

# What of a plan the service says in tables; names and IDs are lines of its report.
SHOWN = ("add", "drop", "new", "already", "kept", "guards")


def shown(reply):
    """What the service says of a file, as the table has it."""
    if "faults" in reply:
        places = [", ".join([*([f"line {one['line']}"] if one["line"] else []),
                             *([one["column"]] if one["column"] else [])])
                  for one in reply["faults"]]
        return [f"{place}{': ' if place else ''}{one['words']}"
                for place, one in zip(places, reply["faults"])]

    def named(rows, *more):
        return sorted(" ".join([one["id"], CODES[one["exam"]], *(one[name] for name in more)])
                      for one in rows)

    return {"add": named(reply["added"]), "drop": named(reply["dropped"]),
            "new": sorted(f"{one['id']} {one['name']}".strip() for one in reply["new"]),
            "already": reply["counts"]["already"], "kept": named(reply["kept"], "action"),
            "guards": sorted(one["name"] for one in reply["guards"])}


def sends(service, session, kind, content, reply, **more):
    """The reply when a plan is sent, after somebody has looked at its guards."""
    return service.ask(session, kind, content, digest=reply["digest"], turn=reply["turn"],
                       agreed=[one["name"] for one in reply["guards"]], **more)


def by_service(run, term):
    """Each file comes to the same by the service."""
    folder = run.folder / "sessions"
    folder.mkdir()
    port = browser.free_port()
    service = Service(run.program, folder, port)
    try:
        with term.running():
            before = term.pairs(), term.people()
        for place, (name, kind, content, expected) in enumerate(FILES):
            own = folder / f"case{place}"
            own.mkdir()
            with term.copied(own, port) as copy:
                body = content_of(content)
                status, reply = service.ask(own.name, kind, body)
                is_faulty = isinstance(expected, list)
                run.judge(f"{name}: the service's plan", (200, expected if is_faulty else {
                    name: expected[name] for name in SHOWN}), (status, shown(reply)))
                run.judge(f"{name}: nothing is sent yet", before, (copy.pairs(), copy.people()))
                if not is_faulty:
                    run.judge(f"{name}: it is sent", 201, sends(
                        service, own.name, kind, body, reply)[0])
                    run.judge(f"{name}: the office after the service", after(expected, *before),
                              (copy.pairs(), copy.people()))
            # The service looks at it meanwhile.
            shutil.rmtree(own, ignore_errors=True)
        two_at_once(run, term, service, port)
        stopped_at_night(run, term, service, port)
        every_night(run, term, service, port)
        killed_between(run, term, service, port)
    finally:
        service.killed()


def two_at_once(run, term, service, port):
    """A plan that another registrar's batch changed is refused, and they are named."""
    own = service.folder / "both"
    own.mkdir()
    content, more = b"student,exam,action\ns1,MATH102,add\n", b"s3,MATH101,add\n"
    with term.copied(own, port) as copy:
        plan = service.ask("both", CHANGES, content + more)[1]
        first = service.ask("both", CHANGES, content, "ben")[1]
        run.judge("another registrar is first", 201, sends(
            service, "both", CHANGES, content, first, user="ben")[0])
        status, refused = sends(service, "both", CHANGES, content + more, plan)
        run.judge("the plan is another one", (409, "plan-differs", [("ben", 1, 0)]), (
            status, refused["error"],
            [(one["by"], one["added"], one["dropped"]) for one in refused["since"]]))
        again = service.ask("both", CHANGES, content + more)[1]
        run.judge("it is planned again", (["s3 MATH101"], 1), (
            shown(again)["add"], again["counts"]["already"]))
        run.judge("another file with its digest", 409, sends(
            service, "both", CHANGES, content, again)[0])
        run.judge("and sent", (201, {"added": 1, "dropped": 0, "unchanged": 1, "new": 0}), (
            lambda status, reply: (status, {name: reply["sent"][name] for name in (
                "added", "dropped", "unchanged", "new")}))(*sends(
                    service, "both", CHANGES, content + more, again)))
        whole = ENROLMENTS.replace("s1,Ada Archer,PHYS102\n", "").encode()
        reply = service.ask("both", LIST, whole)[1]
        run.judge("a guard that nobody has looked at", 409, service.ask(
            "both", LIST, whole, digest=reply["digest"], turn=reply["turn"])[0])
        run.judge("a list, with somebody who has", 201, sends(
            service, "both", LIST, whole, reply)[0])
        run.judge("the next list takes it back", (0, ["s1 PHYS102"]), (
            lambda ended: (ended[0], sorted({*copy.pairs()} & {"s1 PHYS102"})))(
                copy.tool(ENROLMENTS.encode(), LIST)))
        run.judge("a whole list is a list, whoever sends it", [
            ("page", "ben"), ("page", "ada"), ("list", "ada"), ("list", "nightly")],
            copy.sources())


END = ("the last line of the list has no end, and that of the last list had one; if that is meant, "
       "say --many")


def stopped_at_night(run, term, service, port):
    """Why a list wasn't sent at night is on the page in the morning, until one is sent."""
    own = service.folder / "night"
    own.mkdir()
    short = ENROLMENTS.replace("s1,Ada Archer,PHYS102\n", "").encode()
    with term.copied(own, port) as copy:
        status, _, faults = copy.tool(short, LIST, ())
        guard = ("the list is shorter than the last one by 1 of 10 enrolments, 5 % or "
                 "more; if that is meant, say --many")
        run.judge("a list that is too short", (1, [guard]), (status, faults))
        run.judge("nothing is sent", True, "s1 PHYS102" in copy.pairs())

        def standing():
            """What is said of the session, after a question that compares it."""
            service.ask("night", CHANGES, b"student,exam,action\ns1,MATH101,add\n")
            path = own / "standing"
            return path.read_text().splitlines() if path.exists() else []

        run.judge("what the page says of it", ([f": {NAME} wasn't sent by nightly:", guard]), (
            lambda lines: [lines[0][16:], *lines[1:]])(standing()))
        run.judge("lines are sent meanwhile", 0, copy.tool(
            b"student,exam,action\ns1,MATH102,add\n", CHANGES)[0])
        run.judge("it is still said", guard, standing()[-1])
        run.judge("the list, if that is meant", 0, copy.tool(short, LIST)[0])
        run.judge("nothing is said then", [], standing())
        run.judge("a list whose last line is cut", (1, [END]), (
            lambda status, _, faults: (status, faults))(*copy.tool(short[:-1], LIST, ())))
        reply = service.ask("night", LIST, short[:-1])[1]
        run.judge("the same on the page", ["end"], [one["name"] for one in reply["guards"]])
        run.judge("sent by somebody who has looked", 201, sends(
            service, "night", LIST, short[:-1], reply)[0])
        run.judge("the next one is as that", 0, copy.tool(short[:-1], LIST, ())[0])


class Nightly:
    """What the package's unit runs, for a session in a folder of sessions."""

    def __init__(self, term, ledgers, lists):
        self.term, self.ledgers, self.lists = term, ledgers, lists
        unit = (TOP / "packaging" / "examoffice-nightly@.service").read_text()
        tool, *words = re.search(r"^ExecStart=(.*)$", unit, re.M)[1].split()
        self.words = [TOP / tool.removeprefix("/usr/share/examoffice/"), *(
            {"/var/lib/examoffice-nightly/%i": lists, "%i": "every"}.get(word, word)
            for word in words), "--office", f"http://127.0.0.1:{term.office.port}"]

    def begun(self):
        return subprocess.Popen(
            self.words, stdout=subprocess.PIPE, stderr=subprocess.PIPE, text=True,
            env={**os.environ, "EXAMOFFICE_LEDGERS": str(self.ledgers)})

    def ended(self, process=None):
        """Its status, and the last line that it prints."""
        process = process or self.begun()
        said, faults = process.communicate(timeout=SECONDS)
        return process.returncode, (said + faults).splitlines()[-1]

    def comes(self, name, text):
        (self.lists / name).write_text(text)

    def files(self):
        """The names in the folder, without the times in front of those that were moved."""
        return sorted(re.sub(r"\d{8}T\d{6}-", "", f"{path.relative_to(self.lists)}")
                      for path in self.lists.rglob("*") if path.is_file())

    def emptied(self):
        for path in self.lists.rglob("*"):
            if path.is_file():
                path.unlink()


def every_night(run, term, service, port):
    """The unit's command takes one whole list, once, and moves it away with its report."""
    own, lists = service.folder / "every", run.folder / "lists"
    for folder in (own, lists):
        folder.mkdir()
    longer = f"{ENROLMENTS}s1,Ada Archer,PHYS101\n"
    short = ENROLMENTS.replace("s1,Ada Archer,PHYS102\n", "")
    guard = ("the list is shorter than the last one by 1 of 10 enrolments, 5 % or more; if that "
             "is meant, say --many")
    with term.copied(own, port) as copy:
        nightly = Nightly(copy, service.folder, lists)
        none = (0, f"there is no list in {lists}")
        run.judge("no list", none, nightly.ended())
        nightly.comes("all.csv.part", ENROLMENTS)
        nightly.comes(".all.csv", ENROLMENTS)
        run.judge("one that isn't whole", (none, [".all.csv", "all.csv.part"]), (
            nightly.ended(), nightly.files()))
        nightly.emptied()
        copy.tool(b"student,exam,action\ns1,PHYS102,drop\n", CHANGES)
        nightly.comes("all.csv", longer)
        status, line = nightly.ended()
        run.judge("a list", (0, "1 added, 0 dropped, 0 unchanged", ["done/all.csv",
                  "done/all.csv.report"]), (status, line.partition(": ")[2], nightly.files()))
        report = next(lists.glob("done/*.report")).read_text().splitlines()
        run.judge("its report", ["1 to add, 0 to drop, 0 new students, 3 kept", line], [
            report[0], report[-1]])
        run.judge("what the office has", (True, False), tuple(
            pair in copy.pairs() for pair in ("s1 PHYS101", "s1 PHYS102")))
        run.judge("it is taken once", none, nightly.ended())
        nightly.emptied()
        nightly.comes("all.csv", longer)
        run.judge("a run that was cut off before it moved the list", (0, [
            "done/all.csv", "done/all.csv.report"]), (nightly.ended()[0], nightly.files()))
        nightly.emptied()
        nightly.comes("short.csv", short)
        run.judge("a list that is cut off", (1, [
            "refused/short.csv", "refused/short.csv.report"]), (
                nightly.ended()[0], nightly.files()))
        run.judge("why, beside it", True, guard.partition(" by ")[0] in next(
            lists.glob("refused/*.report")).read_text())
        service.ask("every", CHANGES, b"student,exam,action\ns1,MATH101,add\n")
        run.judge("why, for the page and for the status", "short.csv wasn't sent by nightly:", (
            own / "standing").read_text().splitlines()[0][18:])
        nightly.emptied()
        nightly.comes("one.csv", longer)
        nightly.comes("two.csv", longer)
        os.utime(lists / "one.csv", (1e9, 1e9))
        two = "there are 2 lists, and only one is taken: two.csv, one.csv"
        run.judge("two lists", ((1, two), ["one.csv", "two.csv"]), (
            nightly.ended(), nightly.files()))
        run.judge("that two came is said too", two, (own / "stopped").read_text().splitlines()[-1])
        (lists / "one.csv").unlink()
        waits(run, nightly, own)
        nightly.emptied()
        nightly.comes("all.csv", longer)
        copy.office.killed()
        run.judge("an office that doesn't run", (75, ["all.csv"]), (
            nightly.ended()[0], nightly.files()))
        copy.office = Office(copy.program, copy.database, port=port)
        run.judge("it runs again", (0, ["done/all.csv", "done/all.csv.report"]), (
            nightly.ended()[0], nightly.files()))
        run.judge("nothing is said any more", False, (own / "stopped").exists())


def waits(run, nightly, own):
    """While somebody else holds the session, as a restore does, nothing is taken."""
    with locked(own):
        process = nightly.begun()
        browser.until("it waits", lambda: process.poll() is not None or re.search(
            rf"-> FLOCK .* {process.pid} ", pathlib.Path("/proc/locks").read_text()))
        run.judge("while somebody holds the session", (None, ["two.csv"]), (
            process.poll(), nightly.files()))
    run.judge("then it is sent", (0, ["done/two.csv", "done/two.csv.report"]), (
        nightly.ended(process)[0], nightly.files()))


def own_limits(run, term):
    """A session's own limits decide what is looked at; without them the usual ones do."""
    own, csv = run.folder / "limits", run.folder / "limits_csv"
    own.mkdir()
    shutil.copytree(term.folder / "csv", csv)
    rules = (csv / "rules.csv").read_text()
    short = ENROLMENTS.replace("s1,Ada Archer,PHYS102\n", "").encode()
    with term.copied(own) as copy:
        for limits, expected in (
                ("", ["the list is shorter than the last one by 1 of 10 enrolments, 5 % or more; "
                      "if that is meant, say --many"]),
                ("limit,shorter,10,1\nlimit,drops,9.9,1\n", []),
                ("limit,shorter,10\nlimit,drops,9.5\n",
                 ["the list is shorter than the last one by 1 of 10 enrolments, 10 % or more; if "
                  "that is meant, say --many",
                  "1 of 10 enrolments would be dropped, more than 9.5 %; if that is meant, say "
                  "--many"]),
                ("Limit,drops,\"9,5 %\"\nlimit,shorter,10.001 %\n",
                 ["1 of 10 enrolments would be dropped, more than 9.5 %; if that is meant, say "
                  "--many"]),
                ("limit,drops,10\nlimit,shorter,11\nlimit,exams,0,1\nlimit,students,0\n", []),
                ("limit,drops,10\nlimit,shorter,11\nlimit,exams,0\n",
                 ["1 exam would lose more than 0 % of its candidates: PHYS102 1 of 2; if that is "
                  "meant, say --many"])):
            (csv / "rules.csv").write_text(rules + limits)
            subprocess.run([TOP / "tools" / "session_from_csv", csv, own], check=True,
                           stdout=subprocess.DEVNULL, timeout=SECONDS)
            run.judge(f"limits {limits!r}", (1 if expected else 0, expected), (
                lambda status, _, faults: (status, faults))(*copy.tool(short, LIST, ("--show",))))


def killed_between(run, term, service, port):
    """A service that was killed between plan and sending knows nothing of it, and sends it."""
    own = service.folder / "killed"
    own.mkdir()
    content = b"student,exam,action\ns1,MATH102,add\n"
    with term.copied(own, port) as copy:
        plan = service.ask("killed", CHANGES, content)[1]
        service.killed()
        service.start()
        run.judge("after a kill", 201, sends(service, "killed", CHANGES, content, plan)[0])
        run.judge("the office has it", True, "s1 MATH102" in copy.pairs())


def main():
    if len(sys.argv) != 2:
        print(__doc__.partition(":")[0], file=sys.stderr)
        return 2
    with tempfile.TemporaryDirectory() as folder:
        run = Run(pathlib.Path(sys.argv[1]).resolve(), folder, "late changes")
        first = run.folder / "first"
        first.mkdir()
        term = Term.first(run.program, first)
        table(run, term)
        own_limits(run, term)
        if GUNICORN:
            by_service(run, term)
        else:
            print("late changes: the service is left out without gunicorn")
    return run.end()


if __name__ == "__main__":
    sys.exit(main())
