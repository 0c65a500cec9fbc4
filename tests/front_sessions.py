"""Several sessions behind one front: whoever is somebody in one is nobody in the others."""
import collections
import contextlib
import json
import os
import secrets
import shutil
import subprocess
import time

import browser
import front_queue
import front_sign_in
from front_cases import told_error
from front_floods import message
from front_sign_in import TOP, jwt
from run_serve import Run

SESSIONS = "spring", "autumn"
PEOPLE, WHOLE, SECONDS = 20, (1_000,), 600
CALLER = told_error(400, "caller")


def made_export(folder, session, count):
    """A student system's export: the small session, with students of its own and equal numbers."""
    shutil.copytree(TOP / "examples" / "small", folder)
    lines = [f"{session[0]}{number},{session} {number},MATH101" for number in range(1, count + 1)]
    (folder / "enrolments.csv").write_text("\n".join(["student,name,exam", *lines]) + "\n")
    people = [f"{session}{number},{session[0]}{number},a word" for number in range(1, count + 1)]
    (folder.parent / f"{session}.csv").write_text("\n".join(["user,student,password", *people])
                                                  + "\n")


def typed(*words):
    """The status and the errors of a tool."""
    ended = subprocess.run(words, capture_output=True, text=True, timeout=SECONDS, check=False)
    return ended.returncode, ended.stderr


class Queue(front_sign_in.SignInQueue):
    """The queue of two offices."""

    def __init__(self, folder, ports, agent):
        self.ports = ports
        super().__init__(folder, ports[SESSIONS[0]], agent)

    def start(self):
        for session, port in self.ports.items():
            (self.folder / f"{session}.env").write_text(f"PORT={port}\n")
        with (self.folder / "offices.cfg").open("wb") as made:
            subprocess.run([TOP / "front" / "offices", self.folder], stdout=made, check=True)
        super().start()


class Both:
    """Two ledgers and their offices, behind one front."""

    def __init__(self, run, make_front, count):
        self.run, self.count, self.key = run, count, secrets.token_hex(32)
        self.front_folder, self.ledgers = run.folder / "front", run.folder / "ledgers"
        shutil.copytree(TOP / "front", self.front_folder)
        self.ledgers.mkdir()
        if os.geteuid() == 0:
            shutil.chown(self.ledgers, group="www-data")
            self.ledgers.chmod(0o2750)
        for session in SESSIONS:
            made_export(run.folder / session, session, count)
        with contextlib.ExitStack() as begun:
            self.begin(begun, make_front)
            self.begun = begun.pop_all()

    def begin(self, begun, make_front):
        ports = {}
        for session in SESSIONS:
            made = self.ledgers / session
            self.run.judge(f"a ledger of {session}", 0, typed(
                TOP / "tools" / "session_from_csv", self.run.folder / session, made)[0])
            database = self.run.folder / f"{session}.db"
            subprocess.run([self.run.program, "load", "--db", database,
                            made / "now" / "session.exam"], check=True, stdout=subprocess.DEVNULL)
            office = front_queue.RestartingOffice(
                self.run.program, database, browser.free_port())
            begun.callback(office.stop)
            ports[session] = office.words[office.words.index("--port") + 1]
        hosts = [f"{session}.localhost {session};\n" for session in SESSIONS]
        (self.front_folder / "sessions.conf").write_text("".join(hosts))
        (self.front_folder / "callers").write_text('"* registry" office;\n')
        for session in (*SESSIONS, SESSIONS[0]):
            self.run.judge(f"users of {session}", (0, ""), self.adds_users(session))
        (self.front_folder / "sessions").symlink_to(self.ledgers)
        self.agent = front_sign_in.Agent(self.run.folder, self.front_folder, self.key)
        begun.callback(self.agent.stop)
        queue = Queue(self.run.folder / "queue", ports, self.agent)
        begun.callback(queue.stop)
        self.front = make_front(self.run.folder, "unused", (
            ("include password.conf", "include sign_in.conf"),))
        begun.callback(self.front.stop)

    def adds_users(self, session):
        return typed(TOP / "tools" / "users_from_csv", self.run.folder / f"{session}.csv",
                     self.front_folder, "--ledger", self.ledgers / session, "--session", session,
                     "--apr1")

    def ask(self, user, session, path, accept="application/json"):
        """The status and the body of the reply to a session's token at a host."""
        host, now = f"{session}.localhost:{self.front.port}", time.time()
        token = jwt.encode({"u": user, "k": "session", "h": host, "j": user, "i": int(now * 1000),
                            "exp": int(now) + 3_600}, self.key)
        question = message(host, ("GET", path), f"Cookie: session={token}\r\nAccept: {accept}",
                           None)
        return self.front.told(question)


def isolation(run, both):
    """Each user asks each host."""
    came = collections.Counter()
    for session in SESSIONS:
        browser.until("the users are known", lambda: both.ask(
            f"{session}{both.count}", session, "/-/user")[0] == 200)
        for number in range(1, both.count + 1):
            user = f"{session}{number}"
            for host in SESSIONS:
                view, name = (both.ask(user, host, path) for path in ("/me", "/labels/name.json"))
                if host == session:
                    came["own view"] += json.loads(view[1]).get("candidate") == number
                    came["own name"] += json.loads(name[1])["name"] == f"{session} {number}"
                else:
                    came["nobody"] += view == CALLER
                    came["no name"] += name == (200, b"null")
    run.judge("replies to users of both sessions, who have equal numbers", dict.fromkeys(
        ("own view", "own name", "nobody", "no name"), 2 * both.count), dict(came))
    status, page = both.ask(f"{SESSIONS[0]}1", SESSIONS[1], "/", "text/html")
    run.judge("the page for somebody of another session", (400, True),
              (status, b"is not linked to" in page))
    run.judge("who they are there", (200, b'{"caller":"","sign_out":"/-/sign-out","user":"%s"}' % (
        f"{SESSIONS[0]}1".encode())),
              both.ask(f"{SESSIONS[0]}1", SESSIONS[1], "/-/user"))


def old_lines(run, both):
    """A line without a session is refused if there are two; one with * is of all."""
    callers = both.front_folder / "callers"
    before = callers.read_text()
    callers.write_text(before + "zoe cand:1;\n")
    run.judge("a line without a session", (1, (
        f'spell: callers, line {len(before.splitlines()) + 1}: with 2 sessions a line needs its'
        ' own, as in "autumn zoe"\n')), typed(both.front_folder / "spell"))
    run.judge("users beside it", (1, (
        "callers: zoe is of no session, and there are 2: write \"spring zoe\" cand:1;\n")),
        both.adds_users(SESSIONS[0]))
    callers.write_text(before)
    lines = (both.front_folder / "run" / "callers").read_text().splitlines()
    run.judge("a user of all sessions", ['"autumn registry" office;', '"spring registry" office;'],
              sorted(line for line in lines if line[0] != "#"))
    users = (both.front_folder / "users").read_text().splitlines()
    run.judge("users of both sessions, and the registry", 2 * both.count + 1, len(users))


def programs(run, both):
    """A program's token is of its session; one that is the office is of all."""
    key = both.front_folder.parent / "front.key"
    key.write_text(f"FRONT_KEY={both.key}\n")
    tokens = {}
    for name, words in (("halls", ["dept:3", "--session", SESSIONS[0]]), ("nightly", ["office"])):
        tokens[name] = subprocess.run(
            ["/usr/bin/python3", TOP / "tools" / "token", "--front", both.front_folder, "--key",
             key, "add", name, *words], check=True, capture_output=True, text=True).stdout.strip()
    both.front.reload()

    def asks(name, session):
        question = message(f"{session}.localhost:{both.front.port}", ("GET", "/drafts/1"),
                           f"Authorization: Bearer {tokens[name]}", None)
        return both.front.told(question)[0]

    browser.until("the tokens count", lambda: asks("nightly", SESSIONS[0]) == 404
                  and asks("halls", SESSIONS[0]) == 404)
    run.judge("tokens of one session, and of all", [(404, 400), (404, 404)], [
        tuple(asks(name, session) for session in SESSIONS) for name in tokens])
    made = (both.front_folder / "programs").read_text().splitlines()
    run.judge("the lines of programs", ['"spring program:halls" dept:3',
                                        "program:nightly office"],
              [line.partition(";")[0] for line in made])


def unreadable_names(run, both):
    """A session with a ledger has its names, or an error that says which file can't be read; never
    those of labels/, which has the small example's."""
    if os.geteuid():
        print("front: names that can't be read are left out without root")
        return
    session, user, now = SESSIONS[0], f"{SESSIONS[0]}1", both.ledgers / SESSIONS[0] / "now"
    paths = {"labels": ("labels.json", user), "students": ("students.json", "registry"),
             "name": ("names/1.json", user), "sizes": ("sizes.json", "registry")}
    for name, path in (("a file", None), ("the folder of files", now.resolve()),
                       ("the session's folder", both.ledgers / session)):
        for kind, (file, asks) in paths.items():
            closed = path or now / file
            before = closed.stat().st_mode
            closed.chmod(0o600 if closed.is_file() else 0o700)
            shutil.chown(closed, group="root")
            run.judge(f"{kind}, if nginx can't read {name}", (503, (
                b'{"error":"unreadable","file":"sessions/%s/now/%s.json"}'
                % (session.encode(), kind.encode()))),
                both.ask(asks, session, f"/labels/{kind}.json"))
            shutil.chown(closed, group="www-data")
            closed.chmod(before)
            run.judge(f"{kind}, if it can again", 200,
                      both.ask(asks, session, f"/labels/{kind}.json")[0])
    run.judge("a file that wasn't made yet", (200, b"null"),
              both.ask("registry", session, "/labels/published.json"))
    run.judge("a list of sessions, which no ledger has", (200, b"null"),
              both.ask(user, session, "/labels/sessions.json"))
    (now / "names" / "1.json").unlink()
    run.judge("who has no name in the ledger", (200, b"null"),
              both.ask(user, session, "/labels/name.json"))


def judge(of_front, make_front, count=PEOPLE):
    """All of it; `make_front` makes a front in a folder before an office at an address."""
    if front_sign_in.missing():
        return
    run = Run.apart(of_front.program, of_front.folder, "front", "of_sessions")
    both = Both(run, make_front, count)
    try:
        isolation(run, both)
        old_lines(run, both)
        programs(run, both)
        unreadable_names(run, both)
    finally:
        both.begun.close()
    of_front.count, of_front.failed = of_front.count + run.count, of_front.failed + run.failed
