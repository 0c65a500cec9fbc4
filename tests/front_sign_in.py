"""Signing in on a page: sessions, guesses, devices, what ends a session, programs' tokens."""
import collections
import concurrent.futures
import contextlib
import csv
import datetime
import http.client
import importlib
import json
import os
import pathlib
import re
import secrets
import shutil
import socket
import subprocess
import sys
import threading
import time
import urllib.parse

import browser
import debian
import front_queue
import limits
import waiting
from front_cases import FIRST_VIEW, password, told_error
from run_serve import Run
from serve_cases import SOLUTION


jwt = debian.module("jwt")

TOP = pathlib.Path(__file__).resolve().parent.parent
sys.path.append(str(TOP / "front"))
codes = importlib.import_module("codes")
GUNICORN = shutil.which("gunicorn")
# Beyond this nothing is waited for. Long, because other tests run beside.
SECONDS = 100


def missing():
    """Which of the Debian packages aren't installed."""
    there = {"haproxy": front_queue.HAPROXY, "gunicorn": GUNICORN, "python3-jwt": jwt}
    return [name for name, found in there.items() if not found]


class Agent:
    """The agent that checks passwords, with files of its own."""

    def __init__(self, folder, front_folder, key):
        self.folder, self.socket = folder / "agent", folder / "agent" / "agent.sock"
        self.folder.mkdir()
        self.environment = {
            **limits.numbers(), "OFFICE_WAIT": front_queue.OFFICE_WAIT, **os.environ,
            "FRONT_FOLDER": str(front_folder),
            "FRONT_STATE": str(self.folder), "FRONT_KEY": key, "FRONT_AGENT": str(self.socket),
            "MALLOC_ARENA_MAX": "2",
            "FRONT_LUA": str(TOP / "front" / "sessions.lua"),
            "FRONT_PAGES": str(TOP / "front" / "page"), "PYTHONDONTWRITEBYTECODE": "1"}
        self.start()

    def start(self):
        self.process = subprocess.Popen(
            [GUNICORN, "--workers", "1", "--threads", "32", "--bind", f"unix:{self.socket}",
             "--chdir", TOP / "front", "--graceful-timeout", "2", "agent:app"],
            env=self.environment, stdin=subprocess.DEVNULL, stdout=subprocess.DEVNULL,
            stderr=subprocess.DEVNULL)
        browser.until_or_ended(self.process, "the agent runs", lambda: waiting.takes(self.socket)
                               and (self.folder / "sessions.map").exists())

    def stop(self):
        self.process.terminate()
        self.process.wait(SECONDS)


class SignInQueue(front_queue.Queue):
    """HAProxy with the queue, and with what verifies sessions."""

    def __init__(self, folder, port, agent):
        self.more = agent.environment
        super().__init__(folder, port)

    def start(self, *more):
        self.environment = {**self.more, "QUEUE": str(self.folder)}
        super().start(TOP / "front" / "sign_in.cfg", *more)


class ReloadedQueue(SignInQueue, front_queue.ReloadedQueue):
    """The same, which can be reloaded."""


class Client:
    """A browser without pages: an address, its cookies, and the replies to it."""

    def __init__(self, front, source="127.0.0.1", host=None, agent=""):
        self.front, self.source, self.cookies, self.agent = front, source, {}, agent
        self.host = host or f"127.0.0.1:{front.port}"

    def ask(self, method, path, body=None, **fields):
        client = http.client.HTTPConnection("127.0.0.1", self.front.port, SECONDS, (self.source, 0))
        with contextlib.closing(client):
            cookies = "; ".join(f"{name}={text}" for name, text in self.cookies.items())
            client.request(method, path, body, {
                "Host": self.host, **({"Cookie": cookies} if cookies else {}),
                **({"User-Agent": self.agent} if self.agent else {}),
                **{name.replace("_", "-"): text for name, text in fields.items()}})
            reply = client.getresponse()
            for line in reply.headers.get_all("Set-Cookie", ()):
                name, text = re.match(r"([^=]+)=([^;]*)", line).groups()
                self.cookies[name] = text
            return reply.status, reply.headers, reply.read()

    def view(self, path="/me"):
        status, _, body = self.ask("GET", path)
        return status, body

    def sign_in(self, user, word=None, **more):
        form = urllib.parse.urlencode({"user": user, "password": word or f"try-{user}", **more})
        return self.ask("POST", "/-/sign-in", form, Accept="text/html",
                        Content_Type="application/x-www-form-urlencoded",
                        Origin=f"http://{self.host}")

    def sign_out(self):
        return self.ask("POST", "/-/sign-out", Origin=f"http://{self.host}")


class Stack:
    """Front, queue, agent and office. If one of them doesn't start, the others are stopped."""

    def __init__(self, run, make_front, name, edits=(), sign_in="sign_in.conf",
                 make_queue=SignInQueue, **office):
        self.run = Run.apart(run.program, run.folder, "front", name)
        self.key = secrets.token_hex(32)
        with contextlib.ExitStack() as begun:
            self.office = self.run.office(**office)
            begun.callback(self.office.killed)
            folder = self.run.folder / "front"
            shutil.copytree(TOP / "front", folder)
            self.agent = Agent(self.run.folder, folder, self.key)
            begun.callback(self.agent.stop)
            self.queue = make_queue(self.run.folder / "queue", self.office.port, self.agent)
            begun.callback(self.queue.stop)
            self.front = make_front(self.run.folder, self.queue.address, (
                ("include password.conf", f"include {sign_in}"), *edits))
            begun.callback(self.front.stop)
            self.begun = begun.pop_all()

    def stop(self):
        self.begun.close()


def sessions(run, stack):
    """A session is made by a right password, says who a user is, and ends."""
    ada = Client(stack.front)
    status, header, page = ada.ask("GET", "/registry.html", Accept="text/html")
    run.judge("nobody's page", (302, f"http://{ada.host}/-/sign-in?to=/registry.html"),
              (status, header["Location"]))
    run.judge("nobody's reply", told_error(401, "signed-out"), ada.view())
    status, header, page = ada.ask("GET", "/-/sign-in?to=/registry.html")
    run.judge("the page to sign in", (200, True, "no-store", "same-origin"), (
        status, all(part in page.decode() for part in (
            'autocomplete="username"', 'autocomplete="current-password"', "<label>User name ",
            'value="/registry.html"')), header["Cache-Control"], header["Referrer-Policy"]))
    status, header, page = ada.sign_in("ada", "guess")
    run.judge("a wrong password", (401, True, None), (
        status, b"belong together" in page, header["Set-Cookie"]))
    status, header, _ = ada.sign_in("ada", to="/candidate.html")
    session, device = header.get_all("Set-Cookie")
    run.judge("a right one", (303, "/candidate.html"), (status, header["Location"]))
    run.judge("the cookies", (["HttpOnly", "Path=/", "SameSite=Lax"],
                              ["HttpOnly", "Max-Age=7776000", "Path=/-/sign-in", "SameSite=Lax"]),
              tuple(sorted(part for part in text.split("; ")[1:] if not part.startswith("Expires"))
                    for text in (session, device)))
    run.judge("a session", FIRST_VIEW, ada.view())
    run.judge("who it is", (200, b'{"caller":"cand:1","sign_out":"/-/sign-out","user":"ada"}'),
              ada.view("/-/user"))
    run.judge("X-Caller beside it", FIRST_VIEW,
              ada.ask("GET", "/me", X_Caller="office", X_Auth_Request_User="registry")[::2])
    for place in ("//evil.example", "https://evil.example", "/\\evil", "javascript:1", "/-/user"):
        other = Client(stack.front)
        run.judge(f"the way back to {place}", "/", other.sign_in("ada", to=place)[1]["Location"])
    run.judge("a name in capital letters", 303, Client(stack.front).sign_in("ADA", "try-ada")[0])
    run.judge("another site's form", 403, ada.ask(
        "POST", "/-/sign-in", "user=ada&password=try-ada", Origin="https://elsewhere.example",
        Content_Type="application/x-www-form-urlencoded")[0])
    run.judge("another site's change", told_error(403, "forbidden", rule="origin"), ada.ask(
        "PUT", "/exams/1/owner", "{}", Origin="https://elsewhere.example")[::2])


def asked_too_often(run, stack):
    """Where an exam can go is counted by the user, the office too."""
    for user in ("registry", "physics"):
        client = Client(stack.front)
        client.sign_in(user)
        asked = [client.ask("GET", "/drafts/1/exams/3/places")[0] for _ in range(20)]
        run.judge(f"{user} asks too often where an exam can go", (False, True),
                  (429 in asked[:3], 429 in asked))


def ends(run, stack):
    """Whoever signed out, was removed, or has another password or caller is nobody, with a kept
    cookie too; and so after a restart of the queue and the agent."""
    people = {user: Client(stack.front) for user in ("ada", "ben", "cleo", "physics", "registry")}
    for user, client in people.items():
        run.judge(f"{user} signs in", 303, client.sign_in(user)[0])
        run.judge(f"{user} is somebody", 200, client.view("/-/user")[0])
    old = dict(people["ada"].cookies)
    run.judge("signing out by a link", 403, people["ada"].ask("GET", "/-/sign-out")[0])
    run.judge("signing out by another site", 403, people["ada"].ask(
        "POST", "/-/sign-out", Origin="https://elsewhere.example")[0])
    run.judge("signing out", (303, ""),
              (people["ada"].sign_out()[0], people["ada"].cookies["session"]))
    people["ada"].cookies = old
    folder = stack.front.folder
    users = (folder / "users").read_text()
    (folder / "users").write_text(re.sub(r"ben:.*\n", "", users).replace("try-cleo", "new-word"))
    callers = (folder / "callers").read_text()
    (folder / "callers").write_text(callers.replace("dept:3", "dept:4"))
    for user in ("ada", "ben", "cleo", "physics"):
        browser.until(f"{user} is nobody", lambda: people[user].view("/-/user")[0] == 401)
    run.judge("whoever stays", 200, people["registry"].view("/-/user")[0])
    stack.queue.stop()
    stack.queue.start()
    stack.agent.stop()
    run.judge("without the agent", (401, 200), tuple(
        people[user].view("/-/user")[0] for user in ("ada", "registry")))
    run.judge("signing in without the agent", 503, Client(stack.front).sign_in("registry")[0])
    stack.agent.start()
    run.judge("a new password", (401, 303), tuple(
        Client(stack.front).sign_in("cleo", word)[0] for word in ("try-cleo", "new-word")))
    (folder / "users").write_text(users)
    (folder / "callers").write_text(callers)


def forged(run, stack):
    """Tokens that nobody gave."""
    ada = Client(stack.front)
    ada.sign_in("ada")
    right, device = ada.cookies["session"], ada.cookies["device"]
    claims = jwt.decode(right, stack.key, algorithms=["HS256"])

    def made(key=stack.key, algorithm="HS256", **more):
        return jwt.encode({**claims, **more}, key, algorithm=algorithm)

    head, body, seal = right.split(".")
    other = made(u="registry").split(".")
    for name, token, status in (
            ("as it is", right, 200), ("made by the key", made(), 200),
            ("of another user", ".".join((head, other[1], seal)), 401),
            ("by another key", made("x" * 64), 401), ("without a seal", f"{head}.{body}.", 401),
            ("without an algorithm", made(None, "none"), 401),
            ("of another algorithm", made(algorithm="HS512"), 401),
            ("that has ended", made(exp=int(time.time()) - 5), 401),
            ("of before", made(i=claims["i"] - 10**12, u="eve"), 401),
            ("of another host", made(h="elsewhere.example"), 401), ("of a device", device, 401),
            ("of a program", made(k="program"), 401),
            ("of a user who isn't there", made(u="eve"), 401),
            ("junk", "a.b.c", 401), ("nothing", "", 401), ("long", "x" * 6_000, 401)):
        ada.cookies = {"session": token}
        run.judge(f"a token {name}", status, ada.view("/-/user")[0])
        if token not in (right, ""):
            ada.cookies = {}
            run.judge(f"a bearer's token {name}", 401,
                      ada.ask("GET", "/-/user", Authorization=f"Bearer {token}")[0])
    # Eight hours after signing in there is no later end.
    now = int(time.time())
    verified(run, stack, right, made(i=(now - 8 * 3_600) * 1_000, exp=now + 3))


def verified(run, stack, right, short):
    """A session that was just verified is one only as a cookie of its host, until its end."""
    here, there = Client(stack.front), Client(stack.front, host="elsewhere.example")
    for cookie in (right, short):
        here.cookies = there.cookies = {"session": cookie}
        run.judge("verified, and at another host", [200, 200, 401], [
            client.view("/-/user")[0] for client in (here, here, there)])
        run.judge("verified, and as a bearer's token", 401, Client(stack.front).ask(
            "GET", "/-/user", Authorization=f"Bearer {cookie}")[0])
    browser.until("it ends", lambda: here.view("/-/user")[0] == 401)


def by_link(run, stack):
    """A new device signs in amid guesses, by a link that the registry gives; it works once."""
    key = stack.run.folder / "front.key"
    made = subprocess.run(
        ["/usr/bin/python3", TOP / "tools" / "token", "--front", stack.front.folder, "--key", key,
         "link", "registry", f"127.0.0.1:{stack.front.port}"],
        capture_output=True, text=True, check=True).stdout
    path = made.strip().partition(str(stack.front.port))[2]
    new, second = Client(stack.front, "127.9.0.3"), Client(stack.front, "127.9.0.3")
    words = {b"It works once", b"has been used up", b"was used already"}

    def shown(client, method, path=path):
        page = client.ask(method, path, Origin=f"http://{client.host}", Accept="text/html")[2]
        return {it for it in words if it in page}

    run.judge("a link", True, made.startswith("http://127.0.0.1"))
    run.judge("looked at, by a program that checks mail too", [{b"It works once"}] * 2,
              [shown(client, "GET") for client in (second, new)])
    run.judge("its button", {b"has been used up"}, shown(new, "POST"))
    run.judge("signing in after it", 303, new.sign_in("registry")[0])
    run.judge("the link again", [{b"was used already"}] * 2,
              [shown(second, method) for method in ("GET", "POST")])
    run.judge("signing in after that", 429, second.sign_in("registry")[0])
    run.judge("a changed link", [{b"was used already"}] * 2,
              [shown(second, method, path[:-3]) for method in ("GET", "POST")])


def guesses(run, stack):
    """At most ten guesses a minute of strangers reach an account, and its user notices nothing."""
    known = Client(stack.front)
    known.sign_in("registry")
    signed_in = dict(known.cookies)
    logs = [stack.front.folder / "run" / name for name in ("changes.log", "refusals.log", "errors")]
    sizes = [log.stat().st_size for log in logs]
    slow = [stack.front.connect() for _ in range(300)]
    for client in slow:
        client.sendall(b"POST /-/sign-in HTTP/1.1\r\nHost: x\r\nContent-")
    addresses = [f"127.9.{number}.1" for number in range(40)]
    statuses = collections.Counter()

    def guess(number):
        client = Client(stack.front, addresses[number % len(addresses)])
        if number % 5 == 0:
            return client.ask("GET", "/me", Authorization=password("registry", f"w{number}")
                              .removeprefix("Authorization: "))[0]
        return client.sign_in("Registry" if number % 3 else "registry", f"w{number}")[0]

    with concurrent.futures.ThreadPoolExecutor(40) as pool:
        for status in pool.map(guess, range(400)):
            statuses[status] += 1
    run.judge("guesses of one account by strangers", ({401, 429}, True),
              (set(statuses), 5 <= statuses[401] <= 10))
    reply = Client(stack.front, "127.9.0.1").sign_in("registry", "try-registry")
    run.judge("a new device meanwhile", (429, "60"), (reply[0], reply[1]["Retry-After"]))
    run.judge("it says so", True, b"Wait a minute" in reply[2])
    began = time.monotonic()
    run.judge("whoever is signed in, fifty times", {200},
              {known.view("/drafts/1")[0] for _ in range(50)})
    run.judge("they don't wait", True, time.monotonic() - began < 10)
    run.judge("bytes in the logs", sizes, [log.stat().st_size for log in logs])
    for client in slow:
        client.close()
    known.cookies = {"device": signed_in["device"]}
    run.judge("a known device signs in", 303, known.sign_in("registry")[0])
    stolen = Client(stack.front)
    stolen.cookies = {"device": signed_in["device"]}
    words = [stolen.sign_in("registry", f"w{number}")[0] for number in range(13)]
    by_link(run, stack)
    run.judge("guesses on a known device", [401] * 10 + [429] * 3, words)
    stack.agent.stop()
    stack.agent.start()
    run.judge("after a restart they are counted", 429,
              Client(stack.front, "127.9.0.2").sign_in("registry", "w")[0])
    # Names that nobody has share counts, and some others were just tried.
    for name, network in (("eve", 8), ("adam", 18), ("lilith", 28)):
        came = [Client(stack.front, f"127.{network}.{number}.1").sign_in(name, "w")[0]
                for number in range(12)]
        if came.count(401) == 10:
            break
    run.judge("names that nobody has are refused alike", [401] * 10 + [429] * 2, came)
    run.judge("another account from there", 303,
              Client(stack.front, "127.8.0.1").sign_in("ada")[0])


def as_long(run, stack):
    """A name that nobody has takes the agent as long as one that somebody has."""
    def took(network, users):
        before = processor_seconds(stack.agent.process)
        came = [Client(stack.front, f"{network}.{number}.1").sign_in(user, "guess")[0]
                for number, user in enumerate(users)]
        run.judge(f"guesses of {users[0]}", [401] * len(users), came)
        return processor_seconds(stack.agent.process) - before

    known = took("127.40", ["physics"] * 4)
    unknown = took("127.41", [f"nobody-{number}" for number in range(4)])
    run.judge("what both take", True, known < 2 * unknown and unknown < 2 * known)


def old_hashes(run, stack):
    """Hashes of htpasswd sign in, and are argon2id afterwards in the agent's file."""
    users = stack.front.folder / "users"
    made = subprocess.run(["openssl", "passwd", "-apr1", "an old word"], capture_output=True,
                          text=True, check=True).stdout.strip()
    before = users.read_text()
    users.write_text(f"{before}olga:{made}\n")
    olga = Client(stack.front)
    came = [olga.sign_in("olga", word)[0] for word in ("an old word", "another", "an old word")]
    run.judge("an old hash", [303, 401, 303], came)
    rows = subprocess.run(
        ["sqlite3", stack.agent.folder / "agent.db", "SELECT name, hash FROM renewed"],
        capture_output=True, text=True, check=True).stdout
    run.judge("it became argon2id", True, "olga|$argon2id$" in rows and "ada|$argon2id$" in rows)
    users.write_text(before)


def users_of_a_file(run, stack):
    """Users of a CSV file have argon2id from the beginning, and sign in."""
    people, made = stack.run.folder / "people.csv", stack.run.folder / "people"
    people.write_text("user,caller,password\nzoe,cand:1,her word\n")
    ended = subprocess.run([TOP / "tools" / "users_from_csv", people, made], check=False,
                           capture_output=True, text=True)
    run.judge("users of a file", (0, ""), (ended.returncode, ended.stderr))
    line = (made / "users").read_text()
    run.judge("its hash", "zoe:$argon2id$v=19$m=19456,t=2,p=1$", line[:35])
    for name, text in (("users", line), ("callers", (made / "callers").read_text())):
        with (stack.front.folder / name).open("a") as file:
            file.write(text)
    run.judge("they sign in", [401, 303], [
        Client(stack.front).sign_in("zoe", word)[0] for word in ("another", "her word")])


def codes_of_letters(run, stack):
    """A right code signs in at once, whatever others try at its account and from its address; a
    code is right for its account only, however it is written."""
    people, made = stack.run.folder / "letters.csv", stack.run.folder / "letters"
    people.write_text("user,caller\nlea,cand:1\nlou,cand:2\n")

    def letters(*words):
        ended = subprocess.run([TOP / "tools" / "users_from_csv", people, made, *words],
                               check=False, capture_output=True, text=True)
        run.judge("letters", (0, ""), (ended.returncode, ended.stderr))
        lines = (made / "passwords.csv").read_text().splitlines()[1:]
        return dict(line.split(",") for line in lines)

    given = letters()
    codes = [*given.values()]
    run.judge("codes", ([True] * 2, 2), ([bool(re.fullmatch(
        "[0-9a-hjkmnp-tv-z]{4}(-[0-9a-hjkmnp-tv-z]{4}){2}", code)) for code in codes],
        len(set(codes))))
    run.judge("what is kept of codes", [True] * 2, [bool(re.fullmatch(
        r"l\w+:\{CODE\}[0-9a-f]{64}", line)) for line in (made / "users").read_text().split()])
    users, before = stack.front.folder / "users", (stack.front.folder / "users").read_text()
    users.write_text(before + (made / "users").read_text())
    with (stack.front.folder / "callers").open("a") as callers:
        callers.write((made / "callers").read_text())
    stack.front.reload()
    for name, user, word, status in (
            ("as it is", "lea", codes[0], 303), ("of another account", "lea", codes[1], 401),
            ("with O and I, in capital letters, without hyphens", "LEA", codes[0].upper().replace(
                "-", "").replace("0", "O").replace("1", "I"), 303),
            ("with blanks", "lea", f" {codes[0]}", 401),
            ("that goes on", "lea", f"{codes[0]}-1", 401),
            ("of an account that has none", "ada", codes[0], 401),
            ("of a name that nobody has", "eve", codes[0], 401)):
        run.judge(f"a code {name}", status,
                  Client(stack.front, "127.50.0.1").sign_in(user, word)[0])
    guessed = collections.Counter(Client(stack.front, f"127.51.{number}.1").sign_in(
        "lou", f"guess {number}")[0] for number in range(12))
    run.judge("guesses of an account with a code", {401: 10, 429: 2}, guessed)
    run.judge("the code meanwhile", 303, Client(stack.front, "127.51.90.1").sign_in(
        "lou", codes[1])[0])
    typos = [Client(stack.front, "127.50.0.2").sign_in("lou", f"{number:04}-0000-0000")[0]
             for number in range(70)]
    run.judge("wrong codes of an address", {401}, set(typos))
    run.judge("a right one, and a password, after them", (303, 303), tuple(
        Client(stack.front, "127.50.0.2").sign_in(user, word)[0]
        for user, word in (("lou", codes[1]), ("ben", None))))
    for number in range(80):
        Client(stack.front, "127.50.0.3").sign_in(f"nobody-{number}", "guess")
    there = Client(stack.front, "127.50.0.3")
    run.judge("an address that floods: its form, a password, a code", (200, 429, 303), (
        there.ask("GET", "/-/sign-in")[0], there.sign_in("ben")[0],
        there.sign_in("lou", codes[1])[0]))
    renewed = letters("--renew")
    users.write_text(before + (made / "users").read_text())
    browser.until("the next letter counts", lambda: Client(stack.front, "127.50.0.4").sign_in(
        "lou", renewed["lou"])[0] == 303)
    run.judge("the one before doesn't", 401, Client(stack.front, "127.50.0.4").sign_in(
        "lou", codes[1])[0])
    field = password("lou", renewed["lou"]).removeprefix("Authorization: ")
    run.judge("a code as Basic", 200,
              Client(stack.front).ask("GET", "/me", Authorization=field)[0])
    users.write_text(before)


def beside_hashes(run, stack):
    """Codes don't wait for the hashes of other passwords, and so don't those who are signed in."""
    users, before = stack.front.folder / "users", (stack.front.folder / "users").read_text()
    ended = subprocess.run(
        [TOP / "tools" / "users_from_csv", stack.run.folder / "letters.csv", stack.run.folder /
         "letters", "--renew"], check=False, capture_output=True, text=True)
    run.judge("letters", (0, ""), (ended.returncode, ended.stderr))
    users.write_text(before + (stack.run.folder / "letters" / "users").read_text())
    code = dict(line.split(",") for line in (
        stack.run.folder / "letters" / "passwords.csv").read_text().splitlines())["lea"]
    ada = Client(stack.front)
    ada.sign_in("ada")
    statuses, waits = collections.Counter(), []

    def guess(number):
        return Client(stack.front, f"127.52.{number // 250}.{number % 250 + 1}").sign_in(
            f"somebody-{number}", "guess")[0]

    with concurrent.futures.ThreadPoolExecutor(300) as pool:
        guessing = [pool.submit(guess, number) for number in range(300)]
        browser.until("some wait", lambda: sum(one.done() for one in guessing) > 20)
        for _ in range(5):
            began = time.monotonic()
            statuses[Client(stack.front, "127.52.9.9").sign_in("lea", code)[0]] += 1
            statuses[ada.view("/-/user")[0]] += 1
            waits.append(time.monotonic() - began)
        left = sum(not one.done() for one in guessing)
        run.judge("codes and sessions beside hashes", ({303: 5, 200: 5}, True, True),
                  (statuses, max(waits) < 5, left > 50))
    run.judge("the guesses", {401}, {one.result() for one in guessing})
    users.write_text(before)


def names_of_users(run, stack):
    """A name that can't sign in is refused at a reload, with its line; the front goes on."""
    users, before = stack.front.folder / "users", (stack.front.folder / "users").read_text()
    users.write_text("# \u00e4 b:c\n\no'brien:x\n\u00c4rne:x\nx-y.z_@+a!,/#~[|]:x\no brien:x\n"
                     f"~x:x\nx;y:x\n'x:x\n{'x' * 255}:x\n{'x' * 254}:x\n")
    done = subprocess.run([stack.front.folder / "spell"], capture_output=True, text=True,
                          check=False, timeout=SECONDS)
    run.judge("names that can't sign in", (1, ["4", "6", "7", "8", "9", "10"]), (
        done.returncode, re.findall(r"spell: users, line (\d+): the name .* cannot sign in: ",
                                    done.stderr)))
    users.write_text(before)
    stack.front.spell()
    ada = Client(stack.front)
    ada.sign_in("ada")
    for path, asked in (("/registry.html?a=b&to=//evil", "/registry.html"), ("//evil", "/")):
        status, header, _ = Client(stack.front).ask("GET", path, Accept="text/html")
        run.judge(f"{path} sends to sign in", (302, f"http://{ada.host}/-/sign-in?to={asked}"),
                  (status, header["Location"]))


def log_of_sign_ins(run, stack):
    """Who tried whose account is in a log of lines for an account and a minute."""
    lines = stack.agent.folder / "sign_ins.db"
    tool = TOP / "front" / "sign_ins.py"

    users, before = stack.front.folder / "users", (stack.front.folder / "users").read_text()
    users.write_text(f"{before}mia:{{PLAIN}}try-mia\n")

    def printed(*more):
        return subprocess.run(["python3", "-B", tool, lines, *more], check=True,
                              capture_output=True, text=True).stdout.splitlines()

    for number in range(5):
        Client(stack.front, f"127.60.{number}.1").sign_in("mia", f"guess {number}")
    Client(stack.front, "127.60.9.1").sign_in("mia")
    Client(stack.front, "127.60.9.2").sign_in("nobody-here", "guess")

    def found():
        rows = [row for row in csv.reader(printed("--lines")) if row[1] == "mia"]
        return [sum(int(row[place]) for row in rows) for place in (2, 3, 5)]

    browser.until("the lines are there", lambda: found()[:2] == [1, 5])
    run.judge("its new browser, and who may read it", ([1, 5, 1], 0o600),
              (found(), lines.stat().st_mode & 0o777))
    run.judge("names that nobody has", True, any(
        line.partition(",")[2].startswith("names that nobody has,") for line in printed("--lines")))
    said = re.compile(r"5 wrong passwords for mia since \w+, from (at least )?[56] addresses, the"
                      r" last (on )?\w+ at \d\d:\d\d(; 1 new browser)?")
    run.judge("what it says", [True], [bool(said.fullmatch(line)) for line in printed()
                                       if " mia " in line])
    for user, status in (("ada", 403), ("physics", 403), ("registry", 200), (None, 401)):
        client = Client(stack.front)
        if user:
            client.sign_in(user)
        came, _, body = client.ask("GET", "/-/sign-ins")
        run.judge(f"what the page of {user} has", (status, status == 200), (came, any(
            said.fullmatch(line) for line in json.loads(body).get("sign_ins", []))))
    users.write_text(before)


def summaries(run):
    """Sentences of the log, by lines of days before: the day is that of the first wrong one."""
    module = importlib.import_module("sign_ins")
    log = module.SignIns(run.folder / "summaries.db")
    noon = datetime.datetime.now().replace(hour=12, minute=0, second=0, microsecond=0)
    rows = (("ada", 7, 9, 0, "1"), ("ada", 6, 2, 0, "1 2"), ("ada", 2, 3, 1, "2 3"),
            ("ada", 0, 0, 0, ""), ("ben", 1, 0, 1, "4 5 6+9"), ("cleo", 0, 1, 0, "7"))
    for name, days, wrong, refused, some in rows:
        some, _, more = some.partition("+")
        log.db.execute("INSERT INTO sign_ins VALUES (?, ?, ?, ?, ?, ?, ?, ?)", (
            int((noon - datetime.timedelta(days=days)).timestamp()) // 60, name, not wrong, wrong,
            refused, 0, int(more or len(some.split())), some))
    six, two, one = (f"{noon - datetime.timedelta(days=days):%A}" for days in (6, 2, 1))
    run.judge("sentences", [
        f"6 wrong passwords for ada since {six}, from 3 addresses, the last on {two} at 12:00",
        f"1 wrong password for ben since {one}, from at least 9 addresses, the last on {one} at"
        " 12:00",
        "1 wrong password for cleo since today, from 1 address, the last today at 12:00",
    ], log.summary())


def bounded_log(run):
    """The log keeps its size, and a flood of wrong passwords pushes out no right one."""
    module = importlib.import_module("sign_ins")
    path = run.folder / "bounded.db"
    log = module.SignIns(path)
    module.MOST, log.now = 50, lambda: log.minute
    for minute in range(1_000_000, 1_000_005):
        log.minute, log.lines = minute, {}
        log.note(f"right-{minute}", "right", "127.0.0.1")
        for number in range(1_000):
            log.note(f"user-{number}", "wrong", f"127.0.{number % 200}.1")
        log.write()
    rows = log.db.execute("SELECT minute, name, right, wrong, addresses FROM sign_ins").fetchall()
    run.judge("right ones are kept", 5, sum(row[2] for row in rows))
    run.judge("lines of wrong ones", True, module.MOST <= len(rows) - 5 <= module.MOST + 101)
    run.judge("those of one minute", (101, 900, 100), (
        sum(row[0] == minute and not row[2] for row in rows),
        *[row[3:] for row in rows if row[:2] == (minute, module.FLOOD)][0]))


def marks(run, stack):
    """What a browser keeps names nobody, ends with a new password, and isn't left where somebody
    says that it isn't their computer."""
    def claims(client):
        return jwt.decode(client.cookies["device"], stack.key, algorithms=["HS256"])

    ben, other = Client(stack.front, "127.61.0.1"), Client(stack.front, "127.61.0.2")
    ben.sign_in("ben")
    run.judge("its claims", (True, 1, False), (
        set(claims(ben)) == {"u", "k", "h", "i", "j", "exp"}, len(claims(ben)["u"]),
        "ben" in str(claims(ben))))
    other.sign_in("ben", strange="on")
    run.judge("somebody else's computer", False, "device" in other.cookies)
    other.sign_in("ada")
    other.sign_in("ben", strange="on")
    run.judge("with others who know it", 1, len(claims(other)["u"]))
    for number in range(12):
        Client(stack.front, f"127.62.{number}.1").sign_in("ben", "guess")
    run.judge("amid guesses: a known browser, one that isn't", (303, 429), tuple(
        client.sign_in("ben")[0] for client in (ben, other)))
    users, before = stack.front.folder / "users", (stack.front.folder / "users").read_text()
    users.write_text(before.replace("ben:{PLAIN}try-ben", "ben:{PLAIN}another-word"))
    session = Client(stack.front, "127.61.0.3")
    browser.until("the new password counts", lambda: ben.view("/-/user")[0] == 401)
    run.judge("the browser of before isn't known", 429, ben.sign_in("ben", "another-word")[0])
    run.judge("nobody is signed in there", 401, session.view("/-/user")[0])
    users.write_text(before)


def is_out(client):
    """Whether nobody is signed in there."""
    # Less often than a user may ask.
    time.sleep(0.2)
    return client.view("/-/user")[0] == 401


def later_ends(run, stack):
    """Whoever goes on is signed in for two hours more each time, until eight hours after signing
    in; what ends a session ends its later tokens too."""
    # The office's requests aren't limited.
    client = Client(stack.front, "127.64.0.1")
    client.sign_in("registry")
    first, hour, now = client.cookies["session"], 3_600, int(time.time())
    claims = jwt.decode(first, stack.key, algorithms=["HS256"])
    run.judge("a new session's end", True, 2 * hour - 60 < claims["exp"] - now <= 2 * hour)
    # Hours since the sign-in, hours until the token's end, and until that of the next one, if any.
    for since, left, longer in ((0.1, 1.9, None), (1, 1, 2), (3, 0.01, 2), (6.5, 0.2, 1.5),
                                (7, 1, None), (7.9, 0.05, None), (9, 0.5, None)):
        at, end = now - int(since * hour), now + int(left * hour)
        client.cookies = {"session": jwt.encode({
            **claims, "i": at * 1000, "exp": end}, stack.key, algorithm="HS256")}
        status, header, _ = client.ask("GET", "/-/user")
        later = jwt.decode(client.cookies["session"], stack.key, algorithms=["HS256"])
        run.judge(f"{since} hours later", (200, ["HttpOnly", "Path=/", "SameSite=Lax"] if longer
                                           else [], {**claims, "i": at * 1000}), (
            status, sorted((header["Set-Cookie"] or "").split("; ")[1:]),
            {**later, "exp": claims["exp"]}))
        expected = end if longer is None else now + longer * hour
        run.judge(f"its end, {since} hours later", True, abs(later["exp"] - expected) < 60)
        if longer:
            status, header, _ = client.ask("GET", "/-/user")
            run.judge("the next one has no other", (200, None), (status, header["Set-Cookie"]))
    later = jwt.encode({**claims, "i": (now - hour) * 1000, "exp": now + hour}, stack.key,
                       algorithm="HS256")
    client.cookies = {"session": later}
    client.view("/-/user")
    longer = client.cookies["session"]
    client.cookies = {"session": first}
    client.sign_out()
    for name, token in (("the first token", first), ("a later one", longer)):
        client.cookies = {"session": token}
        browser.until(f"{name} has ended", lambda: client.view("/-/user")[0] == 401)


def ends_of_browsers(run, stack):
    """People see the browsers on which they are signed in, and end them one by one."""
    path = "/-/sign-in/password"
    users, before = stack.front.folder / "users", (stack.front.folder / "users").read_text()
    users.write_text(f"{before}kim:{codes.digest('kim', 'aaaa-bbbb-cccc')}\n")
    agents = {"127.65.0.1": "Mozilla/5.0 (X11; Linux x86_64; rv:128.0) Gecko/20100101 Firefox/12.0",
              "127.65.0.2": "Mozilla/5.0 (Windows NT 10.0; Win64; x64) AppleWebKit/537.36 (KHTML, "
                            "like Gecko) Chrome/120.0.0.0 Safari/537.36 Edg/120.0.0.0",
              "127.65.0.3": "curl/7.88 <b>", "127.65.0.4": ""}
    people = [Client(stack.front, address, agent=agent) for address, agent in agents.items()]
    for client in people:
        run.judge("a code", 303, client.sign_in("kim", "aaaa-bbbb-cccc")[0])
    browser.until("the queue knows them", lambda: not is_out(people[0]))

    def shown(client):
        page = client.ask("GET", path)[2].decode()
        return re.findall(r'<p class="browser">(.*?), since (.*?), from (.*?): (.*?)</p>', page)

    def changes(client, **form):
        return client.ask("POST", path, urllib.parse.urlencode(form), Accept="text/html",
                          Content_Type="application/x-www-form-urlencoded",
                          Origin=f"http://{client.host}")

    seen = shown(people[0])
    run.judge("browsers", {("Firefox on Linux", "127.65.0.1", True),
                           ("Edge on Windows", "127.65.0.2", False),
                           ("another program", "127.65.0.3", False),
                           ("another program", "127.65.0.4", False)},
              {(name, address, last == "this browser") for name, _, address, last in seen})
    numbers = {address: re.search('value="([0-9a-f]{32})"', last) for _, _, address, last in seen}
    ben = Client(stack.front, "127.65.1.1")
    ben.sign_in("ben")
    changes(ben, end=numbers["127.65.0.2"][1])
    run.judge("by somebody else", (4, 200), (len(shown(people[0])), people[1].view("/-/user")[0]))
    status, _, page = changes(people[0], end=numbers["127.65.0.2"][1])
    run.judge("one is ended", (200, True, 3), (
        status, b"That browser is signed out" in page, len(shown(people[0]))))
    browser.until("it is nobody", lambda: is_out(people[1]))
    people[2].sign_out()
    run.judge("who signed out isn't shown", (2, [200, 200]), (
        len(shown(people[0])), [people[number].view("/-/user")[0] for number in (0, 3)]))
    changes(people[0], everywhere="on")
    people[0].sign_in("kim", "aaaa-bbbb-cccc")
    run.judge("everywhere", 1, len(shown(people[0])))
    often = collections.Counter(people[1].sign_in("kim", "aaaa-bbbb-cccc")[0] for _ in range(110))
    most = int(limits.numbers()["SIGN_INS_OF_USER"])
    run.judge("right ones without end", ({303: most - 5, 429: 115 - most}, 50), (
        often, len(shown(people[0]))))
    users.write_text(before)


def own_passwords(run, stack):
    """Who is signed in changes their password, which ends all that others have of them."""
    path = "/-/sign-in/password"

    def changes(client, **form):
        status, _, page = client.ask("POST", path, urllib.parse.urlencode(form), Accept="text/html",
                                     Content_Type="application/x-www-form-urlencoded",
                                     Origin=f"http://{client.host}")
        return status, page.decode()

    new = "mushroom-lantern-seven"
    here, there, nobody = (Client(stack.front, f"127.63.0.{number}") for number in (1, 2, 3))
    for client in (here, there):
        client.sign_in("cleo")
    run.judge("the form", (200, True, 303), (
        (came := here.ask("GET", path))[0], b'value="cleo"' in came[2], nobody.ask("GET", path)[0]))
    run.judge("nobody", 303, changes(nobody, user="cleo", password="try-cleo", new=new)[0])
    run.judge("another site's form", 403, here.ask(
        "POST", path, "password=try-cleo", Origin="https://elsewhere.example")[0])
    for name, word, text, status in (
            ("with a wrong one", "guess", new, 401), ("that is easy", "try-cleo", "cleo2026", 400),
            ("that is the same", "try-cleo", "try-cleo", 400),
            ("of the form of a code", "try-cleo", "vgkt-tn3d-jerv", 400)):
        run.judge(f"a new password {name}", (status, True), (
            (came := changes(here, user="ada", password=word, new=text))[0],
            'role="alert"' in came[1]))
    run.judge("a new password", (200, True), (
        (came := changes(here, user="ada", password="try-cleo", new=new))[0],
        "You have a new password" in came[1]))

    browser.until("others are signed out", lambda: is_out(there))
    run.judge("who changed it isn't", 200, here.view("/-/user")[0])
    run.judge("the old one, the new one, and that of somebody else", [401, 303, 303], [
        Client(stack.front, "127.63.1.1").sign_in(user, word)[0]
        for user, word in (("cleo", "try-cleo"), ("cleo", new), ("ada", "try-ada"))])
    stack.agent.stop()
    stack.agent.start()
    run.judge("after a restart", [401, 303], [
        Client(stack.front, "127.63.1.2").sign_in("cleo", word)[0] for word in ("try-cleo", new)])
    run.judge("signed out everywhere", 200, changes(here, everywhere="on")[0])
    browser.until("that browser too", lambda: is_out(here))
    users, before = stack.front.folder / "users", (stack.front.folder / "users").read_text()
    users.write_text(before.replace("try-cleo", "from-the-registry"))
    browser.until("the registry's next one counts", lambda: Client(
        stack.front, f"127.63.2.{time.time_ns() % 250}").sign_in("cleo", "from-the-registry")[0]
        == 303)
    run.judge("in place of their own", 401, Client(
        stack.front, "127.63.1.3").sign_in("cleo", new)[0])
    users.write_text(before)


def programs(run, stack):
    """A program has a token in place of a password, until it is removed."""
    key = stack.run.folder / "front.key"
    key.write_text(f"FRONT_KEY={stack.key}\n")

    def ended(*words):
        done = subprocess.run(
            ["/usr/bin/python3", TOP / "tools" / "token", "--front", stack.front.folder,
             "--key", key, *words], capture_output=True, text=True, check=False)
        return done.returncode, done.stdout.strip() or done.stderr.strip()

    # The socket at which the front knows nobody without a token.
    at = stack.front.folder / "run" / "front.sock"
    more = stack.front.folder / "more"
    more.mkdir()
    (more / "service.conf").write_text((TOP / "front" / "service.conf").read_text().replace(
        "/var/lib/examoffice-front/front.sock", str(at)))
    stack.front.reload()
    listed = stack.front.folder / "programs"

    def reload_then():
        browser.until("it is listed", lambda: listed.exists() and "nightly" in listed.read_text())
        # So that a tool that doesn't wait is seen.
        time.sleep(1)
        stack.front.reload()

    # The tool reloads the front where systemd runs it.
    reloading = threading.Thread(target=reload_then)
    reloading.start()
    status, token = ended("--socket", at, "add", "nightly", "office")
    nightly = Client(stack.front)

    def asks(path, token=token):
        return nightly.ask("GET", path, Authorization=f"Bearer {token}")[0]

    run.judge("a new program, at once", (0, [200] * 4),
              (status, [asks("/drafts/1") for _ in range(4)]))
    reloading.join()
    renewed = ended("renew", "nightly")
    browser.until("the token before counts no longer", lambda: asks("/drafts/1") == 401)
    run.judge("its next one does", (0, 200), (renewed[0], asks("/drafts/1", renewed[1])))
    token, kept = renewed[1], stack.run.folder / "program.token"
    kept.write_text("A_TOKEN=x\n")
    run.judge("renewed in its file, but not so soon", ((0, ""), "A_TOKEN=x\n"),
              (ended("renew", "nightly", "--into", kept), kept.read_text()))
    listed.write_text(re.sub(r"# (\S+) [0-9]+", r"# \1 1600000000000", listed.read_text()))
    run.judge("after 30 days", ((0, ""), True, 0o600), (
        ended("renew", "nightly", "--into", kept), kept.read_text().startswith("A_TOKEN=ey"),
        kept.stat().st_mode & 0o777))
    token = kept.read_text().strip().removeprefix("A_TOKEN=")
    browser.until("the token of its file works", lambda: asks("/drafts/1", token) == 200)
    run.judge("renewed without being there", (1, "token: there is no program other"),
              ended("renew", "other"))
    nightly.cookies = {"session": token}
    run.judge("its token as a cookie", 401, nightly.ask("GET", "/drafts/1")[0])
    run.judge("added twice", (1, "token: there is a program nightly; remove it first"),
              ended("add", "nightly", "office"))
    run.judge("an odd caller", 1, ended("add", "other", "cand:1; x office")[0])
    run.judge("no day", 2, ended("add", "other", "office", "--days", "0")[0])
    run.judge("links for nobody, and for an address in place of a host", [
        (1, "token: there is no user 'stranger'"),
        (1, "token: a host such as exams.example is expected, not 'https://exams.example/'"),
    ], [ended("link", *words) for words in (
        ("stranger", "exams.example"), ("registry", "https://exams.example/"))])
    run.judge("the list", ["nightly", "office"], ended("list")[1].split()[:2])
    run.judge("removed", (0, ""), ended("remove", "nightly"))
    browser.until("the program is nobody", lambda: asks("/drafts/1", token) == 401)
    other = [ended(*words)[1] for words in (
        ("add", "nightly", "dept:3"), ("remove", "nightly"), ("add", "nightly", "dept:3"))][2]
    stack.front.reload()
    browser.until("another one counts", lambda: nightly.ask(
        "GET", "/drafts/1", Authorization=f"Bearer {other}")[0] == 200)
    run.judge("the old one doesn't", 401, asks("/drafts/1", token))


def another_key(run, stack):
    """With another key nobody is signed in, and programs have the tokens that it made."""
    key, kept = stack.run.folder / "front.key", stack.run.folder / "service.token"
    kept.write_text("REGISTRY_TOKEN=x\n")
    known = Client(stack.front)
    known.sign_in("ada")
    tool = ["/usr/bin/python3", TOP / "tools" / "token", "--front", stack.front.folder,
            "--key", key, "--no-reload"]
    subprocess.run([*tool, "add", "registry-service", "office"], check=True,
                   stdout=subprocess.DEVNULL)
    made = subprocess.run([*tool, "new-key", "--into", kept], check=True, capture_output=True,
                          text=True).stdout.split()
    stack.key = stack.agent.environment["FRONT_KEY"] = key.read_text().strip().partition("=")[2]
    stack.agent.stop()
    stack.agent.start()
    stack.queue.stop()
    stack.queue.start()
    stack.front.reload()
    token = kept.read_text().strip().partition("=")[2]
    run.judge("programs with new tokens", ["nightly"], made[::2])
    for name, expected, one in (("nightly", 200, made[1]), ("registry-service", 200, token)):
        browser.until(f"the token of {name} works", lambda: Client(stack.front).ask(
            "GET", "/drafts/1", Authorization=f"Bearer {one}")[0] == expected)
    run.judge("a session of before", 401, known.view("/-/user")[0])
    run.judge("signing in again", 303, known.sign_in("ada")[0])


def basic(run, stack):
    """A password with each request is for programs on this machine."""
    field = password("registry").removeprefix("Authorization: ")
    here, there = Client(stack.front), Client(stack.front, "127.7.0.1")
    run.judge("Basic", (200, 200), tuple(
        client.ask("GET", "/drafts/1", Authorization=field)[0] for client in (here, there)))
    reply = agent_asked(stack, "GET", "/who", Authorization=field, X_Real_IP="192.0.2.1")
    run.judge("Basic from elsewhere", 401, reply)
    run.judge("Basic that is none", 401, here.ask("GET", "/me", Authorization="Basic \xe9")[0])
    told = [here.ask(*question) for question in (
        ("PUT", "/-/sign-in"), ("GET", "/drafts/1#"), ("GET", "/-/sign-in#"))]
    run.judge("refusals of the queue and the agent", [
        (405, "application/json", b'{"error":"method"}'),
        *[(400, "application/json", b'{"error":"request"}')] * 2,
    ], [(status, header["Content-Type"], body.strip()) for status, header, body in told])


def agent_asked(stack, method, path, body=None, **fields):
    """The status of a request to HAProxy, as nginx makes it for a client at another address."""
    name = "basic" if path == "/who" else "sign_in"
    with contextlib.closing(http.client.HTTPConnection("office", timeout=SECONDS)) as client:
        client.sock = socket.socket(socket.AF_UNIX)
        client.sock.connect(str(stack.queue.folder / f"{name}.sock"))
        client.request(method, path, body, {name.replace("_", "-"): text
                                            for name, text in fields.items()})
        return client.getresponse().status


def networks(run, stack):
    """Addresses of IPv6 are counted by their network; from elsewhere one signs in by https only."""
    def guess(address, number, scheme="https"):
        return agent_asked(stack, "POST", "/-/sign-in", f"user=nobody-{number}&password=x",
                           Content_Type="application/x-www-form-urlencoded", X_Real_IP=address,
                           X_Scheme=scheme, Accept="text/html")

    run.judge("http from elsewhere", 403, guess("192.0.2.7", 0, "http"))
    came = [guess(f"2001:db8:0:1::{number + 1:x}", number) for number in range(33)]
    run.judge("a network of IPv6", [401] * 30 + [429] * 3, came)
    run.judge("another one", 401, guess("2001:db8:0:2::1", 99))
    for number in range(40):
        guess(f"2001:db8:0:1::{number + 1:x}", number)
    known = Client(stack.front)
    known.sign_in("ada")
    forms = {"a network that floods": ("2001:db8:0:1::7", "", 429),
             "a known device there": ("2001:db8:0:1::7", known.cookies["device"], 403),
             "another network": ("2001:db8:0:2::7", "", 403)}
    for name, (address, device, status) in forms.items():
        fields = {"X_Real_IP": address, "X_Scheme": "http", "Host": known.host,
                  "Cookie": f"device={device}"}
        run.judge(f"the form for {name}", 200, agent_asked(stack, "GET", "/-/sign-in", **fields))
        run.judge(f"a password of {name}", status, agent_asked(
            stack, "POST", "/-/sign-in", "user=ada&password=try-ada",
            Content_Type="application/x-www-form-urlencoded", **fields))


def over_tls(run, make_front):
    """With https the cookies are the host's own and Secure."""
    folder = run.folder / "tls"
    folder.mkdir()
    subprocess.run(["openssl", "req", "-x509", "-newkey", "rsa:2048", "-nodes", "-subj",
                    "/CN=localhost", "-keyout", folder / "key", "-out", folder / "pem"], check=True,
                   stdout=subprocess.DEVNULL, stderr=subprocess.DEVNULL)
    port = browser.free_port()
    stack = Stack(run, make_front, "over_tls", ((
        "server_name _;", f"listen 127.0.0.1:{port} ssl; ssl_certificate {folder}/pem;"
                          f" ssl_certificate_key {folder}/key; server_name _;"),))
    curl = ["curl", "-ks", "--cookie-jar", folder / "jar", "--cookie", folder / "jar"]

    def asks(*words):
        return subprocess.run([*curl, *words], capture_output=True, text=True, check=False,
                              timeout=SECONDS).stdout

    try:
        heads = asks("-D", "-", "-d", "user=ada&password=try-ada",
                     f"https://127.0.0.1:{port}/-/sign-in").splitlines()
        cookies = [line.split(": ")[1] for line in heads if line.lower().startswith("set-cookie")]
        run.judge("cookies over https", (["__Host-session", "__Secure-device"], True),
                  ([text.partition("=")[0] for text in cookies],
                   all("; Secure" in text and "; HttpOnly" in text for text in cookies)))
        run.judge("a session over https",
                  '{"caller":"cand:1","sign_out":"/-/sign-out","user":"ada"}',
                  asks(f"https://127.0.0.1:{port}/-/user"))
        run.judge("versions of TLS", {"1.1": "000", "1.2": "200", "1.3": "200"}, {
            version: asks("-o", folder / "style", "-w", "%{http_code}", f"--tlsv{version}",
                          "--tls-max", version, f"https://127.0.0.1:{port}/style.css")
            for version in ("1.1", "1.2", "1.3")})
        mixed = Client(stack.front)
        mixed.sign_in("ada")
        run.judge("a session of http over https", '{"error":"signed-out"}', asks(
            "-H", f"Cookie: session={mixed.cookies['session']}", "-H", f"Host: {mixed.host}",
            "--cookie-jar", folder / "none", "--cookie", folder / "none",
            f"https://127.0.0.1:{port}/-/user"))
    finally:
        stack.stop()


class EndedConnections:
    """Says who is signed in, as HAProxy does, once on each connection; the next question on it gets
    its end, as if HAProxy had just been reloaded."""

    def __init__(self, path):
        self.ended, self.is_over = 0, threading.Event()
        self.listener = socket.socket(socket.AF_UNIX)
        self.listener.bind(str(path))
        path.chmod(0o777)
        self.listener.listen(64)
        self.listener.settimeout(0.2)
        self.pool = concurrent.futures.ThreadPoolExecutor(64)
        self.pool.submit(self.accepts)

    def accepts(self):
        while not self.is_over.is_set():
            with contextlib.suppress(TimeoutError):
                self.pool.submit(self.serves, self.listener.accept()[0])

    def serves(self, connection):
        with connection, contextlib.suppress(OSError):
            connection.settimeout(SECONDS)
            if connection.recv(65_536):
                connection.sendall(b"HTTP/1.1 200 OK\r\nX-Auth-Request-User: ada\r\n"
                                   b"Content-Length: 0\r\n\r\n")
                self.ended += bool(connection.recv(65_536))

    def stop(self):
        self.is_over.set()
        self.listener.close()


def kept_connections(run, make_front):
    """A connection that nginx keeps to HAProxy may end just when it is used again, and nobody is
    refused."""
    folder = run.folder / "kept"
    (folder / "queue").mkdir(parents=True)
    folder.chmod(0o755)
    stub = EndedConnections(folder / "queue" / "who.sock")
    front = make_front(folder, browser.free_port(), (("include password.conf",
                                                      "include sign_in.conf"),))
    try:
        client = http.client.HTTPConnection("127.0.0.1", front.port, SECONDS)
        came = []
        with contextlib.closing(client):
            for _ in range(20):
                client.request("GET", "/-/user", headers={"Cookie": "session=x"})
                reply = client.getresponse()
                came.append((reply.status, b"cand:1" in reply.read()))
        run.judge("beside ends of kept connections", ({(200, True)}, True), (
            set(came), stub.ended > 0))
    finally:
        front.stop()
        stub.stop()


def a_crowd(run, stack):
    """A thousand requests come at once from one address; the office isn't limited, others are."""
    def question(user, path, word=None):
        client = Client(stack.front)
        client.sign_in(user, word)
        return (f"GET {path} HTTP/1.1\r\nHost: {client.host}\r\nConnection: close\r\n"
                f"Cookie: session={client.cookies['session']}\r\n\r\n").encode()

    came, _ = front_queue.crowd(stack.front.port, [
        question("zoe", "/me/penalty", "her word")] * 300)
    statuses = collections.Counter(status for status, _ in came)
    run.judge("one user's 300 requests", ({200, 429}, True),
              (set(statuses), 195 <= statuses[200] <= 205))
    came, longest = front_queue.crowd(stack.front.port, [question("registry", "/drafts/1")]
                                      * front_queue.CROWD, ["127.5.0.1"] * front_queue.CROWD)
    run.judge("a thousand at once, of one address", {200: front_queue.CROWD},
              collections.Counter(status for status, _ in came))
    run.judge("how long the last one waits", True, longest < 15)


def processor_seconds(process):
    """What a process and its children have used."""
    children = pathlib.Path(f"/proc/{process.pid}/task/{process.pid}/children").read_text().split()
    fields = [pathlib.Path(f"/proc/{pid}/stat").read_text().rpartition(")")[2].split()
              for pid in (process.pid, *children)]
    return sum(int(one[11]) + int(one[12]) for one in fields) / os.sysconf("SC_CLK_TCK")


def first_sign_ins(run, stack):
    """25,000 users are new: many of one address sign in at once, and who was signed in goes on.
    In an hour two processors could do it for all."""
    users = stack.front.folder / "users"
    before, count = users.read_text(), 100
    hashed = subprocess.run(["openssl", "passwd", "-apr1", "-stdin"], check=True, text=True,
                            input="a word\n", capture_output=True).stdout.strip()
    users.write_text(before + "".join(f"s{number}:{hashed}\n" for number in range(25_000)))
    ada = Client(stack.front)
    ada.sign_in("ada")
    began = time.monotonic()
    came = collections.Counter()
    while time.monotonic() < began + 3:
        came[ada.view("/-/user")[0]] += 1
        # They ask less often than a user may.
        time.sleep(0.05)
    run.judge("whoever is signed in, when 25,000 users are new", {200}, set(came))
    before_them = processor_seconds(stack.agent.process)
    with concurrent.futures.ThreadPoolExecutor(count) as pool:
        came = collections.Counter(pool.map(
            lambda number: Client(stack.front, "127.6.0.1").sign_in(f"s{number}", "a word")[0],
            range(count)))
    run.judge("first sign-ins at once", {303: count}, came)
    each = (processor_seconds(stack.agent.process) - before_them) / count
    run.judge("what 25,000 in an hour need of two processors", True, each < 2 * 3_600 / 25_000)
    users.write_text(before)


def judge_stack(run, make_front):
    stack = Stack(run, make_front, "signed")
    try:
        office = Client(stack.front)
        office.sign_in("registry")
        for method, path, body, status in (("PUT", "/drafts/1", SOLUTION, 201),
                                           ("POST", "/drafts/1/publish", b"", 200)):
            run.judge("the start", status, office.ask(method, path, body)[0])
        for part in (sessions, asked_too_often, forged, later_ends, old_hashes, users_of_a_file,
                     codes_of_letters, names_of_users, programs, basic, networks, a_crowd,
                     first_sign_ins, beside_hashes, log_of_sign_ins, ends, guesses, as_long, marks,
                     ends_of_browsers, own_passwords, another_key):
            part(run, stack)
    finally:
        stack.stop()


def in_browser(run, chromium, make_front):
    """A reader is sent to the form, signs in, finds the page that they wanted, and signs out."""
    if missing():
        return
    stack = Stack(run, make_front, "in_browser")
    try:
        host = f"http://{chromium.new_host()}:{stack.front.port}"
        chromium.go(f"{host}/registry.html")
        chromium.types("[name=user]", "registry")
        chromium.types("[name=password]", "guess")
        chromium.click("form button")
        chromium.waits("return document.querySelector('#words')")
        run.judge("a wrong password, on the page", "registry",
                  chromium.run("return document.querySelector('[name=user]').value"))
        chromium.types("[name=password]", "try-registry")
        chromium.click("form button")
        chromium.waits("return location.pathname === '/registry.html'"
                       " && document.readyState === 'complete'"
                       " && !document.body.hasAttribute('aria-busy')")
        run.judge("cookies that a script sees", "", chromium.run("return document.cookie"))
        chromium.click("#sign-out")
        chromium.waits("return location.pathname === '/signed-out.html'")
        run.judge("signed out on the page", 401, chromium.run(
            "return fetch('/me').then(reply => reply.status)"))
        run.judge("complaints of the form and its pages", [], chromium.complaints("security"))
    finally:
        stack.stop()


def judge(of_front, make_front):
    """All of it; `make_front` makes a front in a folder before an office at an address."""
    if missing():
        print(f"front: signing in is left out without {' and '.join(missing())}")
        return
    run = Run.apart(of_front.program, of_front.folder, "front", "sign_in")
    bounded_log(run)
    summaries(run)
    beside = [threading.Thread(target=part, args=(run, make_front))
              for part in (over_tls, kept_connections)]
    for thread in beside:
        thread.start()
    judge_stack(run, make_front)
    for thread in beside:
        thread.join()
    of_front.count, of_front.failed = of_front.count + run.count, of_front.failed + run.failed
