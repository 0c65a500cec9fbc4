"""Floods: what each location of the front writes and answers if anybody asks it all the time."""
import collections
import contextlib
import pathlib
import re
import socket
import threading
import time

import browser
import front_registry
import front_sign_in
from front_sign_in import jwt
from run_serve import Run

TOP = pathlib.Path(__file__).resolve().parent.parent
# How often each question is asked, and what a flood may write in ten seconds: a megabyte a minute.
COUNT, MOST_BYTES = 600, 1_000_000 // 6
# The same once as a whole, and how many slow bodies then.
WHOLE = 3_000, 10_000
MOST_PIPELINED, BODIES, SECONDS = 300, 300, 60
# What slow bodies may hold, how long those are that are long, and how much of each is sent.
MOST_HELD, LARGE, SENT = 50_000_000, 4_000_000, 400_000
# What nginx needs for any request that isn't at its end, without its body.
OF_A_REQUEST = 20_000
LONG = 'a"' * 100
# The first line of a reply: 12 bytes.
HEAD = re.compile(rb"HTTP/1\.1 (\d\d\d)")
# What each question reaches, and the statuses of its replies to a stranger, a candidate, a
# department, and a page of another site that a candidate has open.
ROWS = [
    (("GET", "/"), "= / | @home", ({401}, {200, 429}, {200, 429}, {200, 429})),
    (("GET", "/candidate.html"), "/ | @page", ({401}, {200, 429}, {200, 429}, {200, 429})),
    (("POST", f"/{LONG}"), "", ({405}, {405}, {405}, {405})),
    (("GET", "/style.css"), r"~ ^/[a-z-]+\.(css|js|svg)$", ({200}, {200}, {200}, {200})),
    (("GET", "/sign-in.html"), "= /sign-in.html", ({404}, {404}, {404}, {404})),
    (("GET", "/signed-out.html"), "= /signed-out.html", ({200}, {200}, {200}, {200})),
    (("GET", "/labels/labels.json"),
     r"~ ^/labels/(?<file>labels|sessions)\.json$ | @labels | @labels_without | @labels_of_front"
     " | @no_labels | @unreadable",
     ({401}, {200, 429}, {200, 429}, {200, 429})),
    (("GET", "/labels/students.json"), "= /labels/students.json | @students | @students_without"
     " | @students_of_front",
     ({401}, {403, 429}, {403, 429}, {403, 429})),
    (("GET", "/labels/name.json"), "= /labels/name.json | @name | @name_without | @name_of_front",
     ({401}, {200, 429}, {200, 429}, {200, 429})),
    (("GET", "/labels/sizes.json"), r"~ ^/labels/(?<file>sizes|published)\.json$ | @sizes"
     " | @sizes_without | @sizes_of_front",
     ({401}, {200, 429}, {200, 429}, {200, 429})),
    (("GET", "/-/user"), "= /-/user | @user | @user_is",
     ({401}, {200, 429}, {200, 429}, {200, 429})),
    (("GET", "/-/sign-ins"), "= /-/sign-ins", ({401}, {403, 429}, {403, 429}, {403, 429})),
    (("GET", "/me/penalty"), r"~ ^/(me|instance|exams|drafts|publication|batches)(/|$) | @office",
     ({401}, {200, 429}, {403, 429}, {403, 429})),
    (("POST", f"/drafts/1/{LONG}"), "@denied | @often | @foreign | @edit",
     ({401}, {403, 429}, {404, 429}, {403, 429})),
    (("PUT", "/drafts/1", b"x" * 10_000), "@too_long",
     ({401}, {403, 429}, {413, 429}, {403, 429})),
    (("POST", "/drafts/1/exams/3/places", b"x"),
     "~ ^/drafts/[0-9]+/exams/[0-9]+/places$ | @places",
     ({401}, {403, 429}, {405, 429}, {403, 429})),
    (("GET", "/-/drafts/1"), '~ "^/-(?<path>/drafts/[1-8]|/publication/(penalty|seats))$"'
     " | @looked_for", ({401}, {403, 429}, {200, 429}, {403, 429})),
    (("POST", f"/-/registry/{LONG}"), "/-/registry/ | @registry | @no_registry | @forbidden",
     ({401}, {403, 429}, {403, 429}, {403, 429})),
    (("GET", "/password.html"), "= /password.html", ({404}, {404}, {404}, {404})),
    (("GET", "/-/sign-in/password"), "", ({303}, {200}, {200}, {403})),
    (("POST", "/-/sign-in/password"), "", ({303}, {401, 429}, {401, 429}, {403})),
    (("POST", f"/-/sign-in?{LONG}"), "~ ^/-/sign-in(/password)?$",
     ({401, 429}, {401, 429}, {401, 429}, {403})),
    (("GET", f"/-/sign-in?{LONG}"), "", ({200, 429}, {200, 429}, {200, 429}, {403})),
    (("POST", "/-/sign-out"), "= /-/sign-out", ({403}, {403}, {403}, {403})),
    (("GET", "/-/who"), "= /-/who", ({404}, {404}, {404}, {404})),
    (("POST", "/-/often"), "/-/ | = /-/request | = /-/method | = /-/length | = /-/transfer"
     " | = /-/often"
     " | = /-/caller | = /-/caller.html | = /-/origin | = /-/P1 | = /-/P2 | = /-/unavailable.html"
     " | = /-/unavailable | = /-/absent | = /-/signed-out | = /-/signed-out.html"
     " | = /-/not-found.html"
     " | = /-/often.html | = /-/office-answers", ({404}, {404}, {404}, {404})),
    (("POST", "/health"), "= /health | @healthy", ({405}, {405}, {405}, {405})),
    (("POST", "/metrics"), "= /metrics", ({405}, {405}, {405}, {405})),
]
WHO = "a stranger", "a candidate", "a department", "another site's page"
# What nobody reached above: accounts that are nobody.
NOBODY = ("POST", f"/drafts/1/{LONG}"), "@nobody", {400, 429}
# What only the office reaches, which isn't counted.
OFFICE = ("GET", "/-/sign-ins"), "@sign_ins", {200}
# Single sign-on has two locations of the same names.
OF_SINGLE_SIGN_ON = {"= /-/who", "= /signed-out.html", "/oauth2/"}


def locations(name):
    """The locations of a file of the front."""
    return set(re.findall(r"^\s*location (.*) \{", (TOP / "front" / name).read_text(), re.M))


def message(host, question, cookie, origin):
    method, path, body = (*question, b"")[:3]
    fields = [f"{method} {path} HTTP/1.1", f"Host: {host}", *([cookie] if cookie else []),
              *([f"Origin: {origin}"] if origin else []),
              *([f"Content-Length: {len(body)}"] if body or method == "POST" else [])]
    return ("\r\n".join(fields) + "\r\n\r\n").encode() + body


def flood(port, question, count):
    """The statuses of replies to a question that is asked this often, many times on one
    connection."""
    came = collections.Counter()
    for _ in range(count):
        with contextlib.suppress(OSError), socket.create_connection(
                ("127.0.0.1", port), SECONDS) as client:
            asked = min(MOST_PIPELINED, count - came.total())
            sending = threading.Thread(target=sends, args=(client, question * asked))
            sending.start()
            tail, found = b"", collections.Counter()
            while found.total() < asked and (part := client.recv(262_144)):
                text = tail + part
                found.update(map(int, HEAD.findall(text)))
                # What may be the beginning of a head that goes on in the next part.
                tail = text[-11:] if HEAD.search(text[-11:]) is None else b""
            client.shutdown(socket.SHUT_RDWR)
            sending.join()
            came.update(found)
        if came.total() >= count:
            break
    return came


def sends(client, text):
    with contextlib.suppress(OSError):
        client.sendall(text)


class Flooded(front_registry.Stack):
    """Front, queue, agent, office and registry's service, with many accounts."""

    def __init__(self, run, make_front, name):
        super().__init__(run, make_front, name)
        self.host, self.used = f"127.0.0.1:{self.front.port}", 0
        kinds = {"c": "cand:1", "d": "dept:3", "n": None}
        names = [f"{kind}{number}" for kind in kinds for number in range(400)]
        folder = self.front.folder
        with (folder / "users").open("a") as users, (folder / "callers").open("a") as callers:
            users.writelines(f"{name}:{{PLAIN}}a word\n" for name in names)
            callers.writelines(f"{name} {kinds[name[0]]};\n" for name in names if kinds[name[0]])
        self.front.reload()
        browser.until("the accounts are known", lambda: flood(self.front.port, message(
            self.host, ("GET", "/-/user"), self.cookie("n"), None), 1)[200])

    def cookie(self, kind):
        """The session of an account that asked nothing so far, or of the registry."""
        self.used, now = self.used + 1, time.time()
        user = f"{kind}{self.used}" if len(kind) == 1 else kind
        token = jwt.encode({"u": user, "k": "session", "h": self.host, "j": user,
                            "i": int(now * 1000), "exp": int(now) + 3_600}, self.key)
        return f"Cookie: session={token}"

    def written(self):
        """The bytes of all that the parts of the front write."""
        folders = self.front.folder / "run", self.agent.folder
        paths = [path for folder in folders for path in folder.rglob("*")]
        paths += [self.queue.folder / "errors", self.service.folder / "errors"]
        total = bytes_of_open_files(self.front)
        for path in paths:
            # The tests' own log isn't part of it, and files of bodies come and go.
            with contextlib.suppress(FileNotFoundError):
                if path.is_file() and path.name not in ("exchanges", "agent.db-shm"):
                    total += path.stat().st_size
        return total


def floods(run, stack, state, count):
    """Asks each question as each of them, and judges what was written and answered."""
    for question, _, statuses in ROWS:
        for who, kind, expected in zip(WHO, (None, "c", "d", "c"), statuses):
            origin = "https://elsewhere.example" if who == WHO[3] else None
            cell = f"{question[0]} {question[1][:20]} by {who}, {state}"
            asked = message(stack.host, question, kind and stack.cookie(kind), origin)
            judge_flood(run, stack, cell, asked, expected, state, count)
    for (question, _, expected), who, kind in ((NOBODY, "nobody", "n"),
                                               (OFFICE, "the office", "registry")):
        judge_flood(run, stack, f"{question[0]} {question[1][:20]} by {who}, {state}",
                    message(stack.host, question, stack.cookie(kind), None), expected, state, count)


def judge_flood(run, stack, cell, asked, expected, state, count):
    before = stack.written()
    came = flood(stack.front.port, asked, count)
    run.judge(f"{cell}: bytes", True, stack.written() - before < MOST_BYTES or
              stack.written() - before)
    run.judge(f"{cell}: replies", count, came.total())
    more = {503, 429} if state != "all runs" else {429} & expected
    run.judge(f"{cell}: statuses", set(), set(came) - expected - more)


def table_is_whole(run):
    reached = {one for _, names, _ in [*ROWS, NOBODY, OFFICE] for one in names.split(" | ")}
    found = locations("server.conf") | locations("sign_in.conf")
    run.judge("locations that no flood reaches", (set(), set()), (found - reached,
                                                                  reached - found - {""}))
    run.judge("locations of single sign-on", OF_SINGLE_SIGN_ON, locations("sso.conf"))


def slow_bodies(run, stack, count):
    """Bodies that don't come to their end hold less than 50 MB, whoever sends them."""
    for who, kind, path, length in (
            ("a stranger", None, "/drafts/1", LARGE), ("a stranger", None, "/-/sign-in", 4_000),
            ("a candidate", "c", "/drafts/1", LARGE), ("a candidate", "c", "/-/user", LARGE),
            ("a department", "d", "/drafts/1", LARGE),
            ("a department", "d", "/drafts/1/exams/3/move", 9_000),
            ("a department, in chunks", "d", "/drafts/1/exams/3/move", None),
            ("the office", "registry", "/drafts/1", LARGE),
            ("the office, in chunks", "registry", "/drafts/1", None),
            ("the office", "registry", "/-/registry/batches/1", LARGE),
            ("the office", "registry", "/drafts/1", 90_000)):
        method = "POST" if length == 4_000 else "PUT"
        body = (b"x" * (min(length, SENT) - 1) if length
                else b"".join([b"1000\r\n" + b"x" * 4_096 + b"\r\n"] * 50))
        coded = f"Content-Length: {length}" if length else "Transfer-Encoding: chunked"
        head = message(stack.host, (method, path), kind and stack.cookie(kind), None)
        head = head.replace(b"Content-Length: 0\r\n", b"")[:-2] + coded.encode() + b"\r\n\r\n"
        before = resident_bytes(stack.front.process)
        clients = [unfinished(stack.front.port, head + body) for _ in range(count)]
        time.sleep(0.5)
        files = bytes_of_open_files(stack.front)
        memory = resident_bytes(stack.front.process) - before - count * OF_A_REQUEST
        run.judge(f"{count} slow bodies of {who} for {path}", True,
                  files + max(0, memory) < MOST_HELD or (files, memory))
        for client in clients:
            client.close()
        browser.until("they are gone", lambda: not bytes_of_open_files(stack.front))


def unfinished(port, text):
    """A connection on which a part of a message was sent, as far as it was taken at once."""
    client = socket.create_connection(("127.0.0.1", port), SECONDS)
    client.setblocking(False)
    with contextlib.suppress(OSError):
        while text:
            text = text[client.send(text):]
    return client


def workers(process):
    children = pathlib.Path(f"/proc/{process.pid}/task/{process.pid}/children")
    return [pathlib.Path(f"/proc/{one}") for one in children.read_text().split()]


def bytes_of_open_files(front):
    """The files of bodies and replies under way, which have no name."""
    found = 0
    for path in (one for worker in workers(front.process) for one in (worker / "fd").iterdir()):
        with contextlib.suppress(FileNotFoundError):
            if re.match(rf"{front.folder}/run/.*\(deleted\)$", str(path.readlink())):
                found += path.stat().st_size
    return found


def resident_bytes(process):
    """The memory of the workers of nginx."""
    texts = [(worker / "status").read_text() for worker in workers(process)]
    return 1024 * sum(int(re.search(r"VmRSS:\s+(\d+)", text)[1]) for text in texts)


def judge(of_front, make_front, count=COUNT, bodies=BODIES):
    """All of it; `make_front` makes a front in a folder before an office at an address."""
    if front_sign_in.missing():
        return
    run = Run.apart(of_front.program, of_front.folder, "front", "floods")
    table_is_whole(run)
    stack = Flooded(run, make_front, "flooded")
    try:
        slow_bodies(run, stack, bodies)
        floods(run, stack, "all runs", count)
        stack.service.stop()
        floods(run, stack, "the registry's service is down", count)
        stack.agent.stop()
        floods(run, stack, "the agent is down too", count)
        stack.office.killed()
        browser.until("nobody waits", lambda: flood(stack.front.port, message(
            stack.host, ("GET", "/me"), stack.cookie("c"), None), 1)[503])
        floods(run, stack, "the office is down too", count)
    finally:
        stack.stop()
    of_front.count, of_front.failed = of_front.count + run.count, of_front.failed + run.failed
