"""The queue between the front and the office: crowds, restarts, deaths, and what is asked again."""
import collections
import contextlib
import os
import pathlib
import re
import resource
import selectors
import shutil
import signal
import socket
import subprocess
import threading
import time

import browser
import limits
import waiting
from front_cases import CANDIDATE, FIRST_VIEW, ask, parted, told_error
from run_serve import Run
from serve_cases import SMALL, SOLUTION, batch_text, message, reply

TOP = pathlib.Path(__file__).resolve().parent.parent
HAPROXY = shutil.which("haproxy") or shutil.which("haproxy", path="/usr/sbin")
SECONDS = 25
# How long requests wait for an office here; front/limits has more.
OFFICE_WAIT = "10"
# A thousand, if so many files may be open.
CROWD = min(1_000, resource.getrlimit(resource.RLIMIT_NOFILE)[1] // 3)


class Queue:
    """HAProxy with the front's queue, before an office on that port."""

    words, wait = ["-db"], OFFICE_WAIT

    def __init__(self, folder, port):
        self.folder = pathlib.Path(folder)
        self.folder.mkdir(parents=True)
        (self.folder / "term.env").write_text(f"PORT={port}\n")
        with (self.folder / "offices.cfg").open("wb") as made:
            subprocess.run([TOP / "front" / "offices", self.folder], stdout=made, check=True)
        self.address = f"unix:{self.folder}/term.sock:"
        self.environment = {"OFFICE_WAIT": self.wait, **os.environ, "QUEUE": str(self.folder)}
        self.start()

    def start(self, *more):
        files = self.files(*more)
        with (self.folder / "errors").open("wb") as errors:
            self.process = subprocess.Popen(
                [HAPROXY, *self.words, "-q", *(word for file in files for word in ("-f", file))],
                env=self.environment, stdin=subprocess.DEVNULL, stdout=errors, stderr=errors,
                group="www-data" if os.geteuid() == 0 else None)
        browser.until_or_ended(self.process, "the queue listens", self.listens)

    def files(self, *more):
        """Its configuration."""
        return TOP / "front" / "queue.cfg", *more, self.folder / "offices.cfg"

    def listens(self):
        if self.process.poll() is not None:
            raise OSError((self.folder / "errors").read_text())
        with contextlib.suppress(OSError), socket.socket(socket.AF_UNIX) as one:
            one.connect(str(self.folder / "term.sock"))
            return True
        return False

    def stop(self):
        self.process.kill()
        self.process.wait()


class ReloadedQueue(Queue):
    """A queue that reads its files again, the limits too: it has a master process, as under
    systemd."""

    words, wait = ["-db", "-W"], "60"

    def start(self, *more):
        self.limits = self.folder / "limits.cfg"
        wait = self.environment["OFFICE_WAIT"]
        self.limits.write_text(f"global\n    setenv OFFICE_WAIT {wait}\n")
        super().start(*more)

    def files(self, *more):
        return self.limits, *super().files(*more)

    def workers(self):
        children = pathlib.Path(f"/proc/{self.process.pid}/task/{self.process.pid}/children")
        return set(children.read_text().split())

    def reload(self):
        """Reads the files again; another worker answers when this returns, and the one of before
        may still have requests that wait."""
        before = self.workers()

        def another():
            # One that comes while HAProxy reads its files is lost.
            self.process.send_signal(signal.SIGUSR2)
            end = time.monotonic() + 2
            while not (found := self.workers() - before) and time.monotonic() < end:
                time.sleep(0.02)
            return found

        browser.until("another worker is there", another)

    def stop(self):
        self.process.terminate()
        self.process.wait()


class RestartingOffice:
    """An office that is started again on its port a moment after it has ended, as systemd does. The
    moment may be as long as a large office needs to open its file."""

    def __init__(self, program, database, port, connections=1_000_000, moment=0.3):
        self.words = [program, "serve", "--db", str(database), "--port", str(port),
                      "--connections", str(connections)]
        self.is_over, self.starts, self.moment = threading.Event(), 0, moment
        # How long it was away, at most.
        self.away = 0
        self.process = None
        self.thread = threading.Thread(target=self.runs)
        self.thread.start()
        browser.until("the office listens", lambda: self.starts)

    def runs(self):
        ended = None
        while not self.is_over.is_set():
            self.process = subprocess.Popen(self.words, stdin=subprocess.DEVNULL,
                                            stdout=subprocess.PIPE, stderr=subprocess.DEVNULL)
            if self.process.stdout.readline():
                self.away = max(self.away, time.monotonic() - ended if ended else 0)
                self.starts, ended = self.starts + 1, None
            self.process.wait()
            # One that ended before it listened was away all the time.
            ended = ended or time.monotonic()
            self.process.stdout.close()
            self.is_over.wait(self.moment)

    def stop(self):
        self.is_over.set()
        while self.thread.is_alive():
            self.process.kill()
            self.thread.join(0.2)


def addresses(count):
    """So many addresses of this machine."""
    return [f"127.{64 + number // 62_500}.{number // 250 % 250}.{number % 250 + 1}"
            for number in range(count)]


def crowd(port, questions, sources=None):
    """Returns the replies to these questions, all asked at once, each from an address of its
    own or from these, and the longest wait, in calm seconds. A question that gets no reply in time
    has None."""
    selector, began, waits = selectors.DefaultSelector(), waiting.calm(), {}
    replies, parts = [None] * len(questions), collections.defaultdict(bytes)
    for number, (source, question) in enumerate(
            zip(sources or addresses(len(questions)), questions)):
        client = socket.socket()
        client.setblocking(False)
        client.bind((source, 0))
        client.connect_ex(("127.0.0.1", port))
        selector.register(client, selectors.EVENT_WRITE, (number, question))
    while selector.get_map() and waiting.calm() < began + SECONDS:
        for key, events in selector.select(1):
            number, question = key.data
            if events & selectors.EVENT_WRITE:
                key.fileobj.send(question)
                selector.modify(key.fileobj, selectors.EVENT_READ, key.data)
                continue
            with contextlib.suppress(ConnectionResetError):
                parts[number] += (part := key.fileobj.recv(65_536))
                if part:
                    continue
            replies[number], waits[number] = parts[number], waiting.calm() - began
            selector.unregister(key.fileobj)
            key.fileobj.close()
    for key in [*selector.get_map().values()]:
        key.fileobj.close()
    return [came and parted(came) for came in replies], max(waits.values(), default=None)


def closing(question):
    return question[:-2] + b"Connection: close\r\n\r\n"


def a_crowd(run, front):
    """A thousand candidates at once are all answered."""
    came, longest = crowd(front.port, [closing(CANDIDATE)] * CROWD)
    run.judge("a thousand candidates at once", {FIRST_VIEW: CROWD}, collections.Counter(came))
    run.judge("how long the last one waits", True, longest < 15)


def a_short_day(run, front):
    """Candidates ask all the time, and nobody is refused while the office edits, takes a batch and
    publishes."""
    clients = Clients(front, CANDIDATE, 12, 4)
    came = collections.Counter()
    for number, place in enumerate((b'{"period":3,"room":1}', b'{"period":2,"room":0}') * 3):
        for method, path, body in (
                ("POST", "/drafts/1/exams/3/move", place),
                ("PUT", f"/batches/{number}", batch_text(f"3,0,{('add', 'drop')[number % 2]}")),
                ("POST", "/drafts/1/publish", b"")):
            came[front.told(ask("registry", method, path, body))[0]] += 1
        time.sleep(0.3)
    run.judge("edits, batches and publications of a day", {200: 18}, came)
    statuses = clients.result()
    run.judge("candidates meanwhile", ({200}, True), (set(statuses), statuses[200] > 20))


def four_clients(run, queue):
    """No question is forgotten in the queue: four clients ask one after another, and nobody else
    does, who would wake it."""
    waits, end = [], time.monotonic() + 3

    def asks():
        while time.monotonic() < end:
            began = time.monotonic()
            with socket.socket(socket.AF_UNIX) as client, contextlib.suppress(TimeoutError):
                client.settimeout(SECONDS)
                client.connect(str(queue.folder / "term.sock"))
                client.sendall(closing(message("GET", "/me", caller="cand:1")))
                while client.recv(65_536):
                    pass
            waits.append(time.monotonic() - began)

    threads = [threading.Thread(target=asks) for _ in range(4)]
    for thread in threads:
        thread.start()
    for thread in threads:
        thread.join()
    run.judge("the longest wait of four clients", True, max(waits) < 5)


class Clients:
    """Clients that ask all the time, each for this long; what came back, counted."""

    def __init__(self, front, question, count, seconds):
        self.front, self.question, self.end = front, question, time.monotonic() + seconds
        self.statuses = collections.Counter()
        self.threads = [threading.Thread(target=self.asks) for _ in range(count)]
        for thread in self.threads:
            thread.start()

    def asks(self):
        while time.monotonic() < self.end:
            came = self.front.told(self.question)
            self.statuses[came and came[0]] += 1
            time.sleep(0.01)

    def result(self):
        for thread in self.threads:
            thread.join()
        return self.statuses


def restarts(run, make_front):
    """An office that is killed, or that ends after its connections, costs no question."""
    apart = Run.apart(run.program, run.folder, "front", "restarts")
    port = browser.free_port()
    office = RestartingOffice(run.program, apart.database(SMALL), port, connections=150)
    queue = Queue(apart.folder / "queue", port)
    front = make_front(apart.folder, queue.address)
    try:
        clients = Clients(front, ask("registry", "GET", "/instance"), 12, 5)
        for _ in range(3):
            time.sleep(1.2)
            office.process.kill()
        statuses = clients.result()
        run.judge("questions beside restarts", {200}, set(statuses))
        run.judge("restarts, and questions", True, office.starts > 2 and statuses[200] > 20)
        office.stop()
        began = time.monotonic()
        run.judge("no office", told_error(503, "unavailable"),
                  front.told(ask("registry", "GET", "/instance")))
        run.judge("it is waited for", True, 8 < time.monotonic() - began < SECONDS)
        time.sleep(1)
        began = time.monotonic()
        status, header, body = front.fetch("/instance", "registry", Accept="text/html,*/*")
        run.judge("the page for a browser", (503, "text/html; charset=utf-8", True),
                  (status, header["Content-Type"], b"The office doesn't answer" in body))
        run.judge("then nobody waits", True, time.monotonic() - began < 5)
    finally:
        office.stop()
        front.stop()
        queue.stop()


def upgrades(run, make_front):
    """The front and the queue are reloaded and the office is started again, as an upgrade does it,
    and no question is refused, however long the office needs; the limits are read again too."""
    apart = Run.apart(run.program, run.folder, "front", "upgraded")
    port = browser.free_port()
    office = RestartingOffice(run.program, apart.database(SMALL), port, moment=4)
    queue = ReloadedQueue(apart.folder / "queue", port)
    front = make_front(apart.folder, queue.address)
    try:
        clients = Clients(front, ask("registry", "GET", "/instance"), 12, 600)
        changing = Clients(front, ask("registry", "PUT", "/exams/1/owner", b'{"dept":3}'), 2, 600)
        for starts in (1, 2, 3):
            browser.until("the office answers", lambda starts=starts: office.starts == starts)
            queue.reload()
            office.process.terminate()
            front.reload()
            # Again, while the office is away.
            queue.reload()
        browser.until("the office answers", lambda: office.starts == 4)
        clients.end = changing.end = time.monotonic() + 1
        statuses, changed = clients.result(), changing.result()
        run.judge("questions beside upgrades", ({200}, True), (set(statuses), statuses[200] > 20))
        # HAProxy's workers of before and after may each have sent one when the office ended.
        run.judge("changes beside upgrades", (set(), True, True), (
            set(changed) - {200, 503}, changed[200] > 5, changed[503] <= 2 * 3))
        office.stop()
        queue.limits.write_text("global\n    setenv OFFICE_WAIT 2\n")
        queue.reload()
        browser.until("a shorter wait counts", lambda: waited(front) < 6)
        made = subprocess.run([TOP / "front" / "offices", "--limits", TOP / "front"], check=True,
                              capture_output=True, text=True).stdout
        run.judge("limits of the queue", limits.numbers(), dict(re.findall(
            r"^    setenv (\w+) (\d+)$", made, re.M)))
    finally:
        office.stop()
        front.stop()
        queue.stop()


def waited(front):
    """The seconds until a question is refused."""
    began = time.monotonic()
    front.told(ask("registry", "GET", "/instance"))
    return time.monotonic() - began


def a_dying_office(listener, asked, is_over):
    """Reads each request and ends the connection; the second time it answers the same one."""
    listener.settimeout(0.2)
    while not is_over.is_set():
        with contextlib.suppress(TimeoutError):
            connection, _ = listener.accept()
            with connection:
                line = connection.recv(65_536).partition(b"\r\n")[0]
                asked[line] += 1
                if asked[line] > 1:
                    connection.sendall(reply(200, "{}"))


def never_twice(run, make_front):
    """A change that an office may have read isn't sent again; a question is."""
    asked, is_over = collections.Counter(), threading.Event()
    with socket.create_server(("127.0.0.1", 0)) as listener:
        stub = threading.Thread(target=a_dying_office, args=(listener, asked, is_over))
        stub.start()
        queue = Queue(run.folder / "dying" / "queue", listener.getsockname()[1])
        front = make_front(run.folder / "dying", queue.address)
        try:
            for method, path, answer, times in (
                    ("POST", "/drafts/1/swap", told_error(503, "unavailable"), 1),
                    ("PUT", "/drafts/1", told_error(503, "unavailable"), 1),
                    ("DELETE", "/drafts/1", told_error(503, "unavailable"), 1),
                    ("GET", "/drafts/1", (200, b"{}"), 2)):
                run.judge(f"{method} to an office that reads it and dies", (answer, times),
                          (front.told(ask("registry", method, path)),
                           asked[f"{method} {path} HTTP/1.1".encode()]))
        finally:
            is_over.set()
            stub.join()
            front.stop()
            queue.stop()


def left_out(run):
    """A session with a name or a port that can't be is left out, and takes no other one along."""
    folder = run.folder / "named"
    folder.mkdir()
    files = [TOP / "front" / name for name in ("queue.cfg", "sign_in.cfg")]
    taken = {name for file in files for name in re.findall(
        r"^(?:frontend|backend) (\S+)|/([a-z_]+)\.sock mode", file.read_text(), re.M) for name in
        name if name} | {"list"}
    ports = {**dict.fromkeys(taken | {"-x", "_x", "X", "x y", "x" * 41}, "8080"), "nought": "0",
             "far": "65536", "none": "", "words": "8080 8081", "term": "8080", "2-b_c": "65535"}
    for name, port in ports.items():
        (folder / f"{name}.env").write_text(f"PORT={port}\n")
    made = subprocess.run([TOP / "front" / "offices", folder], capture_output=True, text=True,
                          check=True)
    run.judge("sessions that have a queue", ["2-b_c", "term"],
              re.findall(r"^listen (\S+)", made.stdout, re.M))
    run.judge("sessions that are left out", sorted(set(ports) - {"2-b_c", "term"}),
              sorted(re.findall(r"^offices: .*/(.*)\.env: it", made.stderr, re.M)))


def metrics(run, front):
    """The numbers of the queue, on this machine only."""
    front.told(CANDIDATE)
    status, _, body = front.fetch("/metrics")
    run.judge("metrics", (200, True), (status, b'haproxy_backend_http_responses_total{proxy="term"'
                                       in body))
    run.judge("metrics, from elsewhere", 404, front.fetch("/metrics", source="127.0.0.2")[0])


def judge(of_front, make_front):
    """All of it; `make_front` makes a front in a folder before an office at an address."""
    run = Run.apart(of_front.program, of_front.folder, "front", "queued")
    judge_all(run, make_front)
    of_front.count, of_front.failed = of_front.count + run.count, of_front.failed + run.failed


def judge_all(run, make_front):
    if not HAPROXY:
        print("front: the queue is left out without haproxy")
        return
    office = run.office()
    queue = Queue(run.folder / "queue", office.port)
    front = make_front(run.folder, queue.address)
    others = [threading.Thread(target=part, args=(run, make_front))
              for part in (restarts, upgrades, never_twice)]
    for thread in others:
        thread.start()
    try:
        for question, status in ((ask("registry", "PUT", "/drafts/1", SOLUTION), 201),
                                 (ask("registry", "POST", "/drafts/1/publish"), 200)):
            run.judge("the start", status, front.told(question)[0])
        a_crowd(run, front)
        four_clients(run, queue)
        metrics(run, front)
        left_out(run)
        queue.stop()
        queue.start()
        run.judge("a queue that was killed and started", FIRST_VIEW, front.told(CANDIDATE))
        a_short_day(run, front)
    finally:
        for thread in others:
            thread.join()
        front.stop()
        queue.stop()
        office.killed()
