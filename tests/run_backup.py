#!/usr/bin/env python3
"""run_backup.py PROGRAM: whether tools/backup copies the file of an office that runs, checks the
copy, keeps the copies that it says, and always continues the office."""
import concurrent.futures
import contextlib
import datetime
import os
import pathlib
import signal
import subprocess
import sys
import tempfile
import threading
import time

import waiting
from cases import Cases
from run_serve import Office, one_reply
from serve_cases import EXAMPLES, PENALTY, SOLUTION, message

TOP = pathlib.Path(__file__).resolve().parent.parent
SECONDS = 180
SIGNALS = signal.SIGTERM, signal.SIGINT, signal.SIGHUP
# What is in a folder of copies beside these.
NOTES = ".lock", ".term.json"


def with_signals():
    """Undoes what `nohup` and a background job leave: signals that are ignored."""
    for number in SIGNALS:
        signal.signal(number, signal.SIG_DFL)


def backup(program, *words, path=None):
    environment = {**os.environ, "EXAMOFFICE": str(program), "PATH": path or os.environ["PATH"]}
    return subprocess.Popen([TOP / "tools" / "backup", *map(str, words)], env=environment,
                            stdout=subprocess.PIPE, stderr=subprocess.PIPE, text=True,
                            start_new_session=True, preexec_fn=with_signals)


def ended(process):
    said, faults = waiting.communicate(process, SECONDS)
    return process.returncode, said, faults


def asked(office, question):
    with office.connect() as client:
        client.sendall(question)
        return one_reply(client)


def edits(office, is_over):
    """Edits a draft all the time; the longest wait for a reply, in calm seconds."""
    longest, period = 0, 0
    while not is_over.is_set():
        began, period = waiting.calm(), 3 - period
        asked(office, message("POST", "/drafts/1/exams/3/move",
                              b'{"period":%d,"room":1}' % period))
        longest = max(longest, waiting.calm() - began)
    return longest


@contextlib.contextmanager
def edited(office):
    """An office that is edited meanwhile; the longest wait comes when it is over."""
    is_over = threading.Event()
    with concurrent.futures.ThreadPoolExecutor(1) as pool:
        try:
            yield pool.submit(edits, office, is_over)
        finally:
            is_over.set()


@contextlib.contextmanager
def reader_of(database):
    """A process that has the file open and only reads it."""
    with database.open("rb") as file:
        process = subprocess.Popen(["sleep", "600"], stdin=file)
    try:
        yield process
    finally:
        process.kill()
        process.wait()


def while_it_runs(judged, program, folder, office, database):
    copies = folder / "copies of it"
    status, first, faults = ended(backup(program, database, copies))
    judged.judge("a copy is made", (0, ""), (status, faults))
    judged.judge("nothing has changed", (0, first, ""), ended(backup(program, database, copies)))
    before = asked(office, PENALTY)
    with edited(office) as longest:
        came = [ended(backup(program, database, copies, "--wait", "0")) for _ in range(3)]
    judged.judge("copies of an office that is edited", [(0, "")] * 3, [it[::2] for it in came])
    judged.judge("it waited", True, longest.result() < 5)
    judged.judge("nothing else is kept", sorted({first, *(it[1] for it in came)}),
                 sorted(f"{it}\n" for it in copies.iterdir() if it.name not in NOTES))
    copy = Office(program, f"{came[-1][1].strip()}/office.db")
    judged.judge("a copy is an office", True, asked(copy, PENALTY)[0] == before[0] == 200)
    copy.killed()
    kills(judged, program, office, database, copies)


def kills(judged, program, office, database, copies):
    """The office goes on, whenever and however a backup ends."""
    with edited(office) as longest:
        for delay in range(12):
            running = backup(program, database, copies, "--wait", "0")
            time.sleep(0.04 + delay * 0.02)
            running.send_signal((*SIGNALS, signal.SIGKILL)[delay % 4])
            waiting.communicate(running, SECONDS)
    judged.judge("after signals the office goes on", True, longest.result() < 5)
    judged.judge("after signals a copy is made", 0, ended(backup(program, database, copies))[0])
    judged.judge("what they left is deleted", [], list(copies.glob(".copying.*")))


def thinning(judged, program, folder, database):
    """Of four copies a day all of the last day are kept, and of a month the last of each day."""
    copies, now = folder / "many", datetime.datetime.utcnow()
    copies.mkdir()

    def name(moment):
        return f"term-{moment:%Y%m%dT%H%M%SZ}.db"

    midnight = now.replace(hour=0, minute=0, second=0)
    times = [midnight - datetime.timedelta(days=day) + datetime.timedelta(hours=hour)
             for day in range(1, 41) for hour in (1, 7, 13, 19)]
    for moment in times:
        # Copies of an older version are files.
        if moment.hour < 13:
            (copies / name(moment)).touch()
        else:
            (copies / name(moment).removesuffix(".db")).mkdir()
    (copies / "term-older.db").touch()
    _, made, _ = ended(backup(program, database, copies))
    day = datetime.timedelta(days=1)
    kept = [moment for moment in times
            if moment > now - day or (moment.hour == 19 and moment > now - 31 * day)]
    others = pathlib.Path(made.strip()).name + ".db", "term-older.db"
    judged.judge("which copies are kept", sorted([*map(name, kept), *others]), sorted(
        it.name.removesuffix(".db") + ".db" for it in copies.iterdir() if it.name not in NOTES))


def of_no_office(judged, program, folder):
    database, copies = folder / "damaged.db", folder / "none"
    subprocess.run(["sqlite3", str(database), "CREATE TABLE meta (id)"], check=True)
    words = "backup: the copy is not an office: examoffice: store fault 9\n"
    judged.judge("another program's file", (1, "", words),
                 ended(backup(program, database, copies)))
    judged.judge("nothing is kept of it", "no copy could be made: the copy is not an office: "
                 "examoffice: store fault 9\n", (copies / "damaged.told").read_text())
    judged.judge("no copy of it", [], [it.name for it in copies.iterdir()
                                       if it.name not in (".lock", ".damaged.json",
                                                          "damaged.told")])
    words = "backup: the copy can't be checked: /none: No such file or directory\n"
    judged.judge("no program", (1, "", words), ended(backup("/none", database, copies)))
    judged.judge("no file", (1, "", f"backup: there is no file {folder}/no.db\n"),
                 ended(backup(program, folder / "no.db", copies)))
    judged.judge("no words", 2, ended(backup(program))[0])


def main():
    if len(sys.argv) != 2:
        sys.exit("usage: run_backup.py PROGRAM")
    program, judged = pathlib.Path(sys.argv[1]).resolve(), Cases("backup")
    with tempfile.TemporaryDirectory(prefix="a blank ") as folder:
        folder = pathlib.Path(folder)
        database = folder / "term.db"
        waiting.run([program, "load", "--db", database, EXAMPLES / "small.exam"], check=True,
                    stdout=subprocess.DEVNULL, timeout=SECONDS)
        with reader_of(database) as reader:
            office = Office(program, database)
            try:
                asked(office, message("PUT", "/drafts/1", SOLUTION))
                while_it_runs(judged, program, folder, office, database)
                thinning(judged, program, folder, database)
            finally:
                office.killed()
            judged.judge("who only reads isn't stopped", (0, 0),
                         os.waitpid(reader.pid, os.WUNTRACED | os.WCONTINUED | os.WNOHANG))
        of_no_office(judged, program, folder)
    return judged.end()


if __name__ == "__main__":
    sys.exit(main())
