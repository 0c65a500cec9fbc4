"""The sweeps of run_refused.py in which memory is refused: each allocation in turn."""
import itertools
import subprocess

import waiting
from refusing import (
    COMMANDS, MEMORY, NO_MEMORY, SECONDS, STORE_FAULT, UNAVAILABLE, Office, connection_fault,
    copy_database, filled_log, is_change, read_rows)
from serve_cases import CASES, EXAMPLES, VIOLATIONS

SMALL = EXAMPLES / "small.exam"
REFUSALS = {(1, b"", NO_MEMORY): "no memory", (1, b"", STORE_FAULT): "store fault 8"}


# ---- A server

def messages(run, number):
    """The messages of a case of serve_cases.py, one after another."""
    case, unanswered = CASES[number], 0
    office = Office(run, case.start and run.database(case.start))
    for index, exchange in enumerate(zip(case.asked, case.replies), 1):
        office.save()
        unanswered += message_in_turn(run, office, f"{case.name}, message {index}", *exchange)
    judge_lines(run, office, case.name, unanswered)


def command(run, state, path, name):
    """A command in a state."""
    alone(run, f"{state}, {name}", path, COMMANDS[name])


def copied_log(run, path):
    """A command that copies the log into the database."""
    first, question = filled_log(run, path)
    alone(run, "a log that is copied", path, question, first)


def alone(run, name, path, question, first=()):
    """A message in a state. Its answer is what it gets with ample memory."""
    office = Office(run, path, first=first)
    answer = office.reply(question)
    office.ending()
    office = Office(run, path, first=first)
    judge_lines(run, office, name, message_in_turn(run, office, name, question, answer))


def message_in_turn(run, office, name, question, answer):
    """Sends a message again and again while the k-th allocation is refused, or that and all after
    it, until a run meets no refusal; returns how many got no reply. A run that isn't answered
    changes nothing that the office shows; one that is answered does what ample memory does."""
    before, after, unanswered = office.shown(), [], 0
    # A server keeps violations that it has shown, so a second look needs less memory.
    is_first_look = question == VIOLATIONS
    if is_first_look:
        office.reset()
    for k in itertools.count(1):
        for is_for_good in False, True:
            came, refused = office.reply_under(question, MEMORY, k, is_for_good)
            shown = office.shown()
            if not refused:
                run.record("not refused", name, (answer, []),
                           (came, [other for other in after if other != shown]))
                if shown != before:
                    change_without_later_memory(run, office, name, question, (answer, shown))
                return unanswered
            this = f"{name}, allocation {k}{' and on' if is_for_good else ''}"
            if came in (b"", UNAVAILABLE):
                run.record("503" if came else "no reply", this, before, shown)
                unanswered += not came
            else:
                run.record("answered", this, answer, came)
                after.append(shown)
            if office.first or shown != before or is_first_look or is_change(question, came):
                office.reset()


def change_without_later_memory(run, office, name, question, ample):
    """Sends a message that changes the office while all allocations after its last call of the disk
    are refused. It is answered as with ample memory, because its change is stored by then. A sweep
    may miss these allocations: a server keeps memory that an attempt got, so the next one needs
    less."""
    office.reset()
    calls = office.calls_of_disk(question)
    office.reset()
    came, _ = office.reply_under(question, MEMORY, 1, True, None, calls)
    run.record("answered without later memory",
               f"{name}, each allocation after call {calls} of the disk", ample,
               (came, office.shown()))


def judge_lines(run, office, name, unanswered):
    """Each message without a reply has its line, and the server goes on."""
    run.judge(f"{name}, lines", (-9, connection_fault(4) * unanswered), office.ending())


# ---- The words of the program

def words_in_turn(run, words, first, step, is_for_good=False):
    """Runs the program while the k-th allocation is refused, until a run meets no refusal; yields k
    and how each run ended."""
    for k in itertools.count(first, step):
        run.refuse(MEMORY, k, is_for_good)
        ending = run.ending(*words)
        refused = run.stop_refusing(MEMORY)
        yield k, ending
        if not refused:
            break


def without_database(run, words):
    """Words that need no database have their answer, or say that there is no memory."""
    name, ample = " ".join(map(str, words)), run.ending(*words)
    for is_for_good in False, True:
        for k, ending in words_in_turn(run, words, 1, 1, is_for_good):
            outcome = "answered" if ending == ample else REFUSALS.get(ending)
            run.record(outcome, f"{name}, allocation {k}", True,
                       outcome in ("answered", "no memory") or ending)


def load(run, first, step):
    """A load into a new file has its answer, or leaves no table, or an office without a session."""
    path = run.folder / "new.db"
    words = "load", "--db", path, SMALL
    run.office(None).killed()
    no_table, empty = None, read_rows(run.folder / "term.db", run.folder)
    ample, loaded = run.ending(*words), read_rows(path, run.folder)
    copy_database(None, path)
    for k, ending in words_in_turn(run, words, first, step):
        outcome = "answered" if ending == ample else REFUSALS.get(ending)
        found = read_rows(path, run.folder)
        may_find = [loaded] if ending == ample else [no_table, empty]
        run.record(outcome, f"load, allocation {k}", (True, True),
                   (outcome is not None or ending, found in may_find or found))
        copy_database(None, path)


def words_on_office(run, state, path, words, first, step):
    """Words that adopt an office have their answer or not, and its file stays, byte for byte, with
    an empty log."""
    office = run.folder / "found.db"
    copy_database(path, office)
    words = [office if word == "FILE" else word for word in words]
    ample, before = run.ending(*words), bytes_of(office)
    for k, ending in words_in_turn(run, words, first, step):
        outcome = "answered" if ending == ample else REFUSALS.get(ending)
        run.record(outcome, f"{state}, {words[0]}, allocation {k}", (True, True),
                   (outcome is not None or ending, bytes_of(office) == before))


def bytes_of(path):
    """Returns the bytes of a database and the length of its log, which has a random number."""
    return path.read_bytes(), path.with_name(f"{path.name}-wal").stat().st_size


def start(run, state, path, first, step):
    """A server listens, or ends because there is no memory; its tables stay."""
    office, before = run.folder / "served.db", read_rows(path, run.folder)
    words = run.program, "serve", "--db", office, "--port", "0", "--connections", "1"
    for k in itertools.count(first, step):
        copy_database(path, office)
        run.refuse(MEMORY, k)
        with subprocess.Popen(words, stdin=subprocess.DEVNULL, stdout=subprocess.PIPE,
                              stderr=subprocess.PIPE, env=run.env) as process:
            line = process.stdout.readline()
            refused = run.stop_refusing(MEMORY)
            process.kill()
            _, errors = waiting.communicate(process, SECONDS)
        ending = process.returncode, line, errors
        is_served = line.startswith(b"listening 127.0.0.1:") and ending == (-9, line, b"")
        outcome = "answered" if is_served else REFUSALS.get(ending)
        run.record(outcome, f"{state}, serve, allocation {k}", (True, True),
                   (outcome is not None or ending, read_rows(office, run.folder) == before))
        if not refused:
            break
