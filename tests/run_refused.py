#!/usr/bin/env python3
"""run_refused.py PROGRAM: the program while memory is refused, and while sockets and the disk fail.

The shared object of refuse.cpp lets the k-th call of a kind fail, and a sweep counts k upwards
until a run meets no refusal. Each run has its answer, or is refused by name and has changed
nothing; after a failed disk the next process finds the office before the command or after it.
Besides, every request of the routes is sent with ample memory, and none is answered 503. A failing
case is printed with what was expected and what came, a line counts the cases of each sweep by their
outcomes, and the last line counts all cases.
"""
import argparse
import concurrent.futures
import functools
import itertools
import os
import pathlib
import sys
import tempfile
from collections import Counter, namedtuple

import refused_devices
import refused_memory
import waiting
from openapi import Described, routes
from refusing import (
    COMMANDS, MEMORY, NO_MEMORY, Office, Run, build, executable, is_change, make_states)
from serve_cases import CASES, EXAMPLES, SMALL, SOLUTION, at, batch_text, message

ADOPTED = "coincidence_by_enrolment", "publish_twice", "reports_and_dropped_draft"
CALLERS = "office", "dept:3", "cand:1", "cand:99"
SLICES = 8
# What a sweep is called, its function, and what the function gets after a run.
Sweep = namedtuple("Sweep", "name function given")
# The bodies that a path gets; other paths get none.
BODIES = {
    ("PUT", "/instance"): [SMALL], ("PUT", "/exams/{e}/owner"): [b'{"dept":3}'],
    ("PUT", "/drafts/{d}"): [b"", SOLUTION],
    ("PUT", "/batches/{n}"): [batch_text("1,1,add", "1,1,add", "9,2,drop")],
    **{("POST", f"/drafts/{{d}}/exams/{{e}}/{edit}"):
       [at(*place) for place in itertools.product(range(5), range(3))]
       for edit in ("place", "move")}}


# ---- Every question

def requests():
    """Yields each method of each path with each of its bodies, and with the numbers 0 to 4."""
    for path, methods in routes().items():
        parts = path.split("{")
        for method, numbers in itertools.product(
                sorted(methods), itertools.product("01234", repeat=len(parts) - 1)):
            target = parts[0] + "".join(number + part.partition("}")[2]
                                        for number, part in zip(numbers, parts[1:]))
            for body in BODIES.get((method, path), [b""]):
                yield method, target, body


def questions(run, state, path, caller):
    """No request is answered 503, and each reply is one that docs/openapi.yaml has for it."""
    office, described = Office(run, path), Described()
    for method, target, body in requests():
        question = message(method, target, body, caller)
        came = office.reply(question)
        head, _, answer = came.partition(b"\r\n\r\n")
        status = head[9:12].decode()
        kind = head.partition(b"Content-Type: ")[2].partition(b"\r\n")[0].decode()
        fault = described.fault(method, target, status, kind, answer)
        run.record(status, f"{state}, {method} {target} {body[:40]!r} by {caller}", (None, False),
                   (fault, status == "503" and came))
        if is_change(question, came):
            office.reset()
    run.judge(f"{state}, questions by {caller}, lines", (-9, b""), office.ending())


# ---- All sweeps

def sliced(name, function, *given):
    """Returns a sweep of every k, in slices that run side by side."""
    return [Sweep(name, function, (*given, first, SLICES)) for first in range(1, SLICES + 1)]


def sweeps(states, folder):
    """Yields all sweeps, the longest first."""
    memory, devices = refused_memory, refused_devices
    small, solution = EXAMPLES / "small.exam", EXAMPLES / "small.sol"
    crowded = folder / "crowded.sol"
    crowded.write_bytes(b"0, 0\n0, 0\n3, 1\n2, 0\n")
    faulty = folder / "faulty.exam"
    faulty.write_bytes(SMALL.replace(b"15:04", b"31:04"))
    adopted = [(name, states[name]) for name in ADOPTED]
    for state in adopted:
        yield from sliced("exports, allocations", memory.words_on_office, *state,
                          ("export", "--db", "FILE"))
    yield from sliced("loads into a new file, allocations", memory.load)
    yield Sweep("loads into a new file, calls of the disk", devices.load, ())
    yield Sweep("exports from a file of version 1, calls of the disk", devices.migration, ())
    for number in sorted(range(len(CASES)), key=lambda number: -len(CASES[number].asked)):
        yield Sweep("messages of the examples, allocations", memory.messages, (number,))
    for state, name in itertools.product(states.items(), COMMANDS):
        yield Sweep("commands, allocations", memory.command, (*state, name))
        yield Sweep("commands, calls of the disk", devices.command, (*state, name))
    yield Sweep("a command that copies the log, allocations", memory.copied_log, (states["swap"],))
    yield Sweep("a command that copies the log, calls of the disk", devices.copied_log,
                (states["swap"],))
    for state, caller in itertools.product(states.items(), CALLERS):
        yield Sweep("every question", questions, (*state, caller))
    for state in adopted:
        yield Sweep("loads into an office, every 20th allocation", memory.words_on_office,
                    (*state, ("load", "--db", "FILE", small), 1, 20))
        yield Sweep("starts of a server, every 20th allocation", memory.start, (*state, 1, 20))
    yield from sliced("a session, reads of a byte", devices.reads)
    yield Sweep("a session, every 20th read of a byte interrupted", devices.interrupted_reads,
                (1, 20))
    yield from sliced("a session, writes of seven bytes", devices.writes)
    for words in (("check", small, solution), ("check", faulty, solution),
                  ("check", "--why", small, solution), ("check", "--json", small, solution),
                  ("check", "--why", "--student", "1", small, solution),
                  ("check", "--why", faulty, solution), ("check", "--json", "--why", "-", "-"),
                  ("places", small, solution, "3"), ("places", small, solution, "4"),
                  ("compare", small, solution, crowded), ("compare", small, crowded, small),
                  ("--help",),
                  ("check", "--frobnicate")):
        yield Sweep("words without a database, allocations", memory.without_database, (words,))


def run_sweep(program, shared_object, folder, sweep):
    """Runs a sweep in a folder of its own; returns its cases, its failures, and the outcomes."""
    with tempfile.TemporaryDirectory(dir=folder) as own:
        run = Run(program, shared_object, own)
        try:
            sweep.function(run, *sweep.given)
        finally:
            waiting.end_all()
        return run.count, run.failed, run.outcomes


def main():
    parser = argparse.ArgumentParser(description=__doc__)
    parser.add_argument("program", metavar="PROGRAM")
    parser.add_argument("--only", default="", help="the sweeps whose names have this text")
    given = parser.parse_args()
    # If there is a file system in memory, databases go there, so that no run waits for a real disk.
    memory = "/dev/shm" if os.access("/dev/shm", os.W_OK) else None
    with (tempfile.TemporaryDirectory() as folder, tempfile.TemporaryDirectory(dir=memory) as data,
          concurrent.futures.ProcessPoolExecutor(len(os.sched_getaffinity(0))) as pool):
        program = executable(pathlib.Path(given.program).resolve(), folder)
        shared_object = build(folder)
        run = Run(program, shared_object, data)
        run.refuse(MEMORY, 1)
        run.judge("the first allocation", (1, b"", NO_MEMORY), run.ending("--help"))
        states, counts, outcomes = make_states(run), Counter(), {}
        chosen = [sweep for sweep in sweeps(states, pathlib.Path(folder))
                  if given.only in sweep.name]
        work = functools.partial(run_sweep, program, shared_object, data)
        for sweep, (count, failed, came) in zip(chosen, pool.map(work, chosen)):
            run.count, run.failed = run.count + count, run.failed + failed
            counts[sweep.name] += count
            outcomes.setdefault(sweep.name, Counter()).update(came)
    for name, count in counts.items():
        kinds = ", ".join(f"{number} {outcome}" for outcome, number in outcomes[name].most_common())
        print(f"refused: {name}: {count} cases: {kinds}")
    sys.exit(run.end())


if __name__ == "__main__":
    main()
