#!/usr/bin/env python3
"""run_places.py PROGRAM: what `places` says of each place, beside the edits of an office.

For every exam and every place of the small session, a fresh draft of the solution gets the edit
that moves the exam there, and another one, from which the exam is cleared, the edit that places it
there. Both have to answer what the place's line says: the penalty, or the breach. The office has to
list the same lines for both drafts. A failing case is printed with what was expected and what came,
and the last line counts the cases.
"""
import csv
import http.client
import io
import json
import pathlib
import subprocess
import sys
import tempfile

import waiting
from cases import Cases
from run_serve import SECONDS, Office
from tools_path import TOP

EXAMPLES = TOP / "examples"
EXAMS = 4
DRAFT = "/drafts/1"
PLACES = [(period, room) for period in range(4) for room in range(2)]
SOLUTIONS = {
    "the solution": (EXAMPLES / "small.sol").read_text(),
    "a solution with breaches": "0, 0\n0, 0\n3, 1\n2, 0\n",
    "all exams in one place": "0, 0\n" * EXAMS,
}


class Drafts:
    """Drafts of an office, a fresh one for each edit."""

    def __init__(self, program, folder):
        database = folder / "office.db"
        subprocess.run([program, "load", "--db", database, EXAMPLES / "small.exam"], check=True,
                       stdout=subprocess.DEVNULL)
        self.office = Office(program, database)

    def ask(self, method, path, body):
        connection = http.client.HTTPConnection("127.0.0.1", self.office.port, timeout=SECONDS)
        connection.request(method, path, body, {"X-Caller": "office", "Connection": "close"})
        reply = connection.getresponse()
        return reply.status, reply.read().decode()

    def begin(self, solution, exam, is_placed):
        """Makes the draft of a solution, without the exam if it is not to be placed."""
        self.ask("PUT", DRAFT, solution)
        if not is_placed:
            self.ask("DELETE", f"{DRAFT}/exams/{exam}", None)

    def listed(self, solution, exam, is_placed):
        """The text in which the office lists the exam's places."""
        self.begin(solution, exam, is_placed)
        said = self.ask("GET", f"{DRAFT}/exams/{exam}/places", None)
        self.ask("DELETE", DRAFT, None)
        return said

    def answer(self, solution, exam, place, is_placed):
        """The end of the place's line, by the edit that puts the exam there."""
        self.begin(solution, exam, is_placed)
        edit = "move" if is_placed else "place"
        status, said = self.ask("POST", f"{DRAFT}/exams/{exam}/{edit}", json.dumps(place))
        reply = json.loads(said)
        self.ask("DELETE", DRAFT, None)
        if status == 200:
            return [str(reply["penalty"]), "", "", ""]
        if reply["error"] == "broken":
            return ["", reply["rule"], str(reply["exam"]), str(reply["other"])]
        return [said]


def listed(program, folder, solution, exam):
    """The text of an exam's places, as the command prints it."""
    (folder / "listed.sol").write_text(solution)
    ended = waiting.run(
        [program, "places", EXAMPLES / "small.exam", folder / "listed.sol", str(exam)],
        capture_output=True, text=True, check=True, timeout=SECONDS)
    return ended.stdout


def main():
    if len(sys.argv) != 2:
        sys.exit("usage: run_places.py PROGRAM")
    program, judged = str(pathlib.Path(sys.argv[1]).resolve()), Cases("places")
    with tempfile.TemporaryDirectory() as made:
        folder = pathlib.Path(made)
        drafts = Drafts(program, folder)
        for name, solution in SOLUTIONS.items():
            for exam in range(EXAMS):
                text = listed(program, folder, solution, exam)
                lines = list(csv.reader(io.StringIO(text)))[1:]
                judged.judge(f"{name}, exam {exam}: every place, by period and room", PLACES,
                             [(int(period), int(room)) for period, room, *_ in lines])
                for is_placed in (True, False):
                    judged.judge(f"{name}, exam {exam}: as the office lists them",
                                 (200, text), drafts.listed(solution, exam, is_placed))
                for period, room, *said in lines:
                    place = {"period": int(period), "room": int(room)}
                    for is_placed in (True, False):
                        judged.judge(
                            f"{name}: {'move' if is_placed else 'place'} {exam} to {place}",
                            drafts.answer(solution, exam, place, is_placed), said)
        drafts.office.killed()
    sys.exit(judged.end())


if __name__ == "__main__":
    main()
