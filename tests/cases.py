"""How the tests count their cases and report those that fail."""
import concurrent.futures
import contextlib
import io
import os
import threading

import waiting

LONGEST = 1_200
# A service of systemd has this, and the program then says more of a fault.
os.environ.pop("JOURNAL_STREAM", None)


# The threads that an exception ended. Python only prints it, and the cases that they had are lost.
broken_threads = []


def note_broken(thread):
    threading.__excepthook__(thread)
    broken_threads.append(thread)


threading.excepthook = note_broken


class Cases:
    """The cases of one test. A failing case is printed with what was expected and what came."""

    def __init__(self, about):
        self.about, self.count, self.failed, self.unjudged = about, 0, 0, 0

    def judge(self, name, expected, got, is_disturbed=False):
        """Judges a case. If what ran had to wait so long for a processor that its own limits were
        passed, `is_disturbed`, another outcome isn't judged."""
        self.count += 1
        if expected != got and is_disturbed:
            self.unjudged += 1
            print(f"{self.about}: {name}: not judged, the machine is too busy", flush=True)
        elif expected != got:
            self.failed += 1
            print(f"{self.about}: {name}", f"  expected {shown(expected)}",
                  f"  got      {shown(got)}",
                  sep="\n", flush=True)

    def add(self, count, faults):
        """Counts cases that were judged elsewhere, and prints the faults of those that failed."""
        self.count += count
        self.failed += len(faults)
        for fault in faults:
            print(f"{self.about}: {fault}", flush=True)

    def run_side_by_side(self, tests, begin, at_once=4):
        """Runs each test, a function by its name, in a process of its own, with the cases that
        `begin` makes there for its name. What each printed comes in their order, and so do the
        cases, which are returned."""
        with concurrent.futures.ProcessPoolExecutor(at_once) as pool:
            made = []
            for said, cases in pool.map(run_apart, *zip(*tests.items()), [begin] * len(tests)):
                print(said, end="", flush=True)
                self.count += cases.count
                self.failed += cases.failed
                self.unjudged += cases.unjudged
                made.append(cases)
        return made

    def end(self, what="cases"):
        """Prints the line that counts the cases, and returns the status: 1 if one failed or none
        was run."""
        if broken_threads:
            self.add(1, [f"{len(broken_threads)} threads ended by an exception"])
        unjudged = f", {self.unjudged} not judged" if self.unjudged else ""
        print(f"{self.about}: {self.count} {what}, {self.failed} failed{unjudged}")
        return int(self.failed > 0 or self.count == 0)


def run_apart(name, test, begin):
    """Runs one test. Returns what it printed, and its cases."""
    with contextlib.redirect_stdout(io.StringIO()) as said:
        cases = begin(name)
        try:
            test(cases)
        finally:
            waiting.end_all()
    return said.getvalue(), cases


def shown(it):
    text = repr(it)
    return text if len(text) <= LONGEST else f"{text[:800]} .. {text[-300:]}"
