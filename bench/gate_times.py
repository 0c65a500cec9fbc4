#!/usr/bin/env python3
"""gate_times.py COMMAND ..: what a run of the gate takes, crate by crate.

Runs the command in a session of its own, and looks twice a second at the prover's processes of that
session. In the end it prints a row for each crate: seconds of processor for proofs, for tests and
for the wrong bodies of the gate, then the seconds of the whole run beside the gate's budget, and
how long a Python loop of 5,000,000 additions took. Proofs that an earlier run kept take nothing:
only a run from nothing (`rt ci --anew` in ./test, or a machine that has kept none) is measured
against the budget."""
import resource
import subprocess
import sys
import time
from collections import defaultdict
from pathlib import Path

TICKS = 100  # of a second: what /proc counts in
BUDGET = 9_500  # seconds of processor that the gate may take from nothing


def main(words):
    if not words:
        sys.exit("usage: gate_times.py COMMAND ..")
    loops, begun = [loop()], time.monotonic()
    seen = {}
    with subprocess.Popen(words, start_new_session=True) as run:
        while run.poll() is None:
            seen.update(provers(run.pid))
            time.sleep(0.5)
    minutes = (time.monotonic() - begun) / 60
    loops.append(loop())
    print(table(seen))
    used = resource.getrusage(resource.RUSAGE_CHILDREN)
    print(f"{used.ru_utime + used.ru_stime:,.0f} s of processor in all; the budget from nothing is "
          f"{BUDGET:,} s")
    print(f"{minutes:.1f} minutes; the loop took {loops[0]:.2f} s before, {loops[1]:.2f} s after")
    return run.returncode


def loop():
    begun, total = time.perf_counter(), 0
    for number in range(5_000_000):
        total += number
    return time.perf_counter() - begun


def provers(session):
    """Each prover that a run of rt began in a session: its crate, its kind and its seconds so
    far."""
    found = {}
    for at in Path("/proc").glob("[0-9]*"):
        try:
            words = (at / "cmdline").read_bytes().decode(errors="replace").split("\0")
            if "rattle" not in words[0] or "--crate-name" not in words:
                continue
            fields = (at / "stat").read_text().rpartition(")")[2].split()
            if int(fields[3]) != session:
                continue
            parent = Path("/proc", fields[1], "cmdline").read_bytes()
            if b"rattle\0" in parent or b"/bin/rattle" in parent:
                continue
            folder = str((at / "cwd").readlink())
        except OSError:
            continue
        kind = "wrong" if "/rt-edit-" in folder else "tests" if "--test" in words else "proofs"
        crate = words[words.index("--crate-name") + 1]
        # its own time and that of the children it waited for
        found[at.name, fields[19]] = crate, kind, sum(map(int, fields[11:15])) / TICKS
    return found


def table(seen):
    seconds = defaultdict(lambda: defaultdict(float))
    for crate, kind, taken in seen.values():
        seconds[crate][kind] += taken
        seconds["**all**"][kind] += taken
    order = sorted(seconds, key=lambda crate: sum(seconds[crate].values()))
    kinds = ("proofs", "tests", "wrong")
    rows = [[crate, *(f"{seconds[crate][kind]:,.0f}" for kind in kinds)] for crate in order]
    return "\n".join(f"| {' | '.join(row)} |" for row in rows)


if __name__ == "__main__":
    sys.exit(main(sys.argv[1:]))
