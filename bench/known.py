#!/usr/bin/env python3
"""known.py [--program PATH]: the program and the baselines on small files with known answers.
known.py --folder DIR [--best FILE]: judges your timetables of the competition's sessions.

Without a folder the cases are those of tests/check_cases.py; the oracle is asked where there is a
report. In a folder each NAME.exam is a session, and each .sol or .sln whose name begins with NAME
is a timetable of it; a line for each has its breaches, its total, and how far that is above the
best total known. FILE has these: a line `NAME TOTAL` for each session; # begins a comment.
"""
import argparse
import json
import pathlib
import re
import subprocess
import sys
import tempfile

from checkers import ORACLE, Answer, ask, baselines, difference, program
# In tests/, which checkers adds to the path.
from cases import Cases
from check_cases import FAULTS, PARTS, REPORTS


def report(breaches, parts):
    lines = [f"breaches {len(breaches)}", *breaches]
    lines += [f"{name} {number}" for name, number in zip(PARTS, parts)]
    lines += [f"total {sum(parts)}"]
    return Answer(3 if breaches else 0, "".join(f"{it}\n" for it in lines).encode(), b"")


def cases():
    """Yields each case as its name, its instance, its solution and the known answer."""
    for name, (instance, solution, breaches, parts) in REPORTS.items():
        yield name, instance, solution, report(breaches, parts)
    for name, (instance, solution, text) in FAULTS.items():
        yield name, instance, solution, Answer(1, b"", f"examoffice: {text}\n".encode())


# ---- A folder of sessions and timetables

HEADING = f"{'timetable':<40} {'breaches':>8} {'total':>9} {'best':>9} {'above':>8}"


def best_totals(file):
    """The best total of each session that a file names."""
    best = {}
    for number, line in enumerate(file.read_text().splitlines(), 1):
        row = line.partition("#")[0].rsplit(maxsplit=1)
        if len(row) == 2 and row[1].isdecimal():
            best[row[0].strip()] = int(row[1])
        elif row:
            sys.exit(f"{shown(file)}: line {number} is not NAME TOTAL")
    return best


def shown(path):
    """A path in one line, as the program prints it."""
    return re.sub(r"[\x00-\x1f\x7f]", lambda it: f"\\x{ord(it[0]):02x}", str(path))


def timetables(session):
    """The timetables of a session: it has the longest name that theirs begin with."""
    names = [path.stem for path in session.parent.glob("*.exam")]
    for path in sorted(session.parent.iterdir()):
        fitting = [name for name in names if path.name.startswith(name)]
        if path.suffix in (".sol", ".sln") and fitting and max(fitting, key=len) == session.stem:
            yield path


def folder_lines(path, folder, best):
    """Yields the line of each timetable of a folder, and those of its faults."""
    for session in sorted(folder.glob("*.exam")):
        solutions = [*timetables(session)]
        if not solutions:
            yield f"{shown(session.name)}: no timetable"
            continue
        done = subprocess.run([path, "check-all", "--json", session, *solutions], check=False,
                              capture_output=True, text=True, stdin=subprocess.DEVNULL)
        for found in map(json.loads, done.stdout.splitlines()):
            known = best.get(session.stem)
            above = "" if not known else f"{100 * (found['total'] / known - 1):+.2f} %"
            yield (f"{shown(pathlib.Path(found['path']).name):<40} {found['breaches']:>8} "
                   f"{found['total']:>9} {'' if known is None else known:>9} {above:>8}").rstrip()
        yield from done.stderr.splitlines()


def try_a_folder(judged, path):
    """Two sessions, of which one name begins with the other, and a faulty timetable."""
    small, solution, _, parts = REPORTS["placed well"]
    with tempfile.TemporaryDirectory() as name:
        folder = pathlib.Path(name)
        for session in ("set_1", "set_10"):
            (folder / f"{session}.exam").write_text(small)
        (folder / "set_1_first.sln").write_text(solution)
        (folder / "set_1_worse.sol").write_text("0, 0\n")
        (folder / "set_1_two\nlines.sol").write_text(solution)
        (folder / "best").write_text("# known to us\nset_1 20\n")
        lines = [*folder_lines(path, folder, best_totals(folder / "best"))]
        judged.judge("a folder", [
            f"{'set_1_first.sln':<40} {0:>8} {sum(parts):>9} {20:>9} +85.00 %",
            f"{'set_1_two' + chr(92) + 'x0alines.sol':<40} {0:>8} {sum(parts):>9} {20:>9} +85.00 %",
            f"{folder}/set_1_worse.sol: examoffice: solution line 2: fault 3",
            "set_10.exam: no timetable"], lines)


def main():
    parser = argparse.ArgumentParser(description=__doc__,
                                     formatter_class=argparse.RawDescriptionHelpFormatter)
    parser.add_argument("--program", help="a program other than the release")
    parser.add_argument("--folder", type=pathlib.Path, help="of sessions and timetables")
    parser.add_argument("--best", type=pathlib.Path, help="a file with the best totals known")
    given = parser.parse_args()
    if given.folder:
        if not any(given.folder.glob("*.exam")):
            parser.error(f"{shown(given.folder)} has no session, NAME.exam")
        if given.best and not given.best.is_file():
            parser.error(f"there is no file {shown(given.best)}")
        best = best_totals(given.best) if given.best else {}
        print(HEADING)
        for line in folder_lines(program(given.program)[0], given.folder, best):
            print(line)
        return 0
    commands = {"examoffice": program(given.program), **baselines()}
    judged = Cases("known")
    with tempfile.TemporaryDirectory() as folder:
        files = [str(pathlib.Path(folder, name)) for name in ("known.exam", "known.sol")]
        for name, instance, solution, known in cases():
            for file, text in zip(files, (instance, solution)):
                pathlib.Path(file).write_bytes(text.encode())
            answers = {it: ask(command, *files) for it, command in commands.items()}
            if known.status != 1:
                answers["oracle"] = ask(ORACLE, *files)
            judged.judge(name, None, difference({"by hand": known, **answers}))
    try_a_folder(judged, commands["examoffice"][0])
    return judged.end(f"cases of {', '.join(commands)}")


if __name__ == "__main__":
    sys.exit(main())
