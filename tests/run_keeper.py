#!/usr/bin/env python3
"""run_keeper.py PROGRAM: the files of a session belong to its keeper, whoever runs a tool.

Each tool is run by root, by the keeper and by a stranger, by the session's name as with the
package. Root's files that only root reads are read; whoever can't write is told before anything is
done. A failing case is printed with what was expected and what came, and the last line counts the
cases. Needs root.
"""
import os
import pathlib
import pwd
import shutil
import subprocess
import sys
import tempfile

from run_serve import Office, Run
from tools_path import TOP

SECONDS = 120
SMALL = TOP / "examples" / "small"
KEEPER, STRANGER = "www-data", "nobody"


class Session:
    """A session in a folder of all sessions, which belongs to the keeper."""

    def __init__(self, run, folder):
        self.run, self.folder = run, folder
        self.ledgers, self.front, self.csv = (folder / name for name in ("all", "front", "csv"))
        for path in (self.ledgers, self.front):
            path.mkdir(mode=0o750)
        shutil.copytree(SMALL, self.csv)
        self.csv.chmod(0o700)
        (folder / "list.csv").write_text((SMALL / "enrolments.csv").read_text() + "r9,Z,MATH101\n")
        (folder / "people.csv").write_text("user,student\nada,s1\nben,s2\n")
        for path in folder.glob("*.csv"):
            path.chmod(0o600)
        # What the keeper and strangers read is theirs to read.
        shutil.copytree(SMALL, folder / "open")
        shutil.copy(folder / "list.csv", folder / "open")
        shutil.copy(folder / "people.csv", folder / "open")
        subprocess.run(["chmod", "-R", "a+rX", folder / "open"], check=True)
        shutil.chown(self.ledgers, KEEPER, KEEPER)
        self.office = None

    def tool(self, name, *words, user=None):
        """The status, the output and the faults of a tool that somebody runs."""
        before = ["setpriv", "--reuid", user, "--regid", f"{pwd.getpwnam(user).pw_gid}",
                  "--init-groups"] if user else []
        ended = subprocess.run(
            [*before, "/usr/bin/python3", TOP / "tools" / name, *words], capture_output=True,
            text=True, timeout=SECONDS, check=False, env={
                **os.environ, "EXAMOFFICE_LEDGERS": str(self.ledgers),
                "PYTHONDONTWRITEBYTECODE": "1"})
        return ended.returncode, ended.stdout, ended.stderr

    def owners(self):
        """Who has the files of the session, and who those of the front."""
        return tuple({path.lstat().st_uid for path in folder.rglob("*")}
                     for folder in (self.ledgers, self.front))

    def files(self):
        return {path: path.read_bytes() for folder in (self.ledgers, self.front)
                for path in folder.rglob("*") if path.is_file()}

    def load(self):
        subprocess.run([self.run.program, "load", "--db", self.folder / "office.db",
                        self.ledgers / "term" / "now" / "session.exam"], check=True,
                       stdout=subprocess.DEVNULL)
        self.office = Office(self.run.program, self.folder / "office.db")

    def commands(self, folder):
        """What each tool is called with, by files in a folder."""
        address = ["--office", f"http://127.0.0.1:{self.office.port}"]
        return {
            "changes_from_csv": [folder / "list.csv", "term", "--many", *address],
            "session_from_csv": [folder if folder.name == "open" else self.csv, "term", *address],
            "users_from_csv": [folder / "people.csv", self.front, "--ledger", "term"],
            "next_session": [folder if folder.name == "open" else self.csv, "term", "autumn",
                             "--program", self.run.program, *address],
        }


def judge_all(run, session):
    """Each tool, by each of them; after each all belongs together."""
    keeper, root = {pwd.getpwnam(KEEPER).pw_uid}, {0}
    run.judge("root makes a session", 0, session.tool("session_from_csv", session.csv, "term")[0])
    run.judge("whose it is", (keeper, set()), session.owners())
    session.load()

    def belongs_together(title):
        run.judge(f"{title}: all belongs together", (0, ""), session.tool(
            "session_from_csv", "--check", "term", "--office",
            f"http://127.0.0.1:{session.office.port}")[::2])
        run.judge(f"{title}: whose the files are", keeper, session.owners()[0])

    for name, words in session.commands(session.folder).items():
        more = ["--make"] if name == "next_session" else []
        run.judge(f"{name} by root", (0, ""), session.tool(name, *words, *more)[::2])
        belongs_together(f"{name} by root")
    run.judge("whose the front's files are", root, session.owners()[1])
    for name, words in session.commands(session.folder / "open").items():
        before = session.files()
        status, _, faults = session.tool(name, *words, user=KEEPER)
        if name == "users_from_csv":
            run.judge("users by the keeper", (1, (
                f"{session.front} belongs to root, and you may not write there: run this as "
                "root\n"), before), (status, faults, session.files()))
        else:
            run.judge(f"{name} by the keeper", (0, ""), (status, faults))
        belongs_together(f"{name} by the keeper")
        before = session.files()
        status, said, faults = session.tool(name, *words, user=STRANGER)
        run.judge(f"{name} by a stranger", (1, "", True, before), (
            status, said, "belongs to" in faults and "run this as" in faults, session.files()))


def main():
    if len(sys.argv) != 2:
        print(__doc__.partition(":")[0], file=sys.stderr)
        return 2
    if os.geteuid():
        print("keeper: left out without root")
        return 0
    with tempfile.TemporaryDirectory() as name:
        folder = pathlib.Path(name)
        folder.chmod(0o755)
        run = Run(pathlib.Path(sys.argv[1]).resolve(), folder, "keeper")
        session = Session(run, folder)
        try:
            judge_all(run, session)
        finally:
            if session.office:
                session.office.killed()
    return run.end()


if __name__ == "__main__":
    sys.exit(main())
