"""Lists that the registry's page asks for: made one after another, each job in a process of its
own, and kept for a while beside the ledger."""
from __future__ import annotations

import contextlib
import datetime
import json
import pathlib
import re
import shutil
import subprocess
import sys
import threading
from collections.abc import Mapping, Sequence
from typing import Any

from .folder import write_file
from .ledger import now
from .paper import PAPERS
from .printing import KINDS

TOOL = pathlib.Path(__file__).resolve().parent.parent / "lists"
ABOUT = "about.json"
MOST_KEPT, MOST_WAITING, LONGEST = 6, 4, datetime.timedelta(days=1)
# A job that takes so many seconds hangs.
SECONDS = 1800
CUT_OFF = "the service was stopped meanwhile; please ask for the lists again"
UNFINISHED = ("waiting", "working")
Job = dict[str, Any]
# What a request may say of the part of the session and the paper, and its form.
FORMS = {"day": r"\d{4}-\d\d-\d\d", "start": r"\d\d:\d\d", "building": "(?s:.+)", "room": "(?s:.+)",
         "paper": "|".join(PAPERS)}


class Busy(Exception):
    """Too many jobs wait."""


def wanted_in(body: Any) -> Job | None:
    """What a request asks for: kinds of lists, of which part of the session, on which paper; None
    if it doesn't say that."""
    kinds = body.get("kinds") if isinstance(body, dict) else None
    if (not isinstance(kinds, list) or not kinds or not all(kind in KINDS for kind in kinds)
            or len(set(kinds)) != len(kinds)):
        return None
    part = {name: body.get(name) for name in FORMS}
    if any(text is not None and not (isinstance(text, str) and re.fullmatch(FORMS[name], text))
           for name, text in part.items()):
        return None
    return {"kinds": kinds, **part}


class Jobs:
    """The jobs of all sessions."""

    def __init__(self) -> None:
        self.lock, self.turn = threading.Lock(), threading.Lock()
        # The folders of those that wait or run.
        self.running: set[pathlib.Path] = set()

    def begin(self, folder: pathlib.Path, wanted: Job, by: str, more: Sequence[str],
              environment: Mapping[str, str]) -> Job:
        """Begins a job; one that waits or runs and makes the same is that job."""
        with self.lock:
            unfinished = [job for job in self.all(folder) if job["state"] in UNFINISHED]
            for job in unfinished:
                if all(job.get(name) == wanted[name] for name in wanted):
                    return job
            if len(unfinished) >= MOST_WAITING:
                raise Busy
            lists = folder / "lists"
            lists.mkdir(mode=0o750, exist_ok=True)
            number = max((int(it.name) for it in folders_in(folder)), default=0) + 1
            path = lists / f"{number}"
            path.mkdir(mode=0o750)
            job = {"number": number, "by": by, "at": now(), **wanted, "state": "waiting"}
            save(path, job)
            self.running.add(path)
        threading.Thread(target=self.run, args=(path, job, [
            sys.executable, TOOL, folder, path, "--json", *more, *options(wanted)],
            environment), daemon=True).start()
        return job

    def run(self, path: pathlib.Path, job: Job, words: Sequence[Any],
            environment: Mapping[str, str]) -> None:
        """Makes the files of a job, when it is its turn."""
        try:
            with self.turn:
                save(path, {**job, "state": "working"})
                save(path, {**job, **outcome(path, words, environment)})
        finally:
            with self.lock:
                self.running.discard(path)

    def all(self, folder: pathlib.Path) -> list[Job]:
        """The jobs of a session, the last one first."""
        jobs = []
        for path in folders_in(folder):
            with contextlib.suppress(OSError, ValueError):
                job = json.loads((path / ABOUT).read_text(encoding="utf-8"))
                if job["state"] in UNFINISHED and path not in self.running:
                    job = {**job, "state": "failed", "words": CUT_OFF}
                jobs.append(job)
        return sorted(jobs, key=lambda job: -int(job["number"]))

    def file(self, folder: pathlib.Path, number: int, name: str) -> pathlib.Path | None:
        """A file that a job made."""
        path = folder / "lists" / f"{number}" / name
        is_made = any(job["number"] == number and any(
            one["name"] == name for one in job.get("files", ())) for job in self.all(folder))
        return path if is_made and path.is_file() else None

    def remove_old(self, folder: pathlib.Path) -> None:
        """Removes the files of old jobs: only the last ones of a day are kept."""
        earliest = (datetime.datetime.now().astimezone() - LONGEST).timestamp()
        with self.lock:
            finished = sorted((path for path in folders_in(folder) if path not in self.running),
                              key=lambda path: -int(path.name))
            for place, path in enumerate(finished):
                if place >= MOST_KEPT or path.stat().st_mtime < earliest:
                    shutil.rmtree(path, ignore_errors=True)


def folders_in(folder: pathlib.Path) -> list[pathlib.Path]:
    return [it for it in (folder / "lists").glob("*") if it.name.isdigit()]


def save(path: pathlib.Path, job: Job) -> None:
    part = path / f".{ABOUT}.part"
    part.unlink(missing_ok=True)
    write_file(part, json.dumps(job, ensure_ascii=False))
    part.replace(path / ABOUT)


def options(wanted: Job) -> list[str]:
    return [*(f"--kind={kind}" for kind in wanted["kinds"]),
            *(f"--{name}={wanted[name]}" for name in FORMS if wanted[name] is not None)]


def outcome(path: pathlib.Path, words: Sequence[Any], environment: Mapping[str, str]) -> Job:
    """Runs the tool; what it made, or why it failed, in words."""
    try:
        ended = subprocess.run(words, env=environment, stdin=subprocess.DEVNULL,
                               capture_output=True, text=True, timeout=SECONDS, check=False)
        if ended.returncode == 0:
            made = json.loads(ended.stdout)
            files = [{**one, "bytes": (path / one["name"]).stat().st_size}
                     for one in made["files"]]
            return {"state": "done", **made, "files": files}
        said = ended.stderr.strip().splitlines()
    except (OSError, ValueError, subprocess.TimeoutExpired) as fault:
        said = [f"{fault}"]
    return {"state": "failed", "words": (said or ["the tool ended without a word"])[-1]}
