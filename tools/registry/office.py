"""Questions to an office, and whether it has the session of a ledger."""
from __future__ import annotations

import base64
import http.client
import os
import re
import socket
import urllib.error
import urllib.parse
import urllib.request

from .ledger import Ledger
from .made_files import frame_of
from .session import Session

# An office that lacks more of the enrolments that it should have has another session: this share in
# percent, or this number in a small session.
MOST_LACKING, MOST_LACKING_PAIRS = 5, 10
# Smaller exams can have wholly other candidates after late changes.
LEAST_COMPARED = 5
# The variable with a program's token for a front.
TOKEN = "EXAMOFFICE_TOKEN"
# The statuses with which an office refuses for good; with others it may be asked again.
FINAL = (400, 403, 404, 409, 413)
Pair = tuple[int, int]


class Refused(Exception):
    """An office that can't be asked (status 0), or that refuses, in words."""

    def __init__(self, words: str, status: int = 0, answer: str = "") -> None:
        super().__init__(words)
        self.status, self.answer = status, answer
        found = re.search(r'"error":"([a-z-]+)"', answer)
        self.error = found[1] if found else ""


class Office:
    """An office by its address, or by that of its front."""

    def __init__(self, address: str) -> None:
        parts = urllib.parse.urlsplit(address)
        self.address = parts._replace(netloc=parts.netloc.rpartition("@")[2]).geturl().rstrip("/")
        self.fields = {"X-Caller": "office"}
        if parts.username:
            words = f"{urllib.parse.unquote(parts.username)}:" \
                    f"{urllib.parse.unquote(parts.password or '')}"
            self.fields["Authorization"] = f"Basic {base64.b64encode(words.encode()).decode()}"
        elif os.environ.get(TOKEN):
            self.fields["Authorization"] = f"Bearer {os.environ[TOKEN]}"

    def ask(self, method: str, path: str, body: bytes | None = None) -> str:
        """The reply to a request."""
        request = urllib.request.Request(f"{self.address}{path}", body, self.fields, method=method)
        try:
            with urllib.request.urlopen(request, timeout=120) as reply:
                text: str = reply.read().decode()
                return text
        except urllib.error.HTTPError as refusal:
            answer = refusal.read(200).decode("utf-8", "replace")
            raise Refused(f"{method} {path} is refused with {refusal.code}: {answer}", refusal.code,
                          answer) from refusal
        except OSError as fault:
            raise Refused(f"{self.address} can't be asked: {fault}") from fault

    def instance(self) -> Instance:
        return Instance(self.ask("GET", "/instance"))


class OfficeBySocket(Office):
    """An office by the Unix socket of its front, for a program that has no network."""

    def __init__(self, path: str, host: str, token: str) -> None:
        super().__init__(f"http://{host}")
        self.path, self.host, self.token = path, host, token

    def ask(self, method: str, path: str, body: bytes | None = None) -> str:
        client = http.client.HTTPConnection(self.host, timeout=120)
        client.sock = socket.socket(socket.AF_UNIX)
        try:
            client.sock.connect(self.path)
            client.request(method, path, body, {"Authorization": f"Bearer {self.token}"})
            reply = client.getresponse()
            answer = reply.read().decode("utf-8", "replace")
        except (OSError, http.client.HTTPException) as fault:
            raise Refused(f"{self.path} can't be asked: {fault}") from fault
        finally:
            client.close()
        if reply.status >= 300:
            raise Refused(f"{method} {path} is refused with {reply.status}: {answer[:200]}",
                          reply.status, answer)
        return answer


class Instance:
    """What an office says of its session: its lines without candidates, and its enrolments."""

    def __init__(self, text: str) -> None:
        self.frame: list[str] = []
        self.pairs: set[tuple[int, int]] = set()
        lines = text.splitlines()
        exams = int(lines[0].strip("[]").partition(":")[2])
        for number, line in enumerate(lines):
            if 1 <= number <= exams:
                line, *candidates = line.split(", ")
                self.pairs.update((int(student), number - 1) for student in candidates)
            self.frame.append(line)


def first_difference(known: list[str], found: list[str]) -> str:
    """Where two lists of lines differ first, in words."""
    section = ""
    for one, other in zip([*known, "nothing"], [*found, "nothing"]):
        section = one.strip("[]") if one.startswith("[") else section
        if one != other:
            return f"{section}: {one!r} in the ledger, {other!r} in the office"
    return "the number of lines"


def exchanged(expected: set[tuple[int, int]], found: set[tuple[int, int]], exams: int
              ) -> list[tuple[int, int]]:
    """Exams whose candidates in the office are rather those of another exam of the ledger."""
    wanted: list[set[int]] = [set() for _ in range(exams)]
    taking: list[set[int]] = [set() for _ in range(exams)]
    for pairs, sets in ((expected, wanted), (found, taking)):
        for student, exam in pairs:
            sets[exam].add(student)
    strange = [exam for exam in range(exams)
               if len(wanted[exam]) >= LEAST_COMPARED
               and 2 * len(wanted[exam] & taking[exam]) < len(wanted[exam])]
    return [(exam, other) for exam in strange for other in strange if exam != other
            and 2 * len(wanted[other] & taking[exam]) > len(wanted[other] | taking[exam])]


def most_lacking(expected: int) -> float:
    """How many of so many enrolments may be lacking."""
    return max(MOST_LACKING_PAIRS, MOST_LACKING * expected / 100)


def are_of_another_session(expected: set[tuple[int, int]], found: set[tuple[int, int]]) -> bool:
    """Whether too many of the enrolments that a ledger expects are lacking."""
    return len(expected - found) > most_lacking(len(expected))


def faults_of_frame(ledger: Ledger, instance: Instance) -> list[str]:
    """Why an office doesn't have the exams, rooms, periods and rules of a ledger."""
    frame = frame_of(ledger.session())
    return [] if frame == instance.frame else [
        f"the office has another session: {first_difference(frame, instance.frame)}"]


def faults_of_enrolments(session: Session, expected: set[Pair], found: set[Pair]) -> list[str]:
    """Why the enrolments of an office are those of another session."""
    if are_of_another_session(expected, found):
        return [f"the office has another session: it lacks {len(expected - found):,} of "
                f"{len(expected):,} enrolments of the ledger, and at most {MOST_LACKING} % may be "
                "lacking"]
    return [f"{session.exams[exam].code} has in the office the candidates of "
            f"{session.exams[other].code}"
            for exam, other in exchanged(expected, found, len(session.exams))]
