#!/usr/bin/env python3
"""client.py URL: the day of docs/USING.md, asked by a program instead of by hand.

The office at this URL has to be loaded with examples/small.exam. Each request opens a connection of
its own and asks the office to close it, because the office serves one connection at a time.
"""
import http.client
import json
import pathlib
import sys
import urllib.parse

EXAMPLES = pathlib.Path(__file__).resolve().parent
SECONDS = 60


class Refused(Exception):
    """A reply other than 200 or 201, with its status and the error that it names."""

    def __init__(self, status, reply):
        super().__init__(f"{status} {reply}")
        self.status, self.reply = status, reply


class Office:
    """An office at an address, asked by one caller: office, dept:3 or cand:2."""

    def __init__(self, url, caller):
        self.address, self.caller = urllib.parse.urlsplit(url).netloc, caller

    def ask(self, method, path, body=None):
        """Sends one request. Returns the reply as a value if it is JSON, else as a text."""
        text = body if body is None or isinstance(body, bytes) else json.dumps(body).encode()
        connection = http.client.HTTPConnection(self.address, timeout=SECONDS)
        try:
            connection.request(method, path, text, {"X-Caller": self.caller, "Connection": "close"})
            reply = connection.getresponse()
            said = reply.read().decode()
        finally:
            connection.close()
        if reply.getheader("Content-Type") == "application/json":
            said = json.loads(said)
        if reply.status not in (200, 201):
            raise Refused(reply.status, said)
        return said


def day(url):
    """Goes through the day, and yields a line for each step."""
    office, department = Office(url, "office"), Office(url, "dept:3")
    for exam in (2, 3):
        office.ask("PUT", f"/exams/{exam}/owner", {"dept": 3})
    draft = office.ask("PUT", "/drafts/1", (EXAMPLES / "small.sol").read_bytes())
    yield f"draft 1 costs {draft['penalty']}"
    yield office.ask("GET", "/drafts/1/violations").rstrip("\n")
    edited = department.ask("POST", "/drafts/1/exams/3/move", {"period": 3, "room": 1})
    yield f"department 3 moves exam 3: {edited['penalty']}"
    try:
        department.ask("POST", "/drafts/1/exams/0/move", {"period": 3, "room": 0})
    except Refused as refused:
        yield f"department 3 may not move exam 0: {refused.reply['rule']}"
    department.ask("POST", "/drafts/1/exams/3/move", {"period": 2, "room": 0})
    published = office.ask("POST", "/drafts/1/publish")
    yield f"published; {published['changed']} candidates have new seats"
    for exam in Office(url, "cand:2").ask("GET", "/me")["exams"]:
        yield (f"candidate 2: exam {exam['exam']} on {exam['date']} at {exam['start']}, "
               f"seat {exam['seat']}")
    batch = b"student,exam,action\n1,0,drop\n"
    for time in ("once", "again"):
        counts = office.ask("PUT", "/batches/8", batch)
        yield f"the batch sent {time}: {counts['dropped']} dropped"
    seen = Office(url, "cand:1").ask("GET", "/me/exam/0")
    yield f"candidate 1 sees exam 0 as {seen['state']}"
    published = office.ask("POST", "/drafts/1/publish")
    yield f"published again; {published['changed']} candidate has new seats"


def main():
    if len(sys.argv) != 2:
        sys.exit("usage: client.py URL, such as http://127.0.0.1:8080")
    for line in day(sys.argv[1]):
        print(line, flush=True)


if __name__ == "__main__":
    main()
