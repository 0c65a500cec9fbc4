#!/usr/bin/env python3
"""The log of sign-ins, which the agent writes: a line for each account and minute.

    sign_ins.py FILE [--lines]

prints which accounts had wrong passwords today and in the six days before, or with --lines all
lines as CSV.
Its size has a bound: MOST lines with a right password, and as many without. In a minute at most
FAILED_LINES accounts have a line without a right password; what others had is one line.
"""
from __future__ import annotations

import collections
import contextlib
import csv
import datetime
import os
import pathlib
import sqlite3
import sys
import threading
import time

MINUTE, DAY = 60, 86_400
MOST, FAILED_LINES, KEPT_DAYS, SHOWN_DAYS, SHOWN = 100_000, 100, 396, 6, 10
# How many addresses a line names, and how many it can count.
NAMED, COUNTED = 3, 100
# No names of accounts, which have no blanks.
UNKNOWN, FLOOD = "names that nobody has", "further accounts"
ENDS = "right", "wrong", "refused", "new_browsers"
SCHEMA = """
CREATE TABLE IF NOT EXISTS sign_ins (
    minute INTEGER, name TEXT, right INTEGER, wrong INTEGER, refused INTEGER, new_browsers INTEGER,
    addresses INTEGER, some TEXT, PRIMARY KEY (minute, name)) WITHOUT ROWID
"""


class Line:
    """What happened to an account in a minute."""

    def __init__(self) -> None:
        self.ends: collections.Counter[str] = collections.Counter()
        self.addresses: dict[str, None] = {}

    def add(self, end: str, address: str) -> None:
        self.ends[end] += 1
        if len(self.addresses) < COUNTED:
            self.addresses[address] = None


class SignIns:
    """The log. What happened is in memory until the next write, which the agent makes each
    second."""

    def __init__(self, path: pathlib.Path) -> None:
        os.close(os.open(path, os.O_RDWR | os.O_CREAT, 0o600))
        self.db = sqlite3.connect(path, check_same_thread=False, isolation_level=None)
        self.db.execute(SCHEMA)
        self.lock = threading.Lock()
        self.minute, self.lines = self.now(), dict[str, Line]()
        self.changed = set[str]()

    @staticmethod
    def now() -> int:
        return int(time.time()) // MINUTE

    def note(self, name: str, end: str, address: str) -> None:
        """Notes how a try of an account ended, or that it was a new browser."""
        with self.lock:
            if self.now() != self.minute:
                self.write_lines()
                self.minute, self.lines = self.now(), {}
            if name not in self.lines and end != ENDS[0] and self.failed() >= FAILED_LINES:
                name = FLOOD
            self.lines.setdefault(name, Line()).add(end, address)
            self.changed.add(name)

    def summary(self) -> list[str]:
        """What summary() says, of all that happened."""
        with self.lock:
            self.write_lines()
            return summary(self.db)

    def failed(self) -> int:
        """How many accounts have a line without a right password so far."""
        if len(self.lines) < FAILED_LINES:
            return 0
        return sum(not line.ends[ENDS[0]] for line in self.lines.values())

    def write(self) -> None:
        with self.lock:
            self.write_lines()

    def write_lines(self) -> None:
        """Writes the lines that have changed, and deletes the oldest beyond the bound."""
        rows = [(self.minute, name, *(line.ends[end] for end in ENDS), len(line.addresses),
                 " ".join([*line.addresses][:NAMED]))
                for name in sorted(self.changed) if (line := self.lines.get(name))]
        self.changed.clear()
        if not rows:
            return
        with contextlib.closing(self.db.cursor()) as cursor:
            cursor.execute("BEGIN")
            cursor.executemany("INSERT OR REPLACE INTO sign_ins VALUES (?, ?, ?, ?, ?, ?, ?, ?)",
                               rows)
            cursor.execute("DELETE FROM sign_ins WHERE minute < ?",
                           (self.minute - KEPT_DAYS * DAY // MINUTE,))
            for kind in ("right > 0", "right = 0"):
                cursor.execute(f"DELETE FROM sign_ins WHERE {kind} AND minute < coalesce((SELECT "
                               f"minute FROM sign_ins WHERE {kind} ORDER BY minute DESC LIMIT 1 "
                               "OFFSET ?), 0)", (MOST,))
            cursor.execute("COMMIT")


def counted(number: int, noun: str, plural: str) -> str:
    return f"{number:,} {noun if number == 1 else plural}"


def source(db: sqlite3.Connection, name: str, since: int) -> str:
    """From how many addresses an account had wrong passwords, as far as the lines say."""
    rows = db.execute("SELECT addresses, some FROM sign_ins WHERE name = ? AND minute > ? AND "
                      "wrong + refused > 0", (name, since)).fetchall()
    named = {address for _, some in rows for address in some.split()}
    number = max(len(named), *(most for most, _ in rows))
    more = "at least " if any(most > NAMED for most, _ in rows) else ""
    return more + counted(number, "address", "addresses")


def summary(db: sqlite3.Connection) -> list[str]:
    """Sentences about the accounts with the most wrong passwords of the last days, such as
    17 wrong passwords for registry since Monday, from 3 addresses, the last on Tuesday at 09:12."""
    today = datetime.datetime.now().replace(hour=0, minute=0, second=0, microsecond=0)
    since = int((today - datetime.timedelta(days=SHOWN_DAYS)).timestamp()) // MINUTE

    def day(moment: datetime.datetime) -> str:
        return "today" if moment >= today else f"{moment:%A}"

    rows = db.execute(
        "SELECT name, sum(wrong + refused), min(minute), max(minute), sum(new_browsers) "
        "FROM sign_ins WHERE minute > ? AND wrong + refused > 0 "
        "GROUP BY name ORDER BY 2 DESC, 1 LIMIT ?",
        (since, SHOWN)).fetchall()
    said = []
    for name, wrong, *minutes, browsers in rows:
        first, last = (datetime.datetime.fromtimestamp(one * MINUTE) for one in minutes)
        when = f"{'' if last >= today else 'on '}{day(last)} at {last:%H:%M}"
        new = f"; {counted(browsers, 'new browser', 'new browsers')}" if browsers else ""
        said.append(f"{counted(wrong, 'wrong password', 'wrong passwords')} for {name} since "
                    f"{day(first)}, from {source(db, name, since)}, the last {when}{new}")
    return said


def main(words: list[str]) -> int:
    if not words or words[1:] not in ([], ["--lines"]):
        print("usage: sign_ins.py FILE [--lines]", file=sys.stderr)
        return 2
    db = sqlite3.connect(f"file:{words[0]}?mode=ro", uri=True)
    if words[1:]:
        out = csv.writer(sys.stdout)
        out.writerow(("time", "account", *ENDS, "addresses", "some of them"))
        for minute, *row in db.execute("SELECT * FROM sign_ins ORDER BY minute, name"):
            moment = datetime.datetime.fromtimestamp(minute * MINUTE).strftime("%F %H:%M")
            out.writerow((moment, *row))
    else:
        for line in summary(db):
            print(line)
    return 0


if __name__ == "__main__":
    try:
        sys.exit(main(sys.argv[1:]))
    except sqlite3.Error as fault:
        sys.exit(f"sign_ins.py: {fault}")
