"""The browsers on which somebody is signed in, for the page that shows and ends them."""
from __future__ import annotations

import time
from typing import Any, Callable

Rows = list[tuple[Any, ...]]

SCHEMA = """
CREATE TABLE IF NOT EXISTS sessions (
    token TEXT PRIMARY KEY, name TEXT, at INTEGER, until INTEGER, address TEXT, browser TEXT);
CREATE INDEX IF NOT EXISTS sessions_of_users ON sessions (name, at);
"""
# How many are shown, the newest first.
SHOWN = 50
# What a header User-Agent contains, in the order in which it decides, and what people call that.
PROGRAMS = (("Edg", "Edge"), ("OPR/", "Opera"), ("Firefox/", "Firefox"), ("FxiOS/", "Firefox"),
            ("Chrom", "Chrome"), ("CriOS/", "Chrome"), ("Safari/", "Safari"))
SYSTEMS = (("Android", "Android"), ("iPhone", "iPhone"), ("iPad", "iPad"), ("Windows", "Windows"),
           ("Mac OS X", "Mac"), ("CrOS", "Chromebook"), ("Linux", "Linux"))


def named(agent: str) -> str:
    """What people call a browser, by its header User-Agent."""
    program = next((name for sign, name in PROGRAMS if sign in agent), "another program")
    system = next((name for sign, name in SYSTEMS if sign in agent), "")
    return f"{program} on {system}" if system else program


class Browsers:
    """The sessions that somebody made by signing in, until their end."""

    def __init__(self, ask: Callable[..., Rows]) -> None:
        self.ask, self.swept = ask, 0.0

    def add(self, token: str, user: str, at: int, until: int, address: str, agent: str) -> None:
        """Keeps a session; `at` is in milliseconds, as in its token."""
        self.ask("INSERT OR REPLACE INTO sessions VALUES (?, ?, ?, ?, ?, ?)", token, user.lower(),
                 at, until, address, named(agent))

    def remove(self, token: str) -> None:
        self.ask("DELETE FROM sessions WHERE token = ?", token)

    def of(self, user: str) -> Rows:
        """The token, moment, end, address and browser of each session of somebody that counts."""
        return self.ask(
            "SELECT token, at, until, address, browser FROM sessions JOIN users USING (name) WHERE "
            "name = ? AND at >= since AND until > ? ORDER BY at DESC, token LIMIT ?",
            user.lower(), int(time.time()), SHOWN)

    def sweep(self) -> None:
        """Forgets those that have ended, once a minute."""
        if time.time() > self.swept + 60:
            self.swept = time.time()
            self.ask("DELETE FROM sessions WHERE until < ? OR at < coalesce((SELECT since FROM "
                     "users WHERE users.name = sessions.name), 0)", int(self.swept))
