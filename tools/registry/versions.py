"""The versions of a ledger: its tables, and how a ledger of each version gets those of the next."""
from __future__ import annotations

import pathlib
import sqlite3

VERSION = 3
TABLES = (
    "CREATE TABLE about (key TEXT PRIMARY KEY, value TEXT NOT NULL)",
    "CREATE TABLE departments (number INTEGER PRIMARY KEY, name TEXT NOT NULL UNIQUE)",
    "CREATE TABLE exams (number INTEGER PRIMARY KEY, code TEXT NOT NULL UNIQUE,"
    " title TEXT NOT NULL, minutes INTEGER NOT NULL, department INTEGER REFERENCES departments)",
    "CREATE TABLE rooms (number INTEGER PRIMARY KEY, name TEXT NOT NULL UNIQUE,"
    " building TEXT NOT NULL, capacity INTEGER NOT NULL, penalty INTEGER NOT NULL)",
    "CREATE TABLE periods (number INTEGER PRIMARY KEY, date TEXT NOT NULL, start TEXT NOT NULL,"
    " minutes INTEGER NOT NULL, penalty INTEGER NOT NULL)",
    "CREATE TABLE rules (place INTEGER PRIMARY KEY, section TEXT NOT NULL, line TEXT NOT NULL)",
    "CREATE TABLE students (number INTEGER PRIMARY KEY, id TEXT NOT NULL UNIQUE,"
    " name TEXT NOT NULL, unasked_since TEXT)",
    "CREATE TABLE enrolments (student INTEGER NOT NULL REFERENCES students,"
    " exam INTEGER NOT NULL REFERENCES exams, PRIMARY KEY (exam, student)) WITHOUT ROWID",
    "CREATE TABLE users (name TEXT PRIMARY KEY COLLATE NOCASE, caller TEXT NOT NULL)",
    "CREATE TABLE batches (number INTEGER PRIMARY KEY, bytes BLOB NOT NULL, source TEXT NOT NULL,"
    " prepared_at TEXT NOT NULL, prepared_by TEXT NOT NULL, sent_at TEXT, turn INTEGER,"
    " logged INTEGER)",
    "CREATE TABLE changes (batch INTEGER NOT NULL REFERENCES batches, place INTEGER NOT NULL,"
    " student INTEGER NOT NULL REFERENCES students, exam INTEGER NOT NULL REFERENCES exams,"
    " action TEXT NOT NULL, PRIMARY KEY (batch, place)) WITHOUT ROWID",
    "CREATE TABLE states (number INTEGER PRIMARY KEY, digest TEXT NOT NULL, made_at TEXT NOT NULL,"
    " made_by TEXT NOT NULL)",
    "CREATE TABLE IF NOT EXISTS effects (batch INTEGER PRIMARY KEY REFERENCES batches,"
    " added INTEGER NOT NULL, dropped INTEGER NOT NULL, unchanged INTEGER NOT NULL,"
    " points TEXT NOT NULL)",
    "CREATE TABLE IF NOT EXISTS acted (batch INTEGER NOT NULL REFERENCES batches,"
    " place INTEGER NOT NULL, PRIMARY KEY (batch, place)) WITHOUT ROWID",
    "CREATE TABLE settled (number INTEGER PRIMARY KEY, at TEXT NOT NULL, by TEXT NOT NULL)",
    "CREATE TABLE reserved (number INTEGER PRIMARY KEY, at TEXT NOT NULL)",
    "CREATE TABLE limits (name TEXT PRIMARY KEY, percent TEXT NOT NULL, number INTEGER NOT NULL)",
)
# What brings a ledger of a version to the next one. The first ledgers had no effects.
STEPS: dict[int, tuple[str, ...]] = {1: (
    *TABLES[-5:-1],
    "ALTER TABLE students ADD COLUMN unasked_since TEXT",
    "ALTER TABLE batches ADD COLUMN turn INTEGER",
    "ALTER TABLE batches ADD COLUMN logged INTEGER",
    "UPDATE batches SET turn = place FROM (SELECT number AS one, row_number() OVER"
    " (ORDER BY sent_at, number) AS place FROM batches WHERE sent_at IS NOT NULL)"
    " WHERE number = one",
), 2: (
    "UPDATE batches SET source = 'list' WHERE source = 'file'",
    TABLES[-1],
)}


class NotALedger(Exception):
    """Why a ledger can't be read, in words."""


def version_of(db: sqlite3.Connection, path: pathlib.Path) -> int:
    """Returns the version of a ledger, which is today's or an earlier one."""
    row = db.execute("SELECT value FROM about WHERE key = 'version'").fetchone()
    text = f"{row[0]}" if row else ""
    if text.isdigit() and int(text) > VERSION:
        raise NotALedger(f"{path} is a ledger of version {text}, and these tools know versions up "
                         f"to {VERSION}: use the tools that wrote it, or later ones")
    if not text.isdigit() or int(text) < 1:
        raise NotALedger(f"{path} is not a ledger: its version is {text!r}")
    return int(text)


def bring_to_today(db: sqlite3.Connection, path: pathlib.Path) -> None:
    """Brings a ledger to today's version, from each to the next in one transaction."""
    while version_of(db, path) < VERSION:
        db.execute("BEGIN IMMEDIATE")
        # Another tool may have done it meanwhile.
        version = version_of(db, path)
        for statement in STEPS.get(version, ()):
            db.execute(statement)
        db.execute("UPDATE about SET value = ? WHERE key = 'version'",
                   (f"{min(version + 1, VERSION)}",))
        db.execute("COMMIT")
