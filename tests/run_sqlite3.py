#!/usr/bin/env python3
"""run_sqlite3.py PROGRAM: the databases of the program beside the stock command sqlite3.

What was loaded is read by sqlite3, and compared with docs/generated/TABLES.md and the small
example; what sqlite3 wrote as drafted and published is found and exported; what a program before
this one left becomes version 2 of the same office; a database that sqlite3 made, or changed so
that it represents no office, is refused by each command, and its dump by sqlite3 is then as it was.
A failing case is printed with what was expected and what came, and the last line counts the cases.
"""
import pathlib
import re
import subprocess
import sys
import tempfile

import run_serve
import waiting
from cases import Cases
from serve_cases import SHOWN, report
from serve_cases import text as reply_with

TOP = pathlib.Path(__file__).resolve().parent.parent
TABLES, SMALL = TOP / "docs" / "generated" / "TABLES.md", TOP / "examples" / "small.exam"
SECONDS = 60
LOADED = b"loaded exams 4 pairs 6 periods 4 rooms 2\n"
# The canonical text of the small example, with no student.
INSTANCE = ("[Exams:4]", "120", "90", "120", "60", "[Periods:4]", "15:04:2005, 09:30:00, 120, 0",
            "15:04:2005, 14:00:00, 120, 0", "15:04:2005, 17:00:00, 90, 10",
            "18:04:2005, 09:30:00, 120, 5", "[Rooms:2]", "3, 0", "2, 7",
            "[PeriodHardConstraints]", "1, AFTER, 0", "[RoomHardConstraints]",
            "[InstitutionalWeightings]", "TWOINAROW,7", "TWOINADAY,5", "PERIODSPREAD,3",
            "NONMIXEDDURATIONS,10", "FRONTLOAD,1,2,4")
PAIRS = ("1|0", "1|3", "2|0", "2|1", "3|1", "3|2")
# What other commands store: an owner of exam 2, and the small solution as draft 3.
DRAFTED = ("INSERT INTO owner VALUES (2, 999)",
           "INSERT INTO draft VALUES (3, 7, 5, 3, 0, 0, 15, 7)",
           "INSERT INTO night_draft VALUES (3, 0)",
           "INSERT INTO slot VALUES (3, 0, 0, 0), (3, 1, 1, 0), (3, 2, 3, 1), (3, 3, 2, 0)")
# An office is found, and has a session already; or what is found is no office's.
FOUND, REFUSED = ((1, b"", b"examoffice: store fault %d\n" % fault) for fault in (1, 9))
UNOPENED = 1, b"", b"examoffice: cannot open database\n"
BATCHES = ("WITH RECURSIVE n(no) AS (VALUES (0) UNION ALL SELECT no + 1 FROM n LIMIT %d)"
           " INSERT INTO batch SELECT no, x'', 0, 0, 0 FROM n")
# The stored session with a weight of nights at its end, which costs nothing: no two of its dates
# are one day apart.
NIGHTS = "UPDATE meta SET instance = CAST(instance || 'OVERNIGHT,%d' || x'0D0A' AS BLOB)"
# What a statement makes of that office.
CHANGES = {
    NIGHTS % 6: FOUND,
    NIGHTS % 0: REFUSED,
    "UPDATE owner SET dept = 4": FOUND,
    "UPDATE owner SET dept = 1000": REFUSED,
    "UPDATE owner SET exam = 4": REFUSED,
    "UPDATE meta SET published = 1": REFUSED,
    "INSERT INTO placed VALUES (0, 0, 0)": REFUSED,
    "INSERT INTO seat (exam, student, period, room, seat) VALUES (0, 1, 0, 0, 1)": REFUSED,
    "INSERT INTO share_student VALUES (1, 0, 0, 0)": REFUSED,
    "INSERT INTO night_share VALUES (1, 0)": REFUSED,
    "INSERT INTO share_part VALUES (0, 0, 0, 0)": REFUSED,
    "UPDATE meta SET instance = X'00'": REFUSED,
    "UPDATE meta SET published = 2": REFUSED,
    "INSERT INTO enrol (student, exam) VALUES (1, 4)": REFUSED,
    "INSERT INTO enrol (student, exam) VALUES (-1, 0)": REFUSED,
    "INSERT INTO enrol (student, exam) VALUES (1, 4294967296)": REFUSED,
    "INSERT INTO enrol (student, exam) VALUES (9, 3)": FOUND,
    "UPDATE draft SET mixed = mixed + 1": REFUSED,
    "UPDATE draft SET no = 9; UPDATE night_draft SET no = 9": REFUSED,
    "UPDATE night_draft SET no = 4": REFUSED,
    "UPDATE night_draft SET night = 1": REFUSED,
    "INSERT INTO night_draft VALUES (4, 0)": REFUSED,
    "DELETE FROM night_draft": REFUSED,
    "UPDATE slot SET period = 4 WHERE exam = 0": REFUSED,
    "UPDATE slot SET rowid = -5 WHERE exam = 0": FOUND,
    "DELETE FROM draft": REFUSED,
    "DROP TABLE batch": REFUSED,
    "DROP TABLE night_share": REFUSED,
    "UPDATE meta SET version = 1": REFUSED,
    "UPDATE meta SET version = 3": REFUSED,
    "CREATE TABLE more (x INTEGER)": REFUSED,
    "INSERT INTO batch (no, bytes, added, dropped, unchanged) VALUES (1, x'', 0, 0, 0)": FOUND,
    "INSERT INTO batch VALUES (999999999, zeroblob(1048576), 1, 2, 3), (0, x'00', 0, 0, 0)": FOUND,
    "INSERT INTO batch VALUES (1000000000, x'', 0, 0, 0)": REFUSED,
    "INSERT INTO batch VALUES (-1, x'', 0, 0, 0)": REFUSED,
    "INSERT INTO batch VALUES (1, x'', 4294967296, 0, 0)": REFUSED,
    "INSERT INTO batch VALUES (1, x'', 0, 0, -1)": REFUSED,
    "INSERT INTO batch VALUES (1, zeroblob(1048577), 0, 0, 0)": REFUSED,
    BATCHES % 10_000: FOUND,
    BATCHES % 10_001: REFUSED,
}
# What a publication stores: the small solution, its seats, and the shares of its penalty.
PUBLISHED = ("UPDATE meta SET published = 1",
             "INSERT INTO placed (exam, period, room)"
             " VALUES (0, 0, 0), (1, 1, 0), (2, 3, 1), (3, 2, 0)",
             "INSERT INTO seat (exam, student, period, room, seat) VALUES (0, 1, 0, 0, 1),"
             " (0, 2, 0, 0, 2), (1, 2, 1, 0, 1), (1, 3, 1, 0, 2), (2, 3, 3, 1, 1), (3, 1, 2, 0, 1)",
             "INSERT INTO share_student (student, in_row, in_day, spread)"
             " VALUES (1, 0, 5, 1), (2, 7, 0, 1), (3, 0, 0, 1)",
             "INSERT INTO night_share (student, night) VALUES (1, 0), (2, 0), (3, 0)",
             "INSERT INTO share_part (kind, no, penalty, mixed) VALUES (0, 0, 0, 0), (0, 1, 0, 0),"
             " (0, 2, 0, 0), (0, 3, 0, 0), (1, 0, 0, 0), (1, 1, 0, 0), (1, 2, 10, 0), (1, 3, 5, 0),"
             " (2, 0, 0, 0), (2, 1, 7, 0)")
EXPORTED = (0, b"0, 0\r\n1, 0\r\n3, 1\r\n2, 0\r\n", b"")
NO_PUBLICATION = (1, b"", b"examoffice: no publication\n")
# Offices of the small example as earlier releases left them, all with tables of version 1, and
# what an export prints of each: one of 25 November 2026 with an owner, two drafts, a publication
# and a later batch; two of 27 November 2026, the second after two publications.
BEFORE = {"everything": EXPORTED, "loaded": NO_PUBLICATION,
          "published_twice": (0, b"0, 0\r\n1, 0\r\n3, 1\r\n3, 1\r\n", b"")}
PENALTY_OF_SECOND = report(7, 0, 3, 10, 0, 10, 14, 44)
# What makes version 2 of their tables, after the statements of docs/generated/TABLES.md for the
# two new ones.
FILLED = ("INSERT INTO night_draft SELECT no, 0 FROM draft",
          "INSERT INTO night_share SELECT student, 0 FROM share_student",
          "UPDATE meta SET version = 2")
# What makes tables of no office of version 1.
OF_NEITHER = (
    "CREATE TABLE night_draft (no INTEGER NOT NULL PRIMARY KEY, night INTEGER NOT NULL) STRICT",
    "UPDATE meta SET version = 2",
    "UPDATE meta SET version = 3",
    NIGHTS % 6,
    NIGHTS % 0,
    "DROP TABLE batch",
)
# What a statement makes of that office.
PUBLISHED_CHANGES = {
    "UPDATE seat SET seat = 3 WHERE exam = 3": FOUND,
    "DELETE FROM enrol WHERE exam = 3": FOUND,
    "UPDATE meta SET published = 0": REFUSED,
    "UPDATE placed SET room = 1 WHERE exam = 3": REFUSED,
    "DELETE FROM placed WHERE exam = 3": REFUSED,
    "UPDATE seat SET seat = 4 WHERE exam = 3": REFUSED,
    "UPDATE seat SET seat = 0 WHERE exam = 3": REFUSED,
    "UPDATE seat SET seat = -1 WHERE exam = 3": REFUSED,
    "UPDATE seat SET period = 3 WHERE exam = 3": REFUSED,
    "DELETE FROM seat WHERE exam = 3": REFUSED,
    "UPDATE share_student SET spread = spread + 1 WHERE student = 3": REFUSED,
    "UPDATE share_student SET in_day = in_day - 1 WHERE student = 1": REFUSED,
    "UPDATE share_student SET student = -1 WHERE student = 3;"
    " UPDATE night_share SET student = -1 WHERE student = 3": REFUSED,
    "DELETE FROM share_student WHERE student = 2": REFUSED,
    "DELETE FROM share_student WHERE student = 2;"
    " DELETE FROM night_share WHERE student = 2": REFUSED,
    "INSERT INTO share_student (student, in_row, in_day, spread) VALUES (9, 0, 0, 0);"
    " INSERT INTO night_share VALUES (9, 0)": REFUSED,
    "UPDATE night_share SET night = 1 WHERE student = 2": REFUSED,
    "DELETE FROM night_share WHERE student = 2": REFUSED,
    "UPDATE share_part SET penalty = penalty + 1 WHERE kind = 0 AND no = 2": REFUSED,
    "UPDATE share_part SET penalty = penalty - 1 WHERE kind = 1 AND no = 2": REFUSED,
    "UPDATE share_part SET mixed = 1 WHERE kind = 2 AND no = 0": REFUSED,
    "DELETE FROM share_part WHERE kind = 0 AND no = 3": REFUSED,
    "INSERT INTO share_part (kind, no, penalty, mixed) VALUES (3, 0, 0, 0)": REFUSED,
    "DELETE FROM share_student; DELETE FROM night_share; DELETE FROM share_part": REFUSED,
}
# Another draft of the small solution; and what makes of an office with both drafts and a
# publication tables that no office has.
SECOND_DRAFT = ("INSERT INTO draft VALUES (5, 7, 5, 3, 0, 0, 15, 7)",
                "INSERT INTO night_draft VALUES (5, 0)",
                "INSERT INTO slot VALUES (5, 0, 0, 0), (5, 1, 1, 0), (5, 2, 3, 1), (5, 3, 2, 0)")
FOR_NOTHING = (
    "UPDATE meta SET version = 0",
    "DELETE FROM meta",
    "UPDATE meta SET instance = CAST(replace(instance, x'0D0A', x'0A') AS BLOB)",
    "INSERT INTO seat (exam, student, period, room, seat) VALUES (4, 1, 0, 1, 1)",
    "INSERT INTO share_student VALUES (9, 0, 0, 0); INSERT INTO night_share VALUES (9, 0)",
    "UPDATE slot SET period = 4 WHERE draft = 5 AND exam = 3",
    "INSERT INTO enrol (student, exam) VALUES (1000000000, 0)",
    "UPDATE draft SET in_day = 6 WHERE no = 3",
)
# Databases of others, each made by sqlite3 in a file of its own: none holds an office.
PEOPLE = "CREATE TABLE people (name TEXT); INSERT INTO people VALUES ('Ada'), ('Ben')"
FOREIGN = (
    PEOPLE,
    "CREATE TABLE people (name TEXT)",
    "CREATE TABLE people (name TEXT PRIMARY KEY) WITHOUT ROWID; INSERT INTO people VALUES ('Ada')",
    "CREATE TABLE people (no INTEGER PRIMARY KEY AUTOINCREMENT, name TEXT);"
    " INSERT INTO people (name) VALUES ('Ada')",
    "CREATE TABLE people (name TEXT UNIQUE, born INTEGER DEFAULT 0); INSERT INTO people"
    " VALUES ('Ada', 1815)",
    "CREATE TABLE people (name TEXT) STRICT; INSERT INTO people VALUES ('Ada')",
    "CREATE TABLE people (name TEXT, long INTEGER AS (length(name))); INSERT INTO people"
    " VALUES ('Ada')",
    f"{PEOPLE}; CREATE INDEX by_name ON people (name)",
    f"{PEOPLE}; CREATE VIEW names AS SELECT name FROM people",
    f"{PEOPLE}; CREATE TRIGGER forgets AFTER INSERT ON people BEGIN DELETE FROM people; END",
    f"{PEOPLE}; ANALYZE",
    f"{PEOPLE}; CREATE TABLE sessions (exam TEXT); CREATE TABLE rooms (name TEXT)",
    f"{PEOPLE}; PRAGMA user_version = 2",
    f"{PEOPLE}; PRAGMA application_id = 1",
    *(f"PRAGMA page_size = {size}; {PEOPLE}" for size in (512, 1024, 2048, 8192, 16384, 65536)),
    f"{PEOPLE}; CREATE UNIQUE INDEX by_name ON people (name COLLATE NOCASE)",
    f"{PEOPLE}; CREATE INDEX some ON people (name) WHERE name > 'B'",
    f"{PEOPLE}; CREATE INDEX by_length ON people (length(name))",
    f"{PEOPLE}; DELETE FROM people; VACUUM",
    f"{PEOPLE}; CREATE TABLE marks (of TEXT REFERENCES people (name), mark INTEGER"
    " CHECK (mark > 0)); INSERT INTO marks VALUES ('Ada', 1)",
    ";".join(f"CREATE TABLE t{number} (x INTEGER)" for number in range(200)),
    "CREATE TABLE wide (" + ", ".join(f"c{number} INTEGER" for number in range(300)) + ")",
    "CREATE TABLE people (name BLOB); INSERT INTO people VALUES (zeroblob(100000))",
    "CREATE TABLE people (name TEXT); WITH RECURSIVE n(no) AS (VALUES (0) UNION ALL"
    " SELECT no + 1 FROM n LIMIT 5000) INSERT INTO people SELECT no FROM n",
    "CREATE VIEW one AS SELECT 1",
    "CREATE TABLE meta (id INTEGER, version INTEGER); INSERT INTO meta VALUES (0, 2)",
    "CREATE TABLE owner (exam INTEGER NOT NULL PRIMARY KEY, dept INTEGER NOT NULL) STRICT",
    "CREATE TABLE draft (no INTEGER); CREATE TABLE slot (draft INTEGER); INSERT INTO draft"
    " VALUES (1)",
)
# Databases of others in forms that the program's library doesn't read.
UNREAD = (
    *(f"PRAGMA auto_vacuum = {kind}; {PEOPLE}" for kind in ("FULL", "INCREMENTAL")),
    *(f"PRAGMA encoding = 'UTF-16{order}'; {PEOPLE}" for order in ("le", "be")),
    "CREATE VIRTUAL TABLE notes USING fts5(text); INSERT INTO notes VALUES ('seen')",
)
# What makes of an office something that is none; and what mends one of them.
NO_MORE = (
    "ANALYZE",
    "CREATE VIEW one AS SELECT 1",
    "CREATE INDEX by_dept ON owner (dept)",
    "CREATE TRIGGER forgets AFTER INSERT ON owner BEGIN DELETE FROM owner; END",
    "ALTER TABLE owner ADD COLUMN since INTEGER",
    "ALTER TABLE owner RENAME TO owners",
)
MENDED = "ANALYZE; DROP TABLE sqlite_stat1"
EMPTY = ("owner", "draft", "slot", "placed", "seat", "share_student", "share_part", "batch",
         "night_draft", "night_share")


def ended(*words):
    """Returns how it ended: its status, standard output and standard error."""
    done = waiting.run(words, stdin=subprocess.DEVNULL, capture_output=True, timeout=SECONDS)
    return done.returncode, done.stdout, done.stderr


def dumped(office):
    """All that sqlite3 finds in a file, as statements; what it ends with besides is judged too."""
    return ended("sqlite3", str(office), ".dump")


def lines(*texts):
    return 0, "".join(f"{text}\n" for text in texts).encode(), b""


def statements(text):
    """The statements of a text, each with single spaces."""
    return [" ".join(part.split()) for part in text.split(";") if part.strip()]


def documented():
    """The statements on the page, in its blocks."""
    return statements("".join(re.findall(r"^```sql\n(.*?)^```$", TABLES.read_text(), re.M | re.S)))


def cases(program, folder):
    """Each case: its name, what is expected, and what came."""
    office, other = str(folder / "term.db"), str(folder / "other.db")
    load = program, "load", "--db"

    def asked(text):
        return ended("sqlite3", office, text)

    yield "a load", (0, LOADED, b""), ended(*load, office, str(SMALL))
    status, schema, errors = asked(".schema")
    yield "the tables", (0, documented(), b""), (status, statements(schema.decode()), errors)
    yield "the file is sound", lines("ok"), asked("PRAGMA integrity_check")
    yield "meta", lines("0|2|0"), asked("SELECT id, version, published FROM meta")
    text = "".join(f"{line}\r\n" for line in INSTANCE).encode()
    yield "the instance", lines(text.hex().upper()), asked("SELECT hex(instance) FROM meta")
    yield "enrol", lines(*PAIRS), asked("SELECT student, exam FROM enrol ORDER BY student, exam")
    for table in EMPTY:
        yield table, lines("0"), asked(f"SELECT count(*) FROM {table}")
    yield "a table of sqlite3", lines(), ended("sqlite3", other, "CREATE TABLE note (text TEXT)")
    yield "a load into it", (1, b"", b"examoffice: store fault 9\n"), ended(
        *load, other, str(SMALL))
    yield "what it held", lines("CREATE TABLE note (text TEXT);"), ended(
        "sqlite3", other, ".schema")


def found_or_refused(office, text, expected, load):
    """A change by sqlite3, what a load then ends with, and that this leaves the file as it was."""
    yield f"a change: {text}", lines(), ended("sqlite3", str(office), text)
    before = 0, dumped(office)[1], b""
    yield text, expected, ended(*load)
    yield f"the file after: {text}", before, dumped(office)


def changed(program, folder):
    """Each change of an office's database by sqlite3: what it is, what is expected, what came."""
    office = folder / "drafted.db"
    load = program, "load", "--db", str(office)
    ended(*load, str(SMALL))
    yield "an owner and a draft", lines(), ended("sqlite3", str(office), ";".join(DRAFTED))
    yield "an office with them", FOUND, ended(*load, str(SMALL))
    stored = office.read_bytes()
    for text, expected in CHANGES.items():
        office.write_bytes(stored)
        yield from found_or_refused(office, text, expected, (*load, str(SMALL)))
    office.write_bytes(stored)
    for text, expected in (("UPDATE owner SET dept = 1000", REFUSED),
                           ("UPDATE owner SET dept = 4", FOUND)):
        yield f"in one file: {text}", lines(), ended("sqlite3", str(office), text)
        yield f"in one file, then: {text}", expected, ended(*load, str(SMALL))


def published(program, folder):
    """Each change of a published office's database by sqlite3, likewise."""
    office = folder / "published.db"
    load, export = ((program, *words) for words in (("load", "--db", str(office), str(SMALL)),
                                                    ("export", "--db", str(office))))
    ended(*load)
    yield "no publication", NO_PUBLICATION, ended(*export)
    yield "a publication", lines(), ended("sqlite3", str(office), ";".join(PUBLISHED))
    yield "an office with it", FOUND, ended(*load)
    yield "an export", EXPORTED, ended(*export)
    status, _, _ = ended("sqlite3", str(office), "UPDATE seat SET seat = 1 WHERE student = 2")
    yield "a seat given twice, which the table refuses", True, status != 0
    stored = office.read_bytes()
    for text, expected in PUBLISHED_CHANGES.items():
        office.write_bytes(stored)
        yield from found_or_refused(office, text, expected, load)
        before = 0, dumped(office)[1], b""
        yield f"an export after: {text}", EXPORTED if expected == FOUND else REFUSED, ended(*export)
        yield f"the file after an export after: {text}", before, dumped(office)


def tables_that_stand_for_nothing(program, folder):
    """Each change of an office that has all kinds of rows, likewise."""
    office = folder / "whole.db"
    load = program, "load", "--db", str(office), str(SMALL)
    ended(*load)
    yield "two drafts and a publication", lines(), ended(
        "sqlite3", str(office), ";".join((*DRAFTED, *SECOND_DRAFT, *PUBLISHED)))
    yield "an office with all of them", FOUND, ended(*load)
    stored = office.read_bytes()
    for text in FOR_NOTHING:
        office.write_bytes(stored)
        yield from found_or_refused(office, text, REFUSED, load)


def commands_on(program, office):
    """The three commands on a database, each with its words."""
    return {"load": (program, "load", "--db", str(office), str(SMALL)),
            "serve": (program, "serve", "--db", str(office), "--port", "0", "--connections", "1"),
            "export": (program, "export", "--db", str(office))}


def left_alone(program, office, name, expected=REFUSED):
    """Each command, twice, on a database that holds no office, and that its rows stay."""
    before = dumped(office)
    for command, words in commands_on(program, office).items():
        for time in "first", "second":
            yield f"{name}: {command}, {time}", expected, ended(*words)
            yield f"{name}: after {command}, {time}", before, dumped(office)


def foreign(program, folder):
    """Databases of others, and offices that are none any more, by each command; an empty file."""
    for number, text in enumerate((*FOREIGN, *UNREAD)):
        office = folder / f"foreign{number}.db"
        yield f"made: {text}", lines(), ended("sqlite3", str(office), text)
        yield from left_alone(program, office, text, UNOPENED if text in UNREAD else REFUSED)
    office = folder / "no_more.db"
    ended(*commands_on(program, office)["load"])
    stored = office.read_bytes()
    for text in NO_MORE:
        office.write_bytes(stored)
        yield f"changed: {text}", lines(), ended("sqlite3", str(office), text)
        yield from left_alone(program, office, text)
    office.write_bytes(stored)
    yield f"changed: {MENDED}", lines(), ended("sqlite3", str(office), MENDED)
    yield MENDED, FOUND, ended(*commands_on(program, office)["load"])
    empty = folder / "empty.db"
    for command, expected in (("export", REFUSED), ("load", (0, LOADED, b""))):
        empty.write_bytes(b"")
        yield f"an empty file: {command}", expected, ended(*commands_on(program, empty)[command])
    damaged = folder / "damaged.db"
    ended("sqlite3", str(damaged), PEOPLE)
    bytes_of_others = damaged.read_bytes()[:4096] + bytes(4096)
    damaged.write_bytes(bytes_of_others)
    for command, words in commands_on(program, damaged).items():
        yield f"a damaged page: {command}", UNOPENED, ended(*words)
        yield f"a damaged page: after {command}", bytes_of_others, damaged.read_bytes()


def made_before(program, folder):
    """A file of an earlier release becomes version 2 of the same office, and is then left as it
    is."""
    office, wanted = folder / "before.db", folder / "wanted.db"
    new_tables = [text for text in documented() if text.startswith("CREATE TABLE night_")]
    for name, exported in BEFORE.items():
        before = (TOP / "tests" / "before" / f"{name}.sqlite").read_bytes()
        wanted.write_bytes(before)
        ended("sqlite3", str(wanted), ";".join((*new_tables, *FILLED)))
        for words in (("export", "--db", str(office)), ("load", "--db", str(office), str(SMALL))):
            office.write_bytes(before)
            for time in "first", "second":
                expected = exported if words[0] == "export" else FOUND
                yield f"before, {name}: {words[0]}, {time}", expected, ended(program, *words)
                yield f"before, {name}: after {words[0]}, {time}", dumped(wanted), dumped(office)
    office.write_bytes(before)
    server = run_serve.Office(program, office, connections=1)
    with server.connect() as client:
        penalty = run_serve.told(client, SHOWN[1])
    yield "before, published_twice: its penalty", reply_with(PENALTY_OF_SECOND), penalty
    yield "before, published_twice: the server's end", (0, b""), server.ended()
    yield "before, published_twice: after serving", dumped(wanted), dumped(office)
    for text in OF_NEITHER:
        office.write_bytes(before)
        yield from found_or_refused(office, text, REFUSED,
                                    (program, "load", "--db", str(office), str(SMALL)))


def main():
    if len(sys.argv) != 2:
        sys.exit("usage: run_sqlite3.py PROGRAM")
    program, judged = str(pathlib.Path(sys.argv[1]).resolve()), Cases("sqlite3")
    with tempfile.TemporaryDirectory() as folder:
        folder = pathlib.Path(folder)
        made = (*cases(program, folder), *changed(program, folder), *published(program, folder),
                *tables_that_stand_for_nothing(program, folder), *foreign(program, folder),
                *made_before(program, folder))
        for case in made:
            judged.judge(*case)
    sys.exit(judged.end())


if __name__ == "__main__":
    main()
