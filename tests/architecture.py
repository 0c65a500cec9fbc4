#!/usr/bin/env python3
"""The invariants of the architecture that docs/ARCHITECTURE.md states, compared with the crates.

The libraries of a crate are read from crates.txt, what it names from the `use` lines of its
sources, definitions and proofs. The list of the crates has to have the order of crates.txt.
Prints a line for each failure; status 1 if there is one.
"""

import re
import sys

from cases import Cases
from sources import TOP, files_of, imported, listed, statements, without_comments

# Who may know SQL: its grammar and its meaning, and the texts of statements.
SQL_CRATES = {"office_schema", "office_tables"}
SQL_LIBRARIES = {
    "sqlite_sql", "sqlite_items", "sqlite_rules", "sqlite_catalog", "sqlite_resolve", "sqlite_tied",
}
# Who may name a connection, a store, a database and its values besides.
SQLITE_NAMERS = SQL_CRATES | {
    "office_records", "office_store", "office_desk", "office_http", "office_database",
    "office_program",
    "worked_offices",
    "worked_runs",
}

STATEMENT = re.compile(
    r'"\s*(SELECT|INSERT INTO|DELETE FROM|UPDATE|CREATE TABLE|CREATE INDEX|DROP|PRAGMA)\s'
)
DEVICES = re.compile(r"\bstd::(fs|io|net|env|process)\b|\bRattle\.std\.specs\.Io\b")
GHOST_USE = re.compile(r"\buse\s+(?:path\s+)?Rattle\.([a-z][a-z0-9_]*)")
# Arithmetic that wraps, and a shift that may drop bits: the prover asks of neither that nothing is
# lost.
WRAPS = re.compile(r"\b(?:wrapping|overflowing|unchecked)_[a-z]+\b"
                   r"|\b(?!1(?:u32|u64|usize)?\b)[\w)\]]+ <<=? [\w(]")
# The one shift whose contract says which bits are dropped.
SAID_SHIFT = ("office_files", "    word << (56 - 8 * count) << 8 ")
# What makes a statement one on lists, or on values that may be missing.
OF_LISTS = {"List", "Option", "Result", "Ordering", "IsPermutation", "∷", "++", "map"}
# It is one on a number's digits, or on a stream, if it names one of these.
OF_TEXTS = {"decimal", "padded_integral", "AllBelowBase", "number_l", "Consumes"}
# The pages that know the rows with amounts over night, which are in two tables each.
OF_NIGHTS = {"src/joined_share.rt", "specs/Adopting.antt", "specs/TablesHeld.antt"}
NIGHT_ROWS = {"DraftRow", "StudentShareRow"}
CODE_USE = re.compile(r"^\s*(?:pub(?:\([a-z]+\))?\s+)?use\s+([a-z][a-z0-9_]*)", re.M)


def texts_of(crate):
    """The text of each file of a crate, without comments."""
    return [(path, without_comments(path)) for path in files_of(crate)]


def named(crate, libraries):
    """The libraries that the `use` lines of a crate name, each with a file that does."""
    found = {}
    for path, text in texts_of(crate):
        names = set(GHOST_USE.findall(text))
        if path.suffix == ".rt":
            names |= set(CODE_USE.findall(text))
        for name in names & libraries:
            found.setdefault(name, path.relative_to(TOP))
    found.pop(crate, None)
    return found


def lines_with(crate, pattern):
    """The places of a crate's code that hold the pattern."""
    for path, text in texts_of(crate):
        for number, line in enumerate(text.splitlines(), 1):
            if pattern.search(line):
                yield f"{path.relative_to(TOP)}:{number}"


def is_session(crate):
    return crate.startswith("exam_")


def is_test(crate):
    return crate.startswith("worked_")


def session_knows_no_file_and_no_database(crates, knows):
    """An exam_ crate uses only exam_ crates, except for dates, and names no device."""
    for crate in filter(is_session, crates):
        for name, where in knows[crate].items():
            if not is_session(name) and name not in ("jiff", "jiff_core", "std"):
                yield f"{crate} knows {name} ({where})"
        for place in lines_with(crate, DEVICES):
            yield f"{crate} names a device of std ({place})"


def only_the_calendar_loads_jiff(crates, knows):
    """A crate that names jiff loads all of its statements. A test may compute a date by the
    definitions of jiff_core, which are few."""
    for crate in crates:
        if crate != "exam_calendar":
            hidden = {"jiff"} if is_test(crate) else {"jiff", "jiff_core"}
            for name in sorted(hidden & set(knows[crate])):
                yield f"{crate} knows {name} ({knows[crate][name]})"


def sql_is_known_below(crates, knows):
    """SQL is known by the crates of the schema and the statements, SQLite by those of the
    office."""
    for crate in crates:
        if crate in SQL_CRATES:
            continue
        for name, where in knows[crate].items():
            if name in SQL_LIBRARIES:
                yield f"{crate} knows {name}, a library of SQL ({where})"
            elif name.startswith("sqlite") and crate not in SQLITE_NAMERS:
                yield f"{crate} knows {name} ({where})"
        if not is_test(crate):
            for place in lines_with(crate, STATEMENT):
                yield f"{crate} holds the text of a statement ({place})"


def messages_know_no_route(crates, knows):
    """office_messages uses no crate of the repository but the lemmas about lists and the texts that
    are written, and no router."""
    below = "exam_lists", "office_output"
    for name, where in knows["office_messages"].items():
        if name in crates and name not in below or name in ("matchit", "serde_json"):
            yield f"office_messages knows {name} ({where})"


def main_knows_the_program_alone(crates, knows):
    """`main` only calls a library."""
    for name, where in knows["examoffice"].items():
        if name not in ("office_program", "std"):
            yield f"examoffice knows {name} ({where})"


def no_arithmetic_wraps(crates, knows):
    """Code has no arithmetic that wraps or drops bits, but for one shift that its contract
    describes."""
    for crate in crates:
        for path, text in texts_of(crate):
            if path.suffix != ".rt":
                continue
            for number, line in enumerate(text.splitlines(), 1):
                if WRAPS.search(line) and (crate, line) != SAID_SHIFT:
                    yield f"{path.relative_to(TOP)}:{number} may wrap or drop bits"


def lemmas_of_lists_have_one_home(crates, knows):
    """A lemma on lists or on values that may be missing, in std's words, is one of exam_lists."""
    for crate in crates:
        for path in files_of(crate, ["proofs"]) if crate != "exam_lists" else ():
            text = without_comments(path)
            stated = list(statements(text))
            foreign = imported(text, r"Rattle\.(?!(?:std|core|exam_lists)\b)")
            for name, is_lemma, words in stated:
                own = {part for other, *_ in stated if other != name
                       for part in other.replace("◌", " ").split()}
                if (is_lemma and words & {"→", "≡"} and words & OF_LISTS
                        and not words & (OF_TEXTS | foreign | own)):
                    yield f"{path.relative_to(TOP)}: {name} names no word but std's"


def a_table_has_four_files(crates, knows):
    """The type of a table's rows is named in the table's own file and page, and in those of all
    tables; if it has amounts over night, also where its two tables are joined."""
    top = TOP / "crates" / "office_tables"
    texts = {path.relative_to(top).as_posix(): without_comments(path)
             for path in files_of("office_tables", ["src", "specs"])}
    for own in [name for name in texts if name.startswith("src/tables/")]:
        for row in re.findall(r"^pub struct (\w+Row)\b", texts[own], re.M):
            naming = {name for name, text in texts.items() if re.search(rf"\b{row}\b", text)}
            naming -= OF_NIGHTS if row in NIGHT_ROWS else set()
            pages = {name for name in naming if name.startswith("specs/Tables/")}
            for name in sorted(naming - pages - {own, "src/tables.rt", "specs/Tables.antt"}):
                yield f"crates/office_tables/{name} names {row}"
            if len(pages) > 1:
                yield f"{row} is named in {len(pages)} pages of specs/Tables/"


# What a machine is made of if it is the system's.
SYSTEM = re.compile(r"^impl (\w+) for (?:&?HostRuntime|Stderr|Stdin|File|Sockets|TcpStream"
                    r"|SystemDatabases<'_>) \{$(.*?)^\}$", re.M | re.S)


def what_is_taken_at_its_word_is_listed(crates, knows):
    """docs/PROMISES.md names each method of the system's parts."""
    page = (TOP / "docs" / "PROMISES.md").read_text()
    listed_there = page.split("## What no contract says\n")[1].split("\n## ")[0]
    for crate in ("office_connections", "office_program"):
        for path in sorted(TOP.glob(f"crates/{crate}/src/**/*.rt")):
            for trait, body in SYSTEM.findall(path.read_text()):
                for name in re.findall(r"^    fn (\w+)", body, re.M):
                    if f"`{name}`" not in listed_there:
                        yield f"docs/PROMISES.md says nothing of {name} of {trait}"


INVARIANTS = [
    session_knows_no_file_and_no_database,
    only_the_calendar_loads_jiff,
    sql_is_known_below,
    messages_know_no_route,
    main_knows_the_program_alone,
    what_is_taken_at_its_word_is_listed,
    no_arithmetic_wraps,
    lemmas_of_lists_have_one_home,
    a_table_has_four_files,
]


def drawn(page, crates):
    """The crates of the list under the drawing of ARCHITECTURE, in their order."""
    rows = re.findall(r"^\| `([a-z0-9_]+)` \| [^|]*\| (?:meaning|gate)", page.read_text(), re.M)
    return [name for name in rows if name in crates]


def disorder(where, found, crates):
    """Yields what is missing in a list of crates, or out of the order of crates.txt."""
    for name in crates:
        if name not in found:
            yield f"{where} has no {name}"
    order = [name for name in crates if name in found]
    for name, other in zip(found, order):
        if name != other:
            yield f"{where} has {name} where crates.txt has {other}"
            return
    if len(found) != len(order):
        yield f"{where} has a crate twice"


def stands_above(crates):
    """A crate of the repository is listed before those that use it."""
    before = set()
    for crate, libraries in crates.items():
        for name in sorted(set(libraries) & set(crates) - before):
            yield f"crates.txt lists {crate} before {name}, which it uses"
        before.add(crate)


def main():
    crates = listed()
    libraries = set(crates).union(*crates.values()) | {"jiff", "jiff_core", "matchit", "serde_json"}
    libraries |= SQL_LIBRARIES | {"sqlite"}
    knows = {}
    for crate, stands_on in crates.items():
        knows[crate] = {name: "crates.txt" for name in sorted(stands_on)}
        for name, where in named(crate, libraries).items():
            knows[crate].setdefault(name, where)
    judged = Cases("architecture")
    for invariant in INVARIANTS:
        judged.add(1, [f"{invariant.__name__}: {fault}" for fault in invariant(crates, knows)])
    page = TOP / "docs" / "ARCHITECTURE.md"
    faults = (*stands_above(crates),
              *disorder("the list of docs/ARCHITECTURE.md", drawn(page, crates), crates))
    judged.add(1, [f"order: {fault}" for fault in faults])
    return judged.end("invariants, the order of the crates among them")


sys.exit(main())
