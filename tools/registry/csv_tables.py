"""Tables in CSV files, as spreadsheets and student systems write them."""
from __future__ import annotations

import csv
import dataclasses
import gzip
import io
import pathlib
import re
import unicodedata
import zlib
from collections.abc import Iterable, Mapping, Sequence

from .rights import as_caller

MOST_BYTES = 64 * 1024 * 1024
MOST_NUMBER = 100_000
MOST_LINES_PRINTED = 50
SEPARATORS = ",;\t"
# A text that is written as a formula, so that a spreadsheet leaves its zeros.
FORMULA = re.compile('^="([^"]*)"$')
SAID = re.compile('"?sep=([,;\t])"?')
PACKED, ZIPPED = b"\x1f\x8b", b"PK\x03\x04"
# What nobody sees: marks that change the direction of the text around them, so that a name reads as
# another one, marks without a width, with which two IDs look alike, and control characters.
UNSEEN = re.compile("[\u061c\u200e\u200f\u202a-\u202e\u2066-\u2069\u00ad\u200b\u2060\ufeff"
                    "\x00-\x08\x0b\x0c\x0e-\x1f\x7f-\x9f]")
# What a spreadsheet makes of a long number, or of one that it adds up with.
ROUNDED = re.compile(r"[0-9]+([.,][0-9]+)?[Ee][+-][0-9]+|[0-9]+[.,]0+")
# Signs without a shape that an ID can't have, though a name may need them.
SHAPELESS = re.compile("[\u034f\u115f\u1160\u17b4\u17b5\u180b-\u180f\u200b-\u200f\u2028-\u202f"
                       "\u205f-\u206f\u3164\ufe00-\ufe0f\ufeff\uffa0\ufff0-\ufffd"
                       "\U000e0000-\U000e0fff]")


@dataclasses.dataclass(frozen=True)
class Fault:
    """What is wrong at a place of a file."""

    file: str
    line: int | None
    column: str | None
    words: str

    def __str__(self) -> str:
        return "".join([self.file, f", line {self.line}" if self.line else "",
                        f", {self.column}" if self.column else "", f": {self.words}"])


class Faults:
    """The faults found so far, as lines, and those of them that have a place."""

    def __init__(self) -> None:
        self.lines: list[str] = []
        self.placed: list[Fault] = []

    def add(self, file: str, line: int | None, column: str | None, words: str) -> None:
        self.placed.append(Fault(file, line, column, words))
        self.lines.append(f"{self.placed[-1]}")

    def are_of(self, file: str) -> bool:
        return any(re.match(f"{re.escape(file)}[,:]", line) for line in self.lines)


def first_lines(lines: list[str], what: str) -> list[str]:
    """The first lines of a long list, and how many it has in all."""
    if len(lines) <= MOST_LINES_PRINTED:
        return lines
    return [*lines[:MOST_LINES_PRINTED],
            f"and {len(lines) - MOST_LINES_PRINTED:,} more: {len(lines):,} {what} in all"]


def without_zeros(text: str) -> str:
    """A number without its leading zeros; any other text as it is."""
    return text.lstrip("0") or "0" if text.isascii() and text.isdigit() else text


class Known:
    """The numbers of IDs or codes. One of digits that lost its leading zeros is found if exactly
    one is equal without them; `mended` has what was found so."""

    def __init__(self, numbers: Mapping[str, int]) -> None:
        self.numbers = numbers
        self.mended: set[str] = set()
        self.alike: dict[str, list[str]] = {}
        for text in numbers:
            if text.isascii() and text.isdigit():
                self.alike.setdefault(without_zeros(text), []).append(text)

    def readings(self, text: str) -> list[str]:
        """Returns the IDs or codes that a text may mean, if it is none of them."""
        return [] if text in self.numbers else self.alike.get(without_zeros(text), [])

    def text(self, text: str) -> str | None:
        """The ID or code that a text means, or None."""
        if text in self.numbers:
            return text
        alike = self.alike.get(without_zeros(text), [])
        if len(alike) == 1 and (text[:1] != "0" or alike[0][:1] != "0"):
            self.mended.add(text)
            return alike[0]
        return None

    def number(self, text: str) -> int | None:
        known = self.text(text)
        return None if known is None else self.numbers[known]


@dataclasses.dataclass(frozen=True)
class Column:
    """A column of a table: its name, and what else spreadsheets call it."""

    name: str
    others: tuple[str, ...] = ()
    is_needed: bool = True

    def headers(self) -> set[str]:
        return {plain(header) for header in (self.name, *self.others)}


def plain(header: str) -> str:
    """A header without case, blanks and signs."""
    return "".join(sign for sign in header.casefold() if sign.isalnum())


class Row:
    """A line of a table: its fields by column."""

    def __init__(self, file: str, line: int, fields: Mapping[str, str], faults: Faults) -> None:
        self.file, self.line, self.fields, self.faults = file, line, fields, faults

    def fault(self, column: str, words: str) -> None:
        self.faults.add(self.file, self.line, column, words)

    def get(self, column: str) -> str:
        return self.fields.get(column, "")

    def text(self, column: str) -> str:
        """The field, which must not be empty."""
        value = self.one_line(column)
        if not value:
            self.fault(column, "the field is empty")
        return value

    def one_line(self, column: str) -> str:
        """A text for people, which may be empty, with single blanks."""
        value = self.get(column)
        if value.isascii() and value.isprintable() and "  " not in value:
            return value
        mark = UNSEEN.search(value)
        if mark:
            self.fault(column, f"{value!r} has a mark that nobody sees, such as one of direction "
                               f"(U+{ord(mark[0]):04X})")
        return " ".join(value.split())

    def id(self, column: str) -> str | None:
        """Returns the field as an ID or a code, in which each sign can be seen; or None."""
        before, value = len(self.faults.lines), self.text(column)
        shapeless = None if value.isascii() else SHAPELESS.search(value)
        if shapeless and len(self.faults.lines) == before:
            self.fault(column, f"{value!r} has a sign that nobody sees "
                               f"(U+{ord(shapeless[0]):04X})")
        return value if len(self.faults.lines) == before else None

    def number(self, column: str, most: int = MOST_NUMBER, least: int = 0,
               default: int | None = None) -> int | None:
        """The field as a whole number in its limits, or None; the default if the field is empty."""
        value = self.get(column)
        if not value and default is not None:
            return default
        found = re.fullmatch(r"([0-9]{1,9})(?:\.0+)?", value)
        if found and least <= int(found[1]) <= most:
            return int(found[1])
        self.fault(column, f"a whole number from {least} to {most} is expected, not {value!r}")
        return None

    def new(self, column: str, seen: dict[str, int]) -> str:
        """The field, which no earlier line may have."""
        value = self.text(column)
        if value in seen:
            self.fault(column, f"{value!r} is on line {seen[value]} already")
        elif value:
            seen[value] = self.line
        return value


def folded(content: bytes) -> tuple[str, str] | int:
    """A file's text and its encoding, or the line at which it can't be read."""
    if content[:2] in (b"\xff\xfe", b"\xfe\xff"):
        encodings = ["utf-16"]
    elif content[:200].count(b"\0") > len(content[:200]) // 4:
        encodings = ["utf-16-be" if content[:1] == b"\0" else "utf-16-le"]
    else:
        encodings = ["utf-8-sig"]
    try:
        return unicodedata.normalize("NFC", content.decode(encodings[0])), encodings[0]
    except UnicodeDecodeError as fault:
        if encodings[0] != "utf-8-sig":
            return content[:fault.start].decode(encodings[0], "replace").count("\n") + 1
        line = content[:fault.start].count(b"\n") + 1
    # Latin-1 has no letters of UTF-8; a file with both is damaged, or put together of two.
    if not content.decode("utf-8", "ignore").isascii():
        return line
    try:
        return unicodedata.normalize("NFC", content.decode("cp1252")), "Latin-1"
    except UnicodeDecodeError as fault:
        return content[:fault.start].count(b"\n") + 1


def content_at(path: pathlib.Path, name: str, faults: Faults) -> bytes | None:
    """Returns the bytes of a file that the caller may read, or None."""
    try:
        with as_caller():
            opened = path.open("rb")
        with opened as file:
            return file.read(MOST_BYTES + 1)
    except OSError as fault:
        faults.add(name, None, None, f"cannot be read: {fault.strerror or fault}")
        return None


def unpacked(content: bytes, name: str, faults: Faults) -> bytes | None:
    """Returns what is in the bytes of a file, which may be compressed, or None."""
    try:
        if content.startswith(PACKED):
            content = gzip.GzipFile(fileobj=io.BytesIO(content)).read(MOST_BYTES + 1)
    except (OSError, EOFError, zlib.error) as fault:
        faults.add(name, None, None, f"cannot be read: {fault}")
        return None
    if len(content) > MOST_BYTES:
        faults.add(name, None, None, "cannot be read: it has more than "
                                     f"{MOST_BYTES // 1024 // 1024} MB")
        return None
    return content


def text_of(packed: bytes, file: str, faults: Faults) -> tuple[str, str] | None:
    """The text of a CSV file and its encoding, or None."""
    content = unpacked(packed, file, faults)
    if content is None:
        return None
    if content.startswith(ZIPPED):
        faults.add(file, None, None, "this is a workbook of a spreadsheet, or another ZIP file; "
                                     "save the sheet as CSV UTF-8")
        return None
    found = folded(content)
    if isinstance(found, int):
        faults.add(file, found, None, "this is neither UTF-8 nor Latin-1 nor UTF-16 text; save the "
                                      "file as CSV UTF-8")
        return None
    return found


class Wanted:
    """The headers that a caller names for columns, as COLUMN=HEADER or FILE.COLUMN=HEADER."""

    def __init__(self, words: Sequence[str] = ()) -> None:
        self.words = [word.partition("=")[::2] for word in words]
        self.seen: set[str] = set()

    def headers(self, file: str, column: str) -> set[str]:
        """What a column of this file is called."""
        names = (column, f"{file.partition('.')[0]}.{column}")
        found = [header for name, header in self.words if name in names]
        return {plain(header) for header in found}

    def note(self, header: Iterable[str]) -> None:
        """Notes which headers a file has."""
        self.seen |= {plain(name) for name in header}

    def faults(self) -> list[str]:
        """The words that name no column and no header."""
        return [f"--column {name}={header}: no file has such a column"
                for name, header in self.words if not header or plain(header) not in self.seen]


@dataclasses.dataclass
class Table:
    """The rows of a CSV file without its empty lines, how it is encoded, and whether its last line
    ends."""

    rows: list[Row]
    encoding: str = ""
    ends: bool = True


def columns_in(file: str, header: list[str], columns: Iterable[Column], wanted: Wanted,
               faults: Faults) -> dict[str, int]:
    """The place of each column in a header."""
    places: dict[str, int] = {}
    names = ", ".join(name for name in header if name)
    for column in columns:
        for headers in (wanted.headers(file, column.name), {plain(column.name)}, column.headers()):
            found = [place for place, name in enumerate(header) if plain(name) in headers]
            if found:
                break
        if len(found) > 1:
            which = " and ".join(header[place] for place in found)
            faults.add(file, 1, column.name, f"there are two such columns: {which}")
        elif found:
            places[column.name] = found[0]
        elif column.is_needed:
            faults.add(file, 1, column.name, f"this column is missing (there are: {names})")
    return places


def table_in(path: pathlib.Path, file: str, columns: Iterable[Column], wanted: Wanted,
             faults: Faults) -> Table:
    """The table of a CSV file, which may be compressed."""
    content = content_at(path, file, faults)
    return Table([]) if content is None else table_of(content, file, columns, wanted, faults)


def separator_in(text: str) -> str:
    """Returns what separates the fields: what a first line of a spreadsheet such as `sep=;` says,
    else what the first line has most of."""
    first = re.split(r"[\r\n]", text, maxsplit=1)[0]
    said = SAID.fullmatch(first.strip())
    return said[1] if said else max(SEPARATORS, key=first.count)


def table_of(content: bytes, file: str, columns: Iterable[Column], wanted: Wanted,
             faults: Faults) -> Table:
    """The table in the bytes of a CSV file. With a fault in its header no row is read."""
    found = text_of(content, file, faults)
    if found is None:
        return Table([])
    text, encoding = found
    lines = csv.reader(io.StringIO(text, newline=""), strict=True, delimiter=separator_in(text))
    rows: list[Row] = []
    try:
        if SAID.fullmatch(re.split(r"[\r\n]", text, maxsplit=1)[0].strip()):
            next(lines)
        header = [" ".join(name.split()) for name in next(lines, [])]
        wanted.note(header)
        places = columns_in(file, header, columns, wanted, faults).items()
        if faults.are_of(file):
            return Table([], encoding)
        has_formulas = '="' in text
        for fields in lines:
            if has_formulas:
                fields = [FORMULA.sub(r"\1", field.strip()) for field in fields]
            named = {name: fields[place].strip() for name, place in places if place < len(fields)}
            if any(named.values()) or any(field.strip() for field in fields):
                rows.append(Row(file, lines.line_num, named, faults))
    except csv.Error as fault:
        faults.add(file, lines.line_num, None, f"this is not CSV: {fault}")
    return Table(rows, encoding, text.endswith(("\n", "\r")))
