"""The log beside an office's file, as its bytes say it: whether a frame is bad although a later
transaction follows. That is no torn end of a power loss, and whoever opens the file would serve
what it was before that frame, without a word."""
from __future__ import annotations

import dataclasses
import pathlib
import struct
from collections.abc import Iterator

HEADER, FRAME = 32, 24
# The first word of a log: checksums of little-endian or of big-endian words.
ORDERS = {0x377F0682: "<", 0x377F0683: ">"}
SIZES = {512 << power for power in range(8)}
MASK = 0xFFFFFFFF
Sum = tuple[int, int]


@dataclasses.dataclass(frozen=True)
class Frame:
    """A frame of a log, with what its header says."""

    salts: bytes
    is_commit: bool
    # Whether its checksum follows from that of the frame before, as that frame has it.
    is_good: bool


def sum_of(content: bytes | memoryview, order: str, before: Sum) -> Sum:
    """Returns the checksum of some words after another checksum."""
    first, second = before
    for one, other in struct.iter_unpack(f"{order}II", content):
        first = (first + one + second) & MASK
        second = (second + other + first) & MASK
    return first, second


def frames_in(log: bytes) -> Iterator[Frame]:
    """Returns the whole frames of a log, in order. If its first word or its size of pages is no
    log's, they are read as most logs have them."""
    magic, _, size = struct.unpack_from(">III", log)
    order, size = ORDERS.get(magic, "<"), size if size in SIZES else 4096
    one, other = struct.unpack_from(">II", log, 24)
    before = one, other
    for place in range(HEADER, len(log) - FRAME - size + 1, FRAME + size):
        frame = memoryview(log)[place:place + FRAME + size]
        one, other = struct.unpack_from(">II", frame, 16)
        words = bytes(frame[:8]) + bytes(frame[FRAME:])
        yield Frame(bytes(frame[8:16]), frame[4:8] != b"\0\0\0\0",
                    sum_of(words, order, before) == (one, other))
        before = one, other


def is_header_good(log: bytes) -> bool:
    magic, version, size = struct.unpack_from(">III", log)
    return magic in ORDERS and version == 3_007_000 and size in SIZES and sum_of(
        log[:24], ORDERS[magic], (0, 0)) == struct.unpack_from(">II", log, 24)


def fault_in(log: bytes) -> str | None:
    """Returns why a log isn't as it was written. After its first bad frame a good one that ends a
    transaction, and one more good one after that, are of a later transaction: that was begun only
    when the one before was on the disk."""
    if len(log) < HEADER:
        return None
    frames = [*frames_in(log)]
    # Where the header is bad, frames are judged by each other.
    salts = log[16:24] if is_header_good(log) else None
    good = [frame.is_good and frame.salts == (salts or frame.salts) for frame in frames]
    bad = 0 if salts is None else next(
        (place for place, is_good in enumerate(good) if not is_good), len(frames))
    for place in range(bad if salts is None else bad + 1, len(frames) - 1):
        if (good[place] and good[place + 1] and frames[place].is_commit
                and frames[place].salts == frames[place + 1].salts):
            where = "its header" if salts is None else f"its frame {bad + 1}"
            return (f"{where} is damaged, and changes that were answered follow in frame "
                    f"{place + 1} and later")
    return None


def has_changes(log: bytes) -> bool:
    """Returns whether a log has a whole transaction."""
    if len(log) < HEADER or not is_header_good(log):
        return False
    for frame in frames_in(log):
        if not frame.is_good or frame.salts != log[16:24]:
            return False
        if frame.is_commit:
            return True
    return False


def bytes_of(path: pathlib.Path) -> bytes:
    """Returns the bytes of a file, none if it isn't there."""
    return path.read_bytes() if path.exists() else b""


def faults_of_log(database: pathlib.Path) -> list[str]:
    """Returns why an office's file and the log beside it must not be opened."""
    log = database.with_name(f"{database.name}-wal")
    content = bytes_of(log)
    if has_changes(content) and (not database.exists() or not database.stat().st_size):
        return [f"{database} is empty, and {log} has changes of it: opened so, all of them would "
                "be thrown away"]
    fault = fault_in(content)
    return [f"{log}: {fault}: opened so, the office would be an earlier one"] if fault else []
