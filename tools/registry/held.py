"""Work that a page waits for: it is answered within some seconds, or asked for again."""
from __future__ import annotations

import concurrent.futures
import itertools
from collections.abc import Callable
from typing import Any

MOST_ASKED = 8


class Held:
    """Work for sessions, one after another, that is asked for by a number."""

    def __init__(self, seconds: float) -> None:
        self.seconds = seconds
        self.worker = concurrent.futures.ThreadPoolExecutor(1)
        self.asked: dict[tuple[str, int], concurrent.futures.Future[dict[str, Any]]] = {}
        self.numbers = itertools.count(1)

    def begin(self, session: str, work: Callable[..., dict[str, Any]], *words: Any) -> int:
        """Begins work for a session; returns its number."""
        number = next(self.numbers)
        self.asked[session, number] = self.worker.submit(work, *words)
        for old in [one for one in self.asked if one[1] <= number - MOST_ASKED]:
            self.asked.pop(old, None)
        return number

    def came_of(self, session: str, number: int) -> dict[str, Any] | None:
        """Returns what came of work, or that it goes on; None if nobody asked for it. What it
        raised is raised."""
        work = self.asked.get((session, number))
        if work is None:
            return None
        concurrent.futures.wait([work], self.seconds)
        return work.result() if work.done() else {"working": number}
