"""Writes a journal event by event, after docs/FORMAT.md: what a status or a log of any age shows is tried on it."""
import os
import time

import helper
import journal_format as book

SECOND, MINUTE, HOUR = 1000, 60_000, 3_600_000
EVERY = 10 * SECOND
OK, NOT_RUNNING = (book.DONE, 0), (book.DONE, 7)


class Written:
    """A journal of layout 2, epoch 1, that is written event by event. Ages are in milliseconds before it was begun; no event is before the
    one that was written last."""

    def __init__(self) -> None:
        self.now, self.last, self.calls, self.runs = time.time_ns() // 1_000_000, 0, 1, 1
        self.text = book.head()

    def add(self, word: str, age: int, **fields: object) -> None:
        self.last = max(self.last, self.now - age)
        self.text += book.record(book.event(word, self.last, **fields))

    def registers(self, name: str, age: int, provider: str = "test", kind: str = "Ends") -> None:
        self.add("register", age, id=name, provider=provider, type=kind, params={})

    def queues(self, name: str, action: int, age: int, expect: int = 0) -> int:
        """An accepted action; returns its call."""
        call, self.calls = self.calls, self.calls + 1
        self.add("exec", age, id=name, call=call, action=action, level=0, expect=expect, timeout=60 * SECOND)
        return call

    def recurs(self, name: str, age: int, interval: int = EVERY) -> int:
        call, self.calls = self.calls, self.calls + 1
        self.add("recur", age, id=name, call=call, interval=interval, timeout=20 * SECOND, level=0, expect=0)
        return call

    def begins(self, name: str, call: int, age: int) -> int:
        run, self.runs = self.runs, self.runs + 1
        self.add("begin", age, id=name, call=call, run=run)
        return run

    def runs_once(self, name: str, call: int, age: int, outcome: tuple[int, int] = OK) -> None:
        """A run of a call, of 100 ms, which ended at this age."""
        run = self.begins(name, call, age + 100)
        self.add("result", age, id=name, run=run, outcome=outcome)

    def does(self, name: str, action: int, age: int, outcome: tuple[int, int] = OK, expect: int = 0) -> int:
        """A whole action that ended at this age; returns its call."""
        call = self.queues(name, action, age + 200, expect)
        self.runs_once(name, call, age, outcome)
        return call

    def monitored(self, name: str, call: int, first: int, last: int, step: int = EVERY) -> None:
        """Good results of a recurring monitor, from one age down to another."""
        for age in range(first, last - 1, -step):
            self.runs_once(name, call, age)

    def save(self, folder: str) -> None:
        """Makes this the journal of a directory."""
        keep(folder, self.text + book.CLOSED, b"")


def keep(folder: str, *parts: bytes) -> None:
    """Makes a journal of these parts."""
    for name, text in zip(helper.PARTS, parts):
        path = os.path.join(folder, name)
        with open(path, "wb") as part:
            part.write(text)
        os.chmod(path, 0o600)
