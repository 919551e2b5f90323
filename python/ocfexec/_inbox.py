"""The results that have come, and what was seen of the journal that they are of."""
from __future__ import annotations

import collections
from typing import Counter, Deque, Dict, Iterable, Optional, Tuple

from ._values import Ready, Result

REPORTED = ("interrupted", "dropped")  # outcomes that only an opening reports


class Inbox:
    """The results that have come and were not taken yet, oldest first. Each result of a journal comes once, whichever line or history has
    it: a resource runs one action at a time, so one of a later run is new, and a dropped one of a later call."""

    def __init__(self) -> None:
        self._results: Dict[Tuple[int, int], Result] = {}
        self._arriving: Dict[Tuple[int, int], Result] = {}  # during an opening: after what its histories have
        self._older: Deque[Result] = collections.deque()  # of earlier journals
        self._delivered: Dict[str, Tuple[int, int]] = {}  # by resource: the last run, and the last call that was dropped
        self._reserved: Counter[int] = collections.Counter()  # calls whose results are waited for, or will be
        self.is_opening = False

    def add(self, result: Result) -> None:
        if self.is_new(result):
            (self._arriving if self.is_opening else self._results)[result.call, result.run] = result
            if not self.is_opening:
                self._mark(result)

    def opened(self, results: Iterable[Result], is_first: bool) -> None:
        """Adds the new results of histories. At the first opening of a journal these are of another program, and are not delivered. No line
        reports withdrawn actions."""
        for result in results:
            if (result.call, result.run) not in self._arriving and result.outcome != "cancelled" and self.is_new(result):
                self._mark(result)
                if not is_first:
                    self._results[result.call, result.run] = result
        self.arrived()

    def arrived(self) -> None:
        """Ends an opening."""
        for result in self._arriving.values():
            self._mark(result)
        self._results.update(self._arriving)
        self._arriving, self.is_opening = {}, False

    def renew(self) -> None:
        """Goes on with another journal, whose numbers begin again. Results that were not taken stay, but not for `take_call`."""
        self._older.extend(self._results.values())
        self._results.clear()
        self._delivered.clear()

    def is_new(self, result: Result) -> bool:
        """Whether no result of this run, or of this dropped call, was delivered."""
        run, dropped = self._delivered.get(result.id, (0, 0))
        return result.run > run if result.run else result.call > dropped

    def _mark(self, result: Result) -> None:
        run, dropped = self._delivered.get(result.id, (0, 0))
        self._delivered[result.id] = (max(run, result.run), dropped if result.run else max(dropped, result.call))

    def reserve(self, call: int) -> None:
        """Keeps the results of a call for `take_call`."""
        self._reserved[call] += 1

    def release(self, call: int) -> None:
        self._reserved[call] -= 1
        if self._reserved[call] <= 0:
            del self._reserved[call]

    def _oldest(self) -> Optional[Tuple[int, int]]:
        return next((key for key in self._results if key[0] not in self._reserved), None)

    def has_result(self) -> bool:
        """Whether `take` finds a result."""
        return bool(self._older) or self._oldest() is not None

    def take(self) -> Optional[Result]:
        """The oldest result that is not reserved."""
        if self._older:
            return self._older.popleft()
        key = self._oldest()
        return None if key is None else self._results.pop(key)

    def take_call(self, call: int) -> Optional[Result]:
        """The oldest result of this call."""
        key = next((key for key in self._results if key[0] == call), None)
        return None if key is None else self._results.pop(key)


class Seen:
    """What was seen of the journal: its identity, the call after all calls, and the last run, now and before the last opening."""

    def __init__(self) -> None:
        self.identity: Optional[str] = None  # empty with --memory, and None if it is not known
        self.next_call, self.last_run, self.before = 1, 0, 0

    def open(self, ready: Ready) -> None:
        """Notes an opening, which is of this journal."""
        self.identity = ready.identity if ready.journal is not None else ""
        self.next_call, self.before = max(self.next_call, ready.next_call or 1), self.last_run

    def call(self, call: int) -> None:
        self.next_call = max(self.next_call, call + 1)

    def result(self, result: Result) -> None:
        self.call(result.call)
        self.last_run = max(self.last_run, result.run)

    def renew(self) -> None:
        """Goes on with another journal."""
        self.next_call, self.last_run, self.before = 1, 0, 0

    def difference(self, ready: Ready) -> Optional[str]:
        """Why an opening is not of this journal as it was, in a sentence; None if it is, as the first one. An older program tells only that
        it keeps no journal."""
        if self.identity is not None and ready.journal is None:
            return "the program keeps no journal: calls and runs begin again at 1"
        if None not in (self.identity, ready.identity) and ready.identity != self.identity:
            return f"the journal is another one, {ready.identity}: its calls and runs are others"
        if ready.next_call is not None and ready.next_call < self.next_call:
            return f"the journal is an older copy: its next call is {ready.next_call}, after {self.next_call}"
        return None
