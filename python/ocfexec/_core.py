"""What both executors share: the state of one program after another, and each result once."""
from __future__ import annotations

import logging
import time
from typing import Any, Callable, Container, Dict, List, Mapping, Optional, Sequence, Tuple

from ._errors import AlreadyRunning, Ended, Late, NotStarted, Refused, TooOld
from ._inbox import REPORTED, Inbox, Seen
from ._lines import Lines
from ._process import Process
from ._values import Ready, Result

PIECE = 65536  # bytes that are read or written at a time
# seconds that a killed program, or one whose output has ended, has to end
GRACE = 10.0
LIST = {"op": "list"}
Command = Mapping[str, Any]
Reply = Dict[str, Any]
log = logging.getLogger("ocfexec").warning


class Deadline:
    """A moment up to which something is waited for; None is for ever."""

    def __init__(self, seconds: Optional[float]) -> None:
        self.seconds = seconds
        self._moment = None if seconds is None else time.monotonic() + seconds

    def left(self) -> Optional[float]:
        """The seconds up to it, at least 0."""
        return None if self._moment is None else max(0.0, self._moment - time.monotonic())

    def is_over(self) -> bool:
        return self.left() == 0

    def late(self, what: str) -> Late:
        return Late(what, self.seconds or 0)


class Core:
    """The state of an executor: never started, opening its journal, running, or ended. From each of them `start` leads to running.

    reported   the results that the last opening reported, as interrupted or dropped
    histories  for each resource that was registered then, its results in the journal, oldest first
    problems   words such as "full", each of which says that a turn could not be made; the program repeats the turn by itself
    """

    def __init__(self, command_line: Sequence[str], patience: Optional[float], own_session: bool,
                 on_new_journal: Callable[[str], object]) -> None:
        if isinstance(command_line, str) or not command_line:
            raise ValueError("the command line is a list of arguments, of which the first is the program")
        self.command_line, self.patience, self.own_session = list(command_line), patience, own_session
        self.on_new_journal = on_new_journal
        self.reported: List[Result] = []
        self.histories: Dict[str, List[Result]] = {}
        self.problems: List[str] = []
        self._process: Optional[Process] = None
        self._lines: Optional[Lines] = None
        self._status: Optional[int] = None
        self._is_open = self._opened_before = False
        # of an opening: the resources, once they are known, and the numbers of the commands whose replies it waits for
        self._names: Optional[List[str]] = None
        self._asked = range(0)
        self._inbox, self._seen = Inbox(), Seen()
        self._early: List[Result] = []  # of a report, up to the ready line, which tells of which journal they are
        self._differences: List[str] = []  # which the caller is still to be told

    @property
    def ready(self) -> Ready:
        """What the program sent when it had opened its journal. Raises NotStarted before that."""
        if self._lines is None or self._lines.ready is None:
            raise NotStarted()
        return self._lines.ready

    @property
    def pid(self) -> int:
        """The process number of the program that was started last."""
        if self._process is None:
            raise NotStarted()
        return self._process.pid

    def is_running(self) -> bool:
        """Whether the program runs. When it has ended its last lines may still be unread."""
        return self._process is not None and self._status is None and self._process.poll() is None

    def results(self) -> List[Result]:
        """All results that have come and were not taken yet, oldest first. Reads nothing."""
        found = []
        while (result := self._inbox.take()) is not None:
            found.append(result)
        return found

    # The states

    def _live(self) -> Tuple[Process, Lines]:
        """The program and its lines. Raises NotStarted and Ended."""
        if self._process is None or self._lines is None:
            raise NotStarted()
        if self._status is not None:
            raise Ended(self._status, self.command_line)
        return self._process, self._lines

    def _begin(self) -> bool:
        """Starts the program, unless it is opening its journal. Raises AlreadyRunning if that is open. Returns whether it was started."""
        if self._process is not None and self._status is None:
            if self._is_open:
                raise AlreadyRunning(self._process.pid)
            return False
        self._process = Process(self.command_line, self.own_session)
        if self._lines is not None:
            self._seen.call(self._lines.last_call)
        self._lines, self._status = Lines(self._hear), None
        self.reported, self._is_open = [], False
        self._inbox.arrived()
        self._inbox.is_opening = True
        self._names, self._asked = None, self._lines.send([LIST])
        return True

    def _go_on_opening(self) -> Optional[Ready]:
        """Asks for the resources, and then for their histories. Returns what the program sent when it was ready, once all is answered.
        Raises TooOld and Refused, after which the program is of no use."""
        _, lines = self._live()
        if self._is_open:
            return self.ready
        replies = lines.replies_to(self._asked)
        if replies is not None and self._names is None:
            if lines.ready is None:
                raise TooOld()
            self._names = list(self._checked(LIST, replies[0], ())["resources"])
            self._asked = lines.send([{"op": "history", "id": name} for name in self._names])
            replies = lines.replies_to(self._asked)
        return None if replies is None or self._names is None else self._opened(self._names, replies)

    def _opened(self, names: Sequence[str], replies: Sequence[Reply]) -> Ready:
        """Ends an opening, with the histories of these resources."""
        self.histories = {name: [Result.of(value, name) for value in reply.get("results", [])] for name, reply in zip(names, replies)}
        found = [result for results in self.histories.values() for result in results]
        for result in found:
            self._seen.result(result)
        self._inbox.opened(found, not self._opened_before)
        self._opened_before = self._is_open = True
        return self.ready

    def _ended(self, status: int) -> Ended:
        """Notes the end of the program, whose output was read."""
        if self._process is not None:
            self._process.close()
        self._status, self._is_open = status, False
        self._inbox.arrived()
        return Ended(status, self.command_line)

    def _receive(self, lines: Lines, part: bytes) -> None:
        """Takes bytes that were read, and tells the caller of another journal before any of its results can be taken. Raises Garbled."""
        lines.receive(part)
        while self._differences:
            self.on_new_journal(self._differences.pop(0))

    def _hear(self, kind: str, value: Reply) -> None:
        """Takes a line of this kind, which replies to no command."""
        if kind == "ready":
            self._hear_ready(Ready.of(value))
        elif kind == "trouble":
            self.problems.append(str(value["end"]))
        elif self._lines is not None and self._lines.ready is not None:
            self._hear_result(Result.of(value, value["id"]))
        else:
            self._early.append(Result.of(value, value["id"]))
            self.reported += self._early[-1:] if self._early[-1].outcome in REPORTED else []

    def _hear_ready(self, ready: Ready) -> None:
        """Compares the journal with the one before, and then takes the report."""
        difference = self._seen.difference(ready)
        if difference is None and not all(self._inbox.is_new(result) for result in self._early):
            difference = "the journal is an older copy: it reports actions whose results have come"
        if difference is not None:
            self._renew(difference)
        self._seen.open(ready)
        for result in self._early:
            self._take(result)
        self._early = []

    def _hear_result(self, result: Result) -> None:
        """Takes a notice: runs that begin after an opening have greater numbers than all before it."""
        if not self._inbox.is_new(result) or 0 < result.run <= self._seen.before:
            self._renew(f"the journal is an older copy: run {result.run} has come before")
        self._take(result)

    def _take(self, result: Result) -> None:
        self._seen.result(result)
        self._inbox.add(result)

    def _renew(self, difference: str) -> None:
        """Goes on with another journal."""
        self._differences.append(difference)
        self._inbox.renew()
        self._seen.renew()
        self._opened_before = self._is_open

    @staticmethod
    def _checked(command: Command, reply: Reply, allow: Container[str]) -> Reply:
        if "error" in reply and reply["error"] not in allow:
            raise Refused(command, reply)
        return reply


def write_some(process: Process, outgoing: bytearray) -> None:
    """Writes as much as fits, and takes it out of what has to be written."""
    try:
        del outgoing[:process.stdin.write(outgoing[:PIECE]) or 0]
    except (OSError, ValueError):
        outgoing.clear()  # the program ends, or its input was closed: its remaining output is read first
