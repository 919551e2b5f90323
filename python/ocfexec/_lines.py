"""The lines to one program and from it, without any input or output."""
from __future__ import annotations

import collections
import json
from typing import Any, Callable, Deque, Dict, List, Mapping, Optional, Sequence, Set, Tuple

from ._errors import Garbled
from ._values import Ready

NOT_HERE = ("drain", "watch")
# commands that {"end":..} may reply to: each is given a tag, since without one the line could be about the program's own turns
ENDING = ("tidy", "leave", "meta")
# the kinds of lines that reply to no command
HEARD = ("ready", "report", "notice", "trouble")


class Lines:
    """Gathers commands as bytes to write, takes bytes that were read, and finds the reply to each command by its number. The program
    answers in the order of the commands."""

    def __init__(self, hear: Callable[[str, Dict[str, Any]], None]) -> None:
        """`hear` is called with each line that replies to no command, and with its kind, in their order."""
        self.hear = hear
        self.ready: Optional[Ready] = None
        self.last_call = 0  # the last one that a reply has told
        self.outgoing = bytearray()
        self._read = bytearray()
        self._asked: Deque[Tuple[bool, Optional[Callable[[int], None]]]] = collections.deque()  # whether it has a tag, and `reserve`
        self._next = self._answered = 0
        self._replies: Dict[int, Dict[str, Any]] = {}
        self._dismissed: Set[int] = set()

    def send(self, commands: Sequence[Mapping[str, Any]], reserve: Optional[Callable[[int], None]] = None) -> range:
        """Adds commands to what has to be written, all or none, and returns their numbers. `reserve` is called with the call of a reply.
        Raises ValueError."""
        self.outgoing += b"".join([_line_of(command) for command in commands])
        self._asked.extend(("tag" in command, reserve) for command in commands)
        numbers = range(self._next, self._next + len(commands))
        self._next = numbers.stop
        return numbers

    def replies_to(self, numbers: range) -> Optional[List[Dict[str, Any]]]:
        """The replies to these commands, once the last one has come; they are given once."""
        if self._answered < numbers.stop:
            return None
        return [self._replies.pop(number) for number in numbers]

    def has_replies(self) -> bool:
        """Whether a reply has come and was not given."""
        return bool(self._replies)

    def dismiss(self, numbers: range) -> None:
        """Ignores the replies to these commands, those that have come and those that will."""
        for number in numbers:
            if self._replies.pop(number, None) is None:
                self._dismissed.add(number)

    def receive(self, part: bytes) -> None:
        """Takes bytes that were read. Raises Garbled."""
        self._read += part
        *lines, self._read = self._read.split(b"\n")
        for line in lines:
            try:
                value = json.loads(line)
                if not isinstance(value, dict):
                    raise TypeError(value)
                self.take(value)
            except (ValueError, LookupError, TypeError):
                raise Garbled(bytes(line)) from None

    def take(self, value: Dict[str, Any]) -> None:
        """Takes the value of one line. One of an unknown kind is ignored."""
        kind = _kind_of(value)
        if kind in HEARD:
            if kind == "ready":
                self.ready = Ready.of(value)
            return self.hear(kind, value)
        if kind != "reply":
            return None
        value.pop("kind", None)
        self.last_call = max(self.last_call, value.get("call", 0))
        has_tag, reserve = self._asked.popleft()
        number, self._answered = self._answered, self._answered + 1
        if not has_tag:
            value.pop("tag", None)
        if number in self._dismissed:
            self._dismissed.remove(number)
            return None
        if reserve and "call" in value:
            reserve(value["call"])
        self._replies[number] = value
        return None


def _kind_of(value: Mapping[str, Any]) -> str:
    """The kind of a line, by its key `kind`, or by its other keys where an older program sends none."""
    if "kind" in value:
        return str(value["kind"])
    if "ready" in value:
        return "ready"
    if "outcome" in value:
        return "notice"
    return "trouble" if "end" in value and "tag" not in value else "reply"


def _line_of(command: Mapping[str, Any]) -> bytes:
    op = command.get("op")
    if op in NOT_HERE:
        raise ValueError(f"{op}: an executor that serves acts by itself, and is not asked for this here")
    told = {"tag": "", **command} if op in ENDING else dict(command)
    return json.dumps(told).encode() + b"\n"
