"""The commands that programs send to the executor through the control socket of client.py. Each is passed on without its tag; its reply,
and the notices of its call, go back to its program, with the tag."""
from __future__ import annotations

import collections
from dataclasses import dataclass
from typing import Any, Callable, Deque, Dict, Optional, Tuple

from control import Control, Line, Program
from ocfexec import Executor, NotStarted, Result
from targets import Targets

QUESTIONS = ("list", "info", "history", "status", "version")
NOT_HERE = ("drain", "watch", "leave")  # the executor is one for all
OF_FILE = ("register", "unregister", "params")  # not for a resource of the file
MOST_META = 20000  # milliseconds that an agent has for its metadata: all wait for it
MOST_CALLS = 16384  # of which it is known whose they are
Hear = Callable[[Optional[Line]], None]


@dataclass(frozen=True)
class Caller:
    """Whose a call is."""

    program: Program
    tag: Optional[str]
    command: Line


def tagged(line: Line, tag: Optional[str]) -> Line:
    return line if tag is None else {**line, "tag": tag}


def is_tag(tag: object) -> bool:
    return tag is None or isinstance(tag, str) and len(tag.encode(errors="replace")) <= 64


class Calls:
    """The commands that the executor has not answered, and the calls whose notices are to come."""

    def __init__(self, executor: Executor, control: Control, targets: Targets, is_of_file: Callable[[str], bool]) -> None:
        self.executor, self.control, self.targets, self.is_of_file = executor, control, targets, is_of_file
        self.is_open = False  # whether the executor takes commands
        self.is_wanted = False  # whether a program had a command for it
        self._waiting: Deque[Tuple[range, Hear]] = collections.deque()
        self._callers: Dict[int, Caller] = {}

    # Commands

    def command(self, program: Program, value: Line) -> None:
        """Takes a command of a program."""
        tag = value.pop("tag", None)
        if not is_tag(tag):
            return program.refuse("bad-value", "tag must be a text of at most 64 bytes", key="tag", number=4)
        fault = self._fault(program, value)
        if fault is None:
            fault = self._note(value)
        if fault is not None:
            return program.send(tagged({**fault, "kind": "reply"}, tag))
        self.pass_on(program, value, tag)
        return None

    def _fault(self, program: Program, value: Line) -> Optional[Line]:
        """Why a command is not passed on, if it is not."""
        op, limit = value.get("op"), value.get("limit", MOST_META)
        if op in NOT_HERE:
            return {"error": "unknown-op", "message": f"{op} is not for one of several programs", "number": 2}
        if op not in QUESTIONS and not program.may_change:
            return {"error": "denied", "message": "only root may change something"}
        if op == "meta" and (not isinstance(limit, int) or limit > MOST_META):
            return {"error": "bad-value", "key": "limit", "message": f"limit must be a number from 0 to {MOST_META}", "number": 4}
        if op in OF_FILE and self.is_of_file(str(value.get("id"))):
            return {"error": "kept", "message": f"{value['id']} is a resource of the client's file"}
        self.is_wanted = True
        if not self.is_open:
            return {"error": "closed", "message": "no executor has the journal open at this moment: try again", "number": 17}
        return None

    def _note(self, value: Line) -> Optional[Line]:
        """Notes a resource before a program registers it, so that no client takes it for one that the file no longer has."""
        if value.get("op") == "register":
            try:
                with self.targets.changing():
                    self.targets.others.add(str(value.get("id")))
            except OSError as error:
                return {"error": "disk", "message": f"it cannot be noted whose the resource is: {error.strerror}"}
        return None

    def pass_on(self, program: Program, command: Line, tag: Optional[str]) -> None:
        """Sends a command to the executor for a program."""
        program.unanswered += 1

        def hear(reply: Optional[Line]) -> None:
            program.unanswered -= 1
            found = reply or {"error": "lost", "message": "the executor ended before its reply: info and history tell what it has recorded"}
            self._learn(command, found, Caller(program, tag, command))
            if command.get("op") == "info" and not program.may_change:
                found.pop("params", None)
            program.send(tagged({**found, "kind": "reply"}, tag))
        self.submit(command, hear)

    def submit(self, command: Line, hear: Hear) -> None:
        """Sends a command to the executor. `hear` is called with its reply, or with None if the executor ended before."""
        self._waiting.append((self.executor.submit([command]), hear))

    def _learn(self, command: Line, reply: Line, caller: Caller) -> None:
        """Learns from a reply whose a call is, and which calls have no notice any more."""
        op, name = command.get("op"), str(command.get("id"))
        if "call" in reply:
            self._callers[reply["call"]] = caller
            if len(self._callers) > MOST_CALLS:
                del self._callers[next(iter(self._callers))]
        elif op == "withdraw" and reply.get("ok"):
            self._callers.pop(command["call"], None)
        elif op in ("cancel", "unregister") and reply.get("ok"):
            interval = command.get("interval")
            for call, one in list(self._callers.items()):
                if one.command.get("id") == name and interval in (None, one.command.get("interval")):
                    del self._callers[call]
        if op == "unregister" and reply.get("ok") or op == "register" and reply.get("error") not in (None, "exists", "lost"):
            with self.targets.changing():
                self.targets.others.discard(name)

    # What the executor sends

    def hear(self) -> None:
        """Passes on the replies that have come."""
        while self._waiting:
            try:
                replies = self.executor.replies(self._waiting[0][0])
            except NotStarted:
                return
            if replies is None:
                return
            self._waiting.popleft()[1](replies[0])

    def lose(self) -> None:
        """The executor has ended: what it has not answered is lost."""
        self.hear()
        self.is_open = False
        while self._waiting:
            self._waiting.popleft()[1](None)

    def has(self, call: int) -> bool:
        """Whether a program has requested this call."""
        return call in self._callers

    def forget(self) -> None:
        """Forgets whose calls are, since their numbers begin again."""
        self._callers.clear()

    def notice(self, result: Result) -> None:
        """Passes on a result, to the program whose call it was and to those that want all."""
        line: Dict[str, Any] = {**result.raw, "id": result.id, "kind": "notice"}
        caller = self._callers.get(result.call)
        if caller and not result.interval:
            del self._callers[result.call]
        if caller:
            caller.program.send(tagged(line, caller.tag))
        for program in self.control.listeners():
            if not caller or program is not caller.program:
                program.send(line)
