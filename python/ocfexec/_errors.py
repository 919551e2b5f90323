"""The errors of the library."""
from __future__ import annotations

import json
import signal
from typing import Any, Mapping, Optional, Sequence

# the exit statuses of the program, as ocfexec(8) lists them
REASONS = {
    0: "its input ended, or it left",
    2: "wrong arguments",
    3: "the journal is damaged",
    4: "memory was refused at its opening",
    5: "the journal could not be opened, another program holds it, or its device failed",
    6: "the journal is full",
    7: "its input or output failed, or a log file could not be opened",
    8: "SIGCHLD was ignored when it started",
    9: "the directory has no journal, and a new one was not wanted",
}
# statuses that another start does not mend
FINAL = (2, 3, 6, 8)


class Error(Exception):
    """A fault of an executor, or of its use."""


class NotStarted(Error):
    """The program was not started, so there is nothing to ask or to read."""

    def __init__(self) -> None:
        super().__init__("the executor was not started")


class AlreadyRunning(Error):
    """`start` was called while the program runs with its journal open."""

    def __init__(self, pid: int) -> None:
        super().__init__(f"the executor runs already, as process {pid}")
        self.pid = pid


class Ended(Error):
    """The program has ended, and all its output was read. `start` starts it again.

    status   its exit status, or minus the number of the signal that ended it
    signal   the number of that signal, or None
    reason   the meaning of the exit status, as ocfexec(8) lists it, or the name of the signal
    """

    def __init__(self, status: int, command_line: Sequence[str]) -> None:
        self.status, self.command_line = status, list(command_line)
        self.signal: Optional[int] = -status if status < 0 else None
        self.reason = _signal_name(-status) if status < 0 else REASONS.get(status, "of no known meaning")
        text = f"was ended by {self.reason}" if status < 0 else f"ended with status {status}: {self.reason}"
        super().__init__(f"the executor {text}")

    @property
    def needs_administrator(self) -> bool:
        """Whether another start would end in the same way."""
        return self.status in FINAL


def _signal_name(number: int) -> str:
    try:
        return signal.Signals(number).name
    except ValueError:
        return f"signal {number}"


class Refused(Error):
    """A command was refused. Nothing has changed, unless the word is `disk`.

    command  the command
    reply    the reply
    word     the word of the refusal, as `exists`
    number   its number
    key      the offending key of the command, or None
    message  a sentence about it, or None
    """

    def __init__(self, command: Mapping[str, Any], reply: Mapping[str, Any]) -> None:
        self.command, self.reply = dict(command), dict(reply)
        self.word, self.number = str(reply["error"]), int(reply["number"])
        self.key: Optional[str] = reply.get("key")
        self.message: Optional[str] = reply.get("message")
        of = f" of {command['id']}" if "id" in command else ""
        super().__init__(f"{command.get('op')}{of} was refused as {self.word}" + (f": {self.message}" if self.message else ""))


class NoMetadata(Error):
    """An agent gave no metadata.

    agent   PROVIDER:TYPE
    reason  the word of the reply's `end`, as `missing`
    code    the agent's exit code, if it ended with a failure
    """

    def __init__(self, agent: str, reply: Mapping[str, Any]) -> None:
        self.agent, self.reply, self.reason = agent, dict(reply), str(reply.get("end"))
        self.code: Optional[int] = reply.get("code")
        super().__init__(f"{agent} gave no metadata: {self.reason}" + (f", with {self.code}" if self.code is not None else ""))


class Late(Error):
    """A reply, a result or an end did not come in time. A command may be carried out all the same; its reply is ignored when it comes.

    what     what was waited for
    seconds  how long
    """

    def __init__(self, what: str, seconds: float) -> None:
        super().__init__(f"{what} did not come within {seconds:g} s")
        self.what, self.seconds = what, seconds


class TooOld(Error):
    """The program answers without having said that it is ready: it is older than this library. It was killed."""

    def __init__(self) -> None:
        super().__init__("the program answers without having said that it is ready: it is older than this library")


class Garbled(Error):
    """The program wrote a line that no executor writes; it was killed. `line` is the line, of which the message has the beginning."""

    def __init__(self, line: bytes) -> None:
        super().__init__(f"the program wrote no line of an executor: {json.dumps(line[:200].decode(errors='replace'))}")
        self.line = line
