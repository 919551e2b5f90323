"""The executor for programs without an event loop."""
from __future__ import annotations

import os
import select
import time
from types import TracebackType
from typing import Callable, Container, Iterable, Iterator, List, Mapping, Optional, Sequence, Type, TypeVar

from . import _commands
from ._core import GRACE, LIST, PIECE, Command, Core, Deadline, Reply, log, write_some
from ._errors import Ended, Garbled, Late, NoMetadata, NotStarted, Refused, TooOld
from ._process import Process
from ._values import Info, Ready, Result, Status

T = TypeVar("T")
TICK = 0.1  # seconds between two calls of `idle`


class Executor(Core):
    """An executor that is started, sent commands, read, ended, and started again after it ended.

    The program waits while its output is not read. Therefore every call here reads all of its output, also while it writes a command, and
    keeps it until it is taken; while no call is made, the pipe holds another MiB, about 4,500 results.

    In a `with` statement it is started, and leaves at the end; it is killed if it does not answer. That it has ended meanwhile is no error
    there.
    """

    def __init__(self, command_line: Sequence[str], *, patience: Optional[float] = None, idle: Optional[Callable[[], object]] = None,
                 wake: Optional[int] = None, own_session: bool = True, on_new_journal: Callable[[str], object] = log) -> None:
        """`command_line` is a list of arguments. `patience` is how many seconds a reply is waited for; None is for ever. `idle` is called
        ten times a second while a reply or a result is waited for. `wake` is a file descriptor: while it is readable, `events` does not
        wait. `own_session` keeps a terminal's signals from the program. `on_new_journal` is called with a sentence when an opening finds
        another journal than the one before, or an older copy: calls and runs are then counted anew, and calls of before have no results;
        by default it is a warning of the logger `ocfexec`."""
        super().__init__(command_line, patience, own_session, on_new_journal)
        self.idle, self.wake = idle, wake

    def __enter__(self) -> Executor:
        try:
            self.start()
        except BaseException:
            self._drop()
            raise
        return self

    def __exit__(self, kind: Optional[Type[BaseException]], error: Optional[BaseException], trace: Optional[TracebackType]) -> None:
        try:
            if self._status is None and self.patience is not None:
                self.version()
            self.leave()
        except (Ended, Late, Garbled):
            pass
        finally:
            self._drop()

    # Starting and ending

    def start(self, timeout: Optional[float] = None) -> Ready:
        """Starts the program, and waits until it has opened the journal, has reported, and is ready. From the second opening on, results
        that the previous program had recorded and could not send are delivered, too. Raises Ended if the journal cannot be opened, and
        Late after `timeout` seconds: then another `start` goes on waiting, and `kill` ends the program."""
        if self._process is not None and self._status is None and self._process.poll() is not None:
            self._read_rest(self._process)
        self._begin()
        try:
            return self._await(self._go_on_opening, Deadline(timeout), "the ready line")
        except (TooOld, Refused):
            self.kill()
            raise

    def leave(self, timeout: Optional[float] = None) -> int:
        """Ends the program in order, and returns its status: each running action ends within its timeout, and is recorded. Queued actions
        are dropped, as the next opening reports; monitors stay in the journal. Raises Late after `timeout` seconds: then another `leave`
        goes on waiting."""
        limit = Deadline(timeout)
        try:
            self._ask_all([{"op": "leave"}], limit)
            return self._end(limit)
        except Ended as ended:
            return ended.status

    def close(self, timeout: Optional[float] = None) -> int:
        """Closes the program's input, and returns its status: running agents are killed, and the next opening reports their actions as
        interrupted. Raises Late after `timeout` seconds."""
        if self._process is not None and self._status is not None:
            return self._status
        process, lines = self._live()
        process.stdin.close()
        lines.outgoing.clear()
        return self._end(Deadline(timeout))

    def kill(self, timeout: float = GRACE) -> int:
        """Kills the program, and returns its status. Its agents live on, and the next opening deals with them. Raises Late if the
        program, as one that waits for a dead device, has not ended after `timeout` seconds; `start` then starts another one."""
        if self._process is not None and self._status is not None:
            return self._status
        process, _ = self._live()
        process.kill()
        try:
            return self._end(Deadline(timeout))
        except Late:
            self._ended(-9)
            raise

    def _drop(self) -> None:
        """Kills the program if it runs; it may still live if it waits for a dead device."""
        if self._process is not None and self._status is None:
            try:
                self.kill()
            except Late:
                pass

    # Commands

    def ask(self, command: Command, *, allow: Container[str] = (), timeout: Optional[float] = None) -> Reply:
        """The reply to a command, with the command's tag if it has one. Raises Refused, unless the word of the refusal is in `allow`;
        Late after `timeout` seconds, or by default after `patience`; and Ended. After the last two the command may be carried out all the
        same."""
        return self._checked(command, self.ask_all([command], timeout=timeout)[0], allow)

    def ask_all(self, commands: Iterable[Command], *, timeout: Optional[float] = None) -> List[Reply]:
        """The replies to these commands, in their order; a refusal is a reply. Up to 64 that arrive together are recorded by one write, so
        this is faster than one after another."""
        return self._ask_all(list(commands), Deadline(self.patience if timeout is None else timeout))

    def submit(self, commands: Iterable[Command]) -> range:
        """Adds commands to what is written, without a wait, and returns their numbers, for `replies`. It is for a program that passes
        on commands of others, and must wait for none of them."""
        return self._live()[1].send(list(commands))

    def replies(self, numbers: range) -> Optional[List[Reply]]:
        """The replies to submitted commands, once the last one has come; they are given once. Reads nothing: `wait` does. When the program
        has ended it has those that came before, until `start`."""
        if self._lines is None:
            raise NotStarted()
        return self._lines.replies_to(numbers)

    def register(self, id: str, agent: str, params: Optional[Mapping[str, str]] = None, /, **more: str) -> None:
        """Registers a resource with an agent, PROVIDER:TYPE, and its parameters, as a mapping or by name."""
        self.ask(_commands.register(id, agent, {**(params or {}), **more}))

    def unregister(self, id: str) -> None:
        """Removes a resource, of which nothing may be queued or running, with its monitors and results."""
        self.ask(_commands.of("unregister", id))

    def params(self, id: str, params: Optional[Mapping[str, str]] = None, /, **more: str) -> None:
        """Replaces all parameters of a resource."""
        self.ask(_commands.of("params", id, params={**(params or {}), **more}))

    def exec(self, id: str, action: str, *, timeout: Optional[int] = None, level: Optional[int] = None, expect: Optional[int] = None,
             tag: Optional[str] = None) -> int:
        """Queues an action, which may take `timeout` milliseconds, and returns its call."""
        return int(self.ask(_commands.of("exec", id, action=action, timeout=timeout, level=level, expect=expect, tag=tag))["call"])

    def perform(self, id: str, action: str, *, timeout: Optional[int] = None, level: Optional[int] = None, expect: Optional[int] = None,
                tag: Optional[str] = None) -> Result:
        """Queues an action as `exec` does, and waits for its result."""
        return self.result(self.exec(id, action, timeout=timeout, level=level, expect=expect, tag=tag))

    def recur(self, id: str, interval: int, *, timeout: Optional[int] = None, level: Optional[int] = None, expect: Optional[int] = None,
              tag: Optional[str] = None) -> int:
        """Adds a recurring monitor, and returns its call. Interval and timeout are in milliseconds."""
        return int(self.ask(_commands.of("recur", id, interval=interval, timeout=timeout, level=level, expect=expect, tag=tag))["call"])

    def cancel(self, id: str, interval: int) -> None:
        """Removes the recurring monitor with this interval."""
        self.ask(_commands.of("cancel", id, interval=interval))

    def withdraw(self, id: str, call: int) -> None:
        """Removes an action from the queue; it has no result but in the history."""
        self.ask(_commands.of("withdraw", id, call=call))

    def forget(self, id: str) -> None:
        """Empties the history of a resource, with its last failure."""
        self.ask(_commands.of("forget", id))

    def resources(self) -> List[str]:
        """The ids of all registered resources."""
        return list(self.ask(LIST)["resources"])

    def info(self, id: str) -> Info:
        """What is registered, queued, running and recurring."""
        return Info.of(self.ask(_commands.of("info", id)))

    def history(self, id: str) -> List[Result]:
        """The results in the journal, oldest first."""
        return [Result.of(value, id) for value in self.ask(_commands.of("history", id))["results"]]

    def status(self) -> List[Status]:
        """The state of each resource, in order of registration."""
        return [Status.of(value) for value in self.ask({"op": "status"})["status"]]

    def version(self) -> str:
        """The version of the program; it answers while it works."""
        return str(self.ask({"op": "version"})["version"])

    def metadata(self, agent: str, *, limit: int = _commands.METADATA_LIMIT) -> str:
        """The metadata of an agent, PROVIDER:TYPE, which may take `limit` milliseconds. Raises NoMetadata. Later commands are answered
        after it."""
        reply = self.ask(_commands.metadata(agent, limit), timeout=None if self.patience is None else self.patience + limit / 1000)
        if "metadata" not in reply:
            raise NoMetadata(agent, reply)
        return str(reply["metadata"])

    def tidy(self) -> str:
        """Writes the state of the journal without its records. Returns `done`, or why not."""
        return str(self.ask({"op": "tidy"})["end"])

    # Results

    def events(self, timeout: Optional[float] = None) -> Iterator[Result]:
        """Yields the results that have come and that come within this many seconds, oldest first; None is for ever, and 0 takes what is
        there. It also ends when `wake` is readable. Raises Ended once everything was read."""
        limit, is_last = Deadline(timeout), False
        while True:
            while (result := self._inbox.take()) is not None:
                yield result
            if is_last:
                return
            came = self._exchange(limit.left(), wakes=True)
            is_last = limit.is_over() or not came and self._is_woken()

    def wait(self, timeout: Optional[float] = None) -> bool:
        """Waits until `results` has a result, a submitted command a reply, a problem is noted, `wake` is readable, or this many seconds
        are over; None is for ever. Returns whether `results` has one. Raises Ended once everything was read."""
        limit, known = Deadline(timeout), len(self.problems)
        while not self._inbox.has_result() and not (self._lines and self._lines.has_replies()):
            came = self._exchange(limit.left(), wakes=True)
            if limit.is_over() or len(self.problems) > known or not came and self._is_woken():
                break
        return self._inbox.has_result()

    def result(self, call: int, timeout: Optional[float] = None) -> Result:
        """The result of a call, waited for at most this many seconds; for a recurring monitor the oldest that was not taken. Other results
        stay for `events`. Raises Late, or Ended: then the result comes with the next `start`."""
        return self._await(lambda: self._inbox.take_call(call), Deadline(timeout), f"the result of call {call}")

    def fileno(self) -> int:
        """The descriptor to wait for in a loop of the caller's own: while it is readable, `events` finds something."""
        return self._live()[0].stdout.fileno()

    # Input and output

    def _ask_all(self, asked: List[Command], limit: Deadline) -> List[Reply]:
        _, lines = self._live()
        numbers, what = lines.send(asked), f"the reply to {asked[0].get('op') if asked else 'nothing'}"
        try:
            return self._await(lambda: lines.replies_to(numbers), limit, what)
        except BaseException:
            lines.dismiss(numbers)
            raise

    def _await(self, found: Callable[[], Optional[T]], limit: Deadline, what: str) -> T:
        """The first value of `found` other than None."""
        while (value := found()) is None:
            if limit.is_over():
                raise limit.late(what)
            left = limit.left()
            if self.idle:
                self.idle()
                left = TICK if left is None else min(left, TICK)
            self._exchange(left)
        return value

    def _is_woken(self) -> bool:
        return self.wake is not None and bool(select.select([self.wake], [], [], 0)[0])

    def _exchange(self, seconds: Optional[float], wakes: bool = False) -> bool:
        """Writes and reads as far as both are possible, after a wait of at most this many seconds. Returns whether something was read.
        Raises Ended at the end of the output."""
        process, lines = self._live()
        poll, out = select.poll(), process.stdout.fileno()
        poll.register(out, select.POLLIN)
        if lines.outgoing and process.stdin.closed:
            lines.outgoing.clear()
        if lines.outgoing:
            poll.register(process.stdin, select.POLLOUT)
        if wakes and self.wake is not None:
            poll.register(self.wake, select.POLLIN)
        ready = {number for number, _ in poll.poll(None if seconds is None else seconds * 1000)}
        if lines.outgoing and process.stdin.fileno() in ready:
            write_some(process, lines.outgoing)
        part = process.stdout.read(PIECE) if out in ready else None
        if part == b"":  # the end, perhaps in the middle of a line
            raise self._ended(self._reap(process))
        if part is None:
            return False
        try:
            self._receive(lines, part)
        except Garbled:
            process.kill()
            self._ended(self._reap(process))
            raise
        return True

    def _reap(self, process: Process) -> int:
        """The status of a program whose output has ended; it is killed if it does not end."""
        for limit in (Deadline(GRACE), Deadline(1)):
            while (status := process.poll()) is None and not limit.is_over():
                time.sleep(0.002)
            if status is not None:
                return status
            process.kill()
        return -9

    def _read_rest(self, process: Process) -> None:
        """Reads what a program that has ended has left."""
        try:
            self._end(Deadline(GRACE))
        except Late:  # another process has its output, too
            self._ended(self._reap(process))

    def _end(self, limit: Deadline) -> int:
        """Reads everything up to the end of the program, and returns its status."""
        try:
            while True:
                self._exchange(limit.left())
                if limit.is_over():
                    raise limit.late("the end of the program")
        except Ended as ended:
            return ended.status
