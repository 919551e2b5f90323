"""The executor for programs of asyncio."""
from __future__ import annotations

import asyncio
from types import TracebackType
from typing import Any, AsyncIterator, Callable, Container, Iterable, List, Mapping, Optional, Sequence, Set, Type, TypeVar

from . import _commands
from ._core import GRACE, LIST, PIECE, Command, Core, Deadline, Reply, log, write_some
from ._errors import Ended, Garbled, Late, NoMetadata, Refused, TooOld
from ._process import Process
from ._values import Info, Ready, Result, Status

T = TypeVar("T")
TICK = 0.01  # seconds between two looks whether a program whose output has ended has ended


class AsyncExecutor(Core):
    """An executor of one event loop, with the names of `Executor`. Several tasks may use it at once: each gets the replies to its own
    commands, a result that a task waits for with `result` or `perform` goes to that task, and any other one to one of `events`. The
    program's output is read whenever the loop runs, and kept until it is taken."""

    def __init__(self, command_line: Sequence[str], *, patience: Optional[float] = None, own_session: bool = True,
                 on_new_journal: Callable[[str], object] = log) -> None:
        """`command_line` is a list of arguments. `patience` is how many seconds a reply is waited for; None is for ever. `own_session`
        keeps a terminal's signals from the program. `on_new_journal` is called as for `Executor`."""
        super().__init__(command_line, patience, own_session, on_new_journal)
        self._waiters: Set[asyncio.Future[None]] = set()
        self._fault: Optional[Garbled] = None
        self._loop: Optional[asyncio.AbstractEventLoop] = None

    async def __aenter__(self) -> AsyncExecutor:
        try:
            await self.start()
        except BaseException:
            await self._drop()
            raise
        return self

    async def __aexit__(self, kind: Optional[Type[BaseException]], error: Optional[BaseException], trace: Optional[TracebackType]) -> None:
        try:
            if self._status is None and self.patience is not None:
                await self.version()
            await self.leave()
        except (Ended, Late, Garbled):
            pass
        finally:
            await self._drop()

    # Starting and ending

    async def start(self, timeout: Optional[float] = None) -> Ready:
        """Starts the program, and waits until it is ready, as `Executor.start` does."""
        limit = Deadline(timeout)
        if self._process is not None and self._status is None and (self._fault is not None or not self.is_running()):
            await self._end(limit)
        if self._begin():
            self._fault, self._loop = None, asyncio.get_running_loop()
            self._loop.add_reader(self._live()[0].stdout.fileno(), self._read)

        def goes_on() -> Optional[Ready]:
            if self._fault is not None:  # also if its program has ended since
                raise self._fault
            ready = self._go_on_opening()
            self._write()
            return ready
        try:
            return await self._await(goes_on, limit, "the ready line")
        except (TooOld, Refused):
            await self.kill()
            raise

    async def leave(self, timeout: Optional[float] = None) -> int:
        """Ends the program in order, and returns its status, as `Executor.leave` does."""
        limit = Deadline(timeout)
        try:
            await self._ask_all([{"op": "leave"}], limit)
            return await self._end(limit)
        except Ended as ended:
            return ended.status

    async def close(self, timeout: Optional[float] = None) -> int:
        """Closes the program's input, and returns its status, as `Executor.close` does."""
        if self._process is not None and self._status is not None:
            return self._status
        process, lines = self._live()
        lines.outgoing.clear()
        self._write()
        process.stdin.close()
        return await self._end(Deadline(timeout))

    async def kill(self, timeout: float = GRACE) -> int:
        """Kills the program, and returns its status, as `Executor.kill` does."""
        if self._process is not None and self._status is not None:
            return self._status
        self._live()[0].kill()
        try:
            return await self._end(Deadline(timeout))
        except Late:
            self._ended(-9)
            raise

    async def _drop(self) -> None:
        """Kills the program if it runs; it may still live if it waits for a dead device."""
        if self._process is not None and self._status is None:
            try:
                await self.kill()
            except (Late, Garbled):
                pass

    # Commands

    async def ask(self, command: Command, *, allow: Container[str] = (), timeout: Optional[float] = None) -> Reply:
        """The reply to a command, as `Executor.ask` gives it."""
        [reply] = await self.ask_all([command], timeout=timeout)
        return self._checked(command, reply, allow)

    async def ask_all(self, commands: Iterable[Command], *, timeout: Optional[float] = None) -> List[Reply]:
        """The replies to these commands, in their order; a refusal is a reply."""
        return await self._ask_all(list(commands), Deadline(self.patience if timeout is None else timeout))

    async def register(self, id: str, agent: str, params: Optional[Mapping[str, str]] = None, /, **more: str) -> None:
        """Registers a resource with an agent, PROVIDER:TYPE, and its parameters, as a mapping or by name."""
        await self.ask(_commands.register(id, agent, {**(params or {}), **more}))

    async def unregister(self, id: str) -> None:
        """Removes a resource, of which nothing may be queued or running, with its monitors and results."""
        await self.ask(_commands.of("unregister", id))

    async def params(self, id: str, params: Optional[Mapping[str, str]] = None, /, **more: str) -> None:
        """Replaces all parameters of a resource."""
        await self.ask(_commands.of("params", id, params={**(params or {}), **more}))

    async def exec(self, id: str, action: str, *, timeout: Optional[int] = None, level: Optional[int] = None,
                   expect: Optional[int] = None, tag: Optional[str] = None) -> int:
        """Queues an action, which may take `timeout` milliseconds, and returns its call. Its result may go to `events` before `result`
        asks for it: `perform` does both."""
        reply = await self.ask(_commands.of("exec", id, action=action, timeout=timeout, level=level, expect=expect, tag=tag))
        return int(reply["call"])

    async def perform(self, id: str, action: str, *, timeout: Optional[int] = None, level: Optional[int] = None,
                      expect: Optional[int] = None, tag: Optional[str] = None) -> Result:
        """Queues an action as `exec` does, and waits for its result, which does not go to `events`."""
        command = _commands.of("exec", id, action=action, timeout=timeout, level=level, expect=expect, tag=tag)
        reserved: List[int] = []

        def reserve(call: int) -> None:
            self._inbox.reserve(call)
            reserved.append(call)
        try:
            [reply] = await self._ask_all([command], Deadline(self.patience), reserve)
            return await self.result(int(self._checked(command, reply, ())["call"]))
        finally:
            for call in reserved:
                self._inbox.release(call)

    async def recur(self, id: str, interval: int, *, timeout: Optional[int] = None, level: Optional[int] = None,
                    expect: Optional[int] = None, tag: Optional[str] = None) -> int:
        """Adds a recurring monitor, and returns its call. Interval and timeout are in milliseconds."""
        reply = await self.ask(_commands.of("recur", id, interval=interval, timeout=timeout, level=level, expect=expect, tag=tag))
        return int(reply["call"])

    async def cancel(self, id: str, interval: int) -> None:
        """Removes the recurring monitor with this interval."""
        await self.ask(_commands.of("cancel", id, interval=interval))

    async def withdraw(self, id: str, call: int) -> None:
        """Removes an action from the queue; it has no result but in the history."""
        await self.ask(_commands.of("withdraw", id, call=call))

    async def forget(self, id: str) -> None:
        """Empties the history of a resource, with its last failure."""
        await self.ask(_commands.of("forget", id))

    async def resources(self) -> List[str]:
        """The ids of all registered resources."""
        return list((await self.ask(LIST))["resources"])

    async def info(self, id: str) -> Info:
        """What is registered, queued, running and recurring."""
        return Info.of(await self.ask(_commands.of("info", id)))

    async def history(self, id: str) -> List[Result]:
        """The results in the journal, oldest first."""
        return [Result.of(value, id) for value in (await self.ask(_commands.of("history", id)))["results"]]

    async def status(self) -> List[Status]:
        """The state of each resource, in order of registration."""
        return [Status.of(value) for value in (await self.ask({"op": "status"}))["status"]]

    async def version(self) -> str:
        """The version of the program; it answers while it works."""
        return str((await self.ask({"op": "version"}))["version"])

    async def metadata(self, agent: str, *, limit: int = _commands.METADATA_LIMIT) -> str:
        """The metadata of an agent, PROVIDER:TYPE, which may take `limit` milliseconds. Raises NoMetadata. Later commands, also those of
        other tasks, are answered after it."""
        timeout = None if self.patience is None else self.patience + limit / 1000
        reply = await self.ask(_commands.metadata(agent, limit), timeout=timeout)
        if "metadata" not in reply:
            raise NoMetadata(agent, reply)
        return str(reply["metadata"])

    async def tidy(self) -> str:
        """Writes the state of the journal without its records. Returns `done`, or why not."""
        return str((await self.ask({"op": "tidy"}))["end"])

    # Results

    async def events(self, timeout: Optional[float] = None) -> AsyncIterator[Result]:
        """Yields the results that have come and that come within this many seconds, oldest first; None is for ever, and 0 takes what is
        there. Raises Ended once everything was read."""
        limit = Deadline(timeout)
        await asyncio.sleep(0)
        while True:
            try:
                result = await self._await(self._inbox.take, limit, "a result")
            except Late:
                return
            yield result

    async def wait(self, timeout: Optional[float] = None) -> bool:
        """Waits until `results` has a result, a problem is noted, or this many seconds are over; None is for ever. Returns whether
        `results` has one. Raises Ended once everything was read."""
        known = len(self.problems)
        try:
            await self._await(lambda: self._inbox.has_result() or len(self.problems) > known or None, Deadline(timeout), "a result")
        except Late:
            pass
        return self._inbox.has_result()

    async def result(self, call: int, timeout: Optional[float] = None) -> Result:
        """The result of a call, as `Executor.result` gives it."""
        self._inbox.reserve(call)
        try:
            return await self._await(lambda: self._inbox.take_call(call), Deadline(timeout), f"the result of call {call}")
        finally:
            self._inbox.release(call)

    # Input and output

    async def _ask_all(self, asked: List[Command], limit: Deadline, reserve: Optional[Callable[[int], None]] = None) -> List[Reply]:
        _, lines = self._live()
        numbers, what = lines.send(asked, reserve), f"the reply to {asked[0].get('op') if asked else 'nothing'}"
        try:
            self._write()
            return await self._await(lambda: lines.replies_to(numbers), limit, what)
        except BaseException:
            lines.dismiss(numbers)
            raise

    async def _await(self, found: Callable[[], Optional[T]], limit: Deadline, what: str, ends: bool = False) -> T:
        """The first value of `found` other than None. A line that no executor writes ends each wait but that for the program's end."""
        while (value := found()) is None:
            if self._fault is not None and not ends:
                raise self._fault
            self._live()
            if limit.is_over():
                raise limit.late(what)
            waiter: asyncio.Future[None] = asyncio.get_running_loop().create_future()
            self._waiters.add(waiter)
            try:
                await asyncio.wait([waiter], timeout=limit.left())
            finally:
                self._waiters.discard(waiter)
        return value

    async def _end(self, limit: Deadline) -> int:
        """Waits until everything was read up to the end of the program, and returns its status."""
        return await self._await(lambda: self._status, limit, "the end of the program", ends=True)

    def _wake_all(self) -> None:
        for waiter in self._waiters:
            if not waiter.done():
                waiter.set_result(None)

    def _read(self) -> None:
        process, lines = self._live()
        part = process.stdout.read(PIECE)
        if part is None:
            return
        if part:
            try:
                self._receive(lines, part)
            except Garbled as garbled:
                self._fault = garbled
                process.kill()
        if not part or self._fault is not None:
            self._forget_pipes(process)
            self._reap(process, Deadline(GRACE))
        self._wake_all()

    def _write(self) -> None:
        """Writes what fits, and the rest when there is room."""
        process, lines = self._live()
        write_some(process, lines.outgoing)
        if self._loop is not None and not process.stdin.closed:
            if lines.outgoing:
                self._loop.add_writer(process.stdin.fileno(), self._write)
            else:
                self._loop.remove_writer(process.stdin.fileno())

    def _forget_pipes(self, process: Process) -> None:
        """Waits for the pipes no longer."""
        if self._loop is not None:
            if not process.stdout.closed:
                self._loop.remove_reader(process.stdout.fileno())
            if not process.stdin.closed:
                self._loop.remove_writer(process.stdin.fileno())

    def _reap(self, process: Process, limit: Deadline) -> None:
        """Takes the status of a program whose output has ended; it is killed if it does not end."""
        if process is not self._process or self._status is not None:
            return
        status = process.poll()
        if status is None and limit.is_over():
            process.kill()
            status = -9
        if status is None and self._loop is not None:
            self._loop.call_later(TICK, self._reap, process, limit)
        elif status is not None:
            self._ended(status)

    def _ended(self, status: int) -> Ended:
        if self._process is not None:
            self._forget_pipes(self._process)
        ended = super()._ended(status)
        self._wake_all()
        return ended
