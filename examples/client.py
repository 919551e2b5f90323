#!/usr/bin/env python3
"""Keeps the resources of a file running through ocfexec. It probes each resource, starts it if it does not run, monitors it, and restarts
it when a monitor fails. When the executor ends it is started again; with --journal it continues where it was.

    client.py ocfexec serve --journal /var/lib/ocfexec --meta-variables --log -
    client.py --file resources.json --check

With --socket FILE, people operate single resources by ocfctl(8), and other programs use the same executor: docs/CONTROL.md has the lines of
that socket. What is set by hand, as a stop, is kept in the directory of --state, and holds until it is set otherwise.

  SIGTERM, SIGINT  stop the resources, and end the client; its status is 1 if a resource did not stop
  SIGUSR1          ends the client and leaves the resources running; running actions end first, and the next client continues
  SIGHUP           reads the file again: new resources are started; removed ones are stopped and taken out of the journal; those whose
                   agent or parameters changed are stopped with the old ones and started with the new ones, if the new agent exists and
                   has these parameters; those that were given up are tried again

resources.py describes the file. Resources are brought up in parallel, in no order. One that fails is restarted at once, and then after 1,
2, 4 .. 60 seconds; one that has failed too often is stopped and given up, and named. If the file is missing, or names nothing, the client
does nothing, and starts no executor until SIGHUP or until another program has a command for it.

Every few seconds the client asks the executor whether it answers. One that does not answer is killed, and the journal is opened again.
The client ends with status 2 if the file is wrong, or the program is missing or may not be run, and with the executor's status if another
start would end in the same way. After any other fault it tries again, after pauses of 1, 2, 4 .. 60 seconds.

Each result is printed as a line of JSON, unless nobody reads them. Agents of Debian's package resource-agents need --meta-variables:
without Pacemaker's interval they take each monitor for a probe. --log - shows their output.

--check needs no journal: it checks the file, and asks each agent for its metadata once, with the program and the --root, --via and --path
of the command, or else with the ocfexec in PATH. --offline asks no agent.
"""
from __future__ import annotations

import argparse
import contextlib
import errno
import json
import os
import select
import shutil
import signal
import sys
import time
from typing import Dict, Iterator, List, Optional

sys.dont_write_bytecode = True
HERE = os.path.dirname(os.path.realpath(__file__))
# where the library is, if it is neither beside this file nor where this Python looks for it: in a repository, and after `make install`
sys.path += [os.path.join(HERE, "../python"), os.path.join(HERE, "../../../lib/python3/dist-packages")]
import resources  # noqa: E402
from agents import Agents, all_faults, site_command  # noqa: E402
from alerts import Alerts  # noqa: E402
from calls import Calls  # noqa: E402
from control import Control  # noqa: E402
from kept import LONGEST, NEVER, Resource, Site, described  # noqa: E402
from ocfexec import REPORTED, Ended, Error, Executor, Late, Refused, Result  # noqa: E402
from orders import Orders, is_question  # noqa: E402
from output import ERROR, INFO, Systemd, say, standard  # noqa: E402
from targets import Targets, Unusable  # noqa: E402

FILE, GROUP = "/etc/ocfexec/resources.json", "ocfexec"
MOST_FAULTS = 5  # of a file that are named
PATIENCE, ASK_EVERY = 30, 5  # how long an answer is waited for, and how often one is asked for, in seconds
OPENING = 10  # how many times the patience an opening may take
# why a program cannot be started, now and later
NO_PROGRAM = (errno.ENOENT, errno.EACCES, errno.EPERM, errno.ENOEXEC, errno.ENOTDIR, errno.EISDIR, errno.ELOOP, errno.ENAMETOOLONG)


class NoProgram(Exception):
    """The executor's program is missing, or may not be run."""


class Client:
    """Keeps all resources, through one executor after another, until a signal ends the client."""

    def __init__(self, options: argparse.Namespace) -> None:
        self.file, self.patience, command_line = options.file, options.patience, options.command_line
        self.asked: List[int] = []
        self.status = ""  # what systemd was sent last
        self.wake, waker = os.pipe()
        for end in (self.wake, waker):
            os.set_blocking(end, False)
        signal.set_wakeup_fd(waker, warn_on_full_buffer=False)
        for number in (signal.SIGTERM, signal.SIGINT, signal.SIGUSR1, signal.SIGHUP):
            signal.signal(number, lambda came, _: self.asked.append(came))
        self.systemd = Systemd(standard)
        # how often the executor is asked for an answer
        self.ask_every = min(ASK_EVERY, self.patience / 4, (self.systemd.watchdog or NEVER) / 4)
        self.ask_at = 0.0
        self.control = Control(options.socket, options.group, self.wake)
        self.executor = Executor(command_line, wake=self.control.waits, patience=self.patience, idle=self.serve_questions,
                                 on_new_journal=self.renew)
        self.agents, self.targets, self.alerts = Agents(self.metadata), Targets(options.state), Alerts()
        self.resources: Dict[str, Resource] = {}
        self.calls = Calls(self.executor, self.control, self.targets, lambda name: name in self.resources)
        self.orders = Orders(self)
        self.site = Site(self.executor, self.agents, self.targets, self.alerts, self.is_of_program)
        self.changed: List[Resource] = []  # those of which something else is wanted, and that have not begun with it
        self.logs = value_of("--logs", command_line)  # the directory of the agents' output
        self.has_read = self.has_named = self.is_ready = self.is_stopping = self.is_leaving = self.has_opened = self.has_worked = False

    # Its file and its signals

    def read(self) -> None:
        """Takes over what the file wants. A wrong file changes nothing. Raises Wrong, and OSError if it cannot be read."""
        self.want(resources.read(self.file))

    def want(self, wanted: Dict[str, resources.Wanted]) -> None:
        """Takes over what a file wants."""
        self.has_named |= bool(wanted)
        self.agents.forget()
        with self.noting():
            self.targets.others.difference_update(wanted)
        for name in wanted:
            self.add(name)
        self.changed += [resource for name, resource in self.resources.items() if resource.want(wanted.get(name))]

    def add(self, name: str) -> None:
        """Adds a resource, unless it is there."""
        if name not in self.resources:
            self.resources[name] = Resource(name, self.site, self.resources)

    def begin(self, resource: Resource) -> None:
        resource.begin(resource.ended() if self.is_stopping else resource.aimed())

    def begin_changed(self) -> None:
        """Begins with what is wanted anew. Raises what an executor raises, after which the next one continues with each resource."""
        while self.changed:
            self.begin(self.changed.pop(0))

    def read_again(self, asks: bool = False) -> None:
        """Reads the file again, and says so. If it asks the agents, a fault of one of them is one of the file. Raises as `read` does, and
        Error if no agent can be asked."""
        self.is_ready = False
        self.systemd.notify("RELOADING=1", f"MONOTONIC_USEC={time.monotonic_ns() // 1000}")
        wanted = resources.read(self.file)
        faults = self.faults(wanted) if asks and wanted else []
        if faults:
            more = f", and {len(faults) - MOST_FAULTS} more faults" if len(faults) > MOST_FAULTS else ""
            raise resources.Wrong("; ".join(faults[:MOST_FAULTS]) + more)
        self.want(wanted)
        say(f"{self.file} was read again")

    def faults(self, wanted: Dict[str, resources.Wanted]) -> List[str]:
        """What is wrong with the agents of a file. While no executor has the journal open, one without a journal asks them."""
        if self.is_open():
            self.agents.forget()
            return all_faults(self.agents, wanted)
        words = site_command(self.executor.command_line)
        with Executor(words, patience=self.patience, idle=self.serve_questions) as executor:
            return all_faults(Agents(lambda agent: self.metadata(agent, executor)), wanted)

    def reload(self) -> None:
        try:
            self.read_again()
        except (resources.Wrong, OSError) as error:
            say(f"{self.file}: {error.strerror if isinstance(error, OSError) else error}")
            say("the file is not used, and nothing is changed")

    def heed(self) -> bool:
        """Does what signals have requested. Returns whether the client has to end."""
        while select.select([self.wake], [], [], 0)[0]:
            os.read(self.wake, 4096)
        while self.asked:
            number = self.asked.pop(0)
            if self.is_stopping:
                continue
            if number == signal.SIGHUP:
                self.reload()
                continue
            self.is_ready = True
            self.tell("STOPPING=1")
            self.is_leaving, self.is_stopping = number == signal.SIGUSR1, number != signal.SIGUSR1
            for resource in self.resources.values() if self.is_stopping and self.is_open() else ():
                self.begin(resource)
        return self.is_leaving or self.is_stopping and not any(resource.task for resource in self.resources.values())

    def needs_executor(self) -> bool:
        """Whether there is something to do for an executor: resources of the file, or of other programs."""
        return bool(self.resources or self.targets.others or self.calls.is_wanted)

    def rest(self, seconds: float = NEVER) -> bool:
        """Waits without an executor until a signal comes, or one is needed that was not before. Returns whether the client has to leave,
        or to stop."""
        until, needed = time.monotonic() + seconds, self.needs_executor()
        while not self.asked and self.needs_executor() == needed:
            self.systemd.feed()
            left = min(self.ask_every, until - time.monotonic())
            if left <= 0:
                break
            select.select([self.control.waits], [], [], 0 if self.control.has_lines() else left)
            self.serve()
        self.heed()
        return self.is_leaving or self.is_stopping

    def tell(self, *lines: str) -> None:
        """Reports the state of all resources to systemd when it has changed; and, once, that each resource runs or has failed."""
        by_state: Dict[str, List[str]] = {}
        for resource in self.resources.values():
            by_state.setdefault("held" if resource.held else resource.state, []).append(resource.name)
        status = "STATUS=" + ("; ".join(f"{state}: {', '.join(names)}" for state, names in by_state.items()) or "nothing is configured")
        if not self.is_ready and all(resource.is_settled or not resource.wanted for resource in self.resources.values()):
            self.is_ready, lines = True, (*lines, "READY=1")
        if lines or status != self.status:
            self.systemd.notify(*lines, status)
            self.status = status

    # The control socket

    def serve(self) -> None:
        """Does what programs request."""
        self.control.receive()
        for program, line in self.control.lines():
            self.orders.take(program, line)
        self.orders.check()
        self.control.flush()

    def is_of_program(self, call: int) -> bool:
        """Whether another program has requested a call, or somebody a monitor by hand."""
        self.calls.hear()
        return self.calls.has(call) or self.orders.has(call)

    def serve_questions(self) -> None:
        """Answers those that ask how it stands, while an answer of the executor is waited for."""
        self.control.receive()
        for program, line in self.control.lines(is_question):
            self.orders.take(program, line)
        self.control.flush()

    # One executor

    def is_open(self) -> bool:
        """Whether an executor runs, and has opened the journal."""
        return self.has_opened and self.executor.is_running()

    def metadata(self, agent: str, executor: Optional[Executor] = None) -> str:
        """The metadata of an agent, which an executor answers."""
        try:
            return (executor or self.executor).metadata(agent)
        finally:
            self.systemd.feed()

    def lacks(self, agent: str, action: str) -> bool:
        """Whether an agent says that it does not have this action. While it cannot be asked it is not known."""
        try:
            return self.is_open() and self.agents.lacks(agent, action)
        except Error:  # an executor that has ended is found by the next call
            return False

    def open(self) -> None:
        """Starts the executor, and continues with each resource of the file and of the journal."""
        self.has_opened = self.has_worked = False
        self.start()
        self.has_opened = self.calls.is_open = True
        for result in self.executor.reported:
            say(f"{result.id}: {described(result)} when the executor ended")
        with self.noting():
            self.targets.others.intersection_update(self.executor.histories)
        # (while the file, which may be lost, has named nothing, nothing is taken for removed from it)
        for name in self.executor.histories if self.has_named else ():
            if name not in self.targets.others:
                self.add(name)
        for status in self.executor.status():
            if status.id in self.resources and status.failed:
                self.resources[status.id].failure = status.failed.raw
        self.changed = []
        for resource in self.resources.values():
            if resource.state != "given up" or self.is_stopping:
                self.begin(resource)

    def renew(self, why: str) -> None:
        """Forgets the calls of the journal before, whose numbers begin again."""
        say(why)
        self.calls.forget()
        self.orders.lose()

    def start(self) -> None:
        """Starts the executor, and waits until it is ready. Raises NoProgram; and Late if an opening takes very long, or the
        client has to leave."""
        began = time.monotonic()
        while True:
            self.systemd.feed()
            try:
                self.executor.start(self.ask_every)
                return
            except Late:
                taken = time.monotonic() - began
                self.heed()
                if taken > OPENING * self.patience or self.is_leaving:
                    raise
                if taken // self.patience > (taken - self.ask_every) // self.patience:
                    say(f"the executor has been opening its journal for {taken:.0f} s")
            except OSError as error:
                if error.errno in NO_PROGRAM:
                    raise NoProgram(f"{self.executor.command_line[0]}: {error.strerror}") from error
                raise

    def look(self) -> None:
        """Waits for what comes next, and passes it to its resource. Asks the executor for an answer when that is due."""
        self.begin_changed()
        due = min([self.ask_at, *(resource.due for resource in self.resources.values())])
        self.executor.wait(0 if self.control.has_lines() else max(0, due - time.monotonic()))
        self.serve()
        self.begin_changed()
        for result in self.take_results():
            if result.id in self.resources:
                self.resources[result.id].take(result)
        while any([resource.poll() for resource in self.resources.values()]):
            pass
        while self.executor.problems:
            say(f"the executor could not make a turn: {self.executor.problems.pop(0)}")
        self.forget_gone()
        if self.ask_at <= time.monotonic():
            self.executor.version()
            self.systemd.feed()
            self.control.open()
            self.alerts.poll()
            self.ask_at = time.monotonic() + self.ask_every
        self.orders.check()
        self.control.flush()

    def forget_gone(self) -> None:
        """Forgets the resources that the file and the journal no longer have."""
        gone = [name for name, resource in self.resources.items() if resource.state == "gone"]
        with self.noting():
            for name in gone:
                self.targets.forget(name)
        for name in gone:
            del self.resources[name]

    @contextlib.contextmanager
    def noting(self) -> Iterator[None]:
        """Changes of what is kept of the hand, which follow from others; the resources are kept even if it cannot be written."""
        try:
            with self.targets.changing():
                yield
        except OSError as error:
            say(f"{self.targets.directory}: {error.strerror}")

    def take_results(self) -> List[Result]:
        """The results that have come, each of which is printed, and passed to the programs that it concerns."""
        found = self.executor.results()
        self.calls.hear()
        for result in found:
            standard.result(json.dumps({**result.raw, "id": result.id}, separators=(",", ":"), sort_keys=True))
            self.has_worked |= result.outcome not in REPORTED
            self.calls.notice(result)
            self.orders.notice(result)
        return found

    def keep(self) -> int:
        """Keeps the resources until the client has to end, and returns its status. Raises Ended."""
        self.open()
        while not self.heed():
            self.tell()
            self.look()
        status = self.leave()
        self.calls.lose()
        self.take_results()
        if status:
            say(f"the executor ended with status {status}")
        return int(status != 0 or any(resource.state == "not stopped" for resource in self.resources.values()))

    def leave(self) -> int:
        """Lets the executor end its running actions and leave, within their timeouts. Returns its status."""
        limits = [resource.now.timeout(action) / 1000 for resource in self.resources.values() for action in ("start", "stop", "monitor")]
        until = time.monotonic() + max(limits, default=0) + self.patience
        while True:
            self.systemd.feed()
            try:
                return self.executor.leave(self.ask_every)
            except Late:
                if time.monotonic() > until:
                    raise

    def end_executor(self) -> None:
        """Kills an executor that still runs, after a fault."""
        if not self.executor.is_running():
            return
        pid = self.executor.pid
        say(f"the executor, process {pid}, is killed, and the journal is opened again")
        try:
            self.executor.kill()
        except (Error, OSError) as error:
            say(f"process {pid} has not ended: {error}")

    # All executors

    def first_read(self) -> None:
        """Reads the file, unless it is missing, and waits until it names a resource, or the client has to end."""
        if not self.has_read:
            try:
                self.read()
            except FileNotFoundError:
                pass
            self.has_read = True
        while not self.needs_executor():
            say(f"{self.file} is missing or names no resource: nothing to do until SIGHUP")
            self.tell()
            if self.rest():
                return

    def run(self) -> int:
        """The client's exit status."""
        pause = 0
        try:
            self.targets.read()
        except (Unusable, OSError) as error:
            say(str(error), ERROR)
            return 2
        self.control.open()
        while True:
            try:
                self.first_read()
                return self.keep() if self.needs_executor() else 0
            except Ended as ended:
                say(str(ended), ERROR if ended.needs_administrator else INFO)
                if ended.needs_administrator:
                    self.calls.lose()
                    self.take_results()
                    return ended.status
            except resources.Wrong as wrong:
                say(f"{self.file}: {wrong}", ERROR)
                return 2
            except NoProgram as error:
                say(str(error), ERROR)
                return 2
            except (Error, OSError, MemoryError) as error:
                say(f"{error or type(error).__name__}")
                self.end_executor()
            self.calls.lose()
            self.take_results()
            if self.is_stopping and not self.has_opened:
                return 1
            # if an executor has sent a result, the next one follows at once
            pause = 0 if self.has_worked else min(LONGEST, 2 * pause or 1)
            if pause:
                say(f"it is tried again in {pause} s")
                if self.rest(pause) and self.is_leaving:
                    return 0


def value_of(option: str, words: List[str]) -> Optional[str]:
    """The value of an option of the executor's command line."""
    for place, word in enumerate(words):
        if word.startswith(f"{option}="):
            return word.partition("=")[2]
        if word == option and place + 1 < len(words):
            return words[place + 1]
    return None


def check(file: str, command_line: List[str], is_offline: bool, patience: float) -> int:
    """Checks the file, and asks each of its agents. Returns the status."""
    try:
        wanted = resources.read(file)
    except (resources.Wrong, OSError) as error:
        sys.exit(f"{file}: {error.strerror if isinstance(error, OSError) else error}")
    program = command_line or [path for path in (shutil.which("ocfexec"),) if path]
    note = ""
    if wanted and not is_offline and not program:
        note = "; no agent was asked: there is no ocfexec in PATH, and no command was given"
    elif wanted and not is_offline:
        try:
            with Executor(site_command(program), patience=patience) as executor:
                agents = Agents(executor.metadata)
                faults = refusals(executor, wanted) + all_faults(agents, wanted)
                silent = sorted({one.agent for one in wanted.values() if agents.is_silent(one.agent)})
        except (Error, OSError) as error:
            sys.exit(f"{file}: its agents cannot be asked: {error}")
        if faults:
            sys.exit("\n".join(f"{file}: {fault}" for fault in faults))
        note = f"; no metadata, so parameters are not checked: {', '.join(silent)}" if silent else ""
    print(f"{file}: {len(wanted)} resources{note}")
    return 0


def refusals(executor: Executor, wanted: Dict[str, resources.Wanted]) -> List[str]:
    """Which resources an executor refuses, and why."""
    found = []
    for name, one in wanted.items():
        try:
            executor.register(name, one.agent, one.params)
        except Refused as refused:
            found.append(f"resources.{name}: {refused}")
    return found


def seconds(text: str) -> float:
    value = float(text)
    if not 0 < value < NEVER:
        raise ValueError(text)
    return value


def main() -> int:
    parser = argparse.ArgumentParser(description=__doc__, formatter_class=argparse.RawDescriptionHelpFormatter)
    parser.add_argument("--file", default=FILE, help="the file of resources (%(default)s)")
    parser.add_argument("--check", action="store_true", help="check the file and its agents, and exit")
    parser.add_argument("--offline", action="store_true", help="with --check: ask no agent")
    parser.add_argument("--patience", type=seconds, default=PATIENCE, metavar="SECONDS",
                        help="how long an answer of the executor is waited for (%(default)s)")
    parser.add_argument("--socket", metavar="FILE", help="the control socket, which root may use; needs --state")
    parser.add_argument("--group", default=GROUP, metavar="NAME", help="the group that may ask by the socket (%(default)s)")
    parser.add_argument("--state", metavar="DIR", help="the directory in which is kept what was set by hand")
    parser.add_argument("command_line", nargs=argparse.REMAINDER, metavar="command", help="the executor's command line")
    options = parser.parse_args()
    if options.check:
        return check(options.file, options.command_line, options.offline, options.patience)
    if not options.command_line:
        parser.error("the executor's command line is missing")
    if options.socket and not options.state:
        parser.error("--socket needs --state")
    client = Client(options)
    try:
        return client.run()
    finally:
        client.control.close()
        standard.end()


if __name__ == "__main__":
    sys.exit(main())
