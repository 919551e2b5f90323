"""A resource that client.py keeps as its target says: its tasks, and how they proceed."""
from __future__ import annotations

import dataclasses
import time
from typing import Any, Callable, Dict, Generator, List, Mapping, Optional, Union

import resources
from agents import Agents
from alerts import Alerts
from ocfexec import REPORTED, Executor, Info, Refused, Result
from output import ERROR, INFO, say
from targets import Targets, now

UNPROMOTED, PROMOTED = (0, 190), (8, 191)  # the exit codes of a monitor that finds its resource running so
RUNNING = UNPROMOTED + PROMOTED
NOT_RUNNING = 7  # and cleanly stopped
# what a monitor is expected to find after an action that still runs
LEADS_TO = {"start": UNPROMOTED[0], "stop": NOT_RUNNING, "promote": PROMOTED[0], "demote": UNPROMOTED[0]}
LONGEST = 60  # the longest pause, in seconds
WATCH = "watch"
NEVER = float("inf")
# states in which a resource may be used
UP = ("running", "promoted", "unmanaged")
# what a task yields: an action, as a command; a pause, in seconds; WATCH; or a condition, until it holds
Awaited = Union[Dict[str, Any], float, str, Callable[[], bool]]
Task = Generator[Awaited, Any, None]


class GivenUp(Exception):
    """A resource failed too often."""


def described(result: Result) -> str:
    """A result in words, such as: start ended with 1 (OCF_ERR_GENERIC)."""
    if result.outcome in ("done", "not-started"):
        how = "ended" if result.outcome == "done" else "was not started,"
        return f"{result.action} {how} with {result.code} ({result.name})"
    return f"{result.action} was {result.outcome}"


def expected_after(result: Result) -> int:
    """The exit code that a monitor is expected to have after this result of a history. What was interrupted is likely to be done; what a
    stop that failed left is likely to run."""
    is_done = result.outcome == "interrupted" or (result.outcome, result.code) == ("done", 0)
    if result.action == "stop":
        return NOT_RUNNING if is_done else UNPROMOTED[0]
    if result.action == "promote" and is_done or result.code in PROMOTED:
        return PROMOTED[0]
    return UNPROMOTED[0] if is_done or result.code in UNPROMOTED or result.action in ("promote", "demote") else NOT_RUNNING


def found_running(result: Result) -> bool:
    """Whether a resource runs after this result."""
    if result.action == "monitor":
        return result.code in RUNNING and result.outcome == "done"
    return result.action != "stop" and not result.failed


@dataclasses.dataclass(frozen=True)
class Site:
    """What all resources share."""

    executor: Executor
    agents: Agents
    targets: Targets
    alerts: Alerts
    is_of_program: Callable[[int], bool]  # whether another program has requested a call


class Resource:
    """A resource that is kept. Its task is a generator of what it waits for: an action, yielded as a command, after which it is sent the
    result; a pause, yielded in seconds; a condition; or WATCH, after which it is sent the result of a monitor that does not find the
    resource as it should be, or None if another resource has to stop before which this one stops."""

    def __init__(self, name: str, site: Site, family: Mapping[str, Resource]) -> None:
        self.name, self.family = name, family
        self.executor, self.agents, self.targets, self.alerts = site.executor, site.agents, site.targets, site.alerts
        self.is_of_program = site.is_of_program
        # what the file wants now, and what it wanted before
        self.wanted: Optional[resources.Wanted] = None
        self.had = resources.Wanted("", "")
        self._state, self.since, self._is_settled = "new", now(), False
        self.restarts: List[float] = []  # when it was restarted, by the monotonic clock
        self.task: Optional[Task] = None
        self.awaited: Union[int, str, None] = None  # the number of a call, or WATCH
        self.condition: Optional[Callable[[], bool]] = None
        self.due = NEVER  # when its pause is over
        self.doing: Optional[Dict[str, Any]] = None  # the action that it waits for, and the moment when it was requested
        self.last: Result  # the last result that its task took notice of, once there is one
        self.failure: Optional[Dict[str, Any]] = None  # its last failure, as in a status or a notice
        self.held: Optional[int] = None  # a process of an interrupted action, until whose end nothing begins
        self.asked = ""  # restart or stop: what was requested by hand, until it is done
        self.orders = 0  # how many times something was requested by hand, or by a change of the file
        self.was_doing: Optional[Dict[str, Any]] = None  # the action that the previous task waited for, until a result of this one
        self.is_promoted = self.is_down = self.wants_down = self.is_failing = False

    # What it is to be, and what it is

    @property
    def now(self) -> resources.Wanted:
        """What the file wants, or wanted before it had the resource no longer."""
        return self.wanted or self.had

    @property
    def latest(self) -> Optional[Result]:
        """The last result that its task took notice of, if there is one."""
        return getattr(self, "last", None)

    @property
    def target(self) -> str:
        by_hand = self.targets.targets.get(self.name)
        return by_hand.target if by_hand else self.now.target

    @property
    def is_managed(self) -> bool:
        by_hand = self.targets.managed.get(self.name)
        return by_hand.managed if by_hand else self.now.managed

    @property
    def is_left_alone(self) -> bool:
        """Whether it is neither started nor stopped."""
        return self.targets.maintenance is not None or not self.is_managed

    @property
    def state(self) -> str:
        """Its state in a word or two."""
        return self._state

    @state.setter
    def state(self, state: str) -> None:
        if state != self._state:
            self._state, self.since = state, now()

    @property
    def is_settled(self) -> bool:
        """Whether what was wanted last has come to an end, with success or not."""
        waits = self.state.startswith("waiting for ")
        return self._is_settled or waits and all(one.is_settled for one in self.befores() if not one.is_up)

    @property
    def is_up(self) -> bool:
        """Whether those that it is before may run."""
        return self.state in UP and not self.wants_down

    @property
    def is_as_wanted(self) -> bool:
        """Whether it is as the file and the hand want it."""
        if self.targets.maintenance is not None:
            return self.state == "in maintenance"
        if not self.wanted:
            return self.state == "gone"
        if not self.is_managed:
            return self.state == "unmanaged"
        if self.target == "stopped":
            return self.state in ("stopped", "stopped by hand")
        return self.state == "promoted" if self.target == "promoted" else self.state == "running"

    def befores(self) -> List[Resource]:
        """The resources that have to run before it is started."""
        return [self.family[name] for name in self.now.after if name in self.family]

    def afters(self) -> List[Resource]:
        """The resources that have to be stopped before it is."""
        return [one for one in self.family.values() if self.name in one.now.after]

    def want(self, wanted: Optional[resources.Wanted]) -> bool:
        """Sets what the file wants of it from now on; None if the file no longer has it. Returns whether that needs an action."""
        differs = wanted != self.wanted or self.state == "given up"
        if differs:
            self.had, self.wanted = self.now, wanted
            self.unsettle()
        return differs

    def unsettle(self) -> None:
        """Begins to count its tries anew."""
        self.restarts.clear()
        self._is_settled = False
        self.orders += 1

    def ask(self, op: str, *allowed: str, **more: Any) -> Dict[str, Any]:
        return self.executor.ask({"op": op, "id": self.name, **more}, allow=allowed)

    def action(self, action: str, **more: Any) -> Dict[str, Any]:
        return {"op": "exec", "id": self.name, "action": action, "timeout": self.now.timeout(action), **more}

    def settle(self, state: str, what: str, priority: int = INFO) -> None:
        say(f"{self.name} {what}", priority)
        self.state, self._is_settled = state, True
        if priority == ERROR:
            self.alert("given-up", self.latest)

    def alert(self, word: str, result: Optional[Result]) -> None:
        """Tells the alert agent of a failure, the recovery, or that it is given up."""
        if self.now.alert and result and (word != "recovery" or self.is_failing):
            self.alerts.send(self.now.alert, word, result)
        self.is_failing = word != "recovery"

    # Its tasks

    def aimed(self) -> Task:
        """The task that makes it what it is to be."""
        if self.targets.maintenance is not None:
            return self.maintained()
        if not self.wanted:
            return self.removed()
        if not self.is_managed:
            return self.unmanaged()
        if self.target == "stopped":
            return self.halted()
        return self.restarted() if self.asked == "restart" else self.kept()

    def kept(self) -> Task:
        """Keeps it running, until it has failed too often."""
        try:
            self.clear()
            yield from self.registered()
            self.last = yield self.probe()
            is_first = self.is_down = self.last.code == NOT_RUNNING
            while True:
                if not found_running(self.last):
                    yield from self.started(is_first)
                is_first = False
                yield from self.in_role()
                if not found_running(self.last):
                    say(f"{self.name} is not as it should be: {described(self.last)}")
                    continue
                self.monitor()
                came = yield WATCH
                if came is None:
                    yield from self.out_of_the_way()
                    is_first = not self.last.failed
                else:
                    self.last, self.state = came, "failed"
                    what = "is not promoted as it should be" if found_running(came) else "does not run"
                    say(f"{self.name} {what}: {described(came)}")
        except GivenUp as why:
            yield from self.given_up(why)

    def halted(self) -> Task:
        """Stops it, unless it is found stopped, and leaves it so. It is not tried again."""
        self.clear()
        self.state = "stopping"
        yield from self.registered()
        self.cancel_monitors()
        if self.asked != "stop":
            self.last = yield self.probe()
        if self.asked == "stop" or self.last.code != NOT_RUNNING:
            yield from self.before_others()
            self.last = yield self.action("stop")
        self.asked, self.is_down, self.wants_down = "", True, True
        if self.last.action == "stop" and self.last.failed:
            return self.settle("not stopped", f"could not be stopped: {described(self.last)}", ERROR)
        by_hand = " by hand" if self.name in self.targets.targets else ""
        return self.settle(f"stopped{by_hand}", f"is stopped{by_hand}")

    def restarted(self) -> Task:
        """Stops it, starts it, and keeps it running."""
        self.clear()
        self.state = "stopping"
        yield from self.registered()
        self.cancel_monitors()
        yield from self.before_others()
        self.last = yield self.action("stop")
        self.asked, self.is_down = "", True
        if self.last.failed:
            return self.settle("not stopped", f"could not be stopped: {described(self.last)}", ERROR)
        return (yield from self.kept())

    def unmanaged(self) -> Task:
        """Monitors it, and neither starts nor stops it."""
        self.clear()
        self.ask("register", "exists", provider=self.now.provider, type=self.now.type, params=self.now.params)
        self.add_monitors()
        self.is_down = self.wants_down = False
        self.settle("unmanaged", "is not managed: its monitors go on, and nothing starts or stops it")
        while True:
            self.last = yield WATCH

    def maintained(self) -> Task:
        """Does nothing with it."""
        self.clear()
        self.cancel_monitors()
        self.is_down = self.wants_down = False
        self.state, self._is_settled = "in maintenance", True
        yield from ()

    def removed(self) -> Task:
        """Stops it with its old parameters, and takes it out of the journal."""
        try:
            self.clear()
            if self.is_managed:
                say(f"{self.name} is no longer in the file: it is stopped and unregistered")
                yield from self.unregistered()
            else:
                say(f"{self.name} is no longer in the file, and not managed: it is unregistered as it is")
                self.cancel_monitors()
                self.ask("unregister", "unknown-resource")
            self.state, self._is_settled = "gone", True
        except GivenUp as why:
            self.settle("given up", f"is given up: {why}", ERROR)

    def ended(self) -> Task:
        """Stops it once, as the client ends; one that is left alone stays as it is."""
        self.clear()
        if self.is_left_alone:
            return None
        self.state = "not stopped"
        if self.cancel_monitors():
            yield from self.before_others()
            self.last = yield self.action("stop")
            if self.last.failed:
                return say(f"{self.name} could not be stopped: {described(self.last)}", ERROR)
            say(f"{self.name} is stopped")
        self.state, self.is_down = "stopped", True
        return None

    def given_up(self, why: GivenUp) -> Task:
        """Leaves it stopped. A stop that failed is not repeated: it needs an administrator."""
        self.cancel_monitors()
        if self.last.action != "stop":
            yield from self.before_others()
            yield self.action("stop")
        self.is_down = self.wants_down = True
        self.settle("given up", f"is given up: {why}", ERROR)

    # The steps of its tasks

    def registered(self) -> Task:
        """Registers it. One that is registered with another agent or other parameters is stopped first, and kept as it is if it could not
        be registered and run with the new ones."""
        reply = self.ask("info", "unknown-resource")
        info = None if "error" in reply else Info.of(reply)
        if info and not self.now.is_registered_as(info):
            faults = list(self.agents.faults(self.now))
            if faults:
                say(f"{self.name} stays as it was: {faults[0]}")
                self.wanted = dataclasses.replace(self.now, provider=info.provider, type=info.type, params=info.params)
            else:
                say(f"{self.name} has changed in the file: it is stopped with its old agent and parameters")
                yield from self.unregistered()
        self.ask("register", "exists", provider=self.now.provider, type=self.now.type, params=self.now.params)

    def unregistered(self) -> Task:
        if not self.cancel_monitors():
            return
        self.state = "stopping"
        yield from self.before_others()
        self.last = yield self.action("stop")
        while self.last.failed:
            yield from self.paused()
            self.last = yield self.action("stop")
        self.is_down = True
        self.ask("unregister")

    def started(self, is_first: bool) -> Task:
        """Starts it until that succeeds. After a failure it is stopped first; if it did not stop, it is not started."""
        self.state = "starting"
        while True:
            if not is_first:
                yield from self.paused()
            is_first = False
            if (self.last.action, self.last.code) not in (("monitor", NOT_RUNNING), ("stop", 0)):
                yield from self.before_others()
                self.last = yield self.action("stop")
            if self.last.action != "stop" or not self.last.failed:
                yield from self.between_others()
                self.last = yield self.action("start")
                if not self.last.failed:
                    return

    def between_others(self) -> Task:
        """Waits until those that stop before it are stopped, and those that it is started after run."""
        self.is_down = True
        yield from self.before_others()
        missing = [one.name for one in self.befores() if not one.is_up]
        if missing:
            self.state = f"waiting for {', '.join(missing)}"
            yield lambda: all(one.is_up for one in self.befores())
        self.state, self.is_down = "starting", False

    def before_others(self) -> Task:
        """Waits until those are stopped that have to be before it is."""
        self.wants_down = True
        yield lambda: all(one.is_down or one.task is None or one.is_left_alone for one in self.afters())

    def out_of_the_way(self) -> Task:
        """Stops it, since one that it is started after will stop."""
        self.state, self._is_settled = "stopping", False
        self.cancel_monitors()
        yield from self.before_others()
        self.last = yield self.action("stop")
        self.is_down = True

    def in_role(self) -> Task:
        """Promotes or demotes it, if it has to be and is not."""
        self.is_promoted = self.last.action == "monitor" and self.last.code in PROMOTED
        action = {"promoted": "promote", "unpromoted": "demote"}.get(self.target)
        if action and self.is_promoted != (action == "promote"):
            self.state = "promoting" if action == "promote" else "demoting"
            self.cancel_monitors()
            self.last = yield self.action(action)
            self.is_promoted = (action == "promote") != bool(self.last.failed)

    def paused(self) -> Task:
        """Waits until the next try is due. Raises GivenUp if there were too many."""
        now, limits, why = time.monotonic(), self.now, described(self.last)
        self.restarts = [moment for moment in self.restarts if moment > now - limits.within / 1000]
        if len(self.restarts) >= limits.restarts:
            raise GivenUp(f"{why}, and it was tried {len(self.restarts)} times more within {limits.within} ms")
        pause = min(LONGEST, 2 ** len(self.restarts) // 2)
        self.restarts.append(now + pause)
        if pause:
            self.settle("failed", f"is tried again in {pause} s: {why}")
            yield pause

    def probe(self) -> Dict[str, Any]:
        """A monitor. It expects what the action that still runs leads to, or else the results in the journal, or, after these were
        forgotten, the monitors that only a running resource has."""
        if self.was_doing and self.was_doing["action"] in LEADS_TO:
            return self.action("monitor", expect=LEADS_TO[self.was_doing["action"]])
        found = [result for result in self.executor.history(self.name) if result.outcome not in ("dropped", "cancelled")]
        last = next((result for result in reversed(found) if (result.action, result.outcome) != ("monitor", "interrupted")), None)
        recurring = [] if last else [one.expect for one in self.executor.info(self.name).recurring]
        return self.action("monitor", expect=expected_after(last) if last else recurring[0] if recurring else NOT_RUNNING)

    def monitor(self) -> None:
        """Adds the monitors that the file wants."""
        self.add_monitors()
        self.wants_down = self.is_down = False
        self.alert("recovery", self.last)
        self.settle(*("promoted", "runs, promoted") if self.is_promoted and self.target == "promoted" else ("running", "runs"))

    def add_monitors(self) -> None:
        """Adds the monitors that the file wants, and removes all others."""
        expect = PROMOTED[0] if self.target == "promoted" else UNPROMOTED[0]
        wanted = [(interval, self.now.timeout("monitor"), level, expect) for interval, level in self.now.all_monitors()]
        for one in self.executor.info(self.name).recurring:
            if (one.interval, one.timeout, one.level, one.expect) not in wanted:
                self.executor.cancel(self.name, one.interval)
        for interval, timeout, level, expect in wanted:
            self.ask("recur", "exists", interval=interval, timeout=timeout, level=level, expect=expect)

    def cancel_monitors(self) -> bool:
        """Whether it is registered at all."""
        info = self.ask("info", "unknown-resource")
        for monitor in info.get("recurring", []):
            self.executor.cancel(self.name, monitor["interval"])
        return "error" not in info

    def clear(self) -> None:
        """Withdraws its queued actions, so that only those that have begun are awaited."""
        for call in self.ask("info", "unknown-resource").get("queued", []):
            if not self.is_of_program(call):
                if "error" not in self.ask("withdraw", "not-queued", call=call) and self.was_doing and self.was_doing["call"] == call:
                    self.was_doing = None

    # How a task proceeds

    def begin(self, task: Task) -> None:
        """Begins this task in place of the previous one."""
        if self.task:
            self.task.close()
        self.was_doing = self.doing
        self.task = task
        self.go_on(None)

    def go_on(self, came: Optional[Result]) -> None:
        """Passes a value to the task, and runs it up to what it waits for next."""
        self.awaited, self.due, self.condition, self.doing = None, NEVER, None, None
        if came is not None:
            self.was_doing = None
        if self.task is None:
            return
        try:
            what = self.task.send(came)
            while callable(what) and what():
                what = self.task.send(None)
            self.await_(what)
        except StopIteration:
            self.task = None
        except Refused as refused:
            self.task = None
            if refused.word not in ("disk", "closed"):  # these two end the executor
                self.settle("not stopped" if self.state == "not stopped" else "given up", f"is given up: {refused}", ERROR)

    def await_(self, what: Awaited) -> None:
        """Notes what the task waits for, and requests it if it is an action."""
        if isinstance(what, dict):
            self.awaited = self.executor.ask(what)["call"]
            self.doing = {"action": what["action"], "call": self.awaited, "since": now(), "timeout": what["timeout"]}
        elif isinstance(what, str):
            self.awaited = what
        elif callable(what):
            self.condition = what
        else:
            self.due = time.monotonic() + what

    def poll(self) -> bool:
        """Goes on if its pause is over, what it waits for holds, or it is in the way of another resource. Returns whether it did."""
        is_idle = self.state in ("running", "promoted") and self.awaited == WATCH or self.due != NEVER
        goes_on = self.due <= time.monotonic() or self.condition and self.condition() or is_idle and any(
            one.wants_down for one in self.befores())
        if goes_on:
            self.go_on(None)
        return bool(goes_on)

    def take(self, result: Result) -> None:
        """Takes one of its results."""
        # (a promoted resource runs, too; a result found only in the journal is of an earlier executor)
        good = {"promoted": PROMOTED, "unpromoted": UNPROMOTED}.get(self.target, RUNNING)
        fails = bool(result.interval and result.failed and result.code not in good)
        if result.outcome not in REPORTED:
            self.held = None
        elif result.outcome == "interrupted":
            self.held = result.lives
        if result.failed and result.outcome != "dropped":
            self.failure = dict(result.raw)
        if self.awaited != result.call and not (self.awaited == WATCH and fails):
            return
        if result.failed and (result.interval or result.action != "monitor") and not (result.interval and self.is_failing):
            self.alert("failure", result)
        self.go_on(result)
