"""What people and programs request by hand through the control socket of client.py, and how it goes on until it has come to an end."""
from __future__ import annotations

import contextlib
import json
from dataclasses import dataclass, field
from typing import TYPE_CHECKING, Any, Dict, Iterator, List, Optional

from agents import NEEDED
from calls import is_tag, tagged
from control import Line, Program
from kept import NOT_RUNNING, PROMOTED, UNPROMOTED, Resource
from ocfexec import Error, Result
from output import say
from resources import Wrong
from targets import now

if TYPE_CHECKING:
    from client import Client

# requests about one resource that change what it is to be, with the target that they set, if it is always the same
TARGETED = {"start": None, "stop": "stopped", "restart": None, "promote": "promoted", "demote": "unpromoted"}
OF_ONE = (*TARGETED, "manage", "unmanage", "monitor", "forget")
OF_ALL = ("status", "reload", "maintenance")


def is_question(line: bytes) -> bool:
    """Whether a line asks for a status, which is answered at any moment."""
    try:
        value = json.loads(line)
        return isinstance(value, dict) and value.get("do") == "status" and "op" not in value
    except (ValueError, RecursionError):
        return False


class Denied(Exception):
    """A request is refused, with a word and a sentence."""

    def __init__(self, word: str, message: str) -> None:
        super().__init__(message)
        self.word, self.message = word, message


@dataclass
class Order:
    """A request that has not come to its end."""

    program: Program
    tag: Optional[str]
    do: str
    names: List[str]
    expect: int = 0  # of a monitor
    numbers: Dict[str, int] = field(default_factory=dict)  # of each resource, how often something was requested of it


def standing(resource: Resource) -> Line:
    """A resource in a status."""
    target, managed = resource.targets.targets.get(resource.name), resource.targets.managed.get(resource.name)
    return {"id": resource.name, "agent": resource.now.agent, "state": resource.state, "since": resource.since,
            "settled": resource.is_settled, "as_wanted": resource.is_as_wanted, "target": resource.target, "managed": resource.is_managed,
            "target_by_hand": target and target.since, "managed_by_hand": managed and managed.since, "doing": resource.doing,
            "held": resource.held, "last": resource.latest and {**resource.latest.raw, "id": resource.name}, "failed": resource.failure}


class Orders:
    """The requests of all programs. A line of a program with the key `do` is one of these, and one with `op` is a command for the
    executor."""

    def __init__(self, client: Client) -> None:
        self.client = client
        self._orders: List[Order] = []
        self._monitors: Dict[int, Order] = {}  # by the call

    def take(self, program: Program, line: bytes) -> None:
        """Takes a line of a program."""
        try:
            value = json.loads(line)
        except (ValueError, RecursionError):
            value = None
        if not isinstance(value, dict):
            return program.refuse("syntax", "a line is one JSON object", number=1)
        if "op" in value:
            return self.client.calls.command(program, value)
        tag = value.pop("tag", None)
        if not is_tag(tag):
            return program.refuse("bad-value", "tag must be a text of at most 64 bytes", key="tag", number=4)
        try:
            reply = self._events(program, value) if "events" in value else self._do(program, tag, value)
        except Denied as denied:
            reply = {"error": denied.word, "message": denied.message}
        program.send(tagged({**reply, "kind": "reply"}, tag))
        return None

    def _events(self, program: Program, value: Line) -> Line:
        program.wants_events = value["events"] is True
        return {"ok": True}

    def _do(self, program: Program, tag: Optional[str], value: Line) -> Line:
        """Begins what is requested. Raises Denied."""
        do = value.pop("do", None)
        if do not in OF_ONE + OF_ALL:
            raise Denied("unknown-do", f"what to do is one of {', '.join(sorted(OF_ONE + OF_ALL))}")
        known = {"status": ("ids",), "reload": ("offline",), "maintenance": ("on",), "monitor": ("id", "level")}.get(do, ("id",))
        for key in value:
            if key not in known:
                raise Denied("bad-value", f"{do} has no key {key}")
        if do == "status":
            return self._status(value.get("ids"))
        if not program.may_change:
            raise Denied("denied", "only root may change something")
        if self.client.is_stopping or self.client.is_leaving:
            raise Denied("closed", "the client ends")
        order = Order(program, tag, do, [])
        if do == "reload":
            self._reload(value.get("offline", False))
        elif do == "maintenance":
            self._maintain(value.get("on"))
        elif do in ("monitor", "forget"):
            return self._command(order, self._resource(value), value)
        else:
            order.names = [self._resource(value).name]
            self._order(do, self.client.resources[order.names[0]])
        order.names = order.names or list(self.client.resources)
        order.numbers = {name: self.client.resources[name].orders for name in order.names}
        self._orders.append(order)
        program.unanswered += 1
        return {"ok": True}

    def _resource(self, value: Line) -> Resource:
        """The resource that a request is about."""
        name = value.get("id")
        if not isinstance(name, str):
            raise Denied("bad-value", "id must be the name of a resource")
        resource = self.client.resources.get(name)
        if resource is None or not resource.wanted:
            known = ", ".join(one.name for one in self.client.resources.values() if one.wanted)
            raise Denied("unknown-resource", f"the client's file has no resource {name}" + (f"; it has {known}" if known else ""))
        return resource

    def _status(self, ids: Any) -> Line:
        """The standing of these resources, or of all."""
        client = self.client
        if ids is not None and not (isinstance(ids, list) and all(isinstance(name, str) for name in ids)):
            raise Denied("bad-value", "ids must be a list of names")
        for name in ids or ():
            if name not in client.resources:
                raise Denied("unknown-resource", f"there is no resource {name}")
        names = list(client.resources) if ids is None else ids
        return {"ok": True, "status": [standing(client.resources[name]) for name in names], "maintenance": client.targets.maintenance,
                "others": sorted(client.targets.others), "executor": client.executor.pid if client.is_open() else None,
                "logs": client.logs}

    # What is requested

    def _order(self, do: str, resource: Resource) -> None:
        """Sets what a resource is to be, and begins to make it so."""
        targets, client, name = self.client.targets, self.client, resource.name
        if targets.maintenance is not None:
            raise Denied("maintenance", "the node is in maintenance, in which nothing is done: end it by `maintenance off`")
        if do in TARGETED and not resource.is_managed:
            raise Denied("unmanaged", f"{name} is not managed, so nothing is started or stopped: `manage {name}` ends that")
        if do in NEEDED.values() and client.lacks(resource.now.agent, do):
            raise Denied("unsupported", f"the agent {resource.now.agent} has no action {do}")
        with self._saving():
            if do in TARGETED:
                targets.set_target(name, self._target(do, resource), resource.now.target)
            else:
                targets.set_managed(name, do == "manage", resource.now.managed)
        say(f"{name}: {do} by hand")
        resource.unsettle()
        resource.asked = do if do in ("stop", "restart") else ""
        if resource.state == "given up":
            resource.state = "new"
        client.changed.append(resource)

    def _target(self, do: str, resource: Resource) -> str:
        """The target that a request sets. One to start leaves a target that is already another way of running."""
        if wanted := TARGETED[do]:
            return wanted
        of_file, here = resource.now.target, resource.target
        return here if here != "stopped" else of_file if of_file != "stopped" else "started"

    @contextlib.contextmanager
    def _saving(self) -> Iterator[None]:
        """Changes of what is set by hand, which are refused if they cannot be kept."""
        try:
            with self.client.targets.changing():
                yield
        except OSError as error:
            raise Denied("disk", f"it cannot be kept: {error.strerror}") from None

    def _reload(self, is_offline: Any) -> None:
        """Reads the file, after its agents were asked, unless it is offline. A fault of the file or of an agent changes nothing."""
        if not isinstance(is_offline, bool):
            raise Denied("bad-value", "offline must be true or false")
        file = self.client.file
        try:
            self.client.read_again(not is_offline)
        except Wrong as wrong:
            raise Denied("wrong-file", f"{file}: {wrong}; nothing is changed") from None
        except OSError as error:
            raise Denied("wrong-file", f"{file}: {error.strerror}; nothing is changed") from None
        except Error as error:
            raise Denied("closed", f"{file}: its agents cannot be asked: {error}; nothing is changed") from None

    def _maintain(self, is_on: Any) -> None:
        """Begins maintenance of all resources, or ends it."""
        client = self.client
        if not isinstance(is_on, bool):
            raise Denied("bad-value", "on must be true or false")
        if is_on == (client.targets.maintenance is not None):
            return
        with self._saving():
            client.targets.maintenance = now() if is_on else None
        say(f"maintenance {'begins: nothing is done' if is_on else 'ends'}")
        for resource in client.resources.values():
            resource.unsettle()
            client.changed.append(resource)

    def _command(self, order: Order, resource: Resource, value: Line) -> Line:
        """Sends the executor a command about a resource, which changes nothing of what it is to be."""
        client, name, level = self.client, resource.name, value.get("level", 0)
        if isinstance(level, bool) or level not in (0, 10, 20):
            raise Denied("bad-value", "level must be 0, 10 or 20")
        if not client.is_open():
            raise Denied("closed", "no executor has the journal open at this moment")
        order.names = [name]
        order.program.unanswered += 1
        if order.do == "forget":
            resource.restarts.clear()
            resource.failure = None
            client.calls.submit({"op": "forget", "id": name}, lambda reply: self._replied(order, reply))
        else:
            order.expect = NOT_RUNNING if resource.is_down else PROMOTED[0] if resource.is_promoted else UNPROMOTED[0]
            command = resource.action("monitor", level=level, expect=order.expect)
            client.calls.submit(command, lambda reply: self._replied(order, reply))
        return {"ok": True}

    # How it comes to its end

    def _replied(self, order: Order, reply: Optional[Line]) -> None:
        """Takes the executor's reply to a command of `_command`."""
        if reply is not None and "call" in reply:
            self._monitors[reply["call"]] = order
        elif reply is None or "error" in reply:
            message = str((reply or {}).get("message", "the executor ended before its reply"))
            self._end(order, False, error=(reply or {}).get("error", "lost"), message=message)
        else:
            self._end(order, True)

    def notice(self, result: Result) -> None:
        """Takes a result, which may be that of a monitor by hand."""
        order = self._monitors.pop(result.call, None)
        if order:
            is_good = result.outcome == "done" and (result.code == order.expect if result.failed is None else not result.failed)
            self._end(order, is_good, result={**result.raw, "id": result.id})

    def has(self, call: int) -> bool:
        """Whether this call is a monitor by hand."""
        return call in self._monitors

    def lose(self) -> None:
        """Ends the monitors whose results no later executor has."""
        while self._monitors:
            self._end(self._monitors.popitem()[1], False, error="lost", message="the executor ended before its result")

    def check(self) -> None:
        """Ends each request whose resources have settled, or of which something else was requested since."""
        for order in list(self._orders):
            here = {name: self.client.resources[name] for name in order.names if name in self.client.resources}
            later = sorted(name for name, one in here.items() if one.orders != order.numbers[name])
            if later or all(one.is_settled for one in here.values()):
                self._orders.remove(order)
                more = {"message": f"something else was requested of {', '.join(later)}"} if later else {}
                self._end(order, not later and all(one.is_as_wanted for one in here.values()), **more)

    def _end(self, order: Order, is_expected: bool, **more: Any) -> None:
        """Says how a request has ended."""
        order.program.unanswered -= 1
        found = [standing(self.client.resources[name]) for name in order.names if name in self.client.resources]
        order.program.send(tagged({"kind": "done", "do": order.do, "expected": is_expected, "status": found, **more}, order.tag))
