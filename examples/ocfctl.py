#!/usr/bin/env python3
"""Operates the resources that the unit ocfexec keeps, by the control socket of its client: see ocfctl(8). It needs only Python's standard
library, and starts quickly: each import counts."""
from __future__ import annotations

import argparse
import json
import os
import re
import socket
import sys
import time
from typing import Any, Dict, Iterator, List, NoReturn, Optional, Tuple

sys.dont_write_bytecode = True
SOCKET = "/run/ocfexec/control"
OK, NOT_AS_EXPECTED, WRONG, REFUSED, LATE = 0, 1, 2, 3, 124
TICK = 0.25  # seconds between two looks at what runs, for a terminal
REASON = "ocf-exit-reason:"
WORDS = 20  # lines of an agent's output that are printed
Line = Dict[str, Any]
# what the exit code of an action means, as `ocfexec serve --events` says it: where the action failed, and where it did not
FAULTS = {0: "running", 1: "error", 2: "invalid parameter", 3: "unimplemented feature", 4: "insufficient privileges", 5: "not installed",
          6: "not configured", 7: "not running", 8: "promoted", 9: "promoted (failed)", 190: "degraded", 191: "promoted (degraded)"}
MEANINGS = {0: "running", 7: "not running", 8: "running, promoted", 190: "running, but degraded", 191: "running, promoted, but degraded"}
OUTCOMES = {"timed-out": "failed: it ran past its timeout and was killed", "signaled": "failed: a signal ended the agent",
            "lost": "failed: how the agent ended is not known",
            "interrupted": "interrupted: the executor ended while it ran; it may be done or not",
            "dropped": "dropped: the executor ended before it began", "cancelled": "cancelled: it was withdrawn before it began"}
COMMON = "a code of the agent's own"
NOT_STARTED = {5: "failed: the agent's file is missing", 4: "failed: the agent's file may not be run"}
UNITS = ((86400000, "days"), (3600000, "h"), (60000, "min"), (1000, "s"), (1, "ms"))


class Failed(Exception):
    """A request was refused, or nobody answers, or not in time."""

    def __init__(self, status: int, message: str, line: Optional[Line] = None) -> None:
        super().__init__(message)
        self.status, self.line = status, line


# Words

def span(millis: float) -> str:
    """A length of time in whole units, as 3 min."""
    size, unit = next((one for one in UNITS if millis >= 2 * one[0] or one[0] <= 1000 and millis >= one[0]), UNITS[-1])
    return f"{max(0, int(millis)) // size} {unit}"


def ago(moment: int) -> str:
    return f"{span(time.time() * 1000 - moment)} ago"


def clock(moment: int) -> str:
    """A moment by the clock of this place."""
    return time.strftime("%Y-%m-%d %H:%M:%S", time.localtime(moment / 1000))


def words(result: Line) -> str:
    """A result as `--events` prints it. A result of a history does not say whether it failed by what was expected."""
    action, outcome, code = result["action"], result["outcome"], result["code"]
    is_timed = "since" in result and outcome in ("done", "timed-out", "signaled")
    after = f" after {span(result['at'] - result['since'])}" if is_timed else ""
    if outcome == "not-started":
        return f"{action} {NOT_STARTED.get(code, 'failed: the agent could not be started')}"
    if outcome != "done":
        return f"{action} {OUTCOMES.get(outcome, outcome)}{after}"
    name = f" ({result['name']}, {code})" if code else ""
    if result.get("failed") or code not in MEANINGS:
        return f"{action} failed: {FAULTS.get(code, COMMON)}{name}{after}"
    if action == "monitor":
        return f"{action}: {MEANINGS[code]}{name}{after}"
    return f"{action} {'ok' if code == 0 else MEANINGS[code]}{name}{after}"


def agent_words(logs: Optional[str], result: Line) -> List[str]:
    """The last lines that the agent of a run wrote, if they are kept and may be read."""
    if not logs or not result.get("run"):
        return []
    try:
        with open(os.path.join(logs, f"{result['id']}.log"), "rb") as file:
            file.seek(max(0, os.fstat(file.fileno()).st_size - (1 << 18)))
            lines = file.read().decode(errors="replace").splitlines()
    except OSError:
        return []
    begin = f"call {result['call']} begins as run {result['run']}:"
    starts = [place for place, line in enumerate(lines) if begin in line]
    if not starts:
        return []
    found = lines[starts[-1] + 1:]
    end = re.compile(rf"\S+Z run {result['run']} (ended|was) ")
    ends = [place for place, line in enumerate(found) if end.match(line)]
    return found[:ends[0] if ends else None][-WORDS:]


# The client

class Client:
    """The client of the unit, and its lines."""

    def __init__(self, path: str, timeout: Optional[float]) -> None:
        self.until = None if timeout is None else time.monotonic() + timeout
        self.socket = socket.socket(socket.AF_UNIX, socket.SOCK_STREAM)
        self._read = b""
        try:
            self.socket.connect(path)
        except OSError as error:
            raise Failed(REFUSED, f"nobody answers at {path}: {error.strerror}"
                         + ("" if error.errno == 13 else "; `systemctl status ocfexec` shows whether the unit is up")) from None

    def send(self, *lines: Line) -> None:
        try:
            self.socket.settimeout(None)
            self.socket.sendall(b"".join(json.dumps(line).encode() + b"\n" for line in lines))
        except OSError as error:
            raise Failed(REFUSED, f"the client of the unit has gone: {error.strerror}") from None

    def line(self, seconds: Optional[float] = None) -> Optional[Line]:
        """The next line, or None if it does not come within this many seconds. Raises Failed once the time of the whole call is over."""
        while b"\n" not in self._read:
            left = None if self.until is None else self.until - time.monotonic()
            wait = min((one for one in (seconds, left) if one is not None), default=None)
            if left is not None and left <= 0:
                raise Failed(LATE, "it has not come to an end in time; it goes on")
            self.socket.settimeout(None if wait is None else max(0.001, wait))
            try:
                piece = self.socket.recv(65536)
            except socket.timeout:
                if wait == seconds:
                    return None
                continue
            except OSError as error:
                raise Failed(REFUSED, f"the client of the unit has gone: {error.strerror}") from None
            if not piece:
                raise Failed(REFUSED, "the client of the unit has ended; what was set by hand holds")
            self._read += piece
        line, _, self._read = self._read.partition(b"\n")
        found: Line = json.loads(line)
        if found.get("kind") == "trouble" and found.get("error") == "slow":
            raise Failed(REFUSED, str(found["message"]))
        return found

    def lines(self) -> Iterator[Line]:
        while True:
            line = self.line()
            if line:
                yield line

    def ask(self, value: Line) -> Line:
        """The reply to a line. Raises Failed if it is refused."""
        self.send({**value, "tag": "ask"})
        reply = next(line for line in self.lines() if line.get("tag") == "ask")
        reply.pop("tag")
        return checked(reply)


def checked(reply: Line) -> Line:
    if "error" in reply:
        raise Failed(REFUSED, f"{reply.get('message', 'it was refused')} ({reply['error']})", reply)
    return reply


# What is printed

class Screen:
    """Standard output, and on a terminal a last line that says what runs."""

    def __init__(self, is_json: bool) -> None:
        self.is_json = is_json
        self.shows = sys.stderr.isatty() and not is_json
        self._shown = ""

    def progress(self, text: str) -> None:
        if self.shows and text != self._shown:
            sys.stderr.write(f"\r\033[K{text}")
            sys.stderr.flush()
            self._shown = text

    def say(self, text: str) -> None:
        """Prints a line for people."""
        self.progress("")
        if not self.is_json:
            print(text, flush=True)

    def value(self, value: Line) -> None:
        """Prints a line of JSON."""
        self.progress("")
        if self.is_json:
            print(json.dumps(value, sort_keys=True, separators=(",", ":")), flush=True)


def running(one: Line) -> str:
    """What runs of a resource, and for how long of at most what."""
    doing = one["doing"]
    if not doing:
        return f"{one['id']}: {one['state']}"
    return f"{one['id']}: {doing['action']} since {span(time.time() * 1000 - doing['since'])} of at most {span(doing['timeout'])}"


def standing(one: Line) -> str:
    """The state of a resource, with what was set by hand."""
    by_hand = {one["target"]: one["target_by_hand"], "managed" if one["managed"] else "unmanaged": one["managed_by_hand"]}
    texts = [f"{word} by hand since {clock(since)}" for word, since in by_hand.items() if since]
    if one["state"].removesuffix(" by hand") in [word for word, since in by_hand.items() if since]:
        return "; ".join(texts)
    return "; ".join([f"{one['state']} since {clock(one['since'])}", *texts])


def show_status(found: Line, screen: Screen) -> int:
    """Prints the standing of resources. Returns the status."""
    screen.value(found)
    if found["maintenance"]:
        screen.say(f"The node is in maintenance since {clock(found['maintenance'])}: nothing is done.")
    if found["executor"] is None:
        screen.say("No executor has the journal open at this moment.")
    rows = [("RESOURCE", "AGENT", "STATE"), *((one["id"], one["agent"], standing(one)) for one in found["status"])]
    wide = [max(len(row[place]) for row in rows) for place in (0, 1)]
    for place, row in enumerate(rows):
        screen.say(f"{row[0]:{wide[0]}}  {row[1]:{wide[1]}}  {row[2]}")
        for line in details(found["status"][place - 1], found["logs"]) if place else ():
            screen.say(f"  {line}")
    if found["others"]:
        screen.say(f"Resources of other programs: {', '.join(found['others'])}; see `ocfexec status`.")
    return OK if all(one["as_wanted"] for one in found["status"]) else NOT_AS_EXPECTED


def details(one: Line, logs: Optional[str]) -> Iterator[str]:
    """More about a resource, each in a line."""
    if one["doing"]:
        yield running(one).partition(": ")[2]
    if one["held"]:
        yield f"held: process {one['held']} of an interrupted action lives"
    failed = one["failed"]
    if failed and not (one["as_wanted"] and one["state"] not in ("running", "promoted", "unmanaged")):
        yield f"last failure: {words({**failed, 'failed': True})}, {ago(failed['at'])}"
        said = agent_words(logs, {"id": one["id"], **failed})
        reasons = [line.removeprefix(REASON) for line in said if line.startswith(REASON)]
        for reason in [failed["reason"]] if failed.get("reason") else (reasons or said)[-1:]:
            yield f"  {reason}"


# The verbs

def wait_for(client: Client, screen: Screen, tags: Dict[str, str]) -> Tuple[int, List[Line]]:
    """Waits for the ends of requests, by their tags, and prints the results that come meanwhile. Returns the status."""
    ids, status, ends = set(tags.values()), OK, []
    while tags:
        line = client.line(TICK if screen.shows else None)
        if line is None:
            client.send({"do": "status", "tag": "progress"})
        elif line.get("tag") == "progress" and "status" in line:
            screen.progress(", ".join(running(one) for one in line["status"] if one["id"] in ids or not ids - {""} and not one["settled"]))
        elif line["kind"] == "notice" and (line["id"] in ids or "" in ids) and (not line["interval"] or line.get("failed")):
            screen.say(f"{line['id']}: {words(line)}")
        elif line["kind"] == "done" and line.get("tag") in tags:
            del tags[line["tag"]]
            ends.append(line)
            status = status if line["expected"] else NOT_AS_EXPECTED
        elif "error" in line:
            raise Failed(REFUSED, str(line.get("message")), line)
    return status, ends


def show_end(line: Line, logs: Optional[str], screen: Screen) -> None:
    """Prints how a request ended."""
    line.pop("tag", None)
    screen.value(line)
    for one in line["status"]:
        if line["do"] == "forget" and line["expected"]:
            screen.say(f"{one['id']}: its history is empty")
        elif line["do"] not in ("monitor", "forget"):
            is_wrong = not one["as_wanted"] and "message" not in line
            screen.say(f"{one['id']}: {one['state']}" + (", which is not as it should be" if is_wrong else ""))
        result = line.get("result") or one["last"]
        if not line["expected"] and "message" not in line and result and (result.get("failed") or result["code"]):
            for text in agent_words(logs, {**result, "id": one["id"]}):
                screen.say(f"  {text.removeprefix(REASON)}")
    if "message" in line:
        screen.say(str(line["message"]))


def request(client: Client, screen: Screen, options: argparse.Namespace, requests: List[Line]) -> int:
    """Sends requests, and waits for their ends."""
    logs = client.ask({"do": "status"})["logs"]
    client.send({"events": True})
    for number, one in enumerate(requests):
        tag = f"{number}"
        client.send({**one, "tag": tag})
        reply = next(line for line in client.lines() if line.get("tag") == tag and line["kind"] == "reply")
        checked(reply)
    if options.no_wait:
        return OK
    status, ends = wait_for(client, screen, {f"{number}": str(one.get("id", "")) for number, one in enumerate(requests)})
    for line in ends:
        show_end(line, logs, screen)
    if options.verb == "stop" and not options.json:
        show_waiting(client, screen, options.ids)
    return status


def show_waiting(client: Client, screen: Screen, names: List[str]) -> None:
    """Prints which resources were stopped, too, since they run only while one of these does."""
    for one in client.ask({"do": "status"})["status"]:
        waits = one["state"].startswith("waiting for ") and one["id"] not in names
        if waits and set(one["state"].removeprefix("waiting for ").split(", ")) & set(names):
            screen.say(f"{one['id']}: {one['state']}")


def by_id(client: Client, screen: Screen, options: argparse.Namespace) -> int:
    more = {"level": options.level} if options.verb == "monitor" else {}
    return request(client, screen, options, [{"do": options.verb, "id": name, **more} for name in options.ids])


def of_all(client: Client, screen: Screen, options: argparse.Namespace) -> int:
    more = {"on": options.on == "on"} if options.verb == "maintenance" else {"offline": True} if options.offline else {}
    return request(client, screen, options, [{"do": options.verb, **more}])


def status(client: Client, screen: Screen, options: argparse.Namespace) -> int:
    return show_status(client.ask({"do": "status", **({"ids": options.ids} if options.ids else {})}), screen)


def ids(client: Client, _screen: Screen, _options: argparse.Namespace) -> int:
    print("\n".join(one["id"] for one in client.ask({"do": "status"})["status"]))
    return OK


def events(client: Client, screen: Screen, options: argparse.Namespace) -> int:
    """Prints results: those that the journal has, oldest first, or with -f those that come, after those since a moment, if one is given."""
    if options.follow:
        client.ask({"events": True})
    names = [] if options.follow and not options.since else client.ask({"op": "list"})["resources"]
    found = [{"id": name, **result} for name in names if not options.ids or name in options.ids
             for result in client.ask({"op": "history", "id": name})["results"]]
    least = time.time() * 1000 - options.since if options.since else 0
    for one in sorted((one for one in found if one["at"] >= least), key=lambda one: (one["at"], one["run"])):
        show_event(one, screen)
    for line in client.lines() if options.follow else ():
        if line["kind"] == "notice" and (not options.ids or line["id"] in options.ids):
            show_event(line, screen)
    return OK


def show_event(line: Line, screen: Screen) -> None:
    screen.value(line)
    screen.say(f"{clock(line['at'])} {line['id']}: {words(line)}")


def send_json(client: Client, _screen: Screen, options: argparse.Namespace) -> int:
    """Sends lines of JSON, and prints their replies and the notices of their calls."""
    calls, end = set(), OK
    for number, text in enumerate(options.lines):
        try:
            value = json.loads(text)
        except ValueError as error:
            raise Failed(WRONG, f"{text}: not JSON: {error}") from None
        if not isinstance(value, dict):
            raise Failed(WRONG, f"{text}: not a JSON object")
        own = value.get("tag")
        client.send({**value, "tag": f"json {number}"})
        reply = next(line for line in client.lines() if line.get("tag") == f"json {number}" and line["kind"] == "reply")
        print_line(reply, own)
        end = REFUSED if "error" in reply else end
        waits = "call" in reply and value.get("op") == "exec" or "do" in value and value["do"] != "status" and "ok" in reply
        if waits and not options.no_wait:
            calls.add(f"json {number}")
    while calls:
        line = next(client.lines())
        if line.get("tag") in calls and line["kind"] in ("notice", "done"):
            calls.remove(line["tag"])
            end = end or (OK if not line.get("failed", False) and line.get("expected", True) else NOT_AS_EXPECTED)
            print_line(line, None)
    return end


def print_line(line: Line, tag: Optional[str]) -> None:
    line.pop("tag", None)
    print(json.dumps({**line, **({} if tag is None else {"tag": tag})}, sort_keys=True, separators=(",", ":")), flush=True)


# The arguments

def since(text: str) -> int:
    """Milliseconds, of a span as 10m."""
    unit = {"s": 1000, "m": 60000, "h": 3600000, "d": 86400000}.get(text[-1:])
    if unit is None or not text[:-1].isdigit():
        raise argparse.ArgumentTypeError(f"{text}: expected a span as 30s, 10m, 2h or 1d")
    return int(text[:-1]) * unit


def seconds(text: str) -> float:
    try:
        value = float(text)
    except ValueError:
        value = -1
    if not 0 < value < 1e9:
        raise argparse.ArgumentTypeError(f"{text}: expected a number of seconds")
    return value


VERBS = (
    ("status", status, "shows resources: what is down, and why"),
    ("start", by_id, "starts resources, and keeps them running"),
    ("stop", by_id, "stops resources; they stay stopped until they are started by hand"),
    ("restart", by_id, "stops resources, and starts them"),
    ("monitor", by_id, "monitors resources once, now"),
    ("promote", by_id, "promotes resources, and keeps them promoted"),
    ("demote", by_id, "demotes resources, and keeps them running"),
    ("unmanage", by_id, "leaves resources as they are; their monitors go on"),
    ("manage", by_id, "keeps resources again"),
    ("forget", by_id, "empties the history of resources, with their last failure"),
    ("maintenance", of_all, "does nothing at all on this node, until it is off"),
    ("reload", of_all, "reads the file of the resources again, once its agents have no fault"),
    ("events", events, "shows results, oldest first"),
    ("json", send_json, "sends lines of docs/FORMAT.md or docs/CONTROL.md"),
    ("ids", ids, "prints the names of the resources"),
)


def parser_of() -> argparse.ArgumentParser:
    common = argparse.ArgumentParser(add_help=False)
    common.add_argument("--socket", default=os.environ.get("OCFEXEC_SOCKET", SOCKET), metavar="FILE", help="the socket (%(default)s)")
    common.add_argument("--json", action="store_true", help="print lines of JSON")
    common.add_argument("--no-wait", action="store_true", help="end when the request is accepted")
    common.add_argument("--timeout", type=seconds, metavar="SECONDS", help="end with 124 after so long; what was requested goes on")
    parser = argparse.ArgumentParser(prog="ocfctl", description="Operates the resources that the unit ocfexec keeps.",
                                     epilog="It ends with 0 if the result is as expected, 1 if not, 2 for wrong arguments, 3 if it was "
                                     "refused or nobody answers, 124 after the timeout. See ocfctl(8).")
    verbs = parser.add_subparsers(dest="verb", required=True, metavar="VERB")
    for name, does, text in VERBS:
        one = verbs.add_parser(name, help=text, description=text, parents=[common])
        one.set_defaults(does=does)
        if does in (by_id, status, events):
            one.add_argument("ids", nargs="+" if does is by_id else "*", metavar="ID", help="a resource")
        if name == "monitor":
            one.add_argument("--level", type=int, choices=(0, 10, 20), default=0, help="the depth of the check")
        if name == "maintenance":
            one.add_argument("on", choices=("on", "off"))
        if name == "reload":
            one.add_argument("--offline", action="store_true", help="ask no agent whether it exists and has the parameters")
        if name == "events":
            one.add_argument("-f", "--follow", action="store_true", help="go on with those that come")
            one.add_argument("--since", type=since, metavar="SPAN", help="only those of the last 30s, 10m, 2h or 1d")
        if name == "json":
            one.add_argument("lines", nargs="+", metavar="LINE", help="an object of JSON")
    return parser


def end(screen: Screen, error: Failed) -> int:
    screen.value(error.line or {"error": {LATE: "late", WRONG: "syntax"}.get(error.status, "unreachable"), "message": str(error)})
    screen.progress("")
    print(f"ocfctl: {error}", file=sys.stderr)
    return error.status


def leave_quietly() -> NoReturn:
    """Ends after its reader has gone."""
    os.dup2(os.open(os.devnull, os.O_WRONLY), 1)
    sys.exit(OK)


def main() -> int:
    options = parser_of().parse_args()
    screen = Screen(options.json)
    try:
        return int(options.does(Client(options.socket, options.timeout), screen, options))
    except Failed as failed:
        return end(screen, failed)
    except KeyboardInterrupt:
        screen.progress("")
        print("ocfctl: it is not waited for any longer, and goes on", file=sys.stderr)
        return 130
    except BrokenPipeError:
        leave_quietly()


if __name__ == "__main__":
    sys.exit(main())
