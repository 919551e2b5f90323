"""The file of the resources that client.py keeps, and what it may contain. A fault is named by its key. Times are in milliseconds.
docs/resources.schema.json describes the same as a JSON Schema, for an editor or another program.

    {"resources": {
      "web": {
        "provider": "heartbeat", "type": "nginx",
        "params": {"configfile": "/etc/nginx/nginx.conf"},                   default: none
        "interval": 10000,                                                   of the monitor; this is the default
        "monitors": [{"interval": 60000, "level": 10}],                      more monitors; default: none
        "timeouts": {"start": 20000, "stop": 20000, "monitor": 20000},       these are the defaults, also of promote and demote
        "restarts": 5, "within": 600000,                                     these are the defaults
        "target": "started",                                                 or stopped, promoted, unpromoted
        "managed": true,                                                     false: monitored, and neither started nor stopped
        "after": ["db"],                                                     started after these run, and stopped before them
        "alert": "/usr/local/sbin/tell"}}}                                   called at failures; as an alert agent of Pacemaker

`target` and `managed` hold unless something else was set by hand, as by `ocfctl stop web`.
"""
from __future__ import annotations

import json
import re
from dataclasses import dataclass, field, fields
from typing import TYPE_CHECKING, Any, Dict, Iterable, List, Mapping, NoReturn, Optional, Tuple

if TYPE_CHECKING:
    from ocfexec import Info

GREATEST = 4294967295  # of an interval and a timeout, in milliseconds
TIMEOUT = 20000
MOST_RESOURCES, MOST_PARAMS, MOST_BYTES = 256, 64, 1024
MOST_MONITORS = 8
LEVELS = (0, 10, 20)
ACTIONS = ("start", "stop", "monitor", "promote", "demote")
# started may also be promoted, by whoever promotes it; unpromoted is started and not promoted
TARGETS = ("started", "stopped", "promoted", "unpromoted")
MOST_EVENT = 16384  # bytes of the event that registers a resource, as docs/FORMAT.md describes it


class Wrong(Exception):
    """The file cannot be used. The text begins with the key."""


@dataclass(frozen=True)
class Wanted:
    """What the file wants of a resource. It is restarted at most `restarts` times in `within` milliseconds."""

    provider: str
    type: str
    params: Dict[str, str] = field(default_factory=dict)
    interval: int = 10000
    timeouts: Dict[str, int] = field(default_factory=dict)
    restarts: int = 5
    within: int = 600000
    monitors: List[Dict[str, int]] = field(default_factory=list)
    target: str = "started"
    managed: bool = True
    after: List[str] = field(default_factory=list)
    alert: str = ""

    @property
    def agent(self) -> str:
        return f"{self.provider}:{self.type}"

    def is_registered_as(self, info: Info) -> bool:
        """Whether the journal has the same agent and parameters."""
        return (self.provider, self.type, self.params) == (info.provider, info.type, info.params)

    def timeout(self, action: str) -> int:
        return self.timeouts.get(action, TIMEOUT)

    def all_monitors(self) -> List[Tuple[int, int]]:
        """The interval and the level of each recurring monitor."""
        return [(self.interval, 0)] + [(one["interval"], one.get("level", 0)) for one in self.monitors]


def event_size(name: str, wanted: Wanted) -> int:
    """The bytes of the event that registers a resource: its kind, a moment, three names, and the parameters after their count."""
    names = (name, wanted.provider, wanted.type)
    params = sum(1 + len(key) + 2 + len(text.encode()) for key, text in wanted.params.items())
    return 1 + 8 + sum(1 + len(one) for one in names) + 1 + params


def wrong(key: str, what: str, value: object) -> NoReturn:
    raise Wrong(f"{key}: expected {what}, not {json.dumps(value)}")


def is_name(value: object, more: str = "") -> bool:
    return isinstance(value, str) and bool(re.fullmatch(f"[A-Za-z0-9_.{more}-]{{1,64}}", value)) and value not in (".", "..")


def check_object(key: str, value: object, needed: Tuple[str, ...] = (), others: Optional[Tuple[str, ...]] = None) -> None:
    """An object that has the required keys and otherwise only the optional ones; any keys, if none are given."""
    if not isinstance(value, dict):
        wrong(key, "an object", value)
    for name in needed:
        if name not in value:
            raise Wrong(f"{key}.{name}: it is missing")
    known = None if others is None else (*needed, *others)
    for name in value if known else ():
        if known and name not in known:
            raise Wrong(f"{key}.{name}: unknown key; known are {', '.join(known)}")


def check_number(key: str, value: object, least: int) -> None:
    if isinstance(value, bool) or not isinstance(value, int) or not least <= value <= GREATEST:
        wrong(key, f"a whole number from {least} to {GREATEST}", value)


def check_monitors(key: str, value: object, interval: object) -> None:
    if not isinstance(value, list) or len(value) >= MOST_MONITORS:
        wrong(key, f"a list of at most {MOST_MONITORS - 1} monitors", value)
    for place, one in enumerate(value):
        check_object(f"{key}.{place}", one, ("interval",), ("level",))
        check_number(f"{key}.{place}.interval", one["interval"], 1)
        if isinstance(one.get("level", 0), bool) or one.get("level", 0) not in LEVELS:
            wrong(f"{key}.{place}.level", "0, 10 or 20", one["level"])
        if one["interval"] in [interval, *(other["interval"] for other in value[:place])]:
            raise Wrong(f"{key}.{place}.interval: another monitor has the interval {one['interval']}")


def check_more(key: str, value: Mapping[str, Any]) -> None:
    """The keys that say what becomes of a resource."""
    if value.get("target", TARGETS[0]) not in TARGETS:
        wrong(f"{key}.target", ", ".join(TARGETS[:-1]) + f" or {TARGETS[-1]}", value["target"])
    if not isinstance(value.get("managed", True), bool):
        wrong(f"{key}.managed", "true or false", value["managed"])
    after = value.get("after", [])
    if not isinstance(after, list) or not all(isinstance(name, str) for name in after):
        wrong(f"{key}.after", "a list of names of resources", after)
    alert = value.get("alert", "")
    if not isinstance(alert, str) or (alert and not re.fullmatch("/[^\0]*", alert)):
        wrong(f"{key}.alert", "the absolute path of a program", alert)


def check_order(found: Mapping[str, Wanted]) -> None:
    """Each resource is only after others of the file, and not after itself by way of them."""
    for name, one in found.items():
        for before in one.after:
            if before not in found:
                raise Wrong(f"resources.{name}.after: there is no resource {before}")
    done: Dict[str, bool] = {}  # those that are known to be in no circle
    for name in found:
        check_circle(found, [name], done)


def check_circle(found: Mapping[str, Wanted], path: List[str], done: Dict[str, bool]) -> None:
    if done.get(path[-1]):
        return
    if path[-1] in path[:-1]:
        raise Wrong(f"resources.{path[0]}.after: a circle: {' after '.join(path[path.index(path[-1]):])}")
    for before in found[path[-1]].after:
        check_circle(found, [*path, before], done)
    done[path[-1]] = True


def check_params(key: str, value: Mapping[str, object]) -> None:
    check_object(key, value)
    if len(value) > MOST_PARAMS:
        raise Wrong(f"{key}: at most {MOST_PARAMS} parameters are possible, not {len(value)}")
    for name, text in value.items():
        if not re.fullmatch("[A-Za-z_][A-Za-z0-9_]{0,63}", name):
            raise Wrong(f"{key}.{name}: a parameter's name is a letter or _, then letters, digits and _, 64 at most")
        if not isinstance(text, str) or not re.fullmatch("[^\0\ud800-\udfff]*", text) or len(text.encode()) > MOST_BYTES:
            wrong(f"{key}.{name}", f"a text of at most {MOST_BYTES} bytes, without NUL", text)


def check_resource(name: str, value: Mapping[str, Any]) -> Wanted:
    """What the file wants of one resource."""
    key = f"resources.{name}"
    if not is_name(name, ":"):
        raise Wrong(f"{key}: a resource's name is 1 to 64 letters, digits and _ - . : and neither . nor ..")
    check_object(key, value, ("provider", "type"), tuple(one.name for one in fields(Wanted))[2:])
    for word in ("provider", "type"):
        if not is_name(value[word]):
            wrong(f"{key}.{word}", "a name of 1 to 64 letters, digits and _ - .", value[word])
    check_params(f"{key}.params", value.get("params", {}))
    timeouts = value.get("timeouts", {})
    check_object(f"{key}.timeouts", timeouts, (), ACTIONS)
    for action, limit in timeouts.items():
        check_number(f"{key}.timeouts.{action}", limit, 1)
    for word, least in (("interval", 1), ("restarts", 0), ("within", 1)):
        if word in value:
            check_number(f"{key}.{word}", value[word], least)
    check_monitors(f"{key}.monitors", value.get("monitors", []), value.get("interval", Wanted.interval))
    check_more(key, value)
    wanted = Wanted(**value)
    if (size := event_size(name, wanted)) > MOST_EVENT:
        raise Wrong(f"{key}.params: with the names of the resource and its agent they take {size} bytes; {MOST_EVENT} are possible")
    return wanted


def without_twins(pairs: Iterable[Tuple[str, Any]]) -> Dict[str, Any]:
    """An object without repeated keys."""
    found: Dict[str, Any] = {}
    for name, value in pairs:
        if name in found:
            raise Wrong(f"{name}: this key occurs twice in one object")
        found[name] = value
    return found


def read(path: str) -> Dict[str, Wanted]:
    """What the file wants, by resource. Raises Wrong, and OSError if the file is missing or cannot be read at this moment."""
    try:
        with open(path, encoding="utf-8") as file:
            found = json.load(file, object_pairs_hook=without_twins)
    except (ValueError, RecursionError) as error:
        raise Wrong(f"not JSON: {error}") from None
    except (PermissionError, IsADirectoryError) as error:
        raise Wrong(str(error.strerror)) from None
    check_object("the file", found, ("resources",), ())
    resources = found["resources"]
    check_object("resources", resources)
    if len(resources) > MOST_RESOURCES:
        raise Wrong(f"resources: at most {MOST_RESOURCES} are possible, not {len(resources)}")
    wanted = {name: check_resource(name, value) for name, value in resources.items()}
    check_order(wanted)
    return wanted
