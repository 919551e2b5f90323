"""What was set by hand, and holds until it is set otherwise: the targets of resources, which of them are managed, maintenance, and which
resources other programs have registered. It is kept in a file, so it survives the ends of the client, the executor and the machine.

    {"maintenance": null, "others": ["vip"], "targets": {"web": {"target": "stopped", "since": 1764201600000}},
     "managed": {"db": {"managed": false, "since": 1764201600000}}}

Moments are in milliseconds since 1970.
"""
from __future__ import annotations

import contextlib
import json
import os
import time
from dataclasses import dataclass
from typing import Any, Dict, Iterator, Optional, Set

from resources import TARGETS

NAME = "by-hand.json"


class Unusable(Exception):
    """The file is not one of these."""


@dataclass(frozen=True)
class Target:
    """A target that was set by hand."""

    target: str
    since: int


@dataclass(frozen=True)
class Managed:
    """Whether a resource is managed, as it was set by hand."""

    managed: bool
    since: int


def now() -> int:
    """This moment."""
    return time.time_ns() // 1000000


class Targets:
    """What was set by hand. Without a directory it is not kept, and ends with the client."""

    def __init__(self, directory: Optional[str]) -> None:
        self.directory = directory
        self.targets: Dict[str, Target] = {}
        self.managed: Dict[str, Managed] = {}
        self.maintenance: Optional[int] = None  # since when nothing is done
        self.others: Set[str] = set()  # resources of other programs, which the client leaves alone

    def read(self) -> None:
        """Reads the file; without one nothing was set. Raises Unusable, and OSError."""
        if self.directory is None:
            return
        path = os.path.join(self.directory, NAME)
        try:
            with open(path, encoding="utf-8") as file:
                self._take(json.load(file))
        except FileNotFoundError:
            pass
        except (ValueError, LookupError, TypeError, AttributeError):
            raise Unusable(f"{path} was not written by this program: correct it, or remove it, and then nothing was set by hand") from None

    def _take(self, found: Dict[str, Any]) -> None:
        self.maintenance = None if found["maintenance"] is None else int(found["maintenance"])
        self.others = {str(name) for name in found["others"]}
        self.targets = {name: Target(one["target"], int(one["since"])) for name, one in found["targets"].items()}
        self.managed = {name: Managed(bool(one["managed"]), int(one["since"])) for name, one in found["managed"].items()}
        if not all(one.target in TARGETS for one in self.targets.values()):
            raise ValueError(self.targets)

    def save(self) -> None:
        """Writes the file by a rename, and syncs it and its directory: once this returns, it is found after any crash. Raises OSError."""
        if self.directory is None:
            return
        found = {"maintenance": self.maintenance, "others": sorted(self.others),
                 "targets": {name: {"target": one.target, "since": one.since} for name, one in self.targets.items()},
                 "managed": {name: {"managed": one.managed, "since": one.since} for name, one in self.managed.items()}}
        new = os.path.join(self.directory, NAME + ".new")
        with open(new, "w", encoding="utf-8", opener=_private) as file:
            json.dump(found, file, sort_keys=True)
            file.write("\n")
            file.flush()
            os.fsync(file.fileno())
        os.rename(new, os.path.join(self.directory, NAME))
        folder = os.open(self.directory, os.O_RDONLY | os.O_DIRECTORY)
        try:
            os.fsync(folder)
        finally:
            os.close(folder)

    @contextlib.contextmanager
    def changing(self) -> Iterator[None]:
        """Saves what is changed inside; if it cannot be saved, it is as before. Raises OSError."""
        before = (dict(self.targets), dict(self.managed), self.maintenance, set(self.others))
        yield
        if before == (self.targets, self.managed, self.maintenance, self.others):
            return
        try:
            self.save()
        except OSError:
            self.targets, self.managed, self.maintenance, self.others = before
            raise

    def set_target(self, name: str, target: str, of_file: str) -> None:
        """Sets the target of a resource; one that is also the file's is none of the hand."""
        if target == of_file:
            self.targets.pop(name, None)
        elif name not in self.targets or self.targets[name].target != target:
            self.targets[name] = Target(target, now())

    def set_managed(self, name: str, managed: bool, of_file: bool) -> None:
        """Sets whether a resource is managed."""
        if managed == of_file:
            self.managed.pop(name, None)
        elif name not in self.managed:
            self.managed[name] = Managed(managed, now())

    def forget(self, name: str) -> None:
        """Forgets a resource that is no longer kept."""
        self.targets.pop(name, None)
        self.managed.pop(name, None)


def _private(path: str, flags: int) -> int:
    return os.open(path, flags, 0o600)
