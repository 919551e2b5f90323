"""The values of replies and notices. Each has the keys of its line as attributes, and the line itself, a dictionary, as `raw`."""
from __future__ import annotations

import dataclasses
from dataclasses import dataclass, field
from typing import Any, Dict, List, Mapping, Optional, Type, TypeVar, cast

T = TypeVar("T")


def _of(kind: Type[T], value: Mapping[str, Any], **more: Any) -> T:
    """A value of this kind from the keys of a line that it knows, and from these."""
    known = {one.name: value[one.name] for one in dataclasses.fields(cast(Any, kind)) if one.name in value}
    return kind(**{**known, "raw": dict(value), **more})


@dataclass(frozen=True)
class Ready:
    """What the program sent when it had opened its journal: the directory as it was given, the number of reported results of each kind and
    of registered resources, and the journal's identity, 32 hex digits, and next call, which an older program does not send. With --memory
    directory and identity are None."""

    version: str
    journal: Optional[str]
    resources: int
    interrupted: int
    dropped: int
    identity: Optional[str] = None
    next_call: Optional[int] = None
    raw: Dict[str, Any] = field(default_factory=dict, repr=False, compare=False)

    @classmethod
    def of(cls, value: Mapping[str, Any]) -> Ready:
        return _of(cls, value)


@dataclass(frozen=True)
class Result:
    """The result of an action. Only one that came as a notice has a `key`, the expected code (`expect`), whether it has `failed`, and why
    (`reason`), where that is known; the report of an opening has no tags."""

    id: str
    call: int
    run: int
    action: str
    interval: int
    outcome: str
    code: int
    name: str
    since: int
    at: int
    key: Optional[str] = None
    expect: Optional[int] = None
    failed: Optional[bool] = None
    tag: Optional[str] = None
    lives: Optional[int] = None
    signal: Optional[int] = None
    reason: Optional[str] = None
    raw: Dict[str, Any] = field(default_factory=dict, repr=False, compare=False)

    @classmethod
    def of(cls, value: Mapping[str, Any], id: str) -> Result:
        return _of(cls, value, id=id)


@dataclass(frozen=True)
class Failure:
    """The last failure of a resource."""

    action: str
    at: int
    code: int
    name: str
    outcome: str
    reason: Optional[str] = None
    raw: Dict[str, Any] = field(default_factory=dict, repr=False, compare=False)


@dataclass(frozen=True)
class Running:
    """The action that a resource runs: by `status` with its action and the moment of its begin, by `info` with its call, key and run."""

    action: Optional[str] = None
    since: Optional[int] = None
    call: Optional[int] = None
    key: Optional[str] = None
    run: Optional[int] = None
    raw: Dict[str, Any] = field(default_factory=dict, repr=False, compare=False)


@dataclass(frozen=True)
class Status:
    """The state of a resource in a word, as ocfexec(8) defines it."""

    id: str
    state: str
    since: Optional[int]
    queued: int
    running: Optional[Running]
    failed: Optional[Failure]
    raw: Dict[str, Any] = field(default_factory=dict, repr=False, compare=False)

    @classmethod
    def of(cls, value: Mapping[str, Any]) -> Status:
        running, failed = value["running"], value["failed"]
        return _of(cls, value, running=running and _of(Running, running), failed=failed and _of(Failure, failed))


@dataclass(frozen=True)
class Monitor:
    """A recurring monitor."""

    call: int
    interval: int
    timeout: int
    level: int
    expect: int
    raw: Dict[str, Any] = field(default_factory=dict, repr=False, compare=False)


@dataclass(frozen=True)
class Info:
    """What is registered of a resource, its last failure, and what is queued (by call), runs and recurs."""

    id: str
    provider: str
    type: str
    params: Dict[str, str]
    queued: List[int]
    recurring: List[Monitor]
    running: Optional[Running]
    failed: Optional[Result]
    raw: Dict[str, Any] = field(default_factory=dict, repr=False, compare=False)

    @classmethod
    def of(cls, value: Mapping[str, Any]) -> Info:
        running, failed = value["running"], value["failed"]
        return _of(cls, value, recurring=[_of(Monitor, one) for one in value["recurring"]], running=running and _of(Running, running),
                   failed=failed and Result.of(failed, value["id"]))
