"""The commands of docs/FORMAT.md as dictionaries."""
from __future__ import annotations

from typing import Any, Dict, Mapping, Optional, Tuple

METADATA_LIMIT = 20000  # milliseconds that an agent has for its metadata


def split(agent: str) -> Tuple[str, str]:
    """The provider and the type of PROVIDER:TYPE."""
    provider, colon, kind = agent.partition(":")
    if not colon:
        raise ValueError(f"{agent}: an agent is PROVIDER:TYPE, as heartbeat:nginx")
    return provider, kind


def of(op: str, id: Optional[str] = None, **keys: Any) -> Dict[str, Any]:
    """A command with those of these keys that are given."""
    found = {"op": op, "id": id, **keys}
    return {key: value for key, value in found.items() if value is not None}


def register(id: str, agent: str, params: Mapping[str, str]) -> Dict[str, Any]:
    provider, kind = split(agent)
    return of("register", id, provider=provider, type=kind, params=dict(params))


def metadata(agent: str, limit: int) -> Dict[str, Any]:
    provider, kind = split(agent)
    return of("meta", provider=provider, type=kind, limit=limit)
