"""Whether the agents of resources exist, and have their parameters and actions, by the metadata of the agents."""
from __future__ import annotations

import difflib
import xml.etree.ElementTree
from dataclasses import dataclass
from typing import Callable, Dict, FrozenSet, Iterator, List, Mapping, Optional, Sequence

from ocfexec import NoMetadata
from resources import Wanted

# parameters that any agent takes: those that Pacemaker sets, and those of the package resource-agents for tracing
ANY = frozenset({"CRM_meta_interval", "CRM_meta_timeout", "CRM_meta_name", "trace_ra", "trace_file"})
# why an agent that gave no metadata cannot be run
ABSENT = {"missing": "there is no agent {agent}", "denied": "the agent {agent} may not be run"}
# options of the executor that say where agents are and how they are run
SITE = ("--root", "--via", "--path")
# the action that a target needs
NEEDED = {"promoted": "promote", "unpromoted": "demote"}


@dataclass(frozen=True)
class Said:
    """The names of the parameters and actions of an agent, as its metadata say."""

    parameters: FrozenSet[str]
    actions: FrozenSet[str]


def said_in(metadata: str) -> Optional[Said]:
    """What metadata say; None if these are no metadata of an agent."""
    try:
        root = xml.etree.ElementTree.fromstring(metadata)
    except (xml.etree.ElementTree.ParseError, ValueError):
        return None
    parameters, actions = (frozenset(one.get("name", "") for one in root.iter(tag)) for tag in ("parameter", "action"))
    return Said(parameters, actions) if root.tag == "resource-agent" else None


class Agents:
    """The agents of one site. Each is asked once for its metadata, by a function that gives the metadata of PROVIDER:TYPE."""

    def __init__(self, ask: Callable[[str], str]) -> None:
        self.ask = ask
        self._known: Dict[str, Optional[Said]] = {}  # None of an agent that says nothing
        self._absent: Dict[str, str] = {}  # why an agent cannot be run

    def forget(self) -> None:
        """Asks each agent again."""
        self._known.clear()
        self._absent.clear()

    def _learn(self, agent: str) -> None:
        if agent in self._known:
            return
        self._known[agent] = None
        try:
            self._known[agent] = said_in(self.ask(agent))
        except NoMetadata as error:
            if error.reason in ABSENT:
                self._absent[agent] = ABSENT[error.reason].format(agent=agent)

    def is_silent(self, agent: str) -> bool:
        """Whether an agent does not say its parameters, so that they cannot be checked."""
        self._learn(agent)
        return self._known[agent] is None and agent not in self._absent

    def lacks(self, agent: str, action: str) -> bool:
        """Whether an agent says its actions, and this is none of them."""
        self._learn(agent)
        known = self._known[agent]
        return known is not None and bool(known.actions) and action not in known.actions

    def faults(self, wanted: Wanted) -> Iterator[str]:
        """What is wrong with the agent of a resource, or with its parameters or target; each text begins with the key."""
        self._learn(wanted.agent)
        if wanted.agent in self._absent:
            yield f"type: {self._absent[wanted.agent]}"
        known = self._known[wanted.agent]
        if wanted.target in NEEDED and self.lacks(wanted.agent, NEEDED[wanted.target]):
            yield f"target: {wanted.agent} has no action {NEEDED[wanted.target]}"
        for name in sorted(set(wanted.params) - known.parameters - ANY) if known is not None else ():
            near = difflib.get_close_matches(name, known.parameters if known else (), 1)
            yield f"params.{name}: {wanted.agent} has no such parameter" + (f"; it has {near[0]}" if near else "")


def all_faults(agents: Agents, wanted: Mapping[str, Wanted]) -> List[str]:
    """What is wrong with all resources of a file."""
    return [f"resources.{name}.{fault}" for name, one in wanted.items() for fault in agents.faults(one)]


def site_command(command_line: Sequence[str]) -> List[str]:
    """The command line of an executor without a journal, which runs the same agents as this one."""
    words = list(command_line)
    end = words.index("serve") + 1 if "serve" in words else 1
    found = [*words[:end], "--memory"] if "serve" in words else [*words[:end], "serve", "--memory"]
    for place, word in enumerate(words[end:], end):
        if word in SITE:
            found += words[place:place + 2]
        elif word.partition("=")[0] in SITE:
            found.append(word)
    return found
