"""The agents of the package resource-agents, unchanged, under ocfexec. The metadata of each agent are passed on byte for byte as the agent
prints them by itself in the same environment. Agents that need no hardware and no other software are started, monitored and stopped, with
the exit codes of the OCF Resource Agent API."""
import collections
import contextlib
import os
import signal
import subprocess
import unittest
from collections.abc import Sequence

import helper

ROOT, PATH = "/usr/lib/ocf", "/usr/sbin:/usr/bin:/sbin:/bin"
AGENTS = f"{ROOT}/resource.d/heartbeat"
NAMES = {0: "OCF_SUCCESS", 1: "OCF_ERR_GENERIC", 3: "OCF_ERR_UNIMPLEMENTED", 5: "OCF_ERR_INSTALLED", 6: "OCF_ERR_CONFIGURED",
         7: "OCF_NOT_RUNNING", 8: "OCF_RUNNING_PROMOTED"}
# the end of an action: its action, its outcome, its code, and the name of that
End = tuple[str, str, int, str]
DRAIN = {"op": "drain"}
# a timeout that a busy machine does not pass, and one that a start of five seconds does, in milliseconds
LONG, SHORT = 20_000, 500
# the agents that need nothing else, with their parameters in the directory of a check
PARAMETERS = {
    "Dummy": {"state": "{here}/dummy"},
    "dummypy": {"state": "{here}/dummypy"},
    "Stateful": {"state": "{here}/stateful"},
    "Delay": {"startdelay": "0", "stopdelay": "0", "mondelay": "0"},
    "anything": {"binfile": "/bin/sleep", "cmdline_options": "600", "pidfile": "{here}/anything.pid"},
    "symlink": {"link": "{here}/link", "target": "{here}/target"},
    "AudibleAlarm": {},
}
# the actions of each of them, one after another, and those of a promotable one, each with its code
LIFE = (("monitor", 7), ("start", 0), ("start", 0), ("monitor", 0), ("stop", 0), ("stop", 0), ("monitor", 7))
ROLES = (("start", 0), ("promote", 0), ("monitor", 8), ("demote", 0), ("monitor", 0), ("stop", 0))
# agents with these parameters or none, an action, and its end
SINGLE = (("Dummy", True, "validate-all", "done", 0), ("Dummy", True, "promote", "done", 3), ("symlink", False, "start", "done", 6),
          ("Absent", False, "start", "not-started", 5))
# what runs at once
CROWD, ACTIONS = ("Dummy", "dummypy", "Stateful", "anything", "symlink"), ("start", "monitor", "stop")


def end(action: str, code: int, outcome: str = "done") -> End:
    return action, outcome, code, NAMES[code]


def name_of(kind: str) -> str:
    """The name of a resource, with this process's number in it, since agents keep files by names."""
    return f"{kind}-{os.getpid()}"


def queued(kind: str, action: str, timeout: int = LONG) -> dict[str, object]:
    """The command that queues an action."""
    return helper.action(name_of(kind), action, timeout=timeout)


def registered(kind: str, **params: str) -> dict[str, object]:
    return helper.register(name_of(kind), kind, "heartbeat", **params)


def answered(*commands: dict[str, object]) -> bytes:
    """The output of a run of these commands, which ends well."""
    done = helper.run("run", "--memory", "--root", ROOT, "--meta-variables", sent=helper.lines(*commands))
    assert done.returncode == 0, f"it ended with {done.returncode}: {done.stderr.decode()}"
    return done.stdout


def ends_of(*commands: dict[str, object]) -> list[End]:
    """The ends of the actions of a run."""
    notices = [value for value in helper.replies(answered(*commands)) if helper.is_notice(value)]
    return [(notice["action"], notice["outcome"], notice["code"], notice["name"]) for notice in notices]


def by_itself(kind: str) -> bytes:
    """What a run has to print of the metadata that an agent prints by itself."""
    variables = {"OCF_RA_VERSION_MAJOR": "1", "OCF_RA_VERSION_MINOR": "1", "OCF_RESOURCE_PROVIDER": "heartbeat",
                 "OCF_RESOURCE_TYPE": kind, "OCF_ROOT": ROOT, "PATH": PATH}
    done = subprocess.run([f"{AGENTS}/{kind}", "meta-data"], env=variables, stdin=subprocess.DEVNULL, stdout=subprocess.PIPE,
                          stderr=subprocess.DEVNULL, timeout=helper.PATIENCE, check=False)
    if done.returncode:
        return b'{"code":%d,"end":"failed"}\n' % done.returncode
    return b'{"meta":%d}\n%s\n' % (len(done.stdout), done.stdout)


@helper.slow
@unittest.skipUnless(os.access(f"{AGENTS}/Dummy", os.X_OK), "install the package resource-agents")
@unittest.skipUnless(os.geteuid() == 0, "agents write to /run/resource-agents: run it as root")
class RealAgents(helper.Check):
    def setUp(self) -> None:
        super().setUp()
        with open(self.place("target"), "wb"):
            pass
        self.addCleanup(self.end_daemon)

    def end_daemon(self) -> None:
        """Ends the service of the agent `anything`, if a test left it."""
        with contextlib.suppress(OSError, ValueError), open(self.place("anything.pid"), encoding="ascii") as file:
            os.kill(int(file.read()), signal.SIGTERM)

    def registers(self, kind: str) -> dict[str, object]:
        """The command that registers a resource of an agent, with its parameters."""
        return registered(kind, **{key: value.format(here=self.here) for key, value in PARAMETERS[kind].items()})

    def lives(self, kind: str, steps: Sequence[tuple[str, int]]) -> None:
        """The actions of an agent, one after another, each with its code."""
        commands = [command for action, _ in steps for command in (queued(kind, action), DRAIN)]
        self.assertEqual(ends_of(self.registers(kind), *commands), [end(action, code) for action, code in steps])

    def test_metadata(self) -> None:
        """the metadata of each agent are passed on as it prints them by itself"""
        kinds = sorted(entry.name for entry in os.scandir(AGENTS) if entry.is_file() and os.access(entry.path, os.X_OK))
        self.assertIn("Dummy", kinds)
        for kind in kinds:
            with self.subTest(kind):
                self.assertEqual(answered({"op": "meta", "provider": "heartbeat", "type": kind}), by_itself(kind))
        print(f"real_agents: the metadata of {len(kinds)} agents")

    def test_lives(self) -> None:
        """agents that need nothing else are started and stopped, each twice, with the codes of the API"""
        for kind in PARAMETERS:
            with self.subTest(kind):
                self.lives(kind, LIFE)

    def test_roles(self) -> None:
        """a promotable agent is promoted and demoted, and its monitor has its role"""
        self.lives("Stateful", ROLES)

    def test_single(self) -> None:
        """the code of an action that an agent refuses or does not know, and of an agent that is missing"""
        for kind, has_parameters, action, outcome, code in SINGLE:
            with self.subTest(kind=kind, action=action):
                register = self.registers(kind) if has_parameters else registered(kind)
                self.assertEqual(ends_of(register, queued(kind, action), DRAIN), [end(action, code, outcome)])

    def test_timeout(self) -> None:
        """a start that is past its timeout is ended, and nothing runs after it"""
        slow = registered("Delay", startdelay="5", stopdelay="0", mondelay="0")
        self.assertEqual(ends_of(slow, queued("Delay", "start", SHORT), queued("Delay", "stop"), queued("Delay", "monitor"), DRAIN),
                         [end("start", 1, "timed-out"), end("stop", 0), end("monitor", 7)])

    def test_crowd(self) -> None:
        """five agents at once end as each does alone"""
        commands = [command for action in ACTIONS for command in (*(queued(kind, action) for kind in CROWD), DRAIN)]
        found = collections.Counter(ends_of(*map(self.registers, CROWD), *commands))
        self.assertEqual(found, {end(action, 0): len(CROWD) for action in ACTIONS})
