"""What `status` prints of no journal, of an empty one, and of one that an executor has, with ended, withdrawn, running and queued actions:
as a table and as JSON, of all resources and of one, with colours only on a terminal. It changes nothing."""
import json
import os
import re

import helper
from helper import action, register
from shown import Shown

MOMENTS, IDENTITY = re.compile(r'"(at|since)":\d+'), re.compile(r'"identity":"[0-9a-f]{32}"')
RED = "\x1b[31m"
NO_JOURNAL, NO_RESOURCE = b"ocfexec: no journal here yet\n", b"ocfexec: no resource of this id\n"
# its start waits for as long as a parameter says, its monitor fails, and its promote is killed
SLOW = """case $1 in
start) [ -z "$OCF_RESKEY_time" ] || exec sleep "$OCF_RESKEY_time" ;;
monitor) exit 7 ;;
promote) kill -9 $$ ;;
esac
"""
# what has ended before the executor begins: the agent of b is missing, and so is the other one in the default root
EARLIER = (register("a-longer-name", "Slow", time=""), register("b", "None"), action("b", "start"), action("a-longer-name", "start"),
           action("a-longer-name", "monitor"), action("a-longer-name", "promote"), action("b", "stop"),
           {"op": "withdraw", "id": "b", "call": 5}, {"op": "drain"})
# what the executor is asked first, and after the ends of that: a start that runs, and a stop that is queued
LATER = ({"op": "params", "id": "a-longer-name", "params": {"time": "600"}}, {"op": "recur", "id": "b", "interval": 90001},
         action("a-longer-name", "monitor"), action("a-longer-name", "promote"))
AT_LAST = (action("a-longer-name", "start", timeout=900000), action("a-longer-name", "stop"))
# in tables each duration is TIME, and columns are two spaces apart
TABLE = """\
RESOURCE  AGENT  STATE  NOW
a-longer-name  test:Slow  failed TIME ago  starting for TIME of at most TIME, 1 queued
  monitor  not running, TIME ago
  start  failed: the agent's file is missing, TIME ago
  promote  failed: a signal ended the agent, TIME ago
  last failure  promote: failed: a signal ended the agent (OCF_ERR_GENERIC, 1), TIME ago
b  test:None  failed TIME ago
  start  failed: the agent's file is missing, TIME ago
  stop  cancelled: it was withdrawn before it began, TIME ago
  every TIME failed: the agent's file is missing, TIME ago; due
  last failure  monitor: failed: the agent's file is missing (OCF_ERR_INSTALLED, 5), TIME ago
2 resources: 2 failed
"""
TABLE_OF_B = """\
RESOURCE  AGENT  STATE  NOW
b  test:None  failed TIME ago
  start  failed: the agent's file is missing, TIME ago
  stop  cancelled: it was withdrawn before it began, TIME ago
  every TIME failed: the agent's file is missing, TIME ago; due
  last failure  monitor: failed: the agent's file is missing (OCF_ERR_INSTALLED, 5), TIME ago
  history, oldest first:
  call N, stop of TIME: cancelled: it was withdrawn before it began, TIME ago
  call N, start of TIME: failed: the agent's file is missing, TIME ago
  call N, monitor of TIME: failed: the agent's file is missing, TIME ago
"""
# the states as JSON, with N for each moment and ID for each identity
STATES = (
    {"at_least": False, "executor": True,
     "failed": {"action": "promote", "at": "N", "code": 1, "name": "OCF_ERR_GENERIC", "outcome": "signaled", "reason": None},
     "held": None, "id": "a-longer-name", "identity": "ID", "queued": 1,
     "running": {"action": "start", "since": "N", "timeout": 900000}, "since": "N", "state": "failed"},
    {"at_least": False, "executor": True,
     "failed": {"action": "monitor", "at": "N", "code": 5, "name": "OCF_ERR_INSTALLED", "outcome": "not-started", "reason": None},
     "held": None, "id": "b", "identity": "ID", "queued": 0, "running": None, "since": "N", "state": "failed"},
)


def plain(table: bytes) -> str:
    """A table without what differs from run to run."""
    text = re.sub(r" \d+ (ms|s|min|h|days)\b", " TIME", table.decode())
    text = re.sub(r"due (in TIME|TIME ago)", "due", text)
    return re.sub(r"  +", "  ", re.sub(r" +$", "", text, flags=re.MULTILINE))


def plain_json(lines: list[bytes]) -> list[str]:
    """Lines of JSON without what differs from run to run."""
    return [IDENTITY.sub('"identity":"ID"', MOMENTS.sub(r'"\1":"N"', line.decode())) for line in lines]


def files(folder: str) -> dict[str, bytes]:
    """The files of a directory, with their bytes."""
    found = {}
    for name in os.listdir(folder):
        with open(os.path.join(folder, name), "rb") as file:
            found[name] = file.read()
    return found


class Nothing(helper.Check):
    def test_memory(self) -> None:
        """a journal in memory has no resource"""
        done = helper.run("status", "--memory")
        self.assertEqual((done.returncode, done.stdout), (0, b"0 resources\n"), done.stderr)

    def test_no_journal(self) -> None:
        """a directory without a journal is refused with status 9, and stays empty"""
        folder = self.journal()
        for more in ([], ["--json"], ["--exit-code"]):
            done = helper.run("status", *more, "--journal", folder)
            self.assertEqual((done.returncode, done.stderr, done.stdout), (9, NO_JOURNAL, b""), more)
            self.assertEqual(os.listdir(folder), [], more)

    def test_new(self) -> None:
        """a new journal has no record and no resource, and with --exit-code the status is 10"""
        folder = self.journal()
        self.assertEqual(helper.run("run", "--journal", folder).returncode, 0)
        done = helper.run("status", "--exit-code", "--journal", folder)
        self.assertEqual((done.returncode, done.stdout), (10, b"no executor has this journal; it has no record\n0 resources\n"))


class InUse(Shown):
    """A journal that an executor has."""

    def setUp(self) -> None:
        super().setUp()
        self.agent("Slow", SLOW)
        self.folder = self.journal()
        done = helper.run("run", "--journal", self.folder, sent=helper.lines(*EARLIER))
        self.assertEqual((done.returncode, [value for value in helper.replies(done.stdout) if "error" in value]), (0, []), done.stderr)
        self.executor = self.started("serve", "--journal", self.folder, "--root", self.here)
        # (so its agent ends, too)
        self.addCleanup(self.executor.ends)
        self.executor.send(*LATER)
        self.executor.awaits(lambda value: helper.is_notice(value, outcome="signaled"))
        self.executor.awaits(lambda value: value.get("interval") == 90001)
        self.executor.send(*AT_LAST)
        self.eventually("a start that runs", lambda: b'"key":"a-longer-name_start_0"' in helper.shown(self.folder))
        # (the agent is noted in the journal's directory after its begin, in the turn before this reply)
        self.executor.send({"op": "list", "tag": "settled"})
        self.executor.awaits(lambda value: value.get("tag") == "settled")
        self.before = files(self.folder)

    def status(self, *words: str) -> bytes:
        """The output of a status that ends well, which changes nothing."""
        done = helper.run("status", "--journal", self.folder, *words)
        self.assertEqual((done.returncode, done.stderr), (0, b""), words)
        self.is_unchanged()
        return done.stdout

    def is_unchanged(self) -> None:
        self.assertEqual(files(self.folder), self.before, "the journal has changed")

    def lines(self, *words: str) -> list[bytes]:
        found = self.status("--json", *words)
        helper.replies(found)
        return found.splitlines()

    def test_table(self) -> None:
        """the table has what has ended, what was withdrawn, what runs and how much is queued"""
        self.assertEqual(plain(self.status()), TABLE)

    def test_one(self) -> None:
        """the table of one resource also has its history"""
        self.assertEqual(re.sub(r"call \d+", "call N", plain(self.status("b"))), TABLE_OF_B)

    def test_json(self) -> None:
        """as JSON, what `show` prints comes first, and then a line for the state of each resource"""
        found = self.lines()
        self.assertEqual(found[:5], helper.shown(self.folder).splitlines())
        wanted = [json.dumps(state, sort_keys=True, separators=(",", ":")) for state in STATES]
        self.assertEqual(plain_json(found[5:]), wanted)

    def test_one_json(self) -> None:
        """as JSON, one resource has its lines of all, with its id before --json or after it"""
        found = self.lines()
        self.assertEqual(self.lines("b"), [found[3], found[4], found[6]])
        self.assertEqual(self.status("a-longer-name", "--json").splitlines(), [found[1], found[2], found[5]])

    def test_no_resource(self) -> None:
        """an id that no resource has is refused with status 2, for a table and for JSON"""
        for more in ([], ["--json"]):
            for name in ("nobody", "a-longer-nam", "B", ""):
                done = helper.run("status", *more, "--journal", self.folder, name)
                self.assertEqual((done.returncode, done.stderr, done.stdout), (2, NO_RESOURCE, b""), (more, name))
        self.is_unchanged()

    def test_colours(self) -> None:
        """a failure is red on a terminal, and nothing has a colour in a pipe"""
        self.assertIn(f"{RED}failed", self.on_terminal())
        for words in ([], ["b"], ["--json"]):
            self.assertNotIn(b"\x1b", self.status(*words))
        self.is_unchanged()

    def test_unchanged(self) -> None:
        """a status leaves the executor as it was: it goes on, and ends well"""
        self.status()
        self.executor.send({"op": "list", "tag": "after"})
        self.executor.awaits(lambda value: value.get("tag") == "after")
        self.is_unchanged()
        self.assertEqual(self.executor.ends(), 0)
