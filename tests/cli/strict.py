"""The status of `run --strict`: 1 if a line was refused or not done, or if an action failed, and otherwise that of `run`, whose output it
has byte for byte. What is no failure: a degraded monitor, an expected code, and what was interrupted, dropped or cancelled."""
import os
import re
import subprocess

import helper
from helper import PROGRAM

LINE = b"ocfexec: a line was not done or an action failed\n"
ADVICE = b"The replies and notices on standard output say which.\n"
# The moments of results differ between two runs.
MOMENT = re.compile(rb'"(at|since)":\d+')
# Lines after which nothing failed: an action by its code, what is asked of it, and the lines that follow.
WELL = {
    "no line": [],
    "a start that succeeds": [helper.action("r0", "start"), {"op": "drain"}],
    "a monitor that finds its resource degraded": [helper.action("r190", "monitor"), {"op": "drain"}],
    "a monitor that finds its resource degraded as promoted": [helper.action("r191", "monitor", expect=8), {"op": "drain"}],
    "a monitor that finds its resource stopped, as expected": [helper.action("r7", "monitor", expect=7), {"op": "drain"}],
    "a monitor that finds its resource promoted, as expected": [helper.action("r8", "monitor", expect=8), {"op": "drain"}],
    "an action that is withdrawn": [helper.action("r1", "start"), {"op": "withdraw", "id": "r1", "call": 1}],
    "an action that never begins": [helper.action("r1", "start")],
    "a drain that ends by its limit": [helper.action("sleeper", "start"), {"op": "drain", "limit": 10}],
    "a watch that ends by its limit": [{"op": "watch", "limit": 10}],
    "questions": [{"op": "list"}, {"op": "info", "id": "r1"}, {"op": "history", "id": "r1"}],
    "metadata": [{"op": "meta", "provider": "test", "type": "Coded"}],
    "a tidy": [{"op": "tidy"}],
}
# Lines of which one is refused or not done, or of which an action fails.
ILL = {
    "a line that is no JSON": [b"so"],
    "an empty object": [{}],
    "an unknown operation": [{"op": "fly"}],
    "a line of serve": [{"op": "version"}],
    "another line of serve": [{"op": "leave"}],
    "the status, which only serve has": [{"op": "status"}],
    "a second registration": [helper.register("r1", "Coded")],
    "an action of no resource": [helper.action("none", "start")],
    "a question about no resource": [{"op": "info", "id": "none"}],
    "a refused line between others": [{"op": "list"}, {"op": "cancel", "id": "r1", "interval": 1}, {"op": "list"}],
    "a call that is not queued": [{"op": "withdraw", "id": "r1", "call": 9}],
    "metadata of no agent": [{"op": "meta", "provider": "test", "type": "None"}],
    "metadata from an agent that fails": [{"op": "meta", "provider": "test", "type": "Failing"}],
    "metadata that come too late": [{"op": "meta", "provider": "test", "type": "Sleeper", "limit": 10}],
    "a start that fails": [helper.action("r1", "start"), {"op": "drain"}],
    "a start that is degraded": [helper.action("r190", "start"), {"op": "drain"}],
    "a stop that finds nothing": [helper.action("r7", "stop"), {"op": "drain"}],
    "a monitor that finds its resource stopped": [helper.action("r7", "monitor"), {"op": "drain"}],
    "a monitor that finds its resource promoted": [helper.action("r8", "monitor"), {"op": "drain"}],
    "a monitor that finds its resource running": [helper.action("r0", "monitor", expect=7), {"op": "drain"}],
    "a monitor that does not find it degraded as promoted": [helper.action("r190", "monitor", expect=8), {"op": "drain"}],
    "a failure before a success": [helper.action("r1", "start"), {"op": "drain"}, helper.action("r0", "start"), {"op": "drain"}],
    "a recurring monitor that fails": [{"op": "recur", "id": "r1", "interval": 60_000}, {"op": "watch", "limit": 100}],
    "an action that takes too long": [helper.action("sleeper", "start", timeout=10), {"op": "drain"}],
    "an agent that a signal ends": [helper.action("killed", "start"), {"op": "drain"}],
    "an agent that is not there": [helper.action("missing", "start"), {"op": "drain"}],
}


class Strict(helper.Check):
    def setUp(self):
        super().setUp()
        self.agent("Coded", '[ "$1" != meta-data ] || exec echo "<xml/>"\nexit "$OCF_RESKEY_code"\n')
        self.agent("Sleeper", "exec sleep 60\n")
        self.agent("Failing", "exit 1\n")
        self.agent("Killed", "kill -9 $$\n")
        self.registered = [*[helper.register(f"r{code}", "Coded", code=str(code)) for code in (0, 1, 7, 8, 190, 191)],
                           helper.register("sleeper", "Sleeper"), helper.register("killed", "Killed"), helper.register("missing", "None")]

    def ends(self, commands, *words, status, strict=True, explained=False):
        """Runs these lines with these words; it ends with this status. Returns its standard output and standard error."""
        sent = b"".join(line + b"\n" if isinstance(line, bytes) else helper.lines(line) for line in commands)
        run = helper.explained if explained else helper.run
        done = run("run", *["--strict"] * strict, "--root", self.here, *words, sent=sent)
        self.assertEqual(done.returncode, status, (done.stdout, done.stderr))
        return MOMENT.sub(b"", done.stdout), done.stderr

    def alike(self, commands, status):
        """The output of a strict run is that of another; only its status and its line on standard error differ."""
        out, err = self.ends(commands, "--memory", status=0, strict=False)
        self.assertEqual((out, err + (LINE if status else b"")), self.ends(commands, "--memory", status=status))

    def test_well(self):
        """0 where nothing failed"""
        for what, commands in WELL.items():
            with self.subTest(what):
                self.alike([*self.registered, *commands], 0)

    def test_ill(self):
        """1 where a line was not done or an action failed"""
        for what, commands in ILL.items():
            with self.subTest(what):
                self.alike([*self.registered, *commands], 1)

    def test_explained(self):
        """a line on standard error, and advice for people"""
        _, err = self.ends([{"op": "fly"}], "--memory", status=1, explained=True)
        self.assertEqual(err, LINE + ADVICE)

    def test_opening(self):
        """what an opening reports as interrupted or dropped is no failure, and earlier failures are none"""
        folder = self.journal()
        self.ends([*self.registered, helper.action("r1", "start"), {"op": "drain"}], "--journal", folder, status=1)
        first = self.started("run", "--journal", folder, "--root", self.here)
        first.send(helper.action("sleeper", "start"), helper.action("sleeper", "stop"), {"op": "drain"})
        self.eventually("an action that runs", lambda: b'"running":{' in helper.shown(folder))
        first.killed()
        out, err = self.ends([], "--journal", folder, "--leave-orphans", status=0)
        found = map(helper.value_of, out.replace(b",,", b",").splitlines())
        self.assertEqual([value["outcome"] for value in found], ["interrupted", "dropped"])
        self.assertNotIn(LINE, err)
        self.ends([{"op": "list"}], "--journal", folder, status=0)

    def test_faults(self):
        """another fault has its own status"""
        with open("/dev/full", "wb") as full:
            done = subprocess.run([PROGRAM, "run", "--strict", "--memory"], input=b'{"op":"fly"}\n', stdout=full, stderr=subprocess.PIPE)
        self.assertEqual((done.returncode, done.stderr), (7, b"ocfexec: input or output\n"))
        self.ends([{"op": "fly"}], "--journal", self.place("none"), status=5)
        folder = self.journal()
        self.ends(self.registered, "--journal", folder, status=0)
        a, b = helper.parts(folder)
        self.ends([{"op": "fly"}], "--journal", self.journal_of("damaged", b"so" + a[2:], b), status=3)

    def test_others(self):
        """only run knows it"""
        for word in ("serve", "show", "status", "log", "metrics"):
            done = helper.run(word, "--memory", "--strict")
            self.assertEqual((done.returncode, b"unexpected argument '--strict'" in done.stderr), (2, True), word)
        self.assertIn(b"--strict", helper.run("run", "--help").stdout)
