"""The states of resources as a status prints them: by the ends of their last actions, with an agent that ends by its parameter, after a
timeout, an interruption and a withdrawal, with the status of --exit-code, for all resources and for one, as a table and as JSON."""
import re
import time

import helper

# Whether an administrator has to act, by the exit status, while an executor has the journal; without one it is 10.
ALARM = {"failed": 9, "unknown": 9}
LEFT = 10
# a duration, and the space that it leaves in its column
LENGTH = re.compile(r"\d+ (ms|s|min)\b *|(?<=STATE) +")
# The ends of actions, one after the other, and the state of the resource after them, as a table has it.
BY_CODES = [
    (0, "monitor", "started"), (7, "monitor", "failed"), (0, "start", "started"), (0, "validate-all", "started"),
    (0, "promote", "promoted"), (0, "reload-agent", "promoted"), (0, "demote", "started"), (0, "stop", "stopped"),
    (190, "monitor", "started, degraded"), (1, "monitor", "failed"), (0, "start", "started"), (6, "reload-agent", "failed"),
    (0, "start", "started"), (1, "stop", "failed"), (0, "stop", "stopped"), (9, "monitor", "failed"), (255, "monitor", "failed"),
    (0, "promote", "promoted"), (190, "promote", "failed"), (0, "stop", "failed"), (0, "start", "started"), (0, "stop", "stopped"),
    (0, "start", "started"), (7, "monitor", "failed"), (0, "stop", "failed"), (1, "start", "failed"), (0, "stop", "failed"),
    (0, "start", "started"), (0, "stop", "stopped"),
]
# The code of a monitor, the expected code, and the state of the resource after it.
EXPECTED = [(7, 7, "stopped"), (8, 8, "promoted"), (191, 8, "promoted, degraded"), (190, 7, "failed"), (190, 8, "failed"),
            (0, 8, "failed"), (0, 7, "failed")]
# What the result of a monitor means, by its exit code.
MEANINGS = {
    0: "running",
    1: "failed",
    2: "failed: its parameters are not valid on this machine",
    3: "failed: the agent has no such action",
    4: "failed: the agent lacks a permission",
    5: "failed: the agent, or what it needs, is not installed",
    6: "failed: its parameters are not valid on any machine",
    7: "not running",
    8: "running, promoted",
    9: "failed in the promoted role",
    190: "running, but degraded",
    191: "running, promoted, but degraded",
    77: "failed with a code of the agent's own",
}


class States(helper.Check):
    def setUp(self):
        super().setUp()
        self.agent("Ends", '[ "$OCF_RESKEY_code" != sleep ] || exec sleep 60\nexit "$OCF_RESKEY_code"\n')
        self.folder = self.journal()
        self.asks(helper.register("r1", "Ends"), helper.register("r2", "Ends"))

    def asks(self, *commands):
        done = helper.run("run", "--journal", self.folder, "--root", self.here, "--orphans", "0", sent=helper.lines(*commands))
        self.assertEqual(done.returncode, 0, done.stderr)

    def ends(self, code, action, **more):
        """Runs an action of r1, whose agent ends with this code or sleeps."""
        self.asks({"op": "params", "id": "r1", "params": {"code": str(code)}}, helper.action("r1", action, **more), {"op": "drain"})

    def status(self, *words, status=0):
        """The output of a status, which ends so."""
        done = helper.run("status", "--journal", self.folder, *words)
        self.assertEqual((done.returncode, done.stderr), (status, b""), f"status {' '.join(words)}:\n{done.stdout.decode()}")
        return done.stdout

    def condition(self, name):
        """The line of a resource in JSON that has its state."""
        return helper.replies(self.status("--json", name))[-1]

    def is_so(self, name, state, ends=LEFT):
        """A resource is in this state, in a table and as JSON, and --exit-code ends so."""
        table = self.status().decode()
        row = re.search(rf"^{name} +\S+ +(.*?)(?: \d+ [a-z]+ ago)?(, degraded)?(?:  .*)?$", table, re.MULTILINE)
        self.assertEqual(row and row[1] + (row[2] or ""), state, table)
        self.assertEqual(self.condition(name)["state"], state.removesuffix(", degraded"))
        for words in ([name], ["--json", name], [name, "--json"]):
            self.status("--exit-code", *words, status=ends)
        plain, coded = self.status(name), self.status(name, "--exit-code", status=ends)
        self.assertEqual(LENGTH.sub("TIME", coded.decode()), LENGTH.sub("TIME", plain.decode()), "the same with --exit-code")
        return plain.decode()

    def test_none(self):
        """no action has run"""
        for name in ("r1", "r2"):
            self.is_so(name, "never run")

    def test_codes(self):
        """by the codes of actions"""
        for code, action, state in BY_CODES:
            with self.subTest(f"{action} ends with {code}"):
                self.ends(code, action)
                self.is_so("r1", state)

    def test_meanings(self):
        """what a result means, in words"""
        for code, meaning in MEANINGS.items():
            with self.subTest(f"a monitor ends with {code}"):
                self.ends(code, "monitor")
                self.assertRegex(self.status("r1").decode(), rf"(?m)^  monitor +{re.escape(meaning)}, \d+ ms ago$")
        self.ends(0, "start")
        self.assertRegex(self.status("r1").decode(), r"(?m)^  start +ok, \d+ ms ago$")

    def test_expected(self):
        """by the expected code of a monitor"""
        for code, expected, state in EXPECTED:
            with self.subTest(f"{code}, where {expected} was expected"):
                self.ends(code, "monitor", expect=expected)
                self.is_so("r1", state)

    def test_timeout(self):
        """a timeout"""
        self.ends("sleep", "start", timeout=100)
        table = self.is_so("r1", "unknown")
        self.assertIn("last failure  start: failed: it ran past its timeout and was killed (OCF_ERR_GENERIC, 1), ", table)
        self.ends(0, "start")
        self.is_so("r1", "started")
        self.is_so("r2", "never run")

    def test_interruption(self):
        """an interruption"""
        self.ends(0, "start")
        run = self.started("serve", "--journal", self.folder, "--root", self.here, "--orphans", "0")
        run.send({"op": "params", "id": "r1", "params": {"code": "sleep"}}, helper.action("r1", "stop"), helper.action("r1", "start"))
        self.eventually("a stop that runs", lambda: self.condition("r1")["running"])
        self.is_so("r1", "started", ends=0)
        self.assertRegex(self.status().decode(), r"(?m)^r1 .*stopping for \d+ (ms|s) of at most 20 s, 1 queued$")
        run.killed()
        self.asks()
        self.is_so("r1", "unknown")

    def test_alarm(self):
        """while an executor has the journal, a failed or unknown resource that is requested is enough for status 9"""
        states = {"r1": "started", "r2": "never run"}
        for code, action, state in ((0, "start", "started"), (1, "monitor", "failed"), (0, "stop", "failed"), (0, "start", "started")):
            self.ends(code, action)
            states["r1"] = state
            run = self.started("serve", "--journal", self.folder, "--root", self.here, "--orphans", "0")
            run.ready()
            for words, seen in (([], states.values()), (["r1"], [state]), (["r2"], ["never run"]), (["r2", "r1"], states.values())):
                self.status("--exit-code", *words, status=max(ALARM.get(each, 0) for each in seen))
            self.assertEqual(run.ends(), 0)

    def test_forget(self):
        """after forget it is unknown, unless it never ran"""
        self.ends(0, "start")
        self.asks({"op": "forget", "id": "r1"}, {"op": "forget", "id": "r2"})
        self.is_so("r1", "unknown")
        self.is_so("r2", "never run")

    def test_since(self):
        """since the first of the results after which no other state follows"""
        self.ends(0, "start")
        self.ends(6, "monitor")
        first = self.condition("r1")
        time.sleep(0.1)
        self.ends(1, "monitor")
        self.assertEqual(self.condition("r1")["since"], first["since"])
        self.ends(6, "monitor")
        self.assertIn("last failure  monitor: not configured (OCF_ERR_CONFIGURED, 6), ", self.status("r1").decode())
