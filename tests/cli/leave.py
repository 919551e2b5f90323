"""An orderly end: a serving run that reads `leave` begins no more actions, waits for running ones within their timeouts, records and
reports them, replies, and ends with 0. The next opening drops queued actions, and monitors are kept."""
import os
import subprocess
import time

import helper
from helper import action

LEAVE = {"op": "leave"}
LIST = {"op": "list"}
LEFT = {"end": "left"}


class Leave(helper.Check):
    def setUp(self):
        super().setUp()
        self.agent("Works", f'echo "$1" >> {self.here}/calls\n[ "$1" = start ] && sleep 1\nexit 0\n')
        self.agent("Hangs", f"sleep 30 & echo $$ $! > {self.here}/pids\nwait\n")

    def serves(self, *words):
        return self.started("serve", *words, "--root", self.here)

    def hangs(self):
        # the agent that hangs has begun
        self.eventually("the agent begins", lambda: os.path.exists(self.place("pids")))

    def leaves(self, run, began, least, most):
        # the reply comes within this many seconds, is the last line, and the run ends with 0 without the end of its input
        at, _ = run.awaits(lambda value: value == LEFT)
        self.assertGreaterEqual(at - began, least, "seconds to the reply")
        self.took_less(most, at - began, "waiting for the reply")
        self.assertEqual(run.run.wait(helper.PATIENCE), 0)
        run.reader.join()
        self.assertEqual(run.values()[-1], LEFT)

    def test_nothing(self):
        """if nothing runs, a run ends at once, and later lines are not read"""
        run = self.serves("--memory")
        began = time.monotonic()
        run.send(helper.register("a", "Works"), LEAVE, LIST)
        self.leaves(run, began, 0, 0.5)
        self.assertEqual(run.values(), [{"ok": True}, LEFT])

    def test_runs(self):
        """running actions end, and are recorded and reported; queued actions and a due monitor do not begin"""
        folder = self.journal()
        run = self.serves("--journal", folder)
        run.send(helper.register("a", "Works"), action("a", "start"), action("a", "stop"), helper.register("b", "Works"),
                 {"op": "recur", "id": "b", "interval": 200})
        run.awaits(lambda value: helper.is_notice(value, id="b", outcome="done"))
        began = time.monotonic()
        run.send(LEAVE)
        self.leaves(run, began, 0.2, 1.5)
        ends = [(value["id"], value["action"], value["outcome"]) for value in run.notices() if value["id"] == "a"]
        self.assertEqual(ends, [("a", "start", "done")])
        with open(self.place("calls"), encoding="ascii") as file:
            self.assertNotIn("stop\n", file.read())
        before = len(run.notices())
        time.sleep(0.5)
        self.assertEqual(len(run.notices()), before)
        again = self.serves("--journal", folder)
        again.awaits(lambda value: helper.is_notice(value, id="a", action="stop", outcome="dropped"))
        again.awaits(lambda value: helper.is_notice(value, id="b", outcome="done"))
        self.assertEqual([value for value in again.notices() if value["outcome"] == "interrupted"], [])
        self.assertEqual(again.ends(), 0)

    def test_timeout(self):
        """an action that hangs is ended at its timeout with its child, and reported; then the run ends"""
        run = self.serves("--memory")
        began = time.monotonic()
        run.send(helper.register("h", "Hangs"), action("h", "start", timeout=1000))
        self.hangs()
        run.send(LEAVE)
        self.leaves(run, began, 0.9, 2)
        self.assertEqual([value["outcome"] for value in run.notices()], ["timed-out"])
        with open(self.place("pids"), encoding="ascii") as file:
            self.assertEqual([pid for pid in map(int, file.read().split()) if helper.is_alive(pid)], [], "processes that live on")

    def test_run(self):
        """run does not know the line, and goes on"""
        done = helper.run("run", "--memory", "--root", self.here, sent=helper.lines(LEAVE, LIST))
        self.assertEqual((done.returncode, helper.replies(done.stdout)),
                         (0, [{"error": "unknown-op", "number": 2}, {"ok": True, "resources": []}]))

    def test_client(self):
        """a client that goes away meanwhile ends the run within a second, with 7"""
        run = subprocess.Popen([helper.PROGRAM, "serve", "--memory", "--root", self.here],
                               stdin=subprocess.PIPE, stdout=subprocess.PIPE, stderr=subprocess.DEVNULL)
        self.addCleanup(run.kill)
        run.stdin.write(helper.lines(helper.register("h", "Hangs"), action("h", "start", timeout=20000)))
        run.stdin.flush()
        self.hangs()
        run.stdin.write(helper.lines(LEAVE))
        run.stdin.flush()
        time.sleep(0.3)
        began = time.monotonic()
        run.stdout.close()
        self.assertEqual(run.wait(helper.PATIENCE), 7)
        self.took_less(1.5, time.monotonic() - began, "an end after the last reader")
        run.stdin.close()
