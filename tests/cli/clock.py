"""Steps of the wall clock, by a shim over clock_gettime (clock.c): an action's timeout, a watch's limit and recurring monitors keep their
length while the clock is set back or forward; a journal that was written ten years ahead continues; and a status computes ages by the clock
of the executor, or says that a moment is in the future."""
import os
import re
import shutil
import time
import unittest

import helper

YEARS = 315360000  # ten of them, in seconds
DRAIN = {"op": "drain"}
UNITS = {"ms": 1, "s": 1000, "min": 60000, "h": 3600000, "days": 86400000}


@unittest.skipUnless(shutil.which("cc"), "install a C compiler (apt-get install gcc)")
class Clock(helper.Check):
    def setUp(self):
        super().setUp()
        self.agent("Sleeper", '[ "$1" = monitor ] && exit 0\nexec sleep "$OCF_RESKEY_for"\n')
        self.shim = helper.shim("clock.c", self.here)
        self.set_ahead(0)

    def set_ahead(self, seconds):
        with open(self.place("ahead.new"), "w", encoding="ascii") as ahead:
            ahead.write(str(seconds))
        os.rename(self.place("ahead.new"), self.place("ahead"))

    def environment(self):
        return {**os.environ, "AHEAD": self.place("ahead"), "LD_PRELOAD": self.shim}

    def shimmed(self, *journal, word="run"):
        return self.started(word, *(journal or ["--memory"]), "--root", self.here, env=self.environment())

    def registered(self):
        return helper.register("r1", "Sleeper", **{"for": "4"})

    def start(self, timeout):
        return helper.action("r1", "start", timeout=timeout)

    def takes(self, run, word, began, least, most):
        # the end of a drain or a watch, of this word, so many milliseconds after a moment
        at, end = run.awaits(lambda value: value.get("end") == word)
        self.assertGreaterEqual((at - began) * 1000, least, f"milliseconds to the end {word}")
        self.took_less(most / 1000, at - began, f"waiting for the end {word}")

    def ended(self, run, action):
        return [(value["outcome"], value["code"]) for value in run.notices() if value["action"] == action]

    def test_ahead(self):
        """a journal from ten years ahead"""
        folder = self.journal()
        self.set_ahead(YEARS)
        run = self.shimmed("--journal", folder)
        run.send(self.registered())
        self.assertEqual(run.awaits(lambda value: True)[1], {"ok": True})
        self.assertEqual(run.ends(), 0)
        self.set_ahead(0)
        run, began = self.shimmed("--journal", folder), time.monotonic()
        run.send(self.start(1000), DRAIN)
        self.takes(run, "idle", began, 900, 2500)
        self.assertEqual(self.ended(run, "start"), [("timed-out", 1)])
        run.send({"op": "recur", "id": "r1", "interval": 200}, {"op": "watch", "limit": 1500})
        run.awaits(lambda value: value.get("end") == "limit")
        self.came_often(3, len(self.ended(run, "monitor")), "monitors of 200 ms in 1.5 s")
        self.assertEqual(run.ends(), 0)

    def test_back(self):
        """a timeout and a watch, the clock set back"""
        run, began = self.shimmed(), time.monotonic()
        run.send(self.registered(), self.start(1000), DRAIN)
        time.sleep(0.3)
        self.set_ahead(-30)
        self.takes(run, "idle", began, 700, 2500)
        began = time.monotonic()
        run.send({"op": "watch", "limit": 1500})
        time.sleep(0.3)
        self.set_ahead(-60)
        self.takes(run, "limit", began, 1200, 3000)
        self.assertEqual(run.ends(), 0)

    def test_forward(self):
        """a start, the clock set forward"""
        run = self.shimmed()
        run.send(self.registered(), self.start(20000), DRAIN)
        time.sleep(0.8)
        self.set_ahead(3600)
        run.awaits(lambda value: value.get("end") == "idle")
        self.assertEqual(self.ended(run, "start"), [("done", 0)])
        self.assertEqual(run.ends(), 0)

    def monitored(self):
        # an executor with a running start and a monitor of 2 s with a result
        run = self.shimmed("--journal", self.journal(), word="serve")
        run.send(helper.register("r1", "Sleeper", **{"for": "30"}), helper.action("r1", "start", timeout=90000),
                 helper.register("r2", "Sleeper"), {"op": "recur", "id": "r2", "interval": 2000})
        run.awaits(lambda value: helper.is_notice(value, action="monitor"))
        return run

    def status(self, seconds, name="journal", *words):
        # the status of these or both resources, while the wall clock is this many seconds ahead, with one space in place of each gap
        self.set_ahead(seconds)
        done = helper.run("status", "--journal", self.place(name), *(words or ("r1", "r2")), env=self.environment())
        self.assertEqual((done.returncode, done.stderr), (0, b""))
        return re.sub(" +", " ", done.stdout.decode())

    def copied(self, name, agents=None):
        # only the parts, and the file of the agents with these bytes
        shutil.copytree(self.place("journal"), self.place(name), ignore=shutil.ignore_patterns("agents*"))
        if agents is not None:
            with open(os.path.join(self.place(name), "agents"), "wb") as file:
                file.write(agents)
        return name

    def is_true_to(self, table, seconds):
        # no duration is longer, and no moment is in the future
        table = re.sub(r" of at most \d+ s\b", "", table)
        spans = [int(count) * UNITS[unit] for count, unit in re.findall(r"(\d+) (ms|s|min|h|days)\b", table)]
        self.assertGreaterEqual(len(spans), 4, table)
        self.assertLess(max(spans), seconds * 1000, table)
        self.assertNotIn("future", table)
        self.assertNotIn("within", table)
        for due in re.findall(r"due in (\d+) (ms|s)", table):
            self.assertLessEqual(int(due[0]) * UNITS[due[1]], 2000, table)

    def test_status(self):
        """a status of a journal in use, the clock set back and forward"""
        began, run = time.monotonic(), self.monitored()
        for seconds in (0, -3600, 3600, -YEARS, YEARS):
            table = self.status(seconds)
            self.is_true_to(table, 5 + time.monotonic() - began)
            self.assertRegex(table, r"r1 test:Sleeper never run starting for \d+ (ms|s) of at most 90 s\n")
            self.assertRegex(table, r"\n every 2 s running, \d+ (ms|s) ago; due (in )?\d+ (ms|s)")
        self.is_true_to(self.status(YEARS, "journal", "r2"), 5 + time.monotonic() - began)
        run.run.kill()
        run.run.wait()
        self.is_true_to(self.status(-3600), 5 + time.monotonic() - began)

    def test_status_ahead(self):
        """a status of a journal in use that is ten years ahead of the clock"""
        began = time.monotonic()
        self.set_ahead(YEARS)
        run = self.monitored()
        run.run.kill()
        run.run.wait()
        self.set_ahead(0)
        run = self.shimmed("--journal", self.place("journal"), word="serve")
        run.awaits(lambda value: helper.is_notice(value, action="monitor"))
        self.is_true_to(self.status(0, "journal", "r2"), 5 + time.monotonic() - began)

    def test_status_alone(self):
        """a status of only the parts, the clock set back and forward"""
        began, run = time.monotonic(), self.monitored()
        run.run.kill()
        run.run.wait()
        with open(os.path.join(self.place("journal"), "agents"), "rb") as file:
            text = file.read()
        boot = text.split()[1]
        files = [None, b"", b"no agents\n", text.replace(boot, b"0" * 36, 1), text.replace(boot, boot[1:], 1), text[:-1], text[1:]]
        for place, agents in enumerate(files):
            name = self.copied(f"copy{place}", agents)
            self.is_true_to(self.status(0, name), 5 + time.monotonic() - began)
            table = self.status(-3600, name)
            self.assertIn("r1 test:Sleeper never run starting since a moment in the future by the clock\n", table)
            self.assertIn("\n every 2 s running, in the future by the clock; due within 2 s\n", table)
            table = self.status(YEARS, name)
            self.assertIn("r1 test:Sleeper never run starting for 3650 days of at most 90 s\n", table)
            self.assertRegex(table, r"\n every 2 s running, 3650 days ago; due 36(49|50) days ago\n")
