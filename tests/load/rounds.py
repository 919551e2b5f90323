"""Long runs: serve for millions of rounds, and a drain for thousands of turns, by a shim under which no wait lasts (rounds.c); a command
that comes alone is answered at once; and an opening drops queued actions at its own moment.
The environment may set ROUNDS, TURNS and LIMIT, in seconds."""
import os
import shutil
import struct
import time

import helper


class Rounds(helper.Check):
    def hurried(self, *words):
        # a run whose waits are counted, and do not last
        if not shutil.which("cc"):
            self.skipTest("install a C compiler (apt-get install gcc)")
        with open(self.place("waits"), "wb") as file:
            file.write(bytes(8))
        environment = {**os.environ, "LD_PRELOAD": helper.shim("rounds.c", self.here), "WAITS": self.place("waits")}
        return self.started(*words, "--memory", "--root", self.here, env=environment)

    def waits(self):
        with open(self.place("waits"), "rb") as file:
            return struct.unpack("l", file.read())[0]

    def waited(self, count, goes_on):
        # waits until this many waits are counted; returns how many are, if the run ends before
        until = time.monotonic() + helper.number("LIMIT", 240)
        while self.waits() < count and goes_on() and time.monotonic() < until:
            time.sleep(0.02)
        return self.waits()

    def test_serve(self):
        """serve goes on after two million rounds"""
        run, wanted = self.hurried("serve"), helper.number("ROUNDS", 2_000_000)
        made = self.waited(wanted, lambda: run.run.poll() is None)
        self.assertIsNone(run.run.poll(), f"it ended after {made} rounds")
        self.assertGreaterEqual(made, wanted)
        run.send({"op": "list"})
        self.assertEqual(run.awaits(lambda value: True)[1], {"ok": True, "resources": []})
        self.assertEqual(run.ends(), 0)

    def test_drain(self):
        """a drain goes on after twenty thousand turns"""
        # it ends if the check is gone, too
        self.agent("Waiting", 'until [ -e "$OCF_RESKEY_until" ] || [ ! -e "$0" ]; do sleep 0.05; done\n')
        run, wanted = self.hurried("run"), helper.number("TURNS", 20_000)
        run.send(helper.register("r1", "Waiting", until=self.place("until")), helper.action("r1", "start", timeout=300_000),
                 {"op": "drain"})
        made = self.waited(wanted, lambda: run.run.poll() is None and not any("end" in value for value in run.values()))
        with open(self.place("until"), "wb"):
            pass
        self.assertEqual(run.awaits(lambda value: "end" in value)[1], {"end": "idle"}, f"after {made} turns")
        self.assertGreaterEqual(made, wanted)
        self.assertEqual([(value["outcome"], value["code"]) for value in run.notices()], [("done", 0)])
        self.assertEqual(run.ends(), 0)

    def test_alone(self):
        """a command is answered at once if nothing follows it"""
        for word in ("run", "serve"):
            run = self.started(word, "--memory")
            for names in (["a"], ["b", "c", "d"]):
                run.send(*[helper.register(name, "None") for name in names])
                count = ord(names[-1]) - ord("a") + 1
                self.eventually(f"{word}: replies to {names}", lambda: len(run.values()) >= count)
                self.assertEqual(run.values(), [{"ok": True}] * count, f"{word}: {names}")
            self.assertEqual(run.ends(), 0)

    def test_moment(self):
        """an opening drops queued actions at its own moment"""
        folder = self.journal()
        done = helper.run("run", "--journal", folder, sent=helper.lines(helper.register("r1", "None"), helper.action("r1", "start")))
        self.assertEqual(helper.replies(done.stdout)[1]["call"], 1)
        time.sleep(0.1)
        before = int(time.time() * 1000)
        done = helper.run("run", "--journal", folder, sent=helper.lines({"op": "history", "id": "r1"}))
        after = int(time.time() * 1000)
        notice, history = helper.replies(done.stdout)
        result, = history["results"]
        self.assertEqual((notice["outcome"], result["outcome"], result["call"]), ("dropped", "dropped", 1))
        self.assertTrue(before <= result["at"] <= after, f"{before} <= {result['at']} <= {after}")
