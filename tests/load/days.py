"""Days of one executor on a simulated clock: the built program serves 256 resources with eight recurring monitors each, 2,048, and a client
requests some 670 actions a day, over one journal and with real agents; most succeed, some fail, and some last until their timeout kills
them. Each step sets all clocks an hour ahead, once nothing more is due. Wanted: each acknowledged action has one result, each monitor runs
once in its interval, the session tidies by itself, and file descriptors, memory and zombies stay those of the first
quarter.
The environment may set DAYS and SEED; `make soak` plays thirty days."""
import collections
import os
import random
import shutil
import subprocess
import time
import unittest

import helper
from helper import PROGRAM

HOURS, ACTIONS = 24, 28
IDS = [f"r{number:03}" for number in range(256)]
# one in 16 fails, and one in 32 sleeps until it is killed
KINDS = {name: "Sleeps" if place % 32 == 5 else "Fails" if place % 16 == 3 else "Succeeds" for place, name in enumerate(IDS)}
HOUR = 3_600_000
INTERVALS = [hours * HOUR for hours in range(24, 32)]
TIMEOUT = 60_000
# more lines than are answered between two turns
LINES = 65
# the journal is tidied above this: in thirty days some ten times
TIDY_AT = "1000000"


@helper.slow
@helper.in_memory
class Days(helper.Check):
    def setUp(self):
        super().setUp()
        self.agent("Sleeps", "")
        for kind, program in (("Succeeds", "true"), ("Fails", "false")):
            shutil.copy(f"/bin/{program}", self.place(f"resource.d/test/{kind}"))
        self.agent("Sleeps", "exec sleep 600\n")
        self.passed, self.lines, self.waiting = 0, 0, {}
        self.counts, self.runs, self.sizes = collections.Counter(), collections.Counter(), []

    def sets_clock(self):
        with open(self.place("passed.new"), "w", encoding="ascii") as file:
            file.write(str(self.passed))
        os.rename(self.place("passed.new"), self.place("passed"))

    def begins(self):
        self.run_of = subprocess.Popen(
            [PROGRAM, "serve", "--journal", self.journal(), "--root", self.here, "--tidy-at", TIDY_AT], stdin=subprocess.PIPE,
            stdout=subprocess.PIPE, stderr=subprocess.DEVNULL,
            env={**os.environ, "PASSED": self.place("passed"), "LD_PRELOAD": self.place("clock.so")})
        self.addCleanup(self.run_of.kill)

    def asks(self, *commands):
        """Sends commands, each with a tag of its own, and waits for their replies."""
        for command in commands:
            self.lines += 1
            self.run_of.stdin.write(helper.lines({**command, "tag": str(self.lines)}))
        self.run_of.stdin.flush()
        return [self.reply(command) for command in commands]

    def reply(self, command):
        """The next reply; the notices before it are taken."""
        for line in self.run_of.stdout:
            value = helper.value_of(line)
            if helper.is_notice(value):
                self.take(value)
            elif "ready" not in value:
                self.assertNotIn("error", value, command)
                if command["op"] == "exec":
                    self.waiting[value["call"]] = command
                return value
        return self.fail(f"it ended with {self.run_of.wait()}")

    def take(self, notice):
        self.counts[notice["outcome"], notice["code"]] += 1
        if notice["interval"]:
            self.runs[notice["id"], notice["interval"]] += 1
        else:
            command = self.waiting.pop(notice["call"])
            self.assertEqual((notice["id"], notice["action"]), (command["id"], command["action"]))
        wanted = {"Succeeds": ("done", 0), "Fails": ("done", 1), "Sleeps": ("timed-out", 1)}[KINDS[notice["id"]]]
        self.assertEqual((notice["outcome"], notice["code"]), wanted, notice)

    def settles(self):
        """Waits until nothing is due: a turn began and ended nothing, and nothing runs or waits but what sleeps. After this many lines
        there was a turn."""
        before = None
        while before != self.counts.total():
            before = self.counts.total()
            *_, reply = self.asks(*[{"op": "version"}] * LINES, {"op": "status"})
            if any(KINDS[row["id"]] != "Sleeps" and (row["running"] or row["queued"]) for row in reply["status"]):
                before = None
                time.sleep(0.001)

    def measures(self):
        pid = self.run_of.pid
        ended = subprocess.run(["ps", "--ppid", str(pid), "-o", "stat="], capture_output=True, text=True).stdout.split()
        self.sizes.append((helper.kib(pid, "VmRSS"), len(os.listdir(f"/proc/{pid}/fd")), sum(word.startswith("Z") for word in ended)))

    def hour(self):
        """An hour passes; what is due then is done, and so is what the client asks for."""
        self.passed += HOUR // 1_000
        self.sets_clock()
        self.asks(*[helper.action(random.choice(IDS), random.choice(["start", "stop", "monitor", "promote", "demote"]), timeout=TIMEOUT)
                    for _ in range(ACTIONS)])
        self.settles()

    def ran_in_time(self, hours):
        """Each monitor ran once in its interval; one that is due between two hours runs in the later one."""
        for name in IDS:
            for interval in INTERVALS:
                count, each = self.runs[name, interval], interval // HOUR
                self.assertTrue(hours // (each + 2) - 1 <= count <= hours // each + 1, (name, interval, count))

    def holds_its_size(self):
        """The size after each hour is at most that of the first quarter, but for noise."""
        for place, (what, more) in enumerate([("KiB of memory", 512), ("file descriptors", 8), ("zombies", 4)]):
            sizes = [size[place] for size in self.sizes]
            self.assertLessEqual(max(sizes), max(sizes[:len(sizes) // 4]) + more, what)

    @unittest.skipUnless(shutil.which("cc"), "install a C compiler (apt-get install gcc)")
    def test_days(self):
        """simulated days with 2,048 monitors hold descriptors, memory and zombies as they are"""
        random.seed(helper.number("SEED", 20261129))
        days, began = helper.number("DAYS", 2), time.monotonic()
        os.rename(helper.shim("clock.c", self.here), self.place("clock.so"))
        self.sets_clock()
        self.begins()
        self.asks(*[helper.register(name, KINDS[name]) for name in IDS])
        for interval in INTERVALS:
            self.asks(*[{"op": "recur", "id": name, "interval": interval, "timeout": TIMEOUT} for name in IDS])
        self.settles()
        for _ in range(days * HOURS):
            self.hour()
            self.measures()
        # what sleeps is killed, and nothing is queued any more
        while self.waiting:
            self.passed += TIMEOUT // 1_000
            self.sets_clock()
            self.settles()
        self.ran_in_time(days * HOURS)
        self.holds_its_size()
        self.run_of.stdin.close()
        self.run_of.stdout.read()
        self.assertEqual(self.run_of.wait(helper.PATIENCE), 0)
        epoch = helper.run("metrics", "--journal", self.place("journal")).stdout.split(b"\nocfexec_journal_epoch ")[1].split()[0]
        actions = sum(self.counts.values()) - sum(self.runs.values())
        sizes = "; ".join(f"{what} {min(size[place] for size in self.sizes)} to {max(size[place] for size in self.sizes)}, at the end "
                          f"{self.sizes[-1][place]}" for place, what in enumerate(["memory in KiB", "file descriptors", "zombies"]))
        print(f"days: {days} days in {time.monotonic() - began:.0f} s: {actions} actions, {sum(self.runs.values())} runs of monitors, "
              f"{self.counts['timed-out', 1]} timeouts, {int(epoch)} snapshots; {sizes}")
