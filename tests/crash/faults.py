"""A device that fails under serve, in a turn of its own and in a command, a drain and a tidy: serve sends the line of the fault and ends at
once, its agents are gone, and the next opening reports the running action. A run goes on answering, to the end of its input. A full
journal: serve reports it once, and again after it was not full.
Files that cannot be read."""
import errno
import os
import subprocess
import time

import helper
from helper import action, register

LINE = {"end": "disk"}


class Faults(helper.Check):
    def setUp(self):
        super().setUp()
        self.shim = helper.shim("faults.c", self.here)
        self.agent("Sleeper", 'if [ "$1" = start ]; then echo $$ > "$OCF_RESKEY_pid"; exec sleep 60; fi\nexit 0\n')
        self.agent("Quick", "exit 0\n")

    def place_of_pid(self, name):
        return self.place(f"{name}.pid")

    def begun(self, word, journal):
        # a program over this journal, under which the device fails from `fault` on
        self.flag, self.err = journal + ".fault", journal + ".err"
        return self.started(word, "--journal", journal, "--root", self.here, err=self.err,
                            env={**os.environ, "LD_PRELOAD": self.shim, "FAULT": self.flag})

    def fault(self, number=errno.EIO):
        with open(self.flag + ".new", "w", encoding="ascii") as file:
            file.write(f"{number}\n")
        os.rename(self.flag + ".new", self.flag)

    def asleep(self, run):
        # the process of an agent whose start lasts
        run.send(register("slow", "Sleeper", pid=self.place_of_pid("slow")), action("slow", "start", timeout=60000))
        return self.numbers_in(self.place_of_pid("slow"))[0]

    def ends_by_fault(self, run, began):
        # the program ends by itself while its input is open, and reports the cause
        status = run.run.wait(helper.PATIENCE)
        self.took_less(1, time.monotonic() - began, "an end after a fault")
        run.reader.join()
        self.assertEqual(status, 5)
        self.assertEqual(run.values()[-1], LINE, "the last line")
        with open(self.err, encoding="utf-8") as file:
            # (the entries of agents that are given up cannot be removed there either)
            lines = [line for line in file.read().splitlines() if not line.startswith("ocfexec: file agents: ")]
        # a start may meet the fault first, as its agent is written into the file agents
        lines = [line for line in lines if " was not started: " not in line]
        self.assertTrue(lines and lines[0].startswith("ocfexec: disk"), lines)

    def interrupted(self, journal):
        # the report of the next opening
        done = helper.run("run", "--journal", journal, "--root", self.here)
        self.assertEqual(done.returncode, 0, done.stderr)
        return {(value["id"], value["action"]) for value in helper.replies(done.stdout) if value["outcome"] == "interrupted"}

    def test_unread(self):
        """a part that cannot be read is not opened, and of the file agents it is said that it cannot"""
        journal = self.journal("unread")
        self.assertEqual(helper.run("run", "--journal", journal, sent=helper.lines(register("r1", "Quick"))).returncode, 0)
        for name, status, said in (("part-a", 5, "ocfexec: disk\n"), ("agents", 0, f"ocfexec: {journal}/agents: Input/output error")):
            done = subprocess.run([helper.PROGRAM, "run", "--journal", journal], input=helper.lines({"op": "list"}), capture_output=True,
                                  env={**os.environ, "LD_PRELOAD": self.shim, "UNREAD": f"/{name}"}, timeout=helper.PATIENCE)
            self.assertEqual((done.returncode, done.stdout == b""), (status, status > 0), name)
            self.assertEqual(done.stderr.decode()[:len(said)], said)

    def test_own_turn(self):
        """the device fails as a monitor is recorded: the line, status 5, no agent left, the running action is reported"""
        for name, number in (("io", errno.EIO), ("space", errno.ENOSPC)):
            with self.subTest(name):
                journal = self.journal(name)
                run = self.begun("serve", journal)
                agent = self.asleep(run)
                run.send(register("quick", "Quick"), {"op": "recur", "id": "quick", "interval": 50})
                run.awaits(lambda value: helper.is_notice(value, id="quick"))
                began = time.monotonic()
                self.fault(number)
                self.ends_by_fault(run, began)
                self.assertEqual([value for value in run.values() if "end" in value], [LINE], "the line, once")
                self.assertFalse(helper.is_alive(agent), "an agent that is left")
                self.assertIn(("slow", "start"), self.interrupted(journal))
                os.remove(self.place_of_pid("slow"))

    def test_command(self):
        """at a command: refused with 16, then the line, and no further line is answered"""
        for name, more in (("alone", []), ("together", [register("b", "Quick")])):
            with self.subTest(name):
                journal = self.journal(name)
                run = self.begun("serve", journal)
                agent = self.asleep(run)
                before, began = len(run.values()), time.monotonic()
                self.fault()
                run.send(register("a", "Quick"), *more, {"op": "list"}, {"op": "drain"})
                self.ends_by_fault(run, began)
                refused = {"error": "disk", "number": 16}
                self.assertEqual([helper.bare(value) for value in run.values()[before:]], [refused] * (1 + len(more)) + [LINE])
                self.assertFalse(helper.is_alive(agent), "an agent that is left")
                self.assertEqual(self.interrupted(journal), {("slow", "start")})
                os.remove(self.place_of_pid("slow"))

    def test_asked(self):
        """at a drain's turn and at a tidy: their replies, then the line"""
        for name, commands in (("drain", [{"op": "drain"}]), ("tidy", [{"op": "tidy"}])):
            with self.subTest(name):
                run = self.begun("serve", self.journal(name))
                run.send(register("quick", "Quick"), {"op": "list"})
                run.awaits(lambda value: "resources" in value)
                if name == "drain":
                    run.send({"op": "recur", "id": "quick", "interval": 1}, {"op": "watch", "limit": 86400000})
                    run.awaits(lambda value: helper.is_notice(value, id="quick"))
                    commands = []
                began = time.monotonic()
                self.fault()
                run.send(*commands)
                self.ends_by_fault(run, began)
                self.assertEqual([value for value in run.values() if "end" in value], [LINE, LINE])

    def test_run(self):
        """a run answers that it is closed, to the end of its input"""
        run = self.begun("run", self.journal())
        run.send({"op": "list"})
        run.awaits(lambda value: "resources" in value)
        self.fault()
        run.send(register("a", "Quick"))
        run.awaits(lambda value: value.get("number") == 16)
        run.send({"op": "list"}, {"op": "drain"})
        self.assertEqual(run.ends(), 5)
        self.assertEqual(run.values()[1:], [{"error": "disk", "number": 16}, {"error": "closed", "number": 17}, {"end": "closed"}])

    def count(self, run, before, text):
        return sum(text in line for _, line in run.lines[before:])

    def asks(self, run, command, many):
        # sends it this often, waits for all replies, and returns whether one says that the journal is full
        before = len(run.lines)
        run.send(*[command] * many, {"op": "list"})
        self.eventually("the resources", lambda: self.count(run, before, '"resources"'))
        return self.count(run, before, '"number":14') > 0

    def fill(self, run):
        # long commands until none fits, and then short ones; returns how many lines have reported then that the journal is full
        params = {f"p{place}": "x" * 1000 for place in range(15)}
        while not self.asks(run, {"op": "params", "id": "full", "params": params}, 20):
            pass
        while not self.asks(run, {"op": "forget", "id": "full"}, 200):
            pass
        time.sleep(0.5)
        return self.count(run, 0, '{"end":"full","kind":"trouble"}')

    def test_full(self):
        """serve reports a full journal once, and again after it was not full"""
        run = self.started("serve", "--memory", "--tidy-at", "0", "--root", self.here)
        run.send(register("full", "Quick"), register("quick", "Quick"), {"op": "recur", "id": "quick", "interval": 20})
        self.assertEqual(self.fill(run), 1)
        run.send({"op": "tidy"})
        run.awaits(lambda value: value == {"end": "done"})
        seen = len(run.notices())
        self.eventually("monitors that go on", lambda: len(run.notices()) > seen)
        self.assertEqual(self.fill(run), 2)
        self.assertEqual(run.ends(), 0)
