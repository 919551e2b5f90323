"""The output of agents where nobody takes it. Wanted: with `--log -` no action fails and no service ends because the reader of standard
error does not read, or is gone; the executor goes on, too. On a full device only an agent that ends at its first refused word fails, with
a code of its own, and its actions succeed again as soon as there is room."""
import os
import time
import unittest

import acting
import helper

# An agent that ends at its first word that is refused, as many scripts do; and one that does not.
STRICT, LENIENT = "set -e; echo start of $OCF_RESOURCE_INSTANCE; echo fails >&2", "echo start of it; echo fails >&2; :"
# more than a pipe holds
LARGE = "set -e; head -c 1000000 /dev/zero | tr '\\0' x; echo; echo whole"
# A service that writes a word as soon as the gate was opened, and notes that it was not ended by that.
TALKS = """#!/bin/sh
echo $$ > {up}/talks
read -r line < {gate}
echo a word
echo another word >&2
echo $$ >> {up}/talked
exec sleep 600
"""


class Readers(acting.Acting):
    def setUp(self):
        super().setUp()
        self.script("talks", TALKS.format(up=self.up, gate=self.gate))
        self.reader = None
        self.addCleanup(self.goes)

    def piped(self, *words):
        """An executor whose standard error is a pipe that this check reads or leaves."""
        pipe = self.place("pipe")
        os.mkfifo(pipe)
        self.reader = os.open(pipe, os.O_RDONLY | os.O_NONBLOCK)
        return self.opened("--log", "-", *words, err=pipe)

    def goes(self):
        if self.reader is not None:
            os.close(self.reader)
        self.reader = None

    def read_all(self):
        """What is in the pipe, up to its end."""
        found, until = b"", time.monotonic() + helper.PATIENCE
        while time.monotonic() < until:
            try:
                part = os.read(self.reader, 65536)
            except BlockingIOError:
                time.sleep(0.01)
                continue
            if not part:
                return found.decode()
            found += part
        self.fail(f"the pipe has no end; its last bytes: {found[-500:]}")

    def succeeds(self, run, *actions, name="r1"):
        for what in actions or ("start", "monitor", "stop"):
            end = self.done(run, name, what)
            self.assertEqual((end["outcome"], end["code"]), ("done", 0), f"{what}, {end}; {run.state()}")

    def strict(self, run, name="r1"):
        run.send(self.register(name, start=STRICT, stop=STRICT, monitor=STRICT))

    def test_copied(self):
        """a reader gets the output of each action, with the lines of its begin and of its end, in their order"""
        run = self.piped()
        self.strict(run)
        self.succeeds(run)
        self.assertEqual(run.ends(), 0)
        words = [line.split(": ")[0] if "begins as run" in line or "ended in" in line else line for line in self.read_all().splitlines()]
        self.assertEqual(words, ["r1", "start of r1", "fails", "r1"] * 3)

    def test_goes_before(self):
        """no action fails after the reader has gone"""
        run = self.piped()
        self.goes()
        self.strict(run)
        self.succeeds(run)
        self.assertEqual(run.ends(), 0)

    def test_goes_between(self):
        """no action fails if the reader goes between two of them"""
        run = self.piped()
        self.strict(run)
        self.succeeds(run, "start")
        self.goes()
        self.succeeds(run, "monitor", "stop")
        self.assertEqual(run.ends(), 0)

    def test_goes_amid(self):
        """an agent that writes before and after the reader has gone ends as ever"""
        run = self.piped()
        run.send(self.register(start=f"{STRICT}; WAITS agent; {STRICT}", stop=STRICT), helper.action("r1", "start", timeout=600_000))
        self.pid("agent")
        self.goes()
        self.goes_on()
        [end] = self.ends_of(run, "r1", "start")
        self.assertEqual((end["outcome"], end["code"]), ("done", 0))
        self.succeeds(run, "stop")
        self.assertEqual(run.ends(), 0)

    def test_does_not_read(self):
        """an agent that writes more than a pipe holds does not wait for a reader that does not read, nor does the executor"""
        run = self.piped()
        run.send(self.register(start=LARGE, stop=LARGE, monitor=":"))
        self.succeeds(run, "start", "stop", "monitor")
        self.assertEqual(self.answered(run, {"op": "list"}), {"ok": True, "resources": ["r1"]})

    def test_service(self):
        """a service that keeps its start's output open is not ended by a word, though the reader has gone"""
        run = self.piped()
        run.send(self.register(start="HERE/talks & WAITS agent", stop=":"), helper.action("r1", "start", timeout=600_000))
        service = self.pid("talks")
        self.pid("agent")
        self.goes()
        self.goes_on()
        [end] = self.ends_of(run, "r1", "start")
        self.assertEqual((end["outcome"], end["code"]), ("done", 0))
        self.eventually("the service has written", lambda: self.opens_gate() or self.noted("talked"))
        self.pid("talked")
        self.assertTrue(helper.is_alive(service), "it goes on")
        self.succeeds(run, "stop")

    def test_run(self):
        """the same in run: no action fails after the reader has gone"""
        pipe = self.place("pipe")
        os.mkfifo(pipe)
        self.reader = os.open(pipe, os.O_RDONLY | os.O_NONBLOCK)
        run = self.opened("--log", "-", way="run", err=pipe)
        self.goes()
        self.strict(run)
        run.send(*[helper.action("r1", what) for what in ("start", "monitor", "stop")], {"op": "drain"})
        run.awaits(lambda value: value.get("end") == "idle")
        self.assertEqual([(end["outcome"], end["code"]) for end in run.notices()], [("done", 0)] * 3)
        self.assertEqual(run.ends(), 0)

    def at_full_device(self, run):
        """Where no word can be written, a strict agent ends with a code of its own, and everything else as ever."""
        self.strict(run)
        run.send(self.register("r2", start=LENIENT, stop=LENIENT, monitor=":"))
        for what in ("start", "stop"):
            end = self.done(run, "r1", what)
            self.assertEqual(end["outcome"], "done", f"{end}; {self.seen()}")
        self.succeeds(run, "start", "monitor", "stop", name="r2")
        self.assertEqual(self.answered(run, {"op": "list"}), {"ok": True, "resources": ["r1", "r2"]})

    @unittest.skipUnless(os.path.exists("/dev/full"), "there is no /dev/full")
    def test_full_file(self):
        """--log FILE on a full device: no action fails but by the agent's own code, and the executor goes on"""
        run = self.opened("--log", "/dev/full")
        self.at_full_device(run)
        self.assertEqual(run.ends(), 0)

    @unittest.skipUnless(os.getuid() == 0 and acting.can("unshare", "-m", "true"), "run as root, with unshare")
    def test_full_directory(self):
        """--logs DIR on a full device: the same, one line names it, and with room again every action succeeds"""
        logs = self.place("logs")
        os.mkdir(logs)
        full = ('mount -t tmpfs -o size=64k none "$1" && { head -c 1000000 /dev/zero > "$1/filled" || :; } 2> /dev/null'
                ' && shift && exec "$@"')
        run = self.started("-m", "sh", "-c", full, "sh", logs, helper.PROGRAM, "serve", "--memory", "--root", self.here, "--logs", logs,
                           err=self.err, program="unshare", start_new_session=True)
        self.at_full_device(run)
        self.assertTrue(self.lines_of(r"\.log: No space left on device\b"), self.error_text())
        # (the device is seen only by the executor)
        os.remove(f"/proc/{run.run.pid}/root{logs}/filled")
        self.succeeds(run)
        with open(f"/proc/{run.run.pid}/root{logs}/r1.log", encoding="ascii") as log:
            self.assertIn("start of r1\n", log.read())
        self.assertEqual(run.ends(), 0)
