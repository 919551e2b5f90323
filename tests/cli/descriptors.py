"""A limit of open files that is too low, from the start or from some moment on. Each refusal names this cause, nothing acknowledged is
lost, and the program does what it can without a further descriptor; once there are enough, all is as before."""
import os
import re
import resource
import shutil
import subprocess
import tempfile
import unittest

import helper
from helper import PROGRAM

CAUSE = "Too many open files (os error 24)"
# The limits: with the first the program itself can be loaded, with the last an action can be run.
LEAST, MOST = 4, 24
# The line on standard error of a refused opening; in run and show, whose lines a program can compare, it has the cause only for people.
REFUSED = {word: rf"ocfexec: disk\n.*/part-[ab]: {re.escape(CAUSE)}\n" if word in ("run", "show")
           else rf"ocfexec: disk: .*/part-[ab]: {re.escape(CAUSE)}\n" for word in ("serve", "run", "status", "log", "metrics", "show")}


@unittest.skipUnless(shutil.which("prlimit"), "install the package util-linux")
class Descriptors(helper.Check):
    def setUp(self):
        super().setUp()
        # (a shell needs more than ten descriptors by itself)
        self.agent("True", "")
        shutil.copy("/bin/true", self.place("resource.d/test/True"))
        self.agent("Sleeper", "")
        shutil.copy("/bin/sleep", self.place("resource.d/test/Sleeper"))
        self.folder = self.journal()

    def limited(self, limit, *words, sent=b""):
        """A run under this limit: its status, its standard output, and its standard error. Each of its lines has the cause, also where it
        goes on; or, of run and show, the next one has it."""
        with tempfile.TemporaryFile() as file:
            stream = helper.journal_stream(file.fileno()) if words[0] in ("run", "show") else {}
            done = subprocess.run(["prlimit", f"--nofile={limit}", PROGRAM, *words], input=sent, stdout=subprocess.PIPE, stderr=file,
                                  env={**os.environ, **stream}, timeout=helper.WHOLE)
            file.seek(0)
            err = file.read().decode()
        if done.returncode == 5:
            self.assertRegex(err, rf"\A{REFUSED[words[0]]}", f"{limit} open files")
            self.assertEqual(done.stdout, b"")
        else:
            self.assertEqual([line for line in err.splitlines() if CAUSE not in line], [], f"{limit} open files: {words}")
        return done.returncode, done.stdout, err

    def ids(self):
        return helper.replies(helper.shown(self.folder))[0]["resources"]

    def test_serve(self):
        """a start of serve or run is refused with the cause, or it goes on; what it acknowledged is found"""
        acknowledged, refused, served = [], set(), set()
        for limit in range(LEAST, MOST):
            for word in ("serve", "run"):
                name = f"{word}{limit}"
                status, out, _ = self.limited(limit, word, "--journal", self.folder, "--root", self.here,
                                              sent=helper.lines(helper.register(name, "True")))
                if status == 5:
                    refused.add(word)
                else:
                    served.add(word)
                    self.assertEqual((status, helper.replies(out)), (0, [{"ok": True}]))
                    acknowledged.append(name)
                self.assertEqual(self.ids(), acknowledged, f"what is found after {limit} open files")
        self.assertEqual((refused, served), ({"serve", "run"}, {"serve", "run"}))

    def test_looks(self):
        """a look at a journal is refused with the cause, or prints all; the journal stays as it is"""
        done = helper.run("run", "--journal", self.folder, "--root", self.here,
                          sent=helper.lines(helper.register("r1", "True"), helper.action("r1", "start"), {"op": "drain"}))
        self.assertEqual(done.returncode, 0, done.stderr)
        parts, refused = helper.parts(self.folder), set()
        for word in ("status", "log", "metrics", "show"):
            wanted = helper.run(word, "--journal", self.folder)
            for limit in range(LEAST, MOST):
                status, out, err = self.limited(limit, word, "--journal", self.folder)
                if status == 5:
                    refused.add(word)
                else:
                    self.assertEqual((status, len(out.splitlines()), err), (0, len(wanted.stdout.splitlines()), ""))
        self.assertEqual(refused, {"status", "log", "metrics", "show"})
        self.assertEqual(helper.parts(self.folder), parts)

    def test_once(self):
        """an action that is run once is refused with the cause, or ends as its agent does"""
        found = set()
        for limit in range(LEAST, MOST):
            status, _, err = self.limited(limit, "once", "--root", self.here, "test:True", "start")
            found.add(status)
            if status:
                self.assertIn(f"ocfexec: the agent was not started: {CAUSE}\n", err)
        self.assertEqual(found, {0, 125})

    def test_meanwhile(self):
        """while no descriptor is left an action is not started, for this cause; what ran goes on, and what comes after is done"""
        run = self.started("serve", "--journal", self.folder, "--root", self.here, "--events", err=self.place("err"))
        run.send(helper.register("r1", "True"), helper.register("r2", "Sleeper"), {"op": "list"})
        run.awaits(lambda value: "resources" in value)
        hard = resource.prlimit(run.run.pid, resource.RLIMIT_NOFILE)[1]
        wanted = []
        for number in range(1, 4):
            for limit, outcome in ((LEAST, "not-started"), (hard, "done")):
                resource.prlimit(run.run.pid, resource.RLIMIT_NOFILE, (limit, hard))
                run.send(helper.action("r1", "start"))
                self.eventually("a result", lambda: len(run.notices()) > len(wanted))
                wanted.append(outcome)
        self.assertEqual([value["outcome"] for value in run.notices()], wanted)
        with open(self.place("err"), encoding="utf-8") as err:
            said = [line for line in err.read().splitlines() if "was not started" in line]
        self.assertEqual(said, [f"ocfexec: run {number} of r1 was not started: {CAUSE}" for number in (1, 3, 5)])
        run.send({"op": "history", "id": "r1"})
        _, history = run.awaits(lambda value: "results" in value)
        self.assertEqual([value["outcome"] for value in history["results"]], wanted)
        run.killed()
        self.assertEqual([value["outcome"] for value in helper.results(self.folder)["r1"]], wanted, "the journal has them")

    def test_timeout(self):
        """a timeout while no descriptor is left kills the agent, and says why what it started may live on"""
        self.agent("Waits", 'echo $$ > "$OCF_RESKEY_pid"\nexec sleep 600\n')
        pid_file = self.place("pid")
        run = self.started("serve", "--journal", self.folder, "--root", self.here, err=self.place("err"))
        run.send(helper.register("r1", "Waits", pid=pid_file), helper.action("r1", "start", timeout=1_000))
        pid = self.numbers_in(pid_file)[0]
        hard = resource.prlimit(run.run.pid, resource.RLIMIT_NOFILE)[1]
        resource.prlimit(run.run.pid, resource.RLIMIT_NOFILE, (LEAST, hard))
        run.awaits(lambda value: helper.is_notice(value, outcome="timed-out"))
        self.eventually("the end of the agent", lambda: not helper.is_alive(pid))
        resource.prlimit(run.run.pid, resource.RLIMIT_NOFILE, (hard, hard))
        run.send({"op": "params", "id": "r1", "params": {"pid": "/dev/null"}}, helper.action("r1", "start", timeout=10))
        self.eventually("the action after it", lambda: len(run.notices()) == 2)
        with open(self.place("err"), encoding="utf-8") as err:
            self.assertIn(f"ocfexec: cannot find and stop all processes that a killed action started: {CAUSE}\n", err.read())
