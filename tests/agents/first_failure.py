"""The questions of an administrator at the first failure, answered by the program's own subcommands alone and within a minute each, with
agents of Debian: why nginx did not start, which resource of forty is down, whether a start was interrupted, and what an agent does."""
import json
import os
import shutil
import signal
import time
import unittest

import helper

ROOT = "/usr/lib/ocf"
AGENTS = ROOT + "/resource.d/heartbeat"


@helper.slow
@unittest.skipUnless(os.path.exists(AGENTS + "/Dummy") and os.geteuid() == 0, "wants root and the package resource-agents")
class FirstFailure(helper.Check):
    def setUp(self):
        super().setUp()
        self.journal = self.place("journal")
        os.mkdir(self.journal, 0o700)
        self.logs = self.place("logs")
        os.mkdir(self.logs)
        self.began = time.monotonic()

    def tearDown(self):
        self.took_less(60, time.monotonic() - self.began, "the whole check")
        super().tearDown()

    def asked(self, *words):
        """The output of a program that reads the journal of the environment, and its status."""
        done = helper.run(*words, env={**os.environ, "OCFEXEC_JOURNAL": self.journal})
        return done.returncode, done.stdout.decode(), done.stderr.decode()

    def does(self, *lines):
        done = helper.run("run", "--journal", self.journal, "--meta-variables", "--logs", self.logs,
                          sent="".join(json.dumps(line) + "\n" for line in lines).encode())
        self.assertEqual(done.returncode, 0, done.stderr)

    def registered(self, name, kind, **params):
        return {"op": "register", "id": name, "provider": "heartbeat", "type": kind, "params": params}

    @unittest.skipUnless(shutil.which("nginx"), "wants nginx")
    def test_why(self):
        """Why nginx with a broken configuration did not start: its agent gives no reason, and its log has the output of nginx."""
        broken = self.place("nginx.conf")
        with open(broken, "w", encoding="ascii") as file:
            file.write("events {}\nhttp { server { listen 127.0.0.1:1; lissten 2; } }\n")
        self.does(self.registered("web", "nginx", configfile=broken), helper.action("web", "start"), {"op": "drain"})
        code, out, _ = self.asked("status", "--logs", self.logs)
        self.assertEqual(code, 0, out)
        self.assertIn("\n  last failure  start: not installed (OCF_ERR_INSTALLED, 5), ", out)
        with open(os.path.join(self.logs, "web.log"), encoding="ascii") as file:
            self.assertIn("lissten", file.read())
        code, out, err = self.asked("once", "--meta-variables", "heartbeat:nginx", "start", f"configfile={broken}")
        self.assertNotEqual(code, 0)
        self.assertIn("lissten", out + err)

    @unittest.skipUnless(shutil.which("nginx"), "wants nginx")
    def test_reason(self):
        """Why nginx without its configuration did not start, by status alone."""
        missing = self.place("nginx.conf")
        self.does(self.registered("web", "nginx", configfile=missing), helper.action("web", "start"), {"op": "drain"})
        code, out, _ = self.asked("status", "--logs", self.logs)
        self.assertEqual(code, 0, out)
        self.assertRegex(out, rf"\n  last failure  start: .*\n  exit reason   .*{missing}")

    def test_which(self):
        """Which resource of forty is down."""
        names = [f"r{at}" for at in range(40)]
        self.does(*[self.registered(name, "Dummy", state=self.place(name)) for name in names],
                  *[helper.action(name, "start") for name in names], {"op": "drain"})
        self.assertIn("\n40 resources: 40 started\n", self.asked("status")[1])
        os.remove(self.place("r23"))
        self.does(*[helper.action(name, "monitor") for name in names], {"op": "drain"})
        code, out, _ = self.asked("status", "--json")
        self.assertEqual(code, 0)
        states = [helper.value_of(line) for line in out.splitlines()]
        self.assertEqual([line["id"] for line in states if line.get("state", "started") != "started"], ["r23"])

    def test_interrupted(self):
        """Whether a start was interrupted, and what came after it."""
        run = self.started("run", "--journal", self.journal, "--root", self.here)
        self.agent("Slow", "sleep 1\n")
        run.send({"op": "register", "id": "slow", "provider": "test", "type": "Slow"}, helper.action("slow", "start"), {"op": "drain"})
        time.sleep(0.5)
        os.kill(run.run.pid, signal.SIGKILL)
        run.run.wait()
        done = helper.run("run", "--journal", self.journal, "--root", self.here)
        self.assertIn(b"interrupted", done.stdout)
        code, out, _ = self.asked("log", "slow", "--since", time.strftime("%Y-%m-%d", time.gmtime(time.time() - 86400)))
        self.assertEqual(code, 0)
        self.assertIn("start", out)
        code, out, _ = self.asked("status", "slow")
        self.assertIn("interrupted", out)

    def test_once(self):
        """What an agent does when it is run once."""
        state = "state=" + self.place("dummy")
        for action, code in (("monitor", 7), ("start", 0), ("monitor", 0), ("stop", 0), ("monitor", 7)):
            self.assertEqual(self.asked("once", "--meta-variables", "heartbeat:Dummy", action, state)[0], code, action)
        code, out, _ = self.asked("once", "heartbeat:Dummy", "meta-data")
        self.assertEqual(code, 0)
        self.assertIn("<resource-agent", out)
