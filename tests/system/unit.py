"""The unit of examples/ with the client and its file, run as systemd runs it: its start, its reload, a restart that leaves the services
running, a kill, a stop, and a status that needs an administrator. systemd-analyze, if it is installed, checks all units."""
import gzip
import json
import os
import shutil
import signal
import subprocess
import sys
import time
import unittest

import helper
import systemctl
import units
from helper import PROGRAM

EXAMPLES = os.path.join(helper.TOP, "examples")
AGENT = """echo $1 >> {here}/calls
case $1 in
start) : > "$OCF_RESKEY_state" ;;
stop) rm -f "$OCF_RESKEY_state" ;;
monitor) [ -e "$OCF_RESKEY_state" ] || exit 7 ;;
esac
"""


class Keeper(helper.Check):
    def setUp(self):
        super().setUp()
        self.agent("Dummy", AGENT.format(here=self.here))
        self.journal()
        for name in ("systemd", "state", "logs"):
            os.mkdir(self.place(name))
        places = (("/usr/local/share/doc/ocfexec/client.py", os.path.join(EXAMPLES, "client.py")),
                  ("/usr/local/bin/ocfexec", PROGRAM), ("/var/lib/ocfexec-client", self.place("state")),
                  ("/var/lib/ocfexec", self.place("journal")), ("/var/log/ocfexec", self.place("logs")), ("/etc/ocfexec", self.here),
                  ("/run/ocfexec", self.here), ("--meta-variables", f"--root {self.here}"))
        self.manager = systemctl.Manager(units.Unit(os.path.join(EXAMPLES, "ocfexec.service"), places), self.place("systemd"))
        self.addCleanup(self.manager.stop)
        self.wants("web")

    def wants(self, *names, kind="Dummy", interval=200):
        resources = {name: {"provider": "test", "type": kind, "params": {"state": self.place(name)}, "interval": interval, "restarts": 1}
                     for name in names}
        with open(self.place("new"), "w", encoding="ascii") as file:
            json.dump({"resources": resources}, file)
        os.rename(self.place("new"), self.place("resources.json"))

    def called(self):
        """The actions of the agent, without its monitors and its metadata."""
        with open(self.place("calls"), encoding="ascii") as file:
            return [word for word in file.read().split() if word not in ("monitor", "meta-data")]

    def says(self, wanted, seconds=helper.PATIENCE):
        until = time.monotonic() + seconds
        while self.manager.read("StatusText") != wanted:
            self.assertLess(time.monotonic(), until, f"{wanted}, not {self.manager.read('StatusText')}:\n{self.manager.read('log')}")
            time.sleep(0.02)

    def test_restart(self):
        """a restart leaves the services running, a reload adds new ones, and a stop stops all"""
        self.manager.start()
        self.assertEqual((self.manager.read("active"), self.called()), ("active", ["start"]))
        main = self.manager.read("MainPID")
        self.manager.restart()
        self.says("running: web")
        self.assertNotEqual(self.manager.read("MainPID"), main)
        self.assertEqual(self.called(), ["start"])
        self.wants("web", "db")
        self.manager.reload()
        self.says("running: web, db")
        self.assertEqual(self.called(), ["start", "start"])
        self.manager.stop()
        self.assertEqual((self.manager.read("ExecMainStatus"), self.called()), ("0", ["start", "start", "stop", "stop"]))

    def ctl(self, *words, status=0):
        done = subprocess.run([os.path.join(EXAMPLES, "ocfctl.py"), words[0], "--socket", self.place("control"), *words[1:]],
                              capture_output=True, text=True, timeout=helper.WHOLE)
        self.assertEqual(done.returncode, status, done.stdout + done.stderr)
        return done.stdout

    def test_by_hand(self):
        """the status names what is stopped by hand and given up; a restart and a reload leave it so; the log has words and priorities"""
        self.wants("web", "db")
        self.manager.start()
        self.ctl("stop", "web")
        self.says("stopped by hand: web; running: db")
        self.manager.restart()
        self.says("stopped by hand: web; running: db")
        self.manager.reload()
        self.assertEqual((self.manager.read("StatusText"), os.path.exists(self.place("web"))), ("stopped by hand: web; running: db", False))
        os.rename(self.place("resource.d/test/Dummy"), self.place("resource.d/test/Gone"))
        os.remove(self.place("db"))
        self.says("stopped by hand: web; given up: db")
        self.ctl("start", "web", status=1)
        log = self.manager.read("log")
        self.assertNotIn("{", log, "no line is for programs")
        failed = [line for line in log.splitlines() if line.startswith("<3>")]
        self.assertTrue(any(line.startswith("<3>client: db is given up: ") for line in failed), log)
        self.assertTrue(all("failed" in line or "given up" in line or "not running" in line for line in failed), failed)
        self.assertEqual([line for line in log.splitlines() if not line.startswith(("<3>", "<4>", "<6>", "ocfexec: "))], [])

    def test_scope(self):
        """with-scope.sh runs a start, and no other action, in a scope that has the name of its resource"""
        os.mkdir(self.place("bin"))
        with open(self.place("bin/systemd-run"), "w", encoding="ascii") as file:
            file.write(f'#!/bin/sh\necho "$@" >> {self.here}/scopes\nuntil [ "$1" = -- ]; do shift; done\nshift\nexec "$@"\n')
        os.chmod(self.place("bin/systemd-run"), 0o755)
        words = ("run", "--memory", "--root", self.here, "--via", os.path.join(EXAMPLES, "with-scope.sh"), "--path",
                 f"{self.place('bin')}:/usr/bin:/bin")
        sent = helper.lines(helper.register("web", "Dummy", state=self.place("web")), helper.action("web", "start"),
                            helper.action("web", "monitor"), helper.action("web", "stop"), {"op": "drain"})
        found = [value["code"] for value in helper.replies(helper.run(*words, sent=sent).stdout) if helper.is_notice(value)]
        self.assertEqual((found, self.called()), ([0, 0, 0], ["start", "stop"]))
        with open(self.place("scopes"), encoding="ascii") as file:
            self.assertRegex(file.read(), r"\A--quiet --scope --collect --unit=ocf-web-\d+ -- \S+/test/Dummy start\n\Z")

    @unittest.skipUnless(shutil.which("logrotate"), "there is no logrotate")
    def test_rotated(self):
        """logrotate renames the logs of agents while these write, and no line is lost"""
        self.agent("Talks", 'for n in 1 2 3 4 5 6 7 8 9; do echo "line $n of $$"; done\n' + AGENT.format(here=self.here))
        self.wants("web", kind="Talks", interval=20)
        self.manager.start()
        with open(os.path.join(helper.TOP, "package/ocfexec.logrotate"), encoding="ascii") as file:
            text = file.read().replace("/var/log/ocfexec", self.place("logs"))
        with open(self.place("logrotate"), "w", encoding="ascii") as file:
            file.write(text)
        for _ in range(5):
            time.sleep(0.3)
            subprocess.run(["logrotate", "--force", "--state", self.place("rotated"), self.place("logrotate")], check=True, timeout=60)
        self.manager.stop()
        lines = 0
        for name in os.listdir(self.place("logs")):
            opens = gzip.open if name.endswith(".gz") else open
            with opens(os.path.join(self.place("logs"), name), "rt", encoding="ascii") as file:
                lines += sum(line.startswith("line ") for line in file)
        with open(self.place("calls"), encoding="ascii") as file:
            self.assertEqual(lines, 9 * sum(word != "meta-data" for word in file.read().split()))

    def test_refused(self):
        """a reload fails if the file names an agent that does not exist, and changes nothing"""
        self.manager.start()
        with open(self.place("resources.json"), "w", encoding="ascii") as file:
            json.dump({"resources": {"web": {"provider": "test", "type": "Dumy", "params": {"state": self.place("other")}}}}, file)
        self.assertRaises(subprocess.CalledProcessError, self.manager.reload)
        self.assertEqual((self.manager.read("StatusText"), self.called()), ("running: web", ["start"]))
        self.assertNotIn("read again", self.manager.read("log"))

    def test_killed(self):
        """a killed client is started again, and keeps running services; ended by SIGUSR1, it is not started again, and they stay"""
        self.manager.start()
        main = self.manager.read("MainPID")
        self.manager.signal(signal.SIGKILL)
        self.manager.waits("another client", lambda: self.manager.read("MainPID") != main)
        self.manager.write("StatusText", "")
        self.says("running: web")
        self.manager.signal(signal.SIGUSR1)
        self.manager.waits("its end", lambda: not self.manager.read("active"))
        self.assertEqual((self.manager.read("ExecMainStatus"), self.called()), ("0", ["start"]))
        self.assertTrue(os.path.exists(self.place("web")), "the service of web is up")

    def test_person(self):
        """a wrong file, and a damaged journal, are not tried again"""
        self.journal_of("damaged", b"\x01 no journal", b"")
        shutil.copytree(self.place("damaged"), self.place("journal"), dirs_exist_ok=True)
        for text, status in ((None, "3"), ("{}", "2")):
            if text:
                with open(self.place("resources.json"), "w", encoding="ascii") as file:
                    file.write(text)
            self.manager.start()
            self.assertEqual((self.manager.read("active"), self.manager.read("ExecMainStatus")), ("", status))

    def test_removed(self):
        """the package's removal leaves services running, and says so; its upgrade ends nothing before the new one is installed"""
        self.manager.start()
        played = os.path.join(self.here, "bin")
        os.mkdir(played)
        with open(os.path.join(played, "systemctl"), "w", encoding="ascii") as file:
            file.write(f'#!/bin/sh\nexec {sys.executable} {systemctl.__file__} {self.place("unit")} {self.place("systemd")} "$@"\n')
        os.chmod(os.path.join(played, "systemctl"), 0o755)
        shutil.copy(os.path.join(EXAMPLES, "ocfexec.service"), self.place("unit"))
        for word, said, active in (("upgrade", "", "active"), ("remove", "the services that it keeps run on", "")):
            done = subprocess.run(["sh", os.path.join(helper.TOP, "package/prerm"), word], capture_output=True, text=True, timeout=60,
                                  env={"PATH": f"{played}:{os.environ['PATH']}"})
            self.assertEqual((done.returncode, done.stderr), (0, ""))
            self.assertIn(said, done.stdout)
            self.assertEqual(self.manager.read("active"), active)
        self.assertEqual((self.manager.read("ExecMainStatus"), self.called()), ("0", ["start"]))
        self.assertTrue(os.path.exists(self.place("web")), "the service of web is up")

    def test_nothing(self):
        """without a file it is up, and starts nothing, until a reload finds a file"""
        os.remove(self.place("resources.json"))
        self.manager.start()
        self.assertEqual((self.manager.read("active"), self.manager.read("StatusText")), ("active", "nothing is configured"))
        self.assertEqual(os.listdir(self.place("journal")), [])
        self.wants("web")
        self.manager.reload()
        self.says("running: web")

    @unittest.skipUnless(shutil.which("systemd-analyze"), "there is no systemd-analyze")
    def test_hardening(self):
        """the unit has a comment for each hardening option that systemd-analyze finds not set"""
        with open(os.path.join(EXAMPLES, "ocfexec.service"), encoding="utf-8") as file:
            text = file.read()
        shutil.copy(os.path.join(EXAMPLES, "ocfexec.service"), self.place("ocfexec.service"))
        done = subprocess.run(["systemd-analyze", "security", "--offline=true", "--json=short", self.place("ocfexec.service")],
                              capture_output=True, text=True, timeout=60)
        self.assertEqual(done.returncode, 0, done.stderr)
        found = {name.partition("=")[0] for each in json.loads(done.stdout) if each["set"] is False for name in each["name"].split("/")}
        self.assertIn("NoNewPrivileges", found)
        self.assertEqual([name for name in sorted(found) if f"{name}=" not in text], [])

    @unittest.skipUnless(shutil.which("systemd-analyze"), "there is no systemd-analyze")
    def test_verify(self):
        """systemd-analyze finds nothing wrong with any unit"""
        places = (("/usr/local/share/doc/ocfexec/client.py", os.path.join(EXAMPLES, "client.py")), ("/usr/local/bin/ocfexec", PROGRAM))
        names = [name for name in os.listdir(EXAMPLES) if name.endswith(".service")]
        for name in names:
            with open(os.path.join(EXAMPLES, name), encoding="utf-8") as file:
                text = file.read()
            for place, here in places:
                text = text.replace(place, here)
            with open(self.place(name), "w", encoding="utf-8") as file:
                file.write(text)
        for name in names:
            done = subprocess.run(["systemd-analyze", "verify", "--man=no", self.place(name)], capture_output=True, text=True, timeout=60)
            self.assertEqual((done.returncode, done.stdout + done.stderr), (0, ""), name)
