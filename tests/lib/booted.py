"""The checks of tests/system/booted.py in the container that it boots, where each has its sentence: the guide with the package, and the
installed unit, with systemctl(1) and journalctl(1) themselves. It writes to /etc and /usr of that machine, and must not run on a machine
that is kept."""
import json
import os
import shutil
import subprocess
import time
import unittest

import helper
from helper import PROGRAM

EXAMPLES = os.path.join(helper.TOP, "examples")
# what the container shares with the machine
SHARED = "/check"
AGENT_PATH = "/usr/lib/ocf/resource.d/check/Dummy"
# the service is a process, which a signal of any other process would end
AGENT = f"""#!/bin/sh
echo "$1" >> {SHARED}/calls
case $1 in
start)
    setsid sleep 1000 > /dev/null 2>&1 < /dev/null &
    echo $! > "$OCF_RESKEY_state"
    ;;
stop)
    [ -e "$OCF_RESKEY_state" ] || exit 0
    kill "$(cat "$OCF_RESKEY_state")"
    rm -f "$OCF_RESKEY_state"
    ;;
monitor) [ -e "$OCF_RESKEY_state" ] && kill -0 "$(cat "$OCF_RESKEY_state")" 2> /dev/null || exit 7 ;;
esac
"""
NGINX = """worker_processes 1;
pid /srv/booted/nginx.pid;
error_log /srv/booted/error.log;
events { }
http { access_log off; server { listen 127.0.0.1:8088; root /srv/booted; } }
"""
NGINX_WANTED = {"provider": "heartbeat", "type": "nginx", "params": {"configfile": "/srv/booted/nginx.conf"}, "interval": 500}


def systemctl(*words, **how):
    return subprocess.run(["systemctl", *words], capture_output=True, text=True, timeout=90, **how)


def shown(name, unit="ocfexec"):
    return systemctl("show", "-P", name, unit).stdout.strip()


def write(path, text, mode=0o644):
    os.makedirs(os.path.dirname(path), exist_ok=True)
    with open(path, "w", encoding="ascii") as file:
        file.write(text)
    os.chmod(path, mode)


def dummy(name):
    return {"provider": "check", "type": "Dummy", "params": {"state": f"/srv/booted/{name}"}, "interval": 500}


class Package(helper.Check):
    def setUp(self):
        super().setUp()
        if not os.path.exists(f"{helper.TOP}/crates/ocfexec/out/gate"):
            self.skipTest("no gate has passed on these programs, so there is no package")

    def does(self, *words):
        """The output of a command that had to succeed."""
        done = subprocess.run(words, capture_output=True, text=True, timeout=200)
        self.assertEqual(done.returncode, 0, done.stdout + done.stderr)
        return done.stdout

    def test_guide(self):
        self.does(f"{helper.TOP}/tests/system/guide.py", PROGRAM, "/")

    def test_removed(self):
        deb = self.does(f"{helper.TOP}/package/deb.sh", self.here).strip()
        write(AGENT_PATH, AGENT, 0o755)
        os.makedirs("/srv/booted", exist_ok=True)
        self.does("dpkg", "--install", deb)
        write("/etc/ocfexec/resources.json", json.dumps({"resources": {"web": dummy("web")}}))
        self.does("systemctl", "start", "ocfexec")
        main = shown("MainPID")
        self.does("dpkg", "--install", deb)
        self.assertEqual((shown("ActiveState"), shown("StatusText"), shown("MainPID") != main), ("active", "running: web", True))
        self.assertIn("the services that it keeps run on", self.does("dpkg", "--remove", "ocfexec"))
        self.assertEqual((shown("ActiveState"), os.path.exists("/srv/booted/web")), ("inactive", True))
        with open(f"{SHARED}/calls", encoding="ascii") as calls:
            self.assertEqual([word for word in calls.read().split() if word != "monitor"], ["start"])
        self.assertIn("the journal in /var/lib/ocfexec is kept", self.does("dpkg", "--purge", "ocfexec"))
        shutil.rmtree("/var/lib/ocfexec")
        shutil.rmtree("/etc/ocfexec", ignore_errors=True)


class Units(helper.Check):
    @classmethod
    def setUpClass(cls):
        """Installs as `make install` does, and the unit as its comment says."""
        shutil.copytree(EXAMPLES, "/usr/local/share/doc/ocfexec")
        subprocess.run([f"{helper.TOP}/package/python.sh", "", "/usr/local"], check=True)
        shutil.copy(PROGRAM, "/usr/local/bin/ocfexec")
        shutil.copy(f"{EXAMPLES}/ocfexec.service", "/etc/systemd/system")
        write(AGENT_PATH, AGENT, 0o755)
        write("/srv/booted/index.html", "hello")
        write("/srv/booted/nginx.conf", NGINX)
        write(f"{SHARED}/last.json", json.dumps({"resources": {"last": dummy("last")}}))
        systemctl("daemon-reload", check=True)

    def tearDown(self):
        systemctl("stop", "ocfexec")
        systemctl("reset-failed")
        for folder in ("/var/lib/ocfexec", "/var/lib/ocfexec-client", "/etc/ocfexec"):
            shutil.rmtree(folder, ignore_errors=True)

    def does(self, *words):
        done = systemctl(*words)
        self.assertEqual((done.returncode, done.stderr), (0, ""), self.log())

    def log(self):
        words = ["journalctl", "-u", "ocfexec", "-o", "cat", "-n", "30"]
        return subprocess.run(words, capture_output=True, text=True).stdout

    def wants(self, **wanted):
        write("/etc/ocfexec/resources.json", json.dumps({"resources": wanted}))

    def says(self, wanted):
        until = time.monotonic() + helper.PATIENCE
        while shown("StatusText") != wanted:
            self.assertLess(time.monotonic(), until, f"{wanted}, not {shown('StatusText')}:\n{self.log()}")
            time.sleep(0.05)

    def comes(self, what, holds):
        self.eventually(what, holds)

    def pids(self):
        """The processes of nginx and of a Dummy, both of which live."""
        found = []
        for name in ("nginx.pid", "other"):
            with open(f"/srv/booted/{name}", encoding="ascii") as file:
                found.append(int(file.read()))
        self.assertEqual([pid for pid in found if not helper.is_alive(pid)], [], self.log())
        return found

    @unittest.skipUnless(os.path.exists("/usr/lib/ocf/resource.d/heartbeat/nginx") and shutil.which("nginx", path="/usr/sbin"),
                         "install the packages resource-agents and nginx")
    def test_changes(self):
        self.does("start", "ocfexec")
        self.assertEqual((shown("ActiveState"), shown("StatusText")), ("active", "nothing is configured"))
        self.assertEqual(os.listdir("/var/lib/ocfexec"), [])
        self.assertIn("nothing to do until SIGHUP", self.log())
        self.wants(web=dummy("web"), other=dummy("other"))
        self.does("reload", "ocfexec")
        self.says("running: web, other")
        self.assertTrue(os.path.exists("/srv/booted/web"), "the Dummy runs")
        self.wants(web=NGINX_WANTED, other=dummy("other"))
        self.does("reload", "ocfexec")
        self.says("running: web, other")
        self.assertFalse(os.path.exists("/srv/booted/web"), "the Dummy is stopped")
        self.refuses_a_wrong_file()
        self.wants(web=NGINX_WANTED, other=dummy("other"))
        pids, main = self.pids(), shown("MainPID")
        self.does("restart", "ocfexec")
        self.says("running: web, other")
        self.assertEqual((self.pids(), shown("MainPID") != main), (pids, True))
        main = shown("MainPID")
        self.does("kill", "--kill-who=main", "--signal=SIGKILL", "ocfexec")
        self.comes("another client", lambda: shown("MainPID") not in ("0", main))
        self.says("running: web, other")
        self.does("kill", "--kill-who=main", "--signal=SIGUSR1", "ocfexec")
        self.comes("its end", lambda: shown("ActiveState") == "inactive")
        self.assertEqual(self.pids(), pids)
        self.does("start", "ocfexec")
        self.says("running: web, other")
        self.assertEqual(self.pids(), pids, self.log())
        self.does("stop", "ocfexec")
        self.assertEqual((shown("Result"), [pid for pid in pids if helper.is_alive(pid)]), ("success", []))

    def refuses_a_wrong_file(self):
        write("/etc/ocfexec/resources.json", '{"resources": {"web": {"type": "nginx"}}}')
        self.assertNotEqual(systemctl("reload", "ocfexec").returncode, 0, "a wrong file fails the reload")
        self.assertIn("resources.web.provider: it is missing", self.log())
        self.assertEqual(shown("ActiveState"), "active")

    def test_person(self):
        self.wants(web={"provider": "check"})
        for status in ("2", "3"):
            if status == "3":
                self.wants(web=dummy("web"))
                write("/var/lib/ocfexec/part-a", "\1 no journal")
                write("/var/lib/ocfexec/part-b", "")
            systemctl("start", "ocfexec")
            self.comes("its end", lambda: shown("ActiveState") == "failed")
            self.assertEqual((shown("ExecMainStatus"), shown("NRestarts")), (status, "0"), self.log())
            systemctl("reset-failed")

    def ctl(self, *words, status=0):
        done = subprocess.run([f"{EXAMPLES}/ocfctl.py", *words], capture_output=True, text=True, timeout=90)
        self.assertEqual(done.returncode, status, done.stdout + done.stderr + self.log())
        return done.stdout

    def test_by_hand(self):
        before = subprocess.run(["journalctl", "-n", "0", "--show-cursor"], capture_output=True, text=True).stdout
        self.wants(hand=dummy("hand"), bad={**dummy("bad"), "type": "Missing", "restarts": 1})
        self.does("start", "ocfexec")
        self.says("running: hand; given up: bad")
        self.ctl("stop", "hand")
        self.does("restart", "ocfexec")
        self.says("stopped by hand: hand; given up: bad")
        self.assertIn("stopped by hand since", self.ctl("status", "hand"))
        self.ctl("start", "hand")
        words = ["journalctl", "-u", "ocfexec", "-o", "json", "--after-cursor", before.partition("cursor: ")[2].strip()]
        lines = [json.loads(line) for line in subprocess.run(words, capture_output=True, text=True).stdout.splitlines()]
        ours = [line for line in lines if line.get("SYSLOG_IDENTIFIER") == "ocfexec"]
        self.assertEqual([line["MESSAGE"] for line in ours if line["MESSAGE"].startswith("{")], [])
        failed = [line["MESSAGE"] for line in ours if line["PRIORITY"] == "3"]
        self.assertTrue(any(text.startswith("client: bad is given up") for text in failed), failed)
        self.assertEqual([text for text in failed if not text.startswith(("bad: ", "client: bad "))], [])
        self.assertEqual(os.stat("/var/log/ocfexec").st_mode & 0o777, 0o700)

    def test_scope(self):
        with open("/etc/systemd/system/ocfexec.service", encoding="utf-8") as file:
            text = file.read()
        self.addCleanup(systemctl, "daemon-reload")
        self.addCleanup(write, "/etc/systemd/system/ocfexec.service", text)
        write("/etc/systemd/system/ocfexec.service",
              text.replace("--meta-variables --events", "--meta-variables --via /usr/local/share/doc/ocfexec/with-scope.sh --events"))
        self.does("daemon-reload")
        self.wants(web=dummy("web"))
        self.does("start", "ocfexec")
        self.says("running: web")
        with open("/srv/booted/web", encoding="ascii") as file:
            pid = int(file.read())
        with open(f"/proc/{pid}/cgroup", encoding="ascii") as file:
            self.assertRegex(file.read(), r"/ocf-web-\d+\.scope")
        self.does("kill", "--kill-who=main", "--signal=SIGUSR1", "ocfexec")
        self.comes("its end", lambda: shown("ActiveState") == "inactive")
        self.assertTrue(helper.is_alive(pid), "the service lives")
