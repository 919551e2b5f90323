"""The logs of agents: with --logs DIR a file for each resource, opened anew for each action, and with --log one file for all. Wanted: a
line with the moment, the call, the run and the action before the agent's own output, and one with its end after it. A renamed log is left
alone, and a new one is made. A log that cannot be opened or written is named once, and no action fails because of it."""
import datetime
import os
import re
import shutil
import stat
import subprocess
import time
import unittest

import helper

# An agent that prints its action, and then does what the parameter `does` says, in the shell.
SAYS = """echo "$1 of $OCF_RESOURCE_INSTANCE"
echo "$1 fails: no such device" >&2
eval "${OCF_RESKEY_does:-:}"
"""
MOMENT = r"(\d{4}-\d\d-\d\dT\d\d:\d\d:\d\d\.\d{3}Z) "
OCF = "/usr/lib/ocf"
# The lines of a start of web that ends with 0, in a log of all resources.
OF_WEB = ("web: MOMENT call 1 begins as run 1: start, timeout 20000 ms\nstart of web\nstart fails: no such device\n"
          "web: MOMENT run 1 ended in N ms: OCF_SUCCESS (0)\n")


def without_moments(text):
    """Lines with MOMENT for their moment, and N for each duration except a timeout."""
    return re.sub(r"(?<!timeout )\b\d+ ms", "N ms", re.sub(MOMENT, "MOMENT ", text))


def is_tmpfs_possible():
    return os.geteuid() == 0 and shutil.which("unshare") and subprocess.run(
        ["unshare", "-m", "true"], capture_output=True, check=False).returncode == 0


class WithLogs(helper.Check):
    """A check with a directory for logs."""

    def setUp(self):
        super().setUp()
        self.agent("Says", SAYS)
        self.logs = self.place("logs")
        os.mkdir(self.logs)

    def read(self, name="web.log"):
        with open(os.path.join(self.logs, name), encoding="utf-8") as log:
            return log.read()

    def ends_with(self, done, **wanted):
        """The run ended well, and the notice of its action is as wanted."""
        self.assertEqual(done.returncode, 0, done.stderr)
        found = [value for value in helper.replies(done.stdout) if helper.is_notice(value)]
        self.assertEqual([{key: value[key] for key in wanted} for value in found], [wanted])


class Logs(WithLogs):
    def does(self, does, *words, name="web", timeout=20000):
        """A run with one start of an agent that does this; its log is in a directory if no other arguments are given."""
        words = words or ("--logs", self.logs)
        return helper.run("run", "--memory", "--root", self.here, *words, sent=helper.lines(
            helper.register(name, "Says", does=does), helper.action(name, "start", timeout=timeout), {"op": "drain"}))

    def test_begin_and_end(self):
        """an agent's output is between the lines of its begin and of its end"""
        self.ends_with(self.does("exit 6"), code=6)
        self.assertEqual(without_moments(self.read()),
                         "MOMENT call 1 begins as run 1: start, timeout 20000 ms\nstart of web\nstart fails: no such device\n"
                         "MOMENT run 1 ended in N ms: OCF_ERR_CONFIGURED (6)\n")

    def test_moments(self):
        """the moments of its lines are the present, in UTC, and the duration is that of the action"""
        before = datetime.datetime.now(datetime.timezone.utc)
        self.ends_with(self.does("sleep 0.3"), code=0)
        after = datetime.datetime.now(datetime.timezone.utc)
        text = self.read()
        began, ended = (datetime.datetime.fromisoformat(moment.replace("Z", "+00:00")) for moment in re.findall(MOMENT, text))
        cut = datetime.timedelta(milliseconds=1)
        self.assertLessEqual(before - cut, began)
        self.assertLessEqual(began, ended)
        self.assertLessEqual(ended, after + cut)
        took = int(re.search(r"ended in (\d+) ms", text)[1])
        self.assertGreaterEqual(took, 300)
        self.assertLessEqual(took, (after - before).total_seconds() * 1000 + 1)

    def test_mode(self):
        """a new log is readable only by its owner"""
        self.does("true")
        self.assertEqual(stat.S_IMODE(os.stat(os.path.join(self.logs, "web.log")).st_mode), 0o600)

    def test_each_its_own(self):
        """each resource has a log of its own, whatever its id"""
        names = ["web", "db:0", ".hidden", "..x", "a.log", "-", "x" * 64]
        for name in names:
            self.ends_with(self.does("exit 0", name=name), code=0)
        self.assertEqual(sorted(os.listdir(self.logs)), sorted(f"{name}.log" for name in names))
        for name in names:
            self.assertIn(f"start of {name}\n", self.read(f"{name}.log"))

    def test_appended(self):
        """an existing log is appended to"""
        self.does("exit 0")
        first = self.read()
        self.does("exit 1")
        found = self.read()
        self.assertTrue(found.startswith(first), f"wanted, and more after it:\n{first}\nfound:\n{found}")
        self.assertIn("OCF_ERR_GENERIC (1)\n", self.read()[len(first):])

    def test_timeout(self):
        """an agent that ran past its timeout was killed"""
        self.ends_with(self.does("exec sleep 20", timeout=300), outcome="timed-out")
        self.assertRegex(self.read(), r"run 1 was killed after (29\d|[3-9]\d\d|\d{4,}) ms\n$")

    def test_signal(self):
        """a signal that ended an agent is named"""
        self.ends_with(self.does("kill -9 $$"), outcome="signaled")
        self.assertRegex(self.read(), r"run 1 was ended after \d+ ms by signal 9\n$")

    def test_missing(self):
        """an agent that is missing was not started"""
        done = helper.run("run", "--memory", "--root", self.here, "--logs", self.logs, sent=helper.lines(
            helper.register("web", "None"), helper.action("web", "start"), {"op": "drain"}))
        self.ends_with(done, outcome="not-started")
        self.assertEqual(without_moments(self.read()), "MOMENT call 1 begins as run 1: start, timeout 20000 ms\n"
                         "MOMENT run 1 was not started: the agent's file is missing\n")

    def test_end_of_input(self):
        """an agent that runs when the input ends was killed"""
        run = self.started("serve", "--memory", "--root", self.here, "--logs", self.logs)
        run.send(helper.register("web", "Says", does="exec sleep 60"), helper.action("web", "start"))
        self.awaits_log("start fails: no such device\n")
        self.assertEqual(run.ends(), 0)
        self.assertRegex(self.read(), r"run 1 was killed after \d+ ms\n$")

    def awaits_log(self, text, name="web.log", seconds=helper.PATIENCE):
        until = time.monotonic() + seconds
        while time.monotonic() < until:
            if os.path.exists(os.path.join(self.logs, name)) and text in self.read(name):
                return
            time.sleep(0.02)
        self.fail(f"{name} has not {text!r} after {seconds} s: {os.listdir(self.logs)}")

    def test_rotated(self):
        """a renamed log gets the output of the running agent, and a new one has the next action"""
        run = self.started("serve", "--memory", "--root", self.here, "--logs", self.logs)
        go = self.place("go")
        run.send(helper.register("web", "Says", does=f"while [ ! -e {go} ]; do sleep 0.05; done; echo went on"),
                 helper.action("web", "start"))
        self.awaits_log("start fails")
        os.rename(os.path.join(self.logs, "web.log"), os.path.join(self.logs, "web.log.1"))
        with open(go, "w", encoding="ascii"):
            pass
        run.awaits(lambda value: helper.is_notice(value, action="start", code=0))
        run.send(helper.action("web", "stop"))
        run.awaits(lambda value: helper.is_notice(value, action="stop", code=0))
        self.assertEqual(run.ends(), 0)
        self.assertTrue(self.read("web.log.1").endswith("went on\n"), self.read("web.log.1"))
        self.assertEqual(without_moments(self.read()).split("\n")[:3], [
            "MOMENT run 1 ended in N ms: OCF_SUCCESS (0)", "MOMENT call 2 begins as run 2: stop, timeout 20000 ms", "stop of web"])

    def test_daemon(self):
        """a daemon that keeps its log open goes on writing there after it was renamed and the executor has ended"""
        go, ready = self.place("go"), self.place("ready")
        self.ends_with(self.does(f"(while [ ! -e {go} ]; do sleep 0.05; done; echo daemon: $?; : > {ready}) &"), code=0)
        os.rename(os.path.join(self.logs, "web.log"), os.path.join(self.logs, "web.log.1"))
        with open(go, "w", encoding="ascii"):
            pass
        self.eventually("the daemon's end", lambda: os.path.exists(ready))
        self.assertTrue(self.read("web.log.1").endswith("daemon: 0\n"), self.read("web.log.1"))

    def names(self, done, *wanted):
        """Standard error has a line for each of these: it names the log, or at the start the directory."""
        said = done.stderr.decode().splitlines()
        self.assertEqual(len(said), len(wanted), said)
        for part, line in zip(wanted, said):
            self.assertIn(part, line)

    def test_missing_directory(self):
        """a directory that is missing is named at the start, and its log once for two actions; both are done"""
        gone = self.place("gone")
        done = helper.run("run", "--memory", "--root", self.here, "--logs", gone, sent=helper.lines(
            helper.register("web", "Says"), helper.action("web", "start"), helper.action("web", "stop"), {"op": "drain"}))
        self.assertEqual([value["code"] for value in helper.replies(done.stdout) if helper.is_notice(value)], [0, 0])
        self.names(done, f"ocfexec: logs {gone}: No such file or directory (os error 2); the output of agents is lost until it is there",
                   f"{gone}/web.log: No such file or directory")

    @unittest.skipUnless(os.geteuid() == 0 and shutil.which("setpriv"), "needs root and setpriv, to give up root")
    def test_no_permission(self):
        """a directory without permission is named, and the action is done"""
        os.chmod(self.here, 0o755)
        os.chmod(self.logs, 0o700)
        done = subprocess.run(["setpriv", "--reuid=65534", "--regid=65534", "--clear-groups", helper.PROGRAM, "run", "--memory",
                               "--root", self.here, "--logs", self.logs], capture_output=True, check=False, timeout=60,
                              input=helper.lines(helper.register("web", "Says"), helper.action("web", "start"), {"op": "drain"}))
        self.ends_with(done, code=0)
        self.names(done, f"ocfexec: logs {self.logs}: Permission denied", f"{self.logs}/web.log: Permission denied")

    def test_no_file(self):
        """a link and a named pipe in place of a log are left alone, and the action is done"""
        log, target = os.path.join(self.logs, "web.log"), self.place("target")
        for make in (lambda: os.symlink(target, log), lambda: os.mkfifo(log), lambda: os.mkdir(log)):
            make()
            done = self.does("exit 0")
            self.ends_with(done, code=0)
            self.names(done, f"{log}: not a plain file")
            self.assertFalse(os.path.exists(target), f"{log}: nothing is written to what it points at")
            if os.path.isdir(log):
                os.rmdir(log)
            else:
                os.unlink(log)

    @unittest.skipUnless(is_tmpfs_possible(), "needs root, to mount a small disk")
    def test_full(self):
        """a full disk is named, and the action is done"""
        full = 'mount -t tmpfs -o size=4096 none "$1" && head -c 4096 /dev/zero > "$1/filled" && shift && exec "$@"'
        done = subprocess.run(
            ["unshare", "-m", "sh", "-c", full, "sh", self.logs,
             helper.PROGRAM, "run", "--memory", "--root", self.here, "--logs", self.logs],
            capture_output=True, check=False, timeout=60,
            input=helper.lines(helper.register("web", "Says"), helper.action("web", "start"), {"op": "drain"}))
        self.ends_with(done, code=0)
        self.names(done, "web.log: No space left on device")

    def test_one_for_all(self):
        """with --log the same lines begin with the id"""
        log = self.place("log")
        self.ends_with(self.does("exit 0", "--log", log), code=0)
        with open(log, encoding="utf-8") as file:
            self.assertEqual(without_moments(file.read()), OF_WEB)

    def test_standard_error(self):
        """with --log - the lines are on standard error"""
        done = self.does("exit 0", "--log", "-")
        self.ends_with(done, code=0)
        self.assertEqual(without_moments(done.stderr.decode()), OF_WEB)

    def test_no_temporary_directory(self):
        """with --log - and a TMPDIR that is not there the reason is named, and the action is done"""
        done = helper.run("run", "--memory", "--root", self.here, "--log", "-", env={**os.environ, "TMPDIR": self.place("gone")},
                          sent=helper.lines(helper.register("web", "Says"), helper.action("web", "start"), {"op": "drain"}))
        self.ends_with(done, code=0)
        self.assertIn("ocfexec: log of agents: No such file or directory", done.stderr.decode())

    def test_both(self):
        """with --log and --logs the output is in the logs of the directory"""
        log = self.place("log")
        self.ends_with(self.does("exit 0", "--log", log, "--logs", self.logs), code=0)
        self.assertIn("start of web\n", self.read())
        self.assertFalse(os.path.exists(log), "no file of --log beside --logs")


@unittest.skipUnless(os.path.exists(f"{OCF}/resource.d/heartbeat/Dummy"), "needs the package resource-agents")
class OfDebian(WithLogs):
    """The agents of Debian's package."""

    def start(self, kind, **params):
        return helper.run("run", "--memory", "--meta-variables", "--logs", self.logs, sent=helper.lines(
            helper.register("web", kind, "heartbeat", **params), helper.action("web", "start", timeout=60000), {"op": "drain"}))

    def test_dummy(self):
        """Debian's Dummy starts, and its log has the begin and the end"""
        self.ends_with(self.start("Dummy", state=self.place("state")), code=0)
        text = without_moments(self.read())
        self.assertTrue(text.startswith("MOMENT call 1 begins as run 1: start, timeout 60000 ms\n"), text)
        self.assertTrue(text.endswith("MOMENT run 1 ended in N ms: OCF_SUCCESS (0)\n"), text)

    @unittest.skipUnless(os.path.exists("/usr/sbin/nginx"), "needs nginx")
    def test_nginx(self):
        """the log of an nginx with a broken configuration has its reason"""
        with open(self.place("broken.conf"), "w", encoding="ascii") as file:
            file.write("no_such_directive on;\n")
        done = self.start("nginx", configfile=self.place("broken.conf"))
        self.assertEqual(done.returncode, 0, done.stderr)
        self.assertIn("no_such_directive", self.read())
