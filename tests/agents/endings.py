"""What ends with an action, with real processes. Wanted: after a timeout, at the end of the input and after a signal the agent has ended
with its process group and all its descendants, in whatever session they are; daemons, and services of earlier starts, live on. An agent
whose `start` is slow, and comes up late if only the agent is killed, stays down in `run` and in `serve`. What does not end though it was
killed holds its own resource, and no other."""
import os
import pwd
import re
import shutil
import signal
import subprocess
import time
import unittest

import helper

# An agent whose start does what the parameter `does` says, in the shell; each process that is up writes its number to a file of `up`.
ACTS = """case $1 in
start) eval "$OCF_RESKEY_does" ;;
monitor) eval "${OCF_RESKEY_monitor:-:}" ;;
stop) rm -f "$OCF_RESKEY_up"/service ;;
esac
"""

# Notes its own number under a name, and then goes on for ten minutes, longer than a check waits for its end. Use: NOTE NAME
NOTE = """#!/bin/sh
echo $$ > "$OCF_RESKEY_up/$1.new" && mv "$OCF_RESKEY_up/$1.new" "$OCF_RESKEY_up/$1"
trap '' TERM
i=0
while [ $i -lt 6000 ]; do sleep 0.1; i=$((i + 1)); done
"""


def user():
    """A user that is not root, by its name."""
    return next((name for name in ("nobody", "daemon") if name in [entry.pw_name for entry in pwd.getpwall()]), None)


def can(*command):
    """Whether a command can be run here."""
    return shutil.which(command[0]) is not None and subprocess.run(command, capture_output=True, check=False).returncode == 0


# the timeout of a start that a busy machine held back, in milliseconds
LONG = 20_000
# The sleeps of this run have these digits after the point, so that no other run finds them.
MINE = f"{os.getpid():07}"


@helper.slow
class Endings(helper.Check):
    def setUp(self):
        super().setUp()
        os.chmod(self.here, 0o755)
        self.agent("Acts", ACTS)
        self.up, self.err = self.place("up"), self.place("err")
        os.mkdir(self.up)
        os.chmod(self.up, 0o777)
        self.note = self.place("note")
        with open(self.note, "w", encoding="ascii") as script:
            script.write(NOTE)
        os.chmod(self.note, 0o755)
        self.addCleanup(self.end_all)

    def end_all(self):
        for name in os.listdir(self.up):
            pid = self.pid(name)
            if pid and helper.is_alive(pid):
                os.kill(pid, signal.SIGKILL)

    def pid(self, name):
        """The number that a process left under a name, if it did."""
        try:
            with open(os.path.join(self.up, name), encoding="ascii") as file:
                return int(file.read())
        except (OSError, ValueError):
            return None

    def awaits_pid(self, name):
        return self.eventually(f"{name} is up", lambda: self.pid(name))

    def register(self, does, name="r1", **params):
        texts = {key: text.replace("NOTE", self.note) for key, text in {"does": does, **params}.items()}
        return helper.register(name, "Acts", up=self.up, **texts)

    def opened(self, way="serve", **how):
        return self.started(way, "--memory", "--root", self.here, err=self.err, **how)

    def error_text(self):
        with open(self.err, encoding="utf-8") as err:
            return err.read()

    def timed_out(self, does, timeout=500, way="serve", names=("child",), **params):
        """Lets a start time out that leaves processes under these names; returns their numbers once the timeout was reported. A busy
        machine may hold the start back until then: so it has more time once more."""
        run = self.opened(way)
        run.send(self.register(does, **params), helper.action("r1", "start", timeout=timeout))
        if way == "run":
            run.send({"op": "drain"})
        _, notice = run.awaits(helper.is_notice)
        pids = [self.pid(name) for name in names]
        if not all(pids) and timeout < LONG:
            self.assertEqual(run.ends(), 0)
            return self.timed_out(does, LONG, way, names, **params)
        self.assertIsNotNone(notice, "a notice")
        self.assertEqual((notice["outcome"], notice["code"]), ("timed-out", 1))
        return run, pids

    def ended(self, pids):
        """All have ended when the notice comes, or it was reported that one of them was killed and had not ended yet."""
        alive = [pid for pid in pids if helper.is_alive(pid)]
        self.assertTrue(not alive or helper.STILL_ALIVE.search(self.error_text()), f"{alive} live; {self.error_text()}")
        self.eventually("they end", lambda: not any(map(helper.is_alive, pids)))

    def slow(self, way):
        # the agent that comes up after the stop if only the agent is killed
        does = f"sh -c 'sleep 1.5; : > {self.up}/service'"
        run = self.opened(way)
        run.send(self.register(does), helper.action("r1", "start", timeout=400), helper.action("r1", "stop"))
        if way == "run":
            run.send({"op": "drain"})
        run.awaits(lambda value: helper.is_notice(value, action="stop"))
        self.assertEqual([(end["action"], end["outcome"]) for end in run.notices()], [("start", "timed-out"), ("stop", "done")])
        time.sleep(2)
        self.assertFalse(os.path.exists(os.path.join(self.up, "service")), "the service stays down")

    def test_slow_run(self):
        """a start that timed out does not come up after the stop, in run"""
        self.slow("run")

    def test_slow_serve(self):
        """a start that timed out does not come up after the stop, in serve"""
        self.slow("serve")

    def test_child(self):
        """a child that the agent waits for ends on its timeout, and one that ignores SIGTERM"""
        for way in ("run", "serve"):
            with self.subTest(way):
                _, pids = self.timed_out("NOTE child; :", way=way)
                self.ended(pids)
                self.assertEqual(helper.STILL_ALIVE.sub("", self.error_text()), "")
                os.remove(os.path.join(self.up, "child"))

    def test_grandchild(self):
        """a grandchild ends on the timeout"""
        _, pids = self.timed_out("sh -c 'NOTE grandchild; :'; :", names=["grandchild"])
        self.ended(pids)

    def test_own_session(self):
        """a child in a session of its own ends with the agent that waits for it"""
        _, pids = self.timed_out("setsid -w NOTE child; :")
        self.ended(pids)

    @unittest.skipUnless(os.getuid() == 0 and user() and can("su", "-s", "/bin/sh", user(), "-c", "true"), "run as root, with su")
    def test_su(self):
        """a process that su started as another user ends on the timeout"""
        _, pids = self.timed_out(f"su -s /bin/sh -c 'OCF_RESKEY_up={self.up} NOTE child' {user()}; :")
        self.assertNotEqual(os.stat(os.path.join(self.up, "child")).st_uid, 0, "another user's")
        self.ended(pids)

    @unittest.skipUnless(os.getuid() == 0 and user() and can("su", "-l", "-s", "/bin/sh", user(), "-c", "true"), "run as root, with su")
    def test_su_login(self):
        """a process that su -l started, with another environment and in a session of its own, ends on the timeout"""
        _, pids = self.timed_out(f"su -l -s /bin/sh -c 'OCF_RESKEY_up={self.up} NOTE child' {user()}; :")
        self.ended(pids)

    def test_background_job(self):
        """a background job of the agent's group whose parent has ended ends on the timeout"""
        _, pids = self.timed_out("sh -c 'NOTE child &'; sleep 600")
        self.ended(pids)

    def test_forks(self):
        """an agent that starts a process each millisecond ends with all of them"""
        does = f"while :; do sleep 601.{MINE} & sleep 0.001; done"
        self.timed_out(f"echo $$ > {self.up}/child; {does}", timeout=700)
        found = subprocess.run(["pgrep", "-f", f"^sleep 601[.]{MINE}"], capture_output=True, check=False).stdout.split()
        self.ended([int(pid) for pid in found])

    def test_daemon(self):
        """a daemon, in a session of its own and with an ended parent, lives on"""
        _, pids = self.timed_out("(setsid NOTE child &) ; sleep 600")
        self.assertTrue(helper.is_alive(pids[0]), "the daemon lives")
        self.assertEqual(helper.STILL_ALIVE.sub("", self.error_text()), "")

    def test_earlier_service(self):
        """the service of an earlier start lives on after a monitor times out, also as a background job of that start"""
        run = self.opened()
        run.send(self.register("NOTE child & :", monitor="sh -c 'NOTE other; :'"), helper.action("r1", "start", timeout=5000))
        run.awaits(lambda value: helper.is_notice(value, action="start"))
        run.send(helper.action("r1", "monitor", timeout=2000))
        service, other = self.awaits_pid("child"), self.awaits_pid("other")
        _, notice = run.awaits(lambda value: helper.is_notice(value, action="monitor"))
        self.assertEqual(notice["outcome"], "timed-out")
        self.ended([other])
        self.assertTrue(helper.is_alive(service), "the service lives")

    def test_other_resource(self):
        """processes of another resource live on"""
        run = self.opened()
        run.send(self.register("NOTE second; :", name="r2"), helper.action("r2", "start", timeout=60000))
        second = self.awaits_pid("second")
        run.send(self.register("NOTE child; :"), helper.action("r1", "start", timeout=2000))
        child = self.awaits_pid("child")
        run.awaits(lambda value: helper.is_notice(value, id="r1"))
        self.ended([child])
        self.assertTrue(helper.is_alive(second), "the agent of the other resource runs on")

    def test_end_of_input(self):
        """processes that an agent started end with the run's input"""
        run = self.opened()
        run.send(self.register("NOTE child; :"), helper.action("r1", "start", timeout=60000))
        child = self.awaits_pid("child")
        self.assertEqual(run.ends(), 0)
        self.ended([child])

    def test_256(self):
        """256 timeouts in one turn, each agent with a child"""
        run = self.opened()
        for n in range(256):
            run.send(self.register(f"sleep 602.{MINE}{n:03}; :", name=f"r{n}"))
        run.send(*[helper.action(f"r{n}", "start", timeout=4000) for n in range(256)])
        first, _ = run.awaits(helper.is_notice, 60)
        self.eventually("256 notices", lambda: len(run.notices()) >= 256)
        self.assertEqual([end["outcome"] for end in run.notices()], ["timed-out"] * 256)
        found = subprocess.run(["pgrep", "-f", f"^sleep 602[.]{MINE}"], capture_output=True, check=False).stdout.split()
        self.ended([int(pid) for pid in found])
        last = [moment for moment, line in run.lines if "outcome" in helper.value_of(line)][-1]
        at = [end["at"] for end in run.notices()]
        self.took_less(6, (max(at) - min(at)) / 1000 + last - first, "256 timeouts and their notices")

    @unittest.skipUnless(shutil.which("cc"), "install a C compiler")
    def test_stuck(self):
        """agents that do not end delay a reply by a fifth of a second, and hold only their own resources, until they end"""
        self.agent("Stuck", "case $1 in start) sleep 600 ;; esac\n")
        shim, stuck = helper.shim("stuck.c", self.here), self.place("stuck")
        with open(stuck, "w", encoding="ascii"):
            pass
        run = self.opened(env={**os.environ, "LD_PRELOAD": shim, "STUCK": stuck})
        run.send(*[helper.register(f"r{n}", "Stuck") for n in range(60)], self.register(":", name="other"))
        run.send(*[helper.action(f"r{n}", "start", timeout=1500) for n in range(60)])
        slowest = 0
        while len(run.notices()) < 60:
            before, began = len(run.values()), time.monotonic()
            run.send({"op": "list"})
            moment, _ = run.awaits(lambda value: "resources" in value, after=before)
            slowest = max(slowest, moment - began)
            self.took_less(5, moment - began, "a reply")
        self.took_less(helper.number("STUCK_MILLIS", 300) / 1000, slowest, "the latest reply")
        run.send(helper.action("r0", "monitor"), helper.action("r0", "stop"), helper.action("other", "start"))
        run.awaits(lambda value: helper.is_notice(value, id="other", action="start", outcome="done"))
        before = len(run.values())
        run.send({"op": "info", "id": "r0"})
        _, found = run.awaits(lambda value: "queued" in value, after=before)
        self.assertEqual((len(found["queued"]), found["running"]), (2, None), "its actions are neither begun nor answered")
        # (the kill is repeated each second, and is reported once)
        found = self.error_text()
        self.assertEqual(len(re.findall(r"^ocfexec: r0 waits for pid \d+ \(Stuck\) of start, ", found, re.MULTILINE)), 1, found)
        os.remove(stuck)
        for what in ("monitor", "stop"):
            _, end = run.awaits(lambda value, what=what: helper.is_notice(value, id="r0", action=what))
            self.assertEqual((end["outcome"], end["code"]), ("done", 0))
        self.eventually("60 waits are over", lambda: self.error_text().count(" waits no longer: ") == 60)

    def with_mount(self, mount):
        """A serving run with a mount of its own, with a copy of the shell to run agents."""
        shell = self.place("sh")
        shutil.copy("/bin/sh", shell)
        os.makedirs(self.place("resource.d/test"), exist_ok=True)
        with open(self.place("resource.d/test/Direct"), "w", encoding="ascii") as script:
            script.write(f"#!{shell}\n[ \"$1\" != start ] || {shell} {self.note} child\n:\n")
        os.chmod(self.place("resource.d/test/Direct"), 0o755)
        words = f"{mount} && exec {helper.PROGRAM} serve --memory --root {self.here}"
        run = self.started("-m", shell, "-c", words, err=self.err, program="unshare")
        run.send(helper.register("r1", "Direct", up=self.up), helper.action("r1", "start", timeout=2000))
        child = self.awaits_pid("child")
        _, notice = run.awaits(helper.is_notice)
        self.assertEqual(notice["outcome"], "timed-out")
        return run, child

    @unittest.skipUnless(os.getuid() == 0 and can("unshare", "-m", "true"), "run as root, with unshare")
    def test_no_shell(self):
        """if no shell can be run, the agent itself is killed, and its resource is held as long as what it started lives"""
        run, child = self.with_mount("mount --bind /dev/null /bin/sh")
        self.assertRegex(self.error_text(), r"ocfexec: r1 waits for pid \d+ \(\w+\) of start, ")
        run.send(helper.action("r1", "stop"), helper.register("r2", "Direct", up=self.up), helper.action("r2", "monitor"))
        run.awaits(lambda value: helper.is_notice(value, id="r2", outcome="done"))
        self.assertEqual([end for end in run.notices() if end["action"] == "stop"], [], "no stop beside the start")
        self.assertTrue(helper.is_alive(child), "what the start began lives")
        os.kill(child, signal.SIGKILL)
        run.awaits(lambda value: helper.is_notice(value, id="r1", action="stop", outcome="done"))

    @unittest.skipUnless(os.getuid() == 0 and can("unshare", "-m", "true"), "run as root, with unshare")
    def test_no_proc(self):
        """if /proc lists nothing, the agent's group is killed, and a line says that other processes cannot be found"""
        _, child = self.with_mount("mount -t tmpfs none /proc")
        self.eventually("its child ends", lambda: not helper.is_alive(child))
        self.assertIn("ocfexec: cannot find and stop all processes that a killed action started: ", self.error_text())
