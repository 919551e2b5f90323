"""What ends an action where that is hard. Wanted: a start past its timeout stays down after its stop where no process can be made, in a
cgroup at its limit and for a user at its limit; where /proc shows nothing; and after the process that sends the signals was killed, or
stopped. That process is in a session of its own, if setsid can be run, and ends with its executor. What it could not end is killed again
each second. Two hundred and fifty agents with large environments that pass their timeouts at once delay no monitor of another resource.
The environment may set LATE_MILLIS."""
import contextlib
import os
import shutil
import signal
import subprocess
import time
import unittest

import acting
import helper

# how long a start may take, in milliseconds: whatever has to be prepared while it runs is prepared by then, also on a busy machine
TIMEOUT = 8000
# A start that waits for a child at the gate, so that its service would come up after it was killed itself.
LATE = "WAITS child; :"
# a number of a user that has no other processes, also where this runs twice at once; and how many agents pass their timeouts at once, each
# with parameters of this many bytes
USER, MANY, LARGE = 61_000 + os.getpid() % 4_000, 250, 15 * 1024
# A monitor that notes the time from the boot to its begin, in hundredths of a second; it makes no process for that.
STAMPS = "read -r now rest < /proc/uptime; echo $now >> UP/stamps"
INTERVAL = 100
PIDS = ("/sys/fs/cgroup/pids", "/sys/fs/cgroup")


def group_of_processes(name):
    """A new cgroup in which processes are counted, with the file of its limit, if one can be made here."""
    for top in PIDS:
        folder = os.path.join(top, name)
        with contextlib.suppress(OSError):
            os.mkdir(folder)
            if os.access(os.path.join(folder, "pids.max"), os.W_OK):
                return folder
            os.rmdir(folder)
    return None


def can_count():
    folder = group_of_processes(f"ocfexec-try-{os.getpid()}") if os.getuid() == 0 else None
    if folder:
        os.rmdir(folder)
    return folder is not None


class Killer(acting.Acting):
    def begins(self, run, timeout=TIMEOUT, start=LATE):
        """A start under way that would come up late."""
        run.send(self.register(start=start), helper.action("r1", "start", timeout=timeout))
        return self.pid("child")

    def passes(self, run, child):
        """The start passes its timeout, and nothing of it is left."""
        [end] = self.ends_of(run, "r1", "start")
        self.assertEqual((end["outcome"], end["code"]), ("timed-out", 1), self.seen())
        self.eventually("its child ends", lambda: not helper.is_alive(child))

    def makes_none(self, run):
        """No process can be made any more, so another resource's agent is not started; the start is under way."""
        run.send(self.register("r2", monitor=":"))
        self.assertEqual(self.done(run, "r2", "monitor")["outcome"], "not-started", self.seen())
        self.has_no_result(run)

    def has_no_result(self, run):
        self.assertEqual([end["action"] for end in run.notices() if end["id"] == "r1"], [], "prepared before the timeout")

    def written(self, path, text):
        with open(path, "w", encoding="ascii") as file:
            file.write(text)

    def counted(self, folder):
        with open(os.path.join(folder, "pids.current"), encoding="ascii") as count:
            return int(count.read())

    def removed(self, folder):
        def emptied():
            with open(os.path.join(folder, "cgroup.procs"), encoding="ascii") as members:
                for pid in map(int, members.read().split()):
                    with contextlib.suppress(ProcessLookupError):
                        os.kill(pid, signal.SIGKILL)
            with contextlib.suppress(OSError):
                os.rmdir(folder)
            return not os.path.exists(folder)
        self.eventually("the cgroup is empty", emptied)

    @unittest.skipUnless(can_count(), "run as root, with a cgroup in which processes are counted")
    def test_no_process_in_cgroup(self):
        """where a cgroup is at its limit of processes, a start past its timeout stays down after its stop"""
        folder = group_of_processes(f"ocfexec-{os.getpid()}-{time.monotonic_ns()}")
        self.addCleanup(self.removed, folder)
        run = self.started("-c", f'echo $$ > {folder}/cgroup.procs && exec "$@"', "sh", helper.PROGRAM, "serve", "--memory", "--root",
                           self.here, err=self.err, program="/bin/sh", start_new_session=True)
        child = self.begins(run)
        self.written(os.path.join(folder, "pids.max"), str(self.counted(folder)))
        self.makes_none(run)
        self.passes(run, child)
        self.written(os.path.join(folder, "pids.max"), "max")
        self.is_down(run)

    @unittest.skipUnless(os.getuid() == 0 and acting.can("setpriv", f"--reuid={USER}", "--clear-groups", "true") and acting.can("prlimit"),
                         "run as root, with setpriv and prlimit")
    def test_no_process_of_user(self):
        """where a user is at its limit of processes, a start past its timeout stays down after its stop"""
        # three processes: the executor, the one that sends signals, and one agent, which raises its own limit
        run = self.started("--nproc=3:", "setpriv", f"--reuid={USER}", "--regid=65534", "--clear-groups", helper.PROGRAM, "serve",
                           "--memory", "--root", self.here, err=self.err, program="prlimit", start_new_session=True)
        run.send(self.register(start="exec prlimit --nproc=100 sh -c 'HERE/waits child; :'", stop=":"),
                 helper.action("r1", "start", timeout=TIMEOUT))
        child = self.pid("child")
        self.makes_none(run)
        self.passes(run, child)
        # (what was killed counts until the first process of the system has waited for it)
        self.eventually("an agent can be started again", lambda: self.done(run, "r1", "stop")["outcome"] == "done")
        self.is_down(run)

    @unittest.skipUnless(os.getuid() == 0 and acting.can("setpriv", f"--reuid={USER}", "--clear-groups", "true") and acting.can("prlimit"),
                         "run as root, with setpriv and prlimit")
    def test_once_without_process(self):
        """once ends what its action started, where its user is at its limit of processes when the timeout has passed"""
        self.agent("Late", f"exec prlimit --nproc=100 sh -c '{self.here}/waits child & wait'\n")
        user = ["prlimit", "--nproc=3:", "setpriv", f"--reuid={USER}", "--regid=65534", "--clear-groups"]
        done = subprocess.run([*user, helper.PROGRAM, "once", "--root", self.here, "--timeout", str(TIMEOUT), "test:Late", "start"],
                              check=False, timeout=helper.WHOLE)
        self.assertEqual(done.returncode, 124)
        child = self.pid("child")
        self.eventually("its child ends", lambda: not helper.is_alive(child))

    @unittest.skipUnless(os.getuid() == 0 and acting.can("unshare", "-m", "true"), "run as root, with unshare")
    def test_no_proc(self):
        """where /proc shows nothing, a start past its timeout stays down after its stop"""
        words = f"mount -t tmpfs none /proc && exec {helper.PROGRAM} serve --memory --root {self.here}"
        run = self.started("-m", "sh", "-c", words, err=self.err, program="unshare", start_new_session=True)
        child = self.begins(run, timeout=4000)
        self.passes(run, child)
        self.is_down(run)

    @unittest.skipUnless(can_count() and acting.can("unshare", "-m", "true"), "run as root, with a cgroup in which processes are counted")
    def test_no_process_and_no_proc(self):
        """the same where neither a process can be made nor /proc shows one"""
        folder = group_of_processes(f"ocfexec-{os.getpid()}-{time.monotonic_ns()}")
        self.addCleanup(self.removed, folder)
        words = (f"echo $$ > {folder}/cgroup.procs && mount -t tmpfs none /proc && exec {helper.PROGRAM} serve --memory "
                 f"--root {self.here}")
        run = self.started("-m", "sh", "-c", words, err=self.err, program="unshare", start_new_session=True)
        child = self.begins(run)
        self.written(os.path.join(folder, "pids.max"), str(self.counted(folder)))
        self.makes_none(run)
        self.passes(run, child)
        self.written(os.path.join(folder, "pids.max"), "max")
        self.is_down(run)

    def killer(self, run):
        """The child of an executor that runs before any agent does."""
        self.answered(run, {"op": "list"})
        [pid] = self.eventually("an executor without agents has one child", lambda: acting.children(run.run.pid))
        return pid

    def test_is_there(self):
        """the process that sends signals is there from the opening on, in a session of its own, and ends with its executor"""
        for way in ("leaves", "is killed"):
            with self.subTest(way):
                run = self.opened()
                pid = self.killer(run)
                _, _, group, session, _ = acting.stat_of(pid)
                self.assertEqual((group, session), (pid, pid))
                with open(f"/proc/{pid}/environ", "rb") as environ:
                    self.assertEqual(environ.read(), b"", "its environment is empty")
                if way == "leaves":
                    self.assertEqual(run.ends(), 0)
                else:
                    run.killed()
                self.eventually("it ends with its executor", lambda: not helper.is_alive(pid))

    def test_is_killed(self):
        """a start past its timeout stays down, though the process that sends signals was killed before it"""
        run = self.opened()
        pid = self.killer(run)
        os.kill(pid, signal.SIGKILL)
        self.eventually("it is gone", lambda: not helper.is_alive(pid))
        child = self.begins(run, timeout=4000)
        self.passes(run, child)
        self.is_down(run)

    def test_is_killed_late(self):
        """the same where it was killed while the start was under way"""
        run = self.opened()
        pid = self.killer(run)
        child = self.begins(run)
        os.kill(pid, signal.SIGKILL)
        self.has_no_result(run)
        self.passes(run, child)
        self.is_down(run)
        # and there is one for the next start
        os.remove(os.path.join(self.up, "child"))
        child = self.begins_again(run)
        [_, end] = self.ends_of(run, "r1", "start", 2)
        self.assertEqual(end["outcome"], "timed-out")
        self.is_down(run)
        self.assertFalse(helper.is_alive(child), "nothing of the second start is left")

    def begins_again(self, run):
        run.send(helper.action("r1", "start", timeout=4000))
        return self.pid("child")

    def test_is_stopped(self):
        """a start past its timeout stays down, though the process that sends signals was stopped; another resource goes on"""
        run = self.opened()
        pid = self.killer(run)
        run.send(self.register("r2", monitor="exit 7"))
        os.kill(pid, signal.SIGSTOP)
        self.addCleanup(lambda: helper.is_alive(pid) and os.kill(pid, signal.SIGKILL))
        child = self.begins(run, timeout=4000)
        self.assertEqual(self.done(run, "r2", "monitor")["code"], 7)
        self.passes(run, child)
        self.is_down(run)
        self.assertEqual(self.done(run, "r2", "monitor")["code"], 7)

    def with_mounts(self, *mounts, kept=("--memory",)):
        """An executor in a mount namespace of its own, in which these files lie over others; its agent's shell is no file of the system."""
        shell = self.place("sh")
        if not os.path.exists(shell):
            shutil.copy("/bin/sh", shell)
        for name in ("resource.d/test/Acts", "waits"):
            with open(self.place(name), encoding="utf-8") as script:
                text = script.read()
            self.script(name, text.replace("#!/bin/sh", f"#!{shell}", 1))
        words = " && ".join([*[f"mount --bind {over} {file}" for over, file in mounts],
                             f"exec {helper.PROGRAM} serve {' '.join(kept)} --root {self.here}"])
        return self.started("-m", shell, "-c", words, err=self.err, program="unshare", start_new_session=True)

    @unittest.skipUnless(os.getuid() == 0 and acting.can("unshare", "-m", "true") and shutil.which("setsid"), "run as root, with unshare")
    def test_no_setsid(self):
        """where setsid is there and cannot be run, a start past its timeout stays down after its stop"""
        for what, mode in (("may not be run", 0o644), ("is no program", 0o755)):
            with self.subTest(what):
                over = self.place(f"setsid-{mode:o}")
                self.written(over, "\x7fELF, and nothing else\n")
                os.chmod(over, mode)
                run = self.with_mounts((over, os.path.realpath(shutil.which("setsid"))))
                child = self.begins(run, timeout=4000)
                self.passes(run, child)
                self.is_down(run)
                os.remove(os.path.join(self.up, "child"))
                self.assertEqual(run.ends(), 0)

    @unittest.skipUnless(os.getuid() == 0 and acting.can("unshare", "-m", "true") and shutil.which("nsenter"), "run as root, with unshare")
    def test_is_repeated(self):
        """what could not be killed holds its resource, and is killed as soon as signals can be sent; begin and end of that are lines"""
        folder = self.journal()
        run = self.with_mounts(("/dev/null", "/bin/sh"), kept=("--journal", folder))
        child = self.begins(run, timeout=4000)
        [end] = self.ends_of(run, "r1", "start")
        self.assertEqual(end["outcome"], "timed-out")
        run.send(helper.action("r1", "stop"), self.register("r2", monitor="exit 7"))
        # (while kills are repeated in vain)
        until = time.monotonic() + 3
        while time.monotonic() < until:
            self.assertEqual(self.done(run, "r2", "monitor")["code"], 7)
        self.assertTrue(helper.is_alive(child), "it could not be killed")
        status = helper.run("status", "--journal", folder).stdout.decode()
        self.assertRegex(status, r"\bwaits for pid \d+ of start\b")
        self.assertEqual([end for end in run.notices() if end["action"] == "stop"], [], "no stop beside the start")
        subprocess.run(["nsenter", "-t", str(run.run.pid), "-m", "umount", "/bin/sh"], check=True)
        [stop] = self.ends_of(run, "r1", "stop")
        self.assertEqual((stop["outcome"], stop["code"]), ("done", 0))
        self.assertFalse(helper.is_alive(child), "nothing of the start lives beside the stop")
        self.is_down(run)
        self.assertNotIn("waits", helper.run("status", "--journal", folder).stdout.decode())
        for line in (r"^ocfexec: r1 waits for pid \d+ \(.*\) of start, ", r"^ocfexec: r1 waits no longer: "):
            self.assertEqual(len(self.lines_of(line)), 1, self.error_text())

    def stamps(self):
        """The moments at which the monitors of the other resource began, in seconds."""
        path = os.path.join(self.up, "stamps")
        if not os.path.exists(path):
            return []
        with open(path, encoding="ascii") as text:
            return [float(word) for word in text.read().split("\n")[:-1]]

    def latest(self, count):
        """How late the latest of the monitors after the first of these began."""
        found = self.stamps()[count:]
        return max(after - before for before, after in zip(found, found[1:])) - INTERVAL / 1000

    def passes_at_once(self, run):
        """How late the latest monitor of the other resource began while all agents passed their timeouts, and while they ran."""
        before_them = len([end for end in run.notices() if end["action"] == "start"])
        run.send(*[helper.action(f"r{n}", "start", timeout=20_000) for n in range(MANY)])
        self.eventually("250 agents run", lambda: sum(one["running"] is not None for one in self.statuses(run)) >= MANY)
        before = len(self.stamps())
        self.eventually("monitors while they run", lambda: len(self.stamps()) >= before + 15)
        quiet = self.latest(before)
        self.eventually("250 timeouts", lambda: len([end for end in run.notices() if end["action"] == "start"]) >= before_them + MANY)
        ended = len(self.stamps())
        self.eventually("monitors after them", lambda: len(self.stamps()) >= ended + 5)
        late = self.latest(before)
        print(f"killer: the latest monitor began {late:.2f} s late, and {quiet:.2f} s while all agents ran", flush=True)
        return late, quiet

    @helper.slow
    def test_many(self):
        """while 250 agents with parameters of 15 KiB pass their timeouts at once, no monitor of another resource is late"""
        run = self.opened()
        run.send(self.register("other", monitor=STAMPS), {"op": "recur", "id": "other", "interval": INTERVAL})
        large = {f"large{n}": "x" * 1024 for n in range(LARGE // 1024)}
        for n in range(MANY):
            run.send(self.register(f"r{n}", start="exec sleep 601", **large))
        self.eventually("250 resources", lambda: len(self.answered(run, {"op": "list"})["resources"]) == MANY + 1)
        # (a busy machine may be late once, and a program that looks at each environment for each agent is late each time)
        for _ in range(3):
            late, quiet = self.passes_at_once(run)
            most = helper.number("LATE_MILLIS", 300) / 1000 + 2 * quiet
            if late < most:
                break
        self.took_less(most, late, "a monitor's delay")
        self.assertEqual({end["outcome"] for end in run.notices() if end["action"] == "start"}, {"timed-out"})

    def statuses(self, run):
        return self.answered(run, {"op": "status"})["status"]
