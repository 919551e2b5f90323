"""Shared code of the checks with agents that do what their parameters say: numbers that their processes note, a gate that they wait at, a
service that is up as soon as that gate was opened, and what the executor says on standard error. A process that waits at the gate makes no
process for that, and the opening of the gate shows whether one still waits there: so whether a start may still come up is a fact, and not a
matter of time."""
import contextlib
import errno
import os
import pwd
import re
import shutil
import signal
import subprocess
import time

import helper

# Each action does what the parameter of its name says, in the shell. WAITS in these texts notes its own number under a name, and waits at
# the gate; then its service is up. Use: WAITS NAME
ACTS = """case $1 in
start) eval "${OCF_RESKEY_start:-:}" ;;
stop) eval "${OCF_RESKEY_stop:-:}" ;;
monitor) eval "${OCF_RESKEY_monitor:-:}" ;;
meta-data) eval "${OCF_RESKEY_metadata:-:}" ;;
esac
"""
WAITS = """#!/bin/sh
echo $$ > {up}/$1
read -r line < {gate}
echo $$ >> {up}/service
"""
# for how many seconds something is waited for on a quiet machine; longer on a busy one
PATIENCE = 30
# what a stop and a monitor of that service are
STOP, MONITOR = "rm -f UP/service", "[ -e UP/service ] || exit 7"


def can(*command):
    """Whether a command can be run here."""
    return shutil.which(command[0]) is not None and subprocess.run(
        command, stdin=subprocess.DEVNULL, capture_output=True, check=False).returncode == 0


def user():
    """A user that is not root, by its name."""
    return next((name for name in ("nobody", "daemon") if name in [entry.pw_name for entry in pwd.getpwall()]), None)


def stat_of(pid):
    """The state of a process, its parent, group and session, and its start time, as in proc(5); None if there is no such process."""
    try:
        with open(f"/proc/{pid}/stat", encoding="ascii", errors="replace") as stat:
            fields = stat.read().rsplit(")", 1)[1].split()
    except OSError:
        return None
    return fields[0], int(fields[1]), int(fields[2]), int(fields[3]), int(fields[19])


def processes():
    """The numbers of all processes."""
    return [int(name) for name in os.listdir("/proc") if name.isdigit()]


def children(pid):
    """The numbers of the children of a process that run."""
    return [one for one in processes() if (found := stat_of(one)) and found[1] == pid and found[0] != "Z"]


def words_of(pid):
    """The arguments of a process, as a text with spaces."""
    try:
        with open(f"/proc/{pid}/cmdline", encoding="utf-8", errors="replace") as words:
            return words.read().replace("\0", " ").strip()
    except OSError:
        return ""


def with_word(word):
    """The processes that have this among their arguments, and run."""
    return [pid for pid in processes() if pid != os.getpid() and word in words_of(pid) and helper.is_alive(pid)]


def is_end(value, name, what):
    """Whether a line is the notice of the end of an action that this executor began."""
    return helper.is_notice(value, id=name, action=what) and value["outcome"] not in ("interrupted", "dropped")


class Acting(helper.Check):
    """A check with the agent Acts, a directory `up` of what its processes note, and a gate."""

    def setUp(self):
        super().setUp()
        os.chmod(self.here, 0o755)
        self.agent("Acts", ACTS)
        self.up, self.gate, self.err = self.place("up"), self.place("gate"), self.place("err")
        os.mkdir(self.up)
        os.chmod(self.up, 0o777)
        os.mkfifo(self.gate)
        os.chmod(self.gate, 0o666)
        self.script("waits", WAITS.format(up=self.up, gate=self.gate))
        self.asked = 0
        self.addCleanup(self.end_all)

    def script(self, name, text):
        """A program for the texts of the agents."""
        with open(self.place(name), "w", encoding="utf-8") as file:
            file.write(text)
        os.chmod(self.place(name), 0o755)

    def end_all(self):
        # whatever of this check still runs has its directory among its arguments, or noted its number
        noted = [pid for name in os.listdir(self.up) for pid in self.noted(name)]
        for pid in {*noted, *with_word(self.here)} - {os.getpid()}:
            with contextlib.suppress(ProcessLookupError):
                os.kill(pid, signal.SIGKILL)

    def noted(self, name):
        """The numbers of the whole lines of a note."""
        try:
            with open(os.path.join(self.up, name), encoding="ascii") as file:
                return [int(line) for line in file.read().split("\n")[:-1] if line.isdigit()]
        except (OSError, ValueError):
            return []

    def pid(self, name):
        """The number that a process notes under this name, as soon as it is there."""
        return self.eventually(f"a process notes its number as {name}", lambda: self.noted(name))[-1]

    def eventually(self, what, holds, seconds=PATIENCE):
        try:
            return super().eventually(what, holds, seconds)
        except AssertionError as error:
            raise AssertionError(f"{error}; {self.seen()}") from None

    def seen(self):
        """What there is to see of this check: its notes, its processes, and what was said."""
        notes = {name: self.noted(name) for name in sorted(os.listdir(self.up))}
        running = {pid: (stat_of(pid) or "?", words_of(pid)) for pid in with_word(self.here)}
        said = self.error_text() if os.path.exists(self.err) else "nothing was opened"
        return f"notes: {notes}\nprocesses: {running}\nstandard error: {said[-2000:]}"

    def error_text(self):
        with open(self.err, encoding="utf-8", errors="replace") as err:
            return err.read()

    def lines_of(self, pattern):
        """The lines of standard error that match."""
        return [line for line in self.error_text().splitlines() if re.search(pattern, line)]

    def says(self, pattern):
        """Waits until standard error has a line that matches, and returns it."""
        return self.eventually(f"a line on standard error: {pattern}", lambda: self.lines_of(pattern))[0]

    def text(self, does):
        """A text for an agent, with its words filled in."""
        return does.replace("WAITS", self.place("waits")).replace("UP", self.up).replace("GATE", self.gate).replace("HERE", self.here)

    def register(self, name="r1", start="WAITS agent", stop=STOP, monitor=MONITOR, **params):
        texts = {key: self.text(does) for key, does in {"start": start, "stop": stop, "monitor": monitor, **params}.items()}
        return helper.register(name, "Acts", **texts)

    def opened(self, *words, way="serve", **how):
        """An executor in a session of its own, so that what an agent does to its group is not done to this check."""
        words = words if "--journal" in words else ("--memory", *words)
        return self.started(way, *words, "--root", self.here, **{"err": self.err, "start_new_session": True, **how})

    def opens_gate(self):
        """Opens the gate once, and returns whether a process waited there: what waits goes on, and its service comes up."""
        try:
            gate = os.open(self.gate, os.O_WRONLY | os.O_NONBLOCK)
        except OSError as error:
            if error.errno == errno.ENXIO:
                return False
            raise
        with contextlib.suppress(BrokenPipeError):
            os.write(gate, b"\n" * 64)
        os.close(gate)
        return True

    def goes_on(self):
        """Opens the gate to a process that waits there, or is about to."""
        self.eventually("a process waits at the gate", self.opens_gate)

    def answered(self, run, command, seconds=PATIENCE):
        """The reply of `serve` to a command, which is found by its tag."""
        self.asked += 1
        before, tag = len(run.values()), f"asked{self.asked}"
        run.send({**command, "tag": tag})
        _, reply = run.awaits(lambda value: not helper.is_notice(value) and value.get("tag") == tag, seconds, before)
        return {key: value for key, value in reply.items() if key != "tag"}

    def ends_of(self, run, name, what, count=1, seconds=PATIENCE):
        """The notices of ends of an action of a resource, as soon as there are this many."""
        found, at, since = [], 0, time.monotonic()
        while len(found) < count:
            with run.came:
                if len(run.lines) == at and not run.is_over:
                    run.came.wait(1)
                fresh, is_over = run.lines[at:], run.is_over
            at += len(fresh)
            found += [value for value in (helper.value_of(line) for _, line in fresh) if is_end(value, name, what)]
            late = time.monotonic() - since - seconds
            if len(found) < count and not fresh and (is_over or (late > 0 and late > helper.more_patience(seconds))):
                what = f"{len(found)} of {count} notices of {what} of {name} {'before the end' if is_over else f'within {seconds} s'}"
                self.fail(f"{what}; {run.state()}{self.seen()}")
        return found

    def done(self, run, name, what, seconds=PATIENCE, **more):
        """Sends an action, and returns its notice."""
        before = len([value for value in run.notices() if is_end(value, name, what)])
        run.send(helper.action(name, what, **more))
        return self.ends_of(run, name, what, before + 1, seconds)[before]

    def is_down(self, run, name="r1"):
        """The resource stays down after its stop: a probe says so, and nothing waits at the gate that would bring it up."""
        stop = self.done(run, name, "stop")
        self.assertEqual((stop["outcome"], stop["code"]), ("done", 0), self.seen())
        self.assertFalse(self.opens_gate(), f"a process of the start waits at the gate after the stop; {self.seen()}")
        probe = self.done(run, name, "monitor")
        self.assertEqual((probe["outcome"], probe["code"]), ("done", 7), self.seen())
        self.assertEqual(self.noted("service"), [], "the service never came up")
