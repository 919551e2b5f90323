"""Clients that keep one service running: that of examples/, keep-one in Go, and one of less than a hundred lines without a library. What
ever happens to the executor or to its journal, a service that has stopped is up again within its interval and ten seconds, and SIGTERM
stops it and ends the client."""
import json
import os
import shutil
import signal
import subprocess
import sys
import time
import unittest

import helper
from helper import PROGRAM, action, register

EXAMPLES, PLAIN, GO = os.path.join(helper.TOP, "examples"), os.path.join(helper.TOP, "tests/lib/plain_client.py"), shutil.which("go")
INTERVAL, SOON, PATIENCE = 0.2, 10, 5  # in seconds
# an agent whose service is a file
AGENT = """state=$OCF_RESKEY_state
echo "$1" >> "$state.calls"
case $1 in
start) : > "$state" ;;
stop) rm -f "$state" ;;
monitor) [ -e "$state" ] || exit 7 ;;
esac
"""


class Keeper:
    """A running client, and the service that it keeps."""

    def __init__(self, folder, words, journal):
        self.folder, self.state, self.journal = folder, os.path.join(folder, "state"), journal
        with open(os.path.join(folder, "err"), "wb") as err:
            self.run = subprocess.Popen(words, stdin=subprocess.DEVNULL, stdout=subprocess.DEVNULL, stderr=err)

    def executor(self):
        """The process number of its executor; none while there is none."""
        tasks = f"/proc/{self.run.pid}/task"
        for task in os.listdir(tasks):
            with open(f"{tasks}/{task}/children", encoding="ascii") as file:
                for pid in map(int, file.read().split()):
                    if helper.is_alive(pid):
                        return pid
        return None

    def monitors(self):
        """How often the service was monitored."""
        if not os.path.exists(f"{self.state}.calls"):
            return 0
        with open(f"{self.state}.calls", encoding="ascii") as file:
            return file.read().split().count("monitor")

    def is_up(self):
        return os.path.exists(self.state)

    def error_text(self):
        with open(os.path.join(self.folder, "err"), encoding="utf-8") as file:
            return f"{os.path.basename(self.folder)} said:\n{file.read()[-2000:]}"

    def gone(self):
        self.run.kill()
        self.run.wait()


@helper.in_memory
class Keepers(helper.Check):
    def setUp(self):
        super().setUp()
        self.agent("Dummy", AGENT)

    def words(self, name, folder, *serve):
        """The command line of a client."""
        state, ending = f"state={folder}/state", [PROGRAM, "serve", *serve, "--root", self.here]
        if name == "client":
            with open(f"{folder}/resources.json", "w", encoding="ascii") as file:
                json.dump({"resources": {"a": {"provider": "test", "type": "Dummy", "params": {"state": f"{folder}/state"},
                                               "interval": int(INTERVAL * 1000)}}}, file)
            return [f"{EXAMPLES}/client.py", "--patience", str(PATIENCE), "--file", f"{folder}/resources.json", *ending]
        if name == "plain":
            return [sys.executable, PLAIN, "a", "test", "Dummy", str(int(INTERVAL * 1000)), state, *ending]
        return [self.place("keep-one"), f"-interval={INTERVAL}s", f"-patience={PATIENCE}s", "a", "test:Dummy", state, "--", *ending]

    def keepers(self, *serve):
        """The three clients, or two where Go is not there, whose services are up and monitored."""
        names = ["client", "plain"]
        if GO:
            more = {"GOPROXY": "off", "GOTOOLCHAIN": "local", "CGO_ENABLED": "0", **({} if os.environ.get("HOME") else {"HOME": self.here})}
            subprocess.run([GO, "build", "-o", self.place("keep-one"), "./cmd/keep-one"], cwd=f"{EXAMPLES}/go", check=True,
                           env={**os.environ, **more})
            names.append("go")
        found = []
        for name in names:
            os.mkdir(self.place(name))
            journal = [] if serve else ["--journal", self.journal(f"{name}/journal")]
            found.append(Keeper(self.place(name), self.words(name, self.place(name), *(serve or journal)), self.place(f"{name}/journal")))
            self.addCleanup(found[-1].gone)
        for keeper in found:
            self.waits(keeper, "monitors", lambda one=keeper: one.monitors() > 3)
        return found

    def waits(self, keeper, what, holds, seconds=helper.PATIENCE):
        until = time.monotonic() + seconds
        while not (found := holds()):
            if time.monotonic() > until + helper.more_patience(seconds):
                self.fail(f"no {what} within {seconds} s; {keeper.error_text()}")
            time.sleep(0.01)
        return found

    def comes_up(self, keeper, seconds=SOON):
        """The service is up again in time, and is monitored."""
        began = time.monotonic()
        self.waits(keeper, "service", keeper.is_up, INTERVAL + seconds)
        self.took_less(INTERVAL + seconds, time.monotonic() - began, f"a service that is down; {keeper.error_text()}")
        monitors = keeper.monitors()
        self.waits(keeper, "monitor", lambda: keeper.monitors() > monitors)

    def ends(self, keepers):
        """SIGTERM stops each service, and ends its client with status 0."""
        for keeper in keepers:
            keeper.run.send_signal(signal.SIGTERM)
        for keeper in keepers:
            self.assertEqual((keeper.run.wait(helper.WHOLE), keeper.is_up()), (0, False), keeper.error_text())

    def stopped(self, keeper):
        """Stops the client for a moment, and kills its executor."""
        keeper.run.send_signal(signal.SIGSTOP)
        pid = keeper.executor()
        os.kill(pid, signal.SIGKILL)
        self.eventually("its end", lambda: not helper.is_alive(pid))

    def renews(self, keepers, change, what):
        """The service stops, the executor is killed, and the journal is changed before the client starts another one; the client of
        examples says so."""
        for keeper in keepers:
            self.stopped(keeper)
            change(keeper.journal)
            os.remove(keeper.state)
            keeper.run.send_signal(signal.SIGCONT)
            self.comes_up(keeper)
            os.remove(keeper.state)
            self.comes_up(keeper)
        self.ends(keepers)
        self.assertIn(f"client: {what}", keepers[0].error_text())

    def test_killed(self):
        """kills of the executor, between which the service stops"""
        keepers = self.keepers()
        for _ in range(3):
            for keeper in keepers:
                pid = self.waits(keeper, "executor", keeper.executor)
                os.kill(pid, signal.SIGKILL)
                os.remove(keeper.state)
                self.comes_up(keeper)
        self.ends(keepers)

    def test_silent(self):
        """an executor that does not answer, as on a dead device, is killed, and the journal is opened again"""
        keepers = self.keepers()
        for keeper in keepers:
            os.kill(keeper.executor(), signal.SIGSTOP)
            os.remove(keeper.state)
        for keeper in keepers:
            self.comes_up(keeper, 2 * PATIENCE + SOON)
        self.ends(keepers)

    def test_memory(self):
        """serve --memory, which begins with each executor anew"""
        self.renews(self.keepers("--memory"), lambda journal: None, "the program keeps no journal")

    def test_emptied(self):
        """a journal that was emptied"""
        def empty(journal):
            shutil.rmtree(journal)
            os.mkdir(journal)
        self.renews(self.keepers(), empty, "the journal is another one, ")

    def test_replaced(self):
        """a journal in whose place is another one, with other numbers"""
        other = self.journal("other")
        commands = [register("b", "Dummy", state=self.place("b")), *[action("b", what) for what in 10 * ("start", "stop")], {"op": "drain"}]
        self.assertEqual(helper.run("run", "--journal", other, "--root", self.here, sent=helper.lines(*commands)).returncode, 0)

        def replace(journal):
            shutil.rmtree(journal)
            shutil.copytree(other, journal)
        self.renews(self.keepers(), replace, "the journal is another one, ")

    def test_restored(self):
        """a journal that was restored from an older copy, since which there were only monitors"""
        self.restores(self.keepers(), is_commanded=False)

    def test_restored_more(self):
        """a journal that was restored from an older copy, since which there were commands"""
        self.restores(self.keepers(), is_commanded=True)

    def restores(self, keepers, is_commanded):
        for keeper in keepers:
            executor = keeper.executor()
            os.kill(executor, signal.SIGSTOP)
            shutil.copytree(keeper.journal, f"{keeper.journal}.old")
            os.kill(executor, signal.SIGCONT)
        for keeper in keepers if is_commanded else ():
            os.remove(keeper.state)
            self.comes_up(keeper)
        monitors = [keeper.monitors() for keeper in keepers]
        for keeper, before in zip(keepers, monitors):
            self.waits(keeper, "monitors", lambda one=keeper, count=before: one.monitors() > count + 20)

        def restore(journal):
            shutil.rmtree(journal)
            shutil.copytree(f"{journal}.old", journal)
        self.renews(keepers, restore, f"the journal is an older copy: {'its next call is ' if is_commanded else ''}")

    @unittest.skipUnless(GO, "install the package golang-go")
    def test_no_program(self):
        """a program that is missing ends keep-one with an error that names it"""
        words = ["run", "./cmd/keep-one", "a", "test:Dummy", "--", self.place("none")]
        done = subprocess.run([GO, *words], cwd=f"{EXAMPLES}/go", capture_output=True, text=True, env={"HOME": self.here, **os.environ})
        self.assertEqual(done.stderr.splitlines()[0], f"keep-one: fork/exec {self.place('none')}: no such file or directory")
