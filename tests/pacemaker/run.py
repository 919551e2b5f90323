"""Pacemaker over `PROGRAM serve` with a journal: the bridge of this directory takes the place of pacemaker-execd. Everything runs in
namespaces of its own and at the same time, each with a directory of its own. It needs root, and of Debian pacemaker, pacemaker-dev,
pacemaker-cli-utils, corosync, resource-agents, libqb-dev, pkg-config, python3-psutil, iproute2, procps and gcc; for the suite the source
package is fetched. A test whose needs are missing is skipped."""
import concurrent.futures
import os
import re
import subprocess
import unittest
from pathlib import Path

import bridge
import helper
from helper import PROGRAM

PYTHON = "/usr/bin/python3"
# the tests of the suite for other classes of agents than OCF, and for several at once
OUT_OF_SCOPE = re.compile(r"_lsb$|_service$|_stonith$|_systemd$|^stonith_|^get_lsb_|^get_stonith_|^multi_rsc_|^verify_agent_lists$")
NAME = re.compile(r"^ *([a-z_]*) - ", re.MULTILINE)
FAILURE = re.compile(r".*(?:FAILED|FAILURE).*")
# how many tests of the suite run at once, and how long one may take, and a script on a cluster, in seconds
AT_ONCE, TEST, SCRIPT = 8, 120, 240
SKIPPED = 77
REAL, BRIDGE = "real", "bridge"
PLACED = re.compile(r"^ \* web .*: Started n", re.MULTILINE)
FOUND = (r"in the end .* start: 0, in truth: up, .* Started n1", r"monitor operation for db on n1: ok")
INTERRUPTED = (r"The start of db was interrupted", r"start operation for db on n1: ok")
TIMED_OUT = (r"start operation for db on n1: Timed Out", r"stop operation for db on n1: ok",
             r"at second 9 .* start: 0, in truth: down, .* Stopped")
NONE = bridge.why_not("corosync", "crm_mon", "cibadmin", "ip", "pgrep")


@unittest.skipIf(NONE, NONE)
class Pacemaker(helper.Check):
    def setUp(self) -> None:
        super().setUp()
        bridge.build(self.here, "bridge")

    def run_in(self, name: str, limit: int, words: list[str], **variables: str) -> str:
        """The output of a command, which is ended after this many seconds, with a journal in a directory of this name."""
        folder = Path(self.place(name))
        (folder / "journal").mkdir(parents=True, exist_ok=True)
        served = f"{PROGRAM} serve --journal {folder}/journal --meta-variables --log {folder}/agents.log"
        done = subprocess.run(["timeout", str(limit), *words], stdin=subprocess.DEVNULL, stdout=subprocess.PIPE, stderr=subprocess.STDOUT,
                              env={**os.environ, "PROGRAM": PROGRAM, "OCFEXEC": served, **variables}, check=False)
        return done.stdout.decode(errors="replace")

    def side_by_side(self, name: str, cluster: str) -> tuple[str, str]:
        """The output of a script on a cluster, under pacemaker-execd, and under the bridge at the same time."""
        def under(executor: str) -> str:
            folder, place = f"{name}-{executor}", self.place(BRIDGE) if executor == BRIDGE else executor
            return self.run_in(folder, SCRIPT, [f"{bridge.FOLDER}/{cluster}", self.place(folder), place, f"{bridge.FOLDER}/{name}.script"])

        with concurrent.futures.ThreadPoolExecutor() as pool:
            real, ours = pool.map(under, (REAL, BRIDGE))
        print(f"{name}, under pacemaker-execd:\n{real}{name}, under the bridge:\n{ours}", end="")
        return real, ours

    def has(self, text: str, *patterns: str) -> None:
        """A text has a line of each of these patterns."""
        for pattern in patterns:
            self.assertRegex(text, pattern)

    def suite(self) -> tuple[str, str]:
        """Pacemaker's suite of its executor and the program that helps it, from the source package."""
        if not bridge.succeeds(PYTHON, "-c", "import psutil"):
            self.skipTest("install the package python3-psutil")
        os.mkdir(self.place("source"))
        done = subprocess.run([f"{bridge.FOLDER}/source.sh", self.place("source")], capture_output=True, text=True, check=False)
        if done.returncode == SKIPPED:
            self.skipTest(done.stderr.strip().rpartition("skipped: ")[2])
        self.assertEqual(done.returncode, 0, done.stderr)
        return self.place("source/cts-exec"), self.place("source/cts-exec-helper")

    def test_suite(self) -> None:
        """each OCF test of Pacemaker's own suite of its executor, cts-exec of its source package, passes"""
        suite, by = self.suite()
        alone = f"{bridge.FOLDER}/alone.sh"
        names = NAME.findall(self.run_in("list", TEST, [alone, self.place("list"), REAL, suite, "--list-tests"], HELPER=by))
        others = list(filter(OUT_OF_SCOPE.search, names))
        wanted = [name for name in names if name not in others]

        def failure(name: str) -> str:
            words = [alone, self.place(name), self.place(BRIDGE), suite, "--verbose", "--run-only", name]
            output = self.run_in(name, TEST, words, HELPER=by)
            return "" if f"\nSUCCESS - '{name}'" in f"\n{output}" else "\n".join([name, *FAILURE.findall(output)[:3]])

        with concurrent.futures.ThreadPoolExecutor(AT_ONCE) as pool:
            failed = list(filter(None, pool.map(failure, wanted)))
        print(f"suite: {len(wanted) - len(failed)} of {len(wanted)} OCF tests pass; out of scope: {' '.join(others)}")
        self.assertTrue(wanted, "the suite has tests of OCF agents")
        self.assertEqual(failed, [], "\n".join(failed))

    def test_two(self) -> None:
        """on two nodes all resources are placed as under pacemaker-execd, at creation, in standby and back"""
        real, ours = self.side_by_side("two", "two.sh")
        self.assertEqual(len(PLACED.findall(ours)), 3)
        self.assertEqual(ours, real)

    def test_slow(self) -> None:
        """of an executor that is killed amid a start the cluster finds the service started, and shows it as stopped only if it is down"""
        real, ours = self.side_by_side("slow", "one.sh")
        self.has(real, *FOUND)
        self.assertNotRegex(real, r"Result of (?:start|stop)")
        self.has(ours, *FOUND, *INTERRUPTED)
        self.assertNotRegex(ours, r"Result of stop")
        self.assertEqual([line for line in ours.splitlines() if "Stopped" in line and "start: 0, in truth: down," not in line], [])

    def test_timeout(self) -> None:
        """a start past its timeout is ended with the program that it waits for, so the service does not come up after the stop"""
        for text in self.side_by_side("timeout", "one.sh"):
            self.has(text, *TIMED_OUT)
