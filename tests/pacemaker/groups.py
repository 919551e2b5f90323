"""What an agent does to its own process group, as `kill 0`, under pacemaker-execd and under the bridge over `PROGRAM serve` with a journal,
through Pacemaker's client library. Wanted: under both that monitor alone ends or passes its timeout, with the same result, and a start of
another resource that runs beside it begins once and succeeds. It has the needs of rate.sh; without them it is skipped. TMPDIR must not be
below /run or /dev/shm, which the namespaces have of their own."""
import concurrent.futures
import contextlib
import os
import re
import shutil
import subprocess
import tempfile
import unittest
from pathlib import Path

import bridge
import helper
from helper import PROGRAM

ACTS = '[ "$1" != monitor ] || eval "$OCF_RESKEY_acts"\n'
WAITS = """[ "$1" = start ] || exit 7
echo begun >> "$OCF_RESKEY_in/begun"
until [ -e "$OCF_RESKEY_in/go" ]; do sleep 0.1; done
"""
# in the namespaces: the executor, and the program that asks it, which ends with 2 as long as it is not there
INSIDE = """mount --bind "$1/ocf" /usr/lib/ocf
PCMK_logfile=none pacemaker-execd > /dev/null 2>&1 &
for _ in $(seq 300); do
    status=0
    "$1/groups" test "$2" "$3" "$4" > "$4/results" 2> "$4/err" || status=$?
    [ "$status" -eq 2 ] || break
    sleep 0.1
done
exit "$status"
"""
# what there has to be once under each, besides the end of the monitor
ONCE = ("begun", "neighbour start: status 0, code 0", "the executor answers")
FAILED = re.compile(r"acts monitor: status [1-9]")
# how long all may take, in seconds, and the timeouts of a monitor, in milliseconds
LONGEST, LONG, SHORT = 240, 20_000, 2000
NONE = bridge.why_not("ip")


@unittest.skipIf(NONE, NONE)
class Groups(helper.Check):
    built: str

    @classmethod
    def setUpClass(cls) -> None:
        """Builds the programs, and makes the agents."""
        cls.built = tempfile.mkdtemp()
        cls.addClassCleanup(shutil.rmtree, cls.built, ignore_errors=True)
        bridge.build(cls.built, "bridge", "groups")
        os.chmod(cls.built, 0o755)
        agents = Path(cls.built, "ocf/resource.d/test")
        agents.mkdir(parents=True)
        for name, text in (("Acts", ACTS), ("Waits", WAITS)):
            (agents / name).write_text(f"#!/bin/sh\n{text}", encoding="utf-8")
            (agents / name).chmod(0o755)

    def results_under(self, executor: str, acts: str, timeout: int) -> list[str]:
        """What comes of a monitor and of the start beside it, under one of the two. They are in a session of their own: so what is done to
        the group of an executor is not done to this check."""
        os.chmod(self.here, 0o755)
        folder = Path(self.place(executor))
        for name in ("journal", "alone"):
            (folder / name).mkdir(parents=True)
        words = [f"{bridge.FOLDER}/alone.sh", folder / "alone", executor if executor == "real" else f"{self.built}/bridge",
                 "sh", "-c", INSIDE, "inside", self.built, acts, str(timeout), folder]
        variables = {**os.environ, "OCFEXEC": f"{PROGRAM} serve --journal {folder}/journal --meta-variables"}
        with open(folder / "out", "wb") as out:
            run = subprocess.Popen(words, stdin=subprocess.DEVNULL, stdout=out, stderr=out, env=variables, start_new_session=True)
        # (nothing in that session is left to end it, if all of it was stopped)
        with contextlib.suppress(subprocess.TimeoutExpired):
            run.wait(LONGEST)
        run.kill()
        ended = [] if run.wait() == 0 else [f"ended with status {run.returncode}", (folder / "out").read_text(errors="replace")]
        files = [path for path in (folder / "begun", folder / "results") if path.exists()]
        return sorted(line for path in files for line in path.read_text(errors="replace").splitlines()) + ended

    def acts_alike(self, acts: str, timeout: int = LONG) -> None:
        """An agent's monitor that does this ends alone, and in the same way under both."""
        with concurrent.futures.ThreadPoolExecutor() as pool:
            real, ours = pool.map(lambda executor: self.results_under(executor, acts, timeout), ("real", "ours"))
        for found in (real, ours):
            self.assertEqual([found.count(line) for line in ONCE], [1] * len(ONCE), found)
            self.assertEqual(len([line for line in found if FAILED.match(line)]), 1, found)
        self.assertEqual(ours, real)

    def test_term(self) -> None:
        """an agent that sends SIGTERM to its group ends alone"""
        self.acts_alike("kill 0")

    def test_kill(self) -> None:
        """an agent that sends SIGKILL to its group ends alone"""
        self.acts_alike("kill -9 0")

    def test_stop(self) -> None:
        """an agent that stops its group is past its timeout alone"""
        self.acts_alike("kill -STOP 0; :", SHORT)

    def test_exit(self) -> None:
        """an agent that sends SIGTERM to its group when it exits ends alone"""
        self.acts_alike("trap 'kill 0' EXIT; exit 0")
