"""The units of examples/, and the guide with the package, under a running systemd. systemd-nspawn boots the tree of this machine in a
container with a network of its own; its writes are kept in memory, and vanish with it. Nothing runs in it except what tests/lib/booted.py
starts: there each test of a service has its method of the same name, and here its sentence. Without root or the package
systemd-container, or if no container boots, they are skipped, with the reason."""
import os
import re
import shutil
import subprocess
import sys
import tempfile
import textwrap
import unittest
from pathlib import Path

import helper
from helper import PROGRAM

TARGET = """[Unit]
Requires=basic.target check.service
AllowIsolate=yes
"""
# (the python3 of PATH may be a script that looks for one)
SERVICE = """[Unit]
After=basic.target
[Service]
Type=oneshot
Environment=PYTHONDONTWRITEBYTECODE=1
StandardOutput=append:/check/output
StandardError=inherit
ExecStart={python} /top/tests/lib/one_by_one.py --program /check/ocfexec /top/tests/lib/booted.py
ExecStopPost=/bin/sh /check/after
"""
# the last step: a shutdown while a resource runs
AFTER = """echo "$EXIT_STATUS" > /check/status
: > /check/calls
mkdir -p /etc/ocfexec
cp /check/last.json /etc/ocfexec/resources.json && systemctl start ocfexec
systemctl --no-block poweroff
"""
# the tree of this machine, mounted for the container alone, since an overlay is made over it; systemd-nspawn wants a tmpfs at /run
BOOT = """mount --bind / "$0" && { [ "$(findmnt --noheadings --output FSTYPE /run)" = tmpfs ] || mount -t tmpfs tmpfs /run; } &&
exec systemd-nspawn --directory "$0" "$@"
"""
CONTAINER = ("--quiet", "--volatile=overlay", "--boot", "--private-network", "--register=no", "--keep-unit", "--console=pipe")
UNITS = ("check.target", "check.service")
# how long a container may run, and how long it has to end then, in seconds
LONGEST, GRACE = 280, 15
RESULT = re.compile(r"^(ok|failed|skipped) +[0-9.]+ s  tests/lib/booted\.py: [\w.]+\.(test_\w+)(?:: (.*))?$", re.MULTILINE)


@helper.slow
@unittest.skipUnless(os.geteuid() == 0, "a container wants root")
@unittest.skipUnless(shutil.which("systemd-nspawn"), "install the package systemd-container")
class Booted(helper.Check):
    shared: Path
    status: int
    output: str

    @classmethod
    def setUpClass(cls) -> None:
        """Boots the container, which ends by itself."""
        cls.shared = Path(tempfile.mkdtemp())
        cls.addClassCleanup(shutil.rmtree, cls.shared, ignore_errors=True)
        shutil.copy(PROGRAM, cls.shared / "ocfexec")
        (cls.shared / "root").mkdir()
        for name, text in zip((*UNITS, "after"), (TARGET, SERVICE.format(python=sys.executable), AFTER)):
            (cls.shared / name).write_text(text, encoding="utf-8")
        binds = [f"--bind={cls.shared}:/check", f"--bind-ro={helper.TOP}:/top",
                 *(f"--bind-ro={cls.shared}/{name}:/etc/systemd/system/{name}" for name in UNITS)]
        done = subprocess.run(["timeout", f"--kill-after={GRACE}", str(LONGEST), "unshare", "--mount", "sh", "-c", BOOT,
                               cls.shared / "root", *CONTAINER, *binds, "systemd.unit=check.target", "systemd.show_status=0"],
                              stdin=subprocess.DEVNULL, stdout=subprocess.PIPE, stderr=subprocess.STDOUT, text=True, check=False)
        cls.status, cls.output = done.returncode, done.stdout

    def setUp(self) -> None:
        super().setUp()
        if not (self.shared / "output").exists():
            self.skipTest(f"no container boots here: {' '.join(self.output.splitlines()[-3:])}")

    def passes_there(self) -> None:
        """The method of this test passed in the container."""
        output = (self.shared / "output").read_text(encoding="utf-8")
        found = {name: (word, why) for word, name, why in RESULT.findall(output)}
        word, why = found.get(self._testMethodName, ("failed", ""))
        if word == "skipped":
            self.skipTest(why)
        self.assertEqual(word, "ok", textwrap.indent(output, "  "))

    def test_guide(self) -> None:
        """the guide's commands with the package, by systemctl and journalctl themselves"""
        self.passes_there()

    def test_removed(self) -> None:
        """an upgrade of the package, and its removal, leave services running, and the removal says so"""
        self.passes_there()

    def test_changes(self) -> None:
        """without a file it is up and does nothing; its file names a Dummy, then nginx, which runs through a restart, kills and a stop"""
        self.passes_there()

    def test_person(self) -> None:
        """a wrong file and a damaged journal fail it once, with that status"""
        self.passes_there()

    def test_by_hand(self) -> None:
        """a stop by hand holds over a restart, and the status says so; errors alone have the priority err, and no line is JSON"""
        self.passes_there()

    def test_scope(self) -> None:
        """by with-scope.sh a service runs in a scope of its own, and goes on when the unit has ended"""
        self.passes_there()

    def test_ends(self) -> None:
        """the container ends well, and so do the tests in it"""
        self.assertEqual((self.status, (self.shared / "status").read_text(encoding="ascii")), (0, "0\n"), self.output)

    def test_shutdown(self) -> None:
        """a shutdown stops what the unit keeps"""
        calls = (self.shared / "calls").read_text(encoding="ascii").split()
        self.assertEqual(calls[-1:], ["stop"])
