"""The first hour in one go, and once more: the Debian package is built and installed, each block of the guide is run and prints what the
guide says, twice, and the package is removed. It is installed into a directory of its own; with `/`, on this machine, as the guide says. If
no gate has passed on these programs there is no package: then the check uses the program as it was built, and with `/` it fails, as it
does if anything else is missing. Without a running systemd, and in a directory, tests/lib/systemctl.py plays it by the unit. It runs by
itself: one of the guide's commands waits for a process that lives for a moment."""
import contextlib
import os
import re
import shlex
import shutil
import signal
import socket
import subprocess
import sys

import helper
import packages
from helper import PROGRAM

ON_MACHINE = bool(os.environ.get("ON_MACHINE"))
LIB = os.path.join(helper.TOP, "tests/lib")
# what the guide needs, and the package that has it
NEEDED = {"/usr/lib/ocf/resource.d/heartbeat/nginx": "resource-agents", "/usr/sbin/nginx": "nginx", "curl": "curl", "pgrep": "procps"}
PORT = 8088
# the directories of this machine that the guide makes, and one more without systemd
MADE = ("/srv/hour", "/etc/ocfexec", "/var/lib/ocfexec", "/var/lib/ocfexec-client", "/var/log/ocfexec")
RUN = "/run/ocfexec"


def is_used(port: int) -> bool:
    """Whether something listens on a port of loopback."""
    with socket.socket() as asking:
        return asking.connect_ex(("127.0.0.1", port)) == 0


def why_not() -> str:
    """Why the guide cannot be tested here; empty if it can."""
    packages_missing = [name for path, name in NEEDED.items() if not shutil.which(path)]
    if packages_missing:
        return f"install the package {packages_missing[0]}"
    if os.geteuid() != 0:
        return "agents write to /run/resource-agents: run it as root"
    if is_used(PORT):
        return f"something listens on port {PORT} of loopback"
    if not ON_MACHINE:
        return ""
    there = [path for path in (shutil.which("ocfexec"), *MADE) if path and os.path.exists(path)]
    return f"{there[0]} is there already" if there else packages.why_none()


@helper.slow
@helper.alone
class Guide(helper.Check):
    def setUp(self) -> None:
        super().setUp()
        if reason := why_not():
            self.fail(reason) if ON_MACHINE else self.skipTest(reason)
        os.chmod(self.here, 0o755)
        self.root, self.hour = ("/", "/srv/hour") if ON_MACHINE else (self.place("root"), self.place("hour"))
        self.bin, self.libexec = os.path.join(self.root, "usr/bin"), os.path.join(self.root, "usr/libexec/ocfexec")
        self.unit = os.path.join(self.root, "lib/systemd/system/ocfexec.service")
        self.variables = {**packages.VARIABLES, "PATH": f"{self.place('bin')}:{self.bin}:{packages.VARIABLES['PATH']}"}
        self.is_installed = False
        for name in ("bin", "root", "hour", "systemd"):
            os.mkdir(self.place(name))
        self.addCleanup(self.end_all)

    def end_all(self) -> None:
        """Whatever fails, no service of the guide is left, and no package."""
        with contextlib.suppress(OSError, ValueError), open(os.path.join(self.hour, "nginx.pid"), encoding="ascii") as file:
            os.killpg(int(file.read()), signal.SIGKILL)
        if self.is_installed:
            packages.dpkg(self.root, "--purge", "ocfexec")
        for folder in (*MADE, RUN) if ON_MACHINE else ():
            shutil.rmtree(folder, ignore_errors=True)

    def install(self) -> None:
        """Builds the package and installs it."""
        deb = packages.build(self.here)
        if not ON_MACHINE:
            packages.new_root(self.root)
        self.is_installed = True
        packages.dpkg(self.root, "--install", deb)
        self.assertEqual(packages.output(os.path.join(self.bin, "ocfexec"), "--version"), packages.output(PROGRAM, "--version"))

    def remove(self) -> None:
        """Removes the package, of which no file stays."""
        packages.dpkg(self.root, "--purge", "ocfexec")
        self.is_installed = False
        left = [path for path in (os.path.join(self.bin, "ocfexec"), self.libexec) if os.path.lexists(path)]
        self.assertEqual(left, [], "what stays of the package")

    def link(self) -> None:
        """The program and the client as they were built, where the package has them."""
        os.makedirs(self.bin)
        os.makedirs(os.path.dirname(self.libexec))
        os.symlink(PROGRAM, os.path.join(self.bin, "ocfexec"))
        os.symlink(os.path.join(helper.TOP, "examples/ocfctl.py"), os.path.join(self.bin, "ocfctl"))
        os.symlink(os.path.join(helper.TOP, "examples"), self.libexec)
        self.unit = os.path.join(helper.TOP, "examples/ocfexec.service")

    def placed(self, path: str, name: str) -> str:
        """A copy of a file, with the paths of this check in place of those of a machine."""
        with open(path, encoding="utf-8") as file:
            text = file.read()
        changed = () if ON_MACHINE else (
            (r"/usr/(?:local/share/doc|libexec)/ocfexec/", f"{self.libexec}/"), (r"/usr/(?:local/)?bin/ocfexec", f"{self.bin}/ocfexec"),
            (r"/etc/ocfexec", f"{self.here}/etc/ocfexec"), (r"/var/(lib|log)/ocfexec", rf"{self.here}/var/\1/ocfexec"),
            (RUN, f"{self.here}/run"), (r"/srv/hour", self.hour))
        for pattern, here in changed:
            text = re.sub(pattern, here, text)
        with open(self.place(name), "w", encoding="utf-8") as file:
            file.write(text)
        return self.place(name)

    def play_systemd(self, unit: str) -> None:
        """Makes commands that play systemd's, and the directories that it would make for the unit."""
        top, run = ("", RUN) if ON_MACHINE else (self.here, self.place("run"))
        for folder in (f"{top}/var/lib/ocfexec", f"{top}/var/lib/ocfexec-client", f"{top}/var/log/ocfexec", run):
            os.makedirs(folder, 0o700, exist_ok=True)
        self.variables["OCFEXEC_SOCKET"] = f"{run}/control"
        for name, words in (("systemctl", ()), ("journalctl", ("journalctl",))):
            command = shlex.join([sys.executable, os.path.join(LIB, "systemctl.py"), unit, self.place("systemd"), *words])
            with open(self.place(f"bin/{name}"), "w", encoding="utf-8") as file:
                file.write(f'#!/bin/sh\nexec {command} "$@"\n')
            os.chmod(self.place(f"bin/{name}"), 0o755)

    def prints(self, guide: str) -> None:
        """Each command of the guide prints what the guide says."""
        done = subprocess.run([sys.executable, os.path.join(LIB, "guide.py"), guide], cwd=self.here, env=self.variables,
                              stdin=subprocess.DEVNULL, stdout=subprocess.PIPE, stderr=subprocess.STDOUT, text=True, check=False)
        self.assertEqual(done.returncode, 0, done.stdout)
        print(f"guide: {done.stdout.rstrip()}")

    def test_commands(self) -> None:
        """each command of the guide prints what the guide says, and once more, with the package if a gate has passed"""
        self.link() if packages.why_none() else self.install()
        guide = self.placed(os.path.join(helper.TOP, "docs/GUIDE.md"), "GUIDE.md")
        unit = self.placed(self.unit, "ocfexec.service")
        if not (ON_MACHINE and os.path.isdir("/run/systemd/system")):
            self.play_systemd(unit)
        for time in ("first", "second"):
            with self.subTest(f"for the {time} time"):
                self.prints(guide)
        if self.is_installed:
            self.remove()
