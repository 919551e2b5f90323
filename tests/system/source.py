"""The Debian source package of this commit: lintian, if it is installed, finds nothing wrong with it, and the packages are built from it.
The compiler is simulated: its stand-in for `rt` copies the programs of this check. Without it the build names what is missing. It is
skipped without git or dpkg-dev."""
import os
import shutil
import subprocess
import tempfile
import unittest
from pathlib import Path

import helper
from helper import PROGRAM
from packages import output

AGENTS = os.environ.get("AGENTS") or os.path.join(helper.TOP, "crates/ocf_agents/out/ocf_agents")
GIT = ("git", "-C", helper.TOP)
# the path of a build, after the directory with `rt`
PATH = "/usr/sbin:/usr/bin:/sbin:/bin"
RT = """#!/bin/sh
case $PWD in
*/ocf_agents) program={agents} ;;
*) program={program} ;;
esac
install -D "$program" "out/${{PWD##*/}}"
"""
MISSING = "rt, the command of the Rattle kit, is missing"


def why_none() -> str:
    """Why no source package can be built here; empty if one can."""
    if not shutil.which("dpkg-buildpackage"):
        return "install the package dpkg-dev"
    shallow = subprocess.run([*GIT, "rev-parse", "--is-shallow-repository"], capture_output=True, text=True, check=False)
    if shallow.stdout.strip() != "false":
        return "it is no whole clone"
    if not os.access(AGENTS, os.X_OK):
        return "no agents are built"
    return "the package's files are not committed" if output(*GIT, "status", "--porcelain", "--", "package") else ""


def version_of(deb: Path) -> str:
    return output("dpkg-deb", "--field", str(deb), "Version")


NONE = why_none()


@helper.slow
@unittest.skipIf(NONE, NONE)
class Source(helper.Check):
    folder: Path
    dsc: str

    @classmethod
    def setUpClass(cls) -> None:
        """Builds the source package, and unpacks it."""
        cls.folder = Path(tempfile.mkdtemp())
        cls.addClassCleanup(shutil.rmtree, cls.folder, ignore_errors=True)
        cls.dsc = output(os.path.join(helper.TOP, "package/source.sh"), str(cls.folder))
        output("dpkg-source", "--extract", cls.dsc, str(cls.folder / "tree"))

    def setUp(self) -> None:
        super().setUp()
        os.mkdir(self.place("bin"))

    def builds(self) -> subprocess.CompletedProcess[str]:
        """A build of the packages, which begins anew, with the programs of this check before others."""
        return subprocess.run(["dpkg-buildpackage", "--no-sign", "--build=binary"], cwd=self.folder / "tree", stdin=subprocess.DEVNULL,
                              stdout=subprocess.PIPE, stderr=subprocess.STDOUT, text=True, check=False,
                              env={**os.environ, "PATH": f"{self.place('bin')}:{PATH}"})

    @unittest.skipUnless(shutil.which("lintian"), "install the package lintian")
    def test_lintian(self) -> None:
        """lintian finds nothing wrong with the source package"""
        self.assertEqual(output("lintian", "--allow-root", "--fail-on", "error,warning", self.dsc), "")

    def test_without(self) -> None:
        """a build without rt fails, and names what is missing"""
        done = self.builds()
        self.assertNotEqual(done.returncode, 0, "a build without rt fails")
        self.assertIn(MISSING, done.stdout)

    def test_built(self) -> None:
        """the packages are built from it, with its version and this commit, and have the programs that rt builds"""
        rt = Path(self.place("bin/rt"))
        rt.write_text(RT.format(agents=AGENTS, program=PROGRAM), encoding="utf-8")
        rt.chmod(0o755)
        done = self.builds()
        self.assertEqual(done.returncode, 0, done.stdout)
        [deb], [library] = self.folder.glob("ocfexec_*.deb"), self.folder.glob("python3-ocfexec_*_all.deb")
        [wanted] = [line.partition(": ")[2] for line in Path(self.dsc).read_text(encoding="utf-8").splitlines()
                    if line.startswith("Version: ")]
        self.assertEqual((version_of(deb), version_of(library)), (wanted, wanted))
        output("dpkg-deb", "--extract", str(deb), self.place("root"))
        self.assertEqual(output(self.place("root/usr/bin/ocfexec"), "--version"), output(PROGRAM, "--version"))
        gate = Path(self.place("root/usr/share/doc/ocfexec/README.gate")).read_text(encoding="utf-8")
        self.assertIn(f"source package of commit {output(*GIT, 'rev-parse', 'HEAD')}", gate)
