"""The cluster of examples/cluster, of three nodes over three members of etcd: through random kills, and without fencing. It runs in
namespaces of its own, if they are available, and NAMESPACES in the environment is not `no`.
The environment may set KILLS and SEED."""
import os
import shutil
import subprocess
import sys
import unittest

import helper
from helper import PROGRAM

MISSING = [name for name in ("etcd", "setpriv", "flock", "pgrep") if not shutil.which(name)]
# runs a command in namespaces, if they are available
WORLD = ("sh", "-c", '. "$0" && in_world "$@"', os.path.join(helper.TOP, "examples/cluster/world.sh"))
PLAYER = os.path.join(helper.TOP, "tests/lib/cluster_kills.py")


@helper.slow
@unittest.skipIf(MISSING, f"no {', '.join(MISSING)} here")
class Cluster(helper.Check):
    has_failed = False

    def plays(self, *words: str) -> None:
        """A part of cluster_kills.py, which ends well; the other one is not tried then."""
        if Cluster.has_failed:
            self.skipTest("another test of the cluster failed")
        done = subprocess.run([*WORLD, sys.executable, PLAYER, self.here, *words], stdin=subprocess.DEVNULL,
                              env={**os.environ, "PROGRAM": PROGRAM}, check=False)
        Cluster.has_failed = done.returncode != 0
        self.assertEqual(done.returncode, 0, f"cluster_kills.py {' '.join(words)}")

    def test_kills(self) -> None:
        """services through random kills"""
        self.plays("kills", str(helper.number("KILLS", 20)), str(helper.number("SEED", 20261124)))

    def test_without_fencing(self) -> None:
        """without fencing, nothing of a lost node is taken over"""
        self.plays("without-fencing")
