"""The blocks of README.md, at the top of the repository, in their order, as they would be pasted: each prints the block after it, except
for durations."""
import contextlib
import os
import subprocess
import sys

import helper

# the service of its first run
SERVICE = "/tmp/ocfexec-r1"


def remove_service():
    with contextlib.suppress(FileNotFoundError):
        os.remove(SERVICE)


@helper.alone
class Readme(helper.Check):
    def test_blocks(self):
        """each block of README.md prints the block after it, and what its demonstration made is removed"""
        for name in ("bin", "tmp"):
            os.mkdir(self.place(name))
        os.symlink(helper.PROGRAM, self.place("bin/ocfexec"))
        self.addCleanup(remove_service)
        done = subprocess.run([sys.executable, "tests/lib/guide.py", "README.md"], cwd=helper.TOP, stdin=subprocess.DEVNULL,
                              stdout=subprocess.PIPE, stderr=subprocess.STDOUT, text=True, timeout=helper.WHOLE,
                              env={**os.environ, "TMPDIR": self.place("tmp"), "PATH": f"{self.place('bin')}:{os.environ['PATH']}"})
        self.assertEqual(done.stdout, "3 blocks, 0 not as it says\n")
        left = [folder for folder, folders, files in os.walk(self.place("tmp")) if "root" in folders + files]
        self.assertEqual(left, [], "a directory that the demonstration left")
