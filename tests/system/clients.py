"""The shell client of examples/, with a resource of ocf_agents: what it prints, and how it ends; and a reader that sleeps."""
import itertools
import os
import subprocess
import time

import helper
from helper import PROGRAM

AGENTS = os.environ.get("AGENTS") or os.path.join(helper.TOP, "crates/ocf_agents/out/ocf_agents")
CLIENT = os.path.join(helper.TOP, "examples/client.sh")
# the ends of actions that the client prints, each once for those that are the same one after another
ENDS = [("start", "done", 0), ("monitor", "done", 0), ("stop", "done", 0)]
MONITORS = 3
# so many commands that their replies are longer than a pipe, and the commands are not
LIST, EMPTY, COUNT = b'{"op":"list"}\n', b'{"ok":true,"resources":[]}\n', 3000


class Clients(helper.Check):
    def test_shell(self) -> None:
        """the client of the shell starts a resource, monitors it three times at least, and stops it"""
        state = self.place("state")
        done = subprocess.run([CLIENT, "pacemaker", "Dummy", f"state={state}", PROGRAM, "serve", "--memory", "--via", AGENTS],
                              stdin=subprocess.DEVNULL, capture_output=True, timeout=helper.WHOLE, check=False)
        self.assertEqual((done.returncode, done.stderr), (0, b""))
        ends = [(value["action"], value["outcome"], value["code"]) for value in helper.replies(done.stdout) if helper.is_notice(value)]
        self.assertEqual([end for end, _ in itertools.groupby(ends)], ENDS)
        self.assertGreaterEqual(ends.count(ENDS[1]), MONITORS)
        self.assertFalse(os.path.exists(state), "the resource is stopped")

    def test_slow_reader(self) -> None:
        """a reader that sleeps loses nothing, though the replies are longer than a pipe"""
        with subprocess.Popen([PROGRAM, "run", "--memory"], stdin=subprocess.PIPE, stdout=subprocess.PIPE) as run:
            self.addCleanup(run.kill)
            run.stdin.write(LIST * COUNT)
            run.stdin.close()
            time.sleep(0.5)
            self.assertEqual(run.stdout.read(), EMPTY * COUNT)
        self.assertEqual(run.returncode, 0)
