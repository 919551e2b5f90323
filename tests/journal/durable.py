"""The cost of a recorded command besides its device calls. Commands go through `PROGRAM run --journal`, each sent after the reply to the
one before it, so that each is a record of its own; a C loop (durable.c) makes the same two writes and two syncs in the same directory, by
turns. Wanted on a quiet machine: at most 50 microseconds more than the loop and the two pipes. The check fails at ten times that, if it is
also twice the loop's time, so that it passes on a busy machine.
The environment may set COMMANDS and ROUNDS."""
import os
import shutil
import statistics
import subprocess
import time

import helper
from helper import PROGRAM

OK = b'{"ok":true}\n'
SOURCE = os.path.join(helper.TOP, "tests/journal/durable.c")


@helper.slow
@helper.alone
class Durable(helper.Check):
    def timed(self, work):
        """The microseconds that a piece of work takes."""
        began = time.monotonic()
        work()
        return (time.monotonic() - began) * 1e6

    def recorded(self, commands):
        """Has commands recorded one by one in a new journal; returns the microseconds of all of them."""
        journal, line = self.journal(), helper.lines({"op": "params", "id": "r1", "params": {"state": "12"}})
        with subprocess.Popen([PROGRAM, "run", "--journal", journal], stdin=subprocess.PIPE, stdout=subprocess.PIPE, bufsize=0) as run:
            self.assertEqual(self.asked(run, helper.lines(helper.register("r1", "None"))), OK)
            took = self.timed(lambda: self.assertEqual({self.asked(run, line) for _ in range(commands)}, {OK}))
            run.stdin.close()
            self.assertEqual(run.wait(60), 0, "its status")
        shutil.rmtree(journal)
        return took

    def asked(self, run, line):
        run.stdin.write(line)
        return run.stdout.read(100)

    def test_command(self):
        """the cost of a recorded command, compared with a loop in C"""
        if not shutil.which("cc"):
            self.skipTest("install a C compiler (apt-get install gcc)")
        subprocess.run(["cc", "-O2", "-o", self.place("loop"), SOURCE], check=True)
        commands, ours, floor = helper.number("COMMANDS", 200), [], []
        for _ in range(helper.number("ROUNDS", 7)):
            ours.append(self.recorded(commands) / commands)
            loop = [self.place("loop"), self.place("plain"), str(commands)]
            floor.append(self.timed(lambda words=loop: subprocess.run(words, check=True)) / commands)
        command, loop = statistics.median(ours), statistics.median(floor)
        print(f"durable: a recorded command: {command:.0f} microseconds; its two writes and two syncs by a C loop: {loop:.0f}")
        print(f"durable: ratio {command / loop:.2f}, {command - loop:.0f} microseconds more (at most 50 wanted)", flush=True)
        if command > 2 * loop:
            self.assertLessEqual(command - loop, 500 * helper.slowness(), "microseconds more than the loop")
