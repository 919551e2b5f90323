"""Times the built program: `list` lines in and out in memory, and start to end on empty input. Each is the best of several rounds, since
other work of the machine only makes a round slower. Wanted on a quiet machine: at least 150,000 lines a second, under 5 milliseconds from
start to end. The check fails at a tenth of that, so that it passes on a busy machine, and at 8 MiB of resident memory.
The environment may set ROUNDS."""
import os
import signal
import subprocess
import time

import helper
from helper import PROGRAM

LINES, STARTS = 300000, 50
# signals that Python itself ignores, and the processes that it starts must not
IGNORED = [signal.SIGPIPE, signal.SIGXFSZ]


@helper.slow
@helper.alone
class Speed(helper.Check):
    def answered(self):
        """Has all lines answered; returns the seconds, the resident memory, and the milliseconds of processor time."""
        with open(self.place("replies"), "w+b") as out:
            run = subprocess.Popen([PROGRAM, "run", "--memory"], stdin=subprocess.PIPE, stdout=out)
            self.addCleanup(run.kill)
            began = time.monotonic()
            run.stdin.write(b'{"op":"list"}\n' * LINES)
            run.stdin.flush()
            # the rest is now in the pipe and the program's buffer
            memory, worked = helper.kib(run.pid, "VmHWM"), helper.processor_time(run.pid)
            run.stdin.close()
            status, took = run.wait(300), time.monotonic() - began
            out.seek(0)
            self.assertEqual((status, out.read().count(b"\n")), (0, LINES), "its status and how many replies")
        return took, memory, worked * 1000

    def test_lines(self):
        """the rate of questions, and their memory"""
        rounds = [self.answered() for _ in range(helper.number("ROUNDS", 5))]
        rate = round(LINES / min(took for took, _, _ in rounds))
        memory, worked = max(memory for _, memory, _ in rounds), min(worked for _, _, worked in rounds)
        print(f"speed: list lines a second: {rate} (at least 150000 wanted)")
        print(f"speed: processor time of {LINES} lines: {worked:.0f} milliseconds")
        print(f"speed: resident memory: at most {memory} KiB (under 8192 wanted)", flush=True)
        self.assertGreaterEqual(rate, 15000 / helper.slowness(), "lines a second")
        self.assertLess(memory, 8192, "KiB of resident memory")

    def test_starts(self):
        """the time from start to end, on empty input"""
        best, nothing = 1.0, [(os.POSIX_SPAWN_OPEN, fd, os.devnull, os.O_RDWR, 0) for fd in (0, 1)]
        for _ in range(helper.number("ROUNDS", 5)):
            began = time.monotonic()
            for _ in range(STARTS):
                pid = os.posix_spawn(PROGRAM, [PROGRAM, "run", "--memory"], os.environ, file_actions=nothing, setsigdef=IGNORED)
                self.assertEqual(os.waitpid(pid, 0)[1], 0, "its status")
            best = min(best, (time.monotonic() - began) / STARTS)
        print(f"speed: start to end on empty input: {best * 1e6:.0f} microseconds (under 5000 wanted)", flush=True)
        self.assertLess(best, 0.05 * helper.slowness(), "seconds from start to end")
