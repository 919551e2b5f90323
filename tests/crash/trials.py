"""The tests of the trials, tests/trials: each call that allocates is refused, with nothing changed, in heaps of growing size until there is
enough for it; what agent processes request of a simulated system when they are killed or outlive that, and what becomes of them where any
one of its calls is refused, once or from then on; what a crash or a fault in each device call of an opening leaves, with each fill of
unsynced bytes; and sessions over simulated readers and writers."""
import os
import subprocess

import helper


@helper.needs("trials")
class Trials(helper.Check):
    def says(self, name, plain=False):
        """The tests of this name print the expected output, each of them, with AddressSanitizer or without."""
        done = subprocess.run([helper.trials(plain), name], stdin=subprocess.DEVNULL, capture_output=True, text=True, timeout=300)
        self.assertEqual((done.returncode, done.stderr), (0, ""))
        with open(os.path.join(helper.TOP, "tests/trials", name + ".stdout"), encoding="ascii") as file:
            self.assertEqual(done.stdout.splitlines(), file.read().splitlines())

    def test_memory(self):
        """each call that allocates memory, in heaps of growing size"""
        self.says("memory")

    def test_children(self):
        """the requests of agent processes to a simulated system, which may refuse each of its calls"""
        self.says("children")

    def test_disks(self):
        """disks in memory, and openings in which each device call crashes or fails, also calls for lengths and reads"""
        self.says("disks")

    def test_ends(self):
        """simulated readers, writers and clocks: a byte at a time, a full or a closed output, half a line, many lines, no time"""
        self.says("ends")

    def test_many(self):
        """a million lines that are there at once, for run and for serve"""
        self.says("many", plain=True)
