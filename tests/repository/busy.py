"""The bounds on time in the checks, tests/lib/helper.py, with a report of the machine's pressure in place of the system's. Wanted: on a
quiet machine each bound is kept to the letter; on one that is busy, or was for a moment, none fails a program that was only held back; and
where the system reports nothing, a busy machine is found by its load."""
import os
import unittest.mock

import helper


class Busy(helper.Check):
    def setUp(self):
        super().setUp()
        for what in (unittest.mock.patch.object(helper, "PRESSURE", self.here), unittest.mock.patch.object(helper, "waited_before", [1.0]),
                     unittest.mock.patch("time.sleep", self.passes), unittest.mock.patch("time.monotonic", lambda: self.now)):
            what.start()
            self.addCleanup(what.stop)
        self.now = 0.0
        self.reports(0, 1, 0)

    def passes(self, seconds):
        self.now += seconds

    def reports(self, share, processor, disk):
        """The share of the last ten seconds in which a process waited for a processor, and for how many seconds one has waited."""
        for name, total in (("cpu", processor), ("io", disk)):
            with open(self.place(name), "w", encoding="ascii") as report:
                report.write(f"some avg10={share * 100:.2f} avg60=0.00 avg300=0.00 total={round(total * 1e6)}\n"
                             "full avg10=0.00 avg60=0.00 avg300=0.00 total=0\n")

    def unreported(self, load):
        for name in ("cpu", "io"):
            os.remove(self.place(name))
        what = unittest.mock.patch("os.getloadavg", lambda: (load * len(os.sched_getaffinity(0)), 0, 0))
        what.start()
        self.addCleanup(what.stop)

    def fails(self, what, *words):
        with self.assertRaises(AssertionError):
            what(*words, "what is timed")

    def gives_up(self, seconds):
        """After how many seconds it is no longer waited for what never comes."""
        self.now = 0.0
        with self.assertRaises(AssertionError):
            self.eventually("never", lambda: False, seconds)
        return round(self.now)

    def test_quiet(self):
        """on a quiet machine, what took too long fails, what came too seldom, and what did not come in time"""
        self.took_less(1.5, 1.49, "what is timed")
        self.came_often(5, 5, "what is timed")
        self.reports(0.004, 1.03, 0.02)
        self.fails(self.took_less, 1.5, 1.6)
        self.fails(self.came_often, 5, 4)
        self.reports(0, 1, 0)
        self.assertEqual(self.gives_up(20), 20)

    def test_burst(self):
        """where processes waited since the test began, a bound is longer by as much, though no share shows it yet"""
        for processor, disk in ((5.8, 0), (1, 4.8), (3, 2.8)):
            self.reports(0, processor, disk)
            self.took_less(1.5, 4.888, "what is timed")
            self.fails(self.took_less, 1.5, 6.4)
            self.came_often(5, 0, "what is timed")
            self.assertEqual(self.gives_up(5), 10)

    def test_share(self):
        """where a process waits most of the time, a bound is as many times longer, and patience at most four times, and ten seconds"""
        self.reports(0.75, 1, 0)
        self.took_less(1.5, 5.9, "what is timed")
        self.fails(self.took_less, 1.5, 6.1)
        self.reports(0.99, 100, 0)
        self.assertEqual(self.gives_up(2), 18)

    def test_unreported(self):
        """where the system reports nothing, a machine with more running processes than processors may hold one back for ten seconds"""
        self.unreported(1.1)
        self.fails(self.took_less, 1.5, 1.7)
        self.fails(self.came_often, 5, 4)

    def test_unreported_busy(self):
        """and one with twice as many does"""
        self.unreported(2)
        self.took_less(1.5, 12.9, "what is timed")
        self.fails(self.took_less, 1.5, 13.1)
        self.came_often(5, 0, "what is timed")
