"""Journals that an executor holds: no other executor opens them, and they are shown while it is busy. When their files or directories are
replaced, renamed, removed, cut or covered, or grow, the executor acknowledges nothing more, and names the cause."""
import json
import os
import shutil
import subprocess
import threading
import time

import directories
import helper
from directories import ERROR_DISK, LIST, LISTED, START, TIDIED

IN_USE = "In use: only one executor at a time can hold a journal; show, status, log and metrics can read it meanwhile."
REPLACED, CUT, NOT_THERE = "replaced while in use", "cut or grown while in use", "No such file or directory (os error 2)"
# how often a busy journal is shown, and how many acknowledged commands there are before; of them three are registrations
SHOWS, ACKNOWLEDGED, REGISTERED = 50, 12, 3


class Held(directories.Directories):
    def test_one(self):
        """one executor at a time opens a journal, also by another path of its part, and the next one finds it as it was"""
        folder, other = self.registered(), self.journal("other")
        run = self.holding(folder)
        self.refused(folder, f"{folder}: in use by another executor", IN_USE)
        os.link(os.path.join(folder, "part-a"), os.path.join(other, "part-a"))
        directories.empty(os.path.join(other, "part-b"))
        self.refused(other, f"{other}/part-a: in use by another executor", IN_USE)
        self.lets_go(run)
        self.assertEqual(self.replied(folder, LIST), [LISTED])

    def test_replaced(self):
        """an executor whose part is replaced still holds the journal, and its next tidy fails"""
        folder = self.registered()
        run = self.holding(folder)
        shutil.copy(os.path.join(folder, "part-a"), self.place("copy"))
        os.replace(self.place("copy"), os.path.join(folder, "part-a"))
        self.refused(folder, f"{folder}: in use by another executor", IN_USE)
        self.loses(run, folder, REPLACED)

    def test_renamed(self):
        """an executor whose directory is renamed ends at its next tidy, and the directory holds what it held"""
        folder = self.registered()
        run = self.holding(folder)
        os.rename(folder, self.place("away"))
        self.loses(run, folder, NOT_THERE)
        self.assertEqual(self.replied(self.place("away"), LIST), [LISTED])

    def test_removed(self):
        """an executor whose directory is removed refuses the next command and ends"""
        folder = self.registered()
        run = self.holding(folder)
        shutil.rmtree(folder)
        self.loses(run, folder, NOT_THERE, START, ERROR_DISK)

    def test_swapped(self):
        """an executor whose directory has another in its place refuses the next command, and leaves that one as it is"""
        folder = self.registered()
        run = self.holding(folder)
        os.rename(folder, self.place("away"))
        self.registered()
        self.loses(run, folder, REPLACED, START, ERROR_DISK)
        self.assertEqual(self.replied(folder, START), ['{"call":1,"key":"r1_start_0","ok":true}'])

    def test_cut(self):
        """an executor whose part is emptied acknowledges nothing after that"""
        folder = self.registered()
        run = self.holding(folder)
        directories.empty(os.path.join(folder, "part-a"))
        self.loses(run, folder, CUT, START, ERROR_DISK)

    def test_grown(self):
        """an executor whose part grows acknowledges nothing after that, and the journal opens again"""
        folder = self.registered()
        run = self.holding(folder)
        with open(os.path.join(folder, "part-a"), "ab") as part:
            part.write(b"x")
        self.loses(run, folder, CUT, START, ERROR_DISK)
        self.assertEqual(self.replied(folder, LIST), [LISTED])

    def test_covered(self):
        """an executor whose directory is covered by a mount acknowledges nothing after that"""
        self.needs_mounts()
        folder = self.registered()
        # (as in a namespace of the user who made it, if this is not root's)
        enters = [] if os.geteuid() == 0 else ["--user", "--preserve-credentials"]
        run = self.holding(folder, *directories.APART)
        subprocess.run(["nsenter", "--target", str(run.run.pid), *enters, "--mount", "mount", "-t", "tmpfs", "none", folder], check=True)
        self.loses(run, folder, NOT_THERE, START, ERROR_DISK)


class Busy(directories.Directories):
    def feeds(self, run, is_enough):
        """Registers resources up to the limit, and sets the parameters of the last one and tidies again and again."""
        number = 0
        while not is_enough.is_set():
            commands = []
            if number < 256:
                number += 1
                commands.append(helper.register(f"r{number}", "Dummy", "pacemaker"))
            commands += [{"op": "params", "id": f"r{number}", "params": {"p": f"{value:0100}"}} for value in range(1, 5)]
            run.send(*commands, {"op": "tidy"})
            time.sleep(0.01)

    def shown(self, folder, least):
        """How many resources a journal shows, which are the first ones that were registered, and at least this many."""
        done = helper.run("show", "--journal", folder)
        self.assertEqual((done.returncode, done.stderr), (0, b""))
        first, *others = directories.texts(done)
        names = json.loads(first)["resources"]
        self.assertEqual(names, [f"r{number + 1}" for number in range(len(names))])
        self.assertEqual(len(others), 2 * len(names))
        self.assertGreaterEqual(len(names), least, "resources that an earlier show has or that were acknowledged")
        return len(names)

    def test_busy(self):
        """a show of a journal whose executor is busy has a prefix of what is registered, and not less than the one before"""
        folder, is_enough, last = self.journal(), threading.Event(), REGISTERED
        run = self.started("run", "--journal", folder, err=self.place("err"))
        feeder = threading.Thread(target=self.feeds, args=[run, is_enough])
        feeder.start()
        self.addCleanup(feeder.join)
        self.addCleanup(is_enough.set)
        self.eventually("acknowledged commands", lambda: directories.texts(run).count(directories.OK) >= ACKNOWLEDGED)
        for _ in range(SHOWS):
            last = self.shown(folder, last)
        self.assertIsNone(run.run.poll(), "the executor has ended")
        is_enough.set()
        feeder.join()
        self.assertEqual((run.ends(), os.path.getsize(self.place("err"))), (0, 0), run.state())
        found = directories.texts(run)
        self.assertEqual(set(found), {directories.OK, TIDIED})
        print(f"in_use: {SHOWS} shows of a busy journal: {last} resources in the last one, {found.count(TIDIED)} tidies")
