"""Opens journals of the first layout, written by a program that knew no other: tests/data/first-layout has their parts, and that program's
`show` of each. In `resting` no action runs; in `running` the program was killed while two agents ran and an action was queued. Wanted:
`show` prints the same, with the keys of the second layout, and writes nothing. An opening leaves the second layout in the other part, loses
nothing and reports interrupted and dropped actions. The next opening of a journal at rest writes nothing. After kills at random moments of
the migration, the journal is always shown the same.
The environment may set KILLS and SEED."""
import gzip
import json
import os
import random
import shutil
import subprocess
import time

import helper
from helper import PARTS, PROGRAM
from journal_format import head_of

DATA = os.path.join(helper.TOP, "tests/data/first-layout")


def stored(name, file):
    with gzip.open(f"{DATA}/{name}/{file}.gz") as text:
        return text.read()


def today(line):
    """The line that is shown for a line of the old program: no result has failed, and each monitor is expected to succeed."""
    shown = json.loads(line)
    if "recurring" in shown:
        shown["failed"] = None
        for monitor in shown["recurring"]:
            monitor["expect"] = 0
    return json.dumps(shown, separators=(",", ":"), sort_keys=True, ensure_ascii=False).encode() + b"\n"


def carried(name):
    """The expected output of show for a stored journal, once it is migrated."""
    return b"".join(today(line) for line in stored(name, "shown").splitlines())


def but_for(text, ids):
    """The output of show for all resources except these: the first line lists them, and each has two lines."""
    shown = text.splitlines()
    names = helper.value_of(shown[0])["resources"]
    return shown[:1] + [line for n, line in enumerate(shown[1:]) if names[n // 2] not in ids]


@helper.in_memory
class Layouts(helper.Check):
    def unpack(self, old):
        shutil.rmtree(self.place("journal"), ignore_errors=True)
        return self.journal_of("journal", *old)

    def opened(self, folder):
        done = subprocess.run([PROGRAM, "run", "--journal", folder, "--orphans", "0"], input=b"", capture_output=True)
        self.assertEqual(done.returncode, 0, done.stderr)
        return helper.replies(done.stdout)

    def goes_over(self, name, report, touched):
        old, text = [stored(name, part) for part in PARTS], carried(name)
        self.assertEqual([head_of(part)[0] for part in old], [1, 1])
        self.assertGreater(head_of(old[1])[1], head_of(old[0])[1])
        folder = self.unpack(old)
        self.assertEqual(helper.shown(folder), text, "what the old program showed")
        self.assertEqual(helper.parts(folder), old, "a show that writes nothing")
        reported = self.opened(folder)
        self.assertEqual([(line["id"], line["action"], line["outcome"]) for line in reported], report)
        new = helper.parts(folder)
        self.assertEqual(new[1], old[1])
        self.assertEqual(head_of(new[0]), (2, head_of(old[1])[1] + 1), "the second layout in the other part")
        self.assertEqual(but_for(helper.shown(folder), touched), but_for(text, touched), "the same, but for what was interrupted")
        self.assertEqual(self.opened(folder), [], "nothing to report again")
        if not report:
            self.assertEqual((helper.parts(folder), helper.shown(folder)), (new, text), "nothing written again")

    def test_resting(self):
        """a journal at rest migrates to the second layout"""
        self.goes_over("resting", [], [])

    def test_running(self):
        """a journal of a killed program migrates, and is reported"""
        report = [("r003", "start", "interrupted"), ("r007", "start", "interrupted"), ("r003", "stop", "dropped")]
        self.goes_over("running", report, ["r003", "r007"])

    def killed(self, old, text, most):
        # the layout of the journal after a kill at a random moment of its opening
        folder = self.unpack(old)
        with open(self.place("err"), "wb") as err:
            run = subprocess.Popen([PROGRAM, "run", "--journal", folder], stdin=subprocess.PIPE, stdout=err, stderr=err)
            time.sleep(random.uniform(0, most))
            run.kill()
            run.wait()
            run.stdin.close()
        self.assertEqual(helper.shown(folder), text, "what the old program showed, after a kill")
        found = helper.parts(folder)
        if found == old:
            return "before"
        return "after" if head_of(found[0]) == (2, head_of(old[1])[1] + 1) and found[0][0] == 1 else "amid"

    @helper.slow
    def test_kills(self):
        """kills at random moments of the migration"""
        random.seed(helper.number("SEED", 20261124))
        kills = helper.number("KILLS", 200)
        old, text = [stored("resting", part) for part in PARTS], carried("resting")
        folder = self.unpack(old)
        began = time.monotonic()
        self.opened(folder)
        most = 1.2 * (time.monotonic() - began)
        counts = {"before": 0, "amid": 0, "after": 0}
        for _ in range(kills):
            counts[self.killed(old, text, most)] += 1
        print("layouts: killed before, amid and after the way over:", counts)
        self.assertTrue(counts["before"] + counts["after"] < kills or kills < 50, "a kill amid the way over")
