"""Tidies one journal again and again, with a change between each two, and kills `PROGRAM run` with signal 9 at random moments. Wanted after
each kill: the last acknowledged change is found, or one that was sent after it; everything that never changed is found as it was; a second
opening writes nothing. A session of four times the capacity of a part is answered without a refusal, since the program tidies by itself;
with `--tidy-at 0` it is refused as journal-full. While an agent runs the program does not tidy at its first mark: a timeout is reported in
time though each sync is slow, and the journal is tidied after it.
The environment may set ROUNDS and SEED."""
import os
import random
import subprocess
import time

import helper
from helper import PROGRAM, action

PAIRS = 1500
LARGE = {f"p{place:02}": chr(97 + place) * 1000 for place in range(15)}
OK, DONE, FULL = b'{"ok":true}', b'{"end":"done"}', b'{"error":"journal-full","number":14}'


def large(name):
    return {"op": "params", "id": name, "params": LARGE}


def change(number):
    return {"op": "params", "id": "count", "params": {"n": str(number)}}


@helper.slow
@helper.in_memory
class Tidies(helper.Check):
    def session(self, folder, commands, *options):
        # the replies of a whole session
        done = helper.run("run", "--journal", folder, *options, sent=helper.lines(*commands))
        self.assertEqual(done.returncode, 0, done.stderr)
        return done.stdout.splitlines()

    def written(self):
        with open(self.place("out"), "rb") as out:
            return out.read().split(b"\n")[:-1]

    def killed(self, journal, first):
        # sends changes and tidies by turns, kills the program at a random line or soon after it, and returns the replies
        with open(self.place("in"), "wb") as text:
            for number in range(first, first + PAIRS):
                text.write(helper.lines(change(number), {"op": "tidy"}))
        wanted, later = random.randrange(2 * PAIRS - 400), time.monotonic() + 60
        with open(self.place("in"), "rb") as text, open(self.place("out"), "wb") as out:
            running = subprocess.Popen([PROGRAM, "run", "--journal", journal], stdin=text, stdout=out)
            while len(self.written()) < wanted and time.monotonic() < later:
                time.sleep(0.005)
            time.sleep(random.uniform(0, 0.01))
            running.kill()
            running.wait()
        return self.written()

    def found(self, journal, first, number, accepted):
        # the change that is found after a kill
        shown, before = helper.shown(journal).splitlines(), helper.parts(journal)
        self.assertEqual((helper.shown(journal).splitlines(), helper.parts(journal)), (shown, before), "a second look")
        self.assertEqual(shown[1:3], first[1:3], "what never changed")
        found = int(helper.replies(shown[3] + b"\n")[0]["params"]["n"])
        last = number + accepted - 1
        self.assertTrue(last <= found < number + PAIRS or (accepted == 0 and found == number - 1), f"change {last}, not {found}")
        self.assertLessEqual(found, last + 1, "no change but the next one")
        return found

    def test_kills(self):
        """kills at random moments of tidies and changes"""
        random.seed(helper.number("SEED", 20261123))
        rounds, journal = helper.number("ROUNDS", 40), self.journal()
        self.session(journal, [helper.register("large", "Step", **LARGE), helper.register("count", "Step", n="-1")])
        first = helper.shown(journal).splitlines()
        number, tidies, changes = 0, 0, 0
        for _ in range(rounds):
            replies = self.killed(journal, number)
            self.assertTrue(all(reply == (DONE if place % 2 else OK) for place, reply in enumerate(replies)), "each accepted and done")
            accepted = (len(replies) + 1) // 2
            tidies, changes = tidies + len(replies) // 2, changes + accepted
            number = self.found(journal, first, number, accepted) + 1
        print(f"tidies: {tidies} tidies and {changes} changes, {rounds} kills", flush=True)

    def filled(self, *options):
        # how many commands of four times the capacity of a part were refused as journal-full
        folder = self.journal()
        replies = self.session(folder, [helper.register("large", "Step"), *[large("large")] * 2200], *options)
        refused = replies.count(FULL)
        self.assertEqual((len(replies), replies.count(OK) + refused), (2201, 2201), "a reply to each")
        for name in helper.PARTS:
            self.assertLessEqual(os.path.getsize(os.path.join(folder, name)), 8388608, "parts of 8 MiB at most")
        return refused

    def test_by_itself(self):
        """four times the capacity of a part is accepted, if the program tidies by itself"""
        self.assertEqual(self.filled(), 0)

    def test_not_by_itself(self):
        """and refused, if it does not"""
        self.assertGreater(self.filled("--tidy-at", "0"), 0)

    def past_half(self, names):
        # a journal of large resources whose tail is twice what a tidy leaves, and the length of its part
        journal = self.journal()
        registered = [helper.register(name, "Step", **LARGE) for name in names]
        self.session(journal, [*registered, *[large(name) for name in names]], "--tidy-at", "0")
        return journal, os.path.getsize(os.path.join(journal, "part-a"))

    def test_timeout(self):
        """a timeout of a second is reported in time past the first mark, with syncs of 5 milliseconds, and then the journal is tidied"""
        self.agent("Sleeper", '[ "$1" = start ] && exec sleep 30\nexit 0\n')
        names = [f"r{place}" for place in range(150)]
        journal, length = self.past_half(names)
        slow = {**os.environ, "LD_PRELOAD": helper.shim("../../bench/slow_sync.c", self.here)}
        words = ["--journal", journal, "--root", self.here, "--tidy-at", str(length + 40000)]
        run = self.started("serve", *words, env=slow)
        run.send(helper.register("late", "Sleeper"), action("late", "start", timeout=1000))
        began, _ = run.awaits(lambda value: value.get("key") == "late_start_0", 60)
        run.send(*[large(name) for name in names[:5]])
        at, notice = run.awaits(lambda value: helper.is_notice(value, id="late"), 60)
        self.assertEqual(notice["outcome"], "timed-out")
        self.took_less(2, at - began, "a timeout beside a tidy")
        self.assertGreater(os.path.getsize(os.path.join(journal, "part-a")), length + 40000, "past the first mark")
        self.eventually("a tidy once nothing runs", lambda: os.path.getsize(os.path.join(journal, "part-b")) >= 2000000)
        self.assertEqual(run.ends(60), 0)
