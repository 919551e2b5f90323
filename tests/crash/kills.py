"""Kills `PROGRAM run` with signal 9 at random moments of a session whose agents are scripts, again and again on one journal. Wanted after
each kill: everything acknowledged and reported is found; running actions are reported as interrupted, and queued ones as dropped; a second
opening reports nothing and writes nothing. The same holds for a copy of the journal's directory, made just before the kill. Wanted at the
end: no agent ran without a begin in the journal, and none ran twice.
The environment may set ROUNDS, at most 16, and SEED."""
import random
import shutil
import subprocess
import time

import helper
from helper import PROGRAM

AGENTS = 16


class Kills(helper.Check):
    def command(self, folder):
        return [PROGRAM, "run", "--journal", folder, "--root", self.here]

    def session(self, number):
        # each resource runs one action, so that its history shows the end of that action
        commands = []
        for place in range(AGENTS):
            name = f"r{number}-{place}"
            params = {"log": self.place("log"), "time": random.choice(["0", "0.01", "0.1", "1"])}
            commands += [helper.register(name, "Step", **params), helper.action(name, "start", timeout=5000)]
        return helper.lines(*commands, {"op": "drain"})

    def written(self):
        with open(self.place("out"), "rb") as out:
            return out.read().split(b"\n")[:-1]

    def killed(self, number):
        # the output of the program before its directory was copied, and before it was killed, which is at a random line or later
        with open(self.place("in"), "wb") as text:
            text.write(self.session(number))
        wanted, later = random.randrange(3 * AGENTS), time.monotonic() + 30
        with open(self.place("in"), "rb") as text, open(self.place("out"), "wb") as out:
            running = subprocess.Popen(self.command(self.place("journal")), stdin=text, stdout=out)
            while len(self.written()) < wanted and time.monotonic() < later:
                time.sleep(0.001)
            time.sleep(random.choice([0, random.uniform(0, 0.05)]))
            before = len(self.written())
            shutil.copytree(self.place("journal"), self.place("copy"))
            running.kill()
            running.wait()
        with open(self.place("out"), "rb") as out:
            replies = helper.replies(out.read())
        return replies[:before], replies

    def opened(self, folder):
        # the report of an opening
        done = subprocess.run(self.command(folder), stdin=subprocess.DEVNULL, capture_output=True, timeout=60)
        said = helper.HOLDS.sub("", done.stderr.decode())
        self.assertEqual((done.returncode, said), (0, ""), "an opening that ends well")
        return helper.replies(done.stdout)

    def found(self, folder, acknowledged, reported):
        # everything acknowledged and reported is found
        results = helper.results(folder)
        for name, call in acknowledged.items():
            self.assertIn(name, results, "a resource that was registered")
            if call is not None:
                self.assertEqual([end["call"] for end in results[name]], [call], name)
        for notice in reported:
            end = results[notice["id"]][0]
            self.assertEqual((end["call"], end["outcome"]), (notice["call"], notice["outcome"]), "a result that was reported")

    def kept(self, number, replies, acknowledged, reported, folder):
        # checks that a journal after a crash holds what these replies acknowledged and reported, and the earlier ones; returns both
        answers = [reply for reply in replies if "ok" in reply]
        notices = [reply for reply in replies if helper.is_notice(reply)]
        self.assertIn(len(replies) - len(answers) - len(notices), (0, 1), "replies and notices alone, and an end")
        acknowledged = dict(acknowledged)
        for place, answer in enumerate(answers):
            name = f"r{number}-{place // 2}"
            acknowledged[name] = answer.get("call", acknowledged.get(name))
        report = self.opened(folder)
        before = helper.parts(folder)
        self.assertEqual((self.opened(folder), helper.parts(folder)), ([], before), "a second opening")
        self.assertLessEqual({notice["outcome"] for notice in report}, {"interrupted", "dropped"})
        reported = reported + notices + report
        self.found(folder, acknowledged, reported)
        return acknowledged, reported

    def ran(self):
        # no agent ran twice, or unknown to the journal
        time.sleep(1.5)
        with open(self.place("log"), encoding="ascii") as log:
            ran = log.read().split()
        self.assertEqual(len(ran), len(set(ran)), "no agent that ran twice")
        results = helper.results(self.place("journal"))
        for name in ran:
            self.assertTrue(results[name] and results[name][0]["outcome"] in ("done", "interrupted"), f"the begin of {name}")
        return ran, [end["outcome"] for ends in results.values() for end in ends]

    def test_kills(self):
        """nothing is lost or doubled after kills at random moments"""
        random.seed(helper.number("SEED", 20261123))
        rounds = helper.number("ROUNDS", 12)
        self.agent("Step", 'echo "$OCF_RESOURCE_INSTANCE" >> "$OCF_RESKEY_log"\nsleep "$OCF_RESKEY_time"\n')
        journal = self.journal()
        # (a copy that is made while the journal is could have marks of what is not in it)
        self.opened(journal)
        acknowledged, reported = {}, []
        for number in range(rounds):
            early, replies = self.killed(number)
            self.kept(number, early, acknowledged, reported, self.place("copy"))
            shutil.rmtree(self.place("copy"))
            acknowledged, reported = self.kept(number, replies, acknowledged, reported, journal)
        ran, ended = self.ran()
        counts = ", ".join(f"{ended.count(word)} {word}" for word in ("done", "interrupted", "dropped"))
        calls = [call for call in acknowledged.values() if call is not None]
        print(f"kills: {rounds} kills: {len(calls)} acknowledged actions, {len(ran)} agents that ran; {counts}")
        self.assertTrue(ended.count("done") and ended.count("interrupted"), "actions of both kinds: try more rounds")
