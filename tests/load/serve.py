"""The built program as a server: commands while agents run, half a line, a flood of questions beside a timeout, many ends at once, a reader
that does not read, the end of input, scripts for run, signals that end agents, the cost of waiting, and kills at random moments.
The environment may set LIVES and SEED."""
import os
import random
import subprocess
import threading
import time

import helper
from helper import PROGRAM, action


def sleeper(name, **params):
    return helper.register(name, "Sleeper", **params)


class Serving(helper.Check):
    def setUp(self):
        super().setUp()
        self.agent("Sleeper", '[ "$1" = start ] && exec sleep "${OCF_RESKEY_for:-0}"\nexit 0\n')

    def served(self, *journal):
        return self.started("serve", *(journal or ["--memory"]), "--root", self.here)

    def slow_and_quick(self):
        # a run in which the start of `slow` lasts, and a stop of `quick` is requested
        run = self.served()
        run.send(sleeper("slow", **{"for": "30"}), sleeper("quick"), action("slow", "start"), action("quick", "stop"))
        return run

    def test_beside(self):
        """a stop is accepted and reported while another resource's start sleeps"""
        run = self.slow_and_quick()
        began = time.monotonic()
        at, notice = run.awaits(lambda value: helper.is_notice(value, id="quick"))
        self.took_less(2, at - began, "a stop beside a start that sleeps")
        self.assertLessEqual({"since", "at"}, notice.keys())
        values = run.values()
        reply = next(place for place, value in enumerate(values) if value.get("key") == "quick_stop_0")
        self.assertLess(reply, next(place for place, value in enumerate(values) if helper.is_notice(value)), "the reply first")
        self.assertEqual(run.ends(), 0, "the end of input with an agent running")

    def test_half_a_line(self):
        """monitors go on while half a line waits for its end"""
        run = self.slow_and_quick()
        run.send({"op": "recur", "id": "quick", "interval": 100})
        run.awaits(lambda value: value.get("key") == "quick_monitor_100")
        run.write(b'{"op":"li')
        seen = len(run.notices())
        self.eventually("six monitors while half a line waits for its end",
                        lambda: sum(value["interval"] == 100 for value in run.notices()[seen:]) >= 6)
        run.write(b'st"}\n')
        _, reply = run.awaits(lambda value: "resources" in value)
        self.assertEqual(reply, {"ok": True, "resources": ["slow", "quick"]}, "a line in two pieces")
        self.assertEqual(run.ends(), 0, "the end of input with an agent running")

    def test_key_twice(self):
        """a line in which an object has a repeated key is refused as syntax, at any depth; run takes the last one"""
        twice = (b'{"op":"list","op":"list"}\n', b'{"op":"list","id":{"a":[{"b":1,"\\u0062":2}]}}\n')
        refused = {"error": "syntax", "number": 1}
        for text in twice:
            done = helper.run("serve", "--memory", sent=text)
            self.assertEqual([helper.bare(value) for value in helper.replies(done.stdout)], [refused], text)
        done = helper.run("run", "--memory", sent=b'{"op":"drain","op":"list"}\n' + twice[1])
        self.assertEqual(helper.replies(done.stdout), [{"ok": True, "resources": []}] * 2)

    @helper.slow
    def test_flood(self):
        """a timeout of half a second in a flood of questions, which ends when it is reported, or after a million"""
        run, flood, is_reported = self.served(), b'{"op":"list"}\n' * 1000, threading.Event()
        run.send(sleeper("slow", **{"for": "30"}), action("slow", "start", timeout=500))
        poured = []

        def pour():
            while not is_reported.is_set() and len(poured) < 1000:
                run.write(flood)
                poured.append(flood)

        pouring = threading.Thread(target=pour)
        pouring.start()
        _, notice = run.awaits(lambda value: helper.is_notice(value, id="slow"))
        is_reported.set()
        pouring.join()
        self.assertIsNotNone(notice, "a notice of the timeout")
        late = notice["at"] - notice["since"] - 500
        print(f"serve: a timeout in a flood of questions is reported {late} ms late (50 wanted)", flush=True)
        # (a timeout that is seen only after the flood comes many seconds late)
        self.took_less(1, late / 1000, "a timeout in a flood of questions, after its moment")
        self.assertEqual(run.ends(), 0, "the flood's end")
        self.assertEqual(sum('"resources"' in line for _, line in run.lines), 1000 * len(poured), "answers")

    def test_ends_at_once(self):
        """two hundred and fifty-six agents that end at once"""
        run, names = self.served(), [f"r{place}" for place in range(256)]
        run.send(*[sleeper(name, **{"for": "0.3"}) for name in names], *[action(name, "start") for name in names])
        self.eventually("256 notices", lambda: len(run.notices()) >= 256)
        self.assertEqual(run.ends(), 0, "the end of the many")
        self.assertEqual([value["outcome"] for value in run.notices()], ["done"] * 256)

    def test_reader_that_waits(self):
        """a reader that reads nothing for three seconds loses nothing"""
        asked = 3000
        run = subprocess.Popen([PROGRAM, "serve", "--memory", "--root", self.here], stdin=subprocess.PIPE, stdout=subprocess.PIPE)
        self.addCleanup(run.kill)

        def ask():
            for _ in range(asked):
                run.stdin.write(b'{"op":"info","id":"nobody"}\n')
            run.stdin.close()

        asking = threading.Thread(target=ask)
        asking.start()
        time.sleep(3)
        answers = run.stdout.read().count(b"unknown-resource")
        asking.join()
        run.stdout.close()
        self.assertEqual((answers, run.wait(helper.PATIENCE)), (asked, 0))

    def test_huge_line(self):
        """a line of 256 MiB is refused as syntax, in bounded memory, and the next one is answered"""
        run = self.served()
        run.ready()
        run.write(b'{"op":"list","tag":"')
        for _ in range(256):
            run.write(bytes([0x61]) * 2 ** 20)
        run.write(b'"}\n')
        run.send({"op": "list"})
        run.awaits(lambda value: "resources" in value)
        self.assertEqual([value.get("error") for value in run.values()], ["syntax", None])
        self.assertLess(helper.kib(run.run.pid, "VmHWM"), 65_536, "KiB of memory")
        self.assertEqual(run.ends(), 0)

    def test_withdraw(self):
        """a queued action is withdrawn while another one runs"""
        run = self.served()
        run.send(sleeper("r1", **{"for": "30"}), action("r1", "start"), action("r1", "stop"), action("r1", "stop"))
        for _ in range(600):
            run.send({"op": "info", "id": "r1"})
            if run.finds(lambda value: value.get("running"), 0.1)[0]:
                break
        known = len(run.values())
        withdrawals = [{"op": "withdraw", "id": name, "call": call} for name, call in
                       (("r1", 3), ("r1", 3), ("r1", 1), ("r1", 0), ("zz", 3))]
        run.send(*withdrawals, {"op": "history", "id": "r1"}, {"op": "info", "id": "r1"}, {"op": "list"})
        run.awaits(lambda value: "resources" in value)
        *replies, history, info, _ = run.values()[known:]
        refusals = [("not-queued", 18), ("not-queued", 18), ("bad-value", 4), ("unknown-resource", 5)]
        self.assertEqual([helper.bare(reply) for reply in replies],
                         [{"ok": True}] + [{"error": word, "number": number} for word, number in refusals])
        result = history["results"].pop()
        self.assertEqual((result["since"], history["results"]), (result["at"], []))
        self.assertEqual(result, {"action": "stop", "at": result["at"], "call": 3, "code": 1, "interval": 0, "name": "OCF_ERR_GENERIC",
                                  "outcome": "cancelled", "run": 0, "since": result["at"]})
        self.assertEqual((info["failed"], info["queued"], info["running"]["call"]), (None, [2], 1))
        self.assertEqual(run.ends(), 0, "the end of input with an agent running")
        self.assertEqual(run.notices(), [], "a notice of a withdrawal")

    def test_signals(self):
        """a notice of serve has the signal that ended its agent; one of run has none, and neither has one of another end"""
        self.agent("Dies", 'case $1 in start) kill -SEGV $$ ;; stop) kill -TERM $$ ;; demote) exec sleep 30 ;; esac\n')
        asked = [helper.register("web", "Dies"), *[action("web", word) for word in ("start", "monitor", "stop")],
                 action("web", "demote", timeout=300)]
        run = self.served()
        run.send(*asked)
        run.awaits(lambda value: helper.is_notice(value, call=4))
        self.assertEqual(run.ends(), 0)
        ends = [("signaled", 11), ("done", None), ("signaled", 15), ("timed-out", None)]
        self.assertEqual([(value["outcome"], value.get("signal")) for value in run.notices()], ends)
        self.assertEqual(["signal" in value for value in run.notices()], [True, False, True, False])
        self.assertTrue(run.lines[-4][1].endswith(f',"signal":11,"since":{run.notices()[0]["since"]}}}\n'), "keys ascending")
        done = helper.run("run", "--memory", "--root", self.here, sent=helper.lines(*asked, {"op": "drain"}))
        notices = [value for value in helper.replies(done.stdout) if helper.is_notice(value)]
        self.assertEqual([value["outcome"] for value in notices], [outcome for outcome, _ in ends])
        self.assertFalse(any("signal" in value for value in notices), "a notice of run")

    def test_kept(self):
        """sixty-four of sixty-five results are kept"""
        asked = [line for _ in range(65) for line in (action("a", "stop"), {"op": "drain"})]
        sent = helper.lines(sleeper("a"), *asked, {"op": "history", "id": "a"})
        done = helper.run("run", "--memory", "--root", self.here, sent=sent)
        results = helper.replies(done.stdout)[-1]["results"]
        self.assertEqual([result["call"] for result in results], list(range(2, 66)))

    @helper.slow
    def test_cost(self):
        """the cost of waiting: nothing registered, and one agent asleep"""
        run = self.served()
        time.sleep(0.2)

        def cost():
            before = helper.processor_time(run.run.pid)
            time.sleep(3)
            return (helper.processor_time(run.run.pid) - before) / 3 * 100

        idle = cost()
        run.send(sleeper("slow", **{"for": "30"}), action("slow", "start"))
        time.sleep(0.5)
        asleep = cost()
        print(f"serve: of a core, idle {idle:.2f} % (0.1 wanted), with one agent asleep {asleep:.2f} % (2 wanted)", flush=True)
        self.assertLessEqual(idle, helper.slowness())
        self.assertLessEqual(asleep, 20 * helper.slowness())

    def test_script(self):
        """a script for run gives the same replies in the same order, except for the sentences of refusals"""
        script = helper.lines(sleeper("a"), sleeper("a"), {"op": "list"}, action("a", "start"), {"op": "info", "id": "b"}, {"op": "fly"},
                              action("a", "fly"), {"op": "recur", "id": "a", "interval": 60000},
                              {"op": "cancel", "id": "a", "interval": 1}, {"op": "withdraw", "id": "a", "call": 9}, {"op": "drain"},
                              {"op": "watch", "limit": 1}, {"op": "tidy"}, {"op": "forget", "id": "a"}) + b"nonsense\n"

        def replies(word):
            done = helper.run(word, "--memory", "--root", self.here, sent=script)
            self.assertEqual(done.returncode, 0)
            return [helper.bare(value) for value in helper.replies(done.stdout) if not helper.is_notice(value)]

        self.assertEqual(replies("serve"), replies("run"))

    def life(self, journal, opens):
        # the commands to a run that is killed at a random moment, as it opens or with commands and monitors under way; and its output
        run, asked = self.served("--journal", journal), [{"op": "list"}]
        for name in ("a", "b"):
            asked += [sleeper(name), {"op": "recur", "id": name, "interval": 20}]
            asked += [action(name, what) for what in ("start", "monitor", "stop")]
            # the call of that stop, for a journal whose calls begin with it: a monitor and three actions of each resource
            asked.append({"op": "withdraw", "id": name, "call": 4 if name == "a" else 8})
        self.note(f"{os.path.basename(journal)}.asked", helper.lines(*asked))
        run.send(asked[0])
        if not opens:
            run.awaits(lambda value: "resources" in value)
        for command in asked[1:]:
            run.send(command)
            time.sleep(random.random() * 0.006)
        time.sleep(random.random() * 0.03)
        run.killed()
        return asked[1:], run.values()

    def holds_command(self, command, reply, info, results):
        # what was acknowledged is in the journal
        if command["op"] == "withdraw":
            cancelled = [one["call"] for one in results if one["outcome"] == "cancelled"]
            self.assertEqual(cancelled, [command["call"]] if "ok" in reply else [], command)
        elif command["op"] != "register":
            calls = info["queued"] + [one["call"] for one in results + info["recurring"]]
            calls += [info["running"]["call"]] if info["running"] else []
            self.assertIn(reply["call"], calls, command)

    @helper.slow
    def test_kills(self):
        """every reported result is found after kills at random moments"""
        random.seed(helper.number("SEED", 7))
        lives, lines = helper.number("LIVES", 60), 0
        for number in range(lives):
            journal = self.journal(f"life{number}")
            asked, values = self.life(journal, number % 2 == 0)
            found = helper.replies(helper.shown(journal))
            known = {info["id"]: (info, history["results"]) for info, history in zip(found[1::2], found[2::2])}
            replies = [value for value in values if not helper.is_notice(value)][1:]
            notices = [value for value in values if helper.is_notice(value)]
            for command, reply in zip(asked, replies):
                self.assertIn(command["id"], known)
                self.holds_command(command, reply, *known[command["id"]])
            for notice in notices:
                results = known[notice["id"]][1]
                self.assertTrue(helper.result_of(notice) in results or len(results) == 64, f"{notice} was sent")
            lines += len(replies) + len(notices)
        print(f"serve: {lives} kills, and the journal holds what {lines} lines said", flush=True)
        self.assertGreater(lines, lives, "lines that were sent")
