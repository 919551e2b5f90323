"""The keys of a notice of serve besides its result: the key of its operation, the expected code, and whether the result has failed, in
which case info has it as the last failure. The notices of an opening's report have the same keys. A notice of run has none of them."""

import helper
from helper import action, register

# An agent that ends with the code that a parameter names, by a signal, or not soon.
ENDS = """case $OCF_RESKEY_code in
kill) kill -9 $$ ;;
sleep) echo >> "$OCF_RESKEY_begun"; exec sleep 30 ;;
*) exit "$OCF_RESKEY_code" ;;
esac
"""
# for each code that may be expected of a monitor, the codes with which it has not failed: Pacemaker Administration, exit codes
EXPECTED = {0: (0, 190), 7: (7,), 8: (8, 191)}
CODES = (0, 1, 2, 5, 7, 8, 9, 77, 190, 191, 255)
OF_RUN = {"action", "call", "code", "id", "interval", "name", "outcome", "run"}


class Notices(helper.Check):
    def setUp(self):
        super().setUp()
        self.agent("Ends", ENDS)

    def serves(self, *words):
        return self.started("serve", *(words or ["--memory"]), "--root", self.here)

    def judged(self, run, command):
        """The notice of a command's result; info has the result as the last failure exactly when the notice says that it has failed."""
        after = len(run.values())
        run.send(command)
        _, reply = run.awaits(lambda value: "call" in value and "ok" in value, after=after)
        _, notice = run.awaits(lambda value: helper.is_notice(value, call=reply["call"]), after=after)
        after = len(run.values())
        run.send({"op": "info", "id": command["id"]})
        _, info = run.awaits(lambda value: "failed" in value and "ok" in value, after=after)
        self.assertEqual(notice["failed"], (info["failed"] or {}).get("call") == reply["call"], notice)
        self.assertEqual(notice["key"], reply["key"])
        return notice

    def test_monitors(self):
        """a monitor has failed if its code is not an expected one, degraded or not"""
        run = self.serves()
        for code in CODES:
            run.send(register(f"c{code}", "Ends", code=str(code)))
            for expect, codes in EXPECTED.items():
                notice = self.judged(run, action(f"c{code}", "monitor", expect=expect))
                self.assertEqual((notice["key"], notice["expect"], notice["failed"]), (f"c{code}_monitor_0", expect, code not in codes))
        self.assertEqual(run.ends(), 0)

    def test_others(self):
        """of every other action 0 is expected; an action that was killed or not started has also failed"""
        run = self.serves()
        run.send(*[register(f"c{code}", "Ends", code=code, begun="/dev/null") for code in ("0", "190", "7", "kill", "sleep")],
                 register("none", "NoSuchAgent"))
        for name, what, outcome, failed in [("c0", "start", "done", False), ("c0", "stop", "done", False), ("c190", "start", "done", True),
                                            ("c7", "stop", "done", True), ("ckill", "promote", "signaled", True),
                                            ("csleep", "demote", "timed-out", True), ("none", "start", "not-started", True)]:
            notice = self.judged(run, action(name, what, timeout=300 if name == "csleep" else 20000))
            said = [notice[key] for key in ("key", "outcome", "expect", "failed")]
            self.assertEqual(said, [f"{name}_{what}_0", outcome, 0, failed])
        self.assertEqual(run.ends(), 0)

    def test_recurring(self):
        """a recurring monitor's key has its interval; the same one-time monitor has another key"""
        run = self.serves()
        run.send(register("a", "Ends", code="7"), {"op": "recur", "id": "a", "interval": 60000, "expect": 7}, action("a", "monitor"))
        run.awaits(lambda value: helper.is_notice(value, call=2))
        run.awaits(lambda value: helper.is_notice(value, call=1))
        self.assertEqual({value["call"]: (value["key"], value["expect"], value["failed"]) for value in run.notices()},
                         {1: ("a_monitor_60000", 7, False), 2: ("a_monitor_0", 0, True)})
        self.assertEqual(run.ends(), 0)

    def test_reported(self):
        """a notice of an opening's report has its key and the expected code, and has not failed"""
        journal, begun = self.journal(), self.place("begun")
        run = self.serves("--journal", journal)
        for name in "ab":
            run.send(register(name, "Ends", code="sleep", begun=begun))
        run.send({"op": "recur", "id": "a", "interval": 60000, "expect": 8}, action("b", "monitor", expect=7), action("b", "stop"),
                 action("b", "monitor", expect=8))
        self.eventually("both monitors begin", lambda: self.size(begun) == 2)
        run.killed()
        again = self.serves("--journal", journal, "--orphans", "0")
        again.send({"op": "list"})
        again.awaits(lambda value: "resources" in value)
        self.assertEqual([(value["outcome"], value["key"], value["expect"], value["failed"]) for value in again.notices()[:4]],
                         [("interrupted", "a_monitor_60000", 8, False), ("interrupted", "b_monitor_0", 7, False),
                          ("dropped", "b_stop_0", 0, False), ("dropped", "b_monitor_0", 8, False)])

    def size(self, name):
        try:
            with open(name, "rb") as file:
                return len(file.read())
        except FileNotFoundError:
            return 0

    def test_run(self):
        """a notice of run has none of these keys"""
        sent = helper.lines(register("a", "Ends", code="1"), action("a", "monitor", expect=7), action("a", "start"), {"op": "drain"})
        said = helper.replies(helper.run("run", "--memory", "--root", self.here, sent=sent).stdout)
        notices = [value for value in said if helper.is_notice(value)]
        self.assertEqual([set(notice) for notice in notices], [OF_RUN, OF_RUN])
