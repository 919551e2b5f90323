"""The cost of a waiting drain, and how soon it notices an end: an agent that sleeps for ten seconds, and then monitors that each run to a
timeout of 100 milliseconds, at moments of the system's clock. Wanted on a quiet machine: under 2 % of a core, and each end recorded within
2 milliseconds of its timeout. The check fails at ten times that, for the median end, so that it passes on a busy machine."""
import time

import helper

TIMEOUT = 100


def milliseconds():
    return time.time_ns() // 1_000_000


@helper.slow
class Drains(helper.Check):
    def setUp(self):
        super().setUp()
        self.agent("Sleeper", "exec sleep 10\n")

    def test_waits(self):
        """the processor time of ten seconds of waiting"""
        run = self.started("run", "--memory", "--root", self.here)
        run.send(helper.register("r1", "Sleeper"), helper.action("r1", "start", timeout=20000), {"op": "drain"})
        _, end = run.awaits(lambda value: "end" in value)
        spent = round(helper.processor_time(run.run.pid) * 1000)
        print(f"drains: ten seconds of waiting: {spent} milliseconds of the processor (under 200 wanted)", flush=True)
        self.assertEqual([(value["outcome"], value["code"]) for value in run.notices()], [("done", 0)])
        self.assertEqual((end, run.ends()), ({"end": "idle"}, 0))
        self.assertLess(spent, 500 * helper.slowness(), "milliseconds of the processor")

    def test_ends(self):
        """how soon the end of a monitor is noticed, at moments of the system's clock"""
        asked = [helper.register("r1", "Sleeper"), {"op": "recur", "id": "r1", "interval": 100, "timeout": TIMEOUT},
                 {"op": "watch", "limit": 3000}, {"op": "history", "id": "r1"}]
        began = milliseconds()
        *_, end, history = helper.replies(helper.run("run", "--memory", "--root", self.here, sent=helper.lines(*asked)).stdout)
        ended = milliseconds()
        runs = [(result["since"], result["at"]) for result in history["results"]]
        late = sorted(at - since - TIMEOUT for since, at in runs)
        print(f"drains: ends: {len(late)} are noticed late by these milliseconds (at most 2 wanted): {late}", flush=True)
        self.assertEqual(end, {"end": "limit"})
        self.came_often(3, len(late), "monitors that ran")
        self.took_less(0.021, late[len(late) // 2] / 1000 if late else 0, "noticing the middle end")
        moments = sorted(moment for run in runs for moment in run)
        self.assertEqual(sorted([began, *moments, ended]), [began, *moments, ended], "moments between those before and after the run")
