"""The reasons of failures that serve reports, in a notice and in its status: with --logs those of the resource's log, and with --log those
lines of the log of all that no other run can have written."""
import os

import helper
from helper import action, register

STATUS = {"op": "status"}
# An agent that fails with a reason. Where a parameter names files, it first makes the first, and waits for the second, and so after it has
# written the reason: two of them overlap while they write.
FAILS = """meets() {
    [ "$OCF_RESKEY_mine" ] || return 0
    : >"$OCF_RESKEY_mine$1"
    until [ -e "$OCF_RESKEY_theirs$1" ] || [ ! -e "$0" ]; do sleep 0.01; done
}
meets 1
[ "$OCF_RESKEY_bytes" ] && head -c "$OCF_RESKEY_bytes" /dev/zero | tr '\\0' 'x' && echo
[ "$OCF_RESKEY_reason" ] && printf "ocf-exit-reason:%b\\n" "$OCF_RESKEY_reason" >&2
meets 2
exit "${OCF_RESKEY_code:-6}"
"""
# how many bytes of a log are read
TAIL = 65_536


class NoticeReasons(helper.Check):
    def setUp(self):
        super().setUp()
        self.agent("Fails", FAILS)
        os.mkdir(self.place("logs"))
        self.ways = (("--logs", self.place("logs")), ("--log", self.place("log")))

    def serves(self, *words):
        return self.started("serve", *words, "--root", self.here)

    def registers(self, run, **named):
        """Registers resources, each with these parameters."""
        run.send(*[register(name, "Fails", **params) for name, params in named.items()])

    def fails(self, run, *names):
        """The reasons in the notices of an action of each of these resources, and in a status after them."""
        before = len(run.lines)
        run.send(*[action(name, "start") for name in names])

        def found_notices():
            found = [helper.value_of(line) for _, line in run.lines[before:] if '"kind":"notice"' in line]
            return found if len({value["id"] for value in found} & set(names)) == len(names) else None
        reported = {value["id"]: value["reason"] for value in self.eventually("the notices", found_notices)}
        found = self.status(run)
        return [(reported[name], found[name]) for name in names]

    def status(self, run):
        """The reasons in a status, by resource."""
        before = len(run.lines)
        run.send(STATUS)
        reply = self.eventually("a status", lambda: next(
            (helper.value_of(line) for _, line in run.lines[before:] if '"status":' in line), None))
        return {value["id"]: value["failed"] and value["failed"]["reason"] for value in reply["status"]}

    def overlap(self, first, second):
        """Parameters of two resources whose actions overlap, with their reasons."""
        one, two = self.place("one"), self.place("two")
        return {"mine": one, "theirs": two, "reason": first}, {"mine": two, "theirs": one, "reason": second}

    def test_reported(self):
        """the last reason of a run is in its notice and in the status, in either log; without a reason or a log it is null"""
        for words in (*self.ways, ()):
            with self.subTest(words):
                run = self.serves("--memory", *words)
                self.registers(run, a={"reason": "first\\nocf-exit-reason:no such file"}, b={}, c={"reason": "of c", "code": "0"})
                reason = "no such file" if words else None
                self.assertEqual(self.fails(run, "a"), [(reason, reason)])
                self.assertEqual(self.fails(run, "b"), [(None, None)])
                self.assertEqual(self.fails(run, "c"), [(None, None)])
                run.send({"op": "params", "id": "a", "params": {"reason": "another"}})
                reason = "another" if words else None
                self.assertEqual(self.fails(run, "a"), [(reason, reason)])
                run.send({"op": "params", "id": "a", "params": {}})
                self.assertEqual(self.fails(run, "a"), [(None, None)], "a reason of an earlier run")
                self.assertEqual(run.ends(), 0)

    def test_standard_error(self):
        """where agents write to standard error no reason is known"""
        run = self.serves("--memory", "--log", "-")
        self.registers(run, a={"reason": "no such file"})
        self.assertEqual(self.fails(run, "a"), [(None, None)])
        self.assertEqual(run.ends(), 0)

    def test_overlap(self):
        """in a log of all resources a line that two runs can have written is nobody's reason; each has its own in a log of its own"""
        for words, wanted in zip(self.ways, (["of a", "of b"], [None, None])):
            with self.subTest(words):
                run = self.serves("--memory", *words)
                a, b = self.overlap("of a", "of b")
                self.registers(run, a=a, b=b)
                self.assertEqual(self.fails(run, "a", "b"), [(reason, reason) for reason in wanted])
                for name in ("one1", "one2", "two1", "two2"):
                    os.remove(self.place(name))
                run.send({"op": "params", "id": "a", "params": {"reason": "alone"}})
                self.assertEqual(self.fails(run, "a"), [("alone", "alone")])
                self.assertEqual(run.ends(), 0)

    def test_long_run(self):
        """nor is a line during a run that began before what is read of the log"""
        words = self.ways[1]
        run = self.serves("--memory", *words)
        self.registers(run, long={"mine": self.place("one"), "theirs": self.place("two")}, fills={"bytes": str(TAIL + 100), "code": "0"},
                       a={"reason": "of a"})
        run.send(action("long", "start"))
        self.eventually("it runs", lambda: os.path.exists(self.place("one1")))
        self.fails(run, "fills")
        self.assertEqual(self.fails(run, "a"), [(None, None)])
        for name in ("two1", "two2"):
            with open(self.place(name), "wb"):
                pass
        run.awaits(lambda value: helper.is_notice(value, id="long"))
        self.assertEqual(self.fails(run, "a"), [("of a", "of a")])
        self.assertEqual(run.ends(), 0)

    def test_far(self):
        """a reason that was reported stays in the status when the log has grown past it, and is looked for again after an opening"""
        for place, words in enumerate(self.ways):
            with self.subTest(words):
                folder = self.journal(f"j{place}")
                run = self.serves("--journal", folder, *words)
                self.registers(run, a={"reason": "of a"}, fills={"bytes": str(TAIL + 100), "code": "0"})
                self.fails(run, "a")
                self.assertEqual(run.ends(), 0)
                run = self.serves("--journal", folder, *words)
                self.assertEqual(self.status(run), {"a": "of a", "fills": None})
                self.fails(run, "fills")
                self.assertEqual(self.status(run)["a"], "of a")
                self.assertEqual(run.ends(), 0)
                run = self.serves("--journal", folder, *words)
                self.assertEqual(self.status(run)["a"], "of a" if words[0] == "--logs" else None)
                self.assertEqual(run.ends(), 0)

    def test_interrupted(self):
        """after a run that a killed executor left, the next run of its resource has its reason in a log of all resources"""
        words = self.ways[1]
        folder = self.journal()
        run = self.serves("--journal", folder, *words)
        self.registers(run, a={"mine": self.place("one"), "theirs": self.place("two")})
        run.send(action("a", "start"))
        self.eventually("it runs", lambda: os.path.exists(self.place("one1")))
        run.killed()
        run = self.serves("--journal", folder, *words, "--orphans", "0")
        run.send({"op": "params", "id": "a", "params": {"reason": "of a"}})
        self.assertEqual(self.fails(run, "a"), [("of a", "of a")])
        self.assertEqual(run.ends(), 0)
