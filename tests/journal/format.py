"""The second reader and writer of the journal's bytes, tests/lib/journal_format.py, on the program's writes and its output of show. Each
event that a run records is decoded, and encoded again to the same bytes; so is a state with all that a state may have, as a tidy writes it.
A part written by hand is shown as intended; so are the stored journals of the first layout. Both agree on random parts, some of which are
damaged.
The environment may set ROUNDS and SEED."""
import gzip
import os
import shutil

import helper
import journal_format
from chance import by_chance
from helper import action
from journal_format import (ACTIONS, CLOSED, DETAILS, DROPPED, FIRST, INTERRUPTED, MONITOR, NOT_STARTED, RAN, SECOND, START,
                            STOP, event)

REFUSED = 5
DATA = os.path.join(helper.TOP, "tests/data/first-layout")
# The commands of a run that records each kind of event except a boot, and its events.
ASKED = [
    helper.register("r1", "Step", z="last", a="\u00e9"), helper.register("r2", "Step"), {"op": "unregister", "id": "r2"},
    {"op": "params", "id": "r1", "params": {"code": "0"}}, action("r1", "start"), action("r1", "stop", timeout=77),
    {"op": "withdraw", "id": "r1", "call": 2}, {"op": "drain"}, {"op": "forget", "id": "r1"},
    {"op": "recur", "id": "r1", "interval": 5000, "level": 10, "expect": 8}, {"op": "cancel", "id": "r1", "interval": 5000},
    action("r1", "monitor", expect=7, level=20),
]
RECORDED = [
    {"event": "register", "id": "r1", "provider": "test", "type": "Step", "params": {"a": "\u00e9", "z": "last"}},
    {"event": "register", "id": "r2", "provider": "test", "type": "Step", "params": {}},
    {"event": "unregister", "id": "r2"},
    {"event": "params", "id": "r1", "params": {"code": "0"}},
    {"event": "exec", "id": "r1", "call": 1, "action": START, "level": 0, "expect": 0, "timeout": 20000},
    {"event": "exec", "id": "r1", "call": 2, "action": STOP, "level": 0, "expect": 0, "timeout": 77},
    {"event": "withdraw", "id": "r1", "call": 2},
    {"event": "begin", "id": "r1", "call": 1, "run": 1},
    {"event": "result", "id": "r1", "run": 1, "outcome": (NOT_STARTED, 1)},
    {"event": "forget", "id": "r1"},
    {"event": "recur", "id": "r1", "call": 3, "interval": 5000, "timeout": 20000, "level": 10, "expect": 8},
    {"event": "cancel", "id": "r1", "interval": 5000},
    {"event": "exec", "id": "r1", "call": 4, "action": MONITOR, "level": 20, "expect": 7, "timeout": 20000},
]
# A state with each thing that a state may have, and the output of show for it.
INTERRUPTED_RUN = {"call": 2, "run": 1, "action": STOP, "interval": 0, "since": 5, "at": 9, "outcome": (INTERRUPTED, 0)}
FAILED_RUN = {"call": 1, "run": 2, "action": MONITOR, "interval": 400, "since": 3, "at": 4, "outcome": (NOT_STARTED, 2)}
FULL = {"next_call": 9, "next_run": 4, "clock": 50, "resources": [
    {"id": "a:0", "provider": "p", "type": "T", "params": {"k": "v"},
     "queue": [{"call": 6, "action": START, "level": 0, "expect": 0, "timeout": 1}],
     "running": {"call": 4, "run": 3, "action": MONITOR, "level": 10, "expect": 7, "timeout": 30, "interval": 0, "since": 50},
     "recurring": [{"call": 5, "interval": 400, "timeout": 20, "level": 20, "expect": 8}],
     "ended": [FAILED_RUN, INTERRUPTED_RUN], "failed": FAILED_RUN},
    {"id": "b", "provider": "p", "type": "T", "params": {}, "queue": [], "running": None, "recurring": [], "ended": [], "failed": None},
]}
REASONED = {"action": "monitor", "at": 4, "call": 1, "code": 4, "interval": 400, "name": "OCF_ERR_PERM", "outcome": "not-started",
            "run": 2, "since": 3}
SHOWN = [
    {"ok": True, "resources": ["a:0", "b"]},
    {"failed": REASONED, "id": "a:0", "ok": True, "params": {"k": "v"}, "provider": "p", "queued": [6],
     "recurring": [{"call": 5, "expect": 8, "interval": 400, "level": 20, "timeout": 20}],
     "running": {"call": 4, "key": "a:0_monitor_0", "run": 3}, "type": "T"},
    {"ok": True, "results": [REASONED, {"action": "stop", "at": 9, "call": 2, "code": 1, "interval": 0, "name": "OCF_ERR_GENERIC",
                                        "outcome": "interrupted", "run": 1, "since": 5}]},
    {"failed": None, "id": "b", "ok": True, "params": {}, "provider": "p", "queued": [], "recurring": [], "running": None, "type": "T"},
    {"ok": True, "results": []},
]


# Random states and parts.


def task(dice):
    """An action with its level and expected code, which are 0 except for a monitor."""
    action = dice.choice(ACTIONS)
    is_monitor = action == MONITOR
    return {"action": action, "level": dice.choice((0, 10, 20)) * is_monitor, "expect": dice.choice((0, 7, 8)) * is_monitor}


def interval(dice, values):
    return dice.choice((0, 1, 2 ** 32 - 1)) if values["action"] == MONITOR else 0


def result(dice, kinds):
    values, kind = task(dice), dice.choice(kinds)
    run = 0 if kind >= DROPPED else dice.randrange(1, 50)
    return {"call": dice.randrange(1, 100), "run": run, "action": values["action"], "interval": interval(dice, values),
            "since": dice.randrange(1000), "at": dice.randrange(1000), "outcome": (kind, dice.choice(DETAILS[kind]))}


def resource(dice, name):
    calls, values = sorted(dice.sample(range(1, 100), 4)), task(dice)
    timeouts = [dice.choice((1, 20000, 2 ** 32 - 1)) for _ in calls]
    return {
        "id": name, "provider": dice.choice("pq"), "type": "T", "params": {"k": "\u00e9" * dice.randrange(3)},
        "queue": [{**task(dice), "call": calls[place], "timeout": timeouts[place]} for place in range(dice.randrange(3))],
        "running": dice.choice([None, {**values, "call": 5, "run": 7, "timeout": 9, "interval": interval(dice, values), "since": 1000}]),
        "recurring": [{"call": calls[place], "interval": 10 + place, "timeout": timeouts[place], "level": 10, "expect": 7}
                      for place in range(dice.randrange(3))],
        "ended": [result(dice, list(DETAILS)) for _ in range(dice.randrange(3))],
        "failed": dice.choice([None, result(dice, RAN)]),
    }


def part(dice):
    """The bytes of a part, and the state of its snapshot."""
    state = {"next_call": 100, "next_run": 50, "clock": 1000, "resources": [resource(dice, name) for name in "abc"[:dice.randrange(4)]]}
    records = [[event("forget", 1000 + place, id="a")] * dice.randrange(1, 3) for place in range(dice.randrange(3))]
    text = journal_format.head(snapshot=journal_format.state(state)) + b"".join(journal_format.record(*row) for row in records)
    return text + CLOSED, state


def spoilt(dice, text):
    """These bytes with one of them changed, or cut, or unchanged."""
    at, way = dice.randrange(len(text)), dice.randrange(3)
    return [text, text[:at], text[:at] + bytes([dice.randrange(256)]) + text[at + 1:]][way]


class Format(helper.Check):
    def run_on(self, journal, *commands, status=0):
        done = helper.run("run", "--journal", journal, "--root", self.here, "--orphans", "0", sent=helper.lines(*commands))
        self.assertEqual(done.returncode, status, done.stderr)

    def current(self, journal):
        """The content of the journal's current part, which is encoded again to the same bytes."""
        parts = helper.parts(journal)
        part = journal_format.found(*parts)
        self.assertIn(part.encoded(), [text[:part.end] for text in parts], "encoded again")
        return part

    def test_events(self):
        """each kind of event that a run records"""
        journal = self.journal()
        self.run_on(journal, *ASKED)
        self.run_on(journal)
        events = self.current(journal).events()
        moments = [event.pop("at") for event in events]
        self.assertEqual(moments, sorted(moments))
        self.assertEqual(events, [*RECORDED, {"event": "boot"}])
        self.assertEqual({event["event"] for event in events}, set(journal_format.KINDS))

    def test_tidied(self):
        """a state as a tidy writes it"""
        journal = self.journal()
        self.run_on(journal, *ASKED)
        self.run_on(journal, {"op": "tidy"}, action("r1", "stop"))
        part = self.current(journal)
        resource, = part.state["resources"]
        self.assertEqual((part.version, part.epoch, [event["event"] for event in part.events()]), (SECOND, 2, ["exec"]))
        self.assertEqual((part.state["next_call"], part.state["next_run"], resource["params"]), (5, 2, {"code": "0"}))
        self.assertEqual([row["outcome"] for row in resource["ended"]], [(DROPPED, 0)])

    def test_shown(self):
        """a state with every possible value, written by hand and shown"""
        text = journal_format.head(epoch=7, snapshot=journal_format.state(FULL))
        journal = self.journal_of("journal", journal_format.head() + CLOSED, text + CLOSED)
        self.assertEqual(journal_format.read_state(text[journal_format.HEAD:]), FULL)
        self.assertEqual(helper.replies(helper.shown(journal)), SHOWN)
        self.assertEqual(self.current(journal).epoch, 7)

    def test_first_layout(self):
        """the stored journals of the first layout"""
        for name in ("resting", "running"):
            for file in helper.PARTS:
                with gzip.open(f"{DATA}/{name}/{file}.gz") as stored:
                    text = stored.read()
                part = journal_format.read_part(text)
                self.assertEqual((part.version, part.encoded() == text[:part.end]), (FIRST, True), f"{name}/{file}")

    @by_chance(150)
    def test_chance(self, dice):
        """random parts, some of them damaged, are shown or called damaged as the second reader finds them"""
        text, state = part(dice)
        self.assertEqual(journal_format.read_part(text).state, state, "a state that is read as it was written")
        parts = [spoilt(dice, text), b""]
        shutil.rmtree(self.place("journal"), ignore_errors=True)
        shown = helper.run("show", "--journal", self.journal_of("journal", *parts))
        said, wanted = shown.stderr.decode(), journal_format.damage(*parts)
        if said.endswith(": order\n"):
            # (the second reader does not detect an event that does not apply in its place)
            return
        if shown.returncode == REFUSED:
            # a part without a head beside an empty one: garbage, or a part that was emptied
            self.assertEqual(said, "ocfexec: disk\n")
            return
        self.assertEqual(said, wanted and f"ocfexec: damaged part {wanted}\n", f"of {parts[0].hex()}")
        if parts[0] == text and not wanted:
            self.assertEqual(helper.replies(shown.stdout)[0]["resources"], [each["id"] for each in state["resources"]])
