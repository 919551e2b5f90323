"""Journals whose parts are encoded by hand, after docs/FORMAT.md: how they are shown, what their opening reports, each cause of damage, and
a part that has no space left for a boot."""
import subprocess

import helper
from helper import PROGRAM
from journal_format import BODY, CLOSED, DONE, MONITOR, OPEN, PART, START, STOP, event, head, number, record

SHOWN = b"""\
{"ok":true,"resources":["r1","r2"]}
{"failed":null,"id":"r1","ok":true,"params":{},"provider":"pacemaker","queued":[2],"recurring":[],"running":null,"type":"Dummy"}
{"ok":true,"results":[{"action":"start","at":90,"call":1,"code":0,"interval":0,"name":"OCF_SUCCESS","outcome":"done","run":1,"since":20}]}
{"failed":null,"id":"r2","ok":true,"params":{"state":"/tmp"},"provider":"heartbeat","queued":[],"recurring":[],"running":{"call":3,"key":"r2_monitor_0","run":2},"type":"Dummy"}
{"ok":true,"results":[]}
"""
REPORT = b"""\
{"action":"monitor","call":3,"code":1,"id":"r2","interval":0,"name":"OCF_ERR_GENERIC","outcome":"interrupted","run":2}
{"action":"stop","call":2,"code":1,"id":"r1","interval":0,"name":"OCF_ERR_GENERIC","outcome":"dropped","run":0}
{"ok":true,"resources":["r1","r2"]}
"""
LIST = helper.lines({"op": "list"})


# Events, with the values that most of them have here.
def register(at, resource, provider, kind, **params):
    return event("register", at, id=resource, provider=provider, type=kind, params=params)


def execute(at, resource, call, action, level=0, expect=0, timeout=20000):
    return event("exec", at, id=resource, call=call, action=action, level=level, expect=expect, timeout=timeout)


def forget(at, resource):
    return event("forget", at, id=resource)


def withdraw(at, resource, call):
    return event("withdraw", at, id=resource, call=call)


def begin(at, resource, call, run):
    return event("begin", at, id=resource, call=call, run=run)


def done(at, resource, run, code):
    return event("result", at, id=resource, run=run, outcome=(DONE, code))


def busy():
    """Part A of a journal of r1 with a done start and a queued stop, and of r2 with a running monitor."""
    rows = [register(0, "r1", "pacemaker", "Dummy"), execute(10, "r1", 1, START), begin(20, "r1", 1, 1), done(90, "r1", 1, 0),
            register(100, "r2", "heartbeat", "Dummy", state="/tmp"), execute(100, "r1", 2, STOP),
            execute(100, "r2", 3, MONITOR, level=10), begin(110, "r2", 3, 2)]
    return head() + b"".join(record(row) for row in rows) + CLOSED


def probed():
    """Part A of a journal of r1 with two probes that expect it stopped: the first one finds it stopped, the second one running."""
    rows = [register(0, "r1", "pacemaker", "Dummy"), execute(10, "r1", 1, MONITOR, expect=7), begin(20, "r1", 1, 1), done(30, "r1", 1, 7),
            execute(40, "r1", 2, MONITOR, expect=7), begin(50, "r1", 2, 2), done(60, "r1", 2, 0)]
    return head() + b"".join(record(row) for row in rows) + CLOSED


def withdrawn():
    """Part A of a journal of r1 with a running start, a stop that was withdrawn at 30, and a queued monitor."""
    rows = [register(0, "r1", "pacemaker", "Dummy"), execute(10, "r1", 1, START), begin(20, "r1", 1, 1), execute(25, "r1", 2, STOP),
            execute(25, "r1", 3, MONITOR), withdraw(30, "r1", 2)]
    return head() + b"".join(record(row) for row in rows) + CLOSED


def crowded():
    """Part A of a journal in which a start of r1 runs, and r1's results are forgotten again and again, until at most eleven bytes are
    left for the body of one more record."""
    rows = [register(0, "r1", "pacemaker", "Dummy"), execute(0, "r1", 1, START), begin(0, "r1", 1, 1)]
    forgotten = forget(0, "r1")
    full = record(forgotten * (BODY // len(forgotten)))
    part = head() + b"".join(record(row) for row in rows)
    part += full * ((PART - 1 - len(part)) // len(full))
    part += record(forgotten * ((PART - 1 - len(part) - len(record())) // len(forgotten)))
    return part + CLOSED


class Journals(helper.Check):
    def words(self, folder):
        return ["run", "--journal", folder, "--root", self.here]

    def shows(self, folder):
        """A show of a journal, which stays the same byte for byte."""
        before = helper.parts(folder)
        found = helper.run("show", "--journal", folder)
        self.assertEqual(helper.parts(folder), before, "a show that writes nothing")
        return found

    def stays(self, folder, status, line, advice):
        """A journal that is not opened, is reported so, and stays the same byte for byte."""
        before = helper.parts(folder)
        found = helper.run(*self.words(folder))
        self.assertEqual((found.returncode, found.stdout, found.stderr.decode()), (status, b"", line + "\n"))
        first, *more = helper.explained(*self.words(folder)).stderr.decode().splitlines()
        self.assertEqual(first, line)
        self.assertIn(advice, "\n".join(more))
        self.assertEqual(helper.parts(folder), before, "an opening that writes nothing")

    def damaged(self, where, part_a, part_b=b""):
        folder = self.journal_of("journal", part_a, part_b)
        self.stays(folder, 3, f"ocfexec: damaged part {where}", "Nothing was changed. Keep both parts")
        found = self.shows(folder)
        self.assertEqual((found.returncode, found.stdout), (3, b""))

    def test_shown(self):
        """the output of show for an encoded journal"""
        found = self.shows(self.journal_of("journal", busy(), b""))
        self.assertEqual((found.returncode, found.stdout), (0, SHOWN))

    def test_failed(self):
        """the last failure is the probe that did not find the expected state"""
        found = self.shows(self.journal_of("journal", probed(), b""))
        _, info, history = (helper.value_of(line) for line in found.stdout.splitlines())
        first, second = history["results"]
        self.assertEqual((first["code"], second["code"], info["failed"]), (7, 0, second))

    def test_withdrawn(self):
        """a withdrawn action has a result and is no longer queued"""
        found = self.shows(self.journal_of("journal", withdrawn(), b""))
        _, info, history = (helper.value_of(line) for line in found.stdout.splitlines())
        result = {"action": "stop", "at": 30, "call": 2, "code": 1, "interval": 0, "name": "OCF_ERR_GENERIC", "outcome": "cancelled",
                  "run": 0, "since": 30}
        self.assertEqual((info["queued"], info["running"]["call"], info["failed"], history["results"]), ([3], 1, None, [result]))

    def test_reported(self):
        """the report of its opening, sent once"""
        folder = self.journal_of("journal", busy(), b"")
        self.assertEqual(helper.run(*self.words(folder), sent=LIST).stdout, REPORT)
        self.assertEqual(helper.run(*self.words(folder)).stdout, b"", "opened again")

    def test_not_reported(self):
        """a report that cannot be written"""
        folder = self.journal_of("journal", busy(), b"")
        with open("/dev/full", "wb") as full:
            found = subprocess.run([PROGRAM, *self.words(folder)], input=LIST, stdout=full, stderr=subprocess.DEVNULL)
        self.assertEqual(found.returncode, 7)

    def test_head_cut(self):
        """damage: a head that is cut"""
        self.damaged("A at 0: cut", head()[:43])

    def test_record_cut(self):
        """damage: a record that is cut"""
        self.damaged("A at 44: cut", head() + b"\1\0\0")

    def test_closed(self):
        """damage: no part with an open gate"""
        self.damaged("A at 0: closed", bytes(46))

    def test_magic(self):
        """damage: another magic"""
        self.damaged("B at 0: magic", b"", head(magic=b"OCFK") + CLOSED)

    def test_version(self):
        """damage: a version that is not known"""
        self.damaged("B at 0: version", b"", head(version=3) + CLOSED)

    def test_epoch(self):
        """damage: epoch 0"""
        self.damaged("A at 0: epoch", head(epoch=0) + CLOSED)

    def test_state(self):
        """damage: a snapshot that is not a state"""
        self.damaged("A at 0: state", head(snapshot=b"x") + CLOSED)

    def test_long(self):
        """damage: a record that is too long"""
        self.damaged("A at 44: long", head() + OPEN + number(BODY + 1, 4))

    def test_event(self):
        """damage: a record that is not a batch of events"""
        self.damaged("B at 44: event", b"", head() + record(b"\0") + CLOSED)

    def test_order(self):
        """damage: an event that does not apply"""
        unregister = event("unregister", 0, id="r1")
        self.damaged("A at 44: order", head() + record(unregister) + CLOSED)

    def test_withdrawn_twice(self):
        """damage: a withdrawal of an action that is not queued"""
        part = withdrawn()[:-1]
        self.damaged(f"A at {len(part)}: order", part + record(withdraw(30, "r1", 2)) + CLOSED)

    def test_withdrawn_early(self):
        """damage: a withdrawal in the first layout"""
        event = withdraw(0, "r1", 1)
        self.damaged("A at 44: event", head(version=1) + record(event) + CLOSED)

    def test_no_room(self):
        """a part without space for a boot is shown, and not opened"""
        folder = self.journal_of("journal", crowded(), b"")
        self.stays(folder, 6, "ocfexec: full", "Nothing was changed. Print what the journal holds with show")
        found = self.shows(folder)
        self.assertEqual(found.returncode, 0)
        self.assertEqual(helper.replies(found.stdout)[1]["running"], {"call": 1, "key": "r1_start_0", "run": 1})
