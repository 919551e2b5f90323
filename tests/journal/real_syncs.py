"""The program's calls of the system: the reads, writes and syncs of a journal's files, the lines on standard output and the started agents,
as a library that is loaded before the C library notes them (tests/shims/real_syncs.c). No proof says which file a sync reaches, and a
journal reads the same whether it was synced or not. So this module checks the calls against RULES: in random sessions of `run` and `serve`,
with tidies, kills and openings, from journals of the first layout, and on a device whose calls fail, are interrupted or are cut short.
Libraries that lie about syncs must each break a rule.
The environment may set ROUNDS, FAULTS and SEED."""
import collections
import errno
import os
import random
import re
import shutil
import subprocess
import time
import typing

import helper
import journal_format
from helper import PROGRAM, action
from journal_format import BODY, CLOSED, FIRST, FRAME, KINDS, MAGIC, START, closed_gate, gate_after, head_of, is_headed

RULES = {
    "opening": "an opening syncs each part before it reads it, and both before anything is written, acknowledged or started",
    "directory": "a directory in which a file was made is synced before anything is acknowledged or started",
    "write": "between two writes there is a sync of the part that the first one wrote to, if they are not pieces of one snapshot",
    "gate": "a gate is opened by a write of its byte alone, over a whole record or a whole head and snapshot that were written and synced",
    "place": "any other write lies after a closed gate, closes the open first gate of the part that is not current, or makes a first byte",
    "acknowledged": "nothing is acknowledged or started while a write is not synced",
    "fault": "after a call that failed no part is read, written or synced, and only what was recorded is acknowledged",
    "change": "a part is changed by writes at an offset alone",
}
# the rules that say what a sync after a write is for
COUNTED = {"write", "gate", "acknowledged"}
# how many calls are printed before one that breaks a rule
BEFORE = 10
OUT = "out"
RESULT = bytes([KINDS["result"]])
NAMES = [f"r{place}" for place in range(6)]


class Call(typing.NamedTuple):
    """A call, as it was noted; a write has the bytes that were to be written, and how many of them were written."""
    name: str
    path: str
    at: int
    size: int
    answer: int
    made: int
    text: bytes

    def __str__(self):
        answer = self.answer if self.answer >= 0 else errno.errorcode[-self.answer]
        bytes_at = f" of {self.size} bytes at {self.at}" if self.size else ""
        text = f": {self.text[:24]!r}{'..' if self.size > 24 else ''}" if self.text else ""
        return f"{self.name} {os.path.basename(self.path)}{bytes_at}{text} = {answer}"


def calls_of(path):
    """The calls in a log."""
    found = []
    with open(path, encoding="utf-8") as log:
        for line in log:
            what, rest = line.rstrip("\n").split(" ", 1)
            of, *numbers, text = rest.rsplit(" ", 5)
            found.append(Call(what, of, *map(int, numbers), bytes.fromhex(text)))
    return found


def is_sync(call):
    return call.name in ("fsync", "fdatasync")


def is_write(call):
    return call.name == "pwrite"


def is_device_call(call):
    return is_sync(call) or is_write(call)


def is_gate(call):
    """Whether a call opens a gate."""
    return is_write(call) and call.text == b"\1"


class Broken(AssertionError):
    """A rule that a call breaks."""

    def __init__(self, rule, calls):
        last = [f"    {call}" for call in calls[-BEFORE - 1:]]
        super().__init__("\n".join([f"wanted: {RULES[rule]}; the last of these calls breaks it:", *last]))
        self.rule = rule


class Part:
    """A part, as the calls so far left it."""

    def __init__(self, text):
        self.text, self.gate, self.is_synced, self.synced_gate = bytearray(text), closed_gate(text), False, 0
        self.opens()

    def opens(self):
        """A new opening: it has synced nothing and written nothing yet, and no write is half made."""
        self.was_synced, self.laid, self.rest = False, (0, 0), None

    def epoch(self):
        """The epoch of its head, or -1 if it has none."""
        return head_of(self.text)[1] if is_headed(self.text) else -1

    def syncs(self):
        self.was_synced, self.is_synced, self.synced_gate = True, True, self.gate

    def write(self, call):
        text = call.text[:call.made]
        self.text.extend(bytes(max(0, call.at - len(self.text))))
        self.text[call.at:call.at + call.made] = text
        self.is_synced &= not text
        self.laid = (self.laid[0] if call.at == self.laid[1] else call.at, call.at + call.made)
        self.gate = closed_gate(self.text, min(call.at, self.gate))
        # a write that was cut short continues with these bytes
        self.rest = (call.at + call.made, call.text[call.made:])

    def goes_on(self, call):
        """Whether a write has the next piece of a snapshot whose first gate is not open."""
        return self.gate == 0 and self.laid[0] <= 1 < call.at == self.laid[1]

    def is_whole(self, gate):
        """Whether it ends at this closed gate, and everything that the gate makes count was written since, with the next gate closed."""
        after = gate_after(self.text, gate)
        is_right = self.text[1:5] == MAGIC if gate == 0 else 0 < after - gate - FRAME <= BODY
        is_laid = self.laid[0] <= gate + 1 and after < self.laid[1]
        return gate == self.gate < len(self.text) and is_right and is_laid and self.text[after] != 1

    def has_result(self, notice):
        """Whether a notice's result is in a record that was synced."""
        run = re.escape(journal_format.name(notice["id"]) + journal_format.number(notice["run"]))
        return re.search(RESULT + b".{8}" + run, self.text[:self.synced_gate], re.DOTALL)


class Journal:
    """A journal's files, after the calls of its openings. Each call is checked against the rules."""

    def __init__(self, directory, *texts):
        self.directory = os.path.realpath(directory)
        self.parts = {os.path.join(self.directory, file): Part(text) for file, text in zip(helper.PARTS, texts or (b"", b""))}
        self.is_made, self.has_failed, self.calls = False, False, []

    def every(self, what):
        return all(getattr(part, what) for part in self.parts.values())

    def others(self, one, what):
        return all(getattr(part, what) for part in self.parts.values() if part is not one)

    def wants(self, holds, rule):
        if not holds:
            raise Broken(rule, self.calls)

    def opening(self, calls):
        """Takes the calls of an opening and of everything after it."""
        self.has_failed, self.calls = False, []
        for part in self.parts.values():
            part.opens()
        for call in calls:
            self.calls.append(call)
            self.take(call, self.parts.get(call.path))

    def take(self, call, part):
        if call.name == "spawn" or call.path == OUT:
            self.acknowledges(call)
        elif is_sync(call):
            self.syncs(call, part)
        elif call.name == "make" and call.path in self.parts:
            self.is_made = True
        elif part and call.name not in ("open", "make"):
            self.wants(not self.has_failed, "fault")
            self.wants(call.name in ("pread", "pwrite"), "change")
            self.wants(part.was_synced, "opening")
            if call.name == "pwrite":
                self.writes(call, part)
            self.ends(call)

    def ends(self, call):
        """Whether a call succeeded. A call that was interrupted has not failed: it has to be repeated."""
        if call.answer < 0 and call.answer != -errno.EINTR:
            self.has_failed = True
        return call.answer >= 0

    def syncs(self, call, part):
        self.wants(not self.has_failed, "fault")
        if self.ends(call) and part:
            part.syncs()
        elif call.answer >= 0 and call.path == self.directory:
            self.is_made = False

    def writes(self, call, part):
        self.wants(self.every("was_synced"), "opening")
        if part.rest == (call.at, call.text):
            pass
        elif is_gate(call):
            self.wants(self.every("is_synced") and part.is_whole(call.at), "gate")
        else:
            self.wants(self.every("is_synced") or part.goes_on(call) and self.others(part, "is_synced"), "write")
            self.wants(self.is_beside(call, part), "place")
        part.write(call)

    def is_beside(self, call, part):
        """Whether a write changes nothing that counts."""
        if (call.at, call.text) == (0, b"\0"):
            return len(part.text) < 2 or -1 < part.epoch() < max(part.epoch() for part in self.parts.values())
        return call.at > part.gate

    def acknowledges(self, call):
        if self.has_failed:
            self.wants(call.path == OUT and all(map(self.may_follow, helper.replies(call.text))), "fault")
            return
        self.wants(self.every("was_synced"), "opening")
        self.wants(not self.is_made, "directory")
        self.wants(self.every("is_synced"), "acknowledged")

    def may_follow(self, value):
        """Whether a line may be written after a call that failed: it reports that, or is a notice of a result that was recorded before."""
        if helper.is_notice(value):
            return any(part.has_result(value) for part in self.parts.values())
        return value.get("error", value.get("end")) in ("disk", "closed")


# The commands.

def values(dice):
    """An agent's parameters: its duration and its exit code, and some that are longer than a piece of a snapshot."""
    more = {f"p{place}": "x" * 1000 for place in range(dice.choice([0, 0, 0, 6]))}
    return {"time": dice.choice(["0", "0", "0.01"]), "code": dice.choice(["0", "0", "7"]), **more}


def command(dice):
    resource, roll = dice.choice(NAMES), dice.randrange(100)
    if roll < 40:
        return action(resource, dice.choice(["start", "stop", "monitor"]))
    if roll < 55:
        return {"op": "params", "id": resource, "params": values(dice)}
    if roll < 65:
        return {"op": dice.choice(["recur", "cancel"]), "id": resource, "interval": dice.choice([20, 3_600_000])}
    if roll < 75:
        word = dice.choice(["withdraw", "forget", "unregister", "info", "history", "list"])
        return {"op": word, "id": resource, "call": dice.randrange(1, 40)}
    if roll < 80:
        return {"op": "meta", "provider": "test", "type": "Step"}
    return dice.choice([{"op": "tidy"}, {"op": "drain", "limit": 30}, helper.register(resource, "Step", **values(dice))])


def batches(dice, count):
    """The lines of registrations and of this many commands, some of them written at once, each batch with the pause after it."""
    asked = [helper.register(resource, "Step", **values(dice)) for resource in NAMES] + [command(dice) for _ in range(count)]
    while asked:
        size = dice.randrange(1, 12)
        yield helper.lines(*asked[:size]), dice.choice([0, 0, 0.002, 0.01])
        asked = asked[size:]


# a short session of a creation, three actions and a tidy, which ends with a line
SHORT = [(helper.lines(helper.register("r0", "Step"), action("r0", "start"), action("r0", "stop"), {"op": "drain"}, {"op": "tidy"},
                       action("r0", "monitor"), {"op": "drain"}, {"op": "list"}), 0)]
AGENTS = 3


def first_layout():
    """A part of the first layout, with a resource of ten long parameters that runs its first action: its snapshot takes three pieces."""
    runs = {"call": 1, "run": 1, "action": START, "level": 0, "expect": 0, "timeout": 20_000, "interval": 0, "since": 5}
    resource = {"id": "r0", "provider": "test", "type": "Step", "params": {f"p{place}": "x" * 1000 for place in range(10)},
                "queue": [], "running": runs, "recurring": [], "ended": [], "failed": None}
    snapshot = journal_format.state({"next_call": 2, "next_run": 2, "clock": 5, "resources": [resource]}, FIRST)
    return journal_format.head(snapshot=snapshot, version=FIRST) + CLOSED


@helper.in_memory
class RealSyncs(helper.Check):
    def setUp(self):
        super().setUp()
        if not shutil.which("cc"):
            self.skipTest("install a C compiler (apt-get install gcc)")
        self.shim = helper.shim("real_syncs.c", self.here)
        self.agent("Step", 'sleep "${OCF_RESKEY_time:-0}"\nexit "${OCF_RESKEY_code:-0}"\n')
        self.seed, self.counts, self.words = helper.number("SEED", 20261126), collections.Counter(), []

    def begun(self, place="journal", *texts):
        """A journal with these parts, or one whose files do not exist yet."""
        return Journal(self.journal_of(place, *texts), *texts)

    def opened(self, journal, word, asked, lie="", fault=""):
        """Opens a journal, sends commands, and checks the calls against the rules; returns the calls, the status, and the standard
        output."""
        asked = list(asked)
        self.note(os.path.basename(journal.directory) + ".asked", b"".join(lines for lines, _ in asked))
        layers = {"LD_PRELOAD": self.shim, "LOG": self.place("log"), "SHIM": lie, "FAULT": fault}
        words = [PROGRAM, word, "--journal", journal.directory, "--root", self.here, *self.words]
        with open(self.place("out"), "w+b") as out, open(self.place("log"), "wb"):
            run = subprocess.Popen(words, stdin=subprocess.PIPE, stdout=out, stderr=subprocess.DEVNULL, env=layers)
            self.asks(run, asked)
            status = run.wait(60)
            out.seek(0)
            written = out.read()
        calls = calls_of(self.place("log"))
        journal.opening(calls)
        self.are_all(journal, calls, written)
        return calls, status, written

    def asks(self, run, asked):
        try:
            with run.stdin:
                for lines, pause in asked:
                    run.stdin.write(lines)
                    run.stdin.flush()
                    time.sleep(pause)
        except BrokenPipeError:
            # it was killed
            pass

    def are_all(self, journal, calls, written):
        """These calls made all of standard output and of the files. Each kind is counted."""
        self.assertEqual(b"".join(call.text[:call.made] for call in calls if call.path == OUT), written, "standard output")
        for path, part in journal.parts.items():
            with open(path, "rb") as file:
                self.assertTrue(file.read() == part.text, f"calls that made all of {path}")
        kinds = {"writes": is_write, "syncs": is_sync, "agents": lambda call: call.name == "spawn",
                 "records": lambda call: is_gate(call) and call.at > 0, "parts": lambda call: is_gate(call) and call.at == 0}
        for kind, is_one in kinds.items():
            self.counts[kind] += sum(map(is_one, calls))

    def report(self):
        print("real_syncs: " + ", ".join(f"{count} {kind}" for kind, count in self.counts.items()), flush=True)

    def faults(self, calls, *words, among=is_device_call):
        """Random faults of some of the writes and syncs of a session."""
        places = [place for place, call in enumerate(filter(is_device_call, calls), 1) if among(call)]
        dice = random.Random(self.seed)
        return [f"{dice.choice(words)} {place}" for place in dice.sample(places, min(len(places), helper.number("FAULTS", 6)))]

    # The program's behaviour.

    def session(self, journal, dice, lie=""):
        """Random openings of a journal, some of which are killed in one of their calls if there is no lie."""
        for _ in range(4):
            fault = f"kill {dice.randrange(1, 120)}" if dice.random() < 0.4 and not lie else ""
            _, status, _ = self.opened(journal, dice.choice(["run", "serve"]), batches(dice, 40), lie, fault)
            self.assertIn(status, (0, -9) if fault else (0,))
            self.counts["kills"] += status == -9

    def test_sessions(self):
        """every write of a random session is synced before it counts, before the next write, and before an acknowledgement or a start"""
        for place in range(helper.number("ROUNDS", 3)):
            with self.subTest(place=place):
                self.session(self.begun(f"journal{place}"), random.Random(self.seed + place))
        self.report()
        self.assertTrue(all(self.counts.values()), "each kind of call, and a kill: try more rounds")

    def test_first_layout(self):
        """every write of a migration from the first layout is synced before it counts, killed or not"""
        calls, status, _ = self.opened(self.begun("journal", first_layout(), b""), "run", [])
        self.assertEqual((status, self.counts["parts"], self.counts["records"]), (0, 1, 1), "a new part, and a boot")
        for fault in self.faults(calls, "kill"):
            with self.subTest(fault=fault):
                journal = self.begun(fault, first_layout(), b"")
                self.assertEqual(self.opened(journal, "run", [], fault=fault)[1], -9)
                self.assertEqual(self.opened(journal, "run", SHORT)[1], 0, "the next opening")
        self.report()

    def test_own_tidy(self):
        """a tidy that the program makes by itself syncs the pieces of its snapshot together, before their gate is opened"""
        self.words = ["--tidy-at", "1"]
        large = {"op": "params", "id": "r0", "params": {f"p{place:02}": "x" * 1000 for place in range(15)}}
        calls, status, _ = self.opened(self.begun(), "run", [(helper.lines(helper.register("r0", "Step"), *[large] * 200), 0)])
        of_part = [call for call in calls if is_device_call(call) and os.path.basename(call.path) == helper.PARTS[1]]
        gate = next(place for place, call in enumerate(of_part) if is_gate(call))
        self.assertEqual((status, [call.name for call in of_part[gate - 6:gate]]), (0, ["fdatasync", *["pwrite"] * 4, "fdatasync"]))

    # The effect of calls that fail.

    def test_failures(self):
        """after a write or a sync that failed there is no other, and only what was recorded before is acknowledged"""
        for fault in self.faults(self.opened(self.begun(), "run", SHORT)[0], "eio"):
            with self.subTest(fault=fault):
                journal = self.begun(fault)
                calls, status, _ = self.opened(journal, "run", SHORT, fault=fault)
                self.assertEqual(([call.answer for call in calls if call.answer < 0], status), ([-errno.EIO], 5))
                self.assertEqual(self.opened(journal, "run", SHORT)[1], 0, "the next opening")

    def test_interruptions(self):
        """an interrupted call is repeated, and a write that was cut short continues, before anything is acknowledged"""
        calls, *wanted = self.opened(self.begun(), "run", SHORT)
        for fault in self.faults(calls, "eintr", "short"):
            with self.subTest(fault=fault):
                self.assertEqual(self.opened(self.begun(fault), "run", SHORT, fault=fault)[1:], tuple(wanted))

    # Calls that break a rule.

    def breaks(self, lie, journal, fault=""):
        """The rule that a lie breaks in a short session."""
        with self.assertRaises(Broken) as found:
            self.opened(journal, "run", SHORT, lie, fault)
        return found.exception.rule

    def breaks_both(self, lie):
        """The rules that a lie breaks when a journal is created, and when one is opened."""
        old = self.begun("old")
        self.opened(old, "run", SHORT)
        return self.breaks(lie, self.begun("new")), self.breaks(lie, old)

    def test_skips(self):
        """a library that skips one sync in forty is found"""
        for place in range(3):
            with self.subTest(place=place):
                with self.assertRaises(Broken) as found:
                    self.session(self.begun(f"journal{place}"), random.Random(self.seed + place), "skip40")
                self.assertIn(found.exception.rule, COUNTED)

    def test_skips_an_opening(self):
        """a library that skips the syncs of an opening is found"""
        self.assertEqual(self.breaks_both("opening"), ("opening", "opening"))

    def test_skips_a_directory(self):
        """a library that skips the sync of the directory in which a journal is made is found"""
        self.assertEqual(self.breaks("directory", self.begun("new")), "directory")

    def test_other(self):
        """a library that syncs the other part is found"""
        self.assertEqual(self.breaks_both("other"), ("opening", "opening"))

    def test_second(self):
        """a library that makes only the second of two syncs is found"""
        self.assertEqual(self.breaks_both("second"), ("write", "gate"))

    def test_again(self):
        """a library that repeats a sync that failed, and answers it as done, is found"""
        for fault in self.faults(self.opened(self.begun(), "run", SHORT)[0], "eio", among=is_sync):
            self.assertEqual(self.breaks("again", self.begun(fault), fault), "fault", fault)

    def broken(self, calls, texts, is_one, change):
        """The rules that the calls of a session break if one call of a kind is changed, each in turn, from the first write on."""
        first = next(place for place, call in enumerate(calls) if is_write(call))
        for place in range(first, len(calls)):
            if is_one(calls[place]):
                with self.assertRaises(Broken, msg=calls[place]) as found:
                    Journal(self.place("journal"), *texts).opening([*calls[:place], *change(calls[place]), *calls[place + 1:]])
                yield found.exception.rule

    def made(self):
        """The parts of a journal that was created before."""
        journal = self.begun("made")
        self.opened(journal, "run", [])
        for path in journal.parts:
            with open(path, "rb") as file:
                yield file.read()

    def test_each_call(self):
        """each sync of a session is needed, of its own part, and each write in its place"""
        texts = list(self.made())
        journal = self.begun("journal", *texts)
        calls, *_ = self.opened(journal, "run", SHORT)
        self.assertEqual(self.counts["agents"], AGENTS, "each agent is noted")
        other = dict(zip(journal.parts, reversed(journal.parts)))
        for what, is_one, change, rules in [
                ("left out", is_sync, lambda call: [], COUNTED),
                ("of the other part", is_sync, lambda call: [call._replace(path=other[call.path])], COUNTED),
                ("failed", is_sync, lambda call: [call._replace(answer=-errno.EIO)], {"fault"}),
                ("a byte late", lambda call: is_write(call) and call.text != b"\0", lambda call: [call._replace(at=call.at + 1)], {"gate"}),
                ("a byte early", lambda call: is_write(call) and call.size > 1, lambda call: [call._replace(at=call.at - 1)], {"place"}),
                ("without an offset", is_write, lambda call: [call._replace(name="write")], {"change"})]:
            with self.subTest(what):
                self.assertEqual(set(self.broken(calls, texts, is_one, change)), rules)
