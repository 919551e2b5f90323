"""A long history: hours over one journal, on a simulated clock. The program of tests/trials plays them through the program's own session,
with a disk in memory and scripted agents; this module plans them, and checks all output. 64 resources have four recurring monitors each. A
client starts, stops, withdraws and asks at random, at times a hundred lines at once. The wall clock jumps at each opening, and the session
itself tidies journals. In each hour a crash comes in a random device call after the opening, and half of the openings after that crash,
too; an hour that ends before its crash is one more. Of unsynced bytes a crash leaves none, all, or others. Wanted: an opening finds every
acknowledged command and every reported result, in order, and beyond that at most the command that was refused for the disk and one
unreported result of each resource. Each action that was queued or ran is reported, withdrawn, or found as dropped or interrupted, and an
opening reports exactly those that it found so. A reply has the tag of its line, and a notice that of a call of its hour. The parts stay
below their limit and are tidied. The memory does not grow with the days. At the end, after an orderly close, each history is exactly what
was reported.
The environment may set DAYS and SEED."""
import collections
import json
import os
import random
import subprocess
import time

import helper

HOUR = 3_600_000
PART_LIMIT = 8_388_608
# the tail past which a session tidies by itself, as soon as that gains two megabytes
TIDY_AT = 1_048_576
KEPT = 64
IDS = [f"r{n:02}" for n in range(64)]
INTERVALS = [120_000, 300_000, 600_000, 1_800_000]
QUESTIONS = [{"op": "list"}] + [{"op": op, "id": name} for name in IDS for op in ("info", "history")]


class Resource:
    """A resource as it is known from acknowledgements and reports."""

    def __init__(self, there=False, params=None):
        self.there = there
        self.params = params
        self.results = []  # the last ones; a withdrawn action has no moments here before it is found, since no reply has them
        self.newest = 0  # the greatest run that was reported
        self.queued = {}  # the acknowledged actions that were not reported, by their calls
        self.monitors = {}  # the calls of its monitors, by their intervals


def withdrawn(command, action):
    """The result of a withdrawn action, in the order of a result's keys."""
    return {"action": action, "at": None, "call": command["call"], "code": 1, "interval": 0, "name": "OCF_ERR_GENERIC",
            "outcome": "cancelled", "run": 0, "since": None}


def is_booted(result):
    return result["outcome"] in ("interrupted", "dropped")


class Life:
    """A random history, with AddressSanitizer or without; if `tidies` is set its client tidies once an hour. The input of the program is
    kept, and plays the history again."""

    def __init__(self, seed, note, plain, tidies):
        self.dice, self.note, self.tidies = random.Random(seed), note, tidies
        self.all = {name: Resource() for name in IDS}
        self.doubt = []  # the commands that were refused together, as the disk failed: they may have been recorded
        self.next_call = 1  # greater than each call that was reported or found
        self.opening = 13  # how many device calls an opening makes; each record costs four
        self.hourly = 4_000  # how many an hour makes after that
        self.counts = collections.Counter()
        self.wall = 1_700_000_000_000
        self.tags = {}  # those of the calls of an hour
        # freed memory is not kept for long, so that the memory of the process is that of the history
        self.program = subprocess.Popen([helper.trials(plain), "life"], stdin=subprocess.PIPE, stdout=subprocess.PIPE,
                                        env={**os.environ, "ASAN_OPTIONS": "quarantine_size_mb=1"})

    # the lines of a client

    def missing_lines(self):
        """Registers what is missing, and adds its monitors."""
        for name, known in self.all.items():
            if not known.there:
                yield {"op": "register", "id": name, "provider": "test", "type": "Any", "params": {"a": name}}
            for interval in INTERVALS:
                if interval not in known.monitors:
                    yield {"op": "recur", "id": name, "interval": interval, "timeout": self.dice.choice([5, 50, 20_000])}

    def chance_line(self):
        name, roll = self.dice.choice(IDS), self.dice.randrange(100)
        if roll < 70:
            what = self.dice.choice(["start", "stop", "monitor", "promote", "demote"])
            return {"op": "exec", "id": name, "action": what, "timeout": self.dice.choice([1, 5, 1_000, 20_000])}
        if roll < 80:
            return {"op": "params", "id": name, "params": {"a": str(self.dice.randrange(1_000))}}
        if roll < 90:
            interval = self.dice.choice(INTERVALS)
            return {"op": "cancel", "id": name, "interval": interval} if roll < 85 else {"op": "recur", "id": name, "interval": interval}
        return {"op": ["forget", "unregister", "info", "history", "list"][roll // 2 - 45], "id": name}

    def client(self):
        """The lines of a client in an hour, with the moments."""
        lines = [(1, line) for line in self.missing_lines()]
        lines += [(self.dice.randrange(2, HOUR), self.chance_line()) for _ in range(100)]
        burst = self.dice.randrange(2, HOUR)
        lines += [(burst, self.chance_line()) for _ in range(100)]
        lines = self.with_withdrawals(sorted(lines, key=lambda line: line[0]))
        # two lines of three have a tag
        return [(at, {**line, "tag": f"{self.counts['hours']} {place}"} if place % 3 else line) for place, (at, line) in enumerate(lines)]

    def with_withdrawals(self, lines):
        """After each fifth action its withdrawal, at the same moment. It names the expected call of the action, which is right as long
        as the only refused commands are those of unregistered resources and of intervals that exist already."""
        call, gone, busy = self.next_call, set(), {}
        monitors = {(name, interval) for name, known in self.all.items() for interval in known.monitors}
        for at, line in lines:
            yield at, line
            name, monitor = line.get("id"), (line.get("id"), line.get("interval"))
            match line["op"]:
                case "unregister" if busy.get(name) != at:
                    gone.add(name)
                case "cancel":
                    monitors.discard(monitor)
                case "recur" if monitor not in monitors and name not in gone:
                    monitors.add(monitor)
                    call += 1
                case "exec" if name not in gone:
                    if self.dice.random() < 0.2:
                        yield at, {"op": "withdraw", "id": name, "call": call}
                    else:
                        busy[name] = at
                    call += 1

    # an incarnation

    def incarnation(self, stop, serves, lines):
        """Plays an incarnation of an hour; returns its output, by lines, and the numbers that it left."""
        self.wall += HOUR + self.dice.choice([0, 0, 5, HOUR, -HOUR, -30 * HOUR])
        head = [self.wall, HOUR, stop, self.dice.randrange(4), self.dice.getrandbits(63), serves, TIDY_AT, len(lines)]
        text = " ".join(map(str, head)) + "\n" + "".join(f"{at} {json.dumps(line)}\n" for at, line in lines)
        self.note(text.encode())
        self.program.stdin.write(text.encode())
        self.program.stdin.flush()
        out = []
        for line in self.program.stdout:
            if line.startswith(b"== "):
                return out, self.left(line)
            if not self.is_ready(helper.value_of(line), serves, out):
                out.append(helper.value_of(line))
        raise AssertionError(f"the program ended, with {self.program.wait()}")

    def is_ready(self, value, serves, before):
        """Whether it is the ready line. An earlier opening left nothing to report."""
        if helper.is_ready(value):
            there = sum(known.there for known in self.all.values())
            found = [value[key] for key in ("interrupted", "dropped", "resources", "journal")]
            assert serves and not before and found == [0, 0, there, None], (value, before)
        return helper.is_ready(value)

    def left(self, line):
        """How many device calls an incarnation had; none of its parts is too long."""
        numbers = [int(word) for word in line.replace(b",", b"").split() if word.isdigit()]
        calls, a, epoch_a, b, epoch_b = numbers
        assert max(a, b) <= PART_LIMIT, line
        self.counts["epochs"] = max(epoch_a, epoch_b)
        return calls

    def memory(self):
        """The greatest resident memory that the program ever had, in KiB."""
        with open(f"/proc/{self.program.pid}/status", encoding="ascii") as file:
            return next(int(line.split()[1]) for line in file if line.startswith("VmHWM"))

    # the output of an incarnation

    def take_notice(self, notice):
        known = self.all[notice["id"]]
        assert known.there and notice["run"] > known.newest, ("reported again, or of none", notice)
        assert notice.get("tag") == self.tags.get(notice["call"]), ("the tag of another call", notice)
        known.newest = notice["run"]
        known.results = [*known.results, helper.result_of(notice)][-KEPT:]
        if notice["interval"] == 0:
            assert known.queued.pop(notice["call"], None) == notice["action"], ("a result of no action", notice)
        self.counts["reported"] += 1

    def take_reply(self, command, reply):
        name = command.get("id")
        known = self.all.get(name)
        assert reply.get("tag") == command.get("tag"), ("the tag of another line", command, reply)
        if "error" in reply:
            self.counts[reply["error"]] += 1
            if reply["error"] == "disk":
                self.doubt.append(command)
            return
        self.counts["acknowledged"] += command["op"] not in ("list", "info", "history")
        self.next_call = max(self.next_call, reply.get("call", 0) + 1)
        self.tags[reply.get("call")] = reply.get("tag")
        match command["op"]:
            case "register":
                assert not known.there
                self.all[name] = Resource(True, command["params"])
            case "unregister":
                assert not known.queued
                self.all[name] = Resource()
            case "params":
                known.params = command["params"]
            case "exec":
                known.queued[reply["call"]] = command["action"]
            case "recur":
                known.monitors[command["interval"]] = reply["call"]
            case "cancel":
                del known.monitors[command["interval"]]
            case "withdraw":
                known.results = [*known.results, withdrawn(command, known.queued.pop(command["call"]))][-KEPT:]
                self.counts["withdrawn"] += 1
            case "forget":
                known.results = []

    def take(self, lines, out):
        """Replies, one to a line, and between them notices, and ends of turns that no line requested."""
        asked, self.tags = iter(lines), {}
        for line in out:
            if "outcome" in line:
                self.take_notice(line)
            elif "end" not in line:
                self.take_reply(next(asked), line)

    # what an opening finds

    def doubts(self, op, name, **keys):
        """Whether a command of these keys is among those that were refused together, as the disk failed: they are recorded, or not."""
        wanted = {"op": op, "id": name, **keys}
        return any(wanted.items() <= command.items() for command in self.doubt)

    def params_in_doubt(self, name):
        return [command["params"] for command in self.doubt if command.get("id") == name and "params" in command]

    def look_at_list(self, found):
        for name in IDS:
            known = self.all[name]
            if known.there != (name in found):
                assert self.doubts("unregister" if known.there else "register", name), ("the registry", name)
                self.all[name] = Resource(not known.there, next(iter(self.params_in_doubt(name)), None))
        assert set(found) <= set(IDS)

    def look_at_info(self, name, reply):
        known = self.all[name]
        assert known.there == ("error" not in reply), reply
        if not known.there:
            return
        assert (reply["queued"], reply["running"]) == ([], None), ("an opening leaves nothing queued", reply)
        if reply["params"] != known.params:
            assert reply["params"] in self.params_in_doubt(name), ("parameters", reply)
            known.params = reply["params"]
        found = {monitor["interval"]: monitor["call"] for monitor in reply["recurring"]}
        for interval, _ in set(found.items()) ^ set(known.monitors.items()):
            op = "recur" if interval in found else "cancel"
            assert self.doubts(op, name, interval=interval), ("monitors", reply, known.monitors)
        known.monitors = found
        self.next_call = max([self.next_call, *[call + 1 for call in found.values()]])

    def date(self, known, found):
        """Sets the moment of a withdrawn action to that at which it is found: a single one, as it neither began nor ran."""
        moments = {result["call"]: result["at"] for result in found if result["outcome"] == "cancelled"}
        for result in known.results:
            if result["at"] is None and result["call"] in moments:
                result["at"] = result["since"] = moments[result["call"]]

    def look_at_history(self, name, reply, exact):
        """Everything reported, at most one result more, and then the actions that an opening ended, which are returned."""
        known = self.all[name]
        if not known.there:
            return []
        self.date(known, reply["results"])
        found, old = reply["results"], set(map(str, known.results))
        fresh = [result for result in found if str(result) not in old]
        booted = [result for result in fresh if is_booted(result)]
        more = [result for result in fresh if not is_booted(result)]
        ended = [result for result in more if result["outcome"] != "cancelled"]
        assert len(ended) <= (0 if exact else 1), ("results that were not reported", name, more)
        for result in more:
            if result["outcome"] == "cancelled":
                assert self.doubts("withdraw", name, call=result["call"]), ("withdrawn by itself", name, result)
        reported = [] if self.doubts("forget", name) and len(found) == len(fresh) else known.results
        assert found == [*reported, *more, *booted][-KEPT:], ("a history", name, known.results, found)
        for result in more + booted:
            known.newest = max(known.newest, result["run"])
            self.next_call = max(self.next_call, result["call"] + 1)
            if result["interval"] == 0:
                known.queued.pop(result["call"], None)
        # a start in doubt may be among the dropped ones, and nothing else may be left
        assert not known.queued, ("an acknowledged action is lost", name, known.queued)
        known.results = found
        self.counts["unreported"] += len(more)
        self.counts["ended by an opening"] += len(booted)
        return booted

    def look(self, exact=False, second=False):
        """An opening without a crash and without turns, with all questions. It reports everything that an opening ended, or nothing if
        an earlier opening that crashed may have ended it."""
        epochs = self.counts["epochs"]
        out, self.opening = self.incarnation(0, 0, [(0, line) for line in QUESTIONS])
        if self.counts["epochs"] > epochs:
            # it tidied after its opening: the next opening is of the other part
            rest, self.opening = self.incarnation(0, 0, [])
            assert rest == [], rest
        report, ended = [], []
        while "outcome" in out[0]:
            report.append({"id": out[0]["id"], **helper.result_of(out.pop(0))})
        assert len(out) == len(QUESTIONS)
        for command, reply in zip(QUESTIONS, out):
            match command["op"]:
                case "list":
                    self.look_at_list(reply["resources"])
                case "info":
                    self.look_at_info(command["id"], reply)
                case "history":
                    ended += [{"id": command["id"], **result} for result in self.look_at_history(command["id"], reply, exact)]
        key = lambda line: (line["id"], line["call"])
        assert (second and not report) or sorted(report, key=key) == sorted(ended, key=key), (report, ended)
        self.doubt = []

    def stopped_opening(self, calls):
        """An opening that crashes near its end, before the report or after it."""
        out, _ = self.incarnation(max(1, calls + self.dice.randrange(-12, 8)), 0, [])
        assert all(map(is_booted, out)), out
        self.counts["openings that reported and were stopped"] += bool(out)

    def hour(self, stops):
        """An hour of a client, with a crash or without."""
        lines = self.client()
        # (how a tidy ended is no reply)
        tidies = [(self.dice.randrange(2, HOUR), {"op": "tidy"})] if self.tidies else []
        stop = self.opening + self.dice.randrange(1, self.hourly) if stops else 0
        out, calls = self.incarnation(stop, 1, sorted([*lines, *tidies], key=lambda line: line[0]))
        self.take([line for _, line in lines], out)
        # an hour that crashed does not show how many calls it would have made: perhaps more than expected
        self.hourly = self.hourly * 101 // 100 if 0 < stop <= calls else max(500, calls - self.opening)
        self.counts["hours"] += 1
        self.counts["stops"] += stops and calls >= stop
        second = stops and self.dice.random() < 0.5
        if second:
            self.stopped_opening(calls)
        self.look(exact=not stops, second=second)

    def ends(self):
        self.program.stdin.close()
        self.program.stdout.close()
        return self.program.wait()


@helper.slow
@helper.needs("trials")
class Soak(helper.Check):
    def test_minute(self):
        """a history of a minute prints exactly what it printed before"""
        texts = []
        for name in ("life.stdin", "life.stdout"):
            with open(os.path.join(helper.TOP, "tests/trials", name), "rb") as file:
                texts.append(file.read())
        done = subprocess.run([helper.trials(), "life"], input=texts[0], capture_output=True, timeout=helper.PATIENCE)
        self.assertEqual((done.returncode, done.stdout, done.stderr), (0, texts[1], b""))

    def lived(self, stops, plain, tidies):
        """A history with this many crashes, between an hour without a crash and another; returns what it counted, and its memory after
        half of the crashes and at the end."""
        seed, began, half = helper.number("SEED", 20261124), time.monotonic(), 0
        life = Life(seed, lambda text: self.note("stdin", text), plain, tidies)
        self.addCleanup(life.program.kill)
        life.hour(False)
        while life.counts["stops"] < stops:
            life.hour(True)
            if life.counts["stops"] == stops // 2:
                half = life.memory()
        life.hour(False)
        late = life.memory()
        self.assertEqual(life.ends(), 0)
        print(f"soak: {stops} stops in {time.monotonic() - began:.0f} s, seed {seed}: {dict(life.counts)};",
              f"memory at most {half} KiB in its first half, {late} KiB in all", flush=True)
        return life.counts, half, late

    def test_life(self):
        """a long history: crashes each hour, and nothing reported is lost"""
        days = helper.number("DAYS", 1)
        counts, half, late = self.lived(24 * days, plain=True, tidies=False)
        # a part is tidied at some 2.2 MiB, which a day fills; by then the disk in memory has reached its full size
        self.assertGreater(counts["epochs"], days // 3, "tidies by themselves")
        self.assertGreater(counts["withdrawn"], 100 * days, "actions that were withdrawn")
        if days >= 8:
            self.assertLess(late, half * 1.1, "memory that grows with the days")

    def test_sanitized(self):
        """some hours of a history whose client tidies, with AddressSanitizer"""
        counts, _, _ = self.lived(2, plain=False, tidies=True)
        self.assertGreater(counts["reported"], 1000, "results that were reported")
        self.assertGreater(counts["epochs"], 2, "tidies")
