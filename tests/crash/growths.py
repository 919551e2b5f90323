"""Refuses each growth of memory of whole runs, one in each run: the K-th malloc, calloc or realloc of the program fails
(tests/shims/growths.c, loaded before the C library), for K = 1, 2, .. until a run has no K-th one; for the opening of a full journal only
one in 199. Wanted each time: no signal. An opening to which memory is refused ends with status 4, has answered nothing and leaves the files
as they were, except for a creation. A command is refused with `memory`, and everything else is as in a run without it. A turn ends as
`memory`, or an agent is not started, and no request is lost. A reply or a notice ends the run with status 7, and what was sent is in the
journal. Otherwise the run is like any other.
The environment sets LINKED if tests/shims/growths.c is linked into the program."""
import collections
import json
import os
import shutil
import struct
import subprocess
import threading
import time
import unittest

import helper
from helper import PROGRAM

MEMORY = {"error": "memory", "number": 15}
# How standard error begins with each status, if it goes to the system's journal.
ENDS = {0: "", 4: "ocfexec: memory\nFree memory ", 7: "ocfexec: input or output\nA reply or a notice found no memory."}
DRAIN, LIST = {"op": "drain"}, {"op": "list"}


class Step:
    """A command; how long to wait before it, in seconds; whether its result is awaited when turns make themselves; and whether the next
    command is written with it."""

    def __init__(self, command, pause=0.0, awaits=False, joins=False):
        self.command, self.pause, self.awaits, self.joins = command, pause, awaits, joins


def batches(steps):
    """The steps that are written at once."""
    batch = []
    for step in steps:
        batch.append(step)
        if not step.joins:
            yield batch
            batch = []
    if batch:
        yield batch


class Played:
    """A run: its values for each step, how it ended, and how many growths it made and how many were refused."""

    def __init__(self):
        self.answers, self.status, self.err, self.made, self.refused = [], None, "", 0, 0

    def notices(self):
        return [value for values in self.answers for value in values if helper.is_notice(value)]

    def seen(self):
        """The replies, step by step, and all notices in one order: when one comes, and which resource begins first, is a matter of time."""
        return [[value for value in values if not helper.is_notice(value)] for values in self.answers], loose(own_runs(self.notices()), ())


def plain(value):
    """A value without its moments."""
    if isinstance(value, dict):
        return {key: plain(part) for key, part in value.items() if key not in ("since", "at")}
    return [plain(part) for part in value] if isinstance(value, list) else value


def loose(value, but):
    """A value without some keys, in its parts too, and with its parts in one order."""
    if isinstance(value, dict):
        return {key: loose(part, but) for key, part in value.items() if key not in but}
    if isinstance(value, list):
        return sorted((loose(part, but) for part in value), key=lambda part: json.dumps(part, sort_keys=True))
    return value


def own_runs(notices):
    """Notices with the runs of each resource counted from 1, in their order."""
    runs = collections.defaultdict(list)
    for value in sorted((value for value in notices if "run" in value), key=lambda value: value["run"]):
        runs[value["id"]].append(value["run"])
    return [{**value, "run": 1 + runs[value["id"]].index(value["run"])} if "run" in value else value for value in notices]


def files_of(folder):
    """The bytes of a journal's parts; a missing file has none."""
    found = []
    for name in ("part-a", "part-b"):
        path = os.path.join(folder, name)
        found.append(b"")
        if os.path.exists(path):
            with open(path, "rb") as part:
                found[-1] = part.read()
    return found


def state(folder):
    """The output of `show` for a journal, without moments: a pair of replies for each id."""
    values = plain(helper.replies(helper.shown(folder)))
    return {name: values[1 + 2 * place:3 + 2 * place] for place, name in enumerate(values[0]["resources"])}


@helper.slow
@helper.in_memory
@unittest.skipUnless(shutil.which("cc"), "install a C compiler")
class Growths(helper.Check):
    def setUp(self):
        super().setUp()
        self.counts, self.gate = self.place("counts"), self.place("gate")
        # a sanitized program contains the counters
        self.shim = {} if helper.number("LINKED", 0) else {"LD_PRELOAD": helper.shim("growths.c", self.here)}

    # A run.

    def environment(self, refuse):
        with open(self.counts, "wb") as file:
            file.write(bytes(16))
        return {**self.shim, "GROWTHS": self.counts, "REFUSE": str(refuse)}

    def value(self, run):
        # the next value that is sent; None at the end of the output
        line = run.stdout.readline()
        if not line.endswith(b"\n"):
            return None
        value = helper.value_of(line)
        if helper.is_ready(value):
            return self.value(run)
        if "meta" in value:
            value["text"] = run.stdout.read(value["meta"] + 1).decode()
        if "error" in value or value.get("id") == "r2" and helper.is_notice(value):
            self.open_gate()
        return plain(value)

    def open_gate(self):
        # the first of two agents waits for this
        with open(self.gate, "w", encoding="ascii"):
            pass

    def values(self, run, step, open_calls):
        # all values of a step, and whether the output has not ended
        values, replied = [], False
        while not replied or step.awaits and open_calls:
            value = self.value(run)
            if value is None:
                return values, False
            values.append(value)
            replied = replied or not helper.is_notice(value)
            if helper.is_notice(value):
                open_calls.discard(value["call"])
            elif "call" in value:
                open_calls.add(value["call"])
        return values, True

    def talk(self, run, steps, played, serves):
        open_calls = set()
        for batch in batches(steps):
            if serves and batch[0].command == DRAIN:
                played.answers.append([])
                continue
            time.sleep(batch[0].pause)
            try:
                run.stdin.write(helper.lines(*[step.command for step in batch]))
                run.stdin.flush()
            except BrokenPipeError:
                return
            for step in batch:
                values, goes_on = self.values(run, step if serves else Step(None), open_calls)
                if values or goes_on:
                    played.answers.append(values)
                if not goes_on:
                    return

    def play(self, words, steps, refuse=0):
        """A run with these arguments, whose steps are sent one after another."""
        if os.path.exists(self.gate):
            os.remove(self.gate)
        if helper.action("r2", "start") not in [step.command for step in steps]:
            self.open_gate()
        played = Played()
        reader, writer = os.pipe()
        run = subprocess.Popen([PROGRAM, *words], stdin=subprocess.PIPE, stdout=subprocess.PIPE, stderr=writer,
                               env={**self.environment(refuse), **helper.journal_stream(writer)})
        os.close(writer)
        guard = threading.Timer(15, run.kill)
        guard.start()
        self.talk(run, steps, played, words[0] == "serve")
        try:
            run.stdin.close()
        except BrokenPipeError:
            pass
        with os.fdopen(reader, encoding="utf-8") as err:
            rest, played.err = run.stdout.read(), helper.STILL_ALIVE.sub("", err.read())
        run.stdout.close()
        played.status = run.wait()
        guard.cancel()
        if not steps and rest:
            played.answers = [plain(helper.replies(rest))]
        with open(self.counts, "rb") as file:
            played.made, played.refused = struct.unpack("ll", file.read())
        return played

    # The requirements.

    def is_explained(self, found):
        self.assertIn(found.status, ENDS, found.err)
        self.assertTrue(found.err.startswith(ENDS[found.status]) or found.status == 0, found.err)

    def is_found(self, steps, found, folder):
        # what was acknowledged and reported is in the journal; commands that were written at once may be there before they are acknowledged
        end = len(found.answers) + 1
        while end < len(steps) and steps[end - 1].joins:
            end += 1
        shown, last = state(folder), steps[len(found.answers) - 1:end]
        for step, values in zip(steps, found.answers):
            command, accepted = step.command, any(value.get("ok") for value in values)
            if not accepted or command["op"] not in ("register", "exec", "params"):
                continue
            self.assertIn(command["id"], shown)
            info, history = shown[command["id"]]
            if command["op"] == "params" and command not in [step.command for step in last]:
                self.assertEqual(info["params"], command["params"])
            call = next((value["call"] for value in values if "call" in value and "ok" in value), None)
            calls = info["queued"] + [(info["running"] or {}).get("call")] + [end["call"] for end in history["results"]]
            self.assertTrue(call is None or call in calls, f"call {call}")
        for notice in found.notices():
            self.assertIn(helper.result_of(notice), shown[notice["id"]][1]["results"], "a notice that was sent")

    def ended_early(self, steps, base, found, folder, before):
        if found.status == 4:
            self.assertEqual(found.answers, [], "nothing answered with status 4")
            created = before[0] == b"" and state(folder) == {}
            self.assertTrue(files_of(folder) == before or created, "files as they were with status 4")
            return "opening"
        replies, wanted = found.seen()[0][:-1], base.seen()[0]
        self.assertEqual(replies, wanted[:len(replies)], "before a reply without memory")
        self.is_found(steps, found, folder)
        return "reply"

    def turned(self, base, found, lost):
        # a turn that ended as memory, or an agent that was not started: everything else is done
        starts = sum(value["outcome"] == "not-started" for value in found.notices())
        ends = sum(value == {"end": "memory"} for values in found.answers for value in values)
        self.assertEqual(starts + ends, 1, "one turn that found no memory")
        but = ("run", "outcome", "code", "name", "failed")
        notices, wanted = loose(found.notices(), but), loose(base.notices(), but)
        missing = len(wanted) - len(notices)
        self.assertTrue(0 <= missing <= lost and all(value in wanted for value in notices), "what is reported")
        runs = [value["run"] for value in found.notices() if "run" in value]
        self.assertEqual(len(set(runs)), len(runs), "runs of their own")
        codes = [(value["outcome"], value["code"]) for value in found.notices() if value["outcome"] != "done"]
        self.assertEqual(codes, [("not-started", 1)] * starts)
        return "not started" if starts else "turn"

    def judge(self, words, steps, base, found, folder, before, lost):
        """How a run with one refused growth ended, in a word."""
        self.is_explained(found)
        if found.status:
            return self.ended_early(steps, base, found, folder, before)
        self.assertEqual(len(found.answers), len(steps))
        refused = [place for place, values in enumerate(found.answers) if MEMORY in map(helper.bare, values)]
        if refused:
            self.places.update(refused)
            left = self.without(words, steps, refused[0])
            (replies, notices), wanted = found.seen(), left.seen()
            self.assertEqual((len(refused), [helper.bare(value) for value in replies.pop(refused[0])]), (1, [MEMORY]))
            self.assertEqual((replies, notices), wanted, "as without this command")
            return "refused"
        metas = [[{key: part for key, part in value.items() if key != "tag"} for value in values]
                 for step, values in zip(steps, found.answers) if step.command["op"] == "meta"]
        if metas and metas[0] in ([{"end": "memory"}], [{"end": "other"}], [{"end": "read"}]):
            return "meta " + metas[0][0]["end"]
        if found.seen() == base.seen():
            return "as any"
        return self.turned(base, found, lost)

    def without(self, words, steps, place):
        # a run without one of its steps
        if place not in self.known:
            self.fresh()
            self.known[place] = self.play(words, steps[:place] + steps[place + 1:])
            self.assertEqual(self.known[place].status, 0)
        return self.known[place]

    def fresh(self):
        # the journal of a run, as it was before
        shutil.rmtree(self.place("journal"), ignore_errors=True)
        if self.before is None:
            return self.journal()
        return shutil.copytree(self.before, self.place("journal"))

    def sweep(self, words, steps, lost=0, before=None, opens=True, stride=1):
        """Refuses each growth of a run, or only those from shortly before the first line on, or one in this many; returns how each run
        ended."""
        self.known, self.places, self.before, ends = {}, set(), before, collections.Counter()
        folder = self.fresh()
        words = [word.replace("JOURNAL", folder) for word in words]
        refuse = 1 if opens else self.play(words, []).made - 5
        self.fresh()
        base = self.play(words, steps)
        self.assertEqual((base.status, base.err, base.refused), (0, "", 0))
        while True:
            self.fresh()
            files = files_of(folder)
            found = self.play(words, steps, refuse)
            if not found.refused:
                break
            with self.subTest(refused=refuse):
                ends[self.judge(words, steps, base, found, folder, files, lost)] += 1
            refuse += stride
        print(f"growths: {' '.join(words[:1])} {self._testMethodName}: {base.made} growths: "
              + ", ".join(f"{count} {end}" for end, count in sorted(ends.items())), flush=True)
        return base

    # The scripts.

    def words(self, word, *more):
        return [word, "--journal", "JOURNAL", "--root", self.here, "--path", "/usr/bin:/bin", "--orphans", "0", *more]

    def listed(self):
        return [Step(helper.register("r1", "Dummy", a="b")), Step(LIST)]

    def with_start(self):
        return [Step(helper.register("r1", "Dummy")), Step(helper.action("r1", "start"), awaits=True), Step(DRAIN), Step(DRAIN),
                Step({"op": "history", "id": "r1"})]

    def beside(self):
        self.agent("Wait", f'[ "$OCF_RESOURCE_INSTANCE" = r2 ] || while [ ! -e {self.gate} ]; do sleep 0.002; done\n')
        return [Step(helper.register("r1", "Wait")), Step(helper.register("r2", "Wait")), Step(helper.action("r1", "start")),
                Step(helper.action("r2", "start")), Step(helper.action("r1", "stop")), *[Step(LIST, awaits=True)] * 2,
                Step(DRAIN), Step(DRAIN)]

    def recurs(self):
        monitor = {"id": "r1", "interval": 1}
        limited = Step({"op": "drain", "limit": 0}, pause=0.002)
        return [Step(helper.register("r1", "Dummy")), Step({"op": "recur", **monitor}), Step(DRAIN), limited,
                Step({"op": "cancel", **monitor}), Step(DRAIN), Step({"op": "cancel", **monitor}), Step(DRAIN)]

    def together(self):
        # registrations, of which the last but one is refused, with other commands and questions between them, all written at once
        names = ["r1", "r2", "r3", "r4"]
        commands = [*[helper.register(name, "Dummy", a="b") for name in names], LIST, {"op": "params", "id": "r2", "params": {"a": "c"}},
                    helper.register("r5", "Dummy"), {"op": "recur", "id": "r5", "interval": 3_600_000},
                    {"op": "cancel", "id": "r1", "interval": 1}, helper.register("r1", "Dummy"),
                    helper.register("r6", "Dummy", **{f"a{n}": "x" * 500 for n in range(20)})]
        return [*[Step(command, joins=True) for command in commands], Step({"op": "info", "id": "r2"})]

    def prepared(self, *commands):
        # a journal left by a run that was killed after these commands
        folder = self.journal("prepared")
        run = helper.Running("run", "--journal", folder, "--root", self.here, "--via", "sleep", "--tidy-at", "0")
        run.send(*commands, LIST)
        run.awaits(lambda value: "resources" in value, 60)
        run.killed()
        return folder

    def test_list(self):
        """a registration and a list"""
        self.sweep(self.words("run"), self.listed())
        self.sweep(self.words("serve"), self.listed(), opens=False)

    def test_together(self):
        """a batch of commands: one of them is refused, and the others go on"""
        for word in ("run", "serve"):
            steps = self.together()
            if word == "run":
                steps += [Step(DRAIN), Step(DRAIN), Step({"op": "history", "id": "r5"})]
            base = self.sweep(self.words(word, "--via", "echo"), steps, opens=False)
            accepted = {place for place, values in enumerate(base.answers) if {"ok": True} in values}
            registered = {place for place in accepted if steps[place].command["op"] == "register"}
            self.assertLessEqual(registered, self.places, "each is refused once")

    def test_start(self):
        """a start"""
        self.sweep(self.words("run", "--via", "echo", "--log", self.place("log")), self.with_start())
        self.sweep(self.words("serve", "--via", "echo"), self.with_start(), opens=False)

    def test_beside(self):
        """two resources in parallel"""
        for word in ("run", "serve"):
            self.sweep(self.words(word), self.beside(), opens=False)

    def test_recurs(self):
        """a monitor up to its cancel"""
        self.sweep(self.words("run", "--via", "echo"), self.recurs(), lost=1, opens=False)
        monitor = {"id": "r1", "interval": 60000}
        steps = [Step(helper.register("r1", "Dummy")), Step({"op": "recur", **monitor}, awaits=True), Step({"op": "cancel", **monitor}),
                 Step({"op": "cancel", **monitor}), Step({"op": "history", "id": "r1"})]
        self.sweep(self.words("serve", "--via", "echo"), steps, opens=False)

    def test_withdraw(self):
        """an action that is withdrawn"""
        withdraw = Step({"op": "withdraw", "id": "r1", "call": 2})
        steps = [Step(helper.register("r1", "Dummy")), Step(helper.action("r1", "start")), Step(helper.action("r1", "stop")), withdraw,
                 withdraw, Step({"op": "history", "id": "r1"})]
        base = self.sweep(self.words("run"), steps, opens=False)
        self.assertEqual([values[0] for values in base.answers[3:5]], [{"ok": True}, {"error": "not-queued", "number": 18}])

    def test_meta(self):
        """metadata"""
        for word in ("run", "serve"):
            self.sweep(self.words(word, "--via", "echo"), [Step({"op": "meta", "provider": "p", "type": "t"}), Step(LIST)], opens=False)

    def test_full(self):
        """a full journal and its tidy"""
        full = {"op": "params", "id": "r1", "params": {chr(97 + place): "x" * 1024 for place in range(15)}}
        before = self.prepared(helper.register("r1", "Dummy", "pacemaker"), *[full] * 541)
        steps = [Step(full), Step({"op": "forget", "id": "r1"}), Step({"op": "tidy"}), Step(full), Step(LIST)]
        self.sweep(self.words("run", "--tidy-at", "0"), [Step(LIST)] * 2, before=before, stride=199)
        base = self.sweep(self.words("run", "--tidy-at", "0"), steps, before=before, opens=False)
        self.assertEqual([values[0] for values in base.answers],
                         [{"error": "journal-full", "number": 14}, {"ok": True}, {"end": "done"}, {"ok": True},
                          {"ok": True, "resources": ["r1"]}])

    def test_opening(self):
        """an opening of queued actions"""
        before = self.prepared(helper.register("r1", "Dummy", a="b"), helper.action("r1", "start"), helper.action("r1", "stop"))
        self.sweep(self.words("run"), [Step(LIST), Step(LIST)], before=before)

    def shows(self, folder, words, ended, beside=()):
        # refuses each growth of a show; what it finds beside the parts has these keys, and is null where it cannot be known
        files, base = files_of(folder), self.play(words, [])
        ends, refuse = collections.Counter(), 1
        while (found := self.play(words, [], refuse)).refused:
            with self.subTest(refused=refuse):
                ends[found.status] += 1
                self.assertIn(found.status, ended, found.err)
                values = found.answers[0] if found.answers else []
                wanted = [{key: None if key in beside and value.get(key) is None else known for key, known in whole.items()}
                          for value, whole in zip(values, base.answers[0])]
                self.assertEqual(values, wanted)
                self.assertTrue(found.status or len(values) == len(base.answers[0]), "all with status 0")
                self.assertTrue(found.status != 4 or not values, "nothing with status 4")
                self.assertEqual(files_of(folder), files)
            refuse += 1
        print(f"growths: {' '.join(words[:2])}: {base.made} growths, by status: {dict(sorted(ends.items()))}", flush=True)

    def test_show(self):
        """the output of show"""
        folder = self.prepared(helper.register("r1", "Dummy", a="b"), helper.action("r1", "start"))
        self.shows(folder, ["show", "--journal", folder], (0, 4, 7))
        # a part in memory that cannot grow counts as a failed device
        self.shows(folder, ["show", "--memory"], (0, 4, 5, 7))

    def test_status(self):
        """a status, for a program"""
        folder = self.prepared(helper.register("r1", "Dummy", a="b"), helper.action("r1", "start"), helper.register("r2", "Dummy"))
        self.shows(folder, ["status", "--json", "--journal", folder], (0, 4, 7), beside=("executor", "identity"))

    def noticed(self, words, steps, key, before=None):
        # refuses each growth: a notice with this key is that of a run without a refusal, or the run ends by a reply without memory
        self.before = before
        folder = self.fresh()
        words = [word.replace("JOURNAL", folder) for word in words]
        base, ends, refuse = self.play(words, steps), collections.Counter(), 1
        with_key = [value for value in loose(base.notices(), ("run",)) if key in value]
        self.assertEqual((base.status, len(with_key)), (0, 1), base.notices())
        while True:
            self.fresh()
            if not (found := self.play(words, steps, refuse)).refused:
                break
            with self.subTest(refused=refuse):
                ends[found.status] += 1
                self.assertIn(found.status, ENDS, found.err)
                self.assertIn(ENDS[found.status], found.err)
                self.assertTrue(all(value in with_key for value in loose(found.notices(), ("run",)) if key in value), "its notice")
                if found.status == 7:
                    self.is_found(steps, found, folder)
            refuse += 1
        print(f"growths: {words[0]} {self._testMethodName}: {base.made} growths, by status: {dict(sorted(ends.items()))}", flush=True)

    def test_tags(self):
        """lines with tags: each reply and each notice has its own, or the run ends; in batches, too"""
        def tagged(steps):
            return [Step({**step.command, "tag": f"tag {place}"}, awaits=step.awaits, joins=step.joins) for place, step in enumerate(steps)]

        base = self.sweep(self.words("serve", "--via", "echo"), tagged(self.together()), opens=False)
        self.assertEqual([[value["tag"] for value in values if not helper.is_notice(value)] for values in base.answers],
                         [[f"tag {place}"] for place in range(len(base.answers))])
        steps = [*[step for step in self.with_start() if step.command != DRAIN], Step({"op": "status"}), Step({"op": "version"}),
                 Step({"op": "meta", "provider": "p", "type": "t"}), Step({"op": "tidy"})]
        base = self.sweep(self.words("serve", "--via", "echo"), tagged(steps), opens=False)
        self.assertEqual([[value["tag"] for value in values] for values in base.answers],
                         [[f"tag {place}"] * (2 if place == 1 else 1) for place in range(len(steps))])

    def test_signal(self):
        """a notice of a start that a signal ended"""
        self.agent("Killed", "kill -9 $$\n")
        steps = [Step(helper.register("r1", "Killed")), Step(helper.action("r1", "start"), awaits=True), Step(LIST)]
        self.noticed(self.words("serve"), steps, "signal")

    def test_lives(self):
        """a notice of a start that lives on"""
        pid, folder = self.place("pid"), self.journal("prepared")
        self.agent("Slow", f"echo $$ > {pid}\nsleep 600\n:\n")
        run = helper.Running("serve", "--journal", folder, "--root", self.here, "--path", "/usr/bin:/bin")
        run.send(helper.register("r1", "Slow"), helper.action("r1", "start", timeout=900_000))
        [number] = self.numbers_in(pid)
        self.addCleanup(os.kill, number, 9)
        run.killed()
        self.noticed(self.words("serve", "--leave-orphans"), [Step(LIST)], "lives", folder)

    def test_memory(self):
        """a journal in memory: a part that cannot grow counts as a failed device"""
        base, ends, refuse = self.play(["run", "--memory"], self.listed()), collections.Counter(), 1
        while (found := self.play(["run", "--memory"], self.listed(), refuse)).refused:
            with self.subTest(refused=refuse):
                ends[found.status] += 1
                if found.status == 5:
                    self.assertEqual(found.err[:14], "ocfexec: disk\n")
                    closed = [[{"error": "disk", "number": 16}], [{"error": "closed", "number": 17}]]
                    self.assertIn(found.answers, ([], closed))
                else:
                    self.is_explained(found)
                    self.assertTrue(found.status != 4 or not found.answers, "nothing with status 4")
            refuse += 1
        print(f"growths: run --memory: {base.made} growths, by status: {dict(sorted(ends.items()))}", flush=True)
