"""The output of `metrics` for a journal: read by a parser of its own, written after the text format of Prometheus, and by promtool if that
is installed; compared with the output of `show` and `status`, and with a second reader of the journal, at rest, while an action runs, and
after a timeout, an interruption and a tidy. The numbers of ended and failed runs are counted anew from the journal's bytes."""
import fcntl
import os
import re
import shutil
import subprocess
import time
import unittest

import helper
from helper import action, register
import journal_format

PROMTOOL = shutil.which("promtool")
STATES = ["never run", "started", "promoted", "stopped", "failed", "unknown"]
# each family, its type and its labels; the order is that of the output
FAMILIES = {
    "ocfexec_journal_epoch": ("gauge", []), "ocfexec_journal_bytes": ("gauge", []), "ocfexec_calls_total": ("counter", []),
    "ocfexec_runs_total": ("counter", []), "ocfexec_resources": ("gauge", []),
    "ocfexec_resource_state": ("gauge", ["resource", "state"]), "ocfexec_resource_queued_actions": ("gauge", ["resource"]),
    "ocfexec_resource_running_actions": ("gauge", ["resource"]),
    "ocfexec_resource_runs_total": ("counter", ["resource"]), "ocfexec_resource_failures_total": ("counter", ["resource"]),
    "ocfexec_resource_last_code": ("gauge", ["resource", "action", "outcome"]),
    "ocfexec_resource_last_age_seconds": ("gauge", ["resource"]),
    "ocfexec_resource_failure_code": ("gauge", ["resource", "action", "outcome"]),
    "ocfexec_resource_failure_age_seconds": ("gauge", ["resource"]),
    "ocfexec_monitor_last_code": ("gauge", ["resource", "interval_ms", "outcome"]),
    "ocfexec_monitor_last_age_seconds": ("gauge", ["resource", "interval_ms"]),
    "ocfexec_up": ("gauge", []), "ocfexec_start_time_seconds": ("gauge", []), "ocfexec_last_record_age_seconds": ("gauge", []),
    "ocfexec_resource_held": ("gauge", ["resource"]),
}
NAME = r"[a-zA-Z_:][a-zA-Z0-9_:]*"
LABEL = re.compile(r'([a-zA-Z_][a-zA-Z0-9_]*)="((?:[^"\\\n]|\\["\\n])*)"')
SAMPLE = re.compile(rf"({NAME})(?:\{{(.*)\}})? (\d+)")


def unescaped(text):
    return re.sub(r'\\(.)', lambda found: "\n" if found[1] == "n" else found[1], text)


def labels_of(text):
    """The labels between the braces of a sample, as pairs."""
    found, at = [], 0
    while at < len(text):
        label = LABEL.match(text, at)
        assert label, text
        found.append((label[1], unescaped(label[2])))
        at = label.end()
        assert at == len(text) or text[at] == ",", text
        at += 1
    return found


def parsed(text):
    """The families of a text: each name with its type and its samples, a pair of labels and value each, in order."""
    assert text.endswith("\n"), "a last line that ends"
    families, at = {}, None
    for line in text.split("\n")[:-1]:
        if line.startswith("# HELP "):
            at, says = re.fullmatch(rf"# HELP ({NAME}) (\S.*\.)", line).groups()
            assert at not in families and "\\" not in says, line
            families[at] = [None, []]
        elif line.startswith("# TYPE "):
            assert re.fullmatch(rf"# TYPE {at} (gauge|counter)", line) and families[at] == [None, []], line
            families[at][0] = line.split(" ")[3]
        else:
            name, labels, value = SAMPLE.fullmatch(line).groups()
            assert name == at and families[at][0], line
            families[at][1].append((labels_of(labels or ""), int(value)))
    for name, (_, samples) in families.items():
        series = [tuple(sorted(labels)) for labels, _ in samples]
        assert len(set(series)) == len(series), f"{name}: a series twice"
    return families


# The exit codes with which a monitor has found the expected state, degraded or not.
EXPECTED = {0: (0, 190), 7: (7,), 8: (8, 191)}


def has_failed(running, kind, code):
    """Whether the running action has failed by the outcome of a result."""
    if kind != journal_format.DONE:
        return True
    return code not in (EXPECTED[running["expect"]] if running["action"] == journal_format.MONITOR else (0,))


def begun(resource, call):
    """The running action after a begin of that call."""
    queue = resource["queue"]
    if queue and queue[0]["call"] == call:
        return queue.pop(0)
    monitor = next(each for each in resource["recurring"] if each["call"] == call)
    return {"action": journal_format.MONITOR, "expect": monitor["expect"]}


def counted(part):
    """The numbers of runs of each resource that ended in a part's records, and of those that failed: from the state of its snapshot, and
    the effect of each later event on queue, monitors and running action."""
    found = {each["id"]: {**each, "runs": 0, "failures": 0} for each in part.state["resources"]}
    for event in part.events():
        kind, resource = event["event"], found.get(event.get("id"))
        if kind == "register":
            found[event["id"]] = {"queue": [], "recurring": [], "running": None, "runs": 0, "failures": 0}
        elif kind == "unregister":
            del found[event["id"]]
        elif kind == "exec":
            resource["queue"].append(event)
        elif kind == "withdraw":
            resource["queue"] = [each for each in resource["queue"] if each["call"] != event["call"]]
        elif kind == "recur":
            resource["recurring"].append(event)
        elif kind == "cancel":
            resource["recurring"] = [each for each in resource["recurring"] if each["interval"] != event["interval"]]
        elif kind == "begin":
            resource["running"] = begun(resource, event["call"])
        elif kind == "result":
            resource["failures"] += has_failed(resource["running"], *event["outcome"])
            resource["runs"] += 1
            resource["running"] = None
        elif kind == "boot":
            for each in found.values():
                each["runs"] += each["running"] is not None
                each["queue"], each["running"] = [], None
    return found


class Shown:
    """What `show`, `status` and the second reader say of a journal, and the families that this means."""

    def __init__(self, folder):
        lines = helper.replies(helper.run("status", "--json", "--journal", folder).stdout)
        self.names = lines[0]["resources"]
        self.states = {line["id"]: line for line in lines if "state" in line}
        self.part = journal_format.found(*helper.parts(folder))
        self.counts = counted(self.part)
        assert list(self.counts) == self.names, (self.counts, self.names)
        infos = dict(zip(self.names, lines[1::2]))
        results = {name: lines[2 + 2 * at]["results"] for at, name in enumerate(self.names)}
        self.last = [(name, results[name][-1]) for name in self.names if results[name]]
        self.failed = [(name, infos[name]["failed"]) for name in self.names if infos[name]["failed"]]
        # the last result of each monitor, by its resource and its interval
        runs = [((name, str(monitor["interval"])), [result for result in results[name] if result["call"] == monitor["call"]])
                for name in self.names for monitor in infos[name]["recurring"]]
        self.monitors = [(monitor, each[-1]) for monitor, each in runs if each]

    def of_journal(self):
        kinds = [event["event"] for event in self.part.events()]
        return {
            "ocfexec_journal_epoch": [((), self.part.epoch)], "ocfexec_journal_bytes": [((), self.part.end)],
            "ocfexec_calls_total": [((), self.part.state["next_call"] - 1 + kinds.count("exec") + kinds.count("recur"))],
            "ocfexec_runs_total": [((), self.part.state["next_run"] - 1 + kinds.count("begin"))],
            "ocfexec_resources": [((), len(self.names))],
        }

    def of_resources(self):
        states, counts = self.states, self.counts
        return {
            "ocfexec_resource_state": [((name, state), int(states[name]["state"] == state)) for name in self.names for state in STATES],
            "ocfexec_resource_queued_actions": [((name,), states[name]["queued"]) for name in self.names],
            "ocfexec_resource_running_actions": [((name,), int(states[name]["running"] is not None)) for name in self.names],
            "ocfexec_resource_runs_total": [((name,), counts[name]["runs"]) for name in self.names],
            "ocfexec_resource_failures_total": [((name,), counts[name]["failures"]) for name in self.names],
        }

    def of_results(self):
        return {
            "ocfexec_resource_last_code": [((name, each["action"], each["outcome"]), each["code"]) for name, each in self.last],
            "ocfexec_resource_failure_code": [((name, each["action"], each["outcome"]), each["code"]) for name, each in self.failed],
            "ocfexec_monitor_last_code": [((*monitor, each["outcome"]), each["code"]) for monitor, each in self.monitors],
        }

    def moments(self):
        """The moments whose ages are printed, by family and series; in milliseconds since 1970."""
        newest = max([self.part.state["clock"], *(event["at"] for event in self.part.events())])
        return {
            "ocfexec_last_record_age_seconds": {(): newest} if newest else {},
            "ocfexec_resource_last_age_seconds": {(name,): each["at"] for name, each in self.last},
            "ocfexec_resource_failure_age_seconds": {(name,): each["at"] for name, each in self.failed},
            "ocfexec_monitor_last_age_seconds": {monitor: each["at"] for monitor, each in self.monitors},
        }


class Metrics(helper.Check):
    def setUp(self):
        super().setUp()
        self.agent("Ends", '[ "$OCF_RESKEY_code" != sleep ] || exec sleep 60\nexit "$OCF_RESKEY_code"\n')
        self.folder = self.journal()
        self.words = ("--journal", self.folder, "--root", self.here, "--orphans", "0")

    def asks(self, *commands):
        done = helper.run("run", *self.words, sent=helper.lines(*commands))
        self.assertEqual(done.returncode, 0, done.stderr)

    def metrics(self, *words):
        """The families that are printed for a journal, which changes nothing; the same by promtool."""
        before = helper.parts(self.folder)
        done = helper.run("metrics", *(words or ("--journal", self.folder)))
        self.assertEqual((done.returncode, done.stderr), (0, b""))
        self.assertEqual(helper.parts(self.folder), before, "metrics that write nothing")
        if PROMTOOL:
            checked = subprocess.run([PROMTOOL, "check", "metrics"], input=done.stdout, capture_output=True)
            self.assertEqual((checked.returncode, checked.stdout, checked.stderr), (0, b"", b""), "promtool check metrics")
        families = parsed(done.stdout.decode())
        self.assertEqual({name: kind for name, (kind, _) in families.items()}, {name: kind for name, (kind, _) in FAMILIES.items()})
        self.assertEqual(list(families), list(FAMILIES), "the order of the families")
        for name, (_, samples) in families.items():
            for labels, _ in samples:
                self.assertEqual([key for key, _ in labels], FAMILIES[name][1], name)
        return {name: [(tuple(value for _, value in labels), value) for labels, value in samples]
                for name, (_, samples) in families.items()}

    def is_whole(self):
        """The output agrees with that of `show` and `status` and with the second reader."""
        now = time.time()
        found = self.metrics()
        shown = Shown(self.folder)
        ages = {family: dict(found.pop(family)) for family in [family for family in found if family.endswith("_age_seconds")]}
        is_up = self.is_held()
        self.assertEqual(len(found.pop("ocfexec_start_time_seconds")), is_up)
        # (what a killed executor left ends at some time)
        self.assertLessEqual(set(found.pop("ocfexec_resource_held")), {((name,), 1) for name in shown.names})
        self.assertEqual(found, {"ocfexec_up": [((), is_up)], **shown.of_journal(), **shown.of_resources(), **shown.of_results()})
        self.are_ages(ages, shown, now)
        return found

    def are_ages(self, ages, shown, now):
        """Each age is that of its moment, to a few seconds."""
        for family, moments in shown.moments().items():
            self.assertEqual(list(ages[family]), list(moments), family)
            for series, moment in moments.items():
                wanted, most = now - moment / 1000, 5 + helper.more_patience(5)
                self.assertAlmostEqual(ages[family][series], wanted, delta=most, msg=f"{family} of {series}")

    def is_held(self):
        """Whether an executor holds the lock of the directory."""
        directory = os.open(self.folder, os.O_RDONLY)
        try:
            fcntl.flock(directory, fcntl.LOCK_SH | fcntl.LOCK_NB)
        except BlockingIOError:
            return 1
        finally:
            os.close(directory)
        return 0

    def counts(self, found):
        """The runs and the failures of each resource."""
        failures = dict(found["ocfexec_resource_failures_total"])
        return {name: (runs, failures[(name,)]) for (name,), runs in found["ocfexec_resource_runs_total"]}

    def has_begun(self, name):
        """Whether a resource runs an action."""
        lines = helper.replies(helper.run("status", "--json", "--journal", self.folder).stdout)
        return any(line["running"] for line in lines if "state" in line and line["id"] == name)

    def is_cut_off(self):
        """Whether an action runs and one is queued, and one was withdrawn."""
        web = helper.replies(helper.run("status", "--json", "--journal", self.folder).stdout)[-1]
        return web["running"] and web["queued"] == 1 and helper.results(self.folder)["web"][-1]["outcome"] == "cancelled"

    def test_none(self):
        """a journal without resources, one in memory and a directory without a journal"""
        found = helper.run("metrics", "--journal", self.here)
        self.assertEqual((found.returncode, found.stdout, found.stderr), (9, b"", b"ocfexec: no journal here yet\n"))
        self.asks()
        self.is_whole()
        self.assertEqual(self.metrics("--memory")["ocfexec_journal_epoch"], [((), 0)])

    def test_results(self):
        """results, failures and monitors of three resources"""
        self.asks(register("web:1", "Ends", code="0"), register("db", "Ends", code="7"), register("none", "Ends", code="0"))
        self.is_whole()
        self.asks(action("web:1", "start"), action("db", "monitor"), {"op": "drain"}, {"op": "recur", "id": "web:1", "interval": 100},
                  {"op": "recur", "id": "web:1", "interval": 3600000}, {"op": "recur", "id": "db", "interval": 250},
                  {"op": "watch", "limit": 600})
        found = self.is_whole()
        self.assertEqual(found["ocfexec_resource_last_code"][1], (("db", "monitor", "done"), 7))
        self.assertEqual(found["ocfexec_resource_failure_code"], [(("db", "monitor", "done"), 7)])
        self.assertIn(("db", "failed"), [series for series, value in found["ocfexec_resource_state"] if value])
        self.asks({"op": "forget", "id": "db"}, {"op": "unregister", "id": "none"})
        self.is_whole()

    def test_cut_off(self):
        """running and queued actions, a timeout, an interruption, a withdrawal, and ages that rise"""
        self.asks(register("web", "Ends", code="sleep"), action("web", "start", timeout=100), {"op": "drain"})
        self.is_whole()
        run = self.started("serve", *self.words)
        run.send(action("web", "start"), action("web", "stop"), action("web", "stop"), {"op": "withdraw", "id": "web", "call": 4})
        self.eventually("a start that runs, and one stop after it", self.is_cut_off)
        found = self.is_whole()
        self.assertEqual(found["ocfexec_resource_running_actions"], [(("web",), 1)])
        self.assertEqual(found["ocfexec_resource_queued_actions"], [(("web",), 1)])
        run.killed()
        self.is_whole()
        self.asks()
        found = self.is_whole()
        self.assertEqual(found["ocfexec_resource_last_code"], [(("web", "start", "interrupted"), 1)])
        self.assertIn(("web", "unknown"), [series for series, value in found["ocfexec_resource_state"] if value])
        before = dict(self.metrics()["ocfexec_resource_last_age_seconds"])[("web",)]
        time.sleep(2.1)
        self.assertGreaterEqual(dict(self.metrics()["ocfexec_resource_last_age_seconds"])[("web",)], before + 2)

    def test_counts(self):
        """runs and failures: probes that find the expected state or not, a kill, an unregister, and a tidy while an action runs"""
        self.asks(register("web", "Ends", code="7"), register("db", "Ends", code="0"), register("slow", "Ends", code="sleep"))
        probe = {"expect": 7}
        self.asks(action("web", "monitor", **probe), action("web", "monitor"), action("web", "start"), action("db", "monitor", **probe),
                  action("db", "start"), action("slow", "start", timeout=100), {"op": "drain"})
        self.assertEqual(self.counts(self.is_whole()), {"web": (3, 2), "db": (2, 1), "slow": (1, 1)})
        run = self.started("serve", *self.words)
        run.send(action("slow", "start"), action("slow", "stop"))
        self.eventually("a start that runs", lambda: self.has_begun("slow"))
        self.assertEqual(self.counts(self.is_whole())["slow"], (1, 1))
        run.killed()
        self.asks()
        self.assertEqual(self.counts(self.is_whole()), {"web": (3, 2), "db": (2, 1), "slow": (2, 1)}, "what was interrupted has not failed")
        self.asks({"op": "forget", "id": "web"}, {"op": "unregister", "id": "db"})
        self.assertEqual(self.counts(self.is_whole()), {"web": (3, 2), "slow": (2, 1)})
        self.asks(register("db", "Ends", code="7"))
        self.assertEqual(self.counts(self.is_whole()), {"web": (3, 2), "slow": (2, 1), "db": (0, 0)})
        run = self.started("serve", *self.words)
        run.send(action("slow", "start", timeout=1500), {"op": "recur", "id": "db", "interval": 100, "expect": 7})
        self.eventually("a start that runs", lambda: self.has_begun("slow"))
        run.send({"op": "tidy"})
        run.awaits(lambda value: value.get("end") == "done")
        self.eventually("a start that began before the snapshot ends", lambda: not self.has_begun("slow"))
        self.assertEqual(run.ends(), 0)
        found = self.counts(self.is_whole())
        self.assertEqual((found["web"], found["slow"], found["db"][1]), ((0, 0), (1, 1), 0))
        self.assertGreater(found["db"][0], 0)

    def test_executor(self):
        """whether an executor has the journal, and since when; and a resource that waits for what an executor left"""
        self.agent("Slow", 'echo $$ > "$OCF_RESKEY_pid"\nexec sleep 60\n')
        self.asks(register("web", "Slow", pid=self.place("pid")))
        self.assertEqual(self.metrics()["ocfexec_up"], [((), 0)])
        began = int(time.time())
        run = self.started("serve", "--journal", self.folder, "--root", self.here)
        run.ready()
        found = self.metrics()
        self.assertEqual((found["ocfexec_up"], found["ocfexec_resource_held"]), ([((), 1)], []))
        self.assertAlmostEqual(found["ocfexec_start_time_seconds"][0][1], began, delta=5 + helper.more_patience(5))
        run.send(action("web", "start"))
        self.numbers_in(self.place("pid"))
        run.killed()
        found = self.metrics()
        self.assertEqual((found["ocfexec_up"], found["ocfexec_start_time_seconds"]), ([((), 0)], []))
        run = self.started("serve", "--journal", self.folder, "--root", self.here)
        run.ready()
        self.assertEqual(self.metrics()["ocfexec_resource_held"], [(("web",), 1)])
        run.killed()
        self.asks()

    @unittest.skipUnless(PROMTOOL, "install prometheus, for promtool")
    def test_promtool(self):
        """promtool accepts the metrics of a failed resource without a complaint"""
        self.asks(register("web", "Ends", code="1"), action("web", "start"), {"op": "drain"}, {"op": "recur", "id": "web", "interval": 100},
                  {"op": "watch", "limit": 300})
        self.is_whole()

    def test_tidied(self):
        """counters that a tidy keeps, an epoch that it raises, and a journal that an executor holds"""
        self.asks(register("web", "Ends", code="0"), action("web", "start"), {"op": "drain"})
        before = self.is_whole()
        run = self.started("serve", *self.words)
        run.send({"op": "tidy"})
        run.awaits(lambda value: value.get("end") == "done")
        after = self.is_whole()
        self.assertEqual(after["ocfexec_journal_epoch"], [((), before["ocfexec_journal_epoch"][0][1] + 1)])
        self.assertEqual(after["ocfexec_runs_total"], before["ocfexec_runs_total"])
        self.assertEqual((self.counts(before), self.counts(after)), ({"web": (1, 0)}, {"web": (0, 0)}))
        self.assertNotEqual(after["ocfexec_journal_bytes"], before["ocfexec_journal_bytes"])
        self.assertEqual(run.ends(), 0)

    def test_damaged(self):
        """a damaged journal and wrong arguments"""
        self.asks(register("web", "Ends", code="0"))
        with open(os.path.join(self.folder, "part-a"), "r+b") as part:
            part.seek(1)
            part.write(b"X")
        found = helper.run("metrics", "--journal", self.folder)
        self.assertEqual((found.returncode, found.stdout, found.stderr), (3, b"", b"ocfexec: damaged part A at 0: magic\n"))
        for words in (["web"], ["--json"], ["--exit-code"], ["--journal", self.folder, "--memory"]):
            self.assertEqual(helper.run("metrics", *words).returncode, 2, words)

    def test_named(self):
        """a journal that the environment names, a reader that is gone, and an output that is full"""
        self.asks(register("web", "Ends", code="0"))
        named = {**os.environ, "OCFEXEC_JOURNAL": self.folder}
        self.assertEqual(parsed(helper.run("metrics", env=named).stdout.decode())["ocfexec_resources"][1], [([], 1)])
        with open("/dev/full", "wb") as full:
            done = subprocess.run([helper.PROGRAM, "metrics"], env=named, stdout=full, stderr=subprocess.PIPE)
        self.assertEqual(done.returncode, 7)
        read, write = os.pipe()
        os.close(read)
        done = subprocess.run([helper.PROGRAM, "metrics"], env=named, stdout=write, stderr=subprocess.PIPE)
        os.close(write)
        self.assertEqual((done.returncode, done.stderr), (0, b""))
