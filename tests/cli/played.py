"""The program with a simulated host, `tests/trials program`: directories in memory, scripted agents, and a clock that the waiting caller
advances. So each call of the system fails in turn, and no process is started. The expected values were counted by hand from docs/FORMAT.md
and the manual page."""
import json
import subprocess

import helper
from helper import action, register
from journal_format import CLOSED, LAST_EPOCH, MOST, START, STOP, event, head, record, state

REG = register("r1", "Dummy", "pacemaker")
LIST, DRAIN = {"op": "list"}, {"op": "drain"}
OK, ONE_LISTED = '{"ok":true}', '{"ok":true,"resources":["r1"]}'
SERVED_OK, TROUBLE = '{"kind":"reply","ok":true}', '{"end":"disk","kind":"trouble"}'
STARTED = '{"action":"start","call":1,"code":0,"id":"r1","interval":0,"name":"OCF_SUCCESS","outcome":"done","run":1}'
ACCEPTED, IDLE = '{"call":1,"key":"r1_start_0","ok":true}', '{"end":"idle"}'
DISK, CLOSED_NOW = '{"error":"disk","number":16}', '{"error":"closed","number":17}'
ROOT, PATH = "/usr/lib/ocf", "/usr/sbin:/usr/bin:/sbin:/bin"
# of each simulated journal
IDENTITY = "00112233445566778899aabbccddeeff"


def refusal(word, number):
    return f'{{"error":"{word}","number":{number}}}'


class Run:
    """The output of a simulated program: for each line its first word, and the rest. The ready line of serve is not included."""

    def __init__(self, lines):
        self.lines = [line.split(" ", 1) for line in lines]
        self.out, self.err, self.ended = self.of(">"), self.of("!"), self.of("ended")
        self.ready = [line for line in self.out if '"ready":true' in line]
        self.out = [line for line in self.out if line not in self.ready]

    def of(self, word):
        return [text for first, text in self.lines if first == word]

    def asked(self):
        """The requests, in their order, without the output."""
        return [" ".join(line).rstrip() for line in self.lines if line[0] not in (">", "!")]


def lines(*commands):
    return [f"line {json.dumps(command)}" for command in commands]


def part_a(*rows):
    return "part-a /j " + (head() + b"".join(map(record, rows)) + CLOSED).hex()


def registered(at=0, **params):
    return event("register", at, id="r1", provider="pacemaker", type="Dummy", params=params)


def executed(at, call, what):
    return event("exec", at, id="r1", call=call, action=what, level=0, expect=0, timeout=20000)


def begun(at, call, run):
    return event("begin", at, id="r1", call=call, run=run)


@helper.needs("trials")
class Played(helper.Check):
    def play(self, *plan):
        """The runs of a plan, which is given as lines."""
        sent = "".join(line + "\n" for line in plan).encode()
        done = subprocess.run([helper.trials(), "program"], input=sent, capture_output=True, timeout=300)
        self.assertEqual((done.returncode, done.stderr), (0, b""))
        runs, lines = [], []
        for line in done.stdout.decode().split("\n")[:-1]:
            lines.append(line)
            if line.startswith("ended "):
                runs.append(Run(lines))
                lines = []
        self.after = [line.split(" ", 1)[1] for line in lines]
        return runs

    def ends(self, ended, out, *plan):
        """The last run of a plan, which ends so and writes these lines."""
        run = self.play(*plan)[-1]
        self.assertEqual((run.ended, run.out), ([ended], out), run.lines)
        return run

    def is_ready(self, run, **said):
        """A serving run sends one ready line, with this: what it found, and its version."""
        version = self.play("ocfexec --version")[0].out[0].split(" ")[1]
        found = {"dropped": 0, "identity": IDENTITY, "interrupted": 0, "journal": "/j", "kind": "ready", "next_call": 1, "ready": True,
                 "resources": 0, "version": version, **said}
        [ready] = map(json.loads, run.ready)
        self.assertEqual(ready, found)
        self.assertEqual(run.ready, [json.dumps(ready, separators=(",", ":"), sort_keys=True)])

    def memory(self, out, *commands, words="ocfexec run --memory", more=()):
        """The run of these commands in memory, which ends well."""
        return self.ends("0", out, *more, *lines(*commands), words)


class Rows(Played):
    def test_registered(self):
        """no line, a registration and a second one"""
        self.memory([])
        self.memory([OK, ONE_LISTED], REG, LIST)
        self.memory([OK, refusal("exists", 6), ONE_LISTED], REG, REG, LIST)

    def test_drained(self):
        """a start through a program that ends with 0, and one that ends with 1"""
        words = "ocfexec run --memory --root /nowhere --via echo"
        run = self.memory([OK, ACCEPTED, STARTED, IDLE], REG, action("r1", "start"), DRAIN, words=words, more=["poll exited 0"])
        self.assertEqual(run.of("start")[0].split(" ")[:3], ["echo", "/nowhere/resource.d/pacemaker/Dummy", "start"])
        failed = STARTED.replace('"code":0', '"code":1').replace("OCF_SUCCESS", "OCF_ERR_GENERIC")
        self.memory([OK, ACCEPTED, failed, IDLE], REG, action("r1", "start"), DRAIN, more=["poll exited 1"])

    def test_timeout(self):
        """a timeout is reported when the clock has reached it: once, after one kill"""
        late = STARTED.replace('"code":0', '"code":1').replace("OCF_SUCCESS", "OCF_ERR_GENERIC").replace('"done"', '"timed-out"')
        run = self.memory([OK, ACCEPTED, late, IDLE], REG, action("r1", "start", timeout=1000), DRAIN)
        self.assertEqual(run.of("kill"), ["1"])

    def test_not_started(self):
        """a start that is refused, by its code"""
        for why, code, name in [("missing", 5, "INSTALLED"), ("denied", 4, "PERM"), ("other", 1, "GENERIC")]:
            failed = STARTED.replace('"code":0', f'"code":{code}').replace("OCF_SUCCESS", f"OCF_ERR_{name}")
            none = failed.replace('"done"', '"not-started"')
            self.memory([OK, ACCEPTED, none, IDLE], REG, action("r1", "start"), DRAIN, more=[f"start {why}"])

    def test_limits(self):
        """the thirty-third action, the ninth monitor, and values that are too long or too large"""
        starts = [f'{{"call":{call},"key":"r1_stop_0","ok":true}}' for call in range(1, 33)]
        self.memory([OK, *starts, refusal("queue-full", 8)], REG, *[action("r1", "stop")] * 33)
        monitors = [{"op": "recur", "id": "r1", "interval": interval} for interval in range(1, 10)]
        keys = [f'{{"call":{n},"key":"r1_monitor_{n}","ok":true}}' for n in range(1, 9)]
        self.memory([OK, *keys, refusal("recurring-full", 9)], REG, *monitors)
        long = [{"op": "params", "id": "r1", "params": {"p": "v" * length}} for length in (1024, 1025)]
        self.memory([OK, OK, refusal("bad-value", 4)], REG, *long)
        letters = [dict.fromkeys("abcdefghijklmnop"[:count], "v" * 1024) for count in (15, 16)]
        large = [register(name, "Dummy", "pacemaker", **params) for name, params in zip(("r1", "r2"), letters)]
        self.memory([OK, refusal("too-large", 12), OK], *large, register("r1:0", "Dummy", "pacemaker"))
        self.memory([OK] * 256 + [refusal("too-many-resources", 11)], *[register(f"r{n}", "Dummy", "pacemaker") for n in range(257)])

    def test_busy(self):
        """a resource with a running action is kept, and one that is registered again has no history"""
        call = [REG, action("r1", "start"), {"op": "drain", "limit": 0}, {"op": "unregister", "id": "r1"}, DRAIN]
        again = [{"op": "unregister", "id": "r1"}, REG, {"op": "history", "id": "r1"}]
        self.memory([OK, ACCEPTED, '{"end":"limit"}', refusal("busy", 7), STARTED, IDLE, OK, OK, '{"ok":true,"results":[]}'],
                    *call, *again, more=["poll running", "poll exited 0"])

    def test_refused(self):
        """lines that are refused, by number"""
        sent = ["nope", '{"op":"fly"}', '{"op":"exec","id":"r 1","action":"fly"}', '{"op":"exec","id":"r1","action":"fly"}',
                '{"op":"exec","id":"r1","action":"start","timeout":0}', '{"op":"exec","id":"r1"}',
                '{"op":"exec","id":"zz","action":"start"}']
        out = self.play(*[f"line {line}" for line in sent], "ocfexec run --memory")[0].out
        self.assertEqual([json.loads(line)["number"] for line in out], [1, 2, 3, 4, 4, 1, 5])

    def test_metadata(self):
        """metadata of an agent through echo, of 46 bytes with its newline, and of one that is missing"""
        meta = {"op": "meta", "provider": "pacemaker", "type": "Dummy"}
        self.memory(['{"meta":46}', "/nowhere/resource.d/pacemaker/Dummy meta-data", ""], meta,
                    words="ocfexec run --memory --root /nowhere --via echo")
        self.memory(['{"end":"missing"}'], meta)

    def test_spent(self):
        """calls, runs and epochs that are spent"""
        row = {"id": "r1", "provider": "pacemaker", "type": "Dummy", "params": {}, "queue": [], "running": None, "recurring": [],
               "ended": [], "failed": None}
        for calls, runs, wanted in [(MOST, 1, [refusal("calls-spent", 13), ONE_LISTED]), (1, MOST, [ACCEPTED, '{"end":"runs-spent"}'])]:
            snapshot = state({"next_call": calls, "next_run": runs, "clock": 0, "resources": [row]})
            commands = [action("r1", "start"), LIST if calls == MOST else DRAIN]
            part = f"part-a /j {(head(snapshot=snapshot) + CLOSED).hex()}"
            self.ends("0", wanted, "directory /j", part, *lines(*commands), "ocfexec run --journal /j")
        last = "part-a /j " + (head(epoch=LAST_EPOCH) + CLOSED).hex()
        self.ends("0", ['{"end":"epoch-spent"}'], "directory /j", last, *lines({"op": "tidy"}), "ocfexec run --journal /j")

    def test_damaged(self):
        """a part that is cut, one of zeros, and two that are empty"""
        whole = part_a(registered()).split()[2]
        self.assertEqual(len(whole), 2 * 79)
        self.ends("3 damaged part A at 44: cut", [], "directory /j", f"part-a /j {whole[:120]}", "ocfexec run --journal /j")
        self.ends("3 damaged part A at 0: closed", [], "directory /j", f"part-a /j {'00' * 46}", "ocfexec run --journal /j")
        self.ends("0", ['{"ok":true,"resources":[]}'], "directory /j", *lines(LIST), "ocfexec run --journal /j")

    def test_made(self):
        """the journal of a registration, byte by byte, and what an opening at 500 reports of a start that ran"""
        self.play("directory /j", *lines(REG), "ocfexec run --journal /j", "parts /j")
        self.assertEqual(self.after, [part_a(registered()).split()[2], ""])
        running = part_a(registered(), executed(10, 1, START), begun(10, 1, 1), executed(10, 2, STOP))
        reported = ['{"action":"start","call":1,"code":1,"id":"r1","interval":0,"name":"OCF_ERR_GENERIC","outcome":"interrupted","run":1}',
                    '{"action":"stop","call":2,"code":1,"id":"r1","interval":0,"name":"OCF_ERR_GENERIC","outcome":"dropped","run":0}']
        plan = ["directory /j", running, "clock 500", *lines(LIST), "ocfexec run --journal /j"]
        self.ends("0", [*reported, ONE_LISTED], *plan)
        ends = '"interval":0,"name":"OCF_ERR_GENERIC","outcome":'
        history = (f'{{"ok":true,"results":[{{"action":"stop","at":500,"call":2,"code":1,{ends}"dropped","run":0,"since":500}},'
                   f'{{"action":"start","at":500,"call":1,"code":1,{ends}"interrupted","run":1,"since":10}}]}}')
        self.ends("0", [history], *plan, *lines({"op": "history", "id": "r1"}), "ocfexec run --journal /j")

    def test_full(self):
        """parameters of 15,438 bytes fill a part 541 times, and a tidy frees space"""
        large = {"op": "params", "id": "r1", "params": dict.fromkeys("abcdefghijklmno", "v" * 1024)}
        full = refusal("journal-full", 14)
        self.ends("0", [*[OK] * 542, full, OK, '{"end":"done"}', OK], "directory /j",
                  *lines(REG, *[large] * 542, {"op": "forget", "id": "r1"}, {"op": "tidy"}, large),
                  "ocfexec run --tidy-at 0 --journal /j")

    def test_never_full(self):
        """where a session tidies by itself no command finds the part full, however late it may begin to"""
        large = {"op": "params", "id": "r1", "params": dict.fromkeys("abcdefghijklmno", "v" * 1024)}
        self.ends("0", [OK] * 1200, "directory /j", *lines(REG, *[large] * 1199), "ocfexec run --tidy-at 8388608 --journal /j")


class Asked(Played):
    def test_run(self):
        """the requests of a run over a directory, in their order"""
        words = ("--journal /j --root /r --path /p --via v --meta-variables --no-groups --orphans 7 --leave-orphans --any-owner --log l "
                 "--logs d")
        run = self.ends("0", [OK], "directory /j", "clock 500", *lines(REG), f"ocfexec run {words}")
        self.assertEqual(run.asked(), [
            "ignored", "signals", "log l d", "files /j yes", "reader", "agents /j 7 yes no 768", "watch -", "moment 500", "ticker /j 0",
            "source /r /p v yes", "groups no", "identity /j", "writer -", "reasons l d", "leave", "ran well", "close", "ended 0"])

    def test_each(self):
        """each option of a run, and the requests that it changes"""
        plain = self.ends("0", [], "directory /j", "ocfexec run --journal /j").asked()
        for words, wanted in [("--any-owner", ["files /j yes"]), ("--orphans 7", ["agents /j 7 no yes 768"]),
                              ("--leave-orphans", ["agents /j 20000 yes yes 768"]),
                              ("--no-groups", ["agents /j 20000 no no 768", "groups no"]), ("--root /r", [f"source /r {PATH} - no"]),
                              ("--path /p", [f"source {ROOT} /p - no"]), ("--via v", [f"source {ROOT} {PATH} v no"]),
                              ("--meta-variables", [f"source {ROOT} {PATH} - yes"]), ("--log l", ["log l -", "reasons l -"]),
                              ("--logs d", ["log - d", "reasons - d"]), ("--events", []), ("--existing", []), ("--strict", []),
                              ("--tidy-at 0", [])]:
            asked = self.ends("0", [], "directory /j", f"ocfexec run {words} --journal /j").asked()
            self.assertEqual([line for line, before in zip(asked, plain, strict=True) if line != before], wanted, words)

    def test_each_once(self):
        """each option of an action that is run once, and what it changes"""
        for words, asked, site in [("", "p:t start", f"{ROOT} {PATH} - no"), ("--root /r", "p:t start", f"/r {PATH} - no"),
                                   ("--path /p", "p:t start", f"{ROOT} /p - no"), ("--via v", "p:t start", f"{ROOT} {PATH} v no"),
                                   ("--meta-variables", "p:t start", f"{ROOT} {PATH} - yes"),
                                   ("--no-groups", "p:t start", f"{ROOT} {PATH} - no")]:
            run = self.ends("77", [], f"ocfexec once p:t start {words}".rstrip())
            self.assertEqual(run.asked(), [f"once {asked}", f"site {site}", "ended 77"])

    def test_serve(self):
        """the requests of a serving run: its directory is watched; by default agents are where the manual page says"""
        run = self.ends("0", [SERVED_OK], "directory /j", *lines(REG), "ocfexec serve --journal /j")
        self.assertEqual(run.asked(), [
            "ignored", "signals", "log - -", "files /j no", "reader", "agents /j 20000 no yes 768", "watch /j", "moment 0", "ticker /j 0",
            f"source {ROOT} {PATH} - no", "groups yes", "identity /j", "writer /j", "reasons - -", "leave", "ran well", "close",
            "ended 0"])
        self.is_ready(run)

    def test_memory(self):
        """a run in memory requests no directory and writes nothing on standard error"""
        run = self.ends("0", [], "ocfexec serve --memory")
        self.assertEqual(run.asked(), ["ignored", "signals", "log - -", "reader", "agents - 20000 no yes 768", "watch -", "moment 0",
                                       "ticker - 0", f"source {ROOT} {PATH} - no", "groups yes", "identity -", "writer -", "reasons - -",
                                       "leave", "ran well", "ended 0"])
        self.is_ready(run, journal=None, identity=None)

    def test_site(self):
        """an agent is called at the site of the options"""
        commands, wanted, more = (REG, action("r1", "start"), DRAIN), [OK, ACCEPTED, STARTED, IDLE], ["poll exited 0"]
        words = "ocfexec run --memory --root /r --path /p --via v --meta-variables"
        call = self.memory(wanted, *commands, more=more, words=words).of("start")[0].split(" ")
        self.assertEqual(call[:3], ["v", "/r/resource.d/pacemaker/Dummy", "start"])
        self.assertLess({"OCF_ROOT=/r", "PATH=/p", "OCF_RESKEY_CRM_meta_timeout=20000"}, set(call[3:]))
        plain = self.memory(wanted, *commands, more=more).of("start")[0].split(" ")
        self.assertEqual(plain[:2], [f"{ROOT}/resource.d/pacemaker/Dummy", "start"])
        self.assertNotIn("CRM_meta", " ".join(plain))

    def test_looks(self):
        """status of a directory, of that of the environment, and of memory"""
        self.assertEqual(self.ends("0", [ONE_LISTED[:24] + "]}"], "ocfexec show --memory").asked(), ["shown -", "ended 0"])
        for more, words in [([], "ocfexec show --journal /j"), (["environment /j"], "ocfexec show")]:
            run = self.play("directory /j", *lines(REG), "ocfexec run --journal /j", *more, words)[-1]
            self.assertEqual((run.out[0], run.asked()), (ONE_LISTED, ["shown /j", "ended 0"]))
        self.assertEqual(self.ends("5 disk", [], "ocfexec status --journal /none").asked(), ["shown /none", "ended 5 disk"])
        self.assertEqual(self.ends("5 disk", [], "ocfexec log").asked(), ["shown /var/lib/ocfexec", "ended 5 disk"])

    def test_once(self):
        """an action that is run once has its own status, and requests no journal"""
        for words, asked in [("heartbeat:Dummy start", "heartbeat:Dummy start"), ("--of web start --journal /j", "web of /j start")]:
            run = self.ends("77", [], f"ocfexec once {words} --root /r")
            self.assertEqual(run.asked(), [f"once {asked}", f"site /r {PATH} - no", "ended 77"])

    def test_left(self):
        """serve names an orphan by its number, run does not; orphans are looked for before the moment of the opening"""
        running = part_a(registered(), executed(10, 1, START), begun(10, 1, 1))
        for word, keys in [("run", {}), ("serve", {"lives": 4711})]:
            run = self.play("directory /j", running, "left 1 4711", "clock 500", f"ocfexec {word} --journal /j --leave-orphans")[0]
            notice = json.loads(run.out[0])
            self.assertEqual({key: notice[key] for key in notice if key == "lives"}, keys)
            if word == "serve":
                said = run.of(">")
                self.assertEqual(said[:2], [run.out[0], run.ready[0]], "it is ready after the report")
                self.is_ready(run, interrupted=1, next_call=2, resources=1)
            asked = run.asked()
            self.assertLess(asked.index("agents /j 20000 yes yes 768"), asked.index("moment 500"))

    def test_ahead(self):
        """a run over a journal that is ahead of the clock records what its own clock shows"""
        once = ["poll exited 0", *lines(REG, action("r1", "start"), DRAIN), "ocfexec run --journal /j"]
        before, after = self.play("directory /j", "clock 5000", *once, "clock 100", *lines(LIST), "ocfexec run --journal /j")
        self.assertEqual([word for word in before.asked() if word.startswith("recorded")], [])
        recorded = [word.split(" ") for word in after.asked() if word.startswith("recorded")]
        self.assertEqual([words[:2] for words in recorded], [["recorded", "/j"]])
        self.assertGreaterEqual(int(recorded[0][2]), 5000)

    def test_events(self):
        """--events: a line for each result, marked if standard error is the system's journal"""
        for fails, mark in [([], ""), (["fail marked"], "<6>")]:
            run = self.memory([OK, ACCEPTED, STARTED, IDLE], REG, action("r1", "start"), DRAIN, more=["poll exited 0", *fails],
                              words="ocfexec run --memory --events")
            self.assertEqual([line.rpartition(" after ")[0] for line in run.err], [f"{mark}r1: start ok"])

    def test_tidied(self):
        """a tidy that gains less than two megabytes is not made, however little the journal may hold"""
        for most in 50, 8388608:
            self.play("directory /j", *lines(REG, LIST, LIST), f"ocfexec run --tidy-at {most} --journal /j", "parts /j")
            self.assertEqual(self.after[1], "", f"part B with --tidy-at {most}")


class Fails(Played):
    SENT = lines(REG, action("r1", "start"), DRAIN, LIST)

    def fails(self, ended, asked, *plan):
        """A run that writes nothing, makes only these requests, and ends so."""
        self.assertEqual(self.ends(ended, [], *plan).asked(), [*asked, f"ended {ended}"])

    def test_before(self):
        """each call before the opening fails in turn: no request follows but the close of opened files, and nothing is written"""
        run, before = "ocfexec run --journal /j --log l", ["ignored", "signals", "log l -", "files /j no", "reader",
                                                          "agents /j 20000 no yes 768"]
        for word, ended, count in [("ignored", "8 SIGCHLD is ignored", 1), ("log", "7 input or output", 3), ("files", "5 disk", 4),
                                   ("reader", "4 memory", 5), ("agents", "4 memory", 6)]:
            closes = ["close"] if count > 4 else []
            self.fails(ended, before[:count] + closes, "directory /j", f"fail {word}", *self.SENT, run)
        self.fails("5 disk", before[:4], *self.SENT, run)

    def test_device(self):
        """each device call fails in turn: the run ends with 5, reports the fault, and everything acknowledged is found again"""
        whole = [OK, ACCEPTED, STARTED, IDLE, ONE_LISTED]
        for calls in range(200):
            plan = ["directory /j", f"device {calls}", "poll exited 0", *self.SENT, "ocfexec run --journal /j"]
            run, again = self.play(*plan, *lines(LIST), "ocfexec run --journal /j")
            if run.ended == ["0"]:
                self.assertEqual(run.out, whole)
                self.assertGreater(calls, 20)
                return
            self.assertEqual(run.ended, ["5 disk"], calls)
            self.assertEqual(len(run.of("met")), 1, calls)
            self.assertTrue(run.of("met")[0].startswith("/j "), calls)
            well = next((count for count, pair in enumerate(zip(run.out, whole)) if pair[0] != pair[1]), len(run.out))
            for line in run.out[well:]:
                self.assertIn(line, [DISK, CLOSED_NOW, '{"end":"disk"}', '{"end":"closed"}'], calls)
            if OK in run.out[:well]:
                self.assertEqual(again.out[-1], ONE_LISTED, calls)
        self.fail("there are more device calls than were thought")

    def test_streams(self):
        """standard input that fails, and standard output that accepts less than the replies, end with 7"""
        for plan in (["fail read"], ["room 0"], ["room 11"], ["room 12"]):
            run = self.play(*plan, *lines(REG, LIST), "ocfexec run --memory")[0]
            self.assertEqual((run.ended, run.of("ran")), (["7 input or output"], ["input or output"]), plan)
        self.assertEqual(self.play("fail read", *lines(REG), "ocfexec run --memory")[0].out, [OK])

    def test_served(self):
        """a removed journal ends serve with 5 and a line, and a reader that goes away with 7; run goes on"""
        gone = ["directory /j", "gone /j 2000", "end 10000", *lines(REG)]
        run = self.ends("5 disk", [SERVED_OK, TROUBLE], *gone, "ocfexec serve --journal /j")
        self.assertEqual([run.of("check"), len(run.of("met"))], [[""], 1])
        unread = ["unread 2000", "end 10000", *lines(REG), "ocfexec serve --memory"]
        self.assertEqual(self.ends("7 input or output", [SERVED_OK], *unread).of("check"), [])
        self.ends("0", [SERVED_OK], "end 10000", *lines(REG), "ocfexec serve --memory")

    def test_texts(self):
        """help that is printed, that nobody reads, and that cannot be written"""
        self.assertIn("Usage:", "\n".join(self.play("ocfexec --help")[0].out))
        self.ends("0", [], "fail unread", "ocfexec --help")
        self.assertEqual(len(self.ends("7 input or output", [], "fail print", "ocfexec --help").of("unwritten")), 1)
        self.assertEqual(self.play("ocfexec --version")[0].out[0].split(" ")[0], "ocfexec")

    def test_usage(self):
        """arguments that are refused, with the text and status 2; of once with 125"""
        for words, ended in [("ocfexec", "2 usage"), ("ocfexec fly", "2 usage"), ("ocfexec run --fast", "2 usage"),
                             ("ocfexec once --fast", "125")]:
            run = self.ends(ended, [], words)
            self.assertIn("Usage:", "\n".join(run.err))
            self.assertEqual(run.asked(), [f"ended {ended}"])
        for words in ("run", "show --memory --journal /j"):
            self.fails("2 give one of --journal and --memory", [], f"ocfexec {words}")
        since = "give --since a moment, as 2026-11-27 or 2026-11-27T06:30, or a span, as 10m or 2h"
        for words, ended, line in [("run --memory --tidy-at x", "2 usage", "give --tidy-at a number from 0 to 8388608"),
                                   ("run --memory --root r", "2 usage", "give --root an absolute path"),
                                   ("run --memory --orphans 86400001", "2 usage", "give --orphans a number from 0 to 86400000"),
                                   ("log --memory --since no", "2 usage", since),
                                   ("once p:t start --timeout 0", "125", "give --timeout milliseconds, from 1 to 4294967295")]:
            run = self.ends(ended, [], f"ocfexec {words}")
            self.assertEqual((run.err, run.asked()), ([line], [f"ended {ended}"]))
