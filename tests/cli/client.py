"""The client of examples/, which keeps the resources of a file: which resources it starts, which it finds running and keeps, what a change
of the file does, what it gives up, how its signals end it, what it reports to systemd; that no kill of its executor loses a result; that
an executor that does not answer, a reader that does not read, a system without free files and a wrong file leave no service without a
monitor; and what --check finds."""
import fcntl
import json
import os
import random
import resource as limits
import signal
import socket
import subprocess
import sys
import time
import unittest

import helper
import keeping
import schema
from helper import PROGRAM
from keeping import CLIENT

sys.dont_write_bytecode = True
sys.path[1:1] = [os.path.join(helper.TOP, "examples"), os.path.join(helper.TOP, "python")]
import resources  # noqa: E402

LONGEST = 100  # seconds after which no more executors are killed
METADATA = """<?xml version="1.0"?>
<!DOCTYPE resource-agent SYSTEM "ra-api-1.dtd">
<resource-agent name="Described" version="1.0"><version>1.1</version><parameters>
<parameter name="state"><content type="string"/></parameter><parameter name="configfile"><content type="string"/></parameter>
</parameters><actions/></resource-agent>
"""
# an agent with metadata; the others of these checks say nothing about their parameters
DESCRIBED = """if [ "$1" = meta-data ]; then
echo meta-data >> {here}/calls
cat {here}/metadata
exit
fi
"""
# invalid content of a file, and how the message about it begins
WRONG = (
    ("[]", "the file: expected an object"),
    ("{", "not JSON: "),
    ('{"resource": {}}', "the file.resources: it is missing"),
    ('{"resources": {}, "more": 1}', "the file.more: unknown key"),
    ('{"resources": {"a b": {}}}', "resources.a b: a resource's name"),
    ('{"resources": {"a": 1}}', "resources.a: expected an object, not 1"),
    ('{"resources": {"a": {}, "a": {}}}', "a: this key occurs twice"),
    ('{"resources": {"a": {"type": "T"}}}', "resources.a.provider: it is missing"),
    ('{"resources": {"a": {"provider": "..", "type": "T"}}}', "resources.a.provider: expected a name"),
    ('{"resources": {"a": {"provider": "p", "type": "T", "param": {}}}}', "resources.a.param: unknown key"),
    ('{"resources": {"a": {"provider": "p", "type": "T", "params": {"1": "x"}}}}', "resources.a.params.1: a parameter's name"),
    ('{"resources": {"a": {"provider": "p", "type": "T", "params": {"x": 1}}}}', "resources.a.params.x: expected a text"),
    ('{"resources": {"a": {"provider": "p", "type": "T", "interval": "10s"}}}', "resources.a.interval: expected a whole number from 1"),
    ('{"resources": {"a": {"provider": "p", "type": "T", "interval": true}}}', "resources.a.interval: expected a whole number from 1"),
    ('{"resources": {"a": {"provider": "p", "type": "T", "timeouts": {"start": 0}}}}',
     "resources.a.timeouts.start: expected a whole number"),
    ('{"resources": {"a": {"provider": "p", "type": "T", "timeouts": {"reload": 1}}}}', "resources.a.timeouts.reload: unknown key"),
    ('{"resources": {"a": {"provider": "p", "type": "T", "target": "up"}}}', "resources.a.target: expected started, stopped, promoted or"),
    ('{"resources": {"a": {"provider": "p", "type": "T", "managed": "no"}}}', "resources.a.managed: expected true or false"),
    ('{"resources": {"a": {"provider": "p", "type": "T", "alert": "call"}}}', "resources.a.alert: expected the absolute path"),
    ('{"resources": {"a": {"provider": "p", "type": "T", "monitors": {}}}}', "resources.a.monitors: expected a list of at most 7"),
    ('{"resources": {"a": {"provider": "p", "type": "T", "monitors": [{"interval": 0}]}}}', "resources.a.monitors.0.interval: expected"),
    ('{"resources": {"a": {"provider": "p", "type": "T", "monitors": [{"interval": 1, "level": 5}]}}}',
     "resources.a.monitors.0.level: expected 0, 10 or 20"),
    ('{"resources": {"a": {"provider": "p", "type": "T", "monitors": [{"interval": 10000}]}}}',
     "resources.a.monitors.0.interval: another monitor"),
    ('{"resources": {"a": {"provider": "p", "type": "T", "after": "b"}}}', "resources.a.after: expected a list"),
    ('{"resources": {"a": {"provider": "p", "type": "T", "after": ["b"]}}}', "resources.a.after: there is no resource b"),
    ('{"resources": {"a": {"provider": "p", "type": "T", "after": ["a"]}}}', "resources.a.after: a circle: a after a"),
    ('{"resources": {"a": {"provider": "p", "type": "T", "after": ["b"]}, "b": {"provider": "p", "type": "T", "after": ["c"]}, '
     '"c": {"provider": "p", "type": "T", "after": ["b"]}}}', "resources.a.after: a circle: b after c after b"),
    ('{"resources": {"a": {"provider": "p", "type": "T", "restarts": -1}}}', "resources.a.restarts: expected a whole number from 0"),
    (json.dumps({"resources": {"a": {"provider": "p", "type": "T", "params": {f"p{n}": "x" * 1024 for n in range(16)}}}}),
     "resources.a.params: with the names"),
)
# and valid content
RIGHT = (
    '{"resources": {}}',
    '{"resources": {"a": {"provider": "p", "type": "T"}, "b:0": {"provider": ".p", "type": "T", "params": {"_x1": ""}, "interval": 1}}}',
    '{"resources": {"a": {"provider": "p", "type": "T", "timeouts": {"stop": 4294967295}, "restarts": 0, "within": 1}}}',
    json.dumps({"resources": {str(n): {"provider": "p", "type": "T", "params": {f"p{n}": "x" * 1024 for n in range(15)}}
                              for n in range(256)}}),
    json.dumps({"resources": {"a": {"provider": "p", "type": "T", "params": {f"p{n}": "x" * 200 for n in range(64)}}}}),
    json.dumps({"resources": {"a": {"provider": "p", "type": "T", "target": "promoted", "managed": False, "alert": "/bin/true",
                                    "monitors": [{"interval": n + 1, "level": 10 * (n % 3)} for n in range(7)], "after": ["b", "c"]},
                              "b": {"provider": "p", "type": "T", "after": ["c"]}, "c": {"provider": "p", "type": "T"}}}),
)
# content that is not JSON, or is hidden when it is read as JSON, or is too large as a whole, so that no schema refuses it
BEFORE = ("not JSON", "a: this key occurs twice", "resources.a.params: with the names", "resources.a.monitors.0.interval: another",
          "resources.a.after: there is no", "resources.a.after: a circle")


@helper.in_memory
class Kept(keeping.Keeping):
    def setUp(self):
        super().setUp()
        self.agent("Described", (DESCRIBED + keeping.AGENT).format(here=self.here))
        with open(self.place("metadata"), "w", encoding="ascii") as file:
            file.write(METADATA)

    def unread(self, *options, **how):
        """A client whose standard output is a pipe that nobody reads, as small as possible."""
        with open(self.place("err"), "wb") as err:
            run = subprocess.Popen([CLIENT, *self.words(*options)], stdout=subprocess.PIPE, stderr=err, **how)
        fcntl.fcntl(run.stdout, fcntl.F_SETPIPE_SZ, 4096)
        self.addCleanup(self.gone, run)
        return run

    def gone(self, run):
        run.kill()
        run.wait()
        run.stdout.close()

    def checked(self, *words):
        """The status and the lines of --check."""
        done = subprocess.run([CLIENT, "--file", self.place("resources.json"), "--check", *words], capture_output=True, text=True,
                              timeout=helper.WHOLE)
        prefix = f"{self.place('resources.json')}: "
        return done.returncode, [line.removeprefix(prefix) for line in (done.stdout + done.stderr).splitlines()]

    def test_kept(self):
        """resources are probed as stopped, started, monitored, restarted when they stop, and stopped at the end"""
        self.wants(a=self.dummy("a"), b=self.dummy("b"))
        client = self.client()
        for name in "ab":
            self.comes(client, id=name, interval=100, code=0)
        info = helper.value_of(helper.shown(self.place("journal")).splitlines()[1])
        self.assertIsNone(info["failed"], "a probe that expected 7")
        os.remove(self.place("a"))
        self.comes(client, id="a", interval=100, code=7)
        self.runs("a")
        self.assertEqual(self.ended(client, signal.SIGTERM), 0)
        self.assertFalse(os.path.exists(self.place("a")) or os.path.exists(self.place("b")), "nothing runs")
        self.assertEqual(self.starts(), 3)

    def test_left(self):
        """a client that leaves keeps them running, and the next one continues without a start or a failure"""
        self.wants(a=self.dummy("a"))
        self.assertEqual(self.starts_and_leaves(), 0)
        self.assertTrue(os.path.exists(self.place("a")), "the service of a is up")
        client = self.client()
        self.comes(client, id="a", interval=0, code=0, action="monitor")
        self.comes(client, id="a", interval=100, code=0)
        info = helper.value_of(helper.shown(self.place("journal")).splitlines()[1])
        self.assertEqual((self.starts(), info["failed"]), (1, None))
        self.assertEqual(self.ended(client, signal.SIGTERM), 0)

    def starts_and_leaves(self):
        client = self.client()
        self.comes(client, id="a", interval=100, code=0)
        return self.ended(client, signal.SIGUSR1)

    def test_found(self):
        """a resource that runs already is kept as it is"""
        self.wants(a=self.dummy("a"))
        with open(self.place("a"), "w", encoding="ascii"):
            pass
        client = self.client()
        self.comes(client, id="a", interval=100, code=0)
        self.assertEqual(self.starts(), 0)

    def test_degraded(self):
        """a degraded or promoted resource runs, and is left alone; one whose monitor ends otherwise is started again"""
        self.wants(a=self.dummy("a"))
        client = self.client()
        self.comes(client, id="a", interval=100, code=0)
        for code in (190, 8, 191, 9):
            seen = len(client.lines)
            with open(self.place("a.code.new"), "w", encoding="ascii") as file:
                file.write(str(code))
            os.rename(self.place("a.code.new"), self.place("a.code"))
            self.comes(client, seen, id="a", interval=100, code=code)
            if code == 9:
                os.remove(self.place("a.code"))
            seen = len(client.lines)
            self.comes(client, seen, id="a", interval=100, code=0 if code == 9 else code)
            self.assertEqual(self.starts() if code != 9 else 1, 1, f"starts, after {code}")
        self.waits("second start", lambda: self.starts() > 1)
        self.assertEqual(self.ended(client, signal.SIGTERM), 0)
        # (its monitor may end so more than once, until the file is gone)
        self.assertIn(self.error_text().count("does not run"), (self.starts() - 1, self.starts()))

    def test_changed(self):
        """a resource whose agent or parameters change is stopped as it was, and started as it is now, also after a restart"""
        self.wants(a=self.dummy("a"))
        client = self.client()
        self.comes(client, id="a", interval=100, code=0)
        self.wants(a=self.dummy("other", "Other"))
        os.kill(client.run.pid, signal.SIGHUP)
        self.runs("other")
        self.assertFalse(os.path.exists(self.place("a")), "the one before is stopped")
        self.assertEqual(self.ended(client, signal.SIGUSR1), 0)
        info = helper.value_of(helper.shown(self.place("journal")).splitlines()[1])
        self.assertEqual((info["type"], info["params"]), ("Other", {"state": self.place("other")}))
        self.wants(a=self.dummy("third", "Other"))
        client = self.client()
        self.runs("third")
        self.assertFalse(os.path.exists(self.place("other")), "the one before is stopped")

    def test_gone(self):
        """a resource that the file no longer names is stopped and taken out of the journal; a wrong file changes nothing"""
        self.wants(a=self.dummy("a"), b=self.dummy("b"))
        client = self.client()
        self.runs("a", "b")
        with open(self.place("resources.json"), "w", encoding="ascii") as file:
            file.write('{"resources": {"a": 1}}')
        os.kill(client.run.pid, signal.SIGHUP)
        self.waits("refusal", lambda: "resources.a: expected an object" in self.error_text())
        self.wants(b=self.dummy("b"))
        os.kill(client.run.pid, signal.SIGHUP)
        self.waits("removal of a", lambda: list(helper.results(self.place("journal"))) == ["b"])
        self.assertEqual((os.path.exists(self.place("a")), os.path.exists(self.place("b"))), (False, True))
        self.assertEqual(self.ended(client, signal.SIGUSR1), 0)

    def test_given_up(self):
        """a failing resource is tried again after a pause, then given up, stopped and named, while others run; SIGHUP tries it again"""
        with open(self.place("a.fails"), "w", encoding="ascii") as file:
            file.write("start\n")
        self.wants(a=self.dummy("a", restarts=3), b=self.dummy("b"))
        began, client = time.monotonic(), self.client()
        self.waits("end of its tries", lambda: "client: a is given up: start ended with 1" in self.error_text())
        self.assertEqual(self.starts(), 1 + 1 + 3)
        self.assertGreaterEqual(time.monotonic() - began, 1 + 2)
        self.comes(client, id="b", interval=100, code=0)
        os.remove(self.place("a.fails"))
        os.kill(client.run.pid, signal.SIGHUP)
        self.runs("a")
        self.assertEqual(self.ended(client, signal.SIGTERM), 0)

    def test_not_stopped(self):
        """a resource that did not stop is never started, and at the end the status says so"""
        self.wants(a=self.dummy("a", restarts=1))
        client = self.client()
        self.comes(client, id="a", interval=100, code=0)
        with open(self.place("a.fails"), "w", encoding="ascii") as file:
            file.write("monitor\nstop\n")
        self.waits("end of its tries", lambda: "client: a is given up: stop ended with 1" in self.error_text())
        self.assertEqual(self.starts(), 1)
        self.assertEqual(self.ended(client, signal.SIGTERM), 1)

    def test_missing(self):
        """a resource whose agent is missing is given up and named, even if no other line comes"""
        self.wants(a=self.dummy("a", "Nothing", restarts=1))
        client = self.client()
        given_up = "client: a is given up: stop was not started, with 5 (OCF_ERR_INSTALLED)"
        self.waits("end of its tries", lambda: given_up in self.error_text())
        self.assertEqual(self.ended(client, signal.SIGTERM), 1)

    def test_wrong(self):
        """invalid content of a file is refused by its key, before anything is started"""
        for text, begins in WRONG:
            with open(self.place("resources.json"), "w", encoding="ascii") as file:
                file.write(text)
            with self.assertRaises(resources.Wrong, msg=text) as wrong:
                resources.read(self.place("resources.json"))
            self.assertTrue(str(wrong.exception).startswith(begins), f"{text}: {wrong.exception}")
        done = subprocess.run([CLIENT, "--file", self.place("resources.json"), PROGRAM, "serve", "--journal", self.place("journal")],
                              capture_output=True, text=True, timeout=helper.WHOLE)
        self.assertEqual((done.returncode, done.stdout, done.stderr.splitlines()),
                         (2, "", [f"client: {self.place('resources.json')}: {wrong.exception}"]))
        self.assertEqual(os.listdir(self.place("journal")), [])

    @unittest.skipIf(schema.library() is None, "there is no python3-jsonschema")
    def test_schema(self):
        """docs/resources.schema.json accepts and refuses the same files as the client"""
        with open(os.path.join(helper.TOP, "docs/resources.schema.json"), encoding="utf-8") as file:
            whole = json.load(file)
        schema.library().Draft202012Validator.check_schema(whole)
        holds = schema.library().Draft202012Validator(whole).is_valid
        more = ({"resources": {"..": {"provider": "p", "type": "T"}}},
                {"resources": {str(n): {"provider": "p", "type": "T"} for n in range(257)}},
                {"resources": {"a": {"provider": "p", "type": "T", "params": {f"p{n}": "" for n in range(65)}}}},
                {"resources": {"a": {"provider": "p", "type": "T", "params": {"x": "y\0"}}}},
                {"resources": {"a": {"provider": "p", "type": "T", "params": {"x": "y" * 1025}}}})
        wrong = [text for text, begins in WRONG if not begins.startswith(BEFORE)] + [json.dumps(value) for value in more]
        for text in (*RIGHT, *wrong):
            with open(self.place("resources.json"), "w", encoding="ascii") as file:
                file.write(text)
            try:
                resources.read(self.place("resources.json"))
                is_read = True
            except resources.Wrong:
                is_read = False
            self.assertEqual((is_read, holds(json.loads(text))), (text in RIGHT,) * 2, text[:300])

    def test_nothing(self):
        """without a file, or with an empty one, it says so and starts nothing, until the file names a resource"""
        client = self.client()
        self.waits("word of it", lambda: self.error_text().count("nothing to do until SIGHUP") == 1)
        self.wants()
        os.kill(client.run.pid, signal.SIGHUP)
        self.waits("word of it", lambda: self.error_text().count("nothing to do until SIGHUP") == 2)
        self.assertEqual((self.child(client), os.listdir(self.place("journal"))), (None, []))
        self.wants(a=self.dummy("a"))
        os.kill(client.run.pid, signal.SIGHUP)
        self.runs("a")
        self.assertEqual(self.ended(client, signal.SIGTERM), 0)

    def test_systemd(self):
        """systemd is notified when all resources run, of a reload, of their state, and of the end"""
        with socket.socket(socket.AF_UNIX, socket.SOCK_DGRAM) as messages:
            messages.bind(self.place("notify"))
            messages.settimeout(4 * helper.PATIENCE)
            self.wants(a=self.dummy("a"))
            client = self.client(env={**os.environ, "NOTIFY_SOCKET": self.place("notify")})
            for number, wanted in ((None, ["READY=1", "STATUS=running: a"]), (signal.SIGHUP, ["RELOADING=1"]),
                                   (None, ["READY=1", "STATUS=running: a"]), (signal.SIGTERM, ["STOPPING=1", "STATUS=running: a"])):
                if number:
                    os.kill(client.run.pid, number)
                found = messages.recv(4096).decode().split("\n")
                while found[0] != wanted[0]:
                    found = messages.recv(4096).decode().split("\n")
                self.assertEqual(found[:len(wanted)], wanted)
            self.assertEqual(client.run.wait(4 * helper.PATIENCE), 0)

    def test_watchdog(self):
        """the watchdog is fed while the executor answers and while there is none, and not while the executor is stopped"""
        with socket.socket(socket.AF_UNIX, socket.SOCK_DGRAM) as messages:
            messages.bind(self.place("notify"))
            messages.settimeout(4 * helper.PATIENCE)
            client = self.client("--patience", "200", env={**os.environ, "NOTIFY_SOCKET": self.place("notify"), "WATCHDOG_USEC": "1000000"})

            def is_fed():
                while messages.recv(4096) != b"WATCHDOG=1":
                    pass
            is_fed()
            is_fed()
            self.wants(a=self.dummy("a"))
            os.kill(client.run.pid, signal.SIGHUP)
            self.comes(client, id="a", interval=100, code=0)
            is_fed()
            executor = self.child(client)
            os.kill(executor, signal.SIGSTOP)
            # what was sent before the executor stopped, and perhaps once more
            self.eventually("it waits for an answer", lambda: self.is_silent(messages, 3))
            os.kill(executor, signal.SIGCONT)
            is_fed()
            self.assertEqual(self.ended(client, signal.SIGTERM), 0)

    def is_silent(self, messages, seconds):
        """Whether no message to systemd comes for so long; those that have come are read."""
        messages.setblocking(False)
        try:
            while messages.recv(4096):
                pass
        except BlockingIOError:
            pass
        messages.settimeout(seconds)
        try:
            messages.recv(4096)
        except TimeoutError:
            return True
        finally:
            messages.settimeout(4 * helper.PATIENCE)
        return False

    def test_stuck(self):
        """an executor that does not answer is killed, which is said, and a service that stopped meanwhile is started again"""
        self.wants(a=self.dummy("a"))
        client = self.client("--patience", "5")
        self.comes(client, id="a", interval=100, code=0)
        executor = self.child(client)
        os.kill(executor, signal.SIGSTOP)
        self.stops("a")
        self.runs("a")
        said = self.error_text()
        for line in ("client: the reply to version did not come within 5 s",
                     f"client: the executor, process {executor}, is killed, and the journal is opened again", "client: a runs"):
            self.assertIn(line, said)
        self.assertNotEqual(self.child(client), executor)
        self.assertEqual(self.ended(client, signal.SIGTERM), 0)

    def test_slow_opening(self):
        """an opening that takes longer than the patience is said, and goes on; if it is to leave meanwhile, the client ends it"""
        self.wants(a=self.dummy("a"))
        with open(self.place("slow"), "w", encoding="ascii") as file:
            file.write(f'#!/bin/sh\nuntil [ -e {self.here}/good ]; do sleep 0.05; done\nexec "$@"\n')
        os.chmod(self.place("slow"), 0o755)
        words = ("--patience", "2", "--file", self.place("resources.json"), self.place("slow"), PROGRAM, "serve", "--journal",
                 self.place("journal"), "--root", self.here)
        client = self.started(*words, program=CLIENT, err=self.place("err"))
        self.waits("word of it", lambda: "client: the executor has been opening its journal for " in self.error_text())
        self.assertEqual(self.ended(client, signal.SIGUSR1), 0)
        client = self.started(*words, program=CLIENT, err=self.place("err"))
        self.waits("word of it", lambda: "client: the executor has been opening its journal for " in self.error_text())
        with open(self.place("good"), "w", encoding="ascii"):
            pass
        self.runs("a")
        self.assertEqual(self.ended(client, signal.SIGTERM), 0)
        self.assertFalse(self.is_up("a"), "its service is stopped")

    def test_unread(self):
        """a reader of its results that does not read stops no monitor; it is said, and what is read has whole lines"""
        self.wants(a=self.dummy("a", interval=1))
        client = self.unread()
        self.runs("a")
        # ten times what the pipe holds
        self.waits("many monitors", lambda: self.called("Dummy", "monitor") > 200)
        self.stops("a")
        self.runs("a")
        client.send_signal(signal.SIGUSR1)
        found = client.communicate(timeout=4 * helper.PATIENCE)[0]
        self.assertEqual(client.returncode, 0)
        runs = [helper.value_of(line)["run"] for line in found.splitlines()]
        self.assertEqual(runs, list(range(1, len(runs) + 1)))

    def test_left_out(self):
        """more results than wait for a reader are left out, which is said"""
        script = "import sys; sys.path[:0] = sys.argv[1:]\nimport os, output\nout = output.Output()\noutput.MOST = 1000\n"
        script += "for number in range(100000):\n    out.result(f'{number:09}')\n    if out.is_said:\n        break\n"
        script += "sys.stdin.readline()\nout.results.end(60)\nout.result('again')\nout.end()\n"
        run = subprocess.Popen([sys.executable, "-c", script, os.path.join(helper.TOP, "examples"), os.path.join(helper.TOP, "python")],
                               stdin=subprocess.PIPE, stdout=subprocess.PIPE, stderr=subprocess.PIPE, text=True)
        self.assertEqual(run.stderr.readline(), "client: results are not printed: their reader does not read\n")
        out, err = run.communicate("\n", timeout=helper.WHOLE)
        *numbers, last = out.splitlines()
        self.assertEqual(([int(number) for number in numbers], last), (list(range(len(numbers))), "again"))
        self.assertEqual(err, "client: 1 results were not printed while nobody read them\n")

    def test_reader_gone(self):
        """when the reader of its results has gone, that is said, and it goes on"""
        self.wants(a=self.dummy("a"))
        client = self.unread()
        client.stdout.close()
        self.runs("a")
        self.waits("word of it", lambda: "client: results are not printed: their reader has gone" in self.error_text())
        for _ in range(2):
            self.stops("a")
            self.runs("a")
        client.send_signal(signal.SIGTERM)
        self.assertEqual(client.wait(4 * helper.PATIENCE), 0)
        self.assertFalse(self.is_up("a"), "its service is stopped")

    def test_without_files(self):
        """while the system refuses it another executor it says so and tries again, after growing pauses"""
        self.wants(a=self.dummy("a"))
        client = self.client()
        self.comes(client, id="a", interval=100, code=0)
        before = limits.prlimit(client.run.pid, limits.RLIMIT_NOFILE)
        limits.prlimit(client.run.pid, limits.RLIMIT_NOFILE, (3, before[1]))
        os.kill(self.child(client), signal.SIGKILL)
        self.stops("a")
        self.waits("two more tries", lambda: "client: it is tried again in 2 s" in self.error_text())
        self.assertIn("client: [Errno 24] Too many open files", self.error_text())
        self.assertIsNone(client.run.poll(), "it has not ended")
        limits.prlimit(client.run.pid, limits.RLIMIT_NOFILE, before)
        self.runs("a")
        self.assertEqual(self.ended(client, signal.SIGTERM), 0)

    def test_garbled(self):
        """an executor that writes no lines of an executor is killed, and another one is started, after growing pauses"""
        self.wants(a=self.dummy("a"))
        with open(self.place("talks"), "w", encoding="ascii") as file:
            file.write(f'#!/bin/sh\n[ -e {self.here}/good ] && exec "$@"\necho good morning\nread -r line\n')
        os.chmod(self.place("talks"), 0o755)
        client = self.started("--file", self.place("resources.json"), self.place("talks"), PROGRAM, "serve", "--journal",
                              self.place("journal"), "--root", self.here, program=CLIENT, err=self.place("err"))
        self.waits("two tries", lambda: self.error_text().count("good morning") >= 2)
        self.assertIn("client: it is tried again in 1 s\n", self.error_text())
        with open(self.place("good"), "w", encoding="ascii"):
            pass
        self.runs("a")
        self.assertEqual(self.ended(client, signal.SIGTERM), 0)

    def test_no_program(self):
        """a program that is missing or may not be run ends it with status 2, and is named"""
        self.wants(a=self.dummy("a"))
        with open(self.place("text"), "w", encoding="ascii") as file:
            file.write("no program\n")
        for name, why in (("none", "No such file or directory"), ("text", "Permission denied"), ("resources.json/x", "Not a directory")):
            done = subprocess.run([CLIENT, "--file", self.place("resources.json"), self.place(name), "serve", "--memory"],
                                  capture_output=True, text=True, timeout=helper.WHOLE)
            self.assertEqual((done.returncode, done.stderr), (2, f"client: {self.place(name)}: {why}\n"))

    def described(self, name, **params):
        return {"provider": "test", "type": "Described", "params": {"state": self.place(name), **params}, "interval": 100}

    def test_check(self):
        """--check names unknown agents and parameters, and asks each agent once; --offline asks none"""
        site = (PROGRAM, "serve", "--journal", self.place("journal"), f"--root={self.here}", "--meta-variables")
        self.wants(a=self.described("a"), b=self.described("b", configfile="x"), c=self.described("c", trace_ra="1"))
        self.assertEqual(self.checked(*site), (0, ["3 resources"]))
        self.assertEqual(self.called("meta-data"), 1)
        self.wants(a=self.described("a", confgfile="x"), b={**self.described("b"), "type": "Descibed"}, c=self.described("c", x="y"),
                   d=self.dummy("d"))
        self.assertEqual(self.checked(*site), (1, ["resources.a.params.confgfile: test:Described has no such parameter; it has configfile",
                                                   "resources.b.type: there is no agent test:Descibed",
                                                   "resources.c.params.x: test:Described has no such parameter"]))
        self.assertEqual(self.called("meta-data"), 2)
        self.assertEqual((self.checked("--offline", *site), self.called("meta-data")), ((0, ["4 resources"]), 2))
        os.chmod(self.place("resource.d/test/Described"), 0o644)
        self.wants(a=self.described("a"), d=self.dummy("d"))
        self.assertEqual(self.checked(*site), (1, ["resources.a.type: the agent test:Described may not be run"]))
        self.wants(d=self.dummy("d"))
        self.assertEqual(self.checked(*site), (0, ["1 resources; no metadata, so parameters are not checked: test:Dummy"]))
        self.assertEqual(os.listdir(self.place("journal")), [])

    def test_sizes(self):
        """the file may have a resource as large as the program registers, and none that is larger"""
        site = (PROGRAM, "serve", "--memory", "--root", self.here)
        for more, status in ((0, 0), (1, 1)):
            # 1 + 8 bytes before the names, which have their length in one byte, as parameters' names; values have it in two
            names = ("r" * 64, "test", "Dummy")
            params = {f"p{number:02}": "\u00e9" * 512 for number in range(15)}
            rest = 16384 - 9 - sum(1 + len(name) for name in names) - 1 - 15 * (1 + 3 + 2 + 1024)
            params["last"] = "x" * (rest - 1 - 4 - 2 + more)
            self.wants(**{names[0]: {"provider": names[1], "type": names[2], "params": params}})
            self.assertEqual(self.checked("--offline")[0], status)
            command = {"op": "register", "id": names[0], "provider": names[1], "type": names[2], "params": params}
            reply = helper.replies(helper.run(*site[1:], sent=helper.lines(command)).stdout)[0]
            self.assertEqual(reply.get("error"), "too-large" if status else None)

    def test_successor(self):
        """a running resource is kept as it was while its successor cannot be run, and changed once it can"""
        self.wants(a=self.described("a"), b=self.dummy("b"))
        client = self.client()
        self.comes(client, id="a", interval=100, code=0)
        wrong = ({**self.described("a"), "type": "Descibed"}, self.described("a", confgfile="x"))
        for count, one in enumerate(wrong, 1):
            self.wants(a=one, b=self.dummy("b"))
            os.kill(client.run.pid, signal.SIGHUP)
            self.waits("word of it", lambda wanted=count: self.error_text().count("client: a stays as it was: ") == wanted)
            self.comes(client, len(client.lines), id="a", interval=100, code=0)
        big = self.described("a", **{f"p{number}": "x" * 1024 for number in range(17)})
        self.wants(a=big, b=self.dummy("b"))
        os.kill(client.run.pid, signal.SIGHUP)
        self.waits("word of it", lambda: "resources.a.params: with the names" in self.error_text())
        self.stops("a")
        self.runs("a")
        self.assertEqual((self.called("Described", "stop"), self.called("Described", "start")), (0, 2), "no agent stopped it")
        self.wants(a=self.described("a", configfile="x"), b=self.dummy("b"))
        os.kill(client.run.pid, signal.SIGHUP)
        self.waits("the change", lambda: self.called("Described", "start") == 3)
        self.assertEqual(self.ended(client, signal.SIGTERM), 0)
        [info] = [value for value in helper.replies(helper.shown(self.place("journal"))) if value.get("id") == "a"]
        self.assertEqual(info["params"].get("configfile"), "x", self.error_text())

    def test_damaged(self):
        """a damaged journal ends it with that status, and so does a wrong argument"""
        self.wants(a=self.dummy("a"))
        self.journal_of("damaged", b"\x01 no journal", b"")
        for words, status in ((("--journal", self.place("damaged")), 3), (("--journey", "x"), 2)):
            done = subprocess.run([CLIENT, "--file", self.place("resources.json"), PROGRAM, "serve", *words],
                                  capture_output=True, timeout=helper.WHOLE)
            self.assertEqual(done.returncode, status, done.stderr)

    @helper.slow
    def test_kills(self):
        """no result is lost or reported twice when its executor is killed"""
        dice, kills = random.Random(helper.number("SEED", 20261127)), helper.number("KILLS", 100)
        self.wants(**{name: self.dummy(name, interval=50) for name in "abcd"})
        client, killed, made, until = self.client(), None, 0, time.monotonic() + LONGEST
        self.runs("a", "b", "c", "d")
        while made < kills and time.monotonic() < until:
            self.waits("executor", lambda: self.child(client) not in (None, killed))
            self.comes(client, len(client.lines), outcome="done")
            time.sleep(dice.uniform(0, 0.1))
            killed, made = self.child(client), made + 1
            os.kill(killed, signal.SIGKILL)
        self.comes(client, len(client.lines), outcome="done")
        self.assertEqual(self.ended(client, signal.SIGTERM), 0)
        runs = sorted(value["run"] for value in client.notices() if value["run"])
        self.assertEqual(runs, list(range(1, len(runs) + 1)), "each run once")
        self.assertGreater(len(runs), made)
        # an opening reports interrupted actions before dropped ones, which a history has in the other order; there is no notice of an
        # action that the client itself withdrew at its end
        seen = {(value["call"], value["run"]): {**helper.result_of(value), "id": value["id"]} for value in client.notices()}
        for name, results in helper.results(self.place("journal")).items():
            for result in results:
                if result["outcome"] != "cancelled":
                    self.assertEqual(seen[result["call"], result["run"]], {**result, "id": name})
