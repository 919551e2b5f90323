"""The lines of --events: one on standard error for each result, in the words of status, and with a priority in front if standard error is
the system's journal. Standard output is the same with and without the option."""
import os
import re
import subprocess
import tempfile

import helper

# An agent that ends with the code that a parameter names, or by a signal.
ENDS = """case $OCF_RESKEY_code in kill) kill -9 $$ ;; sleep) exec sleep 20 ;; *) exit "$OCF_RESKEY_code" ;; esac
"""
# the line of a start that ends so, and its priority
STARTS = [
    ("0", "web: start ok after N ms", 6),
    ("1", "web: start failed: error (OCF_ERR_GENERIC, 1) after N ms", 3),
    ("5", "web: start failed: not installed (OCF_ERR_INSTALLED, 5) after N ms", 3),
    ("6", "web: start failed: not configured (OCF_ERR_CONFIGURED, 6) after N ms", 3),
    ("77", "web: start failed: a code of the agent's own (other, 77) after N ms", 3),
    ("kill", "web: start failed: a signal ended the agent after N ms", 3),
]


def without_times(text):
    return re.sub(r"\b\d+ (ms|s)\b", "N ms", text)


class Events(helper.Check):
    def setUp(self):
        super().setUp()
        self.agent("Ends", ENDS)

    def commands(self, code, what="start", **more):
        return helper.lines(helper.register("web", "Ends", code=code), helper.action("web", what, **more), {"op": "drain"})

    def events(self, sent, *words, run=helper.run):
        """The lines for these commands, without other lines on standard error."""
        done = run("run", "--memory", "--root", self.here, "--events", *words, sent=sent)
        self.assertEqual(done.returncode, 0, done.stderr)
        return [line for line in without_times(done.stderr.decode()).splitlines() if not line.startswith("ocfexec: ")]

    def test_starts(self):
        """a line for each result, in the words of status"""
        for code, wanted, _ in STARTS:
            with self.subTest(code):
                self.assertEqual(self.events(self.commands(code)), [wanted])

    def test_priorities(self):
        """with its priority if standard error is the system's journal"""
        for code, wanted, priority in STARTS:
            with self.subTest(code):
                self.assertEqual(self.events(self.commands(code), run=helper.explained), [f"<{priority}>{wanted}"])

    def test_timeout(self):
        """an action that ran past its timeout"""
        self.assertEqual(self.events(self.commands("sleep", timeout=200)),
                         ["web: start failed: it ran past its timeout and was killed after N ms"])

    def test_probe(self):
        """a probe that finds it not running is not a failure"""
        self.assertEqual(self.events(self.commands("7", "monitor", expect=7), run=helper.explained),
                         ["<6>web: monitor: not running (OCF_NOT_RUNNING, 7) after N ms"])

    def test_together(self):
        """both results of a turn have failed: a monitor that finds it not running, and a start of an agent that is missing by then"""
        self.agent("Goes", 'rm "$0"\nexit 7\n')
        sent = helper.lines(helper.register("web", "Goes"), helper.action("web", "monitor"), helper.action("web", "start"), {"op": "drain"})
        self.assertEqual(self.events(sent, run=helper.explained), ["<3>web: monitor failed: not running (OCF_NOT_RUNNING, 7) after N ms",
                                                                   "<3>web: start failed: the agent's file is missing"])

    def test_recurring(self):
        """a recurring monitor that expects it to run, and finds that it does not, has failed"""
        run = self.started("serve", "--memory", "--root", self.here, "--events", err=self.place("err"),
                           env={**os.environ, **self.stream()})
        run.send(helper.register("web", "Ends", code="7"), {"op": "recur", "id": "web", "interval": 1000})
        run.awaits(lambda value: helper.is_notice(value, action="monitor", code=7))
        self.assertEqual(run.ends(), 0)
        with open(self.place("err"), encoding="utf-8") as err:
            first = without_times(err.read()).splitlines()[0]
        self.assertEqual(first, "<3>web: monitor failed: not running (OCF_NOT_RUNNING, 7) after N ms")

    def stream(self):
        """A file of standard error that the environment names as the stream to the system's journal; it is created here, and emptied for
        the run."""
        with open(self.place("err"), "wb") as err:
            return helper.journal_stream(err.fileno())

    def test_withdrawn(self):
        """an action that was withdrawn has no notice, and so no line"""
        sent = helper.lines(helper.register("web", "Ends", code="0"), helper.action("web", "start"),
                            {"op": "withdraw", "id": "web", "call": 1}, {"op": "drain"})
        self.assertEqual(self.events(sent, run=helper.explained), [])

    def test_interrupted(self):
        """an interruption has its line at the next opening"""
        journal = self.journal()
        run = self.started("serve", "--journal", journal, "--root", self.here)
        run.send(helper.register("web", "Ends", code="sleep"), helper.action("web", "start"))
        for _ in range(600):
            run.send({"op": "info", "id": "web"})
            if run.finds(lambda value: value.get("running"), 0.1)[1]:
                break
        run.killed()
        done = helper.explained("run", "--journal", journal, "--orphans", "0", "--root", self.here, "--events")
        self.assertEqual(done.returncode, 0, done.stderr)
        said = [line for line in done.stderr.decode().splitlines() if "web: " in line and line.startswith("<")]
        self.assertEqual(said, ["<4>web: start interrupted: the executor ended while it ran; it may be done or not"])

    def test_output(self):
        """standard output is the same with them and without"""
        for code, _, _ in STARTS:
            with self.subTest(code):
                sent = self.commands(code)
                words = ("run", "--memory", "--root", self.here)
                self.assertEqual(helper.run(*words, "--events", sent=sent).stdout, helper.run(*words, sent=sent).stdout)

    def test_none(self):
        """without the option there is no line for a result"""
        done = helper.run("run", "--memory", "--root", self.here, sent=self.commands("1"))
        self.assertEqual(done.stderr, b"")

    def test_closed(self):
        """a standard error that is closed, full or not read ends no run"""
        sent = self.commands("1")
        words = [helper.PROGRAM, "run", "--memory", "--root", self.here, "--events"]
        wanted = helper.run(*words[1:], sent=sent).stdout
        closed = subprocess.run(["sh", "-c", '"$@" 2>&-', "sh", *words], input=sent, stdout=subprocess.PIPE, check=False, timeout=60)
        self.assertEqual((closed.returncode, closed.stdout), (0, wanted))
        with open("/dev/full", "wb") as full:
            done = subprocess.run(words, input=sent, stdout=subprocess.PIPE, stderr=full, check=False, timeout=60)
        self.assertEqual((done.returncode, done.stdout), (0, wanted))
        ours, theirs = os.pipe()
        os.close(ours)
        done = subprocess.run(words, input=sent, stdout=subprocess.PIPE, stderr=theirs, check=False, timeout=60)
        os.close(theirs)
        self.assertEqual((done.returncode, done.stdout), (0, wanted))

    def test_many(self):
        """each of forty results has its line, in the order of the notices"""
        sent = b"".join(helper.lines(helper.register(f"r{n}", "Ends", code=str(n % 2)), helper.action(f"r{n}", "start"))
                        for n in range(40)) + helper.lines({"op": "drain"})
        with tempfile.TemporaryFile() as err:
            done = subprocess.run([helper.PROGRAM, "run", "--memory", "--root", self.here, "--events"], input=sent,
                                  stdout=subprocess.PIPE, stderr=err, check=False, timeout=120)
            err.seek(0)
            said = [line.split(":")[0] for line in err.read().decode().splitlines()]
        self.assertEqual(said, [value["id"] for value in helper.replies(done.stdout) if helper.is_notice(value)])
        self.assertEqual(sorted(said), sorted(f"r{n}" for n in range(40)))
