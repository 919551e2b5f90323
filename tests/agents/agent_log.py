"""The output of agents: appended to the file of --log, written to standard error by -, and lost without either. A file that cannot be
opened, and a named pipe, are refused before the journal is opened. A process that an agent leaves in the background goes on writing after
the executor has ended. The lines of a begin and of an end, which tests/agents/logs.py checks, are left out here."""
import os
import re
import stat

import helper

# An agent that writes a line to each stream and fails. The process that its stop leaves writes once more as soon as there is a file, and
# ends, too, when the check is over.
TALKER = """echo "$1 of $OCF_RESOURCE_INSTANCE"
echo "$1 fails: no such device" >&2
case $1 in stop)
    (until [ -e "$OCF_RESKEY_go" ] || [ ! -e "$0" ]; do sleep 0.05; done; echo "left: $?"; : > "$OCF_RESKEY_go.done") & ;;
esac
exit 5
"""
WRITES = "start of r1\nstart fails: no such device\n"
BEGIN_OR_END = re.compile(r"^r1: [0-9TZ:.-]* (call|run) [0-9]* .*\n", re.MULTILINE)
REFUSED, ADVICE = "ocfexec: input or output", "Nothing was changed. Check the file of --log, its directory and its permissions."
# What cannot be a log, by its place, and why.
NO_LOGS = {"none/log": "No such file or directory (os error 2)", "root": "Is a directory (os error 21)",
           "pipe": "a named pipe, whose reader may go; give a file, or - for standard error"}


class AgentLog(helper.Check):
    def setUp(self):
        super().setUp()
        self.agent("Talker", TALKER)
        self.log = self.place("log")

    def command(self, what):
        return helper.lines(helper.register("r1", "Talker", go=self.place("go")), helper.action("r1", what), {"op": "drain"})

    def does(self, what, *words, journal=("--memory",), call=helper.run, **how):
        """One action, drained."""
        return call("run", *journal, "--root", self.here, *words, sent=self.command(what), timeout=helper.PATIENCE, **how)

    def starts(self, *words, **how):
        """One start, drained, of a run that ends well; its standard error."""
        done = self.does("start", *words, **how)
        self.assertEqual(done.returncode, 0, done.stderr)
        [notice] = [value for value in helper.replies(done.stdout) if helper.is_notice(value)]
        self.assertEqual([notice[key] for key in ("action", "outcome", "code", "name")], ["start", "done", 5, "OCF_ERR_INSTALLED"])
        return done.stderr.decode()

    def written(self):
        """What agents wrote into the log."""
        with open(self.log, encoding="utf-8") as log:
            return BEGIN_OR_END.sub("", log.read())

    def test_lost(self):
        """without --log the output is lost"""
        self.assertEqual(self.starts(), "")

    def test_file(self):
        """the file of --log is made for its owner alone, and appended to"""
        for count in (1, 2):
            self.assertEqual((self.starts("--log", self.log), self.written()), ("", count * WRITES))
            self.assertEqual(stat.S_IMODE(os.stat(self.log).st_mode), 0o600)

    def test_standard_error(self):
        """by --log - agents write to standard error"""
        self.assertEqual(BEGIN_OR_END.sub("", self.starts("--log", "-")), WRITES)

    def test_mebibyte(self):
        """by --log - a mebibyte of an agent's output is copied, and a line says that the rest is left out"""
        self.agent("Talker", "head -c 2000000 /dev/zero | tr '\\0' '~'\n")
        # (standard error is a file, so no reader can be late)
        done = self.does("start", "--log", "-", call=helper.explained)
        self.assertEqual((done.returncode, done.stderr.count(b"~")), (0, 1 << 20))
        self.assertIn(b"an agent wrote a mebibyte or more, and the rest was left out", done.stderr)

    def test_refused(self):
        """a log that cannot be opened, and a named pipe, are refused, and no journal is made"""
        os.mkdir(self.place("root"))
        os.mkfifo(self.place("pipe"))
        folder = self.journal()
        for name, why in NO_LOGS.items():
            with self.subTest(name):
                log = self.place(name)
                done = self.does("start", "--log", log, journal=("--journal", folder))
                self.assertEqual((done.returncode, done.stdout, done.stderr.decode()), (7, b"", f"{REFUSED}\n"))
                done = self.does("start", "--log", log, journal=("--journal", folder), call=helper.explained)
                self.assertEqual((done.returncode, done.stderr.decode()), (7, f"{REFUSED}\n{log}: {why}\n{ADVICE}\n"))
                self.assertEqual(os.listdir(folder), [])

    def test_closed_streams(self):
        """a log is not written into where a standard stream is closed, except by agents"""
        self.starts("--log", self.log, preexec_fn=lambda: os.close(2))
        helper.run("run", "--memory", "--root", self.here, "--log", self.log, preexec_fn=lambda: os.closerange(1, 3))
        self.assertEqual(self.written(), WRITES)

    def test_left(self):
        """a process that an agent leaves in the background goes on writing once the executor has ended"""
        self.assertEqual(self.does("stop", "--log", self.log).returncode, 0)
        self.assertNotIn("left", self.written())
        self.note("go", b"")
        self.eventually("what is left writes", lambda: os.path.exists(self.place("go.done")))
        self.assertEqual(self.written().splitlines()[-1], "left: 0")

    def test_show(self):
        """show, which starts nothing, takes no log, and makes none"""
        self.assertEqual(helper.run("show", "--memory", "--log", self.log).returncode, 2)
        self.assertFalse(os.path.exists(self.log), "a log was made")
