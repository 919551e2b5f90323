"""The table that a status prints, for a terminal of 80, 120 and 200 columns and for a pipe: a line for each resource, which never breaks,
with lines below it only where something is wrong; the last line, --failed, several IDs, a folded history, --times, --watch and colours. The
tables are those of tests/data/status."""
import os
import re
import subprocess
import unicodedata

import helper
import journal_format as book
from shown import Shown
from written_journal import HOUR, MINUTE, NOT_RUNNING, SECOND, Written

TABLES = os.path.join(helper.TOP, "tests/data/status")
LONG = "a-very-long-id-of-sixty-four-letters-" + "x" * 27
ESCAPE = re.compile(r"\x1b\[[0-9;]*[A-Za-z]")
GREEN, YELLOW, RED = "\x1b[32m", "\x1b[33m", "\x1b[31m"


def width(line: str) -> int:
    """The columns of a line on a terminal."""
    return sum(0 if unicodedata.combining(each) else 2 if unicodedata.east_asian_width(each) in "WF" else 1 for each in line)


class Tables(Shown):
    def setUp(self) -> None:
        super().setUp()
        self.folder, self.written = self.journal(), Written()

    def save(self) -> None:
        self.written.save(self.folder)

    def eleven(self) -> None:
        """Eleven resources: of a cluster's kind, one with an id of 64 letters, one that failed and was stopped, one that was never run."""
        kinds = (("web", "heartbeat", "nginx"), ("db", "heartbeat", "pgsql"), (LONG, "heartbeat", "IPaddr2"),
                 ("fs", "heartbeat", "Filesystem"), ("mail", "heartbeat", "postfix"),
                 ("cache", "test", "a-type-of-an-agent-that-is-very-long"), ("lb", "heartbeat", "haproxy"),
                 ("queue", "rabbitmq", "rabbitmq-server-ha"), ("cron", "heartbeat", "anything"), ("spare", "heartbeat", "Dummy"),
                 ("ip", "heartbeat", "IPaddr2"))
        for name, provider, kind in kinds:
            self.written.registers(name, 5 * HOUR, provider, kind)
        for name, _, _ in kinds:
            if name != "spare":
                self.written.does(name, book.START, 4 * HOUR + MINUTE)
        self.written.does("db", book.PROMOTE, 4 * HOUR)
        self.written.does("mail", book.MONITOR, 3 * HOUR + 2 * MINUTE, NOT_RUNNING)
        self.written.does("mail", book.STOP, 3 * HOUR + MINUTE)
        self.written.does("cron", book.STOP, 3 * HOUR)
        self.written.begins("ip", self.written.queues("ip", book.STOP, 3 * HOUR), 3 * HOUR)
        self.written.queues("ip", book.START, 3 * HOUR)
        self.save()

    def forty(self) -> None:
        for number in range(40):
            self.written.registers(f"r{number}", 5 * HOUR)
            self.written.does(f"r{number}", book.START, 4 * HOUR)
        self.written.does("r7", book.MONITOR, 3 * HOUR, (book.DONE, 1))
        self.written.does("r9", book.STOP, 3 * HOUR)
        self.save()

    def is_table(self, name: str, text: str) -> None:
        with open(os.path.join(TABLES, f"{name}.txt"), encoding="utf-8") as file:
            self.assertEqual(text, file.read())

    def test_widths(self):
        """eleven resources at 80, 120 and 200 columns, and in a pipe"""
        self.eleven()
        for columns in (80, 120, 200):
            with self.subTest(columns):
                text = ESCAPE.sub("", self.on_terminal(columns=columns))
                self.is_table(f"eleven-{columns}", text)
                self.assertLessEqual(max(map(width, text.split("\n"))), columns)
        self.is_table("eleven", self.piped())

    def test_no_columns(self):
        """a terminal that does not name its columns has 80"""
        self.eleven()
        for columns in ({}, {"COLUMNS": "0"}, {"COLUMNS": "many"}):
            self.is_table("eleven-80", ESCAPE.sub("", self.on_terminal(**columns)))

    def test_forty(self):
        """forty resources: a line each, details of the failed one alone, and the last line counts them"""
        self.forty()
        lines = self.piped().splitlines()
        self.assertEqual(lines[-1], "40 resources: 38 started, 1 failed, 1 stopped")
        self.assertEqual([line.split()[0] for line in lines if line.startswith("r")], [f"r{number}" for number in range(40)])
        below = [line for line in lines if line.startswith("  ")]
        self.assertEqual(lines.index(below[0]), [line.split()[0] for line in lines].index("r7") + 1)
        self.assertEqual([line.split()[0] for line in below], ["monitor", "start", "last"])

    def test_failed(self):
        """--failed shows what failed or is unknown alone, in the table and as JSON"""
        self.forty()
        self.is_table("failed", self.piped("--failed"))
        values = helper.replies(self.piped("--failed", "--json").encode())
        self.assertEqual([value["id"] for value in values if "state" in value], ["r7"])
        self.assertEqual(self.piped("--failed", "r8", "r9"), "no executor has this journal; its last record is 3 h old\n")

    def test_several(self):
        """several resources are shown in order of registration, and one that is not registered is refused"""
        self.forty()
        rows = [line.split()[0] for line in self.piped("r9", "r3", "r21").splitlines() if line.startswith("r")]
        self.assertEqual(rows, ["r3", "r9", "r21"])
        done = helper.run("status", "--journal", self.folder, "r3", "nobody")
        self.assertEqual((done.returncode, done.stdout, done.stderr), (2, b"", b"ocfexec: no resource of this id\n"))

    def test_history(self):
        """equal results of a monitor share a line in the history, and a failure never does"""
        self.written.registers("web", 5 * HOUR)
        self.written.does("web", book.MONITOR, 4 * HOUR + 2 * MINUTE, NOT_RUNNING, expect=7)
        self.written.does("web", book.START, 4 * HOUR + MINUTE)
        first, second = self.written.recurs("web", 4 * HOUR), self.written.recurs("web", 4 * HOUR, interval=MINUTE)
        for age in range(3 * HOUR + 30 * MINUTE, 3 * HOUR + 10 * MINUTE, -MINUTE):
            self.written.runs_once("web", first, age)
            self.written.runs_once("web", second, age - SECOND)
        for age in (3 * HOUR + 9 * MINUTE, 3 * HOUR + 8 * MINUTE):
            self.written.runs_once("web", first, age, (book.DONE, 1))
        self.written.runs_once("web", second, 3 * HOUR + 7 * MINUTE)
        self.save()
        self.is_table("history", self.piped("web"))

    def test_times(self):
        """with --times there are moments, in UTC and to the second, and no ages"""
        self.written.now = 1_764_201_600_000 + HOUR
        self.written.registers("web", HOUR)
        self.written.does("web", book.MONITOR, HOUR - SECOND, NOT_RUNNING, expect=7)
        self.written.does("web", book.START, 30 * MINUTE)
        self.save()
        self.is_table("times", self.piped("web", "--times"))

    def test_colours(self):
        """there are colours on a terminal, and where they are wanted; NO_COLOR, TERM=dumb and a pipe have none"""
        self.forty()
        self.assertIn(f"{RED}failed 3 h ago", self.on_terminal())
        self.assertIn(f"{GREEN}started 4 h ago", self.on_terminal())
        self.assertIn(f"{YELLOW}stopped 3 h ago", self.on_terminal())
        self.assertIn(RED, self.piped("--color=always"))
        self.assertIn(RED, self.on_terminal("--color=always", NO_COLOR="1", TERM="dumb"))
        self.assertIn(RED, self.on_terminal(NO_COLOR=""))
        for text in (self.piped(), self.piped(TERM="xterm"), self.on_terminal("--color=never"), self.on_terminal(NO_COLOR="1"),
                     self.on_terminal(NO_COLOR="0"), self.on_terminal(TERM="dumb"), self.piped("--color=auto")):
            self.assertNotIn("\x1b", text)

    def test_probe(self):
        """a probe that later results contradict is called so, and has no colour"""
        self.written.registers("web", 5 * HOUR)
        self.written.does("web", book.MONITOR, 4 * HOUR + MINUTE, NOT_RUNNING, expect=7)
        self.save()
        self.assertIn(f"  monitor       {YELLOW}not running", self.piped("web", "--color=always"))
        self.written.does("web", book.START, 4 * HOUR)
        self.save()
        self.assertIn("  probe         not running, 4 h ago\n", self.piped("web", "--color=always"))

    def test_watch(self):
        """--watch draws a terminal anew, until it is interrupted, and prints on in a pipe until nobody reads"""
        self.forty()
        text = self.on_terminal("--watch", "1", seconds=2.5)
        self.assertGreaterEqual(text.count("\x1b[H\x1b[2J"), 2)
        self.assertEqual(text.count("40 resources"), text.count("\x1b[H\x1b[2J"))
        run = subprocess.Popen(self.command("--watch", "1"), stdout=subprocess.PIPE)
        lines = [run.stdout.readline() for _ in range(60)]
        self.assertIn(b"\n", lines)
        run.stdout.close()
        self.assertEqual(run.wait(helper.PATIENCE), 0)
