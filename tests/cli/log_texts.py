"""What `log` prints, word for word: all of it, --failed, --changes, -n, --since and --until, IDs, --json and --salvage, in a pipe and on
terminals of 80 and 120 columns, over a journal with each kind of event, each outcome and an opening that interrupts and drops. The
journal is written here from docs/FORMAT.md, and the texts are those of tests/data/log."""
import os

import helper
import journal_format as book
from shown import Shown
from written_journal import HOUR, MINUTE, NOT_RUNNING, SECOND, Written, keep

TEXTS = os.path.join(helper.TOP, "tests/data/log")
NOON = 1_764_244_800_000  # 2025-11-27 12:00:00
LONG = "a-very-long-id-of-sixty-four-letters-" + "x" * 27


class LogTexts(Shown):
    WORD = "log"

    def setUp(self) -> None:
        super().setUp()
        self.folder, self.written = self.journal(), Written()
        self.written.now = NOON

    def story(self) -> None:
        """Three resources: web runs its monitors and fails, db has each other action and outcome, and the long one is left at the end."""
        book_of = self.written
        for name, provider, kind in (("web", "heartbeat", "nginx"), ("db", "heartbeat", "pgsql"), (LONG, "heartbeat", "IPaddr2")):
            book_of.registers(name, 5 * HOUR, provider, kind)
        book_of.does("web", book.MONITOR, 5 * HOUR - SECOND, NOT_RUNNING, expect=7)
        book_of.does("web", book.START, 4 * HOUR)
        every = book_of.recurs("web", 4 * HOUR - 100)
        book_of.monitored("web", every, 4 * HOUR - 10 * SECOND, 4 * HOUR - MINUTE)
        book_of.runs_once("web", every, 3 * HOUR, NOT_RUNNING)
        book_of.runs_once("web", every, 3 * HOUR - 10 * SECOND, NOT_RUNNING)
        book_of.does("web", book.STOP, 3 * HOUR - MINUTE)
        book_of.add("cancel", 3 * HOUR - MINUTE, id="web", interval=10 * SECOND)
        for place, (action, outcome) in enumerate((
                (book.VALIDATE, (book.DONE, 6)), (book.START, (book.NOT_STARTED, 1)), (book.START, (book.NOT_STARTED, 2)),
                (book.START, (book.NOT_STARTED, 3)), (book.START, (book.TIMED_OUT, 0)), (book.START, (book.SIGNALED, 0)),
                (book.START, (book.LOST, 0)), (book.START, (book.DONE, 42)), (book.START, (book.DONE, 0)), (book.PROMOTE, (book.DONE, 0)),
                (book.MONITOR, (book.DONE, 190)), (book.MONITOR, (book.DONE, 9)), (book.DEMOTE, (book.DONE, 1)),
                (book.RELOAD, (book.DONE, 3)), (book.STOP, (book.DONE, 4)))):
            book_of.does("db", action, 2 * HOUR - place * MINUTE, outcome)
        book_of.does("db", book.MONITOR, HOUR + 20 * MINUTE, (book.DONE, 8), expect=8)
        book_of.add("params", HOUR, id="db", params={"config": "/etc/pg"})
        book_of.add("withdraw", HOUR, id="db", call=book_of.queues("db", book.STOP, HOUR))
        book_of.add("forget", HOUR, id="db")
        book_of.add("unregister", HOUR - MINUTE, id="db")
        book_of.does(LONG, book.START, 30 * MINUTE)
        probe = book_of.recurs(LONG, 30 * MINUTE, interval=90 * SECOND)
        book_of.begins(LONG, probe, 20 * MINUTE)
        book_of.begins("web", book_of.queues("web", book.START, 20 * MINUTE), 20 * MINUTE)
        book_of.queues("web", book.STOP, 19 * MINUTE)
        book_of.add("boot", 10 * MINUTE)
        book_of.save(self.folder)

    def is_text(self, name: str, text: str) -> None:
        path = os.path.join(TEXTS, f"{name}.txt")
        with open(path, encoding="utf-8") as file:
            self.assertEqual(text, file.read())

    def text_of(self, name: str) -> str:
        with open(os.path.join(TEXTS, f"{name}.txt"), encoding="utf-8") as file:
            return file.read()

    def test_all(self):
        """each event in a sentence, with each outcome, and what an opening interrupted and dropped"""
        self.story()
        self.is_text("all", self.piped())

    def test_failed(self):
        """--failed has the failures alone, and what an opening interrupted or dropped"""
        self.story()
        self.is_text("failed", self.piped("--failed"))

    def test_changes(self):
        """--changes has equal results of a monitor in one line, with their count and the moment of the last"""
        self.story()
        self.is_text("changes", self.piped("--changes"))

    def test_last(self):
        """-n has the last lines of all, and of those that are asked for"""
        self.story()
        whole, failed = self.text_of("all").splitlines(True), self.text_of("failed").splitlines(True)
        for count in (0, 1, 5, 1000):
            self.assertEqual(self.piped("-n", str(count)), "".join(whole[len(whole) - min(count, len(whole)):]))
            self.assertEqual(self.piped("--failed", "-n", str(count)), "".join(failed[len(failed) - min(count, len(failed)):]))

    def test_times(self):
        """--since and --until cut the log between two moments; both are in it"""
        self.story()
        self.is_text("times", self.piped("--since", "2025-11-27T09:00:00Z", "--until", "2025-11-27T10:04:00Z"))

    def test_resource(self):
        """an ID has its own lines and the openings"""
        self.story()
        self.is_text("resource", self.piped(LONG))

    def test_json(self):
        """--json has an object for each event, and first since when there are records"""
        self.story()
        self.is_text("json", self.piped("--json"))

    def test_terminal(self):
        """a terminal has a first line more, whatever its width, and no colours"""
        self.story()
        for columns, variables in ((80, {}), (120, {}), (80, {"NO_COLOR": "1"}), (120, {"TERM": "dumb"})):
            first, rest = self.on_terminal(columns=columns, **variables).split("\n", 1)
            self.assertRegex(first, r"^records since 2025-11-27 07:00:00 \(\d+ days\)$")
            self.assertEqual(rest, self.text_of("all"))

    def test_salvage(self):
        """--salvage prints what is before a damage, and where the records of each part end"""
        self.story()
        with open(os.path.join(self.folder, helper.PARTS[0]), "rb") as file:
            text = file.read()
        ends = book.closed_gate(text)
        keep(self.folder, text[:ends] + book.OPEN + b"\0\0\0\x09" + bytes(9) + book.CLOSED, b"")
        done = helper.run("log", "--journal", self.folder)
        self.assertEqual((done.returncode, done.stdout), (3, b""))
        self.is_text("salvage", self.piped("--salvage").replace(str(ends), "END"))
