"""The state that a status prints is that of the records: over both parts of a journal, past the results that a history keeps, after actions
that were interrupted, dropped or withdrawn, after forget, and in both layouts; and whether an executor has the journal. The journals are
written here from docs/FORMAT.md."""
import gzip
import os
import re
import time

import helper
import journal_format as book
from written_journal import EVERY, HOUR, MINUTE, NOT_RUNNING, OK, SECOND, Written, keep

OLD = os.path.join(helper.TOP, "tests/data/first-layout")


class Conditions(helper.Check):
    def setUp(self) -> None:
        super().setUp()
        self.agent("Ends", "exit 0\n")
        self.folder = self.journal()
        self.written = Written()

    def save(self) -> None:
        self.written.save(self.folder)

    def status(self, *words: str, ends: int = 0) -> str:
        done = helper.run("status", "--journal", self.folder, *words)
        self.assertEqual((done.returncode, done.stderr), (ends, b""), done.stdout)
        return done.stdout.decode()

    def rows(self, *words: str) -> dict[str, str]:
        """What follows the agent in each row of a table."""
        found = re.findall(r"^(\S+) +test:Ends +(.*?) *$", self.status(*words), re.MULTILINE)
        return dict(found)

    def values(self, *words: str) -> dict[str, dict]:
        lines = helper.replies(self.status("--json", *words).encode())
        return {value["id"]: value for value in lines if "state" in value}

    def is_since(self, name: str, state: str, age: int, at_least: bool = False) -> None:
        value = self.values()[name]
        self.assertEqual((value["state"], value["since"], value["at_least"]), (state, self.written.now - age, at_least))

    def tidies(self) -> None:
        done = helper.run("run", "--journal", self.folder, "--root", self.here, sent=helper.lines({"op": "tidy"}))
        self.assertEqual(done.returncode, 0, done.stderr)

    def up_for_hours(self) -> None:
        """A service that was started three hours ago, with more results of its monitor than a history keeps."""
        self.written.registers("web", 3 * HOUR + MINUTE)
        self.written.does("web", book.START, 3 * HOUR)
        call = self.written.recurs("web", 3 * HOUR - SECOND)
        self.written.monitored("web", call, 3 * HOUR - EVERY, EVERY)
        self.save()

    def test_old_start(self):
        """a start that is older than all results of the history shows since when"""
        self.up_for_hours()
        self.is_since("web", "started", 3 * HOUR)
        self.assertEqual(self.rows()["web"], "started 3 h ago")

    def test_older_part(self):
        """the records of the older part show since when, and those that are gone leave 'at least'"""
        self.up_for_hours()
        self.tidies()
        self.is_since("web", "started", 3 * HOUR)
        self.tidies()
        value = self.values()["web"]
        self.assertEqual(value["at_least"], True)
        self.assertGreater(value["since"], self.written.now - 3 * HOUR)
        self.assertRegex(self.rows()["web"], r"^started for at least \d+ min$")

    def test_kept_change(self):
        """where the history has the change, it is exact without older records"""
        self.written.registers("web", HOUR)
        for _ in range(20):
            self.written.does("web", book.MONITOR, 40 * MINUTE, NOT_RUNNING, expect=7)
        self.written.does("web", book.START, 30 * MINUTE)
        self.save()
        for _ in range(2):
            self.tidies()
        self.is_since("web", "started", 30 * MINUTE)

    def test_interrupted(self):
        """a monitor that was interrupted, and actions that were dropped, change no state"""
        self.up_for_hours()
        self.written.begins("web", 2, SECOND)
        self.written.queues("web", book.STOP, SECOND)
        self.written.add("boot", 500)
        self.save()
        self.is_since("web", "started", 3 * HOUR)

    def test_withdrawn(self):
        """an action that was withdrawn changes no state"""
        self.written.registers("web", HOUR)
        self.written.does("web", book.START, MINUTE)
        call = self.written.queues("web", book.STOP, SECOND)
        self.written.add("withdraw", SECOND, id="web", call=call)
        self.save()
        self.is_since("web", "started", MINUTE)

    def test_interrupted_start(self):
        """an interrupted start leaves the state unknown"""
        self.written.registers("web", HOUR)
        self.written.begins("web", self.written.queues("web", book.START, MINUTE), MINUTE)
        self.written.add("boot", SECOND)
        self.save()
        self.is_since("web", "unknown", SECOND)

    def test_forget(self):
        """a service whose results are forgotten is unknown, until a result shows its state; one that never ran is that"""
        self.written.registers("web", HOUR)
        self.written.registers("new", HOUR)
        self.written.does("web", book.START, MINUTE)
        for name in ("web", "new"):
            self.written.add("forget", 30 * SECOND, id=name)
        self.save()
        found = self.values()
        self.assertEqual((found["web"]["state"], found["web"]["since"]), ("unknown", None))
        self.assertEqual((found["new"]["state"], found["new"]["since"]), ("never run", None))
        self.written.does("web", book.MONITOR, SECOND)
        self.save()
        self.is_since("web", "started", SECOND, at_least=True)
        self.assertEqual(self.values()["new"]["at_least"], False)

    def test_given_up(self):
        """a service that is down and was stopped after it failed has failed, since then; one that was stopped in order is stopped"""
        for name, outcome in (("bad", NOT_RUNNING), ("good", OK)):
            self.written.registers(name, HOUR)
            self.written.does(name, book.START, 3 * MINUTE)
            self.written.does(name, book.MONITOR, 2 * MINUTE, outcome)
            self.written.does(name, book.STOP, MINUTE)
        self.save()
        self.is_since("bad", "failed", 2 * MINUTE)
        self.is_since("good", "stopped", MINUTE)

    def test_given_up_start(self):
        """a service whose start failed and that was then stopped has failed since the start, also after tidies"""
        for name, action in (("bad", book.START), ("good", book.STOP)):
            self.written.registers(name, HOUR)
            self.written.does(name, action, 2 * MINUTE, (book.DONE, 1))
            self.written.does(name, book.STOP, MINUTE)
        self.save()
        for _ in range(3):
            self.is_since("bad", "failed", 2 * MINUTE)
            self.is_since("good", "stopped", MINUTE)
            self.tidies()

    def test_old_failure(self):
        """a failure that is older than the success of a start is over"""
        self.written.registers("web", HOUR)
        self.written.does("web", book.START, 2 * MINUTE, (book.DONE, 1))
        self.written.does("web", book.START, MINUTE)
        self.save()
        self.is_since("web", "started", MINUTE)

    def test_registered_again(self):
        """a resource that was unregistered and registered again is new"""
        self.written.registers("web", HOUR)
        self.written.does("web", book.START, 2 * MINUTE)
        self.written.add("unregister", MINUTE, id="web")
        self.written.registers("web", SECOND)
        self.save()
        self.assertEqual(self.values()["web"]["state"], "never run")

    def test_first_layout(self):
        """a journal of the first layout is read, and not written"""
        for name in ("resting", "running"):
            with self.subTest(name):
                parts = []
                for part in helper.PARTS:
                    with gzip.open(os.path.join(OLD, name, f"{part}.gz")) as file:
                        parts.append(file.read())
                keep(self.folder, *parts)
                self.assertNotEqual(self.values(), {})
                self.assertEqual(helper.parts(self.folder), parts)

    def test_damaged_older_part(self):
        """an older part that cannot be read leaves what the newer one holds"""
        self.up_for_hours()
        self.tidies()
        old, new = helper.parts(self.folder)
        gate = book.closed_gate(old)
        keep(self.folder, old[:gate - 100] + bytes(100), new)
        value = self.values()["web"]
        self.assertEqual((value["state"], value["at_least"]), ("started", True))

    def test_no_executor(self):
        """the first line says that no executor has the journal, and how old its last record is; --exit-code is 10 then"""
        self.written.registers("web", HOUR)
        self.written.does("web", book.START, 5 * MINUTE)
        self.save()
        self.assertEqual(self.status().split("\n")[0], "no executor has this journal; its last record is 5 min old")
        self.assertEqual(self.status("--exit-code", ends=10), self.status())
        self.assertEqual(self.values()["web"]["executor"], False)
        run = self.started("serve", "--journal", self.folder, "--root", self.here)
        run.ready()
        self.assertEqual(self.status("--exit-code").split()[0], "RESOURCE")
        self.assertEqual(self.values()["web"]["executor"], True)
        self.assertEqual(run.ends(), 0)
        self.status("--exit-code", ends=10)

    def test_full_part(self):
        """a status over many records of many resources comes at once"""
        names = [f"r{number}" for number in range(256)]
        for name in names:
            self.written.registers(name, 3 * HOUR)
        calls = [self.written.does(name, book.START, 2 * HOUR) and self.written.recurs(name, 2 * HOUR) for name in names]
        texts = [self.written.text]
        age = 2 * HOUR - 1
        while sum(map(len, texts)) < book.PART - 40_000:
            self.written.text = b""
            for name, call in zip(names, calls):
                self.written.runs_once(name, call, age)
            texts.append(self.written.text)
            age -= SECOND
        self.written.text = b"".join(texts)
        self.save()
        began = time.monotonic()
        found = self.values()
        took = time.monotonic() - began
        self.assertEqual({value["since"] for value in found.values()}, {self.written.now - 2 * HOUR})
        print(f"conditions: a status over a full part of 256 resources took {took:.3f} s")
        self.took_less(2, took, "a status over a full part")
