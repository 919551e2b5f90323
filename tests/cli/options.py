"""Each option of the command line: its words, and what the program does by them; and wrong words, with the line on standard error and the
exit status. What the options of a run request of the system is tried in played.py, too. The values were taken from the manual page."""
import json
import os
import re
import subprocess
import time

import helper
import journal_format as book
from written_journal import HOUR, MINUTE, NOT_RUNNING, SECOND, Written

DAY = 24 * HOUR
NEW_YEAR = 1_735_689_600_000  # 2025-01-01 00:00:00
# the moments of runs 1 to 13, two at each beginning of a month, a day, an hour, a minute and a second
MOMENTS = (NEW_YEAR - SECOND, NEW_YEAR, NEW_YEAR + 304 * DAY - SECOND, NEW_YEAR + 304 * DAY, NEW_YEAR + 330 * DAY - SECOND,
           NEW_YEAR + 330 * DAY, NEW_YEAR + 330 * DAY + 9 * HOUR - SECOND, NEW_YEAR + 330 * DAY + 9 * HOUR,
           NEW_YEAR + 330 * DAY + 9 * HOUR + 30 * MINUTE - SECOND, NEW_YEAR + 330 * DAY + 9 * HOUR + 30 * MINUTE,
           NEW_YEAR + 330 * DAY + 9 * HOUR + 30 * MINUTE + 19_000, NEW_YEAR + 330 * DAY + 9 * HOUR + 30 * MINUTE + 20_000,
           NEW_YEAR + 330 * DAY + 9 * HOUR + 30 * MINUTE + 20_250)
# a text of --since and --until, and the first run that is not before it; each of these runs is at a moment that a text names
NAMED = (("2025", 2), ("2025-11", 4), ("2025-11-27", 6), ("2025-11-27T09", 8), ("2025-11-27T09:30", 10), ("2025-11-27T09:30Z", 10),
         ("2025-11-27T10:30+01:00", 10), ("2025-11-27T04:00-05:30", 10), ("2025-11-27T09:30:20", 12), ("2025-11-27T09:30:20.250Z", 13),
         ("2025-11-27T09:30:20.25", 13))
# the ages of other runs, and spans with the number of runs that are older
AGES = (3 * DAY, 30 * HOUR, 5 * HOUR, 3 * HOUR, 90 * MINUTE, 30 * MINUTE, 2 * MINUTE)
SPANS = (("4d", 0), ("2d", 1), ("1d", 2), ("4h", 3), ("2h", 4), ("45m", 5), ("3600s", 5), ("600s", 6), ("10m", 6), ("0s", 7))
MOMENT = "a moment, as 2026-11-27 or 2026-11-27T06:30, or a span, as 10m or 2h"
ONCE = "give an agent and an action, or --of, the id of a resource, and an action alone"
# words that are refused, with the line; those of once end with 125, all others with 2
REFUSED = (
    *((f"run --memory --tidy-at={text}", "give --tidy-at a number from 0 to 8388608") for text in ("", "x", "-1", "1k", "8388609")),
    *((f"serve --memory --orphans={text}", "give --orphans a number from 0 to 86400000") for text in ("", "x", "-1", "1s", "86400001")),
    *((f"run --memory --root={text}", "give --root an absolute path") for text in ("", "r", "./r")),
    *((f"log --memory --last={text}", "give -n a number of records") for text in ("", "x", "-1", "9007199254740992")),
    ("log --memory -n x", "give -n a number of records"),
    *((f"status --memory --watch={text}", "give --watch a number of seconds, from 1 to 86400") for text in ("", "x", "0", "86401")),
    *((f"{word} --memory --color={text}", "give --color one of auto, always and never")
      for word in ("status", "log") for text in ("", "red", "Always")),
    *((f"log --memory --{name}={text}", f"give --{name} {MOMENT}")
      for name in ("since", "until") for text in ("", "x", "1969", "2025-1", "2025-11-27T9:30", "10", "10x", "-1d", "1.5h")),
    *((f"{word} --memory " + " ".join(f"r{number}" for number in range(17)), "give at most 16 ids of resources")
      for word in ("status", "log")),
    *((f"once --timeout={text} p:t start", "give --timeout milliseconds, from 1 to 4294967295") for text in ("", "x", "0", "4294967296")),
    *((f"once --level={text} p:t monitor", "give --level 0, 10 or 20") for text in ("", "x", "-1", "1", "30")),
    ("once --root r p:t start", "give --root an absolute path"),
    *((f"once {words}", ONCE) for words in ("", "p:t", "--beside p:t start", "--journal /j p:t start", "--of web", "--of web start a=1",
                                            "--of web --id web start")),
    *((words, "give one of --journal and --memory") for words in (
        "run", "serve", "run --strict", "run --memory --journal /j", "show --memory --journal /j", "log --memory --journal /j")),
)
# options of another subcommand, flags that are given a value, options without one, and options that are given twice
MISUSED = ("show --json", "metrics --failed", "serve --memory --strict", "status --since 1h", "log --exit-code", "log --times",
           "log --watch 1", "status --changes", "status --last 1", "run --memory --level 0", "once --events p:t start",
           "once --memory p:t start", "run --memory=yes", "run --memory --existing=no", "run --memory --any-owner=no",
           "run --memory --events=yes", "status --json=yes", "log --follow=yes", "log --salvage=yes", "run --journal",
           "run --memory --root", "log --last", "run --memory --log a --log b", "status --failed --failed", "run --memory web",
           "once --id a --id b p:t start", "once --of a --of b start", "fly")
# numbers at their limits that are taken: of words of a journal in memory, which has no records
TAKEN = ("run --memory --tidy-at 0", "run --memory --tidy-at 8388608", "run --memory --orphans 0", "run --memory --orphans 86400000",
         "log --memory -n 0", "log --memory --last 9007199254740991", "log --memory --last +1", "log --memory --color auto",
         "status --memory --color never", "run --memory --root /")


class Refusals(helper.Check):
    """Words that need no journal."""

    def ends(self, words, status, line):
        done = helper.run(*words.split(" "))
        self.assertEqual((done.returncode, done.stderr.decode()), (status, line), words)

    def test_refused(self):
        """a wrong value is refused with a line that says what to give, and with status 2, or 125 with once"""
        for words, line in REFUSED:
            self.ends(words.rstrip(), 125 if words.startswith("once") else 2, f"ocfexec: {line}\n")

    def test_misused(self):
        """an option that a subcommand has not, a value that is too much or missing, and an option given twice are refused"""
        for words in MISUSED:
            done = helper.run(*words.split(" "))
            self.assertEqual((done.returncode, done.stdout), (125 if words.startswith("once") else 2, b""), words)
            self.assertTrue(done.stderr.startswith(b"error: "), (words, done.stderr))

    def test_taken(self):
        """numbers are taken up to their limits, and up to 16 ids"""
        for words in TAKEN:
            self.ends(words, 0, "")
        ids = " ".join(f"r{number}" for number in range(16))
        self.ends(f"log --memory {ids}", 2, "ocfexec: no resource of this id\n")


class Logged(helper.Check):
    """The options of `log`: words, and the runs whose results it prints."""

    def setUp(self):
        super().setUp()
        self.folder, self.written = self.journal(), Written()

    def log(self, *words):
        done = helper.run("log", "--journal", self.folder, *words)
        self.assertEqual((done.returncode, done.stderr), (0, b""), words)
        return done.stdout.decode()

    def prints(self, wanted, *words):
        found = [json.loads(line) for line in self.log("--json", *words).splitlines()]
        self.assertEqual([value["run"] for value in found if value["event"] == "result"], list(wanted), words)

    def test_moments(self):
        """--since and --until take a moment in each of its forms, which is in both"""
        last = len(MOMENTS)
        self.written.now = MOMENTS[-1]
        self.written.registers("web", MOMENTS[-1] - MOMENTS[0] + HOUR)
        for moment in MOMENTS:
            self.written.does("web", book.START, MOMENTS[-1] - moment)
        self.written.save(self.folder)
        self.prints(range(1, last + 1))
        for text, run in NAMED:
            self.prints(range(run, last + 1), "--since", text)
            self.prints(range(1, run + 1), "--until", text)
        self.prints([6, 7, 8], "--since", "2025-11-27", "--until=2025-11-27T09")

    def test_spans(self):
        """--since and --until take a span before now, in days, hours, minutes or seconds"""
        self.written.registers("web", 4 * DAY)
        for age in AGES:
            self.written.does("web", book.START, age)
        self.written.save(self.folder)
        for text, older in SPANS:
            self.prints(range(older + 1, len(AGES) + 1), "--since", text)
            self.prints(range(1, older + 1), f"--until={text}")
        self.prints([3, 4], "--since", "1d", "--until", "2h")

    def two(self):
        """Runs 1, 3 and 5 of web, of which the last two are of a recurring monitor, and 2 and 4 of db, of which the last failed."""
        for name in ("web", "db"):
            self.written.registers(name, 5 * HOUR)
        self.written.does("web", book.START, 4 * HOUR)
        self.written.does("db", book.START, 3 * HOUR)
        every = self.written.recurs("web", 2 * HOUR)
        self.written.runs_once("web", every, 2 * HOUR - 10 * SECOND)
        self.written.does("db", book.MONITOR, 2 * HOUR - 20 * SECOND, NOT_RUNNING)
        self.written.runs_once("web", every, HOUR)
        self.written.save(self.folder)

    def test_chosen(self):
        """ids, --failed, and -n or --last choose the records"""
        self.two()
        for words, wanted in (("", [1, 2, 3, 4, 5]), ("web", [1, 3, 5]), ("db", [2, 4]), ("db web", [1, 2, 3, 4, 5]), ("--failed", [4]),
                              ("--failed web", []), ("-n 1", [5]), ("-n2 --failed", [4]), ("--last=1 db", [4]), ("-n 0", [])):
            self.prints(wanted, *words.split())

    def test_form(self):
        """--json prints JSON, --changes folds equal results of a monitor, and each text is plain, with any --color"""
        self.two()
        self.assertEqual(sum("web: monitor" in line and "running" in line for line in self.log().splitlines()), 2)
        self.assertEqual(sum("web: monitor" in line and "running" in line for line in self.log("--changes").splitlines()), 1)
        for words in ([], ["--color", "never"], ["--color", "always"]):
            self.assertTrue(self.log(*words).startswith("20"), words)

    def test_salvage(self):
        """--salvage prints what is before a damage, which otherwise ends the program with status 3"""
        self.two()
        path = os.path.join(self.folder, helper.PARTS[0])
        with open(path, "r+b") as file:
            file.seek(book.closed_gate(file.read()))
            file.write(book.OPEN + b"\0\0\0\x09" + bytes(9) + book.CLOSED)
        for words, ends in (([], 3), (["--failed"], 3), (["--salvage"], 0)):
            done = helper.run("log", "--journal", self.folder, *words)
            self.assertEqual((done.returncode, b"db: monitor failed" in done.stdout), (ends, ends == 0), words)

    def test_follow(self):
        """-f and --follow go on after the last record, without which the program ends"""
        self.two()
        for words in (["-f"], ["--follow"]):
            run = subprocess.Popen([helper.PROGRAM, "log", "--journal", self.folder, *words], stdout=subprocess.PIPE)
            self.assertIn(b"registered", run.stdout.readline())
            with self.assertRaises(subprocess.TimeoutExpired):
                run.wait(1)
            run.kill()
            run.communicate()
        self.log()


class Shown(helper.Check):
    """The options of `status`, over a journal that no executor has, in which web is started and db is failed."""

    def setUp(self):
        super().setUp()
        self.folder, written = self.journal(), Written()
        for name in ("web", "db"):
            written.registers(name, 5 * HOUR)
            written.does(name, book.START, 4 * HOUR)
        written.does("db", book.MONITOR, HOUR, NOT_RUNNING)
        written.save(self.folder)

    def status(self, *words, ends=0):
        done = helper.run("status", "--journal", self.folder, *words)
        self.assertEqual((done.returncode, done.stderr), (ends, b""), words)
        return done.stdout.decode()

    def test_chosen(self):
        """ids and --failed choose the resources, in the table and as JSON"""
        for words, wanted in (("", ["web", "db"]), ("web", ["web"]), ("db web", ["web", "db"]), ("--failed", ["db"]), ("--failed web", [])):
            rows = [line.split()[0] for line in self.status(*words.split()).splitlines() if " test:Ends " in line]
            values = [json.loads(line) for line in self.status("--json", *words.split()).splitlines()]
            self.assertEqual((rows, [value["id"] for value in values if "state" in value]), (wanted, wanted), words)

    def test_status(self):
        """--exit-code ends with 10, since no executor has the journal"""
        for words, ends in (((), 0), (("--failed",), 0), (("--exit-code",), 10), (("--exit-code", "web"), 10)):
            self.status(*words, ends=ends)

    def test_form(self):
        """--times prints moments, --color always colours, and --logs the reason of a failure"""
        os.mkdir(self.place("logs"))
        with open(self.place("logs/db.log"), "w", encoding="ascii") as file:
            file.write("ocf-exit-reason:out of order\n")
        for words, has in (("", "---"), ("--times", "t--"), ("--color always", "-c-"), ("--color=never", "---"), ("--color auto", "---"),
                           (f"--logs {self.place('logs')}", "--r"), (f"--times --logs {self.place('logs')}", "t-r")):
            text = self.status(*words.split())
            found = ("t", ", at 20" in text), ("c", "\x1b[31m" in text), ("r", "out of order" in text)
            self.assertEqual("".join(letter if there else "-" for letter, there in found), has, words)

    def test_watch(self):
        """--watch prints anew after so many seconds, and ends where there is no journal to show"""
        self.assertEqual(helper.run("status", "--journal", self.place("nowhere"), "--watch", "1").returncode, 5)
        for seconds, count in (("1", 3), ("86400", 1)):
            run = subprocess.Popen([helper.PROGRAM, "status", "--journal", self.folder, "--watch", seconds], stdout=subprocess.PIPE)
            for _ in range(count):
                self.assertTrue(any(line.startswith(b"2 resources: ") for line in run.stdout), seconds)
            time.sleep(2 if count == 1 else 0)
            run.kill()
            rest = run.communicate()[0]
            self.assertTrue(count > 1 or b"2 resources: " not in rest, seconds)


# an agent that notes how it was called, and whether it has a process group of its own
NOTES = """[ "$1" != meta-data ] || exit 0
read -r pid _ _ _ group _ < /proc/self/stat
[ "$pid" = "$group" ] && own=own || own=shared
echo "$1 $OCF_ROOT $PATH ${OCF_RESKEY_CRM_meta_timeout-none} $own" >> "$OCF_RESKEY_notes"
echo printed
exit "$OCF_RESKEY_code"
"""
PATH = "/usr/sbin:/usr/bin:/sbin:/bin"


class Ran(helper.Check):
    """The options of `run` and `serve`: words, and what an agent finds, what is printed, and how the program ends."""

    def setUp(self):
        super().setUp()
        self.folder = self.journal()
        self.agent("Notes", NOTES)

    def runs(self, *words, code=0, root=True):
        """The output of a run of one start, and what its agent noted."""
        sent = helper.lines(helper.register("web", "Notes", notes=self.place("notes"), code=str(code)),
                            helper.action("web", "start", timeout=9000), {"op": "drain"})
        done = helper.run("run", "--memory", *(("--root", self.here) if root else ()), *words, sent=sent)
        found = []
        if os.path.exists(self.place("notes")):
            with open(self.place("notes"), encoding="utf-8") as file:
                found = [line.rstrip("\n") for line in file]
            os.remove(self.place("notes"))
        return done, found

    def test_agents(self):
        """--root, --path, --via, --meta-variables and --no-groups say how an agent is called"""
        for words, path, timeout, own in (("", PATH, "none", "own"), ("--path /usr/bin:/bin", "/usr/bin:/bin", "none", "own"),
                                          ("--path=/bin", "/bin", "none", "own"), ("--meta-variables", PATH, "9000", "own"),
                                          ("--no-groups", PATH, "none", "shared"), ("--via sh", PATH, "none", "own"),
                                          ("--meta-variables --no-groups", PATH, "9000", "shared")):
            done, found = self.runs(*words.split())
            self.assertEqual((done.returncode, found), (0, [f"start {self.here} {path} {timeout} {own}"]), words)
        for words in (("--root", "/nowhere"), ("--root", self.here, "--via", "/nowhere/x"), ()):
            done, found = self.runs(*words, root=False)
            self.assertEqual((done.returncode, found), (0, []), words)

    def test_output(self):
        """--log, --logs and --events say where lines go, and without them there are none"""
        os.mkdir(self.place("logs"))
        for words, has in (("", "---"), (f"--log {self.place('log')}", "l--"), (f"--logs {self.place('logs')}", "-d-"),
                           ("--events", "--e")):
            done, _ = self.runs(*words.split())
            found = ("l", "log"), ("d", "logs/web.log")
            has_found = "".join(letter if os.path.exists(self.place(name)) else "-" for letter, name in found)
            said = done.stderr.decode()
            self.assertEqual((has_found + ("e" if said.startswith("web: start ok") else "-"), said == ""), (has, "e" not in has), words)
            for _, name in found:
                if os.path.exists(self.place(name)):
                    with open(self.place(name), encoding="utf-8") as file:
                        self.assertIn("printed\n", file.read())
                    os.remove(self.place(name))
        self.assertIn(b"printed\n", self.runs("--log", "-")[0].stderr)

    def test_status(self):
        """--strict ends with 1 where an action failed, and no other option does"""
        for words, code, ends in (("", 0, 0), ("", 1, 0), ("--strict", 0, 0), ("--strict", 1, 1), ("--events", 1, 0)):
            self.assertEqual(self.runs(*words.split(), code=code)[0].returncode, ends, words)

    def test_existing(self):
        """--existing refuses a directory without a journal, with status 9"""
        for words, ends in ((["--existing"], 9), ([], 0), (["--existing"], 0)):
            self.assertEqual(helper.run("run", "--journal", self.folder, *words).returncode, ends, words)

    def test_owner(self):
        """--any-owner opens a journal that others can write, which root otherwise refuses with status 5"""
        if os.geteuid() != 0:
            self.skipTest("only root is asked")
        os.chmod(self.folder, 0o777)
        for words, ends in ((["--leave-orphans"], 5), (["--no-groups"], 5), (["--any-owner"], 0)):
            self.assertEqual(helper.run("run", "--journal", self.folder, *words).returncode, ends, words)

    def test_orphans(self):
        """--orphans is the longest time to wait for what a killed executor left, and with --leave-orphans none is waited for"""
        self.agent("Stays", '[ "$1" != start ] || { echo $$ > "$OCF_RESKEY_pid"; exec sleep 600; }\n')
        run = self.started("serve", "--journal", self.folder, "--root", self.here)
        run.send(helper.register("web", "Stays", pid=self.place("pid")), helper.action("web", "start", timeout=500000))
        [pid] = self.numbers_in(self.place("pid"))
        run.killed()
        words = ["run", "--journal", self.folder, "--root", self.here]
        # an opening takes what runs for interrupted, and the next one finds it in the record of who runs; a busy machine takes its time
        for more, most in ((["--orphans", "40000"], 40), ([], 20), (["--orphans", "7000"], 7)):
            said = helper.run(*words, *more).stderr.decode()
            found = re.fullmatch(rf"ocfexec: web waits for pid {pid} of start, at most (\d+) s more\n", said)
            self.assertIsNotNone(found, said)
            self.assertIn(int(found[1]), range(most - 5, most + 1), more)
        self.assertEqual(helper.run(*words, "--leave-orphans").stderr, b"")
        self.assertTrue(helper.is_alive(pid), "what is left alone lives on")
        os.kill(pid, 9)


class RanOnce(helper.Check):
    """The options of `once`: words, its status, and what its agent prints."""

    def setUp(self):
        super().setUp()
        self.agent("Env", 'read -r pid _ _ _ group _ < /proc/self/stat\n[ "$pid" = "$group" ] && own=own || own=shared\n'
                          'echo "$1 $OCF_RESOURCE_INSTANCE ${OCF_RESKEY_a-none} ${OCF_CHECK_LEVEL-none} '
                          '${OCF_RESKEY_CRM_meta_timeout-none} $PATH $own"\nexit "${OCF_RESKEY_code-0}"\n')
        self.agent("Waits", 'echo $$ > "${OCF_RESKEY_pid-/dev/null}"\nexec sleep 600\n')

    def once(self, words, status, text):
        done = helper.run("once", "--root", self.here, *words.split())
        self.assertEqual((done.returncode, done.stdout.decode()), (status, text), (words, done.stderr))

    def test_agent(self):
        """the words of an agent, its action and its parameters, and each option beside them"""
        for words, text in (("test:Env start", f"start once none none none {PATH} own"),
                            ("test:Env stop a=1", f"stop once 1 none none {PATH} own"),
                            ("test:Env monitor", f"monitor once none 0 none {PATH} own"),
                            ("--level 10 test:Env monitor", f"monitor once none 10 none {PATH} own"),
                            ("test:Env monitor --level=20", f"monitor once none 20 none {PATH} own"),
                            ("--id web test:Env start", f"start web none none none {PATH} own"),
                            ("--path /bin test:Env start", "start once none none none /bin own"),
                            ("--meta-variables test:Env start", f"start once none none 20000 {PATH} own"),
                            ("--meta-variables --timeout 9000 test:Env start", f"start once none none 9000 {PATH} own"),
                            ("--meta-variables --timeout 4294967295 test:Env start", f"start once none none 4294967295 {PATH} own"),
                            ("--no-groups test:Env start", f"start once none none none {PATH} shared"),
                            ("--via sh test:Env start", f"start once none none none {PATH} own")):
            self.once(words, 0, text + "\n")
        self.once("test:Env start code=7", 7, f"start once none none none {PATH} own\n")
        self.once("--timeout 100 test:Waits start", 124, "")
        self.once("--via /nowhere/x test:Env start", 125, "")

    def test_resource(self):
        """--of names a resource of the journal that --journal names, and --beside runs an action beside another"""
        commands = [helper.register("web", "Env", a="1"), helper.register("slow", "Waits", pid=self.place("pid"))]
        run = self.started("serve", "--root", self.here, "--journal", self.journal())
        run.send(*commands, helper.action("slow", "start", timeout=60000))
        self.numbers_in(self.place("pid"))
        journal = f"--journal {self.place('journal')}"
        self.once(f"--of web {journal} monitor --level 10", 0, f"monitor web 1 10 none {PATH} own\n")
        self.once(f"--of slow {journal} stop", 125, "")
        self.once(f"--of slow {journal} --beside --timeout 100 stop", 124, "")
        self.once(f"--of web --journal {self.place('none')} stop", 125, "")
