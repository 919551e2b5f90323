"""The file `agents` of a journal's directory: who runs. Wanted: it has one length, an entry for each running agent and none for an ended
one; it is written once for each spawn and once for each end, and never synced. An opening believes only what it can: a file of garbage, of
another length or of another boot, a named pipe, a directory and a link are no record, are named in one line, stop nothing and hold nothing,
and so is an entry of a process that is another one by now; garbage in one line hides no other entry. What a link leads to is left alone. A
stop runs also where no line is free for it."""
import os
import shutil
import stat
import subprocess
import time
import unittest

import acting
import helper

LINE, SLOTS = 256, 512
LENGTH = (1 + SLOTS) * LINE
GARBLED = [b"", b" ", b"x" * (LINE - 1), b"\0" * (LINE - 1), b"\xff" * (LINE - 1), b"1 r1 start", b"1 r1 fly 1 1 1 1 ",
           b"99999999999999999999999999 r1 start 1 1 1 1 ", b"1 ../r1 start 1 1 1 1 ", b"1 r1 start -1 1 1 1 ", b"1 r1 start 0 0 0 0 "]


def boot():
    with open("/proc/sys/kernel/random/boot_id", encoding="ascii") as file:
        return file.read().strip()


def padded(text):
    """A line of the file: this text, spaces and a newline."""
    return text[:LINE - 1].ljust(LINE - 1) + b"\n"


def entry(run, name, action, pid, start, began, timeout):
    """The line of an entry."""
    return padded(" ".join(map(str, (run, name, action, pid, start, began, timeout, ""))).encode())


def monotonic():
    return time.clock_gettime_ns(time.CLOCK_MONOTONIC) // 1_000_000


class AgentsFile(acting.Acting):
    def setUp(self):
        super().setUp()
        self.folder = self.journal()
        self.file = os.path.join(self.folder, "agents")

    def serves(self, *words, **how):
        # (on a busy machine a check may take longer than an orphan has by default)
        return self.opened("--journal", self.folder, "--orphans", "600000", *words, **how)

    def read(self):
        with open(self.file, "rb") as file:
            return file.read()

    def write(self, text):
        with open(self.file, "wb") as file:
            file.write(text)

    def lines(self):
        """The lines of the file, all of which have the one length."""
        text = self.read()
        self.assertEqual(len(text), LENGTH)
        found = [text[at:at + LINE] for at in range(0, LENGTH, LINE)]
        self.assertEqual([line for line in found if not line.endswith(b"\n") or b"\n" in line[:-1]], [])
        return found

    def entries(self):
        """The fields of each entry."""
        return [line.decode().split() for line in self.lines()[1:] if line.strip()]

    def begun(self):
        """A journal with two resources."""
        done = helper.run("serve", "--journal", self.folder, "--root", self.here, sent=helper.lines(
            self.register("r1"), self.register("r2", start="exit 0", stop="exit 0")))
        self.assertEqual(done.returncode, 0, done.stderr)

    def left(self):
        """Leaves a journal whose executor was killed during a start of r1, and returns the number of its agent."""
        run = self.serves()
        run.send(self.register("r1", start="exec HERE/waits agent", stop="exit 0"), self.register("r2", start="exit 0", stop="exit 0"),
                 helper.action("r1", "start", timeout=600_000))
        pid = self.pid("agent")
        run.killed()
        return pid

    def is_free(self, lines=1):
        """An executor opens the journal, reports in this many lines what it found, and every resource runs its actions."""
        run = self.serves()
        run.ready()
        for name, what in (("r1", "stop"), ("r2", "start"), ("r2", "stop"), ("r1", "stop")):
            end = self.done(run, name, what)
            self.assertEqual((end["outcome"], end["code"]), ("done", 0), self.seen())
        self.assertEqual(run.ends(), 0)
        found = self.error_text().splitlines()
        self.assertEqual(len(found), lines, found)
        for line in found:
            self.assertRegex(line, r"\Aocfexec: .*\bagents\b")
        return run

    def is_kept_again(self):
        """The next executor keeps its record in a file of the one length, and finds nothing in it to report."""
        self.assertEqual(self.entries(), [])
        self.is_free(0)

    def is_held(self, run, pid):
        """What is left of r1's start lives and holds r1, while r2 runs its actions."""
        self.assertIn("call", self.answered(run, helper.action("r1", "stop")))
        for what in ("start", "stop"):
            self.assertEqual(self.done(run, "r2", what)["outcome"], "done")
        self.assertEqual([end for end in run.notices() if helper.is_notice(end, id="r1", action="stop")], [], self.seen())
        self.assertTrue(helper.is_alive(pid), self.seen())

    def test_entries(self):
        """it has one line for each running agent, with the numbers of its process, and none for an ended one"""
        run = self.serves()
        run.send(self.register("r1", start="exec HERE/waits agent"), self.register("r2", monitor="exec HERE/waits other"))
        before = monotonic()
        run.send(helper.action("r1", "start", timeout=600_000), helper.action("r2", "monitor", timeout=500_000))
        pids = {"r1": self.pid("agent"), "r2": self.pid("other")}
        after = monotonic()
        self.assertEqual(stat.S_IMODE(os.stat(self.file).st_mode), 0o600)
        words = self.lines()[0].decode().split()
        self.assertEqual((words[0], words[1], len(words)), ("agents-1", boot(), 4))
        self.assertLess(abs(int(words[2]) - int(words[3]) - (time.time() * 1000 - monotonic())), 60_000, "the clock")
        found = {fields[1]: fields for fields in self.entries()}
        for name, what, timeout in (("r1", "start", 600_000), ("r2", "monitor", 500_000)):
            _, _, action, pid, start, began, limit = found[name]
            self.assertEqual((action, int(pid), int(limit)), (what, pids[name], timeout))
            self.assertEqual(int(start), acting.stat_of(pids[name])[4], "the start time of the process")
            self.assertTrue(before - 1000 <= int(began) <= after + 1000, (before, began, after))
        self.assertEqual(len(found), 2)
        self.goes_on()
        self.ends_of(run, "r1", "start"), self.ends_of(run, "r2", "monitor")
        self.assertEqual(self.entries(), [])
        self.assertEqual(run.ends(), 0)

    @unittest.skipUnless(os.getuid() == 0 and acting.can("unshare", "-m", "true"), "run as root, with unshare")
    def test_no_start_time(self):
        """an agent that /proc does not show has a line, too, with 0 for the start time of its process"""
        kept = self.place("sys")
        os.mkdir(kept)
        run = self.started("-m", "sh", "-c", f"mount --bind /proc/sys {kept} && mount -t tmpfs none /proc && mkdir /proc/sys && "
                           f"mount --bind {kept} /proc/sys && exec {helper.PROGRAM} serve --journal {self.folder} --root {self.here}",
                           err=self.err, program="unshare", start_new_session=True)
        run.send(self.register("r1", start="exec HERE/waits agent"), helper.action("r1", "start", timeout=600_000))
        pid = self.pid("agent")
        [fields] = self.entries()
        self.assertEqual((fields[1], fields[3], fields[4]), ("r1", str(pid), "0"))
        self.goes_on()
        self.ends_of(run, "r1", "start")
        self.assertEqual(run.ends(), 0)

    @unittest.skipUnless(shutil.which("cc"), "install a C compiler")
    def test_writes(self):
        """it is written once after each spawn and once at each end, at no other time, and is never synced"""
        calls = self.place("calls")
        with open(calls, "w", encoding="ascii"):
            pass
        run = self.serves(env={**os.environ, "LD_PRELOAD": helper.shim("record.c", self.here), "CALLS": calls})
        run.ready()

        def noted():
            with open(calls, encoding="ascii") as file:
                return file.read()
        opened = noted()
        run.send(self.register("r1", start="exec HERE/waits agent"), self.register("r2", start="exit 0"))
        for _ in range(5):
            self.assertEqual(self.done(run, "r2", "start")["code"], 0)
        self.assertEqual(noted()[len(opened):], "ww" * 5)
        run.send(helper.action("r1", "start", timeout=600_000))
        self.pid("agent")
        for _ in range(5):
            self.answered(run, {"op": "list"})
        self.assertEqual(noted()[len(opened):], "ww" * 5 + "w", "while an agent runs")
        self.goes_on()
        self.ends_of(run, "r1", "start")
        self.assertEqual(noted()[len(opened):], "ww" * 6)
        self.assertEqual(run.ends(), 0)
        self.assertNotIn("s", noted())

    def test_not_executor(self):
        """there is no other file beside the parts, and none of an executor that has ended"""
        self.begun()
        self.assertEqual(sorted(os.listdir(self.folder)), ["agents", "identity", "part-a", "part-b"])

    def test_missing(self):
        """a missing file is made, and nothing is reported"""
        self.begun()
        os.remove(self.file)
        self.is_free(0)
        self.is_kept_again()

    def wrong(self, make):
        """A file that is no record, in place of one with an orphan: one line reports it, nothing is held, and the next one is kept."""
        pid = self.left()
        text = self.read()
        make(text)
        self.is_free()
        self.assertTrue(helper.is_alive(pid), "what nobody knows is not ended")
        self.goes_on()
        self.is_kept_again()

    def test_garbage(self):
        """a file of garbage is no record"""
        self.wrong(lambda _: self.write(os.urandom(LENGTH)))

    def test_short(self):
        """a file that is shorter is no record"""
        self.wrong(lambda text: self.write(text[:-1]))

    def test_empty(self):
        """an empty file is no record"""
        self.wrong(lambda _: self.write(b""))

    def test_long(self):
        """a file that is longer is no record"""
        self.wrong(lambda text: self.write(text + b"\n"))

    def test_boot(self):
        """a file of another boot is no record: its processes are others"""
        self.wrong(lambda text: self.write(text.replace(boot().encode(), b"01234567-89ab-cdef-0123-456789abcdef", 1)))

    def test_layout(self):
        """a file of another layout is no record"""
        self.wrong(lambda text: self.write(text.replace(b"agents-1", b"agents-9", 1)))

    def replaced(self, make):
        def put(_):
            os.remove(self.file)
            make(self.file)
        self.wrong(put)

    def test_pipe(self):
        """a named pipe is no record, and nobody waits at it"""
        self.replaced(os.mkfifo)

    def test_directory(self):
        """a directory is no record, and is not removed if something is in it"""
        pid = self.left()
        os.remove(self.file)
        os.makedirs(os.path.join(self.file, "kept"))
        self.is_free()
        self.assertTrue(os.path.isdir(os.path.join(self.file, "kept")), "it is left alone")
        self.assertTrue(helper.is_alive(pid), "what nobody knows is not ended")

    def test_link(self):
        """a link is no record, and what it leads to is neither read nor written"""
        target = self.place("target")

        def link(text):
            with open(target, "wb") as file:
                file.write(text)
            os.remove(self.file)
            os.symlink(target, self.file)
            self.kept = text
        self.wrong(link)
        with open(target, "rb") as file:
            self.assertEqual(file.read(), self.kept)

    def test_dangling_link(self):
        """a link that leads nowhere is no record, and nothing is made there"""
        self.replaced(lambda file: os.symlink(self.place("nothing"), file))
        self.assertFalse(os.path.exists(self.place("nothing")), "nothing is made where it leads")

    def test_garbled_lines(self):
        """garbage in other lines is no entry, and hides no entry: that process holds its resource"""
        pid = self.left()
        text = self.read()
        [line] = [line for line in self.lines()[1:] if line.strip()]
        others = [padded(GARBLED[n % len(GARBLED)]) for n in range(SLOTS - 1)]
        self.write(text[:LINE] + b"".join(others[:100]) + line + b"".join(others[100:]))
        run = self.serves()
        run.ready()
        self.assertEqual(helper.value_of(run.opening_lines[0]).get("lives"), pid)
        self.is_held(run, pid)
        self.goes_on()
        [stop] = self.ends_of(run, "r1", "stop")
        self.assertEqual((stop["outcome"], stop["code"]), ("done", 0))
        # each of the other lines is free for an entry
        run.send(self.register("r3", start="exec HERE/waits third"), helper.action("r3", "start", timeout=600_000))
        third = self.pid("third")
        self.assertIn(str(third).encode(), self.read().split())

    def test_other_process(self):
        """an entry whose number is another process by now holds nothing, and that process is left alone"""
        pid = self.left()
        start = acting.stat_of(pid)[4]
        text = self.read()
        self.write(text.replace(f" {pid} {start} ".encode(), f" {pid} {start - 1} ".encode().ljust(len(f" {pid} {start} ")), 1))
        self.assertNotEqual(self.read(), text, "the start time is another")
        self.is_free(0)
        self.assertTrue(helper.is_alive(pid), "it is left alone")

    def test_no_process(self):
        """entries with the number of this check, and with numbers of no process, end nothing"""
        self.begun()
        head = self.lines()[0]
        now = monotonic()
        own = acting.stat_of(os.getpid())[4]
        found = [entry(1, "r1", "stop", os.getpid(), own + 7, now, 1), entry(2, "r1", "start", 0, 0, now, 1),
                 entry(3, "r1", "start", 4294967295, own, now, 1), entry(4, "none", "start", 4194305, own, now, 1)]
        self.write(head + b"".join(found) + padded(b"") * (SLOTS - len(found)))
        self.is_free(0)
        # what has no number of a process is no entry, and stays until its line is needed
        self.assertEqual([left[3] for left in self.entries()], ["0", "4294967295"])
        self.is_free(0)

    def test_unknown_resource(self):
        """an entry of a resource that the journal does not have holds nothing that it has"""
        pid = self.left()
        text = self.read()
        self.write(text.replace(b" r1 start ", b" rx start ", 1))
        run = self.serves()
        run.ready()
        for name, what in (("r1", "stop"), ("r2", "start")):
            self.assertEqual(self.done(run, name, what)["outcome"], "done", self.seen())
        self.assertTrue(helper.is_alive(pid), "its process has time left")

    def taken(self):
        """An executor over a file whose lines are all taken by a process that lives and has time left, and that process."""
        self.begun()
        idle = subprocess.Popen(["sleep", "600"], start_new_session=True)
        self.addCleanup(lambda: (idle.kill(), idle.wait()))
        self.write(self.lines()[0] + entry(1, "other", "start", idle.pid, acting.stat_of(idle.pid)[4], monotonic(), 600_000) * SLOTS)
        run = self.serves()
        run.ready()
        return run, idle

    def test_full(self):
        """where all lines are taken a start is refused, in one line, until a process that took one has ended"""
        run, idle = self.taken()
        self.assertEqual(self.done(run, "r2", "start")["outcome"], "not-started", self.seen())
        self.says(r"\Aocfexec: run \d+ of r2 was not started: .*agents")
        idle.kill()
        idle.wait()
        self.eventually("no line is taken", lambda: not self.entries())
        for name, what in (("r1", "stop"), ("r2", "start")):
            self.assertEqual(self.done(run, name, what)["outcome"], "done", self.seen())
        self.assertEqual(run.ends(), 0)

    def test_full_stop(self):
        """where all lines are taken a stop runs all the same, and one line says that no later executor will know of it"""
        run, _ = self.taken()
        stop = self.done(run, "r1", "stop")
        self.assertEqual((stop["outcome"], stop["code"]), ("done", 0), self.seen())
        self.says(r"\Aocfexec: run \d+ of r1 .*agents")

    def test_status(self):
        """status reads a journal beside each of these files"""
        self.begun()
        text = self.read()
        for make in (lambda: self.write(os.urandom(LENGTH)), lambda: self.write(text[:700]), lambda: os.mkfifo(self.file),
                     lambda: os.mkdir(self.file), lambda: os.symlink("/dev/zero", self.file), lambda: os.symlink("agents", self.file)):
            if os.path.isdir(self.file) and not os.path.islink(self.file):
                shutil.rmtree(self.file)
            else:
                os.remove(self.file)
            make()
            done = helper.run("status", "--journal", self.folder, timeout=helper.PATIENCE)
            self.assertEqual((done.returncode, done.stderr), (0, b""))
            self.assertIn(b"r1", done.stdout)
