"""The lines on standard error during a run, for which nothing waits. A start that the system refuses is named with its run, its resource
and the system's error. A full pipe that nobody reads delays no reply, and the first line that is written after it has been read has the
number of lines that were left out. A line is cut at 4,096 bytes. A reader that goes away stops nothing. A signal that ends an agent is
named. A fault that ends the program has one line for programs; at a terminal and in the system's journal also the cause and the remedy."""
import os
import pty
import resource
import shutil
import signal
import subprocess
import unittest

import helper
from helper import PROGRAM

EXEC_FORMAT = "Exec format error (os error 8)"
LEFT_OUT = "ocfexec: messages dropped before this one, since standard error could not be written: {}\n"


def refused(run, name, error):
    """The line of a start that the system refuses."""
    return f"ocfexec: run {run} of {name} was not started: {error}\n"


def fill(pipe):
    """Writes to a pipe until it is full."""
    os.set_blocking(pipe, False)
    for length in (4096, 1):
        try:
            while os.write(pipe, b"x" * length):
                pass
        except BlockingIOError:
            pass
    os.set_blocking(pipe, True)


def taken(pipe):
    """All that a pipe holds."""
    os.set_blocking(pipe, False)
    found = b""
    try:
        while part := os.read(pipe, 65536):
            found += part
    except BlockingIOError:
        pass
    return found.decode()


class StandardError(helper.Check):
    def setUp(self):
        super().setUp()
        # the system itself does not start a file without a first line
        self.agent("Bare", "")
        with open(self.place("resource.d/test/Bare"), "w", encoding="ascii") as script:
            script.write("exit 0\n")
        self.damaged = self.journal_of("damaged", bytes(46), b"")
        self.reader, self.writer = os.pipe()
        self.addCleanup(self.close)

    def close(self):
        for pipe in (self.reader, self.writer):
            try:
                os.close(pipe)
            except OSError:
                pass

    def opened(self, *words, **how):
        return self.started(*(words or ("serve", "--memory")), "--root", self.here, err=f"/proc/{os.getpid()}/fd/{self.writer}", **how)

    def starts(self, run, count, name="r1"):
        """Starts that the system refuses; each is reported, and a question after it is answered."""
        for _ in range(count):
            before, ends = len(run.values()), len(run.notices())
            run.send(helper.action(name, "start"), {"op": "list"})
            run.awaits(lambda value: "resources" in value, after=before)
            self.eventually("a notice", lambda: len(run.notices()) > ends)
            self.assertEqual(run.notices()[-1]["outcome"], "not-started")

    def test_refused(self):
        """a start that the system refuses is named with its run, its resource and the error, except a missing agent and a denied one"""
        os.symlink("Loop", self.place("resource.d/test/Loop"))
        self.agent("Denied", "")
        os.chmod(self.place("resource.d/test/Denied"), 0o644)
        with open(self.place("resource.d/file"), "w", encoding="ascii"):
            pass
        for words in (["serve", "--memory"], ["serve", "--memory", "--no-groups"]):
            with self.subTest(words):
                run = self.opened(*words)
                run.send(helper.register("r2", "Loop"), helper.register("r3", "Below", provider="file"), helper.register("r4", "Missing"),
                         helper.register("r5", "Denied"))
                for name in ("r2", "r3", "r4", "r5"):
                    self.starts(run, 1, name)
                self.assertEqual([end["code"] for end in run.notices()], [1, 1, 5, 4])
                wanted = [refused(1, "r2", "Too many levels of symbolic links (os error 40)"),
                          refused(2, "r3", "Not a directory (os error 20)")]
                self.assertEqual(taken(self.reader), "".join(wanted))

    def test_bare(self):
        """so is one without a first line, if the executor runs it itself"""
        run = self.opened("serve", "--memory", "--no-groups")
        run.send(helper.register("r1", "Bare"))
        self.starts(run, 1)
        self.assertEqual(taken(self.reader), refused(1, "r1", EXEC_FORMAT))

    def test_descriptors(self):
        """so is one for which no descriptor is left, with and without a log"""
        for words in ([], ["--log", self.place("log")]):
            with self.subTest(words):
                run = self.opened("serve", "--memory", "--no-groups", *words)
                run.send(helper.register("r1", "Bare"), {"op": "list"})
                run.awaits(lambda value: "resources" in value)
                hard = resource.prlimit(run.run.pid, resource.RLIMIT_NOFILE)[1]
                resource.prlimit(run.run.pid, resource.RLIMIT_NOFILE, (4, hard))
                self.starts(run, 1)
                self.assertEqual(taken(self.reader), refused(1, "r1", "Too many open files (os error 24)"))

    def test_metadata(self):
        """so is a question for metadata"""
        run = self.opened("serve", "--memory", "--no-groups")
        for kind in ("Bare", "Missing"):
            run.send({"op": "meta", "provider": "test", "type": kind})
        run.awaits(lambda value: value == {"end": "missing"})
        self.assertEqual(run.values(), [{"end": "other"}, {"end": "missing"}])
        self.assertEqual(taken(self.reader), f"ocfexec: meta-data of test:Bare was not started: {EXEC_FORMAT}\n")

    def test_signals(self):
        """a signal that ends an agent is named by its number, with the run and the resource"""
        self.agent("Dies", 'kill -"$OCF_RESKEY_by" $$\n')
        for name in ("SEGV", "TERM"):
            with self.subTest(name):
                run = self.opened()
                run.send(helper.register("web", "Dies", by=name), helper.action("web", "start"))
                run.awaits(helper.is_notice)
                wanted = f"ocfexec: run 1 of web was ended by signal {int(signal.Signals['SIG' + name])}\n"
                self.assertEqual(taken(self.reader), wanted)

    def test_full(self):
        """a full pipe delays no reply and no notice, and the next line that is written has the number of lines left out"""
        fill(self.writer)
        run = self.opened("serve", "--memory", "--no-groups")
        run.send(helper.register("r1", "Bare"))
        self.starts(run, 3)
        self.assertEqual(set(taken(self.reader)), {"x"})
        self.starts(run, 2)
        wanted = [LEFT_OUT.format(3), refused(4, "r1", EXEC_FORMAT), refused(5, "r1", EXEC_FORMAT)]
        self.assertEqual(taken(self.reader), "".join(wanted))

    def test_full_opening(self):
        """a full pipe delays no opening that has something to report, and no end"""
        folder = self.journal()
        os.mkdir(os.path.join(folder, "executor.new"))
        for word in ("run", "serve"):
            with self.subTest(word):
                fill(self.writer)
                run = self.opened(word, "--journal", folder)
                run.send({"op": "list"})
                run.awaits(lambda value: "resources" in value)
                self.assertEqual(run.ends(5), 0)

    @unittest.skipUnless(shutil.which("cc"), "install a C compiler")
    def test_stuck(self):
        """an agent that lives on after its kill is named by its number and its command"""
        self.agent("Stuck", "case $1 in start) sleep 600 ;; esac\n")
        shim = helper.shim("stuck.c", self.here)
        run = self.opened(env={**os.environ, "LD_PRELOAD": shim})
        run.send(helper.register("r1", "Stuck"), helper.action("r1", "start", timeout=500))
        _, notice = run.awaits(helper.is_notice)
        self.assertEqual(notice["outcome"], "timed-out")
        self.assertRegex(taken(self.reader), r"\Aocfexec: r1 waits for pid \d+ \(Stuck\) of start, which is still alive after SIGKILL\n")

    def test_cut(self):
        """a line is cut at 4,096 bytes, its newline among them"""
        done = helper.explained("run", "--memory", "--log", "/" + "x" * 5000)
        first, cut, *advice = done.stderr.splitlines(keepends=True)
        self.assertEqual((done.returncode, first, len(advice)), (7, b"ocfexec: input or output\n", 1))
        self.assertEqual(cut, b"/" + b"x" * 4094 + b"\n")

    # The lines of a fault that ends the program.

    def faults(self):
        """Runs that end by a fault: their arguments, their status, their line, and how the lines for people begin."""
        return [
            (["run"], 2, "give one of --journal and --memory", []),
            (["status", "--memory", "r9"], 2, "no resource of this id", ["Nothing was changed. "]),
            (["run", "--journal", self.damaged], 3, "damaged part A at 0: closed",
             ["no part is open, and something was written", "Nothing was changed. "]),
            (["run", "--journal", self.place("none")], 5, "disk", 
             [f"{self.place('none')}: No such file or directory (os error 2)", "Missing directory: "]),
            (["run", "--memory", "--log", self.here], 7, "input or output", [f"{self.here}: Is a directory ", "Nothing was changed. "]),
        ]

    def is_explained(self, found, status, line, more):
        """Whether a run has this status and this line, and then lines that begin so."""
        code, err = found
        first, *rest = err.splitlines()
        self.assertEqual((code, first, len(rest)), (status, f"ocfexec: {line}", len(more)), err)
        for one, wanted in zip(rest, more):
            self.assertTrue(one.startswith(wanted), f"{wanted} and found {one}")

    def on(self, words, err, **named):
        """The status of a run with this standard error, and with these variables."""
        return subprocess.run([PROGRAM, *words], stdin=subprocess.DEVNULL, stdout=subprocess.DEVNULL, stderr=err, timeout=120,
                              env={**os.environ, **named}).returncode

    def test_program(self):
        """a fault is one line, unless the environment names standard error as the stream to the system's journal"""
        other = helper.journal_stream(self.reader)["JOURNAL_STREAM"]
        own = helper.journal_stream(self.writer)["JOURNAL_STREAM"]
        device, inode = own.split(":")
        for stream in (None, "", own + "0", inode, f"{device}:", f"{device}:{inode}:", f"{inode}:{device}", f" {own}", "9" * 60,
                       other + "1"):
            for words, status, line, _ in self.faults() if stream is None else self.faults()[-1:]:
                with self.subTest(stream=stream, words=words):
                    code = self.on(words, self.writer, **({} if stream is None else {"JOURNAL_STREAM": stream}))
                    self.is_explained((code, taken(self.reader)), status, line, [])

    def test_journal(self):
        """the system's journal also has the cause and the remedy"""
        for words, status, line, more in self.faults():
            with self.subTest(words):
                code = self.on(words, self.writer, **helper.journal_stream(self.writer))
                self.is_explained((code, taken(self.reader)), status, line, more)

    def test_terminal(self):
        """and so has a terminal"""
        main, terminal = pty.openpty()
        for words, status, line, more in self.faults():
            with self.subTest(words):
                code = self.on(words, terminal)
                self.is_explained((code, taken(main)), status, line, more)
        os.close(terminal), os.close(main)

    def test_unread(self):
        """if nobody reads standard output any more, a line for people says so"""
        run = subprocess.Popen([PROGRAM, "serve", "--memory"], stdin=subprocess.PIPE, stdout=subprocess.PIPE, stderr=self.writer,
                               env={**os.environ, **helper.journal_stream(self.writer)})
        helper.opening(run.stdout)
        run.stdout.close()
        self.assertEqual(run.wait(helper.PATIENCE), 7)
        run.stdin.close()
        wanted = ["the reader of standard output has gone", "Check what standard input and output are connected to. "]
        self.is_explained((7, taken(self.reader)), 7, "input or output", wanted)

    def test_gone(self):
        """a reader that goes away stops nothing"""
        run = self.opened("serve", "--memory", "--no-groups")
        run.send(helper.register("r1", "Bare"))
        os.close(self.reader)
        self.starts(run, 2)
        self.assertEqual(run.ends(5), 0)
