"""Both ends of a session. A reader that goes away ends a drain, a watch, a waiting run and a serving one within a second, with its agents,
and a drain that waits for an orphan. Descriptors that do not block are waited for. Lines come a byte at a time, break off, or are a
million at once. After a device fault a run waits, too. Starts with ignored signals name them. Starts are refused if SIGCHLD is ignored or
the root is not absolute."""
import fcntl
import os
import resource
import shutil
import signal
import subprocess
import time

import helper
from helper import PROGRAM


class Ends(helper.Check):
    def pid_in(self, path):
        return self.numbers_in(path)[0]

    def ends_unread(self, run, before=""):
        # its status and its last line, within a second after its reader has gone
        run.stdout.close()
        began = time.monotonic()
        self.assertEqual(run.wait(helper.PATIENCE), 7)
        self.took_less(1.5, time.monotonic() - began, "an end after the last reader")
        self.assertRegex(run.stderr.read().decode(), rf"\A{before}ocfexec: input or output\n\Z")
        run.stderr.close()
        run.stdin.close()

    def gone(self, word, *last, until=None):
        self.agent("Sleeper", 'echo $$ > "$OCF_RESKEY_pid"\nexec sleep 60\n')
        pid_file = self.place("pid")
        run = subprocess.Popen([PROGRAM, word, "--memory", "--root", self.here],
                               stdin=subprocess.PIPE, stdout=subprocess.PIPE, stderr=subprocess.PIPE)
        self.addCleanup(run.kill)
        run.stdin.write(helper.lines(helper.register("r1", "Sleeper", pid=pid_file), helper.action("r1", "start"), *last))
        run.stdin.flush()
        pid = self.pid_in(pid_file)
        while until and run.stdout.readline() != until:
            pass
        self.ends_unread(run)
        time.sleep(0.1)
        self.assertFalse(helper.is_alive(pid), "its agent lives on")

    def test_drain(self):
        """a reader that goes away during a drain"""
        self.gone("run", {"op": "drain"})

    def test_watch(self):
        """a reader that goes away during a watch"""
        self.gone("run", {"op": "watch", "limit": 43200000})

    def test_serve(self):
        """a reader that goes away while it is served"""
        self.gone("serve")

    def test_line(self):
        """a reader that goes away while a run waits for a line"""
        self.gone("run", {"op": "drain", "limit": 300}, until=b'{"end":"limit"}\n')

    def test_orphans(self):
        """a reader that goes away while a drain waits for what an interrupted action left: that lives on"""
        self.agent("Sleeper", 'echo $$ > "$OCF_RESKEY_pid"\nexec sleep 600\n')
        folder, pid_file = self.journal(), self.place("pid")
        words = ["run", "--journal", folder, "--root", self.here, "--orphans", "600000"]
        first = self.started(*words)
        first.send(helper.register("r1", "Sleeper", pid=pid_file), helper.action("r1", "start", timeout=600_000), {"op": "drain"})
        pid = self.pid_in(pid_file)
        self.addCleanup(lambda: helper.is_alive(pid) and os.kill(pid, 9))
        first.killed()
        waiting = subprocess.Popen([PROGRAM, *words], stdin=subprocess.PIPE, stdout=subprocess.PIPE, stderr=subprocess.PIPE)
        self.addCleanup(waiting.kill)
        waiting.stdin.write(helper.lines(helper.action("r1", "stop"), {"op": "drain"}))
        waiting.stdin.flush()
        found = [helper.value_of(waiting.stdout.readline()) for _ in range(2)]
        self.assertEqual((found[0]["outcome"], found[1]["ok"]), ("interrupted", True))
        self.ends_unread(waiting, r"ocfexec: .*\br1\b.*\n")
        self.assertTrue(helper.is_alive(pid), "what is left goes on")
        last = helper.run(*words)
        self.assertEqual([value["outcome"] for value in helper.replies(last.stdout)], ["dropped"])

    def not_blocking(self, word):
        # two thousand lines come in pieces, and their replies are read late
        read_in, write_in = os.pipe()
        read_out, write_out = os.pipe()
        for descriptor in (read_in, write_out):
            fcntl.fcntl(descriptor, fcntl.F_SETFL, fcntl.fcntl(descriptor, fcntl.F_GETFL) | os.O_NONBLOCK)
        run = subprocess.Popen([PROGRAM, word, "--memory"], stdin=read_in, stdout=write_out)
        os.close(read_in), os.close(write_out)
        line = b'{"op":"info","id":"' + b"x" * 2000 + b'"}\n'
        writer = os.fork()
        if writer == 0:
            for count in (200, 1800):
                for _ in range(count):
                    os.write(write_in, line)
                time.sleep(0.2)
            os._exit(0)
        os.close(write_in)
        time.sleep(0.5)
        found = b""
        while part := os.read(read_out, 65536):
            found += part
        os.waitpid(writer, 0)
        os.close(read_out)
        self.assertEqual(run.wait(helper.PATIENCE), 0)
        self.assertEqual(found.count(b"bad-name"), 2000)

    def test_run_not_blocking(self):
        """run with both ends non-blocking"""
        self.not_blocking("run")

    def test_serve_not_blocking(self):
        """serve with both ends non-blocking"""
        self.not_blocking("serve")

    def test_byte_at_a_time(self):
        """run and serve answer lines that come a byte at a time like lines that come at once"""
        sent = helper.lines(helper.register("r1", "Dummy"), {"op": "list"}, helper.register("r2", "Dummy")) + b'\n{"op":"list"}\n'
        for word in ("run", "serve"):
            whole = helper.run(word, "--memory", sent=sent)
            run = subprocess.Popen([PROGRAM, word, "--memory"], stdin=subprocess.PIPE, stdout=subprocess.PIPE, bufsize=0)
            self.addCleanup(run.kill)
            for place in range(len(sent)):
                run.stdin.write(sent[place:place + 1])
            found, _ = run.communicate(timeout=helper.PATIENCE)
            self.assertEqual((run.returncode, found), (0, whole.stdout), word)
            self.assertEqual(len(helper.replies(found)), 4, word)

    def test_half_a_line(self):
        """an input that ends in the middle of a line: the half is refused as syntax, and earlier records are left"""
        for word in ("run", "serve"):
            folder = self.journal(word)
            done = helper.run(word, "--journal", folder, sent=helper.lines(helper.register("r1", "Dummy")) + b'{"op":"li')
            self.assertEqual((done.returncode, len(helper.replies(done.stdout))), (0, 2), word)
            self.assertEqual(helper.replies(done.stdout)[1]["number"], 1, word)
            again = helper.run("run", "--journal", folder, sent=helper.lines({"op": "list"}))
            self.assertEqual(helper.replies(again.stdout), [{"ok": True, "resources": ["r1"]}], word)

    def test_gone_amid_a_line(self):
        """a client that goes away in the middle of a line: run and serve end within a second, and earlier records are left"""
        for word in ("run", "serve"):
            folder = self.journal(word)
            run = subprocess.Popen([PROGRAM, word, "--journal", folder],
                                   stdin=subprocess.PIPE, stdout=subprocess.PIPE, stderr=subprocess.PIPE)
            self.addCleanup(run.kill)
            run.stdin.write(helper.lines(helper.register("r1", "Dummy")) + b'{"op":"li')
            run.stdin.flush()
            if word == "serve":
                helper.opening(run.stdout)
            self.assertEqual(helper.value_of(run.stdout.readline()), {"ok": True}, word)
            self.ends_unread(run)
            again = helper.run("run", "--journal", folder, sent=helper.lines({"op": "list"}))
            self.assertEqual(helper.replies(again.stdout), [{"ok": True, "resources": ["r1"]}], word)

    @helper.slow
    def test_many(self):
        """a run answers each of a million lines that are there at once"""
        asked = self.place("asked")
        with open(asked, "wb") as file:
            file.write(b'{"op":"list"}\n' * 1_000_000)
        with open(asked, "rb") as file:
            run = subprocess.Popen([PROGRAM, "run", "--memory"], stdin=file, stdout=subprocess.PIPE)
        self.addCleanup(run.kill)
        count = sum(part.count(b"\n") for part in iter(lambda: run.stdout.read(1 << 20), b""))
        run.stdout.close()
        self.assertEqual((run.wait(helper.PATIENCE), count), (0, 1_000_000))

    def test_children_ignored(self):
        """a program that was started with SIGCHLD ignored says so, and makes no journal"""
        folder = self.journal()
        done = helper.run("run", "--journal", folder, preexec_fn=lambda: signal.signal(signal.SIGCHLD, signal.SIG_IGN))
        self.assertEqual((done.returncode, done.stderr), (8, b"ocfexec: SIGCHLD is ignored\n"))
        self.assertEqual(os.listdir(folder), [])

    def test_ignored(self):
        """signals that are ignored at the start are named once, by run and by serve, and agents inherit them"""
        def ignore():
            for number in (signal.SIGHUP, signal.SIGTERM):
                signal.signal(number, signal.SIG_IGN)
        shown = self.place("shown")
        self.agent("Shows", 'grep SigIgn /proc/$$/status > "$OCF_RESKEY_to"\n')
        sent = helper.lines(helper.register("r1", "Shows", to=shown), helper.action("r1", "start"), {"op": "drain"})
        for word in ("run", "serve"):
            done = helper.run(word, "--memory", "--root", self.here, sent=sent, preexec_fn=ignore)
            self.assertEqual(done.stderr, b"ocfexec: started with ignored signals, which agents inherit: SIGHUP, SIGTERM\n")
            with open(shown, encoding="ascii") as file:
                mask = int(file.read().split()[1], 16)
            self.assertEqual([number for number in (1, 2, 13, 15) if mask >> (number - 1) & 1], [1, 15])
        self.assertEqual(helper.run("show", "--memory", preexec_fn=ignore).stderr, b"")
        self.assertEqual(helper.run("run", "--memory").stderr, b"")

    def lost(self, lose, why):
        folder, err = self.journal(), self.place("err")
        with open(err, "wb") as file:
            stream = helper.journal_stream(file.fileno())
        run = self.started("serve", "--journal", folder, err=err, env={**os.environ, **stream})
        run.send(helper.register("r1", "None"))
        self.assertEqual(run.awaits(lambda value: True)[1], {"ok": True})
        time.sleep(0.5)
        lose(folder)
        began = time.monotonic()
        self.assertEqual(run.run.wait(helper.PATIENCE), 5)
        self.took_less(1.5, time.monotonic() - began, "an end after the journal is gone")
        run.reader.join()
        self.assertEqual(run.values()[1:], [{"end": "disk"}])
        with open(err, encoding="utf-8") as file:
            self.assertEqual(file.read().splitlines()[0], f"ocfexec: disk: {folder}/part-a: {why}")

    def test_removed(self):
        """a journal that is removed while serve is idle ends it within a second"""
        self.lost(shutil.rmtree, "No such file or directory (os error 2)")

    def test_replaced(self):
        """a directory that is replaced while serve is idle ends it within a second"""
        def replace(folder):
            os.rename(folder, self.place("away"))
            shutil.copytree(self.place("away"), folder)
        self.lost(replace, "replaced while in use")

    def test_fault(self):
        """a device that fails in a turn ends a serving run, while its input is open"""
        self.agent("Brief", "sleep 1\n")
        folder = self.journal()
        run = subprocess.Popen([PROGRAM, "serve", "--journal", folder, "--root", self.here], restore_signals=False,
                               stdin=subprocess.PIPE, stdout=subprocess.PIPE, stderr=subprocess.PIPE)
        self.addCleanup(run.kill)
        run.stdin.write(helper.lines(helper.register("r1", "Brief"), helper.action("r1", "start")))
        run.stdin.flush()
        helper.opening(run.stdout)
        run.stdout.readline(), run.stdout.readline()
        time.sleep(0.5)
        # its files may not grow any more, so the record of the agent's end is refused
        size = os.path.getsize(os.path.join(folder, "part-a"))
        resource.prlimit(run.pid, resource.RLIMIT_FSIZE, (size, size))
        self.assertEqual(helper.value_of(run.stdout.readline()), {"end": "disk"})
        self.assertEqual(run.wait(helper.PATIENCE), 5)
        self.assertEqual(run.stdout.read(), b"")
        run.stdin.close()
        run.stdout.close(), run.stderr.close()

    def test_root(self):
        """a root that is not absolute"""
        done = subprocess.run([PROGRAM, "run", "--memory", "--root", "some/folder"], stdin=subprocess.DEVNULL, capture_output=True)
        self.assertEqual((done.returncode, done.stderr), (2, b"ocfexec: give --root an absolute path\n"))
