"""The reason of a last failure that `status --logs DIR` prints: the last line of the resource's log that begins with ocf-exit-reason:, from
logs that agents wrote and from hostile ones, as a table and as JSON, and the line about a log that cannot be read."""
import os

import helper

WORD = b"ocf-exit-reason:"
# how many bytes of a log are read, and how many of a reason are printed
TAIL, LIMIT = 65536, 512


def shown(reason):
    """A reason as it is printed: every character except graphic ASCII and the space is printed by its number, and the backslash too."""
    return "".join(chr(byte) if 32 <= byte < 127 and byte != 92 else f"\\x{byte:02x}" for byte in reason[:LIMIT])


def last_reason(log):
    """The last reason of a log."""
    lines = log[-TAIL:].split(b"\n")
    if len(log) > TAIL:
        lines = lines[1:]
    found = [line[len(WORD):] for line in lines if line.startswith(WORD)]
    return shown(found[-1]) if found else None


class Reasons(helper.Check):
    def setUp(self):
        super().setUp()
        self.folder, self.logs = self.journal(), self.place("logs")
        os.mkdir(self.logs)
        self.agent("Says", 'eval "$OCF_RESKEY_does"\n')

    def does(self, name, does, *words):
        """A start of a resource whose agent does this."""
        done = helper.run("run", "--journal", self.folder, "--root", self.here, "--logs", self.logs, *words, sent=helper.lines(
            helper.register(name, "Says", does=does), helper.action(name, "start"), {"op": "drain"}))
        self.assertEqual(done.returncode, 0, done.stderr)

    def fails(self, name="web"):
        self.does(name, "exit 6")

    def status(self, *words, err=b"", logs=None):
        """The output of a status with these logs, and its standard error."""
        done = helper.run("status", "--journal", self.folder, "--logs", logs or self.logs, *words)
        self.assertEqual((done.returncode, done.stderr), (0, err), done.stdout)
        return done.stdout

    def reasons(self, **how):
        """The reasons in a table and those in JSON, which are equal."""
        table = [line[16:] for line in self.status(**how).decode().split("\n") if line.startswith("  exit reason   ")]
        values = [value for value in helper.replies(self.status("--json", **how)) if "state" in value]
        found = {value["id"]: value["failed"] and value["failed"]["reason"] for value in values}
        self.assertEqual([reason for reason in found.values() if reason is not None], table)
        return found

    def log(self, text, name="web"):
        with open(os.path.join(self.logs, f"{name}.log"), "wb") as file:
            file.write(text)

    def test_written(self):
        """the last reason that an agent wrote is printed, below the failure"""
        self.does("web", "echo ocf-exit-reason:first >&2; echo ocf-exit-reason:no such file /etc/x >&2; echo more; exit 6")
        self.assertEqual(self.reasons(), {"web": "no such file /etc/x"})
        lines = self.status("web").decode().split("\n")
        at = [line.startswith("  exit reason") for line in lines].index(True)
        self.assertIn("  last failure  start: not configured (OCF_ERR_CONFIGURED, 6), ", lines[at - 1])
        self.assertEqual(lines[at + 1], "  history, oldest first:")

    def test_without(self):
        """without --logs there is none"""
        self.does("web", "echo ocf-exit-reason:first >&2; exit 6")
        done = helper.run("status", "--journal", self.folder)
        self.assertNotIn(b"reason", done.stdout)
        done = helper.run("status", "--journal", self.folder, "--json")
        self.assertIn(b'"reason":null', done.stdout)

    def test_not_failed(self):
        """a resource that has not failed has none"""
        self.does("web", "echo ocf-exit-reason:first >&2")
        self.assertEqual(self.reasons(), {"web": None})

    def test_two(self):
        """each resource has its own"""
        for name in ("web", "data", "third"):
            self.does(name, f"echo ocf-exit-reason:of {name} >&2; exit 6")
        self.assertEqual(self.reasons(), {name: f"of {name}" for name in ("web", "data", "third")})
        self.assertIn(b"  exit reason   of data\n", self.status("data"))
        self.assertNotIn(b"of web", self.status("data"))

    def test_logs(self):
        """for any log it is the last line that begins so"""
        self.fails()
        far = WORD + b"far\n"
        for text in (b"", WORD, WORD + b"\n", WORD + b"x", b" " + WORD + b"x\n", b"x" + WORD + b"y\n", WORD + b"a\n" + WORD + b"b\n",
                     WORD + b"a\nx\n\n", WORD + b"a\n" + WORD[:-1], b"ocf-exit-reason\n", b"\n\n" + WORD + b"a\r\n",
                     WORD + bytes(range(256)), WORD + b"\x1b[2J\x1b]0;x\x07\\\xc3\xa9\n",
                     WORD + b"l" * 511 + b"\n", WORD + b"l" * 512 + b"\n", WORD + b"l" * 600,
                     WORD + b"\xff" * 70000, far + b"x" * (TAIL - len(far)), far + b"x" * (TAIL - len(far) + 1), b"\n" + far + b"x" * TAIL,
                     WORD + WORD + b"x", b"\0" * 100 + b"\n" + far, b"x" * 200000 + b"\n" + far):
            with self.subTest(text[:40]):
                self.log(text)
                self.assertEqual(self.reasons(), {"web": last_reason(text)})

    def test_large(self):
        """a log of a terabyte makes no difference"""
        self.fails()
        with open(os.path.join(self.logs, "web.log"), "wb") as file:
            file.truncate(1 << 40)
            file.seek(0, os.SEEK_END)
            file.write(b"\nocf-exit-reason:at the end\n")
        self.assertEqual(self.reasons(), {"web": "at the end"})

    def test_missing(self):
        """a missing log or directory is no reason, and no line reports it"""
        self.fails()
        os.remove(os.path.join(self.logs, "web.log"))
        self.assertEqual(self.reasons(), {"web": None})
        self.assertEqual(self.reasons(logs=self.place("none")), {"web": None})

    def test_other_files(self):
        """anything but a plain file is not read, and the first one is named"""
        for name in ("web", "data"):
            self.fails(name)
            os.remove(os.path.join(self.logs, f"{name}.log"))
        path = os.path.join(self.logs, "web.log")
        for make in (os.mkfifo, os.mkdir, lambda at: os.symlink("data.log", at), lambda at: os.symlink("/dev/zero", at)):
            make(path)
            self.log(b"ocf-exit-reason:of data\n", "data")
            found = self.reasons(err=f"ocfexec: log {path} cannot be read: not a plain file\n".encode())
            self.assertEqual(found, {"web": None, "data": "of data"})
            (os.rmdir if os.path.isdir(path) and not os.path.islink(path) else os.remove)(path)
        os.remove(os.path.join(self.logs, "data.log"))
        for name in ("web", "data"):
            os.mkdir(os.path.join(self.logs, f"{name}.log"))
        self.assertEqual(self.reasons(err=f"ocfexec: log {path} cannot be read: not a plain file\n".encode()), {"web": None, "data": None})

    def test_no_journal(self):
        """a status that ends by a fault also does so with --logs"""
        done = helper.run("status", "--journal", self.folder, "--logs", self.logs, "nobody")
        self.assertEqual(done.returncode, 9, done.stderr)
        self.fails()
        done = helper.run("status", "--journal", self.folder, "--logs", self.logs, "nobody")
        self.assertEqual((done.returncode, done.stderr), (2, b"ocfexec: no resource of this id\n"))
        done = helper.run("status", "--memory", "--logs", self.logs)
        self.assertEqual(done.returncode, 0, done.stderr)
