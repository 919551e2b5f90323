"""The identity of a journal: made with it, kept over openings, made anew and said where it is missing or is none. A part that was written
and is empty is refused, whatever reads the journal; no kill in a creation or a first tidy leaves a journal that is refused. A directory
without a journal is refused by --existing. Nothing in the directory that is no plain file is waited for."""
import os
import re
import shutil
import signal
import socket
import stat
import subprocess

import helper
from helper import PROGRAM, register

TEXT = re.compile(rb"[0-9a-f]{32} [a-][b-]\n")
ANEW = "ocfexec: {}/identity was missing or no identity, and is made anew\n"
VIEWS = ("status", "log", "metrics", "show")
EVERY = ("serve", "run", *VIEWS)


def socket_at(path):
    with socket.socket(socket.AF_UNIX) as made:
        made.bind(path)


# what may have the name of a file in the place of a plain file
KINDS = {
    "a pipe": os.mkfifo,
    "a directory": os.mkdir,
    "a socket": socket_at,
    "a link to a device": lambda path: os.symlink("/dev/zero", path),
    "a device": lambda path: os.mknod(path, 0o600 | stat.S_IFCHR, os.makedev(1, 5)),
}


class Identity(helper.Check):
    def ready(self, folder, *words):
        """The ready line of an opening, and its standard error."""
        done = helper.run("serve", "--journal", folder, *words)
        self.assertEqual(done.returncode, 0, done.stderr)
        return helper.opened(done.stdout)[1], done.stderr.decode()

    def text(self, folder):
        with open(os.path.join(folder, "identity"), "rb") as file:
            return file.read()

    def used(self, folder, *commands):
        done = helper.run("run", "--journal", folder, sent=helper.lines(register("r1", "None"), *commands))
        self.assertEqual((done.returncode, b"error" in done.stdout), (0, False), done.stderr)

    def emptied(self, folder, part):
        with open(os.path.join(folder, part), "wb"):
            pass

    def refused(self, folder, part):
        """Whatever reads this journal refuses it, and says which part was emptied; nothing is changed."""
        before = helper.parts(folder)
        sentence = f"{folder}/{part}: empty or gone, though the file identity says that it was written"
        for word in EVERY:
            with self.subTest(word):
                done = helper.run(word, "--journal", folder)
                says = "ocfexec: disk\n" if word in ("run", "show") else f"ocfexec: disk: {sentence}\n"
                self.assertEqual((done.returncode, done.stdout, done.stderr.decode()), (5, b"", says))
                self.assertIn(sentence, helper.explained(word, "--journal", folder).stderr.decode())
        self.assertEqual(helper.parts(folder), before)

    def test_kept(self):
        """a new journal has an identity, which later openings and a tidy keep"""
        folder = self.journal()
        first, err = self.ready(folder)
        self.assertEqual(err, "")
        self.assertRegex(self.text(folder), TEXT)
        self.assertEqual(self.text(folder)[32:], b" a-\n")
        self.used(folder, {"op": "tidy"})
        self.assertEqual(self.text(folder)[32:], b" ab\n")
        again, err = self.ready(folder)
        self.assertEqual((again["identity"], err), (first["identity"], ""))
        self.assertEqual(self.text(folder)[:32].decode(), first["identity"])
        lines = helper.replies(helper.run("status", "--json", "--journal", folder).stdout)
        self.assertEqual([line["identity"] for line in lines if "state" in line], [first["identity"]])

    def test_memory(self):
        """a journal in memory has none"""
        done = helper.run("serve", "--memory")
        self.assertIsNone(helper.opened(done.stdout)[1]["identity"])

    def test_others(self):
        """another journal has another one, also in a directory whose parts were removed"""
        folder, other = self.journal(), self.journal("other")
        self.used(folder, {"op": "tidy"})
        seen = [self.ready(folder)[0]["identity"], self.ready(other)[0]["identity"]]
        for part in helper.PARTS:
            os.remove(os.path.join(folder, part))
        ready, err = self.ready(folder)
        self.assertEqual((ready["resources"], err), (0, ""))
        self.assertEqual(len({*seen, ready["identity"]}), 3)

    def test_anew(self):
        """one that is missing or no identity is made anew, and said once"""
        folder = self.journal()
        self.used(folder)
        path = os.path.join(folder, "identity")
        wrongs = {name: make for name, make in KINDS.items() if name != "a directory"}
        for name, text in {"empty": b"", "short": b"0" * 31, "large letters": b"A" * 32 + b" ab\n", "long": b"0" * 32 + b" ab\n\n"}.items():
            wrongs[name] = lambda place, text=text: self.note(os.path.relpath(place, self.here), text)
        for name, make in {"missing": lambda path: None, **wrongs}.items():
            with self.subTest(name):
                before = self.ready(folder)[0]["identity"]
                os.remove(path)
                make(path)
                ready, err = self.ready(folder)
                self.assertEqual(err, ANEW.format(folder))
                self.assertNotEqual(ready["identity"], before)
                self.assertEqual(self.ready(folder), (ready, ""), "said once, and kept")

    def test_not_made(self):
        """a directory of its name is said, and the journal opens without an identity"""
        folder = self.journal()
        self.used(folder)
        os.remove(os.path.join(folder, "identity"))
        os.mkdir(os.path.join(folder, "identity"))
        ready, err = self.ready(folder)
        self.assertIsNone(ready["identity"])
        self.assertRegex(err, r"\Aocfexec: \S+/identity: [^\n]*directory[^\n]*; clients cannot tell this journal from another\n\Z")

    def test_emptied(self):
        """an emptied part is refused, in a young journal and in a tidied one"""
        young, tidied = self.journal("young"), self.journal("tidied")
        self.used(young)
        self.emptied(young, "part-a")
        self.refused(young, "part-a")
        self.used(tidied, {"op": "tidy"})
        for part in helper.PARTS:
            with self.subTest(part):
                folder = self.place(f"copy-{part}")
                shutil.copytree(tidied, folder)
                self.emptied(folder, part)
                self.refused(folder, part)

    def test_not_emptied(self):
        """a journal of before, without an identity, and one that was never tidied are no emptied ones"""
        folder = self.journal()
        self.used(folder)
        os.remove(os.path.join(folder, "identity"))
        self.assertEqual(helper.run("status", "--journal", folder).returncode, 0)
        self.ready(folder)
        self.assertEqual(self.text(folder)[32:], b" a-\n")
        for word in EVERY:
            self.assertEqual(helper.run(word, "--journal", folder).returncode, 0, word)

    def killed(self, folder, at):
        """A creation and a first tidy that are killed in the n-th of their writes and syncs; whether they were."""
        env = {**os.environ, "LD_PRELOAD": self.shim, "LOG": self.place("log"), "FAULT": f"kill {at}", "IDENTITY": "counts"}
        done = subprocess.run([PROGRAM, "run", "--journal", folder], env=env, capture_output=True, timeout=helper.PATIENCE,
                              input=helper.lines(register("r1", "None"), {"op": "tidy"}, register("r2", "None")))
        self.assertIn(done.returncode, (0, -signal.SIGKILL), done.stderr)
        return done.returncode != 0

    def test_synced(self):
        """a new identity is synced before it has its name, and its directory before a line is answered, or none is; it is marked in time"""
        if not shutil.which("cc"):
            self.skipTest("install a C compiler (apt-get install gcc)")
        env = {**os.environ, "LD_PRELOAD": helper.shim("real_syncs.c", self.here), "IDENTITY": "counts"}
        for name, fault, wanted in (("synced", "", (0, True)), ("failing", "eio 2", (5, False))):
            folder, log = self.journal(name), self.place(f"{name}.log")
            done = subprocess.run([PROGRAM, "run", "--journal", folder], env={**env, "LOG": log, "FAULT": fault}, capture_output=True,
                                  timeout=helper.PATIENCE, input=helper.lines({"op": "list"}))
            with open(log, encoding="utf-8") as file:
                calls = [line.split(" ")[:2] for line in file]
            self.assertEqual((done.returncode, done.stdout != b""), wanted, done.stderr)
            synced = [os.path.basename(path) for call, path in calls if call == "fsync"]
            self.assertEqual(synced[:2], ["identity.new", name])
            # (a part is marked before its head is written, and after the byte that closes its gate)
            written = [os.path.basename(path) for call, path in calls if call == "pwrite"]
            self.assertEqual(written[:3], [] if fault else ["part-a", "identity", "part-a"])

    def test_kills(self):
        """no kill in a creation or a first tidy leads to a refusal, or to another identity of what was acknowledged"""
        if not shutil.which("cc"):
            self.skipTest("install a C compiler (apt-get install gcc)")
        self.shim = helper.shim("real_syncs.c", self.here)
        at, was_killed = 1, True
        while was_killed:
            folder = self.journal(f"killed-{at}")
            was_killed = self.killed(folder, at)
            has_one = os.path.exists(os.path.join(folder, "identity"))
            has_bytes = any(os.path.getsize(os.path.join(folder, part)) for part in helper.PARTS if part in os.listdir(folder))
            before = self.text(folder)[:32] if has_one else None
            self.assertTrue(has_one or not has_bytes, "bytes of a journal, and no identity")
            ready, err = self.ready(folder)
            self.assertEqual(err, "", at)
            if has_bytes:
                self.assertEqual(ready["identity"].encode(), before, at)
            # (and killed again, while a journal of which nothing is left is made)
            for part in (part for part in helper.PARTS if not has_bytes):
                os.remove(os.path.join(folder, part))
            self.killed(folder, at)
            self.assertEqual(self.ready(folder)[1], "", at)
            at += 1
        print(f"identity: {at - 2} kills")
        self.assertGreater(at, 15, "kills in each step")

    def test_existing(self):
        """--existing refuses a directory without a journal, makes nothing, and opens one that has one"""
        folder = self.journal()
        for word in ("serve", "run"):
            with self.subTest(word):
                done = helper.run(word, "--existing", "--journal", folder)
                says = "ocfexec: no journal here, and --existing asks for one\n"
                self.assertEqual((done.returncode, done.stdout, done.stderr.decode()), (9, b"", says))
                self.assertEqual(os.listdir(folder), [])
        self.used(folder)
        self.assertEqual(self.ready(folder, "--existing")[0]["resources"], 1)

    def test_waits_for_nothing(self):
        """no file of the directory that is no plain file is waited for"""
        if os.geteuid() != 0:
            self.skipTest("only root makes devices")
        for name in (*helper.PARTS, "agents", "agents.new", "identity", "identity.new"):
            for kind, make in KINDS.items():
                for word in EVERY:
                    folder = self.journal(f"{name}-{kind}-{word}".replace(" ", "-"))
                    self.used(folder)
                    path = os.path.join(folder, name)
                    if os.path.exists(path):
                        os.remove(path)
                    os.chdir(folder)
                    make(name)
                    os.chdir(helper.TOP)
                    with self.subTest(name=name, kind=kind, word=word):
                        done = helper.run(word, "--journal", folder, timeout=helper.PATIENCE)
                        self.assertEqual(done.returncode, 5 if name in helper.PARTS else 0, done.stderr)
                        if name in helper.PARTS and word not in ("run", "show"):
                            self.assertEqual(done.stderr.decode(), f"ocfexec: disk: {folder}/{name}: not a plain file\n")
                    shutil.rmtree(folder)
