"""The tests without pytest, tests/lib/one_by_one.py, and the limit of time of a test and what a failing one leaves, tests/lib/helper.py:
with modules that stand in for the tests."""
import os
import re
import shutil
import signal
import subprocess
import sys

import helper

MODULE = '''import helper


class Some(helper.Check):
'''
TEST = '''    def test_{name}(self):
        """it {name}"""
        {body}

'''
BODIES = {"passes": "print('said')", "fails": "self.fail('why')", "errs": "raise OSError", "skips": "self.skipTest('the moon is missing')",
          "parts": "with self.subTest(place=7): self.fail()"}


class OneByOne(helper.Check):
    def setUp(self):
        super().setUp()
        for folder in ("cli", "lib"):
            os.makedirs(self.place(f"tests/{folder}"))
        for name in ("helper.py", "schema.py", "one_by_one.py"):
            shutil.copy(os.path.join(helper.TOP, "tests/lib", name), self.place("tests/lib"))
        self.environment = {**os.environ, "FAST": ""}

    def module(self, name, text="", **bodies):
        """A module with these tests, by their bodies."""
        with open(self.place(f"tests/cli/{name}.py"), "w", encoding="utf-8") as file:
            file.write(text + MODULE * bool(bodies) + "".join(TEST.format(name=name, body=body) for name, body in bodies.items()))

    def words(self, *words):
        return [sys.executable, self.place("tests/lib/one_by_one.py"), *words, self.place("tests/cli")]

    def ran(self, *words):
        """The status, and the lines of the output, with no seconds."""
        done = subprocess.run(self.words(*words), stdout=subprocess.PIPE, stderr=subprocess.STDOUT, text=True, env=self.environment)
        return done.returncode, re.sub(r" +[0-9.]+ s  ", " ", done.stdout).splitlines()

    def test_counts(self):
        """each test is printed and counts; at the end are the skipped ones with the reason, and the failed ones"""
        self.module("good", passes=BODIES["passes"])
        self.module("some", **BODIES)
        status, said = self.ran()
        self.assertEqual(status, 1)
        for word, name in (("ok", "good.py: it passes"), ("ok", "some.py: it passes"), ("failed", "some.py: it fails"),
                           ("failed", "some.py: it errs"), ("failed", "some.py: it parts"),
                           ("skipped", "some.py: it skips: the moon is missing")):
            self.assertEqual(said.count(f"{word} tests/cli/{name}"), 1, said)
        self.assertIn("AssertionError: why", said)
        self.assertEqual(said[-8:], [
            "skipped 1:", "    tests/cli/some.py: it skips: the moon is missing", "failed 3:", "    tests/cli/some.py: it errs",
            "    tests/cli/some.py: it fails", "    tests/cli/some.py: it parts", "once more: tests/check.sh tests/cli/some.py",
            "2 passed, 3 failed"])

    def test_chosen(self):
        """a word or a sentence chooses tests, -f ends with the first failure, and a call in which nothing is chosen fails"""
        self.module("a", **BODIES)
        self.module("b", passes=BODIES["passes"], runs="pass")
        for words, status, last in ((["-k", "pass"], 0, "2 passed, 0 failed"), (["--only", "it runs"], 0, "1 passed, 0 failed"),
                                    (["-f"], 1, "0 passed, 1 failed"), (["-k", "nothing"], 1, "0 passed, 0 failed")):
            found, said = self.ran(*words)
            self.assertEqual((found, said[-1]), (status, last), said)

    def test_modules(self):
        """a module fails that cannot be imported, that has no test, or that ends in another way; the others go on"""
        self.module("a_missing", "import not_there\n")
        self.module("b_none", "import helper\n")
        self.module("c_ends", "import os\n\n\n", ends="os._exit(3)")
        fails = "    @classmethod\n    def setUpClass(cls): raise OSError\n\n"
        self.module("d_class", MODULE + fails + TEST.format(name="is", body="pass"))
        self.module("good", passes="pass")
        status, said = self.ran()
        self.assertEqual((status, said[-1]), (1, "1 passed, 4 failed"), said)
        for name, number in (("a_missing", 1), ("b_none", 1), ("c_ends", 3)):
            self.assertIn(f"failed tests/cli/{name}.py: it ended with status {number}", said)

    def test_limit(self):
        """a test that takes too long fails, what it started is ended, and the next one goes on; one that goes on even so ends its module"""
        self.environment["TIME_LIMIT"] = "1"
        hangs = f"subprocess.run('sleep 600 & echo $! > {self.place('pid')}; wait', shell=True)"
        self.module("hangs", "import subprocess\n\n", a_hangs=hangs, b_passes="pass")
        self.module("sleeps", "import time\n\n", sleeps="time.sleep(600)")
        status, said = self.ran()
        self.assertEqual((status, said[-1]), (1, "1 passed, 2 failed"), said)
        self.assertEqual(said.count("AssertionError: it took longer than 1 s"), 1)
        self.assertIn("failed tests/cli/sleeps.py: it ended with status 1", said)
        pid, = self.numbers_in(self.place("pid"))
        self.eventually("the end of what it started", lambda: not helper.is_alive(pid))

    def test_ended(self):
        """a call that is ended ends its module, which cleans up"""
        self.module("lasts", "import subprocess\n\n", lasts="print(self.here, flush=True); subprocess.run(['sleep', '600'])")
        with subprocess.Popen(self.words(), stdout=subprocess.PIPE, stderr=subprocess.DEVNULL, text=True, env=self.environment) as run:
            here = run.stdout.readline().rstrip("\n")
            self.assertTrue(os.path.isdir(here), here)
            run.terminate()
            self.assertEqual(run.wait(helper.PATIENCE), 128 + signal.SIGTERM)
            self.assertFalse(os.path.exists(here), "the directory of the test is gone")

    def test_kept(self):
        """a random test that fails says how to repeat it, and its input is kept"""
        thrown = "b'%d' % random.Random(helper.number('SEED', 7)).randrange(1000)"
        self.module("throws", "import random\n\n", throws=f"self.note('thrown', {thrown}); self.fail()")
        _, said = self.ran()
        [again] = [line.removeprefix("once more: ") for line in said if line.startswith("once more: SEED=7 ")]
        kept, found = self.place("tests/failed/throws/test_throws/thrown"), []
        for words in (["true"], ["sh", "-c", again]):
            subprocess.run(words, cwd=self.here, env=self.environment, stdout=subprocess.DEVNULL)
            with open(kept, encoding="ascii") as file:
                found.append(file.read())
            os.remove(kept)
        self.assertEqual(found[0], found[1])
