"""Inputs that guided fuzzing found, tests/fuzz/corpus, are given once more to the readers that they were found for. None crashes, takes
long or fails: decoded values encode to the same bytes, a refused pair is not written, and the journal of a run opens. The program of
tests/trials reads them. For each pair the program's own `show` reports the damage that a second reader finds, which is written after
docs/FORMAT.md alone."""
import os
import subprocess

import helper
from journal_format import damage

CORPUS = os.path.join(helper.TOP, "tests/fuzz/corpus")
SHOWN, REFUSED, DAMAGED = 0, 5, 3


@helper.needs("trials")
class Fuzz(helper.Check):
    def hand(self, text, *words, name="", said=b""):
        """Gives these bytes to a reader."""
        done = subprocess.run([helper.trials(), *words], input=text, capture_output=True, timeout=helper.PATIENCE)
        self.assertEqual((done.returncode, done.stdout, done.stderr), (0, said, b""), name)

    def inputs(self, reader):
        folder = os.path.join(CORPUS, reader)
        names = sorted(os.listdir(folder))
        self.assertTrue(names, f"{folder} has an input")
        for name in names:
            with open(os.path.join(folder, name), "rb") as file:
                yield name, file.read()

    def replay(self, reader):
        """Gives all inputs to a reader, in one process; if that fails, each in a process of its own, so that the input is named."""
        inputs = list(self.inputs(reader))
        text = b"".join(len(one).to_bytes(4, "big") + one for _, one in inputs)
        try:
            self.hand(text, "each", reader, said=b"%d inputs\n" % len(inputs))
        except (AssertionError, subprocess.TimeoutExpired):
            for name, text in inputs:
                self.hand(text, reader, name=name)
            raise

    def test_first(self):
        """a first run, of three commands and an invalid line"""
        with open(os.path.join(helper.TOP, "tests/trials/lines.stdin"), "rb") as file:
            self.hand(file.read(), "lines", name="lines.stdin")

    def test_none(self):
        """an unknown reader is refused"""
        done = subprocess.run([helper.trials(), "none"], input=b"", capture_output=True, timeout=helper.PATIENCE)
        self.assertEqual((done.returncode, done.stdout), (1, b""))
        self.assertIn(b"no reader is called none", done.stderr)

    def test_command(self):
        """command lines that fuzzing found"""
        self.replay("command")

    def test_event(self):
        """events that fuzzing found"""
        self.replay("event")

    def test_state(self):
        """states that fuzzing found"""
        self.replay("state")

    def test_words(self):
        """arguments that fuzzing found"""
        self.replay("words")

    def test_lines(self):
        """whole runs that fuzzing found"""
        self.replay("lines")

    def test_pair(self):
        """pairs of parts that fuzzing found"""
        self.replay("pair")

    def pairs(self):
        for name, text in self.inputs("pair"):
            if len(text) >= 2:
                length = min(int.from_bytes(text[:2], "big"), len(text) - 2)
                yield name, [text[2:][:length], text[2:][length:]]

    def test_show(self):
        """the same pairs, shown by the program, which reports the damage that a second reader finds, and writes nothing"""
        for name, parts in self.pairs():
            folder = self.journal_of(name, *parts)
            done = helper.explained("show", "--journal", folder, timeout=helper.PATIENCE)
            said = done.stderr.decode().partition("\n")[0]
            if b"" in parts and b": empty, while part-" in done.stderr:
                self.assertEqual(done.returncode, REFUSED, name)
            elif said.endswith(": order"):
                # (the second reader does not look for an event that does not apply in its place)
                self.assertEqual(done.returncode, DAMAGED, name)
            else:
                wanted = damage(*parts)
                self.assertEqual(said, wanted and f"ocfexec: damaged part {wanted}", name)
                self.assertEqual(done.returncode, DAMAGED if wanted else SHOWN, name)
            self.assertEqual(helper.parts(folder), parts, name)
