"""The scenarios, tests/scenarios/data: text that is played through the public calls of the executor's crates, with a disk in memory whose
crashes and faults are planned, and agent processes that answer as planned. An oracle that knows no journal checks what is found after a
crash or a fault. The output is compared with the transcript beside each file, byte for byte. To play one file: `$(tests/scenarios/build.sh)
< tests/scenarios/data/NAME.scenario`."""
import itertools
import os
import re
import subprocess

import helper
import scenario_files

# how many bytes are shown of a line that differs
SHOWN = 60


def played(text):
    """The status of the player after this input, its output, and its report of a fault."""
    done = subprocess.run([helper.built("scenarios")], input=text, capture_output=True, timeout=800)
    return done.returncode, done.stdout, done.stderr


def first_difference(found, wanted):
    """Where two transcripts first differ: the scenario, the number of the line, and the bytes of both there."""
    name = "no scenario"
    for number, (one, other) in enumerate(itertools.zip_longest(found.splitlines(True), wanted.splitlines(True), fillvalue=b""), 1):
        if one != other:
            at = len(os.path.commonprefix([one, other]))
            return f"{name}, line {number}, byte {at}: found {one[at:][:SHOWN]}, wanted {other[at:][:SHOWN]}"
        name = one.decode().strip() if one.startswith(b"scenario ") else name
    return ""


def transcript_test(subject):
    """A test of the scenarios of one file."""
    def test(self):
        status, found, said = played(scenario_files.read(subject, "scenario"))
        wanted = scenario_files.read(subject, "transcript")
        if found != wanted:
            self.fail(f"{subject}.transcript: {first_difference(found, wanted)}; {said.decode()}")
        self.assertEqual((status, said), (0, b""), "the player's status, and its standard error")

    test.__doc__ = f"the scenarios of {subject} print their transcript, byte for byte"
    return test


@helper.needs("scenarios")
class Transcripts(helper.Check):
    pass


for name in scenario_files.subjects():
    setattr(Transcripts, f"test_{name}", transcript_test(name))


@helper.needs("scenarios")
class Language(helper.Check):
    def ends_at(self, text, printed, line):
        """The player prints this, and ends at a line that is not a step."""
        wanted = (1, printed + b"line %d is no step\n" % line, b"")
        self.assertEqual(played(text), wanted, text.decode())

    def test_no_step(self):
        """a line that is not a step ends the player, which names it"""
        self.ends_at(b"scenario one\n\n# a comment\nopen 0\nopen zero\nclose\n", b"scenario one\nopened\n", 5)

    def test_constants(self):
        """a constant replaces its word, and has one text"""
        self.assertEqual(played(b"let r1 0700000000000000590272\nevent $r1 31\n"), (0, b"event 12 070000000000000059027231\n", b""))
        self.ends_at(b"let r1 07\nlet r1 08\n", b"", 2)
        self.ends_at(b"let r1 07\nevent $r2\n", b"", 2)

    def test_bytes(self):
        """bytes are repeated, cut and changed in the order of their words"""
        self.assertEqual(played(b"event 07 7*00 59027231ff cut 12 change 8 58\n"), (0, b"event 12 070000000000000058027231\n", b""))

    def test_nothing_changed(self):
        """a cut that cuts nothing is not a step, nor a change to the same bytes, nor of bytes that do not exist"""
        for words in (b"0708 cut 2", b"0708 change 1 08", b"0708 change 1 0909", b"0708 cut"):
            with self.subTest(words):
                self.ends_at(b"event " + words + b"\n", b"", 1)

    def test_names(self):
        """no two scenarios have the same name, and no name is only a number"""
        lines = [line for name in scenario_files.subjects() for line in scenario_files.read(name, "scenario").decode().split("\n")]
        names = [line.removeprefix("scenario ") for line in lines if line.startswith("scenario ")]
        twice = sorted({name for name in names if names.count(name) > 1})
        self.assertEqual(twice, [], "names that two scenarios have")
        self.assertEqual([name for name in names if re.fullmatch(r"\w+ [0-9]+(-[0-9]+)?", name)], [], "names that say nothing")
