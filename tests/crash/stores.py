"""The scenarios of tests/scenarios/data that name no disk, played over a store in memory (crates/test_stores) in place of two files: they
print the same transcripts, but for the counts of device calls in the entries of starts, which are those of another device. So commands,
turns and refusals do not know what their store is."""
import re
import subprocess

import helper
import scenario_files

# the steps that name a disk, its parts or its calls, or decode bytes
ON_DISKS = {b"part", b"parts", b"image", b"fault", b"stop", b"stops", b"stopped", b"faults", b"lives", b"cuts", b"event", b"state",
            b"event-1", b"state-1"}

# at least so many scenarios, and calls in them, of all files together
LEAST, LEAST_CALLS = 130, 2800


def chunks(text):
    """The lines of each scenario of a text, by its first line."""
    found = {}
    for line in text.splitlines(True):
        if line.startswith(b"scenario "):
            found[line] = here = []
        if found:
            here.append(line)
    return found


def is_without_disk(lines):
    return not ON_DISKS & {line.split()[0] for line in lines if line.strip()}


def without_counts(text):
    """A transcript without the counts of device calls at starts."""
    return re.sub(rb"(?m)^(start \d+) at \d+:", rb"\1:", text)


def constants(text):
    return b"".join(line for line in text.splitlines(True) if line.startswith(b"let "))


def played(text):
    done = subprocess.run([helper.built("scenarios"), "memory"], input=text, capture_output=True, timeout=800)
    return done.returncode, done.stdout, done.stderr


@helper.needs("scenarios")
class Stores(helper.Check):
    def test_transcripts(self):
        """the scenarios without a disk print their transcripts over a store in memory"""
        count = calls = 0
        for subject in scenario_files.subjects():
            text, transcript = scenario_files.read(subject, "scenario"), scenario_files.read(subject, "transcript")
            wanted = chunks(transcript)
            chosen = {name: lines for name, lines in chunks(text).items() if is_without_disk(lines)}
            status, found, said = played(constants(text) + b"".join(b"".join(lines) for lines in chosen.values()))
            self.assertEqual((status, said), (0, b""), f"{subject}: the player's status, and its standard error")
            found = chunks(found)
            for name, lines in chosen.items():
                with self.subTest(f"{subject}: {name.decode().strip()}"):
                    self.assertEqual(without_counts(b"".join(found[name])), without_counts(b"".join(wanted[name])))
                    count += 1
                    calls += sum(line.startswith((b"at ", b"bytes ", b"turn ", b"together ")) for line in lines)
        print(f"{count} scenarios with {calls} calls")
        self.assertGreater(count, LEAST, "scenarios without a disk")
        self.assertGreater(calls, LEAST_CALLS, "calls in them")

    def test_no_disk(self):
        """a step that names a disk ends the player"""
        status, _, said = played(b"scenario one\nopen 0\nparts\n")
        self.assertNotEqual(status, 0)
        self.assertIn(b"no disk", said)
