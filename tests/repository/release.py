"""The version of the program is that of the newest release, or higher, and the manual page has it, too. In a copy a release is made, which
is written everywhere and tagged. A version that is not higher than the last one, or a tree with changes, is refused and changes nothing."""
import os
import re
import subprocess
import unittest

import helper

# the files that a release changes, and in how many lines: new ones, and old ones
CHANGED = ["CHANGELOG.md", "crates/exec_options/src/texts.rt", "docs/ocfctl.8", "docs/ocfexec-client.8", "docs/ocfexec.8",
           "python/ocfexec/__init__.py", "tests/cli/words.py"]
LINES = (8, 6)
MANUAL = re.compile(r'^\.TH .* "ocfexec ([^"]*)"', re.MULTILINE)
OF_CHECK = re.compile(r'^VERSION = "(.*)"$', re.MULTILINE)


def called(top, *words, ends=0):
    """The output of a command in a directory, without its last newline."""
    done = subprocess.run(words, cwd=top, stdin=subprocess.DEVNULL, stdout=subprocess.PIPE, stderr=subprocess.STDOUT, text=True,
                          timeout=helper.WHOLE)
    assert done.returncode == ends, f"{' '.join(words)} ended with {done.returncode}:\n{done.stdout}"
    return done.stdout.rstrip("\n")


def git(top, *words):
    return called(top, "git", *words)


def by_version(top, *call, ends=0):
    """The output of a function of package/version.sh."""
    return called(top, "bash", "-c", '. package/version.sh && "$@"', "bash", *call, ends=ends)


def read(top, path):
    with open(os.path.join(top, path), encoding="utf-8") as file:
        return file.read()


def manual_version(top):
    return MANUAL.findall(read(top, "docs/ocfexec.8"))


def is_whole():
    """Whether this is a clone with all its commits."""
    done = subprocess.run(["git", "-C", helper.TOP, "rev-parse", "--is-shallow-repository"], capture_output=True, text=True)
    return done.stdout == "false\n"


@unittest.skipUnless(is_whole(), "it is no whole clone")
class Version(helper.Check):
    def test_version(self):
        """the program's version is the newest release's, or above it, and the manual's"""
        now = by_version(helper.TOP, "program_version", "HEAD")
        self.assertEqual(helper.run("--version").stdout.decode(), f"ocfexec {now}\n")
        self.assertEqual(manual_version(helper.TOP), [now])
        for release in by_version(helper.TOP, "releases", "HEAD").split():
            if release != now:
                by_version(helper.TOP, "is_above", now, release)

    def test_above(self):
        """a version is above another by its numbers, and not above itself"""
        for version, other in (("0.10.0", "0.9.0"), ("1.0.0", "0.99.99"), ("0.2.1", "0.2.0")):
            by_version(helper.TOP, "is_above", version, other)
            by_version(helper.TOP, "is_above", other, version, ends=1)
            by_version(helper.TOP, "is_above", version, version, ends=1)


@unittest.skipUnless(is_whole(), "it is no whole clone")
class Release(helper.Check):
    """A release in a copy, which has only the files that it is about."""

    def setUp(self):
        super().setUp()
        self.copy = self.place("copy")
        git(self.here, "clone", "--quiet", "--shared", "--sparse", helper.TOP, self.copy)
        git(self.copy, "sparse-checkout", "add", "package", *filter(None, map(os.path.dirname, CHANGED)))
        git(self.copy, "config", "user.name", "A check")
        git(self.copy, "config", "user.email", "check@localhost")
        self.now = by_version(self.copy, "program_version", "HEAD")

    def state(self):
        """The commit, the tags, and the files that are changed."""
        return git(self.copy, "rev-parse", "HEAD"), git(self.copy, "tag"), git(self.copy, "status", "--porcelain")

    def is_refused(self, version, why):
        before = self.state()
        self.assertEqual(called(self.copy, "package/release.sh", version, ends=1), f"release.sh: {why}")
        self.assertEqual(self.state(), before, f"after the refused release {version}")

    def release(self, version):
        called(self.copy, "package/release.sh", version)

    def change(self):
        """Adds a change to what is not released, and returns its commit."""
        text = read(self.copy, "CHANGELOG.md")
        self.assertEqual(text.count("## [Unreleased]\n"), 1)
        with open(os.path.join(self.copy, "CHANGELOG.md"), "w", encoding="utf-8") as file:
            file.write(text.replace("## [Unreleased]\n", "## [Unreleased]\n\n- a change\n"))
        git(self.copy, "commit", "--quiet", "--message", "a change", "CHANGELOG.md")
        return git(self.copy, "rev-parse", "HEAD")

    def test_refused(self):
        """a release that is not above the last one, or of a tree with changes, is refused and changes nothing"""
        for version, why in ((self.now, f"{self.now} is not above {self.now}"), ("0.0.9", f"0.0.9 is not above {self.now}"),
                             ("1.02.0", "1.02.0 is not three numbers")):
            self.is_refused(version, why)
        with open(os.path.join(self.copy, "README.md"), "a", encoding="utf-8") as file:
            file.write("\n")
        self.is_refused("99.0.0", "something is not committed")

    def test_written(self):
        """a release is written everywhere and tagged"""
        before = self.change()
        self.release("99.0.10")
        self.assertEqual(git(self.copy, "diff", "--name-only", before).split(), CHANGED)
        counts = [line.split()[:2] for line in git(self.copy, "diff", "--numstat", before).splitlines()]
        self.assertEqual(tuple(sum(map(int, column)) for column in zip(*counts)), LINES)
        self.assertEqual(by_version(self.copy, "program_version", "v99.0.10"), "99.0.10")
        self.assertEqual(manual_version(self.copy), ["99.0.10"])
        self.assertEqual(OF_CHECK.findall(read(self.copy, "tests/cli/words.py")), ["99.0.10"])

    def test_next(self):
        """the next release is above that, has something under Unreleased, and its package counts commits"""
        self.change()
        self.release("99.0.10")
        self.is_refused("99.0.9", "99.0.9 is not above 99.0.10")
        self.is_refused("99.0.11", "the changelog has nothing under Unreleased")
        before = self.change()
        self.release("99.0.11")
        number = int(git(self.copy, "rev-list", "--count", before)) + 1
        commit = git(self.copy, "rev-parse", "--short=12", "HEAD")
        self.assertEqual(by_version(self.copy, "version_of", "HEAD"), f"99.0.11+{number}.{commit}")

    def test_notes(self):
        """the notes of a release are what the changelog has of it"""
        self.change()
        self.release("99.0.10")
        self.change()
        notes = re.search(r"^## \[99\.0\.10\].*\n((?:.*\n)*?)## \[0", read(self.copy, "CHANGELOG.md"), re.MULTILINE)
        self.assertIn("- a change\n", notes[1])
        self.assertEqual(called(self.copy, "package/notes.sh", "99.0.10"), notes[1].rstrip("\n"))
