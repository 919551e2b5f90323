"""The lines of each wrong body. An edit of crates/CRATE/must-fail, mutants/CRATE or mutants/gate/CRATE names the functions of its crate
that must refuse it, with existing clauses, or with what a call in them requires; and an edit of mutants/tests a script of `make check`
and a sentence of it. The list of mistakes in mutants/README.md names existing edits, with a star if they are tried for each commit. The
old text of an edit occurs exactly once in its file."""
import collections
import os
import re
import sys
from pathlib import Path

import helper

sys.path.append(os.path.join(helper.TOP, "tools"))
import wrong_bodies as bodies  # noqa: E402

TOP = Path(helper.TOP)
QUOTED = re.compile(r"`(\w+)/(\w+)`(\*?)")
ENSURES = re.compile(r"^\s*ensures (\w+) \{", re.MULTILINE)
REQUIRES = re.compile(r"^\s*requires (\w+) \{", re.MULTILINE)
REFUSED_BY = re.compile(r"^refused by: ([^,\n]+), (.+)$", re.MULTILINE)


def read(path):
    return path.read_text(encoding="utf-8")


def edits():
    """The paths of the edits that a contract refuses, by their crate and name."""
    found = {}
    for path in [*TOP.glob("crates/*/must-fail/*.edit"), *TOP.glob("mutants/gate/*/*.edit"), *TOP.glob("mutants/*/*.edit")]:
        crate = path.parts[-3] if path.parent.name == "must-fail" else path.parent.name
        if crate != "tests":
            found[crate, path.stem] = path
    return found


def clauses(crate, kind=ENSURES):
    """The functions of a crate, each with the labels of what it ensures, or requires."""
    found = collections.defaultdict(set)
    for path in (TOP / "crates").glob(f"{crate}/src/**/*.rt"):
        text = read(path)
        for name, start, end in bodies.functions(text):
            found[name] |= set(kind.findall(text, start, end))
    return found


def listed():
    """The edits in the list of mistakes: the crate and the name of each, and whether it has a star."""
    for line in read(TOP / "mutants/README.md").splitlines():
        if line.startswith("- **"):
            yield from ((crate, name, bool(star)) for crate, name, star in QUOTED.findall(line))


def taken(path, crate):
    """The old texts of an edit, each with its file."""
    file, top = None, TOP if crate == "tests" else TOP / "crates" / crate
    for line in read(path).splitlines():
        key, _, text = line.partition(": ")
        if key == "file":
            file = top / text.strip()
        elif key == "old":
            yield file, text


def is_slow(text, sentence):
    """Whether FAST=1 leaves out the test of this sentence in a module, or its class."""
    before = text.partition(f'"{sentence}"')[0]
    of_class = before.rpartition("\nclass ")[0].rpartition("\n\n")[2]
    return "@helper.slow" in before.rpartition("\n\n")[2] or "@helper.slow" in of_class


class Edits(helper.Check):
    # The faults of an edit are printed without all the others.
    longMessage = False

    def test_named(self):
        """each edit names functions of its crate that must refuse it, and existing clauses of them or of what they call"""
        known, required = {crate: clauses(crate) for crate in {crate for crate, _ in edits()}}, clauses("*", REQUIRES)
        for (crate, name), path in edits().items():
            named = bodies.named(read(path))
            self.assertTrue(named, f"{path.relative_to(TOP)}: it has no line '# refused by: FUNCTION, CLAUSE'")
            for function, clause in named:
                self.assertIn(function, known[crate], f"{crate}/{name}: {crate} has no function {function}")
                called, _, label = (clause or "").partition(" ")
                self.assertTrue(clause is None or clause in known[crate][function] or label in required[called],
                                f"{crate}/{name}: {function} ensures no {clause}, and no such call requires it")

    def test_there(self):
        """the old text of an edit occurs exactly once in its file"""
        tried = edits() | {("tests", path.stem): path for path in TOP.glob("mutants/tests/*.edit")}
        for (crate, name), path in tried.items():
            for file, text in taken(path, crate):
                self.assertEqual(read(file).count(text), 1, f"{crate}/{name}: not there once in {file.relative_to(TOP)}: {text}")

    def test_sentences(self):
        """each edit that a test refuses names an existing check"""
        for path in TOP.glob("mutants/tests/*.edit"):
            named = REFUSED_BY.search(read(path))
            self.assertTrue(named, f"{path.relative_to(TOP)}: it has no line 'refused by: SCRIPT, SENTENCE'")
            self.assertIn(f'"{named[2]}"', read(TOP / named[1]), f"{path.relative_to(TOP)}: {named[1]} has no check of that sentence")

    def test_fast(self):
        """each edit that a test refuses is refused by a check of `make check FAST=1`, or says that it is not"""
        for path in TOP.glob("mutants/tests/*.edit"):
            script, sentence = REFUSED_BY.search(read(path)).groups()
            says = "\n# not by FAST=1" in read(path)
            self.assertEqual(is_slow(read(TOP / script), sentence), says, f"{path.relative_to(TOP)}: {script}, {sentence}")

    def test_table(self):
        """the list of mistakes names existing edits, with a star if they are tried for each commit"""
        found = edits() | {("tests", path.stem): path for path in TOP.glob("mutants/tests/*.edit")}
        self.assertGreater(len(list(listed())), 50)
        for crate, name, star in listed():
            self.assertIn((crate, name), found, f"{crate}/{name}: there is no such edit")
            is_tried = found[crate, name].parent.name == "must-fail" or found[crate, name].parts[-3] == "gate"
            self.assertEqual(star, is_tried, f"{crate}/{name}: a star, and not tried for each commit, or the other way round")

    def test_users(self):
        """each edit but those that every gate tries says in one line what would go wrong for a user"""
        for path in TOP.glob("mutants/**/*.edit"):
            self.assertEqual(len(re.findall(r"^# for a user: .{10,}", read(path), re.MULTILINE)), 1, f"{path.relative_to(TOP)}")
