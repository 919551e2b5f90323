"""The statement in one file, docs/STATEMENT.antt.txt: it is what tools/statement.py generates from the definitions of this tree, a change
of a text in it makes it stale, and it contains everything that its definitions name, of which little in its first part;
docs/STATEMENT.md names nothing else."""
import os
import re
import shutil
import subprocess
import sys

import helper

SCRIPT, STATEMENT, READING = "tools/statement.py", "docs/STATEMENT.antt.txt", "docs/STATEMENT.md"
# The names in docs/STATEMENT.md besides definitions: the program, and the commands of its example.
EXAMPLE = {"exec", "ocfexec", "register", "web"}
KEY = re.compile(r"^(?:abbrev|unfoldable|record|data) ([^\s:({]+)", re.MULTILINE)
# The first line of its second part, and of what comes after its definitions.
SECOND, ENDS = "-- Second part: what is beneath\n", "\n-- Types and constants from Rust"
# Its first part has fewer definitions than this, and their texts and comments fewer lines.
DEFINITIONS, LINES = 300, 1200
# Built into the language, and variables.
BUILT_IN = {"Type", "Unit", "Why"}
# A change of each kind of text in it: a file, and a text that occurs there once, with its replacement.
CHANGES = [
    ("executor_laws/src/laws.rt", "        → (zs : List Event) × FoundAs (after_all start zs) c\n        × Behaves",
     "        → (zs : List Event) × FoundAs start c\n        × Behaves"),
    ("executor_laws/specs/Behaves.antt", "  pub ran : x.ran ≡ interrupted s (moment s x.now)\n", "  pub ran : x.ran ≡ []\n"),
    ("executor/specs/Exchanges.antt", "-- one call after the other; a session is the calls of its inputs",
     "-- one after the other"),
    ("executor_laws/specs/Incarnations.antt", "  pub acknowledged : p ≡ x.done.events ++ later\n", ""),
    ("agent_system/src/laws.rt", "→ IsFree w.sights id → Contains (given_up_in v) p", "→ Contains (given_up_in v) p"),
    ("agent_system/src/agent_system.rt", "requires over { IsOverAt (view self.old).sights at }", "requires over { ⊤ }"),
    ("agent_system/specs/May.antt", "  pub reaped : u.is_child ≡ false\n", ""),
    ("ocf_types/specs/Limits.antt", "longest_result = 84", "longest_result = 85"),
    ("ocf_model/src/reply.rt", "    EpochSpent,\n", ""),
    ("ocf_types/src/limits.rt", "pub const RESERVE: u64 = 32_768;", "pub const RESERVE: u64 = 32_769;"),
    ("ocf_types/specs/Names.antt", "is_ascii_alphanumeric, is_ascii_alphabetic}",
     "is_ascii_alphanumeric, is_ascii as is_ascii_alphabetic}"),
]
# Texts that are not in it: a lemma, and a definition that nobody names.
OTHERS = [
    ("gated_slots/specs/Slot.antt", "length-slot body = omega (arith, ", "length-slot body = omega (arith, arith, "),
    ("executor_laws/specs/Behaves.antt", "-- a behaviour of the",
     "-- as many as there are\nabbrev pub Unnamed : ℕ\nUnnamed = 0\n\n-- a behaviour of the"),
]


def read(path):
    with open(path, encoding="utf-8") as file:
        return file.read()


def write(path, text):
    with open(path, "w", encoding="utf-8") as file:
        file.write(text)


def check(top):
    """The status of a check of the statement in a tree, and its output."""
    done = subprocess.run([sys.executable, os.path.join(top, SCRIPT), "--check"], capture_output=True, text=True)
    return done.returncode, done.stderr


def words(text):
    """The words of definitions that are not projections, without comments and texts."""
    return re.findall(r"(?<![\w.'])[A-Za-z_][\w']*", re.sub(r'--.*|"[^"\n]*"', "", text))


def parts():
    """The definitions of each part, and what comes after them."""
    text, _, ends = read(os.path.join(helper.TOP, STATEMENT)).partition(ENDS)
    return [part[part.rindex("\n---", 0, KEY.search(part).start()):] for part in text.split(SECOND)], ends


class Statement(helper.Check):
    def copied(self):
        """A copy of the files from which the statement is generated."""
        for folder in ("docs", "tools", "crates"):
            left_out = shutil.ignore_patterns("out", "proofs", "must-fail")
            shutil.copytree(os.path.join(helper.TOP, folder), self.place(folder), ignore=left_out)
        self.assertEqual(check(self.here), (0, ""))

    def with_change(self, path, old, new):
        """The output of a check of the copy while one file of a crate is changed."""
        path = self.place(f"crates/{path}")
        text = read(path)
        self.assertEqual(text.count(old), 1, (path, old))
        write(path, text.replace(old, new))
        said = check(self.here)
        write(path, text)
        return said

    def test_fresh(self):
        """docs/STATEMENT.antt.txt is what `make statement` writes"""
        self.assertEqual(check(helper.TOP), (0, ""))

    def test_changed(self):
        """a law, a definition, a comment, a field, a number, a variant, a constant or a name of the library that changes makes it stale"""
        self.copied()
        for change in CHANGES:
            self.assertEqual(self.with_change(*change), (1, f"{STATEMENT} is stale: make statement\n"), change)

    def test_others(self):
        """a lemma, and a definition that nobody names, do not"""
        self.copied()
        for change in OTHERS:
            self.assertEqual(self.with_change(*change), (0, ""), change)

    def test_gone(self):
        """a missing definition is an error, and so is a lemma in its place"""
        self.copied()
        for new in ("abbrev pub booted_at", "pub booted"):
            self.assertEqual(self.with_change("exec_ledger/specs/Boots.antt", "abbrev pub booted", new),
                             (1, "statement.py: booted in crates/exec_ledger/specs/Boots.antt is no definition\n"), new)

    def test_first_part(self):
        """what has to be believed is less than 300 definitions, of less than 1,200 lines with their comments"""
        first = parts()[0][0]
        self.assertLess(len(KEY.findall(first)), DEFINITIONS)
        paragraphs = [paragraph for paragraph in first.split("\n\n") if not paragraph.lstrip("\n").startswith("---")]
        self.assertLess(len([line for paragraph in paragraphs for line in paragraph.splitlines() if line]), LINES)

    def test_whole(self):
        """each word in it that begins with a capital is defined in it, declared in Rust, a name of the library or one letter for a type"""
        texts, ends = parts()
        definitions = "\n".join(texts)
        there = re.findall(r"^  (\w+) :|(\w+) \(there ", definitions, re.MULTILINE)
        known = BUILT_IN.union(KEY.findall(definitions), *there, re.findall(r"\w+", ends))
        self.assertEqual(sorted({word for word in words(definitions) if word[0].isupper() and len(word) > 1} - known), [])

    def test_reading(self):
        """each name in backticks in docs/STATEMENT.md is in it"""
        names = set(re.findall(r"`(\w+)`", read(os.path.join(helper.TOP, READING)))) - EXAMPLE
        self.assertGreater(len(names), 50)
        self.assertEqual(sorted(names - set(words(read(os.path.join(helper.TOP, STATEMENT))))), [])

    def test_order(self):
        """each definition of a file is in it once, and what names it is above it, under the same comment, or in the second part"""
        texts, ends = parts()
        groups, file, places = [], "", {}
        for paragraph in "\n\n".join(texts).split("\n\n"):
            file = paragraph.lstrip("\n").partition("\n")[2].partition("\n")[0] if paragraph.lstrip("\n").startswith("---") else file
            if paragraph.startswith("-- ") or not groups:
                groups.append("")
            groups[-1] += paragraph + "\n"
            for name in KEY.findall(paragraph):
                self.assertNotIn((file, name), places)
                places[file, name] = len(groups) - 1
        first = len(KEY.findall(texts[0]))
        second_begins = list(places.values())[first]
        names = [name for _, name in places] + re.findall(r"^  (\w+) :", "\n".join(texts), re.MULTILINE) + words(ends)
        at = {name: place for (_, name), place in places.items() if names.count(name) == 1 and name[0].isupper()}
        wrong = [(word, group) for place, group in enumerate(groups) for word in words(group)
                 if at.get(word, place) < place and (at[word] < second_begins) == (place < second_begins)]
        self.assertEqual(wrong, [])
