"""The labels that documents name: each belongs to the function, the record, the relation or the trait before it."""
import collections
import glob
import os
import re

import helper

DOCUMENTS = ["README.md", "CONTRIBUTING.md", "mutants/README.md", "docs/*.md", "crates/*/README.md"]
# in a list or a table: an item in backticks, and the labels after it, each perhaps with items of its own in parentheses
LABEL = re.compile(r"[a-z_]+(?=[,;.)]| \(| \||$)")
CITED = re.compile(rf"`([\w:]+)`: (?={LABEL.pattern})")
INNER = re.compile(r"`([\w:]+)`: ([a-z_]+(?:, [a-z_]+)*)(?=$|[;,. ])")
CLAUSE = re.compile(r"\b(?:requires|ensures\*?) (\w+) \{")


def texts(*patterns):
    for pattern in patterns:
        for path in sorted(glob.glob(os.path.join(helper.TOP, pattern), recursive=True)):
            with open(path, encoding="utf-8") as file:
                yield os.path.relpath(path, helper.TOP), file.read()


def of_source(text):
    """The labels of each function of a source, and of each trait, which has those of its functions."""
    parts = re.split(r"\bfn (\w+)", text)
    yield from ((name, CLAUSE.findall(rest)) for name, rest in zip(parts[1::2], parts[2::2]))
    for name, rest in re.findall(r"^pub trait (\w+)(.*?)^\}", text, re.MULTILINE | re.DOTALL):
        yield name, CLAUSE.findall(rest)


def of_definitions(text):
    """The fields of each record, and the constructors of each relation."""
    for name, rest in re.findall(r"^pub (?:record|data) (\w+)(.*?)(?=^\S|\Z)", text, re.MULTILINE | re.DOTALL):
        yield name, re.findall(r"^  (?:pub )?(\w+) :", rest, re.MULTILINE)


def abbreviated(text):
    """The names in the body of each abbreviation."""
    for name, rest in re.findall(r"^abbrev pub (\w+) :(.*?)(?=^(?:abbrev |pub |--|\Z))", text, re.MULTILINE | re.DOTALL):
        yield name, re.findall(r"\w+", rest)


def items():
    """The labels of each item; an abbreviation has those of what its body names."""
    found, bodies = collections.defaultdict(set), collections.defaultdict(set)
    for _, text in texts("crates/*/src/**/*.rt"):
        for name, labels in of_source(text):
            found[name].update(labels)
    for _, text in texts("crates/*/specs/**/*.antt"):
        for name, labels in of_definitions(text):
            found[name].update(labels)
        for name, words in abbreviated(text):
            bodies[name].update(words)
    return found | {name: set().union(*(found.get(word, ()) for word in words | {name})) for name, words in bodies.items()}


def labels_at(line, start, item):
    """The labels from here on, each with its item."""
    while label := LABEL.match(line, start):
        yield item, label[0]
        start = label.end()
        if line.startswith(" (", start):
            inner = line[start:line.index(")", start)]
            for other, labels in INNER.findall(inner):
                yield from ((other, one) for one in labels.split(", "))
            start += len(inner) + 1
        if not line.startswith(", ", start):
            return
        start += 2


def cited(text):
    """The labels that a document names in its lists and tables, each with its item."""
    for line in re.findall(r"^(?:\||- ).*", text, re.MULTILINE):
        for item in CITED.finditer(line):
            yield from labels_at(line, item.end(), item[1])


def foreign(text, found):
    """The labels of a document that do not belong to their items."""
    return sorted({(item, label) for item, label in cited(text) if label not in found.get(item.split("::")[-1], ())})


class Labels(helper.Check):
    def test_own(self):
        """each label that a document names is one of the item before it"""
        found = items()
        cases = [(path, text) for path, text in texts(*DOCUMENTS)]
        self.assertGreater(sum(len(list(cited(text))) for _, text in cases), 200)
        self.assertEqual([(path, *one) for path, text in cases for one in foreign(text, found)], [])

    def test_foreign(self):
        """a label of another item is found, also in parentheses, after a relation and in a table"""
        found = {"f": {"value"}, "IsA": {"cause"}}
        for text, count in [("- `f`: value, cause", 1), ("- `f`: value (`IsA`: value), value", 1), ("| x | `f`: other |", 1),
                            ("- a `x::f`: value (`IsA`: cause; `IsB`)", 0)]:
            self.assertEqual(len(foreign(text, found)), count, text)
