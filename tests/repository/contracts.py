"""The contracts of functions: their clauses come in one order."""
import glob
import os
import re

import helper

# the causes of faults, which are the last clauses
CAUSES = ["cause", "memory"]


def contracts(text):
    """The names of the functions of a source, each with the labels of what it ensures, in their order."""
    parts = re.split(r"^ *(?:pub(?:\([a-z]*\))? )?fn (\w+)", text, flags=re.MULTILINE)
    return [(name, re.findall(r"^ +ensures (\w+) \{", rest, re.MULTILINE)) for name, rest in zip(parts[1::2], parts[2::2])]


def misplaced(labels):
    """Whether a cause comes before another clause, or the causes in another order."""
    found = [label for label in labels if label in CAUSES]
    return labels[len(labels) - len(found):] != sorted(found, key=CAUSES.index)


class Contracts(helper.Check):
    def test_causes(self):
        """the causes of faults are the last clauses of a contract"""
        found = []
        for path in sorted(glob.glob(os.path.join(helper.TOP, "crates/*/src/**/*.rt"), recursive=True)):
            with open(path, encoding="utf-8") as file:
                found += [(os.path.relpath(path, helper.TOP), name) for name, labels in contracts(file.read()) if misplaced(labels)]
        self.assertEqual(found, [], "functions with a cause before another clause")

    def test_misplaced(self):
        """a cause before another clause, and two causes in another order, are found"""
        text = "".join(f"fn {name}()\n" + "".join(f"    ensures {label} {{ x }}\n" for label in labels) + "{}\n"
                       for name, labels in [("f", ["memory", "value"]), ("g", ["memory", "cause"]), ("h", ["value", "cause"])])
        self.assertEqual([name for name, labels in contracts(text) if misplaced(labels)], ["f", "g"])
        self.assertEqual([labels for labels in ([], ["value"], ["value", "cause", "memory"]) if misplaced(labels)], [])
