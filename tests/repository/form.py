"""The form of the tests themselves: each has a sentence, assertions of truth have a message, and lines are not too long."""
import ast
import collections
from pathlib import Path

import helper

TESTS = Path(helper.TOP, "tests")
FOLDERS = ("cli", "journal", "agents", "crash", "load", "system", "repository")
LONGEST = 140


def modules():
    return [(path, ast.parse(path.read_text(encoding="utf-8"))) for folder in FOLDERS for path in sorted((TESTS / folder).glob("*.py"))]


def sentences(module):
    """The sentences of the tests of a module: of the methods of its classes that are cases of `unittest`."""
    found = [node for case in module.body if isinstance(case, ast.ClassDef) and case.bases for node in case.body]
    return [ast.get_docstring(node) for node in found if isinstance(node, ast.FunctionDef) and node.name.startswith("test_")]


class Form(helper.Check):
    maxDiff = None

    def test_sentences(self):
        """each test has a sentence of one line, and no other test of its module has the same"""
        for path, module in modules():
            for sentence, count in collections.Counter(sentences(module)).items():
                self.assertTrue(sentence and "\n" not in sentence, f"{path}: a test without a sentence of one line: {sentence}")
                self.assertEqual(count, 1, f"{path}: {sentence}")

    def test_columns(self):
        """no line of a test, a script or a shim is longer than 140 columns, except one that the program writes"""
        files = [path for ending in ("py", "sh", "c") for path in sorted(TESTS.rglob(f"*.{ending}")) if "out" not in path.parts]
        found = [f"{path}:{number}" for path in files for number, line in enumerate(path.read_text(encoding="utf-8").splitlines(), 1)
                 if len(line) > LONGEST and line[0] != "{"]
        self.assertEqual(found, [])

    def test_messages(self):
        """an assertion of truth has a message that says what was wanted"""
        calls = [(path, call) for path, module in modules() for call in ast.walk(module)
                 if isinstance(call, ast.Call) and isinstance(call.func, ast.Attribute) and call.func.attr in ("assertTrue", "assertFalse")]
        self.assertEqual([f"{path}:{call.lineno}" for path, call in calls if len(call.args) < 2], [])
