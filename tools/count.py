#!/usr/bin/env python3
"""How many tests of each kind there are, as tables in Markdown. They are counted in their sources, so a test of a hundred rounds counts
once. The seconds are those that the tests of a directory took together when each of them last ran by pytest in this copy, several at once
(tests/out/pytest); where a module has not run there are none.

With --into, the tables take the place of what stands in a file between the lines <!-- counts --> and <!-- end of counts -->.

Use: count.py [--into FILE]"""
import argparse
import ast
import collections
import datetime
import json
import re
import subprocess
import sys
from pathlib import Path

TOP = Path(__file__).resolve().parents[1]
BEGIN, END = "<!-- counts -->", "<!-- end of counts -->"
# the directories of checks, and what each is about
FOLDERS = {"cli": "what a user or a client sees of the program", "journal": "the bytes and files of a journal, and the order of syncs",
           "agents": "real agents and processes", "crash": "kills, faults, lack of memory, long histories",
           "load": "many lines, long times", "system": "package, unit, clients, cluster",
           "repository": "documents, contracts, edits and tools"}
FUNCTION = re.compile(r"^ *(?:pub(?:\([a-z]+\))? )?(?:ghost )?fn \w", re.MULTILINE)
TEST, SCENARIO, OK = re.compile(r"#\[test\]"), re.compile(r"^scenario ", re.MULTILINE), re.compile(r"^ok ", re.MULTILINE)
# the mark of a slow test, or of a class of them; and the seconds of tests, by their names
SLOW, SECONDS = "helper.slow", "tests/out/pytest/v/ocfexec/seconds"


def files(pattern):
    """The files of a pattern, but built ones."""
    return [path for path in sorted(TOP.glob(pattern)) if path.is_file() and "out" not in path.relative_to(TOP).parts]


def count(pattern, what):
    return sum(len(what.findall(path.read_text(encoding="utf-8"))) for path in files(pattern))


def functions(of_tests):
    """The functions of the crates of tests, or of all others, that are no tests themselves."""
    found = [path for path in files("crates/*/src/**/*.rt") if path.relative_to(TOP).parts[1].startswith("test_") == of_tests]
    texts = [path.read_text(encoding="utf-8") for path in found]
    return sum(len(FUNCTION.findall(text)) - len(TEST.findall(text)) for text in texts)


def edits():
    """The wrong bodies that a proof has to refuse: those of each gate, those of mutants/gate, all others; and how many of mutants have a
    stamp, over these texts or earlier ones."""
    others = [path for path in files("mutants/*/*.edit") if path.parent.name != "tests"]
    stamps = (TOP / "mutants/tried").read_text(encoding="utf-8").splitlines()
    return len(files("crates/*/must-fail/*.edit")), len(files("mutants/gate/*/*.edit")), len(others), len(stamps)


def kinds():
    each, gate, others, stamps = edits()
    scenarios, modelled = count("tests/scenarios/data/*.scenario", SCENARIO), count("tests/scenarios/data/random-*.scenario", SCENARIO)
    return [("functions of the program's crates, with those that a trait declares", functions(False), "`crates`"),
            ("the same of the crates of tests", functions(True), "`crates/test_*`"),
            ("wrong bodies that a proof has to refuse, tried by each gate", each, "`crates/NAME/must-fail`"),
            ("the same, tried by a gate where their stamp is missing or old", gate, "`mutants/gate`"),
            ("the same, tried by hand", others, "`mutants/NAME`"),
            ("of the last two and the next: seen refused, with a stamp", stamps, "`mutants/tried`"),
            ("wrong bodies that a test has to refuse", len(files("mutants/tests/*.edit")), "`mutants/tests`"),
            ("tests that are proved before they run", count("crates/test_*/src/**/*.rt", TEST), "`crates/test_disks`, `crates/test_edges`"),
            (f"scenarios; of these by an independent model: {modelled}", scenarios, "`tests/scenarios/data`"),
            ("tests of the trials", count("tests/trials/*.stdout", OK), "`tests/trials`"),
            ("inputs that fuzzing found, for six readers", len(files("tests/fuzz/corpus/*/*")), "`tests/fuzz/corpus`")]


def times():
    """The seconds of each directory, if each of its modules has run."""
    try:
        kept = json.loads((TOP / SECONDS).read_text(encoding="utf-8"))
    except OSError:
        return {}
    seconds = collections.Counter()
    for name, took in kept.items():
        seconds[name.partition(": ")[0]] += took
    modules = {folder: [str(path.relative_to(TOP / "tests")) for path in files(f"tests/{folder}/*.py")] for folder in FOLDERS}
    return {folder: round(sum(map(seconds.get, paths))) for folder, paths in modules.items() if seconds.keys() >= set(paths)}


def cases(text):
    """The tests of a module of unittest, each by its decorators and those of its class."""
    found = [node for node in ast.parse(text).body if isinstance(node, ast.ClassDef) and node.bases]
    tests = [(case, node) for case in found for node in case.body if isinstance(node, ast.FunctionDef) and node.name.startswith("test_")]
    return [list(map(ast.unparse, case.decorator_list + test.decorator_list)) for case, test in tests]


def of_folder(folder):
    """How many modules a directory has, how many tests, and how many of these are slow."""
    modules = files(f"tests/{folder}/*.py")
    tests = [test for path in modules for test in cases(path.read_text(encoding="utf-8"))]
    return collections.Counter(modules=len(modules), tests=len(tests), slow=sum(SLOW in test for test in tests))


def table(heads, rows):
    marks = ["---" if place in (0, len(heads) - 1) else "---:" for place in range(len(heads))]
    return "\n".join(f"| {' | '.join(map(str, row))} |" for row in [heads, marks, *rows])


def said():
    """Both tables."""
    commit = subprocess.run(["git", "rev-parse", "--short=8", "HEAD"], cwd=TOP, check=True, capture_output=True, text=True).stdout.strip()
    found, took = {folder: of_folder(folder) for folder in FOLDERS}, times()
    rows = [(f"`tests/{folder}`", of["modules"], of["tests"], of["slow"], took.get(folder, ""), FOLDERS[folder])
            for folder, of in found.items()]
    sums = sum(found.values(), collections.Counter())
    rows.append(("all", sums["modules"], sums["tests"], sums["slow"], sum(took.values()) if len(took) == len(FOLDERS) else "", ""))
    return "\n\n".join([f"Counted on {datetime.date.today()}, above {commit}.", table(["what", "number", "where"], kinds()),
                        table(["directory", "modules", "tests", "slow", "seconds", "about"], rows)])


def main():
    words = argparse.ArgumentParser(description=__doc__.split("\n", maxsplit=1)[0])
    words.add_argument("--into", metavar="FILE", help="the file that gets the tables")
    words = words.parse_args()
    text = said()
    if not words.into:
        print(text)
        return
    whole = Path(words.into).read_text(encoding="utf-8")
    if whole.count(BEGIN) != 1 or whole.count(END) != 1:
        sys.exit(f"count.py: {words.into} has not one line {BEGIN} and one line {END}")
    Path(words.into).write_text(f"{whole.split(BEGIN)[0]}{BEGIN}\n{text}\n{END}{whole.split(END)[1]}", encoding="utf-8")


if __name__ == "__main__":
    main()
