"""The tests under pytest, as `pytest tests -k timeout -n 8 -m "not slow"`: their marks, their order, and their names, which are sentences.
Their modules know nothing of pytest; helper.py marks a test by an attribute."""
import inspect
import os
import subprocess
import sys
from collections.abc import Iterator
from pathlib import Path
from typing import Any

import pytest

TESTS = Path(__file__).resolve().parent
# the seconds of each test when it last ran, in the cache of pytest; and those of a slow test that has not run yet
SECONDS, SLOW = "ocfexec/seconds", 30

sys.dont_write_bytecode = True


def pytest_addoption(parser: pytest.Parser) -> None:
    parser.addoption("--program", metavar="FILE", help="the program that is tested, in place of the built one or PROGRAM")
    parser.addoption("--only", metavar="SENTENCE", help="only the test of this sentence")
    parser.addoption("--counts", metavar="FILE", help="add a line to this file, with the numbers of passed and of failed tests")


def pytest_configure(config: pytest.Config) -> None:
    # (the tests read it when they are imported, those of other processes, too)
    if program := config.getoption("--program"):
        os.environ["PROGRAM"] = os.path.realpath(program)


def pytest_itemcollected(item: pytest.Item) -> None:
    """A test is named by its file and its sentence."""
    sentence = inspect.getdoc(item.obj) or item.name
    item._nodeid = f"{item.path.relative_to(TESTS)}: {sentence}"
    item.extra_keyword_matches.add(sentence)
    for mark in ("slow", "alone"):
        if attribute(item, f"is_{mark}"):
            item.add_marker(mark)


def attribute(item: Any, name: str) -> Any:
    return getattr(item.obj, name, None) or getattr(item.cls, name, None)


def pytest_collection_modifyitems(config: pytest.Config, items: list[pytest.Item]) -> None:
    """The longest tests of several at once come first; but last are those that wait until a program is built."""
    if only := config.getoption("--only"):
        config.hook.pytest_deselected(items=[item for item in items if item.nodeid.partition(": ")[2] != only])
        items[:] = [item for item in items if item.nodeid.partition(": ")[2] == only]
    if hasattr(config, "workerinput"):
        seconds = config.cache.get(SECONDS, {})
        items.sort(key=lambda item: (bool(attribute(item, "needed")),
                                     -seconds.get(item.nodeid, SLOW if item.get_closest_marker("slow") else 0)))


@pytest.hookimpl(optionalhook=True)
def pytest_xdist_make_scheduler(config: pytest.Config, log: Any) -> Any:
    """Hands out one test after another, in their order; but together those of a module that share what is made for a class, or that are
    about the whole machine."""
    from xdist.scheduler import LoadScopeScheduling

    class Scheduling(LoadScopeScheduling):
        def _split_scope(self, nodeid: str) -> str:
            path = nodeid.partition(": ")[0]
            return path if path.startswith("system/") or "def setUpClass" in (TESTS / path).read_text(encoding="utf-8") else nodeid

    return Scheduling(config, log)


def pytest_collection_finish(session: pytest.Session) -> None:
    """One of several processes builds the programs that tests need, beside the others."""
    if getattr(session.config, "workerinput", {}).get("workerid") == "gw0":
        for name in {name for item in session.items for name in attribute(item, "needed") or ()}:
            subprocess.Popen([TESTS / name / "build.sh"], stdout=subprocess.DEVNULL, stderr=subprocess.DEVNULL)


@pytest.hookimpl(hookwrapper=True)
def pytest_runtest_makereport(item: pytest.Item) -> Iterator[None]:
    report = (yield).get_result()
    # (the head of the report of a failure)
    report.location = *report.location[:2], item.nodeid + " "


def pytest_terminal_summary(terminalreporter: Any, config: pytest.Config) -> None:
    """Lists what was skipped, and why, and what failed; and keeps the seconds."""
    if hasattr(config, "workerinput"):
        return
    stats = terminalreporter.stats
    passed, failed = ([report for word in words for report in stats.get(word, [])] for words in (["passed"], ["failed", "error"]))
    skipped = [f"{report.nodeid}: {report.longrepr[2].removeprefix('Skipped: ')}" for report in stats.get("skipped", [])]
    # (a test may fail more than once, as in its parts and at its end)
    took = {report.nodeid: round(getattr(report, "duration", 0), 2) for report in [*passed, *failed, *stats.get("skipped", [])]}
    failed = {report.nodeid for report in failed}
    for what, names in (("skipped", skipped), ("failed", failed)):
        if names:
            terminalreporter.write_line("\n    tests/".join([f"{what} {len(names)}:", *sorted(names)]))
    config.cache.set(SECONDS, config.cache.get(SECONDS, {}) | took)
    if counts := config.getoption("--counts"):
        with open(counts, "a", encoding="ascii") as file:
            print(len({report.nodeid for report in passed} - failed), len(failed), file=file)
