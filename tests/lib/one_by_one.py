#!/usr/bin/env python3
"""Runs the tests by `unittest` alone, which needs nothing installed: one module after another, each in a process of its own. Each test is
printed as `ok`, `failed` or `skipped`, with its seconds, its file and its sentence. At the end come those that were skipped, with the
reason, those that failed, and the counts. A module fails that has no test, that cannot be imported, or that ends in another way."""
import argparse
import contextlib
import importlib.util
import multiprocessing
import os
import signal
import sys
import time
import unittest
from collections.abc import Iterator
from pathlib import Path
from typing import Any

TOP = Path(__file__).resolve().parents[2]
FOLDERS = [f"{TOP}/tests/{name}" for name in ("cli", "journal", "agents", "crash", "load", "system", "repository")]
# how many seconds a module has to end after SIGTERM
GRACE = 5
sys.dont_write_bytecode = True


def modules(names: list[str]) -> list[str]:
    """The modules of these files and directories, or all, as paths from the top."""
    found = [path for name in names or FOLDERS for path in (sorted(Path(name).glob("*.py")) if os.path.isdir(name) else [Path(name)])]
    return list(dict.fromkeys(os.path.relpath(path.resolve(strict=True), TOP) for path in found))


def tests_of(path: str) -> Iterator[Any]:
    """The tests of a module, which is imported here. (Some have the name of a module that they import.)"""
    spec = importlib.util.spec_from_file_location(path.removesuffix(".py").replace("/", "."), TOP / path)
    module = sys.modules[spec.name] = importlib.util.module_from_spec(spec)
    spec.loader.exec_module(module)
    left = [unittest.defaultTestLoader.loadTestsFromModule(module)]
    while left:
        first = left.pop(0)
        left[:0] = first if isinstance(first, unittest.TestSuite) else []
        yield from [] if isinstance(first, unittest.TestSuite) else [first]


class Report(unittest.TestResult):
    """Prints each test of a module, and sends its word and its name."""

    def __init__(self, path: str, sending: Any):
        super().__init__()
        self.path, self.sending, self.began, self.word, self.why = path, sending, time.monotonic(), "", ""

    def startTest(self, test: Any) -> None:
        super().startTest(test)
        self.began, self.word, self.why = time.monotonic(), "ok", ""

    def addSkip(self, test: Any, reason: str) -> None:
        self.word, self.why = "skipped", f": {reason}"

    def addFailure(self, test: Any, err: Any) -> None:
        super().addFailure(test, err)
        self.fails(test, self.failures)

    def addError(self, test: Any, err: Any) -> None:
        super().addError(test, err)
        self.fails(test, self.errors)

    def fails(self, test: Any, traces: list[tuple[Any, str]]) -> None:
        self.word = "failed"
        print(traces[-1][1], end="")
        if not isinstance(test, unittest.TestCase):
            # (what comes before the tests of a class, or after them)
            self.stopTest(test)

    def stopTest(self, test: Any) -> None:
        name = f"{self.path}: {test.shortDescription() or test.id()}{self.why}"
        say(self.word, time.monotonic() - self.began, name)
        self.sending.send((self.word, name))


def say(word: str, seconds: float, name: str) -> None:
    print(f"{word:8}{seconds:7.2f} s  {name}", flush=True)


def run_module(path: str, given: argparse.Namespace, sending: Any) -> None:
    """Runs the chosen tests of a module in this process."""
    os.setsid()
    # (a test that is ended cleans up)
    signal.signal(signal.SIGTERM, signal.default_int_handler)
    tests, report = list(tests_of(path)), Report(path, sending)
    report.failfast = given.f
    unittest.TestSuite(test for test in tests if given.only in ("", test.shortDescription())
                       and given.k in f"{test.id()} {test.shortDescription()}").run(report)
    sys.exit(0 if tests and report.wasSuccessful() else 1)


def ended(path: str, given: argparse.Namespace) -> list[tuple[str, str]]:
    """Runs a module in a process of its own, and returns the words and names of its tests; what it left running is ended."""
    ours, theirs = multiprocessing.Pipe(duplex=False)
    running, tests, began = multiprocessing.get_context("fork").Process(target=run_module, args=(path, given, theirs)), [], time.monotonic()
    running.start()
    theirs.close()
    try:
        with contextlib.suppress(EOFError):
            # (what it forked may have the other end for longer)
            while ours.poll(0.1) or running.is_alive():
                tests += [ours.recv()] if ours.poll() else []
        running.join()
    finally:
        for number in (signal.SIGTERM, signal.SIGKILL):
            with contextlib.suppress(ProcessLookupError):
                os.killpg(running.pid, number)
            running.join(GRACE)
    if running.exitcode and "failed" not in dict(tests):
        tests.append(("failed", f"{path}: it ended with status {running.exitcode}"))
        say("failed", time.monotonic() - began, tests[-1][1])
    return tests


def main() -> int:
    parser = argparse.ArgumentParser(description=__doc__)
    parser.add_argument("--program", metavar="FILE", help="the program that is tested, in place of the built one or PROGRAM")
    parser.add_argument("-f", action="store_true", help="no test after one that failed")
    parser.add_argument("-k", metavar="WORD", default="", help="only tests with this in their name or sentence")
    parser.add_argument("--only", metavar="SENTENCE", default="", help="only the test of this sentence")
    parser.add_argument("names", nargs="*", metavar="FILE or DIRECTORY")
    given, tests = parser.parse_args(), []
    if given.program:
        os.environ["PROGRAM"] = os.path.realpath(given.program)
    for path in modules(given.names):
        tests += ended(path, given)
        if given.f and "failed" in dict(tests):
            break
    passed, skipped, failed = ([name for said, name in tests if said == word] for word in ("ok", "skipped", "failed"))
    for word, names in (("skipped", skipped), ("failed", failed)):
        print(*[f"{word} {len(names)}:"] * bool(names), *names, sep="\n    ", end="\n" * bool(names))
    if failed:
        print("once more: tests/check.sh", *sorted({name.partition(": ")[0] for name in failed}))
    print(f"{len(passed)} passed, {len(failed)} failed")
    return 0 if tests and not failed else 1


if __name__ == "__main__":
    for number in (signal.SIGTERM, signal.SIGHUP):
        signal.signal(number, lambda number, _: sys.exit(128 + number))
    sys.exit(main())
