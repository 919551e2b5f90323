"""A program of --via without a slash is searched in the agents' PATH, with and without process groups: the first file there that may be run
is run, and where there is none the action is reported as not started."""
import os

import helper
from helper import action, register


class Via(helper.Check):
    def setUp(self):
        super().setUp()
        self.agent("Plain", "exit 0\n")
        for name, mode in {"first/denied": 0o644, "second/denied": 0o644, "second/through": 0o755, "first/through": 0o644}.items():
            path = self.place(name)
            os.makedirs(os.path.dirname(path), exist_ok=True)
            with open(path, "w", encoding="ascii") as file:
                file.write('#!/bin/sh\nexec "$@"\n')
            os.chmod(path, mode)
        os.makedirs(self.place("first/folder"))

    def ended(self, via, *words):
        """The outcome and the code of an action by this program."""
        path = f"{self.place('first')}::/nowhere:{self.place('second')}"
        done = helper.run("run", "--memory", "--root", self.here, "--via", via, "--path", path, *words,
                          sent=helper.lines(register("web", "Plain"), action("web", "start"), {"op": "drain"}))
        notice = next(value for value in helper.replies(done.stdout) if helper.is_notice(value))
        return notice["outcome"], notice["code"]

    def test_searched(self):
        """the first program there that may be run is run; else the action is not started, since there is none or it may not be run"""
        for words in ([], ["--no-groups"]):
            with self.subTest(words=words):
                self.assertEqual(self.ended("through", *words), ("done", 0))
                self.assertEqual(self.ended("nothing", *words), ("not-started", 5))
                self.assertEqual(self.ended("denied", *words), ("not-started", 4))
                self.assertEqual(self.ended("folder", *words), ("not-started", 4))
                self.assertEqual(self.ended(self.place("second/through"), *words), ("done", 0))
                self.assertEqual(self.ended("./nothing", *words), ("not-started", 5))
