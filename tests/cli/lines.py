"""Inputs of `run --memory` that a stored run cannot contain: without a line, with empty lines, without a last newline, and with lines of
the greatest length, and longer. The exit status and all output are compared, with an input from a pipe and from a file."""
import subprocess

import helper

LONGEST = 131_072
LIST = b'{"op":"list"}'
AT_LIMIT = LIST.ljust(LONGEST)
# the replies to that line, and to a line that is refused
NONE = b'{"ok":true,"resources":[]}\n'
SYNTAX = b'{"error":"syntax","number":1}\n'
# inputs, and all output
SHORT = (
    ("no input", b"", b""),
    ("empty lines", b"\n\n\n", b""),
    ("empty lines around a line", b"\n\n" + LIST + b"\n\n", NONE),
    ("a line of a space", b" \n", SYNTAX),
    ("a line of a carriage return", b"\n\r\n\n", SYNTAX),
    ("a line of bytes that are no text", b"\0\xff\n" + LIST + b"\n", SYNTAX + NONE),
    ("no last newline", LIST, NONE),
)
LONG = (
    ("a line of 131,072 bytes", AT_LIMIT + b"\n", NONE),
    ("a line of 131,072 bytes at the end", AT_LIMIT, NONE),
    ("a line after one of 131,072 bytes", AT_LIMIT + b"\nnope\n", NONE + SYNTAX),
    ("a line of 131,073 bytes", AT_LIMIT + b" ", SYNTAX),
    ("a command at the end of a line that is too long", b" " * (LONGEST + 1) + LIST + b"\n", SYNTAX),
    ("a line after one of 131,073 bytes", b" " * (LONGEST + 1) + b"\n" + LIST + b"\n", SYNTAX + NONE),
    ("a line after one of 131,074 bytes", b" " * (LONGEST + 2) + b"\n" + LIST + b"\n", SYNTAX + NONE),
    ("a line after one that is much too long", b" " * 400_000 + b'{"op":"drain"}\n' + LIST + b"\n", SYNTAX + NONE),
)


class Lines(helper.Check):
    def from_file(self, sent):
        with open(self.place("sent"), "wb") as file:
            file.write(sent)
        with open(self.place("sent"), "rb") as file:
            return subprocess.run([helper.PROGRAM, "run", "--memory"], stdin=file, capture_output=True, timeout=helper.WHOLE)

    def are_answered(self, inputs):
        for name, sent, wanted in inputs:
            for where, done in (("a pipe", helper.run("run", "--memory", sent=sent)), ("a file", self.from_file(sent))):
                self.assertEqual((done.returncode, done.stderr, done.stdout), (0, b"", wanted), f"{name}, from {where}")

    def test_ends(self):
        """an empty line is ignored, one that is no text is refused, and the last one needs no newline"""
        self.are_answered(SHORT)

    def test_lengths(self):
        """a line of 131,072 bytes is read, and a longer one is refused as one line, after which the next one is read"""
        self.are_answered(LONG)
