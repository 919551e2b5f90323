#!/usr/bin/env python3
"""Runs the commands of docs/GUIDE.md, or of README.md, all in one shell and in order, each block as it would be pasted, and compares the
output with the block after it. Durations and call numbers differ from run to run, and are compared only as such.
Use: guide.py FILE, in an empty directory for the guide, with the program and its clients in PATH"""
import os
import re
import signal
import subprocess
import sys

LONGEST = 120  # seconds

# differs from run to run, and is compared as this
VARYING = (
    (r"\b\d{4}-\d\d-\d\d \d\d:\d\d:\d\d\b", "MOMENT"),
    (r"\b\d+ (ms|s|min|h|days)\b", "TIME"),
    (r"\bdue (in TIME|TIME ago)", "due"),
    (r" +monitoring for TIME of at most TIME$", ""),
    (r"\bcall \d+", "call NUMBER"),
    (r" +", " "),
)
MARK = "-- the end of a command --"


def blocks_of(text):
    """The blocks of commands of this guide, each with its expected output."""
    return re.findall(r"^```sh\n(.*?)^```$(?:\n\n^```text\n(.*?)^```$)?", text, re.MULTILINE | re.DOTALL)


def compared(text):
    for pattern, word in VARYING:
        text = re.sub(pattern, word, text, flags=re.MULTILINE)
    return text.strip()


def differing(shell, blocks):
    """Runs the blocks, and counts those whose output differs from the guide."""
    failed = 0
    for block, wanted in blocks:
        shell.stdin.write(f"{block}echo; echo '{MARK}'\n")
        shell.stdin.flush()
        found = ""
        for line in shell.stdout:
            if line.strip() == MARK:
                break
            found += line
        if compared(found) != compared(wanted):
            print(f"{block}wanted\n{wanted}and found\n{found}", file=sys.stderr)
            failed += 1
    return failed


def main():
    with open(sys.argv[1], encoding="utf-8") as file:
        blocks = blocks_of(file.read())
    shell = subprocess.Popen(["bash"], stdin=subprocess.PIPE, stdout=subprocess.PIPE, stderr=subprocess.STDOUT,
                             text=True, bufsize=1, start_new_session=True)
    signal.signal(signal.SIGALRM, lambda *_: os.killpg(shell.pid, signal.SIGKILL))
    signal.alarm(LONGEST)
    try:
        failed = differing(shell, blocks)
    finally:
        os.killpg(shell.pid, signal.SIGKILL)  # the client, too, whose executor then ends
        shell.wait()
    print(f"{len(blocks)} blocks, {failed} not as it says")
    return 1 if failed or not blocks else 0


if __name__ == "__main__":
    sys.exit(main())
