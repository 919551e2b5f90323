#!/usr/bin/env python3
"""Writes the initial inputs of fuzzers, one file each, into a directory for each reader: the events, states, parts, lines and runs of the
scenarios, and arguments of the program.
Use: seeds.py DIRECTORY"""
import hashlib
import json
import os
import sys

sys.path[1:1] = [os.path.join(sys.path[0], "../lib")]
import scenario_files  # noqa: E402
import wordlists  # noqa: E402

# the longest input that is worth its time
LONGEST = 4_096


def keep(folder, reader, text):
    if 0 < len(text) <= LONGEST:
        os.makedirs(os.path.join(folder, reader), exist_ok=True)
        with open(os.path.join(folder, reader, hashlib.sha256(text).hexdigest()[:12]), "wb") as file:
            file.write(text)


def keep_pair(folder, a, b):
    if len(a) + len(b) < LONGEST:
        keep(folder, "pair", len(a).to_bytes(2, "big") + a + b)


def write_scenario(folder, steps):
    parts, lines = {"A": b"", "B": b""}, []
    for word, *more in steps:
        if word == "part" and more:
            parts[more[0]] = scenario_files.bytes_of(more[1:])
            keep_pair(folder, parts["A"], parts["B"])
        elif word == "event":
            keep(folder, "event", scenario_files.bytes_of(more))
        elif word == "state":
            keep(folder, "state", b"\7" + scenario_files.bytes_of(more))
        elif word == "at":
            line = " ".join(more[1:]).encode()
            keep(folder, "command", line)
            lines.append(line)
    keep(folder, "lines", b"".join(line + b"\n" for line in lines))


def main():
    folder = sys.argv[1]
    for subject in scenario_files.subjects():
        for steps in scenario_files.steps(subject):
            write_scenario(folder, steps)
    for words in wordlists.WORDS:
        keep(folder, "words", "\n".join(words).encode())
    for op in wordlists.LINES:
        keep(folder, "command", json.dumps(op).encode())
        keep(folder, "lines", json.dumps(op).encode() + b"\n")


main()
