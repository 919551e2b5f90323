#!/usr/bin/env python3
"""Times a tidy of a state of 3.8 MB, one that a line asks for and one that the executor makes by itself before a change: on the disk of
TMPDIR, and on a device whose sync takes 8 milliseconds more. The second is the longest wait for the reply to one of 200 changes, without
what such a wait takes in the median. The median of ROUNDS, in milliseconds, as rows of a table.
Use: tidies.py PROGRAM [ROUNDS]; it needs a C compiler"""
import json
import os
import statistics
import subprocess
import sys
import tempfile
import time

PROGRAM = os.path.realpath(sys.argv[1])
ROUNDS = int(sys.argv[2]) if len(sys.argv) > 2 else 5
RESOURCES, CHANGES = 250, 200
PARAMS = {f"p{place:02}": "v" * 1000 for place in range(15)}
MORE = "8"
HERE = os.path.dirname(os.path.abspath(__file__))


def asked(run, command):
    """How long the reply to this command takes, in milliseconds."""
    began = time.perf_counter()
    run.stdin.write(json.dumps(command).encode() + b"\n")
    run.stdin.flush()
    reply = run.stdout.readline()
    assert reply in (b'{"ok":true}\n', b'{"end":"done"}\n'), reply
    return (time.perf_counter() - began) * 1000


def play(folder, shim):
    """What a tidy takes that a line asks for, and one that is made before a change."""
    run = subprocess.Popen([PROGRAM, "run", "--journal", folder, "--tidy-at", "1"], stdin=subprocess.PIPE, stdout=subprocess.PIPE,
                           env={**os.environ, **({"LD_PRELOAD": shim, "MILLISECONDS": MORE} if shim else {})})
    for number in range(RESOURCES):
        asked(run, {"op": "register", "id": f"r{number}", "provider": "test", "type": "Shell", "params": PARAMS})
    by_line = asked(run, {"op": "tidy"})
    waits = [asked(run, {"op": "params", "id": f"r{number}", "params": PARAMS}) for number in range(CHANGES)]
    run.stdin.close()
    assert run.wait() == 0
    return by_line, max(waits) - statistics.median(waits)


def measure(where, shim=None):
    rounds = []
    for _ in range(ROUNDS):
        with tempfile.TemporaryDirectory() as folder:
            rounds.append(play(folder, shim))
    for how, taken in zip(("a line asks for", "the executor makes by itself"), zip(*rounds)):
        print(f"| {where} | {how} | {statistics.median(taken):.1f} |", flush=True)


def main():
    with tempfile.TemporaryDirectory() as folder:
        shim = os.path.join(folder, "slow_sync.so")
        subprocess.run(["cc", "-shared", "-fPIC", "-O2", "-o", shim, os.path.join(HERE, "slow_sync.c"), "-ldl"], check=True)
        print("| Device | Tidy that | Milliseconds |\n|---|---|---|")
        measure("disk")
        measure(f"disk, {MORE} ms a sync more", shim)


main()
