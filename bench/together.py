#!/usr/bin/env python3
"""Times commands that arrive together: 256 registrations, 256 recurring monitors and 256 starts, each written at once to `run`, from
the first byte in to the last reply out; with a journal on the disk of TMPDIR, on a device whose sync takes 5 milliseconds more, and in
memory. Then 256 registrations by a client that waits for each reply. The median of ROUNDS, in milliseconds, as rows of a table.
Use: together.py PROGRAM [ROUNDS]; it needs a C compiler"""
import json
import os
import statistics
import subprocess
import sys
import tempfile
import time

PROGRAM = os.path.realpath(sys.argv[1])
ROUNDS = int(sys.argv[2]) if len(sys.argv) > 2 else 5
COUNT = 256
HERE = os.path.dirname(os.path.abspath(__file__))
SHIM = "slow_sync.so"
KINDS = {
    "register": {"provider": "test", "type": "Shell"},
    "recur": {"interval": 3_600_000},
    "exec": {"action": "start"},
}


def lines(kind):
    return [json.dumps({"op": kind, "id": f"r{n}", **KINDS[kind]}).encode() + b"\n" for n in range(COUNT)]


def asked(run, batch):
    """How long it takes from the first byte of these lines, written at once, to the last of their replies, in milliseconds."""
    began = time.perf_counter()
    run.stdin.write(b"".join(batch))
    run.stdin.flush()
    for _ in batch:
        reply = run.stdout.readline()
        assert reply.endswith(b'"ok":true}\n'), reply
    return (time.perf_counter() - began) * 1000


def play(words, together, shim):
    """A run from an empty registry: what each kind of command takes."""
    run = subprocess.Popen([PROGRAM, "run", *words], stdin=subprocess.PIPE, stdout=subprocess.PIPE,
                           env={**os.environ, **({"LD_PRELOAD": shim} if shim else {})})
    taken = {}
    for kind in KINDS if together else ["register"]:
        batch = lines(kind)
        taken[kind] = asked(run, batch) if together else sum(asked(run, [line]) for line in batch)
    run.stdin.close()
    assert run.wait() == 0
    return taken


def measure(where, together, shim=None):
    rounds = []
    for _ in range(ROUNDS):
        with tempfile.TemporaryDirectory() as folder:
            words = ["--memory"] if where == "memory" else ["--journal", folder]
            rounds.append(play(words, together, shim))
    for kind in rounds[0]:
        how = "at once" if together else "one by one"
        print(f"| {where} | {COUNT} {kind}, {how} | {statistics.median(taken[kind] for taken in rounds):.1f} |", flush=True)


def main():
    with tempfile.TemporaryDirectory() as folder:
        shim = os.path.join(folder, SHIM)
        subprocess.run(["cc", "-shared", "-fPIC", "-O2", "-o", shim, os.path.join(HERE, "slow_sync.c"), "-ldl"], check=True)
        print("| Journal | Commands | Milliseconds |\n|---|---|---|")
        for together in (True, False):
            measure("memory", together)
            measure("disk", together)
            measure("disk, 5 ms a sync", together, shim)


main()
