#!/usr/bin/env python3
"""How much processor time `status` takes over a journal with 256 resources whose part is full of runs: of recurring monitors, and of
one-time actions that are queued first. Programs are asked by turns. Use: statuses.py [--rounds N] PROGRAM.."""
import argparse
import os
import resource
import statistics
import subprocess
import sys
import tempfile

sys.path[0] += "/../tests/lib"
import journal_format as book  # noqa: E402

RESOURCES, TIMEOUT, STEP = 256, 20_000, 1


def runs(recurring):
    """The records of a full part: each resource is registered, and then each in turn runs a monitor or an action, until the part is full."""
    names = [f"resource-{index:03}" for index in range(RESOURCES)]
    text, at, calls, run = [book.head()], 1_700_000_000_000, 1, 1
    for name in names:
        text.append(book.record(book.event("register", at, id=name, provider="heartbeat", type="Dummy", params={})))
        if recurring:
            text.append(book.record(book.event("recur", at, id=name, call=calls, interval=10_000, timeout=TIMEOUT, level=0, expect=0)))
            calls += 1
    length = sum(map(len, text))
    while True:
        for index, name in enumerate(names):
            at += STEP
            call = 1 + index if recurring else calls
            events = [] if recurring else [
                book.event("exec", at, id=name, call=call, action=book.MONITOR, level=0, expect=0, timeout=TIMEOUT)]
            events += [book.event("begin", at, id=name, call=call, run=run), book.event("result", at, id=name, run=run,
                                                                                         outcome=(book.DONE, 0))]
            more = b"".join(map(book.record, events))
            if length + len(more) + 1 > book.PART:
                return b"".join(text) + book.CLOSED, run - 1
            text.append(more)
            length, run, calls = length + len(more), run + 1, calls + (not recurring)


def seconds(program, folder):
    """The processor time of one `status`."""
    before = resource.getrusage(resource.RUSAGE_CHILDREN)
    done = subprocess.run([program, "status", "--journal", folder], stdout=subprocess.PIPE, check=False)
    used = resource.getrusage(resource.RUSAGE_CHILDREN)
    if done.returncode or done.stdout.count(b"\n") < RESOURCES:
        raise SystemExit(f"statuses.py: {program} ended with {done.returncode}")
    return used.ru_utime + used.ru_stime - before.ru_utime - before.ru_stime


def main():
    parser = argparse.ArgumentParser(description=__doc__)
    parser.add_argument("--rounds", type=int, default=5)
    parser.add_argument("programs", nargs="+", metavar="PROGRAM")
    asked = parser.parse_args()
    with tempfile.TemporaryDirectory() as folder:
        for recurring, what in ((True, "recurring monitors"), (False, "queued actions")):
            text, count = runs(recurring)
            for name, part in (("part-a", text), ("part-b", b"")):
                with open(os.path.join(folder, name), "wb") as file:
                    file.write(part)
                os.chmod(os.path.join(folder, name), 0o600)
            times = {program: [] for program in asked.programs}
            for _ in range(asked.rounds):
                for program, took in times.items():
                    took.append(seconds(program, folder))
            for program, took in times.items():
                print(f"{program}, {count} runs of {what}: {statistics.median(took):.3f} s ({' '.join(f'{one:.3f}' for one in took)})")


if __name__ == "__main__":
    main()
