#!/usr/bin/env python3
"""How long the opening of a journal takes until `serve` says that it is ready: of a journal whose part is full of the shortest records,
and of one with a single record. Since other programs count into that, the processor time of the whole run is printed, too; it ends after its
ready line. All programs are asked by turns, each over a copy of the files.
Use: openings.py [--rounds N] PROGRAM.."""
import argparse
import os
import resource
import shutil
import statistics
import subprocess
import tempfile
import time

# docs/FORMAT.md: the greatest length of a part; a head, an empty snapshot and the registration of r1; and a record that forgets its results
PART = 8_388_608
REGISTERED = (b"\x01OCFJ\x02\0\0\0\0\0\0\0\x01\0\0\0\x1a\0\0\0\0\0\0\0\x01\0\0\0\0\0\0\0\x01\0\0\0\0\0\0\0\0\0\0"
              b"\x01\0\0\0\x1d\x01\0\0\0\0\0\0\0\0\x02r1\x09pacemaker\x05Dummy\0")
FORGOTTEN = b"\x01\0\0\0\x0c\x07\0\0\0\0\0\0\0\0\x02r1"


def journals(into):
    """The names of both journals, which are made there, by their numbers of records."""
    records = (PART - len(REGISTERED) - 1) // len(FORGOTTEN)
    made = {}
    for count in (records, 0):
        folder = os.path.join(into, str(count))
        os.mkdir(folder)
        with open(os.path.join(folder, "part-a"), "wb") as part:
            part.write(REGISTERED + count * FORGOTTEN + b"\0")
        with open(os.path.join(folder, "part-b"), "wb"):
            pass
        made[1 + count] = folder
    return made


def opening(program, journal, here):
    """The milliseconds from the start of a program to its ready line, over a copy of a journal; and those of the processor."""
    copy = os.path.join(here, "copy")
    shutil.copytree(journal, copy)
    os.sync()
    began, before = time.monotonic(), resource.getrusage(resource.RUSAGE_CHILDREN)
    with subprocess.Popen([program, "serve", "--journal", copy, "--root", here], stdin=subprocess.PIPE, stdout=subprocess.PIPE) as run:
        while b'"ready":true' not in (line := run.stdout.readline()):
            if not line:
                raise SystemExit(f"openings.py: {program} does not open the journal")
        took = time.monotonic() - began
        run.communicate()
    used = resource.getrusage(resource.RUSAGE_CHILDREN)
    shutil.rmtree(copy)
    return 1000 * took, 1000 * (used.ru_utime + used.ru_stime - before.ru_utime - before.ru_stime)


def said(what, took, first):
    """The median of these times, each of them, and the median ratio to those of the first program."""
    ratio = statistics.median(one / other for one, other in zip(took, first))
    return f"{what} {statistics.median(took):.0f} ms ({' '.join(f'{one:.0f}' for one in took)}), {ratio:.2f} of the first"


def main():
    parser = argparse.ArgumentParser(description=__doc__)
    parser.add_argument("--rounds", type=int, default=5)
    parser.add_argument("programs", nargs="+", metavar="PROGRAM")
    asked = parser.parse_args()
    with tempfile.TemporaryDirectory() as here:
        for records, journal in journals(here).items():
            times = {program: [] for program in asked.programs}
            for _ in range(asked.rounds):
                for program, took in times.items():
                    took.append(opening(program, journal, here))
            first = list(zip(*times[asked.programs[0]]))
            for program, took in times.items():
                ready, processor = zip(*took)
                print(f"{program}, {records} records: {said('ready after', ready, first[0])}; {said('processor', processor, first[1])}")


if __name__ == "__main__":
    main()
