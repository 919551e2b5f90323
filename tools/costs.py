#!/usr/bin/env python3
"""What each crate costs in a gate: runs a command, looks twice a second at the processes below it, and prints a table in Markdown of the
processor seconds of each crate, by what they were for: its proof, its wrong bodies, its tests, and building and running its program.
The sum is what the system counted, so what was too short to be seen is a row of its own. The command's own output goes to standard error.

With --into, the table takes the place of what stands in a file between the lines <!-- costs --> and <!-- end of costs -->, where the
command ended well; there the crates below LEAST seconds are one row. With --pid, a gate that runs already is looked at until it ends;
what it did before counts where its processes live.

Use: costs.py [--into FILE] -- rt ci --anew
     costs.py [--into FILE] --pid PID"""
import argparse
import collections
import contextlib
import datetime
import os
import re
import resource
import subprocess
import sys
import time

PAUSE = 0.5
TICKS = os.sysconf("SC_CLK_TCK")
KINDS = ["proof", "wrong bodies", "tests", "program"]
LEAST = 250
BEGIN, END = "<!-- costs -->", "<!-- end of costs -->"


def text_of(path):
    """A file of /proc, or none where the process has ended."""
    try:
        with open(path, "rb") as file:
            return file.read().decode(errors="replace")
    except OSError:
        return None


def folder_of(pid):
    try:
        return os.readlink(f"/proc/{pid}/cwd")
    except OSError:
        return ""


def stats():
    """Each process: its parent, when it began, and the seconds of the processor that it took itself, with all its threads."""
    found = {}
    for name in filter(str.isdigit, os.listdir("/proc")):
        text = text_of(f"/proc/{name}/stat")
        if text:
            fields = text.rsplit(")", 1)[1].split()
            found[int(name)] = int(fields[1]), int(fields[19]), (int(fields[11]) + int(fields[12])) / TICKS
    return found


def purpose(words, folder):
    """The crate that a process works for, and what for, by its words and the folder that it runs in; or none."""
    name = words[words.index("--crate-name") + 1] if "--crate-name" in words[:-1] else None
    if name and os.path.basename(words[0]) == "rattle":
        if "/rt-edit-" in folder:
            return name, "wrong bodies"
        return name, "tests" if "--test" in words else "program" if "--crate-checked" in words else "proof"
    ran = next(filter(None, (re.search(r"/rt-run-[^/]*/bin/(\w+)$", word) for word in words)), None)
    if ran:
        return ran[1].removesuffix("_tests"), "tests" if ran[1].endswith("_tests") else "program"
    built = re.search(r"/crates/(\w+)$", folder)
    return (built[1], "program") if built else None


class Sampler:
    """What was seen of a process and of those below it, of each the last."""

    def __init__(self, top):
        self.top, self.seen, self.purposes = top, {}, {}

    def look(self):
        """Notes what each process has taken so far."""
        found = stats()
        below = collections.defaultdict(list)
        for pid, (parent, _, _) in found.items():
            below[parent].append(pid)
        left = [(self.top, None)] if self.top in found else []
        while left:
            pid, of_parent = left.pop()
            _, began, took = found[pid]
            known = self.purposes.get((pid, began))
            # (it may have been seen before it became what it is)
            if pid != self.top and (not known or known[1] == "program"):
                words = (text_of(f"/proc/{pid}/cmdline") or "").split("\0")
                known = purpose(words, folder_of(pid)) or known or of_parent
            self.purposes[pid, began], self.seen[pid, began] = known, took
            left += [(child, known) for child in below[pid]]

    def costs(self):
        """The seconds of each crate, by kind."""
        table = collections.defaultdict(collections.Counter)
        for process, took in self.seen.items():
            crate, kind = self.purposes[process] or ("", "")
            table[crate][kind] += took
        return table


def watched(command):
    """Runs a command under a sampler: the sampler, its status, and the seconds that the system counted."""
    started = subprocess.Popen(command, stdout=sys.stderr)
    sampler = Sampler(started.pid)
    while started.poll() is None:
        sampler.look()
        time.sleep(PAUSE)
    used = resource.getrusage(resource.RUSAGE_CHILDREN)
    return sampler, started.returncode, used.ru_utime + used.ru_stime


def called(pid):
    """The words that a process was called by, without those of its interpreter and its folder, and the seconds that it has lived."""
    words = (text_of(f"/proc/{pid}/cmdline") or "").split("\0")[:-1]
    words = words[1:] if os.path.basename(words[0]).startswith("python") else words
    lived = float(text_of("/proc/uptime").split()[0]) - stats()[pid][1] / TICKS
    return " ".join([os.path.basename(words[0]), *words[1:]]), lived


def followed(pid):
    """Looks at a process until it ends, or until an interrupt: the sampler, no status, and what was seen."""
    sampler = Sampler(pid)
    with contextlib.suppress(KeyboardInterrupt):
        while os.path.exists(f"/proc/{pid}"):
            sampler.look()
            time.sleep(PAUSE)
    return sampler, 0, sum(sampler.seen.values())


def row(name, numbers):
    return f"| {name} | {' | '.join(numbers)} |"


def table_of(costs, whole, least):
    """The rows, the dearest crate first; after them the crates below the least seconds, what no crate is named for, and the sums in
    minutes."""
    number = lambda seconds: f"{seconds:.0f}" if seconds >= 0.5 else ""
    rows = [row("crate", [*KINDS, "all"]), "|---|" + "---:|" * (len(KINDS) + 1)]
    sums = {crate: sum(kinds.values()) for crate, kinds in costs.items() if crate}
    others = [crate for crate in sums if sums[crate] < least]
    for crate in sorted(set(sums).difference(others), key=lambda name: (-sums[name], name)):
        rows.append(row(f"`{crate}`", [number(costs[crate][kind]) for kind in KINDS] + [number(sums[crate])]))
    if others:
        kinds = [number(sum(costs[crate][kind] for crate in others)) for kind in KINDS]
        rows.append(row(f"{len(others)} others", kinds + [number(sum(sums[crate] for crate in others))]))
    rows.append(row("what names no crate", [""] * len(KINDS) + [number(whole - sum(sums.values()))]))
    minutes = [sum(costs[crate][kind] for crate in sums) / 60 for kind in KINDS] + [whole / 60]
    rows.append(row("all, in minutes", [f"{each:.1f}" for each in minutes]))
    return rows


def kit():
    return subprocess.run(["rt", "version"], capture_output=True, text=True).stdout.split(" ")[0].strip()


def said(what, took, whole, costs, least=0):
    """What stands above the table, and the table."""
    cores = len(os.sched_getaffinity(0))
    lead = f"`{what}` took {took / 60:.0f} minutes and {whole / 60:.0f} processor minutes on {cores} cores on {datetime.date.today()}"
    return "\n".join([f"{lead}, with the kit `{kit()}`. In processor seconds:", "", *table_of(costs, whole, least)])


def put_into(path, text):
    """Puts the text between the two lines of a file."""
    with open(path, encoding="utf-8") as file:
        whole = file.read()
    if whole.count(BEGIN) != 1 or whole.count(END) != 1:
        sys.exit(f"costs.py: {path} has not one line {BEGIN} and one line {END}")
    front, after = whole.split(BEGIN)[0], whole.split(END)[1]
    with open(path, "w", encoding="utf-8") as file:
        file.write(f"{front}{BEGIN}\n{text}\n{END}{after}")


def main():
    words = argparse.ArgumentParser(description=__doc__.split("\n", maxsplit=1)[0])
    words.add_argument("--into", metavar="FILE", help="the file that gets the table")
    words.add_argument("--pid", type=int, help="a gate that runs already")
    words.add_argument("command", nargs="*")
    words = words.parse_args()
    if not words.command and not words.pid:
        sys.exit("costs.py: a command is wanted: costs.py -- rt ci --anew")
    what, lived = called(words.pid) if words.pid else (" ".join(words.command), 0)
    began = time.monotonic() - lived
    sampler, status, whole = followed(words.pid) if words.pid else watched(words.command)
    found = what, time.monotonic() - began, whole, sampler.costs()
    print(said(*found))
    if words.into and not status:
        put_into(words.into, said(*found, LEAST))
    return status


if __name__ == "__main__":
    sys.exit(main())
