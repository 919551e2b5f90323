#!/usr/bin/python3
"""How `ocfexec serve` grows with what it holds: against 1 to 256 resources, and for each of these numbers against 0 to 8 recurring monitors
of each resource, which are due in an hour. Measured are the starts of a second and the processor time of one, if all resources have
starts in their queues; resident memory; how long a question waits for its answer, at rest and while an agent of each resource sleeps; and
how long an opening takes. The journal is on the device of TMPDIR. Each number is the median of the rounds, in which all sizes are measured
once. The figures are written as JSON beside the picture, from which it is drawn again without a program. It needs a C compiler, and
python3-matplotlib for the picture.
Use: scale.py PROGRAM PICTURE.svg [ROUNDS]; or scale.py FIGURES.json PICTURE.svg"""
from __future__ import annotations

import collections
import datetime
import json
import os
import statistics
import subprocess
import sys
import tempfile
import time
from pathlib import Path
from typing import Any

from plots import QUIET, ROUNDS, plt

RESOURCES, MONITORS = (1, 4, 16, 64, 256), (0, 1, 2, 4, 8)
# starts in all, and how many a resource has in its queue at most; questions; openings; and an hour, in milliseconds
STARTS, QUEUE, QUESTIONS, OPENINGS, HOUR = 512, 16, 200, 5, 3_600_000
# how many milliseconds an agent sleeps; and after how many seconds questions are asked meanwhile, when all agents run
SLEEP, SETTLED = 1000, 0.3
# what is drawn: its unit, and what is said of it
PANELS = {"rate": "starts a second", "processor": "processor time of a start, ms", "memory": "resident memory, MB",
          "rest": "a question at rest, µs", "busy": "a question while one agent of each\nresource sleeps, µs", "opening": "an opening, ms"}

Figures = dict[str, float]
Command = dict[str, Any]


class Served:
    """An executor that serves, over a journal: how many replies it has sent, and how many ends of each action."""

    def __init__(self, program: str, here: str):
        words = [program, "serve", "--journal", os.path.join(here, "journal"), "--root", here]
        self.replies, self.ends = 0, collections.Counter()
        began = time.perf_counter()
        self.run = subprocess.Popen(words, stdin=subprocess.PIPE, stdout=subprocess.PIPE)
        self.read()
        self.took = time.perf_counter() - began

    def read(self) -> None:
        """Reads a line; the first one says that it is ready."""
        line = self.run.stdout.readline()
        if not line or b'"error"' in line:
            sys.exit(f"scale.py: it refuses, or ends: {line}")
        if b'"outcome"' in line:
            self.ends[json.loads(line)["action"]] += 1
        else:
            self.replies += 1

    def ask(self, *commands: Command) -> None:
        """Writes commands at once, and reads until each has its reply."""
        wanted = self.replies + len(commands)
        self.write(*commands)
        while self.replies < wanted:
            self.read()

    def write(self, *commands: Command) -> None:
        self.run.stdin.write("".join(json.dumps(command) + "\n" for command in commands).encode())
        self.run.stdin.flush()

    def wait(self, action: str, count: int) -> None:
        """Reads until so many of these actions have ended."""
        while self.ends[action] < count:
            self.read()

    def processor(self) -> float:
        """The seconds of the processor that it took by itself."""
        return int(Path(f"/proc/{self.run.pid}/schedstat").read_text(encoding="ascii").split()[0]) / 1e9

    def memory(self) -> float:
        """Its resident memory, in megabytes."""
        lines = Path(f"/proc/{self.run.pid}/status").read_text(encoding="ascii").splitlines()
        return next(int(line.split()[1]) for line in lines if line.startswith("VmRSS:")) / 1000

    def end(self) -> None:
        self.run.stdin.close()
        self.run.stdout.read()
        self.run.wait()


def named(count: int, **command: Any) -> list[Command]:
    """A command for each resource."""
    return [{"id": f"r{number}", **command} for number in range(count)]


def starts(served: Served, resources: int) -> Figures:
    """How many agents it starts in a second, and what one costs."""
    turns = min(QUEUE, STARTS // resources)
    batches, batch = STARTS // (resources * turns), named(resources, op="exec", action="start", timeout=60_000) * turns
    began, before = time.perf_counter(), served.processor()
    for number in range(batches):
        served.ask(*batch)
        served.wait("start", (number + 1) * len(batch))
    done = batches * len(batch)
    return {"rate": done / (time.perf_counter() - began), "processor": 1000 * (served.processor() - before) / done}


def question(served: Served) -> float:
    """How long a question waits for its answer, in microseconds: the median of many, one after another."""
    took = []
    for _ in range(QUESTIONS):
        began = time.perf_counter()
        served.ask({"op": "info", "id": "r0"})
        took.append(time.perf_counter() - began)
    return 1e6 * statistics.median(took)


def openings(program: str, here: str) -> float:
    """How long an opening takes, in milliseconds, the median of several."""
    took = []
    for _ in range(OPENINGS):
        served = Served(program, here)
        took.append(1000 * served.took)
        served.end()
    return statistics.median(took)


def measured(program: str, agents: str, resources: int, monitors: int) -> Figures:
    """All figures of one size."""
    with tempfile.TemporaryDirectory() as here:
        os.symlink(agents, os.path.join(here, "resource.d"))
        os.mkdir(os.path.join(here, "journal"))
        served = Served(program, here)
        served.ask(*named(resources, op="register", provider="bench", type="Compiled", params={"wait": "0"}))
        for number in range(monitors):
            served.ask(*named(resources, op="recur", interval=HOUR + number))
        # (each is due at once)
        served.wait("monitor", resources * monitors)
        found = starts(served, resources) | {"rest": question(served), "memory": served.memory()}
        served.ask(*named(resources, op="params", params={"wait": str(SLEEP)}))
        ended = served.ends["start"]
        served.ask(*named(resources, op="exec", action="start", timeout=60_000))
        time.sleep(SETTLED)
        found["busy"] = question(served)
        served.wait("start", ended + resources)
        served.end()
        return found | {"opening": openings(program, here)}


def stolen() -> tuple[int, int]:
    """What the host took of this machine's processors since its start, and the whole of their time, in ticks."""
    ticks = [int(word) for word in Path("/proc/stat").read_text(encoding="ascii").split("\n", 1)[0].split()[1:9]]
    return ticks[7], sum(ticks)


def measure(program: str, rounds: int) -> dict[str, Any]:
    """The medians of all sizes, and when and how they were measured."""
    sizes = [(resources, monitors) for resources in RESOURCES for monitors in MONITORS]
    load, (taken, whole) = os.getloadavg()[0], stolen()
    with tempfile.TemporaryDirectory() as agents:
        os.mkdir(os.path.join(agents, "bench"))
        source = os.path.join(os.path.dirname(os.path.abspath(__file__)), "agent.c")
        subprocess.run(["cc", "-O2", "-o", os.path.join(agents, "bench/Compiled"), source], check=True)
        all_rounds = [[measured(program, agents, *size) for size in sizes] for _ in range(rounds)]
    share = (stolen()[0] - taken) / max(1, stolen()[1] - whole)
    about = {"date": datetime.date.today().isoformat(), "cores": len(os.sched_getaffinity(0)), "rounds": rounds, "load": round(load, 2),
             "stolen": round(100 * share, 1)}
    found = [{name: round(statistics.median(figures[name] for figures in of_size), 3) for name in PANELS} for of_size in zip(*all_rounds)]
    return {"run": about, "figures": [[*size, figures] for size, figures in zip(sizes, found)]}


def draw(kept: dict[str, Any], picture: str) -> None:
    """A panel for each figure, with a curve for each number of monitors."""
    figure, panels = plt.subplots(2, 3, figsize=(12, 7))
    for axes, (name, said) in zip(panels.flat, PANELS.items()):
        for number, monitors in enumerate(MONITORS):
            points = [(resources, found[name]) for resources, of_each, found in kept["figures"] if of_each == monitors]
            axes.plot(*zip(*points), color=plt.get_cmap("viridis")(number / len(MONITORS)), marker="o", markersize=3.5, linewidth=1.2,
                      label=f"{monitors} monitors of each")
        axes.set_title(said, loc="left")
        axes.set(xlabel="resources", xscale="log", ylim=(0, None))
        axes.minorticks_off()
        axes.set_xticks(RESOURCES, [str(resources) for resources in RESOURCES])
    run = kept["run"]
    is_trial = run["rounds"] < ROUNDS or run["load"] > QUIET
    panels.flat[0].legend(frameon=False)
    text = (f"{'A TRIAL, not to be compared. ' * is_trial}Measured on {run['date']}: {run['cores']} cores, {run['rounds']} rounds, "
            f"load {run['load']} before; the host took {run['stolen']} % of the time")
    figure.text(0.01, 0.01, text, color="#c00000" if is_trial else "#333333")
    figure.tight_layout(w_pad=2.5, h_pad=2.5, rect=(0, 0.03, 1, 1))
    figure.savefig(picture, metadata={"Date": None})


def main() -> None:
    if len(sys.argv) not in (3, 4):
        sys.exit("Use: scale.py PROGRAM PICTURE.svg [ROUNDS]; or scale.py FIGURES.json PICTURE.svg")
    source, picture = sys.argv[1:3]
    if source.endswith(".json"):
        kept = json.loads(Path(source).read_text(encoding="ascii"))
    else:
        kept = measure(os.path.realpath(source), int(sys.argv[3]) if len(sys.argv) > 3 else ROUNDS)
        Path(picture).with_suffix(".json").write_text(json.dumps(kept, separators=(",", ":")) + "\n", encoding="ascii")
    draw(kept, picture)


if __name__ == "__main__":
    main()
