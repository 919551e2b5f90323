"""Runs the cluster of examples/cluster, of three nodes over three members of etcd, through random kills: of a service, an executor, a
manager, a member, a node, and a node's link to the network if it has one. Wanted: no service is ever up twice, by its own count and by the
list of processes; after each series of kills every service is up again within its bound; each manager's record of results has each run of
its journal exactly once, and equals the histories; and without fencing, nothing of a lost node is taken over. It ends everything that it
started by process id.
Use: cluster_kills.py DIRECTORY kills COUNT SEED yes|no, or without-fencing yes|no, by tests/system/cluster.py; the last word says
whether it is in namespaces of its own. With up to 30 kills it ends after 115 seconds, with the kills that were made by then."""
import contextlib
import json
import os
import random
import signal
import statistics
import sys
import time

import helper
from helper import PROGRAM

sys.dont_write_bytecode = True
sys.path.insert(0, os.path.join(helper.TOP, "examples/cluster"))
from lab import Lab, Unreachable, waits  # noqa: E402

SERVICES = {"web": ["n1", "n2", "n3"], "db": ["n2", "n3", "n1"], "mail": ["n3", "n1", "n2"]}
LEASE = 6
# seconds from a kill until all services are up again; a new leader of etcd renews each lease
BOUNDS = {"service": 15, "executor": 15, "manager": 15, "member": 20 + LEASE, "node": 20 + 2 * LEASE, "cut": 20 + 2 * LEASE}
dice = random.Random()


def wanted(holds, what):
    if not holds:
        raise AssertionError("wanted: " + what)


def is_up(lab):
    return all(len(lab.up.get(name, [])) == 1 for name in SERVICES)


def is_whole(lab):
    return all(node.process for node in lab.nodes.values()) and all(member.process for member in lab.members)


class Plan:
    """What has to be repaired, and until when."""

    def __init__(self, lab):
        self.lab, self.later = lab, []

    def put_right(self):
        for due in [due for due in self.later if due[0] <= time.monotonic()]:
            self.later.remove(due)
            due[1]()

    def after(self, low, high, what):
        self.later.append((time.monotonic() + dice.uniform(low, high), what))

    def kinds(self):
        """What may be killed now: no second node while one is off, no second member."""
        lab, kinds = self.lab, ["executor", "manager"]
        kinds += ["service"] * any(lab.up.values())
        kinds += ["member"] * all(member.process for member in lab.members)
        if not self.later and all(node.process for node in lab.nodes.values()):
            kinds += ["node"] + ["cut"] * lab.namespaces
        return kinds

    def kill(self):
        lab, kind = self.lab, dice.choice(self.kinds())
        node = dice.choice([name for name, node in lab.nodes.items() if node.process])
        pids = []
        if kind == "service":
            pids = [pid for _, pid in dice.choice([places for places in lab.up.values() if places])]
        elif kind in ("executor", "manager"):
            pids = lab.processes(kind, node)
        elif kind == "member":
            member = dice.choice(lab.members)
            member.kill()
            self.after(1, 5, member.start)
        elif kind == "node":
            lab.off(node)
            self.after(0, 4 * LEASE, lambda: lab.boot(node))
        else:
            lab.link(node, "down")
            self.after(1, 4 * LEASE, lambda: (lab.link(node, "up"), lab.boot(node)))
        for pid in pids:
            try:
                os.kill(pid, signal.SIGKILL)
            except ProcessLookupError:
                pass
        return kind

    def move(self):
        """Gives a service another order of nodes, so that there may be a stop and a start to be killed."""
        name = dice.choice(list(SERVICES))
        try:
            self.lab.place(name, dice.sample(SERVICES[name], 3))
        except Unreachable:
            pass

    def settle(self, bound):
        """Waits until every service is up; returns how long that took. A node that was fenced is turned on again."""
        since, calm = time.monotonic(), 0
        while calm < 3:
            wanted(time.monotonic() < since + bound, f"every service up again within {bound} s, not {self.lab.up}")
            time.sleep(0.2)
            self.put_right()
            self.turn_on()
            calm = calm + 1 if is_up(self.lab) else 0
        return time.monotonic() - since - 0.6

    def turn_on(self):
        if not self.later:
            for name, node in self.lab.nodes.items():
                if not node.process:
                    self.after(0, 3, lambda name=name: self.lab.boot(name))


def run_kills(lab, count):
    """The kills, in series of one to three: after each series all services have to come up again."""
    plan, took, done, end = Plan(lab), {}, 0, time.monotonic() + (85 if count <= 30 else 36000)
    plan.settle(60)
    while done < count and time.monotonic() < end:
        kinds = []
        for _ in range(dice.choice([1, 1, 2, 3])):
            plan.put_right()
            if dice.random() < 0.4:
                plan.move()
                time.sleep(dice.uniform(0, 0.6))
            kinds.append(plan.kill())
            time.sleep(dice.uniform(0, 0.8))
        done += len(kinds)
        worst = max(kinds, key=BOUNDS.get)
        took.setdefault(worst, []).append(plan.settle(BOUNDS[worst]))
        wanted(not lab.twice and max(lab.counts()) == 1, f"one of a service at a time, not {lab.twice} {lab.counts()}")
        if done % 20 < len(kinds):
            print(f"cluster_kills: {done} kills", flush=True)
    while plan.later or not is_whole(lab):
        plan.settle(60)
    return done, took


def compare_record(lab, node):
    """The results that a manager has seen: each run from the first to the last once, and those of the histories as they are there."""
    entries = [json.loads(line) for line in (lab.folder / node / "record").read_text().splitlines()]
    runs = sorted(entry["run"] for entry in entries if entry["run"])
    wanted(runs == list(range(1, len(runs) + 1)), f"each run of {node} once, not {runs}")

    def key(result):
        return result["call"], result["run"]

    for name, results in helper.results(str(lab.folder / node / "journal")).items():
        wanted(results, f"a history of {name}")
        seen = [helper.result_of(entry) for entry in entries if entry["id"] == name]
        seen = sorted(sorted(seen, key=lambda entry: entry["at"])[-len(results):], key=key)
        wanted(seen == sorted(results, key=key), f"{name} of {node} as in its history, {results}, not {seen}")
    return entries


def end_all(lab):
    """Stops all services, and returns the results that the managers have seen."""
    for name in SERVICES:
        lab.place(name, [])
    waits("all services down", lambda: not any(lab.up.values()), 30)
    time.sleep(2)
    entries = [entry for node in lab.nodes for entry in compare_record(lab, node)]
    wanted(not lab.twice and max(lab.counts()) == 1, f"one of a service at a time, not {lab.twice} {lab.counts()}")
    return entries


def kills(folder, namespaces, count, seed):
    """Services through random kills."""
    dice.seed(int(seed))
    with contextlib.closing(Lab(folder, PROGRAM, namespaces, lease=LEASE, slow=0.3)) as lab:
        lab.start(SERVICES)
        done, took = run_kills(lab, int(count))
        entries = end_all(lab)
        words = sorted({entry["outcome"] for entry in entries})
        print(f"cluster_kills: {done} kills, {len(lab.counts())} starts, {len(lab.fenced)} fencings, {len(entries)} results: "
              + ", ".join(f"{sum(entry['outcome'] == word for entry in entries)} {word}" for word in words))
        for kind, seconds in sorted(took.items()):
            print(f"cluster_kills: series with {kind}: {len(seconds)}, up again after {statistics.median(seconds):.1f} s, "
                  f"at most {max(seconds):.1f} s of {BOUNDS[kind]} s", flush=True)


def without_fencing(folder, namespaces):
    """Without fencing, nothing of a lost node is taken over."""
    with contextlib.closing(Lab(folder, PROGRAM, namespaces, lease=5, fences=False, slow=0)) as lab:
        def on_first():
            return [node for node, _ in lab.up.get("web", [])] == ["n1"] and lab.etcd.view()["/active/web"].value == "n1"

        lab.start({"web": ["n1", "n2"]})
        waits("web up on its first node", on_first, 30)
        lab.off("n1")
        waits("the end of its lease", lambda: "/nodes/n1" not in lab.etcd.view(), 20)
        time.sleep(5)
        wanted(not lab.up.get("web"), f"nothing taken over without fencing, not {lab.up}")
        wanted(lab.etcd.view()["/active/web"].value == "n1", "web still active on n1")
        lab.boot("n1")
        waits("web up where it was", on_first, 30)


def main():
    folder, part, *words, namespaces = sys.argv[1:]
    {"kills": kills, "without-fencing": without_fencing}[part](folder, namespaces == "yes", *words)


if __name__ == "__main__":
    for number in (signal.SIGTERM, signal.SIGINT, signal.SIGHUP):
        signal.signal(number, lambda *_: sys.exit(1))
    main()
