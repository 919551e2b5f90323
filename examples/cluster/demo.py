"""The demonstration: see README.md. Use: demo.py PROGRAM DIRECTORY yes|no (namespaces)"""
import signal
import sys
import threading
import time

from lab import Lab, os, waits

SERVICES = {"web": ["n1", "n2", "n3"], "db": ["n2", "n3", "n1"], "mail": ["n3", "n1", "n2"]}
BOUND = 45  # seconds within which every service has to be up again


def is_up(lab):
    return all(len(lab.up.get(name, [])) == 1 for name in SERVICES)


def row(lab, second, happened):
    """A line of the timeline: the services that are up on each node."""
    cells = []
    for name, node in lab.nodes.items():
        here = " ".join(service for service in SERVICES for place, _ in lab.up.get(service, []) if place == name)
        cells.append(here or ("-" if node.process else "(off)"))
    members = sum(member.process is not None for member in lab.members)
    print(f"{second:4}  " + "".join(f"{cell:14}" for cell in cells) + f"{members}     {'; '.join(happened)}".rstrip(), flush=True)


class Timeline:
    """Prints a line each second, with what happened in it."""

    def __init__(self, lab):
        self.lab, self.began, self.happened = lab, time.monotonic(), []
        print("   s  " + "".join(f"{name:14}" for name in lab.nodes) + "etcd  what is done", flush=True)
        threading.Thread(target=self.go, daemon=True).start()

    def say(self, what):
        self.happened.append(what)

    def go(self):
        fenced, second = 0, 0
        while not self.lab.ended:
            time.sleep(max(0, self.began + second - time.monotonic()))
            happened, self.happened = self.happened, []
            happened += [f"{name} was fenced" for name in self.lab.fenced[fenced:]]
            fenced = len(self.lab.fenced)
            row(self.lab, second, happened)
            second += 1


def settles(lab, seconds=3):
    """Waits until all services are up, and watches them for a while."""
    time.sleep(1)
    waits("every service is up again", lambda: is_up(lab), BOUND)
    time.sleep(seconds)


def on(lab, service):
    return lab.up[service][0][0]


def play(lab, say):
    say("the cluster starts: three members of etcd, three nodes")
    settles(lab)
    say("the table says that web belongs on n2: it moves")
    lab.place("web", ["n2", "n1", "n3"])
    settles(lab)
    say("db's process is killed")
    os.kill(lab.up["db"][0][1], signal.SIGKILL)
    settles(lab)
    for kind in ("executor", "manager"):
        say(f"the {kind} of n2 is killed: services stay")
        for pid in lab.processes(kind, "n2"):
            os.kill(pid, signal.SIGKILL)
        settles(lab)
    say("etcd1 is killed: nothing happens")
    lab.members[0].kill()
    settles(lab, 4)
    say("etcd1 is started again")
    lab.members[0].start()
    settles(lab)
    say("n3 loses its power: its lease runs out, it is fenced, and its services are taken over")
    lab.off("n3")
    settles(lab)
    say("n3 has power again: mail goes back, as the table says")
    lab.boot("n3")
    settles(lab, 5)
    if lab.namespaces:
        say("n2 is cut off the network: it stops its services by itself, and is fenced")
        lab.link("n2", "down")
        settles(lab, 12)
        lab.boot("n2")
        say("n2 has power again")
        settles(lab, 4)
    say("the end")
    time.sleep(1)


def main():
    program, folder, namespaces = sys.argv[1:4]
    lab = Lab(folder, program, namespaces == "yes")
    for number in (signal.SIGTERM, signal.SIGINT, signal.SIGHUP):
        signal.signal(number, lambda *_: sys.exit(1))
    try:
        timeline = Timeline(lab)
        lab.start(SERVICES)
        play(lab, timeline.say)
        counts = lab.counts()
    finally:
        lab.close()
    print(f"{len(counts)} starts; the most of a service that were ever up at once: {max(counts)}")
    return max(counts) != 1 or bool(lab.twice)


if __name__ == "__main__":
    sys.exit(main())
