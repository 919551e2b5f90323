"""A long real life: the built program serves real agents over one journal while it is killed, its disk fills, its journal is tidied and the
wall clock is stepped. The client keeps a book of its own, and each agent a log of what it began. Wanted: each acknowledged action has
exactly one result; the results of a resource, in the order of their runs, are what its agent logged, where an action that was cut off may
have begun or not; no agent began while another of its resource was alive; and memory, file descriptors and zombies do not grow.
The environment may set LENGTH, in seconds, and SEED; `make soak REAL=1` takes an hour."""
import collections
import contextlib
import dataclasses
import os
import random
import shutil
import subprocess
import time
import unittest

import helper

IDS = [f"r{number:02}" for number in range(16)]
TIMEOUT = 2_000
# the outcomes of actions that never began, and of those that were cut off, which may have begun or not
NEVER, CUT = {"dropped", "cancelled"}, {"interrupted", "timed-out", "lost", "signaled"}
# one that begins is the only one of its resource, logs its action and its code, and at times lasts longer than its timeout
AGENT = r"""
here=$OCF_RESKEY_folder
if ! (set -C; echo $$ > "$here/alive") 2> /dev/null; then
    read -r other < "$here/alive"
    read -r line 2> /dev/null < "/proc/$other/stat" && line=${line##*) } && [ "${line%% *}" != Z ] && echo "beside $other" >> "$here/log"
    echo $$ > "$here/alive"
fi
count=0
[ -s "$here/count" ] && read -r count < "$here/count"
count=$((count + 1))
echo $count > "$here/count"
code=0
[ $((count % 11)) = 0 ] && code=1
[ $((count % 13)) = 0 ] && code=7
echo "$1 $code" >> "$here/log"
[ $((count % 31)) = 0 ] && sleep 4
[ $((count % 5)) = 0 ] && sleep 0.$((count % 4))
rm -f "$here/alive"
exit $code
"""


@dataclasses.dataclass
class Resource:
    """What the client knows of a resource: its results by their runs, and its acknowledged actions without a result."""
    results: dict[int, dict] = dataclasses.field(default_factory=dict)
    waiting: set[int] = dataclasses.field(default_factory=set)
    never: set[int] = dataclasses.field(default_factory=set)

    def take(self, result):
        """Takes a result, which may come twice: as a notice, and in a history."""
        if result["outcome"] in NEVER:
            self.never.add(result["call"])
        else:
            known = self.results.setdefault(result["run"], result)
            same = all(known[key] == result[key] for key in ("action", "call", "outcome", "code"))
            assert same, ("another result of a run", known, result)
        if result["interval"] == 0:
            self.waiting.discard(result["call"])

    def ends_at(self, log):
        """The places in the log of the agent at which it may be after these results."""
        places = {0}
        for _, result in sorted(self.results.items()):
            begun = {place + 1 for place in places if log[place:place + 1] and self.fits(result, log[place])}
            places = begun | places if result["outcome"] in CUT else begun
            assert places, ("no such action in the agent's log", result)
        return places

    @staticmethod
    def fits(result, line):
        action, code = line
        return action == result["action"] and (result["outcome"] in CUT or code == result["code"])


@helper.slow
class RealSoak(helper.Check):
    def setUp(self):
        super().setUp()
        self.agent("Logged", AGENT)
        self.book = {name: Resource() for name in IDS}
        self.counts = collections.Counter()
        self.sizes = []
        self.tidies = True
        self.disk = self.place("disk")
        os.mkdir(self.disk)
        for name in IDS:
            os.mkdir(self.place(name))

    def mount(self):
        if subprocess.run(["mount", "-t", "tmpfs", "-o", "size=32m,mode=700", "tmpfs", self.disk], capture_output=True).returncode:
            self.skipTest("needs root, for a small file system")
        self.addCleanup(subprocess.run, ["umount", "-l", self.disk])
        os.mkdir(f"{self.disk}/journal", 0o700)

    def set_ahead(self, seconds):
        with open(self.place("ahead.new"), "w", encoding="ascii") as file:
            file.write(str(seconds))
        os.rename(self.place("ahead.new"), self.place("ahead"))

    # an incarnation

    def opened(self):
        """An executor that is ready; its report is taken, and each history, since results may be recorded that were never sent."""
        shim = {"AHEAD": self.place("ahead"), "LD_PRELOAD": self.place("clock.so")}
        run = helper.Running("serve", "--journal", f"{self.disk}/journal", "--root", self.here, "--tidy-at", "300000", "--orphans", "3000",
                             env={**os.environ, **shim})
        run.ready()
        for result in map(helper.value_of, run.opening_lines[:-1]):
            self.book[result["id"]].take(result)
        if not self.counts["incarnations"]:
            run.send(*[helper.register(name, "Logged", folder=self.place(name)) for name in IDS],
                     *[{"op": "recur", "id": name, "interval": 1_000 + 100 * place, "timeout": TIMEOUT} for place, name in enumerate(IDS)])
        run.send(*[{"op": "history", "id": name, "tag": f"history {name}"} for name in IDS])
        run.awaits(lambda value: value.get("tag") == f"history {IDS[-1]}")
        self.counts["incarnations"] += 1
        return run

    def take(self, run):
        """Takes all lines that came, also those that were taken before."""
        for value in run.values():
            kind, _, name = value.get("tag", "").partition(" ")
            if helper.is_notice(value):
                self.book[value["id"]].take(value)
            elif kind == "history":
                for result in value["results"]:
                    self.book[name].take(result)
            elif kind == "action" and "call" in value:
                resource = self.book[name]
                known = {result["call"] for result in resource.results.values()} | resource.never
                resource.waiting |= {value["call"]} - known

    def chance_line(self):
        name, roll = random.choice(IDS), random.randrange(100)
        if roll < 96:
            what = random.choice(["start", "stop", "monitor", "promote", "demote"])
            return {**helper.action(name, what, timeout=TIMEOUT), "tag": f"action {name}"}
        return {"op": "tidy"} if self.tidies and roll < 98 else {"op": "list"}

    def works(self, run, until):
        """Sends random commands until this moment, or the end of the executor."""
        while time.monotonic() < until and run.run.poll() is None:
            with contextlib.suppress(AssertionError):  # an executor that has just ended takes no more lines
                run.send(*[self.chance_line() for _ in range(random.choice([1, 1, 1, 5]))])
            if random.random() < 0.01:
                self.set_ahead(random.choice([0, 7_200, -7_200, 86_400 * 30]))
                self.counts["clock steps"] += 1
            time.sleep(random.uniform(0, 0.25))

    def fills(self, run):
        """Fills the disk until the executor has ended by its fault. Nothing is tidied meanwhile, since that frees some of it."""
        until, self.tidies = time.monotonic() + helper.PATIENCE, False
        with open(f"{self.disk}/fill", "wb", buffering=0) as file:
            while run.run.poll() is None and time.monotonic() < until:
                with contextlib.suppress(OSError):
                    while file.write(bytes(4_096)):
                        pass
                self.works(run, time.monotonic() + 0.2)
        os.remove(f"{self.disk}/fill")
        self.tidies = True
        self.assertEqual(run.run.poll(), 5, f"the end by a full disk; {run.state()}")
        run.reader.join()
        self.take(run)

    def measured(self, run):
        """What the executor holds: its memory in KiB, its file descriptors, and its children that have ended."""
        pid = run.run.pid
        ended = subprocess.run(["ps", "--ppid", str(pid), "-o", "stat="], capture_output=True, text=True).stdout.split()
        self.sizes.append((helper.kib(pid, "VmRSS"), len(os.listdir(f"/proc/{pid}/fd")), sum(word.startswith("Z") for word in ended)))

    def incarnation(self, end, seconds):
        run = self.opened()
        self.works(run, time.monotonic() + seconds)
        with contextlib.suppress(OSError):
            self.measured(run)
        self.counts[end] += 1
        if end == "full disk":
            self.fills(run)
        elif end == "close":
            self.assertEqual(run.ends(), 0)
        run.killed()
        self.take(run)

    # the book, at the end

    def log_of(self, name):
        path = self.place(f"{name}/log")
        if not os.path.exists(path):
            return []
        with open(path, encoding="ascii") as file:
            lines = [line.split() for line in file]
        beside = [line for line in lines if line[0] == "beside"]
        self.assertEqual(beside, [], f"agents of {name} that ran beside another")
        return [(action, int(code)) for action, code in lines]

    def agrees(self):
        """Nothing runs any more, so each acknowledged action has its result, and each agent logged what its results say."""
        for name, resource in self.book.items():
            self.assertEqual(resource.waiting, set(), f"acknowledged actions of {name} without a result")
            log = self.log_of(name)
            self.assertIn(len(log), resource.ends_at(log), f"{name}: an agent that ran without a result")
            calls = collections.Counter(result["call"] for result in resource.results.values() if result["interval"] == 0)
            self.assertEqual([call for call, count in calls.items() if count > 1 or call in resource.never], [], f"{name}: two results")

    def rests(self):
        """Ends the monitors, and waits until each action has its result."""
        run = self.opened()
        run.send(*[{"op": "cancel", "id": name, "interval": 1_000 + 100 * place} for place, name in enumerate(IDS)])

        def is_idle():
            self.take(run)
            return not any(resource.waiting for resource in self.book.values())
        self.eventually("a result of each acknowledged action", is_idle)
        time.sleep(2 * TIMEOUT / 1_000)
        self.assertEqual(run.ends(), 0)
        run.killed()
        self.take(run)

    def holds_its_size(self):
        quarter = max(1, len(self.sizes) // 4)
        first, last = self.sizes[:quarter], self.sizes[-quarter:]
        for place, (what, more) in enumerate([("KiB of memory", 4_096), ("file descriptors", 24), ("ended children", 8)]):
            before, after = (max(size[place] for size in sizes) for sizes in (first, last))
            self.assertLessEqual(after, before + more, what)

    @unittest.skipUnless(shutil.which("cc"), "install a C compiler (apt-get install gcc)")
    def test_real_life(self):
        """a real life with kills, full disks, tidies and clock steps agrees with the client's book"""
        random.seed(helper.number("SEED", 20261129))
        seconds = helper.number("LENGTH", 40)
        self.mount()
        os.rename(helper.shim("clock.c", self.here), self.place("clock.so"))
        self.set_ahead(0)
        began = time.monotonic()
        while time.monotonic() < began + seconds:
            end = random.choice(["kill", "kill", "full disk", "close"])
            self.incarnation(end, random.uniform(0.1, min(60, seconds / 5)))
        self.rests()
        self.agrees()
        self.holds_its_size()
        for resource in self.book.values():
            self.counts["dropped"] += len(resource.never)
            self.counts.update(result["outcome"] for result in resource.results.values())
        counts = ", ".join(f"{count} {word}" for word, count in sorted(self.counts.items()))
        memory = [size[0] for size in self.sizes]
        print(f"real_soak: {time.monotonic() - began:.0f} s: {counts}; memory {min(memory)} to {max(memory)} KiB, "
              f"{max(size[1] for size in self.sizes)} file descriptors at most")
