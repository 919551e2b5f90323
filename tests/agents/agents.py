"""How actions of real agents end, which are small scripts: each exit code, a signal and a timeout; two agents that wait for each other; one
that ignores signals; and 256 agents at once, in at most 40 MB and with nothing left of them."""
import collections
import os
import time

import helper

# Notes that it began, and ends as its file says.
CODE = """echo x >> "$OCF_RESKEY_log"
read c < "$OCF_RESKEY_code"
case $c in kill) kill -9 $$;; loop) while :; do :; done;; esac
exit $c
"""
# Ends only while or after another one runs.
MEETS = """: > "$OCF_RESKEY_mine"
until [ -e "$OCF_RESKEY_other" ]; do sleep 0.02; done
"""
# (longer than the end of what it starts is awaited, so that nothing of it ends by itself)
STUBBORN = """trap "" TERM INT HUP
sleep 300 & echo $! > "$OCF_RESKEY_left"
while :; do :; done
"""
SLEEPS = "exec sleep 300\n"
# The ends of the agent Code, by what its file says: each code once, in no order, and the other two.
ENDS = {**{str(code): ("done", code) for code in ((37 * number + 11) % 256 for number in range(256))},
        "kill": ("signaled", 1), "loop": ("timed-out", 1)}
# The timeouts in milliseconds: of an agent that has to pass it, of one that must not, and of each of a crowd, which is spawned in half a
# second on a busy machine; how many agents that crowd has, and in how many KiB of the executor's memory.
SHORT, LONG, LASTS, CROWD, KIB = 1000, 60_000, 10_000, 256, 40_000
DRAIN = {"op": "drain"}


def children(pid):
    """How many processes a process has started and not yet waited for."""
    with open(f"/proc/{pid}/task/{pid}/children", encoding="ascii") as file:
        return len(file.read().split())


def start(name, timeout):
    return helper.action(name, "start", timeout=timeout)


def ends(values):
    """The ends of actions among these replies."""
    return [(value["action"], value["outcome"], value["code"]) for value in values if helper.is_notice(value)]


class Agents(helper.Check):
    def words(self):
        return ["run", "--memory", "--root", self.here, "--via", "sh"]

    def played(self, *commands):
        """The ends of the actions of a run of these commands, which ends well."""
        done = helper.run(*self.words(), sent=helper.lines(*commands))
        self.assertEqual(done.returncode, 0, done.stderr)
        return ends(helper.replies(done.stdout))

    def test_codes(self):
        """each exit code, a signal and a timeout are the end of an action, and each agent is started once"""
        self.agent("Code", CODE)
        log, commands = self.place("log"), [helper.register("r1", "Code", log=self.place("log"), code="none")]
        for says in ENDS:
            path = self.place(f"says-{says}")
            with open(path, "w", encoding="ascii") as file:
                file.write(says + "\n")
            commands += [{"op": "params", "id": "r1", "params": {"log": log, "code": path}},
                         start("r1", SHORT if says == "loop" else LONG), DRAIN]
        self.assertEqual(self.played(*commands), [("start", *end) for end in ENDS.values()])
        with open(log, encoding="ascii") as file:
            self.assertEqual(file.read(), len(ENDS) * "x\n", "the starts")
        self.assertEqual(len(ENDS), 258)

    def test_two(self):
        """two agents that wait for each other run at once"""
        for kind in ("Left", "Right"):
            self.agent(kind, MEETS)
        a, b = self.place("a"), self.place("b")
        self.assertEqual(self.played(helper.register("r1", "Left", mine=a, other=b), helper.register("r2", "Right", mine=b, other=a),
                                     start("r1", LONG), start("r2", LONG), DRAIN), [("start", "done", 0)] * 2)

    def test_stubborn(self):
        """an agent that ignores signals is killed at its timeout, with what it started"""
        self.agent("Stubborn", STUBBORN)
        left = self.place("left")
        self.assertEqual(self.played(helper.register("r1", "Stubborn", left=left), start("r1", SHORT), DRAIN), [("start", "timed-out", 1)])
        [pid] = self.numbers_in(left)
        # (a killed process is a zombie until init waits for it)
        self.eventually("the end of what a killed agent has started", lambda: not helper.is_alive(pid))

    def most_at_once(self, run):
        """The greatest number of processes that the executor had, until it says that nothing runs any more."""
        most, until = 0, time.monotonic() + LASTS / 1000 + helper.PATIENCE
        while not any('"end"' in line for _, line in run.lines) and time.monotonic() < until:
            most = max(most, children(run.run.pid))
            time.sleep(0.1)
        return most

    def idle(self, run, count):
        """Waits for this many lines that say that nothing runs."""
        self.eventually(f"{count} replies to drain", lambda: sum('"end"' in line for _, line in run.lines) >= count)

    def test_crowd(self):
        """256 agents run at once and are killed at their timeout, in at most 40 MB, and neither processes nor descriptors are left"""
        self.agent("Sleeps", SLEEPS)
        run, names = self.started(*self.words()), [f"r{number + 1}" for number in range(CROWD)]
        run.send({"op": "list"})
        run.awaits(lambda value: "resources" in value)
        # (one process sends signals)
        pid, opened, first = run.run.pid, len(os.listdir(f"/proc/{run.run.pid}/fd")), children(run.run.pid)
        run.send(*[helper.register(name, "Sleeps") for name in names], *[start(name, LASTS) for name in names], DRAIN)
        most = self.most_at_once(run)
        self.idle(run, 1)
        # one more that lasts, so that the killed ones are waited for
        run.send(start("r1", SHORT), DRAIN, DRAIN, DRAIN)
        self.idle(run, 4)
        run.send(DRAIN)
        self.idle(run, 5)
        resident = helper.kib(pid, "VmHWM")
        print(f"agents: {most - first} at once, {resident} KiB resident")
        self.assertEqual(most - first, CROWD, "agents at once")
        self.assertLessEqual(resident, KIB, "KiB resident")
        self.eventually("no process but the first ones is left", lambda: children(pid) == first)
        self.assertEqual(len(os.listdir(f"/proc/{pid}/fd")), opened, "descriptors left")
        self.assertEqual(run.ends(), 0)
        self.assertEqual(collections.Counter(ends(run.values())), {("start", "timed-out", 1): CROWD + 1})
