"""A client that is written from docs/FORMAT.md, docs/CLIENTS.md and docs/protocol.schema.json alone, in fewer than 100 lines: it keeps one
service running through kills of the service and of its executor, and finds each result once.
The environment may set ROUNDS and SEED."""
import collections
import fcntl
import inspect
import json
import os
import random
import select
import signal
import subprocess
import time

import helper
from helper import PROGRAM

ROUNDS, ALIVE, KILLED_AFTER = 30, 5, 60
AGENT = """echo "$1" >> {here}/calls
case $1 in
start) : > {here}/up ;;
stop) rm -f {here}/up ;;
monitor) [ -e {here}/up ] || exit 7 ;;
esac
"""


class Client:
    """Sends commands to one executor after another, and reads all their lines."""

    def __init__(self, command_line):
        self.command_line, self.results, self.delivered = command_line, [], set()
        self.open()

    def open(self):
        def defaults():
            for number in (signal.SIGINT, signal.SIGQUIT, signal.SIGCHLD, signal.SIGPIPE):
                signal.signal(number, signal.SIG_DFL)
        self.run = subprocess.Popen(self.command_line, bufsize=0, stdin=subprocess.PIPE, stdout=subprocess.PIPE, preexec_fn=defaults,
                                    start_new_session=True)
        fcntl.fcntl(self.run.stdout, fcntl.F_SETPIPE_SZ, 1 << 20)
        self.text, self.replies, self.asked_at = b"", collections.deque(), time.monotonic()
        for name in self.ask(op="list")["resources"]:
            for result in self.ask(op="history", id=name)["results"]:
                self.deliver({**result, "id": name})

    def deliver(self, result):
        if result["outcome"] != "cancelled" and (result["call"], result["run"]) not in self.delivered:
            self.delivered.add((result["call"], result["run"]))
            self.results.append(result)

    def ask(self, **command):
        tag = {"tag": ""} if command["op"] in ("meta", "tidy", "leave") else {}
        self.run.stdin.write(json.dumps({**command, **tag}).encode() + b"\n")  # shorter than a pipe, so it does not wait
        until = time.monotonic() + KILLED_AFTER
        while not self.replies:
            if time.monotonic() > until:
                self.run.kill()  # it does not answer
            self.read(1)
        return self.replies.popleft()

    def read(self, seconds):
        """Reads what comes within this many seconds."""
        if not select.select([self.run.stdout], [], [], seconds)[0]:
            return
        part = os.read(self.run.stdout.fileno(), 1 << 16)
        if not part:
            raise EOFError(self.run.wait())
        *lines, self.text = (self.text + part).split(b"\n")
        for line in lines:
            value = json.loads(line)
            if "outcome" in value:
                self.deliver(value)
            elif "ready" not in value and not ("end" in value and "tag" not in value):
                self.replies.append(value)

    def action(self, name, action, **more):
        """Requests an action, and waits for its result."""
        reply = self.ask(op="exec", id=name, action=action, timeout=60_000, **more)
        while True:
            for result in self.results:
                if result["call"] == reply["call"]:
                    return result
            self.read(1)

    def keep(self, name, agent, until):
        """Keeps a resource running until this holds."""
        while not until():
            try:
                self.ask(op="register", id=name, provider="test", type=agent)
                if self.action(name, "monitor", expect=7)["code"] != 0:
                    if self.action(name, "stop")["code"] == 0:
                        self.action(name, "start")
                    continue
                monitor = self.ask(op="recur", id=name, interval=50, timeout=60_000)
                seen = len(self.results)
                while not until() and all(result["interval"] == 0 or result["code"] == 0 for result in self.results[seen:]):
                    self.read(1)
                    if "ok" in monitor and time.monotonic() > self.asked_at + ALIVE:
                        self.ask(op="version")
                        self.asked_at = time.monotonic()
            except (EOFError, BrokenPipeError):
                if self.run.wait() in (2, 3, 6, 8):
                    raise
                self.open()


@helper.in_memory
class Written(helper.Check):
    def test_short(self):
        """it has fewer than 100 lines"""
        self.assertLess(len(inspect.getsource(Client).splitlines()), 100)

    def test_kills(self):
        """it keeps a service running while the service and the executor are killed, and finds each result once"""
        dice = random.Random(helper.number("SEED", 20261128))
        self.agent("Dummy", AGENT.format(here=self.here))
        client = Client([PROGRAM, "serve", "--journal", self.journal(), "--root", self.here, "--orphans", "0"])
        self.addCleanup(lambda: (client.run.kill(), client.run.wait(), client.run.stdin.close(), client.run.stdout.close()))
        rounds, up = iter(range(helper.number("ROUNDS", ROUNDS))), self.place("up")

        def until():
            """Kills something each time that the service is up, and ends after the last round."""
            if not os.path.exists(up):
                return False
            if next(rounds, None) is None:
                return True
            if dice.random() < 0.7:
                os.remove(up)
            if dice.random() < 0.7:
                client.run.kill()
            return False
        client.keep("a", "Dummy", until)
        self.assertTrue(os.path.exists(up), "the service is up")
        try:
            left = client.ask(op="leave")
        except (EOFError, BrokenPipeError):  # it was killed in the last round
            client.open()
            left = client.ask(op="leave")
        self.assertEqual(left["end"], "left")
        runs = sorted(result["run"] for result in client.results if result["run"])
        self.assertEqual(runs, list(range(1, len(runs) + 1)), "each run once")
        self.assertGreater(len(runs), ROUNDS)
