"""Feeds random lines, none of them an accepted command, to `PROGRAM run --memory`, and with tags to serve. As many lines must come out as
lines with at least one byte went in, and the resident memory of the program must stay below 8 MiB and not grow in the second half of the
lines: so a leak of a few bytes per line is found.
The environment may set LINES and SEED."""
import json
import random
import subprocess
import time

import helper
from helper import PROGRAM

MOST, GROWS = 8192, 128  # KiB
OPERATIONS = ["unregister", "forget", "info", "history", "params", "exec", "recur", "cancel", "withdraw", "list", "drain", "meta", "tidy",
              "status", "version"]
WORDS = ["r1", "", ".", "..", "a b", "n" * 65, "start", "monitor", "p\u00e9", "\0", 7, -1, 1.5, 1e400, None, True, [], {}, "10000"]
# the keys of replies to a question
ANSWERS = [b'"resources":', b'"status":', b'"version":']
KEYS = ["id", "provider", "type", "params", "action", "timeout", "level", "interval", "call", "limit", "tag"]


def question():
    # of resources that do not exist
    operation = random.choice(["list", "info", "history", "unregister", "forget"])
    return json.dumps({"op": operation, "id": f"r{random.randrange(1000)}", "tag": f"{random.randrange(1 << 60)}"}).encode()


def refused():
    # any keys; no `register`, so that there never is a resource
    line = {key: random.choice(WORDS) for key in random.sample(KEYS, random.randrange(6))}
    line["op"] = random.choice(OPERATIONS)
    return json.dumps(line).encode()


def unlawful():
    # a registration under an invalid id
    return json.dumps({"op": "register", "id": random.choice(["", ".", "a b", "n" * 65]), "provider": "p", "type": "t"}).encode()


def broken():
    # a line cut short, or with a byte changed into a quote
    line = bytearray(refused())
    if random.random() < 0.5:
        return bytes(line[: random.randrange(len(line))])
    line[random.randrange(len(line))] = 34
    return bytes(line)


def noise():
    # any bytes but a newline
    return random.randbytes(random.randrange(60)).replace(b"\n", b" ")


def long():
    # near the greatest length, and longer
    return b'{"op":"list"}'.ljust(random.choice([131071, 131072, 131073, 200000]))


class Replies:
    """The lines of a file that grows, counted as they come."""

    def __init__(self, path):
        self.file, self.count, self.accepted, self.rest = open(path, "rb"), 0, 0, b""

    def read(self):
        while part := self.file.read(1 << 20):
            *whole, self.rest = (self.rest + part).split(b"\n")
            self.count += len(whole)
            self.accepted += sum(b'"ok":true' in line and not any(word in line for word in ANSWERS) for line in whole)

    def awaits(self, count):
        until = time.monotonic() + helper.PATIENCE
        while self.count < count and time.monotonic() < until:
            time.sleep(0.05)
            self.read()


@helper.slow
class RandomLines(helper.Check):
    def write(self, path, numbers):
        # writes the lines of these numbers into a file; returns how many of them have a byte
        filled = 0
        with open(path, "wb") as out:
            for number in numbers:
                line = long() if number % 4001 == 7 else random.choice([question, refused, unlawful, broken, noise])()
                filled += line != b""
                out.write(line + b"\n")
        return filled

    def feed(self, run, path):
        with open(path, "rb") as text:
            while part := text.read(1 << 16):
                run.stdin.write(part)
        run.stdin.flush()

    def lines(self, word, more):
        """Has the program of this subcommand answer random lines in bounded memory, each with a reply, and with this many lines more."""
        random.seed(helper.number("SEED", 20261122))
        count, filled = helper.number("LINES", 200_000), []
        halves = [range(count // 2), range(count // 2, count)]
        with open(self.place("replies"), "wb") as out:
            run = subprocess.Popen([PROGRAM, word, "--memory"], stdin=subprocess.PIPE, stdout=out)
        self.addCleanup(run.kill)
        replies, resident = Replies(self.place("replies")), []
        for half in halves:
            filled.append(self.write(self.place("lines"), half))
            self.feed(run, self.place("lines"))
            replies.awaits(sum(filled) + more)
            resident.append(helper.kib(run.pid, "VmRSS"))
        greatest = helper.kib(run.pid, "VmHWM")
        run.stdin.close()
        self.assertEqual(run.wait(helper.PATIENCE), 0)
        replies.read()
        replies.file.close()
        print(f"random_lines: {word}: {count} lines, {sum(filled)} with bytes: {replies.count} replies, {replies.accepted} accepted; "
              f"resident memory: {resident[0]} KiB after half of them, {resident[1]} KiB at the end, at most {greatest} KiB", flush=True)
        self.assertEqual((replies.count, replies.rest), (sum(filled) + more, b""), "as many replies as lines")
        self.assertEqual(replies.accepted, 0, "no line accepted")
        self.assertLess(greatest, MOST)
        self.assertLessEqual(resident[1] - resident[0], GROWS, "KiB that the second half leaves")

    def test_run(self):
        """random lines, in bounded memory"""
        self.lines("run", 0)

    def test_serve(self):
        """random lines with tags, in bounded memory, by serve, which sends one ready line"""
        self.lines("serve", 1)
