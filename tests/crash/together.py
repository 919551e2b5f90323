"""Commands that arrive together: written at once, from a file, and cut at random places, they are answered like one by one, by `run` and by
`serve`, in memory and with a journal, and leave the same state. After kills at random moments, and in each device call of a batch, the next
opening finds everything that was answered, and a prefix of the commands.
The environment may set COUNT, ROUNDS and SEED."""
import fcntl
import json
import os
import random
import re
import shutil
import struct
import subprocess
import tempfile
import time

import helper
from helper import PROGRAM, action

# whether commands that are completely in the input are recorded as one batch
EXPECT_ROWS = True
# how many commands a batch has at most; how often it is synced, by its body and by its gate; and how many more batches may be made
ROW, SYNCS_OF_A_ROW, MORE_ROWS = 64, 2, 1
# monitors that are due once in a check
INTERVALS = [3_600_000 + place for place in range(10)]
QUESTIONS = ["info", "history", "list"]
NAMES = [f"r{place}" for place in range(200)]


def line_of(command):
    return json.dumps(command).encode()


class Script:
    """Random lines, each of which may follow from the replies to those before it: accepted and refused commands, questions, invalid
    lines, empty lines, drains and tidies."""

    def __init__(self, dice, count):
        self.dice, self.count, self.names, self.calls = dice, count, [f"r{place}" for place in range(12)], []

    def lines(self):
        for place in range(self.count):
            yield self.broken() if self.dice.random() < 0.1 else line_of(self.command(place))
        yield line_of({"op": "drain"})

    def take(self, line, reply):
        """Keeps the assigned calls."""
        if "call" in reply:
            self.calls = [*self.calls, (json.loads(line)["id"], reply["call"])][-8:]

    def broken(self):
        text = bytearray(line_of(self.question()))
        roll = self.dice.randrange(4)
        if roll == 0:
            return b""
        if roll == 1:
            return self.dice.randbytes(self.dice.randrange(40)).replace(b"\n", b" ")
        if roll == 2:
            return bytes(text[:self.dice.randrange(len(text))])
        text[self.dice.randrange(len(text))] = 34
        return bytes(text)

    def question(self):
        return {"op": self.dice.choice(QUESTIONS), "id": self.dice.choice(self.names)}

    def registration(self, name):
        return helper.register(name, "None", a=str(self.dice.randrange(100)))

    def values(self, name):
        # small ones, some that fill half of a batch, and some that are too large
        size = self.dice.choice([0, 0, 0, 0, 1, 14, 17])
        params = {chr(97 + place): "x" * 1024 for place in range(size)} or {"a": str(self.dice.randrange(100))}
        return {"op": "params", "id": name, "params": params}

    def withdrawal(self):
        name, call = self.dice.choice(self.calls or [("r0", 1)])
        return {"op": "withdraw", "id": name, "call": call}

    def monitor(self, name):
        return {"op": self.dice.choice(["recur", "recur", "cancel"]), "id": name, "interval": self.dice.choice(INTERVALS)}

    def other(self, name):
        return self.dice.choice([{"op": "drain"}, {"op": "tidy"}, {"op": "meta", "provider": "test", "type": "None"}, {"op": "more"},
                                 helper.register("a b", "None"), {"op": "exec", "id": name, "action": "jump"}])

    def command(self, place):
        name, roll = self.dice.choice(self.names), self.dice.randrange(100)
        if roll < 15 or place < 10:
            return self.registration(name)
        if roll < 30:
            return self.values(name)
        if roll < 55:
            return action(name, self.dice.choice(["start", "stop", "monitor", "promote"]))
        if roll < 65:
            return self.monitor(name)
        if roll < 75:
            return self.withdrawal()
        if roll < 83:
            return {"op": self.dice.choice(["forget", "unregister"]), "id": name}
        return self.question() if roll < 95 else self.other(name)


class Served(Script):
    """Lines whose replies no turn changes: actions and monitors have resources of their own, which are registered first. Two of three
    have a tag."""

    def __init__(self, dice, count):
        super().__init__(dice, count)
        self.busy = [f"b{place}" for place in range(count // 32 + 1)]
        self.asked = iter(self.busy * 31)

    def lines(self):
        for place, line in enumerate(super().lines()):
            yield line[:-1] + b',"tag":"%d"}' % place if place % 3 and line.endswith(b"}") else line

    def command(self, place):
        roll = self.dice.randrange(100)
        if place < len(self.busy):
            return self.registration(self.busy[place])
        if roll < 25:
            return action(next(self.asked), self.dice.choice(["start", "stop"]))
        if roll < 35:
            return self.monitor(self.dice.choice(self.busy))
        if roll < 40:
            return {"op": "withdraw", "id": self.dice.choice(self.busy), "call": 1 << 40}
        if roll < 45:
            return {"op": "forget", "id": self.dice.choice(self.busy)}
        return self.quiet(self.dice.choice(self.names))

    def quiet(self, name):
        roll = self.dice.randrange(10)
        if roll < 3:
            return self.registration(name)
        if roll < 6:
            return self.values(name)
        if roll < 7:
            return {"op": "unregister", "id": name}
        return self.question() if roll < 9 else self.other("none")


# The ways in which lines come.

def one_by_one(words, lines, take=lambda line, reply: None):
    """The output if each line waits for the reply to the one before it; lines without a byte have none. And the lines."""
    out, asked = [], []
    with subprocess.Popen([PROGRAM, *words], stdin=subprocess.PIPE, stdout=subprocess.PIPE) as run:
        if words[0] == "serve":
            helper.opening(run.stdout)
        for line in lines:
            asked.append(line)
            run.stdin.write(line + b"\n")
            run.stdin.flush()
            while line:
                out.append(run.stdout.readline())
                reply = json.loads(out[-1])
                if not helper.is_notice(reply):
                    take(line, reply)
                    break
        run.stdin.close()
        out.append(run.stdout.read())
    assert run.returncode == 0, run.returncode
    return b"".join(out), asked


def filled(text):
    """The end of a pipe that holds this text before anything reads it."""
    out, into = os.pipe()
    fcntl.fcntl(into, fcntl.F_SETPIPE_SZ, 1 << 20)
    assert os.write(into, text) == len(text), "more than a pipe holds"
    os.close(into)
    return out


def ended(words, stdin):
    """The output up to the end of this input."""
    with os.fdopen(stdin, "rb") as asked:
        done = subprocess.run([PROGRAM, *words], stdin=asked, capture_output=True, timeout=120)
    assert (done.returncode, done.stderr) == (0, b""), done
    return done.stdout


def at_once(words, text):
    return ended(words, filled(text))


def from_a_file(words, text):
    with tempfile.NamedTemporaryFile() as file:
        file.write(text)
        file.flush()
        return ended(words, os.open(file.name, os.O_RDONLY))


def pieces(dice, text):
    """A text cut at random places, some of which are near the end of a line."""
    ends = [place for place, byte in enumerate(text) if byte == 10]
    cuts = [dice.randrange(len(text)) for _ in ends[::3]] + [place + dice.randrange(-1, 3) for place in dice.sample(ends, len(ends) // 3)]
    cuts = sorted({0, len(text), *[cut for cut in cuts if 0 < cut < len(text)]})
    return [text[begin:end] for begin, end in zip(cuts, cuts[1:])]


def cut(dice):
    """A way in which lines come in pieces, some of them after a pause."""
    def way(words, text):
        with tempfile.TemporaryFile() as out:
            run = subprocess.Popen([PROGRAM, *words], stdin=subprocess.PIPE, stdout=out)
            for piece in pieces(dice, text):
                time.sleep(dice.choice([0, 0, 0, 0.0005, 0.002]))
                run.stdin.write(piece)
                run.stdin.flush()
            run.stdin.close()
            assert run.wait(60) == 0
            out.seek(0)
            return out.read()

    return way


# The comparison.

def timeless(text):
    """A text without the moments in it."""
    return re.sub(rb'"(at|since)":[0-9]+', rb'"\1":0', text)


def replies_alone(text):
    """The lines other than notices and the ready line of serve, and then the notices of one-time actions in one order, without their
    runs: when a notice comes, and whether a monitor begins before its cancel, is a matter of time."""
    found = [line for line in timeless(text).split(b"\n") if b'"ready":true' not in line]
    notices = [line for line in found if line.startswith(b'{"action"')]
    once = [re.sub(rb',"run":[0-9]+', b"", line) for line in notices if b'"interval":0,' in line]
    return [line for line in found if line not in set(notices)], sorted(once)


def settled(text):
    """The output of `show` that no turn changes."""
    values = helper.replies(text)
    return values[0], [{key: value.get(key) for key in ("id", "params", "recurring", "queued", "type")} for value in values[1::2]]


def plain(commands):
    """Only these commands."""
    return commands


def asking(commands):
    """These commands, with a question after each fifth."""
    return [each for place, command in enumerate(commands) for each in [command, *[{"op": "list"}] * (place % 5 == 4)]]


@helper.in_memory
class Together(helper.Check):
    def setUp(self):
        super().setUp()
        self.seed = helper.number("SEED", 20261125)

    # The same replies, however the lines come.

    def ways(self):
        yield "one by one", lambda words, text: one_by_one(words, text.split(b"\n")[:-1])[0]
        yield "at once", at_once
        yield "from a file", from_a_file
        for number in range(3):
            yield f"cut, {number}", cut(random.Random(self.seed + number))

    def in_all_ways(self, word, script, seen, left):
        """The replies to a script, and the content of its journal, are the same in whichever way its lines come."""
        wanted, lines = one_by_one([word, "--memory", "--root", self.here], script.lines(), script.take)
        text, state = b"".join(line + b"\n" for line in lines), None
        self.note("lines", text)
        self.assertLess(len(text), 1 << 20)
        for name, way in self.ways():
            with self.subTest(way=name):
                self.assertEqual(seen(way([word, "--memory", "--root", self.here], text)), seen(wanted), "in memory")
                folder = self.journal(name)
                self.assertEqual(seen(way([word, "--journal", folder, "--root", self.here], text)), seen(wanted), "with a journal")
                state = state or left(helper.shown(folder))
                self.assertEqual(left(helper.shown(folder)), state, "what is left")
        values = [helper.value_of(line) for line in wanted.split(b"\n")[:-1]]
        tags = sum("tag" in value for value in values)
        self.assertEqual(tags > len(lines) // 2, word == "serve", "tags are repeated by serve alone")
        accepted, refused = sum(value.get("ok", False) for value in values), sum("error" in value for value in values)
        kinds = {value["error"] for value in values if "error" in value}
        print(f"together: {word}: {len(lines)} lines, {len(text)} bytes: {accepted} accepted or answered, {refused} refused by "
              f"{len(kinds)} kinds, {len(values) - accepted - refused} notices and ends", flush=True)
        self.assertLess(len(lines) // 4, accepted)
        self.assertLess(len(lines) // 10, refused)

    def test_run(self):
        """run answers commands that come together like commands one by one"""
        self.in_all_ways("run", Script(random.Random(self.seed), helper.number("COUNT", 800)), timeless, timeless)

    def test_serve(self):
        """serve answers commands that come together like commands one by one"""
        self.in_all_ways("serve", Served(random.Random(self.seed), helper.number("COUNT", 800)), replies_alone, settled)

    def test_limits(self):
        """too many resources, queued actions and monitors in a batch"""
        lines = [line_of(helper.register(f"r{place}", "None")) for place in range(260)]
        lines += [line_of(action("r1", "start")) for _ in range(40)]
        lines += [line_of({"op": "withdraw", "id": "r1", "call": 7}) for _ in range(2)]
        lines += [line_of({"op": "recur", "id": "r1", "interval": interval}) for interval in INTERVALS]
        lines += [line_of({"op": "info", "id": "r1"}), b" " * 131_073, line_of({"op": "list"})]
        wanted = [b'{"ok":true}'] * 256 + [b'{"error":"too-many-resources","number":11}'] * 4
        wanted += [b'{"call":%d,"key":"r1_start_0","ok":true}' % call for call in range(1, 33)] + [b'{"error":"queue-full","number":8}'] * 8
        wanted += [b'{"ok":true}', b'{"error":"not-queued","number":18}']
        wanted += [b'{"call":%d,"key":"r1_monitor_%d","ok":true}' % (33 + place, INTERVALS[place]) for place in range(8)]
        wanted += [b'{"error":"recurring-full","number":9}'] * 2
        for words in (["--memory"], ["--journal", self.journal()]):
            found = at_once(["run", *words], b"".join(line + b"\n" for line in lines)).split(b"\n")
            self.assertEqual(found[:len(wanted)], wanted, words)
            self.assertEqual([reply[:12] for reply in found[len(wanted):]], [b'{"failed":nu', b'{"error":"sy', b'{"ok":true,"', b""], words)

    def test_full(self):
        """a journal that becomes full within a batch"""
        folder, changes = self.journal(), 560
        lines = [line_of(helper.register("r1", "None"))]
        for number in range(changes):
            params = {"a": str(number), **{chr(98 + place): "x" * 1024 for place in range(15)}}
            lines += [line_of({"op": "params", "id": "r1", "params": params})] + [line_of({"op": "list"})] * (number % 3)
        out = from_a_file(["run", "--tidy-at", "0", "--journal", folder], b"".join(line + b"\n" for line in lines))
        replies = [value for value in helper.replies(out) if "resources" not in value][1:]
        count = replies.index({"error": "journal-full", "number": 14})
        self.assertEqual(replies, [{"ok": True}] * count + [{"error": "journal-full", "number": 14}] * (changes - count))
        again = at_once(["run", "--journal", folder], helper.lines({"op": "info", "id": "r1"}))
        self.assertEqual(helper.replies(again)[0]["params"]["a"], str(count - 1), "the last one that was accepted")

    # Killed during a batch.

    def batch(self, count):
        """All of these are accepted: registrations, then parameters, then actions."""
        names = NAMES[:count]
        return [*[helper.register(name, "None") for name in names], *[{"op": "params", "id": name, "params": {"a": "1"}} for name in names],
                *[action(name, "start") for name in names]]

    def front(self, folder, count):
        """How many of a batch's commands are found: of each kind those of the first names, and of a kind only after all earlier kinds."""
        values = helper.replies(helper.shown(folder))
        names, infos, histories = values[0]["resources"], values[1::2], values[2::2]
        changed = [info["id"] for info in infos if info["params"]]
        calls = {}
        for info, history in zip(infos, histories):
            ran = [(info["running"] or {}).get("call"), *info["queued"], *[result["call"] for result in history["results"]]]
            calls.update({call: info["id"] for call in ran if call})
        self.assertEqual(names, NAMES[:len(names)], "registrations")
        self.assertEqual(changed, NAMES[:len(changed)], "parameters")
        self.assertEqual(calls, {place + 1: NAMES[place] for place in range(len(calls))}, "actions")
        self.assertTrue((not changed or len(names) == count) and (not calls or len(changed) == count), "a front part")
        return len(names) + len(changed) + len(calls)

    def is_found(self, folder, count, out):
        """Everything answered is found, and a prefix of the batch, at an opening, too: returns how many of its commands were answered,
        and how many are found."""
        replies = [value for value in helper.replies(out) if not helper.is_notice(value)]
        self.assertEqual([value for value in replies if "error" in value], [])
        replied, found = sum("resources" not in value for value in replies), self.front(folder, count)
        self.assertLessEqual(replied, found, "what was replied is found")
        done = helper.run("run", "--journal", folder, sent=helper.lines({"op": "list"}))
        self.assertEqual((done.returncode, done.stderr), (0, b""), "an opening")
        self.assertLessEqual({value["outcome"] for value in helper.replies(done.stdout)[:-1]}, {"dropped", "interrupted"})
        self.assertEqual(self.front(folder, count), found, "after an opening")
        return replied, found

    def test_kills(self):
        """killed during batches: everything answered is found, and of the rest a prefix"""
        dice, count, seen = random.Random(self.seed), len(NAMES), []
        for number in range(helper.number("ROUNDS", 16)):
            folder = self.journal(f"journal{number}")
            text = helper.lines(*dice.choice([plain, asking])(self.batch(count)))
            self.note(f"journal{number}.asked", text)
            with os.fdopen(filled(text), "rb") as asked:
                run = subprocess.Popen([PROGRAM, dice.choice(["run", "serve"]), "--journal", folder], stdin=asked, stdout=subprocess.PIPE)
            out = b"".join(run.stdout.readline() for _ in range(dice.randrange(len(text) // 50)))
            time.sleep(dice.choice([0, dice.uniform(0, 0.003)]))
            run.kill()
            out += run.stdout.read()
            run.stdout.close(), run.wait()
            with self.subTest(number=number):
                seen.append(self.is_found(folder, count, out))
        print(f"together: {len(seen)} kills; replied and found of {3 * count}: "
              + ", ".join(f"{replied} {found}" for replied, found in sorted(seen)), flush=True)

    # With a count of device calls.

    def counted(self, words, stdin, stop=0):
        """A run whose syncs and writes are counted, and which is killed in one of them: its output, its status, and both counts."""
        with open(self.place("calls"), "wb") as file:
            file.write(bytes(16))
        counts = {"LD_PRELOAD": self.shim, "CALLS": self.place("calls"), "STOP": str(stop)}
        with os.fdopen(stdin, "rb") as asked:
            done = subprocess.run([PROGRAM, *words], stdin=asked, capture_output=True, timeout=60, env=counts)
        with open(self.place("calls"), "rb") as file:
            return done.stdout, done.returncode, *struct.unpack("ll", file.read())

    def needs_compiler(self):
        if not shutil.which("cc"):
            self.skipTest("install a C compiler (apt-get install gcc)")
        self.shim = helper.shim("syncs.c", self.here)

    def syncs(self, words, *commands):
        """How many syncs these commands take if they are written at once."""
        words, made = [*words, "--journal", self.journal()], []
        self.assertEqual(helper.run(*words).returncode, 0)
        for sent in ([], commands):
            out, status, syncs, _ = self.counted(words, filled(helper.lines(*sent)))
            self.assertEqual((status, out.count(b'"ok":true')), (0, len(sent)))
            made.append(syncs)
        shutil.rmtree(words[-1])
        return made[1] - made[0]

    def test_syncs(self):
        """how many syncs a batch of registrations takes"""
        self.needs_compiler()
        for word in ("run", "serve"):
            made = {count: self.syncs([word], *self.batch(count)[:count]) for count in (1, ROW, 3 * ROW)}
            print(f"together: {word}: by the number of registrations at once: "
                  + ", ".join(f"{syncs} syncs for {count}" for count, syncs in made.items()), flush=True)
            for count, syncs in made.items():
                most = SYNCS_OF_A_ROW * (-(-count // ROW) + MORE_ROWS if EXPECT_ROWS else count)
                self.assertLessEqual(syncs, most, f"{count} registrations")

    def stopped_in_each(self, count, text):
        """How many commands were answered and found, for each device call of a batch in which the program was killed."""
        seen, stop = [], 1
        while True:
            folder = self.journal(f"journal{stop}")
            out, status, *_ = self.counted(["run", "--journal", folder], filled(text), stop)
            if status == 0:
                shutil.rmtree(folder)
                return seen
            with self.subTest(stop=stop):
                self.assertEqual(status, -9)
                seen.append(self.is_found(folder, count, out))
            shutil.rmtree(folder)
            stop += 1

    def test_each_stop(self):
        """killed in each device call of a batch"""
        self.needs_compiler()
        for count, among in ((24, plain), (8, asking)):
            seen = self.stopped_in_each(count, helper.lines(*among(self.batch(count))))
            more = [found - replied for replied, found in seen]
            print(f"together: {3 * count} commands, {among.__name__}: killed in each of {len(seen)} device calls: "
                  f"in {sum(map(bool, more))} of them more is found than was replied, by {max(more)} commands at most", flush=True)
