"""Metadata. In serve, turns go on and the reply comes before those of later lines. A limit ends an agent with everything that it started,
and so do a client that goes away and a journal that is removed. In run, the program waits for its agent, without a limit if the line has
none. Run prints the bytes of metadata after a line with their length, and serve one line with their text; both report a question without an
answer in the same way."""
import json
import shutil
import subprocess
import time

import helper
import schema
from helper import PROGRAM, action

# An agent that prints its metadata after n seconds, n being in the file `takes`; the file `pids` has its number and its child's.
SLOW = """here={here}
sleep "$(cat "$here/takes")" & echo $$ $! > "$here/pids.new"
mv "$here/pids.new" "$here/pids"
wait
printf '{{"of":"%s"}}' "$(basename "$0")"
"""
LIST = {"op": "list"}
SLOW_TEXT = {"metadata": '{"of":"Slow"}', "ok": True}
# how serve refuses a limit
REFUSED = '{"error":"%s","key":"limit","kind":"reply","message":"limit must be a number from 0 to 86400000","number":%d}'


def meta(kind, **more):
    return {"op": "meta", "provider": "test", "type": kind, **more}


schema.metadata.add("of")


class Metadata(helper.Check):
    def setUp(self):
        super().setUp()
        for kind in ("Slow", "Other"):
            self.agent(kind, SLOW.format(here=self.here))
        self.agent("Works", '[ "$1" = start ] && exec sleep 30\nexit 0\n')
        self.takes(3)

    def takes(self, seconds):
        with open(self.place("takes"), "w", encoding="ascii") as file:
            file.write(str(seconds))

    def started_with(self, *words):
        return self.started(*words, "--root", self.here)

    def monitored(self, word="serve", interval=100):
        # a run in which a monitor is due each n milliseconds, and another resource is registered
        run = self.started_with(word, "--memory")
        run.send(helper.register("m", "Works"), helper.register("s", "Works"), {"op": "recur", "id": "m", "interval": interval})
        run.awaits(lambda value: "key" in value)
        return run

    def pids(self):
        # the numbers of the agent that runs and of its child
        return self.numbers_in(self.place("pids"))

    def gone(self, pids):
        self.eventually(f"the end of the processes {pids}", lambda: not any(map(helper.is_alive, pids)))

    def monitors(self, run, began, ended):
        # how many notices of a monitor came between two moments
        with run.came:
            return sum(began < at < ended and '"monitor"' in line for at, line in run.lines)

    def after(self, run, began, least, most, holds, seconds=helper.PATIENCE):
        # the moment of a line that comes this many seconds after another moment
        at, value = run.awaits(holds, seconds)
        self.assertGreaterEqual(at - began, least, f"seconds to {value}")
        self.took_less(most, at - began, f"waiting for {value}")
        return at

    def replies(self, run):
        # all lines that came except notices and replies to commands
        return [value for value in run.values() if value.keys() & {"metadata", "resources"}]

    def test_turns(self):
        """while an agent takes three seconds for its metadata monitors go on and a start times out; then both lines are answered"""
        run = self.monitored(interval=500)
        began = time.monotonic()
        run.send(action("s", "start", timeout=1000), meta("Slow"), LIST)
        self.after(run, began, 0.9, 1.5, lambda value: helper.is_notice(value, id="s", outcome="timed-out"))
        at = self.after(run, began, 2.9, 4, lambda value: "metadata" in value)
        self.after(run, at, 0, 0.5, lambda value: "resources" in value)
        self.came_often(4, self.monitors(run, began, at), "monitors of half a second in three seconds")
        self.assertEqual(self.replies(run), [SLOW_TEXT, {"ok": True, "resources": ["m", "s"]}])
        self.assertEqual(run.ends(), 0)

    def test_limit(self):
        """an agent that is past its limit is ended with its child, and monitors go on until then"""
        run = self.monitored()
        began = time.monotonic()
        run.send(meta("Slow", limit=1000), LIST)
        pids = self.pids()
        at = self.after(run, began, 1, 1.5, lambda value: value.get("end") == "limit")
        self.came_often(5, self.monitors(run, began, at), "monitors until the limit of a second")
        self.gone(pids)
        self.after(run, at, 0, 0.5, lambda value: "resources" in value)
        self.assertEqual(run.ends(), 0)

    def test_client(self):
        """a client that goes away while an agent is asked ends the run within a second, and the agent with its child"""
        # (longer than the end of the processes is awaited)
        self.takes(600)
        run = subprocess.Popen([PROGRAM, "serve", "--memory", "--root", self.here],
                               stdin=subprocess.PIPE, stdout=subprocess.PIPE, stderr=subprocess.DEVNULL)
        self.addCleanup(run.kill)
        run.stdin.write(helper.lines(meta("Slow")))
        run.stdin.flush()
        pids, began = self.pids(), time.monotonic()
        run.stdout.close()
        run.stdin.close()
        self.assertEqual(run.wait(helper.PATIENCE), 7)
        self.took_less(1.5, time.monotonic() - began, "an end after the last reader")
        self.gone(pids)

    def test_journal(self):
        """a journal that is removed while an agent is asked ends the run within a second, and the agent with its child"""
        # (longer than the end of the processes is awaited)
        self.takes(600)
        folder = self.journal()
        run = self.started_with("serve", "--journal", folder)
        run.send(meta("Slow"))
        pids, began = self.pids(), time.monotonic()
        shutil.rmtree(folder)
        self.assertEqual(run.run.wait(helper.PATIENCE), 5)
        self.took_less(1.5, time.monotonic() - began, "an end after the journal is gone")
        self.gone(pids)

    def test_two(self):
        """two questions one after the other are answered in that order, also if the input ends after them"""
        self.takes(1)
        began = time.monotonic()
        done = helper.run("serve", "--memory", "--root", self.here, sent=helper.lines(meta("Slow"), meta("Other"), LIST))
        took = time.monotonic() - began
        self.assertGreaterEqual(took, 2, "seconds of two agents, one after the other")
        self.took_less(4, took, "two agents, one after the other")
        wanted = [SLOW_TEXT, {"metadata": '{"of":"Other"}', "ok": True}, {"ok": True, "resources": []}]
        self.assertEqual((done.returncode, helper.replies(done.stdout)), (0, wanted))

    def test_run(self):
        """run waits for its agent, and makes no turn"""
        run = self.monitored("run")
        began = time.monotonic()
        run.send(meta("Slow"), LIST)
        at = self.after(run, began, 2.9, 4, lambda value: "meta" in value)
        self.after(run, at, 0, 0.5, lambda value: "resources" in value)
        self.assertEqual(run.notices(), [])
        self.assertEqual(run.ends(), 0)

    def answers(self, word, *lines):
        """The answers of a run to these lines, in its own words."""
        done = helper.run(word, "--memory", "--root", self.here, sent=helper.lines(*lines))
        self.assertEqual(done.returncode, 0)
        return [line for line in done.stdout.decode().splitlines() if '"ready"' not in line]

    @helper.slow
    def test_no_limit(self):
        """without a limit run waits as long as its agent takes, and serve half a minute"""
        self.takes(33)
        run, serve = self.started_with("run", "--memory"), self.started_with("serve", "--memory")
        began = time.monotonic()
        for one in (run, serve):
            one.send(meta("Slow"))
        self.after(serve, began, 29.5, 31.5, lambda value: value == {"end": "limit"})
        self.after(run, began, 32.5, 36, lambda value: value == {"meta": 13})
        self.assertEqual((run.ends(), serve.ends()), (0, 0))

    def test_limits(self):
        """a limit that is not a number is ignored by run and refused by serve, and a number out of range is refused by both"""
        self.agent("Brief", "sleep 0.5\nprintf brief\n")
        for limit in ("5", "", None, True, -1, 1.5, 1e3, [5], {"limit": 5}, 2 ** 64):
            with self.subTest(limit):
                self.assertEqual(self.answers("run", meta("Brief", limit=limit)), ['{"meta":5}', "brief"])
                self.assertEqual(self.answers("serve", meta("Brief", limit=limit)), [REFUSED % ("syntax", 1)])
        for limit in (86_400_001, 2 ** 64 - 1):
            with self.subTest(limit=limit):
                self.assertEqual(self.answers("run", meta("Brief", limit=limit)), ['{"error":"bad-value","number":4}'])
                self.assertEqual(self.answers("serve", meta("Brief", limit=limit)), [REFUSED % ("bad-value", 4)])
        for word, brief in (("run", ['{"meta":5}', "brief"]), ("serve", ['{"kind":"reply","metadata":"brief","ok":true}'])):
            self.assertEqual(self.answers(word, meta("Brief", limit=86_400_000)), brief)
            self.assertEqual([helper.value_of(line) for line in self.answers(word, meta("Brief", limit=100))], [{"end": "limit"}])
            [refused] = self.answers(word, {"op": "watch"})
            self.assertEqual(helper.bare(helper.value_of(refused)), {"error": "syntax", "number": 1})

    def test_same(self):
        """serve and run reply the same, whatever an agent answers, except for the form of metadata"""
        many = "n=0; while [ $n -lt 4096 ]; do echo 123456789012345; n=$((n+1)); done\n"
        kinds = {"Long": many, "Longer": many + "echo\n", "Fails": "echo half; exit 5\n", "Dies": "kill -9 $$\n",
                 "Closes": "exec sleep 5 > /dev/null\n", "Leaves": "sleep 2 &\n", "Nothing": "exit 0\n", "Hangs": "exec sleep 5\n"}
        for kind, body in kinds.items():
            self.agent(kind, body)
        sent = helper.lines(*[meta(kind, limit=500 if kind in ("Closes", "Leaves", "Hangs") else 60_000) for kind in [*kinds, "None"]])
        served, done = [helper.run(word, "--memory", "--root", self.here, sent=sent) for word in ("serve", "run")]
        long = b"123456789012345\n" * 4096
        ends = ['{"end":"too-long"}', '{"code":5,"end":"failed"}', '{"code":1,"end":"failed"}', '{"end":"limit"}', '{"end":"limit"}',
                '{"meta":0}', "", '{"end":"limit"}', '{"end":"missing"}', ""]
        self.assertEqual(done.stdout, b'{"meta":65536}\n' + long + b"\n" + "\n".join(ends).encode())
        texts = [{"metadata": text, "ok": True} for text in (long.decode(), "")]
        texts[1:1], texts[7:] = map(json.loads, ends[:5]), map(json.loads, ends[7:9])
        self.assertEqual((served.returncode, helper.replies(served.stdout)), (0, texts))
