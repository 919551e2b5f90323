"""Kills an executor with signal 9 while its agents run, and opens its journal again. Wanted: the opening reports the interruption and is
ready at once, with the number of an orphan that lives. Until that has ended with its whole group, by itself or at the end of its time, its
resource begins nothing, whatever the orphan has made of itself; commands for it are queued, `status` and standard error name what is waited
for, and all other resources go on. The same if this executor is killed in turn. A daemon lives on; with `--leave-orphans` nothing is waited
for and nothing is ended. A client that stops interrupted resources, probes them and starts them again, with many kills at random moments,
never finds one up after a stop that succeeded, and never twice. What is left of an orphan's time is counted by the clock that its executor
counts timeouts by, which a suspend of the machine does not set ahead.
The environment may set ROUNDS and SEED."""
import os
import random
import re
import shutil
import signal
import time
import unittest

import acting
import helper

# An action of the resource whose start was interrupted, which notes each process of that start that still lives.
BESIDE = """#!/bin/sh
for note in {up}/orphan*; do
    [ -e "$note" ] || continue
    while read -r pid; do
        read -r stat 2> /dev/null < "/proc/$pid/stat" || continue
        case ${{stat##*) }} in [ZX]*) ;; *) echo "$pid" >> {up}/beside ;; esac
    done < "$note"
done
echo $$ >> {up}/stops
"""
# A start whose agent waits for a process at the gate; each notes its number.
START = "echo $$ > UP/orphan-agent; WAITS orphan; :"
# What an agent may make of itself, so that neither its arguments nor its environment show what it is; it is at the gate, too.
FORMS = {
    "another program": "echo $$ > UP/orphan-agent; exec sh -c 'HERE/waits orphan; :'",
    "exec env -i": "echo $$ > UP/orphan-agent; exec env -i /bin/sh HERE/waits orphan",
    "exec setsid": "echo $$ > UP/orphan-agent; exec env -i setsid -w HERE/waits orphan",
}
# a user with another environment, and in a session of its own
FORMS_OF_ROOT = {
    "su -c": "echo $$ > UP/orphan-agent; exec su -s /bin/sh -c 'HERE/waits orphan' USER",
    "su -l": "echo $$ > UP/orphan-agent; exec su -l -s /bin/sh -c 'HERE/waits orphan' USER",
}
# A process in the agent's group whose parent has ended; the agent waits for something else.
LEFT = "echo $$ > UP/agent; (HERE/waits orphan < /dev/null > /dev/null 2>&1 &); exec sleep 600"
# A start whose service becomes a daemon, in a session of its own, as soon as the gate was opened.
DAEMON = """#!/bin/sh
echo $$ > {up}/daemon
exec sleep 600
"""
DETACHES = "(setsid HERE/daemon < /dev/null > /dev/null 2>&1 &); until [ -s UP/daemon ]; do sleep 0.05; done"
BECOMES = f"echo $$ > UP/orphan-agent; WAITS orphan; {DETACHES}"
# An agent with a service that notes how many of it are up.
SLOW = """case $1 in
start)
    sleep "$OCF_RESKEY_time"
    : > "$OCF_RESKEY_up/$$"
    ls "$OCF_RESKEY_up" | wc -l >> "$OCF_RESKEY_log"
    ;;
stop) rm -f "$OCF_RESKEY_up"/* ;;
monitor) [ -n "$(ls "$OCF_RESKEY_up")" ] || exit 7 ;;
esac
"""


# how many orphans are opened over at once, which is nearly as many as may run
MANY = 250
DAY = 86_400


def does(action):
    return [helper.action("r1", action, timeout=10000), {"op": "drain"}]


class Orphans(acting.Acting):
    def setUp(self):
        super().setUp()
        self.folder = self.journal()
        for name, text in (("beside", BESIDE), ("daemon", DAEMON)):
            self.script(name, text.format(up=self.up))

    def serves(self, *words, way="serve", **how):
        # (on a busy machine a check may take longer than an orphan has by default)
        words = words if "--orphans" in words else ("--orphans", "600000", *words)
        return self.opened("--journal", self.folder, *words, way=way, **how)

    def left(self, start=START, timeout=600_000, names=("orphan-agent", "orphan"), words=(), end=signal.SIGKILL):
        """Leaves a journal whose executor was ended during a start, with a second resource; returns the numbers of what it left."""
        run = self.serves(*words)
        start = start.replace("USER", acting.user() or "")
        run.send(self.register(start=start, stop="HERE/beside", monitor=acting.MONITOR), self.register("r2", start="exit 0"),
                 helper.action("r1", "start", timeout=timeout))
        pids = [self.pid(name) for name in names]
        run.run.send_signal(end)
        run.run.wait()
        self.assertEqual([pid for pid in pids if not helper.is_alive(pid)], [], f"the start goes on without its executor; {self.seen()}")
        return pids

    def reports(self, run, pid=None):
        """The executor is ready, and its report is the interruption of the start, with this number."""
        run.ready()
        [value] = [helper.value_of(line) for line in run.opening_lines[:-1]]
        self.assertEqual((value["id"], value["action"], value["outcome"]), ("r1", "start", "interrupted"))
        self.assertEqual(value.get("lives"), pid, self.seen())

    def reports_nothing(self, run):
        run.ready()
        self.assertEqual(run.opening_lines[:-1], [])

    def goes_elsewhere(self, run):
        """Another resource runs its actions."""
        for what, code in (("start", 0), ("stop", 0), ("monitor", 7)):
            end = self.done(run, "r2", what)
            self.assertEqual((end["outcome"], end["code"]), ("done", code), self.seen())

    def is_held(self, run, pids):
        """A command for the resource is accepted and waits while others run, as long as what the start left lives."""
        reply = self.answered(run, helper.action("r1", "stop"))
        self.assertIn("call", reply, "the command is accepted")
        self.goes_elsewhere(run)
        found = self.answered(run, {"op": "info", "id": "r1"})
        self.assertEqual((found["queued"], found["running"]), ([reply["call"]], None), self.seen())
        self.assertEqual(self.noted("stops"), [], "no stop has begun")
        self.assertEqual([pid for pid in pids if not helper.is_alive(pid)], [], f"what is left goes on; {self.seen()}")

    def is_released(self, run):
        """The stop runs, and found nothing of the start alive."""
        [stop] = self.ends_of(run, "r1", "stop")
        self.assertEqual((stop["outcome"], stop["code"]), ("done", 0), self.seen())
        self.assertEqual(len(self.noted("stops")), 1, "one stop")
        self.assertEqual(self.noted("beside"), [], f"what the start left had ended when the stop began; {self.seen()}")

    def came_up(self):
        self.assertEqual(len(self.noted("service")), 1, f"the service came up once; {self.seen()}")

    def stays_down(self, pids):
        """What the start left was ended, so that it never comes up."""
        self.assertEqual([pid for pid in pids if helper.is_alive(pid)], [], self.seen())
        self.assertFalse(self.opens_gate(), "nobody waits at the gate")
        self.assertEqual(self.noted("service"), [], "the service never came up")

    def test_held(self):
        """an orphan is reported at once, holds its resource and no other, and releases it when it has ended by itself"""
        agent, orphan = self.left()
        run = self.serves()
        self.reports(run, agent)
        self.is_held(run, [agent, orphan])
        self.goes_on()
        self.is_released(run)
        self.came_up()
        self.assertEqual(run.ends(), 0)

    def test_ready(self):
        """an opening with an orphan is ready within 0.2 s of the time that one without takes"""
        pids = self.left()
        other = self.journal("other")
        done = helper.run("serve", "--journal", other, "--root", self.here, sent=helper.lines(self.register("r1"), self.register("r2")))
        self.assertEqual(done.returncode, 0)
        took = {self.folder: [], other: []}
        for _ in range(5):
            for folder, times in took.items():
                began = time.monotonic()
                run = self.opened("--journal", folder)
                run.ready()
                times.append(time.monotonic() - began)
                run.killed()
        self.assertEqual([pid for pid in pids if not helper.is_alive(pid)], [], "the orphan lives in all of them")
        with_orphan, without = min(took[self.folder]), min(took[other])
        self.took_less(without + 0.2, with_orphan, f"an opening with an orphan, beside {without:.3f} s of one without")

    def test_ready_many(self):
        """an opening over two hundred and fifty orphans is ready within 0.2 s of the time that one without takes"""
        names = [f"m{n}" for n in range(MANY)]
        registered = [self.register(name, start="exec sleep 602") for name in names]
        run = self.serves()
        run.send(*registered, *[helper.action(name, "start", timeout=600_000) for name in names])
        self.eventually("all of them run", lambda: sum(one["running"] is not None for one in self.answered(run, {"op": "status"})["status"])
                        >= MANY)
        run.killed()
        other = self.journal("other")
        run = self.opened("--journal", other)
        run.send(*registered)
        self.assertEqual(run.ends(), 0)
        took = {self.folder: [], other: []}
        for number in range(5):
            for folder, times in took.items():
                began = time.monotonic()
                run = self.opened("--journal", folder)
                found = run.ready()
                times.append(time.monotonic() - began)
                # (the first opening reports all of them, and each one holds them)
                self.assertEqual(found["interrupted"], MANY if folder == self.folder and number == 0 else 0)
                if folder == self.folder:
                    self.assertEqual(len(set(self.lines_of(r"^ocfexec: m\d+ waits for pid "))), MANY)
                run.killed()
        with_orphans, without = min(took[self.folder]), min(took[other])
        print(f"orphans: ready in {with_orphans:.3f} s over {MANY} orphans, and in {without:.3f} s over none", flush=True)
        self.took_less(without + 0.2, with_orphans, f"an opening over {MANY} orphans, beside {without:.3f} s of one without")

    def holds_form(self, start, names=("orphan-agent", "orphan")):
        agent, orphan = self.left(start, names=names)
        run = self.serves()
        self.reports(run, agent)
        self.is_held(run, [agent, orphan])
        self.goes_on()
        self.is_released(run)
        self.came_up()

    def ends_form(self, start):
        agent, orphan = self.left(start)
        run = self.serves("--orphans", "1500")
        self.reports(run, agent)
        run.send(helper.action("r1", "stop"))
        self.is_released(run)
        self.stays_down([agent, orphan])

    def test_env(self):
        """an agent that replaced itself by a program without an environment holds its resource"""
        self.holds_form(FORMS["exec env -i"])

    def test_env_ended(self):
        """an agent without an environment is ended past its time"""
        self.ends_form(FORMS["exec env -i"])

    def test_replaced(self):
        """an agent that replaced itself by another program is ended past its time, with what it started"""
        self.ends_form(FORMS["another program"])

    @unittest.skipUnless(shutil.which("setsid"), "install util-linux")
    def test_setsid(self):
        """an agent that waits for a process in another session holds its resource"""
        self.holds_form(FORMS["exec setsid"])

    @unittest.skipUnless(shutil.which("setsid"), "install util-linux")
    def test_setsid_ended(self):
        """an agent that waits for a process in another session is ended past its time, with that process"""
        self.ends_form(FORMS["exec setsid"])

    @unittest.skipUnless(os.getuid() == 0 and acting.can("su", "-s", "/bin/sh", acting.user() or "-", "-c", "true"), "run as root, with su")
    def test_su(self):
        """an agent that replaced itself by su holds its resource"""
        self.holds_form(FORMS_OF_ROOT["su -c"])

    @unittest.skipUnless(os.getuid() == 0 and acting.can("su", "-s", "/bin/sh", acting.user() or "-", "-c", "true"), "run as root, with su")
    def test_su_ended(self):
        """an agent that replaced itself by su is ended past its time, with the other user's process"""
        self.ends_form(FORMS_OF_ROOT["su -c"])

    @unittest.skipUnless(os.getuid() == 0 and acting.can("su", "-l", "-s", "/bin/sh", acting.user() or "-", "-c", "true"),
                         "run as root, with su")
    def test_su_login(self):
        """an agent that replaced itself by su -l is ended past its time, with the other user's process"""
        self.ends_form(FORMS_OF_ROOT["su -l"])

    def test_double_fork(self):
        """a process in the agent's group whose parent has ended holds the resource, also when the agent has ended"""
        agent, orphan = self.left(LEFT, names=("agent", "orphan"))
        os.kill(agent, signal.SIGKILL)
        self.eventually("the agent is gone", lambda: acting.stat_of(agent) is None or not helper.is_alive(agent))
        run = self.serves()
        self.reports(run, agent)
        self.is_held(run, [orphan])
        self.goes_on()
        self.is_released(run)
        self.came_up()

    def test_double_fork_ended(self):
        """a process that an agent left in its group is ended past its time"""
        agent, orphan = self.left(LEFT, names=("agent", "orphan"))
        os.kill(agent, signal.SIGKILL)
        run = self.serves("--orphans", "1500")
        run.ready()
        run.send(helper.action("r1", "stop"))
        self.is_released(run)
        self.stays_down([agent, orphan])

    @unittest.skipUnless(shutil.which("setsid"), "install util-linux")
    def test_becomes_daemon(self):
        """a service that becomes a daemon while its executor is dead is not waited for, and lives on"""
        agent, orphan = self.left(BECOMES)
        run = self.serves()
        self.reports(run, agent)
        self.is_held(run, [agent, orphan])
        self.goes_on()
        daemon = self.pid("daemon")
        self.is_released(run)
        self.came_up()
        self.assertTrue(helper.is_alive(daemon), "the daemon lives")
        self.assertEqual(self.done(run, "r1", "monitor")["code"], 0, "it is up")
        self.assertEqual(run.ends(), 0)
        self.assertTrue(helper.is_alive(daemon), "it lives on after the end of the executor")

    @unittest.skipUnless(shutil.which("setsid"), "install util-linux")
    def test_became_daemon(self):
        """a service that became a daemon before the opening holds nothing"""
        agent, _ = self.left(BECOMES)
        self.goes_on()
        daemon = self.pid("daemon")
        self.eventually("its agent ends", lambda: not helper.is_alive(agent))
        run = self.serves()
        self.reports(run)
        run.send(helper.action("r1", "stop"))
        self.is_released(run)
        self.assertTrue(helper.is_alive(daemon), "the daemon lives")

    @unittest.skipUnless(shutil.which("setsid"), "install util-linux")
    def test_daemon_past_its_time(self):
        """a daemon of an interrupted start lives on when what is left of that start is ended"""
        agent, orphan = self.left(f"echo $$ > UP/orphan-agent; {DETACHES}; WAITS orphan; :")
        daemon = self.pid("daemon")
        run = self.serves("--orphans", "1500")
        self.reports(run, agent)
        run.send(helper.action("r1", "stop"))
        self.is_released(run)
        self.stays_down([agent, orphan])
        self.assertTrue(helper.is_alive(daemon), "the daemon lives")

    def test_past_its_time(self):
        """an orphan past the timeout of its own action is ended, and its start stays down"""
        agent, orphan = self.left(timeout=8000)
        run = self.serves()
        self.reports(run, agent)
        run.send(helper.action("r1", "stop"))
        self.is_released(run)
        self.stays_down([agent, orphan])
        self.assertEqual(self.done(run, "r1", "monitor")["code"], 7)

    def test_orphans_0(self):
        """with --orphans 0 an orphan is ended soon, and its start stays down"""
        agent, orphan = self.left()
        run = self.serves("--orphans", "0")
        run.ready()
        run.send(helper.action("r1", "stop"))
        self.is_released(run)
        self.stays_down([agent, orphan])
        self.goes_elsewhere(run)

    def test_orphans_0_later(self):
        """an orphan that one executor waited for is ended by the next one with --orphans 0"""
        agent, orphan = self.left()
        run = self.serves()
        self.is_held(run, [agent, orphan])
        run.killed()
        run = self.serves("--orphans", "0")
        run.ready()
        run.send(helper.action("r1", "stop"))
        self.is_released(run)
        self.stays_down([agent, orphan])

    def test_leave(self):
        """with --leave-orphans an orphan is reported with its number, holds nothing and is not ended"""
        agent, orphan = self.left()
        run = self.serves("--leave-orphans")
        self.reports(run, agent)
        stop = self.done(run, "r1", "stop")
        self.assertEqual((stop["outcome"], stop["code"]), ("done", 0))
        self.assertEqual(set(self.noted("beside")), {agent, orphan}, "the stop ran beside it")
        self.assertEqual(run.ends(), 0)
        self.assertTrue(helper.is_alive(agent) and helper.is_alive(orphan), "it lives on")
        # and it is forgotten
        run = self.serves()
        self.reports_nothing(run)
        stop = self.done(run, "r1", "stop")
        self.assertEqual((stop["outcome"], stop["code"]), ("done", 0))
        self.goes_on()

    def test_run(self):
        """in run the report has no number, and a drain waits for the orphan while another resource goes on"""
        agent, orphan = self.left()
        run = self.serves(way="run")
        run.send(helper.action("r1", "stop"), helper.action("r2", "start"), {"op": "drain"})
        _, first = run.awaits(lambda value: True)
        self.assertEqual((first["outcome"], first.get("lives")), ("interrupted", None))
        [end] = self.ends_of(run, "r2", "start")
        self.assertEqual((end["outcome"], end["code"]), ("done", 0))
        self.assertEqual((self.noted("stops"), helper.is_alive(agent), helper.is_alive(orphan)), ([], True, True), self.seen())
        self.goes_on()
        self.is_released(run)
        self.came_up()
        run.awaits(lambda value: value.get("end") == "idle")
        self.assertEqual(run.ends(), 0)

    def test_killed_twice(self):
        """an executor that is killed while it holds a resource has reported the interruption, and the next ones hold it again"""
        agent, orphan = self.left()
        run = self.serves()
        self.reports(run, agent)
        self.is_held(run, [agent, orphan])
        run.killed()
        for _ in range(2):
            run = self.serves()
            run.ready()
            self.assertEqual([helper.value_of(line)["outcome"] for line in run.opening_lines[:-1]], ["dropped"], "the queued stop")
            self.is_held(run, [agent, orphan])
            run.killed()
        run = self.serves()
        self.is_held(run, [agent, orphan])
        self.goes_on()
        self.is_released(run)
        self.came_up()

    def test_killed_at_once(self):
        """executors that are killed at random moments of their openings lose no orphan"""
        random.seed(helper.number("SEED", 20261128))
        agent, orphan = self.left()
        for _ in range(helper.number("OPENINGS", 12)):
            run = self.serves()
            time.sleep(random.uniform(0, 0.08))
            run.killed()
        run = self.serves()
        run.ready()
        self.is_held(run, [agent, orphan])
        self.goes_on()
        self.is_released(run)
        self.came_up()

    def statuses(self, *words):
        done = helper.run("status", "--journal", self.folder, *words)
        self.assertEqual((done.returncode, done.stderr), (0, b""))
        return re.sub(" +", " ", done.stdout.decode())

    def held(self, name):
        """What a resource waits for, by `status --json`."""
        done = helper.run("status", "--journal", self.folder, "--json")
        [line] = [value for value in helper.replies(done.stdout) if "state" in value and value["id"] == name]
        return line["held"]

    def test_status(self):
        """status names the process that a resource waits for, and how much longer at most, and nothing when that is over"""
        agent, orphan = self.left()
        run = self.serves()
        self.is_held(run, [agent, orphan])
        for words in ((), ("r1",)):
            table = self.statuses(*words)
            self.assertRegex(table, rf"(?m)^.*\b{agent}\b.*\bstart\b.*\b\d+ (s|ms|min)\b.*$")
        self.assertRegex(self.held("r1") or "", rf"\b{agent}\b.*\bstart\b.*\b\d+ (s|ms|min)\b")
        self.assertIsNone(self.held("r2"))
        self.goes_on()
        self.is_released(run)
        self.assertNotRegex(self.statuses(), rf"\b{agent}\b")
        self.assertIsNone(self.held("r1"))

    def test_standard_error(self):
        """standard error names the resource and the process when the wait begins, and the resource when it is over, once each"""
        agent, orphan = self.left()
        run = self.serves()
        self.is_held(run, [agent, orphan])
        begin = self.says(r"\br1\b")
        self.assertRegex(begin, rf"^ocfexec: .*\b{agent}\b")
        self.assertEqual(len(self.error_text().splitlines()), 1, self.error_text())
        self.goes_on()
        self.is_released(run)
        self.eventually("a second line", lambda: len(self.error_text().splitlines()) > 1)
        self.assertEqual(run.ends(), 0)
        self.assertEqual(len(self.error_text().splitlines()), 2, self.error_text())
        self.assertRegex(self.error_text().splitlines()[1], r"^ocfexec: .*\br1\b")

    def test_leaves(self):
        """leave ends an executor that holds a resource, and leaves the orphan to the next one"""
        agent, orphan = self.left()
        run = self.serves()
        self.is_held(run, [agent, orphan])
        run.send({"op": "leave"})
        run.awaits(lambda value: value.get("end") == "left")
        self.assertEqual(run.ends(), 0)
        self.assertEqual(self.noted("stops"), [], "the stop has not begun")
        run = self.serves()
        run.ready()
        self.is_held(run, [agent, orphan])
        self.goes_on()
        self.is_released(run)

    def test_recurring(self):
        """a recurring monitor of a held resource does not run, and one of another resource does"""
        run = self.serves()
        run.send(self.register(monitor="echo $$ >> UP/stops; [ -e UP/service ] || exit 7"),
                 self.register("r2", monitor="echo $$ >> UP/others"))
        for name in ("r1", "r2"):
            run.send({"op": "recur", "id": name, "interval": 50})
        self.pid("stops"), self.pid("others")
        run.send({"op": "params", "id": "r1", "params": self.register(start=START, monitor="HERE/beside")["params"]},
                 helper.action("r1", "start", timeout=600_000))
        pids = [self.pid("orphan-agent"), self.pid("orphan")]
        run.killed()
        os.remove(os.path.join(self.up, "stops"))
        run = self.serves()
        run.ready()
        before = len(self.noted("others"))
        self.eventually("ten monitors of the other resource", lambda: len(self.noted("others")) >= before + 10)
        self.assertEqual(self.noted("stops"), [], f"no monitor beside the start; {self.seen()}")
        self.assertEqual([pid for pid in pids if not helper.is_alive(pid)], [], "the orphan goes on")
        self.goes_on()
        self.pid("stops")
        self.assertEqual(self.noted("beside"), [], "the first monitor found nothing of the start alive")

    def test_terminated(self):
        """a start whose executor was ended by SIGTERM holds its resource"""
        agent, orphan = self.left(end=signal.SIGTERM)
        run = self.serves()
        self.reports(run, agent)
        self.is_held(run, [agent, orphan])
        self.goes_on()
        self.is_released(run)

    def test_many(self):
        """forty orphans hold their forty resources, and each is released by its own end"""
        names = [f"m{n}" for n in range(40)]
        run = self.serves()
        run.send(*[self.register(name, start=f"echo $$ > UP/orphan-{name}; exec sleep 600", stop="HERE/beside") for name in names],
                 self.register("r2", start="exit 0"), *[helper.action(name, "start", timeout=600_000) for name in names])
        pids = {name: self.pid(f"orphan-{name}") for name in names}
        run.killed()
        run = self.serves()
        run.ready()
        found = {value["id"]: value.get("lives") for value in map(helper.value_of, run.opening_lines[:-1])}
        self.assertEqual(found, pids)
        run.send(*[helper.action(name, "stop") for name in names])
        self.goes_elsewhere(run)
        self.assertEqual(self.noted("stops"), [], "no stop has begun")
        for count, (name, pid) in enumerate(pids.items(), 1):
            os.kill(pid, signal.SIGKILL)
            os.remove(os.path.join(self.up, f"orphan-{name}"))
            [stop] = self.ends_of(run, name, "stop")
            self.assertEqual((stop["outcome"], stop["code"]), ("done", 0))
            self.assertEqual(len(self.noted("stops")), count, "no other stop has begun")

    def clocks(self, **ahead):
        """An environment in which a suspend, or time that passed, sets clocks ahead by these seconds."""
        for name, seconds in ahead.items():
            with open(self.place(name + ".new"), "w", encoding="ascii") as file:
                file.write(str(seconds))
            os.rename(self.place(name + ".new"), self.place(name))
        return {**os.environ, "LD_PRELOAD": helper.shim("clock.c", self.here), **{name: self.place(name) for name in ("SLEPT", "PASSED")}}

    def rest(self, text):
        """How many seconds more are waited at most, as a text says."""
        return int(re.search(r"at most (\d+) s more", text)[1])

    def rests(self, began, env, timeout, passed):
        """An opening says how much is left of a timeout after so many seconds had passed, and since then; so does a status."""
        run = self.serves(env=env)
        run.ready()
        for text in (self.says(r" waits for pid "), helper.run("status", "--journal", self.folder, env=env).stdout.decode()):
            since = passed + time.monotonic() - began
            self.assertTrue(timeout - since - 2 <= self.rest(text) <= timeout - passed, f"{text}, {since:.1f} s after the begin")
        return run

    @unittest.skipUnless(shutil.which("cc"), "install a C compiler")
    def test_suspended(self):
        """an orphan keeps what was left of its time while the machine is suspended, and loses what passed while it was not"""
        began = time.monotonic()
        agent, orphan = self.left(timeout=90_000)
        run = self.rests(began, self.clocks(SLEPT=DAY), 90, 0)
        self.clocks(SLEPT=2 * DAY)
        self.is_held(run, [agent, orphan])
        run.killed()
        run = self.rests(began, self.clocks(PASSED=30), 90, 30)
        self.is_held(run, [agent, orphan])
        self.clocks(PASSED=90)
        self.is_released(run)
        self.stays_down([agent, orphan])

    @unittest.skipUnless(shutil.which("cc"), "install a C compiler")
    def test_suspended_executor(self):
        """so does an action of an executor that lives: both count by one clock"""
        run = self.serves(env=self.clocks(SLEPT=0))
        run.send(self.register(start=START, stop="HERE/beside", monitor=acting.MONITOR), self.register("r2", start="exit 0"),
                 helper.action("r1", "start", timeout=600_000))
        pids = [self.pid(name) for name in ("orphan-agent", "orphan")]
        self.clocks(SLEPT=DAY)
        self.goes_elsewhere(run)
        self.assertEqual([pid for pid in pids if not helper.is_alive(pid)], [], self.seen())
        self.clocks(PASSED=600)
        [end] = self.ends_of(run, "r1", "start")
        self.assertEqual(end["outcome"], "timed-out")
        self.stays_down(pids)

    @unittest.skipUnless(shutil.which("setpriv"), "install util-linux")
    def test_dies_along(self):
        """an agent that dies with its executor leaves only its child to be waited for"""
        run = self.serves("--via", os.path.join(helper.TOP, "examples/with-executor.sh"))
        run.send(self.register(start="echo $$ > UP/agent; WAITS orphan; echo $$ >> UP/service", stop="HERE/beside"),
                 self.register("r2", start="exit 0"), helper.action("r1", "start", timeout=600_000))
        agent, orphan = self.pid("agent"), self.pid("orphan")
        run.killed()
        self.eventually("the agent dies with its executor", lambda: not helper.is_alive(agent))
        run = self.serves()
        self.is_held(run, [orphan])
        self.goes_on()
        self.is_released(run)
        self.came_up()


class Rounds(helper.Check):
    """Many kills at random moments, of executors whose client stops, probes and starts one resource."""

    def setUp(self):
        super().setUp()
        self.agent("Slow", SLOW)
        self.up, self.log = self.place("up"), self.place("log")
        os.mkdir(self.up)
        self.folder = self.journal()

    def opened(self):
        return self.started("run", "--journal", self.folder, "--root", self.here, start_new_session=True)

    def round(self):
        # stops, probes and starts, up to a kill at a random moment; returns the number of probes
        running = self.opened()
        running.send(*does("stop"), *does("monitor"), *does("start"))
        time.sleep(random.uniform(0, 0.3))
        running.killed()
        codes = [value["code"] for value in running.notices() if value["action"] == "monitor" and value["outcome"] == "done"]
        self.assertEqual(set(codes) - {7}, set(), "down after its stop")
        return len(codes)

    @helper.slow
    def test_never_twice(self):
        """never up after a stop, and never twice, with kills at random moments"""
        random.seed(helper.number("SEED", 20261124))
        rounds, kills, probes, later = helper.number("ROUNDS", 100), 0, 0, time.monotonic() + 35
        first = self.opened()
        first.send(helper.register("r1", "Slow", log=self.log, time="0.05", up=self.up))
        self.assertEqual(first.ends(), 0)
        while kills < rounds and time.monotonic() < later:
            probes += self.round()
            kills += 1
        # (on a busy machine no round may have come so far)
        last = self.opened()
        last.send(*does("stop"), *does("monitor"), *does("start"))
        self.assertEqual(last.ends(), 0)
        ends = [(value["action"], value["code"]) for value in last.notices() if value["outcome"] == "done"]
        self.assertEqual(ends, [("stop", 0), ("monitor", 7), ("start", 0)])
        with open(self.log, encoding="ascii") as text:
            counts = [int(count) for count in text.read().split()]
        self.assertEqual(max(counts), 1, "one service that is up at a time")
        print(f"orphans: {kills} kills: {probes} probes, {len(counts)} starts that ended", flush=True)
