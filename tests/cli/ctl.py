"""Resources operated by hand, by ocfctl and the control socket of the client: what each verb does, prints and ends with; what was set by
hand survives kills of the client and of the executor, a new start and a reload; who may do what; and that many programs share one executor,
of which slow, stopped and dying ones delay no other and no monitor."""
import contextlib
import json
import os
import random
import shutil
import signal
import socket
import subprocess
import sys
import threading
import time
import unittest

import helper
import keeping

CTL = os.path.join(helper.TOP, "examples/ocfctl.py")
# an agent whose service is a file, and is promoted by another one; what it is called with, and at which level, is noted; it fails as the
# file `fails` beside it says
ROLE = """state=$OCF_RESKEY_state
echo "$1 $state ${{OCF_CHECK_LEVEL:-0}}" >> {here}/calls
if [ -e "$state.fails" ] && grep -q -x "$1" "$state.fails"; then
    echo "a word of the agent"
    echo "ocf-exit-reason:it is broken" >&2
    exit 5
fi
case $1 in
start) while [ -e "$state.slow" ]; do sleep 0.05; done; : > "$state" ;;
stop) rm -f "$state" "$state.promoted" ;;
promote) : > "$state.promoted" ;;
demote) rm -f "$state.promoted" ;;
monitor) [ -e "$state" ] || exit 7; [ ! -e "$state.promoted" ] || exit 8 ;;
esac
"""
# an agent that says its parameters, and then does what that one does
DESCRIBED = """if [ "$1" = meta-data ]; then
echo '<resource-agent name="Described"><parameters><parameter name="state"/><parameter name="configfile"/></parameters>'
echo '<actions><action name="start"/><action name="stop"/><action name="monitor"/></actions></resource-agent>'
exit
fi
"""
PROGRAMS, UNREAD = 20, 16 << 20


class Connection:
    """A program at the control socket."""

    def __init__(self, path):
        self.socket = socket.socket(socket.AF_UNIX, socket.SOCK_STREAM)
        self.socket.settimeout(helper.PATIENCE * helper.SLOWER)
        self.socket.connect(path)
        self.file = self.socket.makefile("rb")

    def send(self, *values):
        self.socket.sendall(b"".join(json.dumps(value).encode() + b"\n" for value in values))

    def line(self):
        line = self.file.readline()
        return json.loads(line) if line else None

    def until(self, holds):
        """The first line for which this holds, after which came before it."""
        found = []
        while (line := self.line()) is not None:
            found.append(line)
            if holds(line):
                return found
        raise AssertionError(f"no such line, after {found[-3:]}")

    def ask(self, value):
        self.send({**value, "tag": "ask"})
        return self.until(lambda line: line.get("tag") == "ask")[-1]

    def close(self):
        self.file.close()
        self.socket.close()


@helper.in_memory
class Hand(keeping.Keeping):
    def setUp(self):
        super().setUp()
        self.agent("Role", ROLE.format(here=self.here))
        for name in ("state", "logs"):
            os.mkdir(self.place(name))

    def role(self, name, **more):
        return self.dummy(name, "Role", **more)

    def happened(self, *actions):
        """The calls of agents for these actions, in their order, as `start a`."""
        with open(self.place("calls"), encoding="ascii") as file:
            calls = [line.split() for line in file]
        return [f"{call[0]} {os.path.basename(call[1])}" for call in calls if call[0] in actions]

    def words(self, *options):
        return [*super().words("--socket", self.place("control"), "--state", self.place("state"), *options), "--events", "--logs",
                self.place("logs")]

    def up(self, *options, **wanted):
        """A client that has brought up these resources."""
        self.wants(**wanted)
        client = self.client(*options)
        self.runs(*[name for name, one in wanted.items() if one.get("target") != "stopped" and one.get("managed", True)])
        for name in wanted:
            self.becomes(name, lambda one: one["settled"])
        return client

    def ctl(self, *words, status=0, **how):
        """What ocfctl prints, which ends with this status."""
        done = subprocess.run([CTL, words[0], "--socket", self.place("control"), *words[1:]], capture_output=True, text=True,
                              timeout=helper.WHOLE, **how)
        self.assertEqual(done.returncode, status, f"{words}: {done.stdout}{done.stderr}\n{self.error_text()}")
        return done.stdout + done.stderr

    def failed_monitors(self, client):
        return [value for value in client.values() if value["action"] == "monitor" and value.get("failed")]

    def connected(self):
        found = Connection(self.place("control"))
        self.addCleanup(found.close)
        return found

    def connected_to_new(self, client):
        self.waits("its socket", lambda: client.run.poll() is None and self.can_connect())
        return self.connected()

    def can_connect(self):
        with contextlib.suppress(OSError):
            Connection(self.place("control")).close()
            return True
        return False

    def status_of(self, name):
        """A resource in the status, or None while nobody answers."""
        with contextlib.suppress(OSError, AssertionError):
            connection = Connection(self.place("control"))
            try:
                return next(one for one in connection.ask({"do": "status"})["status"] if one["id"] == name)
            except StopIteration:
                return None
            finally:
                connection.close()

    def becomes(self, name, holds):
        self.waits(f"{name} as wanted, now {self.status_of(name)}", lambda: (one := self.status_of(name)) and holds(one))

    def actions(self, name):
        """What the agent of a resource was called for, without its recurring monitors and probes."""
        with open(self.place("calls"), encoding="ascii") as file:
            calls = [line.split() for line in file]
        return [call[0] for call in calls if call[1] == self.place(name) and call[0] != "monitor"]

    def fails(self, name, *actions):
        with open(self.place(f"{name}.fails"), "w", encoding="ascii") as file:
            file.write("".join(f"{action}\n" for action in actions))

    def mended(self, name):
        os.remove(self.place(f"{name}.fails"))


class Verbs(Hand):
    def test_stop(self):
        """stop stops one resource and leaves it so, without monitors; start starts it, and it is kept again"""
        self.up(a=self.role("a"), b=self.role("b"))
        said = self.ctl("stop", "a")
        self.assertRegex(said, r"\Aa: stop ok after \d+ ms\na: stopped by hand\n\Z")
        self.assertEqual((self.is_up("a"), self.is_up("b")), (False, True))
        self.assertRegex(self.ctl("status", "a"), r"a +test:Role +stopped by hand since \d{4}-\d\d-\d\d \d\d:\d\d:\d\d\n")
        [info] = [value for value in helper.replies(helper.shown(self.place("journal"))) if value.get("id") == "a"]
        self.assertEqual(info["recurring"], [])
        self.assertRegex(self.ctl("start", "a"), r"a: start ok after \d+ m?s\na: running\n\Z")
        self.stops("a")
        self.runs("a")
        self.assertEqual(self.actions("b"), ["start"])

    def test_restart(self):
        """restart stops a resource and starts it; one that was stopped by hand it starts"""
        self.up(a=self.role("a"))
        self.assertRegex(self.ctl("restart", "a"), r"a: running\n\Z")
        self.assertEqual(self.actions("a"), ["start", "stop", "start"])
        self.ctl("stop", "a")
        self.ctl("restart", "a")
        self.assertTrue(self.is_up("a"), "its service runs")

    def test_monitor(self):
        """monitor asks the agent once, at a level, and ends with 1 if it is not as it should be"""
        self.up(a=self.role("a", interval=60_000))
        self.assertRegex(self.ctl("monitor", "a", "--level", "20"), r"\Aa: monitor: running after \d+ ms\n\Z")
        self.assertEqual(self.called("monitor", self.place("a"), "20"), 1)
        self.fails("a", "monitor")
        self.assertRegex(self.ctl("monitor", "a", status=1), r"a: monitor failed: not installed \(OCF_ERR_INSTALLED, 5\) after \d+ ms\n")
        self.mended("a")
        self.ctl("stop", "a")
        self.assertRegex(self.ctl("monitor", "a"), r"a: monitor: not running \(OCF_NOT_RUNNING, 7\)")

    def test_promote(self):
        """a promoted resource is kept promoted, also after it was demoted or ended by itself; demote keeps it unpromoted"""
        self.up(a=self.role("a"))
        self.assertRegex(self.ctl("promote", "a"), r"a: promoted\n\Z")
        os.remove(self.place("a.promoted"))
        self.runs("a.promoted")
        self.becomes("a", lambda one: one["state"] == "promoted")
        self.stops("a")
        self.runs("a")
        self.becomes("a", lambda one: one["state"] == "promoted")
        self.assertTrue(self.is_up("a.promoted"), "its service runs")
        self.ctl("start", "a")
        self.assertEqual(self.status_of("a")["state"], "promoted", "it is started already")
        self.assertRegex(self.ctl("demote", "a"), r"a: running\n\Z")
        self.assertFalse(self.is_up("a.promoted"), "its service is stopped")
        with open(self.place("a.promoted"), "wb"):
            pass
        self.waits("its demotion", lambda: not self.is_up("a.promoted"))

    def test_unmanaged(self):
        """an unmanaged resource is monitored, and neither started nor stopped, also at the end; manage keeps it again"""
        client = self.up(a=self.role("a"))
        self.ctl("unmanage", "a")
        self.stops("a")
        after = len(client.lines)
        for _ in range(2):
            _, value = client.awaits(lambda value: helper.is_notice(value, id="a", code=7), after=after)
            after = len(client.lines)
        self.assertEqual((value["interval"], self.actions("a")), (100, ["start"]))
        self.assertIn("is not managed", self.ctl("stop", "a", status=3))
        self.assertRegex(self.ctl("status"), r"\na +test:Role +unmanaged by hand since \d{4}-[^;\n]*\n  last failure: monitor failed: not ")
        self.ctl("manage", "a")
        self.assertTrue(self.is_up("a"), "its service runs")
        self.ctl("unmanage", "a")
        self.assertEqual((self.ended(client, signal.SIGTERM), self.is_up("a")), (0, True))

    def test_maintenance(self):
        """in maintenance no agent is called, over a restart of the client, too; after it monitors come back"""
        client = self.up(a=self.role("a"), b=self.role("b"))
        self.assertEqual(self.ctl("maintenance", "on"), "a: in maintenance\nb: in maintenance\n")
        self.stops("a")
        with open(self.place("calls"), encoding="ascii") as file:
            before = file.read()
        for verb in ("start", "stop", "restart", "unmanage"):
            self.assertIn("maintenance", self.ctl(verb, "a", status=3))
        self.assertEqual(self.ended(client, signal.SIGTERM), 0)
        client = self.client()
        self.becomes("a", lambda one: one["state"] == "in maintenance")
        time.sleep(0.5)  # of several intervals
        with open(self.place("calls"), encoding="ascii") as file:
            self.assertEqual(file.read(), before)
        self.assertIn("in maintenance since", self.ctl("status"))
        self.ctl("maintenance", "off")
        self.runs("a", "b")
        self.comes(client, len(client.lines), id="b", interval=100, code=0)

    def test_failed(self):
        """a start that fails ends with 1, and prints the code, its name, and the words of the agent; --json has them, too"""
        self.up(a=self.role("a", restarts=1))
        self.ctl("stop", "a")
        self.fails("a", "start")
        said = self.ctl("start", "a", status=1)
        self.assertRegex(said, r"a: start failed: not installed \(OCF_ERR_INSTALLED, 5\) after \d+ ms\n")
        self.assertRegex(said, "a: (failed|given up), which is not as it should be\n(.*\n)*  a word of the agent\n")
        self.assertIn("it is broken", self.ctl("status", status=1))
        self.becomes("a", lambda one: one["state"] == "given up")
        found = json.loads(self.ctl("start", "a", "--json", status=1))
        self.assertEqual((found["expected"], found["status"][0]["failed"]["code"], found["status"][0]["failed"]["name"]),
                         (False, 5, "OCF_ERR_INSTALLED"))
        self.mended("a")
        self.ctl("start", "a")
        self.ctl("forget", "a")
        self.assertIsNone(self.status_of("a")["failed"])
        self.assertNotIn("last failure", self.ctl("status"))

    def test_forgotten(self):
        """a running resource whose history was emptied is found running without a failure by the next client"""
        client = self.up(a=self.role("a", interval=60_000))
        self.comes(client, id="a", interval=60_000)
        self.assertEqual(self.ctl("forget", "a"), "a: its history is empty\n")
        self.assertEqual(self.ended(client, signal.SIGUSR1), 0)
        self.client()
        self.becomes("a", lambda one: one["state"] == "running")
        self.assertIsNone(self.status_of("a")["failed"])

    def test_not_stopped(self):
        """a stop that fails ends with 1, and is not tried again until it is requested again"""
        self.up(a=self.role("a"))
        self.fails("a", "stop")
        self.assertIn("a: not stopped, which is not as it should be", self.ctl("stop", "a", status=1))
        self.assertIn("client: a could not be stopped: stop ended with 5", self.error_text())
        self.mended("a")
        time.sleep(0.3)
        self.assertTrue(self.is_up("a"), "its service runs")
        self.assertIn("a: stopped by hand", self.ctl("stop", "a"))

    def test_stalls(self):
        """the words of a stop that ran past its timeout are those of that run alone, with its reason; a start after it does not fail"""
        slow = 'stop) echo "some words"; echo "ocf-exit-reason:it waits for clients" >&2; sleep 20; exit ;;\n'
        self.agent("Role", ROLE.format(here=self.here).replace("promote) ", slow + "promote) ", 1).replace("stop) rm", "never) rm", 1))
        client = self.up(a=self.role("a", timeouts={"stop": 300}))
        for _ in range(2):
            said = self.ctl("stop", "a", status=1)
            self.assertRegex(said, r"\Aa: stop failed: it ran past its timeout and was killed after \d+ ms\n"
                                   r"a: not stopped, which is not as it should be\n  some words\n  it waits for clients\n\Z")
        self.assertIn("  last failure: stop failed: ", self.ctl("status", status=1))
        self.assertRegex(self.ctl("start", "a"), r"\Aa: monitor: running after \d+ ms\na: running\n\Z")
        self.assertIn("  last failure: stop failed: ", self.ctl("status"))
        self.assertEqual(self.failed_monitors(client), [])

    def test_twice(self):
        """a start that is requested again, or by two at once, ends well for both, and no monitor of it fails"""
        client = self.up(a=self.role("a"))
        self.ctl("stop", "a")
        with open(self.place("a.slow"), "wb"):
            pass
        self.ctl("start", "a", "--no-wait")
        self.becomes("a", lambda one: one["doing"] and one["doing"]["action"] == "start")
        run = subprocess.Popen([CTL, "start", "--socket", self.place("control"), "a"], stdout=subprocess.PIPE, text=True)
        self.addCleanup(run.stdout.close)
        self.waits("the second start", lambda: self.error_text().count("a: start by hand") == 2)
        os.remove(self.place("a.slow"))
        self.assertRegex(run.communicate(timeout=helper.WHOLE)[0], r"a: running\n\Z")
        self.assertEqual(self.failed_monitors(client), [])

    def test_unsupported(self):
        """promote and demote are refused if the agent says that it has no such action, which changes nothing; so is a target of the file"""
        self.agent("Described", DESCRIBED + ROLE.format(here=self.here))
        self.up(a=self.role("a", type="Described"))
        for verb in ("promote", "demote"):
            self.assertEqual(self.ctl(verb, "a", status=3), f"ocfctl: the agent test:Described has no action {verb} (unsupported)\n")
        self.assertEqual((self.actions("a"), self.status_of("a")["target_by_hand"]), (["start"], None))
        self.wants(a=self.role("a", type="Described", target="promoted"))
        self.assertIn("resources.a.target: test:Described has no action promote", self.ctl("reload", status=3))

    def test_statuses(self):
        """2 for wrong arguments, 3 for an unknown resource or where nobody answers, 124 after the timeout; the request goes on"""
        self.up(a=self.role("a"))
        self.ctl("stop", status=2)
        self.ctl("stop", "a", "--timeout", "0", status=2)
        self.ctl("fly", "a", status=2)
        self.assertEqual(self.ctl("stop", "b", status=3), "ocfctl: the client's file has no resource b; it has a (unknown-resource)\n")
        done = subprocess.run([CTL, "status", "--socket", self.place("none")], capture_output=True, text=True, timeout=helper.WHOLE)
        self.assertEqual((done.returncode, done.stderr.partition(":")[0]), (3, "ocfctl"))
        self.ctl("stop", "a")
        with open(self.place("a.slow"), "wb"):
            pass
        began = time.monotonic()
        self.ctl("start", "a", "--timeout", "0.5", status=124)
        self.assertGreaterEqual(time.monotonic() - began, 0.5)
        self.assertIn("start since", self.ctl("status", status=1))
        os.remove(self.place("a.slow"))
        self.runs("a")
        with open(self.place("a.slow"), "wb"):
            pass
        self.ctl("restart", "a", "--no-wait")
        self.becomes("a", lambda one: one["doing"] and one["doing"]["action"] == "start")
        os.remove(self.place("a.slow"))

    def test_later(self):
        """a request ends, not as expected, when something else is requested of its resource"""
        self.up(a=self.role("a"))
        self.ctl("stop", "a")
        with open(self.place("a.slow"), "wb"):
            pass
        one = self.connected()
        one.ask({"do": "start", "id": "a"})
        self.ctl("stop", "a", "--no-wait")
        end = one.until(lambda line: line["kind"] == "done")[-1]
        self.assertEqual((end["expected"], end["message"]), (False, "something else was requested of a"))
        os.remove(self.place("a.slow"))
        self.becomes("a", lambda one: one["state"] == "stopped by hand")
        self.assertFalse(self.is_up("a"), "its service is stopped")

    def test_at_once(self):
        """of two ocfctl at once, the one whose request is overtaken says so, and nothing of what is wrong meanwhile"""
        self.up(a=self.role("a"))
        self.ctl("stop", "a")
        with open(self.place("a.slow"), "wb"):
            pass
        run = subprocess.Popen([CTL, "start", "--socket", self.place("control"), "a"], stdout=subprocess.PIPE, text=True)
        self.addCleanup(run.stdout.close)
        self.becomes("a", lambda one: one["doing"] and one["doing"]["action"] == "start")
        self.ctl("stop", "a", "--no-wait")
        said = run.communicate(timeout=helper.WHOLE)[0]
        os.remove(self.place("a.slow"))
        self.assertRegex(said, r"\na: (starting|stopping)\nsomething else was requested of a\n\Z")
        self.assertEqual(run.returncode, 1)
        self.becomes("a", lambda one: one["state"] == "stopped by hand")

    def test_queued(self):
        """a stop waits for what programs have requested before, and takes nothing of it back"""
        self.up(a=self.role("a", interval=60_000))
        self.agent("Role", ROLE.format(here=self.here).replace("monitor) ", "monitor) sleep 0.3; "))
        one = self.connected()
        one.send(*[{"op": "exec", "id": "a", "action": "monitor", "tag": f"{number}"} for number in range(3)],
                 {"do": "monitor", "id": "a", "tag": "3"}, {"do": "stop", "id": "a", "tag": "4"})
        found = one.until(lambda line: line["kind"] == "done" and line["tag"] == "4")
        self.assertEqual([line["tag"] for line in found if line["kind"] != "reply"], ["0", "1", "2", "3", "4"])
        self.assertFalse(self.is_up("a"), "its service is stopped")

    def test_reload(self):
        """reload reads the file: a wrong one is refused with its key, and it ends when each changed resource runs or has failed"""
        self.up(a=self.role("a"))
        with open(self.place("resources.json"), "w", encoding="ascii") as file:
            file.write('{"resources": {"a": 1}}')
        self.assertIn("resources.a: expected an object", self.ctl("reload", status=3))
        self.wants(a=self.role("a"), b=self.role("b"))
        self.assertIn("b: running\n", self.ctl("reload"))
        self.wants(a=self.role("a"))
        self.ctl("reload")
        self.waits("its removal", lambda: list(helper.results(self.place("journal"))) == ["a"])

    def test_reload_asks(self):
        """reload is refused before anything is changed if an agent of the file does not exist or lacks a parameter, unless it asks none"""
        self.agent("Described", DESCRIBED + ROLE.format(here=self.here))
        client = self.up(a=self.role("a", type="Described"), b=self.role("b"))
        before = self.happened("stop", "start")
        wrong = {"a": {**self.role("a", type="Described"), "params": {"state": self.place("a"), "confgfile": "x"}},
                 "c": self.role("c", type="Missing")}
        self.wants(**wrong)
        said = self.ctl("reload", status=3)
        self.assertIn("resources.a.params.confgfile: test:Described has no such parameter; it has configfile; "
                      "resources.c.type: there is no agent test:Missing; nothing is changed (wrong-file)", said)
        self.assertEqual(self.ctl("ids").split(), ["a", "b"])
        self.comes(client, len(client.lines), id="b", interval=100, code=0)
        self.assertEqual(self.happened("stop", "start"), before)
        self.assertNotIn("was read again", self.error_text())
        self.wants(a=self.role("a", type="Described"))
        self.assertIn("a: running\n", self.ctl("reload"))
        self.waits("the removal of b", lambda: self.ctl("ids").split() == ["a"])
        self.wants(**wrong)
        self.ctl("reload", "--offline", status=1)
        self.assertIn("a stays as it was: params.confgfile: ", self.error_text())

    def test_reload_first(self):
        """the first resources of a file are asked for, too, though no executor runs yet"""
        self.agent("Described", DESCRIBED + ROLE.format(here=self.here))
        client = self.up()
        self.waits("its socket", self.can_connect)
        self.wants(a={**self.role("a", type="Described"), "params": {"state": self.place("a"), "confgfile": "x"}})
        self.assertIn("resources.a.params.confgfile: test:Described has no such parameter", self.ctl("reload", status=3))
        self.assertIsNone(self.child(client), "no executor runs")
        self.wants(a=self.role("a", type="Described"))
        self.assertIn("a: running\n", self.ctl("reload"))

    def test_events(self):
        """events prints what the journal has, oldest first, and with -f what comes; ids prints the names"""
        self.up(a=self.role("a"), b=self.role("b"))
        lines = self.ctl("events", "a").splitlines()
        self.assertRegex(lines[0], r"\A\d{4}-\d\d-\d\d \d\d:\d\d:\d\d a: monitor: not running \(OCF_NOT_RUNNING, 7\) after \d+ m?s\Z")
        self.assertIn(" a: start ok after ", lines[1])
        self.assertNotEqual(self.ctl("events", "--since", "1h"), "")
        run = subprocess.Popen([CTL, "events", "--socket", self.place("control"), "-f", "b", "--json"], stdout=subprocess.PIPE, text=True)
        self.addCleanup(run.stdout.close)
        self.addCleanup(run.wait)
        self.addCleanup(run.kill)
        run.stdout.readline()  # of a monitor
        self.ctl("stop", "b")
        while '"action":"stop"' not in (line := run.stdout.readline()):
            self.assertNotEqual(line, "")
        self.assertEqual(json.loads(line)["id"], "b")
        self.assertEqual(self.ctl("ids"), "a\nb\n")

    def test_words(self):
        """the words are those that the executor prints by --events, whatever comes of an action"""
        self.up(a=self.role("a", interval=60_000), b=self.role("b", interval=60_000))
        run = subprocess.Popen([CTL, "events", "--socket", self.place("control"), "-f", "--since", "1h"], stdout=subprocess.PIPE, text=True)
        self.addCleanup(run.stdout.close)
        self.addCleanup(run.wait)
        self.addCleanup(run.kill)
        run.stdout.readline()  # what it prints of a history it prints once it listens
        self.agent("Ends", 'case $OCF_RESKEY_code in kill) kill -9 $$ ;; sleep) sleep 20 ;; *) exit $OCF_RESKEY_code ;; esac\n')
        one, found = self.connected(), []
        for number, code in enumerate([0, 1, 2, 3, 4, 5, 6, 7, 8, 9, 77, 190, 191, "kill", "sleep", "none"]):
            new = {"op": "register", "id": f"x{number}", "provider": "test", "type": "None" if code == "none" else "Ends"}
            one.ask({**new, "params": {"code": f"{code}"}})
            for expect in (0, 7, 8):
                one.ask({"op": "exec", "id": f"x{number}", "action": "monitor", "expect": expect, "timeout": 200})
            one.ask({"op": "exec", "id": f"x{number}", "action": "start", "timeout": 200})
        while len(found) < 64:
            line = run.stdout.readline()
            self.assertNotEqual(line, "", f"it ended after {found}")
            found += [line[20:]] if line[20:21] == "x" else []
        # the executor writes the line of a result after its notice
        self.eventually("the last line of the executor", lambda: found[-1] in self.error_text())
        said = self.error_text().splitlines(keepends=True)
        self.assertEqual([line for line in found if line not in said], [])

    def test_json(self):
        """json sends lines, prints their replies as they are, and waits for the results of their calls"""
        self.up(a=self.role("a", interval=60_000))
        lines = self.ctl("json", '{"op":"version"}', '{"op":"exec","id":"a","action":"monitor","tag":"mine"}').splitlines()
        found = [json.loads(line) for line in lines]
        self.assertEqual([value.get("tag") for value in found[:2]], [None, "mine"])
        self.assertEqual((found[2]["outcome"], found[2]["call"]), ("done", found[1]["call"]))
        self.assertIn('"error":"unknown-op"', self.ctl("json", '{"op":"leave"}', status=3))
        self.ctl("json", "{", status=2)

    def test_quick(self):
        """a call takes at most a fifth of a second of the processor"""
        self.up(a=self.role("a"))
        before = os.times().children_user + os.times().children_system
        for _ in range(5):
            self.ctl("status", "a")
        self.took_less(0.2, (os.times().children_user + os.times().children_system - before) / 5, "a call")

    def test_completion(self):
        """the completion of bash offers the verbs, the names of resources, and what each verb takes"""
        self.up(web=self.role("web"), db=self.role("db"))
        file = os.path.join(helper.TOP, "package/ocfctl.bash")
        os.mkdir(self.place("bin"))
        os.symlink(CTL, self.place("bin/ocfctl"))
        for words, wanted in ((["st"], ["start", "status", "stop"]), (["stop", "w"], ["web"]), (["maintenance", "o"], ["off", "on"]),
                              (["monitor", "web", "--le"], ["--level"]), (["events", "--no"], [])):
            script = '. "$1"; shift; COMP_WORDS=(ocfctl "$@"); COMP_CWORD=$#; _ocfctl; printf "%s\\n" "${COMPREPLY[@]}"'
            done = subprocess.run(["bash", "-c", script, "bash", file, *words], capture_output=True, text=True, timeout=60,
                                  env={**os.environ, "OCFEXEC_SOCKET": self.place("control"),
                                       "PATH": f"{self.place('bin')}:{os.environ['PATH']}"})
            self.assertEqual((sorted(done.stdout.split()), done.stderr), (wanted, ""), words)


class Targets(Hand):
    def test_survives(self):
        """a stop by hand survives a reload, kills of the executor and of the client, and an orderly end; nothing starts it meanwhile"""
        client = self.up(a=self.role("a"), b=self.role("b"))
        self.ctl("stop", "a")
        since = self.status_of("a")["target_by_hand"]
        os.kill(client.run.pid, signal.SIGHUP)
        self.waits("the reload", lambda: "was read again" in self.error_text())
        os.kill(self.child(client), signal.SIGKILL)
        self.waits("another executor", lambda: "was ended by SIGKILL" in self.error_text())
        self.becomes("a", lambda one: one["settled"])
        os.kill(client.run.pid, signal.SIGKILL)
        client.run.wait()
        for number in (signal.SIGTERM, signal.SIGUSR1):
            client = self.client()
            self.becomes("a", lambda one: one["state"] == "stopped by hand")
            self.runs("b")
            self.assertEqual(self.ended(client, number), 0)
        self.assertEqual(self.actions("a"), ["start", "stop", "stop"], "the last one at the orderly end")
        client = self.client()
        self.becomes("a", lambda one: one["settled"] and one["target_by_hand"] == since)
        self.ctl("start", "a")
        self.assertTrue(self.is_up("a"), "its service runs")
        self.assertEqual(self.ended(client, signal.SIGUSR1), 0)
        self.client()
        self.becomes("a", lambda one: one["state"] == "running")

    def test_found(self):
        """one that is stopped by hand, and runs all the same when a client starts, is stopped"""
        client = self.up(a=self.role("a"))
        self.ctl("stop", "a")
        self.assertEqual(self.ended(client, signal.SIGUSR1), 0)
        with open(self.place("a"), "wb"):
            pass
        self.client()
        self.becomes("a", lambda one: one["state"] == "stopped by hand")
        self.assertFalse(self.is_up("a"), "its service is stopped")

    def test_held(self):
        """while a process of an interrupted action lives, its resource is held, which the status says, with the process"""
        client = self.up(a=self.role("a"))
        self.ctl("stop", "a")
        with open(self.place("a.slow"), "wb"):
            pass
        self.ctl("start", "a", "--no-wait")
        self.waits("the start", lambda: self.actions("a")[-1] == "start")
        os.kill(self.child(client), signal.SIGKILL)
        self.becomes("a", lambda one: one["held"])
        held = self.status_of("a")["held"]
        self.assertTrue(helper.is_alive(held), "it lives")
        self.assertIn(f"held: process {held} of an interrupted action lives", self.ctl("status", status=1))
        os.remove(self.place("a.slow"))
        self.becomes("a", lambda one: one["state"] == "running" and not one["held"])
        self.assertEqual(self.actions("a"), ["start", "stop", "start"])

    def test_interrupted(self):
        """a stop and a restart that were requested just before the executor was killed are done by the next one"""
        for verb, is_up in (("restart", True), ("stop", False)):
            self.agent("Role", ROLE.format(here=self.here).replace("stop) rm", "stop) sleep 0.5; rm"))
            client = self.up(a=self.role("a"))
            before = self.actions("a").count("stop")
            one = self.connected()
            one.ask({"do": verb, "id": "a"})
            self.waits("the stop", lambda wanted=before: self.actions("a").count("stop") > wanted)
            os.kill(self.child(client), signal.SIGKILL)
            end = one.until(lambda line: line["kind"] == "done")[-1]
            self.assertEqual((end["expected"], self.is_up("a")), (True, is_up), verb)
            if is_up:
                self.assertEqual(self.actions("a")[-1], "start")
            self.assertEqual(self.ended(client, signal.SIGUSR1), 0)

    def test_kept(self):
        """a request that cannot be kept is refused, and changes nothing; a file that is not understood ends the client with 2"""
        client = self.up(a=self.role("a"))
        shutil.rmtree(self.place("state"))
        self.assertIn("it cannot be kept", self.ctl("stop", "a", status=3))
        self.assertTrue(self.is_up("a"), "its service runs")
        self.assertIsNone(self.status_of("a")["target_by_hand"])
        self.assertEqual(self.ended(client, signal.SIGUSR1), 0)
        os.mkdir(self.place("state"))
        with open(self.place("state/by-hand.json"), "w", encoding="ascii") as file:
            file.write('{"targets": {"a": "stopped"}}')
        client = self.client()
        self.assertEqual(client.run.wait(helper.PATIENCE), 2)
        self.assertIn("was not written by this program", self.error_text())

    def test_synced(self):
        """what was set by hand is synced before it is renamed, and its directory after that"""
        script = ("import os, sys; sys.path[:0] = sys.argv[2:]\nimport targets\nfound = targets.Targets(sys.argv[1])\n"
                  "for name in ('fsync', 'rename'):\n"
                  "    def does(*words, name=name, old=getattr(os, name)):\n"
                  "        path = os.readlink(f'/proc/self/fd/{words[0]}') if name == 'fsync' else words[1]\n"
                  "        print(name, os.path.basename(path), flush=True)\n        old(*words)\n"
                  "    setattr(os, name, does)\n"
                  "with found.changing():\n    found.set_target('a', 'stopped', 'started')\n"
                  "with found.changing():\n    pass\n")
        done = subprocess.run([sys.executable, "-c", script, self.place("state"), os.path.join(helper.TOP, "examples"),
                               os.path.join(helper.TOP, "python")], capture_output=True, text=True, timeout=60)
        self.assertEqual((done.stdout.splitlines(), done.stderr),
                         (["fsync by-hand.json.new", "rename by-hand.json", "fsync state"], ""))

    @helper.slow
    def test_kills(self):
        """whatever was acknowledged holds, whenever the client or the executor is killed"""
        dice, kills = random.Random(helper.number("SEED", 20261129)), helper.number("KILLS", 25)
        client = self.up(a=self.role("a"))
        for _ in range(kills):
            verb, one = dice.choice(["stop", "start", "restart", "promote", "demote", "unmanage", "manage"]), self.connected()
            reply = one.ask({"do": verb, "id": "a"})
            wanted = {key: self.status_of("a")[key] for key in ("target", "managed")}
            time.sleep(dice.uniform(0, 0.1))
            victim = dice.choice([client.run.pid, self.child(client)]) or client.run.pid
            os.kill(victim, signal.SIGKILL)
            if victim == client.run.pid:
                client.run.wait()
                client = self.client()
            self.becomes("a", lambda one: one["settled"])
            found = self.status_of("a")
            self.assertEqual({key: found[key] for key in wanted}, wanted, f"{verb}: {reply}")
            self.becomes("a", lambda one: one["as_wanted"])
            if found["managed"]:
                self.waits(f"its service, {found['target']}", lambda: self.is_up("a") == (found["target"] != "stopped"))

    def test_file(self):
        """the file may have the targets, what is managed, and more monitors; the hand goes before it; registrations and histories stay"""
        self.up(a=self.role("a", target="stopped"), b=self.role("b", managed=False), c=self.role("c", target="promoted"),
                d=self.role("d", monitors=[{"interval": 150, "level": 10}]))
        self.assertEqual([self.status_of(name)["state"] for name in "abcd"], ["stopped", "unmanaged", "promoted", "running"])
        self.assertEqual((self.is_up("a"), self.is_up("b"), self.is_up("c.promoted")), (False, False, True))
        self.waits("a monitor at level 10", lambda: self.called("monitor", self.place("d"), "10"))
        self.ctl("start", "a")
        self.assertTrue(self.is_up("a"), "its service runs")
        before = helper.results(self.place("journal"))["d"][0]
        self.wants(a=self.role("a", target="stopped"), b=self.role("b"), c=self.role("c"), d=self.role("d", interval=200, restarts=1))
        self.ctl("reload")
        self.assertEqual(([self.is_up(name) for name in "abcd"], self.actions("d")), ([True] * 4, ["start"]))
        self.assertEqual(helper.results(self.place("journal"))["d"][0], before)
        [info] = [value for value in helper.replies(helper.shown(self.place("journal"))) if value.get("id") == "d"]
        self.assertEqual([(one["interval"], one["level"]) for one in info["recurring"]], [(200, 0)])


class Order(Hand):
    def test_after(self):
        """a resource is started after those before it run, and stopped before them: at the start, by hand, at a failure, and at the end"""
        client = self.up(web=self.role("web", after=["db"]), db=self.role("db", after=["disk"]), disk=self.role("disk"))
        self.assertEqual(self.happened("start", "stop"), ["start disk", "start db", "start web"])
        self.assertRegex(self.ctl("stop", "db"), r"\ndb: stopped by hand\nweb: waiting for db\n\Z")
        self.assertEqual(self.happened("start", "stop")[3:], ["stop web", "stop db"])
        self.assertEqual(self.status_of("web")["state"], "waiting for db")
        self.ctl("start", "db")
        self.runs("web")
        self.becomes("web", lambda one: one["state"] == "running")
        before = len(self.happened("start", "stop"))
        self.stops("disk")
        self.waits("the restart", lambda: self.happened("start", "stop")[before:][-1:] == ["start web"])
        # (a failed monitor is followed by a stop, here of a service that has stopped)
        self.assertEqual(self.happened("start", "stop")[before:], ["stop web", "stop db", "start disk", "start db", "start web"])
        self.becomes("web", lambda one: one["state"] == "running")
        before = len(self.happened("start", "stop"))
        self.assertEqual(self.ended(client, signal.SIGTERM), 0)
        self.assertEqual(self.happened("start", "stop")[before:], ["stop web", "stop db", "stop disk"])

    def test_running(self):
        """all that is found running is left running, in whatever order it is found"""
        wanted = {"web": self.role("web", after=["db"]), "db": self.role("db")}
        client = self.up(**wanted)
        self.assertEqual(self.ended(client, signal.SIGUSR1), 0)
        client = self.client()
        for name in wanted:
            self.becomes(name, lambda one: one["state"] == "running")
        os.kill(self.child(client), signal.SIGKILL)
        self.waits("another executor", lambda: "was ended by SIGKILL" in self.error_text())
        for name in wanted:
            self.becomes(name, lambda one: one["state"] == "running")
        self.assertEqual(self.happened("start", "stop"), ["start db", "start web"])

    def test_changed(self):
        """one that changes in the file is stopped as it was, and those after it before that; all are started again in order"""
        self.up(web=self.role("web", after=["db"]), db=self.role("db"))
        self.wants(web=self.role("web", after=["db"]), db={**self.role("db"), "params": {"state": self.place("db"), "more": "1"}})
        self.ctl("reload")
        self.assertEqual(self.happened("start", "stop")[2:], ["stop web", "stop db", "start db", "start web"])
        self.wants(web=self.role("web"))
        self.ctl("reload")
        self.waits("its removal", lambda: list(helper.results(self.place("journal"))) == ["web"])
        self.assertEqual(self.happened("start", "stop")[6:], ["stop db"])

    def test_given_up(self):
        """while one is given up, those after it are stopped and wait"""
        self.up(web=self.role("web", after=["db"]), db=self.role("db", restarts=1))
        self.fails("db", "start")
        self.stops("db")
        self.becomes("db", lambda one: one["state"] == "given up")
        self.becomes("web", lambda one: one["state"] == "waiting for db")
        self.assertFalse(self.is_up("web"), "its service is stopped")
        self.mended("db")
        self.ctl("start", "db")
        self.runs("web")

    @helper.slow
    def test_chance(self):
        """whatever fails, is requested or killed, none is started before those that it is after run, and all become as they should be"""
        dice, rounds, names = random.Random(helper.number("SEED", 20261129)), helper.number("ROUNDS", 30), "abcd"
        self.agent("Role", ROLE.format(here=self.here).replace(
            "case $1 in", f'if [ "$1" = start ]; then for one in $OCF_RESKEY_needs; do [ -e "{self.here}/$one" ] || '
            f'echo "$state without $one" >> {self.here}/early; done; fi\ncase $1 in', 1))
        needs = {"a": [], "b": ["a"], "c": ["b"], "d": ["a", "c"]}
        wanted = {name: self.role(name, after=before, restarts=1000, interval=50) for name, before in needs.items()}
        for name, one in wanted.items():
            one["params"]["needs"] = " ".join(needs[name])
        client = self.up(**wanted)
        for _ in range(rounds):
            for _ in range(dice.randrange(1, 4)):
                client = self.disturbed(client, dice, names)
            for name in names:
                self.becomes(name, lambda one: one["settled"] and (one["as_wanted"] or one["state"].startswith("waiting for ")))
            up = {name for name in names if self.status_of(name)["target"] != "stopped"}
            for name in "abcd":
                up -= set() if set(needs[name]) <= up else {name}
            self.waits(f"exactly {up}", lambda wanted=up: {name for name in names if self.is_up(name)} == wanted)
        self.assertFalse(self.is_up("early"), "one was started early")

    def disturbed(self, client, dice, names):
        """Does something by chance; returns the client that runs after it."""
        what, name = dice.choice(["stop", "start", "start", "restart", "kill", "leave", "nothing"]), dice.choice(names)
        if what in ("stop", "start", "restart"):
            self.connected_to_new(client).ask({"do": what, "id": name})
        elif what == "kill" and (child := self.child(client)):
            os.kill(child, signal.SIGKILL)
        elif what in ("kill", "leave"):
            self.ended(client, signal.SIGKILL if what == "kill" else signal.SIGUSR1)
            client = self.client()
        time.sleep(dice.uniform(0, 0.2))
        return client

    def test_alert(self):
        """an alert agent is called at a failure, a recovery and a give-up, with Pacemaker's variables; one that hangs delays nothing"""
        with open(self.place("alert"), "w", encoding="ascii") as file:
            file.write(f'#!/bin/sh\necho "$OCFEXEC_alert $CRM_alert_kind $CRM_alert_rsc $CRM_alert_task $CRM_alert_rc $CRM_alert_interval" '
                       f'>> {self.here}/alerts\nexec sleep 20\n')
        os.chmod(self.place("alert"), 0o755)
        self.up(a=self.role("a", restarts=2, alert=self.place("alert")))
        self.stops("a")
        self.runs("a")
        self.waits("the recovery", lambda: "recovery" in self.alerts())
        self.assertEqual(self.alerts(), "failure resource a monitor 7 100\nrecovery resource a start 0 0\n")
        self.fails("a", "start")
        self.stops("a")
        self.waits("the give-up", lambda: "given-up" in self.alerts())
        self.assertEqual(self.alerts().splitlines()[2:],
                         ["failure resource a monitor 7 100", "failure resource a start 5 0", "given-up resource a start 5 0"])

    def alerts(self):
        with contextlib.suppress(FileNotFoundError), open(self.place("alerts"), encoding="ascii") as file:
            return file.read()
        return ""


class Socket(Hand):
    def setUp(self):
        super().setUp()
        os.chmod(self.here, 0o755)

    @unittest.skipUnless(os.geteuid() == 0 and shutil.which("setpriv"), "this wants root and setpriv")
    def test_permissions(self):
        """the group may ask and change nothing, nor see parameters; another user may not even connect"""
        self.up("--group", "nogroup", a=self.role("a"))
        member = ("setpriv", "--reuid=nobody", "--regid=nogroup", "--clear-groups")
        other = ("setpriv", "--reuid=nobody", "--regid=daemon", "--clear-groups")

        def does(user, *words):
            done = subprocess.run([*user, sys.executable, CTL, words[0], "--socket", self.place("control"), *words[1:]],
                                  capture_output=True, text=True, timeout=helper.WHOLE)
            return done.returncode, done.stdout + done.stderr
        self.assertEqual(does(member, "status")[0], 0)
        self.assertEqual(does(member, "events")[0], 0)
        for words in (("stop", "a"), ("reload",), ("maintenance", "on"), ("forget", "a"), ("monitor", "a"),
                      ("json", '{"op":"exec","id":"a","action":"stop"}'), ("json", '{"op":"meta","provider":"test","type":"Role"}')):
            status, said = does(member, *words)
            self.assertEqual((status, "denied" in said), (3, True), f"{words}: {said}")
        status, said = does(member, "json", '{"op":"info","id":"a"}')
        self.assertEqual((status, json.loads(said).get("params")), (0, None))
        self.assertIn("params", self.ctl("json", '{"op":"info","id":"a"}'))
        status, said = does(other, "status")
        self.assertEqual((status, "Permission denied" in said), (3, True), said)
        self.assertEqual(self.actions("a"), ["start"])

    def test_refused(self):
        """lines that are none, unknown requests, and commands that are not for one of several are refused by a word"""
        self.up(a=self.role("a"))
        one = self.connected()
        for text, word in ((b"{", "syntax"), (b"[]", "syntax"), (b'{"do":"fly"}', "unknown-do"), (b'{"do":"stop"}', "bad-value"),
                           (b'{"do":"stop","id":["a"]}', "bad-value"), (b'{"do":"stop","id":"a","now":1}', "bad-value"),
                           (b'{"do":"monitor","id":"a","level":5}', "bad-value"), (b'{"do":"status","ids":"a"}', "bad-value"),
                           (b'{"do":"status","ids":["b"]}', "unknown-resource"), (b'{"do":"maintenance"}', "bad-value"),
                           (b'{"do":["stop"]}', "unknown-do"), (b'{"op":"drain"}', "unknown-op"), (b'{"op":"leave"}', "unknown-op"),
                           (b'{"op":"list","tag":5}', "bad-value"), (b'{"op":"unregister","id":"a"}', "kept"),
                           (b'{"op":"meta","provider":"test","type":"Role","limit":60000}', "bad-value"),
                           (b'{"op":"exec","id":"a","action":"fly"}', "bad-value"), (b'{"op":"info","id":"b"}', "unknown-resource")):
            one.socket.sendall(text + b"\n")
            line = one.line()
            self.assertEqual((line.get("error"), line["kind"]), (word, "reply"), f"{text}: {line}")
        one.socket.sendall(b"x" * 200_000)
        self.assertEqual((one.line()["error"], one.line()), ("syntax", None))

    def test_others(self):
        """a resource that a program registers is its own: no restart, reload or end of the client stops it or takes it out"""
        client = self.up(a=self.role("a"))
        one = self.connected()
        reply = one.ask({"op": "register", "id": "x", "provider": "test", "type": "Role", "params": {"state": self.place("x")}})
        self.assertEqual(reply, {"kind": "reply", "ok": True, "tag": "ask"})
        one.send({"op": "exec", "id": "x", "action": "start", "tag": "mine"})
        self.assertEqual(one.until(lambda line: line["kind"] == "notice")[-1]["tag"], "mine")
        self.ctl("reload")
        os.kill(self.child(client), signal.SIGKILL)
        self.waits("another executor", lambda: "was ended by SIGKILL" in self.error_text())
        self.becomes("a", lambda one: one["settled"])
        self.assertEqual(self.ended(client, signal.SIGTERM), 0)
        client = self.client()
        self.runs("a")
        self.assertIn("Resources of other programs: x", self.ctl("status"))
        self.assertEqual((self.is_up("x"), sorted(helper.results(self.place("journal")))), (True, ["a", "x"]))
        self.wants(a=self.role("a"), x=self.role("x"))
        self.ctl("reload")
        self.assertEqual((self.status_of("x")["state"], self.actions("x")), ("running", ["start"]))

    def test_alone(self):
        """without a file, or with an empty one, programs have the executor for themselves, and what the journal has stays as it is"""
        client = self.up(a=self.role("a"))
        self.assertEqual(self.ended(client, signal.SIGUSR1), 0)
        os.remove(self.place("resources.json"))
        client = self.client()
        self.waits("word of it", lambda: "nothing to do until SIGHUP" in self.error_text())
        one = self.connected_to_new(client)
        self.waits("an executor", lambda: one.ask({"op": "list"}).get("resources") == ["a"])
        new = {"op": "register", "id": "x", "provider": "test", "type": "Role", "params": {"state": self.place("x")}}
        self.assertIn("ok", one.ask(new))
        self.assertEqual((self.ended(client, signal.SIGTERM), self.is_up("a")), (0, True))
        client = self.client()
        one = self.connected_to_new(client)
        self.waits("the executor", lambda: one.ask({"op": "list"}).get("resources") == ["a", "x"])
        self.wants(a=self.role("a"))
        self.ctl("reload")
        self.assertEqual((self.status_of("a")["state"], self.actions("a")), ("running", ["start"]))

    def test_lost(self):
        """a call that was acknowledged has its notice, with its tag, over a kill of the executor"""
        client = self.up(a=self.role("a", interval=60_000))
        self.comes(client, id="a", interval=60_000)
        one = self.connected()
        self.agent("Role", "echo $1 >> {here}/calls2\nsleep 2\n".format(here=self.here))
        one.send({"op": "exec", "id": "a", "action": "monitor", "tag": "one"}, {"op": "exec", "id": "a", "action": "monitor", "tag": "two"})
        self.assertEqual([one.line()["tag"] for _ in range(2)], ["one", "two"])
        self.runs("calls2")
        os.kill(self.child(client), signal.SIGKILL)
        found = [one.line(), one.line()]
        self.assertEqual(sorted((line["tag"], line["outcome"]) for line in found), [("one", "interrupted"), ("two", "dropped")])


class Programs(Hand):
    COUNT = 30  # commands of each

    def program(self, number, failed):
        """One of many programs: its own replies in their order, and the notices of its own calls."""
        try:
            one, name = Connection(self.place("control")), f"p{number}"
            one.send({"op": "register", "id": name, "provider": "test", "type": "Role", "params": {"state": self.place(name)}})
            assert one.line()["ok"]
            for place in range(self.COUNT):
                one.send({"op": "exec", "id": name, "action": "start" if place == 0 else "monitor", "tag": f"{number} {place}"})
            found = [one.line() for _ in range(2 * self.COUNT)]
            replies = [line for line in found if line["kind"] == "reply"]
            notices = [line for line in found if line["kind"] == "notice"]
            assert [line["tag"] for line in replies] == [f"{number} {place}" for place in range(self.COUNT)], replies
            assert [(line["tag"], line["id"]) for line in notices] == [(f"{number} {place}", name) for place in range(self.COUNT)], notices
            one.close()
        except Exception as error:  # noqa: BLE001 (it is shown by the test)
            failed.append(f"{number}: {error!r}")

    def test_many(self):
        """twenty programs at once, among slow, stopped and dying ones: each gets its own, one gets all, and no monitor is missed"""
        client = self.up(a=self.role("a"))
        all_events = self.connected()
        all_events.send({"events": True})
        self.assertIn("ok", all_events.line())
        big = self.connected()
        big.ask({"op": "register", "id": "big", "provider": "test", "type": "Role",
                 "params": {f"p{place}": "x" * 1000 for place in range(15)}})
        slow, stopped = self.connected(), self.connected()
        questions = [{"op": "info", "id": "big"}] * 200
        writer = threading.Thread(target=lambda: [slow.send(*questions) for _ in range(7)], daemon=True)
        writer.start()
        stopped.send({"events": True})
        failed, threads = [], [threading.Thread(target=lambda number=number: self.program(number, failed)) for number in range(PROGRAMS)]
        for thread in threads:
            thread.start()
        for number in range(10):  # those that die, with half a line, amid their replies
            dying = Connection(self.place("control"))
            dying.send(*questions[:20])
            dying.socket.sendall(b'{"op":"in')
            dying.close()
        self.stops("a")
        self.runs("a")
        for thread in threads:
            thread.join(helper.PATIENCE * helper.SLOWER)
        self.assertEqual(failed, [])
        self.waits("word of the slow one", lambda: "does not read from the control socket, and is cut off" in self.error_text())
        writer.join(helper.PATIENCE)
        *_, last = slow.until(lambda line: line["kind"] == "trouble")
        self.assertEqual((last["error"], slow.line()), ("slow", None))
        tags = set()
        while len(tags) < PROGRAMS * self.COUNT:
            line = all_events.line()
            self.assertEqual((line["kind"], line.get("tag")), ("notice", None))
            if line["id"].startswith("p"):
                tags.add(line["call"])
        self.assertLess(helper.kib(client.run.pid, "VmHWM") * 1024, 4 * UNREAD)
        self.ctl("stop", "a")
        self.assertEqual(self.ended(client, signal.SIGTERM), 0)

    def test_idle(self):
        """programs that have ended, half or wholly, cost no processor"""
        client = self.up(a=self.role("a", interval=60_000))
        gone, half, silent = [Connection(self.place("control")) for _ in range(3)]
        self.addCleanup(half.close)
        self.addCleanup(silent.close)
        gone.send({"events": True})
        gone.close()
        half.send({"do": "status"})
        half.socket.shutdown(socket.SHUT_WR)
        self.assertEqual((half.line()["kind"], half.line()), ("reply", None))
        before = helper.processor_time(client.run.pid)
        time.sleep(2)
        self.assertLess(helper.processor_time(client.run.pid) - before, 0.3 * helper.slowness())
