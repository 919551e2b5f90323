"""Each agent leads a session and a process group of its own. Wanted: a signal that an agent sends to its group, as by `kill 0`, reaches
neither the executor nor another agent, also from `once` and from an agent's metadata; a terminal's Ctrl-C ends the executor and no agent;
an agent finds the same environment, arguments, descriptors and signals by the launcher, by setsid and without groups; a timeout ends the
whole group, however fast it forks, and nothing outside of it: no worker of a healthy service, and no agent of another executor."""
import fcntl
import os
import pty
import shutil
import signal
import subprocess
import termios
import unittest

import acting
import helper

LAUNCHER = os.path.join(os.path.dirname(helper.PROGRAM), "ocfexec-run-agent")
# What an agent says to its own group, how its action then ends, and the signal; a stopped agent passes its timeout.
SAYS = {"kill 0": ("signaled", 15), "kill -9 0": ("signaled", 9), "kill -STOP 0; :": ("timed-out", None),
        "trap 'kill 0' EXIT; exit 0": ("signaled", 15)}
# Notes its own number, and what the system shows of it: its state, its parent, its group and its session.
LEADER = "read -r stat < /proc/$$/stat; echo \"$$ ${stat##*) }\" > UP/leader"
# Everything that an agent finds.
FINDS = """cat /proc/$$/environ /proc/$$/cmdline > UP/found
{ echo; grep -E '^(Sig(Blk|Ign|Cgt)|Umask|Uid|Gid|Groups):' /proc/$$/status; pwd; ulimit -a; readlink /proc/$$/fd/0; echo /proc/$$/fd/*; } |
    sed "s,/proc/$$/,/proc/NUMBER/,g" >> UP/found
"""
# A process that has a successor before it ends, again and again, so that each of its numbers is gone as soon as it is read.
COMET = """#!/bin/sh
[ -e {up}/go ] || exit
echo flies >> {up}/flown
{here}/comet &
"""
# A service whose master stays in the group of its start, and makes workers when it is asked to: each of them has lost its parent.
MASTER = """#!/bin/sh
echo $$ > {up}/master
until [ -e {up}/more ]; do sleep 0.05; done
for n in 0 1 2 3 4 5 6 7 8 9; do ({here}/worker $n &); done
exec sleep 600
"""
WORKER = """#!/bin/sh
echo $$ > {up}/worker$1
exec sleep 600
"""


class Groups(acting.Acting):
    def neighbour(self, run):
        """Another resource whose start waits at the gate."""
        run.send(self.register("r2", start="echo r2 >> UP/begins; WAITS neighbour"), helper.action("r2", "start", timeout=600_000))
        return self.pid("neighbour")

    def is_untouched(self, run, pid):
        """The executor answers, and the start of the other resource went on and ends as ever."""
        reply = self.answered(run, {"op": "list"})
        self.assertEqual(reply, {"ok": True, "resources": ["r1", "r2"]})
        self.assertNotIn((acting.stat_of(pid) or "none")[0], ("none", "T", "Z"), f"the neighbour's state; {self.seen()}")
        self.goes_on()
        [end] = self.ends_of(run, "r2", "start")
        self.assertEqual((end["outcome"], end["code"]), ("done", 0), self.seen())
        with open(os.path.join(self.up, "begins"), encoding="ascii") as begins:
            self.assertEqual(begins.read(), "r2\n", "the neighbour's start began once")

    def kills(self, says, way="serve"):
        outcome, number = SAYS[says]
        run = self.opened(way=way)
        run.send(self.register(monitor=says))
        pid = self.neighbour(run) if way == "serve" else None
        run.send(helper.action("r1", "monitor", timeout=600_000 if number else 1000), *[{"op": "drain"}] * (way == "run"))
        [end] = self.ends_of(run, "r1", "monitor")
        self.assertEqual((end["outcome"], end.get("signal")), (outcome, number if way == "serve" else None), self.seen())
        if pid:
            self.is_untouched(run, pid)
        self.assertEqual(run.ends(), 0)

    def test_kill(self):
        """an agent that says kill 0 ends itself alone"""
        self.kills("kill 0")

    def test_kill_9(self):
        """an agent that says kill -9 0 ends itself alone"""
        self.kills("kill -9 0")

    def test_kill_stop(self):
        """an agent that says kill -STOP 0 stops itself alone, and passes its timeout"""
        self.kills("kill -STOP 0; :")

    def test_kill_trap(self):
        """an agent that says kill 0 as it exits ends itself alone"""
        self.kills("trap 'kill 0' EXIT; exit 0")

    def test_kill_run(self):
        """the same in run"""
        for says in SAYS:
            with self.subTest(says):
                self.kills(says, "run")

    def test_kill_again(self):
        """a recurring monitor that says kill -9 0 each time ends neither its executor nor a start beside it"""
        run = self.opened()
        run.send(self.register(monitor="echo r1 >> UP/monitors; kill -9 0"))
        pid = self.neighbour(run)
        run.send({"op": "recur", "id": "r1", "interval": 50})
        monitors = os.path.join(self.up, "monitors")
        self.eventually("five monitors", lambda: run.is_over or os.path.exists(monitors) and os.path.getsize(monitors) >= 5 * len("r1\n"))
        self.assertIsNone(run.run.poll(), "the executor of all of them runs")
        self.is_untouched(run, pid)

    def test_kill_once(self):
        """an agent that says kill 0 ends itself, and once ends with its signal as its status"""
        for says, (_, number) in SAYS.items():
            with self.subTest(says):
                done = helper.run("once", "--root", self.here, "--timeout", "20000" if number else "1000", "test:Acts", "monitor",
                                  f"monitor={says}", start_new_session=True, timeout=120)
                self.assertEqual((done.returncode, done.stderr), (128 + number if number else 124, b""))

    def test_kill_metadata(self):
        """metadata of an agent that says kill 0 are refused, and the executor goes on"""
        run = self.opened()
        run.send(helper.register("r1", "Acts"))
        pid = self.neighbour(run)
        self.agent("Kills", "kill 0\n")
        reply = self.answered(run, {"op": "meta", "provider": "test", "type": "Kills"})
        self.assertIn("end", reply, "no metadata")
        self.is_untouched(run, pid)

    def finds_itself(self, *words, program=None, **how):
        """What an agent notes of itself: its number, its parent, its group and its session."""
        run = self.opened(*words, program=program, **how)
        run.send(self.register(monitor=LEADER))
        end = self.done(run, "r1", "monitor")
        self.assertEqual((end["outcome"], end["code"]), ("done", 0), self.seen())
        with open(os.path.join(self.up, "leader"), encoding="ascii") as leader:
            pid, _, parent, group, session = leader.read().split()[:5]
        self.assertEqual(int(parent), run.run.pid, "it is a child of its executor")
        self.assertEqual(run.ends(), 0)
        return int(pid), int(group), int(session), run.run.pid

    def alone(self):
        """The program in a directory of its own, without a launcher."""
        os.makedirs(self.place("alone"), exist_ok=True)
        return shutil.copy(helper.PROGRAM, self.place("alone"))

    @unittest.skipUnless(os.access(LAUNCHER, os.X_OK), "there is no launcher beside the program")
    def test_leads(self):
        """each agent leads a session and a group of its own, by the launcher"""
        # (without setsid, which would do it, too)
        pid, group, session, _ = self.finds_itself(env={**os.environ, "PATH": self.here})
        self.assertEqual((group, session), (pid, pid))
        self.assertEqual(self.error_text(), "")

    @unittest.skipUnless(shutil.which("setsid"), "install util-linux")
    def test_leads_by_setsid(self):
        """without the launcher each agent leads a session and a group of its own, by setsid"""
        pid, group, session, _ = self.finds_itself(program=self.alone())
        self.assertEqual((group, session), (pid, pid))

    @unittest.skipUnless(os.getuid() == 0 and shutil.which("setsid") and acting.can("unshare", "-m", "true"), "run as root, with unshare")
    def test_leads_none(self):
        """without the launcher and without setsid agents run in the executor's group, and one line says so"""
        folder = os.path.dirname(os.path.realpath(shutil.which("setsid")))
        over = [self.place(name) for name in ("over", "work")]
        for name in over:
            os.mkdir(name)
        hides = f"mount -t overlay overlay -o lowerdir={folder},upperdir={over[0]},workdir={over[1]} {folder} && rm {folder}/setsid"
        if not acting.can("unshare", "-m", "sh", "-c", hides):
            self.skipTest("run with the file system overlay")
        # (the file is hidden from then on)
        hides = hides.partition(" && ")[0]
        words = f"{hides} && exec {self.alone()} serve --memory --root {self.here}"
        run = self.started("-m", "sh", "-c", words, err=self.err, program="unshare", start_new_session=True)
        run.send(self.register(monitor=LEADER))
        end = self.done(run, "r1", "monitor")
        self.assertEqual((end["outcome"], end["code"]), ("done", 0), self.seen())
        with open(os.path.join(self.up, "leader"), encoding="ascii") as leader:
            group = int(leader.read().split()[3])
        self.assertEqual(group, os.getpgid(run.run.pid))
        self.assertEqual(len(self.error_text().splitlines()), 1, self.error_text())
        self.assertRegex(self.error_text(), r"\Aocfexec: .*(setsid|ocfexec-run-agent)")

    def test_no_groups(self):
        """with --no-groups an agent runs in the executor's group, and a timeout ends it with what descends from it"""
        _, group, session, executor = self.finds_itself("--no-groups")
        self.assertEqual((group, session), (executor, executor))
        run = self.opened("--no-groups")
        run.send(self.register(start="HERE/waits child; :"))
        self.assertEqual(self.done(run, "r1", "start", timeout=4000)["outcome"], "timed-out")
        self.assertNotEqual(self.noted("child"), [], "it began")
        self.is_down(run)

    def test_finds_the_same(self):
        """an agent finds the same variables, arguments, descriptors, limits and signals by the launcher, by setsid and without groups"""
        found = {}
        for way, words, program in (("none", ["--no-groups"], None), ("launcher", [], None), ("setsid", [], self.alone())):
            run = self.opened(*words, program=program)
            run.send(self.register(monitor=FINDS))
            end = self.done(run, "r1", "monitor")
            self.assertEqual((end["outcome"], end["code"]), ("done", 0), self.seen())
            self.assertEqual(run.ends(), 0)
            with open(os.path.join(self.up, "found"), encoding="utf-8") as text:
                found[way] = text.read()
        self.assertIn("\0OCF_RESOURCE_INSTANCE=r1\0", "\0" + found["none"])
        self.assertIn("\n/dev/null\n", found["none"], "its input is empty")
        self.assertEqual(found["launcher"], found["none"])
        self.assertEqual(found["setsid"], found["none"])

    def test_not_run(self):
        """an agent that is missing or may not be run is reported so, and one without a first line for the system is run by the shell"""
        for name, text, mode in (("Denied", "#!/bin/sh\n", 0o644), ("Plain", "exit 7\n", 0o755), ("Lost", "#!/nonexistent/sh\n", 0o755)):
            with open(self.place(f"resource.d/test/{name}"), "w", encoding="ascii") as file:
                file.write(text)
            os.chmod(self.place(f"resource.d/test/{name}"), mode)
        os.mkdir(self.place("resource.d/test/Folder"))
        wanted = {"Missing": ("not-started", 5), "Denied": ("not-started", 4), "Folder": ("not-started", 4), "Plain": ("done", 7),
                  "Lost": ("done", 127)}
        run = self.opened()
        run.send(*[helper.register(name, name) for name in wanted])
        for name, (outcome, code) in wanted.items():
            end = self.done(run, name, "monitor")
            self.assertEqual((end["outcome"], end["code"]), (outcome, code), f"{name}: {self.seen()}")

    def at_terminal(self, *words):
        """An executor that leads the foreground of a terminal, whose agent runs; returns it with the terminal and the agent."""
        main, terminal = pty.openpty()
        self.addCleanup(os.close, main)

        def lead():
            os.setsid()
            fcntl.ioctl(terminal, termios.TIOCSCTTY, 0)
        run = self.opened("--journal", self.journal(), *words, start_new_session=False, preexec_fn=lead, pass_fds=[terminal])
        os.close(terminal)
        run.send(self.register(start="trap 'echo 2 > UP/got; exit 1' INT; WAITS child; :"), helper.action("r1", "start", timeout=600_000))
        child = self.pid("child")
        os.write(main, b"\x03")
        try:
            status = run.run.wait(4 * helper.PATIENCE)
        except subprocess.TimeoutExpired:
            self.fail(f"Ctrl-C does not end the executor; {run.state()}")
        self.assertEqual(status, -signal.SIGINT)
        return child

    def test_terminal(self):
        """Ctrl-C at a terminal ends the executor, and no agent: its start goes on, and comes up"""
        child = self.at_terminal()
        self.assertTrue(helper.is_alive(child), f"the agent goes on; {self.seen()}")
        self.goes_on()
        self.eventually("the service comes up", lambda: self.noted("service"))
        self.assertEqual(self.noted("got"), [], "no agent got the signal")

    def test_terminal_no_groups(self):
        """with --no-groups Ctrl-C at a terminal reaches the agents, too"""
        child = self.at_terminal("--no-groups")
        self.eventually("the agent ends", lambda: not helper.is_alive(child))

    def test_bomb(self):
        """of sixty processes that fork without end nothing is left after the timeout, and the monitors of another resource go on"""
        self.script("comet", COMET.format(up=self.up, here=self.here))
        # (none of them finds anything to do when this check ends)
        go = os.path.join(self.up, "go")
        self.addCleanup(lambda: os.path.exists(go) and os.remove(go))
        run = self.opened()
        run.send(self.register(start=": > UP/go; n=0; while [ $n -lt 60 ]; do HERE/comet & n=$((n + 1)); done; wait; WAITS bomb"),
                 self.register("r2", monitor="echo r2 >> UP/monitors"))
        run.send({"op": "recur", "id": "r2", "interval": 100}, helper.action("r1", "start", timeout=4000))
        [end] = self.ends_of(run, "r1", "start")
        self.assertEqual(end["outcome"], "timed-out", self.seen())
        # (a process that looks for them, on a busy machine, may not see one of them)
        self.came_often(61, os.path.getsize(os.path.join(self.up, "flown")) // len("flies\n"), "comets, with their successors")
        monitors = os.path.join(self.up, "monitors")
        before = os.path.getsize(monitors) if os.path.exists(monitors) else 0
        self.eventually("five more monitors of the other resource", lambda: os.path.exists(monitors) and
                        os.path.getsize(monitors) >= before + 5 * len("r2\n"))
        # (the stop begins only when nothing of the start is known to live)
        self.assertEqual(self.done(run, "r1", "stop")["outcome"], "done")
        self.assertTrue(os.path.exists(go), "the comets were not asked to end")
        self.assertEqual([(pid, acting.words_of(pid)) for pid in acting.with_word(self.place("comet"))], [], "nothing of it is left")

    def test_workers(self):
        """a service in the group of its start, with workers that it makes during a monitor, is not touched by that monitor's timeout"""
        for name, text in (("master", MASTER), ("worker", WORKER)):
            self.script(name, text.format(up=self.up, here=self.here))
        run = self.opened()
        run.send(self.register(start="HERE/master < /dev/null > /dev/null 2>&1 & :", monitor="WAITS hung; :"))
        self.assertEqual(self.done(run, "r1", "start")["code"], 0)
        master = self.pid("master")
        run.send(helper.action("r1", "monitor", timeout=4000))
        hung = self.pid("hung")
        with open(os.path.join(self.up, "more"), "w", encoding="ascii"):
            pass
        workers = [self.pid(f"worker{n}") for n in range(10)]
        self.assertEqual({acting.stat_of(pid)[2] for pid in workers}, {acting.stat_of(master)[2]}, "one group")
        [end] = self.ends_of(run, "r1", "monitor")
        self.assertEqual(end["outcome"], "timed-out", self.seen())
        # a second timeout, of a monitor that has nothing to do with the first
        self.assertEqual(self.done(run, "r1", "monitor", timeout=500)["outcome"], "timed-out")
        self.assertFalse(helper.is_alive(hung), "the monitor has ended")
        self.assertEqual([pid for pid in [master, *workers] if not helper.is_alive(pid)], [], "the whole service lives")

    def test_group_of_its_start(self):
        """a service in the group of its start is ended by a timeout of that start"""
        run = self.opened()
        run.send(self.register(start="WAITS service1 & WAITS agent"))
        run.send(helper.action("r1", "start", timeout=4000))
        service = self.pid("service1")
        [end] = self.ends_of(run, "r1", "start")
        self.assertEqual(end["outcome"], "timed-out")
        self.eventually("what it left in its group ends", lambda: not helper.is_alive(service))
        self.is_down(run)

    def beside(self, run, name, begins):
        """A start of this resource passes its timeout; what another executor begins meanwhile, with a process whose parent has ended,
        is not touched by that."""
        run.send(self.register(name, start=f"WAITS own-{name} & WAITS agent-{name}"), helper.action(name, "start", timeout=5000))
        own = self.pid(f"own-{name}")
        begins()
        pids = [self.pid("first"), self.pid("background")]
        [end] = self.ends_of(run, name, "start")
        self.assertEqual(end["outcome"], "timed-out", self.seen())
        self.assertEqual(self.done(run, name, "stop")["outcome"], "done")
        self.assertFalse(helper.is_alive(own), "what the start left has ended")
        self.assertEqual([pid for pid in pids if not helper.is_alive(pid)], [], f"the agents of the other executor live; {self.seen()}")
        self.goes_on()

    def test_two_executors(self):
        """two executors of one session, each with a resource of the same id, do not end each other's agents"""
        first = self.opened("--journal", self.journal("first"), start_new_session=False, err=self.place("first.err"))
        second = self.opened("--journal", self.journal("second"), start_new_session=False)
        self.beside(second, "r1", lambda: first.send(
            self.register(start="(WAITS background &); WAITS first"), helper.action("r1", "start", timeout=600_000)))
        [end] = self.ends_of(first, "r1", "start")
        self.assertEqual((end["outcome"], end["code"]), ("done", 0))

    def once(self, name, start, timeout):
        words = ["once", "--root", self.here, "--id", name, "--timeout", str(timeout), "test:Acts", "start", "start=" + self.text(start)]
        once = subprocess.Popen([helper.PROGRAM, *words], stdin=subprocess.DEVNULL, stdout=subprocess.DEVNULL, stderr=subprocess.PIPE)
        self.addCleanup(lambda: (once.kill(), once.wait(), once.stderr.close()))
        return once

    def test_once_beside(self):
        """an action of once with the id of a resource is not ended by a timeout of that resource in an executor"""
        run, begun = self.opened(start_new_session=False), []
        self.beside(run, "r1", lambda: begun.append(self.once("r1", "(WAITS background &); WAITS first", 600_000)))
        self.assertEqual(begun[0].wait(4 * helper.PATIENCE), 0)

    def test_beside_once(self):
        """an action of an executor is not ended by a timeout of once with the id of its resource"""
        once = self.once("r1", "WAITS own & WAITS agent", 5000)
        own = self.pid("own")
        run = self.opened(start_new_session=False)
        run.send(self.register(start="(WAITS background &); WAITS first"), helper.action("r1", "start", timeout=600_000))
        pids = [self.pid("first"), self.pid("background")]
        self.assertEqual(once.wait(4 * helper.PATIENCE), 124)
        self.assertFalse(helper.is_alive(own), "what once began has ended")
        self.assertEqual([pid for pid in pids if not helper.is_alive(pid)], [], f"the executor's agents live; {self.seen()}")
        self.goes_on()
        [end] = self.ends_of(run, "r1", "start")
        self.assertEqual((end["outcome"], end["code"]), ("done", 0))
