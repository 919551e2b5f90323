"""The library for clients in Python, python/ocfexec: replies and refusals, results by call, tags, more commands than pipes hold, the ready
line and the report of an opening, errors with all that is known, no state that cannot be left, and each result once, however often the
executor is killed; by threads' own executors, and by asyncio."""
import asyncio
import concurrent.futures
import inspect
import json
import os
import random
import shutil
import signal
import subprocess
import sys
import threading
import time
import unittest

import helper
import schema
from helper import PROGRAM, action, register

sys.dont_write_bytecode = True
sys.path.insert(1, os.path.join(helper.TOP, "python"))
import ocfexec  # noqa: E402
import ocfexec._core  # noqa: E402

LIB, CASES, GO = os.path.join(helper.TOP, "tests/lib"), os.path.join(helper.TOP, "tests/cli/library_cases.json"), shutil.which("go")
KILLS, LONGEST = 100, 100  # and the seconds after which there are no more
LIST, INFO = {"op": "list"}, {"op": "info", "id": "a"}
# a program that answers with this instead of the ready line of an executor
TALKS = "#!/bin/sh\nread -r line\necho '%s'\nread -r line\n"
# a program that uses the whole library, by its types
TYPED = """import asyncio
from ocfexec import AsyncExecutor, Executor, Result


def outcomes(executor: Executor) -> list[str]:
    call: int = executor.exec("web", "start", timeout=1000)
    found: Result = executor.result(call, timeout=5)
    return [found.outcome, *(result.outcome for result in executor.events(timeout=0))]


async def states(executor: AsyncExecutor) -> list[str]:
    async for result in executor.events(timeout=0.1):
        print(result.raw["outcome"])
    return [one.state for one in await executor.status()]
"""


class Lines(ocfexec._core.Lines):
    """Lines that are each checked against the schema."""

    def take(self, value):
        schema.hold(value)
        super().take(value)


ocfexec._core.Lines = Lines


def is_stopped(pid):
    """Whether a process has stopped itself."""
    with open(f"/proc/{pid}/stat", encoding="ascii") as stat:
        return stat.read().rsplit(")", 1)[1].split()[0] == "T"


def ended(executor):
    """Ends the program of an executor, if it runs."""
    if executor._process is not None and executor._status is None:
        executor.kill()


@helper.in_memory
class Case(helper.Check):
    def setUp(self):
        super().setUp()
        self.agent("Fast", "exit 0\n")
        self.agent("Slow", f"echo $$ >> {self.here}/slow\nsleep 0.3\n")

    def words(self, *words):
        return [PROGRAM, "serve", *words, "--root", self.here]

    def begun(self, count):
        """Waits until this many slow actions have begun."""
        self.eventually(f"{count} slow actions begin", lambda: len(self.slow().split()) >= count)

    def slow(self):
        if not os.path.exists(self.place("slow")):
            return ""
        with open(self.place("slow"), encoding="ascii") as file:
            return file.read()

    def talks(self, line):
        """A program that only says this."""
        with open(self.place("talks"), "w", encoding="ascii") as file:
            file.write(TALKS % line)
        os.chmod(self.place("talks"), 0o755)
        return [self.place("talks")]


class Library(Case):
    def executor(self, *words, **how):
        executor = ocfexec.Executor(self.words(*words), **how)
        self.addCleanup(ended, executor)
        executor.start()
        return executor

    def test_asked(self):
        """a command is answered, or refused with all that the reply says; drain and watch are refused here"""
        executor = self.executor("--memory")
        self.assertEqual(executor.ask(register("a", "Fast")), {"ok": True})
        self.assertEqual(helper.bare(executor.ask(register("a", "Fast"), allow=("exists",))), {"error": "exists", "number": 6})
        with self.assertRaises(ocfexec.Refused) as refused:
            executor.ask(register("a", "Fast"))
        self.assertEqual((refused.exception.word, refused.exception.number, refused.exception.key), ("exists", 6, None))
        self.assertIn(refused.exception.message, str(refused.exception))
        with self.assertRaises(ocfexec.Refused) as refused:
            executor.ask(action("a", "start", timeout=0))
        self.assertEqual((refused.exception.word, refused.exception.key, refused.exception.command["timeout"]), ("bad-value", "timeout", 0))
        for op in ("drain", "watch"):
            self.assertRaises(ValueError, executor.ask_all, [LIST, {"op": op}])
        self.assertEqual(executor.ask({"op": "tidy"}), {"end": "done"})
        self.assertEqual(executor.leave(), 0)
        self.assertRaises(ocfexec.Ended, executor.ask, LIST)

    def test_methods(self):
        """each command has a method, whose values have the line at hand"""
        self.agent("Prints", "[ $1 = meta-data ] || exit 7\nprintf '<agent name=\"%s\"/>\\n' \"$OCF_RESOURCE_TYPE\"\n")
        executor = self.executor("--journal", self.journal())
        executor.register("web", "test:Fast", {"self": "x"}, id="y", tag="z")
        executor.register("other", "test:Prints")
        self.assertEqual((executor.resources(), executor.info("web").params), (["web", "other"], {"self": "x", "id": "y", "tag": "z"}))
        executor.params("web", a="b")
        done = executor.result(executor.exec("web", "start", timeout=60_000, tag="t"), helper.PATIENCE)
        self.assertEqual((done.outcome, done.code, done.failed, done.tag, done.raw["key"]), ("done", 0, False, "t", "web_start_0"))
        self.assertEqual(executor.perform("other", "start").code, 7)
        call = executor.recur("web", 600_000, timeout=60_000)
        executor.result(call, helper.PATIENCE)
        info = executor.info("web")
        self.assertEqual(([(one.call, one.interval) for one in info.recurring], info.params), ([(call, 600_000)], {"a": "b"}))
        executor.cancel("web", 600_000)
        self.assertEqual([one.call for one in executor.history("web")], [done.call, call])
        web, other = executor.status()
        self.assertEqual((web.state, other.state, other.failed.code, other.raw["id"]), ("started", "failed", 7, "other"))
        self.assertEqual((executor.metadata("test:Prints"), executor.version()), ('<agent name="Prints"/>\n', executor.ready.version))
        with self.assertRaises(ocfexec.NoMetadata) as without:
            executor.metadata("test:None")
        self.assertEqual((without.exception.agent, without.exception.reason, without.exception.code), ("test:None", "missing", None))
        executor.forget("web")
        executor.unregister("other")
        self.assertEqual((executor.history("web"), executor.resources(), executor.tidy()), ([], ["web"], "done"))
        self.assertRaises(ValueError, executor.register, "a", "Fast")

    def test_withdrawn(self):
        """an action that is withdrawn from the queue is in the history, and no result comes"""
        executor = self.executor("--memory")
        executor.register("s", "test:Slow")
        first, second = executor.exec("s", "start"), executor.exec("s", "stop")
        executor.withdraw("s", second)
        self.assertEqual(executor.result(first, helper.PATIENCE).outcome, "done")
        self.assertEqual(([one.outcome for one in executor.history("s")], executor.results()), (["cancelled", "done"], []))

    def test_ready(self):
        """it has the ready line of the program, also after a report that is longer than a pipe"""
        folder, names, version = self.journal(), [f"r{number}" for number in range(120)], helper.run("--version").stdout.decode().split()[1]
        executor = self.executor("--journal", folder)
        self.assertEqual(self.said(executor.ready), (version, folder, 0, 0, 0))
        executor.ask_all([register(name, "Slow") for name in names])
        executor.ask_all([action(name, "start", timeout=60_000) for name in names for _ in range(30)])
        self.begun(1)
        executor.kill()
        executor.start()
        found = [result.outcome for result in executor.reported]
        # on a busy machine some have ended before; a pipe has 65,536 bytes, and a line of the report more than 100
        self.assertGreater(len(found), 1000)
        self.assertEqual(self.said(executor.ready), (version, folder, 120, found.count("interrupted"), found.count("dropped")))
        self.assertEqual(executor.leave(), 0)

    def said(self, ready):
        return ready.version, ready.journal, ready.resources, ready.interrupted, ready.dropped

    def test_ends(self):
        """metadata and a tidy that have no text end with a word, which is no problem of a turn"""
        self.agent("Prints", "[ $1 = meta-data ] || exit 7\nprintf '<agent name=\"%s\"/>\\n' \"$OCF_RESOURCE_TYPE\"\n")
        executor = self.executor("--memory")
        kinds = [{"op": "meta", "provider": "test", "type": kind} for kind in ("Prints", "None", "Fast")]
        ends = [{"metadata": '<agent name="Prints"/>\n', "ok": True}, {"end": "missing"}, {"metadata": "", "ok": True}]
        self.assertEqual(executor.ask_all(kinds), ends)
        self.assertEqual(executor.ask_all([{**kind, "tag": "m"} for kind in kinds]), [{**end, "tag": "m"} for end in ends])
        self.assertEqual(executor.ask({"op": "tidy", "tag": ""}), {"end": "done", "tag": ""})
        self.assertEqual(executor.problems, [])

    def test_tags(self):
        """a tag is in the reply to its command, refused or not, and in the result of its call"""
        executor = self.executor("--memory")
        self.assertEqual(executor.ask({**register("a", "Fast"), "tag": "one"}), {"ok": True, "tag": "one"})
        self.assertEqual(executor.ask({**register("a", "Fast"), "tag": "two"}, allow=("exists",))["tag"], "two")
        tags = [f"\u00e9 {number}" for number in range(20)]
        replies = executor.ask_all([action("a", "start", tag=tag) for tag in tags] + [action("a", "stop")])
        self.assertEqual([reply.get("tag") for reply in replies], [*tags, None])
        results = [executor.result(reply["call"], helper.PATIENCE) for reply in replies]
        self.assertEqual([result.tag for result in results], [*tags, None])
        with self.assertRaises(ocfexec.Refused) as refused:
            executor.ask({**LIST, "tag": "x" * 65})
        self.assertEqual(refused.exception.word, "bad-value")
        self.assertEqual(executor.leave(), 0)

    def test_calls(self):
        """a result is found by its call, and the others stay; a call whose result was taken has no other one"""
        executor = self.executor("--memory")
        executor.ask_all([register(name, "Fast") for name in "abc"])
        calls = [executor.exec(name, "start") for name in "abc"]
        self.assertEqual(executor.result(calls[1], helper.PATIENCE).id, "b")
        others = [executor.result(call, helper.PATIENCE) for call in (calls[0], calls[2])]
        self.assertEqual(([result.id for result in others], executor.results()), (["a", "c"], []))
        self.assertRaises(ocfexec.Late, executor.result, calls[1], 0.1)

    def test_waits(self):
        """a result that came with a reply can be taken at once, and events end at their limit"""
        executor = self.executor("--memory")
        executor.register("n", "test:Nothing")
        executor.exec("n", "start")
        self.eventually("the result", lambda: executor.history("n"))
        executor.resources()
        began = time.monotonic()
        self.assertTrue(executor.wait(120), "the reply has come")
        self.took_less(20, time.monotonic() - began, "what is there at once")
        self.assertEqual([result.outcome for result in executor.events(timeout=0)], ["not-started"])
        self.assertEqual([*executor.events(timeout=0.05)], [])
        self.assertFalse(executor.wait(0), "nothing waits")

    def test_many(self):
        """commands and replies longer than all pipes are written and read at the same time"""
        executor = self.executor("--memory", patience=240)
        long = {f"p{number}": "x" * 1000 for number in range(15)}
        executor.register("a", "test:Fast", long)
        replies = executor.ask_all([{"op": "params", "id": "a", "params": long}, INFO] * 500)
        self.assertEqual([len(reply["params"]) for reply in replies[1::2]], [15] * 500)

    def test_late(self):
        """a reply that does not come in time is ignored when it comes, and the next one is that of its own command"""
        executor = self.executor("--memory")
        os.kill(executor.pid, signal.SIGSTOP)
        with self.assertRaises(ocfexec.Late) as late:
            executor.ask(LIST, timeout=0.2)
        self.assertEqual((late.exception.what, late.exception.seconds), ("the reply to list", 0.2))
        os.kill(executor.pid, signal.SIGCONT)
        self.assertEqual(executor.ask(register("a", "Fast"), timeout=helper.PATIENCE), {"ok": True})

    def test_late_start(self):
        """an opening that is late goes on with the next start, and can be killed; then another start opens the journal"""
        folder = self.journal()
        for word in ("goes on", "is killed"):
            executor = ocfexec.Executor(["sh", "-c", 'kill -STOP $$; exec "$@"', "sh", *self.words("--journal", folder)])
            self.addCleanup(ended, executor)
            for _ in range(3):
                self.assertRaises(ocfexec.Late, executor.start, 0.1)
            self.assertRaises(ocfexec.NotStarted, lambda one=executor: one.ready)
            if word == "is killed":
                self.assertEqual(executor.kill(), -signal.SIGKILL)
                executor.command_line = self.words("--journal", folder)
            else:
                self.eventually("it has stopped", lambda one=executor: is_stopped(one.pid))
                os.kill(executor.pid, signal.SIGCONT)
            self.assertEqual(executor.start(helper.PATIENCE).journal, folder)
            self.assertRaises(ocfexec.AlreadyRunning, executor.start)
            self.assertEqual(executor.leave(), 0)

    def test_late_leave(self):
        """a program that takes longer to leave goes on leaving with the next call"""
        self.agent("Gate", f"until [ -e {self.here}/open ]; do sleep 0.05; done\n")
        executor = self.executor("--journal", self.journal())
        executor.register("g", "test:Gate")
        call = executor.exec("g", "start", timeout=600_000)
        self.eventually("it runs", lambda: executor.info("g").running)
        self.assertRaises(ocfexec.Late, executor.leave, 0.2)
        with open(self.place("open"), "w", encoding="ascii"):
            pass
        self.assertEqual(executor.leave(), 0)
        self.assertEqual([(result.call, result.outcome) for result in executor.results()], [(call, "done")])

    def test_states(self):
        """before a start, and after an end, each call says so, and a start leads back"""
        executor = ocfexec.Executor(self.words("--memory"))
        self.addCleanup(ended, executor)
        calls = (lambda: executor.ask(LIST), executor.resources, lambda: [*executor.events(0)], lambda: executor.result(1), executor.leave,
                 executor.close, executor.kill, executor.fileno, lambda: executor.ready, lambda: executor.pid)
        for call in calls:
            self.assertRaises(ocfexec.NotStarted, call)
        self.assertFalse(executor.is_running(), "it was not started")
        executor.start()
        self.assertEqual((executor.close(), executor.close(), executor.kill(), executor.leave()), (0, 0, 0, 0))
        for call in (lambda: executor.ask(LIST), executor.resources, lambda: [*executor.events(0)], lambda: executor.result(1)):
            self.assertRaises(ocfexec.Ended, call)
        executor.start()
        self.assertTrue(executor.is_running(), "it was started again")
        executor.command_line = [self.place("none")]
        executor.kill()
        self.assertRaises(FileNotFoundError, executor.start)
        executor.command_line = self.words("--memory")
        self.assertEqual(executor.start().resources, 0)

    def test_memory(self):
        """each program without a journal has numbers of its own, and all its results are delivered"""
        differences = []
        executor = self.executor("--memory", on_new_journal=differences.append)
        for _ in range(3):
            executor.register("a", "test:Fast")
            self.assertEqual(executor.perform("a", "start").run, 1)
            executor.kill()
            executor.start()
        self.assertEqual(differences, 3 * ["the program keeps no journal: calls and runs begin again at 1"])

    def test_identity(self):
        """a journal keeps its identity, and another one in its place is reported, all results of which are delivered"""
        folder, differences = self.journal(), []
        executor = self.executor("--journal", folder, on_new_journal=differences.append)
        identity = executor.ready.identity
        self.assertRegex(identity, "^[0-9a-f]{32}$")
        executor.register("a", "test:Fast")
        self.assertEqual(executor.perform("a", "start").run, 1)
        executor.kill()
        self.assertEqual((executor.start().identity, executor.ready.next_call, differences), (identity, 2, []))
        executor.kill()
        shutil.rmtree(folder)
        os.mkdir(folder)
        executor.start()
        self.assertNotEqual(executor.ready.identity, identity)
        self.assertEqual(differences, [f"the journal is another one, {executor.ready.identity}: its calls and runs are others"])
        executor.register("a", "test:Fast")
        self.assertEqual(executor.perform("a", "start").run, 1)

    def test_with(self):
        """a with statement starts the program and lets it leave; one that does not answer is killed"""
        with ocfexec.Executor(self.words("--memory"), patience=helper.PATIENCE) as executor:
            self.assertEqual(executor.resources(), [])
        self.assertEqual((executor.is_running(), executor.kill()), (False, 0))
        with ocfexec.Executor(self.words("--memory"), patience=helper.PATIENCE) as executor:
            os.kill(executor.pid, signal.SIGKILL)
        self.assertEqual(executor.kill(), -signal.SIGKILL)
        with self.assertRaises(KeyError), ocfexec.Executor(self.words("--memory"), patience=0.2) as executor:
            os.kill(executor.pid, signal.SIGSTOP)
            raise KeyError
        self.assertEqual((executor.is_running(), executor.kill()), (False, -signal.SIGKILL))

    def test_idle(self):
        """a wait for a reply calls the client's own function meanwhile, and a descriptor ends a wait for anything"""
        called, (wake, waker) = [], os.pipe()
        self.addCleanup(os.close, wake)
        self.addCleanup(os.close, waker)
        executor = self.executor("--memory", idle=lambda: called.append(0), wake=wake)
        executor.register("s", "test:Slow")
        executor.perform("s", "start", timeout=60_000)
        self.assertGreaterEqual(len(called), 3)
        os.write(waker, b"!")
        began = time.monotonic()
        self.assertFalse(executor.wait(120), "nothing has come but the waker's byte")
        self.assertEqual([*executor.events(120)], [])
        self.took_less(20, time.monotonic() - began, "what a byte wakes")

    def test_reported(self):
        """an opening reports interrupted and dropped actions, by call too; the next one reports nothing more"""
        folder = self.journal()
        executor = self.executor("--journal", folder)
        executor.register("s", "test:Slow")
        calls = [executor.exec("s", what) for what in ("start", "stop")]
        self.begun(1)
        self.assertEqual(executor.kill(), -signal.SIGKILL)
        executor.start()
        self.assertEqual([(result.call, result.outcome) for result in executor.reported],
                         [(calls[0], "interrupted"), (calls[1], "dropped")])
        self.assertEqual([executor.result(call, helper.PATIENCE).outcome for call in calls], ["interrupted", "dropped"])
        self.assertEqual(executor.leave(), 0)
        executor.start()
        self.assertEqual((executor.reported, executor.results(), len(executor.histories["s"])), ([], [], 2))

    def test_damaged(self):
        """a damaged journal, and one that another program holds, end the executor with a status and its meaning"""
        folder = self.journal_of("journal", b"\x01 no journal", b"")
        self.executor("--journal", self.journal("another"))
        for name, status, reason, is_final in ((folder, 3, "the journal is damaged", True),
                                               (self.place("another"), 5, "the journal could not be opened", False)):
            with self.assertRaises(ocfexec.Ended) as ended:
                self.executor("--journal", name)
            found = ended.exception
            self.assertEqual((found.status, found.signal, found.needs_administrator), (status, None, is_final))
            self.assertEqual((found.command_line[0], found.reason[:len(reason)]), (PROGRAM, reason))
            self.assertEqual(str(found), f"the executor ended with status {status}: {found.reason}")

    def test_killed(self):
        """the end by a signal has its number and its name"""
        executor = self.executor("--memory")
        executor.kill()
        with self.assertRaises(ocfexec.Ended) as ended:
            executor.version()
        found = ended.exception
        self.assertEqual((found.status, found.signal, found.needs_administrator), (-signal.SIGKILL, signal.SIGKILL, False))
        self.assertEqual(str(found), "the executor was ended by SIGKILL")

    def test_garbled(self):
        """a line that no executor writes is named, and so is a program that sends no ready line; both are ended"""
        for line, error in (("good morning", ocfexec.Garbled), ('{"ok":true,"resources":[]}', ocfexec.TooOld)):
            executor = ocfexec.Executor(self.talks(line))
            self.addCleanup(ended, executor)
            self.assertRaises(error, executor.start)
            self.assertFalse(executor.is_running(), "it was ended")
            executor.command_line = self.words("--memory")
            self.assertEqual(executor.start().resources, 0)

    def test_ignored(self):
        """signals that the client ignores have their default action in the program"""
        ignore = f"import signal, sys; sys.path.insert(0, {os.path.join(helper.TOP, 'python')!r})\nimport ocfexec\n"
        for name in ("SIGINT", "SIGQUIT"):
            ignore += f"signal.signal(signal.{name}, signal.SIG_IGN)\n"
        ignore += f"with ocfexec.Executor({self.words('--memory')!r}) as executor:\n"
        ignore += "    print(open(f'/proc/{executor.pid}/status').read())\n"
        done = subprocess.run([sys.executable, "-c", ignore], capture_output=True, text=True, timeout=helper.WHOLE)
        ignored = next(line.split()[1] for line in done.stdout.splitlines() if line.startswith("SigIgn:"))
        mask = sum(1 << (number - 1) for number in (signal.SIGINT, signal.SIGQUIT, signal.SIGCHLD))
        self.assertEqual(int(ignored, 16) & mask, 0, done.stderr)

    def test_threads(self):
        """threads that each have an executor of their own do not disturb each other"""
        found = []

        def works(name):
            with ocfexec.Executor(self.words("--memory"), patience=240) as executor:
                executor.register(name, "test:Fast")
                found.extend(executor.perform(name, "start").id for _ in range(10))
        threads = [threading.Thread(target=works, args=(name,)) for name in "abcd"]
        for thread in threads:
            thread.start()
        for thread in threads:
            thread.join()
        self.assertEqual(sorted(found), sorted(10 * "abcd"))

    @helper.slow
    def test_kills(self):
        """when the executor is killed at any moment, each result is reported once, and with the call that requested it"""
        dice = random.Random(helper.number("SEED", 20261127))
        folder, results, calls = self.journal(), [], []
        executor = self.executor("--journal", folder, "--orphans", "0")
        executor.ask_all([register(name, "Fast") for name in "abcd"])
        executor.ask_all([{"op": "recur", "id": name, "interval": 20} for name in "abcd"])
        began = time.monotonic()
        for _ in range(helper.number("KILLS", KILLS)):
            if time.monotonic() > began + LONGEST:
                break
            until = time.monotonic() + dice.uniform(0, 0.2)
            try:
                while time.monotonic() < until:
                    calls.append(executor.exec(dice.choice("abcd"), "start"))
                    executor.wait(0.01)
                    results += executor.results()
            except ocfexec.Refused as refused:
                self.assertEqual(refused.word, "queue-full")
            # its output up to here is not read before the kill
            time.sleep(dice.uniform(0, 0.03))
            executor.kill()
            executor.start()
        self.assertEqual(executor.leave(), 0)
        results += executor.results()
        runs = sorted(result.run for result in results if result.run)
        self.assertEqual(runs, list(range(1, len(runs) + 1)), "each run once")
        asked = [result.call for result in results if result.call in set(calls)]
        self.assertEqual(len(asked), len(set(asked)), "no result of a call twice")
        queued = {call for name in "abcd" for call in helper.replies(helper.shown(folder))[1 + 2 * "abcd".index(name)]["queued"]}
        self.assertEqual(set(calls) - set(asked), queued, "a result for each call that is not queued")


class Asynchronous(Case):
    def plays(self, play, *words, **how):
        """Runs a coroutine with an executor, which is ended after it."""
        async def played():
            executor = ocfexec.AsyncExecutor(self.words(*(words or ("--memory",))), **how)
            try:
                return await asyncio.wait_for(play(executor), 4 * helper.PATIENCE)
            finally:
                await executor._drop()
        return asyncio.run(played())

    def test_tasks(self):
        """tasks share an executor: each gets its own replies and results, and the others go to events"""
        async def play(executor):
            async with executor:
                await asyncio.gather(*[executor.register(name, "test:Fast") for name in "abcd"])
                monitor = await executor.recur("a", 20)

                async def watches():
                    async for result in executor.events():
                        if result.call != monitor:
                            return result
                watcher = asyncio.create_task(watches())
                done = await asyncio.gather(*[executor.perform(name, "start", tag=name) for name in "abcd" for _ in range(8)])
                self.assertEqual([result.tag for result in done], [name for name in "abcd" for _ in range(8)])
                states = [one.state for one in await executor.status()]
                other = await executor.exec("b", "stop")
                self.assertEqual((await watcher).call, other)
                return states
        self.assertEqual(self.plays(play), ["started"] * 4)

    def test_killed(self):
        """after a kill each wait ends, a start reports what was interrupted, and the result comes by its call"""
        async def play(executor):
            await executor.start()
            await executor.register("s", "test:Slow")
            call = await executor.exec("s", "start")
            await asyncio.to_thread(self.begun, 1)
            waits = asyncio.create_task(executor.result(call))
            await asyncio.sleep(0)
            self.assertEqual(await executor.kill(), -signal.SIGKILL)
            with self.assertRaises(ocfexec.Ended):
                await waits
            await executor.start()
            self.assertEqual([result.outcome for result in executor.reported], ["interrupted"])
            return (await executor.result(call, helper.PATIENCE)).outcome, await executor.leave()
        self.assertEqual(self.plays(play, "--journal", self.journal()), ("interrupted", 0))

    def test_states(self):
        """a late reply, a late start, a wrong line and a wrong use are errors from which a start leads back"""
        async def play(executor):
            self.assertEqual(await self.fails(executor.resources()), ocfexec.NotStarted)
            await executor.start()
            self.assertEqual(await self.fails(executor.start()), ocfexec.AlreadyRunning)
            os.kill(executor.pid, signal.SIGSTOP)
            self.assertEqual(await self.fails(executor.ask(LIST, timeout=0.2)), ocfexec.Late)
            os.kill(executor.pid, signal.SIGCONT)
            self.assertEqual(await executor.ask(register("a", "Fast")), {"ok": True})
            self.assertEqual(await self.fails(executor.register("a", "test:Fast")), ocfexec.Refused)
            self.assertEqual([one async for one in executor.events(timeout=0)], [])
            self.assertEqual((await executor.close(), await self.fails(executor.version())), (0, ocfexec.Ended))
            words, executor.command_line = executor.command_line, self.talks("good morning")
            self.assertEqual(await self.fails(executor.start()), ocfexec.Garbled)
            executor.command_line = ["sh", "-c", 'kill -STOP $$; exec "$@"', "sh", *words]
            self.assertEqual(await self.fails(executor.start(0.2)), ocfexec.Late)
            self.eventually("it has stopped", lambda: is_stopped(executor.pid))
            os.kill(executor.pid, signal.SIGCONT)
            return (await executor.start()).resources
        self.assertEqual(self.plays(play), 0)

    async def fails(self, awaited):
        """The kind of the error with which something ends."""
        try:
            return await awaited
        except ocfexec.Error as error:
            return type(error)

    def test_cancelled(self):
        """a task that is cancelled leaves the replies of the others in order"""
        async def play(executor):
            async with executor:
                os.kill(executor.pid, signal.SIGSTOP)
                tasks = [asyncio.create_task(executor.ask({"op": op, **more})) for op, more in
                         (("list", {}), ("version", {}), ("info", {"id": "a"}), ("status", {}))]
                await asyncio.sleep(0.1)
                tasks[1].cancel()
                os.kill(executor.pid, signal.SIGCONT)
                return [type(found) if isinstance(found, BaseException) else [*found] for found in
                        await asyncio.gather(*tasks, return_exceptions=True)]
        self.assertEqual(self.plays(play), [["ok", "resources"], asyncio.CancelledError, ocfexec.Refused, ["ok", "status"]])

    def test_many(self):
        """in asyncio, too, commands and replies longer than all pipes are written and read at the same time"""
        async def play(executor):
            async with executor:
                long = {f"p{number}": "x" * 1000 for number in range(15)}
                await executor.register("a", "test:Fast", long)
                return await executor.ask_all([{"op": "params", "id": "a", "params": long}, INFO] * 300)
        self.assertEqual([len(reply["params"]) for reply in self.plays(play, patience=240)[1::2]], [15] * 300)


@helper.in_memory
class Behaviours(helper.Check):
    """The list of behaviours of library_cases.json, with an executor that plays their programs."""

    def plays(self, *driver):
        """Does the steps of all cases with this driver of a library, several at once."""
        with open(CASES, encoding="utf-8") as file:
            cases = json.load(file)
        with concurrent.futures.ThreadPoolExecutor(4) as pool:
            found = [*pool.map(lambda number: self.came(driver, number, cases[number]), range(len(cases)))]
        self.assertGreater(len(cases), 20)
        for case, printed in zip(cases, found):
            self.assertEqual(printed, (case["prints"], ""), case["name"])

    def came(self, driver, number, case):
        """What a driver prints, without the first results that a case skips, and its standard error."""
        words = [sys.executable, os.path.join(LIB, "player.py"), CASES, str(number), self.place(f"starts-{number}")]
        done = subprocess.run([*driver, CASES, str(number), *words], capture_output=True, text=True, timeout=helper.WHOLE)
        lines, skipped = [json.loads(line) for line in done.stdout.splitlines()], 0
        if "skips" in case:
            results = [line for line in lines if isinstance(line, str)][:case["skips"]]
            runs = [int(line.split()[2]) for line in results]
            self.assertEqual(runs, list(range(1, case["skips"] + 1)), case["name"])
            skipped = len(results)
        return [line for line in lines if not isinstance(line, str) or (skipped := skipped - 1) < 0], done.stderr

    def test_python(self):
        """the library does what its list of behaviours says"""
        self.plays(sys.executable, os.path.join(LIB, "driver.py"), "executor")

    def test_asyncio(self):
        """with asyncio, too, it does what the list says"""
        self.plays(sys.executable, os.path.join(LIB, "driver.py"), "asyncio")

    @unittest.skipUnless(GO, "install the package golang-go")
    def test_go(self):
        """the library in Go does what the list says"""
        self.goes("build", "-o", self.place("driver"), ".", folder=os.path.join(LIB, "driver"))
        self.plays(self.place("driver"))

    def goes(self, *words, folder, tool=GO):
        """A run of Go's tools, which need no network."""
        more = {"GOFLAGS": "-mod=mod", "GOPROXY": "off", "GOTOOLCHAIN": "local", "CGO_ENABLED": "0"}
        home = {} if os.environ.get("HOME") else {"HOME": self.here}
        done = subprocess.run([tool, *words], cwd=folder, env={**os.environ, **more, **home}, capture_output=True, text=True)
        self.assertEqual((done.returncode, done.stdout, done.stderr), (0, "", ""))

    @unittest.skipUnless(GO, "install the package golang-go")
    def test_go_form(self):
        """gofmt and go vet find nothing in what is written in Go"""
        for folder in (os.path.join(helper.TOP, "examples/go"), os.path.join(LIB, "driver")):
            self.goes("vet", "./...", folder=folder)
            self.goes("-l", ".", folder=folder, tool="gofmt")


@helper.in_memory
class Package(helper.Check):
    def test_version(self):
        """its version is that of the program, and all its names exist"""
        self.assertEqual(f"ocfexec {ocfexec.__version__}\n", helper.run("--version").stdout.decode())
        self.assertEqual([name for name in ocfexec.__all__ if not hasattr(ocfexec, name)], [])

    def test_same_names(self):
        """both executors have the same methods with the same parameters, except those for a program that waits for nothing"""
        kinds = (ocfexec.Executor, ocfexec.AsyncExecutor)
        names = [{name for name in vars(kind) if not name.startswith("_")} for kind in kinds]
        self.assertEqual(names[0] - {"fileno", "replies", "submit"}, names[1])
        for name in names[1]:
            parameters = [[(one.name, one.kind, one.default) for one in inspect.signature(getattr(kind, name)).parameters.values()]
                          for kind in kinds]
            self.assertEqual(*parameters, name)

    def test_installed(self):
        """an installation has it where its python3 looks for packages"""
        python = shutil.which("python3", path="/usr/bin") or sys.executable
        done = subprocess.run([os.path.join(helper.TOP, "package/python.sh"), self.here, "/usr"], capture_output=True, text=True)
        self.assertEqual((done.returncode, done.stderr), (0, ""))
        folder = self.place("usr/lib/python3/dist-packages")
        self.assertTrue(os.path.exists(f"{folder}/ocfexec/py.typed"), "it has types")
        done = subprocess.run([python, "-c", "import ocfexec; print(ocfexec.__version__, ocfexec.__file__)"], capture_output=True,
                              text=True, cwd="/", env={"PYTHONPATH": folder, "PYTHONDONTWRITEBYTECODE": "1"})
        self.assertEqual(done.stdout, f"{ocfexec.__version__} {folder}/ocfexec/__init__.py\n", done.stderr)

    @unittest.skipUnless(shutil.which("mypy"), "install the package mypy")
    def test_types(self):
        """mypy passes it, the client of examples and a program that uses it, and refuses a wrong use"""
        package, examples = os.path.join(helper.TOP, "python"), os.path.join(helper.TOP, "examples")
        names = ("client", "agents", "alerts", "calls", "control", "kept", "ocfctl", "orders", "output", "resources", "targets")
        clients = [os.path.join(examples, f"{name}.py") for name in names]
        wrong = TYPED.replace("call: int", "call: str")
        for text, status in ((TYPED, 0), (wrong, 1)):
            with open(self.place("uses.py"), "w", encoding="ascii") as file:
                file.write(text)
            done = subprocess.run(["mypy", "--strict", "--cache-dir", self.place("cache"), f"{package}/ocfexec", self.place("uses.py"),
                                   *clients], capture_output=True, text=True, env={**os.environ, "MYPYPATH": f"{package}:{examples}"})
            self.assertEqual(done.returncode, status, done.stdout + done.stderr)
