"""An action that is run once. Its status is that of its agent, or says why there is none. Its agent finds exactly the variables of an
action, and writes to the program's output. Past its timeout it has ended with everything that it started."""
import os
import signal
import time

import helper


class Once(helper.Check):
    def once(self, *words, **how):
        done = helper.run("once", "--root", self.here, *words, **how)
        return done.returncode, done.stdout.decode(), done.stderr.decode()

    def test_codes(self):
        """The status is the agent's code, whatever it is, and 128 and the number of the signal that ended it."""
        self.agent("Ends", 'exit "$OCF_RESKEY_code"\n')
        for code in (0, 1, 5, 7, 8, 124, 125, 190, 255):
            self.assertEqual(self.once("test:Ends", "monitor", f"code={code}"), (code, "", ""))
        self.agent("Dies", 'kill -"$OCF_RESKEY_signal" $$\n')
        for signal in (9, 11, 15):
            self.assertEqual(self.once("test:Dies", "start", f"signal={signal}"), (128 + signal, "", ""))

    def test_output(self):
        """The agent's output is the program's output, each stream by itself, and the agent's input is empty."""
        self.agent("Talks", 'cat; echo out; echo "ocf-exit-reason:no" >&2; exit 6\n')
        self.assertEqual(self.once("test:Talks", "start", sent=b"unread"), (6, "out\n", "ocf-exit-reason:no\n"))
        self.assertEqual(self.once("test:Talks", "meta-data"), (6, "out\n", "ocf-exit-reason:no\n"))

    def test_variables(self):
        """The agent finds exactly the variables of an action of this resource, and for its metadata those without a resource."""
        self.agent("Env", "echo \"$1\"; env -0 | tr '\\0' '\\n' | grep -v -e ^PWD= -e ^SHLVL= -e ^_= -e ^OLDPWD= | sort\n")
        own = [f"OCF_ROOT={self.here}", "OCF_RA_VERSION_MAJOR=1", "OCF_RA_VERSION_MINOR=1", "OCF_RESOURCE_PROVIDER=test",
               "OCF_RESOURCE_TYPE=Env", "PATH=/usr/bin:/bin"]
        found = self.once("--path", "/usr/bin:/bin", "test:Env", "meta-data", "a=1")
        self.assertEqual(found, (0, "\n".join(["meta-data", *sorted(own), ""]), ""))
        named = ["OCF_RESKEY_a=2", "OCF_RESKEY_b=x=y", "OCF_RESOURCE_INSTANCE=web"]
        self.assertEqual(self.once("--path=/usr/bin:/bin", "--id", "web", "test:Env", "stop", "a=1", "b=x=y", "a=2"),
                         (0, "\n".join(["stop", *sorted(own + named), ""]), ""))
        pacemaker = ["OCF_CHECK_LEVEL=0", "OCF_RESKEY_CRM_meta_interval=0", "OCF_RESKEY_CRM_meta_name=monitor",
                     "OCF_RESKEY_CRM_meta_timeout=900", "OCF_RESOURCE_INSTANCE=once"]
        self.assertEqual(self.once("--path=/usr/bin:/bin", "--meta-variables", "--timeout", "900", "test:Env", "monitor"),
                         (0, "\n".join(["monitor", *sorted(own + pacemaker), ""]), ""))

    def test_timeout(self):
        """Past its timeout the status is 124, and no process that the agent started is left."""
        self.agent("Waits", 'sleep 60 & echo $! > "$OCF_RESKEY_pid"; wait\n')
        began = time.monotonic()
        self.assertEqual(self.once("--timeout", "300", "test:Waits", "start", f"pid={self.place('pid')}"), (124, "", ""))
        self.took_less(10, time.monotonic() - began, "an action with a timeout of 300 milliseconds")
        with open(self.place("pid"), encoding="ascii") as file:
            self.assertFalse(helper.is_alive(file.read().strip()), "what the agent started is gone")

    def test_level(self):
        """A monitor gets its level; no other action takes one but 0."""
        self.agent("Level", 'echo "$OCF_CHECK_LEVEL"\n')
        for level in ("0", "10", "20"):
            self.assertEqual(self.once("--level", level, "test:Level", "monitor"), (0, level + "\n", ""))
        self.assertEqual(self.once("--level", "0", "test:Level", "start")[0], 0)
        for words in (["--level", "10", "test:Level", "start"], ["--level", "0", "test:Level", "meta-data"]):
            self.assertEqual(self.once(*words), (125, "", "ocfexec: give --level with a monitor only\n"), words)

    def test_not_run(self):
        """The status is 125 if nothing was run, with a line that says why."""
        self.agent("Ends", "exit 0\n")
        for words, why in ((["test:None", "start"], "the agent was not started: "), (["Ends", "start"], "give an agent as "),
                           (["test:Ends", "fly"], "give an action: "), (["test:Ends", "start", "novalue"], "give parameters as "),
                           (["test:Ends", "start", "1a=b"], "give a parameter a name of "),
                           (["test:Ends", "start", "=b"], "give a parameter a name of "),
                           (["test:Ends", "start", "a=" + "x" * 1025], "give a parameter a value of at most 1024 bytes"),
                           (["test:Ends", "start", *(f"a{number}=b" for number in range(65))], "give at most 64 parameters"),
                           (["--id", "a/b", "test:Ends", "start"], "give --id "), (["--id", "..", "test:Ends", "start"], "give --id ")):
            code, out, err = self.once(*words)
            self.assertEqual((code, out, err.count("\n")), (125, "", 1), words)
            self.assertTrue(err.startswith("ocfexec: " + why), err)
        self.assertEqual(self.once("test:Ends", "start", "a=" + "x" * 1024, *(f"a{number}=b" for number in range(63)))[0], 0)

    def test_words(self):
        """The status is 125, which no agent has, if the arguments are not those of the command line."""
        for words in (["test:Ends"], [], ["--timeout", "0", "test:Ends", "start"], ["--timeout", "1s", "test:Ends", "start"],
                      ["--level", "5", "test:Ends", "monitor"], ["--level", "x", "test:Ends", "monitor"],
                      ["--nosuch", "test:Ends", "start"], ["--journal", self.here, "test:Ends", "start"],
                      ["--beside", "test:Ends", "start"], ["--root", "usr", "test:Ends", "start"], ["--of", "web"],
                      ["--of", "web", "--id", "web", "start"], ["--of", "web", "start", "a=1"]):
            code, out, err = self.once(*words)
            self.assertEqual((code, out), (125, ""), words)
            self.assertNotEqual(err, "")
        self.assertEqual(self.once("--help")[0], 0)


class OfAJournal(helper.Check):
    """The actions of a resource that is registered in a journal."""

    def setUp(self):
        super().setUp()
        self.folder = self.journal()
        self.agent("Env", 'echo "$1 $OCF_RESOURCE_INSTANCE $OCF_RESKEY_a $OCF_CHECK_LEVEL"\n')
        self.agent("Waits", '[ "$1" != start ] || { echo $$ > "$OCF_RESKEY_pid"; exec sleep 60; }\n')
        commands = helper.lines(helper.register("web", "Env", a="b c"), helper.register("slow", "Waits", pid=self.place("pid")))
        helper.run("run", "--root", self.here, "--journal", self.folder, sent=commands)

    def once(self, *words, **how):
        done = helper.run("once", "--root", self.here, *words, **how)
        return done.returncode, done.stdout.decode(), done.stderr.decode()

    def test_registered(self):
        """The agent gets the parameters that are registered, and the journal is not changed."""
        before = helper.parts(self.folder)
        self.assertEqual(self.once("--of", "web", "monitor", "--level", "10", "--journal", self.folder), (0, "monitor web b c 10\n", ""))
        self.assertEqual(self.once("--of", "web", "start", env={**os.environ, "OCFEXEC_JOURNAL": self.folder})[:2], (0, "start web b c \n"))
        self.assertEqual(helper.parts(self.folder), before)

    def test_unknown(self):
        """A resource or a journal that is not there is named as such, and nothing is run."""
        for words, why in ((["--of", "db", "--journal", self.folder], "no resource of this id"),
                           (["--of", "a/b", "--journal", self.folder], "give --id or --of the id of a resource"),
                           (["--of", "web", "--journal", self.here], "no journal here yet"),
                           (["--of", "web", "--journal", self.place("none")], "disk")):
            code, out, err = self.once(*words, "monitor")
            self.assertEqual((code, out), (125, ""), words)
            self.assertTrue(err.startswith("ocfexec: " + why), err)

    def starts(self):
        """An executor of the journal that runs a start, and the number of its agent."""
        server = self.started("serve", "--root", self.here, "--journal", self.folder)
        server.send(helper.action("slow", "start", timeout=50000))
        return server, self.numbers_in(self.place("pid"))[0]

    def test_busy(self):
        """While an action of the resource runs another is refused, unless it is to run beside that."""
        self.starts()
        self.assertEqual(self.once("--of", "slow", "monitor", "--journal", self.folder),
                         (125, "", "ocfexec: an action of this resource runs; give --beside to run another beside it\n"))
        self.assertEqual(self.once("--of", "slow", "monitor", "--beside", "--journal", self.folder), (0, "", ""))
        self.assertEqual(self.once("--of", "web", "monitor", "--journal", self.folder)[0], 0)

    def test_left(self):
        """What an action of a killed executor left counts as one that runs, until it has ended."""
        server, pid = self.starts()
        server.run.kill()
        server.run.wait()
        self.assertEqual(self.once("--of", "slow", "monitor", "--journal", self.folder)[0], 125)
        os.kill(pid, signal.SIGKILL)
        self.eventually("a monitor", lambda: self.once("--of", "slow", "monitor", "--journal", self.folder)[0] == 0)
