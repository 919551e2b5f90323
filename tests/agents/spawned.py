"""How agents are started, and what they find: through a program; agents that cannot be started, each with its cause; what an agent inherits
from its executor; and metadata in run: of each length and end, of agents that do not end, and the environment of the call for it."""
import contextlib
import os
import signal
import subprocess
import time

import helper
from helper import PROGRAM

DRAIN = {"op": "drain"}
DUMMY = {"provider": "pacemaker", "type": "Dummy"}
# A start and metadata through `echo`, and the replies: it prints its arguments.
THROUGH = helper.lines({"op": "register", "id": "r1", **DUMMY}, helper.action("r1", "start"), DRAIN, {"op": "meta", **DUMMY})
ECHOED = b"""\
{"ok":true}
{"call":1,"key":"r1_start_0","ok":true}
{"action":"start","call":1,"code":0,"id":"r1","interval":0,"name":"OCF_SUCCESS","outcome":"done","run":1}
{"end":"idle"}
{"meta":46}
/nowhere/resource.d/pacemaker/Dummy meta-data

"""
# Agents that cannot be started: the end of a question for metadata, the code of a start, and the cause, if these do not show it. There is
# no such file, its directory is a file, it may not be run, and it is a directory. Where the executor itself spawns agents, without groups,
# it also sees that a file has no first line, and that the program that its first line names is missing.
NOT_STARTED = (("test", "Nobody", "missing", 5, None), ("file", "Below", "other", 1, "Not a directory (os error 20)"),
               ("test", "Denied", "denied", 4, None), ("test", "Folder", "denied", 4, None))
BY_ITSELF = (("test", "Bare", "other", 1, "Exec format error (os error 8)"), ("test", "Lost", "missing", 5, None))
FILES = {"Denied": (0o644, "#!/bin/sh\nexit 0\n"), "Bare": (0o755, "exit 0\n"), "Lost": (0o755, "#!/nowhere/sh\nexit 0\n")}
# Shows what it inherits. The shell itself reads its signals, since it blocks some while it starts a command; 4096 is SIGPIPE.
SHOWS = r"""descriptors=$(for n in /proc/$$/fd/*; do echo "${n##*/} $(readlink "$n")"; done | grep -v 'pipe:\|/Shows$\| $')
{
    echo "$descriptors"
    pwd
    umask
    while read -r name value; do
        case $name in
        SigBlk:) echo "blocked $value" ;;
        SigIgn:) echo "SIGPIPE ignored $((0x$value & 4096))" ;;
        esac
    done < /proc/$$/status
    tr '\0' '\n' < /proc/$$/environ
} > "$OCF_RESKEY_to"
"""
SHOWN = """\
0 /dev/null
1 /dev/null
2 /dev/null
/
0027
blocked 0000000000000000
SIGPIPE ignored 0
OCF_RA_VERSION_MAJOR=1
OCF_RA_VERSION_MINOR=1
OCF_RESKEY_to={here}/shown
OCF_RESOURCE_INSTANCE=r1
OCF_RESOURCE_PROVIDER=test
OCF_RESOURCE_TYPE=Shows
OCF_ROOT={here}
PATH=/usr/sbin:/usr/bin:/sbin:/bin
"""
# The variables of a call for metadata.
VARIABLES = """\
OCF_RA_VERSION_MAJOR=1
OCF_RA_VERSION_MINOR=1
OCF_RESOURCE_PROVIDER=test
OCF_RESOURCE_TYPE=Environment
OCF_ROOT={here}
PATH=/usr/sbin:/usr/bin:/sbin:/bin
"""
# Metadata of the greatest length.
LINE, COUNT = "123456789012345", 4096
PRINTS = f"n=0; while [ $n -lt {COUNT} ]; do echo {LINE}; n=$((n+1)); done\n"
ASKED = {"Long": PRINTS, "Longer": PRINTS + "echo\n", "Fails": "echo half; exit 5\n", "Dies": "kill -9 $$\n",
         "Environment": "tr '\\0' '\\n' < /proc/$$/environ\n"}
# Agents whose metadata does not end: one does not end, one ends and leaves its output to another process, and one closes its output and
# goes on. (They sleep longer than an end is awaited, so that none of them ends by itself.)
ENDLESS = {"Hangs": "echo $$ > {here}/hangs; exec sleep 300\n", "Leaves": "echo half; sleep 300 & echo $! > {here}/left; exit 0\n",
           "Closes": "echo $$ > {here}/closes; echo all; exec sleep 300 > /dev/null\n"}
LIMIT = 1000


def meta(kind, provider="test", **more):
    return {"op": "meta", "provider": provider, "type": kind, **more}


class Spawned(helper.Check):
    def played(self, *commands, words=("--via", "sh"), root=None):
        """The output of a run of these commands, which ends well, and its standard error."""
        done = helper.run("run", "--memory", "--root", root or self.here, *words, sent=helper.lines(*commands))
        self.assertEqual(done.returncode, 0, done.stderr)
        return done.stdout, done.stderr.decode()

    def test_through(self):
        """an agent is started through a program, and so is the question for its metadata"""
        done = helper.run("run", "--memory", "--root", "/nowhere", "--via", "echo", sent=THROUGH)
        self.assertEqual((done.returncode, done.stdout), (0, ECHOED))
        done = helper.run("run", "--memory", "--root", "/nowhere", "--via", "cat", sent=THROUGH[:THROUGH.index(b'{"op": "meta"')])
        [notice] = [value for value in helper.replies(done.stdout) if helper.is_notice(value)]
        found = {key: notice[key] for key in ("code", "id", "interval", "name", "outcome")}
        self.assertEqual(found, {"code": 1, "id": "r1", "interval": 0, "name": "OCF_ERR_GENERIC", "outcome": "done"})

    def place_agents(self):
        folder = self.place("resource.d/test")
        os.makedirs(os.path.join(folder, "Folder"))
        for name, (mode, text) in FILES.items():
            with open(os.path.join(folder, name), "w", encoding="ascii") as file:
                file.write(text)
            os.chmod(os.path.join(folder, name), mode)
        with open(self.place("resource.d/file"), "wb"):
            pass

    def not_started(self, agents, *words):
        """No start of these agents begins, and no question for their metadata; standard error has the causes that nothing else shows."""
        commands = [command for number, (provider, kind, *_) in enumerate(agents, 1) for command in
                    (helper.register(f"r{number}", kind, provider), helper.action(f"r{number}", "start", timeout=5000),
                     meta(kind, provider))]
        out, err = self.played(*commands, DRAIN, words=words)
        found = helper.replies(out)
        self.assertEqual([value["end"] for value in found if "end" in value], [end for _, _, end, _, _ in agents] + ["idle"])
        self.assertEqual([(value["action"], value["outcome"], value["code"]) for value in found if helper.is_notice(value)],
                         [("start", "not-started", code) for _, _, _, code, _ in agents])
        asked = [(f"meta-data of {provider}:{kind}", cause) for provider, kind, _, _, cause in agents]
        runs = [(f"run {number} of r{number}", cause) for number, (*_, cause) in enumerate(agents, 1)]
        self.assertEqual(err.splitlines(), [f"ocfexec: {what} was not started: {cause}" for what, cause in asked + runs if cause])

    def test_not_started(self):
        """agents that cannot be started are reported, each with its code"""
        self.place_agents()
        self.not_started(NOT_STARTED)

    def test_not_started_by_itself(self):
        """without groups agents that cannot be started are reported, too, and also those that the launcher would have started"""
        self.place_agents()
        self.not_started(NOT_STARTED + BY_ITSELF, "--no-groups")

    def test_inherited(self):
        """an agent inherits no descriptor, signal, directory or variable from its executor, but its umask"""
        self.agent("Shows", SHOWS)
        self.note("lines", helper.lines(helper.register("r1", "Shows", to=self.place("shown")),
                                        helper.action("r1", "start", timeout=60_000), DRAIN))
        with contextlib.ExitStack() as files:
            # (plain files, as the agent leaves out pipes)
            given, out, other = [files.enter_context(open(self.place(name), mode)) for name, mode in
                                 (("lines", "rb"), ("out", "wb"), ("other", "wb"))]
            done = subprocess.run(
                [PROGRAM, "run", "--memory", "--root", self.here, "--via", "sh"], stdin=given, stdout=out, stderr=out, cwd=self.here,
                env={**os.environ, "OCF_SECRET": "1"}, pass_fds=[given.fileno(), other.fileno()], umask=0o027, check=False,
                preexec_fn=lambda: signal.signal(signal.SIGPIPE, signal.SIG_IGN), timeout=helper.WHOLE)
        with open(self.place("out"), encoding="utf-8") as out:
            self.assertEqual(done.returncode, 0, out.read())
        with open(self.place("shown"), encoding="utf-8") as shown:
            self.assertEqual(shown.read(), SHOWN.format(here=self.here))

    def test_metadata(self):
        """metadata of the greatest length is printed, longer one is not, and that of an agent that fails is a refusal"""
        for kind, text in ASKED.items():
            self.agent(kind, text)
        out, _ = self.played(*map(meta, ASKED))
        variables = VARIABLES.format(here=self.here)
        long, ends = COUNT * (LINE + "\n"), ['{"end":"too-long"}', '{"code":5,"end":"failed"}', '{"code":1,"end":"failed"}']
        wanted = [f'{{"meta":{len(long)}}}', long, *ends, f'{{"meta":{len(variables)}}}', variables, ""]
        self.assertEqual(out.decode(), "\n".join(wanted))
        self.assertEqual(len(long), 65536)

    def test_no_metadata(self):
        """an agent that is missing has no metadata"""
        self.assertEqual(self.played(meta("None"), words=[])[0], b'{"end":"missing"}\n')

    def is_ended(self, name):
        """Whether the process of this note has ended; a killed one is a zombie until init waits for it."""
        return not helper.is_alive(self.numbers_in(self.place(name))[0])

    def limited(self, *words):
        """Metadata that does not end is refused at its limit, and an agent that has not ended by itself is killed."""
        self.addCleanup(self.ends_left)
        for kind, text in ENDLESS.items():
            self.agent(kind, text.format(here=self.here))
        began = time.monotonic()
        out, _ = self.played(*[meta(kind, limit=LIMIT) for kind in ENDLESS], words=["--via", "sh", *words])
        took, least = time.monotonic() - began, len(ENDLESS) * LIMIT / 1000
        self.assertEqual(out, len(ENDLESS) * b'{"end":"limit"}\n')
        self.assertGreaterEqual(took, least, "seconds of three limits")
        self.took_less(2 * least, took, "three limits")
        for name in ("hangs", "closes"):
            self.eventually("the end of an agent past its limit", lambda name=name: self.is_ended(name))

    def ends_left(self):
        with contextlib.suppress(OSError, ValueError), open(self.place("left"), encoding="ascii") as file:
            os.kill(int(file.read()), signal.SIGKILL)

    def test_limit(self):
        """metadata that does not end is refused at its limit, and the agent is killed with what it started"""
        self.limited()
        self.eventually("the end of what an agent has left", lambda: self.is_ended("left"))

    def test_limit_alone(self):
        """without groups an agent is killed at its limit, too, but not what one has left that ended before"""
        self.limited("--no-groups")
        self.assertFalse(self.is_ended("left"), "what an agent has left is alive")
