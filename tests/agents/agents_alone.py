"""The agents of ocf_agents, called as by an executor: exit codes, the content of the state file, and the output; and then one of them under
ocfexec. AGENTS in the environment names their program."""
import os
import subprocess

import helper

AGENTS = os.environ.get("AGENTS") or os.path.join(helper.TOP, "crates/ocf_agents/out/ocf_agents")
FOLDER, TYPES = "/usr/lib/ocf/resource.d/pacemaker", ("Dummy", "Stateful")
METADATA = '<resource-agent name="{}"/>\n'
# Actions one after another, each with its code and with the content of the state file after it, which is None if there is none.
DUMMY = (("monitor", 7, None), ("start", 0, ""), ("monitor", 0, ""), ("start", 0, ""), ("validate-all", 0, ""), ("reload-agent", 0, ""),
         ("stop", 0, None), ("stop", 0, None), ("monitor", 7, None), ("validate-all", 0, None), ("promote", 3, None), ("demote", 3, None),
         ("reload", 3, None))
STATEFUL = (("monitor", 7, None), ("promote", 7, None), ("demote", 7, None), ("start", 0, "unpromoted"), ("monitor", 0, "unpromoted"),
            ("promote", 0, "promoted"), ("monitor", 8, "promoted"), ("start", 0, "promoted"), ("reload-agent", 0, "promoted"),
            ("demote", 0, "unpromoted"), ("monitor", 0, "unpromoted"), ("stop", 0, None), ("stop", 0, None), ("promote", 7, None))
# The same after a state file that no action writes, as one that is torn.
TORN = {"promoted\n": (("monitor", 1, "promoted\n"), ("demote", 0, "unpromoted"), ("stop", 0, None)),
        "promo": (("monitor", 1, "promo"), ("stop", 0, None)), "": (("monitor", 1, ""), ("stop", 0, None))}
# Refused calls, of which several reasons may hold: the code of the first, the type, the state file (True for the usual one) and the
# arguments.
REFUSED = ((2, "Dummy", True, []), (2, None, None, []), (5, "Foo", True, ["monitor"]), (5, "dummy", None, ["fly"]),
           (5, None, None, ["meta-data"]), (3, "Dummy", None, ["fly"]), (3, "Dummy", None, ["promote"]), (3, "Stateful", True, [""]),
           (6, "Dummy", None, ["monitor"]), (6, "Stateful", "", ["promote"]), (7, "Dummy", True, ["start", "monitor"]))
# Calls whose state file is a directory, or in a directory that is missing.
DIRECTORY = (("Dummy", "monitor", 1), ("Dummy", "start", 1), ("Stateful", "promote", 1), ("Dummy", "stop", 1))
NOWHERE = (("Dummy", "start", 1), ("Dummy", "monitor", 7), ("Dummy", "stop", 0))
# Actions of Dummy under ocfexec, each with its code.
UNDER = (("monitor", 7), ("start", 0), ("monitor", 0), ("stop", 0), ("monitor", 7))


class AgentsAlone(helper.Check):
    def setUp(self):
        super().setUp()
        self.state = self.place("state")

    def calls(self, code, *words, kind=None, state=None):
        """A call of the agents, which find no other variables, ends with this code; its standard output, and there is no other."""
        given = {"OCF_RESOURCE_TYPE": kind, "OCF_RESKEY_state": self.state if state is True else state}
        env = {name: value for name, value in given.items() if value is not None}
        done = subprocess.run([AGENTS, *words], env=env, stdin=subprocess.DEVNULL, capture_output=True, check=False,
                              timeout=helper.PATIENCE)
        self.assertEqual((done.returncode, done.stderr), (code, b""), f"{env}, {words}")
        return done.stdout.decode()

    def acts(self, kind, action, code, state=True):
        """A call of an agent through its own file, as by an executor; it prints nothing."""
        self.assertEqual(self.calls(code, f"{FOLDER}/{kind}", action, kind=kind, state=state), "", f"{kind} {action}")

    def content(self):
        if not os.path.exists(self.state):
            return None
        with open(self.state, encoding="ascii", newline="") as file:
            return file.read()

    def act_all(self, kind, steps):
        for action, code, after in steps:
            self.acts(kind, action, code)
            self.assertEqual(self.content(), after, f"the state file after {action}")

    def test_dummy(self):
        """Dummy: the code of each action, and its state file"""
        self.act_all("Dummy", DUMMY)

    def test_stateful(self):
        """Stateful: the code of each action, and the role in its state file"""
        self.act_all("Stateful", STATEFUL)

    def test_torn(self):
        """Stateful with a state file that no action writes: its monitor fails, and a demotion or a stop ends that"""
        for text, steps in TORN.items():
            with open(self.state, "w", encoding="ascii") as file:
                file.write(text)
            with self.subTest(text):
                self.act_all("Stateful", steps)

    def test_refused(self):
        """a refused call ends with the code of the first reason that holds"""
        for code, kind, state, words in REFUSED:
            with self.subTest(code=code, kind=kind, words=words):
                self.calls(code, *words, kind=kind, state=state)

    def test_failed(self):
        """calls on files that fail: the code of each action"""
        for kind, action, code in NOWHERE:
            self.acts(kind, action, code, self.place("none/state"))
        os.mkdir(self.state)
        for kind, action, code in DIRECTORY:
            self.acts(kind, action, code)

    def test_metadata(self):
        """metadata need no state file, and fail where they cannot be written"""
        for kind in TYPES:
            self.assertEqual(self.calls(0, f"{FOLDER}/{kind}", "meta-data", kind=kind), METADATA.format(kind))
        with open("/dev/full", "wb") as full:
            done = subprocess.run([AGENTS, "meta-data"], env={**os.environ, "OCF_RESOURCE_TYPE": "Dummy"}, stdout=full,
                                  stderr=subprocess.DEVNULL, check=False, timeout=helper.PATIENCE)
        self.assertEqual(done.returncode, 1)

    def test_under_ocfexec(self):
        """Dummy under ocfexec: the same codes, and the metadata of Stateful"""
        actions = [command for action, _ in UNDER for command in (helper.action("r1", action), {"op": "drain"})]
        sent = helper.lines(helper.register("r1", "Dummy", "pacemaker", state=self.state), *actions,
                            {"op": "meta", "provider": "pacemaker", "type": "Stateful"})
        done = helper.run("run", "--memory", "--via", AGENTS, sent=sent)
        self.assertEqual(done.returncode, 0, done.stderr)
        text, metadata = done.stdout.decode(), METADATA.format("Stateful")
        end = f'{{"meta":{len(metadata)}}}\n{metadata}\n'
        self.assertTrue(text.endswith(end), f"wanted at its end:\n{end}\nfound:\n{text}")
        found = helper.replies(text.removesuffix(end).encode())
        self.assertEqual([(value["action"], value["outcome"], value["code"]) for value in found if helper.is_notice(value)],
                         [(action, "done", code) for action, code in UNDER])
        self.assertIsNone(self.content())
