"""Pacemaker's own variables in the environment of agents: none without --meta-variables; with it the interval, the name and the timeout of
their own action; and a parameter of one of these names wins."""

import helper

# An agent that notes its environment under the name of its action, but what the shell itself sets.
NOTES = """env | LC_ALL=C sort | grep -v -e '^PWD=' -e '^SHLVL=' -e '^_=' > "$OCF_RESKEY_to.$1"
"""
# The variables of each call of this agent, besides its root and its parameter, and those of its monitor.
ALWAYS = {"OCF_RA_VERSION_MAJOR": "1", "OCF_RA_VERSION_MINOR": "1", "OCF_RESOURCE_INSTANCE": "r1", "OCF_RESOURCE_PROVIDER": "test",
          "OCF_RESOURCE_TYPE": "Notes", "PATH": "/usr/sbin:/usr/bin:/sbin:/bin"}
LEVEL = {"OCF_CHECK_LEVEL": "10"}
# What begins the names of Pacemaker's variables, among those of parameters; and the variables of each action.
META, OWN = "OCF_RESKEY_CRM_meta_", {"start": {"interval": "0", "name": "start", "timeout": "4321"},
                                     "monitor": {"interval": "12000", "name": "monitor", "timeout": "5000"}}
# Parameters of such names.
GIVEN = {"interval": "77", "other": "x"}


class MetaVariables(helper.Check):
    def setUp(self):
        super().setUp()
        self.agent("Notes", NOTES)

    def environment(self, action):
        """What an agent found in this action."""
        with open(self.place(f"noted.{action}"), encoding="utf-8") as file:
            return dict(line.split("=", 1) for line in file.read().splitlines())

    def ended(self, run, action, waits):
        """Lets the run wait, again and again, until this action has ended."""
        def notice():
            before = len(run.values())
            run.send(waits)
            run.awaits(lambda value: "end" in value, after=before)
            return [value for value in run.notices() if value["action"] == action]
        [found] = self.eventually(f"the end of {action}", notice)
        self.assertEqual((found["outcome"], found["code"]), ("done", 0), run.state())

    def find(self, own, *words, **given):
        """A start and a recurring monitor with these parameters find these variables of Pacemaker, and no others but those of each
        agent."""
        run = self.started("run", "--memory", "--root", self.here, *words)
        params = {f"CRM_meta_{name}": value for name, value in given.items()}
        run.send(helper.register("r1", "Notes", to=self.place("noted"), **params), helper.action("r1", "start", timeout=4321))
        self.ended(run, "start", {"op": "drain"})
        run.send({"op": "recur", "id": "r1", "interval": 12000, "timeout": 5000, "level": 10})
        self.ended(run, "monitor", {"op": "watch", "limit": 300})
        self.assertEqual(run.ends(), 0)
        for action, more in (("start", {}), ("monitor", LEVEL)):
            wanted = {**ALWAYS, "OCF_ROOT": self.here, "OCF_RESKEY_to": self.place("noted"), **more}
            self.assertEqual(self.environment(action), {**wanted, **{META + name: value for name, value in own[action].items()}}, action)

    def test_without(self):
        """without --meta-variables an agent finds none of Pacemaker's variables"""
        self.find({"start": {}, "monitor": {}})

    def test_with(self):
        """with --meta-variables an agent finds the interval, the name and the timeout of its own action"""
        self.find(OWN, "--meta-variables")

    def test_given(self):
        """a parameter of such a name is passed on without --meta-variables"""
        self.find({"start": GIVEN, "monitor": GIVEN}, **GIVEN)

    def test_given_wins(self):
        """a parameter of such a name is not replaced with --meta-variables, which adds the others"""
        self.find({action: {**own, **GIVEN} for action, own in OWN.items()}, "--meta-variables", **GIVEN)
