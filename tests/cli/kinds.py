"""Each line of serve says in its key `kind` what it is, and no line of run has that key. A reply comes before the notices of its call. A
failed action has the reason that its agent wrote. A line may end in a carriage return."""
import json
import os

import helper
import schema
from helper import action, register

# An agent that writes what its parameter `says` to its standard error, and ends with its parameter `code`; or one that is never done.
SAYS = """[ "$OCF_RESKEY_code" = sleep ] && exec sleep 60
printf "$OCF_RESKEY_says" "$1" >&2
exit "${OCF_RESKEY_code:-0}"
"""
# one command of each operation, the last of which ends the session
ALL = [
    register("a", "Says"), register("b", "Says"), action("a", "start"), {"op": "recur", "id": "a", "interval": 3_600_000},
    {"op": "cancel", "id": "a", "interval": 3_600_000}, {"op": "withdraw", "id": "a", "call": 9}, {"op": "params", "id": "a", "params": {}},
    {"op": "forget", "id": "a"}, {"op": "list"}, {"op": "info", "id": "a"}, {"op": "history", "id": "a"}, {"op": "tidy"},
    {"op": "drain"}, {"op": "watch", "limit": 1}, {"op": "meta", "provider": "test", "type": "None"}, {"op": "unregister", "id": "b"},
    {"op": "status"}, {"op": "version"}, {"op": "nothing"}, {"op": 5}, {"op": "leave"},
]


def values(out):
    """The lines of an output, whole."""
    return [json.loads(line) for line in out.splitlines()]


class Kinds(helper.Check):
    def setUp(self):
        super().setUp()
        self.agent("Says", SAYS)

    def served(self, *commands, words=("--memory",), text=None):
        """The lines of a session that gets these commands at once."""
        done = helper.run("serve", *words, "--root", self.here, sent=text or helper.lines(*commands))
        self.assertEqual(done.returncode, 0, done.stderr)
        return values(done.stdout)

    def test_kinds(self):
        """a reply to each line, one ready line, and a notice of each result"""
        found = self.served(*ALL)
        kinds = [value["kind"] for value in found]
        self.assertEqual(kinds[0], "ready")
        self.assertEqual(kinds.count("reply"), len(ALL))
        self.assertEqual(kinds.count("notice"), 1)
        self.assertEqual(len(kinds), len(ALL) + 2)
        self.assertEqual([value for value in found if (value["kind"] == "notice") != ("outcome" in value)], [])

    def test_run(self):
        """no line of run has a kind, also if it is refused"""
        commands = [command for command in ALL if command["op"] != "meta"]
        done = helper.run("run", "--memory", "--root", self.here, sent=helper.lines(*commands))
        self.assertEqual([value for value in values(done.stdout) if "kind" in value], [])

    def test_schema(self):
        """the schema distinguishes the lines of serve by their kind"""
        if schema.library() is None:
            self.skipTest("there is no python3-jsonschema")
        of_serve, kinds = schema.validator_of("served_line"), schema.schema()["$defs"]["served_line"]["discriminator"]["mapping"]
        for value in self.served(*ALL):
            self.assertTrue(of_serve.is_valid(value), value)
            self.assertEqual([kind for kind, place in kinds.items() if schema.validator_at(place).is_valid(value)], [value["kind"]])

    def test_report(self):
        """a line of the report"""
        folder = self.journal()
        run = self.started("serve", "--journal", folder, "--root", self.here)
        run.send(register("a", "Says", code="sleep"), action("a", "start"), action("a", "stop"))
        self.eventually("a start that runs", lambda: self.runs(run))
        run.killed()
        found = self.served(words=("--journal", folder))
        self.assertEqual([(value["kind"], value.get("outcome"), value.get("reason")) for value in found],
                         [("report", "interrupted", None), ("report", "dropped", None), ("ready", None, None)])

    def runs(self, run):
        run.send({"op": "info", "id": "a"})
        return run.finds(lambda value: value.get("running"), 0.2)[1]

    def test_order(self):
        """in rounds of many commands at once, no notice comes before its reply, and each command has its reply"""
        names = [f"r{number}" for number in range(16)]
        run = self.started("serve", "--memory", "--root", self.here)
        run.send(*[register(name, "Says") for name in names])
        for _ in range(20):
            run.send(*[action(name, "monitor") for name in names for _ in range(2)])
        self.assertEqual(run.ends(), 0)
        found = values("".join(line for _, line in run.lines))
        replied = {value["call"]: place for place, value in enumerate(found) if value["kind"] == "reply" and "call" in value}
        noticed = {value["call"]: place for place, value in enumerate(found) if value["kind"] == "notice"}
        self.assertEqual(len([value for value in found if value["kind"] == "reply"]), 656)
        self.assertEqual([call for call, place in noticed.items() if place < replied[call]], [])
        self.assertGreater(len(noticed), 0)

    def test_reason(self):
        """with --logs, a notice of a failure has the last reason of that run, and others have none"""
        os.mkdir(self.place("logs"))
        words = ("--memory", "--logs", self.place("logs"))
        reasons = "noise\\nocf-exit-reason:no such file\\nocf-exit-reason:no such disk\\nmore\\n"
        commands = [register("a", "Says", code="6", says=reasons), action("a", "start"), {"op": "drain"},
                    {"op": "params", "id": "a", "params": {"code": "6", "says": "nothing known\\n"}}, action("a", "start"), {"op": "drain"},
                    {"op": "params", "id": "a", "params": {"says": reasons}}, action("a", "start"), {"op": "drain"},
                    {"op": "params", "id": "a", "params": {"code": "7", "says": "ocf-exit-reason:\\033 bell\\n"}},
                    action("a", "monitor", expect=7), action("a", "monitor"), {"op": "drain"}]
        found = [value for value in self.served(*commands, words=words) if value["kind"] == "notice"]
        self.assertEqual([(value["failed"], value["reason"]) for value in found],
                         [(True, "no such disk"), (True, None), (False, None), (False, None), (True, "\\x1b bell")])
        found = [value for value in self.served(*commands) if value["kind"] == "notice"]
        self.assertEqual({value["reason"] for value in found}, {None}, "without logs")

    def test_reasons_together(self):
        """the reason of a run is not that of the next one, which has begun when the notice is sent"""
        os.mkdir(self.place("logs"))
        commands = [register("a", "Says", code="6", says="ocf-exit-reason:run %s\\n")]
        found = self.served(*commands, *[action("a", what) for what in ("start", "stop", "promote", "demote")], {"op": "drain"},
                            words=("--memory", "--logs", self.place("logs")))
        self.assertEqual([value["reason"] for value in found if value["kind"] == "notice"],
                         [f"run {what}" for what in ("start", "stop", "promote", "demote")])

    def test_carriage_return(self):
        """a line that ends in a carriage return and a newline is taken, by both"""
        text = b"".join(json.dumps(command).encode() + b"\r\n" for command in (register("a", "Says"), {"op": "list"}))
        self.assertEqual([value.get("resources") for value in self.served(text=text) if value["kind"] == "reply"], [None, ["a"]])
        done = helper.run("run", "--memory", sent=text)
        self.assertEqual(values(done.stdout), [{"ok": True}, {"ok": True, "resources": ["a"]}])
