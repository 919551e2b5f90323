"""docs/protocol.schema.json describes the lines that the program reads and prints: the lines of FORMAT.md are valid, lines that no
program prints are not, and the program refuses as malformed exactly the commands that the schema refuses. Every other check validates
its lines against it, too."""
import json
import os
import re
import unittest

import helper
import schema

# refusals of the line itself, and not of its request
MALFORMED = ("syntax", "unknown-op", "bad-name", "bad-value")
REGISTER = {"op": "register", "id": "r1", "provider": "heartbeat", "type": "Dummy"}
TAKEN = [
    REGISTER,
    {**REGISTER, "params": {}},
    {**REGISTER, "params": {"a": "", "_b1": "x" * 1024}},
    {**REGISTER, "id": "clone:0"},
    {**REGISTER, "id": "x" * 64, "provider": ".a", "type": "a..b"},
    {**REGISTER, "params": {f"p{n}": "v" for n in range(64)}},
    {**REGISTER, "unknown": [1, 2]},
    *({"op": op, "id": "r1"} for op in ("unregister", "forget", "info", "history")),
    {"op": "params", "id": "r1", "params": {"a": "b"}},
    {"op": "exec", "id": "r1", "action": "start"},
    {"op": "exec", "id": "r1", "action": "stop", "timeout": 4294967295, "level": 0, "expect": 0},
    {"op": "exec", "id": "r1", "action": "monitor", "level": 20, "expect": 8},
    {"op": "recur", "id": "r1", "interval": 4294967295, "level": 10, "expect": 7},
    {"op": "cancel", "id": "r1", "interval": 1},
    {"op": "withdraw", "id": "r1", "call": 9007199254740991},
    {"op": "list"},
    {"op": "tidy"},
    {"op": "drain", "limit": 0},
    {"op": "watch", "limit": 1},
    {"op": "meta", "provider": "heartbeat", "type": "NoSuchAgent", "limit": 86400000},
]
# commands of `serve` alone, and those with a tag, which `run` does not know
SERVED = [
    {"op": "version"},
    {"op": "status"},
    {"op": "leave"},
    {"op": "status", "tag": "a \"quote\", a \\ and a\nnewline"},
    {**REGISTER, "tag": ""},
    {**REGISTER, "tag": "x" * 64},
    {"op": "list", "tag": "\u00e9" * 32},
]
# and commands that only `serve` refuses as malformed, each with the offending key
SERVED_FAULTY = [
    *(("tag", {"op": "list", "tag": tag}) for tag in (5, None, True, ["a"], {"a": "b"}, "x" * 65)),
    ("tag", {**REGISTER, "tag": "\u20ac" * 65}),
    ("id", {"op": "version", "id": "r1"}),
    ("json", {"op": "status", "json": True, "tag": 5}),
]
# commands that are refused as malformed, each with the offending key
FAULTY = [
    ("op", {}),
    ("op", {"op": 1}),
    ("op", {"op": "start", "id": "r1"}),
    ("type", {"op": "register", "id": "r1", "provider": "heartbeat"}),
    ("id", {**REGISTER, "id": ""}),
    ("id", {**REGISTER, "id": "."}),
    ("id", {**REGISTER, "id": ".."}),
    ("id", {**REGISTER, "id": "a/b"}),
    ("id", {**REGISTER, "id": "x" * 65}),
    ("provider", {**REGISTER, "provider": "a:b"}),
    ("type", {**REGISTER, "type": 5}),
    ("params", {**REGISTER, "params": []}),
    ("params", {**REGISTER, "params": {"a": 1}}),
    ("params", {**REGISTER, "params": {"1a": "b"}}),
    ("params", {**REGISTER, "params": {"a": "x" * 1025}}),
    ("params", {**REGISTER, "params": {"a": "x\0y"}}),
    ("params", {**REGISTER, "params": {f"p{n}": "v" for n in range(65)}}),
    ("params", {"op": "params", "id": "r1"}),
    ("action", {"op": "exec", "id": "r1", "action": "restart"}),
    ("level", {"op": "exec", "id": "r1", "action": "start", "level": 10}),
    ("expect", {"op": "exec", "id": "r1", "action": "stop", "expect": 7}),
    ("level", {"op": "exec", "id": "r1", "action": "monitor", "level": 5}),
    ("expect", {"op": "exec", "id": "r1", "action": "monitor", "expect": 1}),
    ("timeout", {"op": "exec", "id": "r1", "action": "start", "timeout": 0}),
    ("timeout", {"op": "exec", "id": "r1", "action": "start", "timeout": 4294967296}),
    ("timeout", {"op": "exec", "id": "r1", "action": "start", "timeout": "20s"}),
    ("interval", {"op": "recur", "id": "r1"}),
    ("interval", {"op": "recur", "id": "r1", "interval": 0}),
    ("call", {"op": "withdraw", "id": "r1", "call": 0}),
    ("call", {"op": "withdraw", "id": "r1", "call": 9007199254740992}),
    ("limit", {"op": "drain", "limit": 86400001}),
    ("limit", {"op": "watch"}),
    ("limit", {"op": "watch", "limit": 0}),
    ("type", {"op": "meta", "provider": "heartbeat"}),
    ("op", ["op"]),
]
REFUSED = [command for _, command in FAULTY]
NEVER = {"failed": None, "id": "r1", "queued": 0, "running": None, "since": None, "state": "never run"}
SHOWN = {**NEVER, "at_least": False, "executor": None, "held": None, "identity": None}
READY = {"dropped": 0, "identity": "0123456789abcdef" * 2, "interrupted": 1, "journal": "/var/lib/ocfexec", "kind": "ready",
         "next_call": 42, "ready": True, "resources": 3, "version": "0.2.0"}
NOTICE = {"action": "start", "at": 2, "call": 1, "code": 0, "expect": 0, "failed": False, "id": "r1", "interval": 0, "key": "r1_start_0",
          "kind": "notice", "name": "OCF_SUCCESS", "outcome": "done", "reason": None, "run": 1, "since": 1}
REPORT = {**NOTICE, "code": 1, "kind": "report", "name": "OCF_ERR_GENERIC", "outcome": "interrupted"}
NO_LINES = [
    {"ok": False},
    {"ok": True, "call": 0, "key": "r1_start_0"},
    {"error": "exists", "number": 7},
    {"error": "no-such-word", "number": 1},
    {"end": "failed"},
    {"meta": -1},
    {"ok": True, "resources": ["r1", "r1"]},
    {"action": "start", "call": 1, "code": 0, "id": "r1", "interval": 0, "name": "OCF_SUCCESS", "outcome": "cancelled", "run": 0},
    {"action": "start", "call": 1, "code": 256, "id": "r1", "interval": 0, "name": "OCF_SUCCESS", "outcome": "done", "run": 1},
    {"at": 1, "event": "boot", "id": "r1"},
    {"ok": True, "tag": 5},
    {"ok": True, "tag": "x" * 65},
    {"error": "exists", "number": 6, "tag": "a"},
    {"action": "start", "call": 1, "code": 0, "id": "r1", "interval": 0, "name": "OCF_SUCCESS", "outcome": "done", "run": 1, "tag": "a"},
    {"ok": True, "version": "ocfexec 0.2.0"},
    {"ok": True, "status": [NEVER, {**NEVER, "state": "fine"}]},
    {"ok": True, "status": NEVER},
    {**READY, "ready": False},
    {**READY, "journal": 5},
    {**READY, "interrupted": 257},
    {**READY, "tag": "a"},
    {**READY, "identity": "0123456789ABCDEF" * 2},
    {**READY, "identity": "0" * 31},
    {**READY, "next_call": 0},
    *({key: READY[key] for key in READY if key != left_out} for left_out in READY),
    {**READY, "kind": "reply"},
    {"ready": True},
    {"meta": 4, "tag": "a"},
    {"meta": 4, "kind": "reply"},
    {"metadata": "<?xml"},
    {"kind": "reply", "metadata": 4, "ok": True},
    {"kind": "notice", "ok": True},
    {"end": "idle", "kind": "trouble"},
    {"end": "full", "kind": "trouble", "tag": "a"},
    {"end": "idle", "tag": "a"},
    {**NOTICE, "kind": "report"},
    {**NOTICE, "lives": 4711},
    {**NOTICE, "outcome": "dropped"},
    *({key: NOTICE[key] for key in NOTICE if key != left_out} for left_out in ("kind", "reason", "failed")),
    {**REPORT, "kind": "notice"},
    {**REPORT, "tag": "a"},
    NEVER,
    {**NEVER, "tag": "a"},
    {**SHOWN, "tag": "a"},
    {**SHOWN, "identity": "F" * 32},
    {**SHOWN, "running": {"action": "start", "since": 5}},
]
# lines of status --json
SHOWN_LINES = [
    SHOWN,
    {**SHOWN, "executor": False, "identity": "0" * 32, "running": {"action": "start", "since": 5, "timeout": 20000}},
]
# and lines that serve prints
LINES = [
    READY,
    {**READY, "journal": None, "interrupted": 256, "dropped": 8192, "resources": 256},
    {**READY, "identity": None},
    NOTICE,
    {**NOTICE, "failed": True, "reason": "no such file", "signal": 9, "tag": "a"},
    REPORT,
    {**REPORT, "lives": 4711},
    {**REPORT, "outcome": "dropped", "run": 0},
    {"end": "full", "kind": "trouble"},
    *({"kind": "reply", **reply} for reply in (
        {"ok": True},
        {"ok": True, "version": "10.20.30"},
        {"ok": True, "status": [], "tag": ""},
        {"ok": True, "status": [NEVER], "tag": "a"},
        {"metadata": "", "ok": True, "tag": "a"},
        {"end": "no-text", "tag": "a"},
        {"code": 5, "end": "failed", "tag": "a"},
        {"error": "exists", "message": "this id is registered already", "number": 6, "tag": "a"},
        {"ok": True, "tag": "x" * 64},
        {"call": 1, "key": "r1_start_0", "ok": True, "tag": "a"},
        {"ok": True, "resources": ["r1"], "tag": "a"},
        {"ok": True, "results": [], "tag": "a"},
    )),
]


def documented():
    """Each whole line of the program in FORMAT.md, and each command there."""
    with open(os.path.join(helper.TOP, "docs/FORMAT.md"), encoding="utf-8") as file:
        text = file.read()
    for found in re.findall(r"`(\{.*?\})`", text) + re.findall(r"^    (\{.*\})$", text, re.MULTILINE):
        if "{..}" not in found and "[..]" not in found and "N}" not in found and "{\"end\":..}" not in found:
            yield json.loads(found)


@unittest.skipIf(schema.lines() is None, "there is no python3-jsonschema")
class Schema(helper.Check):
    def test_schema(self):
        """the schema conforms to its own standard"""
        schema.library().Draft202012Validator.check_schema(schema.schema())

    def test_documented(self):
        """each line of FORMAT is a line of the schema, or a command of it"""
        found, commands = list(documented()), schema.validator_of("command")
        self.assertGreater(len(found), 10)
        for value in found:
            kind = commands if "op" in value else schema.lines()
            self.assertTrue(kind.is_valid(value), json.dumps(value))

    def test_no_lines(self):
        """a line that no program prints is invalid"""
        for value in NO_LINES:
            self.assertFalse(schema.lines().is_valid(value), json.dumps(value))

    def test_lines(self):
        """a line that serve or status prints is valid"""
        for value in LINES + SHOWN_LINES:
            self.assertTrue(schema.lines().is_valid(value), json.dumps(value))
        for value in LINES:
            self.assertTrue(schema.validator_of("served_line").is_valid(value), json.dumps(value))

    def test_served_alone(self):
        """keys and operations of serve alone are accepted or refused as by the schema; run knows neither these words nor a tag"""
        commands = schema.validator_of("served_command")
        for key, command in [(None, command) for command in SERVED] + SERVED_FAULTY:
            asked = json.dumps(command)[:200]
            of_run, of_serve = [helper.replies(helper.run(word, "--memory", "--root", self.here, sent=helper.lines(command)).stdout)[0]
                                for word in ("run", "serve")]
            self.assertEqual(commands.is_valid(command), key is None, asked)
            self.assertEqual("error" in of_run, command["op"] in ("version", "status", "leave"), asked)
            self.assertEqual([of_serve.get("error"), of_serve.get("key")], ["bad-value", key] if key else [None, None], asked)

    def test_served(self):
        """serve refuses like run, and also unknown keys: with the offending key, and a sentence"""
        commands = schema.validator_of("served_command")
        for key, command in [(None, command) for command in TAKEN] + FAULTY:
            asked, key = json.dumps(command)[:200], "unknown" if "unknown" in command else key
            of_run, of_serve = [helper.replies(helper.run(word, "--memory", "--root", self.here, sent=helper.lines(command)).stdout)[0]
                                for word in ("run", "serve")]
            self.assertEqual(commands.is_valid(command), key is None, asked)
            self.assertEqual(helper.bare(of_serve), {"error": "bad-value", "number": 4} if key == "unknown" else of_run, asked)
            self.assertNotIn("message", of_run, asked)
            if key:
                self.assertEqual(of_serve["key"], key, asked)
                wanted = {"unknown": "no such key", "op": " operation|op must be "}.get(key, f"{key} must be ")
                self.assertRegex(of_serve["message"], wanted, asked)

    def test_commands(self):
        """the program refuses as malformed exactly the commands that the schema refuses"""
        commands = schema.validator_of("command")
        for command in TAKEN + REFUSED:
            self.assertEqual(commands.is_valid(command), command in TAKEN, json.dumps(command))
            done = helper.run("run", "--memory", "--root", self.here, sent=helper.lines(command))
            first = helper.replies(done.stdout)[0]
            self.assertEqual(first.get("error") in MALFORMED, command in REFUSED, f"{json.dumps(command)[:200]}: {first}")
