"""A refusal of serve has the offending key of the line, if there is one, and a sentence that says what that key may hold. A refusal of run
has only its word and its number, and is otherwise the same. A key that an operation does not have is refused by name."""
import json

import helper
from helper import action, register

LARGE = {f"p{place}": "x" * 1024 for place in range(16)}
# Commands, and for each refused one its word, its key and a part of its sentence, from FORMAT.
SPOKEN = [
    (register("r1", "None"), None),
    (register("r1", "None"), ("exists", None, "a resource of this id is registered already")),
    ({"op": "info", "id": "r2"}, ("unknown-resource", "id", "no resource of this id")),
    ({"op": "cancel", "id": "r1", "interval": 5}, ("no-such-recurring", "interval", "no recurring monitor of this interval")),
    ({"op": "withdraw", "id": "r1", "call": 7}, ("not-queued", "call", "no action of this call is queued")),
    ({"op": "params", "id": "r1", "params": LARGE}, ("too-large", "params", "16384 bytes")),
    *[({"op": "recur", "id": "r1", "interval": 86400000 + place}, None) for place in range(8)],
    ({"op": "recur", "id": "r1", "interval": 86400000}, ("exists", None, "this resource has a recurring monitor of this interval already")),
    ({"op": "recur", "id": "r1", "interval": 86400009}, ("recurring-full", "id", "8 recurring monitors")),
    *[(action("r1", "stop"), None) for _ in range(32)],
    (action("r1", "stop"), ("queue-full", "id", "32 actions")),
    ({"op": "unregister", "id": "r1"}, ("busy", "id", "queued or running")),
    ({"op": "recur", "id": "r1", "interval": 86400000, "timeout": 0}, ("bad-value", "timeout", "a number from 1 to 4294967295")),
    ({"op": "exec", "id": "r1", "action": "start", "level": 10},
     ("bad-value", "level", "0, 10 or 20, and 0 where the action is no monitor")),
    ({"op": "exec", "id": "r1", "action": "restart"}, ("bad-value", "action", "start, stop, monitor, promote, demote, reload-agent or")),
    ({"op": "drain", "limit": -1}, ("syntax", "limit", "a number from 0 to 86400000")),
    ({"op": "watch", "limit": 0}, ("bad-value", "limit", "a number from 1 to 4294967295")),
    ({"op": "start", "id": "r1"}, ("unknown-op", "op", 'there is no operation start; use {"op":"exec","action":"start",..}')),
    *[({"op": what, "id": "r1"}, ("unknown-op", "op", f'use {{"op":"exec","action":"{what}",..}}'))
      for what in ("stop", "monitor", "promote", "demote", "reload-agent", "validate-all")],
    *[({"op": what}, ("unknown-op", "op", f"there is no operation {what}; op must be one of register, unregister, params, exec,"))
      for what in ("restart", "Register", 'a "\u00e9\0', "x" * 64)],
    ({"op": "x" * 65}, ("unknown-op", "op", "op must be one of register,")),
    ({"op": 5}, ("syntax", "op", "op must be one of register,")),
    ({}, ("syntax", "op", "op must be one of register,")),
]
# Lines that are no commands.
BROKEN = [b"x", b"{", b'"list"', b"[]", b" " * 131_073, b'{"op":"list","op":"list"}', b"\xff"]


def nested(depth, inner):
    return b'{"a":' * depth + inner + b"}" * depth


LONG = b"1" * 400
# JSON in which an object has a key twice: by two spellings, at any depth that is read, and where a number is too great for a value.
TWICE = [b'{"a":1,"\\u0061":2}', b'{"\\ud834\\udd1e":1,"\xf0\x9d\x84\x9e":2}', b'{"a/b":1,"a\\/b":2}', b'{"":1,"":2}',
         b'[[{"x":1},{"b":[{"c":1,"c":1}]}]]', b'{"op":"list","tag":"t","op":"list"}', b'{"a":{"b":1,"b":2},"a":3}',
         b'{"a":":","a":"\\\\"}', b'{"a":%s,"a":1}' % LONG, b'[1e400,{"a":1,"a":2}]',
         nested(126, b'{"b":1,"b":2}'), nested(127, b'{"b":1,"b":2}')]
# Lines with none of that, though they look alike: an escape that is no letter, other keys, a nested key again, and what is no JSON.
ONCE = [b'{"a":1,"a\\u0000":2}', b'{"a":1,"A":2}', b'{"a":{"a":1}}', b'[{"a":1},{"a":1}]', b'{"a":"\\"a\\":1"}',
        b'{"a":":\\\\","b":"{\\"b\\":1}"}', nested(127, b"{}"), nested(128, b'{"b":1,"b":2}'), b'{"a":%s}' % LONG,
        b'{"a":1,"a":2', b'{"a":1,"a":"\\ud834"}', b'{"\\udd1e":1,"\\udd1e":2}',
        b'{"a":1,"a":"\xff"}', b'{"a":1,"a":2}x', b'{"a":tr"ue","a":1}', b'{"a":1,"a":01}']


def asked(word, *commands):
    return helper.replies(helper.run(word, "--memory", sent=helper.lines(*commands)).stdout)


class Refusals(helper.Check):
    def test_keys(self):
        """each refusal has the offending key and a sentence in serve, and neither in run"""
        for word in ("run", "serve"):
            values = [value for value in asked(word, *[command for command, _ in SPOKEN]) if not helper.is_notice(value)]
            self.assertEqual(len(values), len(SPOKEN), word)
            for value, (command, wanted) in zip(values, SPOKEN):
                with self.subTest(word=word, command=json.dumps(command)[:100]):
                    self.assertEqual(value.get("error"), wanted and wanted[0])
                    if wanted and word == "serve":
                        self.assertEqual(value.get("key"), wanted[1])
                        self.assertIn(wanted[2], value["message"])
                    elif wanted:
                        self.assertEqual(set(value), {"error", "number"})

    def test_unknown(self):
        """a key that an operation does not have is refused by its name in serve, after all else, and ignored by run"""
        for key in ("timout", "Id", "", "interval", "x" * 100, "\u00e9\u0000\""):
            command = {"op": "exec", "id": "r1", "action": "start", key: 5}
            self.assertEqual(asked("run", command), [{"error": "unknown-resource", "number": 5}])
            refused = {"error": "bad-value", "key": key, "message": "this operation has no such key", "number": 4}
            self.assertEqual(asked("serve", command), [refused])
            self.assertEqual(asked("serve", {**command, "id": "/"})[0]["key"], "id")
        values = asked("serve", {"op": "list", "id": "r1"}, {"op": "leave", "now": True}, {"op": "list"})
        self.assertEqual([value.get("key") for value in values], ["id", "now", None])

    def test_broken(self):
        """a line that is no command has a sentence without a key in serve, or its op is missing"""
        for line in BROKEN:
            [value] = helper.replies(helper.run("serve", "--memory", sent=line + b"\n").stdout)
            self.assertEqual((value["error"], value["number"]), ("syntax", 1), line[:20])
            self.assertEqual(value.get("key"), "op" if line in (b'"list"', b"[]") else None, line[:20])
            wanted = "twice" if b"op" in line else "op must be" if "key" in value else "one JSON object of at most 131072 bytes"
            self.assertIn(wanted, value["message"])

    def test_twice(self):
        """serve distinguishes a key that occurs twice from all else, by any spelling and at any depth that JSON is read to"""
        sent = b"".join(line + b"\n" for line in TWICE + ONCE)
        values = helper.replies(helper.run("serve", "--memory", sent=sent).stdout)
        self.assertEqual(len(values), len(TWICE + ONCE))
        for line, value in zip(TWICE + ONCE, values):
            self.assertEqual(("twice" in value["message"], value["error"] == "syntax"), (line in TWICE, True), line[:60])
