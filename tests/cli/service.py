"""The lines of serve to a manager besides the replies that run also has: the ready line, and what the opening found; the version; the
status of all resources; metadata as a text. And tags, which show that a reply belongs to its line and a notice to its call: on every kind
of line and of reply, in batches, among lines without a tag, for queued, recurring and withdrawn actions, for random lines, as many as are
kept, and none after an end. `run` knows no tags.
The environment may set ROUNDS and SEED."""
import json
import os
import resource
import time

import chance
import helper
from helper import action, register
from journal_format import CLOSED, MOST, head, state

LIST, STATUS, VERSION, LEAVE = {"op": "list"}, {"op": "status"}, {"op": "version"}, {"op": "leave"}
# An agent that ends with the code that a parameter names, by a signal, not soon, or once a file exists.
ENDS = """case $OCF_RESKEY_code in
kill) kill -9 $$ ;;
sleep) exec sleep 30 ;;
gate) until [ -e "$OCF_RESKEY_gate" ] || [ ! -e "$0" ]; do sleep 0.01; done ;;
*) exit "${OCF_RESKEY_code:-0}" ;;
esac
"""
LARGE = {f"p{place}": "x" * 1024 for place in range(16)}
REFUSED_TAG = {"error": "bad-value", "key": "tag", "message": "tag must be a text of at most 64 bytes", "number": 4}
# valid tags, of at most 64 bytes, and invalid ones
TAGS = ["", "a", " ", "x" * 64, "\u00e9" * 32, "\u20ac" * 21, "\U0001f389" * 16, 'a "quote", a \\ and a /', "\n\t\r\b\f\0\x01\x1f\x7f",
        "{}", "\u2028\ufeff\ufffd", "null", "tag"]
NO_TAGS = ["x" * 65, "x" * 63 + "\u00e9", "\u00e9" * 33, "\u20ac" * 22, "\U0001f389" * 17, "x" * 100_000, 5, -1, 1.5, None, True, [], ["a"],
           {}, {"tag": "a"}]
# the number of calls whose tags are kept
KEPT = 16_384


def tagged(command, tag):
    """A command with this tag; without a tag if it is None."""
    return command if tag is None else {**command, "tag": tag}


def timeless(value):
    """A value without the moments in it and in its parts."""
    if isinstance(value, dict):
        return {key: timeless(part) for key, part in value.items() if key not in ("since", "at")}
    return [timeless(part) for part in value] if isinstance(value, list) else value


def written(value):
    """A value as the program writes it."""
    return json.dumps(value, sort_keys=True, separators=(",", ":"), ensure_ascii=False)


def recur(name, interval, **more):
    return {"op": "recur", "id": name, "interval": interval, **more}


def meta(kind, **more):
    return {"op": "meta", "provider": "test", "type": kind, **more}


@helper.in_memory
class Service(helper.Check):
    def setUp(self):
        super().setUp()
        self.agent("Ends", ENDS)
        self.gate = self.place("gate")

    def serves(self, *words, **how):
        return self.started("serve", *(words or ["--memory"]), "--root", self.here, **how)

    def opens(self):
        """Lets the action that waits for its gate end."""
        with open(self.gate, "wb"):
            pass

    def asked(self, run, *commands):
        """The replies to these commands. Between them only notices come."""
        before = len(run.lines)
        run.send(*commands)
        return self.replied(run, before, len(commands))

    def replied(self, run, before, count):
        """This many replies, to as many lines."""
        def found():
            values = [helper.value_of(line) for _, line in run.lines[before:] if not line.startswith('{"action"')]
            return values if len(values) >= count else None
        return self.eventually(f"{count} replies", found) if count else []

    def notice(self, run, **wanted):
        """The notice of this call, as soon as it has come."""
        return run.awaits(lambda value: helper.is_notice(value, **wanted))[1]


class Ready(Service):
    def is_ready(self, run, **said):
        """It sends the ready line, with this: what it found, and its version."""
        found = {"dropped": 0, "identity": None, "interrupted": 0, "journal": None, "next_call": 1, "ready": True, "resources": 0,
                 "version": self.version(), **said}
        ready = run.ready()
        if found["journal"] is not None:
            self.assertRegex(ready["identity"], "^[0-9a-f]{32}$")
            found["identity"] = ready["identity"]
        self.assertEqual(ready, found)
        self.assertEqual(run.opening_lines[-1].decode(), written({**found, "kind": "ready"}) + "\n", "as it is written")

    def version(self):
        return helper.run("--version").stdout.decode().split()[1]

    def test_version(self):
        """the version is that of --version; another key is refused"""
        run = self.serves()
        self.assertEqual(helper.run("--version").stdout.decode(), f"ocfexec {self.version()}\n")
        self.assertEqual(self.asked(run, VERSION, {**VERSION, "id": "r1"}),
                         [{"ok": True, "version": self.version()},
                          {"error": "bad-value", "key": "id", "message": "this operation has no such key", "number": 4}])
        self.assertEqual(run.ends(), 0)

    def test_first(self):
        """it sends the ready line before any request, once, and without requests this is its only line"""
        run = self.serves()
        self.is_ready(run)
        self.assertEqual(run.values(), [])
        self.assertEqual(self.asked(run, LIST), [{"ok": True, "resources": []}])
        self.assertEqual(run.ends(), 0)
        done = helper.run("serve", "--memory")
        self.assertEqual((done.returncode, done.stdout.count(b"\n")), (0, 1))
        self.assertEqual(helper.run("run", "--memory").stdout, b"")

    def test_directory(self):
        """it names its directory as it was given"""
        os.mkdir(self.place('a "name" \u00e9\\'))
        for name in ('a "name" \u00e9\\', './a "name" \u00e9\\/', self.place('a "name" \u00e9\\')):
            run = self.serves("--journal", name, cwd=self.here)
            self.is_ready(run, journal=name)
            self.assertEqual(run.ends(), 0)
        run = self.serves(f"--journal={self.here}//.//{name.rsplit('/', 1)[1]}")
        self.is_ready(run, journal=f"{self.here}//.//{name.rsplit('/', 1)[1]}")

    def test_report(self):
        """the ready line comes after the report of its opening, and before the first reply; it counts the report and the resources"""
        folder, more = self.journal(), {"code": "gate", "gate": self.gate}
        run = self.serves("--journal", folder)
        self.is_ready(run, journal=folder)
        self.asked(run, *[register(name, "Ends", **more) for name in "abcd"], *[action(name, "start") for name in "ab"],
                   *[action("b", "stop")] * 3, recur("c", 50), {"op": "unregister", "id": "d"})
        self.eventually("three run", lambda: all(self.asked(run, {"op": "info", "id": name})[0]["running"] for name in "abc"))
        run.killed()
        done = helper.run("serve", "--journal", folder, "--root", self.here, "--orphans", "0", sent=helper.lines(LIST))
        found = [helper.value_of(line) for line in done.stdout.splitlines()]
        outcomes = [value.get("outcome", "ready" if "ready" in value else "reply") for value in found if value.get("interval") != 50][:7]
        self.assertEqual(sorted(outcomes[:5]), ["dropped"] * 3 + ["interrupted"] * 2)
        self.assertEqual(outcomes[5:], ["ready", "reply"])
        ready = helper.opened(done.stdout)[1]
        self.assertEqual({**ready, "identity": None},
                         {"dropped": 3, "identity": None, "interrupted": 3, "journal": folder, "next_call": 7, "ready": True,
                          "resources": 3, "version": self.version()})
        # (actions begun after that opening were ended with the input)
        self.assertEqual(helper.run("run", "--journal", folder).returncode, 0)
        run = self.serves("--journal", folder)
        self.is_ready(run, journal=folder, resources=3, next_call=7)

    def test_next_call(self):
        """the ready line has the call that the next accepted action or monitor gets"""
        folder = self.journal()
        run = self.serves("--journal", folder)
        self.is_ready(run, journal=folder)
        self.asked(run, register("a", "Ends"), {"op": "info", "id": "a"}, action("b", "start"))
        self.assertEqual(self.asked(run, action("a", "start"), action("a", "stop"))[0]["call"], 1)
        self.notice(run, call=2)
        self.assertEqual(run.ends(), 0)
        run = self.serves("--journal", folder)
        self.is_ready(run, journal=folder, resources=1, next_call=3)
        self.assertEqual(self.asked(run, recur("a", 70_000))[0]["call"], 3)
        self.assertEqual(run.ends(), 0)

    def test_orphan(self):
        """it is ready while an orphan of an interrupted action lives, whose number is in the report"""
        folder, begun = self.journal(), self.place("begun")
        self.agent("Notes", 'echo $$ > "$OCF_RESKEY_begun"\nexec sleep 600\n')
        run = self.serves("--journal", folder)
        self.asked(run, register("a", "Notes", begun=begun), action("a", "start", timeout=600_000))
        [pid] = self.numbers_in(begun)
        self.addCleanup(lambda: helper.is_alive(pid) and os.kill(pid, 9))
        run.killed()
        run = self.serves("--journal", folder)
        self.is_ready(run, journal=folder, interrupted=1, next_call=2, resources=1)
        self.assertTrue(helper.is_alive(pid), "it lives")
        self.assertEqual([helper.value_of(line)["lives"] for line in run.opening_lines[:-1]], [pid])
        self.assertEqual(run.ends(), 0)

    def test_not_opened(self):
        """if no journal is opened it sends nothing"""
        folder = self.journal_of("journal", b"\x01 no journal", b"")
        for words, status in ((["--journal", folder], 3), (["--journal", self.place("none")], 5), ([], 2)):
            done = helper.run("serve", *words)
            self.assertEqual((done.returncode, done.stdout), (status, b""))


class Statuses(Service):
    def is_as_printed(self, run, folder, *words, forgotten=()):
        """The status of all resources: what status --json prints for the same journal, with these words, has these keys and more, where the
        histories reach as far as its records. Those of forgotten resources do not: by the records they are unknown."""
        [found] = self.asked(run, STATUS)
        done = helper.run("status", "--json", "--journal", folder, *words)
        printed = [value for value in helper.replies(done.stdout) if "state" in value]
        for value in printed:
            if value["running"]:
                del value["running"]["timeout"]
            if value["id"] in forgotten:
                self.assertEqual(value["state"], "unknown")
                value["state"] = "never run"
        keys = ("failed", "id", "queued", "running", "since", "state")
        self.assertEqual(found, {"ok": True, "status": [{key: value[key] for key in keys} for value in printed]})
        return {value["id"]: value for value in found["status"]}

    def test_states(self):
        """the status of all resources is that of status --json: never run, in each other state, and with running and queued actions"""
        folder = self.journal()
        words = ("--logs", self.here)
        run = self.serves("--journal", folder, *words)
        self.assertEqual(self.is_as_printed(run, folder, *words), {})
        names = ["zz", "started", "failed", "stopped", "promoted", "signaled", "late", "none", "runs", "first"]
        self.agent("Fails", "echo ocf-exit-reason:a reason >&2\nexit 6\n")
        codes = {"signaled": "kill", "late": "sleep"}
        kinds = {"failed": "Fails", "none": "None"}
        self.asked(run, *[register(name, kinds.get(name, "Ends"), code=codes.get(name, "0")) for name in names])
        self.assertEqual([value["state"] for value in self.is_as_printed(run, folder, *words).values()], ["never run"] * len(names))
        does = {"stopped": "stop", "promoted": "promote"}
        calls = self.asked(run, *[action(name, does.get(name, "start"), timeout=300 if name == "late" else 20_000) for name in names[1:-2]])
        for reply in calls:
            self.notice(run, call=reply["call"])
        found = self.is_as_printed(run, folder, *words)
        self.assertEqual(list(found), names)
        self.assertEqual([value["state"] for value in found.values()],
                         ["never run", "started", "failed", "stopped", "promoted", "failed", "unknown", "failed", "never run", "never run"])
        self.assertEqual({name: value["failed"] for name, value in found.items() if value["failed"]}.keys(),
                         {"failed", "signaled", "late", "none"})
        self.assertEqual(found["failed"]["failed"]["reason"], "a reason")
        self.asked(run, {"op": "params", "id": "runs", "params": {"code": "gate", "gate": self.gate}}, action("runs", "start"),
                   action("runs", "stop"), action("runs", "monitor"))
        self.eventually("it runs", lambda: self.asked(run, STATUS)[0]["status"][8]["running"])
        found = self.is_as_printed(run, folder, *words)["runs"]
        self.assertEqual((found["state"], found["queued"], found["running"]["action"]), ("never run", 2, "start"))
        self.opens()
        self.notice(run, id="runs", action="monitor")
        self.asked(run, {"op": "unregister", "id": "started"}, {"op": "forget", "id": "failed"}, register("started", "Ends"))
        found = self.is_as_printed(run, folder, *words, forgotten=["failed"])
        self.assertEqual((list(found)[-1], found["started"]["state"], found["failed"]["state"]), ("started", "never run", "never run"))
        self.assertEqual(run.ends(), 0)

    def test_opened(self):
        """the same after an opening, which has interrupted a running action"""
        folder = self.journal()
        run = self.serves("--journal", folder)
        self.asked(run, register("a", "Ends", code="sleep"), register("b", "Ends"), action("a", "start"), action("a", "stop"))
        self.eventually("it runs", lambda: self.asked(run, {"op": "info", "id": "a"})[0]["running"])
        run.killed()
        run = self.serves("--journal", folder, "--orphans", "0")
        self.assertEqual([value["state"] for value in self.is_as_printed(run, folder).values()], ["unknown", "never run"])
        self.assertEqual(run.ends(), 0)

    def test_among(self):
        """in a batch of commands the status is that after the commands before it"""
        run = self.serves()
        found = self.asked(run, STATUS, register("a", "Ends"), STATUS, register("b", "Ends"), {"op": "unregister", "id": "a"}, STATUS)
        self.assertEqual([[one["id"] for one in value["status"]] for value in found if "status" in value], [[], ["a"], ["b"]])
        names = [f"r{place}" for place in range(255)]
        found = self.asked(run, *[register(name, "Ends") for name in names], STATUS)
        self.assertEqual([one["id"] for one in found[-1]["status"]], ["b", *names])
        self.assertEqual(self.asked(run, {**STATUS, "id": "b"})[0]["key"], "id")
        self.assertEqual(run.ends(), 0)

    def test_run(self):
        """run knows neither the version nor the status of all resources"""
        done = helper.run("run", "--memory", sent=helper.lines(STATUS, VERSION))
        self.assertEqual(helper.replies(done.stdout), [{"error": "unknown-op", "number": 2}] * 2)


class Metadata(Service):
    def setUp(self):
        super().setUp()
        self.agent("Prints", f'cat {self.here}/text\nexit "$(cat {self.here}/code)"\n')

    def answered(self, text, code=0, **more):
        """The reply of serve to a question for metadata if the agent prints these bytes, and the output of run."""
        for name, content in (("text", text), ("code", str(code).encode())):
            with open(self.place(name), "wb") as file:
                file.write(content)
        of_serve, of_run = [helper.run(word, "--memory", "--root", self.here, sent=helper.lines(meta("Prints", **more))).stdout
                            for word in ("serve", "run")]
        [line] = of_serve.splitlines(keepends=True)[1:]
        self.assertEqual(line.decode(), written(json.loads(line)) + "\n", "as it is written")
        return helper.value_of(line), of_run

    def test_texts(self):
        """metadata are one line with their text: with quotes, newlines and anything else in a text; run prints their bytes"""
        long = '"' * 65_536
        for text in ("", "<?xml version=\"1.0\"?>\n<agent name='x'>\n\t\\\n</agent>\n", "{}", '{"ok":true}\n', "\n\n",
                     "\u00e9\u20ac\U0001f389", "\0\x01\x1f\x7f\r\b\f\u2028\ufeff", long, "\u20ac" * 21_845):
            with self.subTest(text[:30]):
                of_serve, of_run = self.answered(text.encode())
                self.assertEqual(of_serve, {"metadata": text, "ok": True})
                self.assertEqual(of_run, b'{"meta":%d}\n' % len(text.encode()) + text.encode() + b"\n")

    def test_no_text(self):
        """serve does not repeat bytes that are not a text, and says so; run repeats them"""
        for text in (b"\xff", b"<agent>\xe9</agent>", b"\x80", b"\xc0\x80", b"\xed\xa0\x80", b"\xf4\x90\x80\x80", b"text\xe2\x82",
                     b"x" * 65_535 + b"\xc3"):
            with self.subTest(text[:30]):
                of_serve, of_run = self.answered(text)
                self.assertEqual(of_serve, {"end": "no-text"})
                self.assertEqual(of_run, b'{"meta":%d}\n' % len(text) + text + b"\n")

    def test_ends(self):
        """without metadata it reports the cause as run does, whatever the bytes are"""
        for text, code, value in ((b"x" * 65_537, 0, {"end": "too-long"}), (b"\xff" * 65_537, 0, {"end": "too-long"}),
                                  (b"\xff", 5, {"code": 5, "end": "failed"}), (b"half", 1, {"code": 1, "end": "failed"})):
            of_serve, of_run = self.answered(text, code)
            self.assertEqual((of_serve, helper.replies(of_run)), (value, [value]))
        self.agent("Denied", "exit 0\n")
        os.chmod(self.place("resource.d/test/Denied"), 0o644)
        run = self.serves()
        self.assertEqual(self.asked(run, meta("None"), meta("Denied")), [{"end": "missing"}, {"end": "denied"}])
        self.assertEqual(run.ends(), 0)


class Tags(Service):
    # one command after another, with every kind of reply, and some of their refusals
    KINDS = [
        (register("a", "Ends", tag="no tag"), None), (register("a", "Ends"), 6), (register("a b", "Ends"), 3),
        ({"op": "params", "id": "a", "params": {"code": "0"}}, None), ({"op": "params", "id": "a", "params": LARGE}, 12),
        (recur("a", 3_600_000), None), (recur("a", 3_600_000), 6), ({"op": "info", "id": "a"}, None), ({"op": "info", "id": "zz"}, 5),
        ({"op": "cancel", "id": "a", "interval": 5}, 10), ({"op": "cancel", "id": "a", "interval": 3_600_000}, None),
        *[(recur("a", 3_600_000 + place), None) for place in range(8)], (recur("a", 5), 9),
        ({"op": "withdraw", "id": "a", "call": 77}, 18), (LIST, None), (STATUS, None), (VERSION, None),
        (register("b", "Ends", code="sleep"), None), (action("b", "start", timeout=3000), None), (action("b", "stop"), None),
        ({"op": "unregister", "id": "b"}, 7), ({"op": "withdraw", "id": "b", "call": 11}, None), (action("a", "fly"), 4),
        (action("a", "start", level=10), 4), (action("a", "start", more=1), 4), ({"op": "exec", "id": "a"}, 1),
        ({"op": "exec", "id": "a", "action": 5}, 1), ({"op": "fly"}, 2), ({"op": 5}, 1), ({}, 1), ({"id": "a"}, 1),
        (action("a", "start", timeout=0), 4), ({"op": "history", "id": "a"}, None), ({"op": "forget", "id": "a"}, None),
        ({"op": "tidy"}, None), (meta("Ends"), None), (meta("None"), None), (meta("No text"), 3), (meta("Text"), None),
        (meta("Bytes"), None), ({"op": "watch", "limit": 1}, None), ({"op": "drain", "limit": 0}, None), ({"op": "watch"}, 1),
        (LEAVE, None),
    ]

    def replies(self, tags):
        """The replies to all of these commands, the n-th with the n-th tag."""
        sent = helper.lines(*[tagged(command, tag) for (command, _), tag in zip(self.KINDS, tags)])
        done = helper.run("serve", "--memory", "--root", self.here, sent=sent)
        self.assertEqual(done.returncode, 0, done.stderr)
        for line in done.stdout.decode().split("\n")[:-1]:
            self.assertEqual(line, written(json.loads(line)), "keys ascending")
        return [value for value in helper.replies(done.stdout) if not helper.is_notice(value)]

    def test_kinds(self):
        """each kind of line has its tag in its reply, whatever that is, and the reply is otherwise the same as without it"""
        self.agent("Text", "printf '<a b=\"c\"/>'\n")
        self.agent("Bytes", "printf '\\377'\n")
        plain = self.replies([None] * len(self.KINDS))
        self.assertEqual([value.get("number") for value in plain], [number for _, number in self.KINDS])
        self.assertEqual([value for value in plain if "tag" in value], [])
        tags = [f"{place} {TAGS[place % len(TAGS)][:10]}" for place in range(len(self.KINDS))]
        found = self.replies(tags)
        self.assertEqual([value.get("tag") for value in found], tags)
        # (running and queued actions are then a matter of time)
        loose = ("running", "queued", "results", "status", "tag")
        for pair in zip(found, plain):
            self.assertEqual(*[{key: part for key, part in timeless(value).items() if key not in loose} for value in pair])

    def test_texts(self):
        """a tag is any text of at most 64 bytes, repeated as that text however it is written; an invalid one is refused, with no effect"""
        run = self.serves()
        for tag in TAGS:
            self.assertEqual(self.asked(run, tagged(LIST, tag)), [{"ok": True, "resources": [], "tag": tag}])
        for tag in NO_TAGS:
            self.assertEqual(self.asked(run, {**register("a", "Ends"), "tag": tag}), [REFUSED_TAG], str(tag)[:70])
        self.assertEqual(self.asked(run, LIST), [{"ok": True, "resources": []}])
        escaped = [(r"\u0041" * 64, "A" * 64), (r"\ud83c\udf89" * 16, "\U0001f389" * 16),
                   (r"\"\\\/\b\f\n\r\t\u0000", "\"\\/\b\f\n\r\t\0")]
        for text, tag in escaped:
            before = len(run.lines)
            run.write(b' {"tag" : "%s" , "op":"list"}\r\n' % text.encode())
            self.assertEqual(self.replied(run, before, 1), [{"ok": True, "resources": [], "tag": tag}])
        before = len(run.lines)
        run.write(br'{"op":"list","tag":"' + br"\u0041" * 65 + b'"}\n' + '{"op":"list","tag":"\u20ac"}\n'.encode())
        self.assertEqual(self.replied(run, before, 2), [REFUSED_TAG, {"ok": True, "resources": [], "tag": "\u20ac"}])
        self.assertEqual(run.ends(), 0)

    def test_lost(self):
        """a line that is not an object, is too long or has a repeated key has no tag; one without an operation has"""
        run = self.serves()
        lost = [b'{"op":"list","tag":"a"', b'["tag","a"]', b'"tag"', b"5", b'{"op":"list","tag":"a"} x',
                b'{"op":"list","tag":"a","tag":"a"}', b'{"op":"list","op":"list","tag":"a"}',
                b'{"op":"list","tag":"a","id":{"b":1,"\\u0062":1}}', b'{"tag":"\\ud800","op":"list"}', b'{"tag":"\xff","op":"list"}',
                b'{"tag":"a\x01","op":"list"}', b'{"op":"list","tag":"a"}'.ljust(131_073)]
        for line in lost:
            before = len(run.lines)
            run.write(line + b"\n" + helper.lines(tagged(LIST, "b")))
            [reply, after] = self.replied(run, before, 2)
            self.assertEqual((reply["error"], "tag" in reply), ("syntax", False), line[:60])
            self.assertEqual(after, {"ok": True, "resources": [], "tag": "b"})
        found = self.asked(run, {"tag": "a"}, {"op": None, "tag": ""})
        self.assertEqual([(value["number"], value["tag"]) for value in found], [(1, "a"), (1, "")])
        self.assertEqual(run.ends(), 0)

    def test_order(self):
        """an invalid tag is refused after all other faults of its line, without a tag, and before refusals by its resource"""
        run = self.serves()
        for command, number, key in ((action("/", "start"), 3, "id"), (action("a", "fly"), 4, "action"), ({"op": "fly"}, 2, "op"),
                                     ({}, 1, "op"), (action("a", "start", timout=5), 4, "timout"), ({"op": "info", "id": "a"}, 4, "tag"),
                                     (LEAVE, 4, "tag")):
            [reply] = self.asked(run, {**command, "tag": 5})
            self.assertEqual((reply["number"], reply["key"], "tag" in reply), (number, key, False), command)
        [reply] = self.asked(run, {**LEAVE, "now": True, "tag": "a"})
        self.assertEqual((reply["key"], reply["tag"]), ("now", "a"))
        self.assertEqual(run.ends(), 0)

    def test_limits(self):
        """a refusal for a full queue or a spent number has its line's tag, as has that of a failed device, but not the last line"""
        run = self.serves()
        names = [f"r{place}" for place in range(258)]
        found = self.asked(run, *[tagged(register(name, "Ends"), name) for name in names])
        self.assertEqual([value.get("number") for value in found], [None] * 256 + [11] * 2)
        self.assertEqual([value["tag"] for value in found], names)
        self.asked(run, {"op": "params", "id": "r0", "params": {"code": "sleep"}})
        found = self.asked(run, *[action("r0", "stop", tag=f"{place}") for place in range(40)])
        self.assertEqual([value["tag"] for value in found], [f"{place}" for place in range(40)])
        self.assertEqual({value.get("number") for value in found}, {None, 8})
        self.assertEqual(run.ends(), 0)
        snapshot = state({"next_call": MOST, "next_run": 1, "clock": 0, "resources": [
            {"id": "a", "provider": "test", "type": "Ends", "params": {}, "queue": [], "running": None, "recurring": [], "ended": [],
             "failed": None}]})
        folder = self.journal_of("spent", head(snapshot=snapshot) + CLOSED, b"")
        run = self.serves("--journal", folder, restore_signals=False)
        [refused] = self.asked(run, action("a", "start", tag="spent"))
        self.assertEqual((refused["number"], refused["tag"]), (13, "spent"))
        # its files may not grow any more, so the record of a command is refused
        size = os.path.getsize(os.path.join(folder, "part-a"))
        resource.prlimit(run.run.pid, resource.RLIMIT_FSIZE, (size, size))
        run.send(tagged(register("b", "Ends"), "device"), tagged(LIST, "after"))
        self.assertEqual(run.run.wait(helper.PATIENCE), 5)
        run.reader.join()
        *_, refused, last = run.values()
        self.assertEqual((refused["number"], refused["tag"], last), (16, "device", {"end": "disk"}))

    @helper.slow
    def test_full(self):
        """so has a refusal by a full journal; the line of a turn that finds it full has none"""
        run = self.serves("--memory", "--tidy-at", "0")
        large = {key: part for key, part in LARGE.items() if key != "p0"}
        self.asked(run, register("a", "Ends"), register("b", "Ends"), recur("b", 20))
        for command, many in (({"op": "params", "id": "a", "params": large}, 50), ({"op": "forget", "id": "a"}, 500)):
            found = []
            while not any("error" in value for value in found):
                before, tags = len(run.lines), [f"{place}" for place in range(many)]
                run.send(*[tagged(command, tag) for tag in tags], tagged(LIST, "last"))
                run.awaits(lambda value: value.get("tag") == "last", after=before)
                found = [helper.value_of(line) for _, line in run.lines[before:]]
                found = [value for value in found if not helper.is_notice(value) and value != {"end": "full"}]
                self.assertEqual([value["tag"] for value in found], [*tags, "last"])
            self.assertEqual({value.get("number") for value in found if "resources" not in value} - {None}, {14})
        self.eventually("a turn that finds it full", lambda: {"end": "full"} in run.values())
        self.assertEqual(run.ends(), 0)

    def test_together(self):
        """sixty-four commands in one batch, each with its own tag, and the notices of their calls; and as many with others between them"""
        run = self.serves("--journal", self.journal())
        names = [f"r{place}" for place in range(64)]
        found = self.asked(run, *[tagged(register(name, "Ends"), f"registers {name}") for name in names])
        self.assertEqual(found, [{"ok": True, "tag": f"registers {name}"} for name in names])
        found = self.asked(run, *[tagged(action(name, "start"), f"starts {name}") for name in names])
        self.assertEqual(found, [{"call": place + 1, "key": f"{name}_start_0", "ok": True, "tag": f"starts {name}"}
                                 for place, name in enumerate(names)])
        for place, name in enumerate(names):
            self.assertEqual(self.notice(run, call=place + 1)["tag"], f"starts {name}")
        commands = []
        for place, name in enumerate(names * 3):
            tag = f"{place}" if place % 3 else None
            commands += [tagged(command, tag) for command in (action(name, "stop"), LIST, action(name, "restart"))]
        found = self.asked(run, *commands)
        self.assertEqual([value.get("tag") for value in found], [command.get("tag") for command in commands])
        calls = {value["call"]: value.get("tag") for value in found if "call" in value}
        self.assertEqual(len(calls), 192)
        for call, tag in calls.items():
            self.assertEqual(self.notice(run, call=call).get("tag"), tag)
        self.assertEqual(run.ends(), 0)

    def test_notices(self):
        """each notice has the tag of its call, or none if that has none, for resources in parallel and recurring monitors"""
        run = self.serves()
        tags = {"a": "tag of a", "b": None, "c": "", "d": "\u20ac"}
        self.asked(run, *[register(name, "Ends", code="7") for name in tags])
        replies = self.asked(run, *[recur(name, 20 + place, **tagged({}, tag)) for place, (name, tag) in enumerate(tags.items())],
                             *[recur(name, 60_000) for name in tags], *[action(name, "monitor", tag=f"once {name}") for name in tags] * 3)
        calls = {reply["call"]: reply.get("tag") for reply in replies}
        self.assertEqual([*calls.values()], [*tags.values(), *[None] * 4, *[f"once {name}" for name in tags] * 3])
        self.eventually("a hundred monitors", lambda: len(run.notices()) > 100)
        notices = run.notices()  # (more come while these are checked)
        self.assertEqual([value.get("tag") for value in notices], [calls[value["call"]] for value in notices])
        self.assertEqual({value["call"] for value in notices}, set(calls))
        for _, line in run.lines:
            self.assertEqual(line, written(json.loads(line)) + "\n", "keys ascending")
        self.assertEqual(run.ends(), 0)

    def test_outcomes(self):
        """however its action ended: by its code, a signal or a timeout, or if it was not started"""
        run = self.serves()
        kinds = [("kill", "signaled"), ("sleep", "timed-out"), ("7", "done"), ("none", "not-started")]
        self.asked(run, *[register(code, "None" if code == "none" else "Ends", code=code) for code, _ in kinds])
        self.asked(run, *[action(code, "start", timeout=500, tag=f"{code} {outcome}") for code, outcome in kinds])
        self.eventually("four notices", lambda: len(run.notices()) == 4)
        self.assertEqual(sorted((value["id"], value["outcome"], value["tag"]) for value in run.notices()),
                         sorted((code, outcome, f"{code} {outcome}") for code, outcome in kinds))
        self.assertEqual(run.ends(), 0)

    def test_withdrawn(self):
        """a queued action that is withdrawn, cancelled, or gone with its resource leaves its tag to no other call"""
        run = self.serves()
        self.asked(run, register("a", "Ends", code="gate", gate=self.gate), register("b", "Ends"))
        found = self.asked(run, action("a", "start", tag="start"), action("a", "stop", tag="stop"), action("a", "monitor"),
                           action("a", "monitor", tag="monitor"), {"op": "withdraw", "id": "a", "call": 2, "tag": "withdrawal"},
                           {"op": "withdraw", "id": "a", "call": 2, "tag": "again"}, recur("b", 20, tag="recurs"))
        self.assertEqual([value["tag"] for value in found if "tag" in value],
                         ["start", "stop", "monitor", "withdrawal", "again", "recurs"])
        self.notice(run, id="b")
        self.asked(run, {"op": "cancel", "id": "b", "interval": 20, "tag": "cancel"}, recur("b", 21))
        self.notice(run, id="b", interval=21)
        self.opens()
        self.notice(run, call=4)
        self.assertEqual([(value["call"], value.get("tag")) for value in run.notices() if value["id"] == "a"],
                         [(1, "start"), (3, None), (4, "monitor")])
        self.eventually("b rests", lambda: "error" not in self.asked(run, {"op": "unregister", "id": "b"})[0])
        self.asked(run, register("b", "Ends"), recur("b", 22, tag="anew"))
        self.notice(run, id="b", interval=22)
        found = {(value["interval"], value.get("tag")) for value in run.notices() if value["id"] == "b"}
        self.assertEqual(found, {(20, "recurs"), (21, None), (22, "anew")})
        self.assertEqual(run.ends(), 0)

    def test_held(self):
        """lines that wait during metadata, or after a drain, keep their tags, as do the notices that come meanwhile"""
        self.agent("Slow", "sleep 1\nprintf text\n")
        run = self.serves()
        self.asked(run, register("a", "Ends"), recur("a", 30, tag="recurs"))
        run.awaits(lambda value: helper.is_notice(value))
        held = [meta("Slow", tag="first"), tagged(LIST, "second"), LIST, action("a", "start", tag="third"), meta("None", tag="fourth"),
                {"op": "drain", "limit": 100, "tag": "fifth"}, tagged(VERSION, "sixth"), {"op": "fly", "tag": "seventh"}]
        before = len(run.notices())
        found = self.asked(run, *held)
        self.assertEqual([value.get("tag") for value in found], [command.get("tag") for command in held])
        self.assertEqual(found[0], {"metadata": "text", "ok": True, "tag": "first"})
        self.assertIn(found[5]["end"], ("idle", "limit"))
        self.came_often(10, len(run.notices()) - before, "monitors meanwhile")
        self.assertEqual({(value["interval"], value["tag"]) for value in run.notices()}, {(30, "recurs"), (0, "third")})
        self.assertEqual(run.ends(), 0)

    def test_left(self):
        """after an end there are no tags, on a report or for a monitor that goes on; an action that still runs at a leave keeps its own"""
        folder = self.journal()
        run = self.serves("--journal", folder)
        self.asked(run, register("a", "Ends", code="gate", gate=self.gate), register("b", "Ends"))
        calls = [action("a", "start", tag="start"), action("a", "stop", tag="stop"), recur("b", 20, tag="recurs")]
        self.asked(run, *calls)
        self.eventually("a runs", lambda: self.asked(run, {"op": "info", "id": "a"})[0]["running"])
        self.assertEqual(self.notice(run, id="b")["tag"], "recurs")
        run.killed()
        run = self.serves("--journal", folder, "--orphans", "0")
        self.notice(run, id="b", outcome="done")
        self.assertEqual({(value["id"], value["outcome"]) for value in run.notices() if value["id"] == "a"},
                         {("a", "interrupted"), ("a", "dropped")})
        self.assertEqual([value for value in run.values() if "tag" in value], [])
        self.asked(run, action("a", "start", tag="second start"), action("a", "stop", tag="second stop"))
        self.eventually("a runs", lambda: self.asked(run, {"op": "info", "id": "a"})[0]["running"])
        run.send(tagged(LEAVE, "leave"))
        time.sleep(0.2)
        self.opens()
        run.awaits(lambda value: value == {"end": "left", "tag": "leave"})
        self.assertEqual(self.notice(run, id="a", outcome="done")["tag"], "second start")
        run = self.serves("--journal", folder)
        report = map(helper.value_of, run.opening_lines[:-1] if run.ready() else ())
        self.assertEqual([(value["outcome"], value.get("tag")) for value in report], [("dropped", None)])

    def test_run(self):
        """run knows no tag: its lines are the same to the byte, whatever is under that key"""
        self.agent("Slow", "sleep 0.2\nprintf text\n")
        commands = [register("a", "Ends"), action("a", "start"), meta("Slow"), {"op": "drain"}, LIST, {"op": "fly"}, VERSION]
        texts = [helper.lines(*[{**command, **more} for command in commands]) for more in ({}, {"tag": "a"}, {"tag": 5}, {"tag": "x" * 65})]
        texts.append(texts[1].replace(b'{', b'{"tag":"twice",', 1))
        found = [helper.run("run", "--memory", "--root", self.here, sent=text).stdout for text in texts]
        self.assertNotIn(b"tag", found[0])
        self.assertEqual(found[1:], found[:1] * 4)

    @helper.slow
    def test_reported(self):
        """a call whose result was reported keeps no tag: after 18,000 of them a recurring one has its own"""
        run, names = self.serves(), [f"r{place}" for place in range(200)]
        self.asked(run, register("a", "Ends"), recur("a", 50, tag="the oldest"), *[register(name, "None") for name in names])
        for _ in range(3):
            before, commands = len(run.lines), [action(name, "start", tag=f"{name} {place}") for place in range(30) for name in names]
            run.send(*commands)
            self.eventually("6,000 results", lambda: sum(line.startswith('{"action":"start"') for _, line in run.lines[before:]) == 6_000)
            found = [json.loads(line) for _, line in run.lines[before:]]
            self.assertEqual([value["tag"] for value in found if "ok" in value], [command["tag"] for command in commands])
            calls = {value["call"]: value["tag"] for value in found if "ok" in value}
            self.assertEqual({value["call"]: value["tag"] for value in found if value.get("action") == "start"}, calls)
        _, notice = run.awaits(lambda value: helper.is_notice(value, id="a"), after=len(run.lines))
        self.assertEqual(notice["tag"], "the oldest")
        self.assertEqual(run.ends(), 0)

    def test_kept(self):
        """the tags of 16,384 calls are kept whose result is to come or that were withdrawn; if there are more the oldest is dropped"""
        run = self.serves()
        self.asked(run, register("a", "Ends", code="gate", gate=self.gate), register("b", "Ends"), action("a", "start"),
                   recur("b", 50, tag="the oldest"), recur("b", 51, tag="the next"))
        call, first, wanted = 4, 4, {50: "the oldest", 51: "the next"}
        for more, forgotten in ((KEPT - 2, None), (1, 50), (1, 51)):
            first += more
            while call < first:
                calls = range(call, min(first, call + 500))
                pairs = [(action("a", "stop", tag=f"{place}"), {"op": "withdraw", "id": "a", "call": place}) for place in calls]
                found = self.asked(run, *[command for pair in pairs for command in pair])
                self.assertEqual(found, [value for place in calls for value in (
                    {"call": place, "key": "a_stop_0", "ok": True, "tag": f"{place}"}, {"ok": True})])
                call = calls.stop
            wanted[forgotten] = None
            before = len(run.lines)
            for interval in (50, 51):
                _, notice = run.awaits(lambda value, wanted=interval: helper.is_notice(value, interval=wanted), after=before)
                self.assertEqual(notice.get("tag"), wanted[interval], f"after {first - 2} calls with a tag")
        self.opens()
        self.assertEqual(run.ends(), 0)


class Chance(Service):
    NAMES, INTERVALS = ["a", "b", "c", "d"], [20, 50, 3_600_000]

    def command(self, dice):
        name = dice.choice(self.NAMES)
        return dice.choice([
            lambda: register(name, "Ends", code=dice.choice(["0", "0", "7", "kill"])),
            lambda: {"op": dice.choice(["unregister", "info", "history"]), "id": name},
            lambda: action(name, dice.choice(["start", "stop", "monitor"])),
            lambda: action(name, dice.choice(["start", "fly"])),
            lambda: recur(name, dice.choice(self.INTERVALS)),
            lambda: {"op": "cancel", "id": name, "interval": dice.choice(self.INTERVALS)},
            lambda: {"op": "withdraw", "id": name, "call": dice.randrange(1, 40)},
            lambda: {"op": dice.choice(["list", "status", "version", "tidy", "fly", ""])},
            lambda: meta(dice.choice(["None", "Prints"])),
            lambda: {"op": "drain", "limit": dice.choice([0, 20, -1])},
            lambda: {dice.choice(["op", "id"]): 5}])()

    def line(self, dice):
        """A random line, and whether its reply has to have a tag: some lines are broken, or their tag is invalid."""
        command = self.command(dice)
        if dice.random() < 0.7:
            text = dice.choice(TAGS) if dice.random() < 0.3 else f"{dice.randrange(1 << 60):x}"
            command["tag"] = dice.choice(NO_TAGS) if dice.random() < 0.1 else text
        pairs = list(command.items())
        dice.shuffle(pairs)
        line = bytearray(json.dumps(dict(pairs), ensure_ascii=dice.random() < 0.5).encode())
        roll = dice.random()
        if roll < 0.05:
            return bytes(line[:dice.randrange(len(line))])
        if roll < 0.1:
            line[dice.randrange(len(line))] = 34
        elif roll < 0.13:
            return line[:-1] + b',"tag":"twice"}' if len(line) > 2 else line
        return bytes(line)

    def tag_of(self, line):
        """The tag that a line's reply has to have, by the documentation of tags; None if it has none."""
        def once(pairs):
            if len({key for key, _ in pairs}) < len(pairs):
                raise ValueError
            return dict(pairs)
        try:
            value = json.loads(bytes(line).decode(), object_pairs_hook=once)
            tag = value.get("tag") if isinstance(value, dict) else None
            # (half of a pair of surrogates makes a line that is no JSON)
            return tag if isinstance(tag, str) and len(tag.encode()) <= 64 else None
        except ValueError:
            return None

    @chance.by_chance(4)
    def test_chance(self, dice):
        """for random lines, in pieces, each reply has the tag of its line, in their order, and each notice that of its call"""
        self.agent("Prints", "printf '<agent/>'\n")
        asked = [line for line in (self.line(dice) for _ in range(600)) if line]
        text, wanted = b"".join(line + b"\n" for line in asked), [self.tag_of(line) for line in asked]
        self.note("lines", text)
        run = self.serves()
        while text:
            size = dice.choice([1, 50, 500, 5_000, 20_000])
            run.write(text[:size])
            text = text[size:]
            time.sleep(dice.choice([0, 0, 0.001, 0.02]))
        self.assertEqual(run.ends(), 0)
        calls, replies = {}, []
        for value in run.values():
            if helper.is_notice(value):
                self.assertEqual(value.get("tag"), calls[value["call"]], value)
            else:
                replies.append(value)
                if "call" in value:
                    calls[value["call"]] = value.get("tag")
        self.assertEqual(len(replies), len(wanted))
        for line, tag, value in zip(asked, wanted, replies):
            self.assertEqual(value.get("tag"), tag, f"{line[:200]}: {value}")
        self.assertGreater(len(calls), 20)
