"""Plays an executor that serves: a program whose lines a case of tests/cli/library_cases.json says. It answers list, history, version and
leave by itself, and takes the next of its steps for each other command.

A case has `programs`, of which each start plays the next one, and the last one again. These keys of a program are optional:

  report     lines before the ready line
  ready      keys of the ready line that differ from those of READY
  after      lines after the ready line, before any reply
  histories  results of each resource
  steps      for each other command, the lines that it says
  older      true: lines have no kinds, and the ready line has no identity and no next call

A line is an object as it is, whose `kind` is added; a text, as "a 1 2 done", for the result of resource, call, run and outcome; or a list
of such a text and further keys. {"raw": TEXT} is written without a newline, {"many": COUNT, "first": TEXT} is so many results, each of
the next run, {"pause": SECONDS} is a pause, and {"end": N} ends the program with that status, or by that signal if it is below 0.

Use: player.py CASES NUMBER FILE, with the number of the case and a file that counts the starts"""
import json
import os
import sys
import time

READY = {"dropped": 0, "identity": "d1f0c9a7be2435f8a6b1c0d2e3f4a5b4", "interrupted": 0, "journal": "/j", "next_call": 1, "ready": True,
         "resources": 0, "version": "0.2.0"}
CODES = {"done": (0, "OCF_SUCCESS")}


def result(text, **more):
    """A result as it is in a history."""
    name, call, run, outcome = text.split()
    code, word = CODES.get(outcome, (1, "OCF_ERR_GENERIC"))
    return {"action": "start", "at": int(run), "call": int(call), "code": code, "interval": 0, "name": word, "outcome": outcome,
            "run": int(run), "since": int(run), **more}


def notice(text, **more):
    name, code = text.split()[0], CODES.get(text.split()[3], (1,))[0]
    return result(text, id=name, key=f"{name}_start_0", expect=0, failed=code != 0, **more)


def many(count, first):
    name, call, run, outcome = first.split()
    return [notice(f"{name} {call} {int(run) + number} {outcome}") for number in range(count)]


def starts(path):
    """How often it was started before."""
    before = os.path.getsize(path) if os.path.exists(path) else 0
    with open(path, "ab") as file:
        file.write(b".")
    return before


class Player:
    def __init__(self, program):
        self.program, self.steps = program, list(program.get("steps", []))

    def write(self, text):
        sys.stdout.write(text)
        sys.stdout.flush()

    def line(self, value, kind):
        line = value if self.program.get("older") else {"kind": kind, **value}
        self.write(json.dumps(line, separators=(",", ":"), sort_keys=True) + "\n")

    def says(self, one, kind="notice"):
        """Says a line of a case, or does what is in its place."""
        if isinstance(one, str):
            self.line(notice(one), kind)
        elif isinstance(one, list):
            self.line(notice(one[0], **one[1]), kind)
        elif "raw" in one:
            self.write(one["raw"])
        elif "many" in one:
            for each in many(one["many"], one["first"]):
                self.line(each, kind)
        elif "pause" in one:
            time.sleep(one["pause"])
        elif one.keys() == {"end"} and isinstance(one["end"], int):
            if one["end"] < 0:
                os.kill(os.getpid(), -one["end"])
            os._exit(one["end"])
        else:
            self.line(one, "trouble" if one.keys() == {"end"} else "reply")

    def answer(self, command):
        tag = {"tag": command["tag"]} if "tag" in command else {}
        histories, op = self.program.get("histories", {}), command["op"]
        if op == "list":
            self.line({"ok": True, "resources": [*histories], **tag}, "reply")
        elif op == "history":
            self.line({"ok": True, "results": [result(one) for one in histories[command["id"]]], **tag}, "reply")
        elif op == "version":
            self.line({"ok": True, "version": "0.2.0", **tag}, "reply")
        elif op == "leave":
            self.line({"end": "left", **tag}, "reply")
            sys.exit(0)
        else:
            for one in self.steps.pop(0):
                self.says(one)

    def play(self):
        for one in self.program.get("report", []):
            self.says(one, "report")
        ready = {**READY, "resources": len(self.program.get("histories", {})), **self.program.get("ready", {})}
        if self.program.get("older"):
            ready = {key: ready[key] for key in ready if key not in ("identity", "next_call")}
        self.line(ready, "ready")
        for one in self.program.get("after", []):
            self.says(one)
        for text in sys.stdin:
            self.answer(json.loads(text))


if __name__ == "__main__":
    with open(sys.argv[1], encoding="utf-8") as found:
        programs = json.load(found)[int(sys.argv[2])]["programs"]
    Player(programs[min(starts(sys.argv[3]), len(programs) - 1)]).play()
