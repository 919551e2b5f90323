"""A client that keeps one service running, written from docs/FORMAT.md, docs/CLIENTS.md and docs/protocol.schema.json alone, without a
library. The numbers in brackets are sentences of CLIENTS.md; 1 to 4 are how it starts. SIGTERM stops the service and ends the client.
Use: plain_client.py ID PROVIDER TYPE INTERVAL NAME=VALUE COMMAND.."""
import json
import queue
import signal
import subprocess
import sys
import threading
import time

PATIENCE, ASK_EVERY, FINAL, NONE = 5, 1, (2, 3, 6, 8), {"kind": "none"}
(ID, PROVIDER, TYPE, INTERVAL, PARAM), COMMAND = sys.argv[1:6], sys.argv[6:]
delivered, journal, stops, pauses = set(), {"identity": None, "next_call": 0}, [], [0]


class Executor:
    def __init__(self):
        self.process = subprocess.Popen(COMMAND, stdin=subprocess.PIPE, stdout=subprocess.PIPE, pipesize=1 << 20, start_new_session=True)
        self.lines, self.results, report = queue.Queue(), [], []
        self.before = max([run for _, _, run in delivered], default=0)
        threading.Thread(target=lambda: [*map(self.lines.put, self.process.stdout), self.lines.put(b"")], daemon=True).start()  # (6)
        while (line := self.next(None))["kind"] != "ready":  # (5)
            report.append(line)
        is_other = not line["identity"] or line["identity"] != journal["identity"] or line["next_call"] < journal["next_call"]
        if is_other:
            delivered.clear()  # (15)
        journal.update(identity=line["identity"], next_call=line["next_call"])
        for result in report:
            self.take(result)
        for name in self.ask("list")["resources"]:
            for result in self.ask("history", id=name)["results"]:  # (14)
                self.take({**result, "id": name}, is_old=is_other)

    def next(self, seconds):
        try:
            text = self.lines.get(timeout=seconds)
        except queue.Empty:
            return NONE
        if not text.endswith(b"\n"):  # (7)
            raise EOFError(self.process.wait())
        line = json.loads(text)
        if line["kind"] == "notice":
            if 0 < line["run"] <= self.before:
                delivered.clear()  # (15)
            pauses[0] = 0
            self.take(line)
        return line

    def take(self, result, is_old=False):
        if result["outcome"] != "cancelled" and (key := (result["id"], result["call"], result["run"])) not in delivered:
            delivered.add(key)
            self.results += [] if is_old else [result]

    def ask(self, op, **keys):
        self.process.stdin.write(json.dumps({"op": op, **keys}).encode() + b"\n")
        self.process.stdin.flush()
        while (line := self.next(PATIENCE))["kind"] != "reply":  # (8)
            if line is NONE:
                self.process.kill()  # (11)
        journal["next_call"] = max(journal["next_call"], line.get("call", -1) + 1)
        return line

    def result(self, holds, or_stop=False):
        while not (or_stop and stops):
            while self.results:
                if holds(result := self.results.pop(0)):
                    return result
            if self.next(ASK_EVERY) is NONE:
                self.ask("version")  # (11)

    def act(self, action, **keys):
        call = self.ask("exec", id=ID, action=action, **keys)["call"]
        return self.result(lambda result: result["call"] == call)  # (26)

    def keep(self):
        self.ask("register", id=ID, provider=PROVIDER, type=TYPE, params=dict([PARAM.split("=", 1)]))  # (16)
        last = self.act("monitor", expect=7)  # (18, 22)
        while last and not stops:
            if last["code"] == 0:
                self.ask("recur", id=ID, interval=int(INTERVAL))  # (16)
                last = self.result(lambda one, run=last["run"]: one["interval"] and one["run"] > run and one["code"], or_stop=True)
            elif (last["action"], last["code"]) == ("monitor", 7) or self.act("stop")["code"] == 0:  # (21)
                last = self.act("start")
        self.ask("cancel", id=ID, interval=int(INTERVAL))  # (24)
        code = self.act("stop")["code"]
        self.ask("leave")  # (13)
        return code


signal.signal(signal.SIGTERM, lambda *_: stops.append(True))
while True:
    try:
        sys.exit(Executor().keep())
    except (EOFError, BrokenPipeError) as ended:  # (12)
        if ended.args[0] in FINAL:
            sys.exit(ended.args[0])
        time.sleep(pauses[0])
        pauses[0] = min(60, 2 * pauses[0] + 1)
