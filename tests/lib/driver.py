"""Does the steps of a case of tests/cli/library_cases.json with the Python library, and prints what came of each as lines of JSON; its
like in Go is tests/lib/driver/main.go.

  start                  "started", and the results that were reported
  exec ID, ask COMMAND   the call, or the reply
  late COMMAND           a command whose reply does not come in a fifth of a second
  result CALL            the result of a call, as "a 1 2 done"
  events N, rest         so many results; those that have come
  metadata AGENT, problems
  kill, leave, close, wait   the status of the program, which the last one only awaits
  pause SECONDS

Each may end with an error, by its name and its fields. When the library reports another journal, that is a line, too.
Use: driver.py executor|asyncio CASES NUMBER COMMAND.."""
import asyncio
import json
import os
import sys
import time

sys.path.insert(0, os.path.join(os.path.dirname(os.path.abspath(__file__)), "../../python"))
import ocfexec  # noqa: E402

PATIENCE, SHORT = 60, 0.2


def say(value):
    print(json.dumps(value), flush=True)


def summary(result):
    return f"{result.id} {result.call} {result.run} {result.outcome}"


def described(error):
    """An error as a value."""
    fields = {ocfexec.Refused: ("op", "word", "number", "key", "message"), ocfexec.Ended: ("status",), ocfexec.NoMetadata: ("reason",)}
    found = {name: getattr(error, name) for name in fields.get(type(error), ()) if name != "op"}
    if isinstance(error, ocfexec.Refused):
        found["op"] = error.command["op"]
    return {"error": type(error).__name__, **found}


class Driver:
    def __init__(self, executor, done):
        self.executor, self.done = executor, done

    def start(self):
        self.done(self.executor.start(PATIENCE))
        say({"started": [summary(result) for result in self.executor.reported]})

    def exec(self, name):
        say({"call": self.done(self.executor.exec(name, "start"))})

    def ask(self, command):
        say({"reply": self.done(self.executor.ask(command))})

    def late(self, command):
        self.done(self.executor.ask(command, timeout=SHORT))

    def result(self, call):
        say(summary(self.done(self.executor.result(call, PATIENCE))))

    def events(self, count):
        for _ in range(count):
            say(summary(self.next()))

    def next(self):
        """The next result of `events`."""
        found = self.executor.events(PATIENCE)
        return next(found) if isinstance(self.executor, ocfexec.Executor) else self.done(found.__anext__())

    def rest(self):
        # (its reply comes after all that was said before)
        self.done(self.executor.version())
        for result in self.executor.results():
            say(summary(result))

    def metadata(self, agent):
        say({"metadata": self.done(self.executor.metadata(agent))})

    def problems(self):
        say({"problems": self.executor.problems})

    def kill(self):
        say({"status": self.done(self.executor.kill())})

    def leave(self):
        say({"status": self.done(self.executor.leave())})

    def close(self):
        say({"status": self.done(self.executor.close())})

    def wait(self):
        try:
            while True:
                self.done(self.executor.ask({"op": "version"}))
        except ocfexec.Ended as ended:
            say({"status": ended.status})

    def pause(self, seconds):
        time.sleep(seconds)

    def does(self, steps):
        for word, *more in steps:
            try:
                getattr(self, word)(*more)
            except ocfexec.Error as error:
                say(described(error))


def main():
    kind, cases, number, *command = sys.argv[1:]
    with open(cases, encoding="utf-8") as file:
        steps = json.load(file)[int(number)]["does"]
    how = {"on_new_journal": lambda difference: say({"journal": difference})}
    if kind == "executor":
        driver = Driver(ocfexec.Executor(command, **how), lambda value: value)
    else:
        driver = Driver(ocfexec.AsyncExecutor(command, **how), asyncio.new_event_loop().run_until_complete)
    driver.does(steps)


if __name__ == "__main__":
    main()
