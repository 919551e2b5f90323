"""What the tests of examples/client.py share: its start, its file, and agents whose services are files."""
import json
import os
import time

import helper
from helper import PROGRAM

CLIENT = os.path.join(helper.TOP, "examples/client.py")
# an agent whose service is a file; it fails if the file `fails` beside it names its action, and its monitor ends with the code in the file
# `code`
AGENT = """state=$OCF_RESKEY_state
echo "$OCF_RESOURCE_TYPE $1 $state" >> {here}/calls
if [ -e "$state.fails" ] && grep -q -x "$1" "$state.fails"; then exit 1; fi
case $1 in
start) : > "$state" ;;
stop) rm -f "$state" ;;
monitor) [ -e "$state" ] || exit 7; [ ! -e "$state.code" ] || exit "$(cat "$state.code")" ;;
esac
"""


def printed(line):
    """The value of a line of the client: one of the program, or a result that came from a history, which has no kind."""
    return helper.value_of(line) if '"kind":' in line else json.loads(line)


class Keeping(helper.Check):
    """Tests of the client: each has a file of resources, whose services are files, and a journal."""

    def setUp(self):
        super().setUp()
        for kind in ("Dummy", "Other"):
            self.agent(kind, AGENT.format(here=self.here))
        self.journal()

    def wants(self, **wanted):
        """Writes the file, with resources by their keys in it."""
        with open(self.place("new"), "w", encoding="ascii") as file:
            json.dump({"resources": wanted}, file)
        os.rename(self.place("new"), self.place("resources.json"))

    def dummy(self, name, kind="Dummy", **more):
        return {"provider": "test", "type": kind, "params": {"state": self.place(name)}, "interval": 100, **more}

    def words(self, *options):
        return [*options, "--file", self.place("resources.json"), PROGRAM, "serve", "--journal", self.place("journal"), "--root", self.here]

    def client(self, *options, **how):
        run = self.started(*self.words(*options), program=CLIENT, err=self.place("err"), **how)
        run.value_of = printed
        return run

    def error_text(self):
        with open(self.place("err"), encoding="utf-8") as file:
            return file.read()

    def waits(self, what, holds, seconds=helper.PATIENCE):
        until = time.monotonic() + seconds
        while not holds():
            if time.monotonic() > until + helper.more_patience(seconds):
                self.fail(f"no {what} within {seconds} s:\n{self.error_text()}")
            time.sleep(0.02)

    def is_up(self, name):
        return os.path.exists(self.place(name))

    def stops(self, name):
        """The service of a resource stops by itself."""
        os.remove(self.place(name))

    def called(self, *words):
        """How often an agent was called with these words at the beginning of its line."""
        with open(self.place("calls"), encoding="ascii") as file:
            return [line.split()[:len(words)] for line in file].count([*words])

    def runs(self, *names):
        self.waits(f"running {names}", lambda: all(os.path.exists(self.place(name)) for name in names))

    def comes(self, client, after=0, **wanted):
        return client.awaits(lambda value: helper.is_notice(value, **wanted), after=after)[1]

    def ended(self, client, number):
        """Sends a signal, which ends the client; returns its status."""
        os.kill(client.run.pid, number)
        status = client.run.wait(4 * helper.PATIENCE)
        client.reader.join()
        return status

    def starts(self):
        with open(self.place("calls"), encoding="ascii") as file:
            return [line.split()[:2] for line in file].count(["Dummy", "start"])

    def child(self, client):
        """The executor that a client has started, if there is one."""
        with open(f"/proc/{client.run.pid}/task/{client.run.pid}/children", encoding="ascii") as file:
            found = file.read().split()
        return int(found[0]) if found else None
