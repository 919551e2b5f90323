"""The stack of the program, which the kernel ends by SIGSEGV if a limit of the address space (RLIMIT_AS) keeps it from growing. So it is
grown at the start, while there is memory for it. Wanted: it does not grow later, and with any limit the program ends by itself, well or for
lack of memory, or is not loaded."""
import os

import helper
from limited import STEP, Limited, least

# the status with which the loader ends what it cannot load
UNLOADED = 127
# by how many KiB the stacks of two processes differ: the kernel puts their first bytes anywhere in two pages
SPREAD = 16
LINES = helper.lines(helper.register("r1", "Done"), {"op": "list"}, helper.action("r1", "start"), {"op": "drain"})
# the greatest depth that is read, and how deep a line may be nested
DEEP = b"".join(b'{"op":%s1%s}\n' % (b'{"a":' * depth, b"}" * depth) for depth in (100, 126, 127, 128))
BEGUN = ': > "$OCF_RESKEY_begun"; until [ -e "$OCF_RESKEY_until" ] || [ ! -e "$0" ]; do sleep 0.05; done\n'
DESCENDANT = 'waits() { while [ -e "$0" ]; do sleep 0.05; done; }\nwaits & waits\n'


def size(run):
    """The size of the stack of a program that runs, in KiB."""
    return helper.kib(run.run.pid, "VmStk")


@helper.slow
@helper.in_memory
class Stack(Limited):
    def of_once(self):
        """The size of the stack of an action by itself, for which no journal is opened and no line is read."""
        self.agent("Begun", BEGUN)
        begun, until = self.place("begun"), self.place("until")
        run = self.started("once", "--root", self.here, "test:Begun", "start", f"begun={begun}", f"until={until}")
        self.eventually("the action", lambda: os.path.exists(begun))
        found = size(run)
        with open(until, "wb"):
            pass
        self.assertEqual(run.ends(), 0)
        return found

    def of_session(self, journal):
        """The same of a session after its opening, and after deep lines, questions, a tidy, and an agent that was killed with all that it
        started. It is killed while another one runs."""
        run = self.started("serve", "--root", self.here, "--journal", journal, "--orphans", "0")
        run.ready()
        found = [size(run)]
        run.write(DEEP)
        run.send(helper.register("r1", "Descendant"), helper.action("r1", "start", timeout=100), {"op": "meta", "id": "r1"},
                 {"op": "status"}, {"op": "tidy"})
        run.awaits(lambda value: value.get("outcome") == "timed-out")
        found.append(size(run))
        before = len(run.values())
        run.send(helper.action("r1", "start"))
        run.awaits(lambda value: "call" in value, after=before)
        run.killed()
        return found

    def test_size(self):
        """the stack has its size at the start: neither openings nor deep lines nor kills grow it"""
        self.agent("Descendant", DESCENDANT)
        first, journal = self.of_once(), self.journal()
        found = [of_one for _ in range(2) for of_one in self.of_session(journal)]
        print(f"stack: {first} KiB at the start, {found} KiB in sessions", flush=True)
        self.assertLess(max(found) - first, SPREAD, "KiB by which it grew later")

    def test_pages(self):
        """with each page less of address space a run ends well or for lack of memory, down to where it is not loaded"""
        self.agent("Done", "exit 0\n")
        room, ends = least(0, 1 << 28, lambda room: self.fresh(room, LINES)[0] == 0), set()
        while UNLOADED not in ends:
            room -= STEP
            status, _, err = self.fresh(room, LINES)
            if status != UNLOADED:
                self.is_explained(status, err, f"in {room} bytes")
            ends.add(status)
        self.assertIn(4, ends)
