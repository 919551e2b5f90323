"""Runs the program with less and less address space (RLIMIT_AS), from what it needs down to where it does not start. Wanted: it ends well,
or for lack of memory, which is reported for people: status 4 before the first line is read, 7 after it; no stream is reported as failed,
and no signal ends it. The answers are a prefix of those with enough memory, except for commands that were refused with `memory`, and the
next opening finds them."""
import resource

import helper
from limited import STEP, Limited, least, limited

RESOURCES = 120
NAMES = [f"r{place:03}" for place in range(RESOURCES)]
PARAMS = {f"a{place}": "x" * 1000 for place in range(8)}
ASKED = helper.lines(*[helper.register(name, "t", "p", **PARAMS) for name in NAMES], {"op": "list"},
                     *[{"op": "info", "id": name} for name in NAMES])


@helper.slow
@helper.in_memory
class Memory(Limited):
    def setUp(self):
        super().setUp()
        self.enough = least(0, 1 << 28, lambda room: self.fresh(room, ASKED)[0] == 0)
        self.floor = least(0, self.enough, lambda room: limited(room, ["--help"], b"")[0] == 0)

    def judge(self, room, full):
        # how a run with this address space ended: its status, and whether a command was refused
        status, out, err = self.fresh(room, ASKED)
        self.is_explained(status, err, f"in {room} bytes")
        self.assertTrue(status != 4 or out == "", "nothing answered with status 4")
        for reply, of_full in zip(out.split("\n")[:RESOURCES], full):
            self.assertTrue(reply in ("", of_full) or '"memory"' in reply, f"a reply or a refusal, not {reply}")
        return status, '"memory"' in out

    def test_sweep(self):
        """less and less memory"""
        status, full, _ = self.fresh(resource.RLIM_INFINITY, ASKED)
        self.assertEqual(status, 0, "a run with enough memory")
        stride = max(STEP, (self.enough - self.floor) // 300 // STEP * STEP)
        seen = {self.judge(room, full.split("\n")) for room in range(self.floor, self.enough + STEP, stride)}
        print("memory: ended as", sorted(seen), flush=True)
        self.assertIn((4, False), seen, "an opening without memory")
        self.assertTrue(any(status == 7 or refused for status, refused in seen), "a run that found no memory")

    def test_found(self):
        """records made with too little memory are found with enough"""
        for part in (3, 5, 7):
            folder = self.journal(f"journal{part}")
            room = self.floor + (self.enough - self.floor) * part // 8
            status, out, err = limited(room, ["run", "--journal", folder], ASKED)
            self.is_explained(status, err, f"with {part} eighths")
            accepted = out.split("\n")[:RESOURCES].count('{"ok":true}')
            done = helper.run("run", "--journal", folder, sent=helper.lines({"op": "list"}))
            self.assertEqual(done.returncode, 0)
            self.assertGreaterEqual(len(helper.replies(done.stdout)[0]["resources"]), accepted, "resources that were accepted")
