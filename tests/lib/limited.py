"""Runs of the program in little address space (RLIMIT_AS), and how they have to end."""
import re
import resource
import shutil

import helper

# a page: the size of a step from one address space to the next
STEP = 4096
# How standard error begins with each status, if it goes to the system's journal.
ENDS = {4: "ocfexec: memory\nFree memory ", 7: "ocfexec: input or output\nA reply or a notice found no memory."}
# What the program goes on without, if memory lacks for it.
LEFT_OUT = re.compile(r"^ocfexec: (cannot spawn the shell that ends processes|\S+/agents|run \d+ of \S+ was not started): [^\n]*\n",
                      re.MULTILINE)


def limited(room, words, sent):
    """The status, the output and the errors of a run with this address space."""
    def limit():
        resource.setrlimit(resource.RLIMIT_AS, (room, room))
        resource.setrlimit(resource.RLIMIT_CORE, (0, 0))

    done = helper.explained(*words, sent=sent, preexec_fn=limit)
    return done.returncode, done.stdout.decode(), done.stderr.decode()


def least(low, high, holds):
    """The least address space, in steps, with which this holds."""
    while high - low > STEP:
        middle = (low + high) // 2 // STEP * STEP
        low, high = (low, middle) if holds(middle) else (middle, high)
    return high


class Limited(helper.Check):
    """A check of such runs."""

    def fresh(self, room, sent):
        """The same of a run on a journal of its own, in files: a part in memory that cannot grow counts as a failed device."""
        folder = self.journal("fresh")
        ended = limited(room, ["run", "--root", self.here, "--journal", folder], sent)
        shutil.rmtree(folder)
        return ended

    def is_explained(self, status, err, where):
        """Such a run ended well or for lack of memory, and its errors say so."""
        err = LEFT_OUT.sub("", err)
        self.assertIn(status, (0, *ENDS), f"{where}: {err}")
        self.assertTrue(err.startswith(ENDS[status]) if status else err == "", f"{where}: {err}")
