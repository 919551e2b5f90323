"""Shared code of the checks of journals in files: journals of one resource, an executor that holds one, openings that are refused, and what
a directory contains. They run the program as another user, too, and with mounts that only it sees."""
import os
import shutil

import acting
import helper
from helper import register

# The commands of these checks, and the lines that answer them.
REGISTER, LIST, TIDY, START = register("r1", "Dummy", "pacemaker"), {"op": "list"}, {"op": "tidy"}, helper.action("r1", "start")
OK, LISTED, EMPTY = '{"ok":true}', '{"ok":true,"resources":["r1"]}', '{"ok":true,"resources":[]}'
TIDIED, END_DISK, ERROR_DISK = '{"end":"done"}', '{"end":"disk"}', '{"error":"disk","number":16}'
CHECK_DEVICE = "Check the device of the journal, its free space and its permissions."
MISSING = "Missing directory: make it, for its owner alone, or name another by --journal."
# a user who is not root, by its number, and what makes a run one of that user; it is that of the check if this is not root's
OTHER = 65534
AS_OTHER = {"user": OTHER, "group": OTHER, "extra_groups": []} if os.geteuid() == 0 else {}
# runs a command whose mounts no other process sees
APART = ("unshare", "--mount") if os.geteuid() == 0 else ("unshare", "--user", "--map-root-user", "--mount")


def bytes_in(folder, but=()):
    """The names in a directory, each with the bytes of its file; without some of them."""
    found = {}
    for name in set(os.listdir(folder)) - set(but):
        with open(os.path.join(folder, name), "rb") as file:
            found[name] = file.read()
    return found


def attributes(folder):
    """A directory and what is in it: the length, the mode and the moments of change of each."""
    found = {path: os.lstat(path) for path in [folder, *(entry.path for entry in os.scandir(folder))]}
    return {path: (stat.st_size, stat.st_mode, stat.st_mtime_ns, stat.st_ctime_ns) for path, stat in found.items()}


def texts(done):
    """The lines of a run, or of a running program so far, which conform to the schema of lines."""
    lines = [line for _, line in done.lines] if isinstance(done, helper.Running) else done.stdout.decode().splitlines(keepends=True)
    for line in lines:
        helper.value_of(line)
    return [line.rstrip("\n") for line in lines]


def empty(path):
    """Makes a file empty, which may be a new one."""
    with open(path, "wb"):
        pass


class Directories(helper.Check):
    def replied(self, folder, *commands, **how):
        """The lines of a run on a journal, which ends well and says nothing else."""
        done = helper.run("run", "--journal", folder, sent=helper.lines(*commands), **how)
        self.assertEqual((done.returncode, done.stderr), (0, b""))
        return texts(done)

    def registered(self, name="journal", **how):
        """A journal in which r1 is registered."""
        folder = self.journal(name)
        self.assertEqual(self.replied(folder, REGISTER, **how), [OK])
        return folder

    def tidied(self, name="journal"):
        """A journal in which r1 is registered, and whose parts both hold it."""
        folder = self.registered(name)
        self.assertEqual(self.replied(folder, TIDY), [TIDIED])
        return folder

    def refused(self, folder, *says, **how):
        """An opening that is refused with one line, and with these lines after it to a person."""
        done = helper.run("run", "--journal", folder, **how)
        self.assertEqual((done.returncode, done.stdout, done.stderr.decode()), (5, b"", "ocfexec: disk\n"))
        done = helper.explained("run", "--journal", folder, **how)
        self.assertEqual((done.returncode, done.stdout, done.stderr.decode()), (5, b"", "\n".join(["ocfexec: disk", *says, ""])))

    def hidden(self, word, folder, *says):
        """A journal that is not shown for a reason, which `show` reports only to a person."""
        done = helper.run(word, "--journal", folder)
        line = "ocfexec: disk\n" if word == "show" else f"ocfexec: disk: {says[0]}\n"
        self.assertEqual((done.returncode, done.stdout, done.stderr.decode()), (5, b"", line))
        if word == "show":
            done = helper.explained(word, "--journal", folder)
            self.assertEqual((done.returncode, done.stderr.decode()), (5, "\n".join(["ocfexec: disk", *says, ""])))

    def holding(self, folder, *through):
        """An executor that holds a journal of r1, from its first reply on, and was started through this command; the fault that ends it is
        explained."""
        with open(folder + ".err", "wb") as err:
            env = {**os.environ, **helper.journal_stream(err.fileno())}
        program, *words = *through, helper.PROGRAM, "run", "--journal", folder
        run = self.started(*words, program=program, err=folder + ".err", env=env)
        run.send(LIST)
        run.awaits(lambda value: "resources" in value)
        return run

    def lets_go(self, run):
        """It has replied to nothing more, and ends well."""
        self.assertEqual((run.ends(), texts(run)), (0, [LISTED]))

    def loses(self, run, folder, cause, command=TIDY, reply=END_DISK):
        """It cannot do this, since its part A is no longer as it was, and ends."""
        run.send(command)
        self.assertEqual((run.ends(), texts(run)), (5, [LISTED, reply]))
        with open(folder + ".err", encoding="utf-8") as err:
            self.assertEqual(err.read(), f"ocfexec: disk\n{folder}/part-a: {cause}\n{CHECK_DEVICE}\n")

    def program_of_other(self):
        """A copy of the program that a user who is not root may run, too, and what a run of it as that user needs."""
        os.chmod(self.here, 0o711)
        shutil.copy(helper.PROGRAM, self.place("program"))
        return {"executable": self.place("program"), **AS_OTHER}

    def needs_mounts(self):
        """Skips a test that needs mounts of its own where there are none."""
        if not acting.can(*APART, "mount", "-t", "tmpfs", "none", self.here):
            self.skipTest("run as root, or where a user may unshare mounts")
