"""Journals in files: which files are created, which are refused and how that is reported, which owners root accepts, the output of show for
a directory that may only be read, and an executor without standard output."""
import os
import stat
import unittest

import directories
import helper
from directories import EMPTY, LIST, LISTED, OK, OTHER, REGISTER

# Part A of a journal of r1, by the format, up to the eight bytes of the moment of its registration and after them.
BEFORE = "014f43464a0200000000000000010000001a0000000000000001000000000000000100000000000000000000010000001d01"
AFTER = "02723109706163656d616b65720544756d6d790000"
LENGTHS = {"part-a": 79, "part-b": 0}
NO_PERMISSION = "No permission: only its owner can open the journal; run this as that user, or as root."
DECIDES = "Anyone who can write the journal decides what root starts. Make root its only writer, or give --any-owner."
BELONGS, WRITTEN = f"belongs to user {OTHER}, and not to root", "may be written by its group or others"
# What root does not trust: the path in a directory, which holds a journal if this is one of its parts, its owner and its mode; and why.
DISTRUSTED = {"another's directory": ("", OTHER, 0o755, BELONGS), "its group's directory": ("", 0, 0o775, WRITTEN),
              "a directory for all": ("", 0, 0o1757, WRITTEN), "another's part": ("part-a", OTHER, 0o600, BELONGS),
              "its group's part": ("part-b", 0, 0o660, WRITTEN)}


class Made(directories.Directories):
    def test_new(self):
        """a new journal has two files for its owner alone, whose bytes are those of the format"""
        folder = self.registered()
        self.assertEqual({name: os.path.getsize(os.path.join(folder, name)) for name in helper.PARTS}, LENGTHS)
        text = helper.parts(folder)[0].hex()
        self.assertEqual((text[:len(BEFORE)], text[len(BEFORE) + 16:]), (BEFORE, AFTER))
        self.assertEqual([stat.S_IMODE(os.stat(os.path.join(folder, name)).st_mode) for name in helper.PARTS], [0o600, 0o600])

    def test_again(self):
        """what was registered is found again, and show changes nothing"""
        folder = self.registered()
        self.assertEqual(self.replied(folder, REGISTER, LIST), ['{"error":"exists","number":6}', LISTED])
        before = directories.bytes_in(folder)
        self.assertEqual(helper.shown(folder).decode().splitlines()[0], LISTED)
        self.assertEqual(directories.bytes_in(folder), before)

    def test_empty(self):
        """empty files, or one of them alone, are a journal without resources, and what is missing is made"""
        for names in (helper.PARTS, ("part-b",)):
            folder = self.journal("-".join(names))
            for name in names:
                directories.empty(os.path.join(folder, name))
            self.assertEqual(self.replied(folder, LIST), [EMPTY], names)
            self.assertEqual(sorted(os.listdir(folder)), ["agents", "identity", *helper.PARTS], names)

    def test_closed_output(self):
        """an executor whose standard output is closed ends with 7, and writes nothing of it into a part"""
        folder = self.registered()
        before = directories.bytes_in(folder)
        done = helper.run("run", "--journal", folder, sent=helper.lines(REGISTER), preexec_fn=lambda: os.closerange(1, 3))
        self.assertEqual(done.returncode, 7)
        self.assertEqual(directories.bytes_in(folder, but=["agents"]), {name: before[name] for name in set(before) - {"agents"}})


class Refused(directories.Directories):
    def test_no_directory(self):
        """a missing directory is refused and not made, and so are a file in its place and an empty name"""
        folder, file = self.place("nowhere"), self.place("file")
        self.refused(folder, f"{folder}: No such file or directory (os error 2)", directories.MISSING)
        self.hidden("show", folder, f"{folder}: No such file or directory (os error 2)", directories.MISSING)
        self.assertFalse(os.path.exists(folder), "a directory was made")
        directories.empty(file)
        self.refused(file, f"{file}: Not a directory (os error 20)")
        self.refused("", "the directory has no name")

    def test_not_plain(self):
        """a part that is a directory, a link or a link to nothing is refused, and no file is created for it"""
        elsewhere, none = self.place("elsewhere"), self.place("none")
        for name, has_journal, part, make in (("directory", False, "part-a", os.mkdir), ("directory-b", True, "part-b", os.mkdir),
                                              ("link", True, "part-a", lambda path: os.symlink(elsewhere, path)),
                                              ("dangling", False, "part-b", lambda path: os.symlink(none, path))):
            with self.subTest(name):
                folder = self.registered(name) if has_journal else self.journal(name)
                path = os.path.join(folder, part)
                if has_journal:
                    os.replace(path, elsewhere)
                make(path)
                self.refused(folder, f"{path}: not a plain file")
        self.assertFalse(os.path.exists(none), "a file was created by a link")

    def test_gone(self):
        """a part that is gone beside one that holds a journal is refused, and no file is created"""
        young, tidied = self.registered("young"), self.tidied("tidied")
        self.gone(young, "part-b", "part-a")
        self.hidden("show", young, f"{young}/part-b: gone, while part-a holds a journal")
        self.gone(tidied, "part-a", "part-b")

    def gone(self, folder, part, other):
        os.remove(os.path.join(folder, part))
        before = directories.attributes(folder)
        self.refused(folder, f"{folder}/{part}: gone, while {other} holds a journal")
        self.assertEqual(directories.attributes(folder), before)
        self.assertEqual(sorted(os.listdir(folder)), ["agents", "identity", other])

    def test_no_journal(self):
        """a part that holds no journal is refused, and a missing one beside it is not reported"""
        folder = self.journal()
        with open(os.path.join(folder, "part-a"), "wb") as part:
            part.write(b"not a journal at all")
        self.refused(folder, f"{folder}/part-a: holds no journal")
        self.hidden("show", folder, f"{folder}/part-a: holds no journal")
        self.assertEqual(os.listdir(folder), ["part-a"])

    def test_emptied(self):
        """a part that is empty beside one that was tidied is refused like a missing one, also without an identity"""
        folder = self.tidied()
        directories.empty(os.path.join(folder, "part-a"))
        os.remove(os.path.join(folder, "identity"))
        says = f"{folder}/part-a: empty, while part-b holds a journal that was tidied"
        self.refused(folder, says)
        self.hidden("status", folder, says)
        self.assertEqual(os.path.getsize(os.path.join(folder, "part-a")), 0)


class Owners(directories.Directories):
    def test_unreadable(self):
        """a part that a user who is not root may not read is refused with that cause"""
        other, folder = self.program_of_other(), self.journal()
        if os.geteuid() == 0:
            os.chown(folder, OTHER, OTHER)
        self.assertEqual(self.replied(folder, REGISTER, **other), [OK])
        os.chmod(os.path.join(folder, "part-a"), 0o200)
        self.refused(folder, f"{folder}/part-a: Permission denied (os error 13)", NO_PERMISSION, **other)

    def test_to_be_read(self):
        """of a directory that may only be read show prints what it holds, also if that is nothing, and changes nothing"""
        other = self.program_of_other()
        fixed, bare = self.registered("fixed"), self.journal("bare")
        for name in helper.PARTS:
            os.chmod(os.path.join(fixed, name), 0o444)
        for folder in (fixed, bare):
            os.chmod(folder, 0o555)
            self.addCleanup(os.chmod, folder, 0o755)
        before = [directories.attributes(folder) for folder in (fixed, bare)]
        done = helper.run("show", "--journal", fixed, **other)
        self.assertEqual((done.returncode, directories.texts(done)[0]), (0, LISTED))
        done = helper.run("show", "--journal", bare, **other)
        self.assertEqual((done.returncode, directories.texts(done)), (0, [EMPTY]))
        self.assertEqual([directories.attributes(folder) for folder in (fixed, bare)], before)

    @unittest.skipUnless(os.geteuid() == 0, "run as root")
    def test_distrusted(self):
        """root opens a journal alone of which it is the only writer, or any with --any-owner; show and status read any"""
        for name, (path, owner, mode, why) in DISTRUSTED.items():
            with self.subTest(name):
                folder = self.registered(name) if path else self.journal(name)
                changed = os.path.join(folder, path) if path else folder
                os.chown(changed, owner, -1)
                os.chmod(changed, mode)
                before = directories.attributes(folder)
                self.refused(folder, f"{changed}: {why}", DECIDES)
                self.assertEqual(directories.attributes(folder), before)
                done = helper.run("show", "--journal", folder)
                self.assertEqual((done.returncode, done.stderr), (0, b""))
                # (a directory without a journal has no status)
                done = helper.run("status", "--journal", folder)
                self.assertEqual((done.returncode, done.stderr), (0, b"") if path else (9, b"ocfexec: no journal here yet\n"))
                done = helper.run("run", "--journal", folder, "--any-owner", sent=helper.lines(LIST))
                self.assertEqual((done.returncode, done.stderr), (0, b""))

    @unittest.skipUnless(os.geteuid() == 0, "run as root")
    def test_trusted(self):
        """root opens a journal that others may read, and another user opens any journal that the system allows"""
        readable, part = self.registered("readable"), self.place("readable/part-a")
        for path, mode in ((readable, 0o755), (part, 0o644)):
            os.chown(path, -1, OTHER)
            os.chmod(path, mode)
        self.assertEqual(self.replied(readable, LIST), [LISTED])
        other, folder = self.program_of_other(), self.journal("other")
        os.chown(folder, OTHER, -1)
        os.chmod(folder, 0o777)
        self.assertEqual(self.replied(folder, REGISTER, **other), [OK])
