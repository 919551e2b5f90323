"""Standard output that is full, closed or without a reader, standard input that cannot be read, standard error that cannot be written, and
memory that is refused: the exit status, and all lines on standard error. That is one line for programs; if the environment names standard
error as the stream to the system's journal, the cause and the remedy come after it."""
import os
import re
import resource
import subprocess
import tempfile

import helper

LIST, NONE = b'{"op":"list"}\n', b'{"ok":true,"resources":[]}\n'
LINE = "ocfexec: input or output\n"
REMEDY = "Check what standard input and output are connected to. A command without a reply may have been recorded.\n"
FULL, CLOSED, UNREAD = "No space left on device (os error 28)", "Bad file descriptor (os error 9)", "Broken pipe (os error 32)"
DIRECTORY = "Is a directory (os error 21)"
# words whose output is written to a full device, and such whose output is closed
WRITE = ("--help", "run --help", "--version", "run --memory", "serve --memory", "show --memory", "status --memory",
         "status --json --memory")
WRITE_NOWHERE = ("run --memory", "show --memory")
# words that only print: it is no fault if nobody reads that to its end
PRINT = ("--help", "run --help", "show --memory", "status --memory", "status --json --memory")
# the address space of a run, in KiB: from too little for a program to be loaded, to enough
LIMITS = range(1000, 12_000, 16)
NO_SHELL = re.compile(r"^ocfexec: cannot spawn the shell that ends processes: .*\n", re.MULTILINE)


def ended(words: str, is_explained: bool, **how: object) -> tuple[int, str]:
    """The status of a run, and its standard error, which may be named as the stream to the system's journal."""
    with tempfile.TemporaryFile() as err:
        named = helper.journal_stream(err.fileno()) if is_explained else {}
        if "stdin" not in how:
            how = {"input": LIST, **how}
        done = subprocess.run([helper.PROGRAM, *words.split()], stderr=err, env={**os.environ, **named}, timeout=helper.WHOLE, **how)
        err.seek(0)
        return done.returncode, err.read().decode()


def unread() -> int:
    """The end of a pipe that nobody reads."""
    reader, writer = os.pipe()
    os.close(reader)
    return writer


class Streams(helper.Check):
    def fails(self, words: str, what: str, **how: object) -> None:
        """A run ends with 7 and a line, and what failed is explained in the system's journal; with a remedy, if it took commands."""
        remedy = REMEDY if words.startswith(("run --memory", "serve ")) else ""
        for is_explained, wanted in ((False, LINE), (True, f"{LINE}{what}\n{remedy}")):
            self.assertEqual(ended(words, is_explained, **how), (7, wanted), words)

    def unwritten(self, words: str, reason: str, **how: object) -> None:
        self.fails(words, f"standard output could not be written: {reason}", **how)

    def test_full(self) -> None:
        """output to a full device ends a run with 7, and the system's journal has the cause"""
        with open("/dev/full", "wb") as full:
            for words in WRITE:
                self.unwritten(words, FULL, stdout=full)

    def test_closed(self) -> None:
        """output that is closed ends a run with 7, and the system's journal has the cause"""
        for words in WRITE_NOWHERE:
            self.unwritten(words, CLOSED, preexec_fn=lambda: os.close(1))

    def test_unread(self) -> None:
        """output that nobody reads ends a run, and a status whose exit status counts, with 7; all else that only prints ends with 0"""
        folder = self.journal()
        done = helper.run("run", "--journal", folder, sent=helper.lines(helper.register("r1", "t", "p")))
        self.assertEqual(done.returncode, 0, done.stderr)
        with open(unread(), "wb") as pipe:
            self.unwritten("run --memory", UNREAD, stdout=pipe)
            self.unwritten(f"status --exit-code --journal {folder}", UNREAD, stdout=pipe)
            for words in (*PRINT, *(f"{name} --journal {folder}" for name in ("log", "show", "status"))):
                self.assertEqual(ended(words, True, stdout=pipe, stdin=subprocess.DEVNULL), (0, ""), words)

    def test_input(self) -> None:
        """input that cannot be read ends a run with 7, and the system's journal has the cause"""
        top = os.open("/", os.O_RDONLY)
        self.addCleanup(os.close, top)
        for reason, how in ((DIRECTORY, {"stdin": top}), (CLOSED, {"stdin": None, "preexec_fn": lambda: os.close(0)})):
            self.fails("run --memory", f"standard input could not be read: {reason}", stdout=subprocess.DEVNULL, **how)

    def test_error(self) -> None:
        """standard error that cannot be written changes no status"""
        with open("/dev/full", "wb") as full:
            done = subprocess.run([helper.PROGRAM, "run", "--journal", self.place("none")], stdin=subprocess.DEVNULL,
                                  stdout=subprocess.DEVNULL, stderr=full, timeout=helper.WHOLE)
        self.assertEqual(done.returncode, 5)


class Memory(helper.Check):
    def ends(self, limit: int) -> str:
        """How a run in this address space ends: answered, refused, amid its replies, or otherwise."""
        def have() -> None:
            resource.setrlimit(resource.RLIMIT_AS, (limit << 10, limit << 10))
            resource.setrlimit(resource.RLIMIT_CORE, (0, 0))

        done = helper.run("run", "--memory", sent=LIST, preexec_fn=have)
        err = done.stderr.decode()
        if done.returncode == 0:
            self.assertEqual(done.stdout, NONE, limit)
            return "answered"
        if done.returncode == 4:
            # (there may be too little for the shell that sends signals, too)
            self.assertEqual((NO_SHELL.sub("", err), done.stdout), ("ocfexec: memory\n", b""), limit)
            return "refused"
        if done.returncode == 7:
            self.assertEqual(err, LINE, limit)
            return "amid its replies"
        return "otherwise"

    def test_memory(self) -> None:
        """from little memory to enough, the system ends a run before it begins, and then it is refused with 4 and its line, or answered"""
        found = {limit: self.ends(limit) for limit in LIMITS}
        self.assertLessEqual({"answered", "refused"}, set(found.values()))
        begins = min(limit for limit, end in found.items() if end == "refused")
        self.assertEqual([limit for limit, end in found.items() if limit > begins and end == "otherwise"], [], "KiB")
