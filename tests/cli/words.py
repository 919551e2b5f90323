"""The words of the command line: help and version on request, the options of a run as an agent is asked for its metadata, the journal that
arguments and environment name, moments and spans, and words that are refused, with the exit status and all lines on standard error. What
each option does is tried in options.py."""
import os
import re
import subprocess
import unittest

import helper

# (package/release.sh writes it)
VERSION = "0.2.0"
SUBCOMMANDS = ("run", "serve", "show", "status", "log", "metrics", "once")
OPERATIONS = ("register", "unregister", "params", "exec", "recur", "cancel", "withdraw", "forget", "list", "info", "history", "drain",
              "watch", "meta", "tidy")
# parts of a help, and the options of one that has no others
PARTS = (
    ("--help", ("Usage: ocfexec", "run ", "show ", "--version", "Example:", "ocfexec run --memory", "man ocfexec")),
    ("run --help", ("--strict", "--journal <DIR>", "--memory", "--root <DIR>", "--via <PROGRAM>", "--path <PATH>",
                    "[default: /usr/lib/ocf]", "[default: /usr/sbin:/usr/bin:/sbin:/bin]", "--any-owner", "--tidy-at <BYTES>",
                    "[default: 6291456]", "--orphans <MS>", "[default: 20000]", "--leave-orphans", "--no-groups", "--existing",
                    "exactly one of --journal and --memory", "Examples:", "ocfexec run --memory")),
    ("show --help", ("Examples:", "ocfexec show --journal /srv/journal", "OCFEXEC_JOURNAL")),
)
OPTIONS = (
    ("show", "--help --journal --memory"),
    ("status", "--color --exit-code --failed --help --journal --json --logs --memory --times --watch"),
)
NONE = '{"ok":true,"resources":[]}\n'
# numbers at their limits, and with a zero before them
TAKEN = (*(f"run --memory --tidy-at {size}" for size in ("0", "045", "8388608")),
         *(f"run --memory --orphans {millis} --leave-orphans --any-owner --no-groups" for millis in ("0", "045", "86400000")))
META, MISSING = {"op": "meta", "provider": "p", "type": "t"}, '{"end":"missing"}\n'
# what is printed of an agent's metadata, by the options of a run; a program without a slash is searched in the agents' PATH
PRINTED = (
    ("--via echo", '{"meta":38}\n/usr/lib/ocf/resource.d/p/t meta-data\n\n'),
    ("--path=/usr/bin:/bin --root=/r --via=echo", '{"meta":28}\n/r/resource.d/p/t meta-data\n\n'),
    ("--root /r --via echo --path /nowhere", MISSING),
    ("--via=-x", MISSING),
    ("--via=/nowhere/x", MISSING),
)
MOMENTS = ("2026", "2026-11", "2026-11-27", "2026-11-27T06", "2026-11-27T06:30", "2026-11-27T06:30Z", "2026-11-27T06:30:20",
           "2026-11-27T06:30:20.114Z", "2026-11-27T06:30:20.1", "2026-11-27T07:30+01:00", "2026-11-27T06:30:20-05:30", "30s", "10m", "2h",
           "1d", "0s")
NO_MOMENTS = ("", "no", "2026-13-01", "2026-1", "2026-11-2", "2026-11-27T6:30", "2026-11-27T06:30:00+1", "1969", "m", "1.5h", "-1d", "10",
              "10x", "10 m", "999999999999999d")
# a byte that is no text
NO_TEXT = "\udcff"
GIVE_ONE = "give one of --journal and --memory"
NOT_UTF_8 = "an argument or OCFEXEC_JOURNAL is not UTF-8"
# words, separated by bars, that are refused with status 2 and this line
REFUSED = (
    *((words, GIVE_ONE) for words in ("run", "show|--memory|--journal|folder", "run|--memory|--journal|folder", "run|--tidy-at|no")),
    *((f"run|--memory|--tidy-at|{text}", "give --tidy-at a number from 0 to 8388608")
      for text in ("", "no", "1k", "1.5", "8388609", "18446744073709551616")),
    ("run|--memory|--tidy-at=-1", "give --tidy-at a number from 0 to 8388608"),
    ("run|--memory|--leave-orphans|--orphans|86400001", "give --orphans a number from 0 to 86400000"),
    *((f"log|--memory|--{name}={text}", f"give --{name} a moment, as 2026-11-27 or 2026-11-27T06:30, or a span, as 10m or 2h")
      for name in ("since", "until") for text in NO_MOMENTS),
    *((f"log|--memory|--last={text}", "give -n a number of records") for text in ("", "no", "-1", "1.5")),
    *((f"status|--memory|--watch={text}", "give --watch a number of seconds, from 1 to 86400") for text in ("", "no", "-1", "1.5")),
    ("status|--memory|--watch|0", "give --watch a number of seconds, from 1 to 86400"),
    ("status|--memory|--color|red", "give --color one of auto, always and never"),
    ("status|--memory|" + "|".join(map(str, range(1, 18))), "give at most 16 ids of resources"),
    (f"run|--memory|--via|a{NO_TEXT}", NOT_UTF_8),
    (NO_TEXT, NOT_UTF_8),
)
# words that no subcommand has, and a part of the text about them
MISUSED = (
    ("", r"Usage: .* <COMMAND>"),
    ("fly", "unrecognized subcommand 'fly'"),
    ("run --memory --fast", "unexpected argument '--fast'"),
    ("show --memory --root /r", "unexpected argument '--root'"),
    ("status --memory --any-owner", "unexpected argument '--any-owner'"),
    ("log --memory --events", "unexpected argument '--events'"),
    ("run --fast", "Usage: ocfexec run"),
    *((words, "^error: ") for words in (
        "--memory", "run --memory more", "run --fast --memory", "run --memory=yes", "run --memory --any-owner=no",
        "run --memory --leave-orphans=yes", "run --memory --leave-orphans yes", "run --memory --no-groups=yes", "run --memory --strict=yes",
        "run --memory --via -x")),
    ("serve --memory --strict", "unexpected argument '--strict'"),
    ("show --memory --no-groups", "unexpected argument '--no-groups'"),
    ("run --memory --root /r --root /r", "cannot be used multiple times"),
    ("run --version", "unexpected argument '--version'"),
    ("run --journal", "a value is required"),
    ("run --memory --memory", "cannot be used multiple times"),
)


def called(*words: str, **variables: str) -> tuple[int, str, str]:
    """The status of a run without input, its standard output, and its standard error. Only the given variables name a journal."""
    others = {name: value for name, value in os.environ.items() if name != "OCFEXEC_JOURNAL"}
    done = subprocess.run([helper.PROGRAM, *words], stdin=subprocess.DEVNULL, capture_output=True, env=others | variables,
                          timeout=helper.WHOLE)
    return done.returncode, done.stdout.decode(), done.stderr.decode()


class Words(helper.Check):
    def prints(self, *words: str, **variables: str) -> str:
        """The output of a run that ends well."""
        status, text, err = called(*words, **variables)
        self.assertEqual((status, err), (0, ""), words)
        return text

    def is_refused(self, status: int, line: str, *words: str, **variables: str) -> None:
        found, _, err = called(*words, **variables)
        self.assertEqual((found, err), (status, f"ocfexec: {line}\n"), words)


class Requested(Words):
    def test_help(self) -> None:
        """the help of the program and of each subcommand is printed on request, in 80 columns"""
        for words in ("--help", *(f"{name} --help" for name in SUBCOMMANDS), "show -h", "help run", "run --memory --help"):
            text = self.prints(*words.split())
            self.assertIn("Usage: ocfexec ", text, words)
            self.assertEqual([line for line in text.splitlines() if len(line) > 80], [], words)

    def test_parts(self) -> None:
        """the help has each operation, and the options of a subcommand with their defaults"""
        for words, parts in PARTS:
            text = self.prints(*words.split())
            self.assertEqual([part for part in parts if part not in text], [], words)
        text = self.prints("--help")
        self.assertEqual([name for name in OPERATIONS if not re.search(f"^  {name} ", text, re.MULTILINE)], [])
        for name, options in OPTIONS:
            found = re.findall(r"^ *(?:-., )?(--[a-z-]*)", self.prints(name, "--help"), re.MULTILINE)
            self.assertEqual(sorted(found), options.split(), name)

    def test_version(self) -> None:
        """--version and -V print the version"""
        for word in ("--version", "-V"):
            self.assertEqual(self.prints(word), f"ocfexec {VERSION}\n")

    def test_taken(self) -> None:
        """a run without input prints nothing, with each number at its limits"""
        for words in ("run --memory", *TAKEN):
            self.assertEqual(self.prints(*words.split()), "", words)

    def test_memory(self) -> None:
        """show prints that a journal in memory is empty"""
        self.assertEqual(self.prints("show", "--memory"), NONE)

    def test_run(self) -> None:
        """--root, --path and --via say how an agent is asked for its metadata, and have defaults"""
        for words, wanted in PRINTED:
            done = helper.run("run", "--memory", *words.split(), sent=helper.lines(META))
            self.assertEqual((done.returncode, done.stderr, done.stdout.decode()), (0, b"", wanted), words)

    def test_moments(self) -> None:
        """each form of a moment and of a span is taken"""
        for moment in MOMENTS:
            self.prints("log", "--memory", "--since", moment, "--until", moment)


class Journal(Words):
    """The journal of a subcommand that reads one: a new journal, by the environment."""

    def setUp(self) -> None:
        super().setUp()
        self.variable = {"OCFEXEC_JOURNAL": self.journal()}

    def test_new(self) -> None:
        """a new journal is shown as empty"""
        self.assertEqual(self.prints("show", "--journal", self.place("journal")), NONE)

    def test_environment(self) -> None:
        """without an argument OCFEXEC_JOURNAL names the journal, except that of run and serve"""
        self.assertEqual(self.prints("show", **self.variable), NONE)
        for word in ("status", "log", "metrics"):
            self.is_refused(9, "no journal here yet", word, **self.variable)
        for word in ("run", "serve"):
            self.is_refused(2, GIVE_ONE, word, **self.variable)
        self.is_refused(5, "disk", "show", OCFEXEC_JOURNAL=self.place("none"))
        self.is_refused(2, NOT_UTF_8, "show", OCFEXEC_JOURNAL=NO_TEXT)

    def test_argument(self) -> None:
        """an argument names another journal than OCFEXEC_JOURNAL"""
        done = helper.run("run", "--journal", self.journal("other"), sent=helper.lines(helper.register("r1", "t", "p")))
        self.assertEqual(done.returncode, 0, done.stderr)
        self.assertIn("r1", self.prints("show", "--journal", self.place("other"), **self.variable))
        self.assertEqual(self.prints("show", "--memory", **self.variable), NONE)

    @unittest.skipIf(os.path.exists("/var/lib/ocfexec"), "this machine has the default journal")
    def test_default(self) -> None:
        """without both it is /var/lib/ocfexec"""
        self.is_refused(5, "disk", "show")
        self.is_refused(5, "disk: /var/lib/ocfexec: No such file or directory (os error 2)", "status", OCFEXEC_JOURNAL="")


class Refused(Words):
    def test_refused(self) -> None:
        """a value that is refused has a line that says what to give, and status 2"""
        for words, line in REFUSED:
            self.is_refused(2, line, *words.split("|"))

    def test_disk(self) -> None:
        """a directory that is missing, and an empty name of one, have the line of a disk, and status 5"""
        self.is_refused(5, "disk", "run", "--journal", self.place("none"))
        self.is_refused(5, "disk", "show", "--journal=")

    def test_misused(self) -> None:
        """words that a subcommand does not have are refused with a text that names them, and status 2"""
        for words, part in MISUSED:
            status, text, err = called(*words.split())
            self.assertEqual((status, text), (2, ""), words)
            self.assertRegex(err, re.compile(part, re.MULTILINE), words)
