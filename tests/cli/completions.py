"""The completions of the program's arguments, each requested in the shell itself: bash, and fish and zsh if they are installed."""
import os
import re
import shutil
import subprocess
import unittest

import helper

SCRIPT = os.path.join(helper.TOP, "package/completions.sh")
NO_FISH, NO_ZSH = "it is not there (apt-get install fish)", "it is not there (apt-get install zsh)"
# Completes the last of the words after the name of a file of completions. (In bash an agent is three words.)
IN_BASH = """. "$1"; shift; complete -p ocfexec > /dev/null || exit 1
COMP_WORDBREAKS=" :"; COMP_WORDS=("$@"); COMP_CWORD=$(($# - 1)); _ocfexec; printf "%s\\n" "${COMPREPLY[@]}"
"""
IN_FISH = "source $argv[1]; complete -C $argv[2]"
# Lines of arguments, each up to what is completed, and the offers; HERE is the check's directory.
WORDS_IN_BASH = (
    ("", "--help --version log metrics once run serve show status"),
    ("serve --jo", "--journal"),
    ("serve --le", "--leave-orphans"),
    ("serve --an", "--any-owner"),
    ("status --js", "--json"),
    ("log --sa", "--salvage"),
    ("serve --journal HERE/li", "HERE/lib HERE/libexec"),
    ("status --color ", "always auto never"),
)
AGENTS_IN_BASH = (
    ("once --root HERE/ocf ", "heartbeat:Delay heartbeat:Dummy my:web"),
    ("once --root HERE/ocf heart", "heartbeat:Delay heartbeat:Dummy"),
    ("once --root HERE/ocf heartbeat :", "Delay Dummy"),
    ("once --root HERE/ocf heartbeat : Du", "Dummy"),
    ("once --root HERE/ocf heartbeat : Dummy m", "meta-data monitor"),
    ("once --of web st", "start stop"),
    ("once heartbeat : Dummy monitor ", ""),
)
IDS_IN_BASH = (("status --journal HERE/journal ", "db web"), ("once --journal HERE/journal --of w", "web"))
WORDS_IN_FISH = (
    ("s", "serve show status"),
    ("r", "run"),
    ("serve --jo", "--journal"),
    ("status --js", "--json"),
    ("serve --journal HERE/li", "HERE/lib/ HERE/libexec/"),
)
AGENTS_IN_FISH = (("once --root HERE/ocf heartbeat:Du", "heartbeat:Dummy"), ("once heartbeat:Dummy mo", "monitor"))
IDS_IN_FISH = (("status --journal HERE/journal w", "web"), ("once --journal HERE/journal --of w", "web"))
# the same, and the whole line after it
LINES_IN_ZSH = (
    ("se", "serve"),
    ("serve --jo", "serve --journal"),
    ("status --js", "status --json"),
    ("serve --journal HERE/libe", "serve --journal HERE/libexec"),
    ("status --journal HERE/journal w", "status --journal HERE/journal web"),
    ("once --root HERE/ocf my", "once --root HERE/ocf my:web"),
    ("once my:web pro", "once my:web promote"),
)
# What zsh reads on a terminal of its own: the program notes its words, and files say that it has prompted and completed.
ZSH = """fpath=($here/zsh $fpath)
autoload -U compinit && compinit -u -d $here/dump
ocfexec() { print -r -- $argv >> $here/words }
precmd() { : > $here/prompted }
completes() { zle expand-or-complete; : > $here/completed }
zle -N completes && bindkey '^I' completes
"""
# Types each line there, completes it, and enters it. It waits until zsh has prompted, and until it has completed.
TYPED = """zmodload zsh/zpty
here=$1
awaits() { until [[ -e $here/$1 ]]; do sleep 0.02; done; rm $here/$1 }
zpty shell zsh -f -i
zpty -w shell "here=$here; source $here/set_up"
for line in "${@:2}"; do
    awaits prompted
    zpty -w -n shell "$line"$'\\t'
    awaits completed
    zpty -w -n shell $'\\n'
done
awaits prompted
zpty -d shell
"""


class Completions(helper.Check):
    def setUp(self) -> None:
        super().setUp()
        for name in ("lib", "libexec", "zsh", "bin"):
            os.mkdir(self.place(name))
        for name in ("heartbeat/Dummy", "heartbeat/Delay", "heartbeat/.ocf-shellfuncs", "my/web"):
            self.write(f"ocf/resource.d/{name}", "#!/bin/sh\n", 0o755)
        self.write("ocf/resource.d/heartbeat/README", "text\n")
        os.symlink(helper.PROGRAM, self.place("bin/ocfexec"))
        done = helper.run("run", "--journal", self.journal(),
                          sent=helper.lines(*(helper.register(name, "Dummy", "heartbeat") for name in ("web", "db"))))
        self.assertEqual(done.returncode, 0, done.stderr)

    def write(self, name: str, text: str, mode: int = 0o644) -> str:
        path = self.place(name)
        os.makedirs(os.path.dirname(path), exist_ok=True)
        with open(path, "w", encoding="utf-8") as file:
            file.write(text)
        os.chmod(path, mode)
        return path

    def completions(self, shell: str) -> str:
        return subprocess.run([SCRIPT, helper.PROGRAM, shell], stdout=subprocess.PIPE, text=True, check=True, timeout=helper.WHOLE).stdout

    def here_in(self, text: str) -> str:
        return text.replace("HERE", self.here)

    def printed(self, *words: str, has_program: bool = False, **more: str) -> tuple[str, str]:
        """The output of a shell that ends well, and its standard error; it may find the program in its PATH."""
        path = f"{self.place('bin')}:{os.environ['PATH']}" if has_program else os.environ["PATH"]
        done = subprocess.run(words, stdin=subprocess.DEVNULL, capture_output=True, text=True, timeout=helper.WHOLE,
                              env={**os.environ, "HOME": self.here, "PATH": path, **more})
        self.assertEqual(done.returncode, 0, (words, done.stderr))
        return done.stdout, done.stderr


class Bash(Completions):
    def setUp(self) -> None:
        super().setUp()
        self.script = self.write("bash", self.completions("bash"))

    def offers(self, rows: tuple[tuple[str, str], ...], **how: object) -> None:
        for line, wanted in rows:
            words = self.here_in(f"ocfexec {line}").split(" ")
            found, err = self.printed("bash", "--norc", "-c", IN_BASH, "bash", self.script, *words, **how)
            self.assertEqual((sorted(found.split()), err), (self.here_in(wanted).split(), ""), line)

    def test_words(self) -> None:
        """bash offers subcommands, their options, the words of an option, and directories"""
        self.offers(WORDS_IN_BASH)

    def test_no_space(self) -> None:
        """bash knows what is a directory or a file, after which it puts no space"""
        with open(self.script, encoding="utf-8") as script:
            self.assertEqual(sum("compopt -o filenames" in line for line in script), 2)

    def test_ids(self) -> None:
        """bash offers the ids of the journal that is named, or of that of the environment"""
        self.offers(IDS_IN_BASH, has_program=True)
        self.offers((("log w", "web"),), has_program=True, OCFEXEC_JOURNAL=self.place("journal"))

    def test_agents(self) -> None:
        """bash offers the agents below a root, after an agent or a resource its actions, and nothing after an action"""
        self.offers(AGENTS_IN_BASH)

    def test_default_root(self) -> None:
        """without --root the agents are looked for below the program's default root"""
        usage = helper.run("once", "--help").stdout.decode()
        default = re.search(r"--root <DIR>[^[]*\[default: ([^]]*)\]", usage)[1]
        with open(self.script, encoding="utf-8") as script:
            self.assertIn(f"    root=${{root:-{default}}}\n", script.readlines())


@unittest.skipUnless(shutil.which("fish"), NO_FISH)
class Fish(Completions):
    def offers(self, rows: tuple[tuple[str, str], ...], **how: object) -> str:
        """Compares the offers, and returns what fish wrote to standard error."""
        script, errors = self.write("fish", self.completions("fish")), ""
        for line, wanted in rows:
            found, err = self.printed("fish", "--no-config", "-c", IN_FISH, script, self.here_in(f"ocfexec {line}"), **how)
            self.assertEqual(sorted(each.partition("\t")[0] for each in found.splitlines()), self.here_in(wanted).split(), line)
            errors += err
        return errors

    def test_words(self) -> None:
        """fish offers subcommands, options and directories, and does not miss a program that is not in its PATH"""
        self.assertEqual(self.offers(WORDS_IN_FISH), "")

    def test_agents(self) -> None:
        """fish offers the agents below a root, and their actions"""
        self.assertEqual(self.offers(AGENTS_IN_FISH), "")

    def test_ids(self) -> None:
        """fish offers the ids of the journal that is named"""
        self.offers(IDS_IN_FISH, has_program=True)


@unittest.skipUnless(shutil.which("zsh"), NO_ZSH)
class Zsh(Completions):
    def test_lines(self) -> None:
        """zsh completes subcommands, options, directories, ids, agents and actions on a terminal"""
        self.write("zsh/_ocfexec", self.completions("zsh"))
        self.write("set_up", ZSH)
        typed = self.write("typed", TYPED)
        self.printed("zsh", "-f", typed, self.here, *(self.here_in(f"ocfexec {line}") for line, _ in LINES_IN_ZSH), has_program=True)
        with open(self.place("words"), encoding="utf-8") as words:
            self.assertEqual([line.rstrip() for line in words], [self.here_in(wanted) for _, wanted in LINES_IN_ZSH])
