"""What tries wrong bodies, tools/wrong_bodies.py, with a repository of three small crates and a stand-in for the kit's `rt`: it refuses
each function that has the word WRONG, and notes in which crates it was called."""
import datetime
import os
import re
import shutil
import subprocess
import sys
from pathlib import Path

import helper

RT = r"""#!/usr/bin/env -S python3 -IS
import os, re, sys
here = os.path.dirname(os.path.abspath(__file__))
if sys.argv[1] == "version":
    print(open(here + "/kit").read())
if sys.argv[1] == "check":
    crate, text = os.path.basename(os.getcwd()), open("src/lib.rt").read()
    with open(here + "/calls", "a") as log:
        print(crate, file=log)
    os.makedirs("out/incremental", exist_ok=True)
    lines = [number for number, line in enumerate(text.splitlines(), 1) if "WRONG" in line][:1]
    waits = f"fn {crate}::second: no proof: it calls `first`" * text.count("WRONG\n}\n\n#")
    print(*[f"note: src/lib.rt:{number}:5: it is not proved" for number in lines], waits, f"logic={'not-' * bool(lines)}proved", sep="\n")
    sys.exit(bool(lines))
"""
CRATES = {"low": "", "high": "low", "beside": ""}
BODIES = {"first": "n + 1", "second": "first(n)"}
SOURCE = "".join(f"#[tactic(auto)]\npub fn {name}(n: u64) -> u64 {{\n    {body}\n}}\n\n" for name, body in BODIES.items())
EVERY = ["beside/one", "high/one", "high/two", "low/one"]
ADDS = '''import helper


class Adds(helper.Check):
    def test_adds(self):
        """it adds"""
        with open(helper.PROGRAM, encoding="ascii") as program:
            self.assertIn("1", program.read())
'''


class WrongBodies(helper.Check):
    def setUp(self):
        super().setUp()
        self.write("bin/rt", RT)
        self.write("bin/kit", "kit-one logic 1")
        for script in ("tools/wrong_bodies.py", "tools/gate.sh"):
            self.write(f"top/{script}", "")
            shutil.copy(os.path.join(helper.TOP, script), self.place(f"top/{script}"))
        self.write("top/crates.txt", "# name: what it depends on\n" + "".join(f"{name}: {below}\n" for name, below in CRATES.items()))
        self.write("top/HANDLES", "")
        for name in CRATES:
            self.write(f"top/crates/{name}/src/lib.rt", SOURCE)
        for edit in EVERY:
            self.edit(edit)
        self.edit("high/two", old="first(n)", named="second")

    def write(self, name, text):
        path = Path(self.place(name))
        path.parent.mkdir(parents=True, exist_ok=True)
        path.write_text(text, encoding="utf-8")
        path.chmod(0o755)

    def edit(self, name, old="n + 1", new="WRONG", folder="mutants/gate", named="first, result"):
        self.write(f"top/{folder}/{name}.edit", f"file: src/lib.rt\nold: {old}\nnew: {new}\n# refused by: {named}\n")

    def lines(self):
        """The lines of mutants/tried, by their edits."""
        with open(self.place("top/mutants/tried"), encoding="utf-8") as file:
            return {edit: rest for edit, *rest in map(str.split, file)}

    def command(self, *words, script="tools/wrong_bodies.py"):
        begin = [sys.executable] if script.endswith(".py") else []
        return [*begin, self.place(f"top/{script}"), *words], {**os.environ, "PATH": self.place("bin") + ":" + os.environ["PATH"]}

    def called(self, *words, **how):
        """The output of a call, its status, and the edits that were tried."""
        command, environment = self.command(*words, **how)
        done = subprocess.run(command, stdout=subprocess.PIPE, stderr=subprocess.STDOUT, text=True, env=environment, check=False)
        return done.stdout, done.returncode, sorted(re.findall(r"^  (?:refused|FAILED ) +(\S+):", done.stdout, re.MULTILINE))

    def tries(self, wanted, passed, failed, *words):
        """A call tries exactly these edits, and counts this many. Returns its output."""
        text, status, tried = self.called(*(words or ["check"]))
        self.assertEqual(tried, wanted, text)
        self.assertEqual((text.splitlines()[-1], status), (f"{passed} passed, {failed} failed", 1 if failed else 0), text)
        return text

    def test_all(self):
        """each edit without a stamp is tried, two of different functions by one check, and again what waited for another"""
        self.tries(EVERY, 4, 0)
        self.assertEqual(self.lines()["low/one"][1:], [datetime.date.today().isoformat(), "kit-one"])
        self.assertEqual(sorted(Path(self.place("bin/calls")).read_text(encoding="utf-8").split()), sorted([*CRATES, "high", *CRATES]))
        self.tries([], 4, 0)
        self.tries(EVERY, 4, 0, "all", "-j", "1")

    def test_names(self):
        """a crate's name chooses all its edits, every chooses all, an edit's own name one; show lists those without a stamp"""
        self.edit("high/more", folder="mutants")
        self.tries(["high/more", "high/one", "high/two"], 3, 0, "all", "high")
        self.edit("high/more", folder="mutants", new="WRONG, too")
        wanted = ["beside/one: never seen refused", f"high/more: last seen refused {datetime.date.today()} kit-one",
                  "low/one: never seen refused", "2 of 5 wrong bodies as mutants/tried has them"]
        text, status, tried = self.called("show", "every")
        self.assertEqual((text.splitlines(), status, tried), (wanted, 0, []))
        self.tries(["high/two"], 1, 0, "all", "high/two")
        self.tries(["beside/one", "high/more", "low/one"], 5, 0, "check", "every")
        self.assertEqual(self.called("show", "every")[0], "all 5 wrong bodies as mutants/tried has them\n")
        self.assertEqual(self.called("all", "none")[:2], ("wrong_bodies.py: mutants has no edit of this name: none\n", 1))

    def test_texts(self):
        """a change of an edit, or of a file at or below its crate, makes its stamp old; a comment, or another kit, does not"""
        self.tries(EVERY, 4, 0)
        self.write("bin/kit", "kit-two logic 2")
        self.edit("low/one", named="second; first")
        self.write("top/crates/high/must-fail/more.edit", "")
        self.tries([], 4, 0)
        self.edit("high/two", old="first(n)", new="WRONG, too", named="second")
        self.tries(["high/two"], 4, 0)
        self.write("top/crates/low/specs/Low.antt", "-- a definition\n")
        self.tries(["high/one", "high/two", "low/one"], 4, 0)
        os.rename(self.place("top/crates/low/specs/Low.antt"), self.place("top/crates/low/specs/High.antt"))
        self.tries(["high/one", "high/two", "low/one"], 4, 0)
        self.write("top/crates.txt", "low:\nhigh: low arrayvec\nbeside:\n")
        self.tries(["high/one", "high/two"], 4, 0)
        self.write("top/mutants/tried", "high/two 0123\n")
        self.tries(EVERY, 4, 0)

    def test_not_refused(self):
        """an edit that is not refused, does not apply, or is refused in a function that it does not name fails, and has no stamp"""
        self.tries(EVERY, 4, 0)
        for change, what in (({"new": "n + 2"}, "NOT REFUSED"), ({"old": "n - 1"}, "BAD EDIT"),
                             ({"old": "first(n)"}, "REFUSED ELSEWHERE, in second, not first")):
            self.edit("low/one", **change)
            for _ in range(2):
                self.assertIn(f"FAILED   low/one: {what}", self.tries(["low/one"], 3, 1))
                self.assertEqual(sorted(self.lines()), EVERY[:3])
        self.edit("low/one", old="first(n)", named="first; second, result")
        self.tries(["low/one"], 4, 0)

    def test_together(self):
        """of edits that are tried by one check, only those count whose own functions are refused"""
        self.edit("high/one", new="n + 2")
        self.assertIn("FAILED   high/one: NOT REFUSED", self.tries(EVERY, 3, 1))
        self.assertEqual(sorted(self.lines()), ["beside/one", "high/two", "low/one"])

    def test_several(self):
        """a function that shares its name is checked by its whole name; of edits that do not compile together each is tried alone"""
        several = "several functions are named `first`: help: write one of `low::first`, `low::other::first`"
        begins = """    if "first" in sys.argv:
        sys.exit(print("rattle: error: SEVERAL") or 2)
    if "BROKEN" in open("src/lib.rt").read():
        sys.exit(print("src/lib.rt:1:1: error: no") or 1)
"""
        self.write("bin/rt", RT.replace("    crate, text", begins.replace("SEVERAL", several) + "    crate, text"))
        self.edit("high/one", new="BROKEN")
        self.assertIn("FAILED   high/one: BAD EDIT", self.tries(EVERY, 3, 1))

    def test_not_tried(self):
        """edits of a crate that is not proved fail, and keep the stamps that they had; one that is gone loses it"""
        self.tries(EVERY, 4, 0)
        self.write("bin/rt", RT.replace("lines = [", "lines = [1] or ["))
        self.assertEqual(self.tries(EVERY, 0, 4, "all").count("NOT TRIED"), 4)
        os.remove(self.place("top/mutants/gate/beside/one.edit"))
        self.edit("low/one", new="WRONG, too")
        self.write("bin/rt", RT)
        self.tries(["low/one"], 3, 0)
        self.assertEqual(sorted(self.lines()), EVERY[1:])
        gone = "./proofs/lib/first/Answers.antt:3:5: error: `returns`: record has no field `x`"
        self.write("bin/rt", RT.replace("note: src/lib.rt:{number}:5: it is not proved", gone))
        self.assertIn("ONLY BY A NAME", self.tries(["low/one"], 0, 1, "all", "low"))

    def test_changed_meanwhile(self):
        """an edit counts only if no file that it rests on changed while it was tried"""
        change = f"open({self.place('top/crates/low/src/lib.rt')!r}, 'a').write('// more')"
        self.write("bin/rt", RT.replace('if sys.argv[1] == "check":\n', f'if sys.argv[1] == "check":\n    {change}\n'))
        self.assertEqual(self.tries(EVERY, 1, 3, "check", "-j", "1").count("changed meanwhile"), 3)
        self.assertEqual(sorted(self.lines()), ["beside/one"])

    def test_ended(self):
        """a call that is ended leaves no process, and the stamps as they were"""
        waits = "    print(os.getpid(), file=open(here + '/pid', 'w'))\n    import time; time.sleep(600)\n"
        self.write("bin/rt", RT.replace("    crate, text", waits + "    crate, text"))
        command, environment = self.command("all", "-j", "1")
        with subprocess.Popen(command, stdout=subprocess.DEVNULL, env=environment) as call:
            pid, = self.numbers_in(self.place("bin/pid"))
            call.terminate()
            self.assertEqual(call.wait(60), 143)
        self.eventually("the end of the process of the try", lambda: not helper.is_alive(pid))
        self.assertFalse(os.path.exists(self.place("top/mutants/tried")), "no stamp was written")

    def test_tests(self):
        """an edit that a test refuses is tried with the program compiled without it and with it, by the check that it names"""
        self.write("top/crates.txt", "low:\nhigh: low\nbeside:\nocfexec: high\n")
        self.write("top/package/program.sh", '#!/bin/sh\nmkdir -p "$1"\ngrep -c "n + 1" crates/low/src/lib.rt > "$1/ocfexec" || true\n')
        self.write("top/tests/cli/adds.py", ADDS)
        for name in ("helper.py", "schema.py", "one_by_one.py"):
            self.write(f"top/tests/lib/{name}", Path(helper.TOP, "tests/lib", name).read_text(encoding="utf-8"))
        edit = "file: crates/low/src/lib.rt\nold: n + 1\nnew: n + {}\nrefused by: tests/cli/adds.py, it adds\n"
        for text, counts, what in ((edit.format(2), (1, 0), "refused"), (edit.format(1), (0, 1), "NOT REFUSED"),
                                   (edit.format(2).replace("it adds", "it adds up"), (0, 1), "does not pass without it")):
            self.write("top/mutants/tests/adds_two.edit", text)
            self.assertIn(what, self.tries(["tests/adds_two"], *counts, "check", "tests"))

    def test_gate(self):
        """the last line of the gate counts proofs, wrong bodies and checks; a wrong body that is not refused fails it"""
        self.write("top/tests/check.sh", "#!/bin/sh\necho '7 passed, 0 failed'\n")
        self.write("bin/rt", RT + "if sys.argv[1] == 'ci':\n    print('== low\\nrt: low proved\\n5 passed, 0 failed')\n")
        for new, count, status in (("WRONG", "16 passed, 0 failed", 0), ("n + 2", "15 passed, 1 failed", 1)):
            self.edit("low/one", new=new)
            text, ended, _ = self.called(script="tools/gate.sh")
            self.assertEqual((text.splitlines()[-1], ended), (count, status), text)
